"""Texts for the proved program `run_harness`, line by line with what each has to be answered by, and how they are tried."""
import subprocess

from lib.formats import A, ONE, TWO, Superblock, Window, digit, need
from lib.model_bytes import sum_of
from lib.node_model import CLUSTER, Item, Node, SizeChange, does

# A window of 4, four cells and one table of 126 rows, and the size of its disk.
SMALL = (4, 4, (126,))
SMALL_SIZE = need(4, 2)
# The rows that the scripts write, and one that none does.
KEYS = [(0, 0), (0, 1), (0, 2), (0, 5), (0, 70), (0, 71)]


def params_line(params):
    window, cells, rows = params
    return "params %d %d %s" % (window, cells, " ".join(map(str, rows)))


class Trial:
    """Lines, each with what it has to be answered by."""

    def __init__(self, title):
        self.title, self.lines, self.orders = title, [], []

    def say(self, line, *wanted):
        self.lines.append((line, list(wanted)))

    def new_disk(self, params=SMALL, size=SMALL_SIZE, of_format=TWO):
        """A new disk, formatted for these parameters; or what a program that knows format 1 alone would have made."""
        self.say("disk %d 0" % size, "blank")
        self.say(params_line(params), "formatted %s:0" % CLUSTER)
        if of_format == ONE:
            self.is_of_format_1(A)

    def is_of_format_1(self, *sides):
        """The superblock and the window of each of these sides are of format 1: its digit stands behind their marks, and zeros where format 2
        has the reach, which has to be that of the first size."""
        for side in sides:
            for at, data in (
                (side.body + Superblock.FORMAT.at, digit(ONE)), (side.window + Window.FORMAT.at, digit(ONE)),
                (side.window + Window.SIZE.at, bytes(Window.FLOOR.end - Window.SIZE.at)),
            ):
                self.say("put %d %s" % (at, data.hex()), "put")

    def text(self):
        return "".join(line + "\n" for line, _ in self.lines)

    def wrong(self, found):
        """What is wrong with these lines of answers: the first line that is answered otherwise."""
        at = 0
        for number, (line, wanted) in enumerate(self.lines, 1):
            have = found[at : at + len(wanted)]
            if have != wanted:
                return "line %d, %s: wanted %r, found %r" % (number, line, wanted, have)
            at += len(wanted)
        return "more than was asked for: %r" % found[at : at + 3] if at < len(found) else None


def answers(words, text):
    """The lines that the program of this command line answers the text by, and what is wrong with how it ended."""
    done = subprocess.run(words, input=text.encode(), capture_output=True, env={}, timeout=600)
    ended = None if done.returncode == 0 and not done.stderr else "it ends with %d, and says %r" % (done.returncode, done.stderr)
    return done.stdout.decode().splitlines(), ended


def wrong_with(words, trial):
    """What is wrong with the program's answers to the trial."""
    found, ended = answers(words, trial.text())
    return trial.wrong(found) or ended


class Life:
    """A node beside its model: what is done to the one is done to the other, whose answers are those that are wanted."""

    def __init__(self, trial, params=SMALL, size=SMALL_SIZE, node=None, of_format=TWO):
        self.trial, self.node = trial, node or Node(*params)
        if trial:
            trial.orders.append((self.node.order, len(self.node.log.open)))
        if node is None:
            trial.new_disk(params, size, of_format)
            trial.say("open", "open " + self.node.gtid())

    def do(self, event):
        """One event: a line, or the seqno and the item of a delivery."""
        line, wanted = self.answer(event)
        self.trial.say(line, *wanted)
        return wanted

    def answer(self, event):
        """The event's line, and what the model answers."""
        if isinstance(event, str):
            return event, self.node.answer(event)
        seqno, item = event
        return item.delivery(seqno), self.node.deliver(seqno, item)

    def stop(self, loss, keys=KEYS):
        """The node is stopped with this loss, and opened again: it stands where the model says."""
        self.trial.say("stop " + loss, *self.node.stop(loss))
        self.agrees(keys)

    def shows(self):
        """What the node says of itself, its state among it."""
        self.trial.say("node", *self.node.shown())
        self.do("state")

    def shows_window(self):
        """The window's size and floor, and its entries with their keys."""
        self.do("limits")
        self.trial.say("window", *self.node.window())

    def agrees(self, keys=KEYS):
        """What the node says of itself, its window, and these rows and the sum at each position."""
        self.shows()
        self.shows_window()
        for s in range(self.node.durable + 1):
            for key in keys:
                self.do("read %d/%d %d" % (*key, s))
        for s in range(self.node.durable + 2):
            self.trial.say("sum %d" % s, *sum_of(self.node, s))

    def settle(self, keys=KEYS):
        """The node settles by itself."""
        self.shows()
        does(self.node.settle())
        self.trial.say("settle", "settled")
        self.agrees(keys)

    def does_what_is_due(self, keys=KEYS):
        """Does all that is due: everything that was delivered is durable then, and the base stands there."""
        while self.node.due():
            self.do(self.node.due())
        assert self.node.base() == self.node.delivered
        for event in ("log", "check", "flush 0"):
            assert self.do(event) == ["refused 7 not-due"]
        self.agrees(keys)

    def deliver_the_rest(self, order):
        """Delivers the items of the order that the node has not."""
        for seqno in range(self.node.delivered + 1, len(order.items) + 1):
            self.do((seqno, order.items[seqno - 1]))

    def goes_on(self, order, keys=KEYS):
        """Delivers what the node has not, and does all that is due."""
        self.deliver_the_rest(order)
        self.does_what_is_due(keys)


class Script:
    """Events, and what each is answered by where nothing stands in its way, both written by hand: the model has to say the same."""

    def __init__(self, params=SMALL):
        self.params, self.node, self.events, self.answers = params, Node(*params), [], []

    def push(self, event, *wanted):
        _, said = Life(None, node=self.node).answer(event)
        assert said == list(wanted), (event, said, wanted)
        self.events.append(event)
        self.answers.append(list(wanted))

    def order(self):
        """The order that it delivers."""
        return self.node.order

    def deliver(self, seqno, item, verdict):
        self.push((seqno, item), "%d %s" % (seqno, verdict))

    def commit(self, seqno, *rows):
        """The item with this seqno, which had seen the one before it, puts its own byte under these rows, and commits."""
        self.deliver(seqno, putting(seqno, *rows), "commit")

    def make_durable(self, *replies):
        """What was delivered becomes durable in one block: its body is written and made stable, and then its gate."""
        self.push("log", "wrote")
        self.push("sync", "synced 0")
        self.push("log", "wrote")
        self.push("sync", "synced %d" % len(replies), *replies)

    def make_durable_again(self, *replies):
        """The same in a cell that an earlier block stands in: that is closed first."""
        self.push("log", "wrote")
        self.push("sync", "synced 0")
        self.make_durable(*replies)

    def become_base(self):
        """The steps of a checkpoint behind its pages: the window, the superblock, its open gate, and the closed gate of the one
        before it."""
        for _ in range(4):
            self.push("check", "wrote")
            self.push("sync", "synced 0")

    def checkpoint(self, position):
        """A checkpoint to this position, which is what is durable: both pages changed."""
        self.push("check", "began %d" % position)
        self.push("flush 0", "wrote")
        self.push("flush 1", "wrote")
        self.become_base()

    def play(self, trial, count=None, of_format=TWO):
        """A node behind the first so many events, beside its model, on a new disk of this format."""
        life = Life(trial, self.params, of_format=of_format)
        for event, wanted in list(zip(self.events, self.answers))[:count]:
            assert life.do(event) == wanted
        return life

    def modelled(self, count):
        """The model of a node behind the first so many events."""
        life = Life(None, node=Node(*self.params))
        for event in self.events[:count]:
            life.answer(event)
        return life.node

    def batch(self):
        """The lines of the events, which are run together."""
        lines = [event if isinstance(event, str) else event[1].delivery(event[0]) for event in self.events]
        return "\n".join(["batch %d" % len(lines)] + lines)


def put(last_seen, trx, text):
    """An item that puts this text under the row 1."""
    return Item(last_seen, [((0, 1), text)], trx=trx)


def putting(seqno, *rows):
    """The item with this seqno, which had seen the one before it, and puts its own byte under these rows."""
    return Item(seqno - 1, [((0, row), bytes([seqno % 256])) for row in rows], trx=seqno)


def replies_to(first, last):
    """The replies to the items from the first of these seqnos to the last, which all committed and have it as their label."""
    return ["reply %d commit 7:%d" % (seqno, seqno) for seqno in range(first, last + 1)]


def one_item():
    """One item, made durable: five events."""
    script = Script()
    script.deliver(1, put(0, 8, b"a"), "commit")
    script.make_durable("reply 1 commit 7:8")
    return script


def two_items():
    """Two items that write one row, of which the second had not seen the first, made durable in one block: six events."""
    script = Script()
    script.deliver(1, put(0, 8, b"a"), "commit")
    script.deliver(2, put(0, 9, b"b"), "conflict 1")
    script.make_durable("reply 1 commit 7:8", "reply 2 conflict 1 7:9")
    return script


def beside_an_item():
    """A checkpoint to the third item, beside which a fourth is made durable that writes a row of a page before that is flushed."""
    script = Script()
    for seqno, row in ((1, 1), (2, 2), (3, 70)):
        script.commit(seqno, row)
    script.make_durable(*replies_to(1, 3))
    script.push("check", "began 3")
    script.push("flush 1", "wrote")
    script.commit(4, 1)
    script.make_durable(*replies_to(4, 4))
    script.push("flush 0", "wrote")
    script.become_base()
    return script


def conflicting():
    """A fifth item, which conflicts with the first."""
    return Item(0, [((0, 5), b"e")], reads=[(0, 1)], trx=5)


def before_items():
    """A checkpoint to the fourth item, while four more wait."""
    script = Script()
    for seqno, row in ((1, 1), (2, 2), (3, 70), (4, 71)):
        script.commit(seqno, row)
    script.make_durable(*replies_to(1, 4))
    script.deliver(5, conflicting(), "conflict 1")
    for seqno in (6, 7, 8):
        script.commit(seqno, seqno)
    script.checkpoint(4)
    return script


def first_lap():
    """Four items, each with a row in both pages and in a block of its own, go once through the log."""
    script = Script()
    for seqno in range(1, 5):
        script.commit(seqno, 1, 70)
        script.make_durable(*replies_to(seqno, seqno))
    return script


def on_from_the_first_lap(last):
    """A lap with a checkpoint behind it, and blocks of a second up to this item's."""
    script = first_lap()
    script.checkpoint(4)
    for seqno in range(5, last + 1):
        script.commit(seqno, 1, 70)
        script.make_durable_again(*replies_to(seqno, seqno))
    return script


def two_laps():
    """Two laps with a checkpoint behind each, and a block of a third up to its body."""
    script = on_from_the_first_lap(8)
    script.checkpoint(8)
    script.commit(9, 1, 70)
    script.push("log", "wrote")
    script.push("sync", "synced 0")
    script.push("log", "wrote")
    return script


def full_again():
    """A second lap behind which the log is full over a base that is not the first."""
    script = on_from_the_first_lap(8)
    script.commit(9, 1, 70)
    script.push("log", "refused 6 log-full")
    return script


def full_log():
    """A lap behind which the log is full until a checkpoint took its place."""
    script = first_lap()
    script.commit(5, 1, 70)
    script.push("log", "refused 6 log-full")
    script.checkpoint(4)
    script.make_durable_again(*replies_to(5, 5))
    return script


# How many events of the full log go before its checkpoint.
BEFORE = 22


def of_one_page():
    """A second checkpoint, before which one page changed: an item that does not commit changes none."""
    script = Script()
    script.commit(1, 1, 70)
    script.make_durable(*replies_to(1, 1))
    script.checkpoint(1)
    script.push("check", "refused 7 not-due")
    script.commit(2, 1)
    script.deliver(3, Item(1, [((0, 70), b"c")], reads=[(0, 1)], trx=3), "conflict 2")
    script.make_durable("reply 2 commit 7:2", "reply 3 conflict 2 7:3")
    script.push("flush 0", "refused 7 not-due")
    script.push("check", "began 3")
    script.push("flush 1", "refused 7 not-due")
    script.push("check", "refused 7 not-due")
    script.push("flush 0", "wrote")
    script.push("flush 0", "refused 7 not-due")
    script.become_base()
    return script


def second_lap():
    """A second lap whose first block is durable, with an item that waits for the next: its cell stands open."""
    script = on_from_the_first_lap(5)
    script.commit(6, 1, 70)
    return script


def resizing():
    """Seven items, each with its verdict: a change to a smaller window, by which the fourth is stale, and one to a larger window, into which what
    the smaller one has left out does not come back: the sixth is stale too."""
    writing = lambda last_seen, row, trx: Item(last_seen, [((0, row), bytes([row]))], trx=trx)
    return [
        (writing(0, 1, 1), "commit"), (SizeChange(2, trx=2), "commit"), (writing(0, 2, 3), "commit"), (writing(0, 3, 4), "stale"),
        (SizeChange(4, trx=5), "commit"), (writing(1, 4, 6), "stale"), (writing(2, 5, 7), "commit"),
    ]


def resized():
    """These items in six blocks, with a checkpoint to the fifth, beside which the sixth waits. The last two blocks are of the second lap."""
    script, items = Script(), resizing()

    def deliver(*seqnos):
        """They are delivered. Gives the replies to them."""
        for seqno in seqnos:
            script.deliver(seqno, *items[seqno - 1])
        return ["reply %d %s 7:%d" % (seqno, items[seqno - 1][1], seqno) for seqno in seqnos]

    for seqnos in ((1,), (2,), (3, 4), (5,)):
        script.make_durable(*deliver(*seqnos))
    script.push("check", "began 5")
    script.push("flush 0", "wrote")
    replies = deliver(6)
    script.become_base()
    script.make_durable_again(*replies)
    script.make_durable_again(*deliver(7))
    return script


def of_each_kind():
    """One item that puts a row, one that deletes it, and one that puts the longest value, the empty one and a row of the other page;
    all durable, and then a checkpoint to the third."""
    script = Script()
    script.commit(1, 1)
    script.deliver(2, Item(1, [((0, 1), None)], trx=2), "commit")
    third = [((0, 2), b"\xaa" * 62), ((0, 3), b""), ((0, 70), b"c")]
    script.deliver(3, Item(2, third, trx=3), "commit")
    script.make_durable(*replies_to(1, 3))
    script.checkpoint(3)
    return script


def kind_of(wanted):
    """Which kind of answer this is."""
    words = wanted[0].split()
    if words[0] == "refused":
        return words[2]
    if words[0] == "synced":
        return "synced some" if len(wanted) > 1 else "synced none"
    return words[1] if words[0].isdigit() else words[0]
