"""Joins of nodes to a donor, as trials play them: the donor, its transfers and the joiners."""
from functools import lru_cache

from lib.disks import fingerprint_of
from lib.faults import FAULT, STOPPED, calls_of_an_opening
from lib.formats import ONE, TWO, Header, end_bytes
from lib.installs import AT, ITEMS, PARAMS, Scene, behind_a_block, fresh, of_no_cluster, still_open, with_pages, wrapped
from lib.model_bytes import header_of, item_of, snapshot_of
from lib.node_model import CLUSTER, LOSSES, does

# Rows of each page that items write, the last two of them the long ones.
KEYS = [(0, 1), (0, 62), (0, 69), (1, 0), (2, 0), (0, 10), (2, 17)]
# What is durable at the donor: the items of the snapshots' trials, and eight of which six fill a block. Two more come later.
LAST = 24
LONG_KEYS = [(table, row) for table in (0, 2) for row in range(10, 18)]
LONG = [(seqno - 1, dict.fromkeys(LONG_KEYS, bytes([seqno]) * 62), [], "commit") for seqno in range(17, 25)]
LATE = [(20, {(0, 2): b"\x19"}, [(2, 17)], "conflict 24"), (25, {(0, 2): b"\x1a"}, [], "commit")]
# Where the first part begins.
HEADER = Header.SIZE
NOTHING = fingerprint_of(b"")


def malformed(at):
    return "refused 16 malformed %d" % at


# ---- the bytes of a transfer

shown = lru_cache(None)(fingerprint_of)


class Transfer:
    """What a donor writes for a node: its parts one by one, and of its snapshot, if there is one, the pieces. Of format 1, it is what a
    donor that knows format 1 alone would write."""

    def __init__(self, donor, node, of_format=TWO):
        self.snapshot, first, self.pieces = None, node.durable, []
        if not node.is_defined or node.durable < donor.base():
            self.snapshot, first = (donor.base(), sorted(donor.checkpoint.held)), donor.base()
            self.pieces = snapshot_of(donor.order, *self.snapshot, of_format)
        self.seqnos, self.last = range(first + 1, donor.durable + 1), donor.durable
        self.parts = [header_of(donor.order, of_format)] + [b"".join(self.pieces)] * bool(self.pieces)
        self.parts += [item_of(donor.order, seqno) for seqno in self.seqnos] + [end_bytes(self.last)]
        self.starts = [sum(map(len, self.parts[:at])) for at in range(len(self.parts))]

    def bytes(self):
        return b"".join(self.parts)

    def piece_starts(self):
        """Where each piece of the snapshot begins."""
        return [HEADER + sum(map(len, self.pieces[:at])) for at in range(len(self.pieces))]

    def taken(self, node, count):
        """The calls of a join of which so many parts behind the header are taken: whether the snapshot is, and up to which item."""
        snapshot = self.snapshot if count else None
        records = count - bool(self.snapshot)
        last = self.seqnos[records - 1] if records > 0 else self.snapshot[0] if snapshot else node.delivered
        return node.join(snapshot, last, is_whole=False)


class Meeting(Scene):
    """A donor, and a node that joins it."""

    def __init__(self, title, items=ITEMS + LONG + LATE, keys=KEYS):
        super().__init__(title, items, keys)
        self.donor = None

    def lends(self, last=LAST, base=AT, cells=PARAMS[1]):
        """A donor's disk is lent whose base stands there, with items behind that in steps: the first four in a block of their own."""
        self.new_node(cells=cells)
        self.does_all(base)
        for until in (base + 4, base + 132, last):
            self.logs(min(until, last))
        self.is_lent()

    def is_lent(self):
        """A copy of the node's disk is the donor's."""
        self.donor = self.node()
        self.say("lend", "lent %s base %d" % (self.donor.gtid(), self.donor.base()))

    def donates(self):
        transfer = Transfer(self.donor, self.node())
        self.say("donate", "donated %d" % transfer.last, shown(transfer.bytes()))
        return transfer

    def calls(self):
        """The calls of a whole join."""
        transfer = Transfer(self.donor, self.node())
        return self.node().join(transfer.snapshot, transfer.last)

    def becomes(self, written, data):
        """The transfer that was written has these bytes instead, which are no more. What it then has behind its end is not looked at."""
        for place, (before, byte) in enumerate(zip(written, data)):
            if before != byte:
                self.say("spoil %d %d" % (place, byte), "spoilt %d" % len(written))

    def donates_format_1(self):
        """The same transfer of format 1, which has no reach."""
        written, transfer = self.donates().bytes(), Transfer(self.donor, self.node(), ONE)
        self.becomes(written, transfer.bytes())
        return transfer

    def joins(self):
        """The node takes what the donor writes for it, whole."""
        self.donates()
        self.takes()

    def takes(self):
        """The node takes the transfer, which is whole."""
        does(self.calls())
        self.say("join", "joined " + self.node().gtid())
        assert self.node().durable == self.node().delivered == self.donor.durable
        self.life.agrees(self.keys)

    def is_refused(self):
        """All that is asked of the node is refused, but what shows it."""
        for line in ("log", "sync", "check", "flush 0", "read 0/1 0", self.order.items[0].delivery(1), "settle", "join"):
            self.say(line, STOPPED)

    def shows_stopped(self):
        self.say("node", *self.node().shown(stopped=True))
        self.life.do("state")
        self.life.shows_window()

    def opens_again(self, loss):
        """A stop with this loss, and an opening."""
        self.say("crash " + loss, "crashed")
        self.say("open", *self.node().stop(loss))
        self.life.agrees(self.keys)


# ---- the nodes that join


def behind_by_items(scene):
    """Ten items in one block: what is missing begins in the middle of a block of the donor's."""
    scene.new_node()
    scene.logs(10)


def with_full_log(scene):
    """The base at 8, and each item behind it in a block of its own: the log is full, and went round."""
    scene.new_node()
    scene.does_all(AT)
    for seqno in range(AT + 1, AT + 5):
        scene.logs(seqno)
    assert scene.node().log.is_full()


def with_all(scene):
    """All that the donor has."""
    scene.new_node()
    scene.logs(LAST)


# Each with the number of calls that its join makes. A snapshot of three pages: a write each, and four writes with a sync behind each. A
# block: two of each, and one of each more where an earlier block stands open in its cell. The items from 9 on take two blocks.
JOINERS = {
    fresh: 3 + 8 + 2 * 4,
    of_no_cluster: 3 + 8 + 2 * 4,
    behind_a_block: 3 + 8 + 2 * 4,
    with_pages: 3 + 8 + 2 * 4,
    # The next cell is the third of a lap in which all were written.
    wrapped: 3 + 8 + 2 * 6,
    # The superblock before the base is closed first.
    still_open: 2 + 3 + 8 + 2 * 6,
    behind_by_items: 2 * 4,
    # A checkpoint of two pages, of which one is read before it is written anew.
    with_full_log: 2 + 1 + 8 + 2 * 6,
    with_all: 0,
}
# Where the blocks behind a snapshot, and behind ten and twelve items, end: what else can be durable in the middle of a join.
ENDS = (AT, 22, LAST)


def met_by(title, make):
    """The donor's disk, and behind it this node on its own."""
    scene = Meeting("%s, %s" % (title, make.__name__))
    scene.lends()
    make(scene)
    return scene


def joined(make):
    """The node joins: it stands there, also behind a stop with each loss, has all, and goes on with its order."""

    def trials(_):
        for loss in LOSSES:
            scene = met_by("joined, " + loss, make)
            is_behind = not scene.node().is_defined or scene.node().durable < AT
            scene.joins()
            if is_behind:
                scene.say("node", "node 24 24 8 quiet running")
                scene.say("state", "state %s:24 base 8 window 21 22 23 24" % CLUSTER)
            scene.life.stop(loss, KEYS)
            scene.joins()
            assert scene.life.do((25, scene.order.items[24])) == ["25 conflict 24"]
            scene.goes_on()
            scene.say("donate", "refused 21 ahead 24", NOTHING)
            scene.life.stop(loss, KEYS)
            yield scene.trial

    return trials


# ---- stops and faults at each call


def fails_at(scene, kind, calls, done, ends, loss):
    """A join on a device that fails so behind this number of its calls, and a stop with this loss. Before the gate of the snapshot's
    superblock is written the node is as it was, behind its sync it is at the snapshot, and then behind some of the blocks."""
    before = scene.node().durable
    scene.say("fail %s %d" % (kind, calls + done), "armed")
    scene.say("open", "open " + scene.node().gtid())
    transfer = scene.donates()
    if does(scene.calls(), done):
        # These were all of its calls: the one that fails is that of a sync.
        scene.say("join", "joined %s:%d" % (CLUSTER, transfer.last))
        scene.say("sync", FAULT)
    else:
        scene.say("join", FAULT)
    scene.shows_stopped()
    scene.is_refused()
    scene.shows_stopped()
    scene.say("failures", "failures 1")
    scene.opens_again(loss)
    assert scene.node().durable >= before and scene.node().durable in (before,) + ends
    scene.joins()
    scene.goes_on()
    return scene.trial


def at_each_call(make, count, kind, ends, program, losses=lambda done: LOSSES):
    calls = calls_of_an_opening(program, make("the opening").trial.text())
    assert sum(1 for _ in make("all calls").calls()) == count, make("").trial.title
    for done in range(count + 1):
        for loss in losses(done):
            yield fails_at(make("%s %d, %s" % (kind, done, loss)), kind, calls, done, ends, loss)


def failing(kind, joiners=JOINERS):
    return lambda make: lambda program: at_each_call(lambda title: met_by(title, make), joiners[make], kind, ENDS, program)


# ---- transfers that are cut, or changed

ENDINGS = LOSSES + ("settle", "at once")


def is_cut(scene, transfer, count, refusal, ending):
    """The node takes so many parts, and refuses the next one: what it took stays delivered. Then it is stopped with this loss, or settles
    by itself, or joins at once; and joins whole."""
    does(transfer.taken(scene.node(), count))
    scene.say("join", refusal)
    scene.life.agrees(KEYS)
    if ending in LOSSES:
        scene.life.stop(ending, KEYS)
    elif ending == "settle":
        scene.life.settle(KEYS)
    elif scene.node().delivered > scene.node().durable:
        # What comes begins behind what was durable, and all that was delivered is durable by now.
        again = scene.donates()
        does(again.taken(scene.node(), 0))
        scene.say("join", malformed(HEADER))
        scene.life.agrees(KEYS)
    scene.joins()
    scene.goes_on()
    return scene.trial


# Nine items of one row each. Behind the sixth, a transfer is a header, three records and an end; from which of its lengths on a cut is
# refused where, and up to which item the node then has been handed all.
SHORT = [(seqno - 1, {(0, seqno): b"a"}, [], "commit") for seqno in range(1, 10)]
