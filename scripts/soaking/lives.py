"""The lives of scripts/soak: programs on the files of nodes, each ended in a drawn way, beside the model of what they leave."""
import glob
import os

from lib.joins import Transfer
from lib.node_model import CLUSTER, Node, SizeChange, does, key_text
from lib.proved import Wrong
from lib.stopping import KILLED, STOPPED, WHOLE, DiskFile, Stop
from lib.trial import answers, kind_of
from soaking.checks import differs, has_ended, holds, is_front, is_met, part_of
from soaking.draws import Cast, Draws
from soaking.served import serves

LOSSES = ("keep", "drop", "junk", "some")


# ---- the node beside its model


def stopped(node, gates):
    """The node as the stop leaves it that left these gates: an open gate that was pending was kept where it stands open."""
    node, (cells, are_both) = node.copied(), gates
    is_kept = cells[node.log.cell()] == (node.log.stage == "gate")
    node.durable += node.log.stop("keep" if is_kept else "drop")
    node.delivered = node.durable
    is_kept = are_both == (node.phase() == "opening")
    node.rose(node.checkpoint.stop("keep" if is_kept else "drop"))
    return node


def stopped_with(node, loss):
    """The node as a stop with this one loss leaves it."""
    node = node.copied()
    node.stop(loss)
    return node


def has_gates(node, gates):
    return (node.log.open, node.phase() == "retiring") == gates


class Script:
    """Events for a node, each with what it has to be answered by."""

    def __init__(self, node):
        self.start, self.node, self.events, self.answers = node.copied(), node.copied(), [], []

    def do(self, event):
        self.answers.append(answer(self.node, event))
        self.events.append(event)

    def text(self, first=0, last=None):
        return "".join((event if isinstance(event, str) else event[1].delivery(event[0])) + "\n" for event in self.events[first:last])

    def lines(self, first=0, last=None):
        return [line for lines in self.answers[first:last] for line in lines]

    def states(self, first, last):
        """The node behind the first so many events, and behind each more up to the last."""
        node, found = self.start.copied(), []
        for count in range(last + 1):
            if count >= first:
                found.append(node.copied())
            if count < last:
                answer(node, self.events[count])
        return found

    def at(self, count):
        return self.states(count, count)[0]

    def calls(self):
        """For each call by which the file is changed or synced: the number of its event, None for the opening, and of which kind it is."""
        kinds = {"wrote": "write", "synced": "sync"}
        made = [(at, kinds[lines[0].split()[0]]) for at, lines in enumerate(self.answers) if lines[0].split()[0] in kinds]
        return [(None, "sync")] + made


def answer(node, event):
    return node.answer(event) if isinstance(event, str) else node.deliver(*event)


# ---- how a script ends

# Each of these runs a script on the node's disk, and gives the nodes that it may have ended as: one, but for a kill.


def ends_whole(replica, script):
    ended = replica.run(script.text())
    has_ended(ended, 0)
    holds(differs(ended.lines, script.lines()))
    replica.counts["ends of a script"] += 1
    return [script.node]


def is_killed(replica, script):
    """Killed while it answers some lines behind the first so many."""
    draws, count = replica.draws, len(script.events)
    first = draws.randint(0, count)
    last = min(first + draws.choice((0, 1, 2, 3, 5, 10, 40)), count)
    seconds = draws.choice((0, 0, 0.0001, 0.0003, 0.001, 0.003))
    wanted = script.lines()
    ended = replica.disk.run_killed(replica.words(), script.text(0, first), len(script.lines(0, first)), script.text(first, last), seconds)
    has_ended(ended, KILLED)
    is_front(ended, wanted[: len(script.lines(0, last))])
    replica.hears(ended.lines)
    replica.counts["kills"] += 1
    return script.states(first, last)


def drawn_call(replica, script, is_failing):
    """A call of the script and how much of it is done: the stop, the number of its event, and its kind."""
    draws, calls = replica.draws, script.calls()
    number = draws.randrange(min(4, len(calls)) if draws.chance(15) else len(calls))
    event, kind = calls[number]
    return Stop(number + 1, part_of(draws, kind, is_failing), is_failing), event, kind


def is_stopped(replica, script):
    """Stopped before, within or behind a call: what was written before the end are answers of the events before."""
    stop, event, kind = drawn_call(replica, script, False)
    ended = replica.run(script.text(), stop)
    has_ended(ended, STOPPED)
    is_met(ended, stop, kind)
    is_front(ended, script.lines(0, event or 0))
    where = "before" if stop.part == 0 else "behind" if stop.part == WHOLE else "within"
    replica.counts["stops %s a %s%s" % (where, kind, " of an opening" * (event is None))] += 1
    return [script.at((event or 0) + (event is not None and stop.is_done(kind)))]


def meets_fault(replica, script):
    """A call fails, with a part of a write's bytes written: it is refused, and so is all behind it but the state and the window's size. A
    write that failed is as one that is not synced."""
    stop, event, kind = drawn_call(replica, script, True)
    ended = replica.run(script.text(), stop)
    is_met(ended, stop, kind)
    replica.counts["faults at a " + kind] += 1
    if event is None:
        has_ended(ended, 1)
        holds(differs(ended.lines, ["fault 2 disk-fault"]))
        return [script.start]
    has_ended(ended, 0)
    node = script.at(event)
    told = {"state": node.state()[0], "limits": node.limits()[0]}
    behind = [told.get(line, "refused 3 stopped") for line in script.events[event + 1 :]]
    holds(differs(ended.lines, script.lines(0, event) + ["refused 2 disk-fault"] + behind))
    return [node] if kind == "sync" else [node, script.at(event + 1)]


ENDS = ((ends_whole, 12), (is_killed, 33), (is_stopped, 40), (meets_fault, 15))


# ---- nodes on files


class Replica:
    """A node on a file beside its model, as it stands between two programs: closed, and synced."""

    def __init__(self, life, name, node):
        self.draws, self.counts, self.program, self.node = life.draws, life.counts, life.program, node
        # In some lives writes are interrupted, or take a part of their bytes.
        self.disk = DiskFile(life.folder, name, life.library, life.draws.choice((0, 0, 2, 7)))
        # What was told durable.
        self.told = node.durable if node.is_defined else -1

    def cells(self):
        return len(self.node.log.open)

    def words(self, *words):
        return [self.program] + (list(words) or ["run", "--disk", self.disk.path])

    def run(self, text, stop=Stop()):
        ended = self.disk.run(self.words(), text, stop)
        self.hears(ended.lines)
        return ended

    def hears(self, lines):
        """What was replied to, by these lines, is durable."""
        self.told = max([self.told] + [int(line.split()[1]) for line in lines if line.startswith("reply ")])

    def formats(self):
        """A new disk. Seldom one is stopped in the middle of that first, which opens or is refused."""
        options = ["--window", str(self.node.order.window), "--cells", str(self.cells()), "--rows", ",".join(map(str, self.node.order.rows))]
        words = self.words("format", self.disk.path, *options, *["--uuid", CLUSTER] * self.node.is_defined)
        if self.draws.chance(20):
            has_ended(self.disk.run(words, "", Stop(self.draws.randint(1, 20), self.draws.choice((0, 500, WHOLE)))), STOPPED)
            if os.path.exists(self.disk.path):
                self.is_new_or_refused()
            self.counts["stops of a format"] += 1
            self.disk.remove()
            for left in glob.glob(os.path.join(os.path.dirname(self.disk.path), ".%s.new-*" % os.path.basename(self.disk.path))):
                os.remove(left)
        ended = self.disk.run(words, "")
        has_ended(ended, 0)
        holds(differs(ended.lines, ["formatted " + self.node.gtid()]))

    def is_new_or_refused(self):
        """A disk that has its name behind a format that was stopped: what is not synced of it may be lost. It opens, or is refused as none."""
        self.disk.lose(self.draws.choice(LOSSES), self.draws)
        ended = self.disk.run(self.words("state", self.disk.path), "")
        refusals = ["fault 12 not-formatted"] + ["fault 13 corrupt " + part for part in ("superblock", "window", "log", "pages")]
        if ended.status != 0 and not (ended.status == 1 and ended.lines[0] in refusals):
            raise Wrong("a format that was stopped leaves %r, status %r" % (ended.lines, ended.status))

    def opens(self, nodes, most=0):
        """What was not synced may be lost. Then the disk opens as one of these nodes, with at most so many items or what they had."""
        draws, loss = self.draws, self.draws.choice(LOSSES)
        self.disk.lose(loss, draws)
        while loss == "keep" and not self.disk.is_synced() and draws.chance(40):
            # The opening makes stable what it finds; until it has, all of it can be lost.
            has_ended(self.disk.run(self.words(), "state\n", Stop(1)), STOPPED)
            loss = draws.choice(LOSSES)
            self.disk.lose(loss, draws)
            self.counts["stops of an opening before its sync"] += 1
        self.counts["losses: " + loss] += 1
        gates = self.disk.gates(self.cells())
        ended = self.disk.run(self.words(), "state\nlimits\n")
        has_ended(ended, 0)
        self.node = self.opened(nodes, gates, loss, max([most] + [node.delivered for node in nodes]), ended.lines)
        self.told = self.node.durable if self.node.is_defined else -1
        self.counts["openings"] += 1

    def opened(self, nodes, gates, loss, most, lines):
        """Which of these nodes it is, stopped with this loss, that stands open with these gates and tells this state, with the window's
        size and floor."""
        if len(nodes) == 1 and loss != "some":
            found = [stopped_with(nodes[0], loss)]
        else:
            found = [stopped(node, gates) for node in nodes]
        try:
            position = int(lines[0].split()[1].rsplit(":", 1)[1])
        except (IndexError, ValueError):
            raise Wrong("it opens with %r" % lines) from None
        if not self.told <= position <= most:
            raise Wrong("it opens at %d, and told durable were %d, of %d that were delivered" % (position, self.told, most))
        left = [node for node in found if has_gates(node, gates) and node.state() + node.limits() == lines]
        if not left:
            could_be = [(it.state(), it.limits(), it.log.open, it.phase()) for it in found][:4]
            raise Wrong("it opens with %r and the gates %r, wanted was one of %r" % (lines, gates, could_be))
        return left[0]

    def tells_state(self, *words):
        """What `replicad state` prints."""
        ended = self.disk.run(self.words("state", self.disk.path, *words), "")
        has_ended(ended, 0)
        uuid, seqno = self.node.gtid().split(":")
        lines = ["# GALERA saved state", "version: 2.1", "uuid:    " + uuid, "seqno:   " + seqno, "safe_to_bootstrap: 0"]
        holds(differs(ended.lines, lines))


# ---- what lives are made of


def runs_a_script(life):
    """One program runs a drawn script on the disk (`replicad run --disk`), and ends in a drawn way. Then the disk is opened again."""
    replica, draws = life.replica, life.draws
    script = Script(replica.node)
    for key in draws.sample(life.cast.keys, min(len(life.cast.keys), 4)):
        script.do("read %s %d" % (key_text(key), draws.randint(script.node.base(), script.node.durable)))
    script.do("state")
    script.do("limits")
    for _ in range(draws.choice((3, 10, 20, 40, 40, 80, 300))):
        script.do(life.cast.turn(script.node))
    for lines in script.answers:
        life.counts["drawn answers: " + kind_of(lines)] += 1
    end = draws.choices([end for end, _ in ENDS], [share for _, share in ENDS])[0]
    replica.opens(end(replica, script))


def settled_by_calls(node):
    """The node settles: the kind of each call that changes its file or syncs it, before it is made."""
    while not node.is_quiet():
        event = node.next_step()
        if event != "check" or node.phase() != "off":
            yield "sync" if event == "sync" else "write"
        answer(node, event)


def joined_by_calls(node, snapshot, last):
    """The node opens, and takes a transfer whole, as in node_model.py: the kind of each of these calls, before it is made."""
    yield "sync"
    yield from settled_by_calls(node)
    if snapshot:
        position, pages = snapshot
        for _ in pages:
            yield "write"
        node.checkpoint.bring(position, node.log.next, pages)
        for _ in range(4):
            yield "write"
            node.checkpoint.write()
            yield "sync"
            node.rose(node.checkpoint.sync())
    for _ in range(node.delivered, last):
        if node.delivered - node.durable == 256:
            yield from settled_by_calls(node)
        node.delivered += 1
    yield from settled_by_calls(node)


def behind_calls(node, transfer, count):
    """The node behind so many calls of its join."""
    node = node.copied()
    does(joined_by_calls(node, transfer.snapshot, transfer.last), count)
    return node


def is_donated(life, joiner):
    """What the node's donor writes for the joiner, byte by byte, and the path of that. One that is behind the joiner writes nothing."""
    have, out = (os.path.join(life.folder, name) for name in ("have", "transfer"))
    joiner.tells_state("--have", have)
    ended = life.replica.disk.run(life.replica.words("donate", life.replica.disk.path, "--have", have, "--out", out), "")
    transfer = Transfer(life.replica.node, joiner.node)
    if joiner.node.durable > transfer.last:
        has_ended(ended, 1)
        holds(differs(ended.lines, ["fault 21 ahead %d" % transfer.last]))
        life.counts["donors that are behind their joiner"] += 1
        return None, None
    has_ended(ended, 0)
    holds(differs(ended.lines, ["donated %d" % transfer.last]))
    with open(out, "rb") as file:
        if file.read() != transfer.bytes():
            raise Wrong("the transfer has other bytes")
    return transfer, out


def joins_whole(joiner, words, transfer, calls):
    ended = joiner.disk.run(words, "")
    has_ended(ended, 0)
    node = behind_calls(joiner.node, transfer, None)
    holds(differs(ended.lines, ["joined " + node.gtid()]))
    joiner.told = node.durable
    return [node]


def is_killed_joining(joiner, words, transfer, calls):
    """Killed at any moment, perhaps behind its end."""
    ended = joiner.disk.run_killed(words, "", 0, "", joiner.draws.choice((0, 0.001, 0.002, 0.003, 0.005)))
    has_ended(ended, ended.status if ended.status == 0 else KILLED)
    nodes = [behind_calls(joiner.node, transfer, count) for count in range(len(calls) + 1)]
    is_front(ended, ["joined " + nodes[-1].gtid()])
    if ended.lines:
        joiner.told = transfer.last
    return nodes


def is_met_joining(joiner, words, transfer, calls, is_failing):
    """A call of the join is met: the stop that was, and the number of the call."""
    number = joiner.draws.randrange(len(calls))
    stop = Stop(number + 1, part_of(joiner.draws, calls[number], is_failing), is_failing)
    ended = joiner.disk.run(words, "", stop)
    is_met(ended, stop, calls[number])
    has_ended(ended, 1 if is_failing else STOPPED)
    holds(differs(ended.lines, ["fault 2 disk-fault"] * is_failing))
    return stop, number


def is_stopped_joining(joiner, words, transfer, calls):
    stop, number = is_met_joining(joiner, words, transfer, calls, False)
    return [behind_calls(joiner.node, transfer, number + stop.is_done(calls[number]))]


def meets_fault_joining(joiner, words, transfer, calls):
    _, number = is_met_joining(joiner, words, transfer, calls, True)
    return [behind_calls(joiner.node, transfer, number + done) for done in range(1 + (calls[number] == "write"))]


JOINS = [("whole", joins_whole), ("killed", is_killed_joining), ("fails", meets_fault_joining)] + [("stopped", is_stopped_joining)] * 2


def joins(life):
    """Another node takes what this one writes for it, and is ended in a drawn way; then its disk is opened again. Seldom it goes on in this one's
    place."""
    life.joiner = life.joiner or life.new_joiner()
    joiner, draws = life.joiner, life.draws
    transfer, path = is_donated(life, joiner)
    if not transfer:
        return
    words = joiner.words("join", joiner.disk.path, "--from", path)
    how, end = draws.choice(JOINS)
    nodes = end(joiner, words, transfer, list(joined_by_calls(joiner.node.copied(), transfer.snapshot, transfer.last)))
    life.counts["joins: %s%s" % (how, ", with a snapshot" * bool(transfer.snapshot))] += 1
    joiner.opens(nodes, transfer.last)
    if joiner.node.is_defined and draws.chance(25):
        life.replica, life.joiner = joiner, life.replica
        life.counts["joiners that went on in the place of their donor"] += 1


# Each with how often it comes. It finds the node of `life.replica` closed and synced, and leaves it so: it runs a program on its disk, has
# `hears` what that told durable, and hands `opens` the nodes that the program may have ended as. A further one is named here.
KINDS = ((runs_a_script, 70), (joins, 15), (serves, 15))


# ---- lives


class Life:
    """A drawn life of a node on a file, and of another that joins it."""

    def __init__(self, seed, program, folder, library, counts):
        self.draws, self.program, self.folder, self.library, self.counts = Draws(seed), program, folder, library, counts
        self.replica, self.joiner = Replica(self, "disk", Node(*self.draws.shape())), None
        self.cast = Cast(self.draws, self.replica.node)

    def order(self):
        return self.replica.node.order

    def new_joiner(self):
        """A new node of this order, with a log of its own, of the cluster or of none."""
        order = self.order()
        node = Node(order.window, self.draws.choice((4, 5, 7)), order.rows, order=order, is_defined=self.draws.chance(50))
        joiner = Replica(self, "joiner", node)
        joiner.formats()
        return joiner

    def lives(self):
        self.replica.formats()
        for _ in range(60):
            base = self.replica.node.base()
            self.draws.choices([kind for kind, _ in KINDS], [share for _, share in KINDS])[0](self)
            self.counts["programs behind which the base had risen"] += self.replica.node.base() > base
            if self.draws.chance(20):
                self.replica.tells_state()
            if len(self.order().items) >= self.cast.most:
                break
        self.comes_to_its_end()

    def comes_to_its_end(self):
        """The rest of the order is delivered and all that is due is done: rows, window and state are those of the whole order, whose
        verdicts are those of the program that judges it."""
        replica, order = self.replica, self.order()
        script = Script(replica.node)
        for seqno in range(replica.node.delivered + 1, len(order.items) + 1):
            script.do((seqno, order.items[seqno - 1]))
        while script.node.due():
            script.do(script.node.due())
        for s in {script.node.base(), script.node.durable}:
            for key in self.cast.keys:
                script.do("read %s %d" % (key_text(key), s))
        script.do("state")
        script.do("limits")
        replica.opens(ends_whole(replica, script))
        assert replica.node.durable == replica.node.base() == len(order.items)
        replica.tells_state()
        lines, wanted = order.text(replica.cells())
        found, why = answers(replica.words("judge"), "\n".join(lines) + "\n")
        holds(why or differs(found, wanted))
        self.counts["items"] += len(order.items)
        self.counts["items that change the window's size"] += sum(isinstance(item, SizeChange) for item in order.items)
        self.counts["laps of a log"] += replica.node.log.laps()
