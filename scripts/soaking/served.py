"""Batches that `replicad serve` serves by several threads, in the lives of scripts/soak. How the workers' items mix is not drawn, and a
program that is killed writes no line: so the order is learned from the calls that the program made of its device (keeper.py)."""
import re

from lib.formats import CELL
from lib.proved import Wrong
from lib.stopping import KILLED, STOPPED, WHOLE, Stop
from soaking.checks import differs, has_ended, holds, is_front
from soaking.keeper import Keeper


def parts_of(items, workers):
    """The parts of a batch, one for a worker: shared out from the end on, so the one at the front may be shorter."""
    size = -(-len(items) // workers)
    return [items[max(end - size, 0) : end] for end in range(len(items), 0, -size)] if items else []


def seqnos_of(lines):
    """The seqnos of which these lines tell, each of an item."""
    found = [re.match(r"(\d+) [a-z]+ ", line) for line in lines]
    if not all(found):
        raise Wrong("it writes %r, which are not all lines of items" % lines)
    return [int(line[1]) for line in found]


class Batch:
    """Items that are handed in together, the words of the program that serves them, and the keeper beside."""

    def __init__(self, replica, items, workers):
        self.replica, self.items, self.workers = replica, items, workers
        self.words = replica.words("serve", replica.disk.path, "--workers", str(workers))
        self.text = "".join(item.line() + "\n" for item in items)
        self.keeper = Keeper(replica.node, replica.disk.path, parts_of(items, workers))

    def rounds(self):
        """How many blocks there are at least: a worker waits for each of its items."""
        return -(-len(self.items) // self.workers)

    def opening_calls(self):
        """How many calls there are before the batch begins: the opening's sync, and those of a node that settles."""
        return 1 + sum(1 for _ in self.keeper.start.copied().settle())

    def follows(self):
        """The model makes the calls of the program that ran. Gives these calls."""
        calls = self.replica.disk.calls()
        for call in calls:
            self.keeper.makes(call)
        return calls

    def is_whole(self, ended):
        """All items were served."""
        has_ended(ended, 0)
        self.follows()
        if not self.keeper.is_done():
            raise Wrong("it ends, and served %d of %d items" % (self.keeper.node.durable - self.keeper.start.durable, len(self.items)))
        holds(differs(ended.lines, self.keeper.lines()))
        self.tells(ended.lines[:-1])
        return "whole", [self.keeper.node]

    def tells(self, lines):
        """The items of which these lines tell are durable."""
        self.replica.told = max([self.replica.told] + seqnos_of(lines))


# ---- how a batch ends: each of these says how, and gives the nodes that may have been left


def ends_whole(replica, batch):
    return batch.is_whole(replica.disk.run(batch.words, batch.text))


def is_killed(replica, batch):
    """Killed at some moment: its last call may have been made or not. Lines are written once all items are served."""
    ended = replica.disk.run_upto(batch.words, batch.text, replica.draws.randint(0, 1 + batch.rounds() * CELL))
    if ended.status == 0:
        return batch.is_whole(ended)
    has_ended(ended, KILLED)
    calls = batch.follows()
    is_front(ended, batch.keeper.lines() if batch.keeper.is_done() else [])
    batch.tells([line for line in ended.lines if not line.startswith("state ")])
    where = "before its first block" if not batch.keeper.blocks else "behind its last call" if batch.keeper.is_done() else "within"
    return "killed " + where, [batch.keeper.before, batch.keeper.node] if calls else [batch.keeper.node]


def drawn_stop(replica, batch, is_failing):
    """A call of those that there are at least, four for each block behind those of the opening, now and then one of these, mostly where there
    is something to settle; and how much of it is done."""
    draws, first = replica.draws, batch.opening_calls()
    call = draws.randint(1, first if draws.chance(12 if first == 1 else 60) else first + 4 * batch.rounds())
    return Stop(call, draws.choice((0, WHOLE, draws.randint(1, WHOLE - 1))), is_failing)


def meets(batch, ended, stop):
    """The model makes the calls up to the one that was met, behind which there is none. Gives that call."""
    calls = batch.follows()
    wanted = [str(len(calls)), calls[-1].kind] + [str(calls[-1].place), str(len(calls[-1].data))] * (calls[-1].kind == "write")
    if len(calls) != stop.call or ended.met[: len(wanted)] != wanted:
        raise Wrong("its call %d is %r, and it makes %d" % (stop.call, ended.met, len(calls)))
    return calls[-1]


def is_stopped(replica, batch):
    """Stopped before, within or behind a call: no line is written."""
    stop = drawn_stop(replica, batch, False)
    ended = replica.disk.run(batch.words, batch.text, stop)
    if not ended.met:
        return batch.is_whole(ended)
    has_ended(ended, STOPPED)
    is_front(ended, [])
    call = meets(batch, ended, stop)
    where = "before" if not stop.is_done(call.kind) else "behind" if stop.part == WHOLE else "within"
    return "stopped %s a %s" % (where, call.kind), [batch.keeper.node if stop.is_done(call.kind) else batch.keeper.before]


def fails_while_served(batch, ended):
    """Behind lines of durable items it says that the node was stopped. Whoever handed in a further item had an answer before."""
    keeper, lines = batch.keeper, ended.lines[:-1]
    holds(differs(ended.lines[-1:], ["fault 3 stopped"]))
    seqnos, durable = seqnos_of(lines), range(keeper.start.durable + 1, keeper.before.durable + 1)
    if seqnos != sorted(set(seqnos)) or not keeper.answered() <= set(seqnos) <= set(durable):
        raise Wrong("it tells of %r; of %r it had to, durable was %d" % (seqnos, sorted(keeper.answered()), keeper.before.durable))
    holds(differs(lines, [keeper.line(seqno) for seqno in seqnos]))
    batch.tells(lines)


def meets_fault(replica, batch):
    """A call fails. Where it is one of the opening or of settling, that is all; else the node is stopped. A write that failed is as one
    that is not synced; a sync may be made and fail still."""
    stop = drawn_stop(replica, batch, True)
    ended = replica.disk.run(batch.words, batch.text, stop)
    if not ended.met:
        return batch.is_whole(ended)
    has_ended(ended, 1)
    call, is_early = meets(batch, ended, stop), stop.call <= batch.opening_calls()
    if is_early:
        holds(differs(ended.lines, ["fault 2 disk-fault"]))
    else:
        fails_while_served(batch, ended)
    how = "fails at a %s%s" % (call.kind, " of its opening or settling" * is_early)
    if call.kind == "write":
        return how, [batch.keeper.before, batch.keeper.node]
    return how, [batch.keeper.node if stop.is_done("sync") else batch.keeper.before]


ENDS = ((ends_whole, 25), (is_killed, 25), (is_stopped, 30), (meets_fault, 20))


# ---- what is served


def drawn_items(life, count, workers):
    """New items, each of which had mostly seen what comes shortly before it in its worker's part."""
    order, node, items = life.order(), life.replica.node.copied(), {}
    for part in parts_of(range(count), workers):
        for turn, place in enumerate(part):
            node.delivered = len(order.items) + turn * workers
            items[place] = life.cast.item(node)
            items[place].trx = len(order.items) + 1 + place
    return [items[place] for place in range(count)]


def drawn_batch(life):
    """A batch behind what is durable. What the joiner has more than that stands in the order already: one worker hands it in again."""
    replica, order = life.replica, life.order()
    # What is behind is handed in by nobody any more.
    order.forget(max(it.node.durable for it in (replica, life.joiner) if it))
    again = order.items[replica.node.durable :]
    life.counts["batches with items that a joiner has"] += bool(again)
    workers = 1 if again else life.draws.choice((1, 2, 2, 3, 4, 8, 64))
    count = life.draws.choice((0, 1, 2, 3, 5, 8, 13, 20, 30, 60 if workers > 2 else 30))
    return Batch(replica, again + drawn_items(life, count, workers), workers)


def serves(life):
    """A drawn batch is served (`replicad serve`), and ends in a drawn way. Then the disk is opened again."""
    replica, draws = life.replica, life.draws
    batch = drawn_batch(life)
    end = draws.choices([end for end, _ in ENDS], [share for _, share in ENDS])[0]
    how, nodes = end(replica, batch)
    life.counts["batches: " + how] += 1
    life.counts["items that were told of"] += replica.told - batch.keeper.start.durable
    life.counts["batches by %s" % ("one worker" if batch.workers == 1 else "several workers")] += 1
    life.counts["blocks of a batch with one item"] += batch.keeper.blocks.count(1)
    life.counts["blocks of a batch with several items"] += len(batch.keeper.blocks) - batch.keeper.blocks.count(1)
    life.counts["checkpoints of a batch"] += batch.keeper.base.number - batch.keeper.first
    replica.opens(nodes)
