"""Lives of one node that are drawn: items of both kinds, events, stops and settlings, each until its base rose several times and the log's
blocks went twice through its cells."""
from lib.formats import need
from lib.node_model import LOSSES, Item, SizeChange
from lib.trial import Life, Trial, kind_of

# The rows that items write and reads are of, in four groups, of which each ends one page or begins one: the first table has two pages,
# and the second one. The last is a row that the second table does not have.
GROUPS = [[(0, 0), (0, 1), (0, 2), (0, 3)], [(0, 61), (0, 62), (0, 63), (0, 64)], [(0, 66), (0, 67), (0, 68), (0, 69)], [(1, 0), (1, 1), (1, 2), (1, 3)]]
ROWS = [key for group in GROUPS for key in group]
OUTSIDE = (1, 4)
# A window of 8 seqnos at first, six cells, and three pages.
PARAMS, SIZE = (8, 6, (70, 4)), need(6, 3)
# What the window's size becomes: mostly less than items lag behind.
SIZES = (1, 2, 3, 3, 4, 5, 6, 8, 8, 10, 12, 256)
# How many turns a node has at most.
TURNS = 6_000
PHASES = {"off", "flushing", "saving", "ready", "filling", "filled", "opening", "retiring", "closing"}
STAGES = {"gathering", "closing", "body", "stable", "gate"}
KINDS = {
    "commit", "conflict", "stale", "future", "badkey", "wrote", "began", "synced none", "synced some", "absent", "value", "out-of-order",
    "log-full", "not-due", "too-old", "not-yet", "bad-key",
}
# Changes of the window's size, and what is stale though the size of its window would reach it: a smaller one had left it out before.
CHANGES = {"to a smaller size", "to a larger size", "to the same size", "left out before"}


class Draws:
    """Draws numbers (a linear congruential generator, with the multiplier of Knuth's MMIX), and what happens: so many of 100 turns are
    deliveries, and the more, the longer the blocks."""

    def __init__(self, seed, deliveries):
        self.state, self.deliveries = seed, deliveries

    def below(self, bound):
        self.state = (self.state * 6364136223846793005 + 1442695040888963407) % 2**64
        return (self.state >> 33) % bound

    def rows(self):
        """Two of the rows."""
        at = self.below(15)
        return ROWS[at : at + 2]

    def row_of(self, bound, group):
        """One of four rows, seldom one outside the schema."""
        drawn = self.below(bound)
        return OUTSIDE if drawn < 4 else GROUPS[group][drawn % 4]

    def value(self):
        """A value of 0 to 62 bytes, or none."""
        drawn = self.below(65_536)
        return bytes([drawn % 256]) * (drawn % 84) if drawn % 84 <= 62 else None

    def writes(self):
        """Up to one row of each group, of which only the last may be outside the schema."""
        found = []
        for group in range(max(self.below(8) - 4, 0), 4):
            key = self.row_of(400, group)
            found.append((key, self.value()))
            if key == OUTSIDE or self.below(4) == 0:
                break
        return found

    def item(self, delivered):
        """The item behind so many, now and then a change of the window's size. A transaction had mostly seen some of them, and reads at
        most one row."""
        if self.below(12) == 0:
            return SizeChange(SIZES[self.below(len(SIZES))], 3, delivered)
        last_seen = max(delivered + 1 - self.below(12), 0)
        reads = [self.row_of(400, 0)] if self.below(3) == 0 else []
        return Item(last_seen, self.writes(), reads, 3, delivered)

    def delivery(self, node):
        """The delivery of the next item of the order, a new one where the order ends; seldom it has an earlier seqno."""
        n, items = node.delivered, node.order.items
        item = items[n] if n < len(items) else self.item(n)
        return (self.below(n + 1) if self.below(50) == 0 else n + 1), item

    def page(self):
        """The number of a page, of which there are three. Seldom none has it, not even where its lowest bits are those of one."""
        drawn = self.below(16)
        return {0: 2**64 - 1, 1: 2**32}.get(drawn, drawn % 4)

    def read(self, node):
        """A read of a row, at any position or near what is durable."""
        ahead = node.durable + 2
        at = self.below(ahead) if self.below(2) == 0 else max(ahead - self.below(30), 0)
        return "read %d/%d %d" % (*self.row_of(100, self.below(4)), at)

    def turn(self, node):
        """What happens next: a delivery, a stop, likely where a checkpoint has more to do than to flush its pages, that the node
        settles, and else, mostly, what is due or any other event."""
        if self.below(100) < self.deliveries:
            return self.delivery(node)
        if self.below(40 if node.phase() in ("off", "flushing") else 8) == 0:
            return "stop " + LOSSES[self.below(3)]
        if self.below(150) == 0:
            return "settle"
        if self.below(2) == 0 and node.due():
            return node.due()
        drawn = self.below(7)
        if drawn >= 5:
            return self.read(node)
        return "flush %d" % self.page() if drawn == 4 else ("log", "log", "sync", "check")[drawn]


class Seen:
    """What there was in lives: kinds of answers, the phases, stages and losses of stops, and changes of the window's size."""

    def __init__(self):
        self.kinds, self.phases, self.stages, self.losses, self.settled, self.changes = set(), set(), set(), set(), False, set()

    def sees_changes(self, order):
        """Which changes the order has, and what they left out."""
        for seqno, (item, verdict, size) in enumerate(zip(order.items, order.verdicts, order.sizes), 1):
            if isinstance(item, SizeChange):
                self.changes.add("to %s size" % ("a smaller" if item.window < size else "a larger" if item.window > size else "the same"))
            elif verdict == "stale" and seqno - item.last_seen <= size + 1:
                self.changes.add("left out before")

    def has_everything(self, is_backlogged):
        assert self.kinds == KINDS | ({"backlogged"} if is_backlogged else set()), self.kinds
        assert (self.phases, self.stages, self.losses, self.settled) == (PHASES, STAGES, set(LOSSES), True)
        assert self.changes == CHANGES, self.changes


def turned(life, draws, seen):
    """What is drawn next happens to the node."""
    node, turn = life.node, draws.turn(life.node)
    if turn == "settle":
        seen.settled = True
        life.settle(draws.rows())
    elif isinstance(turn, str) and turn.startswith("stop "):
        loss = turn.split()[1]
        seen.phases.add(node.phase())
        seen.stages.add(node.log.stage)
        seen.losses.add(loss)
        life.stop(loss, draws.rows())
    else:
        seen.kinds.add(kind_of(life.do(turn)))


def drawn_life(seed, deliveries, rises, seen):
    """A drawn life until its base rose so often and the log's blocks went twice through the cells. Then all that is due is done, and
    the node is stopped once more."""
    trial = Trial("seed %d" % seed)
    life, draws, risen = Life(trial, PARAMS, SIZE), Draws(seed, deliveries), 0
    for _ in range(TURNS):
        base = life.node.base()
        turned(life, draws, seen)
        risen += life.node.base() > base
        if risen >= rises and life.node.log.laps() >= 2:
            life.does_what_is_due(ROWS)
            life.stop("drop", ROWS)
            seen.sees_changes(life.node.order)
            return trial
    raise AssertionError("the base rose too seldom")


def lives(seeds, rises, is_backlogged):
    def trials(_):
        seen = Seen()
        yield from [drawn_life(seed, deliveries, rises, seen) for seed, deliveries in seeds]
        seen.has_everything(is_backlogged)

    return trials


SHORT = [(1, 20), (2, 30), (3, 40), (4, 50), (5, 60)]
LONG = [(6, 70), (7, 80), (8, 84), (9, 88), (10, 91), (11, 94)]
TRIALS = [
    ("lives of short blocks answer as the model", lives(SHORT, 8, False)),
    ("lives of long blocks answer as the model", lives(LONG, 3, True)),
]
