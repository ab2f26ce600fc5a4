"""What a node on a disk has to answer, written again from the tables of its rules alone (docs/definitions.md, docs/architecture.md):
an order is judged by comparing all pairs, and beside it stand the stages of the log's next block and the phases of a checkpoint.
Nothing here knows bytes, pages' contents, an index or a page table. A line of a script goes in, and the lines of its answer come out.
"""
from copy import copy

CLUSTER = "11111111-1111-4111-8111-111111111111"
# What a node of no cluster says of itself.
UNDEFINED = "00000000-0000-0000-0000-000000000000:-1"
ROWS_OF_A_PAGE = 63
LOSSES = ("keep", "drop", "junk")


def refused(text):
    return ["refused " + text]


NOT_DUE = refused("7 not-due")
BAD_KEY = refused("10 bad-key")


def does(calls, count=None):
    """Does the first so many of these calls of a device, each of which is yielded before it is made, and says whether they are all: the
    next one is not served then, and changes nothing."""
    for done, _ in enumerate(calls):
        if done == count:
            return False
    return True


def key_text(key):
    return "%d/%d" % key


class Labelled:
    """What an item of either kind has: the labels of its source and of it there, and its writes."""

    def __init__(self, source, trx, writes):
        self.source, self.trx, self.writes = source, trx, writes

    def labels(self):
        return "id %d:%d" % (self.source, self.trx)

    def delivery(self, seqno):
        return "deliver %d %s" % (seqno, self.tail())

    def keys(self):
        """The keys that it writes."""
        return [key for key, _ in self.writes]


class Item(Labelled):
    """What a transaction read and wrote, and how many items it had seen. A write has a value, or None where it deletes."""

    def __init__(self, last_seen, writes, reads=(), source=7, trx=0):
        super().__init__(source, trx, list(writes))
        self.last_seen, self.reads = last_seen, reads

    def tail(self):
        """The item as the end of a line."""
        words = ["%d %s" % (self.last_seen, self.labels())]
        if self.reads:
            words.append("r " + " ".join(key_text(key) for key in self.reads))
        words.append("w " + " ".join(key_text(key) + ("-" if value is None else "=" + value.hex()) for key, value in self.writes))
        return " ".join(words)

    def line(self):
        """The item as a line of an order text, or of a batch."""
        return "item " + self.tail()

    def size(self):
        """How many bytes its record has."""
        return 45 + 5 * len(self.reads) + sum(7 + len(value or b"") for _, value in self.writes)


class SizeChange(Labelled):
    """An item that changes the window's size, and reads and writes nothing. It always commits."""

    def __init__(self, window, source=7, trx=0):
        super().__init__(source, trx, [])
        self.window = window

    def tail(self):
        return "window %d %s" % (self.window, self.labels())

    def line(self):
        return self.tail()

    def size(self):
        return 47


class Order:
    """An order, each item with its verdict: by the table of verdicts, over all pairs. The window is its first size."""

    def __init__(self, window, rows):
        self.window, self.rows, self.items, self.verdicts = window, rows, [], []
        # The window's size and floor behind each number of items.
        self.sizes, self.floors = [window], [1]

    def has(self, key):
        return key[0] < len(self.rows) and key[1] < self.rows[key[0]]

    def committed(self, first, last):
        """The seqnos from the first to the last whose items committed."""
        return [m for m in range(max(first, 1), last + 1) if self.verdicts[m - 1] == "commit"]

    def reach_at(self, position):
        """The window's size and floor behind the first so many items."""
        return self.sizes[position], self.floors[position]

    def verdict(self, item):
        """The verdict of the item behind all others."""
        if isinstance(item, SizeChange):
            return "commit"
        n, seen, keys = len(self.items) + 1, item.last_seen, set(item.reads) | set(item.keys())
        if seen >= n:
            return "future"
        if not all(self.has(key) for key in keys):
            return "badkey"
        if seen + 1 < self.floors[n - 1]:
            return "stale"
        meets = [m for m in self.committed(seen + 1, n - 1) if keys & set(self.items[m - 1].keys())]
        return "conflict %d" % meets[-1] if meets else "commit"

    def add(self, item):
        self.verdicts.append(self.verdict(item))
        self.items.append(item)
        # The size is that of the last change. A larger one lets no seqno come back: the floor never falls.
        self.sizes.append(item.window if isinstance(item, SizeChange) else self.sizes[-1])
        self.floors.append(max(self.floors[-1], len(self.items) + 1 - self.sizes[-1]))

    def forget(self, last):
        """The order ends there."""
        del self.items[last:], self.verdicts[last:], self.sizes[last + 1 :], self.floors[last + 1 :]

    def row(self, key, s):
        """The row after the first `s` items: its bytes, or None."""
        for m in reversed(self.committed(1, min(s, len(self.items)))):
            for written, value in self.items[m - 1].writes:
                if written == key:
                    return value
        return None

    def window_at(self, position):
        """The seqnos of the window at the position."""
        return [m for m in self.committed(self.floors[position], position) if not isinstance(self.items[m - 1], SizeChange)]

    def text(self, cells):
        """The order as a text for `replicad judge`, and the verdict lines of it."""
        lines = ["params %d %d %s" % (self.window, cells, " ".join(map(str, self.rows)))]
        lines += [item.line() for item in self.items]
        return lines, ["%d %s" % told for told in enumerate(self.verdicts, 1)]


class Log:
    """Blocks go into the cells in turn, lap by lap. The stages of the next block: gathering, closing (the closed gate was written
    over an earlier lap's block), body (written), stable (the body is), gate (the open gate was written)."""

    def __init__(self, cells):
        self.open, self.start, self.next, self.stage, self.gathered = [False] * cells, 0, 0, "gathering", 0

    def cell(self):
        return self.next % len(self.open)

    def laps(self):
        return self.next // len(self.open)

    def is_full(self):
        """Whether the next block's cell has a block that is still needed."""
        return self.next - self.start >= len(self.open)

    def awaits_sync(self):
        return self.stage in ("closing", "body", "gate")

    def write(self, front):
        """Writes what comes next. A body that is written has so many items."""
        if self.stage == "stable":
            self.stage = "gate"
        elif self.open[self.cell()]:
            self.stage = "closing"
        else:
            self.stage, self.gathered = "body", front

    def set_open(self, is_open):
        self.open[self.cell()], self.stage = is_open, "gathering"

    def take_block(self):
        self.set_open(True)
        self.next += 1
        return self.gathered

    def sync(self):
        """What was written is stable. Gives the number of the items that are durable by it."""
        if self.stage == "gate":
            return self.take_block()
        if self.stage == "closing":
            self.set_open(False)
        elif self.stage == "body":
            self.stage = "stable"
        return 0

    def stop(self, loss):
        """What a stop leaves: an open gate that is pending stands where the loss keeps it, and a closed one where it does not drop
        it, since a gate of junk is closed. Gives the number of the items that are durable by it."""
        if self.stage == "gate" and loss == "keep":
            return self.take_block()
        if self.stage == "closing" and loss != "drop":
            self.set_open(False)
        self.stage = "gathering"
        return 0


class Checkpoint:
    """A base, and the next one on its way: off, flushing, saving (the window was written), ready, filling (the superblock's body was
    written), filled, opening (its open gate was written), retiring (it is the base, the superblock before it stands open), closing
    (the closed gate of that was written)."""

    WRITES = {"flushing": "saving", "ready": "filling", "filled": "opening", "retiring": "closing"}
    SYNCED = {"saving": "ready", "filling": "filled", "closing": "off"}

    def __init__(self):
        self.base, self.phase, self.position, self.start, self.left = 0, "off", 0, 0, set()
        # How often the base rose.
        self.risen = 0
        # The pages that are in a slot, of the base and of the next one; and whether that is another node's.
        self.held, self.next, self.is_snapshot = set(), set(), False

    def begin(self, position, start, pages):
        self.position, self.start, self.phase, self.left = position, start, "flushing", set(pages)
        self.next = self.held | self.left

    def bring(self, position, start, pages):
        """Begins to install the base of another node, of which these pages were put."""
        self.begin(position, start, ())
        self.next, self.is_snapshot = set(pages), True

    def flush(self, page):
        """Flushes the page, and says whether it was left."""
        if self.phase != "flushing" or page not in self.left:
            return False
        self.left.remove(page)
        return True

    def awaits_sync(self):
        """A page alone awaits no sync."""
        return self.phase in ("saving", "filling", "opening", "closing")

    def write(self):
        """Writes what comes next behind the pages, and says whether there is anything."""
        if self.phase not in self.WRITES or (self.phase == "flushing" and self.left):
            return False
        self.phase = self.WRITES[self.phase]
        return True

    def rise(self):
        """The next base is the base. Gives the number of the log's block behind it."""
        self.base, self.phase, self.held, self.is_snapshot = self.position, "retiring", self.next, False
        self.risen += 1
        return self.start

    def sync(self):
        """What was written is stable. Where the base rose, gives the number of the log's block behind it."""
        if self.phase == "opening":
            return self.rise()
        self.phase = self.SYNCED.get(self.phase, self.phase)
        return None

    def stop(self, loss):
        """What a stop leaves: the next base is the base where the loss keeps its superblock's gate, and else it is lost; and the
        superblock before it still stands open unless its closed gate is pending and not dropped, since a gate of junk is closed.
        Where the base rose, gives the number of the log's block behind it."""
        self.left, self.is_snapshot = set(), False
        if self.phase == "opening" and loss == "keep":
            return self.rise()
        is_retiring = self.phase == "retiring" or (self.phase == "closing" and loss == "drop")
        self.phase = "retiring" if is_retiring else "off"
        return None


class Node:
    """A node in its order, of which it was handed some items and has made some durable. The order can be that of other nodes too; one of
    no cluster takes none of its items."""

    def __init__(self, window, cells, rows, order=None, is_defined=True):
        self.order, self.log, self.checkpoint = order or Order(window, rows), Log(cells), Checkpoint()
        self.delivered = self.durable = 0
        self.is_defined = is_defined

    def copied(self):
        """The node as it stands, in the same order."""
        other = copy(self)
        other.log, other.checkpoint = copy(self.log), copy(self.checkpoint)
        other.log.open, other.checkpoint.left = list(self.log.open), set(self.checkpoint.left)
        return other

    def base(self):
        return self.checkpoint.base

    def phase(self):
        return self.checkpoint.phase

    def gtid(self):
        return "%s:%d" % (CLUSTER, self.durable) if self.is_defined else UNDEFINED

    def page_of(self, key):
        before = sum(-(-rows // ROWS_OF_A_PAGE) for rows in self.order.rows[: key[0]])
        return before + key[1] // ROWS_OF_A_PAGE

    def waiting(self):
        """The seqnos behind what is durable."""
        return range(self.durable + 1, self.delivered + 1)

    def deliver(self, seqno, item):
        """Where the order ends it grows by the item."""
        if not self.is_defined:
            return refused("11 undefined")
        if seqno != self.delivered + 1:
            return refused("4 out-of-order %d" % (self.delivered + 1))
        if self.delivered - self.durable == 256:
            return refused("5 backlogged")
        if self.delivered == len(self.order.items):
            self.order.add(item)
        self.delivered += 1
        return ["%d %s" % (seqno, self.order.verdicts[seqno - 1])]

    def front(self):
        """How many of the items that wait fit a block: 64 at most, of 7,662 bytes."""
        count = size = 0
        for seqno in self.waiting():
            size += self.order.items[seqno - 1].size()
            if count == 64 or size > 7_662:
                break
            count += 1
        return count

    def write_log(self):
        if self.log.awaits_sync() or self.delivered == self.durable:
            return NOT_DUE
        if self.log.is_full():
            return refused("6 log-full")
        self.log.write(self.front())
        return ["wrote"]

    def begin(self):
        """Begins a checkpoint to what is durable: the pages are left in which a committed item behind the base wrote."""
        changed = [key for m in self.order.committed(self.base() + 1, self.durable) for key in self.order.items[m - 1].keys()]
        self.checkpoint.begin(self.durable, self.log.next, {self.page_of(key) for key in changed})
        return ["began %d" % self.durable]

    def check(self):
        if self.phase() == "off":
            return NOT_DUE if self.durable == self.base() else self.begin()
        return ["wrote"] if self.checkpoint.write() else NOT_DUE

    def rose(self, start):
        """The log begins at this block, where the base rose. A snapshot's position is above what was durable."""
        if start is not None:
            self.log.start, self.is_defined = start, True
            self.durable, self.delivered = max(self.durable, self.base()), max(self.delivered, self.base())

    def takes(self, position):
        """Whether the snapshot of its cluster at this position can be installed."""
        return self.is_quiet() and (not self.is_defined or position > self.durable)

    def install(self, position, pages):
        """The snapshot of its cluster at this position, of which these pages came, takes the base's place, call by call: four writes, of
        the window, the superblock, its open gate and the closed gate of the one before, each with a sync behind it. They are those of
        a checkpoint behind its pages."""
        assert self.takes(position)
        self.checkpoint.bring(position, self.log.next, pages)
        for _ in range(4):
            yield
            self.checkpoint.write()
            yield
            self.rose(self.checkpoint.sync())

    def join(self, snapshot, last, is_whole=True):
        """Takes a transfer, call by call: with a snapshot at a position, of these pages, or with none, and the items behind it up to the
        last. It settles first, behind 256 items, and last, where the transfer is whole."""
        yield from self.settle()
        if snapshot:
            position, pages = snapshot
            for _ in pages:
                yield
            yield from self.install(position, pages)
        for _ in range(self.delivered, last):
            if self.delivered - self.durable == 256:
                yield from self.settle()
            self.delivered += 1
        if is_whole:
            yield from self.settle()

    def sync(self):
        count = self.log.sync()
        replies = []
        for seqno in list(self.waiting())[:count]:
            item = self.order.items[seqno - 1]
            replies.append("reply %d %s %d:%d" % (seqno, self.order.verdicts[seqno - 1], item.source, item.trx))
        self.durable += count
        self.rose(self.checkpoint.sync())
        return ["synced %d" % count] + replies

    def read(self, key, s):
        if not self.order.has(key):
            return BAD_KEY
        if s > self.durable:
            return refused("9 not-yet %d" % self.durable)
        if s < self.base():
            return refused("8 too-old %d" % self.base())
        value = self.order.row(key, s)
        return ["absent" if value is None else ("value " + value.hex()).rstrip()]

    def answer(self, line):
        """What the line of a script is answered by; a delivery is an item of its own, `deliver`."""
        words = line.split()
        if words[0] == "read":
            table, row = words[1].split("/")
            return self.read((int(table), int(row)), int(words[2]))
        if words[0] == "flush":
            return ["wrote"] if self.checkpoint.flush(int(words[1])) else NOT_DUE
        return {"log": self.write_log, "sync": self.sync, "check": self.check, "state": self.state, "limits": self.limits}[line]()

    def state(self):
        words = ["state %s base %d window" % (self.gtid(), self.base())]
        return [" ".join(words + [str(m) for m in self.order.window_at(self.durable)])]

    def limits(self):
        """The window's size and floor."""
        return ["size %d floor %d" % self.order.reach_at(self.durable)]

    def window(self):
        """The lines of the window with its keys."""
        lines, entries = [], self.order.window_at(self.durable)
        for m in entries:
            keys = self.order.items[m - 1].keys()
            lines += ["entry %d %d" % (m, len(keys))] + ["key " + key_text(key) for key in keys]
        return ["window %d" % len(entries)] + lines

    def shown(self, stopped=False):
        """What the node says of itself."""
        quiet = "quiet" if self.is_quiet() else "busy"
        running = "stopped" if stopped else "running"
        return ["node %d %d %d %s %s" % (self.delivered, self.durable, self.base(), quiet, running)]

    def stop(self, loss):
        """The node is stopped with this loss and opened again: what was only delivered is lost."""
        self.durable += self.log.stop(loss)
        self.delivered = self.durable
        self.rose(self.checkpoint.stop(loss))
        return ["open " + self.gtid()]

    def due(self):
        """What is to be done next, up to where all that was delivered is durable and the base stands there. A checkpoint begins where
        nothing waits, or the log is full."""
        if self.log.awaits_sync() or self.checkpoint.awaits_sync():
            return "sync"
        if self.phase() == "flushing" and self.checkpoint.left:
            return "flush %d" % min(self.checkpoint.left)
        if self.phase() != "off":
            return "check"
        if self.delivered > self.durable and not self.log.is_full():
            return "log"
        return "check" if self.durable > self.base() else None

    def is_quiet(self):
        """Whether nothing is left to do for a node that settles. A snapshot that comes is none of its doing."""
        return self.delivered == self.durable and (self.phase() == "off" or self.checkpoint.is_snapshot)

    def next_step(self):
        """What a node does next that settles: it ends the checkpoint that is under way, makes durable what was delivered, and takes a
        checkpoint where the log is full."""
        if self.phase() == "off":
            return "sync" if self.log.awaits_sync() else "check" if self.log.is_full() else "log"
        if self.checkpoint.awaits_sync():
            return "sync"
        return "flush %d" % min(self.checkpoint.left) if self.checkpoint.left else "check"

    def calls_of(self, event):
        """How many calls the event makes of the device, where no page is kept: to begin a checkpoint makes none, and a page that is in a
        slot is read before it is written."""
        if event.startswith("flush"):
            return 1 + (int(event.split()[1]) in self.checkpoint.held)
        return 0 if event == "check" and self.phase() == "off" else 1

    def settle(self):
        """Does all that a node does by itself that settles, call by call."""
        while not self.is_quiet():
            event = self.next_step()
            for _ in range(self.calls_of(event)):
                yield
            self.answer(event)
