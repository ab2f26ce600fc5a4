"""A node beside the calls that `replicad serve` makes of its device, one by one, as stop_within.c keeps them. Which items a block has, in
which order, is the threads' affair: that is read from the block. All else is the model's: which call may come next, where it writes,
and each of its bytes, which are written again here from the tables of docs/formats.md."""
from collections import deque

from lib.formats import (
    CLOSED_GATE, LOG, OPEN, OPEN_GATE, PAGE, SIDES, SUPERBLOCK_BODY, Record, Superblock, cell_at, cell_body, cell_gate_at, page_at, pages_of,
    records_in, side_of, slots_in,
)
from lib.model_bytes import page_of, record_of, superblock_of, window_of
from lib.proved import Wrong


class Base:
    """The superblock that counts, of those on a disk: its number, and for each page 1 or 2 where it is in its first or second slot."""

    def __init__(self, path, order):
        with open(path, "rb") as file:
            data = file.read(LOG)
        bodies = [data[side.body :][:SUPERBLOCK_BODY] for side in SIDES if data[side.gate] == OPEN]
        body = max(bodies, key=Superblock.NUMBER.number_in)
        self.number = Superblock.NUMBER.number_in(body)
        self.slots = slots_in(body, len(pages_of(order.rows)))


class Keeper:
    """The node as the calls leave it that were made so far, and before the last of them. The items come in parts, as each worker has them."""

    def __init__(self, node, path, parts):
        self.start, self.before, self.node = node.copied(), node.copied(), node.copied()
        self.base = Base(path, node.order)
        # Of the next base: its number, and where its pages are.
        self.number, self.slots = self.base.number, list(self.base.slots)
        self.first = self.base.number
        self.calls, self.blocks = 0, []
        # What each part still has, and the seqno of its last item that stands in a block.
        self.parts, self.last = [deque(part) for part in parts], [0] * len(parts)

    def makes(self, call):
        """One call more is made: the one that is due."""
        self.before, self.calls = self.node.copied(), self.calls + 1
        is_awaited = self.calls == 1 or self.node.log.awaits_sync() or self.node.checkpoint.awaits_sync()
        if (call.kind == "sync") != is_awaited:
            raise Wrong("its call %d is %s, where a sync is %sawaited" % (self.calls, call, "" if is_awaited else "not "))
        if call.kind == "sync":
            self.node.sync()
        elif self.node.phase() == "off" and LOG <= call.place < self.page_at(0):
            self.writes_log(call)
        else:
            self.writes_base(call)

    def is_wanted(self, call, place, data, words):
        """The call writes these bytes there."""
        if (call.place, len(call.data)) != (place, len(data)):
            raise Wrong("its call %d is %s, wanted was %s: %d bytes at %d" % (self.calls, call, words, len(data), place))
        if call.data != data:
            at = next(at for at, (a, b) in enumerate(zip(call.data, data)) if a != b)
            raise Wrong("its call %d writes %s with other bytes, from the offset %d on" % (self.calls, words, at))

    # ---- the log

    def writes_log(self, call):
        """The log's next write. A cell is free, or it was to be freed first."""
        node, cell = self.node, self.node.log.cell()
        if node.log.is_full():
            raise Wrong("its call %d is %s, though the log is full" % (self.calls, call))
        if node.log.stage == "stable":
            self.is_wanted(call, cell_gate_at(cell), OPEN_GATE, "the gate of block %d" % node.log.next)
        elif node.log.open[cell]:
            self.is_wanted(call, cell_gate_at(cell), CLOSED_GATE, "the closed gate of an earlier block")
        else:
            seqnos = self.takes_block(call.data)
            body = cell_body(node.log.next, seqnos[0], [record_of(node.order, seqno) for seqno in seqnos])
            self.is_wanted(call, cell_at(cell), body, "block %d" % node.log.next)
            if node.front() != len(seqnos):
                raise Wrong("its block %d has %d items, of which %d fit" % (node.log.next, len(seqnos), node.front()))
        node.log.write(node.front())

    def takes_block(self, data):
        """The items of a block are delivered in its order. Gives their seqnos."""
        node, first = self.node, self.node.delivered + 1
        for record in records_in(data):
            seqno, source, trx = (field.number_in(record) for field in (Record.SEQNO, Record.SOURCE, Record.TRX))
            item = self.takes_item(source, trx)
            if node.deliver(seqno, item)[0].startswith("refused"):
                raise Wrong("its block %d has an item of the seqno %d behind %d" % (node.log.next, seqno, node.delivered))
            if node.order.items[seqno - 1] is not item:
                raise Wrong("at the seqno %d it has another item than the order" % seqno)
        self.blocks.append(node.delivered + 1 - first)
        if node.delivered < first:
            raise Wrong("its block %d has no item" % node.log.next)
        return list(range(first, node.delivered + 1))

    def takes_item(self, source, trx):
        """The item of these labels, which is the next one of its part: the one before it there has to be durable."""
        for number, part in enumerate(self.parts):
            if part and (part[0].source, part[0].trx) == (source, trx):
                if self.last[number] > self.node.durable:
                    raise Wrong("a worker hands in %d:%d before its item at %d is durable" % (source, trx, self.last[number]))
                self.last[number] = self.node.delivered + 1
                return part.popleft()
        raise Wrong("its block %d has the item %d:%d, which is the next one of no worker" % (self.node.log.next, source, trx))

    # ---- the base

    def page_at(self, page, slot=0):
        """Where this slot of the page begins."""
        return page_at(len(self.node.log.open), page, slot)

    def begins(self, call):
        """A checkpoint begins, which is to be where the log is full alone."""
        if not self.node.log.is_full():
            raise Wrong("its call %d is %s, where the log's next cell is free" % (self.calls, call))
        self.node.begin()
        self.number, self.slots = self.base.number + 1, list(self.base.slots)

    def writes_base(self, call):
        """The next write of a checkpoint: a page that is left, or what comes behind the pages. The sides take turns."""
        if self.node.phase() == "off":
            self.begins(call)
        if self.node.checkpoint.left:
            self.writes_page(call)
        else:
            self.writes_behind_pages(call)

    def writes_behind_pages(self, call):
        node, checkpoint, side, other = self.node, self.node.checkpoint, side_of(self.number), side_of(self.number + 1)
        if checkpoint.phase == "flushing":
            self.is_wanted(call, side.window, window_of(node.order, self.number, checkpoint.position), "window %d" % self.number)
        elif checkpoint.phase == "ready":
            self.is_wanted(call, side.body, superblock_of(node, self.number, self.slots), "superblock %d" % self.number)
        elif checkpoint.phase == "filled":
            self.is_wanted(call, side.gate, OPEN_GATE, "the gate of superblock %d" % self.number)
            self.base.number, self.base.slots = self.number, self.slots
        else:
            self.is_wanted(call, other.gate, CLOSED_GATE, "the closed gate of superblock %d" % (self.number - 1))
        checkpoint.write()

    def writes_page(self, call):
        """A page that is left is written into the slot in which it does not stand."""
        node, (page, slot) = self.node, divmod((call.place - self.page_at(0)) // PAGE, 2)
        if not node.checkpoint.flush(page) or call.place != self.page_at(page, slot):
            raise Wrong("its call %d is %s, wanted was a page of %r" % (self.calls, call, sorted(node.checkpoint.left)))
        if self.base.slots[page] == 1 + slot:
            raise Wrong("its call %d writes page %d over that of the base" % (self.calls, page))
        self.slots[page] = 1 + slot
        self.is_wanted(call, call.place, page_of(node.order, page, node.checkpoint.position), "page %d" % page)

    # ---- what is written of it

    def is_done(self):
        """Whether all items are durable, and nothing is on its way."""
        return not any(self.parts) and self.node.is_quiet()

    def line(self, seqno):
        """The line of a durable item."""
        item = self.node.order.items[seqno - 1]
        return "%d %s %d:%d" % (seqno, self.node.order.verdicts[seqno - 1], item.source, item.trx)

    def lines(self):
        """The lines of a whole batch."""
        return [self.line(seqno) for seqno in range(self.start.durable + 1, self.node.durable + 1)] + self.node.state()

    def answered(self):
        """The seqnos of which a worker had an answer: it handed in another item behind them."""
        return set(range(self.start.durable + 1, self.node.delivered + 1)) - set(self.last)
