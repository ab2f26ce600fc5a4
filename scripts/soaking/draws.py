"""What is drawn for the lives of scripts/soak: their parameters, their items, and what happens next."""
import random

from lib.node_model import Item, SizeChange, key_text

# What the window's size becomes: mostly less than items lag behind, and now and then more than before.
SIZES = (1, 1, 2, 2, 3, 4, 5, 8, 16, 64, 255, 256)


class Draws(random.Random):
    """Draws the parameters of a life, and what happens in it."""

    def chance(self, percent):
        return self.randrange(100) < percent

    def shape(self):
        """A window, how many cells the log has, and the rows of one table to three."""
        rows = tuple(self.choice((1, 5, 62, 63, 64, 126, 130)) for _ in range(self.choice((1, 1, 2, 3))))
        return self.choice((1, 2, 3, 4, 4, 5, 8, 16, 256)), self.choice((4, 4, 4, 5, 6, 9)), rows

    def keys(self, rows):
        """Rows at the ends of pages and tables, and some between."""
        at = {0, 1, 30, 61, 62, 63, 64, 100, 124, 125, 126, 129}
        keys = [(table, row) for table, count in enumerate(rows) for row in sorted(at | {count - 1}) if row < count]
        return sorted(self.sample(keys, min(len(keys), 18)))

    def value(self):
        """A value of 0 to 62 bytes, or None for a delete."""
        if self.chance(15):
            return None
        return self.randbytes(self.choice((0, 1, 1, 2, 3, 8, 20, 61, 62)))


class Cast:
    """Who draws a life's items and turns: over these keys, with so many deliveries of a hundred turns, and this many items at most."""

    def __init__(self, draws, node):
        self.draws, self.keys = draws, draws.keys(node.order.rows)
        self.outside = [(len(node.order.rows), 0), (0, node.order.rows[0]), (255, 4_294_967_295)]
        self.deliveries, self.most = draws.choice((15, 25, 35, 50, 70, 90)), draws.choice((30, 60, 100, 160))
        self.due = draws.choice((35, 55, 75))
        # How many of a hundred items change the window's size.
        self.changes = draws.choice((0, 2, 5, 10, 25))
        # Where no checkpoint is begun before one is due, the log is full often.
        self.events = ("log", "log", "sync", "sync", "flush", "read", "state", "limits") + ("check",) * draws.choice((0, 1, 2))

    def some_keys(self, count):
        """Up to so many keys, seldom with one outside the schema, ascending."""
        keys = set(self.draws.sample(self.keys, min(count, len(self.keys))))
        if self.draws.chance(2):
            keys = set(list(keys)[1:]) | {self.draws.choice(self.outside)}
        return sorted(keys)

    def item(self, node):
        """The next item of the order, a change of the window's size or a write set: that had mostly seen what came shortly before it."""
        draws, delivered = self.draws, node.delivered
        if draws.chance(self.changes):
            return SizeChange(draws.choice(SIZES), draws.randrange(1 << 64), delivered + 1)
        behind = draws.choices((0, draws.randrange(3), draws.randrange(node.order.sizes[-1] + 4), -1), (50, 25, 22, 3))[0]
        writes = self.some_keys(16 if draws.chance(4) else draws.choice((1, 1, 2, 2, 3, 4)))
        reads = self.some_keys(16 if draws.chance(3) else draws.choice((0, 0, 0, 1, 2)))
        return Item(max(delivered - behind, 0), [(key, draws.value()) for key in writes], reads, draws.randrange(1 << 64), delivered + 1)

    def delivery(self, node):
        """The delivery of the next item, a new one where the order ends; seldom under another seqno."""
        n, items = node.delivered, node.order.items
        seqno = self.draws.randrange(n + 3) if self.draws.chance(2) else n + 1
        return seqno, items[n] if n < len(items) else self.item(node)

    def read(self, node):
        draws = self.draws
        key = draws.choice(self.outside) if draws.chance(3) else draws.choice(self.keys)
        s = draws.randrange(node.durable + 2) if draws.chance(40) else draws.randint(node.base(), node.durable)
        return "read %s %d" % (key_text(key), s)

    def page(self, node):
        return self.draws.choice(sorted(node.checkpoint.left) + [0, 1, 2, self.draws.choice((3, 63, 4_096, 1 << 32, (1 << 64) - 1))])

    def turn(self, node):
        """What happens next. Where the order is long enough no new item comes."""
        draws = self.draws
        is_left = node.delivered < max(len(node.order.items), self.most)
        if is_left and draws.chance(self.deliveries):
            return self.delivery(node)
        if draws.chance(self.due) and node.due():
            return node.due()
        event = draws.choice(self.events)
        if event == "flush":
            return "flush %d" % self.page(node)
        return self.read(node) if event == "read" else event
