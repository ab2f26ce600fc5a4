"""Changes of the window's size in logs and in transfers (docs/formats.md). A log of items of both kinds over a base of either format is judged
again as the order has it, and what comes behind it too; so is a transfer with such items. A record of a change that is none of the form is
refused, in a log and in a transfer. Such logs are written here byte by byte, so that each base stands behind each number of items;
items.py has them by deliveries."""
from lib.disks import OPEN, comes_back, opens, shows_base, with_puts
from lib.formats import (
    A, B, CELL_BODY, FORMATS, ONE, TWO, VERDICTS, Block, Change, Record, Superblock, Window, block_bytes, cell_at, cell_gate_at, change_bytes,
    fixed_reach, item_bytes, number_bytes, page_at, pages_of, record_bytes, side_of, superblock_bytes, with_length, write_bytes,
)
from lib.installs import PARAMS, SIZE
from lib.joins import ENDINGS, HEADER, Meeting, is_cut, malformed
from lib.model_bytes import UUID, page_of, record_of, window_of
from lib.node_model import CLUSTER, LOSSES, Item, Node, Order, SizeChange, does
from lib.trial import Life, Trial

CORRUPT_LOG = "13 corrupt log"
KEYS = [(0, row) for row in (1, 2, 3, 4, 5, 6, 7, 8, 63, 64)] + [(2, 15), (2, 16)]


def putting(last_seen, row, reads=()):
    """An item that puts its row's number under the row."""
    return Item(last_seen, [((0, row), bytes([row]))], reads)


# Items of both kinds, with their verdicts. A larger window lets none come back that the smaller one let go.
ITEMS = [
    (putting(0, 1), "commit"), (SizeChange(2), "commit"), (putting(0, 2), "commit"), (putting(0, 3), "stale"), (SizeChange(4), "commit"),
    (putting(1, 4), "stale"), (putting(2, 5), "commit"), (SizeChange(1), "commit"), (putting(6, 6), "stale"), (putting(8, 7), "commit"),
    (SizeChange(256), "commit"), (putting(8, 8), "stale"), (putting(9, 63, [(0, 7)]), "conflict 10"), (putting(13, 64), "commit"),
]
# The window's size and floor behind each number of these items, and the seqnos in it, by hand.
REACHES = [
    (4, 1), (4, 1), (2, 1), (2, 2), (2, 3), (4, 3), (4, 3), (4, 4), (1, 8), (1, 9), (1, 10), (256, 10), (256, 10), (256, 10), (256, 10),
]
WINDOWS = [[], [1], [1], [3], [3], [3], [3], [7], [], [], [10], [10], [10], [10], [10, 14]]
ALL = len(ITEMS)


def order_to(last):
    """The order of the first so many of these items."""
    order = Order(PARAMS[0], PARAMS[2])
    for seqno, (item, verdict) in enumerate(ITEMS[:last], 1):
        item.trx = seqno
        order.add(item)
        assert order.verdicts[-1] == verdict, (seqno, order.verdicts[-1])
    for position in range(last + 1):
        assert (order.reach_at(position), order.window_at(position)) == (REACHES[position], WINDOWS[position]), position
    return order


def may_be_of(of_format, order, position):
    """Whether a window at this position of the order can be of this format: one of format 1 has the reach of the first size."""
    return of_format == TWO or order.reach_at(position) == fixed_reach(order.window, position)


# ---- disks that are written


def standing(order, base, last):
    """A node whose base stands there, with the items behind it up to the last in its log: its first block lies in the cell of the base's
    position, for want of a better one."""
    node = Node(*PARAMS, order=order)
    node.delivered, node.durable, node.checkpoint.base, node.checkpoint.risen = last, last, base, 1 if base else 0
    node.checkpoint.held = {node.page_of(key) for m in order.committed(1, base) for key in order.items[m - 1].keys()}
    node.log.start = node.log.next = base
    for _ in blocks_of(node):
        node.log.set_open(True)
        node.log.next += 1
    return node


def blocks_of(node):
    """The seqnos behind the base, in as many blocks as there are cells, or fewer."""
    seqnos = range(node.base() + 1, node.durable + 1)
    size = -(-len(seqnos) // PARAMS[1]) or 1
    return [seqnos[at : at + size] for at in range(0, len(seqnos), size)]


def base_puts(node, of_format):
    """The bytes of the node's base: its superblock, which stands open, its window, and its pages, all in their first slots."""
    number, order, base = node.checkpoint.risen, node.order, node.base()
    slots = [int(page in node.checkpoint.held) for page in range(len(pages_of(order.rows)))]
    side, body = side_of(number), superblock_bytes(number, UUID, PARAMS, base, node.log.start, slots, of_format)
    pages = [(page_at(PARAMS[1], page), page_of(order, page, base)) for page in sorted(node.checkpoint.held)]
    puts = [(side.body, body), (side.window, window_of(order, number, base, of_format)), *pages]
    return [(side.gate, OPEN)] + [(at, data.rstrip(b"\0").hex()) for at, data in puts]


def log_puts(start, blocks):
    """Blocks that stand open from this number on, each the seqno of its first record, and its records."""
    cells = [(number % PARAMS[1], block_bytes(number, first, records)) for number, (first, records) in enumerate(blocks, start)]
    return [put for cell, data in cells for put in ((cell_at(cell), data.hex()), (cell_gate_at(cell), OPEN))]


def written(trial, node, of_format):
    """The node's disk."""
    blocks = [(seqnos[0], [record_of(node.order, seqno) for seqno in seqnos]) for seqnos in blocks_of(node)]
    trial.say("disk %d 0" % SIZE, "blank")
    return with_puts(trial, base_puts(node, of_format) + log_puts(node.log.start, blocks))


def opened(title, base, last, of_format):
    """A node that is opened on its disk, beside its model."""
    trial, order = Trial(title), order_to(last)
    trial.orders.append((order, PARAMS[1]))
    node = standing(order, base, last)
    written(trial, node, of_format)
    trial.say("open", "open " + node.gtid())
    life = Life(trial, node=node)
    life.trial = trial
    return life


def probes(life):
    """Two items more: one that saw an item less than it has to, and is stale, and one that saw just that, and commits."""
    for short in (2, 1):
        seqno, (_, floor) = life.node.delivered + 1, life.node.order.reach_at(life.node.delivered)
        said = life.do((seqno, Item(max(floor - short, 0), [((2, seqno), b"p")], trx=seqno)))
        assert said == ["%d %s" % (seqno, "stale" if short == 2 and floor > 1 else "commit")], said


def each_log(_):
    """From each base, of each format in which it can be, with each number of items behind it: the node stands where the order has it, judges
    as that has it, and its next base, of format 2, says the reach."""
    for base in range(ALL + 1):
        for last in range(base, ALL + 1):
            for of_format in FORMATS:
                if not may_be_of(of_format, order_to(base), base):
                    continue
                life = opened("from %d to %d, format %d" % (base, last, of_format), base, last, of_format)
                life.trial.say("state", "state %s:%d base %d window%s" % (CLUSTER, last, base, "".join(" %d" % m for m in WINDOWS[last])))
                life.agrees(KEYS)
                shows_base(life, of_format)
                probes(life)
                life.stop(LOSSES[last % 3], KEYS)
                probes(life)
                life.does_what_is_due(KEYS)
                shows_base(life)
                probes(life)
                life.stop("drop", KEYS)
                yield life.trial


def first_change(_):
    """The smallest disk: an item, and a change of the size from 4 to 2, over a new base of format 1. Every answer is written by hand."""
    trial = Trial("an item and a change")
    trial.orders.append((order_to(2), PARAMS[1]))
    written(trial, standing(order_to(2), 0, 2), ONE)
    lines = [
        ("open", "open %s:2" % CLUSTER), ("state", "state %s:2 base 0 window 1" % CLUSTER), ("check", "began 2"), ("flush 0", "wrote"),
        *[line for _ in range(4) for line in (("check", "wrote"), ("sync", "synced 0"))],
        ("stop drop", "open %s:2" % CLUSTER), ("state", "state %s:2 base 2 window 1" % CLUSTER),
        # The digits of both superblocks, and what the window of the second says: the size 2, and the floor 1.
        ("bytes %d 1" % (A.body + Superblock.FORMAT.at), "31"), ("bytes %d 1" % (B.body + Superblock.FORMAT.at), "32"),
        ("bytes %d 10" % (B.window + Window.SIZE.at), "00020000000000000001"),
        ("open", "open %s:2" % CLUSTER), ("deliver 3 0 w 0/2=02", "3 commit"), ("deliver 4 0 w 0/3=03", "4 stale"), ("deliver 5 1 w 0/3=03", "5 stale"),
        ("deliver 6 3 w 0/3=03", "6 commit"), ("deliver 7 3 w 0/3=03", "7 stale"), ("deliver 8 6 w 0/3=03", "8 commit"),
    ]
    for line, wanted in lines:
        trial.say(line, wanted)
    yield trial


# ---- records that are none


def change(seqno, size=3, last_seen=0, verdict=0, conflict=0, reads=(), behind=None):
    """A record of a change of the size, or what differs from one by these values, with these bytes in the place of its size."""
    nothing = record_bytes(seqno, last_seen, (7, seqno), verdict, reads, [], conflict)
    return with_length(nothing[Record.LENGTH.end :] + (number_bytes(size, 2) if behind is None else behind))


def with_byte(record, at, byte):
    return record[:at] + bytes([byte]) + record[at + 1 :]


def no_changes(seqno):
    """Records at this seqno, which is not the first, that are no change of the size."""
    good = change(seqno)
    assert good == change_bytes(seqno, (7, seqno), 3) and len(good) == Change.END
    return [
        ("that saw an item", change(seqno, last_seen=1)), ("that saw an item by the highest byte", change(seqno, last_seen=1 << 56)),
        ("that conflicts", change(seqno, verdict=1, conflict=1)), ("that conflicts with none", change(seqno, verdict=1)),
        ("that names a conflict", change(seqno, conflict=1)), ("that names one by the highest byte", change(seqno, conflict=1 << 56)),
        *[("that is " + VERDICTS[verdict], change(seqno, verdict=verdict)) for verdict in (2, 3, 4)],
        ("of a verdict of no number", change(seqno, verdict=5)), ("with a read", change(seqno, reads=[(0, 1)])),
        ("with the count of a read", with_byte(good, Record.READS.at, 1)), ("with the count of 17 reads", with_byte(good, Record.READS.at, 17)),
        ("with the count of a write", with_byte(good, Record.WRITES.at, 1)), ("of the size 0", change(seqno, 0)), ("of the size 257", change(seqno, 257)),
        ("of the largest number", change(seqno, 65_535)), ("without a size", change(seqno, behind=b"")), ("of a byte", change(seqno, behind=b"\3")),
        ("of three bytes", change(seqno, behind=b"\0\3\0")), ("that says a byte more", with_byte(good, Record.LENGTH.last, Change.END + 1)),
        ("that says a byte less", with_byte(good, Record.LENGTH.last, Change.END - 1)), ("of the seqno 0", change(0)),
        ("of the seqno before", change(seqno - 1)), ("of the seqno behind", change(seqno + 1)),
    ]


def logged(title, base, of_format, *records):
    """A disk whose base stands there, of this format, with one block of these records behind it."""
    trial, node = Trial(title), standing(order_to(base), base, base)
    trial.say("disk %d 0" % SIZE, "blank")
    return with_puts(trial, base_puts(node, of_format) + log_puts(base, [(base + 1, records)]))


def no_records(program):
    """Each record that is none, alone in its block and behind another one, over a base of each format."""
    first = record_of(order_to(1), 1)
    for of_format in FORMATS:
        words = ", format %d" % of_format
        for title, record in no_changes(2):
            yield comes_back(program, logged("a change %s%s" % (title, words), 1, of_format, record), CORRUPT_LOG)
            yield comes_back(program, logged("behind an item, one %s%s" % (title, words), 0, of_format, first, record), CORRUPT_LOG)
    # A change of each end of the sizes, and one with the largest labels.
    top = 2**64 - 1
    for title, record in (("of 1", change(2, 1)), ("of 256", change(2, 256)), ("of the largest labels", change_bytes(2, (top, top), 3))):
        for of_format in FORMATS:
            yield opens(logged("a change %s, format %d" % (title, of_format), 1, of_format, record), 2, 1)
    # A byte behind the last record.
    trial = logged("a byte behind a change", 1, TWO, change(2))
    yield comes_back(program, with_puts(trial, [(cell_at(1) + Block.RECORDS + Change.END, "01")]), CORRUPT_LOG)
    yield comes_back(program, with_puts(logged("the last byte of a body", 1, TWO, change(2)), [(cell_at(1) + CELL_BODY - 1, "01")]), CORRUPT_LOG)


def judged_by_the_change(program):
    """An item behind a change is judged by the size that it sets, and not by the first one: another verdict is none of the log's."""
    def make(title, size, seen, verdict, of_format):
        """Behind a change at the seqno 2 come three items that saw all, and a sixth."""
        labels = lambda seqno: (7, seqno)
        puts = [record_bytes(n, n - 1, labels(n), 0, [], [write_bytes((0, n), b"a")]) for n in (3, 4, 5)]
        last = record_bytes(6, seen, labels(6), VERDICTS.index(verdict), [], [write_bytes((0, 6), b"a")])
        return logged("%s, format %d" % (title, of_format), 1, of_format, change(2, size), *puts, last)
    for of_format in FORMATS:
        # Behind the change to 2 the floor at 5 is 4; behind that to 256 it stays 1, where that of the first size is 2.
        for size, seen, verdict, other in ((2, 2, "stale", "commit"), (2, 3, "commit", "stale"), (256, 0, "commit", "stale")):
            words = "the size %d, %d seen, " % (size, seen)
            yield opens(make(words + verdict, size, seen, verdict, of_format), 6, 1)
            yield comes_back(program, make(words + other, size, seen, other, of_format), CORRUPT_LOG)


# ---- transfers


def meeting(title, base, last=ALL, of_format=TWO):
    """A donor on a written disk, whose base stands there, with all of the items up to the last."""
    scene = Meeting(title, [], KEYS)
    scene.is_of(order_to(last))
    stands(scene, base, last, of_format)
    scene.is_lent()
    return scene


def stands(scene, base, last, of_format=TWO):
    """A node on a written disk."""
    node = standing(scene.order, base, last)
    written(scene.trial, node, of_format)
    scene.open_as(node)


def goes_on(scene):
    """Two items are judged as the order has it, all becomes durable, and so it is behind a stop."""
    probes(scene.life)
    scene.life.does_what_is_due(KEYS)
    scene.life.stop("drop", KEYS)
    probes(scene.life)
    return scene.trial


# Where joiners stand: nowhere, which is of no cluster, or a base, and what is durable, and the format of the base.
STANDS = [None, (0, 0, ONE), (0, 1, ONE), (1, 3, ONE), (1, 4, ONE), (2, 6, TWO), (7, 7, ONE), (7, 9, ONE), (8, 12, TWO), (11, 13, TWO), (10, 14, TWO)]


def meets(title, base, place, of_format=TWO):
    scene = meeting("%s, a donor from %d, %r" % (title, base, place), base, of_format=of_format)
    if place is None:
        scene.new_node(is_defined=False)
    else:
        stands(scene, *place)
    return scene


def joins(_):
    """A donor from each base writes for each of these nodes, which then judges as the order has it."""
    for base in (0, 1, 2, 3, 5, 7, 8, 10, 11, 13, 14):
        for place in STANDS:
            scene = meets("joins", base, place)
            scene.joins()
            scene.life.stop(LOSSES[base % 3], KEYS)
            if scene.node().checkpoint.risen > (place[0] > 0 if place else 0):
                shows_base(scene.life)
                scene.open_as(scene.node())
            yield goes_on(scene)


def joins_by_format_1(_):
    """Records of both kinds stand in a transfer of format 1 too."""
    for base in (0, 1, 7):
        for place in STANDS:
            scene = meets("joins by format 1", base, place, ONE)
            scene.donates_format_1()
            scene.takes()
            scene.say("node", *scene.node().shown())
            scene.life.agrees(KEYS)
            yield goes_on(scene)


def of_no_form(_):
    """A transfer with a record in it that is none: what came before it is taken."""
    for of_format in FORMATS:
        # The first part of what a node at 1 gets is the change at 2, and the fourth that at 5.
        for seqno in (2, 5):
            for number, (title, record) in enumerate(no_changes(seqno)):
                ending = ENDINGS[number % 5]
                scene = meets("a change %s at %d, %s" % (title, seqno, ending), 0, (0, 1, of_format), of_format)
                transfer = scene.donates() if of_format == TWO else scene.donates_format_1()
                place = transfer.starts[seqno - 1]
                data = transfer.bytes()
                scene.becomes(data, data[:place] + item_bytes(record))
                yield is_cut(scene, transfer, seqno - 2, malformed(place), ending)


def cut_within_changes(_):
    """A transfer is cut behind each byte of a change of the size, the first of its parts or a later one."""
    scene = meets("cut within a change", 0, (0, 4, TWO))
    transfer = scene.donates()
    start, end = transfer.starts[1:3]
    assert (start, end) == (HEADER, HEADER + 1 + Change.END)
    for length in range(end - 1, start - 1, -1):
        scene.say("shorten %d" % length, "spoilt %d" % length)
        scene.say("join", malformed(start))
    scene.say("node", "node 4 4 0 quiet running")
    scene.joins()
    yield goes_on(scene)
    for length in range(48):
        scene = meets("cut within a later one at %d" % length, 0, (0, 1, TWO))
        transfer = scene.donates()
        start = transfer.starts[4]
        scene.say("shorten %d" % (start + length), "spoilt %d" % (start + length))
        does(transfer.taken(scene.node(), 3))
        scene.say("join", malformed(start))
        scene.say("node", "node 4 1 0 busy running")
        scene.life.agrees(KEYS)
        yield scene.trial


TRIALS = [
    ("a log with changes of the size is judged again", each_log),
    ("a change of the size over a base of format 1", first_change),
    ("a record of a change is of no form", no_records),
    ("an item is judged by the size before it", judged_by_the_change),
    ("a node joins by a transfer with changes of the size", joins),
    ("a transfer of format 1 with changes of the size", joins_by_format_1),
    ("a change of the size in a transfer is of no form", of_no_form),
    ("a transfer is cut within a change of the size", cut_within_changes),
]
