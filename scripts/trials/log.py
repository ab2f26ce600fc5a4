"""The log by itself: blocks of one item and of two in turn, over the laps of four cells. What fifteen of them leave in the cells, byte by
byte, and what opens of such bytes from each start; each byte by which a log is none, and what is none of its faults; what a closed cell
may hold; blocks of the largest records; and syncs that nothing awaits."""
from lib.disks import LAST, OPEN, PAGES, comes_back, new, opens, with_base, with_page, with_puts
from lib.formats import (
    A, CELL, CLOSED_GATE, GATE, OPEN_GATE, Block, Record, Superblock, Window, block_bytes, cell_at, cell_body, cell_gate_at, number_hex,
)
from lib.model_bytes import entries_of, record_of
from lib.node_model import Item, Node, Order
from lib.stops import stopped_within
from lib.trial import SMALL, Life, Script, Trial, putting, replies_to

# Each cell and its gate, and how far behind the cell the first two records begin and end: each has as many bytes as one of a row.
CELL_0, CELL_1, CELL_2, CELL_3 = map(cell_at, range(4))
GATE_0, GATE_1, GATE_2, GATE_3 = map(cell_gate_at, range(4))
SIZE = putting(1, 1).size()
ONE, TWO, END = Block.RECORDS, Block.RECORDS + SIZE, Block.RECORDS + 2 * SIZE
BLOCKS = 15


def before(number_of_block):
    """How many items come before the block of this number: one with an even number has two, and one with an odd number has one."""
    return 3 * (number_of_block // 2) + 2 * (number_of_block % 2)


def seqnos(number_of_block):
    return range(before(number_of_block) + 1, before(number_of_block + 1) + 1)


def an_order():
    """Items that all write one row, each of which had seen the one before it."""
    order = Order(SMALL[0], SMALL[2])
    for seqno in range(1, 40):
        order.add(putting(seqno, 1))
    return order


ORDER = an_order()


def body(number_of_block):
    """The bytes of the block, up to the zeros behind its records."""
    some = seqnos(number_of_block)
    return block_bytes(number_of_block, some[0], [record_of(ORDER, seqno) for seqno in some])


def standing(title, blocks, start, puts=(), position=None):
    """A disk with the last of so many blocks in its cells, whose base stands before the block `start`, with these bytes at these places."""
    position = before(start) if position is None else position
    trial = with_base(new(title), A, 0, position, 1 if position else 0)
    entries = entries_of(ORDER, position)
    head = [
        (A.body + Superblock.START.at, number_hex(start)), (A.window + Window.COUNT.at, number_hex(len(entries), 2)),
        (A.window + Window.ENTRIES, b"".join(entries).hex()),
    ]
    if position:
        with_page(trial, PAGES, 0, position, number_hex(position, 1))
    last = range(max(0, blocks - 4), blocks)
    cells = [put for k in last for put in ((cell_at(k % 4), body(k).hex()), (cell_gate_at(k % 4), OPEN))]
    return with_puts(trial, [*head, *cells, *puts])


def found(trial, start, following, stands):
    """The disk opens with the blocks from `start` on up to the one that follows, where these cells stand open: the node is where a model is
    that was put there, and takes blocks until its log is full."""
    node = Node(*SMALL, order=ORDER)
    node.delivered = node.durable = before(following)
    node.checkpoint.base = before(start)
    node.log.start, node.log.next, node.log.open = start, following, [cell in stands for cell in range(4)]
    trial.say("open", "open " + node.gtid())
    life = Life(trial, node=node)
    life.agrees([(0, 1)])
    while True:
        life.do((node.delivered + 1, ORDER.items[node.delivered]))
        if node.log.is_full():
            break
        life.do("log")
        while node.log.stage != "gathering" or node.delivered > node.durable:
            life.do(node.due())
    assert life.do("log") == ["refused 6 log-full"]
    life.agrees([(0, 1)])
    return life


def stand_open(blocks):
    """The cells that stand open behind so many blocks."""
    return {k % 4 for k in range(blocks)}


def from_each_start(_):
    """A log is what its cells hold from its start on, whichever of the four last blocks that is, or the one that follows them."""
    for blocks in range(BLOCKS + 1):
        for start in range(max(0, blocks - 4), blocks + 1):
            yield found(standing("%d blocks from %d" % (blocks, start), blocks, start), start, blocks, stand_open(blocks)).trial


def laps():
    """The fifteen blocks, and where the events of each end. Of each five the first three stay, then a checkpoint is under way while the
    fourth comes, and one behind the fifth lets all go."""
    script, ends = Script(), [0]
    for k in range(BLOCKS):
        some = seqnos(k)
        for seqno in some:
            script.commit(seqno, 1)
        (script.make_durable if k < 4 else script.make_durable_again)(*replies_to(some[0], some[-1]))
        if k % 5 in (2, 4):
            script.push("check", "began %d" % some[-1])
            script.push("flush 0", "wrote")
        if k % 5 in (3, 4):
            script.become_base()
        ends.append(len(script.events))
    return script, ends


def lie_in_cells(_):
    """Behind each of the fifteen blocks each cell has the last one that went there, with an open gate, and zeros where none did."""
    script, ends = laps()
    for blocks, count in enumerate(ends):
        trial = Trial("the bytes of %d blocks" % blocks)
        script.play(trial, count).agrees([(0, 1)])
        for cell in range(4):
            last = [k for k in range(blocks) if k % 4 == cell][-1:]
            found, gate = (body(last[0]), OPEN_GATE) if last else (b"", CLOSED_GATE)
            trial.say("bytes %d 512" % cell_at(cell), found.ljust(512, b"\0").hex())
            trial.say("bytes %d %d" % (cell_gate_at(cell), GATE), gate.hex())
        yield trial


def stops_in_the_second_lap(_):
    script, ends = laps()
    yield from stopped_within("blocks of the second lap", script, ends[4], ends[8])


def syncs_again(_):
    """A sync that nothing awaits makes nothing durable."""
    script, trial = laps()[0], Trial("each sync twice")
    life = Life(trial)
    life.do("sync")
    for event in script.events:
        life.do(event)
        if event == "sync":
            assert life.do("sync") == ["synced 0"]
    life.agrees([(0, 1)])
    yield trial


# What is changed, and the start, of a log of the blocks 0, 1 and 2: of the first there are two records, of the second one.
FAULTS = [
    ("no record", 0, (CELL_0 + Block.COUNT.last, "00")),
    ("a record too few", 0, (CELL_0 + Block.COUNT.last, "01")),
    ("a record too many", 0, (CELL_0 + Block.COUNT.last, "03")),
    ("65 records", 0, (CELL_0 + Block.COUNT.last, "41")),
    ("another first seqno in the head", 0, (CELL_0 + Block.FIRST.last, "02")),
    ("a shorter record", 0, (CELL_0 + ONE + Record.LENGTH.last, number_hex(SIZE - 1, 1))),
    ("a longer record", 0, (CELL_0 + TWO + Record.LENGTH.last, number_hex(SIZE + 1, 1))),
    ("a verdict of number 5", 0, (CELL_0 + ONE + Record.VERDICT.at, "05")),
    ("a verdict of number 5 in the last block", 0, (CELL_2 + TWO + Record.VERDICT.at, "05")),
    ("a second seqno again", 0, (CELL_0 + TWO + Record.SEQNO.last, "01")),
    ("a byte behind the records", 0, (CELL_0 + END, "01")),
    ("the last byte of a body", 0, (GATE_0 - 1, "01")),
    ("a later first seqno", 0, (CELL_1 + Block.FIRST.last, "04"), (CELL_1 + ONE + Record.SEQNO.last, "04")),
    ("an earlier first seqno", 0, (CELL_1 + Block.FIRST.last, "02"), (CELL_1 + ONE + Record.SEQNO.last, "02")),
    ("a number of another place", 0, (CELL_1 + Block.NUMBER.last, "02")),
    ("an old number of another place", 2, (CELL_1 + Block.NUMBER.last, "00")),
    ("a number by its highest byte", 0, (CELL_1 + Block.NUMBER.at, "01")),
    ("a gap before an open cell", 0, (GATE_1, "00")),
    ("a gap at the start", 0, (GATE_0, "00")),
    ("a block of the next lap behind a gap", 1, (CELL_0 + Block.NUMBER.last, "04")),
    ("a block of a later lap", 0, (GATE_3, OPEN), (CELL_3 + Block.NUMBER.last, "07")),
    ("an open cell of zeros", 0, (GATE_3, OPEN)),
]


def each_fault(program):
    for title, start, *puts in FAULTS:
        yield comes_back(program, standing(title, 3, start, puts), "13 corrupt log")


def other_positions(program):
    """The log's first block begins behind the position of the base, which need not be below its number alone."""
    for start, position in ((0, 1), (1, 1), (1, 3), (2, 2), (2, 5)):
        yield comes_back(program, standing("from %d behind %d" % (start, position), 3, start, position=position), "13 corrupt log")
    for title, start in (("a start of 4", 4), ("the last start", LAST)):
        yield opens(with_puts(with_base(new(title), A, 0, start), [(A.body + Superblock.START.at, number_hex(start))]), start, start)


# What is no fault: how many blocks there are, the start, the block behind the last that is found, the cells that stand open then, and
# what is changed.
SOUND = [
    ("no cell open", 0, 0, 0, ()),
    ("a gate of a4 over the next block", 4, 0, 3, (0, 1, 2), (GATE_3, "a4")),
    ("a gate of junk over the next block", 4, 0, 3, (0, 1, 2), (GATE_3, "eea5")),
    ("an open gate whose further bytes are not zero", 3, 0, 3, (0, 1, 2), (GATE_2 + 1, "01"), (GATE_2 + GATE - 1, "ee")),
    ("open cells before the start", 3, 2, 3, (0, 1, 2)),
    (
        "a cell before the start that holds no block behind its number", 3, 2, 3, (0, 1, 2),
        (CELL_0 + Block.COUNT.last, "00"), (CELL_1 + ONE + Record.VERDICT.at, "05"),
    ),
    ("only cells before the start", 4, 4, 4, (0, 1, 2, 3)),
    ("a number of an earlier lap in its place", 6, 4, 6, (0, 1, 3), (GATE_2, "00"), (CELL_3 + Block.NUMBER.last, "03"), (CELL_3 + Block.FIRST.at, "ee")),
    ("all cells open and taken", 4, 0, 4, (0, 1, 2, 3)),
    ("all cells open and taken, across the end of the ring", 7, 3, 7, (0, 1, 2, 3)),
]


def what_is_no_fault(_):
    for title, blocks, start, following, stands, *puts in SOUND:
        yield found(standing(title, blocks, start, puts), start, following, stands).trial


def closed_cells(_):
    """The fourth cell is closed: what its body and the rest of its gate hold is not looked at, and it takes the next block."""
    for byte in ("00", "01", "ee", "ff"):
        trial = standing("a closed cell of " + byte, 3, 0, [(CELL_3, byte * CELL)])
        life = found(trial, 0, 3, (0, 1, 2))
        life.stop("drop", [(0, 1)])
        life.goes_on(ORDER, [(0, 1)])
        yield trial


def widest(seqno):
    """An item of the largest record, of 1,229 bytes, which differs with its seqno. It says to have seen what is not there yet."""
    top = 2**64 - 1
    puts = [((0, row), bytes([seqno]) * 62) for row in range(16)]
    return Item(top, puts, [(7, row) for row in range(16)], source=top, trx=seqno)


def shows_cell(trial, order, cell, seqnos_of_it):
    """The cell has the block of these items, of its own number, and an open gate."""
    data = cell_body(cell, seqnos_of_it[0], [record_of(order, seqno) for seqno in seqnos_of_it]) + OPEN_GATE
    for at in range(0, CELL, 512):
        trial.say("bytes %d 512" % (cell_at(cell) + at), data[at : at + 512].hex())


# The items of three blocks, and how many wait behind each of them: one, 64, and of seven of the largest those six that fill a block.
SIZES = [(1, 1, 1), (2, 65, 65), (66, 71, 72)]


def small_and_large_life(trial):
    """A block of one record, one of 64, and one of the largest, of which a seventh waits."""
    life = Life(trial)
    items = [putting(seqno, 1) for seqno in range(1, 66)] + [widest(seqno) for seqno in range(66, 73)]
    for first, last, until in SIZES:
        for seqno in range(first, until + 1):
            life.do((seqno, items[seqno - 1]))
        one_block(life, last - first + 1)
    return life


def small_and_large(_):
    """They lie in their cells byte for byte, and are found behind a stop."""
    trial = Trial("their bytes")
    order = small_and_large_life(trial).node.order
    for cell, (first, last, _) in enumerate(SIZES):
        shows_cell(trial, order, cell, range(first, last + 1))
    yield trial
    trial = Trial("what is found of them")
    life = small_and_large_life(trial)
    trial.say("node", "node 72 71 0 busy running")
    life.stop("drop", [(0, 1)])
    trial.say("node", "node 71 71 0 quiet running")
    life.goes_on(life.node.order, [(0, 1)])
    yield trial


def one_block(life, *wanted):
    """What waits becomes durable in blocks of so many items."""
    for count in wanted:
        for event in ("log", "sync", "log"):
            life.do(event)
        assert life.do("sync")[0] == "synced %d" % count


def what_a_block_takes(_):
    """A block takes 64 items, and none for which it has no byte left; what it does not take goes into the next one, in its order."""
    wide = {(0, row): b"\xa5" * 62 for row in range(16)}
    two = lambda size: {(0, 1): b"\xa5" * size, (0, 2): b""}
    sizes = [62] * 62 + [42]
    for title, writes, blocks in (
        ("three", [{(0, 1): None}] * 3, [3]),
        ("70 items", [{(0, 1): None}] * 70, [64, 6]),
        # Of 7,662 bytes six records of 1,149 leave too few for a seventh; the short one behind has room, and waits.
        ("eight long ones and a short one", [wide] * 8 + [{(0, 1): None}], [6, 3]),
        # 62 records of 121 bytes leave 160: one of 101, and one of 59, or of 60.
        ("64 records that leave no byte", [two(size) for size in sizes + [0]], [64]),
        ("64 records of a byte too many", [two(size) for size in sizes + [1]], [63, 1]),
    ):
        trial = Trial("a block of " + title)
        life = Life(trial, (256, 4, (126,)))
        for seqno, some in enumerate(writes, 1):
            life.do((seqno, Item(0, some.items(), trx=seqno)))
        one_block(life, *blocks)
        life.stop("drop", [(0, 1), (0, 2)])
        yield trial


def a_full_block(_):
    """64 records that leave no byte of their block, which ends before its gate."""
    trial = Trial("the bytes of a full block")
    life = Life(trial, (256, 4, (126,)))
    for seqno, size in enumerate([62] * 62 + [42, 0], 1):
        life.do((seqno, Item(0, [((0, 1), b"\xa5" * size), ((0, 2), b"")], trx=seqno)))
    one_block(life, 64)
    shows_cell(trial, life.node.order, 0, range(1, 65))
    yield trial


def a_full_backlog(_):
    """A backlog of 256 items takes another one once some have gone."""
    trial = Trial("a full backlog")
    life = Life(trial, (256, 4, (126,)))
    for seqno in range(1, 257):
        life.do((seqno, putting(seqno, 1)))
    assert life.do((257, putting(257, 1))) == ["refused 5 backlogged"]
    one_block(life, 64)
    assert life.do((257, putting(257, 1))) == ["257 commit"]
    one_block(life, 64, 64)
    yield trial


TRIALS = [
    ("fifteen blocks lie in the cells in turn", lie_in_cells),
    ("a log is found from each start", from_each_start),
    ("a stop behind each event of a second lap leaves its blocks whole or not at all", stops_in_the_second_lap),
    ("a sync that nothing awaits makes nothing durable", syncs_again),
    ("each fault of a log is a corrupt log", each_fault),
    ("a log from another position is corrupt", other_positions),
    ("what is no fault is found as a log", what_is_no_fault),
    ("a closed cell may hold any bytes", closed_cells),
    ("small and large blocks are found byte for byte", small_and_large),
    ("a block takes as many items as there is room for", what_a_block_takes),
    ("the largest block ends where its gate begins", a_full_block),
    ("a full backlog takes items once some have gone", a_full_backlog),
]
