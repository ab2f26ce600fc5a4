"""Each reason for which the bytes of a disk are of no form (docs/formats.md), at an opening: a disk that opens, with one thing of it
changed, is refused by the part that is wrong, once and again, and comes back as it was. Beside these stand their neighbours, which are
of the form and open."""
from lib.bad_pages import WAYS
from lib.disks import LAST, OPEN, comes_back, new, opens, superblock, window_head, with_base, with_item, with_page, with_puts
from lib.formats import (
    A, B, CELL, CELL_BODY, DELETE, GATE, PAGE, PAGE_ROWS, SUPERBLOCK_BODY, WINDOW_BODY, Block, Page, Record, Row, Superblock, Window, block_bytes,
    cell_at, cell_gate_at, fixed_reach, need, number_bytes, number_hex, page_at, page_bytes, record_bytes, superblock_bytes, window_bytes,
    write_bytes,
)
from lib.model_bytes import UUID
from lib.node_model import CLUSTER
from lib.trial import SMALL, SMALL_SIZE, Trial, of_each_kind
from lib.windows import BASE, FULL, entry

UNDEFINED = "open 00000000-0000-0000-0000-000000000000:-1"
# The sizes of a disk for the small parameters with as many cells, and as many pages, as there may be.
MOST_CELLS, MOST_PAGES = need(1_024, 2), need(4, 4_096)


def refused(program, part, make, rows):
    """For each row the disk that `make` gives, with these bytes at these places: this part is refused."""
    for title, *puts in rows:
        yield comes_back(program, with_puts(make(title), puts), "13 corrupt " + part)


def taken(make, position, rows):
    """The same of what is of the form: the disk opens at the position."""
    for title, *puts in rows:
        yield opens(with_puts(make(title), puts), position)


# ---- the superblock

# Each of these is a change of superblock A, which is the one of a disk with an item.
SUPERBLOCKS = [
    ("another mark", (Superblock.MARK.last, "53")),
    ("a format before the first", (Superblock.FORMAT.at, "30")),
    ("a format behind the last", (Superblock.FORMAT.at, "33")),
    ("the number of the other side", (Superblock.NUMBER.last, "01")),
    ("a number above the position and one", (Superblock.NUMBER.last, "02")),
    ("a window of no seqno", (Superblock.WINDOW.at, "0000")),
    ("a window of 257 seqnos", (Superblock.WINDOW.at, "0101")),
    ("three cells", (Superblock.CELLS.at, "0003")),
    ("no table", (Superblock.TABLES.at, "00"), (Superblock.rows(0).at, "00000000"), (Superblock.PAGES.at, "0000")),
    ("nine tables", (Superblock.TABLES.at, "09")),
    ("a table without rows", (Superblock.TABLES.at, "02")),
    ("rows of a table that is not there", (Superblock.rows(1).at, "00000001")),
    ("the first zero behind the tables", (Superblock.ZEROS.at, "01")),
    ("the last zero behind the tables", (Superblock.ZEROS.last, "01")),
    ("a position above the last", (Superblock.POSITION.at, number_hex(LAST + 1))),
    ("a start above the position", (Superblock.START.last, "01")),
    ("one page too few", (Superblock.PAGES.last, "01")),
    ("one page too many", (Superblock.PAGES.last, "03")),
    ("the first zero behind the pages' number", (Superblock.MORE_ZEROS.at, "01")),
    ("the last zero behind the pages' number", (Superblock.MORE_ZEROS.last, "01")),
    ("a page in both slots", (Superblock.state_at(0), "03")),
    ("the last page in both slots", (Superblock.state_at(1), "0c")),
    ("a page that is not there in a slot", (Superblock.state_at(2), "10")),
    ("the last of the pages that may be there in a slot", (Superblock.STATES.last, "40")),
    ("the first byte behind the pages' states", (Superblock.LAST_ZEROS.at, "01")),
    ("the last byte of the body", (Superblock.LAST_ZEROS.last, "01")),
    ("more pages than the device holds", (Superblock.rows(0).at, number_hex(127, 4)), (Superblock.PAGES.last, "03")),
    ("more cells than the device holds", (Superblock.CELLS.at, "0005")),
]


def each_superblock(program):
    yield from refused(program, "superblock", with_item, SUPERBLOCKS)


def with_pages(rows, pages):
    """Superblock A with a table of so many rows, which have so many pages."""
    return [(Superblock.rows(0).at, number_hex(rows, 4)), (Superblock.PAGES.at, number_hex(pages, 2))]


def limits_of_the_device(_):
    """The most cells and the most pages open where the device has room for them, and one more of either is refused on a larger one. The
    bytes of such large disks are not summed."""
    for size, most, more in (
        (MOST_CELLS, [(Superblock.CELLS.at, "0400")], [(Superblock.CELLS.at, "0401")]),
        (MOST_PAGES, with_pages(4_096 * PAGE_ROWS, 4_096), with_pages(4_096 * PAGE_ROWS + 1, 4_097)),
    ):
        head = [(A.body, superblock(0, 0)), (A.gate, OPEN), (A.window, window_head(0, 0))]
        trial = Trial("the most on a device of %d bytes" % size)
        trial.say("disk %d 0" % size, "blank")
        yield opens(with_puts(trial, head + most), 0)
        trial = Trial("a byte less than %d" % size)
        trial.say("disk %d 0" % (size - 1), "blank")
        with_puts(trial, head + most).say("open", "refused 13 corrupt superblock")
        yield trial
        trial = Trial("one more than the most, with room")
        trial.say("disk %d 0" % (size + 2 * CELL), "blank")
        with_puts(trial, head + more).say("open", "refused 13 corrupt superblock")
        yield trial


def undefined(program):
    """A node without a UUID stands at no position, and its number is 0."""
    nil, window_position = (Superblock.UUID.at, "00" * 16), (A.window + Window.POSITION.last, "01")
    trial = with_puts(new("without a UUID"), [nil])
    trial.say("open", UNDEFINED)
    trial.say("node", "node 0 0 0 quiet running")
    yield trial
    trial = with_puts(new("without a UUID at a position"), [nil, (Superblock.POSITION.last, "01")])
    yield comes_back(program, trial, "13 corrupt superblock")
    trial = with_base(new("without a UUID under the number 1"), B, 1, 0)
    yield comes_back(program, with_puts(trial, [(B.body + Superblock.UUID.at, "00" * 16)]), "13 corrupt superblock")
    # Its window is that of the position 0, and is held to the form.
    trial = with_puts(new("without a UUID, a window of a position"), [nil, window_position])
    yield comes_back(program, trial, "13 corrupt window")


def gates(program):
    """A gate is open by its first byte alone."""
    for byte in ("00", "01", "a4", "a6", "ff", "5a"):
        trial = with_puts(with_item("a gate of " + byte), [(A.gate, byte)])
        yield comes_back(program, trial, "12 not-formatted")
    yield from taken(with_item, 1, [("the gate's second byte", (A.gate + 1, "01")), ("the gate's last byte", (A.gate + GATE - 1, "ff"))])
    yield from taken(with_item, 1, [("another gate of " + byte, (B.gate, byte)) for byte in ("01", "a4", "ff")])
    yield from taken(with_item, 0, [("a cell's gate of " + byte, (cell_gate_at(0), byte)) for byte in ("01", "a4", "ff")])


def two_superblocks(program):
    """Both have to be of the form, and for each the device has to have room; their parameters need not agree."""
    make = lambda title: with_base(new(title), B, 1, 3)
    five_cells = Superblock.CELLS.last, "05"
    yield opens(with_puts(make("a lesser one with another window"), [(Superblock.WINDOW.last, "03")]), 3, 3, "busy")
    yield comes_back(program, with_puts(make("a lesser one of a larger device"), [five_cells]), "13 corrupt superblock")
    trial = with_puts(make("a greater one of a larger device"), [(B.body + Superblock.CELLS.last, "05")])
    yield comes_back(program, trial, "13 corrupt superblock")
    trial = Trial("a lesser one with more cells, with room")
    trial.say("disk %d 0" % (SMALL_SIZE + CELL), "blank")
    trial.say("params 4 4 126", "formatted %s:0" % CLUSTER)
    yield opens(with_puts(with_base(trial, B, 1, 3), [five_cells]), 3, 3, "busy")
    trial = with_puts(make("a greater one of no form"), [(B.body + Superblock.LAST_ZEROS.last, "01")])
    yield comes_back(program, trial, "13 corrupt superblock")


# ---- the window


def with_window(title, position, *entries, count=None):
    """A disk whose base stands at this position, with these entries in its window. It may say another count of them."""
    trial = with_base(new(title), B, 1, position)
    said = number_hex(len(entries) if count is None else count, 2)
    return with_puts(trial, [(B.window + Window.COUNT.at, said), (B.window + Window.ENTRIES, b"".join(entries).hex())])


# Entries that are no window at the position 10.
WINDOWS = [
    ("without keys", entry(7)),
    ("with 17 keys", entry(7, *((0, row) for row in range(17)))),
    ("with a key twice", entry(7, (0, 1), (0, 1))),
    ("with keys that descend", entry(7, (0, 2), (0, 1))),
    ("of a table that is not there", entry(7, (1, 0))),
    ("of a row that is not there", entry(7, (0, 126))),
    ("below the window", entry(6, (0, 1))),
    ("above the position", entry(11, (0, 1))),
    ("twice", entry(7, (0, 1)), entry(7, (0, 2))),
    ("that descend", entry(8, (0, 1)), entry(7, (0, 2))),
    ("more than the window has seqnos", entry(6, (0, 1)), *FULL),
]


def each_window(program):
    trial = opens(with_window("a full window", BASE, *FULL), BASE, BASE, "busy")
    keys = ["key 0/%d" % row for row in range(16)]
    trial.say("limits", "size 4 floor 7")
    trial.say("window", "window 4", "entry 7 1", "key 0/1", "entry 8 1", "key 0/2", "entry 9 16", *keys, "entry 10 2", "key 0/0", "key 0/125")
    yield trial
    for title, *entries in WINDOWS:
        yield comes_back(program, with_window("an entry " + title, BASE, *entries), "13 corrupt window")
    for count in (3, 5, 257):
        yield comes_back(program, with_window("four entries of %d" % count, BASE, *FULL, count=count), "13 corrupt window")
    yield comes_back(program, with_window("an entry of the seqno 0", 3, entry(0, (0, 1))), "13 corrupt window")
    rows = [
        ("another mark", (B.window + Window.MARK.last, "45")), ("another number", (B.window + Window.NUMBER.last, "03")),
        ("another position", (B.window + Window.POSITION.last, "0b")), ("the first zero of the head", (B.window + Window.ZEROS.at, "01")),
        ("the last zero of the head", (B.window + Window.ZEROS.last, "01")),
        ("the byte behind the entries", (B.window + Window.ENTRIES + sum(map(len, FULL)), "01")),
        ("the last byte", (B.window + WINDOW_BODY - 1, "01")),
    ]
    yield from refused(program, "window", lambda title: with_window(title, BASE, *FULL), rows)


# ---- the log

def put_of(row, value=b"a"):
    return write_bytes((0, row), value)


def record(seqno, writes, reads=(), last_seen=None, verdict=0, m=0):
    """A record: the item with this seqno, which had seen the one before it, and read these rows."""
    seen = seqno - 1 if last_seen is None else last_seen
    return record_bytes(seqno, seen, (7, 8), verdict, [(0, row) for row in reads], writes, m)


def block(number, first, *records, count=None):
    return block_bytes(number, first, records, count)


def in_cell(cell, block_of_it):
    """What has this block stand open in this cell."""
    return [(cell_at(cell), block_of_it.hex()), (cell_gate_at(cell), OPEN)]


def with_block(title, block_of_it):
    """A new disk on which this block stands open in the first cell."""
    return with_puts(new(title), in_cell(0, block_of_it))


ONE = record(1, [put_of(1)])


def saying(length, one):
    """The record, which says another length."""
    return number_bytes(length, 2) + one[Record.LENGTH.end :]


# Blocks that are none of a new disk's first cell.
BLOCKS = [
    ("the number of the second cell", block(1, 1, ONE)),
    ("the number of the next lap", block(4, 1, ONE)),
    ("a seqno that does not follow", block(0, 2, record(2, [put_of(1)]))),
    ("the seqno of the position", block(0, 0, record(0, [put_of(1)], last_seen=0))),
    ("no record", block(0, 1)),
    ("fewer records than it says", block(0, 1, ONE, count=2)),
    ("more records than it says", block(0, 1, ONE, record(2, [put_of(2)]), count=1)),
    ("65 records", block(0, 1, *(record(seqno, [put_of(seqno)]) for seqno in range(1, 66)))),
    ("a byte behind the records", block(0, 1, ONE) + b"\1"),
    ("a record of another seqno", block(0, 1, record(2, [put_of(1)]))),
    ("a record that says a byte more", block(0, 1, saying(len(ONE) + 1, ONE))),
    ("a record that says a byte less", block(0, 1, saying(len(ONE) - 1, ONE))),
    ("a verdict of no number", block(0, 1, record(1, [put_of(1)], verdict=5))),
    ("another verdict", block(0, 1, record(1, [put_of(1)], verdict=2))),
    ("a commit that names a seqno", block(0, 1, record(1, [put_of(1)], m=1))),
    ("a conflict with no seqno", block(0, 1, record(1, [put_of(1)], verdict=1))),
    ("a conflict with itself", block(0, 1, record(1, [put_of(1)], verdict=1, m=1))),
    ("a conflict with a later item", block(0, 1, record(1, [put_of(1)], verdict=1, m=2))),
    ("a conflict that there is none", block(0, 1, ONE, record(2, [put_of(2)], last_seen=0, verdict=1, m=1))),
    ("a commit in the place of a conflict", block(0, 1, ONE, record(2, [put_of(1)], last_seen=0))),
    ("a commit of what saw its own seqno", block(0, 1, record(1, [put_of(1)], last_seen=1))),
    ("a commit of a row that is not there", block(0, 1, record(1, [put_of(126)]))),
    ("17 reads", block(0, 1, record(1, [put_of(1)], reads=range(17)))),
    ("no write", block(0, 1, record(1, []))),
    ("17 writes", block(0, 1, record(1, [put_of(row) for row in range(17)]))),
    ("a write of another kind", block(0, 1, record(1, [write_bytes((0, 1), b"a", kind=2)]))),
    ("a delete with a value", block(0, 1, record(1, [write_bytes((0, 1), b"a", kind=DELETE)]))),
    ("a value of 63 bytes", block(0, 1, record(1, [put_of(1, b"a" * 63)]))),
    ("reads that descend", block(0, 1, record(1, [put_of(1)], reads=[2, 1]))),
    ("a read twice", block(0, 1, record(1, [put_of(1)], reads=[1, 1]))),
    ("writes that descend", block(0, 1, record(1, [put_of(2), put_of(1)]))),
    ("a write twice", block(0, 1, record(1, [put_of(1), put_of(1)]))),
]
# Blocks that are, and the position at which the disk opens.
GOOD_BLOCKS = [
    (1, "one record", block(0, 1, ONE)),
    (1, "a row that is not there", block(0, 1, record(1, [put_of(126)], verdict=4))),
    (1, "what saw its own seqno", block(0, 1, record(1, [put_of(1)], last_seen=1, verdict=3))),
    (2, "a conflict", block(0, 1, ONE, record(2, [put_of(1)], last_seen=0, verdict=1, m=1))),
    (1, "16 reads and 16 writes", block(0, 1, record(1, [put_of(row, b"a" * 62) for row in range(16)], reads=range(16)))),
    (1, "a delete", block(0, 1, record(1, [put_of(1, None)]))),
    (64, "64 records", block(0, 1, *(record(seqno, [put_of(seqno)]) for seqno in range(1, 65)))),
]
# What stands in a further cell of a disk with one block, and is no log.
CELLS_BEHIND = [
    ("the cell behind holds another lap", 1, block(5, 2, record(2, [put_of(2)]))),
    ("the cell behind holds the number of another", 1, block(0, 2, record(2, [put_of(2)]))),
    ("the cell behind holds a seqno that does not follow", 1, block(1, 3, record(3, [put_of(2)]))),
    ("the cell behind is of no form", 1, block(1, 2, record(2, [put_of(2)])) + b"\1"),
    ("a cell is left out", 2, block(2, 2, record(2, [put_of(2)]))),
    ("the last cell holds a number of no lap before", 3, block(3, 2, record(2, [put_of(2)]))),
]


def each_block(program):
    for position, title, good in GOOD_BLOCKS:
        yield opens(with_block(title, good), position)
    for title, bad in BLOCKS:
        yield comes_back(program, with_block("a block: " + title, bad), "13 corrupt log")
    yield from refused(program, "log", with_item, [("the last byte of a body", (cell_at(0) + CELL_BODY - 1, "01"))])


def last_seqno(program):
    """A block of the last seqno, and none of the one behind it."""
    make = lambda title, position, seqno: with_puts(
        with_base(new(title), A, 0, position), in_cell(0, block(0, position + 1, record(seqno, [put_of(1)])))
    )
    yield opens(make("the last seqno", LAST - 1, LAST), LAST, LAST - 1)
    yield comes_back(program, make("a seqno above the last", LAST, LAST + 1), "13 corrupt log")
    yield comes_back(program, make("a seqno above the last, behind the one before", LAST - 1, LAST + 1), "13 corrupt log")


def each_cell(program):
    """Cells are taken from the start on, and none stands open behind them but those of an earlier lap."""
    first = block(0, 1, ONE)
    behind = lambda title, cell, next_one: with_puts(with_block(title, first), in_cell(cell, next_one))
    yield opens(behind("the next block", 1, block(1, 2, record(2, [put_of(2)]))), 2)
    for title, cell, bad in CELLS_BEHIND:
        yield comes_back(program, behind(title, cell, bad), "13 corrupt log")
    # What stands in a cell below the start is not looked at, but for the number that it holds.
    below = lambda title, number: with_puts(
        with_base(new(title), B, 1, 3), [(B.body + Superblock.START.at, number_hex(1)), *in_cell(0, number_bytes(number) + b"\xff" * 8)]
    )
    yield opens(below("a block below the start", 0), 3, 3, "busy")
    yield comes_back(program, below("a number at the start", 4), "13 corrupt log")
    yield comes_back(program, below("a number of another cell", 1), "13 corrupt log")


def log_before_pages(program):
    """Of a log and a page that are both wrong the log is answered."""
    trial = with_base(new("the log before a page"), B, 1, 3, 2)
    yield comes_back(program, with_puts(trial, in_cell(0, number_bytes(4))), "13 corrupt log")


# ---- pages

def each_page(program):
    """Each of the two pages of a base at the position 3, at an opening."""
    for page in (0, 1):
        for title, at, text in WAYS:
            if (title, page) in (("another page", 1), ("another row", 1)):
                # Of the second page these bytes are the right ones.
                text = number_hex(0, len(text) // 2)
            trial = Trial("page %d: %s" % (page, title))
            of_each_kind().play(trial)
            trial.say("crash keep", "crashed")
            yield comes_back(program, with_puts(trial, [(page_at(SMALL[1], page) + at, text)]), "13 corrupt pages")


def rows_past_the_end(program):
    """A table of 100 rows ends within its second page: what stands behind its last row is zero."""
    def make(title, row):
        trial = Trial(title)
        trial.say("disk %d 0" % SMALL_SIZE, "blank")
        trial.say("params 4 4 100", "formatted %s:0" % CLUSTER)
        trial = with_base(trial, B, 1, 3)
        trial = with_puts(trial, [(B.body + Superblock.rows(0).at, number_hex(100, 4)), (B.body + Superblock.state_at(1), "04")])
        place = page_at(SMALL[1], 1)
        return with_puts(with_page(trial, place, 1, 3), [(place + Page.row_at(row - PAGE_ROWS), "010162")])

    trial = opens(make("the last row", 99), 3, 3, "busy")
    trial.say("read 0/99 3", "value 62")
    trial.say("read 0/100 3", "refused 10 bad-key")
    yield trial
    yield comes_back(program, make("the row behind the last", 100), "13 corrupt pages")


# ---- each byte that is to be zero

# A disk with five pages of two tables, of which the second stands in its second slot and the last one in its first, with four rows;
# its base stands at the position 9, with two entries in the window; behind it is a block with an item. Where the last page and the
# block begin, and how many bytes the block has.
FIVE_PAGES = (4, 4, (126, 130))
LAST_PAGE, TENTH = page_at(4, 4), block(2, 10, record(10, [put_of(1)]))
TWO_ENTRIES = entry(6, (0, 0)) + entry(9, (0, 0), (0, 1))


def of_five_pages(title):
    trial = Trial(title)
    trial.say("disk %d 0" % need(4, 5), "blank")
    trial.say("params 4 4 126 130", "formatted %s:0" % CLUSTER)
    states = Superblock.state_at(4) + 1
    window = window_bytes(3, 9, [entry(6, (0, 0)), entry(9, (0, 0), (0, 1))], fixed_reach(FIVE_PAGES[0], 9))
    puts = [
        (A.gate, "00"), (B.body, superblock_bytes(3, UUID, FIVE_PAGES, 9, 2, [0, 2, 0, 0, 1])[:states].hex()), (B.gate, OPEN),
        (B.window, window[: Window.ENTRIES + len(TWO_ENTRIES)].hex()), (page_at(4, 1, 1), page_bytes(1, 0, 63, 3, [])[: Page.ROWS].hex()),
        (LAST_PAGE, page_bytes(4, 1, 126, 3, [b"ab", None, None, b""])[: Page.row_at(4)].hex()),
    ]
    opens(with_puts(trial, puts), 9, 9)
    trial.say("limits", "size 4 floor 6")
    trial.say("window", "window 2", "entry 6 1", "key 0/0", "entry 9 2", "key 0/0", "key 0/1")
    return with_puts(trial, in_cell(2, TENTH))


# Of each part where it begins, and from where to where its bytes are to be zero.
ZEROS = [
    (
        "superblock", B.body,
        [
            (Superblock.ZEROS.at, Superblock.ZEROS.end), (Superblock.rows(2).at, Superblock.ROWS.end),
            (Superblock.MORE_ZEROS.at, Superblock.MORE_ZEROS.end), (Superblock.state_at(4) + 1, SUPERBLOCK_BODY),
        ],
    ),
    ("window", B.window, [(Window.ZEROS.at, Window.ZEROS.end), (Window.ENTRIES + len(TWO_ENTRIES), WINDOW_BODY)]),
    # The number of a seqno that a commit does not conflict with, and all behind the record.
    ("log", cell_at(2), [(Block.RECORDS + Record.CONFLICT.at, Block.RECORDS + Record.CONFLICT.end), (len(TENTH), CELL_BODY)]),
    (
        "pages", LAST_PAGE,
        [
            (Page.ZERO.at, Page.ZERO.end), (Page.ZEROS.at, Page.ZEROS.end), (Page.row_at(0) + Row.VALUE + 2, Page.row_at(1)),
            (Page.row_at(1) + 1, Page.row_at(2)), (Page.row_at(2) + 1, Page.row_at(3)), (Page.row_at(3) + Row.VALUE, Page.row_at(4)),
            (Page.row_at(4), PAGE),
        ],
    ),
]


def is_as_it_was(trial):
    opens(trial, 10, 9)
    for line, *wanted in (
        ["limits", "size 4 floor 7"], ["window", "window 2", "entry 9 2", "key 0/0", "key 0/1", "entry 10 1", "key 0/1"],
        ["read 1/126 9", "value 6162"], ["read 1/127 9", "absent"], ["read 1/129 9", "value"], ["read 0/1 10", "value 61"],
    ):
        trial.say(line, *wanted)
    return trial


def each_zero(_):
    for part, begin, ranges in ZEROS:
        trial = is_as_it_was(of_five_pages("each zero of the " + part))
        for first, last in ranges:
            for at in range(begin + first, begin + last):
                trial.say("write %d 01" % at, "written")
                trial.say("open", "refused 13 corrupt " + part)
                trial.say("write %d 00" % at, "written")
        yield is_as_it_was(trial)


def greatest_number(_):
    """The number of a superblock is at most one above its position."""
    yield opens(with_base(new("a number above the position"), B, 1, 0), 0, 0, "busy")


TRIALS = [
    ("a superblock of no form", each_superblock),
    ("as many cells and pages as there may be", limits_of_the_device),
    ("a node without a UUID stands at no position", undefined),
    ("a gate is open by one byte", gates),
    ("two superblocks are both held to the form", two_superblocks),
    ("a window of no form", each_window),
    ("a block of no form", each_block),
    ("a block above the last seqno", last_seqno),
    ("cells behind the block", each_cell),
    ("the log is answered before a page", log_before_pages),
    ("a page of no form at an opening", each_page),
    ("a row behind a table's end", rows_past_the_end),
    ("a superblock's number is at most one above its position", greatest_number),
    ("each byte that is to be zero", each_zero),
]
