"""The bytes of docs/formats.md: the one place in scripts/ that knows where a byte stands. It was written from that page alone, and so is a
second reading of the formats beside the program's.

A form is a class with its fields. Beside it stands what makes its bytes of values, which may be values that no such form has, for a trial of
these. A key is a pair of a table and a row; a value is None where a row is absent or a write deletes.

Of superblocks, windows and transfers there are two formats. A window's reach is its size and its floor, as a pair. Format 2 says it; format 1
does not, and its reach is that of the first size.
"""
from collections import namedtuple


class Field(namedtuple("Field", "at size")):
    """A field of a form: how far behind the form's first byte it begins, and how many bytes it has."""

    @property
    def last(self):
        """Its last byte, which is the lowest of a number."""
        return self.at + self.size - 1

    @property
    def end(self):
        return self.at + self.size

    def behind(self, count):
        """The same field of a form that begins so many bytes further on."""
        return Field(count + self.at, self.size)

    def number_in(self, data):
        """The number in this field of the form that these bytes are."""
        return int.from_bytes(data[self.at : self.end], "big")


def number_bytes(value, size=8):
    return value.to_bytes(size, "big")


def number_hex(value, size=8):
    """The same as the lines of trials have it."""
    return number_bytes(value, size).hex()


# The formats of disks and transfers: each is said by a digit behind a mark.
ONE, TWO = 1, 2
FORMATS = (ONE, TWO)


def digit(of_format):
    return b"%d" % of_format


def fixed_reach(first_size, position):
    """The reach of a window at the position whose size never changed."""
    return first_size, max(1, position + 1 - first_size)


# ---- the device

SUPERBLOCK_BODY, WINDOW_BODY, CELL_BODY, GATE, PAGE = 3_584, 23_040, 7_680, 512, 4_096
LOG, CELL = 54_272, CELL_BODY + GATE
# How many rows a page has, and for how many tables there is room.
PAGE_ROWS, TABLES = 63, 8

# A gate is open by its first byte alone.
OPEN, CLOSED = 0xA5, 0
OPEN_GATE, CLOSED_GATE = bytes([OPEN]).ljust(GATE, b"\0"), bytes(GATE)

# Where the superblock, its gate and its window begin on each side: that of the even numbers and that of the odd ones.
Side = namedtuple("Side", "body gate window")
SIDES = A, B = Side(0, 3_584, 8_192), Side(4_096, 7_680, 31_232)


def side_of(number):
    """The side of the superblock with this number."""
    return SIDES[number % 2]


def cell_at(cell):
    """Where this cell of the log begins, and with it the body of its block."""
    return LOG + CELL * cell


def cell_gate_at(cell):
    return cell_at(cell) + CELL_BODY


def page_at(cells, page, slot=0):
    """Where this slot of the page begins, the first (0) or the second (1), on a device with so many cells."""
    return cell_at(cells) + PAGE * (2 * page + slot)


def need(cells, pages):
    """How many bytes a device has to have."""
    return page_at(cells, pages)


def pages_of(rows):
    """The table and the first row of each page, of tables with so many rows."""
    return [(table, first) for table, count in enumerate(rows) for first in range(0, count, PAGE_ROWS)]


# ---- superblocks


class Superblock:
    MARK, FORMAT, NUMBER, UUID = Field(0, 7), Field(7, 1), Field(8, 8), Field(16, 16)
    WINDOW, CELLS, TABLES, ZEROS, ROWS = Field(32, 2), Field(34, 2), Field(36, 1), Field(37, 3), Field(40, 32)
    POSITION, START, PAGES, MORE_ZEROS = Field(72, 8), Field(80, 8), Field(88, 2), Field(90, 38)
    STATES, LAST_ZEROS = Field(128, 1_024), Field(1_152, 2_432)

    @staticmethod
    def rows(table):
        """How many rows the table has."""
        return Field(Superblock.ROWS.at + 4 * table, 4)

    @staticmethod
    def state_at(page):
        """The byte that says, by two of its bits, in which slot the page is."""
        return Superblock.STATES.at + page // 4


def rows_bytes(rows):
    """The rows of eight tables, of which there are these."""
    return b"".join(number_bytes(count, 4) for count in rows).ljust(4 * TABLES, b"\0")


def states_bytes(slots):
    """The states of pages up to the last of these bytes: for each page 0 where it is in no slot, 1 in its first, 2 in its second."""
    states = bytearray(-(-len(slots) // 4))
    for page, slot in enumerate(slots):
        states[page // 4] |= slot << 2 * (page % 4)
    return bytes(states)


def slots_in(body, pages):
    """The slots of so many pages, by this superblock."""
    return [body[Superblock.state_at(page)] >> 2 * (page % 4) & 3 for page in range(pages)]


def superblock_bytes(number, uuid, params, position, start, slots, of_format=TWO):
    """The superblock of this number. The parameters are the window's first size, how many cells the log has, and the rows of each table."""
    window, cells, rows = params
    head = b"REPSUPR" + digit(of_format) + number_bytes(number) + uuid
    shape = number_bytes(window, 2) + number_bytes(cells, 2) + number_bytes(len(rows), 1) + bytes(3) + rows_bytes(rows)
    base = number_bytes(position) + number_bytes(start) + number_bytes(len(slots), 2) + bytes(38)
    return (head + shape + base + states_bytes(slots)).ljust(SUPERBLOCK_BODY, b"\0")


# ---- windows


class Key:
    TABLE, ROW, SIZE = Field(0, 1), Field(1, 4), 5


def key_bytes(key):
    table, row = key
    return number_bytes(table, 1) + number_bytes(row, 4)


class Entry:
    SEQNO, COUNT, KEYS = Field(0, 8), Field(8, 1), 9

    @staticmethod
    def key_at(place):
        """Where the key at this place among its keys begins."""
        return Entry.KEYS + Key.SIZE * place


def entry_bytes(seqno, keys):
    return number_bytes(seqno) + number_bytes(len(keys), 1) + b"".join(map(key_bytes, keys))


class Window:
    MARK, FORMAT, NUMBER, POSITION, COUNT = Field(0, 7), Field(7, 1), Field(8, 8), Field(16, 8), Field(24, 2)
    # Format 2 says the reach; format 1 has zeros there too.
    SIZE, FLOOR, ZEROS, ENTRIES = Field(26, 2), Field(28, 8), Field(36, 220), 256
    ZEROS_OF_ONE = Field(26, 230)


def reach_bytes(reach):
    size, floor = reach
    return number_bytes(size, 2) + number_bytes(floor)


def window_bytes(number, position, entries, reach=None):
    """The window beside the superblock of this number: of format 2 with this reach, or of format 1 where there is none. The entries are
    bytes."""
    mark = b"REPWIND" + digit(TWO if reach else ONE)
    head = mark + number_bytes(number) + number_bytes(position) + number_bytes(len(entries), 2) + (reach_bytes(reach) if reach else b"")
    return (head.ljust(Window.ENTRIES, b"\0") + b"".join(entries)).ljust(WINDOW_BODY, b"\0")


# ---- pages


class Row:
    THERE, LENGTH, VALUE, SIZE = Field(0, 1), Field(1, 1), 2, 64


class Page:
    MARK, NUMBER, TABLE, ZERO, FIRST_ROW = Field(0, 8), Field(8, 2), Field(10, 1), Field(11, 1), Field(12, 4)
    POSITION, ZEROS, ROWS = Field(16, 8), Field(24, 40), 64

    @staticmethod
    def row_at(place):
        """Where the row at this place in the page begins."""
        return Page.ROWS + Row.SIZE * place


def row_bytes(value):
    return (b"" if value is None else bytes([1, len(value)]) + value).ljust(Row.SIZE, b"\0")


def page_bytes(number, table, first_row, position, values):
    """The page of this number. The values are those of its first rows; the others are absent."""
    head = b"REPPAGE1" + number_bytes(number, 2) + number_bytes(table, 1) + bytes(1) + number_bytes(first_row, 4)
    return (head + number_bytes(position) + bytes(40) + b"".join(map(row_bytes, values))).ljust(PAGE, b"\0")


# ---- records and blocks

VERDICTS = ("commit", "conflict", "stale", "future", "badkey")
DELETE, PUT = 0, 1


class Record:
    LENGTH, SEQNO, LAST_SEEN, SOURCE, TRX = Field(0, 2), Field(2, 8), Field(10, 8), Field(18, 8), Field(26, 8)
    VERDICT, CONFLICT, READS, WRITES, KEYS = Field(34, 1), Field(35, 8), Field(43, 1), Field(44, 1), 45

    @staticmethod
    def key_at(place):
        """Where the read key at this place begins; behind the last one the writes begin."""
        return Record.KEYS + Key.SIZE * place


class Change:
    """What a record of a change of the window's size has behind the count of its writes, which is 0."""

    SIZE, END = Field(45, 2), 47


class Write:
    KEY, KIND, LENGTH, VALUE = Field(0, 5), Field(5, 1), Field(6, 1), 7


def write_bytes(key, value, kind=None):
    """A write of a record: a put, or a delete where there is no value. It may say another kind."""
    kind = (DELETE if value is None else PUT) if kind is None else kind
    return key_bytes(key) + number_bytes(kind, 1) + number_bytes(len(value or b""), 1) + (value or b"")


def record_bytes(seqno, last_seen, labels, verdict, reads, writes, conflict=0):
    """A record. The labels are its source and trx, the verdict is a number, the reads are keys, and the writes are bytes."""
    head = b"".join(map(number_bytes, (seqno, last_seen, *labels))) + number_bytes(verdict, 1) + number_bytes(conflict)
    lists = [number_bytes(len(reads), 1), number_bytes(len(writes), 1), *map(key_bytes, reads), *writes]
    return with_length(head + b"".join(lists))


def change_bytes(seqno, labels, size):
    """A record of a change of the window's size."""
    nothing = record_bytes(seqno, 0, labels, VERDICTS.index("commit"), [], [])
    return with_length(nothing[Record.LENGTH.end :] + number_bytes(size, 2))


def with_length(body):
    """The record, which begins with its length."""
    return number_bytes(Record.LENGTH.size + len(body), 2) + body


class Block:
    NUMBER, FIRST, COUNT, RECORDS = Field(0, 8), Field(8, 8), Field(16, 2), 18


def block_bytes(number, first, records, count=None):
    """A block up to the zeros behind its records, which are bytes. It may say another count of them."""
    count = len(records) if count is None else count
    return number_bytes(number) + number_bytes(first) + number_bytes(count, 2) + b"".join(records)


def cell_body(number, first, records):
    """The whole body of a cell, with this block."""
    return block_bytes(number, first, records).ljust(CELL_BODY, b"\0")


def records_in(body):
    """The records of a block, one by one."""
    at = Block.RECORDS
    for _ in range(Block.COUNT.number_in(body)):
        size = Record.LENGTH.number_in(body[at:])
        yield body[at : at + size]
        at += size


# ---- what a joiner has, and transfers


def shape_bytes(window, rows):
    """The window's seqnos and the tables, as a joiner and a donor say them."""
    return number_bytes(window, 2) + number_bytes(len(rows), 1) + rows_bytes(rows)


class Have:
    MARK, UUID, POSITION, WINDOW, TABLES, ROWS = Field(0, 8), Field(8, 16), Field(24, 8), Field(32, 2), Field(34, 1), Field(35, 32)
    SIZE = 67


def have_bytes(uuid, position, window, rows):
    return b"REPHAVE1" + uuid + number_bytes(position) + shape_bytes(window, rows)


class Header:
    MARK, FORMAT, UUID, WINDOW, TABLES, ROWS, SIZE = Field(0, 7), Field(7, 1), Field(8, 16), Field(24, 2), Field(26, 1), Field(27, 32), 59

    @staticmethod
    def rows(table):
        """How many rows the table has."""
        return Field(Header.ROWS.at + 4 * table, 4)


def header_bytes(uuid, window, rows, of_format=TWO):
    return b"REPXFER" + digit(of_format) + uuid + shape_bytes(window, rows)


# Each part begins with its letter.
LETTER = Field(0, 1)
SNAPSHOT, ITEM, END = b"S", b"I", b"E"


class Snapshot:
    """What a snapshot begins with, up to the entries of its window. Format 1 does not say the reach."""

    POSITION, SIZE, FLOOR, COUNT, END = Field(1, 8), Field(9, 2), Field(11, 8), Field(19, 2), 21
    COUNT_OF_ONE, END_OF_ONE = Field(9, 2), 11


class SnapshotPages:
    """What the pages of a snapshot begin with."""

    COUNT = Field(0, 2)


class SnapshotPage:
    NUMBER, ROWS = Field(0, 2), 2

    @staticmethod
    def row_at(place):
        """Where the row at this place in the page begins."""
        return SnapshotPage.ROWS + Row.SIZE * place


def snapshot_pieces(position, entries, pages, reach=None):
    """What a snapshot consists of: what it begins with, the entries of its window, how many pages there are, and these. It is of format 2 with
    this reach, or of format 1 where there is none. The entries are bytes, and each page is its number and the values of its first rows."""
    return (
        [SNAPSHOT + number_bytes(position) + (reach_bytes(reach) if reach else b"") + number_bytes(len(entries), 2)]
        + entries
        + [number_bytes(len(pages), 2)]
        + [number_bytes(page, 2) + page_bytes(page, 0, 0, 0, values)[Page.ROWS :] for page, values in pages]
    )


class Item:
    RECORD = 1

    @staticmethod
    def at(field):
        """The field of the item's record."""
        return field.behind(Item.RECORD)


def item_bytes(record):
    return ITEM + record


class End:
    POSITION, SIZE = Field(1, 8), 9


def end_bytes(last):
    return END + number_bytes(last)


# ---- sums


def sum_bytes(uuid, position, rows):
    """What is digested of these rows, by their keys; a row that is absent is none of them."""
    each = [key_bytes(key) + number_bytes(len(value), 1) + value for key, value in sorted(rows.items())]
    return b"".join([uuid, number_bytes(position)] + each)
