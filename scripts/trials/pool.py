"""Pages on their way through the pool: which of them a replica asks its device for, over a base that has one page more than a pool keeps,
and what stands in the slots of pages, byte by byte."""
from lib.disks import opens, with_base, with_page, with_puts
from lib.formats import A, LOG, PAGE, PAGE_ROWS, Key, Row, Superblock, key_bytes, need, number_hex, page_at, row_bytes, states_bytes
from lib.model_bytes import page_of
from lib.node_model import Item
from lib.trial import SMALL_SIZE, Life, Trial

# A page more than a pool keeps, in their first slots, on a device with four cells. The opening makes so many calls of the device: a sync, a
# gate and a body, the other gate, the window, four gates, and the pages.
CELLS, COUNT = 4, 65
OPENING = 1 + 2 + 1 + 1 + 4 + COUNT
FAULT = "refused 2 disk-fault"


def row_of(page):
    """The row of the page that holds its number and one."""
    return "0/%d" % (PAGE_ROWS * page + 1)


def value_of(page):
    return "value " + number_hex(page + 1, 1)


def with_pages(title, calls):
    """A node whose base stands at the position 1, on a device that serves so many calls behind the opening."""
    trial = Trial(title)
    trial.say("disk %d 0" % need(CELLS, COUNT), "blank")
    states = [
        (A.body + Superblock.rows(0).at, number_hex(PAGE_ROWS * COUNT, 4)), (A.body + Superblock.PAGES.at, number_hex(COUNT, 2)),
        (A.body + Superblock.STATES.at, states_bytes([1] * COUNT).hex()),
    ]
    with_puts(with_base(trial, A, 0, 1), states)
    for page in range(COUNT):
        with_page(trial, page_at(CELLS, page), page, 1, number_hex(page + 1, 1))
    trial.say("fail from %d" % (OPENING + calls), "armed")
    return opens(trial, 1, 1)


def reads(trial, *pages, s=1):
    for page in pages:
        trial.say("read %s %d" % (row_of(page), s), value_of(page))


def asks(trial, page, s=1):
    """The page is the first thing that the device does not serve."""
    trial.say("read %s %d" % (row_of(page), s), FAULT)
    trial.say("failures", "failures 1")


def asked_once(_):
    """The second reading of a page is served without the device."""
    for pages in ((0, 0, 1), (0, 1, 0)):
        trial = with_pages("pages %d, %d, %d" % pages, len(set(pages)))
        reads(trial, *pages)
        trial.say("read %s 1" % row_of(pages[0]), value_of(pages[0]))
        asks(trial, 2)
        yield trial


def first_goes(_):
    """The page that was used first goes: page 0 and 64 others, and page 0 again, which was used before all of these. Then page 1, which
    went for it, is asked of the device, and the others are not."""
    trial = with_pages("65 pages", COUNT + 1)
    reads(trial, 0, 0, *range(1, COUNT), 0, *range(2, COUNT), 0)
    asks(trial, 1)
    yield trial


def a_block(trial, page):
    """The second item puts another row of the page, and is durable by four calls of the device."""
    trial.say(Item(1, [((0, PAGE_ROWS * page + 2), b"a")], trx=2).delivery(2), "2 commit")
    for line, *wanted in (["log", "wrote"], ["sync", "synced 0"], ["log", "wrote"], ["sync", "synced 1", "reply 2 commit 7:2"]):
        trial.say(line, *wanted)
    trial.say("check", "began 2")


def kept_ones_are_taken(_):
    """A page that is kept is flushed by a write alone, and is then asked of the device again; others stay."""
    trial = with_pages("a page that is kept", 2 + 4 + 1 + 1)
    reads(trial, 3, 4)
    a_block(trial, 3)
    trial.say("flush 3", "wrote")
    reads(trial, 4, 3, 3, 4)
    asks(trial, 5)
    yield trial
    trial = with_pages("a page that is not kept", 4 + 2 + 1)
    a_block(trial, 3)
    trial.say("flush 3", "wrote")
    reads(trial, 3, 3)
    asks(trial, 4)
    yield trial
    trial = with_pages("a page that is flushed again", 2 + 4)
    reads(trial, 3, 4)
    a_block(trial, 3)
    trial.say("flush 3", FAULT)
    yield trial


def left_slots(_):
    """What is kept of a slot that the base has left is not given: the page is asked of the other one."""
    trial = with_pages("a slot that the base has left", 1 + 4 + 1 + 1 + 8 + 1)
    reads(trial, 9)
    a_block(trial, 9)
    trial.say("flush 9", "wrote")
    reads(trial, 9, 9)
    for _ in range(4):
        trial.say("check", "wrote")
        trial.say("sync", "synced 0")
    trial.say("read 0/%d 2" % (PAGE_ROWS * 9 + 2), "value 61")
    reads(trial, 9, s=2)
    asks(trial, 10, 2)
    yield trial


def to_the_last_byte(_):
    """The last area of the device is the second slot of the last page, whose last row ends with its last byte."""
    trial = Trial("the last byte of the device")
    life = Life(trial)
    for seqno, byte in ((1, "aa"), (2, "bb")):
        life.do((seqno, Item(seqno - 1, [((0, 125), bytes.fromhex(byte) * 62)], trx=seqno)))
        life.does_what_is_due([(0, 125)])
    life.stop("drop", [(0, 125)])
    trial.say("read 0/125 2", "value " + "bb" * 62)
    trial.say("bytes %d %d" % (SMALL_SIZE - Row.SIZE, Row.SIZE + 1), row_bytes(b"\xbb" * 62).hex())
    trial.say("bytes %d %d" % (SMALL_SIZE - PAGE - Row.SIZE, Row.SIZE), row_bytes(b"\xaa" * 62).hex())
    yield trial


def shows_page(trial, order, page, position, slot):
    """The page stands in this slot as the order has it at the position."""
    data = page_of(order, page, position)
    for at in range(0, PAGE, 512):
        trial.say("bytes %d 512" % (page_at(CELLS, page, slot) + at), data[at : at + 512].hex())


# Two tables, of which the second has the pages 2 to 4: rows 0 to 62, 63 to 125, and 126 to 129.
TABLES, TABLES_SIZE = (4, CELLS, (126, 130)), need(CELLS, 5)
CHANGES = [
    {(0, 1): b"a"}, {(0, 125): b"b"}, {(1, 126): b"ab", (1, 129): b""}, {(0, 1): b"c"}, {(1, 125): b"c", (1, 126): None}, {(1, 128): b"d"},
]


def delivers(life, first, last):
    """These changes are delivered and become durable."""
    for seqno in range(first, last + 1):
        life.do((seqno, Item(seqno - 1, sorted(CHANGES[seqno - 1].items()), trx=seqno)))
    for event in ("log", "sync", "log", "sync"):
        life.do(event)


def becomes_base(life):
    """Every page is tried to be flushed: those are that changed, and no other; and the base rises."""
    for page in range(6):
        life.do("flush %d" % page)
    while life.node.phase() != "off":
        life.do(life.node.due())


def at_positions(_):
    """A page is flushed as its rows were at the position of the checkpoint: without what came later, and with what no item changed since
    the one before."""
    for is_second in (False, True):
        trial = Trial("pages at the position %d" % (6 if is_second else 4))
        life = Life(trial, TABLES, TABLES_SIZE)
        delivers(life, 1, 4)
        life.do("check")
        delivers(life, 5, 6)
        becomes_base(life)
        shown = [(0, 4, 0), (1, 4, 0), (4, 4, 0)]
        if is_second:
            life.do("check")
            becomes_base(life)
            shown += [(3, 6, 0), (4, 6, 1)]
        life.stop("drop", [(0, 1), (1, 125), (1, 126), (1, 128), (1, 129)])
        for page in shown:
            shows_page(trial, life.node.order, *page)
        yield trial


def rows_in_pages(_):
    """Rows lie in pages table by table, with which a table begins anew; and none lies behind a table's last."""
    trial = Trial("three tables")
    life = Life(trial, (4, CELLS, (64, 63, 1)), need(CELLS, 4))
    rows = [(0, 0), (0, 62), (0, 63), (1, 0), (1, 62), (2, 0)]
    life.do((1, Item(0, [(key, bytes([at + 1])) for at, key in enumerate(rows)], trx=1)))
    life.does_what_is_due(rows + [(0, 64), (1, 63), (2, 1), (3, 0)])
    for page in range(4):
        shows_page(trial, life.node.order, page, 1, 0)
    yield trial


def largest_disk(_):
    """The most cells and pages need so many bytes."""
    trial = Trial("the largest disk")
    trial.say("disk 1 0", "blank")
    trial.say("params 256 1024 258048", "refused 14 too-small 41997312")
    yield trial


def widest_window(_):
    """A window of 256 items with 16 keys each has no byte left, and is read again."""
    trial = Trial("256 items of 16 keys")
    life = Life(trial, (256, 8, (126,)), need(8, 2))
    for seqno in range(1, 257):
        life.do((seqno, Item(seqno - 1, [((0, row), None) for row in range(16)], trx=seqno)))
    life.does_what_is_due([(0, 1)])
    life.stop("drop", [(0, 1)])
    # Its window is that of the second superblock, and ends before the log.
    trial.say("bytes %d %d" % (LOG - Key.SIZE, Key.SIZE), key_bytes((0, 15)).hex())
    yield trial


TRIALS = [
    ("a page that is kept is not asked of the device", asked_once),
    ("the page that was used first goes", first_goes),
    ("a page that is kept is flushed without being read, and then asked again", kept_ones_are_taken),
    ("a page is asked of the slot that the base has it in", left_slots),
    ("the last page reads as it was written to the last byte", to_the_last_byte),
    ("a page stands in its slot as it was at the position", at_positions),
    ("rows lie in pages table by table", rows_in_pages),
    ("the most cells and pages need so many bytes", largest_disk),
    ("the largest window leaves no byte", widest_window),
]
