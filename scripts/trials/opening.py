"""Disks whose bytes are written by hand, at their offsets (docs/formats.md): what an opening refuses, what it does not look at, which
superblock counts, what rows stand in pages, what an opening makes stable, and the last seqno."""
from lib.disks import (
    LAST, OPEN, PAGES, SUPERBLOCK_HEAD, comes_back, empty_window, last_line, new, opens, superblock, window_head, with_base, with_item, with_page,
    with_puts,
)
from lib.formats import (
    A, B, CLOSED_GATE, LOG, OPEN_GATE, Block, Record, Superblock, Window, block_bytes, cell_at, cell_gate_at, number_bytes, page_at, record_bytes,
    write_bytes,
)
from lib.node_model import CLUSTER
from lib.trial import BEFORE, SMALL, SMALL_SIZE, Trial, beside_an_item, full_log, of_one_page, put, two_laps

ROW = "read 0/1 %d"
# The block of the item that `one_item` delivers, and its record.
RECORD = record_bytes(1, 0, (7, 8), 0, [], [write_bytes((0, 1), b"a")])
BLOCK = block_bytes(0, 1, [RECORD]).hex()


# All that an opening of a disk with one item reads.
PENDING = ((A.body, superblock(0, 0)), (A.gate, OPEN), (A.window, window_head(0, 0)), (cell_at(0), BLOCK), (cell_gate_at(0), OPEN))


def behind_the_item(trial):
    """What opens behind the one item: its row, its window, and how the next items are judged over that."""
    opens(trial, 1)
    for line, *wanted in (
        ["state", "state %s:1 base 0 window 1" % CLUSTER], ["limits", "size 4 floor 1"], ["window", "window 1", "entry 1 1", "key 0/1"],
        [ROW % 1, "value 61"], [ROW % 0, "absent"], [ROW % 2, "refused 9 not-yet 1"], ["log", "refused 7 not-due"], ["deliver 2 0 w 0/1-", "2 conflict 1"],
        ["deliver 3 1 w 0/1-", "3 commit"], ["deliver 4 2 w 0/1-", "4 conflict 3"],
    ):
        trial.say(line, *wanted)
    return trial


def not_formatted(program):
    for size in (0, LOG - 1, LOG, SMALL_SIZE):
        trial = Trial("%d zero bytes" % size)
        trial.say("disk %d 0" % size, "blank")
        yield comes_back(program, trial, "12 not-formatted")


def too_small(program):
    """A device of one byte less than the parameters need is left as it is; one of as many is not."""
    trial = Trial("one byte less")
    trial.say("disk %d 7" % (SMALL_SIZE - 1), "blank")
    before = last_line(program, trial.text() + "fingerprint\n")
    trial.say("params 4 4 126", "refused 14 too-small 103424")
    trial.say("fingerprint", before)
    trial.say("disk %d 7" % SMALL_SIZE, "blank")
    trial.say("params 4 4 126", "formatted %s:0" % CLUSTER)
    yield trial


def opens_at_nothing(_):
    """Whatever the device held: each of its bytes was that of an open gate. The pages are not touched."""
    trial = Trial("of open gates")
    trial.say("disk %d 165" % (SMALL_SIZE + 7), "blank")
    trial.say("params 4 4 126", "formatted %s:0" % CLUSTER)
    for gate in (B.gate, *map(cell_gate_at, range(SMALL[1]))):
        trial.say("bytes %d 512" % gate, CLOSED_GATE.hex())
    trial.say("bytes %d 512" % A.gate, OPEN_GATE.hex())
    trial.say("bytes %d %d" % (A.body, SUPERBLOCK_HEAD), superblock(0, 0))
    trial.say("bytes %d 512" % (A.body + SUPERBLOCK_HEAD), "00" * 512)
    trial.say("bytes %d 512" % A.window, empty_window(0, 0)[:512].hex())
    for at in range(PAGES, SMALL_SIZE, 512):
        trial.say("bytes %d 512" % at, OPEN * 512)
    trial.say("bytes %d 512" % SMALL_SIZE, OPEN * 7)
    opens(trial, 0)
    for line, wanted in (
        ("limits", "size 4 floor 1"), ("window", "window 0"), (ROW % 0, "absent"), ("log", "refused 7 not-due"), ("check", "refused 7 not-due"),
    ):
        trial.say(line, wanted)
    yield trial


def item_is_found(_):
    trial = with_item("one item")
    trial.say("bytes %d %d" % (cell_at(0), len(BLOCK) // 2), BLOCK)
    trial.say("bytes %d 512" % cell_gate_at(0), OPEN_GATE.hex())
    yield behind_the_item(trial)


# Where the block's record stands; and a stale item in its place, a window without its mark, and a superblock without.
RECORD_AT = cell_at(0) + Block.RECORDS
STALE, NO_WINDOW, NO_SUPERBLOCK = (RECORD_AT + Record.VERDICT.at, "02"), (A.window + Window.MARK.at, "00"), (A.body + Superblock.MARK.at, "00")
# A byte of each part that is not of the form, and what it makes of the device with one item.
CORRUPT = [
    ("13 corrupt log", STALE),
    ("13 corrupt log", (RECORD_AT + Record.SEQNO.last, "02")),
    ("13 corrupt superblock", NO_SUPERBLOCK),
    ("13 corrupt window", NO_WINDOW),
    ("13 corrupt window", (A.window + Window.NUMBER.last, "01")),
    ("12 not-formatted", (A.gate, "00")),
    ("13 corrupt superblock", (B.gate, OPEN)),
    # The number of the other side, a window of no seqno, a page in both slots, and a byte that is to be zero.
    ("13 corrupt superblock", (A.body + Superblock.NUMBER.last, "01")),
    ("13 corrupt superblock", (A.body + Superblock.WINDOW.last, "00")),
    ("13 corrupt superblock", (A.body + Superblock.state_at(0), "03")),
    ("13 corrupt superblock", (A.body + Superblock.LAST_ZEROS.at, "01")),
    # A window of another position.
    ("13 corrupt window", (A.window + Window.POSITION.last, "01")),
    # A block of the second cell, one of the next lap, a first seqno that does not follow, and a byte behind the record.
    ("13 corrupt log", (cell_at(0) + Block.NUMBER.last, "01")),
    ("13 corrupt log", (cell_at(0) + Block.NUMBER.last, "04")),
    ("13 corrupt log", (cell_at(0) + Block.FIRST.last, "02")),
    ("13 corrupt log", (RECORD_AT + len(RECORD), "01")),
    # The first page stands in its first slot, into which none was written.
    ("13 corrupt pages", (A.body + Superblock.state_at(0), "01")),
    # The undefined node's log holds no block.
    ("13 corrupt log", (A.body + Superblock.UUID.at, "00" * 16)),
    # Of several the first is answered: superblock, window, log.
    ("13 corrupt window", STALE, NO_WINDOW),
    ("13 corrupt superblock", STALE, NO_WINDOW, NO_SUPERBLOCK),
]


def each_part(program):
    for refusal, *puts in CORRUPT:
        title = ", ".join("%d to %s" % changed for changed in puts)
        yield comes_back(program, with_item("%s, %s" % (refusal, title), *puts), refusal)
    for size, refusal in ((SMALL_SIZE - 1, "13 corrupt superblock"), (LOG, "13 corrupt superblock"), (LOG - 1, "12 not-formatted")):
        trial = with_item("cut to %d bytes" % size)
        trial.say("cut %d" % size, "cut")
        yield comes_back(program, trial, refusal)
    trial = Trial("a page of the base behind a checkpoint")
    beside_an_item().play(trial)
    trial.say("crash keep", "crashed")
    yield comes_back(program, with_puts(trial, [(PAGES, "00")]), "13 corrupt pages")


def not_looked_at(_):
    """Neither a closed cell nor a page in no slot is looked at, nor a byte behind those that are needed."""
    for at in (cell_at(1), PAGES, SMALL_SIZE - 1, SMALL_SIZE):
        yield opens(with_item("a byte at %d" % at, (at, "01")), 1)
    yield opens(with_item("a closed gate", (cell_gate_at(0), "00")), 0)


def greater_counts(program):
    """Of two superblocks the greater counts. The lesser one has to be of the form too, though its window is not looked at."""
    make = lambda title: with_base(new(title), B, 1, 3)
    trial = opens(make("two superblocks"), 3, 3, "busy")
    trial.say("state", "state %s:3 base 3 window" % CLUSTER)
    for line, *wanted in (
        ["read 0/1 3", "absent"], ["read 0/125 3", "absent"], ["read 0/126 3", "refused 10 bad-key"],
        ["deliver 4 3 w 0/1=61", "4 commit"], ["log", "wrote"], ["sync", "synced 0"], ["log", "wrote"], ["sync", "synced 1", "reply 4 commit 0:0"],
    ):
        trial.say(line, *wanted)
    # It starts at the first cell, as the greater one says: the cell's number, its first seqno, and a record of 53 bytes.
    shown = block_bytes(0, 4, [number_bytes(53, 2) + number_bytes(4)])[:26]
    trial.say("bytes %d %d" % (cell_at(0), len(shown)), shown.hex())
    yield trial
    yield comes_back(program, with_puts(make("a lesser one of no form"), [NO_SUPERBLOCK]), "13 corrupt superblock")
    yield opens(with_puts(make("a lesser window of no form"), [NO_WINDOW]), 3, 3, "busy")
    yield comes_back(program, with_puts(make("a greater window of no form"), [(B.window + Window.MARK.at, "00")]), "13 corrupt window")


def pages_in_a_slot(program):
    """A page is read, and has to be of the form, of its number and at most of the superblock's position."""
    make = lambda title: with_base(new(title), B, 1, 3, 2)
    place = page_at(SMALL[1], 0, 1)
    yield comes_back(program, make("no page"), "13 corrupt pages")
    yield opens(with_page(make("a page"), place, 0, 3), 3, 3, "busy")
    yield comes_back(program, with_page(make("of a later position"), place, 0, 4), "13 corrupt pages")
    yield comes_back(program, with_page(make("of another number"), place, 1, 3), "13 corrupt pages")


def opens_at_the_last(_):
    trial = opens(with_base(new("the last position"), A, 2, LAST), LAST, LAST)
    trial.say("limits", "size 4 floor %d" % (LAST - 3))
    trial.say("window", "window 0")
    trial.say(ROW % (LAST - 1), "refused 8 too-old %d" % LAST)
    trial.say(ROW % LAST, "absent")
    trial.say("deliver %d 0 w 0/1-" % (LAST + 1), "refused 23 exhausted")
    trial.say("deliver %d window 2" % (LAST + 1), "refused 23 exhausted")
    yield trial


def makes_stable_what_it_finds(_):
    """What is durable after an opening has to be stable: the bytes that were pending before it are."""
    for loss in ("drop", "junk"):
        trial = new("pending bytes, " + loss)
        for at, text in PENDING:
            trial.say("write %d %s" % (at, text), "written")
        opens(trial, 1)
        trial.say("stop " + loss, "open %s:1" % CLUSTER)
        yield behind_the_item(trial)
        trial = new("lost bytes, " + loss)
        trial.say("write %d %s" % (cell_at(0), BLOCK), "written")
        trial.say("write %d %s" % (cell_gate_at(0), OPEN), "written")
        trial.say("crash " + loss, "crashed")
        yield opens(trial, 0)


def behind_the_last(title):
    """A node behind the item with the last seqno, on a disk that was opened again: its base stands at the one before."""
    trial = opens(with_base(new(title), A, 0, LAST - 1), LAST - 1, LAST - 1)
    trial.say(put(LAST - 1, 8, b"a").delivery(LAST), "%d commit" % LAST)
    for line, *wanted in (["log", "wrote"], ["sync", "synced 0"], ["log", "wrote"], ["sync", "synced 1", "reply %d commit 7:8" % LAST]):
        trial.say(line, *wanted)
    return opens(trial, LAST, LAST - 1)


def no_item_behind_the_last(_):
    trial = behind_the_last("behind the last seqno")
    for seqno in (0, LAST, LAST + 1, 2**64 - 1):
        trial.say(put(0, 8, b"a").delivery(seqno), "refused 23 exhausted")
    yield trial


def rows_below_the_base(_):
    trial = behind_the_last("rows at the last seqno")
    for s, wanted in (
        (LAST + 1, "refused 9 not-yet %d" % LAST), (LAST, "value 61"), (LAST - 1, "absent"), (LAST - 2, "refused 8 too-old %d" % (LAST - 1)),
    ):
        trial.say(ROW % s, wanted)
    yield trial


def base_at_the_last(_):
    trial = behind_the_last("the base at the last seqno")
    trial.say("check", "began %d" % LAST)
    trial.say("flush 0", "wrote")
    for _ in range(4):
        trial.say("check", "wrote")
        trial.say("sync", "synced 0")
    for is_opened in (False, True):
        if is_opened:
            opens(trial, LAST, LAST)
        trial.say("node", "node %d %d %d quiet running" % (LAST, LAST, LAST))
        trial.say("state", "state %s:%d base %d window %d" % (CLUSTER, LAST, LAST, LAST))
        trial.say("check", "refused 7 not-due")
        trial.say(ROW % LAST, "value 61")
        trial.say(ROW % (LAST - 1), "refused 8 too-old %d" % LAST)
    yield trial


def with_a_page(title):
    """A disk whose base stands at the position 1. The first page stands in its first slot, and has `b` in its row 1."""
    return with_page(with_base(new(title), A, 0, 1, 1), PAGES, 0, 1, "62")


def rows_until_they_are_written(_):
    """Rows are those of the base until they are written."""
    trial = opens(with_a_page("a row of a page"), 1, 1)
    trial.say(put(1, 9, b"a").delivery(2), "2 commit")
    for line, *wanted in (["log", "wrote"], ["sync", "synced 0"], ["log", "wrote"], ["sync", "synced 1", "reply 2 commit 7:9"]):
        trial.say(line, *wanted)
    trial.say("node", "node 2 2 1 quiet running")
    trial.say("state", "state %s:2 base 1 window 2" % CLUSTER)
    for s, wanted in ((2, "value 61"), (1, "value 62"), (0, "refused 8 too-old 1")):
        trial.say(ROW % s, wanted)
    yield trial


def rows_that_no_page_has(_):
    """Rows that the page does not have, and those of one that stands in no slot, are absent."""
    trial = opens(with_a_page("rows of no page"), 1, 1)
    for row in (0, 2, 62, 63, 125):
        trial.say("read 0/%d 1" % row, "absent")
    yield trial


def calls_of_an_opening(program):
    """How many calls of its device the opening of a disk with a page makes: so many that a fault at the next one isn't met."""
    text = with_a_page("").text()
    return next(n for n in range(100) if last_line(program, text + "fail once %d\nopen\n" % n).startswith("open "))


def a_page_that_is_read_again(program):
    """The device passes the calls of the opening and one read: a page is asked of it once, and its rows then come of the pool."""
    trial = with_a_page("a page that is read again")
    trial.say("fail from %d" % (calls_of_an_opening(program) + 1), "armed")
    opens(trial, 1, 1)
    for row, wanted in ((1, "value 62"), (1, "value 62"), (0, "absent"), (62, "absent"), (1, "value 62")):
        trial.say("read 0/%d 1" % row, wanted)
    trial.say("failures", "failures 0")
    yield trial


def a_read_that_meets_a_fault(program):
    """It stops the node, and the row is there once the device serves."""
    call = calls_of_an_opening(program)
    trial = with_a_page("a read that meets a fault")
    trial.say("fail once %d" % call, "armed")
    opens(trial, 1, 1)
    trial.say(ROW % 1, "refused 2 disk-fault")
    trial.say(ROW % 1, "refused 3 stopped")
    trial.say("failures", "failures 1")
    opens(trial, 1, 1)
    trial.say(ROW % 1, "value 62")
    yield trial


def refused_openings(program):
    """A device that fails while it is opened is as it was, and opens once it serves. With an item it makes ten calls: a sync, a gate
    and a body, the other gate, the window, a gate and a body, and three gates."""
    before = last_line(program, with_item("").text() + "fingerprint\n")
    for kind in ("once", "from"):
        for call in range(11):
            trial = with_item("%s %d" % (kind, call))
            trial.say("fail %s %d" % (kind, call), "armed")
            if call < 10:
                trial.say("open", "refused 2 disk-fault")
                trial.say("fingerprint", before)
                trial.say("failures", "failures 1")
                if kind == "from":
                    trial.say("crash drop", "crashed")
            yield behind_the_item(trial)


def both_open(trial):
    """A checkpoint whose superblock stands open beside the one before it."""
    script = of_one_page()
    life = script.play(trial, len(script.events) - 2)
    assert life.node.phase() == "retiring"
    return life


# Disks of lives, and how many calls their openings make: a sync; a gate, and a body where it stands open, of each superblock; the window; of
# each of the four cells a gate, and a body where it stands open; and the pages in a slot.
OPENINGS = [
    ("a page in a slot", lambda trial: of_one_page().play(trial), 1 + 3 + 1 + 6 + 2),
    ("both superblocks open", both_open, 1 + 4 + 1 + 6 + 2),
    ("cells of an earlier lap", lambda trial: two_laps().play(trial), 1 + 3 + 1 + 7 + 2),
    ("a full log", lambda trial: full_log().play(trial, BEFORE), 1 + 3 + 1 + 8),
]


def refused_openings_of_lives(program):
    """The same of disks that were lived on: what opens behind the fault is what opens without one, and goes on."""
    for title, play, calls in OPENINGS:
        for kind in ("once", "from"):
            for call in range(calls + 1):
                trial = Trial("%s, %s %d" % (title, kind, call))
                life = play(trial)
                trial.say("crash drop", "crashed")
                before, opened = last_line(program, trial.text() + "fingerprint\n"), life.node.stop("drop")
                trial.say("fail %s %d" % (kind, call), "armed")
                if call < calls:
                    trial.say("open", "refused 2 disk-fault")
                    trial.say("fingerprint", before)
                    trial.say("failures", "failures 1")
                    if kind == "from":
                        trial.say("crash drop", "crashed")
                # Where no call of the opening failed, the next one would.
                trial.say("open", *opened)
                life.shows()
                trial.say("crash drop", "crashed")
                trial.say("open", *opened)
                life.agrees()
                life.goes_on(life.node.order)
                yield trial


def refused_formats(_):
    """A device that fails while it is formatted tells of it, and is formatted once it serves. It makes twelve calls: the six gates, a
    sync, the body, the window, a sync, the gate, a sync."""
    for call in range(13):
        trial = Trial("formatting, once %d" % call)
        trial.say("disk %d 0" % SMALL_SIZE, "blank")
        trial.say("fail once %d" % call, "armed")
        trial.say("params 4 4 126", "formatted %s:0" % CLUSTER if call == 12 else "refused 2 disk-fault")
        trial.say("failures", "failures %d" % (call < 12))
        trial.say("crash drop", "crashed")
        trial.say("params 4 4 126", "formatted %s:0" % CLUSTER)
        yield opens(trial, 0)


TRIALS = [
    ("a disk that is not formatted comes back", not_formatted),
    ("a device that is too small is left as it is", too_small),
    ("a formatted device opens at nothing", opens_at_nothing),
    ("an item of the log is found", item_is_found),
    ("each part is corrupt at a byte of its own", each_part),
    ("neither a closed cell nor a page in no slot is looked at", not_looked_at),
    ("of two superblocks the greater counts", greater_counts),
    ("pages in a slot are held to their form", pages_in_a_slot),
    ("a node opens at the last position and takes no item", opens_at_the_last),
    ("an opening makes stable what it finds", makes_stable_what_it_finds),
    ("no item comes behind the last seqno", no_item_behind_the_last),
    ("rows below the base are too old", rows_below_the_base),
    ("the base can stand at the last seqno", base_at_the_last),
    ("rows are those of the base until they are written", rows_until_they_are_written),
    ("rows that no page has are absent", rows_that_no_page_has),
    ("a page is asked of the device once", a_page_that_is_read_again),
    ("a read that meets a fault stops the replica", a_read_that_meets_a_fault),
    ("a fault at each call of an opening changes nothing", refused_openings),
    ("a fault at each call of the opening of a used disk changes nothing", refused_openings_of_lives),
    ("a fault at each call of a formatting is told", refused_formats),
]
