"""Joins over failing devices: nodes that are brought up to date by what a donor writes for them, whole; stops with each loss and faults at
each call that a join makes; transfers that are cut behind each part and within it, or changed; donors that fail; and who is refused."""
from lib.faults import FAULT, STOPPED, calls_of_an_opening
from lib.formats import (
    A, B, ITEM, LETTER, End, Entry, Header, Item, Key, Record, Row, Snapshot, SnapshotPage, SnapshotPages, Superblock, Write, cell_at, number_hex,
    page_at,
)
from lib.installs import AT, OFF, PARAMS, SIZE, behind_a_block, fresh, of_no_cluster, with_pages, wrapped
from lib.joins import (
    ENDINGS, HEADER, JOINERS, KEYS, LAST, NOTHING, SHORT, Meeting, Transfer, at_each_call, behind_by_items, failing, is_cut, joined, malformed,
    met_by, shown, with_all, with_full_log,
)
from lib.model_bytes import header_of
from lib.node_model import CLUSTER, LOSSES, UNDEFINED, does
from lib.trial import params_line

WRONG_CLUSTER = "refused 20 wrong-cluster"


# ---- the nodes that join


def far(title):
    """A donor with a log of eight cells that has 300 items, all but eight of them behind its base, and a node of no cluster: more
    items than may wait, and more than its log of four cells has room for."""
    items = [(seqno - 1, {(0, seqno % 70): bytes([seqno % 256])}, [], "commit") for seqno in range(1, 303)]
    scene = Meeting(title, items, [(0, 0), (0, 1), (0, 69)])
    scene.lends(300, cells=8)
    scene.new_node(is_defined=False)
    return scene


# A snapshot of one page; four blocks of the 256 items that may wait; a checkpoint of two pages, one of which is read; and a block in a cell
# that stands open.
FAR_CALLS, FAR_ENDS = 1 + 8 + 4 * 4 + 3 + 8 + 6, (AT, 72, 136, 200, 264, 300)


def far_behind(program):
    scene = far("far behind")
    scene.joins()
    scene.say("node", "node 300 300 264 quiet running")
    scene.life.stop("drop", scene.keys)
    scene.goes_on()
    yield scene.trial
    # One loss behind each call: blocks and calls are many.
    yield from at_each_call(far, FAR_CALLS, "once", FAR_ENDS, program, lambda done: LOSSES[done % 3 :][:1])


def at_nothing(_):
    """A node of no cluster joins a donor to which nothing was delivered, and is of its cluster then."""
    for loss in LOSSES:
        scene = Meeting("at nothing, " + loss)
        scene.lends(0, base=0)
        of_no_cluster(scene)
        # A header, a snapshot of no entries and no pages, and an end.
        assert len(scene.donates().bytes()) == 59 + 23 + 9
        scene.joins()
        scene.life.stop(loss, KEYS)
        scene.joins()
        scene.goes_on()
        yield scene.trial


def through_another(_):
    """A node that joined is a donor itself; and one that joined joins again once a donor has moved on."""
    for loss in LOSSES:
        scene = met_by("through another, " + loss, with_pages)
        scene.joins()
        scene.is_lent()
        for make in (of_no_cluster, wrapped, behind_by_items):
            make(scene)
            scene.joins()
        scene.life.stop(loss, KEYS)
        third = scene.node()
        of_no_cluster(scene)
        scene.joins()
        scene.does_all(26)
        scene.donor = scene.node()
        scene.say("swap", "lent %s:26 base 26" % CLUSTER)
        of_no_cluster(scene)
        scene.joins()
        scene.goes_on()
        assert third.durable == LAST
        yield scene.trial


def not_quiet(_):
    """A node with a block or a checkpoint under way settles first. Where it has more by then than it said, the transfer is not for it,
    and it joins again."""
    steps, is_done = 0, False
    while not is_done:
        for delivered in (6, 7, 9):
            scene = met_by("%d delivered, %d steps" % (delivered, steps), wrapped)
            scene.delivers(delivered)
            for _ in range(steps):
                if scene.node().due():
                    scene.life.do(scene.node().due())
            is_done = delivered == 9 and not scene.node().due()
            if scene.node().durable < AT <= scene.node().delivered:
                transfer = scene.donates()
                does(transfer.taken(scene.node(), 0))
                scene.say("join", malformed(HEADER))
                scene.life.agrees(KEYS)
            scene.joins()
            scene.goes_on()
            yield scene.trial
        steps += 1


# ---- donors that fail


# The donor reads its window, three pages, and of three blocks the gate and the body each. Where the blocks end.
READS, BLOCKS = 1 + 3 + 2 * 3, (AT, 12, 22)


def written_by(transfer, done):
    """How many parts of the transfer are written whole, and how many bytes, where so many reads of the donor are served, but not all."""
    if done < 4:
        pieces = transfer.pieces[: len(transfer.pieces) - 4 + done] if done else []
        return 1, HEADER + sum(map(len, pieces))
    parts = 2 + BLOCKS[(done - 4) // 2] - AT
    return parts, transfer.starts[parts]


def failing_donors(program):
    """A donor whose device fails at each of its reads is stopped, and nothing changes on its disk. What it wrote is a transfer that is cut,
    and the node joins another donor."""
    alone = Meeting("the opening")
    alone.lends()
    calls = calls_of_an_opening(program, alone.trial.text())
    for done in range(READS + 1):
        for kind in ("once", "from"):
            scene = Meeting("a donor fails %s %d" % (kind, done))
            scene.lends()
            scene.say("fail %s %d" % (kind, calls + done), "armed")
            scene.say("swap", "lent %s:24 base 8" % CLUSTER)
            fresh(scene)
            transfer = Transfer(scene.donor, scene.node())
            if done == READS:
                scene.joins()
                scene.say("donate", FAULT, shown(header_of(scene.order)))
                yield scene.trial
                continue
            parts, size = written_by(transfer, done)
            scene.say("donate", FAULT, shown(transfer.bytes()[:size]))
            does(transfer.taken(scene.node(), parts - 1))
            scene.say("join", malformed(transfer.starts[parts]))
            scene.life.agrees(KEYS)
            scene.say("donate", STOPPED, NOTHING)
            does(transfer.taken(scene.node(), 0))
            scene.say("join", malformed(0))
            scene.life.agrees(KEYS)
            node = scene.node()
            scene.say("swap", "lent %s base %d" % (node.gtid(), node.base()))
            scene.say("crash drop", "crashed")
            scene.open_as(scene.donor)
            scene.life.agrees(KEYS)
            scene.say("swap", "lent %s:24 base 8" % CLUSTER)
            scene.open_as(node)
            scene.joins()
            scene.goes_on()
            yield scene.trial


def bad_donors(program):
    """A donor whose window, a page of whose base, or one of whose blocks is bad, writes no transfer, but is not stopped."""
    alone = Meeting("the opening")
    alone.lends()
    calls = calls_of_an_opening(program, alone.trial.text())
    places = (("window", B.window, 0), ("pages", page_at(PARAMS[1], 0), 1), ("pages", page_at(PARAMS[1], 2), 3), ("log", cell_at(1), 4))
    for part, place, done in places:
        scene = Meeting("a bad donor, " + part)
        scene.lends()
        scene.say("damage %d %d ff" % (calls, place), "damaged")
        scene.say("swap", "lent %s:24 base 8" % CLUSTER)
        fresh(scene)
        transfer = Transfer(scene.donor, scene.node())
        parts, size = written_by(transfer, done)
        for _ in range(2):
            scene.say("donate", "refused 13 corrupt " + part, shown(transfer.bytes()[:size]))
        does(transfer.taken(scene.node(), parts - 1))
        scene.say("join", malformed(transfer.starts[parts]))
        scene.life.agrees(KEYS)
        scene.life.settle(KEYS)
        scene.goes_on()
        yield scene.trial


# ---- transfers that are cut, or changed


def cuts_of(transfer):
    """Where a transfer is cut: each with how many parts behind the header stand before it, and where the part begins that is not whole."""
    for index, (start, part) in enumerate(zip(transfer.starts, transfer.parts)):
        within = {1, len(part) // 2, len(part) - 1}
        if index == 1 and transfer.pieces:
            ends = [sum(map(len, transfer.pieces[:at])) for at in range(1, len(transfer.pieces) + 1)]
            within |= {place for end in ends for place in (end - 1, end, end + 1) if place < len(part)}
        for place in [0] + sorted(within):
            yield start + place, max(index - 1, 0), start


def transfer_for(make):
    scene = met_by("a pair", make)
    return Transfer(scene.donor, scene.node())


def cut(make):
    def trials(_):
        for number, (place, count, at) in enumerate(cuts_of(transfer_for(make))):
            # Behind each part all of the endings, and within it one.
            for ending in ENDINGS if place == at else ENDINGS[number % 5 :][:1]:
                scene = met_by("cut at %d, %s" % (place, ending), make)
                transfer = scene.donates()
                scene.say("shorten %d" % place, "spoilt %d" % place)
                yield is_cut(scene, transfer, count, malformed(at), ending)

    return trials


SHORT_SIZE, SHORT_CUTS = 230, [(0, 0, 6), (59, 59, 6), (113, 113, 7), (167, 167, 8), (221, 221, 9)]


def of_each_length(_):
    """A node at 6 joins a donor at 9 whose base is at 4, by a transfer that is cut behind each number of bytes, and then by it whole."""
    scene = Meeting("each length", SHORT, [(0, 6), (0, 7), (0, 8), (0, 9)])
    scene.lends(9, base=4)
    scene.new_node()
    scene.logs(6)
    for place in range(SHORT_SIZE):
        _, at, delivered = max(row for row in SHORT_CUTS if row[0] <= place)
        transfer = scene.donates()
        assert len(transfer.bytes()) == SHORT_SIZE
        scene.say("shorten %d" % place, "spoilt %d" % place)
        does(transfer.taken(scene.node(), delivered - 6))
        scene.say("join", malformed(at))
        scene.say("node", "node %d 6 0 %s running" % (delivered, "quiet" if delivered == 6 else "busy"))
        scene.say("crash drop", "crashed")
        scene.say("open", *scene.node().stop("drop"))
    scene.joins()
    yield scene.trial


# Pieces of a snapshot, each with a field whose lowest byte becomes this: more entries than the window's seqnos, a key of another table, more
# pages than there are, and pages of other numbers.
CHANGED_PIECES = [
    (0, Snapshot.COUNT, 5), (1, Key.TABLE.behind(Entry.KEYS), 4), (5, SnapshotPages.COUNT, 4),
    (6, SnapshotPage.NUMBER, 3), (7, SnapshotPage.NUMBER, 4), (8, SnapshotPage.NUMBER, 0),
]


def changes_of(transfer, is_defined):
    """Changes of one byte: where, and to what; how many parts behind the header stand before it, and how the rest is refused."""
    data = transfer.bytes()
    yield Header.MARK.at, 0, 0, malformed(0)
    if is_defined:
        yield Header.UUID.at, 0x22, 0, WRONG_CLUSTER
    # The window, and the rows of each table.
    for field in (Header.WINDOW, Header.rows(0), Header.rows(1), Header.rows(2)):
        yield field.last, data[field.last] + 1, 0, WRONG_CLUSTER
    for index, start in list(enumerate(transfer.starts))[1:]:
        is_item = data[start : start + 1] == ITEM
        yield start + LETTER.at, ord("X"), index - 1, malformed(start)
        # A snapshot's position, a record's seqno, the position of the end.
        field = Item.at(Record.SEQNO) if is_item else Snapshot.POSITION if index == 1 and transfer.pieces else End.POSITION
        place = start + field.last
        yield place, data[place] + 1, index - 1, malformed(start)
        if is_item:
            place = start + Item.at(Record.VERDICT).at
            yield place, (data[place] + 2) % 5, index - 1, malformed(start)
    if transfer.pieces:
        starts = transfer.piece_starts()
        for piece, field, byte in CHANGED_PIECES:
            yield starts[piece] + field.last, byte, 0, malformed(HEADER)


def changed(make):
    def trials(_):
        for number, (place, byte, count, refusal) in enumerate(changes_of(transfer_for(make), make != of_no_cluster)):
            ending = ENDINGS[number % 5]
            scene = met_by("changed at %d, %s" % (place, ending), make)
            transfer = scene.donates()
            scene.say("spoil %d %d" % (place, byte), "spoilt %d" % len(transfer.bytes()))
            yield is_cut(scene, transfer, count, refusal, ending)

    return trials


# Bytes at places of the header, of a piece of the snapshot (its head, the entries 5 to 8, the number of pages, the pages 0 to 2), and of the
# record of an item, that are none of the form, or no part that may come there.
HEADERS = [
    ("another mark", Header.MARK.last, "53"), ("a format before the first", Header.FORMAT.at, "30"),
    ("a format behind the last", Header.FORMAT.at, "33"), ("no UUID", Header.UUID.at, "00" * 16), ("a window of no seqno", Header.WINDOW.at, "0000"),
    ("a window of 257 seqnos", Header.WINDOW.at, "0101"), ("no table", Header.TABLES.at, "00"), ("nine tables", Header.TABLES.at, "09"),
    ("a table without rows", Header.rows(0).at, "00000000"), ("rows of a table that is not there", Header.rows(3).at, "00000001"),
    ("more pages than there may be", Header.rows(0).at, "0003f000"),
]
# The second key of an entry, the first row of a page, and the eighth: the first behind the end of the table that has 70 rows.
SECOND_KEY, FIRST_ROW, EIGHTH_ROW = Entry.key_at(1), SnapshotPage.row_at(0), SnapshotPage.row_at(7)
SNAPSHOTS = [
    ("a size of 0", 0, Snapshot.SIZE.at, "0000"), ("a size of 257", 0, Snapshot.SIZE.at, "0101"),
    ("a size that is less than the entries", 0, Snapshot.SIZE.at, "0003"), ("a floor of 0", 0, Snapshot.FLOOR.at, number_hex(0)),
    ("a floor below that of the size", 0, Snapshot.FLOOR.at, number_hex(4)), ("an entry below the floor", 0, Snapshot.FLOOR.at, number_hex(6)),
    ("a floor above the position", 0, Snapshot.FLOOR.at, number_hex(9)), ("a floor by its highest byte", 0, Snapshot.FLOOR.at, "01"),
    ("a position above the last", 0, Snapshot.POSITION.at, "1000000000000001"), ("a seqno of 0", 1, Entry.SEQNO.last, "00"),
    ("a seqno below the window", 1, Entry.SEQNO.last, "04"), ("a seqno twice", 2, Entry.SEQNO.last, "05"),
    ("seqnos that descend", 3, Entry.SEQNO.last, "05"), ("a seqno above the position", 4, Entry.SEQNO.last, "09"),
    ("an entry without keys", 4, Entry.COUNT.at, "00"), ("an entry with 17 keys", 4, Entry.COUNT.at, "11"),
    ("a key twice", 2, SECOND_KEY, "0000000001"), ("keys that descend", 2, SECOND_KEY, "0000000000"),
    ("a row that is not there", 3, Entry.key_at(0), "0000000046"), ("a page twice", 7, SnapshotPage.NUMBER.at, "0000"),
    ("a page that is not there", 8, SnapshotPage.NUMBER.at, "0004"), ("a row that is neither there nor absent", 6, FIRST_ROW + Row.THERE.at, "02"),
    ("a row of 63 bytes", 6, FIRST_ROW + Row.LENGTH.at, "3f"), ("a byte behind a row", 6, SnapshotPage.row_at(1) - 1, "01"),
    ("an absent row with a byte", 6, SnapshotPage.row_at(2) + Row.LENGTH.at, "01"), ("a row behind the table's end", 7, EIGHTH_ROW, "010161"),
]
# The first key of a record without reads, which is that of a write, and behind writes of one byte each the second one.
ONE_WRITE, TWO_WRITES = Record.key_at(0), Record.key_at(0) + Write.VALUE + 1
RECORDS = [
    ("a record that says a byte more", 9, Record.LENGTH.at, "0036"), ("one that says a byte less", 9, Record.LENGTH.at, "0034"),
    ("the seqno 0", 9, Record.SEQNO.at, "00" * 8), ("the seqno before", 9, Record.SEQNO.at, number_hex(8)),
    ("a seqno above the last", 9, Record.SEQNO.at, "1000000000000001"), ("a verdict of no number", 9, Record.VERDICT.at, "05"),
    ("a conflict with no seqno", 9, Record.CONFLICT.at, "00" * 8), ("a conflict with itself", 9, Record.CONFLICT.at, number_hex(9)),
    ("a conflict with another", 9, Record.CONFLICT.at, number_hex(6)), ("a commit that names a seqno", 10, Record.CONFLICT.last, "01"),
    ("17 reads", 9, Record.READS.at, "11"), ("no write", 9, Record.WRITES.at, "00"), ("17 writes", 9, Record.WRITES.at, "11"),
    ("a write of another kind", 9, ONE_WRITE + Write.KIND.at, "02"), ("a delete with a value", 9, ONE_WRITE + Write.KIND.at, "00"),
    ("a value of 63 bytes", 9, ONE_WRITE + Write.LENGTH.at, "3f"), ("what had seen more", 9, Record.LAST_SEEN.at, number_hex(7)),
    ("what had seen itself", 10, Record.LAST_SEEN.at, number_hex(10)), ("a row that is not there", 9, ONE_WRITE, "0000000046"),
    ("a write twice", 13, TWO_WRITES, "0000000001"), ("writes that descend", 13, TWO_WRITES, "0000000000"),
    ("a read that conflicts", 12, Record.key_at(0), "0000000001"),
]


def places_of(transfer):
    """Each of these, with its place in the transfer, how many parts behind the header stand before it, and where its part begins."""
    starts = transfer.piece_starts()
    for title, within, text in HEADERS:
        yield "the header: " + title, within, text, 0, 0
    for title, piece, within, text in SNAPSHOTS:
        yield "the snapshot: " + title, starts[piece] + within, text, 0, HEADER
    for title, seqno, within, text in RECORDS:
        before = 1 + seqno - transfer.seqnos[0]
        start = transfer.starts[1 + before]
        yield "a record: " + title, start + Item.RECORD + within, text, before, start


def of_no_form(_):
    """Each reason for which a part of a transfer is of no form: what came before it is taken, and nothing of it."""
    for number, (title, place, text, count, at) in enumerate(places_of(transfer_for(wrapped))):
        ending = ENDINGS[number % 5]
        scene = met_by("%s, %s" % (title, ending), wrapped)
        transfer = scene.donates()
        assert transfer.bytes()[place : place + len(text) // 2] != bytes.fromhex(text), title
        for within, byte in enumerate(bytes.fromhex(text)):
            scene.say("spoil %d %d" % (place + within, byte), "spoilt %d" % len(transfer.bytes()))
        yield is_cut(scene, transfer, count, malformed(at), ending)


# ---- who is refused


def other_nodes(_):
    """A node with another window or other tables, or of another cluster, gets nothing, and takes nothing. How many cells its log has is
    its own affair."""
    others = [(3, 4, PARAMS[2])] + [(4, 4, rows) for rows in ((70, 4), (70, 4, 62), (70, 63, 4), (70, 4, 63, 1))]
    for other in others:
        for first, gtid in (("", CLUSTER + ":0"), ("undefined ", UNDEFINED)):
            scene = met_by("other parameters", fresh)
            scene.donates()
            scene.say("disk %d 0" % (2 * SIZE), "blank")
            scene.say(first + params_line(other), "formatted " + gtid)
            scene.say("open", "open " + gtid)
            scene.say("join", WRONG_CLUSTER)
            scene.say("donate", WRONG_CLUSTER, NOTHING)
            scene.say("node", "node 0 0 0 quiet running")
            yield scene.trial
    for make in (of_no_cluster, behind_a_block):
        scene = met_by("another cluster", make)
        scene.donates()
        another = CLUSTER.replace("11", "22", 1)
        fresh(scene)
        scene.say("put %d 22" % (A.body + Superblock.UUID.at), "put")
        scene.say("open", "open %s:0" % another)
        scene.say("join", WRONG_CLUSTER)
        scene.say("donate", WRONG_CLUSTER, NOTHING)
        scene.say("state", "state %s:0 base 0 window" % another)
        yield scene.trial
    scene = Meeting("other cells")
    scene.lends()
    scene.new_node(cells=7)
    scene.joins()
    scene.goes_on()
    yield scene.trial


def other_transfers(_):
    """What was written for another node: it is taken where it is one that the node could have got, and else nothing of it is."""
    below, above = (behind_a_block, of_no_cluster), (behind_by_items, with_full_log)
    for make, other in [(behind_by_items, other) for other in below] + [(fresh, other) for other in above]:
        scene = met_by("for another", make)
        scene.donates()
        other(scene)
        scene.say("join", malformed(HEADER))
        scene.life.agrees(KEYS)
        scene.joins()
        scene.goes_on()
        yield scene.trial
    scene = met_by("for one of no cluster", of_no_cluster)
    transfer = scene.donates()
    wrapped(scene)
    does(scene.node().join(transfer.snapshot, transfer.last))
    scene.say("join", "joined %s:24" % CLUSTER)
    scene.life.agrees(KEYS)
    scene.goes_on()
    yield scene.trial


def donors_refuse(_):
    """A donor of no cluster has nothing to give, and none has for a node that has more; and without a donor or a node nothing is done."""
    scene = Meeting("a donor of no cluster")
    of_no_cluster(scene)
    scene.is_lent()
    for make in (fresh, of_no_cluster):
        make(scene)
        scene.say("donate", "refused 11 undefined", NOTHING)
        scene.say("join", malformed(0))
        scene.life.agrees(KEYS)
    yield scene.trial
    scene = met_by("ahead", with_all)
    scene.logs(25)
    scene.say("donate", "refused 21 ahead 24", NOTHING)
    scene.life.agrees(KEYS)
    yield scene.trial
    scene = Meeting("off")
    lines = ("donate", "join", "shorten 59", "spoil 0 0")
    for line in lines:
        scene.say(line, OFF)
    fresh(scene)
    for line in lines:
        scene.say(line, OFF)
    scene.does_all(AT)
    scene.is_lent()
    for line in lines:
        scene.say(line, OFF)
    fresh(scene)
    scene.brings()
    for line in lines:
        scene.say(line, OFF)
    scene.puts(range(4))
    scene.ends()
    scene.stands_at()
    yield scene.trial


def each(title, make, joiners=JOINERS):
    return [("%s, %s" % (title, joiner.__name__.replace("_", " ")), make(joiner)) for joiner in joiners]


CUT = (of_no_cluster, wrapped, behind_by_items)
TRIALS = (
    each("a node joins, and goes on from there", joined)
    + [
        ("a node that is far behind joins", far_behind),
        ("a node of no cluster joins a new one", at_nothing),
        ("a node that joined is a donor", through_another),
        ("a node that is not quiet settles before it joins", not_quiet),
    ]
    + each("a fault at each call of a join leaves the node, the snapshot or some items", failing("once"))
    + each("a stop at each call of a join leaves the node, the snapshot or some items", failing("from"))
    + [("a donor that fails is as it was", failing_donors), ("a donor whose base or log is bad writes no transfer", bad_donors)]
    + each("a transfer that is cut is taken up to there", cut, CUT)
    + [("a transfer of three items is taken up to where it is cut, behind each of its bytes", of_each_length)]
    + each("a transfer that is changed is taken up to there", changed, CUT)
    + [
        ("a part of a transfer is of no form", of_no_form),
        ("a node of other parameters or another cluster joins nothing", other_nodes),
        ("a transfer for another node is taken where it fits", other_transfers),
        ("a donor gives nothing where it has nothing to give", donors_refuse),
    ]
)
