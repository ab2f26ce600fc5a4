"""Disks and transfers of both formats (docs/formats.md). Which sizes, floors and digits of a format are of the form, byte by byte, at an opening
and at a join; bases of format 1, behind which a checkpoint and a snapshot are of format 2, with a stop and a fault at each call; and transfers
of either format, cut behind each of their bytes."""
from lib.disks import LAST, OPEN, comes_back, new, opens, shows_base, shows_its_format, superblock, with_base, with_puts
from lib.faults import each_call
from lib.formats import (
    A, B, FORMATS, ONE, SIDES, TWO, Entry, Header, Snapshot, Superblock, Window, digit, entry_bytes, fixed_reach, number_bytes, reach_bytes,
    window_bytes,
)
from lib.installs import AT, at_each_call, behind_a_block, fresh, installs_in, of_no_cluster, still_open, with_pages, wrapped
from lib.joins import HEADER, JOINERS, SHORT, Meeting, Transfer, behind_by_items, failing, joined, malformed
from lib.node_model import CLUSTER, LOSSES, Item, does
from lib.stops import stops_within
from lib.trial import SMALL, Life, Trial, before_items, beside_an_item, full_log, of_one_page
from lib.windows import BASE, FULL

CORRUPT_WINDOW, CORRUPT_SUPERBLOCK = "13 corrupt window", "13 corrupt superblock"
# The size that windows have at first on all of these disks.
FIRST_SIZE = SMALL[0]


# ---- the reach of a window


def is_reach(position, seqnos, reach):
    """Whether a window at the position with these seqnos may have this reach."""
    size, floor = reach
    is_long_enough = 1 <= size <= 256 and max(1, position + 1 - size) <= floor <= max(1, position)
    return is_long_enough and len(seqnos) <= size and all(floor <= seqno for seqno in seqnos)


def seqnos_of(entries):
    return [Entry.SEQNO.number_in(entry) for entry in entries]


def with_window(title, position, entries, reach=None, of_format=None):
    """A disk whose base stands at this position, with these entries in its window: of format 2 with this reach, or of format 1 where there is
    none. Its superblock is of the same format, or of this one."""
    of_format = of_format or (TWO if reach else ONE)
    data = window_bytes(1, position, entries, reach)[: Window.ENTRIES + sum(map(len, entries))]
    return with_puts(new(title), [(B.body, superblock(1, position, of_format=of_format)), (B.gate, OPEN), (B.window, data.hex())])


def judges(trial, position, reach):
    """The window is of this reach. Six items come behind the position, of which each puts a row of its own. Of each two the first saw one item
    less than it has to, and is stale; the other saw just that, and commits. The floor rises with the position, as far as the size has it."""
    size, floor = reach
    trial.say("limits", "size %d floor %d" % reach)
    for seqno in range(position + 1, position + 7):
        is_stale = floor > 1 and (seqno - position) % 2 == 1
        item = Item(floor - 2 if is_stale else floor - 1, [((0, 30 + seqno - position), b"a")])
        trial.say(item.delivery(seqno), "%d %s" % (seqno, "stale" if is_stale else "commit"))
        floor = max(floor, seqno + 1 - size)
    return trial


# Positions, entries and reaches that a window may have, whether an order gives them or not.
WITHIN = [
    (BASE, FULL, (4, 7)), (BASE, FULL, (5, 6)), (BASE, FULL, (5, 7)), (BASE, FULL, (256, 1)), (BASE, FULL, (256, 7)), (BASE, FULL[1:], (4, 8)),
    (BASE, (), (4, 10)), (BASE, (), (1, 10)), (BASE, FULL[3:], (1, 10)), (300, (), (256, 45)), (300, (), (256, 300)), (300, (), (1, 300)),
    (0, (), (1, 1)), (0, (), (4, 1)), (0, (), (256, 1)), (3, (), (1, 3)), (3, (), (4, 1)),
]
OUTSIDE = [
    ("a size of 0", BASE, (), (0, 10)), ("a size of 257", BASE, (), (257, 10)), ("the largest number as size", BASE, (), (65_535, 10)),
    ("a size of 0 at the position 0", 0, (), (0, 1)), ("a floor of 0", BASE, (), (256, 0)), ("a floor of 0 at the position 0", 0, (), (4, 0)),
    ("a floor of 2 at the position 0", 0, (), (4, 2)), ("a floor below that of the size", BASE, (), (4, 6)),
    ("a floor above the position", BASE, (), (4, 11)), ("the highest floor", BASE, (), (4, 2**64 - 1)), ("an entry below the floor", BASE, FULL, (4, 8)),
    ("one below the floor of a larger window", BASE, FULL[:1], (256, 8)), ("more entries than the size", BASE, FULL[2:], (1, 10)),
    ("an entry of a larger size", BASE, FULL, (3, 8)),
]


def each_reach(program):
    for position, entries, reach in WITHIN:
        assert is_reach(position, seqnos_of(entries), reach)
        trial = opens(with_window("at %d the size %d and the floor %d" % (position, *reach), position, entries, reach), position, position, "busy")
        yield judges(trial, position, reach)
    for title, position, entries, reach in OUTSIDE:
        assert not is_reach(position, seqnos_of(entries), reach)
        yield comes_back(program, with_window(title, position, entries, reach), CORRUPT_WINDOW)
    # The last position, where the next seqno is none.
    for reach in ((4, LAST - 3), (1, LAST), (256, LAST)):
        yield opens(with_window("at the last position", LAST, (), reach), LAST, LAST, "busy")
    yield comes_back(program, with_window("at the last position, a floor above", LAST, (), (4, LAST + 1)), CORRUPT_WINDOW)


def each_byte_of_a_reach(_):
    """Each of the ten bytes that say the size and the floor becomes each other one."""
    entries, reach = FULL[2:], (4, 8)
    data, trial = window_bytes(1, BASE, entries, reach), with_window("each byte of a reach", BASE, entries, reach)
    for at in range(Window.SIZE.at, Window.FLOOR.end):
        for byte in range(256):
            changed = data[:at] + bytes([byte]) + data[at + 1 :]
            is_good = is_reach(BASE, seqnos_of(entries), (Window.SIZE.number_in(changed), Window.FLOOR.number_in(changed)))
            trial.say("write %d %02x" % (B.window + at, byte), "written")
            trial.say("open", "open %s:%d" % (CLUSTER, BASE) if is_good else "refused " + CORRUPT_WINDOW)
        trial.say("write %d %02x" % (B.window + at, data[at]), "written")
    yield judges(opens(trial, BASE, BASE, "busy"), BASE, reach)


def zeros_of_format_1(_):
    """A window of format 1 has zeros where one of format 2 has its reach, and behind that."""
    trial = with_window("zeros of format 1", BASE, FULL)
    for at in range(Window.ZEROS_OF_ONE.at, Window.ZEROS_OF_ONE.end):
        for byte in (1, 4, 7, 0x80, 0xFF) if at < Window.ZEROS.at else (1,):
            trial.say("write %d %02x" % (B.window + at, byte), "written")
            trial.say("open", "refused " + CORRUPT_WINDOW)
        trial.say("write %d 00" % (B.window + at), "written")
    yield judges(opens(trial, BASE, BASE, "busy"), BASE, fixed_reach(FIRST_SIZE, BASE))


def fixed_windows(program):
    """A base of format 1 has the window of the first size, with the floor that this gives: a floor of 1 would have an item commit that is
    stale."""
    for side, number in ((A, 2), (B, 1)):
        trial = opens(with_base(new("a base of format 1 at 9"), side, number, 9, of_format=ONE), 9, 9, "quiet" if side == A else "busy")
        trial.say("limits", "size 4 floor 6")
        trial.say("window", "window 0")
        trial.say("deliver 10 0 w 0/1=61", "10 stale")
        trial.say("deliver 11 5 w 0/1=61", "11 stale")
        trial.say("deliver 12 7 w 0/1=61", "12 commit")
        yield trial
    for position in (0, 1, 3, 4, 5, 9, 10, 300):
        trial = opens(with_window("of format 1 at %d" % position, position, ()), position, position, "busy")
        yield judges(trial, position, fixed_reach(FIRST_SIZE, position))
    yield judges(opens(with_window("with entries", BASE, FULL), BASE, BASE, "busy"), BASE, fixed_reach(FIRST_SIZE, BASE))
    below = entry_bytes(6, [(0, 1)])
    for title, entries in (("an entry below the floor", (below,)), ("more entries than the size", (below, *FULL))):
        yield comes_back(program, with_window(title, BASE, entries), CORRUPT_WINDOW)


# ---- the digits of a disk


def reach_of(of_format):
    """What a window at BASE says of its reach."""
    return fixed_reach(FIRST_SIZE, BASE) if of_format == TWO else None


def each_digit(_):
    """Each digit behind a mark becomes each other byte. A superblock wants a window of its own format."""
    for of_format in FORMATS:
        for part, at in (("superblock", B.body + Superblock.FORMAT.at), ("window", B.window + Window.FORMAT.at)):
            trial = with_window("each digit of a %s of format %d" % (part, of_format), BASE, FULL, reach_of(of_format))
            for byte in range(256):
                is_other = part == "superblock" and bytes([byte]) not in map(digit, FORMATS)
                wanted = "refused " + (CORRUPT_SUPERBLOCK if is_other else CORRUPT_WINDOW)
                trial.say("write %d %02x" % (at, byte), "written")
                trial.say("open", "open %s:%d" % (CLUSTER, BASE) if bytes([byte]) == digit(of_format) else wanted)
            trial.say("write %d %s" % (at, digit(of_format).hex()), "written")
            yield judges(opens(trial, BASE, BASE, "busy"), BASE, fixed_reach(FIRST_SIZE, BASE))


def each_pair(program):
    """A superblock of each format beside a window of each, which says its own format, or the other one."""
    for of_format in FORMATS:
        for window_format in FORMATS:
            for said in FORMATS:
                title = "a superblock of format %d, a window of %d that says %d" % (of_format, window_format, said)
                trial = with_window(title, BASE, FULL, reach_of(window_format), of_format)
                with_puts(trial, [(B.window + Window.FORMAT.at, digit(said).hex())])
                if of_format == window_format == said:
                    yield opens(trial, BASE, BASE, "busy")
                else:
                    yield comes_back(program, trial, CORRUPT_WINDOW)


def on_both_sides(title, lesser, greater):
    """A disk on which both superblocks stand open, each with its window: the greater one at 9, the other at 3."""
    return with_base(with_base(new(title), B, 1, 3, of_format=lesser), A, 2, 9, of_format=greater)


def of_two_formats(program):
    """Of two superblocks of whatever formats the greater one counts, with the window on its side. The other has to be of the form too, but its
    window is not looked at."""
    for lesser, greater in ((ONE, TWO), (TWO, ONE), (ONE, ONE)):
        words = "%d beside %d, " % (lesser, greater)
        make = lambda title: on_both_sides(words + title, lesser, greater)
        other = digit(ONE + TWO - greater).hex()
        yield judges(opens(make("both open"), 9, 9, "busy"), 9, fixed_reach(FIRST_SIZE, 9))
        trial = with_puts(make("the lesser window of another format"), [(B.window + Window.FORMAT.at, digit(ONE + TWO - lesser).hex())])
        yield judges(opens(trial, 9, 9, "busy"), 9, fixed_reach(FIRST_SIZE, 9))
        yield comes_back(program, with_puts(make("the greater window of another"), [(A.window + Window.FORMAT.at, other)]), CORRUPT_WINDOW)
        yield comes_back(program, with_puts(make("the greater superblock of another"), [(A.body + Superblock.FORMAT.at, other)]), CORRUPT_WINDOW)
        yield comes_back(program, with_puts(make("the lesser of none"), [(B.body + Superblock.FORMAT.at, "30")]), CORRUPT_SUPERBLOCK)
        yield comes_back(program, with_puts(make("the greater of none"), [(A.body + Superblock.FORMAT.at, "33")]), CORRUPT_SUPERBLOCK)
        # The lesser one is closed, and the next base is of format 2.
        trial = opens(make("the lesser one is closed"), 9, 9, "busy")
        for line, wanted in (("check", "wrote"), ("sync", "synced 0"), ("stop drop", "open %s:9" % CLUSTER), ("node", "node 9 9 9 quiet running")):
            trial.say(line, wanted)
        trial.say("bytes %d 1" % B.gate, "00")
        trial.say("bytes %d 1" % (A.body + Superblock.FORMAT.at), digit(greater).hex())
        yield trial


# ---- from a base of format 1 to one of format 2


def first_checkpoint(_):
    """The superblock and the window that a checkpoint writes are of format 2; those before it stay as they are until the next one takes
    their place. Nothing else makes format 2 of format 1."""
    trial = Trial("byte by byte")
    life = Life(trial, of_format=ONE)
    digits = [side.body + Superblock.FORMAT.at for side in SIDES] + [side.window + Window.FORMAT.at for side in SIDES]
    assert digits == [7, 4_103, 8_199, 31_239]
    for seqno, wanted in ((1, ("31", "32", "31", "32")), (2, ("32", "32", "32", "32"))):
        life.do((seqno, Item(seqno - 1, [((0, 1), b"a")], trx=seqno)))
        for event in ("log", "sync", "log", "sync"):
            life.do(event)
        life.settle()
        life.stop("drop")
        # Of the other side there is nothing yet.
        before = ("31", "00", "31", "00") if seqno == 1 else ("31", "32", "31", "32")
        for at, byte in zip(digits, before):
            trial.say("bytes %d 1" % at, byte)
        trial.say("open", "open %s:%d" % (CLUSTER, seqno))
        life.does_what_is_due()
        life.stop("drop")
        for at, byte in zip(digits, wanted):
            trial.say("bytes %d 1" % at, byte)
        trial.say("open", "open %s:%d" % (CLUSTER, seqno))
    yield trial


def stopped_over_format_1(make):
    """A script on a disk of format 1 is stopped behind each event: the base that opens is as it was, or of format 2."""

    def trials(_):
        script = make()
        for life in stops_within(make.__name__, script, of_format=ONE):
            shows_its_format(life)
            life.goes_on(script.order())
            life.stop("drop")
            shows_its_format(life)
            yield life.trial

    return trials


def faulted_over_format_1(make, kind):
    """The same on a device that fails at each call."""

    def trials(program):
        script = make()
        for _, _, trial, life in each_call(script, kind, program, ONE):
            life.agrees()
            shows_its_format(life)
            life.goes_on(script.order())
            shows_its_format(life)
            yield trial

    return trials


# ---- nodes over a base of format 1 to which a snapshot or a transfer comes


def of_format_1(make, *sides):
    """The node that `make` gives, whose superblocks and windows on these sides are of format 1."""

    def made(scene):
        make(scene)
        scene.trial.is_of_format_1(*sides)
        scene.open_as(scene.node())

    made.__name__ = "%s_on_format_1" % make.__name__
    return made


# The base of a node with pages has the number 1, and so has the lesser one of a node whose superblocks both stand open.
FRESH, OF_NO_CLUSTER, BEHIND = of_format_1(fresh, A), of_format_1(of_no_cluster, A), of_format_1(behind_a_block, A)
PAGES, WRAPPED, BOTH = of_format_1(with_pages, B), of_format_1(wrapped, B), of_format_1(still_open, A, B)
LESSER, GREATER = of_format_1(still_open, B), of_format_1(still_open, A)
LESSER.__name__, GREATER.__name__ = "still_open_beside_format_1", "still_open_before_format_1"
# Joiners, each with the number of calls that its join makes, whatever the format of its base.
JOINERS_OF_1 = {
    FRESH: JOINERS[fresh], OF_NO_CLUSTER: JOINERS[of_no_cluster], BEHIND: JOINERS[behind_a_block], PAGES: JOINERS[with_pages],
    WRAPPED: JOINERS[wrapped], BOTH: JOINERS[still_open], LESSER: JOINERS[still_open], GREATER: JOINERS[still_open],
}


def snapshots_over_format_1(_):
    """What a snapshot makes of a base of format 1 is of format 2, whole, and behind a stop with each loss."""
    for make in (FRESH, OF_NO_CLUSTER, BEHIND, PAGES, WRAPPED):
        for loss in LOSSES:
            scene = Meeting("a snapshot over %s, %s" % (make.__name__, loss))
            scene.lends(AT)
            make(scene)
            scene.installs()
            scene.life.stop(loss, scene.keys)
            shows_base(scene.life)
            scene.open_as(scene.node())
            scene.stands_at()
            yield scene.trial


def donors_of_format_1(_):
    """A donor writes format 2, whatever its base is of."""
    for make in (fresh, of_no_cluster, behind_a_block, wrapped, behind_by_items):
        scene = Meeting("a donor of format 1, " + make.__name__)
        scene.new_node()
        scene.does_all(AT)
        scene.logs(14)
        scene.trial.is_of_format_1(B)
        scene.is_lent()
        make(scene)
        scene.joins()
        scene.goes_on()
        yield scene.trial


# ---- transfers of either format


def joins_by_format_1(_):
    """A transfer of format 1 is taken, its window being that of the first size. The base is of format 2 then."""
    for make in (fresh, of_no_cluster, behind_a_block, wrapped, behind_by_items, FRESH, PAGES):
        for loss in LOSSES:
            scene = Meeting("by a transfer of format 1, %s, %s" % (make.__name__, loss))
            scene.lends(14)
            make(scene)
            has_snapshot = bool(scene.donates_format_1().snapshot)
            scene.takes()
            scene.life.stop(loss, scene.keys)
            if has_snapshot:
                shows_base(scene.life)
                scene.open_as(scene.node())
            assert scene.life.do((15, scene.order.items[14])) == ["15 badkey"]
            scene.goes_on()
            yield scene.trial


def small_meeting(title, last=10):
    """A donor whose base stands at 8, with the entries 5 to 8 in its window, and a new node."""
    scene = Meeting(title)
    scene.lends(last)
    fresh(scene)
    return scene


# The window at the donor's base.
SEQNOS, REACH = (5, 6, 7, 8), fixed_reach(FIRST_SIZE, AT)
# Where the reach, the count of entries and the digit stand in a transfer with a snapshot.
SIZE, FLOOR = Snapshot.SIZE.behind(HEADER), Snapshot.FLOOR.behind(HEADER)


def each_byte_of_a_snapshot(_):
    """Each byte of the size and the floor that a snapshot says becomes each other one that is none of the form: the node is as it was."""
    scene = small_meeting("each byte of a snapshot's reach")
    data = scene.donates().bytes()
    for at in range(SIZE.at, FLOOR.end):
        for byte in range(256):
            changed = data[:at] + bytes([byte]) + data[at + 1 :]
            if not is_reach(AT, SEQNOS, (SIZE.number_in(changed), FLOOR.number_in(changed))):
                scene.say("spoil %d %d" % (at, byte), "spoilt %d" % len(data))
                scene.say("join", malformed(HEADER))
        scene.say("spoil %d %d" % (at, data[at]), "spoilt %d" % len(data))
    scene.life.agrees(scene.keys)
    scene.takes()
    scene.say("join", malformed(HEADER))
    yield scene.trial


def other_reaches(_):
    """A snapshot of any reach of the form is taken, and what comes behind it is judged by that."""
    for reach in ((4, 5), (5, 4), (5, 5), (6, 5), (255, 5), (256, 5), (256, 1), (8, 1)):
        assert is_reach(AT, SEQNOS, reach)
        scene = small_meeting("a snapshot of the size %d and the floor %d" % reach)
        data = scene.donates().bytes()
        scene.becomes(data, data[: SIZE.at] + reach_bytes(reach) + data[FLOOR.end :])
        scene.say("join", "joined %s:10" % CLUSTER)
        for _ in range(2):
            floor = max(reach[1], 11 - reach[0])
            window = [m for m in (5, 6, 7, 8, 10) if m >= floor]
            scene.say("state", "state %s:10 base 8 window %s" % (CLUSTER, " ".join(map(str, window))))
            judges(scene.trial, 10, (reach[0], floor))
            scene.say("stop drop", "open %s:10" % CLUSTER)
        # Behind a checkpoint too.
        does_checkpoint(scene)
        scene.say("state", "state %s:10 base 10 window %s" % (CLUSTER, " ".join(map(str, window))))
        judges(scene.trial, 10, (reach[0], floor))
        yield scene.trial


def does_checkpoint(scene):
    """A checkpoint to 10: the item 10 alone behind the base wrote a row, of the page 3."""
    scene.say("check", "began 10")
    scene.say("flush 3", "wrote")
    for _ in range(4):
        scene.say("check", "wrote")
        scene.say("sync", "synced 0")
    scene.say("stop drop", "open %s:10" % CLUSTER)


def each_digit_of_a_transfer(_):
    """The digit of a transfer becomes each other byte. With that of the other format what stands there is no snapshot; items are the same in
    either."""
    for of_format in FORMATS:
        scene = small_meeting("each digit of a transfer of format %d" % of_format)
        written = scene.donates().bytes()
        if of_format == ONE:
            scene.becomes(written, Transfer(scene.donor, scene.node(), ONE).bytes())
        for byte in range(256):
            if bytes([byte]) != digit(of_format):
                scene.say("spoil %d %d" % (Header.FORMAT.at, byte), "spoilt %d" % len(written))
                scene.say("join", malformed(HEADER if bytes([byte]) in map(digit, FORMATS) else 0))
        scene.say("spoil %d %d" % (Header.FORMAT.at, digit(of_format)[0]), "spoilt %d" % len(written))
        scene.life.agrees(scene.keys)
        scene.takes()
        scene.say("join", malformed(HEADER))
        scene.life.agrees(scene.keys)
        yield scene.trial
    scene = Meeting("items of either format")
    scene.lends(14)
    behind_by_items(scene)
    scene.donates_format_1()
    scene.takes()
    scene.say("join", malformed(HEADER))
    scene.goes_on()
    yield scene.trial


# What makes a snapshot of format 1 none: a piece of it, and a field there that becomes this. Its window has four seqnos, from 5 on.
SNAPSHOTS_OF_1 = [
    ("one entry more", 0, Snapshot.COUNT_OF_ONE, 5), ("257 entries", 0, Snapshot.COUNT_OF_ONE, 257), ("an earlier position", 0, Snapshot.POSITION, 7), ("a later position", 0, Snapshot.POSITION, 9),
    ("a position above the last", 0, Snapshot.POSITION, LAST + 1), ("an entry below the floor", 1, Entry.SEQNO, 4), ("an entry of 0", 1, Entry.SEQNO, 0),
    ("an entry above the position", 4, Entry.SEQNO, 9),
]


def no_snapshots_of_format_1(_):
    for title, piece, field, number in SNAPSHOTS_OF_1:
        scene = small_meeting("of format 1, " + title)
        transfer = scene.donates_format_1()
        place, data = transfer.piece_starts()[piece] + field.at, number_bytes(number, field.size)
        for at, byte in enumerate(data, place):
            scene.say("spoil %d %d" % (at, byte), "spoilt %d" % (len(transfer.bytes()) + 10))
        scene.say("join", malformed(HEADER))
        scene.life.agrees(scene.keys)
        scene.joins()
        scene.goes_on()
        yield scene.trial


def cut_at_each_length(_):
    """A transfer of each format is cut behind each number of its bytes, from its end on: what is whole of it is taken, and no snapshot that is
    not. Up to the snapshot's end the node is as it was."""
    for of_format in FORMATS:
        scene = Meeting("each length of a transfer of format %d" % of_format, SHORT, [(0, row) for row in range(1, 10)])
        scene.lends(9, base=4)
        fresh(scene)
        transfer = scene.donates() if of_format == TWO else scene.donates_format_1()
        for length in range(len(transfer.bytes()) - 1, -1, -1):
            count = sum(start <= length for start in transfer.starts) - 1
            scene.say("shorten %d" % length, "spoilt %d" % length)
            if count < 2:
                scene.say("join", malformed(transfer.starts[count]))
                continue
            fresh(scene)
            does(transfer.taken(scene.node(), count - 1))
            scene.say("join", malformed(transfer.starts[count]))
            scene.say("node", *scene.node().shown())
            if length == transfer.starts[count]:
                scene.life.agrees(scene.keys)
            if length == transfer.starts[2]:
                fresh(scene)
        scene.say("node", "node 0 0 0 quiet running")
        scene.joins()
        scene.goes_on()
        yield scene.trial


def at_nothing(_):
    """The shortest transfer of a snapshot, of 81 bytes in format 1 and of 91 in format 2, cut behind each of them, and whole."""
    for of_format in FORMATS:
        scene = Meeting("nothing, by format %d" % of_format)
        scene.lends(0, base=0)
        of_no_cluster(scene)
        transfer = scene.donates() if of_format == TWO else scene.donates_format_1()
        assert len(transfer.bytes()) == (81 if of_format == ONE else 91)
        for length in range(len(transfer.bytes()) - 1, -1, -1):
            if length >= transfer.starts[2]:
                of_no_cluster(scene)
            scene.say("shorten %d" % length, "spoilt %d" % length)
            scene.say("join", malformed(max(start for start in transfer.starts if start <= length)))
            scene.say("node", "node 0 0 0 quiet running")
            if length == transfer.starts[2]:
                of_no_cluster(scene)
        scene.joins()
        scene.goes_on()
        yield scene.trial


def each(title, make, makers):
    return [("%s, %s" % (title, maker.__name__.replace("_", " ")), make(maker)) for maker in makers]


SCRIPTS = (beside_an_item, before_items, of_one_page, full_log)
TRIALS = (
    [
        ("a window of each size and floor", each_reach),
        ("each byte of a size and a floor", each_byte_of_a_reach),
        ("zeros in the place of a size and a floor", zeros_of_format_1),
        ("a base of format 1 has the window of the first size", fixed_windows),
        ("each digit of a format", each_digit),
        ("a superblock wants a window of its format", each_pair),
        ("of two superblocks of two formats the greater counts", of_two_formats),
        ("a checkpoint makes format 2 of format 1", first_checkpoint),
    ]
    + each("a stop behind each event over a base of format 1", stopped_over_format_1, SCRIPTS)
    + each("a fault at each call over a base of format 1", lambda make: faulted_over_format_1(make, "once"), (beside_an_item, of_one_page))
    + each("a device that fails from each call on over a base of format 1", lambda make: faulted_over_format_1(make, "from"), (beside_an_item,))
    + [("a snapshot makes format 2 of format 1", snapshots_over_format_1)]
    + each("a snapshot is installed, and the node goes on from there", installs_in, (FRESH, BEHIND, PAGES, WRAPPED))
    + each("a fault at each call of an installation leaves the node or the snapshot", lambda make: at_each_call(make, "once"), (FRESH, PAGES))
    + each("a stop at each call of an installation leaves the node or the snapshot", lambda make: at_each_call(make, "from"), (FRESH, PAGES))
    + [("a donor of format 1 writes a transfer of format 2", donors_of_format_1)]
    + each("a node joins, and goes on from there", joined, JOINERS_OF_1)
    + each("a fault at each call of a join leaves the node, the snapshot or some items", failing("once", JOINERS_OF_1), (PAGES, BOTH))
    + [
        ("a transfer of format 1 is taken", joins_by_format_1),
        ("each byte of the size and the floor of a snapshot", each_byte_of_a_snapshot),
        ("a snapshot of each size and floor is taken", other_reaches),
        ("each digit of a transfer", each_digit_of_a_transfer),
        ("a snapshot of format 1 is of no form", no_snapshots_of_format_1),
        ("a transfer of either format is cut behind each of its bytes", cut_at_each_length),
        ("a snapshot of nothing is cut behind each of its bytes", at_nothing),
    ]
)
