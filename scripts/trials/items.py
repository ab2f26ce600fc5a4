"""Changes of the window's size that are delivered to a node, beside write sets: a smaller window and then a larger one, over disks of both
formats, with a stop and a fault at each call; donors and joiners in the middle of them; how a block and a checkpoint take them; and when they are
refused."""
from lib.disks import LAST, OPEN, new, opens, shows_its_format, superblock, window_head, with_base, with_puts
from lib.faults import each_call
from lib.formats import A, B, ONE, TWO, Snapshot, Superblock, block_bytes, cell_at, cell_gate_at, change_bytes, record_bytes, write_bytes
from lib.installs import PARAMS, of_no_cluster
from lib.joins import HEADER, Meeting, malformed
from lib.node_model import CLUSTER, LOSSES, UNDEFINED, Item, Node, Order, SizeChange
from lib.stops import stops_within
from lib.trial import SMALL, SMALL_SIZE, Life, Trial, params_line, replies_to, resized, resizing

# The rows that the seven items write, and the one of an eighth.
KEYS = [(0, row) for row in range(1, 7)]
# What they come to, by hand: the verdicts, and the rows and the window behind them all.
VERDICTS = ["commit", "commit", "commit", "stale", "commit", "stale", "commit"]
ROWS = ["value 01", "value 02", "absent", "absent", "value 05", "absent"]
WINDOW = [("limits", "size 4 floor 4"), ("window", "window 1", "entry 7 1", "key 0/5")]


def is_behind_all(trial, base):
    """What a node of this base shows behind the seven items."""
    trial.say("state", "state %s:7 base %d window 7" % (CLUSTER, base))
    for line, *wanted in WINDOW:
        trial.say(line, *wanted)
    for key, row in zip(KEYS, ROWS):
        trial.say("read %d/%d 7" % key, row)


# ---- the first change


def said_by(node, line):
    """What the model answers to a line of the first life."""
    if line == "deliver 2 window 2":
        return node.deliver(2, SizeChange(2, source=0))
    return node.stop("drop") if line == "stop drop" else node.answer(line)


def first_life(_):
    """A disk of format 1 with one item in its log, a change to a smaller window behind it, and a checkpoint, which makes the disk one of
    format 2. Every answer is written by hand, and the model says the same."""
    trial, node = Trial("an item on a disk of format 1, and a change"), Node(*SMALL)
    trial.orders.append((node.order, SMALL[1]))
    node.deliver(1, Item(0, [((0, 1), b"\x61")], source=0))
    for event in ("log", "sync", "log", "sync"):
        node.answer(event)
    block = block_bytes(0, 1, [record_bytes(1, 0, (0, 0), 0, [], [write_bytes((0, 1), b"\x61")])])
    trial.say("disk %d 0" % SMALL_SIZE, "blank")
    base = [(A.body, superblock(0, 0, of_format=ONE)), (A.gate, OPEN), (A.window, window_head(0, 0, ONE))]
    with_puts(trial, base + [(cell_at(0), block.hex()), (cell_gate_at(0), OPEN)])
    trial.say("open", "open %s:1" % CLUSTER)
    for line, *wanted in (
        ["limits", "size 4 floor 1"], ["deliver 2 window 2", "2 commit"], ["log", "wrote"], ["sync", "synced 0"], ["log", "wrote"],
        ["sync", "synced 1", "reply 2 commit 0:0"], ["stop drop", "open %s:2" % CLUSTER], ["limits", "size 2 floor 1"], ["check", "began 2"],
        ["flush 0", "wrote"], ["check", "wrote"], ["sync", "synced 0"], ["check", "wrote"], ["sync", "synced 0"], ["check", "wrote"],
        ["sync", "synced 0"], ["stop drop", "open %s:2" % CLUSTER], ["state", "state %s:2 base 2 window 1" % CLUSTER], ["limits", "size 2 floor 1"],
    ):
        assert said_by(node, line) == wanted, line
        trial.say(line, *wanted)
    digits = [side.body + Superblock.FORMAT.at for side in (B, A)]
    assert digits == [4_103, 7]
    for at, digit in zip(digits, ("32", "31")):
        trial.say("bytes %d 1" % at, digit)
    yield trial


# ---- a smaller window and a larger one, with stops and faults


def ends(life, script):
    """The node is handed the rest of the seven items, and stands behind them."""
    life.goes_on(script.order(), KEYS)
    assert life.node.order.verdicts == VERDICTS
    is_behind_all(life.trial, 7)
    return life.trial


def stopped(of_format):
    """Stopped behind each event with each loss, on a new disk of this format."""

    def trials(_):
        script = resized()
        for life in stops_within("of format %d" % of_format, script, of_format=of_format):
            if of_format == ONE:
                shows_its_format(life)
            yield ends(life, script)

    return trials


def faulted(kind):
    """On a device that fails at each call, and then a stop with each loss."""

    def trials(program):
        script = resized()
        for _, _, trial, life in each_call(script, kind, program):
            life.agrees(KEYS)
            yield ends(life, script)

    return trials


# ---- donors and joiners


# What the window is at the donors' bases, by hand: its size, its floor, and the seqnos in it. From 2 on the size decides the fourth item, which is
# stale, and from 5 on the floor decides the sixth: that of a window that always had this size would be 2, and let it commit.
AT_BASES = {0: (4, 1, []), 2: (2, 1, [1]), 5: (4, 3, [3]), 7: (4, 4, [7])}


def lent(title, base):
    """A donor that was handed the seven items, whose base stands there."""
    scene, order = Meeting(title, [], KEYS), Order(PARAMS[0], PARAMS[2])
    for item, verdict in resizing():
        order.add(item)
        assert order.verdicts[-1] == verdict
    scene.is_of(order)
    assert (*order.reach_at(base), order.window_at(base)) == AT_BASES[base]
    scene.lends(7, base)
    return scene


def stands(scene, place):
    """A node of the first so many items, or one of no cluster."""
    if place is None:
        of_no_cluster(scene)
    else:
        scene.new_node()
        scene.logs(place)


def judges_the_eighth(scene):
    """An eighth item that had seen two is stale, and one that had seen three commits."""
    for seen, verdict in ((2, "stale"), (3, "commit")):
        scene.say("deliver 8 %d w 0/6=06" % seen, "8 " + verdict)
        scene.say("stop drop", *scene.node().stop("drop"))


def joins(_):
    """Donors whose bases stand before the changes, between them and behind them; joiners of no cluster and behind each number of items, by a
    snapshot where they are behind the base, and by the rest of the items. Donor and joiner judge the next item alike."""
    for base in AT_BASES:
        for place in (None, *range(8)):
            scene = lent("a donor from %d, a joiner at %r" % (base, place), base)
            stands(scene, place)
            has_snapshot = place is None or place < base
            assert bool(scene.donates().snapshot) == has_snapshot
            scene.takes()
            own = base if has_snapshot else 0
            scene.say("node", "node 7 7 %d quiet running" % own)
            is_behind_all(scene.trial, own)
            scene.life.stop(LOSSES[base % 3], KEYS)
            judges_the_eighth(scene)
            joiner = scene.node()
            scene.say("swap", "lent %s:7 base %d" % (CLUSTER, own))
            scene.open_as(scene.donor)
            judges_the_eighth(scene)
            scene.say("swap", "lent %s:7 base %d" % (CLUSTER, base))
            scene.open_as(joiner)
            scene.goes_on()
            is_behind_all(scene.trial, 7)
            yield scene.trial


# Reaches that a window could have at a base, but that of this order does not: what the size or the floor becomes in the snapshot, the limits
# then, and which item is the first that is judged otherwise.
OTHER_REACHES = [(2, Snapshot.SIZE, 2, 4, "size 4 floor 1", 4), (5, Snapshot.FLOOR, 3, 2, "size 4 floor 2", 6)]


def joins_by_another_reach(_):
    """The size and the floor that a snapshot says judge what comes behind it: with another size, or another floor, the first item that it decides
    is refused, and what comes before that is taken."""
    for base, field, before, number, limits, refused in OTHER_REACHES:
        scene = lent("a snapshot at %d, %d in place of %d" % (base, number, before), base)
        stands(scene, 0)
        transfer, at = scene.donates(), field.behind(HEADER)
        assert at.number_in(transfer.bytes()) == before
        scene.say("spoil %d %d" % (at.last, number), "spoilt %d" % len(transfer.bytes()))
        # The header and the snapshot stand before the items.
        scene.say("join", malformed(transfer.starts[2 + transfer.seqnos.index(refused)]))
        scene.say("node", "node %d %d %d %s running" % (refused - 1, base, base, "busy" if refused - 1 > base else "quiet"))
        scene.say("limits", limits)
        yield scene.trial


# ---- blocks and checkpoints


def wide(trx):
    """An item of 16 rows of 62 bytes: a record of 1,149 bytes."""
    return Item(0, [((0, row), b"w" * 62) for row in range(16)], trx=trx)


def block_is_filled(_):
    """A change takes 47 of the 7,662 bytes that a block has for records. Six items of 1,149 bytes and 15 changes leave 63: an item of as many
    has room beside them, one of a byte more has none."""
    for length, count in ((11, 22), (12, 21)):
        trial = Trial("a value of %d bytes" % length)
        life = Life(trial, (256, 4, (126,)))
        last = Item(21, [((0, 70), b"l" * length)], trx=22)
        changes = [SizeChange(256 - seqno, trx=seqno) for seqno in range(7, 22)]
        items = [wide(seqno) for seqno in range(1, 7)] + changes + [last, SizeChange(2, trx=23)]
        assert sum(item.size() for item in items[:22]) == 7_662 - 11 + length
        for seqno, item in enumerate(items, 1):
            life.do((seqno, item))
        for durable in (count, 23 - count):
            for event, wanted in (("log", "wrote"), ("sync", "synced 0"), ("log", "wrote")):
                assert life.do(event) == [wanted]
            assert life.do("sync")[0] == "synced %d" % durable
        life.stop("drop", [(0, 0), (0, 70)])
        assert life.do("limits") == ["size 2 floor 22"]
        yield trial


def bytes_of_changes(_):
    """The records of changes in a block, byte by byte: the smallest size and the largest, and labels of either end."""
    trial, top = Trial("a block of changes"), 2**64 - 1
    life, changes = Life(trial), [(1, 1, 2), (256, top, 3), (255, 4, top), (2, 0, 0)]
    for seqno, (size, source, trx) in enumerate(changes, 1):
        assert life.do((seqno, SizeChange(size, source, trx))) == ["%d commit" % seqno]
    for event in ("log", "sync", "log"):
        life.do(event)
    assert life.do("sync") == ["synced 4"] + ["reply %d commit %d:%d" % (seqno, source, trx) for seqno, (_, source, trx) in enumerate(changes, 1)]
    data = block_bytes(0, 1, [change_bytes(seqno, (source, trx), size) for seqno, (size, source, trx) in enumerate(changes, 1)])
    trial.say("bytes %d %d" % (cell_at(0), len(data) + 8), data.hex() + "00" * 8)
    trial.say("open", "open " + life.node.gtid())
    life.agrees(KEYS)
    assert life.do("limits") == ["size 2 floor 3"]
    yield trial


def full_backlog(_):
    """As many changes wait as write sets may, and 64 of them are a block's. They go into the log in four blocks, of which the window's size is
    that of the last."""
    trial = Trial("256 changes")
    life = Life(trial)
    for seqno in range(1, 257):
        assert life.do((seqno, SizeChange(257 - seqno, trx=seqno))) == ["%d commit" % seqno]
    for seqno, refusal in ((258, "4 out-of-order 257"), (1, "4 out-of-order 257"), (257, "5 backlogged")):
        trial.say("deliver %d window 2" % seqno, "refused " + refusal)
        trial.say("deliver %d 0 w 0/1=61" % seqno, "refused " + refusal)
    for block in range(4):
        for event, wanted in (("log", "wrote"), ("sync", "synced 0"), ("log", "wrote")):
            assert life.do(event) == [wanted]
        assert life.do("sync") == ["synced 64"] + replies_to(64 * block + 1, 64 * block + 64)
        assert life.do("limits") == ["size %d floor %d" % [(193, 1), (129, 1), (65, 128), (1, 256)][block]]
    life.stop("junk", KEYS)
    assert life.do("limits") + life.do("state") == ["size 1 floor 256", "state %s:256 base 0 window" % CLUSTER]
    yield trial


def no_page_is_left(_):
    """A change of the size changes no page, and a checkpoint to it saves the window alone."""
    for of_format in (ONE, TWO):
        trial = Trial("a checkpoint to a change, format %d" % of_format)
        life = Life(trial, of_format=of_format)
        for event, *wanted in (
            [(1, SizeChange(256, trx=1)), "1 commit"], ["log", "wrote"], ["sync", "synced 0"], ["log", "wrote"],
            ["sync", "synced 1", "reply 1 commit 7:1"], ["check", "began 1"],
        ):
            assert life.do(event) == wanted
        for page in (0, 1):
            assert life.do("flush %d" % page) == ["refused 7 not-due"]
        for _ in range(4):
            assert life.do("check") + life.do("sync") == ["wrote", "synced 0"]
        life.stop("drop")
        assert life.do("state") + life.do("limits") == ["state %s:1 base 1 window" % CLUSTER, "size 256 floor 1"]
        yield trial


# ---- refusals


def refusals(_):
    """A change is refused as a write set is, and the first of the reasons is told: a node that is stopped, one of no cluster, no seqno left, a
    seqno that is not the next one."""
    trial = Trial("a node of no cluster")
    trial.say("disk %d 0" % SMALL_SIZE, "blank")
    trial.say("undefined " + params_line(SMALL), "formatted " + UNDEFINED)
    trial.say("open", "open " + UNDEFINED)
    trial.say("limits", "size 4 floor 1")
    for seqno in (0, 1, 7, LAST + 1):
        trial.say("deliver %d window 2" % seqno, "refused 11 undefined")
    trial.say("apart stopped", "node 0 0 0 quiet stopped")
    trial.say("deliver 7 window 2", "refused 3 stopped")
    trial.say("limits", "size 4 floor 1")
    yield trial
    # The last seqno is that of a change, behind which there is none.
    trial = opens(with_base(new("the last seqno"), A, 2, LAST - 1), LAST - 1, LAST - 1)
    for line, *wanted in (
        ["deliver %d window 2" % (LAST + 1), "refused 4 out-of-order %d" % LAST], ["deliver %d window 2 id 1:2" % LAST, "%d commit" % LAST],
        ["deliver %d window 3" % (LAST + 1), "refused 23 exhausted"], ["deliver 1 window 3", "refused 23 exhausted"],
        ["limits", "size 4 floor %d" % (LAST - 4)], ["log", "wrote"], ["sync", "synced 0"], ["log", "wrote"],
        ["sync", "synced 1", "reply %d commit 1:2" % LAST], ["limits", "size 2 floor %d" % (LAST - 1)], ["stop drop", "open %s:%d" % (CLUSTER, LAST)],
        ["limits", "size 2 floor %d" % (LAST - 1)],
    ):
        trial.say(line, *wanted)
    yield trial


TRIALS = [
    ("the first change behind an item of a disk of format 1", first_life),
    ("a stop behind each event of changes to a smaller and a larger window", stopped(TWO)),
    ("a stop behind each event of changes over a base of format 1", stopped(ONE)),
    ("a fault at each call of changes to a smaller and a larger window", faulted("once")),
    ("a stop at each call of changes to a smaller and a larger window", faulted("from")),
    ("donors and joiners among changes judge the next item alike", joins),
    ("a snapshot of another size or floor is found out", joins_by_another_reach),
    ("a change takes 47 bytes of a block", block_is_filled),
    ("the bytes of changes in a block", bytes_of_changes),
    ("a full backlog of changes", full_backlog),
    ("a checkpoint to a change writes no page", no_page_is_left),
    ("a change is refused as a write set is", refusals),
]
