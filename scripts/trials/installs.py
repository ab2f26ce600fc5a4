"""Snapshots of a donor's base that are installed in other nodes: into new ones, ones of no cluster and used ones; stops with each loss and
faults at each call of an installation, which leave the node as it was or the snapshot, whole; and what is given up or not taken."""
from lib.formats import (
    B, CLOSED, LOG, OPEN_GATE, Page, Superblock, Window, fixed_reach, page_at, page_bytes, pages_of, side_of, superblock_bytes, window_bytes,
)
from lib.installs import (
    AT, KEYS, LATER, NOT_FOR_IT, OFF, PARAMS, SIZE, WINDOWS, Scene, at_each_call, behind_a_block, fresh, installs_in, joined_by, of_no_cluster,
    shown_by, still_open, with_pages, wrapped,
)
from lib.model_bytes import UUID
from lib.node_model import CLUSTER, LOSSES, UNDEFINED
from lib.trial import params_line


# ---- the nodes that a snapshot comes to


def both_open(scene):
    """A node of which both superblocks stand open, which settles first."""
    still_open(scene)
    scene.say("bring", NOT_FOR_IT)
    scene.life.settle(KEYS)
    scene.say("node", "node 6 6 6 quiet running")


JOINERS = (fresh, of_no_cluster, behind_a_block, with_pages, wrapped, both_open)


# ---- whole installations


def shows_base(scene, q, position, start, slots):
    """The superblock of this number stands open alone, its window is beside it, and each page that is in a slot was written there for
    this position."""
    side, other = side_of(q), side_of(q + 1)
    shows(scene, side.body, superblock_bytes(q, UUID, PARAMS, position, start, slots)[: Superblock.state_at(3) + 1])
    shows(scene, side.gate, OPEN_GATE)
    shows(scene, other.gate, bytes([CLOSED]))
    entries = [b""] * len(WINDOWS[position].split())
    shows(scene, side.window, window_bytes(q, position, entries, fixed_reach(PARAMS[0], position))[: Window.ZEROS.at])
    for page, (slot, (table, row)) in enumerate(zip(slots, pages_of(PARAMS[2]))):
        if slot:
            shows(scene, page_at(PARAMS[1], page, slot - 1), page_bytes(page, table, row, position, [])[: Page.POSITION.end])


def shows(scene, place, data):
    """The disk has these bytes at this place."""
    scene.say("bytes %d %d" % (place, len(data)), data.hex())


def twice(_):
    """Two installations one behind the other: the donor's base moves on, and so do the superblock's number and the slots. A node may
    take items between the two."""
    for loss in LOSSES:
        for items, is_saved in ((0, False), (2, False), (2, True)):
            scene = Scene("twice, %d items between, %s, %s" % (items, "saved" if is_saved else "logged", loss))
            scene.lends()
            donor = scene.node()
            fresh(scene)
            scene.installs()
            if not items:
                shows_base(scene, 1, AT, 0, (1, 1, 1, 0))
                scene.open_as(scene.node())
            (scene.does_all if is_saved else scene.logs)(AT + items)
            joiner = scene.node()
            scene.say("swap", "lent %s:%d base %d" % (CLUSTER, AT + items, joiner.base()))
            scene.open_as(donor)
            scene.does_all(LATER)
            scene.say("swap", "lent %s:%d base %d" % (CLUSTER, LATER, LATER))
            scene.open_as(joiner)
            scene.installs(LATER)
            scene.stands_at(LATER)
            if not items:
                shows_base(scene, 2, LATER, 0, (2, 2, 2, 1))
                scene.open_as(scene.node())
            scene.life.stop(loss, KEYS)
            scene.stands_at(LATER)
            scene.goes_on()
            yield scene.trial


def through_another(_):
    """A page without rows need not come. Whoever installs the snapshot of such a node has no row there, though it had some."""
    for loss in LOSSES:
        scene = Scene("through another, " + loss)
        scene.lends()
        fresh(scene)
        scene.brings()
        scene.puts((1, 0))
        scene.ends()
        scene.stands_at()
        scene.say("lend", "lent %s:8 base 8" % CLUSTER)
        with_pages(scene)
        scene.say("read 1/0 3", "value 01")
        scene.say("read 1/3 4", "value 03")
        scene.brings()
        for page, wanted in enumerate(("page", "page", "no page", "no page")):
            scene.say("page %d" % page, wanted)
        scene.ends()
        scene.stands_at()
        scene.life.stop(loss, KEYS)
        scene.stands_at()
        # The number of its base was 1, of the side B, and its pages stood in their first slots.
        shows_base(scene, 2, AT, 2, (2, 2, 0, 0))
        scene.open_as(scene.node())
        scene.goes_on()
        yield scene.trial


# ---- what is given up


def given_up(make):
    """A snapshot that is given up behind some pages, or let go by a stop, leaves the node as it was: it makes a checkpoint of its own, and
    then takes the snapshot."""

    def trials(_):
        for pages in range(5):
            for loss in LOSSES:
                for is_given_up in (True, False):
                    scene = joined_by("%s behind %d pages, %s" % ("given up" if is_given_up else "stopped", pages, loss), make)
                    before = shown_by(scene)
                    scene.brings()
                    scene.puts(range(pages))
                    if is_given_up:
                        scene.say("give_up", "as before")
                        for line in ("page 0", "end", "give_up"):
                            scene.say(line, OFF)
                        scene.say("node", before["node"])
                        scene.life.agrees(KEYS)
                        scene.life.stop(loss, KEYS)
                    else:
                        scene.say("crash " + loss, "crashed")
                        scene.say("open", before["open"])
                    scene.say("state", before["state"])
                    scene.life.agrees(KEYS)
                    if scene.node().is_defined:
                        scene.does_all(scene.node().durable + 1)
                        scene.life.agrees(KEYS)
                    scene.installs()
                    scene.stands_at()
                    scene.life.stop(loss, KEYS)
                    scene.goes_on()
                    yield scene.trial

    return trials


# ---- what is not taken


def not_above(_):
    """A snapshot at what is durable, or below it, is not for a node of its cluster."""
    for durable in (AT, AT + 1):
        for is_saved in (False, True):
            scene = Scene("at %d" % durable)
            scene.lends()
            scene.new_node()
            (scene.does_all if is_saved else scene.logs)(durable)
            scene.say("bring", NOT_FOR_IT)
            scene.life.agrees(KEYS)
            scene.goes_on()
            scene.say("bring", NOT_FOR_IT)
            yield scene.trial
    scene = joined_by("again", fresh)
    scene.installs()
    scene.say("bring", NOT_FOR_IT)
    scene.stands_at()
    scene.goes_on()
    yield scene.trial


def not_quiet(_):
    """A node to which an item was delivered that is not durable takes none, at no stage of the next block; and neither does one with a
    checkpoint under way, in no phase of it."""
    scene = joined_by("a block under way", wrapped)
    scene.delivers(7)
    scene.say("bring", NOT_FOR_IT)
    for event in ("log", "sync", "log", "sync", "log"):
        scene.life.do(event)
        scene.say("bring", NOT_FOR_IT)
    scene.life.do("sync")
    scene.installs()
    scene.stands_at()
    scene.goes_on()
    yield scene.trial
    scene = joined_by("a checkpoint under way", wrapped)
    while scene.node().due():
        scene.life.do(scene.node().due())
        scene.say("bring", *([NOT_FOR_IT] if scene.node().phase() != "off" else ["installing 8"]))
    scene.puts(range(4))
    scene.ends()
    scene.stands_at()
    scene.goes_on()
    yield scene.trial


def other_nodes(_):
    """Other parameters and another cluster than the donor's are not for it, nor is a donor of no cluster for any; but a node of no
    cluster takes the snapshot of any."""
    other_rows = ((70, 4), (70, 4, 62), (70, 63, 4), (70, 4, 63, 1))
    for other in [(3, 4, PARAMS[2]), (4, 5, PARAMS[2])] + [(4, 4, rows) for rows in other_rows]:
        for first in ("", "undefined "):
            scene = Scene("other parameters")
            scene.lends()
            scene.say("disk %d 0" % (2 * SIZE), "blank")
            scene.say(first + params_line(other), "formatted " + (UNDEFINED if first else CLUSTER + ":0"))
            scene.say("open", "open " + (UNDEFINED if first else CLUSTER + ":0"))
            scene.say("bring", NOT_FOR_IT)
            scene.say("node", "node 0 0 0 quiet running")
            yield scene.trial
    for make in (fresh, of_no_cluster):
        scene = Scene("a donor of no cluster, " + make.__name__)
        of_no_cluster(scene)
        scene.say("lend", "lent %s base 0" % UNDEFINED)
        make(scene)
        scene.say("bring", NOT_FOR_IT)
        scene.life.agrees(KEYS)
        scene.say("lend", "lent %s base 0" % scene.node().gtid())
        yield scene.trial
    another = CLUSTER.replace("11", "22", 1)
    for make in (fresh, of_no_cluster):
        scene = Scene("another cluster, " + make.__name__)
        scene.new_node()
        scene.does_all(AT)
        # The base has the number 1: its superblock is that of the side B.
        scene.say("put %d 22" % (B.body + Superblock.UUID.at), "put")
        scene.say("lend", "lent %s:8 base 8" % another)
        make(scene)
        if make == fresh:
            scene.say("bring", NOT_FOR_IT)
            scene.life.agrees(KEYS)
        else:
            scene.brings()
            scene.puts(range(4))
            scene.say("end", "installed %s:8" % another)
            scene.say("state", "state %s:8 base 8 window 5 6 7 8" % another)
            scene.say("stop drop", "open %s:8" % another)
            scene.say(scene.order.items[8].delivery(9), "9 conflict 7")
        yield scene.trial


def at_nothing(_):
    """A node of no cluster takes the snapshot of one to which nothing was delivered, and then is of that cluster."""
    for loss in LOSSES:
        scene = Scene("nothing, " + loss)
        fresh(scene)
        scene.say("lend", "lent %s:0 base 0" % CLUSTER)
        of_no_cluster(scene)
        scene.say(scene.order.items[0].delivery(1), "refused 11 undefined")
        scene.brings(0)
        for page in range(4):
            scene.say("page %d" % page, "no page")
        scene.ends(0)
        scene.say("state", "state %s:0 base 0 window" % CLUSTER)
        scene.life.agrees(KEYS)
        scene.life.stop(loss, KEYS)
        scene.goes_on()
        yield scene.trial


def lines_are_off(_):
    """While a snapshot comes to a node all that is asked of the node is off; and so is a snapshot without a node, or a donor."""
    scene = Scene("without a donor")
    fresh(scene)
    for line in ("bring", "page 0", "end", "give_up", "swap"):
        scene.say(line, OFF)
    scene.life.agrees(KEYS)
    scene.say("disk %d 0" % LOG, "blank")
    for line in ("bring", "page 0", "end", "give_up"):
        scene.say(line, OFF)
    scene.say("lend", "refused 12 not-formatted")
    scene.say("swap", OFF)
    yield scene.trial
    scene = joined_by("on its way", wrapped)
    scene.say("page 0", OFF)
    scene.brings()
    first = scene.order.items[6].delivery(7)
    lines = [first, "log", "sync", "check", "flush 0", "read 0/1 6", "state", "stop keep", "settle", "apart", "apart stopped", "node"]
    for line in lines + ["limits", "window", "batch 1\n" + first, "bring"]:
        scene.say(line, OFF)
    for line, wanted in (
        ("page 1", "page"), ("page 1", "not a new page"), ("page 4", "no page"), ("page 4294967295", "no page"), ("page 3", "no page"),
        ("page 0", "page"), ("page 0", "not a new page"), ("page 2", "page"),
    ):
        scene.say(line, wanted)
    scene.ends()
    for line in ("page 0", "end", "give_up"):
        scene.say(line, OFF)
    scene.stands_at()
    scene.goes_on()
    yield scene.trial


def each_joiner(title, make):
    return [("%s, %s" % (title, joiner.__name__.replace("_", " ")), make(joiner)) for joiner in JOINERS]


TRIALS = (
    each_joiner("a snapshot is installed, and the node goes on from there", installs_in)
    + [
        ("two snapshots are installed one behind the other", twice),
        ("rows of a page that the donor does not have are absent", through_another),
    ]
    + each_joiner("a fault at each call of an installation leaves the node or the snapshot", lambda make: at_each_call(make, "once"))
    + each_joiner("a stop at each call of an installation leaves the node or the snapshot", lambda make: at_each_call(make, "from"))
    + each_joiner("a snapshot that is given up leaves the node as it was", given_up)
    + [
        ("a snapshot that is not above what is durable is not taken", not_above),
        ("a node that is not quiet takes no snapshot", not_quiet),
        ("a snapshot is taken by a node of its parameters and its cluster, or of none", other_nodes),
        ("a node of no cluster takes the snapshot of a new one", at_nothing),
        ("while a snapshot is installed the node is off", lines_are_off),
    ]
)
