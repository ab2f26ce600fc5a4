"""Snapshots of a donor's base that are installed in other nodes, as trials play them."""
from lib.disks import OPEN
from lib.faults import FAULT, STOPPED, calls_of_an_opening
from lib.formats import A, B, CELL, need
from lib.node_model import CLUSTER, LOSSES, Item, Node, Order, does
from lib.trial import Life, Trial, params_line

OFF, NOT_FOR_IT = "off", "not for this node"
# A window of 4, four cells, and tables of 70, 4 and 63 rows: the pages 0 and 1, 2, and 3. What their disk needs.
PARAMS, SIZE = (4, 4, (70, 4, 63)), need(4, 4)
# The first and the last row of each page, and those between that items write.
KEYS = [(0, 0), (0, 1), (0, 2), (0, 62), (0, 63), (0, 69), (1, 0), (1, 3), (2, 0), (2, 62)]
# The positions that the donor's base comes to.
AT, LATER = 8, 12
# The items behind the first, each as what it had seen, its writes and its reads, with its verdict. Behind the fifth the page 2 has no row,
# and up to the ninth the page 3 has none. The ninth conflicts with an item of the window at 8.
ITEMS = [
    (0, {(0, 1): b"\x01", (1, 0): b"\x01"}, [], "commit"),
    (1, {(0, 63): b"\x02"}, [], "commit"),
    (2, {(1, 3): b"\x03"}, [], "commit"),
    (1, {(0, 2): b"\x04"}, [(0, 63)], "conflict 2"),
    (4, {(1, 0): None, (1, 3): None}, [], "commit"),
    (5, {(0, 1): b"\x06", (0, 69): b"\x06"}, [], "commit"),
    (6, {(0, 62): b"\x07"}, [], "commit"),
    (7, {(0, 0): b"\x08"}, [], "commit"),
    (5, {(0, 62): b"\x09"}, [], "conflict 7"),
    (9, {(2, 0): b"\x0a"}, [], "commit"),
    (10, {(1, 0): b"\x0b"}, [], "commit"),
    (9, {(0, 2): b"\x0c"}, [(2, 0)], "conflict 10"),
    (12, {(0, 1): b"\x0d", (0, 63): b"\x0d"}, [], "commit"),
    (3, {(0, 2): b"\x0e"}, [], "stale"),
    (14, {(1, 4): b"\x0f"}, [], "badkey"),
    (15, {(2, 62): b"\x10"}, [], "commit"),
]
# The windows there, with their sizes and floors, and the rows, by hand: those of page 0, 1, 2 and 3.
WINDOWS, LIMITS = {AT: "5 6 7 8", LATER: "10 11"}, {AT: "size 4 floor 5", LATER: "size 4 floor 9"}
WITH_KEYS = {
    AT: [
        "window 4", "entry 5 2", "key 1/0", "key 1/3", "entry 6 2", "key 0/1", "key 0/69", "entry 7 1", "key 0/62", "entry 8 1", "key 0/0",
    ],
    LATER: ["window 2", "entry 10 1", "key 2/0", "entry 11 1", "key 1/0"],
}
ROWS = {
    AT: ["value 08", "value 06", "absent", "value 07", "value 02", "value 06", "absent", "absent", "absent", "absent"],
    LATER: ["value 08", "value 06", "absent", "value 07", "value 02", "value 06", "value 0b", "absent", "value 0a", "absent"],
}
# The pages that the donor has in a slot.
IN_SLOTS = {AT: (0, 1, 2), LATER: (0, 1, 2, 3)}


def order_of(items):
    """The order of these items, of which each is judged as it stands with it."""
    order = Order(PARAMS[0], PARAMS[2])
    for seqno, (last_seen, writes, reads, verdict) in enumerate(items, 1):
        order.add(Item(last_seen, sorted(writes.items()), reads=reads, trx=seqno))
        assert order.verdicts[-1] == verdict, (seqno, order.verdicts[-1])
    return order


class Scene:
    """A trial of several nodes of one order: what is done to the one on the disk, and to the donor beside it."""

    def __init__(self, title, items=ITEMS, keys=KEYS):
        self.trial, self.life, self.keys = Trial(title), None, keys
        self.is_of(order_of(items))
        # The pages that came of the snapshot that is on its way.
        self.came = []

    def is_of(self, order):
        """The nodes are all of this order."""
        self.order, self.trial.orders = order, [(order, PARAMS[1])]

    def say(self, line, *wanted):
        self.trial.say(line, *wanted)

    def new_node(self, is_defined=True, cells=PARAMS[1]):
        """A new node on a new disk, of the cluster or of none."""
        params = (PARAMS[0], cells, PARAMS[2])
        node = Node(*params, order=self.order, is_defined=is_defined)
        self.say("disk %d 0" % (SIZE + CELL * (cells - PARAMS[1])), "blank")
        self.say(("" if is_defined else "undefined ") + params_line(params), "formatted " + node.gtid())
        self.open_as(node)

    def open_as(self, node):
        """The disk is opened, on which this node stands."""
        self.say("open", "open " + node.gtid())
        self.life = Life(None, node=node)
        self.life.trial = self.trial

    def node(self):
        return self.life.node

    def delivers(self, last):
        """The items up to this seqno are delivered."""
        for seqno in range(self.node().delivered + 1, last + 1):
            self.life.do((seqno, self.order.items[seqno - 1]))

    def logs(self, last):
        """The items up to this seqno become durable together."""
        self.delivers(last)
        while self.node().durable < last:
            self.life.do("sync" if self.node().log.awaits_sync() else "log")

    def does_all(self, last):
        """The items up to this seqno become durable, and the base stands there."""
        self.delivers(last)
        while self.node().due():
            self.life.do(self.node().due())
        assert self.node().base() == last

    def lends(self, behind=0):
        """A donor's disk is lent whose base stands at 8, with so many items behind that."""
        self.new_node()
        self.does_all(AT)
        self.logs(AT + behind)
        self.say("lend", "lent %s:%d base %d" % (CLUSTER, AT + behind, AT))

    def brings(self, position=AT):
        self.came = []
        self.say("bring", "installing %d" % position)

    def puts(self, pages, position=AT):
        """These pages of the donor come, of which it has some in no slot."""
        for page in pages:
            self.say("page %d" % page, "page" if page in IN_SLOTS[position] else "no page")
            self.came += [page] * (page in IN_SLOTS[position])

    def ends(self, position=AT):
        self.say("end", "installed %s:%d" % (CLUSTER, position))
        does(self.node().install(position, self.came))

    def installs(self, position=AT):
        """The donor's snapshot is installed."""
        self.brings(position)
        self.puts(range(4), position)
        self.ends(position)

    def shows_window(self, position=AT):
        """The window is that of the snapshot, at which the node stands."""
        self.say("state", "state %s:%d base %d window %s" % (CLUSTER, position, position, WINDOWS[position]))
        self.say("limits", LIMITS[position])
        self.say("window", *WITH_KEYS[position])

    def stands_at(self, position=AT):
        """The node stands at the snapshot, and nothing is left to do: by hand, and by the model."""
        self.say("node", "node %d %d %d quiet running" % (position, position, position))
        self.shows_window(position)
        for key, row in zip(KEYS, ROWS[position]):
            self.say("read %d/%d %d" % (*key, position), row)
            self.say("read %d/%d %d" % (*key, position - 1), "refused 8 too-old %d" % position)
            self.say("read %d/%d %d" % (*key, position + 1), "refused 9 not-yet %d" % position)
        self.life.agrees(self.keys)

    def goes_on(self):
        """The node is handed the rest of the order, all of it becomes durable, and the base stands there. One of no cluster is handed the
        snapshot before."""
        if not self.node().is_defined:
            self.say(self.order.items[0].delivery(1), "refused 11 undefined")
            self.installs()
        self.life.goes_on(self.order, self.keys)
        assert self.node().base() == self.node().durable == len(self.order.items)


# ---- the nodes that a snapshot comes to


def fresh(scene):
    scene.new_node()


def of_no_cluster(scene):
    scene.new_node(is_defined=False)


def behind_a_block(scene):
    """Three items in one block, above the base."""
    scene.new_node()
    scene.logs(3)


def with_pages(scene):
    """Three items in the base, which has rows in the page 2, and one behind it."""
    scene.new_node()
    scene.does_all(3)
    scene.logs(4)


def wrapped(scene):
    """Six blocks in four cells: the base at 4, and two items behind it in cells that stand open of the first lap's blocks."""
    scene.new_node()
    for seqno in range(1, 7):
        if scene.node().log.is_full():
            scene.does_all(seqno - 1)
        scene.logs(seqno)
    assert (scene.node().base(), scene.node().durable, scene.node().log.next) == (4, 6, 6)


def still_open(scene):
    """The same with its base at 6, stopped where both superblocks stand open."""
    wrapped(scene)
    while scene.node().phase() != "retiring":
        scene.life.do(scene.node().due())
    scene.say("crash drop", "crashed")
    for gate in (A.gate, B.gate):
        scene.say("bytes %d 1" % gate, OPEN)
    scene.say("open", *scene.node().stop("drop"))
    scene.say("node", "node 6 6 6 busy running")


def joined_by(title, make, behind=0):
    """The donor's disk, and behind it this node on its own."""
    scene = Scene("%s, %s" % (title, make.__name__))
    scene.lends(behind)
    make(scene)
    return scene


# ---- whole installations


def installs_in(make):
    """The snapshot in this node: it stands there, also behind a stop with each loss, goes on with its order, and a last stop leaves the
    same."""

    def trials(_):
        for loss in LOSSES:
            scene = joined_by("installed, " + loss, make, behind=2)
            scene.installs()
            scene.stands_at()
            scene.life.stop(loss, KEYS)
            scene.stands_at()
            assert scene.life.do((9, scene.order.items[8])) == ["9 conflict 7"]
            scene.goes_on()
            scene.life.stop(loss, KEYS)
            yield scene.trial
            scene = joined_by("installed without a stop, " + loss, make)
            scene.installs()
            scene.stands_at()
            scene.goes_on()
            scene.life.stop(loss, KEYS)
            yield scene.trial

    return trials


# ---- stops and faults at each call

# Three pages come by a write each; and of the eight calls behind them the first four write the window and the superblock, with a sync
# behind each. The fifth writes its gate, and the sixth makes that stable.
PUT, CALLS, GATE = 3, 11, 8


def is_refused(scene, before, done):
    """The answers to an installation of which so many calls are served, and what the node then says."""
    scene.brings()
    for page in range(PUT):
        scene.say("page %d" % page, "page" if page < done else FAULT if page == done else STOPPED)
    scene.say("page 3", "no page")
    scene.say("end", STOPPED if done < PUT else FAULT if done < CALLS else "installed %s:8" % CLUSTER)
    does(scene.node().install(AT, range(PUT)), max(done - PUT, 0))
    if done == CALLS:
        # These were all of its calls: the one that fails is that of a read.
        scene.say("node", "node 8 8 8 quiet running")
        scene.shows_window()
        scene.say("read 0/0 8", FAULT)
        return
    is_risen = done > GATE
    scene.say("node", "node 8 8 8 busy stopped" if is_risen else before["node"].replace("running", "stopped"))
    scene.say("state", "state %s:8 base 8 window 5 6 7 8" % CLUSTER if is_risen else before["state"])
    for line in ("log", "sync", "check", "flush 0", "read 0/1 0", scene.order.items[0].delivery(1), "settle"):
        scene.say(line, STOPPED)
    scene.say("bring", NOT_FOR_IT if is_risen else STOPPED)


def is_left(scene, before, done, loss):
    """What opens behind a stop with this loss: before the gate is written what was, behind its sync the snapshot, and between what the
    loss makes of it. The superblock before stands open until its closed gate is stable, or was not dropped."""
    is_new = done > GATE or (done == GATE and loss == "keep")
    is_retiring = done in (GATE, GATE + 1) or (done == GATE + 2 and loss == "drop")
    scene.say("crash " + loss, "crashed")
    scene.say("open", "open %s:8" % CLUSTER if is_new else before["open"])
    assert scene.node().stop(loss) == ["open %s:8" % CLUSTER if is_new else before["open"]]
    scene.say("node", "node 8 8 8 %s running" % ("busy" if is_retiring else "quiet") if is_new else before["node"])
    scene.say("state", "state %s:8 base 8 window 5 6 7 8" % CLUSTER if is_new else before["state"])
    scene.life.agrees(KEYS)


def shown_by(scene):
    """What the node says of itself."""
    node = scene.node()
    return {"open": "open " + node.gtid(), "node": node.shown()[0], "state": node.state()[0]}


def fails_at(make, kind, calls, done, loss):
    """An installation on a device that fails so behind this number of its calls, and a stop with this loss."""
    scene = joined_by("%s %d, %s" % (kind, done, loss), make)
    before = shown_by(scene)
    scene.say("fail %s %d" % (kind, calls + done), "armed")
    scene.say("open", before["open"])
    is_refused(scene, before, done)
    scene.say("failures", "failures 1")
    is_left(scene, before, done, loss)
    scene.goes_on()
    return scene.trial


def at_each_call(make, kind):
    def trials(program):
        calls = calls_of_an_opening(program, joined_by("the opening", make).trial.text())
        for done in range(CALLS + 1):
            for loss in LOSSES:
                yield fails_at(make, kind, calls, done, loss)

    return trials
