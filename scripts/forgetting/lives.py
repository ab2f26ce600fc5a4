"""Nodes on systems that forget what they could not write, by each command that changes a disk: what is handed to them, start by start, and what of it
was told as durable."""
import math
import os
import signal

from forgetting.systems import CELLS, FAULT, ROWS, WINDOW, Ended, Room, System, model_of, opens, stands
from lib import node_model
from lib.followed import LIMIT, Following, Order, format_disk, order_line, told_of
from lib.node_model import Item
from lib.proved import Wrong

# How a program ends: by the end of what it is fed, by a call that failed, killed, or stopped at a call (stop_calls.c).
DONE, FAILED, KILLED, STOPPED = 0, 1, -signal.SIGKILL, 77
# How many items are handed in together behind a position, by its rest.
GROUPS = (1, 1, 2, 1, 3)
PAGES = sum(-(-rows // node_model.ROWS_OF_A_PAGE) for rows in ROWS)
CHECKPOINT = ["check"] + ["flush %d" % page for page in range(PAGES)] + ["check", "sync"] * 4


def is_failure(lines: list, faults: tuple = (FAULT,)):
    """A program whose device failed says that last."""
    if not lines or lines[-1] not in faults:
        raise Wrong("its device fails, and it ends with %r" % lines[-2:])


class Life:
    """A node in its order on one disk after another, and up to which item it told that these are durable."""

    def __init__(self, room: Room, order: Order):
        self.room, self.order, self.told = room, order, 0

    def new_system(self) -> System:
        return self.room.system()

    def upto(self, share: float) -> int:
        """Up to which item a start hands in, that is to hand in this share of those of which nothing was told: none, some or all."""
        return self.told + math.ceil(share * (self.order.last() - self.told))

    def stop(self) -> dict:
        """A call before which a program ends that is not fed while it runs: that is its kill."""
        return {"call": self.room.draw.randint(2, 12), "met": "before"}

    def tells(self, durable: int, last: int):
        """A program says what is durable as it opens, and then up to which item."""
        if durable < self.told:
            raise Wrong("it opens at %d, and %d was told" % (durable, self.told))
        self.told = max(durable, last)

    def behind_power_failure(self, system: System, loss: str):
        """The power fails. What was told is there, and the node goes on to the end of the order, mostly."""
        after, told = system.behind(loss), self.told
        try:
            opens(after, self.models(), told)
            if loss == "drop" or self.room.draw.random() < 0.3:
                self.goes_on(after)
        except Wrong as wrong:
            raise Wrong("behind a power failure (%s): %s" % (loss, wrong)) from None
        finally:
            self.told = told
            after.remove()

    def models(self) -> list:
        return [model_of(self.order)]

    def goes_on(self, system: System):
        """All of the order is handed in, and is there."""
        self.start(system)
        opens(system, self.models(), self.order.last())


class Followed(Life):
    """By `replicad follow`, in groups of one item or some."""

    def start(self, system: System, share: float = 1.0, kills: bool = False, **how) -> int:
        """Starts the program, which is fed behind the last receipt or from lower. Says how it ended."""
        position, upto = max(0, self.told - self.room.draw.choice((0, 0, 1, 3))), self.upto(share)
        life = system.begin("follow", **how)
        is_over = not self.fed(life, position, upto)
        if kills and not is_over:
            life.process.kill()
        elif not is_over:
            life.close()
        lines = system.ended(life, DONE, FAILED, KILLED, STOPPED)
        status = life.process.returncode
        if status == FAILED:
            is_failure(lines, (FAULT, "fault 3 stopped"))
        if lines and lines[0].startswith("at "):
            durable, _, last, rest = told_of(self.order, lines, position)
            self.tells(durable, last)
            if status == DONE and stands(rest)[0] != max(durable, last):
                raise Wrong("it ends with %r behind %d" % (rest, last))
        return status

    def fed(self, life: Following, position: int, upto: int) -> bool:
        """Hands these items in, each group once the one before was answered. Says whether it still runs."""
        try:
            life.answered(order_line(position))
            while position < upto:
                last = min(upto, position + GROUPS[position % len(GROUPS)])
                life.feed(self.order.lines(position + 1, last))
                for _ in range(last - position):
                    life.line()
                position = last
        except Wrong:
            return False
        return True


class Scripted(Life):
    """By scripts of `replicad run --disk`, in blocks of one item or two, with a checkpoint behind each third, and behind the last item."""

    def start(self, system: System, share: float = 1.0, kills: bool = False, **how) -> int:
        life = system.begin("run", "--disk", **how)
        try:
            durable, _ = stands([life.answered(b"state\n")])
            life.feed("".join(line + "\n" for line in self.lines(durable, self.upto(share))).encode())
            while not life.line().startswith("state ") or len(life.lines) == 1:
                pass
        except Wrong:
            if life.process.wait(LIMIT) != STOPPED and life.lines[-1:] != [FAULT]:
                raise
        if kills and life.process.poll() is None:
            life.process.kill()
        else:
            life.close()
        lines = system.ended(life, DONE, FAILED, KILLED, STOPPED)
        self.hears(lines)
        is_over = any(line.startswith(("refused 2 ", "refused 3 ", "fault ")) for line in lines)
        return FAILED if is_over else life.process.returncode

    def lines(self, durable: int, upto: int) -> list:
        found, blocks = [], 0
        while durable < upto:
            last = min(upto, durable + min(2, GROUPS[durable % len(GROUPS)]))
            found += [self.order.items[seqno - 1].delivery(seqno) for seqno in range(durable + 1, last + 1)]
            durable, blocks = last, blocks + 1
            # (behind a lap of the log the closed gate comes first; else the third pair is refused as not due)
            found += ["log", "sync"] * 3 + CHECKPOINT * (blocks % 3 == 0)
        # (what waits for a log that is full goes into it behind a checkpoint)
        return found + (CHECKPOINT + ["log", "sync"] * 3) * (upto == self.order.last()) + ["state"]

    def hears(self, lines: list):
        """The lines of replies are those of the order, and the state is never below what was told."""
        for line in lines:
            if line.startswith("reply "):
                seqno = int(line.split()[1])
                if line != "reply " + self.receipt(seqno):
                    raise Wrong("it writes %r, wanted was %r" % (line, self.receipt(seqno)))
                self.told = max(self.told, seqno)
            elif line.startswith("state "):
                durable, _ = stands([line])
                self.tells(durable, durable)

    def receipt(self, seqno: int) -> str:
        return self.order.receipts[seqno - 1]


class Served(Life):
    """By batches of `replicad serve` with one worker. Items of which no line tells are handed in again, whether they are durable or not: so there are
    several orders that it may have."""

    def __init__(self, room: Room, order: Order):
        super().__init__(room, order)
        # The orders that it may have up to what was told, the items of which no line tells, and those that starts may have left behind that.
        self.known, self.left, self.pending = [[]], list(order.items), []

    def start(self, system: System, share: float = 1.0, kills: bool = False, **how) -> int:
        items = self.left[: math.ceil(share * len(self.left))]
        how.update(self.stop() if kills and items else {})
        ended = system.run(["serve", system.disk, "--workers", "1"], "".join(item.line() + "\n" for item in items).encode(), **how)
        lines = [line for line in ended.lines if line[0].isdigit()]
        if ended.status == FAILED:
            is_failure(ended.lines, (FAULT, "fault 3 stopped"))
        if ended.status != FAILED or ended.lines[-1] != FAULT:
            self.hears(lines, items)
        if ended.status == DONE:
            durable, _ = stands(ended.lines[-1:])
            if len(lines) != len(items) or (items and durable != self.told):
                raise Wrong("it serves %d items, and ends with %r" % (len(items), ended.lines[-2:]))
            self.tells(durable, durable)
        return ended.status

    def hears(self, lines: list, items: list):
        """These lines tell of the first of these items. What was pending is settled by the first of them."""
        if lines:
            first, last = int(lines[0].split()[0]), int(lines[-1].split()[0])
            fits = [list(model.items) for model in self.models() if self.tell(model.items, items, lines) == lines]
            if first <= self.told or not fits:
                raise Wrong("where %d was told it writes %r" % (self.told, lines[:2]))
            self.known, self.told = [before + items[: len(lines)] for before in fits], last
            self.pending, self.left = [], self.left[len(lines) :]
        if len(lines) < len(items):
            self.pending.append(items[len(lines) :])

    @staticmethod
    def tell(before: list, items: list, lines: list) -> list:
        """The lines of as many of these items behind those before."""
        model = modelled(before + items[: len(lines)])
        told = list(enumerate(zip(model.verdicts, model.items), 1))[len(before) :]
        return ["%d %s %d:%d" % (seqno, verdict, item.source, item.trx) for seqno, (verdict, item) in told]

    def models(self) -> list:
        """The orders that it may have: behind what is known so many items of each start that was not told of."""
        found = self.known
        for items in self.pending:
            found = [before + items[:count] for before in found for count in range(len(items) + 1)]
        return [modelled(items) for items in found]

    def goes_on(self, system: System):
        """The same of a copy of the life."""
        other = Served(self.room, self.order)
        other.known, other.left, other.pending, other.told = list(self.known), list(self.left), list(self.pending), self.told
        if other.left:
            other.start(system)
        opens(system, other.models(), other.told)


def modelled(items: list) -> node_model.Order:
    """The model of these items as an order."""
    model = node_model.Order(WINDOW, list(ROWS))
    for item in items:
        model.add(item)
    return model


class Joined(Life):
    """By transfers of a donor with a snapshot and items: to a node of no cluster, and again to what that has become."""

    def __init__(self, room: Room, order: Order):
        super().__init__(room, order)
        self.donor, self.have, self.transfer = (os.path.join(room.folder, name) for name in ("donor.disk", "have", "transfer"))
        if not os.path.exists(self.donor):
            format_disk(room.program, self.donor, order, CELLS)
            life = Following(room.program, self.donor)
            Followed(room, order).fed(life, 0, order.last())
            life.kill()

    def new_system(self) -> System:
        """A node of no cluster."""
        folder = self.room.new_folder()
        words = ["--window", str(WINDOW), "--cells", str(CELLS), "--rows", ",".join(map(str, ROWS))]
        self.is_done(System(self.room, folder).run(["format", os.path.join(folder, "disk"), *words]))
        return System(self.room, folder)

    @staticmethod
    def is_done(ended: Ended):
        if ended.status != DONE:
            raise Wrong("it ends with %r, %r" % (ended.lines, ended.told))

    def start(self, system: System, share: float = 1.0, kills: bool = False, **how) -> int:
        """Joins by a transfer for what the node has. Where the disk is marked nobody can tell that: an older transfer does first, taken or not. Of no
        share at all, it is opened alone."""
        if not share:
            durable = max(0, int(system.script(["state"])[0].split()[1].rpartition(":")[2]))
            self.tells(durable, durable)
            return DONE
        if system.is_marked():
            status = self.joins(system, **how)
            if system.is_marked():
                return status
        said = system.run(["state", system.disk, "--have", self.have])
        self.is_done(said)
        durable = max(0, int(said.lines[3].split()[1]))
        self.tells(durable, durable)
        self.is_done(system.run(["donate", self.donor, "--have", self.have, "--out", self.transfer]))
        return self.joins(system, **{**how, **(self.stop() if kills else {})})

    def joins(self, system: System, **how) -> int:
        ended = system.run(["join", system.disk, "--from", self.transfer], **how)
        if ended.status == DONE:
            durable = int(ended.lines[-1].rpartition(":")[2])
            self.tells(durable, durable)
        elif ended.status == FAILED and not ended.lines[-1].startswith("fault 16 malformed"):
            is_failure(ended.lines)
        return ended.status

    def behind_power_failure(self, system: System, loss: str):
        if self.told:
            super().behind_power_failure(system, loss)
            return
        after = system.behind(loss)
        try:
            self.goes_on(after)
        except Wrong as wrong:
            raise Wrong("behind a power failure (%s): %s" % (loss, wrong)) from None
        finally:
            self.told = 0
            after.remove()


LIVES = {"follow": Followed, "run --disk": Scripted, "serve": Served, "join": Joined}


def distinct(count: int) -> list:
    """Items of which each writes a row of its own."""
    return [Item(0, [((0, row), bytes([row + 1]))], source=1, trx=row) for row in range(count)]
