"""Refuses each growth of memory in turn while a donor writes for a node and while that node joins (the proved program `run_harness`), and has
the node join once more: it then has all, and its window and rows are those of its position. A disk in memory has no room for the record of a
write or a sync where that growth is refused: it has failed then, and is opened again before that."""
from lib.faults import FAULT, STOPPED
from lib.installs import AT, PARAMS
from lib.joins import ENDS, JOINERS, KEYS, LAST, Transfer, met_by, shown
from lib.node_model import CLUSTER, LOSSES, Node
from lib.proved import Wrong
from lib.trial import Life, Trial

REFUSED = "refused 1 out-of-memory"
JOINED = "joined %s:%d" % (CLUSTER, LAST)


class Joining:
    """A node that joins, and the lines with which it does."""

    def __init__(self, make, refusing, program):
        self.scene, self.refusing, self.program = met_by("refused growths", make), refusing, program
        self.before, self.was_defined = self.scene.node().durable, self.scene.node().is_defined
        self.front = list(self.scene.trial.lines)
        self.scene.joins()
        self.donate, self.join = self.scene.trial.lines[len(self.front) :][:2]

    def trial(self, *more):
        trial = Trial("refused growths")
        trial.lines = self.front + list(more)
        return trial

    def found(self, lines, growth=0):
        """What these lines behind the front are answered by, and how many growths there were."""
        found, told, status, growths = self.refusing.run([self.program], self.trial(*lines).text().encode(), growth)
        if told or status:
            raise Wrong("with growth %d refused: %r, status %d" % (growth, told, status))
        return found[sum(len(wanted) for _, wanted in self.front) :], growths

    def stands_as(self, shown_now):
        """The model of the node that says this of itself where it has nothing left to do."""
        words = shown_now.split()
        delivered, durable, base = map(int, words[1:4])
        may_be = durable == self.before or AT <= durable <= LAST or self.before <= durable <= LAST and self.before >= AT
        if not (base <= durable == delivered and words[4:] == ["quiet", "running"] and may_be):
            raise Wrong("it stands so: " + shown_now)
        node = Node(*PARAMS, order=self.scene.order, is_defined=self.was_defined or durable >= AT)
        node.delivered, node.durable, node.checkpoint.base = delivered, durable, base
        return node

    def joins_again(self, growth, lines, is_at_an_end):
        """The join is answered so with this growth refused. Then the node stands at an item of the order, with the window and the rows
        there, and joins once more, whole."""
        found, _ = self.found([self.donate, *lines, ("node", []), ("donate", []), ("join", []), ("node", [])], growth)
        told = found[-5:]
        node = self.stands_as(told[0])
        if is_at_an_end and node.durable not in (self.before,) + ENDS:
            raise Wrong("with growth %d refused it opens at %d" % (growth, node.durable))
        trial = self.trial(self.donate, *lines)
        trial.orders = self.scene.trial.orders
        life = Life(None, node=node)
        life.trial = trial
        life.agrees(KEYS)
        trial.say("donate", "donated %d" % LAST, shown(Transfer(self.scene.donor, node).bytes()))
        trial.say("join", JOINED)
        last = Life(None, node=self.stands_as(told[-1]))
        last.trial = trial
        last.agrees(KEYS)
        if last.node.durable != LAST:
            raise Wrong("with growth %d refused it joins at %d" % (growth, last.node.durable))
        answers, told, status, _ = self.refusing.run([self.program], trial.text().encode(), growth)
        why = told or status or trial.wrong(answers)
        if why:
            raise Wrong("with growth %d refused: %s" % (growth, why))

    def kind(self, growth):
        """What the growth comes to: by which line it is answered, and how."""
        found, _ = self.found([self.donate, self.join], growth)
        if found == [*self.donate[1], *self.join[1]]:
            return "without harm", ""
        if found[: len(self.donate[1])] != self.donate[1]:
            # Nothing of the node changes. Written once more, the transfer is whole.
            said = found[0]
            behind = [("donate", found[:2]), self.donate, self.join]
            again, _ = self.found(behind, growth)
            if again[-len(self.donate[1]) - 1 :] != [*self.donate[1], *self.join[1]]:
                raise Wrong("with growth %d refused: %r" % (growth, again))
            return said, "donate"
        said = found[len(self.donate[1])]
        if said == REFUSED:
            self.joins_again(growth, [("join", [REFUSED]), ("settle", ["settled"])], False)
        elif said == FAULT:
            # The losses take turns: faults are many.
            lost = [("join", [FAULT]), ("log", [STOPPED]), ("settle", [STOPPED]), ("crash " + LOSSES[growth % 3], ["crashed"])]
            opened, _ = self.found([self.donate, *lost, ("open", [])], growth)
            # What an opening leaves to be done is done by the settling, so that the node is shown with nothing left.
            self.joins_again(growth, [*lost, ("open", opened[-1:]), ("settle", ["settled"])], True)
        else:
            raise Wrong("with growth %d refused it joins so: %r" % (growth, found))
        return said, "join"


def joining(refusing, program):
    """Each growth of a donation and of a join is refused in turn."""
    asked, without, kinds = 0, 0, {}
    for make in JOINERS:
        node = Joining(make, refusing, program)
        _, first = node.found([])
        found, last = node.found([node.donate, node.join])
        if found != [*node.donate[1], *node.join[1]]:
            raise Wrong("without a refused growth: %r" % found)
        for growth in range(first + 1, last + 1):
            said, word = node.kind(growth)
            kinds.setdefault(said, set()).add(word)
            without += said == "without harm"
        asked += last - first
    kinds.pop("without harm", None)
    if kinds != WANTED:
        raise Wrong("growths were refused by these lines: %r" % kinds)
    return "%d growths refused, %d of them without harm, and behind each other the node joins once more" % (asked, without)


# By which lines growths are refused, and by which the disk has failed. What a donor writes is kept in memory: a writer that has no room fails.
WANTED = {"refused 24 stream-fault": {"donate"}, REFUSED: {"join"}, FAULT: {"join"}}
