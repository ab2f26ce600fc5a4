"""Refuses each growth of memory in turn in lives of a replica (the proved program `run_harness`): openings, whose disk comes back as it was; the
steps of items and checkpoints; and settlings, which stand between two steps then. A disk in memory has no room for the record of a write or a
sync where that growth is refused: it has failed then."""
from copy import deepcopy

from lib.faults import STOPPED, standing_at
from lib.node_model import does
from lib.proved import Wrong
from lib.trial import BEFORE, SMALL_SIZE, Life, Trial, before_items, beside_an_item, full_log, one_item, resized, two_laps

ENDED, REFUSED, FAULT = "fault 1 out-of-memory", "refused 1 out-of-memory", "refused 2 disk-fault"
# The lives, each a script, how many of its events go before the settling, and whether its bytes are on a new disk in memory then. Behind the
# twelfth event of the third the body of the item's block is stable, and a page of the checkpoint is left.
LIVES = (
    (one_item, None, False), (one_item, 1, True), (beside_an_item, 12, False), (beside_an_item, None, False), (before_items, None, False),
    (two_laps, None, False), (full_log, BEFORE, False), (resized, 24, False),
)
# What shows between which steps a settling stands.
PROBES = ("log", "sync", "check", "flush 0", "flush 1")


class Settled:
    """A script that settles behind so many events, loses power, and is handed the rest and settles once more."""

    def __init__(self, make, count, is_new):
        self.script, self.trial, self.before = make(), Trial(make.__name__), {}
        self.life = self.script.play(self.trial, count)
        self.settles()
        self.trial.say("crash drop", "crashed")
        if is_new:
            # A new disk has no room for a record yet: an opening's sync asks for some.
            self.trial.say("cut %d" % SMALL_SIZE, "cut")
        self.trial.say("open", *self.life.node.stop("drop"))
        self.life.deliver_the_rest(self.script.order())
        self.settles()
        self.life.agrees()

    def settles(self):
        self.before[len(self.trial.lines)] = deepcopy(self.life.node)
        does(self.life.node.settle())
        self.trial.say("settle", "settled")


def behind(lines, *more):
    """A trial of these lines and more behind them."""
    trial = Trial("")
    trial.lines = list(lines) + list(more)
    return trial


class Refused:
    """The life with the growth of this number refused."""

    def __init__(self, refusing, program, lived, growth):
        self.refusing, self.program, self.lived, self.growth = refusing, program, lived, growth

    def answers(self, trial):
        found, told, status, _ = self.refusing.run([self.program], trial.text().encode(), self.growth)
        if told:
            raise Wrong("with growth %d refused it writes on standard error: %r" % (self.growth, told))
        return found, status

    def has(self, trial):
        """The lines of this trial are answered as they have to be."""
        found, status = self.answers(trial)
        why = trial.wrong(found) or ("status %d" % status if status else None)
        if why:
            raise Wrong("%s, with growth %d refused: %s" % (self.lived.trial.title, self.growth, why))

    def met(self):
        """The place of the line that was refused, and its answer; none where the life needs no such growth."""
        found, _ = self.answers(self.lived.trial)
        at = 0
        for place, (_, wanted) in enumerate(self.lived.trial.lines):
            if found[at : at + len(wanted)] != wanted:
                return place, (found[at:] + ["nothing"])[0]
            at += len(wanted)
        return None

    def is_twice(self, front, line, rest):
        """Written twice, the line is refused, and then answered as if nothing had been."""
        self.has(behind(front, (line[0], [REFUSED]), line, *rest))

    def comes_back(self, front, line, rest):
        """The disk of an opening that was refused is as it was."""
        found, _ = self.answers(behind(front, ("fingerprint", [])))
        shown = ("fingerprint", found[-1:])
        self.has(behind(front, shown, (line[0], [REFUSED]), shown, line, *rest))

    def is_faulted(self, front, line, rest):
        """The disk failed in an opening, and is as it was: it opens behind a stop."""
        found, _ = self.answers(behind(front, ("fingerprint", [])))
        shown = ("fingerprint", found[-1:])
        self.has(behind(front, shown, (line[0], [FAULT]), ("log", ["off"]), shown, ("crash drop", ["crashed"]), shown, line, *rest))

    def stands_between(self, place, front):
        """A settling that was refused stands behind some of its steps: each step then answers as the model, and a settling ends quiet."""
        node, could_be = deepcopy(self.lived.before[place]), []
        while not node.is_quiet():
            could_be.append(deepcopy(node))
            node.answer(node.next_step())
        for probe in PROBES:
            found, status = self.answers(behind(front, ("settle", []), (probe, []), ("settle", []), ("node", []), ("limits", []), ("window", [])))
            if status or found[len(behind_answers(front)) :][0] != REFUSED:
                raise Wrong("with growth %d refused: %r" % (self.growth, found[-4:]))
            could_be = [it for it in could_be if found[len(behind_answers(front)) + 1 :] == answers_of(deepcopy(it), probe)]
        if not could_be:
            raise Wrong("%s, with growth %d refused: the settling stands between no two steps" % (self.lived.trial.title, self.growth))

    def has_failed(self, front, line):
        """The disk failed: all is refused until it is opened again, which gives what is durable, and the rest becomes durable too."""
        lost = [(line[0], [FAULT]), ("log", [STOPPED]), ("settle", [STOPPED]), ("crash drop", ["crashed"])]
        found, _ = self.answers(behind(front, *lost, ("open", []), ("node", [])))
        node = standing_at(self.lived.script, found[-1])
        replies = [int(said.split()[1]) for said in behind_answers(front) if said.startswith("reply ")]
        if not max(replies, default=0) <= node.durable <= len(self.lived.script.order().items):
            raise Wrong("with growth %d refused it opens at %d" % (self.growth, node.durable))
        trial = behind(front, *lost, ("open", ["open " + node.gtid()]))
        life = Life(trial, node=node)
        life.agrees()
        life.deliver_the_rest(self.lived.script.order())
        trial.say("settle", "settled")
        trial.say("limits", *self.lived.life.node.limits())
        trial.say("window", *self.lived.life.node.window())
        self.has(trial)

    def kind(self):
        """What the growth comes to: how it is answered, and by which line."""
        met = self.met()
        if met is None:
            return "without harm", ""
        place, said = met
        front, line, rest = self.lived.trial.lines[:place], self.lived.trial.lines[place], self.lived.trial.lines[place + 1 :]
        word = line[0].split()[0]
        if said == ENDED:
            # A disk is asked for once its line is answered, which is the one before.
            word = front[-1][0].split()[0]
        elif said == REFUSED and word == "open":
            self.comes_back(front, line, rest)
        elif said == REFUSED and word == "settle":
            self.stands_between(place, front)
        elif said == REFUSED:
            self.is_twice(front, line, rest)
        elif said == FAULT and word == "open":
            self.is_faulted(front, line, rest)
        elif said == FAULT and word != "params":
            self.has_failed(front, line)
        elif word != "params":
            raise Wrong("%s, with growth %d refused: %s is answered by %r" % (self.lived.trial.title, self.growth, line[0], said))
        return said, word


def behind_answers(front):
    return [said for _, answers in front for said in answers]


def answers_of(node, probe):
    """What this node answers to the probe, to a settling behind it, and to what then shows it."""
    said = node.answer(probe)
    does(node.settle())
    return said + ["settled"] + node.shown() + node.limits() + node.window()


# By which lines growths are refused, and by which the disk has failed.
WANTED = {
    REFUSED: {"open", "log", "check", "settle", "state", "limits", "window"},
    FAULT: {"params", "open", "log", "flush", "check", "sync", "settle"},
    ENDED: {"disk", "cut"},
}


def living(refusing, program):
    """Each growth of each life is refused in turn."""
    asked, without, kinds = 0, 0, {}
    for make, count, is_new in LIVES:
        lived = Settled(make, count, is_new)
        found, told, status, growths = refusing.run([program], lived.trial.text().encode())
        if told or status or lived.trial.wrong(found):
            raise Wrong("without a refused growth: %s, status %d" % (lived.trial.wrong(found), status))
        for growth in range(1, growths + 1):
            said, word = Refused(refusing, program, lived, growth).kind()
            kinds.setdefault(said, set()).add(word)
            without += said == "without harm"
        asked += growths
    kinds.pop("without harm", None)
    if kinds != WANTED:
        raise Wrong("growths were refused by these lines: %r" % kinds)
    return "%d growths refused, %d of them without harm, and each other answered by its line" % (asked, without)
