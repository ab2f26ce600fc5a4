"""What is drawn of the ends of programs, and compared of them, in the lives of scripts/soak."""
from lib.proved import Wrong
from lib.stopping import WHOLE


def differs(found, wanted):
    """What is wrong with these lines."""
    if found == wanted:
        return None
    at = next((at for at, (a, b) in enumerate(zip(found, wanted)) if a != b), min(len(found), len(wanted)))
    return "answer %d: wanted %r, found %r" % (at + 1, wanted[at : at + 1], found[at : at + 1])


def holds(why):
    if why:
        raise Wrong(why)


def has_ended(ended, status):
    if ended.status != status:
        raise Wrong("it ends with %r, and writes %r" % (ended.status, (ended.lines + [ended.rest])[-3:]))


def is_front(ended, wanted):
    """What was written before the end is the front of these lines."""
    holds(differs(ended.lines, wanted[: len(ended.lines)]))
    if not "".join(wanted[len(ended.lines) :][:1]).startswith(ended.rest):
        raise Wrong("it writes %r in the place of %r" % (ended.rest, wanted[len(ended.lines) :][:1]))


def part_of(draws, kind, is_failing):
    """How much of a call of this kind is done, in thousandths: nothing, all, or of a write a part. A sync that fails does nothing."""
    if kind == "write":
        return draws.choice((0, WHOLE, draws.randint(1, WHOLE - 1)))
    return 0 if is_failing else draws.choice((0, WHOLE))


def is_met(ended, stop, kind):
    """The call that was met is the one that the model makes there."""
    if not ended.met or ended.met[:2] != [str(stop.call), kind]:
        raise Wrong("its call %d is %r, and not a %s" % (stop.call, ended.met, kind))
