"""A page of the base that goes bad while a node runs: what then reads it is refused, nothing is written for it, and the node stands."""
from lib.bad_pages import BASE, WAYS
from lib.faults import calls_of_an_opening
from lib.formats import Page, number_hex, page_at
from lib.node_model import LOSSES
from lib.trial import SMALL, Trial, of_each_kind, putting

CORRUPT = "refused 13 corrupt pages"


def opened(program, title, page, at, text):
    """A node that was opened on three items, all of them in the base, and then finds these bytes in the page's slot. Its model."""
    trial = Trial(title)
    life = of_each_kind().play(trial)
    trial.say("crash keep", "crashed")
    calls = calls_of_an_opening(program, trial.text())
    trial.say("damage %d %d %s" % (calls, page_at(SMALL[1], page) + at, text), "damaged")
    trial.say("open", *life.node.stop("keep"))
    return trial, life


def refused_pages(program):
    """Reading a bad page and flushing it are refused, once and again; the other page and rows that were written since are there; and
    what a stop leaves is as it was, since nothing was written for the page."""
    for title, at, text in WAYS:
        for loss in LOSSES:
            trial, life = opened(program, "%s, %s" % (title, loss), 0, at, text)
            for line in ("read 0/1 3", "read 0/2 3", "read 0/2 3", "sum 3", "sum"):
                trial.say(line, CORRUPT)
            life.do("read 0/70 3")
            life.shows()
            life.do((4, putting(4, 1, 70)))
            for event in ("log", "sync", "log", "sync"):
                life.do(event)
            life.do("read 0/1 4")
            trial.say("read 0/2 4", CORRUPT)
            life.do("check")
            trial.say("flush 0", CORRUPT)
            trial.say("flush 0", CORRUPT)
            life.do("flush 1")
            for event in ("check", "sync"):
                life.do(event)
            trial.say("settle", CORRUPT)
            life.shows()
            life.stop(loss)
            life.goes_on(life.node.order)
            yield trial


def earlier_position(program):
    """A page that was written for an earlier position is one of the base's."""
    trial, life = opened(program, "an earlier position", 0, Page.POSITION.at, number_hex(BASE - 1))
    for line in ("read 0/1 3", "read 0/2 3", "read 0/3 3", "read 0/4 3"):
        life.do(line)
    yield trial


TRIALS = [("a page that is bad is refused", refused_pages), ("a page of an earlier position is read", earlier_position)]
