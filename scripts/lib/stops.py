"""Stops of a script with each loss."""
from lib.formats import TWO
from lib.node_model import LOSSES
from lib.trial import Trial


def stops_within(title, script, first=0, last=None, of_format=TWO):
    """Stops the script with each loss behind so many events, on a new disk of this format: the disk opens where the model says."""
    last = len(script.events) if last is None else last
    for count in range(first, last + 1):
        for loss in LOSSES:
            trial = Trial("%s, %s behind event %d" % (title, loss, count))
            life = script.play(trial, count, of_format)
            life.stop(loss)
            yield life


def stopped_within(title, script, first=0, last=None):
    """The same, and it goes on there."""
    for life in stops_within(title, script, first, last):
        life.goes_on(script.order())
        yield life.trial
