"""A device that fails at each call in turn, once or from then on: what is refused, and what opens behind it with each loss."""
from lib.faults import FAULT, STOPPED, each_call, found_at, grouped, on_a_new_disk, standing_at
from lib.node_model import CLUSTER, LOSSES
from lib.trial import BEFORE, Life, Trial, before_items, beside_an_item, full_log, of_one_page, one_item, two_laps


def goes_on(make, kind):
    """The disk that each fault leaves goes on."""

    def trials(program):
        script = make()
        for _, _, trial, life in each_call(script, kind, program):
            life.agrees()
            life.goes_on(script.order())
            yield trial

    return trials


def one_item_goes_on(kind):
    """The one item on a device that fails: it is there behind the reply, and where its gate is written and kept. Each event but the
    delivery asks the device, so that it meets the fault in its turn."""

    def trials(program):
        script, met = one_item(), []
        for failed, loss, trial, life in each_call(script, kind, program):
            met.append(failed)
            position = 1 if failed == 5 or (failed == 4 and loss == "keep") else 0
            trial.say("node", "node %d %d 0 quiet running" % (position, position))
            life.agrees()
            life.deliver_the_rest(script.order())
            for _ in range(2):
                life.do("log")
                life.do("sync")
            trial.say("node", "node 1 1 0 quiet running")
            life.agrees()
            life.goes_on(script.order())
            yield trial
        assert list(dict.fromkeys(met)) == [None, 1, 2, 3, 4, 5], met

    return trials


def line_of(event):
    return event if isinstance(event, str) else event[1].delivery(event[0])


def settled_lines(script, loss):
    """The lines of a life that fills the log and settles, is stopped with this loss, opened, handed all items again, and settles: in
    two parts, up to the stop and behind it."""
    front = ["batch %d" % BEFORE] + [line_of(event) for event in script.events[:BEFORE]]
    again = [item.delivery(seqno) for seqno, item in enumerate(script.order().items, 1)]
    return front + ["settle", "settle", "node", "failures", "crash " + loss], ["open", "node"] + again + ["settle", "node"]


def settled_trial(script, loss, call, life):
    """The same life once more, and beside it window and rows: what opens behind the stop stands where it says, which is not below what
    was durable before; it takes the items behind that alone, and then settles, so that all is durable."""
    until, behind = settled_lines(script, loss)
    trial = on_a_new_disk("settling, once %d, %s" % (call, loss), "once", call)
    trial.say("\n".join(["open"] + until), *life[: -len(behind)])
    before = 0 if life[0] == FAULT else int(life[-len(behind) - 3].split()[2])
    node = standing_at(script, life[-len(behind) + 1])
    assert node.durable >= before
    opened = Life(trial, node=node)
    trial.say("open", "open " + node.gtid())
    opened.agrees()
    opened.deliver_the_rest(script.order())
    settled = standing_at(script, life[-1])
    assert settled.durable == 5 and settled.is_quiet()
    trial.say("settle", "settled")
    Life(trial, node=settled).agrees()
    return trial


def settling(program):
    """A full log that settles on a device that fails at each call in turn: the settling is refused, then refused as stopped, and what
    opens with each loss goes on."""
    script = full_log()
    for loss in LOSSES:
        met = 0
        until, behind = settled_lines(script, loss)
        for call, life in enumerate(found_at(program, "once", until + behind)):
            yield settled_trial(script, loss, call, life)
            if life[0] == FAULT:
                continue
            answered = grouped(life[1 : -len(behind) - 5])
            at = next((at for at, group in enumerate(answered) if group == [FAULT]), BEFORE)
            assert answered == (script.answers[:at] + [[FAULT]] + [[STOPPED]] * BEFORE)[:BEFORE], life
            first, second, shown, failed = life[-len(behind) - 5 : -len(behind) - 1]
            if first == "settled":
                assert (at, second, shown, failed) == (BEFORE, "settled", "node 5 5 4 quiet running", "failures 0"), life
                # Two pages, four other writes of a checkpoint and three of the log, each of the seven with a sync behind it.
                assert met == 16, met
                break
            assert first == (STOPPED if at < BEFORE else FAULT), life
            assert (second, shown.split()[-1], failed) == (STOPPED, "stopped", "failures 1"), life
            met += first == FAULT
        else:
            raise AssertionError("each settling met a fault")


def all_is_refused(_):
    """Every event is refused behind a fault, but not what shows the node. The opening of a new disk makes nine calls: a sync, a gate and
    a body, the other gate, the window, and four gates."""
    trial = Trial("behind a fault")
    trial.new_disk()
    trial.say("fail once 8", "armed")
    trial.say("open", FAULT)
    trial.say("fail once 9", "armed")
    trial.say("open", "open %s:0" % CLUSTER)
    trial.say("deliver 1 0 w 0/1=61", "1 commit")
    trial.say("log", FAULT)
    for line in ("log", "sync", "check", "flush 0", "read 0/1 0", "deliver 1 0 w 0/1=61", "deliver 2 window 2", "settle"):
        trial.say(line, STOPPED)
    trial.say("state", "state %s:0 base 0 window" % CLUSTER)
    trial.say("limits", "size 4 floor 1")
    trial.say("node", "node 1 0 0 busy stopped")
    yield trial


TRIALS = [
    ("every event is refused behind a fault but not the state", all_is_refused),
    ("a fault at each call stops the replica and its disk goes on", one_item_goes_on("once")),
    ("a device that fails from each call on goes on once it serves", one_item_goes_on("from")),
    ("a fault at each call of a checkpoint leaves the old base or the new", goes_on(beside_an_item, "once")),
    ("a device that fails from each call of a checkpoint on goes on once it serves", goes_on(beside_an_item, "from")),
    ("a fault at each call of a checkpoint loses the items that wait", goes_on(before_items, "once")),
    ("a device that fails from each call of a checkpoint on loses the items that wait", goes_on(before_items, "from")),
    ("a fault at each call of a second checkpoint leaves its base or the first", goes_on(of_one_page, "once")),
    ("a fault at each call of a lap leaves what is durable", goes_on(full_log, "once")),
    ("a device that fails from each call of a lap on goes on once it serves", goes_on(full_log, "from")),
    ("a fault at each call of two laps leaves what is durable", goes_on(two_laps, "once")),
    ("a device that fails from each call of two laps on goes on once it serves", goes_on(two_laps, "from")),
    ("a fault at each call ends the settling and its disk goes on", settling),
]
