"""A device that fails at each call in turn, once or from then on: what is refused, and what opens behind it."""
from lib.disks import fingerprint_of, new_bytes
from lib.formats import FORMATS, TWO
from lib.node_model import CLUSTER, LOSSES
from lib.trial import Life, Trial, answers

FAULT = "refused 2 disk-fault"
STOPPED = "refused 3 stopped"
# What shows a new disk of each format.
NEW = {of_format: fingerprint_of(new_bytes(of_format)) for of_format in FORMATS}
# More calls than any of these lives makes.
MANY = 400


def on_a_new_disk(title, kind, call, of_format=TWO):
    """A new disk of this format whose device fails so at this call."""
    trial = Trial(title)
    trial.new_disk(of_format=of_format)
    trial.say("fail %s %d" % (kind, call), "armed")
    return trial


def found_at(program, kind, doing, of_format=TWO):
    """For each call that fails: the lines that answer the opening of a new disk and what is done behind it."""
    fronts = [on_a_new_disk("", kind, call, of_format) for call in range(MANY)]
    lines, ended = answers(program, "".join(front.text() + "\n".join(["open"] + doing + [""]) for front in fronts))
    assert not ended, ended
    lives, life, before = [], [], sum(len(wanted) for _, wanted in fronts[0].lines)
    for line in lines:
        if line == "blank":
            life = []
            lives.append(life)
        life.append(line)
    return [life[before:] for life in lives]


def grouped(lines):
    """Answers one by one: a sync's with its replies."""
    groups = []
    for line in lines:
        if line.startswith("reply "):
            groups[-1].append(line)
        else:
            groups.append([line])
    return groups


def faults_of(program, script, kind, of_format):
    """For each call that fails: the number of the event that met the fault, None where the device did not open, and that of all events
    behind the last call that anyone makes."""
    count = len(script.events)
    for life in found_at(program, kind, [script.batch(), "failures"], of_format):
        opened, answered, failed = life[0], grouped(life[1:-1]), life[-1]
        if opened == FAULT:
            assert (answered, failed) == ([["off"]], "failures 1"), life
            yield None
            continue
        at = next((at for at, group in enumerate(answered) if group == [FAULT]), count)
        assert failed == "failures %d" % (at < count), life
        yield at
        if at == count:
            return
    raise AssertionError("each run met a fault")


def behind_a_fault(script, kind, call, failed, loss, of_format):
    """The script on a device that fails so at this call, which this event meets; then a stop with this loss. Up to the event the
    answers are those of a device that serves, and from then on the node is stopped. Where the device did not open it is as it was. What
    a stop leaves is what the model says of the events before: a failed call changed nothing."""
    trial = on_a_new_disk("%s %d, %s" % (kind, call, loss), kind, call, of_format)
    if failed is None:
        trial.say("open", FAULT)
        trial.say(script.batch(), "off")
        trial.say("fingerprint", NEW[of_format])
    else:
        trial.say("open", "open %s:0" % CLUSTER)
        refused = [[FAULT]] + [[STOPPED]] * len(script.events)
        wanted = (script.answers[:failed] + refused)[: len(script.events)]
        trial.say(script.batch(), *[line for group in wanted for line in group])
    trial.say("failures", "failures %d" % (failed is None or failed < len(script.events)))
    trial.say("crash " + loss, "crashed")
    node = script.modelled(failed or 0)
    trial.say("open", *node.stop(loss))
    return trial, Life(trial, node=node)


def each_call(script, kind, program, of_format=TWO):
    """Fails each call of the device in turn, up to a run that meets no fault: the event that meets it comes later and later."""
    before = 0
    for call, failed in enumerate(faults_of(program, script, kind, of_format)):
        assert before <= (failed or 0), (call, before, failed)
        before = failed or 0
        for loss in LOSSES:
            yield failed, loss, *behind_a_fault(script, kind, call, failed, loss, of_format)


def standing_at(script, shown):
    """The model of a node that says this of itself, behind an opening or a settling: window and rows are those of its position. How far
    the log is it does not know."""
    words = shown.split()
    delivered, durable, base = map(int, words[1:4])
    assert base <= durable == delivered and words[5] == "running", shown
    node = script.modelled(len(script.events))
    node.delivered, node.durable, node.checkpoint.base = delivered, durable, base
    node.checkpoint.phase = "off" if words[4] == "quiet" else "retiring"
    return node


def calls_of_an_opening(program, text):
    """How many calls of its device the opening behind this text makes: the first that nobody makes may fail."""
    for call in range(1_000):
        if answers(program, "%sfail once %d\nopen\n" % (text, call))[0][-1].startswith("open "):
            return call
    raise AssertionError("each opening met a fault")
