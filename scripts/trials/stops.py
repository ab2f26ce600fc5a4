"""Stops with each loss: behind each event of scripts, and in each phase of a checkpoint at each stage of a block; what stands behind
a checkpoint; and a node at its limits, that settles, and that is taken apart."""
from lib.formats import fixed_reach, need
from lib.node_model import CLUSTER, LOSSES, Item
from lib.stops import stopped_within
from lib.trial import (
    BEFORE, SMALL, SMALL_SIZE, Life, Trial, answers, before_items, beside_an_item, conflicting, full_again, full_log, of_each_kind, of_one_page,
    one_item, put, putting, replies_to, resized, second_lap, two_items, two_laps,
)


def opens_at(trial, base, position, window, quiet="quiet", size=SMALL[0]):
    """Pins what a node shows that was opened: written by hand, where the model could be wrong in the same way. Its window was always of this
    size."""
    trial.say("state", "state %s:%d base %d window%s" % (CLUSTER, position, base, "".join(" %d" % m for m in window)))
    trial.say("limits", "size %d floor %d" % fixed_reach(size, position))
    trial.say("node", "node %d %d %d %s running" % (position, position, base, quiet))


def stopped_behind(title, script, behind):
    """Stops the script behind each event with each loss: the disk opens at these positions, one for each loss, and goes on there."""
    for count, positions in enumerate(behind):
        for loss, position in zip(LOSSES, positions):
            trial = Trial("%s, %s behind event %d" % (title, loss, count))
            life = script.play(trial, count)
            life.stop(loss)
            opens_at(trial, 0, position, [1][:position])
            life.deliver_the_rest(script.order())
            for _ in range(2):
                life.do("log")
                life.do("sync")
            life.agrees()
            assert life.node.durable == len(script.order().items)
            yield trial


def of_one(_):
    """The positions behind each event of the one item, from before the first, where the stop keeps, drops and spoils."""
    yield from stopped_behind("one item", one_item(), [(0, 0, 0)] * 4 + [(1, 0, 0), (1, 1, 1)])


def of_two(_):
    yield from stopped_behind("two items", two_items(), [(0, 0, 0)] * 5 + [(2, 0, 0), (2, 2, 2)])


def has_the_older_row(_):
    """A page is flushed as it was at the position of the checkpoint."""
    trial, script = Trial("a page as it was"), beside_an_item()
    life = script.play(trial, len(script.events) - 2)
    life.stop("drop")
    opens_at(trial, 3, 4, [1, 2, 3, 4], "busy")
    for line, wanted in (("read 0/1 3", "value 01"), ("read 0/1 4", "value 04"), ("read 0/1 2", "refused 8 too-old 3")):
        trial.say(line, wanted)
    yield trial


def judges_again(_):
    """Items that wait beside a checkpoint are judged again behind a stop."""
    trial, script = Trial("items that wait"), before_items()
    life = script.play(trial, len(script.events) - 2)
    life.stop("drop")
    opens_at(trial, 4, 4, [1, 2, 3, 4], "busy")
    trial.say(conflicting().delivery(5), "5 conflict 1")
    yield trial


def third_lap(_):
    """The body of a block of a third lap is not found where its cell was not opened."""
    for loss in ("junk", "keep"):
        trial, script = Trial("a third lap, %s" % loss), two_laps()
        life = script.play(trial)
        life.stop(loss)
        opens_at(trial, 8, 8, [5, 6, 7, 8])
        trial.say(putting(9, 1, 70).delivery(9), "9 commit")
        for line, wanted in (("log", "wrote"), ("sync", "synced 0"), ("log", "wrote")):
            trial.say(line, wanted)
        trial.say("sync", "synced 1", *replies_to(9, 9))
        yield trial


def goes_on_behind_a_checkpoint(_):
    """A full log goes on behind a checkpoint."""
    trial, script = Trial("a full log"), full_log()
    script.play(trial, BEFORE)
    trial.say("state", "state %s:4 base 0 window 1 2 3 4" % CLUSTER)
    trial.say("node", "node 5 4 0 busy running")
    yield trial
    trial = Trial("a full log behind its checkpoint")
    life = script.play(trial)
    life.stop("drop")
    opens_at(trial, 4, 5, [2, 3, 4, 5])
    yield trial


def keeps_both_pages(_):
    """A page that did not change stays where it is."""
    trial, script = Trial("an unchanged page"), of_one_page()
    life = script.play(trial)
    for _ in range(2):
        opens_at(trial, 3, 3, [1, 2])
        trial.say("read 0/1 3", "value 02")
        trial.say("read 0/70 3", "value 01")
        life.stop("drop")
    yield trial


def reads_alike(_):
    """Rows are read alike before and behind a checkpoint, and behind a stop."""
    trial, script = Trial("rows of each kind"), of_each_kind()
    alike = [
        ("read 0/1 4", "refused 9 not-yet 3"), ("read 0/2 3", "value " + "aa" * 62), ("read 0/3 3", "value"), ("read 0/1 3", "absent"),
        ("read 0/126 4", "refused 10 bad-key"), ("read 0/126 0", "refused 10 bad-key"),
    ]
    life = script.play(trial, 7)
    trial.say("node", "node 3 3 0 quiet running")
    for line, wanted in alike + [("read 0/1 1", "value 01"), ("read 0/1 2", "absent")]:
        trial.say(line, wanted)
    for event in script.events[7:]:
        life.do(event)
    for _ in range(2):
        for line, wanted in alike + [("read 0/1 2", "refused 8 too-old 3")]:
            trial.say(line, wanted)
        life.stop("drop")
    yield trial


# The way of a checkpoint, and that of a block into a cell that stands open. They come to what awaits a sync by their own step, and to
# what stands behind it by the sync.
PHASES = ("off", "flushing", "saving", "ready", "filling", "filled", "opening", "retiring", "closing")
STAGES = ("gathering", "closing", "gathering", "body", "stable", "gate")


def to_phase(life, index):
    """Takes the checkpoint to the phase of this index, from the one before it. Both pages are flushed where it begins."""
    if index > 1 and index % 2 == 1:
        life.do("sync")
        return
    life.do("check")
    if index == 1:
        life.do("flush 0")
        life.do("flush 1")


def on_both_ways(trial, script, phase, stage):
    """A node with the checkpoint in this phase and the next block at this stage. What awaits a sync in both is written last."""
    life = script.play(trial)
    is_written = phase > 1 and phase % 2 == 0
    for index in range(1, phase + 1 - is_written):
        to_phase(life, index)
    for index in range(1, stage + 1 - stage % 2):
        life.do("log" if index % 2 == 1 else "sync")
    if is_written:
        to_phase(life, phase)
    if stage % 2 == 1:
        life.do("log")
    assert (life.node.phase(), life.node.log.stage) == (PHASES[phase], STAGES[stage])
    return life


def is_left(life, phase, stage, loss):
    """Compares what a stop there left. The base is the new one once its superblock's gate is stable or kept, and the block is there
    where its gate is kept."""
    is_kept = loss == "keep"
    is_risen = phase > 6 or (phase == 6 and is_kept)
    is_retiring = phase == 7 or (phase == 6 and is_kept) or (phase == 8 and loss == "drop")
    durable = 5 + (stage == 5 and is_kept)
    assert (life.node.base(), life.node.durable) == (4 + is_risen, durable)
    quiet = "busy" if is_retiring else "quiet"
    life.trial.say("node", "node %d %d %d %s running" % (durable, durable, 4 + is_risen, quiet))


def each_way(title):
    """A trial for each phase at each stage, with the node there."""
    script = second_lap()
    for phase in range(len(PHASES)):
        for stage in range(len(STAGES)):
            trial = Trial("%s, phase %d at stage %d" % (title, phase, stage))
            yield script, on_both_ways(trial, script, phase, stage), phase, stage


def stopped_on_all_ways(loss):
    for script, life, phase, stage in each_way("stopped with " + loss):
        life.stop(loss)
        is_left(life, phase, stage, loss)
        life.goes_on(script.order())
        yield life.trial


def settled_on_all_ways(_):
    for script, life, _, _ in each_way("settled"):
        life.settle()
        assert life.node.durable == 6
        life.stop("drop")
        life.goes_on(script.order())
        yield life.trial


def full_log_settles(_):
    """A full log settles by a checkpoint, over the first base and over a later one, whatever a stop loses then."""
    for script, events, base in (full_log(), BEFORE, 0), (full_again(), None, 4):
        for loss in LOSSES:
            trial = Trial("a full log over a base at %d settles, %s" % (base, loss))
            life = script.play(trial, events)
            trial.say("node", "node %d %d %d busy running" % (base + 5, base + 4, base))
            life.settle()
            opens_at(trial, base + 4, base + 5, range(base + 2, base + 6))
            life.stop(loss)
            opens_at(trial, base + 4, base + 5, range(base + 2, base + 6))
            yield trial


def quiet_nodes_stay(program):
    """A quiet node settles without a call of its device: the one call that would fail is the first behind the opening, and nothing of
    the disk changes."""
    for call in range(100):
        given = Trial("the calls of an opening")
        given.new_disk()
        given.lines += [("fail from %d" % call, []), ("open", []), ("failures", [])]
        if answers(program, given.text())[0][-2].startswith("open "):
            break
    found = answers(program, "disk %d 0\nparams 4 4 126\nopen\nfingerprint\n" % SMALL_SIZE)[0]
    trial = Trial("a quiet node")
    trial.new_disk()
    trial.say("fail from %d" % call, "armed")
    trial.say("open", "open %s:0" % CLUSTER)
    trial.say("node", "node 0 0 0 quiet running")
    trial.say("settle", "settled")
    opens_at(trial, 0, 0, [])
    trial.say("failures", "failures 0")
    trial.say("fingerprint", found[-1])
    yield trial


def at_the_limits(_):
    """A full backlog becomes durable in four full blocks, and then the base: a window of 256, records of 62 bytes."""
    wide = lambda seqno: Item(seqno - 1, [((0, 1), bytes([seqno % 256]) * 62)], trx=seqno)
    trial = Trial("256 items")
    life = Life(trial, (256, 4, (126,)))
    for seqno in range(1, 257):
        assert life.do((seqno, wide(seqno))) == ["%d commit" % seqno]
    assert life.do((257, wide(257))) == ["refused 5 backlogged"]
    for block in range(4):
        for event, wanted in (("log", ["wrote"]), ("sync", ["synced 0"]), ("log", ["wrote"])):
            assert life.do(event) == wanted
        assert life.do("sync") == ["synced 64"] + replies_to(64 * block + 1, 64 * block + 64)
    for loss in ("junk", None):
        life.agrees()
        trial.say("state", "state %s:256 base 0 window %s" % (CLUSTER, " ".join(map(str, range(1, 257)))))
        assert life.do((257, wide(257))) == ["257 commit"]
        assert life.do("log") == ["refused 6 log-full"]
        if loss:
            life.stop(loss)
    for event, wanted in (("check", "began 256"), ("flush 1", "refused 7 not-due"), ("flush 0", "wrote")):
        assert life.do(event) == [wanted]
    for _ in range(4):
        assert life.do("check") + life.do("sync") == ["wrote", "synced 0"]
    for event in ("log", "sync", "log", "sync", "log"):
        life.do(event)
    assert life.do("sync") == ["synced 1"] + replies_to(257, 257)
    life.stop("drop")
    opens_at(trial, 256, 257, range(2, 258), size=256)
    yield trial


def taken_apart(_):
    """A node that is taken apart behind each event and put together again shows the same, and goes on the same."""
    for script in (two_items(), beside_an_item(), resized()):
        for count in range(len(script.events) + 1):
            trial = Trial("taken apart behind %d" % count)
            life = script.play(trial, count)
            life.shows()
            trial.say("apart", *life.node.shown())
            life.agrees()
            for event in script.events[count:]:
                life.do(event)
            life.agrees()
            yield trial


def put_together_as_stopped(_):
    """A node that is put together as stopped refuses everything, and opens as it was."""
    trial, script = Trial("put together as stopped"), two_items()
    life = script.play(trial)
    trial.say("apart stopped", "node 2 2 0 quiet stopped")
    trial.say("state", "state %s:2 base 0 window 1" % CLUSTER)
    trial.say("limits", "size 4 floor 1")
    for line in (put(0, 9, b"c").delivery(3), "deliver 3 window 2", "log", "sync", "check", "flush 0", "read 0/1 1", "settle"):
        trial.say(line, "refused 3 stopped")
    trial.say("apart", "node 2 2 0 quiet stopped")
    trial.say("open", "open %s:2" % CLUSTER)
    life.agrees()
    opens_at(trial, 0, 2, [1])
    yield trial


def long_log(_):
    """300 blocks of one item each in a log of 1,024 cells: the window has the last 256."""
    trial = Trial("300 blocks")
    life = Life(trial, (256, 1024, (126,)), need(1024, 2))
    for seqno in range(1, 301):
        assert life.do((seqno, putting(seqno, 1))) == ["%d commit" % seqno]
        for event, wanted in (("log", ["wrote"]), ("sync", ["synced 0"]), ("log", ["wrote"])):
            assert life.do(event) == wanted
        assert life.do("sync") == ["synced 1"] + replies_to(seqno, seqno)
    for is_stopped in (False, True):
        if is_stopped:
            life.stop("drop", [(0, 1)])
        trial.say("state", "state %s:300 base 0 window %s" % (CLUSTER, " ".join(map(str, range(45, 301)))))
    yield trial


def script_trials(title, make, first=0, last=None):
    return title, lambda _: stopped_within(title, make(), first, last)


TRIALS = [
    ("three hundred blocks go into a log of 1,024 cells", long_log),
    ("a stop behind each event leaves the item once its gate is written", of_one),
    ("a stop behind each event leaves a block whole or not at all", of_two),
    script_trials("a stop behind each event of a checkpoint leaves the old base or the new", beside_an_item),
    script_trials("a stop behind each event of a checkpoint loses the items that wait", before_items),
    script_trials("a stop behind each event of a second checkpoint leaves its base or the first", of_one_page),
    script_trials("a stop behind each event of a lap leaves what is durable", full_log),
    # Up to the end of the first checkpoint the events are those of one lap.
    script_trials("a stop behind each event of a second lap leaves what is durable", two_laps, 31),
    ("a page is flushed as it was at the position of the checkpoint", has_the_older_row),
    ("items that wait beside a checkpoint are judged again", judges_again),
    ("the body of a third lap is not found", third_lap),
    ("a full log goes on behind a checkpoint", goes_on_behind_a_checkpoint),
    ("a page that did not change stays where it is", keeps_both_pages),
    ("rows are read alike before and behind a checkpoint", reads_alike),
    ("a stop in each phase at each stage may keep what is pending", lambda _: stopped_on_all_ways("keep")),
    ("a stop in each phase at each stage may drop what is pending", lambda _: stopped_on_all_ways("drop")),
    ("a stop in each phase at each stage may spoil what is pending", lambda _: stopped_on_all_ways("junk")),
    ("a node settles in each phase at each stage", settled_on_all_ways),
    ("a full log settles by a checkpoint", full_log_settles),
    ("a quiet node settles without a call of its device", quiet_nodes_stay),
    ("a full backlog becomes durable in four full blocks and then the base", at_the_limits),
    ("a node that was taken apart goes on the same", taken_apart),
    ("a node that is put together as stopped refuses everything, and opens as it was", put_together_as_stopped),
]
