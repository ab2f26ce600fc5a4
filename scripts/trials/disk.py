"""The disk in memory below a replica, call by call: what a stop with each loss leaves of writes, syncs and calls that fail, and which
calls a device serves that fails once or from a call on."""
from lib.disks import PAGES
from lib.node_model import CLUSTER, LOSSES
from lib.trial import Trial

# Four bytes of a page that stands in no slot, at which an opening doesn't look; it begins with a sync. What they are before.
FOUND = "01020304"
OPENED = "open %s:0" % CLUSTER
FAULT = "refused 2 disk-fault"
# Calls behind these bytes, each with its answer; and what the bytes then are, and are behind a stop that keeps, drops and spoils what is
# pending. A stop leaves no call that fails.
CASES = [
    ("a write is pending", [("write 1 0708", "written")], ["01070804", "01020304", "01eeee04"]),
    ("a sync makes it stable", [("write 1 0708", "written"), ("open", OPENED)], ["01070804"] * 3),
    ("a write that fails does not reach the disk", [("fail once 0", "armed"), ("write 1 0708", "not written")], [FOUND] * 3),
    (
        "a failed sync makes nothing stable", [("fail once 1", "armed"), ("write 1 0708", "written"), ("open", FAULT)],
        ["01070804", "01020304", "01eeee04"],
    ),
    (
        "the sync after a failed one makes all stable",
        [("fail once 1", "armed"), ("write 1 0708", "written"), ("open", FAULT), ("open", OPENED)], ["01070804"] * 3,
    ),
    (
        "pending ranges overlap", [("write 0 0708", "written"), ("write 1 0909", "written")],
        ["07090904", "01020304", "eeeeee04"],
    ),
    (
        "a pending range overlaps what is stable", [("write 0 0708", "written"), ("open", OPENED), ("write 1 09", "written")],
        ["07090304", "07080304", "07ee0304"],
    ),
]
# The same of a disk that has no other bytes.
WHOLE = [
    ("the last byte is written", [("write 3 09", "written")], ["01020309", "01020304", "010203ee"]),
    ("all bytes are written", [("write 0 06070809", "written")], ["06070809", "01020304", "eeeeeeee"]),
    ("what does not fit is not written", [("write 3 0908", "not written"), ("write 5 09", "not written")], [FOUND] * 3),
]


def leaves(trial, at, calls, loss, left):
    """A stop with the loss behind the calls leaves these bytes, and all of them stable."""
    trial.say("put %d %s" % (at, FOUND), "put")
    for line, answer in calls:
        words = line.split()
        if words[0] == "write":
            line = "write %d %s" % (at + int(words[1]), words[2])
        trial.say(line, answer)
    for again in (loss, "drop"):
        trial.say("crash " + again, "crashed")
        trial.say("bytes %d 4" % at, left)
    return trial


def each_loss(_):
    for title, calls, left in CASES:
        for loss, bytes_left in zip(LOSSES, left):
            trial = Trial("%s, %s" % (title, loss))
            trial.new_disk()
            yield leaves(trial, PAGES, calls, loss, bytes_left)
    for title, calls, left in WHOLE:
        for loss, bytes_left in zip(LOSSES, left):
            trial = Trial("%s, %s" % (title, loss))
            trial.say("disk 4 0", "blank")
            yield leaves(trial, 0, calls, loss, bytes_left)


def served(_):
    """Which of four writes are served, each at a place of its own, how often the device has failed, and what is left."""
    for kind, call, serves in (
        ("once", 0, "0111"), ("once", 1, "1011"), ("once", 3, "1110"), ("once", 4, "1111"),
        ("from", 0, "0000"), ("from", 1, "1000"), ("from", 2, "1100"), ("from", 3, "1110"), ("from", 4, "1111"),
    ):
        trial = Trial("fails %s %d" % (kind, call))
        trial.say("disk 4 0", "blank")
        trial.say("fail %s %d" % (kind, call), "armed")
        for at, is_served in enumerate(serves):
            trial.say("write %d 09" % at, "written" if is_served == "1" else "not written")
        trial.say("failures", "failures %d" % serves.count("0"))
        trial.say("bytes 0 4", "".join("0" + ("9" if is_served == "1" else "0") for is_served in serves))
        trial.say("crash keep", "crashed")
        trial.say("failures", "failures 0")
        trial.say("write 0 08", "written")
        yield trial


TRIALS = [
    ("a stop leaves what the loss says", each_loss),
    ("a device serves all calls but those that fail", served),
]
