"""Trials of a marked disk: who copies it, who is refused, and what its names and rights are then."""
import os
import signal
import subprocess
import time
from itertools import count

from forgetting.lives import DONE, FAILED, STOPPED, Followed, is_failure
from forgetting.systems import FAULT, Room, System
from lib.followed import order_line, said_at, told_of
from lib.kernel import MARK
from lib.node_model import CLUSTER
from lib.proved import Wrong

# The sync that fails at first: that of a gate, behind which the log in memory has a block more than the device.
GATE = 3
# The rights of a disk that is marked by hand, and the owner where the trial may choose one.
RIGHTS, OWNER = 0o640, 12_345
LONG = 200


def lives_on(room: Room, items: int = 4) -> tuple:
    """A node that follows an order, of which it has so many items, and its system."""
    life = Followed(room, room.drawn(8))
    system = life.new_system()
    life.start(system, items / 8)
    return life, system


def marked_by_hand(room: Room) -> tuple:
    """The same with a disk that is marked."""
    life, system = lives_on(room)
    mark(system)
    return life, system


def mark(system: System):
    os.chmod(system.disk, RIGHTS | MARK)
    system.kernel.learn()


def marked_by_a_sync(room: Room) -> tuple:
    """The same of a disk of which a sync failed."""
    life = Followed(room, room.drawn(8))
    system = life.new_system()
    life.start(system, fails=str(GATE))
    if not system.is_marked():
        raise Wrong("a disk is not marked where its sync failed")
    return life, system


def is_whole(system: System, number: int):
    """The disk is a new file since that one, is not marked, and nothing stands beside it."""
    known = os.stat(system.disk)
    if known.st_ino == number:
        raise Wrong("a marked disk is opened, and not copied")
    if known.st_mode & MARK or system.names() != [os.path.basename(system.disk)]:
        raise Wrong("behind the copy the disk's rights are %o, and its folder has %r" % (known.st_mode, system.names()))


def stands_still(process: subprocess.Popen):
    """Waits until the program does."""
    for _ in range(2_000):
        with open("/proc/%d/stat" % process.pid, encoding="ascii") as file:
            if file.read().rpartition(")")[2].split()[0] == "T":
                return
        time.sleep(0.005)
    raise Wrong("it does not stand still")


# ---- stops and failures


def each_call(room: Room, met: str) -> str:
    """Each call of the opening of a marked disk is met in turn, and the power fails or not: what was told is there."""
    for call in count(1):
        life, system = marked_by_a_sync(room)
        ended = system.run(["follow", system.disk], order_line(0), call=call, met=met)
        with open(system.noted, encoding="ascii") as file:
            calls = file.read()
        if len(calls) < call:
            return "%d calls, %s" % (len(calls), calls)
        if ended.status not in ((FAILED, DONE) if met == "failing" else (STOPPED,)):
            raise Wrong("at call %d of %s its status is %d" % (call, calls, ended.status))
        if ended.lines and ended.lines != [FAULT]:
            durable, _, last, _ = told_of(life.order, ended.lines, 0)
            life.tells(durable, last)
        elif ended.lines and not system.is_marked():
            raise Wrong("at call %d of %s it fails, and the disk is marked no more" % (call, calls))
        if ended.status == DONE and system.is_marked():
            raise Wrong("at call %d of %s it goes on, and the disk is marked" % (call, calls))
        for loss in ("drop", "some", "keep"):
            life.behind_power_failure(system, loss)
        life.start(system)
        life.behind_power_failure(system, "drop")
        system.remove()
        if call > LONG:
            raise Wrong("there is no end of its calls")


def stopped_before(room: Room) -> str:
    return each_call(room, "before")


def stopped_within(room: Room) -> str:
    return each_call(room, "within")


def failing(room: Room) -> str:
    return each_call(room, "failing")


def failing_reads(room: Room) -> str:
    """Each read of the copy fails in turn: the disk is as it was, and marked, and the next start copies it."""
    life, system = marked_by_a_sync(room)
    before, number = system.shown(), os.stat(system.disk).st_ino
    for read in count(1):
        ended = system.run(["follow", system.disk], reads=str(read))
        if os.stat(system.disk).st_ino != number:
            break
        if ended.lines != [FAULT] or system.shown() != before or read > LONG:
            raise Wrong("read %d fails, and it ends with status %d, %r" % (read, ended.status, ended.lines))
    if read < 2:
        raise Wrong("no read of the copy fails")
    life.start(system)
    is_whole(system, number)
    return "%d reads" % (read - 1)


# ---- readers


def readers(room: Room) -> str:
    """A marked disk is not read, and stays as it is."""
    _, system = lives_on(room)
    have, out = (os.path.join(room.folder, name) for name in ("have", "out"))
    system.run(["state", system.disk, "--have", have])
    mark(system)
    before = system.shown()
    for words in (["state"], ["state", "--have", have + ".new"], ["sum"], ["sum", "--at", "1"], ["donate", "--have", have, "--out", out]):
        ended = system.run([words[0], system.disk, *words[1:]])
        if ended.lines != [FAULT] or ended.status != FAILED or not ended.told:
            raise Wrong("%s of a marked disk: status %d, %r, %r" % (words[0], ended.status, ended.lines, ended.told))
        if system.shown() != before or os.path.exists(have + ".new") or os.path.exists(out):
            raise Wrong("%s of a marked disk changes it, or writes a file" % words[0])
    return "5 command lines"


def failing_reader(room: Room) -> str:
    """A program is killed before its sync. That of a reader's opening fails then: what a later program tells is there."""
    wrong = []
    for call in range(1, 9):
        life = Followed(room, room.drawn(8))
        system = life.new_system()
        life.start(system, call=call, met="before")
        ended = system.run(["state", system.disk], fails="1")
        if ended.status != FAILED or ended.lines != [FAULT]:
            raise Wrong("its sync fails, and it ends with status %d, %r" % (ended.status, ended.lines))
        is_marked = system.is_marked()
        try:
            life.start(system, 0.5)
            life.behind_power_failure(system, "drop")
            if not is_marked:
                raise Wrong("the disk is not marked")
        except Wrong as found:
            wrong.append("stopped at call %d: %s" % (call, found))
        system.remove()
    if wrong:
        raise Wrong("%d of 8: %s" % (len(wrong), wrong[0]))
    return "8 readers"


# ---- names and rights


def linked(room: Room) -> str:
    """A marked disk that has another name is no one's to copy."""
    life, system = marked_by_hand(room)
    os.link(system.disk, os.path.join(system.folder, "other"))
    before = system.shown()
    for words in (["follow", system.disk], ["run", "--disk", system.disk], ["serve", system.disk]):
        is_refused(system, words, before)
    os.remove(os.path.join(system.folder, "other"))
    number = os.stat(system.disk).st_ino
    life.start(system)
    is_whole(system, number)
    return "3 commands, and one behind them"


def is_refused(system: System, words: list, before: list, **how):
    ended = system.run(words, **how)
    if ended.lines != [FAULT] or ended.status != FAILED or not ended.told:
        raise Wrong("%s: status %d, %r, %r" % (words[0], ended.status, ended.lines, ended.told))
    if system.shown() != before:
        raise Wrong("%s changes a disk that it can't copy" % words[0])


def without_rights(room: Room) -> str:
    """A marked disk in a folder in which nobody may make a file. Root may: then the call fails that makes it."""
    life, system = marked_by_hand(room)
    before, number = system.shown(), os.stat(system.disk).st_ino
    is_refused(system, ["follow", system.disk], before, call=1, met="failing")
    if os.geteuid():
        os.chmod(system.folder, 0o555)
        is_refused(system, ["follow", system.disk], before)
        os.chmod(system.folder, 0o755)
    life.start(system)
    is_whole(system, number)
    return "refused, and then copied"


def by_a_link(room: Room) -> str:
    """A marked disk by a link in another folder: it has a new file, and the link is as it was."""
    life, system = marked_by_hand(room)
    inside = room.system(open(system.disk, "rb").read(), "inside/node.disk")
    real, number = inside.disk, os.stat(inside.disk).st_ino
    mark(inside)
    inside.disk = os.path.join(inside.folder, "link")
    os.symlink(os.path.join("inside", "node.disk"), inside.disk)
    life.start(inside)
    if not os.path.islink(inside.disk) or sorted(os.listdir(inside.folder)) != ["inside", "link"]:
        raise Wrong("the link is none any more, or beside others: %r" % os.listdir(inside.folder))
    inside.disk = real
    is_whole(inside, number)
    life.behind_power_failure(inside, "drop")
    return "the link stays"


def rights(room: Room) -> str:
    """The copy has the rights of the old file, and its owner."""
    for bits in (0o640, 0o600, 0o666):
        life, system = lives_on(room)
        if not os.geteuid():
            os.chown(system.disk, OWNER, OWNER + 1)
        os.chmod(system.disk, bits | MARK)
        system.kernel.learn()
        old = os.stat(system.disk)
        life.start(system)
        is_whole(system, old.st_ino)
        new = os.stat(system.disk)
        if (new.st_mode, new.st_uid, new.st_gid) != (old.st_mode & ~MARK, old.st_uid, old.st_gid):
            raise Wrong("the copy has %o of %d:%d, the old one %o of %d:%d" % (new.st_mode, new.st_uid, new.st_gid, old.st_mode, old.st_uid, old.st_gid))
        life.behind_power_failure(system, "drop")
    return "3 rights"


def left_over(room: Room) -> str:
    """Files that earlier programs left beside the disk stand in no copy's way, and stay."""
    life, system = marked_by_hand(room)
    number, beside = os.stat(system.disk).st_ino, [os.path.join(system.folder, ".disk.new-%d" % at) for at in (1, 2)]
    for path in beside:
        with open(path, "wb") as file:
            file.write(b"left")
    life.start(system)
    if any(open(path, "rb").read() != b"left" for path in beside):
        raise Wrong("a file that was left is changed")
    for path in beside:
        os.remove(path)
    is_whole(system, number)
    return "2 files"


# ---- who has the name


def in_use(room: Room) -> str:
    """While a program has the copy that it made, another one is refused: also one that opened the old file before, and comes to its lock then."""
    for words in (("follow",), ("state",)):
        life, system = marked_by_hand(room)
        number = os.stat(system.disk).st_ino
        late, first = system.begin(*words, held=1), system.begin("follow")
        try:
            stands_still(late.process)
            first.answered(order_line(life.told))
            is_whole(system, number)
        finally:
            late.process.send_signal(signal.SIGCONT)
            late.close()
            lines = system.ended(late, DONE, FAILED)
            first.close()
            system.ended(first, DONE)
        if lines != [FAULT]:
            raise Wrong("%s of a disk in use, which it had opened before: %r" % (words[0], lines[-2:]))
    return "2 programs"


def held(room: Room, words: tuple) -> str:
    """A program stands still between its opening of a file and its lock of it. Another one meets the mark, puts a new file in its place, takes items and
    ends. Then the first goes on: with the file that has the name."""
    life, system = marked_by_hand(room)
    number = os.stat(system.disk).st_ino
    late = system.begin(*words, held=1)
    try:
        stands_still(late.process)
        life.start(system, 0.5)
        is_whole(system, number)
    finally:
        late.process.send_signal(signal.SIGCONT)
        late.feed(order_line(life.told) if words == ("follow",) else b"")
        late.close()
        lines = system.ended(late, DONE)
    found = said_at(lines[0])[0] if words == ("follow",) else int(lines[3].split()[1])
    if found != life.told:
        raise Wrong("one that waited opens at %d, and %d was told" % (found, life.told))
    life.start(system)
    for loss in ("drop", "some"):
        life.behind_power_failure(system, loss)
    return "it has the file that has the name"


def held_writer(room: Room) -> str:
    return held(room, ("follow",))


def held_reader(room: Room) -> str:
    return held(room, ("state",))


def held_and_nameless(room: Room) -> str:
    """The same where the file is removed meanwhile, or replaced by a new disk."""
    for is_replaced, wanted in ((False, FAULT), (True, "at %s:0 base 0" % CLUSTER)):
        _, system = lives_on(room)
        late = system.begin("follow", held=1)
        try:
            stands_still(late.process)
            os.remove(system.disk)
            if is_replaced:
                with open(system.disk, "wb") as file:
                    file.write(room.new_disk())
        finally:
            late.process.send_signal(signal.SIGCONT)
            late.feed(order_line(0))
            late.close()
            lines = system.ended(late, DONE, FAILED)
        if lines[:1] != [wanted]:
            raise Wrong("one that waited for the lock of a file that is gone: %r" % lines)
    return "2 ways"


def nameless(room: Room) -> str:
    """The file is removed, or another one takes its name, while a node runs: nothing more is told."""
    ways = {"removed": lambda system, other: os.remove(system.disk), "replaced": lambda system, other: os.replace(other, system.disk)}
    for way, loses_name in ways.items():
        life, system = lives_on(room)
        other = os.path.join(system.folder, "other")
        with open(system.disk, "rb") as file, open(other, "wb") as out:
            out.write(file.read())
        program = system.begin("follow")
        program.answered(order_line(life.told))
        loses_name(system, other)
        program.feed(life.order.lines(life.told + 1, life.told + 1))
        program.close()
        lines = system.ended(program, DONE, FAILED)
        if lines[1:] != [FAULT]:
            raise Wrong("a disk is %s while it runs, and it writes %r" % (way, lines[1:]))
    return "2 ways"


def fails_in_its_place(room: Room) -> str:
    """A script: the same as `nameless` of a disk that is removed."""
    life, system = lives_on(room)
    program = system.begin("run", "--disk")
    program.answered(b"state\n")
    os.remove(system.disk)
    item = life.order.items[life.told].delivery(life.told + 1)
    program.feed((item + "\n" + "log\nsync\n" * 3).encode())
    program.close()
    lines = system.ended(program, DONE, FAILED)
    if any(line.startswith("reply ") for line in lines):
        raise Wrong("a disk is removed while it runs, and it writes %r" % lines)
    if not any(line.startswith("refused 2 ") for line in lines):
        is_failure(lines)
    return "no reply"
