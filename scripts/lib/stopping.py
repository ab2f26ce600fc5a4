"""Runs a program that is stopped at a call by which it changes a file, or killed, and makes power failures of such ends: what was not
synced is lost then, all of it or some (stop_within.c)."""
import os
import select
import struct
import subprocess
import time

from lib.formats import OPEN, SIDES, cell_gate_at
from lib.proved import Wrong, is_silent

# The status of a program that was stopped at a call, and that of one that was killed.
STOPPED, KILLED = 77, -9
# All of a write's bytes, or a sync that is made.
WHOLE = 1_000
LIMIT = 60
HEAD = struct.Struct("=QQ")
# Where stop_within.c puts a sync among the calls.
NO_PLACE = (1 << 64) - 1


class Stop:
    """A call at which the program ends, or which fails, that one alone or all behind it too: its number, and how much of it is done
    before, in thousandths."""

    def __init__(self, call=0, part=0, is_failing=False, all_behind=False):
        self.call, self.part, self.is_failing, self.all_behind = call, part, is_failing, all_behind

    def is_done(self, kind):
        """Whether the call that is met is done, as far as a gate can tell: its first byte decides."""
        return self.part == WHOLE or (kind == "write" and self.part > 0)


class Ended:
    """What a program came to: the lines that it wrote whole, what it wrote behind them, its status, and the call that was met."""

    def __init__(self, output, told, status, met):
        *self.lines, self.rest = output.decode().split("\n")
        self.status, self.met = status, met
        if not is_silent(told, status):
            raise Wrong("it writes on standard error: %r" % told[:300])


class Call:
    """A call by which the file is changed or synced: of which kind it is, and of a write the place and the bytes."""

    def __init__(self, place, data):
        self.kind = "sync" if place == NO_PLACE else "write"
        self.place, self.data = place, data

    def __str__(self):
        return "a sync" if self.kind == "sync" else "a write of %d bytes at %d" % (len(self.data), self.place)


def pieces(path):
    """What stop_within.c put into this file: places, each with bytes. The last may be cut, and is left out then."""
    data, at, found = b"", 0, []
    if os.path.exists(path):
        with open(path, "rb") as file:
            data = file.read()
    while at + HEAD.size <= len(data):
        place, size = HEAD.unpack_from(data, at)
        at += HEAD.size + size
        if at <= len(data):
            found.append((place, data[at - size : at]))
    return found


class DiskFile:
    """The file of a disk, of this name in a folder, with what stood there before each write that was not synced."""

    def __init__(self, folder, name, library, short_calls=0):
        self.short_calls = short_calls
        self.path, self.unsynced, self.told, self.noted = (os.path.join(folder, name + end) for end in ("", ".unsynced", ".told", ".calls"))
        self.library = library

    def environment(self, stop):
        return {
            "LD_PRELOAD": self.library, "UNSYNCED": self.unsynced, "STOPPED": self.told, "CALLS": self.noted,
            "STOP_AT": str(stop.call), "STOP_PART": str(stop.part), "STOP_FAILS": str(stop.is_failing + stop.all_behind),
            "SHORT_CALLS": str(self.short_calls),
        }

    def begin(self, words, stop):
        for path in (self.told, self.noted):
            if os.path.exists(path):
                os.remove(path)
        pipes = {"stdin": subprocess.PIPE, "stdout": subprocess.PIPE, "stderr": subprocess.PIPE}
        return subprocess.Popen(words, env=self.environment(stop), **pipes)

    def met(self):
        """The words by which the call that was met is told, if one was."""
        if not os.path.exists(self.told):
            return None
        with open(self.told, encoding="ascii") as file:
            return file.read().split()

    def run(self, words, text, stop=Stop()):
        """Runs the program on the text until it ends."""
        started = self.begin(words, stop)
        try:
            output, told = started.communicate(text.encode(), timeout=LIMIT)
        except subprocess.TimeoutExpired:
            started.kill()
            started.communicate()
            raise Wrong("it does not end") from None
        return Ended(output, told, started.returncode, self.met())

    def run_killed(self, words, front, count, behind, seconds):
        """Runs the program on the front of a text, which it answers by so many lines, hands it what is behind, and kills it so much
        later."""
        started, output, until = self.begin(words, Stop()), b"", time.monotonic() + LIMIT
        try:
            write_to(started, front)
            while output.count(b"\n") < count:
                is_ready = select.select([started.stdout], [], [], max(until - time.monotonic(), 0))[0]
                more = os.read(started.stdout.fileno(), 65_536) if is_ready else b""
                if not more:
                    raise Wrong("it answers the front of its script by %r" % output[-300:])
                output += more
            write_to(started, behind)
            time.sleep(seconds)
        finally:
            started.kill()
            rest, told = started.communicate()
        return Ended(output + rest, told, started.returncode, None)

    def run_upto(self, words, text, size):
        """Runs the program on the whole of a text, and kills it once its calls are seen to take so many bytes, if it has not ended."""
        started, until = self.begin(words, Stop()), time.monotonic() + LIMIT
        try:
            write_to(started, text)
            started.stdin.close()
            started.stdin = None
            while started.poll() is None and self.noted_size() < size:
                if time.monotonic() > until:
                    raise Wrong("it does not end")
                time.sleep(0.0001)
        finally:
            started.kill()
            output, told = started.communicate()
        return Ended(output, told, started.returncode, None)

    def noted_size(self):
        """How many bytes the calls take that stop_within.c has put down."""
        return os.stat(self.noted).st_size if os.path.exists(self.noted) else 0

    def pending(self):
        """The writes that are not synced, in their order: each place, and the bytes that stood there. The last may be cut: its write
        had not begun."""
        return pieces(self.unsynced)

    def calls(self):
        """The calls of the program that ran last, in their order. Where it was killed, the last may not have been made."""
        return [Call(place, data) for place, data in pieces(self.noted)]

    def lose(self, loss, draws):
        """Makes a power failure of the program's end: of what was not synced nothing stays (`drop`), or junk (`junk`), or piece by
        piece what was written, what stood there before or junk (`some`). With `keep` all of it stays, and can be lost later."""
        self.unmark()
        if loss == "keep":
            return
        size = draws.choice((1, 16, 512, 4_096, 1 << 20))
        file = os.open(self.path, os.O_RDWR)
        for place, old in reversed(self.pending()):
            for at in range(0, len(old), size):
                piece = old[at : at + size]
                fate = draws.choice(("keep", "drop", "junk")) if loss == "some" else loss
                if fate != "keep":
                    junk = draws.choice((0xEE, OPEN, draws.randrange(256))) if loss == "some" else 0xEE
                    os.pwrite(file, piece if fate == "drop" else bytes([junk]) * len(piece), place + at)
        os.close(file)
        os.truncate(self.unsynced, 0)

    def unmark(self):
        """Takes the mark of a failed sync off the file: the system that forgets what it could not write is another trial's (scripts/forgets)."""
        if os.path.exists(self.path):
            os.chmod(self.path, os.stat(self.path).st_mode & 0o777)

    def is_synced(self):
        return not self.pending()

    def remove(self):
        for path in (self.path, self.unsynced, self.told, self.noted):
            if os.path.exists(path):
                os.remove(path)

    def gates(self, cells):
        """Which cells of the log stand open, and whether both superblocks do."""
        with open(self.path, "rb") as file:
            data = file.read()
        is_open = [data[cell_gate_at(cell)] == OPEN for cell in range(cells)]
        return is_open, all(data[side.gate] == OPEN for side in SIDES)


def write_to(started, text):
    try:
        started.stdin.write(text.encode())
        started.stdin.flush()
    except BrokenPipeError:
        raise Wrong("it ends before its script does") from None
