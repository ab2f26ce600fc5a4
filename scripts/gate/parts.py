"""What `make test` runs beside the gate, `rt ci`, and behind it.

Wrong bodies wait for nothing but the libraries that they stand on: those of a crate are tried while `rt ci` proves it and what stands above
it, by the processors that it leaves. What runs the built programs begins when it ends, side by side.

`rt ci` reckons with several times the memory that its checks take here, and leaves processors idle for it, those that come last with the dearest
crates. Where there is memory for as many checks as there are processors, it is told to make so many at a time, each by one (RT_JOBS).
"""
import glob
import os
import re
import subprocess
import tempfile
import time
from concurrent.futures import ThreadPoolExecutor

from gate import wrong_bodies
from lib import proved

# The memory that there has to be for a check, in bytes: the most that one took was 3,000 million (docs/gate.md).
CHECK = 4_000_000_000

GATE = "rt ci"
EDITS = "scripts/edits --gate"
# Behind the gate: those of a row go one after another, beside the other rows.
ROWS = (("scripts/lives",), ("scripts/edits --fit", "scripts/pages", "scripts/program", "scripts/waits", "scripts/shown", "scripts/sums", "scripts/follows", "scripts/forgets", "scripts/growths", "scripts/served", "scripts/together"))


def fill_processors():
    """Has the gate check as many crates at a time as there are processors, where there is memory for so many."""
    kit = wrong_bodies.kit()
    if kit.free() >= CHECK * kit.processors():
        os.environ.setdefault("RT_JOBS", str(kit.processors()))


def counts_of(text):
    """How many checks passed and how many failed, by the last line."""
    found = re.search(r"^(\d+) passed, (\d+) failed$", text.rstrip("\n").rpartition("\n")[2])
    return (int(found[1]), int(found[2])) if found else (0, 1)


def tell(process, line):
    """Hands the process a line."""
    try:
        process.stdin.write(line)
        process.stdin.flush()
    except BrokenPipeError:
        # (it ended, and says why)
        pass


class Ended:
    """A part that ended: its command line, what it printed, and how long it took by the clock."""

    def __init__(self, words, text, seconds):
        self.words, self.text, self.seconds, self.counts = words, text, seconds, counts_of(text)


class Part:
    """A part that runs. What it prints waits in a file."""

    def __init__(self, words, given=subprocess.DEVNULL):
        self.words, self.began, self.file = words, time.monotonic(), tempfile.TemporaryFile("w+", errors="replace")
        self.process = subprocess.Popen(words.split(), cwd=proved.TOP, stdin=given, stdout=self.file, stderr=subprocess.STDOUT, text=True)

    def ended(self):
        status = self.process.wait()
        self.file.seek(0)
        ended = Ended(self.words, self.file.read(), time.monotonic() - self.began)
        if status and not ended.counts[1]:
            ended.counts = (ended.counts[0], 1)
        return ended


def row(parts):
    return [Part(words).ended() for words in parts]


class Parts:
    """The parts beside the gate and behind it. What earlier runs of `rt` left in out/ is put back as the gate ends: then nothing goes beside it."""

    def __init__(self):
        is_new = not glob.glob(os.path.join(proved.TOP, "crates", "*", "out", "rlib"))
        self.edits = Part("scripts/edits --beside", subprocess.PIPE) if is_new else None

    def hear(self, line):
        """Hears a line that the gate says."""
        if self.edits:
            tell(self.edits.process, line)

    def behind(self):
        """Runs what is left once the gate has ended, and gives each part, one after another."""
        if self.edits:
            self.edits.process.stdin.close()
        with ThreadPoolExecutor(1 + len(ROWS)) as pool:
            edits = pool.submit(lambda: (self.edits or Part(EDITS)).ended())
            rows = [pool.submit(row, parts) for parts in ROWS]
            yield edits.result()
            for parts in rows:
                yield from parts.result()
