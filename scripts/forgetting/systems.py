"""Disks on systems that forget what they could not write (lib/kernel.py), the programs that run there, and what opens behind a power failure."""
import os
import random
import re
import shutil
import subprocess
from functools import lru_cache

from lib import node_model, proved
from lib.followed import LIMIT, Following, Order, format_disk
from lib.kernel import Kernel, marked
from lib.model_bytes import sum_of
from lib.node_model import CLUSTER
from lib.proved import Wrong, is_silent

# A small window, small tables, and as few cells as there may be: so checkpoints come soon.
WINDOW, ROWS, CELLS = 6, (64, 3, 66), 4
STATE = re.compile(r"state %s:(\d+) base (\d+) window(?: \d+)*" % CLUSTER)
FAULT = "fault 2 disk-fault"


class Ended:
    """A program that ended: the lines that it wrote whole, its status, and what it wrote to standard error."""

    def __init__(self, words: list, done: subprocess.CompletedProcess):
        self.lines, self.status, self.told = done.stdout.decode().split("\n")[:-1], done.returncode, done.stderr.decode()
        if not is_silent(done.stderr, done.returncode):
            raise Wrong("%s writes on standard error: %r" % (words[0], self.told[:300]))


class Libraries:
    """The libraries that have programs forget and stop, compiled into this folder."""

    def __init__(self, folder: str):
        self.forgetting, self.stopping = proved.library(folder, "forget_writes"), proved.library(folder, "stop_calls")


class Room:
    """Where the systems of a trial are: a program, a folder in it for each, and libraries that are loaded before the C library."""

    def __init__(self, program: str, folder: str, libraries: Libraries, draw: random.Random):
        self.program, self.folder, self.libraries, self.draw, self.count, self.disk = program, folder, libraries, draw, 0, b""

    def new_folder(self) -> str:
        self.count += 1
        path = os.path.join(self.folder, str(self.count))
        os.mkdir(path)
        return path

    def drawn(self, count: int) -> Order:
        """A drawn order of so many items, whose texts are short."""
        return Order(WINDOW, ROWS).draw(self.draw, count, 300).judge(self.program)

    def new_disk(self) -> bytes:
        """The bytes of a new disk."""
        if not self.disk:
            path = os.path.join(self.folder, "new.disk")
            format_disk(self.program, path, Order(WINDOW, ROWS), CELLS)
            with open(path, "rb") as file:
                self.disk = file.read()
        return self.disk

    def system(self, data: bytes = b"", name: str = "disk") -> "System":
        """A system whose folder has a disk of these bytes under this name, or a new disk."""
        folder = self.new_folder()
        os.makedirs(os.path.dirname(os.path.join(folder, name)), exist_ok=True)
        with open(os.path.join(folder, name), "wb") as file:
            file.write(data or self.new_disk())
        return System(self, folder, name)


class System:
    """A system that forgets what it could not write, with a disk in its folder."""

    def __init__(self, room: Room, folder: str, name: str = "disk"):
        self.room, self.folder, self.name = room, os.path.realpath(folder), name
        self.disk, self.noted = os.path.join(self.folder, name), self.folder + ".noted"
        self.kernel = Kernel(folder, self.folder + ".journal", room.libraries.forgetting, room.draw, room.draw.choice(("drop", "drop", "some")))

    def environment(self, fails: str = "", reads: str = "", call: int = 0, met: str = "", held: int = 0) -> dict:
        """What a program runs with of which these syncs or reads fail, this call is met (stop_calls.c), or that stands still before this lock."""
        stops = {"CALL": str(call), "MET": met, "NOTED": self.noted} if met else {}
        return {**self.kernel.environment(fails, reads, held, self.room.libraries.stopping if met else ""), **stops}

    def run(self, words: list, given: bytes = b"", **how) -> Ended:
        """Runs the program until it ends."""
        done = subprocess.run([self.room.program, *words], input=given, capture_output=True, timeout=LIMIT, env=self.environment(**how))
        self.kernel.learn()
        return Ended(words, done)

    def script(self, lines: list) -> list:
        """The lines by which a script on the disk is answered."""
        ended = self.run(["run", "--disk", self.disk], "".join(line + "\n" for line in lines).encode())
        if ended.status:
            raise Wrong("it does not open: %r, %r" % (ended.lines[-1:], ended.told))
        return ended.lines

    def begin(self, *words: str, **how) -> Following:
        """A program that runs, and is fed."""
        return Following(self.room.program, self.disk, self.environment(**how), words)

    def ended(self, life: Following, *statuses: int) -> list:
        """The lines of a program that was fed, which has ended, or ends now."""
        lines = life.rest(*statuses)
        self.kernel.learn()
        return lines

    def is_marked(self) -> bool:
        return marked(self.disk)

    def shown(self) -> list:
        """All that is seen of the folder: the names with numbers, rights, owners and bytes of their files."""
        found = []
        for path in sorted(self.kernel.paths()):
            known = os.stat(path)
            with open(path, "rb") as file:
                found.append((path, known.st_ino, known.st_mode, known.st_uid, known.st_gid, known.st_nlink, file.read()))
        return found

    def names(self) -> list:
        """The names in the disk's folder."""
        return sorted(os.listdir(os.path.dirname(self.disk)))

    def behind(self, loss: str) -> "System":
        """The system that begins once the power failed here with this loss. This one goes on."""
        folder = self.room.new_folder()
        self.kernel.leave(loss, folder)
        return System(self.room, folder, self.name)

    def remove(self):
        shutil.rmtree(self.folder)
        for end in (".journal", ".noted"):
            if os.path.exists(self.folder + end):
                os.remove(self.folder + end)


# ---- what opens


@lru_cache(4_096)
def model_of(order: Order) -> node_model.Order:
    """The order as a model that compares all pairs."""
    model = node_model.Order(order.window, list(order.rows))
    for item in order.items:
        model.add(item)
    return model


def stands(lines: list) -> tuple:
    """The position and the base that the first of these lines says, which is that of a state."""
    found = STATE.fullmatch(lines[0]) if lines else None
    if not found:
        raise Wrong("it says of its state %r" % lines[:1])
    return int(found[1]), int(found[2])


@lru_cache(4_096)
def wanted(model: node_model.Order, position: int, base: int) -> list:
    """The lines of the state, the window and the sum there."""
    node = node_model.Node(model.window, CELLS, model.rows, order=model)
    node.delivered = node.durable = position
    node.checkpoint.base = base
    return node.state() + node.limits() + sum_of(node, position)


def opens(system: System, models: list, told: int) -> int:
    """The disk opens, has what was told, and is at a prefix of one of these orders. Gives its position."""
    lines = system.script(["state", "limits", "sum"])
    position, base = stands(lines)
    if position < told:
        raise Wrong("it opens at %d, and %d was told" % (position, told))
    long = [model for model in models if len(model.items) >= position]
    if lines not in [wanted(model, position, base) for model in long]:
        raise Wrong("it opens with %r, and wanted were %r" % (lines, [wanted(model, position, base) for model in long][:2]))
    return position
