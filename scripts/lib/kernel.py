"""A system that forgets what it could not write, by the journal of the programs that ran on it (preload/forget_writes.c): what it has in memory, what
its device has, and what a power failure leaves.

A write changes what is read, and is dirty. A sync that is made brings what is dirty to the device. One that fails makes it clean and brings nothing, or
some of it: no later sync writes it, and reads go on to give it, for as long as it is kept in memory. A name that is made, changed or removed is dirty in its folder in the same way. Rights
alone are no matter of the device here: a power failure keeps the mark of a file (`MARK`) or loses it.
"""
import os
import random
import stat
import struct

from lib.formats import OPEN

HEAD = struct.Struct("=QQQQ")
# By this bit of its rights a program marks a file whose sync failed.
MARK = stat.S_ISVTX
PAGE = 4_096
# What a power failure leaves of what is dirty: all, nothing, junk, or piece by piece one of these.
LOSSES = ("keep", "drop", "junk", "some")


class Stored:
    """A file of the system: what is read of it, what the device has of it, and the writes that are dirty, each with its place."""

    def __init__(self, data: bytes, device: bytes, rights: int):
        self.cache, self.device, self.dirty = bytearray(data), bytearray(device), []
        self.rights, self.was_marked = rights, bool(rights & MARK)

    def write(self, place: int, data: bytes):
        put(self.cache, place, data)
        self.dirty.append((place, data))

    def cut(self, size: int):
        """It ends there. What a power failure leaves behind that end is not asked for: the device's bytes stay."""
        del self.cache[size:]
        self.cache.extend(bytes(size - len(self.cache)))

    def become(self, rights: int):
        self.rights, self.was_marked = rights, self.was_marked or bool(rights & MARK)

    def sync(self, granule: int):
        """What is dirty comes to the device, with what else stands in its granules."""
        for place, data in self.dirty:
            first, end = place - place % granule, -(-(place + len(data)) // granule) * granule
            put(self.device, first, self.cache[first:end])
        self.dirty = []

    def fail(self, loss: str, draw: random.Random):
        """What is dirty is clean, and little of it came to the device, or nothing."""
        self.device, self.dirty = self.left(loss, draw), []

    def left(self, loss: str, draw: random.Random) -> bytearray:
        """What the device has behind this loss of what is dirty."""
        found, size = bytearray(self.device), draw.choice((16, 512, 4_096, 1 << 20))
        for place, data in self.dirty:
            for at in range(0, len(data), size):
                piece = data[at : at + size]
                fate = draw.choice(("keep", "drop", "drop", "junk")) if loss == "some" else loss
                if fate != "drop":
                    junk = draw.choice((0xEE, OPEN, draw.randrange(256))) if loss == "some" else 0xEE
                    put(found, place + at, piece if fate == "keep" else bytes([junk]) * len(piece))
        return found


def put(data: bytearray, place: int, piece: bytes):
    """Puts the piece there. Zeros come before it where there was nothing."""
    data.extend(bytes(max(place - len(data), 0)))
    data[place : place + len(piece)] = piece


def marked(path: str) -> bool:
    """Whether the file is marked as one whose sync failed."""
    return bool(os.stat(path).st_mode & MARK)


class Kernel:
    """The system on which programs use the files of a folder, which are all on the device as it begins. The loss is that of syncs that fail."""

    def __init__(self, folder: str, journal: str, library: str, draw: random.Random, loss: str = "drop"):
        self.folder, self.journal, self.library, self.draw, self.loss = os.path.realpath(folder), journal, library, draw, loss
        # A sync brings at least so many bytes, from a place that is a multiple of it.
        self.granule = draw.choice((1, 512, 4_096))
        # The files by their numbers, the names as they are, those that the device has, and for each folder changes of names that are dirty.
        self.files, self.names, self.kept, self.dirty = {}, {}, {}, {}
        # How far the journal is read, how many syncs failed, and how many changes were found that it does not have.
        self.read, self.failures, self.unsaid = 0, 0, 0
        for path in self.paths():
            self.names[path] = self.kept[path] = self.found(path, is_on_device=True)
        if os.path.exists(journal):
            os.remove(journal)

    def paths(self) -> list:
        """The paths of all regular files."""
        found = [os.path.join(folder, name) for folder, _, names in os.walk(self.folder) for name in names]
        return [path for path in found if stat.S_ISREG(os.lstat(path).st_mode)]

    def found(self, path: str, is_on_device: bool) -> Stored:
        """The file that has this path, which may have others too."""
        known = os.stat(path)
        if known.st_ino not in self.files:
            with open(path, "rb") as file:
                data = file.read()
            self.files[known.st_ino] = Stored(data, data if is_on_device else b"", stat.S_IMODE(known.st_mode))
        return self.files[known.st_ino]

    def environment(self, sync_fails: str = "", read_fails: str = "", lock_held: int = 0, before: str = "") -> dict:
        """What loads the library into a program, behind another one, and has these syncs and reads of it fail."""
        fails = {"SYNC_FAILS": sync_fails, "READ_FAILS": read_fails, "LOCK_HELD": str(lock_held)}
        return {"LD_PRELOAD": ":".join(filter(None, (before, self.library))), "JOURNAL": self.journal, **fails}

    # ---- what programs did

    def learn(self):
        """Takes in what programs did, which all have ended or stand still. One that was killed may have made a last call that stands in no record: what
        came of it is dirty."""
        if os.path.exists(self.journal):
            with open(self.journal, "rb") as file:
                data = file.read()
            while self.read + HEAD.size <= len(data):
                kind, number, place, size = HEAD.unpack_from(data, self.read)
                self.read += HEAD.size + size
                self.take(chr(kind), number, place, data[self.read - size : self.read])
        self.agree()

    def take(self, kind: str, number: int, place: int, data: bytes):
        """Takes in one record. One of a file outside the folder is none of this system."""
        if kind in "curlde":
            paths = [path.decode() for path in data.split(b"\0")]
            if paths[0] == self.folder or paths[0].startswith(self.folder + "/"):
                self.take_name(kind, number, place, paths)
        elif number in self.files:
            file = self.files[number]
            self.failures += kind == "f"
            {"w": lambda: file.write(place, data), "t": lambda: file.cut(place), "m": lambda: file.become(place),
             "s": lambda: file.sync(self.granule), "f": lambda: file.fail(self.loss, self.draw)}[kind]()

    def take_name(self, kind: str, number: int, place: int, paths: list):
        """A record of names, or of a folder."""
        if kind == "c":
            self.files[number] = Stored(b"", b"", place)
            self.change({paths[0]: self.files[number]})
        elif kind == "u":
            self.change({paths[0]: None})
        elif kind == "r":
            self.change({paths[0]: None, paths[1]: self.names[paths[0]]})
        elif kind == "l":
            self.change({paths[1]: self.names[paths[0]]})
        else:
            self.failures += kind == "e"
            self.settle(paths[0], "keep" if kind == "d" else self.loss)

    def change(self, files: dict):
        """These names lead to these files from now on, or to none (None), all at once."""
        self.names = without_none({**self.names, **files})
        self.dirty.setdefault(os.path.dirname(next(iter(files))), []).append(files)

    def settle(self, folder: str, loss: str):
        """No change of a name in the folder is dirty any more. The device has those that this loss leaves."""
        self.kept = self.names_left(self.kept, self.dirty.pop(folder, []), loss)

    def names_left(self, kept: dict, changes: list, loss: str) -> dict:
        for files in changes:
            if loss == "keep" or (loss == "some" and self.draw.random() < 0.5):
                kept = without_none({**kept, **files})
        return kept

    def agree(self):
        """What is read is what the folder has. Where it is not, a program was killed behind a call and before its record."""
        there = self.paths()
        for path in set(self.names) - set(there):
            self.unsaid += 1
            self.change({path: None})
        for path in there:
            number = os.stat(path).st_ino
            if path not in self.names or self.files.get(number) is not self.names[path]:
                self.unsaid += 1
                self.change({path: self.found(path, is_on_device=False)})
            self.agree_on(path, self.names[path])

    def agree_on(self, path: str, file: Stored):
        with open(path, "rb") as there:
            data = there.read()
        if data != file.cache:
            self.unsaid += 1
            file.write(0, data)
            file.cut(len(data))
        file.become(stat.S_IMODE(os.stat(path).st_mode))

    def evict(self):
        """Some of the pages that are clean are no longer in memory: what is read of them is what the device has."""
        for path, file in self.names.items():
            for at in range(0, len(file.device), PAGE):
                is_dirty = any(place < at + PAGE and at < place + len(data) for place, data in file.dirty)
                if not is_dirty and self.draw.random() < 0.5:
                    self.read_again(path, file, at)

    @staticmethod
    def read_again(path: str, file: Stored, at: int):
        old = file.device[at : at + PAGE]
        if old != file.cache[at : at + len(old)]:
            put(file.cache, at, old)
            with open(path, "r+b") as there:
                there.seek(at)
                there.write(old)

    # ---- what a power failure leaves

    def leave(self, loss: str, folder: str):
        """Puts into this folder, which is empty, what a power failure leaves: as it were now, while programs go on here."""
        names = self.kept
        for changes in self.dirty.values():
            names = self.names_left(names, changes, loss)
        made = {}
        for path, file in names.items():
            place = os.path.join(folder, os.path.relpath(path, self.folder))
            os.makedirs(os.path.dirname(place), exist_ok=True)
            if file in made:
                os.link(made[file], place)
                continue
            made[file] = place
            with open(place, "wb") as out:
                out.write(file.left(loss, self.draw))
            os.chmod(place, self.rights_left(file, loss))

    def rights_left(self, file: Stored, loss: str) -> int:
        """A file that was marked may be marked still, whatever came since."""
        is_marked = {"keep": bool(file.rights & MARK), "drop": False}.get(loss, file.was_marked and self.draw.random() < 0.5)
        return file.rights & ~MARK | (MARK if is_marked else 0)


def without_none(names: dict) -> dict:
    return {path: file for path, file in names.items() if file is not None}
