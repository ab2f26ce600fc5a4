"""Finds the proved programs, and runs them, with growths of memory refused where that is asked."""
import multiprocessing
import os
import re
import subprocess

TOP = os.path.dirname(os.path.dirname(os.path.dirname(os.path.abspath(__file__))))
SCRIPTS = os.path.join(TOP, "scripts")


class Wrong(Exception):
    """What is wrong with a run."""


def is_silent(told, status):
    """Whether what `replicad` wrote to standard error is nothing; or, where it was refused, one line that says why. Which words these
    are, the cases say that name them (scripts/program)."""
    return not told or (status == 1 and re.fullmatch(rb"replicad: [^\n]+\n", told) is not None)


def crates():
    """The crates of crates.txt, in its order, each with the libraries of the repository that it stands on."""
    named = {}
    with open(os.path.join(TOP, "crates.txt"), encoding="utf-8") as file:
        for line in file:
            name, colon, below = line.partition("#")[0].partition(":")
            if colon:
                named[name.split()[0]] = below.split()
    return {name: [low for low in below if low in named] for name, below in named.items()}


def chain(crate, of=None):
    """The crate with all that it stands on, lowest first."""
    of = of or crates()
    found = []
    for low in of[crate]:
        found += [name for name in chain(low, of) if name not in found]
    return found + [crate]


def newest(crate):
    """When a file of the crate that a proof or a build reads was last changed."""
    latest = 0
    for part in ("src", "specs", "proofs"):
        for folder, _, files in os.walk(os.path.join(TOP, "crates", crate, part)):
            latest = max([latest] + [os.stat(os.path.join(folder, name)).st_mtime for name in files])
    return latest


def programs_of(crate):
    """The proved program of the crate, as each compiler built it that did: the gate leaves both, scripts/build one. Builds it
    where it is missing, or older than a file that it was built from."""
    made = os.path.join(TOP, "crates", crate, "out", crate)
    below = chain(crate)
    if not os.path.exists(made) or os.stat(made).st_mtime < max(newest(low) for low in below):
        subprocess.run([os.path.join(SCRIPTS, "build")] + below, check=True)
    other = made + ".by-rattle"
    is_current = os.path.exists(other) and os.stat(other).st_mtime >= max(newest(low) for low in below)
    return [made] + [other] * is_current


def side_by_side(call, tasks):
    """What the call gives for each of the tasks, in their order: as many at a time as there are processors, each in a process of its own."""
    if tasks:
        with multiprocessing.get_context("fork").Pool(min(len(tasks), len(os.sched_getaffinity(0)))) as pool:
            yield from pool.imap(call, tasks)


def library(folder, name):
    """The library of scripts/preload, to be loaded before the C library, which is compiled into this folder."""
    made, source = os.path.join(folder, name + ".so"), os.path.join(SCRIPTS, "preload", name + ".c")
    subprocess.run(["cc", "-O2", "-Wall", "-shared", "-fPIC", "-o", made, source], check=True)
    return made


class Refusing:
    """Runs programs with growths of memory refused. What it needs it makes in this folder."""

    def __init__(self, folder):
        self.folder = folder
        self.library = library(folder, "refuse_growth")
        self.counted = os.path.join(folder, "growths")

    def path(self, name):
        """A path in the folder."""
        return os.path.join(self.folder, name)

    def environment(self, growth=0, first=0):
        """What has the growth with this number refused, or all from the first on; 0 for none."""
        return {"LD_PRELOAD": self.library, "REFUSED_GROWTH": str(growth), "REFUSED_FROM": str(first), "GROWTHS_FILE": self.counted}

    def run(self, words, given, growth=0):
        """The program's output lines, its standard error, its status, and how many growths it asked for."""
        if os.path.exists(self.counted):
            os.remove(self.counted)
        try:
            done = subprocess.run(words, input=given, capture_output=True, env=self.environment(growth), timeout=60)
        except subprocess.TimeoutExpired:
            raise Wrong("with growth %d refused it does not end" % growth) from None
        with open(self.counted, encoding="ascii") as file:
            asked = int(file.read())
        return done.stdout.decode().splitlines(), done.stderr.decode(), done.returncode, asked
