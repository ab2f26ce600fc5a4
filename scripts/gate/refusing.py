"""Finds for each wrong body of a crate the goal that refuses it, and writes it into the edit (`by: GOAL`, wrong_bodies): then that goal alone is asked.

The same answer has to prove the goal in the right body. Where there is none, a few tactics are tried there, and the first that proves it is written into the
crate's proofs. An edit whose goals none of them proves stays as it is.
"""
import copy
import glob
import os
import re
import shutil
import tempfile

from gate import wrong_bodies
from gate.answers import alone, with_answer

# The words of the tactics, and where they stand.
HOMES = {"arith": "Rattle.std.proofs.Common", "rules": "Rattle.std.proofs.Common", "common_steps": "Rattle.std.proofs.lemmas.Grind"}


def lemmas_of(crate, edit):
    """The lemmas that the attribute of the edit's function names, each with where it stands."""
    text = next(new for _, _, new in edit.pairs if edit.proofs[1][-1] in new)
    using = re.search(r"using\(([^()]*)\)", text.partition("fn ")[0])
    paths = [it.strip() for it in using[1].split(",")] if using else []
    names = [re.sub(r"^crate::", crate.name + "::", it).split("::") for it in paths]
    return {it[-1]: "Rattle." + ".".join(it[:-1]) for it in names}


def goals_told(said, function):
    """The goals of the function that are refused by their answers, and those that no tactic proved."""
    errors = [why for path, why in said.errors if path == function.replace("::", "/") and not wrong_bodies.OF_NAMES.search(why)]
    # (a search that is written is dearer than an answer that does not fit)
    errors.sort(key=lambda it: bool(re.match(r"`[^`]+`: `(?:search|grind)`", it)))
    unproved = re.search(r"did not prove (.*?)(?:; it calls|; it stands|$)", said.of.get(function, ""))
    notes = " ".join(said.notes[function])
    named = lambda text: re.findall(r"`([^`]+)`", text)
    others = named(unproved[1] if unproved else "") + re.findall(r"\(`([^`]+)`\)", notes)
    return [named(it)[0] for it in errors if it.startswith("`")], [*dict.fromkeys(others)]


class Refusing:
    """The goals that refuse the wrong bodies of a crate."""

    def __init__(self, kit, crate, paths, room):
        """Works in a copy of the crate, in this room."""
        self.kit, self.crate, self.room, self.paths = kit, copy.copy(crate), room, paths
        shutil.copytree(crate.folder, os.path.join(room, "crate"), ignore=shutil.ignore_patterns("out"))
        self.crate.folder, self.home = os.path.join(room, "crate"), crate
        self.tries = wrong_bodies.Tries(kit, self.crate, paths)
        self.tries.kept = os.path.join(room, "kept")
        os.mkdir(self.tries.kept)

    def rounds(self, edits):
        """The edits, as many together as can be made beside one another."""
        left = [it for it in edits if it.proofs]
        while left:
            chosen = self.tries.chosen(left)
            yield chosen
            left = [it for it in left if it not in chosen]

    def answers_of(self, edit):
        return wrong_bodies.text_of(self.crate, os.path.join("proofs", *edit.proofs[0], "Answers.antt"))

    def found(self):
        """For each edit the goals that refuse it: those with an answer, and those without."""
        goals = {}
        for planted in self.rounds(self.tries.wide.values()):
            said = self.tries.checked(planted, True)
            for edit in planted:
                (function,) = edit.functions
                answered, others = goals_told(said, function)
                goals[edit.name] = [it for it in answered if alone(it, self.answers_of(edit))], others
        return goals

    def heads(self, edits):
        """How the answers of the right functions of these edits begin, by function and goal."""
        names = sorted({"::".join(it.proofs[0]) for it in edits})
        with tempfile.TemporaryDirectory(prefix="offered-") as to:
            holes = [it for it in wrong_bodies.holes_of(self.crate, self.tries.homes, {}) if "::".join(it[3]) not in names]
            self.tries.run([], {}, holes, [*(it for name in names for it in ("--start", name)), "--generated", to])
            found = {}
            for name in names:
                for path in glob.glob(os.path.join(to, "*-proofs", *name.split("::"), "AnswersOffered.antt")):
                    for head in re.findall(r"^(\S+(?: [a-z]\w*)*) = \?", wrong_bodies.text_in(path), re.M):
                        found[name, head.split()[0]] = head
            return found

    def put(self, edit, goal, head, tactic, crate):
        """Writes the tactic as the goal's answer into the proofs of the crate."""
        place = os.path.join("proofs", *edit.proofs[0], "Answers.antt")
        module = "Rattle." + crate.name + wrong_bodies.module_in_proofs(edit.proofs[0])
        text = with_answer(wrong_bodies.text_of(crate, place), module, goal, head, tactic, {**HOMES, **lemmas_of(crate, edit)})
        os.makedirs(os.path.dirname(os.path.join(crate.folder, place)), exist_ok=True)
        with open(os.path.join(crate.folder, place), "w", encoding="utf-8") as it:
            it.write(text)

    def right(self, edit, goal, number):
        """The right body in the place of the wrong one, of which this goal alone is asked; None where there can be none."""
        path = os.path.join(self.room, "%s_%d.edit" % (edit.name, number))
        (file,) = {file for file, _, _ in edit.pairs if file.startswith("src/")}
        text = wrong_bodies.text_of(self.crate, file)
        bodies = [text[start:end] for _, start, end, name in wrong_bodies.functions_of(file, text, self.tries.homes) if name == "::".join(edit.proofs[0])]
        # (an edit is known by a line of the body that stands nowhere else)
        line = next((it for it in bodies[0].split("\n") if it.strip() and text.count(it) == 1), None)
        if not line:
            return None
        with open(path, "w", encoding="utf-8") as it:
            it.write("file: %s\nold: %s\nnew: %s\nby: %s\n" % (file, line, line, goal))
        return wrong_bodies.Edit(self.crate, path, self.tries.homes).beside(self.crate, number, True)

    def proved_by(self, asked):
        """Those of these goals of edits, each with the head of an answer and a tactic, that the tactic proves in the right body."""
        shutil.rmtree(os.path.join(self.crate.folder, "proofs"))
        shutil.copytree(os.path.join(self.home.folder, "proofs"), os.path.join(self.crate.folder, "proofs"))
        rights = {}
        for number, (edit, goal, head, tactic) in enumerate(asked):
            if not alone(goal, self.answers_of(edit)):
                self.put(edit, goal, head, tactic, self.crate)
            rights[number] = self.right(edit, goal, 1000 + number)
        proved = []
        for planted in self.rounds(it for it in rights.values() if it):
            said = self.tries.checked(planted, True)
            wrong = {path.replace("/", "::") for path, _ in said.errors}
            good = {it.name for it in planted if it.functions <= {*said.of} and not it.functions & wrong}
            proved += [asked[number] for number, it in rights.items() if it and it.name in good]
        return proved

    def answered(self, left):
        """Tries tactics at the goals of these edits, in the right bodies, and writes those that prove one. Gives the goal of each that has one then."""
        edits = {it.name: it for it in self.tries.wide.values() if it.name in left}
        heads, chosen = self.heads(edits.values()), {}
        for number in range(2):
            asked = []
            for name, edit in edits.items():
                tactic = ("search rules", "grind (%s)" % ", ".join(["arith", "common_steps", *lemmas_of(self.crate, edit)]))[number]
                named = [(it, heads.get(("::".join(edit.proofs[0]), it))) for it in left[name] if name not in chosen]
                asked += [(edit, goal, head, tactic) for goal, head in named[:3] if head]
            for edit, goal, head, tactic in self.proved_by(asked) if asked else ():
                if edit.name not in chosen:
                    chosen[edit.name] = goal
                    # (another wrong body of the function may have had it written)
                    if not alone(goal, wrong_bodies.text_of(self.home, os.path.join("proofs", *edit.proofs[0], "Answers.antt"))):
                        self.put(edit, goal, head, tactic, self.home)
        return chosen

    def write(self):
        """Writes the goals into the edits. Gives how many have one."""
        goals = self.found()
        chosen = {name: answered[0] for name, (answered, _) in goals.items() if answered}
        left = {name: others for name, (answered, others) in goals.items() if others and not answered}
        chosen.update(self.answered(left) if left else {})
        for path in self.paths:
            name = os.path.basename(path)[: -len(".edit")]
            lines = [it for it in wrong_bodies.text_in(path).rstrip("\n").split("\n") if not it.startswith(("by:", "left:"))]
            if name in chosen:
                with open(path, "w", encoding="utf-8") as it:
                    it.write("\n".join([*lines, "by: " + chosen[name]]) + "\n")
        return len(chosen)


def find(kit, crate, paths):
    """Finds the goals of these edits of a crate, where they name none. Gives how many have one then."""
    left = [it for it in paths if not re.search(r"^by:", wrong_bodies.text_in(it), re.M)]
    if not left:
        return len(paths)
    with tempfile.TemporaryDirectory(prefix="refusing-") as room:
        return len(paths) - len(left) + Refusing(kit, crate, left, room).write()
