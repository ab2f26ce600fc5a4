"""Wrong bodies: edits of a crate's code that its contracts have to refuse, many of them tried by one run of the prover.

A function is proved against its own contract and the contracts of what it calls, whatever their bodies are. So each wrong body is put
beside the right one, as that of a function of another name with the same contract and the same answers, and the prover says of each by
itself whether it is proved. Where there can be no such function, in an impl of a trait, or where an edit changes two, the wrong body takes the
place of the right one, and of what calls it the prover says so: that counts for nothing here.

An edit may name the goal that refuses it (`by: GOAL`). Its copy has the answer to that goal alone, and no tactic is tried at the others. The same answer proves
the right body there, which the gate sees as it proves the crate. Where that does not refuse it, it is tried with all answers, and a search where there is none.

An edit may name goals that are left (`left: GOAL ..`): there its copy has holes, since another goal refuses it at once, and the prover would look long for these
in vain. Where none does, nothing is left.

What a wrong body calls has no body there, and a hole in the place of its proof: the gate proves it anyway, and the wrong body's goals rest on its contract alone. So
wrong bodies alone are checked. Where something else is refused beside holes, all are tried again without them; so are those wrong bodies of which nothing is told there.

Nothing counts that can't be told so. An edit outside functions, or of which nothing is told beside the others, is tried alone by the
gate's own code; and where a function without an edit has an open goal of its own, so are all that were tried beside it.
"""
import collections
import copy
import functools
import importlib.machinery
import importlib.util
import os
import re
import shutil
import subprocess
import tempfile
import time

from gate.answers import alone, without

# The folders of a crate that have edits: those that the gate tries, each by itself and together, and those that it leaves out.
ALONE, TOGETHER, MORE = "must-fail", "must-fail-together", "must-fail-more"

# What a proof file says where it names something that an edit took away, or answers a goal that asks for nothing any more.
OF_NAMES = re.compile(r"has no field|is not in scope|has no `|was not admitted|binders, but its type has room")

# A proof that is a hole: it is taken by what it states.
HOLE = """use {module}Statement.{{statement}}

pub {name}_spec : {{M : Type 1}} → statement M
{name}_spec {{M}} = ?
"""

# What `rt` says of an edit that only such a name refused: it counts that as refused, and here it counts for nothing.
ONLY_NAMES = "only because a proof file names what the edit took away"


def kit():
    """The code of the command `rt`, as a module: it knows how a crate is checked, and tries an edit alone."""
    path = os.path.realpath(shutil.which("rt"))
    loader = importlib.machinery.SourceFileLoader("rt_kit", path)
    made = importlib.util.module_from_spec(importlib.util.spec_from_loader("rt_kit", loader))
    loader.exec_module(made)
    return made


def edits_in(folder):
    """The edits of a folder, by their names."""
    return sorted(it for it in os.listdir(folder) if it.endswith(".edit")) if os.path.isdir(folder) else []


def code_of(text):
    """The text with blanks in the place of comments, characters and strings."""
    return re.sub(r"//[^\n]*|\"(?:\\.|[^\"\\])*\"|'(?:\\.|[^'\\\n])'", lambda it: re.sub(r"[^\n]", " ", it[0]), text)


def behind_brace(code, start):
    """Where the block ends whose brace opens at start."""
    depth = 0
    for at in range(start, len(code)):
        depth += {"{": 1, "}": -1}.get(code[at], 0)
        if not depth:
            return at + 1
    return len(code)


def body_of(code, start):
    """Where the body of the function lies whose head goes on at start: behind its clauses. None where it has none."""
    at, depth = start, 0
    while at < len(code):
        sign = code[at]
        depth += {"(": 1, "[": 1, ")": -1, "]": -1}.get(sign, 0)
        if sign == ";" and not depth:
            return None
        if sign == "{" and re.search(r"\b(?:ensures|requires)\*?(?:\s+\w+)?\s*$|\bghost\s+\w+\s*:\s*$", code[start:at]):
            at = behind_brace(code, at)
        elif sign == "{" and not depth:
            return at, behind_brace(code, at)
        else:
            at += 1
    return None


def words_of(text):
    """The names of a type or a trait, without lifetimes and what is const."""
    return [it for it in re.findall(r"'?\w+", re.sub(r"\bconst\b", "", text)) if not it.startswith("'")]


def outside_brackets(text):
    """The text without what stands between angle brackets."""
    while True:
        less = re.sub(r"<[^<>]*>", "", text)
        if less == text:
            return text
        text = less


def params_of(given):
    """The names of the parameters of an impl, of the text `<..>` behind that word."""
    return [word for it in given.strip()[1:-1].split(",") for word in words_of(it)[:1]]


def homes_of(crate):
    """The types and traits of a crate, each with the module that declares it: the prover names their functions by that one."""
    found = {}
    for folder, _, files in os.walk(os.path.join(crate.folder, "src")):
        for name in files:
            file = os.path.relpath(os.path.join(folder, name), crate.folder)
            for it in re.findall(r"^\s*(?:pub(?:\([^)]*\))? )?(?:struct|enum|union|trait) (\w+)", code_of(text_of(crate, file)), re.M):
                found[it] = module_of(file)
    return found


def holders_of(code):
    """The impls and traits of a file: where each lies, what the prover calls it in a function's name, the type where it is an impl of that
    type alone, of no trait, and whether it is a trait."""
    found = []
    for it in re.finditer(r"^(?:pub(?:\([^)]*\))? )?(?:unsafe )?(impl|trait)\b([^{;]*)\{", code, re.M):
        head = re.split(r"\bwhere\b", it[2])[0]
        given = re.match(r"\s*<(?:[^<>]|<(?:[^<>]|<[^<>]*>)*>)*>", head) if it[1] == "impl" else None
        trait, _, whole = head[given.end() if given else 0 :].rpartition(" for ")
        free = params_of(given[0]) if given else []
        args = lambda text: [word for word in words_of("".join(re.findall(r"<(.*)>", text, re.S))) if word not in free]
        kind = None
        if it[1] == "trait":
            name = words_of(outside_brackets(whole))[0]
        elif trait:
            of, its = words_of(outside_brackets(whole))[-1], words_of(outside_brackets(trait))[-1]
            name = "".join([of[:1].upper() + of[1:], *args(whole), its, *args(trait)])
        else:
            kind = words_of(outside_brackets(whole))[-1]
            name = "+".join([kind, *args(whole)])
        found.append((it.start(), behind_brace(code, it.end() - 1), name, kind, it[1] == "trait"))
    return found


def functions_of(file, text, homes):
    """The functions of a file that have a body: where head and body begin and the body ends, and its name. What stands in an impl of a type
    has the type's module, and what stands in one of a trait the file's."""
    code = code_of(text)
    holders, found = holders_of(code), []
    for it in re.finditer(r"\bfn (\w+)", code):
        body = body_of(code, it.end())
        if body:
            holder = [(kind, name) for start, end, name, kind, _ in holders if start <= it.start() < end][-1:]
            parts = [homes.get(holder[0][0], module_of(file)), holder[0][1], it[1]] if holder else [module_of(file), it[1]]
            found.append((it.start(), *body, "::".join(it for it in parts if it)))
    return found


def macros_of(text):
    """Where the macros of a file lie."""
    code = code_of(text)
    return [(it.start(), behind_brace(code, it.end() - 1)) for it in re.finditer(r"\bmacro_rules! \w+\s*\{", code)]


def module_of(file):
    name = file[len("src/") : -len(".rt")].replace("/", "::")
    return "" if name in ("lib", "main") else re.sub(r"::mod$", "", name)


def brings_more(old, new):
    """Whether this line of imports has the names that it had, and others."""
    return old.startswith("use ") and new.startswith("use ") and set(re.findall(r"\w+", old)) <= set(re.findall(r"\w+", new))


def span_of(file, text, function, homes):
    """Where a function of a file lies, with its attributes. None where it is one of a trait, or is proved with others."""
    traits = [(start, end) for start, end, _, kind, _ in holders_of(code_of(text)) if not kind]
    found = [(start, end) for start, _, end, name in functions_of(file, text, homes) if name == function]
    if len(found) != 1 or any(start <= found[0][0] < end for start, end in traits):
        return None
    start = text.rfind("\n", 0, found[0][0]) + 1
    attributes = re.search(r"(?:^[ \t]*#\[[^\n]*\]\n)*\Z", text[:start], re.M)
    whole = text[attributes.start() : found[0][1]]
    is_cut = re.search(r"\]\s*\Z", text[: attributes.start()])
    return None if is_cut or "#[cycle" in whole else (attributes.start(), found[0][1])


def module_in_proofs(parts):
    """How proofs name what the prover makes of a function."""
    return ".proofs.%s." % ".".join(parts)


@functools.lru_cache
def named_in_proofs(top):
    """For each folder of these proofs the names in its files that may be of what the prover makes of a function."""
    return {
        folder: set(re.findall(r"\.proofs\.([\w.+]+)\.", "\n".join(text_in(os.path.join(folder, name)) for name in files)))
        for folder, _, files in os.walk(top)
    }


def is_cited(crate, parts):
    """Whether a proof that is not the function's own names what the prover makes of it, or closures of it have answers of their own."""
    top = os.path.join(crate.folder, "proofs")
    own, name = os.path.join(top, *parts), ".".join(parts)
    for folder, names in named_in_proofs(top).items():
        if folder.endswith(os.path.join("fn", parts[-1])) or os.path.join("fn", parts[-1], "") in folder:
            return True
        if folder != own and any(it == name or it.startswith(name + ".") for it in names):
            return True
    return False


def calls_itself(crate, parts):
    """Whether the function has its proof together with itself, or with others that it calls and that call it."""
    folder = os.path.join(crate.folder, "proofs", *parts[:-1])
    return os.path.isdir(folder) and any(it.startswith("+") and parts[-1] in it.split("+") for it in os.listdir(folder))


def is_computed(text, start):
    """Whether the function whose head is there is computed by the compiler, or has its proof with others."""
    attributes = re.search(r"(?:^[ \t]*#\[[^\n]*\]\n)*[^\n]*\Z", text[:start], re.M)
    return bool(re.search(r"#\[cycle\b|\bconst\s+$", attributes[0])) or bool(re.search(r"\]\s*\Z", text[: attributes.start()]))


def holes_of(crate, homes, texts):
    """The functions of a crate with these texts whose body and proof can go: each with its file, where its body lies, and the parts of its name. What
    stands in a trait or a macro, is computed by the compiler, calls itself, or is named by proofs of others, can't."""
    found = []
    for folder, _, files in os.walk(os.path.join(crate.folder, "src")):
        for name in files:
            file = os.path.relpath(os.path.join(folder, name), crate.folder)
            text = texts.get(file) or text_of(crate, file)
            apart = macros_of(text) + [(start, end) for start, end, _, _, is_trait in holders_of(code_of(text)) if is_trait]
            for head, start, end, function in functions_of(file, text, homes):
                parts = function.split("::")
                is_apart = any(first <= head and end <= last for first, last in apart) or calls_itself(crate, parts)
                if not is_apart and not is_computed(text, head) and not is_cited(crate, parts):
                    found.append((file, start, end, parts))
    return found


def put_holes(crate, room, holes):
    """Takes the bodies of these functions away, in this copy of the crate, and puts holes in the places of their proofs."""
    for file, start, end, parts in sorted(holes, reverse=True):
        text = text_in(os.path.join(room, file))
        with open(os.path.join(room, file), "w", encoding="utf-8") as it:
            # (as many lines as there were: what the prover notes is told by its line)
            it.write(text[:start] + "{ unreachable!() " + "\n" * text.count("\n", start, end) + "}" + text[end:])
        place = os.path.join(room, "proofs", *parts)
        os.makedirs(place, exist_ok=True)
        for it in ("Answers.antt", "Invariants.antt"):
            if os.path.exists(os.path.join(place, it)):
                os.remove(os.path.join(place, it))
        with open(os.path.join(place, "Proof.antt"), "w", encoding="utf-8") as it:
            it.write(HOLE.format(module="Rattle." + crate.name + module_in_proofs(parts), name=parts[-1]))


class Edit:
    """One wrong body: what it replaces, in which files, and the functions whose bodies that changes."""

    def __init__(self, crate, path, homes):
        self.path, self.name, self.homes = path, os.path.basename(path)[: -len(".edit")], homes
        self.pairs, self.functions, self.is_apart, self.proofs, self.left, self.by, self.is_narrow = [], set(), False, None, [], None, False
        texts, file, old = {}, None, None
        with open(path, encoding="utf-8") as it:
            lines = it.read().split("\n")
        for line in lines:
            kind, _, text = line.partition(":")
            text = text[1:]
            if kind == "file":
                file = text.strip()
                texts.setdefault(file, text_of(crate, file))
            elif kind == "left":
                self.left = text.split()
            elif kind == "by":
                self.by = text.strip()
            elif kind == "old":
                old = text
            elif kind == "new" and old is not None:
                self.pairs.append((file, old, text))
                if not brings_more(old, text):
                    self.place(file, texts[file], old)
                texts[file], old = texts[file].replace(old, text), None
        self.is_apart = self.is_apart or not self.functions

    def place(self, file, text, old):
        """Notes the function whose body has this text."""
        at = text.find(old)
        holds = lambda start, end: start <= at and at + len(old) <= end
        inside = [name for _, start, end, name in functions_of(file, text, self.homes) if holds(start, end)]
        if not file.startswith("src/") or at < 0:
            self.is_apart = True
        elif any(holds(*it) for it in macros_of(text)) and module_of(file):
            # (what the macro writes, it writes in the file's own module)
            self.functions.add(module_of(file))
        elif inside:
            self.functions.add(inside[-1])
        else:
            self.is_apart = True

    def beside(self, crate, number, is_narrow=False):
        """The same wrong body, as that of a copy of its function that stands beside it; None where there can be none. So two wrong bodies of one
        function can be tried together: a copy has the function's contract and answers; a narrow one that to the goal which refuses it alone, and no tactic."""
        own = {file for file, old, new in self.pairs if not brings_more(old, new)}
        if self.is_apart or len(self.functions) != 1 or len(own) != 1:
            return None
        (file,), (function,) = own, self.functions
        parts, text = function.split("::"), text_of(crate, file)
        span = span_of(file, text, function, self.homes)
        if not span or is_cited(crate, parts) or calls_itself(crate, parts):
            return None
        if is_narrow and not (self.by and alone(self.by, text_of(crate, os.path.join("proofs", *parts, "Answers.antt")))):
            return None
        whole = wrong = text[slice(*span)]
        for _, old, new in (it for it in self.pairs if it[0] == file and not brings_more(*it[1:])):
            wrong = wrong.replace(old, new)
        if is_narrow:
            wrong = "#[tactic(none)]\n" + re.sub(r"^[ \t]*#\[tactic\([^\n]*\)\]\n", "", wrong, count=1, flags=re.M)
        name = "%s_tried_%d" % (parts[-1], number)
        copied = copy.copy(self)
        copied.is_narrow = is_narrow
        copied.pairs = [it for it in self.pairs if brings_more(*it[1:])]
        copied.pairs.append((file, whole, whole + "\n\n" + re.sub(r"\bfn %s\b" % parts[-1], "fn " + name, wrong, count=1)))
        copied.functions, copied.proofs = {"::".join(parts[:-1] + [name])}, (parts, parts[:-1] + [name])
        return copied

    def put_proofs(self, room):
        """Puts the answers of the function beside those of its copy, in this copy of the crate."""
        if self.proofs:
            old, new = (os.path.join(room, "proofs", *it) for it in self.proofs)
            if os.path.isdir(old):
                shutil.copytree(old, new)
                for name in os.listdir(new):
                    text = text_in(os.path.join(new, name))
                    if self.is_narrow and name == "Answers.antt":
                        text = alone(self.by, text)
                    text = text.replace(module_in_proofs(self.proofs[0]), module_in_proofs(self.proofs[1]))
                    with open(os.path.join(new, name), "w", encoding="utf-8") as it:
                        it.write(text)

    def leave(self, crate, room):
        """Puts holes in the places of the goals that are left, in this copy of the crate."""
        for function in self.functions if self.left and not self.is_narrow else ():
            parts = function.split("::")
            place = os.path.join(room, "proofs", *parts, "Answers.antt")
            os.makedirs(os.path.dirname(place), exist_ok=True)
            text = without(self.left, text_in(place))
            if "Goals as goal" not in text:
                text = "use Rattle.%s%sGoals as goal\n%s" % (crate.name, module_in_proofs(parts), text)
            with open(place, "w", encoding="utf-8") as it:
                it.write(text + "".join("\npub %s : goal.%s\n%s = ?\n" % (goal, goal, goal) for goal in self.left))

    def is_of(self, function):
        """Whether this is a function that the edit changes, or a closure in one."""
        function = function.replace("fn::", "")
        return any(function == it or function.startswith(it + "::") for it in self.functions)


def text_in(path):
    if not os.path.isfile(path):
        return ""
    with open(path, encoding="utf-8") as it:
        return it.read()


def text_of(crate, file):
    return text_in(os.path.join(crate.folder, file))


def changed(crate, edits):
    """The texts that all these edits together make, or None where one doesn't fit to what the others made."""
    texts = {}
    for edit in edits:
        for file, old, new in edit.pairs:
            text = texts.get(file) or text_of(crate, file)
            if text.count(old) != 1:
                return None
            texts[file] = text.replace(old, new)
    return texts


class Said:
    """What the prover said of each function, of a copy of the crate with these texts."""

    def __init__(self, crate, homes, texts, text, planted, over_holes):
        self.crate, self.homes, self.texts, self.over_holes, self.notes = crate, homes, texts, over_holes, collections.defaultdict(list)
        self.left = {function: {*edit.left} for edit in planted if over_holes for function in edit.functions}
        self.by = {function: edit.by for edit in planted if edit.is_narrow for function in edit.functions}
        self.of = dict(re.findall(r"^fn %s::(\S+): (.*)$" % crate.name, text, re.M))
        # (what an error names may stand in the lines below it)
        self.errors = re.findall(r"^\./proofs/(\S+)/\w+\.antt:\d+:\d+: error: (.*(?:\n  .*)*)", text, re.M)
        self.places = {it.replace("/fn/", "/") for it in re.findall(r"^\./(\S+?)(?::\d+:\d+)?: error\b", text, re.M)}
        for file, line, note in re.findall(r"^note: (src/\S+?):(\d+):\d+: (it is not proved .*)$", text, re.M):
            self.notes[self.function_at(file, int(line))].append(note)

    def function_at(self, file, line):
        """The name of the function that has this line of a file."""
        text = self.texts.get(file) or text_of(self.crate, file)
        lines = text.split("\n")
        start = sum(len(it) + 1 for it in lines[: line - 1])
        inside = [name for head, _, end, name in functions_of(file, text, self.homes) if head < start + len(lines[line - 1]) and start < end]
        return inside[-1] if inside else file

    def are_proved(self, edit):
        """Whether the functions that the edit changes are told, and proved, whatever has a hole that they call."""
        told = [it for function, it in self.of.items() if edit.is_of(function)]
        # (a crate has no holes but those that are put here)
        return bool(told) and all(it in ("proved", "no holes") or it.startswith("depends on a hole in ") for it in told)

    def is_only_of(self, edits):
        """Whether nothing is refused but what these edits change."""
        own = ["proofs/%s/" % function.replace("::", "/") for edit in edits for function in edit.functions]
        return all(any(place.startswith(it) for it in own) for place in self.places)

    def why(self, function):
        """What refused the function for itself: the first goal of its own that is open, and not for a name that is gone. None where nothing did."""
        told = self.of[function]
        if function in self.by:
            own = (why for path, why in self.errors if path == function.replace("::", "/") and not OF_NAMES.search(why))
            return next((it for it in own if it.startswith("`%s`: " % self.by[function])), None)
        without = re.match(r"no proof: expected answers in \S+ `?search`? did not prove (.*?)(?:;|$)", told)
        if without:
            return "no proof of " + without[1]
        if not told.startswith("not proved"):
            return None
        errors = [why for path, why in self.errors if path == function.replace("::", "/")]
        own = [it for it in errors if not OF_NAMES.search(it) and self.is_of_a_goal(function, it)] + self.notes[function]
        return own[0] if own else "a goal of its own" if told == "not proved" and not errors else None

    def is_of_a_goal(self, function, error):
        """Whether the error is of an answer to a goal, and to none that is left."""
        named = re.match(r"`([^`]+)`: ", error)
        return bool(named) and named[1] not in self.left.get(function, ())


class Tries:
    """Tries edits of one crate, and says what came of each."""

    def __init__(self, kit, crate, paths, say=print, same=(), before=()):
        """`same` are those of the edits that mean the same as before, and have to pass beside the others. `before` are the words before each
        command line."""
        self.kit, self.crate, self.say, self.kept, self.homes, self.before = kit, crate, say, None, homes_of(crate), before
        edits = [Edit(crate, path, self.homes) for path in [*paths, *same]]
        self.wide = {it.name: it.beside(crate, number) or it for number, it in enumerate(edits)}
        self.edits, self.same = [it.beside(crate, number, True) or self.wide[it.name] for number, it in enumerate(edits)], {*same}
        self.refused, self.missed, self.passed, self.spent, self.rounds = 0, set(), set(), 0.0, 0

    def all(self):
        """Tries them all. What one run proved of the functions that these call serves the next, and those that are tried alone."""
        with tempfile.TemporaryDirectory(prefix="wrong-bodies-kept-") as self.kept:
            return self.in_rounds()

    def in_rounds(self):
        left = [it for it in self.edits if not it.is_apart]
        apart, waited = [it for it in self.edits if it.is_apart], collections.Counter()
        while left:
            planted = self.chosen(sorted(left, key=lambda it: -waited[it.name]))
            if not planted:
                # (none of them can be made)
                apart += left
                break
            found, others = self.round(planted)
            for edit in planted:
                waited[edit.name] += 1
                if edit.name in found:
                    self.tell(edit, found[edit.name])
            apart += others
            left = [it for it in left if it.name not in found and it not in others]
            # (what one goal did not refuse is tried with all)
            left = [self.wide[it.name] if it.is_narrow and it in planted else it for it in left]
        for edit in apart:
            if edit.path not in self.same:
                self.alone(edit)
        return self

    def chosen(self, edits):
        """As many of them as can be made together, with one edit to a function."""
        chosen = []
        for edit in edits:
            is_free = not any(other.is_of(it) or edit.is_of(name) for other in chosen for it in edit.functions for name in other.functions)
            if is_free and changed(self.crate, chosen + [edit]) is not None:
                chosen.append(edit)
        return chosen

    def round(self, planted, over_holes=True):
        """One run with all of these. Gives what refused those that it refused, and those to be tried alone; what is neither waits for others."""
        said = self.checked(planted, over_holes)
        if not said.of and len(planted) > 1:
            # (with one of them the crate can't be compiled: halves say with which)
            (found, others), (more, apart) = self.round(planted[::2], over_holes), self.round(planted[1::2], over_holes)
            return {**found, **more}, others + apart
        why = {it: said.why(it) for it in said.of}
        found = {}
        for edit in planted:
            own = [(it, why[it]) for it in said.of if edit.is_of(it) and why[it]]
            if own:
                found[edit.name] = "%s: %s" % own[0]
        spilled = [it for it in said.of if why[it] and not any(edit.is_of(it) for edit in planted)]
        if spilled:
            self.say("%s: %s is refused beside them, which has no edit: each is tried alone" % (self.crate.name, spilled[0]))
            return {}, planted
        waits = [it for it in planted if it.name not in found and any(it.is_of(name) and "it calls" in told for name, told in said.of.items())]
        self.passed |= {it.path for it in planted if it.path in self.same and said.are_proved(it)}
        others = [it for it in planted if it.name not in found and not it.is_narrow and (it not in waits or not found)]
        wrong = [it for it in others if it.path not in self.same]
        if said.over_holes and wrong:
            # (over holes nothing is told of a goal whose name the answers miss)
            more, apart = self.round(wrong, False)
            return {**found, **more}, apart + [it for it in others if it not in wrong]
        return found, others

    def checked(self, planted, over_holes):
        """What the prover says of the functions of these edits."""
        names = sorted({it for edit in planted for it in edit.functions})
        texts = changed(self.crate, planted)
        holes = [it for it in holes_of(self.crate, self.homes, texts) if over_holes and not any(edit.is_of("::".join(it[3])) for edit in planted)]
        while True:
            status, text = self.run(planted, texts, holes, [it for name in names for it in ("--only", name)])
            missing = re.search(r"has no (?:function|[\w ]+) `([^`]*)`", text) if status == 2 else None
            # (an impl whose name is told in another way: all functions of its module)
            if missing and missing[1] in names:
                names = sorted({*names, module_of_name(missing[1])} - {missing[1]})
                continue
            said = Said(self.crate, self.homes, texts, text, planted, bool(holes))
            if not holes or said.of and said.is_only_of(planted):
                return said
            holes = []

    def run(self, planted, texts, holes, words):
        """Runs the prover over a copy with these edits, and with holes. Gives its status, and what it said."""
        rtlib = self.kit.rtlib
        with tempfile.TemporaryDirectory(prefix="wrong-bodies-") as room:
            for part in rtlib.PARTS:
                if os.path.isdir(os.path.join(self.crate.folder, part)):
                    shutil.copytree(os.path.join(self.crate.folder, part), os.path.join(room, part))
            for file, text in texts.items():
                with open(os.path.join(room, file), "w", encoding="utf-8") as it:
                    it.write(text)
            for edit in planted:
                edit.put_proofs(room)
                if holes:
                    edit.leave(self.crate, room)
            put_holes(self.crate, room, holes)
            whole = [*self.before, *rtlib.guarded(), rtlib.RATTLE, "check", *self.crate.words(["--jobs", "1"], keeps=False), "--incremental", self.kept, *["--allow-holes"] * bool(holes), *words]
            with open(os.path.join(room, "said"), "w+b") as out:
                process = subprocess.Popen(whole, cwd=room, stdin=subprocess.DEVNULL, stdout=out, stderr=subprocess.STDOUT)
                self.rounds += 1
                status = self.ended(process)
                out.seek(0)
                return status, out.read().decode(errors="replace")

    def ended(self, process):
        """Waits for the process, and adds what it took."""
        _, status, usage = os.wait4(process.pid, 0)
        self.spent += usage.ru_utime + usage.ru_stime
        process.returncode = os.waitstatus_to_exitcode(status)
        return process.returncode

    def alone(self, edit):
        """Tries the edit by itself, by the code of the gate, over what earlier runs proved. What it took is told by the clock: a processor's seconds,
        or more."""
        began = time.monotonic()
        kind, told = self.kit.must_fail(self.crate, edit.path, ["--jobs", "1"], self.kept)
        self.spent += time.monotonic() - began
        self.rounds += 1
        # (a kit tells it by a name of its own, or by whether it is so)
        if kind in {getattr(self.kit, it, True) for it in ("REFUSED", "AT_LIMIT")} and ONLY_NAMES not in told:
            self.tell(edit, re.sub(r"^must-fail \S+: refused, as it must be:? ?", "alone: ", told))
        else:
            self.missed.add(edit.path)
            self.say(told)

    def tell(self, edit, why):
        self.refused += 1
        self.say("%s/%s: refused: %s" % (self.crate.name, edit.name, " ".join(why.split())[:200]))


def module_of_name(function):
    """The module of a function's name: what stands before the first name of a type, or before its last one."""
    parts = function.split("::")
    of_types = [at for at, it in enumerate(parts) if it[:1].isupper()]
    return "::".join(parts[: of_types[0] if of_types else -1])
