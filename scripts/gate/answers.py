"""Files of answers: what they declare and import, and parts of them."""
import re


def without(goals, answers):
    """The answers without those to these goals."""
    kept, drops = [], False
    for line in answers.split("\n"):
        word = re.match(r"(?:pub )?([^\s:]+)", line)
        if word and re.match(r"\w", word[1]) and word[1] != "unfolding":
            drops = word[1] in goals
        if not drops:
            kept.append(line)
    return "\n".join(kept)


def declarations_of(answers):
    """What an answers file declares, by its names, each with the comments above it; and what it imports."""
    found, imports, name, above = {}, [], None, []
    for line in answers.split("\n"):
        word = re.match(r"(?:pub )?(?:abbrev )?(?:pub )?([^\s:]+)", line)
        if line.startswith("use "):
            imports.append(line)
        elif not line.strip() or line.startswith("--"):
            above.append(line)
        # (a bracket that closes stands at the start of its line, too)
        elif word and re.match(r"\w", word[1]) and word[1] not in (name, "unfolding"):
            name = word[1]
            found[name], above = above + [line], []
        else:
            found[name] += above + [line]
            above = []
    return {name: "\n".join(lines).strip("\n") for name, lines in found.items()}, imports


def names_in(text):
    """The names in a text of antt."""
    return set(re.findall(r"[^\s(){}\[\].,;]+", text))


def needed(line, names):
    """The line of imports without what none of these names is; nothing where nothing is left."""
    module, brace, given = line.partition("{")
    if not brace:
        return line
    # (an operator or a sign stands in a text in other ways)
    is_named = lambda word: word in names or "◌" in word or not re.search(r"\w", word)
    kept = [it.strip() for it in given.rstrip(" }").split(",") if is_named(it.strip().split(" as ")[-1])]
    return "%s{%s}" % (module, ", ".join(kept)) if kept else ""


def alone(goal, answers):
    """The answers with that to this goal alone, and what it names of the others. None where there is none."""
    declared, imports = declarations_of(answers)
    kept, left = {}, [goal]
    while left:
        name = left.pop()
        if name in declared and name not in kept:
            kept[name] = declared[name]
            left += names_in(declared[name])
    if goal not in kept:
        return None
    texts = [kept[it] for it in declared if it in kept]
    names = names_in("\n".join(texts))
    lines = [needed(line, names) for line in imports]
    return "\n\n".join(["\n".join(it for it in lines if it), *texts]) + "\n"


def with_imports(answers, homes, text):
    """The answers, with imports of those words that the text has, each from its home."""
    for word, home in homes.items():
        if not re.search(r"(?<![\w-])%s(?![\w-])" % re.escape(word), text):
            continue
        line = re.search(r"^use %s\.\{([^}]*)\}" % re.escape(home), answers, re.M)
        if not line:
            answers = "use %s.{%s}\n%s" % (home, word, answers)
        elif word not in re.split(r",\s*", line[1]):
            answers = answers.replace(line[0], "%s, %s}" % (line[0][:-1], word))
    return answers


def with_answer(answers, module, goal, head, tactic, homes):
    """The answers of the function with this module, with one more: this tactic proves the goal, whose answer begins so."""
    text = with_imports(answers, homes, tactic)
    if "Goals as goal" not in text:
        text = "%suse %sGoals as goal\n" % (text, module)
    return "%s\n\npub %s : goal.%s\n%s = %s\n" % (text.rstrip("\n"), goal, goal, head, tactic)
