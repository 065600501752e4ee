"""Mutants and edits: how their files are read, and which functions of a crate's source text they change."""
import itertools
import os
import re
from typing import NamedTuple

from workspace import TOP

FUNCTION = re.compile(r"( *)(?:pub(?:\([^)]*\))? )?(?:const )?(?:unsafe )?(?:extern \S+ )?fn (\w+)")
LABEL = re.compile(r"\s*ensures (\w+) \{")
IN_THE_TABLE = re.compile(r"`(\w+)/(\w+)`")
OUTSIDE_THE_GATE = re.compile(r"`mutants/(\w+)/(\w+)`")
OF_A_CLAUSE = re.compile(r"(returns|invariant_of|loop)\b.*-clause-(\w+)$")


class Mutant(NamedTuple):
    name: str
    path: str
    changes: tuple  # the file, the old text and the new one, in their order
    functions: frozenset  # the functions that it changes: owner and name, the owner being a type or a module
    labels: frozenset  # the labels of the clauses of these functions; a `*` if a trait's clauses are among them
    clause: str  # where it is meant to be refused, if the file says so
    why: str  # why it can't be applied


def last_cells():
    """The last cell of each row of the table of wrong bodies in docs/PROVING.md: what refuses each."""
    section = read_text(os.path.join(TOP, "docs", "PROVING.md")).split("\n## Wrong bodies\n")[1].split("\n## ")[0]
    rows = [line.strip("| ") for line in section.splitlines() if line.startswith("| ")]
    return [row.rsplit(" | ", 1)[-1] for row in rows[1:]]


def of_the_gate(crate):
    """The names of the mutants in mutants/CRATE that the gate tries: those that the table of wrong bodies names."""
    named = {name for cell in last_cells() for at, name in IN_THE_TABLE.findall(cell) if at == crate}
    return sorted(name for name in named if os.path.exists(os.path.join(TOP, "mutants", crate, f"{name}.edit")))


def owner_of(line):
    """The type of an `impl` or `trait` line, followed by its trait, as a check names it."""
    plain = line
    while re.search(r"<[^<>]*>", plain):
        plain = re.sub(r"<[^<>]*>", "", plain)
    words = re.sub(r"^(pub )?(impl|trait)\b|[{].*|where .*", "", plain).strip()
    first, _, second = words.partition(" for ")
    names = [re.split(r"::", part.strip())[-1].strip("& ") for part in (second, first) if part]
    return "".join(re.sub(r"\W.*", "", name) for name in names)


def module_of(file):
    """The module of a file of src/."""
    parts = file.removeprefix("src/").removesuffix(".rt").split("/")
    return "::".join(part for part in parts if part not in ("lib", "main", "mod"))


def function_at(file, text, place):
    """The function that contains a place of a file formatted by `rt fmt`: its owner and its name, or None."""
    owner = function = None
    for line in text[:place].splitlines() + [text[text.rfind("\n", 0, place) + 1 : text.find("\n", place)]]:
        if re.match(r"(pub )?(impl|trait)\b", line):
            owner, function = owner_of(line), None
        found = FUNCTION.match(line)
        if found:
            function = (owner if found[1] and owner else module_of(file), found[2])
        elif re.match(r"(pub(\([^)]*\))? )?(const|static|struct|enum|use|mod|macro_rules)\b", line):
            owner = function = None
    return function


def head_from(lines):
    """The lines of a function up to its body."""
    return list(itertools.takewhile(lambda line: line.strip() not in ("{", "{}"), lines))


def head_at(text, place):
    """The same of the function that contains a place of a file."""
    lines, above = text.splitlines(), text[:place].count("\n")
    begun = next((number for number in range(above, -1, -1) if FUNCTION.match(lines[number])), len(lines))
    return head_from(lines[begun:])


def is_of_a_trait(text, place):
    """Whether a place of a file is in an `impl` of a trait, whose functions have the trait's clauses, too."""
    blocks = [line for line in text[:place].splitlines() if re.match(r"(unsafe )?(impl|pub trait|trait)\b", line)]
    return bool(blocks) and " for " in blocks[-1]


def read_text(path):
    with open(path, encoding="utf-8") as opened:
        return opened.read()


def read_mutant(path, folder):
    """A mutant or an edit, and where it changes the crate in this folder. A pair applies to what earlier pairs made."""
    name, file, old, clause, why = os.path.basename(path)[: -len(".edit")], "", "", "", ""
    texts, changes, functions, labels = {}, [], set(), set()
    for line in read_text(path).split("\n"):
        if line.startswith("file: "):
            file = line[len("file: ") :].strip()
            if file not in texts and os.path.isfile(os.path.join(folder, file)):
                texts[file] = read_text(os.path.join(folder, file))
        elif line.startswith("clause: "):
            clause = line[len("clause: ") :].strip()
        elif line.startswith("old: "):
            old = line[len("old: ") :]
        elif line.startswith("new:"):
            new = line[len("new:") :].removeprefix(" ")
            count = texts.get(file, "").count(old) if old else 0
            if count != 1:
                why = f"an old text stands {count} times in {file or 'no file'}"
                break
            place = texts[file].index(old)
            functions.add(function_at(file, texts[file], place))
            labels |= {found[1] for found in map(LABEL.match, head_at(texts[file], place)) if found}
            labels |= {"*"} if is_of_a_trait(texts[file], place) else set()
            texts[file] = texts[file].replace(old, new)
            changes.append((file, old, new))
    why = why or ("" if changes else "it has no old and new text")
    return Mutant(name, path, tuple(changes), frozenset(functions), frozenset(labels), clause, why)


def fits(clause, goal):
    """Whether a goal is the one that a line `clause:` names: by its own name, without the number that goals of one name
    have, or by the label of a clause of the function."""
    goal = re.sub(r"-\d+$", "", goal)
    of = OF_A_CLAUSE.match(goal)
    if of or clause != "returns":
        return goal == clause or bool(of) and of[2] == clause
    return goal.split("-")[0] == "returns"


def clause_of(goals):
    """What a line `clause:` says for these goals: a clause of the function if one is open, or else the first goal."""
    goals = [re.sub(r"-\d+$", "", goal) for goal in goals]
    labels = [of[2] for of in map(OF_A_CLAUSE.match, goals) if of]
    returns = ["returns" for goal in goals if goal.split("-")[0] == "returns"]
    return [*labels, *returns, *goals, ""][0]


# The public functions of a crate


def sources_of(crate):
    """The text of each file of src/."""
    folder, found = os.path.join("crates", crate), {}
    for room, _, files in os.walk(os.path.join(folder, "src")):
        for file in sorted(files):
            found[os.path.relpath(os.path.join(room, file), folder)] = read_text(os.path.join(room, file))
    return found


def exports_of(texts):
    """The public modules among these files, and the names that a `pub use` exports."""
    modules, names = {""}, set()
    for file, text in texts.items():
        inner = re.findall(r"^pub mod (\w+)", text, re.M)
        modules |= {"::".join(part for part in (module_of(file), one) if part) for one in inner}
        for used in re.findall(r"^pub use ([^;]+);", text, re.M):
            names |= {*re.findall(r"\w+", used.split("{")[1] if "{" in used else used.split("::")[-1])}
    return modules, names


def has_clause(lines):
    """Whether the function that begins with these lines has a clause about what it does, and a body."""
    head = head_from(lines)
    clauses = next((number for number, line in enumerate(head) if line.strip().startswith("ensures ")), None)
    if clauses is None or any(line.endswith("{") for line in head[:clauses]):
        return False
    return lines[len(head)].strip() == "{"


def public_functions(crate):
    """The public functions of a crate that have a clause and a body."""
    texts, found = sources_of(crate), []
    modules, names = exports_of(texts)
    for file, text in texts.items():
        place = 0
        for number, line in enumerate(text.splitlines(keepends=True)):
            begun = FUNCTION.match(line)
            if begun and line.lstrip().startswith("pub "):
                function = function_at(file, text, place)
                exported = "extern" in line or module_of(file) in modules or function[0 if begun[1] else 1] in names
                if exported and has_clause(text.splitlines()[number:]):
                    found.append(function)
            place += len(line)
    return found
