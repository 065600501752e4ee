"""Checks of a crate with wrong bodies in it, in a copy of the crates, and what the prover refuses them by."""
import os
import re
import shutil
import subprocess
import tempfile
from typing import NamedTuple

from mutants import clause_of, fits, read_text
from workspace import needed

REFUSED, ELSEWHERE, BY_A_NAME, BY_A_LIMIT = "refused", "refused elsewhere", "refused by a name", "refused by a limit"
LET_THROUGH, BAD = "LET THROUGH", "BAD"

NAMED = re.compile(r"\bfn (\w+)")
REPORTED = re.compile(r"fn (\S+): (.*)")
PROVED = re.compile(r"proved\b")
CALLS = re.compile(r"no proof: it calls ")
NO_VERDICT = re.compile(r"could not tell")
# What a check says about a proof file that names something that was removed.
GONE = re.compile(r"has no field|is not in scope|has no `|was not admitted")
AT_A_LINE = re.compile(r"(?:\./)?(\S+?):(\d+):\d+: error")
AN_ERROR = re.compile(r"(?:note: )?(?:\./)?(\S+?):\d+:\d+: (?:error: )?(.*)")
AN_OPEN_GOAL = re.compile(r"note: \S+:\d+:\d+: .*\(`(\S+)`\)(.*)")
GOAL = re.compile(r"`([a-z][\w-]*)`")
SHOWN = 4  # so many open goals are printed of a function
AT_A_LIMIT = " (at a limit)"  # follows a goal for which the search gave up at one of its limits


def plain(goal):
    return goal.removesuffix(AT_A_LIMIT)


class Verdict(NamedTuple):
    word: str
    function: str = ""
    goals: tuple = ()
    why: str = ""

    def where(self):
        """The function and its open goals, or why there is none."""
        more = len(self.goals) - SHOWN
        goals = ", ".join(self.goals[:SHOWN]) + f" and {more} more" * (more > 0)
        return " ".join(part for part in (self.function, goals, self.why) if part)

    def by(self, clause):
        """This verdict on a mutant that is meant to be refused by this clause."""
        if self.word not in (REFUSED, BY_A_LIMIT) or not clause:
            return self
        if any(fits(clause, plain(goal)) for goal in self.goals):
            goals = sorted(self.goals, key=lambda goal: not fits(clause, plain(goal)))
            return self._replace(goals=tuple(goals))
        return self._replace(word=ELSEWHERE, why=f"in place of {clause}")


def copy_kept(crate, room):
    """Copies what earlier checks here kept: the libraries below a crate, and its own proofs. A check compares all of it
    with the sources, and proves anew what doesn't fit. So a library that is being proved meanwhile costs time only."""
    for name in needed([crate]):
        kept = os.path.join("crates", name, "out")
        stamp = os.path.join(kept, "rlib", "stamp")
        part = "incremental" if name == crate else "rlib"
        to = os.path.join(room, kept, part)
        before = read_text(stamp) if os.path.isfile(stamp) else ""
        try:
            if before or name == crate:
                shutil.copytree(os.path.join(kept, part), to)
        except (OSError, shutil.Error):
            shutil.rmtree(to, ignore_errors=True)
        if name != crate and not (os.path.isfile(stamp) and read_text(stamp) == before):
            shutil.rmtree(to, ignore_errors=True)


class Copy:
    """A copy of the crates, in which one of them is changed and checked: by `rt check` with these words, or by the
    command that `compiler` gives, over the libraries of a gate."""

    def __init__(self, crate, words, compiler=None):
        self.room = tempfile.mkdtemp(prefix="try-mutants.")
        # What one check of the copy proves, the next ones take.
        kept = ["--incremental", os.path.join(self.room, "kept")]
        self.command = [*(compiler("check", crate) + kept if compiler else ["rt", "check"]), *words]
        self.folder = os.path.join(self.room, "crates", crate)
        words = ["git", "ls-files", "-co", "--exclude-standard", "-z", "crates", "crates.txt", "HANDLES"]
        listed = subprocess.run(words, capture_output=True, text=True, check=True)
        for file in listed.stdout.split("\0"):
            if os.path.isfile(file):
                os.makedirs(os.path.dirname(os.path.join(self.room, file)), exist_ok=True)
                shutil.copy2(file, os.path.join(self.room, file))
        if not compiler:
            copy_kept(crate, self.room)

    def __enter__(self):
        return self

    def __exit__(self, *_):
        shutil.rmtree(self.room, ignore_errors=True)

    def texts(self, mutants):
        """The texts of the files that these mutants change, one mutant after the other; None if one doesn't apply."""
        texts = {}
        for mutant in mutants:
            for file, old, new in mutant.changes:
                path = os.path.join(self.folder, file)
                if path not in texts:
                    texts[path] = read_text(path)
                if texts[path].count(old) != 1:
                    return None
                texts[path] = texts[path].replace(old, new)
        return texts

    def together(self, mutants):
        """Those of the mutants that go into one copy: each in another function, its old text still occurring once."""
        taken, chosen = set(), []
        for mutant in mutants:
            if None not in mutant.functions and not mutant.functions & taken and self.texts([*chosen, mutant]):
                taken |= mutant.functions
                chosen.append(mutant)
        return chosen or mutants[:1]

    def check(self, mutants, is_whole):
        """The report of a check with these mutants: of the whole crate, or of the functions that they change."""
        texts = self.texts(mutants)
        was = {path: read_text(path) for path in texts}
        changed = {function for mutant in mutants for function in mutant.functions}
        paths = [] if is_whole or None in changed else sorted("::".join(filter(None, one)) for one in changed)
        only = [word for path in paths for word in ("--only", path)]
        how = {"stdin": subprocess.DEVNULL, "stdout": subprocess.PIPE, "stderr": subprocess.STDOUT, "errors": "replace"}
        self.write(texts)
        ran = subprocess.run([*self.command, *only], cwd=self.folder, check=False, **how)
        self.write(was)
        files = {os.path.relpath(path, self.folder): text for path, text in texts.items()}
        return Report(ran.returncode, ran.stdout, files)

    @staticmethod
    def write(texts):
        for path, text in texts.items():
            with open(path, "w", encoding="utf-8") as opened:
                opened.write(text)


class Report:
    """The report of a check."""

    def __init__(self, status, said, texts):
        self.status, self.lines, self.texts = status, said.splitlines(), texts
        self.functions, self.open, goals = {}, {}, []
        for line in self.lines:
            found, goal = REPORTED.match(line), AN_OPEN_GOAL.match(line)
            if found:
                self.functions[found[1]], self.open[found[1]], goals = found[2], goals, []
            elif goal:
                goals.append(goal[1] + (AT_A_LIMIT if "gave up" in goal[2] else ""))
        self.errors = [one for one in map(AN_ERROR.match, self.lines) if one]

    def unread(self):
        """The line that says why the copy was not checked, if it was not."""
        ended = f"the check ends with status {self.status}"
        return "" if self.functions else next((line for line in self.lines if "error" in line), ended)

    def faulty(self, mutants):
        """Those of the mutants that the errors of a copy that was not checked point at."""
        places = {(found[1], int(found[2])) for found in map(AT_A_LINE.match, self.lines) if found}
        told = {(file, self.texts[file].splitlines()[line - 1].strip()) for file, line in places if file in self.texts}

        def is_told(file, new):
            return any(file == at and new.strip() and new.strip() in line for at, line in told)

        return [mutant for mutant in mutants if any(is_told(file, new) for file, _, new in mutant.changes)]

    def named(self, function):
        """The full names of a function in the report."""
        if function is None:
            return []
        owner, name = function
        ending = "::".join(part for part in (owner, name) if part)
        return [full for full in self.functions if full.split("::", 1)[1] == ending or full.endswith("::" + ending)]

    def refusal(self, full):
        """The verdict on a function that is not proved, with the goals that are open there."""
        said = self.functions[full]
        if NO_VERDICT.match(said):
            return Verdict(BY_A_LIMIT, full)
        inside = "proofs/" + "/".join(full.split("::")[1:]) + "/"
        told = [one[2] for one in self.errors if one[1].startswith(inside)]
        kept = [one for one in told if not GONE.search(one)]
        answered = [found[1] for found in map(GOAL.match, kept or told) if found]
        goals = tuple(dict.fromkeys([*self.open[full], *answered]))
        if told and not kept and not self.open[full]:
            return Verdict(BY_A_NAME, full, goals)
        by_a_limit = goals and all(goal.endswith(AT_A_LIMIT) for goal in goals)
        return Verdict(BY_A_LIMIT if by_a_limit else REFUSED, full, goals)

    def refusals(self, names):
        """The verdicts on those of the functions that are not proved, a plain refusal first."""
        said = self.functions
        wrong = [full for full in names if not PROVED.match(said[full]) and not CALLS.match(said[full])]
        return sorted(map(self.refusal, wrong), key=lambda verdict: verdict.word != REFUSED)

    @staticmethod
    def chosen(verdicts, clause):
        """The verdict on a mutant that is meant to be refused by this clause: where the clause is open, if it is."""
        compared = [verdict.by(clause) for verdict in verdicts]
        order = (REFUSED, BY_A_LIMIT, BY_A_NAME, ELSEWHERE)
        return min(compared, key=lambda verdict: order.index(verdict.word), default=None)

    def verdict(self, mutant):
        """The verdict on a mutant that is one of several; None if this report doesn't show it."""
        if any(len(self.named(function)) != 1 for function in mutant.functions):
            return None
        names = [full for function in mutant.functions for full in self.named(function)]
        return self.chosen(self.refusals(names), mutant.clause)

    def hides(self, mutant):
        """Whether the report says about a changed function only that it calls another that is not proved."""
        return any(CALLS.match(self.functions[full]) for function in mutant.functions for full in self.named(function))

    def alone(self, mutant):
        """The verdict on a mutant that was tried on its own. Failures in a function that the mutant itself adds aren't
        counted: it is what is left of the right body, under another name and without its `requires`."""
        told = self.verdict(mutant)
        if told:
            return told
        made = {name for _, old, new in mutant.changes for name in set(NAMED.findall(new)) - set(NAMED.findall(old))}
        others = self.refusals(full for full in self.functions if full.split("::")[-1] not in made)
        if others:
            return self.chosen(others, mutant.clause)
        if self.status and not self.refusals(self.functions):
            return Verdict(BAD, why=f"the check ends with status {self.status}, with each function proved")
        return Verdict(LET_THROUGH)


def judge(copy, mutants, found):
    """Tries these mutants in one copy; returns those that it hides. A mutant on its own whose function is still proved
    is tried again with the whole crate."""
    report = copy.check(mutants, is_whole=False)
    if len(mutants) == 1 and not (not report.unread() and report.verdict(mutants[0])):
        report = copy.check(mutants, is_whole=True)
    if report.unread():
        if len(mutants) == 1:
            found[mutants[0]] = Verdict(BAD, why=report.unread())
            return []
        at_fault = report.faulty(mutants) or mutants[: len(mutants) // 2]
        others = [mutant for mutant in mutants if mutant not in at_fault]
        groups = [[mutant] for mutant in at_fault] if len(at_fault) == len(mutants) else [at_fault, others]
        return [mutant for group in groups for mutant in judge(copy, group, found)]
    hidden = []
    for mutant in mutants:
        told = report.alone(mutant) if len(mutants) == 1 else report.verdict(mutant)
        if told:
            found[mutant] = told
        elif report.hides(mutant) and len(mutants) > 1:
            hidden.append(mutant)
        else:
            judge(copy, [mutant], found)
    return hidden


def judge_all(crate, mutants, words, compiler=None):
    """The verdict on each of these mutants of a crate."""
    found = {mutant: Verdict(BAD, why=mutant.why) for mutant in mutants if mutant.why}
    left = [mutant for mutant in mutants if not mutant.why]
    with Copy(crate, words, compiler) as copy:
        while left:
            chosen = copy.together(left)
            hidden = judge(copy, chosen, found)
            left = [mutant for mutant in left if mutant not in chosen or mutant in hidden]
            if len(hidden) == len(chosen):
                judge(copy, left[:1], found)
                left = left[1:]
    return found


def write_clause(mutant, verdict):
    """Adds the line `clause:` to the file of a mutant that has none and was refused; returns what it says."""
    clause = "" if mutant.clause or verdict.word != REFUSED else clause_of([*map(plain, verdict.goals)])
    if clause:
        first, _, rest = read_text(mutant.path).partition("\n")
        with open(mutant.path, "w", encoding="utf-8") as opened:
            opened.write(f"{first}\nclause: {clause}\n{rest}")
    return clause
