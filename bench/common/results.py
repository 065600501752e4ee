"""Results of the benchmarks (bench/results/NAME.tsv), and the bounds of their rows (bench/bounds.tsv)."""
import collections
import datetime
import os
import re
import subprocess
import sys
from typing import NamedTuple

BENCH = os.path.dirname(os.path.dirname(os.path.abspath(__file__)))
BOUNDS = os.path.join(BENCH, "bounds.tsv")
NONE = "-"


class Area(NamedTuple):
    slug: str  # in bounds.tsv, in the marks of docs/PERFORMANCE.md and in the name of the plot
    title: str
    names: list  # of the benchmarks whose rows it has


# In the order of docs/PERFORMANCE.md. An area without a file of results is left out.
AREAS = [
    Area("rings", "Rings", ["ring"]),
    Area("calls", "Whole calls", ["calls"]),
    Area("pool", "Pool", ["pool"]),
    Area("packets", "Packets", ["mbuf"]),
    Area("routes", "Routes", ["lpm"]),
    Area("forwarding", "Forwarding", ["ipv4"]),
    Area("reorder", "Reorder window", ["reorder"]),
    Area("captures", "Captures", ["pcapio"]),
    Area("run", "A run", ["run"]),
    Area("workers", "Workers", ["workers"]),
    Area("command-files", "Command files", ["ring_text", "steps_text"]),
    Area("c-library", "C library", ["capi"]),
]


class Row(NamedTuple):
    """A line of a file of results. All fields are text, `-` where there is nothing."""
    what: str  # in words, of its own in its area
    part: str  # the group of rows in the plot and in the summary
    here: str
    against: str  # what it is compared with
    yardstick: str  # the figure of that
    unit: str  # of both figures
    ratio: str  # here / yardstick
    rounds: str
    commit: str  # of the code that was measured; with a `+` if it had changes that weren't committed
    machine: str
    date: str
    series: str = "1"  # which of the series of this commit


class Merged(NamedTuple):
    """What all series say of a row."""
    row: Row  # of the series whose ratio, or figure, is the median
    low: str  # the least ratio or figure
    high: str
    series: int  # how many there are

    def __getattr__(self, name):
        return getattr(self.row, name)


class Bound(NamedTuple):
    """How far the ratio may go, or `here` in a row without a ratio; and where it should get."""
    bound: float
    aim: float  # None if there is no aim


def area_of(name):
    """The area of a benchmark's rows; its name if it has none."""
    return next((area.slug for area in AREAS if name in area.names), name)


def lines_of(path):
    """The lines of a TSV file without comments and blank ones, each as its fields."""
    with open(path, encoding="utf-8") as file:
        lines = [line.rstrip("\n") for line in file]
    return [line.split("\t") for line in lines if line.strip() and not line.startswith("#")]


def bounds_of(area):
    """The bounds of an area: {what: Bound}."""
    found = {}
    for slug, what, bound, aim in lines_of(BOUNDS):
        if slug == area:
            found[what] = Bound(float(bound), None if aim == NONE else float(aim))
    return found


def more_is_better(unit):
    """Whether a row counts how much is done in a time, so that its bound is the least ratio and not the greatest."""
    return unit.endswith("/s")


def within(value, unit, bound):
    return value >= bound if more_is_better(unit) else value <= bound


def judged(row):
    """The number of a row that its bound is for."""
    return number_in(row.here if row.ratio == NONE else row.ratio)


def number_in(text):
    return float(text.replace(",", ""))


def in_digits(value):
    """Four significant digits, and no fraction from 1,000 on."""
    return f"{value:.0f}" if abs(value) >= 1000 else f"{value:.4g}"


def folder():
    """Where the files of results are: BENCH_RESULTS names another folder."""
    return os.environ.get("BENCH_RESULTS") or os.path.join(BENCH, "results")


def file_of(name):
    return os.path.join(folder(), f"{name}.tsv")


def read(name):
    """The rows of a benchmark, of all series; none if there is no file."""
    if not os.path.exists(file_of(name)):
        return []
    head, *rows = lines_of(file_of(name))
    # A file from before there were series has no column for them.
    if list(Row._fields)[: len(head)] != head or len(head) < 11 or any(len(row) != len(head) for row in rows):
        raise SystemExit(f"{file_of(name)}: a line hasn't the columns {', '.join(Row._fields)}")
    return [Row(*row) for row in rows]


def merged(rows):
    """A row for each `what`, in order: the series with the median ratio, the lower one of an even number."""
    found = {}
    for row in rows:
        found.setdefault(row.what, []).append(row)
    for own in found.values():
        own.sort(key=judged)
        texts = [row.here if row.ratio == NONE else row.ratio for row in own]
        yield Merged(own[(len(own) - 1) // 2], texts[0], texts[-1], len(own))


# What of the repository a measurement depends on.
MEASURED = ["crates", "crates.txt", "c", "bench", ":!bench/results"]


def git(*words):
    """What git says at the top of the repository; None if it fails."""
    done = subprocess.run(["git", *words], cwd=os.path.dirname(BENCH), capture_output=True, text=True)
    return done.stdout.strip() if done.returncode == 0 else None


def commit():
    """The last commit that changed what is measured."""
    changed = git("status", "--porcelain", "--", *MEASURED)
    return (git("log", "-1", "--format=%h", "--abbrev=7", "--", *MEASURED) or NONE) + ("+" if changed else "")


def unknown_commits():
    """Each commit in a file of results that git doesn't know, with the file. None is looked up without a repository, or
    in one that has only the latest commits."""
    if git("rev-parse", "--is-shallow-repository") != "false":
        return
    for name in (name for area in AREAS for name in area.names):
        for named in sorted({row.commit.rstrip("+") for row in read(name)} - {NONE}):
            if git("cat-file", "-e", f"{named}^{{commit}}") is None:
                yield os.path.relpath(file_of(name), os.path.dirname(BENCH)), named


def machine():
    """The processor's model, how many of them there are for this process, and the load."""
    model = NONE
    try:
        with open("/proc/cpuinfo", encoding="utf-8") as file:
            model = next((line.split(":", 1)[1].strip() for line in file if line.startswith("model name")), NONE)
    except OSError:
        pass
    model = re.sub(r"\((R|TM)\)", "", model)
    return f"{model}, {len(os.sched_getaffinity(0))} processors, load {os.getloadavg()[0]:.1f}"


def of_area(area):
    """The rows of an area."""
    return [row for name in area.names for row in merged(read(name))]


class Results:
    """The rows of one benchmark while it is measured. `write` makes the file."""

    def __init__(self, name, rounds):
        self.name, self.rounds, self.rows = name, rounds, []
        self.bounds = bounds_of(area_of(name))
        self.kept = True
        self.common = (commit(), machine(), datetime.date.today().isoformat())

    def add(self, what, here, unit, against=NONE, yardstick=None, part=NONE, rounds=None, compared=True):
        """Adds a row: `yardstick` is the figure of `against`, None if there is none, and the row has their ratio if the
        two are compared. Returns whether it is within its bound, as a row without one is."""
        ratio = here / yardstick if yardstick and compared else None
        self.rows.append(Row(what, part, in_digits(here), against, in_digits(yardstick) if yardstick else NONE, unit,
                             f"{ratio:.3f}" if ratio is not None else NONE, str(rounds or self.rounds), *self.common))
        bound = self.bounds.get(what)
        kept = bound is None or within(here if ratio is None else ratio, unit, bound.bound)
        self.kept = self.kept and kept
        return kept

    def bound(self, what):
        """The bound of a row; None if it has none."""
        return self.bounds[what].bound if what in self.bounds else None

    def write(self):
        """Adds a series to the file of results, or begins a new file if that is of another commit. Rows that are in it
        and weren't measured now are of fewer series, or gone: it says which."""
        twice = [what for what, count in collections.Counter(row.what for row in self.rows).items() if count > 1]
        if twice:
            raise SystemExit(f"bench: two rows are called {twice[0]}")
        old = read(self.name)
        before = [row for row in old if row.commit == self.common[0] and not row.commit.endswith("+")]
        series = 1 + max([int(row.series) for row in before], default=0)
        missed = {row.what for row in old} - {row.what for row in self.rows}
        os.makedirs(folder(), exist_ok=True)
        with open(file_of(self.name), "w", encoding="utf-8") as file:
            for row in [Row._fields, *before, *(row._replace(series=str(series)) for row in self.rows)]:
                file.write("\t".join(row) + "\n")
        print(f"bench: series {series}, {len(self.rows)} rows, in {os.path.relpath(file_of(self.name))}",
              file=sys.stderr)
        for what in sorted(missed):
            print(f"bench: not measured: {what}", file=sys.stderr)
