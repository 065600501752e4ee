"""The calls of Slurm that `submit` makes."""
import re
import shutil
import subprocess
import sys
import time
from typing import NamedTuple

from parts import Refused

TOOLS = ("sbatch", "squeue", "scontrol", "scancel")
SECONDS = 60  # for an answer
SILENCES = 30  # how often in a row Slurm may not answer while its jobs are waited for
PAUSES = (0.2, 5.0)  # between two looks: the first one, and the longest
SECONDS_OF_A_LINE = 10  # between two lines of progress that go into a file and say nothing new but numbers


class Task(NamedTuple):
    job: str
    state: str
    reason: str


def call(*words):
    """What a program of Slurm prints."""
    try:
        done = subprocess.run(words, capture_output=True, text=True, timeout=SECONDS)
    except subprocess.TimeoutExpired:
        raise Refused(f"{words[0]} doesn't answer") from None
    if done.returncode:
        lines = [line for line in done.stderr.splitlines() if line]
        raise Refused(f"{words[0]}: {lines[-1] if lines else f'status {done.returncode}'}")
    return done.stdout


def limits():
    """The tasks that one array takes, and the jobs that Slurm keeps at a time."""
    for tool in TOOLS:
        if not shutil.which(tool):
            raise Refused(f"there is no {tool} here: this needs Slurm (--plan goes without)")
    config = dict(re.findall(r"^(\w+) *= *(\d+)\b", call("scontrol", "show", "config"), re.M))
    return int(config["MaxArraySize"]), int(config["MaxJobCount"])


def as_ranges(numbers):
    """Numbers in order, as Slurm writes them: 0-3,7."""
    found = []
    for number in numbers:
        if found and number == found[-1][1] + 1:
            found[-1][1] = number
        else:
            found.append([number, number])
    return ",".join(str(first) if first == last else f"{first}-{last}" for first, last in found)


def batches(numbers, most):
    """Numbers in order, for arrays whose indices are below `most`: what is added to an index, and the indices."""
    found = {}
    for number in numbers:
        found.setdefault(number // most * most, []).append(number % most)
    return found


def try_array(tasks, processors):
    """Refuses an array of so many tasks that no partition would run."""
    call("sbatch", "--test-only", "--array", f"0-{tasks - 1}", "--cpus-per-task", str(processors), "--wrap", "true")


def submit(folder, name, script, *options):
    """Submits a job in a folder, and returns its number. What its script doesn't catch goes into the log of Slurm."""
    said = call("sbatch", "--parsable", "--chdir", folder, "--job-name", name, "--open-mode", "append",
                "--output", "parts/log/slurm.log", *options, "--wrap", script)
    return said.split(";")[0].strip()


def cancel(jobs):
    """Cancels jobs."""
    if jobs:
        subprocess.run(["scancel", *jobs], timeout=SECONDS)


def tasks_of(*names):
    """The tasks of jobs of these names that are queued or running. One that is completing has left its results, and on
    a node that has died it stays for long."""
    said = call("squeue", "--noheader", "--array", "--name", ",".join(names), "--format", "%j|%T|%r")
    found = [Task(*line.split("|", 2)) for line in said.splitlines()]
    return [task for task in found if task.state != "COMPLETING"]


def ends_of(name, arrays):
    """How the tasks of arrays ended that Slurm still knows, such as NODE_FAIL, by their numbers. `arrays` has for each
    array what is added to an index."""
    said = call("squeue", "--noheader", "--array", "--states", "all", "--name", name, "--format", "%F|%K|%T")
    found = (line.split("|") for line in said.splitlines())
    return {arrays[job] + int(index): state for job, index, state in found if job in arrays and index.isdecimal()}


class Progress:
    """One line on standard error: at a terminal it is overwritten, in a file a new one follows when it changes."""

    def __init__(self):
        self.line, self.reasons, self.at = "", "", 0.0

    def show(self, line, reasons):
        terminal, now = sys.stderr.isatty(), time.monotonic()
        if line == self.line or not (terminal or reasons != self.reasons or now - self.at > SECONDS_OF_A_LINE):
            return
        print(f"\r\033[K{line}" if terminal else line, end="" if terminal else "\n", file=sys.stderr, flush=True)
        self.line, self.reasons, self.at = line, reasons, now

    def end(self):
        if self.line and sys.stderr.isatty():
            print("\r\033[K", end="", file=sys.stderr, flush=True)


def describe(tasks, name, done, count):
    """A line of progress, and why tasks are pending."""
    pending = [task for task in tasks if task.job == name and task.state != "RUNNING"]
    running = sum(task.job == name and task.state == "RUNNING" for task in tasks)
    reasons = ", ".join(sorted({task.reason for task in pending}))
    line = f"submit: {done} of {count} parts done; tasks: {running} running, {len(pending)} pending"
    return line + f" ({reasons})" * bool(pending), reasons


def wait(names, done, count, seconds):
    """Waits until no job of these names is left, the parts first, for so many seconds. `done` counts the parts that are
    done."""
    progress, end, pause, silences = Progress(), time.monotonic() + seconds, PAUSES[0], 0
    try:
        while time.monotonic() < end:
            try:
                tasks, silences = tasks_of(*names), 0
                if not tasks:
                    return
                progress.show(*describe(tasks, names[0], done(), count))
            except Refused as fault:
                silences += 1
                progress.show(f"submit: {fault}", str(fault))
                if silences == SILENCES:
                    raise
            time.sleep(pause)
            pause = min(pause * 1.1, PAUSES[1])
    finally:
        progress.end()
    raise Refused(f"the jobs aren't done after {seconds} seconds; they go on, and --resume --wait waits again")
