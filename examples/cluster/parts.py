"""A run in parts, as `submit` and `task` see it: the folder DIR/parts, in a place that every machine sees.

    plan           what is run: captures, their parts, the checksum of the settings, the program; it never changes
    settings.toml  a copy of the settings
    marks/N        the mark of part N: sizes and checksums of its outputs, written when they are complete
    log/           what the tasks of part N printed, in N.log, and what Slurm said, in slurm.log
    trying/        attempts in progress, and those that were in progress when a machine stopped
    lock           held by a `submit` that submits jobs
    task parts.py  copies of these scripts, so that a machine needs nothing else

The outputs are beside it: DIR/NAME.0.pcap and so on and DIR/NAME.report for the part NAME, and DIR/report, the sum."""
import json
import os
import signal
import subprocess
import sys
import tempfile
from typing import NamedTuple, Optional

HEADER = 24  # the bytes of a capture's header
WRITTEN = 1 << 20  # the bytes of a write that asks whether there is room
STANDARD_INPUT = "/dev/stdin"  # how `pktkit run --in` is told to read it


class Refused(Exception):
    """Why something isn't done, in a line."""


class Capture(NamedTuple):
    file: str
    size: Optional[int]  # None for a name that only the filter understands
    changed: Optional[int]  # the time of its last change, in nanoseconds


class Part(NamedTuple):
    name: str
    capture: int
    start: int  # its first byte, and
    length: Optional[int]  # how many; None for the whole capture


class Plan(NamedTuple):
    job: str  # the name of its jobs, which no other run has
    config: str  # where the settings were
    settings: str  # their checksum
    program: str
    version: str  # what it prints with --version
    ports: int
    workers: int
    filter: Optional[str]
    captures: list
    parts: list

    def outputs(self, part):
        """The names of a part's outputs, the report last."""
        return [f"{part.name}.{port}.pcap" for port in range(self.ports)] + [f"{part.name}.report"]


def checksums(files):
    """The checksum and the size of each file, by cksum, which takes a tenth of the time of a run. It detects damage and
    mistakes; a cryptographic checksum costs several times as much."""
    done = subprocess.run(["cksum", "--", *files], capture_output=True, text=True, errors="surrogateescape")
    if done.returncode:
        raise Refused(done.stderr.splitlines()[0])
    return [" ".join(line.split(" ", 2)[:2]) for line in done.stdout.splitlines()]


def checksum_of(text):
    """The same of a text."""
    return subprocess.run(["cksum"], input=text.encode(), capture_output=True, check=True).stdout.decode().strip()


def write_whole(file, text):
    """Writes a file under another name, and renames it once the disk has it: nobody sees half of it."""
    new = f"{file}.{os.getpid()}.new"
    try:
        with open(new, "w", encoding="utf-8") as opened:
            opened.write(text)
            opened.flush()
            os.fsync(opened.fileno())
        os.rename(new, file)
    finally:
        if os.path.exists(new):
            os.remove(new)


def write_plan(folder, plan):
    """The plan is a document behind its own checksum."""
    body = json.dumps(plan._asdict(), indent=1) + "\n"
    write_whole(os.path.join(folder, "plan"), f"{checksum_of(body)}\n{body}")


def read_plan(folder):
    file = os.path.join(folder, "plan")
    try:
        with open(file, encoding="utf-8") as opened:
            checksum, _, body = opened.read().partition("\n")
    except (OSError, ValueError) as fault:
        raise Refused(f"there is no plan in {folder}: submit makes it") from fault
    if checksum != checksum_of(body):
        raise Refused(f"{file} was changed after submit wrote it")
    plan = Plan(**json.loads(body))
    captures, found = [Capture(*each) for each in plan.captures], [Part(*each) for each in plan.parts]
    return plan._replace(captures=captures, parts=found)


def version_of(program):
    """What a program says that it is."""
    try:
        return subprocess.run([program, "--version"], capture_output=True, text=True, check=True).stdout.strip()
    except (OSError, subprocess.CalledProcessError) as fault:
        raise Refused(f"{program} doesn't run on {os.uname().nodename}: {fault}") from fault


def identity(file):
    """A capture is known by its size and the time of its last change: to read it twice would take longer."""
    try:
        found = os.stat(file)
    except OSError as fault:
        raise Refused(f"the capture {file} can't be read: {fault.strerror}") from fault
    return Capture(file, found.st_size, found.st_mtime_ns)


def check_capture(capture):
    """Refuses a capture that isn't the one that was submitted."""
    if capture.size is None:
        return
    now = identity(capture.file)
    if now.size > capture.size:
        raise Refused(f"the capture {capture.file} has grown from {capture.size} to {now.size} bytes since submit:"
                      " it is still being written")
    if now != capture:
        raise Refused(f"the capture {capture.file} has changed since submit")


def check_settings(plan, folder):
    """Refuses settings that aren't those that were submitted: the copy, and the file of which it is one if that is
    still there."""
    for file in (os.path.join(folder, "settings.toml"), plan.config):
        if os.path.exists(file) and checksums([file]) != [plan.settings]:
            raise Refused(f"the settings {file} have changed since submit")


def check_program(plan):
    """Refuses a program of another version."""
    version = version_of(plan.program)
    if version != plan.version:
        was, now = (" ".join(text.splitlines()[:2]) for text in (plan.version, version))
        raise Refused(f"{plan.program} has changed since submit: it was {was} and it is {now}")


def mark_of(plan, part, folder):
    """The mark of a part whose outputs are in a folder."""
    names = plan.outputs(part)
    found = checksums([os.path.join(folder, name) for name in names])
    return json.dumps({"run": plan.job, "outputs": dict(zip(names, found))}, indent=1) + "\n"


def read_mark(plan, number, folder):
    """The sizes and checksums that the outputs of a part have to have."""
    try:
        with open(os.path.join(folder, "marks", str(number)), encoding="utf-8") as opened:
            mark = json.load(opened)
        wanted = mark["outputs"]
        if mark["run"] == plan.job and list(wanted) == plan.outputs(plan.parts[number]):
            return wanted
    except OSError:
        raise Refused("it isn't done") from None
    except (ValueError, KeyError, TypeError):
        pass
    raise Refused("its mark is damaged")


def check_outputs(folder, wanted, names, whole):
    """Refuses outputs that aren't those of the mark. Without `whole` only their sizes are compared."""
    beside = os.path.dirname(folder)
    for name in names:
        file, size = os.path.join(beside, name), int(wanted[name].split()[1])
        if not os.path.isfile(file):
            raise Refused(f"{name} is missing")
        if os.path.getsize(file) != size:
            raise Refused(f"{name} has {os.path.getsize(file)} bytes, and had {size} when it was written")
    if whole and names:
        found = checksums([os.path.join(beside, name) for name in names])
        for name, checksum in zip(names, found):
            if checksum != wanted[name]:
                raise Refused(f"{name} isn't what was written there: its checksum differs")


def fault_of(plan, number, folder, whole):
    """Why a part has to be run, or None: its mark isn't there, or its outputs aren't those of the mark. Without `whole`
    captures are known by their sizes."""
    try:
        wanted = read_mark(plan, number, folder)
        names = list(wanted)
        check_outputs(folder, wanted, names, whole)
        check_outputs(folder, wanted, names[-1:], True)
    except Refused as fault:
        return str(fault)
    return None


def write_fault(folder):
    """What the system says of a write into a folder, or nothing if it takes one: pktkit says only that one failed, and
    on a full disk there is no log."""
    try:
        with tempfile.TemporaryFile(dir=folder) as opened:
            opened.write(bytes(WRITTEN))
            opened.flush()
            os.fsync(opened.fileno())
    except OSError as fault:
        return fault.strerror
    return ""


def end_on_signals():
    """Lets `finally` run when a signal ends this process."""
    for each in (signal.SIGTERM, signal.SIGINT, signal.SIGHUP):
        signal.signal(each, lambda number, _: sys.exit(128 + number))
