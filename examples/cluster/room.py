"""The room of the trials: a folder with captures, commands with a time limit that use the Slurm there, and what single
runs of `pktkit` leave, with which the runs of the cluster scripts are compared."""
import os
import shutil
import struct
import subprocess
import tempfile
import time

HERE = os.path.dirname(os.path.realpath(__file__))
EXAMPLES = os.path.dirname(HERE)
CONFIG = os.path.join(EXAMPLES, "router.toml")
MAKE = os.path.join(EXAMPLES, "make_traffic.py")
SECONDS = 400  # for a command
PAUSE = 0.2
RECORDS = 400
LISTENS = "0A"  # the state of a socket in /proc/net/tcp
NAMES = ("hour 1", "hour%2", "hour\\3", "höur'4", "-hour5", "hour6.a", 'hour"7', "$hour8", "hour9", "hour10", "hour11",
         "hour12")


class Failed(Exception):
    """What wasn't as it has to be."""


def expect(holds, what):
    if not holds:
        raise Failed(what)


def read(file):
    with open(file, "rb") as opened:
        return opened.read()


def write(file, data):
    with open(file, "wb") as opened:
        opened.write(data)


def links_of(folder):
    """Where the links of a folder lead, those that are gone by now left out."""
    found = []
    try:
        for name in os.listdir(folder):
            found.append(os.readlink(os.path.join(folder, name)))
    except OSError:
        pass
    return found


def until(holds, what):
    """Waits for something, for a limited time."""
    end = time.monotonic() + SECONDS
    while time.monotonic() < end:
        if holds():
            return
        time.sleep(PAUSE)
    raise Failed(f"this doesn't come: {what}")


# Captures


def other_order(capture, nano):
    """The same capture in big-endian order, in microseconds or nanoseconds."""
    magic = 0xA1B23C4D if nano else 0xA1B2C3D4
    made, at = [struct.pack(">IHHIIII", magic, *struct.unpack_from("<HHIIII", capture, 4))], 24
    while at + 16 <= len(capture):
        record = struct.unpack_from("<IIII", capture, at)
        made += [struct.pack(">IIII", *record), capture[at + 16 : at + 16 + record[2]]]
        at += 16 + record[2]
    return b"".join(made)


def nanoseconds(capture):
    """The same capture, with times that are read as nanoseconds."""
    return struct.pack("<I", 0xA1B23C4D) + capture[4:]


class Room:
    """The folder of the trials, its Slurm, and what single runs leave."""

    def __init__(self, folder, program):
        self.folder, self.program, self.made = folder, program, 0
        self.env = {**os.environ, "PKTKIT": program, "SLURM_CONF": self.at("slurm", "slurm.conf"), "TMPDIR": folder}
        self.captures = []
        os.mkdir(self.at("captures"))
        for number, name in enumerate(NAMES, 1):
            self.captures.append(self.at("captures", f"{name}.pcap"))
            subprocess.run([MAKE, self.captures[-1], str(RECORDS), str(number)], check=True, stdout=subprocess.DEVNULL)

    def at(self, *names):
        return os.path.join(self.folder, *names)

    def new(self):
        """A folder that doesn't exist yet."""
        self.made += 1
        return self.at(f"out{self.made}")

    def run(self, *words, **more):
        """A command: its status and what it printed."""
        done = subprocess.run(words, stdout=subprocess.PIPE, stderr=subprocess.STDOUT, stdin=subprocess.DEVNULL,
                              text=True, errors="backslashreplace", cwd=self.folder, timeout=SECONDS,
                              env={**self.env, **more})
        return done.returncode, done.stdout

    def submit(self, *words, **more):
        return self.run(os.path.join(HERE, "submit"), *words, **more)

    def local(self, what, *words):
        """Starts, stops, kills or revives the Slurm of the room, or a node of it."""
        status, said = self.run(os.path.join(HERE, "local"), what, self.at("slurm"), *words)
        expect(status == 0, said)

    def listening(self):
        """The addresses on which the processes listen that have a log of this Slurm open, as the system writes them."""
        inodes = set()
        for number in filter(str.isdecimal, os.listdir("/proc")):
            links = links_of(f"/proc/{number}/fd")
            if any(link.startswith(self.at("slurm", "log")) for link in links):
                inodes |= {link[8:-1] for link in links if link.startswith("socket:[")}
        lines = (read("/proc/net/tcp") + read("/proc/net/tcp6")).decode().splitlines()
        sockets = [line.split() for line in lines if not line.lstrip().startswith("sl")]
        return [line[1].split(":")[0] for line in sockets if line[3] == LISTENS and line[9] in inodes]

    def begin(self, out, *words, **more):
        """A new run."""
        return self.submit("--config", CONFIG, "--out", out, *words, **more)

    def done(self, out, *words, **more):
        """One that has to succeed."""
        status, said = self.begin(out, "--wait", *words, **more)
        expect(status == 0, f"submit ends with {status}: {said}")

    def resumed(self, out, *words, **more):
        """A resume that has to succeed. Returns what it said."""
        status, said = self.submit("--resume", "--out", out, "--wait", *words, **more)
        expect(status == 0, f"--resume ends with {status}: {said}")
        return said

    def refused(self, said, cause):
        """A refusal has to name the cause. Returns the line that does."""
        status, text = said
        lines = [line for line in text.splitlines() if cause in line]
        expect(status != 0, f"it isn't refused: {text}")
        expect(lines, f"{cause} isn't named: {text}")
        return "refused: " + lines[0].replace(self.folder + "/", "").split(": ", 1)[-1]

    def alone(self, capture):
        """What one run leaves: the bytes of each port, and the report."""
        folder = tempfile.mkdtemp(dir=self.folder)
        words = ["--config", CONFIG, "--in", capture, "--out", os.path.join(folder, "out"), "--workers", "0"]
        report = subprocess.run([self.program, "run", *words], check=True, capture_output=True).stdout
        left = [read(os.path.join(folder, f"out.{port}.pcap")) for port in (0, 1)]
        shutil.rmtree(folder)
        return left, report

    def sums(self, reports):
        """The sum of reports, by the meaning of their lines."""
        found = [dict(line.rsplit(" ", 1) for line in report.decode().splitlines()) for report in reports]
        torn = "yes" if any(each["torn"] == "yes" for each in found) else "no"
        return "".join(f"{name} {torn if name == 'torn' else sum(int(each[name]) for each in found)}\n"
                       for name in found[0]).encode()

    def same(self, out, captures=None, name=lambda file: os.path.basename(file).split(".pcap")[0]):
        """Each capture's outputs have to be those of a run of its own, and the report their sum."""
        captures = captures or self.captures
        reports = []
        for capture in captures:
            left, report = self.alone(capture)
            reports.append(report)
            for port, wanted in enumerate(left):
                found = read(os.path.join(out, f"{name(capture)}.{port}.pcap"))
                expect(found == wanted, f"{capture}: port {port} differs")
            expect(read(os.path.join(out, f"{name(capture)}.report")) == report, f"{capture}: the report differs")
        expect(read(os.path.join(out, "report")) == self.sums(reports), "the sum differs")
        self.nothing_left(out)

    def nothing_left(self, out):
        """No attempt is left, and no file under another name."""
        inside = os.path.join(out, "parts")
        left = os.listdir(os.path.join(inside, "trying"))
        left += [name for name in os.listdir(out) + os.listdir(inside) if ".new" in name or "joining" in name]
        expect(not left, f"{left} are left")

    def same_in_one(self, out, capture):
        """The joined ports and the sum have to be those of one run over a capture."""
        left, report = self.alone(capture)
        for port, wanted in enumerate(left):
            expect(read(os.path.join(out, f"{port}.pcap")) == wanted, f"joined port {port} differs")
        expect(read(os.path.join(out, "report")) == report, "the sum differs")
        self.nothing_left(out)

    def tasks(self):
        """How many tasks are queued or running."""
        return len(self.run("squeue", "--noheader", "--array", "--states", "PENDING,RUNNING")[1].splitlines())

    def processes(self, word):
        """The processes with this word in their command lines, those of the trials themselves left out."""
        found = []
        for number in filter(str.isdecimal, os.listdir("/proc")):
            try:
                line = read(f"/proc/{number}/cmdline")
            except OSError:
                continue
            if word.encode() in line and int(number) != os.getpid():
                found.append(number)
        return found

    def program_that(self, before="", after=""):
        """A pktkit that does something before and after each run, and behaves as the real one."""
        self.made += 1
        file = self.at(f"pktkit{self.made}")
        write(file, f"""#!/usr/bin/env bash
[[ $1 == run ]] || exec '{self.program}' "$@"
{before}
'{self.program}' "$@" || exit
{after}
""".encode())
        os.chmod(file, 0o755)
        return file

    def program_that_waits(self, gate, where):
        """One that waits on a node, once its outputs are written, while the file `gate` is there: 2 minutes at most."""
        write(gate, b"")
        return self.program_that(after=f"""{where} || exit 0
touch '{gate}.held'
for ((turn = 0; turn < 1200; turn++)); do [[ -e '{gate}' ]] || exit 0; sleep 0.1; done""")

    def begun(self, out, *words, gate, where="[[ -n ${SLURMD_NODENAME:-} ]]", captures=None):
        """Starts a run whose tasks wait at a gate. Returns once one does."""
        started = subprocess.Popen(
            [os.path.join(HERE, "submit"), "--config", CONFIG, "--out", out, *words, *(captures or self.captures)],
            cwd=self.folder, stdin=subprocess.DEVNULL, stdout=subprocess.PIPE, stderr=subprocess.STDOUT, text=True,
            env={**self.env, "PKTKIT": self.program_that_waits(gate, where)})
        until(lambda: os.path.exists(f"{gate}.held") or started.poll() is not None, "a task that waits")
        expect(os.path.exists(f"{gate}.held"), "submit ended before a task began")
        return started
