"""Three network namespaces for the router: host a, the router r, host b, joined by veths. Everything is made by this
program and is in these namespaces alone. They are removed at the end, also after an interrupt; every wait has a limit.

    a  a0 10.0.1.2 .. 10.0.1.17     r0 10.0.1.1  r      port 0
    b  b0 10.0.2.2                  r1 10.0.2.1  r      port 1
    b  b1 10.0.3.2, 10.0.9.9 on lo  r2 10.0.3.1  r      port 2"""
import ctypes
import json
import os
import select
import shutil
import signal
import socket
import struct
import subprocess
import sys
import tempfile
import threading
import time

TOP = os.path.dirname(os.path.dirname(os.path.dirname(os.path.abspath(__file__))))
CLONE_NEWNET = 0x40000000  # setns(2)
MAC = {"a0": "02:00:00:00:01:02", "b0": "02:00:00:00:02:02", "b1": "02:00:00:00:03:02",
       "r0": "02:00:00:00:01:01", "r1": "02:00:00:00:02:01", "r2": "02:00:00:00:03:01"}
LINKS = [("a", "a0", "r0"), ("b", "b0", "r1"), ("b", "b1", "r2")]
HOSTS = [f"10.0.1.{n}" for n in range(2, 18)]
# Prefix, port and neighbour of each route; those after the third are for examples/traffic.pcap.
ROUTES = [("10.0.1.0/24", 0, "a0"), ("10.0.2.0/24", 1, "b0"), ("10.0.3.0/24", 2, "b1"), ("10.2.0.0/16", 1, "b0"),
          ("10.1.0.0/16", 2, "b1"), ("10.1.2.3/32", 1, "b0"), ("198.51.100.0/24", 1, "b0"), ("203.0.113.0/25", 2, "b1")]


def settings(routes=(), buffers=8192, ring=1024, bits=24, groups=256):
    """Settings of the three ports, with these routes besides. pktkit reads them, too."""
    lines = [f"buffers = {buffers}", f"ring = {ring}", f"bits = {bits}", f"groups = {groups}", "room = 2048"]
    for port in range(3):
        lines += ["[[port]]", f'interface = "r{port}"', f'mac = "{MAC[f"r{port}"]}"']
        lines += [f'address = "10.0.{port + 1}.1/24"']
    for prefix, port, to in [*ROUTES, *routes]:
        lines += ["[[route]]", f'prefix = "{prefix}"', f"port = {port}", f'to = "{MAC[to]}"']
    return "\n".join(lines) + "\n"


def wait_for(what, seconds=20):
    """What a function returns, as soon as it is true."""
    end = time.monotonic() + seconds
    while not (found := what()):
        if time.monotonic() > end:
            raise TimeoutError(f"{what.__doc__ or what}: not within {seconds} seconds")
        time.sleep(0.002)
    return found


def ended(number, _):
    sys.exit(f"ended by {signal.Signals(number).name}")


class Net:
    """The namespaces, as a context: they are there inside it."""

    def __init__(self, seconds):
        if os.geteuid():
            sys.exit("it has to make network namespaces: run it as root")
        for program in ["ip", "ethtool", "iperf3", "tcpdump"]:
            if not shutil.which(program):
                sys.exit(f"there is no {program}: apt-get install iproute2 ethtool iperf3 tcpdump")
        self.name, self.seconds, self.started = f"hkr{os.getpid()}", seconds, []
        self.folder = tempfile.mkdtemp(prefix="router.")

    def __enter__(self):
        for number in [signal.SIGINT, signal.SIGTERM, signal.SIGHUP, signal.SIGALRM]:
            signal.signal(number, ended)
        signal.alarm(self.seconds)
        try:
            self.make()
        except BaseException:
            self.__exit__()
            raise
        return self

    def __exit__(self, *_):
        for number in [signal.SIGINT, signal.SIGTERM, signal.SIGHUP, signal.SIGALRM]:
            signal.signal(number, signal.SIG_IGN)
        for process in self.started:
            self.stop(process)
        for space in "arb":
            words = ["ip", "netns", "del", self.name + space]
            subprocess.run(words, stderr=subprocess.DEVNULL, timeout=20, check=False)
        shutil.rmtree(self.folder, ignore_errors=True)

    def make(self):
        for space in "arb":
            subprocess.run(["ip", "netns", "add", self.name + space], check=True, timeout=20)
            for key in ["ipv6.conf.all.disable_ipv6=1", "ipv6.conf.default.disable_ipv6=1", "ipv4.conf.all.rp_filter=0",
                        "ipv4.conf.default.rp_filter=0", "ipv4.ip_forward=0"]:
                self.on(space, "sysctl", "-qw", f"net.{key}")
            self.on(space, "ip", "link", "set", "lo", "up")
        for space, far, near in LINKS:
            peer = ["type", "veth", "peer", "name", near, "address", MAC[near], "netns", self.name + "r"]
            self.on(space, "ip", "link", "add", far, "address", MAC[far], *peer)
            for where, link in [(space, far), ("r", near)]:
                # a veth hands on packets without checksums and of several segments, which no wire does
                self.on(where, "ethtool", "-K", link, "tx", "off", "tso", "off", "gso", "off", "gro", "off")
                self.on(where, "ip", "link", "set", link, "mtu", "9000" if "a" == space else "1500")
                self.on(where, "ip", "link", "set", link, "up")
            net = {"a0": 1, "b0": 2, "b1": 3}[far]
            for host in HOSTS if far == "a0" else [f"10.0.{net}.2"]:
                self.on(space, "ip", "addr", "add", f"{host}/24", "dev", far)
            self.on("r", "ip", "addr", "add", f"10.0.{net}.1/24", "dev", near)
            self.on(space, "ip", "neigh", "add", f"10.0.{net}.1", "lladdr", MAC[near], "dev", far, "nud", "permanent")
        self.on("a", "ip", "route", "add", "default", "via", "10.0.1.1", "mtu", "1500")
        self.on("b", "ip", "route", "add", "default", "via", "10.0.2.1")
        self.on("b", "ip", "addr", "add", "10.0.9.9/32", "dev", "lo")

    def words(self, space, words):
        return ["ip", "netns", "exec", self.name + space, *words]

    def on(self, space, *words, seconds=20):
        """Runs a command in a namespace, and returns what it says."""
        done = subprocess.run(self.words(space, words), stdin=subprocess.DEVNULL, capture_output=True, text=True,
                              timeout=seconds, check=False)
        if done.returncode and words[0] != "iperf3":
            raise RuntimeError(f"{' '.join(words)}: {done.stdout}{done.stderr}")
        return done.stdout

    def start(self, space, *words, out=subprocess.DEVNULL, err=subprocess.DEVNULL):
        process = subprocess.Popen(self.words(space, words), stdin=subprocess.DEVNULL, stdout=out, stderr=err)
        self.started.append(process)
        return process

    def stop(self, process, number=signal.SIGTERM):
        """Ends a process that this program started, and returns its status."""
        if process.poll() is None:
            process.send_signal(number)
            try:
                process.wait(10)
            except subprocess.TimeoutExpired:
                process.kill()
                process.wait(10)
        return process.returncode

    def path(self, name):
        return os.path.join(self.folder, name)

    def inside(self, space, *words):
        """A socket of a namespace: it stays where it was made."""
        libc = ctypes.CDLL(None, use_errno=True)
        with open("/proc/self/ns/net", "rb") as here, open(f"/run/netns/{self.name}{space}", "rb") as there:
            if libc.setns(there.fileno(), CLONE_NEWNET):
                raise OSError(ctypes.get_errno(), "setns")
            try:
                return socket.socket(*words)
            finally:
                libc.setns(here.fileno(), CLONE_NEWNET)

    def raw(self, space, link):
        """A socket that sends frames through an interface."""
        made = self.inside(space, socket.AF_PACKET, socket.SOCK_RAW, 0)
        made.bind((link, 0))
        made.settimeout(2)
        return made


def checksum(text):
    """The Internet checksum (RFC 1071) of an even number of bytes."""
    total = sum(struct.unpack(f">{len(text) // 2}H", text))
    while total > 0xFFFF:
        total = (total & 0xFFFF) + (total >> 16)
    return total ^ 0xFFFF


class Pings(threading.Thread):
    """ICMP echo requests (RFC 792) from host a. Unlike ping, which waits for two round trips after its last request, it
    waits for each answer as long as it is told to."""

    def __init__(self, net, source, to, count, interval, size=56, wait=5):
        super().__init__(daemon=True)
        self.count, self.interval, self.size, self.wait, self.to = count, interval, size, wait, to
        self.sent, self.answers, self.id = 0, set(), int.from_bytes(os.urandom(2), "big")
        self.socket = net.inside("a", socket.AF_INET, socket.SOCK_RAW, socket.IPPROTO_ICMP)
        self.socket.bind((source, 0))

    def ask(self):
        """Sends the next request."""
        rest = struct.pack(">HH", self.id, self.sent) + bytes(self.size)
        self.socket.sendto(struct.pack(">BBH", 8, 0, checksum(b"\x08\0\0\0" + rest)) + rest, (self.to, 0))
        self.sent += 1

    def hear(self):
        """Takes an answer."""
        kind, _, _, number, sequence = struct.unpack_from(">BBHHH", self.socket.recv(4096), 20)
        if (kind, number) == (0, self.id):
            self.answers.add(sequence)

    def run(self):
        due, end = time.monotonic(), None
        while len(self.answers) < self.count and (not end or time.monotonic() < end):
            now = time.monotonic()
            if self.sent < self.count and now >= due:
                self.ask()
                due, end = now + self.interval, now + self.wait if self.sent == self.count else None
            if select.select([self.socket], [], [], max(0.0, (end or due) - time.monotonic()))[0]:
                self.hear()
        self.socket.close()

    def counts(self):
        """How many requests were sent and answered, once it has ended."""
        self.join(self.count * (self.interval + 0.05) + self.wait + 20)
        return self.sent, len(self.answers)


def ping(net, to, count=2000, interval=0.002, source=HOSTS[0], **other):
    """How many pings were sent and answered."""
    pings = Pings(net, source, to, count, interval, **other)
    pings.start()
    return pings.counts()


def iperf(net, seconds, *words):
    """What iperf3 found from host a to host b. It fails if its first datagram is lost, or if its server isn't ready."""
    words = ["iperf3", "-c", "10.0.2.2", "-J", "-t", str(seconds), *words]
    for _ in range(3):
        said = json.loads(net.on("a", *words, seconds=seconds + 60))
        if "error" not in said:
            return said["end"]
        time.sleep(1)
    raise RuntimeError(said["error"])


class Router:
    """A router that runs in the namespace r."""

    def __init__(self, net, program, workers=1, text=None):
        self.net, self.file = net, net.path("router.toml")
        self.out, self.err = (open(net.path(name), "w+", encoding="utf-8") for name in ("report", "said"))
        self.read, self.changes = 0, 0
        self.write(text or settings())
        self.process = net.start("r", program, self.file, str(workers), out=self.out, err=self.err)
        self.published(1)

    def write(self, text):
        with open(self.file + ".new", "w", encoding="utf-8") as file:
            file.write(text)
        os.replace(self.file + ".new", self.file)

    def said(self):
        with open(self.err.name, encoding="utf-8") as file:
            return file.read()

    def published(self, lines):
        def there():
            """the router says that it has routes"""
            if self.process.poll() is not None:
                raise RuntimeError(f"the router ended: {self.said()}")
            return self.said().count("\n") >= lines
        wait_for(there)
        self.changes = lines

    def change(self, text):
        """Changes the settings, and waits until the router says a line about them."""
        self.write(text)
        self.process.send_signal(signal.SIGHUP)
        self.published(self.changes + 1)

    def next_report(self):
        with open(self.out.name, encoding="utf-8") as file:
            file.seek(self.read)
            text = file.read()
        if "waiting" not in text or not text.endswith("\n"):
            return None
        self.read += len(text)
        return {line.rsplit(" ", 1)[0]: int(line.rsplit(" ", 1)[1]) for line in text.splitlines()}

    def report(self):
        """The counts now."""
        self.process.send_signal(signal.SIGUSR1)
        return wait_for(self.next_report)

    def settled(self, records=0):
        """The counts, as soon as there are so many records, no frame waits, and no count changes."""
        last = {}

        def quiet():
            """no frame waits in the router"""
            nonlocal last
            before, last = last, self.report()
            return last if last == before and not last["waiting"] and last["records"] >= records else time.sleep(0.03)
        return wait_for(quiet)

    def stop(self):
        """Ends it, and returns its status and its last report."""
        status = self.net.stop(self.process)
        last = self.next_report()
        self.out.close()
        self.err.close()
        return status, last
