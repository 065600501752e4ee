"""What a run of `pktkit` has to leave, computed from the public rules alone: the format of captures, routes by the
longest prefix, the verdict on a frame, and the report (docs/RUN.md, docs/SETTINGS.md). Nothing here is taken from what
the program prints: the tools that test it compare its files with these."""
import struct
from typing import NamedTuple

MICRO, NANO = 0xA1B2C3D4, 0xA1B23C4D
CAPTURED = 262_144  # the most bytes that a record header may announce
SEGMENTS = 64  # the most segments of a packet
IPV4, TAG = 0x0800, 0x8100
REASONS = ("short", "not-ipv4", "bad-header", "bad-length", "bad-checksum", "expired", "no-route")


class Route(NamedTuple):
    """A route, with its address as a number."""

    address: int
    depth: int
    port: int
    to: bytes


class Settings:
    """The settings of a run: `numbers` are the numeric keys, `sources` the address of each port."""

    def __init__(self, numbers, sources, routes):
        self.numbers, self.sources, self.routes = numbers, sources, routes
        self.room = numbers.get("room", 2048)
        # by depth, the deepest first; a later route with the same prefix replaces the earlier one
        self.by_depth = {depth: {} for depth in sorted({route.depth for route in routes}, reverse=True)}
        for route in routes:
            self.by_depth[route.depth][route.address >> (32 - route.depth)] = route

    def route_to(self, address):
        """The route of the longest prefix that contains an address, or None."""
        for depth, routes in self.by_depth.items():
            route = routes.get(address >> (32 - depth))
            if route:
                return route
        return None

    def text(self):
        """The settings as a document."""
        lines = [f"{key} = {number}" for key, number in self.numbers.items()]
        for source in self.sources:
            lines += ["[[port]]", f'mac = "{source.hex(":")}"']
        for route in self.routes:
            prefix = ".".join(str(byte) for byte in route.address.to_bytes(4, "big"))
            lines += ["[[route]]", f'prefix = "{prefix}/{route.depth}"', f"port = {route.port}"]
            lines += [f'to = "{route.to.hex(":")}"']
        return "\n".join([*lines, ""])


class Left(NamedTuple):
    """What a run leaves: the bytes of each port's file, and the report, or a fault instead of it."""

    ports: list
    report: str
    fault: str
    begun: int  # how many records have a whole header


def complement_of_sum(header):
    """The Internet checksum (RFC 1071) of a header with an even number of bytes: 0 if the right one stands there."""
    total = sum(struct.unpack(f">{len(header) // 2}H", header))
    while total > 0xFFFF:
        total = (total & 0xFFFF) + (total >> 16)
    return total ^ 0xFFFF


def reason_to_drop(frame, wire, at, kind):
    """Why a frame is dropped whose packet begins at `at`, after the type `kind`: the first rule that holds, or None.
    The fields are those of RFC 791, section 3.1; the tests are those of RFC 1812, sections 5.2.2 and 5.3.1."""
    if kind != IPV4:
        return "not-ipv4"
    if len(frame) < at + 20:
        return "short"
    version, words = frame[at] >> 4, frame[at] & 15
    if version != 4 or words < 5:
        return "bad-header"
    if len(frame) < at + 4 * words:
        return "short"
    total = int.from_bytes(frame[at + 2 : at + 4], "big")
    if total < 4 * words or total > wire - at:
        return "bad-length"
    if complement_of_sum(frame[at : at + 4 * words]) != 0:
        return "bad-checksum"
    return "expired" if frame[at + 8] < 2 else None


def judge(settings, frame, wire):
    """The line of the report that counts a frame, the frame as it is sent, if it is, and whether it is tagged. One tag
    (IEEE 802.1Q) is kept: its type, its value, and then the type of what follows."""
    if len(frame) < 14:
        return "short", None, False
    at, kind = 14, int.from_bytes(frame[12:14], "big")
    tagged = kind == TAG
    if tagged:
        if len(frame) < 18:
            return "short", None, False
        at, kind = 18, int.from_bytes(frame[16:18], "big")
    reason = reason_to_drop(frame, wire, at, kind)
    if reason:
        return reason, None, False
    route = settings.route_to(int.from_bytes(frame[at + 16 : at + 20], "big"))
    if route is None:
        return "no-route", None, False
    end = at + 4 * (frame[at] & 15)
    header = bytearray(frame[at:end])
    header[8] -= 1
    header[10:12] = b"\0\0"
    header[10:12] = complement_of_sum(header).to_bytes(2, "big")
    sent = b"".join((route.to, settings.sources[route.port], frame[12:at], header, frame[end:]))
    return f"port {route.port}", sent, tagged


def report_of(counts, ports, torn):
    """The report."""
    lines = ["records", "oversize", *(f"port {port}" for port in range(ports)), *REASONS, "tagged"]
    return "".join(f"{line} {counts.get(line, 0)}\n" for line in lines) + f"torn {'yes' if torn else 'no'}\n"


def resolution_of(capture):
    """The byte order of a capture, as `struct` has it, and its magic number. None if it has neither of the two."""
    for order in "<>":
        magic = struct.unpack_from(order + "I", capture)[0] if len(capture) >= 24 else 0
        if magic in (MICRO, NANO):
            return order, magic
    return None


def fault_of_header(order, capture):
    """Why the header of a capture is refused: any version but 2.4, any link type but Ethernet in its low 16 bits."""
    major, minor, *_, link = struct.unpack_from(order + "HHIIII", capture, 4)
    if (major, minor) != (2, 4):
        return "capture BadVersion"
    return None if link & 0xFFFF == 1 else "capture BadLink"


def run_over(settings, capture, lines=None):
    """What a run over a capture leaves. `lines` receives the line of the report that counts each record."""
    ports = len(settings.sources)
    found = resolution_of(capture)
    fault = fault_of_header(found[0], capture) if found else "capture NotPcap"
    if fault:
        return Left([b""] * ports, "", fault, 0)
    order, magic = found
    files = [[struct.pack("<IHHIIII", magic, 2, 4, 0, 0, CAPTURED, 1)] for _ in range(ports)]
    counts, begun, at, torn = {}, 0, 24, False
    while at < len(capture):
        if len(capture) < at + 16:
            torn = True
            break
        seconds, fraction, captured, original = struct.unpack_from(order + "IIII", capture, at)
        begun += 1
        if captured > CAPTURED:
            fault = "capture BadRecord"
            break
        frame = capture[at + 16 : at + 16 + captured]
        if len(frame) < captured:
            torn = True
            break
        at += 16 + captured
        wire = max(captured, original)
        line, sent, tagged = "oversize", None, False
        if captured <= SEGMENTS * settings.room:
            line, sent, tagged = judge(settings, frame, wire)
        if lines is not None:
            lines.append(line)
        for name in ("records", line, *(["tagged"] if tagged else [])):
            counts[name] = counts.get(name, 0) + 1
        if sent:
            files[int(line.split()[1])] += [struct.pack("<IIII", seconds, fraction, captured, wire), sent]
    report = "" if fault else report_of(counts, ports, torn)
    return Left([b"".join(file) for file in files], report, fault, begun)
