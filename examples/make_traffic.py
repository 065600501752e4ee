#!/usr/bin/env python3
"""Makes a capture that shows everything that `pktkit run` does with a frame under the settings of router.toml.

    examples/make_traffic.py OUT [COUNT [SEED]]

writes COUNT records (default 300) into the file OUT, the same ones each time for a SEED (default 1), and prints the
expected report of a run on it. The first records are one of each kind, in the order of KINDS at the end; the others are
drawn at random.

Each kind of frame is a function of the dice, and says which line of the report should count it."""
import ipaddress
import random
import struct
import sys
from typing import NamedTuple

ROOM = 64  # as in router.toml
MAX_RECORD = 64 * ROOM  # the longest record that isn't oversize
SNAPLEN = 96  # how many bytes a capture that cuts its records keeps of each

IPV4, IPV6, ARP, TAG = 0x0800, 0x86DD, 0x0806, 0x8100
REASONS = ["short", "not-ipv4", "bad-header", "bad-length", "bad-checksum", "expired", "no-route"]


class Record(NamedTuple):
    captured: bytes
    original: int  # the length of the frame on the wire
    line: str  # the line of the report that should count it
    tagged: bool = False  # whether the line `tagged` should count it, too


class Dice:
    """Random numbers that use only `random()`, since Python keeps its numbers for a seed the same in all versions."""

    def __init__(self, seed):
        self.source = random.Random(seed)

    def between(self, low, high):
        return low + int(self.source.random() * (high - low + 1))

    def one_of(self, things):
        return things[self.between(0, len(things) - 1)]


# Addresses


def address(text):
    return int(ipaddress.IPv4Address(text))


def way(dice):
    """A line `port Q` and a destination that is routed there."""
    at_0 = [
        address("10.2.0.0") + dice.between(0, 0xFFFF),  # only 10.0.0.0/8
        address("10.1.2.3"),  # all three routes of 10/8 match: that of 32 bits decides
        address("198.51.100.0") + dice.between(0, 255),
    ]
    at_1 = [
        address("10.1.128.0") + dice.between(0, 0x7FFF),  # 10.1.0.0/16, and not 10.0.0.0/8
        address("203.0.113.0") + dice.between(0, 127),
    ]
    return dice.one_of([("port 0", dice.one_of(at_0)), ("port 1", dice.one_of(at_1))])


def nowhere(dice):
    """A destination without a route."""
    return dice.one_of([address("192.0.2.0") + dice.between(0, 255), address("203.0.113.128") + dice.between(0, 127)])


def machine(number):
    """An Ethernet address of this example."""
    return bytes([2, 0, 0, 0, 2, number])


# Packets and frames


def checksum(header):
    """The Internet checksum (RFC 1071) of a header in which it is 0."""
    total = sum(struct.unpack(f">{len(header) // 2}H", header))
    while total > 0xFFFF:
        total = (total & 0xFFFF) + (total >> 16)
    return total ^ 0xFFFF


def packet(dice, to, length, options=b"", version=4, words=None, total=None, time=None, flip=0):
    """An IPv4 packet of `length` bytes (RFC 791, section 3.1) with a UDP datagram (RFC 768) to the port `discard`. The
    last parameters are for wrong values: version, header length in words, total length, time to live, and the bits of
    the checksum that are flipped."""
    words = 5 + len(options) // 4 if words is None else words
    total = length if total is None else total
    time = dice.between(2, 255) if time is None else time
    source = address("172.16.0.0") + dice.between(0, 0xFFFFF)
    front = struct.pack(">BBHHHBB", version << 4 | words, 0, total, dice.between(0, 0xFFFF), 0, time, 17)
    back = struct.pack(">II", source, to) + options
    header = front + struct.pack(">H", checksum(front + b"\0\0" + back) ^ flip) + back
    datagram = length - len(header)
    payload = bytes(dice.between(97, 122) for _ in range(datagram - 8))
    return header + struct.pack(">HHHH", dice.between(1024, 65535), 9, datagram, 0) + payload


def frame(body, kind=IPV4, tag=b""):
    """An Ethernet frame (IEEE 802.3), padded to its least length of 60 bytes without the check sequence."""
    return (machine(1) + machine(2) + tag + struct.pack(">H", kind) + body).ljust(60, b"\0")


def tag(dice, kind=TAG):
    """A tag (IEEE 802.1Q, section 9.6): its type, then priority, drop eligibility and VLAN."""
    return struct.pack(">HH", kind, dice.between(0, 15) << 12 | dice.between(1, 4094))


def some_options(dice):
    """4 to 40 bytes of options: a router alert (RFC 2113) or a recorded route (RFC 791), then ends of list."""
    room = dice.between(1, 10) * 4
    alert, route = bytes([148, 4, 0, 0]), bytes([7, room - 1, 4]).ljust(room - 1, b"\0")
    return dice.one_of([alert, route]).ljust(room, b"\0")


def whole(captured, line, tagged=False):
    return Record(captured, len(captured), line, tagged)


def cut(captured, kept, line, tagged=False):
    """A record that keeps the first bytes of its frame, as with a snaplen."""
    return Record(captured[:kept], len(captured), line, tagged)


# Frames that are sent


def plain(dice):
    """Sent: a frame of any length."""
    line, to = way(dice)
    return whole(frame(packet(dice, to, dice.between(28, 400))), line)


def smallest(dice):
    """Sent: a packet without data, and the padding that Ethernet adds after it."""
    line, to = way(dice)
    return whole(frame(packet(dice, to, 28)), line)


def last_hop(dice):
    """Sent: a time to live of 2, of which 1 is left."""
    line, to = way(dice)
    return whole(frame(packet(dice, to, 100, time=2)), line)


def with_options(dice):
    """Sent: options in the header, which are part of the checksum and stay as they are."""
    line, to = way(dice)
    return whole(frame(packet(dice, to, dice.between(68, 200), some_options(dice))), line)


def tagged(dice):
    """Sent with its tag, and also counted as `tagged`."""
    line, to = way(dice)
    return whole(frame(packet(dice, to, dice.between(28, 300)), tag=tag(dice)), line, True)


def tagged_with_options(dice):
    """Sent with its tag and its options."""
    line, to = way(dice)
    return whole(frame(packet(dice, to, dice.between(68, 200), some_options(dice)), tag=tag(dice)), line, True)


def cut_behind_the_header(dice):
    """Sent as far as it was captured: the total length is compared with the length on the wire."""
    line, to = way(dice)
    return cut(frame(packet(dice, to, dice.between(200, 1500))), SNAPLEN, line)


def cut_and_tagged(dice):
    """Sent as far as it was captured, with its tag."""
    line, to = way(dice)
    return cut(frame(packet(dice, to, dice.between(200, 1500)), tag=tag(dice)), SNAPLEN, line, True)


def as_long_as_may_be(dice):
    """Sent: a record of 64 * room bytes."""
    line, to = way(dice)
    return whole(frame(packet(dice, to, MAX_RECORD - 14)), line)


def cut_to_the_most(dice):
    """Sent: a jumbo frame of which 64 * room bytes were captured."""
    line, to = way(dice)
    return cut(frame(packet(dice, to, 8986)), MAX_RECORD, line)


# Frames that are left out or dropped, by the lines of the report


def oversize(dice):
    """`oversize`: a record of more than 64 * room bytes, whatever its frame contains."""
    _, to = way(dice)
    return whole(frame(packet(dice, to, dice.between(MAX_RECORD + 1, MAX_RECORD + 900) - 14)), "oversize")


def cut_in_the_addresses(dice):
    """`short`: cut before the end of the Ethernet header, or nothing captured at all."""
    _, to = way(dice)
    return cut(frame(packet(dice, to, 60)), dice.between(0, 13), "short")


def cut_in_the_header(dice):
    """`short`: cut before the IPv4 header has 20 bytes, with a tag or without."""
    _, to = way(dice)
    with_tag = dice.one_of([b"", tag(dice)])
    return cut(frame(packet(dice, to, 60), tag=with_tag), len(with_tag) + dice.between(14, 33), "short")


def cut_in_the_options(dice):
    """`short`: cut after 20 bytes of the header, before its end."""
    _, to = way(dice)
    options = some_options(dice)
    return cut(frame(packet(dice, to, 100, options)), dice.between(34, 33 + len(options)), "short")


def cut_in_the_tag(dice):
    """`short`: the type is that of a tag, and the frame ends before another type."""
    _, to = way(dice)
    return cut(frame(packet(dice, to, 60), tag=tag(dice)), dice.between(14, 17), "short")


def arp(dice):
    """`not-ipv4`: an ARP request (RFC 826)."""
    asked = struct.pack(">HHBBH", 1, IPV4, 6, 4, 1) + machine(2) + struct.pack(">I", address("172.16.0.1"))
    return whole(frame(asked + bytes(6) + struct.pack(">I", way(dice)[1]), ARP), "not-ipv4")


def ipv6(dice):
    """`not-ipv4`: an IPv6 header (RFC 8200) without a next header."""
    here, there = (ipaddress.IPv6Address(text).packed for text in ("2001:db8::1", "2001:db8::2"))
    return whole(frame(struct.pack(">IHBB", 6 << 28, 0, 59, dice.between(2, 255)) + here + there, IPV6), "not-ipv4")


def two_tags(dice):
    """`not-ipv4`: the first tag is followed by another one, which isn't IPv4."""
    _, to = way(dice)
    return whole(frame(packet(dice, to, 100), tag=tag(dice) + tag(dice)), "not-ipv4")


def service_tag(dice):
    """`not-ipv4`: a service tag (IEEE 802.1ad) isn't an 802.1Q tag."""
    _, to = way(dice)
    return whole(frame(packet(dice, to, 100), tag=tag(dice, 0x88A8)), "not-ipv4")


def other_version(dice):
    """`bad-header`: a version that isn't 4."""
    _, to = way(dice)
    return whole(frame(packet(dice, to, 100, version=dice.one_of([0, 5, 6, 15]))), "bad-header")


def header_too_short(dice):
    """`bad-header`: a header of fewer than 5 words."""
    _, to = way(dice)
    return whole(frame(packet(dice, to, 100, words=dice.between(0, 4))), "bad-header")


def total_below_the_header(dice):
    """`bad-length`: a total length that ends inside the header."""
    _, to = way(dice)
    return whole(frame(packet(dice, to, 100, total=dice.between(0, 19))), "bad-length")


def total_above_the_frame(dice):
    """`bad-length`: a total length that ends after the frame, with a tag or without."""
    _, to = way(dice)
    with_tag = dice.one_of([b"", tag(dice)])
    return whole(frame(packet(dice, to, 100, total=dice.between(101, 1500)), tag=with_tag), "bad-length")


def wrong_checksum(dice):
    """`bad-checksum`: one bit flipped."""
    _, to = way(dice)
    return whole(frame(packet(dice, to, 100, flip=1 << dice.between(0, 15))), "bad-checksum")


def expired(dice):
    """`expired`: a time to live of 1, or 0."""
    _, to = way(dice)
    return whole(frame(packet(dice, to, 100, time=dice.between(0, 1))), "expired")


def no_route(dice):
    """`no-route`: everything is right, but no prefix contains the destination."""
    return whole(frame(packet(dice, nowhere(dice), dice.between(28, 300))), "no-route")


def tagged_no_route(dice):
    """`no-route`: the line `tagged` counts only sent frames."""
    return whole(frame(packet(dice, nowhere(dice), 100), tag=tag(dice)), "no-route")


# Each kind, with its weight
KINDS = {
    plain: 40,
    smallest: 8,
    last_hop: 4,
    with_options: 12,
    tagged: 16,
    tagged_with_options: 6,
    cut_behind_the_header: 8,
    cut_and_tagged: 4,
    as_long_as_may_be: 1,
    cut_to_the_most: 1,
    oversize: 2,
    cut_in_the_addresses: 3,
    cut_in_the_header: 3,
    cut_in_the_options: 3,
    cut_in_the_tag: 3,
    arp: 4,
    ipv6: 4,
    two_tags: 3,
    service_tag: 3,
    other_version: 3,
    header_too_short: 3,
    total_below_the_header: 3,
    total_above_the_frame: 4,
    wrong_checksum: 6,
    expired: 6,
    no_route: 6,
    tagged_no_route: 3,
}
BAG = [kind for kind, times in KINDS.items() for _ in range(times)]


def records(count, seed):
    """One record of each kind, and then kinds drawn from the bag."""
    dice = Dice(seed)
    first = list(KINDS)[:count]
    return [kind(dice) for kind in first + [dice.one_of(BAG) for _ in range(count - len(first))]]


def capture(made):
    """A little-endian capture with microsecond resolution, one record per millisecond."""
    yield struct.pack("<IHHIIII", 0xA1B2C3D4, 2, 4, 0, 0, 262144, 1)
    for number, record in enumerate(made):
        seconds, thousandth = divmod(number, 1000)
        yield struct.pack("<IIII", 1700000000 + seconds, thousandth * 1000, len(record.captured), record.original)
        yield record.captured


def report(made):
    """The expected report of a run on these records."""
    lines = [record.line for record in made]
    yield f"records {len(made)}"
    for line in ["oversize", "port 0", "port 1", *REASONS]:
        yield f"{line} {lines.count(line)}"
    yield f"tagged {sum(record.tagged for record in made)}"
    yield "torn no"


def main(words):
    if not 1 <= len(words) <= 3:
        sys.exit(__doc__)
    numbers = [int(word) for word in words[1:]]
    made = records(*numbers, *[300, 1][len(numbers):])
    with open(words[0], "wb") as file:
        file.writelines(capture(made))
    print("\n".join(report(made)))


if __name__ == "__main__":
    main(sys.argv[1:])
