"""Makes the rows of c/tests/forwards.c: frames, and what has to become of them by the public rules alone, as
forwarding.py has them; Python's ipaddress says what a frame is addressed to. Nothing here is taken from what the
library does."""
import ipaddress
import os
import random

from forwarding import IPV4, REASONS, TAG, Route, Settings, complement_of_sum, judge

SEED, FRAMES, PORTS = 20, 1500, 256
TAGGED, DROP = 0x10000, 0x20000
NETS = ["10.0.0.1/8", "192.168.7.9/24", "172.16.3.1/30", "198.51.100.0/31", "203.0.113.77/32", "0.0.0.0/0"]
# Frames come in through these ports.
INS = [0, 1]


class Table(Settings):
    """Settings in which a route may lead to a port that isn't there, and then leads nowhere."""

    def route_to(self, address):
        route = super().route_to(address)
        return route if route and route.port < len(self.sources) else None


def number(text):
    return int(ipaddress.IPv4Address(text))


def settings():
    """256 ports, and routes of each depth over them."""
    sources = [bytes([2, 0, 0, 0, port // 256, port % 256]) for port in range(PORTS)]
    lot = random.Random(SEED)
    ways = [("10.0.0.0", 8, 1), ("10.1.0.0", 16, 255), ("10.1.2.0", 24, 7), ("10.1.2.3", 32, 256), ("0.0.0.0", 1, 3),
            ("10.9.0.0", 16, 2**32 - 1)]
    routes = [Route(number(address), depth, port, lot.randbytes(6)) for address, depth, port in ways]
    for depth in range(2, 33):
        address = lot.getrandbits(32) >> (32 - depth) << (32 - depth)
        routes.append(Route(address, depth, lot.randrange(PORTS), lot.randbytes(6)))
    return Table({}, sources, routes)


def header(lot, destination, total, words=5, time=64):
    """A header with a correct checksum."""
    made = bytearray(lot.randbytes(4 * words))
    made[0] = 0x40 | words
    made[2:4] = total.to_bytes(2, "big")
    made[8] = time
    made[16:20] = destination.to_bytes(4, "big")
    made[10:12] = b"\0\0"
    made[10:12] = complement_of_sum(made).to_bytes(2, "big")
    return bytes(made)


def destinations(lot, table):
    """A destination: one of the ports, their nets and groups, one that a route holds, or any."""
    special = ["255.255.255.255", "224.0.0.1", "239.255.255.255", "223.255.255.255", "240.0.0.0", "10.255.255.255",
               "192.168.7.255", "172.16.3.3", "198.51.100.1", "203.0.113.77", "0.0.0.0", "10.1.2.3", "10.1.2.4",
               "10.9.1.1"]
    route = lot.choice(table.routes)
    held = route.address | lot.getrandbits(32) & (1 << 32 - route.depth) - 1
    own = number(lot.choice(NETS).split("/")[0])
    return lot.choice([number(lot.choice(special)), held, held, own, lot.getrandbits(32)])


def frame(lot, table):
    """A frame, and its length on the wire: a right one, or one with a fault or two."""
    words = lot.choice([5, 5, 5, 6, 10, 15])
    body = lot.randbytes(lot.choice([0, 1, 26, 64, 200]))
    total = 4 * words + len(body)
    time = lot.choice([0, 1, 2, 3, 64, 64, 64, 128, 255, 255])
    told = total + lot.choice([0] * 8 + [1, -len(body) - 1])
    packet = bytearray(header(lot, destinations(lot, table), told, words, time) + body)
    if lot.randrange(8) == 0:
        packet[lot.randrange(4 * words)] ^= 1 << lot.randrange(8)
    if lot.randrange(16) == 0:
        packet[0] = lot.choice([0x35, 0x55, 0x40, 0x44, 0x4F, 0x65])
    kind = lot.choice([IPV4] * 36 + [0x0806, 0x86DD, TAG, 0x88A8])
    to = lot.choice([table.sources[0], table.sources[1], b"\xff" * 6, b"\x01\0\x5e\0\0\x01", lot.randbytes(6)])
    tag = TAG.to_bytes(2, "big") + lot.randbytes(2) if lot.randrange(3) == 0 else b""
    made = to + lot.randbytes(6) + tag + kind.to_bytes(2, "big") + bytes(packet) + lot.randbytes(lot.choice([0, 0, 3]))
    wire = len(made) + lot.choice([0] * 6 + [1, 1000])
    held = len(made) if lot.randrange(5) else lot.randrange(len(made) + 1)
    return made[:held], wire


def class_of(table, port, made):
    """The bits of hk_forward_class."""
    if len(made) < 14:
        return 0
    bits = 1 * (made[:6] == table.sources[port]) + 2 * (made[0] & 1)
    at = 18 if made[12:14] == TAG.to_bytes(2, "big") else 14
    if len(made) < at + 20 or made[at - 2:at] != IPV4.to_bytes(2, "big"):
        return bits
    to = ipaddress.IPv4Address(made[at + 16:at + 20])
    ports = [one for one in map(ipaddress.IPv4Interface, NETS) if one.network.prefixlen]
    broadcasts = [one.network.broadcast_address for one in ports if one.network.prefixlen < 31]
    bits += 4 * any(one.ip == to for one in ports) + 8 * to.is_multicast
    return bits + 16 * (to in broadcasts or to == ipaddress.IPv4Address("255.255.255.255"))


def verdict_of(table, made, wire):
    """The number of the verdict, and the frame as it is left."""
    line, sent, tagged = judge(table, made, wire)
    if sent is None:
        return DROP + 1 + REASONS.index(line), made
    return int(line.split()[1]) + TAGGED * tagged, sent


def lines():
    """The lines of C: ports, next hops, routes and rows."""
    table, lot = settings(), random.Random(SEED + 1)
    yield "static const hk_port ports[] = {"
    for port, mac in enumerate(table.sources):
        net = ipaddress.IPv4Interface(NETS[port] if port < len(NETS) else "0.0.0.0/0")
        yield f"{{{int(net.ip)}u, {{{', '.join(map(str, mac))}}}, {net.network.prefixlen}, 9}},"
    yield "};\nstatic const hk_next_hop hops[] = {"
    for route in table.routes:
        yield f"{{{route.port}u, {{{', '.join(map(str, route.to))}}}}},"
    yield "};\nstatic const struct route routes[] = {"
    for route in table.routes:
        yield f"{{{route.address}u, {route.depth}}},"
    yield "};\nstatic const struct row rows[] = {"
    for _ in range(FRAMES):
        made, wire = frame(lot, table)
        verdict, after = verdict_of(table, made, wire)
        classes = ", ".join(str(class_of(table, port, made)) for port in INS)
        yield f'{{"{made.hex()}", "{after.hex()}", {wire}, {verdict}u, {{{classes}}}}},'
    yield "};"


def write(folder):
    """Leaves forwards.inc in a folder."""
    with open(os.path.join(folder, "forwards.inc"), "w", encoding="utf-8") as file:
        file.write("\n".join(lines()) + "\n")
