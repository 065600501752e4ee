"""Where a capture may be cut: byte ranges that begin and end between records."""
import mmap
import struct

from parts import HEADER, Refused

RECORD = 16  # the bytes of a record's header; those from 8 to 11 are the number of captured bytes
CAPTURED = 262_144  # the most that `pktkit` takes
MAGICS = {b"\xd4\xc3\xb2\xa1": ("<", "microseconds"), b"\xa1\xb2\xc3\xd4": (">", "microseconds"),
          b"\x4d\x3c\xb2\xa1": ("<", "nanoseconds"), b"\xa1\xb2\x3c\x4d": (">", "nanoseconds")}


def format_of(file):
    """The byte order of a capture and the unit of its times."""
    try:
        with open(file, "rb") as opened:
            header = opened.read(HEADER)
    except OSError as fault:
        raise Refused(f"the capture {file} can't be read: {fault.strerror}") from fault
    if len(header) < HEADER or header[:4] not in MAGICS:
        raise Refused(f"{file} is no classic pcap capture; --filter runs a command that makes one of it")
    return MAGICS[header[:4]]


def starts(data, order, count):
    """The first bytes of at most so many ranges, about equally long. Each is where a record begins: the headers are
    followed from the first one on, since nothing else shows where a record begins."""
    captured_at = struct.Struct(order + "I").unpack_from
    size, at, found = len(data), HEADER, [HEADER]
    for number in range(1, count):
        aim = HEADER + (size - HEADER) * number // count
        while at < aim:
            if at + RECORD > size:
                return found
            captured = captured_at(data, at + 8)[0]
            if captured > CAPTURED:
                raise Refused(f"the header of the record at byte {at} announces {captured} bytes, and no record has"
                              f" more than {CAPTURED}: the capture is damaged there")
            at += RECORD + captured
        if at >= size:  # the last record ends here, or the file ends inside it
            return found
        if at > found[-1]:
            found.append(at)
    return found


def ranges(file, count):
    """Ranges that together are all records of a capture: first byte and length. A record that the end of the file cuts
    is in the last one."""
    order, _ = format_of(file)
    with open(file, "rb") as opened, mmap.mmap(opened.fileno(), 0, access=mmap.ACCESS_READ) as data:
        size, found = len(data), starts(data, order, count)
    return [(start, end - start) for start, end in zip(found, [*found[1:], size])]
