#!/usr/bin/env python3
"""Captures that cost much to read, and plain ones of the same length: worst_captures.py NAME FILE PLAIN writes both, and with no
NAME the names are listed, each with the words of packets_cli, the bound of its memory in kilobytes and that of its time, as a
multiple of the plain capture's, or `-` where there is none. A plain capture has UDP datagrams over IPv4, all checksums good,
unfragmented, in records as long as most of the other one."""

import struct
import sys

ETHERNET = bytes.fromhex("020000000002020000000001")
BEGIN, COUNT = 1_700_000_000, 200_000
# Where this half of a source address stands, a hash by the fixed seed is 0, whatever comes before it
# (crates/benchmarks/src/colliding.rt).
COLLIDING = 0x9E37_79B9_7F4A_7C15.to_bytes(8, "little")
LONGEST_FRAME = 99_991


def ipv4(payload, source=1, target=2, number=17, name=0, flags=0):
    head = struct.pack("!BBHHHBBHII", 0x45, 0, 20 + len(payload), name, flags, 64, number, 0, 0x0A000000 + source, 0x0A000000 + target)
    return ETHERNET + b"\x08\0" + head + payload


def ipv6(following, body, source=bytes(16)):
    return ETHERNET + b"\x86\xdd\x60\0\0\0" + struct.pack("!HBB", len(body) if len(body) < 65536 else 0, following, 64) + source + bytes(15) + b"\2" + body


def datagram(size):
    """A frame of so many bytes, at least 42."""
    size = max(size, 42)
    message = struct.pack("!HHHH", 1, 2, 0 if size > 65_535 else size - 34, 0) + bytes(1 + at % 255 for at in range(size - 42))
    if size > 65_535:
        message, ends, length = message[:-20], bytes(31) + b"\2", size - 54
    else:
        ends, length = bytes.fromhex("0a0000010a000002"), size - 34
    summed = ends + struct.pack("!II", length, 17) + message + bytes(length % 2)
    message = message[:6] + struct.pack("!H", 65535 - int.from_bytes(summed, "big") % 65535) + message[8:]
    return ipv6(17, message) if size > 65_535 else ipv4(message)


def part6(name, source, offset_and_flag=1, data=bytes(8)):
    return ipv6(44, struct.pack("!BBHI", 253, 0, offset_and_flag, name) + data, source)


def numbered(at):
    """A source address of IPv6 without a pattern that a hash has."""
    return bytes.fromhex("fd00") + bytes(10) + at.to_bytes(4, "big")


def record(frame, seconds=BEGIN, microseconds=0):
    return struct.pack("<IIII", seconds, microseconds, len(frame), len(frame)) + frame


def file(records, link=1):
    yield struct.pack("<IHHiIII", 0xA1B2C3D4, 2, 4, 0, 0, 262_144, link)
    yield from records


def block(kind, body):
    size = struct.pack("<I", 12 + len(body))
    return struct.pack("<I", kind) + size + body + size


def section(blocks):
    yield block(0x0A0D0D0A, struct.pack("<IHHq", 0x1A2B3C4D, 1, 0, -1))
    yield block(1, struct.pack("<HHI", 1, 0, 0))
    yield from blocks


def fragments(count, frame):
    return lambda: file(record(frame(at)) for at in range(count))


def apart():
    """A fragment a second, each of another message."""
    return file(record(part6(at, numbered(at)), BEGIN + at) for at in range(COUNT))


def one_time():
    return file(record(part6(at, numbered(at))) for at in range(COUNT))


def jumping():
    frame = datagram(60)
    return file(record(frame, 2**32 - 1 if at % 2 else 0, 999_999 if at % 2 else 0) for at in range(COUNT))


def chain():
    """The longest frame of destination options of 8 bytes."""
    count = (LONGEST_FRAME - 54) // 8 - 1
    frame = ipv6(60, bytes([60, 0, 1, 4, 0, 0, 0, 0]) * count + bytes([59, 0, 1, 4, 0, 0, 0, 0]))
    return file(record(frame) for _ in range(100))


def described():
    """A pcapng file of interfaces, with a packet after each thousand."""
    interface, frame = block(1, struct.pack("<HHI", 1, 0, 0)), datagram(60)
    packet = block(6, struct.pack("<IIIII", 0, 0, 0, len(frame), len(frame)) + frame + bytes(-len(frame) % 4))
    return section(packet if at % 1000 == 999 else interface for at in range(1_000_000))


# The words of packets_cli, the kilobytes that a run may hold and how many times as long as over the plain capture it may take,
# where what PACKETS.md says bounds them, and what makes the capture.
HELD = 3 * 1024
INPUTS = {
    "40,000 fragments, colliding names": ("show", 102400, 3, fragments(40_000, lambda at: part6(7, at.to_bytes(8, "big") + COLLIDING))),
    "40,000 fragments, other names": ("show", 102400, 3, fragments(40_000, lambda at: part6(7, numbered(at)))),
    "20,000 fragments at offset 65,520": ("show", 102400, 3, fragments(20_000, lambda at: part6(at, numbered(at), 65_520 | 1))),
    "20,000 last fragments at offset 65,520": ("show", 102400, 3, fragments(20_000, lambda at: part6(at, numbered(at), 65_520))),
    "a million names": ("show", 102400, 3, fragments(1_000_000, lambda at: part6(at, numbered(at)))),
    "fragments of one time, --forget 1": ("show --forget 1", 102400, 3, one_time),
    "fragments a second apart, --forget 1": ("show --forget 1", HELD, 10, apart),
    "200,000 pairs of addresses": ("summary", None, None, lambda: file(record(ipv4(bytes(26), at, at + 1, 253)) for at in range(COUNT))),
    "first and last second by turns": ("summary", HELD, 10, jumping),
    "packets that are cut off": ("show", HELD, 10, lambda: file(record(datagram(60)[:30]) for _ in range(5 * COUNT))),
    "records of no byte": ("summary", HELD, 10, lambda: file(record(b"") for _ in range(5 * COUNT))),
    "12,491 extension headers a packet": ("json", None, None, chain),
    "12,491 extension headers a packet, show": ("show", HELD, 10, chain),
    "a million interfaces": ("summary", HELD, 10, described),
    "a million blocks of 12 bytes": ("summary", HELD, 10, lambda: section(block(0x0BAD, b"") for _ in range(5 * COUNT))),
}


def main():
    if len(sys.argv) == 1:
        for name, (words, held, times, _) in INPUTS.items():
            print(name, words, held or "-", times or "-", sep="\t")
        return
    name, path, plain = sys.argv[1:]
    size, first = 0, None
    with open(path, "wb") as out:
        for at, it in enumerate(INPUTS[name][3]()):
            # A classic capture's first record follows the file header, a pcapng file's first packet a section and an interface.
            first = it if first is None and at == 1 else first
            size += out.write(it)
    with open(plain, "wb") as out:
        like = record(datagram(len(first) - 16))
        out.writelines(file(like for _ in range(size // len(like))))


main()
