#!/usr/bin/env python3
"""Lines that cost much to answer, and plain ones of the same length: worst_lines.py NAME [plain] writes them, and with no NAME
the names are listed. Plain lines are uncut datagrams of UDP, some 20 MB of them, all checksums good: over IPv4, or over IPv6
without a length where IPv4 has no room for them."""

import random
import sys

LONGEST_LINE = 200_000
LONGEST_FRAME = (LONGEST_LINE - len("frame 0 ")) // 2
UNITS = 8192
SEED = 2026
ETHERNET, ADDRESSES4, ADDRESSES6 = bytes.fromhex("020000000002020000000001"), bytes.fromhex("0a0000010a000002"), bytes(32)
MESSAGE = 253


def line(frame):
    return f"frame 0 {frame.hex()}\n".encode("ascii")


def ipv4(number, payload, identification=0, place=0, options=b"", addresses=ADDRESSES4):
    size = 20 + len(options)
    head = bytes([0x40 + size // 4, 0, *(size + len(payload)).to_bytes(2, "big"), *identification.to_bytes(2, "big")])
    return ETHERNET + b"\x08\0" + head + place.to_bytes(2, "big") + bytes([64, number, 0, 0]) + addresses + options + payload


def ipv6(number, payload):
    return ETHERNET + b"\x86\xdd\x60\0\0\0\0\0" + bytes([number, 64]) + ADDRESSES6 + payload


def udp(pseudo, size):
    """A datagram of so many bytes whose length field is 0, which counts them all."""
    message = bytes([0, 1, 0, 2, 0, 0, 0, 0]) + bytes(1 + at % 255 for at in range(size - 8))
    summed = pseudo + message + bytes(size % 2)
    return message[:6] + (65535 - int.from_bytes(summed, "big") % 65535).to_bytes(2, "big") + message[8:]


def plain(length):
    """A line of so many characters, or of one or some more where a frame has more."""
    size = max(42, (length - len("frame 0 \n")) // 2)
    if size <= 14 + 65535:
        return line(ipv4(17, udp(ADDRESSES4 + bytes([0, 17]) + (size - 34).to_bytes(2, "big"), size - 34)))
    return line(ipv6(17, udp(ADDRESSES6 + (size - 54).to_bytes(4, "big") + bytes([0, 0, 0, 17]), size - 54)))


def chain(number, header, size):
    """The longest frame of such extension headers."""
    count = (LONGEST_FRAME - 54) // size - 1
    return [line(ipv6(number, header(number) * count + header(MESSAGE)))] * 100


def raw(size):
    return lambda following: bytes([following, size // 8 - 1]) + bytes(size - 2)


def part(name, start, more, data):
    """A fragment of a message that has a number of 32 bits."""
    addresses = (name >> 16).to_bytes(4, "big") + ADDRESSES4[:4]
    return line(ipv4(MESSAGE, data, name & 0xFFFF, 0x2000 * more | start, addresses=addresses))


def fragments(order, count=30, size=8):
    """Messages one after another, the greatest there are, in units of eight bytes."""
    for name in range(count):
        for start in order:
            last = start == UNITS - 1
            yield part(name, start, not last or size == 0, bytes(size - 1 if last and size else size))


def orders():
    shuffled = list(range(UNITS))
    random.Random(SEED).shuffle(shuffled)
    return {
        "ascending": range(UNITS),
        "descending": range(UNITS - 1, -1, -1),
        "every second one first": [*range(0, UNITS, 2), *range(1, UNITS, 2)],
        "shuffled": shuffled,
    }


def options():
    timestamps = bytes.fromhex("080a0000000100000002") * 4
    segment = bytes(12) + b"\xf0\x10" + bytes(6) + timestamps
    return [line(ipv4(6, segment, options=b"\x01" * 40))] * 100_000


def far_fragments(names, again):
    """Eight bytes at the end of the greatest message, each of a new message or of one that is dropped at once."""
    for name in range(names):
        yield part(name, UNITS - 2, True, bytes(8))
        if again:
            yield b"forget 18446744073709551615\n"


def forgets(names, count):
    yield from (part(name, 0, True, bytes(8)) for name in range(names))
    yield from [b"forget 0\n"] * count


INPUTS = {
    "destination options of 8 bytes": lambda: chain(60, raw(8), 8),
    "destination options of 2048 bytes": lambda: chain(60, raw(2048), 2048),
    "routing headers of 8 bytes": lambda: chain(43, raw(8), 8),
    "fragment headers": lambda: chain(44, lambda following: bytes([following, 0]) + bytes(6), 8),
    "authentication headers": lambda: chain(51, lambda following: bytes([following, 1]) + bytes(10), 12),
    "hop-by-hop options, one header": lambda: [line(ipv6(0, bytes([MESSAGE, 255]) + b"\0" * 2046))] * 5000,
    "VLAN tags": lambda: [line(ETHERNET + b"\x81\0" + b"\0\5\x81\0" * ((LONGEST_FRAME - 14) // 4))] * 100,
    "MACsec headers": lambda: [line(ETHERNET + b"\x88\xe5" + b"\0\0\0\0\0\1\x88\xe5" * ((LONGEST_FRAME - 14) // 8))] * 100,
    "IPv4 and TCP options, 40 bytes each": options,
    **{f"8192 fragments, {name}": lambda order=order: fragments(order) for name, order in orders().items()},
    **{f"8192 empty fragments, {name}": lambda order=order: fragments(order, 10, 0) for name, order in orders().items()},
    "a million names": lambda: (part(name, 0, True, bytes(8)) for name in range(1_000_000)),
    "a fragment at the end, of 5,000 messages": lambda: far_fragments(5000, False),
    "the same, each dropped at once": lambda: far_fragments(50_000, True),
    "forget lines over 10,000 messages": lambda: forgets(10_000, 20_000),
    "digits that end in a bad one": lambda: [b"frame 0 " + b"0" * (LONGEST_LINE - 9) + b"g\n"] * 100,
    "a line of 20 MB": lambda: [b"frame 0 " + b"0" * 20_000_000 + b"\n"],
    "frames of one byte": lambda: [b"frame 0 00\n"] * 500_000,
    "empty lines": lambda: [b"\n"] * 2_000_000,
}


def main():
    if len(sys.argv) == 1:
        print("\n".join(INPUTS))
        return
    written = INPUTS[sys.argv[1]]()
    if sys.argv[2:] == ["plain"]:
        # As long as most lines are.
        like = plain(len(next(iter(written))))
        written = [like] * (20_000_000 // len(like) + 1)
    sys.stdout.buffer.writelines(written)


main()
