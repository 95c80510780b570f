"""Which messages are dropped so that the incomplete ones take no more than SIZE, written by hand. Each takes 640 bytes,
and those up to the greatest end of a fragment."""

import struct

from worked import Worked, shown

# UDP from port 53 to 5353, without a checksum.
MESSAGE = struct.pack("!HHHH", 53, 5353, 28, 0) + b"twenty bytes of data"
ENDS = "10.0.0.1 > 10.0.0.2"


def frame(identification, offset, more, data):
    """An IPv4 fragment (RFC 791, 3.1)."""
    flags_and_offset = offset // 8 | (0x2000 if more else 0)
    ends = bytes([10, 0, 0, 1, 10, 0, 0, 2])
    words = (0x4500, 20 + len(data), identification, flags_and_offset, 64 << 8 | 17, 0, *struct.unpack("!4H", ends))
    total = sum(words)
    while total > 0xFFFF:
        total = (total & 0xFFFF) + (total >> 16)
    header = struct.pack("!10H", *words[:5], 0xFFFF - total, *words[6:])
    return (bytes.fromhex("02000000000202000000000108 00") + header + data).hex()


def first(identification):
    return frame(identification, 0, True, MESSAGE[:16])


def last(identification):
    return frame(identification, 16, False, MESSAGE[16:])


def begins(identification):
    return f"{ENDS} UDP fragment at 0 len 16, more follow (id 0x{identification:04x})"


def waits(identification):
    return f"{ENDS} UDP fragment at 16 len 12, last (id 0x{identification:04x})"


def completes(identification):
    text = f"completes a message of 28 bytes begun in packet {identification}: 53 > 5353 UDP len 20  no checksum"
    return f"{waits(identification)}, {text}"


def note(count, size):
    return f"incomplete messages dropped: {count} (above {size} bytes)"


def counted(still_open, dropped, size):
    lines = ["no packets", "", f"messages open at the end: {still_open}"]
    if dropped:
        lines += [f"messages dropped: {dropped}", note(dropped, size)]
    return lines


def of_three():
    """Three first fragments take 656 bytes each, and a last one that starts a message 668."""
    numbers = (1, 2, 3)
    complete = list(shown([*map(begins, numbers), *map(completes, numbers)]))
    for size in ("1968", "2K", "1M", "1G"):
        yield ["show", "--reassembly-memory", size], complete
    yield ["show"], complete
    # Message 1 is dropped with the third packet, and then the oldest with each.
    dropped = list(shown([*map(begins, numbers), *map(waits, numbers)]))
    yield ["show", "--reassembly-memory", "1967"], [*dropped, note(4, 1967)]
    yield ["summary", "--only", "gre", "--reassembly-memory", "1967"], counted(2, 4, 1967)
    yield ["summary", "--only", "gre", "--reassembly-memory", "1K"], counted(1, 5, 1024)
    yield ["summary", "--only", "gre", "--reassembly-memory", "0"], counted(0, 6, 0)
    yield ["show", "--reassembly-memory", "0"], [*dropped, note(6, 0)]


def of_high():
    """A fragment of 8 bytes at offset 65,000 takes 65,648 bytes."""
    yield ["summary", "--only", "gre", "--reassembly-memory", "196944"], counted(3, 0, 0)
    yield ["summary", "--only", "gre", "--reassembly-memory", "128K"], counted(1, 2, 131072)
    yield ["summary", "--only", "gre", "--reassembly-memory", "64K"], counted(0, 3, 65536)


NUMBERS = (1, 2, 3)
CAPTURES = (
    Worked("three_messages", 1, [*map(first, NUMBERS), *map(last, NUMBERS)], of_three()),
    Worked("high_offsets", 1, [frame(number, 65000, True, MESSAGE[:8]) for number in NUMBERS], of_high()),
)
