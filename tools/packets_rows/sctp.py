"""Ports of SCTP, which conditions and conversations read (RFC 9260, section 3.1), by hand."""

import struct

import conversations
from worked import Worked

HEADER = struct.pack("!HHII", 5000, 38412, 7, 0)


def fragment(offset, more, part):
    return (struct.pack("!BBHHHBBH", 0x45, 0, 20 + len(part), 9, more << 13 | offset // 8, 64, 132, 0) + conversations.ONE + conversations.TWO + part).hex()


MESSAGE = struct.pack("!HHII", 38412, 5001, 7, 0) + bytes(4)
FRAMES = (
    # 1: a packet of 12 bytes and 4 more; 2: the answer; 3: one without the whole header.
    conversations.packet(conversations.ONE, conversations.TWO, 132, HEADER + bytes(4)),
    conversations.packet(conversations.TWO, conversations.ONE, 132, HEADER[2:4] + HEADER[:2] + HEADER[4:]),
    conversations.packet(conversations.ONE, conversations.TWO, 132, HEADER[:11]),
    # 4: over IPv6.
    conversations.packet(conversations.SIX, conversations.SEVEN, 132, HEADER),
    # 5 and 6: two fragments, the second of which completes the message.
    fragment(0, True, MESSAGE[:8]),
    fragment(8, False, MESSAGE[8:]),
    # 7: one that was cut after its header; 8: one that was cut before its end.
    conversations.packet(conversations.ONE, conversations.TWO, 132, HEADER + bytes(40))[: 2 * 40],
    conversations.packet(conversations.ONE, conversations.TWO, 132, HEADER + bytes(40))[: 2 * 31],
    # 9: the same bytes over another protocol.
    conversations.packet(conversations.ONE, conversations.TWO, 133, HEADER),
)
WIRE = [len(it) // 2 for it in FRAMES]
WIRE[6] = WIRE[7] = 72
MET = (
    ("port=38412", (1, 2, 4, 6, 7)),
    ("port=5000", (1, 2, 4, 7)),
    ("port=5001", (6,)),
    ("port=5000..5001 and sctp", (1, 2, 4, 6, 7)),
    ("syn or fin or rst", ()),
)
BETWEEN = "10.0.0.1{} > 10.0.0.2{} {}"
LISTED = (
    (2, 36 + 72, 1, 32, 0, 6, BETWEEN.format(".5000", ".38412", "SCTP")),
    (3, 31 + 28 + 72, 0, 0, 2, 7, BETWEEN.format("", "", "SCTP")),
    (1, 52, 0, 0, 3, 3, "2001:db8::6.5000 > 2001:db8::7.38412 SCTP"),
    (1, 28, 0, 0, 5, 5, BETWEEN.format(".38412", ".5001", "SCTP")),
    (1, 32, 0, 0, 8, 8, BETWEEN.format("", "", "FC")),
)


def table():
    yield conversations.TITLES
    for packets, size, back, back_size, first, last, ends in sorted(LISTED, key=lambda it: -(it[1] + it[3])):
        times = f"{first:>11.6f} {last:>11.6f} {last - first:>11.6f}"
        yield f"{packets:>9} {size:>13} {back:>9} {back_size:>13} {times}        {ends}"
    yield from ("", "first and last are seconds since 2023-11-14T22:13:20.000000Z")


def rows():
    for text, numbers in MET:
        yield ["show", "--width", "5", "--only", text], [f"{it:5}" for it in numbers]
    yield ["flows"], list(table())


CAPTURES = (Worked("sctp", 101, FRAMES, list(rows()), seconds=range(9), wire=WIRE),)
