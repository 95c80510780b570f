"""Numbers of TCP that are counted from the first ones of their connection, by hand and as tcpdump 4.99 shows them, and local times."""

import struct

from worked import Worked

FIN, SYN, RST, PSH, ACK = 1, 2, 4, 8, 16
ONE, TWO = bytes([10, 0, 0, 1]), bytes([10, 0, 0, 2])


def segment(forward, flags, sequence, acknowledgment, size=0, options=b"", ports=(5000, 80), cut=0):
    ends = (ONE, TWO) if forward else (TWO, ONE)
    ports = ports if forward else ports[::-1]
    words = (5 + len(options) // 4) << 12 | flags
    part = struct.pack("!HHIIHHHH", *ports, sequence, acknowledgment, words, 9, 0, 0) + options + bytes(size)
    header = struct.pack("!BBHHHBBH", 0x45, 0, 20 + len(part), 1, 0, 64, 6, 0) + ends[0] + ends[1]
    return (header + part)[: 20 + len(part) - cut].hex()


def sack(*blocks):
    return struct.pack("!BBBB", 1, 1, 5, 2 + 8 * len(blocks)) + b"".join(struct.pack("!II", *it) for it in blocks)


FORWARD, BACK = "10.0.0.1.5000 > 10.0.0.2.80", "10.0.0.2.80 > 10.0.0.1.5000"
LAST = 2**32 - 1
# A segment, and its ends, flags, numbers and what follows, as they are, and where they are relative and others.
SEGMENTS = (
    # SYN alone acknowledges nothing, and the answer to it begins the connection.
    (segment(True, SYN, LAST, 0), FORWARD, "[S] seq 4294967295 win 9 len 0", None),
    (segment(False, SYN | ACK, 1000, 0), BACK, "[S.] seq 1000 ack 0 win 9 len 0", None),
    (segment(True, ACK, 0, 1001), FORWARD, "[.] seq 0 ack 1001 win 9 len 0", "[.] seq 1 ack 1 win 9 len 0"),
    (segment(True, PSH | ACK, 0, 1001, 4), FORWARD, "[P.] seq 0 ack 1001 win 9 len 4", "[P.] seq 1 ack 1 win 9 len 4"),
    (
        segment(False, ACK, 1001, 4, 0, sack((8, 12), (20, 24))),
        BACK,
        "[.] seq 1001 ack 4 win 9 len 0 options [nop,nop,sack 8-12 20-24]",
        "[.] seq 1 ack 5 win 9 len 0 options [nop,nop,sack 9-13 21-25]",
    ),
    # What was sent before the connection was seen.
    (segment(False, ACK, 999, 4), BACK, "[.] seq 999 ack 4 win 9 len 0", "[.] seq 4294967295 ack 5 win 9 len 0"),
    (segment(False, FIN | ACK, 1001, 4), BACK, "[F.] seq 1001 ack 4 win 9 len 0", "[F.] seq 1 ack 5 win 9 len 0"),
    # Without ACK the number is that of the segment.
    (segment(True, RST, 4, 0), FORWARD, "[R] seq 4 win 9 len 0", None),
    # Another connection between other ports, whose begin isn't there, and the first one again, which begins anew.
    (segment(False, ACK, 70, 80, 0, b"", (6000, 80)), "10.0.0.2.80 > 10.0.0.1.6000", "[.] seq 70 ack 80 win 9 len 0", None),
    (segment(True, ACK, 80, 90, 0, b"", (6000, 80)), "10.0.0.1.6000 > 10.0.0.2.80", "[.] seq 80 ack 90 win 9 len 0", "[.] seq 1 ack 20 win 9 len 0"),
    (segment(False, SYN | ACK, 5000, 601), BACK, "[S.] seq 5000 ack 601 win 9 len 0", None),
    (segment(True, ACK, 601, 5001), FORWARD, "[.] seq 601 ack 5001 win 9 len 0", "[.] seq 1 ack 1 win 9 len 0"),
    # One that was cut after its header.
    (segment(True, ACK, 611, 5001, 100, cut=90), FORWARD, "[.] seq 611 ack 5001 win 9 len 100", "[.] seq 11 ack 1 win 9 len 100"),
)
WIRE = [len(it[0]) // 2 for it in SEGMENTS]
WIRE[-1] += 90


def lines(relative):
    for at, (frame, ends, own, other) in enumerate(SEGMENTS):
        text = other if relative and other else own
        size = len(frame) // 2
        end = "bad checksum  header checksum bad" if size == WIRE[at] else f"cut at {size} of {WIRE[at]} bytes"
        yield f"{at + 1:5} {at * 1500 / 10**6:10.6f} {ends} TCP {text}  {end}"


# Packets that aren't shown don't count: the third one is the first of its connection then.
FILTERED = [
    "    3   0.003000 10.0.0.1.5000 > 10.0.0.2.80 TCP [.] seq 0 ack 1001 win 9 len 0  bad checksum  header checksum bad",
    "    4   0.004500 10.0.0.1.5000 > 10.0.0.2.80 TCP [P.] seq 0 ack 1 win 9 len 4  bad checksum  header checksum bad",
]
ROWS = [
    (["show"], list(lines(False))),
    (["show", "--relative"], list(lines(True))),
    (["--relative", "--only", "frame=3..4"], FILTERED),
]
CAPTURES = (Worked("relative", 101, [it[0] for it in SEGMENTS], ROWS, wire=WIRE),)
