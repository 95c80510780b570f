"""What is counted of the bytes of TCP conversations, by hand: segments that come again, whole and in part, other bytes, gaps that are
filled and gaps whose bytes never come, connections that are reset, ended, not answered, seen late and started again."""

import json

import expected
from conversations import ACK, FIN, NAMES, NONE, ONE, RST, STREAM_TITLES, SYN, THREE, TITLES, TWO, counted, datagram, packet, stream
from follow import tcp
from worked import STEP, Worked


def segment(source, destination, ports, flags, sequence, payload=b"", acknowledged=0):
    forward = source is min(source, destination)
    part = tcp(forward, flags, sequence, payload, ports=ports if forward else ports[::-1], acknowledged=acknowledged)
    return packet(source, destination, 6, part)


def there(port, *rest, **known):
    return segment(ONE, TWO, (port, 80), *rest, **known)


def back(port, *rest, **known):
    return segment(TWO, ONE, (80, port), *rest, **known)


FRAMES = (
    # 1 to 9: 5 bytes, the same again, 2 of them with 3 others, 3 of which one is another; FIN of both.
    there(5001, SYN, 99),
    back(5001, SYN | ACK, 499, acknowledged=100),
    there(5001, ACK, 100, b"abcde", acknowledged=500),
    there(5001, ACK, 100, b"abcde", acknowledged=500),
    there(5001, ACK, 103, b"defgh", acknowledged=500),
    there(5001, ACK, 100, b"aXc", acknowledged=500),
    back(5001, FIN | ACK, 500, acknowledged=108),
    there(5001, FIN | ACK, 108, acknowledged=501),
    back(5001, ACK, 501, acknowledged=109),
    # 10 to 16: a gap of 3 that is filled, one of 2 whose bytes are acknowledged, and come when they were given up.
    there(5002, SYN, 999),
    back(5002, SYN | ACK, 1999, acknowledged=1000),
    there(5002, ACK, 1003, b"def", acknowledged=2000),
    there(5002, ACK, 1000, b"abc", acknowledged=2000),
    there(5002, ACK, 1008, b"ij", acknowledged=2000),
    back(5002, ACK, 2000, acknowledged=1010),
    there(5002, ACK, 1006, b"gh", acknowledged=2000),
    # 17 and 18: refused by the other host; 19 and 20: no answer, twice.
    there(5003, SYN, 7),
    back(5003, RST | ACK, 0, acknowledged=8),
    there(5004, SYN, 7),
    there(5004, SYN, 7),
    # 21 to 23: from the higher end, seen late: 2 bytes, then those again with 2 before them.
    segment(THREE, ONE, (7000, 90), ACK, 50, b"xy", acknowledged=1),
    segment(THREE, ONE, (7000, 90), ACK, 48, b"vwxy", acknowledged=1),
    segment(ONE, THREE, (90, 7000), ACK, 1, b"z", acknowledged=52),
    # 24 to 28: of a segment 2 bytes weren't captured, so that its 4 bytes are missing.
    there(5005, SYN, 9),
    back(5005, SYN | ACK, 19, acknowledged=10),
    there(5005, ACK, 10, b"abcd", acknowledged=20)[:-4],
    there(5005, ACK, 14, b"e", acknowledged=20),
    back(5005, ACK, 20, acknowledged=15),
    # 29 to 33: SYN with another number before the end; 34: a datagram.
    there(5006, SYN, 100),
    there(5006, ACK, 101, b"ab"),
    there(5006, SYN, 500),
    there(5006, ACK, 501, b"cd"),
    there(5006, ACK, 501, b"cd"),
    datagram(ONE, TWO, (53, 53), 4),
)
WIRE = [len(it) // 2 for it in FRAMES]
WIRE[25] += 2
# Packets and bytes of each direction, the first packet and the last, TCP, ends, ports and protocol; the state as text and in JSON, and
# in each direction the bytes that are repeated, gaps, missing bytes and conflicts.
ROWS = (
    ((6, 240 + 5 + 5 + 5 + 3, 3, 120, 1, 9, "SF", "10.0.0.1", "10.0.0.2", (5001, 80), 6), ("closed", "Closed", (5 + 2 + 3, 0, 0, 1), NONE)),
    ((5, 200 + 3 + 3 + 2 + 2, 2, 80, 10, 16, "open", "10.0.0.1", "10.0.0.2", (5002, 80), 6), ("open", "Established", (2, 2, 2, 0), NONE)),
    ((1, 40, 1, 40, 17, 18, "R", "10.0.0.1", "10.0.0.2", (5003, 80), 6), ("reset", "Reset", NONE, NONE)),
    ((2, 80, 0, 0, 19, 20, "S", "10.0.0.1", "10.0.0.2", (5004, 80), 6), ("SYN not answered", "SynSent", NONE, NONE)),
    ((2, 80 + 2 + 4, 1, 41, 21, 23, "open", "10.0.0.3", "10.0.0.1", (7000, 90), 6), ("open", "Established", (2 + 2, 0, 0, 0), NONE)),
    ((3, 120 + 4 + 1, 2, 80, 24, 28, "open", "10.0.0.1", "10.0.0.2", (5005, 80), 6), ("open", "Established", (0, 1, 4, 0), NONE)),
    ((5, 200 + 2 + 2 + 2, 0, 0, 29, 33, "open", "10.0.0.1", "10.0.0.2", (5006, 80), 6), ("open", "Established", (2, 0, 0, 0), NONE)),
    ((1, 32, 0, 0, 34, 34, None, "10.0.0.1", "10.0.0.2", (53, 53), 17), None),
)


def seconds(number):
    return (number - 1) * STEP


def line(row):
    packets, size, other, other_size, first, last, flags, source, destination, ports, protocol = row
    times = " ".join(f"{it / 10**9:>11.6f}" for it in (seconds(first), seconds(last), seconds(last) - seconds(first)))
    ends = f"{source}.{ports[0]} > {destination}.{ports[1]} {NAMES[protocol]}"
    return f"{packets:>9} {size:>13} {other:>9} {other_size:>13} {times}  {flags or '':<4}  {ends}"


def member(row, found):
    packets, size, other, other_size, first, last, flags, source, destination, ports, protocol = row
    ways = counted(({"packets": packets, "bytes": size}, {"packets": other, "bytes": other_size}), found)
    named = {"source": source, "destination": destination, "source_port": ports[0], "destination_port": ports[1]}
    named |= {"ip_number": protocol, "forward": ways[0], "backward": ways[1]}
    times = [expected.BEGIN + seconds(it) for it in (first, last)]
    named |= {"first": times[0], "last": times[1], "duration": times[1] - times[0]}
    return named | ({"tcp": flags} if flags else {}) | ({"state": found[1], "followed": True} if found else {})


def tables():
    yield TITLES
    yield from (line(row) for row, _ in ROWS)
    yield from ("", "first and last are seconds since 2023-11-14T22:13:20.000000Z", "", STREAM_TITLES)
    yield from (stream(row, found) for row, found in ROWS if found)


def whole():
    found = {"packets": len(FRAMES), "refused": 0, "without_ip": 0, "conversation_count": len(ROWS)}
    return json.dumps(found | {"conversations": [member(*it) for it in ROWS]}, separators=(",", ":"))


def rows():
    yield ["flows", "--by", "first"], list(tables())
    yield ["flows", "--by", "first", "--json"], [whole()]


CAPTURES = (Worked("streams", 101, FRAMES, list(rows()), wire=WIRE),)
