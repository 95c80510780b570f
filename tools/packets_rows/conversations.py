"""Conversations, counted by hand: how TCP connections began and ended, packets that were cut, and all orders."""

import json
import struct

import expected
from worked import Worked

FIN, SYN, RST, ACK = 1, 2, 4, 16
ONE, TWO, THREE = (bytes([10, 0, 0, at]) for at in (1, 2, 3))
SIX, SEVEN = (bytes.fromhex("20010db8") + bytes(11) + bytes([at]) for at in (6, 7))


def packet(source, destination, protocol, part):
    if len(source) == 4:
        return (struct.pack("!BBHHHBBH", 0x45, 0, 20 + len(part), 1, 0, 64, protocol, 0) + source + destination + part).hex()
    return (struct.pack("!IHBB", 6 << 28, len(part), protocol, 64) + source + destination + part).hex()


def segment(source, destination, ports, flags, size=0):
    return packet(source, destination, 6, struct.pack("!HHIIHHHH", *ports, 1, 1, 0x5000 | flags, 9, 0, 0) + bytes(size))


def datagram(source, destination, ports, size):
    return packet(source, destination, 17, struct.pack("!HHHH", *ports, 8 + size, 0) + bytes(size))


# IP packets, 20 or 40 bytes of the IP header, 20 of TCP's and 8 of UDP's, and the payload.
FRAMES = (
    # 1 to 6: a connection that begins and ends. From 10.0.0.2, the higher one.
    segment(TWO, ONE, (5000, 80), SYN),
    segment(ONE, TWO, (80, 5000), SYN | ACK),
    segment(TWO, ONE, (5000, 80), ACK, 60),
    segment(ONE, TWO, (80, 5000), FIN | ACK, 100),
    segment(TWO, ONE, (5000, 80), FIN | ACK),
    segment(ONE, TWO, (80, 5000), ACK),
    # 7 and 8: no answer, twice.
    segment(ONE, THREE, (5001, 81), SYN),
    segment(ONE, THREE, (5001, 81), SYN),
    # 9 and 10: refused by the other host.
    segment(THREE, ONE, (5002, 82), SYN),
    segment(ONE, THREE, (82, 5002), RST | ACK),
    # 11: of a connection whose begin isn't there; FIN in one direction.
    segment(SIX, SEVEN, (443, 443), FIN | ACK, 5),
    # 12 and 13: datagrams between the same ports of one host, and from it to itself.
    datagram(ONE, ONE, (53, 53), 4),
    datagram(ONE, ONE, (53, 53), 4),
    # 14: to another port of it, from the higher port.
    datagram(ONE, ONE, (54, 53), 4),
    # 15: a datagram of 100 bytes that was cut after 60.
    datagram(TWO, THREE, (7, 9), 72)[: 2 * 60],
    # 16: one that ends before its length says, and wasn't cut.
    datagram(TWO, THREE, (7, 9), 72)[: 2 * 60],
    # 17: another protocol, and 18: the same numbers over IPv6.
    packet(THREE, TWO, 253, bytes(16)),
    packet(SEVEN, SIX, 253, bytes(16)),
)
# The last packet came first.
SECONDS = [*range(1, 18), 0.5]
WIRE = [len(it) // 2 for it in FRAMES]
WIRE[14] = 100
# Packets and bytes in each direction, seconds of the first and the last packet, TCP, ends, ports and protocol.
ROWS = (
    (3, 40 + 100 + 40, 3, 40 + 140 + 40, 1, 6, "SF", "10.0.0.2", "10.0.0.1", (5000, 80), 6),
    (2, 80, 0, 0, 7, 8, "S", "10.0.0.1", "10.0.0.3", (5001, 81), 6),
    (1, 40, 1, 40, 9, 10, "R", "10.0.0.3", "10.0.0.1", (5002, 82), 6),
    (1, 65, 0, 0, 11, 11, "open", "2001:db8::6", "2001:db8::7", (443, 443), 6),
    (2, 64, 0, 0, 12, 13, None, "10.0.0.1", "10.0.0.1", (53, 53), 17),
    (1, 32, 0, 0, 14, 14, None, "10.0.0.1", "10.0.0.1", (54, 53), 17),
    (1, 100, 0, 0, 15, 15, None, "10.0.0.2", "10.0.0.3", (7, 9), 17),
    (1, 36, 0, 0, 17, 17, None, "10.0.0.3", "10.0.0.2", None, 253),
    (1, 56, 0, 0, 0.5, 0.5, None, "2001:db8::7", "2001:db8::6", None, 253),
)
NAMES = {6: "TCP", 17: "UDP", 253: "IP protocol 253"}
TITLES = (
    " packets>        bytes>  <packets        <bytes       first        last    duration  TCP   conversation"
)
# Of those over TCP: the state as text and in JSON, and in each direction the bytes that are repeated, gaps, missing bytes and conflicts.
# All numbers are 1, so that the first byte after SYN stands before the first position; FIN of frame 5 stands before bytes that came.
NONE = (0, 0, 0, 0)
STREAMS = {
    0: ("closed", "Closed", (1, 0, 0, 0), (1, 0, 0, 0)),
    1: ("SYN not answered", "SynSent", NONE, NONE),
    2: ("reset", "Reset", NONE, NONE),
    3: ("half closed", "Closing", NONE, NONE),
}
STREAM_TITLES = " repeated>   gaps>    missing>  conflicts>   <repeated   <gaps    <missing  <conflicts  state                 conversation"
NOTES = ["", "first and last are seconds since 2023-11-14T22:13:20.500000Z"]
LEFT_OUT = "packets in no conversation: 1 refused, 0 without an IP header"
# In which order they are listed, by their places in ROWS.
BY = {
    "bytes": (0, 6, 1, 2, 3, 4, 8, 7, 5),
    "packets": (0, 1, 2, 4, 3, 5, 6, 7, 8),
    "first": (8, 0, 1, 2, 3, 4, 5, 6, 7),
    "duration": (0, 1, 2, 4, 3, 5, 6, 7, 8),
}


def line(row):
    packets, size, back, back_size, first, last, tcp, source, destination, ports, protocol = row
    ends = (f"{source}.{ports[0]}", f"{destination}.{ports[1]}") if ports else (source, destination)
    times = f"{first - 0.5:>11.6f} {last - 0.5:>11.6f} {last - first:>11.6f}"
    counts = f"{packets:>9} {size:>13} {back:>9} {back_size:>13}"
    return f"{counts} {times}  {tcp or '':<4}  {ends[0]} > {ends[1]} {NAMES[protocol]}"


def counts(found):
    repeated, gaps, missing, conflicts = found
    return f"{repeated:>10} {gaps:>7} {missing:>11} {conflicts:>11} "


def stream(row, found):
    """Of a stream that is followed to its end."""
    text, _, forward, backward = found
    source, destination, ports, protocol = row[7:]
    ends = f"{source}.{ports[0]} > {destination}.{ports[1]} {NAMES[protocol]}"
    return f"{counts(forward)}{counts(backward)} {text:<20}  {ends}"


def streams(listed):
    """The second table, if there are any."""
    found = [stream(ROWS[at], STREAMS[at]) for at in listed if at in STREAMS]
    return ["", STREAM_TITLES, *found] if found else []


def counted(ways, found):
    """The members of both directions, with what is counted of their bytes."""
    names = ("repeated", "gaps", "missing", "conflicts")
    return [way | dict(zip(names, it)) for way, it in zip(ways, found[2:])] if found else ways


def time(seconds):
    return expected.BEGIN + int(seconds * 10**9)


def member(at):
    row, found = ROWS[at], STREAMS.get(at)
    packets, size, back, back_size, first, last, tcp, source, destination, ports, protocol = row
    named = {"source": source, "destination": destination}
    named |= {"source_port": ports[0], "destination_port": ports[1]} if ports else {}
    ways = counted(({"packets": packets, "bytes": size}, {"packets": back, "bytes": back_size}), found)
    named |= {"ip_number": protocol, "forward": ways[0], "backward": ways[1]}
    named |= {"first": time(first), "last": time(last), "duration": time(last) - time(first)}
    return named | ({"tcp": tcp} if tcp else {}) | ({"state": found[1], "followed": True} if found else {})


def whole(listed):
    found = {"packets": 18, "refused": 1, "without_ip": 0, "conversation_count": 9}
    return json.dumps(found | {"conversations": [member(at) for at in listed]}, separators=(",", ":"))


def rows():
    for by, order in BY.items():
        yield ["flows", "--by", by], [TITLES, *(line(ROWS[at]) for at in order), *NOTES, LEFT_OUT, *streams(order)]
    first = BY["bytes"][:2]
    yield ["flows", "--top", "2"], [TITLES, *(line(ROWS[at]) for at in first), "and 7 more", *NOTES, LEFT_OUT, *streams(first)]
    yield ["flows", "--json"], [whole(BY["bytes"])]
    yield ["flows", "--json", "--top", "3", "--by", "first"], [whole(BY["first"][:3])]
    ports = [TITLES, line(ROWS[1]).replace(" 6.500000 ", " 0.000000 ").replace(" 7.500000 ", " 1.000000 ")]
    yield ["flows", "--only", "port=81"], [*ports, "", "first and last are seconds since 2023-11-14T22:13:27.000000Z", *streams((1,))]
    yield ["flows", "--only", "arp"], ["no conversations"]


CAPTURES = (Worked("conversations", 101, FRAMES, list(rows()), seconds=SECONDS, wire=WIRE),)
