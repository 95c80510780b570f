"""TCP connections that are followed, by hand: numbers that wrap, gaps, repeats, other bytes, FIN, RST, bytes that were acknowledged but not
captured, and connections one after another."""

import json
import struct

from worked import NO_NEWLINE, Worked

FIN, SYN, RST, ACK = 1, 2, 4, 16
ONE, TWO = bytes([10, 0, 0, 1]), bytes([10, 0, 0, 2])
SIX, SEVEN = (bytes.fromhex("20010db8") + bytes(11) + bytes([at]) for at in (6, 7))
ID, BACK = "10.0.0.1:5000-10.0.0.2:80", "10.0.0.2:80-10.0.0.1:5000"


def ipv4(forward, part, offset=0, more=0, identification=1):
    ends = (ONE, TWO) if forward else (TWO, ONE)
    words = (identification, more << 13 | offset // 8)
    return (struct.pack("!BBHHHBBH", 0x45, 0, 20 + len(part), *words, 64, 6, 0) + ends[0] + ends[1] + part).hex()


def tcp(forward, flags, sequence, payload=b"", ports=(5000, 80), words=5, acknowledged=1):
    ports = ports if forward else ports[::-1]
    return struct.pack("!HHIIHHHH", *ports, sequence % 2**32, acknowledged, words << 12 | flags, 9, 0, 0) + payload


def segment(forward, flags, sequence, payload=b"", **known):
    return ipv4(forward, tcp(forward, flags, sequence, payload, **known))


START = 2**32 - 2  # of the bytes from 10.0.0.1, whose numbers wrap after two of them
WHOLE = tcp(False, ACK, 51, b"hell\n")
FRAMES = (
    segment(True, SYN, START - 1),
    segment(False, SYN | ACK, 1000),
    segment(True, ACK, START),
    # 4: 7 bytes, and 5 to 7: bytes of which those in the middle come last.
    segment(True, ACK, START, b"GET /\r\n"),
    segment(False, ACK, 1001, b"abc"),
    segment(False, ACK, 1007, b"ghi"),
    segment(False, ACK, 1004, b"def"),
    # 8: repeated, 9: repeated in part with 5 bytes more, 10: other bytes at 0 and 1.
    segment(True, ACK, START, b"GET /\r\n"),
    segment(True, ACK, START + 4, b"/\r\nX\\\x00\xff\t"),
    segment(True, ACK, START, b"PUT"),
    # 11 and 12: FIN of both, 13: bytes after it, 14: RST after both.
    segment(False, FIN | ACK, 1010),
    segment(True, FIN | ACK, START + 12, b"bye"),
    segment(False, ACK, 1010, b"zz"),
    segment(True, RST, START + 16),
    # 15 and 16: another connection, which is refused, and 17 to 19: a third one, of which bytes are missing.
    segment(True, SYN, 7777),
    segment(False, RST | ACK, 0),
    segment(True, SYN, 7777),
    segment(False, SYN | ACK, 50),
    segment(True, ACK, 7780, b"cd"),
    segment(True, ACK, 7790, b"k"),
    # 21: what would fill the gap, cut; 22: the same with a data offset of 4; 23: far after the window; 24: other ports.
    segment(True, ACK, 7778, b"ab")[:-2],
    segment(True, ACK, 7778, b"ab", words=4),
    segment(True, ACK, 7778 + 3_000_000, b"far"),
    segment(True, ACK, 7778, b"ab", ports=(5001, 80)),
    # 25 and 26: a segment in two fragments.
    ipv4(False, WHOLE[:24], more=1, identification=7),
    ipv4(False, WHOLE[24:], offset=24, identification=7),
)
WIRE = [len(it) // 2 for it in FRAMES]
WIRE[20] += 1

# Connection, packet, direction, and what happens, as a text and as a JSON object: (kind, ..).
EVENTS = (
    (1, 1, None, ("Begin",)),
    (1, 4, 1, ("Bytes", 0, b"GET /\r\n", ["GET /\\r\\n"])),
    (1, 5, 2, ("Bytes", 0, b"abc", ["abc"])),
    (1, 6, 2, ("Gap", 3, 6)),
    (1, 7, 2, ("Bytes", 3, b"defghi", ["defghi"])),
    (1, 9, 1, ("Bytes", 7, b"X\\\x00\xff\t", ["X\\\\\\x00\\xff\\t"])),
    (1, 10, 1, ("Conflicts", 2, 0)),
    (1, 12, 1, ("Bytes", 12, b"bye", ["bye"])),
    (1, 13, 2, ("Refused", {"AfterFin": {"fin": 9}}, "it has a byte or FIN after the FIN at 9")),
    (1, None, 1, ("DirectionEnd", 15, True, False, 2, 0)),
    (1, None, 2, ("DirectionEnd", 9, True, False, 0, 0)),
    (1, None, None, ("End", "Closed", "closed")),
    (2, 15, None, ("Begin",)),
    (2, 16, 2, ("JoinedLate",)),
    (2, None, 1, ("DirectionEnd", 0, False, False, 0, 0)),
    (2, None, 2, ("DirectionEnd", 0, False, True, 0, 0)),
    (2, None, None, ("End", "Reset", "reset")),
    (3, 17, None, ("Begin",)),
    (3, 19, 1, ("Gap", 0, 2)),
    (3, 23, 1, ("Refused", {"OutsideWindow": {"window_end": 2 << 20}}, f"it ends after the window, which ends at {2 << 20}")),
    (3, 26, 2, ("Bytes", 0, b"hell\n", ["hell\\n"])),
    (3, None, 1, ("Gap", 0, 2)),
    (3, None, 1, ("Bytes", 2, b"cd", ["cd"])),
    (3, None, 1, ("Gap", 4, 12)),
    (3, None, 1, ("Bytes", 12, b"k", ["k"])),
    (3, None, 1, ("DirectionEnd", 0, False, False, 0, 0)),
    (3, None, 2, ("DirectionEnd", 5, False, False, 0, 0)),
    (3, None, None, ("End", "Established", "open")),
)
# The same with a window of 4: 4 bytes are kept that were written, and 4 after them are taken; while fewer than 4 were written, 8 in all.
NARROW = (
    (1, 1, None, ("Begin",)),
    (1, 4, 1, ("Bytes", 0, b"GET /\r\n", ["GET /\\r\\n"])),
    (1, 5, 2, ("Bytes", 0, b"abc", ["abc"])),
    (1, 6, 2, ("Refused", None, "it ends after the window, which ends at 8")),
    (1, 7, 2, ("Bytes", 3, b"def", ["def"])),
    (1, 9, 1, ("Refused", None, "it ends after the window, which ends at 11")),
    (1, 12, 1, ("Refused", None, "it ends after the window, which ends at 11")),
    (1, 13, 2, ("Refused", None, "it ends after the window, which ends at 10")),
    (1, 14, 1, ("Refused", None, "it ends after the window, which ends at 11")),
    (1, None, 1, ("DirectionEnd", 7, False, False, 0, 0)),
    (1, None, 2, ("DirectionEnd", 6, False, False, 0, 0, 9)),
    (1, None, None, ("End", "Closed", "closed")),
    (2, 15, None, ("Begin",)),
    (2, 16, 2, ("JoinedLate",)),
    (2, None, 1, ("DirectionEnd", 0, False, False, 0, 0)),
    (2, None, 2, ("DirectionEnd", 0, False, True, 0, 0)),
    (2, None, None, ("End", "Reset", "reset")),
    (3, 17, None, ("Begin",)),
    (3, 19, 1, ("Gap", 0, 2)),
    (3, 20, 1, ("Refused", None, "it ends after the window, which ends at 8")),
    (3, 23, 1, ("Refused", None, "it ends after the window, which ends at 8")),
    (3, 26, 2, ("Bytes", 0, b"hell\n", ["hell\\n"])),
    (3, None, 1, ("Gap", 0, 2)),
    (3, None, 1, ("Bytes", 2, b"cd", ["cd"])),
    (3, None, 1, ("DirectionEnd", 0, False, False, 0, 0)),
    (3, None, 2, ("DirectionEnd", 5, False, False, 0, 0)),
    (3, None, None, ("End", "Established", "open")),
)


def conflicts(count, first):
    return f"{count} conflict{'' if count == 1 else 's'} from {first}"


def missing(count):
    return f"{count} byte{'' if count == 1 else 's'} missing"


def in_hex(data):
    """One line, of 16 bytes at most."""
    pairs = [data[at : at + 2].hex() for at in range(0, len(data), 2)]
    columns = "".join(f" {it:<4}" for it in pairs + [""] * (8 - len(pairs)))
    letters = "".join(chr(it) if 33 <= it <= 126 else "." for it in data)
    return f"\t0x0000: {columns}  {letters}"


def text(event, is_hex=False):
    connection, packet, direction, (kind, *about) = event
    start = {1: ">", 2: "<", None: f"connection {connection}"}[direction]
    if packet:
        start += f" packet {packet}"
    elif kind in ("Bytes", "Gap"):
        start += " at the end"
    match kind, about:
        case "Begin", []:
            return [f"{start}: begins"]
        case "JoinedLate", []:
            return [f"{start}: joined late"]
        case "Missing", [position, count]:
            return [f"{start}: {missing(count)} from {position}"]
        case "Bytes", [position, data, lines]:
            return [f"{start}: bytes {position}..{position + len(data)}"] + ([in_hex(data)] if is_hex else [f"\t{it}" for it in lines])
        case "Gap", [first, end]:
            return [f"{start}: gap {first}..{end}"]
        case "Conflicts", [count, first]:
            return [f"{start}: {conflicts(count, first)}"]
        case "Refused", [_, reason]:
            return [f"{start}: refused, {reason}"]
        case "DirectionEnd", [size, finished, late, count, first, *more]:
            fin, lost = (tuple(more) + (None, 0)[len(more) :])[:2]
            notes = ("FIN" if finished else "no FIN" if fin is None else f"FIN at {fin} after missing bytes",)
            notes += (("SYN not seen",) if late else ()) + ((missing(lost),) if lost else ()) + ((conflicts(count, first),) if count else ())
            return [", ".join((f"{start} ends: bytes 0..{size}", *notes))]
        case "End", [_, state]:
            return [f"{start}: {state}"]


def member(event):
    connection, packet, direction, (kind, *about) = event
    found = {"connection": connection} | ({"packet": packet} if packet else {}) | ({"direction": direction} if direction else {})
    match kind, about:
        case ("Begin" | "JoinedLate") as value, []:
            pass
        case "Missing", [position, count]:
            value = {"Missing": {"position": position, "count": count}}
        case "Bytes", [position, data, _]:
            value = {"Bytes": {"position": position, "len": len(data), "bytes": data.hex()}}
        case "Gap", [first, end]:
            value = {"Gap": {"start": first, "end": end}}
        case "Conflicts", [count, first]:
            value = {"Conflicts": {"count": count, "first": first}}
        case "Refused", [reason, _]:
            value = {"Refused": reason}
        case "DirectionEnd", [size, finished, late, count, _, *more]:
            fin, lost = (tuple(more) + (None, 0)[len(more) :])[:2]
            fin = size if finished else fin
            stands = {} if fin is None else {"fin": fin}
            end = {"len": size, "is_finished": finished} | stands | {"joined_late": late, "missing": lost, "conflicts": count}
            value = {"DirectionEnd": end}
        case "End", [state, _]:
            value = {"End": state}
    return [json.dumps(found | {"event": value}, separators=(",", ":"))]


def only(direction):
    return [it for it in EVENTS if it[2] in (None, direction)]


def lines(events, show):
    return [line for it in events for line in show(it)]


def turned():
    """As the second endpoint names them."""
    other = {None: None, 1: 2, 2: 1}
    found = [(it[0], it[1], other[it[2]], it[3]) for it in EVENTS]
    # At the end that from the first one comes first.
    ends, order = [], []
    for it in found + [None]:
        if it and it[1] is None and it[2]:
            ends.append(it)
        else:
            order += sorted(ends, key=lambda end: end[2]) + ([it] if it else [])
            ends = []
    return order


def rows():
    yield ["follow", ID], lines(EVENTS, text)
    yield ["follow", BACK], lines(turned(), text)
    yield ["follow", "--hex", ID], lines(EVENTS, lambda it: text(it, True))
    yield ["follow", "--json", ID], lines(EVENTS, member)
    yield ["follow", "--direction", "1", ID], lines(only(1), text)
    yield ["follow", "--direction", "2", "--json", ID], lines(only(2), member)
    yield ["follow", "--raw", "--direction", "2", ID], ["abcdefghihell"]
    yield ["follow", "--raw", "--direction", "1", BACK], ["abcdefghihell"]
    yield ["follow", "--window", "4", ID], lines(NARROW, text)
    yield ["follow", "--window", "1K", "--only", "frame=1..14", ID], lines(EVENTS[:12], text)
    yield ["follow", "10.0.0.1.5000-10.0.0.2.80"], lines(EVENTS, text)
    yield ["follow", "--raw", "--direction", "2", "10.0.0.1.5000-10.0.0.2:80"], ["abcdefghihell"]
    yield ["follow", "10.0.0.1.5000 > 10.0.0.2.80"], lines(EVENTS, text)
    yield ["follow", "10.0.0.2.80 > 10.0.0.1.5000 TCP"], lines(turned(), text)
    yield ["follow", "10.0.0.1:5000-10.0.0.2:81"], ["no segments"]
    yield ["follow", "--hex", "--direction", "1", "10.0.0.1:5000-10.0.0.2:81"], ["no segments"]
    yield ["follow", "--json", "10.0.0.1:5000-10.0.0.2:81"], ['{"event":"NoSegments"}']
    yield ["follow", "--raw", "10.0.0.1:5000-10.0.0.3:80"], []
    for word in ("", "10.0.0.1:5000", "10.0.0.1-10.0.0.2", "10.0.0.1:5000-10.0.0.2:65536", "10.0.0.1:5000-[2001:db8::1]:80", "[10.0.0.1]:1-[10.0.0.2]:2", "10.0.0.1:+1-10.0.0.2:2", "10.0.0.1.-10.0.0.2.2", "10.0.0.1.65536-10.0.0.2.2"):
        yield ["follow", word], [f"error: invalid value '{word}' for '<ID>': not HOST:PORT-HOST:PORT, as 10.0.0.1:4000-10.0.0.2:80"]
    yield ["follow", "--window", "4G", ID], ["error: invalid value '4G' for '--window <SIZE>': too large"]
    yield ["follow", "--window", "0", ID], ["error: invalid value '0' for '--window <SIZE>': too small"]
    yield ["follow", "--window", "0K", ID], ["error: invalid value '0K' for '--window <SIZE>': too small"]
    yield ["follow", "--window", "x", ID], ["error: invalid value 'x' for '--window <SIZE>': not a number of bytes, or of K, M or G"]


def over_ipv6(forward, flags, sequence, payload=b"", states_length=True):
    ends, part = ((SIX, SEVEN) if forward else (SEVEN, SIX)), tcp(forward, flags, sequence, payload, ports=(443, 40000))
    return (struct.pack("!IHBB", 6 << 28, len(part) if states_length else 0, 6, 64) + ends[0] + ends[1] + part).hex()


# The begin isn't there, and RST has a text that is no part of the stream (RFC 1122, section 4.2.2.12).
LATE = (
    over_ipv6(False, ACK, 5, b"two\nlines"),
    over_ipv6(True, ACK, 90, bytes(range(16)) + b"q"),
    over_ipv6(False, RST, 14, b"why"),
    over_ipv6(False, ACK, 14, b"late"),
    over_ipv6(True, ACK, 107, b"on"),
    # 6 and 7: a payload length of 0, and all that follows is the payload; of 6 not all of it was captured.
    over_ipv6(True, ACK, 109, b"cut", states_length=False)[:-2],
    over_ipv6(True, ACK, 109, b"all", states_length=False),
)
LATE_WIRE = [len(it) // 2 for it in LATE]
LATE_WIRE[5] += 1
LATE_ID = "[2001:db8::6]:443-[2001:db8::7]:40000"
LATE_LINES = [
    "connection 1 packet 1: begins",
    "< packet 1: joined late",
    "< packet 1: bytes 0..9",
    "\ttwo\\n",
    "\tlines",
    "> packet 2: joined late",
    "> packet 2: bytes 0..17",
    "\t" + "".join({9: "\\t", 10: "\\n\n\t", 13: "\\r"}.get(it, f"\\x{it:02x}") for it in range(16)) + "q",
    "< packet 4: refused, the connection was reset",
    "> packet 5: bytes 17..19",
    "\ton",
    "> packet 7: bytes 19..22",
    "\tall",
    "> ends: bytes 0..22, no FIN, SYN not seen",
    "< ends: bytes 0..9, no FIN, SYN not seen",
    "connection 1: reset",
]
HEX_LINES = [
    "connection 1 packet 1: begins",
    "> packet 2: joined late",
    "> packet 2: bytes 0..17",
    "\t0x0000:  0001 0203 0405 0607 0809 0a0b 0c0d 0e0f  ................",
    "\t0x0010:  71                                       q",
    "> packet 5: bytes 17..19",
    "\t0x0000:  6f6e                                     on",
    "> packet 7: bytes 19..22",
    "\t0x0000:  616c 6c                                  all",
    "> ends: bytes 0..22, no FIN, SYN not seen",
    "connection 1: reset",
]
LATE_ROWS = [
    (["follow", LATE_ID], "\n".join(LATE_LINES).split("\n")),
    (["follow", "--hex", "--direction", "1", LATE_ID], HEX_LINES),
]
# Bytes that aren't in the capture, though the other endpoint acknowledged them; SYN before the end of a connection; segments with neither
# SYN, ACK nor RST; FIN after missing bytes; packets of which bytes weren't captured.
FAR = 5_000_000
LOST = (
    segment(True, SYN, 99),
    segment(False, SYN | ACK, 499, acknowledged=100),
    segment(True, ACK, 100, b"ab", acknowledged=500),
    # 4 and 5: 3 and 2 bytes are missing before them.
    segment(True, ACK, 105, b"fgh", acknowledged=500),
    segment(True, ACK, 110, b"kl", acknowledged=500),
    # 6: one of the missing bytes is acknowledged, 7: the first gap and the bytes after it.
    segment(False, ACK, 500, b"1", acknowledged=103),
    segment(False, ACK, 501, acknowledged=108),
    # 8 and 9: bytes that come after they were given up, and with 9 two that fill the next gap.
    segment(True, ACK, 102, b"cde", acknowledged=501),
    segment(True, ACK, 103, b"xyfghij", acknowledged=501),
    # 10: FIN after 3 missing bytes, 11: none of them is acknowledged, 12: all of them and FIN.
    segment(True, FIN | ACK, 115, acknowledged=501),
    segment(False, ACK, 501, acknowledged=112),
    segment(False, FIN | ACK, 501, acknowledged=116),
    # 13 and 14: SYN, and the same again, 17: SYN with another number before the end.
    segment(True, SYN, 7000),
    segment(True, SYN, 7000),
    segment(False, SYN | ACK, 900, acknowledged=7001),
    segment(True, ACK, 7001, b"one", acknowledged=901),
    segment(True, SYN, 9000),
    segment(False, SYN | ACK, 300, acknowledged=9001),
    # 19: no endpoint takes it, 21: FIN after 2 missing bytes.
    segment(True, 0, 9001, b"zz"),
    segment(True, ACK, 9001, b"two", acknowledged=301),
    segment(True, FIN | ACK, 9006, acknowledged=301),
    segment(True, SYN, 20000),
    segment(False, SYN | ACK, 600, acknowledged=20001),
    segment(True, ACK, 20001, b"abc", acknowledged=601),
    # 25: so many bytes are missing that the window ends before them.
    segment(False, ACK, 601, acknowledged=20004 + FAR),
    segment(True, ACK, 20004 + FAR, b"def", acknowledged=601),
    # 27: a packet of which 2 bytes weren't captured, 28: one that has all, of which padding wasn't.
    segment(True, ACK, 20007 + FAR, b"ghijkl", acknowledged=601)[:-4],
    segment(True, ACK, 20007 + FAR, b"ghi", acknowledged=601) + "00",
)
LOST_WIRE = [len(it) // 2 for it in LOST]
LOST_WIRE[26] += 2
LOST_WIRE[27] += 2
LOST_EVENTS = (
    (1, 1, None, ("Begin",)),
    (1, 3, 1, ("Bytes", 0, b"ab", ["ab"])),
    (1, 4, 1, ("Gap", 2, 5)),
    (1, 6, 2, ("Bytes", 0, b"1", ["1"])),
    (1, 7, 1, ("Missing", 2, 3)),
    (1, 7, 1, ("Bytes", 5, b"fgh", ["fgh"])),
    (1, 7, 1, ("Gap", 8, 10)),
    (1, 9, 1, ("Bytes", 8, b"ijkl", ["ijkl"])),
    (1, 12, 1, ("Missing", 12, 3)),
    (1, None, 1, ("DirectionEnd", 15, True, False, 0, 0, 15, 6)),
    (1, None, 2, ("DirectionEnd", 1, True, False, 0, 0)),
    (1, None, None, ("End", "Closed", "closed")),
    (2, 13, None, ("Begin",)),
    (2, 16, 1, ("Bytes", 0, b"one", ["one"])),
    (2, None, 1, ("DirectionEnd", 3, False, False, 0, 0)),
    (2, None, 2, ("DirectionEnd", 0, False, False, 0, 0)),
    (2, None, None, ("End", "Established", "open")),
    (3, 17, None, ("Begin",)),
    (3, 20, 1, ("Bytes", 0, b"two", ["two"])),
    (3, None, 1, ("DirectionEnd", 3, False, False, 0, 0, 5)),
    (3, None, 2, ("DirectionEnd", 0, False, False, 0, 0)),
    (3, None, None, ("End", "Closing", "half closed")),
    (4, 22, None, ("Begin",)),
    (4, 24, 1, ("Bytes", 0, b"abc", ["abc"])),
    (4, 25, 1, ("Missing", 3, FAR)),
    (4, 26, 1, ("Bytes", 3 + FAR, b"def", ["def"])),
    (4, 28, 1, ("Bytes", 6 + FAR, b"ghi", ["ghi"])),
    (4, None, 1, ("DirectionEnd", 9 + FAR, False, False, 0, 0, None, FAR)),
    (4, None, 2, ("DirectionEnd", 0, False, False, 0, 0)),
    (4, None, None, ("End", "Established", "open")),
)
LOST_ROWS = [
    (["follow", ID], lines(LOST_EVENTS, text)),
    (["follow", "--hex", ID], lines(LOST_EVENTS, lambda it: text(it, True))),
    (["follow", "--json", ID], lines(LOST_EVENTS, member)),
    (["follow", "--raw", ID], ["ab1fghijklonetwoabcdefghi", NO_NEWLINE]),
]
CAPTURES = (
    Worked("follow", 101, FRAMES, list(rows()), wire=WIRE),
    Worked("follow_late", 101, LATE, LATE_ROWS, wire=LATE_WIRE),
    Worked("follow_lost", 101, LOST, LOST_ROWS, wire=LOST_WIRE),
)
