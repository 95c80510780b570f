"""How many TCP conversations packets_cli follows at most in flows, and how much it holds of all, by docs/PACKETS.md: captures that are
too long for a row."""

import json
import struct
import subprocess

from conversations import ONE, packet
from follow import ACK, FIN, SYN, tcp

COUNT = 65_536
# Of a direction.
KEPT = 65_536
HELD = 64 << 20
TO = bytes([10, 0, 0, 9])


def segment(number, flags, sequence, payload=b""):
    """From another host and port for each number."""
    source = ONE[:2] + struct.pack("!H", number >> 8)
    return bytes.fromhex(packet(source, TO, 6, tcp(True, flags, sequence, payload, ports=(1024 + number % 256, 80))))


def capture(packets):
    """A pcap file of raw IPv4, without times."""
    yield struct.pack("<IHHiIII", 0xA1B2C3D4, 2, 4, 0, 0, 1 << 18, 101)
    for it in packets:
        yield struct.pack("<IIII", 0, 0, len(it), len(it)) + it


def flows(program, packets):
    """The members of the conversations, in the order in which they begin."""
    words = [program, "flows", "--by", "first", "--json", "-"]
    done = subprocess.run(words, input=b"".join(capture(packets)), capture_output=True, timeout=120, check=True)
    return json.loads(done.stdout)["conversations"]


def many():
    """One conversation more than are followed, and after it one more segment of the first and of the last one."""
    yield from (segment(number, SYN, 99) for number in range(COUNT + 1))
    yield from (segment(number, ACK, 100, b"a") for number in (0, COUNT))


def long():
    """64 KiB of each conversation, and half of it of the first one. The last one repeats three bytes, one of them as another, has more than
    the rest that can be held, and then those three again and FIN. At last one byte more of the first one."""
    half, last = bytes(KEPT // 2), HELD // KEPT
    yield segment(0, ACK, 100, half)
    for number in range(1, last):
        yield segment(number, ACK, 100, half)
        yield segment(number, ACK, 100 + len(half), half)
    yield from (segment(last, ACK, 100, text) for text in (b"abc", b"aXc"))
    yield segment(last, ACK, 103, half)
    yield segment(last, ACK | FIN, 100, b"abc")
    yield segment(0, ACK, 100, b"a")


def checked(program):
    found = flows(program, many())
    known = [(it.get("state"), it.get("followed")) for it in found]
    last = [("Established", True), *[("SynSent", True)] * (COUNT - 1), (None, False)]
    yield "65,536 conversations are followed", known == last
    found = flows(program, long())
    known = [(it["state"], it["followed"], it["forward"]["repeated"], it["forward"]["conflicts"]) for it in found]
    others = [("Established", True, 0, 0)] * (HELD // KEPT - 1)
    yield "64 MiB are held", known == [("Established", True, 1, 1), *others, ("Closing", False, 3, 1)]
