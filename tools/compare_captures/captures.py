"""Captures of many kinds: classic ones that scapy writes, and pcapng files block by block, each with packets of many sizes, in
both byte orders. It takes Debian's `python3-scapy`."""
import random
import struct
import sys

sys.path.append("/usr/lib/python3/dist-packages")
from scapy.layers.inet import IP, UDP
from scapy.layers.inet6 import IPv6
from scapy.layers.l2 import ARP, CookedLinux, CookedLinuxV2, Ether
from scapy.packet import Raw
from scapy.utils import PcapWriter

BILLION = 1_000_000_000
LATEST = 2**32 * BILLION - 1
ETHERNET = 1
NULL, LOOP, SLL, SLL2, RAW = 0, 108, 113, 276, (12, 14, 101, 228, 229)
SECTION, INTERFACE, OBSOLETE, SIMPLE, NAMES, STATISTICS, ENHANCED = 0x0A0D0D0A, 1, 2, 3, 4, 5, 6


def filled(draw, size):
    """So many bytes, 17 again and again, so that they can be stored."""
    return (draw.randbytes(17) * (size // 17 + 1))[:size]


def frames(draw, count):
    """Ethernet frames, from the least to beyond the usual size."""
    sizes = [14, 15, 60, 64, 1514, 9014]
    return [filled(draw, draw.choice(sizes + [draw.randrange(14, 2000)])) for _ in range(count)]


def linked(draw, link, order):
    """A packet of this link, as scapy writes it."""
    inner = draw.choice([IP(src="10.0.0.1", dst="10.0.0.2"), IPv6(src="fe80::1", dst="fe80::2")])
    inner /= UDP(sport=draw.randrange(65536), dport=53) / Raw(filled(draw, draw.randrange(2000)))
    if link == ETHERNET:
        return bytes(Ether(src="02:00:00:00:00:01", dst="02:00:00:00:00:02") / inner)
    if link in RAW:
        return bytes(inner)
    if link in (NULL, LOOP):
        family = 2 if inner.version == 4 else draw.choice([10, 24, 28, 30])
        return struct.pack(">I" if link == LOOP else order + "I", family) + bytes(inner)
    length, address = draw.choice([(6, b"\x02\0\0\0\0\x07\0\0"), (0, bytes(8)), (8, b"\x01" * 8)])
    kind = {"pkttype": draw.choice([0, 1, 3, 4]), "lladdrlen": length, "src": address}
    if draw.random() < 0.1:
        inner = ARP()
    return bytes((CookedLinux if link == SLL else CookedLinuxV2)(**kind, lladdrtype=1) / inner)


def framed(link, packet):
    """The same packet as an Ethernet II frame, by scapy's reading of its link."""
    source = bytes(6)
    if link == ETHERNET:
        return packet
    if link in RAW:
        payload = packet
    elif link in (NULL, LOOP):
        payload = packet[4:]
    else:
        read = (CookedLinux if link == SLL else CookedLinuxV2)(packet)
        source = read.src[:6] if read.lladdrlen == 6 else source
        payload = bytes(read.payload)
        return bytes(6) + source + struct.pack(">H", read.proto) + payload
    ether_type = {4: 0x0800, 6: 0x86DD}[payload[0] >> 4]
    return bytes(6) + source + struct.pack(">H", ether_type) + payload


def classic(path, order, nanoseconds, packets, draw, link=ETHERNET):
    """Writes a classic capture, and gives the packets' times in nanoseconds."""
    writer = PcapWriter(path, linktype=link, endianness=order, nano=nanoseconds, sync=True)
    writer.write_header(None)
    parts, times = BILLION if nanoseconds else 1_000_000, []
    for packet in packets:
        second, part = draw.choice([0, 1_700_000_000, 2**32 - 1]), draw.choice([0, parts - 1, draw.randrange(parts)])
        writer.write_packet(packet, sec=second, usec=part)
        times.append(second * BILLION + part * (BILLION // parts))
    writer.close()
    return times


class Blocks:
    """A pcapng file, block by block, in a byte order."""

    def __init__(self, order):
        self.order, self.bytes, self.interfaces, self.times = order, b"", 0, []
        self.parts, self.offset = 1_000_000, 0

    def pack(self, form, *numbers):
        return struct.pack(self.order + form, *numbers)

    def block(self, kind, body):
        body += bytes(-len(body) % 4)
        length = self.pack("I", len(body) + 12)
        self.bytes += self.pack("I", kind) + length + body + length

    def section(self, options=b""):
        self.interfaces = 0
        self.block(SECTION, self.pack("IHHq", 0x1A2B3C4D, 1, 0, -1) + options)

    def option(self, code, value):
        return self.pack("HH", code, len(value)) + value + bytes(-len(value) % 4)

    def interface(self, snap_len=0, options=b"", link=ETHERNET):
        self.interfaces += 1
        self.block(INTERFACE, self.pack("HHI", link, 0, snap_len) + options)

    def stamp(self):
        """The halves of a time that all interfaces state in the same parts of a second."""
        second = random.Random(len(self.times)).choice([0, 1_000_000_000, 1_700_000_000])
        count = (second * self.parts + (len(self.times) * 123_456_789_123) % self.parts) % 2**64
        time = count * BILLION // self.parts + self.offset * BILLION
        self.times.append(min(max(time, 0), LATEST))
        return count >> 32, count % 2**32

    def enhanced(self, interface, packet, options=b""):
        body = packet + bytes(-len(packet) % 4)
        self.block(ENHANCED, self.pack("IIIII", interface, *self.stamp(), len(packet), len(packet)) + body + options)

    def obsolete(self, interface, packet):
        self.block(OBSOLETE, self.pack("HHIIII", interface, 3, *self.stamp(), len(packet), len(packet)) + packet)

    def simple(self, packet, snap_len=0):
        self.times.append(0)
        held = packet[:snap_len] if snap_len else packet
        self.block(SIMPLE, self.pack("I", len(packet)) + held)
        return held


# Resolutions of interfaces, as their option has them, and offsets in seconds.
RESOLUTIONS = {
    "seconds": (0, 0),
    "milliseconds": (3, 0),
    "nanoseconds": (9, 0),
    "picoseconds": (12, 0),
    "halves ten times over": (138, 0),
    "an hour later": (6, 3600),
    "earlier than 1970": (9, -1_100_000_000),
}


def pcapng(order, kind, draw):
    """The bytes of a file, the packets as its makers count them, and their times."""
    file, packets = Blocks(order), frames(draw, 20)
    file.section()
    if kind == "simple, cut":
        file.interface(snap_len=100)
        packets = [file.simple(packet, 100) for packet in packets]
        return file.bytes, packets, file.times
    file.interface()
    if kind == "long options":
        comment = file.option(1, bytes([65]) * 60_000)
        file.parts = BILLION
        file.interfaces, file.bytes = 0, b""
        file.section()
        file.interface(options=comment * 4 + file.option(9, b"\x09") + file.option(0, b""))
    if kind in RESOLUTIONS:
        resolution, file.offset = RESOLUTIONS[kind]
        file.parts = 2 ** (resolution - 128) if resolution >= 128 else 10**resolution
        offset = file.option(14, file.pack("q", file.offset)) if file.offset else b""
        file.interfaces, file.bytes = 0, b""
        file.section()
        file.interface(options=file.option(9, bytes([resolution])) + offset + file.option(0, b""))
    for number, packet in enumerate(packets):
        if kind == "simple":
            file.simple(packet)
        elif kind == "obsolete" or (kind == "mixed" and number % 2):
            file.obsolete(0, packet)
        elif kind == "comments":
            file.enhanced(0, packet, file.option(1, b"a comment") + file.option(0, b""))
        else:
            file.enhanced(number % file.interfaces, packet)
        if kind == "other blocks":
            # tshark lists a custom block as a record of its own, so there is none here
            kind_of_block, size = draw.choice([(NAMES, 4), (STATISTICS, 12)])
            file.block(kind_of_block, bytes(size))
        if kind == "sections" and number % 5 == 4:
            file.order = "<" if file.order == ">" else ">"
            file.section()
            file.interface()
    return file.bytes, packets, file.times


def links_of_a_section(order, draw):
    """A section with an interface of each link, 30 packets, and each packet's frame."""
    file, links = Blocks(order), [SLL2, ETHERNET, NULL, LOOP, SLL, *RAW]
    file.section()
    for link in links:
        file.interface(link=link)
    packets, wanted = [], []
    for _ in range(30):
        interface = draw.randrange(len(links))
        packets.append(linked(draw, links[interface], order))
        wanted.append(framed(links[interface], packets[-1]))
        file.enhanced(interface, packets[-1])
    return file.bytes, packets, wanted, file.times


# Links that aren't read: PPP, wireless networks with and without radiotap, netlink.
OTHERS = (9, 105, 127, 253)


def passed_over(order, draw):
    """The same with links that aren't read, packets too long for a line and packets without a frame, and what
    `lines --skip` says of them."""
    file, links = Blocks(order), [ETHERNET, RAW[2], SLL, *OTHERS]
    file.section()
    for link in links:
        file.interface(link=link)
    packets, wanted, counts, times = [], [], [0, 0, 0], []
    for _ in range(40):
        interface = draw.randrange(len(links))
        link, kind = links[interface], draw.randrange(3)
        if link in OTHERS:
            packet, reason = filled(draw, draw.choice([14, 1500, 150_000])), 0
        elif kind == 1:
            packet, reason = bytes([0x45]) * draw.choice([100_000, 262_112]), 1
        elif kind == 2 and link != ETHERNET:
            packet, reason = (b"\x55" * 40 if link in RAW else bytes(14) + b"\0\x04" + bytes(60)), 2
        else:
            packet, reason = linked(draw, link, order), None
        packets.append(packet)
        file.enhanced(interface, packet)
        if reason is None:
            wanted.append(framed(link, packet))
            times.append(file.times[-1])
        else:
            counts[reason] += 1
    message = "passed over: {} of other links, {} too long, {} without a frame\n".format(*counts)
    return file.bytes, packets, wanted, message, times


KINDS = ["enhanced", "simple", "simple, cut", "obsolete", "mixed", "comments", "long options", *RESOLUTIONS]
KINDS += ["other blocks", "sections"]


class Capture:
    """A file, the packets in it and their times. `wanted` are the frames that `captures lines` has to print where these aren't
    the packets themselves; `words` are its further words, and `message` is what it has to say, after its name and the file's."""

    def __init__(self, label, kind, file, packets, times, wanted=None, words=(), message=""):
        self.label, self.kind, self.file, self.packets, self.times = label, kind, file, packets, times
        self.wanted, self.words, self.message = wanted, words, message


def captures(seed, path):
    """All captures. Those of scapy are written to this path, and read there."""
    draw = random.Random(seed)

    def classic_capture(label, kind, order, nanoseconds, packets, link=ETHERNET, wanted=None):
        times = classic(path, order, nanoseconds, packets, draw, link)
        with open(path, "rb") as file:
            return Capture(label, kind, file.read(), packets, times, wanted)

    for order in "<>":
        name = "low byte first" if order == "<" else "high byte first"
        for nanoseconds in (False, True):
            label = f"pcap, {name}, {'nano' if nanoseconds else 'micro'}seconds"
            yield classic_capture(label, "classic", order, nanoseconds, frames(draw, 20))
        for link in [NULL, LOOP, SLL, SLL2, *RAW]:
            packets = [linked(draw, link, order) for _ in range(20)]
            wanted = [framed(link, packet) for packet in packets]
            yield classic_capture(f"pcap, {name}, link type {link}", "link", order, False, packets, link, wanted)
        file, packets, wanted, times = links_of_a_section(order, draw)
        yield Capture(f"pcapng, {name}, links", "links", file, packets, times, wanted)
        file, packets, wanted, message, times = passed_over(order, draw)
        yield Capture(f"pcapng, {name}, --skip", "skip", file, packets, times, wanted, ("--skip",), message)
        for kind in KINDS:
            file, packets, times = pcapng(order, kind, draw)
            yield Capture(f"pcapng, {name}, {kind}", kind, file, packets, times)
