"""Captures of generated packets: each link type of docs/CAPTURES.md, each protocol of docs/PACKETS.md, and their faults.

A packet knows by the names in `traits` what was done to it, so that a rule can say where another program may differ. Messages,
fragments and hostile frames are those of tools/hostile_frames.
"""

import dataclasses
import itertools
import os
import struct
import sys
import types

HERE = os.path.dirname(os.path.abspath(__file__))
sys.path[:0] = [os.path.join(HERE, "..", "hostile_frames"), os.path.join(HERE, "..", "compare_captures")]
import captures
import lines
from lines import AUTHENTICATION, DESTINATION, FRAGMENT, HOP_BY_HOP, ICMP, ICMPV6, MACSEC, ROUTING, TCP, UDP

BILLION = 10**9
ETHERNET, NULL, LOOP, SLL, SLL2 = captures.ETHERNET, captures.NULL, captures.LOOP, captures.SLL, captures.SLL2
RAW, RAW4, RAW6 = (12, 14, 101), 228, 229
LINKS = (ETHERNET, NULL, LOOP, SLL, SLL2, *RAW, RAW4, RAW6)
# PPP, wireless networks with and without radiotap, netlink, USB.
OTHER_LINKS = captures.OTHERS + (220,)
IPV4, ARP, IPV6 = 0x0800, 0x0806, 0x86DD
# Of BSD; Linux has 10.
FAMILIES6 = (10, 24, 28, 30)
# Hardware types of cooked captures of whose packets no frame is made.
NO_FRAME = (770, 803, 824)
LONGEST_FRAME = 99_991
LOOSE, STRICT, RECORD = 131, 137, 7


@dataclasses.dataclass
class Packet:
    """A record of a capture: its link, the bytes that were captured, and what its maker did."""

    link: int
    data: bytes
    traits: frozenset = frozenset()
    # The bytes that were sent, where not all were captured.
    length: int = None
    interface: int = 0
    time: int = 0

    def frame(self):
        """The Ethernet frame that stands for the packet by docs/CAPTURES.md, or None."""
        made = framed(self.link, self.data)
        return made if made and len(made) <= LONGEST_FRAME else None


def framed(link, data):
    """The Ethernet frame that is made of a packet of this link, after the table of docs/CAPTURES.md."""
    source, number = bytes(6), lambda at, size=2: int.from_bytes(data[at : at + size], "big")
    if link == ETHERNET:
        return data
    if link in (*RAW, RAW4, RAW6):
        ether_type, payload = {4: IPV4, 6: IPV6}.get(data[0] >> 4 if data else 0), data
    elif link in (NULL, LOOP):
        if len(data) < 4:
            return None
        families = {number(0, 4)} | ({int.from_bytes(data[:4], "little")} if link == NULL else set())
        ether_type = IPV4 if 2 in families else IPV6 if families & set(FAMILIES6) else None
        payload = data[4:]
    elif link in (SLL, SLL2):
        size = 16 if link == SLL else 20
        if len(data) < size:
            return None
        ether_type, hardware, length, at = (number(14), number(2), number(4), 6) if link == SLL else (number(0), number(8), data[11], 12)
        if ether_type < 1536 or hardware in NO_FRAME:
            return None
        source, payload = data[at : at + 6] if length == 6 else source, data[size:]
    else:
        return None
    return None if ether_type is None else bytes(6) + source + struct.pack("!H", ether_type) + payload


# Links


def linked(draw, link, ether_type, payload, source=None, families=FAMILIES6):
    """What a network layer packet is on a link that can have it, else on Ethernet: the link, and the bytes."""
    is_ip = ether_type in (IPV4, IPV6)
    if (link not in (ETHERNET, SLL, SLL2) and not is_ip) or {RAW4: IPV6, RAW6: IPV4}.get(link) == ether_type:
        link = ETHERNET
    source = source or bytes([2, 0, 0, 0, 0, draw.randrange(1, 9)])
    if link == ETHERNET:
        return link, bytes([2, 0, 0, 0, 1, draw.randrange(1, 9)]) + source + struct.pack("!H", ether_type) + payload
    if link in (NULL, LOOP):
        family = 2 if ether_type == IPV4 else draw.choice(families)
        return link, struct.pack(">I" if link == LOOP else draw.choice("<>") + "I", family) + payload
    if link in (SLL, SLL2):
        hardware, length = draw.choice(((1, 6), (1, 6), (1, 6), (65534, 0), (512, 8), (772, 6)))
        kind, address = draw.randrange(5), (source + b"\7\7")[:length].ljust(8, b"\0")
        if link == SLL:
            return link, struct.pack("!HHH", kind, hardware, length) + address + struct.pack("!H", ether_type) + payload
        return link, struct.pack("!HHIHBB", ether_type, 0, draw.randrange(1, 4), hardware, kind, length) + address + payload
    return link, payload


# Headers


def host(draw, version):
    at = draw.randrange(1, 250)
    return bytes([10, 0, draw.randrange(4), at]) if version == 4 else bytes.fromhex("fd00") + bytes(13) + bytes([at])


def sender_of(draw, version=None):
    """Both ends of a message, with a protocol, as lines.Sender has them; the identification is no other sender's."""
    it = lines.Sender(draw)
    it.version = version or draw.choice((4, 6))
    it.channel, it.identifiers, it.options, it.chain, it.final = 0, (), b"", (), None
    it.addresses = host(draw, it.version) + host(draw, it.version)
    draw.names = getattr(draw, "names", 0) + 1
    it.identification = draw.names if it.version == 4 else draw.names | draw.getrandbits(8) << 24
    own, other = (ICMP, ICMPV6) if it.version == 4 else (ICMPV6, ICMP)
    it.protocol = draw.choices((UDP, TCP, own, other, draw.choice((132, 253, 47, 50, 59))), (40, 30, 20, 3, 7))[0]
    return it


def sealed_for(draw, sender, message):
    """The message with its checksum: by the final destination where a source route has addresses left."""
    size = len(sender.addresses) // 2
    final = sender.final or sender.addresses[size:]
    ends = types.SimpleNamespace(protocol=sender.protocol, addresses=sender.addresses[:size] + final)
    return lines.sealed(draw, ends, message)


def message_of(draw, sender, size=None):
    payload = draw.randbytes(draw.choice((draw.size(), draw.size(), 1400)) if size is None else size)
    make = {UDP: lines.udp, TCP: lines.tcp, ICMP: lines.icmp, ICMPV6: lines.icmp}.get(sender.protocol)
    return sealed_for(draw, sender, make(draw, payload) if make else payload)


def ipv4_bytes(sender, part, units=0, more=False, flags=0, total=None, words=None, version=4):
    protocol, options = sender.protocol, sender.options
    for following in sender.chain:
        part, protocol = authentication(protocol) + part, AUTHENTICATION
        assert following == AUTHENTICATION
    size = 20 + len(options)
    head = bytes([version << 4 | (size // 4 if words is None else words), 0])
    head += struct.pack("!HHH", size + len(part) if total is None else total, sender.identification & 0xFFFF, flags | 0x2000 * more | units)
    head += bytes([64, protocol, 0, 0]) + sender.addresses + options
    value = 65535 - int.from_bytes(head, "big") % 65535 if any(head) else 65535
    return head[:10] + struct.pack("!H", value) + head[12:] + part


def authentication(following, words=4):
    return bytes([following, words]) + bytes.fromhex("0000000001000000001f") + bytes(range(4 * words - 4))


def ipv6_bytes(sender, part, units=0, more=False, length=None, version=6):
    """The headers of `sender.chain` are each a number and what makes the header of the number that follows."""
    headers = list(sender.chain)
    if units or more:
        headers.append((FRAGMENT, lambda following: struct.pack("!BBHI", following, 0, 8 * units | more, sender.identification)))
    body, following = part, sender.protocol
    for kind, make in reversed(headers):
        body, following = make(following) + body, kind
    head = struct.pack("!IHBB", version << 28 | 5 << 20 | 0x12345, len(body) if length is None else length, following, 64)
    return head + sender.addresses + body


def network(sender, part, units=0, more=False, **known):
    """The ether type and the packet."""
    if sender.version == 4:
        return IPV4, ipv4_bytes(sender, part, units, more, **known)
    return IPV6, ipv6_bytes(sender, part, units, more, **known)


def padded(number):
    """An extension header of options, PadN alone."""
    return lambda following: bytes([following, number, 1, 4 + 8 * number]) + bytes(4 + 8 * number)


def atomic(draw):
    name = draw.getrandbits(32)
    return FRAGMENT, lambda following: struct.pack("!BBHI", following, 0, 0, name)


def routed6(draw, sender):
    """A routing header, by which the final destination may be another than that of the IP header. Returns its traits."""
    kind = draw.choice((0, 0, 2, 2, 4, 4, 4, 3, 5, 253, draw.randrange(256)))
    count = 1 if kind == 2 else draw.randrange(1, 5)
    left = draw.choice((0, draw.randrange(1, count + 1)))
    hops = [host(draw, 6) for _ in range(count)]
    traits = {"routing header", f"routing type {kind if kind in (0, 2, 3, 4) else 'unknown'}"}
    if kind == 4:
        left = min(left, count - 1)
        body = struct.pack("!BBH", count - 1, 0, 0) + b"".join(hops)
    elif kind in (0, 2):
        body = bytes(4) + b"".join(hops)
    elif kind == 3:
        # Nothing is left out of the addresses, and there is no padding (RFC 6554, section 3).
        body = bytes(4) + b"".join(hops)
    else:
        body = bytes(4) + draw.randbytes(8 * draw.randrange(3))
    if left:
        traits.add("segments left")
        sender.final = {0: hops[-1], 2: hops[-1], 4: hops[0]}.get(kind)
        if draw.random() < 0.2:
            sender.final = None
            traits.add("checksum of the IP header's destination")
    header = lambda following: bytes([following, (len(body) + 4) // 8 - 1, kind, left]) + body
    sender.chain += ((ROUTING, header),)
    return traits


def routed4(draw, sender):
    """An IPv4 source route (RFC 791, section 3.1). Returns its traits."""
    count = draw.randrange(1, 9)
    hops = [bytes([10, 9, 9, draw.randrange(1, 250)]) for _ in range(count)]
    passed = draw.choice((0, 0, draw.randrange(count + 1), count))
    kind = draw.choice((LOOSE, STRICT))
    option = bytes([kind, 3 + 4 * count, 4 + 4 * passed]) + b"".join(hops)
    before = b"\1" * draw.choice((0, 0, 1, 2, 3))
    options = before + option
    sender.options = (options + bytes(-len(options) % 4))[:40]
    traits = {"source route"}
    if passed < count:
        traits.add("addresses left")
        sender.final = hops[-1]
        if draw.random() < 0.2:
            sender.final = None
            traits.add("checksum of the IP header's destination")
    return traits


def options4(draw):
    """Options that route nothing: no operation, router alert, timestamps, a recorded route, and the end of the list."""
    options = draw.choice((b"\1" * 4, b"\x94\4\0\0", b"\x44\x0c\5\0" + bytes(8), bytes([RECORD, 11, 4]) + bytes(8) + b"\0", b"\0" * 8))
    return options + draw.choice((b"", b"\x94\4\0\0"))


def chain6(draw, sender):
    """Extension headers in the order of RFC 8200, section 4.1, some left out. Returns their traits."""
    traits = set()
    if draw.random() < 0.4:
        sender.chain += ((HOP_BY_HOP, padded(draw.randrange(3))),)
    if draw.random() < 0.3:
        sender.chain += ((DESTINATION, padded(draw.randrange(3))),)
    if draw.random() < 0.5:
        traits |= routed6(draw, sender)
    if draw.random() < 0.15:
        sender.chain += (atomic(draw),)
        traits.add("atomic fragment")
    if draw.random() < 0.15:
        sender.chain += ((AUTHENTICATION, authentication),)
        traits.add("authentication header")
    if draw.random() < 0.2:
        sender.chain += ((DESTINATION, padded(draw.randrange(3))),)
    return traits


def tags(draw, ether_type, packet):
    """Up to four VLAN tags and MACsec headers before a packet: the ether type, the bytes and the traits."""
    traits, count = set(), draw.choices((1, 2, 3, 4), (50, 30, 15, 5))[0]
    for _ in range(count):
        if draw.random() < 0.75:
            packet = struct.pack("!HH", draw.randrange(16) << 12 | draw.randrange(4096), ether_type) + packet
            ether_type = draw.choice(lines.VLAN)
            continue
        traits.add("MACsec")
        flags = draw.choice((0, 0, 0x20, 0x40, 0x10, 0x04, 0x08, 0x0C)) | draw.randrange(4)
        secured = (b"" if flags & 0x0C else struct.pack("!H", ether_type)) + packet
        if flags & 0x0C:
            traits.add("MACsec that isn't unmodified")
        short = len(secured) if len(secured) < 48 and draw.random() < 0.8 else 0
        value = draw.randbytes(16)
        if draw.random() < 0.1:
            value = b""
            traits.add("MACsec without a check value")
        packet = bytes([flags, short]) + struct.pack("!I", draw.getrandbits(32)) + draw.randbytes(8 if flags & 0x20 else 0) + secured + value
        ether_type = MACSEC
    if count == 4:
        traits.add("four tags")
    return ether_type, packet, traits


def arp(draw):
    hardware, protocol = draw.choice(((6, 4), (6, 4), (6, 4), (1, 4), (8, 4), (6, 16)))
    head = struct.pack("!HHBBH", draw.choice((1, 1, 6, 7)), draw.choice((IPV4, IPV4, 0x1234)), hardware, protocol, draw.choice((1, 2, 3, 8)))
    return ARP, head + draw.randbytes(2 * hardware + 2 * protocol)


# Stories: the packets of one message, or one packet


def story_of_a_packet(draw, link):
    """A message in one packet, whose lengths are right."""
    if draw.random() < 0.06:
        yield Packet(*linked(draw, link, *arp(draw)))
        return
    if draw.random() < 0.04:
        ether_type = draw.choice((0x88B5, 0x88CC, 0x8847, 38, 1500, 1501, 0x0600))
        traits = {"other ether type"}
        link, data = linked(draw, link, ether_type, draw.randbytes(draw.randrange(46, 90)))
        yield Packet(link, data, frozenset(traits))
        return
    sender, traits, known = sender_of(draw), set(), {}
    if sender.version == 4:
        kind = draw.random()
        if kind < 0.2:
            traits |= routed4(draw, sender)
        elif kind < 0.3:
            sender.options = options4(draw)
        elif kind < 0.35:
            sender.chain = (AUTHENTICATION,)
            traits.add("authentication header")
        known["flags"] = draw.choice((0, 0x4000))
    elif draw.random() < 0.6:
        traits |= chain6(draw, sender)
    message = message_of(draw, sender)
    ether_type, packet = network(sender, message, **known)
    if draw.random() < 0.05 and sender.version == 6 and len(message) > 0:
        ether_type, packet = network(sender, message, length=0)
        traits.add("IPv6 payload length 0")
    if draw.random() < 0.2:
        ether_type, packet, more = tags(draw, ether_type, packet)
        traits |= more
    elif draw.random() < 0.15 and "IPv6 payload length 0" not in traits:
        # Ethernet frames have 60 bytes at least, without the check sequence.
        packet += bytes(max(0, 46 - len(packet)))
    yield Packet(*linked(draw, link, ether_type, packet), frozenset(traits))


def story_of_fragments(draw, link):
    """A message in fragments, in any order; some of them again, or with what contradicts them."""
    sender, traits = sender_of(draw), {"fragments"}
    if sender.version == 4 and draw.random() < 0.15:
        traits |= routed4(draw, sender)
    elif sender.version == 6 and draw.random() < 0.3:
        sender.chain += ((HOP_BY_HOP, padded(0)),)
        if draw.random() < 0.5:
            traits |= routed6(draw, sender)
    message = message_of(draw, sender, draw.choice((8, 20, 40, draw.randrange(1, 100), draw.randrange(300), 3000)))
    pieces = lines.pieces_of(draw, message)
    plan = [("fragment", it) for it in pieces]
    order = draw.choice(("ascending", "descending", "any", "any"))
    if order == "descending":
        plan.reverse()
    elif order == "any":
        draw.shuffle(plan)
    if len(plan) > 1 and draw.random() < 0.3:
        for _ in range(draw.choice((1, 1, 2))):
            name, piece = lines.disturbance(draw, draw.choice(pieces), message)
            plan.insert(draw.randrange(len(plan) + 1), (name, piece))
            traits.add(f"disturbed: {name}")
    if len(plan) > 1 and draw.random() < 0.1:
        del plan[draw.randrange(len(plan))]
        traits.add("a fragment is missing")
    tagged = tuple(draw.randrange(4096) for _ in range(draw.choice((0, 0, 0, 1, 2))))
    for _, (start, more, part) in plan:
        if sender.version == 4 and 20 + len(sender.options) + len(part) > 65535:
            continue
        ether_type, packet = network(sender, part, start, more)
        for identifier in tagged:
            packet, ether_type = struct.pack("!HH", identifier, ether_type) + packet, 0x8100
        # tshark doesn't know Linux's address family.
        yield Packet(*linked(draw, link, ether_type, packet, families=FAMILIES6[1:]), frozenset(traits))


def story_with_faults(draw, link):
    """A packet that is cut off, or has a wrong length or version."""
    sender, traits = sender_of(draw), {"faulty"}
    if sender.version == 6 and draw.random() < 0.5:
        traits |= chain6(draw, sender)
    elif sender.version == 4 and draw.random() < 0.3:
        traits |= routed4(draw, sender)
    draw.lies = draw.choice((0, 0, 0.5))
    message = message_of(draw, sender)
    draw.lies = 0
    _, whole = network(sender, message)
    known, kind = {}, draw.randrange(6)
    if kind == 0:
        right = len(whole) - (40 if sender.version == 6 else 0)
        wrong = draw.choice((right - 8, right - 1, right + 1, right + 8, 0, draw.randrange(65536)))
        known["total" if sender.version == 4 else "length"] = min(max(wrong, 0), 65535)
        traits.add("wrong IP length")
    elif kind == 1:
        known["version"] = draw.choice((0, 4, 5, 6, 15))
    elif kind == 2 and sender.version == 4:
        known["words"] = draw.randrange(16)
    ether_type, packet = network(sender, message, **known)
    link, data = linked(draw, link, ether_type, packet)
    length = None
    if kind == 3 and len(data) > 1:
        data = data[: draw.randrange(1, len(data))]
        traits.add("cut")
    elif kind == 4 and len(data) > 1:
        length = len(data)
        data = data[: draw.randrange(1, len(data))]
        traits.add("snapped")
    elif kind == 5:
        at = draw.randrange(len(data))
        data = data[:at] + bytes([draw.randrange(256)]) + data[at + 1 :]
        traits.add("another byte")
    yield Packet(link, data, frozenset(traits), length)


def story_of_hostile_frames(draw, _):
    """Frames of tools/hostile_frames: whole ones with several faults, and the fragments of a message among disturbances."""
    make = draw.choice((lines.whole, lines.whole, lines.parts, lines.datagram))
    draw.lies = draw.choice((0, 0.05, 0.3))
    story = list(make(draw))
    draw.lies = 0
    for name, line in story:
        _, channel, digits = line.split(b" ")
        data = bytes.fromhex(digits.decode())
        if len(data) <= LONGEST_FRAME:
            yield Packet(ETHERNET, data, frozenset({"hostile", name}), None, int(channel) % 2)


def story_that_is_passed_over(draw, link):
    """A record that isn't reported: without a captured byte, too long, or without a frame."""
    kind = draw.randrange(3)
    if kind == 0:
        yield Packet(link, b"", frozenset({"no byte"}), draw.choice((0, 60)))
    elif kind == 1:
        sender = sender_of(draw, 4)
        _, packet = network(sender, message_of(draw, sender))
        link, data = linked(draw, link, IPV4, packet)
        yield Packet(link, data + bytes(draw.choice((LONGEST_FRAME - len(data) + 1, 150_000))), frozenset({"long"}))
    else:
        data = {
            ETHERNET: b"\x02",
            NULL: b"\7\0\0\0" + bytes(20),
            LOOP: b"\2\0\0\0" + bytes(20),
            SLL: struct.pack("!HHH", 0, 1, 6) + bytes(8) + b"\0\4" + bytes(38),
            SLL2: struct.pack("!HHIHBB", 4, 0, 1, 1, 0, 6) + bytes(8 + 38),
        }.get(link, b"\x55" * 40)
        yield Packet(link, data, frozenset({"no frame"}))


STORIES = (
    (story_of_a_packet, 50),
    (story_of_fragments, 20),
    (story_with_faults, 20),
    (story_of_hostile_frames, 6),
    (story_that_is_passed_over, 4),
)


def packets_of(draw, links, count):
    """So many packets, of several stories at once, in their order."""
    waiting, made = [], []
    makers, weights = zip(*STORIES)
    while len(made) < count:
        while len(waiting) < 6:
            story = list(draw.choices(makers, weights)[0](draw, draw.choice(links)))
            if story:
                waiting.append(story)
        story = draw.choice(waiting)
        packet = story.pop(0)
        if packet.link in links:
            made.append(packet)
        waiting = [it for it in waiting if it]
    return made


# Files


def classic(packets, link, order="<", nanoseconds=False):
    """A classic capture of packets of one link."""
    magic = 0xA1B23C4D if nanoseconds else 0xA1B2C3D4
    file = [struct.pack(order + "IHHiIII", magic, 2, 4, 0, 0, 262_144, link)]
    for it in packets:
        part = it.time % BILLION // (1 if nanoseconds else 1000)
        length = len(it.data) if it.length is None else it.length
        file.append(struct.pack(order + "IIII", it.time // BILLION, part, len(it.data), length) + it.data)
    return b"".join(file)


class Blocks(captures.Blocks):
    """A pcapng file, whose packets have times and lengths of their own. `ids` has the interface of each link."""

    def described(self, links, resolution=9, offset=0):
        self.section()
        self.ids = {}
        for link in links:
            options = self.option(9, bytes([resolution])) + (self.option(14, self.pack("q", offset)) if offset else b"")
            self.ids[link] = self.interfaces
            self.interface(link=link, options=options + self.option(0, b""))

    def record(self, kind, packet, interface, units, offset):
        """An enhanced or an obsolete packet block, whose time counts so many parts of a second."""
        count = (packet.time - offset * BILLION) * units // BILLION
        length = len(packet.data) if packet.length is None else packet.length
        head = self.pack("I" if kind == captures.ENHANCED else "Hxx", interface)
        head += self.pack("IIII", count >> 32, count & 0xFFFFFFFF, len(packet.data), length)
        self.block(kind, head + packet.data + bytes(-len(packet.data) % 4))


def timed(draw, packets):
    """Gives each packet its time."""
    now = 1_700_000_000 * BILLION
    for it in packets:
        now += draw.choice((0, 1, 999, 1000, 1_000_000, draw.randrange(BILLION)))
        it.time = now


@dataclasses.dataclass
class Capture:
    """A file, its records as a reader counts them, and what it is."""

    label: str
    file: bytes
    packets: list


def classic_capture(draw, link, count):
    order, nanoseconds = draw.choice("<>"), draw.random() < 0.5
    packets = packets_of(draw, [link], count)
    timed(draw, packets)
    for it in packets:
        it.interface = 0
        if not nanoseconds:
            it.time -= it.time % 1000
    label = f"pcap, link type {link}, {'little' if order == '<' else 'big'}-endian, {'nano' if nanoseconds else 'micro'}seconds"
    return Capture(label, classic(packets, link, order, nanoseconds), packets)


def pcapng_capture(draw, count):
    """Several links, those that aren't read among them, over one or two sections, with blocks of other kinds between."""
    order, resolution = draw.choice("<>"), draw.choice((6, 9, 9))
    offset = draw.choice((0, 0, 1_600_000_000))
    links = draw.sample(LINKS, draw.randrange(1, len(LINKS) + 1))
    others = draw.sample(OTHER_LINKS, draw.choice((0, 1, 2)))
    file, units = Blocks(order), 10**resolution
    described = [*links, *others]
    file.described(described, resolution, offset)
    packets = packets_of(draw, links, count)
    for at in range(len(packets)):
        if others and draw.random() < 0.05:
            packets.insert(at, Packet(draw.choice(others), draw.randbytes(draw.randrange(1, 90)), frozenset({"other link"})))
    timed(draw, packets)
    before = 0
    for number, it in enumerate(packets):
        it.time -= it.time % (BILLION // units)
        it.interface = before + file.ids[it.link]
        kind = draw.choice((captures.ENHANCED, captures.ENHANCED, captures.OBSOLETE))
        file.record(kind, it, file.ids[it.link], units, offset)
        if draw.random() < 0.05:
            file.block(draw.choice((captures.NAMES, captures.STATISTICS)), bytes(12))
        if number == len(packets) // 2 and draw.random() < 0.3:
            before += len(described)
            file.described(described, resolution, offset)
    if before:
        for it in packets:
            it.traits |= {"section"}
    label = f"pcapng, link types {' '.join(map(str, described))}, {'little' if order == '<' else 'big'}-endian"
    return Capture(label, file.bytes, packets)


def sending_host(draw, count=100, link=ETHERNET):
    """A capture as it is taken on a host whose network card fills in checksums: each packet that the host sends has only the sum of
    its pseudo header in the checksum field of UDP or TCP (its IPv4 header has 0), and each that it receives has right ones."""
    packets, mine = [], {4: bytes([10, 0, 0, 77]), 6: bytes.fromhex("fd00") + bytes(13) + b"\x77"}
    for _ in range(count):
        sender = sender_of(draw)
        sender.protocol = draw.choice((UDP, TCP))
        size = len(sender.addresses) // 2
        other, own = sender.addresses[:size], mine[sender.version]
        sent = draw.random() < 0.5
        sender.addresses = own + other if sent else other + own
        payload = draw.randbytes(draw.randrange(200))
        make, at = {UDP: (lines.udp, 6), TCP: (lines.tcp, 16)}[sender.protocol]
        message = make(draw, payload)
        if sender.protocol == UDP:
            message = message[:4] + struct.pack("!H", len(message)) + message[6:]
        pseudo = sender.addresses + struct.pack("!II", len(message), sender.protocol)
        if sent:
            value = int.from_bytes(pseudo, "big") % 65535
        else:
            value = 65535 - int.from_bytes(pseudo + message + bytes(len(message) % 2), "big") % 65535
        message = message[:at] + struct.pack("!H", value) + message[at + 2 :]
        ether_type, packet = network(sender, message)
        if sent and sender.version == 4:
            packet = packet[:10] + bytes(2) + packet[12:]
        address = bytes([2, 0, 0, 0, 0, 0x77 if sent else 1])
        packets.append(Packet(*linked(draw, link, ether_type, packet, address), frozenset({"sent" if sent else "received"})))
    timed(draw, packets)
    return Capture("a sending host", classic(packets, link, nanoseconds=True), packets)


def each_order(draw):
    """Messages in two to four fragments, over both versions, in each order of these."""
    packets = []
    for version in (4, 6):
        for count in (2, 3, 4):
            for order in itertools.permutations(range(count)):
                sender = sender_of(draw, version)
                message = message_of(draw, sender, 8 * count + draw.randrange(1, 9))
                pieces = lines.cut(message, range(1, count))
                for at in order:
                    start, more, part = pieces[at]
                    packets.append(Packet(*linked(draw, ETHERNET, *network(sender, part, start, more)), frozenset({"fragments"})))
    timed(draw, packets)
    return Capture("each order of fragments", classic(packets, ETHERNET, nanoseconds=True), packets)


def captures_of(seed, count):
    """Captures of so many packets in all."""
    draw, made = lines.Draw(seed), 0
    if count >= 1000:
        capture = each_order(draw)
        made += len(capture.packets)
        yield capture
    while made < count:
        for link in LINKS:
            size = min(400 if link == ETHERNET else 150, count - made)
            if size > 0:
                capture = classic_capture(draw, link, size)
                made += len(capture.packets)
                yield capture
        for _ in range(3):
            if made < count:
                capture = pcapng_capture(draw, min(300, count - made))
                made += len(capture.packets)
                yield capture
        if made < count:
            capture = sending_host(draw, min(60, count - made))
            made += len(capture.packets)
            yield capture
