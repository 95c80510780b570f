"""Lines of hostile frames, drawn by a seeded generator and encoded after the standards.

A block of lines has several stories at once, of which each is a list of lines: one frame, or the fragments of a message with
what disturbs them, or a frame cut off at every byte.
"""

import random

ETHER_TYPES = {4: 0x0800, 6: 0x86DD}
VLAN = (0x8100, 0x88A8, 0x9100)
MACSEC = 0x88E5
HOP_BY_HOP, ICMP, TCP, UDP, ROUTING, FRAGMENT, AUTHENTICATION, ICMPV6, DESTINATION = 0, 1, 6, 17, 43, 44, 51, 58, 60
CHECKSUM_AT = {UDP: 6, TCP: 16, ICMP: 2, ICMPV6: 2}
# What links let through at once: the least over IPv4 and over IPv6, Ethernet, and jumbo frames.
LINK_LIMITS = (576, 1280, 1500, 9000)
# A line of so many characters is read, and its frame has at most so many bytes.
LONGEST_LINE, LONGEST_FRAME = 200_000, 99_996
LONGEST_MESSAGE = 65_535


def encoded(value, size):
    return value.to_bytes(size, "big")


class Draw(random.Random):
    """A generator, with the part of the length fields that state a wrong length."""

    lies = 0.0

    def stated(self, size, most, unit=1):
        """What a field states of a length: the true one, or one near it or at an end of its range."""
        wrong = size
        if self.random() < self.lies:
            wrong = self.choice((0, 1, most, size - 8 // unit, size - 2, size - 1, size + 1, size + 2, size + 8 // unit, self.randint(0, most)))
        return min(max(wrong, 0), most)

    def size(self):
        return self.choice((0, 0, 1, 2, 4, 7, 8, 9, 15, 16, 17, 24, self.randrange(48), self.randrange(300)))


class Sender:
    """All that the fragments of a message have in common."""

    def __init__(self, draw):
        self.channel = draw.choice((0, 0, 0, 1, 2**32 - 1, draw.randrange(2**32)))
        self.identifiers = tuple(draw.randrange(4096) for _ in range(draw.choices((0, 1, 2, 3), (60, 25, 10, 5))[0]))
        self.version = draw.choice((4, 6))
        size = {4: 4, 6: 16}[self.version]
        self.addresses = draw.choice((bytes(2 * size), draw.randbytes(2 * size), draw.randbytes(2 * size)))
        self.identification = draw.choice((draw.randrange(4), draw.getrandbits(16), draw.getrandbits(32)))
        own, other = (ICMP, ICMPV6) if self.version == 4 else (ICMPV6, ICMP)
        rest = draw.choice((2, 47, 50, 59, 132, 135, 139, 140, 253))
        self.protocol = draw.choices((UDP, TCP, own, other, rest), (30, 25, 20, 5, 20))[0]

    def other(self, draw):
        """Another sender, who differs in one thing."""
        it = Sender(draw)
        it.__dict__.update(self.__dict__)
        change = draw.randrange(5)
        if change == 0:
            it.channel ^= 1 << draw.randrange(32)
        elif change == 1:
            it.identifiers = it.identifiers[:-1] if len(it.identifiers) == 3 else it.identifiers + (draw.randrange(4096),)
        elif change == 2:
            at = draw.randrange(len(it.addresses))
            it.addresses = it.addresses[:at] + bytes([it.addresses[at] ^ 1 << draw.randrange(8)]) + it.addresses[at + 1 :]
        elif change == 3:
            it.identification ^= 1 << draw.randrange(16 if it.version == 4 else 32)
        else:
            it.protocol = draw.choice((UDP, TCP, ICMP, ICMPV6, 253))
        return it


# Messages


def udp(draw, payload):
    return draw.randbytes(4) + encoded(0 if draw.random() < 0.05 else draw.stated(8 + len(payload), 65535), 2) + bytes(2) + payload


def tcp(draw, payload):
    options = b""
    while draw.random() < 0.5 and len(options) < 30:
        options += draw.choice(
            (b"\1", b"\2\4\5\xb4", b"\3\3\7", b"\4\2", b"\5\12" + draw.randbytes(8), b"\10\12" + draw.randbytes(8), b"\0", draw.randbytes(3))
        )
    options += bytes(-len(options) % 4)
    words = draw.stated(5 + len(options) // 4, 15, 4)
    return draw.randbytes(12) + bytes([words * 16 + draw.randrange(16), draw.randrange(256)]) + draw.randbytes(2) + bytes(2) + draw.randbytes(2) + options + payload


def icmp(draw, payload):
    kind = draw.choice((0, 3, 5, 8, 11, 12, 13, 13, 14, 14, 128, 129, 1, 2, 4, 133, draw.randrange(256)))
    rest = draw.randbytes(16) if kind in (13, 14) and draw.random() < 0.7 else draw.randbytes(4) + payload
    return bytes([kind, draw.choice((0, 0, 0, 1, draw.randrange(256)))]) + bytes(2) + rest


def sealed(draw, sender, message):
    """The message with a checksum, mostly the right one."""
    at = CHECKSUM_AT.get(sender.protocol)
    if at is None or len(message) < at + 2:
        return message
    kind, value = draw.choices(("right", "random", 0, 65535), (75, 13, 8, 4))[0], 0
    if kind == "right":
        summed = message
        if sender.protocol == UDP:
            summed = message[: int.from_bytes(message[4:6], "big") or len(message)]
        length = len(summed)
        if sender.protocol != ICMP:
            summed += bytes(length % 2) + sender.addresses + encoded(length, 4) + encoded(sender.protocol, 4)
        value = 65535 - int.from_bytes(summed + bytes(len(summed) % 2), "big") % 65535
    elif kind == "random":
        value = draw.getrandbits(16)
    else:
        value = kind
    return message[:at] + encoded(value, 2) + message[at + 2 :]


def message_of(draw, sender, size=None):
    payload = draw.randbytes(draw.size() if size is None else size)
    if draw.random() < 0.05:
        payload = bytes(len(payload))
    make = {UDP: udp, TCP: tcp, ICMP: icmp, ICMPV6: icmp}.get(sender.protocol)
    message = make(draw, payload) if make else payload
    if draw.random() < 0.03:
        message = message[: draw.randrange(24)]
    return sealed(draw, sender, message)


# Packets and frames


def authentication(draw, following):
    value = draw.randbytes(4 * draw.choice((0, 1, 3, 4, 253, draw.randrange(10)))) if draw.random() < 0.9 else b""
    return bytes([following, draw.stated(len(value) // 4 + 1, 255, 4)]) + draw.randbytes(10) + value


def extension(draw, following):
    units = draw.choices((0, 1, 2, draw.randrange(256)), (70, 15, 10, 5))[0]
    return bytes([following, draw.stated(units, 255, 8)]) + draw.randbytes(6 + 8 * units)


def ipv4(draw, sender, part, units, more):
    protocol = sender.protocol
    if draw.random() < 0.04:
        part, protocol = authentication(draw, protocol) + part, AUTHENTICATION
    options = draw.randbytes(4 * draw.choices((0, 1, 5, 10, draw.randrange(11)), (60, 10, 5, 10, 15))[0])
    words = draw.stated(5 + len(options) // 4, 15, 4)
    flags = draw.choice((0, 0, 0x4000, 0x8000)) | 0x2000 * more | units
    total = draw.stated(20 + len(options) + len(part), 65535)
    head = bytes([(4 if draw.random() < 0.99 else draw.randrange(16)) * 16 + words, draw.randrange(256)]) + encoded(total, 2)
    head += encoded(sender.identification % 65536, 2) + encoded(flags, 2) + bytes([draw.randrange(256), protocol])
    return head + draw.randbytes(2) + sender.addresses + options + part


def ipv6(draw, sender, part, units, more):
    following, is_part = sender.protocol, units or more
    headers = draw.choices((0, 1, 2, 3, 6), (55, 20, 12, 8, 5))[0] if not is_part else draw.random() < 0.03
    chain = b""
    for _ in range(headers):
        kind = draw.choices((ROUTING, DESTINATION, AUTHENTICATION, FRAGMENT, HOP_BY_HOP), (35, 40, 15, 10, 4))[0]
        if kind == FRAGMENT:
            place = 0 if draw.random() < 0.6 else draw.getrandbits(16)
            chain = bytes([following, draw.randrange(256)]) + encoded(place, 2) + draw.randbytes(4) + chain
        else:
            chain = (authentication if kind == AUTHENTICATION else extension)(draw, following) + chain
        following = kind
    if is_part:
        unused = draw.choice((0, 0, 2, 4, 6))
        place = 8 * units | unused | more
        chain = bytes([following, draw.randrange(256)]) + encoded(place, 2) + encoded(sender.identification % 2**32, 4) + chain
        following = FRAGMENT
        for _ in range(draw.choices((0, 1, 2), (80, 15, 5))[0]):
            kind = draw.choice((ROUTING, DESTINATION, AUTHENTICATION))
            chain = (authentication if kind == AUTHENTICATION else extension)(draw, following) + chain
            following = kind
    if draw.random() < 0.05:
        chain, following = extension(draw, following) + chain, HOP_BY_HOP
    length = len(chain) + len(part)
    length = 0 if length > 65535 or draw.random() < 0.04 else draw.stated(length, 65535)
    version = 6 if draw.random() < 0.99 else draw.randrange(16)
    head = encoded(version << 28 | draw.getrandbits(28), 4) + encoded(length, 2) + bytes([following, draw.randrange(256)])
    return head + sender.addresses + chain + part


def arp(draw):
    hardware, protocol = draw.choice(((6, 4), (6, 4), (0, 0), (255, 255), (draw.randrange(20), draw.randrange(20))))
    lengths = bytes([draw.stated(hardware, 255), draw.stated(protocol, 255)])
    return draw.randbytes(4) + lengths + draw.randbytes(2 + 2 * hardware + 2 * protocol)


def macsec(draw, ether_type, rest):
    flags = draw.choice((0, 0, 0x20, 0x40, 0x10)) | draw.randrange(4)
    if draw.random() < 0.15:
        flags |= draw.choice((0x04, 0x08, 0x0C, 0x80))
    secured = (b"" if flags & 0x0C and draw.random() < 0.5 else encoded(ether_type, 2)) + rest
    short = draw.stated(len(secured), 63) if len(secured) < 64 and draw.random() < 0.7 else 0
    if draw.random() < 0.1:
        short = draw.choice((1, 2, 3, draw.randrange(64)))
    return bytes([flags, short | draw.choice((0, 0, 0x40, 0xC0))]) + draw.randbytes(4) + draw.randbytes(8 if flags & 0x20 else 0) + secured


def frame_of(draw, identifiers, ether_type, packet):
    """A frame with these VLAN tags, MACsec headers among them, and padding now and then."""
    if draw.random() < 0.1:
        packet += draw.choice((bytes(draw.randrange(1, 12)), draw.randbytes(draw.randrange(1, 60))))
    left = 3 - len(identifiers) if draw.random() < 0.97 else 2
    tags = [("vlan", it) for it in identifiers]
    for _ in range(left):
        if draw.random() < 0.06:
            tags.insert(draw.randrange(len(tags) + 1), ("macsec", None))
    for kind, identifier in reversed(tags):
        if kind == "vlan":
            packet = encoded(draw.randrange(16) << 12 | identifier, 2) + encoded(ether_type, 2) + packet
            ether_type = draw.choice(VLAN)
        else:
            packet, ether_type = macsec(draw, ether_type, packet), MACSEC
    return draw.randbytes(12) + encoded(ether_type, 2) + packet


def part_frame(draw, sender, part, units=0, more=False):
    packet = (ipv4 if sender.version == 4 else ipv6)(draw, sender, part, units, more)
    return frame_of(draw, sender.identifiers, ETHER_TYPES[sender.version], packet)


# Lines


def frame_line(draw, channel, frame):
    digits = frame.hex()
    if draw.random() < 0.03:
        digits = digits.upper()
    number = str(channel)
    if draw.random() < 0.02:
        number = number.zfill(10)
    return f"frame {number} {digits}".encode("ascii")


def broken(draw, frame):
    """The frame, now and then cut off or with other bytes in a place."""
    frame, kind = bytearray(frame), draw.random()
    if kind < 0.06 and frame:
        del frame[draw.randrange(len(frame)) :]
    elif kind < 0.12 and frame:
        # Most of what is read lies at the start.
        frame[draw.randrange(min(len(frame), draw.choice((30, 60, 99999))))] = draw.randrange(256)
    elif kind < 0.14:
        at = draw.randrange(len(frame) + 1)
        frame[at : at + 2] = draw.choice((b"\0\0", b"\0\1", b"\0\7", b"\0\x08", b"\xff\xff", b""))
    return bytes(frame) or b"\0"


def whole(draw):
    sender = Sender(draw)
    kind = draw.random()
    if kind < 0.06:
        frame = frame_of(draw, sender.identifiers, 0x0806, arp(draw))
    elif kind < 0.1:
        others = (0, 1500, 0x0600, 0x0801, 0x88E6, draw.randrange(65536), *VLAN)
        frame = frame_of(draw, sender.identifiers, draw.choice(others), draw.randbytes(draw.size()))
    else:
        frame = part_frame(draw, sender, message_of(draw, sender))
    yield "frame", frame_line(draw, sender.channel, broken(draw, frame))


def every_prefix(draw):
    """A frame cut off at every byte."""
    sender = Sender(draw)
    frame = part_frame(draw, sender, message_of(draw, sender))
    for end in range(1, min(len(frame), 200) + 1):
        yield "prefix", frame_line(draw, sender.channel, frame[:end])


def cut(message, cuts):
    """The fragments of a message: where each begins, in units of eight bytes, whether more come, and its bytes."""
    return [(start, end is not None, message[8 * start : end and 8 * end]) for start, end in zip([0, *cuts], [*cuts, None])]


def pieces_of(draw, message):
    units = (len(message) + 7) // 8
    return cut(message, sorted({draw.randrange(units) for _ in range(draw.choice((1, 1, 2, 3, 5, 9)))} - {0}) if units else [])


def disturbance(draw, piece, message):
    """A fragment that has to do with a part of the message, and what it is called."""
    start, more, part = piece
    units, end = len(part) // 8, start + (len(part) + 7) // 8
    length = len(message)
    name = draw.choice(
        ("repeat", "other bytes", "other flag", "inside", "around", "over its front", "over its back", "before it", "after it")
        + ("lower end", "higher end", "same end", "beyond the end", "unaligned", "empty", "long")
    )
    size = None
    if name == "other flag":
        more = not more
    elif name == "inside":
        start, size = start + units // 3, 8 * max(1, units // 3)
    elif name == "around":
        start, size = max(0, start - 1), len(part) // 8 * 8 + 16
    elif name == "over its front":
        start, size = max(0, start - 1), 16
    elif name == "over its back":
        start, size = max(0, end - 1), 16
    elif name == "before it":
        start, size = max(0, start - 2), 16
    elif name == "after it":
        start, size = end, 16
    elif name == "beyond the end":
        start, more, size = (length + 7) // 8 + draw.randrange(3), draw.random() < 0.7, 8 * draw.randrange(3)
    elif name.endswith(" end"):
        far = draw.choice((1, 1, 7, 8, 9, 24))
        ending = max(0, length + {"lower end": -far, "higher end": far, "same end": 0}[name])
        start = draw.choice((0, ending // 8, max(0, ending // 8 - 2), draw.randrange(ending // 8 + 1)))
        more, size = False, ending - 8 * start
    elif name == "unaligned":
        more, size = True, draw.choice((1, 7, 9, len(part) + 1, len(part) + 7))
    elif name == "empty":
        start, more, size = draw.choice((start, end, 0)), draw.random() < 0.7, 0
    elif name == "long":
        start, more = draw.choice((8191, 8190, 8189, 8187)), draw.random() < 0.5
        size = max(0, LONGEST_MESSAGE - 8 * start + draw.choice((-8, -7, -1, 0, 1, 2, 8, 9)))
    if size is not None:
        part = message[8 * start : 8 * start + size] if draw.random() < 0.5 else b""
        part += draw.randbytes(size - len(part))
    elif name == "other bytes":
        part = draw.randbytes(len(part))
    if name in ("inside", "around", "over its front", "over its back", "before it", "after it"):
        # The fragment is aligned and ends nothing, but for one in ten.
        more = draw.random() < 0.9
    return name, (min(start, 8191), more, part)


def parts(draw):
    """The fragments of a message in some order, some of them again, and others among them."""
    sender = Sender(draw)
    message = message_of(draw, sender, draw.choice((8, 20, 40, draw.randrange(1, 100), draw.randrange(300))))
    pieces = pieces_of(draw, message)
    plan = [("fragment", it) for it in pieces]
    order = draw.choice(("ascending", "descending", "any"))
    if order == "descending":
        plan.reverse()
    elif order == "any":
        draw.shuffle(plan)
    for _ in range(draw.choices((0, 1, 2, 4), (30, 35, 20, 15))[0]):
        plan.insert(draw.randrange(len(plan) + 1), disturbance(draw, draw.choice(pieces), message))
    if draw.random() < 0.15:
        plan += [("fragment", it) for it in pieces]
    for name, (start, more, part) in plan:
        if draw.random() < 0.06:
            other = sender.other(draw)
            yield "other sender", frame_line(draw, other.channel, part_frame(draw, other, draw.randbytes(len(part)), start, more))
        frame = part_frame(draw, sender, part, start, more)
        yield name, frame_line(draw, sender.channel, broken(draw, frame) if draw.random() < 0.2 else frame)


def datagram(draw):
    """A datagram as a network cuts it, or whole: each fragment but the last one fills a packet of the link, or what VLANs,
    options and tunnels leave of that."""
    sender = Sender(draw)
    head = {4: 20, 6: 40}[sender.version]
    room = draw.choice(LINK_LIMITS) - head - draw.choice((0, 0, 0, 0, 4, 8, 12, 20, 24, 28, 40, 50, 80))
    filled = (room - (8 if sender.version == 6 else 0)) // 8 * 8
    # What is sent over UDP and TCP in whole packets, and the lengths about a full fragment and some of them.
    length = draw.choice((room, room - 8, room - 20, room - 32, filled - 1, filled, filled + 1, 2 * filled, draw.randrange(1, 4 * filled)))
    message = message_of(draw, sender, max(0, length - 8))
    if len(message) <= room and draw.random() < 0.5:
        yield "datagram", frame_line(draw, sender.channel, part_frame(draw, sender, message))
        return
    plan = cut(message, range(filled // 8, (len(message) + 7) // 8, filled // 8))
    if draw.random() < 0.5:
        draw.shuffle(plan)
    if draw.random() < 0.2:
        plan.insert(draw.randrange(len(plan) + 1), draw.choice(plan))
    for start, more, part in plan:
        yield "fragment of a datagram", frame_line(draw, sender.channel, part_frame(draw, sender, part, start, more))


def great_message(draw):
    """A message near the greatest length, in a few fragments."""
    sender, length = Sender(draw), LONGEST_MESSAGE + draw.choice((-8, -7, -1, 0, 0, 0, 1))
    message = (message_of(draw, sender, 65000) + draw.randbytes(900))[:length]
    plan = cut(message, sorted(draw.sample(range(1, 8191), draw.choice((1, 2, 5)))))
    draw.shuffle(plan)
    for start, more, part in plan:
        if len(part) < 65400:
            yield "great message", frame_line(draw, sender.channel, part_frame(draw, sender, part, start, more))


def long_chain(draw):
    """Thousands of headers, in a packet of the greatest length or in a frame that ends it."""
    sender = Sender(draw)
    sender.version, sender.addresses, sender.identifiers = 6, draw.randbytes(32), ()
    message = message_of(draw, sender, draw.choice((0, 7, 8)))
    count = draw.choice((100, 8188, 8189, 8190, 8191, 8192, 12490))
    kinds = draw.choice(((DESTINATION,), (ROUTING, DESTINATION), (FRAGMENT,), (AUTHENTICATION,), (DESTINATION, FRAGMENT)))
    numbers = [draw.choice(kinds) for _ in range(count)] + [sender.protocol]
    chain = b"".join(
        # An authentication header has twelve bytes at least.
        bytes([following, kind == AUTHENTICATION]) + bytes(10 if kind == AUTHENTICATION else 6)
        for kind, following in zip(numbers, numbers[1:])
    )
    rest = (chain + message)[: LONGEST_FRAME - 54]
    length = draw.choice((0, len(rest), 65535)) if len(rest) < 65536 else draw.choice((0, 65535))
    head = draw.randbytes(12) + b"\x86\xdd\x60\0\0\0" + encoded(length, 2) + bytes([numbers[0], 64]) + sender.addresses
    yield "long chain", frame_line(draw, 0, head + rest)


def long_line(draw):
    """A line of as many characters as are read, or of some more."""
    length = LONGEST_LINE + draw.choice((-2, -1, 0, 0, 1, 2, 9))
    head = draw.choice((b"frame 0 ", b"frame 10 ", b"forget ", b"frame 0 0200000000020200000000010800", b""))
    yield "long line", head + bytes(draw.choice(b"0123456789abcdef") for _ in range(4)) + b"0" * (length - len(head) - 4)


def bad_line(draw):
    """A line beside the grammar, or just within it."""
    good = draw.choice((b"frame 0 0200", b"forget 0", b"frame 4294967295 00", b"forget 18446744073709551615"))
    kind = draw.randrange(4)
    if kind == 0:
        at = draw.randrange(len(good) + 1)
        byte = draw.choice((b" ", b"  ", b"\t", b"\r", b"\0", b"g", b"-", b"+", b"\xff", b"0", b"9", b"F", b""))
        line = good[:at] + byte + good[at + draw.choice((0, 0, 1)) :]
    elif kind == 1:
        line = draw.choice((b"", b"frame", b"forget", b"frame ", b"forget ", b"frame 0", b"frame 0 ", b"Frame 0 00", b"frame 0 00 ", b"frame 0  00"))
    elif kind == 2:
        channel = draw.choice((b"4294967296", b"00000000000", b"0000000000", b"9999999999", b"", b"1a", b"4294967295"))
        line = b"frame " + channel + b" " + draw.choice((b"0", b"00", b"000", b"0g", b"fF", b"0x00"))
    else:
        numbers = (b"18446744073709551615", b"18446744073709551616", b"99999999999999999999", b"00000000000000000000", b"000000000000000000000")
        line = b"forget " + draw.choice((*numbers, b"9223372036854775808", b"1 ", b" 1"))
    yield "bad line", line.replace(b"\n", b"")


STORIES = {whole: 40, parts: 40, datagram: 8, every_prefix: 0.4, bad_line: 6, great_message: 0.08, long_chain: 0.12, long_line: 0.08}


def block(draw, count):
    """So many lines, of several stories in turns: what each is called, and the line."""
    active, made = [], 0
    while made < count:
        while len(active) < 6:
            make = draw.choices(list(STORIES), list(STORIES.values()))[0]
            active.append((draw.choice((0, 0, 0, 0.03, 0.1)), make(draw)))
        if draw.random() < 0.01:
            line = "forget", b"forget %d" % max(0, made + 2 - draw.choice((0, 1, 2, 4, 8, 30)))
        else:
            story = draw.choice(active)
            draw.lies = story[0]
            line = next(story[1], None)
            if line is None:
                active.remove(story)
                continue
        made += 1
        yield line
