"""Frames of every layer, drawn by a seeded generator and encoded after the standards."""

import struct

EXTENSIONS = (0, 60, 43, 44, 51, 60, 135, 139, 140)


def data(draw, most):
    return draw.randbytes(draw.randrange(most + 1))


def stated(draw, size, least):
    """Returns the length that a header states: mostly the true one, else a smaller one."""
    return size if draw.random() < 0.92 else draw.randrange(least, size + 1)


def udp(draw, _):
    payload = data(draw, 12)
    length = draw.choices((8 + len(payload), 0, draw.randrange(8 + len(payload) + 1), draw.randrange(65536)), (80, 6, 8, 6))[0]
    return struct.pack("!HHHH", draw.randrange(65536), draw.randrange(65536), length, draw.randrange(65536)) + payload


def tcp_options(draw):
    options = b""
    for _ in range(draw.randrange(5)):
        options += draw.choice(
            (b"\1", b"\2\4" + draw.randbytes(2), b"\3\3" + draw.randbytes(1), b"\4\2", b"\5\12" + draw.randbytes(8), b"\10\12" + draw.randbytes(8))
        )
    options = options[:40]
    return options + bytes(-len(options) % 4)


def tcp(draw, _):
    options = tcp_options(draw) if draw.random() < 0.8 else draw.randbytes(4 * draw.randrange(11))
    words = 5 + len(options) // 4
    return (
        struct.pack("!HHII", *(draw.randrange(65536) for _ in "ab"), *(draw.getrandbits(32) for _ in "ab"))
        + bytes([words << 4 | draw.randrange(16), draw.randrange(256)])
        + draw.randbytes(6)
        + options
        + data(draw, 12)
    )


def icmp(draw, version):
    kind = draw.choice((0, 3, 4, 5, 8, 11, 12, 13, 14, 17) if version == 4 else (1, 2, 3, 4, 128, 129, 133, 135, 200))
    code = draw.choice((0, 0, draw.randrange(17), draw.randrange(256)))
    body = draw.randbytes(16) if kind in (13, 14) and version == 4 else draw.randbytes(4) + data(draw, 12)
    return bytes([kind, code]) + draw.randbytes(2) + body


def transport(draw, version):
    """Returns a protocol's number and a message of it."""
    number = draw.choices((17, 6, 1 if version == 4 else 58, 58 if version == 4 else 1, draw.choice((253, 59, 47, 132))), (30, 30, 25, 5, 10))[0]
    make = {17: udp, 6: tcp, 1: lambda d, _: icmp(d, 4), 58: lambda d, _: icmp(d, 6)}.get(number, lambda d, _: data(d, 20))
    return number, make(draw, version)


def auth(draw, following):
    icv = draw.randbytes(4 * draw.randrange(1, 5))
    return bytes([following, len(icv) // 4 + 1]) + draw.randbytes(10) + icv


def ipv4(draw):
    number, body = transport(draw, 4)
    if draw.random() < 0.12:
        number, body = 51, auth(draw, number) + body
    options = b"" if draw.random() < 0.6 else draw.choice((b"\1" * 4, b"\7\7\4" + draw.randbytes(4) + b"\0", draw.randbytes(4 * draw.randrange(11))))
    size = 20 + len(options)
    flags = draw.choices((0, 0x4000, draw.randrange(65536)), (50, 35, 15))[0]
    head = struct.pack("!BBHHHBB", 0x40 | size // 4, draw.randrange(256), stated(draw, size + len(body), size), draw.randrange(65536), flags, draw.randrange(256), number)
    return head + draw.randbytes(10) + options + body


def ipv6(draw):
    number, body = transport(draw, 6)
    kinds = draw.choices(EXTENSIONS, k=draw.choices((0, 1, 2, 3, 4), (45, 25, 15, 10, 5))[0])
    if draw.random() < 0.8:
        kinds = sorted(set(kinds), key=EXTENSIONS.index)
    for kind in reversed(kinds):
        if kind == 44:
            place = draw.choice((0, draw.randrange(65536)))
            body = struct.pack("!BBH", number, draw.randrange(256), place) + draw.randbytes(4) + body
        elif kind == 51:
            body = auth(draw, number) + body
        else:
            units = draw.choices((0, 1, 2), (70, 20, 10))[0]
            body = bytes([number, units]) + options6(draw, 6 + 8 * units) + body
        number = kind
    length = 0 if draw.random() < 0.05 else stated(draw, len(body), 0)
    return struct.pack("!IHBB", 6 << 28 | draw.getrandbits(28), length, number, draw.randrange(256)) + draw.randbytes(32) + body


def options6(draw, size):
    return bytes([1, size - 2]) + bytes(size - 2) if draw.random() < 0.7 else draw.randbytes(size)


def arp(draw):
    hardware, protocol = (6, 4) if draw.random() < 0.7 else (draw.randrange(12), draw.randrange(12))
    head = struct.pack("!HHBBH", draw.choice((1, draw.randrange(65536))), 0x0800, hardware, protocol, draw.choice((1, 2, draw.randrange(65536))))
    return head + draw.randbytes(2 * hardware + 2 * protocol)


def tagged(draw, ether_type, body):
    for _ in range(draw.choices((0, 1, 2, 3, 4), (45, 27, 15, 10, 3))[0]):
        if draw.random() < 0.75:
            body = struct.pack("!HH", draw.randrange(65536), ether_type) + body
            ether_type = draw.choice((0x8100, 0x88A8, 0x9100))
            continue
        flags = draw.choices((0, draw.randrange(4) << 2), (75, 25))[0] | draw.choice((0, 0x10, 0x20, 0x40)) | draw.randrange(4)
        secured = (b"" if flags & 0x0C else struct.pack("!H", ether_type)) + body
        short = len(secured) if len(secured) < 48 else 0
        if draw.random() < 0.05:
            short = draw.randrange(256)
        body = bytes([flags, short]) + draw.randbytes(4) + (draw.randbytes(8) if flags & 0x20 else b"") + secured
        ether_type = 0x88E5
    return ether_type, body


def frame(draw):
    """Returns E and an Ethernet II frame, or L and a packet of a Linux cooked capture."""
    ether_type, make = draw.choices(
        ((0x0800, ipv4), (0x86DD, ipv6), (0x0806, arp), (draw.randrange(0x0600, 0x10000), lambda d: data(d, 20))), (45, 40, 8, 7)
    )[0]
    ether_type, body = tagged(draw, ether_type, make(draw))
    if draw.random() < 0.1:
        body += bytes(draw.randrange(1, 12))
    kind = "E" if draw.random() < 0.9 else "L"
    if kind == "E":
        head = draw.randbytes(12)
    else:
        hardware = draw.choice((1, 1, 1, 772, draw.choice((770, 778, 803, 824)), draw.randrange(65536)))
        head = struct.pack("!HHH", draw.choice((0, 1, 2, 3, 4, 4, 5)), hardware, draw.randrange(9)) + draw.randbytes(8)
    whole = bytearray(head + struct.pack("!H", ether_type) + body)
    if draw.random() < 0.12:
        del whole[draw.randrange(len(whole)) :]
    if whole and draw.random() < 0.12:
        whole[draw.randrange(len(whole))] = draw.randrange(256)
    return kind, bytes(whole)
