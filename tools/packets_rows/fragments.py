"""Captures of fragments."""

import struct

import fields
from build import A4, A6, B4, B6
from build import icmp, ip_packet, tcp, udp, v4, v6
from scapy.layers.inet import TCP

ENDS4 = f"{A4} > {B4}"
ENDS6 = f"{A6} > {B6}"


def fragment4(message, protocol, at, end, identification, line, outcome, kind, check=None, **known):
    """The bytes from `at` to `end` of a message."""
    flags = "MF" if end < len(message) else 0
    ip = v4(protocol, message[at:end], frag=at // 8, flags=flags, id=identification)
    named = next(iter(outcome)).lower()
    line = f"{ENDS4} {line}"
    return ip_packet(
        ip, line, (kind,), check, payload=message[at:end], fragment=outcome, outcome=named, **known
    )


def fragment6(message, protocol, at, end, identification, line, outcome, kind, check=None, **known):
    more = end < len(message)
    header = struct.pack("!BBHI", protocol, 0, at | more, identification)
    ip = v6(44, header + message[at:end])
    net = fields.ipv6(ip, [fields.fragment(protocol, at // 8, more, identification)])
    named = next(iter(outcome)).lower()
    line = f"{ENDS6} {line}"
    return ip_packet(
        ip, line, (kind,), check, net, payload=message[at:end], fragment=outcome, outcome=named, **known
    )


def waits(first):
    return {"Waits": {"begun": first}}


def refused(error, first=None):
    return {"Refused": ({"begun": first} if first else {}) | {"error": error}}


def completes(first, protocol, message, transport=None, error=None):
    members = {"begun": first, "ip_number": protocol, "len": len(message)}
    members |= ({"transport": transport} if transport else {}) | (error or {})
    return {"Completes": members | {"bytes": message.hex()}}


def fragments_ipv4():
    """RFC 791, 3.2: in order, out of order, with bytes that come twice, and several at once."""
    one, two = udp(b"0123456789abcdef"), udp(b"ghijklmnop")
    yield fragment4(
        one, 17, 0, 16, 0x1234, "UDP fragment at 0 len 16, more follow (id 0x1234)", waits(1), "UDP"
    )
    yield fragment4(
        two, 17, 16, 18, 0x1235, "UDP fragment at 16 len 2, last (id 0x1235)", waits(2), "UDP"
    )
    line = "UDP fragment at 16 len 8, last (id 0x1234), "
    line += "completes a message of 24 bytes begun in packet 1: "
    outcome = completes(1, 17, one, fields.udp(one))
    yield fragment4(one, 17, 16, 24, 0x1234, f"{line}53 > 4000 UDP len 16  good", outcome, "UDP", "good")
    line = "UDP fragment at 8 len 8, more follow (id 0x1235, begun in packet 2)"
    yield fragment4(two, 17, 8, 16, 0x1235, line, waits(2), "UDP")
    # It comes with the eight bytes that are there already.
    line = "UDP fragment at 0 len 16, more follow (id 0x1235), "
    line += "completes a message of 18 bytes begun in packet 2: "
    outcome = completes(2, 17, two, fields.udp(two))
    yield fragment4(two, 17, 0, 16, 0x1235, f"{line}53 > 4000 UDP len 10  good", outcome, "UDP", "good")
    ping = icmp(8, 0, b"\0\7\0\2pingpong")
    wrong = ping[:2] + bytes([ping[2] ^ 1]) + ping[3:]
    yield fragment4(
        wrong, 1, 0, 8, 7, "ICMP fragment at 0 len 8, more follow (id 0x0007)", waits(6), "ICMP"
    )
    line = "ICMP fragment at 8 len 8, last (id 0x0007), "
    line += "completes a message of 16 bytes begun in packet 6: "
    line += "ICMP echo request id 7 seq 2 len 8  bad checksum"
    outcome = completes(6, 1, wrong, fields.icmp("Icmpv4", wrong, {"id": 7, "seq": 2}))
    yield fragment4(wrong, 1, 8, 16, 7, line, outcome, "ICMP", "bad")
    # A protocol that isn't read, and another one under the same identification.
    gre = bytes.fromhex("00000800") + b"0123456789"
    yield fragment4(gre, 47, 8, 14, 7, "GRE fragment at 8 len 6, last (id 0x0007)", waits(8), "GRE")
    yield fragment4(
        two, 17, 0, 8, 7, "UDP fragment at 0 len 8, more follow (id 0x0007)", waits(9), "UDP"
    )
    line = "GRE fragment at 0 len 8, more follow (id 0x0007), "
    line += "completes a message of 14 bytes begun in packet 8: "
    yield fragment4(gre, 47, 0, 8, 7, f"{line}GRE len 14", completes(8, 47, gre), "GRE", "none")


def fragments_ipv6():
    """RFC 8200, 4.5: an overlap drops its message, and the same fragment again is accepted."""
    name = "0x0a0b0c0d"
    one, two = udp(b"0123456789abcdef", A6, B6), icmp(128, 0, b"\0\1\0\3hello!!!!", A6)
    yield fragment6(
        one,
        17,
        0,
        16,
        0x0A0B0C0D,
        f"UDP fragment at 0 len 16, more follow (id {name})",
        waits(1),
        "UDP",
    )
    line = f"UDP fragment at 16 len 8, last (id {name}), "
    line += "completes a message of 24 bytes begun in packet 1: 53 > 4000 UDP len 16  good"
    outcome = completes(1, 17, one, fields.udp(one))
    yield fragment6(one, 17, 16, 24, 0x0A0B0C0D, line, outcome, "UDP", "good")
    yield fragment6(
        two, 58, 8, 17, 1, "ICMPv6 fragment at 8 len 9, last (id 0x00000001)", waits(3), "ICMPv6"
    )
    line = "ICMPv6 fragment at 0 len 8, more follow (id 0x00000001), "
    line += "completes a message of 17 bytes begun in packet 3: "
    line += "ICMPv6 echo request id 1 seq 3 len 9  good"
    outcome = completes(3, 58, two, fields.icmp("Icmpv6", two, {"id": 1, "seq": 3}))
    yield fragment6(two, 58, 0, 8, 1, line, outcome, "ICMPv6", "good")
    yield fragment6(
        one, 17, 0, 16, 2, "UDP fragment at 0 len 16, more follow (id 0x00000002)", waits(5), "UDP"
    )
    line = "UDP fragment at 0 len 16, more follow (id 0x00000002, begun in packet 5)"
    yield fragment6(one, 17, 0, 16, 2, line, waits(5), "UDP")
    line = "UDP fragment at 8 len 16, last (id 0x00000002, begun in packet 5) "
    line += "refused: overlaps another, its message is dropped"
    outcome = refused({"OverlappingFragment": {"offset": 1, "payload_len": 16}}, 5)
    yield fragment6(one, 17, 8, 24, 2, line, outcome, "UDP", refused="fragment that overlaps another")
    # What comes then starts anew.
    yield fragment6(
        one, 17, 16, 24, 2, "UDP fragment at 16 len 8, last (id 0x00000002)", waits(8), "UDP"
    )
    # The header of an atomic fragment, before that of another one.
    headers = struct.pack("!BBHI", 44, 0, 0, 3) + struct.pack("!BBHI", 17, 0, 1, 4)
    ip = v6(44, headers + one[:8])
    net = fields.ipv6(ip, [fields.fragment(44, 0, False, 3), fields.fragment(17, 0, True, 4)])
    line = f"{ENDS6} UDP two fragment headers"
    yield ip_packet(ip, line, ("UDP",), None, net, payload=one[:8])


def refused_when_complete():
    """Messages that break their format, which is seen once they are complete."""
    short = tcp(b"", flags="S", dataofs=4)
    yield fragment4(
        short, 6, 0, 16, 9, "TCP fragment at 0 len 16, more follow (id 0x0009)", waits(1), "TCP"
    )
    line = "TCP fragment at 16 len 4, last (id 0x0009), "
    line += "completes a message of 20 bytes begun in packet 1: "
    error = {"error": {"Tcp": {"DataOffsetTooSmall": {"data_offset": 4}}}}
    line += "refused: TCP data offset 4 below 5"
    outcome = completes(1, 6, short, error=error)
    yield fragment4(short, 6, 16, 20, 9, line, outcome, "TCP", refused="TCP data offset below 5")
    cut = udp(b"01234567", A6, B6, len=100)
    yield fragment6(
        cut, 17, 0, 8, 9, "UDP fragment at 0 len 8, more follow (id 0x00000009)", waits(3), "UDP"
    )
    line = "UDP fragment at 8 len 8, last (id 0x00000009), "
    line += "completes a message of 16 bytes begun in packet 3: "
    line += "refused: UDP datagram cut off: 100 bytes needed at byte 0 of the message, 16 there"
    outcome = completes(3, 17, cut, error=fields.cut_off("UdpPayload", 0, 100, 16))
    yield fragment6(cut, 17, 8, 16, 9, line, outcome, "UDP", refused="UDP datagram cut off")
    brief = udp(b"01234567", len=4)
    line = "UDP fragment at 0 len 8, more follow (id 0x000a)"
    yield fragment4(brief, 17, 0, 8, 10, line, waits(5), "UDP")
    line = "UDP fragment at 8 len 8, last (id 0x000a), "
    line += "completes a message of 16 bytes begun in packet 5: "
    line += "refused: UDP length 4 below 8"
    outcome = completes(5, 17, brief, error=fields.cut_off("UdpHeader", 0, 8, 4, "UdpHeaderLen"))
    yield fragment4(brief, 17, 8, 16, 10, line, outcome, "UDP", refused="UDP header cut off")


def interfaces():
    """Messages of two interfaces under the same identification are two."""
    one, two = udp(b"01234567"), udp(b"89abcdef")
    yield fragment4(
        one, 17, 0, 8, 5, "UDP fragment at 0 len 8, more follow (id 0x0005)", waits(1), "UDP"
    )
    yield fragment4(
        two,
        17,
        0,
        8,
        5,
        "UDP fragment at 0 len 8, more follow (id 0x0005)",
        waits(2),
        "UDP",
        interface=1,
    )
    line = "UDP fragment at 8 len 8, last (id 0x0005), "
    line += "completes a message of 16 bytes begun in packet"
    text = "53 > 4000 UDP len 8  good"
    outcome = completes(2, 17, two, fields.udp(two))
    yield fragment4(two, 17, 8, 16, 5, f"{line} 2: {text}", outcome, "UDP", "good", interface=1)
    outcome = completes(1, 17, one, fields.udp(one))
    yield fragment4(one, 17, 8, 16, 5, f"{line} 1: {text}", outcome, "UDP", "good")
    segment = tcp(b"", flags="S", seq=1, window=2)
    line = f"{A4}.443 > {B4}.51234 TCP [S] seq 1 win 2 len 0  good"
    transport = fields.tcp(TCP(segment))
    yield ip_packet(v4(6, segment), line, ("TCP",), "good", None, transport, interface=1)
