"""Captures of ICMP errors, each with the datagram that it is about (RFC 792; RFC 4443; RFC 4884)."""

import dataclasses
import struct

import fields
from build import A4, A6, B4, B6, IPV4
from build import frame, icmp, ip_packet, ip_there, tcp, udp, v4, v6
from cut import captured
from fragments import completes, fragment4, fragment6, waits
from refusals import cut_off
from scapy.layers.inet import TCP

# Who sent the datagram, and to whom.
C4, C6 = "192.0.2.9", "2001:db8:9::9"
ENDS4, ENDS6 = f"{B4} > {C4}", f"{B6} > {C6}"
PORTS4, PORTS6 = f"{B4}.5353 > {C4}.53", f"{B6}.5353 > {C6}.53"
TCP4 = f"{B4}.443 > {C4}.51234 TCP"
# Type and code, bytes 4 to 7, the words, and what the kind has.
OVER_IPV4 = (
    (3, 3, bytes(4), "port unreachable", {}),
    (3, 4, b"\0\0\5\x78", "fragmentation needed, mtu 1400", {"next_hop_mtu": 1400}),
    (3, 16, bytes(4), "unreachable code 16", {}),
    (4, 0, bytes(4), "source quench", {}),
    (5, 1, b"\x0a\0\0\3", "redirect to 10.0.0.3 for the host", {"gateway_internet_address": "10.0.0.3"}),
    (11, 0, bytes(4), "time to live exceeded", {}),
    (12, 0, b"\x14\0\0\0", "parameter problem at byte 20", {"pointer": 20}),
)
OVER_IPV6 = (
    (1, 4, bytes(4), "port unreachable", {}),
    (2, 0, b"\0\0\5\0", "packet too big, mtu 1280", {"mtu": 1280}),
    (3, 0, bytes(4), "hop limit exceeded", {}),
    (4, 1, b"\0\0\0\x28", "unknown next header at byte 40", {"pointer": 40}),
)
# No errors, though a datagram follows.
OTHERS_OVER_IPV4 = ((0, 1, bytes(4), "echo reply code 1", {}), (6, 0, bytes(4), "type 6", {}), (10, 0, bytes(4), "router solicitation", {}))
OTHERS_OVER_IPV6 = ((5, 0, bytes(4), "type 5", {}), (129, 1, bytes(4), "echo reply code 1", {}), (138, 0, bytes(4), "type 138", {}))

VERDICTS = {"good": "good", "bad": "bad checksum"}


@dataclasses.dataclass
class Original:
    """The bytes of a datagram that an error is about, and what is there of it: words and an object."""

    data: bytes
    words: str = None
    members: dict = None


def original(ip, words, transport=None, ports=None, size=None, net=None):
    """So many bytes of a packet, of which these headers are there."""
    members = {"net": net or (fields.ipv4(ip) if ip.version == 4 else fields.ipv6(ip))}
    members |= {"transport": transport} if transport else {}
    members |= dict(zip(("source_port", "destination_port"), ports or ()))
    return Original(bytes(ip)[:size], words, members)


def from4(protocol, message, **known):
    return v4(protocol, message, src=B4, dst=C4, **known)


def from6(next_header, message, **known):
    return v6(next_header, message, src=B6, dst=C6, **known)


def udp4(payload=b"abc", **known):
    return udp(payload, B4, C4, (5353, 53), **known)


def udp6(payload=b"abc"):
    return udp(payload, B6, C6, (5353, 53))


def error4(row, it, check="good"):
    """An error over IPv4, from a host between the two."""
    kind, code, rest, words, more = row
    message = icmp(kind, code, rest + it.data)
    if check == "bad":
        message = flipped(message, 3)
    about = f"({it.words})" if it.words else f"len {len(it.data)}"
    more = more | ({"original_datagram": it.members} if it.members else {})
    line = f"{A4} > {B4} ICMP {words} {about}  {VERDICTS[check]}"
    return ip_packet(v4(1, message), line, ("ICMP",), check, None, fields.icmp("Icmpv4", message, more), it.data)


def error6(row, it):
    kind, code, rest, words, more = row
    message = icmp(kind, code, rest + it.data, A6)
    about = f"({it.words})" if it.words else f"len {len(it.data)}"
    more = more | ({"original_datagram": it.members} if it.members else {})
    line = f"{A6} > {B6} ICMPv6 {words} {about}  good"
    return ip_packet(v6(58, message), line, ("ICMPv6",), "good", None, fields.icmp("Icmpv6", message, more), it.data)


def flipped(message, at):
    """The message with the lowest bit of this byte changed."""
    return message[:at] + bytes([message[at] ^ 1]) + message[at + 1 :]


def segment(ends):
    return tcp(b"abc", *ends, flags="S", seq=7, window=1)


def whole4():
    datagram = udp4()
    return original(from4(17, datagram), f"{PORTS4} UDP", fields.udp(datagram))


def over_ipv4():
    """Each kind of error, about UDP, TCP and an echo request; then what is there in part."""
    whole, stream, echo = whole4(), segment((B4, C4)), icmp(8, 0, b"\0\7\0\2ping")
    for row in OVER_IPV4:
        yield error4(row, whole)
        yield error4(row, original(from4(6, stream), TCP4, fields.tcp(TCP(stream))))
        yield error4(row, original(from4(1, echo), f"{ENDS4} ICMP", fields.icmp("Icmpv4", echo, {"id": 7, "seq": 2})))
    for row in OTHERS_OVER_IPV4:
        yield error4(row, Original(whole.data))
    for it in (*parts_over_ipv4(stream), *headers_over_ipv4(), *fragments_over_ipv4()):
        yield error4(OVER_IPV4[0], it)
    # The length attribute of RFC 4884: 128 bytes, then an extension.
    extended = whole.data.ljust(128, b"\0") + bytes.fromhex("2000dfff00080f0100000001")
    yield error4((11, 0, b"\0\x20\0\0", "time to live exceeded", {}), dataclasses.replace(whole, data=extended))
    for it in faults_over_ipv4():
        yield error4(OVER_IPV4[0], it)
    # The verdict is that of the error: a bad one, and a good one about a datagram with a bad checksum.
    yield error4(OVER_IPV4[0], whole, "bad")
    datagram = flipped(udp4(), 7)
    yield error4(OVER_IPV4[0], original(from4(17, datagram), f"{PORTS4} UDP", fields.udp(datagram)))
    # The other IP version.
    yield error4(OVER_IPV4[0], whole6())


def parts_over_ipv4(stream):
    """The least that RFC 792 has: the IP header and 8 bytes. Of TCP the ports are among them."""
    datagram = udp4()
    yield original(from4(17, datagram), f"{PORTS4} UDP", fields.udp(datagram), size=28)
    yield original(from4(6, stream), TCP4, None, (443, 51234), 28)
    yield original(from4(6, stream), TCP4, None, (443, 51234), 39)


def headers_over_ipv4():
    """Options, an authentication header (RFC 4302), a protocol that isn't read; an error about an error: no more than that it is one."""
    datagram = udp4()
    ip = from4(17, datagram, options=bytes.fromhex("9404000000000000"))
    yield original(ip, f"{PORTS4} UDP", fields.udp(datagram))
    ip = from4(51, struct.pack("!BBHII", 17, 4, 0, 0x1001, 7) + b"0123456789ab" + datagram)
    net = fields.ipv4(ip, fields.auth(17, 0x1001, 7, b"0123456789ab"))
    yield original(ip, f"{PORTS4} UDP", fields.udp(datagram), net=net)
    yield original(ip, f"{ENDS4} AH", size=40)
    yield original(from4(132, bytes.fromhex("01bbc82200000000")), f"{ENDS4} SCTP")
    inner = icmp(3, 3, bytes(4) + whole4().data)
    yield original(from4(1, inner), f"{ENDS4} ICMP", fields.icmp("Icmpv4", inner, {}))


def fragments_over_ipv4():
    """Fragments, the first one with a UDP header, have their offset."""
    datagram = udp4()
    yield original(from4(17, datagram, flags="MF", id=9), f"{ENDS4} UDP fragment at 0")
    yield original(from4(17, datagram, frag=185), f"{ENDS4} UDP fragment at 1480")


def faults_over_ipv4():
    """A length of UDP and of IP that is wrong, a TCP header of 4 words; and no IP header: another version, a header of 16 bytes."""
    datagram, short = udp4(), udp4(len=4)
    yield original(from4(17, short), f"{PORTS4} UDP", fields.udp(short))
    yield original(from4(17, datagram, len=19), f"{PORTS4} UDP", fields.udp(datagram))
    broken = tcp(b"", B4, C4, flags="S", dataofs=4)
    yield original(from4(6, broken), TCP4, None, (443, 51234))
    for data in (b"\xff" * 28, bytes(28), bytes(from4(17, datagram, version=5)), bytes(from4(17, datagram, ihl=4))):
        yield Original(data)


def cut_over_ipv4():
    """A datagram of UDP that is there up to each byte."""
    datagram = udp4()
    ip = from4(17, datagram)
    for size in range(len(ip) + 1):
        it = Original(bytes(ip)[:size])
        if size >= 20:
            ports = (5353, 53) if 24 <= size < 28 else None
            transport = fields.udp(datagram) if size >= 28 else None
            it = original(ip, f"{PORTS4 if size >= 24 else ENDS4} UDP", transport, ports, size)
        yield error4(OVER_IPV4[0], it)


def whole6():
    datagram = udp6()
    return original(from6(17, datagram), f"{PORTS6} UDP", fields.udp(datagram))


def over_ipv6():
    datagram, stream, echo = udp6(), segment((B6, C6)), icmp(128, 0, b"\0\7\0\2ping", B6, C6)
    whole = whole6()
    ports = f"{B6}.443 > {C6}.51234 TCP"
    for row in OVER_IPV6:
        yield error6(row, whole)
        yield error6(row, original(from6(6, stream), ports, fields.tcp(TCP(stream))))
        yield error6(row, original(from6(58, echo), f"{ENDS6} ICMPv6", fields.icmp("Icmpv6", echo, {"id": 7, "seq": 2})))
    for row in OTHERS_OVER_IPV6:
        yield error6(row, Original(whole.data))
    row = OVER_IPV6[0]
    yield error6(row, original(from6(6, stream), ports, None, (443, 51234), 48))
    # Hop-by-hop options, and as many bytes of them as don't make a header.
    hops = b"\x11\0\1\4\0\0\0\0"
    ip = from6(0, hops + datagram)
    options = {"HopByHop": {"next_header": 17, "payload": "010400000000"}}
    yield error6(row, original(ip, f"{PORTS6} UDP", fields.udp(datagram), net=fields.ipv6(ip, [options])))
    yield error6(row, original(ip, f"{ENDS6} HOPOPT", size=47))
    # A fragment, and a fragment header that describes none (RFC 6946).
    ip = from6(44, struct.pack("!BBHI", 17, 0, 1480, 9) + datagram)
    net = fields.ipv6(ip, [fields.fragment(17, 185, False, 9)])
    yield error6(row, original(ip, f"{ENDS6} UDP fragment at 1480", net=net))
    ip = from6(44, struct.pack("!BBHI", 17, 0, 1, 9) + datagram)
    net = fields.ipv6(ip, [fields.fragment(17, 0, True, 9)])
    yield error6(row, original(ip, f"{ENDS6} UDP fragment at 0", net=net))
    ip = from6(44, struct.pack("!BBHI", 17, 0, 0, 9) + datagram)
    net = fields.ipv6(ip, [fields.fragment(17, 0, False, 9)])
    yield error6(row, original(ip, f"{PORTS6} UDP", fields.udp(datagram), net=net))
    inner = icmp(1, 4, bytes(4) + whole.data, B6, C6)
    yield error6(row, original(from6(58, inner), f"{ENDS6} ICMPv6", fields.icmp("Icmpv6", inner, {})))
    for data in (b"\xff" * 48, bytes(48)):
        yield error6(row, Original(data))
    # The other IP version.
    yield error6(row, whole4())


def cut_over_ipv6():
    datagram = udp6()
    ip = from6(17, datagram)
    for size in range(len(ip) + 1):
        it = Original(bytes(ip)[:size])
        if size >= 40:
            ports = (5353, 53) if 44 <= size < 48 else None
            transport = fields.udp(datagram) if size >= 48 else None
            it = original(ip, f"{PORTS6 if size >= 44 else ENDS6} UDP", transport, ports, size)
        yield error6(OVER_IPV6[0], it)


def in_part():
    """Errors of which not all bytes were captured, up to within the datagram, and errors in fragments."""
    datagram = udp4(bytes(100))
    ip = from4(17, datagram)
    message = icmp(3, 3, bytes(4) + bytes(ip))
    packet = v4(1, message)
    for size, it in (
        (47, Original(b"")),
        (48, original(ip, f"{ENDS4} UDP")),
        (52, original(ip, f"{PORTS4} UDP", None, (5353, 53))),
        (68, original(ip, f"{PORTS4} UDP", fields.udp(datagram))),
    ):
        about = f"({it.words})" if it.words else f"len {len(ip)}"
        more = {"original_datagram": it.members} if it.members else {}
        there = ip_there(packet, f"ICMP port unreachable {about}", "ICMP", transport=fields.icmp("Icmpv4", message, more))
        refusal = cut_off(frame(IPV4, bytes(packet)[:size]), "IPv4 packet", "Ipv4Packet", 14, len(packet), size, headers=there)
        yield captured(refusal, there, 14 + len(packet))
    small = udp4()
    it = original(from4(17, small), f"{PORTS4} UDP", fields.udp(small))
    message = icmp(11, 1, bytes(4) + it.data)
    line = "ICMP fragment at 0 len 32, more follow (id 0x0007)"
    yield fragment4(message, 1, 0, 32, 7, line, waits(5), "ICMP")
    line = "ICMP fragment at 32 len 7, last (id 0x0007), completes a message of 39 bytes begun in packet 5: "
    line += f"ICMP reassembly time exceeded ({it.words})  good"
    outcome = completes(5, 1, message, fields.icmp("Icmpv4", message, {"original_datagram": it.members}))
    yield fragment4(message, 1, 32, 39, 7, line, outcome, "ICMP", "good")
    small = udp6()
    it = original(from6(17, small), f"{PORTS6} UDP", fields.udp(small))
    message = icmp(3, 1, bytes(4) + it.data, A6)
    line = "ICMPv6 fragment at 0 len 16, more follow (id 0x00000007)"
    yield fragment6(message, 58, 0, 16, 7, line, waits(7), "ICMPv6")
    line = "ICMPv6 fragment at 16 len 43, last (id 0x00000007), completes a message of 59 bytes begun in packet 7: "
    line += f"ICMPv6 reassembly time exceeded ({it.words})  good"
    outcome = completes(7, 58, message, fields.icmp("Icmpv6", message, {"original_datagram": it.members}))
    yield fragment6(message, 58, 16, 59, 7, line, outcome, "ICMPv6", "good")
