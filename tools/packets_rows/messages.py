"""Captures of ARP packets and of IP packets with whole messages."""

import struct

import fields
from build import A4, A6, A_MAC, ARP_TYPE, B4, B6, B_MAC
from build import frame, icmp, ip_packet, link, tcp, udp, v4, v6
from expected import Packet
from scapy.layers.inet import TCP
from scapy.layers.l2 import ARP

ENDS4 = f"{A4} > {B4}"
ENDS6 = f"{A6} > {B6}"
PORTS4 = f"{A4}.53 > {B4}.4000"
PORTS6 = f"{A6}.53 > {B6}.4000"


def arp():
    """RFC 826: a request and its reply, padded, another operation, hardware and protocol."""
    zero = "00:00:00:00:00:00"
    request = ARP(op=1, hwsrc=A_MAC, psrc=A4, hwdst=zero, pdst=B4)
    reply = ARP(op=2, hwsrc=B_MAC, psrc=B4, hwdst=A_MAC, pdst=A4)
    third = ARP(op=3, hwsrc=A_MAC, psrc=A4, hwdst=A_MAC, pdst=A4)
    for it, line, padding in (
        (request, f"ARP who has {B4}? tell {A4}", 0),
        (reply, f"ARP {B4} is at {B_MAC}", 18),
        (third, f"ARP operation 3 from {A_MAC} {A4} to {A_MAC} {A4}", 0),
    ):
        data = frame(ARP_TYPE, bytes(it) + bytes(padding))
        yield Packet(
            data, line, fields.members(link(ARP_TYPE), [], fields.arp(it)), ("Ethernet", "ARP")
        )
    # Operation 8 between addresses of frame relay (RFC 2390), and addresses of another protocol.
    data = frame(
        ARP_TYPE, struct.pack("!HHBBH", 15, 0x0800, 2, 4, 8) + b"\x18\x41\x0a\0\0\1\0\0\0\0\0\0"
    )
    members = {
        "hw_addr_type": 15,
        "proto_addr_type": 0x0800,
        "operation": 8,
        "sender_hw_addr": "18:41",
    }
    members |= {
        "sender_protocol_addr": A4,
        "target_hw_addr": "00:00",
        "target_protocol_addr": "0.0.0.0",
    }
    line = f"ARP operation 8 hardware type 15 from 18:41 {A4} to 00:00 0.0.0.0"
    yield Packet(data, line, fields.members(link(ARP_TYPE), [], {"Arp": members}), ("Ethernet", "ARP"))
    body = bytes.fromhex("020000000001") + b"\x12\x34" + bytes(6) + b"\x56\x78"
    data = frame(ARP_TYPE, struct.pack("!HHBBH", 1, 0x0BAD, 6, 2, 1) + body)
    members = {"hw_addr_type": 1, "proto_addr_type": 0x0BAD, "operation": 1, "sender_hw_addr": A_MAC}
    members |= {"sender_protocol_addr": "1234", "target_hw_addr": zero, "target_protocol_addr": "5678"}
    yield Packet(
        data,
        f"ARP operation 1 from {A_MAC} to {zero}",
        fields.members(link(ARP_TYPE), [], {"Arp": members}),
        ("Ethernet", "ARP"),
    )


def ipv4_udp():
    def packet(message, line, check, payload, **known):
        ip = v4(17, message, **known)
        return ip_packet(ip, line, ("UDP",), check, transport=fields.udp(message), payload=payload)

    good = udp(b"abc")
    yield packet(good, f"{PORTS4} UDP len 3  good", "good", b"abc")
    # A router alert (RFC 2113) and the end of the options.
    alert = bytes.fromhex("9404000000000000")
    yield packet(good, f"{PORTS4} options [router alert] UDP len 3  good", "good", b"abc", options=alert)
    unsent = good[:6] + b"\0\0" + good[8:]
    yield packet(unsent, f"{PORTS4} UDP len 3  no checksum", "none", b"abc")
    changed = good[:8] + b"abd"
    yield packet(changed, f"{PORTS4} UDP len 3  bad checksum", "bad", b"abd")
    # Class of service 46 (RFC 3246), marked as congested (RFC 3168), not to be cut, no payload.
    marked = {"tos": 46 << 2 | 3, "flags": "DF", "ttl": 1, "id": 0xFFFF}
    yield packet(udp(b""), f"{PORTS4} UDP len 0  good", "good", b"", **marked)
    # The length field leaves out two bytes.
    yield packet(good + b"xy", f"{PORTS4} UDP len 3  good", "good", b"abc")
    # The packet ends before the frame does.
    it = packet(good, f"{PORTS4} UDP len 3  good", "good", b"abc")
    it.data += bytes(15)
    yield it
    # An authentication header (RFC 4302), and the ports of another way.
    back = udp(b"back", B4, A4, (4000, 53))
    header = struct.pack("!BBHII", 17, 4, 0, 0x1001, 7) + b"0123456789ab"
    ip = v4(51, header + back, src=B4, dst=A4)
    net = fields.ipv4(ip, fields.auth(17, 0x1001, 7, b"0123456789ab"))
    line = f"{B4}.4000 > {A4}.53 headers [authentication] UDP len 4  good"
    yield ip_packet(ip, line, ("UDP",), "good", net, fields.udp(back), b"back")


HEADER_NAMES = {
    "HopByHop": "hop-by-hop",
    "Routing": "routing",
    "Fragment": "fragment",
    "DestinationOptions": "destination options",
    "Authentication": "authentication",
}


def ipv6_udp():
    """RFC 8200, each extension header alone and all together."""
    good = udp(b"abc", A6, B6)
    icv = b"0123456789ab"
    alert, padded, routing = (
        bytes.fromhex("050200000100"),
        bytes.fromhex("010400000000"),
        bytes.fromhex("fd0000000000"),
    )
    raw = lambda following, payload: bytes([following, (len(payload) + 2) // 8 - 1]) + payload
    extension = lambda kind, following, payload: {
        kind: {"next_header": following, "payload": payload.hex()}
    }
    auth = struct.pack("!BBHII", 17, 4, 0, 0x1001, 8) + icv
    long = padded + bytes.fromhex("0106000000000000")

    def packet(first, headers, extensions, message=good, check="good", text="good", **known):
        ip = v6(first, headers + message, **known)
        names = ",".join(HEADER_NAMES[name] for it in extensions for name in it)
        line = f"{PORTS6}{f' headers [{names}]' if names else ''} UDP len 3  {text}"
        net = fields.ipv6(ip, extensions)
        return ip_packet(ip, line, ("UDP",), check, net, fields.udp(message), message[8:])

    yield packet(17, b"", [], tc=0xB9, fl=0xABCDE, hlim=255)
    yield packet(0, raw(17, alert), [extension("HopByHop", 17, alert)])
    yield packet(60, raw(17, long), [extension("DestinationOptions", 17, long)])
    # No segments are left, so that the checksum is one to the destination that is there.
    yield packet(43, raw(17, routing), [extension("Routing", 17, routing)])
    # An atomic fragment (RFC 6946).
    alone = struct.pack("!BBHI", 17, 0, 0, 0x0A0B0C0D)
    yield packet(44, alone, [fields.fragment(17, 0, False, 0x0A0B0C0D)])
    yield packet(51, auth, [{"Authentication": fields.auth(17, 0x1001, 8, icv)}])
    every = raw(60, alert) + raw(43, padded) + raw(44, routing) + struct.pack("!BBHI", 51, 0, 0, 5)
    every += struct.pack("!BBHII", 60, 4, 0, 0x1001, 9) + icv + raw(17, padded)
    extensions = [
        extension("HopByHop", 60, alert),
        extension("DestinationOptions", 43, padded),
        extension("Routing", 44, routing),
    ]
    extensions += [
        fields.fragment(51, 0, False, 5),
        {"Authentication": fields.auth(60, 0x1001, 9, icv)},
    ]
    yield packet(0, every, [*extensions, extension("DestinationOptions", 17, padded)])
    yield packet(17, b"", [], good[:8] + b"abd", "bad", "bad checksum")
    yield packet(17, b"", [], good[:6] + b"\0\0abc", "none", "no checksum")


def tcp_segments():
    """RFC 9293; options of RFC 9293, 2018 and 7323."""
    ports = f"{A4}.443 > {B4}.51234"

    def packet(line, payload=b"", options=b"", elements=(), check="good", **known):
        message = tcp(payload, options=options, **known)
        text = "bad checksum" if check == "bad" else "good"
        if check == "bad":
            message = message[:16] + bytes([message[16] ^ 1]) + message[17:]
        transport = fields.tcp(TCP(message), elements)
        return ip_packet(
            v4(6, message), f"{ports} TCP {line}  {text}", ("TCP",), check, None, transport, payload
        )

    mss, permitted, scale = (
        bytes.fromhex("020405b4"),
        bytes.fromhex("0402"),
        bytes.fromhex("030307"),
    )
    times = bytes.fromhex("080a0000000500000006")
    first = {"MaximumSegmentSize": 1460}, "SelectiveAcknowledgementPermitted", {"Timestamp": [5, 6]}
    yield packet(
        "[S] seq 17 win 65535 len 0 options [mss 1460,sack ok,ts 5 ecr 6,nop,wscale 7]",
        options=mss + permitted + times + b"\1" + scale,
        elements=[*first, "Noop", {"WindowScale": 7}],
        flags="S",
        seq=17,
        window=65535,
    )
    # After the end of the options nothing is shown.
    yield packet(
        "[S.] seq 4294967295 ack 18 win 0 len 0 options [mss 1460]",
        options=mss + b"\0" + b"\1\1\1",
        elements=[{"MaximumSegmentSize": 1460}],
        flags="SA",
        seq=2**32 - 1,
        ack=18,
        window=0,
    )
    yield packet("[P.] seq 18 ack 1 win 502 len 5", b"hello", flags="PA", seq=18, ack=1, window=502)
    blocks = b"\1\1\5\x12" + struct.pack("!IIII", 100, 200, 300, 400)
    yield packet(
        "[.] seq 1 ack 50 win 502 len 0 options [nop,nop,sack 100-200 300-400]",
        options=blocks,
        elements=["Noop", "Noop", {"SelectiveAcknowledgement": [[100, 200], [300, 400]]}],
        flags="A",
        seq=1,
        ack=50,
        window=502,
    )
    yield packet(
        "[FSRP.UEWN] seq 1 ack 2 win 3 urg 4 len 1",
        b"!",
        flags=0x1FF,
        seq=1,
        ack=2,
        window=3,
        urgptr=4,
    )
    yield packet(
        "[F.] seq 23 ack 1 win 502 len 0", flags="FA", seq=23, ack=1, window=502, check="bad"
    )
    # An unknown option is passed over by its length, unless that is below 2 or too long. The first other one that can't be read
    # ends them: one of another length, and one that is cut off.
    for words, options, elements in (
        ("nop,option 30,nop,mss 1460", b"\1\x1e\2\1\2\4\5\xb4", ["Noop", {"UnknownId": 30}, "Noop", {"MaximumSegmentSize": 1460}]),
        ("option 30,option 31", b"\x1e\5abc\x1f\3d", [{"UnknownId": 30}, {"UnknownId": 31}]),
        ("option 30 of length 1", b"\x1e\1\1\1", [{"UnknownId": 30}]),
        ("nop,option 30 cut off", b"\1\x1e\4\1", ["Noop", {"UnknownId": 30}]),
        ("nop,nop,nop,option 30 cut off", b"\1\1\1\x1e", ["Noop", "Noop", "Noop", {"UnknownId": 30}]),
    ):
        line = f"[R] seq 9 win 0 len 0 options [{words}]"
        yield packet(line, options=options, elements=elements, flags="R", seq=9, window=0)
    yield packet(
        "[S] seq 9 win 1 len 0 options [option 2 of length 5]",
        options=b"\2\5\5\xb4\0\0\0\0",
        elements=[{"UnexpectedSize": {"option_id": 2, "size": 5}}],
        flags="S",
        seq=9,
        window=1,
    )
    yield packet(
        "[S] seq 9 win 1 len 0 options [option 8 cut off]",
        options=b"\x08\x0a\0\0\0\5\0\0",
        elements=[{"UnexpectedEndOfSlice": {"option_id": 8, "expected_len": 10, "actual_len": 8}}],
        flags="S",
        seq=9,
        window=1,
    )
    message = tcp(b"six", A6, B6, flags="A", seq=1, ack=2, window=3)
    line = f"{A6}.443 > {B6}.51234 TCP [.] seq 1 ack 2 win 3 len 3  good"
    yield ip_packet(v6(6, message), line, ("TCP",), "good", None, fields.tcp(TCP(message)), b"six")


def icmp_messages():
    """RFC 792, 1191 and 1122."""

    def packet(line, message, more, payload, check="good"):
        text = "bad checksum" if check == "bad" else "good"
        transport = fields.icmp("Icmpv4", message, more)
        return ip_packet(
            v4(1, message),
            f"{ENDS4} ICMP {line}  {text}",
            ("ICMP",),
            check,
            None,
            transport,
            payload,
        )

    echo = {"id": 7, "seq": 2}
    yield packet("echo request id 7 seq 2 len 4", icmp(8, 0, b"\0\7\0\2ping"), echo, b"ping")
    yield packet("echo reply id 7 seq 2 len 4", icmp(0, 0, b"\0\7\0\2ping"), echo, b"ping")
    original = bytes(v4(17, udp(b"")))
    about = {"original_datagram": {"net": fields.ipv4(v4(17, udp(b""))), "transport": fields.udp(udp(b""))}}
    shown = f"({PORTS4} UDP)"
    yield packet(f"port unreachable {shown}", icmp(3, 3, bytes(4) + original), about, original)
    too_long = icmp(3, 4, b"\0\0\5\x78" + original)
    yield packet(f"fragmentation needed, mtu 1400 {shown}", too_long, {"next_hop_mtu": 1400} | about, original)
    to = icmp(5, 1, b"\x0a\0\0\3" + original)
    yield packet(
        f"redirect to 10.0.0.3 for the host {shown}",
        to,
        {"gateway_internet_address": "10.0.0.3"} | about,
        original,
    )
    yield packet(f"time to live exceeded {shown}", icmp(11, 0, bytes(4) + original), about, original)
    at = icmp(12, 0, b"\x14\0\0\0" + original)
    yield packet(f"parameter problem at byte 20 {shown}", at, {"pointer": 20} | about, original)
    times = {"originate_timestamp": 1, "receive_timestamp": 2, "transmit_timestamp": 86_400_000}
    request = icmp(13, 0, struct.pack("!HHIII", 7, 3, 1, 2, 86_400_000))
    yield packet("timestamp request id 7 seq 3 len 0", request, {"id": 7, "seq": 3} | times, b"")
    reply = icmp(14, 0, struct.pack("!HHIII", 7, 3, 1, 2, 86_400_000))
    wrong = reply[:2] + bytes([reply[2] ^ 1]) + reply[3:]
    yield packet("timestamp reply id 7 seq 3 len 0", wrong, {"id": 7, "seq": 3} | times, b"", "bad")
    yield packet("type 42 code 3 len 2", icmp(42, 3, b"\1\2\3\4xy"), {}, b"xy")


def icmp6_messages():
    """RFC 4443 and 4861."""

    def packet(line, message, more, payload, check="good"):
        text = "bad checksum" if check == "bad" else "good"
        transport = fields.icmp("Icmpv6", message, more)
        line = f"{ENDS6} ICMPv6 {line}  {text}"
        return ip_packet(v6(58, message), line, ("ICMPv6",), check, None, transport, payload)

    echo = {"id": 1, "seq": 3}
    yield packet(
        "echo request id 1 seq 3 len 5", icmp(128, 0, b"\0\1\0\3hello", A6), echo, b"hello"
    )
    yield packet("echo reply id 1 seq 3 len 5", icmp(129, 0, b"\0\1\0\3hello", A6), echo, b"hello")
    datagram = udp(b"", A6, B6)
    original = bytes(v6(17, datagram))
    about = {"original_datagram": {"net": fields.ipv6(v6(17, datagram)), "transport": fields.udp(datagram)}}
    shown = f"({PORTS6} UDP)"
    too_big = icmp(2, 0, b"\0\0\5\0" + original, A6)
    yield packet(f"packet too big, mtu 1280 {shown}", too_big, {"mtu": 1280} | about, original)
    yield packet(f"no route {shown}", icmp(1, 0, bytes(4) + original, A6), about, original)
    yield packet(f"hop limit exceeded {shown}", icmp(3, 0, bytes(4) + original, A6), about, original)
    problem = icmp(4, 1, b"\0\0\0\x28" + original, A6)
    yield packet(f"unknown next header at byte 40 {shown}", problem, {"pointer": 40} | about, original)
    target = bytes.fromhex("20010db8000000000000000000000002")
    solicitation = {"ndp": {"NeighborSolicitation": {"target": "2001:db8::2", "options": []}}}
    words = "neighbor solicitation, who has 2001:db8::2"
    yield packet(words, icmp(135, 0, bytes(4) + target, A6), solicitation, target)
    yield packet("type 200 code 1 len 2", icmp(200, 1, b"\1\2\3\4xy", A6), {}, b"xy")
    wrong = icmp(128, 0, b"\0\1\0\4", A6)
    wrong = wrong[:3] + bytes([wrong[3] ^ 1]) + wrong[4:]
    yield packet("echo request id 1 seq 4 len 0", wrong, {"id": 1, "seq": 4}, b"", "bad")
