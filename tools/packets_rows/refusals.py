"""Captures of what is refused."""

import struct

import fields
from build import A4, A6, A_MAC, ARP_TYPE, B4, B6, IPV4, IPV6
from build import There, frame, icmp, ip_there, link_there, refused, tcp, udp, v4, v6
from fragments import fragment4, fragment6, refused as refused_fragment, waits
from scapy.layers.l2 import ARP


def reasons():
    """Each reason for which a frame is refused.

    Those of cooked headers are none: in a capture another header stands in place of a cooked one.
    """
    message = udp(b"abc")
    yield refused(
        frame(0x88E5, struct.pack("!BBI", 0x80, 0, 1) + b"data"),
        "MACsec version 1",
        {"error": {"Macsec": "UnexpectedVersion"}},
        "MACsec version 1",
        link_there(0x88E5, "MACsec"),
    )
    yield refused(
        frame(0x88E5, struct.pack("!BBI", 0, 1, 1) + b"\x08\0data"),
        "MACsec short length 1 leaves no room for the ether type",
        {"error": {"Macsec": "InvalidUnmodifiedShortLen"}},
        "MACsec short length 1",
        link_there(0x88E5, "MACsec"),
    )
    yield refused(
        frame(IPV4, v4(17, message, version=5)),
        "IPv4 header of version 5",
        {"error": {"Ipv4": {"UnexpectedVersion": {"version_number": 5}}}},
        "IP header of another version",
        link_there(IPV4, "IPv4"),
    )
    yield refused(
        frame(IPV6, v6(17, message, version=4)),
        "IPv6 header of version 4",
        {"error": {"Ipv6": {"UnexpectedVersion": {"version_number": 4}}}},
        "IP header of another version",
        link_there(IPV6, "IPv6"),
    )
    yield refused(
        frame(IPV4, v4(17, message, ihl=4)),
        "IPv4 header length 4 below 5",
        {"error": {"Ipv4": {"HeaderLengthSmallerThanHeader": {"ihl": 4}}}},
        "IPv4 header length below 5",
        link_there(IPV4, "IPv4"),
    )
    empty = struct.pack("!BBHII", 17, 0, 0, 1, 1)
    line = "authentication header of length 0"
    error = {"error": {"Ipv4Exts": "ZeroPayloadLen"}}
    packet = v4(51, empty + message)
    yield refused(frame(IPV4, packet), line, error, line, ip_there(packet, "AH", "AH"))
    error = {"error": {"Ipv6Exts": {"IpAuth": "ZeroPayloadLen"}}}
    packet = v6(51, empty + message)
    yield refused(frame(IPV6, packet), line, error, line, ip_there(packet, "AH", "AH"))
    hops = b"\x00\0\1\4\0\0\0\0" + b"\x11\0\1\4\0\0\0\0"
    line = "hop-by-hop options after another header"
    error = {"error": {"Ipv6Exts": "HopByHopNotAtStart"}}
    packet = v6(60, hops + message)
    # The first header is of destination options.
    options = {"DestinationOptions": {"next_header": 0, "payload": "010400000000"}}
    net = fields.ipv6(packet, [options])
    there = ip_there(packet, "headers [destination options] HOPOPT", "HOPOPT", net=net)
    yield refused(frame(IPV6, packet), line, error, line, there)
    packet = v4(6, tcp(b"", flags="S", dataofs=4))
    yield refused(
        frame(IPV4, packet),
        "TCP data offset 4 below 5",
        {"error": {"Tcp": {"DataOffsetTooSmall": {"data_offset": 4}}}},
        "TCP data offset below 5",
        ip_there(packet, "TCP", "TCP"),
    )
    yield refused(
        frame(IPV4, bytes(v4(17, message))[:16]),
        "IPv4 header cut off: 20 bytes needed at byte 14, 16 there",
        fields.cut_off("Ipv4Header", 14, 20, 16),
        "IPv4 header cut off",
        link_there(IPV4, "IPv4"),
    )


def fragments():
    """Each reason for which a fragment is refused, but that there is no memory for it.

    Only an overlap over IPv6 drops its message.
    """
    one = udp(b"0123456789abcdef")
    line = "UDP fragment at 0 len 11, more follow (id 0x0001) "
    line += "refused: more follow, and its 11 bytes are no multiple of 8"
    outcome = refused_fragment({"UnalignedFragmentPayloadLen": {"offset": 0, "payload_len": 11}})
    yield fragment4(one, 17, 0, 11, 1, line, outcome, "UDP", refused="fragment of no multiple of 8 bytes")
    line = "UDP fragment at 65528 len 8, last (id 0x0001) "
    line += "refused: ends beyond the 65535 bytes of the longest message"
    outcome = refused_fragment({"SegmentTooBig": {"offset": 8191, "payload_len": 8, "max": 65535}})
    long = bytes(65528) + b"01234567"
    yield fragment4(long, 17, 65528, 65536, 1, line, outcome, "UDP", refused="fragment beyond 65535 bytes")
    yield fragment4(one, 17, 16, 24, 2, "UDP fragment at 16 len 8, last (id 0x0002)", waits(3), "UDP")
    line = "UDP fragment at 24 len 8, last (id 0x0002, begun in packet 3) "
    line += "refused: ends at 32, its message at 24"
    outcome = refused_fragment({"ConflictingEnd": {"previous_end": 24, "conflicting_end": 32}}, 3)
    end = "fragment against the end of its message"
    yield fragment4(bytes(32), 17, 24, 32, 2, line, outcome, "UDP", refused=end)
    line = "UDP fragment at 8 len 8, last (id 0x0002, begun in packet 3) "
    line += "refused: ends at 16, its message at 24"
    outcome = refused_fragment({"ConflictingEnd": {"previous_end": 24, "conflicting_end": 16}}, 3)
    yield fragment4(bytes(16), 17, 8, 16, 2, line, outcome, "UDP", refused=end)
    yield fragment6(
        one, 17, 0, 16, 3, "UDP fragment at 0 len 16, more follow (id 0x00000003)", waits(6), "UDP"
    )
    line = "UDP fragment at 8 len 8, more follow (id 0x00000003, begun in packet 6) "
    line += "refused: overlaps another, its message is dropped"
    outcome = refused_fragment({"OverlappingFragment": {"offset": 1, "payload_len": 8}}, 6)
    yield fragment6(one, 17, 8, 16, 3, line, outcome, "UDP", refused="fragment that overlaps another")


def cut_off(data, name, layer, offset, required, there, source=None, headers=There()):
    by = {
        None: "",
        "Ipv4HeaderTotalLen": " by the IPv4 total length",
        "Ipv6HeaderPayloadLen": " by the IPv6 payload length",
        # These say how many are needed.
        "ArpAddrLengths": "",
    }
    line = f"{name} cut off: {required} bytes needed at byte {offset}, {there} there{by[source]}"
    error = fields.cut_off(layer, offset, required, there, source or "Slice")
    return refused(data, line, error, f"{name} cut off", headers)


def cut_links():
    """Layers of the link, and ARP, that are cut off."""
    yield cut_off(frame(IPV4, b"")[:10], "Ethernet header", "Ethernet2Header", 0, 14, 10)
    there = link_there(0x8100, "VLAN")
    yield cut_off(frame(0x8100, b"\0\5"), "VLAN tag", "VlanHeader", 14, 4, 2, headers=there)
    there = link_there(0x8100, "VLAN", [fields.vlan(5, 0x8100)], "vlan 5 ", ["VLAN"])
    yield cut_off(frame(0x8100, b"\0\5\x81\0\0"), "VLAN tag", "VlanHeader", 18, 4, 1, headers=there)
    there = link_there(0x88E5, "MACsec")
    yield cut_off(frame(0x88E5, b"\0\0\0"), "MACsec header", "MacsecHeader", 14, 6, 3, headers=there)
    # An SCI of eight bytes and an ether type are needed.
    data = frame(0x88E5, struct.pack("!BBI", 0x20, 0, 1))
    yield cut_off(data, "MACsec header", "MacsecHeader", 14, 16, 6, headers=there)
    # The short length counts the ether type. What is there of the packet is no IPv4 header.
    short = struct.pack("!BBIH", 0, 40, 1, IPV4) + bytes(20)
    tag = {"ptype": "Unmodified", "ether_type": IPV4, "endstation_id": False, "scb": False}
    tag |= {"an": 0, "short_len": 40, "packet_nr": 1}
    there = link_there(0x88E5, "IPv4", [{"Macsec": tag}], "macsec an 0 pn 1 ", ["MACsec"])
    yield cut_off(frame(0x88E5, short), "MACsec packet", "MacsecPacket", 14, 46, 28, headers=there)
    request = bytes(ARP(op=1, hwsrc=A_MAC, psrc=A4, hwdst=A_MAC, pdst=B4))
    there = link_there(ARP_TYPE, "ARP")
    yield cut_off(frame(ARP_TYPE, request[:7]), "ARP packet", "Arp", 14, 8, 7, headers=there)
    yield cut_off(frame(ARP_TYPE, request[:20]), "ARP packet", "Arp", 14, 28, 20, "ArpAddrLengths", there)


def datagram_there(packet, message, words="UDP len 3"):
    """The headers of a UDP datagram."""
    return ip_there(packet, words, "UDP", (".53", ".4000"), fields.udp(message))


def cut_packets():
    """Layers of IP that are cut off."""
    by4, by6 = "Ipv4HeaderTotalLen", "Ipv6HeaderPayloadLen"
    datagram = udp(b"abc")
    packet4, packet6 = v4(17, datagram), v6(17, datagram)
    optional = bytes(v4(17, datagram, options=bytes(4)))
    there = link_there(IPV4, "IPv4")
    yield cut_off(frame(IPV4, optional[:20]), "IPv4 header", "Ipv4Header", 14, 24, 20, headers=there)
    there = datagram_there(packet4, datagram)
    data = frame(IPV4, bytes(packet4)[:30])
    yield cut_off(data, "IPv4 packet", "Ipv4Packet", 14, 31, 30, headers=there)
    # Where the total length is below the header's, all that is there is the packet.
    packet = v4(17, datagram, len=19)
    there = datagram_there(packet, datagram)
    yield cut_off(frame(IPV4, packet), "IPv4 packet", "Ipv4Packet", 14, 20, 19, by4, there)
    line = "authentication header", "IpAuthHeader", 34
    packet = v4(51, b"\x11\4\0\0")
    yield cut_off(frame(IPV4, packet), *line, 12, 4, by4, ip_there(packet, "AH", "AH"))
    packet = v4(51, struct.pack("!BBHII", 17, 4, 0, 1, 1))
    yield cut_off(frame(IPV4, packet), *line, 24, 12, by4, ip_there(packet, "AH", "AH"))
    there = link_there(IPV6, "IPv6")
    data = frame(IPV6, bytes(packet6)[:39])
    yield cut_off(data, "IPv6 header", "Ipv6Header", 14, 40, 39, headers=there)
    there = datagram_there(packet6, datagram)
    data = frame(IPV6, bytes(packet6)[:50])
    yield cut_off(data, "IPv6 packet", "Ipv6Packet", 14, 51, 50, headers=there)
    line = "IPv6 extension header", "Ipv6ExtHeader", 54
    packet = v6(0, b"\x11\0\1")
    yield cut_off(frame(IPV6, packet), *line, 8, 3, by6, ip_there(packet, "HOPOPT", "HOPOPT"))
    packet = v6(60, b"\x11\1\1\4\0\0\0\0")
    yield cut_off(frame(IPV6, packet), *line, 16, 8, by6, ip_there(packet, "IPv6-Opts", "IPv6-Opts"))
    packet = v6(44, b"\x11\0\0\0")
    there = ip_there(packet, "IPv6-Frag", "IPv6-Frag")
    yield cut_off(frame(IPV6, packet), "fragment header", "Ipv6FragHeader", 54, 8, 4, by6, there)


def short_length(ip, message):
    """A UDP length from 1 to 7, which says nothing of the payload."""
    stated = fields.number(message, 4)
    offset = 34 if ip.version == 4 else 54
    error = fields.cut_off("UdpHeader", offset, 8, stated, "UdpHeaderLen")
    data = frame(IPV4 if ip.version == 4 else IPV6, ip)
    there = datagram_there(ip, message, "UDP")
    return refused(data, f"UDP length {stated} below 8", error, "UDP header cut off", there)


def cut_messages():
    """Layers of messages that are cut off."""
    by4, by6 = "Ipv4HeaderTotalLen", "Ipv6HeaderPayloadLen"
    datagram, segment = udp(b"abc"), tcp(b"", options=bytes(12), flags="S")

    def of(ip, *known, source=None, headers=None, kind=None):
        """In a packet whose message is of this kind and has no whole header, or has these."""
        there = headers or ip_there(ip, kind, kind)
        return cut_off(frame(IPV4 if ip.version == 4 else IPV6, ip), *known, source, there)

    yield of(v4(17, datagram[:7]), "UDP header", "UdpHeader", 34, 8, 7, source=by4, kind="UDP")
    packet = v4(17, datagram[:10])
    line = "UDP datagram", "UdpPayload", 34
    yield of(packet, *line, 11, 10, source=by4, headers=datagram_there(packet, datagram))
    for stated in range(1, 8):
        message = udp(b"abc", len=stated)
        yield short_length(v4(17, message), message)
    message = udp(b"abc", A6, B6, len=4)
    yield short_length(v6(17, message), message)
    line = "TCP header", "TcpHeader", 54
    yield of(v6(6, segment[:19]), *line, 20, 19, source=by6, kind="TCP")
    yield of(v6(6, segment[:20]), *line, 32, 20, source=by6, kind="TCP")
    # A payload length of 0 stands for all that is there.
    yield of(v6(6, segment[:19], plen=0), *line, 20, 19, kind="TCP")
    echo = icmp(8, 0, b"\0\7\0\2")
    yield of(v4(1, echo[:7]), "ICMP message", "Icmpv4", 34, 8, 7, source=by4, kind="ICMP")
    for number, name, layer in (
        (13, "ICMP timestamp request", "Icmpv4Timestamp"),
        (14, "ICMP timestamp reply", "Icmpv4TimestampReply"),
    ):
        message = icmp(number, 0, bytes(12))
        yield of(v4(1, message), name, layer, 34, 20, 16, source=by4, kind="ICMP")
    yield of(v6(58, echo[:4]), "ICMPv6 message", "Icmpv6", 54, 8, 4, source=by6, kind="ICMPv6")
