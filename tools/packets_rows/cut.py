"""Captures with a snap length: packets of which fewer bytes were captured than were on the wire."""

import dataclasses
import struct

import fields
from build import A6, A_MAC, ARP_TYPE, B6, IPV4, IPV6
from build import frame, icmp, ip_there, link_there, tcp, udp, v4, v6
from fragments import fragment4, waits
from links import REQUEST, cooked
from messages import arp
from refusals import cut_off, datagram_there


def of(packet, wire):
    return dataclasses.replace(packet, wire=wire)


def captured(packet, headers, wire):
    """Nothing is wrong with a packet that is refused but that it was cut: only its headers are shown."""
    gap = "  " if headers.line else ""
    return dataclasses.replace(packet, line=headers.line, wire=wire, gap=gap)


def cut():
    """With bytes of a header, of a message or only of the padding left out, and a fragment.

    The last two: all bytes were captured, and a record that says less than was captured.
    """
    datagram = udp(b"abc")
    packet = v4(17, datagram)
    there = link_there(IPV4, "IPv4")
    data = frame(IPV4, bytes(packet)[:6])
    yield captured(cut_off(data, "IPv4 header", "Ipv4Header", 14, 20, 6, headers=there), there, 45)
    there = datagram_there(packet, datagram)
    data = frame(IPV4, bytes(packet)[:30])
    yield captured(cut_off(data, "IPv4 packet", "Ipv4Packet", 14, 31, 30, headers=there), there, 45)
    there = link_there(ARP_TYPE, "ARP")
    data = frame(ARP_TYPE, bytes(REQUEST)[:7])
    yield captured(cut_off(data, "ARP packet", "Arp", 14, 8, 7, headers=there), there, 1514)
    request, *_ = arp()
    yield of(request, 60)
    message = udp(b"0123456789abcdef")
    line = "UDP fragment at 0 len 16, more follow (id 0x1234)"
    yield of(fragment4(message, 17, 0, 16, 0x1234, line, waits(5), "UDP"), 60)
    yield request
    yield of(request, 20)


def after_headers():
    """Packets of which the headers were captured, and some bytes more or fewer.

    The lengths are those that the headers promise, whatever was captured.
    """
    names = {IPV4: ("IPv4 packet", "Ipv4Packet"), IPV6: ("IPv6 packet", "Ipv6Packet")}

    def snapped(ip, size, there, more=0):
        """So many bytes of an IP packet; on the wire it was followed by others."""
        ether_type = IPV4 if ip.version == 4 else IPV6
        data = frame(ether_type, bytes(ip)[:size])
        refusal = cut_off(data, *names[ether_type], 14, len(ip), size, headers=there)
        return captured(refusal, there, 14 + len(ip) + more)

    # A segment of 1460 bytes, with and without its options, and cut within its ports.
    options = bytes.fromhex("020405b401030307")
    segment = tcp(bytes(1460), options=options, flags="S", seq=17, window=65535)
    scapy = v4(6, segment)
    header = fields.tcp(scapy["TCP"], [{"MaximumSegmentSize": 1460}, "Noop", {"WindowScale": 7}])
    words = "TCP [S] seq 17 win 65535 len 1460 options [mss 1460,nop,wscale 7]"
    yield snapped(scapy, 82, ip_there(scapy, words, "TCP", (".443", ".51234"), header))
    yield snapped(scapy, 48, ip_there(scapy, words, "TCP", (".443", ".51234"), header))
    yield snapped(scapy, 47, ip_there(scapy, "TCP", "TCP"))
    yield snapped(scapy, 24, ip_there(scapy, "TCP", "TCP"))
    # A datagram and an echo request over IPv6.
    datagram = udp(bytes(1000), A6, B6)
    packet = v6(17, datagram)
    yield snapped(packet, 60, datagram_there(packet, datagram, "UDP len 1000"))
    ping = icmp(128, 0, b"\0\7\0\2" + bytes(56), A6)
    packet = v6(58, ping)
    header = fields.icmp("Icmpv6", ping, {"id": 7, "seq": 2})
    yield snapped(packet, 50, ip_there(packet, "ICMPv6 echo request id 7 seq 2 len 56", "ICMPv6", transport=header))
    # A protocol that isn't read.
    packet = v4(47, bytes(100))
    yield snapped(packet, 30, ip_there(packet, "GRE len 100", "GRE"))
    # Fragments: the first one isn't put together with others.
    packet = v4(17, udp(bytes(1472)), flags="MF", id=0x1234)
    words = "UDP fragment at 0 len 1480, more follow (id 0x1234)"
    yield snapped(packet, 82, ip_there(packet, words, "UDP"))
    part = struct.pack("!BBHI", 17, 0, 185 << 3, 0x0A0B0C0D)
    packet = v6(44, part + bytes(300))
    net = fields.ipv6(packet, [fields.fragment(17, 185, False, 0x0A0B0C0D)])
    words = "UDP fragment at 1480 len 300, last (id 0x0a0b0c0d)"
    yield snapped(packet, 96, ip_there(packet, words, "UDP", net=net))
    # In a VLAN.
    datagram = udp(bytes(100))
    packet = v4(17, datagram)
    there = datagram_there(packet, datagram, "UDP len 100")
    there = dataclasses.replace(there, line=f"vlan 5 {there.line}", kinds=("Ethernet", "VLAN", "IPv4", "UDP"))
    there.members |= {"link": link_there(0x8100, "").members["link"], "link_exts": [fields.vlan(5, IPV4)]}
    data = frame(0x8100, b"\0\5\x08\0" + bytes(packet)[:42])
    yield captured(cut_off(data, *names[IPV4], 18, 128, 42, headers=there), there, 18 + 128)
    # More is wrong: the total length promises more than there was on the wire, by a byte.
    datagram = udp(b"abc")
    packet = v4(17, datagram)
    there = datagram_there(packet, datagram)
    data = frame(IPV4, bytes(packet)[:28])
    yield of(cut_off(data, *names[IPV4], 14, 31, 28, headers=there), 44)
    # A header that is there breaks its format; the packet is refused for the first fault.
    packet = v4(6, tcp(b"abc", flags="S", dataofs=4))
    there = ip_there(packet, "TCP", "TCP")
    refusal = cut_off(frame(IPV4, bytes(packet)[:40]), *names[IPV4], 14, 43, 40, headers=there)
    yield dataclasses.replace(
        refusal, line=f"{there.line}  refused: TCP data offset 4 below 5", wire=57
    )
    # A message is longer than its kind, and it was cut, too.
    packet = v4(1, icmp(13, 0, bytes(36)))
    there = ip_there(packet, "ICMP", "ICMP")
    refusal = cut_off(frame(IPV4, bytes(packet)[:44]), *names[IPV4], 14, 60, 44, headers=there)
    words = "ICMP timestamp request cut off: 20 bytes needed at byte 34, 24 there"
    yield dataclasses.replace(refusal, line=f"{there.line}  refused: {words}", wire=74)
    # Nothing was captured but a part of the Ethernet header.
    it = cut_off(frame(IPV4, b"")[:10], "Ethernet header", "Ethernet2Header", 0, 14, 10)
    yield dataclasses.replace(it, line="", wire=60, gap="")


def cut_cooked():
    """LINKTYPE_LINUX_SLL: the header of the link is counted, and not the one that is made."""
    *_, refused = cooked()
    yield dataclasses.replace(refused, line=f"{A_MAC} IPv4", wire=76, gap="  ")
    *_, arp_packet, _, _, _ = cooked()
    yield arp_packet


def wrong_length():
    """A record that says less than was captured, and none that was cut."""
    request, *_ = arp()
    yield dataclasses.replace(request, wire=20)
