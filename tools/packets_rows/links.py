"""Captures of tags, of what isn't parsed, and of links other than Ethernet."""

import struct

import fields
from build import A4, A6, A_MAC, ARP_TYPE, B4, B6, B_MAC, IPV4, IPV6
from build import frame, icmp, ip_packet, link, udp, v4, v6
from expected import Packet
from scapy.layers.l2 import ARP, CookedLinux

MACS = f"{A_MAC} > {B_MAC}"
PORTS4 = f"{A4}.53 > {B4}.4000"
PORTS6 = f"{A6}.53 > {B6}.4000"
REQUEST = ARP(op=1, hwsrc=A_MAC, psrc=A4, hwdst="00:00:00:00:00:00", pdst=B4)
WHO_HAS = f"ARP who has {B4}? tell {A4}"


def vlan():
    """IEEE 802.1Q. Each tag is given as its protocol, priority, drop eligibility and identifier."""

    def bytes_of(tags):
        return b"".join(struct.pack("!HH", it[0], it[1] << 13 | it[2] << 12 | it[3]) for it in tags)

    def exts_of(tags, ether_type):
        following = [it[0] for it in tags[1:]] + [ether_type]
        return [fields.vlan(it[3], after, it[1], bool(it[2])) for it, after in zip(tags, following)]

    def packet(tags, ip, line, message, payload):
        exts = exts_of(tags, IPV4 if ip.version == 4 else IPV6)
        known = {"exts": exts, "tags": bytes_of(tags), "tag_kinds": ("VLAN",)}
        return ip_packet(ip, line, ("UDP",), "good", None, fields.udp(message), payload, **known)

    def other(tags, ether_type, line, body, net, kinds, payload):
        first, *rest = tags
        data = bytes_of(tags)[2:] + struct.pack("!H", ether_type) + body
        members = fields.members(link(first[0]), exts_of(tags, ether_type), net, None, payload)
        return Packet(frame(first[0], data), line, members, ("Ethernet", "VLAN", *kinds))

    message, message6 = udp(b"abc"), udp(b"abc", A6, B6)
    yield packet(
        [(0x8100, 3, 0, 5)], v4(17, message), f"vlan 5 {PORTS4} UDP len 3  good", message, b"abc"
    )
    two = [(0x88A8, 7, 1, 4094), (0x8100, 0, 0, 1)]
    yield packet(
        two, v6(17, message6), f"vlan 4094 vlan 1 {PORTS6} UDP len 3  good", message6, b"abc"
    )
    three = [(0x9100, 0, 0, 1), (0x8100, 0, 0, 2), (0x8100, 0, 0, 3)]
    yield packet(
        three, v4(17, message), f"vlan 1 vlan 2 vlan 3 {PORTS4} UDP len 3  good", message, b"abc"
    )
    yield other(
        [(0x8100, 6, 0, 0)],
        ARP_TYPE,
        f"vlan 0 {WHO_HAS}",
        bytes(REQUEST),
        fields.arp(REQUEST),
        ("ARP",),
        b"",
    )
    line = f"vlan 5 {MACS} ether type 0x88b5 len 4"
    yield other([(0x8100, 0, 0, 5)], 0x88B5, line, b"data", None, (), b"data")


def macsec():
    """IEEE 802.1AE.

    The last two bits of the first byte are the association number; before them stand, from bit 6
    on: end station, SCI, single copy broadcast, encrypted, changed.
    """

    def header(flags, short, number, sci=None, ether_type=None):
        tag = struct.pack("!BBI", flags, short, number)
        tag += struct.pack("!Q", sci) if sci is not None else b""
        return tag + (struct.pack("!H", ether_type) if ether_type else b"")

    def ext(ptype, an, short, number, sci=None, ether_type=None, end=False, scb=False):
        it = {"ptype": ptype} | ({"ether_type": ether_type} if ether_type else {})
        it |= {"endstation_id": end, "scb": scb, "an": an, "short_len": short, "packet_nr": number}
        return {"Macsec": it | ({"sci": sci} if sci is not None else {})}

    message = udp(b"abc")
    ip = v4(17, message)
    sci = 0x0200000000010001
    known = {"exts": [ext("Unmodified", 1, 0, 9, sci, IPV4)], "tag_kinds": ("MACsec",)}
    known["tags"] = b"\x88\xe5" + header(0x21, 0, 9, sci)
    line = f"macsec an 1 pn 9 sci 0200000000010001 {PORTS4} UDP len 3  good"
    yield ip_packet(ip, line, ("UDP",), "good", None, fields.udp(message), b"abc", **known)
    # The short length counts the ether type and 31 bytes. A check value of 16 bytes follows.
    known = {
        "exts": [ext("Unmodified", 0, 33, 10, None, IPV4, end=True)],
        "tag_kinds": ("MACsec",),
    }
    known["tags"] = b"\x88\xe5" + header(0x40, 33, 10)
    line = f"macsec an 0 pn 10 {PORTS4} UDP len 3  good"
    it = ip_packet(ip, line, ("UDP",), "good", None, fields.udp(message), b"abc", **known)
    it.data += bytes(16)
    yield it
    for flags, ptype, own, line in (
        (0x2E, "Encrypted", sci, f"sci 0200000000010001 {MACS} encrypted len 6"),
        (0x06, "Modified", None, f"{MACS} changed len 6"),
        (0x0B, "EncryptedUnmodified", None, f"{MACS} encrypted len 6"),
    ):
        an = flags & 3
        data = frame(0x88E5, header(flags, 0, 4294967295, own) + b"secret")
        exts = [ext(ptype, an, 0, 4294967295, own)]
        members = fields.members(link(0x88E5), exts, None, None, b"secret")
        line = f"macsec an {an} pn 4294967295 {line}"
        yield Packet(data, line, members, ("Ethernet", "MACsec"))
    # A VLAN tag that is protected, of a frame for all.
    plain = header(0x10, 0, 11, None, 0x8100) + struct.pack("!HH", 5, ARP_TYPE) + bytes(REQUEST)
    exts = [ext("Unmodified", 0, 0, 11, None, 0x8100, scb=True), fields.vlan(5, ARP_TYPE)]
    members = fields.members(link(0x88E5), exts, fields.arp(REQUEST))
    kinds = ("Ethernet", "VLAN", "MACsec", "ARP")
    yield Packet(frame(0x88E5, plain), f"macsec an 0 pn 11 vlan 5 {WHO_HAS}", members, kinds)


def other():
    """Ether types and protocols that aren't parsed, by IANA's names or by their numbers."""
    for ether_type, name, body in (
        (0x88B5, "ether type 0x88b5", b"data"),
        (0x88CC, "LLDP", bytes.fromhex("0207040200000000010000")),
        # A length (IEEE 802.3), and after it spanning tree.
        (38, "LLC", bytes.fromhex("424203") + bytes(35)),
        (0x05DD, "ether type 0x05dd", b""),
    ):
        members = fields.members(link(ether_type), [], None, None, body)
        yield Packet(frame(ether_type, body), f"{MACS} {name} len {len(body)}", members, ("Ethernet",))
    for number, name, kind, body in (
        # One byte less than the header of an SCTP packet (RFC 9260, section 3.1).
        (132, "SCTP", "SCTP", bytes(11)),
        (47, "GRE", "GRE", b"\0\0\x08\0"),
        (253, "protocol 253", "IP protocol 253", b"x"),
    ):
        yield ip_packet(
            v4(number, body), f"{A4} > {B4} {name} len {len(body)}", (kind,), "none", payload=body
        )
    body = struct.pack("!HHII", 5000, 6000, 1, 0) + b"data"
    ports = {"sctp": {"source_port": 5000, "destination_port": 6000}}
    line = f"{A4}.5000 > {B4}.6000 SCTP len 16"
    yield ip_packet(v4(132, body), line, ("SCTP",), "none", payload=body, other=ports)
    yield ip_packet(v6(59, b""), f"{A6} > {B6} IPv6-NoNxt len 0", ("IPv6-NoNxt",), "none")
    # ICMP of the other IP version has no checksum that would be defined there.
    ping = icmp(8, 0, b"\0\7\0\2ping")
    line = f"{A6} > {B6} ICMP echo request id 7 seq 2 len 4"
    transport = fields.icmp("Icmpv4", ping, {"id": 7, "seq": 2})
    yield ip_packet(v6(1, ping), line, ("ICMP",), "none", None, transport, b"ping")
    ping = icmp(128, 0, b"\0\7\0\2ping")
    line = f"{A4} > {B4} ICMPv6 echo request id 7 seq 2 len 4"
    transport = fields.icmp("Icmpv6", ping, {"id": 7, "seq": 2})
    yield ip_packet(v4(58, ping), line, ("ICMPv6",), "none", None, transport, b"ping")


def link_packets(headers):
    """Packets of another link, by their headers, what these name, and the source that is made."""
    message, message6 = udp(b"abc"), udp(b"abc", A6, B6)
    for (header, ether_type), source in headers:
        ip = v4(17, message) if ether_type == IPV4 else v6(17, message6)
        net, mine = (
            (fields.ipv4(ip), message) if ether_type == IPV4 else (fields.ipv6(ip), message6)
        )
        members = fields.members(
            {"Made": {"source": source, "ether_type": ether_type}},
            [],
            net,
            fields.udp(mine),
            b"abc",
        )
        kinds = ("IPv4" if ether_type == IPV4 else "IPv6", "UDP")
        line = f"{PORTS4 if ether_type == IPV4 else PORTS6} UDP len 3  good"
        talk = f"{ip.src} > {ip.dst}"
        yield Packet(
            header + bytes(ip), line, members, kinds, check="good", talk=talk, replaced=len(header)
        )


ZERO = "00:00:00:00:00:00"


def cooked():
    """LINKTYPE_LINUX_SLL: an address of six bytes is the source of the header that is made."""

    def header(proto, length=6, kind=0, hardware=1):
        it = CookedLinux(pkttype=kind, lladdrtype=hardware, lladdrlen=length, proto=proto)
        it.src = bytes.fromhex("0200000000010000")
        return bytes(it)

    yield from link_packets(
        [((header(IPV4), IPV4), A_MAC), ((header(IPV6, 0, 4, 65534), IPV6), ZERO)]
    )
    made = lambda ether_type: {"Made": {"source": A_MAC, "ether_type": ether_type}}
    members = fields.members(made(ARP_TYPE), [], fields.arp(REQUEST))
    yield Packet(header(ARP_TYPE, kind=1) + bytes(REQUEST), WHO_HAS, members, ("ARP",), replaced=16)
    members = fields.members(made(0x88CC), [], None, None, b"\0\0")
    yield Packet(header(0x88CC, kind=2) + b"\0\0", f"{A_MAC} LLDP len 2", members, (), replaced=16)
    members = fields.members(made(0x8100), [fields.vlan(5, ARP_TYPE, 1)], fields.arp(REQUEST))
    tag = struct.pack("!HH", 1 << 13 | 5, ARP_TYPE)
    yield Packet(
        header(0x8100) + tag + bytes(REQUEST),
        f"vlan 5 {WHO_HAS}",
        members,
        ("VLAN", "ARP"),
        replaced=16,
    )
    error = fields.cut_off("Ipv4Header", 14, 20, 4)
    line = f"{A_MAC} IPv4  refused: IPv4 header cut off: 20 bytes needed at byte 14, 4 there"
    members = {"link": made(IPV4), "link_exts": []} | error
    yield Packet(
        header(IPV4) + b"\x45\0\0\x20", line, members, (), refused="IPv4 header cut off", replaced=16
    )


def raw_ip():
    """LINKTYPE_RAW."""
    yield from link_packets([((b"", IPV4), ZERO), ((b"", IPV6), ZERO)])
    message = icmp(8, 0, b"\0\7\0\2ping")
    ip = v4(1, message)
    made = {"Made": {"source": ZERO, "ether_type": IPV4}}
    transport = fields.icmp("Icmpv4", message, {"id": 7, "seq": 2})
    members = fields.members(made, [], fields.ipv4(ip), transport, b"ping")
    line = f"{A4} > {B4} ICMP echo request id 7 seq 2 len 4  good"
    talk = f"{A4} > {B4}"
    yield Packet(bytes(ip), line, members, ("IPv4", "ICMP"), check="good", talk=talk, replaced=0)
    error = fields.cut_off("Ipv6Header", 14, 40, 8)
    # Without an address in the header that is made, none is shown.
    line = "IPv6  refused: IPv6 header cut off: 40 bytes needed at byte 14, 8 there"
    members = {"link": {"Made": {"source": ZERO, "ether_type": IPV6}}, "link_exts": []} | error
    yield Packet(bytes(v6(17, b""))[:8], line, members, (), refused="IPv6 header cut off", replaced=0)


def null():
    """LINKTYPE_NULL: the address family in either byte order."""
    yield from link_packets([((b"\2\0\0\0", IPV4), ZERO), ((b"\0\0\0\x1e", IPV6), ZERO)])


def loop():
    """LINKTYPE_LOOP: the address family, high byte first."""
    yield from link_packets([((b"\0\0\0\2", IPV4), ZERO), ((b"\0\0\0\x18", IPV6), ZERO)])


def cooked_v2():
    """LINKTYPE_LINUX_SLL2: the protocol comes first, and the address last."""

    def header(proto, length):
        return struct.pack("!HHIHBB", proto, 0, 1, 1, 0, length) + bytes.fromhex("0200000000010000")

    yield from link_packets([((header(IPV4, 6), IPV4), A_MAC), ((header(IPV6, 8), IPV6), ZERO)])
