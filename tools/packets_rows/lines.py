"""Lines of packets, written by hand from the RFCs of their protocols. The frames are scapy's
(2.5.0)."""

import re

import frames
from worked import Worked, shown

MESSAGES = (
    (
        "02000000000202000000000108004500003000010000400666c50a0000010a00000201bbc822000000"
        "11000000047012ffffa6130000020405b401030307",
        "10.0.0.1.443 > 10.0.0.2.51234 TCP [S.] seq 17 ack 4 win 65535 len 0 options [mss "
        "1460,nop,wscale 7]  good",
    ),
    (
        "02000000000202000000000108004500004c00010000400666a90a0000010a00000201bbc822000000"
        "64000000c8d01003e878bb00000101080a000000050000000601010512000000010000000200000005"
        "0000000961626364",
        "10.0.0.1.443 > 10.0.0.2.51234 TCP [.] seq 100 ack 200 win 1000 len 4 options "
        "[nop,nop,ts 5 ecr 6,nop,nop,sack 1-2 5-9]  good",
    ),
    (
        "0200000000020200000000018100600508004500001f00010000401166cb0a0000010a00000200350f"
        "a0000b179e616263",
        "vlan 5 10.0.0.1.53 > 10.0.0.2.4000 UDP len 3  good",
    ),
    (
        "02000000000202000000000108004500001f00010000401166cb0a0000010a00000200350fa0000b00"
        "00616263",
        "10.0.0.1.53 > 10.0.0.2.4000 UDP len 3  no checksum",
    ),
    (
        "02000000000202000000000108004500001f00010000401166cb0a0000010a00000200350fa0000b12"
        "34616263",
        "10.0.0.1.53 > 10.0.0.2.4000 UDP len 3  bad checksum",
    ),
    (
        "02000000000202000000000108004500001800010000402f66b40a0000010a00000200000800",
        "10.0.0.1 > 10.0.0.2 GRE len 4",
    ),
    (
        "02000000000202000000000186dd600000000012004020010db800000000000000000000000120010d"
        "b800000000000000000000000211000104000000000009000a000a42f06162",
        "2001:db8::1.9 > 2001:db8::2.10 headers [hop-by-hop] UDP len 2  good",
    ),
    (
        "ffffffffffff020000000001080600010800060400010200000000010a0000010000000000000a000002",
        "ARP who has 10.0.0.2? tell 10.0.0.1",
    ),
    (
        "020000000002020000000001080600010800060400020200000000010a0000010200000000020a000002",
        "ARP 10.0.0.1 is at 02:00:00:00:00:01",
    ),
    (
        "ffffffffffff020000000001080600011234060400010200000000010a0000010000000000000a000002",
        "ARP operation 1 from 02:00:00:00:00:01 to 00:00:00:00:00:00",
    ),
    (
        "020000000002020000000001080600010800060400080200000000010a0000010200000000020a000002",
        "ARP operation 8 from 02:00:00:00:00:01 10.0.0.1 to 02:00:00:00:00:02 10.0.0.2",
    ),
    (
        "020000000002020000000001080600010800000400030a0000010a000002",
        "ARP operation 3 from 10.0.0.1 to 10.0.0.2",
    ),
    (
        "0180c200000e02000000000188cc0207040200000000010000",
        "02:00:00:00:00:01 > 01:80:c2:00:00:0e LLDP len 11",
    ),
    (
        "02000000000202000000000188e52d00000000090200000000010001736563726574",
        "macsec an 1 pn 9 sci 0200000000010001 02:00:00:00:00:01 > 02:00:00:00:00:02 "
        "encrypted len 6",
    ),
)
ICMP = (
    (
        "02000000000202000000000108004500002000010000400166da0a0000010a00000208001926000700"
        "0270696e67",
        "10.0.0.1 > 10.0.0.2 ICMP echo request id 7 seq 2 len 4  good",
    ),
    (
        "02000000000202000000000108004500003800010000400166c20a0000010a00000203031119000000"
        "004500001c00010000401166ce0a0000010a000002000100020008ebd8",
        "10.0.0.1 > 10.0.0.2 ICMP port unreachable (10.0.0.1.1 > 10.0.0.2.2 UDP)  good",
    ),
    (
        "02000000000202000000000108004500001d00010000400166dd0a0000010a00000203047f83000005"
        "7878",
        "10.0.0.1 > 10.0.0.2 ICMP fragmentation needed, mtu 1400 len 1  good",
    ),
    (
        "02000000000202000000000108004500001d00010000400166dd0a0000010a0000020b007cff000000"
        "0078",
        "10.0.0.1 > 10.0.0.2 ICMP time to live exceeded len 1  good",
    ),
    (
        "02000000000202000000000186dd60000000000d3a40fe800000000000000000000000000001ff0200"
        "0000000000000000000000000181003d5c0001000368656c6c6f",
        "fe80::1 > ff02::1 ICMPv6 echo reply id 1 seq 3 len 5  good",
    ),
    (
        "02000000000202000000000186dd6000000000183afffe800000000000000000000000000001ff0200"
        "000000000000000001ff00000287007da100000000fe800000000000000000000000000002",
        "fe80::1 > ff02::1:ff00:2 ICMPv6 neighbor solicitation, who has fe80::2  good",
    ),
    (
        "02000000000202000000000186dd60000000000a3a4020010db800000000000000000000000120010d"
        "b8000000000000000000000002020024cd000005007879",
        "2001:db8::1 > 2001:db8::2 ICMPv6 packet too big, mtu 1280 len 2  good",
    ),
)
# IEEE's registry of ether types, and IANA's "IEEE 802 Numbers". Up to 1500 it is a length (IEEE
# 802.3); between that and 1536 it is nothing.
ETHER_TYPES = (
    (0, "LLC"),
    (1500, "LLC"),
    (1501, "ether type 0x05dd"),
    (0x0842, "Wake-on-LAN"),
    (0x8035, "RARP"),
    (0x8808, "MAC control"),
    (0x8809, "slow protocol"),
    (0x8847, "MPLS"),
    (0x8848, "MPLS"),
    (0x8863, "PPPoE"),
    (0x8864, "PPPoE"),
    (0x888E, "EAPOL"),
    (0x88CC, "LLDP"),
    (0x88F7, "PTP"),
    (0x9000, "loopback"),
    (0x88B5, "ether type 0x88b5"),
)
REFUSALS = (
    (
        "02000000000202000000000108004500001c000100",
        "02:00:00:00:00:01 > 02:00:00:00:00:02 IPv4  refused: IPv4 header cut off: 20 bytes "
        "needed at byte 14, 7 there",
    ),
    (
        "02000000000202000000000108004500002800010000400666cd0a0000010a00000200140050000000"
        "0000000000400220008b7c0000",
        "10.0.0.1 > 10.0.0.2 TCP  refused: TCP data offset 4 below 5",
    ),
    (
        "02000000000202000000000108004500002000010000401166ca0a0000010a00000200010002006426"
        "b261626364",
        "10.0.0.1.1 > 10.0.0.2.2 UDP len 92  refused: UDP datagram cut off: 100 bytes needed "
        "at byte 34, 12 there by the IPv4 total length",
    ),
    (
        "02000000000202000000000108004500001700052001401146ce0a0000010a000002616263",
        "10.0.0.1 > 10.0.0.2 UDP fragment at 8 len 3, more follow (id 0x0005) refused: "
        "more follow, and its 3 bytes are no multiple of 8",
    ),
)
RAW_REFUSALS = (
    ("4500001c000100", "IPv4  refused: IPv4 header cut off: 20 bytes needed at byte 14, 7 there"),
)
FRAGMENTS = (
    "    1   0.000000 10.0.0.1 > 10.0.0.2 UDP fragment at 0 len 16, more follow (id 0x1234)",
    "    2   0.001500 2001:db8::1 > 2001:db8::2 UDP fragment at 0 len 16, more follow (id "
    "0x0a0b0c0d)",
    "    3   0.003000 10.0.0.1 > 10.0.0.2 UDP fragment at 16 len 12, last (id 0x1234), "
    "completes a message of 28 bytes begun in packet 1: 53 > 4000 UDP len 20  good",
    "    4   0.004500 2001:db8::1 > 2001:db8::2 UDP fragment at 8 len 16, more follow (id "
    "0x0a0b0c0d, begun in packet 2) refused: overlaps another, its message is dropped",
)
# Spans of ten seconds: a message is dropped once two have ended after its last fragment.
DROPPED = (
    "    1   0.000000 10.0.0.1 > 10.0.0.2 UDP fragment at 0 len 16, more follow (id 0x1234)",
    "    4  23.000000 10.0.0.1 > 10.0.0.2 UDP fragment at 16 len 16, last (id 0x1234)",
)
COMPLETED = (
    "    1   0.000000 10.0.0.1 > 10.0.0.2 UDP fragment at 0 len 16, more follow (id 0x1234)",
    "    2   9.000000 10.0.0.1 > 10.0.0.2 UDP fragment at 16 len 16, last (id 0x1234), "
    "completes a message of 32 bytes begun in packet 1: 53 > 5353 UDP len 24  good",
)


# Packets of which no byte was captured have a number, too.
NUMBERED = (
    "    2   0.000000 10.0.0.1 > 10.0.0.2 UDP fragment at 0 len 16, more follow (id 0x1234)",
    "    4   0.003000 10.0.0.1 > 10.0.0.2 UDP fragment at 16 len 16, last (id 0x1234), "
    "completes a message of 32 bytes begun in packet 2: 53 > 5353 UDP len 24  good",
)


def ether_types():
    for ether_type, name in ETHER_TYPES:
        line = f"02:00:00:00:00:01 > 02:00:00:00:00:02 {name} len 2"
        yield f"020000000002020000000001{ether_type:04x}6162", line


def linked(link_type, frame, line):
    """The line with the hardware addresses of the frame, which stand after the VLANs, and in lines of what isn't IP or ARP already."""
    if link_type != 1:
        return line
    to, sender = (bytes.fromhex(frame[at : at + 12]).hex(":") for at in (0, 12))
    ends = f"{sender} > {to} "
    before, after = re.fullmatch(r"((?:vlan \d+ |macsec an \d pn \d+ (?:sci \w+ )?)*)(.*)", line).groups()
    return line if after.startswith(ends) else before + ends + after


def worked(name, link_type, rows):
    """A capture of frames, and the line of each after its number and its time, also with hardware addresses."""
    rows = list(rows)
    lines, others = shown(line for _, line in rows), shown(linked(link_type, *row) for row in rows)
    return Worked(name, link_type, [frame for frame, _ in rows], [(["show"], lines), (["show", "-e"], others)])


def spans(name, numbered, lines, still_open=()):
    rows = [
        (["show", "--only", "fragments", "--forget", "10"], lines),
        (["summary", "--only", "gre", "--forget", "10"], ["no packets", *still_open]),
    ]
    picked = [frames.MIXED[number - 1] for number, _ in numbered]
    return Worked(name, 1, picked, rows, seconds=[second for _, second in numbered])


CAPTURES = (
    worked("messages", 1, MESSAGES),
    worked("icmp_messages", 1, ICMP),
    worked("ether_types", 1, ether_types()),
    worked("refusals", 1, REFUSALS),
    worked("raw_refusals", 101, RAW_REFUSALS),
    Worked("fragments", 1, frames.FRAGMENTS, [(["show"], FRAGMENTS)]),
    Worked("numbered", 1, ["", frames.MIXED[4], "", frames.MIXED[5]], [(["show"], NUMBERED)]),
    # Fragments, and ARP packets.
    spans(
        "dropped",
        [(5, 0), (3, 11), (3, 22), (6, 23)],
        DROPPED,
        ("", "messages open at the end: 1"),
    ),
    spans("completed", [(5, 0), (6, 9)], COMPLETED),
)
