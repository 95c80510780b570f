"""The words for types and codes of ICMP, by IANA's registries "ICMP Parameters" and "ICMPv6
Parameters", RFC 792, RFC 1191 and RFC 4443."""

from worked import Worked, shown

# Type and code, what follows the checksum, and the words.
OVER_IPV4 = (
    (0, 0, "00010002", "echo reply id 1 seq 2"),
    (0, 1, "00010002", "echo reply code 1"),
    (3, 0, "00000000", "network unreachable"),
    (3, 1, "00000000", "host unreachable"),
    (3, 2, "00000000", "protocol unreachable"),
    (3, 3, "00000000", "port unreachable"),
    (3, 4, "00000578", "fragmentation needed, mtu 1400"),
    (3, 5, "00000000", "source route failed"),
    (3, 6, "00000000", "network unknown"),
    (3, 7, "00000000", "host unknown"),
    (3, 8, "00000000", "source host isolated"),
    (3, 9, "00000000", "network prohibited"),
    (3, 10, "00000000", "host prohibited"),
    (3, 11, "00000000", "network unreachable for this service"),
    (3, 12, "00000000", "host unreachable for this service"),
    (3, 13, "00000000", "filtered"),
    (3, 14, "00000000", "host precedence violation"),
    (3, 15, "00000000", "precedence cutoff"),
    (3, 16, "00000000", "unreachable code 16"),
    (4, 0, "00000000", "source quench"),
    (5, 0, "0a000003", "redirect to 10.0.0.3 for the network"),
    (5, 1, "0a000003", "redirect to 10.0.0.3 for the host"),
    (5, 2, "0a000003", "redirect to 10.0.0.3 for service and network"),
    (5, 3, "0a000003", "redirect to 10.0.0.3 for service and host"),
    (5, 4, "0a000003", "redirect code 4"),
    (8, 0, "00010002", "echo request id 1 seq 2"),
    (8, 5, "00010002", "echo request code 5"),
    (9, 0, "00000000", "router advertisement"),
    (9, 16, "00000000", "router advertisement code 16"),
    (10, 0, "00000000", "router solicitation"),
    (11, 0, "00000000", "time to live exceeded"),
    (11, 1, "00000000", "reassembly time exceeded"),
    (11, 2, "00000000", "time exceeded code 2"),
    (12, 0, "14000000", "parameter problem at byte 20"),
    (12, 1, "00000000", "parameter problem: required option missing"),
    (12, 2, "00000000", "parameter problem: bad length"),
    (12, 3, "00000000", "parameter problem code 3"),
    (13, 0, "00070003000000010000000200000003", "timestamp request id 7 seq 3"),
    (14, 0, "00070003000000010000000200000003", "timestamp reply id 7 seq 3"),
    (13, 1, "00000000", "timestamp request code 1"),
    (14, 2, "00000000", "timestamp reply code 2"),
    (15, 0, "00000000", "information request"),
    (16, 0, "00000000", "information reply"),
    (17, 0, "00000000", "address mask request"),
    (18, 0, "00000000", "address mask reply"),
    (40, 1, "00000000", "type 40 code 1"),
)
OVER_IPV6 = (
    (1, 0, "00000000", "no route"),
    (1, 1, "00000000", "prohibited"),
    (1, 2, "00000000", "beyond scope of source address"),
    (1, 3, "00000000", "address unreachable"),
    (1, 4, "00000000", "port unreachable"),
    (1, 5, "00000000", "source address failed policy"),
    (1, 6, "00000000", "route rejected"),
    (1, 7, "00000000", "unreachable code 7"),
    (2, 0, "00000500", "packet too big, mtu 1280"),
    (2, 1, "00000500", "packet too big code 1"),
    (3, 0, "00000000", "hop limit exceeded"),
    (3, 1, "00000000", "reassembly time exceeded"),
    (3, 2, "00000000", "time exceeded code 2"),
    (4, 0, "00000028", "erroneous header field at byte 40"),
    (4, 1, "00000028", "unknown next header at byte 40"),
    (4, 2, "00000028", "unknown option at byte 40"),
    (4, 3, "00000028", "headers incomplete in first fragment at byte 40"),
    (4, 4, "00000028", "segment routing error at byte 40"),
    (4, 5, "00000028", "next header unknown on the way at byte 40"),
    (4, 6, "00000028", "extension header too big at byte 40"),
    (4, 7, "00000028", "header chain too long at byte 40"),
    (4, 8, "00000028", "too many extension headers at byte 40"),
    (4, 9, "00000028", "too many options at byte 40"),
    (4, 10, "00000028", "option too big at byte 40"),
    (4, 11, "00000028", "parameter problem code 11"),
    (128, 0, "00010002", "echo request id 1 seq 2"),
    (128, 1, "00010002", "echo request code 1"),
    (129, 0, "00010002", "echo reply id 1 seq 2"),
    (129, 1, "00010002", "echo reply code 1"),
    (130, 0, "00000000", "listener query, cut off: 24 bytes needed, 8 there"),
    (131, 0, "00000000", "listener report, cut off: 24 bytes needed, 8 there"),
    (132, 0, "00000000", "listener done, cut off: 24 bytes needed, 8 there"),
    (133, 0, "00000000", "router solicitation"),
    (134, 0, "00000000", "router advertisement, cut off: 16 bytes needed, 8 there"),
    (135, 0, "00000000", "neighbor solicitation, cut off: 24 bytes needed, 8 there"),
    (136, 0, "00000000", "neighbor advertisement, cut off: 24 bytes needed, 8 there"),
    (137, 0, "00000000", "redirect, cut off: 40 bytes needed, 8 there"),
    (143, 0, "00000000", "listener report v2"),
    (200, 0, "00000000", "type 200"),
)


def over_ipv4(rows):
    for kind, code, rest, _ in rows:
        size = 24 + len(rest) // 2
        # The words of the header sum to all ones, which is right.
        right = 0xFFFF - (0x4500 + size + 1 + 0x4001 + 2 * 0x0A00 + 1 + 2) % 0xFFFF
        yield f"4500{size:04x}000100004001{right:04x}0a0000010a000002{kind:02x}{code:02x}0000{rest}"


def over_ipv6(rows):
    ends = "20010db8000000000000000000000001" "20010db8000000000000000000000002"
    for kind, code, rest, _ in rows:
        yield f"6000000000083a40{ends}{kind:02x}{code:02x}0000{rest}"


# Types of neighbor discovery and multicast listener discovery, which have no length.
WITHOUT_LEN = (130, 131, 132, 133, 134, 135, 136, 137, 143)


def shown_rows(sent, rows, without_len=()):
    """The checksum is 0, which is wrong."""
    ends = ("" if row[0] in without_len else " len 0" for row in rows)
    return [(["show"], shown(f"{sent} {row[3]}{end}  bad checksum" for row, end in zip(rows, ends)))]


CAPTURES = (
    Worked(
        "icmp_words", 101, over_ipv4(OVER_IPV4), shown_rows("10.0.0.1 > 10.0.0.2 ICMP", OVER_IPV4)
    ),
    Worked(
        "icmp6_words",
        101,
        over_ipv6(OVER_IPV6),
        shown_rows("2001:db8::1 > 2001:db8::2 ICMPv6", OVER_IPV6, WITHOUT_LEN),
    ),
)
