"""Packets with source routes, and the verdicts on their checksums (RFC 791, section 3.1; RFC 8200,
section 8.1). The checksum of each datagram is right for the destination with which it was made."""

import ipaddress
import re
import struct

from expected import BEGIN
from worked import STEP, Worked, shown

LINK = "020000000002020000000001"
ENDS = {4: ("10.0.0.1", "10.0.0.2"), 6: ("2001:db8::1", "2001:db8::2")}
END = {4: "10.0.0.9", 6: "2001:db8::9"}
GOOD, BAD, UNKNOWN = "good", "bad checksum", "none (source routed)"


def packed(address):
    return ipaddress.ip_address(address).packed


def checksum(data):
    """The complement of the sum of 16-bit words with the carries (RFC 1071)."""
    data += bytes(len(data) % 2)
    total = sum(struct.unpack(f">{len(data) // 2}H", data))
    while total > 0xFFFF:
        total = total % 0x10000 + total // 0x10000
    return 0xFFFF - total


def message(version, number, at, body, destination):
    """A message with its checksum at an offset, which is right for packets to this destination."""
    ends = packed(ENDS[version][0]) + packed(destination)
    if version == 4:
        pseudo = ends + struct.pack(">BBH", 0, number, len(body))
    else:
        pseudo = ends + struct.pack(">IxxxB", len(body), number)
    return body[:at] + struct.pack(">H", checksum(pseudo + body)) + body[at + 2 :]


def datagram(version, destination):
    return message(version, 17, 6, struct.pack(">HHHH", 53, 4000, 11, 0) + b"abc", destination)


def ipv4(options, payload, number=17):
    """A frame with an IPv4 header with these options."""
    options += bytes(-len(options) % 4)
    words = 5 + len(options) // 4
    ends = b"".join(map(packed, ENDS[4]))
    start = struct.pack(">BBHHHBB", 0x40 + words, 0, 4 * words + len(payload), 1, 0, 64, number)
    right = checksum(start + bytes(2) + ends + options)
    header = start + struct.pack(">H", right) + ends + options
    return LINK + "0800" + (header + payload).hex()


def ipv6(extension, payload, first=43):
    """A frame with an IPv6 header, whose extension headers start with one of this number."""
    body = extension + payload
    header = struct.pack(">IHBB", 6 << 28, len(body), first, 64)
    ends = b"".join(map(packed, ENDS[6]))
    return LINK + "86dd" + (header + ends + body).hex()


def route(kind, pointer, *addresses, size=None):
    """An option with these addresses."""
    data = b"".join(map(packed, addresses))
    return bytes([kind, 3 + len(data) if size is None else size, pointer]) + data


def routing(kind, left, entry, *addresses, after=17):
    """A routing header with these addresses."""
    data = b"".join(map(packed, addresses))
    return bytes([after, len(data) // 8, kind, left, entry, 0, 0, 0]) + data


def segment(version, destination):
    body = struct.pack(">HHIIBBHHH", 443, 51234, 17, 0, 0x50, 2, 0xFFFF, 0, 0)
    return message(version, 6, 16, body, destination)


def echo(version, destination):
    if version == 4:
        body = struct.pack(">BBHHH", 8, 0, 0, 7, 2)
        return body[:2] + struct.pack(">H", checksum(body)) + body[4:]
    return message(6, 58, 2, struct.pack(">BBHHH", 128, 0, 0, 7, 2), destination)


VIA4, VIA6 = "10.0.0.3", "2001:db8::3"
# An option, and the verdicts on datagrams that were made for 10.0.0.9 and for 10.0.0.2. After a length that is a byte too low the last
# byte of the address, 9, is an option, and the padding after it its length.
LOOSE, STRICT, SHORT = "loose source route", "strict source route", "option 9 of length 0"
OPTIONS = (
    (route(131, 4, VIA4, END[4]), LOOSE, GOOD, BAD),
    (route(137, 8, VIA4, END[4]), STRICT, GOOD, BAD),
    (b"\x94\x04\0\0" + route(131, 4, END[4]), f"router alert,{LOOSE}", GOOD, BAD),
    (route(131, 12, VIA4, END[4]), LOOSE, BAD, GOOD),
    (route(7, 4, VIA4, END[4]), "record route", BAD, GOOD),
    (b"\x01\0" + route(131, 4, END[4]), "nop", BAD, GOOD),
    (route(131, 4, VIA4, END[4], size=10), f"{LOOSE},{SHORT}", UNKNOWN, UNKNOWN),
    (route(137, 5, VIA4, END[4]), STRICT, UNKNOWN, UNKNOWN),
)
# A routing header, and the verdicts on datagrams that were made for 2001:db8::9 and 2001:db8::2.
HEADERS = (
    (routing(0, 1, 0, VIA6, END[6]), GOOD, BAD),
    (routing(0, 0, 0, VIA6, END[6]), BAD, GOOD),
    (routing(0, 3, 0, VIA6, END[6]), UNKNOWN, UNKNOWN),
    (routing(2, 1, 0, END[6]), GOOD, BAD),
    (routing(2, 0, 0, END[6]), BAD, GOOD),
    (routing(4, 1, 1, END[6], VIA6), GOOD, BAD),
    (routing(4, 2, 1, END[6], VIA6), GOOD, BAD),
    (routing(4, 0, 1, END[6], VIA6), BAD, GOOD),
    (routing(4, 1, 2, END[6], VIA6), UNKNOWN, UNKNOWN),
    (routing(3, 1, 0, END[6]), UNKNOWN, UNKNOWN),
    (routing(3, 0, 0, END[6]), BAD, GOOD),
)


def udp():
    """Datagrams and their lines."""
    for version, made, cases in ((4, ipv4, OPTIONS), (6, ipv6, HEADERS)):
        source, destination = ENDS[version]
        for headers, *verdicts in cases:
            words = f"options [{verdicts.pop(0)}]" if version == 4 else "headers [routing]"
            for end, verdict in zip((END[version], destination), verdicts):
                line = f"{source}.53 > {destination}.4000 {words} UDP len 3  {verdict}"
                yield made(headers, datagram(version, end)), line


def others():
    """Messages of other protocols, and a datagram without a checksum, and their lines."""
    loose, broken = route(131, 4, VIA4, END[4]), route(131, 4, VIA4, END[4], size=10)
    tcp, tcp6 = routing(0, 1, 0, END[6], after=6), routing(5, 1, 0, END[6], after=6)
    icmp, icmp6 = routing(4, 1, 0, END[6], after=58), routing(5, 1, 0, END[6], after=58)
    to, to6 = f"options [{LOOSE}]", "headers [routing]"
    syn = f"10.0.0.1.443 > 10.0.0.2.51234 {to} TCP [S] seq 17 win 65535 len 0  "
    syn6 = f"2001:db8::1.443 > 2001:db8::2.51234 {to6} TCP [S] seq 17 win 65535 len 0  "
    ping = f"10.0.0.1 > 10.0.0.2 {to} ICMP echo request id 7 seq 2 len 0  "
    ping6 = f"2001:db8::1 > 2001:db8::2 {to6} ICMPv6 echo request id 7 seq 2 len 0  "
    yield ipv4(loose, segment(4, END[4]), 6), syn + GOOD
    yield ipv4(loose, segment(4, ENDS[4][1]), 6), syn + BAD
    cut = f"options [{LOOSE},{SHORT}]"
    yield ipv4(broken, segment(4, END[4]), 6), syn.replace(to, cut) + UNKNOWN
    yield ipv6(tcp, segment(6, END[6])), syn6 + GOOD
    yield ipv6(tcp6, segment(6, END[6])), syn6 + UNKNOWN
    yield ipv6(icmp, echo(6, END[6])), ping6 + GOOD
    yield ipv6(icmp6, echo(6, END[6])), ping6 + UNKNOWN
    # ICMP over IPv4 has no pseudo header (RFC 792).
    yield ipv4(loose, echo(4, END[4]), 1), ping + GOOD
    yield ipv4(broken, echo(4, END[4]), 1), ping.replace(to, cut) + GOOD
    unsummed = struct.pack(">HHHH", 53, 4000, 11, 0) + b"abc"
    yield ipv4(broken, unsummed), f"10.0.0.1.53 > 10.0.0.2.4000 {cut} UDP len 3  no checksum"
    # GRE has a checksum of its own, which isn't read.
    yield ipv4(broken, b"\0\0\x08\0", 47), f"10.0.0.1 > 10.0.0.2 {cut} GRE len 4"


def fragments():
    """Two fragments after a routing header of each type of a datagram, and their lines."""
    at = "2001:db8::1 > 2001:db8::2 UDP fragment at"
    for kind, verdict in ((0, GOOD), (5, UNKNOWN)):
        data = datagram(6, END[6])
        extension = routing(kind, 1, 0, END[6], after=44)
        first, last = (struct.pack(">BxHI", 17, it, kind) for it in (1, 8))
        start = "1" if kind == 0 else "3"
        yield (
            ipv6(extension, first + data[:8]),
            f"{at} 0 len 8, more follow (id 0x{kind:08x})",
        )
        yield (
            ipv6(extension, last + data[8:]),
            f"{at} 8 len 3, last (id 0x{kind:08x}), completes a message of 11 bytes begun in packet "
            f"{start}: 53 > 4000 UDP len 3  {verdict}",
        )


def unverified(line):
    """A line without its verdict."""
    for verdict in (GOOD, BAD, UNKNOWN, "no checksum"):
        line = line.removesuffix(f"  {verdict}")
    return line


def capture(name, cases):
    cases = list(cases)
    lines = list(shown([line for _, line in cases]))
    bad = [line for line in lines if line.endswith(BAD)]
    rows = [
        (("show",), lines),
        (("show", "--only", "bad"), bad),
        (("show", "--no-checksums"), map(unverified, lines)),
    ]
    return Worked(name, 1, [frame for frame, _ in cases], rows)


ROUTED = (
    (
        ipv4(route(131, 4, END[4]), datagram(4, END[4])),
        '"Ethernet","len":53,"wire_len":53,"link":{"Ethernet2":{"source":"02:00:00:00:00:01",'
        '"destination":"02:00:00:00:00:02","ether_type":2048}},"link_exts":[],'
        '"net":{"Ipv4":{"dscp":0,"ecn":0,"total_len":39,"identification":1,"dont_fragment":'
        'false,"more_fragments":false,"fragment_offset":0,"time_to_live":64,"protocol":17,'
        '"header_checksum":54449,"source":"10.0.0.1","destination":"10.0.0.2",'
        '"options":"8307040a00000900"}},"final_destination":"10.0.0.9",'
        '"transport":{"Udp":{"source_port":53,"destination_port":4000,"length":11,'
        '"checksum":6039}},"payload_len":3,"verdict":"Good","header_verdict":"Good"',
    ),
    (
        ipv6(routing(0, 1, 0, END[6]), datagram(6, END[6])),
        '"Ethernet","len":89,"wire_len":89,"link":{"Ethernet2":{"source":"02:00:00:00:00:01",'
        '"destination":"02:00:00:00:00:02","ether_type":34525}},"link_exts":[],'
        '"net":{"Ipv6":{"traffic_class":0,"flow_label":0,"payload_length":35,'
        '"next_header":43,"hop_limit":64,"source":"2001:db8::1","destination":"2001:db8::2",'
        '"extensions":[{"Routing":{"next_header":17,'
        '"payload":"00010000000020010db8000000000000000000000009"}}]}},'
        '"final_destination":"2001:db8::9","transport":{"Udp":{"source_port":53,'
        '"destination_port":4000,"length":11,"checksum":53284}},"payload_len":3,'
        '"verdict":"Good"',
    ),
    (
        ipv6(routing(5, 1, 0, END[6]), datagram(6, END[6])),
        '"Ethernet","len":89,"wire_len":89,"link":{"Ethernet2":{"source":"02:00:00:00:00:01",'
        '"destination":"02:00:00:00:00:02","ether_type":34525}},"link_exts":[],'
        '"net":{"Ipv6":{"traffic_class":0,"flow_label":0,"payload_length":35,'
        '"next_header":43,"hop_limit":64,"source":"2001:db8::1","destination":"2001:db8::2",'
        '"extensions":[{"Routing":{"next_header":17,'
        '"payload":"05010000000020010db8000000000000000000000009"}}]}},'
        '"final_destination":"unknown","transport":{"Udp":{"source_port":53,'
        '"destination_port":4000,"length":11,"checksum":53284}},"payload_len":3,'
        '"verdict":"None"',
    ),
)


def objects():
    lines = [
        f'{{"number":{at + 1},"time":{BEGIN + at * STEP},"interface":0,"link_type":{members}}}'
        for at, (_, members) in enumerate(ROUTED)
    ]
    unverified = [re.sub(r',"(header_)?verdict":"\w+"', "", line) for line in lines]
    rows = [
        (("json",), lines),
        (("json", "--no-checksums"), unverified),
        (
            ("json", "--no-checksums", "--only", "bad"),
            ["error: the argument '--only bad' cannot be used with '--no-checksums'"],
        ),
    ]
    return Worked("final_destinations", 1, [frame for frame, _ in ROUTED], rows)


CAPTURES = (
    objects(),
    capture("source_routes", udp()),
    capture("source_routes_of_others", others()),
    capture("source_routes_of_fragments", fragments()),
)
