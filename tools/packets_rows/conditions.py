"""Which packets meet a condition, and which words are none, written by hand."""

import cut
import frames
from worked import Worked

# Words of `--only`, and the numbers of the packets that meet all of them.
OF_MIXED = (
    ((), (1, 2, 3, 4, 5, 6, 7, 8, 9, 10)),
    (("eth",), (1, 2, 3, 4, 5, 6, 7, 8, 9, 10)),
    (("vlan",), (4,)),
    (("macsec",), ()),
    (("arp",), (3,)),
    (("ip4",), (1, 2, 5, 6, 8, 9, 10)),
    (("ip6",), (4,)),
    (("icmp",), ()),
    (("icmp6",), (4,)),
    (("58",), (4,)),
    (("tcp",), (1, 8)),
    (("UDP",), (2, 5, 6, 9, 10)),
    (("bad",), (2,)),
    (("refused",), (7, 8)),
    (("fragments",), (5, 6, 10)),
    (("host=10.0.0.2",), (1, 2, 3, 5, 6, 8, 9, 10)),
    (("host 2001:db8::2",), (4,)),
    (("port=5353",), (2, 6)),
    (("port 443",), (1,)),
    (("port=51234",), (1,)),
    (("port=53",), (2, 6)),
    (("port=7",), (9,)),
    (("udp", "fragments", "port=53"), (6,)),
    (("Ethernet",), (1, 2, 3, 4, 5, 6, 7, 8, 9, 10)),
    (("ipv4",), (1, 2, 5, 6, 8, 9, 10)),
    (("IPv6",), (4,)),
    (("ipv6-icmp",), (4,)),
    (("ipencap",), ()),
    (("BAD",), (2,)),
    (("Refused",), (7, 8)),
    (("FRAGMENTS",), (5, 6, 10)),
    (("Host=2001:DB8::1",), (4,)),
    (("PORT 443",), (1,)),
    # A segment whose header breaks its format, from port 1 to 2: only the IP header is there.
    (("port=1",), ()),
    (("host=10.0.0.1", "refused"), (8,)),
    (("tcp", "refused"), (8,)),
)
OF_REFUSED_MESSAGES = (
    (("refused",), (2, 4)),
    (("udp", "refused"), (2,)),
    (("tcp", "refused"), (4,)),
    (("fragments",), (1, 2, 3, 4)),
    (("port=53",), ()),
)
OF_ARP = (
    (("arp",), (1, 2, 3, 4)),
    (("host=10.0.0.1",), (1, 3)),
    (("host=10.0.0.2",), (1, 3)),
    (("host=10.0.0.3",), (4,)),
    (("host=10.0.0.4",), (4,)),
    (("host=10.0.0.5",), ()),
)
# An extension header that is read is no protocol of a message, also where a fragment header stands
# before it. `ipv4`, `ipv6` and `ethernet` are headers of the packet itself.
OF_IP_PROTOCOLS = (
    (("hopopt",), ()),
    (("ipv6-route",), ()),
    (("ipv6-frag",), ()),
    (("ipv6-opts",), (14,)),
    (("60",), (14,)),
    (("ah",), ()),
    (("51",), ()),
    (("udp",), (1, 2, 3, 4, 5, 6, 7, 8, 13)),
    (("fragments",), (6, 7, 13)),
    (("sctp",), (9,)),
    (("132",), (9,)),
    (("ipencap",), (10,)),
    (("4",), (10,)),
    (("ipv6-in-ip",), (11,)),
    (("41",), (11,)),
    (("ethernet-in-ip",), (12,)),
    (("143",), (12,)),
    (("ipv4",), (5, 9, 10, 11, 12, 13, 14)),
    (("ipv6",), (1, 2, 3, 4, 6, 7, 8)),
    (("ethernet",), tuple(range(1, 15))),
    (("host=10.0.0.3",), ()),
)
OF_OTHERS = (
    (("macsec",), (1, 2)),
    (("ip4",), (2, 4, 5)),
    (("udp",), (2,)),
    (("tcp",), (4, 5)),
    (("fragments",), (4, 5)),
    (("bad",), ()),
    (("refused",), ()),
    (("host=10.0.0.5",), (3,)),
    (("host=10.0.0.6",), (3,)),
    (("port=53",), (2,)),
    (("port=4000",), (2,)),
    (("port=443",), (5,)),
    (("port=51234",), (5,)),
)
# Packets that were cut meet conditions by the headers that are there. The ninth is a fragment over IPv6, in the twelfth the TCP
# header breaks its format, the thirteenth is an ICMP message, and in the last not even the Ethernet header is there.
OF_CUT = (
    (("eth",), tuple(range(1, 15))),
    (("refused", "cut"), tuple(range(1, 15))),
    (("fragments",), ()),
    (("bad",), ()),
    (("vlan",), (10,)),
    (("ip4",), (1, 2, 3, 4, 7, 8, 10, 11, 12, 13)),
    (("ip6",), (5, 6, 9)),
    (("tcp",), (1, 2, 3, 4, 12)),
    (("udp",), (5, 8, 9, 10, 11)),
    (("gre",), (7,)),
    (("icmp6",), (6,)),
    (("ipv6-frag",), ()),
    (("host=10.0.0.1",), (1, 2, 3, 4, 7, 8, 10, 11, 12, 13)),
    (("host=2001:db8::2",), (5, 6, 9)),
    (("host=10.0.0.3",), ()),
    (("port=443",), (1, 2)),
    (("port=51234",), (1, 2)),
    (("port=53",), (5, 10, 11)),
    (("port=53", "host=10.0.0.2"), (10, 11)),
)
# Expressions over the packets of `mixed`, each beside a filter of tcpdump (4.99), or of tshark (4.0) where it begins with -Y, that
# lets the same packets through. Only tcpdump's filters with `not` leave out the seventh, of whose IP header the protocol is missing.
OF_EXPRESSIONS = (
    ("udp or arp", "udp or arp", (2, 3, 5, 6, 9, 10)),
    ("udp||ARP", "udp || arp", (2, 3, 5, 6, 9, 10)),
    ("not udp", "not udp", (1, 3, 4, 7, 8)),
    ("!udp", "! udp", (1, 3, 4, 7, 8)),
    ("udp and src=10.0.0.2", "udp and src host 10.0.0.2", (9,)),
    ("tcp && not refused", "-Y tcp.hdr_len >= 20", (1,)),
    # `and` binds tighter than `or`, and `not` tighter than both.
    ("arp or udp and src=10.0.0.2", "arp or (udp and src host 10.0.0.2)", (3, 9)),
    ("(arp or udp) and src=10.0.0.2", "(arp or udp) and src host 10.0.0.2", (9,)),
    ("not tcp and ip4", "(not tcp) and ip", (2, 5, 6, 9, 10)),
    ("not tcp or arp", "(not tcp) or arp", (2, 3, 4, 5, 6, 7, 9, 10)),
    ("not (tcp or arp)", "not (tcp or arp)", (2, 4, 5, 6, 7, 9, 10)),
    ("((arp) or (((vlan))))", "((arp) or ((vlan)))", (3, 4)),
    ("NOT(udp OR(tcp AND bad))", "not udp", (1, 3, 4, 7, 8)),
    ("net=10.0.0.0/8", "net 10.0.0.0/8", (1, 2, 3, 5, 6, 8, 9, 10)),
    ("net=10.0.0.4/30", "net 10.0.0.4/30", ()),
    ("net=2001:db8::/32", "vlan and ip6 net 2001:db8::/32", (4,)),
    ("net 2001:db9::/32", "vlan and ip6 net 2001:db9::/32", ()),
    ("net=::/0", "vlan and ip6", (4,)),
    ("src=10.0.0.2", "src host 10.0.0.2", (9,)),
    ("src=10.0.0.0/31", "src net 10.0.0.0/31", (1, 2, 3, 5, 6, 8, 10)),
    ("dst=10.0.0.1", "dst host 10.0.0.1", (9,)),
    ("dst 10.0.0.2/31", "dst net 10.0.0.2/31", (1, 2, 3, 5, 6, 8, 10)),
    ("port=50..60", "-Y udp.port in {50..60}", (2, 6)),
    ("port=5353..6000", "-Y udp.port in {5353..6000}", (2, 6)),
    ("port=5354..6000", "portrange 5354-6000", ()),
    ("port=1..7", "-Y udp.port in {1..7}", (9,)),
    ("port>=51234", "portrange 51234-65535", (1,)),
    ("len>=54", "greater 54", (1, 4, 8)),
    ("len>=55", "greater 55", (4,)),
    ("len<=42", "less 42", (3, 7)),
    ("len<=41", "less 41", (7,)),
    ("len=44..46", "greater 44 and less 46", (2, 9)),
    ("syn", "-Y tcp.flags.syn == 1 && tcp.hdr_len >= 20", (1,)),
    ("fin or rst", "-Y tcp.flags.fin == 1 || tcp.flags.reset == 1", ()),
    ("vlan=5", "vlan 5", (4,)),
    ("vlan 5", "vlan 5", (4,)),
    ("vlan=6", "vlan 6", ()),
    ("vlan and 58", "vlan and ip6 proto 58", (4,)),
    ("frame=7", "-Y frame.number == 7", (7,)),
    ("frame=2..4", "-Y frame.number >= 2 && frame.number <= 4", (2, 3, 4)),
    ("frame>=9", "-Y frame.number >= 9", (9, 10)),
    ("frame<=1", "-Y frame.number <= 1", (1,)),
    ("frame=2..4 and not arp", "-Y frame.number >= 2 && frame.number <= 4 && !arp", (2, 4)),
)


def segment(flags, checksum):
    """A segment with these flags from 10.0.0.1, port 443, to 10.0.0.2."""
    return (
        "02000000000202000000000108004500002800010000400666cd0a0000010a00000201bbc822000000110000000050"
        f"{flags}ffff{checksum}0000"
    )


# Segments with SYN, SYN and ACK, ACK, FIN and ACK, RST, and RST and ACK.
FLAGS = (
    segment("02", "d1f1"),
    segment("12", "d1e1"),
    segment("10", "d1e3"),
    segment("11", "d1e2"),
    segment("04", "d1ef"),
    segment("14", "d1df"),
)
OF_FLAGS = (
    ("syn", "tcp[tcpflags] & tcp-syn != 0", (1, 2)),
    ("fin", "tcp[tcpflags] & tcp-fin != 0", (4,)),
    ("rst", "tcp[tcpflags] & tcp-rst != 0", (5, 6)),
    ("not (syn or fin or rst)", "tcp[tcpflags] & (tcp-syn|tcp-fin|tcp-rst) == 0", (3,)),
)
# Conditions are about an error itself, and not about the datagram in it: that went from 10.0.0.2 or 2001:db8::2 and port 5353 or
# 443 to 192.0.2.9 or 2001:db8:9::9 and port 53 or 51234. In the 43rd packet the error's own checksum is bad, in the 44th that of the
# datagram.
OF_ICMP_ERRORS = (
    (("host=192.0.2.9",), ()),
    (("host=2001:db8::2",), ()),
    (("port=53",), ()),
    (("port=5353",), ()),
    (("port=443",), ()),
    (("udp",), ()),
    (("ip6",), ()),
    (("fragments",), ()),
    (("bad",), (43,)),
    (("icmp", "host=10.0.0.2"), tuple(range(1, 46))),
)
# Of captures of scapy's packets.
# By the types of messages, also of those that are cut off or have options that can't be read.
OF_NEIGHBORS = (
    (("ndp",), (*range(1, 11), *range(16, 22))),
    (("NDP", "icmp6"), (*range(1, 11), *range(16, 22))),
    (("mld",), (*range(11, 16), *range(22, 25))),
    (("not (ndp or mld)",), ()),
    (("igmp",), ()),
)
OF_GROUPS = ((("igmp",), tuple(range(1, 12))), (("mld",), ()), (("ndp",), ()))
OF_MADE = {"icmp_errors": OF_ICMP_ERRORS, "neighbors": OF_NEIGHBORS, "groups": OF_GROUPS}
UNKNOWN = (
    "no protocol, and not `bad`, `refused`, `fragments`, `cut`, `host=ADDRESS` or `port=NUMBER`"
)
ADDRESS = "no IP address after `host`"
PORT = "no number up to 65535, and no range, after `port`"
DEEP = 257
NO_CONDITIONS = (
    ("tcq", 'at 1: no condition "tcq" (is "tcp" meant?)'),
    ("udp or tpc", 'at 8: no condition "tpc" (is "tcp" meant?)'),
    ("prot=53", 'at 1: no condition "prot" (is "port" meant?)'),
    ("", "at 1: a condition is missing"),
    ("256", 'at 1: no condition "256"'),
    ("bad=1", 'at 4: no condition "="'),
    ("host", f"at 5: {ADDRESS}"),
    ("host=10.0.0.256", f"at 6: {ADDRESS}"),
    ("host=", f"at 6: {ADDRESS}"),
    ("port=65536", f"at 6: {PORT}"),
    ("port=-1", f"at 6: {PORT}"),
    ("port=2000..1000", "at 6: the range ends before it begins"),
    ("net=10.0.0.1/8", "at 5: bits after the prefix are not 0"),
    ("(udp", 'at 1: "(" is not closed'),
    ("udp)", 'at 4: ")" closes nothing'),
    ("udp or", "at 7: a condition is missing"),
    ("udp and ()", "at 10: a condition is missing"),
    ("tcp udp", 'at 5: "and" or "or" is missing'),
    ("(" * DEEP + "udp" + ")" * DEEP, f"at {DEEP}: more than 256 levels"),
    # A long word is shown whole.
    ("host=2001:0db8:0000:0000:0000:0000:0000:0001:0002", f"at 6: {ADDRESS}"),
)


def only(words):
    return [it for word in words for it in ("--only", word)]


def met(rows):
    """The numbers of packets alone: lines are cut to five columns."""
    for words, numbers in rows:
        yield ["show", "--width", "5", *only(words)], [f"{number:5}" for number in numbers]


def met_alone(rows):
    """The same of one expression each."""
    yield from met(((text,), numbers) for text, _, numbers in rows)


def no_conditions():
    for word, reason in NO_CONDITIONS:
        yield (
            ["show", *only(["udp", word])],
            [f"error: invalid value '{word}' for '--only <WHAT>': {reason}"],
        )


CUT = list(cut.after_headers())
CAPTURES = (
    Worked("mixed", 1, frames.MIXED, [*met(OF_MIXED), *met_alone(OF_EXPRESSIONS), *no_conditions()]),
    Worked("flags", 1, FLAGS, met_alone(OF_FLAGS)),
    Worked("refused_messages", 1, frames.REFUSED_MESSAGES, met(OF_REFUSED_MESSAGES)),
    Worked("arp_hosts", 1, frames.ARP, met(OF_ARP)),
    Worked("ip_protocols", 1, frames.IP_PROTOCOLS, met(OF_IP_PROTOCOLS)),
    Worked("others", 1, frames.OTHERS, met(OF_OTHERS)),
    Worked("cut", 1, [it.data.hex() for it in CUT], met(OF_CUT), wire=[it.wire_len for it in CUT]),
)
