"""Where tshark reports a packet otherwise by design, each with its reason."""

import dataclasses
import typing

import routes
import tshark

MESSAGES = ("Udp", "Tcp", "Icmpv4", "Icmpv6")
# What depends on the bytes of a message that was joined.
OF_FRAGMENTS = ("completes a message", "reassembled in", "first fragment received", "length of the message", "bytes of the message")


@dataclasses.dataclass
class Rule:
    """A rule explains a difference where `holds` says so."""

    name: str
    reason: str
    holds: typing.Callable


def net(it):
    """The fields of the network layer."""
    return next(iter(it.get("net", {"": {}}).values()))


def is_ip(it):
    return "Ipv4" in it.get("net", {}) or "Ipv6" in it.get("net", {})


def is_routed(it):
    """Whether the final destination is another than in the IP header, or isn't known."""
    return is_ip(it) and routes.final_destination(it) != net(it)["destination"]


def whole(it):
    return it.get("fragment", {}).get("Completes", it)


def transport(it, kind):
    """The fields of the message where it is of this kind."""
    return whole(it).get("transport", {}).get(kind)


def is_of_the_message(difference):
    return difference.field in ("message", "verdict", "extension headers") or difference.field.split(".")[0] in ("udp", "tcp", "icmp", "icmpv6", "ah", "ipv6")


def is_of_fragments(difference):
    return difference.field in OF_FRAGMENTS or is_of_the_message(difference)


def ends_early(difference):
    """Whether tshark shows nothing of a field, or of a list only the first ones."""
    ours, theirs = difference.ours, difference.theirs
    return theirs == ours[: len(theirs)] if isinstance(theirs, list) else theirs is None or theirs is False or theirs == "unverified"


def contradicts(packet):
    return any(it.startswith("disturbed") for it in packet.traits) or "hostile" in packet.traits


def of_other_version(d):
    is_other = (transport(d.it, "Icmpv4") and "Ipv6" in d.it["net"]) or (transport(d.it, "Icmpv6") and "Ipv4" in d.it["net"])
    return d.field == "verdict" and d.ours == "None" and bool(is_other)


def of_udp_length_0(d):
    udp = transport(d.it, "Udp")
    return bool(udp) and udp["length"] == 0 and d.field in ("udp.checksum", "verdict") and d.theirs in (None, "unverified")


def of_payload_length_0(d):
    return net(d.it).get("payload_length") == 0 and is_of_fragments(d) and ends_early(d)


def of_type_that_is_a_length(d):
    return d.field in ("eth.type", "vlan.etype", "sll.etype") and d.theirs is None and 1500 < d.ours <= 1536


def of_family_of_linux(d):
    return d.packet.link in (0, 108) and 10 in (d.packet.data[0], d.packet.data[3]) and d.theirs in (None, [])


def of_fourth_tag(d):
    return len(d.it.get("link_exts", ())) == 3 and len(d.dissected.tags) > 3 and d.field in ("tags", "network layer", "message", "headers")


def of_unknown_route(d):
    return d.field == "verdict" and d.ours == "None" and routes.final_destination(d.it) == routes.UNKNOWN


def of_netlines(d):
    """The words differ in the verdict alone."""
    if d.field != "netlines" or not is_routed(d.it):
        return False
    ours, theirs = d.ours.split(" "), d.theirs.split(" ")
    differ = [one for one, two in zip(ours, theirs) if one != two]
    return len(ours) == len(theirs) and len(differ) == 1 and differ[0] in ("good", "bad", "none")


def of_interface(d):
    return d.field == "interface" and "section" in d.packet.traits and d.ours > d.theirs


def of_reserved_bits(d):
    """tshark shows nothing of such a tag where the length with these bits is greater than what follows."""
    if d.field == "macsec.SL":
        return d.theirs is not None and d.ours == d.theirs & 63
    is_tagged = d.packet.link == 1 and d.packet.data[12:14] == b"\x88\xe5" and d.packet.data[15] & 192
    return bool(is_tagged) and d.field in ("tags", "network layer", "message") and d.theirs in (None, [])


def of_contradicting_fragments(d):
    return "fragment" in d.it and contradicts(d.packet) and is_of_fragments(d)


def of_long_fraction(d):
    return d.field == "time" and "long fraction" in d.packet.traits


def of_gre_in_a_cooked_capture(d):
    return d.field == "sll.etype" and d.packet.link == 113 and d.packet.data[2:4] == b"\x03\x0a" and d.theirs is None


def of_inter_switch_link(d):
    return d.field == "link header" and d.packet.link == 1 and d.packet.data[:5] in (b"\x01\0\x0c\0\0", b"\x03\0\x0c\0\0")


def of_reverse_arp(d):
    return d.field in ("network layer", "message") and d.packet.frame()[12:14] == b"\x80\x35" and d.ours is None


def of_empty_fragment(d):
    return d.field == "message" and d.ours is None and "fragment" in d.it and d.it["payload_len"] == 0


def of_extension_header_in_a_fragment(d):
    return d.field == "extension headers" and ends_early(d) and d.theirs[-1:] == ["Fragment"]


def of_two_interfaces(d):
    return "fragment" in d.it and "section" in d.packet.traits and is_of_fragments(d)


def lacks_the_message(d):
    """Whether the list of headers ends before that of a message, which tshark shows."""
    return d.field == "headers" and d.theirs[-1:] and d.theirs[-1] in MESSAGES and d.ours == d.theirs[:-1]


def of_first_fragment(d):
    """tshark shows the header of the message in a first fragment that it doesn't put together."""
    layers = [d.dissected.net, *d.dissected.extensions]
    return lacks_the_message(d) and any(layer.numbers(name) == [1] for layer in layers for name in ("flags.mf", "more"))


def of_timestamp(d):
    """A timestamp message has 20 bytes."""
    if not lacks_the_message(d) or d.theirs[-1] != "Icmpv4" or d.dissected.message.length() != 20:
        return False
    net = d.dissected.net
    length = net.numbers("plen")[0] if net.name == "ipv6" else net.numbers("len")[0] - net.length()
    return length - sum(layer.length() for layer in d.dissected.extensions) != 20


def of_check_value(d):
    """tshark takes 16 bytes at the end for MACsec's check value, and shows no header where no more follow it."""
    if d.field != "headers" or d.ours[: len(d.theirs) + 1] != [*d.theirs, "Macsec"]:
        return False
    tags = d.dissected.tags[: len(d.theirs)]
    following = d.packet.data[tshark.LINK_LENGTHS[d.it["link_type"]] + sum(tag.length() for tag in tags) :]
    return len(following) - tshark.macsec_length(bool(following[0] & 0x20), bool(following[0] & 0x0C)) <= 16


def of_malformed(d):
    return d.dissected.is_malformed and ends_early(d)


RULES = (
    Rule("ICMP of the other IP version", "RFC 792 and RFC 4443 each define the checksum for one version: the verdict is `None` (docs/LINES.md)", of_other_version),
    Rule("UDP length 0", "read as all that follows (docs/DIFFERENCES.md); tshark stops at it", of_udp_length_0),
    Rule("IPv6 payload length 0", "read as all that follows (docs/DIFFERENCES.md); tshark reads no message", of_payload_length_0),
    Rule("type field of 1501 to 1536", "read as an ether type (docs/DIFFERENCES.md); tshark as neither type nor length", of_type_that_is_a_length),
    Rule("address family 10", "Linux's number of IPv6, read in loopback captures (docs/CAPTURES.md); tshark knows those of BSD", of_family_of_linux),
    Rule("fourth tag", "`link_exts` holds three (docs/DIFFERENCES.md)", of_fourth_tag),
    Rule("route whose end isn't known", "then no checksum can be verified: the verdict is `None`; tshark takes the destination of the IP header or the last bytes", of_unknown_route),
    Rule("`netlines` and source routes", "it takes the destination of the IP header (docs/LINES.md), `packets` the final one", of_netlines),
    Rule("interfaces of a later section", "numbered through all sections (docs/CAPTURES.md); by tshark from 0 in each", of_interface),
    Rule("reserved bits of MACsec's short length", "IEEE 802.1AE, clause 9.7: six bits; tshark shows all eight", of_reserved_bits),
    Rule("MACsec's check value", "its length isn't in the packet, so none is taken from the end; tshark takes 16 bytes", of_check_value),
    Rule("fragments that contradict each other", "which bytes count, which fragments are refused: as tools/hostile_frames/answers.py, by RFC 791 and RFC 8200 (docs/LINES.md); tshark shows all of them", of_contradicting_fragments),
    Rule("fragment of no bytes", "a fragment, which may give the end of the message; tshark 4.0 shows an empty message, too", of_empty_fragment),
    Rule("extension header after a fragment header", "read in each fragment (docs/LINES.md); by tshark in the first one", of_extension_header_in_a_fragment),
    Rule("message of a first fragment", "read when its fragments are put together, which those of cut packets aren't (docs/PACKETS.md); tshark reads it in the first one", of_first_fragment),
    Rule("ICMP timestamps of other lengths", "RFC 792: such a message has 20 bytes; tshark shows longer ones", of_timestamp),
    Rule("fragments on two interfaces", "kept apart (docs/LINES.md); tshark joins them", of_two_interfaces),
    Rule("fraction of a second or more", "added to the seconds; tshark shows its digits after theirs", of_long_fraction),
    Rule("GRE in a cooked capture", "its protocol is read as an ether type (docs/CAPTURES.md); tshark has another field for it", of_gre_in_a_cooked_capture),
    Rule("destination of Inter-Switch Link", "a frame of Ethernet II as any other; tshark reads Cisco's header", of_inter_switch_link),
    Rule("RARP", "RFC 903: it has an ether type of its own, which is not read; tshark shows it as ARP", of_reverse_arp),
    Rule("tshark: malformed", "tshark ends where options or what they hold break their format; here options are bytes", of_malformed),
)


def explained(difference):
    """Returns the name of the first rule that explains it, or None."""
    return next((rule.name for rule in RULES if rule.holds(difference)), None)
