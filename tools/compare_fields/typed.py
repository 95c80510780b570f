"""What the Python package has beyond the fields of headers beside scapy's: options of TCP and IPv4, extension headers, and ICMP
messages by their kinds."""

import etherparse_proved as ep
from ipaddress import IPv4Address
from scapy.layers.inet import ICMP, IP, TCP
from scapy.layers.inet6 import IPv6ExtHdrDestOpt, IPv6ExtHdrHopByHop, IPv6ExtHdrRouting, IPv6ExtHdrSegmentRouting, _ICMPv6

EXTENSIONS = ("ext", "fragment", "auth")
KINDS = {
    IPv6ExtHdrHopByHop: ep.HopByHopOptions,
    IPv6ExtHdrDestOpt: ep.DestinationOptions,
    IPv6ExtHdrRouting: ep.Routing,
    IPv6ExtHdrSegmentRouting: ep.Routing,
}
# The lengths of TCP's options by their kinds (RFC 9293, section 3.2; RFC 7323; RFC 2018).
OPTION_LENGTHS = {2: (4,), 3: (3,), 4: (2,), 5: (10, 18, 26, 34), 8: (10,)}
# The codes of ICMP's types that have a class (RFC 792 and 1812; RFC 4443 and what IANA added).
CODES4 = {0: 1, 3: 16, 5: 4, 8: 1, 11: 2, 12: 3, 13: 1, 14: 1}
CODES6 = {1: 7, 2: 1, 3: 2, 4: 11, 128: 1, 129: 1}


def option_of(name, value):
    """The package's option of scapy's, if it is one."""
    if name == "NOP":
        return ep.NoOperation()
    if name in ("MSS", "WScale") and isinstance(value, int):
        return (ep.MaximumSegmentSize if name == "MSS" else ep.WindowScale)(value)
    if name == "SAckOK":
        return ep.SackPermitted()
    if name == "SAck" and isinstance(value, tuple):
        return ep.Sack(tuple(zip(value[::2], value[1::2])))
    if name == "Timestamp" and isinstance(value, tuple):
        return ep.Timestamps(*value)
    return None


def is_unreadable(option, left):
    """Whether the bytes that are left begin with no option, for this reason."""
    kind, lengths = left[0], OPTION_LENGTHS.get(left[0])
    if option.kind != kind:
        return False
    if option.reason == "unknown kind":
        return lengths is None and kind > 1
    if option.reason == "wrong length":
        return option.length == left[1] and left[1] not in lengths
    return option.there == len(left) < option.needed and option.needed in (2, *lengths)


def option_differences(mine, data, theirs):
    """Between the options that the package has of these bytes, and scapy's."""
    at = 0
    for index, option in enumerate(mine):
        if isinstance(option, ep.UnreadableOption):
            if index + 1 != len(mine) or not is_unreadable(option, data[at:]):
                yield f"unreadable option of TCP, {option.reason}"
            return
        if index >= len(theirs) or option_of(*theirs[index]) != option:
            yield f"option of TCP, {type(option).__name__}"
            return
        at += 1 if isinstance(option, ep.NoOperation) else data[at + 1]
    if theirs[len(mine) :] and theirs[len(mine)][0] != "EOL":
        yield "options of TCP after the last one"


def extension_of(layer, name, fields):
    number = fields["next_header"]
    if name == "fragment":
        return ep.Fragment(number, fields["fragment_offset"], bool(fields["more_fragments"]), fields["identification"])
    if name == "auth":
        return ep.Authentication(number, fields["spi"], fields["sequence_number"], fields["icv"])
    return KINDS[type(layer)](number, fields["bytes"][2:])


def why(packet, mine, theirs):
    """Why one has more extension headers than the other."""
    if len(mine) > len(theirs):
        if theirs and isinstance(theirs[-1], ep.Fragment) and theirs[-1].offset:
            return "extension header after the fragment header of a later fragment"
        if any(isinstance(it, ep.Routing) for it in mine[max(len(theirs) - 1, 0) :]):
            return "routing header that scapy doesn't read"
        if packet.ipv6 and packet.ipv6.payload_length == 0:
            return "IPv6 payload length 0"
    return f"{len(mine)} extension headers, and {len(theirs)} by scapy"


def icmp_of(layer, fields):
    """The package's message of scapy's."""
    kind, code, is_v4 = fields["type"], fields["code"], isinstance(layer, ICMP)
    if code >= (CODES4 if is_v4 else CODES6).get(kind, 0):
        return ep.UnknownIcmp(kind, code, fields["unknown"])
    if kind in (0, 8, 128, 129):
        return (ep.EchoRequest if kind in (8, 128) else ep.EchoReply)(fields["id"], fields["seq"])
    if kind in (13, 14):
        times = (fields[name] for name in ("ts_ori", "ts_rx", "ts_tx"))
        return (ep.TimestampRequest if kind == 13 else ep.TimestampReply)(fields["id"], fields["seq"], *times)
    if kind == (3 if is_v4 else 1):
        return ep.DestinationUnreachable(code, fields["nexthopmtu"] if (is_v4 and code == 4) else 0)
    if kind == 5:
        return ep.GatewayRedirect(code, IPv4Address(fields["gw"]))
    if kind == 2:
        return ep.PacketTooBig(fields["mtu"])
    if kind == (11 if is_v4 else 3):
        return ep.TimeExceeded(code)
    return ep.ParameterProblem(code, fields["ptr"] if code == 0 or not is_v4 else 0)


def differences(packet, walked, counts):
    """Yields the kinds of differences between a packet and the layers that scapy walks through, and counts what is compared."""
    mine = packet.extensions()
    theirs = [extension_of(layer, *found) for layer, found in walked if found[0] in EXTENSIONS]
    for own, other in zip(mine, theirs):
        counts["= extension headers"] += 1
        if own != other:
            yield f"extension header {type(own).__name__}"
    if len(mine) != len(theirs):
        yield why(packet, mine, theirs)
    for layer, (name, fields) in walked:
        if isinstance(layer, IP) and packet.ipv4:
            counts["= options of IPv4"] += 1
            if packet.ipv4_options() != fields["options"]:
                yield "options of IPv4"
        if isinstance(layer, TCP) and packet.tcp:
            options = packet.tcp_options()
            counts["= options of TCP"] += len(options)
            yield from option_differences(options, fields["options"], layer.options)
        if isinstance(layer, (ICMP, _ICMPv6)) and packet.icmp:
            counts["= ICMP messages"] += 1
            if packet.icmp_message() != icmp_of(layer, fields):
                yield f"ICMP message of type {fields['type']}, code {fields['code']}"
