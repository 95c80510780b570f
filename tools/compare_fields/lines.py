"""The lines of rust/examples/dissect.rs, and such lines of what the Python package has of a packet."""

import os
import subprocess
import tempfile

import etherparse_proved as ep

RUST = os.path.join(os.path.dirname(os.path.abspath(__file__)), "..", "..", "rust")
OPTIONS = {ep.NoOperation: "noop", ep.MaximumSegmentSize: "mss", ep.WindowScale: "scale", ep.SackPermitted: "sack permitted", ep.Timestamps: "timestamps"}
EXTENSIONS = {ep.HopByHopOptions: "hop-by-hop", ep.Routing: "routing", ep.DestinationOptions: "destination", ep.Fragment: "fragment", ep.Authentication: "auth"}
MESSAGES = {
    ep.EchoRequest: "echo request", ep.EchoReply: "echo reply", ep.TimestampRequest: "timestamp request",
    ep.TimestampReply: "timestamp reply", ep.UnknownIcmp: "unknown", ep.DestinationUnreachable: "unreachable",
    ep.GatewayRedirect: "redirect", ep.TimeExceeded: "time exceeded", ep.ParameterProblem: "parameter problem", ep.PacketTooBig: "too big",
}  # fmt: skip


NDP_OPTIONS = {
    ep.SourceLinkLayerAddress: "source address", ep.TargetLinkLayerAddress: "target address", ep.RedirectedHeader: "redirected",
    ep.LinkMtu: "mtu", ep.RecursiveDnsServer: "servers", ep.DnsSearchList: "domains", ep.UnknownNdpOption: "option",
}  # fmt: skip
GROUPS = {
    ep.IgmpQuery: "query", ep.IgmpQueryV3: "query of sources", ep.IgmpReportV1: "report 1", ep.IgmpReportV2: "report 2",
    ep.IgmpLeave: "leave", ep.MldQuery: "query", ep.MldQueryV2: "query of sources", ep.MldReport: "report 1", ep.MldDone: "leave",
    ep.ShortGroupMessage: "short message", ep.GroupRecord: "record", ep.UnreadableRecord: "too few bytes",
}  # fmt: skip


def word(value):
    if hasattr(value, "packed"):
        return "x" + value.packed.hex()
    if isinstance(value, tuple) and all(hasattr(it, "packed") for it in value):
        return "".join(word(it) + "," for it in value)
    if isinstance(value, (bytes, tuple)):
        return "x" + bytes(value).hex()
    return str(int(value) if isinstance(value, bool) else value)


def words(name, *values):
    return " ".join((name, *map(word, values)))


def named(names, value):
    """The name of a dataclass, and its fields in their order."""
    return words(names[type(value)], *(getattr(value, name) for name in value.__dataclass_fields__))


def listed(*numbers):
    return ",".join(map(str, numbers))


def option(found):
    if isinstance(found, ep.Sack):
        return words("sack", *(f"{left}-{right}" for left, right in found.blocks))
    if isinstance(found, ep.UnreadableOption):
        sizes = {"too few bytes": (found.needed, found.there), "wrong length": (found.length,)}.get(found.reason, ())
        return words(found.reason, found.kind, *sizes)
    return named(OPTIONS, found)


def ndp_message(found):
    if isinstance(found, ep.RouterAdvertisement):
        times = found.router_lifetime, found.reachable_time, found.retrans_timer
        return words("router advertisement", found.hop_limit, (found.managed, found.other), *times)
    if isinstance(found, ep.NeighborAdvertisement):
        return words("neighbor advertisement", (found.router, found.solicited, found.overrides), found.target)
    names = {ep.RouterSolicitation: "router solicitation", ep.NeighborSolicitation: "neighbor solicitation", ep.NeighborRedirect: "better hop"}
    return named(names, found)


def ndp_option(found):
    if isinstance(found, ep.PrefixInformation):
        lifetimes = found.valid_lifetime, found.preferred_lifetime
        return words("prefix", found.prefix_length, (found.on_link, found.autonomous), *lifetimes, found.prefix)
    if isinstance(found, ep.UnreadableNdpOption):
        sizes = (found.needed, found.there) if found.reason == "too few bytes" else ()
        return words(found.reason, found.offset, *sizes)
    return named(NDP_OPTIONS, found)


def group_parts(found):
    if isinstance(found, (ep.IgmpReportV3, ep.MldReportV2)):
        yield words("records", found.count)
        for record in found.records:
            yield named(GROUPS, record)
    elif found:
        yield named(GROUPS, found)


def parts(packet):
    link = packet.link
    if link.kind == 1:
        yield words("eth", link.source, link.destination, link.protocol)
    else:
        yield words("sll", link.packet_type, link.hardware_type, link.address_len, link.address, link.protocol)
    for tag in packet.tags:
        if tag.kind == 1:
            yield words("vlan", tag.priority, tag.drop_eligible, tag.vlan_id, tag.ether_type)
            continue
        bits = tag.end_station, tag.single_copy_broadcast, tag.encrypted, tag.changed, tag.has_channel
        channel = tag.channel if tag.has_channel else 0
        yield words("macsec", bits, tag.association, tag.short_len, tag.packet_number, channel, tag.ether_type)
    if packet.ipv4:
        ip = packet.ipv4
        numbers = ip.dscp, ip.ecn, ip.time_to_live, ip.protocol, ip.payload_number
        long = listed(ip.total_len, ip.identification, ip.fragment_offset, ip.header_checksum)
        yield words("ipv4", (ip.dont_fragment, ip.more_fragments, ip.is_part), numbers, long, ip.source)
        yield words("to", ip.destination, packet.ipv4_options())
    if packet.ipv6:
        ip = packet.ipv6
        numbers = ip.traffic_class, ip.next_header, ip.hop_limit, ip.payload_number, ip.is_part
        yield words("ipv6", numbers, ip.flow_label, ip.payload_length, (ip.source, ip.destination))
    if packet.arp:
        arp = packet.arp
        addresses = arp.sender_hardware, arp.sender_protocol, arp.target_hardware, arp.target_protocol
        yield words("arp", arp.hardware_type, arp.protocol_type, arp.operation, *addresses)
    for header in packet.extensions():
        yield named(EXTENSIONS, header)
    if packet.udp:
        yield words("udp", packet.udp.source_port, packet.udp.destination_port, packet.udp.stated_len, packet.udp.checksum)
    if packet.tcp:
        it = packet.tcp
        bits = it.ns, it.fin, it.syn, it.rst, it.psh, it.ack, it.urg, it.ece, it.cwr
        long = listed(it.source_port, it.destination_port, it.window_size, it.checksum, it.urgent_pointer)
        yield words("tcp", bits, long, it.sequence_number, it.acknowledgment_number)
    if packet.icmp:
        it = packet.icmp
        yield words("icmpv4" if packet._sliced()[1].transport == 1 else "icmpv6", it.icmp_type, it.code, it.checksum, it.rest)
        if packet.icmp_message():
            yield named(MESSAGES, packet.icmp_message())
    for found in packet.tcp_options():
        yield option(found)
    if packet.ndp_message():
        yield ndp_message(packet.ndp_message())
    for found in packet.ndp_options():
        yield ndp_option(found)
    yield from group_parts(packet.igmp_message())
    yield from group_parts(packet.mld_message())
    yield words("payload", packet.payload)


def by_rust(frames):
    """The lines of these frames by the Rust crate, each as its kind and bytes."""
    words = ["cargo", "run", "--quiet", "--offline", "--release", "--features", "rpath", "--example", "dissect"]
    text = "".join(f"{kind}{frame.hex()}\n" for kind, frame in frames)
    with tempfile.TemporaryDirectory() as target:
        ran = subprocess.run([*words, "--target-dir", target], cwd=RUST, input=text, stdout=subprocess.PIPE, text=True, check=True)
    return ran.stdout.splitlines()


def line_of(kind, frame):
    try:
        packet = (ep.slice_ethernet if kind == "E" else ep.slice_linux_sll)(frame)
    except ep.Refused as refused:
        return f"refused: {refused}"
    return "; ".join(parts(packet))
