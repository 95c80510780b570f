"""What the package's types say, for mypy --strict, which reads this alone: each line that it has to refuse says so, and one
that it doesn't refuse is reported as well."""

from array import array
from ipaddress import IPv4Address, IPv6Address
from typing import BinaryIO, List, Optional, Tuple, Union

import etherparse_proved as ep


def ports(frame: bytes) -> Optional[Tuple[int, int]]:
    packet = ep.slice_ethernet(frame)
    if packet.udp is not None:
        return packet.udp.source_port, packet.udp.destination_port
    return None


def addresses(frame: bytearray) -> List[Union[IPv4Address, IPv6Address]]:
    packet = ep.slice_ethernet(frame)
    if packet.ipv4:
        return [packet.ipv4.source, packet.ipv4.destination]
    return [packet.ipv6.source] if packet.ipv6 else []


def messages(frames: List[memoryview]) -> List[bytes]:
    with ep.Pool() as pool:
        found = [pool.add(frame, time) for time, frame in enumerate(frames)]
    return [message.data for message in found if message]


def text(numbers: "array[int]") -> str:
    with ep.Session() as session:
        return (session.feed(numbers) + session.finish()).decode()


def built() -> bytes:
    link = ep.PlannedEthernet(bytes(6), bytes(6), vlan_ids=[5])
    return ep.build(b"", source="::1", destination=IPv6Address("::2"), transport=ep.PlannedTcp(1, 2, syn=True), link=link)


def built_of_all() -> Tuple[bytes, bytes]:
    link = ep.PlannedEthernet(bytes(6), bytes(6), vlan_ids=[ep.PlannedTag(5, priority=3), 6])
    headers = ep.PlannedExtensions(fragment=ep.PlannedFragment(1, offset=2), authentication=ep.PlannedAuthentication(1, 2))
    icmp = ep.PlannedIcmp(58, ep.PacketTooBig(1280))
    arp = ep.PlannedArp(1, bytes(6), IPv4Address("10.0.0.1"), bytes(6), bytes(4))
    packet = ep.build(b"", source="::1", destination="::2", transport=icmp, flow_label=1, extensions=headers)
    return packet, ep.build_arp(arp, link=link)


def stopped(frame: bytes) -> Optional[Tuple[str, int, bool]]:
    packet = ep.slice_ethernet_lax(frame)
    return (packet.stop.reason, packet.stop_layer, packet.incomplete) if packet.stop else None


def why(error: ep.Refused) -> Tuple[str, int]:
    return error.reason, error.needed


def segment_size(frame: bytes) -> Optional[int]:
    options: List[ep.TcpOption] = ep.slice_ethernet(frame).tcp_options()
    sizes = [option.size for option in options if isinstance(option, ep.MaximumSegmentSize)]
    return sizes[0] if sizes else None


def headers(packet: ep.Packet) -> Tuple[List[ep.Extension], Optional[ep.IcmpMessage], Optional[ep.NdpMessage], bytes]:
    return packet.extensions(), packet.icmp_message(), packet.ndp_message(), packet.ipv4_options()


def servers(packet: ep.Packet) -> List[IPv6Address]:
    options: List[ep.NdpOption] = packet.ndp_options()
    return [address for option in options if isinstance(option, ep.RecursiveDnsServer) for address in option.addresses]


def sources(packet: ep.Packet) -> List[Union[IPv4Address, IPv6Address]]:
    igmp, mld = packet.igmp_message(), packet.mld_message()
    found: List[Union[IPv4Address, IPv6Address]] = []
    if isinstance(igmp, ep.IgmpReportV3):
        found += [source for record in igmp.records if isinstance(record, ep.GroupRecord) for source in record.sources]
    if isinstance(mld, ep.MldQueryV2):
        found += mld.sources
    return found


def text_of(frames: List[bytes]) -> bytes:
    flows: ep.Flows[ep.Stream] = ep.Flows(100, lambda: ep.Stream(65536))
    for time, frame in enumerate(frames):
        keyed, segment = ep.flow_key_ethernet(frame), ep.slice_ethernet(frame).tcp
        if keyed and segment:
            flows.add(*keyed, segment, time)
    flows.retain(lambda key, flow: key.channel == 0 and flow.last > 0)
    ended = flows.pop_oldest()
    return ended[1].value.read() if ended and ended[1].state.state is ep.State.CLOSED else b""


def copied(path: str, output: BinaryIO) -> List[int]:
    with ep.Capture(path) as capture, ep.CaptureWriter(output, nanoseconds=True) as writer:
        packets = list(capture)
        for packet in packets:
            writer.write(packet.bytes, packet.time, packet.wire_len)
    return [packet.number for packet in packets if packet.link is ep.CaptureLink.ETHERNET]


version: str = ep.__version__
verdict: Optional[ep.Verdict] = ep.verdict_ip(b"")
cut: ep.Packet = ep.slice_ip_lax(b"")
vlan_ids: List[int] = [tag.vlan_id for tag in ep.slice_ethernet(b"").tags]

packet = ep.slice_ethernet(b"")
packet.udp.source_port  # type: ignore[union-attr]
packet.upd  # type: ignore[attr-defined]
packet.stop  # type: ignore[attr-defined]
ep.slice_linux_sll_lax(b"").stop.kind  # type: ignore[union-attr]
packet.payload = b""  # type: ignore[misc]
assert packet.udp and packet.ipv4 and packet.link
packet.udp.source_prt  # type: ignore[attr-defined]
packet.udp.source_port = 1  # type: ignore[misc]
packet.ipv4.source.upper()  # type: ignore[attr-defined]
packet.link.source + 1  # type: ignore[operator]
ep.slice_ethernet("frame")  # type: ignore[arg-type]
ep.Pool().add(b"", 1.5)  # type: ignore[arg-type]
ep.Pool().tiem = 1  # type: ignore[attr-defined]
ep.PlannedUdp("1", 2)  # type: ignore[arg-type]
ep.PlannedTcp(1, 2, syns=True)  # type: ignore[call-arg]
ep.build(b"", source="::1", destination="::2", transport="udp")  # type: ignore[arg-type]
ep.slice_ethernet(b"").tcp_options()[0].size  # type: ignore[union-attr]
ep.slice_ethernet(b"").igmp_message().group  # type: ignore[union-attr]
ep.Stream("1")  # type: ignore[arg-type]
ep.Stream(1).add(1, 2, b"")  # type: ignore[arg-type]
ep.Stream(1).gap.start  # type: ignore[union-attr]
ep.SegmentFlags().syn = True  # type: ignore[misc]
ep.Capture(1)  # type: ignore[arg-type]
ep.CaptureWriter("x").write("y", 1)  # type: ignore[arg-type]
ep.no_such_call  # type: ignore[attr-defined]
