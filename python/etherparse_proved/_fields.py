"""What headers say beyond the fields of a packet: options, extension headers and ICMP messages."""

from ctypes import byref
from dataclasses import dataclass
from ipaddress import IPv4Address, IPv6Address
from typing import Any, List, Optional, Tuple, Union

from . import _raw
from ._libraries import etherparse


@dataclass(frozen=True)
class NoOperation:
    """An option of TCP: padding between options."""


@dataclass(frozen=True)
class MaximumSegmentSize:
    """An option of TCP: the greatest segment that the sender takes."""

    size: int


@dataclass(frozen=True)
class WindowScale:
    """An option of TCP: by how many bits window sizes are shifted."""

    shift: int


@dataclass(frozen=True)
class SackPermitted:
    """An option of TCP: selective acknowledgements are understood."""


@dataclass(frozen=True)
class Sack:
    """An option of TCP: up to four blocks of bytes that arrived after a gap.

    Each is the sequence number of its first byte, and of the byte after its last one.
    """

    blocks: Tuple[Tuple[int, int], ...]


@dataclass(frozen=True)
class Timestamps:
    """An option of TCP: the sender's clock, and the clock value that it replies to."""

    value: int
    reply: int


@dataclass(frozen=True)
class UnreadableOption:
    """Bytes that are no option of TCP, after which nothing is read.

    `reason` is "too few bytes", where `needed` and `there` say how many, "wrong length", where `length` is the option's length
    byte, or "unknown kind".
    """

    kind: int
    reason: str
    needed: int = 0
    there: int = 0
    length: int = 0


TcpOption = Union[NoOperation, MaximumSegmentSize, WindowScale, SackPermitted, Sack, Timestamps, UnreadableOption]
_FAULTS = {1: "too few bytes", 2: "wrong length", 3: "unknown kind"}


@dataclass(frozen=True)
class HopByHopOptions:
    """An extension header of IPv6. `payload` is what follows its first two bytes."""

    next_header: int
    payload: bytes


@dataclass(frozen=True)
class Routing:
    """An extension header of IPv6. `payload` is what follows its first two bytes."""

    next_header: int
    payload: bytes


@dataclass(frozen=True)
class Fragment:
    """An extension header of IPv6. `offset` counts units of 8 bytes."""

    next_header: int
    offset: int
    more_fragments: bool
    identification: int


@dataclass(frozen=True)
class DestinationOptions:
    """An extension header of IPv6. `payload` is what follows its first two bytes."""

    next_header: int
    payload: bytes


@dataclass(frozen=True)
class Authentication:
    """An authentication header (RFC 4302) of IPv4 or IPv6. `check_value` is its integrity check value."""

    next_header: int
    spi: int
    sequence_number: int
    check_value: bytes


Extension = Union[HopByHopOptions, Routing, Fragment, DestinationOptions, Authentication]


@dataclass(frozen=True)
class EchoRequest:
    """An ICMP message."""

    id: int
    sequence_number: int


@dataclass(frozen=True)
class EchoReply:
    """An ICMP message."""

    id: int
    sequence_number: int


@dataclass(frozen=True)
class DestinationUnreachable:
    """An ICMP message. `mtu` is of ICMPv4 with code 4: the greatest packet that the next network takes, 0 if not reported."""

    code: int
    mtu: int


@dataclass(frozen=True)
class GatewayRedirect:
    """An ICMPv4 message: another gateway is the better one."""

    code: int
    gateway: IPv4Address


@dataclass(frozen=True)
class TimeExceeded:
    """An ICMP message."""

    code: int


@dataclass(frozen=True)
class ParameterProblem:
    """An ICMP message. `pointer` is the offset of the fault in the packet; with ICMPv4 only code 0 has one."""

    code: int
    pointer: int


@dataclass(frozen=True)
class TimestampRequest:
    """An ICMPv4 message. Times are milliseconds since midnight UT."""

    id: int
    sequence_number: int
    originate: int
    receive: int
    transmit: int


@dataclass(frozen=True)
class TimestampReply:
    """An ICMPv4 message. Times are milliseconds since midnight UT."""

    id: int
    sequence_number: int
    originate: int
    receive: int
    transmit: int


@dataclass(frozen=True)
class PacketTooBig:
    """An ICMPv6 message: the greatest packet in bytes that the next link takes."""

    mtu: int


@dataclass(frozen=True)
class UnknownIcmp:
    """An ICMP message of a type and code without a class of its own. `rest` is bytes 4 to 7."""

    icmp_type: int
    code: int
    rest: bytes


IcmpMessage = Union[
    EchoRequest, EchoReply, DestinationUnreachable, GatewayRedirect, TimeExceeded, ParameterProblem, TimestampRequest,
    TimestampReply, PacketTooBig, UnknownIcmp,
]  # fmt: skip


@dataclass(frozen=True)
class RouterSolicitation:
    """A message of neighbor discovery (RFC 4861)."""


@dataclass(frozen=True)
class RouterAdvertisement:
    """A message of neighbor discovery. The lifetime is in seconds, the times are in milliseconds; 0 is not given."""

    hop_limit: int
    managed: bool
    other: bool
    router_lifetime: int
    reachable_time: int
    retrans_timer: int


@dataclass(frozen=True)
class NeighborSolicitation:
    """A message of neighbor discovery."""

    target: IPv6Address


@dataclass(frozen=True)
class NeighborAdvertisement:
    """A message of neighbor discovery."""

    router: bool
    solicited: bool
    overrides: bool
    target: IPv6Address


@dataclass(frozen=True)
class NeighborRedirect:
    """A message of neighbor discovery: a router names a better first hop for packets to a destination."""

    target: IPv6Address
    destination: IPv6Address


NdpMessage = Union[RouterSolicitation, RouterAdvertisement, NeighborSolicitation, NeighborAdvertisement, NeighborRedirect]


def _option(found: Any) -> TcpOption:
    kind = int(found.kind)
    if found.fault:
        return UnreadableOption(kind, _FAULTS[found.fault], found.needed, found.there, found.stated_len)
    if kind == 2:
        return MaximumSegmentSize(found.maximum_segment_size)
    if kind == 3:
        return WindowScale(found.window_scale)
    if kind == 4:
        return SackPermitted()
    if kind == 5:
        return Sack(tuple((block.left_edge, block.right_edge) for block in found.blocks[: found.block_count]))
    if kind == 8:
        return Timestamps(found.timestamp, found.echoed_timestamp)
    return NoOperation()


def _extension(frame: bytes, found: Any) -> Extension:
    number, payload = found.next_header, frame[found.payload.offset :][: found.payload.len]
    if found.layer == _raw.LAYER_IPV6_FRAG_HEADER:
        return Fragment(number, found.fragment_offset, found.more_fragments, found.identification)
    if found.layer == _raw.LAYER_IP_AUTH_HEADER:
        return Authentication(number, found.spi, found.sequence_number, payload)
    if found.layer == _raw.LAYER_IPV6_HOP_BY_HOP_HEADER:
        return HopByHopOptions(number, payload)
    if found.layer == _raw.LAYER_IPV6_ROUTE_HEADER:
        return Routing(number, payload)
    return DestinationOptions(number, payload)


def _icmp(found: Any, header: Any) -> IcmpMessage:
    kind, code = found.kind, header.code
    echo = found.id, found.sequence_number
    times = found.originate_timestamp, found.receive_timestamp, found.transmit_timestamp
    if kind == _raw.ICMP_ECHO_REQUEST:
        return EchoRequest(*echo)
    if kind == _raw.ICMP_ECHO_REPLY:
        return EchoReply(*echo)
    if kind == _raw.ICMP_DESTINATION_UNREACHABLE:
        return DestinationUnreachable(code, found.mtu)
    if kind == _raw.ICMP_REDIRECT:
        return GatewayRedirect(code, IPv4Address(bytes(found.gateway)))
    if kind == _raw.ICMP_TIME_EXCEEDED:
        return TimeExceeded(code)
    if kind == _raw.ICMP_PARAMETER_PROBLEM:
        return ParameterProblem(code, found.pointer)
    if kind == _raw.ICMP_TIMESTAMP_REQUEST:
        return TimestampRequest(*echo, *times)
    if kind == _raw.ICMP_TIMESTAMP_REPLY:
        return TimestampReply(*echo, *times)
    if kind == _raw.ICMP_PACKET_TOO_BIG:
        return PacketTooBig(found.mtu)
    return UnknownIcmp(header.icmp_type, code, bytes(header.rest))


def _ndp(found: Any) -> Optional[NdpMessage]:
    kind = found.icmp_type
    if kind == 133:
        return RouterSolicitation()
    if kind == 134:
        return RouterAdvertisement(
            found.hop_limit, found.managed, found.other, found.router_lifetime, found.reachable_time, found.retrans_timer
        )
    target = IPv6Address(bytes(found.target))
    if kind == 135:
        return NeighborSolicitation(target)
    if kind == 136:
        return NeighborAdvertisement(found.router, found.solicited, found.overrides, target)
    return NeighborRedirect(target, IPv6Address(bytes(found.destination))) if kind == 137 else None


def tcp_options_of(frame: bytes, packet: _raw.EpPacket) -> List[TcpOption]:
    """The options of the TCP header of a packet that was sliced from this frame."""
    left, found = etherparse.ep_tcp_options(byref(packet)), []
    while (option := etherparse.ep_tcp_option_next(frame, len(frame), byref(left))).kind:
        found.append(_option(option))
    return found


def ipv4_options_of(frame: bytes, packet: _raw.EpPacket) -> bytes:
    """The bytes of the options of its IPv4 header."""
    options = etherparse.ep_ipv4_options(byref(packet))
    return frame[options.offset :][: options.len]


def extensions_of(frame: bytes, packet: _raw.EpPacket) -> List[Extension]:
    """Its extension headers."""
    left, found = etherparse.ep_ip_extensions(byref(packet)), []
    while (extension := etherparse.ep_extension_next(frame, len(frame), byref(left))).layer:
        found.append(_extension(frame, extension))
    return found


def icmp_bytes(frame: bytes, packet: Any) -> bytes:
    """The bytes of its ICMP message, header and payload."""
    icmp = packet.icmp
    return frame[icmp.header.offset :][: icmp.header.len + icmp.payload.len]


def icmp_message_of(frame: bytes, packet: Any) -> Optional[IcmpMessage]:
    """Its ICMP message, if it has one."""
    if packet.transport not in (1, 58):
        return None
    call = etherparse.ep_icmpv4_fields if packet.transport == 1 else etherparse.ep_icmpv6_fields
    message = icmp_bytes(frame, packet)
    return _icmp(call(message, len(message)), packet.icmp)


def ndp_message_of(frame: bytes, packet: Any) -> Optional[NdpMessage]:
    """Its message of neighbor discovery, if it has one."""
    if packet.transport != 58:
        return None
    message = icmp_bytes(frame, packet)
    return _ndp(etherparse.ep_ndp_message(message, len(message)))
