"""Packets that are built."""

import ctypes
import functools
import ipaddress
from dataclasses import dataclass
from typing import Any, Callable, Dict, Optional, Sequence, Tuple, Union

from . import _raw
from ._arguments import Buffer, bytes_of, bytes_of_length, number_up_to
from ._fields import (
    DestinationUnreachable,
    EchoReply,
    EchoRequest,
    GatewayRedirect,
    IcmpMessage,
    MaximumSegmentSize,
    NoOperation,
    PacketTooBig,
    ParameterProblem,
    Sack,
    SackPermitted,
    TcpOption,
    TimeExceeded,
    TimestampReply,
    TimestampRequest,
    Timestamps,
    UnknownIcmp,
    WindowScale,
)
from ._libraries import etherparse
from ._packets import names_of

Address = Union[ipaddress.IPv4Address, ipaddress.IPv6Address]

_FIELDS = names_of("FIELD_")
# The longest headers without extension headers: link header, two tags, IPv4 with options, and TCP with options.
_LONGEST_HEADERS = 160


class BuildRefused(ValueError):
    """A packet that can't be built: `field` is what is at fault, the name in etherparse.h after EP_FIELD_ in lower case."""

    def __init__(self, field: str) -> None:
        super().__init__(field)
        self.field = field

    def __str__(self) -> str:
        return f"no packet has such a field: {self.field}"


@dataclass(frozen=True)
class PlannedTag:
    """A VLAN tag: an identifier from 0 to 4095, a priority from 0 to 7, and whether the frame may be dropped first."""

    vlan_id: int
    priority: int = 0
    drop_eligible: bool = False


@dataclass(frozen=True)
class PlannedEthernet:
    """An Ethernet II header, and up to two VLAN tags after it, the outer one first: identifiers, or each a PlannedTag."""

    source: bytes
    destination: bytes
    vlan_ids: Sequence[Union[int, PlannedTag]] = ()

    def __post_init__(self) -> None:
        object.__setattr__(self, "source", bytes_of_length("source", self.source, 6))
        object.__setattr__(self, "destination", bytes_of_length("destination", self.destination, 6))
        object.__setattr__(self, "vlan_ids", tuple(self.vlan_ids))


@dataclass(frozen=True)
class PlannedCapture:
    """The header of a Linux cooked capture of an Ethernet device."""

    packet_type: int
    address_len: int
    address: bytes

    def __post_init__(self) -> None:
        object.__setattr__(self, "address", bytes_of_length("address", self.address, 8))


@dataclass(frozen=True)
class PlannedUdp:
    """A UDP header."""

    source_port: int
    destination_port: int


def _element(option: TcpOption) -> bytes:
    """An option with its kind and length (RFC 9293, section 3.2; RFC 7323; RFC 2018)."""
    if isinstance(option, NoOperation):
        return b"\x01"
    if isinstance(option, MaximumSegmentSize):
        return b"\x02\x04" + number_up_to("size", option.size, 0xFFFF).to_bytes(2, "big")
    if isinstance(option, WindowScale):
        return b"\x03\x03" + number_up_to("shift", option.shift, 0xFF).to_bytes(1, "big")
    if isinstance(option, SackPermitted):
        return b"\x04\x02"
    if isinstance(option, Sack):
        if not 1 <= len(option.blocks) <= 4:
            raise ValueError(f"blocks are {len(option.blocks)}, and have to be from 1 to 4")
        edges = [edge for left, right in option.blocks for edge in (("left edge", left), ("right edge", right))]
        blocks = b"".join(number_up_to(name, edge, 0xFFFFFFFF).to_bytes(4, "big") for name, edge in edges)
        return bytes((5, 2 + len(blocks))) + blocks
    if isinstance(option, Timestamps):
        times = ("value", option.value), ("reply", option.reply)
        return b"\x08\x0a" + b"".join(number_up_to(name, time, 0xFFFFFFFF).to_bytes(4, "big") for name, time in times)
    raise TypeError(f"options has to be bytes, another buffer or TCP options, not {type(option).__name__}")


@dataclass(frozen=True)
class PlannedTcp:
    """A TCP header. Options are bytes, or MaximumSegmentSize and the like: at most 40 bytes, filled up with 0 to whole words."""

    source_port: int
    destination_port: int
    sequence_number: int = 0
    acknowledgment_number: int = 0
    window_size: int = 0
    urgent_pointer: int = 0
    ns: bool = False
    fin: bool = False
    syn: bool = False
    rst: bool = False
    psh: bool = False
    ack: bool = False
    urg: bool = False
    ece: bool = False
    cwr: bool = False
    options: Union[bytes, Sequence[TcpOption]] = b""

    def __post_init__(self) -> None:
        listed = isinstance(self.options, (list, tuple))
        options = b"".join(map(_element, self.options)) if listed else bytes_of("options", self.options)  # type: ignore[arg-type]
        object.__setattr__(self, "options", options)


@dataclass(frozen=True)
class PlannedEcho:
    """An echo request or its reply: of ICMPv4 (`number` 1) or ICMPv6 (58)."""

    number: int
    id: int
    sequence: int
    is_reply: bool = False


# The types of messages of ICMPv4 (RFC 792) and ICMPv6 (RFC 4443).
_ICMP_TYPES: Dict[int, Dict[type, int]] = {
    1: {
        EchoReply: 0, DestinationUnreachable: 3, GatewayRedirect: 5, EchoRequest: 8, TimeExceeded: 11, ParameterProblem: 12,
        TimestampRequest: 13, TimestampReply: 14,
    },
    58: {
        DestinationUnreachable: 1, PacketTooBig: 2, TimeExceeded: 3, ParameterProblem: 4, EchoRequest: 128, EchoReply: 129,
    },
}  # fmt: skip


def _pair(message: Union[EchoRequest, EchoReply, TimestampRequest, TimestampReply]) -> bytes:
    numbers = ("id", message.id), ("sequence_number", message.sequence_number)
    return b"".join(number_up_to(name, value, 0xFFFF).to_bytes(2, "big") for name, value in numbers)


def _rest(number: int, message: IcmpMessage) -> bytes:
    """Bytes 4 to 7 of a message, and what a timestamp has after them."""
    if isinstance(message, UnknownIcmp):
        return bytes_of_length("rest", message.rest, 4)
    if isinstance(message, (EchoRequest, EchoReply)):
        return _pair(message)
    if isinstance(message, (TimestampRequest, TimestampReply)):
        times = ("originate", message.originate), ("receive", message.receive), ("transmit", message.transmit)
        return _pair(message) + b"".join(number_up_to(name, time, 0xFFFFFFFF).to_bytes(4, "big") for name, time in times)
    if isinstance(message, DestinationUnreachable):
        return number_up_to("mtu", message.mtu, 0xFFFF if number == 1 else 0).to_bytes(4, "big")
    if isinstance(message, PacketTooBig):
        return number_up_to("mtu", message.mtu, 0xFFFFFFFF).to_bytes(4, "big")
    if isinstance(message, GatewayRedirect):
        return ipaddress.IPv4Address(message.gateway).packed
    if isinstance(message, ParameterProblem):
        size = 1 if number == 1 else 4
        return number_up_to("pointer", message.pointer, (1 << 8 * size) - 1).to_bytes(size, "big").ljust(4, b"\0")
    return bytes(4)


@dataclass(frozen=True)
class PlannedIcmp:
    """A message of ICMPv4 (`number` 1) or ICMPv6 (58): EchoRequest and the like, or UnknownIcmp with type, code and 4 bytes."""

    number: int
    message: IcmpMessage

    def __post_init__(self) -> None:
        if self.number not in _ICMP_TYPES:
            raise ValueError(f"number is {self.number}, and has to be 1 or 58")
        if not isinstance(self.message, UnknownIcmp) and type(self.message) not in _ICMP_TYPES[self.number]:
            raise TypeError(f"message {self.number} has to be one of its ICMP version, not {type(self.message).__name__}")
        _rest(self.number, self.message)


@dataclass(frozen=True)
class PlannedFragment:
    """A fragment header of IPv6. `offset` counts units of 8 bytes, from 0 to 8191."""

    identification: int
    offset: int = 0
    more_fragments: bool = False


@dataclass(frozen=True)
class PlannedAuthentication:
    """An authentication header (RFC 4302). `check_value` is at most 1016 bytes, a multiple of 4."""

    spi: int
    sequence_number: int
    check_value: bytes = b""

    def __post_init__(self) -> None:
        object.__setattr__(self, "check_value", bytes_of("check_value", self.check_value))


_RAW_HEADERS = "hop_by_hop_options", "destination_options", "routing", "final_destination_options"


@dataclass(frozen=True)
class PlannedExtensions:
    """Extension headers, which are written in the order of RFC 8200, section 4.1. IPv4 has authentication alone.

    Options and routing are what follows the first two bytes of a header: 6 bytes and a multiple of 8, at most 2046.
    `final_destination_options` come after the routing header.
    """

    hop_by_hop_options: Optional[bytes] = None
    destination_options: Optional[bytes] = None
    routing: Optional[bytes] = None
    final_destination_options: Optional[bytes] = None
    fragment: Optional[PlannedFragment] = None
    authentication: Optional[PlannedAuthentication] = None

    def __post_init__(self) -> None:
        for name in _RAW_HEADERS:
            payload = getattr(self, name)
            object.__setattr__(self, name, None if payload is None else bytes_of(name, payload))


def _address_bytes(name: str, address: Union[Buffer, Address]) -> bytes:
    return address.packed if isinstance(address, (ipaddress.IPv4Address, ipaddress.IPv6Address)) else bytes_of(name, address)


@dataclass(frozen=True)
class PlannedArp:
    """An ARP packet (RFC 826): `operation` is 1 of a request, 2 of a reply. Addresses are bytes, or of `ipaddress`.

    Both hardware addresses have one length, and both protocol addresses, at most 255.
    """

    operation: int
    sender_hardware: Union[bytes, Address]
    sender_protocol: Union[bytes, Address]
    target_hardware: Union[bytes, Address]
    target_protocol: Union[bytes, Address]
    hardware_type: int = 1
    protocol_type: int = 0x0800

    def __post_init__(self) -> None:
        for name in ("sender_hardware", "sender_protocol", "target_hardware", "target_protocol"):
            object.__setattr__(self, name, _address_bytes(name, getattr(self, name)))


Transport = Union[PlannedUdp, PlannedTcp, PlannedEcho, PlannedIcmp, int]
PlannedLink = Union[PlannedEthernet, PlannedCapture, None]


@functools.lru_cache(maxsize=None)
def _fields_of(kind: Any) -> Dict[str, Any]:
    """Of a struct, by the name of a field: where it is, and the greatest number that has room there."""
    fields = ((name, getattr(kind, name), of is ctypes.c_bool) for name, of, *_ in kind._fields_)
    return {name: (field, 1 if is_bool else (1 << 8 * field.size) - 1) for name, field, is_bool in fields}


def _put(struct: ctypes.Structure, values: Dict[str, Any]) -> None:
    """Writes numbers, bytes and parts into the fields of these names; numbers that have room there, bytes as far as they have."""
    fields = _fields_of(type(struct))
    for name, value in values.items():
        field, most = fields[name]
        if isinstance(value, bytes):
            ctypes.memmove(ctypes.addressof(struct) + field.offset, value, min(len(value), field.size))
        elif isinstance(value, _raw.EpPart):
            setattr(struct, name, value)
        else:
            setattr(struct, name, number_up_to(name, value, most))


class _Parts:
    """Bytes one after the other, each a part of the whole."""

    def __init__(self) -> None:
        self.bytes = b""

    def part(self, data: bytes) -> _raw.EpPart:
        offset = len(self.bytes)
        self.bytes += data
        return _raw.EpPart(offset, len(data))

    def header(self, payload: Optional[bytes]) -> _raw.EpPart:
        """A part of no bytes stands for no header, so a header without is one that nothing holds whole."""
        if payload is None:
            return _raw.EpPart()
        return self.part(payload) if payload else _raw.EpPart(0, ctypes.c_size_t(-1).value)


def _tag_values(place: str, tag: Union[int, PlannedTag]) -> Dict[str, Any]:
    if not isinstance(tag, PlannedTag):
        return {f"{place}_vlan_id": tag}
    return {f"{place}_{name}": value for name, value in vars(tag).items()}


def _link_values(link: PlannedLink) -> Dict[str, Any]:
    if link is None:
        return {}
    if isinstance(link, PlannedEthernet):
        tags = [_tag_values(place, tag) for place, tag in zip(("outer", "inner"), link.vlan_ids)]
        values = {"link": 1, "source": link.source, "destination": link.destination, "tag_count": len(link.vlan_ids)}
        return {**values, **{name: value for tag in tags for name, value in tag.items()}}
    if isinstance(link, PlannedCapture):
        return {"link": 2, **vars(link)}
    raise TypeError(f"link has to be PlannedEthernet, PlannedCapture or None, not {type(link).__name__}")


def _transport_values(transport: Transport) -> Dict[str, Any]:
    if isinstance(transport, PlannedUdp):
        return {"transport": 17, **vars(transport)}
    if isinstance(transport, PlannedTcp):
        return {"transport": 6, **vars(transport), "options_len": len(transport.options)}
    if isinstance(transport, PlannedEcho):
        echo = {"echo_id": transport.id, "echo_sequence": transport.sequence, "is_reply": transport.is_reply}
        return {"transport": transport.number, **echo}
    if isinstance(transport, PlannedIcmp):
        message, types = transport.message, _ICMP_TYPES[transport.number]
        kind = message.icmp_type if isinstance(message, UnknownIcmp) else types[type(message)]
        fields = {"icmp_type": kind, "icmp_code": getattr(message, "code", 0), "icmp_bytes": _rest(transport.number, message)[:4]}
        return {"transport": transport.number, "icmp_is_raw": True, **fields}
    if isinstance(transport, int):
        return {"payload_number": number_up_to("transport", transport, 255)}
    raise TypeError(f"transport has to be PlannedUdp, PlannedTcp, PlannedIcmp, PlannedEcho or an int, not {type(transport).__name__}")


def _extension_values(extensions: PlannedExtensions, parts: _Parts) -> Dict[str, Any]:
    values: Dict[str, Any] = {name: parts.header(getattr(extensions, name)) for name in _RAW_HEADERS}
    if extensions.fragment:
        values["has_fragment_header"] = True
        values["fragment_offset"] = extensions.fragment.offset
        values["more_fragments"] = extensions.fragment.more_fragments
        values["identification"] = extensions.fragment.identification
    if extensions.authentication:
        values["has_authentication"] = True
        values["spi"] = extensions.authentication.spi
        values["sequence_number"] = extensions.authentication.sequence_number
        values["integrity_check_value"] = parts.part(extensions.authentication.check_value)
    return values


def _addresses(source: Union[str, Address], destination: Union[str, Address]) -> Tuple[Address, Address]:
    ends = ipaddress.ip_address(source), ipaddress.ip_address(destination)
    if ends[0].version != ends[1].version:
        raise ValueError("source and destination have addresses of two versions")
    return ends


# What is of one IP version, and its value where it isn't given.
_OF_IPV4: Dict[str, Any] = {
    "dscp": 0, "ecn": 0, "identification": 0, "dont_fragment": True, "more_fragments": False, "fragment_offset": 0,
    "ipv4_options": b"",
}  # fmt: skip
_OF_IPV6: Dict[str, Any] = {"traffic_class": 0, "flow_label": 0}


def _ip_values(version: int, values: Dict[str, Any]) -> Dict[str, Any]:
    """The fields of this version; those of the other one have to be as if they weren't given."""
    own, other = (_OF_IPV4, _OF_IPV6) if version == 4 else (_OF_IPV6, _OF_IPV4)
    for name, default in other.items():
        if values[name] != default:
            raise ValueError(f"{name} isn't of IPv{version}, as the addresses are")
    if version == 6:
        return {name: values[name] for name in own}
    options = bytes_of("ipv4_options", values["ipv4_options"])
    may_fragment = 1 - number_up_to("dont_fragment", values["dont_fragment"], 1)
    kept = {name: values[name] for name in own if name not in ("dont_fragment", "ipv4_options")}
    return {**kept, "may_fragment": may_fragment, "ipv4_options_len": len(options), "ipv4_options": options}


def _built(room: int, call: Callable[[Any], _raw.EpBuilt]) -> bytes:
    """What a call builds in this room."""
    output = (ctypes.c_uint8 * room)()
    built = call(output)
    if built.status == _raw.REFUSED:
        raise BuildRefused(_FIELDS[built.field])
    if built.status != _raw.DONE:
        raise MemoryError
    return ctypes.string_at(output, built.len)


def build(
    payload: Buffer,
    *,
    source: Union[str, Address],
    destination: Union[str, Address],
    transport: Union[PlannedUdp, PlannedTcp, PlannedEcho, PlannedIcmp, int],
    link: Union[PlannedEthernet, PlannedCapture, None] = None,
    hops: int = 64,
    dscp: int = 0,
    ecn: int = 0,
    identification: int = 0,
    dont_fragment: bool = True,
    more_fragments: bool = False,
    fragment_offset: int = 0,
    ipv4_options: Buffer = b"",
    traffic_class: int = 0,
    flow_label: int = 0,
    extensions: Optional[PlannedExtensions] = None,
) -> bytes:
    """Builds a packet between these addresses, whose lengths, checksums, ether types and numbers follow.

    A number as `transport` is that of the payload, with no transport header. Of IPv4 are `dscp` to 63, `ecn` to 3,
    `identification`, the two flags, `fragment_offset` to 8191 in units of 8 bytes, and options of at most 40 bytes, a multiple
    of 4; of IPv6 are `traffic_class` and `flow_label` to 1048575. Raises BuildRefused where no packet has such a field,
    ValueError where a number is out of its range or of the other version, and MemoryError.
    """
    content = bytes_of("payload", payload)
    ends = _addresses(source, destination)
    version = ends[0].version
    given = dict(dscp=dscp, ecn=ecn, identification=identification, dont_fragment=dont_fragment, more_fragments=more_fragments)
    given.update(fragment_offset=fragment_offset, traffic_class=traffic_class, flow_label=flow_label)
    plan = _raw.EpPlan(ip_version=version)
    _put(plan, {f"ipv{version}_{name}": end.packed for name, end in zip(("source", "destination"), ends)})
    _put(plan, {"hops": hops, **_ip_values(version, {**given, "ipv4_options": ipv4_options})})
    _put(plan, {**_link_values(link), **_transport_values(transport)})
    if isinstance(transport, PlannedIcmp):
        content = _rest(transport.number, transport.message)[4:] + content
    headers, parts = _raw.EpPlannedExtensions(), _Parts()
    if extensions is not None:
        _put(headers, _extension_values(extensions, parts))
    data, room = parts.bytes, len(content) + len(parts.bytes) + _LONGEST_HEADERS
    one, other = ctypes.byref(plan), ctypes.byref(headers)
    call: Callable[..., _raw.EpBuilt] = etherparse.ep_build_with_extensions
    return _built(room, lambda output: call(one, other, data, len(data), content, len(content), output, room))


def build_arp(arp: PlannedArp, *, link: Union[PlannedEthernet, PlannedCapture]) -> bytes:
    """Builds a packet that holds an ARP packet after this link header.

    Raises BuildRefused where no packet has such a field, ValueError where a number is out of its range, and MemoryError.
    """
    plan, packet, parts = _raw.EpPlan(), _raw.EpArp(), _Parts()
    _put(plan, _link_values(link))
    _put(packet, {name: parts.part(value) if isinstance(value, bytes) else value for name, value in vars(arp).items()})
    data, room = parts.bytes, len(parts.bytes) + _LONGEST_HEADERS
    one, other = ctypes.byref(plan), ctypes.byref(packet)
    call: Callable[..., _raw.EpBuilt] = etherparse.ep_build_arp
    return _built(room, lambda output: call(one, other, data, len(data), output, room))
