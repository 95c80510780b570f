"""Packets that are sliced, verdicts on their messages, and checksums."""

import enum
import struct
from dataclasses import dataclass
from typing import Any, Callable, Dict, List, Optional, Tuple, Type, TypeVar

from . import _raw
from ._arguments import Buffer, bytes_of
from ._fields import (
    Extension,
    IcmpMessage,
    NdpMessage,
    TcpOption,
    extensions_of,
    icmp_message_of,
    ipv4_options_of,
    ndp_message_of,
    tcp_options_of,
)
from ._groups import IgmpMessage, MldMessage, igmp_message_of, mld_message_of
from ._layers import Arp, Icmp, Ipv4, Ipv6, Link, Tag, Tcp, Udp
from ._lazy import Lazy, Reader, part, reads
from ._libraries import etherparse
from ._ndp_options import NdpOption, ndp_options_of


def names_of(prefix: str) -> Dict[int, str]:
    """The names of constants with this prefix, by their values."""
    names = [name for name in vars(_raw) if name.startswith(prefix)]
    return {getattr(_raw, name): name[len(prefix) :].lower() for name in names}


_REASONS = names_of("REFUSAL_")
_LAYERS = {value: name.replace("_", " ") for value, name in names_of("LAYER_").items()}
_KINDS = {
    _raw.REFUSAL_LINUX_SLL_PACKET_TYPE: "packet type of a Linux cooked capture",
    _raw.REFUSAL_LINUX_SLL_HARDWARE_TYPE: "hardware type of a Linux cooked capture",
    _raw.REFUSAL_MACSEC_VERSION: "MACsec version",
    _raw.REFUSAL_MACSEC_SHORT_LEN: "MACsec short length",
    _raw.REFUSAL_IP_VERSION: "IP version",
    _raw.REFUSAL_IPV4_VERSION: "IPv4 version",
    _raw.REFUSAL_IPV4_HEADER_LEN: "IPv4 header length",
    _raw.REFUSAL_IPV6_VERSION: "IPv6 version",
    _raw.REFUSAL_AUTH_HEADER_LEN: "authentication header length",
    _raw.REFUSAL_HOP_BY_HOP_NOT_AT_START: "hop-by-hop options not at the start",
    _raw.REFUSAL_TCP_DATA_OFFSET: "TCP data offset",
}
# What is refused there is no value of a field but 0, or where a header stands.
_KINDS_WITHOUT_VALUE = (_raw.REFUSAL_AUTH_HEADER_LEN, _raw.REFUSAL_HOP_BY_HOP_NOT_AT_START)


class Refused(ValueError):
    """A packet that breaks its format.

    `kind` and `layer` are numbered as in etherparse.h, `reason` is the name that `kind` has there after EP_REFUSAL_. Of
    too few bytes `needed`, `there`, `place` and `source` are set, of a header that breaks its format `value`, the field
    that it holds.
    """

    def __init__(
        self, kind: int, layer: int, needed: int = 0, there: int = 0, place: int = 0, source: int = 0, value: int = 0
    ) -> None:
        super().__init__(kind, layer, needed, there, place, source, value)
        self.kind = kind
        self.reason = _REASONS[kind]
        self.layer = layer
        self.needed = needed
        self.there = there
        self.place = place
        self.source = source
        self.value = value

    def __str__(self) -> str:
        if self.kind == _raw.REFUSAL_TOO_FEW_BYTES:
            layer = _LAYERS[self.layer]
            return f"{layer} at byte {self.place} needs {self.needed} bytes, and {self.there} are there"
        if self.kind in _KINDS_WITHOUT_VALUE:
            return _KINDS[self.kind]
        return f"{_KINDS[self.kind]}: {self.value}"

    def __eq__(self, other: object) -> bool:
        if not isinstance(other, Refused):
            return NotImplemented
        return self.args == other.args

    def __hash__(self) -> int:
        return hash(self.args)


# Kind, layer, numbers of bytes, place, source and value of an `EpRefusal`.
_REFUSAL = struct.Struct("IINNNII")


def refused(refusal: Any, at: int = 0) -> Refused:
    """The error of an `EpRefusal`, or of the bytes that have one at this offset."""
    return Refused(*_REFUSAL.unpack_from(refusal, at))


# The numbers that are read here, of layers and of kinds, are of four bytes, the lowest first, of which all but that are 0.
_AT = {name: getattr(_raw.EpPacket, name).offset for name, _ in _raw.EpPacket._fields_}
_TAG_LEN = _raw.EpPacket.tags.size // 3
# Where the payload of a packet stands by the number of its transport, else by its network layer.
_AFTER_TRANSPORT = {
    1: _AT["icmp"] + _raw.EpIcmp.payload.offset,
    6: _AT["tcp"] + _raw.EpTcp.payload.offset,
    17: _AT["udp"] + _raw.EpUdp.payload.offset,
    58: _AT["icmp"] + _raw.EpIcmp.payload.offset,
}
_AFTER_NET = {4: _AT["ipv4"] + _raw.EpIpv4.payload.offset, 6: _AT["ipv6"] + _raw.EpIpv6.payload.offset}
_ARP = 1


def _layer(kind: Type[Lazy], name: str, number: str, *numbers: int) -> Tuple[int, Reader]:
    """Reads a layer that is there where this field of the packet has one of these numbers."""
    number_at, of = _AT[number], kind._of
    return _AT[name], lambda frame, raw, at: of(frame, raw, at) if raw[number_at] in numbers else None


def _tags(frame: bytes, raw: bytes, at: int) -> Tuple[Tag, ...]:
    return tuple(Tag._of(frame, raw, at + index * _TAG_LEN) for index in range(raw[_AT["tag_count"]]))


def _payload(frame: bytes, raw: bytes, _: int) -> bytes:
    net = raw[_AT["net"]]
    if net == _ARP:
        return b""
    at = _AFTER_TRANSPORT.get(raw[_AT["transport"]]) or _AFTER_NET.get(net) or _AT["ether_payload"]
    return part(frame, raw, at)


@reads(
    {
        "link": _layer(Link, "link", "link", 1, 2),
        "tags": (_AT["tags"], _tags),
        "arp": _layer(Arp, "arp", "net", _ARP),
        "ipv4": _layer(Ipv4, "ipv4", "net", 4),
        "ipv6": _layer(Ipv6, "ipv6", "net", 6),
        "udp": _layer(Udp, "udp", "transport", 17),
        "tcp": _layer(Tcp, "tcp", "transport", 6),
        "icmp": _layer(Icmp, "icmp", "transport", 1, 58),
        "payload": (0, _payload),
    }
)
@dataclass(frozen=True)
class Packet(Lazy):
    """A packet that was sliced. A layer that isn't there is None.

    `tags` are the VLAN tags and MACsec headers after the link header, in their order, `payload` is the innermost one: of
    the message, else of the IP packet, else what the last ether type names. An ARP packet has none.
    """

    link: Optional[Link]
    tags: Tuple[Tag, ...]
    arp: Optional[Arp]
    ipv4: Optional[Ipv4]
    ipv6: Optional[Ipv6]
    udp: Optional[Udp]
    tcp: Optional[Tcp]
    icmp: Optional[Icmp]
    payload: bytes

    def _sliced(self) -> Tuple[bytes, _raw.EpPacket]:
        """The frame and the struct that it was sliced into. ValueError where nothing was."""
        if "_bytes" not in self.__dict__:
            raise ValueError("this packet was made by hand, and not sliced")
        frame, raw, _ = self.__dict__["_bytes"]
        return frame, _raw.EpPacket.from_buffer_copy(raw)

    def tcp_options(self) -> List[TcpOption]:
        """The options of the TCP header; a last one may be an UnreadableOption."""
        return tcp_options_of(*self._sliced())

    def ipv4_options(self) -> bytes:
        """The options of the IPv4 header."""
        return ipv4_options_of(*self._sliced())

    def extensions(self) -> List[Extension]:
        """The extension headers of the IP packet: all of IPv6, or the authentication header of IPv4."""
        return extensions_of(*self._sliced())

    def icmp_message(self) -> Optional[IcmpMessage]:
        """What the ICMP message says, if there is one."""
        return icmp_message_of(*self._sliced())

    def ndp_message(self) -> Optional[NdpMessage]:
        """The message of neighbor discovery, if there is one."""
        return ndp_message_of(*self._sliced())

    def ndp_options(self) -> List[NdpOption]:
        """The options of the message of neighbor discovery; a last one may be an UnreadableNdpOption."""
        return ndp_options_of(*self._sliced())

    def igmp_message(self) -> Optional[IgmpMessage]:
        """The message of IGMP, if there is one: in an IPv4 packet that is no fragment."""
        return igmp_message_of(*self._sliced())

    def mld_message(self) -> Optional[MldMessage]:
        """The message of multicast listener discovery, if there is one."""
        return mld_message_of(*self._sliced())


def _stop(_: bytes, raw: bytes, at: int) -> Optional[Refused]:
    return refused(raw, at) if raw[at] else None


# An `EpLaxPacket` begins with an `EpPacket`, so that the layers are read as those of one.
@reads(
    {
        "stop": (_raw.EpLaxPacket.stop.offset, _stop),
        "stop_layer": (_raw.EpLaxPacket.stop_layer.offset, lambda frame, raw, at: raw[at]),
        "incomplete": (_raw.EpLaxPacket.incomplete.offset, lambda frame, raw, at: raw[at] != 0),
    }
)
@dataclass(frozen=True)
class LaxPacket(Packet):
    """A packet as far as it is there, also where it was cut off or a header breaks its format.

    Where a length field says more than is there, the payload ends with the packet's bytes. Also where the total length of
    IPv4 is less than its header, the payload is all that follows. A UDP length that doesn't fit isn't a fault here. So a
    packet without a stop of which nothing is missing may still be refused by the strict calls.

    `stop` says why the reading stopped before the end, if it did: the refusal of the first layer that isn't there.
    `stop_layer` is then the number that the layer that was being read has in etherparse.h, else 0: it says which extension
    header, where the refusal's layer is that of any of IPv6. Where an extension header stopped the reading, the IP payload
    starts with it, and `payload_number` is its number.

    `incomplete` says whether bytes are missing that the length field of IPv4, IPv6 or MACsec counts: of the payload of the
    IP packet, or where there is none, of what follows the tags.
    """

    stop: Optional[Refused]
    stop_layer: int
    incomplete: bool


_Sliced = TypeVar("_Sliced", bound=Packet)


def _sliced(call: Callable[[bytes, int], Any], kind: Type[_Sliced], name: str, data: Buffer) -> _Sliced:
    frame = data if type(data) is bytes else bytes_of(name, data)
    raw = bytes(call(frame, len(frame)))
    if raw[0]:
        raise refused(raw)
    return kind._of(frame, raw, 0)


def slice_ethernet(frame: Buffer) -> Packet:
    """Slices an Ethernet II frame; raises Refused."""
    return _sliced(etherparse.ep_slice_ethernet, Packet, "frame", frame)


def slice_linux_sll(packet: Buffer) -> Packet:
    """Slices a packet of a Linux cooked capture; raises Refused."""
    return _sliced(etherparse.ep_slice_linux_sll, Packet, "packet", packet)


def slice_ip(packet: Buffer) -> Packet:
    """Slices an IP packet of either version; raises Refused."""
    return _sliced(etherparse.ep_slice_ip, Packet, "packet", packet)


def slice_ethernet_lax(frame: Buffer) -> LaxPacket:
    """Slices an Ethernet II frame as far as it is there; raises Refused where it is shorter than its link header."""
    return _sliced(etherparse.ep_slice_ethernet_lax, LaxPacket, "frame", frame)


def slice_linux_sll_lax(packet: Buffer) -> LaxPacket:
    """Slices a packet of a Linux cooked capture as far as it is there.

    Raises Refused where its link header isn't whole or breaks its format.
    """
    return _sliced(etherparse.ep_slice_linux_sll_lax, LaxPacket, "packet", packet)


def slice_ip_lax(packet: Buffer) -> LaxPacket:
    """Slices an IP packet of either version as far as it is there.

    Raises Refused where its IP header isn't whole or breaks its format.
    """
    return _sliced(etherparse.ep_slice_ip_lax, LaxPacket, "packet", packet)


class Verdict(enum.Enum):
    """What the checksum of a message says."""

    NONE = 0
    GOOD = 1
    BAD = 2


def _verdict(call: Callable[[bytes, int], int], name: str, data: Buffer) -> Optional[Verdict]:
    taken = bytes_of(name, data)
    number = call(taken, len(taken))
    return Verdict(number) if number < 3 else None


def verdict_ethernet(frame: Buffer) -> Optional[Verdict]:
    """The verdict on the message in an Ethernet II frame; None where it has no unfragmented message that can be read."""
    return _verdict(etherparse.ep_verdict_ethernet, "frame", frame)


def verdict_linux_sll(packet: Buffer) -> Optional[Verdict]:
    """That in a packet of a Linux cooked capture."""
    return _verdict(etherparse.ep_verdict_linux_sll, "packet", packet)


def verdict_ip(packet: Buffer) -> Optional[Verdict]:
    """That in an IP packet of either version."""
    return _verdict(etherparse.ep_verdict_ip, "packet", packet)


def checksum(data: Buffer) -> int:
    """The Internet checksum (RFC 1071), as it stands in a header."""
    taken = bytes_of("data", data)
    return int(etherparse.ep_checksum(taken, len(taken)))


def checksum_is_right(data: Buffer) -> bool:
    """Whether the words of the bytes sum to all ones."""
    taken = bytes_of("data", data)
    return bool(etherparse.ep_checksum_is_right(taken, len(taken)))
