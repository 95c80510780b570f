"""The options of messages of neighbor discovery."""

from ctypes import byref
from dataclasses import dataclass
from ipaddress import IPv6Address
from typing import Any, List, Tuple, Union

from . import _raw
from ._addresses import addresses_of
from ._fields import icmp_bytes
from ._libraries import etherparse


@dataclass(frozen=True)
class SourceLinkLayerAddress:
    """An option of neighbor discovery (RFC 4861, section 4.6.1), with what fills the address's last unit of 8 bytes."""

    address: bytes


@dataclass(frozen=True)
class TargetLinkLayerAddress:
    """An option of neighbor discovery (RFC 4861, section 4.6.1), with what fills the address's last unit of 8 bytes."""

    address: bytes


@dataclass(frozen=True)
class PrefixInformation:
    """An option of neighbor discovery (RFC 4861, section 4.6.2). Lifetimes are in seconds; all ones are for ever.

    `prefix_length` is how many leading bits of the prefix are valid; the others are to be ignored. `on_link` is bit L,
    `autonomous` is bit A: a host may form an address with the prefix.
    """

    prefix_length: int
    on_link: bool
    autonomous: bool
    valid_lifetime: int
    preferred_lifetime: int
    prefix: IPv6Address


@dataclass(frozen=True)
class RedirectedHeader:
    """An option of neighbor discovery (RFC 4861, section 4.6.3): the start of the packet that is redirected."""

    packet: bytes


@dataclass(frozen=True)
class LinkMtu:
    """An option of neighbor discovery (RFC 4861, section 4.6.4): the link's greatest packet in bytes."""

    mtu: int


@dataclass(frozen=True)
class RecursiveDnsServer:
    """An option of neighbor discovery (RFC 8106, section 5.1). The lifetime is in seconds; all ones are for ever."""

    lifetime: int
    addresses: Tuple[IPv6Address, ...]


@dataclass(frozen=True)
class DnsSearchList:
    """An option of neighbor discovery (RFC 8106, section 5.2): domains in which names are searched.

    `names` are labels (RFC 1035, section 3.1), filled with zeros. The lifetime is in seconds; all ones are for ever.
    """

    lifetime: int
    names: bytes


@dataclass(frozen=True)
class UnknownNdpOption:
    """An option of neighbor discovery of another type, or of a length that its type doesn't have.

    `data` is what follows type and length.
    """

    kind: int
    data: bytes


@dataclass(frozen=True)
class UnreadableNdpOption:
    """Bytes that are no option of neighbor discovery, after which nothing is read.

    `offset` counts from the first option on. `reason` is "too few bytes", where `needed` and `there` say how many, or
    "length 0".
    """

    offset: int
    reason: str
    needed: int = 0
    there: int = 0


NdpOption = Union[
    SourceLinkLayerAddress, TargetLinkLayerAddress, PrefixInformation, RedirectedHeader, LinkMtu, RecursiveDnsServer,
    DnsSearchList, UnknownNdpOption, UnreadableNdpOption,
]  # fmt: skip
_FAULTS = {1: "too few bytes", 2: "length 0"}


def _option(options: bytes, found: Any) -> NdpOption:
    kind, carried = found.kind, options[found.carried.offset :][: found.carried.len]
    if kind == _raw.NDP_OPTION_FAULT:
        return UnreadableNdpOption(found.option.offset, _FAULTS[found.fault], found.needed, found.there)
    if kind == _raw.NDP_OPTION_SOURCE_LINK_LAYER_ADDRESS:
        return SourceLinkLayerAddress(carried)
    if kind == _raw.NDP_OPTION_TARGET_LINK_LAYER_ADDRESS:
        return TargetLinkLayerAddress(carried)
    if kind == _raw.NDP_OPTION_PREFIX_INFORMATION:
        lifetimes = found.valid_lifetime, found.preferred_lifetime
        prefix = IPv6Address(bytes(found.prefix))
        return PrefixInformation(found.prefix_length, found.on_link, found.autonomous, *lifetimes, prefix)
    if kind == _raw.NDP_OPTION_REDIRECTED_HEADER:
        return RedirectedHeader(carried)
    if kind == _raw.NDP_OPTION_MTU:
        return LinkMtu(found.mtu)
    if kind == _raw.NDP_OPTION_RECURSIVE_DNS_SERVER:
        return RecursiveDnsServer(found.lifetime, addresses_of(carried, IPv6Address))
    if kind == _raw.NDP_OPTION_DNS_SEARCH_LIST:
        return DnsSearchList(found.lifetime, carried)
    return UnknownNdpOption(found.option_type, carried)


def ndp_options_of(frame: bytes, packet: Any) -> List[NdpOption]:
    """The options of the message of neighbor discovery of a packet that was sliced from this frame."""
    if packet.transport != 58:
        return []
    message = icmp_bytes(frame, packet)
    part = etherparse.ep_ndp_options(message, len(message))
    options, found = message[part.offset :][: part.len], []
    left = _raw.EpPart(0, len(options))
    while (option := etherparse.ep_ndp_option_next(options, len(options), byref(left))).kind:
        found.append(_option(options, option))
    return found
