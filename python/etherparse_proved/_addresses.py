"""Addresses that a packet has one after the other."""

from ipaddress import IPv4Address, IPv6Address
from typing import Any, Dict, Tuple, Type, TypeVar

Address = TypeVar("Address", IPv4Address, IPv6Address)
_LEN: Dict[object, int] = {IPv4Address: 4, IPv6Address: 16}


def address_of(padded: Any, kind: Type[Address]) -> Address:
    """The address of this kind that these bytes begin with."""
    return kind(bytes(padded)[: _LEN[kind]])


def addresses_of(data: bytes, kind: Type[Address]) -> Tuple[Address, ...]:
    """The addresses of this kind that these bytes are."""
    size = _LEN[kind]
    return tuple(kind(data[at : at + size]) for at in range(0, len(data), size))
