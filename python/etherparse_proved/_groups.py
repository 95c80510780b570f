"""Messages of multicast groups: IGMP over IPv4, multicast listener discovery over IPv6."""

from ctypes import byref
from dataclasses import dataclass
from ipaddress import IPv4Address, IPv6Address
from typing import Any, Generic, List, Optional, Tuple, Type, Union

from . import _raw
from ._addresses import Address, address_of, addresses_of
from ._fields import icmp_bytes
from ._libraries import etherparse


@dataclass(frozen=True)
class GroupRecord(Generic[Address]):
    """The record of a group in a report (RFC 3376, section 4.2.4; RFC 3810, section 5.2.5).

    `kind` is its type, 1 to 6 (RFC 3376, section 4.2.12). Neither standard defines any `auxiliary_data`.
    """

    kind: int
    group: Address
    sources: Tuple[Address, ...]
    auxiliary_data: bytes


@dataclass(frozen=True)
class UnreadableRecord:
    """Bytes that are too few for the record of a group, after which nothing is read.

    `offset` counts from the first record on. `needed` is how many bytes the record needs: at first those before its sources,
    then all. `there` is how many are left.
    """

    offset: int
    needed: int
    there: int


@dataclass(frozen=True)
class IgmpQuery:
    """A message of IGMP, version 1 or 2 (RFC 2236, section 2). A group of all zeros is every group.

    `max_response_time` is how long a host may wait with its report, in tenths of a second; 0 is version 1.
    """

    max_response_time: int
    group: IPv4Address


@dataclass(frozen=True)
class IgmpQueryV3:
    """A message of IGMP, version 3 (RFC 3376, section 4.1). A group of all zeros is every group, no source every source.

    `max_response_code` is how long a host may wait with its report, as a code (section 4.1.1).
    """

    max_response_code: int
    group: IPv4Address
    sources: Tuple[IPv4Address, ...]


@dataclass(frozen=True)
class IgmpReportV1:
    """A message of IGMP, version 1: a group is joined."""

    group: IPv4Address


@dataclass(frozen=True)
class IgmpReportV2:
    """A message of IGMP, version 2 (RFC 2236, section 2): a group is joined."""

    group: IPv4Address


@dataclass(frozen=True)
class IgmpLeave:
    """A message of IGMP, version 2 (RFC 2236, section 2): a group is left."""

    group: IPv4Address


@dataclass(frozen=True)
class IgmpReportV3:
    """A message of IGMP, version 3 (RFC 3376, section 4.2).

    `count` is how many records it names, `records` are those that are there; a last one may be an UnreadableRecord.
    """

    count: int
    records: Tuple[Union[GroupRecord[IPv4Address], UnreadableRecord], ...]


@dataclass(frozen=True)
class MldQuery:
    """A message of multicast listener discovery, version 1 (RFC 2710, section 3). A group of all zeros is every group.

    `max_response_delay` is how long a listener may wait with its report, in milliseconds.
    """

    max_response_delay: int
    group: IPv6Address


@dataclass(frozen=True)
class MldQueryV2:
    """A message of multicast listener discovery, version 2 (RFC 3810, section 5.1).

    A group of all zeros is every group, no source every source. `max_response_code` is how long a listener may wait with its
    report, as a code (section 5.1.3).
    """

    max_response_code: int
    group: IPv6Address
    sources: Tuple[IPv6Address, ...]


@dataclass(frozen=True)
class MldReport:
    """A message of multicast listener discovery, version 1 (RFC 2710, section 3): a group is listened to."""

    group: IPv6Address


@dataclass(frozen=True)
class MldDone:
    """A message of multicast listener discovery, version 1 (RFC 2710, section 3): a group is no more listened to."""

    group: IPv6Address


@dataclass(frozen=True)
class MldReportV2:
    """A message of multicast listener discovery, version 2 (RFC 3810, section 5.2).

    `count` is how many records it names, `records` are those that are there; a last one may be an UnreadableRecord.
    """

    count: int
    records: Tuple[Union[GroupRecord[IPv6Address], UnreadableRecord], ...]


@dataclass(frozen=True)
class ShortGroupMessage:
    """A message of a multicast group that has fewer bytes than its type needs."""

    needed: int
    there: int


IgmpMessage = Union[IgmpQuery, IgmpQueryV3, IgmpReportV1, IgmpReportV2, IgmpLeave, IgmpReportV3, ShortGroupMessage]
MldMessage = Union[MldQuery, MldQueryV2, MldReport, MldDone, MldReportV2, ShortGroupMessage]


def _part(data: bytes, part: Any) -> bytes:
    return data[part.offset :][: part.len]


def _record(records: bytes, found: Any, kind: Type[Address]) -> Union[GroupRecord[Address], UnreadableRecord]:
    if found.kind == 2:
        return UnreadableRecord(found.bytes.offset, found.needed, found.there)
    sources = addresses_of(_part(records, found.sources), kind)
    return GroupRecord(found.record_type, address_of(found.group, kind), sources, _part(records, found.auxiliary_data))


def _records(message: bytes, left: Any, kind: Type[Address]) -> Tuple[Union[GroupRecord[Address], UnreadableRecord], ...]:
    records = _part(message, left.left)
    found: List[Union[GroupRecord[Address], UnreadableRecord]] = []
    left = _raw.EpGroupRecords(_raw.EpPart(0, len(records)), left.count, left.is_ipv6)
    while (record := etherparse.ep_group_record_next(records, len(records), byref(left))).kind:
        found.append(_record(records, record, kind))
    return tuple(found)


def _igmp(message: bytes, found: Any) -> Optional[IgmpMessage]:
    kind, group = found.kind, address_of(found.group, IPv4Address)
    if kind == _raw.GROUP_QUERY:
        return IgmpQuery(found.max_response, group)
    if kind == _raw.GROUP_QUERY_WITH_SOURCES:
        return IgmpQueryV3(found.max_response, group, addresses_of(_part(message, found.sources), IPv4Address))
    if kind == _raw.GROUP_REPORT:
        return IgmpReportV1(group)
    if kind == _raw.GROUP_REPORT_V2:
        return IgmpReportV2(group)
    if kind == _raw.GROUP_LEAVE:
        return IgmpLeave(group)
    if kind == _raw.GROUP_RECORDS:
        return IgmpReportV3(found.records.count, _records(message, found.records, IPv4Address))
    return ShortGroupMessage(found.needed, found.there) if kind == _raw.GROUP_TOO_SHORT else None


def _mld(message: bytes, found: Any) -> Optional[MldMessage]:
    kind, group = found.kind, address_of(found.group, IPv6Address)
    if kind == _raw.GROUP_QUERY:
        return MldQuery(found.max_response, group)
    if kind == _raw.GROUP_QUERY_WITH_SOURCES:
        return MldQueryV2(found.max_response, group, addresses_of(_part(message, found.sources), IPv6Address))
    if kind == _raw.GROUP_REPORT:
        return MldReport(group)
    if kind == _raw.GROUP_LEAVE:
        return MldDone(group)
    if kind == _raw.GROUP_RECORDS:
        return MldReportV2(found.records.count, _records(message, found.records, IPv6Address))
    return ShortGroupMessage(found.needed, found.there) if kind == _raw.GROUP_TOO_SHORT else None


def igmp_message_of(frame: bytes, packet: Any) -> Optional[IgmpMessage]:
    """The message of IGMP of a packet that was sliced from this frame, if it has one."""
    if packet.net != 4 or packet.ipv4.payload_number != 2 or packet.ipv4.is_part:
        return None
    message = _part(frame, packet.ipv4.payload)
    return _igmp(message, etherparse.ep_igmp_message(message, len(message)))


def mld_message_of(frame: bytes, packet: Any) -> Optional[MldMessage]:
    """Its message of multicast listener discovery, if it has one."""
    if packet.transport != 58:
        return None
    message = icmp_bytes(frame, packet)
    return _mld(message, etherparse.ep_mld_message(message, len(message)))
