"""TCP connections: their keys, states and counts."""

import enum
from collections import OrderedDict
from dataclasses import dataclass, replace
from ipaddress import IPv4Address, IPv6Address
from typing import Any, Callable, Generic, Optional, Tuple, TypeVar, Union

from . import _raw
from ._arguments import Buffer, bytes_of, integer, number_up_to
from ._handles import _Alone
from ._libraries import etherparse
from ._streams import Flags, raw_flags

_Value = TypeVar("_Value")


class Direction(enum.Enum):
    """A direction in which segments of a connection go: from its lower endpoint, or from the higher one."""

    FROM_LOWER = _raw.FROM_LOWER
    FROM_HIGHER = _raw.FROM_HIGHER

    @property
    def other(self) -> "Direction":
        """The other direction."""
        return Direction.FROM_HIGHER if self is Direction.FROM_LOWER else Direction.FROM_LOWER


@dataclass(frozen=True)
class Endpoint:
    """One end of a TCP connection: its IP address and its port."""

    address: Union[IPv4Address, IPv6Address]
    port: int


@dataclass(frozen=True)
class FlowKey:
    """What the segments of a TCP connection have in common, whichever way they go: both endpoints, the VLAN identifiers, the
    outer one first, and a channel of the caller's.

    The lower endpoint is that of the lower IP version, then of the lower address, then of the lower port.
    """

    lower: Endpoint
    higher: Endpoint
    vlan_ids: Tuple[int, ...] = ()
    channel: int = 0

    def endpoints(self, direction: Direction) -> Tuple[Endpoint, Endpoint]:
        """The source and the destination of segments in a direction."""
        return (self.lower, self.higher) if direction is Direction.FROM_LOWER else (self.higher, self.lower)

    @classmethod
    def between(
        cls, source: Endpoint, destination: Endpoint, vlan_ids: Tuple[int, ...] = (), channel: int = 0
    ) -> Tuple["FlowKey", Direction]:
        """The key and the direction of a segment from one endpoint to another: of a datagram that a Pool put together. Where
        both endpoints are the same, the direction is FROM_LOWER."""
        if _order(source) > _order(destination):
            return cls(destination, source, vlan_ids, channel), Direction.FROM_HIGHER
        return cls(source, destination, vlan_ids, channel), Direction.FROM_LOWER


def _order(end: Endpoint) -> Tuple[int, bytes, int]:
    return end.address.version, end.address.packed, end.port


def _endpoint(raw: Any) -> Endpoint:
    address = bytes(raw.address)
    return Endpoint(IPv4Address(address[:4]) if raw.version == 4 else IPv6Address(address), raw.port)


def _key_by(call: Callable[..., Any], name: str, data: Buffer, channel: int) -> Optional[Tuple[FlowKey, Direction]]:
    taken = bytes_of(name, data)
    raw = call(taken, len(taken), number_up_to("channel", channel, 0xFFFF_FFFF))
    if raw.status != _raw.DONE:
        return None
    key = raw.key
    vlan_ids = tuple(key.vlan_ids[: key.vlan_count])
    return FlowKey(_endpoint(key.lower), _endpoint(key.higher), vlan_ids, key.channel), Direction(raw.direction)


def flow_key_ethernet(frame: Buffer, channel: int = 0) -> Optional[Tuple[FlowKey, Direction]]:
    """The key of the TCP connection to which an Ethernet II frame belongs, and the frame's direction. None where the frame is
    refused, where it has no TCP segment whose header is whole, and where it is a fragment."""
    return _key_by(etherparse.ep_flow_key_ethernet, "frame", frame, channel)


def flow_key_linux_sll(packet: Buffer, channel: int = 0) -> Optional[Tuple[FlowKey, Direction]]:
    """The same of a packet of a Linux cooked capture."""
    return _key_by(etherparse.ep_flow_key_linux_sll, "packet", packet, channel)


def flow_key_ip(packet: Buffer, channel: int = 0) -> Optional[Tuple[FlowKey, Direction]]:
    """The same of an IP packet of either version."""
    return _key_by(etherparse.ep_flow_key_ip, "packet", packet, channel)


class State(enum.Enum):
    """How far a connection came: no segment; SYN; SYN of both endpoints; established; FIN of one endpoint; FIN of both; RST."""

    UNSEEN = _raw.STATE_UNSEEN
    SYN_SENT = _raw.STATE_SYN_SENT
    SYN_RECEIVED = _raw.STATE_SYN_RECEIVED
    ESTABLISHED = _raw.STATE_ESTABLISHED
    CLOSING = _raw.STATE_CLOSING
    CLOSED = _raw.STATE_CLOSED
    RESET = _raw.STATE_RESET


@dataclass(frozen=True)
class ConnectionState:
    """How far a TCP connection came, by the control flags of its segments (RFC 9293, figure 5). The direction is that of the
    endpoint that opens it, in SYN_SENT and SYN_RECEIVED, or of the FIN, in CLOSING."""

    state: State = State.UNSEEN
    direction: Optional[Direction] = None

    def after(self, direction: Direction, flags: Flags) -> "ConnectionState":
        """The state after one more segment, which goes in this direction."""
        own = _raw.EpConnectionState(self.state.value, self.direction.value if self.direction else 0)
        raw = etherparse.ep_connection_state_after(own, direction.value, raw_flags(flags))
        return ConnectionState(State(raw.state), Direction(raw.direction) if raw.direction else None)


@dataclass(frozen=True)
class Traffic:
    """How many packets go in a direction, and how many bytes they have."""

    packets: int = 0
    bytes: int = 0


@dataclass(frozen=True)
class Flow(Generic[_Value]):
    """What is counted of a connection: the packets of each direction, the times of the earliest and the latest one, how far it
    came; and a value of the caller's."""

    from_lower: Traffic
    from_higher: Traffic
    first: int
    last: int
    state: ConnectionState
    value: _Value


class Flows(Generic[_Value]):
    """Connections by their keys, up to a number of them, with what is counted of each and a value of the caller's. Any thread
    may use it, one after another; two at once raise InUse.

    Where one more begins than there may be, the one is dropped whose last packet came before those of all others. So whoever
    opens many connections drops others: those that are silent first.

        flows = Flows(100_000, lambda: (Stream(65536), Stream(65536)))
        keyed = flow_key_ethernet(frame)
        if keyed:
            flows.add(*keyed, packet.tcp, time, len(frame))
    """

    __slots__ = ("_alone", "_flows", "_most", "_value")

    def __init__(self, most: int, value: Callable[[], _Value]) -> None:
        """At most so many connections, from 1 on, and what makes the value of each."""
        self._most = integer("most", most)
        if self._most < 1:
            raise ValueError(f"most is {self._most}, and has to be 1 or more")
        self._value = value
        self._flows: "OrderedDict[FlowKey, Flow[_Value]]" = OrderedDict()
        self._alone = _Alone("table")

    def add(
        self, key: FlowKey, direction: Direction, flags: Flags, time: int, bytes: int = 0
    ) -> Optional[Tuple[FlowKey, Flow[_Value]]]:
        """Counts a packet of the connection with this key, which came at this time, any int, and has so many bytes. Gives the
        key and the flow that are dropped for a new one, if any."""
        time, size = integer("time", time), integer("bytes", bytes)
        if size < 0:
            raise ValueError(f"bytes is {size}, and has to be 0 or more")
        with self._alone:
            flow = self._flows.get(key)
            state = (flow.state if flow else ConnectionState()).after(direction, flags)
            is_from_lower = direction is Direction.FROM_LOWER
            if flow:
                lower, higher = _more(flow.from_lower, is_from_lower, size), _more(flow.from_higher, not is_from_lower, size)
                counted = Flow(lower, higher, min(flow.first, time), max(flow.last, time), state, flow.value)
            else:
                lower, higher = _more(Traffic(), is_from_lower, size), _more(Traffic(), not is_from_lower, size)
                counted = Flow(lower, higher, time, time, state, self._value())
            dropped = self._flows.popitem(last=False) if not flow and len(self._flows) >= self._most else None
            self._flows[key] = counted
            self._flows.move_to_end(key)
            return dropped

    def get(self, key: FlowKey) -> Optional[Flow[_Value]]:
        """The flow of a key."""
        return self._flows.get(key)

    def replace_value(self, key: FlowKey, value: _Value) -> None:
        """Puts this value into the flow of a key; the order of flows stays. Raises KeyError where there is none."""
        with self._alone:
            self._flows[key] = replace(self._flows[key], value=value)

    def remove(self, key: FlowKey) -> Optional[Flow[_Value]]:
        """Takes out the flow of a key."""
        with self._alone:
            return self._flows.pop(key, None)

    def pop_oldest(self) -> Optional[Tuple[FlowKey, Flow[_Value]]]:
        """Takes out the flow whose last packet came before those of all others, if there is one. So a caller bounds the memory
        of all values: while it is too much, this is called."""
        with self._alone:
            return self._flows.popitem(last=False) if self._flows else None

    def retain(self, keep: Callable[[FlowKey, Flow[_Value]], bool]) -> None:
        """Keeps the flows for which the test returns true, and drops the others. The test is called once for each, first for that
        whose last packet came before those of all others. The order of flows stays. Where the test raises, none is dropped."""
        with self._alone:
            self._flows = OrderedDict((key, flow) for key, flow in self._flows.items() if keep(key, flow))

    def items(self) -> Tuple[Tuple[FlowKey, Flow[_Value]], ...]:
        """Keys and flows, that whose last packet came first at first."""
        with self._alone:
            return tuple(self._flows.items())

    def __contains__(self, key: object) -> bool:
        return key in self._flows

    def __len__(self) -> int:
        return len(self._flows)

    def __bool__(self) -> bool:
        """A table is true, also one that has no connection."""
        return True


def _more(traffic: Traffic, counts: bool, size: int) -> Traffic:
    return Traffic(traffic.packets + 1, traffic.bytes + size) if counts else traffic
