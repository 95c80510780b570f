"""Pools of messages that are incomplete, and sessions of lines, which C keeps."""

import ctypes
import ipaddress
import threading
from dataclasses import dataclass
from typing import Any, Callable, List, NoReturn, Optional, Tuple, Type, TypeVar

from . import _raw
from ._arguments import Buffer, bytes_of, integer, number_up_to
from ._libraries import etherparse, netlines
from ._packets import refused
from ._plans import Address

_Own = TypeVar("_Own", bound="_Handle")


class InUse(RuntimeError):
    """A call to a pool, session, stream, table of flows, capture or writer while another one hasn't returned, of another
    thread. It did nothing."""


class _Alone:
    """Lets one call in at a time, and refuses others."""

    __slots__ = ("_lock", "_name")

    def __init__(self, name: str) -> None:
        self._lock = threading.Lock()
        self._name = name

    def __enter__(self) -> None:
        if not self._lock.acquire(blocking=False):
            raise InUse(f"the {self._name} is in use: another call to it hasn't returned")

    def __exit__(self, *_: object) -> None:
        self._lock.release()


class _Handle:
    """What C keeps, from its opening until it is closed."""

    __slots__ = ("_alone", "_free", "_raw", "__weakref__")

    def _begin(self, name: str, raw: Any, opened: Callable[[Any], int], free: Callable[[Any], None]) -> None:
        """Opens it. What frees it is set last, so that nothing is freed that isn't open."""
        self._alone = _Alone(name)
        self._raw = raw
        if opened(raw):
            raise MemoryError
        self._free = free

    def close(self) -> None:
        """Frees what it holds. Closing it again does nothing."""
        with self._alone:
            self._free(self._raw)

    def __enter__(self: _Own) -> _Own:
        return self

    def __exit__(self, *_: object) -> None:
        self.close()

    def __del__(self) -> None:
        # Without names of this module, which are gone when the interpreter ends; unset where it wasn't opened.
        free = getattr(self, "_free", None)
        if free is not None:
            free(self._raw)

    def __reduce__(self) -> NoReturn:
        raise TypeError(f"a {type(self).__name__} can't be copied or pickled: it is what C keeps")


@dataclass(frozen=True)
class Message:
    """A message that is complete: its addresses, the number of its protocol, and its bytes."""

    source: Address
    destination: Address
    number: int
    data: bytes


class PartRefused(ValueError):
    """A part of a message that isn't taken. Its `kind` and fields are as in etherparse.h."""

    def __init__(self, kind: int, offset: int, len: int, previous_end: int, end: int) -> None:
        super().__init__(kind, offset, len, previous_end, end)
        self.kind = kind
        self.offset = offset
        self.len = len
        self.previous_end = previous_end
        self.end = end

    def __str__(self) -> str:
        if self.kind == 3:
            return f"a part that ends at {self.end}, of a message that ends at {self.previous_end}"
        reason = {1: "and no multiple of 8", 2: "which ends beyond byte 65535"}.get(self.kind, "which overlaps another")
        return f"a part of {self.len} bytes at offset {self.offset}, {reason}"


_MESSAGE_LEN = 65535
_GREATEST_TIME = (1 << 64) - 1


class Pool(_Handle):
    """The messages that are incomplete. Any thread may use it, one after another; two at once raise InUse.

    One that never completes is held until `forget_before` drops it. So a caller whose input isn't trusted calls that
    regularly: a receiver gives a message up by a timer (RFC 791, section 3.2), over IPv6 60 seconds after its first
    part came (RFC 8200, section 4.5).

        with Pool() as pool:
            for frame in frames:
                message = pool.add(frame, time)

    A time is any int, in a unit of the caller's. One that is more than 2**63 away from the first that the pool was given
    counts as if it were that far. `len` is how many messages are incomplete.
    """

    __slots__ = ("_first", "_room")

    def __init__(self) -> None:
        self._first: Optional[int] = None
        self._room = (ctypes.c_uint8 * _MESSAGE_LEN)()
        self._begin("pool", _raw.EpPool(), etherparse.ep_pool_new, etherparse.ep_pool_free)

    def _opened(self) -> Any:
        if not self._raw.is_open:
            raise ValueError("the pool is closed")
        return self._raw

    def _time(self, time: int) -> int:
        """A time as the library's 64 bits say it, where the first one is in their middle: only the order counts."""
        if self._first is None:
            self._first = time
        return min(max(time - self._first + (1 << 63), 0), _GREATEST_TIME)

    def add(self, frame: Buffer, time: int, channel: int = 0) -> Optional[Message]:
        """Takes an Ethernet II frame, which came at this time on this channel, and gives the message that is complete
        with it. Messages of other channels are other messages. Raises Refused, PartRefused and MemoryError, and leaves
        all messages as they were then; but a part that overlaps another over IPv6, of kind 4, ends its own (RFC 5722)."""
        return self._add(etherparse.ep_pool_add, "frame", frame, time, channel)

    def add_linux_sll(self, packet: Buffer, time: int, channel: int = 0) -> Optional[Message]:
        """The same of a packet of a Linux cooked capture. What a pool takes may come from captures of different kinds."""
        return self._add(etherparse.ep_pool_add_linux_sll, "packet", packet, time, channel)

    def add_ip(self, packet: Buffer, time: int, channel: int = 0) -> Optional[Message]:
        """The same of an IP packet of either version."""
        return self._add(etherparse.ep_pool_add_ip, "packet", packet, time, channel)

    def _add(self, call: Callable[..., Any], name: str, data: Buffer, time: int, channel: int) -> Optional[Message]:
        taken = bytes_of(name, data)
        time, channel = integer("time", time), number_up_to("channel", channel, 0xFFFF_FFFF)
        with self._alone:
            pool, room = self._opened(), self._room
            added = call(pool, taken, len(taken), self._time(time), channel, room, _MESSAGE_LEN)
            status = added.status
            if status == _raw.DONE:
                return None
            if status == _raw.COMPLETED:
                return _message(added.message, room)
        if status == _raw.NO_MEMORY:
            raise MemoryError
        if added.refusal.kind:
            raise refused(added.refusal)
        part = added.part
        raise PartRefused(part.kind, part.offset, part.len, part.previous_end, part.end)

    def forget_before(self, time: int) -> None:
        """Drops the messages whose last part came before this time."""
        time = integer("time", time)
        with self._alone:
            pool = self._opened()
            if self._first is not None:
                etherparse.ep_pool_forget_before(pool, self._time(time))

    def __len__(self) -> int:
        """How many messages are incomplete."""
        with self._alone:
            return int(etherparse.ep_pool_open(self._raw))

    def __bool__(self) -> bool:
        """A pool is true, also one that has no message."""
        return True


def _message(message: Any, room: Any) -> Message:
    version = message.ip_version
    source, destination = (ipaddress.ip_address(bytes(getattr(message, f"ipv{version}_{end}"))) for end in _ENDS)
    return Message(source, destination, message.number, ctypes.string_at(room, message.len))


_ENDS = ("source", "destination")


def _with_output(call: Callable[..., int], room: int) -> bytes:
    """Calls again with the room that is needed, where there was too little."""
    while True:
        output, written = (ctypes.c_uint8 * room)(), ctypes.c_size_t(0)
        status = call(output, room, ctypes.byref(written))
        if status == _raw.NETLINES_ANSWERED:
            return ctypes.string_at(output, written.value)
        if status == _raw.NETLINES_WRONG_STATE:
            raise ValueError("the session is closed, or has ended")
        if status != _raw.NETLINES_NO_ROOM:
            raise MemoryError
        room = written.value


def answers(text: Buffer) -> bytes:
    """The answers to all lines of a text, each ended by a line feed; raises MemoryError."""
    taken = bytes_of("text", text)
    return _with_output(lambda *room: netlines.netlines_answers(taken, len(taken), *room), len(taken) + 64)


class Session(_Handle):
    """Lines that come in chunks of any length, and the answers to them as they come. Any thread may use it, one after
    another; two at once raise InUse.

    Fed in any chunks, the answers are `answers` of the whole. After a MemoryError it is closed.

        with Session() as session:
            for chunk in chunks:
                output.write(session.feed(chunk))
            output.write(session.finish())
    """

    __slots__ = ()

    def __init__(self) -> None:
        self._begin("session", _raw.NetlinesSession(), netlines.netlines_open, netlines.netlines_close)

    def feed(self, piece: Buffer) -> bytes:
        """Takes a chunk, and gives the answers to all lines that ended since the last call."""
        left = [bytes_of("piece", piece)]

        def call(*room: Any) -> int:
            taken = left.pop() if left else b""
            return int(netlines.netlines_feed(self._raw, taken, len(taken), *room))

        with self._alone:
            return _with_output(call, 256)

    def finish(self) -> bytes:
        """The answers that are left, with that to a last line that no line feed ended."""
        with self._alone:
            return _with_output(lambda *room: int(netlines.netlines_finish(self._raw, *room)), 256)
