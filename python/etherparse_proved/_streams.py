"""TCP streams: the bytes of one direction of a connection, put together from its segments."""

import ctypes
from dataclasses import dataclass
from typing import Any, Iterator, Optional, Protocol

from . import _raw
from ._arguments import Buffer, bytes_of, integer, number_up_to
from ._handles import _Handle
from ._libraries import etherparse


class Flags(Protocol):
    """What has the control flags of a segment: the `tcp` of a packet, or a SegmentFlags."""

    @property
    def syn(self) -> bool:
        """Whether the sequence number is that of SYN."""
        ...

    @property
    def ack(self) -> bool:
        """Whether the acknowledgment number counts."""
        ...

    @property
    def fin(self) -> bool:
        """Whether the sender sends no more."""
        ...

    @property
    def rst(self) -> bool:
        """Whether the connection is reset."""
        ...


@dataclass(frozen=True)
class SegmentFlags:
    """Control flags of a TCP segment (RFC 9293, section 3.1)."""

    syn: bool = False
    ack: bool = False
    fin: bool = False
    rst: bool = False


def raw_flags(flags: Flags) -> Any:
    """The flags as the library takes them."""
    try:
        return _raw.EpSegmentFlags(bool(flags.syn), bool(flags.ack), bool(flags.fin), bool(flags.rst))
    except AttributeError:
        raise TypeError(f"flags has to be SegmentFlags or the tcp of a packet, not {type(flags).__name__}") from None


@dataclass(frozen=True)
class Conflicts:
    """Positions at which a segment has another byte than one before it: how many, and the one that was found first. The
    first byte stays."""

    count: int = 0
    first: Optional[int] = None


@dataclass(frozen=True)
class Gap:
    """Positions whose bytes are missing: from `start` on, and before `end`."""

    start: int
    end: int


@dataclass(frozen=True)
class AddedSegment:
    """What became of a segment: the position of its first byte, those before the ones that are held left out; and the
    positions of its bytes that differ from those that are held."""

    position: int
    conflicts: Conflicts


@dataclass(frozen=True)
class StreamProgress:
    """How far a stream came.

    `available` is how many bytes can be read, `consumed` how many were. `gap` are the first positions whose bytes are missing,
    if bytes after them are held. `is_finished` says that all bytes before FIN came, `joined_late` that the first segment had
    no SYN: bytes before it may be missing.
    """

    available: int
    consumed: int
    gap: Optional[Gap]
    conflicts: Conflicts
    is_finished: bool
    is_reset: bool
    joined_late: bool


_REASONS = {
    _raw.SEGMENT_OUTSIDE_WINDOW: "outside_window",
    _raw.SEGMENT_AFTER_FIN: "after_fin",
    _raw.SEGMENT_AFTER_RESET: "after_reset",
}


class SegmentRefused(ValueError):
    """A segment that a stream doesn't take. Nothing changed.

    `kind` is numbered as in etherparse.h, `reason` is the name that it has there after EP_SEGMENT_. `at` is the position
    after the window, or that of the FIN that stands before the other; 0 after the connection was reset.
    """

    def __init__(self, kind: int, at: int = 0) -> None:
        super().__init__(kind, at)
        self.kind = kind
        self.reason = _REASONS[kind]
        self.at = at

    def __str__(self) -> str:
        if self.kind == _raw.SEGMENT_OUTSIDE_WINDOW:
            return f"a segment that ends after the window, which ends at byte {self.at}"
        if self.kind == _raw.SEGMENT_AFTER_FIN:
            return f"FIN at byte {self.at}, and a byte or FIN after it"
        return "a segment after the connection was reset"

    def __eq__(self, other: object) -> bool:
        if not isinstance(other, SegmentRefused):
            return NotImplemented
        return self.args == other.args

    def __hash__(self) -> int:
        return hash(self.args)


def _conflicts(raw: Any) -> Conflicts:
    return Conflicts(raw.count, raw.first) if raw.count else Conflicts()


_GREATEST_WINDOW = (1 << 8 * ctypes.sizeof(ctypes.c_size_t)) - 1

# How many bytes a chunk has at most.
_CHUNK = 1 << 16


class Stream(_Handle):
    """The bytes that one end of a TCP connection sent, put together as its segments come. Any thread may use it, one after
    another; two at once raise InUse.

    It holds no more bytes than its window has. The first byte that came for a position stays. Positions count from 0, the
    number after that of SYN or, where SYN wasn't seen, that of the first segment.

        with Stream(65536) as stream:
            for packet in packets:
                stream.add(packet.tcp.sequence_number, packet.tcp, packet.payload)
                for chunk in stream:
                    output.write(chunk)
    """

    __slots__ = ()

    def __init__(self, window: int) -> None:
        size = number_up_to("window", window, _GREATEST_WINDOW)
        self._begin("stream", _raw.EpStream(), lambda raw: int(etherparse.ep_stream_new(raw, size)), etherparse.ep_stream_free)

    def _opened(self) -> Any:
        if not self._raw.is_open:
            raise ValueError("the stream is closed")
        return self._raw

    def add(self, sequence_number: int, flags: Flags, payload: Buffer) -> AddedSegment:
        """Takes a segment, in any order: the bytes of its payload for which none is held yet, and its flags. Raises
        SegmentRefused and MemoryError, and leaves all as it was then."""
        taken = bytes_of("payload", payload)
        number, raw = number_up_to("sequence_number", sequence_number, 0xFFFF_FFFF), raw_flags(flags)
        with self._alone:
            added = etherparse.ep_stream_add(self._opened(), number, raw, taken, len(taken))
        if added.status == _raw.DONE:
            return AddedSegment(added.position, _conflicts(added.conflicts))
        if added.status == _raw.REFUSED:
            raise SegmentRefused(added.refusal, added.refused_at)
        raise MemoryError

    def read(self, size: int = -1) -> bytes:
        """The next bytes, which are taken away: as many as are available, and not more than `size` where it isn't negative.
        None where the next byte is missing; more may come."""
        size = integer("size", size)
        with self._alone:
            stream = self._opened()
            available = etherparse.ep_stream_progress_of(stream).available
            room = available if size < 0 else min(size, available)
            output = (ctypes.c_uint8 * room)()
            return ctypes.string_at(output, etherparse.ep_stream_read(stream, output, room))

    def __iter__(self) -> Iterator[bytes]:
        """Over the bytes that are available, in chunks of at most 64 KiB, each of which is taken away. It ends where the next byte
        is missing; after the segment that brings it there are more."""
        while chunk := self.read(_CHUNK):
            yield chunk

    def progress(self) -> StreamProgress:
        """How far it came."""
        with self._alone:
            raw = etherparse.ep_stream_progress_of(self._opened())
        gap = Gap(raw.gap.start, raw.gap.end) if raw.gap.end else None
        return StreamProgress(
            raw.available, raw.consumed, gap, _conflicts(raw.conflicts), raw.is_finished, raw.is_reset, raw.joined_late
        )

    @property
    def gap(self) -> Optional[Gap]:
        """The first positions whose bytes are missing, if bytes after them are held."""
        return self.progress().gap

    @property
    def conflicts(self) -> Conflicts:
        """The conflicts of all segments."""
        return self.progress().conflicts

    @property
    def is_finished(self) -> bool:
        """Whether all bytes before FIN came."""
        return self.progress().is_finished
