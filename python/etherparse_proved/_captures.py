"""Packets of capture files, pcap and pcapng, and captures written."""

import ctypes
import enum
import os
from dataclasses import dataclass
from typing import Any, BinaryIO, Iterator, Optional, Union

from . import _raw
from ._arguments import Buffer, bytes_of, number_up_to
from ._handles import _Alone, _Handle
from ._libraries import etherparse

Source = Union[str, "os.PathLike[str]", BinaryIO]

# Space for the longest packet, and the longest block that is read of a pcapng file.
_ROOM = 262_144


class CaptureLink(enum.IntEnum):
    """The kind of link that a packet was captured on, numbered as in etherparse.h."""

    ETHERNET = 1
    IP = 2
    BSD_LOOPBACK = 3
    OPENBSD_LOOPBACK = 4
    LINUX_SLL = 5
    LINUX_SLL2 = 6


@dataclass(frozen=True)
class CapturedPacket:
    """A packet of a capture.

    `number` is its number in the capture, from 1, those included that aren't given. `time` is in nanoseconds since the year
    1970 began, 0 where the capture doesn't say. `interface` is its interface's number, `wire_len` how many bytes it had on
    the wire. `bytes` is its Ethernet II frame: its own where `link` is Ethernet, else a header from the sender's address, to
    no address, and what follows its link's own header.
    """

    number: int
    time: int
    wire_len: int
    link: CaptureLink
    interface: int
    bytes: bytes


_ERRORS = {
    1: "no capture file",
    2: "link type {value} is not read",
    3: "interfaces after the 32nd of a section are read with link type 1 alone, not {value}",
    4: "a packet of {value} bytes is too long",
    5: "a packet has no ether type",
    6: "the capture ends within a packet",
    7: "a block of {value} bytes is too long",
    8: "version {value}.{minor} of pcapng is not read",
    9: "a block is not well made",
}


class CaptureRefused(ValueError):
    """A capture that isn't read on. Its fields are as in etherparse.h: `kind`, `value` and `minor` say why, `packet`, `offset`
    and `block_type` where."""

    def __init__(self, kind: int, value: int, minor: int, packet: int, offset: int, block_type: int) -> None:
        super().__init__(kind, value, minor, packet, offset, block_type)
        self.kind = kind
        self.value = value
        self.minor = minor
        self.packet = packet
        self.offset = offset
        self.block_type = block_type

    def __str__(self) -> str:
        block = f", block type {self.block_type:#x}" if self.block_type else ""
        why = _ERRORS[self.kind].format(value=self.value, minor=self.minor)
        return f"packet {self.packet}, byte {self.offset}{block}: {why}"


def _refused(error: Any) -> CaptureRefused:
    return CaptureRefused(error.kind, error.value, error.minor, error.packet, error.offset, error.block_type)


def _opened(file: Source, mode: str, call: str) -> "tuple[Any, bool]":
    """The file, and whether it was opened here; a file object has this call."""
    if isinstance(file, (str, os.PathLike)):
        return open(file, mode), True
    if not hasattr(file, call):
        raise TypeError(f"file has to be a path or a file object, not {type(file).__name__}")
    return file, False


class Capture(_Handle):
    """An iterator over the packets of a capture file, pcap or pcapng: a path, or a file object that is read from where it
    stands. It holds 262,144 bytes of it. Any thread may use it, one after another; two at once raise InUse.

    A packet that has no Ethernet frame, or is too long, raises CaptureRefused or, with `skip`, is passed over. A capture that
    was refused raises the same again.

        with Capture("x.pcapng") as capture:
            for packet in capture:
                print(packet.number, ep.slice_ethernet(packet.bytes))
    """

    __slots__ = ("_array", "_base", "_end", "_file", "_own", "_room", "_start")

    def __init__(self, file: Source, skip: bool = False) -> None:
        self._room = bytearray(_ROOM)
        self._array = (ctypes.c_uint8 * _ROOM).from_buffer(self._room)
        self._base = ctypes.addressof(self._array)
        self._start = self._end = 0
        self._begin(
            "capture", _raw.EpCapture(), lambda raw: int(etherparse.ep_capture_new(raw, bool(skip))), etherparse.ep_capture_free
        )
        self._file, self._own = _opened(file, "rb", "read")

    def __del__(self) -> None:
        super().__del__()
        if getattr(self, "_own", False):
            self._file.close()

    def close(self) -> None:
        """Frees what it holds, and closes the file where it opened it. Closing it again does nothing."""
        super().close()
        if self._own:
            self._file.close()

    def __iter__(self) -> Iterator[CapturedPacket]:
        return self

    def __next__(self) -> CapturedPacket:
        with self._alone:
            if not self._raw.is_open:
                raise ValueError("the capture is closed")
            while True:
                start = self._start
                found = etherparse.ep_capture_next(self._raw, *self._left())
                if found.status == _raw.REFUSED:
                    raise _refused(found.error)
                self._start += found.done
                if found.status == _raw.DONE:
                    return self._packet(found.packet, start)
                if not self._fill():
                    break
            ended = etherparse.ep_capture_end(self._raw, *self._left())
        if ended.status == _raw.REFUSED:
            raise _refused(ended.error)
        raise StopIteration

    def _left(self) -> Any:
        """The bytes that aren't done with, as C takes them."""
        return ctypes.c_char_p(self._base + self._start), self._end - self._start

    def _packet(self, raw: Any, start: int) -> CapturedPacket:
        offset = start + raw.bytes.offset
        data = bytes(raw.header)[: raw.header_len] + bytes(self._room[offset : offset + raw.bytes.len])
        return CapturedPacket(raw.number, raw.time, raw.wire_len, CaptureLink(raw.link), raw.interface_number, data)

    def _fill(self) -> bool:
        """Reads on, and says whether bytes came."""
        left = self._end - self._start
        self._room[:left] = self._room[self._start : self._end]
        self._start, self._end = 0, left
        chunk = bytes_of("what the file's read returns", self._file.read(_ROOM - left))
        if len(chunk) > _ROOM - left:
            raise ValueError(f"the file's read returned {len(chunk)} bytes, and was asked for {_ROOM - left}")
        self._room[left : left + len(chunk)] = chunk
        self._end += len(chunk)
        return len(chunk) > 0


_GREATEST = 0xFFFF_FFFF
# The longest frame that is read again.
_GREATEST_FRAME = 99_991


class CaptureWriter:
    """Writes a pcap file of Ethernet frames: a path, or a file object, whose `write` returns how many bytes it took. Any thread
    may use it, one after another; two at once raise InUse.

        with CaptureWriter("x.pcap") as writer:
            writer.write(frame, time)
    """

    __slots__ = ("_alone", "_file", "_is_open", "_nanoseconds", "_own")

    def __init__(self, file: Source, nanoseconds: bool = False) -> None:
        self._alone = _Alone("writer")
        self._nanoseconds = bool(nanoseconds)
        self._file, self._own = _opened(file, "wb", "write")
        self._is_open = True
        self._put(bytes(etherparse.ep_capture_file_header(self._nanoseconds).bytes))

    def write(self, frame: Buffer, time: int, wire_len: Optional[int] = None) -> None:
        """Writes a frame, which came at this time, in nanoseconds since the year 1970 began, and had so many bytes on the wire: as
        many as it has where that isn't given, or is less. It has at most 99,991 bytes, as one that is read has."""
        data = bytes_of("frame", frame)
        number_up_to("the length of frame", len(data), _GREATEST_FRAME)
        seconds, left = divmod(number_up_to("time", time, _GREATEST * 1_000_000_000 + 999_999_999), 1_000_000_000)
        fraction = left if self._nanoseconds else left // 1000
        on_wire = max(len(data), 0 if wire_len is None else number_up_to("wire_len", wire_len, _GREATEST))
        head = etherparse.ep_capture_record_head(seconds, fraction, len(data), on_wire)
        with self._alone:
            self._put(bytes(head.bytes) + data)

    def _put(self, data: bytes) -> None:
        """Writes all of it, also where the file takes a few bytes at a time, as one without a buffer."""
        if not self._is_open:
            raise ValueError("the writer is closed")
        left = memoryview(data)
        while left:
            taken = self._file.write(left)
            if not taken:
                raise OSError("the file takes no bytes")
            left = left[taken:]

    def close(self) -> None:
        """Ends it, and closes the file where it opened it. Closing it again does nothing."""
        with self._alone:
            self._is_open = False
            if self._own:
                self._file.close()

    def __enter__(self) -> "CaptureWriter":
        return self

    def __exit__(self, *_: object) -> None:
        self.close()
