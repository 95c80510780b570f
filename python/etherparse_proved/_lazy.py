"""Frozen dataclasses over the bytes of a C struct, each field of which is read when it is first used."""

import ctypes
import struct
from functools import lru_cache
from ipaddress import IPv4Address, IPv6Address
from typing import Any, Callable, ClassVar, Dict, Tuple, Type, TypeVar

from . import _raw

# Reads a field of the frame, the bytes of the struct, and its offset in them.
Reader = Callable[[bytes, bytes, int], Any]
_Own = TypeVar("_Own", bound="Lazy")
_Class = TypeVar("_Class", bound="Type[Lazy]")
_part_of = struct.Struct("NN").unpack_from


def part(frame: bytes, raw: bytes, at: int) -> bytes:
    """The bytes of an `EpPart`."""
    start, length = _part_of(raw, at)
    return frame[start : start + length]


def _keeping_text(kind: Any) -> Callable[[bytes], Any]:
    """Makes an address of this kind that keeps its text: few addresses have most packets, and making both takes long beside what
    else is read of one. Copied or pickled it is a plain one."""

    class Address(kind):  # type: ignore[misc]
        __slots__ = ("_text",)
        _text: str

        def __init__(self, data: bytes) -> None:
            super().__init__(data)
            self._text = super().__str__()

        def __str__(self) -> str:
            return self._text

        def __repr__(self) -> str:
            return f"{kind.__name__}({self._text!r})"

        def __reduce__(self) -> Tuple[Any, Tuple[str]]:
            return kind, (self._text,)

    return lru_cache(4096)(Address)


_ADDRESSES: Dict[object, Callable[[bytes], Any]] = {kind: _keeping_text(kind) for kind in (IPv4Address, IPv6Address)}


def _reader(kind: Any, annotation: object) -> Reader:
    """Reads a field of this C type as the value of this Python type."""
    if kind is _raw.EpPart:
        return part
    size = ctypes.sizeof(kind)
    if annotation in _ADDRESSES:
        address = _ADDRESSES[annotation]
        return lambda frame, raw, at: address(raw[at : at + size])
    if annotation is bytes:
        return lambda frame, raw, at: raw[at : at + size]
    if kind is ctypes.c_uint8:
        return lambda frame, raw, at: raw[at]
    if kind is ctypes.c_bool:
        return lambda frame, raw, at: raw[at] != 0
    number = struct.Struct(kind._type_).unpack_from
    return lambda frame, raw, at: number(raw, at)[0]


class _Field:
    """Reads a field when it is first used, and keeps the value in the dataclass, where it is found from then on."""

    __slots__ = ("_name", "_at", "_read")

    def __init__(self, name: str, at: int, read: Reader) -> None:
        self._name, self._at, self._read = name, at, read

    def __get__(self, value: Any, kind: Any = None) -> Any:
        if value is None:
            return self
        values = value.__dict__
        frame, raw, start = values["_bytes"]
        found = values[self._name] = self._read(frame, raw, start + self._at)
        return found


_new = object.__new__


class Lazy:
    """A dataclass with fields of this kind."""

    _parts: ClassVar[Dict[str, int]] = {}

    @classmethod
    def _of(cls: Type[_Own], frame: bytes, raw: bytes, at: int) -> _Own:
        """One of the struct at this offset in these bytes, of this frame."""
        value = _new(cls)
        value.__dict__["_bytes"] = frame, raw, at
        return value

    def offset(self, name: str) -> int:
        """Where the part of this name begins in the frame. ValueError where it is no part, or nothing was sliced."""
        at = self._parts.get(name)
        if at is None or "_bytes" not in self.__dict__:
            raise ValueError(f"{name} is no part of a frame that was sliced")
        _, raw, start = self.__dict__["_bytes"]
        return int(_part_of(raw, start + at)[0])


def reads(readers: Dict[str, Tuple[int, Reader]]) -> Callable[[_Class], _Class]:
    """The fields of these names are read by these, each at its offset."""

    def completed(cls: _Class) -> _Class:
        for name, (at, read) in readers.items():
            setattr(cls, name, _Field(name, at, read))
        return cls

    return completed


def reads_struct(struct_of: Any) -> Callable[[_Class], _Class]:
    """The fields are those of this struct."""

    def completed(cls: _Class) -> _Class:
        kinds = cls.__annotations__
        offsets = {name: getattr(struct_of, name).offset for name in kinds}
        cls._parts = {name: offsets[name] for name, kind in struct_of._fields_ if kind is _raw.EpPart}
        return reads({name: (offsets[name], _reader(kind, kinds[name])) for name, kind in struct_of._fields_})(cls)

    return completed
