"""Arguments as the libraries take them, or an error that names them."""

from operator import index
from typing import TYPE_CHECKING, Union

if TYPE_CHECKING:
    from _typeshed import ReadableBuffer

    Buffer = ReadableBuffer
else:
    Buffer = Union[bytes, bytearray, memoryview]


def bytes_of(name: str, data: Buffer) -> bytes:
    """The bytes of any buffer, which are copied where its owner could change them."""
    if type(data) is bytes:
        return data
    try:
        view = memoryview(data)
    except TypeError:
        raise TypeError(f"{name} has to be bytes or another buffer, not {type(data).__name__}") from None
    return view.tobytes()


def bytes_of_length(name: str, data: Buffer, length: int) -> bytes:
    """The bytes of a buffer of this length."""
    taken = bytes_of(name, data)
    if len(taken) != length:
        raise ValueError(f"{name} has {len(taken)} bytes, and has to have {length}")
    return taken


def integer(name: str, number: int) -> int:
    """A number of any size."""
    try:
        return index(number)
    except TypeError:
        raise TypeError(f"{name} has to be an int, not {type(number).__name__}") from None


def number_up_to(name: str, number: int, greatest: int) -> int:
    """A number from 0 to the greatest: of one that doesn't fit ctypes takes the lowest bits."""
    if type(number) is int and 0 <= number <= greatest:
        return number
    taken = integer(name, number)
    if not 0 <= taken <= greatest:
        raise ValueError(f"{name} is {taken}, and has to be from 0 to {greatest}")
    return taken
