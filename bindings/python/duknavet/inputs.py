"""What the calls take for bytes and for numbers: what they cannot take is refused before it is handed over."""

import ctypes
import operator
from typing import Any, List, Sequence, Union

#: The bytes of a file, or the letters of a word: bytes in some form, or numbers from 0 to 255.
Bytes = Union[bytes, bytearray, memoryview, Sequence[int]]


def as_bytes(value: Any, what: str) -> bytes:
    """The bytes of a value. TypeError for what has none, ValueError for a number that is no byte."""
    if isinstance(value, bytes):
        return value
    if isinstance(value, (bytearray, memoryview)):
        return bytes(value)
    to_bytes = None if isinstance(value, int) else getattr(value, "to_bytes", None)
    if to_bytes is not None:
        return bytes(to_bytes())
    if isinstance(value, str):
        raise TypeError(f"{what} is bytes or a list of numbers, not str: read a text with `duknavet-tool convert`")
    # What has no order, or no parts at all, has no bytes either.
    if isinstance(value, (int, set, frozenset, dict)) or not hasattr(value, "__iter__"):
        raise TypeError(f"{what} is bytes or a list of numbers, not {type(value).__name__}")
    numbers: List[int] = []
    for at, number in enumerate(value):
        try:
            numbers.append(operator.index(number))
        except TypeError:
            raise TypeError(f"{what} has {number!r} at {at}, which is no number") from None
        if not 0 <= numbers[-1] <= 255:
            raise ValueError(f"{what} has {number} at {at}, which is no byte")
    return bytes(numbers)


def as_byte(number: int, what: str) -> int:
    """A number that is handed over as a byte; ctypes would cut a larger one."""
    if not 0 <= number <= 255:
        raise ValueError(f"{what} is a byte")
    return number


def as_size(number: int, what: str) -> int:
    """A number that is handed over as a size; ctypes would cut a larger one."""
    if not 0 <= number < 1 << 8 * ctypes.sizeof(ctypes.c_size_t):
        raise ValueError(f"{what} is out of range")
    return number
