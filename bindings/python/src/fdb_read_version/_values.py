"""What Python gives, as the library takes it. What ctypes would cut off or guess is refused."""
from __future__ import annotations

from enum import IntEnum
from mmap import mmap
from operator import index
from typing import Any, List, Optional, Sequence, Type, TypeVar, Union

Text = Union[bytes, bytearray, memoryview, mmap, str]
_T = TypeVar("_T")
_N = TypeVar("_N", bound="Named")


class Named(IntEnum):
    """Numbers of `include/fdb_read_version.h`, which are printed as their names."""

    def __str__(self) -> str:
        return self.name

    def __format__(self, spec: str) -> str:
        return format(self.name, spec)


def number(name: str, value: int, bits: int = 64) -> int:
    """A whole number from 0 on, of so many bits."""
    if type(value) is not int:
        if isinstance(value, bool) or not hasattr(value, "__index__"):
            raise TypeError(f"{name} is no whole number: {value!r}")
        value = index(value)
    if not 0 <= value < 1 << bits:
        raise ValueError(f"{name} is out of range: {value}")
    return value


def flag(name: str, value: bool) -> bool:
    """True or False."""
    return instance(name, value, bool)


def instance(name: str, value: Any, kind: Type[_T]) -> _T:
    """A value of this class."""
    if not isinstance(value, kind):
        raise TypeError(f"{name} is no {kind.__name__}: {value!r}")
    return value


def named(name: str, value: int, kind: Type[_N]) -> _N:
    """A number that has a name."""
    if isinstance(value, Named):
        return instance(name, value, kind)
    return kind(number(name, value))


def octets(name: str, value: Text) -> bytes:
    """Bytes, of what is like them or of a text, which is UTF-8."""
    if isinstance(value, str):
        return value.encode()
    if isinstance(value, bytes):
        return value
    try:
        return bytes(memoryview(value))
    except TypeError:
        kind = type(value).__name__
        raise TypeError(f"{name} is neither like bytes nor a text: it is a {kind}") from None


def members(key: Optional[Text], show: Sequence[str]) -> List[Any]:
    """The member that has the keys and those that are shown, each text with its length."""
    if isinstance(show, str):
        raise TypeError(f"show is a text, and no sequence of names: {show!r}")
    names = [instance("a shown member", it, str) for it in show]
    if not all(names) or "," in "".join(names):
        raise ValueError(f"a shown member is empty or has a comma: {names}")
    texts = octets("key", "" if key is None else key), ",".join(names).encode()
    return [it for text in texts for it in (text, len(text))]
