"""What has a handle of the library, which one call at a time may use."""
from __future__ import annotations

from ctypes import byref, c_uint64
from threading import RLock
from typing import Any, Callable, ClassVar, Tuple, Type, TypeVar

from ._library import RawHandle
from ._status import Refused, Status

_H = TypeVar("_H", bound="Handle")


def written(handle: Any, function: Callable[..., int], element: Any) -> Any:
    """All that a handle has to write, in an array that is as long."""
    found, size = (element * 0)(), c_uint64()
    while function(handle, found, len(found), byref(size)) == Status.ROOM:
        found = (element * size.value)()
    return found


class Handle:
    """Calls of several threads wait for one another; only a thread alone could meet itself here.

    (That is a signal's handler, in the midst of a call of the thread that it interrupts.)
    """

    _free: ClassVar[Callable[..., None]]
    _lock: Any
    _is_in_use: bool
    _raw: RawHandle

    def __new__(cls: Type[_H], *_given: object, **_named: object) -> _H:
        made = super().__new__(cls)
        made._lock, made._is_in_use, made._raw = RLock(), False, RawHandle()
        return made

    def _turn(
        self, function: Callable[..., Any], given: Tuple[Any, ...], may_be_none: bool = False
    ) -> Any:
        with self._lock:
            if self._is_in_use:
                raise RuntimeError(f"a call within a call of one {type(self).__name__}")
            try:
                self._is_in_use = True
                if not (self._raw.at or may_be_none):
                    raise ValueError(f"the {type(self).__name__} is closed")
                return function(byref(self._raw), *given)
            finally:
                self._is_in_use = False

    def _open(self, function: Callable[..., int], *given: Any) -> None:
        def opened(handle: Any) -> int:
            # (`__init__` may be called again)
            self._free(handle)
            return function(*given, handle)

        status = self._turn(opened, (), may_be_none=True)
        if status:
            raise Refused(status)

    def _call(self, function: Callable[..., Any], *given: Any) -> Any:
        return self._turn(function, given)

    def _asked(self, function: Callable[..., int], *given: Any) -> None:
        status = self._call(function, *given)
        if status:
            raise Refused(status)

    @property
    def closed(self) -> bool:
        """Whether it is closed."""
        return not self._raw.at

    def close(self) -> None:
        """Frees what it has. A second call does nothing."""
        self._turn(self._free, (), may_be_none=True)

    def __enter__(self: _H) -> _H:
        return self

    def __exit__(self, *_: object) -> None:
        self.close()

    def __del__(self) -> None:
        self.close()

    def __reduce_ex__(self, protocol: object) -> Any:
        raise TypeError(f"a {type(self).__name__} cannot be copied or pickled")
