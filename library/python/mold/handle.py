"""What all objects share that hold memory of the library."""
from __future__ import annotations

from ctypes import byref
from types import TracebackType
from typing import Any, NoReturn, Optional, Type, TypeVar

from .native import library, mold_handle

_Self = TypeVar("_Self", bound="Handle")


class Handle:
    """Owns memory of the library. It is a context manager: at the end of a `with` block the memory is freed.

    `close` frees it earlier, and so does the garbage collector. A second `close` does nothing, and any other call on a
    closed object raises ValueError. An object cannot be copied. Only one thread at a time may use it.
    """

    _free = library.mold_free
    # A reference to the handle, or None if the object is closed.
    _pointer: Any = None

    def __init__(self) -> None:
        self._pointer = byref(mold_handle())

    def _open(self) -> Any:
        """The reference to the handle. Raises ValueError if the object is closed."""
        if self._pointer is None:
            raise ValueError(f"this {type(self).__name__} is closed")
        return self._pointer

    def close(self) -> None:
        """Frees what the library holds for this object."""
        pointer, self._pointer = self._pointer, None
        if pointer is not None:
            self._free(pointer)

    def __enter__(self: _Self) -> _Self:
        self._open()
        return self

    def __exit__(self, kind: Optional[Type[BaseException]], error: Optional[BaseException],
                 trace: Optional[TracebackType]) -> None:
        self.close()

    def __del__(self) -> None:
        self.close()

    def __reduce__(self) -> NoReturn:
        raise TypeError(f"a {type(self).__name__} cannot be copied")
