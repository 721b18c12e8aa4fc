"""The declarations of `mold.h` for `ctypes`, and the shared library that has its functions.

Only the other files of this package use this one. Structs and functions have the names of `mold.h`. The library is
loaded with `ctypes.PyDLL`: a call holds the interpreter's lock, so nothing in Python changes its arguments meanwhile.
"""
from __future__ import annotations

import ctypes
import ctypes.util
import operator
import os
import subprocess
from ctypes import c_bool, c_char_p, c_size_t, c_ubyte, c_uint16, c_uint32, c_uint64, c_void_p
from typing import Iterator, Union

# What a caller may pass as bytes.
Buffer = Union[bytes, bytearray, memoryview]

# The version of mold.h that has these declarations, as `mold_library_version` returns it. The patch number, its last
# three digits, may differ.
LIBRARY_VERSION = 3000
PATCHES = 1000
VARIABLE = "MOLD_LIBRARY"
FILE_NAME = "libmold.so"

SESSION_LENGTH = 10
REQUEST_LENGTH = 20
# A length is below 2^63.
LENGTH_BITS = 63


class mold_bytes(ctypes.Structure):
    _fields_ = [("at", c_void_p), ("length", c_size_t)]


class mold_packet(ctypes.Structure):
    _fields_ = [("sequence", c_uint64), ("detail", c_uint64), ("kind", c_uint32), ("count", c_uint16),
                ("session", c_ubyte * SESSION_LENGTH)]


class mold_request(ctypes.Structure):
    _fields_ = [("sequence", c_uint64), ("count", c_uint16), ("session", c_ubyte * SESSION_LENGTH)]


class mold_packer(ctypes.Structure):
    _fields_ = [("buffer", c_void_p), ("limit", c_size_t), ("used", c_size_t), ("count", c_uint16), ("open", c_bool)]


class mold_handle(ctypes.Structure):
    """A mold_listener, mold_repairer, mold_publisher, mold_server or mold_checker. A new one is MOLD_EMPTY."""

    _fields_ = [("at", c_void_p), ("live", c_bool)]


class mold_range(ctypes.Structure):
    _fields_ = [("first", c_uint64), ("last", c_uint64)]


class mold_taken(ctypes.Structure):
    _fields_ = [("detail", c_uint64), ("delivered", c_uint32), ("kept", c_uint32), ("dropped", c_uint32),
                ("unused", c_uint32)]


class mold_report(ctypes.Structure):
    _fields_ = [("datagrams", c_uint64), ("refused", c_uint64), ("front", c_uint64)]


class mold_repair_options(ctypes.Structure):
    _fields_ = [("size", c_uint64), ("next", c_uint64), ("patience", c_uint64), ("timeout", c_uint64),
                ("ceiling", c_uint64), ("settle", c_uint64), ("interval", c_uint64), ("window", c_uint32),
                ("bucket", c_uint32), ("places", c_uint32), ("servers", c_uint32), ("give_up", c_uint32),
                ("audit", c_uint32), ("store", c_uint64)]


class mold_line_stats(ctypes.Structure):
    _fields_ = [(name, c_uint64) for name in ("datagrams", "first", "again", "refused", "late")]


class mold_repair_stats(ctypes.Structure):
    _fields_ = [*((name, c_uint64) for name in (
        "next", "known", "gap_first", "gap_last", "missing", "stored", "patience", "requests", "answers", "useless",
        "lost", "contradictions", "contradiction")), ("a", mold_line_stats), ("b", mold_line_stats)]


class mold_plan(ctypes.Structure):
    _fields_ = [("from", c_uint64), ("to", c_uint64), ("left", c_uint16), ("session", c_ubyte * SESSION_LENGTH)]


class mold_verdict(ctypes.Structure):
    _fields_ = [("messages", c_uint64), ("end", c_uint64), ("ranges", c_uint64), ("whole", c_uint32),
                ("unused", c_uint32)]


# The types of parameters. A pointer to an output or to a handle is a `c_void_p`, and so is a buffer to write to.
_CODE, _TO = c_uint32, c_void_p
_BYTES = (c_char_p, c_size_t)
_ROOM = (c_void_p, c_size_t)
_HANDLE = c_void_p
_SESSION = c_char_p

# The result and the parameters of each function that this package calls.
SIGNATURES = {
    "mold_library_version": (c_uint32, ()),
    "mold_terminated_text": (None, (c_uint32, _TO)),
    "mold_decode": (_CODE, (*_BYTES, _TO)),
    "mold_request_decode": (_CODE, (*_BYTES, _TO)),
    "mold_request_encode": (None, (c_void_p, _TO)),
    "mold_packer_start": (_CODE, (_HANDLE, _SESSION, c_uint64)),
    "mold_packer_add": (_CODE, (_HANDLE, *_BYTES)),
    "mold_packer_end": (_CODE, (_HANDLE, _SESSION, c_uint64)),
    "mold_free": (None, (_HANDLE,)),
    "mold_listener_bounded": (_CODE, (_HANDLE, _SESSION, c_uint64, c_uint32, c_uint64)),
    "mold_listener_take": (_CODE, (_HANDLE, c_uint32, *_BYTES, _TO)),
    "mold_listener_count": (c_size_t, (_HANDLE,)),
    "mold_listener_first": (c_uint64, (_HANDLE,)),
    "mold_listener_messages": (c_size_t, (_HANDLE, *_ROOM)),
    "mold_listener_wanted": (c_bool, (_HANDLE, _TO)),
    "mold_listener_ranges": (c_size_t, (_HANDLE, c_uint64, *_ROOM)),
    "mold_listener_skip": (_CODE, (_HANDLE, c_uint64)),
    "mold_listener_next": (c_uint64, (_HANDLE,)),
    "mold_listener_known": (c_uint64, (_HANDLE,)),
    "mold_listener_finished": (c_bool, (_HANDLE,)),
    "mold_listener_report": (_CODE, (_HANDLE, c_uint32, _TO)),
    "mold_listener_clear": (_CODE, (_HANDLE,)),
    "mold_repair_options_default": (None, (_TO,)),
    "mold_repairer_new": (_CODE, (_HANDLE, _SESSION, c_void_p)),
    "mold_repairer_take": (_CODE, (_HANDLE, c_uint64, c_uint32, *_BYTES, _TO)),
    "mold_repairer_poll": (_CODE, (_HANDLE, c_uint64, _TO, _TO)),
    "mold_repairer_deadline": (_CODE, (_HANDLE, c_uint64, _TO)),
    "mold_repairer_lost": (_CODE, (_HANDLE, c_uint64, _TO)),
    "mold_repairer_stats": (_CODE, (_HANDLE, _TO)),
    "mold_publisher_new": (_CODE, (_HANDLE, _SESSION, c_size_t)),
    "mold_publisher_publish": (_CODE, (_HANDLE, *_BYTES, _TO)),
    "mold_publisher_is_full": (c_bool, (_HANDLE,)),
    "mold_publisher_datagram": (_CODE, (_HANDLE, *_ROOM, _TO)),
    "mold_publisher_heartbeat": (_CODE, (_HANDLE, *_ROOM, _TO)),
    "mold_publisher_close": (_CODE, (_HANDLE, _TO)),
    "mold_publisher_end": (_CODE, (_HANDLE, *_ROOM, _TO)),
    "mold_publisher_save": (_CODE, (_HANDLE, *_ROOM, _TO)),
    "mold_journal_head": (_CODE, (_HANDLE, *_ROOM, _TO)),
    "mold_journal_records": (_CODE, (_HANDLE, c_uint64, *_ROOM, _TO)),
    "mold_publisher_resume": (_CODE, (_HANDLE, c_size_t, *_BYTES, _TO)),
    "mold_server_from_publisher": (_CODE, (_HANDLE, c_uint16)),
    "mold_server_new": (_CODE, (_HANDLE, c_size_t, c_uint16, *_BYTES, _TO)),
    "mold_server_answer": (_CODE, (_HANDLE, *_BYTES, *_ROOM, _TO)),
    "mold_server_plan": (_CODE, (_HANDLE, *_BYTES, _TO, _TO)),
    "mold_server_datagram": (_CODE, (_HANDLE, _TO, *_ROOM, _TO)),
    "mold_checker_new": (_CODE, (_HANDLE,)),
    "mold_checker_take": (_CODE, (_HANDLE, *_BYTES, _TO)),
    "mold_checker_verdict": (_CODE, (_HANDLE, _TO)),
    "mold_checker_ranges": (_CODE, (_HANDLE, *_ROOM, _TO)),
}


def _prebuilt(script: str) -> Iterator[str]:
    """The prebuilt library of the repository with this script, if it was built from the present sources."""
    if os.path.isfile(script):
        done = subprocess.run(["sh", script, FILE_NAME], stdin=subprocess.DEVNULL, stdout=subprocess.PIPE, text=True)
        if done.returncode == 0:
            yield done.stdout.rstrip("\n")


def _candidates() -> Iterator[str]:
    """The files that may be the library, in the order in which they are tried."""
    package = os.path.dirname(os.path.abspath(__file__))
    beside = os.path.dirname(package)
    above = os.path.dirname(beside)
    for folder in (package, beside, os.path.join(above, "out"), os.path.join(above, "lib")):
        path = os.path.join(folder, FILE_NAME)
        if os.path.isfile(path):
            yield path
    yield from _prebuilt(os.path.join(os.path.dirname(above), "prebuilt", "find"))
    found = ctypes.util.find_library("mold")
    if found:
        yield found


def _path() -> str:
    """The library's file: that of the environment variable, or the first candidate."""
    path = os.environ.get(VARIABLE) or next(_candidates(), None)
    if path is None:
        raise ImportError(f"{FILE_NAME} was not found; `sh library/build` makes it, and the environment variable "
                          f"{VARIABLE} may have its path")
    return path


def _load(path: str) -> ctypes.PyDLL:
    """Loads the library and declares its functions. Raises ImportError if the file is not a library of this version."""
    try:
        loaded = ctypes.PyDLL(path)
        for name, (result, parameters) in SIGNATURES.items():
            function = getattr(loaded, name)
            function.restype, function.argtypes = result, parameters
    except (OSError, AttributeError) as why:
        raise ImportError(f"{path} cannot be used as {FILE_NAME}: {why}") from why
    version = loaded.mold_library_version()
    if version // PATCHES != LIBRARY_VERSION // PATCHES:
        raise ImportError(f"{path} has version {version}, and this module needs {LIBRARY_VERSION}")
    return loaded


library = _load(_path())


def as_bytes(value: Buffer) -> bytes:
    """The value itself if it is `bytes`, and otherwise a copy of its bytes. Raises TypeError for other types."""
    return value if type(value) is bytes else bytes(memoryview(value))


def unsigned(value: int, bits: int, name: str) -> int:
    """Returns the value. Raises ValueError if it is not an unsigned number of `bits` bits.

    `ctypes` checks no range: it discards the higher bits.
    """
    number = operator.index(value)
    if not 0 <= number < 1 << bits:
        raise ValueError(f"{name} is a number of 0 to {(1 << bits) - 1}, not {number}")
    return number


def session_of(name: Union[str, Buffer]) -> bytes:
    """Returns the ten bytes of a session: an ASCII name, or bytes, padded with spaces.

    Raises ValueError if the name has more than ten bytes, or characters that are not ASCII.
    """
    session = name.encode("ascii") if isinstance(name, str) else as_bytes(name)
    if len(session) > SESSION_LENGTH:
        raise ValueError(f"a session has at most {SESSION_LENGTH} bytes: {name!r}")
    return session.ljust(SESSION_LENGTH)
