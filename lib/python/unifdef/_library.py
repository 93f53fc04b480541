"""The functions of libunifdef, as unifdef.h declares them."""

from __future__ import annotations

import ctypes
import os
from typing import Any

TROUBLE = 2
TOO_SMALL = 3
BAD_WORDS = -1
NO_MEMORY = -2
TOO_LONG = -3
CLOSED = -4


class Sizes(ctypes.Structure):
    """struct unifdef_sizes."""

    _fields_ = [("output", ctypes.c_size_t), ("message", ctypes.c_size_t)]


class StreamState(ctypes.Structure):
    """struct unifdef_stream."""

    _fields_ = [("state", ctypes.c_void_p)]


def _loaded() -> ctypes.CDLL:
    """Returns the library, if it has the functions, with their types."""
    file = os.environ.get("UNIFDEF_LIBRARY") or "libunifdef.so.1"
    try:
        return _typed(ctypes.CDLL(file))
    except (OSError, AttributeError) as error:
        reason = f"{error}: unifdef calls this library; UNIFDEF_LIBRARY names it"
        raise ImportError(reason) from error


def _typed(library: ctypes.CDLL) -> ctypes.CDLL:
    """Returns a library with the types of its functions."""
    read = [ctypes.c_char_p, ctypes.c_size_t]
    written = [ctypes.c_void_p, ctypes.c_size_t]
    stream = ctypes.POINTER(StreamState)
    size = ctypes.POINTER(ctypes.c_size_t)
    functions: tuple[tuple[str, Any, list[Any]], ...] = (
        ("text", ctypes.c_int, [*read, *read, *written, *written, ctypes.POINTER(Sizes)]),
        ("open", ctypes.c_int, [stream, *read]),
        ("feed", ctypes.c_int, [stream, *read]),
        ("take", ctypes.c_size_t, [stream, *written, size]),
        ("finish", ctypes.c_int, [stream, *written, size]),
        ("close", None, [stream]),
        ("prune", ctypes.c_int, [*read, *read, *written, size]),
        ("condition", ctypes.c_int, [*read, *read]),
        ("names", ctypes.c_int, [*read, *written, size]),
        ("version", ctypes.c_int, []),
    )
    for name, result, arguments in functions:
        function = library[f"unifdef_{name}"]
        function.restype, function.argtypes = result, arguments
        setattr(library, f"unifdef_{name}", function)
    return library


library = _loaded()
