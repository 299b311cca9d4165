"""The calls of the library for C."""
import ctypes
import os
import pathlib
import threading
from collections.abc import Sequence
from typing import Any, Optional

from .errors import error_of

DONE = 0
ROOM_SHORT = 20
FORMATS = {"csv": 0, "json": 1}

# The room of a first call is about the length of what is handed in, within these.
LEAST_ROOM = 256
MOST_ROOM = 1 << 24

BYTES = [ctypes.c_char_p, ctypes.c_size_t]
ROOM = [ctypes.c_void_p, ctypes.c_size_t, ctypes.POINTER(ctypes.c_size_t)]
CALLS: "dict[str, list[Any]]" = {
    "lavzimo_group": [*BYTES, *BYTES, ctypes.c_uint8, *ROOM],
    "lavzimo_save": [*BYTES, ctypes.c_uint32, *BYTES, *ROOM],
    "lavzimo_roll": [*BYTES, *BYTES, ctypes.POINTER(ctypes.c_size_t), ctypes.c_size_t, *BYTES, *ROOM],
}

_loading = threading.Lock()
_library: Optional[ctypes.CDLL] = None


def library_path() -> str:
    """Where the library is: LAVZIMO_LIB of the environment says so, or it lies in this package, or among the system's."""
    beside = pathlib.Path(__file__).with_name("liblavzimo.so")
    return os.environ.get("LAVZIMO_LIB") or (str(beside) if beside.exists() else "liblavzimo.so.0")


def library() -> ctypes.CDLL:
    """The library, loaded at the first call."""
    global _library
    with _loading:
        if _library is None:
            loaded = ctypes.CDLL(library_path())
            for name, kinds in CALLS.items():
                call = getattr(loaded, name)
                call.restype = ctypes.c_uint8
                call.argtypes = kinds
            _library = loaded
        return _library


def given(name: str, about: int, *words: Any) -> bytes:
    """The text that a call gives into a room of about so many bytes. Where it is too small, the call is made again."""
    call = getattr(library(), name)
    need = ctypes.c_size_t(0)
    size = min(max(about, LEAST_ROOM), MOST_ROOM)
    while True:
        room = ctypes.create_string_buffer(size)
        status = call(*words, room, size, ctypes.byref(need))
        if status != ROOM_SHORT:
            break
        size = need.value
    told = ctypes.string_at(room, need.value)
    if status != DONE:
        raise error_of(status, told)
    return told


def call_group(query: bytes, text: bytes, form: str) -> bytes:
    """The text of the answer of a query over a text."""
    return given("lavzimo_group", len(text), query, len(query), text, len(text), FORMATS[form])


def call_save(query: bytes, first: int, text: bytes) -> bytes:
    """The state of a text by a query; its first chunk has a position."""
    if not 0 <= first < 1 << 32:
        raise ValueError("first is no number of 32 bits")
    return given("lavzimo_save", len(text), query, len(query), first, text, len(text))


def call_roll(query: bytes, keys: bytes, states: Sequence[bytes]) -> bytes:
    """The text of what states of a query come to by some of its keys."""
    lengths = (ctypes.c_size_t * len(states))(*map(len, states))
    text = b"".join(states)
    return given("lavzimo_roll", len(text), query, len(query), keys, len(keys), lengths, len(states), text, len(text))
