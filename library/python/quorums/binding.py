"""The call of the shared library, by ctypes."""

from __future__ import annotations

import ctypes
import functools
import mmap
import os
from typing import Any, Callable, Iterable, Union

# The library beside this file, or the one that the environment names.
PATH = os.environ.get("QUORUM_LIBRARY") or os.path.join(os.path.dirname(os.path.abspath(__file__)), "libquorum.so")
# Bytes of the first room. Only what is written of it takes memory.
ROOM = 1 << 26
NO_ROOM = 7
# What is wanting if no room helps.
NEVER: int = ctypes.c_size_t(-1).value
FILES = ("config", "orgs", "script", "cert")

Data = Union[bytes, bytearray, memoryview]
Call = Callable[..., None]


class End(ctypes.Structure):
    """How a question ended."""

    _fields_ = [
        ("status", ctypes.c_uint8),
        ("text", ctypes.c_size_t),
        ("cert", ctypes.c_size_t),
        ("wanting", ctypes.c_size_t),
    ]


@functools.lru_cache(maxsize=None)
def load(path: str | None = None) -> Call:
    """The call in a shared library."""
    call: Any = ctypes.CDLL(path or PATH).quorum_answer
    call.restype = None
    call.argtypes = [*[ctypes.c_char_p, ctypes.c_size_t] * 5, ctypes.c_void_p, ctypes.c_size_t, ctypes.POINTER(End)]
    return call  # type: ignore[no-any-return]


def as_bytes(name: str, value: object) -> bytes:
    """The bytes of an argument; a TypeError with its name for another type."""
    if not isinstance(value, (bytes, bytearray, memoryview)):
        raise TypeError(f"{name} must be bytes, not {type(value).__name__}")
    return bytes(value)


def as_count(name: str, value: object) -> int:
    """A number that is not negative; a TypeError with the argument's name for another type."""
    if isinstance(value, bool) or not isinstance(value, int):
        raise TypeError(f"{name} must be an int, not {type(value).__name__}")
    if value < 0:
        raise ValueError(f"{name} must not be negative")
    return value


def line_of(words: Iterable[str | bytes]) -> bytes:
    """The words of a command line, a zero byte between two."""
    if isinstance(words, (str, bytes)):
        raise TypeError(f"words must be several words, not {type(words).__name__}")
    found = []
    for word in words:
        if not isinstance(word, (str, bytes)):
            raise TypeError(f"words must be str or bytes, not {type(word).__name__}")
        found.append(word if isinstance(word, bytes) else word.encode())
    if any(b"\0" in word for word in found):
        raise ValueError("words must not have a zero byte")
    return b"\0".join(found)


def ask(call: Call, words: bytes, files: dict[str, bytes], room: int) -> tuple[End, bytes, bytes]:
    """The end, the text and the certificate of one call with this many bytes of room."""
    given: list[bytes | int] = []
    for data in (words, *(files.get(name, b"") for name in FILES)):
        given += [data, len(data)]
    held, end = mmap.mmap(-1, max(room, 1)), End()
    place = (ctypes.c_char * max(room, 1)).from_buffer(held)
    try:
        call(*given, ctypes.addressof(place), room, end)
        return end, held[room - end.text : room], held[: end.cert]
    finally:
        del place
        held.close()


def answer(
    words: Iterable[str | bytes],
    config: Data = b"",
    orgs: Data = b"",
    script: Data = b"",
    cert: Data = b"",
    room: int = ROOM,
    call: Call | None = None,
) -> tuple[int, bytes, bytes]:
    """The status, the text and the certificate, as bytes, of the words of a command line over files in memory.

    The words name the files config, orgs, script and cert, and what a search makes made: answer(["show", "config"],
    data). If the room is too small, it is asked once more with the room that is wanting. Raises MemoryError if there
    is no memory for the run or for the room.
    """
    line, room = line_of(words), as_count("room", room)
    files = {name: as_bytes(name, data) for name, data in zip(FILES, (config, orgs, script, cert))}
    call = call or load()
    while True:
        try:
            end, text, made = ask(call, line, files, room)
        except OSError as error:
            raise MemoryError(f"no memory for a room of {room} bytes") from error
        if end.status != NO_ROOM or end.wanting == NEVER:
            return end.status, text, made
        room = end.wanting
