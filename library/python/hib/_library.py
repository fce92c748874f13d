"""The shared object: how it is found and called."""

from __future__ import annotations

import ctypes
import os
from pathlib import Path
from typing import NamedTuple, Sequence, Union

Text = Union[str, bytes]

#: The status of a text that doesn't fit into its room.
NO_ROOM = 5
#: More than the longest line that a call says.
LINE_ROOM = 256
#: The smallest room of a first try, and how many bytes of it there are for each byte of the input.
FIRST_ROOM = 1 << 16
TEXT_PER_INPUT = 8


class Answer(NamedTuple):
    """What came of a call: its status, as in docs/CALLING.md, what was written, and the line that was said."""

    status: int
    text: bytes
    line: bytes


def _path() -> str:
    """The file of the shared object: what HIB_LIBRARY names, else that of the package, else that of the repository."""
    named = os.environ.get("HIB_LIBRARY")
    if named:
        return named
    here = Path(__file__).resolve().parent
    for file in (here / "out" / "libhib.so", here.parents[1] / "out" / "libhib.so"):
        if file.exists():
            return str(file)
    raise ImportError("there is no libhib.so: ./hib library makes it, or HIB_LIBRARY names one")


def _load() -> ctypes.CDLL:
    library = ctypes.CDLL(_path())
    size, room = ctypes.c_size_t, ctypes.c_void_p
    for function in (library.hib_call, library.hib_tool):
        function.restype = ctypes.c_uint8
        function.argtypes = [
            *(ctypes.c_char_p, size) * 2,
            *(room, size, ctypes.POINTER(size)) * 2,
        ]
    return library


_library = _load()


def as_bytes(text: Text) -> bytes:
    """A text as UTF-8; bytes stay as they are."""
    return text.encode() if isinstance(text, str) else bytes(text)


def _once(function: ctypes._CFuncPtr, words: bytes, given: bytes, room: int) -> tuple[Answer, int]:
    """A call with this much room for its text, and how much room the whole text needs."""
    text, line = ctypes.create_string_buffer(room), ctypes.create_string_buffer(LINE_ROOM)
    length, line_length = ctypes.c_size_t(), ctypes.c_size_t()
    status = function(
        words, len(words), given, len(given),
        text, room, ctypes.byref(length), line, LINE_ROOM, ctypes.byref(line_length),
    )  # fmt: skip
    taken = ctypes.string_at(text, min(room, length.value))
    said = ctypes.string_at(line, min(LINE_ROOM, line_length.value))
    return Answer(status, taken, said), length.value


def _ask(function: ctypes._CFuncPtr, words: Sequence[str], given: Text, room: int | None) -> Answer:
    if any("\n" in word for word in words):
        raise ValueError("a word has no line end")
    asked, read = "\n".join(words).encode(), as_bytes(given)
    first = max(FIRST_ROOM, TEXT_PER_INPUT * len(read)) if room is None else room
    answer, needed = _once(function, asked, read, first)
    if answer.status == NO_ROOM and room is None:
        answer, _ = _once(function, asked, read, needed)
    return answer


def call(*words: str, input: Text = b"", room: int | None = None) -> Answer:
    """What ``hib WORD ..`` does with this standard input.

    A text that doesn't fit into the room of a first try is made once more with as much room as it needs; with ``room``
    it isn't, and the status is then 5. Other threads of Python go on meanwhile.
    """
    return _ask(_library.hib_call, words, input, room)


def tool(*words: str, input: Text = b"", room: int | None = None) -> Answer:
    """What ``hib tools WORD ..`` does with this standard input, in the same way."""
    return _ask(_library.hib_tool, words, input, room)
