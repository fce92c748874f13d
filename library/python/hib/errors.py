"""The errors of a call. Each has the status of the program and the line that it says."""

from __future__ import annotations

import re

from ._library import Answer


class HibError(Exception):
    """A call that wasn't done."""

    def __init__(self, status: int, said: str) -> None:
        super().__init__(said or f"hib: status {status}")
        #: The status, as in docs/CALLING.md.
        self.status = status
        #: What the program says on standard error, without the line end.
        self.said = said


class Usage(HibError):
    """The words have no form, or ask for what a library doesn't do."""


class Refused(HibError):
    """The input is no script."""

    def __init__(self, status: int, said: str, line: int, word: str) -> None:
        super().__init__(status, said)
        #: The number of the first bad line, from 1.
        self.line = line
        #: The word of the rule that it breaks; docs/SCRIPT.md explains each.
        self.word = word


class TooLong(HibError):
    """The input is longer than a script may be, or a script with a journal behind it."""


class OutOfMemory(HibError, MemoryError):
    """Memory ran out. Nothing is left of the call."""


class NotThere(HibError):
    """What was asked for isn't there: a finding, or a schedule that repeats a journal."""


_REFUSED = re.compile(r"hib: line (\d+): ([a-z-]+)$")
_OTHERS = {1: NotThere, 2: Usage, 6: TooLong, 8: OutOfMemory}


def error_of(answer: Answer) -> HibError:
    """The error of an answer that says that a call wasn't done."""
    said = answer.line.decode().rstrip("\n")
    refused = _REFUSED.match(said)
    if refused:
        return Refused(answer.status, said, int(refused[1]), refused[2])
    return _OTHERS.get(answer.status, HibError)(answer.status, said)


def text_of(answer: Answer) -> str:
    """What was written, or an error."""
    if answer.status != 0:
        raise error_of(answer)
    return answer.text.decode()
