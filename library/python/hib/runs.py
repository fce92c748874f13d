"""Runs of scripts, and what is told of their journals."""

from __future__ import annotations

import json
import re
from dataclasses import dataclass, field
from functools import cached_property
from typing import Any, Iterable, Mapping, NamedTuple, Union

from ._library import Text, as_bytes, call, tool
from .errors import error_of, text_of

Entry = Mapping[str, Any]
#: A journal: its JSON lines as a text, or its entries as objects.
Journal = Union[Text, Iterable[Entry]]

_SECTION = re.compile(rb"^[ \t]*(collections|bulk|nodes)[ \t]*$", re.MULTILINE)
_COMMANDS = {b"collections": "collect", b"bulk": "bulk", b"nodes": "nodes"}
_VERDICT = re.compile(r"hib: illegal (\d+) (\w+)$")


def _objects(lines: str) -> list[dict[str, Any]]:
    return [json.loads(line) for line in lines.splitlines()]


def _with_journal(script: Text, journal: Journal) -> bytes:
    """The input that has a journal behind a script."""
    if isinstance(journal, (str, bytes)):
        lines = as_bytes(journal)
    else:
        # The members of an entry stand in the order of the alphabet, with no blanks between them.
        texts = (json.dumps(entry, sort_keys=True, separators=(",", ":"), ensure_ascii=False) for entry in journal)
        lines = "".join(f"{text}\n" for text in texts).encode()
    read = as_bytes(script)
    return read + (b"" if read.endswith(b"\n") else b"\n") + b"journal\n" + lines


@dataclass(frozen=True)
class Run:
    """A run of a script by its schedule."""

    #: The script.
    script: str
    #: What was written of the run: a line for each entry, then outcomes and counts (docs/JOURNAL.md).
    report: str = field(repr=False)
    #: Whether the script has a section of collections, bulk changes or nodes. Its journal is in the report alone.
    has_section: bool = False

    @property
    def entries(self) -> list[str]:
        """The lines of the report that are entries."""
        lines = self.report.splitlines()
        return lines[1 : 1 + int(lines[0].split()[1])]

    @property
    def outcomes(self) -> dict[str, str]:
        """How each session ended."""
        lines = self.report.splitlines()[1 + len(self.entries) :]
        count = int(lines[0].split()[1])
        return dict(line.split(" ", 1) for line in lines[1 : 1 + count])

    @cached_property
    def journal(self) -> list[dict[str, Any]]:
        """The journal: an object for each entry, with ``tick``, ``session``, ``part``, ``act`` and ``reply``.

        The script is played once more for it, which comes to the same run. A script with a section has none here.
        """
        return _objects(text_of(call("play", "--journal", input=self.script)))

    @cached_property
    def rows(self) -> list[dict[str, Any]]:
        """The journal with a member for each thing, as data frames read it (docs/DATA.md)."""
        return flat(self.script, self.journal)

    @cached_property
    def states(self) -> list[dict[str, Any]]:
        """What each entry has changed, and why each refusal came (docs/DATA.md)."""
        return states(self.script, self.journal)


class Verdict(NamedTuple):
    """What an audit says of a journal."""

    #: Whether each entry is one that the rules allow where it stands.
    legal: bool
    #: How many entries there are, if it is legal; else the first that isn't, from 1.
    entry: int
    #: The rule that this entry breaks: ``tick``, ``session``, ``part``, ``act`` or ``reply``; empty if it is legal.
    rule: str

    def __bool__(self) -> bool:
        return self.legal


def play(script: Text) -> Run:
    """Runs a script by its schedule; a script with a section by the command of its section.

    Raises ``Refused`` if the text is no script.
    """
    text = as_bytes(script)
    section = _SECTION.search(text)
    word = _COMMANDS[section[1]] if section else "play"
    report = text_of(call(word, input=text))
    return Run(text.decode(), report, has_section=section is not None)


def make(seed: int) -> str:
    """The script that is made from a number, 0 to 4294967295."""
    return text_of(call("make", "--seed", str(seed), "--text"))


def audit(script: Text, journal: Journal) -> Verdict:
    """Whether a journal is legal for a script."""
    answer = call("audit", input=_with_journal(script, journal))
    bad = _VERDICT.match(answer.line.decode().strip())
    if bad:
        return Verdict(False, int(bad[1]), bad[2])
    return Verdict(True, int(text_of(answer).split()[1]), "")


def report(script: Text, journal: Journal) -> str:
    """The report of a journal, which isn't judged."""
    return text_of(tool("report", input=_with_journal(script, journal)))


def flat(script: Text, journal: Journal) -> list[dict[str, Any]]:
    """A journal with a member for each thing."""
    return _objects(text_of(tool("flat", input=_with_journal(script, journal))))


def states(script: Text, journal: Journal) -> list[dict[str, Any]]:
    """What each entry of a legal journal has changed."""
    answer = tool("states", input=_with_journal(script, journal))
    if answer.status == 1:
        raise error_of(answer)
    return _objects(text_of(answer))


def spans(script: Text, journal: Journal, *, jaeger: bool = False) -> Any:
    """A journal as a trace, for Perfetto or for Jaeger."""
    words = ("spans", "--jaeger") if jaeger else ("spans",)
    return json.loads(text_of(tool(*words, input=_with_journal(script, journal))))


def schedule(script: Text, journal: Journal) -> str:
    """The script whose schedule repeats a journal. Raises ``NotThere`` if none does."""
    return text_of(tool("schedule", input=_with_journal(script, journal)))
