"""Searches of the orders of a script's sessions."""

from __future__ import annotations

import re
from dataclasses import dataclass, field

from ._library import Text, as_bytes, tool
from .errors import error_of, text_of

_FINDING = re.compile(r"^([1-5]) ([a-z-]+) (\d+)(?: switches (\d+))?", re.MULTILINE)
_FOUND = 1


@dataclass(frozen=True)
class Finding:
    """What is found in orders: a stale hit, an old list, a lost update, an unsound key or a refused commit."""

    #: The number by which it is shown, 1 to 5.
    number: int
    #: Its name, as ``stale-hit``.
    name: str
    #: In how many orders it is.
    count: int
    #: The fewest switches of an order that has it; none if no order has it.
    switches: int | None


@dataclass(frozen=True)
class Orders:
    """The orders of a script's sessions that were tried."""

    script: str = field(repr=False)
    #: What was written (docs/ORDERS.md).
    text: str = field(repr=False)
    #: How many orders were tried, and whether they are all that there are with so few switches.
    count: int
    whole: bool
    #: What was found in at least one order.
    findings: tuple[Finding, ...]
    _words: tuple[str, ...] = field(repr=False)

    def __bool__(self) -> bool:
        """Whether an order ends badly."""
        return bool(self.findings)

    def show(self, finding: Finding | int) -> str:
        """The script with the schedule of an order that has this. ``play`` runs it.

        Raises ``NotThere`` if no order has it.
        """
        number = finding if isinstance(finding, int) else finding.number
        return text_of(tool(*self._words, "--show", str(number), input=self.script))


def orders(script: Text, switches: int = 2, *, kills: int = 0, at_most: int | None = None) -> Orders:
    """Plays the sessions of a script in every order with at most so many switches and kills.

    ``at_most`` bounds how many orders are tried. Raises ``Refused`` if the text is no script without a section.
    """
    words = ["orders", "--switches", str(switches), "--kills", str(kills)]
    if at_most is not None:
        words += ["--at-most", str(at_most)]
    answer = tool(*words, input=script)
    if answer.status > _FOUND:
        raise error_of(answer)
    text = answer.text.decode()
    first = text.split("\n", 1)[0].split()
    found = (
        Finding(int(number), name, int(count), int(least) if least else None)
        for number, name, count, least in _FINDING.findall(text)
    )
    there = tuple(one for one in found if one.count)
    return Orders(as_bytes(script).decode(), text, int(first[1]), first[-1] == "all", there, tuple(words))
