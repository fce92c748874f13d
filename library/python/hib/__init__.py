"""Zughvarti from Python: scripts of sessions over a second-level cache are played, searched and audited.

    import hib

    run = hib.play(open("examples/stale.hib").read())
    for found in hib.orders(run.script, switches=1).findings:
        print(found.name, found.count)

Each call goes from memory to memory and keeps nothing: it begins with no rows. Calls may run side by side in threads.
"""

from ._library import Answer, call, tool
from .errors import HibError, NotThere, OutOfMemory, Refused, TooLong, Usage
from .runs import Run, Verdict, audit, flat, make, play, report, schedule, spans, states
from .searches import Finding, Orders, orders

__all__ = [
    "Answer", "Finding", "HibError", "NotThere", "Orders", "OutOfMemory", "Refused", "Run", "TooLong", "Usage",
    "Verdict", "audit", "call", "flat", "make", "orders", "play", "report", "schedule", "spans", "states", "tool",
]  # fmt: skip
