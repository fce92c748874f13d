"""A stale read from Python: a script is played, its orders are searched, and the order that reads an old row is shown.

    ./hib library
    PYTHONPATH=library/python python3 examples/python/tour.py
"""

from pathlib import Path

import hib

script = (Path(__file__).parents[1] / "stale.hib").read_text()

# A run by the script's schedule, entry by entry.
run = hib.play(script)
print(f"{len(run.journal)} entries; the sessions: {run.outcomes}")
for entry in run.journal:
    if entry["act"].startswith("get"):
        print(f"  tick {entry['tick']}: {entry['session']} asks the cache: {entry['reply']}")

# Each order of the sessions with at most one switch.
orders = hib.orders(script, switches=1)
print(f"{orders.count} orders")
for found in orders.findings:
    print(f"  {found.count} have a {found.name}; the first by {found.switches} switch")
    print("  " + "\n  ".join(orders.show(found).split("schedule\n")[1].splitlines()[:-1]))

# The same with a region that knows versions and locks.
safe = hib.orders(script.replace("nonstrict", "read-write"), switches=2)
print(f"read-write: {safe.count} orders, {'something was found' if safe else 'nothing is stale'}")

# Whether somebody has bent a journal.
bent = [{**entry, "reply": entry["reply"].replace("30", "20")} for entry in run.journal]
print(hib.audit(script, run.journal), hib.audit(script, bent))

# A refused script names its line.
try:
    hib.play(script.replace("session", "sesion", 1))
except hib.Refused as refused:
    print(f"line {refused.line}: {refused.word}")
