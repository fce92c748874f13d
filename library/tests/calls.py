"""Makes the calls of a folder from Python, and compares what comes of each; then what the package makes of it.

    python3 calls.py FOLDER SCRIPT
"""

import sys
from concurrent.futures import ThreadPoolExecutor
from itertools import count
from pathlib import Path

sys.path.insert(0, str(Path(__file__).resolve().parents[1] / "python"))
import hib  # noqa: E402

folder, script = Path(sys.argv[1]), Path(sys.argv[2]).read_text()
failures = []


def expect(holds: bool, what: str) -> None:
    if not holds:
        failures.append(what)


def part(number: int, end: str) -> bytes:
    return (folder / f"{number}.{end}").read_bytes()


def try_case(number: int) -> None:
    words = part(number, "words").decode().split("\n")
    ask = hib.tool if words[0] == "tools" else hib.call
    answer = ask(*(words[1:] if words[0] == "tools" else words), input=part(number, "input"))
    expect(answer == (int(part(number, "status")), part(number, "text"), part(number, "line")), f"case {number}")


def error_of(work) -> Exception | None:
    try:
        work()
    except Exception as error:
        return error
    return None


for number in count(1):
    if not (folder / f"{number}.words").exists():
        break
    try_case(number)
with ThreadPoolExecutor(8) as threads:
    answers = list(threads.map(lambda _: hib.call("play", input=script).text, range(100)))
expect(len(set(answers)) == 1, "calls side by side")

run = hib.play(script)
expect(len(run.entries) == len(run.journal) == len(run.rows), "the entries of a run")
expect(hib.report(script, run.journal) == run.report, "the report of a journal")
expect(hib.audit(script, run.journal) == (True, len(run.journal), ""), "a legal journal")
bent = [{**entry, "tick": entry["tick"] - (entry["tick"] > 5)} for entry in run.journal]
verdict = hib.audit(script, bent)
expect(not verdict and verdict.entry == 6 and verdict.rule == "tick", f"a bent journal: {verdict}")
expect(set(run.outcomes.values()) <= {"committed", "rolled back"} and len(run.outcomes) == 3, "the outcomes")
expect({fact["entry"] for fact in run.states} <= set(range(1, len(run.journal) + 1)), "the states")
found = hib.orders(script, switches=1)
expect(found.whole and found.count == 124 and [one.name for one in found.findings] == ["stale-hit"], f"orders: {found}")
expect("stale" not in error_of(lambda: hib.play(found.show(found.findings[0]))).__class__.__name__, "a finding that is shown")
refused = error_of(lambda: hib.play(script + "nonsense\n"))
expect(isinstance(refused, hib.Refused) and refused.word == "line" and refused.line == script.count("\n") + 1, "a refusal")
expect(isinstance(error_of(lambda: found.show(2)), hib.NotThere), "a finding that isn't there")
expect(isinstance(error_of(lambda: hib.play("#" * 1048577)), hib.TooLong), "a long input")
expect(isinstance(error_of(lambda: hib.call("play\nx")), ValueError), "a word with a line end")
expect(hib.call("play", input=script, room=10).status == 5, "a small room")
expect(hib.play(hib.make(7)).report.startswith("journal "), "a made script")
for what in failures:
    print(f"python: {what}")
sys.exit(1 if failures else 0)
