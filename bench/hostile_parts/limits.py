"""The largest inputs, in little memory and on a small stack."""
import resource
import subprocess

import world

# The limits of a script that make it long or deep, each with the most that fits.
MOST = [("line", 4096), ("entities", 64), ("columns", 16), ("rows", 10000), ("queries", 1000), ("sessions", 1000), ("statements", 5000), ("orders", 20000), ("nesting", 16), ("cells", 64), ("bytes", 1048576)]
MEGABYTE = 1 << 20


def largest():
    """The scripts at these limits, one with deep conditions and wide ones in a thousand queries, and one with the longest lists."""
    found = [(f"{n} {name}", subprocess.run([f"{world.TOP}/tools/limits", "--print", name, str(n)], capture_output=True, check=True).stdout) for name, n in MOST]
    deep = "(and (eq stock 3) " * 15 + "(eq stock 3)" + ")" * 15
    lines = [*world.MAPPING, *[f"query q{k} cached from Book where {deep} select ids" for k in range(1000)]]
    found.append(("1000 queries, each nested 16 deep", world.text([*lines, *world.session("a", *[f"list q{k}" for k in range(1000)], "commit")])))
    rows = [f'row Book {k} v0 "{"x" * 200}" {k}' for k in range(1, 4001)]
    lists = world.session("a", *["list q"] * 1400, "commit")
    found.append(("1400 lists of 200 texts", world.text([*world.MAPPING, *rows, "query q cached from Book order title desc select title", *lists])))
    books = [f'persist Book {k} "{"x" * 180}" {k}' for k in range(1, 5000)]
    found.append(("4999 inserts", world.text([*world.MAPPING, *world.session("a", *books, "commit")])))
    return found


def ways(script):
    """The program's ways to take a script, and the audit of its journal."""
    yield ["play"], script
    yield ["play", "--journal"], script
    for workers in ("1", "2", "64"):
        yield ["work", "--workers", workers], script


class Tries:
    """The runs of the largest inputs within limits: how many had which status, and which had no memory."""

    def __init__(self):
        self.counts = {}
        self.refused = []

    def take(self, what, came, statuses):
        self.counts[came.status] = self.counts.get(came.status, 0) + 1
        if came.status == 8:
            self.refused.append(what)
        if came.status not in statuses:
            world.wrong(what, came)

    def __str__(self):
        said = ", ".join(f"{count} with status {status}" for status, count in sorted(self.counts.items()))
        return said + (": " + "; ".join(self.refused) if self.refused else "")


def tries(limits, statuses):
    """Tries each of the largest inputs within these limits; each status must be among those that may be."""
    found = Tries()
    for name, script in largest():
        for words in (["play"], ["play", "--journal"], *[["work", "--workers", workers] for workers in ("1", "2", "64")]):
            came = world.run(words, script, limits=limits)
            found.take(f"{' '.join(words)}, {name}", came, statuses)
            if words == ["play", "--journal"] and came.status == 0:
                judged = world.run(["audit"], script + b"\njournal\n" + came.out, limits=limits)
                found.take(f"audit, {name}", judged, statuses)
                if judged.status == 0 and judged.out != b"legal %d\n" % came.out.count(b"\n"):
                    world.wrong(f"audit, {name}: {judged.out!r}")
    return found


def little_memory():
    for size in (64, 32, 16):
        found = tries({resource.RLIMIT_AS: size * MEGABYTE}, (0, 8))
        world.tell(f"memory: {size} MB of addresses: {len(largest())} inputs by play, work and audit: {found}")
    filled = b"hib 1\n" + (b"#" * 999 + b"\n") * 67108
    came = world.run(["audit"], filled[:67108855] + b"\njournal\n", limits={resource.RLIMIT_AS: 64 * MEGABYTE})
    world.tell(f"memory: 64 MB of addresses: an audit of 67,108,864 bytes: status {came.status}")
    if came.status not in (0, 8):
        world.wrong("memory, an audit of the longest input", came)


def deep_texts():
    """Texts that are nested deeper than what they are for may be, with the status that they must come to."""
    for nested, name in (("(not " * 800, "a condition that opens 800 times"), (f"{'(not ' * 600}(eq stock 3){')' * 600}", "a condition nested 601 deep")):
        yield ["play"], world.text([*world.MAPPING, f"query q from Book where {nested} select ids"]), name
    for opening in (b"[", b'{"a":'):
        yield ["audit"], b"hib 1\njournal\n" + opening * 10000000 + b"\n", f"a line of JSON that opens {opening!r} ten million times"


def little_stack():
    for words, given, name in deep_texts():
        came = world.run(words, given, limits={resource.RLIMIT_STACK: 256 * 1024})
        world.tell(f"stack: 256 KB: {name}: status {came.status}, {came.said.decode().strip()}")
        if came.status != 3:
            world.wrong(f"stack, {name}", came)
    for size in (256, 64):
        found = tries({resource.RLIMIT_STACK: size * 1024}, (0,))
        world.tell(f"stack: {size} KB: {len(largest())} inputs by play, work and audit: {found}")
