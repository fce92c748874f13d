"""What all parts of bench/hostile use: runs of the program, and what a journal says of the rows."""
import os
import re
import resource
import signal
import shutil
import sqlite3
import subprocess
import tempfile

TOP = os.path.dirname(os.path.dirname(os.path.dirname(os.path.realpath(__file__))))
PROGRAM = f"{TOP}/crates/hib_run/out/hib_run"
WRONG = []

MAPPING = ["hib 1", "entity Book read-write versioned 100", "column title text", "column stock int"]
DUNE = 'row Book 1 v0 "Dune" 3'


def text(lines):
    return ("\n".join(lines) + "\n").encode()


def session(name, *statements):
    return [f"session {name}", *statements, "end"]


def sets(name, key, stock):
    return session(name, "mode ignore", f"find Book {key}", f"set Book {key} stock {stock}", "commit")


# Worked scripts: an insert; two writers of one row, of whom the second is stale; a result that is kept beside two writers.
INSERT = text([*MAPPING, *session("a", 'persist Book 1 "Dune" 3', "commit")])
WRITERS = text([
    *MAPPING, DUNE, *session("a", "find Book 1", "set Book 1 stock 2", "commit"), *session("b", "find Book 1", "set Book 1 stock 1", "commit"),
    "schedule", "run a 5", "run b 3", "run a 2", "run b 2", "run a 5", "run b 5", "end"])
RESULTS = text([
    *MAPPING, DUNE, 'row Book 2 v0 "Emma" 5', "query low cached from Book select stock", *sets("t1", 1, 2), *sets("t2", 2, 4),
    *session("s", "list low", "commit"), *session("u", "list low", "commit"), *session("w", "list low", "commit"), "schedule", "run t1 3", "run t2 3",
    "run t1 1", "run t2 1", "run t1 6", "run s 6", "run t2 3", "run u 5", "run t2 3", "run w 7", "end"])
WORKED = [("an insert", INSERT), ("two writers", WRITERS), ("kept results", RESULTS)]
COMMANDS = {b"collections": "collect", b"bulk": "bulk", b"nodes": "nodes"}


def examples_of(command):
    """The examples whose section this command reads: the name and the text of each."""
    folder = f"{TOP}/examples/sections"
    for name in sorted(os.listdir(folder)):
        if name.endswith(".hib"):
            with open(f"{folder}/{name}", "rb") as it:
                script = it.read()
            if command in [COMMANDS.get(line) for line in script.splitlines()]:
                yield name, script


class Came:
    """How a run ended: its status, or the signal that ended it below 0, and what it wrote."""

    def __init__(self, status, out, said):
        self.status, self.out, self.said = status, out, said


def run(words, given=b"", limits=None, env=None, program=None, **streams):
    def before():
        signal.signal(signal.SIGXFSZ, signal.SIG_IGN)
        for kind, value in (limits or {}).items():
            resource.setrlimit(kind, (value, value))

    how = {"stdout": subprocess.PIPE, "stderr": subprocess.PIPE, **streams}
    if "stdin" not in how:
        how["input"] = given
    came = subprocess.run([*(program or [PROGRAM]), *words], preexec_fn=before if limits else None, env={**os.environ, **(env or {})}, timeout=600, **how)
    return Came(came.returncode, came.stdout or b"", came.stderr or b"")


def wrong(what, came=None):
    WRONG.append(what)
    end = f": status {came.status}, says {came.said[-200:]!r}" if came else ""
    if len(WRONG) <= 50:
        print(f"WRONG {what}{end}", flush=True)


def tell(what):
    print(what, flush=True)


def audited(script, lines):
    return run(["audit"], script + b"\njournal\n" + lines)


def is_legal(script, lines):
    came = audited(script, lines)
    return came.status == 0 and came.out == b"legal %d\n" % lines.count(b"\n")


ENTRY = re.compile(r"\d+ (\S+) (\S+) (.*) = (.*)$")


def row_of(words):
    return words[0], int(words[1]), " ".join(words[2:])


def after_write(state, act):
    word, _, rest = act.partition(" ")
    name, key, row = row_of(rest.split(" "))
    if word == "delete":
        state.pop((name, key), None)
    else:
        state[name, key] = row if word == "insert" else row.split(" ", 1)[1]


def first_rows(script):
    """The rows that a script places."""
    state, plain = {}, set()
    for line in script.decode().splitlines():
        words = line.split(" ")
        if words[0] == "entity" and words[3] == "plain":
            plain.add(words[1])
        if words[0] == "row":
            name, key, row = row_of(words[1:])
            state[name, key] = f"v- {row}" if name in plain else row
    return state


def commits(report):
    """What a report says of each commit that was committed: its changes, in their order."""
    written = {}
    for line in report.decode().splitlines()[1:]:
        entry = ENTRY.match(line)
        if not entry or entry[2] != "store":
            continue
        who, act, reply = entry[1], entry[3], entry[4]
        if reply == "written":
            written.setdefault(who, []).append(act)
        elif act in ("rollback", "commit"):
            changes = written.pop(who, [])
            if act == "commit" and reply == "committed":
                yield changes


def changes(report):
    return [change for commit in commits(report) for change in commit]


def states(script, report):
    """The rows of the store at first, and after each commit that a report says was committed."""
    state = first_rows(script)
    found = [dict(state)]
    for commit in commits(report):
        for change in commit:
            after_write(state, change)
        found.append(dict(state))
    return found


def cell_of(body):
    kind = body[0]
    if kind == 1:
        return str(int.from_bytes(body[1:9], "big", signed=True)), body[9:]
    if kind == 2:
        held = body[2:2 + body[1]].decode().replace("\\", "\\\\").replace('"', '\\"')
        return f'"{held}"', body[2 + body[1]:]
    return ("true" if body[1] else "false"), body[2:]


def room():
    """A folder for files, in memory where that may be: the program waits for a disk at each commit."""
    return tempfile.TemporaryDirectory(dir="/dev/shm" if os.path.isdir("/dev/shm") else None)


def clear(path):
    for name in (path, f"{path}-wal"):
        if os.path.exists(name):
            os.remove(name)


def kept_in(path):
    """The books that sqlite3 finds in a file with the log beside it; None where there is no table yet. It looks at a copy, since it puts
    the log into the file."""
    if not os.path.exists(path) or is_begun(path):
        return None
    with room() as folder:
        for end in ("", "-wal"):
            if os.path.exists(path + end):
                shutil.copy(path + end, f"{folder}/copy.db{end}")
        it = sqlite3.connect(f"{folder}/copy.db")
        try:
            return books_of(it)
        finally:
            it.close()


def is_begun(path):
    """Whether the first page of a file is still being made: it is no database yet, and the program begins it anew."""
    with open(path, "rb") as it:
        page = it.read(4096)
    return len(page) < 4096 or page[0] == 0


def books_of(it):
    if it.execute("pragma integrity_check").fetchone() != ("ok",):
        return "broken"
    if not it.execute("select 1 from sqlite_master where name = 'hib_rows'").fetchone():
        return None
    found = {}
    for entity, key, version, body in it.execute("select entity, id, version, body from hib_rows"):
        cells, rest = [], body[1:]
        while rest:
            one, rest = cell_of(rest)
            cells.append(one)
        mark = "v-" if version is None else f"v{version}"
        found[("Book",)[entity], key] = " ".join([mark, *cells])
    return found
