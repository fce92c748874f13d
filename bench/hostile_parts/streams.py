"""Streams that are closed, full, cut off, slow, or none at all."""
import os
import resource
import subprocess
import tempfile
import threading

import world

LONG = world.text(["hib 1", "entity Book read-write versioned 100", "column title text", *world.session("a", *[f'persist Book {k} "{"x" * 100}"' for k in range(1, 2000)], "commit")])


class Tried:
    def __init__(self):
        self.runs = 0

    def want(self, what, came, status, out=None):
        """The status is as wanted, and what was written is a front of this text, or the whole where the status is 0."""
        self.runs += 1
        if came.status != status or (out is not None and not (out.startswith(came.out) and (status != 0 or came.out == out))):
            world.wrong(f"streams, {what}: wanted status {status}, {len(came.out)} bytes written", came)


def shell(command, given):
    """Runs a command of the shell in which P is the program."""
    return world.run(["-c", command], given, env={"P": world.PROGRAM}, program=["bash"])


def outputs(tried):
    journal = world.run(["play", "--journal"], world.INSERT).out
    audit = world.INSERT + b"journal\n" + journal
    calls = [("play", world.INSERT), ("play --journal", world.INSERT), ("play --trace", world.INSERT), ("work --workers 2", world.INSERT), ("audit", audit), ("make --seed 7", b""), ("make --seed 7 --text", b""), ("--help", b""), ("--version", b"")]
    for words, given in calls:
        for how in (">&-", ">/dev/full"):
            tried.want(f"{words} {how}", shell(f'"$P" {words} {how}', given), 5)
        whole = world.run(words.split(), given)
        for how in ("2>&-", "2>/dev/full"):
            tried.want(f"{words} {how}", shell(f'"$P" {words} {how}', given), 0, whole.out)
        tried.want(f"{words} to a reader that has left", reader_leaves(words.split(), given, 0)[0], 5)
    tried.want("bad words, 2>&-", shell('"$P" other 2>&-', b""), 2, b"")
    tried.want("a bad script, 2>/dev/full", shell('"$P" play 2>/dev/full', b"hib 2\n"), 3, b"")


def reader_leaves(words, given, count):
    """Runs with a pipe at standard output whose reader takes so many bytes and leaves."""
    reads, writes = os.pipe()
    with tempfile.TemporaryFile() as source:
        source.write(given)
        source.seek(0)
        if count == 0:
            os.close(reads)
        one = subprocess.Popen([world.PROGRAM, *words], stdin=source, stdout=writes, stderr=subprocess.PIPE)
        os.close(writes)
        taken = b""
        while count > len(taken):
            more = os.read(reads, count - len(taken))
            if not more:
                break
            taken += more
        if count > 0:
            os.close(reads)
        said = one.stderr.read()
        return world.Came(one.wait(), taken, said), taken


def readers(tried):
    whole = world.run(["play"], LONG).out
    # A pipe takes 65,536 bytes that nobody has read.
    for count in [*range(0, 200, 7), 4095, 4096, 4097, 65535, 65536, 65537, 100000, 200000, len(whole) - 65537 - 4096]:
        came, taken = reader_leaves(["play"], LONG, count)
        tried.want(f"a reader that leaves after {count} bytes", came, 5, whole)


def files_that_are_full(tried):
    whole = world.run(["play"], LONG).out
    with tempfile.TemporaryDirectory() as folder:
        for size in [0, 1, 7, 100, 4095, 4096, 4097, 50000, len(whole) - 1, len(whole), len(whole) + 1]:
            with open(f"{folder}/out", "wb") as out:
                came = world.run(["play"], LONG, limits={resource.RLIMIT_FSIZE: size}, stdout=out)
            with open(f"{folder}/out", "rb") as out:
                came.out = out.read()
            tried.want(f"a file that may have {size} bytes", came, 0 if size >= len(whole) else 5, whole)
            if len(came.out) != min(size, len(whole)):
                world.wrong(f"streams, a file that may have {size} bytes has {len(came.out)}", came)


def inputs(tried):
    for words in ("play", "work --workers 2", "audit"):
        tried.want(f"{words} without standard input", shell(f'"$P" {words} <&-', b""), 4, b"")
        tried.want(f"{words} from a folder", shell(f'"$P" {words} </', b""), 4, b"")
    whole = world.run(["play"], world.RESULTS).out
    for piece in (1, 2, 3, 7, 100):
        tried.want(f"a writer of {piece} bytes at a time", slow(world.RESULTS, piece), 0, whole)
    reads, writes = os.pipe()
    os.set_blocking(reads, False)
    tried.want("a pipe that doesn't block", world.run(["play"], stdin=reads), 4, b"")
    os.close(reads)
    os.close(writes)


def slow(given, piece):
    one = subprocess.Popen([world.PROGRAM, "play"], stdin=subprocess.PIPE, stdout=subprocess.PIPE, stderr=subprocess.PIPE)

    def write():
        for at in range(0, len(given), piece):
            os.write(one.stdin.fileno(), given[at:at + piece])
        one.stdin.close()

    threading.Thread(target=write).start()
    out, said = one.stdout.read(), one.stderr.read()
    return world.Came(one.wait(), out, said)


def files_beside_closed_streams(tried):
    """A stream that is closed leaves its number free, and the file of the rows must not get what is meant for the stream."""
    wanted = world.states(world.INSERT, world.run(["play"], world.INSERT).out)[-1]
    for how, status in ((">&-", 5), ("2>&-", 0), (">&- 2>&-", 5), ("--trace 2>&-", 0), ("--journal >&-", 5), ("<&-", 4), ("<&- >&- 2>&-", 4)):
        with tempfile.TemporaryDirectory() as folder:
            path = f"{folder}/rows.db"
            came = shell(f'"$P" play --file {path} {how}', world.INSERT)
            tried.want(f"--file {how}", came, status)
            rows = world.kept_in(path)
            if rows != (wanted if status != 4 else {}) and not (status == 4 and rows is None):
                world.wrong(f"streams, --file {how}: rows {rows}", came)


def all_streams():
    tried = Tried()
    for part, name in ((outputs, "outputs that are closed or full"), (readers, "readers that leave"), (files_that_are_full, "files that are full"), (inputs, "inputs that fail or are slow"), (files_beside_closed_streams, "a file of rows beside closed streams")):
        before = tried.runs
        part(tried)
        world.tell(f"streams: {name}: {tried.runs - before} runs")
