"""A file of rows on a disk that is full, and a program that is killed while it commits."""
import os
import random
import resource
import signal
import subprocess
import tempfile
import time

import world

# Forty sessions, each of which persists a book and changes the one before; so each commit shows in the rows.
COMMITS = 40
SHELF = world.text([
    *world.MAPPING, *(line for k in range(1, COMMITS + 1) for line in world.session(
        f"s{k}", f'persist Book {k} "{"x" * 150}" {k}', *([f"find Book {k - 1}", f"set Book {k - 1} stock {-k}"] if k > 1 else []), "commit"))])


class Counts:
    def __init__(self):
        self.statuses = {}
        self.faults = 0
        self.committed = set()

    def __str__(self):
        said = ", ".join(f"{count} with status {status}" for status, count in sorted(self.statuses.items()))
        return f"{said}; {len(self.committed)} different counts of commits, {min(self.committed)} to {max(self.committed)} of {COMMITS}; {self.faults} commits were faults"


def judge(what, came, path, counts):
    """At status 0 the file has exactly the rows of the commits that the report says were committed; at status 9 it has none."""
    counts.statuses[came.status] = counts.statuses.get(came.status, 0) + 1
    if came.status not in (0, 9) or (came.status == 9 and came.out):
        world.wrong(f"disks, {what}", came)
    found = world.states(SHELF, came.out)
    counts.faults += came.out.count(b" store commit = fault\n")
    counts.committed.add(len(found) - 1)
    rows = world.kept_in(path) or {}
    if rows != found[-1]:
        world.wrong(f"disks, {what}: {len(found) - 1} commits; the file has {len(rows)} rows and differs in {sorted(set(rows.items()) ^ set(found[-1].items()))[:5]}", came)


def goes_on(what, words, path):
    """With room again the rest is committed: a book that is there makes its session's commit a duplicate."""
    before = len(world.kept_in(path) or {})
    came = world.run([*words, "--file", path], SHELF)
    if came.status != 0 or came.out.count(b" store commit = committed\n") != COMMITS - before or len(world.kept_in(path)) != COMMITS:
        world.wrong(f"disks, {what}, and with room again", came)


def rows_that_were_there():
    """A run over a file that has rows, within limits below what the file needs: the rows stay as they were, but for what is committed."""
    statuses = {}
    half = SHELF[:SHELF.index(b"session s21\n")]
    with world.room() as folder:
        path = f"{folder}/rows.db"
        for size in [*range(0, 24000, 1000), *range(24000, 900000, 29000)]:
            world.clear(path)
            world.run(["play", "--file", path], half)
            before = world.kept_in(path)
            came = world.run(["play", "--file", path], SHELF, limits={resource.RLIMIT_FSIZE: size})
            statuses[came.status] = statuses.get(came.status, 0) + 1
            wanted = dict(before)
            for change in world.changes(came.out):
                world.after_write(wanted, change)
            if came.status not in (0, 9) or world.kept_in(path) != wanted:
                world.wrong(f"disks, a file with {len(before)} rows that may have {size} bytes", came)
            goes_on(f"a file with rows that may have {size} bytes", ["play"], path)
    world.tell(f"disks: play over a file with 20 rows, which may have 0 to 900,000 bytes: {', '.join(f'{n} with status {k}' for k, n in sorted(statuses.items()))}")


def small_files(words):
    counts = Counts()
    with world.room() as folder:
        path = f"{folder}/rows.db"
        for size in [*range(0, 12400, 400), *range(12400, 900000, 7001)]:
            world.clear(path)
            what = f"{' '.join(words)} with files of at most {size} bytes"
            judge(what, world.run([*words, "--file", path], SHELF, limits={resource.RLIMIT_FSIZE: size}), path, counts)
            goes_on(what, words, path)
    world.tell(f"disks: {' '.join(words)}, files that may have 0 to 900,000 bytes: {counts}")


def small_disks(words):
    counts = Counts()
    with world.room() as folder:
        for pages in [*range(1, 60), *range(60, 256, 4)]:
            mount = ["mount", "-t", "tmpfs", "-o", f"size={pages * 4096}", "tmpfs", folder]
            if subprocess.run(mount, capture_output=True).returncode:
                world.tell("disks: no small file system may be mounted here")
                return
            try:
                what, path = f"{' '.join(words)} on a disk of {pages} pages", f"{folder}/rows.db"
                judge(what, world.run([*words, "--file", path], SHELF), path, counts)
                subprocess.run(["mount", "-o", "remount,size=2m", folder], check=True)
                goes_on(what, words, path)
            finally:
                subprocess.run(["umount", folder], check=True)
    world.tell(f"disks: {' '.join(words)}, disks of 4 KB to 1 MB: {counts}")


def no_places():
    """Paths at which there can be no file of rows; what stands there stays."""
    with world.room() as folder:
        os.mkfifo(f"{folder}/pipe")
        os.symlink("loop", f"{folder}/loop")
        with open(f"{folder}/text", "wb") as it:
            it.write(SHELF)
        places = ["/dev/null", "/dev/full", "/dev/zero", "/proc/self/status", "/nonexistent/rows.db", "x" * 300, "x/" * 3000, folder]
        for place in [*places, *(f"{folder}/{name}" for name in ("pipe", "loop", "text"))]:
            no_store(f"--file {place[:40]}", world.run(["play", "--file", place], SHELF))
        no_store("four open files", world.run(["play", "--file", f"{folder}/rows.db"], SHELF, limits={resource.RLIMIT_NOFILE: 4}))
        with open(f"{folder}/text", "rb") as it:
            if it.read() != SHELF:
                world.wrong("disks: a text that was taken for a file of rows has changed")
    world.tell(f"disks: {len(places) + 3} paths at which there can be no file of rows, and no room for its open files: status 9")


def no_store(what, came):
    if came.status != 9 or came.out:
        world.wrong(f"disks, {what}", came)


def full_disks():
    no_places()
    for words in (["play"], ["work", "--workers", "1"]):
        small_files(words)
        small_disks(words)
    rows_that_were_there()


def kills():
    """The program is killed by signal 9 at moments spread over its run; the file then has the books of the first sessions, and the next run
    commits the others."""
    draw, cut = random.Random(9), set()
    script = world.text([*world.MAPPING, *(line for k in range(1, 401) for line in world.session(f"s{k}", f'persist Book {k} "book" {k}', "commit"))])
    with world.room() as folder:
        path = f"{folder}/rows.db"
        began = time.monotonic()
        world.run(["play", "--file", path], script)
        whole = time.monotonic() - began
        for _ in range(200):
            world.clear(path)
            killed(script, path, draw.random() * whole)
            rows = world.kept_in(path) or {}
            cut.add(len(rows))
            again = world.run(["play", "--file", path], script)
            committed = again.out.count(b" store commit = committed\n")
            if rows != {("Book", k): f'v0 "book" {k}' for k in range(1, len(rows) + 1)} or committed != 400 - len(rows):
                world.wrong(f"kills: a file with {len(rows)} rows, to which the next run adds {committed}", again)
    world.tell(f"kills: 200 runs killed by signal 9; each file had the rows of the first sessions, at {len(cut)} different counts from {min(cut)} to {max(cut)} of 400, and the next run committed the others")


def killed(script, path, seconds):
    with tempfile.TemporaryFile() as source:
        source.write(script)
        source.seek(0)
        one = subprocess.Popen([world.PROGRAM, "play", "--file", path], stdin=source, stdout=subprocess.DEVNULL)
        time.sleep(seconds)
        one.send_signal(signal.SIGKILL)
        one.wait()
