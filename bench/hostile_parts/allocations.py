"""Each allocation of a run fails in turn, alone or with all that come after it."""
import mmap
import os
import subprocess

import world

FAILING = r"""
#define _GNU_SOURCE
#include <dlfcn.h>
#include <errno.h>
#include <fcntl.h>
#include <stdlib.h>
#include <sys/mman.h>
static long *count = 0, at = -1, all = 0;
__attribute__((constructor)) static void begin(void) {
  int fd = open(getenv("FAIL_COUNT"), O_RDWR);
  void *it = mmap(0, 8, PROT_READ | PROT_WRITE, MAP_SHARED, fd, 0);
  at = atol(getenv("FAIL_AT"));
  all = getenv("FAIL_ALL") != 0;
  count = it;
}
static int fails(void) {
  if (!count) return 0;
  long now = __atomic_add_fetch(count, 1, __ATOMIC_SEQ_CST);
  if (now == at || (all && now > at)) { errno = ENOMEM; return 1; }
  return 0;
}
void *malloc(size_t n) { static void *(*f)(size_t); if (!f) f = dlsym(RTLD_NEXT, "malloc"); return fails() ? 0 : f(n); }
void *calloc(size_t k, size_t n) { static void *(*f)(size_t, size_t); if (!f) f = dlsym(RTLD_NEXT, "calloc"); return fails() ? 0 : f(k, n); }
void *realloc(void *p, size_t n) { static void *(*f)(void *, size_t); if (!f) f = dlsym(RTLD_NEXT, "realloc"); return fails() ? 0 : f(p, n); }
int posix_memalign(void **p, size_t a, size_t n) { static int (*f)(void **, size_t, size_t); if (!f) f = dlsym(RTLD_NEXT, "posix_memalign"); return fails() ? ENOMEM : f(p, a, n); }
void *aligned_alloc(size_t a, size_t n) { static void *(*f)(size_t, size_t); if (!f) f = dlsym(RTLD_NEXT, "aligned_alloc"); return fails() ? 0 : f(a, n); }
"""
NEVER = 1 << 60
WAYS = [["play"], ["play", "--trace"], ["play", "--journal"], ["work", "--workers", "1"], ["work", "--workers", "2", "--journal"], ["play", "--file"], ["audit"], ["collect"], ["bulk"], ["nodes"]]


class Room:
    """A folder with the library that is loaded before the program, and the place where it counts."""

    def __init__(self, folder):
        self.folder = folder
        self.library = f"{folder}/failing.so"
        with open(f"{folder}/failing.c", "w") as it:
            it.write(FAILING)
        subprocess.run(["gcc", "-shared", "-fPIC", "-O1", "-o", self.library, f"{folder}/failing.c", "-ldl"], check=True)
        with open(f"{folder}/count", "wb") as it:
            it.write(bytes(8))
        self.file = open(f"{folder}/count", "r+b")
        self.count = mmap.mmap(self.file.fileno(), 8)

    def run(self, words, given, at, then_all):
        self.count[:] = bytes(8)
        env = {"LD_PRELOAD": self.library, "FAIL_AT": str(at), "FAIL_COUNT": f"{self.folder}/count"}
        if then_all:
            env["FAIL_ALL"] = "yes"
        came = world.run(words, given, env=env)
        return came, int.from_bytes(self.count[:], "little")


def is_right(words, script, came, whole):
    """Whether a run in which memory was refused ended as it must."""
    if came.status not in (0, 8):
        return False
    if "--journal" in words and words[0] == "work":
        lines = came.out[:came.out.rfind(b"\n") + 1]
        return world.is_legal(script, lines) if came.status == 8 else world.is_legal(script, came.out)
    if not whole.out.startswith(came.out) or (came.status == 0 and came.out != whole.out):
        return False
    if "--trace" in words and not all(line in whole.said.splitlines() for line in came.said.splitlines() if line.startswith(b"entry ")):
        return False
    return True


def has_a_prefix(script, came, whole, rows):
    """Whether a file has the rows of a prefix of the commits, or none of all where memory ran out before the first rows were placed."""
    states = world.states(script, whole.out)
    return rows == states[-1] if came.status == 0 else not rows or rows in states


def sweep(room, words, name, script, then_all):
    given = script
    path = f"{room.folder}/rows.db"
    full = [*words, path] if words[-1] == "--file" else words
    if words == ["audit"]:
        given = script + b"journal\n" + world.run(["play", "--journal"], script).out
    world.clear(path)
    whole, total = room.run(full, given, NEVER, False)
    if whole.status != 0:
        world.wrong(f"allocations, {' '.join(words)}, {name}: the whole run", whole)
    refused = 0
    for at in range(1, total + 1):
        world.clear(path)
        came, _ = room.run(full, given, at, then_all)
        refused += came.status == 8
        rows = None if full == words else world.kept_in(path)
        if not is_right(words, script, came, whole) or not (full == words or has_a_prefix(script, came, whole, rows)):
            world.wrong(f"allocations, {' '.join(words)}, {name}: allocation {at} of {total}, then {'all' if then_all else 'no other'}; rows {rows}", came)
    return total, refused


def all_fail():
    with world.room() as folder:
        room = Room(folder)
        for words in WAYS:
            for then_all in (False, True):
                runs = refused = 0
                for name, script in list(world.examples_of(words[0])) or world.WORKED:
                    total, without = sweep(room, words, name, script, then_all)
                    runs, refused = runs + total, refused + without
                how = "and all after it" if then_all else "alone"
                world.tell(f"allocations: {' '.join(words)}: each of {runs} fails in turn, {how}: {refused} runs have status 8, {runs - refused} status 0")
