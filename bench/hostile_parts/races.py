"""Workers under valgrind's helgrind, which looks for accesses that no lock orders. It knows the locks of the C library alone, and the
program's is made of atomic steps and of waits in the kernel; so with two workers it names each access under that lock, and is counted but not
judged. With one worker, beside the caller's thread, it must find nothing."""
import re
import shutil

import random_scripts
import world

SUMMARY = re.compile(rb"ERROR SUMMARY: (\d+) errors from (\d+) contexts")


def under_helgrind(name, script, workers):
    """The number of places that helgrind names."""
    came = world.run(["--tool=helgrind", world.PROGRAM, "work", "--workers", str(workers), "--journal"], script, program=["valgrind"])
    found = SUMMARY.search(came.said)
    if came.status != 0 or not found or not world.is_legal(script, came.out):
        world.wrong(f"races, {name} on {workers} workers", came)
        return 0
    return int(found[2])


def helgrind():
    if not shutil.which("valgrind"):
        world.tell("races: valgrind isn't here")
        return
    scripts = [*world.WORKED, *[(f"random script {seed}", random_scripts.text(random_scripts.script(seed))) for seed in range(5)]]
    scripts.append(("the made script of seed 7", world.run(["make", "--seed", "7", "--text"]).out))
    for workers in (1, 2, 4):
        found = [under_helgrind(name, script, workers) for name, script in scripts]
        world.tell(f"races: {len(found)} runs on {workers} workers under helgrind, each with a legal journal; places that it names: {', '.join(map(str, found))}")
        if workers == 1 and any(found):
            world.wrong("races: helgrind names places with one worker")
