"""Random scripts, mutated scripts and bent journals, by fixed numbers."""
import collections
import multiprocessing
import os
import random

import random_scripts
import world

# How many there are of each kind.
COUNT = None
USUAL = {"scripts": 40000, "mutated": 30000, "journals": 30000}
KINDS = set(
    "byte long token header line words many-entities many-columns entity-taken column-taken strategy capacity column-type ref-unknown default no-columns reserved "
    "taken unknown number cells type depth many last no-end journal".split())
RULES = {b"tick", b"session", b"part", b"act", b"reply"}


def is_refusal(came):
    words = came.said.decode(errors="replace").split()
    return came.status == 3 and not came.out and len(words) == 4 and words[:2] == ["hib:", "line"] and words[2][:-1].isdigit() and words[3] in KINDS


def is_verdict(came):
    words = came.out.split()
    if came.status == 0:
        return len(words) == 2 and words[0] == b"legal" and words[1].isdigit()
    return came.status == 1 and len(words) == 3 and words[0] == b"illegal" and words[1].isdigit() and words[2] in RULES and came.said == b"hib: " + came.out


def played(script):
    """Plays a script: whether it was played, with a journal that is legal, or refused, or went wrong; and what came."""
    came = world.run(["play", "--journal"], script)
    if is_refusal(came):
        return "refused", came
    is_right = came.status == 0 and not came.said and world.is_legal(script, came.out)
    return "played" if is_right else "wrong", came


def one_script(seed):
    script = random_scripts.text(random_scripts.script(seed))
    end, came = played(script)
    if end != "played":
        return f"random script {seed}", came
    found = ["played"]
    if seed % 4 == 0:
        workers = str(1 + random.Random(seed).randrange(8))
        worked = world.run(["work", "--workers", workers, "--journal"], script)
        if worked.status != 0 or not world.is_legal(script, worked.out):
            return f"random script {seed} on {workers} workers", worked
        found.append("on workers too")
    if seed % 20 == 0:
        report = world.run(["play"], script)
        over = world.run(["play", "--file", ":memory:"], script)
        if (report.status, report.out) != (over.status, over.out):
            return f"random script {seed} over SQLite", over
        found.append("over SQLite too, with the same report")
    return found, None


def one_mutated(seed):
    script = random_scripts.mutated(seed)
    end, came = played(script)
    if end == "wrong":
        return f"mutated script {seed}", came
    if end == "played":
        return ["played"], None
    judged = world.run(["audit"], script + b"\njournal\n")
    # An audit looks for its journal behind the first line `journal`, and counts a line more.
    is_same = judged.said == came.said or b"journal" in script or b"no-end" in came.said
    if not is_refusal(judged) or not is_same:
        return f"mutated script {seed}, which play refuses by {came.said!r}, in audit", judged
    return ["refused", came.said.decode().split()[3]], None


def one_journal(seed):
    script = random_scripts.text(random_scripts.script(seed))
    lines = world.run(["play", "--journal"], script).out
    came = world.audited(script, random_scripts.bent(seed, lines.splitlines()))
    if is_refusal(came):
        return ["refused", came.said.decode().split()[3]], None
    if not is_verdict(came):
        return f"bent journal {seed}", came
    return [" ".join(came.out.decode().split()[::2]) if came.status == 1 else "legal"], None


def try_one(job):
    kind, seed = job
    try:
        return {"scripts": one_script, "mutated": one_mutated, "journals": one_journal}[kind](seed)
    except Exception as error:
        return f"{kind} {seed}: {error!r}", None


def random_inputs():
    for kind, usual in USUAL.items():
        count = COUNT or usual
        found = collections.Counter()
        with multiprocessing.Pool(min(2, os.cpu_count() or 1)) as pool:
            for said, came in pool.imap_unordered(try_one, ((kind, seed) for seed in range(count)), 100):
                if isinstance(said, str):
                    world.wrong(f"random, {said}", came)
                else:
                    found.update(said)
        world.tell(f"random: {count} {kind}: " + ", ".join(f"{n} {name}" for name, n in found.most_common()))
