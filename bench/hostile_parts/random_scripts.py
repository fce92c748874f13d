"""Random scripts, mutated scripts and bent journals, for bench/hostile. The same number gives the same text."""
import random

STRATEGIES = ["none", "read-only", "nonstrict", "read-write", "read-write", "read-write"]
MODES = ["normal", "ignore", "get", "put"]
TEXTS = ["", "Dune", "Emma", "x", 'a \\"quoted\\" one', "back\\\\slash", "a # in it", "(" * 5]
NUMBERS = [0, 1, 2, 3, 7, -1, 1000, 9223372036854775807, -9223372036854775808]
WORDS = [
    "hib", "entity", "column", "row", "query", "session", "schedule", "end", "commit", "rollback", "flush", "clear", "find", "persist", "set",
    "remove", "list", "mode", "run", "kill", "evict", "restart", "timeout", "results", "from", "where", "order", "desc", "limit", "offset", "select",
    "ids", "count", "true", "false", "none", "read-write", "versioned", "plain", "int", "ref", "E0", "E1", "c0", "q0", "s0", "s1", "v0", "v1", "(", ")",
    '"', '"t"', "0", "1", "-1", "2", "9223372036854775807", "9223372036854775808", "00", "a.b", "E0.c0", "journal", "#", "x" * 33,
]


class Entity:
    def __init__(self, draw, number, before):
        self.name = f"E{number}"
        self.strategy = draw.choice(STRATEGIES)
        self.versioned = draw.random() < 0.6
        self.capacity = 0 if self.strategy == "none" else draw.choice([1, 1, 2, 3, 10, 100])
        kinds = ["int", "text", "bool", *[f"ref {it.name}" for it in before], f"ref {self.name}"]
        self.columns = [(f"c{k}", draw.choice(kinds)) for k in range(draw.randint(1, 4))]

    def lines(self):
        mark = "versioned" if self.versioned else "plain"
        return [f"entity {self.name} {self.strategy} {mark} {self.capacity}", *[f"column {n} {kind}" for n, kind in self.columns]]


def cell(draw, kind):
    if kind == "text":
        return f'"{draw.choice(TEXTS)}"'
    if kind == "bool":
        return draw.choice(["true", "false"])
    return str(draw.randint(1, 4) if draw.random() < 0.7 else draw.choice(NUMBERS))


def cells(draw, entity):
    return " ".join(cell(draw, kind) for _, kind in entity.columns)


def condition(draw, entity, entities, depth):
    pick = draw.random()
    if depth > 1 and pick < 0.3:
        word = draw.choice(["and", "or"])
        return f"({word} {condition(draw, entity, entities, depth - 1)} {condition(draw, entity, entities, depth - 1)})"
    if depth > 1 and pick < 0.4:
        return f"(not {condition(draw, entity, entities, depth - 1)})"
    name, kind = draw.choice(entity.columns)
    if kind.startswith("ref") and draw.random() < 0.6:
        target = next(it for it in entities if it.name == kind[4:])
        path, kind = draw.choice(target.columns)
        name = f"{name}.{path}"
    if draw.random() < 0.2:
        return f"(in {name} {' '.join(cell(draw, kind) for _ in range(draw.randint(1, 5)))})"
    words = ["eq", "ne"] if kind == "bool" else ["eq", "ne", "lt", "le", "gt", "ge"]
    return f"({draw.choice(words)} {name} {cell(draw, kind)})"


def query(draw, number, entities):
    entity = draw.choice(entities)
    line = f"query q{number} {'cached ' if draw.random() < 0.7 else ''}from {entity.name}"
    if draw.random() < 0.6:
        line += f" where {condition(draw, entity, entities, draw.randint(1, 4))}"
    if draw.random() < 0.3:
        return line + " select count"
    if draw.random() < 0.5:
        line += " order " + " ".join(f"{name}{draw.choice(['', ' desc'])}" for name, _ in draw.sample(entity.columns, draw.randint(1, len(entity.columns))))
    if draw.random() < 0.3:
        line += f" offset {draw.randint(0, 3)}"
    if draw.random() < 0.3:
        line += f" limit {draw.randint(1, 4)}"
    return f"{line} select {draw.choice(['ids', entity.columns[0][0]])}"


def statements(draw, entities, queries):
    found = []
    for _ in range(draw.randint(0, 6)):
        entity, key = draw.choice(entities), draw.randint(1, 4)
        pick = draw.random()
        if pick < 0.3:
            found.append(f"find {entity.name} {key}")
        elif pick < 0.55:
            chosen = draw.sample(entity.columns, draw.randint(1, len(entity.columns)))
            found += [f"find {entity.name} {key}", f"set {entity.name} {key} " + " ".join(f"{n} {cell(draw, kind)}" for n, kind in chosen)]
        elif pick < 0.65:
            found.append(f"persist {entity.name} {key} {cells(draw, entity)}")
        elif pick < 0.75:
            found += [f"find {entity.name} {key}", f"remove {entity.name} {key}"]
        elif pick < 0.87 and queries:
            found.append(f"list q{draw.randrange(queries)}")
        else:
            found.append(draw.choice(["flush", "clear", f"mode {draw.choice(MODES)}", "flush", "clear"]))
    return found


def orders(draw, sessions, cached):
    found = []
    for _ in range(draw.randint(0, 12)):
        pick = draw.random()
        if pick < 0.8:
            found.append(f"run s{draw.randrange(sessions)} {draw.randint(1, 9)}")
        elif pick < 0.88:
            found.append(f"kill s{draw.randrange(sessions)}")
        elif pick < 0.96 and cached:
            found.append(f"evict {draw.choice(cached).name} {draw.randint(1, 4)}")
        else:
            found.append("restart")
    return found


def script(seed):
    """The lines of a script that has the right form."""
    draw = random.Random(seed)
    lines = ["hib 1"]
    if draw.random() < 0.4:
        lines.append(f"timeout {draw.choice([1, 2, 5, 20, 1000000])}")
    if draw.random() < 0.3:
        lines.append(f"results {draw.randint(1, 3)}")
    entities = []
    for number in range(draw.randint(1, 3)):
        entities.append(Entity(draw, number, entities))
    for entity in entities:
        lines += entity.lines()
    for entity in entities:
        for key in draw.sample(range(1, 5), draw.randint(0, 4)):
            mark = f" v{draw.choice([0, 1, 7, 1000000])}" if entity.versioned else ""
            lines.append(f"row {entity.name} {key}{mark} {cells(draw, entity)}")
    queries = draw.randint(0, 3)
    lines += [query(draw, number, entities) for number in range(queries)]
    sessions = draw.randint(1, 5)
    for number in range(sessions):
        lines.append(f"session s{number}")
        for _ in range(draw.choice([1, 1, 1, 2, 3])):
            lines += [*statements(draw, entities, queries), draw.choice(["commit", "commit", "commit", "rollback"])]
        lines.append("end")
    if draw.random() < 0.8:
        lines += ["schedule", *orders(draw, sessions, [it for it in entities if it.strategy != "none"]), "end"]
    return lines


def text(lines):
    return ("\n".join(lines) + "\n").encode()


def mutated_lines(draw, lines):
    at, other = draw.randrange(len(lines)), draw.randrange(len(lines))
    pick = draw.randrange(6)
    if pick == 0:
        del lines[at]
    elif pick == 1:
        lines.insert(at, lines[other])
    elif pick == 2:
        lines[at], lines[other] = lines[other], lines[at]
    elif pick == 3:
        lines.insert(at, " ".join(draw.choice(WORDS) for _ in range(draw.randint(1, 6))))
    else:
        words = lines[at].split(" ")
        words[draw.randrange(len(words))] = draw.choice(WORDS)
        lines[at] = " ".join(words)


def mutated_bytes(draw, data):
    data = bytearray(data)
    for _ in range(draw.randint(1, 4)):
        at = draw.randrange(len(data) + 1)
        pick = draw.randrange(4)
        if pick == 0 and at < len(data):
            data[at] = draw.randrange(256)
        elif pick == 1:
            data[at:at] = bytes(draw.choice([draw.randrange(256), draw.randrange(32, 127)]) for _ in range(draw.randint(1, 9)))
        elif pick == 2:
            del data[at:at + draw.randint(1, 20)]
        else:
            data[at:at] = data[:draw.randint(0, 60)]
    return bytes(data)


def mutated(seed):
    """A script with some lines, words or bytes changed; seldom still one of the right form."""
    draw = random.Random(seed)
    lines = script(seed)
    if draw.random() < 0.5:
        return mutated_bytes(draw, text(lines))
    for _ in range(draw.randint(1, 3)):
        mutated_lines(draw, lines)
        if not lines:
            break
    return text(lines)


def bent_line(draw, line):
    """A JSON line with a number, a word or a member changed."""
    spots = [i for i, byte in enumerate(line) if chr(byte).isdigit()]
    pick = draw.randrange(4)
    if pick < 2 and spots:
        at = draw.choice(spots)
        return line[:at] + draw.choice([b"0", b"1", b"2", b"9", b"99999999999999999999", b"-1", b"v"]) + line[at + 1:]
    if pick == 2:
        words = line.split(b" ")
        words[draw.randrange(len(words))] = draw.choice(WORDS).encode()
        return b" ".join(words)
    at = draw.randrange(len(line))
    return line[:at] + bytes([draw.randrange(256)]) + line[at + draw.randrange(3):]


def bent(seed, lines):
    """The lines of a journal with some changed, left out, doubled or in another order."""
    draw = random.Random(seed)
    lines = list(lines)
    for _ in range(draw.choice([1, 1, 1, 2, 5])):
        if not lines:
            break
        at, other = draw.randrange(len(lines)), draw.randrange(len(lines))
        pick = draw.randrange(6)
        if pick == 0:
            del lines[at]
        elif pick == 1:
            lines.insert(at, lines[other])
        elif pick == 2:
            lines[at], lines[other] = lines[other], lines[at]
        else:
            lines[at] = bent_line(draw, lines[at])
    return b"".join(line + b"\n" for line in lines)
