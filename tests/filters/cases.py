"""Filters by chance, asked of the console, and each answer worked out here from the rules.

    python3 tests/filters/cases.py PROGRAM SEED COUNT

A case is a catalogue, a query whose triples hold terms alone and whose filters are made by chance, and
rows; every filter of the query is asked on each row, and so are alternatives and blocks that are not there.
"""
import subprocess
import sys
from random import Random

VARIABLES = 16
NAME, TEXT, INTEGER = 1, 2, 3
ROWS = 4


def seven_bits(number):
    """The number as bytes, seven bits each, the lowest first; all but the last with the top bit set."""
    groups = [number & 127]
    while number := number >> 7:
        groups.append(number & 127)
    return [group | 128 for group in groups[:-1]] + groups[-1:]


def listed(random):
    """Records by chance, as lines and as what they say of a number."""
    values = (-2147483648, -7, -1, 0, 1, 7, 2147483647)
    records = []
    for _ in range(random.randint(0, 12)):
        kind = random.choice((NAME, TEXT, INTEGER, INTEGER))
        records.append((kind, random.choice(values) if kind == INTEGER else 0))

    def said(number):
        return records[number - 1] if 1 <= number <= len(records) else (NAME, 0)

    return ["catalogue listed", *(f"{kind} {value}" for kind, value in records), "end"], said


def inline():
    """The catalogue that has no list."""

    def said(number):
        return (INTEGER, number - 750001) if 500001 <= number <= 1000000 else (NAME, 0)

    return ["catalogue inline"], said


def number(random, low):
    """A term, or where low is 0 also no value, and what no term is."""
    near = random.randint(low, 14)
    far = random.choice((500000, 500001, 750001, 750002, 999999, 1000000))
    if low == 0 and random.random() < 0.05:
        return random.choice((1000001, 4294967295))
    return near if random.random() < 0.8 else far


def place(random):
    """A variable or a term."""
    if random.random() < 0.6:
        return ("variable", random.choice((0, 1, 2, random.randrange(VARIABLES))))
    return ("term", number(random, 1))


def nodes_by_chance(random, most):
    """The nodes of one filter."""
    nodes = []
    for here in range(random.choice((0, 1, 2, 3, 5, 8, most))):
        kinds = ["equal", "less", "bound"] + ["not", "and", "or"] * (2 if here else 0)
        kind = random.choice(kinds)
        if kind in ("equal", "less"):
            nodes.append((kind, place(random), place(random)))
        elif kind == "bound":
            nodes.append((kind, random.choice((0, 1, random.randrange(VARIABLES)))))
        else:
            nodes.append((kind, *(random.randrange(here) for _ in range(1 if kind == "not" else 2))))
    return nodes


def query_by_chance(random):
    """Alternatives, each the filters of its blocks and its group filter."""
    left = 64
    alternatives = []
    for _ in range(random.randint(1, 3)):
        filters = []
        for _ in range(random.randint(0, 2) + 1):
            filters.append(nodes_by_chance(random, min(16, left)))
            while len(filters[-1]) > left:
                filters[-1].pop()
            left -= len(filters[-1])
        alternatives.append((filters[:-1], filters[-1]))
    return alternatives


def filter_bytes(nodes):
    kinds = ["equal", "less", "bound", "not", "and", "or"]
    found = seven_bits(len(nodes))
    for kind, *operands in nodes:
        found += seven_bits(kinds.index(kind) + 1)
        for operand in operands:
            if isinstance(operand, tuple):
                what, value = operand
                operand = 2 * value + (what == "variable")
            found += seven_bits(operand)
    return found


def query_bytes(alternatives):
    """The query's bytes; each block has one triple, of terms, and nothing is required."""
    found = seven_bits(len(alternatives))
    for blocks, group in alternatives:
        found += seven_bits(0) + seven_bits(len(blocks))
        for nodes in blocks:
            found += seven_bits(1) + 3 * seven_bits(2) + filter_bytes(nodes)
        found += filter_bytes(group)
    return found


def compare(kind, said, first, second):
    """Equal or less of two numbers; None is an error."""
    if first == 0 or second == 0:
        return None
    (one, left), (other, right) = said(first), said(second)
    if one == INTEGER and other == INTEGER:
        return left == right if kind == "equal" else left < right
    return first == second if kind == "equal" else None


def truth(nodes, row, said):
    """True, False, or None for an error: what the filter is on the row, node after node."""
    found = []
    for kind, *operands in nodes:
        if kind in ("equal", "less"):
            first, second = (row[value] if what == "variable" else value for what, value in operands)
            found.append(compare(kind, said, first, second))
        elif kind == "bound":
            found.append(row[operands[0]] != 0)
        elif kind == "not":
            below = found[operands[0]]
            found.append(None if below is None else not below)
        else:
            below = [found[operand] for operand in operands]
            decides = kind == "or"
            if decides in below:
                found.append(decides)
            else:
                found.append(None if None in below else not decides)
    return found[-1] if found else True


def case(random):
    """Commands, and the answer of each: a text, or the beginning of one."""
    commands, said = inline() if random.random() < 0.3 else listed(random)
    alternatives = query_by_chance(random)
    bytes_of = " ".join(f"{byte:02X}" for byte in query_bytes(alternatives))
    wanted = ["catalogue: ", "query: "]
    commands = [*commands, f"query {bytes_of}"]
    words = {True: "true", False: "false", None: "error"}
    for _ in range(ROWS):
        row = [number(random, 0) if random.random() < 0.5 else 0 for _ in range(VARIABLES)]
        values = " ".join(map(str, row))
        for a, (blocks, group) in enumerate(alternatives):
            commands.append(f"filter {a} {values}")
            wanted.append(words[truth(group, row, said)])
            for b, nodes in enumerate(blocks):
                commands.append(f"filter {a} {b} {values}")
                wanted.append(words[truth(nodes, row, said)])
            commands.append(f"filter {a} {len(blocks)} {values}")
            wanted.append("error: expected a block of the current query")
        commands.append(f"filter {len(alternatives)} {values}")
        wanted.append("error: expected an alternative of the current query")
    return commands, wanted


def main(program, seed, count):
    random = Random(int(seed))
    commands, wanted = [], []
    for _ in range(int(count)):
        more, answers = case(random)
        commands += more
        wanted += answers
    lines = "\n".join(commands) + "\n"
    done = subprocess.run([program], input=lines, text=True, stdout=subprocess.PIPE, check=True)
    got = done.stdout.splitlines()
    if len(got) != len(wanted):
        sys.exit(f"{len(got)} answers, {len(wanted)} expected")
    for place_of, (answer, expected) in enumerate(zip(got, wanted)):
        if answer != expected and not (expected.endswith(": ") and answer.startswith(expected)):
            sys.exit(f"answer {place_of}: {answer!r}, expected {expected!r}")
    kinds = {word: sum(answer == word for answer in got) for word in ("true", "false", "error")}
    print(f"seed {seed}: {count} cases, {len(got)} answers, {kinds}, none different")


if __name__ == "__main__":
    main(*sys.argv[1:])
