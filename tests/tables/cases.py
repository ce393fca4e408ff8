#!/usr/bin/env python3
"""Tables, layers and questions for the console, with the answers that the rules give.

Makes small tables by chance, each list of triples once as a row store and once as a property store, lays
one layering over each (none, inverse, withdrawn, or withdrawn over inverse), and asks seek and leap at every
selector shape. The answers come from plain sets of triples and loops over all of them, and from nothing of
the console.

It keeps count of what was asked. For each kind of table under each layering, seek must have been asked at
each of the 8 selector shapes, and leap at each position with each shape of the other two; and there, at each
place of the start, at the bound, and at each place of the selector that is not free, a number that is 0 (in a
selector 0 is a free place), one that is over the top, and the last of 32 bits. A layering counts only where
each of its layers adds or takes a triple. Where a number is still missing, it is put in now and then.

    cases.py commands      the commands, one a line
    cases.py answers       the answer lines
    cases.py check         whether the console's stored session ends with both, and nothing is missing
    cases.py run PROGRAM   whether the program answers the commands so; `cases.py run PROGRAM SEED COUNT`
                           takes other stores
    cases.py load PROGRAM  whether the program takes 1,000,000 triples as rows and then as pairs, and answers
                           questions about both, in 20 seconds; and says how far it is as it should
"""
import itertools
import os
import random
import subprocess
import sys
import time

SEED = 3
COUNT = 250
LAST = 4294967295
POSITIONS = ("subject", "property", "object")
SHAPES = list(itertools.product((0, 1), repeat=3))
KINDS = ("row store", "property store")
LAYERINGS = ("none", "inverse", "withdrawn", "withdrawn over inverse")
SORTS = ("0", "over the top", "the last of 32 bits")
REMARK = "# Many small tables, made by tests/tables/cases.py, which also gives their answers.\n"
MILLION = 1000000
SECONDS = 20
HERE = os.path.dirname(os.path.abspath(__file__))
CONSOLE = os.path.join(HERE, "..", "..", "crates", "feedtrace")
EXAMPLE = os.path.join(HERE, "..", "..", "examples", "recall")


def matches(selector, triple):
    return all(want in (0, number) for want, number in zip(selector, triple))


def seek(triples, selector, start):
    found = [t for t in triples if matches(selector, t) and t >= start]
    return min(found) if found else None


def leap(triples, position, selector, bound):
    found = [t[position] for t in triples if matches(selector, t) and t[position] >= bound]
    return min(found) if found else None


def trace(triples, term):
    reached, front = [], {term}
    while front:
        front = {o for s, _, o in triples if s in front} - set(reached)
        reached += sorted(front)
    return reached


def row_fault(top, rows):
    """The refusal of a row table, or none; by 4 at the first row that is not above the one before it."""
    if top > MILLION or len(rows) > MILLION:
        return 1, 0
    for i, row in enumerate(rows):
        if any(not 1 <= number <= top for number in row):
            return 3, i
    for i in range(1, len(rows)):
        if not rows[i - 1] < rows[i]:
            return 4, i
    return None


def ends(directory, pairs):
    return [first for _, first in directory[1:]] + [len(pairs)]


def property_fault(top, directory, pairs):
    if top > MILLION or len(directory) > 4096 or len(pairs) > MILLION:
        return 1, 0
    if pairs and not directory:
        return 2, 0
    for i, (number, first) in enumerate(directory):
        good = 1 <= number <= top and first <= len(pairs)
        if i == 0:
            good = good and first == 0
        else:
            good = good and directory[i - 1][0] < number and directory[i - 1][1] <= first
        if not good:
            return 2, i
    for i, pair in enumerate(pairs):
        if any(not 1 <= number <= top for number in pair):
            return 3, i
    for (_, first), end in zip(directory, ends(directory, pairs)):
        for i in range(first + 1, end):
            if not pairs[i - 1] < pairs[i]:
                return 4, i
    return None


class Talk:
    """Commands, and what each is to be answered."""

    def __init__(self):
        self.commands, self.answers = [], []
        self.missing = Missing()

    def say(self, command, *answers):
        self.commands.append(command)
        self.answers += answers

    def line(self, command):
        self.say(command)

    def add(self, other):
        self.commands += other.commands
        self.answers += other.answers

    def rows(self, top, rows):
        self.line(f"row-store {top}")
        for row in rows:
            self.line("%d %d %d" % row)
        fault = row_fault(top, rows)
        good = f"row store: top {top}, {len(rows)} triples"
        self.say("end", "refused %d at %d" % fault if fault else good)
        return fault is None

    def properties(self, random, top, directory, pairs):
        self.line(f"property-store {top}")
        lines = [f"property {p} {first}" for p, first in directory]
        others = [f"pair {s} {o}" for s, o in pairs]
        while lines or others:
            if others and (not lines or random.random() < 0.5):
                self.line(others.pop(0))
            else:
                self.line(lines.pop(0))
        fault = property_fault(top, directory, pairs)
        good = f"property store: top {top}, {len(directory)} properties, {len(pairs)} pairs"
        self.say("end", "refused %d at %d" % fault if fault else good)
        return fault is None


def numbers(random, top):
    """A number of any sort: a term, 0, over the top, or the last of 32 bits."""
    term = random.randint(1, max(top, 1))
    return random.choice([term, term, 0, top, top + 1, LAST])


def sort_of(top, number):
    """Which of the sorts the number is, or none where it is a term."""
    if number in (0, LAST):
        return SORTS[0] if number == 0 else SORTS[2]
    return SORTS[1] if number > top else None


def places(question):
    """The places of a question's numbers, each with the sorts that can stand there."""
    call, shape = question
    if call == "seek":
        yield from ((("start", name), SORTS) for name in POSITIONS)
    else:
        yield ("bound", call), SORTS
    yield from ((("selector", name), SORTS[1:]) for known, name in zip(shape, POSITIONS) if known)


QUESTIONS = [("seek", shape) for shape in SHAPES] + [
    (name, shape) for place, name in enumerate(POSITIONS) for shape in SHAPES if not shape[place]
]


class Missing:
    """What is still to be asked: kind, layering, question, place, and sort of number."""

    def __init__(self):
        self.left = {
            (kind, layering, question, place, sort)
            for kind in KINDS
            for layering in LAYERINGS
            for question in QUESTIONS
            for place, sorts in places(question)
            for sort in sorts
        }

    def steer(self, random, table, question, place, number):
        """The number, or now and then one of a sort that is still missing at this place of the question."""
        about = (table.kind, table.layering, question, place)
        left = [sort for sort in SORTS if table.counts and about + (sort,) in self.left]
        if not left or random.random() < 0.6:
            return number
        return {SORTS[0]: 0, SORTS[1]: table.top + 1, SORTS[2]: LAST}[random.choice(left)]

    def asked(self, table, question, place, number):
        """Counts the number, if the table's layering counts."""
        if table.counts:
            self.left.discard((table.kind, table.layering, question, place, sort_of(table.top, number)))

    def lines(self):
        """What is missing, a line each."""
        for kind, layering, (call, shape), (what, name), sort in sorted(self.left):
            at = call if call == "seek" else f"leap {call}"
            where = what if what == "bound" else f"{what}'s {name}"
            form = " ".join("1" if known else "0" for known in shape)
            yield f"{kind}, {layering}: {at}, shape {form}: the {where} is never {sort}"


def put(random, missing, table, question, wanted, rest):
    """The selector and the start or bound of a question, steered to what is missing, and counted."""
    call, shape = question
    ends = [("start", name) for name in POSITIONS] if call == "seek" else [("bound", call)]
    entries = [("selector", name) for name in POSITIONS]
    rest = tuple(missing.steer(random, table, question, *pair) for pair in zip(ends, rest))
    selector = tuple(
        missing.steer(random, table, question, *pair) if known else 0
        for known, pair in zip(shape, zip(entries, wanted))
    )
    for place, number in zip(ends + entries, rest + selector):
        missing.asked(table, question, place, number)
    return selector, rest


def ask_seek(random, talk, table, shape, wanted):
    start = tuple(numbers(random, table.top) for _ in range(3))
    if table.triples and random.random() < 0.5:
        start = random.choice(sorted(table.triples))
    selector, start = put(random, talk.missing, table, ("seek", shape), wanted, start)
    found = seek(table.triples, selector, start)
    talk.say(
        "seek %d %d %d from %d %d %d" % (selector + start),
        "triple %d %d %d" % found if found else "none",
    )


def ask_leap(random, talk, table, place, shape, wanted):
    name = POSITIONS[place]
    bound = numbers(random, table.top)
    selector, (bound,) = put(random, talk.missing, table, (name, shape), wanted, (bound,))
    value = leap(table.triples, place, selector, bound)
    talk.say(
        "leap %s %d %d %d from %d" % ((name,) + selector + (bound,)),
        "none" if value is None else f"value {value}",
    )


def ask_scan(talk, triples, selector):
    listed = sorted(t for t in triples if matches(selector, t))
    talk.say("scan %d %d %d" % selector, *["%d %d %d" % t for t in listed], f"{len(listed)} triples")


def ask_trace(talk, triples, term):
    reached = trace(triples, term)
    talk.say(f"trace {term}", *map(str, reached), f"{len(reached)} terms reached")


def ask(random, talk, table):
    """Seek and leap at every selector shape, a scan at some, and one trace."""
    for shape in SHAPES:
        known = random.choice(sorted(table.triples)) if table.triples and random.random() < 0.7 else None
        wanted = known or tuple(numbers(random, table.top) or 1 for _ in range(3))
        ask_seek(random, talk, table, shape, wanted)
        for place in range(3):
            if not shape[place]:
                ask_leap(random, talk, table, place, shape, wanted)
        if random.random() < 0.3:
            ask_scan(talk, table.triples, tuple(n if there else 0 for n, there in zip(wanted, shape)))
    ask_trace(talk, table.triples, numbers(random, table.top))


class Table:
    """A table that is current: its kind, its top, its layering, whether that counts, and what is there."""

    def __init__(self, kind, top, layering, counts, triples):
        self.kind, self.top, self.layering, self.counts, self.triples = kind, top, layering, counts, triples


def lay_inverse(random, talk, top, triples):
    """Lays an inverse; the triples that are then there, or None where it is refused."""
    p, q = numbers(random, top), numbers(random, top)
    if random.random() < 0.7:
        p, q = random.randint(1, min(max(top, 1), 5)), random.randint(1, min(max(top, 1), 5))
    if 1 <= p <= top and 1 <= q <= top:
        talk.say(f"inverse {p} {q}", f"inverse: {p} {q}")
        return triples | {(o, q, s) for s, n, o in triples if n == p}
    talk.say(f"inverse {p} {q}", "refused 25 at 0")
    return None


def lay_withdrawn(random, talk, top, below):
    """Lays what can be withdrawn from, withdraws and restores; the triples that are then there."""
    talk.say("withdrawn", "withdrawn: none")
    gone = set()
    for _ in range(random.randint(1, 6)):
        triple = random.choice(sorted(below)) if below and random.random() < 0.8 else tuple(
            numbers(random, top) for _ in range(3)
        )
        if random.random() < 0.7:
            refusal = 21 if triple in gone else 22 if triple not in below else None
            if refusal is None:
                gone.add(triple)
            command = "withdraw"
        else:
            refusal = None if triple in gone else 24
            gone.discard(triple)
            command = "restore"
        answer = f"withdrawn: {len(gone)}" if refusal is None else f"refused {refusal} at 0"
        talk.say("%s %d %d %d" % ((command,) + triple), answer)
    return below - gone


def layer(random, talk, kind, top, triples):
    """Lays one layering by chance; what is then current. It counts where each layer changes what is there."""
    layers, counts, there = [], True, set(triples)
    for name, lay in (("inverse", lay_inverse), ("withdrawn", lay_withdrawn)):
        then = lay(random, talk, top, there) if random.random() < 0.6 else None
        if then is not None:
            layers.insert(0, name)
            counts = counts and then != there
            there = then
    return Table(kind, top, " over ".join(layers) or "none", counts, there)


def spoil(random, top, directory, pairs):
    """The table with one thing changed that may break a rule."""
    directory, pairs = list(directory), list(pairs)
    kind = random.randrange(4)
    if kind == 0 and directory:
        i = random.randrange(len(directory))
        directory[i] = (numbers(random, top), directory[i][1])
    elif kind == 1 and directory:
        i = random.randrange(len(directory))
        directory[i] = (directory[i][0], random.randint(0, len(pairs) + 1))
    elif kind == 2 and pairs:
        pairs[random.randrange(len(pairs))] = (numbers(random, top), numbers(random, top))
    elif kind == 3:
        directory = []
    return directory, pairs


def falls(directory, pairs):
    """How often a pair is not above the one before it in its entry."""
    return sum(
        not pairs[i - 1] < pairs[i]
        for (_, first), end in zip(directory, ends(directory, pairs))
        for i in range(first + 1, end)
    )


def fill(talk):
    """As many triples withdrawn as there is room for, and one more."""
    rows = [(n, 1, 1) for n in range(1, 258)]
    talk.rows(258, rows)
    talk.say("withdrawn", "withdrawn: none")
    for count, row in enumerate(rows[:-1], 1):
        talk.say("withdraw %d %d %d" % row, f"withdrawn: {count}")
    talk.say("withdraw 257 1 1", "refused 23 at 0")
    talk.say("withdraw 258 1 1", "refused 22 at 0")
    talk.say("withdraw 1 1 1", "refused 21 at 0")
    talk.say("restore 257 1 1", "refused 24 at 0")
    talk.say("restore 1 1 1", "withdrawn: 255")
    talk.say("withdraw 1 1 1", "withdrawn: 256")
    talk.say("withdraw 257 1 1", "refused 23 at 0")
    talk.say("scan 0 0 0", "257 1 1", "1 triples")


def cases(seed, count):
    rng = random.Random(seed)
    talk = Talk()
    for _ in range(count):
        top = rng.choice([0, 1, 2, 3, 5, 7, 1000000])
        terms = list(range(1, top + 1)) if top < 10 else [1, 2, 3, 999999, 1000000]
        size = rng.randint(0, 9) if terms else 0
        triples = sorted({tuple(rng.choice(terms) for _ in range(3)) for _ in range(size)})
        talk.rows(top, triples)
        ask(rng, talk, layer(rng, talk, "row store", top, triples))
        named = {p for _, p, _ in triples}
        if terms and rng.random() < 0.4:
            named.add(rng.choice(terms))
        directory, pairs = [], []
        for number in sorted(named):
            directory.append((number, len(pairs)))
            pairs += sorted((s, o) for s, p, o in triples if p == number)
        bad = spoil(rng, top, directory, pairs)
        fault = property_fault(top, *bad)
        if fault and (fault[0] != 4 or falls(*bad) == 1):
            talk.properties(rng, top, *bad)
        talk.properties(rng, top, directory, pairs)
        ask(rng, talk, layer(rng, talk, "property store", top, triples))
        rows = list(triples)
        if rows:
            rows[rng.randrange(len(rows))] = tuple(numbers(rng, top) for _ in range(3))
            fault = row_fault(top, rows)
            once = sum(not rows[i - 1] < rows[i] for i in range(1, len(rows))) < 2
            if fault and (fault[0] != 4 or once):
                talk.rows(top, rows)
    fill(talk)
    talk.line("row-store 1")
    talk.say("1 1 1", "error: expected end")
    return talk


def lines(texts):
    return "".join(text + "\n" for text in texts)


def check(talk):
    """Whether the stored session ends with the commands and the answers, and everything was asked.

    The example is to stand in the session too, so that it is run.
    """
    with open(os.path.join(CONSOLE, "stdin")) as file:
        session = file.read()
    asked = session.partition(REMARK)[2] == lines(talk.commands)
    with open(EXAMPLE) as file:
        shown = file.read() in session
    with open(os.path.join(CONSOLE, "stdout")) as file:
        answered = file.read().endswith(lines(talk.answers))
    print("the stored session ends with the commands:", asked, "and with the answers:", answered)
    print("it has the example:", shown)
    missing = list(talk.missing.lines())
    for line in missing:
        print(line)
    print(f"{len(missing)} of {len(Missing().left)} numbers at their places are missing")
    return asked and answered and shown and not missing


def run(program, talk, about):
    """Whether the program answers the commands so."""
    said = subprocess.run([program], input=lines(talk.commands), capture_output=True, text=True)
    good = said.returncode == 0 and said.stdout == lines(talk.answers)
    print(f"{about}, {len(talk.commands)} lines: {'as expected' if good else 'DIFFERENT'}")
    if not good:
        print(f"status {said.returncode}; {difference(said.stdout, lines(talk.answers))}")
    return good


def difference(got, wanted):
    """The first line that differs."""
    for i, (a, b) in enumerate(itertools.zip_longest(got.splitlines(), wanted.splitlines())):
        if a != b:
            return f"line {i + 1}: got {a!r}, expected {b!r}"
    return "no line differs"


class Long(Talk):
    """Tables of a million, with a blank line or a remark before each tenth line, and what is said on the way.

    So the millionth line behind the command is none of the list, and neither is the one behind the list's
    hundred thousandth.
    """

    BETWEEN = ("", "# A remark.", "   ")

    def __init__(self):
        super().__init__()
        self.said = []

    def table(self, command, texts, answer):
        """A table: its lines with those between, and what is said at each hundred thousandth of both."""
        self.line(command)
        first = len(self.commands)
        for i, text in enumerate(texts):
            if i % 10 == 0:
                self.line(self.BETWEEN[i // 10 % 3])
            self.line(text)
        count = len(self.commands) - first
        self.said += [f"{n} lines of the table read" for n in range(100000, count + 1, 100000)]
        self.say("end", answer)


def long_questions(triples):
    """A few seeks and leaps, a scan and a trace, with their answers."""
    talk = Talk()
    middle = triples[len(triples) // 2]
    for selector, start in [
        ((0, 0, 0), middle),
        ((0, 7, 0), middle),
        ((0, 0, middle[2]), (0, 0, 0)),
        (middle, (LAST, LAST, LAST)),
    ]:
        found = seek(triples, selector, start)
        answer = "triple %d %d %d" % found if found else "none"
        talk.say("seek %d %d %d from %d %d %d" % (selector + start), answer)
    for place, name in enumerate(POSITIONS):
        value = leap(triples, place, (0, 0, 0), middle[place])
        talk.say(f"leap {name} 0 0 0 from {middle[place]}", f"value {value}")
    ask_scan(talk, triples, (0, 7, 0))
    ask_trace(talk, triples, middle[0])
    return talk


def a_million(rng):
    """As many triples, ascending."""
    found = set()
    while len(found) < MILLION:
        found.add((rng.randint(1, 300000), rng.randint(1, 50), rng.randint(1, 400000)))
    return sorted(found)


def long_tables(triples):
    """The triples as a row store, then as a property store, with the same questions to each."""
    talk, asked = Long(), long_questions(triples)
    answer = f"row store: top {MILLION}, {MILLION} triples"
    talk.table(f"row-store {MILLION}", ["%d %d %d" % triple for triple in triples], answer)
    talk.add(asked)
    texts, named, last = [], 0, None
    for i, (p, s, o) in enumerate(sorted((p, s, o) for s, p, o in triples)):
        if p != last:
            texts.append(f"property {p} {i}")
            named, last = named + 1, p
        texts.append(f"pair {s} {o}")
    answer = f"property store: top {MILLION}, {named} properties, {MILLION} pairs"
    talk.table(f"property-store {MILLION}", texts, answer)
    talk.add(asked)
    return talk


def load(program):
    """Whether the program takes long tables in time, answers rightly, and says how far it is."""
    talk = long_tables(a_million(random.Random(SEED)))
    text = lines(talk.commands)
    began = time.monotonic()
    try:
        said = subprocess.run([program], input=text, capture_output=True, text=True, timeout=SECONDS)
    except subprocess.TimeoutExpired:
        print(f"not answered in {SECONDS} seconds")
        return False
    print(f"{len(talk.commands)} lines, {len(talk.answers)} answers: {time.monotonic() - began:.1f} seconds")
    good = said.returncode == 0
    if not good:
        print(f"status {said.returncode}")
    for what, got, wanted in [
        ("answers", said.stdout, lines(talk.answers)),
        ("standard error", said.stderr, lines(talk.said)),
    ]:
        print(f"{what}: {'as expected' if got == wanted else 'DIFFERENT, ' + difference(got, wanted)}")
        good = good and got == wanted
    return good


def main(arguments):
    what = arguments[1] if len(arguments) > 1 else ""
    if what == "load" and len(arguments) == 3:
        return 0 if load(arguments[2]) else 1
    seed, count = (int(n) for n in arguments[3:5]) if len(arguments) > 4 else (SEED, COUNT)
    talk = cases(seed, count)
    if what == "commands":
        sys.stdout.write(lines(talk.commands))
    elif what == "answers":
        sys.stdout.write(lines(talk.answers))
    elif what == "check":
        return 0 if check(talk) else 1
    elif what == "run" and len(arguments) > 2:
        return 0 if run(arguments[2], talk, f"seed {seed}, {count} stores") else 1
    else:
        print(__doc__)
        return 2
    return 0


if __name__ == "__main__":
    sys.exit(main(sys.argv))
