#!/usr/bin/env python3
"""Lists places in crates/*/src for a look, one a line, and how many there are.

Use, at the top of the repository:
    python3 tools/places.py shapes    cases of own enums that say none or why not, flags, numbers for answers
    python3 tools/places.py twins     functions whose bodies have one shape (other names, numbers and texts)
    python3 tools/places.py loops     loops over a range of numbers, and loops on a test
    python3 tools/places.py forms     comparing, converting and printing by hand, by the names that it goes by
    python3 tools/places.py travel    two or more parameters, by name and type, that three functions share
    python3 tools/places.py clauses   clauses of contracts that stand in three functions or more
    python3 tools/places.py buffers   arrays with a fixed room, searches by hand, places of a list as fields
    python3 tools/places.py switches  a match on what is to be done
    python3 tools/places.py proofs    lines of answers and of other proofs, by crate

A list is a place to look at, no verdict. `twins` compares functions of at least 20 words, tests left out.
"""
import collections
import difflib
import glob
import itertools
import re
import sys

WORD = re.compile(r"b?'(?:\\.|[^'\\])'|b?\"(?:\\.|[^\"\\])*\"|[^\W\d]\w*|\d[\w.]*|\S")
LINES = {
    "shapes": r"^    (Nothing|Absent|Other|Malformed|Error|Refused|Memory)\b(?! = )"
    r"|fn .*&mut .*-> bool|Option<(Rejection|Expected)>|Result<Result|-> u8$|: bool,$"
    r"|fn (numbers?_of)\(found",
    "loops": r"^ *('[a-z]+: )?(for [a-z_]+ in .*\.\.|while |loop )",
    "forms": r"fn (is_same|is_before|is_below|later_of|first_term|floor|selector|number|code|fits|number_at"
    r"|from_number|from_code|put_[a-z]+|value_of|(selector|triple|numbers?)_of)\b",
    "buffers": r"^ *(pub(\(crate\))? )?[a-z_]+: \[[A-Za-z]+; |while low|(-> |: )Span\b|^ +(Not|And|Or)\(u32",
    "switches": r"match (step|task|verb|command|kind|self\.answer)\b",
}
KEPT = set("let mut if else match for in while loop return fn Some None Ok Err self true false break as".split())


def functions():
    """Each function as (file, name, parameters, clauses, body)."""
    for file in sorted(glob.glob("crates/*/src/*.rt")):
        text = open(file, encoding="utf-8").read()
        text = re.sub(r"^\s*//.*$", "", text, flags=re.M)
        for m in re.finditer(r"(#\[test\]\s*)?(?:pub(?:\(crate\))? )?(?:final )?fn (\w+)", text):
            if not m[1]:
                yield (file, m[2]) + parts(text, m.end())


def parts(text, at):
    """Parameters, clauses and body of the function whose name ends at `at`."""
    depth, angle, i = 0, 0, text.index("(", at) if text[at] != "<" else at
    while text[i] != "(" or angle:
        angle += (text[i] == "<") - (text[i] == ">" and text[i - 1] != "-")
        i += 1
    start = i
    while True:
        depth += (text[i] == "(") - (text[i] == ")")
        i += 1
        if depth == 0:
            break
    params = text[start + 1 : i - 1]
    clauses, blocks = [], []
    while True:
        m = re.compile(r"\s*(?:->[^{;]*?)?\s*(requires|ensures)\s*(\w+)?\s*\{").match(text, i)
        if not m:
            break
        block, i = braces(text, m.end() - 1)
        clauses.append((m[1], " ".join(block.split())))
    m = re.compile(r"[^{;]*").match(text, i)
    body = braces(text, m.end())[0] if text[m.end() : m.end() + 1] == "{" else ""
    return params, clauses, body


def braces(text, at):
    """What stands between the braces that open at `at`, and the place behind them."""
    depth = 0
    for i in range(at, len(text)):
        depth += (text[i] == "{") - (text[i] == "}")
        if depth == 0:
            return text[at + 1 : i], i + 1
    return text[at + 1 :], len(text)


def shape(body):
    """The body with every name, number and text taken for one."""
    out = []
    for word in WORD.findall(body):
        if word in KEPT or not re.match(r"[\w'\"]", word):
            out.append(word)
        else:
            out.append("a" if re.match(r"[^\W\d]", word) else "1")
    return out


def twins():
    found = [(f, n, shape(b)) for f, n, _, _, b in functions()]
    found = [x for x in found if len(x[2]) >= 20]
    group = {i: i for i in range(len(found))}

    def top(i):
        return i if group[i] == i else top(group[i])

    for i, j in itertools.combinations(range(len(found)), 2):
        a, b = found[i][2], found[j][2]
        if abs(len(a) - len(b)) * 8 <= len(a):
            if a == b or difflib.SequenceMatcher(None, a, b, False).ratio() >= 0.92:
                group[top(j)] = top(i)
    sets = collections.defaultdict(list)
    for i, (file, name, _) in enumerate(found):
        sets[top(i)].append(f"{file[7:]}:{name}".replace("/src", ""))
    return [", ".join(s) for s in sets.values() if len(s) > 1]


def travel():
    where = collections.defaultdict(set)
    for file, name, params, _, _ in functions():
        names = sorted(p.strip() for p in re.split(r",(?![^<(\[]*[>)\]])", params) if ":" in p)
        for size in (2, 3):
            for some in itertools.combinations(names, size):
                where[some].add(f"{file[7:]}:{name}".replace("/src", ""))
    rows = [(some, w) for some, w in where.items() if len(w) >= 3]
    rows = [r for r in rows if not any(set(r[0]) < set(s[0]) and r[1] <= s[1] for s in rows)]
    return ["(" + ", ".join(some) + "): " + ", ".join(sorted(w)) for some, w in rows]


def clauses():
    where = collections.defaultdict(set)
    for file, name, _, those, _ in functions():
        for kind, text in those:
            where[kind, text].add(f"{file[7:]}:{name}".replace("/src", ""))
    return [f"{k} {{ {t} }}: " + ", ".join(sorted(w)) for (k, t), w in where.items() if len(w) >= 3]


def lines(pattern):
    rows = []
    for file in sorted(glob.glob("crates/*/src/*.rt")):
        for i, line in enumerate(open(file, encoding="utf-8"), 1):
            if re.search(pattern, line):
                rows.append(f"{file[7:]}:{i}: {line.strip()}".replace("/src", ""))
    return rows


def proofs():
    rows = []
    for crate in sorted(glob.glob("crates/*/")):
        files = glob.glob(crate + "proofs/**/*.antt", recursive=True)
        long = {f: sum(1 for _ in open(f, encoding="utf-8")) for f in files}
        answers = sum(n for f, n in long.items() if f.endswith("/Answers.antt"))
        rows.append(f"{crate[7:-1]}: {answers} lines of answers, {sum(long.values()) - answers} of all else")
    return rows


if __name__ == "__main__":
    lists = {"twins": twins, "travel": travel, "clauses": clauses, "proofs": proofs}
    if len(sys.argv) != 2 or sys.argv[1] not in [*lists, *LINES]:
        sys.exit(__doc__)
    rows = lists[sys.argv[1]]() if sys.argv[1] in lists else lines(LINES[sys.argv[1]])
    for row in rows:
        print(row)
    print(len(rows))
