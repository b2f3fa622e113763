#!/usr/bin/env python3
"""Lists the places of src/ and proofs/ that docs/DESIGN-PASS.md counts, point by point.

usage: python3 tools/places.py [POINT..]    at the top of a checkout; without a point only the counts

Points: 1 own enums, and numbers that stand for a kind; 2 functions of one name or form in several copies; 3 loops that count by hand; 4 conversions, comparisons and
digits written by hand; 5 functions of six and more parameters, and facts required of three and more functions; 6 arrays with a length or place beside them, and offsets
into one array; 7 a match that picks the call; 8 answers, and names that only repeat `c`.
"""

import collections
import os
import re
import sys


def read(kind, end):
    for root, _, names in sorted(os.walk("crates")):
        if f"/{kind}" in root and "/out" not in root:
            for name in sorted(names):
                if name.endswith(end):
                    path = os.path.join(root, name)
                    yield path, open(path, encoding="utf-8").read()


def lines(pattern):
    found = []
    for path, text in read("src", ".rt"):
        for number, line in enumerate(text.split("\n"), 1):
            if not line.lstrip().startswith("//") and re.search(pattern, line):
                found.append(f"{path}:{number}: {line.strip()}")
    return found


def functions():
    """Path, name, parameters and clauses of each function."""
    for path, text in read("src", ".rt"):
        for m in re.finditer(r"\bfn (\w+)(?:<[^>{]*>)?\(([^)]*)\)([^{]*?)(?=\n\s*(?:requires|ensures)|\s*\{)((?:\s*(?:requires|ensures)[^\n]*\n)*)", text):
            params = [p.strip() for p in re.split(r",(?![^<]*>)", m[2].replace("\n", " ")) if p.strip()]
            yield path, m[1], params, m[4]


# Enums that are no Option and no Result: what they name is one of several things, or an error.
PROPER = r"(Refusal|Token|Operator|NodeKind|EntryKind|PartKind|Colour|Failing|Request|Stop|Expected|\w+Error)"


def point1():
    own = [x for x in lines(r"^\s*(pub(\(\w+\))? )?enum \w") if not re.search(rf"enum {PROPER}\b", x)]
    return own + lines(r"\b(every|kind|op|or|one): (u8|usize)\b|\bover: u8|\bmatch (k|op|kind_at\(.*\)) \{|\bmark: u8,$|-> u32 *$.*packed")


def point2():
    # Methods of a trait take `&self`: its impls are no copies of one another.
    names = collections.defaultdict(list)
    for path, name, params, _ in functions():
        if "/trials/" not in path and params[:1] != ["&self"]:
            names[name].append(path)
    twins = r"^(number|place|length|wide|wide_u32|byte_as_u32|both|or|and|verdict)$|^(no|zero)_(places|body|sums|hints|keys|bytes|depths|benches|bench)$|_(small|middle|largest)$"
    return [f"{path}: {name}" for name, paths in sorted(names.items()) for path in paths if re.search(twins, name)]


def point3():
    return lines(r"^\s*(while|loop)\b")


def point4():
    hand = r"^(wide\w*|byte_as_u32|same\w*|comes_before|is_digit|is_letter|is_word_byte|digit|high|low|less_one|latest|at_most_32|power|both\w*|below_and_zero|range_right|or|and|not_among|between|add_visits|wrapping_mul|number_at|put_number|two_bytes|byte_is|one_more)$"
    return [f"{path}: {name}" for path, name, _, _ in functions() if re.search(hand, name)]


def point5():
    many = [f"{path}: {name} ({len(params)} parameters)" for path, name, params, _ in functions() if len(params) >= 6]
    facts = collections.defaultdict(set)
    for path, name, _, clauses in functions():
        for fact in re.findall(r"requires \w*\s*\{ (.*?) \}", clauses):
            for part in re.split(r" × ", fact):
                facts[(path.split("/")[1], part.strip("() "))].add(name)
    return many + [f"{crate}: {fact}: {len(names)} functions" for (crate, fact), names in sorted(facts.items()) if len(names) >= 3]


def point6():
    buffer = r"^(\w+): &(mut )?(\[|Body|Places|Marks|Queue|Order|Heads|Links|Firsts|Lasts|Index|Buffer)"
    beside = r"^(at|count|n|waiting|known|done|total|cells|size|held): (usize|Counts)$"
    found = []
    for path, name, params, _ in functions():
        if any(re.match(buffer, p) for p in params) and any(re.match(beside, p) for p in params):
            found.append(f"{path}: {name}")
    return found + lines(r"^\s*(pub(\(\w+\))? )?(type \w+ = \[|const \w+_AT: )")


def point7():
    return lines(r"match number \{")


def point8():
    found = []
    for path, text in read("proofs", ".antt"):
        for number, line in enumerate(text.split("\n"), 1):
            if re.match(r"pub \S+ : goal\.", line) or re.search(r"^\s*let [\w-]+ = (c|at[\w-]*|start) in$", line):
                found.append(f"{path}:{number}: {line.strip()}")
    return found


POINTS = [point1, point2, point3, point4, point5, point6, point7, point8]

for number, point in enumerate(POINTS, 1):
    places = point()
    if str(number) in sys.argv[1:]:
        print("\n".join(places))
    print(f"point {number}: {len(places)}")
