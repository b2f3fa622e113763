#!/usr/bin/env python3
"""Brings the names of definitions, lemmas and modules of this repository to today's spelling: words in snake case, modules in camel case.

usage: python3 tools/respell.py            at the top, once, on a tree that port.py has turned
       python3 tools/respell.py --table    writes tools/respelled.tsv anew from the tree, before the first run

tools/respelled.tsv has a row for each name: old, a tab, new. Where a name of the new spelling stood already, or two names would fall together,
the lemma gets `_lem`; in the table as it stands a field of specs/ then has `_holds` and a constructor `_rule` instead. What turns: specs/ and proofs/, clauses, `ghost use` items and code spans of comments in src/, must-fail edits, code spans of pages.
Functions of src/, strings, inputs and outputs keep their names.
"""

import collections
import os
import re
import subprocess
import sys
import tempfile

HERE = os.path.dirname(os.path.abspath(__file__))
TOP = os.path.dirname(HERE)
TABLE = os.path.join(HERE, "respelled.tsv")
SNAKE = "/opt/rattle/port/notes/2026-11-18-names-are-in-snake-case/snake.py"
NAME = r'[^\s(){}.;,@"«»]+'
MODULE = re.compile(r"crates/(\w+)/(specs|proofs)/([a-z]\w*)\.antt$")
CAMEL = re.compile(r"[a-z]\w*[A-Z]|[a-z][A-Z]")
DECLARED = re.compile(rf"^ *(?:(?:pub|abbrev|unfoldable|data|record) +)*({NAME})(?: [({{][^(){{}}\n]*[)}}])* :(?= |$)", re.M)
ANSWERS = re.compile(r"/proofs/(?:[a-z]\w*/)*[+a-z]\w*/(Proof|Answers|Invariants)\.antt$")


def files(*ends):
    for folder, dirs, names in os.walk(os.path.join(TOP, "crates")):
        dirs[:] = sorted(d for d in dirs if d != "out")
        for n in sorted(names):
            if n.endswith(ends):
                yield os.path.join(folder, n)


def read(path):
    with open(path, encoding="utf-8") as f:
        return f.read()


def write(path, text):
    with open(path, "w", encoding="utf-8") as f:
        f.write(text)


def snake(name):
    words = re.sub(r"(?<=[a-z0-9])([A-Z])", lambda m: "_" + m[1].lower(), name) if name[0].islower() else name
    return words.replace("-", "_")


def table():
    declared, words, library, rust = set(), collections.Counter(), set(), set()
    for path in files(".antt"):
        code = re.sub(r"--[^\n]*", "", read(path))
        words.update(re.findall(NAME, code))
        for module, items in re.findall(r"^use ([^\s{]+)\.\{([^}]*)\}", code, re.M):
            if not module.startswith("Rattle.") or re.match(r"Rattle\.(std|core)", module):
                library.update(it.strip().split(" as ")[0] for it in items.split(","))
        if not ANSWERS.search(path):
            declared.update(DECLARED.findall(code))
    for path in files(".rt"):
        rust.update(re.findall(r"\w+", re.sub(r"//[^\n]*", "", read(path))))
    camel = {n for n in words if re.fullmatch(r"[a-z]\w*'*", n) and CAMEL.match(n) and n not in library}
    dashed = {n for n in declared if re.search(r"\w-\w", n) and n not in library}
    rows = {n: snake(n) for n in camel}
    taken = set(rows.values())
    for n in sorted(taken & declared):
        rows[n] = n + "_lem"
    for n in sorted(dashed - camel):
        new = snake(n)
        if new in taken or new in declared or new in library or new in rust:
            new += "_lem"
        rows[n] = new
        taken.add(new)
    twice = [n for n, k in collections.Counter(rows.values()).items() if k > 1]
    assert not twice, twice
    write(TABLE, "".join(f"{old}\t{new}\n" for old, new in sorted(rows.items())))
    print(f"{len(rows)} names, {sum(new.endswith('_lem') for new in rows.values())} of them with _lem")


def turned(text, rows):
    return re.sub(NAME, lambda m: rows.get(m[0], m[0]), text)


def modules():
    """Lower-case modules of specs/ and proofs/ that hold files of lemmas and definitions."""
    found = {}
    for path in files(".antt"):
        m = MODULE.search(path)
        if m:
            found[m[1], m[2], m[3]] = "".join(w.capitalize() for w in m[3].split("_"))
    return found


def move(found):
    for (crate, part, old), new in found.items():
        base = os.path.join(TOP, "crates", crate, part)
        os.rename(os.path.join(base, old + ".antt"), os.path.join(base, new + ".antt"))
        if os.path.isdir(os.path.join(base, old)):
            os.rename(os.path.join(base, old), os.path.join(base, new))
        lib = os.path.join(base, "Lib.antt")
        write(lib, re.sub(rf"(?m)^((?:pub )?mod ){old}$", rf"\g<1>{new}", read(lib)))
    by_path = {(crate, part, old): new for (crate, part, old), new in found.items()}
    olds = {}
    for (crate, part, old), new in found.items():
        olds[part, old] = new

    def dotted(m):
        return f"Rattle.{m[1]}.{m[2]}.{by_path.get((m[1], m[2], m[3]), m[3])}"

    def slashed(m):
        return f"{m[1]}/{olds.get((m[1], m[2]), m[2])}{m[3]}"

    for path in list(files(".antt", ".rt", ".edit")) + pages():
        text = read(path)
        new = re.sub(r"Rattle\.(\w+)\.(specs|proofs)\.([a-z]\w*)", dotted, text)
        new = re.sub(r"\b(specs|proofs)/([a-z]\w*)(/[A-Z]|\.antt)", slashed, new)
        if new != text:
            write(path, new)


def followed():
    """Names that port.py respelled in specs/ and proofs/: edits and pages follow."""
    declared = set()
    for path in files(".antt"):
        declared.update(DECLARED.findall(re.sub(r"--[^\n]*", "", read(path))))
    found, paths = {}, list(files(".edit")) + pages()
    for path in paths:
        for n in set(re.findall(r"[\w'-]+", read(path))):
            if n not in declared and n[0].islower() and (CAMEL.match(n) or "-" in n) and snake(n) in declared:
                found[n] = snake(n)
    return found


def pages():
    docs = os.path.join(TOP, "docs")
    return [os.path.join(docs, n) for n in sorted(os.listdir(docs)) if n.endswith(".md")] + [os.path.join(TOP, "README.md")]


def main():
    if sys.argv[1:] == ["--table"]:
        return table()
    rows = dict(line.rstrip("\n").split("\t") for line in open(TABLE, encoding="utf-8"))
    for old, new in followed().items():
        rows.setdefault(old, new)
    for path in files(".edit"):
        text = read(path)
        part = re.search(r"^file: (\w+)/", text, re.M)[1]
        new = []
        for line in text.split("\n"):
            if line.startswith(("old:", "new:")):
                if part != "src" or re.search(r"\b(ensures|requires|ghost)\b", line):
                    line = line[:4] + turned(line[4:], rows)
            elif line.startswith("#"):
                line = re.sub(r"`[^`]*`", lambda m: turned(m[0][1:-1], rows).join("``"), line)
            new.append(line)
        write(path, "\n".join(new))
    # A comment may name a law that its own file does not: "Shown by such-a-law of proofs/..", "(`such-a-law` of ..)".
    law = re.compile(rf"(?<![\w-])({NAME})(?=,? (?:and {NAME} )?(?:of|in) proofs/| there\b)")
    for path in files(".antt", ".rt"):
        text = read(path)
        mark = "--" if path.endswith(".antt") else "//"
        lines = []
        for line in text.split("\n"):
            head, sep, tail = line.partition(mark)
            if sep:
                tail = law.sub(lambda m: rows.get(m[0], m[0]), tail)
                tail = re.sub(r"((?:[Ss]hown|[Pp]roved) by )([^\s`.,;()]+)((?:(?:,| and) [^\s`.,;()]+)*)", lambda m: m[1] + turned(m[2], rows) + turned(m[3], rows), tail)
                tail = re.sub(r"(?<![\w-])[a-z]\w*[A-Z]\w*(?![\w-])", lambda m: rows.get(m[0], m[0]), tail)
            lines.append(head + sep + tail)
        new = "\n".join(lines)
        if new != text:
            write(path, new)
    with tempfile.NamedTemporaryFile("w", suffix=".tsv", encoding="utf-8") as all_rows:
        all_rows.write("".join(f"{old}\t{new}\n" for old, new in sorted(rows.items())))
        all_rows.flush()
        for table, args in ((TABLE, ["--only", "antt,rt", "crates"]), (all_rows.name, ["--only", "md", "docs", "README.md"])):
            subprocess.run([sys.executable, SNAKE, "--table", table, *args], cwd=TOP, check=True, stdout=subprocess.DEVNULL)
    move(modules())


if __name__ == "__main__":
    main()
