#!/usr/bin/env python3
"""Counts in crates/*/src and crates/*/proofs the places that docs/DESIGN-PASS.md speaks of, and with --list prints them.

usage: tools/design_places.py [--list WORD] [CHECKOUT]   (WORD: the first word of a row, as loops)"""
import glob
import os
import re
import sys

ARGS = sys.argv[1:]
SHOW = None
if "--list" in ARGS:
    at = ARGS.index("--list")
    SHOW = ARGS[at + 1]
    del ARGS[at:at + 2]
TOP = ARGS[0] if ARGS else os.path.join(os.path.dirname(os.path.abspath(__file__)), "..")


def files(pattern):
    for path in sorted(glob.glob(os.path.join(TOP, pattern), recursive=True)):
        if "/out/" not in path:
            yield os.path.relpath(path, TOP), open(path, encoding="utf-8").read()


SOURCES = list(files("crates/*/src/**/*.rt"))
PROOFS = list(files("crates/*/proofs/**/*.antt"))


def lines(regex, texts=SOURCES):
    found = []
    for path, text in texts:
        for number, line in enumerate(text.split("\n"), 1):
            if re.search(regex, line):
                found.append(f"{path}:{number}: {line.strip()}")
    return found


def structs():
    """Each struct or enum: path, line, head, body."""
    for path, text in SOURCES:
        for m in re.finditer(r"^(?:pub(?:\(crate\))? )?(struct|enum) (\w+)[^;{]*\{\n(.*?)^\}", text, re.M | re.S):
            yield path, text.count("\n", 0, m.start()) + 1, m.group(1), m.group(2), m.group(3)


def functions():
    """Each function: path, line, name, parameters, the comment above it."""
    for path, text in SOURCES:
        head = r"((?:^[ ]*//[^\n]*\n)*)(?:^[ ]*#\[[^\n]*\]\n)*^[ ]*(?:pub(?:\(crate\))? )?(?:extern \"C\" )?fn (\w+)(?:<[^(]*>)?\("
        for m in re.finditer(head, text, re.M):
            depth, end = 1, m.end()
            while depth:
                depth += {"(": 1, ")": -1}.get(text[end], 0)
                end += 1
            line = text.count("\n", 0, m.end()) + 1
            yield path, line, m.group(2), re.sub(r"\s+", " ", text[m.end():end - 1]), m.group(1)


def counting_loops():
    found = []
    for path, text in SOURCES:
        rows = text.split("\n")
        for number, row in enumerate(rows):
            m = re.match(r"(\s*)(?:'\w+: )?(?:while (.*)|loop) \{$", row)
            if not m or not m.group(2):
                continue
            end = number + 1
            while end < len(rows) and not re.match(m.group(1) + r"\}", rows[end]):
                end += 1
            body = "\n".join(rows[number + 1:end])
            for name in re.findall(r"[a-z_]+", m.group(2)):
                if re.search(rf"^\s*{name} (\+|-)= \d;", body, re.M):
                    found.append(f"{path}:{number + 1}: {row.strip()}")
                    break
    return found


def places(path, line, what):
    return f"{path}:{line}: {what}"


FUNCTIONS = list(functions())
STRUCTS = list(structs())
NONE = r"\bor 0\b|, 0 (where|if|for)|\b0 where|16 where|or the (term count|length)|nil where|, or nil"
REFUSES = r"\bnumber\b.*refus|refus.*\bnumber\b"


def with_parameters(*names):
    return [places(p, n, f) for p, n, f, ps, c in FUNCTIONS if all(re.search(rf"\b{x}: ", ps) for x in names)]


ROWS = [
    ("1", "enums", "enums of the program", [places(p, n, f"enum {x}") for p, n, k, x, b in STRUCTS if k == "enum"]),
    ("1", "flags", "flags beside values: bool fields of structs", [places(p, n, f"{x}: {f}") for p, n, k, x, b in STRUCTS
                                                                 if k == "struct" for f in re.findall(r"(\w+): bool", b)]),
    ("1", "numbers", "refusals as numbers: fields `number` beside values", [places(p, n, x) for p, n, k, x, b in STRUCTS
                                                                        if x != "Pass" and re.search(r"\bnumber: u32", b)]),
    ("1", "refusals", "refusals as numbers: functions that answer one", [places(p, n, f) for p, n, f, ps, c in FUNCTIONS
                                                                      if re.search(r"refusal", f)]),
    ("1", "nothing", "a number that stands for none, by the comment above the function", [
        places(p, n, f) for p, n, f, ps, c in FUNCTIONS if re.search(NONE, c)]),
    ("3", "loops", "loops that count by hand", counting_loops()),
    ("3", "whiles", "all loops by `while` and `loop`", lines(r"^\s*('\w+: )?(while .*|loop) \{$")),
    ("4", "fields", "newtypes compared by their fields", lines(r"\.0 (==|!=) ")),
    ("4", "helpers", "functions that only compare or convert", [places(p, n, f) for p, n, f, ps, c in FUNCTIONS
                                                             if re.match(r"(same_|wide$|both$|make_|stands_before)", f)]),
    ("5", "dictionary", "functions that take table, arena and counters", with_parameters("table", "arena", "counters")),
    ("5", "store", "functions that take store, hash and the number of rows", with_parameters("store", "hash", "n")),
    ("5", "lent", "functions that take load, store, findings and work", with_parameters("load", "store", "findings", "work")),
    ("5", "out", "functions that take out and the place in it", with_parameters("(out|page)", "(at|used)")),
    ("6", "lengths", "functions that take a slice and a number of its items", [
        places(p, n, f) for p, n, f, ps, c in FUNCTIONS if re.search(r"&(mut )?\[", ps) and re.search(r"\b(n|count|rows|terms): (usize|u32)", ps)]),
    ("7", "switches", "functions that take a bool or a number of a call", [
        places(p, n, f) for p, n, f, ps, c in FUNCTIONS if re.search(r"\w+: bool|\bcall: u32", ps)]),
    ("8", "answers", "answers that are `search rules`", lines(r"= *search rules$", PROOFS)),
    ("8", "long", "lines of proofs over 140 characters", [places(p, n, len(row)) for p, t in PROOFS
                                                       for n, row in enumerate(t.split("\n"), 1) if len(row) > 140]),
    ("8", "size", "lines of proofs", [row for p, t in PROOFS for row in t.split("\n")[:-1]]),
]

for point, word, what, found in ROWS:
    if SHOW is None:
        print(f"{point} {word:<10} {len(found):>6}  {what}")
    elif SHOW == word:
        print("\n".join(str(x) for x in found))
