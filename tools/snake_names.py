#!/usr/bin/env python3
"""Brings the repository's own definitions and lemmas to today's spelling: words in snake case, types in upper camel case.

usage: python3 tools/snake_names.py        at the top of the repository, once, after the kit's port.py

A name with a dash gets `_` for it, and one that begins with a capital gets a capital for each part: `write-gives` becomes `write_gives`,
`Read-answer` becomes `ReadAnswer`. `passAt` and the like become `pass_at`; W3C's vocabulary keeps its own spelling (`sameAs`). Names that
come from another library, and those that Rattle makes for the goals of a function, stay. A module specs/Contracts.antt becomes
specs/Promises.antt, since Rattle makes a module of the first name. Must-fail edits and the pages are turned too, the pages and comments
within backticks alone. It stops where two names of a file fall together.
"""
import glob
import os
import re
import sys

W = r"[^\s(){}.;,@\"«»\[\]\\`]+"
ANTT = re.compile(r"--[^\n]*|\"(?:[^\"\\\n]|\\.)*\"|«[^»]*»|" + W + r"|.", re.S)
RUST = re.compile(r"//[^\n]*|b?\"(?:[^\"\\]|\\.)*\"|" + W + r"|.", re.S)
TICKS = re.compile(r"`[^`\n]*`")
TOKEN = re.compile(W)
VOCABULARY = set(
    "subPropertyOf subClassOf sameAs inverseOf equivalentProperty equivalentClass intersectionOf unionOf hasValue allValuesFrom"
    " someValuesFrom disjointWith onProperty complementOf propertyDisjointWith".split()
)
# Records that would have the name of a type of the sources, or of another record beside them.
OTHER = {"Checked-entry": "CheckedNext", "Run-answer": "AnswerOfRun", "Turn-answer": "AnswerOfTurn"}
DEFINED = re.compile(r"^( *)(?:(?:pub|abbrev|unfoldable|record|data|use) )*(" + W + r")(?: [^:\n]*)? :(?= |$)", re.M)
USED = re.compile(r"^ *(?:ghost |pub )*use ([^\s{};]+?)(?:\.\{([^}]*)\})?;?$", re.M)
SECTION = re.compile(r"\b(?:let|λ)\s+((?:" + W + r"\s+)*" + W + r")")


def read(path):
    with open(path, encoding="utf-8") as f:
        return f.read()


def turned(name):
    """Today's spelling of a name of the repository's own."""
    if name in OTHER:
        return OTHER[name]
    if name in VOCABULARY or "◌" in name or not re.search(r"\w", name):
        return name
    if name[0].isupper():
        head, *rest = re.split(r"[-_]", name)
        return head + "".join(it[:1].upper() + it[1:] for it in rest)
    name = re.sub(r"(?<!^)-(?!$)", "_", name)
    if re.fullmatch(r"[a-z]+(?:[A-Z][a-z]+)+", name):
        name = re.sub(r"[A-Z]", lambda m: "_" + m[0].lower(), name)
    return name


def in_function(path):
    """Whether a file belongs to the proof of one function: a folder below proofs/."""
    return "/proofs/" in path and "/" in path.split("/proofs/")[1]


def main():
    antt = sorted(glob.glob("crates/*/specs/**/*.antt", recursive=True) + glob.glob("crates/*/proofs/**/*.antt", recursive=True))
    rust = sorted(glob.glob("crates/*/src/**/*.rt", recursive=True))
    crates = set(os.listdir("crates"))
    own, foreign = set(), set()
    for path in antt + rust:
        text = read(path)
        for module, names in USED.findall(text):
            parts = module.split(".")
            if parts[0] == "Rattle" and len(parts) > 1 and parts[1] in crates:
                continue
            for it in (names or parts[-1]).split(","):
                foreign |= set(it.split()[:1])
        if path.endswith(".antt") and not in_function(path):
            own |= {name for _, name in DEFINED.findall(text)}
            for m in re.finditer(r" as ([^\s,}]+)", text):
                own.add(m[1])
    own -= foreign
    table = {name: turned(name) for name in own if turned(name) != name}
    problems = []

    def token(t, dotted, free):
        if t in table:
            return table[t]
        if free and not dotted and "-" in t and t not in foreign and "◌" not in t and not t.startswith("-") and not t.endswith("-"):
            return turned(t)
        return t

    def later(t):
        """A name in an edit or on a page, which port.py may have turned in the sources already."""
        return table.get(t) or (turned(t) if "-" in t and turned(t) in own | set(table.values()) else t)

    def ticks(text):
        return TICKS.sub(lambda m: TOKEN.sub(lambda w: later(w[0]), m[0]), text)

    def whole(text, pattern, free):
        out, dotted, last = [], False, {}
        for m in pattern.finditer(text):
            t = m[0]
            if t.startswith(("--", "//")):
                new = ticks(t)
            elif t[0] in "\"«" or t.startswith("b\""):
                new = t
            elif TOKEN.fullmatch(t):
                new = token(t, dotted, free)
            else:
                new = t
            out.append(new)
            dotted = t.endswith(".") if t.strip() else False
        return "".join(out).replace("specs.Contracts", "specs.Promises").replace("specs/Contracts.antt", "specs/Promises.antt")

    for path in antt + rust:
        text = read(path)
        new = whole(text, ANTT if path.endswith(".antt") else RUST, path.endswith(".antt") and not in_function(path))
        if path.endswith("specs/Lib.antt"):
            new = re.sub(r"^pub mod Contracts$", "pub mod Promises", new, flags=re.M)
        before, after = {n for _, n in DEFINED.findall(text)}, {n for _, n in DEFINED.findall(new)}
        used = {w for _, names in USED.findall(new) for w in re.findall(r"[^\s,]+", names)}
        if len(after) < len(before):
            problems.append(f"{path}: names fall together: {sorted(n for n in before if turned(n) in before and turned(n) != n)}")
        clash = sorted((after - before) & used)
        if clash:
            problems.append(f"{path}: defined and imported: {clash}")
        if new != text:
            with open(path, "w", encoding="utf-8") as f:
                f.write(new)
    for path in sorted(glob.glob("crates/*/must-fail/*.edit")):
        lines = []
        for line in read(path).split("\n"):
            if line.startswith(("old:", "new:")):
                lines.append(line[:4] + "".join(later(m[0]) for m in ANTT.finditer(line[4:])))
            else:
                lines.append(ticks(line).replace("specs/Contracts.antt", "specs/Promises.antt"))
        with open(path, "w", encoding="utf-8") as f:
            f.write("\n".join(lines))
    for path in ["README.md", "CONTRIBUTING.md"] + glob.glob("docs/*.md") + glob.glob("docs/changes/*.md"):
        text = read(path)
        new = ticks(text).replace("specs/Contracts.antt", "specs/Promises.antt")
        if new != text:
            with open(path, "w", encoding="utf-8") as f:
                f.write(new)
    for path in glob.glob("crates/*/specs/Contracts.antt"):
        os.rename(path, path.replace("Contracts", "Promises"))
    print(f"{len(table)} names turned")
    for it in problems:
        print("look: " + it)
    return 1 if problems else 0


if __name__ == "__main__":
    sys.exit(main())
