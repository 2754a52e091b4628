#!/usr/bin/env python3
"""Writes the names of the repository's own definitions and lemmas in snake case, as respell.tsv has them.

usage: respell.py          in the top folder, once, after port.py
       respell.py --pages  the code spans of README.md and docs/

Each row of respell.tsv has a name as the older kit had it, as port.py leaves it, and as it is now. A lemma that would have
got its definition's name ends in `_lem`. Functions, types, modules and strings keep their names. Two pairs of names that port.py
let fall together are told apart by the file (APART).
"""
import glob
import os
import re
import sys

HERE = os.path.dirname(os.path.abspath(__file__))
WORD = re.compile(r'[^\s(){}.;,@"«»]+')
QUIET = re.compile(r'"(?:[^"\\\n]|\\.)*"|(?<![^\s(){}.;,@"«»])--[^\n]*')
SPAN = re.compile(r"`[^`\n]*`")
CAMEL = re.compile(r"\b[a-z][a-z0-9]*(?:[A-Z][a-z0-9]*)+'?")
CLAUSE = re.compile(r"(?:requires|ensures)\s*\*?\s*(?:\w+\s*)?\{|ghost\s*(?:\w+\s*(?::\s*(?:(?:owns|lends)\s*)?|=\s*))?\{")
APART = {
    "crates/checking/proofs/Mentions.antt": {"names_of": "names_of_lem"},
    "crates/simulation/specs/Calls.antt": {"rows_at": "rows_at_lem"},
}


def table():
    before, after = {}, {}
    with open(os.path.join(HERE, "respell.tsv"), encoding="utf-8") as f:
        for line in f:
            if line.startswith("#"):
                continue
            old, ported, now = line.rstrip("\n").split("\t")
            if old:
                before[old] = now
            if ported != now and ported not in ("names_of", "rows_at"):
                after[ported] = now
    return before, after


def turned(text, names, field=None):
    """The text with each whole word turned; `field` turns the words behind a dot."""

    def one(m):
        w = m[0]
        if w not in names:
            return w
        if field and text[m.start() - 1 : m.start()] == ".":
            return field(w, names[w])
        return names[w]

    return WORD.sub(one, text)


def comment(text, names):
    text = SPAN.sub(lambda m: "`" + turned(m[0][1:-1], names) + "`", text)
    return CAMEL.sub(lambda m: names.get(m[0], m[0]), text)


def antt(text, names, field=None):
    out, at = [], 0
    for m in QUIET.finditer(text):
        out.append(turned(text[at : m.start()], names, field))
        out.append(comment(m[0], names) if m[0].startswith("--") else m[0])
        at = m.end()
    out.append(turned(text[at:], names, field))
    return "".join(out)


def braces(text, at):
    depth = 0
    for i in range(at, len(text)):
        depth += {"{": 1, "}": -1}.get(text[i], 0)
        if depth == 0:
            return i + 1
    return len(text)


def rt(text, names):
    """Clauses, ghost items and the code spans of comments."""
    spots = [(m.start(), m.end()) for m in re.finditer(r"ghost\s+use\b[^;]*;", text)]
    spots += [(m.end() - 1, braces(text, m.end() - 1)) for m in CLAUSE.finditer(text)]
    out, at = [], 0
    for start, end in sorted(spots):
        if start < at:
            continue
        out += [re.sub(r"(?m)//.*$", lambda m: comment(m[0], names), text[at:start]), turned(text[start:end], names)]
        at = end
    out.append(re.sub(r"(?m)//.*$", lambda m: comment(m[0], names), text[at:]))
    return "".join(out)


def main(argv):
    before, after = table()
    changed = 0
    if argv == ["--pages"]:
        files = ["README.md"] + glob.glob("docs/*.md")
    else:
        files = [p for k in ("antt", "rt") for p in glob.glob(f"crates/*/*/**/*.{k}", recursive=True) if p.split("/")[2] != "out"]
    for p in sorted(files):
        with open(p, encoding="utf-8") as f:
            text = f.read()
        names = dict(after, **APART.get(p, {}))
        if p.endswith(".md"):
            new = SPAN.sub(lambda m: "`" + turned(m[0][1:-1], before) + "`", text)
        elif p.endswith(".rt"):
            new = rt(text, names)
        elif p.endswith("/Proof.antt"):
            new = antt(text, names, lambda w, now: re.sub(r"_lem$", "", now))
        else:
            new = antt(text, names)
        if new != text:
            with open(p, "w", encoding="utf-8") as f:
                f.write(new)
            changed += 1
    print(f"respell: {changed} files")


if __name__ == "__main__":
    main(sys.argv[1:])
