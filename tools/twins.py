#!/usr/bin/env python3
"""Groups of functions of crates/*/src whose bodies are the same but for names, numbers and paths.

Run at the top of the checkout: python3 tools/twins.py [FOLDER]. A group is no more than a place to look at: two tests of two tags are one group,
and so are two calls of one function. Functions of fewer than twelve tokens are left out.
"""
import collections
import glob
import re
import sys

KEYWORDS = {"let", "mut", "if", "else", "match", "for", "in", "while", "return", "break", "true", "false", "as"}


def body(source, start, indent):
    """The body of the function whose signature starts here, or None."""
    end = source.find("\n" + indent + "}\n", start)
    alone = source.find("\n" + indent + "{\n", start, end)
    clauses = source[start:alone] if alone != -1 else ""
    if "ensures" in clauses or "requires" in clauses:
        opening = alone + 1 + len(indent)
    else:
        opening = source.find("{\n", start, end)
    return source[opening:end] if opening != -1 else None


def shape(text):
    """The tokens, each name as x and each number as 0."""
    tokens = re.findall(r"[A-Za-z_]\w*|\d+|[^\s\w]", text)
    if len(tokens) < 12:
        return None
    shaped = ["0" if t[0].isdigit() else "x" if re.match(r"[A-Za-z_]", t) and t not in KEYWORDS else t for t in tokens]
    joined = re.sub(r"x (: : x )+", "x ", " ".join(shaped))
    return joined.replace(", )", ")").replace(", }", "}")


def main():
    root = sys.argv[1] if len(sys.argv) > 1 else "."
    groups = collections.defaultdict(list)
    for path in sorted(glob.glob(root + "/crates/*/src/*.rt")):
        crate = path[len(root) :].split("/")[2]
        source = re.sub(r"//[^\n]*", "", open(path).read())
        for found in re.finditer(r'^( *)(?:pub )?(?:extern "C" )?fn (\w+)', source, flags=re.M):
            text = body(source, found.end(), found.group(1))
            shaped = shape(text) if text else None
            if shaped:
                groups[shaped].append(crate + "::" + found.group(2))
    twins = [names for names in groups.values() if len(names) > 1]
    for names in sorted(twins):
        print(*names)
    print(len(twins), "groups,", sum(map(len, twins)), "functions")


if __name__ == "__main__":
    main()
