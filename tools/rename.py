#!/usr/bin/env python3
"""Turns this repository's own names of specs/ and proofs/ to the spelling of today's Rattle.

Types and facts are in upper camel case, all else in snake case. Run once, at the top, after the kit's port.py:

    python3 tools/rename.py            rewrites the files, and says which names fall together with a name of the code
    python3 tools/rename.py --list     only prints the old and the new names

Functions of src/, strings, comments, inputs and outputs keep their words.
"""

import os
import re
import sys

# Where the plain spelling would fall together with a name of the code or of the library, or say an older name.
CHOSEN = {}

NAME = r"[A-Za-z_][A-Za-z0-9_'ℕ⊎]*(?:-[A-Za-z0-9_'ℕ⊎]+)+"
TOKEN = re.compile(r"(?<![A-Za-z0-9_'\-])" + NAME + r"(?![A-Za-z0-9_'\-])")
DEFINED = re.compile(r"^\s*(?:(?:pub|abbrev|unfoldable|record|data|law|private) )*(" + NAME + r")\s*(?:\([^:]*\)\s*|\{[^:]*\}\s*)*:(?!:)")
HEAD = re.compile(r"^\s*(?:(?:pub|abbrev|unfoldable) )*(?:record|data) (" + NAME + r")")
GHOST = re.compile(r"^\s*(?:pub )?ghost ([a-z]+[A-Z][A-Za-z]*):")
GOALS = re.compile(r"^(returns|invariant|decreases|loop|overflow|in_ok|in_err|index|cast|shift|divide|slice|after|requires|smaller)(-|$)|-requires(-|$)|-preserved|-init$|^ensures-")


def files(root, endings):
    for folder, dirs, names in os.walk(os.path.join(root, "crates")):
        dirs[:] = sorted(d for d in dirs if d != "out")
        for name in sorted(names):
            if name.endswith(endings):
                yield os.path.join(folder, name)


def read(path):
    with open(path, encoding="utf-8") as f:
        return f.read()


def is_goal(line):
    return re.search(r":\s*(goal|given)\.", line) is not None


def collect(root):
    """The names that specs/ and proofs/ define, but for those of goals, with the text that follows each."""
    found = {}
    for path in files(root, (".antt",)):
        lines = read(path).split("\n")
        for i, line in enumerate(lines):
            code = line.split("--")[0] if line.lstrip().startswith("--") else line
            m = DEFINED.match(code) or HEAD.match(code)
            if not m or is_goal(code):
                continue
            rest = code[m.end():]
            found.setdefault(m.group(1), set()).add((rest.strip(), path))
    return found


def snake(name):
    return name.replace("getD", "get_or").replace("-", "_")


def camel(name):
    return "".join(w[:1].upper() + w[1:] for w in name.split("-"))


def renamed(name):
    if name in CHOSEN:
        return CHOSEN[name]
    return camel(name) if name[:1].isupper() and name[1:2].islower() or name.split("-")[0] == "SOH" else snake(name)


def ghost_fields(root):
    found = set()
    for path in files(root, (".rt",)):
        for line in read(path).split("\n"):
            m = GHOST.match(line)
            if m:
                found.add(m.group(1))
    return found


def fields(name):
    return re.sub(r"(?<=[a-z])([A-Z])", lambda m: "_" + m.group(1).lower(), name)


def turned(text, table, ghosts, comment):
    out = []
    for line in text.split("\n"):
        head, mark, tail = line.partition(comment) if line.lstrip().startswith(comment) else (line, "", "")
        parts = re.split(r'("(?:[^"\\]|\\.)*")', head)
        for i in range(0, len(parts), 2):
            parts[i] = TOKEN.sub(lambda m: table.get(m.group(0), m.group(0)), parts[i])
            for g, n in ghosts.items():
                parts[i] = re.sub(r"(?<![\w'\-])" + g + r"(?![\w'\-])", n, parts[i])
        out.append("".join(parts) + mark + tail)
    return "\n".join(out)


def main():
    root = "."
    table = {n: renamed(n) for n in sorted(collect(root))}
    ghosts = {g: fields(g) for g in sorted(ghost_fields(root))}
    if "--list" in sys.argv:
        for old, new in list(table.items()) + list(ghosts.items()):
            print(old, new)
        return
    for path in files(root, (".antt", ".rt")):
        old = read(path)
        new = turned(old, table, ghosts, "--" if path.endswith(".antt") else "//")
        if new != old:
            with open(path, "w", encoding="utf-8") as f:
                f.write(new)


if __name__ == "__main__":
    main()
