#!/usr/bin/env python3
"""Candidates for a plainer form in the sources, counted by point of docs/DESIGN-PASS.md.

    tools/places.py          the counts, in the tree as it stands
    tools/places.py 3        the lines of one point
"""
import collections
import glob
import os
import re
import shutil
import subprocess
import sys
import tempfile

SOURCES = sorted(glob.glob("crates/*/src/**/*.rt", recursive=True))


def lines():
    for path in SOURCES:
        for number, line in enumerate(open(path, encoding="utf-8"), 1):
            yield path, number, line.rstrip("\n")


def matching(*patterns):
    found = []
    for path, number, line in lines():
        if line.lstrip().startswith("//"):
            continue
        if any(re.search(p, line) for p in patterns):
            found.append(f"{path}:{number}: {line.strip()}")
    return found


def struct_fields(kind):
    """Fields of this type in structs."""
    found, inside = [], False
    for path, number, line in lines():
        if re.match(r"\s*(pub(\(crate\))? )?struct \w+.*\{$", line):
            inside = True
        elif line.startswith("}"):
            inside = False
        elif inside and re.match(rf"\s+(pub(\(crate\))? )?\w+: {kind},$", line):
            found.append(f"{path}:{number}: {line.strip()}")
    return found


def signatures():
    """Each function's name and parameters, with self left out."""
    for path in SOURCES:
        text = open(path, encoding="utf-8").read()
        for m in re.finditer(r"\bfn (\w+)(?:<[^(]*>)?\(([^)]*(?:\([^)]*\)[^)]*)*)\)", text):
            parameters = [p.strip() for p in re.split(r",(?![^<(]*[>)])", m[2])]
            parameters = [p for p in parameters if p and not re.match(r"&?('\w+ )?(mut )?self$", p)]
            yield path, m[1], parameters


def travelling():
    """Groups of three or more parameters that three or more functions share by name and type."""
    groups = collections.defaultdict(set)
    for path, name, parameters in signatures():
        for i in range(len(parameters)):
            for j in range(i + 3, len(parameters) + 1):
                groups[tuple(sorted(parameters[i:j]))].add((path, name))
    kept = {g: fs for g, fs in groups.items() if len(fs) >= 3}
    widest = [g for g in kept if not any(set(g) < set(h) and kept[g] <= kept[h] for h in kept)]
    return [f"{len(kept[g])} functions: {', '.join(g)}" for g in sorted(widest)]


def repeated_clauses():
    """Clauses that stand word for word in three or more contracts."""
    count = collections.Counter()
    for _, _, line in lines():
        m = re.match(r"\s+(requires|ensures)(?: \w+)? \{ (.*) \}$", line)
        if m:
            count[f"{m[1]} {m[2]}"] += 1
    return [f"{n} times: {c}" for c, n in count.most_common() if n >= 3]


def twins():
    """Pairs of places that share six or more lines, the same or of the same shape, by the command `duplicates`."""
    with tempfile.TemporaryDirectory() as folder:
        for path in SOURCES:
            copy = os.path.join(folder, path[: -len("rt")] + "rs")
            os.makedirs(os.path.dirname(copy), exist_ok=True)
            shutil.copy(path, copy)
        told = subprocess.run(["duplicates", "--repo", folder, "--most", "200"], capture_output=True, text=True).stdout
    return [line.replace(".rs:", ".rt:") for line in told.splitlines() if re.match(r"D\d+ ", line)]


def proof_lines():
    count = collections.Counter()
    for path in glob.glob("crates/*/proofs/**/*.antt", recursive=True):
        count[path.split("/")[1]] += sum(1 for _ in open(path, encoding="utf-8"))
    return [f"{n} lines: {c}" for c, n in sorted(count.items())]


POINTS = {
    "1": lambda: matching(
        r"^\s+(Nothing|Closed|None|Empty|Broken),$",
        r"Result<\(\), \(\)>|Result<Result<",
        r"fn \w+.*&mut self.*-> bool",
    ) + struct_fields("bool"),
    "2": twins,
    "3": lambda: matching(r"\bwhile ", r"for \w+ in .*\.\."),
    "4": lambda: matching(
        r"^impl.*\b(From|TryFrom|Display|PartialEq|Ord|Clone)\b",
        r"=> (true|false),$",
        r"None => return None|=> None,$|None => Err\(|Err\(_\) => ",
        r"\bas u8\b",
    ),
    "5": lambda: repeated_clauses() + travelling(),
    "6": lambda: matching(r"^\s+(pub(\(crate\))? )?\w+: \[\w+; \w+\],$", r"^\s+(pub(\(crate\))? )?(len|end|depth): usize,$"),
    "7": lambda: matching(r"macro_rules!", r"match self\.(choice|store)\b", r"match report\b", r"\bdyn\b", r"\bFn(Mut|Once)?\("),
    "8": proof_lines,
}


def main():
    wanted = sys.argv[1:] or sorted(POINTS)
    for point in wanted:
        found = POINTS[point]()
        total = sum(int(line.split()[0]) for line in found) if point == "8" else len(found)
        print(f"point {point}: {total}")
        if sys.argv[1:]:
            print("\n".join(found))


main()
