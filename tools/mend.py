#!/usr/bin/env python3
"""Mends what `rt check` says of a crate, where what to write is clear: clauses of impossible cases, and tuples that are records now.

usage: python3 tools/mend.py NAME..      at the top of a checkout

It checks each crate NAME, mends, and checks again until nothing is mended, and then prints what the check still says.
"""

import re
import subprocess
import sys

CLAUSE = re.compile(r"(?m)^(\S+\.antt):(\d+):(\d+): error: `[^`]*`: write the clause `([^`]+)`")
RECORD = re.compile(r"(?m)^(\S+\.antt):(\d+):(\d+): error: `[^`]*`: a value of .*\n\s*is built with `record \{ ([^`]*) \}`,? not as a tuple")


def check(crate):
    out = subprocess.run(["rt", "check"], cwd=f"crates/{crate}", capture_output=True, text=True)
    return out.stdout + out.stderr


def end_of(lines, row):
    """The row after the last clause of the declaration whose first clause or signature stands at a row."""
    indent = len(lines[row]) - len(lines[row].lstrip())
    name = lines[row].split()[0]
    at, last = row, row
    while at < len(lines):
        line = lines[at]
        if line.strip() == "":
            break
        its = len(line) - len(line.lstrip())
        if its < indent or (its == indent and line.split()[0] not in (name, "|") and not line.strip().startswith("--") and at > row):
            break
        last = at
        at += 1
    return last + 1


def parts(text, start):
    depth, cuts = 0, [start]
    for at in range(start, len(text)):
        depth += (text[at] in "([{") - (text[at] in ")]}")
        if depth == 0 or (depth == 1 and text[at] == ","):
            cuts.append(at)
        if depth == 0:
            break
    each = [text[a + 1 : b].strip() for a, b in zip(cuts, cuts[1:])]
    return [e for e in each if e], cuts[-1] + 1


def mend(crate):
    said = check(crate)
    done = 0
    edits = {}
    for m in CLAUSE.finditer(said):
        edits.setdefault(m.group(1), []).append((int(m.group(2)) - 1, int(m.group(3)) - 1, "clause", m.group(4)))
    for m in RECORD.finditer(said):
        edits.setdefault(m.group(1), []).append((int(m.group(2)) - 1, int(m.group(3)) - 1, "record", m.group(4)))
    for f, them in edits.items():
        path = f"crates/{crate}/{f}"
        text = open(path, encoding="utf-8").read()
        lines = text.split("\n")
        for row, column, kind, what in sorted(them, reverse=True):
            if kind == "clause":
                at = end_of(lines, row)
                indent = lines[row][: len(lines[row]) - len(lines[row].lstrip())]
                lines.insert(at, indent + what)
                done += 1
            else:
                text = "\n".join(lines)
                start = sum(len(x) + 1 for x in lines[:row]) + column
                names = [p.split("=")[0].strip() for p in what.split(";")]
                # a position at a tuple's first part
                at = start
                while at >= 0 and text[at] != "(":
                    at -= 1
                if text[start] == "(":
                    at = start
                each, end = parts(text, at)
                while len(each) < len(names) and each and each[-1].startswith("("):
                    inner, stop = parts(each[-1], 0)
                    if stop != len(each[-1]):
                        break
                    each[-1:] = inner
                if len(each) == len(names):
                    bare = lambda it: f"({it})" if re.match(r"λ|let ", it) else it
                    text = text[:at] + "record { " + "; ".join(f"{a} = {bare(b)}" for a, b in zip(names, each)) + " }" + text[end:]
                    lines = text.split("\n")
                    done += 1
        open(path, "w", encoding="utf-8").write("\n".join(lines))
    return done, said


for crate in sys.argv[1:]:
    done, said = mend(crate)
    n = 0
    while done and n < 12:
        print(f"{crate}: {done} mended")
        done, said = mend(crate)
        n += 1
    skip = re.compile(r"^(statements|logic /|checked |library |fn \S+: proved|(enum|struct) \S+: proved|rt: (chose|rt )|note: )")
    at = said.rfind("rt: chose --jobs")
    print("\n".join(x[:700] for x in said[at:].split("\n") if not skip.match(x)))
