#!/usr/bin/env python3
"""Spells the repository's own names as today's Rattle does: words in snake case, types and modules in camel case.

usage: python3 tools/snake.py        at the top of a checkout, once, after the kit's port.py

It goes by text. A camel-case word of specs/, proofs/, a clause or a comment becomes snake case, part by part between dashes. Where a lemma
has that very name already, the lemma gets `_lem` first. Strings keep their text. Rust's functions have snake case as they are.
"""

import glob
import re

CAMEL = re.compile(r"(?<![A-Za-z0-9_'])([a-z][a-z0-9_']*(?:[A-Z][A-Za-z0-9_']*)+)")
# data of table and readers whose constructors had capitals, and a type with a dash
REMEMBERED = re.compile(r"use Rattle\.(?:table\.specs\.Picture|readers\.specs\.NextSearches)\.\{[^}]*\b(?:Ticket|Stale|Nothing)\b|^pub data Remembered ", re.M)


def snake(name):
    return re.sub(r"(?<=[a-z0-9'])([A-Z])", lambda m: "_" + m.group(1).lower(), name)


def outside_strings(text, change):
    return "".join(part if i % 2 else change(part) for i, part in enumerate(re.split(r'(b?"(?:[^"\\\n]|\\.)*")', text)))


def main():
    antt = sorted(glob.glob("crates/*/specs/**/*.antt", recursive=True) + glob.glob("crates/*/proofs/**/*.antt", recursive=True))
    rt = sorted(glob.glob("crates/*/src/**/*.rt", recursive=True))
    texts = {f: open(f, encoding="utf-8").read() for f in antt + rt}
    camel = set()
    for f in antt:
        bare = re.sub(r"--.*", "", texts[f])
        outside_strings(bare, lambda t: camel.update(CAMEL.findall(t)) or t)
    for f in rt:
        for line in texts[f].split("\n"):
            if "ghost use" in line:
                camel.update(CAMEL.findall(line))
    declared = set()
    for f in antt:
        if "/specs/" in f:
            for line in texts[f].split("\n"):
                m = re.match(r"^\s*(?:(?:abbrev|unfoldable|pub|pattern) )*((?:[a-z][\w'-]* )+):(?!=)", line)
                if m:
                    declared.update(m.group(1).split())
    # `key_of` was `keyOf` too: port.py had respelled it
    taken = sorted({snake(w) for w in camel} & declared - {"key_of"})
    print("gets _lem:", ", ".join(taken))
    for f in antt:
        t = texts[f]
        for w in taken:
            word = re.compile(r"(?<![\w'.-])" + re.escape(w) + r"(?![\w'-])(?!\.)")
            if "/specs/" in f:
                t = word.sub(w + "_lem", t)
            elif re.search(r"use Rattle\.\w+\.specs\.[\w.]+\{[^}]*(?<![\w'.-])" + re.escape(w) + r"(?![\w'-])", t):
                t = word.sub(w + "_lem", t)
                print("imports it:", f, w)
        texts[f] = t
    n = 0
    for f, t in texts.items():
        if f.endswith(".antt") and REMEMBERED.search(t):
            t = "\n".join(
                line
                if "PlainList.{" in line or re.match(r"\s*--", line)
                else outside_strings(line, lambda part: re.sub(r"(?<![\w'.-])(Ticket|Stale|Nothing)(?![\w'-])", lambda m: m.group(1).lower(), part))
                for line in t.split("\n")
            )
        t = re.sub(r"\bLinked-in\b", "LinkedIn", t)
        new = outside_strings(t, lambda part: CAMEL.sub(lambda m: snake(m.group(1)) if m.group(1) in camel else m.group(1), part))
        if new != open(f, encoding="utf-8").read():
            open(f, "w", encoding="utf-8").write(new)
            n += 1
    print(len(camel), "words;", n, "files")


main()
