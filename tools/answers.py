#!/usr/bin/env python3
"""Turns a crate's older Proof.antt files into Invariants.antt and Answers.antt.

usage: python3 tools/answers.py NAME..      at the top of a checkout, for crates whose dependencies prove

It asks `rt check --generated F --old-names` for the older and the new name of each goal and step. An answer that only said
`search rules` is left out, since the check tries that and more by itself. What it can't place it prints.
"""

import json
import os
import re
import subprocess
import sys
import tempfile

STEM = re.compile(r"(?<![\w'.-])(%s)((?:\.before)*)((?:\.(?!before\b)[\w'«»-]+)*)")


def norm(name):
    return re.sub(r"^overflow-", "", name.replace("_", "-").strip("«»")).lower()


def names_of(crate):
    to = os.path.join(tempfile.mkdtemp(), "names")
    out = subprocess.run(["rt", "check", "--generated", to, "--old-names"], cwd=f"crates/{crate}", capture_output=True, text=True)
    path = f"{to}/names.json"
    if not os.path.exists(path):
        print(out.stdout[-3000:], out.stderr[-3000:])
        raise SystemExit(f"answers: no names for {crate}")
    return json.load(open(path))


def params():
    """The parameters of each function that are lent to be changed, and the names of its clauses, by crate and name."""
    found = {}
    for folder, _, files in os.walk("crates"):
        if "/src" not in folder or "/out/" in folder:
            continue
        for f in files:
            if f.endswith(".rt"):
                t = open(os.path.join(folder, f), encoding="utf-8").read()
                crate = folder.split("/")[1]
                for m in re.finditer(r"\bfn (\w+)\s*\(([^)]*)\)([^{]*\n(?:    (?:requires|ensures)[^\n]*\n|      [^\n]*\n)*)", t):
                    clauses = {k: re.findall(rf"^    {k} (\w+) \{{", m.group(3), re.M) for k in ("requires", "ensures")}
                    found[crate, m.group(1)] = (re.findall(r"(\w+): &mut", m.group(2)), clauses, re.findall(r"(\w+): &", m.group(2)), re.findall(r"(\w+): ", m.group(2)))
    return found


class Function:
    def __init__(self, crate, folder, lts, lent):
        self.crate, self.folder, self.lent = crate, folder, lent
        self.goal = None
        self.places = lts["places"]
        self.arms = lts["arms"]
        self.index = {p[0]: i for i, p in enumerate(self.places)}
        self.needs = {}
        for (old, new), at in zip(lts["needs"], lts["asked_at"]):
            self.needs[norm(old)] = (new, at[0])
        self.loops = lts["loops"]
        self.said = []

    def callee(self, path):
        """What `params` says of the function that a place calls."""
        parts = (path or "").split("::")
        return self.lent.get((parts[0], parts[-1]), ([], {"requires": [], "ensures": []}, [], []))

    def up(self, place, n):
        for _ in range(n):
            above = self.places[self.index[place]][1]
            if above is None:
                return place
            place = above
        return place

    def loop_new(self, old):
        for pairs in self.loops:
            if norm(pairs[0][0]) == norm(old):
                return pairs[0][1], pairs[1]
        return None, None

    def read(self, place, fields):
        """The new spelling of `RECORD AT place` .fields."""
        if not fields:
            return None
        old = norm(fields[0])
        if old == "requires" and len(fields) > 1 and fields[1].isdigit():
            names = self.callee(f"{self.crate}::{self.folder.split('/')[-1]}")[1]["requires"]
            if names:
                return ["c", "requires", names[int(fields[1])]] + fields[2:]
        at = self.goal
        while at is not None:
            i = self.index[at]
            step = self.places[i][2]
            arm = self.arms[i]
            if arm:
                best = None
                for new, ostep, path in arm[2]:
                    if norm(ostep) == old and fields[1 : 1 + len(path)] == path:
                        if best is None or len(path) > len(best[1]):
                            best = (new, path)
                if best is not None:
                    new, path = best
                    rest = fields[1 + len(path) :]
                    if path == [] and new.endswith("-own"):
                        return ["c", new] + rest
                    return ["c", arm[0], new] + rest
            if norm(step[0]) == old and step[0] != "":
                rest = fields[1:]
                if rest[:1] == ["new"] and len(rest) > 1 and rest[1].isdigit():
                    callee = self.places[i][3]
                    muts = self.callee(callee)[0]
                    k = int(rest[1])
                    if k < len(muts):
                        rest = ["new", muts[k]] + rest[2:]
                    else:
                        self.said.append(f"new.{k} of {callee}")
                if rest[:1] == ["auto"] and len(rest) > 1 and rest[1].isdigit():
                    lent = self.callee(self.places[i][3])[2]
                    if int(rest[1]) < len(lent):
                        rest = ["auto", lent[int(rest[1])]] + rest[2:]
                if rest[:1] == ["ensures"] and len(rest) > 1 and rest[1].isdigit():
                    names = self.callee(self.places[i][3])[1]["ensures"]
                    if names:
                        rest = ["ensures", names[int(rest[1])]] + rest[2:]
                return ["c", step[1]] + rest
            at = self.places[i][1]
        if old.endswith("-lem"):
            return self.read(place, [old[: -len("-lem")]] + fields[1:])
        return ["c", fields[0].replace("well-formed", "well_formed")] + fields[1:]

    def turn(self, body, place, binder="c"):
        """The body of an answer at a place, with each path of records flat."""
        alias = {binder: place}
        self.goal = place
        # lets that name a record
        let = re.compile(r"let ([\w']+) = ([\w']+)((?:\.before)+) in[ \n]*")
        while True:
            hit = None
            for m in let.finditer(body):
                if m.group(2) in alias:
                    hit = m
                    break
            if hit is None:
                break
            to = self.up(alias[hit.group(2)], hit.group(3).count(".before"))
            if to is None:
                self.said.append("too far up: " + hit.group(0).strip())
                break
            name = hit.group(1)
            new = f"{name}__{len(alias)}" if name in alias else name
            rest = body[hit.end() :]
            if name in alias:
                rest = re.sub(r"(?<![\w'.-])" + re.escape(name) + r"(?![\w'-])", new, rest)
            alias[new] = to
            body = body[: hit.start()] + rest
        pattern = re.compile(STEM.pattern % "|".join(sorted((re.escape(a) for a in alias), key=len, reverse=True)))

        def swap(m):
            fields = [f for f in m.group(3).split(".") if f]
            at = self.up(alias[m.group(1)], m.group(2).count(".before"))
            if at is None:
                self.said.append("too far up: " + m.group(0))
                return m.group(0)
            if not fields:
                if m.group(1) == binder and not m.group(2):
                    return "c"
                self.said.append("a whole record: " + m.group(0))
                return m.group(0)
            return ".".join(self.read(at, fields))

        body = self.steps_named(pattern.sub(swap, body))
        # a parameter that had no name
        mine = self.callee(f"{self.crate}::{self.folder.split('/')[-1]}")[3]
        body = re.sub(r"\bc\.args\.t([1-9])(?![\w])", lambda m: f"c.args.{mine[int(m.group(1)) - 1]}" if int(m.group(1)) <= len(mine) else m.group(0), body)
        for m in re.finditer(r"let ([\w']+) = c\.args in", body):
            body = re.sub(r"(?<![\w'.-])" + re.escape(m.group(1)) + r"\.t([1-9])(?![\w])", lambda k: f"{m.group(1)}.{mine[int(k.group(1)) - 1]}" if int(k.group(1)) <= len(mine) else k.group(0), body)
        if os.environ.get("KEEP_NOT"):
            return body
        # a test `!x` says of x itself whether it holds
        return re.sub(r"\bnot-(?:true|false) _ (c\.if-not[\w-]*\.(?:true|false))", r"\1", body)

    def steps_named(self, body):
        """The clauses and lent parameters of a step that a `let` names, by their names."""
        called = {p[2][1]: p[3] for p in self.places if p[3]}
        for m in list(re.finditer(r"let ([\w']+) = c\.([\w-]+)(\.ensures)? in", body)):
            name, step, whole = m.groups()
            muts, clauses, _, _ = self.callee(called.get(step))
            at = r"(?<![\w'.-])" + re.escape(name)
            for i, clause in enumerate(clauses["ensures"]):
                head = at + (r"\." if whole else r"\.ensures\.") + str(i) + r"(?![\w])"
                body = re.sub(head, f"{name}." + ("" if whole else "ensures.") + clause, body)
            if not whole:
                for i, mut in enumerate(muts):
                    body = re.sub(at + r"\.new\." + str(i) + r"(?![\w])", f"{name}.new.{mut}", body)
        return body

    def invariant(self, names, body):
        """The body of an invariant or a measure, over the record l of its loop's variables."""
        record = "l" if "l" not in [n.rstrip("₀") for n in names] else "v"
        for n in sorted(set(names), key=len, reverse=True):
            if n == "_":
                continue
            to = f"{record}.initial.{n[:-1]}" if n.endswith("₀") else f"{record}.{n}"
            body = re.sub(r"(?<![\w'.₀-])" + re.escape(n) + r"(?![\w'₀-])", to.replace("\\", ""), body)
        return record, body


def blocks(text):
    """The text's head of imports and its declarations, each with the comment above it."""
    lines = text.split("\n")
    uses = [x for x in lines if re.match(r"(pub )?use ", x)]
    rest = [x for x in lines if not re.match(r"(pub )?use ", x)]
    found, now = [], []
    for x in rest:
        if re.match(r"(?:(?:abbrev|unfoldable|pub) )*[^\s(=][^=]*? : ", x) and not x.startswith(" ") and any(y and not y.startswith("--") for y in now):
            keep = []
            while now and (now[-1].startswith("--") or now[-1] == ""):
                keep.insert(0, now.pop())
            found.append(now)
            now = keep
        now.append(x)
    found.append(now)
    return uses, [b for b in found if any(y.strip() for y in b)]


def convert(crate, names, lent):
    root = f"crates/{crate}/proofs"
    for folder, _, files in sorted(os.walk(root)):
        if "Proof.antt" not in files:
            continue
        text = open(f"{folder}/Proof.antt", encoding="utf-8").read()
        if "tie.close" not in text:
            print(f"{folder}: by hand")
            continue
        where = folder[len(root) + 1 :].replace("/", ".")
        key = f"Rattle-{crate}-proofs.{where}.Lts"
        if key not in names:
            print(f"{folder}: no names")
            continue
        f = Function(crate, folder, names[key], lent)
        uses, decls = blocks(text)
        mine = re.compile(r"use Rattle\.\w+\.proofs\.[\w.+]+\.(Statement|Tie|Reads|Lts)\b")
        uses = [u for u in uses if not mine.match(u)]
        invs, answers, helpers = [], [], []
        for block in decls:
            comment = [x for x in block if x.startswith("--") and not re.match(r"-- src/\S+:\d+:\d+$", x)]
            body = [x for x in block if not x.startswith("--")]
            while body and body[0] == "":
                body.pop(0)
            while body and body[-1] == "":
                body.pop()
            sig = body[0]
            m = re.match(r"((?:abbrev |pub |unfoldable )*)(\S+) : (.*)$", sig)
            if "tie.close" in "\n".join(body):
                continue
            if not m:
                f.said.append("not read: " + sig)
                continue
            name, kind = m.group(2), m.group(3)
            k = re.match(r"tie\.(invariant|decreases)-(\S+)$", kind)
            if k:
                new, _ = f.loop_new(k.group(2))
                d = re.match(re.escape(name) + r"((?: [^\s=]+)*) =[ \n]?(.*)$", "\n".join(body[1:]), re.S)
                if not d or not new:
                    f.said.append("loop not read: " + sig)
                    continue
                record, b = f.invariant(d.group(1).split(), d.group(2))
                label = f"{k.group(1)}-{new}"
                nl = "\n" if b.startswith(" ") else " "
                invs.append("\n".join(comment + [f"abbrev pub {label} : goal.{label}", f"{label} {record} ={nl}{b}"]))
                continue
            k = re.match(r"tie\.Need-(\S+)", kind)
            if not k:
                helpers.append("\n".join(comment + body))
                continue
            old = norm(k.group(1))
            if old not in f.needs and old.replace("-lem", "") in f.needs:
                old = old.replace("-lem", "")
            if old not in f.needs:
                b = " ".join(body[1:])
                if not re.search(r"= search rules$", b):
                    f.said.append("no such goal now: " + old)
                continue
            new, place = f.needs[old]
            rest = body[1:]
            unfolding = []
            while rest and rest[0].startswith("unfolding"):
                unfolding.append(rest.pop(0))
            d = re.match(re.escape(name) + r"((?: [^\s=]+)*) =[ \n]?(.*)$", "\n".join(rest), re.S)
            if not d:
                f.said.append("answer not read: " + old)
                continue
            args = [a for a in d.group(1).split() if a != "κs"]
            b = d.group(2)
            if b.strip() == "search rules" and not unfolding:
                continue
            binder = args[0] if args else "c"
            b = f.turn(b, place, binder)
            if binder != "c":
                args[0] = "c"
            nl = "\n" if b.startswith(" ") else " "
            answers.append("\n".join(comment + [f"pub {new} : goal.{new}"] + unfolding + [f"{new} {' '.join(args)} ={nl}{b}"]))
        base = f"Rattle.{crate}.proofs.{where}"
        os.remove(f"{folder}/Proof.antt")
        if invs:
            open(f"{folder}/Invariants.antt", "w", encoding="utf-8").write("\n".join(used(uses, invs)) + f"\nuse {base}.Given as goal\n\n" + "\n\n".join(invs) + "\n")
        if answers:
            open(f"{folder}/Answers.antt", "w", encoding="utf-8").write(
                "\n".join(used(uses, answers + helpers)) + f"\nuse {base}.Goals as goal\n\n" + "\n\n".join(helpers + answers) + "\n"
            )
        if not invs and not answers:
            os.rmdir(folder)
        for s in f.said:
            print(f"{folder}: {s}")


def used(uses, texts):
    """The imports with the names that the texts read."""
    whole = "\n".join(texts)
    keep = []
    for u in uses:
        m = re.match(r"(use [^{]+)\.\{(.*)\}$", u)
        if not m:
            last = u.split()[-1].split(".")[-1]
            if re.search(r"(?<![\w'])" + re.escape(last) + r"\.", whole):
                keep.append(u)
            continue
        names = []
        for n in m.group(2).split(","):
            n = n.strip()
            word = n.split(" as ")[-1]
            marks = [p for p in word.split("◌") if p]
            if all(re.search(r"(?<![\w'.-])" + re.escape(p) + r"(?![\w'-])" if re.match(r"\w", p) else re.escape(p), whole) for p in marks):
                names.append(n)
        if names:
            keep.append(f"{m.group(1)}.{{{', '.join(names)}}}")
    return keep


def main():
    lent = params()
    for crate in sys.argv[1:]:
        convert(crate, names_of(crate), lent)


main()
