#!/usr/bin/env python3
"""Brings the repository's own definitions and lemmas to snake case: `is-leap` to `is_leap`.

usage: python3 tools/respell.py [FOLDER]    once, at the top of a checkout, after the kit's port.py

It goes by text, over crates/*/specs, crates/*/proofs, and the contracts of crates/*/src. A name that a file imports from the kit, and a name
that the checker makes (`tie.X`, `Need-X`, a step's name behind a dot), keeps its spelling. Comments change only in backquotes. Names that
would fall together with another name of the same file are printed, and the run stops before anything is written.
"""

import glob
import os
import re
import sys

NAME = re.compile(r"(?<![\w'′-])[^\W\d_][\w'′]*(?:-[\w'′]+)+")
PLAIN = re.compile(r"(?<![\w'′-])[^\W\d_][\w'′]*(?![\w'′]*-[\w'′])")
KIT = re.compile(r"^\s*(?:ghost )?use (?:mathlib|lib|native|Prim|borrow|denote|mir|seplogic|logic|Rattle\.std|Rattle\.core)\b")
DAYS = "Monday Tuesday Wednesday Thursday Friday Saturday Sunday Mo Tu We Th Fr Sa Su".split()
CAMEL = {"natAbs-centimetres": "nat_abs_centimetres", "natAbs-negated": "nat_abs_negated", "Does-alone": "DoesAlone", "Linked-now": "LinkedNow"}


def split(line, mark):
    """A line's code, and its comment."""
    if line.lstrip().startswith(mark + " ") or line.strip() == mark or line.lstrip().startswith(mark + "/"):
        return "", line
    at = line.find(" " + mark + " ")
    return (line, "") if at < 0 else (line[:at], line[at:])


def imported(text):
    """The names that a file takes from the kit."""
    found = set()
    for m in re.finditer(r"^\s*(?:ghost )?use [^\n{;]*(?:\{[^}]*\})?", text, re.M):
        if KIT.match(m.group(0)):
            found |= set(NAME.findall(m.group(0)))
    return found


def declared(text):
    """The names that a file of definitions or lemmas declares at its top, as a field or as a constructor."""
    found = set()
    for line in text.split("\n"):
        code, _ = split(line, "--")
        m = re.match(r"^\s*(?:(?:abbrev|unfoldable|opaque|pub|data|record) )*([^\s(){}:;,.]+(?: [^\s(){}:;,.]+)*) :(?: |$)", code)
        if m:
            found |= {n for n in m.group(1).split() if "-" in n}
        m = re.match(r"^\s*(?:pub )?(?:data|record) (?:pub )?([^\s(){}:;,.]+)", code)
        if m and "-" in m.group(1):
            found.add(m.group(1))
    return found


def snake(name):
    return CAMEL.get(name, name.replace("-", "_"))


def main():
    if len(sys.argv) > 1:
        os.chdir(sys.argv[1])
    files = sorted(f for ext in ("antt", "rt") for f in glob.glob(f"crates/**/*.{ext}", recursive=True) if "/out/" not in f)
    texts = {f: open(f, encoding="utf-8").read() for f in files}
    own = set()
    for f, t in texts.items():
        if f.endswith(".antt") and not f.endswith("/Proof.antt"):
            own |= declared(t)
    days_known = [f for f in files if f.startswith("crates/hours/") or f.startswith("crates/calendar/") or f.startswith("crates/wording/")]
    clash = 0
    made = {}
    for f, t in texts.items():
        kit = imported(t)
        by_hand = f.endswith("/Proof.antt")
        rust = f.endswith(".rt")

        def keeps(name, before):
            if name in kit or name.startswith("Need-") or before.endswith("tie."):
                return True
            return by_hand and name not in own

        turned = set()
        lines = []
        for line in t.split("\n"):
            code, comment = split(line, "//" if rust else "--")

            def turn(m):
                name = m.group(0)
                if keeps(name, code[: m.start()]):
                    return name
                turned.add(name)
                return snake(name)

            new = NAME.sub(turn, code)
            if f in days_known:
                new = re.sub(r"(?<![\w'′.-])(" + "|".join(DAYS) + r")(?![\w'′-])", lambda m: m.group(1).lower(), new)
            said = re.sub(r"`[^`]*`", lambda q: NAME.sub(lambda m: snake(m.group(0)) if m.group(0) in own else m.group(0), q.group(0)), comment)
            lines.append(new + said)
        before = set()
        for line in t.split("\n"):
            code, _ = split(line, "//" if rust else "--")
            before |= set(PLAIN.findall(code))
        # a function may have its definition's name: a clause means the definition
        functions = set(re.findall(r"\b(\w+)\(", t)) | set(re.findall(r"^use [^{;]*\{([^}]*)\}", t, re.M)) if rust else set()
        functions = {n.strip() for part in functions for n in part.split(",")}
        if by_hand:
            functions.add(f.split("/")[-2])
        for name in sorted(turned):
            if snake(name) in before - functions:
                print(f"falls together: {f}: {name}")
                clash += 1
        made[f] = "\n".join(lines)
    if clash:
        print(f"{clash} names fall together; nothing written")
        return 1
    count = 0
    for f, t in made.items():
        if t != texts[f]:
            open(f, "w", encoding="utf-8").write(t)
            count += 1
    print(f"{count} files")
    return 0


if __name__ == "__main__":
    sys.exit(main())
