#!/usr/bin/env python3
"""Brings the repository's own definitions and lemmas in README.md and docs/*.md to the spelling of tools/respell.py: `is-leap` to `is_leap`.

usage: python3 tools/respell_papers.py      once, at the top of a checkout, after tools/respell.py

It goes by text, over what stands in backquotes and over indented blocks. A name is turned if it stands in the code of crates/*/specs or crates/*/proofs
in its new spelling, and is no must-fail edit and no job.
"""

import glob
import os
import re

from respell import NAME, snake, split

WORD = re.compile(r"[^\W\d_][\w'′]*")


def main():
    words = set()
    for f in glob.glob("crates/*/specs/**/*.antt", recursive=True) + glob.glob("crates/*/proofs/**/*.antt", recursive=True):
        with open(f, encoding="utf-8") as it:
            for line in it.read().split("\n"):
                words |= set(WORD.findall(split(line, "--")[0]))
    others = {os.path.basename(f).split(".")[0] for f in glob.glob("crates/*/must-fail/*.edit") + glob.glob("examples/*")}

    def turn(m):
        name = m.group(0)
        beside = m.string[m.start() - 1 : m.start()] in ("/", ".") or m.string[m.end() : m.end() + 1] in ("/", ".")
        return name if beside or name in others or snake(name) not in words else snake(name)

    for f in ["README.md", *sorted(glob.glob("docs/*.md"))]:
        with open(f, encoding="utf-8") as it:
            text = it.read()
        lines = []
        for line in text.split("\n"):
            if line.startswith("    ") and "`" not in line:
                lines.append(NAME.sub(turn, line))
            else:
                lines.append(re.sub(r"`[^`]*`", lambda q: NAME.sub(turn, q.group(0)), line))
        if "\n".join(lines) != text:
            with open(f, "w", encoding="utf-8") as it:
                it.write("\n".join(lines))
            print(f)


main()
