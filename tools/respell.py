#!/usr/bin/env python3
"""Brings this repository's own definitions, lemmas and fields to snake case, by the table beside this file.

usage: python3 tools/respell.py [TOP]     at the top of a checkout (or of TOP) in which the kit's port.py ran

Once: names that it made are in the table too, so a second run would turn some of them again.

The table, tools/respelled.txt, has a name a line, old and new. A name counts as a whole: in the .antt files, outside the strings of
the .rt files, in the texts of the must-fail edits, and where a page has it between backticks. In the proof of a function a name with
dashes counts only where the file imports it, since what Rattle makes has dashes too. A lemma whose name would fall together with that
of a definition ends in `_lem`.
"""
import glob
import os
import re
import sys

TOKEN = re.compile(r"(?<![\w'-])[^\W\d][\w']*(?:-[\w']+)*")
QUOTED = re.compile(r"`[^`\n]*`")
# Names of one file alone: a lemma with the name that a definition takes.
HERE = {"crates/phases/proofs/FrameLaws.antt": {"frame_right": "frame_right_lem"}}


def table(path):
    with open(path, encoding="utf-8") as lines:
        return dict(line.split() for line in lines)


def renamed(text, names):
    return TOKEN.sub(lambda found: names.get(found.group(), found.group()), text)


def in_quotes(text, names):
    return QUOTED.sub(lambda found: renamed(found.group(), names), text)


def comment(text, names):
    camel = {old: new for old, new in names.items() if "-" not in old}
    return in_quotes(renamed(text, camel), names)


def antt(path, text, names):
    if os.path.basename(path) == "Proof.antt":
        imported = set(TOKEN.findall(" ".join(re.findall(r"(?m)^use .*$", text))))
        names = {old: new for old, new in names.items() if "-" not in old or old in imported}
    lines = []
    for line in text.split("\n"):
        found = re.search(r"(?:^|\s)--(?=\s|$)", line)
        at = found.start() if found else len(line)
        lines.append(renamed(line[:at], names) + comment(line[at:], names))
    return "\n".join(lines)


def rt(text, names):
    lines = []
    for line in text.split("\n"):
        at = line.find("//") if '"' not in line else len(line)
        at = at if at >= 0 else len(line)
        parts = re.split(r'("(?:[^"\\]|\\.)*")', line[:at])
        code = "".join(part if part.startswith('"') else renamed(part, names) for part in parts)
        lines.append(code + comment(line[at:], names))
    return "\n".join(lines)


def edit(text, names):
    lines = []
    for line in text.split("\n"):
        told = line.startswith(("old:", "new:"))
        lines.append(renamed(line, names) if told else comment(line, names))
    return "\n".join(lines)


def main(top):
    names = table(os.path.join(os.path.dirname(os.path.realpath(__file__)), "respelled.txt"))
    forms = {
        "crates/**/*.antt": antt,
        "crates/**/*.rt": lambda path, text, names: rt(text, names),
        "crates/*/must-fail/*.edit": lambda path, text, names: edit(text, names),
        "README.md": lambda path, text, names: in_quotes(text, names),
        "docs/**/*.md": lambda path, text, names: in_quotes(text, names),
    }
    changed = 0
    for pattern, turn in forms.items():
        for path in sorted(glob.glob(os.path.join(top, pattern), recursive=True)):
            if "/out/" in path:
                continue
            with open(path, encoding="utf-8") as file:
                old = file.read()
            local = HERE.get(os.path.relpath(path, top), {})
            new = turn(path, old, {**names, **local})
            if new != old:
                changed += 1
                with open(path, "w", encoding="utf-8") as file:
                    file.write(new)
    print(f"respell: {changed} files")


main(sys.argv[1] if len(sys.argv) > 1 else ".")
