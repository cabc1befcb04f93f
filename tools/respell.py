#!/usr/bin/env python3
"""Respells the repository's own definitions and lemmas: facts like types, all else in snake case, a dash only between two names.

usage: python3 tools/respell.py        at the top of the repository, once, right after the toolchain's own port script

tools/respell.txt has a line for each name: the old one and the new one. Comments, Rust code and the names of goals are left
alone; contracts, specs/, proofs/ and the names that docs/ and README.md quote are turned.
"""
import os
import re

NAME = re.compile(r"[A-Za-z_][\w'₀-₉]*(?:-[\w'≢≡≤<+*∷₀-₉]+)*")
HERE = os.path.dirname(os.path.abspath(__file__))
with open(os.path.join(HERE, "respell.txt"), encoding="utf-8") as table:
    NEW = dict(line.split() for line in table)


def turned(text):
    """The text with each name of the table turned, but for the name of a goal."""

    def one(found):
        before = found.string[: found.start()]
        return found.group(0) if before.endswith("goal.") else NEW.get(found.group(0), found.group(0))

    return NAME.sub(one, text)


def turned_line(line, comment):
    code, mark, rest = line.partition(comment)
    return turned(code) + mark + rest


def turned_page(text):
    return re.sub(r"`[^`\n]+`", lambda quoted: turned(quoted.group(0)), text)


def is_old():
    """Whether some file of crates/ still has a name of the table in camel case: a second run would turn new names again."""
    camel = [old for old in NEW if old.lower() != old]
    for folder, _, files in os.walk("crates"):
        for name in files:
            if name.endswith(".antt"):
                with open(os.path.join(folder, name), encoding="utf-8") as file:
                    if not set(camel).isdisjoint(NAME.findall(file.read())):
                        return True
    return False


def rewrite(path, turn):
    with open(path, encoding="utf-8") as file:
        old = file.read()
    new = turn(old)
    if new != old:
        with open(path, "w", encoding="utf-8") as file:
            file.write(new)


def main():
    if not is_old():
        raise SystemExit("respell: no old name is left")
    for folder, folders, files in os.walk("crates"):
        folders[:] = [name for name in folders if name not in ("out", "must-fail")]
        for name in files:
            comment = {".antt": "--", ".rt": "//"}.get(os.path.splitext(name)[1])
            if comment:
                lines = lambda text: "\n".join(turned_line(line, comment) for line in text.split("\n"))
                rewrite(os.path.join(folder, name), lines)
    for page in ["README.md"] + [os.path.join("docs", name) for name in sorted(os.listdir("docs"))]:
        if page.endswith(".md") and os.path.exists(page):
            rewrite(page, turned_page)


if __name__ == "__main__":
    main()
