#!/usr/bin/env python3
"""Brings the repository's own names in specs/, proofs/, clauses and must-fail edits to the spelling of the present Rattle.

usage: python3 tools/respell.py        once, at the top, right after the toolchain's own port.py

A word of antt that this repository declares and that was written with hyphens is written with underscores: leaf-of becomes leaf_of. What is
left alone: a word that a file takes from a library, names that the check makes (in the proofs that walk the code), comments, strings, and what
is code in a .rt file (there a minus stands between blanks, so no word of it has a hyphen).
"""

import os
import re

WORD = re.compile(r"(?<![\w'-])[^\W\d][\w']*(?:-[\w']+)+(?![\w'-])")
STRING = re.compile(r"\"(?:[^\"\\\n]|\\.)*\"")
USE = re.compile(r"^(?:ghost |pub )*use\s+([^\s;{]+)(?:\{([^}]*)\})?", re.M)


def files(ending):
    for folder, folders, names in os.walk("crates"):
        folders[:] = sorted(d for d in folders if d != "out")
        for name in sorted(names):
            if name.endswith(ending):
                yield os.path.join(folder, name)


def read(path):
    with open(path, encoding="utf-8") as f:
        return f.read()


def parts(line, mark):
    """The code of a line, and its comment."""
    for m in re.finditer(re.escape(mark), line):
        before = line[: m.start()]
        if before.count('"') % 2 == 0 and (mark == "//" or before == "" or before[-1] in " \t"):
            return before, line[m.start() :]
    return line, ""


def code_of(text, mark):
    return "\n".join(parts(l, mark)[0] for l in text.split("\n"))


def is_walk(path):
    return path.endswith("/Proof.antt")


CRATES = set(os.listdir("crates"))


def is_own(module):
    bits = module.split(".")
    return bits[0] == "Rattle" and len(bits) > 1 and bits[1] in CRATES


def taken(code):
    """The words that a file takes from a library."""
    out = set()
    for m in USE.finditer(code):
        if not is_own(m.group(1)) and m.group(2):
            for it in m.group(2).split(","):
                out.add(it.split(" as ")[-1].strip())
    return out


def own():
    """The hyphened words that the repository's own files of specs/ and proofs/ have, but for those that they take from a library."""
    out = set()
    for path in files(".antt"):
        if not is_walk(path):
            code = code_of(read(path), "--")
            out |= {m.group(0) for m in WORD.finditer(code) if m.start() == 0 or code[m.start() - 1] != "."} - taken(code)
    return out


def turn(path, mark, names, only=None):
    old = read(path)
    free = set() if only else taken(code_of(old, mark))

    def word(m):
        it = m.group(0)
        field = m.start() > 0 and m.string[m.start() - 1] == "." and is_walk(path)
        if it in free and not field or it not in names:
            return it
        return it.replace("-", "_")

    def line(l):
        code, comment = parts(l, mark)
        out, last = [], 0
        for m in STRING.finditer(code):
            out += [WORD.sub(word, code[last : m.start()]), m.group(0)]
            last = m.end()
        return "".join(out + [WORD.sub(word, code[last:])]) + comment

    new = "\n".join(line(l) if only is None or l.startswith(only) else l for l in old.split("\n"))
    if new != old:
        with open(path, "w", encoding="utf-8") as f:
            f.write(new)
    return new != old


def main():
    names = own()
    changed = sum(turn(p, "--", names) for p in files(".antt"))
    changed += sum(turn(p, "//", names) for p in files(".rt"))
    changed += sum(turn(p, "--", names, ("old:", "new:")) for p in files(".edit"))
    print(f"respell: {len(names)} names, {changed} files changed")


if __name__ == "__main__":
    main()
