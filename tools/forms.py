#!/usr/bin/env python3
"""Counts the places in src/ whose form docs/DESIGN-PASS.md asks after, by its points.

    tools/forms.py [COMMIT] [-l]      of a commit, or of the files as they stand; -l names each place

What it finds are lines to look at, and no verdict.
"""

import collections
import re
import subprocess
import sys

commit = next((a for a in sys.argv[1:] if not a.startswith("-")), None)
listed = "-l" in sys.argv


def run(*command):
    return subprocess.run(command, capture_output=True, text=True, check=True).stdout


names = run("git", "ls-tree", "-r", "--name-only", commit or "HEAD", "crates") if commit else run("git", "ls-files", "crates")
names = [n for n in names.split() if re.fullmatch(r"crates/\w+/src/\w+\.rt", n)]
files = {n: run("git", "show", f"{commit}:{n}") if commit else open(n).read() for n in names}


def found(what, pattern):
    places = [(n, i + 1, l.strip()) for n, text in files.items() for i, l in enumerate(text.split("\n")) if re.search(pattern, l)]
    print(f"{len(places):4}  {what}")
    if listed:
        for name, line, text in places:
            print(f"        {name[7:]}:{line}: {text[:100]}")


print("1")
found("enums", r"^\s*(pub )?enum ")
found("numbers for kinds of nodes and orders", r"const (FREE|LEAF|FORK|INSERT|REMOVE|ACCESS|RANK|SELECT|QUIET): u64")
found("numbers for answers", r"refusal\(\d+\)|code: \d|tell_two\(out, \d")
found("comments by which a number says that there is none", r"//.*\b(0|16) (levels )?(where|with)\b|//.*, none where|//.*the second place where")
found("fields that are a flag", r"^\s+(pub )?[a-z_]+: bool,$")

print("2")
functions = collections.defaultdict(set)
for name, text in files.items():
    for f in re.findall(r"\bfn (\w+)", text):
        functions[f].add(name)
for f in sorted(f for f in functions if len(functions[f]) > 1 or re.search(r"(32|64|128)$", f)):
    print(f"      {f}: {', '.join(sorted(n[7:].replace('/src/', '/') for n in functions[f]))}")

print("3")
found("loops that are no `for`", r"^\s*(let \w+ = )?(while|loop)\b")
found("numbers counted up or down by one", r"^\s*\w+ [+-]= 1;$")
found("`for` over the places of a slice", r"^\s*for \w+ in \w+\.\.\w")

print("4")
found("fields copied from a field", r"^\s+(left|right|left_total|left_ones|balance|root|length|chain|nodes|last|struck|longest|full): \w+\.\w+,$")
found("a field kept under a name of its own", r"^\s*let \w+ = \w+\.\w+;$")
found("bytes or words put together or taken apart by hand", r"<< 8|>> 8|words?\[0\]|wide\(\w+\[\w+\]\)$")

print("5")
pairs = collections.Counter()
long = []
for name, text in files.items():
    for f, parameters in re.findall(r"\bfn (\w+)(?:<[^>]*>)?\s*\(([^)]*)\)", text):
        each = [p.split(":")[0].strip() for p in parameters.split(",") if p.strip()]
        if len(each) > 5:
            long.append(f"{name[7:].split('/')[0]}/{f} {len(each)}")
        pairs.update((a, b) for i, a in enumerate(each) for b in each[i + 1 :])
print(f"{len(long):4}  functions of more than five parameters: {', '.join(long)}")
print(f"      pairs of parameters in five functions or more: {', '.join(f'{a} {b} {n}' for (a, b), n in pairs.most_common() if n > 4)}")
facts = collections.Counter()
for text in files.values():
    for body in re.findall(r"requires(?: \w+)? \{((?:[^{}]|\{[^{}]*\})*)\}", text):
        facts.update(re.sub(r"\s+", " ", p).strip(" ()") for p in re.split("×", body))
for fact, n in facts.most_common():
    if n > 2 and not re.fullmatch(r"\w+ : \w+", fact):
        print(f"{n:4}  {fact}")

print("6")
found("a count beside a buffer", r"^\s*(pub )?(fn .*)?\bcount: (usize|u64)\b")
found("rows that belong together by place", r"^const [A-Z]+: \[")

print("7")
found("matches on a number", r"match (\w+\.)?(number|second|third|operation|i|kind) \{")
