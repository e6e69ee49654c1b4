#!/usr/bin/env python3
"""Brings the repository's own names in specs/ and proofs/ to today's spelling, once, after the kit's own scripts:
words in snake case, types and facts in upper camel case.

usage: python3 tools/snake_names.py [--dry]     at the top of the repository

It collects the names with a dash that the repository's .antt files define (definitions, lemmas, fields, constructors,
local names), and respells them in every .antt file and in the contracts of the .rt files. Names that the prover makes
of the source (`goal.NAME`) keep theirs. It stops where two names would fall together.
"""
import os
import re
import sys

NAME = r"[A-Za-z][\w']*(?:-[\w']+)+"
TOKEN = re.compile(r"(?<![\w'·\-])" + NAME + r"(?![\w'\-])")
COMMENT_ANTT = re.compile(r"(^|\s)--(\s.*)?$")


def files(ext):
    for folder, dirs, names in os.walk("crates"):
        dirs[:] = sorted(d for d in dirs if d != "out")
        for n in sorted(names):
            if n.endswith(ext):
                yield os.path.join(folder, n)


def code_of(line):
    m = COMMENT_ANTT.search(line)
    return line if m is None else line[: m.start()]


def spelled(name):
    parts = name.split("-")
    if parts[0][:1].isupper():
        return "".join(p[:1].upper() + p[1:] for p in parts)
    return "_".join(parts)


def defined(text):
    """The names that a file defines, but for those whose statement the prover makes."""
    found = set()
    for line in text.split("\n"):
        code = code_of(line)
        m = re.match(r"\s*(?:abbrev |unfoldable )?(?:pub )?(?:abbrev )?(" + NAME + r")\s*:\s*(\S.*)?$", code)
        if m:
            if not re.match(r"(goal|given|need)\.", m.group(2) or ""):
                found.add(m.group(1))
            continue
        m = re.match(r"\s*(?:pub )?(?:record|data) (" + NAME + r")", code)
        if m:
            found.add(m.group(1))
        for m in re.finditer(r"[({]((?:[\w'-]+ )+): ", code):
            found.update(t for t in m.group(1).split() if re.fullmatch(NAME, t))
        for m in re.finditer(r"\blet (" + NAME + r") (?::|=)", code):
            found.add(m.group(1))
        for m in re.finditer(r"λ ((?:[\w'-]+ ?)+)\.", code):
            found.update(t for t in m.group(1).split() if re.fullmatch(NAME, t))
    return found


def respell(line, names):
    return TOKEN.sub(lambda m: names.get(m.group(0), m.group(0)), line)


def main():
    dry = "--dry" in sys.argv
    antt = {p: open(p, encoding="utf-8").read() for p in files(".antt")}
    rt = {p: open(p, encoding="utf-8").read() for p in files(".rt")}
    own = set()
    made = set()
    for text in antt.values():
        own |= defined(text)
        made |= set(re.findall(r"\b(?:goal|given)\.(" + NAME + r")", text))
    for clash in sorted(own & made):
        print("keeps its name, as the prover makes it too:", clash)
    own -= made
    names = {n: spelled(n) for n in own}
    back = {}
    for n, s in sorted(names.items()):
        back.setdefault(s, []).append(n)
    for s, ns in back.items():
        if len(ns) > 1:
            sys.exit("fall together: " + ", ".join(ns))
    plain = {}
    for p, text in antt.items():
        for line in text.split("\n"):
            for t in re.findall(r"(?<![\w'.\-])[A-Za-z][\w']*(?![\w'\-])", code_of(line)):
                plain.setdefault(t, set()).add(p)
    for s, ns in sorted(back.items()):
        if s in plain:
            users = {p for p, text in antt.items() if TOKEN.search(text) and ns[0] in TOKEN.findall(text)}
            both = sorted(users & plain[s])
            print("stands already:", s, "in", len(plain[s]), "files; together with", ns[0], "in", both)
    for p, text in antt.items():
        lines = []
        for line in text.split("\n"):
            code = code_of(line)
            lines.append(respell(code, names) + line[len(code):])
        new = "\n".join(lines)
        if new != text and not dry:
            open(p, "w", encoding="utf-8").write(new)
    for p, text in rt.items():
        lines = []
        for line in text.split("\n"):
            cut = re.search(r"(^|\s)//", line)
            code = line if cut is None else line[: cut.start()]
            lines.append(respell(code, names) + line[len(code):])
        new = "\n".join(lines)
        fields = set(re.findall(r"^\s*(?:pub )?(\w+): ", text, re.M))
        used = set(re.findall(r"\w+", " ".join(re.findall(r"ghost use .*?\{(.*?)\};", new, re.S))))
        for t in sorted(used & fields):
            print("an import and a field or parameter:", t, "in", p)
        if new != text and not dry:
            open(p, "w", encoding="utf-8").write(new)
    if dry:
        for n, s in sorted(names.items()):
            print("   ", n, "->", s)
    print(len(names), "names")


main()
