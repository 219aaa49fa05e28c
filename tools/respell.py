#!/usr/bin/env python3
"""Brings the repository's own definitions, lemmas and fields to the spelling of today's Rattle: names in snake case, types in camel case.

usage: tools/respell.py [--list]      at the top of the repository, once, after the toolchain's own script

A name that an .antt file declares and that has a dash gets underscores; a type's words are joined with capitals. The names that Rattle
makes (of loops, calls and goals) keep their dashes: they are declared with a type of Goals or Given, or follow a dot without being a field
of a record of ours or a name of a module of ours. Texts in quotes are left alone. --list prints the names, and says which fall together.
"""
import os
import re
import subprocess
import sys

DECLARED = re.compile(r"^(\s*)((?:abbrev\s+|unfoldable\s+|pub\s+|record\s+|data\s+)*)([^\s:(){}]+)\s*(?:[({][^:]*:[^)}]*[)}]\s*)*:(?!\s*goal\.)")
RECORD = re.compile(r"^\s*(?:pub\s+|abbrev\s+)*record\s+")
QUOTED = re.compile(r'"(?:[^"\\]|\\.)*"')


def files():
    listed = subprocess.check_output(["git", "ls-files", "-co", "--exclude-standard", "crates"], text=True).split()
    return [f for f in listed if f.endswith((".antt", ".rt")) and os.path.exists(f)]


def turned(name):
    words = name.replace("getD", "get_or").split("-")
    if words[0][0].isupper():
        return "".join(w[0].upper() + w[1:] for w in words)
    return "_".join(words)


def crate(path):
    return path.split("/")[1]


def declared(paths):
    """For each name, the crates that declare it; and those that are fields of a record."""
    names, fields = {}, set()
    for path in paths:
        if not path.endswith(".antt"):
            continue
        record = None
        for line in open(path, encoding="utf-8"):
            if not line.strip() or line.strip().startswith("--") or line.startswith("use "):
                continue
            indent = len(line) - len(line.lstrip())
            if record is not None and indent <= record:
                record = None
            if RECORD.match(line):
                record = indent
            m = DECLARED.match(line)
            if m and turned(m.group(3)) != m.group(3):
                names.setdefault(m.group(3), set()).add(crate(path))
                if record is not None and indent > record:
                    fields.add(m.group(3))
    return names, fields


def respelled(path, text, names, fields):
    seen = {n for n, crates in names.items() if crate(path) in crates or any(f"Rattle.{c}." in text for c in crates)}
    aliases = set(re.findall(r"use Rattle\.\w+\.(?:specs|proofs)\.[\w.]+ as (\w+)", text))

    def token(m):
        name = m.group(0)
        head = re.search(r"([\w'-]+)\.$", m.string[:m.start()])
        if name in seen and (not m.string[:m.start()].endswith(".") or name in fields or (head and head.group(1) in aliases)):
            return turned(name)
        return name

    out, at = [], 0
    for m in QUOTED.finditer(text):
        out += [re.sub(r"[\w'-]+", token, text[at:m.start()]), m.group(0)]
        at = m.end()
    return "".join(out + [re.sub(r"[\w'-]+", token, text[at:])])


def main():
    paths = files()
    names, fields = declared(paths)
    if "--list" in sys.argv:
        used = set()
        for path in paths:
            used |= set(re.findall(r"[\w'-]+", QUOTED.sub("", open(path, encoding="utf-8").read())))
        for name in sorted(names):
            note = ("  field" if name in fields else "") + ("  FALLS TOGETHER" if turned(name) in used else "")
            print(name, turned(name), note)
        return
    for path in paths:
        text = open(path, encoding="utf-8").read()
        new = respelled(path, text, names, fields)
        if new != text:
            open(path, "w", encoding="utf-8").write(new)


main()
