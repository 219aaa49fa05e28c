#!/usr/bin/env python3
"""Lists the places in src/ that read like an older language, point by point, as docs/DESIGN-PASS.md counts them.

    tools/places.py [FOLDER]      the counts, and below each count its places

It goes by the shape of the text: a place that it lists is looked at, and either written anew or told on the page with its reason.
"""
import re
import sys
from collections import defaultdict
from pathlib import Path

ROOT = Path(sys.argv[1] if len(sys.argv) > 1 else ".")
SOURCES = sorted(ROOT.glob("crates/*/src/**/*.rt"))
SPECS = sorted(ROOT.glob("crates/*/specs/*.antt"))
TEXT = {path: path.read_text() for path in SOURCES}

# What each shape is, by the point that it belongs to.
SHAPES = [
    ("1a", "a refusal or a stop handed round as an Option: `if let Some(x) = .. { return Err(x) / Some(x) }`",
     r"if let Some\((\w+)\) = [^;]*?\{\s*return (?:Err|Some|Ok\(Some)\(\1\)"),
    ("1b", "functions that answer `Option<Refusal>`", r"-> Option<Refusal>"),
    ("1c", "an arm that passes None or Err on", r"\bErr\((\w+)\) => Err\(\1\)|\bErr\(_\) => None\b|\bNone => None\b"),
    ("1d", "`else { return None; }`", r"else \{\s*return None;\s*\}"),
    ("1e", "a number for yes or no, or for none", r"// 1 for |// .*\b0 (?:where|none)|// .*at 0 none"),
    ("1f", "numbers for kinds, refusals and marks", r"fn (?:number\(self|byte\(self|of_byte\()"),
    ("1g", "a flag in a struct", r"^    (?:pub |pub\(crate\) )?\w+: bool,$"),
    ("1h", "own enums with a parameter, or with a refusal in them", r"enum \w+<\w+> \{|^    (?:Refused|Stopped)\(\w+\),$"),
    ("3a", "a loop over an index, or one that changes an index", r"for \w+ in \d\.\.|while \w+ [<>]|\bi [-+]= 1;"),
    ("3b", "a loop that counts, sums, seeks or copies",
     r"for [^{]*\{\s*(?:if [^{]*\{\s*)?(?:return true;|return Some\(|\w+ \+= |if \w+ == 0)|while let Some\((?:edge|step)\) = (?:edges|self)"),
    ("4a", "`matches!` or `if let` of a kind, kinds told apart by their numbers", r"matches!\(|if let \w+::\w+ = |\.number\(\) =="),
    ("4b", "conversions, names and printing by hand",
     r"fn (?:\w+_name|name|character|done|block|found|resolved)\([^)]*\) -> (?:&|char|Reply)|struct Written\w+"),
    ("4c", "copying out of an Option or a slice by hand", r"Some\(\w+\) => (?:Some\(\*\w+\)|\*\w+)"),
    ("6a", "a number beside a slice that says how much of it is used", r"^    pub (?:used|count): usize,$"),
    ("6b", "numbers that point into a table, and parts of a text by place", r"^    pub (?:next_\w+|first_\w+|context|offset): [^,]*usize>?,$"),
    ("7a", "a switch on the kind of a break or a continue, or on what is sought", r"EntryKind::Break => \w+\.\w+\(|Sought::\w+ => matches"),
    ("7b", "a pair made by a function of its own", r"fn pair_\w+\("),
]


def places(pattern):
    for path, text in TEXT.items():
        for found in re.finditer(pattern, text, re.M):
            line = text.count("\n", 0, found.start()) + 1
            yield f"{path.relative_to(ROOT)}:{line}", found.group(0).split("\n")[0].strip()


def split_parameters(text):
    """The parameters of a function, as `name: type`, without its self."""
    depth, part = 0, ""
    for char in text.replace("->", "  ") + ",":
        depth += (char in "([<{") - (char in ")]>}")
        if char == "," and depth == 0:
            part = re.sub(r"\s+", " ", part).strip().removeprefix("mut ")
            if part and not part.endswith("self"):
                yield part
            part = ""
        else:
            part += char


def functions():
    """Each function of src/: crate, place, name, parameters, clauses of its contract, body."""
    head = re.compile(r"^( *)(?:pub(?:\(\w+\))? )?fn (\w+)[^(\n]*\(", re.M)
    for path, text in TEXT.items():
        for found in head.finditer(text):
            depth, end = 1, found.end()
            while depth:
                depth += (text[end] == "(") - (text[end] == ")")
                end += 1
            rest = re.compile(
                rf"(.*?)(?:^{found.group(1)}\{{$(.*?)^{found.group(1)}\}}$|^{found.group(1)}\{{\}}$|;$|\{{$(.*?)^{found.group(1)}\}}$)", re.M | re.S
            ).match(text, end)
            clauses = re.findall(r"(?:requires|ensures)(?: \w+)? \{ (.*?) \}$", rest.group(1), re.M | re.S)
            yield (
                path.relative_to(ROOT).parts[1],
                f"{path.relative_to(ROOT)}:{text.count(chr(10), 0, found.start()) + 1}",
                found.group(2),
                list(split_parameters(text[found.end():end - 1])),
                [re.sub(r"\s+", " ", clause) for clause in clauses],
                rest.group(2) or rest.group(3) or "",
            )


def shape(name, parameters, body):
    """A body without what twins differ in: types, variants, constants, and the names of parameters and of the function itself."""
    body = re.sub(r"//.*", "", body)
    for number, parameter in enumerate(parameters):
        body = re.sub(rf"\b{re.escape(parameter.split(':')[0])}\b", f"p{number}", body)
    body = re.sub(rf"\b{name}\b", "me", body)
    body = re.sub(r"\b[A-Z]\w*\b(?:::)?|\b\d+\b|\"[^\"]*\"|'[^']'|\btrue\b|\bfalse\b", "C", body)
    return re.sub(r"\s+", " ", re.sub(r"(?:C ?)+", "C", body)).strip()


def twins():
    """Functions whose bodies have one shape, and definitions of one text in more than one crate."""
    shapes, texts = defaultdict(list), defaultdict(set)
    for _, place, name, parameters, _, body in functions():
        if len(re.findall(r"\w+", body)) > 3:
            shapes[shape(name, parameters, body)].append(f"{place} {name}")
    for found in shapes.values():
        if len(found) > 1:
            yield f"{len(found)} functions", "; ".join(found)
    for path in SPECS:
        for found in re.finditer(r"^(?:abbrev )?pub (?:record )?([\w']+) (?:.|\n)*?(?=\n\n|\Z)", path.read_text(), re.M):
            texts[re.sub(r"\s+", " ", found.group(0))].add(path.relative_to(ROOT).parts[1] + " " + found.group(1))
    for crates in texts.values():
        if len(crates) > 1:
            yield "a definition", "; ".join(sorted(crates))


def repeated_clauses():
    counts = defaultdict(set)
    for crate, _, name, _, clauses, _ in functions():
        for clause in clauses:
            counts[crate, re.sub(r"(self|graph|guard|stack)\.(?:old|now)", r"\1", clause)].add(name)
    for (crate, clause), names in sorted(counts.items()):
        if len(names) > 2:
            yield crate, f"{clause}  in {', '.join(sorted(names))}"


def travelling():
    """Sets of two or more parameters that three or more functions take."""
    taken = {place + " " + name: frozenset(parameters) for _, place, name, parameters, _, _ in functions()}
    groups = {a & b for a in taken.values() for b in taken.values() if a != b and len(a & b) > 1}
    for group in sorted(groups, key=sorted):
        names = [name for name, parameters in taken.items() if group <= parameters]
        if len(names) > 2:
            yield "; ".join(sorted(group)), "in " + ", ".join(names)


def show(label, title, found):
    found = list(found)
    print(f"{label} {len(found):3}  {title}")
    return [(label, f"  {where}  {what}") for where, what in found]


lines = []
for label, title, pattern in SHAPES:
    lines += show(label, title, places(pattern))
lines += show("2a", "functions of one shape, and definitions of one text", twins())
lines += show("5a", "clauses that three or more contracts of a crate share", repeated_clauses())
lines += show("5b", "two or more parameters that three or more functions share", travelling())
for label, line in lines:
    print(label, line)
