#!/usr/bin/env python3
"""Counts the places of docs/DESIGN-PASS.md in crates/*/src.

    python3 tools/design.py [POINT ..] [--root FOLDER]

Points: enums, numbers, twins, loops, hand, facts, buffers, steps, answers. Each place is one line 'POINT PLACE what', and each point ends with its count.
"""
import difflib
import glob
import os
import re
import sys

root = "."
words = sys.argv[1:]
if "--root" in words:
    at = words.index("--root")
    root = words[at + 1]
    del words[at : at + 2]
os.chdir(root)
SOURCES = sorted(glob.glob("crates/*/src/**/*.rt", recursive=True))
TEXT = {path: open(path).read() for path in SOURCES}


def line_of(path, at):
    return f"{path}:{TEXT[path].count(chr(10), 0, at) + 1}"


def functions():
    """Each function: where it stands, its crate, its name, its parameters, and its body's text."""
    for path, text in TEXT.items():
        for m in re.finditer(r"^ *(?:pub(?:\(\w+\))? )?(?:extern \"C\" )?fn (\w+)(?:<[^(]*>)?\(", text, re.M):
            depth, at = 1, m.end()
            while depth:
                depth += {"(": 1, ")": -1}.get(text[at], 0)
                at += 1
            given = text[m.end() : at - 1]
            indent = re.match(r" *", text[text.rfind("\n", 0, m.start()) + 1 if m.start() else 0 :]).group()
            opened = text.find("\n" + indent + "{\n", at)
            same = text.find("{\n", at)
            if same != -1 and (opened == -1 or same < opened) and "\n" not in text[at:same]:
                opened = same
            closed = text.find("\n" + indent + "}\n", opened)
            yield line_of(path, m.start()), path.split("/")[1], m[1], given, text[opened:closed]


def enums():
    """Own enums of the shape of Option or Result: one variant says nothing or why not, the others hold values."""
    empty = {"None", "Nothing", "NotSent", "Unknown", "Broken", "Stopped", "End", "Bad", "Waiting", "Pending", "Unread"}
    for path, text in TEXT.items():
        for m in re.finditer(r"^(?:pub )?enum (\w+)(?:<[^>]*>)? \{(.*?)^\}", text, re.M | re.S):
            body = re.sub(r"//[^\n]*", "", m[2])
            flat = re.sub(r"\{[^{}]*\}", "()", re.sub(r"\s+", " ", body))
            variants = [v.strip() for v in re.split(r",(?![^(]*\))", flat) if v.strip()]
            names = [re.match(r"\w+", v)[0] for v in variants]
            held = [v for v in variants if "(" in v]
            if (held or m[1] == "Fault") and ({"Refused", "Stop"} & {*names} or empty & {n for n, v in zip(names, variants) if "(" not in v or n == "Unread"}) and len(variants) <= 4:
                yield line_of(path, m.start()), f"{m[1]}: {', '.join(names)}"


def numbers():
    """Constants that stand for kinds."""
    for path, text in TEXT.items():
        for m in re.finditer(r"^ *(?:pub )?const (\w+): u8 = \d+;", text, re.M):
            yield line_of(path, m.start()), m[1]


def shape(body):
    tokens = re.findall(r"[A-Za-z_]\w*|\d+|[^\s\w]", re.sub(r"//[^\n]*", "", body))
    keep = {"if", "else", "match", "return", "let", "while", "loop", "for", "in", "mut", "as", "usize", "u8", "u16", "u64", "bool", "true", "false"}
    return [t if t in keep or not re.match(r"\w", t) else "x" for t in tokens]


def twins():
    """Pairs of functions whose bodies are alike but for names and numbers, of twenty tokens or more."""
    all_of = [(where, crate, name, shape(body)) for where, crate, name, _, body in functions()]
    all_of = [it for it in all_of if len(it[3]) >= 20 and not it[1].endswith("_c")]
    for i, (where, crate, name, body) in enumerate(all_of):
        for there, other, second, more in all_of[i + 1 :]:
            if min(len(body), len(more)) / max(len(body), len(more)) < 0.85:
                continue
            ratio = difflib.SequenceMatcher(None, body, more, autojunk=False)
            if ratio.real_quick_ratio() >= 0.95 and ratio.quick_ratio() >= 0.95 and ratio.ratio() >= 0.95:
                yield where, f"{crate}::{name} and {other}::{second} ({there})"


def loops():
    """Loops that count an index by hand, one at a time."""
    for path, text in TEXT.items():
        for m in re.finditer(r"^( *)(while [^\n]*|loop) \{\n(.*?)^\1\}", text, re.M | re.S):
            if re.search(r"\b(\w+) (?:\+= 1|-= 1|= \1 [+-] 1);", m[3]):
                yield line_of(path, m.start()), m[2]


def hand():
    """Equality, order and conversion written by hand."""
    for where, crate, name, given, _ in functions():
        if re.match(r"(is_)?same|(sort|reason|stop|flag)_of$|(?!is_)\w+_there$|(port|name)_number$|(port|name|state|error|stop|profile)_in$|profile_cell$|put_digits$|glyph$|mark$|sort$|beside$", name) and not crate.endswith("_c"):
            yield where, f"{crate}::{name}"


def facts():
    """A condition on parameters that three functions or more ask for; and parameters that three functions or more take together."""
    asked = {}
    for path, text in TEXT.items():
        for m in re.finditer(r"requires \{ (.*?) \}\n", text, re.S):
            for part in re.split(r" × ", m[1].strip()):
                word = re.match(r"\(?([A-Z]\w+) ", part)
                if word:
                    asked.setdefault((path.split("/")[1], word[1]), []).append(line_of(path, m.start()))
    for (crate, word), places in asked.items():
        if len(places) >= 3:
            yield places[0], f"{crate}: {word} is asked for {len(places)} times"
    groups = [("out: &mut [u8]", "at: usize"), ("profile: Profile", "rules: &"), ("protocols: &[u16]", "algorithms: &[u16]"), ("cells: &[u16; 45]", "place: usize"), ("tray: &[u8]", "used: usize"), ("buffer: &mut [u8]", "table: &mut [u16]")]
    for group in groups:
        found = [where for where, crate, _, given, _ in functions() if not crate.endswith("_c") and all(part in given for part in group)]
        if len(found) >= 3:
            yield found[0], f"({', '.join(group)}) in {len(found)} functions"


def buffers():
    """A buffer with a length or a place beside it, and rows of cells that hold structs."""
    for where, crate, name, given, _ in functions():
        if crate.endswith("_c"):
            continue
        if re.search(r"out: &mut \[u8\],\s*at: usize", given) or re.search(r"tray: &(mut )?\[u8\],\s*used: usize", given) or re.search(r"cells: &(mut )?\[u16; 45\]", given) or re.search(r"table: &(mut )?\[u16\],\s*(count|n|to): usize", given):
            yield where, f"{crate}::{name}"


def steps():
    """A value that says which step is run, and is matched to run it."""
    for path, text in TEXT.items():
        for m in re.finditer(r"^ *match (change|step|op|what|kind_of_step)\b", text, re.M):
            yield line_of(path, m.start()), m[0].strip()


def answers():
    """Files of answers and of invariants."""
    for path in sorted(glob.glob("crates/*/proofs/**/Answers.antt", recursive=True) + glob.glob("crates/*/proofs/**/Invariants.antt", recursive=True)):
        yield path, ""


ALL = [enums, numbers, twins, loops, hand, facts, buffers, steps, answers]
for point in ALL:
    if words and point.__name__ not in words:
        continue
    n = 0
    for where, what in point():
        n += 1
        if point is not answers:
            print(f"{point.__name__} {where} {what}")
    print(f"{point.__name__}: {n}")
