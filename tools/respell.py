#!/usr/bin/env python3
"""Brings the names that the project itself declares in specs/ and proofs/ to one spelling: words in snake case, types, facts and modules in camel case.

usage: python3 tools/respell.py            at the top of the repository; a second run writes nothing more
       python3 tools/respell.py --list     prints each name that turns and its new spelling, and writes nothing

It turns whole words alone: in the .antt files of crates/, in the clauses and 'ghost use' items of the .rt files, in the must-fail edits of crates/ and tests/edits/,
and in the code spans of the pages. A name that a file imports from a library stays in that file, and so does what Rattle makes of a function in a Proof.antt.
Functions of src/, exported names, strings, inputs and outputs are no names of specs/ and proofs/, and stay.
"""

import os
import re
import sys

WORD = re.compile(r'[^\s(){}.;,@"«»]+')
# a declaration: of a module's top, of a record's field, of a data type's constructors, or of a where block
HEAD = re.compile(r"^ *(?:(?:abbrev|unfoldable|opaque|pub|ruleset) +)*(?:(?:data|record) +)?(?:pub +)?([^\s(){}.;,@\"«»:]+)((?: +[^\s(){}.;,@\"«»:]+)*)(?: +[({][^:]*:.*)? +:(?= |$)")
RULES = re.compile(r"^ *(?:pub +)?ruleset +(?:pub +)?([^\s(){}.;,@\"«»:]+) +=")
# names that two old ones would share: the lemma on a word takes the ending
TAKEN = {
    "act_by": "act_by_lem",
    "cells_at": "cells_at_lem",
    "one_more": "one_more_lem",
    "or_kept": "or_kept_lem",
}


def snake(name):
    if re.match(r"[A-Z]", name):
        head, dash, rest = name.partition("-")
        if not dash:
            return name
        return head + "-" + snake(rest) if rest else name
    words = re.sub(r"(?<=[a-z0-9])([A-Z])", lambda m: "_" + m[1].lower(), name)
    words = re.sub(r"^([a-z])([A-Z])", lambda m: m[1] + "_" + m[2].lower(), words)
    return words.replace("-", "_")


def files(kind):
    for top in ("crates", "tests", "docs"):
        for folder, dirs, names in os.walk(top):
            dirs[:] = sorted(d for d in dirs if d not in ("out", "src") or top == "crates" and d == "src")
            for name in sorted(names):
                if name.endswith(kind):
                    yield os.path.join(folder, name)
    if kind == ".md":
        yield "README.md"


def read(path):
    with open(path, encoding="utf-8") as f:
        return f.read()


def is_walk(path):
    return path.endswith("/Proof.antt")


def declared(path, text):
    """The names that a file declares, but for the answers of a proof by hand, which are named as Rattle names its goals."""
    found = set()
    for line in text.split("\n"):
        if line.lstrip().startswith("--"):
            continue
        m = HEAD.match(line)
        if m:
            if is_walk(path) and re.search(r": *tie\.", line):
                continue
            for name in [m[1]] + m[2].split():
                found.add(name)
        m = RULES.match(line)
        if m:
            found.add(m[1])
        if re.match(r" *use ", line):
            found.update(re.findall(r" as ([^\s(){}.;,@\"«»]+)", line))
    return found


USE = re.compile(r"(?m)^ *(?:ghost +)?(?:pub +)?use +([^\s;{]+?)\.?\{([^}]*)\}")


def library(text, own):
    """The names that a file has from a library."""
    found = set()
    for m in USE.finditer(text):
        parts = m[1].rstrip(".").split(".")
        if parts[0] == "Rattle" and len(parts) > 1 and parts[1] in own:
            continue
        for item in m[2].split(","):
            found.update(item.split(" as ")[-1:] and [item.split(" as ")[-1].strip()])
    return found


def table():
    own = set(os.listdir("crates"))
    names = {}
    for path in files(".antt"):
        text = read(path)
        for name in declared(path, text):
            if name.startswith(("tie", "Need-", "invariant-", "decreases-")) or not re.search(r"[a-z]", name):
                continue
            names.setdefault(name, set()).add(path)
    turned = {}
    for name in sorted(names):
        lemma, word = name in TAKEN, TAKEN.get(name, "")[:-4]
        if lemma and not any(snake(it) == word and it != word for it in names):
            lemma = False
        new = TAKEN[name] if lemma else snake(name)
        if new != name:
            turned[name] = new
    # what would fall together with a name that stays or turns: the one with a dash is a lemma
    def meeting():
        meets = {}
        for name in sorted(names):
            meets.setdefault(turned.get(name, name), []).append(name)
        return sorted(meets.items())

    for new, olds in meeting():
        for old in olds:
            if len(olds) > 1 and "-" in old:
                turned[old] = new + "_lem"
    for new, olds in meeting():
        if len(olds) > 1:
            print("meet:", new, "<-", *[f"{o} ({sorted(names[o])[0]})" for o in olds], file=sys.stderr)
    return own, turned


def turn_words(text, turned, stay):
    return WORD.sub(lambda m: m[0] if m[0] in stay else turned.get(m[0], m[0]), text)


def turn_antt(path, text, turned, stay):
    out = []
    for line in text.split("\n"):
        code, dashes, note = line.partition("--") if re.match(r"^ *--", line) else (line, "", "")
        if dashes:
            note = re.sub(r"`[^`]+`", lambda m: "`" + turn_words(m[0][1:-1], turned, stay) + "`", note)
            note = WORD.sub(lambda m: turned[m[0]] if m[0] in turned and "-" not in m[0] and re.search(r"[a-z][A-Z]", m[0]) else m[0], note)
            out.append(code + dashes + note)
        else:
            # what Rattle makes is named behind c. and tie.
            out.append(re.sub(WORD, lambda m: m[0] if m[0] in stay or made(line, m) else turned.get(m[0], m[0]), line))
    return "\n".join(out)


def made(line, m):
    """A name behind c., tie. or goal. is one that Rattle makes."""
    before = line[: m.start()]
    if not before.endswith("."):
        return False
    chain = re.search(r"([^\s(){};,@\"«»]+)\.$", before)
    head = chain[1].split(".")[0] if chain else ""
    return head in ("c", "tie", "goal", "w", "l") and "-" in m[0]


def turn_rt(text, turned, stay):
    out = []
    for line in text.split("\n"):
        if re.match(r"^ *//", line):
            line = re.sub(r"`[^`]+`", lambda m: "`" + turn_words(m[0][1:-1], turned, stay) + "`", line)
            line = WORD.sub(lambda m: turned[m[0]] if m[0] in turned and re.search(r"[a-z][A-Z]", m[0]) else m[0], line)
            out.append(line)
            continue
        parts = re.split(r'("(?:[^"\\]|\\.)*")', line)
        out.append("".join(p if i % 2 else turn_words(p, turned, stay) for i, p in enumerate(parts)))
    return "\n".join(out)


def main(argv):
    own, turned = table()
    if argv == ["--list"]:
        for old, new in sorted(turned.items()):
            print(old, new)
        return 0
    changed = 0
    for kind in (".antt", ".rt", ".edit", ".md"):
        for path in files(kind):
            text = read(path)
            stay = library(text, own)
            if kind == ".antt":
                new = turn_antt(path, text, turned, stay)
            elif kind == ".md":
                new = re.sub(r"`[^`\n]+`", lambda m: "`" + turn_words(m[0][1:-1], turned, set()) + "`", text)
            else:
                new = turn_rt(text, turned, stay)
            if new != text:
                changed += 1
                with open(path, "w", encoding="utf-8") as f:
                    f.write(new)
    print(f"respell: {len(turned)} names, {changed} files")
    return 0


if __name__ == "__main__":
    raise SystemExit(main(sys.argv[1:]))
