#!/usr/bin/env python3
"""Spells this repository's own definitions and lemmas as its language does now.

usage: python3 tools/respell.py     at the top of the repository, once, right after the kit's own script

A definition or lemma that begins with a small letter gets snake case, a type or fact upper camel case. Functions of src/,
strings, goals and steps that the check names, and locals keep their names. MOVED has the names that would fall together.
"""

import os
import re
import sys

TOKEN = re.compile(r"[A-Za-z_][\w'-]*(?<!-)")
DEFINES = re.compile(r"^[ ]*(?:(?:abbrev|unfoldable|pub|data|record|where) )*([A-Za-z_][\w'-]*)(?: (?:\(.*?\)|\{.*?\}))* : (.*)$")

# Names that would fall together with another one.
MOVED = {
    "bit-and": "bit_of_and",
    "bit-or": "bit_of_or",
    "bit-xor": "bit_of_xor",
    "byHand": "run_by_hand",
    "counter-fits": "counter_fits_lem",
    "digit-of": "digit_of_lem",
    "in-chains": "in_chains_lem",
    "in-span": "in_span_lem",
    "inlets-read": "inlets_read_lem",
    "is-at": "is_at_lem",
    "lead-of": "lead_of_lem",
    "links-read": "links_read_lem",
    "same-link": "same_link_lem",
    "sets-read": "sets_read_lem",
    "taps-read": "taps_read_lem",
    "with-bit": "with_bit_lem",
}


def spelled(name):
    if name in MOVED:
        return MOVED[name]
    if name[0].isupper():
        return "".join(part[0].upper() + part[1:] for part in name.split("-"))
    return re.sub(r"(?<=[a-z0-9])([A-Z])", r"_\1", name.replace("-", "_")).lower()


def files(ending):
    for folder, dirs, names in os.walk("crates"):
        dirs[:] = sorted(d for d in dirs if d != "out")
        for name in sorted(names):
            if name.endswith(ending):
                yield os.path.join(folder, name)


def read(path):
    with open(path, encoding="utf-8") as f:
        return f.read()


def code(line, comment):
    """The line's code and its comment."""
    at = line.find(comment)
    return (line, "") if at < 0 else (line[:at], line[at:])


def definitions():
    """The names that are defined, and those of them that are fields of records."""
    found, fields = set(), set()
    for path in files(".antt"):
        record = None
        for line in read(path).splitlines():
            deep = len(line) - len(line.lstrip())
            it = DEFINES.match(code(line, "-- ")[0])
            if record is not None and line.strip() and deep <= record:
                record = None
            if it and not it.group(2).startswith("goal."):
                found.add(it.group(1))
                if record is not None:
                    fields.add(it.group(1))
            if re.match(r" *(pub )?record ", line):
                record = deep
    return found, fields


def renamed(text, names, only=None):
    def turn(it):
        name = it.group(0)
        return names[name] if name in names and (only is None or only(name, it)) else name
    return TOKEN.sub(turn, text)


def plain(name, it):
    """Whether a word of a comment may be this name: one with a capital inside is."""
    return not re.fullmatch(r"[a-z0-9_'-]*", name)


def free(fields):
    """Whether a name is one of ours: behind a value's dot only a field is, and else it is the name of a step."""
    def test(name, it):
        before = it.string[:it.start()]
        return name in fields or not before.endswith(".") or re.search(r"\b[A-Z]\w*\.$", before) is not None
    return test


def turned(text, names, ours, comment):
    lines = []
    for line in text.split("\n"):
        body, rest = code(line, comment)
        parts = re.split(r'("(?:[^"\\]|\\.)*")', body)
        body = "".join(p if p.startswith('"') else renamed(p, names, ours) for p in parts)
        lines.append(body + renamed(rest, names, plain))
    return "\n".join(lines)


def main():
    found, fields = definitions()
    names = {n: spelled(n) for n in found}
    names = {n: m for n, m in names.items() if n != m}
    for path in list(files(".antt")) + list(files(".rt")):
        text = read(path)
        here = set(TOKEN.findall(text))
        for n in sorted(here & set(names)):
            if names[n] in here:
                print(f"falls together: {path}: {n} and {names[n]}")
        if "--look" in sys.argv:
            continue
        new = turned(text, names, free(fields), "-- " if path.endswith(".antt") else "// ")
        if new != text:
            with open(path, "w", encoding="utf-8") as f:
                f.write(new)
    if "--look" in sys.argv:
        for n, m in sorted(names.items()):
            print(n, m)
        return
    for path in files(".edit"):
        text = read(path)
        new = "\n".join(l if l.startswith("file: ") else l[:5] + renamed(l[5:], names) for l in text.split("\n"))
        if new != text:
            with open(path, "w", encoding="utf-8") as f:
                f.write(new)
    pages = ["README.md"] + ["docs/" + p for p in sorted(os.listdir("docs")) if p.endswith(".md")]
    for path in pages:
        text = read(path)
        new = re.sub(r"`[^`\n]+`", lambda it: renamed(it.group(0), names), text)
        if new != text:
            with open(path, "w", encoding="utf-8") as f:
                f.write(new)


if __name__ == "__main__":
    main()
