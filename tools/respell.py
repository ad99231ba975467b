#!/usr/bin/env python3
"""Brings the repository's own definitions and lemmas to the spelling of the toolchain of November 2026.

Run once, at the top, right after the toolchain's port.py: a definition or lemma in snake case, a type of theorem in
camel case. A dash stays where it joins the names of two functions, as in length-listed. Generated names, names of the
library, functions of src/, strings and comments of src/ stay. `tools/respell.py --names` prints what becomes what.
"""
import os
import re
import sys

# These keep their dash: two functions' names, or a name that the checker made.
KEPT = {"length-listed", "length-leaves", "self-1", "self-2"}
# These would fall together with another name: a lemma beside the definition that it is about.
APART = {"one-actor": "one_actor_lem", "one-channel": "one_channel_lem", "same_row": "same_row_lem"}
# Names that an import gives.
ALIASES = ["nextState"] + [layer + part for layer in ("policy", "graph", "bench") for part in ("Place", "Number", "Layer")]
ALIASES += ["placeBelow", "numberBelow"]

DEFINED = re.compile(r"^\s*(?:abbrev |unfoldable |pub )*(?:(?:record|data) ([^\s:(){}.]+).*|([A-Za-z][^\s:(){}.]*)\s*:\s*(.*))$")
GENERATED = re.compile(r"(goal|need|Given)\.")
TOKEN = re.compile(r"(?<![\w'\-])(?:(c|w)\.)?([A-Za-z][\w'\-]*)")


def files(*endings):
    for folder, dirs, names in os.walk("crates"):
        dirs[:] = sorted(d for d in dirs if d not in ("out", "target"))
        for name in sorted(names):
            if name.endswith(endings):
                yield os.path.join(folder, name)


def spelled(name):
    if name in APART:
        return APART[name]
    if name in KEPT:
        return name
    if name[0].isupper():
        return "".join(word[:1].upper() + word[1:] for word in name.split("-"))
    return re.sub(r"[A-Z]", lambda m: "_" + m.group().lower(), name).replace("-", "_")


def renamed():
    found = {}
    for path in files(".antt"):
        for line in open(path, encoding="utf-8"):
            m = DEFINED.match(line)
            if m and not GENERATED.search(m.group(3) or ""):
                name = m.group(1) or m.group(2)
                found[name] = spelled(name)
    found |= {name: spelled(name) for name in ALIASES}
    return {old: new for old, new in found.items() if old != new}


def turn(text, names):
    def one(m):
        step, name = m.groups()
        # A step of a generated record, as c.step-done, keeps its name.
        return m.group() if step else names.get(name, name)

    return TOKEN.sub(one, text)


def turn_source(text, names):
    """A source file: clauses and ghost items, and neither comments nor strings."""
    return "\n".join(l if l.lstrip().startswith("//") or '"' in l else turn(l, names) for l in text.split("\n"))


def turn_page(text, names):
    """A page: what stands between back quotes."""
    return re.sub(r"`[^`\n]+`", lambda m: turn(m.group(), names), text)


def main():
    names = renamed()
    if "--names" in sys.argv:
        print("\n".join(f"{old} {new}" for old, new in sorted(names.items())))
        return
    pages = ["README.md"] + [os.path.join("docs", n) for n in sorted(os.listdir("docs")) if n.endswith(".md") and not n.startswith("PORT")]
    for how, paths in ((turn, files(".antt")), (turn_source, files(".rt")), (turn_page, pages)):
        for path in list(paths):
            with open(path, encoding="utf-8") as f:
                text = f.read()
            new = how(text, names)
            if new != text:
                with open(path, "w", encoding="utf-8") as f:
                    f.write(new)


main()
