#!/usr/bin/env python3
"""Brings the names of definitions and lemmas in crates/ to today's spelling. Run once, at the top, after port.py.

Types and facts are in upper camel case, everything else in snake case. A dash stays in a lemma's name only where it
joins two names of functions. Names that Rattle makes (a proof file's goals, and what stands behind a dot) stay.
With --dry it only prints what it would rename; it always prints new names that fall together with other names.
"""

import os
import re
import sys

# Functions of std that a lemma's name may join by a dash.
STD = {"length", "take", "drop", "map", "set", "append", "replicate", "get_or", "slice_index"}
WHOLE = {"getD": "get_or", "readOn": "read_on", "valueAfter": "value_after", "whenTrue": "when_true", "okOr": "ok_or"}
# What would fall together with a function of src/.
OTHER = {
    "first-in": "first_of_segment",
    "has-state": "state_exists",
    "is-accepting": "mark_accepts",
    "is-empty": "book_is_empty",
    "is-initial": "mark_is_start",
    "kind-of": "kind_of_word",
    "letter-mark": "mark_of_letter",
    "letter-symbol": "symbol_of_letter",
    "mark-at": "mark_at_place",
    "read-call": "call_read",
    "shape-fault": "fault_of_shape",
    "ticket-at": "ticket_said_at",
}

NAME = r"[^\s(){};.,@\"λ|]+"
SIGNATURE = re.compile(r"^(\s*)((?:abbrev|unfoldable|pub)\s+)*(" + NAME + r")\s+:\s+(.*)$")
HEAD = re.compile(r"^(\s*)(?:pub\s+)?(?:record|data)\s+(" + NAME + r")(?=\s)")


def texts(ends):
    for folder, dirs, files in os.walk("crates"):
        dirs[:] = sorted(d for d in dirs if d != "out")
        for f in sorted(files):
            if f.endswith(ends):
                yield os.path.join(folder, f)


def read(path):
    with open(path, encoding="utf-8") as f:
        return f.read()


def declared():
    """The names declared in specs/ and proofs/, by kind: 'type', 'field', 'word' or 'lemma'; a goal's name is none."""
    kinds, goals = {}, set()
    for path in texts(".antt"):
        inside = -1
        for line in read(path).split("\n"):
            if not line.strip() or line.strip().startswith("--"):
                continue
            indent = len(line) - len(line.lstrip())
            head = HEAD.match(line)
            if head:
                kinds.setdefault(head.group(2), set()).add("type")
                inside = indent
                continue
            if indent <= inside:
                inside = -1
            found = SIGNATURE.match(line)
            if not found or line.strip().startswith(("let ", "use ", "module ", "elim ")):
                continue
            name, says = found.group(3), found.group(4)
            if says.startswith(("goal.", "given.")):
                goals.add(name)
            elif inside >= 0:
                kinds.setdefault(name, set()).add("field")
            elif name[0].isupper():
                kinds.setdefault(name, set()).add("type")
            else:
                word = "abbrev" in line.split(":")[0] or "unfoldable" in line.split(":")[0]
                kinds.setdefault(name, set()).add("word" if word else "lemma")
    return {n: k for n, k in kinds.items() if n not in goals}


def snake(name):
    for old, new in WHOLE.items():
        name = re.sub(r"(?<![A-Za-z])" + old + r"(?![a-z])", new, name)
    return name


def camel(name):
    first, *rest = name.split("-")
    return first + "".join(p[:1].upper() + p[1:] for p in rest)


def respelled(name, kinds, words):
    if name in OTHER:
        return OTHER[name]
    if name[0].isupper() and "type" in kinds:
        return camel(name)
    name = snake(name)
    if "lemma" not in kinds:
        return name.replace("-", "_")
    parts = name.split("-")
    made = parts[0]
    for left, right in zip(parts, parts[1:]):
        joins = made.replace("-", "_") in words and right in words
        made += ("-" if joins else "_") + right
    return made


def main():
    kinds = declared()
    words = STD | {n.replace("-", "_") for n, k in kinds.items() if "word" in k}
    turned = {}
    for name, k in sorted(kinds.items()):
        new = respelled(name, k, words)
        if new != name and not name.startswith("in-"):
            turned[name] = new
    taken = {}
    for old, new in turned.items():
        if new in kinds or new in taken:
            print("falls together:", old, new, taken.get(new, "declared"))
        taken[new] = old
    for old, new in sorted(turned.items()):
        print(old, new)
    if "--dry" in sys.argv:
        return
    ends = r"(?![\w'\-])"
    fields = {n for n in turned if "field" in kinds[n]}
    one = re.compile(r"(?<![\w'\-])(" + "|".join(sorted(map(re.escape, turned), key=len, reverse=True)) + ")" + ends)

    def turn(found):
        before = found.string[found.start() - 1:found.start()]
        if before == "." and found.group(1) not in fields and not found.string[:found.start() - 1].endswith(" "):
            return found.group(0)
        return turned[found.group(1)]

    for path in texts((".antt", ".rt")):
        old = read(path)
        new = one.sub(turn, old)
        if new != old:
            with open(path, "w", encoding="utf-8") as f:
                f.write(new)


main()
