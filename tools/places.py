#!/usr/bin/env python3
"""Counts the places that a design pass looks at, in the crates' src/ (tests left out): python3 tools/places.py [POINT..]

Each line printed is one place, FILE:LINE: TEXT; each point ends in its count. What a pattern finds is a place to look at,
not a fault: docs/DESIGN-PASS.md says which were changed and which stay."""
import collections
import pathlib
import re
import sys

ROOT = pathlib.Path(__file__).resolve().parent.parent
TESTS = re.compile(r"(^|/)(\w*tests|calls)\.rt$")


def sources():
    for path in sorted((ROOT / "crates").glob("*/src/**/*.rt")):
        name = str(path.relative_to(ROOT / "crates"))
        if not TESTS.search(name) or name.startswith("histories"):
            text = path.read_text().split("#[cfg(test)]\nmod tests {")[0]
            yield name, text


def grep(pattern):
    found = []
    for name, text in sources():
        for number, line in enumerate(text.split("\n"), 1):
            code = line.split("//")[0]
            if re.search(pattern, code) and "ghost use" not in code:
                found.append(f"{name}:{number}: {line.strip()}")
    return found


def functions():
    """Every function: file, line, name, signature, clauses, body."""
    head = re.compile(r"^( *)(?:pub(?:\(\w+\))? )?(?:extern \"C\" )?fn (\w+)", re.M)
    for name, text in sources():
        for m in head.finditer(text):
            opening = re.compile(rf"^{m.group(1)}\{{\}}?$|^.*\) (?:-> .*)?\{{$|;$", re.M).search(text, m.start())
            if not opening or opening.group().endswith(";"):
                continue
            closing = re.compile(rf"^{m.group(1)}\}}$", re.M).search(text, opening.end())
            body = text[opening.end():closing.start()] if closing else ""
            front = text[m.start():opening.end() - 1]
            clauses = re.findall(r"^\s*(?:requires|ensures)\s+(?:\w+ )?\{ (.*) \}$", front, re.M)
            signature = re.split(r"^\s*(?:requires|ensures)\b", front, maxsplit=1, flags=re.M)[0]
            yield f"{name}:{text.count(chr(10), 0, m.start()) + 1}", m.group(2), signature, clauses, body


def shape(body):
    """The tokens of a body, with names and numbers made alike."""
    keywords = "if else for in while let match return mut as loop".split()
    tokens = re.findall(r"[A-Za-z_]\w*|\d+|[^\s\w]", re.sub(r"//.*", "", body))
    return " ".join(t if t in keywords or not re.match(r"\w", t) else "x" for t in tokens)


def twins():
    """Functions whose bodies have one shape of at least ten tokens."""
    alike = collections.defaultdict(list)
    for place, name, _, _, body in functions():
        tokens = shape(body)
        if len(tokens.split()) >= 10:
            alike[tokens].append(f"{place} {name}")
    return [" = ".join(group) for group in alike.values() if len(group) > 1]


def repeated_facts():
    """Clauses that stand in three or more functions, under whatever names their subjects have."""
    count = collections.Counter()
    for _, _, _, clauses, _ in functions():
        count.update({re.sub(r"\b(self|book|target|scratch|source)\b", "it", c) for c in clauses})
    return [f"{n} times: {c}" for c, n in count.most_common() if n >= 3]


def parameters_together():
    """Three or more parameters that stand together in three or more functions."""
    together = collections.Counter()
    for _, _, signature, _, _ in functions():
        inner = signature[signature.find("("):]
        found = re.findall(r"(?:mut )?(\w+): ([^,()]+(?:\([^)]*\))?)", inner)
        names = [n for n, _ in found]
        for i in range(len(names) - 2):
            together[" ".join(sorted(names[i:i + 3]))] += 1
    return [f"{n} times: {names}" for names, n in together.most_common() if n >= 3]


POINTS = {
    "1": lambda: grep(r"^\s*(None|Err\(\w+\)|Err\(\(.*\)\)|Some\(_\)|Ok\(_\)) => (None|Err\(|return |true|false|Answer::Declined)")
    + grep(r"\.is_err\(\) \{|if let Some\(fault\)|Err\(Refusal::Fault")
    + grep(r"^\s*(End|Declined\(\w+\)|Nothing),")
    + grep(r"fn \w+\(&mut self.*\) -> bool|while at != 0|if q < n|u64::MAX;|\(0, 0, 0\)|let Some\(\w+\) = \w.* else \{"),
    "2": twins,
    "3": lambda: grep(r"\bfor \w+ in [^{]*\.\.") + grep(r"\bwhile "),
    "4": lambda: grep(r"fn (is_word|code_of|letter_of|letter_mark|read_mark|print_fault|print_marks|number)\b")
    + grep(r" as (u8|u16|u32|u64|usize)\b")
    + grep(r"#\[derive\((Clone, Copy|Drop|Clone, Copy, Drop)\)\]"),
    "5": lambda: repeated_facts() + parameters_together(),
    "6": lambda: grep(r"\[[\w:<>]+; \w+\]"),
    "7": lambda: grep(r"match \(|: (Act|Kind|Verb|bool)[,)]|\bdyn\b|\bfn\("),
    "8": lambda: [f"{p.relative_to(ROOT)}" for p in sorted((ROOT / "crates").glob("*/proofs/**/*.antt")) if p.name == "Answers.antt"],
}


def main():
    for point in sys.argv[1:] or sorted(POINTS):
        found = POINTS[point]()
        for place in found:
            print(place)
        print(f"point {point}: {len(found)}\n")


main()
