#!/usr/bin/env python3
"""Counts the places that docs/DESIGN-PASS.md speaks of: tools/places.py [FOLDER], with -v each place.

It goes by text, in crates/*/src alone. Points 1, 3, 4, 6 and 7 are lines that a pattern fits; point 2 is functions whose
text is the same once names and numbers are left out; point 5 is clauses that stand three times or more."""
import collections
import pathlib
import re
import sys

PATTERNS = {
    "1 a number in place of an answer": r"->\s*\(?u8\b",
    "1 a number that stands for a kind": r"const OUT\b|== (bytes::)?OUT\b|== 255\b",
    "1 a number that stands for a mark": r"^\s*(0|1) => Mark|\bmark as u8",
    "3 a loop over a range": r"^\s*for \w+ in .*\.\.",
    "3 a while or loop": r"^\s*(while|loop)\b",
    "4 a cast": r"\bas (usize|u8|u32|u64|i32)\b",
    "4 equality written by hand": r"fn (is|leads)\b",
    "4 printing outside of a main file": r"println!",
    "4 an error passed on by match": r"^\s*Err\((\w+)\) => Err\(\1\)",
    "6 a fixed table": r"^\s*(pub |pub\(crate\) )?(let mut )?\w+(: | = )(&mut |&)?\[.*; ?\w+\]",
    "6 a count beside a table": r"^\s*\w*count: usize,",
    "7 a step chosen by a type": r"^impl Scan|^pub\(crate\) trait Scan",
}


def texts(top):
    for path in sorted(pathlib.Path(top).glob("crates/*/src/**/*.rt")):
        yield path.relative_to(top), path.read_text()


def shape(text):
    text = re.sub(r"//.*", "", text)
    text = re.sub(r"(requires|ensures)[^{\n]*\{[^\n]*\}", "", text)
    text = re.sub(r"[A-Za-z_]\w*", lambda m: m.group() if m.group() in KEPT else "x", text)
    return re.sub(r"\s+", " ", re.sub(r"\b\d+\b", "0", text))


KEPT = {"fn", "for", "in", "if", "else", "match", "return", "let", "mut", "while", "Ok", "Err", "Some", "None"}


def functions(text):
    for m in re.finditer(r"^( *)(pub |pub\(crate\) )?fn (\w+)", text, re.M):
        end = text.find("\n" + m.group(1) + "}", m.end())
        if end > 0:
            yield m.group(3), text[m.start():end]


def main(top, verbose):
    found = collections.defaultdict(list)
    shapes = collections.defaultdict(list)
    clauses = collections.defaultdict(list)
    for path, text in texts(top):
        for n, line in enumerate(text.splitlines(), 1):
            if line.lstrip().startswith("//") or line.startswith("ghost use"):
                continue
            for kind, pattern in PATTERNS.items():
                if kind.startswith("4 printing") and path.name == "main.rt":
                    continue
                if re.search(pattern, line):
                    found[kind].append(f"{path}:{n}: {line.strip()}")
            for m in re.finditer(r"(?:requires|ensures)(?: \w+)? \{ (.*) \}$", line):
                clauses[re.sub(r"\.(old|new|now)\b", "", m.group(1))].append(f"{path}:{n}")
        for name, body in functions(text):
            if body.count("\n") > 1:
                shapes[shape(body)].append(f"{path}: {name}")
    for group in shapes.values():
        if len(group) > 1:
            found["2 functions of one shape"].extend(group)
    for clause, at in clauses.items():
        if len(at) >= 3:
            found["5 a clause that stands three times"].extend(f"{a}: {clause}" for a in at)
    for kind in sorted(set(PATTERNS) | set(found)):
        print(f"{len(found[kind]):4}  {kind}")
        if verbose:
            for place in found[kind]:
                print("       ", place)


if __name__ == "__main__":
    rest = [a for a in sys.argv[1:] if a != "-v"]
    main(rest[0] if rest else ".", "-v" in sys.argv)
