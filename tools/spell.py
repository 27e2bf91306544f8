#!/usr/bin/env python3
"""Spells the repository's own definitions and lemmas as Rattle does: words in snake case, types in camel case.

Run once at the top, right after the kit's port.py. A name with a dash becomes `snake_case`, or `CamelCase` where it begins
with a capital. Names that Rattle makes (goals, steps) and those of its library stay, as do strings and comments of src/.
Prints the names that would fall together with another in some file.
"""
import pathlib
import re
import sys

NAME = r"[A-Za-z][A-Za-z0-9_'?+-]*"
TOKEN = re.compile(r"(?<![A-Za-z0-9_'?+-])" + NAME)
SIGNATURE = re.compile(r"^\s*(?:abbrev\s+|unfoldable\s+)?(?:pub\s+)?(" + NAME + r")\s+:(?:\s+(\S+))?")
DECLARED = re.compile(r"^\s*(?:pub\s+)?(?:data|record)\s+(" + NAME + r")\b")
RENAMED = re.compile(r"\b(?:as)\s+(" + NAME + r")")


def spelled(name):
    parts = name.split("-")
    if name[0].isupper():
        return parts[0] + "".join(p[:1].upper() + p[1:] for p in parts[1:])
    return "_".join(parts)


def antt_files(root):
    return sorted(f for f in root.glob("crates/*/*/**/*.antt") if "out" not in f.relative_to(root).parts[2:3])


def defined(root):
    names = set()
    for f in antt_files(root):
        for line in f.read_text().split("\n"):
            m = DECLARED.match(line)
            if m:
                names.add(m.group(1))
                continue
            m = SIGNATURE.match(line)
            if m and not (m.group(2) or "").startswith("goal."):
                names.add(m.group(1))
    return names


def aliases(root):
    names = set()
    for f in list(root.glob("crates/*/src/**/*.rt")) + antt_files(root):
        for line in f.read_text().split("\n"):
            if re.match(r"^(ghost )?use ", line):
                names.update(RENAMED.findall(line))
    return names


def library_names(root, own):
    """The dashed names that some file takes from the library, by file."""
    found = {}
    crates = {p.name for p in (root / "crates").iterdir()}
    for f in list(root.glob("crates/*/src/**/*.rt")) + antt_files(root):
        for line in f.read_text().split("\n"):
            m = re.match(r"^(?:ghost )?use (?:Rattle\.(\w+)\.)?.*\{(.*)\}", line)
            if m and m.group(1) not in crates:
                for n in re.split(r",\s*", m.group(2)):
                    n = n.split(" as ")[0]
                    if n in own:
                        found.setdefault(f, set()).add(n)
    return found


def turn(text, names, is_source):
    def one(m):
        return names.get(m.group(0), m.group(0))
    out = []
    for line in text.split("\n"):
        if not is_source:
            out.append(TOKEN.sub(one, line))
            continue
        parts = re.split(r'("(?:[^"\\]|\\.)*"|//.*$)', line)
        out.append("".join(p if p[:1] == '"' or p[:2] == "//" else TOKEN.sub(one, p) for p in parts))
    return "\n".join(out)


def main():
    root = pathlib.Path(".").resolve()
    own = {n for n in defined(root) | aliases(root) if "-" in n}
    names = {n: spelled(n) for n in own}
    library = library_names(root, own)
    changed = 0
    for f in sorted(root.glob("crates/*/src/**/*.rt")) + antt_files(root):
        text = f.read_text()
        here = {k: v for k, v in names.items() if k not in library.get(f, ())}
        tokens = set(TOKEN.findall(text))
        for k, v in sorted(here.items()):
            if k in tokens and v in tokens:
                print(f"falls together: {f.relative_to(root)}: {k} and {v}")
        new = turn(text, here, f.suffix == ".rt")
        if new != text:
            f.write_text(new)
            changed += 1
    for f, ns in sorted(library.items()):
        print(f"of the library in {f.relative_to(root)}: {', '.join(sorted(ns))}")
    back = {}
    for k, v in names.items():
        back.setdefault(v, []).append(k)
    for v, ks in sorted(back.items()):
        if len(ks) > 1:
            print(f"fall together as {v}: {ks}")
    print(f"{len(names)} names, {changed} files")


if __name__ == "__main__":
    sys.exit(main())
