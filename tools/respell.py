#!/usr/bin/env python3
"""Brings the names of this repository's definitions and lemmas to snake case, in crates/.

usage: tools/respell.py [--say]     at the top of the repository, once, over the text that Rattle's port.py leaves

A name that a file of specs/ or proofs/ declares in camel case or with dashes is respelled there and wherever it is cited: in proofs, contracts and
must-fail edits. A lemma that would get the name of a definition gets `_lem` after it. Goals of a proof, names of the library, functions of src/, types,
modules, strings and the words of comments keep their spelling. --say prints each name with its new spelling and changes nothing.
"""

import collections
import os
import re
import sys

IDENTIFIER = re.compile(r"(?<![\w'\-◌])[A-Za-z][\w'\-]*(?<!-)")
SIGNATURE = re.compile(r"^\s*(?:(?:abbrev|unfoldable|pub|opaque)\s+)*([^\s:(){}\[\],;=.]+)(?:\s*\{[^}]*\})*\s+:(?:\s+(.*))?$")
GOAL = re.compile(r"^tie\.|^\{M : Type 1\} → statement M|^goal\.")
IMPORT = re.compile(r"^(?:ghost )?use ([\w.]+)\.\{([^}]*)\}")
OWN = re.compile(r"^Rattle\.(\w+)\.(?:specs|proofs)\b")


def files(*endings):
    for folder, dirs, names in os.walk("crates"):
        dirs[:] = sorted(d for d in dirs if d != "out")
        for name in sorted(names):
            if name.endswith(endings):
                yield os.path.join(folder, name)


def read(path):
    with open(path, encoding="utf-8") as f:
        return f.read()


def snake(name):
    return re.sub(r"(?<=[a-z0-9])([A-Z])", lambda m: "_" + m[1], name).lower().replace("-", "_") if re.search(r"[a-z0-9][A-Z]", name) else name.replace("-", "_")


def is_goal(name, type_):
    return bool(type_ and GOAL.match(type_)) or name.endswith("-spec") or name.endswith("_spec")


def declared(crates):
    """The names that files declare, and each file's goals, which keep their spelling there."""
    names, goals = collections.defaultdict(set), {}
    for path in files(".antt"):
        goals[path] = set()
        lines = read(path).split("\n")
        for i, line in enumerate(lines):
            m = SIGNATURE.match(line)
            if not m:
                continue
            type_ = m[2] or (lines[i + 1].strip() if i + 1 < len(lines) else "")
            if path.endswith("/Proof.antt") and is_goal(m[1], type_):
                goals[path].add(m[1])
            elif m[1][0].islower():
                names[m[1]].add(path)
    return names, goals


def library_names(text, crates):
    found = set()
    for line in text.split("\n"):
        m = IMPORT.match(line)
        if m and not (OWN.match(m[1]) and OWN.match(m[1])[1] in crates):
            found |= {word.strip().split(" as ")[-1] for word in m[2].split(",")}
    return found


def spelling(crates):
    names, goals = declared(crates)
    new = {}
    plain = {n for n in names if snake(n) == n}
    camel = sorted(n for n in names if snake(n) != n and "-" not in n)
    dashed = sorted(n for n in names if "-" in n)
    taken = set(plain)
    clashes, moved = [], {}
    for name in camel + dashed:
        to = snake(name)
        if to in plain and name in camel:
            moved[to] = (to + "_lem", names[to])
        elif to in taken and name in dashed:
            to += "_lem"
        if to in taken - plain:
            clashes.append((name, to))
        taken.add(to)
        new[name] = to
    return new, goals, clashes, moved


def respelled(text, new, keep):
    def turn(m):
        word = m[0]
        return new[word] if word in new and word not in keep else word

    return IDENTIFIER.sub(turn, text)


def stepped_aside(text, path, moved):
    """A lemma in snake case already whose name a definition gets: in the files that declare or import it."""
    for word, (to, declaring) in moved.items():
        modules = {p[len("crates/") : -len(".antt")].replace("/", ".") for p in declaring}
        imports = any(m[1][len("Rattle.") :] in modules and word in re.split(r"[, ]+", m[2]) for m in map(IMPORT.match, text.split("\n")) if m)
        if path in declaring or imports:
            text = re.sub(rf"(?<![\w'\-.◌]){word}(?![\w'\-.])", to, text)
    return text


def in_proof(text, new, keep):
    lines = []
    for line in text.split("\n"):
        code, dashes, comment = line.partition("--") if re.search(r"(^|\s)--", line) else (line, "", "")
        camel = {n: to for n, to in new.items() if "-" not in n}
        lines.append(respelled(code, new, keep) + dashes + respelled(comment, camel, keep))
    return "\n".join(lines)


def in_source(text, new, keep):
    """In code only names in camel case are those of definitions; those with dashes stand in imports."""
    camel = {n: to for n, to in new.items() if "-" not in n}
    lines = []
    for line in text.split("\n"):
        if re.match(r"\s*ghost use ", line):
            lines.append(respelled(line, new, keep))
        else:
            parts = re.split(r'("(?:[^"\\]|\\.)*")', line)
            lines.append("".join(p if p.startswith('"') else respelled(p, camel, keep) for p in parts))
    return "\n".join(lines)


def main():
    crates = {c for c in os.listdir("crates")}
    new, goals, clashes, moved = spelling(crates)
    if clashes:
        print("names that fall together:", clashes)
        return 1
    if "--say" in sys.argv[1:]:
        print("\n".join(f"{n}\t{to}" for n, to in sorted(new.items() | {(n, to[0]) for n, to in moved.items()})))
        return 0
    for path in files(".antt", ".rt", ".edit"):
        text = read(path)
        if path.endswith(".antt"):
            said = in_proof(stepped_aside(text, path, moved), new, library_names(text, crates) | goals[path])
        else:
            said = in_source(text, new, library_names(text, crates))
        if said != text:
            with open(path, "w", encoding="utf-8") as f:
                f.write(said)
    return 0


if __name__ == "__main__":
    raise SystemExit(main())
