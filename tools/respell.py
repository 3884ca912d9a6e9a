#!/usr/bin/env python3
"""Brings the names of definitions and lemmas to today's spelling: types in camel case, everything else in snake case.

usage: python3 tools/respell.py [ROOT]    once, over the crates and docs below ROOT (by default the folder that it is run in)

It renames only what this repository declares itself in specs/ and proofs/: definitions, lemmas, fields, constructors and local names.
Names that the check makes (goals, steps) and names of the libraries stay. A name that would then be that of a Rust function gets _lem behind it.
"""
import collections
import os
import re
import sys

ROOT = sys.argv[1] if len(sys.argv) > 1 else "."
NAME = r"[^\s(){}\[\]:;=.,`⌜⌝]+"
KEBAB = r"[A-Za-z_][A-Za-z0-9_'₀-₉]*(?:-[A-Za-z0-9_'₀-₉]+)+"
SIGNATURE = re.compile(rf"^[ ]*(?:(?:pub|abbrev|unfoldable) )*(?:(record|data) )?({NAME}(?:-{NAME})+)((?: [({{][^\n]*?[)}}])*) : ([^\n]*)$", re.M)
LOCAL = re.compile(rf"\blet ({KEBAB}) ")
# Lemmas that have the name of a Rust function, in some crate.
ALSO_FUNCTIONS = {"equal-reports", "greatest-flows", "marked-cases", "no-pipe", "same-report", "sealed-cuts", "weak-duality"}
# Definitions that have the name of a Rust function or struct, in some crate.
OTHERWISE = {
    "Weight-first": "IsWeightFirst",
    "at-end": "at_text_end",
    "example-page": "worked_page",
    "governing-pipes": "governing_pipes_of",
    "least-weight": "least_weight_of",
    "next-count": "next_count_in",
    "next-pipe": "next_pipe_in",
    "next-step": "next_step_in",
    "page-length": "page_length_of",
    "pipe-follows": "pipe_follows_in",
}


def files(root, endings):
    for folder, dirs, names in os.walk(root):
        dirs[:] = sorted(d for d in dirs if d not in ("out", "target", ".git", "tools"))
        for name in sorted(names):
            if name.endswith(endings):
                yield os.path.join(folder, name)


def declared(root):
    names, types = set(), set()
    for path in files(os.path.join(root, "crates"), ".antt"):
        with open(path) as file:
            text = re.sub(r"--.*", "", file.read())
        for kind, name, _, signature in SIGNATURE.findall(text):
            if re.match(r"(goal|needs|need)\.", signature):
                continue
            names.add(name)
            if kind or re.search(r"Type \d( where)?$", signature.strip()):
                types.add(name)
        names.update(LOCAL.findall(text))
    return names, types


def spelling(names, types):
    to = {}
    for name in names:
        if name in OTHERWISE:
            to[name] = OTHERWISE[name]
        elif name in types:
            to[name] = "".join(part[0].upper() + part[1:] for part in name.split("-"))
        else:
            to[name] = name.replace("-", "_") + ("_lem" if name in ALSO_FUNCTIONS else "")
    return to


def respelled(text, to):
    def one(match):
        name = match[0]
        if name not in to:
            return name
        # a step of a proof that the check named after a call of the Rust function
        if (name in ALSO_FUNCTIONS or name in OTHERWISE) and text[:match.start()].endswith(("c.", "c.in-")):
            return name
        return to[name]

    return re.sub(rf"(?<![A-Za-z0-9_'-]){KEBAB}(?![A-Za-z0-9_'-])", one, text)


def main():
    names, types = declared(ROOT)
    to = spelling(names, types)
    together = [name for name, count in collections.Counter(to.values()).items() if count > 1]
    if together:
        raise SystemExit(f"these names would fall together: {together}")
    for path in files(os.path.join(ROOT, "crates"), (".antt", ".rt")):
        with open(path) as file:
            lines = file.read().split("\n")
        mark = "--" if path.endswith(".antt") else "//"
        new = []
        for line in lines:
            code, comment = line, ""
            at = re.search(rf"(^|\s){mark}(\s|$)", line)
            if at:
                code, comment = line[: at.start()], line[at.start() :]
            if path.endswith(".rt"):
                parts = re.split(r'("(?:[^"\\]|\\.)*")', code)
                code = "".join(part if k % 2 else respelled(part, to) for k, part in enumerate(parts))
            else:
                code = respelled(code, to)
            new.append(code + comment)
        with open(path, "w") as file:
            file.write("\n".join(new))
    for path in [os.path.join(ROOT, "README.md"), *files(os.path.join(ROOT, "docs"), ".md")]:
        with open(path) as file:
            text = file.read()
        with open(path, "w") as file:
            file.write(re.sub(r"`[^`\n]+`", lambda match: respelled(match[0], to), text))
    print(f"{len(to)} names, of which {len(types)} types")


main()
