"""Lists places in crates/*/src that an older form of the language may have left behind.

python3 tools/places.py [ROOT [POINT ..]]   prints each hit, by point, and a count for each list.
A hit is to be read: docs/DESIGN-PASS.md says which are places, and what became of them.
"""

import collections
import difflib
import glob
import itertools
import os
import re
import sys

ROOT = sys.argv[1] if len(sys.argv) > 1 else "."
POINTS = set(sys.argv[2:]) or set("1234567")
FILES = sorted(glob.glob(os.path.join(ROOT, "crates/*/src/*.rt")))


def short(path):
    return os.path.relpath(path, os.path.join(ROOT, "crates")).replace("/src/", "/")


def lines(path):
    for number, line in enumerate(open(path), 1):
        yield number, line.rstrip("\n"), re.sub(r"//.*", "", line).rstrip()


def crate(path):
    return short(path).split("/")[0]


def show(title, hits):
    print(f"-- {title}: {len(hits)}")
    for hit in hits:
        print("   " + hit)


def grep(title, pattern, without=None):
    hits = []
    for path in FILES:
        for number, _, code in lines(path):
            if re.search(pattern, code) and not (without and re.search(without, code)):
                hits.append(f"{short(path)}:{number}: {code.strip()[:110]}")
    show(title, hits)


def functions():
    """Path, name, parameters and body tokens of each function with a body."""
    for path in FILES:
        text = re.sub(r"//[^\n]*", "", open(path).read())
        for m in re.finditer(r"(?m)^( *)(?:pub(?:\(crate\))? )?(?:extern \"C\" )?fn ([a-z_0-9]+)", text):
            end = re.compile(r"(?m)^" + m.group(1) + r"(\}|\{\})$").search(text, m.end())
            if not end:
                continue
            whole = text[m.start():end.end()]
            head = whole.split("{")[0]
            body = re.sub(r"(?ms)^ *(requires|ensures)\b.*?(?=^ *(requires|ensures)\b|^ *\{)", "", whole)
            cut = body.find("{\n")
            yield path, m.group(2), head, re.findall(r"[A-Za-z_]\w*|\S", body[cut:] if cut >= 0 else body)


KEYWORDS = set("let mut if else match return for in while loop Some None Ok Err true false self Self".split())


def shape(tokens):
    return [t if t in KEYWORDS or not re.match(r"[A-Za-z_]", t) else "I" for t in tokens]


def twins():
    found = []
    every = [(p, n, t, shape(t)) for p, n, _, t in functions()]
    for (p, n, t, s), (q, m, u, r) in itertools.combinations(every, 2):
        if min(len(s), len(r)) < 8 or abs(len(s) - len(r)) > 0.35 * max(len(s), len(r)):
            continue
        alike = difflib.SequenceMatcher(None, s, r, autojunk=False)
        if alike.quick_ratio() < 0.85 or alike.ratio() <= 0.85:
            continue
        if difflib.SequenceMatcher(None, t, u, autojunk=False).ratio() > 0.75:
            found.append(f"{short(p)}:{n} ~ {short(q)}:{m}")
    show("functions with nearly the same body", found)


def constants():
    by_value = collections.defaultdict(list)
    for path in FILES:
        for number, _, code in lines(path):
            m = re.match(r"\s*(?:pub(?:\(crate\))? )?const ([A-Z_]+): [^=]+ = (.*);$", code)
            if m and m.group(2) not in ("0", "1", "2"):
                by_value[m.group(2)].append(f"{short(path)}:{number} {m.group(1)}")
    show("numbers that two constants say", [f"{v}: " + ", ".join(c) for v, c in sorted(by_value.items()) if len(c) > 1])


def literals():
    every = collections.defaultdict(list)
    for path in FILES:
        text = re.sub(r"//[^\n]*", "", open(path).read())
        for m in re.finditer(r"\b(Row|Label|Report|Table|Settled) \{\n?((?:[^{}]|\{[^{}]*\})*)\}", text):
            if not re.search(r"(struct|impl|let) $|for $", text[max(0, m.start() - 7):m.start()]):
                every[m.group(1)].append(f"{short(path)}:{text[:m.start()].count(chr(10)) + 1}")
    show("values of one struct, written field by field", [f"{k}: {len(v)}: " + ", ".join(v) for k, v in sorted(every.items()) if len(v) > 2])


def facts(body):
    """The conjuncts of a clause, without the parentheses around them."""
    for part in re.split(r" × |↦|\n\s*\|", body):
        part = re.sub(r"\s+", " ", part).strip()
        while part.startswith("(") and part.endswith(")") and part[1:-1].count("(") == part[1:-1].count(")"):
            part = part[1:-1].strip()
        if len(part) > 8 and not part.startswith("elim "):
            yield part


def clauses():
    every = collections.defaultdict(set)
    for path in FILES:
        text = re.sub(r"//[^\n]*", "", open(path).read())
        names = [(m.start(), m.group(1)) for m in re.finditer(r"\bfn ([a-z_0-9]+)", text)]
        for m in re.finditer(r"(?m)^\s*(?:requires|ensures)\s*\w*\s*\{", text):
            depth, end = 1, m.end()
            while depth:
                depth += {"{": 1, "}": -1}.get(text[end], 0)
                end += 1
            name = [n for at, n in names if at < m.start()][-1]
            for fact in facts(text[m.end():end - 1]):
                fact = re.sub(r"\.(old|now|new)\b", "", fact)
                fact = re.sub(r"\b(work|labels|spare)\b", "labels", fact)
                fact = re.sub(r"\b[MEF]\.(\w+\.)?PathMetric\.|\bM\.", "M.", fact)
                every[crate(path), fact].add(f"{short(path).split('/')[1]}:{name}")
    show("facts in the clauses of three functions or more", [f"{len(f)} in {c}: {fact[:90]}: " + ", ".join(sorted(f)) for (c, fact), f in sorted(every.items(), key=lambda x: (-len(x[1]), x[0])) if len(f) >= 3])


def parameters():
    every = collections.defaultdict(list)
    for path, name, head, _ in functions():
        names = [n for n in re.findall(r"[(,]\s*(?:mut )?(&?(?:mut )?self|[a-z_]+)\s*(?::|,|\))", head)]
        names = ["self" if "self" in n else ("labels" if n in ("work", "labels") else n) for n in names]
        for group in itertools.combinations(names, 3):
            every[crate(path), group].append(name)
    show("three parameters that travel together through three functions or more", [f"{len(f)} in {c}: {', '.join(g)}: " + ", ".join(f) for (c, g), f in sorted(every.items(), key=lambda x: -len(x[1])) if len(f) >= 3])


def switches():
    hits = []
    for path, name, _, tokens in functions():
        body = " ".join(tokens)
        arms = re.findall(r"= > (?:\{ )?(?:[A-Za-z_:.& ]*?)([a-z_]+) (?:: : < [^()]* > )?\(", body)
        if " match " in " " + body and len(set(arms)) >= 4:
            hits.append(f"{short(path)}:{name}: " + ", ".join(sorted(set(arms))))
    show("a match whose arms call four functions or more", hits)


if "1" in POINTS:
    print("== 1: own Option or Result, flags beside values, numbers for kinds")
    grep("enumerations", r"^\s*(pub(\(crate\))? )?enum ")
    grep("flags: a bool that is a field, a parameter or in a tuple", r"(\w+: (&?\[?|Option<)bool)|\(bool|, bool", r"^\s*fn .*\) -> bool$")
    grep("numbers that stand for something else", r"::MAX\b|NO_[A-Z]+\b|unwrap_or\(0\)|== b'[^0]'|MARK\b")
    grep("refusals and lines as numbers", r"fn (number|line)\b|fn diljusk_rate")
if "2" in POINTS:
    print("== 2: twins")
    twins()
    constants()
    literals()
if "3" in POINTS:
    print("== 3: loops that count by hand")
    grep("loops over a range, while and loop", r"^\s*('\w+: )?(for \S+ in .*\.\.|for \([^)]*\) in .*\.\.|while |loop )")
if "4" in POINTS:
    print("== 4: equality, order, copying, conversion and printing by hand")
    grep("by their names", r"fn (same\w*|agree\w*|from_\w+|read_(valve|setting|kind|order)|letter_of_\w+|number|line|count_of|at_least|show_\w+|\w+_of_mark|apply|add)\b")
    grep("conversions and comparisons that are impls", r"impl(<[^>]*>)? (From|TryFrom|Display|fmt::Display|PartialEq|PartialOrd|Ord|AddAssign)")
if "5" in POINTS:
    print("== 5: facts and parameters that are repeated")
    clauses()
    parameters()
if "6" in POINTS:
    print("== 6: buffers with a length, parallel arrays, places beside a slice")
    grep("arrays of a fixed length", r"\[[^\[\]]+; [A-Za-z_0-9:]+( \+ \w+)?\]", r"!\[in|kind: &\[u8; 4\]")
    grep("a place or a length beside a slice", r"&(mut |'a )?\[[^\]]*\], (at|from|to|count|pipes|length|junctions|places): usize|^\s*(at|from|count): usize,")
    grep("Vec in a field", r"^\s*(pub )?\w+: Vec<")
if "7" in POINTS:
    print("== 7: switches on which step to run, tables of functions")
    switches()
    grep("function pointers and dyn", r"\bdyn\b|\bfn\(")
