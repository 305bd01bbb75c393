#!/usr/bin/env python3
"""Counts, in crates/*/src, the places that docs/DESIGN-PASS.md speaks of, point by point. With --list their lines too.

A count is of a form, not of a judgement: what stays, and why, is told in the page and beside each place.
"""
import collections
import pathlib
import re
import sys

FILES = sorted(pathlib.Path("crates").glob("*/src/*.rt"))
TEXT = {f: f.read_text().split("\n") for f in FILES}
found = collections.OrderedDict()


def note(point, what, where, line):
    found.setdefault((point, what), []).append((where, line.strip()))


def functions(lines):
    """(line number, name, signature with clauses, body lines) of each function."""
    i = 0
    while i < len(lines):
        m = re.match(r"\s*(?:pub )?(?:extern \"C\" )?fn (\w+)", lines[i])
        if not m:
            i += 1
            continue
        j = i
        while j < len(lines) and not re.match(r"\s*\{$", lines[j]) and not lines[j].rstrip().endswith("{"):
            j += 1
        indent = len(lines[j]) - len(lines[j].lstrip())
        k = j + 1
        while k < len(lines) and not (lines[k].startswith(" " * indent + "}") and len(lines[k]) - len(lines[k].lstrip()) == indent):
            k += 1
        yield i, m.group(1), lines[i : j + 1], lines[j + 1 : k]
        i = k + 1


twins = collections.defaultdict(list)
clauses = collections.defaultdict(set)
for f, lines in TEXT.items():
    crate = f.parts[1]
    # 1: own enums of the shape of Result or Option
    text = "\n".join(lines)
    for m in re.finditer(r"^(?:pub )?enum (\w+) \{\n((?:    .*\n)*?)\}", text, re.M):
        rows = [r.strip().rstrip(",") for r in m.group(2).split("\n") if r.strip() and not r.strip().startswith("//")]
        at = text[: m.start()].count("\n")
        if any(r == "Refused(Refusal)" for r in rows):
            note(1, "enums with a variant for the refusal", f"{f}:{at + 1}", m.group(1))
        elif len(rows) == 2 and sum("(" in r for r in rows) == 1:
            note(1, "enums of a value or none", f"{f}:{at + 1}", m.group(1))
    for m in re.finditer(r"^(?:pub )?struct (\w+)(?:<[^>]*>)? \{\n((?:    .*\n)*?)\}", text, re.M):
        at = text[: m.start()].count("\n")
        if re.search(r"\b(ok|none|failed|on|seen|refusal|found|cut|saw): (bool|u8|u16|u32|usize)", m.group(2)):
            note(1, "structs with a flag or a refusal's number beside a value", f"{f}:{at + 1}", m.group(1))
    for n, l in enumerate(lines):
        if re.search(r"Refused\(\w+\) => (return )?\w+(::\w+)*::Refused\(|Err\((\w+)\) => (return )?Err\(\3\)|Refused\(\w+\) => \w+::Refused\(", l):
            note(1, "arms that pass a refusal on", f"{f}:{n + 1}", l)
        if re.match(r"\s*//.*\b(0|15|place 0) (where|for|beyond)\b.*", l) and "fn" in "".join(lines[n + 1 : n + 4]):
            note(1, "numbers that stand for none", f"{f}:{n + 1}", l)
    for at, name, head, body in functions(lines):
        where = f"{f}:{at + 1}"
        sig = " ".join(h.strip() for h in head if not re.match(r"\s*(ensures|requires)", h))
        # 2: twins
        b = " ".join(x.strip() for x in body)
        if len(b) > 20:
            b = re.sub(r"\b\d[\w_]*\b|\b(true|false)\b", "N", b)
            b = re.sub(r"\b[A-Z]\w*::", "", b)
            b = re.sub(r"\b(u8|u16|u32|u64|usize|i32|i64|[A-Z]\w+)\b", "T", b)
            twins[b].append((where, name))
        # 3: loops that count an index
        for n, l in enumerate(body):
            m = re.match(r"(\s*)while (.*) \{$", l)
            if not m:
                continue
            inner = []
            for x in body[n + 1 :]:
                if x.startswith(m.group(1) + "}"):
                    break
                inner.append(x)
            steps = re.findall(r"^\s+(\w+) [+-]= (?:1|2|16|64);", "\n".join(inner), re.M)
            if any(re.search(r"\b%s\b" % s, m.group(2)) for s in steps):
                note(3, "while loops that count an index", f"{f}:{at + 2 + n}", l)
            else:
                note(3, "other while loops", f"{f}:{at + 2 + n}", l)
        # 4: by hand
        arms = [x.strip() for x in body if "=>" in x]
        if arms and all(re.search(r"=> (true|false),$", x) for x in arms) and len(arms) > 1:
            note(4, "matches that say true or false variant by variant", where, name)
        if len(arms) > 3 and all(re.search(r"=> (\d\w*|b'.'),$", x) for x in arms):
            note(4, "matches that turn variants to numbers", where, name)
        one = [x.strip() for x in body if x.strip()]
        if len(one) == 1 and re.match(r"^\(?\w+(\.\d)?\)? as \w+$", one[0]):
            note(4, "functions that only convert a number", where, name)
        if len(one) == 1 and re.match(r"^\w+(\.\d)? [=!]= \w+(\.\d)?$", one[0]):
            note(4, "functions that only compare two values", where, name)
        if re.match(r"(is_digit|is_capital|saturating_sub|at_least_one|more|both|still|differ|earlier|later|span_of)$", name):
            note(4, "functions that the library has", where, name)
        if re.match(r"(told_|bare|tell)", name):
            note(4, "conversions of an answer", where, name)
        # 5, 6, 7
        for h in head:
            m = re.match(r"\s*requires (?:\w+ )?\{ (.*) \}$", h)
            if m:
                for part in re.split(r" × ", m.group(1)):
                    clauses[part.strip("() ")].add(where)
        if re.search(r"\bwords: &\[u32\]", sig) and re.search(r"\brec: &\[u8\]", sig) and re.search(r"\b(list|ops): Ops|\binside: bool", sig):
            note(5, "functions that take a list, a record and a place in it", where, name)
        if re.search(r"out: &mut \[\w+\], at: usize|rec: &\[u8\], (area: usize, )?from: usize|got: &\[u8\], at: usize|text: &\[u8\], (at|from): usize", sig):
            note(6, "functions that take a buffer with a place beside it", where, name)
        if re.search(r"\b(start|quick|inside|reverse): bool", sig):
            note(7, "functions that take a bool for which way to go", where, name)
    for n, l in enumerate(lines):
        if re.search(r"\b(\w+): \1,$", l.strip()) or re.search(r"\{ ?(\w+): \1\b", l):
            note(4, "fields that say their name twice", f"{f}:{n + 1}", l)
for rows in twins.values():
    if len(rows) > 1:
        for w, n in rows:
            note(2, "functions whose body is another's but for types, numbers and names", w, n)
for c, where in clauses.items():
    if len(where) > 2:
        note(5, "facts required by three functions or more", f"{len(where)} functions", c)
point = None
for (p, what), rows in sorted(found.items(), key=lambda x: x[0][0]):
    print(f"{p}  {len(rows):4}  {what}")
    if "--list" in sys.argv:
        for w, l in rows:
            print(f"            {w}  {l[:110]}")
