#!/usr/bin/env python3
"""Brings this repository's own ghost names to the spelling of the Rattle that docs/PORT.md names: words in
snake case, types in camel case.

usage: python3 tools/respell.py [--list]    at the top, once, right after the kit's port.py

It renames the definitions, lemmas, fields, constructors and local names of specs/ and proofs/ that have a
hyphen, there, in the clauses of src/ and in must-fail/. Names that the toolchain makes (of goals, and of the
steps of a function) and names of its libraries keep their hyphens. --list prints the names and changes nothing.
"""

import glob
import os
import re
import sys

WORD = re.compile(r"[^\s(){}\[\],;.:\"`⌜⌝«»|]+")
OWN = ("check", "double", "evaluate", "heronnail", "host", "host_tests", "lexer", "list", "memory", "memory_demo",
       "parser", "place", "reader", "report", "runner", "runs", "script", "tests", "undo")

# Names that have no hyphen, or are spelled otherwise than the rule has it: functions in camel case, and names in
# clauses that port.py began with a capital.
CHOSEN = {
    "Cells-of": "cells_of",
    "Counted-of": "counted_of",
    "CountedOf": "counted_of",
    "Ended-of": "ended_of",
    "EndedOf": "ended_of",
    "Signed-of": "signed_of",
    "SignedOf": "signed_of",
    "Goes_on": "GoesOn",
    "isEnd": "is_end",
    "ruleOf": "rule_of",
    "rows_of_lem": "rows_of",
}


def code(text):
    """The text with its comments blanked, as long as before."""
    return re.sub(r"--(?=\s).*", lambda m: " " * len(m.group(0)), text)


def is_answer(path):
    """Whether the file holds answers for one function: its names are goals, which the toolchain names."""
    return bool(re.search(r"/proofs/.+/", path))


def imported(text):
    """The names that the file takes from a library of the kit."""
    out = set()
    for m in re.finditer(r"use (?:Rattle\.)?(\w+)[\w.]*\.\{([^}]*)\}", text):
        if m.group(1) not in OWN:
            for item in m.group(2).split(","):
                out.add(item.split(" as ")[-1].strip())
    return out


def declared(path, text):
    """The names that the file declares."""
    out = set()
    goals = set(re.findall(r"\bgoal\.([^\s(){}]+)", text))
    head = re.compile(r"\s*(?:(?:abbrev|unfoldable|pub|data|record|let)\s+)*([^\s(){}]+)\s*(?:\([^=]*)?:(?!:)")
    for line in text.split("\n"):
        if re.match(r"\s*(use|ghost use)\b", line):
            for m in re.finditer(r" as ([^\s,}]+)", line):
                out.add(m.group(1))
            continue
        m = head.match(line)
        if m and m.group(1) not in goals:
            out.add(m.group(1))
        m = re.match(r"\s+((?:[^\s(){}:=]+\s+)+):(?!:)", line)
        if m:
            out.update(m.group(1).split())
        for pattern in (r"\blet ([^\s(){}]+)", r"[({]([^(){}:]+):(?!:)", r"λ ([^.]*)\.", r"module ([^\s(){}]+)"):
            for m in re.finditer(pattern, line):
                out.update(m.group(1).replace("(", " ").split())
    return {n for n in out if "-" in n and WORD.fullmatch(n)}


def spelled(name):
    if name in CHOSEN:
        return CHOSEN[name]
    if name[0].isupper():
        return "".join(p[:1].upper() + p[1:] for p in name.split("-"))
    return name.replace("-", "_")


def files():
    for kind in ("specs/**/*.antt", "proofs/**/*.antt", "src/**/*.rt", "must-fail/*.edit"):
        yield from sorted(glob.glob("crates/*/" + kind, recursive=True))


def ghost_spans(text):
    """Where a .rt file has clauses and ghost items: the braces after these words, and ghost imports."""
    spans = []
    for m in re.finditer(r"ghost use [^;]*;", text):
        spans.append(m.span())
    for m in re.finditer(r"\b(?:requires|ensures|ghost)\b[^{};\n]*\{", text):
        depth, i = 1, m.end()
        while depth and i < len(text):
            depth += {"{": 1, "}": -1}.get(text[i], 0)
            i += 1
        spans.append((m.end(), i))
    return spans


def turn(path, text, names):
    kept = imported(text)
    answer = is_answer(path)
    spans = ghost_spans(text) if path.endswith(".rt") else [(0, len(text))]

    def one(m):
        word = m.group(0)
        if word not in names or word in kept or not any(a <= m.start() < b for a, b in spans):
            return word
        before = text[max(0, m.start() - 6) : m.start()]
        if answer and re.search(r"(?:^|[\s(])(?:c|l|goal|at|choice)\.$", before):
            return word
        return spelled(word)

    return WORD.sub(one, text)


def main():
    texts = {}
    for path in files():
        with open(path, encoding="utf-8") as f:
            texts[path] = f.read()
    names = set(CHOSEN)
    for path, text in texts.items():
        if path.endswith(".antt"):
            names |= declared(path, code(text))
        elif path.endswith(".rt"):
            for m in re.finditer(r"ghost use [^;]*;", text):
                names |= {a for a in re.findall(r" as ([^\s,}]+)", m.group(0)) if "-" in a}
    if "--list" in sys.argv[1:]:
        for n in sorted(names):
            print(n, spelled(n))
        return
    for path, text in texts.items():
        new = turn(path, text, names)
        if new != text:
            with open(path, "w", encoding="utf-8") as f:
                f.write(new)
    print(f"respell: {len(names)} names")


main()
