#!/usr/bin/env python3
"""Lists places in crates/*/src where an older form of the language may stand, by points of docs/DESIGN-PASS.md.

    python3 tools/places.py [FOLDER] [POINT..]

It goes by text, so a line is a place to look at, and not a verdict. Test code counts like all other code.
"""
import collections
import pathlib
import re
import sys

LINES = {
    1: [
        (r"\b(Fault::new|answered)\(\d+", "a refusal by its number"),
        (r"\b(number|layer) == \d", "a refusal by its number"),
        (r"^\s*pub(\(crate\))? (done|ended|closed): bool", "a flag with a value beside it"),
        (r"^\s*(Alone|First),$", "an enum's case for nothing"),
        (r"\bNEVER: u32|\btarget: 128", "a number for nothing"),
        (r"^\s*names\.len\(\)$", "a number for nothing"),
        (r"^pub type (Verdict|Case|Long) = \(u8|^pub type Long = \(u8", "a number for a refusal or none"),
        (r"^fn (given|refused)\(|_ => \(fault\.number|Err\(fault\) => \(fault\.number", "a Result taken apart by hand"),
        (r"Err\(_\) => (return )?Err\(Fail::new|Err\(_\) => 0,|Ok\((\w+)\) => (Ok\(\2\)|\2),$", "a Result taken apart by hand"),
    ],
    4: [
        (r"^\s*matches!\(", "a comparison by cases"),
        (r"^(pub(\(crate\))? )?fn (higher_of|is_below|is_old|counted|same_bytes|of_answer|layer_word|sentence|within_i32|is_main|is_minus|is_number|is_target|is_input|is_end|lesser_of|is_word)\(", "a comparison, an order or a conversion by hand"),
        (r"\{ 1 \} else \{ 0 \}", "a conversion by hand"),
    ],
    6: [
        (r"\bout: &mut \[", "a buffer to fill"),
        (r"\bconst NO\w*: \w+ = \w+ \{|\bconst NONE: ", "what fills a buffer"),
        (r"\[0u8; \d+\];$", "a buffer"),
    ],
    7: [
        (r"\bfn \w+(<[^(]*>)?\([^)]*\b(class|kind|how|cut): ", "an enum that says which step"),
    ],
}


def sources(folder):
    for path in sorted(pathlib.Path(folder, "crates").glob("*/src/**/*.rt")):
        yield path, path.read_text().split("\n")


def heads(lines):
    """Each function's head: from its `fn` to its opening brace."""
    for i, line in enumerate(lines):
        if re.match(r"\s*(pub(\(crate\))? )?(const )?fn \w+", line):
            j = i
            while j < len(lines) and lines[j].strip() != "{" and not lines[j].rstrip().endswith((" {", ";")):
                j += 1
            yield i + 1, re.match(r".*?fn (\w+)", line).group(1), " ".join(x.strip() for x in lines[i : j + 1])


def bodies(lines):
    """Each function's name, line and body, with names of its own kind blotted out."""
    i = 0
    while i < len(lines):
        m = re.match(r"(\s*)(pub(\(crate\))? )?fn (\w+)", lines[i])
        if not m:
            i += 1
            continue
        j = i
        while j < len(lines) and lines[j] != m.group(1) + "}" and not lines[j].rstrip().endswith(";") or j == i:
            j += 1
            if j >= len(lines):
                break
        yield i + 1, m.group(4), lines[i : j + 1]
        i = j + 1


def shape(body):
    code = [x for x in body if not re.match(r"\s*(ensures|requires|//)", x)]
    text = re.sub(r"fn \w+", "fn", " ".join(x.strip() for x in code))
    text = re.sub(r"\b\d[\d_]*\b", "0", text)
    text = re.sub(r"\b[A-Z]\w*(::\w+)?", "T", text)
    return re.sub(r"\b(i8|i16|i32|i64|u8|u16|u32|u64|usize)\b", "n", re.sub(r"\.\w+", ".f", text))


def twins(folder):
    seen = collections.defaultdict(list)
    for path, lines in sources(folder):
        for at, name, body in bodies(lines):
            if len(body) > 4:
                seen[shape(body)].append((path, at, name))
    for group in seen.values():
        if len(group) > 1:
            for path, at, name in group:
                yield path, at, "%s, of a shape with %s" % (name, ", ".join(n for p, a, n in group if (p, a) != (path, at)))


def together(folder):
    facts = collections.defaultdict(list)
    pairs = collections.defaultdict(list)
    for path, lines in sources(folder):
        crate = path.parts[-3] if path.parts[-2] == "src" else path.parts[-4]
        for at, name, head in heads(lines):
            for fact in re.findall(r"requires (?:\w+ )?\{ (.*?) \}(?= ensures| requires| \{|$)", head):
                for part in re.findall(r"[^×]+", fact):
                    facts[crate, re.sub(r"\b\w+\.(now|old)\b", "_", part.strip(" ()"))].append((path, at, name))
            given = sorted(set(re.findall(r"\b(\w+): (&?(?:mut )?[\w\[\]; <>]+)(?=[,)])", head.split("->")[0])))
            given = [g for g in given if not g[1].startswith("&impl")]
            for a in range(len(given)):
                for b in range(a + 1, len(given)):
                    pairs[crate, given[a], given[b]].append((path, at, name))
    for (crate, fact), group in facts.items():
        if len(group) > 2:
            yield group[0][0], group[0][1], "`%s` is required in %s" % (fact, ", ".join(g[2] for g in group))
    for (crate, a, b), group in pairs.items():
        if len(group) > 2:
            yield group[0][0], group[0][1], "%s: %s and %s: %s in %s" % (a + b + (", ".join(g[2] for g in group),))


def loops(folder):
    """Loops by hand: a `while` with a test, and a `for` over numbers that stand as an index in its body."""
    for path, lines in sources(folder):
        for i, line in enumerate(lines):
            m = re.match(r"(\s*)(while\b(?! let\b)|for (\w+) in [^{]*\.\.)", line)
            if not m:
                continue
            j = i + 1
            while j < len(lines) and not lines[j].startswith(m.group(1) + "}"):
                j += 1
            body = " ".join(lines[i + 1 : j])
            if m.group(3) is None or re.search(r"\[[^\]]*\b%s\b[^\]]*\]|\.\w+\(%s\b" % (m.group(3), m.group(3)), body):
                yield path, i + 1, line.strip()


def buffers(folder):
    """Structs that have a length beside an array or a slice."""
    for path, lines in sources(folder):
        for i, line in enumerate(lines):
            if re.match(r"(pub(\(crate\))? )?struct \w+.*\{", line):
                j = i
                while lines[j] != "}":
                    j += 1
                body = [x for x in lines[i:j] if "ghost" not in x]
                beside = [x for x in body if re.search(r"\b(len|depth|count|number): (usize|u8|u32),", x)]
                if beside and any(re.search(r": (&'a mut )?\[", x) for x in body):
                    yield path, i + 1, "%s %s" % (line.strip(), beside[0].strip())


def places(folder, point):
    if point == 2:
        yield from twins(folder)
    elif point == 3:
        yield from loops(folder)
    elif point == 5:
        yield from together(folder)
    elif point == 8:
        for path in sorted(pathlib.Path(folder, "crates").glob("*/proofs/**/*.antt")):
            yield path, 1, "%d lines" % (path.read_text().count("\n"))
    else:
        if point == 6:
            yield from buffers(folder)
        for path, lines in sources(folder):
            for i, line in enumerate(lines):
                for pattern, what in LINES[point]:
                    if re.search(pattern, line) and not line.strip().startswith("//"):
                        yield path, i + 1, "%s: %s" % (what, line.strip())
                        break


def main():
    folder = sys.argv[1] if len(sys.argv) > 1 and not sys.argv[1].isdigit() else "."
    points = [int(x) for x in sys.argv[1:] if x.isdigit()] or list(range(1, 9))
    for point in points:
        found = list(places(folder, point))
        print("point %d: %d" % (point, len(found)))
        if point != 8 or len(points) == 1:
            for path, at, what in found:
                print("  %s:%d: %s" % (path.relative_to(folder), at, what))


main()
