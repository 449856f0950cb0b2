#!/usr/bin/env python3
"""Lists the places in src/ that an older design would have, point by point, by their form alone.

    python3 tools/places.py [FOLDER] [--list]

FOLDER is a checkout (here by default). Without --list only the counts are printed. What a place is, and whether it
should change, is a reader's judgement: docs/DESIGN-PASS.md has it.
"""
import collections
import glob
import os
import re
import sys

PATTERNS = [
    ("1a enums of the repository's own", r"\benum [A-Z]"),
    ("1b answers passed on by a match", r"(Err\((fault|failure|halt|why|error|_)\)|Ok\(\(\)\)) =>"),
    ("1c flags among fields and parameters", r"^\s*(pub |pub\(crate\) )?[a-z_]+: bool,|, [a-z_]+: bool[,)]"),
    ("1d kinds and refusals as numbers", r"\b(kind|way|arity|reason): (u8|u16|u32),"),
    ("3a loops over numbers", r"\bfor \w+ in [^{]*\.\."),
    ("3b loops with a test", r"\bwhile |\bloop \{"),
    ("4a equality and conversion by hand",
     r"\bfn (same_|is_equal|number_of|sign_of|text_of|of_letter|named_by|decode_|stops|store)\w*"),
    ("4b printing by hand", r"\bfn (write|push)_\w+"),
    ("4c blank values written out",
     r"^const NO_|(TermRecord|Condition|TermInfo|FormulaInfo|RowRecord|Equation) \{$"),
    ("6a a buffer and a length as parameters", r"^\s+(used|terms|readings|asked): (usize|u8|u16),|, (used|terms|readings|asked): (usize|u8|u16)\b"),
    ("6b arrays as fields and locals", r"(: |= )\[[^\]]*; ?\w+\]"),
    ("7 enums and flags that choose a step", r"\b(change: &Change|at: Stop|late: bool|is_claim: bool)\b"),
]


def sources(folder):
    for path in sorted(glob.glob(os.path.join(folder, "crates", "*", "src", "*.rt"))):
        with open(path, encoding="utf-8") as file:
            yield os.path.relpath(path, folder), file.read()


def lines_like(folder, pattern):
    form = re.compile(pattern)
    for path, text in sources(folder):
        for number, line in enumerate(text.splitlines(), 1):
            code = line.split("//")[0]
            if form.search(code):
                yield f"{path}:{number}: {line.strip()}"


def bodies(text):
    """Each function with its body, comments left out."""
    text = re.sub(r"//[^\n]*", "", text)
    for head in re.finditer(r"\bfn (\w+)", text):
        start = re.compile(r"\n\s*\{\n|[\w>)\]] \{\n").search(text, head.start())
        if not start:
            continue
        at = text.index("{", start.start())
        depth = 0
        for end in range(at, len(text)):
            depth += {"{": 1, "}": -1}.get(text[end], 0)
            if depth == 0:
                break
        yield head.group(1), text[at:end + 1]


KEPT = set("for in if else match return let mut while loop Some None Ok Err self as".split())


def shape(body):
    """The body with its names, numbers and texts blotted out."""
    body = re.sub(r'b?"[^"]*"', "S", body)
    body = re.sub(r"b?'[^']*'", "C", body)
    body = re.sub(r"\b\d[\d_]*(u\d+|usize)?\b", "N", body)
    body = re.sub(r"\b[A-Za-z_]\w*\b", lambda m: m.group(0) if m.group(0) in KEPT else "x", body)
    return re.sub(r"\s+", " ", body)


def twins(folder):
    groups = collections.defaultdict(list)
    for path, text in sources(folder):
        for name, body in bodies(text):
            form = shape(body)
            if len(form) > 40:
                groups[form].append(f"{path}: {name}")
    for group in groups.values():
        if len(group) > 1:
            yield " | ".join(group)


def repeated_clauses(folder):
    """Clauses of one text in three or more functions of a crate."""
    seen = collections.defaultdict(list)
    for path, text in sources(folder):
        crate = path.split(os.sep)[1]
        for clause in re.finditer(r"^\s*(requires|ensures) (?:\w+ )?\{ (.*) \}$", text, re.M):
            seen[crate, clause.group(1), clause.group(2)].append(path)
    for (crate, kind, clause), places in sorted(seen.items()):
        if len(places) >= 3:
            yield f"{crate}: {len(places)} times {kind} {{ {clause} }}"


def report(title, places, full):
    places = list(places)
    print(f"{title}: {len(places)}")
    if full:
        for place in places:
            print(f"    {place}")


def main():
    given = [a for a in sys.argv[1:] if not a.startswith("--")]
    folder = given[0] if given else "."
    full = "--list" in sys.argv
    for title, pattern in PATTERNS[:4]:
        report(title, lines_like(folder, pattern), full)
    report("2 groups of functions of one shape", twins(folder), full)
    for title, pattern in PATTERNS[4:9]:
        report(title, lines_like(folder, pattern), full)
    report("5 clauses of one text in three or more functions", repeated_clauses(folder), full)
    for title, pattern in PATTERNS[9:]:
        report(title, lines_like(folder, pattern), full)
    proofs = glob.glob(os.path.join(folder, "crates", "*", "proofs", "**", "*.antt"), recursive=True)
    count = 0
    for path in proofs:
        with open(path, encoding="utf-8") as file:
            count += len(file.read().splitlines())
    print(f"8 lines of proofs, in {len(proofs)} files: {count}")


if __name__ == "__main__":
    main()
