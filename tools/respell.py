#!/usr/bin/env python3
"""Brings the repository's own definitions and lemmas to one spelling.

usage: python3 tools/respell.py [--dry]     at the top of the repository, once, right after the kit's port.py

Words are in snake case and types in camel case: `branchAnswers` becomes `branch_answers`. A hyphen stays only
in a lemma that is named for its left side, so only between words that are definitions themselves
(`length-ring`); every other lemma is one word, in snake case. Only names that this repository declares in its
specs/ and proofs/ are touched, and in .rt files only the lines that antt reads. Functions, strings, inputs,
outputs and the names that the prover makes stay. Two names that would fall together are refused.
"""

import collections
import os
import re
import sys

NAME = r"[A-Za-z_][A-Za-z0-9_'\-]*"
TOKEN = re.compile(r"(?<![A-Za-z0-9_'\-])" + NAME)
DECLARED = re.compile(
    r"^\s*(?:(?:abbrev|unfoldable|pub|data|record|mutual)\s+)*(" + NAME + r")((?:\s*[({][^(){}]*[)}])*)\s*:(?!:)(.*)$"
)
LIBRARY_WORDS = set(
    "length append take drop set map push le lt add suc cond not or and max min filter cons nil get_or mod shr".split()
)
# names that would fall together with another, or with a name of the prover's or the library's, and what they become
BY_HAND = {
    "bare-bit": "bare_bit-same",
    "bare-reading": "bare_reading-same",
    "each_at": "each_at-index",
    "height-of": "height-term_of",
    "names-of": "name_set-term_of",
    "start-value": "eval-start_term",
    "term-at": "term_at-ordered",
    "term-value": "eval-term_value",
    "bit-or": "bit_or-bit",
    "body-length": "length-body_of",
    "or-none": "or-false_right",
    "same-literal": "literals_equal",
    "stays-next": "stays-at_next",
    "getD-none": "get_or-none_inside",
    "prefix-getD": "prefix-get_or",
    "hasClaim": "contains_claim",
    "hasInput": "contains_input",
    "hasQuestion": "contains_question",
    "is-low": "cut_low",
    "is-nameless": "cut_nameless",
    "is-cut": "cut_once_more",
}
# fields of our own records; any other name behind a dot is a step's, which the prover makes
FIELDS = {"meaning-small", "values-small"}
TOOLS_OWN = re.compile(r"^(returns|loop|ensures|requires|invariant|measure|then|else|in)-")


def files(ending):
    for folder, dirs, names in os.walk("crates"):
        dirs[:] = sorted(d for d in dirs if d != "out")
        for n in sorted(names):
            if n.endswith(ending):
                yield os.path.join(folder, n)


def read(path):
    with open(path, encoding="utf-8") as f:
        return f.read()


def declared():
    """Every name that a file of specs/ or proofs/ declares, and which of them are definitions."""
    names, words = collections.defaultdict(set), set(LIBRARY_WORDS)
    for path in files(".antt"):
        for line in read(path).split("\n"):
            if line.strip().startswith("--"):
                continue
            if line.startswith("use "):
                for a in re.findall(r" as (" + NAME + ")", line):
                    if a != "goal" and not TOOLS_OWN.match(a):
                        names[a].add(path)
                continue
            local = re.match(r"^\s*let (" + NAME + r")( :| =)", line)
            if local:
                names[local.group(1)].add(path)
            found = DECLARED.match(line)
            if found and ": goal." not in line:
                names[found.group(1)].add(path)
                if "/specs/" in path and re.match(r"^(abbrev|unfoldable) ", line):
                    words.add(found.group(1))
    return names, words


def snake(word):
    if not word[:1].islower():
        return word
    return re.sub(r"([a-z0-9])([A-Z])([A-Z]*)", lambda m: m.group(1) + "_" + m.group(2).lower() + m.group(3), word)


def respelt(name, words):
    if name in BY_HAND:
        return BY_HAND[name]
    parts = name.split("-")
    if len(parts) > 1 and TOOLS_OWN.match(name):
        return name
    if any(p[:1].isupper() for p in parts):
        return name
    if len(parts) > 1 and all(p in words for p in parts):
        return "-".join(snake(p) for p in parts)
    return "_".join(snake(p) for p in parts)


def imported():
    """Names that come from the library, which keep their spelling."""
    found = set()
    for path in list(files(".antt")) + list(files(".rt")):
        for m in re.finditer(r"use (?:Rattle\.(?:std|core)\.|borrow\.|mathlib\.|Prim\.|lib\.|native\.)[\w.]*\.?\{([^}]*)\}", read(path)):
            for part in m.group(1).split(","):
                found.add(part.strip().split(" as ")[0])
    return found


def in_antt(text, changes):
    def turn(m):
        before = text[m.start() - 1 : m.start()]
        two = text[max(0, m.start() - 2) : m.start()]
        projection = before == "." and re.match(r"[A-Za-z0-9_')\]]\.", two)
        if projection and "-" in m.group(0) and m.group(0) not in FIELDS:
            return m.group(0)
        return changes.get(m.group(0), m.group(0))

    return TOKEN.sub(turn, text)


def in_rust(text, changes):
    out, depth = [], 0
    for line in text.split("\n"):
        starts = re.match(r"^\s*(ghost|requires|ensures)\b", line)
        if starts or depth > 0:
            out.append(in_antt(line, changes))
            depth += line.count("{") - line.count("}")
            depth = max(depth, 0)
        else:
            out.append(line)
    return "\n".join(out)


def main():
    names, words = declared()
    kept = imported()
    changes = {}
    for n in sorted(names):
        to = respelt(n, words)
        if to != n and n not in kept:
            changes[n] = to
    used = set(names) - set(changes)
    together = collections.defaultdict(set)
    for n, to in changes.items():
        together[to].add(n)
    bad = 0
    for to, olds in sorted(together.items()):
        if len(olds) > 1 or to in used or to in kept:
            bad += 1
            print("fall together:", to, sorted(olds), "(used)" if to in used else "")
    if "--dry" in sys.argv:
        for n, to in sorted(changes.items()):
            print(n, "->", to)
        return 0
    if bad:
        return 1
    for path in files(".antt"):
        old = read(path)
        new = in_antt(old, changes)
        if new != old:
            with open(path, "w", encoding="utf-8") as f:
                f.write(new)
    for path in files(".rt"):
        old = read(path)
        new = in_rust(old, changes)
        if new != old:
            with open(path, "w", encoding="utf-8") as f:
                f.write(new)
    print(f"{len(changes)} names respelt")
    return 0


if __name__ == "__main__":
    sys.exit(main())
