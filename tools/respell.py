#!/usr/bin/env python3
"""Respells this repository's own definitions and lemmas: words in snake case, types and modules in camel case, a prime as an apostrophe.

usage: python3 tools/respell.py        at the top of the repository, once, after the toolchain's own script

Names are taken from the declarations of specs/ and proofs/, and changed wherever they stand as whole words: in .antt files, in the clauses and the
`ghost use` lines of .rt files, in must-fail edits, and between backquotes in README.md and docs/. A dash stays where it joins the names of two functions.
Functions of src/, exported C names, strings, inputs and outputs keep their names. Two names that would fall together: the lemma takes `_lem`.
"""

import glob
import re
import sys

WORD = re.compile(r"[A-Za-z_][A-Za-z0-9_']*(?:-[A-Za-z0-9_']+)*")
HEAD = re.compile(r"^(?:(?:pub|abbrev|unfoldable|data|record|ruleset)\s+)*([A-Za-z][A-Za-z0-9_'-]*)(?:\s+[({][^)}]*[)}])*\s*:\s")
INNER = re.compile(r"^\s+(?:pub\s+)?([A-Za-z][A-Za-z0-9_'-]*)(?:\s+\([^)]*\))*\s*:\s")
OTHERS = {"aRecord": "a_record", "firstAnswers": "first_answers", "getD-later": "get_or_later", "closes_well": "ClosesWell", "closesWell": "ClosesWell", "Space": "SPACE", "Plus": "PLUS", "Tab": "TAB"}
JOINED = {"append", "length", "shift", "take", "drop", "map", "cons", "slice"}
STD = {"map", "take", "drop", "slice", "length", "append", "set"}
# What the toolchain's script had respelled already in .rt and .antt files, and in no other: spelled so there too.
TURNED = """
add-at afterOf agree-less all-back all-seen allBytes answerIn answerOf at-fill between-first boundsOf by-bytes by-end byte-past byteAt bytesOf call-step callBy
calls-back code-is count-gives count-spec digits-last end-is endOf ended-is endedOf ends-on enum-told falls-below fill-is finish-spec first-reads firstOf
fits-one freshOf front-of getD-past goes-on hand-of head-spec headOf held-same heldOf idOf inC isEmpty isHeld isRefused keep-append keep-high keep-low
kept-append kindOf laid-more laid-none laid-on leftOf lent-back less-one line-on lineAt listedOf look-spec look-stop lookOf map-back more-within mul-at near-by
next-one next-start nextOf numberIn numberOf one-answer one-more one-spec open-is open-spec or-left own-back part-at part-length placesOf plus-one position-some
positionOf put-is put-spec putOf rangeOf restOf rowIn rowsOf run-spec same-length same-line second-reads seen-low set-keeps sets-over sizeOf stands-good
stands-read stateOf step-count step-end step-is step-left step-less step-spec stepOf sub-held table-is tableOf take-within takenOf tallyOf textOf then-next
to-one turn-at value-grows valuesOf viewOf whole-is whole-join wordOf write-done
""".split()
LEMMAS = {"byte-at", "trim-cr", "notes-from", "front-of", "front_of", "next-start", "next_start", "unchanged-bytes"}


def is_camel(name):
    return name[0].islower() and re.search(r"[a-z0-9][A-Z]", name) is not None


def snake(name):
    return re.sub(r"([a-z0-9])([A-Z])", lambda m: m[1] + "_" + m[2].lower(), name)


def files(*patterns):
    return sorted(f for p in patterns for f in glob.glob(p, recursive=True) if "/out/" not in f)


def declared():
    """The names declared at the top of a file, those declared inside, and which of the first are definitions."""
    top, inner, definitions = {}, set(), set()
    for f in files("crates/*/specs/**/*.antt", "crates/*/proofs/*.antt"):
        with open(f, encoding="utf-8") as it:
            for line in it:
                if m := HEAD.match(line):
                    top.setdefault(m[1], set()).add(f)
                    if "/specs/" in f or re.match(r"(?:pub )?(?:abbrev|unfoldable)", line):
                        definitions.add(m[1])
                elif m := INNER.match(line):
                    inner.add(m[1])
    return top, inner, definitions


def library():
    """Names that files import from elsewhere: they stay."""
    names = set()
    for f in files("crates/*/specs/**/*.antt", "crates/*/proofs/**/*.antt", "crates/*/src/**/*.rt"):
        with open(f, encoding="utf-8") as it:
            for m in re.finditer(r"use ([^\s{}]+)\.\{([^}]*)\}", it.read()):
                if not m[1].startswith("Rattle.") or m[1].startswith(("Rattle.std.", "Rattle.core.")):
                    names |= set(WORD.findall(m[2]))
    return names


def renamed(name, definitions):
    if "-" not in name:
        return snake(name)
    first, _, last = name.rpartition("-")
    if last in JOINED and (first in definitions or first in STD):
        return snake(first) + "-" + last
    return snake(name).replace("-", "_")


def clauses(text, change):
    """A source file with its clauses and its `ghost` lines changed."""
    out, depth, inside = [], 0, False
    for line in text.split("\n"):
        begins = re.match(r"\s*(requires|ensures|ghost)\b", line)
        if begins and not inside:
            inside, depth = True, 0
        if inside:
            out.append(change(line))
            depth += line.count("{") - line.count("}")
            inside = depth > 0
        else:
            out.append(line)
    return "\n".join(out)


def main():
    top, inner, definitions = declared()
    kept = library()
    table = {}
    for name in set(top) | inner:
        if name in kept:
            continue
        if is_camel(name) or "-" in name or name in LEMMAS:
            table[name] = renamed(name, definitions)
    for name in LEMMAS & set(top):
        if name not in definitions:
            table[name] = renamed(name, definitions) + "_lem"
    table |= OTHERS
    tops = {}
    for name in top:
        tops.setdefault(table.get(name, name), set()).add(name)
    for new, olds in tops.items():
        if len(olds) > 1:
            print(f"fall together: {new}: {sorted(olds)}")

    outside = {name: renamed(name, definitions) for name in TURNED} | table

    def change(text, names=table):
        return WORD.sub(lambda m: names.get(m[0], m[0]), text).replace("Told·offset", "told_offset")

    count = 0
    for f in files("crates/*/specs/**/*.antt", "crates/*/proofs/**/*.antt", "crates/*/src/**/*.rt", "crates/*/must-fail/*.edit", "README.md", "docs/*.md"):
        with open(f, encoding="utf-8") as it:
            old = it.read()
        if f.endswith(".rt"):
            new = clauses(old, change)
        elif f.endswith(".md"):
            new = re.sub(r"`[^`\n]*`", lambda m: change(m[0], outside), old)
        elif f.endswith(".edit"):
            new = "\n".join(change(l, outside) if re.match(r"(old|new):", l) and (".antt" in old or re.search(r"requires|ensures|ghost", l)) else l for l in old.split("\n"))
        else:
            new = change(old)
        if f.endswith("reading/specs/Bytes.antt") or re.search(r"use Rattle\.reading\.specs\.Bytes\.\{[^}]*\bAt\b", new):
            new = re.sub(r"(?<![.])\bAt\b", "AT", new)
        if f.startswith("crates/text/"):
            new = re.sub(r"\bZero\b", "ZERO", new)
        if new != old:
            count += 1
            with open(f, "w", encoding="utf-8") as it:
                it.write(new)
    print(f"{len(table)} names, {count} files")
    left = set()
    for f in files("crates/*/specs/**/*.antt", "crates/*/proofs/**/*.antt", "crates/*/src/**/*.rt"):
        with open(f, encoding="utf-8") as it:
            t = it.read()
        for w in WORD.findall(t):
            if is_camel(w) or ("-" in w and w not in kept and "/Proof.antt" not in f):
                left.add(w)
    print("as they were:", " ".join(sorted(left)))


if __name__ == "__main__":
    sys.exit(main())
