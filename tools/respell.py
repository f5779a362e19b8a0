#!/usr/bin/env python3
"""Respells this repository's own definitions and lemmas: words in snake case, types and facts in upper camel case.

usage: python3 tools/respell.py [FOLDER]     in the repository (or FOLDER), once, after the kit's port.py

A dash between two words of a name becomes an underscore, and a name that begins with a capital loses its dashes. A dash that joins
two names, as in `length-twos`, stays (JOINED). A fact, that is a definition whose value is a type, is spelled as a type (FACTS), in the
files that define or import it. Names of the kit and names that the checker makes of the code are left alone. In .rt files only clauses
and ghost lines are touched; in Markdown only what stands between backticks. The script stops where two words would fall together; of facts
it looks at nothing of the kind.
"""

import glob
import os
import re
import sys

OWN = ("slide", "reach", "frame", "encoding", "codec", "text")

# Names in which a dash joins two names.
JOINED = {
    "after-all-++": "after_all-++", "can-all-++": "can_all-++", "times-++": "times_in-++",
    "length-twos": "length-twos", "length-words": "length-words", "length-zeros": "length-zeros",
    "twos-words": "twos-words", "words-twos": "words-twos", "twos-append": "twos-append",
    "bytes-twos": "Bytes-twos", "bytes-zeros": "Bytes-zeros", "getD-zeros": "get_or-zeros", "get_d_words": "get_or-words",
}

# Definitions whose value is a type, by the module that defines them.
FACTS = {
    "slide.specs.Tiles": {"brings": "Brings"},
    "slide.specs.Calls": {
        "solved-by": "SolvedBy", "solvable": "Solvable", "unsolvable": "Unsolvable", "fewest": "Fewest",
        "may-say": "MaySay", "right-if": "RightIf", "right": "IsRight",
    },
    "slide.specs.Promise": {"all_right": "AllRight", "all-right": "AllRight"},
    "frame.specs.Cells": {
        "fits-at": "FitsAt", "first-misfit": "FirstMisfit", "misfits": "Misfits", "stands": "Stands", "first-missing": "FirstMissing",
        "tells": "Tells", "signed_by": "SignedBy", "signed-by": "SignedBy", "decided-by": "DecidedBy", "mended-by": "MendedBy",
    },
    "encoding.specs.CallBytes": {"call_fits": "CallFits", "call-fits": "CallFits"},
    "encoding.specs.AnswerBytes": {"answer-fits": "AnswerFits"},
    "codec.specs.Meaning": {"part_of": "PartOf", "part-of": "PartOf", "has_room": "HasRoom", "has-room": "HasRoom"},
    "text.specs.Judged": {"judged": "Judged"},
    "text.specs.Taken": {"taken": "Taken"},
    "text.specs.Flaws": {"flawed": "Flawed"},
    "text.specs.Rows": {
        "says": "Says", "numbers": "Numbers", "misread": "Misread", "word-fault": "WordFault", "comment": "IsComment",
        "passed": "IsPassed", "holds": "HoldsRow", "goes_on": "GoesOn", "goes-on": "GoesOn", "row-fault": "RowFault", "line-fault": "LineFault",
    },
}

# How the checker's own names begin.
MADE = ("returns-", "loop-", "invariant-", "decreases-", "in-", "then-", "else-", "if-", "overflow", "bounds-", "nonzero", "type-inv", "field-", "match-")

WORD = r"A-Za-z0-9_'ℕ"
BEFORE, BEHIND = rf"(?<![{WORD}.-])", rf"(?![{WORD}-])"
TOKEN = re.compile(rf"{BEFORE}([A-Za-z][{WORD}]*(?:-[{WORD}+]+)+)")
USE = re.compile(r"use ([\w.]+)\.\{([^}]*)\}")


def module(path):
    """The module of a file of specs/ or proofs/, as slide.specs.Tiles."""
    parts = path.split("/")
    return ".".join(parts[parts.index("crates") + 1 :]).removesuffix(".antt")


def imports(text):
    for where, names in USE.findall(text):
        yield where.removeprefix("Rattle."), [n.split(" as ")[0].strip() for n in names.split(",")]


def ghost_parts(text):
    """Where the clauses and ghost lines of a .rt file are."""
    for m in re.finditer(r"ghost use [^;]*;|\b(?:ensures|requires)\b[^{\n]*\{|\bghost \w+[^{;\n]*\{", text):
        end = m.end()
        if m.group().endswith("{"):
            depth = 1
            while depth:
                depth += {"{": 1, "}": -1}.get(text[end], 0)
                end += 1
        yield m.start(), end


def within(text, parts, turn):
    out, at = [], 0
    for a, b in parts:
        if a >= at:
            out += [text[at:a], turn(text[a:b])]
            at = b
    return "".join(out + [text[at:]])


def respelled(name):
    if name in JOINED:
        return JOINED[name]
    if name[0].isupper():
        return "".join(w[0].upper() + w[1:] for w in name.split("-"))
    return name.replace("-", "_")


def code(text):
    return re.sub(r"(--|//)[^\n]*", "", text)


def main():
    os.chdir(sys.argv[1] if len(sys.argv) > 1 else ".")
    paths = [p for c in OWN for p in sorted(glob.glob(f"crates/{c}/**/*", recursive=True)) if p.endswith((".antt", ".rt")) and "/out/" not in p]
    texts = {p: open(p, encoding="utf-8").read() for p in paths}
    kit = {n for t in texts.values() for where, names in imports(t) if where.split(".")[0] not in OWN for n in names}
    lemmas = [p for p in paths if re.fullmatch(r"crates/\w+/(specs|proofs)/\w+\.antt", p)]
    own = set(JOINED) - kit
    for p in lemmas:
        own |= {n for n in TOKEN.findall(code(texts[p])) if n not in kit and not n.startswith(MADE)}
        own |= {n for n in re.findall(r"^\s*(?:pub |abbrev |unfoldable )*(in-\w+) :", texts[p], re.M)}
    facts_of = {}
    for p in paths:
        facts = dict(FACTS.get(module(p), {})) if p.endswith(".antt") else {}
        for where, _ in imports(texts[p]):
            facts |= FACTS.get(where, {})
        facts_of[p] = facts
    fact_names = {n for f in FACTS.values() for n in f}
    words = {n: respelled(n) for n in own if n not in fact_names}
    taken = {}
    for n, to in words.items():
        taken.setdefault(to, set()).add(n)
    fall = {to: ns for to, ns in taken.items() if len(ns) > 1 or (to not in ns and any(re.search(rf"^\s*(?:pub |abbrev |unfoldable )*{re.escape(to)} :", texts[p], re.M) for p in lemmas))}
    if fall:
        print(f"respell: these would fall together: {fall}", file=sys.stderr)
        return 1
    for p, text in texts.items():
        names = words | facts_of[p]
        for n in fact_names - set(facts_of[p]):
            if "-" in n and n in own:
                names[n] = respelled(n)
        pattern = re.compile(BEFORE + "(" + "|".join(sorted(map(re.escape, names), key=len, reverse=True)) + ")" + BEHIND)
        fields = re.compile(rf"(?<=\w)\.(" + "|".join(sorted((re.escape(n) for n in names if "-" in n), key=len, reverse=True)) + ")" + BEHIND)

        def turn(part):
            part = pattern.sub(lambda m: names[m.group(1)], part)
            return part if "/proofs/" in p and p not in lemmas else fields.sub(lambda m: "." + names[m.group(1)], part)

        def turn_lines(text):
            return "".join(turn(a) + b for a, b in re.findall(r"((?:(?!--|//)[^\n])*)((?:(?:--|//)[^\n]*)?\n?)", text))

        new = within(text, list(ghost_parts(text)), turn_lines) if p.endswith(".rt") else turn_lines(text)
        if new != text:
            with open(p, "w", encoding="utf-8") as f:
                f.write(new)
    plain = {n: t for n, t in words.items()} | {n: t for f in FACTS.values() for n, t in f.items() if "-" in n}
    for p in ["README.md"] + sorted(glob.glob("docs/*.md")):
        text = open(p, encoding="utf-8").read()
        new = re.sub(r"`([^`\n]+)`", lambda m: "`" + plain.get(m.group(1), m.group(1)) + "`", text)
        if new != text:
            with open(p, "w", encoding="utf-8") as f:
                f.write(new)
    print(f"respell: {len(words)} words and {sum(map(len, FACTS.values()))} facts")
    return 0


if __name__ == "__main__":
    sys.exit(main())
