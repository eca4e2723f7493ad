#!/usr/bin/env python3
"""Brings the repository's own definitions and lemmas to today's spelling: words in snake case, a dash only where it joins two names.

usage: python3 tools/respell.py [--list]      at the top, once, after the port of the spelling; --list only prints old and new name

Names that Rattle makes (goals, steps), names of src/ and names of the library are left. A name whose new spelling is taken already
is given in TAKEN.
"""

import glob
import re
import sys

# Characters of an antt name.
NAME = re.compile(r"[^\s(){}.,;:\"|\[\]@]+")
DECLARED = re.compile(r"^(\s*)((?:abbrev |unfoldable |pub |record |data )*)([^\s(){}.,;:\"]+)((?: *\([^)]*\)| *\{[^}]*\})*) : (.*)$")
CONSTRUCTOR = re.compile(r"^  ([a-z][^\s(){}.,;:\"]*) : ")
# Words of the library that our lemmas are about.
LIBRARY = "length take drop set map append cons nil replicate get_or zero suc".split()
# New spellings that stood for something else already: a function or a field of src/, or a definition that a lemma is about.
TAKEN = {
    "hasZero": "holds_zero", "drawLine": "draw_line_of", "firstLine": "first_line_of", "refusedLine": "refused_line_of",
    "slotLine": "slot_line_of", "fateOf": "fate_of_place", "finalSlot": "final_slot_of", "isSound": "is_sound_sheet",
    "runBehind": "run_behind_rolls", "wrongSize": "is_wrong_size", "in-range": "is_in_range",
    "sample-bounds": "sample_bounds_lem", "mark-places": "mark_places_lem", "words-behind": "words_behind_lem",
    "all-below": "all_below_lem", "place-of": "place_of_lem", "rolls-behind": "rolls_behind_lem", "seen_read": "seen_read_lem",
}
# Files in which these are fields of a statement, with no such definition beside them.
FIELDS_ALONE = re.compile(r"/Promises\.antt$")


def texts():
    return sorted(glob.glob("crates/*/specs/**/*.antt", recursive=True) + glob.glob("crates/*/proofs/**/*.antt", recursive=True)
                  + glob.glob("crates/*/src/**/*.rt", recursive=True))


def snake(word):
    return re.sub(r"(?<=[a-z0-9])([A-Z])", lambda m: "_" + m.group(1).lower(), word).replace("getD", "get_or")


def declared():
    """The own names, and which of them are functions or constructors (no lemmas)."""
    names, functions, fields = set(), set(LIBRARY), set()
    for path in texts():
        if not path.endswith(".antt"):
            continue
        record = False
        for line in open(path, encoding="utf-8"):
            if re.match(r"(abbrev |unfoldable |pub )*record ", line):
                record = True
            elif line.strip() and not line.startswith(" "):
                record = False
            m = DECLARED.match(line.rstrip("\n"))
            if not m or line.strip().startswith("--"):
                continue
            indent, words, name, _, of = m.groups()
            if name in ("let", "elim", "use", "where", "pub") or of.startswith(("tie.", "{M : Type 1} → statement")):
                continue
            names.add(name)
            if record and indent:
                fields.add(name)
            elif "abbrev" in words or "unfoldable" in words:
                functions.add(name)
    return names, functions, fields


def new_name(name, functions, fields):
    if re.match(r"[A-Z]", name) or not re.match(r"[a-z]", name):
        return name
    if name in TAKEN:
        return TAKEN[name]
    parts = [snake(p) if not p.startswith("getD") else p.replace("getD", "get_or") for p in name.split("-")]
    if name in fields or len(parts) == 1:
        return "_".join(parts)
    if parts[0] not in functions:
        return "_".join(parts)
    new = parts[0]
    for part in parts[1:]:
        new += ("-" if part in functions else "_") + part
    return new


def fallen_together(turned):
    """Files in which two names become one."""
    clashes = []
    for path in texts():
        here = {}
        for word in set(NAME.findall(re.sub(r"--.*|//.*", "", open(path, encoding="utf-8").read()))):
            here.setdefault(turned.get(word, word), []).append(word)
        clashes += [(path, new, olds) for new, olds in here.items() if len(olds) > 1]
    return clashes


def main():
    names, functions, fields = declared()
    functions |= {snake(f) for f in functions}
    turned = {n: new_name(n, functions, fields) for n in sorted(names)}
    turned = {a: b for a, b in turned.items() if a != b}
    clashes = fallen_together(turned)
    if "--list" in sys.argv:
        for a, b in turned.items():
            print(a, b)
        for clash in clashes:
            print("taken:", *clash)
        return
    if clashes:
        print(f"look: {clashes}")
    for path in texts():
        text = open(path, encoding="utf-8").read()
        here = {a: "_".join(a.split("-")) if a in TAKEN and FIELDS_ALONE.search(path) else b for a, b in turned.items()}
        if path.endswith(".rt"):
            # only names that no Rust text can hold, and camel case ones
            new = NAME.sub(lambda m: here.get(m.group(0), m.group(0)) if re.search(r"[A-Z-]", m.group(0)) else m.group(0), text)
        else:
            new = NAME.sub(lambda m: here.get(m.group(0), m.group(0)), text)
        if new != text:
            open(path, "w", encoding="utf-8").write(new)


main()
