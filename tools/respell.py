#!/usr/bin/env python3
"""Respells the repository's own definitions, fields and lemmas to snake case, once, behind port.py.

usage: python3 tools/respell.py     at the top of the repository, on what port.py has written

Words are in snake case (placeInRange is place_in_range). Where that is the name of a function, a field or a local of a file that also
names the definition, the definition ends in _lem. Names of src/, exported names and strings are in snake case already or stay.
"""
import glob
import re

WORD = r"(?<![\w'◌-])%s(?![\w'-])"
CAMEL = re.compile(r"(?<![\w'◌-])[a-z][\w'-]*[a-z0-9][A-Z][\w'-]*")

# Not names of definitions: a test's text, and a name that the check itself made.
KEPT = {"mwMW", "no_Header"}

# Their snake case stands beside them as the name of a function, a field, a parameter or a lemma.
LEM = set(
    """countFits goodLabels goodMarks goodPlaces hasStrayBit headerInRange inFont leftOut lengthInRange longestBeginning noneOver
    otherSide ownSide placeInRange placeOf sameLengths stepAt textAt weightInRange weightOf""".split()
)

# Names of a file that would fall together with a definition's: FILE -> {NAME: NEW NAME}, taken before the others.
IN_FILE = {
    "crates/geometry/proofs/Beginnings.antt": {"end_below": "end_below_lem"},
    "crates/geometry/proofs/Reaches.antt": {"end_below": "end_below_lem"},
    "crates/full/proofs/Filling.antt": {"no_bound": "no_bound_held", "row_before": "row_before_lem"},
    "crates/full/proofs/Rows.antt": {"row_before": "row_before_lem"},
    "crates/slide/proofs/RowByRow.antt": {"row_before": "row_before_lem"},
    "crates/slide/proofs/PlainMarks.antt": {"plain_at": "plain_at_lem"},
    "crates/full/specs/inner/SixteenBits.antt": {"right_end": "right-end"},
    "crates/full/proofs/EndsHeld.antt": {"right_end": "right-end"},
    # a list that is handed in, and no definition
    "crates/listing/proofs/StripText.antt": {"leftOut": "left_out"},
    "crates/listing/specs/inner/Lines.antt": {"leftOut": "left_out"},
}


def snake(name):
    if name in LEM:
        return snake_words(name) + "_lem"
    return snake_words(name)


def snake_words(name):
    return re.sub(r"(?<=[a-z0-9])([A-Z])", lambda m: "_" + m.group(1).lower(), name)


def replaced(text, old, new):
    return re.sub(WORD % re.escape(old), new, text)


def respell(path, text):
    for old, new in IN_FILE.get(path, {}).items():
        text = replaced(text, old, new)
    return CAMEL.sub(lambda m: m.group() if m.group() in KEPT else snake(m.group()), text)


def main():
    paths = sorted(p for end in ("antt", "rt", "edit") for p in glob.glob("crates/**/*." + end, recursive=True))
    for path in paths:
        with open(path, encoding="utf-8") as f:
            text = f.read()
        new = respell(path, text)
        if new != text:
            with open(path, "w", encoding="utf-8") as f:
                f.write(new)


main()
