#!/usr/bin/env python3
"""Brings the names of definitions and lemmas to snake case: `linesPass` becomes `lines_pass`.

usage: python3 tools/respell.py      at the top of the repository

Types, facts and modules, which begin with a capital, keep their names. So do functions of src/, fields of their structs and texts in quotes.
A lemma that would fall together with the definition that it is about gets `_lem` first. What a file calls the module of any message type,
`Any`, is `AnyType`, since the kit's library has a word of that name.
"""

import glob
import re
import subprocess

CAMEL = re.compile(r"(?<![A-Za-z0-9_\\])[a-z][a-z0-9]*(?:[A-Z][a-z0-9]*)+(?![A-Za-z0-9_])")
ALIAS = re.compile(r"\bAny(?=\.)|(?<=\bas )Any\b")
NUMBERED = re.compile(r"(?<=[a-z0-9])([A-Z])")
QUOTED = re.compile(r'"(?:[^"\\\n]|\\.)*"')

# The lemmas that have, in snake case, the name of a definition that stands in the same file.
LEMMAS = {
    "any_field": ["format/proofs/Grows.antt"],
    "at_slots": ["format/proofs/Values.antt"],
    "field_in": ["field/proofs/Cases.antt", "pool_field/proofs/Cases.antt", "answer_field/proofs/Cases.antt"],
    "fields_in": ["field/proofs/Cases.antt", "pool_field/proofs/Cases.antt", "answer_field/proofs/Cases.antt"],
    "is_digit": ["digits/proofs/Laws.antt"],
    "number_fits": ["unpacked/proofs/Back.antt"],
    "text_at": ["layout/proofs/Laws.antt", "layout/proofs/row_text/Proof.antt", "fill/proofs/Rows.antt", "fitting/proofs/Glimpses.antt"],
}


def snake(name):
    return NUMBERED.sub(lambda m: "_" + m.group(1).lower(), name)


def outside_quotes(turn, text):
    kept, at, out = list(QUOTED.finditer(text)), 0, []
    for q in kept:
        out += [turn(text[at : q.start()]), q.group()]
        at = q.end()
    return "".join(out + [turn(text[at:])])


def main():
    for name, files in LEMMAS.items():
        for f in files:
            with open("crates/" + f, encoding="utf-8") as it:
                text = it.read()
            # what Rattle names after the function of that name stands behind a dot
            turned = re.sub(r"(?<![A-Za-z0-9_.-])" + name + r"(?![A-Za-z0-9_-])", name + "_lem", text)
            with open("crates/" + f, "w", encoding="utf-8") as it:
                it.write(turned)
    for f in sorted(glob.glob("crates/**/*.antt", recursive=True) + glob.glob("crates/**/*.rt", recursive=True)):
        with open(f, encoding="utf-8") as it:
            text = it.read()
        turned = outside_quotes(lambda s: ALIAS.sub("AnyType", CAMEL.sub(lambda m: snake(m.group()), s)), text)
        if turned != text:
            with open(f, "w", encoding="utf-8") as it:
                it.write(turned)
    for crate in sorted(glob.glob("crates/*/")):
        subprocess.run(["rt", "fmt"], cwd=crate, check=True, stdout=subprocess.DEVNULL)


main()
