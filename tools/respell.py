#!/usr/bin/env python3
"""Turns this repository's own definitions and lemmas to snake case, once, right after port.py.

usage: tools/respell.py        at the top: rewrites .antt and .rt files under crates/ in place

A word in lower camel case (roundUp, bytesOf-back) becomes snake case (round_up, bytes_of-back). Types, modules and the names of the code keep their spelling: the code has
no word in lower camel case. Where the new name would fall together with a field or a crate, or a lemma with its function, EXTRA and LEMMAS say what is written instead.
"""
import os
import re

# the plain spelling is a field of a struct, or a crate
EXTRA = {"firstGpr": "first_gpr_of", "firstFpr": "first_fpr_of", "savesCr": "saves_cr_of", "planText": "plan_text_of", "planWords": "plan_words_of"}
# a lemma that would have its function's name gets _lem: file, lemma
LEMMAS = [
    ("plan_stored_items/proofs", "copy_run"), ("call_roundtrip/proofs/Views.antt", "float_value"), ("call_slots/proofs/Planned.antt", "in_image"),
    ("call_read/proofs/Accepted.antt", "in_image"), ("call_fill/proofs/Accepted.antt", "in_image"), ("both_whole_call/proofs", "in_image"), ("call_home/proofs", "in_image"),
    ("call_roundtrip/proofs", "in_image"), ("call_roundtrip/proofs/Views.antt", "narrowed_bytes"), ("call_read/proofs/floats_agree", "own_held"),
    ("call_read/proofs/Agree.antt", "own_held"), ("call_arguments/proofs/Kept.antt", "room_of"), ("plan_stored/proofs/Outcomes.antt", "same_bytes"),
    ("call_walker/proofs", "step_value"),
]
CAMEL = re.compile(r"(?<![A-Za-z0-9_])[a-z][a-z0-9]*(?:[A-Z][A-Za-z0-9]*)+(?![A-Za-z0-9_])")


def snake(word):
    if word in EXTRA:
        return EXTRA[word]
    word = re.sub(r"([a-z0-9])([A-Z])", r"\1_\2", word)
    return re.sub(r"([A-Z])([A-Z][a-z])", r"\1_\2", word).lower()


def turned(text):
    return CAMEL.sub(lambda m: snake(m.group(0)), text)


def main():
    top = os.path.join(os.path.dirname(os.path.dirname(os.path.abspath(__file__))), "crates")
    for folder, _, files in os.walk(top):
        for name in files:
            path = os.path.join(folder, name)
            if not name.endswith((".antt", ".rt")):
                continue
            with open(path, encoding="utf-8") as f:
                text = f.read()
            new = text
            for where, lemma in LEMMAS:
                if where in path:
                    new = re.sub(r"(?<![\w.'-])" + lemma + r"(?![\w'-])", lemma + "_lem", new)
            new = turned(new)
            if new != text:
                with open(path, "w", encoding="utf-8") as f:
                    f.write(new)


if __name__ == "__main__":
    main()
