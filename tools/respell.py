#!/usr/bin/env python3
"""Brings this repository's own names to snake case, after port.py: definitions and lemmas of specs/ and proofs/ that were written as
`lowerBound` become `lower_bound`, in .antt files, in the clauses of .rt files, in must-fail edits and in the pages. Types, facts and
modules keep their capitals. A lemma that would fall together with the definition that it speaks of gets `_lem`.

usage: python3 tools/respell.py    once, at the top, on what port.py left
"""
import glob
import re

# a lemma, or a constructor, whose name a definition takes in the same file: (name, its new name, the files that mean the lemma)
APART = [
    ("count_by", "count_by_lem", ["store/proofs/Replacing.antt"]),
    ("cut_left", "cut_left_lem", ["merge/proofs/Laws.antt", "trust/proofs/Binding.antt"]),
    ("cut_right", "cut_right_lem", ["merge/proofs/Laws.antt", "trust/proofs/Binding.antt"]),
    ("next_past", "next_past_lem", ["witness_trees/proofs/Words.antt"]),
    ("part_bytes", "part_bytes_lem", ["witness/proofs/Saving.antt", "witness_walks/proofs/Writing.antt"]),
    ("past_words", "past_words_lem", ["witness_trees/proofs/Calls.antt", "witness_trees/proofs/Rules.antt"]),
    ("read_off", "read_off_lem", ["trust/proofs/Roots.antt"]),
    ("top_key", "top_key_lem", ["rb_nodes/proofs/Comparing.antt", "rb_nodes/proofs/Hashing.antt", "rb_nodes/proofs/Heap.antt"]),
    ("value_room", "value_room_lem", ["slots/proofs/Whole.antt"]),
    ("last_bit", "last_bit_set", ["replay/proofs/Reading.antt", "store/proofs/Logs.antt", "store/specs/Log.antt"]),
    ("place_after", "place_after_call", ["witness_reader/proofs/place_after/Proof.antt"]),
]
WORD = re.compile(r"(?<![\w'])[a-zα-ω]\w*(?![\w'])")
WORDS = re.compile(r"(?<![\w'])[a-zα-ω]\w*")


def is_camel(word):
    return re.search(r"[a-z0-9₀-₉][A-Z]", word) is not None


def snake(word):
    return re.sub(r"(?<=[a-z0-9₀-₉])(?=[A-Z])", "_", word).lower()


def read(path):
    with open(path, encoding="utf-8") as f:
        return f.read()


def write(path, text):
    if text != read(path):
        with open(path, "w", encoding="utf-8") as f:
            f.write(text)


def main():
    antt = glob.glob("crates/*/specs/**/*.antt", recursive=True) + glob.glob("crates/*/proofs/**/*.antt", recursive=True)
    source = glob.glob("crates/*/src/*.rt")
    names = {w for p in antt + source for w in WORDS.findall(read(p)) if is_camel(w)}
    for name, other, files in APART:
        for f in files:
            p = "crates/" + f
            t = read(p)
            if p.endswith("/Proof.antt"):
                t = t.replace(" as place_after\n", f" as {other}\n").replace("place_after.", f"{other}.").replace(f"contracts.{other}.", "contracts.place_after.").replace(f"proofs.{other}.", "proofs.place_after.")
            else:
                t = re.sub(r"(?<![\w'.\-])" + name + r"(?![\w'\-])", other, t)
            write(p, t)
    pages = glob.glob("docs/**/*.md", recursive=True) + ["README.md"] + glob.glob("crates/*/must-fail/*.edit")
    for p in antt + source + pages:
        write(p, WORDS.sub(lambda m: snake(m.group(0)) if m.group(0) in names else m.group(0), read(p)))
    print(f"{len(names)} names")


if __name__ == "__main__":
    main()
