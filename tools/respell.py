#!/usr/bin/env python3
"""Respells the names of this repository's own definitions and lemmas, once, right after the toolchain's port.py.

usage: python3 tools/respell.py            at the top of the repository

Words are in snake case: netsOf is nets_of, and a record's field on-end is on_end. A lemma keeps a dash between its parts, as it had:
place_here, which port.py made of place-here, is place-here again. Names of the library and of src/ stay. A name that would fall
together with another one of its file stops the script before anything is written.
"""
import glob
import re
import sys

TOKEN = re.compile(r"[^\s(){}\[\];,.:`\"λ∷×→↦¬¿?=|]+")
CAMEL = re.compile(r"[a-z][a-z0-9]*(?:[A-Z][a-z0-9]*)+'*")
# fields of records in specs/ that had a dash
FIELDS = {"on-end": "on_end", "on-place": "on_place", "text-is": "text_is"}
# a name that an import gives
ALIASES = {"twoWay": "two_way"}
# lemmas that had a dash before port.py
LEMMAS = """place_here close_open start_back row_back settled_back same_some place_none both_below kept_there line_first no_ok same_ok
then_ok found_below not_found cells_stay first_goes gives_goes near_before open_gives follows_itself open_stays row_before row_room
row_within same_place both_true one_more works_out at_open one_at by_bits put_one target_is same_length fits_not as_long same_end
same_out puts_then ne_same name_free all_more not_some value_there valued_back field_back first_back from_some same_line with_first
never_first has_first row_has lines_none is_some small_is then_some two_digits read_ok fits_read pick_more pick_all no_frames next_row
held_fits laid_more laid_none field_is after_is place_in goes_back cover_all not_covered too_short""".split()


def snake(name):
    return re.sub(r"(?<=[a-z0-9])([A-Z])", lambda m: "_" + m[1].lower(), name)


def library(text):
    """The names that a file takes from the library."""
    names = set()
    for m in re.finditer(r"use Rattle\.std\.[\w.]*\{([^}]*)\}", text):
        names |= {w for part in m[1].split(",") for w in part.split() if w != "as"}
    return names


def code(path, line):
    """Whether names of definitions stand in this line: proofs and specs everywhere, src/ in clauses and ghost lines alone."""
    return path.endswith(".antt") or re.search(r"\b(ghost|requires|ensures)\b|^\s+[^/]*[λ≡→]", line)


def defined(path, text):
    """The lemmas and local names that a proof file or a file of specs/ declares."""
    return set(re.findall(r"(?m)^\s*(?:pub |abbrev |abbrev pub |unfoldable pub )?([a-z][^\s(){}:;,]*) ?(?:\{[^}]*\} ?|\([^)]*\) ?)*: ", text))


def main():
    paths = sorted(glob.glob("crates/*/specs/*.antt") + glob.glob("crates/*/proofs/**/*.antt", recursive=True) + glob.glob("crates/*/src/*.rt"))
    texts = {p: open(p, encoding="utf-8").read() for p in paths}
    own = set()
    for p, t in texts.items():
        if re.fullmatch(r"crates/\w+/(specs|proofs)/\w+\.antt", p):
            own |= defined(p, t)
    lemmas = {x for x in LEMMAS if x in own}
    for x in set(LEMMAS) - lemmas:
        sys.exit(f"respell: no lemma {x}")
    done = {}
    for p, t in texts.items():
        std = library(t)
        words = set(TOKEN.findall(t))
        table = {}
        for w in words:
            if w in std:
                continue
            if w in own and CAMEL.fullmatch(w):
                table[w] = snake(w)
            elif w in ALIASES:
                table[w] = ALIASES[w]
            elif w in FIELDS:
                table[w] = FIELDS[w]
            elif w in lemmas and p.endswith(".antt") and "/proofs/" in p:
                table[w] = w.replace("_", "-")
        for w, n in table.items():
            if n in std or (n in words and p.endswith(".antt")):
                sys.exit(f"respell: in {p} {w} would fall together with {n}")
        lines = t.split("\n")
        for i, l in enumerate(lines):
            if code(p, l):
                lines[i] = TOKEN.sub(lambda m: table.get(m[0], m[0]), l)
        done[p] = "\n".join(lines)
    n = 0
    for p, t in done.items():
        if t != texts[p]:
            open(p, "w", encoding="utf-8").write(t)
            n += 1
    print(f"respell: {n} files")


main()
