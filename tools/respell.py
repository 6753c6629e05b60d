#!/usr/bin/env python3
"""Gives the repository's own definitions and lemmas the spelling of today's Rattle.

usage: python3 tools/respell.py      at the top of the repository, once, right after the toolchain's port.py

Words are in snake case, types and modules in camel case; a dash stays where a lemma's name joins the names of two
definitions. It goes by text, over specs/, proofs/ and what src/ says in ghost text. Functions of src/ keep their names.
It stops, and writes nothing, where two names would fall together in a file.
"""

import os
import re
import sys

# new name: old names with every '_' as a dash, unless given
PLAIN = """
ahead_is all_the_same all_within at_end bit_mono byte_bit by_sum by_weight collected_all collected_more collected_whole
comes_before energies_are first_along first_itself first_larger floor_is flowed_curtailed flowed_else
flowed_no_kw folded_within handed_all handed_back handed_step handed_suc hour_length in_full in_hour in_sizes
interval_weight lacks_is largest_remainder largest_remainder_exact largest_remainder_lawful largest_remainder_nothing
largest_remainder_size largest_remainder_written left_are left_long lt_b lt_c ltb_same message_of missing_is missing_le
most_kw most_pool most_telemetry most_total most_weight most_weights no_weight on_curtailed on_no_kw on_no_telemetry
on_telemetry only_no_weight part_from_0 pool_is pool_of product_q product_r ranked_below reached_all reached_more
reached_none refused_back refused_hour remainders_are remainders_le remainders_long rest_is rounded_down rounds_down
running_exact running_lawful running_nothing running_size running_written same_handed same_hour same_tags
shareable_back shared_as shared_hour size_from size_le sized_none sized_some sizes_all sizes_are sizes_long sizes_near
so_far_none split_sum sum_all sum_upto tags_long tags_of take_front tally_le tally_mono tally_more tally_same
tally_strict told_handed total_more total_none total_some total_within units_are up_to_is up_to_none up_to_same
weight_flowed weight_le weight_not_flowed weight_within weights_all weights_are weights_more weights_of within_back
within_limits written_more
""".split()

OTHER = {
    "So-far": "SoFar",
    # the function that it speaks of has the plain name
    "figures-at": "figures_of",
    "getD-by-place": "slice_index_or-by_place",
    "getD-le-sum": "slice_index-le_sum",
    "getD-rs": "slice_index-rs",
    "getD-turned": "slice_index_or-turned",
    "length-by-place": "length-by_place",
    "near-by-place": "Near-by_place",
    "near-signed": "Near-signed",
    "shareable-reverse": "Shareable-reverse",
    "signed-abs": "signed-unsigned_abs",
    "within-reverse": "Within-reverse",
}

NEW = {name.replace("_", "-"): name for name in PLAIN} | OTHER

LETTER = r"[\w'·-]"
WORD = re.compile(rf"(?<!{LETTER})(?:" + "|".join(sorted(map(re.escape, NEW), key=len, reverse=True)) + rf")(?!{LETTER})")
GHOST = re.compile(r"ghost|requires|ensures|law|[{}λ≡]")


def texts():
    for folder, dirs, files in os.walk("crates"):
        dirs[:] = sorted(d for d in dirs if d not in ("out", "must-fail"))
        for name in sorted(files):
            if name.endswith((".antt", ".rt")):
                yield os.path.join(folder, name)


def respelled(path, text):
    if path.endswith(".antt"):
        return WORD.sub(lambda m: NEW[m.group()], text)
    lines = text.split("\n")
    return "\n".join(WORD.sub(lambda m: NEW[m.group()], l) if GHOST.search(l) else l for l in lines)


def together(path, text):
    """The new names that the file has already as something else, other than as part of a path."""
    old = {m.group() for m in WORD.finditer(text)}
    has = set(re.findall(rf"(?<!{LETTER})(?<!\.)[A-Za-z]{LETTER}*", text))
    return sorted(n for n in has if n in {NEW[o] for o in old})


def main():
    if not os.path.isdir("crates"):
        sys.exit("respell: run it at the top of the repository")
    found = [(path, open(path, encoding="utf-8").read()) for path in texts()]
    bad = [f"{path}: {', '.join(n)}" for path, text in found for n in [together(path, text)] if n]
    if bad:
        sys.exit("respell: names that would fall together:\n" + "\n".join(bad))
    count = 0
    for path, text in found:
        new = respelled(path, text)
        if new != text:
            count += 1
            with open(path, "w", encoding="utf-8") as f:
                f.write(new)
    print(f"respell: {count} of {len(found)} files")


main()
