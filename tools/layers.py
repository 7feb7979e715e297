#!/usr/bin/env python3
"""Whether the crates stand in layers, as crates.txt tells them: each on crates of its own layer and of those above it there.

    tools/layers.py                        fails where a crate names one of a later block, or where the check of the program stands on a crate of the
                                           decompiler or of a layer behind it
    tools/layers.py --below CRATE ..       lists the crates on which a crate stands

A block begins with a comment `# LAYER: ..`; further comments in it don't begin one. Libraries of the toolchain are in no block.
"""
import sys

import crates

# The crate of the check that the program runs, and the layers on which it stands not at all.
CHECK = "proof_v2"
APART = ("decompiler", "self-test", "laws", "program", "tests")


def read():
    """The layer of each crate, lowest first, and the crates of the file that each crate uses."""
    _, crates_of, libraries = crates.layers()
    layer_of = {crate: layer for layer, names in crates_of.items() for crate in names}
    return layer_of, {crate: [used for used in names if used in layer_of] for crate, names in libraries.items()}


def below(uses, crate):
    """The crates on which a crate stands, with those on which these stand."""
    found, left = set(), list(uses[crate])
    while left:
        used = left.pop()
        if used not in found:
            found.add(used)
            left += uses[used]
    return found


def faults(layer_of, uses):
    """What is wrong, a sentence each."""
    order = list(dict.fromkeys(layer_of.values()))
    for crate, names in uses.items():
        for used in names:
            if order.index(layer_of[used]) > order.index(layer_of[crate]):
                yield f"{crate} of the layer {layer_of[crate]} uses {used} of the later layer {layer_of[used]}"
    for layer in APART:
        if layer not in order:
            yield f"there is no layer {layer}"
    for used in sorted(below(uses, CHECK)):
        if layer_of[used] in APART:
            yield f"{CHECK}, which is the program's check, stands on {used} of the layer {layer_of[used]}"


def main(words):
    layer_of, uses = read()
    if words[:1] == ["--below"]:
        for crate in words[1:]:
            found = below(uses, crate)
            print(f"{crate}: {len(found)}:", *(name for name in uses if name in found))
        return 0
    if words:
        sys.exit(__doc__)
    found = list(faults(layer_of, uses))
    for fault in found:
        print(fault)
    print(f"crates: {len(uses)}, below {CHECK}: {len(below(uses, CHECK))}, faults: {len(found)}")
    return 1 if found else 0


if __name__ == "__main__":
    sys.exit(main(sys.argv[1:]))
