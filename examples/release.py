#!/usr/bin/env python3
"""release.py FOLDER: joins two members' blocks to a release and writes it to a folder, with a script that rewrites it, as
release.maj and release.steps.

x1 and x2 are the lower bits of two numbers, x4 and x5 their higher ones, and x3 is the carry in. Member 1 sends the two bits of
the sum, member 2 the carry out. Neither has seen the other's gates, so the first carry is drawn by both, and by member 1 twice."""
from pack import folder_argument, packed, store
from sheet import SWEEP

INPUTS = 5
SUM = [  # member 1: the gates by their edges, from node 6 on
    (2, 4, 6),  # gate 6, the first carry, reads x1, x2 and x3
    (2, 4, 7),  # gate 7 reads x1, x2 and x3 inverted
    (13, 14, 6),  # gate 8, the lower bit of the sum, reads gate 6 inverted, gate 7 and x3
    (2, 4, 6),  # gate 9, the first carry again
    (8, 10, 18),  # gate 10 reads x4, x5 and gate 9
    (8, 10, 19),  # gate 11 reads x4, x5 and gate 9 inverted
    (21, 22, 18),  # gate 12, the higher bit, reads gate 10 inverted, gate 11 and gate 9
]
CARRY = [  # member 2, from node 6 on as well
    (2, 4, 6),  # gate 6, the first carry
    (8, 10, 12),  # gate 7, the carry out, reads x4, x5 and gate 6
]
SCRIPT = [
    (7, 9, 6, 0),  # share: gate 9 is gate 6, both of block 1
    (4, 14, 0, 0),  # distributivity at gate 14, of block 2: two gates are put before it
    SWEEP,  # gate 9, of block 1, and gate 13, of block 2, are read by nobody
]


def joined(*blocks):
    """One table of the members' gates, each member's after those of the one before, of blocks 1, 2 and so on, and of their outputs."""
    gates, outputs = [], []
    for block, (drawn, named) in enumerate(blocks, 1):
        before = len(gates)
        moved = lambda edge: edge + 2 * before if edge // 2 > INPUTS else edge
        gates += [(256 * block + 2, *map(moved, edges)) for edges in drawn]
        outputs += [(3, moved(edge), 0, 0) for edge in named]
    return [(1, 0, 0, 0)] * INPUTS + gates + outputs


if __name__ == "__main__":
    folder = folder_argument("release.py")
    store("release.py", folder / "release.maj", packed(joined((SUM, [16, 24]), (CARRY, [14]))))
    store("release.py", folder / "release.steps", packed(SCRIPT))
