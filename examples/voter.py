#!/usr/bin/env python3
"""voter.py FOLDER: writes a network of five levels and a script that brings it to two to a folder, as voter.maj and voter.steps.

Gate 8 waits for gate 7. But it counts only where gate 7 and x1 differ, and there gate 7 is !x1. A voter step makes a copy of all
gates for that case, and two more for the cases that gate 9 follows x1, or gate 7; then steps of rules 2 and 10 make each of them short."""
from pack import folder_argument, packed, store
from sheet import SWEEP, table

NETWORK = table(
    6,
    [
        (4, 6, 8),  # gate 7 reads x2, x3 and x4
        (10, 12, 14),  # gate 8 reads x5, x6 and gate 7
        (2, 14, 16),  # gate 9 reads x1, gate 7 and gate 8
        (16, 18, 14),  # gate 10 reads gates 8, 9 and 7
        (20, 18, 2),  # gate 11 reads gates 10 and 9 and x1
    ],
    [22],
)
SCRIPT = [
    (9, 11, 1, 7),  # voter, of x1 and gate 7: 15 gates are put before gate 11, which is gate 26 then
    (10, 13, 0, 0),  # the first copy, !x1 for gate 7: gate 13 reads x1 and !x1, so it is gate 12,
    (2, 14, 0, 0),  # and so is gate 14, which reads gate 12 twice then,
    (2, 15, 0, 0),  # and so is gate 15
    (1, 20, 2, 0),  # the second copy, x1 for gate 9: gate 20 reads x1 twice; its first two edges are to be the equal ones
    (2, 20, 0, 0),  # so it is x1
    (1, 24, 2, 0),  # the third copy, its own gate 7, gate 21, for gate 9: gate 24 reads gate 21 twice
    (2, 24, 0, 0),  # so it is gate 21,
    (2, 25, 0, 0),  # and so is gate 25
    SWEEP,  # gates 12, 21 and 26 are left
]

if __name__ == "__main__":
    folder = folder_argument("voter.py")
    store("voter.py", folder / "voter.maj", packed(NETWORK))
    store("voter.py", folder / "voter.steps", packed(SCRIPT))
