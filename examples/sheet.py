#!/usr/bin/env python3
"""sheet.py FOLDER: writes P1 to P8 of the sheet of small tables to a folder, the tables as NAME.maj, the scripts as NAME.steps."""
from pack import folder_argument, packed, store


def table(inputs, gates, outputs):
    return [(1, 0, 0, 0)] * inputs + [(2, *edges) for edges in gates] + [(3, edge, 0, 0) for edge in outputs]


TABLES = {
    "p1": table(2, [(0, 2, 4)], [6]),
    "p2": table(3, [(2, 4, 6)], [8]),
    "p3": table(3, [(3, 5, 7)], [8]),
    "p4": table(1, [(2, 2, 0)], [5]),
    "p5": table(1, [(2, 3, 0)], [5]),
    "p6": table(4, [(6, 4, 8), (2, 4, 10)], [12]),
    "p7": table(5, [(6, 8, 10), (2, 4, 12)], [14]),
    "adder": table(3, [(2, 4, 6), (2, 4, 7), (9, 10, 6)], [12, 8]),
}
SWEEP = (8, 0, 0, 0)
SCRIPTS = {
    "p4": [(2, 2, 0, 0), SWEEP],
    "p5": [(10, 2, 0, 0)],
    "p6": [(3, 6, 0, 0), SWEEP],
    "p7": [(4, 7, 0, 0)],
}

if __name__ == "__main__":
    folder = folder_argument("sheet.py")
    for name, records in TABLES.items():
        store("sheet.py", folder / f"{name}.maj", packed(records))
    for name, steps in SCRIPTS.items():
        store("sheet.py", folder / f"{name}.steps", packed(steps))
