#!/usr/bin/env python3
"""ripple.py FOLDER: writes an 8-bit ripple adder and a script that shortens it to a folder, as ripple.maj and ripple.steps.

Inputs 1 to 8 are the bits of one number, the lowest first, 9 to 16 those of the other, and 17 is the carry in. Outputs 1
to 8 are the bits of the sum, and 9 is the carry out. Each bit is drawn as two cells that do not know of each other: the
sum's, of three gates, and the carry's, of one gate that the sum's cell has as well. So there is something to shorten."""
from pack import folder_argument, packed, store
from sheet import SWEEP, table

BITS = 8
FIRST = 2 * BITS + 2  # the first gate's node


def adder():
    gates, sums = [], []
    carry = 2 * (2 * BITS + 1)
    for bit in range(BITS):
        a, b = 2 * (1 + bit), 2 * (1 + BITS + bit)
        node = FIRST + len(gates)
        gates += [(a, b, carry), (a, b, carry + 1), (2 * node + 1, 2 * node + 2, carry)]  # the sum's cell
        gates += [(a, b, carry)]  # the carry's cell
        sums.append(2 * (node + 2))
        carry = 2 * (node + 3)
    return table(2 * BITS + 1, gates, sums + [carry])


def script():
    """Shares each carry with the gate of the sum's cell and sweeps: three gates a bit are left, the carry first. Then every
    other carry is taken from two bits below by distributivity, from the top down, so that no number changes below."""
    shares = [(7, FIRST + 4 * bit + 3, FIRST + 4 * bit, 0) for bit in range(BITS)]
    skips = [(4, FIRST + 3 * bit, 0, 0) for bit in range(BITS - 2, 1, -2)]
    return shares + [SWEEP] + skips


if __name__ == "__main__":
    folder = folder_argument("ripple.py")
    store("ripple.py", folder / "ripple.maj", packed(adder()))
    store("ripple.py", folder / "ripple.steps", packed(script()))
