#!/usr/bin/env python3
"""catalogue.py [--print]: makes the entries of the catalogue by an exhaustive search, and compares them with those that stand in the
crate; --print prints them instead, as they stand there.

An entry is a network of three inputs in hexadecimal digits: the three edges of each gate, the output's edge, the number of gates. The
search goes through all networks of no gate, of one, of two and so on, until every function has one. So no function has a network of
fewer gates than its entry; of those of as many, the entry is the first that the search meets.

The last line is 'N passed, M failed': an entry each, and how many functions need 0, 1, 2, 3 and 4 gates.
"""
import itertools, pathlib, re, sys

SOURCE = pathlib.Path(__file__).resolve().parent.parent / "crates" / "catalogue" / "src" / "entries.rt"
# bit k of a value is what a node or an edge is worth under assignment k: the edges of the constant and of the inputs
ALL = 0xFF
CONSTANT_AND_INPUTS = (0x00, 0xFF, 0xAA, 0x55, 0xCC, 0x33, 0xF0, 0x0F)
# how many functions need no gate, one, two, three and four
NEEDED = [8, 32, 64, 56, 96]


def gates_over(nodes):
    """The gates to be tried over so many nodes. Their edges name three nodes, since a gate with two edges to one node is worth one of its
    edges; they rise, since their order is nothing to the majority; one at most is inverted, since the majority of three inverses is the
    inverse of the majority, and who reads the gate can invert."""
    return [e for e in itertools.combinations(range(2 * nodes), 3)
            if e[0] // 2 < e[1] // 2 < e[2] // 2 and e[0] % 2 + e[1] % 2 + e[2] % 2 <= 1]


def networks(edges, gates, more, tried, known, found):
    """Puts `more` gates behind these, and notes the first network of each function that is not yet known. No function needs a gate that is
    worth what an edge is worth already."""
    nodes = len(edges) // 2
    for gate in tried[nodes]:
        a, b, c = (edges[e] for e in gate)
        value = a & b | c & (a | b)
        if more > 1:
            if value not in edges:
                networks(edges + (value, ALL - value), gates + [gate], more - 1, tried, known, found)
        elif value not in known and value not in found:
            found[value] = (gates + [gate], 2 * nodes)
            found[ALL - value] = (gates + [gate], 2 * nodes + 1)


def search():
    """For each function's number its gates and its output's edge."""
    known = {value: ([], edge) for edge, value in enumerate(CONSTANT_AND_INPUTS)}
    tried = {}
    for count in itertools.count(1):
        if len(known) == ALL + 1:
            return known
        tried[3 + count] = gates_over(3 + count)
        found = {}
        networks(CONSTANT_AND_INPUTS, [], count, tried, known, found)
        known.update(found)


def entry(gates, output):
    """An entry, as it is written in the source."""
    return "0x" + "".join(f"{a:x}{b:x}{c:x}_" for a, b, c in gates) + f"{output:x}{len(gates):x}"


def stored():
    """The entries that stand in the crate."""
    table = re.search(r"const ENTRIES: \[u64; 256\] = \[(.*?)\];", SOURCE.read_text(), re.DOTALL)
    return [text.strip() for text in table.group(1).split(",") if text.strip()] if table else []


def main(arguments):
    made = search()
    entries = [entry(*made[number]) for number in range(ALL + 1)]
    if arguments == ["--print"]:
        print("".join(f"    {text},\n" for text in entries), end="")
        return 0
    if arguments:
        print("usage: catalogue.py [--print]", file=sys.stderr)
        return 2
    there = stored()
    passed = failed = 0

    def judge(right, wrong):
        nonlocal passed, failed
        passed, failed = passed + right, failed + (not right)
        if not right:
            print(wrong)

    if len(there) != len(entries):
        judge(False, f"{SOURCE.name} has {len(there)} entries, and not {len(entries)}")
    for number, (mine, theirs) in enumerate(itertools.zip_longest(entries, there[:len(entries)], fillvalue="none")):
        judge(mine == theirs, f"function {number}: the search makes {mine}, and {SOURCE.name} has {theirs}")
    for count, needed in enumerate(NEEDED):
        found = sum(len(gates) == count for gates, _ in made.values())
        judge(found == needed, f"{found} functions need {count} gates, and not {needed}")
    print(f"{passed} passed, {failed} failed")
    return failed > 0


if __name__ == "__main__":
    sys.exit(main(sys.argv[1:]))
