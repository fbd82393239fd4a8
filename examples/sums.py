#!/usr/bin/env python3
"""sums.py TABLE: asks majpipe for the outputs of an 8-bit adder (see ripple.py) under each assignment, and compares them with
Python's own sums."""
import itertools, pathlib, struct, subprocess, sys
from pack import put

EVALUATE = 2
RUN = pathlib.Path(__file__).resolve().parent.parent / "run"


def ask(pipe, table, assignment):
    """The outputs' number: the request has the used length, the table with its length, and the assignment."""
    request = struct.pack("<BII", EVALUATE, len(table), len(table)) + table + struct.pack("<I", assignment)
    reply = b""
    try:
        pipe.stdin.write(request)
        while len(reply) < 16 and (more := pipe.stdout.read(16 - len(reply))):
            reply += more
    except BrokenPipeError:
        pass
    if len(reply) < 16:
        sys.exit("sums.py: majpipe ended before it had answered")
    refusal, record, edge, outputs = struct.unpack("<IIII", reply)
    if refusal:
        sys.exit(f"refused {refusal} at {record} {edge}")
    return outputs


def main():
    if len(sys.argv) != 2:
        sys.exit("sums.py: it takes one argument, a table's path; call it as: sums.py TABLE")
    try:
        table = pathlib.Path(sys.argv[1]).read_bytes()
        pipe = subprocess.Popen([RUN, "majpipe"], stdin=subprocess.PIPE, stdout=subprocess.PIPE, bufsize=0)
    except OSError as error:
        sys.exit(f"sums.py: {error.strerror}: {error.filename}")
    with pipe:
        right = 0
        for carry, a, b in itertools.product((0, 1), range(256), range(256)):
            outputs = ask(pipe, table, a | b << 8 | carry << 16)
            if outputs != a + b + carry:
                sys.exit(f"{a} + {b} + {carry} gives {outputs}")
            right += 1
    put("sums.py", b"%d sums are right\n" % right)


main()
