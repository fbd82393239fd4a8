#!/usr/bin/env python3
"""pack.py < NUMBERS > BYTES: packs lines of four numbers, which are the records of a table (KIND E1 E2 E3) or the steps of
a script (RULE GATE A B), into 16 bits each, low byte first; '#' starts a comment."""
import pathlib, signal, struct, sys

signal.signal(signal.SIGINT, signal.SIG_DFL)  # Ctrl-C ends a program, and says no more


def packed(rows):
    return b"".join(struct.pack("<4H", *row) for row in rows)


def folder_argument(name):
    """The folder that the program's one argument names."""
    try:
        (folder,) = map(pathlib.Path, sys.argv[1:])
        if folder.is_dir():
            return folder
    except (ValueError, OSError):
        pass
    sys.exit(f"{name}: it takes one argument, a folder that is there; call it as: {name} FOLDER")


def store(name, path, data):
    """Writes a file whole, or ends with a line that says why not."""
    try:
        path.write_bytes(data)
    except OSError as error:
        sys.exit(f"{name}: {path} could not be written whole: {error.strerror}")


def put(name, data):
    """Writes bytes whole to standard output, or ends with a line that says why not."""
    try:
        with open(1, "wb", closefd=False) as out:
            out.write(data)
    except OSError as error:
        sys.exit(f"{name}: the output could not be written whole: {error.strerror}")


def number(word):
    """A number in decimal digits, and no other way in which Python takes one."""
    if not word.isdigit():
        raise ValueError
    return int(word)


def main():
    if len(sys.argv) > 1:
        sys.exit("pack.py: it takes no argument; call it as: pack.py < NUMBERS > BYTES")
    try:
        with open(0, "rb", closefd=False) as given:
            lines = given.readlines()
    except OSError as error:
        sys.exit(f"pack.py: standard input could not be read: {error.strerror}")
    data = b""
    for at, line in enumerate(lines, 1):
        words = line.partition(b"#")[0].split()
        try:
            data += packed([map(number, words)] if words else [])
        except (ValueError, struct.error):
            sys.exit(f"pack.py: line {at} is not four numbers from 0 to 65535: {line.decode(errors='replace').strip()}")
    put("pack.py", data)


if __name__ == "__main__":
    main()
