#!/usr/bin/env python3
"""documents.py [FILE..]: runs the commands that the documents show (all, or the named ones) on the programs as they were last
built, and compares what each prints with what the document shows.

A command is a line '$ COMMAND' of an indented or a fenced block; lines '> MORE' that follow it go on with it. The lines up to the
next command or the end of the block are what it prints, standard output and standard error together. Where it prints more,
less or anything else, or does not end with status 0, it fails; a command that is to end with another status shows it, by
'|| echo "status $?"'. A command that is not to be run here, since it is the gate
itself, takes long or needs what is not at hand, is shown without '$' and without what it prints. Where '$ ' begins a line that
is no line of a block, that fails as well.

The commands of a document are run in order in a folder of their own, which has the repository's folders and is removed at the
end; in it ./run NAME is ./run --built NAME, so that nothing is proved here.
"""
import os, pathlib, re, shlex, shutil, signal, subprocess, sys, tempfile

ROOT = pathlib.Path(__file__).resolve().parent.parent
PROMPT, MORE = "$ ", "> "
INDENT = 4 * " "
SECONDS = 600  # against a command that hangs; no command measures time
LINKED = {"crates", "target", "tests"}  # folders that are too large to copy
RUN = """#!/bin/sh
case $1 in --*) ;; *) set -- --built "$@" ;; esac
exec {root}/run "$@"
"""


def blocks(lines):
    """Each block of code: the number of its first line, counted from 0, and its lines without the indentation."""
    at = 0
    while at < len(lines):
        fence = re.match(r"( *)(```|~~~)", lines[at])
        if fence:
            end = at + 1
            while end < len(lines) and not lines[end].lstrip().startswith(fence[2]):
                end += 1
            yield at + 1, [line.removeprefix(fence[1]) for line in lines[at + 1 : end]]
            at = end + 1
        elif lines[at].startswith(INDENT):
            end = at
            while end < len(lines) and (lines[end].startswith(INDENT) or not lines[end].strip()):
                end += 1
            block = [line.removeprefix(INDENT) for line in lines[at:end]]
            while not block[-1].strip():
                block.pop()
            yield at, block
            at = end
        else:
            at += 1


def commands(lines):
    """Each command: the number of its line, its text and what it prints."""
    for first, block in blocks(lines):
        starts = [i for i, line in enumerate(block) if line.startswith(PROMPT)]
        for start, end in zip(starts, starts[1:] + [len(block)]):
            text, at = block[start].removeprefix(PROMPT), start + 1
            while at < end and block[at].startswith(MORE):
                text, at = text + "\n" + block[at].removeprefix(MORE), at + 1
            yield first + start, text, "".join(line + "\n" for line in block[at:end])


def room_for_commands(room):
    """Fills the folder in which commands are run."""
    for path in ROOT.iterdir():
        if path.name in LINKED:
            (room / path.name).symlink_to(path)
        elif path.is_dir() and path.name != ".git":
            shutil.copytree(path, room / path.name)
    (room / "run").write_text(RUN.format(root=shlex.quote(str(ROOT))))
    (room / "run").chmod(0o755)


def wrong(command, shown, room):
    """What is wrong with what a command prints, or nothing."""
    ran = subprocess.Popen(
        ["bash", "-c", command],
        cwd=room,
        stdin=subprocess.DEVNULL,
        stdout=subprocess.PIPE,
        stderr=subprocess.STDOUT,
        start_new_session=True,
    )
    try:
        printed, _ = ran.communicate(timeout=SECONDS)
    except subprocess.TimeoutExpired:
        os.killpg(ran.pid, signal.SIGKILL)
        ran.communicate()
        return f"it did not end within {SECONDS} seconds"
    if printed != shown.encode():
        return f"it printed {printed!r} and not {shown.encode()!r}"
    return f"it ended with status {ran.returncode}" if ran.returncode else ""


def check(document):
    """Runs the commands of a document; answers how many did as shown and how many did not."""
    try:
        lines = document.read_text().splitlines()
    except OSError as error:
        sys.exit(f"documents.py: {error.strerror}: {document}")
    name = document.relative_to(ROOT) if document.is_relative_to(ROOT) else document
    found = list(commands(lines))
    taken = {number for number, _, _ in found}
    failures = [
        (number, "a prompt that begins no line of a block of code")
        for number, line in enumerate(lines)
        if line.lstrip(" \t>").startswith(PROMPT) and number not in taken
    ]
    passed = 0
    with tempfile.TemporaryDirectory() as folder:
        room = pathlib.Path(folder)
        if found:
            room_for_commands(room)
        for number, command, shown in found:
            fault = wrong(command, shown, room)
            passed += not fault
            if fault:
                failures.append((number, f"{command!r}: {fault}"))
    for number, fault in sorted(failures):
        print(f"{name}, line {number + 1} FAILED: {fault}", flush=True)
    return passed, len(failures)


def documents():
    """Every document of the repository."""
    tops = (path for path in ROOT.iterdir() if path.name not in {".git", "target"})
    return sorted(path for top in tops for path in (top.rglob("*.md") if top.is_dir() else [top]) if path.suffix == ".md")


def main():
    counts = [check(document) for document in [pathlib.Path(name) for name in sys.argv[1:]] or documents()]
    passed, failed = (sum(column) for column in zip(*counts))
    print(f"{passed} passed, {failed} failed")
    return failed > 0


sys.exit(main())
