#!/usr/bin/env python3
"""cases.py [NAME..]: runs the stored cases of tests/cases/ (all, or the named ones) on the programs as they were last built.

A case is a folder with
  program   the name of a program, or instead of it
  command   a shell line, which is run with the repository's root as current folder
  args      the program's arguments, one to a line
  stdin     standard input, byte for byte, or instead of it
  records   standard input as the records of a table: a line 'KIND E1 E2 E3', with ' x COUNT' for COUNT of them;
            a line 'bytes N' cuts the whole to N bytes or fills it up with zeros; '#' starts a comment
  files/    files that stand in the folder where the program is run
  stdout    what it must write to standard output
  stderr    and to standard error; a file that is missing stands for no bytes
  status    the status with which it must end; 0 where this file is missing
A command that needs what is not at hand prints 'skipped: WHY' and nothing else: the case is then shown and not counted.
"""
import os, pathlib, shutil, signal, subprocess, sys, tempfile

ROOT = pathlib.Path(__file__).resolve().parent.parent
CASES = ROOT / "tests" / "cases"
KNOWN = {"program", "command", "args", "stdin", "records", "files", "stdout", "stderr", "status"}
SECONDS = 600  # against a case that hangs; no case measures time
SKIPPED = b"skipped: "


class BadCase(Exception):
    pass


class Skipped(Exception):
    pass


def packed(text):
    """The bytes of a file 'records'."""
    out, length = b"", None
    for number, line in enumerate(text.splitlines(), 1):
        words = line.partition("#")[0].split()
        try:
            if words[:1] == ["bytes"]:
                (length,) = (int(w) for w in words[1:])
            elif words:
                times = 1
                if len(words) == 6 and words[4] == "x":
                    times = int(words[5])
                    words = words[:4]
                if len(words) != 4:
                    raise ValueError
                out += b"".join(int(w).to_bytes(2, "little") for w in words) * times
        except (ValueError, OverflowError):
            raise BadCase(f"records, line {number}: expected 'KIND E1 E2 E3', 'KIND E1 E2 E3 x COUNT' or 'bytes N'")
    return out if length is None else out[:length].ljust(length, b"\0")


def content(case, name):
    path = case / name
    return path.read_bytes() if path.exists() else b""


def request(case):
    """What to run and on which standard input."""
    has = {path.name for path in case.iterdir()}
    if has - KNOWN:
        raise BadCase("unknown file " + ", ".join(sorted(has - KNOWN)))
    if len(has & {"program", "command"}) != 1:
        raise BadCase("it has neither a program nor a command, or both")
    if {"stdin", "records"} <= has:
        raise BadCase("it has both stdin and records")
    if "command" in has:
        if has & {"args", "files"}:
            raise BadCase("a command takes no args and no files")
        words = ["bash", "-c", content(case, "command").decode()]
    else:
        name = content(case, "program").decode().strip()
        if not (ROOT / "crates" / name / "src" / "main.rt").is_file():
            raise BadCase(f"there is no program '{name}'")
        words = [ROOT / "run", "--built", name] + content(case, "args").decode().splitlines()
    stdin = packed(content(case, "records").decode()) if "records" in has else content(case, "stdin")
    return words, stdin


def brief(data):
    return repr(data)[1:] if len(data) <= 120 else f"{repr(data[:120])[1:]} and {len(data) - 120} more bytes"


def differences(case):
    """What a run of the case wrote that it must not have written."""
    words, stdin = request(case)
    with tempfile.TemporaryDirectory() as room:
        if (case / "files").is_dir():
            shutil.copytree(case / "files", room, dirs_exist_ok=True)
        folder = room if (case / "program").exists() else ROOT
        pipe = subprocess.PIPE
        ran = subprocess.Popen(words, stdin=pipe, stdout=pipe, stderr=pipe, cwd=folder, start_new_session=True)
        try:
            stdout, stderr = ran.communicate(stdin, SECONDS)
        except subprocess.TimeoutExpired:
            os.killpg(ran.pid, signal.SIGKILL)
            ran.communicate()
            return [f"it did not end within {SECONDS} seconds"]
    if (case / "command").exists() and stdout.startswith(SKIPPED):
        raise Skipped(stdout.decode().strip())
    found = []
    for stream, wrote in (("stdout", stdout), ("stderr", stderr)):
        expected = content(case, stream)
        if wrote != expected:
            found.append(f"{stream} is {brief(wrote)} and not {brief(expected)}")
    status = int(content(case, "status") or b"0")
    if ran.returncode != status:
        found.append(f"it ended with status {ran.returncode} and not {status}")
    return found


def main():
    cases = [CASES / name for name in sys.argv[1:]] or sorted(CASES.iterdir())
    passed = failed = 0
    for case in cases:
        try:
            found = differences(case)
        except Skipped as why:
            print(f"case {case.name} {why}", flush=True)
            continue
        except (BadCase, OSError, ValueError) as error:
            found = [f"bad case: {error}"]
        if found:
            print(f"case {case.name} FAILED: {'; '.join(found)}", flush=True)
        failed += bool(found)
        passed += not found
    print(f"{passed} passed, {failed} failed")
    return failed > 0


sys.exit(main())
