#!/usr/bin/env python3
"""interrupt.py: interrupts run, install and test while they prove, by each signal that a terminal or a service sends, in a copy of the
tree with a prover that never ends. Each must end by the signal, with the prover ended, the tree's lock free and no temporary file left.
Then it interrupts a program, as it was last built, that waits for its input: it must end with the script that started it."""
import os, pathlib, shutil, signal, subprocess, sys, tempfile, time

ROOT = pathlib.Path(__file__).resolve().parent.parent
COPIED = ("crates", "crates.txt", "run", "install", "test", "tools")
# as rt does, it has what takes long done by background processes of a shell
RT = """#!/bin/sh
cd "${PWD%/crates/*}"
mktemp >/dev/null
sleep 3600 &
echo $! >prover.new
mv prover.new prover
wait
"""
SIGNALS = (signal.SIGINT, signal.SIGTERM, signal.SIGHUP)
SECONDS = 600  # against a script that hangs


def started(words, **more):
    """A script in a session of its own, for which no signal is ignored."""
    heard = lambda: [signal.signal(number, signal.SIG_DFL) for number in SIGNALS]
    quiet = {"stdout": subprocess.DEVNULL, "stderr": subprocess.DEVNULL}
    return subprocess.Popen(words, **quiet, start_new_session=True, preexec_fn=heard, **more)


def ends_otherwise(ran, number):
    """Sends the signal; how the script ended where that is not by it."""
    ran.send_signal(number)
    try:
        status = ran.wait(SECONDS)
    except subprocess.TimeoutExpired:
        os.killpg(ran.pid, signal.SIGKILL)
        return "it does not end"
    return f"it ended with status {status}" if status != -number else ""


def awaited(found, ran):
    """Waits for what the script is to do; whether it was done."""
    end = time.monotonic() + SECONDS
    while not found() and ran.poll() is None and time.monotonic() < end:
        time.sleep(0.05)
    return found()


def runs(pid):
    try:
        return pathlib.Path(f"/proc/{pid}/stat").read_text().rpartition(")")[2].split()[0] != "Z"
    except OSError:
        return False


def proof(words, number, room):
    """What is wrong after the script was interrupted, or nothing."""
    tree, prover = room / "tree", room / "tree" / "prover"
    prover.unlink(missing_ok=True)
    own = dict(os.environ, PATH=f"{room / 'bin'}:{os.environ['PATH']}", TMPDIR=str(room / "tmp"))
    ran = started(words, cwd=tree, stdin=subprocess.DEVNULL, env=own)
    if not awaited(prover.exists, ran):
        ran.kill()
        return "it does not prove"
    if fault := ends_otherwise(ran, number):
        return fault
    if runs(prover.read_text().strip()):
        return "the prover still runs"
    if subprocess.run(["flock", "-n", tree / ".lock", "true"]).returncode:
        return "the lock is held"
    left = list((room / "tmp").iterdir()) + list((room / "to").glob("*"))
    return f"{left[0].name} is left" if left else ""


def program_of(session):
    """The process of the program that a script of that session has started, which has a first argument --status=N."""
    for pid in filter(str.isdigit, os.listdir("/proc")):
        try:
            if os.getsid(int(pid)) == session and b"\0--status=" in pathlib.Path(f"/proc/{pid}/cmdline").read_bytes():
                return pid
        except OSError:
            pass


def program(number):
    with started(["./run", "--built", "majcheck"], cwd=ROOT, stdin=subprocess.PIPE) as ran:
        if not awaited(lambda: program_of(ran.pid), ran):
            ran.kill()
            return "it starts no program"
        pid = program_of(ran.pid)
        return ends_otherwise(ran, number) or ("the program still runs" if runs(pid) else "")


def main():
    faults = {}
    with tempfile.TemporaryDirectory() as folder:
        room = pathlib.Path(folder)
        for name in ("tree", "bin", "tmp"):
            (room / name).mkdir()
        for name in COPIED:
            if (ROOT / name).is_dir():
                shutil.copytree(ROOT / name, room / "tree" / name, ignore=shutil.ignore_patterns("out"))
            else:
                shutil.copy(ROOT / name, room / "tree" / name)
        (room / "bin" / "rt").write_text(RT)
        (room / "bin" / "rt").chmod(0o755)
        for words in (["./run", "majcheck"], ["./install", str(room / "to")], ["./test"]):
            for number in SIGNALS:
                faults[words[0], number] = proof(words, number, room)
    for number in SIGNALS:
        faults["a program", number] = program(number)
    for (what, number), fault in faults.items():
        print(f"{what}, {number.name}: {fault or 'ended whole'}")
    return any(faults.values())


sys.exit(main())
