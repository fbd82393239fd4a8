#!/usr/bin/env python3
"""edits.py [--whole] [CRATE | CRATE/EDIT | CRATE=FILE ..]: tries the edits crates/CRATE/must-fail/EDIT.edit (all, or the named ones, or those
of other files) by `rt must-fail`, in a copy of the crates. The prover must refuse each. `rt ci` tries all that stand in must-fail/, and
`rt must-fail` takes from it what it tried; --whole takes nothing from an earlier run.

An edit fails that cannot be applied or read, and one that is refused only because a proof no longer fits the code's shape: a goal is named
after the code before it, and where the code changes its shape the goal's answer has no goal any more. `rt must-fail` says of an edit the
first place alone. Where that is a definition, or a goal of which it is not said that it is false, in a function that has proof files, all that
the check says is read.
What the prover said is in target/edits/CRATE.log and, where it was read whole, in target/edits/CRATE/EDIT.log.
"""
import concurrent.futures, os, pathlib, re, shutil, subprocess, sys, tempfile

ROOT = pathlib.Path(__file__).resolve().parent.parent
CRATES, LOGS = ROOT / "crates", ROOT / "target" / "edits"
PARTS = ("src", "specs", "proofs")
# the crate, the edit, what it came to, why that says little, the first place
SAID = re.compile(r"(?:rt: )?must-fail (\w+)/(\S+)\.edit: (refused, as it must be|NOT REFUSED|NOT TRIED|BAD EDIT)(?: \((only [^)]*)\))?(?:: )?(.*)")
# of a goal that is false; `rt must-fail` cuts what it says after so many letters
FALSE = "; the facts known"
# a line in which a proof names what is not there, or leaves out what is
SHAPE = re.compile(
    r"(?:has no|is not in scope|can be named from here|was not admitted|missing field|explicit arguments? but the pattern"
    r"|is given \d+ argument|cannot continue the declaration|this pattern needs a function)")
ERROR = re.compile(r"^(?:\./)?(proofs/\S+): error: (.*)$", re.M)


def listed():
    """The crates of crates.txt, each with its line and the crates that it uses."""
    lines = (line.partition("#")[0].strip() for line in (ROOT / "crates.txt").read_text().splitlines())
    return {line.split()[0].rstrip(":"): (line, line.partition(":")[2].split()) for line in lines if line}


def below(crate, crates):
    """The crate and all that it uses of the repository."""
    found = {crate}
    for used in crates[crate][1]:
        if used in crates and used not in found:
            found |= below(used, crates)
    return found


def chosen(words, crates):
    """The edits that the words name, each with its crate."""
    stored = [(crate, path) for crate in crates for path in sorted((CRATES / crate / "must-fail").glob("*.edit"))]
    if not words:
        return stored
    edits = []
    for word in words:
        crate, _, file = word.partition("=")
        named = [(c, p) for c, p in stored if word in (c, f"{c}/{p.stem}")]
        if not named and crate in crates and pathlib.Path(file).is_file():
            named = [(crate, pathlib.Path(file))]
        if not named:
            sys.exit(f"edits: '{word}' names no edit; usage: edits.py [--whole] [CRATE | CRATE/EDIT | CRATE=FILE ..]")
        edits += named
    return edits


def laid(crate, edits, crates, room):
    """A copy of the crate and those below it, with these edits alone."""
    names = below(crate, crates)
    (room / "crates.txt").write_text("".join(line + "\n" for name, (line, _) in crates.items() if name in names))
    for name in names:
        for part in PARTS:
            if (CRATES / name / part).is_dir():
                shutil.copytree(CRATES / name / part, room / "crates" / name / part)
    to = room / "crates" / crate / "must-fail"
    to.mkdir(exist_ok=True)
    for edit in edits:
        shutil.copy(edit, to)


def rt(words, folder, log):
    done = subprocess.run(["rt", *words], cwd=folder, stdin=subprocess.DEVNULL, stdout=subprocess.PIPE, stderr=subprocess.STDOUT, text=True, errors="replace")
    log.parent.mkdir(parents=True, exist_ok=True)
    log.write_text(done.stdout)
    return done.stdout


def applied(edit, folder):
    """Makes the replacements of an edit that fits; the files as they were."""
    before, name, old = {}, None, None
    for line in edit.read_text().splitlines():
        word, _, text = line.partition(" ")
        if word == "file:":
            name = folder / text
        elif word == "old:":
            old = text
        elif word == "new:":
            before.setdefault(name, name.read_text())
            name.write_text(name.read_text().replace(old, text))
    return before


def shown(crate, edit, room):
    """Whether the check of the edited crate says that something is false, and not only that a proof names what is not there."""
    folder = room / "crates" / crate
    before = applied(edit, folder)
    said = rt(["check"], folder, LOGS / crate / f"{edit.stem}.log")
    for file, text in before.items():
        file.write_text(text)
    errors = ERROR.findall(said)
    return FALSE in said or any(not SHAPE.search(text) for _, text in errors) or not errors


def proof_files(crate, at):
    """Whether the function at a place of src/ has files in proofs/."""
    file, line, *_ = at.split(":")
    before = (CRATES / crate / file).read_text().splitlines()[: int(line)]
    names = [found[1] for found in map(re.compile(r"\s*(?:pub(?:\(crate\))? )?(?:const )?(?:extern \"C\" )?fn (\w+)").match, before) if found]
    return bool(names) and any((CRATES / crate / "proofs").glob(f"**/{names[-1]}/*.antt"))


def judged(crate, edit, kind, only, rest, room):
    """Whether an edit passes, and what is said of it."""
    if kind != "refused, as it must be":
        return False, f"FAILED: {kind}" + (f": {rest}" if kind != "NOT REFUSED" else "")
    at = rest.removeprefix("note: ").removeprefix("./").split(": ")[0]
    sure = FALSE in rest or at.startswith("proofs/") and not SHAPE.search(rest) or at.startswith("src/") and not proof_files(crate, at)
    if only and "limit" in only:
        return False, f"FAILED: refused by a limit of the prover alone, at {at}"
    if only or not sure and not shown(crate, edit, room):
        return False, f"FAILED: refused for its shape alone, at {at}"
    return True, f"refused, first at {at}"


def tried(crate, edits, crates, whole):
    """Of each of a crate's edits whether it passes, and a line."""
    with tempfile.TemporaryDirectory() as folder:
        room = pathlib.Path(folder)
        laid(crate, edits, crates, room)
        said = rt(["must-fail", crate] + ["--anew"] * whole, room, LOGS / f"{crate}.log")
        found = {m[2]: m.groups()[2:] for m in map(SAID.match, said.splitlines()) if m}
        lines = []
        for edit in edits:
            passed, line = judged(crate, edit, *found.get(edit.stem, ("NOT TRIED", None, f"target/edits/{crate}.log says why")), room)
            lines.append((passed, f"{crate}/{edit.stem}: {line}"))
        return lines


def main(words):
    if not shutil.which("rt"):
        sys.exit("edits: the Rattle kit's command rt is not on the PATH")
    whole = "--whole" in words
    crates = listed()
    edits = chosen([word for word in words if word != "--whole"], crates)
    failed = 0
    with concurrent.futures.ThreadPoolExecutor(os.cpu_count()) as pool:
        names = dict.fromkeys(crate for crate, _ in edits)
        trials = [pool.submit(tried, name, [edit for crate, edit in edits if crate == name], crates, whole) for name in names]
        for trial in trials:
            for passed, line in trial.result():
                failed += not passed
                print(line, flush=True)
    print(f"{len(edits) - failed} passed, {failed} failed")
    return failed > 0


if __name__ == "__main__":
    sys.exit(main(sys.argv[1:]))
