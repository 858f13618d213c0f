#!/usr/bin/env python3
"""Tries the edits of this folder: `edits/try.py [CRATE ..]`. The prover must refuse each.

These edits take too long for the gate, so whoever changes a contract or a body tries them by hand: `edits/try.py
--changed COMMIT` tries the edits of the crates whose sources, specs or proofs changed since that commit. The script puts
the edits of a crate into its folder `must-fail`, runs `rt must-fail CRATE` at the top, and takes them out again. It
begins with what `rt check` kept, so run that first. Without words it tries the edits of each crate."""
import pathlib
import shutil
import subprocess
import sys

HERE = pathlib.Path(__file__).resolve().parent
TOP = HERE.parent


def status_of(crate):
    """Tries the edits of a crate, and returns the status of the command."""
    folder = TOP / "crates" / crate / "must-fail"
    was_there = folder.exists()
    folder.mkdir(exist_ok=True)
    names = [it.name for it in sorted((HERE / crate).glob("*.edit"))]
    try:
        for name in names:
            shutil.copy(HERE / crate / name, folder / name)
        return subprocess.run(["rt", "must-fail", crate], cwd=TOP).returncode
    finally:
        for name in names:
            (folder / name).unlink(missing_ok=True)
        if not was_there:
            folder.rmdir()


def changed_since(commit):
    """The crates that changed since a commit, by what git has and by what is not committed yet."""
    named = subprocess.run(["git", "diff", "--name-only", commit, "--", "crates"], cwd=TOP, check=True,
                           capture_output=True, text=True).stdout.split()
    return {it.split("/")[1] for it in named if it.split("/")[2] in {"src", "specs", "proofs"}}


def main():
    words = sys.argv[1:]
    crates = sorted(it.name for it in HERE.iterdir() if it.is_dir())
    if words[:1] == ["--changed"]:
        if len(words) != 2:
            sys.exit("edits/try.py --changed COMMIT")
        changed = changed_since(words[1])
        crates = [it for it in crates if it in changed]
    elif words:
        unknown = [it for it in words if it not in crates]
        if unknown:
            sys.exit(f"{__doc__}\nno folder of edits: {' '.join(unknown)}")
        crates = words
    print(f"edits of: {' '.join(crates) or 'no crate'}", flush=True)
    # The status of a command that was killed is negative.
    sys.exit(max([abs(status_of(crate)) for crate in crates], default=0))


if __name__ == "__main__":
    main()
