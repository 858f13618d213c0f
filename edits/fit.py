#!/usr/bin/env python3
"""Checks that the old text of each edit, here and in `crates/*/must-fail`, stands exactly once in its source."""
import pathlib
import sys

TOP = pathlib.Path(__file__).resolve().parent.parent


def misfit(edit, crate):
    """Why an edit does not fit, or none."""
    file, old, texts = None, None, {}
    for line in edit.read_text().splitlines():
        key, _, value = line.partition(": ")
        if key == "file":
            file = value
            texts.setdefault(file, (TOP / "crates" / crate / file).read_text())
        elif key == "old":
            old = value
            count = texts[file].count(old)
            if count != 1:
                return f"stands there {count} times: {old}"
        elif key == "new":
            texts[file] = texts[file].replace(old, value)
    return None if file and old else "names no file or no text"


def main():
    edits = [(it, it.parent.name) for it in sorted(TOP.glob("edits/*/*.edit"))]
    edits += [(it, it.parent.parent.name) for it in sorted(TOP.glob("crates/*/must-fail/*.edit"))]
    lost = [f"{edit.relative_to(TOP)}: {why}" for edit, crate in edits if (why := misfit(edit, crate))]
    print("\n".join(lost + [f"{len(edits)} edits, {len(lost)} of which do not fit"]))
    return 1 if lost else 0


if __name__ == "__main__":
    sys.exit(main())
