"""Writes plain Rust from the Rattle sources: contracts, ghosts and proof attributes are erased.

    python3 rust/erase             writes rust/*/src/erased, in rustfmt's layout, and changes.txt
    python3 rust/erase --check     fails if what is committed is not what this would write

Beside contracts and ghosts it changes only what the rules below name, and the places of places.txt. changes.txt lists each
change. What no rule knows is an error.

  contracts.py   `ghost ..`, `requires`, `ensures`, with the comments above them; proof attributes; the bound `Drop`
  impls.py       impls of `Model` and `Eq`, which have no code; destructors, which take the value in Rattle and a borrow in
                 Rust; `Clone`, whose result is a `Result` in Rattle, and which is `TryClone` if it may fail; the `Display`
                 of errors, which thiserror derives
  bodies.py      calls of `clone`, `fmt`, `hash_one`, `into_bytes`, `String::new` and `replace`, of which Rust has
                 others; the bound `Clone`; an index that is proved to be within; bounds of structs; constructors of empty
                 values
  names.py       paths, imports, docs
  tests.py       a test gets its runtime from a closure, and a program's `main` from its caller; macros are exported by a
                 `use`
"""
import filecmp
import shutil
import subprocess
import sys
import tempfile
from pathlib import Path

import audit
from names import with_head
from rules import erase
from tokens import EraseError

RUST = Path(__file__).resolve().parent.parent
CRATES = RUST.parent / "crates"
# The crates of each package, lowest first. `programs` contains those of `jeerdurian` as `crate::erased`, too. Left out are
# `lru_c`, the map for C, and `bench_loads`. Two tests are ignored, as places.txt says.
PACKAGES = {
    "jeerdurian": [
        "group_table", "lru_limits", "lru_model", "ordered_table", "schnellru", "lru_tenants", "lru_caches", "lru_theory",
        "lru_trace",
    ],
    "programs": [
        "test_helpers", "test_maps", "lru_replay", "trace", "replay",
        "example_pages", "example_responses", "rows", "group_table_tests", "lru_limits_tests", "schnellru_tests",
        "lru_replay_tests", "lru_tenants_tests", "lru_caches_tests", "lru_trace_tests",
    ],
}
# Those that need std.
OF_STD = ("lru_tenants", "lru_caches", "lru_trace")
MODULES = {name: ("crate::erased::" if package == "jeerdurian" else "crate::programs::") + name
           for package, names in PACKAGES.items() for name in names}
ALLOW = "#[allow(dropping_copy_types, unused, clippy::all)]"


def condition(crate):
    """When a crate is compiled."""
    if crate in OF_STD:
        return '#[cfg(feature = "std")]\n'
    return "#[cfg(test)]\n" if crate.endswith("_tests") else ""


def places():
    """The places of places.txt by file: a text that stands there once, and the new one."""
    found = {}
    for block in (RUST / "erase" / "places.txt").read_text().split("\n\n"):
        parts = {"file": [], "old": [], "new": []}
        for line in block.splitlines():
            key, _, value = line.partition(": ")
            if key in parts:
                parts[key].append(value)
        for file in parts["file"]:
            found.setdefault(file, []).append(("\n".join(parts["old"]), "\n".join(parts["new"])))
    return found


def with_places(text, at, todo):
    for old, new in todo.pop(at, ()):
        if text.count(old) != 1:
            raise EraseError(f"the place {old!r} stands there {text.count(old)} times")
        text = text.replace(old, new)
    return text


def write_crate(crate, out, todo):
    root = CRATES / crate / "src"
    for file in sorted(root.rglob("*.rt")):
        at = f"{crate}/{file.relative_to(root)}"
        place = out / crate / file.relative_to(root).with_suffix(".rs")
        if file.name in ("lib.rt", "main.rt"):
            place = place.with_name("mod.rs")
        place.parent.mkdir(parents=True, exist_ok=True)
        try:
            text = with_places(erase(file.read_text(), crate, MODULES), at, todo)
        except EraseError as error:
            sys.exit(f"{at}: {error}")
        place.write_text(with_head(text, f"crates/{crate}/src/{file.relative_to(root)}"))


def write_all(top):
    """Writes the erased modules of each package below `top`, and changes.txt."""
    todo = places()
    for package, crates in PACKAGES.items():
        out = top / package / "src" / "erased"
        out.mkdir(parents=True)
        for crate in crates:
            write_crate(crate, out, todo)
        lines = "".join(f"{condition(crate)}{ALLOW}\npub(crate) mod {crate};\n" for crate in crates)
        (out / "mod.rs").write_text(f"//! The crates of the workspace, erased: written by `python3 rust/erase`.\n\n{lines}")
        lay_out(out)
    if todo:
        sys.exit("places.txt names a file that is not there: " + ", ".join(todo))
    (top / "erase").mkdir(exist_ok=True)
    (top / "erase" / "changes.txt").write_text(audit.changes(CRATES, top, PACKAGES))


def lay_out(folder):
    """Lays out the modules of a folder as `cargo fmt` would in this workspace."""
    command = ["rustfmt", "--edition", "2024", "--config-path", str(RUST / "rustfmt.toml"), str(folder / "mod.rs")]
    subprocess.run(command, check=True)


def differs(a, b):
    """The paths in which two folders differ."""
    found = filecmp.dircmp(a, b)
    names = found.left_only + found.right_only + found.diff_files
    return [str(Path(a) / it) for it in names] + [it for name in found.common_dirs for it in differs(Path(a) / name, Path(b) / name)]


def check(fresh):
    """Compares the committed modules with fresh ones, both in the layout of the rustfmt that is here."""
    wrong = []
    for package in PACKAGES:
        committed = fresh / "committed" / package
        shutil.copytree(RUST / package / "src" / "erased", committed)
        lay_out(committed)
        wrong += differs(committed, fresh / package / "src" / "erased")
    if (RUST / "erase" / "changes.txt").read_text() != (fresh / "erase" / "changes.txt").read_text():
        wrong.append("changes.txt")
    if wrong:
        sys.exit("not what the sources erase to; run `python3 rust/erase`:\n" + "\n".join(wrong))


def main():
    with tempfile.TemporaryDirectory() as folder:
        fresh = Path(folder)
        write_all(fresh)
        if "--check" in sys.argv:
            return check(fresh)
        for package in PACKAGES:
            place = RUST / package / "src" / "erased"
            shutil.rmtree(place, ignore_errors=True)
            shutil.copytree(fresh / package / "src" / "erased", place)
        shutil.copy(fresh / "erase" / "changes.txt", RUST / "erase" / "changes.txt")


if __name__ == "__main__":
    main()
