#!/usr/bin/env python3
"""Checks the links between pages, and that each name that a page cites stands somewhere in the sources.

Run it at the top of the repository: `python3 docs/check_pages.py`. It prints what is missing, and exits with 1. A name is
a word in backticks with an underscore or an inner capital: a function, a clause, a law, a type. `FOREIGN` are the names
that other projects define."""
import pathlib
import re
import subprocess
import sys

ROOT = pathlib.Path(__file__).resolve().parent.parent
LINK = re.compile(r"\[[^\]]*\]\(([^)\s]+)\)")
NAME = re.compile(r"(?:[a-z0-9]+_\w+|[A-Za-z]*[a-z][A-Z]\w*)")
SOURCES = {".rt", ".antt", ".rs", ".py", ".sh", ".h", ".c", ".txt", ".toml", ".edit", ".rows", ".in"}
FOREIGN = {"allocation_pointer", "my_limits", "start_io", "start_lib"}
# Pages that tell of names that are gone.
HISTORIES = {"CHANGELOG.md", "HISTORY.md"}


def tracked():
    listed = subprocess.run(["git", "ls-files", "--cached", "--others", "--exclude-standard"], cwd=ROOT, check=True,
                            capture_output=True, text=True).stdout
    return [ROOT / it for it in listed.splitlines() if (ROOT / it).is_file()]


def anchors(page):
    """The anchors of a page's headings."""
    headings = re.findall(r"^#+ (.*)$", page.read_text(), re.M)
    return {re.sub(r"[^\w\- ]", "", it.lower()).replace(" ", "-") for it in headings}


def lost_links(page):
    for target in LINK.findall(page.read_text()):
        path, _, anchor = target.partition("#")
        place = (page.parent / path).resolve() if path else page
        if re.match(r"[a-z]+:", target):
            continue
        if not place.exists():
            yield f"{page.relative_to(ROOT)}: {target} is not there"
        elif anchor and place.suffix == ".md" and anchor not in anchors(place):
            yield f"{page.relative_to(ROOT)}: {target} has no such heading"


def lost_names(page, words):
    if page.name in HISTORIES:
        return
    text = re.sub(r"```.*?```", "", page.read_text(), flags=re.S)
    for cited in re.findall(r"`([^`\n]+)`", text):
        for name in re.split(r"\W+", cited):
            if NAME.fullmatch(name) and name not in words | FOREIGN:
                yield f"{page.relative_to(ROOT)}: `{name}` stands in no source"


def main():
    files = tracked()
    pages = [it for it in files if it.suffix == ".md"]
    words = set()
    for it in files:
        if it.suffix in SOURCES:
            words |= set(re.findall(r"\w+", f"{it.relative_to(ROOT)} {it.read_text(errors='replace')}"))
    lost = [line for page in pages for line in [*lost_links(page), *lost_names(page, words)]]
    print("\n".join(lost + [f"{len(pages)} pages, {len(lost)} links and names that lead nowhere"]))
    return 1 if lost else 0


if __name__ == "__main__":
    sys.exit(main())
