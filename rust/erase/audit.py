"""What the erasure changes beyond contracts and ghosts: each run of tokens that it takes out or puts in."""
import difflib
from collections import Counter

from contracts import lex
from tokens import after, closing, is_trivia


def code(text):
    """The words of a file without imports, attributes and the commas that a layout adds."""
    toks, out, i = [t for t in lex(text) if not is_trivia(t)], [], 0
    while i < len(toks):
        if toks[i].text == "#" and toks[i + 1].text in ("[", "!"):
            i = closing(toks, i + (2 if toks[i + 1].text == "!" else 1)) + 1
        elif toks[i].text == "use" and toks[i].kind == "id":
            while toks[i].text != ";":
                i += 1
            i += 1
            if out and out[-1] == "pub":
                out.pop()
        else:
            out.append(toks[i].text)
            i += 1
    return [w for k, w in enumerate(out) if not (w == "," and k + 1 < len(out) and out[k + 1] in (")", "}", "]", ">", "{"))]


def changes(crates, top, packages):
    """A line for each kind of change, the most frequent first, and a last line that counts them."""
    found, total = Counter(), 0
    for package, names in packages.items():
        for name in names:
            for file in sorted((crates / name / "src").rglob("*.rt")):
                place = top / package / "src" / "erased" / name / file.relative_to(crates / name / "src").with_suffix(".rs")
                if file.name in ("lib.rt", "main.rt"):
                    place = place.with_name("mod.rs")
                a, b = code(file.read_text()), code(place.read_text())
                total += len(b)
                for kind, i, j, k, l in difflib.SequenceMatcher(None, a, b, autojunk=False).get_opcodes():
                    if kind != "equal":
                        found[" ".join(a[i:j]) + "  =>  " + " ".join(b[k:l])] += 1
    lines = [f"{count:4}  {change}\n" for change, count in sorted(found.items(), key=lambda c: (-c[1], c[0]))]
    return "".join(lines) + f"{len(found)} kinds of change, {sum(found.values())} changes, in {total} tokens of code\n"
