"""Paths, imports and docs: all crates become modules of one crate."""
import re

from tokens import after, before, is_trivia, raw

PRELUDE = "#[allow(unused_imports)]\nuse crate::rattle_std::prelude::*;\n"


def paths(toks, crate, modules):
    """`std::`, `crate::` and the names of the crates lead to modules of the one crate, unless a module of the file has the
    name."""
    lead = dict(modules)
    lead["crate"], lead["std"] = modules[crate], "crate::rattle_std"
    for i, t in enumerate(toks):
        if t.text == "mod":
            lead.pop(toks[after(toks, i)].text, None)
    out = []
    for i, t in enumerate(toks):
        if t.kind == "id" and t.text in lead and names_crate(toks, i):
            t = raw(lead[t.text])
        out.append(t)
    return out


def names_crate(toks, i):
    """Whether a name begins a path, or is imported whole. In `pub(crate)` it does not."""
    p, n = before(toks, i), after(toks, i)
    last = toks[p].text if p >= 0 else ""
    following = toks[n].text if n < len(toks) else ""
    begins = last not in ("::", ".") and following == "::"
    is_whole = last == "use" and following in (";", "as")
    return (begins or is_whole) and not (toks[i].text == "crate" and last == "(")


def imports(text):
    """Removes the imports of what only contracts and derives name."""
    text = re.sub(r"use (crate::rattle_std::marker::Model|thiserror::Error);\n", "", text)
    return re.sub(r"(use crate::rattle_std::marker::\{)Model, ", r"\1", text)


def docs(toks):
    """Drops the code blocks of docs, which are Rattle, the paragraphs about these examples and about contracts, and the
    empty lines above. The erased tests contain each line of the code."""
    out, end, above = [], None, ""
    for t in toks:
        line = re.sub("//[/!]", "", t.text).strip() if t.kind == "comment" else None
        if not is_trivia(t) or (end == "" and line == ""):
            end = None
        begins = r"```\w*$|In the examples" if above else r"```\w*$|In the examples|Contracts "
        if end != "```" and line is not None and re.match(begins, line):
            end = "```" if line[0] == "`" else ""
            drop_last(out, "ws")
            if out and out[-1].text in ("///", "//!"):
                out.pop()
                drop_last(out, "ws")
        elif end is None or line is None:
            out.append(t)
        else:
            drop_last(out, "ws")
            end = None if line == end else end
        if line is not None or not is_trivia(t):
            above = line or ""
    return out


def drop_last(toks, kind):
    if toks and toks[-1].kind == kind:
        toks.pop()


def with_head(text, source):
    """The text with its first line, which names its source, and the names of Rattle's prelude."""
    lines, at = text.lstrip("\n").split("\n"), 0
    while at < len(lines) and (lines[at].startswith(("//!", "#![")) or not lines[at].strip()):
        at += 1
    lines.insert(at, PRELUDE)
    return f"// Erased from {source}: do not edit.\n" + "\n".join(lines)
