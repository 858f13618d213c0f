"""Contracts, ghosts, proof attributes and the bound `Drop`."""
import re

from tokens import CLOSE, OPEN, EraseError, Token, after, closing, is_trivia, raw, significant, token_at, words

PROOF_ATTRIBUTES = ("tactic", "cycle", "error", "error_bound")
# Derives of Rattle alone. thiserror's `Error` writes a `Display`, which impls.py writes out.
PROOF_DERIVES = ("Drop", "Error")


def lex(text, tests_full=False):
    """The tokens of a file without its ghosts and clauses. With `tests_full`, a function of a table that requires a full
    bucket begins with a test of that."""
    out, at, full = [], 0, ""
    while at < len(text):
        token, end = token_at(text, at)
        if token.kind == "id" and token.text == "ghost":
            at = skip_ghost(text, at, end, out)
        elif token.kind == "id" and token.text in ("requires", "ensures"):
            drop_leading(out, keep_blank=False)
            at = skip_antt(text, text.index("{", end) + 1, "") + 1
            full = full or full_bucket(text[text.index("{", end):at])
            out.append(Token("ws", "\n"))
        else:
            out.append(token)
            at = end
            if full and token.text == "{":
                out += [Token("ws", "\n        "), raw(f"full!(self.control.byte({full}));")] if tests_full else []
                full = ""
    return out


def full_bucket(clause):
    """The bucket of a clause `{ IsFull self.now.slots b }`, or an empty text."""
    m = re.fullmatch(r"\{ IsFull self\.(?:now|old)\.slots (\w+) \}", clause)
    return m[1] if m else ""


def skip_ghost(text, at, end, out):
    """Goes past `ghost ..;` or a ghost field `ghost f: ..,`, and takes its `pub` and its comments back."""
    if re.search(r"\bpub(\s*\([\w\s:]*\))?\s*$", text[max(0, at - 60):at]):
        while out.pop().text != "pub":
            pass
    drop_leading(out, keep_blank=True)
    is_use = text[end:].lstrip().startswith("use ")
    at = skip_antt(text, end, ";" if is_use else ";,")
    out.append(Token("ws", "\n"))
    return at + (text[at] in ";,")


def skip_antt(text, at, ends):
    """Goes past the prover's terms, up to one of `ends` outside of all brackets. They have `--` comments and no quotes."""
    depth = 0
    while at < len(text):
        c = text[at]
        if text.startswith("--", at) and text[at - 1] in " \n{(":
            at = text.index("\n", at)
            continue
        if depth == 0 and c in ends:
            return at
        depth += (c in OPEN) - (c in CLOSE)
        if depth < 0:
            return at
        at += 1
    raise EraseError("a ghost or a clause does not end")


def drop_leading(out, keep_blank):
    """Removes the comments above what is erased, and the indentation. A blank line ends them."""
    while out and is_trivia(out[-1]):
        t = out[-1]
        if t.kind == "comment" and t.text.startswith("//!"):
            break
        if t.kind == "ws" and keep_blank and t.text.count("\n") > 1:
            break
        out.pop()
    if out and out[-1].text == "]" and keep_blank:
        raise EraseError("an attribute above a ghost")


def drop_attributes(toks):
    """Removes the attributes and the derives that speak to the prover."""
    out, i = [], 0
    while i < len(toks):
        if toks[i].text != "#":
            out.append(toks[i])
            i += 1
            continue
        j = after(toks, i)
        j = after(toks, j) if toks[j].text == "!" else j
        end = closing(toks, j)
        name = toks[after(toks, j)].text
        if name == "derive":
            names = [w for w in words(toks[j + 1:end]) if w not in ("derive", "(", ")", ",", *PROOF_DERIVES)]
            out += [raw(f"#[derive({', '.join(names)})]")] if names else []
        elif name not in PROOF_ATTRIBUTES:
            out += toks[i:end + 1]
        i = end + 1
    return out


def drop_bounds(toks):
    """Removes the bound `Drop`, which says in Rattle that a value may be let go. In `impl Drop for` it is no bound."""
    out, i = [], 0
    while i < len(toks):
        bound = after(toks, i)
        is_bound = bound < len(toks) and toks[bound].text == "Drop" and toks[bound].kind == "id"
        if toks[i].text == "+" and is_bound:
            i = bound + 1
        elif toks[i].text == ":" and is_bound:
            i = first_bound(toks, i, bound, out)
        else:
            out.append(toks[i])
            i += 1
    return out


def first_bound(toks, colon, bound, out):
    """Removes `Drop` behind a colon: with a `+` the others stay, and else the colon goes or the whole predicate."""
    rest = after(toks, bound)
    if toks[rest].text == "+":
        out += [toks[colon], Token("ws", " ")]
        return after(toks, rest)
    if not in_where(out):
        return bound + 1
    while significant(out, -1).text not in ("where", ","):
        out.pop()
    return rest + 1 if toks[rest].text == "," else bound + 1


def in_where(out):
    """Whether the end of `out` is in a where clause, and not among the parameters of an item."""
    ends = ("where", "impl", "fn", "struct", "enum", "trait", "{", "}")
    return next((t.text == "where" for t in reversed(out) if t.text in ends), False)
