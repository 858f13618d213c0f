"""Calls and expressions: clones, hashes, `fmt`, indices, the macro `nowhere!`."""
import re

from impls import Impl, begins_impl
from tokens import CLOSE, OPEN, after, before, closing, find, is_trivia, item_start, raw, significant, text_of, words

# Traits whose keys are bound.
BOUND_BY_KEYS = ("Insertion", "Budgeted", "OwnedBytes")
KEYWORDS = {"mut", "in", "return", "let", "if", "match", "else", "dyn", "as", "ref", "move", "while", "break"}


def calls(toks):
    """Renames calls and functions of which Rust knows others by the same name."""
    out, i = [], 0
    while i < len(toks):
        written = renamed_clone(toks, i, out) or hash_by(toks, i, out) or made_in(toks, i, out) or fmt(toks, i, out)
        if written:
            token, i = written
            out.append(token)
        elif defines_nowhere(toks, i):
            del out[item_start(out + [toks[i]], len(out)):]
            i = closing(toks, find(toks, i, "{")) + 1
        else:
            out.append(toks[i])
            i += 1
    return out


def renamed_clone(toks, i, out):
    """`.clone()` and `T::clone(`, which may fail, and a method `clone` whose result is a `Result`, are called `try_clone`.
    The bound `Clone` is `TryClone`."""
    if toks[i].text == "Clone" and significant(out, -1) and significant(out, -1).text in (":", "+"):
        return raw("TryClone"), i + 1
    if toks[i].text != "clone" or not out:
        return None
    is_call = (out[-1].text == "." and text_of(toks[i:i + 3]) == "clone()") or text_of(out[-1:] + toks[i:i + 2]) == "::clone("
    is_method = significant(out, -1).text == "fn" and "-> Result" in text_of(toks[i:i + 40]).split("{")[0]
    return (raw("try_clone"), i + 1) if is_call or is_method else None


def hash_by(toks, i, out):
    """`s.hash_one(&x)` is called `hash_by`: an impl of Rust's `BuildHasher` may override `hash_one`."""
    return (raw("hash_by"), i + 1) if toks[i].text == "hash_one" and out and out[-1].text == "." else None


def made_in(toks, i, out):
    """`String::new(alloc)` and `s.replace(alloc, ..)`, of which Rust's take no allocator, are `new_in` and `replace_in`.
    `into_bytes`, of which Rust's makes another vector, is `into_vec`."""
    if toks[i].text == "into_bytes":
        return raw("into_vec"), i + 1
    lead = text_of(out[-2:])
    is_text = (toks[i].text == "new" and lead == "String::") or (toks[i].text == "replace" and lead.endswith("."))
    if not is_text or toks[i + 1].text != "(" or "alloc" not in words(toks[i + 2:i + 7]):
        return None
    return raw(toks[i].text + "_in"), i + 1


def fmt(toks, i, out):
    """`fn fmt<W: Write>(.., f: &mut Formatter<W>)`: Rust's formatter has no parameter."""
    if toks[i].text != "fmt" or not out or significant(out, -1).text != "fn" or toks[i + 1].text != "<":
        return None
    paren = find(toks, i, "(")
    brace = find(toks, paren, "{")
    return raw("fmt" + re.sub(r"Formatter<\w+>", "Formatter<'_>", text_of(toks[paren:brace]))), brace


def constructors(toks):
    """A `new` or `with_hasher` that only lists the fields of an empty value is `const`, so that a map can be a static.
    Rattle's `Vec::new` is not."""
    out = []
    for i, token in enumerate(toks):
        if token.kind == "id" and token.text == "fn" and text_of(toks[i + 1:i + 2]).isspace() and lists_fields(toks, i):
            out.append(raw("const "))
        out.append(token)
    return out


def lists_fields(toks, i):
    """Whether the function at `i` is such a constructor: it takes the allocator, and calls no other function but a `new`
    with the allocator."""
    name = after(toks, i)
    if toks[name].text not in ("new", "with_hasher") or words(toks[name + 1:name + 6])[:4] != ["(", "alloc", ":", "Global"]:
        return False
    brace = find(toks, i, "{")
    body = " ".join(words(toks[brace + 1:closing(toks, brace)])).replace(":: new ( alloc )", "")
    return re.fullmatch(r"\w+ \{[\w\s:,{}]*\}", body) is not None and toks[before(toks, i)].text != "const"


def defines_nowhere(toks, i):
    return toks[i].text == "macro_rules" and "nowhere" in words(toks[i:i + 8])


def indices(toks):
    """An index that is no literal, which is proved to be within: the tests of `at!` are left to the shim."""
    out, i = [], 0
    while i < len(toks):
        if not indexes(toks[i], out):
            out.append(toks[i])
            i += 1
            continue
        end = closing(toks, i)
        inside = toks[i + 1:end]
        if len(inside) == 1 and inside[0].kind == "num":
            out.append(toks[i])
            i += 1
            continue
        start = base_start(out)
        base = out[start:]
        del out[start:]
        rest = "".join(t.text for t in toks[after(toks, end):after(toks, end) + 3])
        is_written = re.match(r"[-+*/|&^]?=(?![=>])|\.copy_from_slice\(", rest) or (significant(out, -1) and significant(out, -1).text == "mut")
        macro = "at_mut" if is_written else "at"
        out += [raw(f"(*{macro}!(")] + base + [raw(", ")] + indices(inside) + [raw("))")]
        i = end + 1
    return out


def indexes(token, out):
    """Whether a bracket indexes what stands before it."""
    if token.text != "[" or token.kind != "punct" or not out:
        return False
    last = out[-1]
    return (last.kind == "id" and last.text not in KEYWORDS) or last.text in ("]", ")")


def base_start(out):
    """Where the expression at the end of `out` begins: names, fields, calls."""
    i = len(out) - 1
    while True:
        if out[i].text in CLOSE:
            depth = 0
            while True:
                depth += (out[i].text in CLOSE) - (out[i].text in OPEN)
                if depth == 0:
                    break
                i -= 1
            if i > 0 and out[i - 1].kind == "id":
                i -= 1
        if i > 1 and out[i - 1].text in (".", "::"):
            i -= 2
            continue
        return i


def key_bounds(toks, dropped):
    """Removes the bounds that only an invariant reads (`Eq`, `Hash`, `KeyHasher`) from structs without a destructor, and
    from impls that clone them. A bound that is left may need them."""
    out, i = [], 0
    while i < len(toks):
        is_struct = toks[i].kind == "id" and toks[i].text == "struct" and toks[after(toks, i)].text not in dropped
        if is_struct or clones(toks, i):
            end = find(toks, i, "{", ";", "(")
            if not any(name in BOUND_BY_KEYS for name in words(toks[i:end])):
                out.append(raw(without_key_bounds(text_of(toks[i:end]))))
                i = end
                continue
        out.append(toks[i])
        i += 1
    return out


def clones(toks, i):
    """Whether an impl begins that has a `try_clone`."""
    if not begins_impl(toks, i):
        return False
    names = words(Impl(toks, i).inside)
    return ("fn", "try_clone") in zip(names, names[1:])


def without_key_bounds(head):
    for name in ("Eq", "Hash", "KeyHasher"):
        head = re.sub(rf"(:|\+)\s*{name}(<\w+>)?(?=\s*[+,>=])", lambda m: ":" if m[1] == ":" else "", head)
    head = re.sub(r":\s*\+", ":", head)
    return re.sub(r":\s*(?=[,>=])", " ", head)
