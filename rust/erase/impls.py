"""Impls that mean something else in Rust: of `Model`, `Eq`, `Drop`, `Clone`, and the `Display` of thiserror."""
import re

from tokens import EraseError, after, before, closing, find, item_start, raw, text_of, words

# A field that is a reference or a number.
NOTHING_TO_DROP = r"(pub )?\w+ : (& [^:]*|[iu](8|16|32|64|128|size))( ,)?"
READ_ONCE = "// SAFETY: each field is read once, and the whole is not dropped."


class Impl:
    """`impl<..> TRAIT for TYPE where .. { body }` at `start`."""

    def __init__(self, toks, start):
        i = start
        while toks[i].text != "{":
            i = closing(toks, i) + 1 if toks[i].text in ("[", "(") else i + 1
            if toks[i].text == ";":
                raise EraseError("an impl without a body")
        self.end = closing(toks, i)
        self.head, self.inside = toks[start:i], toks[i + 1:self.end]
        names = words(self.head)
        self.trait = self.type = None
        if "for" in names:
            at = names.index("for")
            self.trait, self.type = names[at - 1], names[at + 1]
            if self.trait == ">":
                self.trait = None


def begins_impl(toks, i):
    """Whether an impl begins at `i`. `impl Trait` as a type does not."""
    if toks[i].kind != "id" or toks[i].text != "impl":
        return False
    last = before(toks, i)
    return last < 0 or toks[last].text in ("}", ";", "]", "{", "unsafe")


def impls(toks):
    """Rewrites the impls. Returns the tokens, and the types whose destructor stays."""
    out, i, dropped = [], 0, set()
    while i < len(toks):
        if not begins_impl(toks, i):
            out.append(toks[i])
            i += 1
            continue
        it = Impl(toks, i)
        if says_nothing(it):
            del out[item_start(out + toks[i:i + 1], len(out)):]
        elif it.trait == "Drop":
            dropped.add(it.type)
            out += destructor(it, toks)
        elif it.trait == "Clone":
            out += clone(it)
        else:
            # Its items are read again, since an impl may contain a function with an impl.
            out.append(toks[i])
            i += 1
            continue
        i = it.end + 1
    return out, dropped


def says_nothing(it):
    """Whether an impl says in Rust what is so anyway: a model, an `Eq`, the drop of each field."""
    if it.trait in ("Model", "Eq"):
        if words(it.inside):
            raise EraseError(f"an impl of {it.trait} with code")
        return True
    return it.trait == "Drop" and only_takes_apart(it.inside)


def only_takes_apart(inside):
    """Whether a `drop` only takes `self` apart and drops fields. Rust drops the fields in their order."""
    names = words(inside)
    statements = " ".join(names[names.index("{") + 1:-1]).strip()
    return re.fullmatch(r"let \w+ \{[^{}]*\} = self ;( drop \( \w+ \) ;)*", statements) is not None


def destructor(it, toks):
    """Rust's `drop` borrows the value, and drops its fields afterwards. So the value is taken out of its place first."""
    if words(it.inside)[:5] != ["fn", "drop", "(", "self", ")"]:
        raise EraseError("a drop of another form")
    head = text_of(it.head)
    next(t for t in it.inside if t.text == "drop").text = "take_apart"
    return [raw(f"{head}{{\n    fn drop(&mut self) {{\n        {taken_out(it.type, toks)}.take_apart();\n    }}\n}}\n\n"
                + re.sub(r"\bDrop\s+for\s+", "", head) + "{")] + it.inside + [raw("}")]


def taken_out(name, toks):
    """A value in place of which nothing is left to drop: an empty one, or no field has anything to drop."""
    names = re.sub(r"# \[ [^]]*\] ", "", " ".join(words(toks)))
    if re.search(rf"impl < [^{{]*> {name} < [^{{]*{{ (.*?)fn new \( alloc : Global \) -> Self", names):
        return ("// What is left in its place has nothing to drop.\n        "
                f"::core::mem::replace(self, {name}::new(crate::rattle_std::alloc::Global))")
    fields = re.search(rf"struct {name} < [^{{]*{{ ([^}}]*) }}", names)
    if fields and all(re.fullmatch(NOTHING_TO_DROP, field) for field in re.split(r" , (?=(?:pub )?\w+ :)", fields[1])):
        return ("// SAFETY: each field is a reference or a number, which has nothing to drop.\n        "
                "unsafe { ::core::ptr::read(self) }")
    raise EraseError(f"what is left in the place of a dropped {name}?")


def take_apart(toks, dropped):
    """`let TYPE { a, b: x, c: _ } = value;` of a type with a destructor, which Rust refuses, field by field."""
    out, i = [], 0
    while i < len(toks):
        name = after(toks, i)
        if toks[i].text == "let" and name < len(toks) and toks[name].text in dropped and toks[after(toks, name)].text == "{":
            brace = after(toks, name)
            end = closing(toks, brace)
            semi = find(toks, end, ";")
            value = text_of(toks[after(toks, after(toks, end)):semi])
            out.append(raw(fields_of(text_of(toks[brace + 1:end]), value)))
            i = semi + 1
            continue
        out.append(toks[i])
        i += 1
    return out


def fields_of(pattern, value):
    lines = [f"let whole = ::core::mem::ManuallyDrop::new({value});"]
    for field in filter(str.strip, pattern.split(",")):
        name, _, bound = (s.strip() for s in field.partition(":"))
        bound = f"_{name}" if bound == "_" else bound or name
        lines += [READ_ONCE, f"let {bound} = unsafe {{ ::core::ptr::read(&whole.{name}) }};"]
    return "\n        ".join(lines)


def clone(it):
    """`fn clone(&self) -> Result<..>`: Rust's returns the value. A clone that names an error is a `TryClone`, and the others
    never fail."""
    i = find(it.inside, 0, "clone")
    brace = find(it.inside, i, "{")
    m = re.fullmatch(r"clone\(&self\)\s*->\s*(Result<.*, AllocError>)\s*", text_of(it.inside[i:brace]), re.S)
    if not m:
        raise EraseError("a clone of another form: " + text_of(it.inside[i:brace]))
    lead = text_of(it.inside[:i])
    body = it.inside[brace:closing(it.inside, brace) + 1]
    if "AllocError" in words(body):
        next(t for t in it.head if t.text == "Clone").text = "TryClone"
        it.inside[i].text = "try_clone"
        return it.head + [raw("{")] + it.inside + [raw("}")]
    return (it.head + [raw(f"{{{lead}clone(&self) -> Self {{\n        let made = || -> {m[1]} ")] + body
            + [raw(";\n        never_fails(made())\n    }\n}")])


def displayed_errors(toks):
    """Writes what thiserror derives: `Display`, by the texts of `#[error(..)]`, and core's `Error`."""
    out, i = [], 0
    while i < len(toks):
        out.append(toks[i])
        if toks[i].kind == "id" and toks[i].text == "enum":
            start = item_start(toks, before(toks, i) if toks[before(toks, i)].text == "pub" else i)
            lead, brace = words(toks[start:i]), find(toks, i, "{")
            if "Error" in lead:
                end = closing(toks, brace)
                out += toks[i + 1:end + 1] + [raw(display(lead, toks[i + 1:brace], toks[brace + 1:end]))]
                i = end
        i += 1
    return out


def display(lead, head, inside):
    """The impls of `Display` and `Error` for an enum with these attributes, this head and these variants."""
    name, *generics = words(head)
    generics = "".join(generics)
    bound = ""
    if "error_bound" in lead:
        at = lead.index("error_bound")
        bound = "where " + " ".join(lead[at + 2:lead.index(")", at)]) + ", "
    arms, k, sources = [], 0, []
    while k < len(inside):
        if inside[k].text == "error" and inside[before(inside, k)].text == "[":
            text = next(t.text for t in inside[k:] if t.kind == "str")
            k = after(inside, find(inside, k, "]"))
            variant, has_field = inside[k].text, inside[after(inside, k)].text == "("
            if has_field and "from" in words(inside[k:closing(inside, after(inside, k))]):
                sources.append(variant)
            arms.append(f'{name}::{variant}{"(value)" if has_field else ""} => '
                        f'write!(f, {text}{", value" if has_field and "{0" in text else ""}),')
        k += 1
    return f"""

impl{generics} ::core::fmt::Display for {name}{generics} {bound}{{
    fn fmt(&self, f: &mut ::core::fmt::Formatter<'_>) -> ::core::fmt::Result {{
        match self {{ {' '.join(arms)} }}
    }}
}}
"""
