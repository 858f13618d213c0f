"""Tests and programs, whose runtime is a parameter in Rattle, and macros, which the other modules name."""
from tokens import after, closing, find, raw, text_of, words


def tests(toks):
    """`fn f(rt: HostRuntime) -> R { .. }` of a test calls a closure with the runtime. A `main` is called with it."""
    out, i = [], 0
    while i < len(toks):
        if toks[i].text != "fn" or not takes_runtime(toks, i):
            out.append(toks[i])
            i += 1
            continue
        if toks[after(toks, i)].text == "main":
            out += [raw("pub(crate) "), toks[i]]
            i += 1
            continue
        paren = after(toks, after(toks, i))
        brace = find(toks, closing(toks, paren), "{")
        end = closing(toks, brace)
        result = text_of(toks[closing(toks, paren) + 1:brace]).replace("->", "").strip() or "()"
        out += toks[i:paren] + [raw(f"() {{\n    let run = |rt: HostRuntime| -> {result} {{")]
        out += toks[brace + 1:end] + [raw("};\n    run(HostRuntime).passes();\n}")]
        i = end + 1
    return out


def takes_runtime(toks, i):
    paren = after(toks, after(toks, i))
    if toks[paren].text != "(":
        return False
    return words(toks[paren:closing(toks, paren) + 1])[:4] == ["(", "rt", ":", "HostRuntime"]


def macros(text):
    names = [line.split()[1] for line in text.split("\n") if line.startswith("macro_rules! ")]
    return text.replace("#[macro_export]\n", "") + "".join(f"pub(crate) use {name};\n" for name in names)
