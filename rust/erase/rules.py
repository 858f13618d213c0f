"""The order of the rules."""
from bodies import calls, constructors, indices, key_bounds
from contracts import drop_attributes, drop_bounds, lex
from impls import displayed_errors, impls, take_apart
from names import docs, imports, paths
from tests import macros, tests
from tokens import text_of


def erase(text, crate, modules):
    """The Rust module of a Rattle file, without the places and the head."""
    toks = drop_bounds(drop_attributes(displayed_errors(lex(text, tests_full=crate == "group_table"))))
    toks, dropped = impls(toks)
    toks = constructors(calls(take_apart(toks, dropped)))
    toks = tests(key_bounds(indices(toks), dropped))
    return macros(imports(text_of(paths(docs(toks), crate, modules))))
