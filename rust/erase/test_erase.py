"""Tests of the erasure: what it takes off, what it leaves alone, and what it refuses.  `python3 rust/erase/test_erase.py`"""
import sys

from rules import erase
from contracts import lex
from tokens import EraseError, is_trivia

# A source, and what is left of it.
CASES = [
    # Clauses, with a name and without, with braces, a comment that does not close, quotes and primes.
    ("fn f(x: u8) -> u8\n    requires { x < 9 }\n\n    // why\n    ensures more { result ≡ { a = x } }\n{ x }",
     "fn f(x: u8) -> u8 { x }"),
    ("fn f()\n    ensures* back { sem 𝓛 (g {K = K}) }\n{}", "fn f() {}"),
    ("fn f()\n requires { x' ≡ y' -- } not a brace {\n }\n{ '}'; \"{ requires {\"; }", "fn f() { '}'; \"{ requires {\"; }"),
    ("let g = |x: u8| -> u8\n requires { x < 3 }\n ensures { result ≡ x }\n { x + 1 };", "let g = |x: u8| -> u8 { x + 1 };"),
    ("trait T { fn f(&self) -> u8\n ensures { result ≡ m self.now }; }", "trait T { fn f(&self) -> u8 ; }"),
    # Ghosts of all kinds, with their docs.
    ("ghost use A.{◌≡◌, ℕ};\nuse b::c;", "use b::c;"),
    ("struct S {\n a: u8,\n /// d\n ghost f: { a ≤ 3 },\n}", "struct S { a: u8, }"),
    ("struct S {\n a: u8,\n pub ghost f: { a ≤ 3 } by { p },\n b: u8 }", "struct S { a: u8, b: u8 }"),
    ("struct S {\n pub a: u8,\n pub(crate) ghost f: { a },\n}", "struct S { pub a: u8, }"),
    ("trait T {\n /// d\n ghost m: { Self → ℕ } = { λ _. 0 };\n /// e\n fn f(); }", "trait T { /// e\n fn f(); }"),
    ("impl T for u8 { ghost m = { λ s. record { a = s; b = 0 } }; fn f() {} }", "impl T for u8 { fn f() {} }"),
    # The words of contracts in strings and comments, braces in comments, lifetimes that look like characters.
    ("// ghost x; requires { }\nlet s = \"ghost {\"; let c = b'{'; let l = r#\"ensures { \"# ;",
     "// ghost x; requires { }\nlet s = \"ghost {\"; let c = b'{'; let l = r#\"ensures { \"# ;"),
    ("fn f<'a>(x: &'a u8, c: char) -> &'a u8 { /* { */ if c == 'a' || c == '\\'' { x } else { x } }",
     "fn f<'a>(x: &'a u8, c: char) -> &'a u8 { /* { */ if c == 'a' || c == '\\'' { x } else { x } }"),
    # Attributes, derives and bounds.
    ("#![tactic(auto)]\n#[inline]\n#[tactic(auto, using(a::b))]\nfn f() {}", "#[inline]\nfn f() {}"),
    ("#[derive(Clone, Drop, Copy)] struct S; #[derive(Drop)] struct T;", "#[derive(Clone, Copy)] struct S; struct T;"),
    ("fn f<T: Drop, U: Eq + Drop, V: Drop + Eq, W>() where T: Drop, U: A, {}", "fn f<T, U: Eq , V: Eq, W>() where U: A, {}"),
    # Impls: a model, and a drop of each field.
    ("/// d\nimpl<T> Model for S<T> { ghost view = { λ c. c }; }\nfn f() {}", "fn f() {}"),
    ("// why\nimpl<T: Drop> Drop for S<T> { fn drop(self) { let S { a, b: _ } = self; drop(a); } }\nfn f() {}", "fn f() {}"),
    # Indices, clones, hashes and `fmt`.
    ("fn f() { v[i] = w[0]; self.a.b[g(x[j]) + 1] += 1; let t: [u8; 3] = [1, 2, 3]; &s[a..]; }",
     "fn f() { (*at_mut!(v, i)) = w[0]; (*at_mut!(self.a.b, g((*at!(x, j))) + 1)) += 1;"
     " let t: [u8; 3] = [1, 2, 3]; &(*at!(s, a..)); }"),
    ("fn f() { x.y.clone()?; z.clone(); }", "fn f() { x.y.try_clone()?; z.try_clone(); }"),
    ("fn f<T: Eq + Clone>(x: &T) { T::clone(x)?; x.swap(0); }", "fn f<T: Eq + TryClone>(x: &T) { T::try_clone(x)?; x.swap(0); }"),
    ("impl Clone for S { fn clone(&self) -> Result<Self, AllocError> { Err(AllocError) } }",
     "impl TryClone for S { fn try_clone(&self) -> Result<Self, AllocError> { Err(AllocError) } }"),
    ("fn f() { b[..n].copy_from_slice(c); String::new(self.alloc); t.replace(alloc, a, b); mem::replace(alloc, a); }",
     "fn f() { (*at_mut!(b, ..n)).copy_from_slice(c); String::new_in(self.alloc); t.replace_in(alloc, a, b);"
     " mem::replace(alloc, a); }"),
    ("struct S<K: Eq, V> { k: K, v: V } struct T<K: Eq, L: Budgeted<K>> { k: K, l: L }",
     "struct S<K, V> { k: K, v: V } struct T<K: Eq, L: Budgeted<K>> { k: K, l: L }"),
    ("fn f() { hasher.hash_one(&x.y) }", "fn f() { hasher.hash_by(&x.y) }"),
    ("fn fmt<W: fmt::Write>(&self, f: &mut fmt::Formatter<W>) -> fmt::Result {}",
     "fn fmt(&self, f: &mut fmt::Formatter<'_>) -> fmt::Result {}"),
    # Constructors: an empty value is const, a body with another call is not.
    ("fn new(alloc: Global) -> S { S { a: Vec::new(alloc), b: T { c: N::MAX }, alloc } } fn new(alloc: Global) -> T { g(alloc) }",
     "const fn new(alloc: Global) -> S { S { a: Vec::new(alloc), b: T { c: N::MAX }, alloc } }"
     " fn new(alloc: Global) -> T { g(alloc) }"),
    # Paths.
    ("use std::mem; use crate::a::b; use low::C; fn f() { low::g(); x.std; pub(crate) struct S; }",
     "use crate::rattle_std::mem; use crate::me::a::b; use crate::low::C;"
     " fn f() { crate::low::g(); x.std; pub(crate) struct S; }"),
    ("mod low; fn f() { low::g(); }", "mod low; fn f() { low::g(); }"),
    # The runtime.
    ("#[test] fn f(rt: HostRuntime) -> R { g(rt) }",
     "#[test] fn f() { let run = |rt: HostRuntime| -> R { g(rt) }; run(HostRuntime).passes(); }"),
    ("fn main(rt: HostRuntime) -> R { g(rt) }", "pub(crate) fn main(rt: HostRuntime) -> R { g(rt) }"),
    # The code of docs, of an item and of a module.
    ("/// d\n///\n/// ```\n/// f(rt; 1)\n/// ```\n///\n/// e\nfn f() {}", "/// d\n///\n/// e\nfn f() {}"),
    ("/// ```\n/// f(rt; 1)\n/// ```\nfn f() {}\n/// d\n/// ```text\n/// t\n/// ```\nfn g() {}", "fn f() {}\n/// d\nfn g() {}"),
    ("/// d\n///\n/// In the examples, a\n/// is b.\n///\n/// ```\n/// a\n/// ```\nfn f() {}", "/// d\nfn f() {}"),
    ("/// d\n///\n/// In the examples, a.\nfn f() {}", "/// d\nfn f() {}"),
    # A paragraph about contracts, but not a line of another paragraph.
    ("/// d\n///\n/// Contracts see a\n/// as b.\n///\n/// e\nfn f() {}", "/// d\n///\n/// e\nfn f() {}"),
    ("/// Contracts see a.\nfn f() {}\n/// d\n/// Contracts see a.\nfn g() {}",
     "fn f() {}\n/// d\n/// Contracts see a.\nfn g() {}"),
    # A destructor that changes other values alone.
    ("struct S<'a> { a: &'a u8, b: u64 } impl Drop for S<'_> { fn drop(self) { g(self.a); } }",
     "struct S<'a> { a: &'a u8, b: u64 } impl Drop for S<'_> { fn drop(&mut self) {"
     " unsafe { ::core::ptr::read(self) }.take_apart(); } } impl S<'_> { fn take_apart(self) { g(self.a); } }"),
]

# What no rule knows.
REFUSED = [
    "fn f() requires { ",
    "struct S<T> { a: T, b: u8 }\nimpl<T> Drop for S<T> { fn drop(self) { g(); } }",
    "struct S<'a> { a: &'a u8, b: String }\nimpl Drop for S { fn drop(self) { g(); } }",
    "#[a] ghost m = { x };",
    "impl Model for S { fn f() {} }",
    "impl Clone for S { fn clone(&self) -> Option<S> { None } }",
]
MODULES = {"me": "crate::me", "low": "crate::low"}


def words(text):
    kept = [t for t in lex(text) if not is_trivia(t) or t.text.startswith("///")]
    return [t.text.strip() for t in kept]


def is_refused(source):
    try:
        erase(source, "me", MODULES)
    except (EraseError, ValueError):
        return True
    return False


def main():
    wrong = [(source, wanted) for source, wanted in CASES if words(erase(source, "me", MODULES)) != words(wanted)]
    for source, wanted in wrong:
        print(f"--- source\n{source}\n--- wanted\n{wanted}\n--- got\n{erase(source, 'me', MODULES)}")
    accepted = [source for source in REFUSED if not is_refused(source)]
    print("\n".join(f"not refused: {source}" for source in accepted))
    print(f"{len(CASES) + len(REFUSED)} cases of the erasure, {len(wrong) + len(accepted)} wrong")
    return 1 if wrong or accepted else 0


if __name__ == "__main__":
    sys.exit(main())
