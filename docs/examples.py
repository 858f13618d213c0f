#!/usr/bin/env python3
"""Writes the tests of the examples, `crates/*_tests/src/examples*.rt`, from the doc comments of the libraries.

Run it at the top of the repository: `python3 docs/examples.py` compares what it would write with the files, and exits
with 1 if they differ; `--write` writes them and needs `rt fmt`; `--bare` lists public items without an example.

The tests are written in the form that is proved fastest. The assertions that follow one another become one `all!`. An
example that begins with a given name, such as `map`, stands in a function that takes it by `&mut`, and the map is
filled again unless the example before only reads (`READS`). Other examples of a file follow one another in one test; a
new test begins if a name is declared again. An example that another one contains is not repeated.
"""
import pathlib
import re
import subprocess
import sys

from example_crates import CRATES

ROOT = pathlib.Path(__file__).resolve().parent.parent
ITEM = re.compile(r"^\s*pub (?:const )?(?:fn|struct|enum|trait|type) (\w+)")
FIRST = "//! Written by `docs/examples.py` from the examples in the doc comments. Do not change it by hand."
STRING = re.compile(r'"(?:\\.|[^"\\])*"')
GENERICS = re.compile(r"(?:::|->\s*\w*)<[^<>;(){}]*(?:<[^<>]*>[^<>;(){}]*)*>")
FOUND = r"(\w+(?:\.\w+\([^()]*\))+) == Some"
ERRORS = {"_fallible(": "GetOrInsertError<u8>", "put_full(": "TenantError", "counts(&1)?": "TenantError", ".iter(&1)?": "TenantError"}
LENGTH = 12
IMPORT = re.compile(r"((?:ghost )?use [\w:.]+?)(::|\.)(\{[^}]*\}|\w+);")
# How a text uses an import that it does not name.
SIGNS = {"BuildHasher": r"\.hash_one\(", "BlockDevice": r"\b(?:disk|device)\.(?:has|read|write|sync)\(",
         "Durable": r"\.make_durable\(", "◌≡◌": "ghost ", "◌*◌": "ghost "}
READS = {"len", "is_empty", "contains", "contains_key", "peek", "peek_key_value", "peek_oldest", "peek_newest", "peek_older",
         "peek_newer", "keys", "values", "iter", "get_index", "get_index_of", "first", "last", "entries", "budget", "cost",
         "names", "total_cost", "total_budget", "total_limit", "limit", "share"}


def squeezed(text):
    return re.sub(r",([)\]}])", r"\1", re.sub(r"\s+", "", text))


class Example:
    def __init__(self, place, lines):
        text = "\n".join(re.sub(r"\s+// .*$", "", it) for it in lines)
        self.place, self.text, self.key = place, text, squeezed(text).rstrip(",")

    def needs(self, name):
        """Whether the example uses a name that it does not declare first."""
        use = re.search(rf"(?<![.\w]){name}\b", self.text)
        declared = re.search(rf"let (?:mut )?{name}\b", self.text)
        return bool(use) and not (declared and declared.start() < use.start()
                                  and f"{name}." not in self.text[declared.start():].split(";")[0])

    def reads(self, name):
        """Whether the example only reads this value."""
        return set(re.findall(rf"\b{name}\.(\w+)", self.text)) <= READS

    def declared(self):
        return set(re.findall(r"^let (?:mut )?(\w+)\b", self.text, re.M))

    def statements(self):
        found = ""
        for line in self.text.splitlines():
            found += ("\n" if found else "") + line
            level = STRING.sub("", found)
            is_closed = sum(level.count(it) for it in "([{") == sum(level.count(it) for it in ")]}")
            if is_closed and line.endswith((";", "}")):
                yield found
                found = ""
        if found:
            yield found


def documented(path, root):
    """The items of a file, each with its line, whether it is public, and its examples."""
    examples, lines, current = [], path.read_text().splitlines(), None
    for at, line in enumerate(lines, 1):
        comment = re.match(r"\s*//[/!] ?(.*)$", line)
        if comment:
            if comment[1].startswith("```"):
                if current is not None:
                    examples.append(current)
                current = [] if current is None else None
            elif current is not None:
                current.append(comment[1])
        elif (item := ITEM.match(line)):
            yield at, item[1], line.startswith(" ") or re.search(rf"\b{item[1]}\b", root) is not None, examples
            examples = []
        elif not line.strip().startswith("#[") and line.strip():
            examples = []


def items(crate):
    for library in crate.libraries:
        source = ROOT / "crates" / library / "src"
        root = (source / "lib.rt").read_text()
        for path in sorted(it for it in source.rglob("*.rt") if "laws" not in str(it)):
            for at, name, is_public, examples in documented(path, root):
                yield path.relative_to(ROOT / "crates"), at, name, is_public, examples


def arguments(text):
    """The two sides of an `assert_eq!`."""
    depth = at = 0
    while at < len(text):
        skipped = STRING.match(text, at) or GENERICS.match(text, at)
        if skipped:
            at = skipped.end()
            continue
        depth += (text[at] in "([{") - (text[at] in ")]}")
        if text[at] == "," and not depth:
            return text[:at].strip(), text[at + 1:].strip().rstrip(",")
        at += 1
    raise ValueError(text)


def condition(statement, pairs):
    """What a statement asserts, or none."""
    macro = re.fullmatch(r"assert(_eq)?!\(rt;\s*(.*)\);", statement, re.S)
    if not macro:
        return None
    text = " == ".join(arguments(macro[2])) if macro[1] else macro[2].strip()
    if pairs:
        text = re.sub(FOUND + r"\(\(&(\w+), &(\w+)\)\)", r"is_pair(\1, \2, \3)", text)
        text = re.sub(FOUND + r"\(&(\w+)\)", r"is_value(\1, \2)", text)
    return text


def joined(conditions):
    return conditions[0] if len(conditions) == 1 else f"all!({', '.join(conditions)})"


def body(steps):
    """The lines of steps, each a condition or a statement, and the last condition."""
    lines, waiting, held = [], [], False
    for is_condition, text in steps:
        if is_condition:
            waiting.append(text)
            continue
        if waiting:
            lines.append(f"let held = held & all!({', '.join(waiting)});" if held else f"let held = {joined(waiting)};")
            waiting, held = [], True
        lines.append(text)
    if not waiting:
        return lines, "held" if held else "true"
    if not held:
        return lines, joined(waiting)
    return lines, f"held & all!({', '.join(waiting)})"


def steps_of(example, crate):
    for statement in example.statements():
        held = condition(statement, crate.pairs)
        yield held is not None, held or statement


class Written:
    """The files of examples of one crate of tests."""

    def __init__(self, crate):
        self.crate, self.items, self.functions = crate, [], []

    def split(self, examples):
        """Groups examples: those that take a value by `&mut`, and the others by file."""
        taken, alone = {}, []
        for it in examples:
            needed = [name for name in self.crate.given if it.needs(name)]
            name = next((name for name in needed if self.crate.given[name].fill), None)
            owned = rf"&{name}\b|{{{name}|\b{name} ==|\b{name}\.into_iter|\b{name}\.close\(\)"
            if name and not re.search(owned, it.text):
                taken.setdefault(name, []).append(it)
            else:
                alone.append(it)
        return taken, alone

    def part(self, name, number, examples):
        given, steps = self.crate.given[name], []
        is_generic = given.generic is not None and "hash_named" in examples[0].text
        parameter, kind_of = (f"<{given.generic[0]}>", given.generic[1]) if is_generic else ("", given.kind)
        is_full = is_generic
        for it in examples:
            if not is_full:
                steps.append((True, f"{given.fill}({name})"))
            steps += [step for step in steps_of(it, self.crate)
                      if step not in steps or not re.match(rf"let (?!mut )(?!.*\b{name}\b)", step[1], re.S)]
            is_full = it.reads(name)
        text = "\n".join(it.text for it in examples)
        lines, last = body(steps)
        error = error_of(text)
        kind, last = (f"Result<bool, {error}>", f"Ok({last})") if error else ("bool", last)
        head = f"fn {name}_{number}{parameter}({name}: &mut {kind_of}) -> {kind} {{"
        self.functions.append("\n".join([head, *lines, last, "}"]))
        call = f"{name}_{number}(&mut {name})" + (".unwrap_or(false)" if error else "")
        return f"{given.fill}(&mut {name}), {call}" if is_generic else call

    def parts(self, name, examples):
        """Writes the functions that take a value, and the test that calls them."""
        calls, group, size = [], [], 0
        for it in [*examples, None]:
            length = len(list(it.statements())) + 1 if it else 0
            errors = {error_of(other.text) for other in [*group, it] if other} - {None}
            is_other = it is not None and "hash_named" in "".join(other.text for other in [*group[-1:], it])
            if group and (it is None or size + length > LENGTH or len(errors) > 1 or is_other):
                calls.append(self.part(name, len(calls) + 1, group))
                group, size = [], 0
            if it:
                group.append(it)
                size += length
        given = self.crate.given[name]
        lines = self.made([name])
        self.test(f"on_a_{name}", [*lines, f"let held = {joined(calls)};", given.end], "held", " ".join(lines))

    def made(self, names):
        """The lines that make values, those that they need first."""
        lines = []
        for name in names:
            make = self.crate.given[name].make
            needed = [other for other in self.crate.given
                      if other != name and re.search(rf"[(&, ]{other}\b", make.split("=")[1])]
            lines += [*self.made(needed), make]
        return list(dict.fromkeys(lines))

    def test(self, name, lines, last, text):
        if re.search(r"\balloc\b", text):
            lines = ["let alloc = rt.alloc();", *lines]
        kind, end = (" -> Result<(), Fail>", ["Ok(())"]) if "?" in re.sub(r'"[^"]*"', "", text) else ("", [])
        if "all!" in last:
            lines, last = [*lines, f"let held = {last};"], "held"
        check = [] if last == "true" else [f"check!(rt; {last});"]
        lines = [it for it in lines if it]
        self.functions.append("\n".join(["#[test]", f"fn {name}(rt: HostRuntime){kind} {{", *lines, *check, *end, "}"]))

    def alone(self, path, number, examples):
        """Writes one test of examples that follow one another."""
        text = "\n".join(it.text for it in examples)
        first, steps = Example(path, text.splitlines()), []
        names = [it for it in self.crate.given if first.needs(it)]
        lines = [(False, it) for it in self.made(names)]
        lines += [(True, f"{self.crate.given[it].fill}(&mut {it})") for it in names if self.crate.given[it].fill]
        for it in examples:
            for is_condition, step in steps_of(it, self.crate):
                if re.match(r"(#\[|struct |impl)", step):
                    self.items.append(step)
                else:
                    steps.append((is_condition, step))
        lines, last = body(lines + steps)
        name = "of_" + "_".join(path.with_suffix("").parts[2:]) + (f"_{number}" if number > 1 else "")
        if path.parts[0] not in name and len(self.crate.libraries) > 1 and path.parts[0] != self.crate.libraries[0]:
            name = name.replace("of_", f"of_{path.parts[0]}_", 1)
        self.test(name, lines, last, "\n".join([*lines, last]))

    def file(self):
        """Ends a file, and returns its text."""
        text = "\n\n".join([*self.items, *self.functions])
        self.items, self.functions = [], []
        head = "\n".join(it.strip() for it in self.crate.head.strip().splitlines())
        return "\n".join([FIRST, imported(head, text) if self.crate.splits else head, "", text, ""])

    def files(self, examples):
        """The names and the texts of the files that contain these examples."""
        taken, alone = self.split(examples)
        for name, group in taken.items():
            self.parts(name, group)
        if self.crate.splits:
            yield "examples_on_values.rt", self.file()
        for path in dict.fromkeys(it.place for it in alone):
            group, number, names = [], 1, set()
            for it in [it for it in alone if it.place == path] + [None]:
                if group and (it is None or names & it.declared()):
                    self.alone(path, number, group)
                    group, number, names = [], number + 1, set()
                if it:
                    group.append(it)
                    names |= it.declared()
        yield "examples.rt", self.file()


def imported(head, text):
    """The imports that the text uses."""
    lines = []
    for path, joint, names in IMPORT.findall(head):
        names = [it.strip() for it in names.strip("{}").split(",")]
        used = [it for it in names if it and re.search(SIGNS.get(it, rf"\b{it}\b"), text)]
        if used:
            lines.append(f"{path}{joint}{used[0] if len(used) == 1 and joint == '::' else '{' + ', '.join(used) + '}'};")
    return "\n".join(lines)


def error_of(text):
    """The error of the `?` of a text, or none."""
    if "?" not in re.sub(r'"[^"]*"', "", text):
        return None
    return next((error for word, error in ERRORS.items() if word in text), "AllocError")


def examples_of(crate):
    """The examples of a crate that no other one contains, in the order of the files."""
    found = [Example(path, lines) for path, _, _, _, examples in items(crate) for lines in examples]
    for at, it in enumerate(found):
        if not any(it.key in other.key and (it.key != other.key or before < at)
                   for before, other in enumerate(found) if before != at):
            yield it


def main():
    if "--bare" in sys.argv:
        bare = [f"{path}:{at}: {name}" for crate in CRATES.values()
                for path, at, name, is_public, examples in items(crate) if is_public and not examples]
        print("\n".join([*bare, f"{len(bare)} public items without an example"]))
        return 0
    count = lost = 0
    for crate_name, crate in CRATES.items():
        folder = ROOT / "crates" / f"{crate_name}_tests"
        for name, text in Written(crate).files(list(examples_of(crate))):
            path, count = folder / "src" / name, count + 1
            if "--write" in sys.argv:
                path.write_text(text)
            elif not path.is_file() or squeezed(path.read_text()) != squeezed(text):
                lost += 1
                print(f"{path.relative_to(ROOT)}: run docs/examples.py --write")
        if "--write" in sys.argv:
            subprocess.run(["rt", "fmt"], cwd=folder, check=True)
    print(f"{count} files of examples, {lost} of which are not what the doc comments say")
    return 1 if lost else 0


if __name__ == "__main__":
    sys.exit(main())
