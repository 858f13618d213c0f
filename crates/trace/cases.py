"""Writes `stdout` and the files of `cases`: traces, and what `trace` must print, counted by a plain list for each size.

NAME.args has the arguments of a case. `rt try --cases cases` and the tests of rust/programs run them."""
import math
import pathlib
import re

HERE = pathlib.Path(__file__).resolve().parent
FOLDER = HERE / "cases"
CASES = {
    "empty": b"",
    "no_sizes": b"1 2 x\na\n",
    "plus": b"+1\na\n",
    "two_spaces": b"1  2\na\n",
    "too_large": b"18446744073709551616\na\n",
    "sizes_alone": b"0 1",
    "one_key": b"0 1 2\na\n",
    "one_key_often": b"0 1\n" + b"a\n" * 9,
    "all_different": b"0 1 5 12\n" + b"".join(b"k%d\n" % i for i in range(11)),
    "cycle": b"0 3 4 5\n" + b"".join(b"k%d\n" % (i % 5) for i in range(40)),
    "limits": b"0 007 18446744073709551615\na\nb\na\n",
    "carriage_returns": b"1 2\na\r\nb\r\na\r\na\n",
    "carriage_return_in_sizes": b"1 2\r\na\r\n",
    "long_lines": b"1\n" + b"x" * 64 + b"\n" + b"x" * 65 + b"\n" + b"x" * 64,
    "no_text": b"1 2\n\xff\xfe\n\xd0\xba\n\xd0\n\xd0\xba\n",
    "empty_lines": b"1\n\n\na\n\n",
    "columns": b"1 2 3\n" + b"".join(b"%d,k%d,%d\r\n" % (i, i * i % 5, i % 3) for i in range(20))
    + b"alone\n,,\n0,,1\n0,k0\n0," + b"x" * 65 + b",2\n0,k1,2,3\n",
    "steps": b"1 2 4 8\n" + b"".join(b"%d\n" % (i * i % 17) for i in range(200)),
    "bytes": b"0 1 100 1000 4500 18446744073709551615\n" + b"".join(b"%d,k%d\n" % (i * i % 31 * 37, i * i % 17)
                                                                    for i in range(200)),
    "bytes_alone": b"5 3 5\n7,a\n7,a\n7,b\n7,a\n",
    "bytes_changed": b"1 2 3 9\n1,a\n2,b\n9,a\n0,b\n5,c\n1,a\n",
    "bytes_large": b"9 10 11\n5,a\n5,b\n20,c\n5,a\n5,b\n0,z\n20,c\n0,z\n5,a\n0,z\n",
    "bytes_limits": b"18446744073709551615 9223372036854775808 0\n18446744073709551615,a\n0,b\n0,b\n"
    b"18446744073709551615,a\n00,c\n0,b\n",
    "bytes_malformed": b"1 20\n" + b"".join(b"%s,k\n" % size for size in
                                            [b"", b"-1", b"+1", b" 1", b"1 ", b"0x1", b"1.0", b"18446744073709551616", b"x",
                                             b"99999999999999999999999", b"007", b"7"]) + b"7\n7,\n7,\xff\nalone\n12,k,3\n",
    "bytes_none": b"1 2\n-,a\n-,b\n",
    "deletes": b"0 1 2 3 4\n" + b"".join(b"%s\n" % line for line in b"a,b,c,- b,d,b,- z,a,- b,- b,b,c,a,- a,- c,e,d,b,a,c".split(b",")),
    "deletes_many": b"1 2 4 8 16\n" + b"".join(b"%s%d\n" % (b"- " if i % 7 in (2, 5) else b"", i * i * i % 23 * i % 19)
                                             for i in range(400)),
    "deletes_malformed": b"1 2\na\n- \n-\n-a\n--\n- " + b"x" * 65 + b"\n- \xff\n-  a\na\n- a\na\n-a\n- " + b"x" * 64,
    "deletes_of_columns": b"1 2\n1,a\n2,b\n- 3,a\n- b\n1,- b\n1,b\n1,a\n- ,\n-,a\n- 0,b,1\n0,b\n",
    "bytes_too_many": b"1\n18446744073709551615,a\n1,b\n",
}

BEST = ["one_key_often", "all_different", "cycle", "limits", "no_text", "steps"]
FORMS = ["no_sizes", "sizes_alone", "one_key", "all_different", "cycle", "limits", "carriage_returns", "steps"]

FRAME = """\
<svg xmlns='http://www.w3.org/2000/svg' viewBox='0 0 7800 4600' width='780' height='460'
font-family='sans-serif' font-size='140'>
<style>
path{fill:none;stroke-width:28;stroke-linejoin:round;stroke-linecap:round}
.grid{stroke:#ccc;stroke-width:8}.frame{stroke:#444;stroke-width:12}
.lru{stroke:#0b5394}.min{stroke:#cc4125;stroke-dasharray:90 60}.bypass{stroke:#38761d;stroke-dasharray:1 60}
.tick{text-anchor:middle}.part{text-anchor:end}
</style>
<rect width='7800' height='4600' fill='#fff'/>
<path class='grid' d='M900 700h6400M900 1340h6400M900 1980h6400M900 2620h6400M900 3260h6400'/>
<path class='frame' d='M900 700v3200h6400'/>
<text class='part' x='820' y='750'>100 %</text>
<text class='part' x='820' y='1390'>80 %</text>
<text class='part' x='820' y='2030'>60 %</text>
<text class='part' x='820' y='2670'>40 %</text>
<text class='part' x='820' y='3310'>20 %</text>
<text class='part' x='820' y='3950'>0 %</text>
<text class='tick' transform='translate(250 2300) rotate(-90)'>references that miss</text>
"""
LEGEND = {"lru": (900, "LRU"), "min": (2300, "MIN"), "bypass": (3700, "MIN with bypass")}


def text(line):
    """Returns whether the line is a key."""
    try:
        line.decode()
    except UnicodeDecodeError:
        return False
    return 1 <= len(line) <= 64


def fnv_1a(key):
    """Returns the FNV-1a hash of 64 bits."""
    value = 0xcbf29ce484222325
    for byte in key:
        value = (value ^ byte) * 0x100000001b3 & 2**64 - 1
    return value


def misses(keys, places, warm_up=0):
    """Counts the misses behind the warm-up in a list of the newest keys."""
    cache, count = [], 0
    for now, key in enumerate(keys):
        if key in cache:
            cache.remove(key)
        elif now >= warm_up:
            count += 1
        cache = ([key] + cache)[:places]
    return count


def misses_within(keys, sizes, limit, warm_up):
    """Counts the misses behind the warm-up in a list of the newest keys, cut before the first key above the limit."""
    cache, count = [], 0
    for now, key in enumerate(keys):
        if key in cache:
            cache.remove(key)
        elif now >= warm_up:
            count += 1
        cache.insert(0, key)
        while sum(sizes[it] for it in cache) > limit:
            cache.pop()
    return count


def best_misses(keys, places, bypass):
    """Counts the misses of MIN in a plain list, or those of MIN with bypass: it evicts the key that comes last again."""
    def comes(key, after):
        return keys.index(key, after) if key in keys[after:] else len(keys)

    cache, count = [], 0
    for now, key in enumerate(keys):
        if key in cache:
            cache.remove(key)
        else:
            count += 1
        while len(cache) >= max(places, 1) and not bypass:
            cache.remove(max(cache, key=lambda it: comes(it, now + 1)))
        cache.append(key)
        while len(cache) > places:
            cache.remove(max(cache, key=lambda it: comes(it, now + 1)))
    return count


def cells(lines, column, separator):
    """Returns a column of the lines, or the lines if there is no column."""
    if not column:
        return lines
    found = [line.split(separator)[column - 1:][:1] for line in lines]
    return [cell[0] if cell else b"" for cell in found]


class Read:
    """What a trace says, or that its first line names no sizes."""

    def __init__(self, trace, column=0, separator=b"", warm_up=0, sample=0, size_column=0):
        lines = trace.split(b"\n")
        if lines[-1] == b"":
            lines.pop()
        words = lines[0].split(b" ") if lines else [b""]
        self.sizes = None
        if all(word.isdigit() and int(word) < 2**64 for word in words):
            self.sizes = [int(word) for word in words]
        texts = cells(lines[1:], column, separator)
        sizes = cells(lines[1:], size_column, separator) if size_column else [b"1"] * len(texts)
        read = [(key, int(size)) for key, size in zip(texts, sizes)
                if text(key) and re.fullmatch(rb"[0-9]+", size) and int(size) < 2**64]
        self.keys = [key for key, _ in read]
        self.malformed = len(lines) - 1 - len(self.keys)
        hit = [fnv_1a(key) & (1 << sample) - 1 == 0 for key in self.keys]
        self.skipped = hit[warm_up:].count(False) if sample else None
        self.warm_up = sum(hit[:warm_up])
        self.keys = [key for key, is_in in zip(self.keys, hit) if is_in]
        self.first = dict(reversed([(key, size) for (key, size), is_in in zip(read, hit) if is_in]))
        self.in_bytes = bool(size_column)
        self.needed = sum(self.first.values())
        if self.needed >= 2**64:
            self.sizes = None
        self.references = len(self.keys) - self.warm_up
        self.different = len(set(self.keys))
        self.scale = 1 << sample
        self.scaled()

    def scaled(self):
        self.expected = (self.references + (self.skipped or 0)) // self.scale
        self.axis = [1]
        while self.axis[-1] < min(max(1, self.needed) * self.scale, 2**63):
            self.axis.append(2 * self.axis[-1])
        self.powers = [power for power in self.axis if power >= self.scale]

    def part(self, missed, scale):
        if missed > self.expected:
            return scale
        return missed * scale // self.expected if self.expected else 0

    def hits(self, missed):
        return max(0, self.expected - missed)

    def misses(self, places):
        if self.in_bytes:
            return misses_within(self.keys, self.first, places // self.scale, self.warm_up)
        return misses(self.keys, places // self.scale, self.warm_up)

    def ratio(self, missed):
        ratio = self.part(missed, 10000)
        return f"{ratio // 10000}.{ratio % 10000:04}"

    def best(self, places):
        places //= self.scale
        return best_misses(self.keys, places, False), best_misses(self.keys, places, True)

    def points(self):
        return sorted(set(self.sizes + self.powers))


class ReadDeletes(Read):
    """What a trace with deletes says."""

    def __init__(self, trace, column=0, separator=b"", warm_up=0, sample=0, size_column=0):
        lines = trace.split(b"\n")
        super().__init__(lines[0], sample=sample)
        if lines[-1] == b"":
            lines.pop()
        marks = [line.startswith(b"- ") for line in lines[1:]]
        texts = cells([line[2:] if mark else line for line, mark in zip(lines[1:], marks)], column, separator)
        read = [(key, mark) for key, mark in zip(texts, marks) if text(key)]
        self.malformed = len(lines) - 1 - len(read)
        self.skipped, self.calls, self.needed, seen, there = 0, [], 0, 0, set()
        for key, mark in read:
            counted = seen >= warm_up
            seen += not mark
            if fnv_1a(key) & (1 << sample) - 1 != 0:
                self.skipped += counted and not mark
                continue
            self.calls.append((key, mark, counted))
            there = there - {key} if mark else there | {key}
            self.needed = max(self.needed, len(there))
        self.skipped = self.skipped if sample else None
        self.references = sum(counted and not mark for _, mark, counted in self.calls)
        self.different = self.needed
        self.scaled()

    def misses(self, places):
        cache, count = [], 0
        for key, mark, counted in self.calls:
            count += counted and not mark and key not in cache
            cache = [it for it in cache if it != key]
            if not mark:
                cache = ([key] + cache)[:places // self.scale]
        return count


def report(read, best):
    """Returns the report for people."""
    out = f"references {read.references} keys {read.different} malformed {read.malformed}"
    out += "\n" if read.skipped is None else f" skipped {read.skipped}\n"
    for places in read.sizes:
        missed = read.misses(places)
        out += f"{'bytes' if read.in_bytes else 'places'} {places} hits {read.hits(missed)} misses {missed} ratio {read.ratio(missed)}"
        if best:
            out += " min %d bypass %d" % read.best(places)
        out += "\n"
    for places in read.powers:
        out += f"{places:>12} |" + "#" * read.part(read.misses(places), 50) + "\n"
    return out


def csv(read, best):
    """Returns the records for programs."""
    out = "size,hits,misses,ratio" + (",min,bypass" if best else "") + "\n"
    for places in read.points():
        missed = read.misses(places)
        out += f"{places},{read.hits(missed)},{missed},{read.ratio(missed)}"
        out += (",%d,%d" % read.best(places) if best else "") + "\n"
    return out


def svg(read, best):
    """Returns the picture."""
    octaves = max(1, len(read.axis) - 1)

    def across(size):
        level = size.bit_length() - 1
        behind = (size - 2**level) * 1000 // 2**level
        log = 1000 * level + behind + behind * (1000 - behind) * 353 // 1000000
        assert abs(log - 1000 * math.log2(size)) < 9
        return 900 + log * 6400 // (1000 * octaves)

    out = FRAME + "<text class='tick' x='4100' y='4400'>size of the cache, in "
    out += "bytes</text>\n" if read.in_bytes else "entries</text>\n"
    out += f"<text x='900' y='290'>{read.references} references to {read.different} keys, "
    out += f"{read.malformed} malformed lines" + ("" if read.skipped is None else f", {read.skipped} skipped")
    out += "</text>\n"
    for level, size in enumerate(read.axis):
        if level % (1 + octaves // 9) == 0:
            out += f"<path class='grid' d='M{across(size)} 700v3200'/>"
            out += f"<text class='tick' x='{across(size)}' y='4080'>{size}</text>\n"
    shown = [size for size in read.points() if size and across(size) <= 7300]
    curves = {"lru": [read.misses(size) for size in shown]}
    if best:
        curves["min"], curves["bypass"] = zip(*map(read.best, shown))
    for policy, counts in curves.items():
        left, name = LEGEND[policy]
        out += f"<path class='{policy}' d='M{left} 500h500'/><text x='{left + 580}' y='550'>{name}</text>\n"
        out += f"<path class='{policy}' d='M"
        out += "".join(f"{across(it)} {3900 - read.part(missed, 3200)} " for it, missed in zip(shown, counts))
        out += "h0'/>\n"
    return out + "</svg>\n"


def write(name, trace, words, form=report, column=0, separator=b",", warm_up=None, sample=None, size_column=0):
    """Writes a case with these arguments, of which `words` names no column, no warm-up and no sample."""
    reader = ReadDeletes if "--deletes" in words else Read
    read = reader(trace, column, separator, warm_up or 0, sample or 0, size_column)
    words = words + (["--warm-up", warm_up] if warm_up is not None else [])
    words += ["--sample", sample] if sample is not None else []
    words += ["--column", column] if column else []
    words += ["--size-column", size_column] if size_column else []
    words += ["--separator", separator.decode()] if separator != b"," else []
    (FOLDER / name).write_bytes(trace)
    if words:
        (FOLDER / f"{name}.args").write_text("".join(f"{word}\n" for word in words))
    (FOLDER / f"{name}.stdout").write_text("" if read.sizes is None else form(read, "--best" in words))


for name, trace in CASES.items():
    if name.startswith("bytes"):
        write(name, trace, [], column=0 if name == "bytes_alone" else 2, size_column=1)
    else:
        write(name, trace, [])
for name in ["deletes", "deletes_many", "deletes_malformed", "steps", "sizes_alone"]:
    write(f"{name}_counted", CASES[name], ["--deletes"])
for name, form in ("csv", csv), ("svg", svg):
    write(f"deletes_many_{name}", CASES["deletes_many"], ["--deletes", f"--{name}"], form)
    write(f"deletes_many_sample_{name}", CASES["deletes_many"], ["--deletes", f"--{name}"], form, warm_up=9, sample=1)
write("deletes_of_columns_counted", CASES["deletes_of_columns"], ["--deletes"], report, 2)
write("deletes_sample", CASES["deletes_many"], ["--deletes"], report, sample=1)
for warm_up in 2, 4, 100:
    write(f"deletes_warm_up_{warm_up}", CASES["deletes"], ["--deletes"], report, warm_up=warm_up)
write("deletes_many_warm_up", CASES["deletes_many"], ["--deletes"], report, warm_up=150)
for name in BEST:
    write(f"{name}_best", CASES[name], ["--best"])
for name in FORMS:
    write(f"{name}_csv", CASES[name], ["--csv"], csv)
    write(f"{name}_svg", CASES[name], ["--svg"], svg)
for name in ["cycle", "limits", "steps"]:
    write(f"{name}_best_csv", CASES[name], ["--best", "--csv"], csv)
    write(f"{name}_best_svg", CASES[name], ["--svg", "--best"], svg)
for column in 1, 2, 3, 9:
    write(f"columns_{column}", CASES["columns"], ["--csv"], csv, column)
write("columns_of_k", CASES["columns"], ["--best"], report, 2, b"k")
write("columns_of_semicolons", CASES["steps"], [], report, 2**64 - 1, b";")
for warm_up in 0, 1, 6, 40, 41, 2**64 - 1:
    write(f"cycle_warm_up_{warm_up}", CASES["cycle"], [], report, warm_up=warm_up)
write("steps_warm_up_csv", CASES["steps"], ["--csv"], csv, warm_up=17)
write("steps_warm_up_svg", CASES["steps"], ["--svg"], svg, warm_up=150)
write("all_different_warm_up", CASES["all_different"], [], report, warm_up=4)
write("no_text_warm_up", CASES["no_text"], [], report, warm_up=1)
write("sizes_alone_warm_up", CASES["sizes_alone"], [], report, warm_up=3)
write("columns_warm_up", CASES["columns"], ["--csv"], csv, 2, warm_up=10)
for sample in 0, 1, 2, 3, 20:
    write(f"steps_sample_{sample}", CASES["steps"], [], report, sample=sample)
write("steps_sample_best", CASES["steps"], ["--best"], report, sample=1)
write("steps_sample_best_csv", CASES["steps"], ["--csv", "--best"], csv, sample=2)
write("steps_sample_svg", CASES["steps"], ["--svg"], svg, sample=2)
write("steps_sample_none_svg", CASES["steps"], ["--svg"], svg, sample=20)
write("steps_sample_warm_up", CASES["steps"], [], report, warm_up=50, sample=1)
write("steps_sample_warm_up_csv", CASES["steps"], ["--csv"], csv, warm_up=197, sample=1)
write("all_different_sample", CASES["all_different"], [], report, sample=1)
write("cycle_sample_best_svg", CASES["cycle"], ["--svg", "--best"], svg, sample=1)
write("limits_sample", CASES["limits"], [], report, sample=1)
write("limits_sample_none", CASES["limits"], [], report, sample=2)
write("sizes_alone_sample", CASES["sizes_alone"], [], report, sample=4)
write("columns_sample", CASES["columns"], ["--csv"], csv, 2, sample=1)
for name, form in ("csv", csv), ("svg", svg):
    for trace in "bytes", "bytes_large", "bytes_limits", "bytes_none":
        write(f"{trace}_{name}", CASES[trace], [f"--{name}"], form, 2, size_column=1)
write("bytes_warm_up", CASES["bytes"], [], report, 2, warm_up=40, size_column=1)
write("bytes_changed_warm_up", CASES["bytes_changed"], [], report, 2, warm_up=2, size_column=1)
write("bytes_sample", CASES["bytes"], [], report, 2, sample=1, size_column=1)
write("bytes_sample_svg", CASES["bytes"], ["--svg"], svg, 2, warm_up=20, sample=2, size_column=1)
write("bytes_limits_sample", CASES["bytes_limits"], ["--csv"], csv, 2, sample=1, size_column=1)
write("bytes_of_semicolons", CASES["bytes"].replace(b",", b";"), [], report, 2, b";", size_column=1)
write("bytes_of_keys", CASES["columns"], ["--csv"], csv, 2, size_column=3)
(HERE / "stdout").write_text(report(Read((HERE / "stdin").read_bytes()), True))
