"""The figures of tools/bench as text and as tables of Markdown."""
import json
import re
import textwrap

from programs import stop
from sources import TOP, read

# What the two sides of a kernel do, by its name in bench/src/kernels.rs, in a word for tables.
SIDES = {
    "same": "the same",
    "hashes": "another hash here",
    "written": "both written here",
    "repeats": "repeats refused here",
    "slots": "fewer slots here",
    "search": "a search there",
    "nearest": "its nearest there",
    "c": "C there",
}
# The parts that the pages and pictures tell apart: a heading, and what its kernels compare.
PARTS = (
    ("The same work on both sides", ("same",)),
    ("The same work, with another hash", ("hashes",)),
    ("The same work, which this project wrote out for both sides", ("written",)),
    ("Other work here, by a rule: repeats are refused, or a table has fewer slots", ("repeats", "slots")),
    ("A lookup table, which the Rust crate lacks, beside its search", ("search",)),
    ("A table with an entry for each quantile, which the Rust crate lacks, beside its lookup model and its division", ("nearest",)),
    ("The same work as C, which this project wrote", ("c",)),
)
# The loop that each kernel has too, which is no measurement of its own.
LOOP = "nothing but the loop"
# Kernels of calls whose names the Rust crate lacks.
OTHER_NAMES = re.compile(r".*(direct|known to differ|_of_distinct)")
# What kernels do, and how their names begin: the first that fits counts.
SUBJECTS = (
    ("a byte, by a table", "direct table "),
    ("a look-up by a division", "uniform quantile"),
    ("a look-up by a search", "(contiguous|decoder of symbols) quantile"),
    ("a look-up by a slot for each quantile", "direct lookup.* quantile"),
    ("a look-up by a table of slots", ".*lookup quantile|.*lookup of symbols quantile|.*slot lookup$"),
    ("a hashed encoder, asked or made", "hashed|to_generic_encoder"),
    ("the entry of a symbol, without a hash", ".*left_cumulative"),
    ("a row of a symbol table", ".*symbol_table"),
    ("a decoder of symbols made, comparing them", ".*comparing|direct lookup of symbols made"),
    ("a decoder of symbols made, hashing them", ".*hashing"),
    ("a decoder of symbols made, in order", ".*in order"),
    ("a model made, without a hash", ".*made"),
    ("a conversion, without a hash", "to_"),
    ("a symbol, by the client or a coder", "write_quantiles|read_symbols|.*coder"),
    ("a word, by a source or a sink", ""),
)

def is_measured(it):
    """Whether both sides have a time. There is none where the batch took no longer than the one that goes over nothing."""
    return it["rust"] > 0 and it["here"] > 0


def ratio(it):
    return it["here"] / it["rust"]


def ratio_text(it):
    return nanoseconds(ratio(it)) if is_measured(it) else "-"


def rows_of(it):
    return f"{it['rows']:,}" if it["rows"] else "-"


def nanoseconds(time):
    return "-" if time <= 0 else f"{time:.2f}" if time < 100 else f"{time:,.0f}"


def aligned(table):
    """Returns a table as columns, of which the first three are flush left."""
    widths = [max(map(len, column)) for column in zip(*table)]
    cells = ([word.ljust(width) if at < 3 else word.rjust(width) for at, (word, width) in enumerate(zip(row, widths))] for row in table)
    return "\n".join("  ".join(row).rstrip() for row in cells)


def markdown(table, left=3):
    """Returns a table whose first columns are flush left."""
    rule = ["---"] * left + ["--:"] * (len(table[0]) - left)
    return "\n".join("| " + " | ".join(row) + " |" for row in [table[0], rule, *table[1:]]).replace("<", "&lt;")


def table_of(made, head, said):
    """Returns a table of kernels: what each is, and what is said of it."""
    rows = ([it["name"], SIDES[it["sides"]], it["words"], rows_of(it), *said(it)] for it in made)
    return [["Kernel", "What is compared", "Words", "Rows", *head], *rows]


def times_of(made):
    said = lambda it: [nanoseconds(it["rust"]), nanoseconds(it["here"]), ratio_text(it)]
    return table_of(made, ["There, ns", "Here, ns", "Ratio"], said)


def times_by_parts(made):
    """Returns the tables of times, each below the heading of its part."""
    parts = ((heading, [it for it in made if it["sides"] in sides]) for heading, sides in PARTS)
    return "\n\n".join(f"### {heading}\n\n{markdown(times_of(these))}" for heading, these in parts if these)


def memory_of(made):
    said = lambda it: [f"{number:,}" for side in ("rust", "here") for number in (it[side][0] + it[side][1], it[side][2])]
    return table_of(made, ["Rust, requests", "Bytes", "Here, requests", "Bytes"], said)


def growth_of(made):
    """A row a kernel, a column a size: here, and the ratio to the Rust crate."""
    sizes, kinds = sorted({it["rows"] for it in made}), {it["name"]: SIDES[it["sides"]] for it in made}
    cells = {(it["name"], it["rows"]): f"{nanoseconds(it['here'])} ({ratio_text(it)})" for it in made}
    rows = ([name, kind, *(cells.get((name, size), "") for size in sizes)] for name, kind in kinds.items())
    return [["Kernel", "What is compared", *(f"2^{size.bit_length() - 1}" for size in sizes)], *rows]


def part_of(saved, sides):
    """Returns what was measured of kernels that compare such work, at all numbers of rows."""
    found = {}
    for it in [*saved["kernels"], *saved["growth"]]:
        if it["sides"] in sides and it["name"] != LOOP and is_measured(it):
            found.setdefault((it["name"], it["words"], it["rows"]), it)
    return [*found.values()]


def ratios_of(saved):
    """A row a subject, part by part: how many ratios there are, and which."""
    table = [["What", "Ratios", "Half at most", "Greatest"]]
    for heading, sides in PARTS:
        of = {}
        for it in part_of(saved, sides):
            of.setdefault(next(subject for subject, begins in SUBJECTS if re.match(begins, it["name"])), []).append(it)
        table += [[f"**{heading}**", *[""] * 3]] if of else []
        for subject, these in of.items():
            these.sort(key=ratio)
            table.append([subject, str(len(these)), *(ratio_text(it) for it in (these[len(these) // 2], these[-1]))])
    return table


def look_ups_of(saved):
    """A row a decoder's model: nanoseconds of a look-up; in brackets how long a table took to make, and after how many look-ups it pays."""
    at = {(it["name"], it["words"], it["rows"]): it["here"] for it in saved["kernels"]}
    sizes = sorted({rows for name, _, rows in at if name.startswith("contiguous quantile")})

    def cell(name, words, rows):
        found, search = at.get((f"{name} quantile_function", words, rows)), at.get(("contiguous quantile_function", words, rows))
        made, plain = at.get((f"{name} made", words, rows)), at.get(("contiguous made", words, rows))
        if not (found and made and plain and found < search):
            return f"{found:.1f}" if found else ""
        pays = (made - plain) * rows / (search - found)
        return f"{found:.1f} ({(made - plain) * rows / 1000:.1f} µs, {round(pays, 2 - len(f'{pays:.0f}')):,.0f})"

    models = [(words, name) for name, words, _ in at if re.match("(?!uniform).* quantile_function$", name)]
    found = sorted({(words, name.removesuffix(" quantile_function")) for words, name in models})
    rows = ([name, words, *(cell(name, words, rows) for rows in sizes)] for words, name in found)
    return [["Model", "Words", *(f"{rows:,} rows" for rows in sizes)], *rows]


def wrapped(text):
    return textwrap.fill(text, 138, break_long_words=False, break_on_hyphens=False)


def summary(saved):
    """Returns the sentences of the README: of calls of the same name on both sides, by their work, and of calls of other names."""
    same, most = part_of(saved, PARTS[0][1]), lambda these: ratio_text(max(these, key=ratio))
    named = sorted((it for it in same if not OTHER_NAMES.match(it["name"])), key=ratio)
    others = [it for it in same if OTHER_NAMES.match(it["name"])]
    few = sum(round(ratio(it), 2) <= 1.1 for it in named)
    return wrapped(
        f"Of {len(named)} measurements of calls with the Rust crate's names and work the median takes "
        f"{ratio_text(named[len(named) // 2])} times as long, {few} at most 1.1 times, the slowest, `{named[-1]['name']}`, "
        f"{ratio_text(named[-1])} times. Those that do other work take longer: constructors that compare symbols up to "
        f"{most(part_of(saved, ('repeats',)))} times, lookups by fewer slots up to {most(part_of(saved, ('slots',)))} times. The Rust crate's "
        f"work under other names takes at most {most(others)} times as long ([SPEED](docs/SPEED.md))."
    )


def sources_table(saved):
    """The sources of the Rust crate that were measured, and whether they are those that cases/ was recorded with."""
    said = "These are" if saved["crate"] == json.loads(read("cases/recorded.json"))["crate"] else "These are not all"
    table = markdown([["Source", "sha256, the first 16 digits"], *map(list, saved["crate"].items())], 2)
    return f"{said} those that `cases/` was recorded with.\n\n{table}"


def saved_in(file):
    """Returns saved figures. Stops if there are none."""
    try:
        with open(file, encoding="utf-8") as it:
            return json.load(it)
    except (OSError, ValueError) as why:
        stop(f"{file} has no figures: {why}")


def write_tables(saved):
    """Writes each section of a page, between its marks, from saved figures."""
    sections = {
        "machine": wrapped("Measured on {date} at commit {commit}: {processor}; {rust}; {kit}.".format(**saved["machine"])),
        "ratios": markdown(ratios_of(saved), 1),
        "look-ups": markdown(look_ups_of(saved), 2),
        "speed": summary(saved),
        "kernels": times_by_parts(saved["kernels"]),
        "growth": markdown(growth_of(saved["growth"]), 2),
        "memory": markdown(memory_of(saved["memory"])),
        "sources": sources_table(saved),
    }
    for page in ("README.md", "docs/SPEED.md", "bench/FIGURES.md"):
        marks = r"(<!-- (.*): written by tools/bench --table -->\n)(?:.*\n)*?(<!-- end of \2 -->)"
        text = re.sub(marks, lambda it: f"{it[1]}{sections[it[2]]}\n{it[3]}", read(page))
        with open(f"{TOP}/{page}", "w", encoding="utf-8") as it:
            it.write(text)
