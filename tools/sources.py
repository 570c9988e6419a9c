"""The sources as a reader sees them: definitions of specs/, and items of src/ with their clauses, without bodies and proofs."""
import os
import re
import sys

TOP = os.path.dirname(os.path.dirname(os.path.realpath(__file__)))
WORD = r"[^\W\d][\w'-]*"
# comments of antt, the header of a module, and how a definition begins
COMMENT = re.compile(r"(?: *--.*\n)*")
HEADER = re.compile(r"(?: *--.*\n)* *module _ (?:.*\n)*?.*where\n")
SIGNED = re.compile(rf"(?:abbrev |unfoldable )?(?:pub )?(?:(record|data) )?(?!use |mod |open |infix|ruleset )({WORD}|◌\S*◌)(?= |$)")
ITEM = re.compile(r"(pub )?(?:pub\([a-z]+\) )?(?:unsafe |final |const (?=fn))*(fn|struct|enum|trait|impl|type|const|ghost|use|mod)\b ?(\w*)")
CLAUSE = re.compile(r" *(requires|ensures)\*? ?(\w*)")


def read(path):
    with open(f"{TOP}/{path}", encoding="utf-8") as it:
        return it.read()


def usage(text, words):
    """Prints how a tool is called. Returns its exit status: 0 if the words ask for that, and else 2, since they are a wrong call."""
    is_asked = words in (["-h"], ["--help"])
    print(text, end="", file=sys.stdout if is_asked else sys.stderr)
    return 0 if is_asked else 2


def files_below(folder, ending):
    return sorted(os.path.relpath(f"{at}/{it}", TOP) for at, _, files in os.walk(f"{TOP}/{folder}") for it in files if it.endswith(ending))


def indent_of(line):
    return len(line) - len(line.lstrip(" "))


def plain(line):
    """Returns a line without its comment and without what stands in quotes."""
    return re.sub(r"'(?:\\.|[^\\'])'", "''", re.sub(r'"(?:\\.|[^"\\])*"', '""', line)).partition("//")[0].rstrip()


def taken(names, text):
    """Adds to names what a `use` of antt imports, as `Rattle.crate.specs.Rows.{Row, rows_of as made}` or `Rattle.crate.specs.Rows as R`."""
    module, _, inner = text.partition(".{")
    for name in inner.rstrip("}").split(",") if inner else [module]:
        first, _, other = name.strip().partition(" as ")
        if inner or other:
            names[other or first] = (module, first) if inner else (first, None)


class Part:
    """A definition, an item of a source, or a member of a trait or an impl: its comment, and its lines without body and attributes."""

    def __init__(self, file, kind, name, docs, lines, names, owner=None, around=()):
        self.file, self.kind, self.name, self.docs, self.lines, self.names, self.owner = file, kind, name, docs, lines, names, owner
        self.crate, self.depth = file.split("/")[1], indent_of(lines[0])
        # below specs/, as `Rows` or `lemmas.Rows`, or below src/, as `plane.learned`
        self.module = ".".join(os.path.splitext(file)[0].split("/")[3:])
        # of a definition the headers of the modules around it, of a trait or an impl its members
        self.around, self.members, self.owns, self.is_public = around, [], {name}, False
        starts = [at for at, it in enumerate(lines) if kind == "fn" and CLAUSE.match(it) and indent_of(it) == self.depth + 4]
        # of each clause its word, its name or "", and its lines
        self.clauses = [(*CLAUSE.match(lines[a]).groups(), lines[a:b]) for a, b in zip(starts, [*starts[1:], None])]
        self.signature = lines[: starts[0] if starts else None]
        self.header = " ".join(it.strip() for it in lines).rstrip(" {") if kind in ("trait", "impl") else ""
        bare, less = "", self.header.replace("->", "")
        while bare != less:
            bare, less = less, re.sub(r"<[^<>]*>", "", less)
        # of an impl the names of its trait, if it has one, and of its type
        self.trait = next(iter(re.findall(r"^impl (?:[\w:]*?(\w+) for )?(?:&(?:'\w+ )?(?:mut )?)*(\w*)", bare)), ("", ""))

    @property
    def is_law(self):
        """Whether a ghost member is a law, which is proved of each impl, and no data, which says what the words of the trait mean there."""
        # a law speaks of values, as `(x : Self)`, and data at most of types, as `(Symbol : Type 0)`
        return self.name.endswith("_law") or bool(re.match(r"\s*ghost \w+: \{[^}]*\(\w[\w ]* : (?!Type 0\))", "\n".join(self.lines)))


def definitions_of(file):
    """Returns the definitions of a file: paragraphs of it, some behind the headers of modules."""
    found, around, names = [], [], {}
    for text in re.sub(r"^infix.*\n", "", read(file), flags=re.M).rstrip().split("\n\n"):
        for imported in re.findall(r"^use (.*)", text, re.M):
            taken(names, imported)
        around = [it for it in around if indent_of(it[0]) < indent_of(text)]
        while header := HEADER.match(text):
            around, text = [*around, header[0].splitlines()], text[header.end() :]
        docs = COMMENT.match(text)[0]
        lines = text[len(docs) :].splitlines()
        if signed := SIGNED.match(text[len(docs) :].lstrip()):
            found.append(Part(file, "definition", signed[2], docs.splitlines(), lines, names, around=around))
            if signed[1] == "data":
                found[-1].owns.update(re.findall(rf"^\s+({WORD}) :", text, re.M))
    return found


def items_of(file, lines, depth=0, names=None, owner=None):
    """Returns the items of a file, or the members of a block, that stand at this depth."""
    found, names = [], {} if names is None else names
    starts = [at for at, it in enumerate(lines) if indent_of(it) == depth and ITEM.match(it.lstrip())]

    def lead(at):
        """Returns where the comments and attributes before a line begin."""
        return lead(at - 1) if at and lines[at - 1].lstrip().startswith(("//", "#[")) else at

    for start, end in zip(starts, [*map(lead, starts[1:]), None]):
        own = "\n".join(lines[start:end]).rstrip().split("\n")
        if own[0].lstrip().startswith("ghost use "):
            taken(names, " ".join(it.strip() for it in own)[len("ghost use ") :].rstrip(";"))
        else:
            found.append(item_of(file, [it for it in lines[lead(start) : start] if "//" in it], own, names, owner))
    return found


def item_of(file, docs, lines, names, owner):
    """Returns an item, or a member of a block, with the lines that stand before its body."""
    depth = indent_of(lines[0])
    is_public, kind, name = ITEM.match(lines[0].lstrip()).groups()
    depths = {"trait": range(depth + 9), "impl": range(depth + 9), "fn": [depth]}.get(kind, ())
    body = next((at for at, it in enumerate(lines) if indent_of(it) in depths and plain(it).endswith(("{", "{}"))), len(lines))
    first = re.sub(r" ?\{\}?$", "", lines[body]) if kind == "fn" and body < len(lines) else ""
    it = Part(file, kind, name, docs, lines[: body + (kind != "fn")] + [first] * bool(first.strip()), names, owner)
    it.is_public = bool(is_public)
    if kind in ("trait", "impl"):
        it.members = items_of(file, lines[body + 1 : -1], depth + 4, dict(names), it)
    return it


class Repository:
    """The definitions and items of all crates but those of tests and what tests share, and programs."""

    def __init__(self):
        names = re.findall(r"^(\w+)", read("crates.txt"), re.M)
        names = [it for it in names if not it.endswith(("_tests", "_test_support"))]
        self.crates = [it for it in names if os.path.isfile(f"{TOP}/crates/{it}/src/lib.rt")]
        self.definitions, self.items, self.passed_on, self.passed_names, self.imports = [], [], {}, set(), {}
        for crate in self.crates:
            for path in files_below(f"crates/{crate}/specs", ".antt"):
                self.definitions += definitions_of(path)
                passed = re.findall(r"^pub use Rattle\.(\w+)\.specs\.([\w.]+)", read(path), re.M)
                self.passed_on.update({(crate, module): other for other, module in passed})
            for path in files_below(f"crates/{crate}/src", ".rt"):
                self.items += items_of(path, read(path).splitlines())
                self.imports[path] = " ".join(re.findall(r"^(?:pub )?use [^;]*;", read(path), re.M))
                for of, inner in re.findall(r"^pub use (\w+)::(?:\w+::)*(\{[^}]*\}|\w+);", read(path), re.M):
                    self.passed_names.update((of, name) for name in re.findall(r"\w+", inner))
        self.defined = {(it.crate, it.module, name): it for it in self.definitions for name in it.owns}
        self.traits = {it.name: it for it in self.items if it.kind == "trait"}
        # with the constants, which definitions and clauses cite as they do types
        self.types = [it for it in self.items if it.kind in ("struct", "enum", "type", "const")]
        self.impls = [it for it in self.items if it.kind == "impl"]
        self.parts = [*self.definitions, *(each for it in self.items for each in [it, *it.members])]
        self.files = {it.file: crate for crate in self.crates for it in self.parts if it.crate == crate}

    def type_named(self, name, near):
        """Returns the type or constant that an item means by this name: one of its file, or one that its file imports."""
        found = [it for it in self.types if it.name == name]
        is_imported = found and re.search(rf"\b{name}\b *[,;}}]", self.imports.get(near.file, ""))
        return next((it for it in found if it.file == near.file or is_imported and (it.is_public or it.kind == "const")), None)

    def declared(self, crate, path, name):
        """Returns the type or constant that antt imports by a path of a crate below `declared`: of that module, or of what it passes on."""
        module, _, last = path.removesuffix(".TheVariants").rpartition(".")
        last = name if last == "TheConstants" else last
        found = [it for it in self.types if it.name == last]
        own = [it for it in found if it.crate == crate]
        passed = [it for it in found if (it.crate, last) in self.passed_names]
        return next((it for it in own if it.module == module), next(iter(own + passed), None))

    def named(self, name):
        """Returns the public items of this name, as `answer_queries`, `laws::push` or `Cursor::pos`."""
        owner, _, last = name.rpartition("::")
        if not owner or owner.islower():
            return [it for it in self.items if it.name == last and it.is_public and it.kind not in ("use", "mod")]
        members = [it for block in self.items if owner in (block.name, block.trait[1]) for it in block.members]
        found = [it for it in members if (it.kind, it.name) == ("fn", last)]
        above = [self.traits[it.owner.trait[0]] for it in found if not it.clauses and it.owner.trait[0] in self.traits]
        return found + [it for trait in dict.fromkeys(above) for it in trait.members if (it.kind, it.name) == ("fn", last)]
