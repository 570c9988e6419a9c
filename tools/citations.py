"""What something rests on: the definitions, types and members of traits that it cites, and that these cite."""
import re

from sources import WORD, indent_of, plain

# The crates that a caller's line of crates.txt lists. Of the others a caller knows what these pass on.
LISTED = ("constriction",) + tuple(
    f"constriction_{it}"
    for it in "words backends client theorem io text stored_weights coders tables adaptive matches pack".split()
)
# Types of which a member of a trait is read too: of the kit, and without fields. The members of probes are read of all types.
PLAIN = ("u8", "Vec", "Cumulative", "CumulativeAndSymbol")
NAME_OF_TYPE = re.compile(r"\b[A-Z]\w*")
HEAD = re.compile(rf"(?<![\w.'-]){WORD}")
AT_TYPE = re.compile(r"⟦<(.+?) as (\w+)(?:<[^⟧]*)?>⟧\.(\w+)")


class Reading:
    """What is to be read, each once: definitions, types, ghost members of traits and impls, and the kit's words among what they cite."""

    def __init__(self, repository):
        self.all, self.kit, self.cited = repository, set(), {}

    def read(self, it):
        """Takes a definition, a type or a ghost member, with what it rests on."""
        if it in self.cited:
            return
        self.cited[it] = True
        if it.kind == "definition":
            around = [line for header in it.around for line in header if not line.strip().startswith("--")]
            # the traits whose ghost members the file takes as an argument, by the name `Ghosts` or that of their module
            ghosts = [module.rpartition(".")[2] for module, name in it.names.values() if name in ("Ghosts", None)]
            self.follow("\n".join([*it.lines, *around]), it, [self.all.traits[name] for name in ghosts if name in self.all.traits])
        elif not it.owner:
            self.types_in(fields_of(it), it)
        else:
            self.clauses(it, it.lines)
            for block in self.all.impls if it.owner.kind == "trait" and not it.is_law else ():
                trait, kind = block.trait
                if trait == it.owner.name and (trait == "Probe" or kind in PLAIN):
                    self.members_of(block, [it.name])

    def cite(self, module, name):
        """Follows a name that is imported from a module of antt."""
        crate, _, rest = module.removeprefix("Rattle.").partition(".specs.")
        last = module.rpartition(".")[2]
        if crate not in self.all.crates:
            self.kit.add(name or last)
        elif rest.startswith("declared."):
            if it := self.all.declared(crate, rest.removeprefix("declared."), name):
                self.read(it)
        elif own := self.all.defined.get((self.all.passed_on.get((crate, rest), crate), rest, name)):
            self.read(own)

    def follow(self, text, it, traits):
        """Follows the names in a text of an item or a definition, its operators, and the ghost members of these traits that it names."""
        for head in HEAD.findall(text):
            if own := self.all.defined.get((it.crate, it.module, head)):
                self.read(own)
            elif head in it.names:
                self.cite(*it.names[head])
            elif own := self.all.type_named(head, it):
                self.read(own)
        for name, target in it.names.items():
            if "◌" in name and all(part in text for part in name.split("◌") if part):
                self.cite(*target)
        words = set(re.findall(r"(?:\.|(?<![\w.]))(\w+)", text))
        for member in (each for trait in traits for each in trait.members):
            if member.kind == "ghost" and member.name in words and not member.is_law:
                self.read(member)

    def types_in(self, lines, near):
        for name in NAME_OF_TYPE.findall("\n".join(map(plain, lines))):
            if it := self.all.type_named(name, near):
                self.read(it)

    def clauses(self, it, lines):
        """Follows what lines of an item cite: definitions, types, members of traits, and members at a type."""
        text = "\n".join(map(plain, lines))
        for kind, trait, member in AT_TYPE.findall(text):
            self.member_at(kind, trait, member, it)
        self.follow(AT_TYPE.sub(" ", text), it, self.bounds(it))

    def members_of(self, block, names):
        for it in block.members:
            if it.kind == "ghost" and it.name in names:
                self.read(it)

    def member_at(self, kind, trait, member, near):
        """Follows a member of a trait at a type, to the impl that says what it is."""
        if kind == "Self" and near.owner:
            kind = near.owner.trait[1] or kind
        names = [re.match(r"(?:&(?:'\w+ )?)*(\w+)", kind)[1]]
        while it := self.all.type_named(names[-1], near):
            self.read(it)
            if it.kind != "type":
                break
            near = it
            names.append(re.search(r"=\s*(\w+)", " ".join(it.lines))[1])
        for block in self.all.impls:
            if block.trait[0] == trait and block.trait[1] in names:
                self.members_of(block, [member])

    def bounds(self, it):
        """Returns the repository's traits that the bounds of an item name, with those above them and of their types."""
        more = NAME_OF_TYPE.findall("\n".join([*it.signature, it.owner.header if it.owner else ""]))
        found = {}
        while more:
            trait = self.all.traits.get(more.pop(0))
            if trait and trait not in found:
                found[trait] = True
                types = [line for each in trait.members if each.kind == "type" for line in each.lines]
                more += NAME_OF_TYPE.findall("\n".join([trait.header.partition(":")[2], *types]))
        return found

    def item(self, it):
        """Follows an item: its signature, what it requires and what it ensures."""
        if it.kind in ("trait", "impl"):
            for each in members_read(self.all, it):
                self.item(each)
        elif it.kind == "fn":
            self.types_in(it.signature, it)
            for law in (each for trait in self.bounds(it) for each in trait.members if each.is_law):
                self.read(law)
            for _, _, lines in it.clauses:
                self.clauses(it, lines)
            if not it.clauses and it.owner and (trait := self.all.traits.get(it.owner.trait[0])):
                # what the clauses of the trait's function of this name mean here
                above = [lines for each in trait.members if (each.kind, each.name) == ("fn", it.name) for _, _, lines in each.clauses]
                self.members_of(it.owner, re.findall(r"\w+", "\n".join(line for lines in above for line in lines)))
        else:
            self.clauses(it, it.lines)


def fields_of(it):
    """Returns the lines of a type without its ghost fields."""
    lines, skipping = [], False
    for line in it.lines:
        skipping = line.lstrip().startswith("ghost ") if indent_of(line) == it.depth + 4 else skipping and indent_of(line) > it.depth
        lines += [] if skipping else [line]
    return lines


def is_known(repository, it):
    """Whether a caller can name an item: its crate is one that callers list, or one of these passes it on."""
    return bool(it) and it.is_public and (it.crate in LISTED or (it.crate, it.name) in repository.passed_names)


def members_read(repository, block):
    """Returns the members of a trait or an impl that an auditor reads; of an impl no proof of a law: the promise is the trait's."""
    trait = repository.traits.get(block.trait[0])
    if block.kind == "trait" or trait and not is_known(repository, trait):
        return block.members if is_known(repository, block) else []
    laws = {it.name for it in (trait or block).members if it.is_law}
    kept = {"type": lambda it: True, "ghost": lambda it: it.name not in laws, "fn": lambda it: it.is_public or block.trait[0] and it.clauses}
    return [it for it in block.members if it.kind in kept and kept[it.kind](it)]
