"""Makes lines of cases: calls over random models, cursors, stacks and adapters, each kind in turn.

`cases/README.md` says what each kind of line is. Lines are the same for the same seed.
"""
import random

SEARCHING = """u8/1 u8/3 u8/6 u8/7 u8/8 u16/12 u16/16 u32/24 u32/32 u64/40 u64/63 u64/64
    usize/40 usize/63 usize/64 u128/64 u128/100 u128/128""".split()
UNIFORM = "u8/1 u8/3 u8/6 u8/7 u8/8 u16/12 u16/16 u32/24 u32/32 u64/63 u64/64 usize/64 u128/64".split()
LOOKUP = """u8/1 u8/3 u8/6 u8/7 u8/8 u16/12 u16/16 u32/12 u32/24 u32/32 u64/40 u64/63
    usize/6 usize/12 usize/40 usize/63 u128/40 u128/63""".split()
SLOTTED = {"u8/6": range(7), "u16/12": range(13), "u32/24": [8, 12, 16]}
SLOTTED |= {"u64/40": [12], "u64/63": [12], "usize/40": [8, 12], "u128/40": [8]}
BITS = {"u8": 8, "u16": 16, "u32": 32, "u64": 64, "usize": 64, "u128": 128}
CALLS = "sr qr w w sn qn sl sx qx fu po k k".split()
STACK_CALLS = "sr sr w w x sn sx me mf po k".split()
# Kinds of lines about models, and what each has: i, one weight is inferred; S, symbols; q, a quantile; n or s, a number or a symbol that
# is looked up; e, the ends that a walk takes; c, steps of a chain; a, steps and queries.
MODELS = "table infer:i quantile:q symbol:n size sizei:i gendec gendist genenc:n probe:q ends:e"
SYMBOLS = """dec:Sq deci:Siq dectable:S dectablei:Si decsize:S decsizei:Si enc:Ss enci:Sis encsize:S encsizei:Si encof:Ss encofsize:S
    tagenc:Ss hashed:S hashedi:Si sorted:S sortedi:Si distinct:S distincti:Si dprobe:Sq dends:Se"""
LOOKUPS = """look:q looki:iq looktable looktablei:i tolook:q intotable lprobe:q lends:e
    nlook:Sq nlooki:Siq nlooktable:S nlooktablei:Si nprobe:Sq nends:Se chain:Sc ask:Sa"""
SLOTS = "slot:q slottable sprobe:q nslot:Sq nslottable:S"
LAST_64, LAST_128 = (1 << 64) - 1, (1 << 128) - 1


def total_of(form):
    """Returns how many quantiles there are."""
    return 1 << int(form.partition("/")[2])


def words_of(form):
    """Returns how many words there are."""
    return 1 << BITS[form.partition("/")[0]]


def count_in(text):
    return 0 if text == "-" else text.count(",") + 1


class Maker(random.Random):
    """Makes lines from a seed."""

    def one_in(self, count):
        return self.randrange(count) == 0

    # Models

    def tiling(self, form, most):
        """Returns weights that tile: even ones, a few large ones among small, or any."""
        total = total_of(form)
        count = min(total, self.choice([1, 2, 2, 3, 4, 5, 8, 16, self.randint(1, most)]))
        if count == 1 and total == words_of(form):
            count = 2
        shape = self.randrange(4)
        if shape == 0:
            weights = [total // count] * count
            weights[-1] += total - sum(weights)
        elif shape == 1:
            weights = [1] * count
            weights[self.randrange(count)] += total - count
        else:
            cuts = set()
            while len(cuts) < count - 1:
                cut = self.randrange(1, total)
                cuts.add(cut if shape == 2 else max(1, cut >> self.randrange(total.bit_length() - 1)))
            ends = [0, *sorted(cuts), total]
            weights = [b - a for a, b in zip(ends, ends[1:])]
        return weights if max(weights) < words_of(form) else self.tiling(form, most)

    def weights(self, form, infer=False, most=40):
        """Returns weights that are accepted, and one time in six others."""
        weights = self.tiling(form, most)
        if infer:
            weights = weights[:-1]
        if not self.one_in(6):
            return weights
        total, words = total_of(form), words_of(form)
        fault, place = self.randrange(8), self.randrange(len(weights) + 1)
        if fault in (0, 1):
            weights.insert(place, fault)
        elif fault == 3:
            weights = []
        elif fault in (2, 4, 5) and weights:
            if fault == 2:
                weights.pop()
            else:
                weights[place - 1] = max(0, weights[place - 1] + (1 if fault == 5 else -1))
        elif fault == 6:
            # the total comes again after the words wrapped, where that is possible
            weights = [words // 2] * (2 + 2 * total // words if total == words else 2) + weights
        else:
            weights = [total if total < words else 0]
        return [min(it, words - 1) for it in weights]

    def symbols(self, count):
        """Returns the field of symbols: mostly as many and different ones, at times in order, at times not."""
        pool, symbols = self.choice([max(8, 2 * count), 1 << 16, LAST_64]), []
        while len(symbols) < count:
            symbol = self.randrange(pool)
            if symbol not in symbols:
                symbols.append(symbol)
        if self.one_in(3):
            symbols.sort()
        if self.one_in(12) and count > 1:
            symbols[self.randrange(1, count)] = symbols[0]
        elif self.one_in(16):
            symbols.append(pool)
        elif self.one_in(16) and symbols:
            symbols.pop()
        return symbols

    def quantile(self, form, weights):
        """Returns an end of a row, a quantile, or a number that is none."""
        total = total_of(form)
        if weights and not self.one_in(3):
            row = self.randrange(len(weights))
            left = sum(weights[:row])
            return min(self.choice([left, max(left, left + weights[row] - 1), left + weights[row]]), LAST_128)
        if self.one_in(8):
            return min(self.choice([total, total + 1, 2 * total - 1]), LAST_128)
        return self.randrange(total)

    def letters(self, count):
        """Returns from which ends a symbol table of so many rows is walked."""
        return "".join(self.choice("fb") for _ in range(self.randint(1, min(count, 12) + 2)))

    def steps(self, most):
        return "".join(self.choice("SLIR") for _ in range(self.randrange(most))) or "-"

    def query(self, form, weights, symbols):
        if self.one_in(2):
            return f"q{min(self.quantile(form, weights), words_of(form) - 1)}"
        return f"s{self.choice([*symbols, self.randrange(1 << 64)])}"

    def of_models(self, kinds, form, most):
        """Returns a line of each kind of model at a form; a form has a number of slots too where the kinds take one."""
        return [self.of_model(*kind.partition(":")[::2], form, most) for kind in kinds.split()]

    def of_model(self, kind, fields, form, most):
        shape = form.partition(" ")[0]
        weights, symbols = self.weights(shape, "i" in fields, most), []
        if "S" in fields:
            symbols = self.symbols(len(weights) + ("i" in fields))
            if kind.startswith("sorted") and not self.one_in(4):
                symbols.sort()
            if kind.startswith("distinct"):
                symbols = list(dict.fromkeys(symbols))
        made = {
            "q": lambda: [self.quantile(shape, weights)],
            "n": lambda: [self.choice([self.randrange(len(weights) + 2), 65537, LAST_64])],
            "s": lambda: [self.choice([*symbols, self.randrange(1 << 64)])],
            "e": lambda: [self.letters(len(weights))],
            "c": lambda: [self.steps(6)],
            "a": lambda: [self.steps(4), ",".join(self.query(shape, weights, symbols) for _ in range(self.randint(1, 8)))],
        }
        argument = [it for field in fields if field in made for it in made[field]()]
        return [kind, form, *argument, *([len(symbols), *symbols] if "S" in fields else []), *weights]

    def of_uniform(self, kind, form):
        total = total_of(form)
        largest = min(total, LAST_64)
        count = self.choice([2, 3, self.randint(2, min(largest, 300)), self.randint(2, largest), largest])
        count = min(count, largest, 300 if kind in ("uniform", "uends") else largest)
        if kind == "uends":
            return [kind, form, self.letters(6), count]
        if kind == "uquant":
            return [kind, form, count, min(self.choice([0, self.randrange(total), total - 1, total, count, max(0, count - 1)]), LAST_128)]
        if kind == "usym":
            near = [0, max(0, count - 1), count, count + 1, count + 65536, LAST_64, self.randrange(1 << 64)]
            return [kind, form, count, min(self.choice(near), LAST_64)]
        return [kind, form, count]

    def of_items(self, kind, form):
        weights, items = self.weights(form, False, 12), []
        if kind == "wq":
            for _ in range(self.randrange(7)):
                symbol = self.randrange(len(weights) + self.one_in(6)) if weights else 0
                weight = weights[symbol] if symbol < len(weights) else 3
                items += [symbol, self.randrange(max(1, weight)) if not self.one_in(9) else weight]
            return [kind, form, len(items) // 2, *items, *weights]
        total = total_of(form)
        words = [self.randrange(total) for _ in range(self.randrange(7))]
        if words and self.one_in(3) and total < words_of(form):
            words[self.randrange(len(words))] = self.randrange(total, words_of(form))
        return [kind, form, self.choice([0, 1, 3, len(words), 9]), len(words), *words, *weights]

    # Backends

    def word(self, width=32):
        return self.choice([0, 1, self.randrange(100), self.randrange(1 << width), (1 << width) - 1])

    def list(self, most, width):
        return ",".join(str(self.word(width)) for _ in range(self.randrange(most))) or "-"

    def calls(self, calls, count, width):
        """Yields calls, of which some write words or seek a position, as far as one beyond this many."""
        for call in [self.choice(calls) for _ in range(self.randint(1, 14))]:
            argument = {"w": lambda: self.word(width), "x": lambda: self.list(5, width), "k": lambda: self.randint(0, count + 1)}.get(call)
            yield f"{call}:{argument()}" if argument else call

    def of_cursor(self, kind, name, width):
        words = self.list(7, width)
        place = self.randint(0, count_in(words) + self.one_in(10))
        if "extend" in kind:
            return [name, place, words, *(self.word(width) for _ in range(self.randrange(6)))]
        return [name, place, words, *self.calls(CALLS, count_in(words), width)]

    def of_stack(self, kind, name, width):
        words = self.list(6, width)
        return [name, words, *self.calls(STACK_CALLS, count_in(words) + 2, width)]

    def of_adapter(self, kind, name, width):
        words = [self.word(width) for _ in range(self.randrange(8))]
        if kind == "iter":
            return [name, self.randrange(10), *(f"e{self.word()}" if self.one_in(4) else it for it in words)]
        if kind in ("words", "sink"):
            return [name, self.randrange(10), *words]
        if kind == "calls":
            return [name, *words]
        lent = self.list(6, width)
        seek = [self.randint(0, count_in(lent) + 1)] if self.one_in(2) else []
        return [name, self.choice("sq"), lent, self.randrange(8), *seek]

    def of_words(self, name):
        width = BITS[name]
        edge = [0, 1, (1 << width) - 1, 1 << (width - 1), self.randrange(1 << width), self.randrange(1 << (width // 2))]
        return ["word", name, self.choice(edge), self.choice(edge)]


def fresh(seed):
    """Returns the lines of each file: twice a line of each kind at each form, and several of each call."""
    make = Maker(seed)
    models, symbols, lookups, backends, items = [], [], [], [], []
    for _ in range(2):
        for form in SEARCHING:
            models += make.of_models(MODELS, form, 40)
            symbols += make.of_models(SYMBOLS, form, 24)
            items += [make.of_items(kind, form) for kind in ("wq", "rs")]
        for form in UNIFORM:
            models += [make.of_uniform(kind, form) for kind in ("uniform", "uquant", "usym", "uends")]
        for form in LOOKUP:
            lookups += make.of_models(LOOKUPS, form, 60)
        for form in (make.choice([*SLOTTED]) for _ in range(40)):
            lookups += make.of_models(SLOTS, f"{form} {make.choice(SLOTTED[form])}", 120)
        for width in (8, 32, 64):
            for of, count, kinds in (
                (make.of_cursor, 6, "cursor reversed inner turned extend rextend"),
                (make.of_stack, 6, "vec smallvec"),
                (make.of_adapter, 3, "iter words sink calls asread intoread"),
            ):
                backends += [of(kind, kind if width == 32 else f"{kind}/u{width}", width) for kind in kinds.split() for _ in range(count)]
        backends += [make.of_words(name) for name in BITS for _ in range(3)]
    found = {"models": models, "symbols": symbols, "lookups": lookups, "backends": backends, "items": items}
    return {name: [" ".join(str(it) for it in line) for line in lines] for name, lines in found.items()}
