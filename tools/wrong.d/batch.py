"""The inputs of tools/wrong: batches of calls, the same ones for the same number.

    calls_of(number)    the calls of one batch, a list of Call. Batch 0 also has the inputs that are made one by one: each refusal
                        by an input that gives it and nothing earlier, and inputs that are right by one.

A call's NAME, numbers and lists are those of its line in driver.rt.txt. To add a function, write a method of Batch that makes its
calls, and call it in `calls_of`; a function that takes what another call takes gets a line in BELOW. What a call answers is not
said here: the unedited library says it.
"""
import random

ALL = (1 << 64) - 1

# Where the parts of a set stand: the tap word, the inversion word, n and the first spread word.
TAPS_AT, INVERSION_AT, CHAINS_AT, SPREAD_AT = 2, 10, 18, 20

WIDTHS = [1, 2, 3, 4, 5, 6, 7, 8, 9, 12, 15, 16, 17, 31, 32, 33, 62, 63, 64]
CHAINS = [1, 2, 3, 4, 5, 7, 8, 9, 12, 15, 16, 17]
MANY_CHAINS = [31, 33, 63, 64, 65, 66, 127, 128, 129, 191, 192, 193, 200, 255, 256]
SLICES = [0, 1, 1, 2, 2, 3, 4, 5, 8]
MANY_SLICES = [13, 16, 33, 64, 100]
NUMBERS = [0, 1, 2, 3, 7, 8, 9, 15, 16, 62, 63, 64, 65, 66, 127, 128, 129, 255, 256, 257, 511, 512, 513, 65535, 65536,
           (1 << 32) - 1, 1 << 32, (1 << 63) - 1, 1 << 63, ALL - 1, ALL]

# The bytes of an entry of ties, and the most entries that a set has.
ENTRY_BYTES, MOST_TIES = 7, 256

# The symbol numbers that entries of ties have, beside any others.
SYMBOLS = [0, 1, 2, 7, 8, 255, 256, 257, 511, 512, 65535]

# The numbers of the refusals: 16 is given to nothing.
REFUSALS = [*range(1, 16), *range(17, 32)]

# The places of planning's working list that are worked in where no symbol is named, and the most that are lent: the printer lends 4,096.
WORKING = 64
MOST_WORKING = 4096

# For each call of the boundary, those below it that take the same: some of its inputs go to each of them as well.
BELOW = {
    "canceller_read_set": ["set_file::read_set", "set_file::check_set", "set_layout::parts", "set_layout::spread_words"],
    "canceller_value_row": ["slice_rows::value_place"],
    "canceller_mark_row": ["slice_rows::mark_place"],
    "canceller_ties": ["slice_rows::ties_place"],
    "canceller_write_set": ["set_writer::write_set", "set_content::check_content"],
    "canceller_clock": ["register::clock"],
    "canceller_sign": ["signing::sign_record"],
    "canceller_list_columns": ["columns::list_columns"],
    "canceller_eliminate": ["elimination::eliminate"],
    "canceller_plan_words": ["planner::plan_words"],
    "canceller_expect": ["expectation::expect"],
    "canceller_plan": ["planner::plan"],
    "canceller_cut": ["cutter::cut"],
    "canceller_write_plan": ["plan_writer::write_plan"],
    "canceller_read_plan": ["plan_file::read_plan", "plan_file::check_plan"],
    "canceller_judge": ["judge::judge"],
}
FILLERS = ["columns::fill_columns", "sparse_columns::fill_few", "eighth_columns::fill_by_eights", "swept_columns::fill_swept"]


class Call:
    """One call: its name in driver.rt.txt, its numbers and its lists."""

    def __init__(self, name, n=(), a=b"", b=b"", c=b"", d=b"", u=(), v=()):
        self.name, self.n = name, tuple(n)
        self.a, self.b, self.c, self.d = bytes(a), bytes(b), bytes(c), bytes(d)
        self.u, self.v = list(u), list(v)


def low(m):
    return (1 << min(m, 64)) - 1


def row_bytes(n):
    return (n + 7) // 8


def slices_at(n):
    return SPREAD_AT + 8 * n


def rows_at(n):
    return slices_at(n) + 2


def two_bytes(x):
    return (x % 65536).to_bytes(2, "little")


def eight_bytes(x):
    return (x & ALL).to_bytes(8, "little")


def entry_data(ties):
    """Entries of ties as bytes, without their count."""
    return b"".join(two_bytes(t) + two_bytes(c) + two_bytes(symbol) + bytes([side]) for t, c, symbol, side in ties)


class Set:
    """A set: its register, its spread words, for each slice a number for its value row and one for its mark row, and its entries of ties,
    each a slice, a chain, a symbol number and a side."""

    def __init__(self, m, taps, inversion, spread, slices, ties=()):
        self.m, self.taps, self.inversion, self.spread, self.slices = m, taps, inversion, list(spread), list(slices)
        self.n, self.s, self.b = len(spread), len(slices), row_bytes(len(spread))
        self.ties = list(ties)

    def data(self):
        return (two_bytes(self.m) + eight_bytes(self.taps) + eight_bytes(self.inversion) + two_bytes(self.n)
                + b"".join(map(eight_bytes, self.spread)) + two_bytes(self.s)
                + b"".join(self.row(v) + self.row(x) for v, x in self.slices)
                + two_bytes(len(self.ties)) + self.entries())

    def entries(self):
        return entry_data(self.ties)

    def rows_end(self):
        """The place behind the last slice, where the count of ties stands."""
        return rows_at(self.n) + 2 * self.b * self.s

    def with_ties(self, ties):
        return Set(self.m, self.taps, self.inversion, self.spread, self.slices, ties)

    def named(self):
        """The number of named symbols."""
        return len({symbol for _, _, symbol, _ in self.ties})

    def symbols(self):
        return self.unknowns() - len(self.ties) + self.named()

    def working(self):
        """The places that planning works in."""
        return WORKING + self.named()

    def numbers(self):
        return [symbol for _, _, symbol, _ in self.ties]

    def flags(self):
        """For each entry 1 where it is the first with its symbol number, and else 0."""
        numbers = self.numbers()
        return [int(symbol not in numbers[:i]) for i, symbol in enumerate(numbers)]

    def cell_columns(self):
        """For each slice the columns of all its cells, known or not."""
        words, out = list(self.spread), []
        for _ in range(self.s):
            out.append(words)
            words = [clocked(self.m, self.taps, w) for w in words]
        return out[::-1]

    def row(self, cells):
        return cells.to_bytes(self.b, "little")

    def values(self):
        return b"".join(self.row(v) for v, _ in self.slices)

    def marks(self):
        return b"".join(self.row(x) for _, x in self.slices)

    def unknowns(self):
        return sum(bin(x).count("1") for _, x in self.slices)

    def slice_columns(self):
        """The columns of each slice's unknown cells, from the last slice to the first."""
        words = list(self.spread)
        for _, marks in reversed(self.slices):
            yield [words[c] for c in range(self.n) if marks >> c & 1]
            words = [clocked(self.m, self.taps, w) for w in words]

    def columns(self):
        """The columns of the symbols: without ties those of the unknown cells, from the last slice to the first."""
        if not self.ties:
            return [w for columns in self.slice_columns() for w in columns]
        cells, named, symbols = self.cell_columns(), {(t, c) for t, c, _, _ in self.ties}, {}
        for t, c, symbol, _ in self.ties:
            symbols[symbol] = symbols.get(symbol, 0) ^ cells[t][c]
        free = [cells[t][c] for t, (_, x) in enumerate(self.slices) for c in range(self.n) if x >> c & 1 and (t, c) not in named]
        return free + list(symbols.values())

    def left(self):
        """How many words a plan of this set has: m less the rank of its columns."""
        return self.m - rank_of(self.columns())

    def words(self):
        """The words of a plan of this set: the reduced list. Each has its highest bit for itself where columns are reduced by their
        lowest."""
        return even_with(self.columns(), self.m, lowest)

    def revised(self, values):
        """This set with other values: for each slice a number for all its cells, of which the known ones count."""
        slices = [(v & ~x & low_row(self.n), x) for v, (_, x) in zip(values, self.slices)]
        return Set(self.m, self.taps, self.inversion, self.spread, slices, self.ties)


def sample():
    """The sample of document 01, with its count of ties."""
    return Set(3, 3, 0, [1, 4], [(1, 2), (1, 0)])


def plan_data(m, words, expected, count=None, again=None):
    q = len(words)
    return (two_bytes(m) + two_bytes(q if count is None else count) + b"".join(map(eight_bytes, words))
            + two_bytes(q if again is None else again) + expected.to_bytes(max(row_bytes(q), 0), "little"))


class Batch:
    def __init__(self, number):
        self.random = random.Random(1000003 * number + 17)
        self.calls = []

    # ---- small choices

    def call(self, name, n=(), **lists):
        self.calls.append(Call(name, n, **lists))
        for below in BELOW.get(name, []):
            if self.random.random() < 0.4:
                self.calls.append(Call(below, n, **lists))

    def pick(self, *lists):
        return self.random.choice([x for one in lists for x in one])

    def bits(self, count):
        return self.random.getrandbits(count) if count else 0

    def junk(self, count):
        return bytes(self.random.getrandbits(8) for _ in range(max(count, 0)))

    def junk_words(self, count):
        return [self.bits(64) for _ in range(max(count, 0))]

    def working(self, one):
        """A working list for planning a set: most are long enough, and few are as long as the printer's. What it holds changes nothing."""
        lengths = self.working_lists(one)
        return self.junk_words(self.pick([one.working()] * 12, lengths[:-1] * 2, lengths[-1:]))

    def working_lists(self, one):
        """The lengths of working lists for planning a set, the printer's last."""
        need = one.working()
        return [0, 1, WORKING, need - 2, need - 1, need, need + 1, need + 136, MOST_WORKING]

    def near(self, count):
        """Lengths around one that just suffices."""
        return max(0, count + self.pick([0, 0, 0, -1, -1, 1, 2, 9]))

    def word(self, m):
        """A word that isn't 0 and has no bit at or above m."""
        kind = self.random.randrange(6)
        if kind == 0:
            return 1 << self.random.randrange(m)
        if kind == 1:
            return low(m) >> self.random.randrange(m)
        if kind == 2:
            return 1 << (m - 1) | self.bits(m)
        return self.bits(m) or 1

    def taps(self, m):
        kind = self.random.randrange(5)
        if kind == 0:
            return 1
        if kind == 1:
            return low(m)
        if kind == 2:
            return 1 | 1 << (m - 1)
        return self.bits(m) | 1

    def inversion(self, m):
        """A word with no bit at or above m, 0 too."""
        kind = self.random.randrange(6)
        if kind < 2:
            return 0
        if kind == 2:
            return low(m)
        if kind == 3:
            return 1 << self.random.randrange(m)
        return self.bits(m)

    def bad_inversions(self, m, inversion):
        """Words with a bit at or above m, beside one that has none; at m 64 no word has such a bit."""
        return [1 << min(m, 63), inversion | 1 << min(m, 63), inversion | 1 << 63, ALL, inversion | self.bits(64) << min(m, 63) & ALL]

    def spread(self, m, n):
        kind = self.random.randrange(9)
        if kind == 0:
            return [1 << (c % m) for c in range(n)]
        if kind == 1:
            return [self.word(m)] * n
        if kind == 2:
            few = [self.word(m) for _ in range(2)]
            return [self.pick(few) for _ in range(n)]
        if kind == 3 and m > 1:
            even = [w ^ 1 if bin(w).count("1") % 2 else w for w in (self.word(m) for _ in range(n))]
            return [w or 3 for w in even]
        if kind == 4:
            return [c + 1 if c + 1 <= low(m) else 1 for c in range(n)]
        if kind == 5:
            return [low(m)] * n
        return [self.word(m) for _ in range(n)]

    def low_rank(self, m, n, s):
        """Many unknown cells, few independent columns: the register only turns, and the spread words repeat themselves."""
        periods = [p for p in (1, 2, 4, 8, 16, 32, 3, 9, 21, 31) if m % p == 0 and p < m] or [m]
        period = self.pick(periods)
        spread = []
        for _ in range(n):
            piece = self.bits(period) or 1
            spread.append(sum(piece << k for k in range(0, m, period)))
        if self.random.random() < 0.5:
            spread[self.random.randrange(n)] = self.word(m)
        slices = []
        for _ in range(s):
            marks = self.bits(n)
            if spread.count(spread[0]) == n or self.random.random() < 0.5:
                marks |= self.bits(n)
            slices.append((self.bits(n) & ~marks, marks))
        return Set(m, 1, self.inversion(m), spread, slices)

    def cells(self, n, s, kind):
        slices = []
        for _ in range(s):
            if kind == "none":
                marks = 0
            elif kind == "all":
                marks = low_row(n)
            elif kind == "half":
                marks = self.bits(n)
            elif kind == "dense":
                marks = self.bits(n) | self.bits(n) | self.bits(n)
            elif kind == "last":
                marks = 1 << (n - 1)
            elif kind == "first":
                marks = 1
            else:
                marks = self.bits(n) & self.bits(n) & self.bits(n) & self.bits(n)
            slices.append([self.bits(n) & ~marks, marks])
        if kind == "one" and s:
            t, c = self.random.randrange(s), self.random.randrange(n)
            slices = [[v, 0] for v, _ in slices]
            slices[t] = [slices[t][0] & ~(1 << c), 1 << c]
        return [tuple(x) for x in slices]

    def any_set(self, m=None, n=None, s=None, kind=None):
        m = m or self.pick(WIDTHS)
        n = n or (self.pick(CHAINS) if self.random.random() < 0.75 else self.pick(MANY_CHAINS))
        if s is None:
            s = self.pick(SLICES) if n > 17 or self.random.random() < 0.85 else self.pick(MANY_SLICES)
        kind = kind or self.pick(["none", "one", "one", "few", "few", "few", "half", "half", "dense", "all", "last", "first"])
        one = Set(m, self.taps(m), self.inversion(m), self.spread(m, n), self.cells(n, s, kind))
        return self.tied(one) if self.random.random() < 0.4 else one

    def tied(self, one, kind=None):
        """A set with entries of ties. The kinds: a single cell, one symbol, first and last cell, two symbols, every cell a symbol by itself,
        and any number of symbols, of all cells or of as many as there may be."""
        cells = [(t, c) for t, (_, x) in enumerate(one.slices) for c in range(one.n) if x >> c & 1]
        kind = kind or self.pick(["single", "one", "one", "ends", "two", "two", "apart", "any", "any", "most"])
        some = self.random.sample(cells, min(len(cells), self.pick([2, 3, 4, 5, 9, 17])))
        chosen = {"single": some[:1], "ends": cells[:1] + cells[-1:], "most": cells, "any": cells if self.bits(1) else some}.get(kind, some)
        if len(chosen) > MOST_TIES:
            chosen = self.random.sample(chosen, MOST_TIES)
        few = self.random.sample(SYMBOLS + [self.bits(16) | 8192], {"two": 2, "any": 4, "most": 9}.get(kind, 1))
        apart = self.random.sample(range(65536), len(chosen))
        sides = self.pick(["none", "all", "any", "any"])
        ties = [(t, c, apart[i] if kind == "apart" or (kind == "most" and self.random.random() < 0.5) else self.pick(few),
                 {"none": 0, "all": 1}.get(sides, self.bits(1))) for i, (t, c) in enumerate(sorted(set(chosen)))]
        return one.with_ties(ties)

    def bad_ties(self, one):
        """Entries of ties that a set can't have, by one fault and by two."""
        n, s, ties = one.n, one.s, one.ties or self.tied(one).ties
        known = [(t, c) for t, (_, x) in enumerate(one.slices) for c in range(n) if not x >> c & 1]
        symbol, out = self.pick(SYMBOLS), []
        cells = [(s, 0), (s, n - 1), (s, self.random.randrange(n)), (s + 1, 0), (65535, 0), (256 + s, 0), (0, n), (max(0, s - 1), n),
                 (0, 65535), (max(0, s - 1), 256 + n - 1)]
        cells += self.random.sample(known, min(len(known), 3)) + known[:1] + known[-1:]
        for t, c in cells:
            out.append(sorted(ties + [(t, c, symbol, self.bits(1))]))
            out.append([(t, c, symbol, 0)])
        if len(ties) > 1:
            i = self.random.randrange(len(ties) - 1)
            swapped = ties[:i] + [ties[i + 1], ties[i]] + ties[i + 2:]
            out += [ties[::-1], swapped, ties[:-2] + ties[-1:] + ties[-2:-1]]
            out.append([(t, c, k, 2) for t, c, k, _ in swapped])
        if ties:
            i = self.random.randrange(len(ties))
            (t, c, k, side), (t_0, c_0, k_0, _) = ties[i], ties[0]
            out += [ties[:i + 1] + ties[i:], ties[:i + 1] + [(t, c, k ^ 1, 1 - side)] + ties[i + 1:], ties + ties[-1:]]
            for bad in (2, 3, 128, 254, 255):
                out.append(ties[:i] + [(t, c, k, bad)] + ties[i + 1:])
            out += [[(t_0, c_0, k_0, 2)] + ties[1:], ties[:-1] + [ties[-1][:3] + (2,)]]
            # two faults
            out += [ties + [(s, 0, symbol, 2)], ties + ties[-1:] + [(s, n, symbol, 0)], [(s, 0, symbol, 0)] + ties]
            if known:
                out += [sorted(ties + [known[0] + (symbol, 2)]), [known[-1] + (symbol, 0)] * 2, [known[-1] + (symbol, 0)] + ties]
        return [bad for bad in out if len(bad) <= MOST_TIES]

    def word_list(self, m, q=None):
        """A reduced list for m of q words: each with a highest bit of its own, clear in the others."""
        q = q or self.random.randint(1, m)
        tops = sorted(self.random.sample(range(m), q))
        free = low(m)
        for t in tops:
            free &= ~(1 << t)
        return [1 << t | (self.bits(m) & free & low(t)) for t in tops]

    # ---- the calls of the boundary

    def rows_of(self, data, s, slices=None):
        for t in slices if slices is not None else {0, s - 1, s, s + 1, self.pick(NUMBERS), 65536 + self.random.randrange(4)}:
            if t < 0:
                continue
            self.call("canceller_value_row", [t], a=data)
            self.call("canceller_mark_row", [t], a=data)
            self.call("slice_rows::value_row", [t], a=data, d=self.junk(40))
            self.call("slice_rows::mark_row", [t], a=data, d=self.junk(40))
        self.ties_of(data)

    def ties_of(self, data):
        self.call("canceller_ties", a=data)
        room = len(data) if len(data) < 200 else 1900
        self.call("slice_rows::ties_stretch", a=data, d=self.junk(room))
        self.call("set_layout::ties", [self.pick(CHAINS, NUMBERS), self.pick(SLICES, NUMBERS)], a=data, d=self.junk(room))

    def record_of(self, one, kind):
        rows = [self.bits(one.n) for _ in range(one.s)]
        if kind == "filled":
            rows = [v | (self.bits(one.n) & x) for v, x in one.slices]
        if kind == "obeying":
            rows, values = [v | (self.bits(one.n) & x) for v, x in one.slices], self.bits(65536)
            for t, c, symbol, side in one.ties:
                rows[t] = rows[t] & ~(1 << c) | (values >> symbol & 1 ^ side) << c
        record = b"".join(one.row(r) for r in rows)
        if kind == "short":
            return record[:-1]
        if kind == "long":
            return record + self.junk(1)
        if kind == "long by a 0":
            return record + b"\0"
        if kind == "a row long":
            return record + bytes(one.b)
        if kind == "none":
            return b""
        if kind == "spare" and one.n % 8 and one.s:
            t = self.pick([0, one.s - 1, self.random.randrange(one.s)])
            bit = self.pick([one.n % 8, 7, self.random.randint(one.n % 8, 7)])
            record = bytearray(record)
            record[one.b * t + one.b - 1] |= 1 << bit
            return bytes(record)
        return record

    def sign(self, one, data):
        for kind in ("any", self.pick(["filled", "obeying"]), self.pick(["short", "long", "long by a 0", "a row long", "none"]), "spare"):
            self.call("canceller_sign", a=data, b=self.record_of(one, kind))

    def plan_of(self, one, data, judged=True):
        symbols, left, working = one.symbols(), one.left(), one.working()
        for room in {symbols, max(0, symbols - 1), self.near(symbols)}:
            self.call("canceller_list_columns", a=data, u=self.junk_words(room))
        for room, places in ((working, left), (working, max(0, left - 1)), (working - 1, left), (working + 3, 64), (WORKING, 64)):
            self.call("canceller_plan", a=data, u=self.junk_words(room), v=self.junk_words(places))
        self.call("canceller_plan", a=data, u=self.working(one), v=self.junk_words(self.near(left)))
        for places in (left + 1, self.near(left)):
            self.call("plan_text::print_plan", a=data, u=self.working(one), v=self.junk_words(places), d=self.junk(4096))
        if not judged:
            return
        size = 6 + 8 * left + row_bytes(left)
        kinds = ["any", "filled", "obeying", "obeying", "short", "long", "spare"]
        for file in (size, size - 1, size + 9, self.near(size)):
            first, second = self.record_of(one, self.pick(kinds)), self.record_of(one, self.pick(kinds))
            room = {"u": self.junk_words(working), "v": self.junk_words(left), "d": self.junk(file)}
            self.call("guarantee::judge_record", a=data, b=first, **room)
            self.call("guarantee::judge_records", a=data, b=first, c=second, **room)
        for room, places in ((working - 1, left), (working, max(0, left - 1))):
            self.call("guarantee::judge_record", a=data, b=self.record_of(one, "filled"), u=self.junk_words(room),
                      v=self.junk_words(places), d=self.junk(size))
        self.call("guarantee::judge_records", a=data, b=self.record_of(one, "any"), c=self.record_of(one, "filled"),
                  u=self.working(one), v=self.junk_words(self.near(left)), d=self.junk(600))

    # A taken set is m, the tap word, the inversion word, n, s and a state; rows are their place, their stride and their bytes.

    def fill(self, taken, spread, data, rows, room, names=None):
        for name in names or FILLERS:
            self.call(name, taken + rows, v=spread, a=data, u=self.junk_words(room))

    def reduce(self, taken, spread, data, rows, working=None):
        """The words of marked cells, from the words of single bits on."""
        working = self.pick([0, 1, WORKING - 1, WORKING, WORKING, WORKING, WORKING + 1, 200]) if working is None else working
        units = [1 << k for k in range(min(taken[0], 64))]
        self.call("set_words::reduce_cells", taken + rows, b=packed(spread), a=data, u=self.junk_words(working), v=units)

    def keep(self, one, data, spread, places, working=None):
        """The words of a taken set, from a working list."""
        working = self.working(one) if working is None else self.junk_words(working)
        taken = [one.m, one.taps, one.inversion, one.n, one.s, 0]
        self.call("kept_words::fill_words", taken, b=packed(spread), a=data, u=working, v=self.junk_words(places))

    def portions(self, register, s, data, rows, words, powers, room):
        """The columns of marked cells portion by portion, each from where the one before it ends: `room` places for each."""
        t, chains = min(s, 512), len(words)
        for _ in range(12):
            made = Call("portions::fill_portion", register + [s] + rows + [t, chains, self.pick([0, room, self.bits(64)])], a=data,
                        b=packed(powers), v=words, u=self.junk_words(room))
            self.calls.append(made)
            words, t, chains = after_portion(register, data, rows, words, powers, room, t, chains)
            if t == 0 or self.random.random() < 0.1:
                return

    def portions_of(self, one, data):
        """The portions of a set's columns, by the register's powers and by its clock."""
        n, s, b = one.n, one.s, one.b
        register, marks = [one.m, one.taps, one.inversion, self.pick([0, self.bits(64)])], [rows_at(n) + b, 2 * b, b]
        for room in (WORKING, self.pick([0, 1, 5, 63, 65, 70, 128, 200])):
            for powers in ([], powers_of(one.m, one.taps)):
                self.portions(register, s, data, marks, one.spread, powers, room)
        # from any slice and any chain on
        chains, t, words = self.random.randint(0, n), self.random.randint(0, s), one.spread
        for _ in range(s - t):
            words = [clocked(one.m, one.taps, w) for w in words]
        for powers, held in (([], words), (powers_of(one.m, one.taps), one.spread)):
            self.call("portions::fill_portion", register + [s] + marks + [t, chains, self.pick(NUMBERS)], a=data, b=packed(powers),
                      v=held, u=self.junk_words(self.pick([0, 3, WORKING, 100])))

    def parts_of(self, one, data):
        """The calls below the boundary that go by a set's numbers."""
        n, s, b, spread, unknowns = one.n, one.s, one.b, (one.spread + [0] * 256)[:256], one.unknowns()
        taken, values = [one.m, one.taps, one.inversion, n, s, self.pick([0, self.bits(64)])], [rows_at(n), 2 * b, b]
        marks = [rows_at(n) + b, 2 * b, b]
        for room in {unknowns, max(0, unknowns - 1), unknowns // 2, unknowns + 5, 0}:
            self.fill(taken, spread, data, marks, room, None if room < 100 else [self.pick(FILLERS)])
        if self.random.random() < 0.2:
            self.fill(taken, spread, data, marks, 600, [self.pick(FILLERS)])
        self.call("signing::sign_rows", taken + self.pick([values, marks]), a=data, v=spread)
        self.call("signing::sign_values", taken, a=data, v=spread)
        self.call("marked_rows::count_marks", marks + [s], a=data)
        self.call("marked_rows::estimate_marks", marks + [s], a=data)
        for t in {s, s // 2, max(0, s - 1)}:
            self.call("marked_rows::are_whole_32", marks + [t], a=data)
            self.call("joint_marks::joint_marks", marks + [t], a=data, d=self.junk(40))
            self.call("marked_rows::last_marked", marks + [t], a=data)
        self.settled(one, data, marks)
        self.call("sparse_columns::needs_sweep", taken + [self.pick([0, 1, 13, 14, 123, 1023, 1024, self.pick(NUMBERS)])], v=spread)
        left = one.left()
        for places in {left, max(0, left - 1), self.near(left)}:
            self.keep(one, data, spread, places)
        for working in {WORKING, one.working(), one.working() - 1}:
            self.keep(one, data, spread, left, working)
        self.reduce(taken, spread, data, marks)
        self.reduce(taken, spread, data, marks, WORKING)
        self.tie_parts(one, data, taken, marks)
        self.portions_of(one, data)
        bad = list(spread)
        for c in (n - 1, self.random.randrange(n)):
            bad[c] = self.pick([0, self.bits(64), bad[c] | 1 << min(one.m, 63), ALL])
        m, taps = self.pick([one.m, one.m, one.m, 0, 65, self.pick(NUMBERS)]), self.pick([one.taps, one.taps, self.bits(64), 0])
        inversion = self.pick([one.inversion, self.inversion(one.m), self.bits(64)])
        room = self.pick([unknowns, unknowns, max(0, unknowns - 1), unknowns + 5])
        self.fill(taken, bad, data, marks, room, [self.pick(FILLERS)])
        self.fill([m, taps, inversion] + taken[3:], self.pick([bad, spread]), data, marks, room, [self.pick(FILLERS)])
        self.reduce([m, taps, inversion] + taken[3:], self.pick([bad, spread]), data, marks)
        self.reduce(taken, bad, data, marks, WORKING)
        for words in (spread, bad, spread[:n - 1] + [0] + spread[n:], (spread[:n] + self.junk_words(256))[:256]):
            self.call("sparse_columns::has_bad_word", [self.pick([one.m, one.m, m])] + taken[1:], v=words)
        self.call("signing::sign_values", [m, taps, inversion] + taken[3:], a=data, v=bad)

    def settled(self, one, data, marks):
        """Whether words stay as they are: the set's own words, which often do, single bits, and any."""
        spread = (one.spread + [0] * 256)[:one.n]
        lists = [one.words(), [1 << b for b in range(one.m)][-3:], self.word_list(one.m)]
        for held in lists:
            self.call("closed_words::is_settled", [one.m, one.taps] + marks + [self.pick([one.s, one.s // 2])], a=data, v=spread, u=held)

    def tie_parts(self, one, data, taken, marks):
        """The calls that go by the entries of ties, as what is made of them asks for."""
        n, s, b, ties, entries, flags, numbers = one.n, one.s, one.b, one.ties, one.entries(), one.flags(), one.numbers()
        count, spread, named = len(ties), (one.spread + [0] * 256)[:256], one.named()
        self.tie_tests(entries, count, data, marks, n, s)
        self.call("free_marks::unmark", marks + [n, s, count], a=data, b=entries, v=flags, d=self.junk(b * s))
        for given in ([], [0] * count, [self.bits(1) for _ in ties], [self.pick([0, 2, 1 << 63, ALL]) for _ in ties], flags[:count // 2]):
            if count and self.random.random() < 0.5:
                self.call("free_marks::unmark", marks + [n, s, count], a=data, b=entries, v=given, d=self.junk(b * s))
        if not count:
            return
        packs = b"".join(map(two_bytes, numbers))
        for few in {count, count + 1, self.random.randint(0, count), self.pick([0, 1, 255, 256, 257, 65535])}:
            self.call("symbol_flags::symbol_numbers", [few], a=entries, d=self.junk(2 * min(few, MOST_TIES)))
            if few <= MOST_TIES:
                self.call("symbol_flags::opening_flags", [few], a=entries, v=self.junk_words(MOST_TIES))
        for number in {numbers[0], numbers[-1], numbers[0] ^ 1, numbers[-1] ^ 256, self.bits(16)}:
            self.call("symbol_flags::has_number", [number], a=self.pick([packs, packs[2:], packs[:-2]]))
        self.call("symbol_flags::count_flags", v=flags)
        self.call("symbol_flags::count_flags", v=[self.pick([0, 1, 2, 1 << 32, ALL]) for _ in range(self.pick([0, 1, 5, 256]))])
        for i in {0, count - 1, self.random.randrange(count + 2), self.pick(NUMBERS)}:
            self.call("ties::entry", [i], a=self.pick([entries, entries, entries[:-1]]))
        table, first = packed(powers_of(one.m, one.taps)), [i for i in range(count) if flags[i]]
        for i in {first[0], first[-1], self.pick(first)}:
            self.call("symbol_columns::column", [one.m, s, i], b=table, v=one.spread, a=entries, c=packs)
        other = self.junk(2 * self.pick([0, 1, 255, 256, 257, 300]))
        self.call("symbol_columns::count", [one.m, s], b=table, v=one.spread, a=entries, c=self.pick([packs, packs[2:], other]))
        self.call("symbol_columns::of", taken, v=spread, b=table, u=self.junk_words(900))
        for room in {named, named + self.pick([1, 3, 20])}:
            self.call("symbol_columns::fill_symbols", taken + [count], v=spread, a=entries, b=packed(flags), u=self.junk_words(room))
        self.call("symbol_columns::side_columns", taken + [count], v=spread, a=entries)
        # the marks of the symbols' first cells, and the columns of the cells that have one
        heads, cells = [x for _, x in one.slices], one.cell_columns()
        for (t, c, _, _), flag in zip(ties, flags):
            heads[t] &= ~(0 if flag else 1 << c)
        columns = [cells[t][c] for t, x in enumerate(heads) for c in range(n) if x >> c & 1]
        self.call("listed_symbols::set_symbols", taken + [count, 0, b, b], v=spread, c=entries, b=packed(flags),
                  a=b"".join(map(one.row, heads)), u=columns)

    def tie_tests(self, entries, count, data, marks, n, s):
        """The tests of entries of ties, with the numbers and lists as they are and with others."""
        name = "ties::check_ties"
        self.call(name, [count] + marks + [n, s], a=entries, b=data)
        if self.random.random() < 0.3:
            few, n = self.pick([0, count, count + 1, self.pick(NUMBERS)]), self.pick([n, n + 1, n - 1, self.pick(NUMBERS)])
            s = self.pick([s, s + 1, max(0, s - 1), self.pick(NUMBERS)])
            self.call(name, [few] + marks + [n, s], a=self.pick([entries, entries[:-1]]), b=data)

    def tie_lists(self, count):
        """Entries of ties beside rows of marks that go on past the last slice and the last chain, and lists of any entries."""
        for _ in range(count):
            n, s = self.pick(CHAINS, MANY_CHAINS), self.pick([0, 1, 2, 3, 5, 8])
            b = row_bytes(n)
            rows, data = self.pick([[0, b, b], [3, b, b], [b, 2 * b, b]]), bytes([255]) * (2 * b * (s + 2) + 3)
            cells = sorted({(self.random.randrange(s + 1), self.random.randrange(n)) for _ in range(self.pick([1, 2, 3, 9]))})
            for more in ([], [(s, 0)], [(s, n - 1)], [(s, n)], [(s - 1, n)], [(s + 1, 0)]):
                sides = self.pick([[0, 1], [0, 1, 1, 0, 2]])
                inside = [cell for cell in cells if cell[0] < s]
                ties = [(max(0, t), c, self.pick(SYMBOLS), self.pick(sides)) for t, c in self.pick([inside, cells]) + more]
                self.tie_tests(entry_data(ties), len(ties), self.pick([data, data, self.junk(len(data))]), rows, n, s)
            few = self.pick([0, 1, 2, 5, 40, 255, 256, 257])
            numbers = [self.pick([self.bits(16), self.pick(SYMBOLS), self.pick(SYMBOLS)]) for _ in range(few)]
            entries = entry_data([(self.random.randrange(s + 2), self.random.randrange(n + 2), k, self.pick([0, 1, 1, 2])) for k in numbers])
            entries += self.junk(self.pick([0, 0, 1, 5]))
            for given in {few, max(0, few - 1), few + 1, self.pick(NUMBERS) % 65536}:
                self.call("symbol_flags::symbol_numbers", [given], a=entries, d=self.junk(2 * min(given, MOST_TIES)))
                if given <= MOST_TIES:
                    self.call("symbol_flags::opening_flags", [given], a=entries, v=self.junk_words(MOST_TIES))
            self.call("symbol_flags::has_number", [self.pick(numbers or [0], SYMBOLS)], a=b"".join(map(two_bytes, numbers)))
            for i in (0, few, self.random.randrange(few + 1), self.pick(NUMBERS)):
                self.call("ties::entry", [i], a=entries)
            self.call("rows::packed", [self.pick([n, self.pick(NUMBERS)])])
            # rows of any bytes and cells outside them; all rows are there up to 512 slices
            rows = self.pick([rows, [0, 1, b], [3, 0, b], [self.pick(NUMBERS), self.pick(NUMBERS), b], [len(data), b, b]])
            flags = [self.pick([0, 0, 1, ALL]) for _ in range(self.pick([0, few // 2, few, few + 3]))]
            slices = self.pick([s, s, s + 1, 512])
            self.call("free_marks::unmark", rows + [n, slices, self.pick([few, few, few // 2, few + 2])],
                      a=self.pick([data, self.junk(len(data))]), b=entries, v=flags, d=self.junk(b * slices))

    def lists_of_rows(self, count):
        """The same calls with rows that stand anywhere in a list of bytes, and with counts above the limits."""
        for _ in range(count):
            m, n = self.pick(WIDTHS, [0, 65, ALL]), self.pick(CHAINS, MANY_CHAINS, [0, 257, 300, 65535])
            s = self.pick([0, 1, 2, 3, 8, 40, 100, 511, 512, 513, 600, 1000])
            b, data = row_bytes(min(n, 256)), self.junk(self.pick([0, 1, 7, 40, 200, 700]))
            rows = self.pick([[0, b, b], [self.random.randrange(9), 2 * b, b], [0, 1, 1], [3, 0, b], [0, 1, 32], [1, b, b - 1 if b else 0],
                              [len(data), b, b], [self.pick(NUMBERS), self.pick(NUMBERS), self.pick(NUMBERS)]])
            spread = self.pick([self.spread(min(max(m, 1), 64), 256), [self.bits(64) for _ in range(256)]])
            taken = [m, self.pick([self.taps(min(max(m, 1), 64)), self.bits(64)]),
                     self.pick([self.inversion(min(max(m, 1), 64)), self.bits(64)]), n, s, self.pick([0, self.bits(64)])]
            self.fill(taken, spread, data, rows, self.pick([0, 1, 5, 64, 300]), None if s < 100 else [self.pick(FILLERS)])
            self.reduce(taken, spread, data, rows)
            self.call("signing::sign_rows", taken + rows, a=data, v=spread)
            self.call("symbol_columns::of", taken, v=spread, b=packed(self.junk_words(self.pick([0, 1, 64, 575, 576, 600]))),
                      u=self.junk_words(900))
            self.slices_of(taken, spread, data, rows)
            self.call("marked_rows::count_marks", rows + [s], a=data)
            self.call("marked_rows::estimate_marks", rows + [s], a=data)
            self.call("marked_rows::are_whole_32", rows + [s], a=data)
            self.call("joint_marks::joint_marks", rows + [s], a=data, d=self.junk(40))
            self.call("marked_rows::last_marked", rows + [self.pick([0, 1, s, self.pick(NUMBERS)])], a=data)
            self.call("rows::row_of", rows + [self.pick([0, 1, 2, self.pick(NUMBERS)])], a=data, d=self.junk(40))

    def use(self, one, big=False):
        data = one.data()
        self.call("canceller_read_set", a=data, v=self.junk_words(256))
        self.rows_of(data, one.s, {0, one.s - 1, one.s} if big else None)
        self.sign(one, data)
        self.plan_of(one, data, judged=not big)
        self.parts_of(one, data)

    # ---- damaged sets

    def damaged(self, one):
        """Sets with one fault, and some with two: the data of each."""
        data, m, n, s, b = one.data(), one.m, one.n, one.s, one.b
        rows, end, count = rows_at(n), one.rows_end(), len(one.ties)

        def with_bytes(at, new, of=None):
            of = data if of is None else of
            return of[:at] + new + of[at + len(new):]

        out = [data[:k] for k in (0, 1, 2, 3, *range(9, 22), 27, 28, rows - 3, rows - 2, rows - 1, rows, rows + 1,
                                  len(data) - 1, len(data) - 2, len(data) - ENTRY_BYTES, end, end + 1, end - 1, end - b, end - 2 * b,
                                  end + 2, end + 9) if 0 <= k < len(data)]
        out += [data + self.junk(k) for k in (1, 2, b, 2 * b, ENTRY_BYTES)] + [data + b"\0", data + bytes(2 * b), data + bytes(ENTRY_BYTES)]
        for other in {0, 1, count - 1, count + 1, 255, 256, 257, 65535, 256 * count, 256 + count} - {-1}:
            out.append(with_bytes(end, two_bytes(other)))
            if other < 300:
                more = self.pick([[(0, 0, 0, 0)], one.ties[-1:] or [(0, 0, 7, 1)]]) * 300
                out.append(one.with_ties((one.ties + more)[:other]).data())
        bad = self.bad_ties(one)
        out += [one.with_ties(ties).data() for ties in self.random.sample(bad, min(len(bad), 14))]
        for width in (0, 1, 2, m - 1, m + 1, 63, 64, 65, 66, 128, 256 + m, 256 * m, 65535):
            out.append(with_bytes(0, two_bytes(width)))
        for taps in (0, 2, one.taps ^ 1, one.taps | 1 << min(m, 63), one.taps | 1 << 63, ALL, ALL - 1, 1 << min(m, 63)):
            out.append(with_bytes(TAPS_AT, eight_bytes(taps)))
        for inversion in (0, low(m), one.inversion ^ 1, one.inversion ^ 1 << (m - 1), self.inversion(m), self.bits(64)):
            out.append(with_bytes(INVERSION_AT, eight_bytes(inversion)))
        for inversion in self.bad_inversions(m, one.inversion):
            out.append(with_bytes(INVERSION_AT, eight_bytes(inversion)))
        # beside a fault that is looked for before it, and beside one that is looked for after it
        bad = with_bytes(INVERSION_AT, eight_bytes(one.inversion | 1 << min(m, 63)))
        for taps in (0, one.taps ^ 1, one.taps | 1 << min(m, 63)):
            out.append(with_bytes(TAPS_AT, eight_bytes(taps), bad))
        for count in (0, 257, 65535):
            out.append(with_bytes(CHAINS_AT, two_bytes(count), bad))
        for width in (0, 1, m - 1, m + 1, 64, 65, 65535):
            out.append(with_bytes(0, two_bytes(width), bad))
        out += [bad[:k] for k in (9, 10, 16, 17, 18, 19, 20, 21, rows - 3, rows - 1, len(bad) - 1) if 0 <= k < len(bad)]
        out.append(with_bytes(SPREAD_AT, eight_bytes(0), bad))
        out.append(with_bytes(slices_at(n), two_bytes(513), bad))
        out.append(bad + b"\0")
        for count in (0, 1, n - 1, n + 1, 255, 256, 257, 258, 512, 65535, 256 + n, 256 * (n % 256)):
            if 0 <= count:
                out.append(with_bytes(CHAINS_AT, two_bytes(count)))
        for c in {0, n - 1, self.random.randrange(n)}:
            for w in (0, 1 << min(m, 63), one.spread[c] | 1 << min(m, 63), one.spread[c] | 1 << 63, ALL):
                out.append(with_bytes(SPREAD_AT + 8 * c, eight_bytes(w)))
        for count in (0, s - 1, s + 1, 511, 512, 513, 514, 1024, 65535, 256 * (s % 256), 256 + s):
            if 0 <= count:
                out.append(with_bytes(slices_at(n), two_bytes(count)))
        for _ in range(3):
            if not s:
                break
            t = self.pick([0, s - 1, self.random.randrange(s)])
            for which in (0, 1):
                last = rows + 2 * b * t + b * which + b - 1
                if n % 8:
                    for bit in {n % 8, 7}:
                        out.append(with_bytes(last, bytes([data[last] | 1 << bit])))
                c = self.random.randrange(n)
                for place in {c, n - 1, 0}:
                    value, mark = rows + 2 * b * t + place // 8, rows + 2 * b * t + b + place // 8
                    bit = 1 << place % 8
                    both = with_bytes(value, bytes([data[value] | bit]))
                    out.append(with_bytes(mark, bytes([both[mark] | bit]), both))
        if s and n > 8:
            t, bit = self.random.randrange(s), 1 << self.random.randrange(n % 8 or 8)
            both = bytearray(data)
            for k in (0, b - 1):
                both[rows + 2 * b * t + k] |= bit
                both[rows + 2 * b * t + b + k] |= bit
            out.append(bytes(both))
        for _ in range(4):
            at = self.random.randrange(len(data))
            out.append(with_bytes(at, self.junk(1)))
            out.append(with_bytes(at, bytes([data[at] ^ 1 << self.random.randrange(8)])))
        for _ in range(4):
            at = self.random.randrange(len(data))
            out.append(with_bytes(at, self.junk(1), self.pick(out) or data))
        return out

    def late(self):
        """Sets of many slices whose one fault is in the last of them."""
        for n, s in ((1, 40), (3, 200), (7, 512), (12, 90)):
            one = self.any_set(n=n, s=s, kind="few")
            data, end = bytearray(one.data()), one.rows_end()
            values, marks = end - 2 * one.b, end - one.b
            for places, bit in (([marks - 1], 128), ([end - 1], 128), ([values, marks], 1)):
                faulty = bytearray(data)
                for place in places:
                    faulty[place] |= bit
                self.use_damaged(one, bytes(faulty), [0, 1, 2, 3, 4])

    def use_damaged(self, one, data, which=None):
        """The set reader, and one or two of the calls that take a set."""
        self.call("canceller_read_set", a=data, v=self.junk_words(256))
        unknowns, left = one.unknowns(), one.left()
        for kind in which or self.random.sample(range(9), 2):
            room = {"u": self.working(one), "v": self.junk_words(left)}
            if kind == 0:
                self.call("canceller_value_row", [self.random.randrange(one.s + 1)], a=data)
            elif kind == 1:
                self.call("canceller_mark_row", [self.random.randrange(one.s + 1)], a=data)
            elif kind == 2:
                self.call("canceller_sign", a=data, b=self.record_of(one, self.pick(["any", "short", "spare"])))
            elif kind == 3:
                self.call("canceller_list_columns", a=data, u=self.junk_words(unknowns))
            elif kind == 4:
                self.call("canceller_plan", a=data, **room)
            elif kind == 5:
                self.call("plan_text::print_plan", a=data, d=self.junk(4096), **room)
            elif kind == 6:
                first, second = self.record_of(one, "any"), self.record_of(one, "filled")
                if self.random.random() < 0.5:
                    self.call("guarantee::judge_record", a=data, b=first, d=self.junk(540), **room)
                else:
                    self.call("guarantee::judge_records", a=data, b=first, c=second, d=self.junk(540), **room)
            elif kind == 7:
                self.ties_of(data)
            else:
                self.call("slice_rows::" + self.pick(["value_row", "mark_row"]), [self.random.randrange(one.s + 1)], a=data, d=self.junk(40))
        n, s = self.pick([one.n, self.pick(CHAINS), self.pick(NUMBERS)]), self.pick([one.s, self.pick(SLICES), self.pick(MANY_SLICES)])
        marks, spread = [rows_at(one.n) + one.b, 2 * one.b, one.b], (one.spread + [0] * 256)[:256]
        kind = self.random.randrange(6)
        if kind == 0:
            self.call("marked_rows::count_marks", marks + [s], a=data)
        elif kind == 1:
            self.call("signing::sign_values", [one.m, one.taps, one.inversion, n, s], a=data, v=spread)
        elif kind == 2:
            self.fill([one.m, one.taps, one.inversion, one.n, s, 0], spread, data, marks,
                      self.pick([unknowns, unknowns + 8, 20, 520]), [self.pick(FILLERS)])

    # ---- the set writer and the clock

    def write_set(self, one):
        m, taps, inversion, spread, s, n, b = one.m, one.taps, one.inversion, one.spread, one.s, one.n, one.b
        values, marks, ties, size = one.values(), one.marks(), one.entries(), len(one.data())

        def call(room=None, m=m, taps=taps, inversion=inversion, s=s, spread=spread, values=values, marks=marks, ties=ties):
            room = max(0, self.near(size) if room is None else room)
            self.call("canceller_write_set", [m, taps, inversion, s, room], v=spread, a=values, b=marks, c=ties, d=self.junk(room))

        for room in (size, size - 1, size - 2, size + 1, size + 7, 0):
            call(room)
        for width in (0, 65, 64, m - 1, 63, 66, 256, 65536 + m, ALL):
            call(m=width)
        for bad in (0, taps ^ 1, taps | 1 << min(m, 63), taps | 1 << 63, ALL):
            call(taps=bad)
        for word in (0, low(m), 1 << (m - 1), self.bits(m)):
            call(inversion=word)
        for bad in self.bad_inversions(m, inversion):
            call(inversion=bad)
        bad = inversion | 1 << min(m, 63)
        call(inversion=bad, m=self.pick([0, 65]))
        call(inversion=bad, m=64)
        call(inversion=bad, taps=self.pick([0, taps ^ 1, taps | 1 << min(m, 63)]))
        call(inversion=bad, spread=[])
        call(inversion=bad, spread=[0] + spread[1:])
        call(inversion=bad, s=513)
        call(inversion=bad, values=values + b"\0")
        call(inversion=bad, room=0)
        call(spread=[])
        call(spread=spread + [1])
        for at in {0, n - 1, self.random.randrange(n)}:
            for w in (0, 1 << min(m, 63), spread[at] | 1 << 63):
                call(spread=spread[:at] + [w] + spread[at + 1:])
        for count in (s + 1, max(0, s - 1), 512, 513, 65536 + s, 65535, ALL, (1 << 32) + s):
            call(s=count)
        call(values=values[:-1])
        call(marks=marks[:-1])
        call(values=values + self.junk(1))
        call(marks=marks + b"\0")
        call(values=values + bytes(b), marks=marks + bytes(b))
        # entries that aren't whole, more than 256 of them, and such as a set can't have
        for more in (1, 2, 3, 4, 5, 6):
            call(ties=ties + self.junk(more), room=size + 20)
            call(ties=ties + bytes(more), room=size + 20)
        call(ties=ties[:-1])
        call(ties=b"")
        for few in (255, 256, 257, 258):
            call(ties=entry_data((one.ties + [(0, 0, 0, 0)] * few)[:few]), room=size + 2000)
        call(ties=bytes(ENTRY_BYTES * MOST_TIES + 1), room=size + 2000)
        call(ties=bytes(65537 * 8 % 40000), room=size + 2000)
        bad = self.bad_ties(one)
        for wrong in self.random.sample(bad, min(len(bad), 12)):
            call(ties=entry_data(wrong), room=self.pick([size, size + 40, 0]))
        call(ties=self.tied(one).entries(), room=size + 2000)
        for _ in range(2):
            if not s:
                break
            t, c = self.pick([0, s - 1, self.random.randrange(s)]), self.random.randrange(n)
            if n % 8:
                for bit in {n % 8, 7}:
                    spare = {"values": bytearray(values), "marks": bytearray(marks)}
                    for name, rows in spare.items():
                        rows[b * t + b - 1] |= 1 << bit
                        call(**{name: bytes(rows)})
                    call(**spare)
            value, mark = bytearray(values), bytearray(marks)
            value[b * t + c // 8] |= 1 << c % 8
            mark[b * t + c // 8] |= 1 << c % 8
            call(values=bytes(value), marks=bytes(mark))
            other = self.random.randrange(s) * b + c // 8
            value[other] |= 1 << c % 8
            mark[other] |= 1 << c % 8
            call(values=bytes(value), marks=bytes(mark))

    def clocks(self, m, n):
        taps, inversion, spread, state, b = self.taps(m), self.inversion(m), self.spread(m, n), self.bits(m), row_bytes(n)
        row = self.bits(n).to_bytes(b, "little")

        def call(m=m, taps=taps, inversion=inversion, state=state, spread=spread, row=row):
            self.call("canceller_clock", [m, taps, inversion, state], v=spread, a=row)

        call()
        call(state=low(m))
        call(state=1 << (m - 1))
        call(row=bytes(b))
        for width in {0, 65, self.pick(NUMBERS)}:
            call(m=width)
        for bad in (0, taps ^ 1, taps | 1 << min(m, 63), taps | 1 << 63):
            call(taps=bad)
        for word in (0, low(m), 1 << (m - 1), self.bits(m)):
            call(inversion=word)
            call(inversion=word, state=0)
        for bad in self.bad_inversions(m, inversion):
            call(inversion=bad)
        bad = inversion | 1 << min(m, 63)
        call(inversion=bad, m=self.pick([0, 65]))
        call(inversion=bad, m=64)
        call(inversion=bad, taps=self.pick([0, taps ^ 1, taps | 1 << min(m, 63)]))
        call(inversion=bad, spread=[], row=b"")
        call(inversion=bad, spread=[0] + spread[1:])
        call(inversion=bad, row=row + b"\0")
        call(inversion=bad, state=ALL)
        call(spread=[], row=b"")
        at = self.random.randrange(n)
        for w in (0, 1 << min(m, 63), spread[at] | 1 << 63):
            call(spread=spread[:at] + [w] + spread[at + 1:])
        call(row=row[:-1])
        call(row=row + b"\0")
        call(row=row + self.junk(1))
        if n % 8:
            for bit in {n % 8, 7}:
                call(row=row[:-1] + bytes([row[-1] | 1 << bit]))
        for bad in (state | 1 << min(m, 63), state | 1 << 63, 1 << min(m, 63), ALL):
            call(state=bad)
        call(spread=self.spread(m, 257), row=bytes(33))
        for _ in range(3):
            register = [self.pick([m, m, 0, self.pick(NUMBERS)]), self.pick([taps, self.bits(64)]),
                        self.pick([inversion, self.inversion(m), self.bits(64)]), self.pick([state, self.bits(64), ALL])]
            self.call("register::advance", register + [self.pick([0, self.bits(m), self.bits(64)])])
            self.call("register::holding", register + [self.bits(64)])
            self.call("register::clock_driven", register + [self.pick([0, self.bits(m), self.bits(64)])])
            self.call("register::clock_row", register, v=self.junk_words(self.pick([0, 1, 3, 65, 256])), a=self.junk(self.pick([0, 1, 8, 32, 33])))
            self.call("powers::powers", register + [self.pick([0, 1, 65, 575, 576, 577, self.pick(NUMBERS)])], v=self.junk_words(576))
            self.call("powers::advance_words", register, v=self.junk_words(self.pick([0, 1, 3, 20])))
            self.call("powers::next_state", register + [self.pick([self.bits(m), self.bits(64)])])

    # ---- the elimination

    def eliminate(self, m, columns, places=None):
        for room in (64, places if places is not None else self.random.randint(0, m)):
            self.call("canceller_eliminate", [m], u=columns, v=self.junk_words(room))

    def eliminations(self, count):
        for _ in range(count):
            m = self.pick(WIDTHS)
            columns = [self.bits(m) for _ in range(self.pick([0, 1, 2, 3, 5, m - 1, m, m + 1, 2 * m]))]
            if self.random.random() < 0.4 and columns:
                few = columns[:max(1, self.random.randint(1, m) - 1)]
                columns += [self.pick(few) ^ self.pick(few) for _ in range(self.random.randrange(20))]
            if self.random.random() < 0.2:
                columns += [0] * self.random.randrange(4)
            left = m - rank_of(columns)
            self.eliminate(m, columns, left)
            self.eliminate(m, columns, max(0, left - 1))
            if columns:
                at = self.random.randrange(len(columns))
                for w in (columns[at] | 1 << min(m, 63), columns[at] | 1 << 63):
                    self.eliminate(m, columns[:at] + [w] + columns[at + 1:], left)
            for width in (0, 65, self.pick(NUMBERS)):
                self.call("canceller_eliminate", [width], u=columns, v=self.junk_words(64))

    def long_eliminations(self, count, left=None):
        """Long runs of columns that leave the words as they are, with a few others among them that are odd with one word only, the
        first, the last or any, or with several. `left` is how many words there are when the run begins."""
        for _ in range(count):
            m = self.pick([64, 64, 64, 63, 60, 48, 33, 32, 17, 9, 8, 5])
            rank = m - left if left else self.random.randint(0, max(0, m - 2))
            if not 0 <= rank < m:
                continue
            bits = self.random.sample(range(m), m)
            if self.random.random() < 0.3:
                whole = self.random.sample(range((m + 7) // 8), (m + 7) // 8)
                bits.sort(key=lambda b: whole.index(b // 8))
            inside, outside = [1 << b for b in bits[:rank]], sorted(bits[rank:])
            kind = self.random.randrange(3)
            if kind == 0:
                inside = [w ^ (self.bits(m) & sum(inside)) for w in inside]
            elif kind == 1 and rank:
                inside = [self.bits(m) for _ in range(rank)]
            length = self.pick([64, 128, 256, 300, 320, 511, 512, 513, 600, 900, 1500])
            if left or (m < 40 and self.random.random() < 0.5):
                length = 64 * (256 // max(1, m - rank) + self.pick([0, 1, 2, 3]))

            def even(most=None):
                w = 0
                for one in inside if most is None else self.random.sample(inside, min(len(inside), self.random.randint(0, most))):
                    if most is not None or self.random.random() < 0.5:
                        w ^= one
                return w

            some = [even() for _ in range(40)]
            columns = list(inside) + [self.pick(some) ^ self.pick(some) for _ in range(length)]
            for _ in range(self.pick([0, 1, 1, 2, 3])):
                at = self.pick([self.random.randrange(rank, len(columns)), min(len(columns) - 1, rank + self.random.randrange(70))])
                kind = self.random.randrange(5)
                odd = (1 << outside[0] if kind == 0 else 1 << outside[-1] if kind == 1 else self.bits(m) if kind == 2
                       else 1 << self.pick(outside))
                columns[at] = odd ^ self.pick([0, 0, even(1), even(2), even(4), even()])
            q = m - rank_of(columns)
            self.call("canceller_eliminate", [m], u=columns, v=self.junk_words(self.pick([64, q, q, max(0, q - 1)])))
            if self.random.random() < 0.2:
                self.call("elimination::add_columns", v=[1 << b for b in range(m)], u=columns)

    def steps(self, count):
        for _ in range(count):
            m = self.pick(WIDTHS)
            self.call("column_step::add_column", [self.pick([self.bits(m), self.bits(64), 0, ALL])],
                      v=self.pick([self.word_list(m), self.junk_words(self.random.randrange(70))]))
            last, w = self.bits(m), self.bits(m)
            for to in (w, last, 0, last ^ 1, w | 1 << min(m, 63)):
                seen = self.pick([0, self.bits(m), self.bits(m) & ~to])
                self.call("reduced_list::is_next", [seen, to])
                self.call("reduced_list::with_highest", [seen, to])
            self.call("reduced_list::is_next", [self.pick(NUMBERS), self.bits(64)])
            words, few = self.word_list(m), [self.bits(m) for _ in range(self.pick([0, 1, 2, 5, m]))]
            self.call("elimination::add_columns", v=self.pick([words, [1 << b for b in range(m)]]), u=few)
            for room in (0, 1, len(words), len(words) + 1, 64):
                self.call("elimination::write_front", v=self.junk_words(room), u=words)
            many = [self.bits(m) for _ in range(self.pick([11, 16, 30, 64, 127, 128, 140]))]
            wide = self.word_list(64, self.pick([31, 32, 40, 54, 63, 64]))
            other = list(wide)
            other[self.random.randrange(len(other))] ^= self.pick([0, 1 << 63, wide[-1], wide[0], self.bits(64)])
            for held in (wide, other, [1 << b for b in range(self.pick([32, 40, 64]))], self.junk_words(self.pick([40, 65]))):
                self.call("spread_words::begin", v=held, u=self.pick([many, few, [self.bits(64) for _ in range(24)]]))
            for name in ("column_basis::slot_words", "column_basis::take_columns"):
                self.call(name, [self.pick([0, ALL, ALL ^ low(m), self.bits(64)])], u=self.pick([few, many]), v=self.junk_words(64))
            self.call("column_basis::single_bits", [self.pick([0, 1, m, 63, 64, 65])], v=self.junk_words(64))
            self.call("turned_words::turn", v=self.junk_words(self.pick([0, 1, 3, 63, 64, 65])), u=self.junk_words(64))
            self.call("turned_words::held_count", [self.pick([0, 1, ALL, ALL ^ low(m), self.bits(64)])])
            self.call("turned_words::dead_behind", [self.pick([0, 1, m, 63, 64, 65, self.pick(NUMBERS)])])
            self.call("parity_table::pays", [self.pick([0, 3, 4, 5, 24, 63, 64, 65]), self.pick([0, 63, 64, 128, 383, 384, 385, 1536, self.pick(NUMBERS)])])
            self.call("run_words::put_slice", [m, self.pick([0, 1, 8, m, m + 1])], u=[c & low(m) for c in self.pick([few, many])],
                      b=b"".join((self.bits(m)).to_bytes(8, "little") for _ in range(8)), v=self.junk_words(64))
            self.call("turned_words::xor_into", [self.pick([0, ALL, self.bits(64)]), self.bits(64)], v=self.junk_words(self.pick([0, 1, 40, 64, 70])))
            self.call("word::clear_words", v=self.junk_words(self.pick([0, 1, 2, 63, 64, 65, 200])))
            self.call("powers::from_powers", [self.pick([self.bits(64), self.bits(m), self.pick(NUMBERS)])],
                      u=self.pick([powers_of(m, self.taps(m))[:m], self.junk_words(self.pick([0, 1, 3, 63, 64, 65, 70]))]))
        self.call("elimination::unit_words", v=self.junk_words(64))
        self.call("column_basis::unit_words", v=self.junk_words(64))
        for seen, w in ((0, 0), (0, 1), (1, 1), (1, 2), (1, 3), (2, 1)):
            self.call("reduced_list::is_next", [seen, w])

    # ---- plans

    def bad_lists(self, m, words):
        """Lists that are nearly reduced."""
        out = [words[::-1], words + [words[-1]], [0] + words[1:], words[:-1] + [words[-1] | 1 << min(m, 63)], words + [0]]
        if len(words) > 1:
            i, k = sorted(self.random.sample(range(len(words)), 2))
            clash = list(words)
            clash[k] ^= words[i]
            out.append(clash)
            top = list(words)
            top[k] |= 1 << (words[i].bit_length() - 1)
            out.append(top)
            same = list(words)
            same[k] = same[i]
            out.append(same)
            swapped = list(words)
            swapped[i], swapped[k] = swapped[k], swapped[i]
            out.append(swapped)
            under = list(words)
            under[i] ^= words[k]
            out.append(under)
        if len(words) > 2:
            out.append(words[:2] + [words[0] ^ words[1]] + words[2:])
        return out

    def plans(self, count):
        for _ in range(count):
            m = self.pick(WIDTHS)
            words = self.word_list(m, self.pick([1, m, None, None]))
            q = len(words)
            expected = self.bits(q)
            size = 6 + 8 * q + row_bytes(q)
            for room in (size, size - 1, size - 2, size + 1, size + 8, self.random.randrange(size)):
                self.call("canceller_write_plan", [m, expected], v=words, d=self.junk(room))
            for bad in (1 << min(q, 63), expected | 1 << min(q, 63), expected | 1 << min(m, 63), expected | 1 << 63, ALL):
                self.call("canceller_write_plan", [m, bad], v=words, d=self.junk(self.near(size)))
            for width in (0, 65, words[-1].bit_length() - 1, q - 1, 64, self.pick(NUMBERS)):
                self.call("canceller_write_plan", [width, expected], v=words, d=self.junk(size))
            self.call("canceller_write_plan", [m, 0], v=[], d=self.junk(40))
            self.call("canceller_write_plan", [m, 0], v=[self.word(m) for _ in range(m + 1)], d=self.junk(700))
            for bad in self.bad_lists(m, words):
                self.call("canceller_write_plan", [m, expected], v=bad, d=self.junk(size + 20))
                self.call("reduced_list::is_reduced", [m], v=bad)
                self.read_plan(plan_data(m, bad, expected), q)
            self.call("reduced_list::is_reduced", [m], v=words)
            self.call("plan_writer::plan_length", v=words)
            for width in (0, 65, words[-1].bit_length() - 1, q - 1, q, 64, 256 * m, 256 + m):
                self.read_plan(plan_data(max(0, width), words, expected), q)
            for first in (0, q - 1, q + 1, m, m + 1, 65, 256 + q, 256 * q, 65535):
                self.read_plan(plan_data(m, words, expected, count=first), q)
                self.read_plan(plan_data(m, words, expected, count=first, again=first), q)
            for again in (0, q - 1, q + 1, m, 256 + q, 256 * q):
                self.read_plan(plan_data(m, words, expected, again=again), q)
            many = [self.word(m) for _ in range(m + 1)]
            self.read_plan(plan_data(m, many, 0), q)
            self.read_plan(plan_data(m, [], 0), q)
            plan = plan_data(m, words, expected)
            for cut in (0, 1, 2, 3, 4, 5, 11, 12, size - 1, size - 2, size - row_bytes(q), size - row_bytes(q) - 1,
                        size - row_bytes(q) - 2, size - row_bytes(q) - 3):
                self.read_plan(plan[:max(0, cut)], q)
            for more in (b"\0", self.junk(1), bytes(8)):
                self.read_plan(plan + more, q)
            if q % 8:
                for bit in {q % 8, 7}:
                    self.read_plan(plan[:-1] + bytes([plan[-1] | 1 << bit]), q)
                    for again in (0, q + 1):
                        twice = plan_data(m, words, expected, again=again)
                        self.read_plan(twice[:-1] + bytes([twice[-1] | 1 << bit]), q)
            for _ in range(3):
                at, to = self.random.randrange(size), self.random.randrange(size)
                once = plan[:at] + self.junk(1) + plan[at + 1:]
                self.read_plan(once, q)
                self.read_plan(once[:to] + self.junk(1) + once[to + 1:], q)
            for places in (q, q - 1, q + 1, 64, 0):
                self.call("canceller_read_plan", a=plan, v=self.junk_words(places))
            parities = self.parities(words)
            for _ in range(4):
                self.call("canceller_judge", [self.bits(m)], a=plan)
            for bad in (1 << min(m, 63), ALL, 1 << 63 | self.bits(m)):
                self.call("canceller_judge", [bad], a=plan)
            for _ in range(2):
                y = self.bits(m)
                right = parities(y)
                self.call("canceller_judge", [y], a=plan_data(m, words, right))
                for i in {0, q - 1, self.random.randrange(q)}:
                    self.call("canceller_judge", [y], a=plan_data(m, words, right ^ 1 << i))

    # ---- the two calls that planning is

    def two_calls(self, count):
        """The words of sets, and the expected bits of lists of words for them."""
        for call in [c for c in self.calls if c.name == "canceller_plan"]:
            self.call("canceller_plan_words", a=call.a, u=call.u, v=call.v)
        sets = [sample(), self.low_rank(64, 9, 60), self.any_set(64, s=3, kind="none")] + [self.any_set() for _ in range(count)]
        # many slices, each with values of its own
        sets += [self.any_set(n=self.pick(CHAINS), s=s, kind=kind) for s in MANY_SLICES for kind in ("one", "few")]
        sets += [self.any_set(self.pick([63, 64]), n, s, "one") for n, s in ((1, 512), (2, 511), (9, 300))]
        # as many columns as bits and more: often no word is left
        sets += [self.any_set(m=m, n=self.pick(CHAINS), s=8, kind="all") for m in (1, 2, 3, 4, 5, 8, 9)]
        for one in sets:
            every = [low_row(one.n)] * one.s
            self.expected(one)
            self.expected(one.revised(every))
            self.expected(one.revised([self.bits(one.n) for _ in every]))
        for n, s in ((self.pick([3, 9]), 2), (8, 1), (self.pick([1, 3, 8, 9, 17]), self.pick([0, 1, 2, 3]))):
            one = self.any_set(n=n, s=s)
            for data in self.damaged(one):
                self.call("canceller_expect", a=data, v=self.pick(self.word_lists(one)))

    def word_lists(self, one):
        """Lists of words for a set: its own, other reduced ones, nearly reduced ones, none, and more than m, reduced or not."""
        m, own, other = one.m, one.words(), self.word_list(one.m)
        single = [1 << b for b in range(m)]
        reduced = [own, own[1:], own[:-1], other, self.word_list(m, 1), self.word_list(m, m), single]
        unreduced = self.bad_lists(m, own or other) + [[self.word(m)] * m, [low(m)] * m, self.junk_words(self.random.randint(1, m))]
        long = [single + [1 << min(m, 63)], single + [low(m)], single[::-1] + [0], self.junk_words(m + 1), [0] * (m + 1),
                self.junk_words(self.pick([65, 70, 128, 256 + m]))]
        return reduced + unreduced + long + [[]]

    def expected(self, one):
        """The words of a set and the expected bits of lists of words for it, by the calls of the boundary and below it."""
        data, left = one.data(), one.left()
        working = one.working()
        for room, places in ((working, left), (working + 1, 64), (working, max(0, left - 1)), (working - 1, 64)):
            self.call("canceller_plan_words", a=data, u=self.junk_words(room), v=self.junk_words(places))
        self.call("canceller_plan_words", a=data, u=self.working(one), v=self.junk_words(self.near(left)))
        taken = [one.m, one.taps, one.inversion, one.n, one.s, 0]
        spread, lists = (one.spread + [0] * 256)[:256], self.word_lists(one)
        for words in lists:
            self.call("canceller_expect", a=data, v=words)
        for words in [one.words(), self.junk_words(self.pick([1, 5, 63, 64, 65, 80]))] + self.random.sample(lists, 3):
            self.call("expectation::expected_bits", taken, a=data, v=spread, u=words)

    # ---- cutting

    def cuttings(self, count):
        """Sets cut into runs."""
        sets = [sample()] + [self.any_set() for _ in range(count)]
        for m in (1, 2, 3, 4, 5, 8, 63, 64):
            sets += [self.any_set(m, self.pick(CHAINS), s, kind) for s in (0, 1, 2, 40) for kind in ("one", "few", "half")]
        # many runs, and runs of many slices
        for m, n, s, kind in ((64, 1, 512, "half"), (64, 2, 512, "few"), (3, 2, 511, "few"), (9, 7, 300, "few"), (33, 9, 200, "few"),
                              (64, 65, 40, "few"), (17, 1, 512, "all"), (64, 256, 512, "one")):
            sets.append(self.any_set(m, n, s, kind))
        sets += [self.low_rank(self.pick([64, 36, 9]), self.pick([5, 9, 17]), self.pick([20, 60, 100])) for _ in range(4)]
        sets += [self.first_slice(self.pick([64, 9]), self.pick([3, 70]), 9, 0), self.single_cells(64, 20, 30, 15)]
        # few independent columns, reached from every byte of the words eight clocks at once: a word that is unclocked wrong is a column more
        for m, n, s in ((64, 256, 512), (64, 256, 100), (63, 100, 41), (17, 60, 64), (9, 40, 30), (5, 9, 17), (3, 4, 20)):
            sets.append(self.meeting(m, n, s))
        # one unknown cell to a slice, from some slice on or up to one
        for m, n, s in ((3, 2, 12), (8, 5, 30), (64, 17, 200)):
            one, at = self.any_set(m, n, s, "one"), self.random.randrange(1, s)
            marks = [1 << self.random.randrange(n) for _ in range(s)]
            for kept in ([0] * at + marks[at:], marks[:at] + [0] * (s - at)):
                sets.append(Set(m, one.taps, one.inversion, one.spread, [(self.bits(n) & ~x, x) for x in kept]))
        for one in sets:
            self.cut(one)
        # a slice that alone leaves too few words: the first, the last or another
        for m, n, s in ((1, 1, 3), (3, 5, 4), (8, 9, 20), (64, 70, 9)):
            for t in {0, s - 1, self.random.randrange(s)}:
                one = self.any_set(m, n, s, "one")
                slices = [(v, x) if i != t else (0, low_row(n)) for i, (v, x) in enumerate(one.slices)]
                self.cut(Set(m, one.taps, one.inversion, [1 << c % m for c in range(n)], slices))
        for n, s in ((self.pick([3, 9]), 2), (8, 1), (self.pick([1, 3, 8, 9, 17]), self.pick([0, 1, 2, 3]))):
            one = self.any_set(n=n, s=s)
            for data in self.damaged(one):
                self.call("canceller_cut", [self.pick([0, 1, 1, one.m, one.m + 1])], a=data, v=self.junk_words(self.pick([0, s, 512])))

    def meeting(self, m, n, s):
        """Chains that are each unknown in one slice, with words of which few are independent by the end: any taps."""
        taps, ends = self.taps(m), [self.word(m) for _ in range(max(1, m // 5))]
        spread, slices = [], [0] * s
        for c in range(n):
            t, w = self.random.randrange(s), self.pick(ends) ^ self.pick([0, *ends])
            for _ in range(s - 1 - t):
                w = unclocked(m, taps, w)
            spread.append(w or 1)
            slices[t] |= (w != 0) << c
        return Set(m, taps, self.inversion(m), spread, [(self.bits(n) & ~x, x) for x in slices])

    def cut(self, one):
        """A set cut for k 0, 1, 8, m, m + 1 and others, among them the most words that every slice leaves, those that all slices together
        leave, and one more of each; with cut lists that just suffice, that are too short and that are longer. Other values change
        nothing."""
        m, data, slices = one.m, one.data(), list(one.slice_columns())[::-1]
        least, whole = m - max(map(rank_of, slices), default=0), m - rank_of(w for columns in slices for w in columns)
        for k in {0, 1, 2, 8, m - 1, m, m + 1, least - 1, least, least + 1, whole, whole + 1, self.random.randint(1, m),
                  self.pick(NUMBERS)} - {-1}:
            runs = runs_of(m, slices, k) if 1 <= k <= m else 0
            for room in {runs, max(0, runs - 1), self.near(runs), self.pick([0, 1, one.s, 512, 600])}:
                self.call("canceller_cut", [k], a=data, v=self.junk_words(room))
            if runs:
                other = one.revised([self.bits(one.n) for _ in one.slices])
                self.call("canceller_cut", [k], a=other.data(), v=self.junk_words(runs))

    def unclockings(self, count):
        """Words some clocks earlier, and 8 clocks earlier by a table: every byte is the lowest one of some word."""
        for m in [1, 3, 64, 65, 0] + [self.pick(WIDTHS, WIDTHS, NUMBERS) for _ in range(count)]:
            width = max(1, min(m, 64))
            for taps in (self.taps(width), self.bits(width) | 1, self.pick([0, ALL, self.bits(64)])):
                register = [m, taps, self.inversion(width), self.bits(64)]
                for clocks in (0, 1, 7, 8, 9, self.pick(range(2, 7)), self.pick([15, 16, 63, 64, 65, 255, 256, 257])):
                    words = [self.pick([self.word(width), self.bits(width), self.bits(64), 0]) for _ in range(self.pick([0, 1, 2, 3, 20]))]
                    self.call("unclocking::unclock_words", register + [clocks], v=words)
                self.call("unclocking::unclock_words", register + [self.pick([511, 512, 513, 32768, 65535])], v=self.junk_words(2))
                self.call("unclocking::unclock_words", register + [self.pick(range(9))], v=self.lowest_bytes())
                self.call("unclocking::eight_back", register, v=self.junk_words(256))
        for _ in range(count):
            words = self.pick([[], [ALL], [0, 255, 256, 1 << 63, 255 << 56], self.lowest_bytes(), self.junk_words(self.pick([1, 3, 17, 600]))])
            self.call("unclocking::unclock_eight", u=self.junk_words(256), v=words)
        self.call("unclocking::unclock_eight", u=self.junk_words(256), v=self.lowest_bytes())

    def eight_clocks(self, count):
        """Words up to 8 clocks later by a table: every byte is the highest one of some word, and words have bits above the width."""
        for m in [0, 1, 7, 8, 9, 64, 65] + [self.pick(WIDTHS, WIDTHS, NUMBERS) for _ in range(count)]:
            width = max(1, min(m, 64))
            for taps in (self.taps(width), self.bits(64)):
                self.call("eight_clocks::eight_on", [m, taps, self.inversion(width), self.bits(64)], v=self.junk_words(256))
            bytes_up = [byte << max(0, width - 8) | self.bits(max(0, width - 8)) for byte in self.random.sample(range(256), 256)]
            for words in ([], bytes_up, self.junk_words(self.pick([1, 3, 17, 600])), [self.word(width) for _ in range(20)]):
                self.call("eight_clocks::advance_eight", [m], u=self.junk_words(256), v=words)
                self.call("eight_clocks::look_eight", [m], u=self.junk_words(self.pick([256, 256, 257, 300])), v=words)
                self.call("eight_clocks::look_few", [m, self.pick(range(20))], u=self.junk_words(self.pick([256, 256, 257, 300])), v=words)
                for clocks in {0, self.pick(range(8)), self.pick([8, 9, 15, 255, 65535])}:
                    self.call("eight_clocks::advance_few", [m, clocks], u=self.junk_words(256), v=words)

    def next_columns(self, count):
        """The columns of one slice after the other and the words for the next: all slices of a set, and one past the last; then any words,
        tables and rows, and numbers above the limits."""
        name = "slice_columns::next_columns"
        for _ in range(count):
            one = self.any_set(s=self.pick([1, 2, 5, 8, 9, 17, 25]), kind=self.pick(["one", "few", "half", "dense", "all"]))
            data, n, b, words, table = one.data(), one.n, one.b, one.spread, eight_earlier(one.m, one.taps)
            register, marks = [one.m, one.taps, one.inversion, self.pick([0, self.bits(64)])], [rows_at(n) + b, 2 * b, b]
            for t in range(one.s + 1):
                marked = bin(one.slices[t][1]).count("1") if t < one.s else 0
                room = self.pick([256, marked, marked, self.near(marked), 0])
                self.call(name, register + marks + [t], a=data, b=packed(table), v=words, u=self.junk_words(room))
                if t % 8 == 7:
                    words = [w >> 8 ^ table[w % 256] for w in words]
            for _ in range(3):
                m, taps = self.pick([one.m, 0, 65, self.pick(NUMBERS)]), self.pick([one.taps, 0, ALL, self.bits(64)])
                rows = self.pick([marks, marks, [rows_at(n), 2 * b, b], [0, 1, 32], [3, 0, b], [self.pick(NUMBERS) for _ in range(3)]])
                t = self.pick(range(9), [15, 16, 23, 24, 511, 512, 32767, 65535, self.pick(NUMBERS)])
                words = self.pick([one.spread, self.junk_words(n), self.junk_words(self.pick([0, 1, 65, 300]))])
                self.call(name, [m, taps] + register[2:] + rows + [t], a=data, b=packed(self.pick([table, self.junk_words(256)])), v=words,
                          u=self.junk_words(self.pick([0, 1, 5, 64, 300])))

    def lowest_bytes(self):
        """256 words, no two with the same lowest byte."""
        return [self.pick([0, self.bits(56)]) << 8 | byte for byte in self.random.sample(range(256), 256)]

    @staticmethod
    def parities(words):
        return lambda y: sum((bin(w & y).count("1") % 2) << i for i, w in enumerate(words))

    def read_plan(self, plan, q):
        self.call("canceller_read_plan", a=plan, v=self.junk_words(self.near(q)))
        kind = self.random.randrange(5)
        if kind == 0:
            self.call("canceller_judge", [self.pick([0, 1, self.bits(64)])], a=plan)
        elif kind == 1:
            self.call("plan_file::plan_word", [self.pick([0, 1, q, self.pick(NUMBERS)])], a=plan)
            self.call("plan_file::check_listed", a=plan)
            self.call("plan_file::width", a=plan)
            self.call("plan_file::count", a=plan)

    # ---- the lowest crates

    def rows(self, count):
        for _ in range(count):
            n = self.pick(CHAINS, MANY_CHAINS, [0])
            row = self.junk(self.near(row_bytes(n)))
            self.call("rows::row", [self.pick([n, n, self.pick(NUMBERS)]), self.pick([0, 7, 8, n, self.pick(NUMBERS)])], a=row)
            for m in (self.pick(WIDTHS), self.pick(NUMBERS)):
                w = self.bits(self.pick([min(m, 64), 64]))
                inversion = self.pick([self.bits(min(m, 64)), 1 << min(m, 63), self.bits(64)])
                self.call("register::limits", [m, self.bits(min(m, 64)), self.pick(NUMBERS), self.pick(NUMBERS)])
                self.call("register::fresh", [m, w, inversion])
                self.call("chains::chosen_word", [self.pick([0, 1, 2, ALL]), self.pick([0, w, 1 << min(m, 63)])])
                spread = self.spread(max(1, min(m, 64)), max(1, n))
                if self.random.random() < 0.4:
                    spread[self.random.randrange(len(spread))] = self.pick([0, ALL, 1 << min(m, 63)])
                self.call("chains::spread", [m], v=spread, a=row)
            many = b"".join(self.bits(n).to_bytes(row_bytes(n), "little") for _ in range(5))
            self.call("rows::has_spare_row", [n, self.pick([5, 4, 6, 0, ALL])], a=many)
            if n % 8 and many:
                at = row_bytes(n) * self.pick([1, 2, 5]) - 1
                spare = bytearray(many)
                spare[at] |= 1 << self.pick([n % 8, 7])
                self.call("rows::has_spare_row", [n, self.pick([5, 4, 1])], a=spare)
            self.call("rows::has_spare_row", [self.pick(NUMBERS), self.pick(NUMBERS)], a=self.junk(20))
            values = self.junk(self.pick([0, 1, 2, 9, 33]))
            apart = bytes(self.random.getrandbits(8) & ~x for x in values)
            self.call("rows::share_a_bit", a=values, b=apart + self.junk(self.pick([0, 0, 3])))
            if values:
                at, bit = self.pick([0, len(values) - 1, self.random.randrange(len(values))]), 1 << self.random.randrange(8)
                both = [x[:at] + bytes([x[at] | bit]) + x[at + 1:] for x in (values, apart)]
                self.call("rows::share_a_bit", a=both[0], b=both[1])
                self.call("rows::share_a_bit", a=both[0][:at], b=both[1])

    def slices_of(self, taken, spread, data, rows):
        """The drives and the signature of slices, with rows of any place and with rows that are all there: by the cells, by half bytes and
        by bytes."""
        register, words = taken[:3] + [self.bits(64)], spread[:self.pick([0, 1, 63, 64, 65, 100, 128, 200, 256])]
        b, s = row_bytes(len(words)), self.pick([7, 8, 9, 190, 191, 192, 193, 300])
        whole, long = [self.random.randrange(9), 8 * self.pick([1, 2, 4, 5]), 8 * self.pick([1, 2, 4])], self.junk(40 * s + 50)
        for at, several, slices in ((rows, data, taken[4]), (whole, long, s), ([3, 2 * b, b], long, s), (whole, long[:-60], s)):
            self.call("slice_signing::sign_slices", register + at + [slices], a=several, v=words)
            self.call("drives::slice_drives", at + [slices], a=several, v=words, u=self.junk_words(512))

    def chain_words(self, count):
        """The tables of the chains, and the words of a row's marked cells."""
        for _ in range(count):
            n = self.pick(CHAINS, MANY_CHAINS, [0, 257, 300])
            words, row = self.junk_words(n), self.junk(self.pick([row_bytes(n), row_bytes(n), 0, max(0, row_bytes(n) - 1), row_bytes(n) + 9]))
            if self.random.random() < 0.5:
                row = bytes(x & self.random.getrandbits(8) & self.random.getrandbits(8) for x in row)
            elif self.random.random() < 0.5:
                # 64 chains that are all marked, or none
                row = b"".join(self.pick([bytes(8), b"\xff" * 8, row[8 * k:8 * k + 8]])[:len(row) - 8 * k] for k in range(-(-len(row) // 8)))
            marked = bin(int.from_bytes(row, "little") & low_row(n)).count("1")
            for room in {marked, max(0, marked - 1), marked + 3, marked // 2, 0}:
                self.call("marked_words::list_row", v=words, a=row, u=self.junk_words(room))
            # as many as the marked cells behind a multiple of 64 chains take, and one less: there the row is cut
            behind = [bin(int.from_bytes(row, "little") >> 64 * k & low_row(max(0, n - 64 * k))).count("1") for k in range(1, 4)]
            for room in {marked, max(0, marked - 1), 0, WORKING - 1, WORKING, WORKING + 1, *behind, *(max(0, k - 1) for k in behind)}:
                self.call("marked_words::list_fitting", v=words, a=row, u=self.junk_words(room))
            self.call("chains::half_bytes", v=words, u=self.junk_words(1024))
            self.call("chains::looked_up", u=self.junk_words(1024), a=self.pick([row, self.junk(32), self.junk(40)]))
            if self.random.random() < 0.3:
                self.call("byte_tables::fill_table", v=words, u=self.junk_words(self.pick([2048, 2050])))
            self.call("byte_tables::looked_up", [self.bits(64)], u=self.junk_words(2048))
            self.call("powers::power_words", u=self.junk_words(self.pick([0, 1, 3, 63, 64, 65, 70])), v=self.junk_words(self.pick([0, 1, 4])))

    def skips(self, count):
        """Lists in which most columns are even with all of the words."""
        for _ in range(count):
            words = [self.bits(64) & self.pick([ALL, self.bits(64)]) for _ in range(self.pick([0, 1, 2, 5, 30, 63, 64, 65, 70]))]
            if self.random.random() < 0.5:
                few = self.junk_words(5)
                words = [self.pick(few) ^ self.pick(few) for _ in words]
            even = even_with(words[:64])
            columns = [self.pick(even) ^ self.pick(even) for _ in range(self.pick([0, 1, 5, 20, 70, 130]))] if even else []
            if columns and self.random.random() < 0.7:
                columns[self.random.randrange(len(columns))] ^= 1 << self.random.randrange(64)
            start = self.pick([0, 0, 1, len(columns), self.pick(NUMBERS)])
            self.call("parity_table::skip_even", [start], v=words, u=columns)
            self.call("parity_table::skip_plainly", [start], v=words, u=columns)
            table = self.pick([parity_table(words), self.junk_words(2048), [0] * 2048])
            self.call("parity_table::skip_by_table", [start], u=table, v=columns)
            if self.random.random() < 0.3:
                self.call("parity_table::byte_table", v=words, u=self.junk_words(2048))
            self.call("elimination::add_columns", v=words, u=columns)

    def texts(self, count):
        for _ in range(count):
            room = self.pick([0, 1, 5, 19, 20, 21, 30, 64])
            at = self.pick([0, 1, room - 1, room, room + 1, self.random.randrange(room + 1), ALL])
            at = max(0, at)
            self.call("text::put", [at], d=self.junk(room), a=self.junk(self.pick([0, 1, 2, 5, 12])))
            x = self.pick([self.bits(64), self.bits(16), self.pick(NUMBERS), 10 ** self.random.randrange(20),
                           10 ** self.random.randrange(20) - 1])
            self.call("text::put_decimal", [at, x], d=self.junk(room))
            room = self.pick([0, 30, 64, 200, 4096])
            at = max(0, self.pick([0, 1, room, room + 1, self.random.randrange(room + 1), ALL]))
            self.call("plan_lines::put_set_line", [at, x, self.bits(8), self.bits(9), self.pick(NUMBERS)], d=self.junk(room))
            self.call("plan_lines::put_word_lines", [at, self.bits(64)], v=self.junk_words(self.pick([0, 1, 5, 64, 70])), d=self.junk(room))
            self.call("plan_lines::put_end_line", [at, self.pick([x, self.bits(6)])], d=self.junk(room))
            self.call("plan_lines::put_refused_line", [at, self.pick([x, self.bits(5)])], d=self.junk(room))

    def words(self, count):
        for at in (ALL, ALL - 1, ALL - 7, ALL - 8, 1 << 63):
            data, w = self.junk(9), self.bits(64)
            self.call("numbers::reads", [at], a=data)
            self.call("numbers::eight_bytes", [at], a=data)
            self.call("written_numbers::put_word", [at, w], d=data)
            self.call("numbers::part", [at, ALL], a=data, d=self.junk(24))
            self.call("numbers::part", [1, at], a=data, d=self.junk(24))
            self.call("numbers::moved", [at, 8, ALL])
            self.call("numbers::moved", [8, at, ALL])
            self.call("written_numbers::write_byte", [at, w], d=data)
            self.call("written_numbers::write_count", [at, w], d=data)
            self.call("written_numbers::write_word", [at, w], d=data)
            self.call("written_numbers::write_words", [at], v=self.junk_words(3), d=data)
            self.call("written_numbers::write_bytes", [at], a=data[:3], d=data)
            self.call("text::put", [at], d=data, a=self.junk(5))
            self.call("text::put_decimal", [at, w], d=data)
        for _ in range(count):
            m, w = self.pick([self.random.randrange(67), self.pick(NUMBERS)]), self.pick([self.bits(64), self.pick(NUMBERS)])
            self.call("word::widths", [m, self.pick([w, 1 << min(m, 63), low(m), low(m) + 1 & ALL, 0])])
            self.call("word::at_most_64", [self.pick([0, 63, 64, 65, m])])
            self.call("word::shared_parity", [w, self.bits(64)])
            self.call("word::word_at", [self.pick([0, 1, 4, 5, 6, self.pick(NUMBERS)])], v=self.junk_words(5))
            self.call("written_numbers::put_32", [self.pick([0, 1, 8]), self.pick([0, 1, 9])], a=self.junk(self.pick([31, 32, 41])), d=self.junk(self.pick([31, 32, 33, 40, 50])))
            self.call("sparse_columns::ones_pay", [self.pick([0, 1, 13, 14, 122, 123, 1006, 1023, 1024, self.pick(NUMBERS)]), self.pick([1, 8, 255, 256, 257, 65535]), self.pick([0, 1, 8, 64, 511, 512, 513])])
            costs = [self.pick([0, 7, 8, 64, 65, self.pick(NUMBERS)]),
                     self.pick([0, 1, 5, 439, 440, 1711, 1712, 51340, 51341, 65535, 65536, self.pick(NUMBERS)]),
                     self.pick([1, 8, 255, 256, 257, 65535]), self.pick([0, 1, 8, 64, 511, 512, 513])]
            self.call("column_costs::eights_least", costs)
            self.call("column_costs::ones_less", costs)
            self.call("word::double_entries", [self.pick([0, 1, 3]), self.pick([0, 1, 2, 4]), w], v=self.junk_words(self.pick([4, 8, 11, 12])))
            self.call("rows::pairs_share_a_bit", [self.pick([0, 1, 64]), self.pick([0, 1, 2, 3])],
                      a=bytes(x & self.pick([0, 0, 255, 1 << self.random.randrange(8)]) for x in self.junk(self.pick([64, 128, 193, 257]))))
            self.call("word::xor_marked", [w], v=self.junk_words(self.pick([0, 1, 5, 63, 64, 65, 80])))
            self.call("word::word_parities", [w], v=self.junk_words(self.pick([0, 1, 5, 63, 64, 65, 80])))
            data = self.junk(self.pick([0, 1, 2, 3, 7, 8, 9, 10, 16, 17]))
            at = self.pick([0, 1, len(data), max(0, len(data) - 1), max(0, len(data) - 2), max(0, len(data) - 8),
                            max(0, len(data) - 7), self.pick(NUMBERS)])
            self.call("numbers::reads", [at], a=data)
            self.call("numbers::eight_bytes", [at], a=data)
            self.call("written_numbers::put_word", [at, w], d=data)
            self.call("numbers::moved", [self.pick(NUMBERS), self.pick(NUMBERS), self.pick(NUMBERS)])
            self.call("numbers::moved", [self.random.randrange(9), self.random.randrange(9), self.random.randrange(12)])
            self.call("numbers::part", [at, self.pick([0, 1, 3, len(data), self.pick(NUMBERS)])], a=data, d=self.junk(24))
            self.call("written_numbers::write_byte", [at, self.bits(8)], d=data)
            self.call("written_numbers::write_count", [at, w], d=data)
            self.call("written_numbers::write_word", [at, w], d=data)
            self.call("written_numbers::write_words", [at], v=self.junk_words(self.pick([0, 1, 2, 3])), d=data)
            self.call("written_numbers::write_bytes", [at], a=data[: self.pick([0, 1, 2, 9])], d=data)

    def answers(self):
        """Answers and refusals as they cross to C, by the names of crossing's specs/Boundary, and the number of each refusal."""
        for name in ("set_of", "stretch_of", "written_of", "clocked_of", "signed_of", "listed_of", "eliminated_of", "worded_of", "expected_to",
                     "planned_of", "read_of", "judged_of", "cutting_of"):
            for number in (0, 0, 0, 1, 17, 24, 25, 28, 29, 31, self.pick(REFUSALS), self.pick(REFUSALS)):
                data = [self.pick([self.bits(64), self.pick(NUMBERS)]) for _ in range(6)]
                if name == "judged_of":
                    data[0] = self.random.randrange(2)
                self.call("crossing::" + name, [number] + data, v=self.junk_words(256))
        for number in REFUSALS:
            self.call("refusals::number", [number])

    def layouts(self, count):
        self.call("set_layout::constants")
        for _ in range(count):
            n, s = self.pick(NUMBERS, CHAINS, MANY_CHAINS), self.pick(NUMBERS, SLICES, MANY_SLICES)
            self.call("set_layout::lengths", [n, s, self.pick(NUMBERS, [255, 256, 257, 1000])])
            self.call("set_layout::rows", [n])
            self.call("reduced_list::is_bad_word_count", [self.pick(NUMBERS, WIDTHS), self.pick(NUMBERS, WIDTHS)])
            m = self.pick(WIDTHS)
            self.call("reduced_list::is_bad_word_count", [m, m + self.pick([0, 1, -1])])

    # ---- batches

    def largest(self):
        """Sets at the limits of n and s."""
        for n, s, kind in ((256, 2, "half"), (255, 3, "all"), (256, 3, "all"), (1, 512, "few"), (1, 511, "half"), (2, 512, "dense"),
                           (9, 512, "one"), (65, 9, "all"), (129, 5, "dense"), (193, 4, "all"), (64, 9, "all"), (3, 200, "all")):
            for m in self.random.sample([5, 17, 63, 64], 2):
                self.use(self.any_set(m, n, s, kind), big=n * s > 600)
        for n, s in ((1, 512), (2, 511), (256, 2), (255, 3)):
            self.write_set(self.any_set(n=n, s=s, kind="half"))
        whole = self.any_set(64, 256, 512, "one")
        data = whole.data()
        self.use(whole, big=True)
        self.use_damaged(whole, data + b"\0", [0, 2, 3])
        self.use_damaged(whole, data[:-1], [1, 4])
        # the longest set there is, by its ties too, and a byte more
        longest = self.tied(self.single_cells(64, 256, 512, 40), "most")
        self.use(longest, big=True)
        self.use_damaged(longest, longest.data() + b"\0", [0, 2, 3, 4, 5, 7])
        self.use_damaged(longest, longest.data()[:-1], [1, 4, 7])
        # as many entries of ties as there may be, one less, and more
        for n, s in ((256, 2), (9, 40), (64, 5)):
            one = self.tied(Set(64, self.taps(64), self.inversion(64), self.spread(64, n), self.cells(n, s, "all")), "most")
            self.use(one, big=True)
            self.write_set(one)
            self.use(one.with_ties(one.ties[:-1]), big=True)
            cells = [(t, c, self.pick(SYMBOLS), self.bits(1)) for t in range(s) for c in range(n)]
            for few in (255, 256, 257, 258):
                over = one.with_ties(cells[:few])
                self.use_damaged(over, over.data(), [0, 2, 3, 4, 6, 7])
        # as many unknown cells as the printer lends places, and one more
        for n, s in ((16, 256), (17, 241)):
            self.use(Set(64, 1, self.inversion(64), [low(64)] * n, self.cells(n, s, "all")), big=True)
        # all cells unknown: of any rank, of rank 1, and with one column more, in the slice that is reached last
        dense = self.any_set(64, 256, 512, "all")
        flat = Set(64, 1, self.inversion(64), [low(64)] * 256, dense.slices)
        for one in (dense, flat, self.first_slice(64, 256, 512, self.pick([0, 63, 64, 128, 255]))):
            left = one.left()
            for places in {64, left, max(0, left - 1)}:
                self.call("canceller_plan", a=one.data(), u=self.junk_words(WORKING), v=self.junk_words(places))
            self.call("plan_text::print_plan", a=one.data(), u=self.junk_words(4096), v=self.junk_words(64), d=self.junk(4096))
        self.call("canceller_list_columns", a=dense.data(), u=self.junk_words(dense.unknowns() - 1))
        # one more than the limits, with the right length
        for m, n, s in ((5, 257, 1), (64, 257, 0), (3, 1, 513), (8, 9, 513), (64, 2, 514), (7, 258, 2)):
            over = Set(m, 1, self.inversion(m), self.spread(m, n), self.cells(n, s, "one"))
            self.use_damaged(over, over.data(), [0, 1, 2, 3, 4, 5, 6])
            self.call("canceller_write_set", [m, 1, over.inversion, s, len(over.data())], v=over.spread, a=over.values(),
                      b=over.marks(), c=over.entries(), d=self.junk(len(over.data())))
            if n > 256:
                self.call("canceller_clock", [m, 1, over.inversion, 1], v=over.spread, a=bytes(over.b))

    def many_columns(self, count):
        """More than 512 columns, of full rank and of less."""
        for _ in range(count):
            m = self.pick([64, 64, 63, 60, 36, 32, 18, 16, 9, 8])
            n = self.pick([8, 9, 16, 33, 65])
            s = self.pick([530 // n + 1, 700 // n + 1, 1100 // n + 2])
            self.use(self.low_rank(m, n, min(s, 512)), big=True)

    # Sets in which a cell that is left out, listed for another chain or clocked too often shows: with taps 1 the register only turns,
    # so that the spread word of all bits has one column, and one of an even number of bits only such columns.

    def first_slice(self, m, n, s, c):
        """All cells unknown and of one column, but that chain c drives bit 0 alone and is unknown in slice 0 alone."""
        spread = [low(m)] * n
        spread[c] = 1
        others = low_row(n) & ~(1 << c)
        return Set(m, 1, self.inversion(m), spread, [(0, low_row(n))] + [(self.bits(1) << c, others) for _ in range(s - 1)])

    def single_cells(self, m, n, s, count):
        """Many unknown cells of one column, and some chains with words of their own, each unknown in one slice."""
        spread, slices = [low(m)] * n, [(0, self.bits(n) | self.bits(n)) for _ in range(s)]
        for c in self.random.sample(range(n), min(n, count)):
            spread[c] = self.word(m)
            slices = [(v, x & ~(1 << c)) for v, x in slices]
            t = self.random.randrange(s)
            slices[t] = (slices[t][0], slices[t][1] | 1 << c)
        return Set(m, 1, self.inversion(m), spread, [(self.bits(n) & ~x, x) for _, x in slices])

    def one_word(self, m, n, s, whole):
        """Columns of an even number of bits, which leave one word where there are enough of them; with `whole` the last to be reached
        is one of an odd number, and no word is left."""
        spread = [w ^ 1 if bin(w).count("1") % 2 else w for w in (self.bits(m) for _ in range(n))]
        spread = [w or 3 for w in spread]
        slices = [(0, low_row(n) & ~1)] * s
        if whole:
            spread[0], slices = 1, [(0, low_row(n))] + slices[1:]
        return Set(m, 1, self.inversion(m), spread, slices)

    def so_many(self, m, n, s, count):
        """A set with so many unknown cells."""
        cells = set(self.random.sample(range(n * s), count))
        marks = [sum(1 << c for c in range(n) if n * t + c in cells) for t in range(s)]
        spread, taps = self.pick([([self.word(m) for _ in range(n)], self.taps(m)), (self.low_rank(m, n, 1).spread, 1)])
        return Set(m, taps, self.inversion(m), spread, [(self.bits(n) & ~x, x) for x in marks])

    def cut_rows(self):
        """Sets whose rows are cut: more marked cells than the working list has places."""
        sets = []
        for n in (65, 66, 127, 128, 129, 200, 255, 256):
            sets.append(self.first_slice(self.pick([64, 63, 9, 3]), n, self.pick([1, 2, 3, 9]), self.pick([0, 63, 64, n - 1])))
            sets.append(self.single_cells(self.pick([64, 64, 63, 33]), n, self.pick([1, 2, 3, 9]), self.pick([1, 5, 20, 60])))
            sets.append(self.one_word(self.pick([64, 63, 17, 2]), n, self.pick([1, 2, 5]), self.pick([False, True])))
        # around the number from which on the chains' words are advanced together
        for count in (500, 511, 512, 513, 514, 600):
            n = self.pick([9, 65, 130, 256])
            sets.append(self.so_many(self.pick([64, 63, 40]), n, 1200 // n + 2, count))
        sets.append(self.single_cells(64, 7, 100, 6))
        sets.append(self.single_cells(64, 256, 40, 50))
        for one in sets:
            self.use(one, big=True)
            for room in self.working_lists(one):
                self.call("canceller_plan", a=one.data(), u=self.junk_words(room), v=self.junk_words(self.near(one.left())))

    def sets(self, count):
        for _ in range(count):
            self.use(self.any_set())

    def faulty_ties(self, count):
        """Sets whose one fault, or whose two, are in their entries of ties."""
        for _ in range(count):
            one = self.any_set(n=self.pick([2, 3, 9, 12, 17]), s=self.pick([1, 2, 3, 5]), kind=self.pick(["few", "half", "half", "dense"]))
            one = self.tied(one, self.pick(["one", "two", "any", "most"]))
            marks = [rows_at(one.n) + one.b, 2 * one.b, one.b]
            for ties in self.bad_ties(one):
                data = one.with_ties(ties).data()
                self.use_damaged(one, data)
                self.tie_tests(entry_data(ties), len(ties), data, marks, one.n, one.s)
                if self.random.random() < 0.4:
                    self.call("canceller_expect", a=data, v=self.pick(self.word_lists(one)))
                    self.call("canceller_plan_words", a=data, u=self.working(one), v=self.junk_words(64))
                    self.call("canceller_cut", [self.pick([0, 1, 1, one.m, one.m + 1])], a=data,
                              v=self.junk_words(self.pick([0, one.s, 512])))

    def tied_sets(self, count):
        """Sets with ties, among them some that no other set has: a symbol of cells with one column each, a symbol across slices, symbols
        whose columns make up for each other, and a symbol of which the later cells stand between those of another."""
        for _ in range(count):
            self.use(self.tied(self.any_set(s=self.pick([1, 2, 3, 5, 8]), kind=self.pick(["one", "few", "half", "half", "all"]))))
        for m in (1, 3, 8, 17, 64):
            n, s = self.pick([2, 3, 9, 17]), self.pick([2, 3, 9])
            every = Set(m, self.taps(m), self.inversion(m), self.spread(m, n), self.cells(n, s, "all"))
            same = Set(m, 1, self.inversion(m), [low(m)] * n, self.cells(n, s, "half"))
            cells = [(t, c) for t in range(s) for c in range(n)]
            for which in ([cells[0], cells[-1]], [(t, 0) for t in range(s)], cells[:2], cells[:MOST_TIES], cells[::2]):
                for sides in (0, 1, None):
                    self.use(every.with_ties([(t, c, m, self.bits(1) if sides is None else sides) for t, c in which]))
            self.use(every.with_ties([(t, c, c, t & 1) for t, c in cells][:MOST_TIES]))
            self.use(every.with_ties([(t, c, t, c & 1) for t, c in cells][:MOST_TIES]))
            self.use(self.tied(same, "any"))
            self.use(self.tied(same, "one"))
            for one in (self.first_slice(m, n, s, 0), self.single_cells(m, n, s, 2)):
                for kind in ("one", "two", "apart"):
                    self.use(self.tied(one, kind))

    def damages(self, count):
        for _ in range(count):
            one = self.any_set(s=self.pick([0, 1, 2, 2, 3]), n=self.pick([1, 2, 3, 5, 7, 8, 9, 12, 16, 17, 65]))
            for data in self.damaged(one):
                self.use_damaged(one, data)


def low_row(n):
    return (1 << n) - 1


def packed(words):
    """Words as bytes, 8 for each."""
    return b"".join(map(eight_bytes, words))


def clocked(m, taps, w):
    """A word one clock later, where nothing is driven and nothing inverted."""
    return (w << 1 & low(m)) ^ (taps if w >> (m - 1) & 1 else 0)


def unclocked(m, taps, w):
    """The word that a clock takes to w, where the taps have bit 0."""
    return w >> 1 ^ (taps >> 1 | 1 << (m - 1) if w & 1 else 0)


def eight_earlier(m, taps):
    """For each byte what it was 8 clocks earlier."""
    table = list(range(256))
    for _ in range(8):
        table = [unclocked(m, taps, w) for w in table]
    return table


def powers_of(m, taps):
    """Bit 0 alone, 0 to 575 clocks later."""
    out = [1]
    while len(out) < 576:
        out.append(clocked(m, taps, out[-1]))
    return out


def after_portion(register, data, rows, words, powers, room, t, chains):
    """Where a portion ends, and the words then."""
    (m, taps), (at, stride, size) = register[:2], rows
    while t:
        row = int.from_bytes(data[at + stride * (t - 1):][:size], "little")
        for k in reversed(range(0, chains, 64)):
            marked = bin(row >> k & low_row(min(64, chains - k))).count("1")
            if room < marked:
                return words, t, min(k + 64, chains)
            room -= marked
        t, chains = t - 1, len(words)
        if not powers:
            words = [clocked(m, taps, w) for w in words]
    return words, t, chains


def parity_table(words):
    """For each of the eight bytes of a column and each value of it, its parities with the first 64 words, bit k for word k."""
    bits = [sum((w >> b & 1) << k for k, w in enumerate(words[:64])) for b in range(64)]
    table = []
    for b in range(0, 64, 8):
        entries = [0]
        for bit in bits[b:b + 8]:
            entries += [x ^ bit for x in entries]
        table += entries
    return table


def highest(w):
    return w.bit_length() - 1


def lowest(w):
    return (w & -w).bit_length() - 1


def with_columns(basis, columns):
    """A basis, each of its words at its highest bit, with what these columns add to it."""
    basis = dict(basis)
    for w in columns:
        while w and highest(w) in basis:
            w ^= basis[highest(w)]
        if w:
            basis[highest(w)] = w
    return basis


def rank_of(columns):
    return len(with_columns({}, columns))


def runs_of(m, slices, k):
    """How many runs slices with these columns are cut into, each leaving at least k words; 0 where one slice leaves fewer. The columns
    are clocked to the end of the set: a run's have the rank that they have at its own end."""
    runs, basis = 0, {}
    for columns in slices:
        basis = with_columns(basis, columns)
        if not runs or m - len(basis) < k:
            runs, basis = runs + 1, with_columns({}, columns)
        if m - len(basis) < k:
            return 0
    return runs


def even_with(words, m=64, end=highest):
    """Words of m bits that share an even number of bits with each of these, and whose XORs are all such words. `end` says by which
    bit these are reduced."""
    ends = {}
    for w in words:
        for bit, other in ends.items():
            if w >> bit & 1:
                w ^= other
        if w:
            new = end(w)
            ends = {bit: other ^ w if other >> new & 1 else other for bit, other in ends.items()}
            ends[new] = w
    free = [b for b in range(m) if b not in ends]
    return [1 << b | sum(1 << bit for bit, w in ends.items() if w >> b & 1) for b in free]


def calls_of(number):
    """The calls of a batch."""
    batch = Batch(number)
    if number == 0:
        batch.use(sample())
        for n in (1, 7, 8, 9, 63, 64, 65):
            for s in (0, 1, 2):
                batch.use(batch.any_set(n=n, s=s, kind="half" if n < 63 else "few"))
        for m in (1, 2, 63, 64):
            for kind in ("none", "one", "few", "all"):
                batch.use(batch.any_set(m=m, n=3, s=3, kind=kind))
        batch.largest()
    batch.sets(70)
    batch.tied_sets(20)
    batch.damages(10)
    batch.faulty_ties(8)
    batch.late()
    for _ in range(12):
        batch.write_set(batch.any_set(s=batch.pick([0, 1, 2, 3])))
    for n in (1, 2, 3, 9):
        batch.write_set(batch.any_set(n=n, s=batch.pick([4, 5, 10, 13])))
    for n in (1, 7, 8, 9, 64, 65, 255, 256):
        batch.clocks(batch.pick(WIDTHS), n)
    for m in (1, 2, 3, 63, 64):
        batch.clocks(m, batch.pick(CHAINS))
    batch.eliminations(40)
    batch.long_eliminations(60)
    for left in (2, 2, 2, 2, 2, 2, 3, 3, 4, 5, 6, 8):
        batch.long_eliminations(4, left)
    batch.many_columns(12)
    batch.cut_rows()
    batch.steps(30)
    batch.plans(25)
    batch.lists_of_rows(40)
    batch.rows(40)
    batch.chain_words(30)
    batch.skips(60)
    batch.texts(60)
    batch.words(80)
    batch.layouts(40)
    batch.tie_lists(60)
    batch.answers()
    batch.two_calls(25)
    batch.cuttings(30)
    batch.unclockings(30)
    batch.eight_clocks(30)
    batch.next_columns(12)
    return batch.calls
