"""The problems of tools/second_checker: base clauses of all versions, the lines of logs, and what is tested of them. Each part names the section of
docs/FORMATS.md from which it was written."""
import collections
import functools
import itertools
import re

from second_formulas import MOST_NODES, TextFault, automaton_of, both_forms, components_of, reduced_covers_of

SYSTEM, ENVIRONMENT = "system", "environment"
MOST_BASE = {1: 1_000_000, 2: 1_000_000, 3: 4_000_000, 4: 4_000_000}
MOST_LITERALS, MOST_LETTERS, MOST_SOLVE_STATES, MOST_SOLVE_EDGES = 40_000_000, 64, 20_000, 2_000_000
U32, U64, ANY, MOST_LITERAL = 2**32 - 1, 2**64 - 1, 10**20, 2**30

class BadLine(Exception):
    """The first line at which reading stops."""

# ---- "Machines, annotations and base clauses" ----

class Problem:
    """One side of a text, for machines of one kind, with base clauses of one version; 1 and 2 have one component of all states. Those of version 4
    are over some letters, or all where none are given."""
    def __init__(self, automaton, side, inputs, outputs, is_mealy, version, letters=None):
        (self.edges, self.rejecting), self.is_mealy, self.version = automaton, is_mealy, version
        first, second = range(inputs), range(inputs, inputs + outputs)
        self.reads, self.writes = (first, second) if side == SYSTEM else (second, first)
        self.some, self.letters = letters, 1 << len(self.reads) if letters is None else len(letters)
        self.is_local = version > 2
        self.own = components_of(self.edges, len(self.rejecting)) if self.is_local else [0] * len(self.rejecting)
        turning = {self.own[q] for q, _, _, after in self.edges if self.own[q] == self.own[after]}
        counts = collections.Counter(itertools.compress(self.own, self.rejecting))
        self.k = [counts[own] if not self.is_local or own in turning else 0 for own in self.own]

    @functools.lru_cache(None)
    def fitting(self, must, forbidden):
        """The places of the letters that fit a cube."""
        numbers = range(self.letters) if self.some is None else self.some
        return [place for place, i in enumerate(numbers)
                if all(not (forbidden if i >> s & 1 else must) >> signal & 1 for s, signal in enumerate(self.reads))]

    def fitting_count(self, must, forbidden):
        if self.some is not None:
            return len(self.fitting(must, forbidden))
        return 1 << sum(1 for signal in self.reads if not (must | forbidden) >> signal & 1)

    def moves_and_writes(self, n):
        return n * n * self.letters, (n * self.letters if self.is_mealy else n) * len(self.writes)

    def variables(self, n):
        return sum(self.moves_and_writes(n)) + n * (n * sum(self.k) + len(self.k))

    def rounds(self, n):
        """For each edge how many triples of a state, a letter and a next state its clauses are made for, the greatest count, and by how much it rises."""
        for q, must, forbidden, after in self.edges:
            targets = n - 1 if q == after and not self.rejecting[after] else n
            inside = self.own[q] == self.own[after]
            yield n * self.fitting_count(must, forbidden) * targets, n * self.k[q] if inside else 0, int(self.rejecting[after] and inside), must | forbidden

    def count(self, n):
        order, falling = (n * self.letters * max(n - 2, 0) if self.version > 1 else 0), (n * n * sum(self.k) if self.is_local else 0)
        return n * self.letters + 1 + order + falling + sum(triples * (bound + 1) for triples, bound, _, _ in self.rounds(n))

    def literals(self, n):
        """Those of all base clauses together."""
        rows, total = n * self.letters, 1 + 2 * n * n * sum(self.k) + n * n * self.letters
        for triples, bound, rise, told in self.rounds(n):
            written = sum(told >> signal & 1 for signal in self.writes)
            total += triples * ((bound + 1) * (2 + written) + bound + 1 - rise)
        return total + max(n - 2, 0) * rows * (rows + 1) // 2

    @functools.lru_cache(None)
    def base(self, n):
        rows = range(1, 1 + n * n * self.letters, n)
        order = [(*range(to, row + to - 1, n), -(row + to)) for row in rows for to in range(2, n)]
        return [*(tuple(range(row, row + n)) for row in rows), *self.edge_clauses(n), *(order if self.version > 1 else [])]

    def edge_clauses(self, n):
        (moves, writes), starts = self.moves_and_writes(n), [0, *itertools.accumulate(n * k + 1 for k in self.k)]
        written = (lambda t, i, s: moves + 1 + (t * self.letters + i if self.is_mealy else t) * len(self.writes) + s)
        reaches = (lambda t, q, c: moves + writes + 1 + t * starts[-1] + starts[q] + c)
        yield (reaches(0, 0, int(self.rejecting[0] and not self.is_local)),)
        for q, must, forbidden, after in self.edges:
            bound, rise = (n * self.k[q], int(self.rejecting[after])) if self.own[q] == self.own[after] else (0, 0)
            for t, i in itertools.product(range(n), self.fitting(must, forbidden)):
                missed = [-written(t, i, s) if must >> signal & 1 else written(t, i, s)
                          for s, signal in enumerate(self.writes) if (must | forbidden) >> signal & 1]
                for to, c in itertools.product(range(n), range(bound + 1)):
                    if (t, q, 0) != (to, after, rise):
                        clause = [-(1 + (t * self.letters + i) * n + to), *missed, -reaches(t, q, c)]
                        clause += [reaches(to, after, c + rise)] if c + rise <= bound else []
                        yield tuple(sorted(clause, key=abs))
        for t, q in itertools.product(range(n), range(len(self.k) if self.is_local else 0)):
            yield from ((reaches(t, q, c - 1), -reaches(t, q, c)) for c in range(1, n * self.k[q] + 1))

# ---- "Documents", what they are checked against ----

class Names:
    """The names of a text's signals, and its kind."""
    def __init__(self, flat):
        self.inputs, self.outputs = ([name.encode() for name in names] for names in (flat.inputs, flat.outputs))
        self.kind = flat.kind

    def names(self, side):
        """The names of a circuit's inputs and outputs, by the letters of symbol lines."""
        return dict(zip((b"i", b"o") if side == SYSTEM else (b"o", b"i"), (self.inputs, self.outputs)))

class Text(Names):
    """What a document of the versions before 6 is checked against."""
    def __init__(self, flat):
        super().__init__(flat)
        if len(flat.formulas) > MOST_NODES:
            raise TextFault("refused 14 TooManyNodes at 0")
        negated, normal = both_forms(flat.formulas, flat.whole)
        self.automata = {SYSTEM: automaton_of(flat.formulas, negated), ENVIRONMENT: automaton_of(flat.formulas, normal)}
        if self.automata[SYSTEM] is None:
            raise TextFault("refused 18 AutomatonTooLarge at 0")

    @functools.lru_cache(None)
    def problem(self, side, kind, version):
        """The side's problem for a document of this kind and version, or None."""
        if self.automata[side] is None:
            return None
        is_mealy = (kind == "Mealy") == (side == SYSTEM)
        return Problem(self.automata[side], side, len(self.inputs), len(self.outputs), is_mealy, {1: 1, 5: 3}.get(version, 2))

    def allowed(self, kind, version, most):
        few = (lambda problem, n: problem is not None and problem.count(n) <= MOST_BASE[problem.version])
        problems = {side: self.problem(side, kind, version) for side in (SYSTEM, ENVIRONMENT)}
        return {side: sum(few(problem, n) for n in range(1, most + 1)) for side, problem in problems.items()}

class Taken:
    """A list of formulas with the form of which each side keeps its runs away."""
    def __init__(self, formulas, whole, inputs, outputs):
        negated, normal = both_forms(formulas, whole)
        self.formulas, self.forms, self.signals = formulas, {SYSTEM: negated, ENVIRONMENT: normal}, (inputs, outputs)

    @functools.lru_cache(None)
    def automaton(self, side):
        return automaton_of(self.formulas, self.forms[side], reduced_covers_of, MOST_SOLVE_STATES, MOST_SOLVE_EDGES)

    @functools.lru_cache(None)
    def problem(self, side, kind, letters):
        """The side's problem over these letters, or over all, or None where there is no automaton or these aren't letters of it."""
        count = 1 << self.signals[side == ENVIRONMENT]
        if letters is not None and (len(letters) > MOST_LETTERS or len(letters) == count or letters[-1] >= count):
            return None
        automaton = self.automaton(side)
        return automaton and Problem(automaton, side, *self.signals, (kind == "Mealy") == (side == SYSTEM), 4, letters)

class SolveText(Names):
    """What a document of version 6 is checked against: a text of this TARGET, with its SEMANTICS where that is another kind; its flat form as it is written,
    and as it is converted, where there is room for that."""
    def __init__(self, flat, shifted, target, semantics):
        super().__init__(flat)
        self.target, self.semantics = target, semantics
        self.plain, self.shifted = (it and Taken(it.formulas, it.whole, len(it.inputs), len(it.outputs)) for it in (flat, shifted))

    def taken(self, kind, semantics):
        """The text as it is for this kind or, where a document names its semantics, as it is converted. None where it isn't so."""
        if semantics is None:
            return self.plain
        return self.shifted if (semantics, kind) == (self.semantics, self.target) else None

# ---- "Logs" ----

def number(word, most, least=0):
    """The number that a word writes, or None where it is another word or out of the range."""
    if not re.fullmatch(rb"0|[1-9][0-9]*", word):
        return None
    value = int(word) if len(word) < 21 else ANY
    return value if least <= value <= most else None

class Reader:
    """The lines of a file from one on, of which the first that isn't what is wanted stops the reading."""
    def __init__(self, lines, last, first):
        self.lines, self.last, self.first, self.at = lines, last, first, first - 1

    def next(self):
        """The next line, where one that isn't ended is none."""
        self.at += 1
        return self.take(self.lines[self.at - 1] if self.at <= len(self.lines) else None)

    def take(self, value):
        """A value of the line that was read, where it has one."""
        if value is None:
            raise BadLine(self.at)
        return value

    def want(self, is_so):
        self.take(is_so or None)

    def number(self, front, most, least=0):
        line = self.next()
        return self.take(number(line[len(front):], most, least) if line.startswith(front) else None)

    def read_entries(self, log):
        while len(log.entries) < log.count:
            log.entries.append(self.take(log.entry_in(self.next())))

    def end(self):
        """Nothing stands behind the line that was read."""
        if self.at < len(self.lines) or self.last:
            raise BadLine(self.at + 1)

class Log:
    def __init__(self, side, size, variables, base, count, line, letters=None):
        self.side, self.size, self.variables, self.base, self.count, self.line = side, size, variables, base, count, line
        self.letters, self.entries = letters, []

    def is_closed(self):
        return bool(self.entries) and self.entries[-1][0] == ()

    def line_behind(self):
        return self.line + 1 + len(self.entries)

    def entry_in(self, line):
        """The clause and the hints of an entry's line, or None."""
        parts = re.fullmatch(rb"(\S+) ((?:-?[1-9][0-9]* )*)0 ((?:[1-9][0-9]* )*)0", line)
        if parts is None or number(parts[1], U32) is None:
            return None
        hints = [number(word, U64, 1) for word in parts[3].split()]
        variables = [number(word.lstrip(b"-"), min(self.variables, MOST_LITERAL), 1) for word in parts[2].split()]
        if None in hints or None in variables or any(a >= b for a, b in zip(variables, variables[1:])):
            return None
        return tuple(int(word) for word in parts[2].split()), hints

    def failing_line(self, problem, limit, may_be_full):
        """The line at which the log fails over a side's problem, or None."""
        if problem is None or (self.variables, self.base) != (problem.variables(self.size), problem.count(self.size)):
            return self.line
        clauses, known = list(problem.base(self.size)), set()
        for at, (clause, hints) in enumerate(self.entries):
            if at == limit or () in known or clause in known or not follows(clauses, clause, hints):
                return self.line + 1 + at
            known.add(clause)
            clauses.append(clause)
        return None if self.is_closed() or (may_be_full and len(self.entries) == limit) else self.line_behind()

def follows(clauses, clause, hints):
    true, free = {-literal for literal in clause}, None
    for at, hint in enumerate(hints, 1):
        free = [literal for literal in clauses[hint - 1] if -literal not in true] if hint <= len(clauses) else None
        if free is None or (at < len(hints) and (len(free) != 1 or free[0] in true)):
            return False
        true.update(free)
    return free == []
