"""The documents of version 6 of tools/second_checker. Each part names the section of docs/FORMATS.md from which it was written."""
import functools
import itertools
import re

from second_formulas import next_counter, reduced_covers_of
from second_problems import ANY, ENVIRONMENT, MOST_BASE, MOST_LITERALS, SYSTEM, U32, U64, BadLine, Log, Reader, number

FIRST_LINE, LAST_LINE = b"boundsyn 6", b"end"
MOST_REACHED, MOST_STEPS, MOST_PAIRS, MOST_NAMED, MOST_LETTER, MOST_SIZE = 65_536, 2**26, 1_000_000, 20_000, 65_535, 16
VERDICT = re.compile(rb"verdict (?:unknown|(realizable|unrealizable) (0|[1-9][0-9]*))")
WORDS = {SYSTEM: "realizable", ENVIRONMENT: "unrealizable"}
KINDS = {b"kind Mealy": "Mealy", b"kind Moore": "Moore"}
OTHER = {"Mealy": "Moore", "Moore": "Mealy"}

# ---- "Documents of version 6" ----

def is_sixth(lines, circuit):
    """Whether the first line, or the one behind the line `c` of a circuit that can be read, is that of a document of version 6."""
    behind = circuit.comment if circuit is not None else None
    return lines[:1] == [FIRST_LINE] or (behind is not None and lines[behind:behind + 1] == [FIRST_LINE])

def letters_in(word):
    """None for all letters, the rising numbers of some, or False where the word is another one."""
    if word == b"all":
        return None
    numbers = tuple(number(part, MOST_LETTER) for part in word.split(b","))
    return numbers if None not in numbers and all(a < b for a, b in zip(numbers, numbers[1:])) else False

class Solved(Reader):
    """What is read of the lines behind a circuit, or without one, up to the first bad one."""
    def __init__(self, lines, last, first, circuit):
        super().__init__(lines, last, first)
        self.circuit, self.side, self.states, self.kind, self.semantics = circuit, None, None, None, None
        self.refuted, self.logs, self.head, self.named, self.pairs, self.bad = 0, [], None, {}, {}, None
        try:
            self.read_header()
            if circuit is not None:
                self.read_shown()
            self.want(self.next() == LAST_LINE)
            self.end()
        except BadLine as fault:
            self.bad = fault.args[0]

    def read_header(self):
        self.want(self.next() == FIRST_LINE)
        parts = self.take(VERDICT.fullmatch(self.next()))
        self.side = parts[1] and (SYSTEM if parts[1] == b"realizable" else ENVIRONMENT)
        self.states = parts[2] and number(parts[2], ANY)
        self.want((self.side is None) == (self.circuit is None))
        self.want(self.side is None or 1 <= self.states <= MOST_REACHED)
        self.kind = self.take(KINDS.get(self.next()))
        if self.lines[self.at:self.at + 1] == [b"semantics " + OTHER[self.kind].encode()]:
            self.at += 1
            self.semantics = OTHER[self.kind]

    def read_shown(self):
        """What stands behind the header of a document with a circuit."""
        self.refuted = self.number(b"refuted ", self.states - 1)
        for size in range(1, self.refuted + 1):
            words = self.next().split(b" ")
            self.want(len(words) == 6 and words[0] == b"log" and number(words[1], U32) == size)
            letters, numbers = letters_in(words[2]), [self.take(number(word, most)) for word, most in zip(words[3:], (U32, U64, U64))]
            self.want(letters is not False)
            self.logs.append(Log(self.side, size, *numbers, self.at, letters))
            self.read_entries(self.logs[-1])
        self.read_annotation()

    # ---- "An annotation over named states" ----

    def read_annotation(self):
        words = self.next().split(b" ")
        self.want(len(words) == 3 and words[0] == b"annotation")
        pairs, named = self.take(number(words[1], MOST_PAIRS)), self.take(number(words[2], MOST_NAMED, 1))
        self.want(pairs << self.circuit.inputs <= MOST_STEPS)
        self.head = self.at
        for at in range(named):
            self.read_state(at)
        for _ in range(pairs):
            self.read_pair(named)

    def read_state(self, at):
        word, *numbers = self.next().split(b" ")
        self.want(word == b"state" and len(numbers) > 1)
        state, counter, *obligations = (self.take(number(it, U64)) for it in numbers)
        self.want(state == at and all(a < b for a, b in zip(obligations, obligations[1:])))
        self.want((tuple(obligations), counter) not in self.named)
        self.named[tuple(obligations), counter] = at

    def read_pair(self, named):
        words = self.next().split(b" ")
        self.want(len(words) == 3 and re.fullmatch(rb"[01]{%d}" % self.circuit.latches if self.circuit.latches else b"-", words[0]))
        code, state, least = words[0].strip(b"-"), self.take(number(words[1], named - 1)), self.take(number(words[2], U32))
        self.want((code, state) not in self.pairs)
        self.pairs[code, state] = self.at, least

def state_lines(taken, document):
    """The line of the first named state that isn't one of the side's automaton, or has too many leaves."""
    form, nodes = taken.forms[document.side], taken.formulas
    known, most = nodes.occurring(form), len(nodes.untils(form))
    for (obligations, counter), at in document.named.items():
        is_state = known >= set(obligations) and counter <= most and (at > 0 or (obligations, counter) == ((form,), 0))
        if not is_state or reduced_covers_of(nodes, sum(1 << formula for formula in obligations)) is None:
            yield document.head + 1 + at
            return

class Named:
    """The automaton over the named states of a document: where each edge leads, or None where no line names that state."""
    def __init__(self, taken, document):
        self.nodes, self.untils = taken.formulas, taken.formulas.untils(taken.forms[document.side])
        self.states = [(sum(1 << formula for formula in obligations), counter) for obligations, counter in document.named]
        self.numbers = {state: at for at, state in enumerate(self.states)}

    def is_rejecting(self, at):
        return self.states[at][1] == len(self.untils)

    @functools.lru_cache(None)
    def edges(self, at):
        obligations, counter = self.states[at]
        return [(must, forbidden, self.numbers.get((left, next_counter(counter, self.untils, late))))
                for must, forbidden, left, late in reduced_covers_of(self.nodes, obligations)]

class Claims:
    """What the annotation of a document claims of its circuit, where no line of it is bad."""
    def __init__(self, taken, document):
        self.document, self.circuit, self.automaton = document, document.circuit, Named(taken, document)
        inputs, outputs = taken.signals
        self.reads, self.writes = (range(inputs), range(inputs, inputs + outputs))[:: 1 if document.side == SYSTEM else -1]

    def lines(self):
        """The lines that fail, in order."""
        if not self.has(self.circuit.first_code(), 0, int(self.automaton.is_rejecting(0))):
            yield self.document.head
        if (self.document.kind == "Moore") == (self.document.side == SYSTEM) and self.circuit.first_leading() is not None:
            yield self.circuit.first_leading()
        yield from (line for (code, state), (line, least) in self.document.pairs.items() if not self.is_kept(code, state, least))

    def has(self, code, state, least):
        return self.document.pairs.get((code, state), (0, -1))[1] >= least

    def is_kept(self, code, state, least):
        """Whether each edge that fits leads from a pair to one that stands, with a number that is large enough."""
        for must, forbidden, after in self.automaton.edges(state):
            fits = self.fitting(code, must, forbidden)
            for code_after, letters in self.circuit.steps(code)[1] if fits else ():
                if fits & letters and (after is None or not self.has(code_after, after, least + self.automaton.is_rejecting(after))):
                    return False
        return True

    def fitting(self, code, must, forbidden):
        """The letters of inputs on which the circuit keeps to a cube, in a number with a bit for each."""
        (outputs, _), every = self.circuit.steps(code), self.circuit.every()
        values = dict(zip([*self.reads, *self.writes], [*self.circuit.input_values(), *outputs]))
        for signal, value in values.items():
            every &= value if must >> signal & 1 else ~value if forbidden >> signal & 1 else every
        return every

def log_lines(taken, document):
    """The line at which the first log fails that does."""
    for log in document.logs:
        problem = taken.problem(document.side, document.kind, log.letters)
        is_sized = problem is not None and log.size <= MOST_SIZE
        is_allowed = is_sized and problem.count(log.size) <= MOST_BASE[4] and problem.literals(log.size) <= MOST_LITERALS
        line = log.failing_line(problem if is_allowed else None, None, False)
        if line is not None:
            yield line
            return

def has_states(document):
    """Whether the circuit reaches as many states as the verdict says, where these are few enough to be counted."""
    return document.states << document.circuit.inputs <= MOST_STEPS and document.circuit.reached(document.states) == document.states

def bad_lines(taken, document):
    """The lines at which a document fails behind its circuit, where that has the text's signals."""
    if document.bad is not None:
        yield document.bad
    if document.side and document.circuit and not (1 <= document.states <= MOST_REACHED and has_states(document)):
        yield document.first + 1
    if document.kind is not None and taken is None:
        yield document.first + 3
    elif document.kind is not None and document.side:
        yield from log_lines(taken, document)
        yield from state_lines(taken, document)

def answer_to_solved(text, document, circuit_lines):
    """What `check` prints of a document of version 6, whose circuit's part has these bad lines."""
    taken = text.taken(document.kind, document.semantics)
    failing = circuit_lines or [*bad_lines(taken, document)]
    if not failing and document.side:
        failing = [*itertools.islice(Claims(taken, document).lines(), 1)]
    if failing:
        return f"refused at line {min(failing)}"
    told = f"as {document.kind}" + (f" of {document.semantics} semantics" if document.semantics else "")
    if not document.side:
        return f"accepted unknown {told}"
    below = "smallest" if document.refuted == document.states - 1 else f"none of {document.refuted} or fewer" if document.refuted else "smaller ones open"
    return f"accepted {WORDS[document.side]} {document.states} {told}, {below}"
