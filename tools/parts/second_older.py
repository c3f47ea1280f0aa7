"""The documents of versions before 6 of tools/second_checker. Each part names the section of docs/FORMATS.md from which it was written."""
import re

from second_problems import ANY, ENVIRONMENT, SYSTEM, U32, U64, BadLine, Log, Reader, number

MOST_ENTRIES = 250_000

# ---- "Documents" ----

VERDICT = re.compile(rb"verdict (?:(unknown sizes)|(realizable|unrealizable) (\d+)|(bounded|unknown entries) (system|environment) (\d+))")

class Document(Reader):
    """What is read of the lines behind a circuit, or without one, up to the first bad one."""
    def __init__(self, lines, last, first, has_circuit):
        super().__init__(lines, last, first)
        self.version = self.word = self.side = self.states = self.kind = self.max = self.found = self.bad = None
        self.has_limit, self.limit, self.logs = False, None, []
        try:
            self.read_head(has_circuit)
            self.read_logs()
        except BadLine as fault:
            self.bad = fault.args[0]

    def read_head(self, has_circuit):
        self.version = self.take({1: 1, 2: 2, 3: 3, 5: 5}.get(self.number(b"boundsyn ", 5, 1)))
        self.read_verdict(has_circuit)
        self.kind = self.take({b"kind Mealy": "Mealy", b"kind Moore": "Moore"}.get(self.next()))
        self.max = self.number(b"max ", 8, 1)
        if self.states is not None and not 1 <= self.states <= self.max:
            raise BadLine(self.first + 1)
        limit = re.fullmatch(rb"entries (?:none|(\d+))", self.next())
        self.limit = self.take(number(limit[1], MOST_ENTRIES)) if self.take(limit)[1] else None
        self.has_limit = True
        if self.word == "unknown entries" and self.version < 3 and self.at < len(self.lines):
            line = self.lines[self.at]
            self.found = number(line[6:], self.max, 2) if line.startswith(b"found ") else None
            self.at += self.found is not None

    def read_verdict(self, has_circuit):
        parts = self.take(VERDICT.fullmatch(self.next()))
        word, states = (parts[1] or parts[2] or parts[4]).decode(), parts[3] or parts[6]
        side = parts[5].decode() if parts[5] else {"realizable": SYSTEM, "unrealizable": ENVIRONMENT}.get(word)
        states = self.take(number(states, ANY)) if states else None
        if (word == "bounded" and self.version < 3) or has_circuit == word.startswith("unknown"):
            raise BadLine(self.at)
        self.word, self.side, self.states = word, side, states

    def has_free_sizes(self):
        return self.word.startswith("unknown") and self.found is None

    def wanted(self, allowed):
        """The sides and sizes of the logs of the table, by the allowed sizes of both sides."""
        if self.has_free_sizes():
            return [(side, size) for side in (SYSTEM, ENVIRONMENT) for size in range(1, allowed[side] + 1)]
        side, states = (self.side, self.states) if self.found is None else (SYSTEM, self.found)
        below = 0 if self.word == "unrealizable" and self.version < 3 else states - 1
        return [(side, size) for size in range(1, min(below, allowed[side]) + 1)]

    def may_follow(self, log):
        if not self.has_free_sizes():
            return self.wanted({SYSTEM: 8, ENVIRONMENT: 8})[len(self.logs):][:1] == [(log.side, log.size)]
        side, size = (self.logs[-1].side, self.logs[-1].size) if self.logs else (SYSTEM, 0)
        return (log.side == side and log.size == size + 1 <= self.max) or ((side, log.side, log.size) == (SYSTEM, ENVIRONMENT, 1))

    def read_logs(self):
        while self.next() != b"end" or (not self.has_free_sizes() and len(self.logs) < len(self.wanted({SYSTEM: 8, ENVIRONMENT: 8}))):
            words = self.lines[self.at - 1].split(b" ")
            if len(words) != 6 or words[0] != b"log" or words[1] not in (b"system", b"environment"):
                raise BadLine(self.at)
            numbers = [self.take(number(word, most)) for word, most in zip(words[2:], (U32, U32, U64, U64))]
            log = Log(words[1].decode(), *numbers, self.at)
            self.want(self.may_follow(log))
            self.logs.append(log)
            self.read_entries(log)
        self.end()

# ---- "The line that `check` refuses" ----

def faulty_lines(text, lines, side=SYSTEM):
    """The lines at which a circuit with a fault has other counts or names besides."""
    words, own = lines[0].split(b" ") if lines else [], text.names(side)
    if words[2:5:2] != [str(len(own[sort])).encode() for sort in (b"i", b"o")]:
        yield 1
    for at, line in enumerate(lines[1:], 2):
        if line == b"c":
            return
        names = own.get(line[:1], [])
        word, blank, name = line[1:].partition(b" ")
        place = number(word, len(names) - 1)
        if place is not None and blank and names[place] != name:
            yield at
            return

def names_lines(text, side, circuit):
    """The lines at which a circuit without fault has other counts or names."""
    own = text.names(side)
    if (circuit.inputs, circuit.outputs) != (len(own[b"i"]), len(own[b"o"])):
        yield 1
    else:
        yield from (line for (sort, place), (line, name) in circuit.names.items() if sort in own and own[sort][place] != name)

def circuit_lines(text, side, circuit):
    """The same, or those at which it lacks a name or the line `c`."""
    yield from names_lines(text, side, circuit)
    if circuit.comment is None:
        yield len(circuit.lines) + 1
    elif sum(sort in text.names(side) for sort, _ in circuit.names) < circuit.inputs + circuit.outputs:
        yield circuit.comment

def text_lines(text, document):
    """The lines at which a document fails for a text, once its line `max` is good."""
    allowed = text.allowed(document.kind, document.version, document.max)
    if document.states is not None and document.states > allowed[document.side]:
        yield document.first + 1
    elif document.found is not None and document.found > allowed[SYSTEM]:
        yield document.first + 5
    wanted, may_be_full = document.wanted(allowed) if document.has_limit else [], document.word in ("bounded", "unknown entries")
    behind = document.first + (5 if document.found is None else 6)
    for log, one in zip(document.logs, [*wanted, *[None] * len(document.logs)]):
        problem = text.problem(log.side, document.kind, document.version)
        line = log.failing_line(problem, document.limit, may_be_full) if one == (log.side, log.size) else log.line
        if line is not None:
            yield line
            return
        behind = log.line_behind()
    if len(document.logs) < len(wanted):
        yield behind

def last_fails(document):
    still_open = [(log.side, log.size) for log in document.logs if not log.is_closed()]
    named = [(document.side, document.states)]
    return not still_open if document.word == "bounded" else document.word == "unknown entries" and still_open[:1] != named

def answer_to_older(text, lines, last, circuit, fault):
    """The same of a document of another version, whose circuit may have a fault in that line."""
    failing, document = [], None
    if fault is not None:
        return f"refused at line {min([fault, *faulty_lines(text, lines)])}"
    if circuit is None:
        document = Document(lines, last, 1, False)
    else:
        if circuit.comment is not None:
            document = Document(lines, last, circuit.comment + 1, True)
        is_other = document is not None and document.word in ("unrealizable", "bounded") and document.side == ENVIRONMENT
        failing = [*circuit_lines(text, ENVIRONMENT if is_other else SYSTEM, circuit)]
    if document is not None:
        failing += [document.bad] if document.bad is not None else []
        failing += text_lines(text, document) if document.max is not None else []
        failing += [document.first + 1] if not failing and last_fails(document) else []
    if failing:
        return f"refused at line {min(failing)}"
    told = {"bounded": f"bounded {document.side} {document.states}"}.get(document.word, f"{document.word} {document.states}")
    return f"accepted {'unknown' if document.word.startswith('unknown') else told} as {document.kind}"
