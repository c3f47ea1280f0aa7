"""Circuits in AIGER, read and written as ASCII and as binary. A latch that begins as 1 is kept as its opposite, which begins as 0."""


from circuit_lines import FORMS, Unreadable, define, names_of, reset_of, row_of, sizes_of


class Circuit:
    """Literals are numbers as AIGER has them: variables 1 to I are inputs, then come latches, then gates in an order in which operands stand before."""

    def __init__(self, inputs, latches, outputs, gates, names=()):
        self.inputs, self.latches, self.outputs, self.gates, self.names = inputs, latches, outputs, gates, names

    @staticmethod
    def of_text(text):
        """The circuit of an ASCII text, whatever the numbers of its variables and the order of its gates."""
        lines = text.removesuffix("\n").split("\n")
        most, *counts = sizes_of(lines[0])
        sections, at = [], 1
        for count, form in zip(counts, FORMS):
            sections.append([row_of(lines, place, form, 2 * most + 1) for place in range(at, at + count)])
            at += count
        input_rows, latch_rows, output_rows, gate_rows = sections
        known = {0: 0}
        for number, row in enumerate([*input_rows, *latch_rows], 1):
            define(row[0], known)
            known[row[0] // 2] = 2 * number ^ reset_of(row)
        gates = {}
        for row in gate_rows:
            define(row[0], known, gates)
            gates[row[0] // 2] = row[1:]
        made = []
        for literal in [*(row[0] for row in gate_rows), *(row[1] for row in latch_rows), *(row[0] for row in output_rows)]:
            number_gates(literal // 2, gates, known, made, counts[0] + counts[1])
        new = lambda literal: known[literal // 2] ^ literal & 1
        nexts = [new(row[1]) ^ reset_of(row) for row in latch_rows]
        return Circuit(counts[0], nexts, [new(row[0]) for row in output_rows], made, names_of(lines, at, counts))

    @staticmethod
    def of_binary(data):
        head, _, rest = data.partition(b"\n")
        _, inputs, latches, outputs, gates = map(int, head.split()[1:6])
        lines = rest.split(b"\n", latches + outputs)
        literals = [int(line.split()[0]) for line in lines[:-1]]
        made, at = [], 0
        for left in range(2 * (inputs + latches + 1), 2 * (inputs + latches + gates + 1), 2):
            first, at = number_at(lines[-1], at)
            second, at = number_at(lines[-1], at)
            made.append((left - first, left - first - second))
        return Circuit(inputs, literals[:latches], literals[latches:], made)

    def head(self, format_name):
        sizes = [self.inputs, len(self.latches), len(self.outputs), len(self.gates)]
        return " ".join(map(str, [format_name, sizes[0] + sizes[1] + sizes[3], *sizes])) + "\n"

    def binary(self):
        lines = "".join(f"{it}\n" for it in [*self.latches, *self.outputs])
        first = 2 * (self.inputs + len(self.latches) + 1)
        pieces = [bytes_of(left - one) + bytes_of(one - other) for left, (one, other) in enumerate_even(first, self.gates)]
        return (self.head("aig") + lines).encode() + b"".join(pieces)

    def text(self):
        latches = [f"{2 * (self.inputs + at + 1)} {it}" for at, it in enumerate(self.latches)]
        gates = [f"{left} {one} {other}" for left, (one, other) in enumerate_even(2 * (self.inputs + len(self.latches) + 1), self.gates)]
        lines = [*(2 * (at + 1) for at in range(self.inputs)), *latches, *self.outputs, *gates, *self.names]
        return self.head("aag") + "".join(f"{it}\n" for it in lines)


def enumerate_even(first, gates):
    return ((first + 2 * at, gate) for at, gate in enumerate(gates))


def number_gates(variable, rows, known, made, below):
    """Numbers the gates below a variable and then its own, by a walk without recursion."""
    todo, open_ones = [variable], set()
    while todo:
        at = todo[-1]
        if at in known:
            todo.pop()
            continue
        if at not in rows:
            raise Unreadable(f"nothing gives literal {2 * at} a value")
        wanted = [it // 2 for it in rows[at] if it // 2 not in known]
        if not wanted:
            pair = sorted((known[it // 2] ^ it & 1 for it in rows[at]), reverse=True)
            made.append(tuple(pair))
            known[at] = 2 * (below + len(made))
        elif at in open_ones:
            raise Unreadable("a gate that depends on itself")
        else:
            open_ones.add(at)
            todo += wanted


def number_at(data, at):
    value = shift = 0
    while True:
        value |= (data[at] & 127) << shift
        at, shift = at + 1, shift + 7
        if data[at - 1] < 128:
            return value, at


def bytes_of(value):
    """A number in groups of seven bits, the lowest first."""
    groups = []
    while value > 127:
        groups.append(value & 127 | 128)
        value >>= 7
    return bytes([*groups, value])
