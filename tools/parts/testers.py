"""Testers of temporal formulas as circuits, for tools/confirm, after Kesten, Pnueli and Raviv: each operator guesses its own truth, and is held to it.

A literal is a number, twice its variable, one more for its opposite; 0 is false and 1 is true, as in AIGER.
"""
from circuits import Circuit


class Build:
    """A circuit that grows: inputs, latches that begin as 0, and gates, of which none is made twice."""

    def __init__(self):
        self.count, self.inputs, self.latches, self.gates, self.made = 0, [], {}, [], {}

    def fresh(self):
        self.count += 1
        return 2 * self.count

    def input(self):
        self.inputs.append(self.fresh())
        return self.inputs[-1]

    def latch(self):
        """A latch, whose next value is set later in `latches`."""
        made = self.fresh()
        self.latches[made] = 0
        return made

    def both(self, one, other):
        one, other = sorted((one, other))
        if one == 0 or one ^ 1 == other:
            return 0
        if one == 1 or one == other:
            return other
        if (one, other) not in self.made:
            self.made[one, other] = self.fresh()
            self.gates.append((self.made[one, other], one, other))
        return self.made[one, other]

    def either(self, one, other):
        return self.both(one ^ 1, other ^ 1) ^ 1

    def same(self, one, other):
        return self.either(self.both(one, other), self.both(one ^ 1, other ^ 1))

    def choice(self, asked, yes, no):
        return self.either(self.both(asked, yes), self.both(asked ^ 1, no))

    def all(self, literals):
        made = 1
        for it in literals:
            made = self.both(made, it)
        return made

    def circuit(self, output):
        """The circuit with one output, its variables in the order that AIGER has."""
        order = [*self.inputs, *self.latches, *(left for left, _, _ in self.gates)]
        numbers = {0: 0, **{literal: 2 * at for at, literal in enumerate(order, 1)}}
        new = lambda literal: numbers[literal & ~1] ^ literal & 1
        gates = [tuple(sorted((new(one), new(other)), reverse=True)) for _, one, other in self.gates]
        return Circuit(len(self.inputs), [new(it) for it in self.latches.values()], [new(output)], gates)


def put_in(build, circuit, values):
    """Adds a circuit over literals of its inputs; what its outputs are."""
    latches = [build.latch() for _ in circuit.latches]
    known = [0, *values, *latches]
    new = lambda literal: known[literal // 2] ^ literal & 1
    for one, other in circuit.gates:
        known.append(build.both(new(one), new(other)))
    build.latches.update(zip(latches, map(new, circuit.latches)))
    return list(map(new, circuit.outputs))


class Testers:
    """The truth of formulas at the present step. Where `kept` is true at each step and each of `justice` again and again, the guesses were right."""

    def __init__(self, build, formulas, signals):
        self.build, self.formulas, self.signals = build, formulas, signals
        self.begun, self.kept, self.justice, self.known = build.latch(), 1, [], {}
        build.latches[self.begun] = 1

    def guessed(self):
        """What a formula will be in the next step as it is guessed now, and was guessed in the step before."""
        guess, before = self.build.input(), self.build.latch()
        self.build.latches[before] = guess
        return guess, before

    def hold(self, before, value):
        """Holds a guess of the step before to the value that has come."""
        self.kept = self.build.both(self.kept, self.build.either(self.begun ^ 1, self.build.same(before, value)))

    def next(self, part):
        """`X part`."""
        guess, before = self.guessed()
        self.hold(before, part)
        return guess

    def until(self, one, other):
        """`one U other`."""
        guess, before = self.guessed()
        value = self.build.either(other, self.build.both(one, guess))
        self.hold(before, value)
        self.justice.append(self.build.either(value ^ 1, other))
        return value

    def of_node(self, sign, one=None, other=None):
        build = self.build
        if sign in ("true", "false"):
            return int(sign == "true")
        if sign == "!":
            return one ^ 1
        if sign in ("&&", "||", "->", "<->"):
            return {"&&": build.both, "||": build.either, "->": lambda a, b: build.either(a ^ 1, b), "<->": build.same}[sign](one, other)
        if sign == "X":
            return self.next(one)
        if sign == "F":
            return self.until(1, one)
        if sign == "G":
            return self.until(1, one ^ 1) ^ 1
        if sign == "U":
            return self.until(one, other)
        if sign == "R":
            return self.until(one ^ 1, other ^ 1) ^ 1
        return self.until(other ^ 1, build.both(one ^ 1, other ^ 1)) ^ 1  # (one W other is other R (one || other))

    def truth(self, formula):
        """The literal of a formula, given by its place in the list, in which parts stand before."""
        for at in sorted(self.formulas.occurring(formula)):
            sign, *parts = self.formulas[at]
            self.known[at] = self.signals[parts[0]] if sign == "signal" else self.of_node(sign, *(self.known[part] for part in parts))
        return self.known[formula]
