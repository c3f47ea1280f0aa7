"""Rows on tools/abc-optimise: what its circuits do is simulated here."""

import random
import shutil

from rows import Skipped
from syntcomp_rows import needs_solve


def values_after(text, steps, seed=1):
    """The outputs of a circuit in ASCII AIGER on random inputs, step by step, by the order of its lines."""
    lines, numbers = text.split("\n"), random.Random(seed)
    inputs, latches, outputs, gates = map(int, lines[0].split()[2:6])
    rows = [list(map(int, line.split())) for line in lines[1 : 1 + inputs + latches + outputs + gates]]
    latch_rows, output_rows, gate_rows = rows[inputs : inputs + latches], rows[inputs + latches :][:outputs], rows[len(rows) - gates :]
    state, seen = [row[2] if len(row) > 2 else 0 for row in latch_rows], []
    for _ in range(steps):
        value = {0: 0, 1: 1}

        def put(literal, bit):
            value[literal], value[literal ^ 1] = bit, 1 - bit

        for row in rows[:inputs]:
            put(row[0], numbers.randrange(2))
        for row, bit in zip(latch_rows, state):
            put(row[0], bit)
        for row in gate_rows:
            put(row[0], value[row[1]] & value[row[2]])
        seen.append([value[row[0]] for row in output_rows])
        state = [value[row[1]] for row in latch_rows]
    return seen


def names_of(text):
    """The lines of names of a circuit."""
    return [line for line in text.partition("\nc\n")[0].split("\n") if line[:1] in ("i", "l", "o")]


def needs_abc(_it):
    """Skips the row where ABC isn't there."""
    if not any(map(shutil.which, ("yosys-abc", "berkeley-abc", "abc"))):
        raise Skipped("no ABC")


def smaller_circuits_do_the_same(it):
    needs_abc(it)
    it.write("reset.aag", "aag 6 1 1 2 4\n2\n4 12 1\n6\n12\n6 2 4\n8 2 5\n10 3 4\n12 9 11\ni0 in\no0 both\no1 same\n")
    for circuit in ("examples/arbiter_by_hand.aag", "examples/traffic_light_by_hand.aag", "examples/delay_by_hand.aag", "reset.aag"):
        before = it.read(circuit)
        status, after, _ = it.run("abc-optimise", circuit)
        assert status == 0 and names_of(after) == names_of(before)
        assert int(after.split()[5]) <= int(before.split()[5])
        assert values_after(after, 500) == values_after(before, 500)
    assert int(it.run("abc-optimise", "examples/arbiter_by_hand.aag")[1].split()[5]) < 7


def a_smaller_circuit_is_verified(it):
    needs_abc(it)
    it.needs("annotate")
    for name in ("gear", "arbiter_of_three"):
        it.write("document", it.run("boundsyn", "synth", f"examples/{name}.tlsf", "--workers", "1")[1])
        it.write("smaller", it.run("abc-optimise", "document")[1])
        it.write("annotated", it.run("annotate", f"examples/{name}.tlsf", "smaller")[1])
        assert it.run("boundsyn", "verify", f"examples/{name}.tlsf", "annotated")[:2] == (0, "verified as Mealy\n")


def a_document_with_a_smaller_circuit_is_accepted(it):
    needs_abc(it)
    needs_solve(it)
    for name, status in (("gear", 10), ("arbiter_of_three", 10), ("prophecy", 20)):
        spec = f"examples/{name}.tlsf"
        before = it.run("boundsyn", "solve", spec, "--max", "0")[1]
        it.write("document", before)
        status, after, said = it.run("abc-optimise", "--spec", spec, "document")
        assert (status, said) == (0, "") and int(after.split()[5]) <= int(before.split()[5]) and after.partition("\nc\n")[2] == before.partition("\nc\n")[2]
        it.write("smaller", after)
        assert it.run("boundsyn", "check", spec, "smaller") == it.run("boundsyn", "check", spec, "document")


# The delay with a latch that begins as 1, behind two gates more than it needs.
BEGUN = """aag 5 1 1 1 3
2
4 10 1
5
6 2 4
8 2 5
10 7 9
i0 in
o0 out
c
boundsyn 6
verdict realizable 2
kind Mealy
refuted 0
annotation 2 1
state 0 0 21
1 0 0
0 0 1
end
"""


def values_of_latches_that_began_as_one_are_the_opposite_ones(it):
    needs_abc(it)
    it.needs("boundsyn")
    it.write("begun.aag", BEGUN)
    it.replace("boundsyn", 'cp "$3" asked\necho "accepted realizable 2 as Mealy, smallest"\n')
    status, printed, said = it.run("abc-optimise", "--spec", "any.tlsf", "begun.aag")
    assert (status, said) == (0, "") and printed == it.read("asked") and printed.startswith("aag 2 1 1 1 0\n2\n4 2\n4\ni0 in\no0 out\nc\n")
    assert printed.partition("\nc\n")[2] == BEGUN.partition("\nc\n")[2].replace("1 0 0\n0 0 1\n", "0 0 0\n1 0 1\n")


def only_what_check_accepts_is_printed(it):
    needs_abc(it)
    it.needs("boundsyn")
    it.write("begun.aag", BEGUN)
    it.replace("boundsyn", 'echo "refused at line 12"\nexit 40\n')
    assert it.run("abc-optimise", "--spec", "any.tlsf", "begun.aag") == (1, "", "abc-optimise: begun.aag: check says of the smaller one: refused at line 12\n")
    assert it.run("abc-optimise", "begun.aag") == (1, "", "abc-optimise: begun.aag: a document of version 6 wants --spec SPEC\n")
    name = "examples/delay_by_hand.aag"
    assert it.run("abc-optimise", "--spec", "any.tlsf", name) == (1, "", f"abc-optimise: {name}: no document of version 6\n")
    assert it.run("abc-optimise", "--spec", "any.tlsf")[0] == 2


BROKEN = {
    "": "line 1 isn't the first line of a circuit in ASCII AIGER",
    "boundsyn 3\n": "line 1 isn't the first line of a circuit in ASCII AIGER",
    "aig 2 1 0 1 1\n4\n\2\0": "line 1 isn't the first line of a circuit in ASCII AIGER",
    "aag -2 1 0 1 1\n2\n4\n4 2 2\n": "line 1 isn't the first line of a circuit in ASCII AIGER",
    "aag 2 1 0 1 1 0 1\n2\n4\n4 2 2\n": "line 1: a circuit with more than inputs, latches, outputs and gates",
    "aag 2 1 0 1 0\n2\n4\n": "nothing gives literal 4 a value",
    "aag 3 1 1 0 0\n2\n4 7\n": "nothing gives literal 6 a value",
    "aag 3 1 0 1 1\n2\n4\n4 2 6\n": "nothing gives literal 6 a value",
    "aag 2 1 0 1 1\n2\n4\n4 4 2\n": "a gate that depends on itself",
    "aag 3 1 0 1 2\n2\n4\n4 6 2\n6 2 5\n": "a gate that depends on itself",
    "aag 2 1 1 1 0\n2\n4 2 4\n4\n": "latch 4 begins as anything",
    "aag 2 1 1 1 0\n2\n4\n4\n": "line 3 isn't that of a latch",
    "aag 2 1 0 1 1\n2\n4\n4 2\n": "line 4 isn't that of a gate",
    "aag 2 1 0 1 1\n2\n4\n": "line 4 isn't that of a gate",
    "aag 2 1 0 1 1\n2\n\n4 2 2\n": "line 3 isn't that of an output",
    "aag 2 1 0 1 1\n2 \n4\n4 2 2\n": "line 2 isn't that of an input",
    "aag 2 1 0 1 1\n2\n6\n4 2 2\n": "line 3: a literal above 5, the greatest by line 1",
    "aag 2 1 0 1 1\n2\n4\n2 2 2\n": "literal 2 has a value already",
    "aag 2 2 0 0 0\n4\n4\n": "literal 4 has a value already",
    "aag 2 1 0 1 1\n0\n4\n4 2 2\n": "literal 0 has a value already",
    "aag 3 1 0 1 2\n2\n4\n4 2 2\n4 3 3\n": "literal 4 has a value already",
    "aag 2 1 0 1 1\n3\n4\n4 2 2\n": "literal 3 is odd, and so none of an input, latch or gate",
    "aag 2 1 0 1 1\n2\n4\n4 2 2\ni1 a\n": "line 5 isn't a name of an input, latch or output, or names one again",
    "aag 2 1 0 1 1\n2\n4\n4 2 2\ni0 a\ni0 b\n": "line 6 isn't a name of an input, latch or output, or names one again",
    "aag 2 1 0 1 1\n2\n4\n4 2 2\nc\r\n": "line 5 isn't a name of an input, latch or output, or names one again",
}


def what_is_no_circuit_is_refused(it):
    needs_abc(it)
    for text, why in BROKEN.items():
        it.write("broken.aag", text)
        assert it.run("abc-optimise", "broken.aag") == (1, "", f"abc-optimise: broken.aag: {why}\n"), text
    assert it.run("abc-optimise", "nothing.aag") == (1, "", "abc-optimise: nothing.aag: No such file or directory\n") and it.run("abc-optimise")[0] == 2


def names_are_kept_byte_for_byte(it):
    needs_abc(it)
    circuit = b"aag 4 2 0 1 2\n2\n4\n8\n6 2 4\n8 6 4\ni0 in\r\ni1 \xff \x1b\xc3\xa9\x85b\no0 c\n"
    with open(it.path("names.aag"), "wb") as file:
        file.write(circuit + b"c\na comment\n")
    with open(it.path("smaller.aag"), "wb") as file:
        assert it.start("abc-optimise", "names.aag", stdout=file).wait(timeout=60) == 0
    with open(it.path("smaller.aag"), "rb") as file:
        assert file.read() == b"aag 3 2 0 1 1\n2\n4\n6\n6 4 2\n" + circuit[circuit.index(b"i0") :]


def an_output_that_cannot_be_written_is_said(it):
    needs_abc(it)
    with open("/dev/full", "w", encoding="utf-8") as full:
        started = it.start("abc-optimise", "examples/delay_by_hand.aag", stdout=full)
        assert started.communicate(timeout=60)[1] == "abc-optimise: standard output: No space left on device\n" and started.returncode == 1
