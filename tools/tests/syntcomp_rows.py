"""Rows on tools/syntcomp."""

import os
import shutil

from rows import Skipped
from script_room import TOOLS

ANSWERS = {"wire": 10, "delay": 10, "arbiter_of_two": 10, "inverter": 10, "traffic_light": 10, "prophecy": 20, "door": 20}
LINES = {10: "REALIZABLE\n", 20: "UNREALIZABLE\n"}
WIRE = "aag 1 1 0 1 0\n2\n2\ni0 request\no0 grant\n"


def needs_solve(it):
    """Skips the row where the program has no `solve` yet."""
    it.needs("boundsyn")
    if it.run("boundsyn", "solve", "examples/wire.tlsf", "--max", "0")[0] != 10:
        raise Skipped("boundsyn has no solve")


def each_answer_has_its_line_and_status(it):
    needs_solve(it)
    for name, status in ANSWERS.items():
        assert it.run("syntcomp", "--realizability", f"examples/{name}.tlsf")[:2] == (status, LINES[status])


def a_realizable_text_has_its_circuit_alone(it):
    needs_solve(it)
    document = it.run("boundsyn", "solve", "examples/arbiter_of_two.tlsf")[1]
    circuit = document.partition("\nc\n")[0] + "\n"
    words = ("examples/arbiter_of_two.tlsf",)
    assert it.run("syntcomp", *words)[:2] == (10, "REALIZABLE\n" + circuit)
    assert it.run("syntcomp", "-o", "circuit.aag", *words)[:2] == (10, "REALIZABLE\n")
    assert it.read("circuit.aag") == circuit
    assert it.run("syntcomp", "examples/door.tlsf")[:2] == (20, "UNREALIZABLE\n")
    assert it.run("syntcomp", "-", given="not a text")[:2] == (1, "")
    assert it.run("syntcomp", "-", given=it.read("examples/wire.tlsf"))[:2] == (10, "REALIZABLE\n" + WIRE)


def smaller_sizes_are_left_out_where_the_line_comes_alone(it):
    it.replace("boundsyn", "echo \"$*\" >words\nprintf 'aag 0 0 0 0 0\\nc\\nboundsyn 6\\nverdict realizable 1\\nkind Mealy\\nrefuted 0\\nend\\n'\nexit 10\n")
    alone = [(["--realizability"], " --max 0"), (["--realizability", "--max", "3"], " --max 3"), (["--max=2", "--realizability"], " --max=2")]
    for asked, told in [([], ""), (["--max", "3"], " --max 3"), (["--kind", "moore"], " --kind moore"), *alone]:
        assert it.run("syntcomp", "any.tlsf", *asked)[0] == 10 and it.read("words") == f"solve any.tlsf{told}\n"


def texts_of_two_kinds_are_answered(it):
    needs_solve(it)
    text = """INFO {{ TITLE: "t" DESCRIPTION: "d" SEMANTICS: {} TARGET: {} }} MAIN {{ INPUTS {{ r; }} OUTPUTS {{ g; }} GUARANTEE {{ G (g <-> r); }} }}"""
    for semantics, target, status in (("Mealy", "Mealy", 10), ("Mealy", "Moore", 10), ("Moore", "Mealy", 20), ("Moore", "Moore", 20)):
        it.write("mixed.tlsf", text.format(semantics, target))
        assert it.run("syntcomp", "--realizability", "mixed.tlsf")[:2] == (status, LINES[status])
        status, printed, _ = it.run("syntcomp", "mixed.tlsf")
        assert printed.startswith(LINES[status]) and printed.endswith("i0 r\no0 g\n") == (status == 10)


def each_status_has_its_line(it):
    for status, line in {**LINES, 30: "UNKNOWN\n"}.items():
        it.replace("boundsyn", f"printf 'boundsyn 6\\nverdict unknown\\nkind Mealy\\nend\\n'\nexit {status}\n")
        assert it.run("syntcomp", "--realizability", "any.tlsf")[:2] == (status, line)


def an_arbiter_of_six_clients_needs_six_states(it):
    it.write("six.tlsf", it.run("boundsyn", "gen", "6")[1])
    status, document, _ = it.run("boundsyn", "synth", "six.tlsf", "--max", "6", "--entries", "none", "--workers", "1", "--counts", "local")
    assert status == 10 and "\nverdict realizable 6\n" in document
    it.write("six.aag", document)
    assert it.run("boundsyn", "check", "six.tlsf", "six.aag")[:2] == (0, "accepted realizable 6 as Mealy\n")


def faults_keep_their_status_and_print_nothing(it):
    needs_solve(it)
    it.write("broken.tlsf", "INFO {")
    assert it.run("syntcomp", "broken.tlsf")[:2] == (1, "")
    assert it.run("syntcomp", "examples/wire.tlsf", "--max", "nine")[:2] == (2, "")
    assert it.run("syntcomp")[:2] == (2, "")
    assert it.run("syntcomp", "nothing.tlsf")[:2] == (3, "")
    assert it.run("syntcomp", "-o", "no/folder/file", "examples/wire.tlsf")[0] == 4
    assert it.run("syntcomp", "--help")[0] == 0


def a_name_may_begin_with_a_hyphen(it):
    needs_solve(it)
    it.write("-o.tlsf", it.read("examples/wire.tlsf"))
    circuit = WIRE
    assert it.run("syntcomp", "--", "-o.tlsf")[:2] == (10, "REALIZABLE\n" + circuit)
    assert it.run("syntcomp", "-o", "-circuit.aag", "--max", "0", "--", "-o.tlsf")[:2] == (10, "REALIZABLE\n") and it.read("-circuit.aag") == circuit
    assert it.run("syntcomp", "--", "-", given=it.read("-o.tlsf"))[:2] == (10, "REALIZABLE\n" + circuit)


def what_cannot_be_written_is_told_once(it):
    needs_solve(it)
    assert it.run("syntcomp", "-o", "no/such\x1bfile", "examples/wire.tlsf") == (4, "", "syntcomp: $'no/such\\Efile' can't be written\n")
    assert it.run("syntcomp", "-o", "/dev/full", "examples/wire.tlsf") == (4, "REALIZABLE\n", "syntcomp: /dev/full can't be written\n")
    for text in ("wire", "prophecy"):
        with open("/dev/full", "w", encoding="utf-8") as full:
            started = it.start("syntcomp", f"examples/{text}.tlsf", stdout=full)
            assert started.communicate(timeout=60)[1] == "syntcomp: standard output can't be written\n" and started.returncode == 4


def signals_of_buses_have_the_names_of_the_competition(it):
    needs_solve(it)
    names = [f"{kind}{number} {name}_{number}" for kind, name in (("i", "request"), ("o", "grant")) for number in range(3)]
    status, printed, said = it.run("syntcomp", "examples/arbiter_of_three.tlsf")
    assert (status, said) == (10, "") and printed.splitlines()[-6:] == names
    text = """INFO {{ TITLE: "t" DESCRIPTION: "d" SEMANTICS: Mealy TARGET: Mealy }}
MAIN {{ INPUTS {{ a[2]; {0} }} OUTPUTS {{ b[1]; c_0; }} GUARANTEE {{ G (b[0] <-> a[1]); G c_0; }} }}"""
    for others, underscores in ([], "_"), (["a_2"], "_"), (["a_0"], "__"), (["a_1", "a__0"], "___"), (["b__0"], "_"):
        it.write("names.tlsf", text.format("".join(f"{name}; " for name in others)))
        status, printed, said = it.run("syntcomp", "names.tlsf")
        inputs = [f"a{underscores}0", f"a{underscores}1", *others]
        assert printed.splitlines()[-len(inputs) - 2 :] == [*(f"i{at} {name}" for at, name in enumerate(inputs)), f"o0 b{underscores}0", "o1 c_0"]
        assert said.count("\n") == (underscores != "_") and (underscores == "_" or f" have {underscores} before their number" in said)


def the_program_is_on_the_path_outside_of_a_checkout(it):
    needs_solve(it)
    os.mkdir(it.path("elsewhere"))
    shutil.copy(os.path.join(TOOLS, "syntcomp"), it.path("elsewhere/syntcomp"))
    for path, status in ((it.bin + ":" + os.environ["PATH"], 10), ("/usr/bin:/bin", 2)):
        it.variables.update(BOUNDSYN_BIN="", PATH=path)
        assert it.run(it.path("elsewhere/syntcomp"), "--realizability", "examples/wire.tlsf")[:2] == (status, "REALIZABLE\n" if status == 10 else "")
