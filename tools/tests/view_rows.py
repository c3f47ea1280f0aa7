"""Rows on what boundsyn-show writes for the other programs: what they make of it."""

import glob
import itertools
import json
import os
import re
import time

from rows import Skipped

UNREALIZABLE = ("prophecy", "door")
# A circuit that says today what the weather is today.
STUDENT = "aag 1 1 0 1 0\n2\n2\ni0 weather\no0 forecast\n"
CLASH = """INFO { TITLE: "" DESCRIPTION: "" SEMANTICS: Mealy TARGET: Mealy }
MAIN { INPUTS { a; } OUTPUTS { b; } ASSUME_HERE PRESET { b; } ASSERT { a -> b; b -> !a; } GUARANTEE { F b; } }
"""


def needs_views(it):
    """Skips the row where boundsyn-show has no texts for other programs."""
    it.needs("boundsyn-show")
    if it.run("boundsyn-show", "--version")[0] == 2:
        raise Skipped("boundsyn-show draws alone")


def written(it, name, *words):
    """Puts what a program prints into a file, and answers the file's text."""
    it.write(name, it.run(*words)[1])
    return it.read(name)


def each_basic_text_expands_to_the_same(it):
    needs_views(it)
    for path in glob.glob(it.path("examples/*.tlsf")):
        written(it, "basic", "boundsyn-show", "--spec", path, "--tlsf")
        assert it.run("boundsyn", "expand", "basic")[1] == it.run("boundsyn", "expand", path)[1] != ""


def a_counter_machine_is_a_controller_of_the_other_task(it):
    needs_views(it)
    it.needs("annotate")
    for name in UNREALIZABLE:
        written(it, "document", "boundsyn", "synth", f"examples/{name}.tlsf", "--max", "2", "--workers", "1")
        assert "unrealizable" in it.read("document")
        written(it, "dual", "boundsyn-show", "--spec", f"examples/{name}.tlsf", "--dual")
        written(it, "annotated", "annotate", "dual", "document")
        assert it.run("boundsyn", "verify", "dual", "annotated")[:2] == (0, "verified as Moore\n")
    # (the prophecy's weather, the other way round)
    written(it, "dual", "boundsyn-show", "--spec", "examples/prophecy.tlsf", "--dual")
    it.write("wrong", "aag 2 1 1 1 0\n2\n4 2\n4\ni0 forecast\no0 weather\n")
    status, said, _ = it.run("annotate", "dual", "wrong")
    assert status == 1 and said.startswith("the text is false on this run")


def a_lost_play_is_a_word_on_which_the_text_is_false(it):
    needs_views(it)
    it.write("student.aag", STUDENT)
    written(it, "document", "boundsyn", "synth", "examples/prophecy.tlsf", "--max", "2", "--workers", "1")
    written(it, "word", "boundsyn-show", "document", "--against", "student.aag", "--word")
    assert it.run("boundsyn", "lasso", "examples/prophecy.tlsf", "word")[:2] == (0, "false\n")


def clashing_asserts_are_named_when_they_stand_apart(it):
    needs_views(it)
    it.write("clash", CLASH.replace("ASSUME_HERE ", ""))
    assert it.run("boundsyn", "core", "clash", "--max", "1")[1].startswith("core 0 of 1\n")
    written(it, "apart", "boundsyn-show", "--spec", "clash", "--apart")
    assert it.run("boundsyn", "core", "apart", "--max", "1")[1].startswith("core 2 of 4\nguarantee 3\nguarantee 4\n")
    it.write("clash", CLASH.replace("ASSUME_HERE", "ASSUME { G F a; }"))
    status, text, said = it.run("boundsyn-show", "--spec", "clash", "--apart")
    assert status == 0 and "PRESET" in text and "PRESET" in said
    assert it.run("boundsyn-show", "--spec", "examples/strict_promise.tlsf", "--apart")[:2] == (1, "")


def a_circuit_alone_is_the_document_up_to_its_comment(it):
    needs_views(it)
    for words in (("synth", "examples/gear.tlsf", "--workers", "1"), ("synth", "examples/door.tlsf")):
        document = written(it, "document", "boundsyn", *words)
        assert it.run("boundsyn-show", "document", "--circuit")[:2] == (0, document.partition("\nc\n")[0] + "\n")
    lines = written(it, "batch", "boundsyn", "batch", "examples/several.list", "--max", "2", "--workers", "1").splitlines()
    at = lines.index("text examples/delay.tlsf")
    circuit = "\n".join(lines[at + 3 : lines.index("c", at)]) + "\n"
    assert it.run("boundsyn-show", "batch", "--text", "examples/delay.tlsf", "--circuit")[:2] == (0, circuit)
    parts = written(it, "core", "boundsyn", "core", "examples/door.tlsf", "--max", "2", "--workers", "1").split("\nwithout ")
    for part, words in zip(parts, (["--core"], ["--without", "1"], ["--without", "3"])):
        circuit = part[part.index("aag ") : part.index("\nc\n") + 1]
        assert it.run("boundsyn-show", "core", *words, "--circuit")[:2] == (0, circuit)


def programs_say_their_version(it):
    needs_views(it)
    with open(os.path.join(os.path.dirname(os.path.realpath(it.path("examples"))), "VERSION"), encoding="utf-8") as file:
        version = file.read().strip()
    for name in ("boundsyn", "boundsyn-show"):
        assert it.run(name, "--version") == (0, f"{name} {version}\n", "")


def json_says_what_the_table_says(it):
    needs_views(it)
    for name in ("arbiter_of_three", "traffic_light", "prophecy"):
        written(it, "document", "boundsyn", "synth", f"examples/{name}.tlsf", "--max", "4", "--workers", "1")
        told = json.loads(it.run("boundsyn-show", "document", "--json")[1])
        assert (told["verdict"] == "unrealizable") == (name in UNREALIZABLE) and all(log["end"] == "closed" for log in told["logs"])
        rows = [line.split() for line in it.run("boundsyn-show", "document", "--table")[1].splitlines()[1:]]
        assert [(row[0], row[-1]) for row in rows] == [(str(edge["state"]), str(edge["next"])) for edge in told["machine"]["edges"]]
        for row, edge in zip(rows, told["machine"]["edges"]):
            reads = [("" if is_true else "!") + signal for signal, is_true in edge["reads"].items()] or ["-"]
            assert sorted(set(row[1:-1]) - {"&"}) == sorted(reads + (edge["writes"] or ["-"])) or reads == ["-"]


def taken(lines, letter):
    """What the edges among the lines of a state of an automaton say that fit a letter of inputs and outputs."""
    def fits(label):
        words = label.replace("!", " not ").replace("&", " and ").replace("|", " or ")
        return eval(re.sub(r"\d+", lambda at: f"letter[{at[0]}]", words), {"letter": letter})

    return [line.rpartition(" ")[2] for line in lines if line[:1] == "[" and fits(line[1:].partition("]")[0])]


def an_automaton_goes_where_the_machine_goes(it):
    needs_views(it)
    for name in ("arbiter_of_two", "traffic_light", "prophecy"):
        written(it, "document", "boundsyn", "synth", f"examples/{name}.tlsf", "--workers", "1")
        machine = json.loads(it.run("boundsyn-show", "document", "--json")[1])["machine"]
        head, *states = it.run("boundsyn-show", "document", "--hoa")[1].split("State: ")
        assert f"States: {machine['states']}\n" in head and len(states) == machine["states"]
        names = machine["inputs"] + machine["outputs"]
        for edge in machine["edges"]:
            for bits in itertools.product((False, True), repeat=len(names)):
                letter = dict(zip(names, bits))
                if all(letter[signal] == is_true for signal, is_true in edge["reads"].items()):
                    is_written = all(letter[signal] == (signal in edge["writes"]) for signal in machine["outputs"])
                    assert taken(states[edge["state"]].splitlines(), bits) == [str(edge["next"])] * is_written


def a_formula_is_written_as_a_text(it):
    needs_views(it)
    written(it, "text", "ltl", "--ins", "r", "--outs", "g", "[](r => <>g) & ~(0 | 0)")
    assert it.run("boundsyn", "expand", "text")[1].splitlines()[-1] == "guarantee ((G (r -> (F g))) && true)"
    assert it.run("ltl", "--ins", "r", "--outs", "g", "G (r -> F h)")[2].startswith("ltl: 'h' is neither")


def views_end_at_64_megabytes(it):
    needs_views(it)
    # (a register of 8 bits: 65,536 edges, each with up to 16 names)
    signals = "".join(f"i{i} {'x' * 900}{i}\n" for i in range(8)) + "".join(f"o{i} {'y' * 900}{i}\n" for i in range(8))
    latches = "".join(f"{2 * i + 18} {2 * i + 2}\n" for i in range(8))
    it.write("long", "aag 16 8 8 8 0\n" + "".join(f"{2 * i + 2}\n" for i in range(8)) + latches + "".join(f"{2 * i + 18}\n" for i in range(8)) + signals)
    for view in ("--table", "--dot", "--verilog", "--smv", "--json"):
        assert it.run("boundsyn-show", "long", view) == (1, "", "long: error: the output would have more than 64 MB\n"), view


def idle_gates_cost_nothing(it):
    needs_views(it)
    # (the same register, read by its parity, with a chain of gates behind it that nothing reads)
    gates = "".join(f"{2 * i + 34} {2 * i + 32 if i else 18} {2 * (i % 8) + 18}\n" for i in range(99000))
    latches = "".join(f"{2 * i + 18} {2 * i + 2}\n" for i in range(8))
    it.write("idle", f"aag {16 + 99000} 8 8 1 99000\n" + "".join(f"{2 * i + 2}\n" for i in range(8)) + latches + "18\n" + gates)
    begun = time.monotonic()
    assert it.run("boundsyn-show", "idle", "--table")[0] == 0 and time.monotonic() - begun < 20


def a_wrong_word_is_named(it):
    needs_views(it)
    it.write("circuit", STUDENT)
    for words, said in ((("circuit", "--tabel"), "`--tabel` is no word"), (("circuit", "--rounds", "3"), "`--rounds` says nothing"),
                        (("circuit", "--wave"), "`--wave` wants a value"), (("circuit", "--table", "--dot"), "`--dot` is a second word"),
                        (("circuit", "--verilog", "--reset", "soon"), "`soon` isn't a reset")):
        status, text, wrong = it.run("boundsyn-show", *words)
        assert (status, text) == (2, "words refused\n") and wrong.startswith(f"boundsyn-show: error: {said}"), wrong
    for words, said in (((), "`SPEC` is missing"), (("text",), "`text` is a text without a circuit"), (("--what", "text"), "`--what` is no word")):
        status, text, wrong = it.run("annotate", *words)
        assert (status, text) == (2, "words refused\n") and wrong.startswith(f"annotate: error: {said}"), wrong
    status, text, wrong = it.run("boundsyn-show", "no\x1b]0;such", "--table")
    assert (status, text) == (3, "cannot read\n") and "\x1b" not in wrong and "can't be read" in wrong
    assert it.run("boundsyn-show", "--help")[0] == it.run("annotate", "--help")[0] == 0
