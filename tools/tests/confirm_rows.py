"""Rows on tools/confirm: what it takes, and what it says where it can't say more; tools/confirm-test has those on what it confirms and refutes. And one on
tools/bench/against_z3, whose z3 says the same of each size."""

import os
import shutil
import sys

from abc_rows import needs_abc
from rows import Skipped
from syntcomp_rows import needs_solve

WIRE = "aag 1 1 0 1 0\n2\n2\ni0 request\no0 grant\n"


def without_abc_it_is_skipped(it):
    it.needs("boundsyn")
    it.write("wire.aag", WIRE)
    os.mkdir(it.path("few"))
    os.symlink(sys.executable, it.path("few/python3"))
    it.variables["PATH"] = it.path("few")
    os.symlink(shutil.which("env"), it.path("few/env"))
    assert it.run("confirm", "examples/wire.tlsf", "wire.aag") == (2, "skipped: no ABC (Debian's yosys or berkeley-abc)\n", "")


def what_is_no_circuit_or_text_is_refused(it):
    needs_abc(it)
    it.needs("boundsyn")
    it.write("wire.aag", WIRE)
    it.write("unknown", "boundsyn 6\nverdict unknown\nkind Mealy\nend\n")
    it.write("cut", "aag 1 1 0 1 0\n2\n")
    it.write("odd", "aag 1 1 0 1 0\n3\n2\n")
    it.write("broken.tlsf", "INFO {")
    with open(it.path("bytes"), "wb") as file:
        file.write(b"aag \xff\x00\n")
    no_head = "line 1 isn't the first line of a circuit in ASCII AIGER"
    for name, why in (("unknown", no_head), ("bytes", no_head), ("cut", "line 3 isn't that of an output"), ("odd", "literal 3 is odd, and so none of an input, latch or gate")):
        assert it.run("confirm", "examples/wire.tlsf", name) == (40, "", f"confirm: {name}: {why}\n"), name
    assert it.run("confirm", "examples/wire.tlsf", "nothing") == (3, "", "confirm: nothing: No such file or directory\n")
    assert it.run("confirm", "broken.tlsf", "wire.aag")[::2] == (1, "confirm: broken.tlsf: refused 3 Unexpected at 6\n")
    assert it.run("confirm", "examples/wire.tlsf")[0] == it.run("confirm", "--seconds", "0", "examples/wire.tlsf", "wire.aag")[0] == 2


def what_does_not_fit_the_text_is_refuted(it):
    needs_abc(it)
    it.needs("boundsyn")
    it.write("wide.aag", "aag 2 2 0 1 0\n2\n4\n2\n")
    it.write("named.aag", WIRE.replace("o0 grant", "o0 give"))
    assert it.run("confirm", "examples/wire.tlsf", "wide.aag") == (40, "refuted: the circuit has other numbers of inputs and outputs than the text\n", "")
    assert it.run("confirm", "examples/wire.tlsf", "named.aag") == (40, "refuted: the text has another name than `o0 give`\n", "")
    # (the weather of the same step: the environment of a Mealy text may not read it)
    it.write("now.aag", "aag 1 1 0 1 0\n2\n3\n")
    status, said, _ = it.run("confirm", "--unrealizable", "examples/prophecy.tlsf", "now.aag")
    assert (status, said) == (40, "refuted: output 0 reads an input of its own step, which the kind doesn't allow\n")


def where_abc_takes_too_long_it_is_open(it):
    it.needs("boundsyn")
    it.write("wire.aag", WIRE)
    for does in ("sleep 60", "echo 'Status = -1  Frames = 12'", "exit 1"):
        it.write("bin/yosys-abc", f"#!/bin/sh\n{does}\n", 0o755)
        it.variables["PATH"] = it.bin + ":" + os.environ["PATH"]
        status, said, error = it.run("confirm", "--seconds", "1", "examples/wire.tlsf", "wire.aag")
        assert (status, error) == (30, "") and said.startswith("open after ") and said.endswith(" seconds\n")


def words_of_answers_are_those_that_lasso_reads(it):
    needs_abc(it)
    it.needs("boundsyn")
    status, said, _ = it.run("confirm", "examples/arbiter_of_two.tlsf", "examples/arbiter_wrong.aag")
    head, word = said.split("\n", 1)
    it.write("word", word)
    assert (status, head) == (40, "refuted: the text is false on this run")
    assert it.run("boundsyn", "lasso", "examples/arbiter_of_two.tlsf", "word")[:2] == (0, "false\n")


def z3_says_the_same_of_each_size(it):
    needs_solve(it)
    if not shutil.which("z3"):
        raise Skipped("no z3")
    names = ["delay", "door", "arbiter_of_three"]
    status, said, error = it.run("bench/against_z3", "--runs", "1", "--plot", "plot", *(f"examples/{name}.tlsf" for name in names))
    assert (status, error) == (0, "") and [line.split(" | ")[1:3] for line in said.splitlines()[2:5]] == [
        ["realizable", "1, 2"], ["unrealizable", "1"], ["realizable", "1, 2, 3"]]
    assert "solve: 3 of 3 texts, median " in said and "z3: 3 of 3 texts, median " in said and said.splitlines()[-1].startswith("on ")
    assert it.read("plot").splitlines()[0] == "# seconds solve z3" and it.read("plot").splitlines()[-1].endswith(" 3 3")
