"""Rows on tools/synth-all. A stand-in for boundsyn plays the machine that nobody trusts: what it prints for `synth` is changed on the way."""

import itertools
import os
import shutil
import signal
import subprocess
import time

from rows import Skipped
from syntcomp_rows import needs_solve

SYNTH = ("--command", "synth")


def needs_parallel(it):
    """Skips the row where GNU parallel isn't there."""
    if not shutil.which("parallel"):
        raise Skipped("no GNU parallel")
    it.needs("annotate", "boundsyn-show")


def needs_many_solved(it):
    """Skips the row where GNU parallel isn't there, or `solve`; where both are, the other programs go."""
    needs_parallel(it)
    needs_solve(it)
    for name in ("annotate", "boundsyn-show"):
        os.remove(os.path.join(it.bin, name))


def table_of(it):
    """The rows of the table by the names of their texts, without times and memory."""
    rows = [line.split("\t") for line in it.read("out/answers.tsv").splitlines()]
    assert rows[0] == ["text", "status", "verdict", "states", "gates", "latches", "signals", "seconds", "megabytes", "tested", "checksum"]
    return {os.path.basename(row[0]): (row[1], row[2], row[3], row[9]) for row in rows[1:]}


def sizes_of(it):
    """The gates, latches and signals of the rows of the table."""
    rows = [line.split("\t") for line in it.read("out/answers.tsv").splitlines()]
    return {os.path.basename(row[0]): tuple(row[4:7]) for row in rows[1:]}


def tables_have_sizes_and_memory(it):
    needs_parallel(it)
    it.needs("boundsyn")
    texts = ["examples/wire.tlsf", "examples/delay.tlsf", "examples/prophecy.tlsf"]
    assert it.run("synth-all", *SYNTH, "out", *texts, "--", "--max", "2")[0] == 0
    # (a wire has no gate, and a delay a latch alone)
    _, _, inputs, latches, outputs, gates = it.read("out/prophecy.aag").split()[:6]
    sizes = (gates, latches, str(int(inputs) + int(outputs)))
    assert sizes_of(it) == {"wire.tlsf": ("0", "0", "2"), "delay.tlsf": ("0", "1", "2"), "prophecy.tlsf": sizes}
    shutil.rmtree(it.path("out"))
    # (a program that takes 60 megabytes, and one that takes hardly any)
    it.replace("boundsyn", """[ "$1" = synth ] && [ "$2" != /dev/null ] || exec "$real" "$@"
case $2 in *0.tlsf) exec python3 -c 'import time; held = b"1" * 60000000; time.sleep(0.5)' ;; esac
sleep 0.3
""")
    assert it.run("synth-all", *SYNTH, "out", *texts[:2])[0] == 1
    megabytes = {os.path.basename(row[0]): float(row[8]) for row in (line.split("\t") for line in it.read("out/answers.tsv").splitlines()[1:])}
    assert 60 < megabytes["wire.tlsf"] < 80 and 0 < megabytes["delay.tlsf"] < 6, megabytes


def what_is_unknown_is_no_answer(it):
    needs_parallel(it)
    it.needs("boundsyn")
    texts = ["examples/wire.tlsf", "examples/delay.tlsf"]
    status, said, lacking = it.run("synth-all", *SYNTH, "out", *texts, "--", "--max", "1")
    assert (status, said) == (1, "synth-all: 1 of 2 texts have an answer that was tested, in out/answers.tsv\n")
    assert lacking.splitlines()[-1] == "synth-all: examples/delay.tlsf: unknown" and table_of(it)["delay.tlsf"] == ("30", "unknown", "-", "logs")
    assert sizes_of(it)["delay.tlsf"] == ("-", "-", "-")
    before = it.read("out/answers.tsv")
    assert it.run("synth-all", *SYNTH, "--resume", "out", *texts, "--", "--max", "1")[0] == 1 and it.read("out/answers.tsv") == before


def through(it, change, command="synth"):
    """Has the command hand its document through a shell filter, with the status that is given first."""
    status, program = change.split(" ", 1)
    it.replace("boundsyn", f'[ "$1" = {command} ] && [ "$2" != /dev/null ] || exec "$real" "$@"\n"$real" "$@" | {program}\nexit {status}\n')


def many_texts_are_answered(it):
    needs_parallel(it)
    shutil.copy(it.path("examples/delay.tlsf"), it.path("a late delay.tlsf"))
    it.write("broken.tlsf", "INFO {")
    texts = ["examples/wire.tlsf", "a late delay.tlsf", "examples/prophecy.tlsf", "broken.tlsf", "examples/inverter.tlsf"]
    status, said, lacking = it.run("synth-all", *SYNTH, "--jobs", "2", "out", *texts, "--", "--max", "2")
    assert status == 1 and said == "synth-all: 4 of 5 texts have an answer that was tested, in out/answers.tsv\n"
    assert lacking.splitlines()[-1] == "synth-all: broken.tlsf: refused 3 Unexpected at 6"
    table = table_of(it)
    assert table["wire.tlsf"] == ("10", "realizable", "1", "logs and circuit")
    assert table["a late delay.tlsf"] == ("10", "realizable", "2", "logs and circuit")
    assert table["broken.tlsf"] == ("1", "refused 3 Unexpected at 6", "-", "text")
    assert table["prophecy.tlsf"][:3] == ("20", "unrealizable", "2") and table["prophecy.tlsf"][3] in ("logs and circuit", "logs; not the circuit, since boundsyn-show has no --dual")
    assert sorted(os.listdir(it.path("out"))) == ["a late delay.aag", "answers.tsv", "inverter.aag", "prophecy.aag", "wire.aag"]
    assert it.run("boundsyn", "check", "examples/wire.tlsf", "out/wire.aag")[0] == 0 and "\nboundsyn 5\n" in it.read("out/wire.aag")
    assert it.run("synth-all", *SYNTH, "out", *texts, "--", "--max", "2")[0] == 2
    before = it.read("out/answers.tsv")
    assert it.run("synth-all", *SYNTH, "--resume", "out", *texts, "--", "--max", "2")[0] == 1 and it.read("out/answers.tsv") == before
    assert it.run("synth-all", *SYNTH, "--resume", "out", *texts[:3], "--", "--max", "2")[0] == 0 and it.read("out/answers.tsv") == before


def many_texts_are_solved_and_check_tests_them_alone(it):
    needs_many_solved(it)
    it.write("broken.tlsf", "INFO {")
    texts = ["examples/wire.tlsf", "examples/delay.tlsf", "examples/prophecy.tlsf", "broken.tlsf"]
    assert it.run("synth-all", "--jobs", "2", "out", *texts, "--", "--max", "0")[0] == 1
    table = table_of(it)
    assert table["wire.tlsf"] == ("10", "realizable, smallest", "1", "check") and table["broken.tlsf"] == ("1", "refused 3 Unexpected at 6", "-", "text")
    assert table["delay.tlsf"] == ("10", "realizable, smaller ones open", "2", "check")
    assert table["prophecy.tlsf"] == ("20", "unrealizable, smaller ones open", "2", "check")
    assert sorted(os.listdir(it.path("out"))) == ["answers.tsv", "delay.aag", "prophecy.aag", "wire.aag"]
    assert it.run("boundsyn", "check", "examples/delay.tlsf", "out/delay.aag")[0] == 0 and "\nboundsyn 6\n" in it.read("out/delay.aag")
    before = it.read("out/answers.tsv")
    assert it.run("synth-all", "--resume", "out", *texts[:3], "--", "--max", "0")[0] == 0 and it.read("out/answers.tsv") == before


def texts_of_two_kinds_are_solved(it):
    needs_many_solved(it)
    text = """INFO {{ TITLE: "TARGET: Mealy" DESCRIPTION: "d" SEMANTICS: {} /* {} /* {} */ */ TARGET: {} }}
MAIN {{ INPUTS {{ r; }} OUTPUTS {{ g; }} GUARANTEE {{ G (g <-> r); }} }}"""
    for semantics, target in (("Mealy", "Moore"), ("Moore", "Mealy")):
        it.write(f"{target}.tlsf", text.format(semantics, "SEMANTICS: x", "TARGET: y", target))
    words = ("Moore.tlsf", "Mealy.tlsf", "--", "--max", "0")
    assert it.run("synth-all", "out", *words)[0] == 0
    table = table_of(it)
    assert table["Moore.tlsf"][:3] == ("10", "realizable, smaller ones open", "2") and table["Mealy.tlsf"][:3] == ("20", "unrealizable, smaller ones open", "2")
    assert it.run("synth-all", "--resume", "out", *words, "--kind", "moore")[0] == 0
    assert [row[:3] for row in table_of(it).values()] == [("20", "unrealizable, smallest", "1")] * 2


def nothing_untested_of_solve_counts(it):
    needs_many_solved(it)
    it.write("late.tlsf", it.read("examples/wire.tlsf").replace("TARGET: Mealy", "TARGET: Moore"))
    changes = {"20 cat": "none: check: accepted realizable 2 as Moore of Mealy semantics, smaller ones open", "9 cat": "none: status 9",
               "1 cat": "none: the text isn't refused so here", "10 sed 's/^verdict realizable 2/verdict realizable 3/'": "none: check: refused at line 9",
               "30 printf 'boundsyn 6\\nverdict unknown\\nkind Moore\\nend\\n'": "none: a document of other options"}
    for change, why in changes.items():
        through(it, change, "solve")
        assert it.run("synth-all", "out", "late.tlsf", "--", "--max", "0")[0] == 1
        assert table_of(it)["late.tlsf"][1:] == (why, "-", "nothing"), table_of(it)
        assert sorted(os.listdir(it.path("out"))) == ["answers.tsv", "late.refused"]
        shutil.rmtree(it.path("out"))


def a_text_of_two_kinds_is_refused_unless_one_is_given(it):
    needs_parallel(it)
    text = it.read("examples/delay.tlsf").replace("TARGET: Mealy", "TARGET: Moore")
    refusal = f"refused 16 TargetDiffers at {text.index('Moore')}"
    it.write("both.tlsf", text)
    assert it.run("synth-all", *SYNTH, "out", "both.tlsf")[0] == 1
    assert table_of(it)["both.tlsf"] == ("1", refusal, "-", "text")
    for kind in ("mealy", "moore"):
        assert it.run("synth-all", *SYNTH, "--resume", "out", "both.tlsf", "--", "--kind", kind)[0] == 0
        assert table_of(it)["both.tlsf"] == ("10", "realizable", "2", "logs; not the circuit, since the text isn't of this kind alone")
    it.replace("boundsyn", f'[ "$1" = synth ] && [ "$2" != /dev/null ] || exec "$real" "$@"\necho "{refusal}"; exit 1\n')
    assert it.run("synth-all", *SYNTH, "--resume", "out", "both.tlsf", "--", "--kind", "mealy", "--max", "3")[0] == 1
    assert table_of(it)["both.tlsf"][1] == "none: the text isn't refused so here" and sorted(os.listdir(it.path("out"))) == ["answers.tsv", "both.refused"]


def what_cannot_be_read_has_a_row(it):
    needs_parallel(it)
    os.mkdir(it.path("folder.tlsf"))
    os.symlink("/dev/zero", it.path("endless.tlsf"))
    for name in (b"latin-\xe9.tlsf", b"title-\x1b]0;x.tlsf"):
        shutil.copy(it.path("examples/wire.tlsf"), os.path.join(os.fsencode(it.room), name))
    texts = [b"nothing.tlsf", b"folder.tlsf", b"endless.tlsf", b"latin-\xe9.tlsf", b"title-\x1b]0;x.tlsf", b"examples/wire.tlsf"]
    status, said, lacking = it.run("synth-all", *SYNTH, "out", *texts)
    assert status == 1 and said.startswith("synth-all: 1 of 6 texts have ") and "Traceback" not in lacking and "\x1b" not in lacking
    why = "its name isn't in UTF-8, or has characters that can't be printed"
    rows = {name: row[1] for name, row in table_of(it).items() if row[0] != "10"}
    assert rows == {"nothing.tlsf": "can't be read: No such file or directory", "folder.tlsf": "can't be read: Is a directory",
                    "endless.tlsf": "refused 1 TooLong at 1048576", "latin-\\xe9.tlsf": why, "title-\\x1b]0;x.tlsf": why}
    assert all(f"synth-all: {name}: {row}\n" in lacking for name, row in rows.items())


def messages_name_the_text_that_was_given(it):
    needs_parallel(it)
    it.write("broken.tlsf", "INFO {\n\tTITLE: x\n")
    status, _, said = it.run("synth-all", *SYNTH, "out", "broken.tlsf", "examples/prophecy.tlsf", "--", "--max", "1")
    assert status == 1 and "broken.tlsf:2:" in said and "examples/prophecy.tlsf: unknown" in said and "0.tlsf" not in said and "1.tlsf" not in said


def what_has_changed_is_tried_again(it):
    needs_parallel(it)
    shutil.copy(it.path("examples/wire.tlsf"), it.path("changes.tlsf"))
    texts = ("changes.tlsf", "examples/delay.tlsf", "later.tlsf")
    assert it.run("synth-all", *SYNTH, "out", *texts)[0] == 1 and table_of(it)["later.tlsf"][1].startswith("can't be read: ")
    it.replace("boundsyn", f'[ "$1" = synth ] && [ "$2" != /dev/null ] && echo "$*" >>{it.path("words")}\nexec "$real" "$@"\n')
    it.write("out/changes.refused", "old")
    shutil.copy(it.path("examples/prophecy.tlsf"), it.path("changes.tlsf"))
    shutil.copy(it.path("examples/inverter.tlsf"), it.path("later.tlsf"))
    assert it.run("synth-all", *SYNTH, "--resume", "out", *texts)[0] == 0
    table = table_of(it)
    assert len(it.read("words").splitlines()) == 2 and sorted(table) == ["changes.tlsf", "delay.tlsf", "later.tlsf"]
    assert table["changes.tlsf"][:3] == ("20", "unrealizable", "2") and "changes.refused" not in os.listdir(it.path("out"))
    assert it.run("synth-all", *SYNTH, "--resume", "out", "examples/delay.tlsf", "--", "--max", "3")[0] == 0
    assert len(it.read("words").splitlines()) == 3 and len(table_of(it)) == 3 and "\nmax 3\n" in it.read("out/delay.aag")


def a_text_that_takes_too_long_is_left(it):
    needs_parallel(it)
    it.replace("boundsyn", '[ "$1" = synth ] && grep -q delay "$2" && exec sleep 600\nexec "$real" "$@"\n')
    texts = ("examples/delay.tlsf", "examples/wire.tlsf")
    assert it.run("synth-all", *SYNTH, "--timeout", "5", "out", *texts)[0] == 1
    table = table_of(it)
    assert table["delay.tlsf"] == ("124", "no verdict in time", "-", "nothing") and table["wire.tlsf"][0] == "10"
    assert sorted(os.listdir(it.path("out"))) == ["answers.tsv", "wire.aag"]
    it.replace("boundsyn", 'exec "$real" "$@"\n')
    assert it.run("synth-all", *SYNTH, "--timeout", "60", "--resume", "out", *texts)[0] == 0 and table_of(it)["delay.tlsf"][0] == "10"


def each_processor_has_a_job_of_one_worker(it):
    needs_parallel(it)
    count = int(subprocess.run(["parallel", "--number-of-threads"], stdout=subprocess.PIPE, check=True).stdout)
    for number in range(count + 1):
        shutil.copy(it.path("examples/wire.tlsf"), it.path(f"wire{number}.tlsf"))
    # Each job waits until as many have begun as there are processors, and one more had time to.
    it.replace("boundsyn", f"""[ "$1" = synth ] && [ "$2" != /dev/null ] || exec "$real" "$@"
echo "$*" >>{it.path("jobs")}
for turn in $(seq 600); do [ "$(grep -c tlsf {it.path("jobs")})" -lt {count} ] || break; sleep 0.1; done
sleep 0.5
echo end >>{it.path("jobs")}
exec "$real" "$@"
""")
    assert it.run("synth-all", *SYNTH, "out", *(f"wire{number}.tlsf" for number in range(count + 1)))[0] == 0
    lines = it.read("jobs").splitlines()
    running = itertools.accumulate(-1 if line == "end" else 1 for line in lines)
    assert max(running) == count and all(line == "end" or line.endswith(" --counts local --workers 1") for line in lines)
    assert it.run("synth-all", *SYNTH, "--resume", "out", "wire0.tlsf", "--", "--workers=2", "--counts=whole")[0] == 0
    assert it.read("jobs").splitlines()[-2].endswith(".tlsf --workers=2 --counts=whole")


def a_folder_or_program_that_is_lacking_is_named(it):
    needs_parallel(it)
    it.write("file", "")
    assert it.run("synth-all", *SYNTH, "file", "examples/wire.tlsf") == (4, "", "synth-all: file: File exists\n")
    os.remove(os.path.join(it.bin, "annotate"))
    status, printed, said = it.run("synth-all", *SYNTH, "out", "examples/wire.tlsf")
    assert (status, printed) == (2, "") and said.startswith("synth-all: needs annotate, which isn't there: ") and said.count("\n") == 1


def nothing_untested_counts(it):
    needs_parallel(it)
    changes = {"10 sed 's/^1 0 1 2 3 /1 0 1 2 /'": "none: check: refused at line 14", "20 cat": "none: check: accepted realizable 2 as Mealy", "9 cat": "none: status 9",
               "1 cat": "none: the text isn't refused so here", "10 sed 's/^4 2/4 3/'": "none: annotate: the text is false on this run", "10 head -3": "none: check: refused at line 4",
               "10 sed 's/^max 4/max 3/'": "none: a document of other options"}
    for change, why in changes.items():
        through(it, change)
        assert it.run("synth-all", *SYNTH, "out", "examples/delay.tlsf", "--", "--workers", "1", "--counts", "whole")[0] == 1
        assert table_of(it)["delay.tlsf"][1:] == (why, "-", "nothing"), table_of(it)
        assert sorted(os.listdir(it.path("out"))) == ["answers.tsv", "delay.refused"]
        shutil.rmtree(it.path("out"))


def words_that_are_wrong_start_nothing(it):
    needs_parallel(it)
    os.mkdir(it.path("other"))
    shutil.copy(it.path("examples/wire.tlsf"), it.path("other/wire.tlsf"))
    for words in (["out", "examples/wire.tlsf", "other/wire.tlsf"], ["out", "examples/wire.tlsf", "--", "--max", "9"], ["out"], ["--never", "out", "examples/wire.tlsf"]):
        assert it.run("synth-all", *SYNTH, *words)[0] == 2 and not os.path.exists(it.path("out"))


def what_was_done_is_kept_when_it_is_ended(it):
    needs_parallel(it)
    it.replace("boundsyn", '[ "$1" = synth ] && [ "$(wc -c <"$2")" -gt 400 ] && exec sleep 60\nexec "$real" "$@"\n')
    started = it.start("synth-all", *SYNTH, "--jobs", "2", "out", "examples/wire.tlsf", "examples/lift.tlsf")
    while not (os.path.exists(it.path("out/wire.aag")) and "wire" in it.read("out/answers.tsv")) and started.poll() is None:
        time.sleep(0.05)
    started.send_signal(signal.SIGINT)
    assert started.wait(timeout=300) == 130
    assert list(table_of(it)) == ["wire.tlsf"] and sorted(os.listdir(it.path("out"))) == ["answers.tsv", "wire.aag"]


# A stand-in for ssh: the other machine is another folder of this one, and the login sets what every login sets.
SSH = """#!/usr/bin/env bash
while [ "${1#-}" != "$1" ]; do case $1 in -l | -o | -p | -i | -S) shift ;; esac; shift; done
shift
[ "$1" != -- ] || shift
export HOME=$(dirname "$0")/home SHELL=/bin/bash
cd "$HOME" && exec bash -c "$*"
"""


def other_machines_answer(it):
    needs_parallel(it)
    if not shutil.which("rsync"):
        raise Skipped("no rsync")
    os.makedirs(it.path("ssh/home"))
    it.write("ssh/ssh", SSH, 0o755)
    it.variables["PATH"] = it.path("ssh") + ":" + os.environ["PATH"]
    it.write("machines", "1/another\n1/:\n")
    it.write("machines", "1/another\n")
    it.write("broken.tlsf", "INFO {")
    status, _, said = it.run("synth-all", *SYNTH, "--sshloginfile", "machines", "--timeout", "60", "out", "examples/wire.tlsf", "examples/delay.tlsf", "broken.tlsf")
    assert status == 1 and said.startswith("broken.tlsf:1:7: error 3 ") and [row[0] for row in table_of(it).values()].count("10") == 2
    it.write("machines", "1/another\n1/:\n")
    assert it.run("synth-all", *SYNTH, "--sshloginfile", "machines", "--resume", "out", "examples/inverter.tlsf", "examples/door.tlsf")[0] == 0
    assert len(table_of(it)) == 5 and os.listdir(it.path("ssh/home")) == []


def a_login_of_this_machine_answers(it):
    needs_parallel(it)
    if not shutil.which("rsync") or not shutil.which("ssh") or subprocess.run(["ssh", "-o", "BatchMode=yes", "localhost", "true"], stderr=subprocess.DEVNULL, check=False).returncode:
        raise Skipped("no rsync, or no login of this machine itself")
    it.write("machines", "1/localhost\n")
    assert it.run("synth-all", *SYNTH, "--sshloginfile", "machines", "out", "examples/delay.tlsf")[0] == 0
