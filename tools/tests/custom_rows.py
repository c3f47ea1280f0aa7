"""Rows of what the three programs have in common: help, the version, `-o FILE`, and `-` for standard input."""

import os

WIRE = "examples/wire.tlsf"
REALIZABLE, REFUSED, WORDS_REFUSED, CANNOT_READ, CANNOT_WRITE = 10, 1, 2, 3, 4
PROGRAMS = ("boundsyn", "boundsyn-show", "annotate")


def circuit(it):
    """Puts the document of a wire into the file `document`, and its circuit into `circuit`."""
    it.needs(*PROGRAMS)
    it.write("document", it.run("boundsyn", "synth", WIRE, "--workers", "1")[1])
    it.write("circuit", it.run("boundsyn-show", "document", "--circuit")[1])


def help_is_an_answer(it):
    it.needs(*PROGRAMS)
    for name, behind in (("boundsyn", ("solve", WIRE)), ("boundsyn-show", ("document", "--table")), ("annotate", (WIRE, "circuit"))):
        status, page, said = it.run(name, "--help")
        assert (status, said) == (0, "") and name in page
        for words in (("-h",), ("help",), (*behind, "--help"), (*behind, "-h"), ("-h", *behind)):
            assert it.run(name, *words) == (0, page, ""), words
        assert it.run(name, *behind, "--version") == it.run(name, "--version")
        assert it.run(name, *behind, "--", "--help")[0] in (WORDS_REFUSED, CANNOT_READ)
        assert it.run(name, "-o", "page", "--help") == (0, "", "") and it.read("page") == page


def a_file_is_written_whole_or_stays(it):
    circuit(it)
    for words in (("boundsyn", "synth", WIRE, "--workers", "1"), ("boundsyn-show", "document", "--table"), ("annotate", WIRE, "circuit")):
        status, printed, _ = it.run(*words)
        for option in (("-o", "out"), ("--output", "out"), ("--output=out",)):
            it.write("out", "old\n")
            assert it.run(words[0], *option, *words[1:])[:2] == (status, "") and it.read("out") == printed
        it.write("out", "old\n")
        assert it.run(words[0], "-o", "out", *words[1:-1], "nothing")[0] in (WORDS_REFUSED, CANNOT_READ) and it.read("out") == "old\n"
        assert it.run(words[0], "-o", "new", *words[1:-1], "nothing")[0] in (WORDS_REFUSED, CANNOT_READ) and not os.path.exists(it.path("new"))
        assert it.run(words[0], "-o", "none/out", *words[1:])[:2] == (CANNOT_WRITE, "")
        assert it.run(words[0], "-o", ".", *words[1:])[0] == CANNOT_WRITE
        assert it.run(words[0], "-o")[0] == it.run(words[0], "-o", "out", "-o", "out", *words[1:])[0] == WORDS_REFUSED and it.read("out") == "old\n"
        assert not [name for name in os.listdir(it.room) if name.endswith(".part")]


def a_file_is_kept_by_its_status(it):
    it.needs("boundsyn")
    it.write("broken", "INFO {")
    for words, status, is_kept in ((("solve", WIRE), REALIZABLE, True), (("expand", WIRE), 0, True), (("check", WIRE, WIRE), 40, True),
                                   (("synth", "broken"), REFUSED, False), (("synth", "nothing"), CANNOT_READ, False)):
        assert it.run("boundsyn", "-o", "out", "--quiet", *words) == (status, "", "")
        assert os.path.exists(it.path("out")) == is_kept
        if is_kept:
            os.remove(it.path("out"))


def what_is_no_plain_file_is_written_at_once(it):
    it.needs("boundsyn")
    flat = it.run("boundsyn", "expand", WIRE)
    assert it.run("boundsyn", "-o", "/dev/stdout", "expand", WIRE) == flat
    assert it.run("boundsyn", "-o", "/dev/full", "expand", WIRE)[:2] == (CANNOT_WRITE, "")
    it.write("far", "")
    os.symlink("far", it.path("link"))
    assert it.run("boundsyn", "-o", "link", "expand", WIRE) == (0, "", "")
    assert it.read("far") == flat[1] and os.path.islink(it.path("link"))


def standard_input_has_a_name(it):
    circuit(it)
    with open(os.path.join(it.room, WIRE), encoding="utf-8") as file:
        wire = file.read()
    flat = it.run("boundsyn", "expand", WIRE)
    it.write("-", "INFO {")
    assert it.run("boundsyn", "expand", "-", given=wire) == it.run("boundsyn", "expand", "--", "-", given=wire) == flat
    assert it.run("boundsyn", "check", "-", "document", given=wire)[0] == it.run("boundsyn", "check", WIRE, "-", given=it.read("document"))[0] == 0
    for words in (("-",), ("--solve", "-"), ("--solve=-",)):
        assert f"text {WIRE}\nstatus 10\n" in it.run("boundsyn", "batch", *words, given=f"{WIRE}\n")[1]
    assert it.run("boundsyn", "expand", "./-")[0] == REFUSED and it.run("boundsyn", "batch", "-", given="-\n")[0] == 40
    table = it.run("boundsyn-show", "document", "--table")
    assert it.run("boundsyn-show", "-", "--table", given=it.read("document")) == table
    page = it.run("boundsyn-show", "document", "--html", "--spec", WIRE)
    assert it.run("boundsyn-show", "document", "--html", "--spec", "-", given=wire) == it.run("boundsyn-show", "document", "--html", "--spec=-", given=wire) == page
    annotated = it.run("annotate", WIRE, "circuit")
    assert it.run("annotate", "-", "circuit", given=wire) == annotated == it.run("annotate", WIRE, "-", given=it.read("circuit"))
    for words in (("boundsyn", "check", "-", "-"), ("boundsyn-show", "-", "--html", "--spec", "-"), ("annotate", "-", "-")):
        status, printed, said = it.run(*words, given=wire)
        assert (status, printed) == (WORDS_REFUSED, "words refused\n") and "standard input" in said
