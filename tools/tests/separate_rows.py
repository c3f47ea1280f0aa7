"""Rows on tools/separate: whether the system can break a text's assumptions by itself."""

from syntcomp_rows import needs_solve

KEEPS = "the environment can always keep its assumptions\n"
BREAKS = "the system can break them\n"
TEXT = """INFO {{ TITLE: "of a }} and a {{" DESCRIPTION: "ASSUME {{" SEMANTICS: {} TARGET: Mealy }}
/* MAIN {{ don't " /* // */ */ GLOBAL {{ DEFINITIONS {{ never(p) = G !p; }} }}  // MAIN {{ GUARANTEE {{
MAIN {{ INPUTS {{ r; }} OUTPUTS {{ g; }} {} }}
"""


def what_can_be_kept_is_told_from_what_can_be_broken(it):
    needs_solve(it)
    it.needs("boundsyn-show")
    for sections, broken in (
        ("ASSUME { G F r; }", False),
        ("ASSUME { G (g -> X r); } GUARANTEE { G F g; }", False),
        # (after each grant a request, and none in the end: a system that always grants)
        ("ASSUME { G (g -> X r); F G !r; } GUARANTEE { G F g; }", True),
        ("GUARANTEE { F g; } REQUIRE { g -> r; } PRESET { g; }", False),
        ("REQUIRE { g -> X r; X g -> !X r; } PRESET { g; }", True),
        ("INITIALLY { r; } ASSERTIONS { &&[i IN {0, 1 .. 2}] g; } ASSUMPTIONS { never(g); }", True),
        ("", False),
    ):
        for semantics in ("Mealy", "Mealy, Strict", "Mealy,Strict"):
            it.write("text.tlsf", TEXT.format(semantics, sections))
            status, said, _ = it.run("separate", "text.tlsf")
            assert (status, said.partition("\n")[0] + "\n") == ((10, BREAKS) if broken else (20, KEEPS)), sections
            assert (said.count("\nstate  reads") == 1) == broken


def what_solve_does_not_know_is_open(it):
    it.needs("boundsyn")
    it.replace("boundsyn", 'case $1 in expand) exec "$real" "$@" ;; esac\nprintf "%s " "$@" >words\nexit 30\n')
    it.write("text.tlsf", TEXT.format("Mealy", "ASSUME { G F r; }"))
    for options, told in ((), "--max 0 "), (("--max=3", "--workers", "2"), "--max=3 --workers 2 "):
        assert it.run("separate", "text.tlsf", *options) == (30, "open\n", "")
        assert it.read("words").startswith("--quiet solve /") and it.read("words").endswith("/assumptions.tlsf " + told)


def refusals_are_those_of_solve(it):
    needs_solve(it)
    it.write("broken.tlsf", TEXT.format("Mealy", "GUARANTEE { F h; }"))
    for name in ("broken.tlsf", "nothing.tlsf"):
        status, said, _ = it.run("boundsyn", "solve", name)
        assert it.run("separate", name)[:2] == (status, said) and status in (1, 3)
    it.write("text.tlsf", TEXT.format("Mealy", "ASSUME { G F r; }"))
    assert it.run("separate", "text.tlsf", "--max", "nine")[:2] == (2, "words refused\n")
    assert it.run("separate")[0] == 2 and it.run("separate", "--help")[0] == 0
