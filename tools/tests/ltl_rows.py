"""Rows on tools/ltl: how operators bind, as in Spot's formulas, and what is refused."""

# A formula, and what TLSF's own text of it is.
BINDS = {
    "a | b U c": "(a || (b U c))",
    "a -> b U c": "(a -> (b U c))",
    "a -> b <-> c": "(a -> (b <-> c))",
    "a & b | c & d": "((a && b) || (c && d))",
    "a U b W c R d": "(a U (b W (c R d)))",
    "!a U X b & F c": "((!a U X b) && F c)",
    "G (a -> F b) && []<>c": "(G (a -> F b) && G F c)",
    "a /\\ b \\/ ~c => 1 <=> 0": "(((a && b) || !c) -> (true <-> false))",
    "a & b & c": "(a && b && c)",
    "!!X!a": "!!X !a",
}
REFUSED = {
    "a &": "the end of the formula stands where a formula is wanted",
    "G": "the end of the formula stands where a formula is wanted",
    "a U": "the end of the formula stands where a formula is wanted",
    "-> a": "'->' at column 1 stands where a formula is wanted",
    "a b": "'b' at column 3 stands where an operator or the end is wanted",
    "(a": "the end of the formula stands where ) is wanted",
    "a)": "')' at column 2 stands where an operator or the end is wanted",
    "": "the end of the formula stands where a formula is wanted",
    "a ^ b": "write an exclusive or as !(a <-> b)",
    "a $ b": "'$' at column 3 of the formula is no sign of it",
    "G g": "'g' is neither an operator nor among the signals of --ins and --outs",
}
SIGNALS = ("--ins", "a,b", "--outs", "c,d")


def operators_bind_as_in_the_field(it):
    for formula, text in BINDS.items():
        for words in ((formula,), ("-f", formula), (f"--formula={formula}",)):
            status, said, error = it.run("ltl", *SIGNALS, *words)
            assert (status, error) == (0, "") and said.endswith(f"  GUARANTEE {{\n    {text};\n  }}\n}}\n"), (formula, said)


def what_is_no_formula_is_refused(it):
    for formula, why in REFUSED.items():
        assert it.run("ltl", *SIGNALS, "-f", formula) == (1, "", f"ltl: {why}\n"), formula
    assert it.run("ltl", *SIGNALS)[0] == it.run("ltl", *SIGNALS, "a", "-f", "b")[0] == 2
    assert it.run("ltl", *SIGNALS, "(" * 5000 + "a")[::2] == (1, "ltl: the formula is nested too deeply\n")
    assert "`a | (b U c)`" in it.run("ltl", "--help")[1]


def its_texts_are_taken(it):
    it.needs("boundsyn")
    it.write("text", it.run("ltl", *SIGNALS, "-f", "a | b U c & !d")[1])
    assert it.run("boundsyn", "expand", "text")[1].splitlines()[-1] == "guarantee (a || ((b U c) && !d))"
