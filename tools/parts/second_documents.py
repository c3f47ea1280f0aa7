"""The texts of tools/second-checker-test, each with documents for it, and how one is broken."""
import pathlib
import re
import subprocess

TOP = pathlib.Path(__file__).resolve().parents[2]
RUNS = [("delay", ""), ("delay", "--max 1"), ("delay", "--entries 0"), ("delay", "--max 1 --entries 0"), ("prophecy", "--max 2"),
        ("prophecy", "--kind moore"), ("arbiter_of_two", ""), ("arbiter_of_two", "--entries 2"), ("door", "--max 1"),
        ("strict_promise", ""), ("traffic_light", "--max 1 --entries none"), ("inverter", "--kind moore"), ("lift", "--max 3 --entries 40")]
SOLVED = [("wire", ""), ("delay", ""), ("delay", "--max 0"), ("delay", "--kind moore"), ("prophecy", ""), ("arbiter_of_two", ""), ("door", ""),
          ("strict_promise", ""), ("inverter", "--kind moore"), ("lift", ""), ("dma_grant", "--max 0"), ("gear", "")]
MIXED = """INFO {{ TITLE: "t" DESCRIPTION: "d" SEMANTICS: {} TARGET: {} }}
MAIN {{ INPUTS {{ r; }} OUTPUTS {{ g; }} {} }}
"""
MEANT = ["GUARANTEE { G (g <-> r); }", "REQUIRE { r || X r; } ASSERT { g <-> r; } GUARANTEE { F g; }", "GUARANTEE { G (r || !r); }"]
KINDS = ["Mealy", "Moore", "Mealy, Strict", "Moore, Strict"]
WIDE = """INFO { TITLE: "t" DESCRIPTION: "d" SEMANTICS: Moore TARGET: Mealy }
MAIN { INPUTS { r[12]; } OUTPUTS { g[12]; } GUARANTEE { &&[0 <= i < 12] G (X r[i] -> g[i]); } }
"""
MADE = """INFO { TITLE: "t" DESCRIPTION: "d" SEMANTICS: Mealy TARGET: Moore }
GLOBAL { DEFINITIONS { answers(asked, given) = G (asked -> F given); } }
MAIN { INPUTS { r; } OUTPUTS { g; h; } GUARANTEE { answers(r && X r, g U h); F[3:2] g || G F !h; } }
"""


def given(program):
    """The texts, each with its documents."""
    rows = re.findall(r"^(?:file|cut) (spec|document)\n((?:    .*\n)*)", (TOP / "tools/rows/check.rows").read_text(encoding="utf-8"), flags=re.M)
    rows = [(name, re.sub(r"^    ", "", body, flags=re.M)) for name, body in rows]
    alone = re.findall(r"^==== document .*\n(.*?)\n(?===== |\Z)", (TOP / "crates/call_rows/stdin").read_text(encoding="latin-1"), flags=re.M | re.S)
    documents = [body.encode("latin-1") for body in alone + [body for name, body in rows if name == "document"]]
    yield from ((body, documents) for name, body in rows if name == "spec")
    for name, options in RUNS:
        path = TOP / "examples" / (name + ".tlsf")
        whole, local = (said(program, "synth", path, "--workers", "1", "--counts", counts, *options.split()) for counts in ("whole", "local"))
        yield path.read_text(encoding="utf-8"), [*(whole.replace(b"boundsyn 3", b"boundsyn %d" % version) for version in (1, 2, 3, 5)), local]


def solved(program, folder):
    """The same with documents of version 6, where the program writes such: of texts of examples/, of small ones whose kinds may differ, of one with many
    signals, and of one whose list of formulas has nodes in another order than its sections."""
    for name in dict.fromkeys(name for name, _ in SOLVED):
        path = TOP / "examples" / (name + ".tlsf")
        documents = [said(program, "solve", path, *options.split()) for it, options in SOLVED if it == name]
        yield path.read_text(encoding="utf-8"), [it for it in documents if not it.startswith(b"words refused")]
    spec = pathlib.Path(folder, "mixed")
    for text in (WIDE, MADE):
        _ = spec.write_text(text, encoding="utf-8")
        yield text, [said(program, "solve", spec, "--max", most, *kind) for most in "01" for kind in ([], ["--kind", "moore"]) if text != WIDE or most == "0"]
    for meant in MEANT:
        texts, documents = [MIXED.format(semantics, target, meant) for semantics in KINDS for target in KINDS[:2]], []
        for text in texts:
            _ = spec.write_text(text, encoding="utf-8")
            documents += [said(program, "solve", spec, *kind) for kind in ([], ["--kind", "mealy"], ["--kind", "moore"])]
        yield from ((text, [it for it in dict.fromkeys(documents) if not it.startswith(b"words refused")]) for text in texts)


def said(*words):
    return subprocess.run(words, stdin=subprocess.DEVNULL, stdout=subprocess.PIPE, stderr=subprocess.DEVNULL, check=False).stdout


def broken(document, chance):
    """The lines of the document with one line broken: each line in each way."""
    lines = document.splitlines(keepends=True)
    for at, line in enumerate(lines):
        before, after, place = lines[:at], lines[at + 1:], chance.randrange(len(line))
        yield [*before, *after]
        yield [*before, line, line, *after]
        yield [*before, *after[:1], line, *after[1:]]
        yield [*before, line[:place] + bytes([chance.choice(b"\n 019-acilogx")]) + line[place + 1:], *after]
        yield [*before, line[:place] + line[place + 1:], *after]
        for number in set(re.findall(rb"\d+", line)):
            yield [*before, re.sub(rb"\b%s\b" % number, b"%d" % (int(number) + chance.choice((-1, 1))), line, count=1), *after]
