"""Rows on tools/to-read, in a small checkout."""

import os
import shutil

from script_room import TOOLS

TOP = "ghost use Rattle.std.specs.Prelude.{List};\nghost use Rattle.one.specs.First.{Answers, Other as Another};\n\npub fn run() -> u8\n"
FIRST = """-- what is answered
use Rattle.std.specs.Prelude.{List}
use Rattle.two.specs.Second.{holds, unused}
use Rattle.two.specs.declared.kinds.Kind.{Kind}

-- the answers
pub record Answers (kind : Kind) : Type 0 where
  pub is_so : holds kind × helper

-- a helper
abbrev pub helper : Type 0
helper = List

abbrev pub not_reached : Type 0
not_reached = unused

abbrev pub Other : Type 0
Other = helper
"""
SECOND = "abbrev pub holds : Type 0\nholds = Rule\n\n-- by cases\npub data Rule : Type 0 where\n  -- always\n  yes : Rule\n\nabbrev pub unused : Type 0\nunused = Rule\n"
PAGE = "# What to trust\n\n## What has to be read\n\n1. All: one (`First`).{}\n\n| crate | modules |\n|---|---|\n{}\nMore.\n"
ROWS = "| one | `First` |\n| two | `Second` |\n"


def what_a_contract_reaches_is_listed(it):
    for folder in ("tools", "docs", "crates/boundsyn_top/src", "crates/one/specs", "crates/two/specs"):
        os.makedirs(it.path(f"checkout/{folder}"))
    script = it.path("checkout/tools/to-read")
    shutil.copy(os.path.join(TOOLS, "to-read"), script)
    it.write("checkout/crates/boundsyn_top/src/top.rt", TOP)
    it.write("checkout/crates/one/specs/First.antt", FIRST)
    it.write("checkout/crates/two/specs/Second.antt", SECOND)
    it.write("checkout/docs/TRUST.md", PAGE.format("", ""))
    assert it.run(script)[:2] == (0, ROWS + "2 modules, 10 lines\n")
    assert it.run(script, "--names")[1].split() == "one First Answers one First Other one First helper two Second Rule two Second holds".split()
    status, said, _ = it.run(script, "--check")
    assert status == 1 and said.splitlines() == [f"to-read: docs/TRUST.md lacks: {row}" for row in ROWS.splitlines()]
    assert it.run(script, "--write")[0] == 0 and it.read("checkout/docs/TRUST.md") == PAGE.format("", ROWS)
    assert it.run(script, "--check")[:2] == (0, "to-read: 2 modules, as docs/TRUST.md has them\n")
    it.write("checkout/docs/TRUST.md", PAGE.format(" two (`Second`, `Third`)", ROWS + "| three | `First` |\n"))
    status, said, _ = it.run(script, "--check")
    assert status == 1 and said.splitlines() == ["to-read: docs/TRUST.md has: | three | `First` |",
                                                 "to-read: a step of docs/TRUST.md names two `Third`, which isn't reached"]
