"""Rows on tools/launch: each gets a small checkout with a stand-in for `rt`."""

import os

from stand_in import PROGRAMS, read, write

KEPT = (10, "built of one: a  b\n")
REFUSED = (70, "")


def kept_ones_run_without_a_kit(it):
    it.keep()
    for name in PROGRAMS:
        assert it.run("a  b", name=name, kit=False)[:2] == KEPT
    # SIGXFSZ (bit 24) is ignored
    assert int(it.run(kit=False)[2].split()[1], 16) >> 24 & 1


def links_of_any_name_lead_to_their_program(it):
    it.keep()
    os.symlink(it.top, f"{it.kit}/folder")
    os.symlink("folder/boundsyn-show", f"{it.kit}/show")
    os.symlink("show", f"{it.kit}/show again")
    assert it.run("a  b", name=f"{it.kit}/show again", kit=False)[:2] == KEPT
    assert it.run("a  b", name="./annotate", cwd=it.top, kit=False)[:2] == KEPT
    os.symlink(f"{it.top}/tools/launch", f"{it.kit}/other")
    assert it.run(name=f"{it.kit}/other")[:2] == REFUSED


def each_change_is_built_once(it):
    it.keep()
    source, program = f"{it.top}/crates/base/src/lib.rt", f"{it.top}/crates/boundsyn/out/boundsyn"

    def is_built_once(text):
        before = it.calls()
        for _ in range(2):
            assert it.run("x")[1] == f"built of {text}: x\n"
        return it.calls() == before + 1

    it.edit("two")
    assert is_built_once("two")
    write(f"{it.kit}/older", "old")
    os.utime(f"{it.kit}/older", (10**9, 10**9))
    os.rename(f"{it.kit}/older", source)
    assert is_built_once("old")
    moment = os.stat(source).st_mtime_ns
    it.edit("new")
    os.utime(source, ns=(moment, moment))
    assert is_built_once("new")
    write(f"{it.top}/crates/base/specs/a.antt", "a")
    assert is_built_once("new")
    os.remove(f"{it.top}/crates/base/specs/a.antt")
    assert is_built_once("new")
    write(f"{it.top}/crates/other/src/lib.rt", "nothing that is read")
    assert not is_built_once("new")
    write(f"{it.top}/crates.txt", read(f"{it.top}/crates.txt").replace("boundsyn: base", "boundsyn: base other"))
    assert is_built_once("new")
    write(program, read(program) + "# damaged\n", 0o755)
    assert is_built_once("new")
    os.remove(program)
    assert is_built_once("new")
    assert it.run("x", kit=False)[1] == "built of new: x\n"


def what_is_damaged_never_runs(it):
    it.keep()
    line, program = f"{it.top}/prebuilt/built-from", f"{it.top}/prebuilt/boundsyn"
    good = read(line)
    for text in ("", "\n", "boundsyn\n", good.replace("boundsyn ", "another "), good.replace("boundsyn ", "boundsyn 0 ")):
        write(line, text)
        assert it.run(kit=False)[:2] == REFUSED
    os.remove(line)
    assert it.run(kit=False)[:2] == REFUSED
    write(line, good)
    assert it.run("a  b", kit=False)[:2] == KEPT
    for text in (read(program) + "#", read(program).replace("one", "two"), ""):
        write(program, text, 0o755)
        assert it.run(kit=False)[:2] == REFUSED
    os.remove(f"{it.top}/crates.txt")
    assert it.run(name="annotate", kit=False)[:2] == REFUSED
    assert it.run(name="annotate")[:2] == REFUSED


def checksums_are_remembered(it):
    it.keep()
    write(f"{it.kit}/sha256sum", '#!/bin/sh\necho "$@" >>"$(dirname "$0")/sums"\nexec /usr/bin/sha256sum "$@"\n', 0o755)
    it.run()
    first = read(f"{it.kit}/sums").splitlines()
    it.run()
    # (one sum, of names and times, and none of what is in the files)
    assert read(f"{it.kit}/sums").splitlines() == [*first, ""] and len(first) > 1


def where_nothing_can_be_remembered_it_tests_anew(it):
    it.keep()
    if os.geteuid():
        os.chmod(it.top, 0o555)
    else:
        os.chown(it.top, 65534, 65534)
    for _ in range(2):
        assert it.run("a  b", kit=False)[:2] == KEPT
    assert not os.path.exists(f"{it.top}/out")
    it.edit("two")
    assert it.run()[:2] == REFUSED
    os.chmod(it.top, 0o755)
