"""Rows on the builds of tools/launch: each gets a small checkout with a stand-in for `rt`."""

import os
import shutil
import signal

from stand_in import read, write


def another_kit_builds_anew_and_is_asked_once(it):
    it.run()
    asked = it.calls("version")
    it.run()
    assert (it.calls(), it.calls("version")) == (1, asked)
    write(f"{it.kit}/kit", "another")
    write(f"{it.kit}/rt", read(f"{it.kit}/rt") + "# another\n", 0o755)
    it.run()
    it.run()
    assert (it.calls(), it.calls("version")) == (2, asked + 1)


def an_edit_while_a_build_runs_is_built_next(it):
    for edits in (("two",), ("three", "two")):
        started = it.held()
        for text in edits:
            it.edit(text)
        assert it.let_go(started)[0][1] == 10
        before = it.calls()
        assert it.run("x")[1] == f"built of {edits[-1]}: x\n"
        assert it.calls() == before + 1
        shutil.rmtree(f"{it.top}/out")


def two_at_once_build_once(it):
    first = it.held()
    second = it.start("y")
    line = second.stderr.readline()
    assert "waiting" in line
    assert it.let_go(first, second) == [("built of one: x\n", 10), ("built of one: y\n", 10)]
    assert it.calls() == 1


def an_interrupted_build_leaves_nothing(it):
    for sent, status in ((signal.SIGTERM, 143), (signal.SIGHUP, 129), (signal.SIGINT, 130)):
        # A shell can't trap what is ignored when it begins, as SIGHUP is under nohup.
        if signal.getsignal(sent) == signal.SIG_IGN:
            signal.signal(sent, signal.SIG_DFL)
        started = it.held()
        started.send_signal(sent)
        started.communicate(timeout=60)
        assert started.returncode == status
        assert not os.listdir(it.passing)
        assert not os.path.exists(f"{it.top}/crates/boundsyn/out")
        assert not [name for name in os.listdir(f"{it.top}/out/launch") if name.startswith("boundsyn.built")]
        assert not it.is_rt_running()
        os.remove(f"{it.kit}/hold")
    assert it.run("x")[:2] == (10, "built of one: x\n")


def a_build_that_fails_says_why(it):
    write(f"{it.kit}/rt", "#!/bin/sh\necho no proof\n", 0o755)
    status, out, err = it.run()
    assert (status, out) == (70, "") and "no proof" in err and not os.listdir(it.passing)
    assert "README.md" in it.run(kit=False)[2]
