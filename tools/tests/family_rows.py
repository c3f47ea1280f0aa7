"""Rows on tools/families: how many texts there are, and that they are texts."""

import collections
import glob
import os

# What may be said of a text beyond the limits of `expand`.
LIMITS = ("refused 14 TooManyNodes", "refused 15 TooManySignals", "refused 16 TargetDiffers")
FIRST = ("dense_round_robin 2", "lift_gr1 4", "bus_master 2", "generalized_buffer 5", "chomp 3 3", "nim_of_two_heaps 3 2", "synchronised_steps 6",
         "carry_counter 5", "full_arbiter 8", "full_arbiter_unreal_twice 6", "full_arbiter_unreal_at_once 5 2")


def listed(it, *words):
    status, said, error = it.run("families", "--list", *words)
    assert (status, error) == (0, "")
    return [line.split("\t") for line in said.splitlines()]


def large_texts_are_as_many_as_they_should_be(it):
    rows = listed(it, "--large")
    counts = collections.Counter(row[1] for row in rows)
    assert len(rows) == len({row[0] for row in rows}) >= 110 and max(counts.values()) <= 4
    assert all(int(row[5]) + int(row[6]) <= 64 for row in rows) and {row[7] for row in rows} == {"realizable", "unrealizable"}
    for family in ("simple", "prioritized", "full", "round_robin"):
        for name in (f"{family}_arbiter", f"{family}_arbiter_unreal"):
            assert [row[2] for row in rows if row[1] == name] == ["n=8", "n=12", "n=16", "n=24"], name


def each_text_has_its_verdict_in_its_title(it):
    for words in ((), ("--large",)):
        assert it.run("families", "texts", *words)[0] == 0
        for row in listed(it, *words):
            title = it.read(f"texts/{row[0]}.tlsf").split("TITLE:")[1].split('"')[1]
            assert title.endswith(f": {row[7]}") and title.isascii(), row[0]
    names = {row[0] for row in listed(it)}
    assert {it.replace(" ", "_") for it in FIRST} <= names


def texts_are_refused_for_limits_alone(it):
    it.needs("boundsyn")
    seen = set()
    assert it.run("families", "texts")[0] == 0
    for path in sorted(glob.glob(it.path("texts/*.tlsf"))):
        family = os.path.basename(path).rstrip("_0123456789.tlsfmeory")
        if family not in seen:
            seen.add(family)
            status, said, _ = it.run("boundsyn", "expand", path)
            assert status == 0 or said.startswith(LIMITS), (path, said)
    assert len(seen) > 80


def wrong_words_write_nothing(it):
    for words in ((), ("--all", "texts"), ("--large",), ("--large", "texts", "nim")):
        assert it.run("families", *words)[0] == 1 and not os.path.exists(it.path("texts"))
    assert it.run("families", "--help")[0] == 0
