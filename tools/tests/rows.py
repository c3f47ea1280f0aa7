"""Runs rows: functions that fail by an exception, or are skipped for want of a program."""

import tempfile
import traceback


class Skipped(Exception):
    """What a row needs isn't there."""


def rows_of(module):
    return [it for it in vars(module).values() if callable(it) and getattr(it, "__module__", "") == module.__name__ and it.__doc__ is None]


def run_rows(name, modules, words, given):
    """Runs the rows whose names have one of the words, or all, each over what `given` makes of a new folder; the exit status."""
    passed = failed = 0
    for row in (it for module in modules for it in rows_of(module)):
        if words and not any(word in row.__name__ for word in words):
            continue
        with tempfile.TemporaryDirectory(prefix=f"{name}-") as room:
            try:
                row(given(room, row.__name__))
                passed += 1
            except Skipped as why:
                print(f"{name}: skipped {row.__name__}: {why}", flush=True)
            except Exception:
                failed += 1
                traceback.print_exc()
                print(f"{name}: FAILED {row.__name__}", flush=True)
    print(f"{name}: {passed} passed, {failed} failed")
    return 0 if passed and not failed else 1
