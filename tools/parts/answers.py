"""The answers of tools/synth-all: a table, and a file for each document."""

import contextlib
import os
import threading

from answer_tests import Refused
from texts import name_of

COLUMNS = ("text", "status", "verdict", "states", "gates", "latches", "signals", "seconds", "megabytes", "tested", "checksum")
STATUS, VERDICT, TESTED, CHECKSUM = (COLUMNS.index(it) for it in ("status", "verdict", "tested", "checksum"))


class Answers:
    """A folder of answers. Several threads may add to it."""

    def __init__(self, out):
        self.out, self.table, self.lock = out, os.path.join(out, "answers.tsv"), threading.Lock()
        self.rows = {name_of(row[0]): row for row in self.whole_rows()}

    def whole_rows(self):
        """The rows that are whole: the last one may have been cut."""
        if not os.path.exists(self.table):
            return []
        with open(self.table, encoding="utf-8", errors="replace") as file:
            rows = [line[:-1].split("\t") for line in file if line.endswith("\n")]
        return [row for row in rows[1:] if len(row) == len(COLUMNS)]

    def begin(self, texts):
        """The texts that have no answer, or had other bytes or options. Their rows and files are taken away."""
        os.makedirs(self.out, exist_ok=True)
        todo = [it for it in texts if it.name not in self.rows or self.rows[it.name][TESTED] == "nothing" or self.rows[it.name][CHECKSUM] != it.checksum]
        for name in (it.name for it in todo if self.rows.pop(it.name, None)):
            for ending in (".aag", ".refused"):
                with contextlib.suppress(FileNotFoundError):
                    os.remove(os.path.join(self.out, name + ending))
        self.write(self.table, "".join("\t".join(row) + "\n" for row in [COLUMNS, *self.rows.values()]).encode())
        return todo

    def write(self, path, text):
        """Writes a file at once: it is there whole or not."""
        with open(path + ".new", "wb") as file:
            file.write(text)
        os.replace(path + ".new", path)

    def add(self, tests, number, text, status, seconds, kilobytes, printed):
        """Tests an answer and keeps it."""
        path = os.path.join(self.out, text.name)
        try:
            verdict, states, tested = tests.of_answer(number, status, printed)
        except Refused as why:
            verdict, states, tested = "no verdict in time" if status == 124 else f"none: {why}", "-", "nothing"
            if printed:
                self.write(path + ".refused", printed)
        if states != "-" or verdict == "unknown":
            self.write(path + ".aag", printed)
        sizes = sizes_of(printed) if states != "-" else ["-"] * 3
        self.add_row(text, status, " ".join(verdict.split()), states, *sizes, f"{seconds:.2f}", f"{kilobytes / 1024:.1f}", tested)

    def add_row(self, text, *columns):
        row = [*map(str, (text.shown, *columns)), text.checksum]
        with self.lock, open(self.table, "a", encoding="utf-8") as file:
            self.rows[text.name] = row
            file.write("\t".join(row) + "\n")

    def lacking(self, texts):
        """The texts that were refused or have no answer, those of which nothing is known among them, each with what its row says of that."""
        rows = [self.rows[it.name] for it in texts]
        return [(row[0], row[VERDICT]) for row in rows if row[STATUS] in ("1", "30") or row[TESTED] == "nothing"]


def sizes_of(document):
    """The gates and the latches of a document's circuit, and how many signals its text has."""
    head = document.partition(b"\n")[0].split()
    inputs, latches, outputs, gates = map(int, head[2:6])
    return [gates, latches, inputs + outputs]
