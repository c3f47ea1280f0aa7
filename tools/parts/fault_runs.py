"""The runs of tools/faults: small and larger ones of all commands, each with a call that fails."""

import os
import resource
import struct
import subprocess
import tempfile

SMALLEST = [
    ("synth", "wire", "--workers", "1"),
    ("check", "delay", "delay.document"),
    ("expand", "wire"),
    ("lasso", "delay", "word"),
    ("gen", "1"),
    ("bench", "1", "--workers", "1"),
    ("verify", "delay", "delay_by_hand.aag"),
    ("core", "wish", "--max", "1", "--workers", "1"),
    ("batch", "list", "--max", "1", "--workers", "1"),
    ("solve", "delay", "--workers", "1"),
    ("check", "delay", "delay.solved"),
    ("batch", "--solve", "list", "--max", "1", "--workers", "1"),
]
LARGER = [
    ("synth", "arbiter_of_two", "--workers", "1"),
    ("synth", "arbiter_of_three", "--workers", "1"),
    ("synth", "gear", "--workers", "1"),
    ("check", "arbiter_of_three", "arbiter_of_three.document"),
    ("core", "door", "--max", "2", "--workers", "1"),
    ("batch", "several.list", "--max", "2", "--workers", "1"),
    ("solve", "arbiter_of_three", "--workers", "1"),
    ("solve", "gear", "--workers", "1"),
    ("check", "arbiter_of_three", "arbiter_of_three.solved"),
]
WISH = "INFO { TITLE: \"\" DESCRIPTION: \"\" SEMANTICS: Mealy TARGET: Mealy } MAIN { INPUTS { a; } OUTPUTS { b; } GUARANTEE { a; } }\n"
TOLD = (b"text ", b"status ", b"core ", b"guarantee ", b"without ", b"verdict ", b"end ")
# The statuses with which a run may end where calls of this kind fail, beside that of the full answer.
STATUS = {"alloc": 5, "thread": 5, "memory": 5, "open": 3, "read": 3, "write": 4}


class Machine:
    """A program with the library that makes calls fail, in a folder with the files of its words."""

    def __init__(self, tools, program, room):
        self.program, self.room, self.library = program, room, os.path.join(room, "faults.so")
        subprocess.run(["cc", "-O1", "-shared", "-fPIC", "-o", self.library, os.path.join(tools, "parts", "faults.c"), "-ldl"], check=True)
        os.symlink(os.path.join(tools, "..", "examples"), os.path.join(room, "examples"))
        for name in os.listdir(os.path.join(room, "examples")):
            os.symlink(os.path.join("examples", name), os.path.join(room, name.removesuffix(".tlsf")))
        for name, text in (("word", "stem\n-\nring\nin\nout\n"), ("list", "wire\ndelay\n"), ("wish", WISH)):
            with open(os.path.join(room, name), "w", encoding="utf-8") as file:
                file.write(text)
        for name in ("wire", "delay", "arbiter_of_two", "arbiter_of_three", "gear"):
            with open(os.path.join(room, f"{name}.document"), "wb") as file:
                file.write(self.run(("synth", name, "--workers", "1"))[1])
        for name in ("delay", "arbiter_of_three", "gear"):
            with open(os.path.join(room, f"{name}.solved"), "wb") as file:
                file.write(self.run(("solve", name, "--workers", "1"))[1])

    def run(self, words, fault=""):
        """The status and standard output of a run, which leaves its counts of calls."""
        kind, _, size = fault.partition(" ")
        limit = (lambda: resource.setrlimit(resource.RLIMIT_AS, (int(size), int(size)))) if kind == "memory" else None
        with tempfile.NamedTemporaryFile(dir=self.room) as counts:
            counts.write(bytes(40))
            counts.flush()
            variables = {"LD_PRELOAD": self.library, "FAULT_COUNTS": counts.name, "FAULT": fault}
            done = subprocess.run([self.program, *words], cwd=self.room, env=variables, preexec_fn=limit, timeout=120,
                                  stdin=subprocess.DEVNULL, stdout=subprocess.PIPE, stderr=subprocess.DEVNULL)
            counts.seek(0)
            self.counts = struct.unpack("5q", counts.read())
        return done.returncode, done.stdout

    def ends_well(self, words, full, fault):
        """Whether a run with a fault ends with a full answer, or with the status of its kind and the begin of that answer; and the
        status, or none for a full answer."""
        try:
            status, printed = self.run(words, fault)
        except subprocess.TimeoutExpired:
            return False, "none after 120 seconds"
        if (status, printed) == full or self.is_another_answer(words, full, status, printed):
            return True, None
        is_begin = printed == b"cannot read\n" if status == 3 else full[1].startswith(printed)
        return status == STATUS[fault.split()[0]] and is_begin, status

    def is_another_answer(self, words, full, status, printed):
        """Where a worker lacked memory, another one may have found another machine: its document is accepted too. A game that lacks memory ends,
        so `solve` may find less: a machine with fewer sizes refuted, another one, or none."""
        if words[0] == "solve":
            return status in (full[0], 30) and self.check(words[1], printed)[0] == 0
        if status != full[0]:
            return False
        if words[0] == "synth":
            return self.check(words[1], printed) == self.run(("check", words[1], f"{words[1]}.document"))
        told = [[line for line in text.split(b"\n") if line.startswith(TOLD)] for text in (full[1], printed)]
        return words[0] in ("core", "batch") and told[0] == told[1] and printed.endswith(full[1][full[1].rindex(b"end"):])

    def check(self, text, printed):
        """The answer of `check` to a text and what was printed."""
        with tempfile.NamedTemporaryFile(dir=self.room) as document:
            document.write(printed)
            document.flush()
            return self.run(("check", text, document.name))
