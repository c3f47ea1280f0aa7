"""Whether a circuit has a run of some kind, for tools/confirm: liveness to safety, and ABC on what comes of it."""
import os
import re
import subprocess
import tempfile

from testers import Build, Testers, put_in


class Question:
    """Whether a circuit that plays a side has a run on which the formula of the whole is false (for the system) or true (for the environment)."""

    def __init__(self, flat, circuit, is_system):
        self.build, self.flat = Build(), flat
        given, written = (flat.inputs, flat.outputs) if is_system else (flat.outputs, flat.inputs)
        self.read = [self.build.input() for _ in given]
        outputs = put_in(self.build, circuit, self.read)
        self.signals = self.read + outputs if is_system else outputs + self.read
        self.testers = Testers(self.build, flat.formulas, self.signals)
        whole = self.testers.truth(flat.whole)
        self.wanted = whole ^ 1 if is_system else whole
        self.output = self.looped()

    def looped(self):
        """The literal that is true once a run has come round: to values of the latches that were saved, with each justice between."""
        build, testers = self.build, self.testers
        kept, self.save, saved = build.latch(), build.input(), build.latch()
        good = build.both(testers.kept, build.either(testers.begun, self.wanted))
        build.latches[kept] = build.both(build.either(testers.begun ^ 1, kept), good)
        saving = build.all([self.save, testers.begun, saved ^ 1])
        build.latches[saved] = build.either(saved, saving)
        round_again = [kept, saved]
        for latch in [it for it in build.latches if it not in (kept, saved, testers.begun)]:
            copy = build.latch()
            build.latches[copy] = build.choice(saving, latch, copy)
            round_again.append(build.same(copy, latch))
        for justice in testers.justice:
            seen = build.latch()
            build.latches[seen] = build.both(build.either(saved, saving), build.either(seen, justice))
            round_again.append(seen)
        return build.all(round_again)

    def word_of(self, steps):
        """The word of a run, whose inputs at each step are given, as `boundsyn lasso` reads it."""
        values, letters, begins = dict.fromkeys(self.build.latches, 0), [], None
        for given in steps:
            known = {0: 0, **values, **dict(zip(self.build.inputs, given))}
            new = lambda literal: known[literal & ~1] ^ literal & 1
            for left, one, other in self.build.gates:
                known[left] = new(one) & new(other)
            if begins is None and new(self.save) and new(self.testers.begun):
                begins = len(letters)
            letters.append([name for name, it in zip(self.flat.inputs + self.flat.outputs, self.signals) if new(it)])
            values = {latch: new(it) for latch, it in self.build.latches.items()}
        lines = [" ".join(it) or "-" for it in letters[:-1]]
        return "".join(f"{it}\n" for it in ["stem", *lines[:begins], "ring", *lines[begins:]])


def asked(abc, question, seconds):
    """What ABC finds within so many seconds: "none", the inputs of a run at each step, or "open"."""
    with tempfile.TemporaryDirectory(prefix="confirm-") as room:
        with open(os.path.join(room, "asked.aig"), "wb") as file:
            file.write(question.build.circuit(question.output).binary())
        words = [abc, "-q", f"read_aiger asked.aig; strash; scorr; dc2; pdr -T {seconds}; print_status; write_cex run"]
        try:
            done = subprocess.run(words, cwd=room, stdin=subprocess.DEVNULL, stdout=subprocess.PIPE, stderr=subprocess.STDOUT, timeout=seconds + 1, check=False)
        except subprocess.TimeoutExpired:
            return "open"
        said = done.stdout.decode(errors="replace")
        if re.search(r"^Status = 1 ", said, flags=re.M):
            return "none"
        found = re.search(r"^Status = 0 .*Frame = *(\d+) ", said, flags=re.M)
        return steps_of(os.path.join(room, "run"), int(found[1]) + 1, len(question.build.inputs)) if found else "open"


def steps_of(path, steps, inputs):
    """The inputs at each step, which stand last in what ABC writes of a run."""
    with open(path, encoding="ascii") as file:
        bits = list(map(int, re.match("[01]*", file.read())[0]))[-steps * inputs :]
    return [bits[at : at + inputs] for at in range(0, steps * inputs, inputs)]


def reads_at_once(circuit):
    """The place of the first output that depends, through gates, on an input of its own step, or None."""
    reads = [False, *[True] * circuit.inputs, *[False] * len(circuit.latches)]
    for one, other in circuit.gates:
        reads.append(reads[one // 2] or reads[other // 2])
    return next((at for at, it in enumerate(circuit.outputs) if reads[it // 2]), None)
