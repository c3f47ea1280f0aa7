"""The texts of tools/second_checker: what it asks boundsyn of them. It names the sections of docs/FORMATS.md from which it was written."""
import functools
import re
import subprocess
import tempfile

from second_formulas import Flat, TextFault, WrongAnswer, is_conversion
from second_problems import SolveText, Text

# ---- "What `expand --solve` writes", "The order of refusals" ----

OTHER = {"Mealy": "Moore", "Moore": "Mealy"}

def asker(program, spec):
    """A function of words behind `boundsyn` that gives what it writes of the text."""
    def ask(*words, file=spec):
        try:
            told = subprocess.run([program, *words, "--", file], stdin=subprocess.DEVNULL, stdout=subprocess.PIPE, stderr=subprocess.DEVNULL, check=False)
        except OSError as found:
            raise WrongAnswer(f"can't run {program}: {found.strerror}") from found
        if not told.stdout.startswith((b"kind ", b"refused ", b"cannot read")):
            raise WrongAnswer(f"{program} doesn't answer `{' '.join(words)}` of this text")
        return told.stdout.decode()
    return ask

def taken_or_fault(told):
    """What `expand` writes of a text that has no fault."""
    if not told.startswith("kind "):
        raise TextFault(told.strip())
    return told

class Given:
    """What boundsyn says of a text. What documents are checked against is made where one wants it."""
    def __init__(self, ask, spec):
        self.ask, self.spec = ask, spec
        self.flat = Flat(taken_or_fault(ask("expand", "--solve", "--nodes", "--kind", "mealy")))
        self.small = ask("expand")
        differs = re.fullmatch("refused 16 TargetDiffers at ([0-9]+)\n", self.small)
        self.target_at = differs and int(differs[1])

    @functools.cached_property
    def data(self):
        with open(self.spec, "rb") as file:
            return file.read()

    @functools.cached_property
    def text(self):
        """The text within the limits of the documents before version 6, or its fault there. Where its kinds differ, it is taken with one of them."""
        told = self.small
        if self.target_at is not None:
            with tempfile.NamedTemporaryFile() as file:
                other = OTHER[self.data[self.target_at:self.target_at + 5].decode()]
                _ = file.write(self.data[:self.target_at] + other.encode() + self.data[self.target_at + 5:]), file.flush()
                told = self.ask("expand", file=file.name)
        taken_or_fault(told)
        return Text(self.flat)

    @functools.cached_property
    def solve_text(self):
        told = self.ask("expand", "--solve", "--nodes")
        if self.target_at is None:
            return SolveText(self.flat, None, Flat(taken_or_fault(told)).kind, None)
        target, shifted = self.data[self.target_at:self.target_at + 5].decode(), Flat(told) if told.startswith("kind ") else None
        names = self.flat.inputs if target == "Mealy" else self.flat.outputs
        if shifted and not is_conversion(self.flat, shifted, names):
            raise WrongAnswer("the sections of the converted text aren't those of the text, converted")
        return SolveText(self.flat, shifted, target, OTHER[target])
