"""The circuits of `verify` whose annotations name their states, for tools/second_checker. Each part names the section of docs/FORMATS.md from which it
was written."""
import itertools

from second_problems import ENVIRONMENT, SYSTEM, BadLine, Reader
from second_solved import LAST_LINE, Claims, Solved, state_lines

HEAD = b"annotation "
WORDS = {SYSTEM: "verified", ENVIRONMENT: "verified environment"}

# ---- "An annotation of a circuit" ----

class Annotated(Solved):
    """What is read of a circuit's comment, up to the first bad line. Of what stands behind the annotation nothing is read."""
    def __init__(self, lines, last, circuit, side, kind):
        Reader.__init__(self, lines, last, circuit.comment + 1)
        self.circuit, self.side, self.kind, self.head, self.named, self.pairs, self.bad = circuit, side, kind, None, {}, {}, None
        try:
            self.skip()
            self.read_annotation()
            self.want(self.next() == LAST_LINE)
        except BadLine as fault:
            self.bad = fault.args[0]

    def skip(self):
        """Goes on to the first line that begins as a head. A last line that isn't ended is skipped, too, unless it begins so."""
        behind = next((at for at in range(self.at, len(self.lines)) if self.lines[at].startswith(HEAD)), None)
        if behind is None:
            raise BadLine(len(self.lines) + (2 if self.last and not self.last.startswith(HEAD) else 1))
        self.at = behind

def names_states(lines, circuit):
    """Whether the first line of a circuit's comment that begins as a head has three words."""
    heads = (line for line in lines[circuit.comment:] if line.startswith(HEAD)) if circuit and circuit.comment is not None else ()
    return next((line.count(b" ") == 2 for line in heads), False)

# ---- "An annotation over named states" ----

def answer_to_circuit(text, side, lines, last, circuit, names_lines):
    """What `verify` prints of a circuit that plays the side, has no fault and these bad lines of names, for a text as `solve` takes it."""
    taken = text.shifted if text.semantics else text.plain
    if names_lines:
        return f"refused at line {min(names_lines)}"
    if circuit.comment is None:
        return f"refused at line {len(lines) + 1}"
    annotated = Annotated(lines, last, circuit, side, text.target)
    failing = [annotated.bad] if annotated.bad is not None else []
    failing += [*state_lines(taken, annotated)] if annotated.head is not None else []
    failing = failing or [*itertools.islice(Claims(taken, annotated).lines(), 1)]
    if failing:
        return f"refused at line {min(failing)}"
    return f"{WORDS[side]} as {text.target}" + (f" of {text.semantics} semantics" if text.semantics else "")
