"""Documents of version 6, of which the circuit is exchanged for another one that does the same with the same latches."""

import subprocess
import sys
import tempfile

from beside import place_of
from texts import shown


def comment_of(text):
    """The lines behind the circuit of a document of version 6, or None where the text is another one."""
    comment = text.partition("\nc\n")[2]
    return comment if comment.startswith("boundsyn 6\n") else None


def begun_as_one(text):
    """For each latch of a circuit in ASCII AIGER whether it begins as 1."""
    head, *lines = text.split("\n")
    inputs, latches = map(int, head.split()[2:4])
    return [line.split()[2:] == ["1"] for line in lines[inputs : inputs + latches]]


def document_with(circuit, text):
    """The document of this text with another circuit, of which the latches that began as 1 are the opposite ones, which begin as 0."""
    flips, lines = begun_as_one(text), comment_of(text).split("\n")
    heads = [at for at, line in enumerate(lines) if line.startswith("annotation ")]
    if heads and any(flips):
        pairs, named = map(int, lines[heads[0]].split()[1:])
        for at in range(heads[0] + 1 + named, heads[0] + 1 + named + pairs):
            code, *rest = lines[at].split(" ")
            lines[at] = " ".join(["".join(str(int(bit) ^ flip) for bit, flip in zip(code, flips)), *rest])
    return circuit + "c\n" + "\n".join(lines)


def said_of(boundsyn, spec, document):
    """Whether `check` accepts a document, and its line."""
    with tempfile.NamedTemporaryFile(prefix="abc-optimise-") as file:
        file.write(document.encode(errors="surrogateescape"))
        file.flush()
        done = subprocess.run([boundsyn, "check", spec, file.name], stdin=subprocess.DEVNULL, stdout=subprocess.PIPE, stderr=subprocess.DEVNULL, check=False)
    return done.returncode == 0, done.stdout.decode(errors="replace").strip()


def kept(text, circuit, spec, name):
    """What is printed: the circuit, with the rest of a document of version 6 where `check` accepts that."""
    if spec is None and comment_of(text) is None:
        return circuit
    if spec is None or comment_of(text) is None:
        sys.exit(f"abc-optimise: {shown(name)}: " + ("a document of version 6 wants --spec SPEC" if spec is None else "no document of version 6"))
    boundsyn = place_of("boundsyn")
    if not boundsyn:
        sys.exit("abc-optimise: needs boundsyn, which isn't there")
    document = document_with(circuit, text)
    is_accepted, said = said_of(boundsyn, spec, document)
    return document if is_accepted else sys.exit(f"abc-optimise: {shown(name)}: check says of the smaller one: {said}")
