"""The lines of circuits in ASCII AIGER, and what is wrong with one."""

import re

# The lines of inputs, latches, outputs and gates.
FORMS = {"an input": "N", "a latch": "N N( N)?", "an output": "N", "a gate": "N N N"}
NUMBER = "(?:0|[1-9][0-9]{0,17})"


class Unreadable(Exception):
    """A text that is no circuit of this kind."""


def sizes_of(line):
    """The greatest variable, and how many inputs, latches, outputs and gates there are."""
    if not re.fullmatch(f"aag(?: {NUMBER}){{5,9}}", line):
        raise Unreadable("line 1 isn't the first line of a circuit in ASCII AIGER")
    sizes = list(map(int, line.split()[1:]))
    if any(sizes[5:]):
        raise Unreadable("line 1: a circuit with more than inputs, latches, outputs and gates")
    return sizes[:5]


def row_of(lines, at, form, most):
    """The literals of a line, which has to have this form."""
    if at >= len(lines) or not re.fullmatch(FORMS[form].replace("N", NUMBER), lines[at]):
        raise Unreadable(f"line {at + 1} isn't that of {form}")
    row = list(map(int, lines[at].split()))
    if max(row) > most:
        raise Unreadable(f"line {at + 1}: a literal above {most}, the greatest by line 1")
    return row


def define(literal, *known):
    """Refuses the literal of an input, latch or gate that can't be one, or is known already."""
    if literal % 2:
        raise Unreadable(f"literal {literal} is odd, and so none of an input, latch or gate")
    if any(literal // 2 in it for it in known):
        raise Unreadable(f"literal {literal} has a value already")


def reset_of(row):
    """The value with which a latch begins; 0 for an input."""
    if len(row) > 2 and row[2] > 1:
        raise Unreadable(f"latch {row[0]} begins as anything")
    return row[2] if len(row) > 2 else 0


def names_of(lines, at, counts):
    """The lines of names, which end at the comment."""
    names = {}
    for place in range(at, lines.index("c", at) if "c" in lines[at:] else len(lines)):
        line = re.fullmatch(f"([ilo])({NUMBER}) .+", lines[place])
        if not line or int(line[2]) >= counts["ilo".index(line[1])] or line[1] + line[2] in names:
            raise Unreadable(f"line {place + 1} isn't a name of an input, latch or output, or names one again")
        names[line[1] + line[2]] = lines[place]
    return list(names.values())
