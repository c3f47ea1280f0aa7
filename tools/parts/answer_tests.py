"""Tests what another machine says that `boundsyn solve SPEC` or `boundsyn synth SPEC` prints: nothing of it counts but what the programs here accept."""

import os
import re
import subprocess

STATUS = {"realizable": 10, "unrealizable": 20, "bounded": 11, "unknown": 30}
ACCEPTED = re.compile(r"accepted (\w+)(?: (system|environment))?(?: (\d+))? as (\w+)\n")
SOLVED = re.compile(r"accepted (\w+)(?: (\d+))? as (\w+)(?: of (\w+) semantics)?(?:, (.+))?\n")
# What tells nothing in a text: a comment that has none in it, and the words between quotes.
ASIDE = re.compile(r'"[^"]*"|//[^\n]*|/\*(?:(?!/\*|\*/).)*\*/', re.S)


class Refused(Exception):
    """A document that isn't an answer to its text."""


class Tests:
    """The programs with which to test, the command and options of the search, and the folder in which they run: it has the texts by their numbers."""

    def __init__(self, programs, command, options, room):
        self.programs, self.command, self.options, self.room = programs, command, options, room

    def run(self, name, *words):
        done = subprocess.run([self.programs[name], *words], cwd=self.room, stdin=subprocess.DEVNULL, stdout=subprocess.PIPE, stderr=subprocess.DEVNULL)
        return done.returncode, done.stdout

    def option(self, name, otherwise):
        for word, value in zip(self.options, [*self.options[1:], ""]):
            if word == name or word.startswith(name + "="):
                return word.partition("=")[2] or value
        return otherwise

    def passing_file(self, name, text):
        with open(os.path.join(self.room, name), "wb") as file:
            file.write(text)
        return name

    def of_refusal(self, number, spec, printed):
        """The text is refused here in the same words: by `expand`, which wants one kind as `synth` without --kind does, or by `check`."""
        if self.command == "solve":
            is_refused = self.is_refused_by_check(number, spec, printed)
        else:
            by_expand = (0, b"") if self.option("--kind", None) else self.run("boundsyn", "expand", spec)
            is_refused = (by_expand if by_expand[0] else self.run("boundsyn", "check", spec, os.devnull)) == (1, printed)
        if not is_refused:
            raise Refused("the text isn't refused so here")
        return printed.decode().strip(), "-", "text"

    def is_refused_by_check(self, number, spec, printed):
        """`check` refuses the text beside a document of `solve`, with the same fault (where smaller limits are passed it stands at another place), or that
        the text is converted."""
        kind, semantics = self.kinds_of(spec)
        lines = ["boundsyn 6", "verdict unknown", f"kind {kind or 'Mealy'}", *([f"semantics {semantics}"] if semantics else []), "end", ""]
        status, line = self.run("boundsyn", "check", spec, self.passing_file(f"{number}.document", "\n".join(lines).encode()))
        if status == 40 and semantics:
            return printed == b"refused 14 TooManyNodes at 0\n"
        return status == 1 and line.split()[:3] == printed.split()[:3]

    def accepted(self, form, spec, document, status):
        """What `check` says of a document that it accepts, in a line of this form."""
        accepted, line = self.run("boundsyn", "check", spec, document)
        said = form.fullmatch(line.decode()) if accepted == 0 else None
        if not said or STATUS.get(said[1]) != status:
            raise Refused(f"check: {line.decode().strip()}")
        return said

    def kinds_of(self, spec):
        """The kind of machines for which the text is to be answered, and its semantics where it is converted."""
        with open(os.path.join(self.room, spec), encoding="latin-1") as file:
            text, before = file.read(), None
        while text != before:
            text, before = ASIDE.sub(" ", text), text
        given = self.option("--kind", None)
        kinds = [re.search(rf"{word}\s*:[^:]*?\b(Mealy|Moore)\b", text) for word in ("SEMANTICS", "TARGET")]
        if given or None in kinds:
            return given and given.capitalize(), None
        semantics, target = (it[1] for it in kinds)
        return target, semantics if semantics != target else None

    def of_solved(self, number, spec, status, printed):
        """The same of a document of `solve`, of which `check` tests all."""
        said = self.accepted(SOLVED, spec, self.passing_file(f"{number}.document", printed), status)
        if said.group(3, 4) != self.kinds_of(spec):
            raise Refused("a document of other options")
        return said[1] + (f", {said[5]}" if said[5] else ""), said[2] or "-", "check"

    def of_document(self, number, spec, status, printed):
        """The verdict, the states, and what was tested of a document of `synth`."""
        document = self.passing_file(f"{number}.document", printed)
        said = self.accepted(ACCEPTED, spec, document, status)
        expanded = re.search(rb"^kind (\w+)", self.run("boundsyn", "expand", spec)[1], re.M)
        own_kind = expanded and expanded[1].decode().lower()
        wanted = self.option("--kind", own_kind)
        limits = (self.option("--max", "4"), self.option("--entries", "50000"))
        if said[4].lower() != wanted or not re.search(rf"^max {limits[0]}\nentries {limits[1]}$".encode(), printed, re.M):
            raise Refused("a document of other options")
        verdict = said[1] + (f" {said[2]}" if said[2] else "")
        if said[1] == "unknown":
            return verdict, "-", "logs"
        if wanted != own_kind:
            return verdict, said[3], "logs; not the circuit, since the text isn't of this kind alone"
        is_dual = "environment" in verdict or said[1] == "unrealizable"
        return verdict, said[3], self.of_circuit(number, spec, document, is_dual)

    def of_circuit(self, number, spec, document, is_dual):
        """The circuit satisfies the text; a counter-machine's satisfies the text of the environment's task."""
        if is_dual:
            status, text = self.run("boundsyn-show", "--spec", spec, "--dual")
            if status:
                return "logs; not the circuit, since boundsyn-show has no --dual"
            spec = self.passing_file(f"{number}.dual", text)
        status, annotated = self.run("annotate", spec, document)
        if status and b"reaches more than" in annotated:
            return "logs; not the circuit, which reaches over 100,000 pairs"
        if status or self.run("boundsyn", "verify", spec, self.passing_file(f"{number}.annotated", annotated))[0]:
            raise Refused("annotate: " + annotated.decode(errors="replace").partition("\n")[0])
        return "logs and circuit"

    def of_answer(self, number, status, printed):
        if status == 1:
            return self.of_refusal(number, f"{number}.tlsf", printed)
        if status in STATUS.values():
            of_its_own = self.of_solved if self.command == "solve" else self.of_document
            return of_its_own(number, f"{number}.tlsf", status, printed)
        raise Refused(f"status {status}")
