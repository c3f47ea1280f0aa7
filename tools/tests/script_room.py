"""A folder in which scripts run: the programs, the examples, and what a row writes."""

import os
import shlex
import subprocess

from rows import Skipped

TOOLS = os.path.dirname(os.path.dirname(os.path.realpath(__file__)))
TOP = os.path.dirname(TOOLS)
PROGRAMS = {"boundsyn": "boundsyn", "boundsyn-show": "boundsyn_show", "annotate": "annotate"}


class Room:
    def __init__(self, room, folder):
        self.room, self.bin = room, os.path.join(room, "bin")
        self.real, self.variables = {}, {}
        os.mkdir(self.bin)
        os.symlink(os.path.join(TOP, "examples"), os.path.join(room, "examples"))
        for name, crate in PROGRAMS.items():
            path = os.path.join(folder, name) if folder else os.path.join(TOP, "crates", crate, "out", crate)
            if os.path.exists(path):
                self.real[name] = os.path.realpath(path)
                os.symlink(self.real[name], os.path.join(self.bin, name))

    def needs(self, *names):
        """Skips the row where one of these programs isn't there, or doesn't know what is asked."""
        for name in names:
            if not os.path.exists(os.path.join(self.bin, name)):
                raise Skipped(f"no {name}")

    def path(self, name):
        return os.path.join(self.room, name)

    def write(self, name, text, mode=0o644):
        with open(self.path(name), "w", encoding="utf-8") as file:
            file.write(text)
        os.chmod(self.path(name), mode)

    def replace(self, program, text):
        """Puts a shell script in the place of a program, which it finds as `real`."""
        place = os.path.join(self.bin, program)
        os.remove(place)
        self.write(place, f"#!/bin/sh\nreal={shlex.quote(self.real[program])}\n{text}", 0o755)

    def read(self, name):
        with open(self.path(name), encoding="utf-8") as file:
            return file.read()

    def start(self, script, *words, stdin=subprocess.DEVNULL, stdout=subprocess.PIPE):
        program = os.path.join(self.bin if script in PROGRAMS else TOOLS, script)
        return subprocess.Popen([program, *words], cwd=self.room, env={**os.environ, "BOUNDSYN_BIN": self.bin, **self.variables}, text=True, stdin=stdin,
                                stdout=stdout, stderr=subprocess.PIPE)

    def run(self, script, *words, given=None):
        """The status, standard output and standard error of a script or program."""
        started = self.start(script, *words, stdin=subprocess.DEVNULL if given is None else subprocess.PIPE)
        out, err = started.communicate(given, timeout=900)
        return started.returncode, out, err
