"""The programs that tools/synth-all runs, and the options of its searches."""

import os
import shutil
import subprocess
import sys

from beside import place_of


def stop(why):
    print(f"synth-all: {why}", file=sys.stderr)
    sys.exit(2)


def programs_of(tools, command):
    """The programs that a command wants: those in the folder that is named, else those of the checkout that are built from its sources or, outside of one,
    beside the script or on the PATH."""
    folder, prebuilt, found = os.environ.get("BOUNDSYN_BIN"), os.path.join(tools, "prebuilt"), {}
    for name in ("boundsyn", "annotate", "boundsyn-show") if command == "synth" else ("boundsyn",):
        place = os.path.join(folder, name) if folder else name
        if not folder and os.path.exists(prebuilt):
            asked = subprocess.run([prebuilt, "place", name], stdout=subprocess.PIPE, check=False)
            if asked.returncode:
                sys.exit(2)
            place = asked.stdout.decode().removesuffix("\n")
        program = shutil.which(place) if folder or os.path.exists(prebuilt) else place_of(name)
        if not program:
            stop(f"needs {name}, which isn't there: {place}")
        found[name] = os.path.realpath(program)
    return found


def options_of(program, command, given):
    """The options of the command: the given ones, one worker and, for `synth`, local counts unless others are asked for."""
    words = list(given)
    for name, value in (("--counts", "local"), ("--workers", "1")) if command == "synth" else (("--workers", "1"),):
        if not any(it.split("=")[0] == name for it in given):
            words += [name, value]
    asked = subprocess.run([program, command, os.devnull, *words], stdin=subprocess.DEVNULL, stdout=subprocess.DEVNULL, stderr=subprocess.PIPE, check=False)
    if asked.returncode != 1:
        stop(f"boundsyn refuses these options of {command}: " + asked.stderr.decode(errors="replace").partition("\n")[0])
    return words
