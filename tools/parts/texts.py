"""The texts of tools/synth-all: the name of each, what it holds or why it can't be read, and what tells that it has changed."""

import hashlib
import os
import sys

# A text with more bytes is refused for its length, whatever they are.
MOST_BYTES = 2**20 + 1
MOST_BYTES_SAID = 2**16


def shown(name):
    """A name as a table and a terminal may have it: bytes that aren't UTF-8 and characters that can't be printed stand as escapes."""
    text = os.fsencode(name).decode("utf-8", "backslashreplace")
    return "".join(it if it.isprintable() else ascii(it)[1:-1] for it in text)


def name_of(spec):
    return os.path.splitext(os.path.basename(spec))[0]


def seconds(word):
    """A time to wait, for the words of a command."""
    value = float(word)
    if not 0 < value < 1e9:
        raise ValueError
    return value


class Text:
    """A text with the command and the options of its search. `why` says why it can't be answered, or is empty."""

    def __init__(self, path, search):
        self.shown, self.name, self.content, self.why = shown(path), name_of(path), b"", ""
        try:
            if self.shown != path:
                raise ValueError("its name isn't in UTF-8, or has characters that can't be printed")
            with open(path, "rb") as file:
                self.content = file.read(MOST_BYTES)
        except OSError as why:
            self.why = f"can't be read: {why.strerror}"
        except ValueError as why:
            self.why = str(why)
        words = "".join(f"{it}\0" for it in search)
        self.checksum = hashlib.sha256(os.fsencode(words) + self.content).hexdigest()

    def tell(self, said, place):
        """Writes what a program said of this text on standard error, with its own name instead of the place at which the program found it."""
        lines = said[:MOST_BYTES_SAID].decode("utf-8", "replace").replace(place, self.shown).splitlines()
        print("".join("\t".join(map(shown, line.split("\t"))) + "\n" for line in lines), end="", file=sys.stderr, flush=True)
