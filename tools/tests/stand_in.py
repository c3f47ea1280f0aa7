"""A small checkout with a stand-in for `rt`, for the rows on tools/launch, tools/prebuilt and tools/install."""

import glob
import os
import shutil
import subprocess
import time

TOOLS = os.path.dirname(os.path.dirname(os.path.realpath(__file__)))
PROGRAMS = {"boundsyn": "boundsyn", "boundsyn-show": "boundsyn_show", "annotate": "annotate"}
# It builds a program that says what the crate `base` was then. While there is a file `hold` beside it, a build waits.
RT = r"""#!/bin/sh
here=$(dirname "$(readlink -f "$0")")
echo "$1" >>"$here/calls"
[ "$1" != version ] || echo "kit $(cat "$here/kit")"
[ "$1" = run ] || exit 0
said=$(cat ../base/src/lib.rt) name=$(basename "$PWD")
while [ -e "$here/hold" ]; do sleep 0.01; done
mkdir -p out
printf '#!/bin/sh\necho "built of %s:" "$@"\ngrep SigIgn /proc/self/status >&2\nexit 10\n' "$said" >"out/$name"
chmod +x "out/$name"
echo "rt: running out/$name" >&2
"""


def read(path):
    with open(path, encoding="utf-8") as file:
        return file.read()


def write(path, text, mode=0o644):
    os.makedirs(os.path.dirname(path), exist_ok=True)
    with open(path, "w", encoding="utf-8") as file:
        file.write(text)
    os.chmod(path, mode)


def words_of(path):
    """The words of a process, or none where it has ended."""
    try:
        return read(path).split("\0")
    except (OSError, UnicodeDecodeError):
        return []


class Checkout:
    """A checkout, with `rt` in a folder `kit` beside it and a folder `passing` for passing files."""

    def __init__(self, room, name="checkout"):
        self.top, self.kit, self.passing = (os.path.join(room, it) for it in (name, "kit", "passing"))
        os.makedirs(self.passing)
        os.makedirs(f"{self.top}/tools")
        for file in ("launch", "programs.bash", "sources.bash", "prebuilt", "install"):
            shutil.copy(os.path.join(TOOLS, file), f"{self.top}/tools/{file}")
        for it, crate in PROGRAMS.items():
            os.symlink("tools/launch", f"{self.top}/{it}")
            write(f"{self.top}/crates/{crate}/src/main.rt", "main")
        for name, text in (("base", "one"), ("other", "other")):
            write(f"{self.top}/crates/{name}/src/lib.rt", text)
        write(f"{self.top}/crates.txt", "base: \nother: \nboundsyn: base\nboundsyn_show: base\nannotate: base\n")
        write(f"{self.top}/HANDLES", "Handles allowed: none.\n")
        write(f"{self.kit}/kit", "1")
        write(f"{self.kit}/rt", RT, 0o755)

    def edit(self, text):
        write(f"{self.top}/crates/base/src/lib.rt", text)

    def start(self, *words, name="boundsyn", kit=True, cwd=None):
        variables = {"PATH": (self.kit + ":" if kit else "") + "/usr/bin:/bin", "HOME": self.passing, "TMPDIR": self.passing}
        return subprocess.Popen([name if "/" in name else f"{self.top}/{name}", *words], cwd=cwd, env=variables, text=True,
                                stdin=subprocess.DEVNULL, stdout=subprocess.PIPE, stderr=subprocess.PIPE)

    def run(self, *words, **how):
        """The status, standard output and standard error of a launch."""
        started = self.start(*words, **how)
        printed = started.communicate(timeout=60)
        return (started.returncode, *printed)

    def calls(self, word="run"):
        """How often `rt` was called with this word."""
        return read(f"{self.kit}/calls").split().count(word) if os.path.exists(f"{self.kit}/calls") else 0

    def is_rt_running(self):
        """Whether some process still has the stand-in among its words half a minute later."""
        end = time.monotonic() + 30
        while found := any(f"{self.kit}/rt" in words_of(path) for path in glob.glob("/proc/[0-9]*/cmdline")):
            if time.monotonic() > end:
                break
        return found

    def held(self):
        """A launch whose build has begun, and waits until `let_go`."""
        write(f"{self.kit}/hold", "")
        before, started = self.calls(), self.start("x")
        while self.calls() == before and started.poll() is None:
            time.sleep(0.01)
        return started

    def let_go(self, *started):
        os.remove(f"{self.kit}/hold")
        return [(it.communicate(timeout=60)[0], it.returncode) for it in started]

    def keep(self):
        """Builds and keeps all three programs, and takes away what was built."""
        for it in PROGRAMS:
            self.run(name=it)
        assert self.run("keep", name=f"{self.top}/tools/prebuilt")[0] == 0
        for it in ("out", *(f"crates/{crate}/out" for crate in PROGRAMS.values())):
            shutil.rmtree(f"{self.top}/{it}")
