"""Rows on tools/prebuilt and tools/install in a small checkout, and on what this checkout keeps with them."""

import glob
import os
import re
import subprocess

from stand_in import PROGRAMS, TOOLS, read, write

TOP = os.path.dirname(TOOLS)


def prebuilt(it, *words):
    """A call of tools/prebuilt."""
    return it.run(*words, name=f"{it.top}/tools/prebuilt")


def what_is_kept_is_compared(it):
    it.keep()
    for crate in PROGRAMS.values():
        write(f"{it.top}/crates/{crate}/out/{crate}", read(f"{it.top}/prebuilt/boundsyn"), 0o755)
    assert prebuilt(it, "compare")[0] == 0
    write(f"{it.top}/crates/annotate/out/annotate", "another")
    status, _, err = prebuilt(it, "compare")
    assert status == 1 and "annotate that is kept isn't what its sources give" in err
    it.edit("two")
    assert prebuilt(it, "compare")[0] == 0
    write(f"{it.top}/prebuilt/boundsyn", "damaged", 0o755)
    assert prebuilt(it, "compare")[0] == 1


def one_program_alone_is_made(it):
    it.keep()
    it.edit("two")
    assert prebuilt(it, "make", "annotate")[0] == 0
    assert it.run("x", name="annotate", kit=False)[:2] == (10, "built of two: x\n")
    assert it.run(kit=False)[0] == 70
    assert len(read(f"{it.top}/prebuilt/built-from").splitlines()) == 3
    assert prebuilt(it, "make", "nothing")[0] == prebuilt(it)[0] == 2


def files_below(prefix):
    """The files below a folder."""
    return sorted(os.path.relpath(path, prefix) for path in glob.glob(f"{prefix}/**", recursive=True) if os.path.isfile(path))


def install_and_uninstall(it):
    prefix = f"{it.kit}/a prefix"

    def install(*words):
        return it.run("--prefix", prefix, *words, name=f"{it.top}/tools/install", kit=False)

    assert install()[0] == 1 and files_below(prefix) == []
    it.keep()
    for name in ("docs/boundsyn.1", "docs/annotate.1", "docs/FORMATS.md", "tools/completion.bash", "tools/syntcomp", "tools/parts/texts.py"):
        write(f"{it.top}/{name}", f"what {name} has")
    write(f"{prefix}/bin/annotate", "another program of that name")
    assert install()[0] == 1 and files_below(prefix) == ["bin/annotate"]
    os.remove(f"{prefix}/bin/annotate")
    write(f"{prefix}/bin/others", "left alone")
    assert install()[0] == install()[0] == 0
    completions = [f"share/bash-completion/completions/{name}" for name in ("annotate", "boundsyn", "boundsyn-show")]
    scripts = ["share/boundsyn/installed", "share/boundsyn/tools/parts/texts.py", "share/boundsyn/tools/syntcomp", "share/doc/boundsyn/FORMATS.md"]
    assert files_below(prefix) == ["bin/annotate", "bin/boundsyn", "bin/boundsyn-show", "bin/others", "bin/syntcomp", *completions, *scripts,
                                   "share/man/man1/annotate.1", "share/man/man1/boundsyn.1"]
    assert it.run("x", name=f"{prefix}/bin/annotate", kit=False)[:2] == (10, "built of one: x\n")
    assert read(f"{prefix}/bin/syntcomp") == "what tools/syntcomp has" and os.path.islink(f"{prefix}/bin/syntcomp")
    write(f"{prefix}/share/man/man1/boundsyn.1", "changed since")
    assert install("--uninstall")[0] == 0
    assert files_below(prefix) == ["bin/others", "share/man/man1/boundsyn.1"]


def the_version_is_told_once(_it):
    version = read(f"{TOP}/VERSION").strip()
    assert re.search(rf"^## {re.escape(version)}\b", read(f"{TOP}/CHANGELOG.md"), re.M)
    texts = [read(path) for path in glob.glob(f"{TOP}/crates/*/src/**/*.rt", recursive=True)]
    constants = [it for text in texts if "VERSION" in text for it in re.findall(r'const VERSION: &(?:\'static )?str = "(?:boundsyn-show |annotate )?([0-9.]*)(?:\\n)?";', text)]
    assert set(constants) == {version} and len(constants) == 3, constants


def the_readme_names_the_glibc_that_is_needed(_it):
    kept = [path for path in glob.glob(f"{TOP}/prebuilt/*") if os.access(path, os.X_OK)]
    symbols = subprocess.run(["readelf", "-V", *kept], stdout=subprocess.PIPE, check=True, text=True).stdout
    needed = max(re.findall(r"GLIBC_([0-9.]+)", symbols), key=lambda it: [int(part) for part in it.split(".")])
    print(f"launch-tests: the programs need glibc {needed}")
    assert f"glibc {needed}" in read(f"{TOP}/README.md")
