"""Where scripts find a program."""
import os
import shutil
import sys

TOP = os.path.dirname(os.path.dirname(os.path.dirname(os.path.realpath(__file__))))


def place_of(name):
    """The program: that in the folder that BOUNDSYN_BIN names; else that of the checkout; outside of one that beside the script as it was called, or in the
    folder bin of what was installed, or on the PATH. None where there is none."""
    folder = os.environ.get("BOUNDSYN_BIN")
    if folder or os.path.exists(os.path.join(TOP, "tools/launch")):
        return shutil.which(os.path.join(folder or TOP, name))
    beside = [os.path.dirname(os.path.abspath(sys.argv[0])), os.path.join(TOP, "../../bin")]
    return next(filter(None, (shutil.which(os.path.join(it, name)) for it in beside)), None) or shutil.which(name)
