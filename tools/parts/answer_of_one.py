"""What tools/synth-all runs for each text, on whatever machine: SECONDS PROGRAM COMMAND SPEC [its options]. It prints one line with the status, the
seconds, the peak memory in kilobytes, and what the program printed and said, each in base 64. The status is 124 where SECONDS, unless they are 0,
weren't enough."""

import base64
import contextlib
import ctypes
import os
import signal
import subprocess
import sys
import tempfile
import time

MOST_BYTES_SAID = 65536
# prctl(2): children of children become this process's own where their parent ends.
SET_CHILD_SUBREAPER = 36
# Starts the words in the background, with what they print in two files, once somebody opens the fifo, and prints their process's number.
BEHIND_A_SHELL = 'printed=$1 said=$2 go=$3; shift 3; { read -r word <"$go"; exec "$@" </dev/null; } >"$printed" 2>"$said" & echo $!'


def too_late(*_):
    raise TimeoutError


def started(words, printed, said, go):
    """The number of a process that runs the words. The system says of none that it took less memory than the one that forked it, so on Linux a shell
    does that, which is small and ends before the words begin."""
    with contextlib.suppress(OSError, AttributeError):
        if ctypes.CDLL(None).prctl(SET_CHILD_SUBREAPER, 1, 0, 0, 0) == 0:
            os.mkfifo(go)
            shell = subprocess.run(["/bin/sh", "-c", BEHIND_A_SHELL, "sh", printed, said, go, *words], stdout=subprocess.PIPE, check=True)
            with open(go, "w", encoding="ascii"):
                return int(shell.stdout)
    with open(printed, "wb") as out, open(said, "wb") as err:
        return subprocess.Popen(words, stdin=subprocess.DEVNULL, stdout=out, stderr=err).pid


signal.signal(signal.SIGALRM, too_late)
is_late = False
with tempfile.TemporaryDirectory() as room:
    files = [os.path.join(room, name) for name in ("printed", "said", "go")]
    begun = time.monotonic()
    number = started(sys.argv[2:], *files)
    try:
        signal.setitimer(signal.ITIMER_REAL, float(sys.argv[1]))
        _, ended, used = os.wait4(number, 0)
        signal.setitimer(signal.ITIMER_REAL, 0)
    except TimeoutError:
        os.kill(number, signal.SIGKILL)
        _, ended, used = os.wait4(number, 0)
        is_late = True
    seconds, texts = time.monotonic() - begun, []
    for name, most in zip(files, (0 if is_late else -1, MOST_BYTES_SAID)):
        with open(name, "rb") as file:
            texts.append(base64.b64encode(file.read(most)).decode() or "-")
print(124 if is_late else os.waitstatus_to_exitcode(ended), f"{seconds:.2f}", used.ru_maxrss, *texts)
