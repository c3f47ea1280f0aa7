"""The jobs of tools/synth-all: what they need in one folder, and GNU parallel over it."""

import base64
import os
import shutil
import subprocess
import sys
import tempfile
from concurrent.futures import ThreadPoolExecutor

from answer_tests import Tests

ANSWER = os.path.join(os.path.dirname(os.path.realpath(__file__)), "answer_of_one.py")


def answer(texts, answers, programs, own, options):
    """Has the texts answered, and tests and keeps what comes back."""
    with tempfile.TemporaryDirectory(prefix=".synth-all-", dir=own.out) as room, ThreadPoolExecutor(os.cpu_count()) as pool:
        stage(room, texts, programs["boundsyn"])
        tests, tested = Tests(programs, own.command, options, room), []
        for number, (*frame, said) in frames(room, len(texts), own, options):
            texts[number].tell(said, f"{os.path.basename(room)}/{number}.tlsf")
            tested.append(pool.submit(answers.add, tests, number, texts[number], *frame))
        for it in tested:
            it.result()


def stage(room, texts, program):
    """Puts the program, the script that runs it, and the texts into a folder, by names that need no quotes."""
    shutil.copy(program, os.path.join(room, "boundsyn"))
    shutil.copyfile(ANSWER, os.path.join(room, "answer.py"))
    for number, text in enumerate(texts):
        with open(os.path.join(room, f"{number}.tlsf"), "wb") as file:
            file.write(text.content)


def words_of(folder, own, options):
    """The words of `parallel` for these jobs."""
    words = ["parallel", "--will-cite", "--retries", "3", "--quote", "--tagstring", "{#}", "--jobs", own.jobs]
    if own.sshloginfile:
        words += ["--sshloginfile", os.path.abspath(own.sshloginfile), "--transferfile", f"{folder}/{{}}", "--cleanup"]
        words += ["--basefile", f"{folder}/boundsyn", "--basefile", f"{folder}/answer.py"]
    if sys.stderr.isatty():
        words.append("--bar")
    return [*words, "python3", f"{folder}/answer.py", str(own.timeout), f"{folder}/boundsyn", own.command, f"{folder}/{{}}", *options]


def frames(room, count, own, options):
    """For each text that comes back its number, and its status, seconds, kilobytes, what was printed and what was said, as soon as it comes."""
    above, folder = os.path.split(room)
    started = subprocess.Popen(words_of(folder, own, options), cwd=above, stdin=subprocess.PIPE, stdout=subprocess.PIPE)
    try:
        started.stdin.write("".join(f"{number}.tlsf\n" for number in range(count)).encode())
        started.stdin.close()
        seen = set()
        for line in started.stdout:
            frame = frame_of(line)
            if frame and frame[0] in range(count) and frame[0] not in seen:
                seen.add(frame[0])
                yield frame
        started.wait()
    finally:
        started.terminate()
        started.wait()


def frame_of(line):
    """The frame of a line, or None where it is none: nothing is trusted of what another machine prints."""
    try:
        number, status, seconds, kilobytes, *texts = line.split()
        printed, said = map(base64.b64decode, texts)
        return int(number) - 1, (int(status), float(seconds), int(kilobytes), printed, said)
    except ValueError:
        return None
