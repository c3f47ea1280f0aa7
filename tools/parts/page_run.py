"""Ten steps on a page that `boundsyn-show --html` writes, compared with what `boundsyn-show --wave` says of the same letters."""

import os
import random
import re
import subprocess
import sys

from browser import Page
from page_drawings import OVERLAPS, members
from page_promises import delay, lose, owe, press_buttons, promises, same

STEPS = 10


def printed(program, *words):
    done = subprocess.run([program, *words], stdin=subprocess.DEVNULL, stdout=subprocess.PIPE)
    if done.returncode not in (0, 10, 20):
        sys.exit(f"page-test: {' '.join([program, *words])} ends with status {done.returncode}")
    return done.stdout.decode()


def write(folder, name, text):
    path = os.path.join(folder, name)
    with open(path, "w", encoding="utf-8") as file:
        file.write(text)
    return path


def letters_and_wave(show, document, names, room, text):
    """Ten letters by chance, and the rows of the waveform on them by their names."""
    numbers = random.Random(text)
    letters = [[name for name in names if numbers.random() < 0.5] for _ in range(STEPS)]
    word = write(room, "word", "stem\n" + "".join(f"{' '.join(it) or '-'}\n" for it in letters) + "ring\n-\n")
    rows = [line.split(None, 1) for line in printed(show, document, "--wave", word).splitlines()]
    return letters, {name: levels.split("|")[0] for name, levels in rows}


def take_steps(page, text, names, letters, wave):
    """By the keyboard: the number of an input changes it, and Enter takes a step."""
    before = []
    for at, letter in enumerate(letters):
        for number, name in enumerate(names):
            if (name in letter) != (name in before):
                page.press(str(number + 1))
        before = letter
        same(f"{text}: state before step {at}", page.text("#state"), wave["(state)"][at])
        written = " ".join(name for name in wave if name not in names and wave[name][at] == "#") or "-"
        same(f"{text}: outputs at step {at}", page.text("#written"), written)
        page.press("Enter")


def test(boundsyn, show, text, spec, words, room, pictures):
    document = write(room, "document", printed(boundsyn, *words, spec))
    html = printed(show, document, "--html", "--spec", spec)
    same(f"{text}: that the page has less than 100,000 bytes", len(html.encode()) < 100_000, True)
    names = [line.split(" ", 1)[1] for line in printed(show, document, "--circuit").splitlines() if line[:1] == "i"]
    letters, wave = letters_and_wave(show, document, names, room, text)
    page = Page(write(room, f"{text}.html", html))
    try:
        title = re.search(r'TITLE: +"([^"]*)"', open(spec, encoding="ascii").read()).group(1)
        same(f"{text}: the title", (page.text("#title"), page.value("document.title")), (title, title))
        {"prophecy": lose, "arbiter_of_two": owe, "later": delay, "one_of_four": members}.get(text, promises)(page)
        same(f"{text}: texts of the drawing that lie upon one another", page.value(OVERLAPS), 0)
        take_steps(page, text, names, letters, wave)
        same(f"{text}: the run", dict(line.split(None, 1) for line in page.text("#wave").splitlines()), wave)
        same(f"{text}: that the last step is said in words", page.text("#said").startswith(f"Step {STEPS}: in state {wave['(state)'][-1]}, "), True)
        press_buttons(page, text)
        same(f"{text}: the run behind a step back", dict(line.split(None, 1) for line in page.text("#wave").splitlines()), wave)
        page.call("Emulation.setDeviceMetricsOverride", width=360, height=740, deviceScaleFactor=2, mobile=True)
        same(f"{text}: the width on a telephone", page.value("document.documentElement.scrollWidth"), 360)
        if pictures:
            page.picture(os.path.join(pictures, f"{text}.png"))
        for _ in range(STEPS):
            page.press("b")
        same(f"{text}: the state when all is taken back", (page.text("#state"), page.text("#count")), ("0", "0"))
        same(f"{text}: faults of the page", page.wrong, [])
        same(f"{text}: addresses that are asked for", len(page.asked), 1)
    finally:
        page.close()
