"""What a page of `boundsyn-show --html` says of the formulas of a text, and what its buttons do."""

import sys

PRESSED = "document.querySelector('#inputs button').getAttribute('aria-pressed')"


def same(what, found, wanted):
    if found != wanted:
        sys.exit(f"page-test: {what}: {found!r} in place of {wanted!r}")


def press_buttons(page, text):
    """With a button marked, the space bar presses it, and Enter takes a step all the same; then all is as it was."""
    count = page.text("#count")
    page.value("document.querySelector('#inputs button').focus()")
    pressed = [page.value(PRESSED)]
    page.press(" ")
    pressed.append(page.value(PRESSED))
    same(f"{text}: that the space bar presses a button", pressed[0] != pressed[1], True)
    page.press("Enter")
    same(f"{text}: that Enter takes a step on a button", int(page.text("#count")), int(count) + 1)
    same(f"{text}: that Enter presses no button", page.value(PRESSED), pressed[1])
    page.press("b")
    page.press("1")


def promises(page):
    """What is said of each formula of the text, by its line."""
    return dict(page.value("[...document.querySelectorAll('#formulas li')].map((it) => [it.firstChild.textContent, it.lastChild.textContent])"))


def lose(page):
    """Plays against the prophecy, which knows today what the controller says of tomorrow, and loses in the second step."""
    line = "guarantee (G (forecast <-> (X weather)))"
    same("prophecy: the guarantee at the start", promises(page), {line: "kept so far"})
    page.press("Enter")
    same("prophecy: the guarantee behind a step", promises(page), {line: "kept so far"})
    page.press("Enter")
    same("prophecy: the guarantee behind two steps", promises(page), {line: "broken at step 2"})
    same("prophecy: who lost", page.text("#lost"), "A guarantee is broken since step 2: the controller has lost.")
    page.press("0")


def delay(page):
    """The grant comes one step behind the request, as the formula says with X before it."""
    line = "guarantee (G ((X grant) <-> request))"
    same("later: the guarantee at the start", promises(page), {line: "kept so far"})
    page.press("1")
    page.press("Enter")
    page.press("Enter")
    same("later: the guarantee behind two steps", promises(page), {line: "kept so far"})
    page.press("0")


def owe(page):
    """A request without a grant is owed since its step, until the grant."""
    line = "guarantee (G (request_0 -> (F grant_0)))"
    page.press("1")
    page.press("Enter")
    same("arbiter_of_two: what is owed", promises(page)[line], "owed since step 1")
    page.press("1")
    page.press("Enter")
    same("arbiter_of_two: what was owed", promises(page)[line], "kept so far")
    page.press("0")
