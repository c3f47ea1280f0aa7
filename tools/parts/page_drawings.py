"""What a page of `boundsyn-show --html` draws, and what it says of families of formulas and of a machine of one state."""

from browser import Page
from page_promises import promises, same

# Each client asks alone, which is assumed, and whoever asks is granted at once.
ONE_OF_FOUR = """INFO { TITLE: "One of four" DESCRIPTION: "" SEMANTICS: Mealy TARGET: Mealy }
GLOBAL { PARAMETERS { n = 4; } }
MAIN {
  INPUTS { r[n]; } OUTPUTS { g[n]; }
  REQUIRE { &&[0 <= i < n] &&[0 <= j < i] !(r[i] && r[j]); }
  GUARANTEE { G (&&[0 <= i < n] (r[i] <-> g[i])); }
}
"""
# Eight states, each of which leads to four.
CROWDED = """aag 14 2 3 2 9
2
4
6 17
8 23
10 29
6
10
12 2 6
14 3 7
16 13 15
18 4 8
20 5 9
22 19 21
24 6 10
26 7 11
28 25 27
i0 request
i1 reset
o0 grant
o1 busy
"""
# How many pairs of texts of a drawing lie upon one another, by the boxes that the browser gives them.
OVERLAPS = """(() => {
  const boxes = [...document.querySelectorAll('#graph text')].map((it) => it.getBBox());
  const lie = (a, b) => Math.min(a.x + a.width, b.x + b.width) - Math.max(a.x, b.x) > 3 && Math.min(a.y + a.height, b.y + b.height) - Math.max(a.y, b.y) > 3;
  return boxes.flatMap((a, i) => boxes.slice(i + 1).filter((b) => lie(a, b))).length;
})()"""


def members(page):
    """A family is a line for each member, random steps keep what is assumed, and of a machine of one state no smaller size is spoken of."""
    wanted = {f"require !(r[{i}] && r[{j}])": "kept so far" for i in range(4) for j in range(i)}
    wanted |= {f"guarantee (G (r[{i}] <-> g[{i}]))": "kept so far" for i in range(4)}
    same("one of four: the lines", promises(page), wanted)
    for _ in range(5):
        page.press("r")
    same("one of four: what random steps break", (page.text("#lost"), page.text("#count")), ("", "50"))
    same("one of four: what random steps keep", promises(page), wanted)
    same("one of four: that random steps ask", "#" in page.text("#wave"), True)
    page.press("0")
    page.press("1")
    page.press("2")
    page.press("Enter")
    same("one of four: two requests at once", page.text("#lost"), "The environment broke an assumption at step 1.")
    page.press("2")
    page.press("0")
    same("one of four: what is known of smaller sizes", page.value("document.querySelector('#knowledge').hidden"), True)


def next_state(state, letter):
    """What the latches of the crowded circuit become: each of two changes where its input is false, and the third where the first is false."""
    flips = (not letter[0], not letter[1], not state[0])
    return tuple(bit != flip for bit, flip in zip(state, flips))


def crowded(path, picture):
    """Numbers stand on the arrows of a machine whose labels would overlap, and beside it a list says what they stand for."""
    page = Page(path)
    try:
        letters = [(a, b) for b in (False, True) for a in (False, True)]
        states = [(False, False, False)]
        for state in states:
            states += [it for it in dict.fromkeys(next_state(state, letter) for letter in letters) if it not in states]
        arrows = {(at, states.index(next_state(state, letter))) for at, state in enumerate(states) for letter in letters}
        lines = page.value("[...document.querySelectorAll('#arrows li')].map((it) => it.textContent)")
        same("crowded: the arrows in the list", [line.split(" ", 4)[:4] for line in lines],
             [[f"{number}:", str(a), "to", str(b)] for number, (a, b) in enumerate(sorted(arrows), 1)])
        same("crowded: the first of them", lines[0].split(" ", 4)[4], "!request & !reset")
        drawn = page.value("[...document.querySelectorAll('#graph text.halo')].map((it) => it.textContent)")
        same("crowded: the numbers on arrows", sorted(int(it) for it in drawn if it.isdigit()), list(range(1, len(arrows) + 1)))
        same("crowded: texts of the drawing that lie upon one another", page.value(OVERLAPS), 0)
        page.press("Enter")
        same("crowded: the arrows that are marked", page.value("document.querySelectorAll('#arrows li.taken').length"), 1)
        same("crowded: faults of the page", page.wrong, [])
        if picture:
            page.picture(picture)
    finally:
        page.close()
