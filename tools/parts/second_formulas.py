"""The formulas of tools/second_checker: flat sections, normal forms, conversion between kinds, covers and automata. Each part names the section of
docs/FORMATS.md from which it was written."""
import functools
import re

MOST_NODES, MOST_STATES, MOST_EDGES, MOST_LEAVES = 1024, 2000, 200_000, 100_000
PARTS = {"true": 0, "false": 0, **dict.fromkeys(("signal", "!", "X", "F", "G"), 1), **dict.fromkeys(("&&", "||", "->", "<->", "U", "R", "W"), 2)}

class TextFault(Exception):
    """The text isn't taken: the line that tells it."""

class WrongAnswer(Exception):
    """What boundsyn says of a text is missing, or contradicts itself."""

# ---- "Signals and flat sections", "What `expand` writes", "What `expand --solve` writes" ----

class Formulas(list):
    """The list of formulas: different nodes (sign, part ..), each behind its parts; a signal is ("signal", number)."""
    __hash__ = object.__hash__

    def __init__(self, most=MOST_NODES):
        super().__init__()
        self.ids, self.most, self.is_whole = {}, most, False

    @classmethod
    def given(cls, rows, signals):
        """The list of such lines, which lacks no node that one asks for."""
        made = cls(len(rows))
        for at, (mark, place, sign, *parts) in enumerate(row.split(" ") for row in rows):
            node = (sign, signals[parts[0]]) if sign == "signal" else (sign, *map(int, parts))
            is_next = mark == "node" and int(place) == at and len(parts) == PARTS[sign] and node not in made.ids
            if not is_next or (sign != "signal" and any(part >= at for part in node[1:])):
                raise WrongAnswer(f"the line `{mark} {place} {sign}` isn't that of a new node of id {at} over nodes before it")
            made.add(*node)
        made.is_whole = True
        return made

    def add(self, *node):
        """The id of a node, which is made where none stands."""
        if node not in self.ids:
            if self.is_whole:
                raise WrongAnswer(f"the list of formulas lacks the node {node}")
            if len(self) == self.most:
                raise TextFault("refused 14 TooManyNodes at 0")
            self.ids[node] = len(self)
            self.append(node)
        return self.ids[node]

    def read(self, tokens, signals):
        """The formula at the end of the tokens, which stand backwards: nodes from left to right, parts before wholes."""
        token = tokens.pop()
        if token == "!":
            return self.add("!", self.read(tokens, signals))
        if token != "(":
            return self.add(token) if token in ("true", "false") else self.add("signal", signals[token])
        if tokens[-1] in ("X", "F", "G"):
            made = self.add(tokens.pop(), self.read(tokens, signals))
        else:
            made = self.read_joined(tokens, signals)
        tokens.pop()
        return made

    def read_joined(self, tokens, signals):
        """An operator over two formulas. A truth on the left becomes a node behind those of what stands on the right."""
        truth = tokens.pop() if tokens[-1] in ("true", "false") else None
        left, sign = None if truth else self.read(tokens, signals), tokens.pop()
        right = self.read(tokens, signals)
        return self.add(sign, self.add(truth) if truth else left, right)

    def parts_of(self, formula):
        sign, *parts = self[formula]
        return [] if sign == "signal" else parts

    def occurring(self, formula):
        """The ids of a formula and of its parts, and theirs."""
        seen = {formula: None}
        for at in (work := [formula]):
            fresh = [part for part in self.parts_of(at) if part not in seen]
            seen.update(dict.fromkeys(fresh))
            work += fresh
        return seen.keys()

    @functools.lru_cache(None)
    def implied_by(self, formula):
        """The set of what a formula implies at once ("Reduced covers")."""
        sign, *parts = self[formula]
        implied = parts if sign == "&&" else parts[1:] if sign == "R" else []
        return functools.reduce(lambda found, part: found | 1 << part | self.implied_by(part), implied, 0)

    def untils(self, formula):
        return sorted(at for at in self.occurring(formula) if self[at][0] == "U")

def whole_of(node, sections, is_strict):
    """The formula of the whole, its nodes in the order that the table of semantics has."""
    def part(name):
        return functools.reduce(lambda x, y: node("&&", x, y), sections.get(name) or [node("true")])
    initially, preset = part("initially"), part("preset")
    if is_strict:
        asserted, required = part("assert"), part("require")
        preset = node("&&", preset, node("W", asserted, node("!", required)))
        assumed = node("&&", node("G", required), part("assume"))
        wanted = part("guarantee")
    else:
        assumed = node("&&", node("G", part("require")), part("assume"))
        wanted = node("&&", node("G", part("assert")), part("guarantee"))
    return node("->", initially, node("&&", preset, node("->", assumed, wanted)))

class Flat:
    """What `expand` writes: names, the kind, and the formula of the whole. With `--solve --nodes` it is found in the list of formulas that stands there, and else
    in one that is made, of at most so many."""
    def __init__(self, text, most=MOST_NODES):
        kind, inputs, outputs, *lines = text.splitlines()
        self.inputs, self.outputs, self.kind = inputs.split(" ")[1:], outputs.split(" ")[1:], kind.split(" ")[1]
        signals = {name: at for at, name in enumerate(self.inputs + self.outputs)}
        rows = [line for line in lines if line.startswith("node ")]
        self.formulas = Formulas.given(rows, signals) if rows else Formulas(most)
        self.lines, sections = lines[:len(lines) - len(rows)], {}
        for section, formula in (line.split(" ", 1) for line in self.lines):
            sections.setdefault(section, []).append(self.formulas.read(tokens_of(formula)[::-1], signals))
        self.whole = whole_of(self.formulas.add, sections, kind.endswith(" strict"))

def tokens_of(formula):
    return re.findall(r"[()!]|[^ ()!]+", formula)

# ---- "Kinds that differ" ----

def is_conversion(plain, shifted, names):
    """Whether the sections of the one text are those of the other with X before each signal of these names."""
    def with_next(line):
        section, formula = line.split(" ", 1)
        return [section, *(it for token in tokens_of(formula) for it in (("(", "X", token, ")") if token in names else (token,)))]
    return [[line.split(" ", 1)[0], *tokens_of(line.split(" ", 1)[1])] for line in shifted.lines] == [with_next(line) for line in plain.lines]

# ---- "Normal forms" ----

FACING = {"&&": "||", "||": "&&", "U": "R", "R": "U"}

def join(formulas, sign, x, y):
    """The node of an operator over nodes that stand, simplified."""
    first, second = ({"true": True, "false": False}.get(formulas[part][0]) for part in (x, y))
    if sign in ("U", "R"):
        return formulas.add(sign, x, y) if second is None else y
    if first is not None:
        return y if first == (sign == "&&") else x
    if second is not None:
        return x if second == (sign == "&&") else y
    return x if x == y else formulas.add(sign, x, y)

def form(formulas, formula, keep, made):
    """The normal (keep) or negated form of a formula; those that were made are kept."""
    if (formula, keep) not in made:
        made[formula, keep] = form_of_node(formulas, *formulas[formula], keep=keep, made=made)
    return made[formula, keep]

def form_of_node(formulas, sign, a=None, b=None, keep=True, made=None):
    same, other = (lambda part: form(formulas, part, keep, made)), (lambda part: form(formulas, part, not keep, made))
    faced = (lambda joint, x, y: join(formulas, joint if keep else FACING[joint], x, y))
    if sign in ("true", "false"):
        return formulas.add("true" if (sign == "true") == keep else "false")
    if sign == "signal":
        signal = formulas.add("signal", a)
        return signal if keep else formulas.add("!", signal)
    if sign == "!":
        return other(a)
    if sign == "X":
        part = same(a)
        return part if formulas[part][0] in ("true", "false") else formulas.add("X", part)
    if sign in ("F", "G"):
        return faced("U" if sign == "F" else "R", formulas.add("true" if keep == (sign == "F") else "false"), same(a))
    if sign == "->":
        return faced("||", other(a), same(b))
    if sign == "<->":
        first = join(formulas, "&&", form(formulas, a, True, made), same(b))
        return join(formulas, "||", first, join(formulas, "&&", form(formulas, a, False, made), other(b)))
    if sign == "W":
        return faced("R", same(b), faced("||", same(a), same(b)))
    return faced(sign, same(a), same(b))

def both_forms(formulas, whole):
    """The negated form of the whole, which is added first, and the normal one."""
    return [form(formulas, whole, keep, {}) for keep in (False, True)]

# ---- "Covers", "The automaton of a formula in normal form"; a set of obligations is a number with a bit for each id ----

def covers_of(nodes, obligations):
    """(must, not, left, put off) of each cover, in order; None where there are too many leaves."""
    covers, leaves, work = {}, 0, None
    for formula in range(obligations.bit_length() - 1, -1, -1):
        work = (formula, work) if obligations >> formula & 1 else work
    branches = [(work, 0, 0, 0, 0, 0)]
    while branches:
        work, done, must, forbidden, left, late = branches.pop()
        while work is not None:
            formula, work = work
            me, (sign, *parts) = 1 << formula, nodes[formula]
            if done & me:
                continue
            done |= me
            if sign == "signal":
                must |= 1 << parts[0]
            elif sign == "!":
                forbidden |= 1 << nodes[parts[0]][1]
            elif sign == "&&":
                work = (parts[0], (parts[1], work))
            elif sign == "X":
                left |= 1 << parts[0]
            elif sign == "||":
                branches.append(((parts[1], work), done, must, forbidden, left, late))
                work = (parts[0], work)
            elif sign == "U":
                branches.append(((parts[0], work), done, must, forbidden, left | me, late | me))
                work = (parts[1], work)
            elif sign == "R":
                branches.append(((parts[1], work), done, must, forbidden, left | me, late))
                work = (parts[0], (parts[1], work))
            if must & forbidden or sign == "false":
                break
        else:
            covers.setdefault((must, forbidden, left, late))
        leaves += 1
        if leaves > MOST_LEAVES:
            return None
    return list(covers)

def reduced_covers_of(nodes, obligations):
    """The minimal ones of the covers that are cut, in order; None where there are too many leaves."""
    covers = covers_of(nodes, obligations)
    if covers is None:
        return None
    least = {}
    for must, forbidden, left, late in covers:
        goes = functools.reduce(lambda found, at: found | nodes.implied_by(at), (at for at in range(left.bit_length()) if left >> at & 1), 0)
        cover = must, forbidden, left & ~goes, late
        asked = cover[0] | cover[1] << 64 | cover[2] << 128 | cover[3] << 128 + len(nodes)
        if not any(other & asked == other for other in least):
            for other in [other for other in least if other & asked == asked]:
                del least[other]
            least[asked] = cover
    return list(least.values())

def next_counter(counter, untils, late):
    """The counter behind a cover that puts these untils off."""
    after = 0 if counter == len(untils) else counter
    while after < len(untils) and not late >> untils[after] & 1:
        after += 1
    return after

def automaton_of(nodes, formula, covers=covers_of, most_states=MOST_STATES, most_edges=MOST_EDGES):
    """Edges (source, must, not, target) and whether each state is rejecting, or None where a limit is passed."""
    untils = nodes.untils(formula)
    order, edges = [(1 << formula, 0)], {}
    states = {order[0]: 0}
    for number, (obligations, counter) in enumerate(order):
        found = covers(nodes, obligations)
        if found is None:
            return None
        for must, forbidden, left, late in found:
            state = left, next_counter(counter, untils, late)
            if state not in states:
                states[state] = len(order)
                order.append(state)
            edges.setdefault((number, must, forbidden, states[state]))
            if len(order) > most_states or len(edges) > most_edges:
                return None
    return list(edges), [counter == len(untils) for _, counter in order]

def components_of(edges, states):
    """A number for each state, the same for those that reach each other along edges."""
    ahead, behind = ([[] for _ in range(states)] for _ in range(2))
    for source, _, _, target in edges:
        ahead[source].append(target)
        behind[target].append(source)
    left, seen, own = [], set(), [None] * states
    for first in range(states):
        work = [(first, iter(ahead[first]))] if first not in seen else []
        seen.add(first)
        while work:
            fresh = next((after for after in work[-1][1] if after not in seen), None)
            if fresh is None:
                left.append(work.pop()[0])
            else:
                seen.add(fresh)
                work.append((fresh, iter(ahead[fresh])))
    for first in reversed(left):
        work = [first] if own[first] is None else []
        own[first] = first if work else own[first]
        for at in work:
            fresh = [before for before in dict.fromkeys(behind[at]) if own[before] is None]
            work += fresh
            for before in fresh:
                own[before] = first
    return own
