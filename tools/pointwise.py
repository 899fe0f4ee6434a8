#!/usr/bin/env python3
"""Works out from the definitions what crates/sp_pointwise must print, by loops over points. It shares nothing with the program.

pointwise.py crates/sp_pointwise: reads data/*.txt and writes stdout.
pointwise.py --draw crates/sp_pointwise: first draws data/drawn.txt anew from its seeds.

A line `#= ANSWER` behind a line that asks for something is its answer by hand: nothing is written where the two disagree.
"""
import itertools, random, sys
from pathlib import Path

Q = 10**9   # ticks of 1

class Scope:
    def __init__(self, variables, sizes):
        self.variables, self.sizes = variables, sizes
        self.slots = range(len(sizes))

    def points(self, slots):
        """The points where all other slots have their first values, in slot order."""
        for values in itertools.product(*(range(self.sizes[s]) for s in slots)):
            point = [0] * len(self.sizes)
            for s, v in zip(slots, values): point[s] = v
            yield point

    def states(self): return self.points([2 * i for i in range(self.variables)])

    def exchanged(self, point):
        for i in range(self.variables): point = point[:2 * i] + [point[2 * i + 1], point[2 * i]] + point[2 * i + 2:]
        return point

def moved(point, slot, value): return point[:slot] + [value] + point[slot + 1:]

class Function:
    """A value for each point of some slots, of which alone the function may depend."""
    def __init__(self, scope, slots, rule):
        self.scope, self.slots = scope, sorted(slots)
        self.steps, step = [], 1
        for s in reversed(self.slots):
            self.steps.append((s, step))
            step *= scope.sizes[s]
        self.values = [rule(point) for point in scope.points(self.slots)]

    def __call__(self, point): return self.values[sum(point[s] * step for s, step in self.steps)]

    def all(self): return [self(point) for point in self.scope.points(self.scope.slots)]

    def depends(self, slot): return any(self(moved(p, slot, 0)) != self(p) for p in self.scope.points(self.slots))

    def nodes(self):
        """How many functions that depend on a slot it is where the slots before that one have values: each once."""
        found, parts = {}, [("leaf", value) for value in self.values]
        for s in reversed(self.slots):
            size = self.scope.sizes[s]
            rows = [tuple(parts[k:k + size]) for k in range(0, len(parts), size)]
            parts = [row[0] if len(set(row)) == 1 else found.setdefault((s, row), ("node", len(found))) for row in rows]
        return len(found)

def made(scope, functions, kind, x):
    def of(slots, rule): return Function(scope, slots, rule)
    def point_list(slots, values):
        numbers = {tuple(point): k for k, point in enumerate(scope.points(slots))}
        assert len(numbers) == len(values)
        return of(slots, lambda p: values[numbers[tuple(p)]])
    if kind == "constant": return of([], lambda p: x[0])
    if kind == "row": return of([x[0]], lambda p: x[1 + p[x[0]]])
    if kind == "function": return point_list(x[1:1 + x[0]], x[1 + x[0]:])
    if kind == "branch":
        parts = functions[x[1]:x[1] + scope.sizes[x[0]]]
        return of({x[0]}.union(*(part.slots for part in parts)), lambda p: parts[p[x[0]]](p))
    f = functions[x[0]]
    if kind == "copy": return f
    if kind == "times": return of(f.slots, lambda p: x[1] * f(p))
    if kind == "max_with": return of(f.slots, lambda p: max(x[1], f(p)))
    if kind == "restrict": return of(f.slots, lambda p: f(moved(p, x[1], x[2])))
    if kind == "sum_out": return of(f.slots, lambda p: sum(f(moved(p, x[1], v)) for v in range(scope.sizes[x[1]])))
    if kind == "diagonal": return of({x[1] - 1}.union(f.slots), lambda p: f(moved(p, x[1], p[x[1] - 1])))
    if kind in ("prime", "unprime"): return of([s ^ 1 for s in f.slots if f.depends(s)], lambda p: f(scope.exchanged(p)))
    g = functions[x[1]]
    both = set(f.slots) | set(g.slots)
    if kind == "add": return of(both, lambda p: f(p) + g(p))
    if kind in ("mul_floor", "mul_whole"): return of(both, lambda p: f(p) * g(p) // Q)
    if kind == "weigh_out":
        slot = x[2]
        def weights(p): return [g(moved(p, slot, v)) for v in range(scope.sizes[slot])]
        assert all(min(weights(p)) >= 0 and sum(weights(p)) == Q for p in scope.points(both))
        return of(both, lambda p: sum(w * f(moved(p, slot, v)) for v, w in enumerate(weights(p))) // Q)
    raise ValueError(kind)

def first(points, test):
    return next((" ".join(map(str, p)) for p in points if test(p)), "none")

def answer(scope, functions, kind, x):
    f = functions[x[0]]
    points = lambda: scope.points(scope.slots)
    if kind == "values": return " ".join(map(str, f.all()))
    if kind == "at": return str(f(x[1:]))
    if kind == "depends": return " ".join(str(s) for s in scope.slots if f.depends(s))
    if kind == "least": return str(min(f.all()))
    if kind == "greatest": return str(max(f.all()))
    if kind == "nodes": return str(f.nodes())
    if kind == "first_apart": return first(points(), lambda p: f(p) != x[1])
    g = functions[x[1]]
    if kind == "below": return first(points(), lambda p: f(p) > g(p))
    if kind == "dot": return str(sum(f(p) * g(p) for p in scope.states()))
    if kind == "same": return "yes" if f.all() == g.all() else "no"
    if kind == "is_whole": return "yes" if all(f(p) * g(p) % Q == 0 for p in points()) else "no"
    return None

ASKED = ["values", "at", "depends", "least", "greatest", "nodes", "first_apart", "below", "dot", "same", "is_whole"]

def told(text):
    """The lines that are printed of a text."""
    out, scope, functions = [], Scope(0, []), []
    for line in text.split("\n"):
        if line.startswith("#="):
            assert out[-1].partition(":")[2] == line[2:], "%s, not %s" % (out[-1], line[3:])
        if not line or line[0] == "#": continue
        kind, *words = line.split()
        x = [int(word) for word in words]
        if kind == "scope":
            scope, functions = Scope(x[0], x[1:]), []
            out.append(line)
        elif kind == "keep": functions = [functions[x[0]]]
        elif kind in ASKED: out.append((line + ": " + answer(scope, functions, kind, x)).rstrip())
        else: functions.append(made(scope, functions, kind, x))
    return out

# The sizes of the slots behind the number of state variables. In each, calls work at each slot in turn.
SHAPES = [(2, [2, 2, 3, 3, 2]), (1, [3, 3, 4, 1, 2]), (2, [1, 1, 5, 5, 2]), (2, [2, 2, 2, 2, 1]), (0, [3, 2]), (1, [4, 4]),
          (3, [2, 2, 1, 1, 2, 2]), (1, [5, 5, 1]), (1, [2, 2, 2, 2, 2])]

class Drawing:
    """The lines of one scope with calls at one slot."""
    def __init__(self, seed, variables, sizes, slot):
        self.rng, self.scope, self.slot = random.Random(seed), Scope(variables, sizes), slot
        self.grain = seed % 4
        self.lines = ["scope %d %s" % (variables, " ".join(map(str, sizes)))]
        self.count, self.firsts = 0, {}     # the values of functions at the first point

    def say(self, *words): self.lines.append(" ".join(map(str, words)))

    def make(self, *words):
        self.say(*words)
        self.count += 1
        return self.count - 1

    def number(self):
        """Any number of ticks, thousandths, single ticks, or all of these and 0."""
        grain = self.rng.randrange(4) if self.grain == 3 else self.grain
        if grain == 0: return self.rng.randint(-2 * Q, 2 * Q)
        if grain == 1: return self.rng.randint(-1500, 1500) * 10**6
        if grain == 2: return self.rng.randint(-3, 3)
        return 0

    def some(self, slots, most):
        slots = list(slots)
        return sorted(self.rng.sample(slots, min(len(slots), self.rng.randint(1, most))))

    def function(self, slots, number=None):
        number = number or self.number
        values = [number() for _ in self.scope.points(slots)]
        self.firsts[self.count] = values[0]
        return self.make("function", len(slots), *slots, *values)

    def weights(self, behind):
        """Weights of the slot's values for each point of other slots. They sum to one, and some are 0."""
        slots, size = sorted(behind + [self.slot]), self.scope.sizes[self.slot]
        rows = {}
        for point in self.scope.points(behind):
            cuts = sorted(self.rng.choice([0, Q, Q // 2, self.rng.randint(0, Q)]) for _ in range(size - 1))
            rows[tuple(point)] = [b - a for a, b in zip([0] + cuts, cuts + [Q])]
        values = [rows[tuple(moved(point, self.slot, 0))][point[self.slot]] for point in self.scope.points(slots)]
        return self.make("function", len(slots), *slots, *values)

    def show(self, *functions):
        for f in functions: self.say("values", f)

    def search(self, f, g):
        """The calls that answer for all points at once."""
        for k in (f, g):
            for call in ("depends", "least", "greatest"): self.say(call, k)
        self.say("same", f, g)
        self.say("below", f, g)
        self.say("below", g, f)
        self.say("first_apart", f, self.firsts[f])
        self.say("first_apart", g, self.number())
        self.say("is_whole", f, g)

    def branch(self):
        size = self.scope.sizes[self.slot]
        first = [self.function(self.some(self.scope.slots, 2)) for _ in range(size)][0]
        whole = self.make("branch", self.slot, first)
        self.show(whole)
        self.say("depends", whole)

    def products(self, f):
        thousandths = lambda: self.rng.randint(-1500, 1500) * 10**6
        a = self.function([self.slot], thousandths)
        b = self.function(self.some(self.scope.slots, 2), thousandths)
        self.say("is_whole", a, b)
        self.show(self.make("mul_whole", a, b), self.make("mul_floor", f, a))

    def renamed(self):
        """Functions of the states, with names exchanged, and their sums by weights."""
        states = [2 * i for i in range(self.scope.variables)]
        f, g = self.function(self.some(states, 3) if states else []), self.function(states)
        w = self.make("max_with", g, 0)
        self.say("dot", w, f)
        self.say("dot", w, g)
        prime = self.make("prime", f)
        back = self.make("unprime", prime)
        self.show(prime, back)
        self.say("same", f, back)
        self.say("same", f, prime)
        self.show(self.make("unprime", self.function([s + 1 for s in states])))

    def kept(self, f):
        """A slot that keeps the value of the one before it."""
        for i in range(self.scope.variables):
            size = self.scope.sizes[2 * i]
            diagonal = self.make("diagonal", f, 2 * i + 1)
            table = self.make("function", 2, 2 * i, 2 * i + 1, *(Q if a == b else 0 for a in range(size) for b in range(size)))
            mean = self.make("weigh_out", f, table, 2 * i + 1)
            self.show(diagonal)
            self.say("same", diagonal, mean)

    def ways(self, f, g):
        """One function made in two ways, and what follows of it."""
        there, back = self.make("add", f, g), self.make("add", g, f)
        self.show(there)
        self.say("same", there, back)
        top = self.make("max_with", f, self.number())
        self.show(top)
        self.say("below", f, top)
        twice = self.make("times", f, 2)
        same = self.make("add", f, f)
        self.say("same", twice, same)
        self.show(self.make("times", g, -3))

    def draw(self):
        slots, rng = self.scope.slots, self.rng
        f = self.function(list(slots) if rng.random() < 0.5 else self.some(slots, 3))
        g = self.function(self.some(slots, 3))
        self.show(f, g)
        self.search(f, g)
        c = self.make("constant", self.number())
        self.show(c)
        self.say("depends", c)
        row = self.function([self.slot])
        self.search(row, c)
        self.show(self.make("row", self.slot, *(self.number() for _ in range(self.scope.sizes[self.slot]))))
        self.branch()
        self.ways(f, g)
        self.show(self.make("mul_floor", f, g))
        self.products(f)
        self.show(self.make("sum_out", f, self.slot), self.make("restrict", f, self.slot, rng.randrange(self.scope.sizes[self.slot])))
        others = [s for s in slots if s != self.slot]
        p = self.weights(self.some(others, 2) if others else [])
        total = self.make("sum_out", p, self.slot)
        self.say("first_apart", total, Q)
        self.show(self.make("weigh_out", f, p, self.slot), self.make("weigh_out", g, p, self.slot))
        self.renamed()
        self.kept(f)
        copy = self.make("copy", f)
        self.say("same", f, copy)
        self.say("keep", copy)
        self.show(0)
        return self.lines

def drawn():
    out, seed = [], 0
    for variables, sizes in SHAPES + SHAPES[:4]:
        for slot in range(len(sizes)):
            out += Drawing(seed, variables, sizes, slot).draw()
            seed += 1
    return "".join(line + "\n" for line in out)

def main(words):
    folder = Path(words[-1])
    if "--draw" in words: (folder / "data" / "drawn.txt").write_text(drawn())
    out = []
    for name in ("worked.txt", "drawn.txt", "large.txt"):
        out += told((folder / "data" / name).read_text())
        if name != "large.txt": out.append("tables and diagrams answer the same")
    (folder / "stdout").write_text("".join(line + "\n" for line in out))

main(sys.argv[1:])
