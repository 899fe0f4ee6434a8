#!/usr/bin/env python3
"""A yardstick for the planner: works out what crates/sp_figures must print.

figures.py crates/sp_figures: reads data/examples.txt and data/drawn.txt, and writes stdout.

It is written from the definitions (docs/THEORY.md) and shares nothing with the program: it reads the text of a model by itself, goes
through flat lists of all states, next states and joint observations, and has no decision diagrams and nothing that is kept. All numbers
are whole: probabilities and values in ticks of 10^-9, and a // b is rounded down. docs/FIGURES.md says what the lines mean.
"""
import re, sys
from functools import lru_cache
from itertools import product
from pathlib import Path

Q = 10**9       # ticks of 1
MOST = 2**62    # the greatest total of weights

# ---- random words

class Words:
    """PCG XSL RR 128/64 (O'Neill 2014), seeded from 64 bits as the crate rand_core does: eight outputs of PCG XSH RR 64/32."""
    def __init__(self, seed):
        state, seeds = seed % 2**64, []
        for _ in range(8):
            state = (state * 6364136223846793005 + 11634580027462260723) % 2**64
            seeds.append(rotated(((state >> 18) ^ state) >> 27 & 0xFFFFFFFF, state >> 59, 32))
        joined = sum(word << 32 * k for k, word in enumerate(seeds))
        self.step = joined >> 128 | 1
        self.state = (joined + self.step) % 2**128
        self.advance()

    def advance(self):
        self.state = (self.state * 0x2360ED051FC65DA44385DF649FCCF645 + self.step) % 2**128

    def next(self):
        self.advance()
        return rotated((self.state >> 64 ^ self.state) % 2**64, self.state >> 122, 64)

def rotated(word, by, bits):
    return (word >> by | word << (bits - by)) % 2**bits

# ---- models

def ticks(word):
    whole, _, places = word.lstrip("-").partition(".")
    return (-1 if word.startswith("-") else 1) * (int(whole or 0) * Q + int(places[:9].ljust(9, "0")))

class Text:
    """The words of a model text, one after another."""
    def __init__(self, text):
        self.words = re.findall(r"[()\[\]]|[^\s()\[\]]+", re.sub(r"//[^\n]*", "", text))
        self.at, self.named = 0, {}

    def peek(self):
        return self.words[self.at] if self.at < len(self.words) else None

    def take(self):
        self.at += 1
        return self.words[self.at - 1]

    def declarations(self):
        """A list of names, each with its values."""
        found = []
        self.take(), self.take()
        while self.peek() == "(":
            self.take()
            name, values = self.take(), []
            while self.peek() != ")": values.append(self.take())
            self.take()
            found.append((name, values))
        self.take()
        return found

    def tree(self):
        """A number, a sum or a product of trees, or a tree for each value of a variable."""
        if self.take() == "[":
            kind, parts = self.take(), []
            while self.peek() != "]": parts.append(self.tree())
            self.take()
            return (kind, parts)
        word, parts = self.take(), {}
        while self.peek() == "(":
            self.take()
            value = self.take()
            parts[value] = self.tree()
            self.take()
        self.take()
        if parts: return ("by", word, parts)
        return self.named[word] if word in self.named else ("number", ticks(word))

class Action:
    def __init__(self, text):
        self.name, self.moves, self.sights, self.cost = text.take(), {}, {}, ("number", 0)
        while (word := text.take()) != "endaction":
            if word == "cost": self.cost = text.tree()
            elif word != "observe": self.moves[word] = text.tree()
            else:
                while (sight := text.take()) != "endobserve": self.sights[sight] = text.tree()

class Model:
    def __init__(self, source):
        text = Text(source)
        self.variables, self.sights = text.declarations(), text.declarations()
        self.actions, self.reward, self.factors, self.discount = [], ("number", 0), [], 0
        while text.peek() is not None:
            kind = text.take()
            if kind == "action": self.actions.append(Action(text))
            elif kind == "reward": self.reward = text.tree()
            elif kind == "discount": self.discount = ticks(text.take())
            elif kind == "init":
                tree = text.tree()
                self.factors = tree[1] if tree[0] == "*" else [tree]
            elif kind == "dd":
                name = text.take()
                text.named[name] = text.tree()
                text.take()
            else: text.take()   # horizon and tolerance, which nothing here depends on
        self.states = list(product(*[range(len(values)) for _, values in self.variables]))
        self.joints = list(product(*[range(len(values)) for _, values in self.sights]))
        self.place = {s: k for k, s in enumerate(self.states)}
        rewards = [self.reward_at(a, s, t) for a in range(len(self.actions)) for s in self.states for t in self.states]
        self.least = min(rewards) * Q // (Q - self.discount)
        self.top = -(-max(rewards) * Q // (Q - self.discount))
        self.lost = (len(self.variables) + len(self.sights)) * (len(self.joints) + 1) + 1
        self.ignores_next = [all(self.reward_at(a, s, t) == self.reward_at(a, s, self.states[0]) for s in self.states for t in self.states)
                             for a in range(len(self.actions))]

    def value(self, tree, now={}, later={}):
        """The value of a tree, where variables have these values now, and variables and observations these later."""
        if tree[0] == "number": return tree[1]
        if tree[0] == "+": return sum(self.value(part, now, later) for part in tree[1])
        if tree[0] == "*":
            found = self.value(tree[1][0], now, later)
            for part in tree[1][1:]: found = found * self.value(part, now, later) // Q
            return found
        word = tree[1]
        return self.value(tree[2][later[word[:-1]] if word.endswith("'") else now[word]], now, later)

    @lru_cache(maxsize=None)
    def names(self, point):
        """The values of the first variables, by their names."""
        return {name: values[k] for (name, values), k in zip(self.variables, point)}

    @lru_cache(maxsize=None)
    def reward_at(self, a, s, t):
        now, later = self.names(s), self.names(t)
        return self.value(self.reward, now, later) - self.value(self.actions[a].cost, now, later)

    @lru_cache(maxsize=None)
    def move(self, a, i, s, t):
        """The probability of the next value of variable i, where t has it behind those of the variables before."""
        tree = self.actions[a].moves.get(self.variables[i][0])
        if tree is None: return Q if s[i] == t[i] else 0
        return self.value(tree, self.names(s), self.names(t))

    @lru_cache(maxsize=None)
    def sight(self, a, j, t, k):
        """The probability of value k of observation j in the next state."""
        name, values = self.sights[j]
        return self.value(self.actions[a].sights[name], {}, {**self.names(t), name: values[k]})

    @lru_cache(maxsize=None)
    def move_tables(self, a, s):
        """For each variable how many values it has, and their probabilities in the next state of s, behind the values of those before."""
        sizes = [len(values) for _, values in self.variables]
        return [(sizes[i], [self.move(a, i, s, t) for t in product(*map(range, sizes[:i + 1]))]) for i in range(len(sizes))]

    @lru_cache(maxsize=None)
    def sight_tables(self, a, t):
        """The same for the observations in the next state t."""
        sizes = [len(values) for _, values in self.sights]
        return [(sizes[j], [self.sight(a, j, t, joint[j]) for joint in product(*map(range, sizes[:j + 1]))]) for j in range(len(sizes))]

    @lru_cache(maxsize=None)
    def needs(self, a, i, k):
        """Whether the table of variable i depends on variable k as it is now."""
        return any(self.move(a, i, s, t) != self.move(a, i, s[:k] + (x,) + s[k + 1:], t)
                   for s in self.states for t in {t[:i + 1] for t in self.states} for x in range(len(self.variables[k][1])))

# ---- beliefs

def scaled(weights):
    """The weights times the greatest power of two that keeps their total at most 2^62."""
    total, by = sum(weights), 1
    while total * by * 2 <= MOST: by *= 2
    return tuple(x * by for x in weights)

def initial(m):
    weights = []
    for s in m.states:
        x = MOST
        for factor in m.factors: x = x * m.value(factor, m.names(s)) // Q
        weights.append(x)
    return scaled(weights)

@lru_cache(maxsize=None)
def carried(m, a, weights):
    """The weights of the next states: by the table of each variable in turn, and after it over every variable as it is now on which no
    later table depends."""
    count, gone = len(m.variables), set()
    found = {(s, ()): x for s, x in zip(m.states, weights)}
    for i in range(count):
        gone |= {k for k in range(count) if not any(m.needs(a, j, k) for j in range(i + 1, count))}
        summed = {}
        for (s, t), x in found.items():
            for v in range(len(m.variables[i][1])):
                kept = (tuple(None if k in gone else s[k] for k in range(count)), t + (v,))
                summed[kept] = summed.get(kept, 0) + x * m.move(a, i, filled(s), t + (v,)) // Q
        found = summed
    return tuple(sum(x for (_, t), x in found.items() if t == state) for state in m.states)

def filled(s):
    """A state whose summed out variables, on which no table depends any more, have their first value."""
    return tuple(0 if x is None else x for x in s)

def thinned(m, a, t, joint, x):
    """A number times the probability of each value of a joint observation in the next state, rounded down each time."""
    for j, k in enumerate(joint): x = x * m.sight(a, j, t, k) // Q
    return x

def seen(m, a, weights, joint):
    """The weights after an action and a joint observation, before they are scaled."""
    return [thinned(m, a, t, joint, x) for t, x in zip(m.states, carried(m, a, tuple(weights)))]

def samples(m, count, depth, seed, sweep):
    """Beliefs, each with the action and the joint observation that led to it. From the first one on, so many follow one another."""
    words, found = Words(seed), [(0, 0, initial(m))]
    for k in range(count - 1):
        weights = found[0 if k % depth == 0 else k][2]
        first, second = words.next(), words.next()
        a = (k if sweep else first) % len(m.actions)
        after = [seen(m, a, weights, joint) for joint in m.joints]
        rest, o = second % sum(map(sum, after)), 0
        while rest >= sum(after[o]):
            rest -= sum(after[o])
            o += 1
        found.append((a, o, scaled(after[o])))
    return found

# ---- backups

def dot(weights, vector):
    return sum(x * y for x, y in zip(weights, vector))

def mean(values, tables):
    """The mean of values of points, of which the last variable runs fastest: over one variable at a time, the last one first, rounded down
    each time. The tables have the probabilities of each variable behind the values of those before."""
    for size, table in reversed(tables):
        values = [dot(values[k:k + size], table[k:k + size]) // Q for k in range(0, len(values), size)]
    return values[0]

def weighed(m, a, s, vector):
    """The mean of a vector over the next states of s."""
    return mean(vector, m.move_tables(a, s))

def one_step(m, a, linked):
    """The vector of an action, with a vector for each joint observation."""
    later = [mean([vector[k] for vector in linked], m.sight_tables(a, t)) for k, t in enumerate(m.states)]
    if m.ignores_next[a]:
        found = [m.reward_at(a, s, m.states[0]) + weighed(m, a, s, later) * m.discount // Q for s in m.states]
    else:
        found = [weighed(m, a, s, [m.reward_at(a, s, t) + x * m.discount // Q for t, x in zip(m.states, later)]) for s in m.states]
    return [max(x, m.least) for x in found]

def estimate(m, a, joint, vector, weights):
    """What a vector brings after an action and a joint observation."""
    thin = [thinned(m, a, t, joint, x) for t, x in zip(m.states, vector)]
    return dot(weights, [weighed(m, a, s, thin) for s in m.states])

# ---- books

class Book:
    """Records with their actions and vectors; editions are lists of their numbers."""
    def __init__(self, m, beliefs, depth, stages, seed, sweep, prune):
        self.m, self.left = m, stages
        self.weights = [found[2] for found in samples(m, beliefs, depth, seed, sweep)]
        self.task = (m, beliefs, depth, stages, seed, sweep, prune)
        self.records = [(0, [m.least] * len(m.states))]
        self.editions, self.grown, self.events, self.done = [[0]], [], [], False
        self.improved, self.taken = [False] * beliefs, [False] * beliefs

    def vector(self, number):
        return self.records[number][1]

    def worth(self, members, weights):
        return max(dot(weights, self.vector(x)) for x in members)

    def greatest(self, members, score):
        """The member of the greatest score, of the least number at a tie."""
        return min(members, key=lambda x: (-score(x), x))

    def edition(self, number):
        """The members of an edition with their actions and vectors, or nothing."""
        return [(x, self.records[x]) for x in self.editions[number]] if number < len(self.editions) else None

    def backup(self, belief, number):
        """The action, the links and the vector of the backup at a belief on an edition."""
        m, weights, members, best = self.m, self.weights[belief], self.editions[number], None
        for a in range(len(m.actions)):
            links = [self.greatest(members, lambda x: estimate(m, a, joint, self.vector(x), weights)) for joint in m.joints]
            vector = one_step(m, a, [self.vector(x) for x in links])
            if best is None or dot(weights, vector) > dot(weights, best[2]): best = (a, links, vector)
        return best

    def pick(self, word):
        """The belief that a word picks: of those neither improved nor taken, or else of those that aren't improved."""
        if self.done: return None
        waiting = [k for k, done in enumerate(self.improved) if not done]
        free = [k for k in waiting if not self.taken[k]] or waiting
        self.taken[free[word % len(free)]] = True
        return free[word % len(free)]

    def settle(self, belief, number, action, links, vector):
        if self.done: return "over"
        weights, latest, new = self.weights[belief], self.editions[-1], len(self.records)
        self.records.append((action, vector))
        self.events.append(spelled("settle %d %d %d" % (belief, number, action), links))
        enters, answer = None, "late"
        if not self.improved[belief]:
            if dot(weights, vector) >= self.worth(latest, weights): enters, answer = new, "added %d" % new
            else:
                enters = self.greatest(latest, lambda x: dot(weights, self.vector(x)))
                answer = "kept %d" % enters
        elif dot(weights, vector) > self.worth(self.grown, weights): enters, answer = new, "added %d" % new
        if enters is not None: self.enter(enters)
        return answer

    def enter(self, number):
        """A record enters the next edition, which is published once each belief is worth at least what it is in the latest one."""
        if number not in self.grown: self.grown.append(number)
        for k, weights in enumerate(self.weights):
            if dot(weights, self.vector(number)) >= self.worth(self.editions[-1], weights): self.improved[k] = True
        if not all(self.improved): return
        self.events.append("publish")
        self.editions.append(self.grown)
        self.grown, self.left = [], self.left - 1
        self.improved, self.taken = [False] * len(self.improved), [False] * len(self.taken)
        if self.left == 0:
            self.events.append("end")
            self.done = True

    def prune(self, pairs):
        if self.done: return "over"
        applied, rest = applying(self.editions[-1], pairs)
        if not applied: return "nothing"
        self.editions.append(rest)
        self.events.append(spelled("prune", sum(applied, ())))
        return "dropped %d" % len(applied)

    def summary(self):
        latest, weights = self.editions[-1], self.weights[0]
        return "records %d editions %d members %d value %d" % (
            len(self.records), len(self.editions), len(latest), self.worth(latest, weights) // sum(weights))

    def state(self):
        return spelled("records %d editions %d done %s latest" % (len(self.records), len(self.editions), str(self.done).lower()), self.editions[-1])

def dominated(members):
    """Of members, each with its number and its vector: the number of each that is nowhere above another, with the least number of such
    another. Of two equal ones only the one of the greater number goes."""
    def under(v, w): return all(x <= y for x, y in zip(v, w))
    pairs = []
    for x, v in members:
        others = [y for y, w in members if y != x and under(v, w) and (y < x or not under(w, v))]
        if others: pairs.append((x, min(others)))
    return pairs

def applying(members, pairs):
    """The pairs that apply, in order, and the members that they leave."""
    rest, applied = list(members), []
    for x, y in pairs:
        if x in rest and y in rest:
            rest.remove(x)
            applied.append((x, y))
    return applied, rest

def planned(m, options, worker=0):
    """The finished book of one thread: of the caller, or of the worker of this number."""
    beliefs, _, stages, seed, _, prune = options
    book, words = Book(m, *options), Words(seed + 1 + worker)
    for _ in range(beliefs * stages):
        belief, count = book.pick(words.next()), len(book.editions)
        if belief is None: continue
        number = count - 1
        book.settle(belief, number, *book.backup(belief, number))
        if prune and len(book.editions) > count and not book.done:
            book.prune(dominated([(x, book.vector(x)) for x in book.editions[-1]]))
    return book

# ---- lines

def spelled(head, numbers):
    return head + "".join(" %d" % x for x in numbers)

def backup_lines(book, belief, number, found):
    m, (action, links, vector) = book.m, found
    out = [spelled("backup %d on %d: %d," % (belief, number, action), links) + spelled(":", vector)]
    return out + [spelled("action %d:" % a, one_step(m, a, [book.vector(x) for x in links])) for a in range(len(m.actions))]

def settle_lines(book, base, belief, number):
    """The settle of a backup on an edition of a book, which may be another one."""
    found = base.backup(belief, number)
    if book.done: answer = "over"
    elif not is_ours(book, base, number): answer = not_ours(book, number)
    else: answer = book.settle(belief, number, *found)
    return backup_lines(base, belief, number, found) + [answer, book.state()]

def prune_lines(book, base, number, twice=False):
    pairs = dominated([(x, base.vector(x)) for x in base.editions[number]])
    out = [] if twice else [spelled("dominated", sum(pairs, ()))]
    if book.done: answer = "over"
    elif not is_ours(book, base, number): answer = not_ours(book, number)
    else: answer = book.prune(pairs + pairs[:1] if twice else pairs)
    return out + [answer, book.state()]

def is_ours(book, base, number):
    return base.task == book.task and base.edition(number) == book.edition(number)

def not_ours(book, number):
    return "not ours, back true, own" + (spelled("", book.editions[number]) if number < len(book.editions) else " none")

def follow_lines(m, steps):
    weights = initial(m)
    out = [spelled("initial:", weights)]
    for a, o in zip(steps[0::2], steps[1::2]):
        after = seen(m, a, weights, m.joints[o])
        if sum(after): weights = scaled(after)
        out.append("next %d %d %d:" % (a, o, sum(after)) + (spelled("", weights) if sum(after) else " unseen"))
    return out

@lru_cache(maxsize=None)
def model_of(text):
    return Model(text)

class Desk:
    """The text of a model, and two books."""
    def __init__(self):
        self.text, self.book, self.other = "", None, None

    def lines(self, kind, x):
        m = model_of(self.text)
        if kind == "range": return ["range %d %d %d" % (m.least, m.top, m.lost)]
        if kind == "follow": return follow_lines(m, x)
        if kind in ("uniform", "sweep"): return [spelled("sample %d %d:" % (a, o), w) for a, o, w in samples(m, *x, kind == "sweep")]
        if kind == "plan": return planned(m, x).events
        if kind == "summary": return [planned(m, x).summary()]
        if kind == "book":
            self.book = Book(m, *x)
            return [self.book.state()]
        if kind == "other":
            self.book, self.other = self.other, self.book
            return []
        if kind == "room": return []    # what backups keep changes nothing
        return self.book_lines(self.book, kind, x)

    def book_lines(self, book, kind, x):
        if kind == "pick": return [picked_line(book.pick(x[0]))]
        if kind == "turn":
            belief = book.pick(x[0])
            if belief is None: return [picked_line(belief)]
            return settle_lines(book, book, belief, max(0, len(book.editions) - 1 - x[1]))
        if kind == "twins": return [spelled("dominated", sum(dominated([(y, book.vector(book.editions[-1][0])) for y in x]), ()))]
        if kind == "end":
            self.book = None
            return book.events if book.done else [book.state()]
        # the others name an edition, where a number past the last one stands for the last one
        place, base = kind in ("backup", "settle", "settle_other"), self.other if kind.endswith("other") else book
        number = min(x[place], len(base.editions) - 1)
        if kind == "backup": return backup_lines(book, x[0], number, book.backup(x[0], number))
        if kind in ("settle", "settle_other"): return settle_lines(book, base, x[0], number)
        if kind in ("prune", "prune_other"): return prune_lines(book, base, number)
        if kind == "prune_twice": return prune_lines(book, base, number, twice=True)
        if kind == "apply":
            applied, rest = applying(book.editions[number], list(zip(x[1::2], x[2::2])))
            return [spelled("applied", sum(applied, ())), spelled("left", rest)]
        assert kind == "members", kind
        return [spelled("member %d %d:" % (y, book.records[y][0]), book.vector(y)) for y in book.editions[number]]

def picked_line(belief):
    return "no work" if belief is None else "work %d" % belief

def told_by(source):
    desk, out = Desk(), []
    for line in source.split("\n"):
        kind, _, rest = line.partition(" ")
        if not line or line[0] == "#": continue
        if line[0] == "|": desk.text += line[1:] + "\n"
        elif kind == "text":
            desk.text = ""
            out.append(line)
        else: out += desk.lines(kind, [int(word) for word in rest.split()])
    return "".join(line + "\n" for line in out)

def main(folder):
    (folder / "stdout").write_text("".join(told_by((folder / "data" / name).read_text()) for name in ("examples.txt", "drawn.txt")))

if __name__ == "__main__": main(Path(sys.argv[1]))
