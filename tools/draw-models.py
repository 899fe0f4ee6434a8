#!/usr/bin/env python3
"""Draws the models of crates/sp_figures/data/drawn.txt from seeds, and asks for their figures.

draw-models.py crates/sp_figures/data/drawn.txt

What is expected of them is worked out by figures.py.
"""
import random, sys
from pathlib import Path

Q = 10**9   # ticks of 1

# Among these are editions of up to four members, links and actions that tie or are apart by a few ticks, observations that are never seen,
# and candidates that come too late or keep the old member.
SEEDS = [0, 4, 20, 68, 104, 140, 144, 148, 152, 156, 13, 17, 49, 61, 65, 89, 149, 165, 169, 189, 14, 26, 82, 90, 94, 110, 126, 150, 162, 166,
         178, 3, 11, 239, 255, 267, 291, 371, 443, 479, 635, 743, 755, 771, 919, 1091, 1107, 1167]

# How a model is drawn. Values may be any number of ticks; or whole numbers of which many are equal; or single ticks; or whole numbers and
# single ticks more or less, where each action has a twin of the same tables.
GRAINS = ["any", "whole", "ticks", "twins"]

class Drawing:
    def __init__(self, seed):
        self.rng = random.Random(seed)
        self.grain = GRAINS[seed % 4]
        self.blind = seed % 3 == 0      # a value of an observation that no state shows
        self.waits = seed % 5 < 2       # rewards wait for the next state
        self.kept = 0.6 if seed % 7 == 0 else 0.2
        variables, sights = self.rng.choice([1, 2, 2, 3]), self.rng.choice([1, 2])
        self.sizes = {"v%d" % k: self.rng.choice([2, 2, 3]) if variables < 3 else 2 for k in range(variables)}
        self.sights = {"o%d" % k: self.rng.choice([2, 3]) if sights == 1 else 2 for k in range(sights)}
        self.joints = 1
        for size in self.sights.values(): self.joints *= size

    def size(self, word):
        name = word.rstrip("'")
        return self.sizes[name] if name in self.sizes else self.sights[name]

    def row(self, size, blind=False):
        """Probabilities that sum to 1; the last one is 0 where it is blind."""
        if blind: return self.row(size - 1) + [0]
        if self.grain == "whole" or self.rng.random() < 0.2:
            parts = [0] * size
            for _ in range(4): parts[self.rng.randrange(size)] += Q // 4
            return parts
        cuts = sorted(self.rng.randrange(Q + 1) for _ in range(size - 1))
        return [b - a for a, b in zip([0] + cuts, cuts + [Q])]

    def tree(self, words, leaf):
        """A tree over these words, with a leaf at each end."""
        if not words: return leaf()
        return "(%s %s)" % (words[0], " ".join("(%s %s)" % (value(k), self.tree(words[1:], leaf)) for k in range(self.size(words[0]))))

    def spread(self, word, words, blind=False):
        """The probabilities of the word's values, by the other words."""
        return self.tree(words, lambda: "(%s %s)" % (word, " ".join("(%s (%s))" % (value(k), decimal(x)) for k, x in enumerate(self.row(self.size(word), blind)))))

    def some(self, words, most):
        return self.rng.sample(words, min(len(words), self.rng.randrange(most + 1)))

    def amount(self):
        if self.grain == "any": return self.rng.randrange(-60 * Q, 60 * Q)
        if self.grain == "whole": return self.rng.randrange(-9, 10) * Q
        if self.grain == "ticks": return self.rng.randrange(-5, 6)
        return self.rng.choice([-7, -2, 3, 3, 10]) * Q + self.rng.randrange(-2, 3)

    def cost(self):
        """Over some variables now, and where rewards wait over one of the next state."""
        words = self.some(list(self.sizes), 2) + ([self.rng.choice(list(self.sizes)) + "'"] if self.waits else [])
        return words, self.tree(words, lambda: "(%s)" % decimal(self.amount()))

    def action(self, name):
        """The lines of an action, and those of its twin, whose costs differ in single ticks."""
        names, lines = list(self.sizes), []
        for k, word in enumerate(names):
            if self.rng.random() >= self.kept:
                lines.append("%s %s" % (word, self.spread(word + "'", self.some(names, 2) + self.some([x + "'" for x in names[:k]], 1))))
        blind = self.blind and self.rng.random() < 0.7
        lines.append("observe " + " ".join("%s %s" % (word, self.spread(word + "'", self.some([x + "'" for x in names], 2), blind and k == 0 and size > 1))
                                           for k, (word, size) in enumerate(self.sights.items())) + " endobserve")
        made = [["action " + name] + lines + ["cost " + self.cost()[1], "endaction"]]
        if self.grain == "twins":
            words, costs = list(self.sizes), []
            base = {}
            def leaf(): return "(%s)" % decimal(base.setdefault(len(base), self.amount()))
            def jittered():
                costs.append(None)
                return "(%s)" % decimal(base[len(costs) - 1] + self.rng.randrange(-1, 2))
            made = [["action " + name] + lines + ["cost " + self.tree(words, leaf), "endaction"],
                    ["action " + name + "_twin"] + lines + ["cost " + self.tree(words, jittered), "endaction"]]
        return made

    def model(self):
        listed = lambda sizes: " ".join("(%s %s)" % (name, " ".join(map(value, range(size)))) for name, size in sizes.items())
        lines = ["(variables %s)" % listed(self.sizes), "(observations %s)" % listed(self.sights),
                 "init [* %s]" % " ".join(self.spread(name, []) for name in self.sizes)]
        actions = [made for k in range(2 if self.grain == "twins" else self.rng.choice([2, 3])) for made in self.action("a%d" % k)]
        for made in actions: lines += made
        self.actions = len(actions)
        if self.rng.random() < 0.5: lines.append("reward " + self.cost()[1])
        few = [0, 1, 1000, 300000000] if self.grain == "twins" else [0, 200000000, 300000000, 400000000, 950000000, self.rng.randrange(600000000)]
        lines.append("discount " + decimal(self.rng.choice(few)))
        return lines

    def word(self):
        return self.rng.randrange(2**64)

    def lines(self, name):
        out = ["text " + name] + ["|" + line for line in self.model()] + ["range"]
        out.append("follow " + " ".join("%d %d" % (self.rng.randrange(self.actions), self.rng.randrange(self.joints)) for _ in range(5)))
        explore = self.rng.randrange(2)
        options = "6 4 5 %d %d" % (self.word(), explore)
        out += ["%s 6 3 %d" % (["uniform", "sweep"][explore], self.word()), "book %s 0" % options]
        for back in [0, 0, 1, 0, 2, 0, 1, 0, 0, 1, 2, 0]: out.append("turn %d %d" % (self.word(), back))
        out += ["backup %d 99" % k for k in range(6)] + ["prune 99", "summary %s 0" % options, "plan %s 1" % options]
        return out

def value(k):
    return "abc"[k]

def decimal(number):
    return "%s%d.%09d" % ("-" if number < 0 else "", abs(number) // Q, abs(number) % Q)

def main(to):
    out = ["# Drawn by tools/draw-models.py."]
    for seed in SEEDS: out += Drawing(seed).lines("drawn-%d" % seed)
    to.write_text("".join(line + "\n" for line in out))

if __name__ == "__main__": main(Path(sys.argv[1]))
