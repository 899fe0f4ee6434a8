"""What is wanted of the beginnings of an accepted file, from the rules of docs/MODEL_FILE.md and of docs/PLAN_FILE.md alone.

A beginning is cut at any byte. That of a model file is refused at its first token after which no continuation is in the grammar, or at
its end where every token could still go on, or there for the parts that it lacks; or it is accepted. That of a plan file is refused at its
first line at fault. No other rule can be broken in it, since the whole file breaks none.
"""

KEYWORDS = set("variables observations init dd enddd action endaction observe endobserve cost reward discount horizon tolerance unnormalized".split())
WORD = set("abcdefghijklmnopqrstuvwxyzABCDEFGHIJKLMNOPQRSTUVWXYZ0123456789_-.")
NANO = 10**9


class Refused(Exception):
    def __init__(self, at, kind):
        super().__init__(kind)
        self.at, self.kind = at, kind


def tokens_of(text):
    """The tokens, each its kind, its text and its place: a bracket or a mark is its own kind."""
    tokens, at = [], 0
    while at < len(text):
        if text[at] in " \t\r\n":
            at += 1
        elif text.startswith("//", at):
            end = text.find("\n", at)
            at = len(text) if end < 0 else end
        elif text[at] in WORD:
            end = at
            while end < len(text) and text[end] in WORD:
                end += 1
            primed = end < len(text) and text[end] == "'"
            tokens.append(("primed" if primed else "word", text[at:end], at))
            at = end + primed
        else:
            tokens.append((text[at], text[at], at))
            at += 1
    return tokens


def is_name(word):
    return word not in KEYWORDS and (word[0].isalpha() or word[0] == "_")


class Reader:
    """Reads tokens by the grammar, one function for each of its rules."""

    def __init__(self, text):
        self.tokens, self.end, self.next = tokens_of(text), len(text), 0

    def peek(self):
        if self.next < len(self.tokens):
            return self.tokens[self.next]
        raise Refused(self.end, "Unclosed" if self.tokens else "Unexpected")

    def is_over(self):
        return self.next == len(self.tokens)

    def refuse(self, kind="Unexpected"):
        raise Refused(self.peek()[2], kind)

    def take(self, wanted):
        """Takes the token if it is wanted, and gives its text."""
        kind, text, _ = self.peek()
        if not wanted(kind, text):
            self.refuse()
        self.next += 1
        return text

    def bracket(self, bracket):
        self.take(lambda kind, text: kind == bracket)

    def word(self, word):
        self.take(lambda kind, text: kind == "word" and text == word)

    def name(self):
        return self.take(lambda kind, text: kind == "word" and is_name(text))

    def value(self):
        return self.take(lambda kind, text: kind == "word")

    def is_at(self, wanted):
        kind, text, _ = self.peek()
        return wanted(kind, text)

    def declarations(self, keyword):
        self.bracket("(")
        self.word(keyword)
        first = True
        while first or not self.is_at(lambda kind, text: kind == ")"):
            first = False
            self.bracket("(")
            self.name()
            self.value()
            while not self.is_at(lambda kind, text: kind == ")"):
                self.value()
            self.bracket(")")
        self.bracket(")")

    def tree(self):
        if self.is_at(lambda kind, text: kind == "["):
            return self.list()
        self.bracket("(")
        kind, text, _ = self.peek()
        if kind == "word" and (text[0].isdigit() or text[0] in ".-"):
            self.next += 1
        elif kind == "word" and is_name(text):
            self.next += 1
            if self.is_at(lambda kind, text: kind == "("):
                self.branches()
        elif kind == "primed" and is_name(text):
            self.next += 1
            self.branches()
        else:
            self.refuse()
        self.bracket(")")

    def branches(self):
        first = True
        while first or not self.is_at(lambda kind, text: kind == ")"):
            first = False
            self.bracket("(")
            self.value()
            self.tree()
            self.bracket(")")

    def list(self):
        self.bracket("[")
        kind, text, _ = self.peek()
        if kind in "#/" or text == "-":
            self.refuse("Unsupported")
        self.take(lambda kind, text: kind in "+*")
        self.tree()
        while not self.is_at(lambda kind, text: kind == "]"):
            self.tree()
        self.bracket("]")

    def action(self):
        self.name()
        while not self.is_at(lambda kind, text: kind == "word" and text == "endaction"):
            kind, text, _ = self.peek()
            if kind == "word" and text == "observe":
                self.next += 1
                while not self.is_at(lambda kind, text: kind == "word" and text == "endobserve"):
                    self.name()
                    self.tree()
                self.word("endobserve")
            elif kind == "word" and text == "cost":
                self.next += 1
                self.tree()
            else:
                self.name()
                self.tree()
        self.word("endaction")

    def section(self):
        """One section: its keyword, and the word behind `discount`."""
        kind, keyword, _ = self.peek()
        if kind != "word":
            self.refuse()
        if keyword == "unnormalized":
            self.refuse("Unsupported")
        self.next += 1
        if keyword in ("init", "reward"):
            self.tree()
        elif keyword == "dd":
            self.name()
            self.tree()
            self.word("enddd")
        elif keyword == "action":
            self.action()
        elif keyword in ("discount", "horizon", "tolerance"):
            return keyword, self.value()
        else:
            self.next -= 1
            self.refuse()
        return keyword, None

    def file(self):
        """The sections of the file, each its keyword and word."""
        self.declarations("variables")
        self.declarations("observations")
        sections = []
        while not self.is_over():
            sections.append(self.section())
        return sections


def ticks(decimal):
    """A decimal of at most nine places in ticks of 10^-9."""
    sign = -1 if decimal.startswith("-") else 1
    whole, _, places = decimal.lstrip("-").partition(".")
    return sign * (int(whole or "0") * NANO + int((places + "0" * 9)[:9]))


def spelt(number):
    """Ticks as a decimal of nine places."""
    return "%s%d.%09d" % ("-" if number < 0 else "", abs(number) // NANO, abs(number) % NANO)


def judged(text, accepted):
    """The status and the line of one beginning. `accepted` has the counts of the file, its least reward and its units."""
    try:
        sections = Reader(text).file()
        keywords = [keyword for keyword, _ in sections]
        if not all(part in keywords for part in ("init", "action", "discount")):
            raise Refused(len(text), "MissingPart")
    except Refused as refused:
        return "1 perseus: refused: m.txt: byte %d: %s\n" % (refused.at, refused.kind)
    discount = ticks(dict(sections)["discount"])
    counts, least, units = accepted
    worth = NANO * ticks(least) // (NANO - discount)
    return "0 ok %s least %s units %s\n" % (counts, spelt(worth), units)


def lines_of(text, accepted):
    """What is wanted of each beginning of the text, of no byte, of one byte and so on, up to the whole of it."""
    return "".join("%d %s" % (length, judged(text[:length], accepted)) for length in range(len(text) + 1))


def plan_fault(text):
    """The place of the line at fault in a beginning of a plan file that isn't the whole of it."""
    lines = text.split("\n")
    # A line that is cut is at fault itself, and a missing one stands at the end; both begin behind the last line end.
    cut = len(text) - len(lines[-1])
    # Behind the first two lines all is missing where no line ends the model.
    return cut if len(lines) <= 2 or "endmodel" in lines[2:-1] else len(text)


def plan_lines_of(text, accepted):
    """The same of a plan file, of which the line `accepted` is told."""
    fault = "%d 1 perseus: refused: p.txt: byte %d: Shape\n"
    lines = [fault % (length, plan_fault(text[:length])) for length in range(len(text))]
    return "".join(lines) + "%d 0 %s\n" % (len(text), accepted)
