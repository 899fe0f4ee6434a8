#!/usr/bin/env python3
"""Works out from the definitions what crates/sp_basics must print. It shares nothing with the program.

basics.py crates/sp_basics: reads data/basics.txt and writes stdout.
"""
import re, sys
from pathlib import Path

WORD = rb"[A-Za-z0-9_.\-]+"
TOKEN = re.compile(rb"//[^\n]*|[ \t\r\n]|(?P<primed>%s')|(?P<word>%s)|(?P<left_round>\()|(?P<right_round>\))|(?P<left_square>\[)|(?P<right_square>\])|(?P<mark>[!-~])" % (WORD, WORD))

def tokens(text):
    at, out = 0, []
    while at < len(text):
        found = TOKEN.match(text, at)
        if found is None: return ["refused at %d" % at]
        if found.lastgroup: out.append("%s %d %d" % (found.lastgroup.replace("_", " "), at, found.end()))
        at = found.end()
    return out

def ticks(word):
    if not re.fullmatch(r"-?([0-9]+(\.[0-9]*)?|\.[0-9]+)", word): return "of no shape"
    whole, _, places = word.lstrip("-").partition(".")
    if places[9:].strip("0"): return "too fine"
    number = int((whole or "0") + places[:9].ljust(9, "0"))
    if number > 10**18: return "too large"
    return str(-number if word.startswith("-") else number)

def decimal(number):
    return "%s%d.%09d" % ("-" if number < 0 else "", abs(number) // 10**9, abs(number) % 10**9)

def generated(number):
    """So many two-valued variables and eight more: one is hidden and pays most, an action looks at it and one repairs it, and four
    set one other variable each."""
    names = ["x%d" % k for k in range(1, number + 9)]
    def all_but_first(row): return "".join(" (%s %s)" % (name, row) for name in names[1:])
    out = ["(variables%s)" % "".join(" (%s off on)" % name for name in names), "(observations (hint off on))",
           "init [* (x1 (off (0.5)) (on (0.5)))%s]" % all_but_first("(off (1.0)) (on (0.0))"), "dd blind (0.5) enddd",
           "action look", "observe hint (x1' (off (hint' (off (0.85)) (on (0.15)))) (on (hint' (off (0.15)) (on (0.85))))) endobserve", "cost (0.1)", "endaction",
           "action fix", "x1 (x1 (off (x1' (off (0.1)) (on (0.9)))) (on (x1' (off (0.0)) (on (1.0)))))", "observe hint (blind) endobserve", "cost (1.0)", "endaction"]
    for name in names[1:5]:
        out += ["action set" + name[1:], "%s (%s' (off (0.0)) (on (1.0)))" % (name, name), "observe hint (blind) endobserve", "cost (0.5)", "endaction"]
    return out + ["reward [+ (x1 (off (0.0)) (on (5.0)))%s]" % all_but_first("(off (0.0)) (on (1.0))"), "discount 0.95"]

def content(data, limit, failing):
    """What is read in blocks until a read gives none; reads are counted from 1."""
    for k, at in enumerate(range(0, len(data) + 65536, 65536), 1):
        if k in failing: return "failed"
        if len(data[:at + 65536]) > limit: return "longer than %d" % limit
        if at >= len(data): break
    digest = 0
    for byte in data: digest = (31 * digest + byte) % 2**64
    return "%d bytes %d" % (len(data), digest)

def written(text, most, failing):
    out, k = b"", 0
    while len(out) < len(text):
        k += 1
        if k in failing: return "failed: " + out.decode()
        out = text[:len(out) + most]
    return "whole: " + out.decode()

def choices(kind, x):
    count, words = x[0], x[1:]
    if kind == "uniform": found = [word % count for word in words]
    elif kind == "sweep": found = [k % count for k in range(len(words))]
    else:
        numbers, words = x[2:2 + x[1]], x[2 + x[1]:]
        found = [numbers[k % len(numbers)] % count if numbers else 0 for k in range(len(words))]
    return "".join(" %d" % action for action in found)

def adapted(x):
    takes, out = x[1:1 + x[0]], ""
    for k, length in enumerate(x[1 + x[0]:]):
        count = min(takes[k], length) if k < len(takes) else None
        out += " failed" if count is None or count == 0 < length else " %d" % count
    return out

def main(folder):
    out, text = [], b""
    files = lambda name: (folder / "data" / name).read_bytes() if (folder / "data" / name).is_file() else None
    for line in (folder / "data" / "basics.txt").read_text().split("\n"):
        kind, _, rest = line.partition(" ")
        if not line or line[0] == "#": continue
        elif line[0] == "|": text += line[1:].encode() + b"\n"
        elif line[0] == "\\": text += line[1:].encode()
        elif kind == "text": text = b""
        elif kind == "byte": text += bytes([int(rest)])
        elif kind == "counted": text += bytes(k % 251 for k in range(int(rest)))
        else:
            out.append(line)
            words = rest.split()
            if kind == "tokens": out += tokens(text)
            elif kind == "ticks": out.append(ticks(rest))
            elif kind == "decimal": out.append(decimal(int(rest)))
            elif kind == "generated": out += generated(int(rest))
            elif kind == "whole":
                data = {"empty": b"", "text": text}.get(words[0])
                out.append("failed" if data is None else content(data, int(words[1]), [int(k) for k in words[2:]]))
            elif kind == "file":
                data = files(words[0])
                out.append("failed" if data is None else content(data, int(words[1]), []))
            elif kind == "part":
                data, at, count = files(words[0]), int(words[1]), int(words[2])
                out.append("failed" if data is None else "%d bytes: %s" % (len(data[at:at + count]), data[at:at + count].decode()))
            else:
                x = [int(word) for word in words]
                if kind == "written": out.append(written(text, x[0], x[1:]))
                elif kind == "adapted": out.append(adapted(x))
                else: out.append(choices(kind, x))
    (folder / "stdout").write_text("".join(line + "\n" for line in out))

main(Path(sys.argv[1]))
