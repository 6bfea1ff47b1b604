#!/usr/bin/env python3
"""Brings the names of definitions and lemmas of this repository to the spelling of the installed Rattle.

Run once, at the top, right after port.py. Types, facts and records are in camel case; definitions, lemmas,
fields and constructors in snake case. A dash stays where it joins two names, as in length-onto and total-map.
Names of functions in src/, exported names, strings, inputs and outputs keep theirs. With --list it only prints the table.
"""
import glob
import re
import sys

SIGNATURE = re.compile(r"^\s*((?:abbrev |unfoldable |pub )*)([A-Za-z][\w'\-]*)\s+:\s(.*)$")
HEAD = re.compile(r"^\s*(?:pub )?(?:record|data)\s+([A-Za-z][\w'\-]*)")
TOKEN = re.compile(r"[A-Za-z_][\w']*(?:-[\w']+)*")
# lemmas that are named by the function they are about
JOINED = ("total", "length")
# names that would otherwise fall together with another name
# a lemma of the repository beside one of the library with its name
LIBRARY = ("append-nil",)
APART = {name: name.replace("-", "_") + "_lem" for name in ("least-line", "channel-line", "may-release", "bulk-bytes", "is-mat", "offer-bytes", "some-schedule", "idle-shut-out", "point-after")}


def antt_files():
    return sorted(glob.glob("crates/*/specs/**/*.antt", recursive=True) + glob.glob("crates/*/proofs/**/*.antt", recursive=True))


def declared():
    """The names that the repository's specs/ and proofs/ declare, but for the answers to goals."""
    names = {}
    for path in antt_files():
        for line in open(path):
            head = HEAD.match(line)
            if head:
                names.setdefault(head.group(1), path)
            m = SIGNATURE.match(line)
            if m and not re.match(r"(goal|need|given)\.", m.group(3)):
                names.setdefault(m.group(2), path)
    return names


def snake(name):
    name = re.sub(r"(?<=[a-z])(?=[A-Z])", "_", name)
    return name.replace("-", "_").lower()


def camel(name):
    return "".join(part[:1].upper() + part[1:] for part in name.split("-"))


def spelled(name):
    if name in LIBRARY:
        return name
    if name in APART:
        return APART[name]
    if name[0].isupper():
        return camel(name)
    if len(name) == 1 or not re.search(r"[A-Z\-]", name):
        return name
    first, dash, rest = name.partition("-")
    if dash and first in JOINED:
        return first + "-" + snake(rest)
    return snake(name)


def table():
    return {name: spelled(name) for name in declared() if spelled(name) != name}


def respell(text, names, generated):
    """The text with its tokens respelled; where names are generated, what follows a step's record is left."""

    def one(m):
        before = text[max(0, m.start() - 6):m.start()]
        if generated and re.search(r"(^|[^\w.])(c|w|l|goal)\.$", before):
            return m.group(0)
        return names.get(m.group(0), m.group(0))

    return TOKEN.sub(one, text)


def source(text, names):
    """Source: clauses and ghost items name definitions; comments and strings are left."""
    out = []
    for line in text.split("\n"):
        code, mark, comment = line.partition("//")
        pieces = re.split(r'("(?:[^"\\]|\\.)*")', code)
        code = "".join(p if p.startswith('"') else respell(p, names, False) for p in pieces)
        out.append(code + mark + comment)
    return "\n".join(out)


def page(text, names):
    return re.sub(r"`[^`\n]*`", lambda m: respell(m.group(0), names, False) if "/" not in m.group(0) else m.group(0), text)


def main():
    names = table()
    if "--list" in sys.argv:
        for old in sorted(names):
            print(old, names[old])
        return
    edit = lambda text, n: "\n".join(respell(x, n, False) if x.startswith(("old:", "new:")) else x for x in text.split("\n"))
    work = [(path, (lambda t, n, p=path: respell(t, n, "/Answers" in p or "/Invariants" in p or "/Choices" in p))) for path in antt_files()]
    work += [(path, source) for path in sorted(glob.glob("crates/*/src/**/*.rt", recursive=True))]
    work += [(path, edit) for path in sorted(glob.glob("crates/*/must-fail/*.edit"))]
    work += [(path, page) for path in ["README.md"] + sorted(glob.glob("docs/**/*.md", recursive=True))]
    for path, how in work:
        old = open(path).read()
        new = how(old, names)
        if new != old:
            open(path, "w").write(new)


main()
