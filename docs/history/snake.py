#!/usr/bin/env python3
"""Spells the repository's own antt names as its guides ask: words in snake case, an apostrophe for a prime.

usage: python3 tools/snake.py          at the top of the repository; rewrites crates/**/*.antt and the clauses of crates/**/*.rt
       python3 tools/snake.py --list   prints each old name beside its new one, and writes nothing

A lemma that is named after a left side that begins with a word of the library, as `length-top`, keeps the dash that joins the
two, and so does a name that ends in an operator or begins with a type. A fact is in camel case. Names that the checker makes
(goals and steps), strings, comments and code stay as they are.
It is to be run once, on the spelling of the older toolchain.
"""

import glob
import re
import sys

NAME = r"[^\s(){}\[\],;.:«»⌜⌝λ\"]+"
DECLARED = re.compile(rf"^(\s*)((?:abbrev |unfoldable |pub |data |record )*)({NAME})\s+(:)\s(.*)$")
HEADED = re.compile(rf"^(\s*)((?:abbrev |unfoldable |pub )*(?:data|record) )({NAME})")
TOKEN = re.compile(rf"«?{NAME}»?")
PLAIN = re.compile(r"[A-Za-z_][A-Za-z0-9_]*\Z")
RESERVED = set(
    "data record deriving module where use mod pub package open as unfoldable abbrev axiom unfold unfolding ruleset mutual "
    "infix infixl infixr elim let in do Type coe fcoe tcoe hcom com".split()
)
WORDS = {"length", "take", "drop", "map", "replicate", "reverse", "sum_by", "slice_set", "append"}
MADE = re.compile(r"proofs/.+/(Answers|Invariants|Proof)\.antt$")


def sources():
    for kind in ("specs", "proofs"):
        yield from sorted(glob.glob(f"crates/*/{kind}/**/*.antt", recursive=True))


def declared():
    """Own names with their kind: 'word' for a definition, a field or a constructor, 'lemma' for the others."""
    names = {}
    for path in sources():
        made = MADE.search(path)
        with open(path, encoding="utf-8") as f:
            for line in f:
                if line.lstrip().startswith("--"):
                    continue
                m = HEADED.match(line)
                if m:
                    names[m.group(3)] = "word"
                    continue
                m = DECLARED.match(line)
                if not m or (made and m.group(5).startswith("goal.")):
                    continue
                word = m.group(1) or "abbrev" in m.group(2) or "unfoldable" in m.group(2)
                if word or m.group(3) not in names:
                    names[m.group(3)] = "word" if word else "lemma"
    return names


def snake(name):
    return name.replace("-", "_").replace("′", "'")


def camel(name):
    return "".join(part[:1].upper() + part[1:] for part in name.split("-")).replace("′", "'")


def spelled(names):
    """Each own name that changes, with its new spelling."""
    new = {}
    for name, kind in names.items():
        if "-" not in name and "′" not in name:
            continue
        parts = name.split("-")
        if not re.fullmatch(r"\w+['′]*", parts[-1]):
            continue
        if name[0].isupper():
            to = camel(name) if kind == "word" else name
        elif kind == "lemma" and parts[0] in WORDS:
            to = parts[0] + "-" + snake("-".join(parts[1:]))
        else:
            to = snake(name)
        if to != name:
            new[name] = to
    return new


def turned(text, new, comment):
    def one(m):
        word = m.group(0)
        bare = word.strip("«»")
        to = new.get(bare, bare)
        if word.startswith("«"):
            return to if PLAIN.match(to) and to not in RESERVED else f"«{to}»"
        return to if bare in new else word

    lines = []
    for line in text.split("\n"):
        at = line.find(comment)
        code, rest = (line, "") if at < 0 else (line[:at], line[at:])
        pieces = code.split('"')
        pieces[::2] = [TOKEN.sub(one, p) for p in pieces[::2]]
        lines.append('"'.join(pieces) + rest)
    return "\n".join(lines)


def main(argv):
    names = declared()
    new = spelled(names)
    for old, to in sorted(new.items()):
        if to in names:
            print(f"falls together: {old} and {to}")
    if argv == ["--list"]:
        for old, to in sorted(new.items()):
            print(f"{old} -> {to}")
        return 0
    for paths, comment in ((list(sources()), "--"), (sorted(glob.glob("crates/*/src/**/*.rt", recursive=True)), "//")):
        for path in paths:
            with open(path, encoding="utf-8") as f:
                was = f.read()
            now = turned(was, new, comment)
            if now != was:
                with open(path, "w", encoding="utf-8") as f:
                    f.write(now)
    return 0


if __name__ == "__main__":
    raise SystemExit(main(sys.argv[1:]))
