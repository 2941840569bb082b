#!/usr/bin/env python3
"""Brings the repository's own names in specs/, proofs/ and clauses to today's spelling.

usage: python3 tools/spell.py [--list]     at the top of the repository, once, after port.py and before any edit by hand

A definition, lemma, constructor or field is in snake case, a type or a fact in upper camel case. Where a lemma, a rule or a field would then have
the name of a definition, it gets `_lem`, `_rule` or `_holds`. The names that words in backticks of the pages have are brought over too. With --list
it prints the names, old and new, and writes nothing.
"""
import collections
import os
import re
import sys

STOP = r"\s(){}\[\];,.\"λ|`:@\\"
TOKEN = re.compile(r"[^%s]+" % STOP)
HEAD = re.compile(r"(?m)^([ \t]*)((?:(?:pub|abbrev|unfoldable|data|record)[ \t]+)*)([^%s]+)((?:[ \t]+[^\n:]*?)?)[ \t]*:(?=[ \t]|$)" % STOP)
WORDS = {"use", "open", "where", "let", "in", "unfolding", "pub", "abbrev", "mod", "syntax"}


def files(root, ends):
    for folder, dirs, names in os.walk(os.path.join(root, "crates")):
        dirs[:] = sorted(d for d in dirs if d not in ("out", "must-fail"))
        for f in sorted(names):
            if f.endswith(ends):
                yield os.path.join(folder, f)


def pages(root):
    for folder, dirs, names in os.walk(root):
        dirs[:] = sorted(d for d in dirs if d not in ("crates", ".git", "target", "wip", "tests", "rust"))
        for f in sorted(names):
            if f.endswith(".md"):
                yield os.path.join(folder, f)


def read(p):
    with open(p, encoding="utf-8") as f:
        return f.read()


def snake(word):
    return re.sub(r"([a-z0-9])([A-Z])", r"\1_\2", word).lower()


def gather(root):
    """The names that are declared, each with its kinds: type, rule (a constructor), field or lemma."""
    found = collections.defaultdict(set)
    for p in files(root, ".antt"):
        block, depth = None, 0
        text = re.sub(r"--[^\n]*", "", read(p))
        for m in HEAD.finditer(text):
            indent, words, name = len(m.group(1)), m.group(2).split(), m.group(3)
            if name in WORDS or (indent and not words and m.group(4).strip()):
                continue
            signature = text[m.end() : re.compile(r"\n(?![ \t])|\n[ \t]*\n|\Z").search(text, m.end()).start()].split("\n")[0]
            if "data" in words or "record" in words:
                found[name].add("type")
                block, depth = ("rule" if "data" in words else "field"), indent
                continue
            if block and indent <= depth:
                block = None
            if not re.search(r"[A-Z]", name[:1]) and re.search(r"(^|→ )Type \d+\s*$", signature):
                found[name].add("type")
            else:
                found[name].add(block or "lemma")
    return found


def new_names(root):
    found = gather(root)
    turn = {}
    for n, kinds in found.items():
        if not re.match(r"[A-Za-z]", n) or "·" in n or "◌" in n or re.match(r"invariant-|decreases-", n) or re.fullmatch(r"[A-Z][A-Za-z0-9']*", n):
            continue
        if kinds == {"type"} or re.match(r"[A-Z]", n):
            new = "".join(w[:1].upper() + w[1:] for w in re.split(r"[-_]", n))
        else:
            new = "_".join(snake(w) for w in n.split("-"))
        if new != n:
            turn[n] = new

    def told_apart(n, new):
        kinds = found[n]
        return new + ("_rule" if "rule" in kinds else "_holds" if "field" in kinds else "_lem")

    at = collections.Counter(turn.values())
    for n in list(turn):
        new = turn[n]
        if "-" in n and (new in found or at[new] > 1):
            turn[n] = told_apart(n, new)
        elif "-" not in n and new in found:
            turn[new] = told_apart(new, new)
    return found, turn


def told(text, turn):
    return TOKEN.sub(lambda m: turn.get(m.group(0), m.group(0)), text)


def told_in_proof(text, turn, found):
    """As told, but a name behind a dot is what the prover made, unless a record has it."""

    def name(m):
        n = m.group(0)
        if m.start() and text[m.start() - 1] == "." and "field" not in found.get(n, ()):
            return n
        return turn.get(n, n)

    return TOKEN.sub(name, text)


def in_antt(text, turn, found, proof):
    camel = {n: new for n, new in turn.items() if re.search(r"[a-z][A-Z]", n)}

    def line(l):
        code, dash, comment = l.partition("--") if not re.search(r'"[^"]*--', l) else (l, "", "")
        return (told_in_proof(code, turn, found) if proof else told(code, turn)) + dash + (told(comment, camel) if dash else "")

    return "\n".join(line(l) for l in text.split("\n"))


def in_rust(text, turn):
    camel = {n: new for n, new in turn.items() if re.search(r"[a-z][A-Z]", n)}
    clauses = {n: new for n, new in turn.items() if not re.fullmatch(r"[a-z0-9_]+", n)}

    def line(l):
        code, dash, comment = l.partition("//")
        return told(code, clauses) + dash + (told(comment, camel) if dash else "")

    return "\n".join(line(l) for l in text.split("\n"))


def in_page(text, turn, found):
    """Pages have the names of before port.py: those that it turned are looked up by their spelling."""
    known = set(found) | set(turn.values())

    def name(m):
        n = m.group(0)
        new = "_".join(snake(w) for w in n.split("-"))
        return turn.get(n) or (new if re.match(r"[a-z]", n) and new != n and new in known else n)

    return re.sub(r"`[^`\n]+`", lambda m: TOKEN.sub(name, m.group(0)), text)


def main():
    root = os.path.dirname(os.path.dirname(os.path.realpath(__file__)))
    found, turn = new_names(root)
    if "--list" in sys.argv:
        for n, new in sorted(turn.items()):
            print(n, new, ",".join(sorted(found[n])))
        return
    for p in list(files(root, ".antt")) + list(files(root, ".rt")) + list(pages(root)):
        text = read(p)
        new = in_antt(text, turn, found, re.search(r"/proofs/[^/]+/", p)) if p.endswith(".antt") else in_rust(text, turn) if p.endswith(".rt") else in_page(text, turn, found)
        if new != text:
            with open(p, "w", encoding="utf-8") as f:
                f.write(new)


if __name__ == "__main__":
    main()
