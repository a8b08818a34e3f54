#!/usr/bin/env python3
"""Brings the repository's own definitions and lemmas to today's spelling: words in snake case, a dash only between two names.

usage: python3 tools/respell.py      at the top, once, after port.py and before any edit by hand

- A word such as rowsOutcome becomes rows_outcome, in specs/, in proofs/ and in the contracts of src/.
- A dash stays where both sides are words that stand by themselves (length-rows_in) and becomes _ where a side is a plain word (first_none).
- A clause `λ r. ⌜ .. r .. ⌝` says `result`; the word `result` of an answer is `returned`.
- Functions of src/, strings, inputs and names that Rattle makes keep their spelling.
"""

import collections
import os
import re

TOKEN = re.compile(r"[^\W\d][\w'\u2080-\u2089]*(?:-[\w'\u2080-\u2089]+)*")
HEAD = re.compile(r"\s*(?:(?:pattern|unfoldable|abbrev|pub)\s+)*([^\s(){}:.]+)\s*(?:\{[^}]*\})?\s*:\s")
MADE = ("if-", "in-", "loop-", "then-", "else-", "returns", "invariant-", "decreases-", "overflow", "Need-")
FIXED = {"hP": "hP", "is_IsWord": "is_word_fact"}
RESULT = "returned"  # the word result of an answer, since a clause calls what a function returns `result`
LITERAL = re.compile(r"^(x[0-9A-F_]+|a0.*)$")
OPEN_WORDS = "length map append drop take sum reverse replicate get_or set pow mul add sub div mod and or not digits eqb ltb leb max min".split()


def files(root, exts):
    for folder, dirs, names in os.walk(root):
        dirs[:] = sorted(d for d in dirs if d not in ("out", ".git"))
        for name in sorted(names):
            if name.endswith(exts):
                yield os.path.join(folder, name)


def snake(word):
    return re.sub(r"(?<=[a-z0-9\u2080-\u2089'])([A-Z])", lambda m: "_" + m.group(1).lower(), word)


def is_camel(part):
    return part[:1].islower() and re.search(r"[a-z0-9][A-Z]", part) is not None and not LITERAL.match(part)


def own_definitions(text):
    return [m.group(1) for m in map(HEAD.match, text.split("\n")) if m]


def ghost_spans(text):
    """The parts of a source file that are words of antt: ghost lines, and clauses from their kind to their last brace."""
    for m in re.finditer(r"^\s*ghost use [^;]*;", text, re.M):
        yield m.span()
    for m in re.finditer(r"^\s*(?:pub )?(?:ghost \w+|requires|ensures|decreases)\*?[^\n{;]*\{", text, re.M):
        depth, i = 1, m.end()
        while depth and i < len(text):
            depth += {"{": 1, "}": -1}.get(text[i], 0)
            i += 1
        yield m.start(), i
    for m in re.finditer(r"#\[tactic\([^\n]*\]", text):
        yield m.span()


def respell(text, names):
    return TOKEN.sub(lambda m: names.get(m.group(), m.group()), text)


def outside_strings(text, names):
    parts = re.split(r'("(?:[^"\\\n]|\\.)*")', text)
    return "".join(p if i % 2 else respell(p, names) for i, p in enumerate(parts))


def names_result(text):
    """Whether the file has the word `result` of an answer: it imports or defines it."""
    return re.search(r"use [^;{\n]*\{[^}]*\bresult\b[^}]*\}", text) is not None or re.search(r"^[a-z ]*\bresult :", text, re.M) is not None


def turn_result(text):
    return re.sub(r"(?<![.\w'-])result(?![\w'-])", RESULT, text)


def plain_clauses(text):
    """A clause that names what the function returns by a λ says `result`."""

    def turn(m):
        body = m.group(3) if m.group(2) == "_" else re.sub(r"(?<![.\w'-])" + m.group(2) + r"(?![\w'-])", "result", m.group(3))
        return f"ensures{m.group(1)} {{ {body} }}"

    return re.sub(r"ensures\*((?: \w+)?) \{ λ (\w+)\. ⌜ ([^⌝]*) ⌝ \}", turn, text)


def plan():
    tokens, defined = collections.Counter(), collections.Counter()
    for path in files("crates", (".antt", ".rt")):
        with open(path, encoding="utf-8") as f:
            text = f.read()
        if path.endswith(".antt"):
            code = re.sub(r"--.*", "", text)
            tokens.update(TOKEN.findall(code))
            if not re.search(r"/proofs/[^/]+/", path):
                defined.update(own_definitions(text))
        else:
            for a, b in ghost_spans(text):
                tokens.update(TOKEN.findall(text[a:b]))
    names = {}
    for word in tokens:
        parts = word.split("-")
        if any(is_camel(p) for p in parts):
            names[word] = "-".join(snake(p) if is_camel(p) else p for p in parts)
    names.update({a: b for a, b in FIXED.items() if a in tokens})
    stands = {names.get(d, d) for d in defined if "-" not in d} | set(OPEN_WORDS)
    for word in defined:
        if "-" in word and not word.startswith(MADE):
            parts = names.get(word, word).split("-")
            out = parts[0]
            for before, after in zip(parts, parts[1:]):
                out += ("-" if before in stands and after in stands else "_") + after
            if out != word:
                names[word] = out
    names = {a: b for a, b in names.items() if a != b}
    clash = {a: b for a, b in names.items() if b in tokens}
    twice = [b for b, n in collections.Counter(names.values()).items() if n > 1]
    return names, clash, twice, defined


def main():
    names, clash, twice, defined = plan()
    kept = []
    for a in sorted(clash):
        plain = "-" in a and not any(is_camel(p) for p in a.split("-"))
        if plain:
            kept.append(a)
            del names[a]
        elif clash[a] in defined:
            print(f"falls together: {a} with the lemma {clash[a]}, which becomes {clash[a]}_lem")
            names[clash[a]] = clash[a] + "_lem"
    for b in twice:
        for a in [a for a in names if names[a] == b and "-" in a and not any(is_camel(p) for p in a.split("-"))]:
            kept.append(a)
            del names[a]
        if sum(names[a] == b for a in names) > 1:
            print("two names become", b)
    print(f"{len(names)} names respelled, {len(kept)} keep their dash, since the other form is taken")
    if os.environ.get("ASK"):
        return
    with open("tools/respelled.tsv", "w", encoding="utf-8") as f:
        f.write("".join(f"{a}\t{b}\n" for a, b in sorted(names.items())))
    for path in files("crates", (".antt", ".rt")):
        with open(path, encoding="utf-8") as f:
            text = f.read()
        if path.endswith(".antt"):
            new = outside_strings(text, names)
            if names_result(text):
                new = turn_result(new)
        else:
            new, at = "", 0
            for a, b in sorted(ghost_spans(text)):
                if a >= at:
                    part = respell(text[a:b], names)
                    new += text[at:a] + (turn_result(part) if names_result(text) else part)
                    at = b
            new = plain_clauses(new + text[at:])
        if new != text:
            with open(path, "w", encoding="utf-8") as f:
                f.write(new)


if __name__ == "__main__":
    main()
