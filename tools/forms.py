#!/usr/bin/env python3
"""Counts in crates/*/src the places of older forms of Rattle, point by point (docs/DESIGN-PASS.md).

    tools/forms.py          the counts
    tools/forms.py -v       each place with them
    tools/forms.py POINT    the places of one point, as 3

It reads the text alone. A point's other name is the number of its row on the page.
"""
import collections
import glob
import re
import sys

FUNCTION = re.compile(r"^\s*(?:pub )?(?:unsafe )?(?:extern \"C\" )?fn (\w+)", re.M)


def sources():
    for path in sorted(glob.glob("crates/*/src/**/*.rt", recursive=True)):
        with open(path, encoding="utf-8") as file:
            yield path, file.read()


def code(text):
    """The text with comments blanked."""
    return re.sub(r"//[^\n]*", lambda m: " " * len(m.group()), text)


def line_of(text, at):
    return text.count("\n", 0, at) + 1


def block(text, at):
    """The text of the braces that open at or after `at`."""
    start = text.index("{", at)
    depth = 0
    for i in range(start, len(text)):
        if text[i] == "{":
            depth += 1
        elif text[i] == "}":
            depth -= 1
            if depth == 0:
                return text[start + 1:i]
    return text[start + 1:]


def functions(text):
    """Each function's name, head (signature and clauses) and place."""
    found = list(FUNCTION.finditer(text))
    for i, m in enumerate(found):
        end = found[i + 1].start() if i + 1 < len(found) else len(text)
        part = text[m.start():end]
        body = re.search(r"^\s*\{\s*$", part, re.M)
        yield m.group(1), part[:body.start()] if body else part.split("{")[0], m.start()


def own_option(path, text):
    """1: an enum with a variant that has one value or none beside variants of a name for none or for a refusal."""
    for m in re.finditer(r"enum (\w+)[^{]*\{", text):
        body = block(text, m.start())
        names = re.findall(r"^\s*(\w+)\s*(?:[\(\{,]|$)", re.sub(r"\{[^{}]*\}", "(..)", body), re.M)
        none = {"None", "Nowhere", "Unknown", "Other", "Fail", "Refused", "End", "Passed", "Broken"}
        if 2 <= len(names) <= 3 and none & set(names):
            yield m.start(), "enum " + m.group(1)


def flags(path, text):
    """1: a struct's field of truth beside others."""
    for m in re.finditer(r"struct (\w+)[^{;]*\{", text):
        for f in re.finditer(r"(\w+): bool", block(text, m.start())):
            yield m.start(), "struct %s { %s: bool }" % (m.group(1), f.group(1))


def codes(path, text):
    """1: a constant that is a kind's number or a packing; a result that is 0 for none; a test of a number against a kind's."""
    for m in re.finditer(r"^\s*(?:pub )?const ([A-Z_]+): (?:u8|usize|Packed) = (?:\d{1,2}|\d{7,});", text, re.M):
        if m.group(1) not in {"CHUNK", "ROWS", "LISTING", "PAGE", "SUMS", "AT_ONCE", "FILL", "GUARD", "SLOTS"}:
            yield m.start(), "const " + m.group(1)
    for m in re.finditer(r"\b(kind|open|past|after|comma|next|first|relation) == [01]\b", text):
        yield m.start(), m.group()
    for m in re.finditer(r"^type \w+ = (?:u\d+|usize);", text, re.M):
        yield m.start(), m.group()
    for m in re.finditer(r"fn number\(", text):
        yield m.start(), "fn number"


def loops(path, text):
    """3: a while whose test's variable is counted by hand."""
    for m in re.finditer(r"\bwhile ([^{]+)\{", text):
        body = block(text, m.start())
        for name in set(re.findall(r"[a-z_]\w*", m.group(1))):
            if re.search(r"\b%s [+-]= 1;" % name, body):
                yield m.start(), "while " + m.group(1).strip()
                break


def by_hand(path, text):
    """4: a match that lists kinds to say true or false; a function that is a method of std; a widening cast."""
    for m in re.finditer(r"\bmatch [^{]+\{", text):
        arms = re.findall(r"=>\s*(true|false)\b", block(text, m.start()))
        if len(arms) >= 3:
            yield m.start(), "match of %d truths" % len(arms)
    for m in re.finditer(r"^\s*(?:pub )?fn (smaller|larger|lesser|pick|choose|wide|wide_byte|either|both|above|less|magnitude|missing|one_if|number|outside)\(",
                         text, re.M):
        yield m.start(), "fn " + m.group(1)
    for m in re.finditer(r"\bscalars::\w+", text):
        yield m.start(), m.group()
    for m in re.finditer(r"\bas (usize|u16|u32|u64|i16|i32|i64)\b", text):
        yield m.start(), m.group()


def heads():
    for path, text in sources():
        text = code(text)
        for name, head, at in functions(text):
            yield path, line_of(text, at), name, head


def facts():
    """5: facts that stand in the `requires` of three functions or more."""
    where = collections.defaultdict(list)
    for path, line, name, head in heads():
        for clause in re.findall(r"requires\s+(?:\w+\s+)?\{(.*?)\}\s*(?=requires|ensures|$)", head, re.S):
            for fact in clause.split("×"):
                fact = re.sub(r"\s+", " ", fact).strip(" ()")
                if fact:
                    where[fact].append("%s:%d %s" % (path, line, name))
    return {f: w for f, w in where.items() if len(w) >= 3}


PAIRS = [("table", "t", "m", "l"), ("table", "n"), ("out", "at"), ("t", "l"), ("figures", "e"), ("text", "at"), ("layout", "plan")]


def together():
    """5: parameters that travel together."""
    count = collections.Counter()
    for path, line, name, head in heads():
        names = set(re.findall(r"(\w+):", head.split(")")[0]))
        for group in PAIRS:
            if set(group) <= names:
                count[group] += 1
    return count


def buffers(path, text):
    """6: an array or a slice lent for writing whose used length is the result, or is kept beside it."""
    for m in re.finditer(r"^\s*(?:pub )?fn (\w+)\(([^)]*&mut \[[^)]*)\) -> usize", text, re.M):
        if "at:" not in m.group(2):
            yield m.start(), "fn " + m.group(1)
    for m in re.finditer(r"layout: &(?:mut )?\[usize; 256\]", text):
        yield m.start(), "layout"


def switches(path, text):
    """7: a match of eight arms or more that calls another function in each of five or more."""
    for m in re.finditer(r"\bmatch [^{]+\{", text):
        body = block(text, m.start())
        calls = {c for c in re.findall(r"=>\s*([a-z_:]+)\(", body)}
        if len(calls) >= 5:
            yield m.start(), "match of %d calls" % len(calls)


def each(find):
    for path, text in sources():
        text = code(text)
        for at, what in find(path, text):
            yield "%s:%d %s" % (path, line_of(text, at), what)


def twins():
    """2: functions of one crate whose bodies are the same but for names and numbers."""
    same = collections.defaultdict(list)
    for path, text in sources():
        text = code(text)
        for name, head, at in functions(text):
            body = block(text, at + len(head)) if "{" in text[at + len(head):] else ""
            shape = re.sub(r"\b\d[\w.]*\b|b'[^']+'", "0", body)
            shape = re.sub(r"\b[a-z_]\w*(?:::\w+)*\b|\b[A-Z]\w*(?:::\w+)*\b", "x", shape)
            shape = re.sub(r"\s+", "", shape)
            if len(shape) >= 40:
                same[shape].append("%s:%d %s" % (path, line_of(text, at), name))
    for places in same.values():
        if len(places) >= 2:
            yield from places


def proofs():
    files = glob.glob("crates/*/proofs/**/Answers.antt", recursive=True)
    lines = sum(len(open(f, encoding="utf-8").read().splitlines()) for f in files)
    return files, lines


def main():
    verbose = "-v" in sys.argv
    wanted = [a for a in sys.argv[1:] if a.isdigit()]
    rows = [("1", own_option, "own enums of the shape of Option or Result"), ("1", flags, "flags with a value beside"),
            ("1", codes, "numbers for kinds, refusals or none"), ("3", loops, "loops that count by hand"),
            ("4", by_hand, "conversion, order and tests by hand"), ("6", buffers, "lengths beside a buffer, parallel arrays"),
            ("7", switches, "switches on which step to run")]
    for point, find, what in rows:
        if wanted and point not in wanted:
            continue
        found = list(each(find))
        print("%s  %4d  %s" % (point, len(found), what))
        if verbose or wanted:
            print("".join("      %s\n" % f for f in found), end="")
    if not wanted or "2" in wanted:
        found = list(twins())
        print("2  %4d  functions that have the shape of another" % len(found))
        if verbose or wanted:
            print("".join("      %s\n" % f for f in found), end="")
    if not wanted or "5" in wanted:
        found = facts()
        print("5  %4d  facts in three contracts or more, %d times in all" % (len(found), sum(map(len, found.values()))))
        for group, count in together().most_common():
            print("5  %4d  functions with the parameters %s" % (count, ", ".join(group)))
        if verbose or wanted:
            for fact, places in sorted(found.items(), key=lambda p: -len(p[1])):
                print("      %3d  %s" % (len(places), fact))
    if not wanted or "8" in wanted:
        files, lines = proofs()
        print("8  %4d  files of answers, %d lines" % (len(files), lines))


main()
