#!/usr/bin/env python3
"""Brings the edits of crates/*/must-fail/ to today's spelling: the same change, in the text that a file has now.

usage: python3 tools/respell_edits.py COMMIT      at the top, once: COMMIT has the files and the edits in the old spelling

- An edit is read as it stands in COMMIT, where it must apply, and its old and new texts are respelled by the words of
  tools/respelled.tsv and by a few rules: primes, the dot of a field, a clause that names what a function returns.
- A word in camel case that a file has in snake case today is written so.
- It is written only if each old text then stands exactly once in today's file. The others are named, to be mended by hand,
  and so is each word of a new text that stands nowhere in today's file.
"""

import glob
import re
import subprocess
import sys

TOKEN = re.compile(r"[^\W\d][\w'\u2080-\u2089]*(?:-[\w'\u2080-\u2089]+)*")
LIBRARY = {"getD": "get_or", "negℤ": "neg_ℤ", "natAbs": "nat_abs", "at-least": "at_least"}


def words_of():
    with open("tools/respelled.tsv", encoding="utf-8") as f:
        return dict(line.rstrip("\n").split("\t") for line in f) | LIBRARY


def snake(word):
    return re.sub(r"(?<=[a-z0-9'])([A-Z])", lambda m: "_" + m.group(1).lower(), word)


def respelled(text, words, today):
    """The text in today's spelling, as a file of specs/ or a clause of src/ has it."""

    def turn(m):
        word = m.group()
        word = words.get(word, word)
        return snake(word) if word not in today and snake(word) in today else word

    text = text.replace("\u2032", "'")
    text = re.sub(r"\(([\w']+) \.(\w+)\)", r"\1.\2", text)
    text = re.sub(r"(?<=[\w')\]]) \.(?=\w)", ".", text)
    return TOKEN.sub(turn, text)


def clause(text):
    """A clause that named what the function returns by a λ says `result`."""

    def turn(m):
        return f"{m[1]} {{ " + re.sub(rf"(?<![\w'.-]){m[2]}(?![\w'-])", "result", m[3]) + " }"

    return re.sub(r"(ensures) \{ λ (\w+)\. ⌜ (.*) ⌝ \}", turn, text)


def main():
    commit, words = sys.argv[1], words_of()

    def at(path):
        return subprocess.run(["git", "show", f"{commit}:{path}"], capture_output=True, text=True, check=True, encoding="utf-8").stdout

    done = 0
    for edit in sorted(glob.glob("crates/*/must-fail/*.edit")):
        crate, lines, out, why = edit.split("/")[1], at(edit).split("\n"), [], ""
        before = path = None
        for line in lines:
            if line.startswith("file: "):
                path = f"crates/{crate}/{line[6:].strip()}"
                before = at(path)
                with open(path, encoding="utf-8") as f:
                    now = today = f.read()
                in_code = path.endswith(".rt")
            elif line.startswith(("old: ", "new:")):
                text = line[5:]
                if in_code:
                    turned = clause(text)
                    turned = respelled(turned, words, today) if turned != text else text
                else:
                    turned = respelled(text, words, today)
                if line.startswith("old: "):
                    old = (text, turned)
                    if before.count(text) != 1:
                        why = why or f"did not apply in {commit}: {text}"
                    if now.count(turned) != 1:
                        why = why or f"stands {now.count(turned)} times: {turned}"
                else:
                    before, now = before.replace(old[0], text), now.replace(old[1], turned)
                    new_words = {w for w in TOKEN.findall(turned) if not re.search(rf"(?<![\w'-]){re.escape(w)}(?![\w'-])", today)}
                    if new_words:
                        print(f"look: {edit}: words that the file does not have: {' '.join(sorted(new_words))}")
                line = line[:4] + (" " + turned if turned or line[4:] else "")
            out.append(line)
        if why:
            print(f"left: {edit}: {why}")
            continue
        done += 1
        with open(edit, "w", encoding="utf-8") as f:
            f.write("\n".join(out))
    print(f"{done} edits respelled")


if __name__ == "__main__":
    main()
