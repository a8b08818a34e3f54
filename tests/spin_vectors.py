#!/usr/bin/env python3
"""Makes tests/spin.txt: the truth of rules over runs, as the model checker SPIN has it.

    python3 tests/spin_vectors.py            writes the file (about ten minutes)
    python3 tests/spin_vectors.py --check    says whether the file is what SPIN gives, and writes nothing

Needs gcc and spin with its operator X (next), which rules with windows are told by. SPIN's own makefile builds it with X,
Debian's package without: `apt-get source spin`, then `make` in the folder Src, and its `spin` is found by PATH or named
by the variable SPIN. The file in the repository was made with
    spin -V         Spin Version 6.5.2 -- 6 December 2019
    gcc --version   gcc (Debian 12.2.0-14+deb12u1) 12.2.0
    python3 -V      Python 3.11.7
The rules and runs come from the three seeds alone, so the same file comes out each time. Debian's spin gave the lines before
those with windows.

A line is one rule over one run; in the second form slot L, which is below T, comes again after slot T (request N8):

    T M n1,n2,..,nT BITS RULE
    T>L M n1,n2,..,nT BITS RULE

n1.. are the run's numbers, BITS has a character for each slot (0, 1, or - where SPIN was not asked), RULE is the
rest of the line. The rules are made as trees. Their text is written for the toolkit's reader, with the brackets
that its grammar needs, some with more, and with spaces. SPIN gets the tree with every operation in brackets, so its
own precedence plays no part.

The model has one endless execution: the run slot by slot, then the slots L to T for ever, or the last slot. `v` is the run's
number and `s` the slot. For each rule and slot there are two claims: at s the rule holds, and at s its negation holds, each
time that s comes. SPIN must find exactly one of them true; a claim that is true for want of a check would show as two true ones.

A step of the model is a slot, so F[a,b] p is a times X before p || X (p || X ..), and G[a,b] p the same with &&: the slots
after the last are those of the model, and nothing of it is worked out here. Such models are checked without SPIN's
reductions, which are not for X.
"""

import os
import random
import re
import subprocess
import sys
import tempfile
from collections import Counter
from pathlib import Path

from data_file import write_or_check

SPIN = os.environ.get("SPIN", "spin")
SEED = 20261115
WINDOW_SEED = 20261116
LOOP_SEED = 20261117
TREES_PER_RUN = 8
WINDOW_TREES_PER_RUN = 6
LOOP_TREES_PER_RUN = 4
LONGEST_LOOPED = 8  # the largest T of the runs that loop
CHAINS = ("U", ">", ">|&U")  # the operators of three more rules for each run, without brackets
LARGEST_DEPTH = 6
MOST_WEIGHT = 6  # SPIN's automata grow fast with the number of F, G and U
LARGEST_WINDOW = 4  # and of X

# A tree is ("a", number), (operator, child) or (operator, left, right); an operator with a window is the text `F[0,5]`.
SINGLE = "!FG"
DOUBLE = ">|&U"  # loosest first
WEIGHT = {"F": 1, "G": 1, "U": 2}
SPIN_OPERATOR = {"!": "!", "F": "<>", "G": "[]", ">": "->", "|": "||", "&": "&&", "U": "U"}

# The paper's known rules and runs, T 3 and M 2.
U01 = ("U", ("a", 0), ("a", 1))
KNOWN = [
    (U01, [1, 1, 2], "a0 U a1"),
    (U01, [1, 1, 1], "a0 U a1"),
    (U01, [1, 0, 2], "a0 U a1"),
    (("F", ("a", 1)), [0, 2, 0], "F a1"),
    (("G", ("a", 0)), [0, 1, 1], "G a0"),
    ((">", ("a", 0), ("a", 1)), [0, 1, 3], "a0>a1"),
    (("G", ("F", ("a", 0))), [1, 1, 0], "GFa0"),
    (("F", ("G", ("a", 0))), [0, 0, 1], "FGa0"),
]

# The paper's accepted long texts, with its least and its largest horizon.
NOTS = ("a", 0)
for _ in range(127):
    NOTS = ("!", NOTS)
LONG = [(tree, run, words) for tree, words in ((NOTS, "!" * 127 + "a0"), (("a", 0), "a0" + " " * 1022)) for run in ([1], [0, 1] * 32)]


# Rules with windows, each over the runs of WINDOW_RUNS.
A0, A1 = ("a", 0), ("a", 1)
WINDOWS = [
    (("F[0,0]", A0), "F[0,0]a0"),
    (("G[0,0]", A0), "G[0,0]a0"),
    (("F[0,1]", A0), "F[0,1]a0"),
    (("G[0,1]", A0), "G [ 0 , 1 ] a0"),
    (("F[1,1]", A0), "F[1,1]a0"),
    (("F[1,2]", A0), "F[1,2]a0"),
    (("G[1,2]", A0), "G[1,2]a0"),
    (("F[2,4]", A0), "F[2,4]a0"),
    (("G[3,4]", A0), "G[3,4]a0"),
    (("F[0,1]", ("G[1,2]", A0)), "F[0,1]G[1,2]a0"),
    (("G[1,1]", ("F[0,2]", A1)), "G[1,1]F[0,2]a1"),
    (("U", ("F[0,1]", A0), A1), "F[0,1]a0Ua1"),
    (("F[0,1]", ("U", A0, A1)), "F[0,1](a0Ua1)"),
    (("G", (">", A0, ("F[1,2]", A1))), "G(a0>F[1,2]a1)"),
    (("F[0,7]", A1), "F[0,7]a1"),
    (("G[5,8]", A0), "G[5,8]a0"),
]
WINDOW_RUNS = [[1], [2], [1, 2], [2, 1], [1, 0, 2], [0, 1, 3], [3, 2, 0], [0, 0, 1, 2], [2, 0, 1, 1, 0, 1, 1, 1, 1, 2]]

# Rules whose truth a loop may turn, without and with windows, each over the runs of LOOP_RUNS, where L stands behind the run.
NOT_A0 = ("!", A0)
LOOPED = [
    (("F", A0), "Fa0"),
    (("G", A0), "Ga0"),
    (U01, "a0Ua1"),
    (("U", A1, A0), "a1Ua0"),
    (("G", ("F", A0)), "GFa0"),
    (("F", ("G", A0)), "FGa0"),
    (("!", ("U", NOT_A0, A1)), "!(!a0Ua1)"),
    (("G", (">", A0, ("F", A1))), "G(a0>Fa1)"),
    (("U", A0, ("U", A1, NOT_A0)), "a0Ua1U!a0"),
]
LOOPED_WINDOWS = [
    (("F[0,1]", A0), "F[0,1]a0"),
    (("G[0,1]", A0), "G[0,1]a0"),
    (("F[1,1]", A0), "F[1,1]a0"),
    (("G[2,3]", A1), "G[2,3]a1"),
    (("F[7,7]", A0), "F[7,7]a0"),
    (("G[5,8]", A0), "G[5,8]a0"),
    (("G[0,8]", ("|", A0, A1)), "G[0,8](a0|a1)"),
    (("G", (">", A0, ("F[1,2]", A1))), "G(a0>F[1,2]a1)"),
    (("U", ("F[0,1]", A0), ("G[1,2]", A1)), "F[0,1]a0UG[1,2]a1"),
]
LOOP_RUNS = [
    ([1, 0], 1), ([2, 1], 1), ([1, 1, 2], 1), ([2, 1, 0], 2), ([2, 0, 1], 1), ([1, 3, 1, 1], 2), ([0, 1, 0, 2], 3), ([2, 1, 1, 0, 1], 1),
]


def children(tree):
    return () if tree[0] == "a" else tree[1:]


def depth(tree):
    return 1 + max(map(depth, children(tree))) if children(tree) else 0


def operators(tree):
    yield tree[0]
    for child in children(tree):
        yield from operators(child)


def weight(tree):
    return sum(WEIGHT.get(operator, 0) for operator in operators(tree))


def window_of(operator):
    """The numbers of F[a,b] or G[a,b], and None of other operators."""
    window = re.fullmatch(r"[FG]\[(\d+),(\d+)\]", operator)
    return window and tuple(map(int, window.groups()))


def has_window(tree):
    return any(map(window_of, operators(tree)))


def random_tree(rng, levels, atoms, top=None, allowed=MOST_WEIGHT):
    """A tree of exactly `levels` levels of operators, of at most the weight that is allowed."""
    if levels == 0:
        return ("a", rng.choice(atoms))
    operator = top or rng.choice("!FFGG>>||&&UUU")
    if WEIGHT.get(operator, 0) > allowed:
        operator = rng.choice("!>|&")
    allowed -= WEIGHT.get(operator, 0)
    deep = random_tree(rng, levels - 1, atoms, None, allowed)
    if operator in SINGLE:
        return (operator, deep)
    for _ in range(9):  # two equal parts say little, but M 1 leaves no choice
        other = random_tree(rng, rng.randint(0, min(2, levels - 1)), atoms, None, allowed - weight(deep))
        if other != deep:
            break
    return (operator, deep, other) if rng.random() < 0.5 else (operator, other, deep)


def windowed(rng, tree):
    """The tree with most of its F and G, and some of its `!`, turned into windows."""
    operator, *parts = tree
    if operator == "a":
        return tree
    if rng.random() < {"F": 0.8, "G": 0.8, "!": 0.4}.get(operator, 0):
        end = rng.choice([0, 1, 1, 2, 2, 3, LARGEST_WINDOW])
        operator = f"{rng.choice('FG') if operator == '!' else operator}[{rng.randint(0, end)},{end}]"
    return (operator, *(windowed(rng, part) for part in parts))


def grouped(parts, between):
    """The tree of parts with operators between them and no brackets: the loosest splits, at its first place."""
    if not between:
        return parts[0]
    loosest = min(between, key=DOUBLE.index)
    at = between.index(loosest)
    return (loosest, grouped(parts[: at + 1], between[:at]), grouped(parts[at + 1 :], between[at + 1 :]))


def random_chain(rng, atoms, choice):
    """A rule of three to five parts without brackets, where grouping decides."""
    count = rng.randint(3, 5)
    parts = []
    for _ in range(count):
        part = ("a", rng.choice([atom for atom in atoms if not parts or ("a", atom) != parts[-1]] or atoms))
        parts.append((rng.choice("!!FG"), part) if rng.random() < 0.2 else part)
    return grouped(parts, [rng.choice(choice) for _ in range(count - 1)])


def text(tree, rng, spaces, brackets, level=0):
    """The rule as the toolkit reads it. Left of an operator binds more tightly than it, right as tightly."""
    gap = lambda: " " * rng.randint(1, 3) if rng.random() < spaces else ""
    operator = tree[0]
    own = DOUBLE.index(operator) if operator in DOUBLE else len(DOUBLE)
    if own < level or rng.random() < brackets:
        return f"{gap()}({text(tree, rng, spaces, brackets * 0.7)}){gap()}"
    if operator == "a":
        return f"{gap()}a{tree[1]}{gap()}"
    if len(tree) == 2:
        tokens = "".join(gap() + token for token in re.findall(r"\d+|\D", operator))
        return f"{tokens}{text(tree[1], rng, spaces, brackets, len(DOUBLE))}"
    left = text(tree[1], rng, spaces, brackets, own + 1)
    right = text(tree[2], rng, spaces, brackets, own)
    return f"{left}{operator}{right}"


def spin_text(tree):
    if tree[0] == "a":
        return f"((v & {2 ** tree[1]}) != 0)"
    if window_of(tree[0]):
        return spin_window(tree[0][0], *window_of(tree[0]), spin_text(tree[1]))
    operator = SPIN_OPERATOR[tree[0]]
    if len(tree) == 2:
        return f"({operator} {spin_text(tree[1])})"
    return f"({spin_text(tree[1])} {operator} {spin_text(tree[2])})"


def spin_window(kind, a, b, part):
    words = part
    for _ in range(b - a):
        words = f"({part} {'||' if kind == 'F' else '&&'} (X {words}))"
    for _ in range(a):
        words = f"(X {words})"
    return words


def random_run(rng, slots, m):
    """Numbers in which each atom stays for a while, so that untils are met late or just missed."""
    change = rng.choice([0.1, 0.25, 0.5])
    value = rng.randrange(2**m)
    numbers = []
    for _ in range(slots):
        numbers.append(value)
        value ^= sum(2**atom for atom in range(m) if rng.random() < change)
    return numbers


def plan(rng):
    """(M, run, [(tree, text, asked slots)]) for each run."""
    runs = [(2, run, [(tree, words, [1, 2, 3])]) for tree, run, words in KNOWN]
    horizons = [*range(1, 9), *range(1, 9), 1, 9, 10, 12, 13, 15, 16, 17, 20, 24, 31, 32, 33]
    horizons += [40, 47, 48, 50, 55, 60, 61, 63, 64, 64, 64]
    for number, slots in enumerate(horizons):
        m = (5 * number + 1) % 16 + 1
        run = random_run(rng, slots, m)
        trees = []
        for place in range(number * TREES_PER_RUN, (number + 1) * TREES_PER_RUN):
            atoms = rng.sample(range(m), min(m, rng.randint(2, 4)))
            trees.append(random_tree(rng, place % LARGEST_DEPTH + 1, atoms, (SINGLE + DOUBLE)[place % 7]))
        trees += [random_chain(rng, range(min(m, 4)), choice) for choice in CHAINS]
        rules = []
        for tree in trees:
            spaces, brackets = rng.choice([(0, 0), (0, 0), (0.3, 0), (0, 0.25), (0.25, 0.25)])
            asked = range(1, slots + 1)
            if slots > 8:
                asked = sorted({1, slots - 1, slots, *rng.sample(range(2, slots - 1), 2)})
            rules.append((tree, text(tree, rng, spaces, brackets), asked))
        runs.append((m, run, rules))
    return runs + [(1, run, [(tree, words, sorted({1, len(run) - 1, len(run)} - {0}))]) for tree, run, words in LONG]


def window_plan(rng):
    """The same of rules with windows."""
    asked = lambda slots: range(1, slots + 1) if slots < 8 else sorted({1, 2, slots // 2, slots - 1, slots})
    runs = [(2, run, [(tree, words, asked(len(run))) for tree, words in WINDOWS]) for run in WINDOW_RUNS]
    for number, slots in enumerate([*range(1, 7), *range(1, 7), *range(2, 8), 8, 9, 10, 12, 16, 33]):
        m = number % 4 + 1 if slots > 1 else 2
        rules = []
        while len(rules) < WINDOW_TREES_PER_RUN:
            tree = random_tree(rng, rng.randint(1, 4), range(m), rng.choice("FG!U>&|"), 3)
            tree = windowed(rng, tree)
            if has_window(tree):
                spaces, brackets = rng.choice([(0, 0), (0.3, 0), (0, 0.25), (0.25, 0.25)])
                rules.append((tree, text(tree, rng, spaces, brackets), asked(slots)))
        runs.append((m, random_run(rng, slots, m), rules))
    return runs


def loop_plan(rng):
    """(M, run, [(tree, text, asked slots)], L) for each run that loops to L, below T, of rules without windows and with them."""
    runs = []
    for run, l in LOOP_RUNS:
        for chosen in LOOPED, LOOPED_WINDOWS:
            runs.append((2, run, [(tree, words, range(1, len(run) + 1)) for tree, words in chosen], l))
    for slots in range(2, LONGEST_LOOPED + 1):
        for l in range(1, slots):
            for windows in False, True:
                m = rng.randint(1, 3)
                rules = []
                while len(rules) < LOOP_TREES_PER_RUN:
                    tree = random_tree(rng, rng.randint(2, 4), range(m), rng.choice("FGUUU!>&|"), 3 if windows else 5)
                    tree = windowed(rng, tree) if windows else tree
                    if weight(tree) > 0 and has_window(tree) == windows:
                        spaces, brackets = rng.choice([(0, 0), (0, 0), (0.3, 0), (0, 0.25)])
                        rules.append((tree, text(tree, rng, spaces, brackets), range(1, slots + 1)))
                runs.append((m, looped_run(rng, slots, m, l), rules, l))
    return runs


def looped_run(rng, slots, m, l):
    """A run that is not the same at all slots of its loop."""
    while True:
        run = random_run(rng, slots, m)
        if len(set(run[l - 1 :])) > 1:
            return run


def model(run, rules, l):
    step = lambda slot: f"d_step {{ v = {run[slot - 1]}; s = {slot} }}"
    steps = "".join(f"  {step(slot)};\n" for slot in range(2, len(run) + 1))
    loop = "; ".join(map(step, range(l, len(run) + 1)))
    lines = [f"int v = {run[0]};\nint s = 1;\nactive proctype Run() {{\n{steps}  do :: {loop} od\n}}"]
    for number, (tree, _, asked) in enumerate(rules):
        for slot in asked:
            lines.append(f"ltl f{number}_{slot} {{ [] ((s == {slot}) -> {spin_text(tree)}) }}")
            lines.append(f"ltl n{number}_{slot} {{ [] ((s == {slot}) -> (! {spin_text(tree)})) }}")
    return "\n".join(lines) + "\n"


def claim_holds(folder, name):
    command = ["./pan", "-a", "-m10000", "-w12", "-N", name]
    out = subprocess.run(command, cwd=folder, capture_output=True, text=True, check=True).stdout
    errors = re.search(r"errors: (\d+)", out)
    if f"({name})" not in out or not errors or "max search depth too small" in out:
        sys.exit(f"pan did not check {name}:\n{out}")
    return errors.group(1) == "0"


def truths(run, rules, l):
    """For each rule the truth at each asked slot, from SPIN."""
    with tempfile.TemporaryDirectory() as folder:
        Path(folder, "run.pml").write_text(model(run, rules, l))
        nexts = any(has_window(tree) for tree, _, _ in rules)
        spin = [SPIN, *(["-o3"] if nexts else []), "-a", "run.pml"]
        gcc = ["gcc", "-O0", "-w", *(["-DNOREDUCE"] if nexts else []), "-o", "pan", "pan.c"]
        subprocess.run(spin, cwd=folder, check=True, stdout=subprocess.DEVNULL, timeout=600)
        subprocess.run(gcc, cwd=folder, check=True)
        answers = []
        for number, (tree, words, asked) in enumerate(rules):
            answer = {}
            for slot in asked:
                holds, fails = (claim_holds(folder, f"{kind}{number}_{slot}") for kind in "fn")
                if holds == fails:
                    sys.exit(f"SPIN finds both or neither: {words!r} over {run} at slot {slot}")
                answer[slot] = holds
            answers.append(answer)
        return answers


def main():
    lines, kinds, depths, horizons, atom_counts, bits = [], Counter(), Counter(), Counter(), Counter(), Counter()
    looped = Counter()
    for m, run, rules, *loop in plan(random.Random(SEED)) + window_plan(random.Random(WINDOW_SEED)) + loop_plan(random.Random(LOOP_SEED)):
        horizon = ">".join(map(str, [len(run), *loop]))
        for (tree, words, asked), answer in zip(rules, truths(run, rules, *loop or [len(run)])):
            row = "".join(str(int(answer[slot])) if slot in answer else "-" for slot in range(1, len(run) + 1))
            lines.append(f"{horizon} {m} {','.join(map(str, run))} {row} {words}\n")
            kinds.update({operator[:2] for operator in operators(tree)})
            looped[horizon] += len(loop)
            depths[depth(tree)] += 1
            horizons[len(run)] += 1
            atom_counts[m] += 1
            bits.update(row)
        print(f"T {horizon:>3} M {m:2}: {len(lines)} rules", flush=True)
    titles = ("rules by kind", "rules by depth", "rules by T", "rules by M", "slots by truth", "rules that loop")
    for title, counts in zip(titles, (kinds, depths, horizons, atom_counts, bits, +looped)):
        print(f"{title}: " + ", ".join(f"{key} {counts[key]}" for key in sorted(counts)))
    assert len(lines) >= 300 and set(kinds) == {*"a", *SINGLE, *DOUBLE, "F[", "G["} and min(kinds.values()) >= 40
    assert set(range(1, LARGEST_DEPTH + 1)) <= set(depths) and {1, 64} <= set(horizons) and {1, 16} <= set(atom_counts)
    assert sum(looped.values()) >= 250 and len(+looped) == LONGEST_LOOPED * (LONGEST_LOOPED - 1) // 2
    write_or_check("tests/spin.txt", "".join(lines))


if __name__ == "__main__":
    main()
