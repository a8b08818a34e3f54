#!/usr/bin/env python3
"""Holds the pages of the program mpspage, or of the library, to three solvers: GLPK, lp_solve and CBC.

    python3 tests/mps_solvers.py [--rules N] [--seed S] [--program COMMAND]
    python3 tests/mps_solvers.py [--rules N] [--seed S] --library LIB.so

Needs glpsol, lp_solve and cbc (Debian's packages glpk-utils, lp-solve and coinor-cbc). Made and tried with
    GLPK 5.0, lp_solve 5.5.2.5, CBC 2.10.8, Python 3.11.7

The program has no loop slot (L is T). With --library the pages come from the C boundary, and L is by chance from 1 to T:
    scripts/library
    gcc -shared -o LIB.so -Wl,--whole-archive target/staticlib/libsepia.a -Wl,--no-whole-archive

For each of N random rules (300, or as asked) of at most 8 atom variables:
  - the rows, the page and the truth are worked out here, from the papers' words and without the toolkit's code;
  - the page that is written must be that page, byte for byte;
  - each solver reads the page and writes what it understood: these must be the same rows, limits and whole variables;
  - each solver solves it: there must be a schedule exactly when some run, which loops to L, satisfies the rule at slot 1, and
    then the solver's atoms must be such a run and each slack the truth of its part, V among them.

CBC's writer leaves out a variable that stands in no row. For CBC such a variable is compared by the counts that it says
it read and by its place in the solution, and not by its limits.

The first difference ends the script with 1 and names the rule.
"""

import argparse
import ctypes
import gzip
import itertools
import math
import random
import re
import shlex
import subprocess
import sys
import tempfile
from collections import Counter
from pathlib import Path

from paper import RECORD, Model, expected_model, expected_page, parse, slack_truth, truth, variable_count

PROGRAM = Path(__file__).resolve().parent.parent / "mpspage"
CLOSE = 1e-5  # how near a solver's figure must be: lp_solve prints six digits

# ------------------------------------------------------------------------------------------------------- the rules


def satisfiable(nodes, t, m, l):
    for bits in itertools.product((False, True), repeat=m * t):
        if truth(nodes, [bits[a * t : (a + 1) * t] for a in range(m)], l)[-1][0]:
            return True
    return False


def random_rule(rng, nodes, m):
    """A text of that many nodes. Brackets stand where chance puts them; every such text is in the grammar."""
    if nodes == 1:
        return f"a{rng.randrange(m)}"
    if nodes == 2 or rng.random() < 0.4:
        text = random_single(rng) + random_rule(rng, nodes - 1, m)
    else:
        left = rng.randint(1, nodes - 2)
        if nodes % 2 == 1 and rng.random() < 0.2:  # two equal parts
            one = other = f"({random_rule(rng, nodes // 2, m)})"
        else:
            one, other = random_rule(rng, left, m), random_rule(rng, nodes - 1 - left, m)
        text = one + rng.choice(">|&UU") + other
    return f"({text})" if rng.random() < 0.6 else text


def random_single(rng):
    """`!`, F or G, or a window, of which some reach past every horizon used here."""
    operator = rng.choice("!FGFG")
    if operator == "!" or rng.random() < 0.4:
        return operator
    last = rng.choice([0, 1, 1, 2, 2, 3, 4, 63])
    return f"{operator}[{rng.randint(0, last)},{last}]"


def random_case(rng, longest):
    t = rng.randint(1, longest)
    m = rng.randint(1, 8 // t)
    if rng.random() < 0.2:  # no run satisfies these
        part = f"({random_rule(rng, rng.randint(1, 4), m)})"
        unmet = ["{0}&!{0}", "G({0}&F!{0})", "!({0}>{0})", "F{0}&G!{0}", "F[0,2]{0}&G[0,2]!{0}", "G[1,1]{0}&F[1,1]!{0}"]
        text = rng.choice(unmet).format(part)
    else:
        text = random_rule(rng, rng.randint(1, 12), m)
    if rng.random() < 0.3:
        text = "".join(token + " " * rng.randint(0, 2) for token in re.findall(r"a?\d+|.", text))
    return t, m, text


# ------------------------------------------------------------------------------------------------------- the pages


class Answer(ctypes.Structure):
    _fields_ = (("refusal", ctypes.c_uint32), ("value", ctypes.c_uint32))


def program_page(command, t, m, l, text):
    return subprocess.run(command, input=f"{t} {m}\n{text}\n".encode(), stdout=subprocess.PIPE, check=True).stdout


def library_page(library, t, m, l, text):
    """The page of the table that the library reads, over its C boundary."""
    size, bytes_of = ctypes.c_size_t, ctypes.c_char_p
    for call, arguments in (library.sepia_read, (bytes_of, size, size)), (library.sepia_mps, (bytes_of, size, size, size, size)):
        call.restype, call.argtypes = Answer, (*arguments, bytes_of, size)
    table, page = (ctypes.create_string_buffer(length) for length in (1024, 1 << 20))
    read = library.sepia_read(text.encode(), len(text), m, table, len(table))
    same("the reader's refusal", read.refusal, 0)
    written = library.sepia_mps(table.raw, RECORD * read.value, t, m, l, page, len(page))
    same("the page's refusal", written.refusal, 0)
    return page.raw[: written.value]


# ------------------------------------------------------------------------------------------------------- the solvers


class Difference(Exception):
    pass


def same(what, found, wanted):
    if found != wanted:
        raise Difference(f"{what}: {found!r} where {wanted!r} is expected")


def read_back(text):
    """The model of a page that a solver wrote. All three separate the fields by spaces and name their sets."""
    model, section, whole, objective = Model(), "", False, None
    right = {}
    for line in text.splitlines():
        fields = line.split("$")[0].split()
        if not fields or line[0] == "*":
            continue
        if line[0] != " ":
            section = fields[0]
        elif section == "ROWS":
            if fields[0] == "N":
                objective = fields[1]
            else:
                model.rows[fields[1]] = (fields[0], 0, {})
        elif section == "COLUMNS" and fields[1] == "'MARKER'":
            whole = fields[2] == "'INTORG'"
        elif section == "COLUMNS":
            model.limits.setdefault(fields[0], (0, math.inf, whole))
            for row, value in zip(fields[1::2], map(float, fields[2::2])):
                if row == objective:
                    same(f"cost of {fields[0]}", value, 0)
                elif value != 0:
                    same(f"entries of {fields[0]} in {row}", int(fields[0] in model.rows[row][2]) + 1, 1)
                    model.rows[row][2][fields[0]] = value
        elif section == "RHS":
            right.update(zip(fields[1::2], map(float, fields[2::2])))
        elif section == "BOUNDS":
            kind, _, variable, *value = fields
            least, largest, is_whole = model.limits.get(variable, (0, math.inf, False))
            model.limits[variable] = {
                "BV": lambda: (0, 1, True),
                "UP": lambda: (least, float(value[0]), is_whole),
                "LO": lambda: (float(value[0]), largest, is_whole),
                "FX": lambda: (float(value[0]), float(value[0]), is_whole),
                "MI": lambda: (-math.inf, largest, is_whole),
                "PL": lambda: (least, math.inf, is_whole),
                "FR": lambda: (-math.inf, math.inf, is_whole),
            }[kind]()
        else:
            raise Difference(f"a line {line!r} in section {section}")
    for row, value in right.items():
        kind, _, coefficients = model.rows[row]
        model.rows[row] = (kind, value, coefficients)
    return model


def run(*command):
    return subprocess.run(list(map(str, command)), capture_output=True, text=True, timeout=600, check=False).stdout


def written(back):
    """The page that a solver wrote, which some pack."""
    packed = back.with_name(back.name + ".gz")
    same("the solver takes the page", back.exists() or packed.exists(), True)
    return read_back(gzip.decompress(packed.read_bytes()).decode() if packed.exists() else back.read_text())


# Each solver takes the page's file and two files to write, and gives what it understood, the variables' values or None
# where it finds no schedule, and what it said.


def glpsol(page, back, solution):
    said = run("glpsol", "--mps", page, "--wfreemps", back, "--write", solution)
    same("glpsol's warnings", re.findall(r"warning: (.*)", said), ["missing model name in field 3"])
    model = written(back)
    lines = [line.split() for line in solution.read_text().splitlines()]
    [status] = [line[4] for line in lines if line[:2] == ["s", "mip"]]
    same("glpsol's status is optimal or none", status in "on", True)
    values = [float(line[2]) for line in lines if line[0] == "j"]  # in the order of the columns
    return model, dict(zip(model.limits, values, strict=True)) if status == "o" else None, said


def lp_solve(page, back, _):
    said = run("lp_solve", "-mps", page, "-S3", "-wfmps", back)
    model = written(back)
    if said.strip() == "This problem is infeasible":
        return model, None, said
    values = re.search(r"Actual values of the variables:\n(.*?)\n\n", said, re.DOTALL)
    same("lp_solve gives values", bool(values), True)
    return model, {name: float(value) for name, value in map(str.split, values[1].splitlines())}, said


def cbc(page, back, solution):
    # Without presolve it writes the model as it was read.
    said = run(
        *("cbc", page, "-presolve", "off", "-export", back, "-presolve", "on"),
        *("-printingOptions", "all", "-solve", "-solution", solution),
    )
    same("cbc read with 0 errors", "read with 0 errors" in said, True)
    model = written(back)
    status, *lines = solution.read_text().splitlines()
    same("cbc's status is optimal or infeasible", bool(re.match("Optimal|Infeasible|Integer infeasible", status)), True)
    fields = [line.replace("**", "").split() for line in lines]
    values = {name: float(value) for _, name, value, *_ in fields if name[0] == "X"}
    return model, values if status.startswith("Optimal") else None, said


SOLVERS = (glpsol, lp_solve, cbc)


def check_model(solver, found, said, wanted):
    limits = wanted.limits
    if solver is cbc:
        in_rows = {variable for _, _, coefficients in wanted.rows.values() for variable in coefficients}
        limits = {variable: limit for variable, limit in limits.items() if variable in in_rows}
        entries = sum(len(coefficients) for _, _, coefficients in wanted.rows.values())
        counts = f"has {len(wanted.rows)} rows, {len(wanted.limits)} columns and {entries} elements"
        same(f"cbc says that its problem {counts}", counts in said, True)
    same("row names", list(found.rows), list(wanted.rows))
    for row in wanted.rows:
        same(row, found.rows[row], wanted.rows[row])
    same("variables", sorted(found.limits), sorted(limits))
    for variable, limit in limits.items():
        same(f"limits of {variable}", found.limits[variable], limit)


def check_values(values, nodes, t, m, l):
    """The atoms of a schedule must be a run that satisfies the rule, and the slacks the truth of the parts."""
    same("variables with a value", sorted(values), sorted(f"X{number}" for number in range(variable_count(nodes, t, m, l))))
    atoms = [[round(values[f"X{a * t + slot}"]) == 1 for slot in range(t)] for a in range(m)]
    truths = slack_truth(nodes, atoms, l)
    same("the rule holds over the schedule", truths[len(nodes) - 1][0], True)
    for number, of_slots in enumerate(atoms + truths):
        for slot, holds in enumerate(of_slots):
            variable = f"X{number * t + slot}"
            same(f"value {values[variable]} of {variable} is {int(holds)}", abs(values[variable] - holds) < CLOSE, True)


def check_page(page, model):
    wanted = expected_page(model).encode()
    for number, lines in enumerate(zip(page.splitlines(True), wanted.splitlines(True)), 1):
        same(f"line {number}", *lines)
    same("bytes of the page", len(page), len(wanted))


def solved(solver, page):
    with tempfile.TemporaryDirectory() as folder:
        files = [Path(folder, name) for name in ("page.mps", "back.mps", "solution")]
        files[0].write_bytes(page)
        return solver(*files)


def main():
    parser = argparse.ArgumentParser(description="Holds the pages of mpspage, or of the library, to GLPK, lp_solve and CBC.")
    parser.add_argument("--rules", type=int, default=300, metavar="N")
    parser.add_argument("--seed", type=int, default=1, metavar="S")
    parser.add_argument("--program", default=shlex.quote(str(PROGRAM)), metavar="COMMAND")
    parser.add_argument("--library", dest="built", metavar="LIB.so")
    options = parser.parse_args()
    rng = random.Random(options.seed)
    source, ask = "mpspage", lambda *case: program_page(shlex.split(options.program), *case)
    if options.built:
        library = ctypes.CDLL(str(Path(options.built).resolve()))
        source, ask = "the library", lambda *case: library_page(library, *case)
    counts = {solver: Counter() for solver in SOLVERS}
    kinds, looping = Counter(), 0
    for _ in range(options.rules):
        t, m, text = random_case(rng, 6 if options.built else 4)
        l = rng.randint(1, t) if options.built else t
        nodes = parse(text)
        kinds.update({kind for kind, *_ in nodes})
        looping += l < t
        model = expected_model(nodes, t, m, l)
        who = source
        try:
            page = ask(t, m, l, text)
            check_page(page, model)
            exists = satisfiable(nodes, t, m, l)
            for solver in SOLVERS:
                who = solver.__name__
                found, values, said = solved(solver, page)
                check_model(solver, found, said, model)
                same("a schedule is found", values is not None, exists)
                if values is not None:
                    check_values(values, nodes, t, m, l)
                counts[solver]["read"] += 1
                counts[solver]["found" if exists else "none"] += 1
        except Difference as difference:
            sys.exit(f"{who} differs for T {t}, M {m}, L {l}, rule {text!r}: {difference}")
    print(f"seed {options.seed}: {options.rules} rules; " + ", ".join(f"{kinds[n]} with kind {n}" for n in range(1, 11)))
    print(f"{source}: {options.rules} pages as expected, byte for byte, {looping} with L below T")
    for solver, count in counts.items():
        outcomes = f"{count['found']} schedules found, {count['none']} with none"
        print(f"{solver.__name__}: {count['read']} pages read back, {outcomes}")


if __name__ == "__main__":
    main()
