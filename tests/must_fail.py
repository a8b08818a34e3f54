#!/usr/bin/env python3
"""Makes docs/MUST-FAIL.md from the must-fail edits and from what the prover said of each.

    python3 tests/must_fail.py LOG ..            writes the page, from what `rt must-fail --anew` or runs of `.ci/run` printed
    python3 tests/must_fail.py --check LOG ..    says whether the page is what this script makes, and writes nothing

An edit's first line is `# PROMISE, PROMISE ..: WHAT IT DOES`. What the prover said is the first fact that it misses. Each
demand and each wrong program that document 01, "The wording of each promise" (c), or a request names must have two edits or
more.
"""

import itertools
import pathlib
import re
import sys

from data_file import TOP, write_or_check

HEAD = """\
# Must-fail edits

Made by tests/must_fail.py. Each edit changes an operand (a name, a number, an expression, an answer; or adds or leaves
out a row, a term, a factor or a sign) and keeps the shape, but for two of `reader` that answer another refusal on a
condition, and for these: `judge_errors/same_part_counted_once`, `mps/rhs_of_minus_1_dropped`,
`printer_node/grade_above_4_without_brackets` and `rules/terms_between_counted` have a condition more; in the code
`cursor/bytes_put_over`, `judge_errors/no_stop`, `judge_slot/broken_row_passed`, `judge_slot/broken_row_replaced` and
`program_rule/past_line_2` have a call more, `sepia_answers/shortfall_where_passed` a field,
`mpspage_page/atoms_as_slots` a scan and `mpspage_page/refusal_of_atoms` a reading of the rule of its own, and
`judge_search/v_rows_not_tested`, `judge_sums/off_with_sign`, `printer_node/left_counted_without_brackets` and
`printer_node/left_without_brackets` have a call less. The prover must
refuse each because a fact no longer holds. The gate tries them all. There are edits for the promises of the calls and
programs offered to others, for the definitions that must be believed, and for what the scope paper's "The wording of
each promise" (c) and the requests name. Other crates need none: their callers' proofs would break. `test_known`
compares nothing inside a proof, so it has none either: the gate compares what it prints.

What (c) and the requests name: two edits or more each, in the code or its contracts and in what these cite:
"""
NAMED = {
    "01 (c)": (
        "rows left out",
        "reader that refuses all rules",
        "judge that passes all figures",
        "evaluator that writes nothing",
        "evaluator that repeats slot 1",
        "row count unrelated to the rows",
        "judge that names row 0",
    ),
    "N4": (
        "a slot after T left out",
        "the sum row left out",
        "right side −k",
        "terms not lowest first",
        "12 after 6",
        "a above b taken as good",
    ),
    "N6": (
        "an atom's height 1",
        "the lower child's height taken",
        "the height of an unused node not tested",
    ),
    "N5": (
        "a bit above T set",
        "slot 1 repeated",
        "first slot counted from 0",
        "zero word gives 64",
        "F that forgets the last slot",
    ),
    "N7": (
        "a part on both sides counted once",
        "an atom node's figure e instead of 2e",
        "no stop",
        "the root at slot T",
        "1,000,000 for 500,000",
    ),
    "N8": (
        "P at T linked straight to P at L",
        "V rows left out",
        "V at T instead of at L",
        "a window's slot counted twice",
        "13 after 7",
    ),
    "N9": (
        "a bracket too many round the right side",
        "grouping to the left printed without brackets",
        "3 before 7",
        "1,024 bytes refused",
    ),
}
DEMANDS = ("demand 1", "demand 2", "demand 3")
MOST = 300  # characters of what the prover says


def edits():
    """(crate, name, promises, what it does, what the prover says), in the order of crates.txt."""
    for line in (TOP / "crates.txt").read_text().splitlines():
        crate = (line.partition(":")[0].split() or [""])[0]
        for edit in sorted((TOP / "crates" / crate / "must-fail").glob("*.edit")):
            promises, _, does = edit.read_text().partition("\n")[0].removeprefix("# ").partition(": ")
            yield crate, edit.stem, promises.split(", "), does, fact(crate, edit.stem)


def told():
    """What the logs say of each edit: the line of its refusal, the last one where several logs have it."""
    said = {}
    for log in sys.argv[1:]:
        if log != "--check":
            for of, words in re.findall(r"^rt: must-fail (\S+)\.edit: refused, as it must be: (.*)$", pathlib.Path(log).read_text(), re.M):
                said[of] = words
    return said


SAID = told()


def fact(crate, name):
    """The first missing fact, without line numbers."""
    words = SAID.get(f"{crate}/{name}")
    if words is None:
        raise SystemExit(f"{crate}/{name}: the logs do not say that it was refused")
    words = re.sub(r"^(?:note: )?(?:\./)?(\S+?):\d+:\d+:(?: error:)? ", r"\1: ", " ".join(words.split()))
    return words if len(words) <= MOST else words[:MOST].rsplit(" ", 1)[0] + " .."


def purpose(crate):
    """The first sentence of the comment at the top of the crate."""
    lines = (TOP / "crates" / crate / "src" / "lib.rt").read_text().splitlines()
    comment = " ".join(line.removeprefix("// ") for line in itertools.takewhile(lambda line: line.startswith("//"), lines))
    return re.match(r".*?\.(?= |$)", comment)[0]


def answering(found, promise):
    names = [f"{crate}/{name}" for crate, name, promises, _, _ in found if promise in promises]
    if len(names) < 2:
        raise SystemExit(f"{promise}: {len(names)} edits")
    return names


def main():
    found = list(edits())
    for demand in DEMANDS:
        answering(found, demand)
    page = [HEAD, "| named by | wrong program | edits |", "|---|---|---|"]
    for paper, programs in NAMED.items():
        for program in programs:
            names = ", ".join(f"`{name}`" for name in answering(found, f"{paper} {program}"))
            page.append(f"| {paper} | {program} | {names} |")
    for crate in dict.fromkeys(edit[0] for edit in found):
        page += [f"\n## `{crate}`: {purpose(crate)}\n", "| edit | promise | what it does | the prover says |", "|---|---|---|---|"]
        for of, name, promises, *rest in found:
            if of == crate:
                page.append("| " + " | ".join(cell.replace("|", "\\|") for cell in (name, ", ".join(promises), *rest)) + " |")
    write_or_check("docs/MUST-FAIL.md", "\n".join(page) + "\n")
    print(f"{len(found)} edits in {len({edit[0] for edit in found})} crates")


if __name__ == "__main__":
    main()
