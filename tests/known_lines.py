#!/usr/bin/env python3
"""Makes crates/test_known/stdin, a case a line, and crates/test_known/stdout, what the program `test_known` must print for them.

    python3 tests/known_lines.py            writes the files
    python3 tests/known_lines.py --check    says whether the files are what this script makes, and writes nothing

What is expected is written down below, comes from SPIN (tests/spin.txt) or is worked out here from the paper's words
(tests/paper.py); nothing of it comes from the program. Tables, truths, rows, refusals and verdicts that are written down
must also be what the paper's words give; of a truth, its bytes and its words (request N5) must say the same for every node
and slot; what request N7 promises of figures that pass must be so. A new call has a function here that writes its case and
what must be printed. The loop slot L is T where none is given.
"""

import itertools
import random

import paper
from data_file import TOP, write_or_check

HEAD = """\
Cases made by tests/known_lines.py. A line is a call, numbers, and after a colon bytes; % and two digits stand for a byte.
  read ROOM M:TEXT
  evaluate ROOM T M L RUN..:TABLE
  first WORD (the first slot of a word)
  write ROOM T M L:TABLE
  mps ROOM T M L:TABLE
  print ROOM M:TABLE
  judge T M L E FIGURES..:TABLE
  counted T M L E COUNT FIGURE..:TABLE (the judge, on many figures: each stands COUNT times)
  list:INPUT (what rowlist prints, in a buffer of 184,000 bytes without a guard)
  sum X Y C V.. (the row sum of terms of coefficient C and variable V, over the figures X and Y)
  total W X FIGURES.. (the row sum of a window's last row, F's where W is 1 and otherwise G's: the node has the figure X,
    the part the others)
ROOM is the length of the buffer lent. It is filled with bytes fe and followed by 8 more of them, its guard.
After a line stand the answer and what the buffer then holds: what was written, of mps and list as text, otherwise in
hexadecimal, then ~ and how many bytes fe follow, guard included. Of a line, and of what was written, of more than 1,000 bytes
the length and the FNV-1a sum of 64 bits stand.
For evaluate all this is counted in words of 64 bits, filled with fefefefefefefefe. They stand in hexadecimal without leading
zeros, bit 0 for slot 1, and a line more has the first slot of each that was written.
Above each group stands where the expected values come from."""

FILL = b"\xfe"
FILL_WORD = 0xFEFEFEFEFEFEFEFE
GUARD = 8
MOST_WORDS = 512
LISTING = 184000
LONG = 1000
FIGURES = 1019  # the most numbers of a judge case behind E
FEW = 200  # as many figures stand one by one
NAMES = {"n": "value", "v": "value", "r": "refused", "o": "outside", "b": "not binary", "k": "broken", "p": "passed"}
SECOND = {"k": "shortfall", "p": "error"}
KINDS = {**paper.SINGLE, **paper.DOUBLE}
RECORD = paper.RECORD
ONE = paper.ONE

CASES, PRINTED = [], []


def say(words):
    for line in words.split("\n"):
        CASES.append(f"# {line}")
        PRINTED.append(f"# {line}")


def spelled(data):
    return "".join(chr(byte) if 0x20 <= byte <= 0x7E and byte != 0x25 else f"%{byte:02x}" for byte in data)


def case(call, numbers, data, *printed):
    line = " ".join([call, *map(str, numbers)]) + ("" if data is None else ":" + spelled(data))
    CASES.append(line)
    PRINTED.extend([summed(line.encode()) if len(line) > LONG else line, *printed])


def said(answer):
    """n3 as `value 3`, k0,1 as `broken 0 shortfall 1`, p2,1 as `passed 2 error 1`."""
    number, _, second = answer[1:].partition(",")
    return f"{NAMES[answer[0]]} {number}" + (f" {SECOND[answer[0]]} {second}" if second else "")


def summed(data):
    """The length and the FNV-1a sum."""
    total = 0xCBF29CE484222325
    for byte in data:
        total = (total ^ byte) * 0x100000001B3 % 2**64
    return f"{len(data)} bytes, sum {total:016x}"


def lent(room, written, text=False, guard=GUARD):
    """What the whole buffer holds after a call that wrote this to its start."""
    assert len(written) <= room and not written.endswith(FILL)
    part = summed(written) if len(written) > LONG else written.decode() if text else written.hex()
    return f"{part}~{room - len(written) + guard}"


def said_slot(slot):
    return "none" if slot is None else str(slot)


def lent_words(room, words):
    """What the whole buffer of words holds after a call that wrote these, and the first slots of these."""
    assert len(words) <= room <= MOST_WORDS - GUARD and words[-1:] != [FILL_WORD]
    held = " ".join(["words", *(f"{word:x}" for word in words)]) + f"~{room - len(words) + GUARD}"
    return [held, " ".join(["first slots", *(said_slot(paper.first_slot(word)) for word in words)])] if words else [held]


def nodes_of(postfix):
    """The nodes of a rule whose parts stand before their operator, as the records do: `a0 a1 U`, `a0 F[0,5]`."""
    nodes, parts = [], []
    for word in postfix.split():
        if word[0] == "a":
            nodes.append((1, int(word[1:]), 0, 0, 0))
        elif word in paper.DOUBLE:
            right = parts.pop()
            nodes.append((KINDS[word], parts.pop(), right, 0, 0))
        elif word in paper.SINGLE:
            nodes.append((KINDS[word], parts.pop(), 0, 0, 0))
        else:
            nodes.append((paper.WINDOW[word[0]], parts.pop(), 0, *map(int, word[2:-1].split(","))))
        parts.append(len(nodes) - 1)
    assert parts == [len(nodes) - 1]
    return nodes


def table(*nodes):
    """Records of nodes written as kind, left, right and, where it is not 0,0, the window."""
    return paper.table([(*node, 0, 0)[:5] for node in nodes])


def heights_in(records):
    return list(records[RECORD - 1 :: RECORD])


def with_height(records, number, height):
    """The table with this height in the record of node `number`."""
    at = RECORD * number + RECORD - 1
    return records[:at] + bytes([height]) + records[at + 1 :]


def with_heights(records, heights):
    for number, height in enumerate(heights):
        records = with_height(records, number, height)
    return records


def read(m, room, expected, text, heights=None):
    """Expected is a refusal, or the nodes as nodes_of takes them; heights are those of the nodes, as words."""
    text = text.encode() if isinstance(text, str) else text
    found = paper.reading(text.decode("latin-1"), m, room)
    if expected[0] == "r":
        assert expected == f"r{found}"
        case("read", [room, m], text, said(expected), lent(room, b""))
    else:
        nodes = nodes_of(expected)
        assert nodes == found
        assert heights is None or heights_in(paper.table(nodes)) == [int(height) for height in heights.split()]
        case("read", [room, m], text, f"value {len(nodes)}", lent(room, paper.table(nodes)))


def as_text(truths):
    """A row of 0 and 1 for each node, slot 1 first."""
    return " ".join("".join(str(int(holds)) for holds in of_node) for of_node in truths)


def evaluate(t, m, room, answer, run, truth, nodes, l=None):
    """The truth is a row of 0 and 1 for each node, in node order, slot 1 first. It is what the bytes of the scope paper said,
    and the words must say the same."""
    old = bytes(int(bit) for bit in truth.replace(" ", ""))
    found = paper.evaluation(t, m, nodes, run, room, l)
    if isinstance(found, int):
        assert answer == f"r{found}" and not old
        found = []
    else:
        assert old == paper.truth_bytes(paper.run_truth(paper.nodes_in(nodes), m, run, l)) and paper.same_truth(old, found, t)
        assert answer == f"v{old[-t]}" == f"v{found[-1] % 2}"
    case("evaluate", [room, t, m, loop_slot(t, l), *run], nodes, said(answer), *lent_words(room, found))


def loop_slot(t, l):
    return t if l is None else l


def evaluate_of_paper(t, m, run, nodes, more=0, l=None):
    """The truth of the paper's words, in a buffer of one word for each node, and more."""
    truths = paper.run_truth(paper.nodes_in(nodes), m, run, l)
    evaluate(t, m, len(truths) + more, f"v{int(truths[-1][0])}", run, as_text(truths), nodes, l)


def first_slot(word, slot):
    assert slot == paper.first_slot(word)
    case("first", [word], None, f"slot {said_slot(slot)}")


def row(text):
    """A row as rowlist prints it behind the row's number: `>= -1 +8 -4 -9`."""
    relation, right, *terms = text.split()
    return relation, int(right), [(int(term[0] + "1"), int(term[1:])) for term in terms]


def row_bytes(found):
    """How many bytes the records of rows have."""
    return sum(len(paper.record(row)) for row in found)


def rows(t, m, room, answer, expected, nodes, l=None):
    """The rows expected, as rowlist prints them."""
    expected = [row(text) for text in expected]
    refusal = paper.refusal(t, m, nodes, l)
    if refusal is not None:
        assert answer == f"r{refusal}" and not expected
    else:
        found = paper.rows(paper.nodes_in(nodes), t, m, l)
        fits = row_bytes(found) <= room
        assert answer == (f"n{len(found)}" if fits else "r11") and expected == (found if fits else [])
    case("write", [room, t, m, loop_slot(t, l)], nodes, said(answer), lent(room, b"".join(map(paper.record, expected))))


def judge(t, m, e, figures, answer, nodes, l=None):
    found = paper.judgement(t, m, nodes, figures, e, l)
    assert said(answer) == (f"refused {found}" if isinstance(found, int) else found)
    if answer[0] == "p":
        promised(t, m, e, figures, paper.nodes_in(nodes), l)
    runs = [(len(list(run)), figure) for figure, run in itertools.groupby(figures)]
    numbers = [number for run in runs for number in run]
    call, numbers = ("counted", numbers) if len(numbers) < len(figures) > FEW else ("judge", figures)
    assert len(numbers) <= FIGURES
    case(call, [t, m, loop_slot(t, l), e, *numbers], nodes, said(answer))


def judge_of_paper(t, m, e, figures, nodes, l=None):
    """The verdict of the paper's words, on figures that are as many as they must be."""
    verdict = paper.verdict(nodes, t, m, figures, e, l)
    letter = next(letter for letter, name in NAMES.items() if letter in "obkp" and verdict.startswith(name))
    numbers = [word for word in verdict.split() if word.isdecimal()]
    judge(t, m, e, figures, letter + ",".join(numbers), paper.table(nodes), l)
    return verdict


def promised(t, m, e, figures, nodes, l=None):
    """What request N7 says of figures that pass: each slack is within its error figure of the truth on the rounded run, where
    that is below 1,000,000, and below 500,000 at the root the rule holds at slot 1."""
    truths = paper.slack_truth(nodes, paper.rounded(t, m, figures), l)
    errors = paper.error_figures(nodes, t, m, e, l)[m * t :]
    for error, figure, holds in zip(errors, figures[m * t :], itertools.chain(*truths), strict=True):
        assert error == ONE or error < ONE and abs(figure - ONE * holds) <= error
    root = len(nodes) - 1
    assert errors[root * t] >= 500000 or truths[root][0]


def page_of(nodes, t, m, l=None):
    return paper.expected_page(paper.expected_model(nodes, t, m, l))


def mps(t, m, room, answer, page, nodes, l=None):
    """A short page must also be that of the paper's words; long ones are taken from there."""
    refusal = paper.refusal(t, m, nodes, l)
    if answer[0] == "r":
        assert answer == ("r11" if refusal is None else f"r{refusal}") and not page
    else:
        assert answer == f"n{len(page)}" and refusal is None
        assert len(page) > LONG or page == page_of(paper.nodes_in(nodes), t, m, l)
    case("mps", [room, t, m, loop_slot(t, l)], nodes, said(answer), lent(room, page.encode(), text=True))


def mps_of_paper(t, m, nodes, l=None, more=0):
    """The page of the paper's words, in a buffer as long as it, and more."""
    page = page_of(nodes, t, m, l)
    mps(t, m, len(page) + more, f"n{len(page)}", page, paper.table(nodes), l)


def rows_of_paper(t, m, nodes, l=None, more=0):
    """The rows of the paper's words likewise."""
    found = paper.rows(nodes, t, m, l)
    rows(t, m, row_bytes(found) + more, f"n{len(found)}", [paper.row_text(row) for row in found], paper.table(nodes), l)


def print_rule(m, room, expected, records):
    """Expected is a refusal or the text, which must say the rule and have no brackets that can be left out."""
    found = paper.printing(m, records, room)
    if expected[0] == "r":
        assert expected == f"r{found}"
        case("print", [room, m], records, said(expected), lent(room, b""))
    else:
        assert expected == found and " " not in expected
        assert paper.parse(expected) == paper.unshared(paper.nodes_in(records)) and paper.brackets_needed(expected)
        case("print", [room, m], records, f"value {len(expected)}", lent(room, expected.encode(), text=True))


def print_back(m, expected, text):
    """The text is read, its table printed as expected, and the printed text is read: to the same table."""
    nodes = paper.parse(text)
    records = paper.table(nodes)
    assert nodes == paper.parse(expected) and len(expected) <= len(text)
    case("read", [len(records), m], text.encode(), f"value {len(nodes)}", lent(len(records), records))
    print_rule(m, len(expected), expected, records)
    case("read", [len(records), m], expected.encode(), f"value {len(nodes)}", lent(len(records), records))


def rowlist(given, printed):
    case("list", [], given.encode(), f"value {len(printed)}", lent(LISTING, printed.encode(), text=True, guard=0))


def rowlist_refused(given, number):
    """The refusal is also what the papers' words give: of T, then the reader's, then of the bytes for rows."""
    first, _, rest = given.partition("\n")
    t, m = map(int, first.split(" "))
    read = paper.reading(rest.partition("\n")[0], m, 128 * RECORD)
    if 1 <= t <= 64:
        assert number == (11 if isinstance(read, list) and row_bytes(paper.rows(read, t, m)) > 65536 else read)
    else:
        assert number == 1
    rowlist(given, f"refused {number}\n")


def row_sum(figures, *terms):
    sums = [sum(c * figures[v] for c, v in terms if c > 0), sum(c * figures[v] for c, v in terms)]
    numbers = [*figures, *(number for term in terms for number in term)]
    case("sum", numbers, None, f"positive {sums[0]} whole {sums[1]}")


ATOM = table((1, 0, 0))
UNTIL = table((1, 0, 0), (1, 1, 0), (8, 0, 1))
IMPLIES = table((1, 0, 0), (1, 1, 0), (5, 0, 1))
F_A1 = table((1, 1, 0), (6, 0, 0))
G_A0 = table((1, 0, 0), (7, 0, 0))
GF_A0 = table((1, 0, 0), (6, 0, 0), (7, 1, 0))
FG_A0 = table((1, 0, 0), (7, 0, 0), (6, 1, 0))
# The 128 nodes of 127 times ! then a0.
NOTS = table((1, 0, 0), *((2, child, 0) for child in range(127)))


def reading():
    say("The paper, refusals: empty; `a0 a1`; `a01`; `a 0`; `a16`, M 16; 128 times `!`; 1,025 spaces; M 0")
    read(2, 1024, "r4", "")
    read(2, 1024, "r4", "a0 a1")
    read(2, 1024, "r4", "a01")
    read(2, 1024, "r4", "a 0")
    read(16, 1024, "r5", "a16")
    read(1, 1032, "r6", "!" * 128 + "a0")
    read(1, 1024, "r3", " " * 1025)
    read(0, 1024, "r2", "a0")
    say("The paper, accepted: 127 times `!` then `a0`; `a0` followed by 1,022 spaces; its known rules")
    read(1, 1024, "a0" + " !" * 127, "!" * 127 + "a0")
    read(1, 1024, "a0", "a0" + " " * 1022)
    read(2, 24, "a0 a1 U", "a0 U a1")
    read(2, 16, "a1 F", "F a1")
    read(2, 16, "a0 G", "G a0")
    read(2, 24, "a0 a1 >", "a0>a1")
    read(2, 24, "a0 F G", "GFa0")
    read(2, 24, "a0 G F", "FGa0")
    read(2, 40, "a0 a1 & a0 |", "a0&a1|a0")
    read(2, 40, "a0 a1 a0 U U", "a0Ua1Ua0")
    read(2, 32, "a0 ! a1 U", "!a0Ua1")
    say("By hand from the paper: limits of M, of the text's length and of the nodes; the buffer")
    read(17, 1024, "r2", "a0")
    read(257, 1024, "r2", "a0")
    read(65537, 1024, "r2", "a0")
    read(4294967297, 1024, "r2", "a0")
    read(16, 1024, "a15", "a15")
    read(1, 1024, "r5", "a1")
    read(1, 1024, "a0", " " * 1022 + "a0")
    read(1, 1024, "a0", " " * 511 + "a0" + " " * 511)
    read(1, 1024, "r3", "a0" + " " * 1023)
    read(1, 1024, "r4", " " * 1024)
    read(1, 1024, "a0 !" + " a0" * 63 + " &" * 63, "!a0" + "&a0" * 63)
    read(1, 1032, "r6", "a0" + "&a0" * 64)
    read(1, 1024, "a0" + " a0" * 63 + " U" * 63, "a0" + "Ua0" * 63)
    read(1, 1024, "a0", "(" * 511 + "a0" + ")" * 511)
    read(1, 1024, "r4", "(" * 1024)
    read(1, 1024, "r4", "!" * 1024)
    read(1, 1024, "r6", "!" * 1022 + "a0")
    read(1, 8, "a0", "a0")
    read(1, 9, "a0", "a0")
    read(1, 7, "r11", "a0")
    read(1, 0, "r11", "a0")
    read(2, 23, "r11", "a0Ua1")
    read(2, 24, "a0 a1 U", "a0Ua1")
    read(1, 1023, "r11", "!" * 127 + "a0")
    say("By hand: the first refusal in the order of the checks wins, and a fault at the end comes before all that is known earlier")
    read(0, 0, "r2", " " * 1025)
    read(17, 0, "r2", "")
    read(1, 0, "r3", "a9" + ")" * 1023)
    read(1, 1024, "r4", "!" * 200 + ")")
    read(1, 1024, "r4", "!" * 200 + "a0)")
    read(2, 1024, "r4", "a9)")
    read(2, 0, "r4", "a0&")
    read(1, 1024, "r5", "!" * 128 + "a9")
    read(1, 0, "r5", "a1")
    read(1, 0, "r6", "!" * 128 + "a0")
    say("By hand: atom numbers of any length, no leading zeros, no space within")
    read(16, 1024, "r4", "a00")
    read(16, 1024, "r4", "a01")
    read(16, 1024, "r4", "a015")
    read(16, 1024, "r4", "a")
    read(16, 1024, "r4", "aa0")
    read(16, 1024, "r4", "a1 5")
    read(16, 1024, "a10", "a10")
    for power in (8, 16, 32, 64, 128):
        read(16, 1024, "r5", f"a{2**power}")
    read(16, 1024, "r5", f"a{2**64 + 1}&a0")
    read(16, 1024, "r5", "a" + "1" * 1023)
    read(16, 1024, "r5", "a" + "9" * 1023)
    read(16, 1024, "r4", "a" + "0" * 1023)
    read(16, 1024, "r3", "a" + "1" * 1024)
    say("By hand: bytes that the grammar does not use, at the start, in the middle and at the end")
    for byte in (0x00, 0x09, 0x0A, 0x0D, 0x80, 0xA0, 0xFF):
        other = bytes([byte])
        read(2, 1024, "r4", other + b"a0&a1")
        read(2, 1024, "r4", b"a0" + other + b"&a1")
        read(2, 1024, "r4", b"a0&a1" + other)
        read(2, 1024, "r4", other)
    say("By hand: outside the grammar")
    for text in (
        "a0U", "Ua0", "a0>", ">a0", "a0&", "&a0", "a0|", "|a0", "!", "F", "G", "(", ")", "()", "(a0", "a0)", "((a0)",
        "(a0))", "a0>>a1", "a0UUa1", "a0!a1", "a0Fa1", "a0(a1)", "(a0)(a1)", "(a0)a1", "0", "1", "A0", "u", "fa0",
        "ga0", "Xa0", "a-1", "a+1", "a0.", "a0->a1", "a0&&a1", "a0||a1", "a0U a1 a0", "a0 0", "!(a0", ")a0(", "a0[]",
        "a0,a1",
    ):
        read(2, 1024, "r4", text)
    say("By hand: spaces and brackets make no node")
    read(2, 1024, "a0 a1 U", "  a0  U  a1  ")
    read(2, 1024, "a0 a1 U", "( ( a0 ) U ( ( a1 ) ) )")
    read(2, 1024, "a0 !", " ! ( a0 ) ")
    read(2, 1024, "a0 a1 U !", "!(a0Ua1)")
    read(2, 1024, "a0 a1 F > G a0 ! |", "G(a0>Fa1)|!a0")
    read(2, 1024, "a0 a1 a0 > >", "a0 > a1 > a0")
    read(2, 1024, "a0 a1 > a0 a1 | U a0 &", "(a0>a1)U(a0|a1)&a0")
    read(2, 1024, "a0 a1 & F a0 ! U a0 a1 > G |", "F(a0&a1)U!a0|G(a0>a1)")


# What may stand wrong in a window.
NOT_WINDOWS = (
    "F[01,2]a0", "F[0,02]a0", "F[00,1]a0", "F[0,00]a0", "F[1 0,5]a0", "F[1,1 0]a0", "F[0 5]a0", "F[,5]a0", "F[0,]a0",
    "F[,]a0", "F[]a0", "F[0]a0", "F[0,5a0", "F0,5]a0", "F[0,5]", "F[0,5", "F[0,", "F[0", "F[", "F]0,5[a0", "F[-1,5]a0",
    "F[+1,5]a0", "F[0,-5]a0", "F[0,5,6]a0", "F[0,,5]a0", "F[0,5]]a0", "F[[0,5]a0", "F[[0,5]]a0", "F[0,5][0,5]a0",
    "F[0,5)a0", "F(0,5]a0", "F(0,5)a0", "F{0,5}a0", "F[(0),5]a0", "F[(0,5)]a0", "F([0,5])a0", "F[a0,5]a0", "F[0,a1]a0",
    "F[0.5]a0", "F[0;5]a0", "F[0:5]a0", "F[x,5]a0", "F[0x1,5]a0", "F0,5a0", "F 0 5 a0", "F5a0", "G[0,5]", "G[0,5a0",
    "G[05,6]a0", "G[0 5]a0", "![0,1]a0", "U[0,1]a0", "a0U[0,1]a1", "a0&[0,1]a1", "a0|[0,1]a1", "a0>[0,1]a1", "a[0,1]",
    "a0[0,1]", "a0 [0,1] a1", "[0,1]a0", "[0,1]", "([0,1])a0", "f[0,1]a0", "g[0,1]a0", "X[0,1]a0", "F[0,5]&a0",
    "F[0,5]Ua0", "F[0,5]5a0", "F[0,5]a0 a1", "F[0,5]a0]", "(F[0,5])a0", "F([0,5]a0)", "F!([0,5]a0)", "(F)[0,5]a0",
)


def reading_windows():
    say("The request (N4): windows before a Single, with spaces before and after each token")
    read(1, 16, "a0 F[0,5]", "F[0,5]a0")
    read(1, 16, "a0 G[0,5]", "G[0,5]a0")
    read(1, 16, "a0 F[0,5]", "F [ 0 , 5 ] a0")
    read(1, 16, "a0 G[10,63]", "   G   [   10   ,   63   ]   a0   ")
    read(1, 16, "a0 F[0,0]", "F[0,0]a0")
    read(1, 16, "a0 G[63,63]", "G[63,63](a0)")
    read(1, 16, "a0 F[0,63]", "(F[0,63]((a0)))")
    read(1, 16, "a0 F[9,10]", "F[9, 10]a0")
    read(2, 24, "a1 G[1,2] F[0,3]", "F[0,3]G[1,2]a1")
    read(1, 40, "a0 F[2,2] ! G F[0,1]", "F[0,1]G!F[2,2]a0")
    read(1, 24, "a0 F F[0,1]", "F[0,1]Fa0")
    read(1, 24, "a0 F[0,1] F", "FF[0,1]a0")
    read(1, 24, "a0 G[0,0] !", "!G[0,0]a0")
    read(2, 32, "a0 F[0,1] a1 U", "F[0,1]a0Ua1")
    read(2, 32, "a0 a1 U F[0,1]", "F[0,1](a0Ua1)")
    read(2, 32, "a0 a1 G[0,1] U", "a0UG[0,1]a1")
    read(2, 56, "a0 F[0,1] a1 G[2,3] & a0 >", "F[0,1]a0&G[2,3]a1>a0")
    read(2, 40, "a0 a1 F[1,5] > G", "G(a0>F[1,5]a1)")
    say("By hand: 128 nodes of windows, and the buffer")
    read(1, 1024, "a0" + " G[0,63]" * 127, "G[0,63]" * 127 + "a0")
    read(1, 1023, "r11", "G[0,63]" * 127 + "a0")
    read(1, 1025, "a0" + " F[1,2]" * 127, "F[1,2]" * 127 + "a0")
    read(1, 1032, "r6", "F[0,1]" * 128 + "a0")
    read(1, 0, "r6", "F[0,1]" * 128 + "a0")
    read(1, 15, "r11", "F[0,5]a0")
    read(1, 17, "a0 F[0,5]", "F[0,5]a0")
    read(1, 0, "r11", "F[0,5]a0")
    say("By hand: outside the grammar, a window among it")
    for text in NOT_WINDOWS:
        read(2, 1024, "r4", text)
    for byte in (0x00, 0x09, 0x0A, 0x0D, 0x80, 0xA0, 0xFF):
        other = bytes([byte])
        read(1, 1024, "r4", b"F" + other + b"[0,5]a0")
        read(1, 1024, "r4", b"F[0" + other + b",5]a0")
        read(1, 1024, "r4", b"F[0,5" + other + b"]a0")
        read(1, 1024, "r4", b"F[0,5]" + other + b"a0")
    read(1, 1024, "r4", "F[" + "0" * 1000 + ",5]a0")
    read(1, 1024, "r4", "F[0,0" + "1" * 1000 + "]a0")


def refusing_windows():
    say("The request (N4): 12 when a is above b or b above 63, numbers of any length")
    for window in (
        "1,0", "63,62", "64,63", "0,64", "64,64", "63,64", "0,100", "256,0", "0,256", "256,256", "0,319", "256,319",
        "65536,65536", "0,65599", "4294967296,4294967296", "0,4294967359", "18446744073709551616,0",
        "0,18446744073709551616", "0,18446744073709551679", "18446744073709551616,18446744073709551616",
        "1" + "0" * 999 + ",63", "0," + "9" * 1000, "9" * 500 + "," + "9" * 500,
    ):
        read(1, 1024, "r12", f"F[{window}]a0")
        read(1, 1024, "r12", f"G[{window}]a0")
    say("By hand: such a window at another place than the top")
    for text in (
        "a0&F[1,0]a1", "F[1,0]a0&a1", "G(a0>F[5,4]a1)", "F[0,1]F[1,0]a0", "F[1,0]F[0,1]a0", "!G[0,64]!a0", "a0U(a1UG[2,1]a0)",
    ):
        read(2, 1024, "r12", text)
    say("By hand: the first in the order of the checks, 2, 3, 4, 5, 12, 6, 11")
    read(0, 1024, "r2", "F[1,0]a0")
    read(17, 0, "r2", "F[1,0]a0")
    read(1, 1024, "r3", "F[1,0]a0" + " " * 1017)
    read(1, 1024, "r12", "F[1,0]a0" + " " * 1016)
    for text in ("F[1,0]a0)", "F[1,0]", "F[1,0]a0 a0", "(F[1,0]a0", "F[1,0]a9)", "F[1,0]F[01,2]a0", "!" * 200 + "F[1,0]"):
        read(2, 1024, "r4", text)
    read(2, 1024, "r5", "F[1,0]a9")
    read(2, 0, "r5", "F[0,64]a0&a2")
    read(2, 1024, "r5", "!" * 200 + "F[1,0]a9")
    read(2, 1024, "r12", "!" * 198 + "F[1,0]a0")
    read(2, 1024, "r12", "F[1,0]a0" + "&a0" * 99)
    read(1, 1024, "r12", "F[0,1]" * 127 + "G[0,64]a0")
    read(1, 0, "r12", "F[1,0]a0")
    read(1, 15, "r12", "F[0,64]a0")
    read(1, 1032, "r12", "G[1,0]" * 128 + "a0")


def reading_heights():
    say("By hand from the request (N6): the heights that the reader fills in, 0 for an atom, otherwise 1 more than the highest child")
    read(1, 8, "a0", "a0", "0")
    for single in "!", "F", "G", "F[0,5]", "G[2,63]":
        read(1, 16, f"a0 {single}", f"{single}a0", "0 1")
    for double in "&|>U":
        read(2, 24, f"a0 a1 {double}", f"a0{double}a1", "0 0 1")
        read(2, 32, f"a0 ! a1 {double}", f"!a0{double}a1", "0 1 0 2")
        read(2, 32, f"a0 a1 ! {double}", f"a0{double}!a1", "0 0 1 2")
        read(2, 40, f"a0 F a1 G {double}", f"Fa0{double}Ga1", "0 1 0 1 2")
        read(2, 48, f"a0 G[0,1] F a1 ! {double}", f"FG[0,1]a0{double}!a1", "0 1 2 0 1 3")
        read(2, 56, f"a0 a1 a0 a1 {double} {double} {double}", f"a0{double}a1{double}a0{double}a1", "0 0 0 0 1 2 3")
        read(2, 56, f"a0 a1 {double} a0 {double} a1 {double}", f"((a0{double}a1){double}a0){double}a1", "0 0 1 0 2 0 3")
        read(2, 56, f"a0 a1 {double} a0 a1 {double} {double}", f"(a0{double}a1){double}(a0{double}a1)", "0 0 1 0 0 1 2")
    read(3, 48, "a0 a1 a2 ! | &", "a0&(a1|!a2)", "0 0 0 1 2 3")
    read(3, 48, "a0 ! a1 | a2 &", "(!a0|a1)&a2", "0 1 0 2 0 3")
    read(3, 72, "a0 a1 a2 a0 a1 U & | >", "a0>a1|a2&a0Ua1", "0 0 0 0 0 1 2 3 4")
    read(3, 72, "a0 a1 U a2 & a0 | a1 >", "a0Ua1&a2|a0>a1", "0 0 1 0 2 0 3 0 4")
    read(2, 40, "a0 a1 F[1,5] > G", "G(a0>F[1,5]a1)", "0 0 1 2 3")
    read(2, 48, "a0 F[0,1] a1 ! G[2,3] U", "F[0,1]a0UG[2,3]!a1", "0 1 0 1 2 3")
    read(1, 16, "a0 !", " ! ( ( ( a0 ) ) ) ", "0 1")
    read(3, 104, MIXED_RULE, "G(a0>Fa1)&!(a2U!a0)|a1", "0 0 1 2 3 0 0 1 2 3 4 0 5")
    read(3, 96, WINDOWED_RULE, "G(a0>F[1,2]a1)|!(a2UG[0,1]!a0)", "0 0 1 2 3 0 0 1 2 3 4 5")
    say("By hand: chains up to 127, the largest height; chains grouped to the right and to the left; 64 atoms in pairs, of height 6")
    to_127, to_63 = (" ".join(map(str, range(end))) for end in (128, 64))
    for words in ["!"], ["F"], ["G"], ["F[0,1]"], ["G[0,63]"], ["F", "G", "!"], ["!", "F[0,1]", "G", "F", "G[2,3]"]:
        chain = (words * 127)[:127]
        read(1, 1024, " ".join(["a0", *reversed(chain)]), "".join(chain) + "a0", to_127)
    read(1, 1016, "a0" + " a0" * 63 + " U" * 63, "a0" + "Ua0" * 63, "0 " * 63 + to_63)
    read(1, 1024, "a0 !" + " a0" * 63 + " &" * 63, "!a0" + "&a0" * 63, "0 1 " + "0 " * 62 + to_63)
    lefts = " ".join(f"0 {height}" for height in range(1, 64))
    read(1, 1016, "a0" + " a0 >" * 63, "(" * 62 + "a0" + ">a0)" * 62 + ">a0", f"0 {lefts}")
    rule, text, heights = "a0", "a0", "0"
    for height in range(1, 7):
        rule, text, heights = f"{rule} {rule} |", f"({text}|{text})", f"{heights} {heights} {height}"
    read(1, 1016, rule, text, heights)
    say("By hand: the buffer has 8 bytes for each node; the 7 bytes of a record without height are too few")
    for count, rule, text in (
        (1, "a0", "a0"), (2, "a0 G", "Ga0"), (3, "a0 a0 U", "a0Ua0"), (8, "a0" + " F[0,1]" * 7, "F[0,1]" * 7 + "a0"),
        (127, "a0" + " !" * 126, "!" * 126 + "a0"), (128, "a0" + " F" * 127, "F" * 127 + "a0"),
    ):
        for room in 7 * count, 8 * count - 1:
            read(1, room, "r11", text)
        for room in 8 * count, 8 * count + 1:
            read(1, room, rule, text)


def evaluating():
    say("The paper, known rules and runs: T 3, M 2. The root's line is the paper's, the parts' are by hand")
    evaluate(3, 2, 3, "v1", [1, 1, 2], "110 001 111", UNTIL)
    evaluate(3, 2, 3, "v0", [1, 1, 1], "111 000 000", UNTIL)
    evaluate(3, 2, 3, "v0", [1, 0, 2], "100 001 001", UNTIL)
    evaluate(3, 2, 2, "v1", [0, 2, 0], "010 110", F_A1)
    evaluate(3, 2, 2, "v0", [0, 1, 1], "011 011", G_A0)
    evaluate(3, 2, 3, "v1", [0, 1, 3], "011 001 101", IMPLIES)
    evaluate(3, 2, 3, "v0", [1, 1, 0], "110 110 000", GF_A0)
    evaluate(3, 2, 3, "v1", [0, 0, 1], "001 001 111", FG_A0)
    say("By hand: the same rules with T 1")
    evaluate(1, 2, 3, "v1", [2], "0 1 1", UNTIL)
    evaluate(1, 2, 3, "v0", [1], "1 0 0", UNTIL)
    evaluate(1, 2, 3, "v1", [3], "1 1 1", UNTIL)
    evaluate(1, 2, 3, "v0", [0], "0 0 0", UNTIL)
    evaluate(1, 2, 2, "v1", [2], "1 1", F_A1)
    evaluate(1, 2, 2, "v0", [1], "0 0", F_A1)
    evaluate(1, 2, 2, "v1", [1], "1 1", G_A0)
    evaluate(1, 2, 2, "v0", [2], "0 0", G_A0)
    evaluate(1, 2, 3, "v0", [1], "1 0 0", IMPLIES)
    evaluate(1, 2, 3, "v1", [0], "0 0 1", IMPLIES)
    evaluate(1, 2, 3, "v1", [1], "1 1 1", GF_A0)
    evaluate(1, 2, 3, "v0", [2], "0 0 0", FG_A0)
    evaluate(1, 1, 1, "v1", [1], "1", ATOM)
    say("By hand: the same rules with T 64")
    evaluate(64, 2, 3, "v1", [1] * 63 + [2], "1" * 63 + "0" + "0" * 63 + "1" + "1" * 64, UNTIL)
    evaluate(64, 2, 3, "v0", [1] * 64, "1" * 64 + "0" * 64 + "0" * 64, UNTIL)
    evaluate(64, 2, 3, "v0", [1] + [0] * 62 + [2], "1" + "0" * 63 + "0" * 63 + "1" + "0" * 63 + "1", UNTIL)
    evaluate(64, 2, 2, "v1", [0] * 31 + [2] + [0] * 32, "0" * 31 + "1" + "0" * 32 + "1" * 32 + "0" * 32, F_A1)
    evaluate(64, 2, 2, "v1", [0] * 63 + [2], "0" * 63 + "1" + "1" * 64, F_A1)
    evaluate(64, 2, 2, "v0", [0] + [1] * 63, ("0" + "1" * 63) * 2, G_A0)
    evaluate(64, 2, 3, "v1", [0, 1, 3, 2] * 16, "0110" * 16 + "0011" * 16 + "1011" * 16, IMPLIES)
    evaluate(64, 2, 3, "v0", [1] * 63 + [0], "1" * 63 + "0" + "1" * 63 + "0" + "0" * 64, GF_A0)
    evaluate(64, 2, 3, "v1", [0] * 63 + [1], "0" * 63 + "1" + "0" * 63 + "1" + "1" * 64, FG_A0)
    evaluate(1, 1, 128, "v0", [1], "10" * 64, NOTS)
    say("By hand: M 16 has no bit too high; shared and unused parts, left equal to right; a longer buffer")
    evaluate(2, 16, 1, "v1", [65535, 32768], "11", table((1, 15, 0)))
    evaluate(2, 1, 2, "v0", [0, 1], "01 01", table((1, 0, 0), (8, 0, 0)))
    evaluate(2, 1, 2, "v1", [0, 1], "01 11", table((1, 0, 0), (5, 0, 0)))
    evaluate(2, 1, 9, "v1", [0, 1], "01 10 10 11", table((1, 0, 0), (2, 0, 0), (3, 1, 1), (4, 0, 1)))
    evaluate(2, 1, 3, "v0", [0, 1], "01 11 01", table((1, 0, 0), (6, 0, 0), (1, 0, 0)))
    say("The paper, refusals: T 65; M 0; no records; T 2, run of 1")
    evaluate(65, 2, 200, "r1", [1] * 65, "", UNTIL)
    evaluate(2, 0, 200, "r2", [0, 0], "", ATOM)
    evaluate(2, 2, 200, "r7", [0, 0], "", b"")
    evaluate(2, 2, 200, "r8", [0], "", UNTIL)
    say("By hand: other limits; a run that is too long or has a bit at M or above; the buffer")
    evaluate(0, 2, 200, "r1", [], "", UNTIL)
    evaluate(257, 2, 200, "r1", [0], "", UNTIL)
    evaluate(4294967297, 2, 200, "r1", [0], "", UNTIL)
    evaluate(1, 17, 200, "r2", [0], "", UNTIL)
    evaluate(1, 4294967297, 200, "r2", [0], "", ATOM)
    evaluate(2, 2, 200, "r8", [], "", UNTIL)
    evaluate(2, 2, 200, "r8", [0, 0, 0], "", UNTIL)
    evaluate(2, 2, 200, "r8", [4, 0], "", UNTIL)
    evaluate(2, 2, 200, "r8", [3, 32768], "", UNTIL)
    evaluate(2, 15, 200, "r8", [0, 32768], "", UNTIL)
    evaluate(1, 1, 200, "r8", [2], "", ATOM)
    evaluate(2, 2, 2, "r11", [0, 0], "", UNTIL)
    evaluate(2, 2, 3, "v0", [0, 0], "00 00 00", UNTIL)
    evaluate(2, 2, 0, "r11", [0, 0], "", UNTIL)
    say("By hand: tables that are not good")
    for nodes in (
        ATOM[:5], ATOM[:7], ATOM + b"\x4e", ATOM + ATOM[:7], NOTS + b"\x4e", NOTS + ATOM, b"\x4e\x45" + ATOM[2:],
        b"\x4f\x44" + ATOM[2:], b"\x44\x4e" + ATOM[2:], table((0, 0, 0)), table((11, 0, 0)), table((255, 0, 0)),
        table((2, 0, 0)), table((3, 0, 0)), table((1, 2, 0)), table((1, 255, 0)), table((1, 0, 1)),
        *(table((1, 0, 0), second) for second in (
            (2, 1, 0), (2, 0, 1), (6, 2, 0), (6, 0, 1), (7, 1, 0), (7, 0, 255),
            (3, 0, 1), (3, 1, 0), (4, 0, 1), (5, 2, 0), (8, 0, 128), (8, 255, 0),
        )),
        table((8, 0, 0), (1, 0, 0)),
    ):
        evaluate(1, 2, 200, "r7", [0], "", nodes)
    say("By hand: the first refusal in the order of the checks wins")
    evaluate(65, 0, 0, "r1", [], "", b"")
    evaluate(64, 0, 0, "r2", [], "", b"")
    evaluate(64, 1, 0, "r7", [], "", b"")
    evaluate(64, 1, 0, "r8", [], "", ATOM)


def window(kind, a, b, atom=0):
    """The table of F[a,b] or G[a,b] of an atom."""
    return table((1, atom, 0), (paper.WINDOW[kind], 0, 0, a, b))


def evaluating_windows():
    say("By hand from the request (N4): windows with T 1, 2 and 3; a slot after T counts as T")
    for kind in "FG":
        for a, b in (0, 0), (0, 63), (1, 1), (63, 63):
            evaluate(1, 1, 2, "v1", [1], "1 1", window(kind, a, b))
            evaluate(1, 1, 2, "v0", [0], "0 0", window(kind, a, b))
    evaluate(2, 1, 2, "v1", [0, 1], "01 11", window("F", 0, 1))
    evaluate(2, 1, 2, "v1", [1, 0], "10 10", window("F", 0, 1))
    evaluate(2, 1, 2, "v0", [0, 1], "01 01", window("G", 0, 1))
    evaluate(2, 1, 2, "v0", [1, 0], "10 00", window("G", 0, 1))
    evaluate(2, 1, 2, "v1", [0, 1], "01 11", window("F", 1, 1))
    evaluate(2, 1, 2, "v0", [1, 0], "10 00", window("F", 1, 63))
    evaluate(2, 1, 2, "v1", [0, 1], "01 11", window("G", 1, 63))
    for run, truth in ([1, 0, 0], "100 000"), ([0, 1, 0], "010 100"), ([0, 0, 1], "001 111"):
        evaluate(3, 1, 2, f"v{truth[4]}", run, truth, window("F", 1, 2))
    for run, truth in ([0, 1, 1], "011 111"), ([1, 1, 0], "110 000"), ([1, 0, 1], "101 011"):
        evaluate(3, 1, 2, f"v{truth[4]}", run, truth, window("G", 1, 2))
    for kind in "FG":
        evaluate(3, 1, 2, "v0", [0, 1, 0], "010 010", window(kind, 0, 0))
        evaluate(3, 1, 2, "v1", [0, 0, 1], "001 111", window(kind, 2, 2))
        evaluate(3, 1, 2, "v0", [1, 1, 0], "110 000", window(kind, 3, 5))
        evaluate(3, 1, 3, "v1", [0, 0, 1], "001 111", window(kind, 62, 63))
    say("By hand: windows with T 5, some within others")
    evaluate(5, 1, 2, "v1", [0, 1, 1, 0, 1], "01101 10011", window("G", 1, 2))
    evaluate(5, 1, 2, "v0", [1, 0, 0, 1, 0], "10010 01100", window("F", 1, 2))
    evaluate(5, 1, 2, "v1", [1, 0, 0, 1, 0], "10010 11110", window("F", 0, 2))
    evaluate(5, 1, 2, "v1", [1, 1, 1, 0, 1], "11101 10001", window("G", 0, 2))
    evaluate(5, 1, 2, "v1", [0, 0, 0, 1, 0], "00010 11000", window("F", 2, 3))
    evaluate(5, 1, 3, "v1", [0, 1, 1, 0, 1], "01101 01001 10011", table((1, 0, 0), (10, 0, 0, 0, 1), (9, 1, 0, 1, 1)))
    evaluate(5, 1, 3, "v0", [1, 0, 0, 1, 0], "10010 10110 00000", table((1, 0, 0), (9, 0, 0, 0, 1), (7, 1, 0)))
    evaluate(3, 2, 4, "v1", [0, 1, 2], "010 110 001 111", table((1, 0, 0), (9, 0, 0, 0, 1), (1, 1, 0), (8, 1, 2)))
    evaluate(3, 1, 3, "v1", [1, 0, 0], "100 000 100", table((1, 0, 0), (9, 0, 0, 1, 2), (1, 0, 0)))
    say("By hand: windows with T 64")
    first, last, both = "1" + "0" * 63, "0" * 63 + "1", "0" + "1" * 63
    evaluate(64, 1, 2, "v1", [0] * 63 + [1], last + "1" * 64, window("F", 0, 63))
    evaluate(64, 1, 2, "v1", [1] + [0] * 63, first + first, window("F", 0, 63))
    evaluate(64, 1, 2, "v0", [1] * 63 + [0], "1" * 63 + "0" + "0" * 64, window("G", 0, 63))
    evaluate(64, 1, 2, "v0", [0] + [1] * 63, both + both, window("G", 0, 63))
    evaluate(64, 1, 2, "v0", [0] * 63 + [1], last + "0" + "1" * 63, window("F", 0, 62))
    evaluate(64, 1, 2, "v1", [0] * 63 + [1], last + "1" * 64, window("F", 63, 63))
    evaluate(64, 1, 2, "v0", [0] * 62 + [1, 0], "0" * 62 + "10" + "0" * 64, window("G", 63, 63))
    evaluate(64, 1, 2, "v1", [0] * 62 + [1, 0], "0" * 62 + "10" + first, window("F", 62, 62))
    evaluate(64, 1, 2, "v1", [0] * 31 + [1] + [0] * 32, "0" * 31 + "1" + "0" * 32 + "1" * 32 + "0" * 32, window("F", 0, 31))
    evaluate(64, 1, 2, "v0", [0] * 32 + [1] + [0] * 31, "0" * 32 + "1" + "0" * 31 + "0" + "1" * 32 + "0" * 31, window("F", 0, 31))
    evaluate(64, 1, 2, "v0", [1] * 9 + [0] + [1] * 54, "1" * 9 + "0" + "1" * 54 + "0" * 5 + "1" * 59, window("G", 5, 9))
    say("By hand: the buffer, and a window's record in a table that is not good")
    evaluate(3, 1, 1, "r11", [0, 0, 1], "", window("F", 1, 2))
    evaluate(3, 1, 0, "r11", [0, 0, 1], "", window("G", 1, 2))
    for nodes in (
        table((9, 0, 0, 0, 1)), table((10, 0, 0, 0, 1)), table((1, 0, 0, 0, 1)), table((1, 0, 0, 1, 1)), table((1, 0, 0, 1, 0)),
        *(table((1, 0, 0), second) for second in (
            (9, 0, 0, 1, 0), (10, 0, 0, 1, 0), (9, 0, 0, 63, 62), (10, 0, 0, 63, 0), (9, 0, 0, 255, 0), (10, 0, 0, 64, 63),
            (9, 0, 0, 0, 64), (10, 0, 0, 0, 64), (9, 0, 0, 64, 64), (10, 0, 0, 63, 64), (9, 0, 0, 0, 255), (10, 0, 0, 255, 255),
            (9, 0, 1, 0, 1), (10, 0, 1, 0, 1), (9, 0, 255, 0, 1), (10, 0, 128, 63, 63),
            (9, 1, 0, 0, 1), (10, 1, 0, 0, 1), (9, 2, 0, 0, 1), (10, 255, 0, 0, 1),
            (0, 0, 0, 0, 1), (11, 0, 0, 0, 1), (255, 0, 0, 0, 1),
            *((kind, 0, 0, *window) for kind in range(2, 9) for window in ((0, 1), (1, 1), (1, 0), (0, 255))),
        )),
        table((1, 0, 0), (9, 0, 0, 1, 0), (1, 0, 0)), window("F", 0, 1)[:-1], window("F", 0, 1)[:-2], window("G", 0, 1) + b"\x4e",
    ):
        evaluate(1, 1, 200, "r7", [0], "", nodes)
    evaluate(1, 1, 0, "r7", [], "", window("F", 1, 0))
    evaluate(1, 1, 0, "r8", [], "", window("F", 1, 1))


def first_slots():
    say("By hand from the request (N5): the first slot with a set bit, or none")
    for word, slot in (
        (0, None), (1, 1), (2, 2), (3, 1), (4, 3), (6, 2), (2**63, 64), (2**64 - 1, 1), (2**64 - 2, 2), (2**63 + 1, 1),
        (3 * 2**62, 63), (2**63 + 2, 2), (2**63 + 2**62 + 2**61, 62), (2**32, 33), (2**32 - 1, 1), (2**31, 32), (2**64 - 2**32, 33),
        (2**64 - 2**31, 32), (2**63 + 2**31, 32), (2**63 + 2**32, 33), (2**16, 17), (2**8, 9), (2**48 - 2**16, 17), (2**63 - 1, 1),
        (0x5555555555555555, 1), (0xAAAAAAAAAAAAAAAA, 2), (0xFEDCBA9876543210, 5), (0x0123456789ABCDEF, 1),
        (0xFF00FF00FF00FF00, 9), (0xFFFF0000FFFF0000, 17), (0xFFFFFFFF00000000, 33), (FILL_WORD, 2), (0x8000000000000100, 9),
    ):
        first_slot(word, slot)
    say("By hand: each slot alone, with all after it, and with slot 64")
    for slot in range(1, 65):
        for word in 2 ** (slot - 1), 2**64 - 2 ** (slot - 1), 2 ** (slot - 1) | 2**63:
            first_slot(word, slot)
    say("Of the request's words: other words, some of few bits and some of high bits alone")
    rng = random.Random(5)
    for few in range(1, 65):
        word = rng.getrandbits(64) >> rng.randrange(few) << rng.randrange(few) & 2**64 - 1
        first_slot(word, paper.first_slot(word))


# All ten kinds, with windows of one slot, of all slots and beyond every horizon, M 16.
TEN_RULES = (
    "a0 a15 U", "a15 a0 &", "a0 a15 |", "a15 a0 >", "a15 !", "a0 F", "a15 G", "a15 F[0,0]", "a0 G[0,0]", "a15 F[0,63]", "a0 G[0,63]",
    "a0 F[63,63]", "a15 G[63,63]", "a0 F[1,62]", "a15 G[62,63]", "a15 ! F[31,32]", "a0 F[0,1] a15 G[1,5] U !", "a15 a0 U ! F[5,9] a0 >",
)
TEN_KINDS = paper.table(nodes_of(" ".join(TEN_RULES) + " &" * (len(TEN_RULES) - 1)))


def runs_of(t):
    """Runs over a0 and a15: nothing, all, slot 1 or slot T alone, turns, and of chance."""
    rng, high = random.Random(t), 2**15
    yield from ([0] * t, [high + 1] * t, [high] + [0] * (t - 1), [0] * (t - 1) + [1], [1] * (t - 1) + [high])
    yield [(1, high)[slot % 2] for slot in range(t)]
    yield [rng.choice((0, 0, 1, 1, high, high + 1)) for _ in range(t)]
    yield [rng.getrandbits(16) for _ in range(t)]


def evaluating_words():
    say("By hand from the request (N5): bit t - 1 for slot t, zeros above: the last slot alone, and all slots, for each T, M 16")
    for t in range(1, 65):
        evaluate(t, 16, 2, f"v{int(t > 1)}", [0] * (t - 1) + [32768], "0" * (t - 1) + "1" + "1" * (t - 1) + "0", table((1, 15, 0), (2, 0, 0)))
        evaluate(t, 16, 2, "v1", [0] * t, "0" * t + "1" * t, table((1, 15, 0), (2, 0, 0)))
    say("By hand: each slot alone with T 64: of `a15`, `Fa15` and `F[0,63]a15`")
    for slot in range(64):
        alone, until = "0" * slot + "1" + "0" * (63 - slot), "1" * (slot + 1) + "0" * (63 - slot)
        run = [32768 * int(bit) for bit in alone]
        evaluate(64, 16, 3, "v1", run, alone + until * 2, table((1, 15, 0), (6, 0, 0), (9, 0, 0, 0, 63)))
    say("By hand: 11 counts words, one for each node, whatever T")
    for count, t in *itertools.product((1, 2, 3, 8, 9), (1, 2, 8, 64)), (64, 3), (127, 64), (128, 1), (128, 64):
        nots = NOTS[: RECORD * count]
        for room in sorted({0, count // 8, count - 1}):
            evaluate(t, 1, room, "r11", [1] * t, "", nots)
        for more in 0, 1:
            evaluate_of_paper(t, 1, [1] * t, nots, more)
    say("Of the paper's words: all ten kinds, windows of one slot, of all and beyond T, M 16; the root is `&` of them all")
    for t in 1, 2, 32, 33, 63, 64:
        for run in runs_of(t):
            evaluate_of_paper(t, 16, run, TEN_KINDS)


# What rowlist prints for `2 2` and `a0Ua1`, word for word.
PAGE = """\
0 = 0 +4 -0
1 = 0 +5 -1
2 = 0 +6 -2
3 = 0 +7 -3
4 >= 0 +8 -6
5 >= 0 +4 +6 -8
6 >= 0 +6 +9 -8
7 >= -1 +8 -4 -9
8 = 0 +9 -7
9 = 1 +8"""


def writing_rows():
    page = [line.split(" ", 1)[1] for line in PAGE.split("\n")]
    say("The paper: rowlist's example, `a0Ua1` with T 2 and M 2")
    rows(2, 2, 116, "n10", page, UNTIL)
    rows(2, 2, 999, "n10", page, UNTIL)
    say("The paper, refusals: T 65; M 0; no records; 13 bytes for rows")
    rows(65, 2, 9999, "r1", [], UNTIL)
    rows(2, 0, 9999, "r2", [], ATOM)
    rows(2, 2, 9999, "r7", [], b"")
    rows(1, 1, 13, "r11", [], ATOM)
    rows(2, 2, 13, "r11", [], UNTIL)
    say("By hand: the buffer, other limits, the first refusal in the order of the checks wins")
    rows(1, 1, 18, "r11", [], ATOM)
    rows(1, 1, 19, "n2", ["= 0 +1 -0", "= 1 +1"], ATOM)
    rows(1, 1, 20, "n2", ["= 0 +1 -0", "= 1 +1"], ATOM)
    rows(2, 2, 115, "r11", [], UNTIL)
    rows(2, 2, 0, "r11", [], UNTIL)
    rows(0, 1, 999, "r1", [], ATOM)
    rows(4294967297, 1, 999, "r1", [], ATOM)
    rows(1, 17, 999, "r2", [], ATOM)
    rows(1, 4294967297, 999, "r2", [], ATOM)
    rows(65, 0, 0, "r1", [], b"")
    rows(64, 17, 0, "r2", [], b"")
    rows(64, 16, 0, "r7", [], b"")
    rows(1, 1, 999, "r7", [], table((1, 1, 0)))
    rows(1, 1, 999, "r7", [], table((1, 0, 0), (8, 0, 1)))
    rows(1, 1, 999, "r7", [], NOTS + ATOM)
    say("By hand from the paper's table of rows: each kind with T 2")
    a0_t2_m1 = ["= 0 +2 -0", "= 0 +3 -1"]
    both_t2_m2 = ["= 0 +4 -0", "= 0 +5 -1", "= 0 +6 -2", "= 0 +7 -3"]
    rows(2, 1, 52, "n5", a0_t2_m1 + ["= 1 +4 +2", "= 1 +5 +3", "= 1 +4"], table((1, 0, 0), (2, 0, 0)))
    rows(2, 2, 124, "n11", both_t2_m2 + [
        ">= 0 +4 -8", ">= 0 +6 -8", ">= -1 +8 -4 -6", ">= 0 +5 -9", ">= 0 +7 -9", ">= -1 +9 -5 -7", "= 1 +8",
    ], table((1, 0, 0), (1, 1, 0), (3, 0, 1)))
    rows(2, 2, 124, "n11", both_t2_m2 + [
        ">= 0 +8 -4", ">= 0 +8 -6", ">= 0 +4 +6 -8", ">= 0 +9 -5", ">= 0 +9 -7", ">= 0 +5 +7 -9", "= 1 +8",
    ], table((1, 0, 0), (1, 1, 0), (4, 0, 1)))
    rows(2, 2, 124, "n11", both_t2_m2 + [
        ">= 1 +8 +4", ">= 0 +8 -6", ">= -1 +6 -4 -8", ">= 1 +9 +5", ">= 0 +9 -7", ">= -1 +7 -5 -9", "= 1 +8",
    ], IMPLIES)
    rows(2, 1, 77, "n7", a0_t2_m1 + [
        ">= 0 +4 -2", ">= 0 +4 -5", ">= 0 +2 +5 -4", "= 0 +5 -3", "= 1 +4",
    ], table((1, 0, 0), (6, 0, 0)))
    rows(2, 1, 77, "n7", a0_t2_m1 + [
        ">= 0 +2 -4", ">= 0 +5 -4", ">= -1 +4 -2 -5", "= 0 +5 -3", "= 1 +4",
    ], G_A0)
    say("By hand: F, G and U with T 1 have their last row alone")
    rows(1, 2, 30, "n3", ["= 0 +2 -1", "= 0 +3 -2", "= 1 +3"], F_A1)
    rows(1, 1, 30, "n3", ["= 0 +1 -0", "= 0 +2 -1", "= 1 +2"], G_A0)
    rows(1, 2, 41, "n4", ["= 0 +2 -0", "= 0 +3 -1", "= 0 +4 -3", "= 1 +4"], UNTIL)
    say("By hand: left equal to right, terms neither merged nor dropped")
    rows(1, 1, 55, "n5", [
        "= 0 +1 -0", ">= 0 +1 -2", ">= 0 +1 -2", ">= -1 +2 -1 -1", "= 1 +2",
    ], table((1, 0, 0), (3, 0, 0)))
    rows(1, 1, 55, "n5", [
        "= 0 +1 -0", ">= 0 +2 -1", ">= 0 +2 -1", ">= 0 +1 +1 -2", "= 1 +2",
    ], table((1, 0, 0), (4, 0, 0)))
    rows(1, 1, 55, "n5", [
        "= 0 +1 -0", ">= 1 +2 +1", ">= 0 +2 -1", ">= -1 +1 -1 -2", "= 1 +2",
    ], table((1, 0, 0), (5, 0, 0)))
    rows(2, 1, 94, "n8", a0_t2_m1 + [
        ">= 0 +4 -2", ">= 0 +2 +2 -4", ">= 0 +2 +5 -4", ">= -1 +4 -2 -5", "= 0 +5 -3", "= 1 +4",
    ], table((1, 0, 0), (8, 0, 0)))
    say("By hand: `G(a0>Fa1)`, T 3, M 2")
    rows(3, 2, 348, "n30", [
        "= 0 +6 -0", "= 0 +7 -1", "= 0 +8 -2", "= 0 +9 -3", "= 0 +10 -4", "= 0 +11 -5",
        ">= 0 +12 -9", ">= 0 +12 -13", ">= 0 +9 +13 -12", ">= 0 +13 -10", ">= 0 +13 -14", ">= 0 +10 +14 -13",
        "= 0 +14 -11",
        ">= 1 +15 +6", ">= 0 +15 -12", ">= -1 +12 -6 -15", ">= 1 +16 +7", ">= 0 +16 -13", ">= -1 +13 -7 -16",
        ">= 1 +17 +8", ">= 0 +17 -14", ">= -1 +14 -8 -17",
        ">= 0 +15 -18", ">= 0 +19 -18", ">= -1 +18 -15 -19", ">= 0 +16 -19", ">= 0 +20 -19", ">= -1 +19 -16 -20",
        "= 0 +20 -17",
        "= 1 +18",
    ], table((1, 0, 0), (1, 1, 0), (6, 1, 0), (5, 0, 2), (7, 3, 0)))
    say("By hand: variables of two bytes, T 64 and M 16; nodes that the root does not use")
    a15 = [f"= 0 +{1024 + slot} -{960 + slot}" for slot in range(64)]
    rows(64, 16, 712, "n65", a15 + ["= 1 +1024"], table((1, 15, 0)))
    rows(1, 1, 41, "n4", ["= 0 +1 -0", "= 1 +2 +1", "= 0 +3 -0", "= 1 +3"], table((1, 0, 0), (2, 0, 0), (1, 0, 0)))


def writing_window_rows():
    say("By hand from the request (N4): F[a,b] and G[a,b] of a0 with T 1 and 2, M 1; the buffer")
    atom = ["= 0 +2 -0", "= 0 +3 -1"]
    within = atom + [">= 0 +4 -2", ">= 0 +4 -3", ">= 0 +2 +3 -4", ">= 0 +5 -3", ">= 0 +3 -5", "= 1 +4"]
    throughout = atom + [">= 0 +2 -4", ">= 0 +3 -4", ">= -1 +4 -2 -3", ">= 0 +3 -5", ">= 0 +5 -3", "= 1 +4"]
    rows(2, 1, 88, "n8", within, window("F", 0, 1))
    rows(2, 1, 90, "n8", within, window("F", 0, 1))
    rows(2, 1, 87, "r11", [], window("F", 0, 1))
    rows(2, 1, 88, "n8", throughout, window("G", 0, 1))
    rows(2, 1, 87, "r11", [], window("G", 0, 1))
    rows(2, 1, 88, "n8", within, window("F", 0, 63))
    rows(2, 1, 74, "n7", atom + [">= 0 +4 -2", ">= 0 +2 -4", ">= 0 +5 -3", ">= 0 +3 -5", "= 1 +4"], window("F", 0, 0))
    rows(2, 1, 74, "n7", atom + [">= 0 +2 -4", ">= 0 +4 -2", ">= 0 +3 -5", ">= 0 +5 -3", "= 1 +4"], window("G", 0, 0))
    rows(2, 1, 74, "n7", atom + [">= 0 +4 -3", ">= 0 +3 -4", ">= 0 +5 -3", ">= 0 +3 -5", "= 1 +4"], window("F", 1, 1))
    rows(2, 1, 73, "r11", [], window("F", 0, 0))
    rows(1, 1, 41, "n4", ["= 0 +1 -0", ">= 0 +2 -1", ">= 0 +1 -2", "= 1 +2"], window("F", 0, 63))
    rows(1, 1, 41, "n4", ["= 0 +1 -0", ">= 0 +1 -2", ">= 0 +2 -1", "= 1 +2"], window("G", 63, 63))
    rows(1, 1, 40, "r11", [], window("G", 63, 63))
    say("By hand: windows that end at T and after it, T 3 and 4; a window of a window")
    atom = ["= 0 +3 -0", "= 0 +4 -1", "= 0 +5 -2"]
    ends = [">= 0 +7 -5", ">= 0 +5 -7", ">= 0 +8 -5", ">= 0 +5 -8", "= 1 +6"]
    rows(3, 1, 121, "n11", atom + [">= 0 +6 -4", ">= 0 +6 -5", ">= 0 +4 +5 -6"] + ends, window("F", 1, 2))
    rows(3, 1, 107, "n10", atom + [">= 0 +6 -5", ">= 0 +5 -6"] + ends, window("F", 3, 5))
    rows(4, 2, 210, "n18", [
        "= 0 +8 -4", "= 0 +9 -5", "= 0 +10 -6", "= 0 +11 -7",
        ">= 0 +8 -12", ">= 0 +9 -12", ">= 0 +10 -12", ">= -2 +12 -8 -9 -10",
        ">= 0 +9 -13", ">= 0 +10 -13", ">= 0 +11 -13", ">= -2 +13 -9 -10 -11",
        ">= 0 +10 -14", ">= 0 +11 -14", ">= -1 +14 -10 -11",
        ">= 0 +11 -15", ">= 0 +15 -11",
        "= 1 +12",
    ], window("G", 0, 2, atom=1))
    rows(2, 1, 132, "n12", [
        "= 0 +2 -0", "= 0 +3 -1",
        ">= 0 +3 -4", ">= 0 +4 -3", ">= 0 +3 -5", ">= 0 +5 -3",
        ">= 0 +6 -4", ">= 0 +6 -5", ">= 0 +4 +5 -6", ">= 0 +7 -5", ">= 0 +5 -7",
        "= 1 +6",
    ], table((1, 0, 0), (10, 0, 0, 1, 1), (9, 1, 0, 0, 1)))
    say("By hand: [0,63] with T 64, rows of up to 65 terms and right sides down to -63; variables of two bytes with M 16")
    rows(64, 1, 30344, "n2209", widest("G", 64), window("G", 0, 63))
    rows(64, 1, 30343, "r11", [], window("G", 0, 63))
    rows(64, 16, 30344, "n2209", widest("F", 1024), window("F", 0, 63, atom=15))
    rows(64, 16, 30343, "r11", [], window("F", 0, 63, atom=15))
    say("By hand: a window's record in a table that is not good")
    rows(2, 1, 999, "r7", [], window("F", 1, 0))
    rows(2, 1, 0, "r7", [], window("G", 0, 64))
    rows(2, 1, 999, "r7", [], table((1, 0, 0), (6, 0, 0, 0, 1)))


def widest(kind, first):
    """The rows of the window [0,63] of the last atom with T 64: the atom's node has the variables from `first` on."""
    found = [f"= 0 +{first + slot} -{first - 64 + slot}" for slot in range(64)]
    for slot in range(64):
        own, parts = first + 64 + slot, range(first + slot, first + 64)
        if kind == "F":
            found += [f">= 0 +{own} -{part}" for part in parts]
            found += [">= 0 " + " ".join(f"+{part}" for part in parts) + f" -{own}"]
        else:
            found += [f">= 0 +{part} -{own}" for part in parts]
            found += [f">= -{63 - slot} +{own} " + " ".join(f"-{part}" for part in parts)]
    return [*found, f"= 1 +{first + 64}"]


def judging():
    say("The paper: `a0`, T 1, M 1")
    judge(1, 1, 0, [ONE, 999999], "k0,1", ATOM)
    judge(1, 1, 1, [ONE, 999999], "p2,2", ATOM)
    judge(1, 1, 0, [500000, 500000], "b0", ATOM)
    judge(1, 1, 0, [-1, 0], "o0", ATOM)
    say("The paper, refusals: T 65; M 0; no records; no figures; tolerance 1,001")
    judge(65, 1, 0, [ONE, ONE], "r1", ATOM)
    judge(1, 0, 0, [ONE, ONE], "r2", ATOM)
    judge(1, 1, 0, [ONE, ONE], "r7", b"")
    judge(1, 1, 0, [], "r9", ATOM)
    judge(1, 1, 1001, [ONE, ONE], "r10", ATOM)
    say("By hand: other limits, one figure short or too many, tolerances")
    judge(0, 1, 0, [], "r1", ATOM)
    judge(1, 17, 0, [ONE] * 18, "r2", ATOM)
    judge(1, 1, 0, [ONE], "r9", ATOM)
    judge(1, 1, 0, [ONE] * 3, "r9", ATOM)
    judge(2, 2, 0, [0] * 9, "r9", UNTIL)
    judge(2, 2, 0, [0] * 11, "r9", UNTIL)
    judge(1, 1, -1, [ONE, ONE], "r10", ATOM)
    judge(1, 1, -1000, [ONE, ONE], "r10", ATOM)
    judge(1, 1, 2147483647, [ONE, ONE], "r10", ATOM)
    judge(1, 1, -2147483648, [ONE, ONE], "r10", ATOM)
    judge(1, 1, 1000, [ONE, ONE], "p2,2000", ATOM)
    judge(1, 1, 0, [ONE, ONE], "p2,0", ATOM)
    say("By hand: the first refusal in the order of the checks wins")
    judge(65, 0, -1, [], "r1", b"")
    judge(64, 0, -1, [], "r2", b"")
    judge(64, 1, -1, [], "r7", b"")
    judge(64, 1, -1, [], "r9", ATOM)
    judge(1, 1, 1001, [500000, 500000], "r10", ATOM)
    say("By hand: outside is strict and comes first, with the lowest variable, slacks too")
    judge(1, 1, 0, [0, -1], "o1", ATOM)
    judge(1, 1, 0, [ONE + 1, 0], "o0", ATOM)
    judge(1, 1, 0, [ONE, ONE + 1], "o1", ATOM)
    judge(1, 1, 1, [ONE + 1, ONE + 1], "p2,2", ATOM)
    judge(1, 1, 1, [ONE + 2, ONE + 1], "o0", ATOM)
    judge(1, 1, 1, [-1, -1], "k1,1000001", ATOM)
    judge(1, 1, 1, [-2, -1], "o0", ATOM)
    judge(1, 1, 1000, [ONE + 1000, ONE + 1000], "p2,2000", ATOM)
    judge(1, 1, 1000, [ONE + 1000, ONE + 1001], "o1", ATOM)
    judge(1, 1, 1000, [ONE, -1001], "o1", ATOM)
    judge(1, 1, 1000, [ONE, -1000], "k0,1001000", ATOM)
    judge(1, 1, 0, [500000, -1], "o1", ATOM)
    judge(1, 1, 0, [2147483647, 2147483647], "o0", ATOM)
    judge(1, 1, 1000, [-2147483648, 0], "o0", ATOM)
    judge(1, 1, 1000, [ONE, 2147483647], "o1", ATOM)
    judge(1, 1, 0, [0, -2147483648], "o1", ATOM)
    say("By hand: the lowest of 576 figures that is outside, wherever it stands; none: seven `!` in a row, T 64, break their first row")
    nots = table((1, 0, 0), *((2, child, 0) for child in range(7)))
    for place in (0, 1, 63, 64, 255, 256, 257, 511, 512, 513, 574, 575):
        after = 575 - place
        judge(64, 1, 0, [0] * place + [-1] + [0] * after, f"o{place}", nots)
        judge(64, 1, 1000, [ONE + 1000] * place + [ONE + 1001] + [-1001] * after, f"o{place}", nots)
    for place, later in ((0, 575), (255, 256), (256, 257), (300, 301), (511, 512), (512, 575)):
        judge(64, 1, 0, [0] * place + [ONE + 1] + [0] * (later - place - 1) + [-1] + [0] * (575 - later), f"o{place}", nots)
    judge(64, 1, 1000, [-1000] * 576, "k64,1002000", nots)
    say("By hand: not binary is strict and of atoms alone")
    judge(1, 1, 0, [1, 1], "b0", ATOM)
    judge(1, 1, 1, [1, 1], "k1,999999", ATOM)
    judge(1, 1, 1, [2, 2], "b0", ATOM)
    judge(1, 1, 0, [999999, 999999], "b0", ATOM)
    judge(1, 1, 1, [999999, 999999], "p2,2", ATOM)
    judge(1, 1, 1000, [999000, 999000], "p2,2000", ATOM)
    judge(1, 1, 1000, [998999, 998999], "b0", ATOM)
    judge(1, 1, 1000, [1000, 1000], "k1,999000", ATOM)
    judge(1, 1, 1000, [1001, 1001], "b0", ATOM)
    judge(1, 1, 0, [ONE, 500000], "k0,500000", ATOM)
    judge(1, 2, 0, [ONE, 500000, ONE], "b1", ATOM)
    say("By hand: = rows within e either way, the goal row last")
    judge(1, 1, 0, [0, 0], "k1,1000000", ATOM)
    judge(1, 1, 1, [999999, ONE], "p2,2", ATOM)
    judge(1, 1, 1, [999999, ONE + 1], "k0,2", ATOM)
    judge(1, 1, 1000, [ONE, 999000], "p2,2000", ATOM)
    judge(1, 1, 1000, [ONE, 998999], "k0,1001", ATOM)
    judge(64, 1, 0, [ONE] * 128, "p65,0", ATOM)
    judge(64, 1, 0, [ONE] * 127 + [999999], "k63,1", ATOM)
    judge(64, 1, 0, [0] + [ONE] * 63 + [0] + [ONE] * 63, "k64,1000000", ATOM)
    say("By hand: `a0Ua1`, T 2, M 2, rows numbered as rowlist prints them")
    met = [ONE, 0, 0, ONE, ONE, 0, 0, ONE, ONE, ONE]
    judge(2, 2, 0, met, "p10,0", UNTIL)
    judge(2, 2, 0, met[:4] + [0] + met[5:], "k0,1000000", UNTIL)
    judge(2, 2, 0, met[:7] + [0] + met[8:], "k3,1000000", UNTIL)
    judge(2, 2, 0, met[:9] + [0], "k6,1000000", UNTIL)
    judge(2, 2, 0, met[:8] + [0, ONE], "k7,1000000", UNTIL)
    judge(2, 2, 0, met[:8] + [0, 0], "k8,1000000", UNTIL)
    judge(2, 2, 0, met[:8] + [500000, 500000], "k8,500000", UNTIL)
    judge(2, 2, 1, met[:8] + [999999, 999999], "p10,8", UNTIL)
    judge(2, 2, 1, met[:8] + [999999, 999998], "k8,2", UNTIL)
    never = [ONE, ONE, 0, 0, ONE, ONE, 0, 0]
    judge(2, 2, 0, never + [0, 0], "k9,1000000", UNTIL)
    judge(2, 2, 0, never + [ONE, ONE], "k8,1000000", UNTIL)
    judge(2, 2, 0, never + [ONE, 0], "k6,1000000", UNTIL)
    late = [0, 0, 0, ONE, 0, 0, 0, ONE]
    judge(2, 2, 0, late + [0, ONE], "k9,1000000", UNTIL)
    judge(2, 2, 0, late + [ONE, ONE], "k5,1000000", UNTIL)
    judge(2, 2, 0, [0, 0, ONE, ONE, 0, 0, ONE, ONE, 0, ONE], "k4,1000000", UNTIL)
    say("By hand: e once for a row, whatever its terms: `a0&a1`, T 1, M 2, third row P - p - q >= -1")
    both = table((1, 0, 0), (1, 1, 0), (3, 0, 1))
    judge(1, 2, 1, [ONE, ONE, ONE, ONE, 999999], "p6,5", both)
    judge(1, 2, 1, [ONE, ONE, ONE + 1, ONE, 999999], "k4,2", both)
    judge(1, 2, 2, [ONE, ONE, ONE + 1, ONE, 999999], "p6,10", both)
    say("By hand: the shortfall, e not taken off: of >= rows the right side less the sum, of = rows the distance either way")
    judge(1, 1, 1000, [ONE, ONE + 1000], "p2,2000", ATOM)
    judge(1, 1, 1000, [0, 1001], "k0,1001", ATOM)
    judge(1, 1, 1000, [0, -1000], "k1,1001000", ATOM)
    judge(1, 1, 999, [1, ONE + 999], "k0,1000998", ATOM)
    judge(1, 2, 1000, [ONE, ONE, ONE, ONE, 998999], "k4,1001", both)
    judge(1, 2, 1000, [ONE, 0, ONE, 0, 1001], "k3,1001", both)
    judge(1, 2, 1000, [ONE, ONE, ONE + 1000, ONE + 1000, -1000], "k4,1003000", both)
    judge(1, 2, 1000, [0, 0, -1000, 0, 1], "k2,1001", both)


def judging_windows():
    say("By hand from the request (N4): `F[0,1]a0`, T 2, M 1: atoms, part, node; rows numbered as rowlist prints them")
    within = window("F", 0, 1)
    judge(2, 1, 0, [0, ONE, 0, ONE, ONE, ONE], "p8,0", within)
    judge(2, 1, 0, [ONE, 0, ONE, 0, ONE, 0], "p8,0", within)
    judge(2, 1, 0, [ONE, 0, ONE, 0, 0, 0], "k2,1000000", within)
    judge(2, 1, 0, [0, ONE, 0, ONE, 0, ONE], "k3,1000000", within)
    judge(2, 1, 0, [0, 0, 0, 0, ONE, 0], "k4,1000000", within)
    judge(2, 1, 0, [0, ONE, 0, ONE, ONE, 0], "k5,1000000", within)
    judge(2, 1, 0, [ONE, 0, ONE, 0, ONE, ONE], "k6,1000000", within)
    judge(2, 1, 0, [0] * 6, "k7,1000000", within)
    judge(2, 1, 0, [0, ONE, 0, ONE, 999999, ONE], "k3,1", within)
    judge(2, 1, 1, [0, ONE, 0, ONE, 999999, ONE], "p8,5", within)
    judge(2, 1, 1, [0, ONE, 0, ONE, 999998, ONE], "k3,2", within)
    judge(2, 1, 1000, [0, 0, -1000, -1000, 0, -1000], "k4,2000", within)
    judge(2, 1, 1000, [0, 0, -1000, -1000, -1000, -1000], "k7,1001000", within)
    judge(2, 1, 0, [0, 500000, 0, ONE, ONE, ONE], "b1", within)
    judge(2, 1, 0, [0, ONE, 0, ONE, ONE + 1, ONE], "o4", within)
    judge(2, 1, 0, [0, ONE, 0, ONE, ONE, -1], "o5", within)
    say("By hand: `G[0,1]a0`, T 2, M 1")
    throughout = window("G", 0, 1)
    judge(2, 1, 0, [ONE] * 6, "p8,0", throughout)
    judge(2, 1, 0, [0, ONE, 0, ONE, ONE, ONE], "k2,1000000", throughout)
    judge(2, 1, 0, [ONE, 0, ONE, 0, ONE, 0], "k3,1000000", throughout)
    judge(2, 1, 0, [ONE, ONE, ONE, ONE, 0, ONE], "k4,1000000", throughout)
    judge(2, 1, 0, [ONE, 0, ONE, 0, 0, ONE], "k5,1000000", throughout)
    judge(2, 1, 0, [ONE, ONE, ONE, ONE, ONE, 0], "k6,1000000", throughout)
    judge(2, 1, 0, [ONE, 0, ONE, 0, 0, 0], "k7,1000000", throughout)
    judge(2, 1, 0, [ONE, ONE, ONE, ONE, 999999, ONE], "k4,1", throughout)
    judge(2, 1, 1, [ONE, ONE, ONE, ONE, 999999, ONE], "p8,5", throughout)
    judge(2, 1, 1, [ONE, ONE, ONE, ONE, 999998, ONE], "k4,2", throughout)
    judge(2, 1, 1000, [ONE, ONE, ONE + 1000, ONE + 1000, ONE, ONE], "k4,2000", throughout)
    judge(2, 1, 1000, [ONE, ONE, ONE + 1000, ONE + 1000, ONE + 1000, ONE], "p8,5000", throughout)
    judge(2, 1, 0, [ONE, 1, ONE, ONE, ONE, ONE], "b1", throughout)
    judge(2, 1, 0, [ONE, ONE, ONE, -1, ONE, ONE], "o3", throughout)
    say("By hand: `F[0,0]a0` and `G[0,2]a0`; windows all after T; refusals")
    judge(1, 1, 0, [ONE, ONE, ONE], "p4,0", window("F", 0, 0))
    judge(1, 1, 0, [ONE, ONE, 0], "k1,1000000", window("F", 0, 0))
    judge(1, 1, 0, [0, 0, ONE], "k2,1000000", window("F", 0, 0))
    judge(1, 1, 0, [ONE, ONE, 0], "k2,1000000", window("G", 0, 0))
    judge(1, 1, 0, [0, 0, ONE], "k1,1000000", window("G", 0, 0))
    judge(1, 1, 0, [ONE, ONE, ONE], "p4,0", window("G", 63, 63))
    judge(3, 1, 0, [ONE] * 9, "p13,0", window("G", 0, 2))
    judge(3, 1, 0, [ONE] * 6 + [0, ONE, ONE], "k6,1000000", window("G", 0, 2))
    judge(3, 1, 0, [ONE, ONE, 0] * 2 + [ONE, 0, 0], "k5,1000000", window("G", 0, 2))
    judge(3, 1, 0, [0, 0, ONE] + [0, 0, ONE] + [ONE, ONE, ONE], "p10,0", window("F", 3, 5))
    judge(2, 1, 0, [0] * 5, "r9", within)
    judge(2, 1, 1001, [0] * 6, "r10", within)
    judge(2, 1, 0, [0] * 6, "r7", window("F", 1, 0))
    judge(2, 1, 0, [0] * 6, "r7", window("G", 0, 64))
    judge(2, 1, -1, [], "r7", table((1, 0, 0), (7, 0, 0, 0, 1)))
    say("By hand: [0,63] with T 64, the row of 65 terms at slot 1 being row 128")
    judge(64, 1, 0, [ONE] * 192, "p2209,0", window("G", 0, 63))
    judge(64, 1, 0, [ONE] * 128 + [0] + [ONE] * 63, "k128,1000000", window("G", 0, 63))
    judge(64, 1, 1000, [ONE] * 64 + [ONE + 1000] * 64 + [ONE] * 64, "k128,64000", window("G", 0, 63))
    judge(64, 1, 0, [0] * 63 + [ONE] + [0] * 63 + [ONE] + [ONE] * 64, "p2209,0", window("F", 0, 63))
    judge(64, 1, 0, [0] * 128 + [ONE] + [0] * 63, "k128,1000000", window("F", 0, 63))
    judge(64, 1, 1000, [0] * 64 + [-1000] * 64 + [ONE] + [0] * 63, "k128,1064000", window("F", 0, 63))
    judge(64, 1, 0, [0] * 63 + [ONE] + [0] * 63 + [ONE] + [0] + [ONE] * 63, "k127,1000000", window("F", 0, 63))


# A rule of every kind: `G(a0>Fa1)&!(a2U!a0)|a1`, T 4, M 3.
MIXED_RULE = "a0 a1 F > G a2 a0 ! U ! & a1 |"
MIXED = paper.table(nodes_of(MIXED_RULE))


def solution(run, truth):
    """The figures of a run over three atoms and of the truth of its nodes."""
    atoms = [number >> atom & 1 for atom in range(3) for number in run]
    return [ONE * bit for bit in atoms + [int(bit) for bit in truth.replace(" ", "")]]


def on_runs(t, records, cases):
    """The truth of each node over runs of three atoms, and the judge's verdict on the figures that it makes."""
    for run, answer, truth, verdict in cases:
        evaluate(t, 3, len(records) // RECORD, answer, run, truth, records)
        judge(t, 3, 0, solution(run, truth), verdict, records)


def of_every_kind():
    say("A rule of every kind, `G(a0>Fa1)&!(a2U!a0)|a1`; its truths are also those of the reference implementation in bench/")
    read(3, 104, MIXED_RULE, "G(a0>Fa1)&!(a2U!a0)|a1")
    read(3, 103, "r11", "G(a0>Fa1)&!(a2U!a0)|a1")
    on_runs(4, MIXED, (
        ([0, 1, 2, 4], "v0", "0100 0010 1110 1111 1111 0001 0100 1011 1011 0100 0100 0010 0110", "k97,1000000"),
        ([5, 7, 4, 1], "v0", "1101 0100 1100 1110 0000 1110 1101 0010 1110 0001 0000 0100 0100", "k97,1000000"),
        ([5, 5, 5, 7], "v1", "1111 0001 1111 1111 1111 1111 1111 0000 0000 1111 1111 0001 1111", "p98,0"),
        ([2, 0, 0, 0], "v1", "0000 1000 1000 1111 1111 0000 0000 1111 1111 0000 0000 1000 1000", "p98,0"),
        ([1, 4, 1, 3], "v1", "1011 0001 1111 1111 1111 0100 1011 0100 0100 1011 1011 0001 1011", "p98,0"),
    ))


# A rule of both windows among others: `G(a0>F[1,2]a1)|!(a2UG[0,1]!a0)`.
WINDOWED_RULE = "a0 a1 F[1,2] > G a2 a0 ! G[0,1] U ! |"
WINDOWED = paper.table(nodes_of(WINDOWED_RULE))


def of_windows():
    say("By hand: a rule of both windows among others, `G(a0>F[1,2]a1)|!(a2UG[0,1]!a0)`, T 4, M 3")
    read(3, 96, WINDOWED_RULE, "G(a0>F[1,2]a1)|!(a2UG[0,1]!a0)")
    read(3, 95, "r11", "G ( a0 > F [ 1 , 2 ] a1 ) | ! ( a2 U G [ 0 , 1 ] ! a0 )")
    on_runs(4, WINDOWED, (
        ([1, 4, 2, 0], "v1", "1000 0010 1100 1111 1111 0100 1000 0111 0111 0111 1000 1111", "p93,0"),
        ([5, 5, 0, 0], "v0", "1100 0000 0000 0011 0011 1100 1100 0011 0011 1111 0000 0011", "k92,1000000"),
        ([5, 4, 1, 1], "v1", "1011 0000 0000 0100 0000 1100 1011 0100 0000 0000 1111 1111", "p93,0"),
    ))


# Hand-made good tables and their heights: children shared, the same on both sides, and nodes that the root does not use.
HEIGHTS = (
    ("0", ATOM),
    ("0 0", table((1, 0, 0), (1, 2, 0))),
    ("0 0 0 1 0", table((1, 1, 0), (1, 2, 0), (1, 0, 0), (3, 0, 2), (1, 2, 0))),
    ("0 1 2 3 4 5", table((1, 0, 0), (2, 0, 0), (6, 1, 0), (7, 2, 0), (9, 3, 0, 0, 1), (10, 4, 0, 2, 63))),
    *(("0 1 0 2", table((1, 0, 0), (2, 0, 0), (1, 1, 0), (kind, 1, 2))) for kind in paper.DOUBLE.values()),
    *(("0 1 0 2", table((1, 0, 0), (7, 0, 0), (1, 1, 0), (kind, 2, 1))) for kind in paper.DOUBLE.values()),
    ("0 1 2 3 4", table((1, 0, 0), (3, 0, 0), (4, 1, 1), (5, 2, 2), (8, 3, 3))),
    ("0 1 2 2 3 4 4", table((1, 0, 0), (2, 0, 0), (5, 0, 1), (4, 1, 0), (8, 2, 3), (3, 4, 0), (3, 0, 4))),
    ("0 1 2 0 3 3 1", table((1, 0, 0), (9, 0, 0, 0, 1), (2, 1, 0), (1, 1, 0), (3, 2, 3), (8, 3, 2), (6, 3, 0))),
    ("0 1 2 3 0", table((1, 0, 0), (2, 0, 0), (10, 1, 0, 1, 1), (6, 2, 0), (1, 1, 0))),
    ("0 1 2 1 2", table((1, 0, 0), (2, 0, 0), (2, 1, 0), (7, 0, 0), (8, 3, 0))),
    ("0 0 1 1 2 2 1", table((1, 0, 0), (1, 1, 0), (3, 0, 1), (6, 1, 0), (4, 2, 1), (5, 0, 3), (8, 1, 0))),
)
# 128 nodes, of the heights 0 to 127.
LONGEST = (
    NOTS,
    table((1, 0, 0), *((8, child, child) for child in range(127))),
    table((1, 0, 0), *((3, child, 0) for child in range(127))),
    table((1, 0, 0), *((5, 0, child) for child in range(127))),
    table((1, 0, 0), *((9, child, 0, 0, child % 64) for child in range(127))),
)


def exact(m, run, nodes, l=None):
    """The figures of a run, and of the truth of the slacks over it."""
    atoms = paper.run_atoms(m, run)
    return [ONE * int(bit) for bit in itertools.chain(*atoms, *paper.slack_truth(nodes, atoms, l))]


def passes(t, m, e, run, error, records, l=None):
    """The figures of a run, and of the truth over it, pass with this error figure."""
    nodes = paper.nodes_in(records)
    judge(t, m, e, exact(m, run, nodes, l), f"p{len(paper.rows(nodes, t, m, l))},{error}", records, l)


def rule(postfix):
    return paper.table(nodes_of(postfix))


# How many times e the root's error figure at slot 1 is, T, a run on which the root holds there, and the table. An atom node has
# 2, its own e and that of its atom, and so on: the slots are worked out from the last.
ERRORS = (
    (2, 1, [1], ATOM),
    (2, 3, [1, 0, 0], ATOM),
    (2, 64, [1] * 64, ATOM),
    (2, 2, [32768, 0], table((1, 15, 0))),
    (3, 1, [0], rule("a0 !")),  # 1 + 2
    (3, 2, [0, 1], rule("a0 !")),
    (5, 1, [1], rule("a0 a0 &")),  # 1 + 2 + 2
    (5, 2, [3, 0], rule("a0 a1 &")),
    (5, 1, [1], table((1, 0, 0), (3, 0, 0))),  # 1 + 2 twice, in P - p - p
    (5, 1, [1], rule("a0 a0 |")),
    (5, 1, [1], table((1, 0, 0), (4, 0, 0))),
    (5, 1, [0], rule("a0 a0 >")),
    (5, 1, [1], table((1, 0, 0), (5, 0, 0))),  # counted in the row as listed, p - p - P, although p cancels
    (6, 1, [0], rule("a0 ! a1 |")),  # 1 + 3 + 2
    (7, 1, [0], table((1, 0, 0), (2, 0, 0), (3, 1, 1))),  # 1 + 3 twice
    (8, 1, [1], table((1, 0, 0), (3, 0, 0), (5, 1, 0))),  # 1 + 5 + 2
    (9, 1, [2], rule("a0 ! a1 a1 & &")),  # 1 + 3 + 5
    (3, 1, [2], UNTIL),  # at T 1 + 2, of q alone
    (8, 2, [1, 2], UNTIL),  # 1 + 2 + 2 + 3
    (13, 3, [1, 1, 2], UNTIL),  # 1 + 2 + 2 + 8
    (318, 64, [1] * 63 + [2], UNTIL),  # 3 + 63 times 5
    (9, 2, [0, 2], rule("a0 ! a1 U")),  # 1 + 3 + 2 + 3: p, which T does not count, has 3
    (10, 2, [1, 0], rule("a0 a1 ! U")),  # 1 + 2 + 3 + 4
    (3, 1, [1], table((1, 0, 0), (8, 0, 0))),
    (8, 2, [1, 0], table((1, 0, 0), (8, 0, 0))),  # 1 + 2 twice, in p + p - P, + 3
    (13, 3, [1, 0, 0], table((1, 0, 0), (8, 0, 0))),
    (11, 2, [0, 1], table((1, 0, 0), (2, 0, 0), (8, 1, 1))),  # 1 + 3 twice + 4
    (3, 1, [1], rule("a0 F")),
    (6, 2, [0, 1], rule("a0 F")),  # 1 + 2 + 3
    (9, 3, [0, 1, 0], rule("a0 F")),
    (192, 64, [0] * 63 + [1], rule("a0 F")),  # 64 times 3
    (3, 1, [1], rule("a0 G")),
    (6, 2, [1, 1], rule("a0 G")),
    (192, 64, [1] * 64, rule("a0 G")),
    (4, 1, [1], rule("a0 F G")),
    (11, 2, [0, 1], rule("a0 F G")),  # F 6 and 3, G 4 and then 1 + 6 + 4
    (21, 3, [0, 0, 1], rule("a0 G F")),  # G 9, 6 and 3, F 4, 11 and then 1 + 9 + 11
    (3, 3, [1, 0, 0], window("F", 0, 0)),  # 1 + 2
    (3, 1, [1], window("F", 0, 1)),  # slots after T are T, and it counts once
    (5, 2, [0, 1], window("F", 0, 1)),  # 1 + 2 + 2
    (5, 2, [0, 1], window("F", 0, 63)),
    (129, 64, [0] * 63 + [1], window("F", 0, 63)),  # 1 + 64 times 2
    (3, 3, [0, 0, 1], window("F", 3, 5)),
    (3, 2, [0, 1], window("G", 1, 2)),
    (5, 3, [0, 1, 1], window("G", 1, 2)),
    (7, 3, [1, 1, 1], window("G", 0, 2)),
    (3, 1, [1], window("G", 63, 63)),
    (3, 64, [0] * 63 + [1], window("G", 63, 63)),
    (5, 64, [0] * 62 + [1, 1], window("G", 62, 63)),
    (127, 64, [0] + [1] * 63, window("G", 1, 63)),  # 1 + 63 times 2
    (4, 1, [1], rule("a0 G[0,1] F[0,1]")),
    (9, 2, [0, 1], rule("a0 G[0,1] F[0,1]")),  # G 5 and 3, F 1 + 5 + 3
    (11, 3, [0, 1, 1], rule("a0 G[0,1] F[0,1]")),  # G 5, 5 and 3, F 1 + 5 + 5
    (16, 3, [0, 0, 1], rule("a0 F[0,63] G[0,63]")),  # F 7, 5 and 3, G 1 + 7 + 5 + 3
    (7, 3, [0, 1, 1], rule("a0 F[1,1] G[0,1]")),  # F 3 each, G 1 + 3 + 3
    (10, 3, [0, 0, 1], rule("a0 F G[1,2]")),  # F 9, 6 and 3, G 1 + 6 + 3
    (12, 2, [1, 2], rule("a0 a1 U F[0,1]")),  # U 8 and 3, F 1 + 8 + 3
    (11, 2, [1, 3], rule("a0 G[0,1] a1 U")),  # G 5 and 3, U 3 and then 1 + 5 + 2 + 3
    (2, 1, [2], table((1, 0, 0), (3, 0, 0), (3, 1, 1), (1, 1, 0))),  # the root does not use the others
    (3, 2, [0, 2], table((1, 0, 0), (1, 1, 0), (8, 0, 1), (2, 0, 0))),
    # F 12, 9, 6, 3; > 15, 12, 9, 6; G 46, 30, 17, 7; U 22, 16, 10, 4, with ! 23; & 1 + 46 + 23; | 1 + 70 + 2
    (73, 4, [5, 5, 5, 7], MIXED),
    # F[1,2] 5, 5, 3, 3; > 8, 8, 6, 6; G 32, 23, 14, 7; G[0,1] 7, 7, 7, 4; U 35, 25, 15, 5, with ! 36; | 1 + 32 + 36
    (69, 4, [1, 4, 2, 0], WINDOWED),
)


def judging_errors():
    say("By hand from the request (N7): the root's error figure at slot 1 where figures pass, with e of 1 and 1,000, some with 0")
    for place, (times, t, run, records) in enumerate(ERRORS):
        m = max(1, max(run).bit_length(), *(left + 1 for kind, left, *_ in paper.nodes_in(records) if kind == 1))
        for e in (1, 1000) if place % 4 else (0, 1, 1000):
            passes(t, m, e, run, times * e, records)


def times_of(times, two=(3, 4), one=(7, 6, 9, 10)):
    """A table that holds where a0 does, with a root that has this many times e at T 1: `p&p` and `p|p` of one part have one more
    than twice that of the part, and G, F and windows one more."""
    steps = []
    while times > 2:
        steps.append(times % 2 == 1 and times > 3)
        times = times // 2 if steps[-1] else times - 1
    nodes = [(1, 0, 0, 0, 0)]
    for number, twice in enumerate(reversed(steps)):
        kinds = two if twice else one
        kind = kinds[number % len(kinds)]
        nodes.append((kind, number, number if twice else 0, 0, 63 if kind > 8 else 0))
    return paper.table(nodes)


def judging_stops():
    say("By hand: `p&p` of one part again and again with e 1,000, T 1: 2000, 5000, 11000 .. 767000, and then the stop at 1,000,000;\n"
        "`p|p`, `p>p` and at T 2 until, which has 3 at T, 4 .. and so at slot 1 8, 21 = 1 + 8 + 8 + 4, 48 = 1 + 21 + 21 + 5 ..")
    for kind in 3, 4, 5:
        for count in range(12) if kind == 3 else (1, 8, 9):
            error = 1000 * (3 * 2**count - 1)
            passes(1, 1, 1000, [1], min(error, ONE), table((1, 0, 0), *((kind, child, child) for child in range(count))))
    first = 2000
    for count in range(11):
        passes(2, 1, 1000, [1, 1], min(first, ONE), table((1, 0, 0), *((8, child, child) for child in range(count))))
        first += first + 1000 * (count + 4)
    say("By hand: 128 nodes, two far beyond the stop, and with e 0 it is 0; a root that does not use the part that stops, or one of two")
    for e, error in (0, 0), (1, ONE), (1000, ONE):
        passes(2, 1, e, [1, 1], error, LONGEST[1])
        passes(2, 1, e, [1, 1], error, table((1, 0, 0), *((3, child, child) for child in range(127))))
        passes(2, 1, e, [1, 1], 383 * e, LONGEST[2])  # 2 + 127 times 3
    chain = [(1, 0, 0), *((3, child, child) for child in range(20))]
    passes(1, 1, 1000, [1], 3000, table(*chain, (7, 0, 0)))
    passes(1, 1, 1000, [1], ONE, table(*chain, (4, 0, 20)))
    passes(1, 1, 1000, [1], ONE, table(*chain, (8, 0, 20)))
    passes(1, 1, 1000, [1], 3000, table(*chain, (8, 20, 0)))
    passes(2, 1, 1000, [1, 1], ONE, table(*chain, (8, 20, 0)))
    say("By hand: about 500,000 and 1,000,000, T 1: every error figure is e times a count")
    for e, times in (
        (1000, 499), (1000, 500), (1000, 501), (500, 999), (500, 1000), (127, 3937), (31, 16129), (3, 166666), (3, 166667), (2, 249999),
        (2, 250000), (1, 499999), (1, 500000), (1, 500001), (1000, 999), (1000, 1000), (1000, 1001), (999, 1001), (999, 1002), (101, 9900),
        (101, 9901), (27, 37037), (27, 37038), (2, 499999), (2, 500000), (1, 999999), (1, 1000000), (1, 1000001), (1, 2**40), (0, 2**40),
    ):
        passes(1, 1, e, [1], min(e * times, ONE), times_of(times))


# Nodes and T: 255, 256, 258 (257 is prime), 260, 891, 896, 897, 900, 1024, 1025, 8064, 8128 and 8192 error figures of nodes.
SIZES = (
    (15, 17), (17, 15), (16, 16), (4, 64), (128, 2), (6, 43), (43, 6), (65, 4), (27, 33), (128, 7), (14, 64), (28, 32), (23, 39), (39, 23),
    (15, 60), (16, 64), (25, 41), (128, 63), (127, 64), (128, 64),
)


def judging_sizes():
    say("By hand: tables of many sizes, the root over a chain of `!`, whose node k has k + 2: `!` has N + 1, G T times N + 1, F[0,63] 1 + T\n"
        "times N, and until, over the last two of the chain, N at T and 2N more at each slot before; with the largest e, up to 1,000, that\n"
        "keeps it below 500,000 or 1,000,000, or one more")
    limits = itertools.cycle(((ONE // 2 - 1, 0), (ONE // 2 - 1, 1), (ONE - 1, 0), (ONE - 1, 1), (ONE // 2 - 1, 0)))
    for place, (n, t) in enumerate(SIZES):
        nots = [(1, 0, 0), *((2, child, 0) for child in range(n - 2))]
        for root, times, a0 in (
            ((2, n - 2, 0), n + 1, n % 2), ((7, n - 2, 0), t * (n + 1), 1 - n % 2), ((9, n - 2, 0, 0, 63), 1 + t * n, 1 - n % 2),
            ((8, n - 2, n - 3), n + 2 * n * (t - 1), n % 2),
        ):
            limit, more = next(limits)
            e = min(1000, limit // times + more)
            passes(t, (1, 2, 16)[place % 3], e, [a0] * t, min(e * times, ONE), table(*nots, root))


def judging_near():
    say("By hand: `!a0`, T 1, e 1,000: the part as far off as its error figure, 2,000; one further, not binary, outside or broken")
    near = rule("a0 !")
    judge(1, 1, 1000, [1000, 2000, 999000], "p3,3000", near)
    judge(1, 1, 1000, [1000, 2001, 999000], "k0,1001", near)
    judge(1, 1, 1000, [1000, 2000, 998999], "k2,1001", near)
    judge(1, 1, 1000, [1000, 2000, 999001], "k1,1001", near)
    judge(1, 1, 1000, [1001, 2000, 999000], "b0", near)
    judge(1, 1, 1000, [-1000, -1000, ONE + 1000], "p3,3000", near)
    judge(1, 1, 1000, [-1000, -1001, ONE + 1000], "o1", near)
    judge(1, 1, 1000, [-1000, -1000, ONE + 1001], "o2", near)
    say("By hand: `a0&a1`, T 1: the third row, P - p - q >= -1, at its end; `F[0,1]a0`, T 2,\n"
        "and where a0 holds at no slot the root off by its error figure, 5,000, which the goal row breaks")
    both = rule("a0 a1 &")
    judge(1, 2, 1000, [ONE + 1000] * 5, "p6,5000", both)
    judge(1, 2, 1000, [ONE + 1000] * 4 + [ONE + 999], "k4,1001", both)
    judge(1, 2, 1000, [999000, 999000, 998000, 998000, 999000], "p6,5000", both)
    judge(1, 2, 1000, [999000, 999000, 997999, 998000, 999000], "k0,1001", both)
    judge(1, 2, 1000, [999000, 999000, 998000, 998000, 999001], "k2,1001", both)
    judge(1, 2, 1000, [999000, 999000, 998000, 998000, 998999], "k5,1001", both)
    within = window("F", 0, 1)
    judge(2, 1, 1000, [1000, ONE, 2000, ONE, 999000, 999000], "p8,5000", within)
    judge(2, 1, 1000, [1000, ONE, 2000, ONE, ONE + 1000, ONE + 1000], "p8,5000", within)
    judge(2, 1, 1000, [1000, ONE, 2000, ONE, 998999, 999000], "k3,1001", within)
    judge(2, 1, 1000, [1000, 1000, 2000, 2000, 5000, 3000], "k7,995000", within)
    judge(2, 1, 1000, [1000, 1000, 2000, 2000, 5001, 3000], "k4,1001", within)


def judging_untrue():
    say("By hand: a0 does not hold and no node does, but the rows let each figure be as large as its error figure: e, 2e, and for `p|p` e\n"
        "more than twice the part's. From 1,000,000 less e on the root passes; where its error figure is below 500,000 it cannot")
    for e, times in (
        (1000, 998), (1000, 999), (1000, 1000), (1000, 1500), (999, 999), (999, 1000), (999, 1001), (500, 1998), (500, 1999), (100, 9998),
        (100, 9999), (1, 499999), (1, 999998), (1, 999999), (1, 1000000), (2, 499998), (2, 499999), (1000, 499), (1000, 500), (1000, 10**9),
    ):
        records = times_of(times, two=(4,))
        counts = [2]
        for kind, *_ in paper.nodes_in(records)[1:]:
            counts.append(2 * counts[-1] + 1 if kind == 4 else counts[-1] + 1)
        figures = [e, *(min(e * count, ONE) for count in counts)]
        goal, short = len(paper.rows(paper.nodes_in(records), 1, 1)) - 1, ONE - figures[-1]
        assert counts[-1] == times and not paper.run_truth(paper.nodes_in(records), 1, [0])[-1][0]
        judge(1, 1, e, figures, f"p{goal + 1},{figures[-1]}" if short <= e else f"k{goal},{short}", records)


def chance_nodes(rng, n, m):
    """Nodes of every kind, most of them over the last few; parts are shared, or on both sides, and the root may not use some."""
    nodes = [(1, rng.randrange(m), 0, 0, 0)]
    while len(nodes) < n:
        kind = rng.randint(1, 10)
        left, right = (rng.randrange(max(0, len(nodes) - rng.choice((2, 4, 128))), len(nodes)) for _ in range(2))
        a, b = sorted(rng.choice((0, 0, 1, 2, 3, rng.randrange(64))) for _ in range(2)) if kind in (9, 10) else (0, 0)
        nodes.append((kind, rng.randrange(m) if kind == 1 else left, right if kind in paper.DOUBLE.values() else 0, a, b))
    return nodes


def reach(found, t, m, e, figures, variable, way):
    """How far a figure can go up (way 1) or down (-1) so that figures that pass still do."""
    figure = figures[variable]
    ends = [ONE + e - figure if way > 0 else figure + e]
    if variable < m * t:
        ends.append(e - way * (figure - ONE * round(figure / ONE)))
    for relation, right, terms in found:
        pull = way * sum(coefficient for coefficient, other in terms if other == variable)
        over = sum(coefficient * figures[other] for coefficient, other in terms) - right * ONE
        if pull < 0:
            ends.append((over + e) // -pull)
        if pull > 0 and relation == "=":
            ends.append((e - over) // pull)
    return min(ends)


def put_off(rng, t, m, e, nodes, run, l=None):
    """Each figure in turn put off as far as the others let it, or less; and then one put one further."""
    if not paper.run_truth(nodes, m, run, l)[-1][0]:
        nodes.append((2, len(nodes) - 1, 0, 0, 0))
    figures, found = exact(m, run, nodes, l), paper.rows(nodes, t, m, l)
    of_rows = [[row for row in found if variable in (other for _, other in row[2])] for variable in range(len(figures))]
    for variable in rng.sample(range(len(figures)), len(figures)):
        way = rng.choice((1, -1))
        most = reach(of_rows[variable], t, m, e, figures, variable, way)
        figures[variable] += way * rng.choice((most, most, rng.randint(0, most)))
    assert judge_of_paper(t, m, e, figures, nodes, l).startswith("passed")
    variable, way = rng.randrange(len(figures)), rng.choice((1, -1))
    figures[variable] += way * (reach(of_rows[variable], t, m, e, figures, variable, way) + 1)
    assert not judge_of_paper(t, m, e, figures, nodes, l).startswith("passed")


def judging_by_chance():
    say("Of the request's words: tables and runs of chance, each figure in turn put off as far as the others let it, or less; they pass,\n"
        "and with one figure put one further they do not")
    rng = random.Random(7)
    for _ in range(50):
        t, m, e = rng.choice((1, 2, 3, 5, 8)), rng.choice((1, 2, 3, 16)), rng.choice((1, 2, 10, 100, 500, 999, 1000))
        nodes, run = chance_nodes(rng, rng.randint(2, 12), m), [rng.getrandbits(m) for _ in range(t)]
        put_off(rng, t, m, e, nodes, run)


def tested(is_good, m, nodes, calls="ewmj"):
    """Calls to which all that is checked after the table is wrong: the run and the buffer, the buffer, the figures and e."""
    if "e" in calls:
        evaluate(1, m, 0, "r8" if is_good else "r7", [], "", nodes)
    if "w" in calls:
        rows(1, m, 0, "r11" if is_good else "r7", [], nodes)
    if "m" in calls:
        mps(1, m, 0, "r11" if is_good else "r7", "", nodes)
    if "j" in calls:
        judge(1, m, -1, [], "r9" if is_good else "r7", nodes)


def wrong_heights(records, number):
    """Heights that are not that of node `number`: one off, an atom's and its parent's, by left or right alone, the count of
    the nodes before, and above the largest."""
    heights = heights_in(records)
    _, left, right, *_ = paper.nodes_in(records)[number]
    found = {heights[number] + 1, (heights[number] - 1) % 256, 0, 1, number, 128, 255}
    found.update(heights[child] + 1 for child in (left, right) if child < number)
    return sorted(found - {heights[number]})


def of_heights():
    say("By hand from the request (N6): good tables and their heights; each call gets to the refusal after 7. Truths of the paper's words")
    for heights, records in HEIGHTS:
        assert heights_in(records) == [int(height) for height in heights.split()]
        tested(True, 3, records)
        evaluate_of_paper(2, 3, [5, 2], records)
    calls = itertools.cycle("ewmj")
    for records in LONGEST:
        assert heights_in(records) == list(range(128))
        tested(True, 3, records, next(calls))
    say("By hand: in each record of these tables a wrong height, also where the root does not use it; the calls take turns")
    for _, records in HEIGHTS:
        for number in range(len(records) // RECORD):
            for height in wrong_heights(records, number):
                tested(False, 3, with_height(records, number, height), next(calls))
    for records, number, height in (
        (LONGEST[0], 0, 255), (LONGEST[0], 1, 0), (LONGEST[0], 63, 62), (LONGEST[0], 126, 127), (LONGEST[0], 127, 126),
        (LONGEST[1], 127, 128), (LONGEST[2], 127, 1), (LONGEST[3], 127, 1), (LONGEST[4], 127, 0), (LONGEST[4], 64, 128),
    ):
        tested(False, 3, with_height(records, number, height), next(calls))
    say("By hand: a wrong height in node 0, in the root, in nodes that the root does not use: each call")
    unused = table((1, 0, 0), (2, 0, 0), (2, 1, 0), (1, 1, 0), (3, 1, 3))
    for number, height in (0, 1), (0, 255), (4, 1), (4, 3), (4, 4), (2, 1), (2, 3), (2, 0), (3, 1):
        tested(False, 2, with_height(unused, number, height))
    tested(True, 2, unused)
    say("By hand: wrong heights that the nodes above carry on; heights counted from the root, from 1, of the right alone; all 0; all 1")
    chain = NOTS[: RECORD * 8]
    for records, heights in (
        (chain, range(1, 9)), (chain, range(7, -1, -1)), (chain, [0] * 8), (chain, [0, *range(7)]), (chain, (0, 1, 2, 4, 5, 6, 7, 8)),
        (GF_A0, (1, 2, 3)), (GF_A0, (2, 1, 0)), (GF_A0, (1, 1, 1)), (GF_A0, (0, 2, 3)), (GF_A0, (255, 0, 1)),
        (UNTIL, (1, 1, 2)), (UNTIL, (1, 0, 2)), (UNTIL, (0, 1, 2)), (UNTIL, (1, 1, 0)), (UNTIL, (0, 1, 1)), (UNTIL, (1, 0, 1)),
        (unused, (0, 1, 3, 0, 2)), (unused, (0, 1, 2, 0, 3)), (unused, (0, 1, 2, 0, 1)), (unused, (0, 2, 3, 0, 3)),
    ):
        tested(False, 2, with_heights(records, heights))
    tested(False, 2, with_heights(NOTS, range(1, 129)), next(calls))
    say("By hand: the first refusal in the order of the checks, 1 and 2 before a wrong height, and it before 8, 9, 10 and 11")
    low = with_height(UNTIL, 2, 0)
    for t, m, answer in (0, 2, "r1"), (65, 17, "r1"), (2, 0, "r2"), (2, 17, "r2"), (64, 2, "r7"), (1, 16, "r7"):
        evaluate(t, m, 200, answer, [0] * t, "", low)
        rows(t, m, 999, answer, [], low)
        mps(t, m, 9999, answer, "", low)
        judge(t, m, 0, [0] * min((m + 3) * t, 320), answer, low)
    for run, room in ([], 200), ([4, 0], 200), ([0, 0], 2), ([0, 0], 0), ([0, 0, 0], 0):
        evaluate(2, 2, room, "r7", run, "", low)
    for room in 0, 13, 115, 116:
        rows(2, 2, room, "r7", [], low)
    for e, count in (0, 10), (0, 9), (1001, 10), (-1, 10), (1001, 0):
        judge(2, 2, e, [ONE + 2000] * count, "r7", low)
    say("By hand: other faults of a table, with heights that would else be right or wrong")
    for records in (
        *(table((kind, 0, 0)) for kind in (0, 2, 3, 6, 8, 9, 10, 11, 255)), table((1, 2, 0)), table((1, 0, 1)), table((1, 0, 0, 0, 1)),
        *(table((1, 0, 0), second) for second in (
            (0, 0, 0), (11, 0, 0), (2, 1, 0), (2, 0, 1), (6, 2, 0), (3, 0, 1), (8, 1, 0), (9, 0, 0, 1, 0), (10, 0, 0, 0, 64), (7, 0, 0, 0, 1),
        )),
        UNTIL[:-8] + b"\x4e\x45" + UNTIL[-6:],
    ):
        for height in 0, 1, 2:
            tested(False, 2, with_height(records, len(records) // RECORD - 1, height), next(calls))
    say("By hand: bytes that are not whole records; records of 7 bytes, without the height, and of 5; 129 records")
    for records in ATOM, UNTIL, chain:
        for nodes in records[:-1], records + b"\x00", records + b"\x4e", records[1:], records[:-8] + records[-7:]:
            tested(False, 2, nodes, next(calls))
    tested(False, 2, NOTS[:-1], next(calls))
    tested(False, 2, NOTS + b"\x4e", next(calls))
    for size in 7, 5:
        for records in ATOM, UNTIL, chain, NOTS[: RECORD * 16], NOTS:
            tested(False, 2, b"".join(record[:size] for record in paper.records_in(records)), next(calls))
    tested(False, 2, NOTS + ATOM, next(calls))
    tested(False, 2, NOTS + with_height(ATOM, 0, 128), next(calls))


def writing_pages():
    say("The request: `a0Ua1`, T 2, M 2, of the page's words; the buffer as long as the page, longer, and a byte too short")
    nodes = nodes_of("a0 a1 U")
    page = page_of(nodes, 2, 2)
    size = len(page)
    mps(2, 2, size, f"n{size}", page, UNTIL)
    mps(2, 2, size + 3, f"n{size}", page, UNTIL)
    mps(2, 2, size - 1, "r11", "", UNTIL)
    mps(2, 2, 0, "r11", "", UNTIL)
    say("By hand: a page in full, `a0` with T 1 and M 2, where a1 stands in no row and has its COST line")
    page = """\
NAME
ROWS
 N  COST
 E  R0
 E  R1
COLUMNS
    X0        R0        -1
    X1        COST      0
    X2        R0        1
    X2        R1        1
RHS
    RHS       R1        1
BOUNDS
 BV BND       X0
 BV BND       X1
 UP BND       X2        1
ENDATA
"""
    mps(1, 2, len(page), f"n{len(page)}", page, ATOM)
    say("By hand: coefficients of equal variables, T 1 and M 1: `a0&a0` has -2, `a0|a0` 2, and `a0>a0` drops its p in row 3")
    for kind, rights, columns in (
        (3, "R3 -1, R4 1", "X1 R0 1, X1 R1 1, X1 R2 1, X1 R3 -2, X2 R1 -1, X2 R2 -1, X2 R3 1, X2 R4 1"),
        (4, "R4 1", "X1 R0 1, X1 R1 -1, X1 R2 -1, X1 R3 2, X2 R1 1, X2 R2 1, X2 R3 -1, X2 R4 1"),
        (5, "R1 1, R3 -1, R4 1", "X1 R0 1, X1 R1 1, X1 R2 -1, X2 R1 1, X2 R2 1, X2 R3 -1, X2 R4 1"),
    ):
        lines = ["NAME", "ROWS", " N  COST", " E  R0", " G  R1", " G  R2", " G  R3", " E  R4", "COLUMNS"]
        lines += ["    {:10}{:10}{}".format(*entry.split()) for entry in ("X0 R0 -1, " + columns).split(", ")]
        lines += ["RHS", *("    RHS       {:10}{}".format(*entry.split()) for entry in rights.split(", "))]
        lines += ["BOUNDS", " BV BND       X0", " UP BND       X1        1", " UP BND       X2        1", "ENDATA"]
        page = "".join(line + "\n" for line in lines)
        mps(1, 1, len(page), f"n{len(page)}", page, table((1, 0, 0), (kind, 0, 0)))
    writing_window_pages()
    say("By hand: the row writer's refusals; the first in the order of the checks wins")
    mps(65, 2, 9999, "r1", "", UNTIL)
    mps(0, 0, 0, "r1", "", b"")
    mps(2, 0, 9999, "r2", "", ATOM)
    mps(2, 17, 0, "r2", "", b"")
    mps(2, 2, 9999, "r7", "", b"")
    mps(2, 2, 0, "r7", "", NOTS + ATOM)
    mps(1, 1, 9999, "r7", "", table((1, 1, 0)))
    say("Of the page's words: a rule of every kind, `G(a0>Fa1)&!(a2U!a0)|a1`, T 4, M 3; 128 nodes, T 3, M 1")
    for nodes, t, m in (nodes_of(MIXED_RULE), 4, 3), (nodes_of("a0" + " !" * 127), 3, 1):
        page = page_of(nodes, t, m)
        mps(t, m, len(page), f"n{len(page)}", page, paper.table(nodes))


def writing_window_pages():
    say("By hand: pages in full, `F[0,1]a0` and `G[0,1]a0` with T 2 and M 1")
    atoms = "X0 R0 -1, X1 R1 -1, "
    for kind, rights, columns in (
        ("F", "R7 1", "X2 R0 1, X2 R2 -1, X2 R4 1, X3 R1 1, X3 R3 -1, X3 R4 1, X3 R5 -1, X3 R6 1, "
            "X4 R2 1, X4 R3 1, X4 R4 -1, X4 R7 1, X5 R5 1, X5 R6 -1"),
        ("G", "R4 -1, R7 1", "X2 R0 1, X2 R2 1, X2 R4 -1, X3 R1 1, X3 R3 1, X3 R4 -1, X3 R5 1, X3 R6 -1, "
            "X4 R2 -1, X4 R3 -1, X4 R4 1, X4 R7 1, X5 R5 -1, X5 R6 1"),
    ):
        lines = ["NAME", "ROWS", " N  COST", " E  R0", " E  R1"]
        lines += [" G  R2", " G  R3", " G  R4", " G  R5", " G  R6", " E  R7", "COLUMNS"]
        lines += ["    {:10}{:10}{}".format(*entry.split()) for entry in (atoms + columns).split(", ")]
        lines += ["RHS", *("    RHS       {:10}{}".format(*entry.split()) for entry in rights.split(", "))]
        lines += ["BOUNDS", " BV BND       X0", " BV BND       X1"]
        lines += [f" UP BND       X{number}        1" for number in range(2, 6)]
        page = "".join(line + "\n" for line in [*lines, "ENDATA"])
        mps(2, 1, len(page), f"n{len(page)}", page, window(kind, 0, 1))
        mps(2, 1, len(page) - 1, "r11", "", window(kind, 0, 1))
    say("Of the page's words: windows alone, after T, in one another and among others")
    for rule, t, m in (
        ("a0 F[0,0]", 1, 1), ("a0 G[63,63]", 1, 1), ("a0 F[3,5]", 3, 1), ("a1 G[0,2]", 4, 2), ("a0 F[1,2] G[0,3]", 5, 2),
        (WINDOWED_RULE, 4, 3), ("a15 G[0,63]", 64, 16), ("a0" + " F[1,2] G[0,1]" * 63, 4, 1),
    ):
        nodes = nodes_of(rule)
        page = page_of(nodes, t, m)
        mps(t, m, len(page), f"n{len(page)}", page, paper.table(nodes))
    mps(2, 1, 9999, "r7", "", window("F", 1, 0))
    mps(2, 1, 0, "r7", "", window("G", 0, 64))


def listing_windows():
    say("By hand from the request (N4): `F[0,1]a0` and `G[0,1]a0`; `F[0,0]a0` has two rows of >=")
    atom = "0 = 0 +2 -0\n1 = 0 +3 -1\n"
    within = "rows 8 vars 6\n" + atom + "2 >= 0 +4 -2\n3 >= 0 +4 -3\n4 >= 0 +2 +3 -4\n5 >= 0 +5 -3\n6 >= 0 +3 -5\n7 = 1 +4\n"
    throughout = "rows 8 vars 6\n" + atom + "2 >= 0 +2 -4\n3 >= 0 +3 -4\n4 >= -1 +4 -2 -3\n5 >= 0 +3 -5\n6 >= 0 +5 -3\n7 = 1 +4\n"
    rowlist("2 1\nF[0,1]a0\n", within)
    rowlist("2 1\n F [ 0 , 1 ] a0 ", within)
    rowlist("2 1\nF[0,63]a0", within)
    rowlist("2 1\nG[0,1]a0\n", throughout)
    rowlist("1 1\nF[0,0]a0", "rows 4 vars 3\n0 = 0 +1 -0\n1 >= 0 +2 -1\n2 >= 0 +1 -2\n3 = 1 +2\n")
    say("By hand: refusals, the first in the order of the checks; 12 comes before 6")
    for given, number in (
        ("2 1\nF[1,0]a0", 12), ("2 1\nG[0,64]a0", 12), ("2 1\nF[18446744073709551616,0]a0", 12),
        ("2 2\n" + "!" * 198 + "F[1,0]a0", 12), ("64 1\n" + "G[1,0]" * 128 + "a0", 12), ("2 2\nF[1,0]a9", 5),
        ("65 1\nF[1,0]a0", 1), ("2 0\nF[1,0]a0", 2), ("1 1\nF[1,0]a0" + " " * 1017, 3), ("1 1\nF[1,0]a0" + " " * 1016, 12),
        ("2 2\nF[1,0]", 4), ("2 2\nF[01,2]a0", 4), ("2 2\n![0,1]a0", 4), ("1 1\n" + "F[0,1]" * 128 + "a0", 6),
        ("64 1\n!!" + "F[0,1]" * 28 + "a0", 11), ("64 1\n" + "G[0,63]" * 3 + "a0", 11), ("64 16\n" + "F[0,63]" * 127 + "a15", 11),
    ):
        rowlist_refused(given, number)
    say("Of the paper's words: rules whose rows take all 65,536 bytes of rowlist, and others")
    for given, rule, t, m, size in (
        ("64 1\n!" + "F[0,1]" * 28 + "a0", "a0" + " F[0,1]" * 28 + " !", 64, 1, 65536),
        ("64 1\n" + "!" * 11 + "G[0,51]" * 2 + "a0", "a0" + " G[0,51]" * 2 + " !" * 11, 64, 1, 65536),
        ("61 1\n" + "!" * 7 + "F[0,2]" * 20 + "a0", "a0" + " F[0,2]" * 20 + " !" * 7, 61, 1, 65536),
        ("64 16\n" + "G[0,63]" * 2 + "a15", "a15" + " G[0,63]" * 2, 64, 16, 59976),
        ("4 3\nG(a0>F[1,2]a1)|!(a2UG[0,1]!a0)", WINDOWED_RULE, 4, 3, 1095),
    ):
        assert row_bytes(paper.rows(nodes_of(rule), t, m)) == size
        rowlist(given, paper.listing(nodes_of(rule), t, m))


def listing_rows():
    say("The paper: rowlist's example; the last line may lack its line feed, and what follows line 2 is ignored")
    for given in "2 2\na0Ua1\n", "2 2\na0Ua1", "2 2\na0Ua1\na0\n\n", "002 2\na0Ua1":
        rowlist(given, "rows 10 vars 10\n" + PAGE + "\n")
    say("By hand: each refusal of reader and row writer; the first in the order of the checks wins")
    for given, number in (
        ("65 1\na0", 1), ("0 0\n)", 1), ("18446744073709551618 1\na0", 1), ("2 0\n)", 2), ("2 17\na0", 2),
        ("1 1\n" + " " * 1025, 3), ("2 2", 4), ("2 2\n", 4), ("2 2\n\na0", 4), ("2 2\na0\r\n", 4), ("1 1\na1", 5),
        ("1 1\n" + "!" * 128 + "a0", 6), ("27 1\n" + "!" * 6 + "(a0" + "&a0" * 50 + ")", 11),
    ):
        rowlist_refused(given, number)
    say("By hand: a first line of another shape")
    for given in "", "\n", "2", "2 ", " 2 2", "2  2", "2 2 ", "2 2 2", "2\t2", "2 2\r\na0", "-2 2", "2,2", "a0", "65 x\na0":
        rowlist(given, "bad input\n")
    say("Of the paper's words: rules of 4,681 and of 4,682 rows, which records of 14 bytes let rowlist hold and not hold")
    rowlist("60 1\n" + "!" * 77 + "a0", paper.listing(nodes_of("a0" + " !" * 77), 60, 1))
    ands = nodes_of("a0" + " a0" * 24 + " &" * 24 + " !" * 54)
    rowlist("31 1\n" + "!" * 54 + "(a0" + "&a0" * 24 + ")", paper.listing(ands, 31, 1))


def window_total(is_within, x, *figures):
    """The row sum of a window's last row: F has the figures' sum less x, and G x less the figures' sum."""
    total = sum(figures)
    sums = (total, total - x) if is_within else (x, x - total)
    case("total", [int(is_within), x, *figures], None, "positive {} whole {}".format(*sums))


# A table of every kind over two atoms, with windows; the root is `!` of until.
EVERY = table(
    (1, 0, 0), (1, 1, 0), (3, 0, 1), (4, 0, 1), (5, 0, 1), (6, 0, 0), (7, 3, 0), (8, 0, 1), (9, 0, 0, 0, 1), (10, 3, 0, 1, 2), (2, 7, 0),
)


def for_each_loop(t, m, run, records, *truths):
    """The truths of a table over a run, for each L from 1 to T."""
    for l, truth in enumerate(truths, 1):
        answer = truth.split()[-1][0]
        evaluate(t, m, len(records) // RECORD, f"v{answer}", run, truth, records, l)
    assert l == t


def looping_truths():
    say("By hand from the request (N8): after T comes L again. T 2 with L 1 and with L 2, where all is as it was")
    for_each_loop(2, 2, [2, 1], UNTIL, "01 10 11", "01 10 10")
    for_each_loop(2, 2, [1, 1], UNTIL, "11 00 00", "11 00 00")
    for_each_loop(2, 2, [2, 0], F_A1, "10 11", "10 10")
    for_each_loop(2, 2, [0, 1], G_A0, "01 00", "01 01")
    for_each_loop(2, 1, [1, 0], GF_A0, "10 11 11", "10 10 00")
    for_each_loop(2, 1, [0, 1], FG_A0, "01 00 00", "01 01 11")
    say("By hand: T 3 with L 1, 2 and 3; T 1, where L is 1 alone")
    for_each_loop(3, 2, [2, 0, 0], F_A1, "100 111", "100 100", "100 100")
    for_each_loop(3, 2, [0, 2, 0], F_A1, "010 111", "010 111", "010 110")
    for_each_loop(3, 1, [0, 1, 1], G_A0, "011 000", "011 011", "011 011")
    for_each_loop(3, 1, [1, 0, 1], G_A0, "101 000", "101 000", "101 001")
    for_each_loop(3, 2, [2, 1, 1], UNTIL, "011 100 111", "011 100 100", "011 100 100")
    for_each_loop(3, 2, [1, 2, 1], UNTIL, "101 010 111", "101 010 111", "101 010 110")
    for_each_loop(3, 2, [0, 2, 1], UNTIL, "001 010 010", "001 010 011", "001 010 010")
    for_each_loop(3, 2, [1, 1, 1], UNTIL, "111 000 000", "111 000 000", "111 000 000")
    for_each_loop(3, 2, [0, 1, 3], IMPLIES, "011 001 101", "011 001 101", "011 001 101")
    for_each_loop(3, 1, [1, 0, 0], GF_A0, "100 111 111", "100 100 000", "100 100 000")
    for_each_loop(3, 1, [0, 0, 1], FG_A0, "001 000 000", "001 000 000", "001 001 111")
    for_each_loop(1, 2, [1], UNTIL, "1 0 0")
    say("By hand: windows wrap the same way, some more than once; [0,63] looks at each slot once")
    for_each_loop(2, 1, [1, 0], window("F", 0, 1), "10 11", "10 10")
    for_each_loop(2, 1, [0, 1], window("G", 0, 1), "01 00", "01 01")
    for_each_loop(2, 1, [1, 0], window("F", 1, 1), "10 01", "10 00")
    for_each_loop(2, 1, [1, 0], window("G", 63, 63), "10 01", "10 00")
    for_each_loop(3, 1, [1, 0, 0], window("F", 1, 2), "100 011", "100 000", "100 000")
    for_each_loop(3, 1, [0, 1, 1], window("G", 1, 2), "011 100", "011 111", "011 111")
    for_each_loop(3, 1, [0, 1, 0], window("F", 5, 5), "010 001", "010 101", "010 000")
    for_each_loop(3, 1, [0, 1, 0], window("F", 0, 63), "010 111", "010 111", "010 110")
    for_each_loop(4, 1, [0, 0, 1, 1], window("G", 0, 63), "0011 0000", "0011 0000", "0011 0011", "0011 0011")
    evaluate(5, 1, 2, "v0", [0, 1, 0, 0, 0], "01000 00100", window("F", 63, 63), 2)
    say("Of the paper's words: a table of every kind, for each L with T 2 to 5")
    rng = random.Random(8)
    for t in range(2, 6):
        for l in range(1, t):
            evaluate_of_paper(t, 2, [rng.getrandbits(2) for _ in range(t)], EVERY, l=l)
    say("By hand: T 64 with L 1, 2, 32 and 63: `Fa1` where a1 holds at one slot, within the loop and before it")
    for l in 1, 2, 32, 63:
        for slot in sorted({1, l - 1, l, 64} - {0}):
            alone = "0" * (slot - 1) + "1" + "0" * (64 - slot)
            truth = "1" * 64 if slot >= l else "1" * slot + "0" * (64 - slot)
            evaluate(64, 2, 2, "v1", [2 * int(bit) for bit in alone], alone + truth, F_A1, l)
    say("Of the paper's words: T 64, every kind, and windows that look far")
    far = table((1, 0, 0), (1, 1, 0), (9, 0, 0, 63, 63), (10, 1, 0, 40, 63), (9, 1, 0, 31, 32), (10, 0, 0, 0, 5), (8, 5, 4), (7, 3, 0))
    for l in 1, 2, 32, 63:
        evaluate_of_paper(64, 2, [rng.choice((1, 1, 1, 3, 2, 0)) for _ in range(64)], EVERY, l=l)
        evaluate_of_paper(64, 2, [rng.choice((3, 3, 3, 3, 3, 3, 2, 1, 0)) for _ in range(64)], far, l=l)


def each_refused(t, m, l, nodes, *answers):
    """Evaluator, row writer, page and judge where all that is checked later is wrong: the run and the buffer, the figures and e."""
    answers = answers * 4 if len(answers) == 1 else answers
    evaluate(t, m, 0, answers[0], [], "", nodes, l)
    rows(t, m, 0, answers[1], [], nodes, l)
    mps(t, m, 0, answers[2], "", nodes, l)
    judge(t, m, -1, [], answers[3], nodes, l)


def refusing_loops():
    say("The request (N8): 13 when L is not 1 to T; after 1 and 2, before all others")
    for t, l in (1, 0), (1, 2), (2, 0), (2, 3), (63, 64), (64, 0), (64, 65):
        each_refused(t, 1, l, ATOM, "r13")
    for l in 257, 65537, 2**32 + 1, 2**63 + 1, 2**64 - 2, 2**64 - 1:
        each_refused(2, 1, l, ATOM, "r13")
    for nodes in b"", table((1, 1, 0)), with_height(UNTIL, 2, 0), window("F", 1, 0):
        each_refused(2, 1, 3, nodes, "r13")
        each_refused(2, 1, 1, nodes, "r7")
    for t, m, l in (0, 1, 0), (0, 0, 1), (65, 1, 66), (65, 17, 0), (2**32 + 2, 1, 3):
        each_refused(t, m, l, ATOM, "r1")
    for m, l in (0, 0), (17, 3), (0, 1), (2**32 + 1, 3):
        each_refused(2, m, l, b"", "r2")
    say("By hand: with L from 1 to T each call gets to its next refusal")
    for t, l in (1, 1), (2, 1), (2, 2), (64, 1), (64, 64):
        each_refused(t, 1, l, G_A0, "r8", "r11", "r11", "r9")
    evaluate(2, 1, 2, "r8", [0], "", G_A0, 1)
    evaluate(2, 1, 2, "r8", [0, 2], "", G_A0, 1)
    evaluate(2, 1, 1, "r11", [0, 0], "", G_A0, 1)
    evaluate(2, 1, 3, "v0", [0, 0], "00 00", G_A0, 1)


# The rows of `Fa0`, `Ga0` and `a0Ua1` with T 2 and L 1, M 1 and for until 2: the atoms' nodes, V at both slots, P at both, the goal.
ATOM_ROWS = ["= 0 +2 -0", "= 0 +3 -1"]
LOOPED_F = ATOM_ROWS + [
    ">= 0 +6 -2", ">= 0 +6 -7", ">= 0 +2 +7 -6", "= 0 +7 -3",
    ">= 0 +4 -2", ">= 0 +4 -5", ">= 0 +2 +5 -4", ">= 0 +5 -3", ">= 0 +5 -6", ">= 0 +3 +6 -5", "= 1 +4",
]
LOOPED_G = ATOM_ROWS + [
    ">= 0 +2 -6", ">= 0 +7 -6", ">= -1 +6 -2 -7", "= 0 +7 -3",
    ">= 0 +2 -4", ">= 0 +5 -4", ">= -1 +4 -2 -5", ">= 0 +3 -5", ">= 0 +6 -5", ">= -1 +5 -3 -6", "= 1 +4",
]
LOOPED_UNTIL = ["= 0 +4 -0", "= 0 +5 -1", "= 0 +6 -2", "= 0 +7 -3"] + [
    ">= 0 +10 -6", ">= 0 +4 +6 -10", ">= 0 +6 +11 -10", ">= -1 +10 -4 -11", "= 0 +11 -7",
    ">= 0 +8 -6", ">= 0 +4 +6 -8", ">= 0 +6 +9 -8", ">= -1 +8 -4 -9",
    ">= 0 +9 -7", ">= 0 +5 +7 -9", ">= 0 +7 +10 -9", ">= -1 +9 -5 -10", "= 1 +8",
]
F_A0 = table((1, 0, 0), (6, 0, 0))


def looping_rows():
    say("By hand from the request (N8): F, G and U with T 2 and L 1: the rows of V, by slot, then those of P; the buffer")
    rows(2, 1, 149, "n13", LOOPED_F, F_A0, 1)
    rows(2, 1, 150, "n13", LOOPED_F, F_A0, 1)
    for room in 148, 77, 0:
        rows(2, 1, room, "r11", [], F_A0, 1)
    rows(2, 1, 149, "n13", LOOPED_G, G_A0, 1)
    rows(2, 2, 222, "n18", LOOPED_UNTIL, UNTIL, 1)
    rows(2, 2, 221, "r11", [], UNTIL, 1)
    rows(2, 1, 77, "n7", ATOM_ROWS + [">= 0 +4 -2", ">= 0 +4 -5", ">= 0 +2 +5 -4", "= 0 +5 -3", "= 1 +4"], F_A0, 2)
    rows(1, 1, 30, "n3", ["= 0 +1 -0", "= 0 +2 -1", "= 1 +2"], F_A0, 1)
    say("By hand: left equal to right, T 2 and L 1; T 3, where P' of P at T is V at L; V has no gaps: in `F!Ga0` it is that of G, then of F")
    rows(2, 1, 200, "n16", ATOM_ROWS + [
        ">= 0 +6 -2", ">= 0 +2 +2 -6", ">= 0 +2 +7 -6", ">= -1 +6 -2 -7", "= 0 +7 -3",
        ">= 0 +4 -2", ">= 0 +2 +2 -4", ">= 0 +2 +5 -4", ">= -1 +4 -2 -5",
        ">= 0 +5 -3", ">= 0 +3 +3 -5", ">= 0 +3 +6 -5", ">= -1 +5 -3 -6", "= 1 +4",
    ], table((1, 0, 0), (8, 0, 0)), 1)
    for l, after in (1, 9), (2, 10):
        rows(3, 1, 232, "n20", [
            "= 0 +3 -0", "= 0 +4 -1", "= 0 +5 -2",
            ">= 0 +9 -3", ">= 0 +9 -10", ">= 0 +3 +10 -9", ">= 0 +10 -4", ">= 0 +10 -11", ">= 0 +4 +11 -10", "= 0 +11 -5",
            ">= 0 +6 -3", ">= 0 +6 -7", ">= 0 +3 +7 -6", ">= 0 +7 -4", ">= 0 +7 -8", ">= 0 +4 +8 -7",
            ">= 0 +8 -5", f">= 0 +8 -{after}", f">= 0 +5 +{after} -8", "= 1 +6",
        ], F_A0, l)
    rows(2, 1, 290, "n25", ATOM_ROWS + [
        ">= 0 +2 -10", ">= 0 +11 -10", ">= -1 +10 -2 -11", "= 0 +11 -3",
        ">= 0 +2 -4", ">= 0 +5 -4", ">= -1 +4 -2 -5", ">= 0 +3 -5", ">= 0 +10 -5", ">= -1 +5 -3 -10",
        "= 1 +6 +4", "= 1 +7 +5",
        ">= 0 +12 -6", ">= 0 +12 -13", ">= 0 +6 +13 -12", "= 0 +13 -7",
        ">= 0 +8 -6", ">= 0 +8 -9", ">= 0 +6 +9 -8", ">= 0 +9 -7", ">= 0 +9 -12", ">= 0 +7 +12 -9", "= 1 +8",
    ], rule("a0 G ! F"), 1)
    looping_window_rows()
    say("Of the paper's words: rows of every kind, and of a table that does not use all its parts; small T, and T 64")
    unused = nodes_of("a0 F G") + [(8, 2, 1, 0, 0), (1, 1, 0, 0, 0), (2, 4, 0, 0, 0)]
    for t, l in (3, 1), (3, 2), (4, 1), (4, 2), (4, 3), (64, 1), (64, 2), (64, 32), (64, 63):
        rows_of_paper(t, 2, paper.nodes_in(EVERY), l)
    for t, l in (4, 1), (5, 2), (64, 2), (64, 32):
        rows_of_paper(t, 16, unused, l, more=1)


def looping_window_rows():
    say("By hand: wrapped windows by slot number, [0,1] at T with L 1 has slot 1, then T; windows have no V")
    within = [">= 0 +4 -2", ">= 0 +4 -3", ">= 0 +2 +3 -4", ">= 0 +5 -2", ">= 0 +5 -3", ">= 0 +2 +3 -5", "= 1 +4"]
    throughout = [">= 0 +2 -4", ">= 0 +3 -4", ">= -1 +4 -2 -3", ">= 0 +2 -5", ">= 0 +3 -5", ">= -1 +5 -2 -3", "= 1 +4"]
    rows(2, 1, 102, "n9", ATOM_ROWS + within, window("F", 0, 1), 1)
    rows(2, 1, 101, "r11", [], window("F", 0, 1), 1)
    rows(2, 1, 102, "n9", ATOM_ROWS + within, window("F", 62, 63), 1)
    rows(2, 1, 102, "n9", ATOM_ROWS + throughout, window("G", 0, 63), 1)
    ones = [">= 0 +4 -3", ">= 0 +3 -4", ">= 0 +5 -2", ">= 0 +2 -5", "= 1 +4"]
    rows(2, 1, 74, "n7", ATOM_ROWS + ones, window("F", 1, 1), 1)
    rows(2, 1, 74, "n7", ATOM_ROWS + ones, window("F", 63, 63), 1)
    atom = ["= 0 +3 -0", "= 0 +4 -1", "= 0 +5 -2"]
    pair = [">= 0 +4 -{0}", ">= 0 +5 -{0}", ">= -1 +{0} -4 -5"]
    rows(3, 1, 149, "n13", atom + [row.format(own) for own in (6, 7, 8) for row in pair] + ["= 1 +6"], window("G", 1, 2), 2)
    rows(3, 1, 163, "n14", atom + [">= 0 +3 -6", ">= 0 +4 -6", ">= 0 +5 -6", ">= -2 +6 -3 -4 -5"] +
         [row.format(own) for own in (7, 8) for row in pair] + ["= 1 +6"], window("G", 0, 63), 2)
    rows(3, 1, 107, "n10", atom + [
        ">= 0 +6 -4", ">= 0 +4 -6", ">= 0 +7 -5", ">= 0 +5 -7", ">= 0 +8 -4", ">= 0 +4 -8", "= 1 +6",
    ], window("F", 5, 5), 2)
    say("Of the paper's words: windows with T 5 and 64")
    for rule, t, l in (
        ("a0 F[63,63]", 5, 2), ("a0 G[3,6]", 5, 4), ("a0 F[2,3] G[1,4]", 5, 3), ("a0 G[0,63]", 64, 1), ("a0 F[0,63]", 64, 63),
        ("a0 F[1,40]", 64, 32), ("a0 G[60,63] F[5,5]", 64, 2), ("a0 F G[2,9] a0 F[1,1] U", 6, 4),
    ):
        rows_of_paper(t, 1, nodes_of(rule), l)


def looping_pages():
    say("By hand from the request (N8): a page in full, `Fa0` with T 2, M 1 and L 1, where X6 and X7 are V; the buffer")
    columns = (
        "X0 R0 -1, X1 R1 -1, X2 R0 1, X2 R2 -1, X2 R4 1, X2 R6 -1, X2 R8 1, X3 R1 1, X3 R5 -1, X3 R9 -1, X3 R11 1, "
        "X4 R6 1, X4 R7 1, X4 R8 -1, X4 R12 1, X5 R7 -1, X5 R8 1, X5 R9 1, X5 R10 1, X5 R11 -1, "
        "X6 R2 1, X6 R3 1, X6 R4 -1, X6 R10 -1, X6 R11 1, X7 R3 -1, X7 R4 1, X7 R5 1"
    )
    lines = ["NAME", "ROWS", " N  COST", *(f" {kind}  R{number}" for number, kind in enumerate("EEGGGEGGGGGGE")), "COLUMNS"]
    lines += ["    {:10}{:10}{}".format(*entry.split()) for entry in columns.split(", ")]
    lines += ["RHS", "    RHS       R12       1", "BOUNDS", " BV BND       X0", " BV BND       X1"]
    lines += [f" UP BND       X{number}        1" for number in range(2, 8)]
    page = "".join(line + "\n" for line in [*lines, "ENDATA"])
    assert page == page_of(paper.nodes_in(F_A0), 2, 1, 1)
    mps(2, 1, len(page), f"n{len(page)}", page, F_A0, 1)
    mps(2, 1, len(page) - 1, "r11", "", F_A0, 1)
    mps(2, 1, len(page_of(paper.nodes_in(F_A0), 2, 1)), "r11", "", F_A0, 1)
    say("Of the page's words: the others of T 2; `p U p`; windows; every kind, small T, and T 64")
    for rule, m in ("a0 G", 1), ("a0 a1 U", 2), ("a0 F G", 1), ("a1 G ! F", 3), ("a0 F[0,1]", 1), ("a0 G[63,63]", 1):
        mps_of_paper(2, m, nodes_of(rule), 1)
    mps_of_paper(2, 1, [(1, 0, 0, 0, 0), (8, 0, 0, 0, 0)], 1)
    for rule, t, l in ("a0 G[1,2]", 3, 2), ("a0 F[2,3] G[1,4]", 5, 3), ("a0 G[3,40] F", 64, 32), ("a0 F[63,63] a0 U", 64, 63):
        mps_of_paper(t, 1, nodes_of(rule), l)
    for t, l in (3, 1), (3, 2), (4, 1), (4, 2), (4, 3), (64, 1), (64, 2), (64, 32), (64, 63):
        mps_of_paper(t, 2, paper.nodes_in(EVERY), l, more=1)


def looping_judge():
    say("By hand from the request (N8): `Fa0`, T 2, M 1, L 1: atoms, part, P, V; rows as written above")
    judge(2, 1, 0, [ONE, 0, ONE, 0, ONE, ONE, ONE, 0], "p13,0", F_A0, 1)
    judge(2, 1, 0, [0, ONE, 0, ONE, ONE, ONE, ONE, ONE], "p13,0", F_A0, 1)
    judge(2, 1, 0, [0] * 8, "k12,1000000", F_A0, 1)
    for place, row in (6, 2), (7, 5), (4, 6), (5, 9):
        figures = [ONE] * 8
        figures[place] = 0
        judge(2, 1, 0, figures, f"k{row},1000000", F_A0, 1)
    judge(2, 1, 0, [0, ONE, 0, ONE, ONE, ONE, 0, ONE], "k3,1000000", F_A0, 1)
    judge(2, 1, 0, [ONE, 0, ONE, 0, ONE, 0, ONE, 0], "k10,1000000", F_A0, 1)
    judge(2, 1, 0, [ONE, 0, ONE, 0, ONE, ONE, ONE, ONE], "k5,1000000", F_A0, 1)
    judging_circles()
    judging_seconds()
    counting_figures()
    say("By hand: `F[0,1]a0` and `G[0,1]a0`, T 2, M 1, L 1: at T the window looks at both slots")
    judge(2, 1, 0, [ONE, 0, ONE, 0, ONE, ONE], "p9,0", window("F", 0, 1), 1)
    judge(2, 1, 0, [ONE, 0, ONE, 0, ONE, 0], "k5,1000000", window("F", 0, 1), 1)
    judge(2, 1, 0, [0, ONE, 0, ONE, ONE, 0], "k6,1000000", window("F", 0, 1), 1)
    judge(2, 1, 0, [0, ONE, 0, ONE, 0, ONE], "k3,1000000", window("F", 0, 1), 1)
    judge(2, 1, 0, [ONE, ONE, ONE, ONE, ONE, 0], "k7,1000000", window("G", 0, 1), 1)
    judge(2, 1, 0, [0, ONE, 0, ONE, 0, ONE], "k5,1000000", window("G", 0, 1), 1)


def judging_circles():
    say("The request: a circle of ones, each P fed by the next, breaks a row whatever V is; a circle of zeros for G, and one of halves")
    for v, row in ((0, 0), 11), ((ONE, 0), 4), ((ONE, ONE), 5), ((0, ONE), 3):
        judge(2, 1, 0, [0, 0, 0, 0, ONE, ONE, *v], f"k{row},1000000", F_A0, 1)
    for v, row in ((0, 0), 15), ((ONE, 0), 6), ((ONE, ONE), 8):
        judge(2, 2, 0, [ONE, ONE, 0, 0, ONE, ONE, 0, 0, ONE, ONE, *v], f"k{row},1000000", UNTIL, 1)
    for v, row in ((ONE, ONE), 11), ((0, ONE), 4), ((0, 0), 5):
        judge(2, 1, 0, [ONE, ONE, ONE, ONE, 0, 0, *v], f"k{row},1000000", G_A0, 1)
    judge(2, 1, 0, [0, 0, 0, 0, ONE // 2, ONE // 2, 0, 0], "k11,500000", F_A0, 1)
    judge(2, 1, 0, [0, 0, 0, 0, ONE // 2, ONE // 2, ONE // 2, ONE // 2], "k5,500000", F_A0, 1)


def judging_seconds():
    say("By hand: `a0Ua1`, met after T; `Ga0`; figures of V outside, which are never not binary; nearly right and shortfalls")
    met = [0, ONE, ONE, 0, 0, ONE, ONE, 0, ONE, ONE]
    judge(2, 2, 0, met + [ONE, 0], "p18,0", UNTIL, 1)
    for v, row in ((0, 0), 4), ((ONE, ONE), 8), ((0, ONE), 4):
        judge(2, 2, 0, met + [*v], f"k{row},1000000", UNTIL, 1)
    judge(2, 2, 0, met[:9] + [0, ONE, 0], "k16,1000000", UNTIL, 1)
    judge(2, 1, 0, [ONE] * 8, "p13,0", G_A0, 1)
    judge(2, 1, 0, [0, ONE, 0, ONE, 0, ONE, 0, ONE], "k10,1000000", G_A0, 1)
    judge(2, 1, 0, [0, ONE, 0, ONE, 0, 0, 0, ONE], "k12,1000000", G_A0, 1)
    for place, figure, e in (6, -1, 0), (7, ONE + 1, 0), (6, ONE + 1001, 1000), (7, -1001, 1000), (7, -(2**31), 1000), (6, 2**31 - 1, 0):
        figures = [ONE] * 8
        figures[place] = figure
        judge(2, 1, e, figures, f"o{place}", F_A0, 1)
    judge(2, 1, 0, [500000] + [ONE] * 6 + [-1], "o7", F_A0, 1)
    judge(2, 1, 0, [ONE] * 6 + [500000, ONE], "k2,500000", F_A0, 1)
    judge(2, 1, 0, [ONE] * 7 + [500000], "k5,500000", F_A0, 1)
    judge(2, 1, 0, [ONE, 1] + [ONE] * 5 + [500000], "b1", F_A0, 1)
    judge(2, 1, 1, [ONE] * 6 + [999999, ONE], "p13,12", F_A0, 1)
    judge(2, 1, 1, [ONE] * 6 + [999999, ONE + 1], "k3,2", F_A0, 1)
    judge(2, 1, 1, [ONE] * 6 + [999998, ONE], "k2,2", F_A0, 1)
    judge(2, 1, 1000, [ONE] * 5 + [998999, ONE - 1000, ONE], "k9,1001", F_A0, 1)
    judge(2, 1, 1000, [ONE] * 5 + [ONE - 1000, ONE + 1000, ONE], "k10,2000", F_A0, 1)


def counting_figures():
    say("By hand: the figure count grows by T for each V, and only where L is below T")
    for count in 5, 6, 7, 9, 10, 0:
        judge(2, 1, 0, [ONE] * count, "r9", F_A0, 1)
    for count, answer in (6, "p7,0"), (8, "r9"), (7, "r9"):
        judge(2, 1, 0, [ONE] * count, answer, F_A0, 2)
    for l, count, answer in (
        (1, 12, "p20,0"), (2, 12, "p20,0"), (1, 9, "r9"), (2, 11, "r9"), (2, 13, "r9"), (1, 15, "r9"), (3, 9, "p11,0"), (3, 12, "r9"),
    ):
        judge(3, 1, 0, [ONE] * count, answer, F_A0, l)
    for count, answer in (12, "p23,0"), (8, "r9"), (10, "r9"), (11, "r9"), (13, "r9"), (14, "r9"):
        judge(2, 1, 0, [ONE] * count, answer, GF_A0, 1)
    for count, answer in (6, "p9,0"), (8, "r9"), (4, "r9"):
        judge(2, 1, 0, [ONE] * count, answer, window("F", 0, 1), 1)
    judge(2, 1, 1001, [ONE] * 8, "r10", F_A0, 1)
    judge(2, 1, -1, [ONE] * 8, "r10", F_A0, 1)
    judge(2, 1, 1001, [ONE] * 6, "r9", F_A0, 1)


# As ERRORS, with L before the run: V is worked out from its last slot, then P, which at T counts V at L.
LOOPED_ERRORS = (
    (12, 2, 1, [0, 1], F_A0),  # V 3 and 6, P 1 + 2 + 6 and 1 + 2 + 9
    (6, 2, 2, [0, 1], F_A0),
    (18, 3, 1, [0, 1, 0], F_A0),  # V 3, 6 and 9, P 12, 15 and 18
    (15, 3, 2, [0, 1, 0], F_A0),  # P 1 + 2 + 6, 12 and 15
    (12, 2, 1, [1, 1], G_A0),
    (384, 64, 1, [1] * 64, G_A0),  # V 192, and 64 times 3
    (381, 64, 2, [0] * 63 + [1], F_A0),
    (291, 64, 32, [0] * 63 + [1], F_A0),
    (198, 64, 63, [1] * 64, G_A0),
    (18, 2, 1, [1, 2], UNTIL),  # V 3 and 8, P 1 + 2 + 2 + 8 and 18
    (28, 3, 1, [1, 1, 2], UNTIL),
    (23, 3, 2, [1, 1, 2], UNTIL),
    (638, 64, 1, [1] * 63 + [2], UNTIL),  # V 318, and 64 times 5
    (633, 64, 2, [1] * 63 + [2], UNTIL),
    (483, 64, 32, [1] * 63 + [2], UNTIL),
    (328, 64, 63, [1] * 63 + [2], UNTIL),
    (18, 2, 1, [1, 0], table((1, 0, 0), (8, 0, 0))),  # p twice, in p + p - P
    (21, 2, 1, [0, 2], rule("a0 ! a1 U")),  # V 3 and 9, P 1 + 3 + 2 + 9 and 21: at T p counts too
    (46, 2, 1, [1, 0], GF_A0),  # F 12 and 9; V of G 10 and 23, P 1 + 9 + 23 and 1 + 12 + 33
    (13, 2, 1, [0, 0], rule("a0 F !")),
    (2, 2, 1, [2, 0], table((1, 0, 0), (6, 0, 0), (7, 1, 0), (1, 1, 0))),  # the root does not use the others
    (5, 2, 1, [1, 0], window("F", 0, 1)),
    (6, 2, 1, [1, 0], rule("a0 F[0,1] F[1,1]")),  # F[0,1] 5 at both slots
    (5, 3, 2, [0, 1, 1], window("G", 1, 63)),  # slots 2 and 3, once each
    (7, 3, 1, [1, 1, 1], window("G", 1, 63)),
    (16, 2, 1, [1, 0], rule("a0 F[1,1] F")),  # V 4 and 8, P 12 and 16
    (22, 2, 1, [1, 0], rule("a0 F F[1,3]")),  # 1 + 12 + 9
)


def looping_errors():
    say("By hand from the request (N8): the root's error figure at slot 1, V counted from its rows, P at T from p, q and V at L")
    for times, t, l, run, records in LOOPED_ERRORS:
        m = max(1, max(run).bit_length(), *(left + 1 for kind, left, *_ in paper.nodes_in(records) if kind == 1))
        for e in (1,) if t == 64 else (1, 1000):
            passes(t, m, e, run, times * e, records, l)
    say("By hand: `GFa0`, T 64, L 1: F at slot t has 192 and 3 for each slot from it, V of G 18592 and P twice that; about 500,000 and the stop")
    for e, error in (1, 37184), (13, 483392), (14, 520576), (26, 966784), (27, ONE), (1000, ONE), (0, 0):
        passes(64, 1, e, [0] * 63 + [1], error, GF_A0, 1)
    say("By hand: until of one part on both sides, 127 times, T 64, M 16: 17,344 figures, of which V has 8,128")
    for l, e, figures, answer in (
        (1, 0, [ONE] * 17344, "p64708,0"), (63, 1, [ONE] * 17344, "p64708,1000000"), (1, 0, [ONE] * 17343, "r9"), (63, 0, [ONE] * 9216, "r9"),
        (1, 0, [ONE] * 17343 + [ONE + 1], "o17343"), (1, 0, [ONE] * 17343 + [0], f"k{64 + 126 * 509 + 252},1000000"),
    ):
        judge(64, 16, e, figures, answer, LONGEST[1], l)
    say("Of the request's words: tables and runs of chance that loop, figures put off as far as the others let them, and one further")
    rng = random.Random(18)
    for _ in range(16):
        t, m, e = rng.choice((2, 3, 3, 4)), rng.choice((1, 1, 2)), rng.choice((1, 10, 100, 999, 1000))
        nodes, run = chance_nodes(rng, rng.randint(3, 5), m), [rng.getrandbits(m) for _ in range(t)]
        put_off(rng, t, m, e, [*nodes, (rng.choice((6, 7, 8)), len(nodes) - 1, 0, 0, 0)], run, rng.randrange(1, t))
    say("Of the paper's words: the rules of every kind and of windows, T 4, M 3, for each L: truths, and the figures that they make")
    for records in MIXED, WINDOWED:
        for l, run in (1, [4, 7, 6, 1]), (2, [5, 4, 1, 2]), (3, [1, 4, 3, 0]):
            evaluate_of_paper(4, 3, run, records, l=l)
            judge_of_paper(4, 3, 0, exact(3, run, paper.nodes_in(records), l), paper.nodes_in(records), l)


def spin_lines():
    """(T, L or None, M, run, bits, text) of each line of tests/spin.txt."""
    for line in (TOP / "tests" / "spin.txt").read_text().splitlines():
        horizon, m, run, bits, words = line.split(" ", 4)
        t, _, l = horizon.partition(">")
        yield int(t), int(l) if l else None, int(m), tuple(int(number) for number in run.split(",")), bits, words


def of_spin():
    say("From SPIN (tests/spin.txt), the root's truth at the slots asked; the tables, and the other truths, of the paper's words")
    for t, l, m, run, bits, words in spin_lines():
        if l is None:
            nodes = paper.parse(words)
            case("read", [1024, m], words.encode(), f"value {len(nodes)}", lent(1024, paper.table(nodes)))
            *parts, root = paper.run_truth(nodes, m, run)
            root = [int(own if bit == "-" else bit) for own, bit in zip(root, bits)]
            evaluate(t, m, len(nodes), f"v{root[0]}", run, as_text([*parts, root]), paper.table(nodes))


def joined(rules):
    """The nodes of several rules in one table, equal parts once, and the number of each rule's root."""
    numbers, roots = {}, []
    for rule in rules:
        places = []
        for kind, left, right, a, b in rule:
            node = (kind, left if kind == 1 else places[left], places[right] if kind in paper.DOUBLE.values() else 0, a, b)
            places.append(numbers.setdefault(node, len(numbers)))
        roots.append(places[-1])
    return list(numbers), roots


def of_spin_loops():
    say("From SPIN, runs that loop to L (request N8): the truth of each rule at all slots; the rules over one run stand in one table, equal\n"
        "parts once. The tables, and the truths of the other parts, of the paper's words")
    loops = [line for line in spin_lines() if line[1] is not None]
    for (t, l, m, run), lines in itertools.groupby(loops, key=lambda line: line[:4]):
        *_, bits, words = zip(*lines)
        nodes, roots = joined(map(paper.parse, words))
        truths = paper.run_truth(nodes, m, run, l)
        for root, of_root in zip(roots, bits, strict=True):
            truths[root] = [int(bit) for bit in of_root]
        evaluate(t, m, len(nodes), f"v{int(truths[-1][0])}", run, as_text(truths), paper.table(nodes), l)


def largest():
    say("Of the paper's words: 128 nodes, an atom and then until over the node before on both sides, T 64 and M 16")
    nodes = [(1, 0, 0, 0, 0)] + [(8, child, child, 0, 0) for child in range(127)]
    run = [int(slot % 3 == 0) for slot in range(64)]
    texts = [paper.row_text(row) for row in paper.rows(nodes, 64, 16)]
    rows(64, 16, 426162, "n32196", texts, paper.table(nodes))
    rows(64, 16, 426161, "r11", [], paper.table(nodes))
    evaluate(64, 16, 128, "v1", run, "".join(map(str, run)) * 128, paper.table(nodes))
    evaluate(64, 16, 127, "r11", run, "", paper.table(nodes))
    page = page_of(nodes, 64, 16)
    mps(64, 16, len(page), f"n{len(page)}", page, paper.table(nodes))
    mps(64, 16, len(page) - 1, "r11", "", paper.table(nodes))
    say("Of the paper's words: 128 nodes, an atom and then the window [0,63] of the node before, T 64 and M 16: no table has\n"
        "more rows. Its page (of F 24,506,033 bytes, of G 24,984,950) is longer than what can be lent here: that of 22 nodes fits")
    for kind in 9, 10:
        nodes = [(1, 15, 0, 0, 0)] + [(kind, child, 0, 0, 63) for child in range(127)]
        texts = [paper.row_text(row) for row in paper.rows(nodes, 64, 16)]
        rows(64, 16, 3763976, "n272353", texts, paper.table(nodes))
        rows(64, 16, 3763975, "r11", [], paper.table(nodes))
    run = [0] * 63 + [32768]
    evaluate(64, 16, 128, "v0", run, ("0" * 63 + "1") * 128, paper.table(nodes))
    page = page_of(nodes[:22], 64, 16)
    mps(64, 16, len(page), f"n{len(page)}", page, paper.table(nodes[:22]))
    mps(64, 16, len(page) - 1, "r11", "", paper.table(nodes[:22]))
    mps(64, 16, 4194296, "r11", "", paper.table(nodes))


def largest_loops():
    say("Of the paper's words (request N8): the same of until with L 1 and 63, with a V for each; the page of the first 64 nodes.\n"
        "Of [0,63] with L 1, where each window looks at all slots, the first 64 nodes: the rows of all 128 are longer than what can be lent")
    nodes = [(1, 0, 0, 0, 0)] + [(8, child, child, 0, 0) for child in range(127)]
    for l in 1, 63:
        rows_of_paper(64, 16, nodes, l)
    rows(64, 16, 856945, "r11", [], paper.table(nodes), 1)
    mps_of_paper(64, 16, nodes[:64], 2)
    nodes = [(1, 15, 0, 0, 0)] + [(10, child, 0, 0, 63) for child in range(127)]
    rows_of_paper(64, 16, nodes[:64], 1)
    rows(64, 16, 3645639, "r11", [], paper.table(nodes[:64]), 1)
    rows(64, 16, 4194296, "r11", [], paper.table(nodes), 1)


def printing_rules():
    say("By hand (request N9): each operator within each other, on the left and on the right; an atom under each operator")
    for text in (
        "a0", "a15", "!a0", "Fa0", "Ga0", "F[0,0]a0", "G[0,63]a15", "F[9,10]a9", "!!a0", "FGa0", "GF[1,2]!a0", "a0>a1", "a0|a1", "a0&a1", "a0Ua1",
        "!a0Ua1", "a0U!a1", "Fa0>Ga1", "(a0>a1)>a2", "a0|a1>a2", "a0&a1>a2", "a0Ua1>a2", "(a0>a1)|a2", "(a0|a1)|a2", "a0&a1|a2", "a0Ua1|a2",
        "(a0>a1)&a2", "(a0|a1)&a2", "(a0&a1)&a2", "a0Ua1&a2", "(a0>a1)Ua2", "(a0|a1)Ua2", "(a0&a1)Ua2", "(a0Ua1)Ua2", "a0>a1>a2", "a0>a1|a2",
        "a0>a1&a2", "a0>a1Ua2", "a0|(a1>a2)", "a0|a1|a2", "a0|a1&a2", "a0|a1Ua2", "a0&(a1>a2)", "a0&(a1|a2)", "a0&a1&a2", "a0&a1Ua2", "a0U(a1>a2)",
        "a0U(a1|a2)", "a0U(a1&a2)", "a0Ua1Ua2", "!(a0>a1)", "F(a0|a1)", "G(a0&a1)", "F[0,5](a0Ua1)", "G[1,2](a0>a1)", "!(a0Ua1)Ua2", "a0U!(a1Ua2)",
        "!(a0>a1)>a2", "((a0>a1)>a2)>a0", "a0>(a1>a2)>a0", "(a0Ua1)U(a1Ua2)Ua0", "G(a0>F[1,5]a1)&!(a2U!a0)|a1", "a0>a1|a2&a0Ua1", "a0Ua1&a2|a0>a1",
        "((a0>a1)|a2)&a0", "(((a0>a1)|a2)&a0)Ua1", "a0U(a1&(a2|(a0>a1)))",
    ):
        print_rule(16, len(text), text, paper.table(paper.parse(text)))
    say("By hand: rules as they are pasted, printed, and read again to the same table")
    for expected, text in (
        ("a0", " ( ( ( a0 ) ) ) "), ("a0Ua1", "((a0)U(a1))"), ("a0Ua1Ua2", "(a0)U((a1)U(a2))"), ("(a0Ua1)Ua2", "((a0)U(a1))U(a2)"),
        ("a0>a1>a2", "(a0 > (a1 > a2))"), ("(a0>a1)>a2", "((a0 > a1) > a2)"), ("!a0&!a1", "(!(a0)) & (!(a1))"), ("GFa0", "G ( F ( a0 ) )"),
        ("G(a0>F[1,5]a1)", "G((a0)>(F[ 1 , 5 ](a1)))"), ("a0&a1|a2>a0", "(((a0&a1)|a2)>a0)"), ("a0&(a1|(a2>a0))", "(a0&(a1|(a2>a0)))"),
        ("a0", "(" * 511 + "a0" + ")" * 511), ("!" * 127 + "a0", "!" * 127 + "(" * 400 + "a0" + ")" * 400),
        ("a0" + "Ua0" * 63, "a0" + "U(a0" * 63 + ")" * 63), ("(" * 62 + "a0" + ">a0)" * 62 + ">a0", "(" * 63 + "a0" + ">a0)" * 63),
        ("G[10,63]" * 127 + "a15", "G[10,63]" * 127 + " a15 "),
    ):
        print_back(16, expected, text)
    say("By hand: a shared child is printed at each use, and a node that the root does not use is not printed")
    print_rule(2, 5, "a0&a0", table((1, 0, 0), (3, 0, 0)))
    print_rule(2, 13, "(a0&a0)&a0&a0", table((1, 0, 0), (3, 0, 0), (3, 1, 1)))
    print_rule(2, 18, "!(a0Ua0)U!(a0Ua0)", table((1, 0, 0), (8, 0, 0), (2, 1, 0), (8, 2, 2)))
    print_rule(2, 2, "a1", table((1, 0, 0), (3, 0, 0), (6, 1, 0), (1, 1, 0)))
    print_rule(2, 8, "F[0,1]a0", table((1, 0, 0), (1, 1, 0), (8, 0, 1), (9, 0, 0, 0, 1)))
    say("By hand: the text may have 1,024 bytes and no more; of 2 to the power 127 and more it is refused at once")
    windows = ((10, child, 0, 10, 63) for child in range(63))
    chain = [(1, 10, 0), *windows]  # 507 bytes
    short = "G[10,63]" * 63 + "a10"
    long_chain = [*chain, (10, 63, 0, 10, 63), (2, 64, 0)]
    print_rule(16, 1023, short + "&G[10,63]" + short, table(*long_chain[:-1], (3, 63, 64)))
    print_rule(16, 1024, short + "&!G[10,63]" + short, table(*long_chain, (3, 63, 65)))
    print_rule(16, 1032, short + "&!G[10,63]" + short, table(*long_chain, (3, 63, 65)))
    print_rule(16, 1023, "r11", table(*long_chain, (3, 63, 65)))
    print_rule(16, 1025, "r3", table(*long_chain, (2, 65, 0), (3, 63, 66)))
    print_rule(16, 0, "r3", table(*long_chain, (2, 65, 0), (3, 63, 66)))
    print_rule(16, 4096, "r3", table(*long_chain, (3, 63, 65), (2, 66, 0)))
    for kind in paper.DOUBLE.values():
        print_rule(1, 4096, "r3", table((1, 0, 0), *((kind, child, child) for child in range(127))))
        print_rule(1, 4096, "r3", table((1, 0, 0), *((kind, 0, child) for child in range(5)), *((kind, child, child) for child in range(5, 127))))
    doubled = [(1, 0, 0), *((8, child, child) for child in range(8))]  # 1,021 bytes
    print_rule(1, 1024, paper.printed([(*node, 0, 0) for node in doubled]), table(*doubled))
    print_rule(1, 4096, "r3", table(*doubled, (8, 8, 8)))
    say("By hand: the order of the checks, 2, 7, 3, 11, in which 7 comes before 3")
    deep = table((1, 0, 0), *((3, child, child) for child in range(127)))
    for m in 0, 17, 2**32 + 1:
        print_rule(m, 4, "r2", ATOM)
        print_rule(m, 0, "r2", b"")
        print_rule(m, 0, "r2", deep)
    for records in (
        b"", ATOM[:-1], ATOM + b"N", table((1, 1, 0)), table((2, 0, 0)), table((11, 0, 0)), table((1, 0, 1)), with_height(ATOM, 0, 1), deep + ATOM,
        with_height(deep, 64, 63), deep[:-8] + deep[-8:].replace(b"ND", b"NE"), table((1, 0, 0), (9, 0, 0, 2, 1)), table((1, 0, 0), (10, 0, 0, 0, 64)),
    ):
        print_rule(1, 0, "r7", records)
        print_rule(1, 4096, "r7", records)
    print_rule(1, 0, "r3", deep)
    print_rule(1, 1024, "r3", deep)
    print_rule(1, 0, "r11", ATOM)
    print_rule(1, 1, "r11", ATOM)
    print_rule(1, 2, "a0", ATOM)
    print_rule(1, 10, "a0", ATOM)
    say("By the papers' words (tests/paper.py): tables with shared nodes, by chance, in a buffer as long as the text and in one byte less")
    chance = random.Random(9)
    for size in (3, 5, 8, 12, 16, 20) * 30:
        records = paper.table(by_chance(chance, size))
        text = paper.printing(16, records, 4096)
        if isinstance(text, int):
            print_rule(16, 1024, f"r{text}", records)
        else:
            print_rule(16, len(text), text, records)
            print_rule(16, len(text) - 1, "r11", records)


def by_chance(chance, size):
    """Nodes of every kind, with children anywhere below them, often the last one."""
    nodes = [(1, chance.randrange(16), 0, 0, 0)]
    while len(nodes) < size:
        left, right = (max(chance.randrange(len(nodes)), chance.randrange(len(nodes))) for _ in range(2))
        kind = chance.randrange(1, 11)
        if kind == paper.ATOM:
            nodes.append((kind, chance.randrange(16), 0, 0, 0))
        elif kind in paper.WINDOW.values():
            nodes.append((kind, left, 0, *sorted((chance.randrange(64), chance.randrange(64)))))
        else:
            nodes.append((kind, left, right if kind in paper.DOUBLE.values() else 0, 0, 0))
    return nodes


def summing():
    say("By own arithmetic (request N3): rows of one, two and three of seven terms, with the ends of a figure's type for figures")
    figures = (2**31 - 1, -(2**31))
    terms = [(1, 0), (-1, 1), (127, 0), (127, 1), (-128, 0), (-128, 1), (0, 0)]
    for first in terms:
        row_sum(figures, first)
        for second in terms:
            row_sum(figures, first, second)
            for third in terms:
                row_sum(figures, first, second, third)
    say("By own arithmetic (request N4): the last rows of windows, of up to 65 terms, with the ends of a figure's type for figures")
    most, least = figures
    for is_within in True, False:
        for x in most, least, 0, ONE:
            for part in (), (most,), (least,), (most, least), (most, most, 1), (least, least, most, 1):
                window_total(is_within, x, *part)
            for part in (least,) * 63, (most,) * 64, (least,) * 64, range(-3 * ONE, 3 * ONE, 97003):
                window_total(is_within, x, *part)


def main():
    say(HEAD)
    reading()
    reading_windows()
    refusing_windows()
    reading_heights()
    evaluating()
    evaluating_windows()
    evaluating_words()
    first_slots()
    writing_rows()
    writing_window_rows()
    writing_pages()
    listing_rows()
    listing_windows()
    judging()
    judging_windows()
    of_every_kind()
    of_windows()
    of_heights()
    judging_errors()
    judging_stops()
    judging_sizes()
    judging_near()
    judging_untrue()
    judging_by_chance()
    looping_truths()
    refusing_loops()
    looping_rows()
    looping_pages()
    looping_judge()
    looping_errors()
    of_spin()
    of_spin_loops()
    largest()
    largest_loops()
    printing_rules()
    summing()
    for name, lines in ("stdin", CASES), ("stdout", PRINTED):
        write_or_check(f"crates/test_known/{name}", "".join(line + "\n" for line in lines))
    cases = [line for line in CASES if not line.startswith("#")]
    print(f"{len(cases)} cases, {len(''.join(CASES)) + len(CASES)} bytes, longest line {max(map(len, CASES))}")


if __name__ == "__main__":
    main()
