"""The papers' words in Python, without the toolkit's code: node tables, truth, rows and pages, for the scripts beside it.

Slots count from 1 where they are handed over, as L is, and from 0 within. A function that takes L takes T for it where none is
given (request N8: with L equal to T everything is as it was)."""

import re
import sys
from collections import Counter
from functools import cache

sys.setrecursionlimit(10000)  # a bracket takes six calls of `parse`, and a text may open 1,024

SINGLE = {"!": 2, "F": 6, "G": 7}
WINDOW = {"F": 9, "G": 10}
DOUBLE = {">": 5, "|": 4, "&": 3, "U": 8}  # loosest first
ATOM, NOT, AND, OR, IMPLIES, EVENTUALLY, ALWAYS, UNTIL, WITHIN, THROUGHOUT = range(1, 11)
NUMBER = "0|[1-9][0-9]*"
RECORD = 8  # bytes of a node record
ONE = 1000000  # in millionths


class Fault(Exception):
    """The text is outside the grammar."""


def parse(text):
    """The nodes of a rule as (kind, left, right, a, b), in the order of the node table; a and b are of a window."""
    tokens = re.findall(r"a?[0-9]+|[^ ]", text)
    nodes = []

    def take(form):
        if not tokens or not re.fullmatch(form, tokens[0]):
            raise Fault(text)
        return tokens.pop(0)

    def node(kind, left, right=0, a=0, b=0):
        nodes.append((kind, left, right, a, b))
        return len(nodes) - 1

    def level(operators):
        if not operators:
            return single()
        left = level(operators[1:])
        if tokens and tokens[0] == operators[0]:
            operator = tokens.pop(0)
            return node(DOUBLE[operator], left, level(operators))
        return left

    def single():
        token = take(rf"[!FG(]|a({NUMBER})")
        if token == "(":
            inner = level("".join(DOUBLE))
            take(r"\)")
            return inner
        if token in WINDOW and tokens and tokens[0] == "[":
            _, a, _, b, _ = map(take, (r"\[", NUMBER, ",", NUMBER, r"\]"))
            return node(WINDOW[token], single(), 0, int(a), int(b))
        return node(SINGLE[token], single()) if token in SINGLE else node(ATOM, int(token[1:]))

    level("".join(DOUBLE))
    if tokens:
        raise Fault(text)
    return nodes


def reading(text, m, room):
    """The reader's refusal, the first that applies in the order of the checks, or the nodes."""
    if not 1 <= m <= 16:
        return 2
    if len(text) > 1024:
        return 3
    try:
        nodes = parse(text)
    except Fault:
        return 4
    checks = (
        (5, any(kind == ATOM and left >= m for kind, left, *_ in nodes)),
        (12, any(a > b or b > 63 for *_, a, b in nodes)),
        (6, len(nodes) > 128),
        (11, room < RECORD * len(nodes)),
    )
    return next((number for number, applies in checks if applies), nodes)


def slot_at(t, l, time):
    """The slot of a time: the times up to T are the slots, and after T comes L again."""
    return time if time < t else l - 1 + (time - t) % (t - l + 1)


def window_slots(t, l, slot, a, b):
    """The different slots that a window looks at, lowest first."""
    return sorted({slot_at(t, l, slot + offset) for offset in range(a, b + 1)})


def onwards(kind, p, q, ahead):
    """The truth of F, G or U at the first of these slots, where the others come after it, in this order."""
    if kind == EVENTUALLY:
        return any(p[k] for k in ahead)
    if kind == ALWAYS:
        return all(p[k] for k in ahead)
    return any(q[k] and all(p[j] for j in ahead[:before]) for before, k in enumerate(ahead))


def truth(nodes, atoms, l=None):
    """For each node its truth at each slot of the run that loops to L, where atoms[a] has the truths of atom a. A slot that comes at
    all comes within 2T times, so what holds at some or at every later time is found among these."""
    t = len(atoms[0])
    l = t if l is None else l
    ahead = [[slot_at(t, l, slot + later) for later in range(2 * t)] for slot in range(t)]
    truths = []
    for kind, left, right, a, b in nodes:
        p = atoms[left] if kind == ATOM else truths[left]
        q = None if kind == ATOM else truths[right]
        holds = {
            ATOM: lambda s: p[s],
            NOT: lambda s: not p[s],
            AND: lambda s: p[s] and q[s],
            OR: lambda s: p[s] or q[s],
            IMPLIES: lambda s: not p[s] or q[s],
            WITHIN: lambda s: any(p[k] for k in window_slots(t, l, s, a, b)),
            THROUGHOUT: lambda s: all(p[k] for k in window_slots(t, l, s, a, b)),
        }.get(kind, lambda s: onwards(kind, p, q, ahead[s]))
        truths.append([holds(slot) for slot in range(t)])
    return truths


def has_second(kind):
    """Request N8: whether a node of this kind has a second set of slacks V, where L is below T."""
    return kind in (EVENTUALLY, ALWAYS, UNTIL)


def second_truth(nodes, truths):
    """For each V, in node order, its truth at each slot t: that of its F, G or U with k kept to the slots t to T, where the parts
    have these truths."""
    slots = range(len(truths[0]))
    own = [(kind, truths[left], truths[right]) for kind, left, right, *_ in nodes if has_second(kind)]
    return [[onwards(kind, p, q, slots[slot:]) for slot in slots] for kind, p, q in own]


def slack_truth(nodes, atoms, l=None):
    """The truth of the slacks, in the order of their variables: the nodes, and where L is below T each V."""
    truths = truth(nodes, atoms, l)
    return truths + second_truth(nodes, truths) if l not in (None, len(atoms[0])) else truths


def run_atoms(m, run):
    """For each atom its truth at each slot of a run of numbers: bit a of a slot's number is that of atom a."""
    return [[number >> atom & 1 == 1 for number in run] for atom in range(m)]


def run_truth(nodes, m, run, l=None):
    return truth(nodes, run_atoms(m, run), l)


def truth_bytes(truths):
    """The scope paper's bytes, which the words replaced: 0 or 1 for node n and slot t at place n * T + t - 1."""
    return bytes(int(holds) for of_node in truths for holds in of_node)


def words(truths):
    """Request N5: one number of 64 bits for each node, bit t - 1 for slot t, zeros above."""
    return [sum(2 ** (t - 1) for t, holds in enumerate(of_node, 1) if holds) for of_node in truths]


def first_slot(word):
    """The lowest slot t with bit t - 1 set, or None."""
    return min((t for t in range(1, 65) if word & 2 ** (t - 1)), default=None)


def same_truth(old, new, t):
    """Whether bytes and words say the same for every node and slot, and the words are 0 above."""
    slots = [(node, slot) for node in range(len(new)) for slot in range(1, 65)]
    bit = lambda node, slot: new[node] // 2 ** (slot - 1) % 2
    byte = lambda node, slot: old[node * t + slot - 1] if slot <= t else 0
    return len(old) == len(new) * t and max(new) < 2**64 and all(bit(*at) == byte(*at) for at in slots)


def heights(nodes):
    """0 for an atom, otherwise 1 more than the highest child; a child that is not below its node, as no good table has it,
    is passed over."""
    found = []
    for kind, left, right, *_ in nodes:
        children = () if kind == ATOM else (left, right) if kind in DOUBLE.values() else (left,)
        found.append(max((found[child] + 1 for child in children if child < len(found)), default=0))
    return found


def table(nodes):
    """The records of nodes."""
    return b"".join(bytes([0x4E, 0x44, *node, height]) for node, height in zip(nodes, heights(nodes)))


def records_in(data):
    return [data[at : at + RECORD] for at in range(0, len(data), RECORD)]


def nodes_in(data):
    """The nodes of whole records: all but mark and height."""
    return [tuple(record[2:7]) for record in records_in(data)]


def good_record(record, number, m):
    """All but the height, which takes the records before."""
    if len(record) != RECORD or record[:2] != b"ND":
        return False
    kind, left, right, a, b, _ = record[2:]
    if kind in (WITHIN, THROUGHOUT):
        return left < number and right == 0 and a <= b <= 63
    own = {ATOM: left < m and right == 0, **dict.fromkeys(SINGLE.values(), left < number and right == 0)}
    own.update(dict.fromkeys(DOUBLE.values(), left < number and right < number))
    return own.get(kind, False) and a == b == 0


def good(data, m):
    records = records_in(data)
    if not 1 <= len(records) <= 128 or not all(good_record(record, number, m) for number, record in enumerate(records)):
        return False
    return [record[7] for record in records] == heights(nodes_in(data))


def refusal(t, m, data, l=None):
    """The first of the checks that all calls but read share, or None."""
    if not 1 <= t <= 64:
        return 1
    if not 1 <= m <= 16:
        return 2
    if l is not None and not 1 <= l <= t:
        return 13
    return None if good(data, m) else 7


def evaluation(t, m, data, run, room, l=None):
    """The evaluator's refusal, the first that applies, or the words; room is counted in words."""
    found = refusal(t, m, data, l)
    if found is not None:
        return found
    if len(run) != t or any(number >= 2**m for number in run):
        return 8
    nodes = nodes_in(data)
    return 11 if room < len(nodes) else words(run_truth(nodes, m, run, l))


def printed(nodes):
    """Request N9: the root as text without spaces and with the fewest brackets, or None where the text has more than 1,024 bytes.
    A level is 0 for Rule up to 3 for Until, and 4 for Single; brackets stand where a node is of a looser level than is wanted."""
    letters = {kind: letter for letter, kind in (*SINGLE.items(), *WINDOW.items())}
    signs = {kind: (level, sign) for level, (sign, kind) in enumerate(DOUBLE.items())}
    texts = []  # of each node, for each level that may be wanted
    for kind, left, right, a, b in nodes:
        level, sign = signs.get(kind, (4, None))
        if kind == ATOM:
            text = f"a{left}"
        elif sign is None:
            window = f"[{a},{b}]" if kind in WINDOW.values() else ""
            text = texts[left][4] and letters[kind] + window + texts[left][4]
        else:
            parts = texts[left][level + 1], texts[right][level]
            text = sign.join(parts) if all(parts) else None
        fits = text is not None and len(text) <= 1024
        texts.append([(text if wanted <= level else f"({text})") if fits else None for wanted in range(5)])
    return texts[-1][0]


def unshared(nodes):
    """The nodes that the reader writes for the root's rule: a shared part at each use, and no part that the root does not use."""
    found = []

    def put(number):
        kind, left, right, a, b = nodes[number]
        if kind != ATOM:
            left = put(left)
            right = put(right) if kind in DOUBLE.values() else 0
        found.append((kind, left, right, a, b))
        return len(found) - 1

    put(len(nodes) - 1)
    return found


def brackets_needed(text):
    """Whether the text reads otherwise, or not at all, without any one of its pairs of brackets."""
    opened = []
    for place, character in enumerate(text):
        if character == "(":
            opened.append(place)
        elif character == ")":
            first = opened.pop()
            try:
                if parse(text[:first] + text[first + 1 : place] + text[place + 1 :]) == parse(text):
                    return False
            except Fault:
                pass
    return True


def printing(m, data, room):
    """The printer's refusal, the first in its own order of checks, or the text."""
    if not 1 <= m <= 16:
        return 2
    if not good(data, m):
        return 7
    text = printed(nodes_in(data))
    if text is None:
        return 3
    return 11 if room < len(text) else text


# The rows at a slot as the scope paper has them; LAST are those at slot T.
ROWS = {
    ATOM: "P - p = 0",
    NOT: "P + p = 1",
    AND: "p - P >= 0; q - P >= 0; P - p - q >= -1",
    OR: "P - p >= 0; P - q >= 0; p + q - P >= 0",
    IMPLIES: "P + p >= 1; P - q >= 0; q - p - P >= -1",
    EVENTUALLY: "P - p >= 0; P - P' >= 0; p + P' - P >= 0",
    ALWAYS: "p - P >= 0; P' - P >= 0; P - p - P' >= -1",
    UNTIL: "P - q >= 0; p + q - P >= 0; q + P' - P >= 0; P - p - P' >= -1",
}
LAST = {**ROWS, EVENTUALLY: "P - p = 0", ALWAYS: "P - p = 0", UNTIL: "P - q = 0"}


def window_rows(kind, own, parts):
    """The rows of a window at a slot, where own is P and parts are the p(s)."""
    if kind == WITHIN:
        each = [(">=", 0, [(1, own), (-1, part)]) for part in parts]
        return [*each, (">=", 0, [*((1, part) for part in parts), (-1, own)])]
    each = [(">=", 0, [(1, part), (-1, own)]) for part in parts]
    return [*each, (">=", -(len(parts) - 1), [(1, own), *((-1, part) for part in parts)])]


@cache
def written(row):
    """The relation, the right side and the terms, as (coefficient, place), of a row of the paper."""
    terms, relation, right = re.fullmatch(r"(.*) (>?=) (-?\d+)", row).groups()
    signed = re.findall(r"([+-]?) ?([Ppq]'?)", terms)
    return relation, int(right), [(-1 if sign == "-" else 1, place) for sign, place in signed]


def row_over(row, variables):
    relation, right, terms = written(row)
    return relation, right, [(coefficient, variables[place]) for coefficient, place in terms]


def seconds(nodes, t, m, l):
    """By node that has a V the variable of its V at slot 1: V is numbered on after the nodes, in node order. None where L is T."""
    owners = [number for number, (kind, *_) in enumerate(nodes) if has_second(kind)]
    return {} if l in (None, t) else {number: (m + len(nodes) + j) * t for j, number in enumerate(owners)}


def variable_count(nodes, t, m, l=None):
    return (m + len(nodes)) * t + len(seconds(nodes, t, m, l)) * t


def slack_rows(nodes, t, m, number, l=None):
    """The rows of each slack of a node, by its variable: a row as (relation, right side, terms), a term as (coefficient, variable).
    Those of V, by slot, stand before those of P. V has the rows that P had before request N8; P then has the rows for t < T at
    every slot, and at T its P' is V at L."""
    kind, left, right, a, b = nodes[number]
    own, p, q = (m + number) * t, (left if kind == ATOM else m + left) * t, (m + right) * t
    if kind in (WITHIN, THROUGHOUT):
        looked_at = [window_slots(t, t if l is None else l, slot, a, b) for slot in range(t)]
        return {own + slot: window_rows(kind, own + slot, [p + s for s in slots]) for slot, slots in enumerate(looked_at)}
    second = seconds(nodes, t, m, l).get(number)
    found = {}
    for first, after_last in [(own, None)] if second is None else [(second, None), (own, second + l - 1)]:
        for slot in range(t):
            after = first + slot + 1 if slot < t - 1 else after_last
            variables = {"P": first + slot, "P'": after, "p": p + slot, "q": q + slot}
            found[first + slot] = [row_over(row, variables) for row in (LAST if after is None else ROWS)[kind].split("; ")]
    return found


def rows(nodes, t, m, l=None):
    """All rows, in the order of the paper."""
    slacks = [of_slack for number in range(len(nodes)) for of_slack in slack_rows(nodes, t, m, number, l).values()]
    return [*(row for of_slack in slacks for row in of_slack), row_over("P = 1", {"P": (m + len(nodes) - 1) * t})]


def error_figures(nodes, t, m, e, l=None):
    """Request N7: by variable its error figure. The parts of a node are below it, P' is a slot later, and at T it is of the node's V,
    whose variables come after: so nodes in number order, and the slacks of one from the last, find the figures that they count."""
    figures = [e] * (m * t) + [None] * (variable_count(nodes, t, m, l) - m * t)
    for number in range(len(nodes)):
        for own, found in sorted(slack_rows(nodes, t, m, number, l).items(), reverse=True):
            most = Counter()  # how often each variable stands in that row where it stands most often
            for _, _, terms in found:
                most |= Counter(variable for _, variable in terms)
            others = sum(count * figures[variable] for variable, count in most.items() if variable != own)
            figures[own] = min(ONE, e + others)
    return figures


def record(row):
    relation, right, terms = row
    data = [0x52, 0x57, {">=": 1, "=": 2}[relation], len(terms), right % 256]
    for coefficient, variable in terms:
        data += [coefficient % 256, variable % 256, variable // 256]
    return bytes(data)


def verdict(nodes, t, m, figures, e, l=None):
    """The judge's verdict, in words."""
    for variable, figure in enumerate(figures):
        if not -e <= figure <= ONE + e:
            return f"outside {variable}"
    for variable, figure in enumerate(figures[: m * t]):
        if abs(figure) > e and abs(figure - ONE) > e:
            return f"not binary {variable}"
    found = rows(nodes, t, m, l)
    for number, (relation, right, terms) in enumerate(found):
        short = right * ONE - sum(coefficient * figures[variable] for coefficient, variable in terms)
        short = abs(short) if relation == "=" else short
        if short > e:
            return f"broken {number} shortfall {short}"
    return f"passed {len(found)} error {error_figures(nodes, t, m, e, l)[(m + len(nodes) - 1) * t]}"


def judgement(t, m, data, figures, e, l=None):
    """The judge's refusal, the first that applies, or the verdict."""
    found = refusal(t, m, data, l)
    if found is not None:
        return found
    nodes = nodes_in(data)
    if len(figures) != variable_count(nodes, t, m, l):
        return 9
    return verdict(nodes, t, m, figures, e, l) if 0 <= e <= 1000 else 10


def rounded(t, m, figures):
    """The run made by rounding each atom to the nearer of 0 and 1,000,000: for each atom its truth at each slot."""
    return [[abs(figure - ONE) < abs(figure) for figure in figures[atom * t : atom * t + t]] for atom in range(m)]


def row_text(row):
    """A row as rowlist prints it behind its number."""
    relation, right, terms = row
    return " ".join([relation, str(right), *(f"{'+' if c > 0 else '-'}{v}" for c, v in terms)])


def listing(nodes, t, m):
    """What rowlist prints."""
    found = rows(nodes, t, m)
    lines = [f"rows {len(found)} vars {variable_count(nodes, t, m)}", *(f"{i} {row_text(row)}" for i, row in enumerate(found))]
    return "".join(line + "\n" for line in lines)


class Model:
    """rows: by name the type (G or E), the right side and the coefficients that are not 0 by variable;
    limits: by variable the least, the largest, and whether it is whole."""

    def __init__(self):
        self.rows, self.limits = {}, {}


def expected_model(nodes, t, m, l=None):
    model = Model()
    for i, (relation, right, terms) in enumerate(rows(nodes, t, m, l)):
        sums = Counter()
        for coefficient, variable in terms:
            sums[f"X{variable}"] += coefficient
        coefficients = {name: value for name, value in sums.items() if value != 0}
        model.rows[f"R{i}"] = ("E" if relation == "=" else "G", right, coefficients)
    for variable in range(variable_count(nodes, t, m, l)):
        model.limits[f"X{variable}"] = (0, 1, variable < m * t)
    return model


def expected_page(model):
    def line(*fields):
        text = ""
        for column, field in zip((2, 5, 15, 25), fields):
            text = text.ljust(column - 1) + str(field) if field != "" else text
        return text

    entries = {variable: [] for variable in model.limits}
    for row, (_, _, coefficients) in model.rows.items():
        for variable, coefficient in coefficients.items():
            entries[variable].append((row, coefficient))
    lines = ["NAME", "ROWS", line("N", "COST")]
    lines += [line(kind, row) for row, (kind, _, _) in model.rows.items()]
    lines += ["COLUMNS"]
    for variable, of_rows in entries.items():
        lines += [line("", variable, *entry) for entry in of_rows or [("COST", 0)]]
    lines += ["RHS"]
    lines += [line("", "RHS", row, right) for row, (_, right, _) in model.rows.items() if right != 0]
    lines += ["BOUNDS"]
    for variable, (_, _, whole) in model.limits.items():
        lines += [line("BV", "BND", variable) if whole else line("UP", "BND", variable, 1)]
    lines += ["ENDATA"]
    return "".join(text + "\n" for text in lines)
