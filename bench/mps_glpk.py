#!/usr/bin/env python3
"""Times the toolkit's MPS page beside GLPK's own writer of fixed-column MPS, in one run.

    scripts/library && python3 bench/mps_glpk.py [ROUNDS]

Needs gcc and GLPK's library (Debian's package libglpk40). libsepia.a is taken from target/staticlib, or from the folder
that SEPIA_LIB_DIR names.

GLPK reads the toolkit's page, and the rows, variables and entries that it then holds are counted. What is timed:
  - sepia_mps, which works the rows out of the node table and writes the page to memory;
  - the same, and the page written to a file;
  - glp_write_mps, which writes the problem that GLPK holds to a file.
Files lie in memory (/dev/shm) where there is such a folder. The three take turns in each of ROUNDS rounds (15).
All are called by ctypes, which adds about a microsecond to each.
"""

import ctypes
import ctypes.util
import os
import subprocess
import sys
import tempfile
import time
from operator import truediv
from pathlib import Path
from statistics import median

LEAST = 2_000_000  # nanoseconds that one timing takes at least
DECK = 1  # GLP_MPS_DECK, the fixed columns
OFF = 0  # GLP_OFF
NODE_BYTES = 8
ROOM = 49_000_000  # more than the bytes of any page
SMALL = b"a0Ua1"
MEDIUM = b"G(a0&!a1>F(a2|a3))&(a4Ua5)Ua2>F(a3&a5)"
MIXED = b"G(a0&!a1>F[0,5](a2|a3))&G[1,12](a4>F[2,9]a5)&a4Ua2>F[3,20](a3|F[0,63]G[0,4]!a1)"


def chain(kind, a, b):
    """128 nodes, all but the first of one kind."""
    first = bytes([0x4E, 0x44, 1, 0, 0, 0, 0, 0])
    return first + b"".join(bytes([0x4E, 0x44, kind, node - 1, 0, a, b, node]) for node in range(1, 128))


# Untils: the most rows without windows. The widest windows of G: the most rows and the longest page of all.
LARGEST = chain(8, 0, 0)
LARGEST_WINDOWS = chain(10, 0, 63)


class Answer(ctypes.Structure):
    _fields_ = [("refusal", ctypes.c_uint32), ("value", ctypes.c_uint32)]

    def result(self):
        if self.refusal:
            sys.exit(f"refused {self.refusal}")
        return self.value


def load_sepia(folder):
    """The static library as a shared one."""
    top = Path(__file__).resolve().parent.parent
    archive = Path(os.environ.get("SEPIA_LIB_DIR", top / "target" / "staticlib"), "libsepia.a")
    shared = Path(folder, "libsepia.so")
    whole = ["-Wl,--whole-archive", archive, "-Wl,--no-whole-archive"]
    subprocess.run(["gcc", "-shared", "-o", shared, *whole], check=True)
    sepia = ctypes.CDLL(str(shared))
    bytes_in, bytes_out, size = ctypes.c_char_p, ctypes.c_void_p, ctypes.c_size_t
    sepia.sepia_read.argtypes = [bytes_in, size, size, bytes_out, size]
    sepia.sepia_mps.argtypes = [bytes_in, size, size, size, size, bytes_out, size]
    sepia.sepia_read.restype = sepia.sepia_mps.restype = Answer
    return sepia


def load_glpk():
    glpk = ctypes.CDLL(ctypes.util.find_library("glpk") or sys.exit("no GLPK library"))
    glpk.glp_version.restype = ctypes.c_char_p
    glpk.glp_create_prob.restype = ctypes.c_void_p
    for name in ("glp_read_mps", "glp_write_mps"):
        getattr(glpk, name).argtypes = [ctypes.c_void_p, ctypes.c_int, ctypes.c_void_p, ctypes.c_char_p]
    for name in ("glp_get_num_rows", "glp_get_num_cols", "glp_get_num_nz", "glp_delete_prob"):
        getattr(glpk, name).argtypes = [ctypes.c_void_p]
    glpk.glp_term_out(OFF)
    return glpk


def read(sepia, text, m):
    table = ctypes.create_string_buffer(128 * NODE_BYTES)
    nodes = sepia.sepia_read(text, len(text), m, table, len(table)).result()
    return table.raw[: NODE_BYTES * nodes]


def write_file(path, data):
    file = os.open(path, os.O_WRONLY | os.O_CREAT | os.O_TRUNC, 0o600)
    while data:
        data = data[os.write(file, data) :]
    os.close(file)


def counted(page):
    """The rows of a page but COST, which GLPK takes for the costs, its variables and its entries."""
    rows, rest = page.split(b"COLUMNS\n")
    entries, rest = rest.split(b"RHS\n", 1)
    bounds = rest.split(b"BOUNDS\n")[1]
    return rows.count(b"\n") - 3, bounds.count(b"\n") - 1, entries.count(b"\n") - entries.count(b"COST")


def per_call(call, calls):
    start = time.perf_counter_ns()
    for _ in range(calls):
        call()
    return (time.perf_counter_ns() - start) / calls


def calls_for(call):
    calls = 1
    while per_call(call, calls) * calls < LEAST:
        calls *= 2
    return calls


def measure(sides, rounds):
    """The nanoseconds of each side, a list by round. Who goes first takes turns."""
    calls = [calls_for(side) for side in sides]
    times = [[] for _ in sides]
    for turn in range(rounds):
        for place in range(len(sides)):
            side = (place + turn) % len(sides)
            times[side].append(per_call(sides[side], calls[side]))
    return times


def compare(sepia, glpk, folder, table, t, m, l, rounds):
    """A line of the printed table: bytes of both pages, microseconds of the three sides, GLPK over the other two."""
    out = ctypes.create_string_buffer(ROOM)
    own, others = os.path.join(folder, "own.mps"), os.path.join(folder, "glpk.mps").encode()
    call = lambda: sepia.sepia_mps(table, len(table), t, m, l, out, ROOM)
    call_and_file = lambda: write_file(own, memoryview(out)[: call().value])
    length = call().result()
    call_and_file()
    problem = glpk.glp_create_prob()
    if glpk.glp_read_mps(problem, DECK, None, own.encode()) != 0:
        sys.exit("GLPK does not read the page")
    found = tuple(count(problem) for count in (glpk.glp_get_num_rows, glpk.glp_get_num_cols, glpk.glp_get_num_nz))
    if found != counted(out.raw[:length]):
        sys.exit(f"GLPK holds {found} rows, variables and entries, and the page has {counted(out.raw[:length])}")
    of_sepia, with_file, of_glpk = measure(
        [call, call_and_file, lambda: glpk.glp_write_mps(problem, DECK, None, others)], rounds
    )
    glpk.glp_delete_prob(problem)
    micros = [f"{median(side) / 1000:.1f}" for side in (of_sepia, with_file, of_glpk)]
    ratios = [f"{median(map(truediv, of_glpk, side)):.2f}" for side in (of_sepia, with_file)]
    return " | ".join([str(length), str(os.path.getsize(others)), *micros, *ratios])


def main():
    rounds = int(sys.argv[1]) if sys.argv[1:] else 15
    memory = "/dev/shm" if os.path.isdir("/dev/shm") else None
    with tempfile.TemporaryDirectory(dir=memory) as files, tempfile.TemporaryDirectory() as built:
        sepia, glpk = load_sepia(built), load_glpk()
        where = "memory" if memory else "the temporary folder"
        print(f"Microseconds a call, medians of {rounds} rounds; files in {where}.")
        print(f"The ratios are GLPK {glpk.glp_version().decode()} over the toolkit in one round: their medians.")
        print()
        print("| input | bytes | GLPK's bytes | page | page and file | GLPK to file | over page | over page and file |")
        print("|---|---:|---:|---:|---:|---:|---:|---:|")
        for name, table, t, m, l in (
            ("small", read(sepia, SMALL, 2), 8, 2, 8),
            ("medium", read(sepia, MEDIUM, 6), 32, 6, 32),
            ("largest", LARGEST, 64, 16, 64),
            ("medium with windows", read(sepia, MIXED, 6), 32, 6, 32),
            ("largest with windows", LARGEST_WINDOWS, 64, 16, 64),
            ("medium, looped", read(sepia, MEDIUM, 6), 32, 6, 16),
            ("largest, looped", LARGEST, 64, 16, 1),
            ("medium with windows, looped", read(sepia, MIXED, 6), 32, 6, 16),
            ("largest with windows, looped", LARGEST_WINDOWS, 64, 16, 1),
        ):
            line = compare(sepia, glpk, files, table, t, m, l, rounds)
            print(f"| {name}: {len(table) // NODE_BYTES} nodes, T {t}, M {m}, L {l} | {line} |", flush=True)


if __name__ == "__main__":
    main()
