#!/usr/bin/env python3
"""Times chains through a ring in a table of atomic words, beside the same ends over plain words and a plain Rust program.

One thread: whole operations of both ends in turn, windows of 16 chains of one piece, ring of 256: over seats, over plain words
(vd_ring_bench), and baseline.rs's `stepped` and `gen1` over SeqCst words. Processor time, less that of a short run; medians of runs
that alternate. Two threads: each end on its own thread, waiting by yielding, beside baseline.rs's `run`; elapsed time. With valgrind
on the machine, instructions a chain too. It tests nothing.

usage: bench/seats.py [ROUNDS]   (default 5; builds vd_seat_bench and vd_ring_bench first)
"""

import os
import statistics
import subprocess
import sys
import time

from cpu import CRATES, baseline, cpu, instructions, machine

WINDOW = 16
SIZE = 256
LONG = 40000
SHORT = 200
CHAINS = 200000
FEW = 2000


def build(crate, words):
    """Builds a crate's program, and gives its path."""
    folder = os.path.join(CRATES, crate)
    subprocess.run(["rt", "run", "--", *words], cwd=folder, check=True, stdout=subprocess.DEVNULL, stderr=subprocess.DEVNULL)
    return os.path.join(folder, "out", crate)


def peer(program, way, words, layout, chains, wait=()):
    return [program, way, words, layout, "runs=1", f"window={WINDOW}", f"size={SIZE}", f"chains={chains}", *wait]


def elapsed(words):
    """The time that a run takes, in ns."""
    start = time.monotonic()
    subprocess.run(words, check=True, stdout=subprocess.DEVNULL, stderr=subprocess.DEVNULL)
    return (time.monotonic() - start) * 1e9


def a_chain(measure, words, long, short):
    """What a measure says of one chain: a long run less a short one; the numbers are chains."""
    more, less = measure(words(long)), measure(words(short))
    return None if more is None or less is None else (more - less) / (long - short)


def row(name, measure, ways, long, short, rounds, counted):
    """Runs the ways in turn, and prints the median of each, and its instructions a chain."""
    found = {way: [] for way in ways}
    for _ in range(rounds):
        for way, words in ways.items():
            found[way].append(a_chain(measure, words, long, short))
    told = []
    for way, words in ways.items():
        count = a_chain(instructions, words, long // 10, short) if counted else None
        told.append(f"{way} {statistics.median(found[way]):.1f} ns" + ("" if count is None else f" {count:.0f} instructions"))
    print(f"{name}: {', '.join(told)}", flush=True)


def main():
    rounds = int(sys.argv[1]) if len(sys.argv) > 1 else 5
    seats, plain, other = build("vd_seat_bench", ["split", "1"]), build("vd_ring_bench", ["split", "256", "1", "1"]), baseline()
    print(machine())
    for layout in ("split", "packed"):
        row(f"{layout}, one thread", cpu, {
            "seats": lambda n: [seats, layout, str(n // WINDOW)],
            "plain words": lambda n: [plain, layout, str(SIZE), str(n // WINDOW), "1"],
            "stepped seqcst": lambda n: peer(other, "stepped", "seqcst", layout, n),
            "gen1 seqcst": lambda n: peer(other, "gen1", "seqcst", layout, n),
        }, LONG * WINDOW, SHORT * WINDOW, rounds, True)
        row(f"{layout}, two threads", elapsed, {
            "seats": lambda n: [seats, f"two-{layout}", str(n)],
            "run seqcst": lambda n: peer(other, "run", "seqcst", layout, n, ("wait=yield",)),
        }, CHAINS, FEW, rounds, False)


main()
