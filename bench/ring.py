#!/usr/bin/env python3
"""Times chains through a split and a packed ring beside a plain Rust program that makes the same accesses.

Each operation of both ends is stepped to its end, one access a step. The peers are ways of baseline.rs: `stepped` has chains of one
piece alone and ends that keep no more than they need; `gen1` and `gen3` have this project's interface, chains of one piece and of one
to three. In the rows that sleep each end arms once before a window of 16 chains and hears once in it; in those with tables chains of two
pieces or more go by a table. Processor time, less that of a
short run; medians of runs that alternate with the peer's. With valgrind on the machine, instructions a chain too. It tests nothing.

usage: bench/ring.py [ROUNDS]   (default 5; builds vd_ring_bench first)
"""

import os
import subprocess
import sys

from cpu import CRATES, baseline, cpu, instructions, machine, medians

WINDOW = 16
SIZE = 256
LONG = 40000
SHORT = 200


TOLD = {"": "", "flags": ", sleeps by flags", "index": ", sleeps by index", "tables": ", tables"}
OPTION = {"": [], "flags": ["sleep=flags"], "index": ["sleep=index"], "tables": ["tables=1"]}


def ours(program, layout, most, kind, rounds):
    return [program, layout, str(SIZE), str(rounds), str(most), *([kind] if kind else [])]


def peer(program, way, layout, kind, rounds):
    words = [program, way, "plain", layout, "runs=1", f"window={WINDOW}", f"size={SIZE}", f"chains={rounds * WINDOW}"]
    return words + OPTION[kind]


def a_chain(measure, words):
    """What a measure says of one chain: a long run less a short one."""
    long, short = measure(words(LONG)), measure(words(SHORT))
    return None if long is None or short is None else (long - short) / ((LONG - SHORT) * WINDOW)


def main():
    rounds = int(sys.argv[1]) if len(sys.argv) > 1 else 5
    folder = os.path.join(CRATES, "vd_ring_bench")
    subprocess.run(["rt", "run", "--", "split", "256", "1", "1"], cwd=folder, check=True, stdout=subprocess.DEVNULL, stderr=subprocess.DEVNULL)
    program, plain = os.path.join(folder, "out", "vd_ring_bench"), baseline()
    print(machine())
    rows = [(1, "stepped", ""), (1, "gen1", ""), (3, "gen3", ""), (1, "gen1", "flags"), (1, "gen1", "index"), (3, "gen3", "index"), (3, "gen3", "tables")]
    for layout in ("split", "packed"):
        for most, way, kind in rows:
            mine, theirs = [], []
            for _ in range(rounds):
                mine.append(a_chain(cpu, lambda n: ours(program, layout, most, kind, n)))
                theirs.append(a_chain(cpu, lambda n: peer(plain, way, layout, kind, n)))
            here, there, ratio = medians(mine, theirs)
            count = a_chain(instructions, lambda n: ours(program, layout, most, kind, n))
            other = a_chain(instructions, lambda n: peer(plain, way, layout, kind, n))
            told = "" if count is None or other is None else f", instructions {count:.0f} and {other:.0f}"
            name = f"{layout}, 1 to {most} pieces{TOLD[kind]}"
            print(f"{name}: {here:.1f} ns a chain, {way} {there:.1f} ns, ratio {ratio:.2f}{told}", flush=True)


main()
