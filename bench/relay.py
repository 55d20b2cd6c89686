#!/usr/bin/env python3
"""Times chains of one piece through a relay between two rings of 256 places beside a plain Rust program that does so too: guest, relay and
device make one access each in turn, the device with a window of 4 and a journal (vd_relay_bench; baseline.rs's `shadow` with a journal,
which has split rings alone, and neither event words nor bells). Processor time, less that of a short run; medians of runs that alternate.
With valgrind on the machine, instructions a chain too. It tests nothing.

usage: bench/relay.py [ROUNDS]   (default 5; builds vd_relay_bench first)
"""

import os
import statistics
import subprocess
import sys

from cpu import CRATES, baseline, cpu, instructions, machine

LONG = 100
SHORT = 10
EACH = 1000


def a_chain(measure, words):
    """What a measure says of one chain: a long run less a short one, of so many thousands."""
    more, less = measure(words(LONG)), measure(words(SHORT))
    return None if more is None or less is None else (more - less) / ((LONG - SHORT) * EACH)


def main():
    rounds = int(sys.argv[1]) if len(sys.argv) > 1 else 5
    folder = os.path.join(CRATES, "vd_relay_bench")
    subprocess.run(["rt", "run", "--", "split", "1"], cwd=folder, check=True, stdout=subprocess.DEVNULL, stderr=subprocess.DEVNULL)
    ours = os.path.join(folder, "out", "vd_relay_bench")
    peer = baseline()
    ways = {
        "split": lambda n: [ours, "split", str(n)],
        "packed": lambda n: [ours, "packed", str(n)],
        "shadow split journal=1": lambda n: [
            peer, "shadow", "plain", "split", "runs=1", "window=4", "size=256", "journal=1", f"chains={n * EACH}",
        ],
    }
    print(machine())
    found = {way: [] for way in ways}
    for _ in range(rounds):
        for way, words in ways.items():
            found[way].append(a_chain(cpu, words))
    for way, words in ways.items():
        count = a_chain(instructions, words)
        told = "" if count is None else f", {count:.0f} instructions"
        print(f"{way}: {statistics.median(found[way]):.0f} ns a chain{told}")


main()
