#!/usr/bin/env python3
"""Plays 200,000 chains, the most that a queue may have, on small and large rings, in small and large windows, for both layouts and with
and without each feature, and compares each report with the one that the file orders: a row for each chain, and all drained.

It stands outside the gate: that a play ends is proved, and this tries the proved program at its largest. It wants the proved program, which
`rt run` in crates/vd_main or `rt ci` leaves, and takes a minute or two. It prints a line for each play with its processor time a chain,
and ends with status 1 where a report is another one.

usage: bench/drains.py [PROGRAM]
"""

import itertools
import os
import subprocess
import sys
import tempfile

from cpu import CRATES, cpu, machine

CHAINS = 200000
SIZES = (2, 256, 1024)
WINDOWS = (1, 16, 64)
# the chain texts with the length that the model device gives for each: the smaller of readable and writable bytes
TEXTS = ((99999, "r0+10 w64+20", 10), (1, "r7+3", 0), (100000, "r0+9 w64+5", 5))
WITH_TABLES = ((40000, "r0+1 r1+2 r3+4 w64+8 w72+16", 7), (60000, "w64+9", 0), (100000, "r0+9 w64+5", 5))


def ordered(texts):
    """The report that the texts order."""
    lens = [length for count, _, length in texts for _ in range(count)]
    rows = [f"queue 0 chains {CHAINS} bytes {sum(lens)}"] + [f"chain 0 {k} {length}" for k, length in enumerate(lens)]
    return "\n".join(rows + [f"epoch 0 0 pass 0 {CHAINS}", f"drained {CHAINS}", ""]).encode()


def main():
    program = sys.argv[1] if len(sys.argv) > 1 else os.path.join(CRATES, "vd_main", "out", "vd_main")
    if not os.path.exists(program):
        sys.exit("bench/drains.py: run 'rt run' in crates/vd_main first")
    print(machine())
    plays, failed = 0, 0
    with tempfile.TemporaryDirectory() as work:
        path = os.path.join(work, "machine.toml")
        for layout, size, window in itertools.product(("split", "packed"), SIZES, WINDOWS):
            for event_idx, indirect, in_order in itertools.product((False, True), repeat=3):
                names = [n for n, on in (("event_idx", event_idx), ("indirect", indirect), ("in_order", in_order)) if on]
                texts = WITH_TABLES if indirect else TEXTS
                with open(path, "w") as file:
                    file.write(f'layout = "{layout}"\nsize = {size}\nwindow = {window}\nregions = [{{ addr = 0, size = 4096 }}]\n')
                    file.write("features = [" + ", ".join(f'"{n}"' for n in names) + "]\n")
                    file.write("queues = [[" + ", ".join(f'"{count}*{text}"' for count, text, _ in texts) + "]]\n")
                with open(path, "rb") as file:
                    run = subprocess.run([program, "play"], stdin=file, capture_output=True)
                same = run.returncode == 0 and run.stdout == ordered(texts)
                plays, failed = plays + 1, failed + (not same)
                told = f"{cpu([program, 'play'], path) / CHAINS:.0f} ns a chain" if same else f"status {run.returncode}, ANOTHER REPORT"
                print(f"{layout}, size {size}, window {window}, {' '.join(names) or 'no feature'}: {told}", flush=True)
    print(f"{plays} plays of {CHAINS} chains, {failed} with another report")
    sys.exit(1 if failed else 0)


main()
