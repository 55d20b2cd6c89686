#!/usr/bin/env python3
"""Times `vdpa play` on machine files with many chains beside a plain Rust program that does the same: baseline.rs, way `file`, reads the
file, steps ends with this project's interface, keeps journal and lists of the same size and writes the same report. The last rows stand beside
its way `stepped`, which has no file and no report: guest and device in turn make one access each, as the program's parties do. Plays of one shadow
epoch stand alone.

Processor time of whole runs, file and report included; medians of runs that alternate with the peer's. With valgrind on the machine,
instructions a chain too. It tests nothing, but that both outputs are equal.

usage: bench/play.py [ROUNDS]   (default 5; after `rt run` in crates/vd_main or `rt ci` has left the proved program)
"""

import os
import statistics
import subprocess
import sys
import tempfile

from cpu import CRATES, baseline, cpu, instructions, machine, medians


def by_count(layout, chains, window):
    """One text for so many chains of two pieces."""
    return (
        f'layout = "{layout}"\nsize = 256\nwindow = {window}\nregions = [{{ addr = 0, size = 4096 }}]\n'
        f'queues = [["{chains}*r0+10 w64+20"]]\n'
    )


def by_text(layout, chains):
    """A text for each chain of one piece."""
    texts = ",".join(f'"r{i % 10}+1"' for i in range(chains))
    return f'layout = "{layout}"\nsize = 256\nregions = [{{ addr = 0, size = 4096 }}]\nqueues = [[{texts}]]\n'


def by_one(layout, chains):
    """One text for so many chains of one piece."""
    return f'layout = "{layout}"\nsize = 256\nwindow = 16\nregions = [{{ addr = 0, size = 4096 }}]\nqueues = [["{chains}*r0+10"]]\n'


def shadowed(layout, chains):
    """One text for so many chains of one piece, all of them in one shadow epoch."""
    return by_one(layout, chains) + 'start = "shadow"\n'


def alone(program, layout, path, rounds):
    """Chains through a relay: processor time, instructions and the most memory, which grow with the chains and no faster."""
    for chains in (50000, 100000, 200000):
        with open(path, "w") as file:
            file.write(shadowed(layout, chains))
        words = [program, "play", "--brief"]
        times = [cpu(words, path) for _ in range(rounds)]
        count = instructions(words, path)
        told = "" if count is None else f", {count / chains:.0f} instructions a chain"
        print(f"{layout}, {chains} chains in a shadow epoch: {statistics.median(times) / chains:.0f} ns a chain{told}, {memory(words, path)} KiB", flush=True)


def memory(words, path):
    """The most memory that a run has had, in KiB."""
    with open(path, "rb") as file:
        child = subprocess.Popen(words, stdin=file, stdout=subprocess.DEVNULL)
        _, _, usage = os.wait4(child.pid, 0)
        child.returncode = 0
    return usage.ru_maxrss


def beside_steps(program, plain, layout, chains, path, rounds):
    """Single accesses of both programs: the processor time, and the instructions, of a chain."""
    with open(path, "w") as file:
        file.write(by_one(layout, chains))
    words = [plain, "stepped", "plain", layout, f"chains={chains}", "window=16", "journal=1", "runs=1"]
    mine, theirs = [], []
    for _ in range(rounds):
        mine.append(cpu([program, "play"], path) / chains)
        theirs.append(cpu(words) / chains)
    here, there, ratio = medians(mine, theirs)
    count, other = instructions([program, "play"], path), instructions(words)
    told = "" if count is None or other is None else f", instructions a chain {count / chains:.0f} and {other / chains:.0f}"
    print(f"{layout}, {chains} chains of one piece, beside `stepped`: {here:.0f} ns a chain, peer {there:.0f} ns, ratio {ratio:.2f}{told}", flush=True)


def main():
    rounds = int(sys.argv[1]) if len(sys.argv) > 1 else 5
    program, plain = os.path.join(CRATES, "vd_main", "out", "vd_main"), baseline()
    if not os.path.exists(program):
        sys.exit("bench/play.py: run 'rt run' in crates/vd_main first")
    print(machine())
    rows = [(f"{layout}, {n} chains by count, window 16", n, by_count(layout, n, 16)) for layout in ("split", "packed") for n in (50000, 200000)]
    rows += [(f"{layout}, 149780 chains by text", 149780, by_text(layout, 149780)) for layout in ("split", "packed")]
    with tempfile.TemporaryDirectory() as work:
        path = os.path.join(work, "machine.toml")
        for name, chains, text in rows:
            with open(path, "w") as file:
                file.write(text)
            outputs = []
            for words in ([program, "play"], [plain, "file"]):
                with open(path, "rb") as file:
                    outputs.append(subprocess.run(words, stdin=file, capture_output=True, check=True).stdout)
            same = "" if outputs[0] == outputs[1] else " (THE REPORTS DIFFER)"
            mine, theirs = [], []
            for _ in range(rounds):
                mine.append(cpu([program, "play"], path) / chains)
                theirs.append(cpu([plain, "file"], path) / chains)
            here, there, ratio = medians(mine, theirs)
            count, other = instructions([program, "play"], path), instructions([plain, "file"], path)
            told = "" if count is None or other is None else f", instructions a chain {count / chains:.0f} and {other / chains:.0f}"
            print(f"{name}: {here:.0f} ns a chain, peer {there:.0f} ns, ratio {ratio:.2f}{told}{same}", flush=True)
        for layout in ("split", "packed"):
            beside_steps(program, plain, layout, 200000, path, rounds)
            alone(program, layout, path, rounds)


main()
