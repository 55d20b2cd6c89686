"""Runs programs and takes their processor time: what both benches share."""

import os
import statistics
import subprocess
import sys
import tempfile

HERE = os.path.dirname(os.path.abspath(__file__))
CRATES = os.path.join(HERE, "..", "crates")


def baseline():
    """Builds the plain Rust peer, and gives its path."""
    path = os.path.join(tempfile.mkdtemp(), "baseline")
    subprocess.run(["rustc", "-O", os.path.join(HERE, "baseline.rs"), "-o", path], check=True, stderr=subprocess.DEVNULL)
    return path


def cpu(words, source=None):
    """The processor time of a run, user's and system's, in ns. Its output goes through a pipe, as a shell's would."""
    with open(source or os.devnull, "rb") as file:
        child = subprocess.Popen(words, stdin=file, stdout=subprocess.PIPE, stderr=subprocess.DEVNULL)
        while os.read(child.stdout.fileno(), 65536):
            pass
        _, status, used = os.wait4(child.pid, 0)
        child.returncode = 0
    if status:
        sys.exit(f"{' '.join(words)}: ended with {status}")
    return (used.ru_utime + used.ru_stime) * 1e9


def instructions(words, source=None):
    """The instructions of a run, by valgrind; None where it isn't there."""
    with open(source or os.devnull, "rb") as file, tempfile.TemporaryDirectory() as work:
        try:
            run = subprocess.run(
                ["valgrind", "--tool=callgrind", f"--callgrind-out-file={work}/out", *words],
                stdin=file, stdout=subprocess.DEVNULL, stderr=subprocess.PIPE, text=True,
            )
        except FileNotFoundError:
            return None
    for line in run.stderr.splitlines():
        if "Collected" in line:
            return int(line.split(":")[1].strip().split()[0])
    return None


def machine():
    """One line on the machine."""
    with open("/proc/cpuinfo") as info:
        model = next((line.split(":")[1].strip() for line in info if line.startswith("model name")), "unknown")
    with open("/proc/loadavg") as load:
        return f"# {os.cpu_count()} processors, {model}, load {load.read().split()[0]}"


def medians(ours, peers):
    """Medians of both lists, and of the ratios of the runs that stood beside each other."""
    ratio = statistics.median(a / b for a, b in zip(ours, peers))
    return statistics.median(ours), statistics.median(peers), ratio
