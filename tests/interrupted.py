"""Interrupts the program in the middle of its reads and of its writes, and compares what it does with an undisturbed run.

Input and output are sockets with a time limit: there Linux ends a read or a write that waits with EINTR, or with a short
count, when the process is stopped and goes on. `tests/program.sh` calls it with the path of the built program.
"""

import signal
import socket
import struct
import subprocess
import sys
import threading
import time
from pathlib import Path

PROGRAM = sys.argv[1]
SECONDS = 60
# A file whose canonical text and whose report are each longer than what the program writes at once.
CHAINS = 9000
FILE = f"""layout = "split"
size = 4
regions = [{{ addr = 4096, size = 8192 }}]
queues = [[{", ".join(['"r4096+10"', '"w8192+64"'] * (CHAINS // 2))}]]
""".encode()


def wait_for(process, states):
    """Waits until the process is in one of these states of /proc, and answers which; an ended process is Z."""
    end = time.monotonic() + SECONDS
    while time.monotonic() < end:
        found = Path(f"/proc/{process.pid}/stat").read_text().rpartition(")")[2].split()[0]
        if found in states:
            return found
        time.sleep(0.002)
    raise TimeoutError(f"the process is never in one of the states {states}")


def interrupt(process):
    """Waits until the process sleeps in its read or write, stops it there, and lets it go on."""
    if wait_for(process, "SZ") == "Z":
        return
    process.send_signal(signal.SIGSTOP)
    wait_for(process, "TZ")
    process.send_signal(signal.SIGCONT)
    wait_for(process, "SRZ")
    time.sleep(0.02)


def pair(option):
    """Two ends of a socket. The first, which the process gets, has a time limit and little room."""
    ours, theirs = socket.socketpair()
    theirs.setsockopt(socket.SOL_SOCKET, option, struct.pack("ll", SECONDS, 0))
    theirs.setsockopt(socket.SOL_SOCKET, socket.SO_SNDBUF, 4096)
    return theirs, ours


def drain(end, into):
    while piece := end.recv(1000):
        into.append(piece)


def run(words, source):
    """Runs the program by interrupts at each end, and answers its status, its output and its text."""
    theirs_in, ours_in = pair(socket.SO_RCVTIMEO)
    theirs_out, ours_out = pair(socket.SO_SNDTIMEO)
    process = subprocess.Popen([PROGRAM, *words], stdin=theirs_in, stdout=theirs_out, stderr=subprocess.PIPE)
    theirs_in.close()
    theirs_out.close()
    try:
        for at in range(0, len(source), len(source) // 3):
            interrupt(process)
            interrupt(process)
            ours_in.sendall(source[at : at + len(source) // 3])
        interrupt(process)
        ours_in.shutdown(socket.SHUT_WR)
        # The output has no room, and nobody reads it yet: the first interrupt may make a write short, the others end it.
        for _ in range(4):
            interrupt(process)
        output = []
        reader = threading.Thread(target=drain, args=(ours_out, output), daemon=True)
        reader.start()
        text = process.communicate(timeout=SECONDS)[1]
        reader.join(SECONDS)
        return process.returncode, b"".join(output), text
    except BrokenPipeError:
        text = process.communicate(timeout=SECONDS)[1]
        return process.returncode, b"", text
    finally:
        process.kill()


failed = False
for words in (["check"], ["play"], ["play", "--brief"]):
    plain = subprocess.run([PROGRAM, *words], input=FILE, capture_output=True, timeout=SECONDS)
    wanted = (0, plain.stdout, b"")
    if (plain.returncode, plain.stderr) != (0, b"") or (len(words) == 1 and len(plain.stdout) <= 65536):
        failed = True
        print(f"{words}, undisturbed: status {plain.returncode}, {len(plain.stdout)} bytes, the text {plain.stderr}")
    found = run(words, FILE)
    if found != wanted:
        failed = True
        print(f"{words}, interrupted: status {found[0]}, {len(found[1])} bytes of {len(plain.stdout)}, the text {found[2]}")
sys.exit(failed)
