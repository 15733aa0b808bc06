#!/usr/bin/env python3
"""How long `whopr cc` takes, and how much memory, for mains of 10, 1,000 and 7,280 calls of putchar.

  bench/cc.py [RUNS]

Builds the proved program once, as `rt run` leaves it, and prints for each count the median time of the whole command and
its peak of resident memory. It is no gate.
"""
import os
import statistics
import subprocess
import sys
import tempfile
import time

TOP = os.path.dirname(os.path.dirname(os.path.abspath(__file__)))
CRATE = os.path.join(TOP, "crates", "whopr")


def run(words, folder):
    """The time of one run in milliseconds, and its peak of memory in MB."""
    start = time.perf_counter()
    child = subprocess.Popen(words, cwd=folder)
    _, status, usage = os.wait4(child.pid, 0)
    taken = (time.perf_counter() - start) * 1e3
    if status != 0:
        sys.exit("%s ended with %d" % (" ".join(words), os.waitstatus_to_exitcode(status)))
    return taken, usage.ru_maxrss / 1024


def main():
    runs = int(sys.argv[1]) if len(sys.argv) > 1 else 21
    program = os.path.join(CRATE, "out", "whopr")
    with tempfile.TemporaryDirectory() as folder:
        text = os.path.join(folder, "text.g")
        open(text, "w").write("int main () { return 0; }\n")
        subprocess.run(["rt", "run", "--", "cc", text, os.path.join(folder, "image")], cwd=CRATE, check=True,
                       stdout=subprocess.DEVNULL)
        print("%8s %12s %12s %10s" % ("calls", "bytes", "median ms", "peak MB"))
        for calls in (10, 1000, 7280):
            lines = ["  __builtin_putchar (%d);" % (call * 37 % 4096) for call in range(calls)]
            open(text, "w").write("\n".join(["int main () {"] + lines + ["  return 0;", "}", ""]))
            taken = [run([program, "cc", "text.g", "image"], folder) for _ in range(runs)]
            print("%8d %12d %12.2f %10.1f" % (calls, os.path.getsize(text), statistics.median(t for t, _ in taken),
                                              max(m for _, m in taken)))


main()
