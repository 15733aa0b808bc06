#!/usr/bin/env python3
"""How long `whopr resolve` and `whopr link` take, and how much memory, for objects that call one another.

  bench/jobs.py [RUNS]

Builds the proved program once, as `rt run` leaves it, or takes the one that WHOPR names. Each function calls one of the object before it,
so that all of them are needed, and each object declares what it calls. Prints for some numbers of objects and of functions in each the
least processor time of the whole command in some runs, with reading and writing, which other load disturbs least, and its peak of
resident memory. It is no gate.
"""
import os
import shlex
import subprocess
import sys
import tempfile

TOP = os.path.dirname(os.path.dirname(os.path.abspath(__file__)))
CRATE = os.path.join(TOP, "crates", "whopr")
SIZES = ((80, 50), (160, 50), (80, 125), (80, 249))


def text_of(place, functions):
    """The text of the object at a place, of so many functions."""
    lines = []
    for number in range(functions):
        called = "f%d_%d" % (place - 1, number)
        if place:
            lines.append("extern int %s (int a);" % called)
        lines += ["int f%d_%d (int a)" % (place, number), "{", "  int x;", "  x = %s;" % ("%s (a)" % called if place else "a"),
                  "  x = x + a;", "  return x;", "}"]
    return "\n".join(lines + [""])


def main_of(place, functions):
    """The text of an object whose `main` calls each function of the object at a place."""
    lines = ["extern int f%d_%d (int a);" % (place, number) for number in range(functions)]
    lines += ["int main ()", "{", "  int x;"] + ["  x = f%d_%d (%d);" % (place, number, number) for number in range(functions)]
    return "\n".join(lines + ["  return x;", "}", ""])


def run(program, words, folder):
    """The processor time of one run in milliseconds, and its peak of memory in MB."""
    child = subprocess.Popen(program + words, cwd=folder, stdout=subprocess.DEVNULL)
    _, status, usage = os.wait4(child.pid, 0)
    if status != 0:
        sys.exit("%s ended with %d" % (" ".join(words), os.waitstatus_to_exitcode(status)))
    return (usage.ru_utime + usage.ru_stime) * 1e3, usage.ru_maxrss / 1024


def make(program, folder, objects, functions):
    """Makes the objects and a job file of one link, and gives the objects' names."""
    names = []
    for place in range(objects):
        text = main_of(objects - 2, functions) if place == objects - 1 else text_of(place, functions)
        open(os.path.join(folder, "t.g"), "w").write(text)
        names.append("%d.o" % place)
        run(program, ["lgen", "t.g", names[-1]], folder)
    job = "link image r partitions 1 workers 1 growth 10 versions 4 objects %d" % objects
    open(os.path.join(folder, "jobs"), "w").write("\n".join(["batch 1 cache 1", job] + names + [""]))
    return names


def main():
    runs = int(sys.argv[1]) if len(sys.argv) > 1 else 5
    program = shlex.split(os.environ.get("WHOPR", ""))
    if not program:
        with tempfile.TemporaryDirectory() as folder:
            open(os.path.join(folder, "t.g"), "w").write("int main () { return 0; }\n")
            subprocess.run(["rt", "run", "--", "cc", os.path.join(folder, "t.g"), os.path.join(folder, "image")], cwd=CRATE, check=True,
                           stdout=subprocess.DEVNULL)
        program = [os.path.join(CRATE, "out", "whopr")]
    print("%8s %10s %12s %12s %10s %12s %10s" % ("objects", "functions", "bytes", "resolve ms", "peak MB", "link ms", "peak MB"))
    for objects, functions in SIZES:
        with tempfile.TemporaryDirectory() as folder:
            names = make(program, folder, objects, functions)
            size = sum(os.path.getsize(os.path.join(folder, name)) for name in names)
            resolved = [run(program, ["resolve", "r"] + names, folder) for _ in range(runs)]
            linked = [run(program, ["link", "jobs"], folder) for _ in range(runs)]
            print("%8d %10d %12d %12.0f %10.1f %12.0f %10.1f" % (
                objects, objects * functions, size, min(t for t, _ in resolved), max(m for _, m in resolved),
                min(t for t, _ in linked), max(m for _, m in linked)))


main()
