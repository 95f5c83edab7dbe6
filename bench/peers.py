#!/usr/bin/env -S python3 -B
"""The program irtext compared with its peers, on texts of the same shape: bench/peers.py [PROGRAM]

Each parses a text and prints it. The output is the instructions of an operation, counted by valgrind (a count of many operations less
one of few, so the cost of the start is subtracted), and the nanoseconds of one, including the start, in a text of 100,000 operations:
best of three. PROGRAM is the built irtext, crates/irtext/out/irtext if none is named. A peer that is not installed is left out: Debian
has them in mlir-14-tools, llvm-14 (or llvm) and wabt. MLIR takes its generic form, in which an operation is written as in the canonical
form here."""
import os
import shutil
import subprocess
import sys
import tempfile
import time

from bench import HERE, LOOPS, counted, written
from shapes import DEPTH, PEERS, SHAPES

PROGRAM = os.path.join(HERE, "..", "crates", "irtext", "out", "irtext")
FEW, MANY, LARGE = 640, 7040, 102_400  # whole functions of 50 and towers of 64


def found(name):
    """The path of a peer, which may be installed under its version, as on Debian."""
    return next(filter(None, (shutil.which(name + it) for it in ("", "-14", "-22", "-21", "-20", "-19"))), None)


def of_shape(make, count, shape):
    """The text of about so many operations, and how many it has."""
    count -= count % (50 if shape == "blocks" else DEPTH)
    return make(count), count


def run(command, path, is_input):
    """Runs a command on a file, which is its input or its last word."""
    with open(path if is_input else os.devnull, "rb") as source:
        subprocess.run(command + ([] if is_input else [path]), stdin=source, stdout=subprocess.DEVNULL, stderr=subprocess.DEVNULL, check=True)


def instructions(command, path, is_input):
    """The instructions of such a run."""
    words = command[1:] + ([] if is_input else [path])
    source = path if is_input else os.devnull
    return counted(source, words, ["--tool=callgrind", "--callgrind-out-file=/dev/null"], rb"Collected : (\d+)", command[0])


def seconds(command, path, is_input):
    """The least wall time of three such runs."""
    times = []
    for _ in range(3):
        start = time.perf_counter()
        run(command, path, is_input)
        times.append(time.perf_counter() - start)
    return min(times)


def measured(command, make, shape, folder, is_input):
    """The instructions of an operation, and the nanoseconds of one in a large text."""
    path = os.path.join(folder, "text")
    counts = []
    for number in (FEW, MANY):
        text, number = of_shape(make, number, shape)
        written(path, text)
        counts.append((number, instructions(command, path, is_input)))
    text, number = of_shape(make, LARGE, shape)
    written(path, text)
    took = seconds(command, path, is_input)
    return (counts[1][1] - counts[0][1]) / (counts[1][0] - counts[0][0]), took / number * 1e9


def main(args):
    program = os.path.abspath(args[0] if args else PROGRAM)
    print("| Shape | Tool | instructions an operation | ns an operation of 100,000 |")
    print("|---|---|---|---|")
    with tempfile.TemporaryDirectory() as folder:
        for shape, make in SHAPES:
            rows = [("irtext", [program, "fmt"], make, True)]
            rows += [(name, [found(name), *words], form, False) for name, words, form in PEERS[shape] if found(name)]
            for name, command, form, is_input in rows:
                print("| %s | %s | %.0f | %.0f |" % (shape, name, *measured(command, form, shape, folder, is_input)), flush=True)


if __name__ == "__main__":
    main(sys.argv[1:])
