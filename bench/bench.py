#!/usr/bin/env -S python3 -B
"""Roots in a row on one stream, and lists of tokens: bench/bench.py [MEGABYTES]

Parses and prints texts of that many megabytes (10 if none is given) with the program of crates/irtext_bench, which `rt ci` or
`rt run` in that folder builds. One text of roots has newlines, one has none. Best of five runs; the start of the program is
subtracted, and if a text is printed its parsing too. Printing is done ten times in a run, so that it is not lost in the noise of
parsing. Then come lists of integers and of quoted texts that are parsed, a text that is printed between quotation marks, with a
plain copy of the same bytes for comparison, positions at the end of a text, and locations nested in one another a million deep. Last
come the instructions of an item, with its budget, counted by valgrind if it is installed (the program's reading of its input is
subtracted), and those of calls on graphs and names: they are the same on a busy machine."""
import os
import re
import shutil
import subprocess
import sys
import tempfile
import time

from shapes import SHAPES

HERE = os.path.dirname(os.path.abspath(__file__))
PROGRAM = os.path.join(HERE, "..", "crates", "irtext_bench", "out", "irtext_bench")
PRINTS = 10
LINES = "builtin.module @module_{} \n{{\n  \n}} !0\n\noutlined_attributes:\n!0 = @[<in-memory>: line: {}, column: 1], []\n"


def text(size, newlines):
    """A text of about so many bytes, and the number of its roots."""
    parts, length, roots = [], 0, 0
    while length < size:
        part = LINES.format(roots, roots + 1)
        parts.append(part if newlines else part.replace("\n", " "))
        length += len(parts[-1])
        roots += 1
    return "".join(parts), roots


def numbers(size):
    """A list of integers of about so many bytes."""
    return listed(size, lambda i: str((i * 7919) % 1000003 - 500000))


def strings(size):
    """A list of quoted texts of about so many bytes; each tenth has escapes."""
    return listed(size, lambda i: '"text number %d%s"' % (i, '\\n\\u{e9}' if i % 10 == 0 else ''))


def listed(size, item):
    """Items with commas between, of about so many bytes."""
    parts, length = [], 0
    while length < size:
        parts.append(item(len(parts)))
        length += len(parts[-1]) + 2
    return ", ".join(parts)


def prose(size):
    """A text of about so many bytes, with a quotation mark or a newline in each fiftieth."""
    line = 'a line of plain characters that need no escape, "\n'
    return line * (size // len(line))


def written(path, content):
    """Writes the content to the path."""
    with open(path, "w") as target:
        target.write(content)


def seconds(path, words):
    """The least wall time of five runs."""
    best = None
    for _ in range(5):
        with open(path, "rb") as source:
            start = time.perf_counter()
            subprocess.run([PROGRAM] + words, stdin=source, stdout=subprocess.DEVNULL, check=True)
            took = time.perf_counter() - start
        best = took if best is None else min(best, took)
    return best


# The C library copies and fills long runs of bytes by one instruction, which valgrind counts once for each byte; make it use others.
LOOPS = {"GLIBC_TUNABLES": ":".join("glibc.cpu.x86_rep_%sb_threshold=%d" % (it, 1 << 30) for it in ("movs", "stos"))}


def counted(path, words, tool, count, program=None):
    """The count of this tool of valgrind for a run, of another program if one is named, found in its output by a pattern."""
    with open(path, "rb") as source:
        run = subprocess.run(["valgrind"] + tool + [program or PROGRAM] + words, env={**os.environ, **LOOPS},
                             stdin=source, stdout=subprocess.DEVNULL, stderr=subprocess.PIPE, check=True)
    return int(re.search(count, run.stderr).group(1).replace(b",", b""))


def reading(path, word):
    """The instructions for parsing a text, less those for reading the program's input."""
    return instructions(path, [word]) - instructions(path, ["copied"])


def instructions(path, words):
    """The instructions of a run."""
    return counted(path, words, ["--tool=callgrind", "--callgrind-out-file=/dev/null"], rb"Collected : (\d+)")


def allocations(path, words):
    """The allocations of a run."""
    return counted(path, words, ["--tool=memcheck", "--leak-check=no"], rb"total heap usage: ([\d,]+) allocs")


def roots(count):
    """Roots with their sections."""
    return "".join(LINES.format(i, i + 1) for i in range(count))


def dictionary(count):
    """A root with a dictionary of so many entries."""
    entries = ", ".join("key_%d: builtin.integer <%d: si64>" % (i, i) for i in range(count))
    return "bench.note [%s]\n" % entries


def function(count):
    """A root with a function type of so many types."""
    return "builtin.func @f: builtin.function <(%s)->()>\n{\n}\n" % ", ".join(["builtin.integer si64"] * count)


def fused(count):
    """A root whose location is a list of so many positions, in 50 files."""
    places = ", ".join('"file_%d.txt": line: %d, column: %d' % (i % 50, i + 1, i % 80 + 1) for i in range(count))
    return "builtin.module @m\n{\n}!0\n\noutlined_attributes:\n!0 = @[fused[%s]], []\n" % places


# How locations are nested in one another: the text before the inner one, and the text after it.
NESTINGS = (
    ("under names", 'name: "a", loc: (', ")"),
    ("as callees", "callsite(", " at ?)"),
    ("as callers", "callsite(? at ", ")"),
    ("first in a row", "fused[", ", ?]"),
    ("last in a row", "fused[?, ", "]"),
)


def nested(count, front, back):
    """A root whose location is nested in so many others."""
    return "builtin.module @m\n{\n}!0\n\noutlined_attributes:\n!0 = @[%s?%s], []\n" % (front * count, back * count)


def quoted(count):
    """One quoted text of so many bytes."""
    return '"%s"' % ("a line of plain characters " * (count // 27 + 1))[:count]


# What is counted, the word of the program, the text of so many items, two numbers of items, and the budget of instructions for
# parsing an item, and for printing it if that is limited.
BUDGETS = (
    ("root with its section", "roots", roots, 2, 2002, 7000, 1800),
    ("entry of a dictionary", "roots", dictionary, 10, 10010, 3000, None),
    ("type in a function type", "roots", function, 10, 10010, 900, None),
    ("position in a fused location", "roots", fused, 100, 10100, 2100, None),
    ("byte of a quoted text", "strings", quoted, 1000, 1001000, 9, None),
)

# What is counted on graphs and names: the words of a run after `graphs`, those of a run without it, and how often it is done in the
# difference.
CALLS = (
    ("operation with a result and an operand, made and erased", "make 1 11000", "make 1 1000", 10000),
    ("the same among 1,000 operations", "make 1000 11000", "make 1000 1000", 10000),
    ("the same among 100,000 operations", "make 100000 11000", "make 100000 1000", 10000),
    ("the same among 1,000,000 operations", "make 1000000 11000", "make 1000000 1000", 10000),
    ("use that `replace_all_uses` moves", "replace 1000 10", "replace 1000 0", 20000),
    ("operation inside of a block that is erased", "erase 1000 10", "fill 1000 10", 10000),
    ("use of a known name", "uses 1000 10", "uses 1000 0", 10000),
    ("definition of a known name, and its end", "definitions 1000 11", "definitions 1000 1", 10000),
    ("new name", "names 10000 0", "texts 10000 0", 10000),
    ("region entered and left", "regions 100 110", "regions 100 10", 10000),
    ("use of a known name over a graph, with its look-up", "rounds 1000 10 define use", "rounds 1000 10 define skip", 10000),
    ("use of a known label", "rounds 1000 10 define_label use_label", "rounds 1000 10 define_label skip", 10000),
    ("definition of a known name", "rounds 1000 10 mention define", "rounds 1000 10 mention make", 10000),
    ("definition of a known label", "rounds 1000 10 mention define_label", "rounds 1000 10 mention make_block", 10000),
    ("definition of a new name", "rounds 10000 1 define", "rounds 10000 1 make", 10000),
    ("use of a new name, with its placeholder", "rounds 10000 1 use", "rounds 10000 1 skip", 10000),
    ("definition of a name that waits", "rounds 10000 1 use define", "rounds 10000 1 use make", 10000),
    ("use of a new label, with its placeholder", "rounds 10000 1 use_label", "rounds 10000 1 skip", 10000),
    ("definition of a label that waits", "rounds 10000 1 use_label define_label", "rounds 10000 1 use_label make_block", 10000),
    ("definition among 100,000 new names", "rounds 100000 1 define", "rounds 100000 1 make", 100000),
    ("definition among 100,000 new labels", "rounds 100000 1 define_label", "rounds 100000 1 make_block", 100000),
    ("use of one name that a definition moves, 100,000 of them", "repeated 100000 1 use_by define", "repeated 100000 1 use_by make", 100000),
    ("definition of one name in 10,000 scopes", "nested 10000 1 define", "nested 10000 1 make", 10000),
)


def print_positions(path, size):
    """The time of a position at the end of a text of so many bytes, which the program computes a million times."""
    for name, line in (("one line", "abcdefgh"), ("one line past ASCII", "abc\u00e4efg"), ("lines", "abcdefghi\n" * 4), ("lines past ASCII", "abc\u00e4efgh\n")):
        content = (line * (size // len(line.encode())))
        written(path, content)
        took = seconds(path, ["positions", "again"]) - seconds(path, ["positions"])
        print("Position at the end of %.1f MB, %s: %.0f ns" % (len(content.encode()) / 1e6, name, took * 1e3))


def print_depths(path, depth):
    """The time in which locations nested so deep in one another are parsed, printed and released with the default stack."""
    for name, front, back in NESTINGS:
        written(path, nested(depth, front, back))
        print("Locations %d deep, %s: %.2f s" % (depth, name, seconds(path, ["roots", "print"])))


def print_instructions(path):
    """The instructions and allocations of an item, with its budget: a count of many items less one of few."""
    print("| Item | instructions, read | at most | requests for memory | instructions, printed | at most |")
    print("|---|---|---|---|---|---|")
    for name, word, make, few, many, read_most, print_most in BUDGETS:
        counts = []
        for number in (few, many):
            written(path, make(number))
            printed = 0
            if word == "roots":
                printed = (instructions(path, [word] + ["print"] * PRINTS) - instructions(path, [word])) / PRINTS
            counts.append((reading(path, word), allocations(path, [word]), printed))
        read, requests, printed = ((last - first) / (many - few) for first, last in zip(*counts))
        print("| %s | %.1f | %d | %.2f | %s | %s |" % (
            name, read, read_most, requests, "%.1f" % printed if word == "roots" else "-", print_most or "-"))


def print_shapes(path):
    """The instructions of an operation, parsed and printed: for 6,400 more than 640, and for 64,000 more than those."""
    print("| Shape | read, of 6,400 | of 64,000 | printed, of 6,400 | of 64,000 |")
    print("|---|---|---|---|---|")
    for name, make in SHAPES:
        counts = []
        for number in (640, 7040, 71040):
            number -= number % (50 if name == "blocks" else 64)
            written(path, make(number))
            printed = instructions(path, ["roots", "print"]) - instructions(path, ["roots"])
            counts.append((number, reading(path, "roots"), printed))
        rates = [[(after[i] - before[i]) / (after[0] - before[0]) for before, after in zip(counts, counts[1:])] for i in (1, 2)]
        print("| %s | %.0f | %.0f | %.0f | %.0f |" % ((name,) + tuple(rates[0]) + tuple(rates[1])))


def print_calls(path):
    """The instructions and allocations of calls on graphs and names: a run with them less one without."""
    print("| Call | instructions | requests for memory |")
    print("|---|---|---|")
    for name, more, less, times in CALLS:
        took, asked = ((count(path, ["graphs"] + more.split()) - count(path, ["graphs"] + less.split())) / times
                       for count in (instructions, allocations))
        print("| %s | %.1f | %.2f |" % (name, took, asked))


def main():
    size = int(float(sys.argv[1]) * 1e6) if len(sys.argv) > 1 else 10_000_000
    print("| Text | MB | roots | read MB/s | printed MB/s | ns a root, read | ns a root, printed |")
    print("|---|---|---|---|---|---|---|")
    with tempfile.TemporaryDirectory() as folder:
        empty = os.path.join(folder, "empty")
        open(empty, "w").close()
        start = seconds(empty, ["roots"])
        for name, newlines in (("with newlines", True), ("one line", False)):
            content, roots = text(size, newlines)
            path = os.path.join(folder, "text")
            written(path, content)
            read = seconds(path, ["roots"]) - start
            printed = (seconds(path, ["roots"] + ["print"] * PRINTS) - start - read) / PRINTS
            megabytes = len(content) / 1e6
            print("| %s | %.1f | %d | %.0f | %.0f | %.0f | %.0f |" % (
                name, megabytes, roots, megabytes / read, megabytes / printed, read / roots * 1e9, printed / roots * 1e9))
        for name, make in (("numbers", numbers), ("strings", strings)):
            content = make(size)
            written(path, content)
            print("List of %s: %.0f MB/s read" % (name, len(content) / 1e6 / (seconds(path, [name]) - start)))
        content = prose(size)
        written(path, content)
        for name in ("quoted", "copied"):
            once = (seconds(path, [name] + ["again"] * PRINTS) - seconds(path, [name])) / PRINTS
            print("Text %s: %.0f MB/s" % (name, len(content) / 1e6 / once))
        print_positions(path, size)
        print_depths(path, 1_000_000)
        if shutil.which("valgrind"):
            print_instructions(path)
            print_shapes(path)
            print_calls(empty)


if __name__ == "__main__":
    main()
