#!/usr/bin/env python3
"""Measures sheet_check, once it is built: run time, and instructions where valgrind is there (docs/BENCHMARK.md).

    python3 second/bench.py [RUNS]

A run time is that of a whole process, from its start to its end. Instructions are those of the program and its
loader, which no load on the machine changes.
"""
import os
import re
import shutil
import statistics
import subprocess
import sys
import time

import cases

TOP = os.path.dirname(os.path.dirname(os.path.abspath(__file__)))
PROGRAM = os.path.join(TOP, "crates", "sheet_check", "out", "sheet_check")


def inputs():
    largest = b"".join(cases.largest(cases.Chance(1)))
    latest = b"".join(cases.largest(cases.Chance(1), urn=True)[:-1])
    return [
        ("nothing", b""),
        ("the largest sheet in order", largest),
        ("4,096 times byte 0x54", b"\x54" * 4096),
        ("the largest sheet, then 0x54 up to 4,096 bytes", largest.ljust(4096, b"\x54")),
        ("the latest fault there is, then 0x54 up to 4,096 bytes", latest.ljust(4096, b"\x54")),
        ("the first 388 bytes of the largest sheet", largest[:388]),
        ("the first 776 bytes", largest[:776]),
        ("the first 1,164 bytes", largest[:1164]),
        ("the first 1,551 bytes", largest[:1551]),
    ]


def milliseconds(sheet):
    start = time.perf_counter()
    subprocess.run([PROGRAM], input=sheet, stdout=subprocess.DEVNULL, check=True)
    return 1000 * (time.perf_counter() - start)


def instructions(sheet):
    words = ["valgrind", "--tool=callgrind", "--callgrind-out-file=/dev/null", PROGRAM]
    run = subprocess.run(words, input=sheet, stdout=subprocess.DEVNULL, stderr=subprocess.PIPE, check=True)
    return int(re.search(rb"Collected : (\d+)", run.stderr).group(1))


def main(words):
    runs = int(words[0]) if words else 200
    if not os.path.exists(PROGRAM):
        sys.exit("bench.py: build it first, by ./check-sheet sheets/worked.sheet")
    counts = shutil.which("valgrind") is not None
    print("| Input | Bytes | Mean, ms | Least, ms | Instructions |")
    print("|---|---|---|---|---|")
    for name, sheet in inputs():
        times = [milliseconds(sheet) for _ in range(runs)]
        count = f"{instructions(sheet):,}" if counts else ""
        print(f"| {name} | {len(sheet):,} | {statistics.mean(times):.2f} | {min(times):.2f} | {count} |")


if __name__ == "__main__":
    main(sys.argv[1:])
