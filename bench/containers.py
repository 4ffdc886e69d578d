#!/usr/bin/env python3
"""Nanoseconds of an operation in containers of 10^4, 10^5 and 10^6 entries.

Usage: bench/containers.py [CONTAINER..]. Builds the program of crates/container_bench where it isn't
built, and runs it over each container, or those that are named, and each count, each time twice, of
which the faster counts. Times have to stay near constant, or to grow with the logarithm of the count.
Prints figures and fails nothing.
"""
import os
import subprocess
import sys

from common import TOP

CRATE = os.path.join(TOP, "crates/container_bench")
PROGRAM = os.path.join(CRATE, "out/container_bench")
CONTAINERS = ("row_versions", "row_index", "plan_invalid")
COUNTS = (10**4, 10**5, 10**6)


def build():
    """Proves and builds the program, which then runs without words and does nothing."""
    subprocess.run(["rt", "run"], cwd=CRATE, check=True, stdout=subprocess.DEVNULL)


def measured(container, count):
    """The nanoseconds that each operation took, by its name."""
    ran = subprocess.run([PROGRAM, container, str(count)], capture_output=True, text=True)
    if ran.returncode:
        sys.exit(f"{container} {count}: status {ran.returncode}")
    times = {}
    for line in ran.stdout.splitlines():
        operation, done, seconds, nanos = line.split()
        if int(done) != count:
            print(f"{container} {operation}: {done} were done and not {count}")
        times[operation] = (int(seconds) * 10**9 + int(nanos)) / count
    return times


def faster(container, count):
    first, second = measured(container, count), measured(container, count)
    return {operation: min(first[operation], second[operation]) for operation in first}


def main():
    if not os.access(PROGRAM, os.X_OK):
        build()
    print(f"{'ns an operation':32}" + "".join(f"{count:>12,}" for count in COUNTS))
    for container in sys.argv[1:] or CONTAINERS:
        columns = [faster(container, count) for count in COUNTS]
        for operation in columns[0]:
            figures = "".join(f"{column[operation]:12.0f}" for column in columns)
            print(f"{container + ' ' + operation:32}" + figures)


main()
