#!/usr/bin/env python3
"""Microseconds of processor time a kilobyte of one long command, at a quarter, half and all of the greatest length.

Usage: bench/reading.py [program]. Prints figures and fails nothing. Where reading costs linear time, the
figures of a line are alike.
"""
import resource
import subprocess

from common import program

GREATEST = 2**20
REPEATS = 5


def insert(size):
    """An INSERT of many tuples."""
    head = b"INSERT INTO m VALUES "
    row = b"(1234, 'text', -5, NULL)"
    rows = (size - len(head)) // (len(row) + 2)
    return head + b", ".join([row] * rows)


def conjunction(size):
    """A query whose condition is one long list of AND, with a list of OR in each operand."""
    head = b"SELECT a FROM m WHERE "
    operand = b"(a = 1 OR b <> 'x' OR c + 1 < $1)"
    operands = (size - len(head)) // (len(operand) + 5)
    return head + b" AND ".join([operand] * operands)


def targets(size):
    """A query with a long select list."""
    head = b"SELECT "
    target = b"count(a) AS n"
    return head + b", ".join([target] * ((size - len(head)) // (len(target) + 2)))


def processor_seconds(path, script):
    before = resource.getrusage(resource.RUSAGE_CHILDREN)
    subprocess.run([path], input=script, stdout=subprocess.DEVNULL, check=False)
    after = resource.getrusage(resource.RUSAGE_CHILDREN)
    return after.ru_utime - before.ru_utime + after.ru_stime - before.ru_stime


def best(path, script):
    return min(processor_seconds(path, script) for _ in range(REPEATS))


def main():
    path = program()
    idle = best(path, b"")
    for what in (insert, conjunction, targets):
        figures = []
        for size in (GREATEST // 4, GREATEST // 2, GREATEST):
            text = what(size)
            seconds = best(path, text) - idle
            figures.append(f"{len(text) / 1024:.0f} KiB: {seconds / len(text) * 1024 * 1e6:.2f} us a KiB")
        print(f"{what.__name__}: " + ", ".join(figures))


main()
