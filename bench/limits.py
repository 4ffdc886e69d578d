#!/usr/bin/env python3
"""The limits of a session that are too long for a script of the gate: one inside, and one past with 54000.

Usage: bench/limits.py [program]. Ends with 1 where a limit is another one.
"""
import subprocess
import sys
from collections import Counter

from common import program

PAST = "ERROR:  54000: program limit exceeded"


def made(count, command, before=""):
    return before + "".join(command.format(i) + ";\n" for i in range(count))


def rows():
    values = ", ".join("($1)" for _ in range(1024))
    table = f"CREATE TABLE t (a integer);\nPREPARE p AS INSERT INTO t VALUES {values};\n"
    return table + "EXECUTE p(1);\n" * 1024 + "INSERT INTO t VALUES (1);\n"


# what is made, the script with one too many, the tag of each, and how many there may be
LIMITS = [
    ("schemas and objects", made(65_536, "CREATE SCHEMA s{}"), "CREATE SCHEMA", 65_535),
    ("statements", made(4097, "PREPARE p{} AS SELECT 1"), "PREPARE", 4096),
    ("cursors", made(4097, "DECLARE c{} CURSOR FOR SELECT 1", "BEGIN;\n"), "DECLARE CURSOR", 4096),
    ("savepoints", made(1025, "SAVEPOINT s{}", "BEGIN;\n"), "SAVEPOINT", 1024),
    ("live rows, by 1,024 an INSERT", rows(), "INSERT 0 1024", 1024),
]


def main():
    path = program()
    wrong = 0
    for what, script, tag, most in LIMITS:
        output = subprocess.run([path], input=script, capture_output=True, text=True, check=True).stdout
        lines = Counter(output.splitlines())
        good = lines[tag] == most and lines[PAST] == 1
        wrong += not good
        print(f"{what}: {lines[tag]}, then {lines[PAST]} refused{'' if good else ', which is wrong'}")
    sys.exit(1 if wrong else 0)


if __name__ == "__main__":
    main()
