#!/usr/bin/env python3
"""Seconds of many small commands: one statement executed often, with an argument too, and many statements.

Usage: bench/statements.py [program]. Prints figures and fails nothing.
"""
from common import program, run_bytes

EXECUTES = 100_000
STATEMENTS = 4_000  # below the most that a session is to keep


def one_statement():
    return b"PREPARE p AS SELECT 7;" + b"EXECUTE p;" * EXECUTES


def many_statements():
    prepares = (f"PREPARE p{i} AS SELECT {i};" for i in range(STATEMENTS))
    executes = (f"EXECUTE p{i};" for i in range(STATEMENTS))
    return "".join([*prepares, *executes]).encode()


def parameter():
    return b"PREPARE p AS SELECT $1 * 2 + 3;" + b"EXECUTE p(7);" * EXECUTES


def many_targets():
    targets = ", ".join(f"$1 + {i}" for i in range(64))
    return f"PREPARE p AS SELECT {targets};".encode() + b"EXECUTE p(7);" * (EXECUTES // 10)


def show(path, what, script, commands):
    ran = run_bytes(path, script)
    print(
        f"{what}: {ran.seconds:.3f} s, {ran.seconds / commands * 1e6:.2f} us a command, "
        f"peak {ran.peak / 2**20:.1f} MiB, status {ran.status}"
    )


def main():
    path = program()
    show(path, f"1 PREPARE, {EXECUTES:,} EXECUTE", one_statement(), 1 + EXECUTES)
    show(path, f"SELECT $1 * 2 + 3, {EXECUTES:,} EXECUTE", parameter(), 1 + EXECUTES)
    show(path, f"64 targets, {EXECUTES // 10:,} EXECUTE", many_targets(), 1 + EXECUTES // 10)
    what = f"{STATEMENTS:,} PREPARE, {STATEMENTS:,} EXECUTE"
    show(path, what, many_statements(), 2 * STATEMENTS)


main()
