#!/usr/bin/env python3
"""Seconds and memory of long scripts: of small commands, and of the longest that a script may have.

Usage: bench/script_sizes.py [program]. Each kind of script is run at 1/8 of 64 MiB and whole: the
peak of memory must not grow with the script. Prints figures and fails nothing.
"""
import tempfile

from common import program, run

WHOLE = 64 * 2**20
SMALL = b"EXECUTE p;\n"
# with its blanks, but not with its semicolon, a command of 2^20 bytes
LONGEST = b"EXECUTE" + b" " * (2**20 - 8) + b"p;"


def write_script(out, command, size):
    out.write(b"PREPARE p AS SELECT 7;")
    count = (size - out.tell()) // len(command)
    block = max(1, 2**20 // len(command))
    for at in range(0, count, block):
        out.write(command * min(block, count - at))
    out.flush()
    return out.tell()


def show(path, what, command):
    for size in (WHOLE // 8, WHOLE):
        with tempfile.TemporaryFile() as script:
            length = write_script(script, command, size)
            script.seek(0)
            ran = run(path, script)
        print(
            f"{what}, {length / 2**20:.1f} MiB: {ran.seconds:.2f} s, "
            f"{length / ran.seconds / 2**20:.1f} MiB a second, "
            f"peak {ran.peak / 2**20:.1f} MiB, status {ran.status}"
        )


def main():
    path = program()
    show(path, f"commands of {len(SMALL)} bytes", SMALL)
    show(path, "commands of 2^20 bytes", LONGEST)


main()
