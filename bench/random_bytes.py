#!/usr/bin/env python3
"""Random byte strings as scripts: whatever the bytes, the program ends with one of its statuses.

Usage: bench/random_bytes.py [program] [count] [seed]. Without words and with standard input and output
that don't fail, a run ends with status 0, 6 or 7, and nothing on standard error. Prints how many ended
with which status, and ends with 1 where a run ended otherwise.
"""
import collections
import random
import sys

from common import program, run_bytes

# the ends of a run over files: done, a command that isn't UTF-8, one or a script that is too long
ENDS = (0, 6, 7)

PIECES = [
    *"PREPARE p AS SELECT 7;|EXECUTE p;|EXECUTE|PREPARE|AS|SELECT|p|q|7|99999999999999999999|;".split("|"),
    *["'", "''", '"', '""', "--", "\n", "\r\n", "/*", "*/", "\\", "\\prepared", "$1", "$", "(", ")", "a;b"],
    *[" ", "\t", "\f", "\0", "é", "日", "!", "<>", "x" * 64, " " * 5000],
]


def raw(rng):
    """Any bytes."""
    return rng.randbytes(rng.randrange(200))


def ascii_bytes(rng):
    return bytes(rng.randrange(128) for _ in range(rng.randrange(300)))


def marks(rng):
    """The bytes that begin and end the parts of a script, and few others."""
    return bytes(rng.choices(b"';\"-/*\\\n p7", k=rng.randrange(400)))


def pieces(rng):
    """Pieces of commands, of quotes and of comments."""
    return "".join(rng.choices(PIECES, k=rng.randrange(60))).encode()


def broken_pieces(rng):
    """The same with some of the bytes changed, left out or put in."""
    script = bytearray(pieces(rng) * rng.randrange(1, 4))
    for _ in range(rng.randrange(1, 8)):
        at = rng.randrange(len(script) + 1)
        script[at : at + rng.randrange(3)] = rng.randbytes(rng.randrange(3))
    return bytes(script)


def long_command(rng):
    """A command about as long as one may be, after a few others."""
    filler = rng.choice([b" ", b"x", b"-", b"';'", b"/*", b'""'])
    size = 2**20 + rng.randrange(-20, 20)
    return pieces(rng) + b"\n;" + (filler * size)[:size] + rng.choice([b"", b";", b";EXECUTE p;"])


KINDS = [raw, ascii_bytes, marks, pieces, broken_pieces]


def script_of(rng, number):
    return long_command(rng) if number % 50 == 49 else KINDS[number % len(KINDS)](rng)


def main():
    path = program()
    count = int(sys.argv[2]) if len(sys.argv) > 2 else 2_000
    seed = int(sys.argv[3]) if len(sys.argv) > 3 else 1
    rng = random.Random(seed)
    ends, wrong = collections.Counter(), 0
    for number in range(count):
        script = script_of(rng, number)
        ran = run_bytes(path, script)
        ends[ran.status] += 1
        if ran.status not in ENDS or ran.errors:
            wrong += 1
            shown = script if len(script) < 400 else script[:400] + b".."
            print(f"script {number}: status {ran.status}, {ran.errors} bytes on standard error: {shown!r}")
    counts = ", ".join(f"{ends[it]} with status {it}" for it in sorted(ends))
    print(f"{count} random scripts of seed {seed}: {counts}; {wrong} ended otherwise than they may")
    return 1 if wrong else 0


sys.exit(main())
