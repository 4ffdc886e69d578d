#!/usr/bin/env python3
"""Times of tables, plans and cursors, each beside the same work in SQLite by Python's module, where it is there.

Usage: bench/tables.py [program]. Prints figures and fails nothing. A time is what a script takes above the same script
without the measured commands, the best of three.
"""
import time

from common import program, run_bytes

try:
    import sqlite3
except ImportError:
    sqlite3 = None

ROWS = 20_000
MANY = 100_000


def seconds(path, script):
    return min(run_bytes(path, script.encode()).seconds for _ in range(3))


def above(path, setup, measured):
    return max(seconds(path, setup + measured) - seconds(path, setup), 0.0)


def in_sqlite(setup, measured):
    """Seconds of the measured statements behind the setup; a statement is a text, or a text with its rows of values."""
    if sqlite3 is None:
        return None
    best = None
    for _ in range(3):
        with sqlite3.connect(":memory:") as base:
            base.executescript(setup)
            begun = time.perf_counter()
            for statement in measured:
                if isinstance(statement, str):
                    base.execute(statement).fetchall()
                else:
                    for values in statement[1]:
                        base.execute(statement[0], values).fetchall()
            taken = time.perf_counter() - begun
        best = taken if best is None else min(best, taken)
    return best


def show(what, ours, theirs, count, unit):
    """Prints a time for each of so many, in microseconds or whole in milliseconds."""
    scale, name = (1e6 / count, "us") if unit == "each" else (1e3, "ms")
    beside = "" if theirs is None else f", SQLite {theirs * scale:.2f} {name}, ratio {ours / theirs:.2f}"
    print(f"{what}: {ours * scale:.2f} {name}{beside}")


def inserts(table, rows, columns):
    lines = []
    for first in range(0, rows, 1000):
        values = ", ".join("(" + ", ".join(c(i) for c in columns) + ")" for i in range(first, min(first + 1000, rows)))
        lines.append(f"INSERT INTO {table} VALUES {values};\n")
    return "".join(lines)


def whole(i):
    return str(i)


def hundredth(i):
    return str(i % 100)


def text(i):
    return f"'row {i}'"


def load(path):
    setup = "CREATE TABLE t (id integer PRIMARY KEY, a integer, b text);\n"
    rows = inserts("t", ROWS, [whole, hundredth, text])
    show("20,000 rows in 20 INSERTs", above(path, setup, rows), in_sqlite(setup, rows.strip().split("\n")), 1, "whole")


def by_key(path):
    setup = "CREATE TABLE t (id integer PRIMARY KEY, a integer, b text);\n" + inserts("t", ROWS, [whole, hundredth, text])
    prepare = "ANALYZE; PREPARE p AS SELECT a, b FROM t WHERE id = $1;\n"
    keys = [(i * 7919) % ROWS for i in range(10_000)]
    ours = above(path, setup + prepare, "".join(f"EXECUTE p({key});\n" for key in keys))
    theirs = in_sqlite(setup, [("SELECT a, b FROM t WHERE id = ?", [(key,) for key in keys])])
    show("EXECUTE by primary key over 20,000 rows", ours, theirs, len(keys), "each")


def standing(path):
    setup = "CREATE TABLE t (id integer);\nPREPARE p AS SELECT id FROM t WHERE id = $1;\n"
    ours = above(path, setup, "EXECUTE p(1);\n" * MANY)
    theirs = in_sqlite("CREATE TABLE t (id integer);", [("SELECT id FROM t WHERE id = ?", [(1,)] * MANY)])
    show("EXECUTE over an empty table", ours, theirs, MANY, "each")


def rounds(path):
    table = "CREATE TABLE t (a integer);\n" + inserts("t", 10, [whole]) + "PREPARE p AS SELECT a FROM t;\n"
    measured = "ALTER TABLE t ADD COLUMN b integer;\nALTER TABLE t DROP COLUMN b;\nEXECUTE p;\n" * 2000
    beside = "CREATE TABLE u (a integer);\n" + "".join(f"PREPARE q{i} AS SELECT a FROM u;\n" for i in range(4000))
    show("a round of ALTER, ALTER and EXECUTE", above(path, table, measured), None, 2000, "each")
    show("the same beside 4,000 other statements", above(path, table + beside, measured), None, 2000, "each")


def rollbacks(path):
    for rows in (1000, 100_000):
        setup = "CREATE TABLE t (id integer PRIMARY KEY, a integer);\n" + inserts("t", rows, [whole, hundredth]) + "BEGIN;\n"
        changes = "SAVEPOINT s;\n" + "".join(f"UPDATE t SET a = 1 WHERE id = {i};\n" for i in range(10))
        back = seconds(path, setup + (changes + "ROLLBACK TO s;\nRELEASE s;\n") * 200)
        kept = seconds(path, setup + (changes + "RELEASE s;\n") * 200)
        show(f"ROLLBACK TO behind 10 changes among {rows} rows", max(back - kept, 0.0), None, 200, "each")


def queries(path):
    setup = "CREATE TABLE t (id integer PRIMARY KEY, a integer);\n" + inserts("t", MANY, [whole, lambda i: str(i % 1000)])
    join = "CREATE TABLE l (x integer);\nCREATE TABLE r (y integer);\n" + inserts("l", 10_000, [whole]) + inserts("r", 10_000, [whole])
    for what, before, query in [
        ("count(*) over 100,000 rows", setup, "SELECT count(*) FROM t;"),
        ("GROUP BY of 100,000 rows into 1,000 groups", setup, "SELECT a, count(*) FROM t GROUP BY a;"),
        ("ORDER BY over 100,000 rows", setup, "SELECT id FROM t ORDER BY a LIMIT 1;"),
        ("join of 10,000 and 10,000 rows", join, "SELECT count(*) FROM l JOIN r ON x = y;"),
    ]:
        show(what, above(path, before, query + "\n"), in_sqlite(before, [query]), 1, "whole")


def cursors(path):
    setup = "CREATE TABLE t (id integer PRIMARY KEY);\n" + inserts("t", ROWS, [whole]) + "BEGIN;\nDECLARE c SCROLL CURSOR FOR SELECT id FROM t;\n"
    forward = "FETCH c;\n" * ROWS
    show("FETCH of one row forward", above(path, setup, forward), None, ROWS, "each")
    show("FETCH of one row back", above(path, setup + forward, "FETCH PRIOR c;\n" * ROWS), None, ROWS, "each")


def planning(path):
    for items in (2, 6, 8, 12):
        tables = "".join(f"CREATE TABLE t{i} (a integer PRIMARY KEY, b integer);\nCREATE INDEX i{i} ON t{i} (b);\n" for i in range(items))
        joins = " JOIN ".join(["t0"] + [f"t{i} ON t{i - 1}.b = t{i}.a" for i in range(1, items)])
        count = 200 if items < 12 else 10
        explain = f"EXPLAIN SELECT t0.a FROM {joins};\n" * count
        show(f"planning of {items} items", above(path, tables, explain), None, count, "each")


def main():
    path = program()
    for measure in (load, by_key, standing, rounds, rollbacks, queries, cursors, planning):
        measure(path)


if __name__ == "__main__":
    main()
