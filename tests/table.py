"""table.py ECNTABLE FOLDER: Python's csv module reads the tables that ecntable writes back to the model's values.

Each N.trace in the folder has its rows beside it in N.rows: the label in hexadecimal, then the ten numbers.
"""
import csv
import io
import pathlib
import subprocess
import sys

HEAD = ["label", "ssrc", "highest", "ect0", "ect1", "ce", "notect", "lost", "dup", "jumped", "restarts"]


def table(program, trace):
    printed = subprocess.run([program], stdin=trace.open("rb"), capture_output=True, check=True).stdout
    rows = list(csv.reader(io.StringIO(printed.decode("ascii"), newline=""), strict=True))
    return rows[0], [[row[0]] + [int(number) for number in row[1:]] for row in rows[1:]]


def expected(path):
    rows = [line.split(",") for line in path.read_text().splitlines()]
    return [[bytes.fromhex(row[0]).decode("ascii")] + [int(number) for number in row[1:]] for row in rows]


def main(program, folder):
    tables, rows, quoted = 0, 0, 0
    for trace in sorted(pathlib.Path(folder).glob("*.trace")):
        head, found = table(program, trace)
        wanted = expected(trace.with_suffix(".rows"))
        if head != HEAD or found != wanted:
            sys.exit(f"table: FAILED, {trace}: {found} is not {wanted}")
        tables, rows = tables + 1, rows + len(found)
        quoted += any(set(row[0]) & set(',"\r\n') for row in found)
    if tables == 0 or quoted == 0:
        sys.exit(f"table: FAILED, no quoted label among the tables of {folder}")
    print(f"table: {tables} tables, {rows} rows, {quoted} tables with quoted labels: Python's csv module reads the model's values")


main(*sys.argv[1:])
