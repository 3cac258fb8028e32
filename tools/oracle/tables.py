#!/usr/bin/env python3
"""Plays the scripts in the tables of storm_tests and compares how they end with what stands there.
Each table has as many runs as RUNS says, so that none is passed over.
usage: tables.py"""
import re
import sys
from collections import Counter
from pathlib import Path

from coding import byte_sum, sha256
from oracle import answer
from travel import Chunked, Uncut

TABLES = Path(__file__).resolve().parents[2] / "crates/storm_tests/src/tables"
# How many runs each table has, by its file.
RUNS = {"boundary": 3, "hashed": 3, "hostile": 48, "refused": 11, "whole": 8, "worked": 11}


def runs():
    """The table, the hash, the way in which blocks travel, the status, the name, the script and the
    text of each run, its digests written out. Only the runs of two tables are under SHA-256, and in
    one of them blocks travel whole."""
    for path in sorted(TABLES.glob("*.rt")):
        digest_of = sha256 if path.stem in ("hashed", "whole") else byte_sum
        travel = Uncut if path.stem == "whole" else Chunked
        for table in re.findall(r'"(== [^"]*)"', path.read_text()):
            for part in table.split("== ")[1:]:
                head, rest = part.split("\n", 1)
                status, name = head.split(" ", 1)
                script, text = rest.split("--\n", 1)
                long = re.sub(r"\*(..)", lambda digest: digest[1] * 32, text)
                for stop in name.split(",") if "STOP" in script else [""]:
                    cut = script.replace("STOP", stop)
                    yield path.stem, digest_of, travel, int(status), name, cut, long


def main():
    counts, wrong = Counter(), 0
    for table, digest_of, travel, status, name, script, text in runs():
        counts[table] += 1
        if answer(script.encode(), digest_of, travel)[:2] != (status, text):
            wrong += 1
            print("differs:", name)
    for table in sorted(set(RUNS) | set(counts)):
        if counts[table] != RUNS.get(table):
            wrong += 1
            print("the table %s has %d runs, not %s" % (table, counts[table], RUNS.get(table)))
    print("%d runs, %d faults" % (sum(counts.values()), wrong))
    return 1 if wrong else 0


if __name__ == "__main__":
    sys.exit(main())
