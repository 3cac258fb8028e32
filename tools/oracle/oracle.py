#!/usr/bin/env python3
"""Plays a script by the rules and prints the report, as hail_run does, but written by itself from
docs/RULES.md and docs/FORMATS.md alone. The words `storm N` print a storm's summary; with the word
`sum` in front digests are those of the test hash, with the word `whole` blocks travel whole.
Exit statuses are those of hail_run: 2 for other words, 5 and 6 where reading and writing fail.
usage: oracle.py [sum] [whole] [storm N]"""
import os
import sys

from coding import byte_sum, sha256
from script import Refused, parse, storm
from travel import Chunked, Uncut
from world import Clash, World, text_of


def answer(text, digest_of=sha256, travel=Chunked):
    """The exit status, what is printed, and the world where there is a report."""
    try:
        world = World(parse(text, travel.has_epochs), digest_of, travel).run()
    except Refused as refused:
        return 3, text_of(refused.args), None
    except Clash as clash:
        earlier, later = clash.args
        return 4, text_of(["error 6 HashClash %s %s" % (earlier.hex(), later.hex())]), None
    return 0, world.report(), world


def words_of(words):
    """How a run is played, and which storm; None where the words are none of the usage."""
    how = {}
    if words[:1] == ["sum"]:
        how["digest_of"], words = byte_sum, words[1:]
    if words[:1] == ["whole"]:
        how["travel"], words = Uncut, words[1:]
    if not words:
        return how, None
    is_number = len(words) == 2 and words[1].isascii() and words[1].isdigit()
    if words[0] != "storm" or not is_number or int(words[1]) >= 2 ** 64:
        return None
    return how, int(words[1])


def printed(words):
    """The exit status and what is printed."""
    found = words_of(words)
    if found is None:
        return 2, text_of(["usage: oracle.py [sum] [whole] [storm N]"])
    how, number = found
    if number is not None:
        return 0, answer(storm(number), **how)[2].summary(number)
    try:
        text = sys.stdin.buffer.read()
    except OSError:
        return 5, ""
    return answer(text, **how)[:2]


def main():
    status, text = printed(sys.argv[1:])
    try:
        sys.stdout.write(text)
        sys.stdout.flush()
    except OSError:
        # What is left in the buffer goes nowhere when the interpreter ends.
        os.dup2(os.open(os.devnull, os.O_WRONLY), sys.stdout.fileno())
        return 6
    return status


if __name__ == "__main__":
    sys.exit(main())
