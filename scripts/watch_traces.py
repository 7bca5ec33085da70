#!/usr/bin/env python3
"""Traces of kernels: the counts that a program prints last, beside given ones.

watch_traces.py FOLDER COUNTS PROGRAM [WORD ...]   each NAME.trace of the folder is the last word of the command

So `scripts/watch_traces.py traces scripts/watch_traces.txt ./svsim watch`. A line of COUNTS is `NAME: COUNTS`, or `NAME: COUNTS; NOTE`
with what is known of a difference. The status is 1 if some counts differ.
"""
import pathlib
import subprocess
import sys
import time


def given(path):
    """By name: the counts, and the note."""
    table = {}
    for line in open(path):
        if line.strip() and line[0] != "#":
            name, rest = line.rstrip("\n").split(": ", 1)
            counts, _, note = rest.partition("; ")
            table[name] = (counts, note)
    return table


def counts_of(text):
    """Of the last line of a program: `N records, no verdict` or `N records, N verdicts: COUNTS`, of one each in the singular."""
    _, _, rest = (text.splitlines() or [""])[-1].partition(", ")
    return rest.split(": ", 1)[-1]


def as_set(counts):
    return set(counts.split(", "))


def main():
    folder, table, command, bad = pathlib.Path(sys.argv[1]), given(sys.argv[2]), sys.argv[3:], 0
    for trace in sorted(folder.glob("*.trace")):
        began = time.monotonic()
        program = subprocess.run([*command, str(trace)], capture_output=True, text=True)
        took = time.monotonic() - began
        counts, (want, note) = counts_of(program.stdout), table.get(trace.stem, (None, ""))
        print(f"{trace.stem}: {counts or program.stderr.strip()} (status {program.returncode}, {took:.1f} s)")
        if want is not None and as_set(counts) != as_set(want):
            bad += 1
            print(f"    not {want}" + f" ({note})" * bool(note))
        elif want is None:
            print("    no counts given")
    sys.exit(bool(bad))


if __name__ == "__main__":
    main()
