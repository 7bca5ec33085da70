#!/usr/bin/env python3
"""Random traces: the lines that a program prints, beside those that the definitions give.

watch_random.py FIRST-LAST PROGRAM [WORD ...]   the seeds of the traces; each trace is a file, the last word of the command
watch_random.py --list N                        prints N short traces with what `svsim watch --all` has to print of them, as a list of cases

So `scripts/watch_random.py 1-1000 ./svsim watch --all`. A trace whose lines, last line or status are not as they should be is kept in a
file. The last line is `N traces, N records, N verdicts; N differ`, the status 1 if some do.
"""
import os
import random
import re
import subprocess
import sys
import tempfile
from collections import Counter

from watch_definitions import is_record, last_line, made, printed, wanted

LINE = re.compile(r"[^:]*:(\d+): (.*?), (stale since .*)")


def noted(seed):
    """A random trace with notes, and lines that are no records."""
    r, lines = random.Random(seed), list(made(seed))
    for number in range(1, len(lines)):
        if r.random() < 0.5:
            lines[number] += f" {r.choice('@#')}note{number}"
    for _ in range(r.randrange(20)):
        lines.insert(r.randrange(1, len(lines) + 1), r.choice(("", "# a comment", "m a mark")))
    return lines


def difference(lines, due, program):
    """What the program prints otherwise, or None."""
    *got, last = program.stdout.splitlines() or [""]
    parts = [LINE.fullmatch(line) for line in got]
    texts = [(int(line[1]), line[2]) if line else (0, text) for line, text in zip(parts, got)]
    owed = {(line, text): {rest for _, rest in rests} for (line, _, text), rests in due.items()}
    if sorted(texts) != sorted(owed):
        return f"only of the program {sorted(set(texts) - set(owed))[:3]}, only of the definitions {sorted(set(owed) - set(texts))[:3]}"
    for line, text in zip(parts, texts):
        if line[3] not in owed[text]:
            return f"{text!r} goes on {line[3]!r}, not {sorted(owed[text])}"
    if texts != list(owed):
        return "not in order"
    if last != last_line(lines, due):
        return f"last line {last!r}, not {last_line(lines, due)!r}"
    return None if program.returncode == bool(due) else f"status {program.returncode}, not {int(bool(due))}"


def listed(count):
    """Short traces, whose lines are known to the last letter; at most 15 of them without a verdict."""
    seed, quiet = 0, 0
    while count:
        seed += 1
        lines = list(made(seed))
        due = wanted(lines)
        if len(lines) > 75 or any(len(rest) > 1 for rest in due.values()) or (not due and quiet == 15):
            continue
        count, quiet = count - 1, quiet + (not due)
        yield from (f"=== {seed}", *lines, f"--- svsim watch --all FILE: {int(bool(due))}")
        yield from printed(due, "FILE")
        yield last_line(lines, due)


def main():
    if sys.argv[1] == "--list":
        print("Random traces, with the verdicts that the definitions give: `scripts/watch_random.py --list 100` computed them, over sets.\n")
        print("\n".join(listed(int(sys.argv[2]))))
        return
    first, last = map(int, sys.argv[1].split("-"))
    totals = Counter()
    for seed in range(first, last + 1):
        lines = noted(seed)
        due = wanted(lines)
        with tempfile.NamedTemporaryFile("w", prefix=f"watch_random_{seed}_", suffix=".trace", delete=False) as file:
            file.write("\n".join(lines) + "\n")
        program = subprocess.run([*sys.argv[2:], file.name], capture_output=True, text=True)
        wrong = difference(lines, due, program)
        totals.update(traces=1, records=sum(map(is_record, lines[1:])), verdicts=len(due), differ=bool(wrong))
        if wrong:
            print(f"{file.name}: {wrong}")
        else:
            os.unlink(file.name)
    print("{traces} traces, {records} records, {verdicts} verdicts; {differ} differ".format(**totals))
    sys.exit(bool(totals["differ"]))


if __name__ == "__main__":
    main()
