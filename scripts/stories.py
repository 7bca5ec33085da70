#!/usr/bin/env python3
"""The stories that `svsim explain` tells, judged alone: stories.py PROGRAM, which stands for ./svsim.

For each verdict of each trace of examples/ and of the lists of cases, and of 100 random traces: the story begins with the verdict's line;
its records are lines of the trace, in their order; and `watch --all` on them alone gives, at the last, the same verdict, stale since the same
line. So a record that matters can't be left out. The last line is `N passed, M failed`; the one before it says how many records the
stories have, and how many are the whole trace.
"""
import os, re, subprocess, sys, tempfile
from collections import Counter
from same_watch import traces
from trace_lines import EVERY
from watch_definitions import made

VERDICT = re.compile(r"(?P<file>[^:]*):(?P<line>\d+): (?P<kind>\S+) hart (?P<hart>\d+) may hold page (?P<page>(?P<base>[0-9a-f]+).*), "
                     r"stale since line (?P<since>\d+)(?P<why>.*)")
SEEDS = range(1, 101)


def answer(program, *words):
    done = subprocess.run([program, *words], stdin=subprocess.DEVNULL, capture_output=True, encoding="utf-8", errors="surrogateescape")
    return done.returncode, done.stdout.splitlines()


def verdicts(program, path, *tests):
    return [VERDICT.fullmatch(line) for line in answer(program, "watch", "--all", *tests, path)[1] if VERDICT.fullmatch(line)]


def words_of(text):
    """The words of a record without its note. From address 0 on, a size of 0 is every address, and so is one that is all ones."""
    words = re.split(r" [@#]", text)[0].split()
    place = {"r": 4, "c": 4}.get(words[0])
    if place and words[place] == "0" and int(words[place + 1], 16) in (0, EVERY):
        words[place + 1] = "0"
    return words


def parts(lines):
    """The lines of the trace that a story names, each with the text of the record behind it."""
    for comment, text in zip(lines[2::2], lines[3::2]):
        yield int(re.match(r"# [^:]*:(\d+): ", comment)[1]), text


def is_right(program, path, source, verdict, story):
    """What is wrong with the story of a verdict, or nothing."""
    if len(story) % 2 or story[1] != f"# {verdict[0]}":
        return "its head"
    told = list(parts(story))
    if [number for number, _ in told] != sorted({number for number, _ in told}) or told[-1][0] != int(verdict["line"]):
        return "the order of its lines"
    if any(words_of(source[number - 1]) != words_of(text) for number, text in told):
        return "a line that is none of the trace's"
    with tempfile.NamedTemporaryFile("w", suffix=".trace", encoding="utf-8", errors="surrogateescape", newline="") as file:
        file.write("".join(f"{line}\n" for line in story))
        file.flush()
        alone = verdicts(program, file.name)
    lines = {2 * place + 4: number for place, (number, _) in enumerate(told)}
    if not any(lines[int(each["line"])] == int(verdict["line"]) and lines[int(each["since"])] == int(verdict["since"])
               and (each["kind"], each["hart"], each["page"]) == (verdict["kind"], verdict["hart"], verdict["page"]) for each in alone):
        return "another verdict"
    return ""


def check(program, text, counts):
    """Each verdict of a trace that a call can name, and what is wrong with its story."""
    with tempfile.NamedTemporaryFile("w", suffix=".trace", encoding="utf-8", errors="surrogateescape", newline="") as file:
        file.write(text)
        file.flush()
        source, seen = text.split("\n"), set()
        for verdict in verdicts(program, file.name):
            named = verdict["line"], verdict["hart"], verdict["base"], verdict["kind"]
            if named in seen:
                continue
            seen.add(named)
            tests = "--hart", named[1], "--page", named[2], "--kind", named[3]
            status, story = answer(program, "explain", file.name, named[0], *tests)
            verdict = next(each for each in verdicts(program, file.name, *tests) if each["line"] == named[0])
            wrong = f"status {status}" if status else is_right(program, file.name, source, verdict, story)
            counts["records"] += len(story) // 2 - 1
            counts["stories"] += 1
            counts["whole"] += len(story) // 2 - 1 == sum(line[:1] not in ("", "#", "m") for line in source[1:int(named[0])])
            yield verdict[0], wrong


def main(program):
    counts, passed, failed = Counter(), 0, 0
    for text in [*traces(), *("\n".join(made(seed)) + "\n" for seed in SEEDS)]:
        for verdict, wrong in check(program, text, counts):
            passed, failed = passed + (not wrong), failed + bool(wrong)
            if wrong:
                print(f"FAILED {verdict}: {wrong}")
    print(f"{counts['stories']} stories of {counts['records']} records, {counts['whole']} of them whole traces")
    print(f"{passed} passed, {failed} failed")
    return failed > 0 or passed == 0


if __name__ == "__main__":
    if len(sys.argv) != 2 or not os.access(sys.argv[1], os.X_OK):
        sys.exit(__doc__)
    sys.exit(main(os.path.abspath(sys.argv[1])))
