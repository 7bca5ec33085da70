#!/usr/bin/env python3
"""Compares the lists of cases with what a program answers: cases.py PROGRAM LIST ..

PROGRAM stands for svsim, and LIST is a file of examples/cases/lists, whose form examples/cases/README.md tells. For each answer that is
another it prints the case, the words and what came. It is for those who add a case: the gate compares by svsim_examples. A list without
a case, a case without an answer, and a line `---` of another form are refused. The last line is `N passed, M failed`.
"""
import os, re, subprocess, sys, tempfile

NAMES = ("FILE", "-x", "--")  # of the first file
ANSWER = re.compile(r"svsim(.*?): (\d+)(?: (.*))?")


def read(path):
    with open(path, newline="", encoding="utf-8") as file:
        return file.read()


def cases(path, text):
    """The title of each case, its files by their names, and its answers: words, status, line on standard error, and standard output."""
    _, *found = re.split(r"(?m)^=== ", text)
    if not found:
        sys.exit(f"{path}: no case")
    for case in found:
        title, _, body = case.partition("\n")
        file, *answers = re.split(r"(?m)^--- ", body)
        file, plus, known = file.partition("\n+++\n")
        files = {name: file for name in NAMES} | ({"LIST": known} if plus else {})
        if not answers:
            sys.exit(f"{path}: {title}: no answer")
        for answer in answers:
            line, _, printed = answer.partition("\n")
            parts = ANSWER.fullmatch(line)
            if not parts:
                sys.exit(f"{path}: {title}: --- {line}")
            yield title, files, parts[1], (int(parts[2]), parts[3] or "", printed)


def answer(program, files, words):
    """What the program answers to the words, in a folder with the files under their names."""
    with tempfile.TemporaryDirectory() as folder:
        for name, text in files.items():
            with open(os.path.join(folder, name), "w", newline="", encoding="utf-8") as copy:
                copy.write(text)
        done = subprocess.run([program, *words.split(" ")[1:]], cwd=folder, stdin=subprocess.DEVNULL, capture_output=True)
    return done.returncode, done.stderr.decode("utf-8", "replace").rstrip("\n"), done.stdout.decode("utf-8", "replace")


def main(program, paths):
    passed = failed = 0
    for path in paths:
        for title, files, words, wanted in cases(path, read(path)):
            got = answer(program, files, words)
            passed, failed = passed + (got == wanted), failed + (got != wanted)
            if got != wanted:
                print(f"FAILED {path}: {title}: svsim{words}: {got[0]} {got[1]}\n{got[2]}", end="")
    print(f"{passed} passed, {failed} failed")
    return failed > 0


if __name__ == "__main__":
    if len(sys.argv) < 3 or not os.access(sys.argv[1], os.X_OK):
        sys.exit("usage: cases.py PROGRAM LIST ..")
    sys.exit(main(os.path.abspath(sys.argv[1]), sys.argv[2:]))
