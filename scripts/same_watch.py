#!/usr/bin/env python3
"""Compares the two programs that judge traces: same_watch.py SVSIM SVSIM_WATCH

On each trace of examples/ and of the lists of cases `svsim watch` and `svsim_watch` write the same, and end with the same status:
without an option, with each one, and with lists of what is known, right and wrong. So do `svsim explain` and `svsim_watch --explain` on
the first line, and on the lines of the first and of the last verdict. The last line is `N passed, M failed`.
"""
import glob, os, re, subprocess, sys, tempfile
from cases import cases, read

TOP = os.path.dirname(os.path.dirname(os.path.abspath(__file__)))
OPTIONS = (
    "", "--all", "--quiet", "--hart 1", "--page 1000", "--all --kind kernel-free --hart 1",
    "--json", "--all --json", "--quiet --json", "--max 0", "--max 1", "--all --max 1", "--quiet --max 1", "--json --max 1",
    "--known SOME", "--all --known SOME", "--quiet --known SOME", "--known EACH", "--all --json --known EACH --max 2", "--known NONE",
    "--known WRONG", "--quiet --json --known WRONG",
)
# Lists of what is known.
KNOWN = {
    "SOME": "# by design\nuser free - 1000 2000\nkernel - other-hart\n",
    "EACH": "user - -\nkernel - -\n",
    "NONE": "\n",
    "WRONG": "user - -\nuser free\nanybody\n",
}


def traces():
    """The texts of all traces, each once."""
    found = [read(path) for path in sorted(glob.glob(f"{TOP}/examples/**/*.trace", recursive=True))]
    for path in sorted(glob.glob(f"{TOP}/examples/cases/lists/*.txt")):
        found += [files["FILE"] for _, files, words, _ in cases(path, read(path)) if re.fullmatch(r" watch( --all| --quiet)? FILE", words)]
    return list(dict.fromkeys(found))


def answer(words, folder):
    done = subprocess.run(words, cwd=folder, stdin=subprocess.DEVNULL, capture_output=True)
    return done.returncode, done.stdout, done.stderr


def lines_of(report):
    """The first line, and those of the first and of the last verdict that `--all` reports."""
    found = re.findall(rb"(?m)^FILE:(\d+): ", report)
    return list(dict.fromkeys(["1", "2", "999999", *(line.decode() for line in found[:1] + found[-1:])]))


def pairs_of(svsim, svsim_watch, folder):
    """The words for `svsim_watch`, what `svsim` answers to the same, and what it answers."""
    for words in map(str.split, OPTIONS):
        yield words, answer([svsim, "watch", *words, "FILE"], folder), answer([svsim_watch, *words, "FILE"], folder)
    for line in lines_of(answer([svsim, "watch", "--all", "FILE"], folder)[1]):
        for tests in ([], ["--hart", "1"], ["--page", "1000", "--kind", "claim"]):
            words = ["--explain", line, *tests]
            yield words, answer([svsim, "explain", *tests, "FILE", line], folder), answer([svsim_watch, *words, "FILE"], folder)


def main(svsim, svsim_watch):
    passed = failed = 0
    for text in traces():
        with tempfile.TemporaryDirectory() as folder:
            for name, written in {"FILE": text, **KNOWN}.items():
                with open(os.path.join(folder, name), "w", newline="", encoding="utf-8") as file:
                    file.write(written)
            pairs = list(pairs_of(svsim, svsim_watch, folder))
        for words, wanted, got in pairs:
            passed, failed = passed + (got == wanted), failed + (got != wanted)
            if got != wanted:
                print(f"FAILED {' '.join(words)} {text[:200]!r}: {got}, not {wanted}")
    print(f"{passed} passed, {failed} failed")
    return failed > 0 or passed == 0


if __name__ == "__main__":
    if len(sys.argv) != 3 or not all(os.access(it, os.X_OK) for it in sys.argv[1:]):
        sys.exit(__doc__)
    sys.exit(main(*map(os.path.abspath, sys.argv[1:])))
