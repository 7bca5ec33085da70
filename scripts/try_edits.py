#!/usr/bin/env python3
"""Tries the wrong edits, many at once: try_edits.py [--anew] [--minutes N] [CRATE | CRATE/NAME ..]

Tries those of the crates or edits that are named, or of all crates, lowest first. Each round makes edits of functions of which no two are
the same or follow one another in a file, and calls `rt check` once: a caller sees a function's clauses alone, so no edit changes what
another's goals are. An edit of a definition may change any goal, and has a round of its own. An edit passes if rt prints the goal that
scripts/edits.txt names, in the function that it edits or in the proof that it names. That the crate is proved without it is for `rt ci`.

It edits the sources in place and puts them back, so it wants them committed, and nothing else may read them meanwhile. A crate whose edits
have all passed is kept on this machine, by the checksums of all that was read, as `rt ci` keeps proofs; --anew tries it all the same. After
N minutes it begins no more rounds. The last line is `N passed, M failed`, and `, K skipped` where it did not come to K edits.
"""
import argparse, hashlib, math, os, re, resource, signal, subprocess, sys, time
from edits import TOP, edits, goals_listed

FUNCTION = re.compile(r"^[ \t]*(?:pub(?:\(\w+\))? )?(?:const )?fn \w+", re.M)
DEFINITION = re.compile(r"\s*(?:pub(?:\(\w+\))? )?(?:const \w+:|static |ghost (?!use ))")
PRINTED = re.compile(r"([\w./]+):(\d+):\d+: (.*)")
NAMED = re.compile(r"\(`([^`]+)|error: `([^`]+)")
KEPT = os.path.join(os.environ.get("XDG_CACHE_HOME") or os.path.expanduser("~/.cache"), "melissaledge", "edits")


class Edit:
    def __init__(self, name, path):
        self.name, self.path, self.pairs, self.file, old = name, path, [], None, None
        for line in read(path).split("\n"):
            key, _, text = line.partition(": ")
            if key == "file":
                self.file = text
            elif key == "old":
                old = text
            elif key == "new":
                self.pairs.append((old, text))

    def is_of_definition(self, text):
        """Of a file of definitions, or of what stands before the functions and is no `use`."""
        head = text.index(FUNCTION.search(text)[0]) if FUNCTION.search(text) else len(text)
        return not self.file.startswith("src/") or any(
            DEFINITION.match(old) or text.index(old) < head and "use " not in old for old, _ in self.pairs)

    def functions(self, text):
        """The functions that it edits, by their numbers in the file as it stands; what stands before the first has the number 0."""
        starts = [match.start() for match in FUNCTION.finditer(text)]
        return {(self.file, sum(start <= text.index(old) for start in starts)) for old, _ in self.pairs}


def beside(places):
    """These functions, and those before and after them."""
    return {(file, number + step) for file, number in places for step in (-1, 0, 1)}


def rounds_of(tried, texts):
    """Edits in rounds, of which no two lie in one function or in two that follow one another, and one of a definition lies alone."""
    rounds = []
    for edit in tried:
        if edit.is_of_definition(texts[edit.file]):
            rounds.append((None, [edit]))
            continue
        places = edit.functions(texts[edit.file])
        for taken, of_round in rounds:
            if taken is not None and not taken & beside(places):
                taken |= places
                of_round.append(edit)
                break
        else:
            rounds.append((set(places), [edit]))
    return [of_round for _, of_round in rounds]


def apply(of_round, texts):
    """The texts with the edits of a round, and for each edit the lines of the functions that it changed."""
    made, spans = dict(texts), {edit.name: [] for edit in of_round}
    for file in {edit.file for edit in of_round}:
        pairs = [(texts[file].find(old), old, new, edit.name) for edit in of_round if edit.file == file for old, new in edit.pairs]
        made[file], places, at = "", [], 0
        for place, old, new, name in sorted(pairs):
            if texts[file].count(old) != 1 or place < at:
                sys.exit(f"try_edits.py: {name}: not once in {file}, or in another edit of its round: {old[:80]}")
            made[file] += texts[file][at:place]
            places.append((len(made[file]), name))
            made[file], at = made[file] + new, place + len(old)
        made[file] += texts[file][at:]
        starts = [match.start() for match in FUNCTION.finditer(made[file])] + [len(made[file])]
        for place, name in places:
            first, end = max((it for it in starts if it <= place), default=0), min(it for it in starts if it > place)
            spans[name].append((made[file].count("\n", 0, first) - 3, made[file].count("\n", 0, end) + 1))
    return made, spans


def is_told(edit, wanted, printed, spans):
    """Whether rt prints the goal of the edit, as far as edits.txt has it."""
    file, goal = wanted.split(" ", 1)
    for path, line, rest in printed:
        named = NAMED.search(rest)
        text = (named[1] or named[2]) if named else rest.split(": ", 1)[-1]
        if path == file and text.startswith(goal) and (path != edit.file or any(first <= line <= end for first, end in spans)):
            return True
    return False


def check(crate, made, texts):
    """What rt prints of the crate with these texts, which are put back."""
    folder = os.path.join(TOP, "crates", crate)
    changed = [file for file in made if made[file] != texts[file]]
    try:
        for file in changed:
            write(os.path.join(folder, file), made[file])
        done = subprocess.run(["rt", "check"], cwd=folder, stdout=subprocess.PIPE, stderr=subprocess.STDOUT, stdin=subprocess.DEVNULL)
    finally:
        for file in changed:
            write(os.path.join(folder, file), texts[file])
    lines = done.stdout.decode("utf-8", "replace").split("\n")
    found = (PRINTED.search(line) for line in lines if "note: " in line or "error: " in line)
    return [(match[1].removeprefix("./"), int(match[2]), match[0]) for match in found if match]


def read(path):
    with open(path, encoding="utf-8") as file:
        return file.read()


def write(path, text):
    with open(path, "w", encoding="utf-8") as file:
        file.write(text)


def crates_listed():
    """Each crate of crates.txt with those that it uses, in the order of the file, which has the lowest first."""
    lines = (line.split("#")[0].strip() for line in read(os.path.join(TOP, "crates.txt")).split("\n"))
    return {line.split(":")[0].split()[0]: line.split(":")[1].split() for line in lines if ":" in line}


def checksum(crate, tried, listed):
    """Of all that decides whether these edits pass: the kit, this crate and those below it, the edits, their goals, and the scripts."""
    uses, below, rest = crates_listed(), set(), [crate]
    while rest:
        name = rest.pop()
        if name in uses and name not in below:
            below.add(name)
            rest += uses[name]
    digest = hashlib.sha256(subprocess.run(["rt", "version"], stdout=subprocess.PIPE, check=True).stdout)
    digest.update(repr([(name, uses[name]) for name in sorted(below)]).encode())
    for name in sorted(below):
        for part in ("proofs", "specs", "src"):
            for folder, folders, files in os.walk(os.path.join(TOP, "crates", name, part)):
                folders.sort()
                for path in (os.path.join(folder, file) for file in sorted(files)):
                    digest.update(repr((os.path.relpath(path, TOP), read(path))).encode())
    for edit in tried:
        digest.update(repr((edit.name, read(edit.path), listed.get(edit.name))).encode())
    for script in ("edits.py", "try_edits.py"):
        digest.update(read(os.path.join(TOP, "scripts", script)).encode())
    return digest.hexdigest()


def processor_minutes():
    used = resource.getrusage(resource.RUSAGE_CHILDREN)
    return (used.ru_utime + used.ru_stime) / 60


class Tally:
    """What came of the edits so far."""

    def __init__(self, minutes):
        self.passed = self.failed = self.skipped = 0
        self.deadline = time.monotonic() + 60 * minutes

    def try_round(self, crate, of_round, texts, listed):
        """Whether all of its edits passed."""
        if time.monotonic() > self.deadline:
            self.skipped += len(of_round)
            return False
        made, spans = apply(of_round, texts)
        printed = check(crate, made, texts)
        wrong = [edit.name for edit in of_round if not is_told(edit, listed.get(edit.name, "- -"), printed, spans[edit.name])]
        for name in wrong:
            print(f"FAILED {name}: rt does not print {listed.get(name)}", flush=True)
        self.passed += len(of_round) - len(wrong)
        self.failed += len(wrong)
        return not wrong

    def try_crate(self, crate, tried, listed):
        """Whether all edits of the crate passed."""
        texts = {edit.file: read(os.path.join(TOP, "crates", crate, edit.file)) for edit in tried}
        begun, spent = time.monotonic(), processor_minutes()
        rounds = rounds_of(tried, texts)
        have_passed = [self.try_round(crate, of_round, texts, listed) for of_round in rounds]
        print(f"{crate}: {len(tried)} edits in {len(rounds)} rounds, {time.monotonic() - begun:.0f} s, "
              f"{processor_minutes() - spent:.1f} processor minutes", flush=True)
        return all(have_passed)

    def try_or_keep(self, crate, tried, listed, is_anew):
        kept = os.path.join(KEPT, checksum(crate, tried, listed))
        if os.path.exists(kept) and not is_anew:
            print(f"{crate}: {len(tried)} edits, kept", flush=True)
            self.passed += len(tried)
        elif self.try_crate(crate, tried, listed):
            os.makedirs(KEPT, exist_ok=True)
            write(kept, f"{crate}\n")


def main():
    found, listed = edits(), goals_listed()
    parser = argparse.ArgumentParser(usage=__doc__)
    parser.add_argument("--anew", action="store_true")
    parser.add_argument("--minutes", type=float, default=math.inf)
    parser.add_argument("names", nargs="*")
    words = parser.parse_args()
    named = [name for name in found if not words.names or name in words.names or name.split("/")[0] in words.names]
    if not set(words.names) <= set(named) | {name.split("/")[0] for name in named}:
        sys.exit(__doc__)
    if subprocess.run(["git", "-C", TOP, "diff", "--quiet", "HEAD", "--", "crates"]).returncode:
        sys.exit("try_edits.py: crates/ differs from the last commit")
    for ended in (signal.SIGTERM, signal.SIGHUP):
        signal.signal(ended, lambda *_: sys.exit("try_edits.py: ended"))  # and what was edited is put back
    tally = Tally(words.minutes)
    for crate in crates_listed():
        tried = [Edit(name, found[name]) for name in named if name.split("/")[0] == crate]
        if tried:
            tally.try_or_keep(crate, tried, listed, words.anew)
    print(f"{tally.passed} passed, {tally.failed} failed" + (f", {tally.skipped} skipped" if tally.skipped else ""))
    return tally.failed > 0 or tally.passed + tally.skipped == 0


if __name__ == "__main__":
    sys.exit(main())
