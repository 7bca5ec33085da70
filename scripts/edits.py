#!/usr/bin/env python3
"""What refuses each wrong edit: edits.py [--write] [LOG]

An edit is a file crates/CRATE/edits/NAME.edit, which scripts/try_edits.py tries, or crates/CRATE/must-fail/NAME.edit, which `rt ci` tries
too. scripts/edits.txt has a line `CRATE/NAME FILE GOAL` for each, in the order of the names. GOAL is what the prover can't show of the wrong
body, as far as rt prints it, and FILE where: of the function that is edited a clause (`returns-clause-NAME`, `invariant_of-..`), of one that
it calls a demand (`CALL-requires-clause-NAME`), or a line of a proof.

Without LOG: each edit has its line, each line its edit, and each text that an edit replaces stands once in its file.
With LOG, which is what `rt ci` or `rt must-fail` printed: each edit that was tried there is refused by its goal.
With --write: writes the goals of LOG into scripts/edits.txt.

The last line is `N passed, M failed`.
"""
import glob, os, re, sys

TOP = os.path.dirname(os.path.dirname(os.path.abspath(__file__)))
LIST = f"{TOP}/scripts/edits.txt"
TRIED = re.compile(r"rt: must-fail (\S+)\.edit: (.*)")


def edits():
    """The names of all edits, each with its path."""
    found = {}
    for path in glob.glob(f"{TOP}/crates/*/edits/*.edit") + glob.glob(f"{TOP}/crates/*/must-fail/*.edit"):
        crate, _, file = os.path.relpath(path, f"{TOP}/crates").split(os.sep)
        name = f"{crate}/{file[: -len('.edit')]}"
        if name in found:
            sys.exit(f"edits.py: {name} is in edits/ and in must-fail/")
        found[name] = path
    return dict(sorted(found.items()))


def goals_listed():
    with open(LIST, encoding="utf-8") as file:
        return dict(line.rstrip("\n").split(" ", 1) for line in file)


def texts_replaced(path):
    """Each text that the edit replaces, with the file that has it."""
    file = None
    with open(path, encoding="utf-8") as edit:
        for line in edit.read().split("\n"):
            if line.startswith("file: "):
                file = os.path.join(os.path.dirname(os.path.dirname(path)), line[len("file: ") :])
            elif line.startswith("old: "):
                yield file, line[len("old: ") :]


def stands_once(file, text):
    with open(file, encoding="utf-8") as source:
        return source.read().count(text) == 1


def goal_of(told):
    """The file and the goal that refused an edit, of the rest of the line that rt prints; nothing where it was not refused."""
    if not told.startswith("refused"):
        return None
    file = re.search(r"([\w./]+):\d+:\d+: ", told)
    goal = re.search(r"\(`([^`]+)", told) or re.search(r"error: `([^`]+)", told) or re.search(r": (?:error|note): (.{,80})", told)
    return f"{file[1].removeprefix('./') if file else '-'} {goal[1] if goal else '-'}"


def goals_told(log):
    """The goal of each edit of a log; nothing where it was not refused."""
    with open(log, encoding="utf-8", errors="replace") as file:
        found = (TRIED.match(line.rstrip("\n")) for line in file)
        return {match[1]: goal_of(match[2]) for match in found if match}


def check_list(found, listed):
    for name in sorted(found.keys() | listed.keys()):
        yield name in found and name in listed, f"{name}: {'not in scripts/edits.txt' if name in found else 'no such edit'}"
    for name, path in found.items():
        for file, text in texts_replaced(path):
            yield stands_once(file, text), f"{name}: not once in {os.path.relpath(file, TOP)}: {text[:80]}"


def check_log(found, listed, told):
    """Each edit of the log, and each that the gate has of a crate of which the log has some."""
    tried = {name.split("/")[0] for name in told}
    yield tried != set(), "the log has no edit"
    of_gate = {name for name, path in found.items() if "/must-fail/" in path and name.split("/")[0] in tried}
    for name in sorted(told.keys() | of_gate):
        goal = told.get(name)
        yield goal is not None and goal == listed.get(name), f"{name}: {goal or 'not tried, or not refused'}, and not {listed.get(name)}"


def write(told):
    listed = {name: goal for name, goal in goals_listed().items() if name in edits()} if os.path.exists(LIST) else {}
    listed.update({name: goal for name, goal in told.items() if goal})
    with open(LIST, "w", encoding="utf-8") as file:
        file.writelines(f"{name} {goal}\n" for name, goal in sorted(listed.items()))


def main(words):
    if words[:1] == ["--write"]:
        return write(goals_told(words[1]))
    listed = goals_listed()
    results = list(check_log(edits(), listed, goals_told(words[0])) if words else check_list(edits(), listed))
    for is_right, told in results:
        if not is_right:
            print(f"FAILED {told}")
    failed = sum(not is_right for is_right, _ in results)
    print(f"{len(results) - failed} passed, {failed} failed")
    return failed > 0


if __name__ == "__main__":
    sys.exit(main(sys.argv[1:]))
