#!/usr/bin/env python3
"""How much there is to believe: the lines of all definitions that a promise of a machine names, and of those that these name, and so on,
without comments and `use` lines; by promise and by crate. The promises are definitions of crates/stepcore/specs/Runs.antt. Types of the
code are not counted, nor what the toolchain defines.
"""
import functools, os, re

TOP = os.path.dirname(os.path.dirname(os.path.abspath(__file__)))
FIRST = f"{TOP}/crates/stepcore/specs/Runs.antt"
USE = re.compile(r"(?:pub )?use (\S+)\.\{(.*)\}$")
KIND = re.compile(r"(?:pub )?(?:abbrev|unfoldable|record|data) (?:pub )?")
NAME = re.compile(r"[A-Za-z_][A-Za-z0-9_]*")
MAILBOXES = ["MailboxesKeepOrder", "NothingAfterCloses"]
PROMISES = MAILBOXES + ["IsClear", "IsClearOnceDone", "IsCoherent"]
OTHERS = ["TlbsHoldUsedAsids", "HartsAreInLiveSpaces", "WalksHoldUsedFrames"]
COUNTS = {
    "Clear": ["IsClear"],
    "done": ["IsClearOnceDone"],
    "coherent": ["IsCoherent"],
    "mailboxes": MAILBOXES,
    "once in all": PROMISES,
    "with the parts asids, spaces and frames": PROMISES + OTHERS,
}


def module_path(module):
    """The file of a module, as Rattle.tlb.specs.Fence; None for one of the toolchain or of the code's types."""
    _, crate, *rest = module.split(".")
    path = f"{TOP}/crates/{crate}/{'/'.join(rest)}.antt"
    return path if os.path.exists(path) else None


@functools.cache
def read(path):
    """The lines of each definition of a file, and where each name that it uses is defined: a module, and the name there."""
    definitions, used, here = {}, {}, []
    with open(path, encoding="utf-8") as file:
        for line in file.read().split("\n"):
            use, kind = USE.match(line), KIND.match(line)
            if use:
                for each in use[2].split(","):
                    name, _, other = each.strip().partition(" as ")
                    used[other or name] = (use[1], name)
            elif kind:
                here = definitions[NAME.match(line, kind.end())[0]] = [line]
            elif not line.strip():
                here = []
            elif not line.strip().startswith("--"):
                here.append(line)
    return definitions, used


def owner(name, definitions):
    """The type that has a constructor of this name."""
    begins = re.compile(rf"\s+{name} :")
    for each, lines in definitions.items():
        if "data " in lines[0] and any(map(begins.match, lines)):
            return each
    return None


def visit(path, name, seen):
    """Adds the definition of a name that stands in a file, and those that it names, to the counts of lines by file and name."""
    definitions, used = read(path)
    if name in used:
        other = module_path(used[name][0])
        if other:
            visit(other, used[name][1], seen)
        return
    name = name if name in definitions else owner(name, definitions)
    if name is None or (path, name) in seen:
        return
    seen[path, name] = len(definitions[name])
    for each in set(NAME.findall("\n".join(definitions[name]))):
        visit(path, each, seen)


def counts():
    """Of each promise the number of lines, of definitions, and of lines by crate."""
    for title, names in COUNTS.items():
        seen, crates = {}, {}
        for name in names:
            visit(FIRST, name, seen)
        for (path, _), lines in seen.items():
            crate = os.path.relpath(path, f"{TOP}/crates").split(os.sep)[0]
            crates[crate] = crates.get(crate, 0) + lines
        yield title, sum(seen.values()), len(seen), crates


if __name__ == "__main__":
    for title, lines, definitions, crates in counts():
        print(f"{title}: {lines} lines of {definitions} definitions: {', '.join(f'{it} {crates[it]}' for it in sorted(crates))}")
