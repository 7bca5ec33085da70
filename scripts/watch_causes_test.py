#!/usr/bin/env python3
"""What watch_causes.py and `svsim explain` say of traces that were worked out by hand: watch_causes_test.py PROGRAM, which stands for ./svsim.

Causes: the small kernel of examples/watch/kernel, right and with each of its mistakes (docs/C.md has them), and traces of a few records, one
for each reason and each reach. Each verdict of `watch` has to be in one finding. Reports: of these and of all traces of examples/ and of the
lists of cases, `watch` prints what the causes and the lines of `watch --all` give. Stories: one for each reason why a fence drops nothing.
The last line is `N passed, M failed`.
"""
import os, subprocess, sys, tempfile
from same_watch import traces
from watch_causes import BY_ASID, NO_FENCE, NO_FLUSH, NOT_DONE, NOT_THIS_HART, OTHER_ASID, OTHER_PAGE, TOP, cause_text, causes_of, numbered, told
from trace_lines import access, bare, claim, fence, given_back, given_out, header, kernel_leaf, leaf, line_of, pointer, remote_fence, satp, store

# What the mistake of the kernel (scenes.c, kernel.c) leaves undone.
KERNEL = {
    "0": [],
    "11": [(False, "claim", NOT_THIS_HART)],  # unmap takes hart 2 off the flush's mask
    "12": [(False, "claim", NOT_THIS_HART)],  # so does leaving a space
    "13": [(False, "free", NO_FLUSH)],  # give_back stands before do_flush
    "14": [(False, "claim", OTHER_ASID)],  # the flush's ASID is one more
    "15": [(False, "free", NO_FLUSH)],  # do_flush stands before the store
    "21": [(False, "claim", NO_FENCE)],  # fork's flush names no hart
    "22": [(False, "claim", NO_FENCE)],  # nor does that of a copy
    "31": [(False, "claim", OTHER_PAGE)],  # the fence of a superpage names one page
    "32": [],  # a cached pointer
    "41": [(True, "claim", BY_ASID)],  # a page of the kernel is fenced under an ASID
    "51": [(False, "free", NO_FLUSH)],  # the end of a process flushes nothing
}
ROOT, MIDDLE, LEAVES, OTHER = 0x80000, 0x80001, 0x80002, 0x80010
PAGE = 0x1000
BEGIN, END = line_of("c", 0, 1, None, PAGE, PAGE), line_of("d", 0, 1)


def unmapped(word=leaf(0x200)):
    """Harts 0 and 1 hold the page, and hart 0 takes it out of the tables."""
    yield from (header(3), store(ROOT, 0, pointer(MIDDLE)), store(MIDDLE, 0, pointer(LEAVES)), given_out(0x200), store(LEAVES, 1, word))
    yield from (satp(0, ROOT), satp(1, ROOT), fence(0), fence(1), store(LEAVES, 1))


BOTH, ONE = "0 reachable, 1 reachable", "1 reachable"
# The records behind that, and each cause: kernel or not, first verdict, reason; and of each finding its hart and its reach.
ROWS = [
    ("a flush without a fence", [BEGIN, END], [(False, "claim", NO_FENCE, BOTH)]),
    ("a fence of hart 0 alone", [BEGIN, fence(0, PAGE, 1), END], [(False, "claim", NOT_THIS_HART, ONE)]),
    ("a remote fence of a third hart", [BEGIN, fence(0), *remote_fence(0, 2, 4, 0, 0), END], [(False, "claim", NOT_THIS_HART, ONE)]),
    ("both under ASID 2", [BEGIN, fence(0, None, 2), *remote_fence(0, 2, 2, 0, 0, 2), END], [(False, "claim", OTHER_ASID, BOTH)]),
    ("hart 1 for the next page", [BEGIN, fence(0), *remote_fence(0, 2, 2, 2 * PAGE, PAGE), END], [(False, "claim", OTHER_PAGE, ONE)]),
    ("the wrong ASID, and then the wrong page",
     [BEGIN, fence(0), *remote_fence(0, 2, 2, 0, 0, 2), *remote_fence(0, 3, 2, 2 * PAGE, PAGE, 1), END], [(False, "claim", OTHER_PAGE, ONE)]),
    ("asked, and not waited for", [BEGIN, fence(0), line_of("r", 0, 2, 2, 0, 0, None), END], [(False, "claim", NOT_DONE, ONE)]),
    ("by interrupts, hart 1 for the next page", [BEGIN, fence(0), fence(1, 2 * PAGE), END], [(False, "claim", OTHER_PAGE, ONE)]),
    ("freed with no flush", [given_back(0x200)], [(False, "free", NO_FLUSH, BOTH)]),
    ("freed after a flush of another page", [*claim(1, None, 2 * PAGE, PAGE), given_back(0x200)], [(False, "free", NO_FLUSH, BOTH)]),
    ("freed within a flush", [BEGIN, fence(0), given_back(0x200)], [(False, "free", NOT_THIS_HART, ONE)]),
    ("freed before the fence is done", [BEGIN, fence(0), line_of("r", 0, 2, 2, 0, 0, None), given_back(0x200)], [(False, "free", NOT_DONE, ONE)]),
    ("freed within a flush whose token begins again", [BEGIN, line_of("c", 0, 1, None, 2 * PAGE, PAGE), given_back(0x200)],
     [(False, "free", NO_FENCE, BOTH)]),
    ("asked, and the token begins again", [BEGIN, fence(0), line_of("r", 0, 2, 2, 0, 0, None), line_of("r", 0, 2, 4, 0, 0, None), END],
     [(False, "claim", NOT_DONE, ONE)]),
    ("given out again", [given_out(0x200)], [(False, "reuse", NO_FLUSH, BOTH)]),
    ("used", [BEGIN, fence(0), END, access(1, PAGE)], [(False, "claim", NOT_THIS_HART, "1 used")]),
    ("hart 1 is elsewhere until it fences",
     [satp(1, OTHER, 2), BEGIN, fence(0), END, fence(1), satp(1, ROOT)], [(False, "claim", NOT_THIS_HART, "1 not reached")]),
    ("and comes back without a fence",
     [satp(1, OTHER, 2), BEGIN, fence(0), END, fence(1, None, 2), satp(1, ROOT)], [(False, "claim", NOT_THIS_HART, ONE)]),
    ("hart 1 is nowhere", [bare(1), BEGIN, fence(0), END, *remote_fence(0, 2, 2, 0, 0), satp(1, ROOT)],
     [(False, "claim", NOT_THIS_HART, "1 not reached")]),
    ("two causes", [BEGIN, fence(0), END, store(LEAVES, 1, leaf(0x201)), store(LEAVES, 1), given_back(0x201)],
     [(False, "free", NO_FLUSH, BOTH), (False, "claim", NOT_THIS_HART, ONE)]),
    ("a page of the kernel under an ASID", [BEGIN, fence(0, None, 0), *remote_fence(0, 2, 2, 0, 0, 1), END],
     [(True, "claim", BY_ASID, BOTH)], kernel_leaf(0x200)),
]
# The records behind `unmapped`, and the lines that `svsim explain` tells of the first verdict on hart 1: the number of each, and what it says.
# Lines 1 to 10 are `unmapped`: 2, 3 and 5 map the page, 6 and 7 write satp, 8 and 9 fence, 10 unmaps it.
WAY, STALE, TAKES = "a word on the way to the page", "stale from here on", "hart 1 fences the page"
LEAVES_IT, FLUSHES, CLEAN = "hart 1 leaves the address space, and may keep the page", "a flush begins", "the flush returns"
ELSEWHERE, NOT_KNOWN, BACK = "a fence, not for hart 1", "a remote fence for the page, not known to be done", "frames are given back"
BEGINNING = {2: WAY, 3: WAY, 5: WAY, 7: "hart 1 enters the address space", 9: TAKES, 10: STALE}
STORIES = [
    ("not for the hart", [BEGIN, fence(0, PAGE, 1), END, given_back(0x200), access(1, PAGE)], {11: FLUSHES, 12: ELSEWHERE, 13: CLEAN}),
    ("another ASID, other pages, not waited for",
     [BEGIN, *remote_fence(2, 2, 2, 0, 0, 2), fence(0), line_of("r", 0, 3, 2, 2 * PAGE, PAGE, None), line_of("r", 0, 4, 2, 0, 0, None), END],
     {11: FLUSHES, 12: "a remote fence, not for asid 1", 14: ELSEWHERE, 15: "a remote fence, not for page 1000", 16: NOT_KNOWN, 17: CLEAN}),
    # mapped again just so, the page is not stale: it is from 13 on
    ("left, mapped and unmapped again", [satp(1, OTHER, 2), store(LEAVES, 1, leaf(0x200)), store(LEAVES, 1), given_out(0x200)],
     {10: WAY, 11: LEAVES_IT, 12: WAY, 13: STALE, 14: "frames are given out"}),
    ("left later", [satp(1, OTHER, 2), given_back(0x200)], {12: BACK}),
    ("done later", [BEGIN, fence(0), line_of("r", 0, 2, 2, 0, 0, None), END, line_of("e", 0, 2)],
     {11: FLUSHES, 12: ELSEWHERE, 13: NOT_KNOWN, 14: CLEAN}),
    # a table is taken out and comes back; the other root has the same ASID
    ("mapped by a pointer", [store(LEAVES, 1, leaf(0x200)), store(MIDDLE, 0), store(MIDDLE, 0, pointer(LEAVES)), satp(1, OTHER), store(LEAVES, 1), given_back(0x200)],
     {3: None, 5: None, 10: None, 11: WAY, 13: WAY, 14: LEAVES_IT, 15: STALE, 16: BACK}),
    ("fences of others are left out", [fence(2), fence(0), given_back(0x200)], {13: BACK}),
]


def answered(program, lines, answer):
    with tempfile.NamedTemporaryFile("w", suffix=".trace") as file:
        file.write("\n".join(lines) + "\n")
        file.flush()
        return answer(program, file.name)


def story(program, path, lines):
    """What is told of the first verdict on hart 1, by the number of the line."""
    for number in range(2, lines + 1):
        done = subprocess.run([program, "explain", path, str(number), "--hart", "1"], capture_output=True, text=True)
        if done.returncode == 0:
            told = [line.split(":", 2) for line in done.stdout.splitlines()[2:] if line[0] == "#"]
            return {int(number): text.strip() for _, number, text in told}
    return {}


def is_whole(causes, last):
    """Each verdict is in one finding."""
    told = sum(sum(finding.verdicts.values()) for _, findings in causes for finding in findings)
    return f", {told} verdict" in last or (told == 0 and ", no verdict" in last)


def report(program, path):
    """What `watch` has to print of a trace by causes, and what it prints."""
    causes, last, _, trace = causes_of(program, path)
    blocks, totals = [], []
    for number, (key, findings) in sorted(numbered(causes), key=lambda item: item[0]):
        blocks += [findings[0].text, f"  cause {number}: {cause_text(key)}"]
    for number, (key, findings) in numbered(causes):
        totals += told(path, trace, number, key, findings)
    printed = subprocess.run([program, "watch", path], capture_output=True, encoding="utf-8", errors="surrogateescape").stdout
    return "".join(f"{line}\n" for line in [*blocks, *totals]) + last, printed


def reports(program):
    rows = ["".join(f"{line}\n" for line in [*unmapped(*word), *behind]) for _, behind, _, *word in ROWS]
    for text in [*rows, *traces()]:
        with tempfile.NamedTemporaryFile("w", suffix=".trace", encoding="utf-8", newline="") as file:
            file.write(text)
            file.flush()
            wanted, printed = report(program, file.name)
        yield f"report of {text[:200]!r}", wanted == printed, printed


def results(program):
    for name, wanted in KERNEL.items():
        causes, last, _, _ = causes_of(program, f"{TOP}/examples/cases/watch/kernel-{name}.trace")
        got = [key for key, _ in causes]
        yield f"kernel {name}", got == wanted and is_whole(causes, last), got
    for title, behind, wanted, *word in ROWS:
        causes, last, _, _ = answered(program, [*unmapped(*word), *behind], causes_of)
        got = [(*key, ", ".join(f"{f.hart} {f.reach}" for f in sorted(findings, key=lambda f: f.hart))) for key, findings in causes]
        yield title, got == wanted and is_whole(causes, last), got
    for title, behind, wanted in STORIES:
        lines = [*unmapped(), *behind]
        got = answered(program, lines, lambda program, path: story(program, path, len(lines)))
        yield f"story: {title}", got == {number: text for number, text in {**BEGINNING, **wanted}.items() if text}, got


def main(program):
    passed = failed = 0
    for title, is_right, got in [*results(program), *reports(program)]:
        passed, failed = passed + is_right, failed + (not is_right)
        if not is_right:
            print(f"FAILED {title}: {got}")
    print(f"{passed} passed, {failed} failed")
    return failed > 0


if __name__ == "__main__":
    if len(sys.argv) != 2 or not os.access(sys.argv[1], os.X_OK):
        sys.exit("usage: watch_causes_test.py PROGRAM")
    sys.exit(main(os.path.abspath(sys.argv[1])))
