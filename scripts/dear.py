#!/usr/bin/env python3
"""Judges two programs `svsim` by traces on which `watch` could get dear.

dear.py OLD NEW [--turns N] [--sizes K] [--differ] [--all] [KIND ..]   judges them by these kinds of traces, or by all
dear.py --print KIND N                                         prints a trace
dear.py --list                                                 prints the kinds, their sizes, and what grows with these

Both programs read each trace by turns, with `--all` as `svsim watch --all`: N turns, or 3, of the first K of the kind's sizes, or all 3. A line has the least seconds of the
processor, user's and system's, of OLD and NEW; NEW's over OLD's; and the least peaks of memory. It is marked

    SLOWER     over twice the time of OLD and 0.01 s
    LARGER     over three times the memory of OLD and 1 MB
    DIFFERENT  another output or status; with --differ another status alone
    FAILED     a status that is neither 0 nor 1; a run ends after 60 s

The last lines name the kinds that grow: where both took over 0.05 s at the first size, and the ratio of times at the third is over 1.5
times that at the first. The status is 1 if a line is marked. It needs Debian's package time, which measures memory.
"""
import hashlib, os, resource, subprocess, sys, tempfile

from dear import KINDS, frames, held, kernels, left, notes  # these fill KINDS

LIMIT = 60


def limit():
    resource.setrlimit(resource.RLIMIT_CPU, (LIMIT, LIMIT))


def run(program, folder, options):
    """The processor's seconds, the peak of memory in megabytes, and the status with a digest of the output."""
    call = ["/usr/bin/time", "-q", "-f", "%M", "-o", f"{folder}/peak", program, "watch", *options, f"{folder}/trace"]
    before = resource.getrusage(resource.RUSAGE_CHILDREN)
    with open(f"{folder}/output", "wb") as output:
        done = subprocess.run(call, stdin=subprocess.DEVNULL, stdout=output, stderr=output, preexec_fn=limit)
    after = resource.getrusage(resource.RUSAGE_CHILDREN)
    with open(f"{folder}/output", "rb") as output, open(f"{folder}/peak") as peak:
        digest, megabytes = hashlib.sha256(output.read()).digest(), int(peak.read().split()[-1]) / 1024
    return after.ru_utime + after.ru_stime - before.ru_utime - before.ru_stime, megabytes, (done.returncode, digest)


def by_turns(programs, folder, turns, options):
    """Of each program the least seconds and megabytes, and all statuses with their digests."""
    runs = [], []
    for turn in range(turns):
        for side in (0, 1) if turn % 2 == 0 else (1, 0):
            runs[side].append(run(programs[side], folder, options))
    return [(min(seconds), min(megabytes), set(answers)) for seconds, megabytes, answers in (zip(*of_one) for of_one in runs)]


def marks(old, new, differ):
    (was, room, said), (now, more, says) = old, new
    if now > 2 * was + 0.01:
        yield "SLOWER"
    if more > 3 * room + 1:
        yield "LARGER"
    if {status for status, _ in said} != {status for status, _ in says} or said != says and not differ:
        yield "DIFFERENT"
    if any(status not in (0, 1) for status, _ in said | says):
        yield "FAILED"


def ratio(times):
    old, new = times
    return new / max(old, 0.001)


def grows(times):
    """By the times at all three sizes."""
    return len(times) == 3 and min(times[0]) > 0.05 and ratio(times[2]) > 1.5 * ratio(times[0])


def judge(programs, names, turns, sizes, differ, options):
    marked, growing = 0, []
    with tempfile.TemporaryDirectory() as folder:
        for name in names:
            make, all_sizes = KINDS[name]
            times = []
            for size in all_sizes[:sizes]:
                with open(f"{folder}/trace", "w") as file:
                    file.writelines(f"{line}\n" for line in make(size))
                old, new = by_turns(programs, folder, turns, options)
                times.append((old[0], new[0]))
                due = list(marks(old, new, differ))
                marked += bool(due)
                row = f"{name:34}{size:8}  {old[0]:8.3f} {new[0]:8.3f} s {ratio(times[-1]):8.2f}  {old[1]:7.1f} {new[1]:7.1f} MB"
                print(" ".join((row, *due)), flush=True)
            if grows(times):
                growing.append(f"{name} grows: {ratio(times[0]):.2f} to {ratio(times[2]):.2f}")
    print("\n".join((*growing, f"{marked} marked")))
    return marked != 0


def main(words):
    if words == ["--list"]:
        for name, (make, sizes) in KINDS.items():
            print(f"{name:34}{', '.join(map(str, sizes)):24}{make.__doc__}")
        return
    if words[:1] == ["--print"] and len(words) == 3 and words[1] in KINDS and words[2].isdecimal():
        sys.stdout.writelines(f"{line}\n" for line in KINDS[words[1]][0](int(words[2])))
        return
    numbers, names, rest = {"--turns": 3, "--sizes": 3}, [], list(words)
    while rest:
        word = rest.pop(0)
        if word in numbers and rest and rest[0].isdecimal() and int(rest[0]):
            numbers[word] = int(rest.pop(0))
        elif word not in ("--differ", "--all"):
            names.append(word)
    programs, names = names[:2], names[2:]
    if len(programs) < 2 or any(word.startswith("-") for word in programs + names):
        sys.exit(__doc__)
    unknown = [name for name in names if name not in KINDS] + [path for path in programs if not os.access(path, os.X_OK)]
    if unknown:
        sys.exit(f"not there: {' '.join(unknown)}")
    programs = [os.path.abspath(path) for path in programs]
    sys.exit(judge(programs, names or KINDS, numbers["--turns"], numbers["--sizes"], "--differ" in words, [word for word in words if word == "--all"]))


if __name__ == "__main__":
    main(sys.argv[1:])
