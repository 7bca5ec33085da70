#!/usr/bin/env python3
"""What the gate costs, crate by crate: gate_costs.py [--side-by-side N] [--functions] [NAME ..]

Works on clones of this checkout's last commit, in a temporary folder. For each crate, or for those named, it times whole commands, and
prints the processor's minutes, user's and system's, lowest crates first:

- proofs, tests, programs: `rt ci NAME`, with the crate's edits in must-fail/.
- proofs, with --functions alone, since it is one more check of the crate: `rt check`. It also lists the ten functions whose proofs take
  longest, by the moments at which rt prints that they are checked (one job).

N calls run at a time, 1 if left out, each once those of the crates that it uses have ended. What scripts/try_edits.py costs it prints itself.

What passed is kept on the machine, so each call does what is new alone: on a machine that has kept nothing yet, the sum over all crates
is somewhat more than `rt ci` takes from nothing, since each call is a run of its own. Of crates that are named the first then has the cost
of those below it too. The status is 1 if a call failed.
"""
import os, re, shutil, subprocess, sys, tempfile, threading, time
from try_edits import TOP, crates_listed


class Costs:
    """Calls of rt, each in a clone of its own, with what they cost."""

    def __init__(self, folder, at_once):
        self.folder, self.failed, self.turns = folder, False, threading.Semaphore(at_once)

    def minutes(self, crate, *words, folder="."):
        """The processor's minutes of a call, and what it printed, each line with the second at which it came."""
        with self.turns:
            clone, lines = f"{self.folder}/{crate}-{words[0]}", []
            subprocess.run(["git", "clone", "-q", TOP, clone], check=True)
            begun = time.monotonic()
            call = subprocess.Popen(["rt", *words], cwd=f"{clone}/{folder}", stdin=subprocess.DEVNULL, stdout=subprocess.PIPE,
                                    stderr=subprocess.STDOUT, text=True, errors="replace")
            for line in call.stdout:
                lines.append((time.monotonic() - begun, line.rstrip("\n")))
            _, status, used = os.wait4(call.pid, 0)
            call.returncode = status
            shutil.rmtree(clone)
        if status:
            self.failed = True
            print("\n".join(line for _, line in lines[-40:]), file=sys.stderr)
        return (used.ru_utime + used.ru_stime) / 60, lines


def function_times(lines):
    """Seconds from the line before to the line that a function is checked."""
    before = 0.0
    for at, line in lines:
        match = re.match(r"checked (\S+), ", line)
        if match:
            yield at - before, match[1]
        before = at


class Crate(threading.Thread):
    """The costs of one crate, found once those that it uses are proved."""

    def __init__(self, name, below, costs, has_functions):
        super().__init__()
        self.crate, self.below, self.costs, self.has_functions = name, below, costs, has_functions
        self.proved = threading.Event()
        self.proofs, self.whole, self.functions = None, 0.0, []

    def run(self):
        for crate in self.below:
            crate.proved.wait()
        try:
            if self.has_functions:
                self.proofs, lines = self.costs.minutes(self.crate, "check", "--jobs", "1", folder=f"crates/{self.crate}")
                self.functions = list(function_times(lines))
            self.whole, _ = self.costs.minutes(self.crate, "ci", self.crate)
            print(f"| {self.crate} | {'' if self.proofs is None else f'{self.proofs:.1f}'} | {self.whole:.1f} |", flush=True)
        finally:
            self.proved.set()


def main(words):
    at_once = 1
    if "--side-by-side" in words:
        at = words.index("--side-by-side")
        at_once = int(words[at + 1]) if words[at + 1:] and words[at + 1].isdigit() else 0
        words = words[:at] + words[at + 2:]
    has_functions, named, known = "--functions" in words, [word for word in words if word != "--functions"], crates_listed()
    if not at_once or set(named) - set(known):
        sys.exit(__doc__)
    begun = time.monotonic()
    with tempfile.TemporaryDirectory() as folder:
        costs, found = Costs(folder, at_once), {}
        print("| crate | proofs | proofs, tests, programs |\n|---|---|---|", flush=True)
        for name, uses in known.items():
            if not named or name in named:
                found[name] = Crate(name, [found[use] for use in uses if use in found], costs, has_functions)
                found[name].start()
        for crate in found.values():
            crate.join()
        print(f"| all | | {sum(row.whole for row in found.values()):.1f} |")
        print(f"\n{(time.monotonic() - begun) / 60:.0f} minutes by the clock, {at_once} at a time")
        dearest = sorted((function for row in found.values() for function in row.functions), reverse=True)[:10]
        if dearest:
            print("\n| function | seconds |\n|---|---|")
            print("\n".join(f"| {name} | {seconds:.0f} |" for seconds, name in dearest))
    return costs.failed


if __name__ == "__main__":
    sys.exit(main(sys.argv[1:]))
