#!/usr/bin/env python3
"""Makes a trace of the program `workloads`: workloads.py NAME SEED RECORDS [digest]

NAME is processes, harts, lazy or verdicts; the trace of `ranges` is not made here. `workloads NAME SEED RECORDS`
makes this trace up to the 120,000 records of processes, 100,000 of harts or verdicts, or 400,000 of lazy. Of more records it makes
several traces, one after another: the next is the one of SEED + 2^32 here, then that of SEED + 2 * 2^32.

With `digest` it prints, in place of the trace, what `workloads NAME SEED RECORDS` has to print of one trace
without a verdict, which is the line with the counts. watch_definitions.py has to find no verdict by the
definitions: where it finds some, as in a long trace of lazy, there is no digest. It takes a minute for a
thousand records.
"""
import os, subprocess, sys, tempfile

from trace_lines import KERNEL, header, kernel_leaf, leaf, line_of, pointer, space

MASK = (1 << 64) - 1
KERNEL_BASE = 0xFFFFFFC000000000
SHAPES = {
    "processes": (4, 256, 64, False, False),
    "harts": (64, 16, 64, False, False),
    "lazy": (4, 24, 64, True, False),
    "verdicts": (4, 24, 64, False, True),
}


class Random:
    def __init__(self, seed):
        self.state = (seed * 2 + 1) & MASK

    def next(self):
        self.state = (self.state * 6364136223846793005 + 1442695040888963407) & MASK
        return self.state >> 33

    def below(self, limit):
        n = self.next()
        return n % limit if limit else 0


class Process:
    def __init__(self, tables, asid):
        self.tables, self.asid, self.frames, self.mapped, self.harts, self.seen = tables, asid, [0] * 512, [], 0, 0

    def free_index(self, random):
        for _ in range(16):
            i = random.below(512)
            if self.frames[i] == 0:
                return i
        return None

    def unmap(self, random):
        count = len(self.mapped)
        place = random.below(count)
        if place >= count:
            return None
        index = self.mapped[place]
        last = self.mapped.pop()
        if place < len(self.mapped):
            self.mapped[place] = last
        frame, self.frames[index] = self.frames[index], 0
        return index, frame


class Kernel:
    def __init__(self, shape, random):
        self.count, self.of, self.pages, self.lazy, self.forgets = shape
        self.random, self.lines, self.processes, self.at = random, [], [], []
        self.free, self.next_frame, self.next_asid, self.next_token = [], 0x90000, 0, 0

    def record(self, letter, hart, *fields):
        line = line_of(letter, hart, *fields)
        if self.lazy:
            line += f" @ffffffff80{ord(letter) << 20 | self.random.below(48 if letter == 'w' else 1 << 20):x}"
        self.lines.append(line)

    def store(self, hart, table, index, word):
        self.record("w", hart, (table << 12) + index * 8, word)

    def give_out(self, hart):
        count = len(self.free)
        place = self.random.below(count)
        if count > 200 and place < count:
            frame = self.free[place]
            last = self.free.pop()
            if place < len(self.free):
                self.free[place] = last
        else:
            self.next_frame += 1
            frame = self.next_frame
        self.record("a", hart, frame, 1)
        return frame

    def give_back(self, hart, frame):
        self.free.append(frame)
        self.record("z", hart, frame, 1)

    def fence_others(self, hart, harts, start, size, asid):
        if harts:
            self.next_token += 1
            self.record("r", hart, self.next_token, harts, start, size, asid)
            self.record("e", hart, self.next_token)

    def others(self, hart):
        return (MASK >> (64 - self.count)) & ~(1 << hart)

    def boot(self):
        self.upper, self.lower = self.give_out(0), self.give_out(0)
        self.store(0, self.upper, 0, pointer(self.lower))
        for n in range(64):
            self.store(0, self.upper, 100 + n, kernel_leaf(0x80000 + (n << 9)))
        self.own = [0] * 64

    def fork(self, hart):
        root, middle, low = self.give_out(hart), self.give_out(hart), self.give_out(hart)
        self.next_asid = self.next_asid % 0xFFFE + 1
        self.store(hart, root, KERNEL, pointer(self.upper, is_global=True))
        self.store(hart, root, 0, pointer(middle))
        self.store(hart, middle, 0, pointer(low))
        return Process((root, middle, low), self.next_asid)

    def switch(self, hart, to):
        self.processes[self.at[hart]].harts &= ~(1 << hart)
        self.at[hart] = to
        p = self.processes[to]
        p.harts |= 1 << hart
        p.seen |= 1 << hart
        self.record("s", hart, space(p.tables[0], p.asid))

    def fault(self, hart, p):
        index = p.free_index(self.random)
        if index is None:
            return
        frame = self.give_out(hart)
        self.store(hart, p.tables[2], index, leaf(frame))
        p.frames[index] = frame
        p.mapped.append(index)
        self.record("f", hart, index << 12, None if self.lazy else p.asid)

    def unmap(self, hart, p):
        gone = p.unmap(self.random)
        if gone is None:
            return
        index, frame = gone
        self.store(hart, p.tables[2], index, 0)
        self.record("f", hart, index << 12, p.asid)
        if not self.forgets:
            self.fence_others(hart, p.seen & ~(1 << hart), index << 12, 4096, p.asid)
        self.give_back(hart, frame)

    def change_own(self, hart):
        index = self.random.below(64)
        va, old = KERNEL_BASE + index * 4096, self.own[index]
        if old == 0:
            frame = self.give_out(hart)
            self.store(hart, self.lower, index, kernel_leaf(frame))
            self.own[index] = frame
            self.record("f", hart, va, None)
            return
        self.store(hart, self.lower, index, 0)
        self.own[index] = 0
        if not self.lazy:
            self.record("f", hart, va, None)
            self.fence_others(hart, self.others(hart), va, 4096, None)
        self.give_back(hart, old)

    def exit(self, hart, of):
        if self.processes[of].harts:
            return
        new = self.fork(hart)
        old, self.processes[of] = self.processes[of], new
        root, middle, low = old.tables
        if self.lazy:
            for index in range(64):
                self.store(hart, low, index, 0)
        for index in old.mapped:
            self.store(hart, low, index, 0)
        self.record("c", hart, old.asid, root, 0, MASK)
        self.record("f", hart, None, old.asid)
        self.fence_others(hart, old.seen & ~(1 << hart), 0, MASK, old.asid)
        self.record("d", hart, old.asid)
        for index in old.mapped:
            self.give_back(hart, old.frames[index])
        self.store(hart, middle, 0, 0)
        self.store(hart, root, 0, 0)
        self.store(hart, root, KERNEL, 0)
        for table in (low, middle, root):
            self.give_back(hart, table)

    def act(self):
        hart = self.random.below(self.count)
        dice = self.random.below(1000)
        p = self.processes[self.at[hart]]
        count = len(p.mapped)
        if dice < 120:
            self.switch(hart, self.random.below(self.of))
        elif dice < 960 and (dice < 660 and count < self.pages or count == 0):
            self.fault(hart, p)
        elif dice < 960:
            self.unmap(hart, p)
        elif dice < 985:
            self.change_own(hart)
        else:
            self.exit(hart, self.random.below(self.of))


def trace(name, seed, records):
    kernel = Kernel(SHAPES[name], Random(seed))
    kernel.boot()
    for _ in range(kernel.of):
        kernel.processes.append(kernel.fork(0))
    for hart in range(kernel.count):
        kernel.at.append(0)
        kernel.switch(hart, hart % kernel.of)
    settled = 0
    for _ in range(records * 16):
        if len(kernel.lines) >= records:
            break
        kernel.act()
        if kernel.lazy and len(kernel.lines) >= settled + 30000:
            settled = len(kernel.lines)
            kernel.fence_others(0, kernel.others(0) | 1, KERNEL_BASE, 64 * 4096, None)
    return "".join(line + "\n" for line in (header(kernel.count), *kernel.lines))


def digest(text):
    value = 0xCBF29CE484222325
    for byte in text:
        value = (value ^ byte) * 0x100000001B3 & MASK
    # the status 0, as one number of eight bytes
    return f"{value * 0x100000001B3 & MASK:016x} {len(text) + 8}"


def main(name, seed, records, *more):
    text = trace(name, int(seed), int(records))
    if not more:
        sys.stdout.write(text)
        return
    with tempfile.NamedTemporaryFile("w") as file:
        file.write(text)
        file.flush()
        here = os.path.dirname(os.path.realpath(__file__))
        out = subprocess.run([sys.executable, f"{here}/watch_definitions.py", file.name], stdout=subprocess.PIPE)
    if out.returncode:
        sys.exit("there are verdicts")
    print(digest(out.stdout))


if __name__ == "__main__":
    if len(sys.argv) not in (4, 5) or sys.argv[1] not in SHAPES:
        sys.exit(__doc__.split("\n", 1)[0])
    main(*sys.argv[1:])
