"""A right kernel of Sv39 with ASIDs, as kinds of traces vary it."""
import random

from trace_lines import EVERY, KERNEL, address, fence, given_back, given_out, header, kernel_leaf, leaf, pointer, remote_fence, satp
from trace_lines import store

ACCESSED = 0x40


class Process:
    def __init__(self, root, middle, leaves, asid):
        self.root, self.middle, self.leaves, self.asid = root, middle, leaves, asid
        self.pages = {}  # frames, by indexes in the table of leaves
        self.on = self.seen = 0  # harts that run it, and harts that have run it, as bits
        self.stays = False


class Kernel:
    """One with ASIDs: it fences what it unmaps on each hart that has run the process."""

    def __init__(self, harts, processes, seed):
        self.harts, self.random = harts, random.Random(seed)
        self.hart = 0  # the one that acts
        self.lines, self.free, self.next_frame = [], [], 0x90000
        self.token = self.asid = 0
        self.middle, self.leaves = self.frame(), self.frame()
        self.store(self.middle, 0, pointer(self.leaves))
        for i in range(64):
            self.store(self.middle, 100 + i, kernel_leaf(0x80000 + (i << 9)))
        self.own = {}  # frames, by indexes in the kernel's table of leaves
        self.at = [None] * harts
        self.processes = [self.fork() for _ in range(processes)]

    def trace(self, records, act=None):
        """So many records, of which acts make what is missing."""
        while len(self.lines) < records:
            (act or self.act)()
        yield header(self.harts)
        yield from self.lines[:records]

    def others(self, harts=EVERY):
        return harts & ~(1 << self.hart)

    def store(self, table, index, word=0):
        self.lines.append(store(table, index, word, self.hart))

    def fence(self, va=None, asid=None):
        self.lines.append(fence(self.hart, va, asid))

    def remote_fence(self, harts, start, size, asid=None):
        if harts:
            self.token += 1
            self.lines += remote_fence(self.hart, self.token, harts, start, size, asid)

    def frame(self):
        if len(self.free) > 200:
            frame = self.free.pop(self.random.randrange(len(self.free)))
        else:
            frame = self.next_frame
            self.next_frame += 1
        self.lines.append(given_out(frame, 1, self.hart))
        return frame

    def megapage(self):
        """The first of 512 frames."""
        first = -(-self.next_frame // 512) * 512
        self.next_frame = first + 512
        self.lines.append(given_out(first, 512, self.hart))
        return first

    def give_back(self, frame):
        self.free.append(frame)
        self.lines.append(given_back(frame, 1, self.hart))

    def table(self, above, index):
        """A new one."""
        frame = self.frame()
        self.store(above, index, pointer(frame))
        return frame

    def fork(self):
        self.asid = self.asid % 0xFFFE + 1
        process = Process(self.frame(), self.frame(), self.frame(), self.asid)
        self.store(process.root, KERNEL, pointer(self.middle, is_global=True))
        self.store(process.root, 0, pointer(process.middle))
        self.store(process.middle, 0, pointer(process.leaves))
        return process

    def switch(self, process):
        if self.at[self.hart]:
            self.at[self.hart].on = self.others(self.at[self.hart].on)
        self.at[self.hart] = process
        process.on |= 1 << self.hart
        process.seen |= 1 << self.hart
        self.lines.append(satp(self.hart, process.root, process.asid))

    def start(self, processes=None):
        """Each hart runs one of these processes, in turn."""
        processes = processes or self.processes
        for hart in range(self.harts):
            self.hart = hart
            self.switch(processes[hart % len(processes)])
        self.hart = 0
        return self

    def map(self, process, index):
        if index not in process.pages:
            process.pages[index] = self.frame()
            self.store(process.leaves, index, leaf(process.pages[index]))
            self.fence(index << 12, process.asid)

    def unmap(self, process, harts):
        """A page of a process, with fences of these harts."""
        index = self.random.choice(list(process.pages))
        self.store(process.leaves, index)
        self.fence(index << 12, process.asid)
        self.remote_fence(self.others(harts), index << 12, 0x1000, process.asid)
        self.give_back(process.pages.pop(index))

    def change_own(self, index):
        """A page of the kernel comes or goes."""
        page = address(KERNEL, 0, index)
        if index in self.own:
            self.store(self.leaves, index)
            self.fence(page)
            self.remote_fence(self.others((1 << self.harts) - 1), page, 0x1000)
            self.give_back(self.own.pop(index))
        else:
            self.own[index] = self.frame()
            self.store(self.leaves, index, kernel_leaf(self.own[index]))
            self.fence(page)

    def exit(self, place):
        """A process that no hart runs ends, and another comes."""
        process = self.processes[place]
        if process.on or process.stays:
            return
        for index in process.pages:
            self.store(process.leaves, index)
        self.fence(None, process.asid)
        self.remote_fence((1 << self.harts) - 1, 0, EVERY, process.asid)
        for frame in process.pages.values():
            self.give_back(frame)
        for table, index in ((process.middle, 0), (process.root, 0), (process.root, KERNEL)):
            self.store(table, index)
        for table in (process.leaves, process.middle, process.root):
            self.give_back(table)
        self.processes[place] = self.fork()

    def dice(self):
        """The process of the hart that acts next, and a number below 1."""
        self.hart = self.random.randrange(self.harts)
        return self.at[self.hart], self.random.random()

    def act(self):
        process, dice = self.dice()
        if dice < .12:
            self.switch(self.random.choice(self.processes))
        elif dice < .66 or not process.pages:
            is_full = len(process.pages) >= 64
            self.map(process, self.random.choice(list(process.pages)) if is_full else self.random.randrange(512))
        elif dice < .96:
            self.unmap(process, process.seen)
        elif dice < .985:
            self.change_own(self.random.randrange(64))
        else:
            self.exit(self.random.randrange(len(self.processes)))

    def act_with_own(self):
        """As above; in one of ten a page of the kernel comes or goes too."""
        self.act()
        if self.random.random() < .1:
            self.hart = self.random.randrange(self.harts)
            self.change_own(self.random.randrange(64))

    def store_aged(self, table, index, frame):
        """A leaf whose A the kernel clears without a fence, as Linux does."""
        self.store(table, index, leaf(frame))
        self.store(table, index, leaf(frame) & ~ACCESSED)
