"""Right kernels, and what some of them put off."""
import random

from dear import kind
from dear.kernel import Kernel
from trace_lines import EVERY, KERNEL, address, fence, given_back, given_out, header, kernel_leaf, leaf, pointer, satp, store


@kind(50000)
def plain_kernel(n):
    """4 harts, 256 processes, n records."""
    return Kernel(4, 256, 1).start().trace(n)


@kind(50000)
def aged_superpages(n):
    """4 harts, 40 processes, n records; at each 200th a hart maps a page of 2 MiB of one process, and clears A without a fence."""
    kernel = Kernel(4, 40, 5).start()
    process, count = kernel.processes[0], 0
    process.stays = True
    while len(kernel.lines) < n:
        kernel.act()
        if len(kernel.lines) // 200 > count:
            count += 1
            kernel.hart = kernel.random.randrange(4)
            before = kernel.at[kernel.hart]
            kernel.switch(process)
            if count % 511 == 1:
                table = kernel.table(process.root, 1 + count // 511)
            kernel.store_aged(table, count % 511, kernel.megapage())
            kernel.switch(before)
    return kernel.trace(n)


def aged_at_first(harts, processes, is_small):
    """A kernel that has cleared A of all pages of a process that ran on each hart: 1,000 of 2 MiB, or 3,000 small ones."""
    kernel = Kernel(harts, processes, 5)
    process = kernel.processes[0]
    process.stays = True
    kernel.start([process])
    above, first, frame = process.root, 1, kernel.megapage
    if is_small:
        above, first, frame = kernel.table(process.root, 1), 0, kernel.frame
    for i in range(6 if is_small else 2):
        table = kernel.table(above, first + i)
        for index in range(500):
            kernel.store_aged(table, index, frame())
    return kernel.start(kernel.processes[1:])


@kind(50000)
def aged_superpages_at_first(n):
    """4 harts, 40 processes, n records; first A of 1,000 pages of 2 MiB is cleared without a fence; their process ran on all harts."""
    return aged_at_first(4, 40, is_small=False).trace(n)


@kind(50000)
def aged_superpages_60(n):
    """The same with 8 harts, 60 processes, and a tenth of the acts on pages of the kernel."""
    kernel = aged_at_first(8, 60, is_small=False)
    return kernel.trace(n, kernel.act_with_own)


@kind(25000)
def aged_pages(n):
    """4 harts, 40 processes, 9,000 + n records; first A of 3,000 pages is cleared without a fence; their process ran on all harts."""
    return aged_at_first(4, 40, is_small=True).trace(9000 + n)


def lazy_huge(harts, processes, pages):
    """A kernel that has unmapped so many pages of 2 MiB of its own without a fence."""
    kernel = Kernel(harts, processes, 6).start()
    for i in range(pages):
        kernel.store(kernel.middle, 200 + i, kernel_leaf(kernel.megapage()))
    for i in range(pages):
        kernel.store(kernel.middle, 200 + i)
    return kernel


@kind(25000)
def lazy_huge_vmalloc(n):
    """64 harts, 50 processes, n records; first 32 pages of the kernel of 2 MiB are unmapped without a fence, as by a lazy vmalloc."""
    return lazy_huge(64, 50, 32).trace(n)


@kind(25000)
def lazy_huge_vmalloc_4(n):
    """The same with 4 harts, 60 processes, 200 such pages, and a tenth of the acts on pages of the kernel."""
    kernel = lazy_huge(4, 60, 200)
    return kernel.trace(n, kernel.act_with_own)


@kind(50000)
def flush_on_leave(n):
    """64 harts, 16 processes of 400 pages, n records; a hart that leaves a space fences its ASID, and gets no remote fence of it then."""
    def act():
        process, dice = kernel.dice()
        if dice < .3:
            kernel.switch(kernel.random.choice(kernel.processes))
            kernel.fence(None, process.asid)
        elif dice < .65 and len(process.pages) < 420:
            kernel.map(process, kernel.random.randrange(512))
        elif process.pages:
            kernel.unmap(process, process.on)

    kernel = Kernel(64, 16, 7).start()
    for process in kernel.processes:
        for index in range(400):
            kernel.map(process, index)
    return kernel.trace(len(kernel.lines) + n, act)


def idle(n, harts, by_page):
    def map_page(table, index):
        frames[table, index] = kernel.frame()
        kernel.store(tables[table], index, leaf(frames[table, index]))

    def act():
        table, index = kernel.random.randrange(len(tables)), kernel.random.randrange(512)
        gone = frames.pop((table, index), None)
        if gone is None:
            map_page(table, index)
        else:
            kernel.store(tables[table], index)
        kernel.fence(address(0, table, index) if by_page else None, process.asid)
        if gone is not None:
            kernel.give_back(gone)

    kernel = Kernel(harts, 2, 8)
    process, other = kernel.processes
    kernel.start([process])
    tables, frames = [process.leaves], {}
    while len(tables) * 400 < n // 4:
        tables.append(kernel.table(process.middle, len(tables)))
    for table in range(len(tables)):
        for index in range(400):
            map_page(table, index)
    kernel.fence(None, process.asid)
    for hart in range(1, harts):
        kernel.hart = hart
        kernel.switch(other)
        kernel.fence(None, process.asid)
    kernel.hart = 0
    return kernel.trace(len(kernel.lines) + n, act)


@kind(12500)
def idle_harts(n):
    """63 harts leave a space of n / 4 pages, fence its ASID and are idle; n records of hart 0, which fences the ASID for each page."""
    return idle(n, 64, by_page=False)


@kind(12500)
def idle_harts_4(n):
    """The same with 3 idle harts."""
    return idle(n, 4, by_page=False)


@kind(12500)
def idle_harts_8(n):
    """The same with 7 idle harts."""
    return idle(n, 8, by_page=False)


@kind(12500)
def idle_harts_by_page(n):
    """The same with 63 idle harts, where hart 0 fences page by page."""
    return idle(n, 64, by_page=True)


@kind(50000)
def no_asids(n):
    """8 harts, 64 processes without ASIDs, n records; a switch fences all, and an unmapping all on each hart that runs the process."""
    def act():
        process, dice = kernel.dice()
        if dice < .2:
            kernel.switch(kernel.random.choice(kernel.processes))
            kernel.fence()
        elif dice < .6 or not process.pages:
            kernel.map(process, kernel.random.randrange(512))
        else:
            index = kernel.random.choice(list(process.pages))
            kernel.store(process.leaves, index)
            kernel.fence()
            kernel.remote_fence(kernel.others(process.on), 0, EVERY)
            kernel.give_back(process.pages.pop(index))

    kernel = Kernel(8, 64, 11)
    for process in kernel.processes:
        process.asid = 0
    return kernel.start().trace(n, act)


@kind(50000)
def ranges_fenced_wide(n):
    """64 harts, 16 processes, n records; ranges of 2 to 29 pages are unmapped with one remote fence of all ASIDs on all harts."""
    def act():
        process, dice = kernel.dice()
        if dice < .25:
            kernel.switch(kernel.random.choice(kernel.processes))
            return
        is_mapping = dice < .8 or not process.pages
        first, count = kernel.random.randrange(480), kernel.random.randrange(2, 30)
        pages = range(first, first + count)
        if is_mapping:
            for index in pages:
                if index not in process.pages:
                    process.pages[index] = kernel.frame()
                    kernel.store(process.leaves, index, leaf(process.pages[index]))
            kernel.fence(first << 12, process.asid)
            return
        gone = [index for index in pages if index in process.pages]
        for index in gone:
            kernel.store(process.leaves, index)
        kernel.remote_fence(EVERY, first << 12, count << 12)
        for index in gone:
            kernel.give_back(process.pages.pop(index))

    kernel = Kernel(64, 16, 12).start()
    return kernel.trace(n, act)


@kind(12500)
def lazy_vmalloc_64(n):
    """64 harts, 58 processes, n records; pages of the kernel are unmapped without fences, but for one of all on all harts after each 48."""
    def act():
        nonlocal at
        process, dice = kernel.dice()
        if dice < .1:
            kernel.switch(kernel.random.choice(kernel.processes))
        elif dice < .35 or not process.pages:
            kernel.map(process, kernel.random.randrange(512))
        elif dice < .55:
            kernel.unmap(process, process.seen)
        elif dice < .8 and len(kernel.own) < 40:
            index, at = at % 96, at + 1
            if index not in kernel.own and index not in lazy:
                kernel.own[index] = kernel.frame()
                kernel.store(kernel.leaves, index, kernel_leaf(kernel.own[index]))
        elif kernel.own:
            index = kernel.random.choice(list(kernel.own))
            kernel.store(kernel.leaves, index)
            kernel.give_back(kernel.own.pop(index))
            lazy.append(index)
            if len(lazy) == 48:
                kernel.fence()
                kernel.remote_fence(kernel.others(), 0, 0)
                lazy.clear()

    kernel, lazy, at = Kernel(64, 58, 15).start(), [], 0
    return kernel.trace(n, act)


def sparse_space(root, rng, frames):
    """A space in the 8 frames from its root on: two middle tables, and five tables of 4 to 19 leaves."""
    yield store(root, 0, pointer(root + 1))
    yield store(root, 255, pointer(root + 2))
    for i in range(5):
        table = root + 3 + i
        yield store(root + 1 + i // 3, 100 * i, pointer(table))
        for leaves in range(rng.randrange(4, 20)):
            yield store(table, 20 + leaves, leaf(frames + 32 * i + leaves))


@kind(1000)
def many_processes_alive(n):
    """n processes alive at once, each with a root, two middle tables and five tables of 4 to 19 leaves."""
    yield header(4)
    rng = random.Random(9)
    yield store(0x2000, 0, pointer(0x2001))
    for k in range(n):
        root = 0x100000 + 8 * k
        yield given_out(root, 8)
        for i in range(3):
            yield store(root, KERNEL + i, pointer(0x2000 + i, is_global=True))
        yield from sparse_space(root, rng, 0x2000000 + (k << 9))
        yield satp(k % 4, root, 1 + k % 0xFFFE)
        yield fence(k % 4)


@kind(1000)
def exits_root_first(n):
    """n processes one after another, each with such tables and run by two harts; then their frames are given out, the root first."""
    yield header(4)
    rng = random.Random(10)
    yield store(0x2000, 0, pointer(0x2001))
    for i in range(64):
        yield store(0x2001, i, kernel_leaf(0x5000 + i))
    yield store(0x3000, KERNEL, pointer(0x2000))
    for hart in range(4):
        yield satp(hart, 0x3000, 0xFFFF)
    for k in range(n):
        root, asid, harts = 0x100000 + 8 * (k % 16), 1 + k % 0xFFF0, (k % 4, (k + 1) % 4)
        for i in range(8):
            yield given_out(root + i)
        yield store(root, KERNEL, pointer(0x2000))
        yield from sparse_space(root, rng, 0x2000000 + (k << 9))
        for hart in harts:
            yield satp(hart, root, asid)
        for hart in harts:
            yield satp(hart, 0x3000, 0xFFFF)
            yield fence(hart, None, asid)


@kind(1000)
def forks_of_one_hart(n):
    """One hart without ASIDs; n processes one after another, each with four tables of few words and ten pages; each switch fences all."""
    def taken(count):
        return [free.pop(rng.randrange(len(free))) for _ in range(count)]

    yield header(1)
    rng, free, alive = random.Random(13), [0x100000 + i for i in range(400)], []
    for i in range(32):
        yield store(0x2001, i, kernel_leaf(0x5000 + i))
    yield store(0x2000, 0, pointer(0x2001))
    for _ in range(n):
        root, middle, low, high = tables = taken(4)
        yield from map(given_out, tables)
        yield store(root, KERNEL, pointer(0x2000, is_global=True))
        yield store(root, 0, pointer(middle))
        yield store(middle, 0, pointer(low))
        yield store(middle, 511, pointer(high))
        places = [(low, 10 + i) if i < 7 else (high, 500 + i) for i in range(10)]
        pages = taken(10)
        for place, frame in zip(places, pages):
            yield given_out(frame)
            yield store(*place, leaf(frame))
        yield satp(0, root, 0)
        yield fence(0)
        alive.append((tables, places, pages))
        if len(alive) > 8:
            tables, places, pages = alive.pop(0)
            for place, frame in zip(places, pages):
                yield store(*place)
                yield given_back(frame)
            root, middle, low, high = tables
            yield from map(given_back, (low, high, middle, root))
            free += tables + pages


@kind(10000)
def tables_of_an_emulator(n):
    """All 512 words of n / 50 tables of 20 leaves are stored, 0 too, as an emulator may at the first walk; then n stores, each fenced."""
    yield header(4)
    rng, count = random.Random(14), n // 50
    middles = (count + 511) // 512
    yield satp(0, 0x80000)
    for index in range(512):
        yield store(0x80000, index, pointer(0x80001 + index) if index < middles else 0)
    for i in range(512 * middles):
        yield store(0x80001 + i // 512, i % 512, pointer(0x90000 + i))
    for table in range(count):
        leaves = set(rng.sample(range(512), 20))
        for index in range(512):
            yield store(0x90000 + table, index, leaf(0x1000000 + 512 * table + index) if index in leaves else 0)
    for i in range(n):
        table, index = rng.randrange(count), rng.randrange(512)
        yield store(0x90000 + table, index, leaf(0x2000000 + i) if i % 2 else 0)
        yield fence(0, address(table >> 9, table & 511, index), 1)
