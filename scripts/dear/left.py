"""Spaces that harts have left, and fences since."""
import random

from dear import LEAVES, MIDDLE, OTHER_ROOT, ROOT, SPREAD, come_and_go, enter, kind, path
from trace_lines import EVERY, KERNEL, address, claim, fence, given_out, header, kernel_leaf, leaf, pointer, remote_fence, satp, store

OTHERS = EVERY - 1  # all 64 harts but hart 0


def left_by_others(fenced):
    """64 harts are in a space of 512 pages; all but hart 0 leave it, with a fence of its ASID or without."""
    yield header(64)
    yield from path(ROOT, MIDDLE, LEAVES)
    for i in range(512):
        yield store(LEAVES, i, leaf(0x1000 + i))
    yield from enter(range(64), ROOT)
    for hart in range(1, 64):
        yield satp(hart, OTHER_ROOT, 2)
        if fenced:
            yield fence(hart, None, 1)


def unmapped():
    """The 512 pages, of which each is fenced by hart 0."""
    for i in range(512):
        yield store(LEAVES, i)
        yield fence(0, address(0, 0, i), 1)


@kind(10000)
def left_then_fences_by_asid(n):
    """63 harts leave a space and fence its ASID; n fences of the ASID by the hart that stays; 512 pages are unmapped."""
    yield from left_by_others(fenced=True)
    yield from (fence(0, None, 1) for _ in range(n))
    yield from unmapped()


@kind(10000)
def left_then_remote_ranges(n):
    """63 harts leave a space and get a remote fence of its pages; hart 0 stays and gets n / 2 of two pages; 512 pages are unmapped."""
    yield from left_by_others(fenced=False)
    yield from remote_fence(0, 1, OTHERS, 0, 512 << 12, 1)
    for i in range(n // 2):
        yield from remote_fence(0, 1, 1, 2 * i % 512 << 12, 0x2000, 1)
    yield from unmapped()


@kind(5000)
def fences_not_taken(n):
    """63 harts leave a space and fence nothing; n fences of its pages and its ASID by the hart that stays; 512 pages are unmapped."""
    yield from left_by_others(fenced=False)
    for i in range(n):
        yield fence(0, None if i % 2 else address(0, 0, i % 512), 1)
    for i in range(512):
        yield store(LEAVES, i)
        yield fence(0, address(0, 0, i), 1)
        yield from remote_fence(0, 1, OTHERS, address(0, 0, i), 0x1000, 1)


@kind(20000)
def left_then_fences_of_a_page(n):
    """63 harts leave 8 ASIDs of one root and fence a page there; n fences of the page by the hart that stays; it is unmapped."""
    yield header(64)
    yield from path(ROOT, MIDDLE, LEAVES)
    yield store(LEAVES, 5, leaf(0x1000))
    for hart in range(1, 64):
        yield from (satp(hart, ROOT, 1 + asid) for asid in range(8))
        yield satp(hart, OTHER_ROOT, 20)
        yield fence(hart, address(0, 0, 5))
    yield satp(0, ROOT)
    yield from (fence(0, address(0, 0, 5)) for _ in range(n))
    yield store(LEAVES, 5)
    yield fence(0)


@kind(80)
def left_then_fences_in_a_superpage(n):
    """63 harts leave a space of n superpages and fence each; the hart that stays fences the 512 small pages of each, and unmaps it."""
    yield header(64)
    yield store(ROOT, 0, pointer(MIDDLE))
    for i in range(n):
        yield store(MIDDLE, i, leaf((1 << 20) + 512 * i))
    yield from enter(range(64), ROOT)
    for hart in range(1, 64):
        yield satp(hart, OTHER_ROOT, 2)
        yield from (fence(hart, address(0, i, 0), 1) for i in range(n))
    for i in range(n):
        yield from (fence(0, address(0, i, page), 1) for page in range(512))
        yield store(MIDDLE, i)


def bucket(key, buckets=1 << 13):
    """Of a fence's key: a page and an ASID, or what stands for all of either."""
    return key * SPREAD % (1 << 64) >> 32 & buckets - 1


def fences_alike(count):
    """An ASID and pages such that fences of one page or all, with this ASID or none, have one bucket."""
    every_page, every_asid = 1 << 53, 1 << 16
    wanted = bucket(every_page + every_asid)
    asid = next(asid for asid in range(1, every_asid) if bucket(every_page + asid) == wanted)
    pages, page = [], 0
    while len(pages) < count:
        page += 1
        if bucket((page << 17) + every_asid) == wanted == bucket((page << 17) + asid):
            pages.append(page)
    return asid, pages


@kind(500)
def fences_of_one_bucket(n):
    """63 harts leave a space; n fences of n / 2 pages by the one that stays, whose keys fall into one bucket; a page is mapped 400 times."""
    asid, pages = fences_alike(1 + n // 2)
    page = pages[0]
    yield header(64)
    yield store(ROOT, page >> 18 & 511, pointer(MIDDLE))
    yield store(MIDDLE, page >> 9 & 511, pointer(LEAVES))
    yield store(LEAVES, page & 511, leaf(0x1000))
    yield from enter(range(64), ROOT, asid)
    for hart in range(1, 64):
        yield satp(hart, OTHER_ROOT, 2)
        yield fence(hart, page << 12, asid)
    for i in range(n):
        yield fence(0, pages[1 + i // 2] << 12, (None, asid)[i % 2])
    for i in range(400):
        yield store(LEAVES, page & 511, leaf(0x1000 + i % 2))


@kind(100000)
def fences_only(n):
    """n fences, each of another page."""
    yield header(4)
    for i in range(n):
        yield fence(i % 4, i << 12, 1)


@kind(10000)
def left_spaces_descending(n):
    """A hart goes through n roots, each below the one before, and fences nothing."""
    yield header(1)
    for i in range(n):
        yield satp(0, 0x900000 - i, i & 0xFFFF)


@kind(10000)
def left_spaces_of_one_root(n):
    """A hart goes through n ASIDs of one root; at each hundredth a page comes and goes, and it fences that alone."""
    yield header(1)
    yield from path(ROOT, MIDDLE, LEAVES)
    for i in range(n):
        yield satp(0, ROOT, i & 0xFFFF)
        if i % 100 == 0:
            yield from come_and_go(LEAVES, i // 100, leaf(i))
            yield fence(0, address(0, 0, i // 100))


@kind(2125)
def left_by_failed_looks(n):
    """64 harts go n times to one of 64 roots under one of 16 ASIDs, with a fence of an ASID at each eighth, and new pages."""
    yield header(64)
    rng = random.Random(5)
    for root in range(64):
        yield store(ROOT + root, 0, pointer(0x90000))
    yield store(0x90000, 0, pointer(0x90001))
    for i in range(n):
        hart = rng.randrange(64)
        yield satp(hart, ROOT + rng.randrange(64), 1 + rng.randrange(16))
        if i % 8 == 0:
            yield fence(hart, None, 1 + rng.randrange(16))
        if i % 16 == 0:
            yield store(0x90001, i // 16 % 512, leaf(0x1000 + i))


@kind(2000)
def roots_come_and_go(n):
    """n roots above the kernel's table are made, entered by two of four harts each, and given out; 200 stand at a time."""
    yield header(4)
    rng, roots, asid = random.Random(3), [], 0
    yield store(0x2000, 0, pointer(0x2001))
    for i in range(32):
        yield store(0x2001, i, kernel_leaf(0x5000 + i))
    for k in range(n):
        roots.append(0x10000 + k)
        yield store(roots[-1], KERNEL, pointer(0x2000))
        for hart in rng.sample(range(4), 2):
            asid = asid % 0xFFFE + 1
            yield satp(hart, roots[-1], asid)
        if k % 7 == 0:
            i = rng.randrange(32)
            page = address(KERNEL, 0, i)
            yield store(0x2001, i)
            yield fence(0, page)
            yield from remote_fence(0, 1, 0b1110, page, 0x1000)
            yield store(0x2001, i, kernel_leaf(0x5000 + i))
        if len(roots) > 200:
            yield given_out(roots.pop(rng.randrange(150)))


@kind(250)
def kernel_below_roots(n):
    """n roots that four harts enter in turn, above the kernel's table by one of two; 1,000 pages there come and go, and harts fence."""
    yield header(4)
    for table in (0x2000, 0x2001):
        yield store(table, 0, pointer(0x2002))
    for k in range(n):
        yield store(0x10000 + k, KERNEL, pointer(0x2000 + k % 2))
        yield satp(k % 4, 0x10000 + k, 1 + k)
    for i in range(1000):
        page = address(KERNEL, 0, i % 512)
        yield from come_and_go(0x2002, i % 512, kernel_leaf(0x5000 + i))
        yield fence(i % 4, page)
        yield from remote_fence(0, 1, 0b1111, page, 0x1000)


@kind(10000)
def forgotten_hart_comes_back(n):
    """A hart leaves a space; n pages are unmapped there, each claimed without a fence of that hart; it comes back at the end."""
    yield header(4)
    yield store(ROOT, 0, pointer(MIDDLE))
    yield from (store(MIDDLE, i, pointer(0x90000 + i)) for i in range((n + 511) // 512))
    yield from (store(0x90000 + i // 512, i % 512, leaf(0x100000 + i)) for i in range(n))
    yield from enter((0, 1), ROOT)
    yield satp(1, OTHER_ROOT, 2)
    for i in range(n):
        yield store(0x90000 + i // 512, i % 512)
        yield fence(0, i << 12, 1)
        yield from remote_fence(0, 1, 0b1100, i << 12, 0x1000, 1)
        yield from claim(2, ROOT, i << 12, 0x1000)
    yield satp(1, ROOT)
