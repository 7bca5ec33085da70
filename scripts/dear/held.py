"""What TLBs may contain of stale translations, and what looks for it: stores, fences, frames, claims and accesses."""
from dear import LEAVES, MIDDLE, ROOT, come_and_go, enter, frames_of_hash_zero, kind, pages_of_hash_zero, path
from trace_lines import EVERY, KERNEL, access, address, bare, claim, fence, given_back, given_out, header, kernel_leaf, leaf, pointer
from trace_lines import satp, store

HELD_ROOT = 0x70000  # of superpages that are held
HELD_ASID = 9
TABLES = 40  # of the small pages that are held


def held_superpages(n, hart=0, first_table=0x60000, asid=HELD_ASID):
    """So many superpages are mapped and unmapped in a space of a hart, which leaves it without a fence."""
    yield satp(hart, HELD_ROOT, asid)
    for table in range((n + 511) // 512):
        yield store(HELD_ROOT, table, pointer(first_table + table))
        for page in range(table * 512, min(n, table * 512 + 512)):
            yield store(first_table + table, page % 512, leaf((1 << 24) + page * 512))
        yield store(HELD_ROOT, table)
    yield bare(hart)


def not_held(count):
    """Pages of the kernel in a row."""
    return range(address(KERNEL, 0, 0), address(KERNEL, 0, 0) + count * 4096, 4096)


@kind(1000)
def many_ways_superpages_none(n):
    """n superpages held, and a table of the kernel below 60 roots: what many_ways_superpages begins with."""
    yield header(1)
    yield from held_superpages(n)
    for root in range(0x1000, 0x1000 + 60):
        yield store(root, KERNEL, pointer(0x2000))
    yield store(0x2000, 0, pointer(0x2001))


@kind(1000)
def many_ways_superpages(n):
    """n superpages held; a page of the kernel below 60 roots comes and goes 2,000 times, while no hart runs there."""
    yield from many_ways_superpages_none(n)
    for _ in range(2000):
        yield from come_and_go(0x2001, 3, kernel_leaf(5))


@kind(2000)
def few_ways_superpages(n):
    """n superpages held; a page of one space, to which three ways lead, comes and goes 5,000 times, while no hart runs there."""
    yield header(1)
    yield from held_superpages(n)
    yield from path(0x1000, 0x2000, 0x2001)
    for _ in range(5000):
        yield from come_and_go(0x2001, 3, kernel_leaf(5))


@kind(2000)
def fences_superpages(n):
    """n superpages held; 5,000 other pages are fenced by a hart that holds none and by the one that holds them."""
    yield header(2)
    yield from held_superpages(n)
    for page in not_held(5000):
        yield fence(1, page, HELD_ASID)
        yield fence(0, page, HELD_ASID)


@kind(2000)
def frames_superpages(n):
    """n superpages held; 5,000 frames of none of them are given back and out, one by one."""
    yield header(2)
    yield from held_superpages(n)
    for frame in range(0x1000, 0x1000 + 5000):
        yield given_back(frame)
        yield given_out(frame)


@kind(2000)
def claims_superpages(n):
    """n superpages held; 5,000 claims without a root, each of a page that is not held."""
    yield header(2)
    yield from held_superpages(n)
    for token, page in enumerate(not_held(5000)):
        yield from claim(token, None, page, 0x1000)


@kind(2000)
def accesses_superpages(n):
    """n superpages held; 10,000 accesses of other pages."""
    yield header(2)
    yield from held_superpages(n)
    yield satp(1, HELD_ROOT, HELD_ASID)
    for page in not_held(10000):
        yield access(1, page)


def found_again(n, turns):
    def gone():
        yield store(ROOT, 0)
        yield satp(0, 0x80100, 1)

    def back():
        yield store(ROOT, 0, pointer(MIDDLE))
        yield satp(0, ROOT, 1)

    yield header(4)
    for i in range(512):
        yield store(MIDDLE, i, leaf((1 << 22) + i * 512))
    yield from back()
    yield from gone()
    yield from back()
    for i in range(n // 5000):
        yield from held_superpages(5000, 1, 0x60000 + 16 * i, HELD_ASID + i)
    for _ in range(turns):
        yield from gone()
        yield from back()


@kind(5000)
def found_in_front(n):
    """512 superpages held before n others; the pointer to the 512 goes and comes 300 times."""
    yield from found_again(n, 300)


@kind(5000)
def found_in_front_none(n):
    """512 superpages held before n others: what found_in_front begins with."""
    yield from found_again(n, 0)


@kind(5000)
def one_chain(n):
    """n translations of one page held, each of another ASID; then stores, fences, frames, claims and accesses, most of other pages."""
    yield header(2)
    yield from path(ROOT, MIDDLE, LEAVES)
    for first in range(0, n, 500):
        asids = range(1 + first, 501 + first)
        yield from (satp(0, ROOT, asid) for asid in asids)
        yield store(LEAVES, 5, leaf(100 + first))
        yield from (satp(0, ROOT, asid) for asid in asids)
        yield bare(0)
        yield store(LEAVES, 5)
    for i in range(1000):
        yield fence(1, address(0, 0, 5), 1 + i)
        yield fence(0, address(0, 0, 6), 1 + i)
        yield given_back(0x5000 + i)
        yield given_out(0x5000 + i)
        yield access(1, address(0, 0, 5))
        yield from claim(i, None, address(0, 0, 7), 0x1000)
        yield from come_and_go(LEAVES, 6, leaf(7))


def tables(count=TABLES):
    """Pointers to so many tables of leaves, below one root."""
    yield store(ROOT, 0, pointer(MIDDLE))
    for i in range(count):
        yield store(MIDDLE, i, pointer(0x90000 + i))


def place(page):
    """The places of the pages' leaves in their middle table and in their tables, which come in turn."""
    return page // 512 % TABLES, page % 512


def held(page, frame=None):
    """A page is mapped and unmapped."""
    table, index = place(page)
    return come_and_go(0x90000 + table, index, leaf(0x100000 + page if frame is None else frame))


def fenced(page):
    return fence(0, address(0, *place(page)), 1)


@kind(5000)
def held_only(n):
    """n pages held."""
    yield header(1)
    yield from tables()
    yield satp(0, ROOT)
    for page in range(n):
        yield from held(page)


@kind(5000)
def dropped_in_front(n):
    """n pages held; fences of these drop the oldest, while as many others come."""
    yield from held_only(n)
    for page in range(n):
        yield fenced(page)
        yield from held(n + page)


@kind(4000)
def empty_places(n):
    """n pages held, of which fences drop nearly half; then 2,000 stores of a pointer, which scan them all."""
    yield from held_only(n)
    for i in range(n * 48 // 100):
        yield fenced(2 * i)
    for _ in range(2000):
        yield from come_and_go(ROOT, 100, pointer(0xA0000))


@kind(5000)
def fences_by_asid(n):
    """n pages held, 20 of each ASID; 2,000 fences of ASIDs that drop nothing, 500 that drop 20 pages."""
    yield header(2)
    yield from tables()
    for page in range(n):
        if page % 20 == 0:
            yield satp(0, ROOT, 1 + page // 20)
        yield from held(page)
    for i in range(2000):
        yield fence(i % 2, None, 40000 + i)
        if i % 4 == 0:
            yield fence(0, None, 1 + i // 4 % (n // 20))


@kind(5000)
def claims_of_a_root(n):
    """n pages of one root held; 501 claims of that root and of all addresses, all but the first with a verdict on a new page."""
    yield header(1)
    yield from tables(TABLES + 1)
    yield satp(0, ROOT)
    for page in range(n):
        yield from held(page)
    yield from claim(1, ROOT, 0, EVERY)
    for i in range(500):
        yield from come_and_go(0x90000 + TABLES, i, leaf(0x900000 + i))
        yield from claim(2 + i, ROOT, 0, EVERY)


@kind(3000)
def frames_hashed(n):
    """n pages held, all of whose frames have one hash; 1,000 other frames of that hash are given back and out, one by one, four times."""
    yield header(1)
    frames = frames_of_hash_zero(n + 1000, bits=44)
    yield from tables()
    yield satp(0, ROOT)
    for page in range(n):
        yield from held(page, frames[page])
    for _ in range(4):
        for frame in frames[n:]:
            yield given_back(frame)
            yield given_out(frame)


@kind(50)
def pages_of_one_bucket(n):
    """n pages of one hash, twice mapped and unmapped in a space in which 64 harts run; a hart in turn fences each sixteenth."""
    yield header(64)
    pages, tables_at = pages_of_hash_zero(n, 1 << 12), {(2, 0): ROOT}  # by level, and by the bits of addresses above it
    for page in pages:
        for level in (1, 0):
            above = page >> 9 * (level + 1)
            if (level, above) not in tables_at:
                tables_at[level, above] = ROOT + len(tables_at)
                yield store(tables_at[level + 1, above >> 9], above & 511, pointer(tables_at[level, above]))
    yield from enter(range(64), ROOT)
    for _ in range(2):
        for i, page in enumerate(pages):
            yield from come_and_go(tables_at[0, page >> 9], page & 511, leaf(0x1000 + i))
            if i % 16 == 0:
                yield fence(i % 64, page << 12, 1)


@kind(512)
def giant_pages(n):
    """n translations of pages of 1 GiB held, each of another ASID; stores, fences, frames and accesses of small pages."""
    yield header(2)
    yield store(0x70000, 1, pointer(0x70001))
    yield store(0x70001, 0, pointer(0x70002))
    for i in range(n):
        giant = i % 200
        yield store(ROOT, 2 + giant, leaf(giant << 18))
        yield satp(0, ROOT, 1 + i)
        yield bare(0)
        yield store(ROOT, 2 + giant)
    yield satp(1, 0x70000, 9)
    for i in range(3000):
        yield from come_and_go(0x70002, i % 512, leaf(0x1000 + i))
        yield fence(1, address(1, 0, i % 512), 9)
        yield given_back(0x1000 + i)
        yield given_out(0x1000 + i)
        yield access(1, address(1, 1, 1))


@kind(8000)
def chain_of_an_eighth(n):
    """n / 8 pages held, eight of each of n / 64 ASIDs, of which one is the same page in all; stores, fences and accesses of that page."""
    yield header(2)
    yield from path(ROOT, MIDDLE, LEAVES)
    yield store(MIDDLE, 1, pointer(0x80003))
    for asid in range(n // 64):
        pages = range(7 * asid, 7 * asid + 7)
        yield store(LEAVES, 5, leaf(0x1000))
        yield from (store(0x80003, page % 512, leaf(0x2000 + page)) for page in pages)
        yield satp(0, ROOT, 1 + asid)
        yield bare(0)
        yield store(LEAVES, 5)
        yield from (store(0x80003, page % 512) for page in pages)
    for i in range(3000):
        yield store(LEAVES, 5, leaf(0x900000 + i))
        yield fence(1, address(0, 0, 5), 60000)
        yield access(1, address(0, 0, 5))


@kind(2000)
def kernel_page_of_many_versions(n):
    """64 harts; a page of the kernel gets n / 20 frames in turn, with a fence of one hart at each, and then the same again without."""
    yield header(64)
    yield store(ROOT, KERNEL, pointer(MIDDLE))
    yield store(MIDDLE, 0, pointer(LEAVES))
    yield from enter(range(64), ROOT)
    for i in range(n // 20):
        yield store(LEAVES, 5, kernel_leaf(0x1000 + i))
        yield fence(i % 64, address(KERNEL, 0, 5))
    for i in range(n // 20):
        yield store(LEAVES, 5, kernel_leaf(0x1000 + i))
