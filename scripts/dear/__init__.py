"""Kinds of traces on which `svsim watch` could get dear: plausible, awkward or hostile.

A kind is a function of a size that yields the lines of a trace; seeds are fixed. Its comment says what grows with the size n. A page is
*held* here when a TLB may contain a stale translation of it.
"""
from trace_lines import pointer, satp, store

KINDS = {}  # by name: the function, and the sizes that are tried
ROOT, OTHER_ROOT, MIDDLE, LEAVES = 0x80000, 0x80010, 0x80001, 0x80002
SPREAD = 0x9E3779B97F4A7C15  # the engine's hashes are bits of products with this number, from bit 32 on


def kind(size):
    """It is tried at this size, at twice and at four times that."""
    def put(function):
        KINDS[function.__name__] = (function, (size, 2 * size, 4 * size))
        return function
    return put


def path(*tables):
    """Pointers from each table to the next, all at index 0."""
    for table, below in zip(tables, tables[1:]):
        yield store(table, 0, pointer(below))


def come_and_go(table, index, word):
    yield store(table, index, word)
    yield store(table, index)


def enter(harts, root, asid=1):
    for hart in harts:
        yield satp(hart, root, asid)


def pages_of_hash_zero(count, hashes):
    """The least numbers of pages whose hash is 0 among so many."""
    found, page = [], 0
    while len(found) < count:
        page += 1
        if page * SPREAD >> 32 & hashes - 1 == 0:
            found.append(page)
    return found


def frames_of_hash_zero(count, bits=52):
    """PPNs of so many bits whose hash is 0 among up to 2^20."""
    inverse, found, product = pow(SPREAD, -1, 1 << 52), [], 0
    while len(found) < count:
        product += 1
        ppn = inverse * product % (1 << 52)
        if 0x1000 < ppn < 1 << bits:
            found.append(ppn)
    return found
