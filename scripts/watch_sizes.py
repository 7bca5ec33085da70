#!/usr/bin/env python3
"""Traces on both sides of sizes at which the engine goes another way, and what has to be printed of them by the definitions.

watch_sizes.py FOLDER  writes the list `watch-sizes.txt`, and `NAME.trace`, `NAME.counts` and `NAME.status` of those with many verdicts on
                       one record, whose order is not given

The first belongs into crates/svsim_examples/data/cases/lists, the others into cases/watch beside it.
"""
import os
import sys

from trace_lines import KERNEL, address, claim, fence, given_back, given_out, header, kernel_leaf, leaf, line_of, pointer, remote_fence
from trace_lines import satp, store
from watch_definitions import last_line, printed, wanted

ROOT, OTHER_ROOT, BARE_ROOT, MIDDLE, OTHER_MIDDLE, LEAVES = 0x80000, 0x80010, 0x80020, 0x80001, 0x80003, 0x80002


def claimed(token, page):
    """A claim of one page, which names it if it is held."""
    return claim(token, None, page, 0x1000)


def tables_in_turn(n):
    """Tables of leaves that are stored to one after the other, and again after one more pointer leads to the last."""
    tables = range(0x90000, 0x90000 + n)
    yield from (header(1), store(ROOT, 0, pointer(MIDDLE)))
    yield from (store(MIDDLE, i, pointer(table)) for i, table in enumerate(tables))
    yield satp(0, ROOT)
    yield from (store(table, 0, leaf(0x100 + i)) for i, table in enumerate(tables))
    yield from (store(table, 1, leaf(0x200 + i)) for i, table in enumerate(tables))
    yield from (store(table, 0) for table in tables)
    yield from (given_back(0x100 + i) for i in range(n))
    yield store(MIDDLE, n, pointer(tables[-1]))
    yield from (store(table, 1) for table in tables)
    yield fence(0, address(0, n - 1, 1))
    yield from (given_back(0x200 + i) for i in range(n))


def few_ways(n):
    """Ways to a table of leaves: two by each of 31 pointers, whose table may be a root too, and one by each further pointer."""
    yield from (header(1), store(ROOT, 0, pointer(MIDDLE)))
    yield from (store(MIDDLE, i, pointer(LEAVES)) for i in range(31))
    yield from (store(OTHER_MIDDLE, i, pointer(LEAVES)) for i in range(n - 63))
    yield from (store(MIDDLE, 511, pointer(0x90000)), store(0x90000, 0, leaf(0x102)), satp(0, ROOT), store(0x90000, 0))
    yield from (store(LEAVES, 0, leaf(0x100)), store(LEAVES, 1, leaf(0x101)), store(LEAVES, 0))
    yield from (fence(0, address(0, i, 0)) for i in range(30))
    yield from (given_back(0x100), store(LEAVES, 1))
    yield from (fence(0, address(0, i, 1), 1) for i in range(1, 31))
    yield from (given_back(0x101), given_back(0x102))


def many_ways(n):
    """Ways to a table of leaves: 22 times 89, 89, one of its own and, of 2,049, one more; then a pointer more leads to it."""
    yield header(1)
    yield from (store(ROOT, i, pointer(MIDDLE)) for i in range(22))
    yield from (store(MIDDLE, i, pointer(LEAVES)) for i in range(89))
    yield from (store(OTHER_MIDDLE, i, pointer(LEAVES)) for i in range(n - 2048))
    yield from (satp(0, ROOT), store(LEAVES, 0, leaf(0x100)), store(LEAVES, 1, leaf(0x101)), store(LEAVES, 0))
    for token, held in enumerate((address(0, 0, 0), address(21, 88, 0), address(7, 40, 0), address(21, 88, 1)), 1):
        yield from claimed(token, held)
    yield from (store(MIDDLE, 89, pointer(LEAVES)), store(LEAVES, 1))
    for token, held in enumerate((address(0, 0, 1), address(21, 89, 1)), 9):
        yield from claimed(token, held)


def unmapped(n):
    """Pages of two harts in one space, which are unmapped, and of which hart 1 holds all."""
    yield from (header(2), store(ROOT, 0, pointer(MIDDLE)), store(MIDDLE, 0, pointer(LEAVES)), satp(0, ROOT), satp(1, ROOT))
    yield from (store(LEAVES, i, leaf(0x100 + i)) for i in range(n))
    yield from (store(LEAVES, i) for i in range(n))
    yield fence(0)


def pages_fenced(n):
    """A remote fence of so many pages, and as many frames given back at once."""
    yield from unmapped(n + 2)
    yield from remote_fence(0, 1, 2, 0x1000, n << 12, 1)
    yield from claimed(1, 0)
    yield from (given_back(0x101, n), given_back(0x102, n))


def bytes_claimed(size, start=0):
    """So many bytes that are claimed, of which the last page alone is held."""
    pages = (start + size + 0xFFF) // 0x1000
    yield from unmapped(pages)
    yield from (fence(1, address(0, 0, i)) for i in range(pages - 1))
    yield from claim(1, ROOT, start, size)


def bytes_claimed_within(size):
    """So many bytes that are claimed from the middle of a page on, of which the last page alone is held."""
    return bytes_claimed(size, 0x800)


def root_left(n):
    """A root that a hart left under so many ASIDs is given out; the root after it has the same page of the kernel."""
    yield from (header(1), store(MIDDLE, 0, pointer(LEAVES)), store(LEAVES, 0, kernel_leaf(0x100)))
    yield from (store(ROOT, KERNEL, pointer(MIDDLE)), store(OTHER_ROOT, KERNEL, pointer(MIDDLE)))
    yield from (satp(0, ROOT, 1 + i) for i in range(n))
    yield from (satp(0, OTHER_ROOT), given_out(ROOT), given_back(0x100), store(LEAVES, 0), given_back(0x100))


def root_left_last(n):
    """A root that was left so often is given out; the root after it has no page of the kernel where it was left last."""
    yield from (header(2), store(MIDDLE, 0, pointer(LEAVES)), store(LEAVES, 0, kernel_leaf(0x100)))
    yield from (store(ROOT, KERNEL, pointer(MIDDLE)), store(OTHER_ROOT, KERNEL, pointer(MIDDLE)))
    yield from (satp(0, ROOT, 1 + i) for i in range(n - 1))
    yield from (satp(0, OTHER_ROOT), satp(1, ROOT), satp(1, BARE_ROOT), given_out(ROOT), store(LEAVES, 0), fence(0), given_back(0x100))


def tables_emptied(n):
    """Tables of leaves that lose their last words one after the other; as many others get their first."""
    old, new, others = (range(first, first + n) for first in (0x90000, 0xA0000, 0xB0000))
    yield from (header(1), store(ROOT, 0, pointer(MIDDLE)))
    yield from (store(MIDDLE, i, pointer(table)) for i, table in enumerate(old))
    yield from (store(table, 0, leaf(0x300)) for table in others)
    yield satp(0, ROOT)
    yield from (store(table, index, leaf(0x100 + i)) for i, table in enumerate(old) for index in (0, 2))
    yield from (store(table, index) for table in old for index in (2, 0))
    yield from (store(MIDDLE, i, pointer(table)) for i, table in enumerate(new))
    yield from (store(table, 1, leaf(0x200 + i)) for i, table in enumerate(new))
    yield from (fence(0, address(0, i, 2)) for i in range(n))
    yield from (given_back(0x100 + i) for i in range(n))
    yield from (store(table, 1) for table in new)
    yield from (given_back(0x200 + i) for i in range(n))


def words_of_a_table(n):
    """A table of leaves with so many words, in no order: each third is overwritten, then they go from the first on."""
    indexes = [i * 37 % 512 for i in range(n)]
    yield from (header(1), store(ROOT, 0, pointer(MIDDLE)), store(MIDDLE, 0, pointer(LEAVES)), satp(0, ROOT))
    yield from (store(LEAVES, index, leaf(0x100 + i)) for i, index in enumerate(indexes))
    yield from (store(LEAVES, index, leaf(0x200 + i)) for i, index in enumerate(indexes) if i % 3 == 0)
    yield from (given_back(0x100 + i) for i in range(0, n, 3))
    for i, index in enumerate(indexes):
        yield from (store(LEAVES, index), given_back(0x100 + i if i % 3 else 0x200 + i))


def words_left(n):
    """A table of 20 leaves that loses all but so many words; these are overwritten, and as many come again."""
    indexes = [i * 37 % 512 for i in range(20)]
    yield from (header(1), store(ROOT, 0, pointer(MIDDLE)), store(MIDDLE, 0, pointer(LEAVES)), satp(0, ROOT))
    yield from (store(LEAVES, index, leaf(0x100 + i)) for i, index in enumerate(indexes))
    yield from (store(LEAVES, index) for index in indexes[:20 - n])
    yield fence(0)
    yield from (store(LEAVES, index, leaf(0x200 + i)) for i, index in enumerate(indexes[20 - n:]))
    yield from (given_back(0x100 + i) for i in range(20))
    yield from (store(LEAVES, index, leaf(0x300 + i)) for i, index in enumerate(indexes[:n]))
    yield from (store(LEAVES, index) for index in indexes)
    yield from (given_back(0x200 + i) for i in range(n))
    yield from (given_back(0x300 + i) for i in range(n))


def harts(n):
    """Harts that hold pages of the kernel: half of them fence, and a page comes back and goes again."""
    yield from (header(n), store(ROOT, KERNEL, pointer(MIDDLE)), store(MIDDLE, 0, pointer(LEAVES)), store(MIDDLE, 1, pointer(0x90000)))
    yield from (store(LEAVES, 0, kernel_leaf(0x100)), store(LEAVES, 1, kernel_leaf(0x101)), store(0x90000, 0, kernel_leaf(0x102)))
    yield from (satp(hart, ROOT, hart + 1) for hart in range(n))
    yield store(LEAVES, 0)
    yield from (fence(hart) for hart in range(0, n, 2))
    yield from (store(LEAVES, 0, kernel_leaf(0x103)), store(LEAVES, 0), store(MIDDLE, 0), fence(1), store(MIDDLE, 1))
    yield from (given_back(frame) for frame in range(0x100, 0x104))


def harts_back(n):
    """Harts that come back to a space and fill a page again that they held: a remote fence from before does not drop it."""
    yield from (header(n), store(ROOT, KERNEL, pointer(MIDDLE)), store(MIDDLE, 0, pointer(LEAVES)), store(LEAVES, 0, kernel_leaf(0x100)))
    yield from (satp(hart, ROOT, hart + 1) for hart in range(n))
    yield from (satp(hart, OTHER_ROOT) for hart in range(n))
    yield store(MIDDLE, 0, pointer(LEAVES))
    yield from (satp(hart, ROOT, hart + 1) for hart in range(n))
    yield from (line_of("r", 0, 1, (1 << n) - 1, 0, 0, None), store(LEAVES, 0), line_of("e", 0, 1), given_back(0x100))


LISTED = [
    (tables_in_turn, 16, 17),
    (few_ways, 64, 65),
    (many_ways, 2048, 2049),
    (pages_fenced, 7, 8, 9),
    (bytes_claimed, 0x7000, 0x7001),
    (bytes_claimed_within, 0x7000, 0x7001),
    (root_left, 16, 17, 256, 257),
    (root_left_last, 16, 17, 256, 257),
    (tables_emptied, 16, 17),
    (words_of_a_table, 12, 13),
    (words_left, 6, 7),
]


def listed():
    """Traces with one verdict on a record at most, as a list of cases."""
    for of, *sizes in LISTED:
        for n in sizes:
            lines = list(of(n))
            due = wanted(lines)
            assert len(due) == len({line for line, _, _ in due})
            yield from (f"=== {n}: {of.__doc__}", *lines, f"--- svsim watch --all FILE: {int(bool(due))}", *printed(due, "FILE"))
            yield last_line(lines, due)


def counted(lines, name):
    """Each line, which is printed once, and the last; behind the header a comment stands."""
    due = wanted(lines)
    return [*(f"1 {text}" for text in printed(due, name)), f"1 {last_line(lines, due)}"]


def main():
    def write(name, lines):
        with open(os.path.join(sys.argv[1], name), "w") as file:
            file.write("\n".join(lines) + "\n")

    head = "Traces on both sides of sizes at which the engine goes another way, with the verdicts that the definitions give:"
    write("watch-sizes.txt", [f"{head} `scripts/watch_sizes.py`", "computed them, over sets.\n", *listed()])
    for of in (harts, harts_back):
        for n in (7, 8):
            first, *rest = of(n)
            lines, name = [first, f"# {of.__doc__}", *rest], f"{of.__name__.replace('_', '-')}-{n}"
            write(f"{name}.trace", lines)
            write(f"{name}.counts", counted(lines, f"{name}.trace"))
            write(f"{name}.status", ["1"])


if __name__ == "__main__":
    main()
