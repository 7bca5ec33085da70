"""Frames, the words in them, and the ways to them."""
import random

from dear import MIDDLE, OTHER_ROOT, ROOT, come_and_go, enter, frames_of_hash_zero, kind
from trace_lines import KERNEL, SV48, address, fence, given_out, header, kernel_leaf, leaf, pointer, satp, store

LEFT_ROOT = 0x80020


@kind(25000)
def one_word_frames(n):
    """n frames in a row with one word each."""
    yield header(1)
    for i in range(n):
        yield store(0x100000 + i, 5, leaf(i))


@kind(5000)
def one_word_frames_hashed(n):
    """n frames of one hash with one word each, which is overwritten ten times in random order."""
    yield header(1)
    frames, rng = frames_of_hash_zero(n), random.Random(1)
    for turn in range(11):
        for frame in frames:
            yield store(frame, 5, leaf(1 + turn))
        rng.shuffle(frames)


@kind(4000)
def tables_hashed(n):
    """n tables of leaves of one hash below one root of Sv48; leaves come and go while a hart runs there and fences."""
    yield header(1, "sv48")
    tables, rng = frames_of_hash_zero(n, bits=44), random.Random(2)
    yield store(ROOT, 0, pointer(MIDDLE))
    for i in range((n + 511) // 512):
        yield store(MIDDLE, i, pointer(0x81000 + i))
    for i, table in enumerate(tables):
        yield store(0x81000 + i // 512, i % 512, pointer(table))
        yield store(table, 1, leaf(0x1000 + i))
    yield satp(0, ROOT, 1, SV48)
    for _ in range(4 * n):
        i = rng.randrange(n)
        yield from come_and_go(tables[i], 2, leaf(0x500000 + i))
        yield fence(0, address(0, i // 512, i % 512, 2), 1)


@kind(100000)
def flap_one(n):
    """One frame gets its first word and loses it, n times; there is no other."""
    yield header(1)
    for i in range(n):
        yield from come_and_go(0x80000, 1, leaf(i))


@kind(1000)
def flap_many(n):
    """64 frames get their first words and then lose them, n times, beside 64 that stay."""
    yield header(1)
    for i in range(64):
        yield store(0x90000 + i, 1, leaf(i))
    for _ in range(n):
        for i in range(64):
            yield store(0x80000 + i, 1, leaf(i))
        for i in range(64):
            yield store(0x80000 + i, 1)


@kind(50)
def flap_row(n):
    """600 frames come, all but 140 go, and these are given out, n times: the row of frames grows and shrinks."""
    yield header(1)
    for _ in range(n):
        for i in range(600):
            yield store(0x80000 + i, 1, leaf(i))
        for i in range(140, 600):
            yield store(0x80000 + i, 1)
        yield given_out(0x80000, 600)


def two_words(frames):
    for i, frame in enumerate(frames):
        yield store(frame, 1, leaf(i))
        yield store(frame, 400, leaf(i))


@kind(25)
def given_out_at_once(n):
    """2,000 frames with two words each are given out among 2^20 at once, n times."""
    yield header(1)
    for _ in range(n):
        yield from two_words(0x80000 + 37 * i for i in range(2000))
        yield given_out(0x80000, 1 << 20)


@kind(20)
def given_out_one_by_one(n):
    """2,000 frames with two words each are given out one by one, n times."""
    yield header(1)
    frames = range(0x80000, 0x80000 + 2000)
    for _ in range(n):
        yield from two_words(frames)
        yield from map(given_out, frames)


@kind(400)
def sparse_below(n):
    """A pointer over 512 tables of two leaves is stored again n times."""
    yield header(1)
    for i in range(512):
        yield store(MIDDLE, i, pointer(0x90000 + i))
        yield store(0x90000 + i, 3, leaf(i))
        yield store(0x90000 + i, 300, leaf(i))
    for _ in range(n):
        yield store(ROOT, 0, pointer(MIDDLE))


@kind(4096)
def sparse_far_below(n):
    """A pointer of Sv48 over n tables of one leaf is stored again 20 times."""
    yield header(1, "sv48")
    for i in range(n):
        above, index = divmod(i, 512)
        if index == 0:
            yield store(MIDDLE, above, pointer(0x81000 + above))
        yield store(0x81000 + above, index, pointer(0x100000 + i))
        yield store(0x100000 + i, 7, leaf(i))
    for _ in range(20):
        yield store(ROOT, 0, pointer(MIDDLE))


@kind(200)
def one_leaf_shared(n):
    """A pointer over 512 pointers to one table of one leaf is stored again n times."""
    yield header(1)
    yield store(0x80002, 7, leaf(1))
    for i in range(512):
        yield store(MIDDLE, i, pointer(0x80002))
    for _ in range(n):
        yield store(ROOT, 0, pointer(MIDDLE))


def many_ways(tables, of_root, of_middle, each):
    """So many pointers from the root to one table, from there to the next, and from there to each of some tables."""
    for i in range(of_root):
        yield store(ROOT, i, pointer(MIDDLE))
    for i in range(of_middle):
        yield store(MIDDLE, i, pointer(0x80002))
    for i in range(each * len(tables)):
        yield store(0x80002, i, pointer(tables[i // each]))


@kind(100)
def sparse_by_many_ways(n):
    """A pointer to a table of one leaf, to which 2,000 ways lead, is stored again n times."""
    yield header(1, "sv48")
    yield from many_ways((), 40, 50, 0)
    yield store(0x80003, 511, leaf(1))
    for _ in range(n):
        yield store(0x80002, 0, pointer(0x80003))


@kind(500)
def ways_thrash(n):
    """17 tables of leaves, to each of which n ways lead, are stored to in turn, 200 times."""
    yield header(1, "sv48")
    tables = range(0x90000, 0x90000 + 17)
    yield from many_ways(tables, n // 40, 20, 2)
    for turn in range(200):
        for table in tables:
            yield store(table, turn, 2)


@kind(100000)
def ways_thrash_few(n):
    """17 tables of leaves, to each of which three ways lead, are stored to in turn, n times in all."""
    yield header(1)
    yield store(ROOT, 0, pointer(MIDDLE))
    for i in range(17):
        yield store(MIDDLE, i, pointer(0x90000 + i))
    for turn in range(n):
        yield store(0x90000 + turn % 17, 1, leaf(turn))


@kind(2000)
def ways_freed(n):
    """16 tables of leaves, to each of which 1,000 ways lead, are stored to in turn, n times in all; each eighth time a pointer is too."""
    yield header(1, "sv48")
    tables = range(0x90000, 0x90000 + 16)
    yield from many_ways(tables, 25, 20, 2)
    for turn in range(n):
        yield store(tables[turn % 16], turn // 16, 2)
        if turn % 8 == 0:
            yield store(0xA0000, 0, pointer(0xA0001 + turn))


def left_and_given_out(n):
    """A root is given out n times that a hart left for another with the same word."""
    yield store(OTHER_ROOT, 0, pointer(MIDDLE))
    for _ in range(n):
        yield store(LEFT_ROOT, 0, pointer(MIDDLE))
        yield satp(0, LEFT_ROOT, 2)
        yield satp(0, OTHER_ROOT, 1)
        yield given_out(LEFT_ROOT)
        yield fence(0)


@kind(40)
def root_with_late_leaf(n):
    """A root that a hart left for another with the same words is given out n times; the last of 8,192 leaves alone is not global."""
    yield header(1)
    for i in range(16):
        yield store(MIDDLE, i, pointer(0x90000 + i))
        for index in range(512):
            frame = i << 9 | index
            yield store(0x90000 + i, index, leaf(frame) if frame == 16 * 512 - 1 else kernel_leaf(frame))
    yield from left_and_given_out(n)


@kind(100)
def root_sparse_late(n):
    """The same with 512 tables of one leaf each."""
    yield header(1)
    for i in range(512):
        yield store(MIDDLE, i, pointer(0x90000 + i))
        yield store(0x90000 + i, 9, leaf(i) if i == 511 else kernel_leaf(i))
    yield from left_and_given_out(n)


@kind(50)
def words_to_nowhere(n):
    """A root of 512 words that lead nowhere, which 256 ASIDs left for one with the same words, is given out n times."""
    yield header(1)
    for index in range(512):
        yield store(OTHER_ROOT, index, 2)
    for _ in range(n):
        for index in range(512):
            yield store(LEFT_ROOT, index, 2)
        for asid in range(256):
            yield satp(0, LEFT_ROOT, 2 + asid)
        yield satp(0, OTHER_ROOT, 1)
        yield given_out(LEFT_ROOT)
        yield fence(0)


@kind(10)
def beside_without_the_word(n):
    """A root with 4,096 global leaves, which 64 harts left for one with another word, is given out n times."""
    yield header(64)
    for i in range(8):
        yield store(0x80001, i, pointer(0x90000 + i))
        yield store(0x80002, i, pointer(0x90000 + i))
        for index in range(512):
            yield store(0x90000 + i, index, kernel_leaf(i << 9 | index))
    yield store(OTHER_ROOT, KERNEL, pointer(0x80002))
    for _ in range(n):
        yield store(LEFT_ROOT, KERNEL, pointer(0x80001))
        yield from enter(range(64), LEFT_ROOT, 2)
        yield from enter(range(64), OTHER_ROOT, 1)
        yield given_out(LEFT_ROOT)


@kind(10)
def young_leaves_in_pairs(n):
    """A root with two global leaves below each of 256 words, stored after 64 harts left it, is given out n times."""
    yield header(64)
    for _ in range(n):
        yield from enter(range(64), LEFT_ROOT, 2)
        yield from enter(range(64), OTHER_ROOT, 1)
        for index in range(256):
            yield store(0x80100 + index, 0, kernel_leaf(index << 9))
            yield store(0x80100 + index, 1, kernel_leaf(index << 9 | 512))
            yield store(LEFT_ROOT, index, pointer(0x80100 + index))
        yield given_out(LEFT_ROOT)
        for index in range(256):
            yield store(0x80100 + index, 0)
            yield store(0x80100 + index, 1)


@kind(100)
def one_leaf_below_each_word(n):
    """A root with a global leaf below each of 256 words, which 200 ASIDs left for one with the same words, is given out n / 10 times."""
    yield header(1)
    for index in range(256):
        yield store(0x80100 + index, 0, kernel_leaf(index << 9))
        yield store(OTHER_ROOT, index, pointer(0x80100 + index))
    for _ in range(n // 10):
        for index in range(256):
            yield store(LEFT_ROOT, index, pointer(0x80100 + index))
        for asid in range(200):
            yield satp(0, LEFT_ROOT, 2 + asid)
        yield satp(0, OTHER_ROOT, 1)
        yield given_out(LEFT_ROOT)


@kind(200)
def words_about_twelve(n):
    """2,000 frames of 6 words each get 7 more and lose these again, n / 100 times."""
    yield header(1)
    frames = range(0x100000, 0x100000 + 2000)
    for frame in frames:
        for i in range(6):
            yield store(frame, i * 80, leaf(i))
    for _ in range(n // 100):
        for frame in frames:
            for i in range(7):
                yield store(frame, i * 70 + 7, leaf(i))
        for frame in frames:
            for i in range(7):
                yield store(frame, i * 70 + 7)


@kind(2000)
def words_shrink(n):
    """n frames get 40 words each, and lose all but one."""
    yield header(1)
    for frame in range(0x100000, 0x100000 + n):
        for i in range(40):
            yield store(frame, i * 12, leaf(i))
        for i in range(39):
            yield store(frame, i * 12)


@kind(2500)
def thirteen_words(n):
    """n frames of 13 words each, the least number of words that an index finds."""
    yield header(1)
    for frame in range(0x100000, 0x100000 + n):
        for i in range(13):
            yield store(frame, i * 39, leaf(i))
