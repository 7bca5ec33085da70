"""The lines of a trace, as docs/FORMAT.md has them, and the words and addresses that stand in them."""

EVERY = (1 << 64) - 1  # the SIZE that is every address
KERNEL = 256  # the index in a root of the first page above the addresses of users
SV39, SV48 = 8, 9  # MODE of satp


def line_of(letter, hart, *fields):
    """None is `-`."""
    return f"{letter} {hart}" + "".join(" -" if field is None else f" {field:x}" for field in fields)


def header(harts, scheme="sv39"):
    return f"watch 1 {harts} {scheme}"


def store(table, index, word=0, hart=0):
    return line_of("w", hart, table << 12 | index << 3, word)


def satp(hart, root, asid=1, mode=SV39):
    return line_of("s", hart, space(root, asid, mode))


def bare(hart):
    return line_of("s", hart, 0)


def fence(hart, va=None, asid=None):
    return line_of("f", hart, va, asid)


def remote_fence(hart, token, harts, start, size, asid=None):
    """The bits of `harts` are the harts that are asked for it. It is executed at once."""
    yield line_of("r", hart, token, harts, start, size, asid)
    yield line_of("e", hart, token)


def given_out(ppn, count=1, hart=0):
    return line_of("a", hart, ppn, count)


def given_back(ppn, count=1, hart=0):
    return line_of("z", hart, ppn, count)


def claim(token, root, start, size, hart=0):
    """It ends at once. Without a root it is of all."""
    yield line_of("c", hart, token, root, start, size)
    yield line_of("d", hart, token)


def access(hart, va):
    return line_of("u", hart, va)


def space(root, asid, mode=SV39):
    """The word of satp."""
    return mode << 60 | asid << 44 | root


def pointer(table, is_global=False):
    return table << 10 | (0x21 if is_global else 1)


def leaf(frame):
    """Of a user's page: read and write."""
    return frame << 10 | 0xD7


def kernel_leaf(frame):
    """Of a page of the kernel: read and write, global."""
    return frame << 10 | 0xE7


def address(*indexes):
    """Of a page, by the indexes from the root down: three in Sv39, four in Sv48."""
    bits, va = 12 + 9 * len(indexes), 0
    for index in indexes:
        va = va << 9 | index
    va <<= 12
    return va | (1 << 64) - (1 << bits) if va >> bits - 1 else va
