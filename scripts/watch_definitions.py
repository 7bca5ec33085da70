#!/usr/bin/env python3
"""The definitions of the crate `watch`, word for word over sets, for traces of a few hundred records.

watch_definitions.py TRACE          prints what `svsim watch --all TRACE` does, with its status
watch_definitions.py --random SEED  prints a random trace

Translations that differ only in what a line does not show share one, and it says since when one of them is stale: here the one that is so
for longest.
"""
import random
import re
import sys
from collections import Counter, namedtuple

from trace_lines import EVERY, SV39, SV48, fence, header, line_of, space

# what is global is of every address space: its root and its ASID say nothing, and are 0
Translation = namedtuple("Translation", "root asid is_global base level ppn flags")

VERDICTS = ("free", "reuse", "claim", "use")


def kind(word):
    """Of a page table entry (privileged manual 4.4.1, 4.3.1): leaf, table, or neither."""
    if not word & 1 or word >> 54 or (word & 4 and not word & 2):
        return None
    if word & 0b1110:
        return "leaf"
    return None if word & 0b11010000 else "table"


class Trace:
    """What a trace leaves after each of its records, the oldest first."""

    def __init__(self, harts, levels):
        self.harts, self.top = range(harts), levels - 1
        self.words, self.satp, self.roots = {}, [None] * harts, set()  # words: by table and index
        self.fences, self.claims = {}, {}
        self.held = [set() for _ in self.harts]
        self.live = [[set() for _ in self.harts]]  # by number of records
        self.stale = [[set() for _ in self.harts]]
        self.given = []  # by record: (verdict, hart, translation)

    def leaves(self, root):
        """The leaves of a root: base, level, PPN, flags, global."""

        def below(table, base, level, is_global):
            for index, word in sorted(self.words.get(table, {}).items()):
                at, over = base | index << 12 + 9 * level, is_global or bool(word & 32)
                if kind(word) == "leaf" and (word >> 10) % (1 << 9 * level) == 0:
                    yield at, level, word >> 10, word & 0xFE, over
                elif kind(word) == "table" and level:
                    yield from below(word >> 10, at, level - 1, over)

        bits = 12 + 9 * (self.top + 1)
        for base, *leaf in below(root, 0, self.top, False):
            yield base | (EVERY ^ (1 << bits) - 1 if base >> bits - 1 & 1 else 0), *leaf

    def live_now(self, hart):
        if self.satp[hart] is None:
            return set()
        root, asid = self.satp[hart]
        return {Translation(*((0, 0) if over else (root, asid)), over, base, level, ppn, flags) for base, level, ppn, flags, over in self.leaves(root)}

    def is_current(self, x, leaves):
        """Under its root or, where it is global, that of some address space."""
        for root in self.roots if x.is_global else {x.root}:
            if root not in leaves:
                leaves[root] = list(self.leaves(root))
            for base, level, ppn, flags, over in leaves[root]:
                same = (base, level, ppn, over) == (x.base, x.level, x.ppn, x.is_global)
                if same and (flags ^ x.flags) & 16 == 0 and x.flags & 14 & ~flags == 0:
                    return True
        return False

    def is_stale_since(self, hart, x, number):
        return all(x in stale[hart] for stale in self.stale[number:])

    def was_given(self, verdicts, hart, x):
        return any(g[0] in verdicts and g[1:] == (hart, x) and self.is_stale_since(hart, x, n + 1) for n, given in enumerate(self.given) for g in given)

    def verdicts(self, record):
        """What is given at the record, whether or not it is new."""
        op, hart = record[0], record[1]
        for h in self.harts:
            for x in self.stale[-1][h]:
                if op in ("free", "reuse"):
                    first, count = record[2:]
                    if x.ppn < first + count and first < x.ppn + (1 << 9 * x.level) and count:
                        yield op, h, x
                if op == "claim_end" and record[2] in self.claims:
                    root, size_of, began = self.claims[record[2]]
                    if (root is None or (x.root == root and not x.is_global)) and reaches(size_of, x) and self.is_stale_since(h, x, began):
                        yield "claim", h, x
                if op == "use" and h == hart and self.satp[h] and holds(x, record[2]) and (x.is_global or x.asid == self.satp[h][1]):
                    if self.was_given(("free", "claim"), h, x):
                        yield "use", h, x

    def record(self, record):
        """Makes a record, and answers the verdicts that are given and new."""
        given = list(self.verdicts(record))
        new = [g for g in given if g[0] == "use" or not self.was_given(g[:1], *g[1:])]
        op, hart = record[0], record[1]
        dropped = [lambda x: False for _ in self.harts]
        if op == "store":
            self.words.setdefault(record[2] >> 12, {})[record[2] % 4096 // 8] = record[3]
        elif op == "satp":
            self.satp[hart] = record[2]
            self.roots |= {record[2][0]} if record[2] else set()
        elif op == "fence":
            dropped[hart] = lambda x: is_fenced(record[2], record[3], x, self.top)
        elif op == "remote":
            self.fences[record[2]] = (*record[3:], len(self.given) + 1)
        elif op == "remote_end" and record[2] in self.fences:
            mask, addresses, asid, began = self.fences.pop(record[2])
            for h in self.harts:
                if mask >> h & 1:
                    since = [live[h] for live in self.live[began:]]
                    dropped[h] = lambda x, since=since: reaches(addresses, x) and is_fenced(None, asid, x, self.top) and not any(x in live for live in since)
        elif op == "reuse":
            taken = range(record[2], record[2] + record[3])
            self.words = {table: words for table, words in self.words.items() if table not in taken}
            used = {space[0] for space in self.satp if space}
            self.roots = {root for root in self.roots if root not in taken or root in used}
        elif op == "claim":
            self.claims[record[2]] = (record[3], record[4], len(self.given) + 1)
        elif op == "claim_end":
            self.claims.pop(record[2], None)
        self.given.append(given)
        self.live.append([self.live_now(h) for h in self.harts])
        self.held = [self.live[-1][h] | {x for x in self.held[h] if not dropped[h](x)} for h in self.harts]
        leaves = {}
        self.stale.append([{x for x in self.held[h] if not self.is_current(x, leaves)} for h in self.harts])
        return new


def size(x):
    return 1 << 12 + 9 * x.level


def holds(x, address):
    return x.base <= address < x.base + size(x)


def reaches(addresses, x):
    return addresses is None or (addresses[1] > 0 and addresses[0] < x.base + size(x) and x.base < addresses[0] + addresses[1])


def is_fenced(rs1, rs2, x, top):
    """SFENCE.VMA by its four forms (privileged manual 4.2.1)."""
    bits = 12 + 9 * (top + 1)
    if rs1 is not None and not (holds(x, rs1) and rs1 >> bits - 1 in (0, EVERY >> bits - 1)):
        return False
    return rs2 is None or (not x.is_global and x.asid == rs2 & 0xFFFF)


def is_record(line):
    return bool(line.strip()) and line[0] not in "#m"


def parts(line):
    """The fields of a line, and its note if it has one."""
    fields, *note = re.split(" [@#]", line, maxsplit=1)
    return fields, note[0] if note else None


def read(line):
    """A line of a trace as a record; None for a mark."""
    op, *fields = parts(line)[0].split()
    if op == "m":
        return None
    number = [None if f == "-" else int(f, 16) for f in fields]
    hart = int(fields[0])
    if op == "w":
        return "store", hart, number[1], number[2]
    if op == "s":
        return "satp", hart, (number[1] & (1 << 44) - 1, number[1] >> 44 & 0xFFFF) if number[1] >> 60 else None
    if op == "f":
        return "fence", hart, number[1], number[2]
    if op == "r":
        every = number[4] == EVERY or number[3] == number[4] == 0
        return "remote", hart, number[1], number[2], None if every else (number[3], number[4]), number[5]
    if op in "ed":
        return "remote_end" if op == "e" else "claim_end", hart, number[1]
    if op in "az":
        return "reuse" if op == "a" else "free", hart, number[1], number[2]
    if op == "c":
        return "claim", hart, number[1], number[2], None if number[3] == 0 and number[4] == EVERY else (number[3], number[4])
    return ("use", hart, number[1]) if op == "u" else None


def shown_note(note):
    """A note as it is shown: bytes that are not printable ASCII stand as \\xHH."""
    return "".join(chr(byte) if 32 <= byte < 127 else f"\\x{byte:02x}" for byte in note.encode("utf-8", "surrogateescape"))


def shown(verdict, hart, x):
    """What a line shows: a TLB entry knows no root, and one that is global no ASID; A and D count for nothing."""
    asid, root = ("any", "any") if x.is_global else (f"{x.asid:x}", f"{x.root:x}")
    flags = "".join(c if x.flags >> bit & 1 else "-" for bit, c in ((1, "r"), (2, "w"), (3, "x"), (4, "u"))) + ("g" if x.is_global else "-")
    return f"{'kernel-' * x.is_global}{verdict} hart {hart} may hold page {x.base:x}+{size(x):x} -> {x.ppn:x} {flags} asid {asid} root {root}"


def place(verdict, hart, x):
    """Where a verdict stands among those of its record."""
    return hart, x.base, x.level, x.ppn, x.flags >> 1 & 15, x.is_global, VERDICTS.index(verdict), x.root, x.asid


def why(trace, record, line_at):
    """What a line says that the kernel did."""
    op, hart = record[:2]
    if op in ("free", "reuse"):
        return f"frames {record[2]:x}+{record[3]:x} given {'back' if op == 'free' else 'out'}"
    if op == "use":
        return f"hart {hart} uses {record[2]:x}"
    return f"claimed clean since line {line_at[trace.claims[record[2]][2]]}" if op == "claim_end" and record[2] in trace.claims else ""


def stale_since(trace, hart, x, number):
    while number and x in trace.stale[number - 1][hart]:
        number -= 1
    return number


def wanted(lines):
    """The verdicts in order, as their line, their place and what is shown of them; and for each the records since which it may be said to
    be stale, with how the line goes on."""
    _, _, harts, scheme = lines[0].split()
    trace, due = Trace(int(harts), {"sv39": 3, "sv48": 4}[scheme]), {}
    line_at = [1, *(place for place, line in enumerate(lines[1:], 2) if is_record(line))]  # of each record; the header's is 1
    notes = [parts(lines[line - 1])[1] for line in line_at]

    def by(number):
        return f" by {shown_note(notes[number])}" if notes[number] else ""

    for number, line in enumerate(line_at[1:], 1):
        record = read(lines[line - 1])
        what = why(trace, record, line_at) + by(number)
        for given in trace.record(record):
            since = stale_since(trace, *given[1:], number - 1)
            rest = f"stale since line {line_at[since]}{by(since)}; {what}"
            due.setdefault((line, place(*given), shown(*given)), set()).add((since, rest))
    return dict(sorted(due.items()))


def printed(due, name):
    """The lines of verdicts on the trace of this name."""
    for (line, _, text), rests in due.items():
        yield f"{name}:{line}: {text}, {min(rests)[1]}"


def counted(number, noun):
    return f"{number} {noun}" + ("" if number == 1 else "s")


def last_line(lines, due):
    records, counts = counted(sum(map(is_record, lines[1:])), "record"), Counter(text.split()[0] for _, _, text in due)
    if not due:
        return f"{records}, no verdict"
    words = [owner + verdict for owner in ("", "kernel-") for verdict in VERDICTS]
    return f"{records}, {counted(len(due), 'verdict')}: " + ", ".join(f"{word} {counts[word]}" for word in words if counts[word])


class Kernel:
    """What a random trace is made of: tables and frames, few, so that the same things happen again and again."""

    def __init__(self, r, harts, levels):
        self.r, self.harts, self.levels, self.token = r, harts, levels, 0
        self.tokens = {"r": [], "c": []}  # begun under, some of them ended
        style = r.choice(("usual", "any", "few", "few"))
        self.tables = [(0x30, 0x31, 0x32), (0x20, 0x21), (0x18,)][: levels - 1] + [(0x10, 0x11, 0x12)]
        if style == "any":  # tables of each level, that may point to themselves
            self.tables = [(0x10, 0x11, 0x12, 0x13, 0x200)] * levels
        if style == "few":
            self.tables = [tables[: r.choice((1, 2))] for tables in self.tables]
        few = style == "few"
        self.asids = r.choice(((1,), (1, 2))) if few else (1, 1, 2)
        self.indices = r.choice(((0,), (0, 1))) if few else (0, 0, 1, 511)
        self.frames = (0x200, 0x201)[: r.choice((1, 2))] if few else (0x200, 0x201, 0x400, 0x40000)
        self.flags = r.choice(((0xD7,), (0xF7,), (0xD7, 0xD3), (0xE7, 0xE3))) if few else (0xD7, 0xD7, 0xD3, 0xF7, 0xE7, 0x57, 0x17, 0xDB, 0xD5, 0xC3)
        self.leaf_levels = (0,) if few else (0, 0, 0, 0, 1, levels - 1)
        self.weights = r.choice(((4, 7, 1, 1, 6, 3, 1, 2), (3, 6, 1, 2, 5, 4, 1, 2), (3, 6, 2, 3, 3, 4, 2, 1), (5, 6, 1, 0, 4, 4, 1, 2)))

    def satp(self):
        asid, root = self.r.choice(self.asids), self.r.choice(self.tables[-1])
        return space(root, asid, SV39 if self.levels == 3 else SV48)

    def address(self):
        """Of a page that a word may map; now and then not canonical."""
        bits, va = 12 + 9 * self.levels, 0
        for level in range(self.levels):
            va |= self.r.choice(self.indices if level == 0 or self.r.random() < 0.2 else (0,)) << 12 + 9 * level
        va |= EVERY ^ (1 << bits) - 1 if va >> bits - 1 else 0
        return va ^ 1 << bits if self.r.random() < 0.03 else va

    def addresses(self):
        """A start and a size."""
        return self.r.choice(((0, EVERY), (0, 0), (0, 0x1000), (0, 0x2000), (0x1000, 0), (self.address(), 0x1000), (self.address(), 0x200000)))

    def pointer_below(self, level):
        return self.r.choice(self.tables[level - 1]) << 10 | self.r.choice((1, 1, 1, 33))

    def pointer(self, level, index):
        """An address and a word."""
        return self.r.choice(self.tables[level]) << 12 | index << 3, self.pointer_below(level)

    def leaf(self):
        """An address and a word."""
        level = self.r.choice(self.leaf_levels)
        table = self.r.choice(self.tables[level]) << 12 | self.r.choice(self.indices) << 3
        ppn = self.r.choice(self.frames) if level == 0 or self.r.random() < 0.2 else self.r.choice((0x200, 0x400, 0x40000))
        odd = (1 << 54 | 0xD7, 0x80005, 0xC041, self.r.choice(self.tables[0]) << 10 | 1)  # reserved; a pointer in any table
        return table, self.r.choice(odd) if self.r.random() < 0.03 else self.r.choice((0, ppn << 10 | self.r.choice(self.flags)))

    def begin(self, letter):
        """A new token or, now and then, one that is open or has ended."""
        if not self.tokens[letter] or self.r.random() < 0.85:
            self.token += 1
            self.tokens[letter].append(self.token)
        return self.r.choice(self.tokens[letter][-2:])

    def end(self, letter):
        tokens = self.tokens[letter]
        return tokens[-1] if self.r.random() < 0.2 else tokens.pop(self.r.randrange(len(tokens)))

    def frames_of(self, letter):
        """Frames of pages or, where they are given out, of tables too."""
        every = [table for tables in self.tables for table in tables]
        first = self.r.choice(every if letter == "a" and self.r.random() < 0.4 else self.frames * 3 + (0x3FF, 0))
        return first, self.r.choice((1, 2, 0, 0x200, EVERY)) if self.r.random() < 0.2 else 1

    def line(self):
        r, hart = self.r, self.r.randrange(self.harts)
        letter = r.choices("swpfrzau", self.weights)[0]
        if letter == "s":
            return line_of("s", hart, r.choice((0, 1, 1, 1, 1)) * self.satp())
        if letter == "w":
            return line_of("w", hart, *self.leaf())
        if letter == "p":
            return line_of("w", hart, *self.pointer(r.randrange(1, self.levels), r.choice(self.indices[:2])))
        if letter == "f":
            return fence(hart, r.choice((None, self.address())), r.choice((None, None, 1, 2, 0x10001)))
        if letter == "r":
            letter = r.choice("rrc")
            if self.tokens[letter] and r.random() < 0.5:
                return line_of("e" if letter == "r" else "d", hart, self.end(letter))
            if letter == "c":
                root, addresses = r.choice((None, None, 0x10, 0x11)), self.addresses()
                return line_of("c", hart, self.begin("c"), root, *addresses)
            harts, addresses = r.randrange(1 << self.harts), self.addresses()
            return line_of("r", hart, self.begin("r"), harts, *addresses, r.choice((None, None, 1, 2)))
        if letter in "za":
            return line_of(letter, hart, *self.frames_of(letter))
        return line_of("u", hart, self.address() + r.choice((0, 0xABC)))

    def beginning(self):
        """The pointers from each table to some below it, and the spaces of the harts."""
        for level in range(self.levels - 1, 0, -1):
            for table in self.tables[level]:
                yield line_of("w", 0, table << 12, self.pointer_below(level))
        for hart in range(self.harts):
            yield line_of("s", hart, self.satp())


def made(seed):
    """A random trace of a kernel that forgets fences now and then."""
    r = random.Random(seed)
    harts, levels = r.choice((1, 2, 2, 3)), r.choice((3, 3, 4))
    yield header(harts, f"sv{12 + 9 * levels}")
    kernel = Kernel(r, harts, levels)
    yield from kernel.beginning()
    for _ in range(r.choice((40, 80, 120))):
        yield kernel.line()


def main():
    if sys.argv[1] == "--random":
        print("\n".join(made(int(sys.argv[2]))))
        return
    with open(sys.argv[1], encoding="utf-8", errors="surrogateescape", newline="\n") as file:
        lines = file.read().removesuffix("\n").split("\n")
    due = wanted(lines)
    for line in (*printed(due, sys.argv[1]), last_line(lines, due)):
        sys.stdout.buffer.write(line.encode("utf-8", "surrogateescape") + b"\n")
    sys.exit(bool(due))


if __name__ == "__main__":
    main()
