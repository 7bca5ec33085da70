#!/usr/bin/env python3
"""The verdicts of `svsim watch` on a trace, gathered by their causes: watch_causes.py TRACE [PROGRAM]

One mistake of a kernel gives a verdict for each page, hart and moment. A *finding* is what one record made stale of one page for one hart,
with all its verdicts. A *cause* is all findings that agree in three things: pages of the kernel or not, the first verdict, and its reason.

- `claim`: what its own flush asked for between its `c` and its `d`, by `f` and `r` of the hart that flushes and, where that begins no `r`,
  by `f` of the verdict's hart. It is the first of these that holds: no fence; none for this hart; each for another ASID or, of a global
  page, for some ASID; none for this page; else a fence that was not done yet.
- `free`, `reuse`: no flush of the page has begun since it was stale, or else the same of the newest that has.

It prints what `svsim watch` prints at the end, by a text of its own: for each cause a line, and below it a line for each note of the records that made
pages stale, with their findings, pages, address spaces and harts, the harts of which their flush asked for a fence, and how many findings are
*used* (`watch` gave `use`), *reachable* (from the first verdict to the fence that drops it, the ASID is in the hart's satp; of a global page any),
or *not reached*. First come pages of users, then frames that were given out again, then what can be used. A cause has the number that `watch` gives it.
PROGRAM stands for ./svsim, which prints 1 MiB at most before `./svsim prove`. The status is that of `watch`.

Each verdict is in one finding. Reasons and groups are this script's own: no proof stands behind them.
"""
import os, re, subprocess, sys
from bisect import bisect_left, bisect_right
from collections import Counter, defaultdict, namedtuple
from watch_definitions import is_fenced, reaches, read, shown_note

TOP = os.path.dirname(os.path.dirname(os.path.abspath(__file__)))
VERDICT = re.compile(
    r"(\d+): (kernel-)?(free|reuse|claim|use) hart (\d+) may hold page ([0-9a-f]+)\+([0-9a-f]+) -> [0-9a-f]+ \S{5} "
    r"asid (\S+) root (\S+), stale since line (\d+).*")
NOTE = re.compile(r" [@#](.*)$")
Page = namedtuple("Page", "base level is_global asid root")
Fence = namedtuple("Fence", "record hart rs1 rs2")
Remote = namedtuple("Remote", "record hart mask addresses asid end")
Flush = namedtuple("Flush", "record hart root addresses end")
NO_FLUSH, NO_FENCE, NOT_THIS_HART, OTHER_ASID, BY_ASID, OTHER_PAGE, NOT_DONE = (
    "no flush of the page has begun since",
    "its flush asked for no fence",
    "its flush asked for no fence on this hart",
    "its flush fenced another ASID",
    "its flush fenced by ASID, which leaves global pages",
    "its flush fenced other pages",
    "its flush asked for a fence that was not done yet")
KINDS = ("free", "reuse", "claim", "use")
REACHES = ("used", "reachable", "not reached")
MOST_NOTES = 5


class Finding:
    def __init__(self, page, hart, since, first, kind, text):
        self.page, self.hart, self.since, self.first, self.kind, self.text = page, hart, since, first, kind, text
        self.given, self.place = [], 0  # records and verdicts; which of the findings it is
        self.reach, self.fenced = "", 0  # the harts of which its flush asked for a fence

    @property
    def verdicts(self):
        return Counter(verdict for _, verdict in self.given)


def is_record(line):
    return bool(line.strip()) and line[0] not in "#m"


def records_at(path):
    """The number of the record on each line of a trace that has one."""
    with open(path, encoding="utf-8", errors="surrogateescape", newline="\n") as file:
        lines = [number for number, line in enumerate(file, 1) if number > 1 and is_record(line)]
    return {line: record for record, line in enumerate(lines, 1)}


class Trace:
    """What the reasons are read from: fences, flushes and satps, each by its hart in the order of the records."""

    def __init__(self, path, judged):
        """Of as many records as were judged: `watch` ends at a wrong line."""
        self.lines, self.notes = [0], {}  # of each record its line, and its note
        self.judged, self.is_cut = judged, False
        self.fences, self.remotes, self.satps, self.events = (defaultdict(list) for _ in range(4))
        self.flushes, self.flush_ending, self.top = [], {}, 2
        open_remotes, open_flushes = {}, {}
        with open(path, encoding="utf-8", errors="surrogateescape", newline="\n") as file:
            for number, line in enumerate(file, 1):
                if number == 1:
                    self.top = 3 if line.rstrip("\n").endswith("sv48") else 2
                elif is_record(line):
                    self.add(number, line.rstrip("\n"), open_remotes, open_flushes)
        for begun in [*open_remotes.values(), *open_flushes.values()]:
            begun(None)
        self.flushes.sort()
        for remotes in self.remotes.values():
            remotes.sort()

    def add(self, number, line, open_remotes, open_flushes):
        if len(self.lines) > self.judged:
            self.is_cut = True
            return
        note = NOTE.search(line)
        fields = line[: note.start()] if note else line
        try:
            op, hart, *rest = read(fields)
        except (TypeError, ValueError, IndexError):
            return  # `watch` says where a line has no form
        record = len(self.lines)
        self.lines.append(number)
        if note:
            self.notes[record] = note[1]
        if op == "fence":
            self.fences[hart].append(Fence(record, hart, *rest))
            self.events[hart].append((record, self.fences[hart][-1]))
        elif op == "satp":
            self.satps[hart].append((record, rest[0]))
            self.events[hart].append((record, rest[0]))
        elif op == "remote":
            token, mask, addresses, asid = rest
            if token in open_remotes:
                open_remotes.pop(token)(None)
            open_remotes[token] = lambda end: self.end_remote(Remote(record, hart, mask, addresses, asid, end))
        elif op == "remote_end" and rest[0] in open_remotes:
            open_remotes.pop(rest[0])(record)
        elif op == "claim":
            token, root, addresses = rest
            if token in open_flushes:
                open_flushes.pop(token)(None)
            open_flushes[token] = lambda end: self.end_flush(Flush(record, hart, root, addresses, end))
        elif op == "claim_end" and rest[0] in open_flushes:
            open_flushes.pop(rest[0])(record)

    def end_remote(self, remote):
        self.remotes[remote.hart].append(remote)
        if remote.end:
            for hart in range(64):
                if remote.mask >> hart & 1:
                    self.events[hart].append((remote.end, remote))

    def end_flush(self, flush):
        self.flushes.append(flush)
        if flush.end:
            self.flush_ending[flush.end] = flush

    def asked(self, flush, until, hart):
        """The fences that a flush asked for until a record, as far as they can be for this hart or tell that others were."""
        def between(fences):
            return fences[bisect_left(fences, (flush.record,)) : bisect_left(fences, (until,))]

        own, remotes = between(self.fences[flush.hart]), between(self.remotes[flush.hart])
        if not remotes and hart != flush.hart:
            own = own + between(self.fences[hart])
        return own + remotes

    def reason_of(self, flush, until, hart, page):
        asked = self.asked(flush, until, hart)
        here = [fence for fence in asked if is_for(fence, hart)]
        of_space = [fence for fence in here if covers_space(fence, page)]
        of_page = [fence for fence in of_space if covers_page(fence, page, self.top)]
        by_asid = BY_ASID if page.is_global else OTHER_ASID
        found = ((asked, NO_FENCE), (here, NOT_THIS_HART), (of_space, by_asid), (of_page, OTHER_PAGE))
        return next((reason for fences, reason in found if not fences), NOT_DONE)

    def newest_flush(self, page, since, until):
        for flush in reversed(self.flushes[bisect_right(self.flushes, (since,)) : bisect_left(self.flushes, (until,))]):
            if is_flush_of(flush, page):
                return flush
        return None

    def flush_of(self, finding):
        if finding.kind == "claim":
            return self.flush_ending[finding.first]
        # that has not ended, or there had been a claim
        return self.newest_flush(finding.page, finding.since, finding.first)

    def reason(self, finding):
        flush = self.flush_of(finding)
        return self.reason_of(flush, finding.first, finding.hart, finding.page) if flush else NO_FLUSH

    def fenced(self, finding):
        """The harts of which its flush asked for a fence, a bit each."""
        flush, mask = self.flush_of(finding), 0
        for fence in self.asked(flush, finding.first, finding.hart) if flush else []:
            mask |= 1 << fence.hart if isinstance(fence, Fence) else fence.mask
        return mask

    def reach(self, finding):
        if finding.verdicts["use"]:
            return "used"
        satps = self.satps[finding.hart]
        place = bisect_left(satps, (finding.first,))
        if place and is_under(satps[place - 1][1], finding.page):
            return "reachable"
        events = self.events[finding.hart]
        for record, event in events[bisect_left(events, (finding.first,)) :]:
            if isinstance(event, (Fence, Remote)):
                if isinstance(event, Remote) and event.record <= finding.since:
                    continue  # the hart may have executed it before the store
                if covers_space(event, finding.page) and covers_page(event, finding.page, self.top):
                    return "not reached"
            elif is_under(event, finding.page):
                return "reachable"
        return "not reached"


def is_for(fence, hart):
    return fence.hart == hart if isinstance(fence, Fence) else fence.mask >> hart & 1 == 1


def covers_space(fence, page):
    asid = fence.rs2 if isinstance(fence, Fence) else fence.asid
    return asid is None or (not page.is_global and asid & 0xFFFF == page.asid)


def covers_page(fence, page, top):
    return is_fenced(fence.rs1, None, page, top) if isinstance(fence, Fence) else reaches(fence.addresses, page)


def is_flush_of(flush, page):
    return (flush.root is None or (flush.root == page.root and not page.is_global)) and reaches(flush.addresses, page)


def is_under(space, page):
    return space is not None and (page.is_global or space[1] == page.asid)


def finding_of(text, parts, record_at):
    first, kernel, kind, hart, base, size, asid, root, since = parts
    level = (int(size, 16).bit_length() - 13) // 9
    page = Page(int(base, 16), level, bool(kernel), *((0, 0) if kernel else (int(asid, 16), int(root, 16))))
    return Finding(page, int(hart), record_at[int(since)], record_at[int(first)], kind, text)


def gathered(lines, path):
    """The findings of verdicts in the order of their first ones, by their lines; and the last line, which is none."""
    found, last, record_at = {}, "", records_at(path)
    for line in lines:
        parts = VERDICT.fullmatch(line.rstrip("\n").removeprefix(f"{path}:"))
        if not parts:
            last = line
            continue
        new = finding_of(line.rstrip("\n"), parts.groups(), record_at)
        found.setdefault((new.since, new.hart, new.page), new).given.append((new.first, new.kind))
    for place, finding in enumerate(found.values()):
        finding.place = place
    return list(found.values()), last


def findings_of(program, path):
    """The findings, what `watch` says last, and its status."""
    watch = subprocess.Popen([program, "watch", "--all", path], stdout=subprocess.PIPE, encoding="utf-8", errors="surrogateescape")
    findings, last = gathered(watch.stdout, path)
    return findings, last, watch.wait()


def counted(number, noun):
    return f"{number} {noun}" + ("" if number == 1 else "s")


def harts_text(harts):
    return ("hart " if len(harts) == 1 else "harts ") + ", ".join(map(str, sorted(harts)))


def weight(key, findings):
    """The order of causes: pages of users first, then what was given out again, then by reach, then by findings."""
    kernel = key[0]
    return kernel, not any(f.verdicts["reuse"] for f in findings), min(REACHES.index(f.reach) for f in findings), -len(findings)


def cause_text(key):
    kernel, kind, reason = key
    return f"{'kernel' if kernel else 'user'} pages, first {kind}: {reason}"


def note_line(note, findings):
    """What is counted of the findings of one note."""
    pages, spaces = {f.page for f in findings}, {(f.page.asid, f.page.root) for f in findings}
    of = "" if findings[0].page.is_global else f" of {counted(len(spaces), 'space')}"
    mask = 0
    for finding in findings:
        mask |= finding.fenced
    fenced = f"; fences asked of {harts_text([hart for hart in range(64) if mask >> hart & 1])}" if mask else ""
    reach = Counter(f.reach for f in findings)
    return (f"  stale {'by ' + shown_note(note) if note else 'without a note'}: {counted(len(findings), 'finding')}, {counted(len(pages), 'page')}{of}, "
            f"{harts_text({f.hart for f in findings})}{fenced}; " + ", ".join(f"{r} {reach[r]}" for r in REACHES if reach[r]))


def note_lines(trace, findings):
    """The notes with the most findings first, and then in the order in which they began."""
    groups = defaultdict(list)
    for finding in findings:
        groups[trace.notes.get(finding.since) or None].append(finding)
    ordered = sorted(groups.items(), key=lambda item: -len(item[1]))
    yield from (note_line(*item) for item in ordered[:MOST_NOTES])
    if ordered[MOST_NOTES:]:
        rest = [finding for _, findings in ordered[MOST_NOTES:] for finding in findings]
        yield f"  {counted(len(ordered) - MOST_NOTES, 'more note')}: {counted(len(rest), 'finding')}"


def told(path, trace, number, key, findings):
    """A cause in lines."""
    verdicts = sum((f.verdicts for f in findings), Counter())
    yield (f"{path}:{trace.lines[findings[0].first]}: cause {number}: {cause_text(key)}; {counted(len(findings), 'finding')}: "
           + ", ".join(f"{v} {verdicts[v]}" for v in KINDS if verdicts[v]))
    yield from note_lines(trace, findings)


def judged_by(last):
    """How many records were judged, by the line with the counts; all that the trace has, where there is none."""
    return int(last.split()[0]) if re.match(r"\d+ records?(?: before line \d+)?, ", last) else sys.maxsize


def causes_of(program, path):
    """The causes in their order, each with its findings; what `watch` says last, and its status; and the trace."""
    findings, last, status = findings_of(program, path)
    trace = Trace(path, judged_by(last))
    return causes_among(trace, findings), last, status, trace


def causes_among(trace, findings):
    """The causes of findings in their order."""
    causes = defaultdict(list)
    for finding in findings:
        finding.reach, finding.fenced = trace.reach(finding), trace.fenced(finding)
        causes[finding.page.is_global, finding.kind, trace.reason(finding)].append(finding)
    return sorted(causes.items(), key=lambda item: weight(*item))


def numbered(causes):
    """Each cause with its number: 1 for the one that began first."""
    begun = sorted(findings[0].place for _, findings in causes)
    return [(begun.index(findings[0].place) + 1, (key, findings)) for key, findings in causes]


def main(words):
    if len(words) not in (1, 2):
        print("usage: watch_causes.py TRACE [PROGRAM]", file=sys.stderr)
        return 2
    path, program = words[0], words[1] if len(words) == 2 else os.path.join(TOP, "svsim")
    try:
        causes, last, status, trace = causes_of(program, path)
    except OSError as error:
        print(f"watch_causes.py: {error}", file=sys.stderr)
        return 2
    for number, (key, findings) in numbered(causes):
        print("\n".join(told(path, trace, number, key, findings)))
    print((last or "not all was judged").rstrip())
    if status > 1 or trace.is_cut:
        print("watch_causes.py: `watch` judged the records before a wrong line alone" if trace.is_cut else
              f"watch_causes.py: `watch` ended with status {status} (docs/FORMAT.md): these are its verdicts before that", file=sys.stderr)
    return status


if __name__ == "__main__":
    sys.exit(main(sys.argv[1:]))
