#!/usr/bin/env python3
"""`svsim watch` with `--json`, `--max` and `--known`, beside what it prints without them: watch_options.py PROGRAM, which stands for ./svsim.

On the traces of examples/ and of the lists of cases, and on 40 random ones with notes of any bytes:
- each object of `--json` has the fields of its kind and no other, and gives back the line of the text that it stands for, to the byte; a finding is that
  of a verdict, and what a note counts is counted of its findings;
- `--max N` leaves out the verdicts or causes behind the first N, and nothing else;
- a list of what is known takes out the findings that it names but for each `use`, by a second reading of lists here, and no others: what is told
  is what is told of the other verdicts, the entries have their counts, and the status is that of what is left;
- a list with a fault is refused by its first wrong line, before anything of the trace is told.
The last line is `N passed, M failed`; the one before it says how many lists were tried.
"""
import glob, json, os, random, re, subprocess, sys, tempfile
from collections import Counter
from cases import read
from same_watch import TOP, traces
from watch_definitions import counted, is_record, made, parts, shown_note

VERDICT = re.compile(
    r"FILE:(?P<line>\d+): (?P<kernel>kernel-)?(?P<verdict>\w+) hart (?P<hart>\d+) may hold page (?P<page>\w+)\+(?P<size>\w+) -> \w+ \S{5} "
    r"asid (?P<asid>\w+) root (?P<root>\w+), stale since line (?P<since>\d+)(?: by (?P<by>.*?))?; (?:frames |claimed |hart ).*", re.S)
CAUSE = re.compile(r"(?:  |FILE:\d+: )cause (\d+): (user|kernel) pages, first (\w+): ([^;\n]*)(?:; (.*))?", re.S)
KINDS = ("free", "reuse", "claim", "use")
REACHES = {"used": "used", "reachable": "reachable", "not-reached": "not_reached"}  # as a finding has it, and the count of a note
FINDING = ("kernel", "hart", "page", "size", "frame", "flags", "asid", "root", "stale_since", "stale_by")
MOST_NOTES = 5
REASONS = {
    "no-flush": "no flush of the page has begun since",
    "no-fence": "its flush asked for no fence",
    "other-hart": "its flush asked for no fence on this hart",
    "other-asid": ("its flush fenced another ASID", "its flush fenced by ASID, which leaves global pages"),
    "other-page": "its flush fenced other pages",
    "not-done": "its flush asked for a fence that was not done yet",
}
WORDS = {text: word for word, texts in REASONS.items() for text in ([texts] if isinstance(texts, str) else texts)}
SEEDS = range(1, 41)
MOST_FINDINGS = 20  # each has a call of its own


class Run:
    """A program in a folder with a trace, and what it answers."""

    def __init__(self, program, text):
        self.program, self.folder = program, tempfile.TemporaryDirectory()
        self.notes = {at: parts(line)[1] or "" for at, line in enumerate(text.split("\n"), 1) if at > 1 and is_record(line)}
        self.write("FILE", text.encode("utf-8", "surrogateescape"))

    def write(self, name, content):
        with open(os.path.join(self.folder.name, name), "wb") as file:
            file.write(content)

    def watch(self, *words):
        done = subprocess.run([self.program, "watch", *words, "FILE"], cwd=self.folder.name, stdin=subprocess.DEVNULL, capture_output=True)
        return done.returncode, done.stdout, done.stderr.decode()

    def lines(self, *words):
        """The lines of the text, without what is no UTF-8, and the status."""
        status, out, _ = self.watch(*words)
        return [line.decode("utf-8", "replace") for line in out.split(b"\n")[:-1]], status


# ---- JSON

def lossy(note):
    """A note as JSON has it."""
    return note.encode("utf-8", "surrogateescape").decode("utf-8", "replace") or None


def note_part(run, line, note):
    """A note of the text, which the object has for the record on a line."""
    raw = run.notes[line]
    assert note == lossy(raw), (note, raw)
    return f" by {shown_note(raw)}" if raw else ""


def verdict_line(run, o):
    """The line that an object of a verdict stands for."""
    common = ["type", "file", "line", "verdict", "kernel", "hart", "page", "size", "frame", "flags", "asid", "root", "stale_since", "stale_by"]
    own = {"free": ["frames", "count"], "reuse": ["frames", "count"], "claim": ["claimed_since"], "use": ["address"]}[o["verdict"]]
    assert list(o) == [*common, *own, "by"], list(o)
    assert o["kernel"] == (o["asid"] is None) == (o["root"] is None)
    did = {
        "free": lambda: f"frames {o['frames']}+{o['count']} given back",
        "reuse": lambda: f"frames {o['frames']}+{o['count']} given out",
        "claim": lambda: f"claimed clean since line {o['claimed_since']}",
        "use": lambda: f"hart {o['hart']} uses {o['address']}",
    }[o["verdict"]]()
    return (f"{o['file']}:{o['line']}: {'kernel-' * o['kernel']}{o['verdict']} hart {o['hart']} may hold page {o['page']}+{o['size']} -> {o['frame']} "
            f"{o['flags']} asid {o['asid'] or 'any'} root {o['root'] or 'any'}, stale since line {o['stale_since']}{note_part(run, o['stale_since'], o['stale_by'])}; "
            f"{did}{note_part(run, o['line'], o['by'])}")


def reason_text(o):
    text = REASONS[o["reason"]]
    return text if isinstance(text, str) else text[o["kernel"]]


def cause_part(o):
    return f"cause {o['cause']}: {'kernel' if o['kernel'] else 'user'} pages, first {o['first']}: {reason_text(o)}"


def findings(n):
    return counted(n, "finding") if n else "no finding"


def counts_text(prefixed):
    return ", ".join(f"{name} {n}" for name, n in prefixed if n)


def line_of(run, o):
    """The line of the text that an object stands for, but for those of findings and notes."""
    if o["type"] == "verdict":
        return verdict_line(run, o)
    if o["type"] == "cause":
        assert list(o) == ["type", "file", "line", "cause", "kernel", "first", "reason"], list(o)
        return f"  {cause_part(o)}"
    if o["type"] == "total":
        assert list(o) == ["type", "file", "line", "cause", "kernel", "first", "reason", "findings", *KINDS], list(o)
        return f"{o['file']}:{o['line']}: {cause_part(o)}; {counted(o['findings'], 'finding')}: {counts_text((k, o[k]) for k in KINDS)}"
    if o["type"] == "known":
        assert list(o) == ["type", "file", "line", "findings"], list(o)
        return f"{o['file']}:{o['line']}: by design: {findings(o['findings'])}"
    assert list(o) == ["type", "file", "records", "before_line", "user", "kernel", "by_design"] and o["type"] == "summary", list(o)
    assert list(o["user"]) == list(o["kernel"]) == list(KINDS)
    counts = [(owner + k, o[of][k]) for owner, of in (("", "user"), ("kernel-", "kernel")) for k in KINDS]
    total = sum(n for _, n in counts)
    before = "" if o["before_line"] is None else f" before line {o['before_line']}"
    design = "" if o["by_design"] is None else f"; {findings(o['by_design'])} by design"
    return f"{counted(o['records'], 'record')}{before}, " + (f"{counted(total, 'verdict')}: {counts_text(counts)}" if total else "no verdict") + design


def harts_text(harts):
    assert harts == sorted(set(harts)), harts
    return ("hart " if len(harts) == 1 else "harts ") + ", ".join(map(str, harts))


def note_text(o, raw):
    """The line that an object of a note stands for."""
    assert list(o) == ["type", "file", "cause", "note", "findings", "pages", "spaces", "harts", "asked", *REACHES.values()], list(o)
    by = f"by {shown_note(raw)}" if raw else "without a note"
    of = "" if o["spaces"] is None else f" of {counted(o['spaces'], 'space')}"
    fenced = f"; fences asked of {harts_text(o['asked'])}" if o["asked"] else ""
    return (f"  stale {by}: {counted(o['findings'], 'finding')}, {counted(o['pages'], 'page')}{of}, {harts_text(o['harts'])}{fenced}; "
            + counts_text((word.replace("-", " "), o[name]) for word, name in REACHES.items()))


def note_texts(run, notes, findings):
    """The first five of a cause, and one line for the others."""
    groups = groups_of(run, findings)
    assert [o["note"] for o in notes] == [lossy(raw) for raw, _ in groups]
    for o, (_, group) in zip(notes, groups):
        note_is_of(o, group)
    texts = [note_text(o, raw) for o, (raw, _) in zip(notes, groups)]
    rest = notes[MOST_NOTES:]
    more = [f"  {counted(len(rest), 'more note')}: {counted(sum(o['findings'] for o in rest), 'finding')}"] if rest else []
    return texts[:MOST_NOTES] + more


def groups_of(run, findings):
    """The findings of a cause by the note of their store, those with more first."""
    of = {}
    for o in findings:
        of.setdefault(run.notes[o["stale_since"]], []).append(o)
    return sorted(of.items(), key=lambda item: -len(item[1]))


def scope_of(o):
    return o["asid"], o["root"]


def note_is_of(o, group):
    """It counts these findings; the harts that were asked for a fence are not looked at."""
    pages = {(f["page"], f["size"], *scope_of(f)) for f in group}
    spaces = None if group[0]["kernel"] else len(set(map(scope_of, group)))
    reach = Counter(f["reach"] for f in group)
    assert (o["findings"], o["pages"], o["spaces"], o["harts"]) == (len(group), len(pages), spaces, sorted({f["hart"] for f in group})), o
    assert all(o[name] == reach[word] for word, name in REACHES.items()), o


def finding_is_right(o, firsts):
    """It is that of its first verdict, among these."""
    assert list(o) == ["type", "file", "line", "cause", *FINDING, "reach"] and o["reach"] in REACHES, list(o)
    assert any(all(o[name] == first[name] for name in ("line", *FINDING)) for first in firsts), o


def ends_are_right(objects, verdicts):
    """The findings at the end are those of the causes."""
    findings = [o for o in objects if o["type"] == "finding"]
    for o in findings:
        finding_is_right(o, verdicts)
    totals = [o for o in objects if o["type"] == "total"]
    for total in totals:
        own = [o for o in findings if o["cause"] == total["cause"]]
        assert len(own) == total["findings"] and own[0]["line"] == total["line"]
        assert all(o["kernel"] == total["kernel"] for o in own)
    assert len(findings) == sum(o["findings"] for o in totals)


def texts_of(run, objects):
    """The lines of the text."""
    lines, notes, cause = [], [], None
    findings = [o for o in objects if o["type"] == "finding"]
    for o in objects:
        if o["type"] == "note":
            assert o["cause"] == cause
            notes.append(o)
        elif o["type"] != "finding":
            if cause is not None:
                lines += note_texts(run, notes, [f for f in findings if f["cause"] == cause])
            notes, cause = [], o["cause"] if o["type"] == "total" else None
            lines.append(line_of(run, o))
    return lines


def objects_of(run, *words):
    status, out, err = run.watch(*words, "--json")
    assert all(byte >= 0x20 or byte == 0x0A for byte in out)
    return [json.loads(line) for line in out.decode("utf-8").split("\n")[:-1]], status, err


def json_is_right(run, words):
    objects, status, err = objects_of(run, *words)
    plain, plain_status = run.lines(*words)
    assert (status, err) == (plain_status, run.watch(*words)[2])
    assert texts_of(run, objects) == plain, (texts_of(run, objects), plain)
    if "--all" not in words and "--quiet" not in words:
        ends_are_right(objects, [o for o in objects_of(run, *words, "--all")[0] if o["type"] == "verdict"])


# ---- max

def is_cut(run, words, most):
    """With `--max` the first so many are told. Of causes the first that begin have blocks, and lines at the end."""
    got, status = run.lines(*words, "--max", str(most))
    lines, plain_status = run.lines(*words)
    if "--all" in words:
        wanted = [line for place, line in enumerate(lines[:-1]) if place < most] + lines[-1:]
    else:
        blocks = sum(line.startswith("  cause ") for line in lines)
        ends, cause = [], 0
        for line in lines[2 * blocks : -1]:
            head = CAUSE.fullmatch(line)
            cause = int(head[1]) if head else cause
            ends += [line] * (cause <= most)
        wanted = lines[: 2 * min(blocks, most)] + ends + lines[-1:]
    assert (got, status) == (wanted, plain_status), (got, wanted)


# ---- what is known

def findings_of(run):
    """The verdicts of `--all`, each with the key of its finding, and for each finding its first verdict and its reason, by a trace without
    the others."""
    found = []
    for line in run.lines("--all")[0][:-1]:
        verdict = VERDICT.fullmatch(line)
        kernel = bool(verdict["kernel"])
        scope = () if kernel else (verdict["asid"], verdict["root"])
        found.append((line, verdict, (verdict["since"], verdict["hart"], verdict["page"], verdict["size"], kernel, *scope)))
    return found


def causes_of(run, found):
    """Of each finding the first verdict and its reason, by what `watch` tells of this hart, page and kind alone: the cause that begins there, or
    the only one. A finding of which this says nothing has no reason here."""
    firsts, reasons = {}, {}
    for _, verdict, key in found:
        firsts.setdefault(key, verdict)
    for key, verdict in firsts.items():
        tests = "--hart", verdict["hart"], "--page", verdict["page"], "--kind", (verdict["kernel"] or "") + verdict["verdict"]
        lines = run.lines(*tests)[0]
        begun = {}
        for head, cause in zip(lines, lines[1:]):
            at, of = VERDICT.fullmatch(head), CAUSE.fullmatch(cause)
            if at and of:
                begun[at["line"], at["since"]] = WORDS[of[4]]
        only = set(begun.values()).pop() if len(set(begun.values())) == 1 else None
        reason = begun.get((verdict["line"], verdict["since"]), only)
        if reason:
            reasons[key] = reason
    return firsts, reasons


def entry_line(entry):
    owner, first, reason, reach, addresses, note = entry
    return " ".join([owner, first, reason, *reach, *addresses, *(["@" + note] if note else [])])


def takes(entry, verdict, reason, reach, by):
    """An entry takes a finding, by its first verdict, its reach on the whole trace and the note of its store."""
    owner, first, why, reaches, addresses, note = entry
    start, size = int(verdict["page"], 16), int(verdict["size"], 16)
    reached = not addresses or (int(addresses[1], 16) > 0 and int(addresses[0], 16) < start + size and start < int(addresses[0], 16) + int(addresses[1], 16))
    return ((owner == "kernel") == bool(verdict["kernel"]) and first in ("-", verdict["verdict"]) and why in ("-", reason) and reached
            and reaches in ((), (reach,)) and by.startswith(note))


def reaches_of(run):
    """Of each finding its reach, as `--json` has it."""
    return {(str(o["stale_since"]), str(o["hart"]), o["page"], o["size"], o["kernel"], *(() if o["kernel"] else (o["asid"], o["root"]))): o["reach"]
            for o in objects_of(run)[0] if o["type"] == "finding"}


def made_entries(run, r, firsts, reasons, reaches):
    """Entries that name some of the findings, and some that name others."""
    entries = []
    for key in r.sample(sorted(reasons), min(len(reasons), r.randrange(4))):
        verdict, start = firsts[key], int(firsts[key]["page"], 16)
        addresses = r.choice(((), (), (f"{start:x}", "1000"), (f"{start + 0x1000:x}", "1000"), (f"{max(start - 0x1000, 0):x}", "1001"), (f"{start:x}", "0")))
        by = run.notes[int(verdict["since"])]
        note = r.choice(("", "", by, by[:3], "other"))
        note = note if note.isascii() and note.isprintable() else ""
        reach = r.choice(((), (), (reaches[key],), (reaches[key],), tuple(r.sample(sorted(REACHES), 1))))
        entries.append((r.choice(("kernel" if verdict["kernel"] else "user",) * 3 + ("user",)), r.choice(("-", verdict["verdict"], "use")),
                        r.choice(("-", reasons[key], reasons[key], "not-done")), reach, addresses, note))
    return entries + [(r.choice(("user", "kernel")), "reuse", "other-page", (), ("0", "1000"), "")] * r.randrange(2)


def known_is_right(run, r, found, firsts, reasons, reaches):
    entries = made_entries(run, r, firsts, reasons, reaches)
    lines = r.choice(([], ["# by design", ""])) + [line for entry in entries for line in (*r.choice(([], ["# why"])), entry_line(entry))]
    run.write("LIST", "".join(f"{line}\n" for line in lines).encode())
    number_at = [place for place, line in enumerate(lines, 1) if line and line[0] != "#"]
    of = {key: next((n for n, entry in enumerate(entries) if takes(entry, firsts[key], reasons[key], reaches[key], run.notes[int(firsts[key]["since"])])), None) for key in reasons}
    counts = Counter(n for n in of.values() if n is not None)
    others = [(line, verdict) for line, verdict, key in found if of.get(key) is None or verdict["verdict"] == "use"]
    told = [line for line, _ in others]
    tail = [f"LIST:{at}: by design: {findings(counts[n])}" for n, at in enumerate(number_at)]
    kinds = Counter((verdict["kernel"] or "") + verdict["verdict"] for _, verdict in others)
    whole = run.lines("--all")[0][-1].split(", ")[0]
    total = f"{counted(len(told), 'verdict')}: " + counts_text((owner + k, kinds[owner + k]) for owner in ("", "kernel-") for k in KINDS) if told else "no verdict"
    design = f"; {findings(sum(counts.values()))} by design" if entries else ""
    got, status = run.lines("--all", "--known", "LIST")
    assert got == [*told, *tail, f"{whole}, {total}{design}"], (got, told, tail)
    assert status == (1 if told else 3 if " before line " in whole else 0)
    assert run.lines("--quiet", "--known", "LIST") == ([got[-1]], status)
    causes, again = run.lines("--known", "LIST")
    assert (causes[len(causes) - len(tail) - 1 :], again) == (got[len(told) :], status)
    for line in causes:
        assert not VERDICT.fullmatch(line) or line in told
    json_is_right(run, ["--known", "LIST", *r.choice(([], ["--all"], ["--quiet"]))])


FAULTS = ("user", "user free", "user free no-fence 1000", "user free no-fence 1000 1000 1000", "kernel-free - -", "user freed -", "user - because",
          "user - - g 1000", "user - - unreached", "user - - used used", "user - - 1000 10 used", "user - - 1000 0x10", "user  - -", " user - -", "user - - ", "user - -\r", "\ufeffuser - -", "user - - 11111111111111111 1")


def fault_is_told(run, fault, before):
    """Standard output stays empty, and the line is told."""
    run.write("LIST", "".join(f"{line}\n" for line in [*before, fault, "user - - - - -"]).encode())
    status, out, err = run.watch("--known", "LIST")
    assert (status, out) == (3, b""), (status, out)
    assert re.fullmatch(rf"LIST:{len(before) + 1}:.*\n", err), err


def list_is_read(run, path):
    """A list of examples/: an entry has a line, which says that nothing matched it."""
    run.write("LIST", read(path).encode())
    entries = [at for at, line in enumerate(read(path).splitlines(), 1) if line and line[0] != "#"]
    wanted = [*(f"LIST:{at}: by design: no finding" for at in entries), "0 records, no verdict; no finding by design"]
    assert entries and run.lines("--known", "LIST") == (wanted, 0)


# ---- all

def check(counts, of, *words):
    try:
        of(*words)
        counts["passed"] += 1
    except (AssertionError, KeyError, TypeError, ValueError) as error:
        counts["failed"] += 1
        print(f"FAILED {of.__name__} {words[1:] if len(str(words[1:])) < 200 else ''}: {str(error)[:600]}")


def noted(seed):
    """A random trace with notes of any bytes but a line feed."""
    r, lines = random.Random(seed), list(made(seed))
    notes = ['a "note"', "back\\slash", "tab\there", "bell\a", "\x7f", "\udcff\udcc3", "\udce2\udc82", "é", "a b  c", "\x1b[31m", "\u2028", "", "/"]
    for number in range(1, len(lines)):
        if r.random() < 0.6:
            lines[number] += f" {r.choice('@#')}{r.choice(notes)}"
    return "\n".join(lines) + "\n"


def main(program):
    counts, r = Counter(), random.Random(1)
    for text in [*traces(), *map(noted, SEEDS)]:
        run = Run(program, text)
        for words in ([], ["--all"], ["--quiet"]):
            check(counts, json_is_right, run, words)
        for words in ([], ["--all"]):
            check(counts, is_cut, run, words, r.randrange(5))
        if run.watch("--quiet")[0] == 1:
            found = findings_of(run)
            if len({key for _, _, key in found}) <= MOST_FINDINGS:
                (firsts, reasons), reaches = causes_of(run, found), reaches_of(run)
                for _ in range(3 if len(reasons) == len(firsts) else 0):
                    check(counts, known_is_right, run, r, found, firsts, reasons, reaches)
                    counts["lists"] += 1
    run = Run(program, "watch 1 1 sv39\n")
    for fault in FAULTS:
        for before in ([], ["# a comment", "", "kernel free no-flush"]):
            check(counts, fault_is_told, run, fault, before)
    for path in sorted(glob.glob(f"{TOP}/examples/**/*.known", recursive=True)):
        check(counts, list_is_read, run, path)
    print(f"{counts['lists']} lists, of which there are to be 100")
    print(f"{counts['passed']} passed, {counts['failed']} failed")
    return counts["failed"] > 0 or counts["lists"] < 100


if __name__ == "__main__":
    sys.exit(main(os.path.abspath(sys.argv[1])) if len(sys.argv) == 2 else __doc__.split("\n", 1)[0])
