#!/usr/bin/env python3
"""Compares what README and docs show with what is so: documents.py PROGRAM, which stands for ./svsim.

- Commands: in a block ```console each line `$ COMMAND` is run by sh, and has to print the lines below it. A line `..` stands for any
  lines. A block whose first line is `# NAME.toml` or `# NAME.trace` is a file of that name for the commands below it on the page.
- Sources: a block ```rust, ```c or ```antt is a text of one source file, of which `..` stands for what is left out.
- Links: each file and each heading that a page of the repository links to is there.
- Help: of each command the wrapper ./svsim and PROGRAM tell the same, and both list the commands alike. PROGRAM has CHANGELOG's version.
- Wrapper: the keys by which ./svsim tells files apart are the code's.
- Formats: docs/FORMAT.md has the keys, the steps, the words of steps and the refusals of the code, each where it belongs, and no others. Keys
  have the code's order, types, limits and defaults, and whole numbers the limits that PROGRAM tells. Words of steps have the signs that the
  code reads and the bounds of its numbers; the rest of their cells is not compared, nor are replies, and of other tables the numbers in LIMITS
  alone.
- Definitions: docs/dev/DEFINITIONS.md has the counts of scripts/lines_to_believe.py.
- Sizes: README's words and lines, and the bytes of the pages for users.

The last line is `N passed, M failed`.
"""
import os, re, subprocess, sys, tempfile
from lines_to_believe import counts

TOP = os.path.dirname(os.path.dirname(os.path.abspath(__file__)))
MOST_WORDS, MOST_LINES, MOST_BYTES = 900, 115, 75 * 1024
NOT_FOR_USERS = ("docs/dev/", "docs/DECISIONS.md", "docs/PERF.md")
SECONDS = 60
KEY_TABLE = "crates/files/src/key_table.rt"
CONFIGURATION = "crates/spaces/src/configuration.rt"
CRATES = ("pte", "shoot", "spaces", "files")  # with the constants of FORMAT
# How FORMAT names the type of a key, by the code's kind of it.
TYPES = {
    "Whole": r"whole number, \d+ to \d+:",
    "Ppn": r"text: the .*\bPPN\b",
    "Scheme": r"text `\w+` or `\w+`",
    "Spares": r"whole numbers, one a hart:",
    "Texts": r"(1 to [\d,]+ |at most [\d,]+ )?texts\b",
    "Scripts": r"an array of texts for each hart,",
}
# Where FORMAT tells a number of the code, how often, and the constant that it is.
LIMITS = (
    (r"\| `spaces` \| 1 to ([\d,]+) texts", 1, "MAX_SPACES"),
    (r"\| `frames` \| at most ([\d,]+) texts", 1, "MOST_FRAMES"),
    (r"\| `steps` \| at most ([\d,]+) texts", 2, "MOST_STEPS"),
    (r"\| `words` \| .* at an index, below ([\d,]+),", 1, "TABLE_LENGTH"),
    (r"\| `spares` \| .* \| (\d+) for each hart \|", 1, "DEFAULT_SPARES"),
    (r"Table memory is at most ([\d,]+) frames from", 1, "MAX_FRAMES"),
    (r"frames from `base` on, below PPN 2\^(\d+)\.", 1, "PPN_BITS"),
    (r"the PPN has more than (\d+) bits", 1, "PPN_BITS"),
    (r"all (\d+) tickets of the hart", 1, "MAX_TICKETS"),
    (r"Setup and scripts have at most ([\d,]+) steps together", 1, "MOST_STEPS"),
    (r"steps together, tables (\d+) frames", 1, "MAX_LIVE_FRAMES"),
    (r"for a root or a frame 2\^(\d+) or more", 1, "PPN_BITS"),
    (r"More than (\d+) `spaces`, ", 1, "MAX_SPACES"),
    (r"`spaces`, (\d+) `spares` or", 1, "MAX_HARTS"),
    (r"`spares` or ([\d,]+) `frames`", 1, "MOST_FRAMES"),
    (r"More than ([\d,]+) frames \(", 1, "MAX_FRAMES"),
    (r" frames \((\d+) of `live`\)", 1, "MAX_LIVE_FRAMES"),
    (r"one at PPN 2\^(\d+) or above", 1, "PPN_BITS"),
    (r"\| `too many steps` \| more than ([\d,]+) \|", 1, "MOST_STEPS"),
)
# What a step's word is where FORMAT has no row for it: the number of a hart, an address or a PPN.
PLAIN_LABELS = {"H", "VA", "ADDRESS", "PPN", "FROM", "TO"}


def tracked(*patterns):
    listed = subprocess.run(["git", "-C", TOP, "ls-files", "-co", "--exclude-standard", *patterns], capture_output=True, text=True)
    return [path for path in listed.stdout.split("\n") if os.path.isfile(os.path.join(TOP, path))]


def text_of(path):
    with open(os.path.join(TOP, path), encoding="utf-8") as file:
        return file.read()


def blocks(text):
    """The fenced blocks of a page: the word behind the fence, the number of the first line, the lines."""
    word, first, lines = None, 0, []
    for number, line in enumerate(text.split("\n"), 1):
        if not line.startswith("```"):
            lines.append(line)
        elif word is None:
            word, first, lines = line[3:].strip(), number + 1, []
        else:
            yield word, first, lines
            word = None


def has_lines(shown, printed):
    """Whether the lines printed are those shown, where `..` stands for any lines."""
    pieces = [[]]
    for line in shown:
        if line == "..":
            pieces.append([])
        else:
            pieces[-1].append(line)
    first, last = pieces[0], pieces[-1]
    if len(pieces) == 1:
        return printed == first
    at, end = len(first), len(printed) - len(last)
    if printed[:at] != first or printed[end:] != last or end < at:
        return False
    for piece in pieces[1:-1]:
        places = [start for start in range(at, end - len(piece) + 1) if printed[start : start + len(piece)] == piece]
        if not places:
            return False
        at = places[0] + len(piece)
    return True


def calls(lines):
    """The commands of a block, each with the lines that are shown of what it prints."""
    found = []
    for line in lines:
        if line.startswith("$ "):
            found.append((line[2:], []))
        else:
            found[-1][1].append(line)
    return found


def run(call, folder):
    done = subprocess.run(["sh", "-c", call], cwd=folder, stdin=subprocess.DEVNULL, stdout=subprocess.PIPE, stderr=subprocess.STDOUT,
                          timeout=SECONDS)
    return done.stdout.decode("utf-8", "replace").split("\n")[:-1]


def check_commands(page, program):
    """Runs the commands of a page in one folder, which has the program, the examples, and the files that the page writes."""
    with tempfile.TemporaryDirectory() as folder:
        os.symlink(program, f"{folder}/svsim")
        os.symlink(f"{TOP}/examples", f"{folder}/examples")
        for word, first, lines in blocks(text_of(page)):
            named = re.fullmatch(r"# ([\w-]+\.(toml|trace))", lines[0]) if lines else None
            if named:
                with open(f"{folder}/{named[1]}", "w", encoding="utf-8") as file:
                    file.write("".join(f"{line}\n" for line in lines))
            for call, shown in calls(lines) if word == "console" else []:
                printed = run(call, folder)
                yield has_lines(shown, printed), f"{page}:{first}: `{call}` prints\n" + "\n".join(printed)


def check_sources(page, sources):
    """A block of code is a text of one source file, but for the spaces before its lines."""
    for word, first, lines in blocks(text_of(page)):
        if word not in ("rust", "c", "antt"):
            continue
        pieces = re.split(r"(?m)^ *\.\.$", "\n".join(line.strip() if line.strip() == ".." else line for line in lines))
        wanted = [piece.strip("\n") for piece in pieces if piece.strip()]
        yield any(all(piece in source for piece in wanted) for source in sources), f"{page}:{first}: in no source file"


def anchors(text):
    """The names by which a page's headings are linked to."""
    seen, in_block = {}, False
    for line in text.split("\n"):
        in_block ^= line.startswith("```")
        heading = None if in_block else re.match(r"#+ (.*)", line)
        if heading:
            words = re.sub(r"\[([^\]]*)\]\([^)]*\)", r"\1", heading[1])
            name = re.sub(r"[^\w\- ]", "", words.lower()).replace(" ", "-")
            count = seen[name] = seen.get(name, -1) + 1
            yield f"{name}-{count}" if count else name


def check_links(page):
    prose = re.sub(r"(?ms)^```.*?^```", "", text_of(page))
    prose = re.sub(r"`[^`\n]*`", "", prose)
    for target in re.findall(r"\]\(([^)\s]+)\)", prose):
        if re.match(r"\w+:", target):
            continue
        path, _, anchor = target.partition("#")
        file = os.path.normpath(os.path.join(os.path.dirname(page), path)) if path else page
        there = os.path.exists(os.path.join(TOP, file))
        yield there and (not anchor or anchor in anchors(text_of(file))), f"{page}: no {target}"


def printed_by(*words):
    return subprocess.run(words, stdin=subprocess.DEVNULL, capture_output=True, text=True).stdout


def check_help(program):
    wrapper = os.path.join(TOP, "svsim")
    listed = [printed_by(each, "help").split("\n\n")[:2] for each in (program, wrapper)]
    yield listed[0] == listed[1], "help: the program and the wrapper list other commands"
    for command in re.findall(r"(?m)^  (\w+) [A-Z]+ ", listed[0][-1]):
        told = [printed_by(each, "help", command) for each in (program, wrapper)]
        yield told[0] == told[1] != "", f"help {command}: the program and the wrapper tell other things"
    version = re.search(r"(?m)^## ([0-9.]+)", text_of("CHANGELOG.md"))[1]
    yield printed_by(program, "--version") == f"svsim {version}\n", f"--version: the program's is not CHANGELOG's {version}"


def rows(section, head):
    """The cells of the rows of the tables of a section of FORMAT whose first head this is."""
    part = re.search(rf"(?ms)^## {re.escape(section)}\n(.*?)(?=^## |\Z)", text_of("docs/FORMAT.md"))[1]
    for table in re.findall(rf"(?m)^\| {head} \|.*\n\|[-|]+\n((?:\|.*\n)*)", part):
        for row in table.splitlines():
            yield [cell.strip() for cell in row.strip("| ").split(" | ")]


def forms():
    """How the steps of run, and those of live, are written, by the code's table."""
    table = text_of("crates/steps/src/table.rt")
    labels = dict(re.findall(r'Field::(\w+) => "(\w+)"', table))
    written = {"run": set(), "live": set()}

    def add(command, word, fields):
        written[command].add(" ".join(["H", word, *(labels[field] for field in re.findall(r"Field::(\w+)", fields))]))

    for kind, word, fields in re.findall(r'Row::(run|live|both)\(\s*"(\w+)",\s*&\[([^]]*)\],?\s*\)', table):
        for command in written if kind == "both" else [kind]:
            add(command, word, fields)
    for word, run, live in re.findall(r'word: "(\w+)",\s*run: Some\(&\[([^]]*)\]\),\s*live: Some\(&\[([^]]*)\]\)', table):
        add("run", word, run)
        add("live", word, live)
    return written["run"], written["live"]


def cells(section, head):
    """The first cells of such rows, taken apart at commas between code."""
    for row in rows(section, head):
        yield from re.findall(r"`([^`]*)`", row[0])


def key_lists():
    """The keys of each command in the code's table, by their names and in its order."""
    names = dict(re.findall(r'Key::(\w+) => "(\w+)"', text_of(KEY_TABLE)))
    for command in ("run", "live", "walk"):
        keys = re.search(rf"const {command.upper()}_KEYS: \[Key; \w+\] = \[(.*?)\];", text_of(KEY_TABLE), re.S)[1]
        yield [names[key] for key in re.findall(r"Key::(\w+)", keys)]


def value(expression):
    """The number that an expression of the code is: digits, a constant, 1 << such a number, or a field of the default configuration."""
    word = re.sub(r"u\d+::from\((.*)\)", r"\1", re.sub(r" as \w+$", "", expression.strip()))
    if re.fullmatch(r"\d\w*", word):
        return int(word, 0)
    if word == "u32::MAX":
        return 2**32 - 1
    if word.startswith("1 << "):
        return 1 << value(word[5:])
    field = re.fullmatch(r"default\.(\w+)", word)
    if field:
        wanted = r"Config::with_harts\((\w+)\)" if field[1] == "harts" else rf"\b{field[1]}: (\d\w*),"
        return int(re.search(wanted, text_of(CONFIGURATION))[1], 0)
    for path in tracked(*(f"crates/{crate}/src/*.rt" for crate in CRATES)):
        constant = re.search(rf"(?m)^pub const {word}: \w+ = (?!\w+::)(.*);", text_of(path))
        if constant:
            return value(constant[1])
    raise ValueError(f"no number: {expression}")


def kinds():
    """The kind of each key in the code's table, with the numbers that belong to it."""
    table = text_of(KEY_TABLE)
    names = dict(re.findall(r'Key::(\w+) => "(\w+)"', table))
    arms = re.search(r"pub fn kind\(self\).*?match self \{\n(.*?)\n {8}\}", table, re.S)[1]
    found = {}
    for keys, made in re.findall(r"((?:Key::\w+(?: \| )?)+) => (.*?),(?=\s*Key::|$)", arms, re.S):
        whole, ppn = re.fullmatch(r"from_one\((.*), (.*)\)", made), re.fullmatch(r"ppn\((.*), (.*)\)", made)
        if whole:
            kind = "Whole", (1, value(whole[1])), value(whole[2])
        elif ppn:
            limit = re.fullmatch(r"Some\((.*)\)", ppn[1])
            kind = "Ppn", value(limit[1]) if limit else None, value(ppn[2])
        else:
            kind = made.removeprefix("Kind::"), None, None
        found.update((names[key], kind) for key in re.findall(r"Key::(\w+)", keys))
    return found


def own_keys(command):
    """The keys of one command alone, by the code's table."""
    table = text_of(KEY_TABLE)
    names = dict(re.findall(r'Key::(\w+) => "(\w+)"', table))
    return [names[key] for key in re.findall(r"Key::(\w+)", re.search(rf"Command::{command} => &\[([^]]*)\]", table)[1])]


def check_wrapper():
    for command in ("Live", "Walk"):
        listed = re.search(rf"(?m)^{command.lower()}_keys='([\w|]*)'$", text_of("svsim"))
        yield bool(listed) and listed[1].split("|") == own_keys(command), f"svsim has other keys of {command.lower()} alone than the code"


def check_keys(program):
    run, live, walk = key_lists()
    told = {command: list(cells(f"A file for `{command}`", "key")) for command in ("run", "live", "walk")}
    yield sorted(told["run"]) == sorted(run), "FORMAT has other keys of run than the code"
    yield sorted(set(told["run"]) - {"steps"} | set(told["live"])) == sorted(live), "FORMAT has other keys of live than the code"
    yield told["walk"] == walk, "FORMAT has other keys of walk than the code, or in another order"
    order = re.search(r"Keys come as (.*?), `steps` \(of `live` (.*?)\), `mode`", text_of("docs/FORMAT.md"))
    first, own = (re.findall(r"`(\w+)`", part) for part in order.groups())
    yield first + ["steps", "mode"] == run and first + own + ["mode"] == live, "FORMAT has the keys in another order than the code"
    alone = re.search(r"`live` if it has (.*?), else `walk` if it has (.*?), else `run`", text_of("docs/FORMAT.md"))
    own = [re.findall(r"`(\w+)`", part) for part in alone.groups()]
    yield own == [own_keys("Live"), own_keys("Walk")], "FORMAT has other keys of one command than the code"
    yield from check_values(program, set(run + live + walk))


def check_values(program, keys):
    """Each key's type, limits and default are those of the code's table; the limits of whole numbers are those that the program tells too."""
    of_code = kinds()
    yield set(of_code) == keys, "the code's table has kinds of other keys"
    for command in ("run", "live", "walk"):
        for cell, told, default in rows(f"A file for `{command}`", "key"):
            key = cell.strip("`")
            if key not in of_code:
                continue
            kind, limit, number = of_code[key]
            of_key = f"{key} of {command}"
            has_type = bool(re.match(TYPES[kind], told))
            yield has_type, f"FORMAT has another type of {of_key} than the code"
            if not has_type:
                continue
            yield default.strip("`") in defaults(key, kind, number), f"FORMAT has another default of {of_key} than the code"
            if kind == "Whole":
                least, most = map(int, re.search(r"(\d+) to (\d+)", told).groups())
                yield (least, most) == limit, f"FORMAT has other limits of {of_key} than the code"
                with tempfile.NamedTemporaryFile("w", suffix=".toml") as file:
                    file.write(f'{key} = "x"\n')
                    file.flush()
                    printed = printed_by(program, "check", file.name)
                yield f"a whole number from {least} to {most} is expected" in printed, f"FORMAT has other limits of {of_key} than the program"
            if kind == "Ppn":
                bits = re.search(r"\bbelow 2\^(\d+)$", told)
                yield (1 << int(bits[1]) if bits else None) == limit, f"FORMAT has another limit of {of_key} than the code"
            if kind == "Scheme":
                named = re.findall(r'word == b"(\w+)"', text_of("crates/files/src/settings.rt"))
                yield re.findall(r"`(\w+)`", told) == named, f"FORMAT has other schemes at {of_key} than the code"


def defaults(key, kind, number):
    """How the default of a key may be written."""
    if kind == "Whole":
        return [str(number)]
    if kind == "Ppn":
        return [f'"{number:#x}"']
    configuration = text_of(CONFIGURATION)
    if kind == "Scheme":
        return ['"{}"'.format(re.search(r"scheme: Scheme::(\w+),", configuration)[1].lower())]
    if kind == "Spares":
        return [f"{value('DEFAULT_SPARES')} for each hart"]
    if key == "spaces":
        return ['["{} {}"]'.format(*re.search(r"spaces\.push\(Space \{ home: (\d+), asid: (\d+) \}\)", configuration).groups())]
    return ["[]"]


def check_limits():
    """The numbers that FORMAT tells elsewhere are the code's constants."""
    for pattern, count, constant in LIMITS:
        told = re.findall(pattern, text_of("docs/FORMAT.md"))
        yield [int(each.replace(",", "")) for each in told] == [value(constant)] * count, f"FORMAT has no {pattern} with the code's {constant}"


def body_of(name, source):
    found = re.search(rf"(?ms)^(?:pub )?fn {name}\((.*?)^\}}", source)
    return found[1] if found else ""


def signs(name, source, seen):
    """What a reader of a word, with the functions that it calls, compares the word with."""
    if name in seen:
        return set()
    seen.add(name)
    body = body_of(name, source)
    found = {part for text in re.findall(r'b"([^"]*)"', body) for part in re.findall(r"\+?\w+|-", text)}
    letters = "".join(re.findall(r"b'(\w)' =>", body))
    return found.union([letters] if letters else [], *(signs(called, source, seen) for called in re.findall(r"(\w+)\(", body)))


def check_words():
    """FORMAT has a row for each word of a step that is no plain number, with the signs that the code reads, and the bounds of its numbers."""
    fields = dict(re.findall(r'Field::(\w+) => "(\w+)"', text_of("crates/steps/src/table.rt")))
    of_fields = dict(re.findall(r"Field::(\w+) => self\.\w+ = (\w+)\(", text_of("crates/steps/src/parts.rt")))
    readers = {label: of_fields[field] for field, label in fields.items()}
    source = text_of("crates/steps/src/fields.rt") + text_of("crates/steps/src/accesses.rt")
    told = list(rows("A file for `run`", "word"))
    named = [label for row in told for label in row[0].split(", ")]
    yield sorted([*named, *PLAIN_LABELS]) == sorted(readers), "FORMAT's table of words has other words than the code"
    for cell, meaning in told:
        known = [readers[label] for label in cell.split(", ") if label in readers]
        first = re.sub(r"\bas `[^`]*`", "", meaning.split(";")[0])
        marks = set(re.findall(r"`([^`]*)`", first))
        yield all(marks == signs(reader, source, set()) for reader in known), f"FORMAT has other signs of {cell} than the code"
        below = [2 ** int(power) if power else int(plain) for power, plain in re.findall(r"below (?:2\^(\d+)|(\d+))", first)]
        bounds = [value(bound) for reader in known for bound in re.findall(r"< (1 << \w+)", body_of(reader, source))]
        yield below == bounds, f"FORMAT has other bounds of {cell} than the code"


def check_formats(program):
    yield from check_keys(program)
    yield from check_limits()
    yield from check_words()
    steps = set(cells("A file for `run`", "step"))
    of_run, of_live = forms()
    yield steps == of_run, "FORMAT has other steps of run than the code"
    own = {f"H {form}" for form in cells("A file for `live`", "step")}
    told = re.search(r"The steps are ([^.]*?) as for `run`", text_of("docs/FORMAT.md"))[1]
    shared = {form for form in steps if form.split()[1] in re.findall(r"`(\w+)`", told)}
    yield own | shared == of_live, "FORMAT has other steps of live than the code"
    refusals = set(re.findall(r"(?m)^    ([A-Z]\w*),", text_of("crates/history/src/refusal.rt")))
    yield set(cells("The refusals", "refusal")) == refusals, "FORMAT has other refusals than the code"


def check_definitions():
    """The sentence `How much there is to believe`, by promise, in all, and by crate."""
    text = text_of("docs/dev/DEFINITIONS.md")
    lines = {title: count for title, count, _, _ in counts()}
    _, all_lines, definitions, crates = next(it for it in counts() if it[0] == "once in all")
    more = lines.pop("with the parts asids, spaces and frames")
    told = ", ".join(f"{title} {count}" for title, count in lines.items())
    yield f"{told}, of {definitions} definitions ({more} with the parts `asids`, `spaces` and `frames`)" in text, "DEFINITIONS: other counts"
    groups = [("pte", "walk"), ("tlb", "shoot"), ("spaces",), ("history",), ("stepcore",)]
    wanted = [sum(crates.get(crate, 0) for crate in group) for group in groups]
    found = re.search(r"\. (\d+) are the manual's: .* (\d+) say what .* (\d+) say where .* (\d+) are the rules .* The last (\d+) say ", text)
    yield found is not None and [int(it) for it in found.groups()] == wanted and sum(wanted) == all_lines, f"DEFINITIONS: not {wanted}"


def check_sizes(pages):
    readme = text_of("README.md")
    words, lines = len(readme.split()), readme.count("\n")
    yield words <= MOST_WORDS, f"README.md: {words} words, more than {MOST_WORDS}"
    yield lines <= MOST_LINES, f"README.md: {lines} lines, more than {MOST_LINES}"
    size = sum(len(text_of(page).encode()) for page in pages if page.startswith("docs/") and not page.startswith(NOT_FOR_USERS))
    yield size <= MOST_BYTES, f"docs for users: {size} bytes, more than {MOST_BYTES}"


def checks(program):
    pages = tracked("*.md")
    shown = [page for page in pages if page == "README.md" or page.startswith("docs/") and not page.startswith(NOT_FOR_USERS)]
    sources = [text_of(path) for path in tracked("crates/*.rt", "crates/*.antt", "crates/*.c", "crates/*.h")]
    for page in shown:
        yield from check_commands(page, program)
        yield from check_sources(page, sources)
    for page in pages:
        yield from check_links(page)
    yield from check_help(program)
    yield from check_wrapper()
    yield from check_formats(program)
    yield from check_definitions()
    yield from check_sizes(pages)


def main(program):
    passed = failed = 0
    for is_right, told in checks(program):
        passed, failed = passed + is_right, failed + (not is_right)
        if not is_right:
            print("FAILED " + told)
    print(f"{passed} passed, {failed} failed")
    return 1 if failed else 0


if __name__ == "__main__":
    if len(sys.argv) != 2 or not os.access(sys.argv[1], os.X_OK):
        sys.exit("usage: documents.py PROGRAM")
    sys.exit(main(os.path.abspath(sys.argv[1])))
