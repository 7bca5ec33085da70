#!/usr/bin/env python3
"""The texts of a release that are made of others.

    release_texts.py manual VERSION DATE    the manual page svsim.1: of `svsim help`, README, CITATION.cff and docs/FORMAT.md
    release_texts.py terms                  the Debian file copyright: of README and CITATION.cff
    release_texts.py about                  one line of what it is, and one paragraph, of the same
    release_texts.py pages FOLDER HEADERS   mends the links of FOLDER's pages: a file that a release has elsewhere is linked to there,
                                            and of one that it has not the text alone is left. HEADERS is where the C headers are

It runs at the top of the sources of a release, where ./svsim answers.
"""
import os, re, subprocess, sys

# Where files of the repository are in a release.
MOVED = {"crates/svsim_examples/data": "examples", "crates/melissaledge_c/examples": "examples/c"}
SAME = ("README.md", "CHANGELOG.md", "CITATION.cff", "docs", "examples")


def text_of(path):
    with open(path, encoding="utf-8") as file:
        return file.read()


def found(pattern, path):
    """The first group of a pattern that a text has to have."""
    match = re.search(pattern, text_of(path), re.M)
    return match[1] if match else sys.exit(f"release_texts: {path} has no text {pattern}")


def title():
    return found(r'^title: "Melissaledge: (.*)"$', "CITATION.cff")


def purpose():
    """README's first paragraph."""
    return found(r"\A# .*\n\n(.+)\n", "README.md")


def terms():
    text = found(r"\*\*Terms\*\*: (.*)", "README.md")
    return text[0].upper() + text[1:]


def authors():
    return found(r"^  - name: (.*)$", "CITATION.cff")


def roff(text):
    """A text for a manual page: no letter of it is taken for an order."""
    text = text.replace("\\", r"\e").replace("-", r"\-").replace("`", "")
    return re.sub(r"(?m)^(?=[.'])", r"\\&", text)


def said(*words):
    done = subprocess.run(["./svsim", "help", *words], stdout=subprocess.PIPE, stderr=subprocess.DEVNULL, encoding="utf-8")
    return done.stdout.strip("\n")


def options(text):
    """The options of a command's help, each with what it does."""
    return re.findall(r"(?m)^  (--[a-z]+) +(.*)$", text)


def command(name, argument, line):
    """One command's part of the manual page: what `svsim help NAME` says, or its line of `svsim help`."""
    yield f".SS {roff(name)} \\fI{argument}\\fR" if argument else f".SS {roff(name)}"
    first, *others = (said(name) or f"svsim {f'{name} {argument}'.strip()} {line}.").split("\n\n")
    yield roff(first)
    for paragraph in others:
        if options(paragraph):
            yield from (f".TP\n.B {roff(option)}\n{roff(told)}" for option, told in options(paragraph))
        else:
            yield (".PP\n.EX\n{}\n.EE" if paragraph.startswith("  ") else ".PP\n{}").format(roff(paragraph))


def synopsis(commands):
    """The calls: the common one, and one for each command that takes options."""
    yield ".SH SYNOPSIS\n.B svsim\n.I COMMAND FILE"
    for name, argument, _ in commands:
        words = [roff(option) for option, _ in options(said(name))]
        if words:
            yield f".br\n.B svsim {roff(name)}\n.RI [ OPTION ..]\n.I {argument}"


def statuses():
    """The exit statuses of docs/FORMAT.md, each with what it says."""
    for status in "01":
        yield status, found(rf"^- {status} (.*);$", "docs/FORMAT.md")
    rows = re.findall(r"^\| ([2-5]) \| (.*?) \|", text_of("docs/FORMAT.md"), re.M)
    for status in "2345":
        lines = [line for each, line in rows if each == status]
        yield status, "; ".join(lines) if lines else sys.exit(f"release_texts: docs/FORMAT.md has no status {status}")


def manual(version, date):
    commands = re.findall(r"(?m)^  ([a-z]+) ?([A-Z ]*?) {2,}(.*)$", said())
    yield f'.TH SVSIM 1 {date} "svsim {version}" Melissaledge'
    yield f".SH NAME\nsvsim \\- {roff(title())}"
    yield from synopsis(commands)
    yield f".SH DESCRIPTION\n{roff(purpose())}"
    yield ".SH COMMANDS"
    for each in commands:
        yield from command(*each)
    yield ".SH EXIT STATUS"
    for status, text in statuses():
        yield f".TP\n{status}\n{roff(text)}"
    yield ".SH FILES\nThe pages in docs and the files in examples are those of the archive; a Debian package has them in"
    yield f".IR {roff('/usr/share/doc/melissaledge')} ."
    yield f".SH AUTHORS\n{roff(authors())}"
    yield f".SH COPYRIGHT\n{roff(terms())}"


def place_of(path, headers):
    """Where a file of the repository is in a release, or None."""
    for old, new in {**MOVED, "crates/melissaledge_c/include": headers}.items():
        if path == old or path.startswith(old + "/"):
            return new + path[len(old) :]
    return path if path.split("/")[0] in SAME else None


def origin_of(path):
    """Where a page of a release is in the repository."""
    for old, new in sorted(MOVED.items(), key=lambda pair: -len(pair[1])):
        if path.startswith(new + "/"):
            return old + path[len(new) :]
    return path


def mend(page, text, headers):
    def link(match):
        bang, shown, target = match[1], match[2], match[3]
        if target is None or target.startswith("#") or re.match(r"\w+:", target):
            return match[0]
        path, sharp, anchor = target.partition("#")
        place = place_of(os.path.normpath(os.path.join(os.path.dirname(origin_of(page)), path)), headers)
        if place is None:
            return shown
        return f"{bang}[{shown}]({os.path.relpath(place, os.path.dirname(page) or '.')}{sharp}{anchor})"

    return re.sub(r"(?ms)^```.*?^```|`[^`\n]*`|(!?)\[([^\]]*)\]\(([^)\s]+)\)", link, text)


def pages(folder, headers):
    for inside, _, names in os.walk(folder):
        for name in names:
            path = os.path.join(inside, name)
            if name.endswith(".md"):
                text = mend(os.path.relpath(path, folder), text_of(path), headers)
                with open(path, "w", encoding="utf-8") as file:
                    file.write(text)


def main(what, *words):
    if what == "manual":
        print("\n".join(manual(*words)))
    elif what == "terms":
        print(f"Melissaledge is the work of the {authors()}. {terms()} All rights are reserved by its authors.")
        print("svsim and libmelissaledge.a also have code of the Rattle toolchain's libraries in them.")
    elif what == "about":
        print(f"{title()}\n{purpose()}")
    elif what == "pages":
        pages(*words)
    else:
        sys.exit(f"release_texts: no {what}")


if __name__ == "__main__":
    main(*sys.argv[1:])
