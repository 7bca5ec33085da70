#!/usr/bin/env python3
"""Names for the addresses in the notes of a trace: notes.py PROGRAM TRACE >NAMED

A note ` @ADDRESS` or ` #ADDRESS` of a record, as examples/watch/trace.h writes it, is a return address in hexadecimal digits. PROGRAM is
the kernel that wrote it, with debug information (of Linux vmlinux). In the place of the address stands `FUNCTION FILE:LINE`, of the call that
returns there. Of inlined calls it is the innermost whose file lies neither in asm/ nor in include/, since what lies there is called
everywhere; if all lie there, the outermost. The folder that all files of the notes have in common is left out. An address that the program
does not know stays, and so does every other line. TRACE may be `-`, standard input.

The program has to run where it is linked: Linux with `nokaslr`, and no PIE. Else an address may get the name of another function.

Needs $ADDR2LINE, else llvm-addr2line or addr2line, which knows the program's kind; it is called once.
"""
import os, re, shutil, subprocess, sys

NOTE = re.compile(rb"^([^#m\n][^@#\n]* [@#])([0-9a-f]{1,16})\n?$")
WITHIN_CALL = 2  # bytes: the shortest call before a return address
HEADER = re.compile(r"(^|/)(asm|include)/")
DISCRIMINATOR = re.compile(r" \(discriminator \d+\)$")  # of GNU's addr2line, behind a line


def addr2line():
    found = os.environ.get("ADDR2LINE") or shutil.which("llvm-addr2line") or shutil.which("addr2line")
    if not found:
        sys.exit("notes.py: no addr2line: set ADDR2LINE, or install llvm or binutils")
    return found


def frames_of(program, addresses):
    """For each address the functions and places of the call before it, the innermost first."""
    asked = "".join(f"0x{address - WITHIN_CALL:x}\n" for address in addresses)
    command = [addr2line(), "-e", program, "-a", "-f", "-i"]
    try:
        done = subprocess.run(command, input=asked, capture_output=True, check=True, encoding="utf-8", errors="surrogateescape")
    except (OSError, subprocess.CalledProcessError) as error:
        sys.exit(f"notes.py: {getattr(error, 'stderr', None) or error}".rstrip())
    found, frames = {}, []
    lines = iter(done.stdout.split("\n"))
    for line in lines:
        if line.startswith("0x"):
            frames = found.setdefault(int(line, 16) + WITHIN_CALL, [])
        elif line:
            frames.append((line.split(".")[0], DISCRIMINATOR.sub("", next(lines, "?"))))
    return found


def is_known(frame):
    function, place = frame
    return "?" not in function and "?" not in place and not place.endswith(":0")


def common_folder(places):
    """The folder in which the program was built, as far as files are named with their whole paths."""
    prefix = os.path.commonprefix([place for place in places if place.startswith("/")])
    return os.path.dirname(prefix).rstrip("/") + "/" if prefix else ""


def caller_in(frames):
    """The first frame outside of headers, else the last."""
    outside = [frame for frame in frames if not HEADER.search(frame[1])]
    return (outside or frames[-1:] or [None])[0]


def names_of(program, addresses):
    frames = {address: [frame for frame in found if is_known(frame)] for address, found in frames_of(program, addresses).items()}
    folder = common_folder(place for found in frames.values() for _, place in found)
    callers = {address: caller_in([(function, place.removeprefix(folder)) for function, place in found]) for address, found in frames.items()}
    return {address: " ".join(caller) for address, caller in callers.items() if caller}


def address_of(line):
    note = NOTE.match(line)
    return int(note[2], 16) if note else None


def named(line, names):
    note = NOTE.match(line)
    name = names.get(int(note[2], 16)) if note else None
    return line if name is None else note[1] + name.encode("utf-8", "surrogateescape") + line[note.end(2):]


def main(words):
    if len(words) != 2:
        sys.exit("usage: notes.py PROGRAM TRACE")
    program, trace = words
    try:
        open(program, "rb").close()
        with sys.stdin.buffer if trace == "-" else open(trace, "rb") as file:
            lines = file.readlines()
    except OSError as error:
        sys.exit(f"notes.py: {error}")
    addresses = sorted({address for address in map(address_of, lines) if address is not None and address >= WITHIN_CALL})
    names = names_of(program, addresses) if addresses else {}
    if addresses and not names:
        why = "it has no debug information, did not write this trace, or ran elsewhere (KASLR, PIE)"
        sys.exit(f"notes.py: {program} knows none of the addresses: {why}")
    try:
        sys.stdout.buffer.writelines(named(line, names) for line in lines)
        sys.stdout.buffer.flush()
    except BrokenPipeError:
        os.dup2(os.open(os.devnull, os.O_WRONLY), sys.stdout.fileno())


if __name__ == "__main__":
    main(sys.argv[1:])
