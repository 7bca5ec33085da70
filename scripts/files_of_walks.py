#!/usr/bin/env python3
"""Prints a file for `svsim run` that is mostly walks: files_of_walks.py STEPS HARTS PAGES

Each hart has a space of its own with so many pages, 2 MiB apart, and goes through them by accesses of three loads each."""
import sys


def main(count, harts, pages):
    steps = []
    for h in range(harts):
        for p in range(pages):
            steps += [f"{h} map {h} 4K:{p << 21:#x} {p + 1} ruad"] * (3 if p == 0 else 2)
        steps += [f"{h} switch {h}"]
    for i in range(count):
        h, p = i % harts, i // harts % pages
        steps += [f"{h} begin u load {p << 21:#x}"] + [f"{h} load"] * 3
    quoted = lambda texts: ", ".join(f'"{t}"' for t in texts)
    spaces = quoted(f"{h} {h + 1}" for h in range(harts))
    print(f"harts = {harts}\nspares = {[pages + 1] * harts}\nspaces = [{spaces}]\nsteps = [{quoted(steps[:count])}]")


if __name__ == "__main__":
    if len(sys.argv) != 4 or not all(it.isdigit() for it in sys.argv[1:]):
        sys.exit(__doc__.split("\n", 1)[0])
    main(*map(int, sys.argv[1:]))
