#!/usr/bin/env python3
"""Counts what `rt ci` walks through crates.txt.

Before its first check it walks every way from a crate down through crates.txt, for each name that a `ghost use` in the
crate's src/ brings, and for each file there. A kit that keeps nothing between its runs also reads the files of a crate
for every way that leads to it, before and behind the proof of each library: that is by far the dearest. Usage:
bench/ways.py. Prints the crates for which it walks the most, the most first, each with its ways, its names and its files,
and how many ways are walked before the first check; then the crates for which it reads the most, each with its ways; and
how many ways lead down from all crates, with what is read along them.
"""
import functools
import glob
import os
import re

TOP = os.path.dirname(os.path.dirname(os.path.abspath(__file__)))
SHOWN = 12
PARTS = ("src", "specs", "proofs")


def libraries():
    """The crates, each with those of this repository that it stands on."""
    with open(f"{TOP}/crates.txt", encoding="utf-8") as lines:
        rows = [line.split(":", 1) for line in lines if ":" in line and not line.startswith("#")]
    crates = {name.strip(): below.split() for name, below in rows}
    return {name: [it for it in below if it in crates] for name, below in crates.items()}


def names_and_files(crate):
    """How many names the crate's code brings for its clauses, and how many files it has."""
    names = files = 0
    for path in glob.glob(f"{TOP}/crates/{crate}/src/**/*.rt", recursive=True):
        files += 1
        with open(path, encoding="utf-8") as it:
            for item in re.findall(r"(?m)^[ \t]*ghost use\b([^;]*);", it.read()):
                parts = [part.strip() for part in re.split(r"[{},]", item)]
                names += len([part for part in parts if part and not part.endswith(".")])
    return names, files


def megabytes(crate):
    """What a crate's texts take, in millions of bytes."""
    paths = (path for part in PARTS for path in glob.glob(f"{TOP}/crates/{crate}/{part}/**/*.*", recursive=True))
    return sum(map(os.path.getsize, paths)) / 1e6


def main():
    below = libraries()

    @functools.lru_cache(maxsize=None)
    def ways(name):
        return 1 + sum(map(ways, below[name]))

    rows = [(ways(name), *names_and_files(name), name) for name in below]
    rows.sort(key=lambda it: it[0] * (it[1] + it[2]), reverse=True)
    for of, names, files, name in rows[:SHOWN]:
        print(f"{of * (names + files):>12} walked for {name}: {of} ways, {names} names, {files} files")
    print(f"{sum(of * (names + files) for of, names, files, _ in rows):>12} walked in all, for {len(rows)} crates")
    texts = {name: megabytes(name) for name in below}

    @functools.lru_cache(maxsize=None)
    def read(name):
        return texts[name] + sum(map(read, below[name]))

    for name in sorted(below, key=read, reverse=True)[:SHOWN]:
        print(f"{read(name):>12,.0f} MB read for {name}: {ways(name)} ways")
    print(f"{sum(map(ways, below)):>12} ways down from all crates, along which {sum(map(read, below)):,.0f} MB are read, twice")


if __name__ == "__main__":
    main()
