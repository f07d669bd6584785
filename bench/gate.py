#!/usr/bin/env python3
"""Measures the gate: runs `rt ci` at the top of the checkout and adds up the processor seconds of its processes.

Usage: bench/gate.py [TABLE]. Prints what `rt ci` prints, then a table: a line for each crate, with the processor seconds
of its proof, of its tests, of its edits and of the dearest edit behind the first, and the wall time of the whole. It only
reads: `rt ci`'s lines and the processes' times in /proc. What earlier runs on this machine passed is not proved again by
`rt ci`, and so counts nothing here.
"""
import os
import subprocess
import sys
import threading
import time

TICKS = os.sysconf("SC_CLK_TCK")
PERIOD = 1.0
COLUMNS = ("proof", "tests", "edits", "other")


def kind_of(words, folder):
    """What a process of the prover works for."""
    if "rt-edit" in folder:
        return "edits"
    if "--test" in words:
        return "tests"
    return "proof" if "build" in words else "other"


def words_of(number):
    with open(f"/proc/{number}/cmdline", "rb") as it:
        return it.read().decode(errors="replace").split("\0")


def is_prover(words):
    return words[0].endswith("/rattle")


def read_process(number, top):
    """(identity, crate, kind, processor seconds) of a process of the prover, or None.

    The seconds are its own and those of its children that have ended, so a child of the prover counts with its parent.
    """
    try:
        words = words_of(number)
        if not is_prover(words):
            return None
        with open(f"/proc/{number}/stat", encoding="utf-8") as it:
            fields = it.read().rsplit(")", 1)[1].split()
        if is_prover(words_of(fields[1])):
            return None
        folder = os.readlink(f"/proc/{number}/cwd")
    except (OSError, IndexError):
        return None
    if not folder.startswith(top) and "rt-edit" not in folder:
        return None
    crate = words[words.index("--crate-name") + 1] if "--crate-name" in words else "?"
    seconds = sum(map(int, fields[11:15])) / TICKS
    return (number, fields[19]), crate, kind_of(words, folder), seconds


def watch(seen, done, top):
    """Keeps the last time that each process was seen with."""
    while not done.is_set():
        for number in filter(str.isdigit, os.listdir("/proc")):
            found = read_process(number, top)
            if found:
                seen[found[0]] = found[1:]
        done.wait(PERIOD)


def dearest_edits(seen):
    """The processor seconds of each crate's dearest edit behind its first, whose check proves the crate besides."""
    edits = {}
    for (_, start), (crate, kind, seconds) in seen.items():
        if kind == "edits":
            edits.setdefault(crate, []).append((int(start), seconds))
    return {crate: max((it[1] for it in sorted(every)[1:]), default=0.0) for crate, every in edits.items()}


def table_of(seen, wall):
    rows = {}
    for crate, kind, seconds in seen.values():
        row = rows.setdefault(crate, dict.fromkeys(COLUMNS, 0.0))
        row[kind] += seconds
    lines = ["| crate | " + " | ".join(COLUMNS) + " | all | dearest edit |", "|---" * (len(COLUMNS) + 3) + "|"]
    dearest = dearest_edits(seen)
    total = dict.fromkeys(COLUMNS, 0.0)
    for crate, row in sorted(rows.items(), key=lambda it: -sum(it[1].values())):
        for column in COLUMNS:
            total[column] += row[column]
        edit = f"{dearest[crate]:.0f}" if crate in dearest else ""
        cells = [*(f"{row[c]:.0f}" for c in COLUMNS), f"{sum(row.values()):.0f}", edit]
        lines.append(f"| {crate} | " + " | ".join(cells) + " |")
    lines.append("| **all** | " + " | ".join(f"{total[c]:.0f}" for c in COLUMNS) + f" | {sum(total.values()):.0f} | |")
    lines.append("")
    lines.append(f"Wall time: {wall / 60:.1f} minutes.")
    return "\n".join(lines)


def main():
    top = os.path.dirname(os.path.dirname(os.path.abspath(__file__)))
    seen, done = {}, threading.Event()
    watcher = threading.Thread(target=watch, args=(seen, done, top), daemon=True)
    start = time.time()
    watcher.start()
    status = subprocess.run(["rt", "ci"], cwd=top, check=False).returncode
    done.set()
    watcher.join()
    table = table_of(seen, time.time() - start)
    print(table)
    if len(sys.argv) > 1:
        with open(sys.argv[1], "w", encoding="utf-8") as out:
            print(table, file=out)
    return status


if __name__ == "__main__":
    sys.exit(main())
