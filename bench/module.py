#!/usr/bin/env python3
"""Measures `gofix --fix` on a generated module: ten packages, 500 files of 8 KB, 2,000 uses of marked constants.

Usage: bench/module.py [FILES]. Each package has a tenth of the files and imports the one before it. A file declares a
number, a marked constant that names it, and functions that print numbers; every other file has a marked constant
besides that names a number of the package before. Four of the names that a file prints are marked constants, two of
its own package and two of the one before, which name numbers of the package before that in three of four cases: so an
import comes, and in every other file one goes. Prints, for the module as it is written and for what a run has made of
it, the seconds from the program's start to its end, the least of three runs; its peak memory in that run; and how many
uses were inlined. Each run is on a new copy, and is seen to inline every use and to leave the files that are wanted.
"""
import os
import shutil
import subprocess
import sys
import tempfile
import time

TOP = os.path.dirname(os.path.dirname(os.path.abspath(__file__)))
PROGRAM = f"{TOP}/crates/gofix_cli/out/gofix_cli"
MODULE = "example.com/m"
PACKAGES = 10
SIZE = 8192
USES = 4
RUNS = 3


def name_of(package):
    """The name of the package with this number; the last is the program."""
    return "main" if package == PACKAGES - 1 else f"p{package}"


def path_of(package):
    return f"{MODULE}/{name_of(package)}"


def imported(packages):
    """The import declaration of these packages, each on a line of its own."""
    if not packages:
        return ""
    specs = "".join(f'\t"{path_of(it)}"\n' for it in packages)
    return f"import (\n{specs})\n\n"


def marked(name, value):
    return f"//go:fix inline\nconst {name} = {value}\n\n"


def prints(name, *values):
    return f"func {name}() {{\n\tprintln({', '.join(values)})\n}}\n\n"


def uses_of(package, number, count):
    """The marked constants that a file prints, each as it is written before the run and as it is afterwards."""
    before = f"{name_of(package - 1)}." if package else ""
    far = f"{name_of(package - 2)}." if package > 1 else before
    even = number - number % 2
    later = even + 2 if even + 2 < count else 0
    uses = [(f"Old{it}", f"Value{it}") for it in (number, (number + 1) % count)]
    if number == even:
        uses.append((f"{before}Old{number}", f"{before}Value{number}"))
    else:
        uses.append((f"{before}Far{even}", f"{far}Value{even}"))
    return [*uses, (f"{before}Far{later}", f"{far}Value{later}")]


def imports_of(package, number, done):
    """The packages that a file imports: where it is done, those that it needs then, an added one last."""
    before = [package - 1] if package else []
    if not done or package < 2:
        return before
    return [package - 2] if number % 2 else [package - 1, package - 2]


def file_of(package, number, count, done):
    """The text of a file, as it is before the run or, where it is done, afterwards."""
    text = f"package {name_of(package)}\n\n" + imported(imports_of(package, number, done))
    text += f"const Value{number} = {number}\n\n" + marked(f"Old{number}", f"Value{number}")
    if number % 2 == 0:
        text += marked(f"Far{number}", f"{name_of(package - 1)}.Value{number}" if package else f"Value{number}")
    if package == PACKAGES - 1 and number == 0:
        text += prints("main", "Value0")
    for place, use in enumerate(uses_of(package, number, count)):
        text += prints(f"use{number}_{place}", "Value0", use[done])
    return text


def fill(text, rest, number):
    """The text and functions behind it that print, so long that what is left of its bytes goes into a comment."""
    place = 0
    while True:
        more = prints(f"fill{number}_{place}", f"Value{number}", f"{place}")
        if len(more) + len("//\n") > rest:
            return text + "//" + "x" * (rest - len("//\n")) + "\n"
        text, rest, place = text + more, rest - len(more), place + 1


def write_module(folder, files, done):
    count = files // PACKAGES
    write(folder, "go.mod", f"module {MODULE}\n\ngo 1.22\n")
    for package in range(PACKAGES):
        for number in range(count):
            rest = SIZE - len(file_of(package, number, count, False))
            text = fill(file_of(package, number, count, done), rest, number)
            write(folder, f"{name_of(package)}/f{number:03}.go", text)


def write(folder, path, text):
    os.makedirs(os.path.dirname(f"{folder}/{path}"), exist_ok=True)
    with open(f"{folder}/{path}", "w", encoding="utf-8") as out:
        out.write(text)


def texts_of(folder):
    found = {}
    for at, _, names in os.walk(folder):
        for name in names:
            with open(f"{at}/{name}", encoding="utf-8") as it:
                found[os.path.relpath(f"{at}/{name}", folder)] = it.read()
    return found


def run(folder, report):
    """(status, seconds, kilobytes) of a run in the folder, whose output goes to the file."""
    with open(report, "w", encoding="utf-8") as out:
        start = time.monotonic()
        process = subprocess.Popen([PROGRAM, "--fix"], cwd=folder, stdout=out)
        _, status, used = os.wait4(process.pid, 0)
        seconds = time.monotonic() - start
        process.returncode = os.waitstatus_to_exitcode(status)
    return process.returncode, seconds, used.ru_maxrss


def measure(source, wanted, uses, work):
    """(seconds, kilobytes) of the least of the runs over copies of a module."""
    best = None
    for _ in range(RUNS):
        shutil.rmtree(f"{work}/copy", ignore_errors=True)
        shutil.copytree(source, f"{work}/copy")
        status, seconds, memory = run(f"{work}/copy", f"{work}/report")
        with open(f"{work}/report", encoding="utf-8") as it:
            lines = it.read().splitlines()
        inlined = sum(": inlined " in line for line in lines)
        if status or inlined != uses or len(lines) != uses:
            sys.exit(f"status {status}, {inlined} inlined, wanted {uses}: {lines[:3]}")
        if texts_of(f"{work}/copy") != wanted:
            sys.exit("the files aren't those that are wanted")
        if best is None or seconds < best[0]:
            best = (seconds, memory)
    return best


def build():
    """Builds the program where it isn't built: the word is refused, so this changes nothing."""
    subprocess.run([f"{TOP}/gofix", "--help"], cwd=TOP, stdout=subprocess.DEVNULL, check=False)


def main():
    files = int(sys.argv[1]) if len(sys.argv) > 1 else 500
    if files % PACKAGES or files < 2 * PACKAGES:
        sys.exit(f"usage: bench/module.py [FILES], a multiple of {PACKAGES} from {2 * PACKAGES} on")
    build()
    uses = USES * files
    with tempfile.TemporaryDirectory() as work:
        write_module(f"{work}/old", files, False)
        write_module(f"{work}/new", files, True)
        wanted = texts_of(f"{work}/new")
        for name, source, count in (("as written", "old", uses), ("as fixed", "new", 0)):
            seconds, memory = measure(f"{work}/{source}", wanted, count, work)
            print(f"{files} files {name}: {seconds:.2f} s, {memory / 1024:.0f} MiB, {count} uses inlined")


if __name__ == "__main__":
    main()
