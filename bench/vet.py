#!/usr/bin/env python3
"""Measures `gofix --fix` beside `go vet ./...` on a generated module: 500 files, 4 MiB, 200 uses of marked constants.

Usage: bench/vet.py [FILES [USES]], or bench/vet.py --write FOLDER [FILES [USES]], which writes the module alone. The
files hold what programs of the language hold: comments, structs with methods, groups of constants with `iota`, package
variables, maps, slices, loops, switches, and literals that are called or deferred in place. They stand in twenty
packages, each of which imports the one before; the last is the program. The uses stand in as many files, one in each,
and name in turn a constant of the file's own package, one of the package before, and one that names a constant two
packages before: then an import comes. Where Go is installed, both the module and what is wanted of it are seen to be
vetted and to print the same. `go vet` is timed with an empty build cache, after `go build ./...`, and once more, when
all its answers are in the cache; each is the least of three runs, as that of gofix is, with its peak memory.
"""
import os
import shutil
import subprocess
import sys
import tempfile
import time

import module

MODULE = "example.com/m"
PACKAGES = 20
SIZE = 8388
RUNS = 3

# What a file is filled with, again and again; @ stands for what makes the names new.
FILLING = (
    """// Shelf@ keeps boxes by their labels, up to a limit.
type Shelf@ struct {
	labels []string
	weight map[string]int
	limit  int
}

// NewShelf@ is a shelf without boxes.
func NewShelf@(limit int) *Shelf@ {
	return &Shelf@{weight: make(map[string]int), limit: limit}
}

// Put adds a box, if it is light enough, and tells whether it did.
func (s *Shelf@) Put(label string, weight int) bool {
	if weight <= 0 || s.Total()+weight > s.limit {
		return false
	}
	if _, ok := s.weight[label]; !ok {
		s.labels = append(s.labels, label)
	}
	s.weight[label] += weight
	return true
}

// Total is the weight of all boxes.
func (s *Shelf@) Total() int {
	sum := 0
	for _, label := range s.labels {
		sum += s.weight[label]
	}
	return sum
}

""",
    """// State@ is where a machine stands.
type State@ uint8

const (
	Idle@ State@ = iota
	Busy@
	Done@
	Failed@
)

// names@ are those of the states, in their order.
var names@ = []string{"idle", "busy", "done", "failed"}

// Name is how the state is written.
func (s State@) Name() string {
	if int(s) < len(names@) {
		return names@[s]
	}
	return "unknown"
}

// Next@ is where a machine goes from a state, and whether it goes on from there.
func Next@(s State@, failed bool) (State@, bool) {
	switch {
	case failed:
		return Failed@, false
	case s == Idle@:
		return Busy@, true
	default:
		return Done@, false
	}
}

""",
    """// Sum@ adds the digits of a number in a base, the least first, and says how many there are.
func Sum@(number, base uint) (sum uint, digits int) {
	if base < 2 {
		base = 10
	}
	for ; number > 0; number /= base {
		sum += number % base
		digits++
	}
	return sum, digits
}

// Words@ cuts a text at blanks, and leaves empty words out.
func Words@(text string) []string {
	var words []string
	start := 0
	for i := 0; i <= len(text); i++ {
		if i < len(text) && text[i] != ' ' && text[i] != '\\t' {
			continue
		}
		if start < i {
			words = append(words, text[start:i])
		}
		start = i + 1
	}
	return words
}

""",
    """// span@ is a range of numbers, the last one not included.
type span@ struct{ from, to int }

// within@ tells of each of the numbers whether it lies in the span.
func within@(s span@, numbers []int) []bool {
	found := make([]bool, len(numbers))
	for i, number := range numbers {
		found[i] = number >= s.from && number < s.to
	}
	return found
}

// Count@ counts the numbers from zero on that lie in the span, and tells of it at the end.
func Count@(from, to int, numbers []int) (count int) {
	defer func() {
		if count < 0 {
			println("count", count)
		}
	}()
search:
	for i, is := range within@(span@{from: from, to: to}, numbers) {
		if numbers[i] < 0 {
			continue search
		}
		if is {
			count++
		}
	}
	return count
}

""",
)


def name_of(package):
    return "main" if package == PACKAGES - 1 else f"part{package}"


def spec_of(package):
    return f'"{MODULE}/{name_of(package)}"'


def import_text(specs):
    """The import declaration of these specs, each on a line of its own."""
    return "import (\n" + "".join(f"\t{it}\n" for it in specs) + ")\n\n" if specs else ""


def marks_of(package):
    """The marked constants of a package: one of its own, and one that names a constant of the package before."""
    text = f"// Limit is the most that there may be.\nconst Limit = {1000 + package}\n\n"
    text += "// MaxCount is the old name of Limit.\n//\n// Deprecated: use Limit.\n//\n//go:fix inline\nconst MaxCount = Limit\n\n"
    if package:
        before = name_of(package - 1)
        text += f"// Bound is that of {before}.\n//\n//go:fix inline\nconst Bound = {before}.Limit\n\n"
    return text


def use_of(package, use):
    """A use as it is written before the run and as it is afterwards, and the packages that its file imports then."""
    kind = use % 3 if package > 1 else 0
    before = name_of(package - 1)
    if kind == 1:
        return (f"{before}.MaxCount", f"{before}.Limit"), ([package - 1], [package - 1])
    if kind == 2:
        return (f"{before}.Bound", f"{name_of(package - 2)}.Limit"), ([package - 1], [package - 1, package - 2])
    return ("MaxCount", "Limit"), ([package - 1] if package else [],) * 2


def file_of(package, number, use, done):
    """The text of a file, before the run or, where it is done, afterwards; `use` is the number of its use, if any."""
    pair, imports = use_of(package, use or 0)
    specs = [spec_of(it) for it in imports[done and use is not None]]
    text = f"// Package {name_of(package)} is a part of the module.\npackage {name_of(package)}\n\n" if not number else f"package {name_of(package)}\n\n"
    text += import_text(specs)
    if number == 0:
        text += marks_of(package)
    if package:
        text += f"// most{number} is that of the package before.\nconst most{number} = {name_of(package - 1)}.Limit + {number}\n\n"
    if use is not None:
        text += f"// Fits{number} tells whether there are few enough.\nfunc Fits{number}(count int) bool {{\n\treturn count >= 0 && count < {pair[done]}\n}}\n\n"
    if package == PACKAGES - 1 and number == 0:
        text += f"func main() {{\n\tprintln(most0, Fits0({1000 + package - 1}), Fits0({1000 + package}))\n}}\n\n"
    return text


def fill(text, size, number):
    """The text, with declarations and at last a comment behind it, so that its size is the wanted one, or some more."""
    turn = 0
    while True:
        more = FILLING[turn % len(FILLING)].replace("@", f"{number}x{turn}")
        if len(text) + len(more) + len("// .\n") > size:
            return text + "// " + "." * max(1, size - len(text) - len("// \n")) + "\n"
        text, turn = text + more, turn + 1


def write_module(folder, files, uses, done):
    """Writes the module; the uses stand in files that lie apart, the first in that of main."""
    module.write(folder, "go.mod", f"module {MODULE}\n\ngo 1.22\n")
    count = files // PACKAGES
    for package in range(PACKAGES):
        for number in range(count):
            place = (files - count - package * count + number) % files
            use = place * uses // files
            use = use if place == 0 or use != (place - 1) * uses // files else None
            text = file_of(package, number, use, done)
            before = file_of(package, number, use, False)
            text = fill(text, SIZE + len(text) - len(before), number)
            module.write(folder, f"{name_of(package)}/file{number:03}.go", text)


def go_words(cache):
    """What Go is told of the folders that it may use."""
    return {**os.environ, "GO111MODULE": "on", "GOFLAGS": "-mod=mod", "GOPROXY": "off", "GOTOOLCHAIN": "local", "GOCACHE": cache}


def go(folder, cache, *words):
    """The seconds that a command of Go takes, and what it writes."""
    start = time.monotonic()
    ran = subprocess.run(["go", *words], cwd=folder, env=go_words(cache), stdout=subprocess.PIPE, stderr=subprocess.STDOUT, text=True, check=False)
    seconds = time.monotonic() - start
    if ran.returncode:
        sys.exit(f"go {' '.join(words)}: {ran.stdout[:2000]}")
    return seconds, ran.stdout


def vet(folder, work):
    """The seconds of `go vet ./...` with an empty cache, after a build, and once more."""
    empty, built, again = [], [], []
    for _ in range(RUNS):
        with tempfile.TemporaryDirectory(dir=work) as cache:
            empty.append(go(folder, cache, "vet", "./...")[0])
            again.append(go(folder, cache, "vet", "./...")[0])
        with tempfile.TemporaryDirectory(dir=work) as cache:
            go(folder, cache, "build", "./...")
            built.append(go(folder, cache, "vet", "./...")[0])
    return min(empty), min(built), min(again)


def beside_go(work):
    """Prints what `go vet` takes, once the module is seen to print what the wanted one prints."""
    shown = []
    for source in ("old", "new"):
        with tempfile.TemporaryDirectory(dir=work) as cache:
            go(f"{work}/{source}", cache, "vet", "./...")
            shown.append(go(f"{work}/{source}", cache, "run", "./main")[1])
    if shown[0] != shown[1]:
        sys.exit(f"the module prints {shown[0]!r}, and the wanted one {shown[1]!r}")
    empty, built, again = vet(f"{work}/old", work)
    print(f"go vet ./...: {empty:.2f} s with an empty cache, {built:.2f} s after go build, {again:.2f} s again")


def main():
    words = sys.argv[1:]
    folder = words[1] if words[:1] == ["--write"] else None
    numbers = [int(it) for it in words[2 if folder else 0 :]]
    files, uses = (numbers + [500, 200][len(numbers) :])[:2]
    if files % PACKAGES or files < PACKAGES or not 0 < uses <= files:
        sys.exit(f"usage: bench/vet.py [--write FOLDER] [FILES [USES]], FILES a multiple of {PACKAGES}")
    if folder:
        return write_module(folder, files, uses, False)
    with tempfile.TemporaryDirectory() as work:
        write_module(f"{work}/old", files, uses, False)
        write_module(f"{work}/new", files, uses, True)
        wanted = module.texts_of(f"{work}/new")
        size = sum(len(it.encode()) for it in module.texts_of(f"{work}/old").values())
        if shutil.which("go"):
            beside_go(work)
        else:
            print("No Go is installed, so the module isn't vetted")
        module.build()
        seconds, memory = module.measure(f"{work}/old", wanted, uses, work)
        print(f"gofix --fix: {seconds:.2f} s, {memory / 1024:.0f} MiB, {memory * 1024 / size:.1f} times the text; {files} files of {size} bytes, {uses} uses inlined")


if __name__ == "__main__":
    main()
