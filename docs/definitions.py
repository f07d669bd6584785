#!/usr/bin/env python3
"""Prints docs/DEFINITIONS.md: each definition of specs/ with the words that stand beside it.

Usage: docs/definitions.py >docs/DEFINITIONS.md. A file's head says what it states and which section of a public document
that is; a definition's words are the comment directly before it. docs/sections.txt has the sections that the head of a file
doesn't name, by the file or by definitions of it.
"""
import os
import re
import sys

TOP = os.path.dirname(os.path.dirname(os.path.abspath(__file__)))
DEFINES = re.compile(r"^( *)(?:abbrev |unfoldable )?(?:mutual )?pub (?!use |mod )(record |data )?([^\s:({]+)")
INTRODUCTION = """# Definitions

Each definition that a contract may cite, crate by crate and file by file, in the words that stand beside it in the file. A
file's head names the sections of the Go specification (or of another public document) that it states, and a definition
those that the head doesn't name. Where words begin with "so", they go on from those of the definition before. This page is made by `docs/definitions.py` from crates/CRATE/specs/."""


def crates():
    with open(f"{TOP}/crates.txt", encoding="utf-8") as lines:
        return [line.split(":")[0].split()[0] for line in lines if ":" in line and not line.startswith("#")]


def more_sections():
    """The sections by crate, file and definition, or None for the whole file."""
    found = {}
    with open(f"{TOP}/docs/sections.txt", encoding="utf-8") as lines:
        for line in lines:
            if line.startswith("#") or not line.strip():
                continue
            named, sections = line.strip().split(": ", 1)
            crate, name, *ones = named.split()
            for one in ones or [None]:
                found[crate, name, one] = sections
    return found


def with_sections(words, sections):
    return f"{words} (Go specification, {sections})" if sections else words


def spec_files(crate):
    found = []
    for folder, _, names in os.walk(f"{TOP}/crates/{crate}/specs"):
        found += [f"{folder}/{name}" for name in names if name.endswith(".antt") and name != "Lib.antt"]
    return sorted(found)


def head_of(lines):
    head = []
    for line in lines:
        if not line.startswith("--"):
            break
        head.append(line.lstrip("- ").rstrip())
    return " ".join(word for word in head if word)


def definitions_of(lines):
    """Pairs of a name and its words."""
    words, inner = [], None
    for line in lines:
        indent = len(line) - len(line.lstrip(" "))
        if inner is not None and line.strip() and indent <= inner:
            inner = None
        if line.strip().startswith("--"):
            words.append(line.strip().lstrip("- ").rstrip())
            continue
        match = DEFINES.match(line)
        if match and inner is None and not line.strip().startswith("pub mod"):
            yield match.group(3), " ".join(word for word in words if word)
            if match.group(2):
                inner = indent
        words = []


def page_of(crate, sections):
    parts = []
    for path in spec_files(crate):
        with open(path, encoding="utf-8") as text:
            lines = text.read().split("\n")
        head = head_of(lines)
        body = lines[next((i for i, line in enumerate(lines) if not line.startswith("--")), 0):]
        name = os.path.relpath(path, f"{TOP}/crates/{crate}/specs")[: -len(".antt")]
        head = with_sections(head, sections.pop((crate, name, None), None))
        rows = [(one, with_sections(words, sections.pop((crate, name, one), None))) for one, words in definitions_of(body)]
        told = [f"- `{one}`: {words}" for one, words in rows if words]
        others = ", ".join(f"`{one}`" for one, words in rows if not words)
        parts.append("\n".join([f"**{name}.** {head}", ""] + told + ([f"- Without words: {others}"] if others else [])))
    return f"## {crate}\n\n" + "\n\n".join(parts) if parts else ""


def main():
    sections = more_sections()
    pages = [INTRODUCTION] + [page for page in (page_of(crate, sections) for crate in crates()) if page]
    if sections:
        sys.exit(f"docs/sections.txt names what isn't there: {sorted(map(str, sections))}")
    sys.stdout.write("\n\n".join(page.rstrip() for page in pages) + "\n")


if __name__ == "__main__":
    main()
