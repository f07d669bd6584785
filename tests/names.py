#!/usr/bin/env python3
"""Prints each name that a document quotes and that is nowhere in the repository, a line each: the document and the name."""
import os
import re
import subprocess
import sys

TOP = os.path.dirname(os.path.dirname(os.path.abspath(__file__)))
WORD = re.compile(r"\w+", re.UNICODE)
NAME = re.compile(r"^[A-Za-z_][\w.:/-]*\w$")
QUOTED = re.compile(r"`([^`\n]+)`")


def files():
    listed = subprocess.run(["git", "-C", TOP, "ls-files", "-co", "--exclude-standard"], capture_output=True, text=True, check=True)
    return listed.stdout.split("\n")


def main():
    documents, known = [], set()
    for path in filter(None, files()):
        known.update(WORD.findall(path))
        if path.endswith(".md"):
            documents.append(path)
        elif os.path.isfile(f"{TOP}/{path}"):
            with open(f"{TOP}/{path}", encoding="utf-8", errors="replace") as text:
                known.update(WORD.findall(text.read()))
    missing = []
    for path in documents:
        with open(f"{TOP}/{path}", encoding="utf-8") as text:
            prose = re.sub(r"```.*?```", "", text.read(), flags=re.S)
        for quoted in QUOTED.findall(prose):
            if NAME.match(quoted) and not all(word in known for word in WORD.findall(quoted)):
                missing.append(f"{path}: {quoted}")
    print("\n".join(sorted(set(missing))))
    return 1 if missing else 0


if __name__ == "__main__":
    sys.exit(main())
