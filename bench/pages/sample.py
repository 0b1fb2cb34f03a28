#!/usr/bin/env python3
"""Sixty sentences to read, ten from each kind of text, by a fixed seed: `sample.py [SEED]`.

The kinds: README, the pages of docs/, the pages of crates, comments of definitions, docstrings and comments of code, and
what the program prints. A reader who did not write them says which ones had to be read twice.
"""
import glob
import os
import random
import re
import sys

TOP = os.path.dirname(os.path.dirname(os.path.dirname(os.path.abspath(__file__))))


def read(path):
    return open(path, encoding="utf-8").read()


def sentences(text):
    """The sentences of a text in Markdown, without code blocks, tables' rules and headings."""
    text = re.sub(r"```.*?```", "", text, flags=re.S)
    text = re.sub(r"\[([^\]]*)\]\([^)]*\)", r"\1", text)
    lines = [it.strip("|").strip() for it in text.split("\n") if not re.match(r"^(#|---|\s*$)", it)]
    cells = [cell.strip(" -*") for line in lines for cell in line.split(" | ")]
    found = [one for cell in cells for one in re.split(r"(?<=[.!?:]) (?=[A-Z`])", cell)]
    return [it for it in found if len(it.split()) > 5]


def comments(pattern, mark):
    """The comments of files, each block as one text."""
    found = []
    for path in sorted(glob.glob(f"{TOP}/{pattern}", recursive=True)):
        if "/out/" in path or "pb_tests_" in path:
            continue
        block = []
        for line in read(path).split("\n") + [""]:
            one = re.match(rf"^\s*(?:{mark}) ?(.*)$", line)
            if one:
                block.append(one[1])
            elif block:
                found += [it for it in re.split(r"(?<=[.!?]) (?=[A-Z`])", " ".join(block)) if len(it.split()) > 5]
                block = []
    return found


def kinds():
    """Each kind of text with its sentences."""
    yield "README", sentences(read(f"{TOP}/README.md"))
    yield "docs", [one for it in sorted(glob.glob(f"{TOP}/docs/*.md")) for one in sentences(read(it))]
    yield "crates", [one for it in sorted(glob.glob(f"{TOP}/crates/*/README.md")) for one in sentences(read(it))]
    yield "definitions", comments("crates/*/specs/**/*.antt", "--")
    yield "code", comments("crates/*/src/**/*.rt", "///|//!|//")
    told = [it for path in sorted(glob.glob(f"{TOP}/crates/pb_tool*/src/**/*.rt", recursive=True)) for it in re.findall(r'"([^"\n]{25,})"', read(path))]
    yield "printed", [it for it in told if len(it.split()) > 4 and "Rattle" not in it and r"\n" not in it.removesuffix(r"\n")]


def main():
    chosen = random.Random(int(sys.argv[1]) if len(sys.argv) > 1 else 60)
    for kind, found in kinds():
        print(f"\n{kind} ({len(found)})")
        for number, one in enumerate(chosen.sample(found, min(10, len(found))), 1):
            print(f"{number:2}. {one}")


if __name__ == "__main__":
    main()
