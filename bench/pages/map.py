#!/usr/bin/env python3
"""Which files the rows of docs/MAP.md name, and what else a change touches: `map.py [--check | RULE]`.

A row of MAP's tables has a rule, its files in `src/`, its files in `specs/`, and files of other crates that cite it.
This script writes the last column. A file cites a row if it imports a module of the third column, or a type of a file
in the second, in contracts or in code. Files in `proofs/` count by crate, and only for crates that cite the row nowhere
else. Tests do not count.

A name in a row is a file of each crate of the section that has it. Behind a crate's name it is a file of that crate
alone, up to the next `;`. Beside the tables each name of a file stands behind its crate's.

The status is 1 if a file that the page names does not exist, or if a file is in no row. `--check` writes nothing, and
its status is also 1 if the last column of a row is stale. Given a part of a rule's name, the script prints every file
that cites such a row.
"""
import functools
import os
import re
import sys
from collections import defaultdict, namedtuple

TOP = os.path.dirname(os.path.dirname(os.path.dirname(os.path.abspath(__file__))))
PAGE = f"{TOP}/docs/MAP.md"

# The first line of a table, and of one that has no last column.
HEADER = "rule | code | definition | also"
LIMITS = "limit | code | definition"

# A row: its first three cells, its files, the files that cite these, and what is wrong with its names.
Row = namedtuple("Row", "cells files citing wrong")

# Files of each crate that MAP names once for all.
EVERYWHERE = {"lib.rt", "main.rt", "laws.rt", "Lib", "Laws"}

# How many files of a crate, crates with their files, crates with their numbers, and crates of proofs a cell names.
MOST_FILES, MOST_CRATES, MOST_NUMBERS, MOST_PROOFS = 3, 5, 12, 4


def files_in(crate, folder):
    """The files of a folder of a crate, as MAP names them: those of `specs/` without ending."""
    top = f"{TOP}/crates/{crate}/{folder}"
    found = [os.path.relpath(f"{at}/{file}", top) for at, _, files in os.walk(top) for file in files]
    return {it.removesuffix(".antt") for it in found if it.endswith((".rt", ".antt"))}


def crates():
    """The crates that are no tests, each with the names of its files in `src/` and `specs/`."""
    every = sorted(os.listdir(f"{TOP}/crates"))
    kept = [it for it in every if not it.startswith("pb_tests_") and it != "pb_examples"]
    return {it: files_in(it, "src") | files_in(it, "specs") for it in kept}


def path_of(crate, folder, name):
    """The path of a file in the repository."""
    return f"crates/{crate}/{folder}/{name}{'' if name.endswith('.rt') else '.antt'}"


def read(crate, folder, name):
    """The text of a file."""
    return open(f"{TOP}/{path_of(crate, folder, name)}", encoding="utf-8").read()


@functools.cache
def types_of(crate):
    """The types that a crate has or hands out, each with the crate and the file that define it."""
    found = {}
    for name in files_in(crate, "src"):
        text = read(crate, "src", name)
        for other, types in re.findall(r"^pub use (pb_\w+)::([^;]+);", text, re.M):
            found |= {it: types_of(other)[it] for it in re.findall(r"\w+", types) if it in types_of(other)}
        found |= {it: (crate, name) for it in re.findall(r"^pub (?:struct|enum|trait|type) (\w+)", text, re.M)}
    return found


def cited_in(text):
    """The files of `specs/`, and those of `src/` by their types, that a text imports and does not only hand out."""
    found = set(re.findall(r"(?<!pub )\buse Rattle\.(pb_\w+)\.specs\.([A-Z]\w*)", text))
    types = re.findall(r"(?<!pub )\buse Rattle\.(pb_\w+)\.specs\.declared\.([\w.]+)\.[A-Z]", text)
    found |= {(crate, file.replace(".", "/") + ".rt") for crate, file in types}
    for crate, used in re.findall(r"(?<!pub )\buse (pb_\w+)::([^;]+);", text):
        found |= {types_of(crate)[it] for it in re.findall(r"\w+", used) if it in types_of(crate)}
    return found


def citations(names):
    """For each cited file the crates, folders and names of the files in other crates that cite it."""
    found = defaultdict(set)
    for crate in names:
        for folder in ("specs", "src", "proofs"):
            for name in files_in(crate, folder):
                for cited in cited_in(read(crate, folder, name)):
                    if cited[0] != crate:
                        found[cited].add((crate, folder, name))
    return found


def unknown_beside(line, every):
    """What is wrong with the names of files in a line beside the tables: each belongs to the crate in front of it."""
    crate, wrong = None, []
    for name in re.findall(r"`([^`]+)`", line):
        if name in every:
            crate = name
        elif re.fullmatch(r"[\w/]+\.rt|\w+/|[A-Z]\w+", name) and name not in every.get(crate, ()):
            wrong.append(f"beside the tables: there is no {name} in {crate}")
    return wrong


def every_name():
    """For all crates, tests too, the names of their files, and of the folders of `src/`."""
    found = {it: set().union(*(files_in(it, folder) for folder in ("src", "specs", "proofs")))
             for it in os.listdir(f"{TOP}/crates")}
    return {crate: names | {it.partition("/")[0] + "/" for it in names if "/" in it} for crate, names in found.items()}


def files_of_cell(cell, near, names):
    """The files that a cell names, as crates and names, and the names that no such crate has."""
    files, unknown = set(), []
    for part in cell.split(";"):
        where = near
        for name in re.findall(r"`([^`]+)`", part):
            if name in names:
                where = [name]
                continue
            found = {(crate, name) for crate in where if name in names[crate]}
            files |= found
            unknown += [] if found else [name]
    return files, unknown


def by_crate(files):
    """Crates with the names of their files, definitions first."""
    found = defaultdict(list)
    for crate, folder, name in sorted(files, key=lambda it: (it[0], it[1] != "specs", it[2])):
        found[crate].append(name)
    return found


def cell_of(citing):
    """The last cell of a row that these files cite."""
    direct = by_crate(it for it in citing if it[1] != "proofs")
    proofs = sorted({it[0] for it in citing if it[1] == "proofs"} - set(direct))
    parts = [named(crate, files, len(direct)) for crate, files in direct.items()]
    if len(direct) > MOST_NUMBERS:
        most = sorted(direct, key=lambda it: (-len(direct[it]), it))[:3]
        parts = [f"{len(direct)} crates, most in " + ", ".join(named(it, direct[it], len(direct)) for it in most)]
    if len(proofs) > MOST_PROOFS:
        parts.append(f"proofs of {len(proofs)} crates")
    elif proofs:
        parts.append("proofs of " + ", ".join(f"`{it}`" for it in proofs))
    return "; ".join(parts)


def named(crate, files, count):
    """A crate in a cell of so many crates, with its files or their number."""
    if len(files) > MOST_FILES or count > MOST_CRATES:
        return f"`{crate}` ({len(files)})"
    return f"`{crate}` " + ", ".join(f"`{it}`" for it in files)


def cells_of(line):
    """The cells of a line of a table, four of them."""
    cells = [it.strip() for it in line.split("|")]
    return cells + [""] * (4 - len(cells))


def row_of(line, near, names, cited):
    """The row of a line of a table."""
    cells = cells_of(line)
    found = [files_of_cell(it, near, names) for it in cells[1:3]]
    files = found[0][0] | found[1][0]
    citing = set().union(*(cited[it] for it in files))
    wrong = [f"{cells[0]}: there is no {name}" for _, unknown in found for name in unknown]
    return Row(cells[:3], files, {it for it in citing if (it[0], it[2]) not in files}, wrong)


def line_of(row):
    """The line of a row, as it should be."""
    return " | ".join([*row.cells, cell_of(row.citing)]).replace("|  |", "| |").rstrip()


def read_page(text, names, cited):
    """The page as it should be, its rows, and what is wrong with the names beside the tables."""
    lines, rows, wrong, near, table = [], [], [], [], ""
    every = every_name()
    for line in text.split("\n"):
        if match := re.match(r"Crates?: ([^.]*)", line):
            near = [it for it in re.findall(r"`(\w+)`", match[1]) if it in names]
        if table and " | " in line:
            rows.append(row_of(line, near, names, cited))
            line = line_of(rows[-1]) if table == HEADER else line
        elif near:
            wrong += unknown_beside(line, every)
        table = line if line in (HEADER, LIMITS) else table if "|" in line else ""
        lines.append(line)
    return "\n".join(lines), rows, wrong


def faults_of(rows, names):
    """What is wrong with the names of rows, and which files are in none."""
    wrong = [it for row in rows for it in row.wrong]
    files = set().union(*(row.files for row in rows))
    for crate, every in names.items():
        missing = sorted(it for it in every - EVERYWHERE if (crate, it) not in files)
        wrong += [f"{crate}: no row has {', '.join(missing)}"] if missing else []
    return wrong


def print_citing(rows, rule):
    """Prints the files that cite the rows whose rule has this text, and returns whether there is no such row."""
    chosen = [row for row in rows if rule in row.cells[0].partition("; see")[0]]
    citing = set().union(*(row.citing for row in chosen))
    for crate, folder, name in sorted(citing, key=lambda it: (it[1] == "proofs", it)):
        print(path_of(crate, folder, name))
    return not chosen


def main():
    text, names = open(PAGE, encoding="utf-8").read(), crates()
    page, rows, wrong = read_page(text, names, citations(names))
    wanted = sys.argv[1] if len(sys.argv) > 1 else None
    if wanted and wanted != "--check":
        return print_citing(rows, wanted)
    wrong += faults_of(rows, names)
    if not wanted:
        open(PAGE, "w", encoding="utf-8").write(page)
    elif page != text:
        wrong.append("the last column is stale: run bench/pages/map.py")
    print("\n".join(wrong) or "each file is in a row, and the last column is as it should be")
    return 1 if wrong else 0


if __name__ == "__main__":
    sys.exit(main())
