#!/usr/bin/env python3
"""Writes the tables of `crates/pb_tool_explain` from `docs/ERRORS.md`: `explained.py [--check]`.

It also writes the copy of that page with which the example `tool_explain` compares them. Run it after each change of the
page. With `--check` it writes nothing, and the status is 1 if a file is stale.
"""
import os, re, sys

TOP = os.path.dirname(os.path.dirname(os.path.dirname(os.path.abspath(__file__))))
PAGE = f"{TOP}/docs/ERRORS.md"
COPY = "crates/pb_examples/data/ERRORS.md"
TABLES = {"refused": "What the names of refusals mean.", "others": "What the names of bad units and of faults mean."}


def entries():
    """The entries of the page, each with its table, its name and its text."""
    table, name, text = None, None, []
    found = []
    for line in open(PAGE, encoding="utf-8").read().split("\n") + ["## "]:
        if line.startswith("## ") or line.startswith("### "):
            if name:
                found.append((table, name, "\n".join(text).strip("\n") + "\n"))
            name, text = None, []
        if line.startswith("## "):
            table = "refused" if "refused NAME" in line else "others" if re.match(r"## `error: (bad|fault) ", line) else None
        elif line.startswith("### ") and table:
            name = line[4:].split("(")[0]
        elif name:
            text.append(line)
    return found


def written(table, entries):
    """The text of the file of a table."""
    lines = [f"//! {TABLES[table]} Written by `bench/pages/explained.py`: change `docs/ERRORS.md`.", "", "use crate::entry::Entry;", "",
             f"/// {TABLES[table]}", f"pub static {table.upper()}: [Entry; {len(entries)}] = ["]
    for name, text in entries:
        if '"#' in text:
            sys.exit(f'{name}: its text has "#')
        lines += ["    Entry {", f'        name: "{name}",', f'        text: r#"{text}"#,', "    },"]
    return "\n".join(lines) + "\n];\n"


def main():
    files = {COPY: open(PAGE, encoding="utf-8").read()}
    for table in TABLES:
        files[f"crates/pb_tool_explain/src/{table}.rt"] = written(table, [it[1:] for it in entries() if it[0] == table])
    wrong = []
    for name, text in files.items():
        path = f"{TOP}/{name}"
        if "--check" not in sys.argv:
            open(path, "w", encoding="utf-8").write(text)
        elif not os.path.exists(path) or open(path, encoding="utf-8").read() != text:
            wrong.append(name)
    for name in wrong:
        print(f"{name} is not what docs/ERRORS.md says: run bench/pages/explained.py")
    sys.exit(1 if wrong else 0)


main()
