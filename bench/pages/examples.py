#!/usr/bin/env python3
"""Puts the file `stdout` of `pb_examples` together: `examples.py [--check]`.

Beside each example `data/NAME.json` or `data/NAME.sh` is what it prints, `data/NAME.stdout`. The gate compares the output
of all examples with one file, in which these stand in byte order of the examples' files, each below a line `== NAME`. Run
this after each change of an example. With `--check` it writes nothing, and the status is 1 if the file is stale. It is
also 1 if an example has no output, or an output no example.
"""
import os
import sys

TOP = os.path.dirname(os.path.dirname(os.path.dirname(os.path.abspath(__file__))))
CRATE = f"{TOP}/crates/pb_examples"


def read(path):
    """The bytes of a file."""
    with open(path, "rb") as it:
        return it.read()


def main(words):
    """Writes or checks the file; the status."""
    files = sorted(os.listdir(f"{CRATE}/data"))
    examples = [it.rsplit(".", 1)[0] for it in files if it.endswith((".json", ".sh"))]
    outputs = [it.removesuffix(".stdout") for it in files if it.endswith(".stdout")]
    lost = sorted(set(examples) ^ set(outputs))
    if lost:
        print(f"an example without output, or an output without an example: {' '.join(lost)}")
        return 1
    whole = b"".join(b"== %s\n%s" % (it.encode(), read(f"{CRATE}/data/{it}.stdout")) for it in examples)
    if whole == read(f"{CRATE}/stdout"):
        return 0
    if "--check" in words:
        print("crates/pb_examples/stdout is stale: run bench/pages/examples.py")
        return 1
    with open(f"{CRATE}/stdout", "wb") as it:
        it.write(whole)
    return 0


if __name__ == "__main__":
    sys.exit(main(sys.argv[1:]))
