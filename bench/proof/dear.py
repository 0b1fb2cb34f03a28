#!/usr/bin/env python3
"""Which functions of a crate are dear to prove: `dear.py CRATE.. [--most N]`.

Run it after a check of the whole crate by one job: `rm -rf crates/CRATE/out/incremental`, then `rt check --jobs 1` there.
Each module that was checked is a file, and the time between two files is what the later one took. `Lts`, `Tie`, `Mir` and
the like are made from a function's code; `Proof` and `Answers` are what the tactics found. A figure is right only if nothing
else was checked in between; a long pause is reported as such.
"""

import os, re, sys

TOP = os.path.dirname(os.path.dirname(os.path.dirname(os.path.abspath(__file__))))
PARTS = ("Lts", "Tie", "Mir", "Code", "Reads", "Layout", "Proof", "Answers", "Invariants")


def moments(crate):
    """When each module was saved, the earliest first: nanoseconds and the module's name."""
    found = []
    for at, _, files in os.walk(f"{TOP}/crates/{crate}/out/incremental"):
        for file in files:
            name = re.match(r"Rattle-\w+?-(?:specs|proofs)\.(.*?)(?:\.decls)?\.oantt$|(Rattle-.*)\.oantt$", file)
            if name:
                found.append((os.stat(f"{at}/{file}").st_mtime_ns, name[1] or name[2]))
    return sorted(found)


def sums(saved):
    """The seconds of each module, and of each part of functions."""
    modules, parts = {}, {}
    for (before, _), (now, name) in zip(saved, saved[1:]):
        seconds = (now - before) / 1e9
        last = name.split(".")[-1]
        part = last if last in PARTS else "the rest"
        modules[name] = modules.get(name, 0.0) + seconds
        parts[part] = parts.get(part, 0.0) + seconds
        if seconds > 300:
            print(f"  a pause of {seconds:.0f} seconds before {name}")
    return modules, parts


def main(words):
    most = int(words[words.index("--most") + 1]) if "--most" in words else 20
    crates = [it for it in words if it.startswith("pb_")]
    if not crates:
        sys.exit(__doc__)
    for crate in crates:
        modules, parts = sums(moments(crate))
        dearest = lambda found: sorted(found.items(), key=lambda it: -it[1])
        print(f"{crate}: {sum(parts.values()):.0f} seconds: {', '.join(f'{part} {time:.0f}' for part, time in dearest(parts))}")
        for name, time in dearest(modules)[:most]:
            print(f"  {time:6.1f} {name}")


main(sys.argv[1:])
