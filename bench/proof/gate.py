#!/usr/bin/env python3
"""What the gate takes, by the table of `docs/GATE.md`: `gate.py [FACTOR] [--stood COMMIT]`.

It prints the sum, the longest chain, and the time of the clock on two and on four processors, in the table's minutes. It
models how `rt ci` hands out work with `RT_JOBS`. Each crate has three tasks: its proof, its tests and its mutants. A proof
and tests wait for the proofs of all crates below, mutants for their own crate's. The task with the most lines of code
waiting for it comes first. Each task has one job.

FACTOR says how much slower a machine is: the time of `pb_data`'s proof there, divided by the table's. With `--stood` each
row counts by the share of its functions and mutants that existed at that commit, and tests by their number.
"""

import collections, os, re, subprocess, sys

TOP = os.path.dirname(os.path.dirname(os.path.dirname(os.path.abspath(__file__))))


def crates():
    """Each crate with those that it stands on, of this repository."""
    found = {}
    with open(f"{TOP}/crates.txt", encoding="utf-8") as it:
        for line in it:
            name, mark, rest = line.partition(":")
            if mark and not line.startswith("#"):
                found[name.strip()] = rest.split()
    return {name: [it for it in below if it in found] for name, below in found.items()}


def minutes():
    """The proof, the tests and the edits of each crate in the table, in minutes."""
    found = {}
    with open(f"{TOP}/docs/GATE.md", encoding="utf-8") as it:
        for line in it:
            row = re.match(r"`(pb_\w+)` \|(.*)$", line)
            if row:
                cells = [it.strip().lstrip("~") for it in row[2].split("|")]
                found[row[1]] = [float(it) if it else 0.0 for it in cells[-3:]]
    return found


def lines(name):
    """The lines of code of a crate."""
    total = 0
    for at, folders, files in os.walk(f"{TOP}/crates/{name}"):
        folders[:] = [it for it in folders if it != "out"]
        for file in files:
            if file.endswith(".rt"):
                with open(f"{at}/{file}", "rb") as it:
                    total += it.read().count(b"\n")
    return total


def all_below(name, below, known):
    """All that a crate stands on, directly or not."""
    if name not in known:
        known[name] = set(below[name]).union(*[all_below(it, below, known) for it in below[name]])
    return known[name]


def names(commit):
    """Of each crate at a commit the names of its functions and of the wrong bodies that the gate tries, as pairs of a kind and a name."""
    told = lambda *words: subprocess.run(["git", "-C", TOP, *words], capture_output=True, text=True, check=False).stdout.split("\n")
    found = collections.defaultdict(list)
    for line in told("grep", "-o", "-E", r"^ *(pub(\([a-z ]+\))? )?(const )?fn [a-z_0-9]+", commit, "--", "crates/*.rt"):
        it = re.match(r"[^:]*:crates/(\w+)/src/\S*:.*fn (\w+)$", line)
        if it:
            found[it[1]].append(("tests" if it[1].startswith("pb_tests_") else "proof", it[2]))
    for line in told("ls-tree", "-r", "--name-only", commit, "crates"):
        it = re.match(r"crates/(\w+)/must-fail/(\S+)\.edit$", line)
        if it:
            found[it[1]].append(("edits", it[2]))
    return found


def shares(commit):
    """Which share of each crate's functions and wrong bodies stood at a commit; of tests, whose names change as they are put together, how many there were of all."""
    before, now = names(commit), names("HEAD")
    then = {it for of_crate in before.values() for it in of_crate}
    every = {(crate, part): [it in then for it in of_crate if it[0] == part] for crate, of_crate in now.items() for part in ("proof", "edits")}
    tests = [sum(part == "tests" for of_crate in at.values() for part, _ in of_crate) for at in (before, now)]
    return {**{key: sum(stood) / len(stood) for key, stood in every.items() if stood}, **{(crate, "tests"): min(1.0, tests[0] / tests[1]) for crate in now}}


def tasks(stood=None):
    """What each task waits for, and its weight and its minutes; lower crates first."""
    below, table, known, made = crates(), minutes(), {}, {}
    share = shares(stood) if stood else {}
    missing = sorted(set(below) ^ set(table))
    if missing:
        sys.exit(f"in `crates.txt` or in the table of `docs/GATE.md` alone: {', '.join(missing)}")
    for name in sorted(below, key=lambda it: len(all_below(it, below, known))):
        proof, tests, edits = table[name]
        weight, lower = lines(name), [(it, "proof") for it in known[name]]
        if stood:
            proof, tests, edits = (share.get((name, part), 0.0) * time for part, time in (("proof", proof), ("tests", tests), ("edits", edits)))
        made[name, "proof"] = lower, weight, proof
        if tests:
            made[name, "tests"] = lower, weight, tests
        if edits:
            made[name, "edits"] = [*lower, (name, "proof")], weight, edits
    return made


def chain(made):
    """The longest row of tasks of which each waits for the one before: its minutes and its names."""
    ends = {}
    for key, (waits, _, time) in made.items():
        before = max((ends[it] for it in waits), default=(0.0, []))
        ends[key] = before[0] + time, [*before[1], key]
    return max(ends.values())


def clock(made, lanes):
    """When the last task ends, on so many processors."""
    behind = {}
    for key in reversed([*made]):
        behind[key] = behind.get(key, 0) + made[key][1]
        for it in made[key][0]:
            behind[it] = max(behind.get(it, 0), behind[key])
    left, running, done, now = sorted(made, key=lambda it: -behind[it]), [], set(), 0.0
    while left or running:
        for key in [it for it in left if all(at in done for at in made[it][0])][: lanes - len(running)]:
            left.remove(key)
            running.append((now + made[key][2], key))
        running.sort()
        now, ended = running.pop(0)
        done.add(ended)
    return now


def main():
    words = sys.argv[1:]
    stood = words.pop(words.index("--stood") + 1) if "--stood" in words else None
    factor = next((float(it) for it in words if it != "--stood"), 1.0)
    made = tasks(stood)
    parts = {part: sum(time for (_, it), (_, _, time) in made.items() if it == part) for part in ("proof", "tests", "edits")}
    long, names = chain(made)
    print(f"proofs {parts['proof']:.1f}, tests {parts['tests']:.1f}, edits {parts['edits']:.1f}: {sum(parts.values()):.1f} processor minutes")
    print(f"longest chain {long:.1f}: {', '.join(name if part == 'proof' else f'{name} ({part})' for name, part in names)}")
    for lanes in (2, 4):
        print(f"on {lanes} processors {factor * clock(made, lanes):.1f} minutes of the clock")


if __name__ == "__main__":
    main()
