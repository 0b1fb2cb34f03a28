#!/usr/bin/env python3
"""Measures what the gate takes for each crate: `rows.py .ci/run`, in a clean clone. Another command can take its place.

It runs the command at the top of the repository. Each second it reads from /proc the processor time of every process below
the command, and its folder, which says for which crate the process works. At the end it prints a row for each crate, as in
the table of `docs/GATE.md`, and the elapsed time.

A process that lives for less than a second may be missed. The time of a process is that of its last sample, so a row is at
most some seconds too low. `rt ci` keeps what passed on a machine: measure on one where nothing was kept, or with `--anew`.
"""
import collections, os, re, subprocess, sys, time

TOP = os.path.dirname(os.path.dirname(os.path.dirname(os.path.abspath(__file__))))
TICKS = os.sysconf("SC_CLK_TCK")


def processes():
    """Each process: its parent, and its processor time in seconds."""
    found = {}
    for pid in filter(str.isdigit, os.listdir("/proc")):
        try:
            with open(f"/proc/{pid}/stat", encoding="utf-8", errors="replace") as it:
                fields = it.read().rpartition(")")[2].split()
        except OSError:
            continue
        found[int(pid)] = (int(fields[1]), (int(fields[11]) + int(fields[12])) / TICKS)
    return found


def below(root, found):
    """The processes that descend from one."""
    children = collections.defaultdict(list)
    for pid, (parent, _) in found.items():
        children[parent].append(pid)
    all_of, left = [], [root]
    while left:
        pid = left.pop()
        all_of.append(pid)
        left += children[pid]
    return all_of


def work_of(pid):
    """The crate for which a process works, and its kind of work: `proof`, `tests` or `edits`. Mutants have folders of their own."""
    try:
        folder = os.readlink(f"/proc/{pid}/cwd")
        with open(f"/proc/{pid}/cmdline", "rb") as it:
            words = it.read().decode(errors="replace").split("\0")
    except OSError:
        return None
    inside = re.search(r"/crates/(\w+)", folder)
    if "--crate-name" in words:
        crate = words[words.index("--crate-name") + 1]
    elif inside:
        crate = inside[1]
    else:
        return None
    if crate.startswith("pb_tests_"):
        return crate, "tests"
    return crate, "proof" if inside else "edits"


def main():
    command = sys.argv[1:]
    if not command:
        sys.exit("which command? `rows.py .ci/run` measures the gate")
    began, took = time.monotonic(), {}
    child = subprocess.Popen(command, cwd=TOP)
    while child.poll() is None:
        found = processes()
        for pid in below(child.pid, found):
            work = work_of(pid)
            if work:
                took[pid, work] = max(took.get((pid, work), 0.0), found[pid][1])
        time.sleep(1)
    rows = collections.defaultdict(lambda: collections.defaultdict(float))
    for (_, (crate, kind)), seconds in took.items():
        rows[crate][kind] += seconds / 60
    print("\ncrate | proof | tests | edits\n---|---|---|---")
    for crate in sorted(rows):
        print(f"`{crate}` | " + " | ".join(f"{rows[crate][kind]:.1f}" if rows[crate][kind] >= 0.05 else "" for kind in ("proof", "tests", "edits")))
    print(f"{sum(sum(it.values()) for it in rows.values()):.1f} processor minutes, {(time.monotonic() - began) / 60:.1f} minutes of the clock")
    sys.exit(child.returncode)


main()
