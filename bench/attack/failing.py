import os, re, subprocess, sys
from concurrent.futures import ThreadPoolExecutor

program, folder, examples, every, workers = sys.argv[1:]
FINISH, FAILED = b'{"reason":"build-finished"', b'{"reason":"build-finished","success":false}\n'
MEMORY, BAD = b"fault memory OutOfMemory\n", b"error: bad session\n"
BEFORE = (101, b"", b"error: " + MEMORY)


def run(name, session):
    """What a session prints over that malloc, and what came of each allocation: its mode, how many, and what."""
    path = f"{folder}/{name}"
    said = {"PATH": os.environ["PATH"], "LD_PRELOAD": f"{folder}/failing.so", "OUTCOMES": path, "EVERY": every}
    with open(f"{path}.printed", "w+b") as printed:
        ran = subprocess.run([program, "session", session], env=said, stdout=printed, stderr=subprocess.PIPE)
        printed.seek(0)
        whole = (ran.returncode, printed.read(), ran.stderr)
    came = []
    with open(path, "rb") as it:
        while line := it.readline():
            mode, first, count, status, written, told = line.decode().split()
            came.append((mode, int(first), int(count), int(status), it.read(int(written)), it.read(int(told))))
    return whole, came


def alike(printed):
    """Without what a build says of those before it."""
    printed = re.sub(rb'"fresh":(?:true|false)', b'"fresh":_', printed)
    return re.sub(rb" started=[^ \n]*", b" started=_", printed)


def builds_of(printed):
    """The message lines of each build, and its result line."""
    lines = printed.splitlines(keepends=True)
    messages = [line for line in lines if line.startswith(b"{")]
    results = lines[len(messages) :]
    groups, group = [], []
    for line in messages:
        group.append(line)
        if line.startswith(FINISH):
            groups.append(group)
            group = []
    left = iter(groups)
    return [([] if result.startswith(b"refused ") else next(left), result) for result in results]


def told(builds):
    return b"".join(line for lines, _ in builds for line in lines) + b"".join(result for _, result in builds)


def lines_of(builds):
    return b"".join(line for lines, _ in builds for line in lines)


def one_refused(printed):
    """What may come where one allocation is refused, by its name."""
    builds = builds_of(printed)
    assert told(builds) == printed
    may = {(0, printed, b""): "right", BEFORE: "before"}
    for at in range(len(builds) + 1):
        may[(1, lines_of(builds[:at]), BAD)] = "bad session"
    for at, (lines, _) in enumerate(builds):
        for kept in range(max(len(lines), 1)):
            faulty = (lines[:kept] + [FAILED], MEMORY)
            may[(0, told(builds[:at] + [faulty] + builds[at + 1 :]), b"")] = "memory"
    return may


def all_refused(printed):
    """What may come where all allocations from one on are refused, by its name."""
    builds = builds_of(printed)
    may = {(0, printed, b""): "right", BEFORE: "before"}
    for at in range(len(builds) + 1):
        may[(1, lines_of(builds[:at]), BAD)] = "bad session"
        lines = builds[at][0] if at < len(builds) else []
        for failed in range(1, len(builds) - at + 1):
            for kept in range(max(len(lines), 1)):
                may[(1, lines_of(builds[:at]) + b"".join(lines[:kept]) + FAILED * failed, BAD)] = "memory"
    return may


class Answered:
    """What may come of a session whose builds hang on each other: all of its builds are answered, or it is bad."""

    def __init__(self, printed):
        self.printed, self.count = printed, len(builds_of(printed))

    def get(self, outcome):
        status, written, said = outcome
        lines = written.splitlines()
        messages = [line for line in lines if line.startswith(b"{")]
        if status == 0 and said == b"" and len(lines) - len(messages) == self.count:
            return "right" if written == self.printed else "memory"
        if status == 1 and said == BAD and len(lines) == len(messages):
            return "bad session"
        return "before" if outcome == BEFORE else None


def summed(name, mode, came, may):
    """What came how often where allocations were refused so: a line for the table, the sums, and what was wrong."""
    seen = {"right": 0, "memory": 0, "bad session": 0, "before": 0}
    wrong = []
    for _, first, count, status, written, said in (it for it in came if it[0] == mode):
        kind = may.get((status, alike(written), said))
        if kind:
            seen[kind] += count
        else:
            wrong.append((first, count, status, written, said))
    bad, tried = sum(it[1] for it in wrong), sum(seen.values()) + sum(it[1] for it in wrong)
    line = f"{name:44} {mode:6} {tried:7} {seen['memory']:7} {seen['bad session']:11} {seen['before']:6} {seen['right']:6} {bad:6}"
    for first, _, status, written, said in wrong[:1]:
        line += f"\n  allocation {first}: status {status}, says {said[:200]!r}, writes {written[:300]!r}"
    return line, tried, bad, seen


def try_example(name):
    session, printed = f"{examples}/data/{name}.json", outputs[name]
    with open("/dev/full", "wb") as full:
        ran = subprocess.run([program, "session", session], stdout=full, stderr=subprocess.PIPE, timeout=60)
    if (ran.returncode, ran.stderr) != (1, BAD):
        sys.exit(f"{name}: wrong over a full device: status {ran.returncode}, says {ran.stderr!r}")
    whole, came = run(name, session)
    if whole != (0, printed, b""):
        sys.exit(f"{name}: wrong with all the memory that it asks for")
    may = [Answered(alike(printed))] * 2 if name in hanging else [one_refused(alike(printed)), all_refused(alike(printed))]
    found = [summed(name, mode, came, may) for mode, may in zip(("alone", "on"), may)]
    print("\n".join(line for line, _, _, _ in found), flush=True)
    return found


print(f"{'example':44} {'mode':6} {'tried':>7} {'memory':>7} {'bad session':>11} {'before':>6} {'right':>6} {'wrong':>6}")
with open(f"{examples}/stdout", "rb") as it:
    parts = (part.partition(b"\n") for part in re.split(rb"^== ", it.read(), flags=re.MULTILINE)[1:])
    outputs = {name.decode(): printed for name, _, printed in parts}
names = sorted(it.removesuffix(".json") for it in os.listdir(f"{examples}/data") if it.endswith(".json"))
if not set(names) <= set(outputs):
    sys.exit("the file stdout has not all examples")
texts = {name: open(f"{examples}/data/{name}.json", encoding="utf-8").read() for name in names}
DEPENDENT = ("a_record_of_an_earlier_version", "a_target_folder_that_moves", "no_number_left")
hanging = {name for name in names if name in DEPENDENT or '"die"' in texts[name] or '"fuse"' in texts[name]}
with ThreadPoolExecutor(int(workers)) as pool:
    alone, on = zip(*pool.map(try_example, names))
for what, found in (("alone", alone), ("with all that follow", on)):
    of = {kind: sum(it[3][kind] for it in found) for kind in found[0][3]}
    print(f"{sum(it[1] for it in found)} allocations of {len(names)} sessions ({len(hanging)} only looked at for answers) refused {what}, {sum(it[2] for it in found)} outcomes were wrong: {of}")
sys.exit(1 if any(it[2] for it in alone + on) else 0)
