import collections, json, os, random, re, shutil, signal, subprocess, sys, time

program, compiler, folder, top, builds, seed = sys.argv[1:]
sys.dont_write_bytecode = True
sys.path.insert(0, f"{top}/bench/attack")
import records
from made_sessions import session_of

builds, r, tally, wrong = int(builds), random.Random(int(seed)), collections.Counter(), []
MARK = f"SOAKED_BY={os.getpid()}"
disk = f"{folder}/disk"
TOPS = ("w", "x", "v", "other", "neutral", "t2", "absent", r"x\.txt")
ABSOLUTE = re.compile(rf"(?<![\w.$/-])/({'|'.join(TOPS)})(?=[/\s\"']|$)", re.MULTILINE)
for name in ("mini", "rustc"):
    os.makedirs(f"{folder}/bin", exist_ok=True)
    with open(f"{folder}/bin/{name}", "w") as it:
        it.write(f'#!/bin/sh\nexec "{compiler}" "$@"\n')
    os.chmod(f"{folder}/bin/{name}", 0o755)


def here(text):
    """A text of a session, with the absolute paths in it on our disk."""
    return ABSOLUTE.sub(lambda it: f"{disk}/{it[1]}", text)


State = collections.namedtuple("State", "files variables options removed")


def below(path, top):
    return path == top or path.startswith(f"{top}/")


def states(steps):
    """What each build of a session finds, and what was removed of the target folders before it."""
    files, variables, removed = {}, {}, []
    for step in steps:
        (verb, value), = step.items()
        if verb == "write" and not below(value[0], "/w/target"):
            files[value[0]] = value[1]
        if verb == "remove":
            files = {path: text for path, text in files.items() if not below(path, value)}
            removed += [value] if below(value, "/w/target") else []
        if verb == "set":
            variables[value[0]] = value[1]
        if verb == "unset":
            variables.pop(value, None)
        if verb == "build":
            yield State(dict(files), dict(variables), value, removed)
            removed = []


def take_away(path):
    if os.path.isdir(path) and not os.path.islink(path):
        shutil.rmtree(path)
    elif os.path.lexists(path):
        os.remove(path)


def put_all(files, before):
    """Puts the files of a state on the disk, in place of those of the state before."""
    for path in before:
        if path not in files:
            take_away(disk + path)
    for path, text in files.items():
        text = here(text).encode()
        if path in before and before[path] == files[path] and os.path.isfile(disk + path):
            continue
        if os.path.isdir(disk + path):
            shutil.rmtree(disk + path)
        above = os.path.dirname(disk + path)
        while not os.path.isdir(above):
            if os.path.lexists(above):
                os.remove(above)
            if os.path.isdir(os.path.dirname(above)):
                os.mkdir(above)
                above = os.path.dirname(disk + path)
            else:
                above = os.path.dirname(above)
        with open(disk + path, "wb") as it:
            it.write(text)


def words_of(options, jobs):
    words = [program, "build", "--manifest-path", disk + options.get("manifest", "/w/Cargo.toml"), "--jobs", str(jobs), "--runner", f"{folder}/bin/mini --run"]
    words += ["--profile", options["profile"]] if "profile" in options else []
    for key, word in (("packages", "-p"), ("bin", "--bin"), ("features", "-F")):
        words += [it for name in options.get(key, []) for it in (word, name)]
    return words + [f"--{key.replace('_', '-')}" for key in ("workspace", "all_features", "no_default_features", "lib", "bins") if options.get(key)]


def environment(variables):
    told = {name: here(value) for name, value in variables.items()}
    return told | {"PATH": f"{folder}/bin:{os.environ['PATH']}"} | dict([MARK.split("=")])


Built = collections.namedtuple("Built", "lines end fresh clock")


def start(state, jobs, out):
    return subprocess.Popen(words_of(state.options, jobs), env=environment(state.variables), stdin=subprocess.DEVNULL, stdout=out, stderr=subprocess.STDOUT if out != subprocess.PIPE else subprocess.PIPE, start_new_session=True)


def built(state, jobs):
    begun = time.perf_counter()
    child = start(state, jobs, subprocess.PIPE)
    out, err = child.communicate(timeout=600)
    lines, said = out.decode().splitlines(), err.decode().splitlines()
    last = [it for it in said if it.startswith("error: ")][-1:]
    end = (child.returncode, re.sub(r" started=.*", "", "".join(last)))
    if child.returncode not in (0, 101):
        wrong.append(f"status {child.returncode}: {said[-2:]}")
    fresh = [it.endswith('"fresh":true}') for it in lines if '"reason":"compiler-artifact"' in it]
    return Built([re.sub(r'"fresh":(true|false)}$', '"fresh":_}', it) for it in lines], end, fresh, time.perf_counter() - begun)


def marked():
    found = []
    for pid in filter(str.isdigit, os.listdir("/proc")):
        try:
            with open(f"/proc/{pid}/environ", "rb") as it:
                if MARK.encode() not in it.read().split(b"\0"):
                    continue
            with open(f"/proc/{pid}/stat") as it:
                if it.read().rpartition(")")[2].split()[0] not in "ZX":
                    found.append(int(pid))
        except OSError:
            pass
    return found


def killed(state, jobs, after):
    """Begins a build and kills it. Whether it was still at work."""
    with open(f"{folder}/out", "wb") as out:
        child = start(state, jobs, out)
        try:
            child.wait(after)
            return False
        except subprocess.TimeoutExpired:
            pass
        tally["processes at a kill"] += len(marked())
        os.killpg(child.pid, signal.SIGKILL)
        child.wait(30)
    until = time.perf_counter() + 10
    while marked():
        if time.perf_counter() > until:
            wrong.append(f"left: {marked()}")
            for pid in marked():
                os.kill(pid, signal.SIGKILL)
            break
        time.sleep(0.002)
    return True


def folders_of(lines):
    for line in (json.loads(re.sub(r'"fresh":_}$', '"fresh":true}', it)) for it in lines):
        if "filenames" in line:
            yield os.path.dirname(line["filenames"][0])
        elif "out_dir" in line:
            yield line["out_dir"]


def files_of(lines):
    found = {}
    for place in folders_of(lines):
        for above, _, names in os.walk(place):
            for name in names:
                with open(f"{above}/{name}", "rb") as it:
                    found[f"{above}/{name}"] = it.read()
    return found


def kept(path):
    try:
        with open(path, "rb") as it:
            return records.read(it.read())
    except (records.NoRecord, OSError) as it:
        return str(it)


def records_in(place):
    return {name.removesuffix(".record"): kept(f"{place}/{name}") for name in os.listdir(place) if name.endswith(".record")} if os.path.isdir(place) else {}


def wrong_records(lines):
    said = []
    for place in set(map(os.path.dirname, folders_of(lines))):
        there = records_in(place)
        for unit in (os.path.basename(it) for it in folders_of(lines) if os.path.dirname(it) == place):
            it = there.get(unit, "there is none")
            tally["records read"] += 1
            if isinstance(it, str) or it.key != unit or it.form != 2:
                said.append(f"records: {unit}: {it if isinstance(it, str) else it.key}")
                continue
            said += [f"records: {unit} names {need} {number}" for need, number in it.needs if isinstance(there.get(need), str) or need not in there or there[need].number != number]
        numbers = [it.number for it in there.values() if not isinstance(it, str)]
        said += ["records: two have one number"] if len(set(numbers)) < len(numbers) else []
    return said


def target_of(state):
    told = state.variables.get("CARGO_TARGET_DIR")
    root = os.path.dirname(disk + state.options.get("manifest", "/w/Cargo.toml"))
    return os.path.join(root, here(told)) if told else f"{root}/target"


def compared(number, at, state, clock):
    """A build that is killed some times, then ends, and is compared. What is wrong, and the time from nothing."""
    target = target_of(state)
    for _ in range(r.choice([0, 1, 1, 1, 2, 3])):
        was_at_work = killed(state, r.choice([1, 2, 4]), r.uniform(0, clock) * r.choice([0.2, 0.5, 1]))
        tally["kills" if was_at_work else "builds that ended before their kill"] += 1
        if was_at_work:
            for place in (f"{target}/{it}" for it in (os.listdir(target) if os.path.isdir(target) else [])):
                for it in records_in(place).values():
                    tally["torn records after kills"] += isinstance(it, str)
    now = built(state, r.choice([1, 2, 4]))
    tally["builds"] += 1
    tally["reused"] += sum(now.fresh)
    tally[{0: "ok", 101: now.end[1].split(" ")[1] if " " in now.end[1] else "no reason"}.get(now.end[0], "wrong status")] += 1
    files, said = files_of(now.lines), []
    said += wrong_records(now.lines) if now.end[0] == 0 else []
    if now.end[0] == 0:
        again = built(state, 1)
        if not all(again.fresh) or again.lines != now.lines:
            said.append(f"again: {again.end}, {again.fresh}")
        said += [] if files_of(again.lines) == files else ["again: other files"]
    aside = f"{folder}/aside"
    if os.path.lexists(target):
        os.rename(target, aside)
    nothing = built(state, 1)
    if nothing.lines != now.lines or nothing.end != now.end:
        other = [it for it in now.lines if it not in nothing.lines] + [it for it in nothing.lines if it not in now.lines]
        said.append(f"lines: {now.end}, from nothing {nothing.end}: {other[:2]}")
    elif now.end[0] == 0 and files_of(nothing.lines) != files:
        wanted = files_of(nothing.lines)
        said.append(f"files: {[path for path in wanted | files if wanted.get(path) != files.get(path)][:3]}")
    tally["files compared"] += len(files)
    take_away(target)
    if os.path.lexists(aside):
        os.rename(aside, target)
    return [f"session {number}, build {at}: {it}" for it in said], nothing.clock


def tell(*_):
    """Prints what was done so far, and ends."""
    if marked():
        wrong.append(f"left at the end: {marked()}")
    for name, count in sorted(tally.items()):
        print(f"{name:40} {count:8}")
    print(f"{len(wrong)} things are wrong", flush=True)
    sys.exit(min(len(wrong), 1))


signal.signal(signal.SIGTERM, tell)
number, clock = int(seed), 0.2
while tally["builds"] < builds:
    shutil.rmtree(disk, ignore_errors=True)
    os.makedirs(disk)
    before = {}
    tally["sessions"] += 1
    for at, state in enumerate(states(session_of(number))):
        put_all(state.files, before)
        before = state.files
        for path in state.removed:
            take_away(disk + path)
        said, clock = compared(number, at, state, clock)
        wrong += said
        for line in said:
            print("wrong:", line, flush=True)
    number += 1
tell()
