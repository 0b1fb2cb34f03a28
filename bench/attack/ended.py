import collections, fcntl, hashlib, json, os, random, re, shutil, signal, subprocess, sys, termios, threading, time

program, compiler, folder, moments, seed, only = sys.argv[1:]
moments, r, MARK = int(moments), random.Random(int(seed)), f"ENDED_FROM_OUTSIDE={os.getpid()}"
WAYS = {"SIGINT": signal.SIGINT, "SIGHUP": signal.SIGHUP, "SIGKILL": signal.SIGKILL}
LIBRARIES = 8


def put(path, text):
    os.makedirs(os.path.dirname(path), exist_ok=True)
    with open(path, "w") as it:
        it.write(text)


def manifest(name, needs, more=""):
    entries = "".join(f'{it} = {{ path = "../{it}" }}\n' for it in needs)
    return f'[package]\nname = "{name}"\nversion = "0.1.0"\nedition = "2021"\n{more}[dependencies]\n{entries}'


def libraries():
    """The libraries, each with those that it needs: the first, some beside each other above it, and a last one."""
    names = [f"m{n:02}" for n in range(LIBRARIES)]
    return {name: [] if n == 0 else names[:1] if n < LIBRARIES - 1 else names[1:-1] for n, name in enumerate(names)}


def rust_sources(edit):
    """The workspace for the real compiler: a script makes a part of the first library, a binary uses the last."""
    made = {"m00/build.rs": 'fn main() {\n    println!("cargo::rerun-if-changed=words.txt");\n    let words = std::fs::read_to_string("words.txt").unwrap();\n    let made = format!("pub const WORDS: &str = {:?};\\n", words.trim());\n    std::fs::write(std::path::Path::new(&std::env::var("OUT_DIR").unwrap()).join("made.rs"), made).unwrap();\n}\n'}
    made["m00/words.txt"] = "one two\n" if edit else "one\n"
    for name, needs in libraries().items():
        body = "".join(f"    sum += {it}::count();\n" for it in needs)
        parts = "".join(f"pub fn part{n}(x: &[u64]) -> u64 {{ x.iter().map(|y| y.wrapping_mul({n} + 3)).filter(|y| y % 7 != {n % 7}).sum() }}\n" for n in range(12))
        own = 'include!(concat!(env!("OUT_DIR"), "/made.rs"));\n' if name == "m00" else ""
        start = "WORDS.len() as u64" if name == "m00" else "1"
        made[f"{name}/src/lib.rs"] = f"{own}{parts}pub fn count() -> u64 {{\n    let mut sum = {start};\n{body}    sum += part1(&[sum]);\n    sum\n}}\n"
    last = list(libraries())[-1]
    made["app/src/main.rs"] = f'fn main() {{ println!("{{}} {1 if edit else 0}", {last}::count()); }}\n'
    return made


def mini_sources(edit):
    made = {"m00/build.rs": "read words.txt\nput made.txt made\nprint cargo::warning=made\n", "m00/words.txt": "one two\n" if edit else "one\n"}
    for name, needs in libraries().items():
        own = "include $OUT_DIR/made.txt\nenv READ\n" if name == "m00" else ""
        made[f"{name}/src/lib.rs"] = own + "".join(f"use {it}\n" for it in needs) + "warn seen\n" + "# a line of words\n" * 20000
    last = list(libraries())[-1]
    made["app/src/main.rs"] = f"use {last}\nprint {1 if edit else 0}\n"
    return made


def write_all(workspace, sources):
    last = list(libraries())[-1]
    put(f"{workspace}/Cargo.toml", '[workspace]\nmembers = ["m*", "app"]\nresolver = "2"\n')
    put(f"{workspace}/app/Cargo.toml", manifest("app", [last]))
    for name, needs in libraries().items():
        put(f"{workspace}/{name}/Cargo.toml", manifest(name, needs))
    for path, text in sources.items():
        put(f"{workspace}/{path}", text)


Kind = collections.namedtuple("Kind", "name words environment sources workspace")


def command(kind, jobs):
    return [program, "build", "--manifest-path", f"{kind.workspace}/Cargo.toml", "--jobs", str(jobs)] + kind.words


def start(kind, jobs, out, err, **more):
    return subprocess.Popen(command(kind, jobs), stdin=subprocess.DEVNULL, stdout=out, stderr=err, env=kind.environment, **more)


Built = collections.namedtuple("Built", "status lines said files clock")


def plain(line):
    return re.sub(r'"fresh":(true|false)}$', '"fresh":_}', line)


def files_of(lines):
    """What the folder of each unit holds that these lines tell of."""
    found = {}
    for line in map(json.loads, lines):
        place = os.path.dirname(line["filenames"][0]) if "filenames" in line else line.get("out_dir")
        for above, _, names in os.walk(place or "/nowhere"):
            for name in names:
                with open(f"{above}/{name}", "rb") as it:
                    found[f"{above}/{name}"] = hashlib.sha256(it.read()).hexdigest()
    return found


def built(kind, jobs):
    begun = time.perf_counter()
    ran = subprocess.run(command(kind, jobs), stdin=subprocess.DEVNULL, capture_output=True, text=True, env=kind.environment)
    clock = time.perf_counter() - begun
    lines = ran.stdout.splitlines()
    return Built(ran.returncode, [plain(line) for line in lines], ran.stderr, files_of(lines), clock)


def clean(kind):
    shutil.rmtree(f"{kind.workspace}/target", ignore_errors=True)


def marked():
    """The processes that have our variable and are not the dead ones that wait to be taken away."""
    found = []
    for pid in filter(str.isdigit, os.listdir("/proc")):
        try:
            with open(f"/proc/{pid}/environ", "rb") as it:
                if MARK.encode() not in it.read().split(b"\0"):
                    continue
            with open(f"/proc/{pid}/stat") as it:
                if it.read().rpartition(")")[2].split()[0] not in "ZX":
                    found.append(int(pid))
        except OSError:
            pass
    return found


def gone(limit=5.0):
    """How long it takes until no child is left, or None where one is left after so many seconds."""
    begun = time.perf_counter()
    while marked():
        if time.perf_counter() - begun > limit:
            return None
        time.sleep(0.005)
    return time.perf_counter() - begun


def reset():
    for number in WAYS.values():
        if number != signal.SIGKILL:
            signal.signal(number, signal.SIG_DFL)


def in_terminal(kind, jobs):
    """Starts a build in a terminal of its own, and gives the child and the terminal's other end."""
    master, slave = os.openpty()

    def enter():
        os.setsid()
        fcntl.ioctl(slave, termios.TIOCSCTTY, 0)
        reset()

    child = subprocess.Popen(command(kind, jobs), stdin=slave, stdout=slave, stderr=slave, env=kind.environment, preexec_fn=enter)
    os.close(slave)
    return child, master


def drain(master, until):
    """Reads what comes from a terminal up to a moment."""
    os.set_blocking(master, False)
    while time.perf_counter() < until:
        try:
            os.read(master, 65536)
        except (BlockingIOError, OSError):
            time.sleep(0.001)


def ended(kind, jobs, way, after):
    """Starts a build and ends it. How many processes there were then, and how the builder ended."""
    moment = time.perf_counter() + after
    if way == "SIGHUP":
        child, master = in_terminal(kind, jobs)
        drain(master, moment)
        there = len(marked()) if child.poll() is None else 0
        os.close(master)
    else:
        with open(f"{folder}/out", "wb") as out:
            child = start(kind, jobs, out, out, start_new_session=True, preexec_fn=reset)
        time.sleep(max(0.0, moment - time.perf_counter()))
        there = len(marked()) if child.poll() is None else 0
        if there:
            os.killpg(child.pid, WAYS[way])
    return there, child.wait(30)


def compare(now, wanted):
    """What is wrong with a build beside one from nothing."""
    said = [f"status {now.status}: {now.said.strip()[-300:]}"] if now.status != wanted.status else []
    if now.lines != wanted.lines:
        other = [line for line in now.lines if line not in wanted.lines] + [line for line in wanted.lines if line not in now.lines]
        said.append(f"other lines: {other[:2]}")
    other = sorted(path for path in wanted.files if now.files.get(path) != wanted.files[path])
    beside = sorted(path for path in now.files if path not in wanted.files)
    said += [f"files are missing or have other bytes: {other[:3]}"] if other else []
    said += [f"{len(beside)} files lie beside those that a build from nothing makes: {beside[:3]}"] if beside else []
    return said


def prepare(kind, wanted, number):
    """A folder to begin from, by turns: an empty one, one with an edit since, one whose edit goes away. The edit that the
    next build finds."""
    clean(kind)
    if number % 3 == 0:
        kind_sources(kind, False)
        return False
    kind_sources(kind, False)
    first = built(kind, 4)
    if compare(first, wanted[False]):
        print("    a build from nothing does not say the same twice:", compare(first, wanted[False]))
    kind_sources(kind, True)
    return number % 3 == 1


def kind_sources(kind, edit):
    write_all(kind.workspace, kind.sources(edit))


def end_builds(kind, wanted):
    wrong, clocks = 0, {jobs: min(wanted[jobs, edit].clock for edit in (False, True)) for jobs in (1, 4)}
    for way in WAYS:
        for jobs in (1, 4):
            hit, tried, alive, waits, statuses, bad = 0, 0, [], [], collections.Counter(), []
            while hit < moments and tried < 3 * moments:
                edit = prepare(kind, {it: wanted[jobs, it] for it in (False, True)}, hit)
                there, status = ended(kind, jobs, way, r.uniform(0, clocks[jobs]))
                left = gone()
                tried += 1
                hit += there > 0
                if not there:
                    clocks[jobs] *= 0.9
                alive.append(there)
                statuses[status] += 1
                waits.append(left or 0)
                if left is None:
                    bad.append(f"children are left: {marked()}")
                    for pid in marked():
                        os.kill(pid, signal.SIGKILL)
                kind_sources(kind, edit)
                bad += compare(built(kind, jobs), wanted[jobs, edit])
            said = ", ".join(f"{count} times {status}" for status, count in statuses.most_common())
            print(f"{kind.name:8} {way:8} {jobs} jobs: {tried} builds, of which {hit} were still at work, with up to {max(alive) - 1} processes below the builder; the builder's status: {said}; no child left after {max(waits) * 1000:.0f} ms; {len(bad)} things wrong", flush=True)
            for line in bad:
                print(f"    {line}")
            wrong += len(bad)
    return wrong


def reason(status, said):
    last = said.strip().splitlines()[-1:] or [""]
    return f"status {status} {re.sub(r'started=.*', 'started=..', last[0])}".strip()


def pairs(kind, wanted):
    """Two builds at once in one target folder, from nothing and after an edit, by turns."""
    wrong, told, bad = 0, collections.Counter(), []  # pairs after which something is wrong, what they said, what is wrong
    for number in range(moments):
        jobs, other = r.choice([(1, 1), (4, 4), (1, 4), (2, 3)])
        edit = bool(number % 2)
        clean(kind)
        kind_sources(kind, False)
        if edit:
            built(kind, 4)
            kind_sources(kind, True)
        outs = [open(f"{folder}/{name}", "w+") for name in ("out1", "err1", "out2", "err2")]
        first = start(kind, jobs, outs[0], outs[1])
        time.sleep(r.choice([0.0, r.uniform(0, wanted[4, edit].clock)]))
        second = start(kind, other, outs[2], outs[3])
        both = []
        for child, at in ((first, 1), (second, 3)):
            status = child.wait(600)
            outs[at].seek(0)
            both.append(reason(status, outs[at].read()))
        for it in outs:
            it.close()
        told[" and ".join(sorted(both))] += 1
        found = compare(built(kind, jobs), wanted[1, edit])
        wrong += bool(found)
        bad += found
    print(f"{kind.name:8} {moments} pairs of builds at once: after {wrong} of them the next build was wrong; the pairs said:")
    for line, count in told.most_common():
        print(f"    {count:3} times {line}")
    for line in bad:
        print(f"    wrong: {line}")
    return len(bad)


def edited_under_way(kind, wanted, builders):
    """Builds with an edit while they are at work: how often the next build is not what one from nothing is."""
    wrong, first_wrong = 0, ""
    for _ in range(moments):
        clean(kind)
        kind_sources(kind, False)
        with open(f"{folder}/out", "wb") as out:
            children = [start(kind, 1, out, out)]
            time.sleep(r.uniform(0, 0.9 * min(it.clock for it in wanted.values())))
            kind_sources(kind, True)
            children += [start(kind, 1, out, out) for _ in range(builders - 1)]
            for child in children:
                child.wait(600)
        said = compare(built(kind, 1), wanted[1, True])
        wrong += bool(said)
        first_wrong = first_wrong or "".join(said[:1])
    what = "builds" if builders == 1 else "pairs of builds"
    print(f"{kind.name:8} not promised: of {moments} {what} with an edit while they were at work, after {wrong} the next build was not what one from nothing is", flush=True)
    if wrong:
        print(f"    first of these: {first_wrong[:300]}")


def main():
    kinds, wrong = [], 0
    plain_environment = {name: value for name, value in os.environ.items() if name not in ("RUSTFLAGS", "CARGO_TARGET_DIR")}
    mark = dict([MARK.split("=")])
    if shutil.which("rustc") and only in ("", "rustc"):
        kinds.append(Kind("rustc", [], plain_environment | mark | {"RUSTC": "rustc"}, rust_sources, f"{folder}/rust"))
    elif only in ("", "rustc"):
        print("There is no rustc on this machine: nothing was tried with it.")
    if only in ("", "pb_mini"):
        kinds.append(Kind("pb_mini", ["--runner", f"{compiler} --run"], plain_environment | mark | {"RUSTC": compiler}, mini_sources, f"{folder}/mini"))
    for kind in kinds:
        wanted = {}
        for edit in (False, True):
            for jobs in (1, 4):
                kind_sources(kind, edit)
                clean(kind)
                wanted[jobs, edit] = built(kind, jobs)
                if wanted[jobs, edit].status:
                    sys.exit(f"{kind.name}: {wanted[jobs, edit].said}{wanted[jobs, edit].lines}")
            wrong += len(compare(wanted[1, edit], wanted[4, edit]))
        clocks = ", ".join(f"{wanted[jobs, False].clock:.2f} with {jobs} jobs" for jobs in (1, 4))
        print(f"{kind.name:8} a build from nothing takes {clocks} seconds; {len(wanted[1, False].lines)} lines, {len(wanted[1, False].files)} files")
        wrong += end_builds(kind, wanted)
        wrong += pairs(kind, wanted)
        for builders in (1, 2):
            edited_under_way(kind, wanted, builders)
    print(f"{wrong} things are wrong")
    sys.exit(min(wrong, 1))


main()
