import collections, json, math, os, re, shutil, subprocess, sys, threading, time

program, compiler, folder, top, parts, wanted, rounds, limit, results = sys.argv[1:]
parts, wanted, rounds, limit, begun = parts.split(), wanted.split(), int(rounds), float(limit), time.monotonic()
PROCESSORS = os.cpu_count()
TICK = os.sysconf("SC_CLK_TCK")
VARIABLE = "NAMED_BY_A_SCRIPT"
LEFT_OUT = ("RUSTFLAGS", "CARGO_TARGET_DIR", "CARGO_BUILD_TARGET_DIR", "CARGO_ENCODED_RUSTFLAGS")
ENVIRONMENT = {name: value for name, value in os.environ.items() if name not in LEFT_OUT} | {"CARGO_INCREMENTAL": "0"}


def real(name):
    """A program of the toolchain itself, where the one on the path only looks for it."""
    root = subprocess.run(["rustc", "--print", "sysroot"], capture_output=True, text=True).stdout.strip() if shutil.which("rustc") else ""
    return f"{root}/bin/{name}" if os.path.exists(f"{root}/bin/{name}") else shutil.which(name)


CARGO, RUSTC = real("cargo"), real("rustc")


# The workspaces. Each has the path of a source of its lowest and of its topmost package, and a way to write these anew.


def put(path, text):
    os.makedirs(os.path.dirname(path), exist_ok=True)
    with open(path, "w") as it:
        it.write(text)


def manifest(name, needs=(), more="", build_needs=()):
    tables = "".join(f"[{head}]\n" + "".join(f'{it} = {{ path = "{there}" }}\n' for it, there in entries) for head, entries in (("dependencies", needs), ("build-dependencies", build_needs)))
    return f'[package]\nname = "{name}"\nversion = "0.1.0"\nedition = "2021"\n{more}{tables}'


SCRIPT = f'fn main() {{\n    println!("cargo::rerun-if-changed=build.rs");\n    println!("cargo::rerun-if-env-changed={VARIABLE}");\n}}\n'
MEMBERS = '[workspace]\nmembers = ["m*"]\nresolver = "2"\n'


def library(needs, number):
    return "pub fn count() -> u64 {\n    " + "".join(f"{it}::count() + " for it in needs) + f"{number}\n}}\n"


Shape = collections.namedtuple("Shape", "name title write lowest topmost")


def write_chain(there):
    put(f"{there}/Cargo.toml", MEMBERS)
    for n in range(256):
        needs = [f"m{n - 1:03}"] if n else []
        put(f"{there}/m{n:03}/Cargo.toml", manifest(f"m{n:03}", [(it, f"../{it}") for it in needs]))
        put(f"{there}/m{n:03}/src/lib.rs", library(needs, 1))
    put(f"{there}/m000/build.rs", SCRIPT)


def write_side(there):
    put(f"{there}/Cargo.toml", MEMBERS)
    for n in range(256):
        put(f"{there}/m{n:03}/Cargo.toml", manifest(f"m{n:03}"))
        put(f"{there}/m{n:03}/src/lib.rs", library([], 1))
    put(f"{there}/m000/build.rs", SCRIPT)


def write_shared(there):
    put(f"{there}/Cargo.toml", MEMBERS)
    for n in range(256):
        needs = ["m000"] if n else []
        put(f"{there}/m{n:03}/Cargo.toml", manifest(f"m{n:03}", [(it, f"../{it}") for it in needs]))
        put(f"{there}/m{n:03}/src/lib.rs", library(needs, 1) if n else library([], 1) + ("// " + "what stands in a large source " * 4 + "\n") * (2**20 // 124))
    put(f"{there}/m000/build.rs", SCRIPT)


def write_scripts(there):
    names = [f"m{n:02}" for n in range(64)]
    needs = [(name, f"../{name}") for name in names]
    put(f"{there}/Cargo.toml", '[workspace]\nmembers = ["m*", "top"]\nresolver = "2"\n')
    put(f"{there}/top/Cargo.toml", manifest("top", needs, build_needs=needs))
    put(f"{there}/top/src/lib.rs", library(names, 1))
    put(f"{there}/top/build.rs", "fn main() {\n    let sum: u64 = " + " + ".join(f"{name}::count()" for name in names) + ';\n    println!("cargo::rerun-if-changed=build.rs");\n    println!("cargo::rustc-env=SUM={sum}");\n}\n')
    for name in names:
        put(f"{there}/{name}/Cargo.toml", manifest(name))
        put(f"{there}/{name}/src/lib.rs", library([], 1))
        put(f"{there}/{name}/build.rs", SCRIPT if name == "m00" else SCRIPT.replace(VARIABLE, f"OTHER_{name}"))


def write_files(there):
    put(f"{there}/Cargo.toml", manifest("many"))
    put(f"{there}/build.rs", SCRIPT)
    put(f"{there}/src/lib.rs", "".join(f"pub mod part{n:03};\n" for n in range(499)) + library([], 1))
    for n in range(499):
        put(f"{there}/src/part{n:03}.rs", library([], n))


def write_beside(count):
    """64 packages, each with so many files beside its manifest that no build needs, half of them in a folder."""

    def write(there):
        put(f"{there}/Cargo.toml", '[workspace]\nmembers = ["crates/*"]\nresolver = "2"\n')
        for n in range(64):
            package = f"{there}/crates/m{n:02}"
            put(f"{package}/Cargo.toml", manifest(f"m{n:02}"))
            put(f"{package}/src/lib.rs", library([], 1))
            for k in range(count):
                put(f"{package}/{'data/' if k % 2 else ''}{k:04}.txt", "what no build needs\n")
        put(f"{there}/crates/m00/build.rs", SCRIPT)

    return write


def write_example(there):
    shutil.copytree(f"{top}/examples/workspace", there, dirs_exist_ok=True)
    path = f"{there}/packages/math-sys/build.rs"
    with open(path) as it:
        text = it.read()
    put(path, text.replace("fn main() {\n", f'fn main() {{\n    println!("cargo::rerun-if-env-changed={VARIABLE}");\n'))


SHAPES = [
    Shape("chain", "256 packages in a chain", write_chain, "m000/src/lib.rs", "m255/src/lib.rs"),
    Shape("side", "256 packages side by side", write_side, "m000/src/lib.rs", "m255/src/lib.rs"),
    Shape("shared", "256 packages, of which all need one with a source of 1 MiB", write_shared, "m000/src/lib.rs", "m255/src/lib.rs"),
    Shape("scripts", "64 packages with scripts, needed on both sides", write_scripts, "m00/src/lib.rs", "top/src/lib.rs"),
    Shape("files", "one package with 500 source files", write_files, "src/part000.rs", "src/lib.rs"),
    Shape("beside0", "64 packages by `crates/*`, no other files", write_beside(0), "crates/m00/src/lib.rs", "crates/m63/src/lib.rs"),
    Shape("beside100", "the same, 100 other files in each package", write_beside(100), "crates/m00/src/lib.rs", "crates/m63/src/lib.rs"),
    Shape("beside1000", "the same, 1,000 other files in each package", write_beside(1000), "crates/m00/src/lib.rs", "crates/m63/src/lib.rs"),
    Shape("example", "the examples' workspace", write_example, "packages/math-sys/src/lib.rs", "packages/almanac/src/main.rs"),
]
edits = 0


def edit(path):
    """A change that the compiler sees: a constant of another name and value."""
    global edits
    edits += 1
    with open(path) as it:
        text = it.read().partition("// edited\n")[0]
    put(path, f"{text}// edited\npub const EDITED_{edits}: u64 = {edits};\n")


# A build, measured.

Run = collections.namedtuple("Run", "clock own children memory compiles")


def words_of(builder, there, jobs, compile_by=None):
    words = [program, "build"] if builder == "pb_tool" else [CARGO, "build", "--offline"]
    return words + ["--manifest-path", f"{there}/Cargo.toml", "--target-dir", f"{there}-{builder}", "--message-format", "json", "--jobs", str(jobs)]


def watch(pid, seen, pause):
    """Keeps the greatest memory that the system has seen of a process."""
    try:
        while True:
            with open(f"/proc/{pid}/status") as it:
                peak = re.search(r"VmHWM:\s+(\d+)", it.read())
            if not peak:
                return
            seen[0] = int(peak[1]) / 1024
            time.sleep(pause)
    except OSError:
        pass


def measured(words, environment, pause=0.01):
    seen = [0.0]
    with open(f"{folder}/out", "wb") as out, open(f"{folder}/err", "wb") as err:
        start = time.perf_counter()
        child = subprocess.Popen(words, stdin=subprocess.DEVNULL, stdout=out, stderr=err, env=environment)
        watcher = threading.Thread(target=watch, args=(child.pid, seen, pause))
        watcher.start()
        os.waitid(os.P_PID, child.pid, os.WEXITED | os.WNOWAIT)
        clock = time.perf_counter() - start
        with open(f"/proc/{child.pid}/stat") as it:
            ticks = [int(number) for number in it.read().rpartition(")")[2].split()[11:15]]
        _, status, used = os.wait4(child.pid, 0)
        child.returncode = os.waitstatus_to_exitcode(status)
        watcher.join()
    if child.returncode:
        with open(f"{folder}/err") as err:
            sys.exit(f"{' '.join(words)}: status {child.returncode}: {err.read()[-2000:]}")
    with open(f"{folder}/out") as it:
        compiles = it.read().count('"fresh":false}')
    children = (ticks[2] + ticks[3]) / TICK
    own = (ticks[0] + ticks[1]) / TICK
    if children < 0.1:
        own, children = used.ru_utime + used.ru_stime - children, children
    return Run(clock, own, children, seen[0], compiles)


def least(runs):
    return Run(*(min(run[n] for run in runs) for n in range(3)), max(run.memory for run in runs), runs[-1].compiles)


STEPS = ["from nothing", "nothing changed", "lowest source", "topmost source", "a script's variable"]


def side_by_side(shape, builder, jobs, found, number):
    """The five builds of a builder."""
    there, environment = f"{folder}/{shape.name}", ENVIRONMENT | {"RUSTC": RUSTC, VARIABLE: "0"}
    words = words_of(builder, there, jobs)
    shutil.rmtree(f"{there}-{builder}", ignore_errors=True)

    def take(step, pause=0.01):
        run = measured(words, environment, pause)
        found[shape.name, step, jobs, builder].append(run)
        return run

    take(STEPS[0])
    if sum(take(STEPS[1], 0.003).compiles for _ in range(3)):
        failures.append(f"{builder} compiles in {shape.name} though nothing has changed")
    edit(f"{there}/{shape.lowest}")
    take(STEPS[2])
    edit(f"{there}/{shape.topmost}")
    take(STEPS[3])
    environment = environment | {VARIABLE: f"{number} {jobs} {builder}"}
    take(STEPS[4])


def kept():
    """The figures of runs before this one."""
    found = collections.defaultdict(list)
    if results and os.path.exists(results):
        with open(results) as it:
            for key, runs in json.load(it):
                found[tuple(key)] = [Run(*run) for run in runs]
    return found


def keep(found):
    if results:
        with open(results, "w") as it:
            json.dump(list(found.items()), it)


def part_side():
    found = kept()
    for shape in chosen():
        shape.write(f"{folder}/{shape.name}")
    done = collections.Counter()
    for number in range(1, rounds + 1):
        for shape in chosen():
            if limit and done[shape.name] and time.monotonic() - begun > 60 * limit:
                continue
            for jobs in (1, PROCESSORS):
                for builder in ("pb_tool", "cargo"):
                    side_by_side(shape, builder, jobs, found, number)
            done[shape.name] += 1
            keep(found)
            print(f"(round {number}: {shape.name}, {time.monotonic() - begun:.0f} seconds since the start, {os.getloadavg()[0]:.1f} processes at work)", file=sys.stderr, flush=True)
    print(f"| workspace | build | jobs | `pb_tool` clock | itself | children | MB | compiles | `cargo` clock | itself | children | MB | compiles | clock, ratio |")
    print("|---|---|---|---|---|---|---|---|---|---|---|---|---|---|")
    for shape in chosen():
        for step in STEPS:
            for jobs in (1, PROCESSORS):
                if not all(found[shape.name, step, jobs, builder] for builder in ("pb_tool", "cargo")):
                    continue
                ours, theirs = (least(found[shape.name, step, jobs, builder]) for builder in ("pb_tool", "cargo"))
                texts = (f"{it.clock:.2f} | {it.own:.2f} | {it.children:.2f} | {it.memory:.0f} | {it.compiles}" for it in (ours, theirs))
                print(f"| {shape.title} | {step} | {jobs} | {' | '.join(texts)} | {ours.clock / theirs.clock:.2f} |")
    rounds_of = {shape.name: len(found[shape.name, STEPS[0], 1, "cargo"]) for shape in chosen()}
    query = least([measured([RUSTC, "-vV"], ENVIRONMENT) for _ in range(10)])
    print(f"\n`rustc -vV` alone, which `pb_tool` asks in each build: {query.clock * 1000:.0f} milliseconds of the clock, {query.own * 1000:.0f} of the processor")
    print("\nRounds: " + ", ".join(f"{name} {count}" for name, count in rounds_of.items()))


def part_nothing():
    """Twenty builds with nothing changed of each builder, by turns."""
    print("| workspace | `pb_tool` clock, ms | processor, ms | `cargo` clock, ms | processor, ms | clock, ratio | processor, ratio |\n|---|---|---|---|---|---|---|")
    environment = ENVIRONMENT | {"RUSTC": RUSTC, VARIABLE: "0"}
    for shape in chosen():
        there, runs = f"{folder}/{shape.name}", collections.defaultdict(list)
        shape.write(there)
        builders = {builder: words_of(builder, there, PROCESSORS) for builder in ("pb_tool", "cargo")}
        for words in builders.values():
            measured(words, environment)
        for _ in range(20):
            for builder, words in builders.items():
                runs[builder].append(measured(words, environment, 0.05))
        ours, theirs = least(runs["pb_tool"]), least(runs["cargo"])
        spent = [min(run.own + run.children for run in runs[builder]) for builder in builders]
        if any(run.compiles for some in runs.values() for run in some):
            failures.append(f"something is compiled in {shape.name} though nothing has changed")
        figures = f"{ours.clock * 1000:.0f} | {spent[0] * 1000:.0f} | {theirs.clock * 1000:.0f} | {spent[1] * 1000:.0f}"
        print(f"| {shape.title} | {figures} | {ours.clock / theirs.clock:.2f} | {spent[0] / spent[1]:.2f} |", flush=True)


def chosen():
    return [shape for shape in SHAPES if shape.name in wanted]


def calls_of(words, environment, follow):
    trace = ["strace", "-c", "-o", f"{folder}/calls"] + (["-f"] if follow else [])
    subprocess.run(trace + words, stdout=subprocess.DEVNULL, stderr=subprocess.DEVNULL, env=environment, check=True)
    with open(f"{folder}/calls") as it:
        rows = [line.split() for line in it if re.match(r"\s*[\d.]+\s+[\d.]+\s+\d+\s+\d+", line)]
    counts = {row[-1]: int(row[3]) for row in rows if row[-1] != "total"}
    first = sorted(counts.items(), key=lambda it: -it[1])[:4]
    return sum(counts.values()), ", ".join(f"{name} {count}" for name, count in first)


def part_calls():
    if not shutil.which("strace"):
        print("There is no strace on this machine: calls of the system were not counted.")
        return
    print("| workspace | `pb_tool` itself | with its one child | of these most | `cargo` with all its threads | of these most |\n|---|---|---|---|---|---|")
    for shape in chosen():
        there, environment = f"{folder}/{shape.name}", ENVIRONMENT | {"RUSTC": RUSTC, VARIABLE: "0"}
        shape.write(there)
        texts = []
        for builder in ("pb_tool", "cargo"):
            words = words_of(builder, there, PROCESSORS)
            measured(words, environment)
            alone, most = calls_of(words, environment, False)
            whole, most_of_all = calls_of(words, environment, True)
            texts += [f"{alone:,}", f"{whole:,}", most] if builder == "pb_tool" else [f"{whole:,}", most_of_all]
        print(f"| {shape.title} | {' | '.join(texts)} |", flush=True)


def counted(words, environment, out="/dev/null"):
    tool = ["valgrind", "--tool=callgrind", f"--callgrind-out-file={out}"]
    said = subprocess.run(tool + words, stdout=subprocess.DEVNULL, stderr=subprocess.PIPE, text=True, env=environment, check=True).stderr
    return int(re.search(r"Collected : (\d+)", said)[1])


def mini_workspace(there, packages, binaries, chained):
    """A workspace for the small compiler: libraries, side by side or in a chain, each with so many binaries."""
    put(f"{there}/Cargo.toml", MEMBERS)
    for n in range(packages):
        needs = [(f"m{n - 1:03}", f"../m{n - 1:03}")] if chained and n else []
        put(f"{there}/m{n:03}/Cargo.toml", manifest(f"m{n:03}", needs))
        put(f"{there}/m{n:03}/src/lib.rs", "print x\n" + "# words of a source\n" * 100)
        for number in range(binaries):
            put(f"{there}/m{n:03}/src/bin/b{number}.rs", "print y\n" + "# words of a source\n" * 100)


def mini_bytes(there):
    """The bytes of all records: what a build with nothing to do reads beside the manifests and the inputs."""
    return sum(os.path.getsize(f"{above}/{name}") for above, _, names in os.walk(f"{there}-pb_tool") for name in names if name.endswith(".record"))


SIDE = "side by side, a library and {} binaries each"
GROWTH = [(SIDE.format("three"), 3, False, (16, 64, 256)), (SIDE.format("fifteen"), 15, False, (16, 64, 256)), ("in a chain", 0, True, (64, 128, 256))]


def part_growth():
    environment = ENVIRONMENT | {"RUSTC": compiler}
    print("| packages | units | MB of records | milliseconds | MB | instructions, millions | exponent by units | by bytes of records |\n|---|---|---|---|---|---|---|---|")
    for title, binaries, chained, sizes in GROWTH:
        before = None
        for size in sizes:
            there, units = f"{folder}/mini{binaries}-{size}", size * (binaries + 1)
            mini_workspace(there, size, binaries, chained)
            words = words_of("pb_tool", there, 1)
            measured(words, environment)
            runs = [measured(words, environment, 0.002) for _ in range(5)]
            if any(run.compiles for run in runs):
                failures.append(f"{title}: compiles though nothing has changed")
            now = (counted(words, environment), units, mini_bytes(there))
            exponents = [math.log(now[0] / before[0]) / math.log(now[n] / before[n]) for n in (1, 2)] if before else None
            texts = " | ".join(f"{it:.2f}" for it in exponents) if exponents else " | "
            run = least(runs)
            print(f"| {size} {title} | {units} | {now[2] / 2**20:.2f} | {run.clock * 1000:.0f} | {run.memory:.1f} | {now[0] / 1e6:.0f} | {texts} |", flush=True)
            before = now


def part_dear():
    environment = ENVIRONMENT | {"RUSTC": compiler}
    for title, binaries, chained, size in (("256 packages side by side", 0, False, 256), ("256 packages in a chain", 0, True, 256)):
        there = f"{folder}/dear{chained}"
        mini_workspace(there, size, binaries, chained)
        words = words_of("pb_tool", there, 1)
        measured(words, environment)
        whole = counted(words, environment, f"{folder}/callgrind")
        said = subprocess.run(["callgrind_annotate", "--threshold=100", f"{folder}/callgrind"], capture_output=True, text=True, check=True).stdout
        rows = re.findall(r"^ *([\d,]+) \(.*?\) +(.*)$", said, re.M)
        rows = [(int(cost.replace(",", "")), re.sub(r" \[.*\]$|^.*?:", "", name)) for cost, name in rows if "PROGRAM TOTALS" not in name]
        print(f"\n{title}, {whole / 1e6:.0f} million instructions:\n\n| function | share |\n|---|---|")
        for cost, name in rows[:5]:
            print(f"| `{name.strip()}` | {100 * cost / whole:.1f} % |", flush=True)
        said = subprocess.run(["callgrind_annotate", "--inclusive=yes", "--threshold=100", f"{folder}/callgrind"], capture_output=True, text=True, check=True).stdout
        rows = re.findall(r"^ *([\d,]+) \(.*?\) +(.*)$", said, re.M)
        rows = [(int(cost.replace(",", "")), re.sub(r" \[.*\]$|^.*?:", "", name)) for cost, name in rows if "pb_" in name]
        print("\nwith all that they call, of our own: " + "; ".join(f"`{name.strip()}` {100 * cost / whole:.0f} %" for cost, name in rows[:16]), flush=True)


def part_wide():
    """One slow package beside 120 quick ones: several jobs, and the unit that was begun first is answered first."""
    there = f"{folder}/wide"
    put(f"{there}/Cargo.toml", MEMBERS)
    slow = "".join(f"pub fn part{n}(x: &[u64]) -> Vec<String> {{ x.iter().map(|y| format!(\"{{}} {n}\", y)).filter(|y| y.len() > {n % 9}).collect() }}\n" for n in range(200))
    for n in range(121):
        put(f"{there}/m{n:03}/Cargo.toml", manifest(f"m{n:03}"))
        put(f"{there}/m{n:03}/src/lib.rs", slow if n == 0 else library([], n))
    print("| jobs | which | clock | children's processor |\n|---|---|---|---|")
    environment = ENVIRONMENT | {"RUSTC": RUSTC}
    for jobs in (1, PROCESSORS):
        runs = {"pb_tool": [], "cargo": []}
        for _ in range(max(rounds, 1)):
            for builder, some in runs.items():
                shutil.rmtree(f"{there}-{builder}", ignore_errors=True)
                some.append(measured(words_of(builder, there, jobs), environment))
        for builder, some in runs.items():
            run = least(some)
            print(f"| {jobs} | {builder} | {run.clock:.2f} | {run.children:.2f} |", flush=True)


failures = []
if not (CARGO and RUSTC):
    print("There is no cargo and rustc on this machine: nothing is measured beside it.")
    parts = [part for part in parts if part in ("growth", "dear")]
if not shutil.which("valgrind"):
    print("There is no valgrind on this machine: instructions are not counted.")
    parts = [part for part in parts if part not in ("growth", "dear")]
print(f"{PROCESSORS} processors, {os.getloadavg()[0]:.1f} processes at work at the start, {time.strftime('%d %B %Y')}", flush=True)
for name, part in (("side", part_side), ("nothing", part_nothing), ("calls", part_calls), ("growth", part_growth), ("dear", part_dear), ("wide", part_wide)):
    if name in parts:
        print(f"\n{name}\n")
        part()
print(f"{os.getloadavg()[0]:.1f} processes at work at the end")
for failure in failures:
    print(failure)
sys.exit(min(len(failures), 1))
