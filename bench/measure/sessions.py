import json, math, os, re, shutil, subprocess, sys

program, folder, sizes, wanted, runs = sys.argv[1:]
BUILD = {"build": {}}


def manifest(name, more=""):
    return f'[package]\nname = "{name}"\nversion = "0.1.0"\nedition = "2021"\n{more}'


def write(path, text):
    return {"write": [path, text]}


def package(folder, name, more="", source=""):
    return [write(f"{folder}/Cargo.toml", manifest(name, more)), write(f"{folder}/src/lib.rs", source)]


LIBRARY = package("/w", "a", source="print x\n")


def builds(size):
    return LIBRARY + [BUILD] * size


def edited_builds(size):
    edits = (write("/w/src/lib.rs", f"print {n}\n") for n in range(size))
    return LIBRARY + [step for edit in edits for step in (edit, BUILD)]


def files_in(place):
    def steps(size):
        return LIBRARY + [write(f"{place}/{n}.txt", f"text {n}\n") for n in range(size)] + [BUILD]

    return steps


def description(size):
    return package("/w", "a", f'description = "{"d" * (size - len(manifest("a")) - 18)}"\n') + [BUILD]


def unknown_keys(size):
    lines, length, number = [], len(manifest("a")), 0
    while length + 32 < size:
        lines.append(f"unknown{number} = {number}\n")
        length += len(lines[-1])
        number += 1
    return package("/w", "a", "".join(lines)) + [BUILD]


def source_of(line):
    def steps(size):
        return package("/w", "a", source=line * size) + [BUILD]

    return steps


def long_warnings(size):
    return package("/w", "a", source=f"warn {'w' * 1020}\n" * (size // 1024)) + [BUILD]


def variables(size):
    return LIBRARY + [{"set": [f"V{n}", str(n)]} for n in range(size)] + [BUILD]


def said(size):
    lines = "".join(f"print cargo::rustc-cfg=c{n}\nprint cargo::warning=w{n}\n" for n in range(size))
    return LIBRARY + [write("/w/build.rs", lines), BUILD]


def side_by_side(size):
    members = [step for n in range(size) for step in package(f"/w/m{n:03}", f"m{n:03}")]
    return [write("/w/Cargo.toml", '[workspace]\nmembers = ["m*"]\n')] + members + [BUILD]


def binaries(size):
    names = "".join(f'[[bin]]\nname = "b{n:04}"\npath = "b.rs"\n' for n in range(size))
    return package("/w", "a", names) + [write("/w/b.rs", "use a\n"), BUILD]


def chain_of(source):
    def steps(size):
        members = []
        for n in range(size):
            needs = f'[dependencies]\nm{n - 1:03} = {{ path = "../m{n - 1:03}" }}\n' if n else ""
            members += package(f"/w/m{n:03}", f"m{n:03}", needs, source(n))
        return [write("/w/Cargo.toml", '[workspace]\nmembers = ["m*"]\n')] + members + [BUILD]

    return steps


def on_both_sides(size):
    names = "".join(f'm{n:03} = {{ path = "m{n:03}" }}\n' for n in range(size))
    steps = package("/w", "a", f"[dependencies]\n{names}[build-dependencies]\n{names}[workspace]\n") + [write("/w/build.rs", "")]
    for n in range(size):
        steps += package(f"/w/m{n:03}", f"m{n:03}", f'links = "l{n:03}"\n')
        steps.append(write(f"/w/m{n:03}/build.rs", f"print cargo:key=value {n}\nprint cargo::rustc-link-search=/l{n}\n"))
    return steps + [BUILD]


def chain_bytes(lines):
    """The bytes of the commands of a chain's compiles, and of the sources and the libraries that they read."""

    def bytes_of(size):
        folder, total, image = len("/w/target/debug/m000.target.lib"), 0, 0
        words = "--crate-name m000 --edition=2021 /w/m000/src/lib.rs --error-format=json --crate-type lib --emit=dep-info,link --out-dir /w/target/debug/m000.target.lib"
        settings = "-C opt-level=0 -C debuginfo=2 -C debug-assertions=on -C overflow-checks=on -C codegen-units=256 -C panic=unwind --check-cfg cfg(feature, values())"
        pairs = "CARGO cargo CARGO_CRATE_NAME m000 CARGO_MANIFEST_DIR /w/m000 CARGO_MANIFEST_PATH /w/m000/Cargo.toml CARGO_PKG_AUTHORS CARGO_PKG_DESCRIPTION CARGO_PKG_HOMEPAGE CARGO_PKG_LICENSE CARGO_PKG_LICENSE_FILE CARGO_PKG_NAME m000 CARGO_PKG_README CARGO_PKG_REPOSITORY CARGO_PKG_RUST_VERSION CARGO_PKG_VERSION 0.1.0 CARGO_PKG_VERSION_MAJOR 0 CARGO_PKG_VERSION_MINOR 1 CARGO_PKG_VERSION_PATCH 0 CARGO_PKG_VERSION_PRE"
        fixed = len((words + settings + pairs).replace(" ", "")) + len("mini 0.1.0 host: mini-unknown-none")
        for n in range(size):
            command = fixed + n * (len("-Ldependency=") + folder + folder)
            command += len("--externm000=") + folder + len("/libm000.rlib") if n else 0
            read = image if lines and n else 0
            image = len("mini lib m000\n") + (len("use m000\n") + image + 2 * lines * n if lines and n else 0)
            total += command + read
        return total

    return bytes_of


MANY, MORE, BYTES, WIDE = (250, 500, 1000), (2500, 5000, 10000), (262144, 524288, 1048576), (64, 128, 256)
KINDS = [
    ("builds", builds, MANY, None),
    ("builds, an edit before each", edited_builds, MANY, None),
    ("files outside the package", files_in("/other"), MORE, None),
    ("files of the package", files_in("/w/data"), MORE, None),
    ("files in the target folder", files_in("/w/target/other"), MORE, None),
    ("files in the output folder", files_in("/w/target/debug/a.target.lib"), MORE, None),
    ("variables", variables, MORE, None),
    ("manifest: a long description", description, BYTES, None),
    ("manifest: unknown keys", unknown_keys, BYTES, None),
    ("source: lines to print", source_of("print x\n"), MORE, None),
    ("source: warnings", source_of("warn w\n"), MORE, None),
    ("source: bytes of warnings", long_warnings, BYTES, None),
    ("script: lines that say things", said, MORE, None),
    ("packages side by side", side_by_side, WIDE, None),
    ("packages in a chain", chain_of(lambda n: ""), WIDE, chain_bytes(0)),
    ("packages in a chain, used", chain_of(lambda n: f"use m{n - 1:03}\n" if n else ""), WIDE, chain_bytes(1)),
    ("packages with scripts, twice", on_both_sides, (32, 64, 128), None),
    ("a library and binaries", binaries, (1023, 2047, 4095), None),
]


def run(session):
    """Runs a session, and gives its processor time in seconds."""
    with open(f"{folder}/written", "wb") as out:
        child = subprocess.Popen([program, "session", session], stdout=out)
        _, status, used = os.wait4(child.pid, 0)
        child.returncode = status
    if status:
        sys.exit(f"{session}: status {status}")
    with open(f"{folder}/written", "rb") as out:
        last = out.read().splitlines()[-1]
    if not last.startswith(b"ok started="):
        sys.exit(f"{session}: {last}")
    return used.ru_utime + used.ru_stime


def memory_of(session):
    """The greatest resident set of a run in MB, under a small process: it counts from the fork on."""
    words = ["/usr/bin/time", "-f", "%M", program, "session", session]
    said = subprocess.run(words, stdout=subprocess.DEVNULL, stderr=subprocess.PIPE, text=True, check=True).stderr
    return int(said.split()[-1]) / 1024


def counted(session):
    """The processor's instructions of a run, and those of the small compiler's answers, by valgrind."""
    words = ["valgrind", "--tool=callgrind", f"--callgrind-out-file={folder}/callgrind", program, "session", session]
    said = subprocess.run(words, stdout=subprocess.DEVNULL, stderr=subprocess.PIPE, text=True, check=True).stderr
    words = ["callgrind_annotate", "--inclusive=yes", "--threshold=100", f"{folder}/callgrind"]
    costs = subprocess.run(words, stdout=subprocess.PIPE, text=True, check=True).stdout
    answers = re.findall(r"^ *([\d,]+) .*:pb_mini::mini::answer\b", costs, re.M)
    mini = max((int(cost.replace(",", "")) for cost in answers), default=None)
    return int(re.search(r"Collected : (\d+)", said)[1]), mini


def exponent(now, before, of, of_before):
    if not (now and before and of and of_before and of != of_before):
        return f"{'':9}"
    return f"{math.log(now / before) / math.log(of / of_before):9.2f}"


valgrind = shutil.which("valgrind") and not os.environ.get("NO_COUNTS")
print(f"{'kind':30} {'size':>8} {'time':>9} {'memory':>8} {'count':>10} {'by size':>9} {'by bytes':>9} {'children':>9}")
for name, steps, full, bytes_of in KINDS:
    if wanted not in name:
        continue
    before = (None, None, None)
    for size in full if sizes == "full" else [max(size // 50, size // 16 % 32) for size in full]:
        session = f"{folder}/session.json"
        with open(session, "w") as it:
            json.dump(steps(size), it)
        time, memory = min(run(session) for _ in range(int(runs))), memory_of(session)
        count, mini = counted(session) if valgrind else (None, None)
        cost, read = count or time, bytes_of(size) if bytes_of else None
        line = f"{name:30} {size:8} {time * 1000:9.1f} {memory:8.1f}"
        line += f" {count / 1e6:10.1f}" if count else f"{'':11}"
        line += f" {exponent(cost, before[0], size, before[1])} {exponent(cost, before[0], read, before[2])}"
        line += f" {100 * mini / count:9.1f}" if mini else ""
        before = (cost, size, read)
        print(line.rstrip(), flush=True)
