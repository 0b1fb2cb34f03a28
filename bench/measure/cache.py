import json, os, re, shutil, subprocess, sys, time

program, folder, top, packages, functions = sys.argv[1], sys.argv[2], sys.argv[3], int(sys.argv[4]), int(sys.argv[5])
LEFT_OUT = ("RUSTFLAGS", "RUSTC", "CARGO_TARGET_DIR")
PLAIN = {name: value for name, value in os.environ.items() if name not in LEFT_OUT}
CACHED = PLAIN | {"RUSTC": f"{top}/examples/rustc-sccache"}


def put(path, text):
    os.makedirs(os.path.dirname(path), exist_ok=True)
    with open(path, "w") as it:
        it.write(text)


def library(number):
    """A library of generic functions, all of which are used for one type."""
    text = "".join(
        f"pub fn f{it}<T: Clone + std::fmt::Debug>(all: &[T]) -> String {{\n"
        f"    let mut text = String::new();\n    for one in all.iter().cloned().skip({it} % 7) {{\n"
        f'        text.push_str(&format!("{{one:?}} {number} {it}"));\n    }}\n    text\n}}\n'
        for it in range(functions)
    )
    return text + "pub fn all() -> usize {\n    " + " + ".join(f"f{it}(&[{it}u64]).len()" for it in range(functions)) + "\n}\n"


def write_workspace(there):
    put(f"{there}/Cargo.toml", '[workspace]\nmembers = ["m*"]\nresolver = "2"\n')
    for number in range(packages):
        name, before = f"m{number:03}", f"m{number - 1:03}"
        needs = f'[dependencies]\n{before} = {{ path = "../{before}" }}\n' if number % 10 else ""
        put(f"{there}/{name}/Cargo.toml", f'[package]\nname = "{name}"\nversion = "0.1.0"\nedition = "2021"\n{needs}')
        put(f"{there}/{name}/src/lib.rs", library(number))
        if number % 10 == 9:
            put(f"{there}/{name}/src/main.rs", f'fn main() {{\n    println!("{{}}", {name}::all());\n}}\n')
        if number % 10 == 5:
            put(f"{there}/{name}/build.rs", 'fn main() {\n    println!("cargo::rerun-if-changed=build.rs");\n}\n')


def server(*words):
    return subprocess.run(["sccache", *words], capture_output=True, text=True, env=PLAIN)


def counts():
    """The hits and misses of the server so far."""
    stats = json.loads(server("--show-stats", "--stats-format", "json").stdout)["stats"]
    return [sum(stats[it]["counts"].values()) for it in ("cache_hits", "cache_misses")]


def build(there, target, environment, words=(), called=None):
    """The seconds of a build, its hits and misses, and its message lines."""
    before, begun = counts(), time.monotonic()
    ended = subprocess.run([called or program, "build", "--jobs", "default", "--target-dir", target, *words], cwd=there, env=environment, capture_output=True, text=True)
    seconds = time.monotonic() - begun
    if ended.returncode != 0:
        sys.exit(f"a build of {there} failed:\n{ended.stderr}")
    return seconds, [now - old for now, old in zip(counts(), before)], ended.stdout


def row(title, made, shown=True):
    hits = f"{made[1][0]}, {made[1][1]}" if shown else ""
    print(f"{title} | {made[0]:.1f} | {hits}", flush=True)


def settled(there, target, words=()):
    """A build right after must start nothing."""
    lines = build(there, target, CACHED, words)[2]
    if '"fresh":false' in lines:
        sys.exit("a build after hits started something")


server("--start-server")
here, target = f"{folder}/w", f"{folder}/w/target"
write_workspace(here)
print(f"{packages} packages, {os.cpu_count()} processors, {server('--version').stdout.strip()}, "
      f"{subprocess.run(['rustc', '--version'], capture_output=True, text=True).stdout.strip()}\n")
print("build | seconds | hits, misses\n---|---|---")
plain = build(here, target, PLAIN)
row("plain rustc", plain, False)
shutil.rmtree(target)
empty = build(here, target, CACHED)
row("empty cache", empty)
if empty[2] != plain[2]:
    sys.exit("the message lines differ with the cache")
row("another target folder, same workspace", build(here, f"{folder}/other", CACHED))
shutil.rmtree(target)
row("same target folder, removed first", build(here, target, CACHED))
settled(here, target)
shutil.rmtree(target)
shutil.copy(program, f"{folder}/pb_tool_again")
row("another program path (`CARGO` differs)", build(here, target, CACHED, called=f"{folder}/pb_tool_again"))
shutil.copytree(here, f"{folder}/copy", ignore=shutil.ignore_patterns("target"))
row("the workspace copied to another path", build(f"{folder}/copy", f"{folder}/copy/target", CACHED))
server("--stop-server")
shutil.copytree(os.environ["SCCACHE_DIR"], f"{folder}/store2")
os.environ["SCCACHE_DIR"] = PLAIN["SCCACHE_DIR"] = CACHED["SCCACHE_DIR"] = f"{folder}/store2"
server("--start-server")
shutil.rmtree(target)
row("the store copied to another folder with a new server, same paths", build(here, target, CACHED))
row("`--release`, first", build(here, target, CACHED, ["--release"]))
shutil.rmtree(target)
row("`--release`, again", build(here, target, CACHED, ["--release"]))
shutil.copytree(f"{top}/examples/workspace", f"{folder}/e", ignore=shutil.ignore_patterns("target"))
row("the examples' workspace, plain", build(f"{folder}/e", f"{folder}/e/target", PLAIN), False)
shutil.rmtree(f"{folder}/e/target")
row("the examples' workspace, first", build(f"{folder}/e", f"{folder}/e/target", CACHED))
shutil.rmtree(f"{folder}/e/target")
row("the examples' workspace, again", build(f"{folder}/e", f"{folder}/e/target", CACHED))
