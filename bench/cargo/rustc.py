import collections, json, os, re, shutil, subprocess, sys, time

program, folder, parts = sys.argv[1:]
workspace = f"{folder}/workspace"
cargo = shutil.which("cargo")

OPTIONS = [
    [],
    ["--release"],
    ["--all-features"],
    ["--profile", "small", "--all-features"],
    ["--features", "almanac/mean", "--bins"],
    ["-p", "almanac", "--features", "mean", "--bin", "mean-distance"],
    ["-p", "planets", "--no-default-features", "--lib"],
    ["-p", "stats", "-p", "math-sys", "--release"],
]
LEFT_OUT = ("RUSTFLAGS", "CARGO_TARGET_DIR", "CARGO_BUILD_TARGET_DIR", "CARGO_ENCODED_RUSTFLAGS")
ENVIRONMENT = {name: value for name, value in os.environ.items() if name not in LEFT_OUT} | {"RUSTC": "rustc"}

Built = collections.namedtuple("Built", "status clock processor messages said")


def build(words, target, more={}):
    """Runs a builder, and gives its status, its times, its messages and what it said on standard error."""
    command = words + ["--manifest-path", f"{workspace}/Cargo.toml", "--target-dir", target, "--message-format", "json"]
    start = time.perf_counter()
    with open(f"{folder}/out", "wb") as out, open(f"{folder}/err", "wb") as err:
        child = subprocess.Popen(command, stdout=out, stderr=err, env=ENVIRONMENT | more)
        _, status, used = os.wait4(child.pid, 0)
        child.returncode = os.waitstatus_to_exitcode(status)
    clock = time.perf_counter() - start
    with open(f"{folder}/out") as out, open(f"{folder}/err") as err:
        messages = [json.loads(line) for line in out]
        return Built(child.returncode, clock, used.ru_utime + used.ru_stime, messages, err.read())


def spoken(message):
    """What a message says that does not hang on the builder: no name of an output folder, no time, no unknown key."""
    reason = message["reason"]
    if reason == "build-finished":
        return message
    kept = {"reason": reason, "package_id": message["package_id"]}
    if reason == "build-script-executed":
        kept |= {key: message[key] for key in ("linked_libs", "linked_paths", "cfgs", "env")}
        return json.loads(json.dumps(kept).replace(message["out_dir"], "OUT_DIR"))
    if reason == "build-script-note":
        return kept | message
    kept["target"] = {key: value for key, value in message["target"].items() if key not in ("doc", "doctest", "test")}
    if reason == "compiler-message":
        return kept | {key: message["message"][key] for key in ("level", "message")}
    kept |= {key: message[key] for key in ("manifest_path", "profile", "features")}
    return kept | {"is a program": message["executable"] is not None}


def is_sum(message):
    """Whether the compiler sums up: cargo leaves these lines out, pb_tool hands them on."""
    return message["reason"] == "compiler-message" and re.match(r"\d+ warnings? emitted|aborting due to ", message["message"]["message"])


def counted(built):
    return collections.Counter(json.dumps(spoken(message), sort_keys=True) for message in built.messages if not is_sum(message))


def differences(ours, theirs):
    """What one of two builds said and the other did not, a line each."""
    lines = [f"status {ours.status} of pb_tool, {theirs.status} of cargo"] if ours.status != theirs.status else []
    for name, one, other in (("pb_tool", ours, theirs), ("cargo", theirs, ours)):
        only = counted(one) - counted(other)
        lines += [f"only {name}, {count} times: {text}" for text, count in sorted(only.items())]
    return lines


def times(built):
    return f"{built.clock:9.2f} {built.processor:9.2f}"


def explained(built, words):
    return f"{' '.join(words)}: status {built.status}\n{built.said}"


# The edits, each with options and variables for the builds after it. What is not undone stays for those that follow.


def text_of(path):
    with open(f"{workspace}/{path}") as it:
        return it.read()


def put(path, text):
    os.makedirs(os.path.dirname(f"{workspace}/{path}"), exist_ok=True)
    with open(f"{workspace}/{path}", "w") as it:
        it.write(text)


def add(path, text):
    return lambda: put(path, text_of(path) + text)


def replace(path, old, new):
    def edit():
        text = text_of(path)
        if old not in text:
            sys.exit(f"{path} does not have {old!r}")
        put(path, text.replace(old, new))

    return edit


def remove(path):
    return lambda: os.remove(f"{workspace}/{path}")


def nothing():
    pass


def new_member():
    put("packages/extra/Cargo.toml", '[package]\nname = "extra"\nversion = "0.1.0"\nedition = "2021"\n[dependencies]\ntext = { workspace = true }\n')
    put("packages/extra/src/lib.rs", "pub use text;\n")


Edit = collections.namedtuple("Edit", "name change options variables", defaults=([], {}))
P = "packages"
MEAN, FLAGS, NAMED = ["--features", "almanac/mean"], {"RUSTFLAGS": "--cfg outer"}, {"NAMED_BY_A_SCRIPT": "one"}
EDITS = [
    Edit("nothing", nothing),
    Edit("a source", add(f"{P}/stats/src/lib.rs", "pub fn more() {}\n")),
    Edit("a comment in a source that both sides use", add(f"{P}/text/src/lib.rs", "// words\n")),
    Edit("a warning in a source", add(f"{P}/stats/src/lib.rs", "fn unused() {}\n")),
    Edit("nothing, the warning again", nothing),
    Edit("a source of the topmost", add(f"{P}/almanac/src/main.rs", "// words\n")),
    Edit("a source, written again as it is", add(f"{P}/text/src/lib.rs", "")),
    Edit("a file that a script names", add(f"{P}/planets/planets.txt", "Ceres 4.6\n")),
    Edit("a file that no one names", lambda: put(f"{P}/planets/notes.txt", "words\n")),
    Edit("a script", replace(f"{P}/math-sys/build.rs", "fn main() {\n", 'fn main() {\n    println!("cargo::rerun-if-env-changed=NAMED_BY_A_SCRIPT");\n')),
    Edit("a variable that a script names", nothing, [], NAMED),
    Edit("a variable that no one names", nothing, [], NAMED | {"NAMED_BY_NO_ONE": "one"}),
    Edit("RUSTFLAGS", nothing, [], NAMED | FLAGS),
    Edit("RUSTFLAGS taken away", nothing, [], NAMED),
    Edit("a feature, asked for", nothing, MEAN, NAMED),
    Edit("the feature no longer asked for", nothing, [], NAMED),
    Edit("a key of the profile", add("Cargo.toml", "[profile.dev]\noverflow-checks = false\n"), [], NAMED),
    Edit("a key of the profile for one package", replace("Cargo.toml", "opt-level = 2", "opt-level = 1"), [], NAMED),
    Edit("another profile", nothing, ["--release"], NAMED),
    Edit("a new binary", lambda: put(f"{P}/almanac/src/bin/new.rs", "fn main() {}\n"), [], NAMED),
    Edit("a binary removed", remove(f"{P}/almanac/src/bin/new.rs"), [], NAMED),
    Edit("a description that a member inherits", replace("Cargo.toml", "An example of", "One example of"), [], NAMED),
    Edit("the version of a package", replace(f"{P}/math-sys/Cargo.toml", "1.0.2", "1.0.3"), [], NAMED),
    Edit("a feature that a package has, not asked for", replace(f"{P}/text/Cargo.toml", "title = []\n", "title = []\nother = []\n"), [], NAMED),
    Edit("a member that is new", new_member, [], NAMED),
    Edit("a source removed and another in its place", lambda: (remove(f"{P}/extra/src/lib.rs")(), put(f"{P}/extra/src/lib.rs", "pub fn other() {}\n")), [], NAMED),
]

# What the rules of the two builders want otherwise: for an edit the units that pb_tool alone builds again, those that
# cargo alone does, and why.
EACH = ["almanac bin-almanac", "almanac lib", "math-sys lib", "math-sys run", "math-sys script", "planets lib", "planets run", "planets script"]
ABOVE_TEXT = ["almanac bin-almanac", "almanac lib", "planets lib", "planets run", "planets script"]
WANTED = {
    "a source, written again as it is": ([], ABOVE_TEXT + ["text lib, 2 times"], "pb_tool compares what a file holds, cargo the time of its last change"),
    "RUSTFLAGS taken away": (EACH + ["stats lib", "text lib, 2 times"], [], "cargo keeps what it built with other flags beside it; a unit of pb_tool has one folder and one record"),
    "the feature no longer asked for": (["almanac bin-almanac", "almanac lib"], [], "the same: cargo keeps a unit for each set of features, pb_tool one"),
    "a description that a member inherits": (ABOVE_TEXT, [], "CARGO_PKG_DESCRIPTION is a variable of each command of a package, used or not; cargo looks whether a source reads it"),
}


def unit_of(message):
    """The unit of a message, without its side: both builders may have it once for each."""
    kind, name = message["target"]["kind"][0], message["target"]["name"]
    package = re.match(r".*?([^/#@]+)(?:#(?:([^@]*)@)?[^@]*)?$", message["package_id"])
    what = {"custom-build": "script", "bin": f"bin-{name}"}.get(kind, "lib")
    return f"{package[2] or package[1]} {what}"


def records(target):
    """The records of pb_tool by their keys, each with what tells whether it was written anew."""
    found = {}
    for above, _, names in os.walk(target):
        for name in filter(lambda it: it.endswith(".record"), names):
            seen = os.stat(f"{above}/{name}")
            found[f"{above}/{name}"] = (seen.st_mtime_ns, seen.st_ino, seen.st_size)
    return found


def ours_again(options, more, target):
    before = records(target)
    built = build([program, "build"] + options, target, more)
    after = records(target)
    keys = (re.fullmatch(r"(.*)\.(?:host|target)\.(.*)\.record", os.path.basename(path)) for path, seen in after.items() if before.get(path) != seen)
    return built, collections.Counter(f"{key[1]} {key[2]}" for key in keys)


def theirs_again(options, more, target):
    built = build([cargo, "build", "--offline", "-v"] + options, target, more)
    again = collections.Counter(unit_of(it) for it in built.messages if it.get("fresh") is False)
    again.update(f"{name} run" for name in re.findall(r"^ *Running `.*/build/([\w-]+)-[0-9a-f]{16}/build-script-build`$", built.said, re.M))
    return built, again


def texts(counter):
    return [f"{key}{f', {count} times' if count > 1 else ''}" for key, count in sorted(counter.items())]


def edits():
    """Builds after each edit. How many are not as they should be."""
    bad, ours, theirs = 0, f"{folder}/ours", f"{folder}/theirs"
    build([program, "build"], ours)
    build([cargo, "build", "--offline"], theirs)
    print(f"\n{'edit':48} units that both build again; those of one alone")
    for edit in EDITS:
        time.sleep(0.02)
        edit.change()
        our_build, our_units = ours_again(edit.options, edit.variables, ours)
        their_build, their_units = theirs_again(edit.options, edit.variables, theirs)
        only_ours, only_theirs = our_units - their_units, their_units - our_units
        print(f"{edit.name:48} {', '.join(texts(our_units & their_units)) or '-'}", flush=True)
        for name, only in (("pb_tool", only_ours), ("cargo", only_theirs)):
            if only:
                print(f"{'':48} {name} alone: {', '.join(texts(only))}")
        wanted_ours, wanted_theirs, why = WANTED.get(edit.name, ([], [], ""))
        if texts(only_ours) != wanted_ours or texts(only_theirs) != wanted_theirs:
            bad += 1
            print(f"    These are not the units that the list of wanted differences has: {wanted_ours}, {wanted_theirs}")
        elif why:
            print(f"{'':48} {why}")
        for line in differences(our_build, their_build):
            bad += 1
            print(f"    {line}")
    return bad


bad = 0
ours = build([program, "build"], f"{folder}/alone")
if ours.status:
    sys.exit(explained(ours, [program, "build"]))
binaries = [message["executable"] for message in ours.messages if message.get("executable")]
printed = "".join(subprocess.run([it], capture_output=True, text=True, check=True).stdout for it in binaries)
with open(f"{workspace}/almanac.txt") as wanted:
    if printed == wanted.read():
        print(f"{len(binaries)} binary was built and ran; it prints what almanac.txt says.")
    else:
        bad += 1
        print(f"The {len(binaries)} binaries do not print what almanac.txt says:\n{printed}")
if not cargo:
    print("There is no cargo on this machine: nothing was compared with it.")
    sys.exit(min(bad, 1))

if "options" in parts:
    print(f"\n{'':64} {'pb_tool':>19} {'cargo':>19}\n{'options':50} {'build':13} " + f"{'clock':>9} {'processor':>9} " * 2)
stale = 0
for number, options in enumerate(OPTIONS if "options" in parts else []):
    our_target, their_target = f"{folder}/ours{number}", f"{folder}/theirs{number}"
    for which in ("from nothing", "again"):
        ours = build([program, "build"] + options, our_target)
        theirs = build([cargo, "build", "--offline"] + options, their_target)
        print(f"{' '.join(options) or 'none':50} {which:13} {times(ours)} {times(theirs)}", flush=True)
        found = differences(ours, theirs)
        bad += len(found)
        for line in found:
            print(f"    {line}")
        if ours.status:
            print(explained(ours, [program, "build"] + options))
    stale += any(message.get("fresh") is False for message in ours.messages)
if stale:
    bad += 1
    print(f"\nIn {stale} of the {len(OPTIONS)} second builds pb_tool compiled again.")
if "edits" in parts:
    bad += edits()
print(f"\n{bad} differences" if bad else "\nBoth say the same, and build the same again but for the differences that are wanted.")
sys.exit(min(bad, 1))
