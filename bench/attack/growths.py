import os, queue, re, shutil, subprocess, sys
from concurrent.futures import ThreadPoolExecutor

program, compiler, folder, every, workers, only = sys.argv[1:]
FAILED = b'{"reason":"build-finished","success":false}\n'
NOTES = (b"note: out of memory", b"note: there is no memory to describe the fault")
ERRORS = (b"error: fault memory OutOfMemory", b"error: the build failed; there is no memory to show the reason")
# The second of each is said if memory for the first is refused too. So the first pair comes first.
MEMORY = [note + b"\n" + error for note in NOTES for error in ERRORS]
# Before the program has read its words, there is no note.
EARLY = [*MEMORY, ERRORS[0]]
# What `--explain` says at its end, or where memory for it is refused.
EXPLAINED = re.compile(rb"(\d+ started, \d+ kept(, \d+ not reached)?|note: there is no memory to show the reasons)")


def manifest(name, more=""):
    return f'[package]\nname = "{name}"\nversion = "0.1.0"\nedition = "2021"\n{more}'


# The files of each workspace, and the edit: a file and what is in it then.
WORKSPACES = {
    "one_library": ({"Cargo.toml": manifest("a"), "src/lib.rs": ""}, ("src/lib.rs", "print x\n")),
    "features_on_two_sides": (
        {
            "Cargo.toml": manifest("r", '[dependencies]\nx = { path = "x", features = ["f"] }\n[build-dependencies]\nx = { path = "x", features = ["g"] }\n'),
            "src/lib.rs": "",
            "build.rs": "",
            "x/Cargo.toml": manifest("x", "[features]\nf = []\ng = []\n"),
            "x/src/lib.rs": "",
            "x/build.rs": "",
        },
        ("x/src/lib.rs", "print x\n"),
    ),
    "edits_between_builds_of_members": (
        {
            "Cargo.toml": '[workspace]\nmembers = ["a", "b"]\n',
            "a/Cargo.toml": manifest("a"),
            "a/src/lib.rs": "",
            "b/Cargo.toml": manifest("b", '[dependencies]\na = { path = "../a" }\n'),
            "b/src/lib.rs": "use a\n",
        },
        ("a/src/lib.rs", "print y\n"),
    ),
}


def put(path, text):
    os.makedirs(os.path.dirname(path), exist_ok=True)
    with open(path, "w") as it:
        it.write(text)


def built(work, more=(), options=()):
    """A build of the workspace in a folder: its status, its lines and those on standard error."""
    words = [program, "build", "--manifest-path", f"{work}/Cargo.toml", "--runner", f"{compiler} --run", *options]
    said = {"PATH": os.environ["PATH"], "RUSTC": compiler, **dict(more)}
    ran = subprocess.run(words, env=said, stdin=subprocess.DEVNULL, capture_output=True, timeout=120)
    lines = ran.stdout.replace(work.encode(), b"/w").splitlines(keepends=True)
    return ran.returncode, lines, ran.stderr.rstrip(b"\n").split(b"\n")


def alike(lines):
    return [line.replace(b'"fresh":true', b'"fresh":false') for line in lines]


def made_in(work):
    """The files of each unit's folder."""
    found = {}
    for above, _, names in os.walk(f"{work}/target"):
        for name in names:
            path = f"{above}/{name}"
            # (a build goes on without its tag; a folder that has files gets none later)
            if not name.endswith(".record") and name != "CACHEDIR.TAG":
                with open(path, "rb") as it:
                    found[os.path.relpath(path, work)] = it.read().replace(work.encode(), b"/w")
    return found


def again(work, before):
    """The target folder as it was before the build."""
    shutil.rmtree(f"{work}/target", ignore_errors=True)
    if before:
        shutil.copytree(before, f"{work}/target")


def wrong_in(work, before, number, on, options, right, clean, files):
    """What is wrong where this allocation is refused, or nothing; and what came."""
    again(work, before)
    more = {"LD_PRELOAD": f"{folder}/failing.so", "FAILING_ALLOCATION": str(number), **({"FROM_THEN_ON": "1"} if on else {})}
    status, lines, said = built(work, more, options)
    last = b"\n".join(said[-2:])
    # (without a plan there is nothing to explain: only the finish line comes)
    if options and lines not in ([], [FAILED]) and not any(EXPLAINED.fullmatch(line) for line in said):
        return f"allocation {number}: status {status}, explains nothing: {said!r}"[:900], "wrong"
    if (status, lines) == (0, right):
        came = "right"
    elif status == 101 and last in EARLY and (on or last in (MEMORY[0], ERRORS[0])) and not lines:
        came = "before"
    elif status == 101 and last in MEMORY[: 4 if on else 1] and lines[-1] == FAILED and lines[:-1] == right[: len(lines) - 1] and len(lines) <= len(right):
        came = "memory"
    else:
        return f"allocation {number}: status {status}, says {said!r}, writes {lines!r}"[:900], "wrong"
    status, lines, said = built(work)
    if status or alike(lines) != clean or made_in(work) != files:
        return f"the build after allocation {number}: status {status}, says {said!r}, writes {lines!r}"[:900], "wrong"
    status, lines, said = built(work)
    if status or any(b'"fresh":false' in line for line in lines) or alike(lines) != clean:
        return f"the third build after allocation {number}: status {status}, says {said!r}, writes {lines!r}"[:900], "wrong"
    return "", came


def case(name, edited, on, options=()):
    files, edit = WORKSPACES[name]
    free = queue.Queue()
    for number in range(int(workers)):
        work = f"{folder}/{name}/{number}"
        shutil.rmtree(work, ignore_errors=True)
        for path, text in files.items():
            put(f"{work}/{path}", text)
        if edited:
            status, _, said = built(work)
            assert status == 0, said
            shutil.copytree(f"{work}/target", f"{work}.before")
            put(f"{work}/{edit[0]}", edit[1])
        free.put(work)
    work = f"{folder}/{name}/0"
    before = lambda it: f"{it}.before" if edited else None
    again(work, None)
    status, clean, said = built(work)
    assert status == 0, said
    clean, whole = alike(clean), made_in(work)
    again(work, before(work))
    status, right, said = built(work, {"LD_PRELOAD": f"{folder}/failing.so", "ALLOCATIONS_FILE": f"{folder}/count"}, options)
    assert status == 0 and alike(right) == clean, said
    with open(f"{folder}/count") as it:
        count = int(it.read())

    def tried(number):
        mine = free.get()
        try:
            return wrong_in(mine, before(mine), number, on, options, right, clean, whole)
        finally:
            free.put(mine)

    with ThreadPoolExecutor(int(workers)) as pool:
        found = list(pool.map(tried, range(1, count + 2, int(every))))
    of = {kind: sum(it[1] == kind for it in found) for kind in ("right", "memory", "before", "wrong")}
    how = ", ".join(["after an edit" if edited else "from nothing", *options, *(["all that follow too"] if on else [])])
    print(f"| {name}, {how} | {count} | {len(found)} | {of['memory']} | {of['before']} | {of['right']} | {of['wrong']} |", flush=True)
    for words in [it[0] for it in found if it[0]][:3]:
        print(words, flush=True)
    for number in range(int(workers)):
        shutil.rmtree(f"{folder}/{name}/{number}.before", ignore_errors=True)
    return of["wrong"]


print("| workspace | allocations | tried | memory | before | right | wrong |\n|---|---|---|---|---|---|---|")
HOW = [(edited, on) for edited in (False, True) for on in (False, True)] + [(True, on, ["--explain"]) for on in (False, True)]
bad = sum(case(name, *how) for name in WORKSPACES if only in name for how in HOW)
print(f"{bad} outcomes were wrong")
sys.exit(min(bad, 1))
