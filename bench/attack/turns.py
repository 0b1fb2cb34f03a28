import collections, json, multiprocessing, os, re, subprocess, sys

program, folder, top, sessions, seed, workers, only = sys.argv[1:]
sys.dont_write_bytecode = True
sys.path.insert(0, f"{top}/bench/attack")
from made_sessions import TOPS, session_of

# What a session says, and what is wrong with it.

Build = collections.namedtuple("Build", "lines result")
State = collections.namedtuple("State", "files variables options at pending touched")


class Refused(Exception):
    pass


def run(steps, name):
    path = f"{folder}/{os.getpid()}.{name}.json"
    with open(path, "w") as it:
        json.dump(steps, it)
    ran = subprocess.run([program, "session", path], capture_output=True, text=True, timeout=600)
    if ran.returncode or ran.stderr:
        raise Refused(f"status {ran.returncode}, {ran.stderr[:300]!r}")
    lines = ran.stdout.splitlines()
    messages = [line for line in lines if line.startswith("{")]
    results = lines[len(messages) :]
    groups, group = [], []
    for line in messages:
        group.append(line)
        if line.startswith('{"reason":"build-finished"'):
            groups.append(group)
            group = []
    left = iter(groups)
    builds = [Build([] if result.startswith("refused ") else next(left, []), result) for result in results]
    if group or next(left, None) or len(builds) != sum("build" in step for step in steps):
        raise Refused("other builds than steps")
    return builds


def plain(lines):
    return [re.sub(r'"fresh":(true|false)}$', '"fresh":_}', line) for line in lines]


def started(build):
    _, mark, keys = build.result.partition(" started=")
    return [] if keys in ("", "-") else keys.split(",")


def verdict(build):
    return build.result.partition(" started=")[0]


def folders(build):
    """The folders of the units that a build tells of."""
    found = []
    for line in map(json.loads, build.lines):
        if line["reason"] == "compiler-artifact":
            found.append(os.path.dirname(line["filenames"][0]))
        if line["reason"] == "build-script-executed":
            found.append(line["out_dir"])
    return found


def below(path, top):
    return path == top or path.startswith(f"{top}/")


def states(steps):
    """What each build of a session finds: the files outside the target folders, and the variables."""
    files, variables, dies, touched, found = {}, {}, [], False, []
    for at, step in enumerate(steps):
        (verb, value), = step.items()
        if verb == "write" and not below(value[0], "/w/target"):
            files[value[0]] = value[1]
        if verb == "remove":
            touched |= below(value, "/w/target")
            files = {path: text for path, text in files.items() if not below(path, value)}
        if verb == "set":
            variables[value[0]] = value[1]
        if verb == "unset":
            variables.pop(value, None)
        if verb == "die":
            dies.append(tuple(value))
        if verb == "build":
            found.append(State(dict(files), dict(variables), value, at, list(dies), touched))
            touched = False
    return found


def alone(options):
    return {key: value for key, value in options.items() if key not in ("jobs", "pick")}


def counts(state):
    """What of a state counts: the files that are named by no one and the variables of that kind do not."""
    files = {path: text for path, text in state.files.items() if not below(path, "/neutral")}
    return files, {name: value for name, value in state.variables.items() if name != "NEUTRAL"}, alone(state.options)


def from_nothing(found):
    """For each build the same one in a place with the same files and variables, and no target folder."""
    steps, variables = [], set()
    for state in found:
        steps += [{"remove": top} for top in TOPS + ["/x.txt"]] + [{"unset": name} for name in sorted(variables)]
        steps += [{"write": [path, text]} for path, text in state.files.items()]
        steps += [{"set": [name, value]} for name, value in state.variables.items()]
        variables |= set(state.variables)
        steps.append({"build": alone(state.options)})
    return run(steps, "from_nothing")


PROBE = {"build": {"manifest": "/v/Cargo.toml"}}


def probe(state, places):
    """Steps that build a package whose script names these folders, in a target folder of its own."""
    again = [{"set": ["CARGO_TARGET_DIR", state.variables["CARGO_TARGET_DIR"]]}] if "CARGO_TARGET_DIR" in state.variables else []
    script = "".join(f"print cargo::rerun-if-changed={place}\n" for place in places)
    text = '[package]\nname = "probe"\nversion = "0.1.0"\nedition = "2021"\n'
    files = [{"write": ["/v/Cargo.toml", text]}, {"write": ["/v/src/lib.rs", ""]}, {"write": ["/v/build.rs", script]}]
    return files + [{"unset": "CARGO_TARGET_DIR"}, PROBE] + again


def files_differ(steps, state, wanted):
    """What is wrong with the files of a build, beside those of the same build after its target folder was taken away."""
    places = folders(wanted)
    looked = probe(state, places)
    target = state.variables.get("CARGO_TARGET_DIR") or f'{os.path.dirname(state.options.get("manifest", "/w/Cargo.toml"))}/target'
    more = looked + [{"remove": target}, {"build": state.options}] + looked
    *_, first, again, second = run(steps[: state.at + 1] + more, "files")
    if not first.result.startswith("ok ") or plain(again.lines) != plain(wanted.lines):
        return [f"files: a build after its target folder was taken away says {again.result!r}, the look {first.result!r}"]
    return [] if second.result == "ok started=-" else [f"files: the folders differ from those of a build from nothing: {second.result!r}"]


def wrong(steps, tally=None):
    """What is wrong with a session."""
    tally = collections.Counter() if tally is None else tally
    found = states(steps)
    try:
        builds, wanted = run(steps, "main"), from_nothing(found)
        said, last, consumed = [], None, []
        for number, (state, build, want) in enumerate(zip(found, builds, wanted)):
            kind = build.result.split()[0]
            tally["builds"] += 1
            tally[kind] += 1
            tally["several jobs"] += state.options.get("jobs", 1) > 1
            tally["children"] += len(started(build))
            if want.result.startswith("fault"):
                said.append(f"build {number}: from nothing {want.result!r}")
            if kind == "fault":
                consumed += [tuple(build.result.split()[1:3])]
                head = plain(build.lines[:-1])
                if build.lines[-1:] != ['{"reason":"build-finished","success":false}'] or head != plain(want.lines[:-1])[: len(head)]:
                    said.append(f"build {number}: prefix: {build.result!r}, from nothing {want.result!r}")
                last = None
                continue
            if plain(build.lines) != plain(want.lines) or verdict(build) != verdict(want):
                only = [line for line in plain(build.lines) if line not in plain(want.lines)] + [line for line in plain(want.lines) if line not in plain(build.lines)]
                said.append(f"build {number}: lines: {build.result!r}, from nothing {want.result!r}; {only[:2]}")
            fresh = {folders(Build([line], ""))[0].rpartition("/")[2]: line.endswith('"fresh":true}') for line in build.lines if '"reason":"compiler-artifact"' in line}
            tally["reused"] += sum(fresh.values())
            begun = set(started(build))
            if any((key in begun) == is_fresh for key, is_fresh in fresh.items()):
                said.append(f"build {number}: fresh: {build.result!r}")
            if last and last == counts(state) and not state.touched:
                tally["with nothing to do"] += 1
                if started(build):
                    said.append(f"build {number}: nothing has changed, and {build.result!r}")
            last = counts(state) if kind == "ok" else None
            pending = [it for it in state.pending if it not in consumed]
            if kind in ("ok", "bad") and folders(want) and not pending:
                tally["files looked at"] += 1
                tally["folders looked at"] += len(folders(want))
                said += [f"build {number}: {it}" for it in files_differ(steps, state, want)]
        return said
    except (Refused, subprocess.TimeoutExpired) as it:
        return [f"no session: {it}"]


def smaller(steps):
    """The session made small: while it stays wrong, steps are left out, and then lines of files."""
    kind = wrong(steps)[0].split(":")[1:2]

    def is_wrong(some):
        return any("build" in step for step in some) and [it.split(":")[1:2] for it in wrong(some)][:1] == [kind]

    size = max(len(steps) // 2, 1)
    while size:
        at = 0
        while at < len(steps):
            without = steps[:at] + steps[at + size :]
            if is_wrong(without):
                steps = without
            else:
                at += size
        size //= 2
    for at, step in enumerate(steps):
        if "write" not in step:
            continue
        lines, line = step["write"][1].splitlines(keepends=True), 0
        while line < len(lines):
            rest = lines[:line] + lines[line + 1 :]
            without = steps[:at] + [{"write": [step["write"][0], "".join(rest)]}] + steps[at + 1 :]
            if is_wrong(without):
                steps, lines, step = without, rest, without[at]
            else:
                line += 1
    return steps


def tried(number):
    tally = collections.Counter(sessions=1)
    steps = session_of(number)
    for step in steps:
        tally[f"step {next(iter(step))}"] += 1
    said = wrong(steps, tally)
    return number, said, tally, smaller(steps) if said and number < int(seed) + int(sessions) else []


def looks_are_sharp():
    """A look at folders sees a difference where there is one, and none where there is none; and where a file of a unit goes
    away behind its record, which the promise leaves out, the next build is seen to be wrong."""
    text = '[package]\nname = "a"\nversion = "0.1.0"\nedition = "2021"\n'
    state = State({}, {}, {}, 0, [], False)
    start = [{"write": ["/w/Cargo.toml", text]}, {"write": ["/w/src/lib.rs", "print x\n"]}, {"build": {}}]
    look = probe(state, ["/w/target/debug/a.target.lib"])
    same = run(start + look + [{"remove": "/w/target"}, {"build": {}}] + look, "same")
    other = run(start + look + [{"write": ["/w/src/lib.rs", "print y\n"]}, {"build": {}}] + look, "other")
    behind = wrong(start + [{"remove": "/w/target/debug/a.target.lib/liba.rlib"}, {"build": {}}])
    return same[-1].result == "ok started=-" and "probe.target.run" in started(other[-1]) and len(behind) == 1 and "folders differ" in behind[0]


def main():
    if only:
        steps = session_of(int(only))
        print(json.dumps(steps, indent=1), *wrong(steps), sep="\n")
        return
    if not looks_are_sharp():
        sys.exit("the look at folders does not see what it is to see")
    tally, bad = collections.Counter(), 0
    with multiprocessing.Pool(int(workers)) as pool:
        for number, said, part, small in pool.imap_unordered(tried, range(int(seed), int(seed) + int(sessions)), 8):
            tally += part
            if said:
                bad += 1
                print(f"session {number}:", *said, json.dumps(small), sep="\n  ", flush=True)
    for name in sorted(tally):
        print(f"{name:24} {tally[name]:10}")
    print(f"{bad} sessions are wrong")
    sys.exit(min(bad, 1))


main()
