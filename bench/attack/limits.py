import collections, json, os, random, re, subprocess, sys, tomllib

program, compiler, folder, only = sys.argv[1:]
r, wrong, tally = random.Random(1), [], collections.Counter()
PACKAGE = '[package]\nname = "a"\nversion = "0.1.0"\nedition = "2021"\n'


def put(path, text):
    os.makedirs(os.path.dirname(path), exist_ok=True)
    with open(path, "wb") as it:
        it.write(text if isinstance(text, bytes) else text.encode())


def run(words, limit=120, **more):
    environment = {"PATH": os.environ["PATH"]} | {name: value for name, value in more.items() if name != "cwd"}
    ran = subprocess.run([program] + words, env=environment, capture_output=True, timeout=limit, cwd=more.get("cwd", folder), stdin=subprocess.DEVNULL)
    if ran.returncode < 0 or (ran.returncode and not ran.stderr) or ran.returncode not in (0, 1, 101):
        wrong.append(f"{str(words)[:200]}: status {ran.returncode}, says {ran.stderr[-200:]!r}")
    return ran


def session(steps, limit=600):
    """The result lines of a session."""
    put(f"{folder}/session.json", json.dumps(steps))
    ran = run(["session", f"{folder}/session.json"], limit)
    if ran.returncode:
        wrong.append(f"a session: {ran.stderr[:200]!r}")
    return [line for line in ran.stdout.decode().splitlines() if not line.startswith("{")]


def expect(kind, name, came, holds):
    tally[kind] += 1
    if not holds:
        wrong.append(f"{kind}: {name[:300]!r}: {came!r}")


# Manifests.

WHOLE = PACKAGE + '''authors = ["I \\u0041", 'you']
description = """
many
lines"""
links = "l"
build = "build.rs"
rust-version = "1.70"
metadata = { x = 1979-05-27T07:32:00Z, y = [1, 2.5e3, 0xff, inf] } # a remark
[lib]
name = "a_b"
crate-type = ["lib"]
[[bin]]
name = "c"
path = "src/c.rs"
required-features = ["f"]
[dependencies]
b = { path = "b", optional = true, default-features = false, features = ["g"] }
d.path = "d"
[build-dependencies.b]
path = "b"
[features]
default = ["f"]
f = ["dep:b", "b?/g"]
[profile.dev]
opt-level = "s"
debug = false
[profile.dev.package."*"]
codegen-units = 1_6
[profile.fast]
inherits = "release"
panic = 'abort'
[workspace]
members = ["d"]
exclude = ["e"]
resolver = "2"
package.version = "1.2.3"
[workspace.dependencies]
b = { path = "b" }
'''
AROUND = [["/w/src/lib.rs", ""], ["/w/src/c.rs", ""], ["/w/build.rs", ""], ["/w/b/Cargo.toml", PACKAGE.replace('"a"', '"b"') + "[features]\ng = []\n"], ["/w/b/src/lib.rs", ""], ["/w/d/Cargo.toml", PACKAGE.replace('"a"', '"d"').replace('"0.1.0"', '{ workspace = true }')], ["/w/d/src/lib.rs", ""]]


def is_toml(text):
    try:
        tomllib.loads(text)
        return True
    except (tomllib.TOMLDecodeError, RecursionError):
        return False


def of_manifests(texts):
    steps = [{"write": it} for it in AROUND]
    for text in texts:
        steps += [{"write": ["/w/Cargo.toml", text]}, {"build": {}}]
    return session(steps)


def manifests():
    changed = [WHOLE[:at] + r.choice("[]{}=\"'\n#.,x0-\t\u00e9") + WHOLE[at + 1 :] for at in range(len(WHOLE)) for _ in range(2)]
    for kind, texts in (("manifests, each prefix", [WHOLE[:end] for end in range(len(WHOLE) + 1)]), ("manifests, each byte changed twice", changed)):
        for text, came in zip(texts, of_manifests(texts)):
            expect(kind, text[-60:], came, (came == "refused NotToml") == (not is_toml(text)))
    expect("manifests, whole", "", of_manifests([WHOLE]), of_manifests([WHOLE])[0].startswith("ok "))
    fills = {"a remark": ("#", "#", ""), "line feeds": ("", "\n", ""), "a text": ('description = "', "d", '"'), "an unknown key": ("", "k", " = 1")}
    for name, (head, fill, tail) in fills.items():
        for size, wanted in ((1048576, "ok "), (1048577, "refused TooLarge")):
            text = PACKAGE + head
            text += fill * (size - len(text) - len(tail)) + tail
            came = of_manifests([text])[0]
            expect("manifests at the limit", f"{name} {size}", came, came.startswith(wanted))


# Sessions.

def sessions():
    text = json.dumps([{"write": ["/w/Cargo.toml", PACKAGE + "\u00e9\U0001f600\\"]}, {"set": ["A", ""]}, {"unset": "A"}, {"remove": "/x"}, {"die": ["a.target.lib", "Died"]}, {"fuse": 18446744073709551615}, {"build": {"jobs": 0, "pick": "last", "features": ["f"], "workspace": True, "profile": "dev"}}], ensure_ascii=False).encode()
    for end in range(len(text)):
        put(f"{folder}/s.json", text[:end])
        ran = run(["session", f"{folder}/s.json"])
        expect("sessions, each prefix", text[:end].decode(errors="replace")[-60:], (ran.returncode, ran.stderr), (ran.returncode, ran.stdout, ran.stderr) == (1, b"", b"error: bad session\n"))
    put(f"{folder}/s.json", text)
    ran = run(["session", f"{folder}/s.json"])
    expect("sessions, whole", "", (ran.returncode, ran.stderr), ran.returncode == 0)
    for at in range(len(text)):
        put(f"{folder}/s.json", text[:at] + bytes([r.choice(b'[]{}",:0-x\\\xff\x00')]) + text[at + 1 :])
        run(["session", f"{folder}/s.json"])
        tally["sessions, each byte changed"] += 1
    for number, wanted in ((18446744073709551615, 0), (18446744073709551616, 1), (-1, 1), (1.0, 1), (True, 1)):
        for step in ({"fuse": number}, {"build": {"jobs": number}}):
            put(f"{folder}/s.json", json.dumps([step]))
            ran = run(["session", f"{folder}/s.json"])
            expect("numbers of sessions", json.dumps(step), ran.returncode, ran.returncode == wanted)


def long_sessions():
    for name, text in {"a long text": json.dumps([{"write": ["/w/x", "x" * 16777216]}, {"build": {}}]), "many steps": json.dumps([{"set": ["A", "b"]}] * 200000), "blanks": "[" + " " * 16777216 + "]"}.items():
        put(f"{folder}/s.json", text)
        ran = run(["session", f"{folder}/s.json"])
        expect("long sessions", name, ran.returncode, ran.returncode == 0)


# Directives, by the rules of The Cargo Book as docs/RULES.md has them.

def fault_of(line):
    line = line.strip(b" \t\r")
    try:
        line.decode()
    except UnicodeDecodeError:
        return None
    new, old = line.startswith(b"cargo::"), line.startswith(b"cargo:")
    if not old:
        return None
    key, equals, value = line[7 if new else 6 :].partition(b"=")
    if not equals:
        return "BadValue" if new else None
    FLAGS = [b"rustc-link-arg"] + [b"rustc-link-arg-" + it for it in (b"bins", b"cdylib", b"tests", b"examples", b"benches")]
    zero = b"\0" in value
    if key in (b"rerun-if-changed", b"rerun-if-env-changed"):
        return "BadValue" if not value or zero or (key.endswith(b"env-changed") and b"=" in value) else None
    if key in FLAGS:
        return "BadValue" if zero else None
    if key == b"rustc-link-arg-bin":
        return "BadValue" if zero or b"=" not in value else None
    if key in (b"rustc-link-lib", b"rustc-link-search", b"rustc-cfg", b"rustc-check-cfg"):
        return "BadValue" if not value or zero else None
    if key == b"rustc-flags":
        if zero:
            return "BadValue"
        words = [it for it in value.split(b" ") if it]
        while words:
            word = words.pop(0)
            if word in (b"-l", b"-L"):
                if not words:
                    return "BadFlag"
                words.pop(0)
            elif not word.startswith((b"-l", b"-L")):
                return "BadFlag"
        return None
    if key == b"rustc-env" or (key == b"metadata" and new):
        name, equals, _ = value.partition(b"=")
        return "BadValue" if not equals or not name or zero else None
    if key == b"warning" or (key == b"error" and new):
        return None
    if new:
        return "UnknownKey"
    return "BadValue" if not key or b"\0" in key or zero else None


LINES = [b"cargo::rerun-if-changed=x y", b"cargo:rerun-if-env-changed=V", b"cargo::rustc-link-arg=-s", b"cargo:rustc-link-arg-bins=", b"cargo::rustc-link-arg-bin=b=f", b"cargo::rustc-link-lib=z", b"cargo:rustc-link-search=native=/l", b"cargo::rustc-flags=-l a -lb -L c -Ld", b"cargo::rustc-cfg=c", b"cargo::rustc-check-cfg=cfg(c)", b"cargo::rustc-env=N=v=w", b"cargo::metadata=K=v", b"cargo:key=value", b"cargo::warning=w", b"\t cargo::rustc-cfg=\xc3\xa9 \r", b"no directive"]


def of_outputs(outputs):
    steps = [{"write": ["/w/Cargo.toml", PACKAGE]}, {"write": ["/w/src/lib.rs", ""]}]
    for output in outputs:
        text = "".join(f"print {line}\n" for line in output.decode().split("\n"))
        steps += [{"write": ["/w/build.rs", text]}, {"build": {}}]
    return session(steps)


def directives():
    whole = b"\n".join(LINES)
    prefixes = [whole[:end] for end in range(len(whole) + 1)]
    changed = [line[:at] + bytes([byte]) + line[at + 1 :] for line in LINES for at in range(len(line)) for byte in b"=: -x\t\0"]
    both = [it for it in prefixes + changed if not broken(it)]
    for output, came in zip(both, of_outputs(both)):
        faults = [it for it in map(fault_of, output.split(b"\n")) if it]
        holds = came.startswith(f"bad a.target.run Directive({faults[0]})") if faults else came.startswith("ok ")
        expect("directives, each prefix and change", output.decode()[-80:], came, holds)


def broken(text):
    try:
        text.decode()
        return False
    except UnicodeDecodeError:
        return True


# Dep-info, left by a compiler of the shell.

def dep_infos():
    work = f"{folder}/dep"
    put(f"{work}/Cargo.toml", PACKAGE)
    put(f"{work}/src/lib.rs", "")
    put(f"{folder}/leaves.sh", '#!/bin/sh\n[ "$1" = -vV ] && echo host: h && exit\ncat "$LEFT" > target/debug/a.target.lib/a.d\n')
    os.chmod(f"{folder}/leaves.sh", 0o755)
    whole = f"o: {work}/src/lib.rs a\\ b \\\\ c\n\no p:\n#\r\nx: y\r\n# env-dep:V=a\\nb\n# env-dep:W\n# env-dep:X=\nz:\n".encode()

    def is_wrong(text):
        for line in text.split(b"\n"):
            line = line.removesuffix(b"\r")
            if broken(line):
                return True
            if line.startswith(b"# env-dep:"):
                name = line[10:].partition(b"=")[0]
                if not name or b"\0" in name:
                    return True
            elif line and not line.startswith(b"#"):
                rule = re.search(rb":( |$)", line)
                if not rule or b"\0" in line[rule.end() :]:
                    return True
        return False

    texts = [whole[:end] for end in range(len(whole) + 1)] + [whole[:at] + bytes([r.choice(b":# \\x\0\xff\n")]) + whole[at + 1 :] for at in range(len(whole))]
    for text in texts:
        put(f"{folder}/left", text)
        ran = run(["build", "--manifest-path", f"{work}/Cargo.toml", "--target-dir", "target"], RUSTC=f"{folder}/leaves.sh", LEFT=f"{folder}/left")
        last = ran.stderr.decode().strip().splitlines()[-1:]
        none = last == ["error: bad a.target.lib NoDepInfo started=a.target.lib"]
        expect("dep-info, each prefix and change", text.decode(errors="replace")[-60:], (ran.returncode, last), none == is_wrong(text))
        subprocess.run(["rm", "-rf", f"{work}/target"])
    for size, good in ((4194304, True), (4194305, False)):
        for name, head, fill in (("remarks", b"", b"#"), ("one path", b"o: ", b"x"), ("paths", b"o:", b" x"), ("rules", b"", b"o:\n")):
            put(f"{folder}/left", (head + fill * size)[: size - 1] + b"\n")
            ran = run(["build", "--manifest-path", f"{work}/Cargo.toml"], RUSTC=f"{folder}/leaves.sh", LEFT=f"{folder}/left")
            last = ran.stderr.decode().strip().splitlines()[-1:]
            came = "NoDepInfo" in "".join(last)
            expect("dep-info at the limit", f"{name} {size}", (ran.returncode, str(last)[-200:]), came == (not good))
            subprocess.run(["rm", "-rf", f"{work}/target"])


# Streams.

def streams():
    for size, good in ((4194304, True), (4194305, False)):
        for name, line in (("nothing is said", "x"), ("a warning", "cargo::warning="), ("one condition", "cargo::rustc-cfg="), ("an old key", "cargo:k="), ("flags", "cargo::rustc-flags=" + ("-lx " * 1048570).rstrip())):
            line += "x" * (size - 1 - len(line))
            steps = [{"write": ["/w/Cargo.toml", PACKAGE]}, {"write": ["/w/src/lib.rs", ""]}, {"write": ["/w/build.rs", f"print {line}\n"]}, {"build": {}}, {"build": {}}]
            came = session(steps)
            holds = came[0].startswith("ok ") and came[1] == "ok started=-" if good else came[0].startswith("bad a.target.run OutputTooLong")
            expect("streams at the limit", f"{name} {size}", came, holds)


# Command lines.

def command_lines():
    words = ["build", "--manifest-path", "/nowhere/Cargo.toml", "-p", "a", "--package", "b", "--workspace", "-F", "f g,h", "--features", "i", "--all-features", "--no-default-features", "--lib", "--bins", "--bin", "c", "--profile", "fast", "--target-dir", "t", "--message-format", "json", "-j", "2", "--runner", "a b", "--explain"]
    lines = [words[:end] for end in range(len(words) + 1)]
    lines += [words[:at] + [words[at][:end]] for at in range(len(words)) for end in range(len(words[at]))]
    lines += [["session"], ["session", "/nowhere"], ["session", ""], [""], ["--"], ["build", "--"], ["build", "--", "x"]]
    lines += [["build", word] for word in ("--manifest-path=", "--jobs=", "-j", "-j0", "-j18446744073709551616", "--bin=", "--profile=", "-r=x", "-rF", "-Ff", "--all-features=yes", "\u00e9", "-\u00e9", "--" + "x" * 100000, "-" + "x" * 100000)]
    lines += [["build", "--manifest-path", "/" + "x/" * 60000 + "Cargo.toml"], ["build", "--manifest-path", "x" * 130000], ["build", "-F", "f," * 60000], ["build"] + ["-p", "x"] * 20000, ["build", "--runner", " " * 100000]]
    for line in lines:
        ran = run(line)
        expect("command lines", " ".join(line)[-80:], (ran.returncode, ran.stderr[-100:]), ran.returncode in (1, 101) or line in (["-h"], ["build", "-h"]))


# Depth.

def depths():
    for depth in (100, 10000, 520000):
        size = min(depth, (1048576 - len(PACKAGE) - 20) // 2)
        texts = {"arrays": PACKAGE + "x = " + "[" * size + "]" * size, "arrays that do not end": PACKAGE + "x = " + "[" * size, "inline tables": PACKAGE + "x = " + "{a=" * (size // 2) + "1" + "}" * (size // 2), "parts of a key": PACKAGE + "x" + ".a" * (size - 5) + " = 1", "parts of a table": PACKAGE + "[x" + ".a" * (size - 5) + "]", "parts of a table of tables": PACKAGE + "[[x" + ".a" * (size - 5) + "]]"}
        for name, text in texts.items():
            came = of_manifests([text])
            expect("depth of manifests", f"{name} {depth}", came, len(came) == 1 and came[0].split()[0] in ("ok", "refused"))
        inner = "[" * depth + "]" * depth
        for name, text in {"lists": inner, "lists in a step": '[{"build":{"x":' + inner + "}}]", "objects": '{"a":' * depth + "1" + "}" * depth, "lists that do not end": "[" * depth}.items():
            put(f"{folder}/s.json", text)
            ran = run(["session", f"{folder}/s.json"])
            expect("depth of sessions", f"{name} {depth}", ran.returncode, ran.returncode == 1)
        work = f"{folder}/deep"
        put(f"{work}/Cargo.toml", PACKAGE)
        put(f"{work}/src/lib.rs", "")
        put(f"{folder}/says.sh", '#!/bin/sh\n[ "$1" = -vV ] && echo host: h && exit\necho o: > target/debug/a.target.lib/a.d\ncat "$SAID" >&2\n')
        os.chmod(f"{folder}/says.sh", 0o755)
        for name, text in {"lists": '{"message":' + inner + "}", "objects": '{"a":' * depth + "1" + "}" * depth, "no end": '{"a":' * depth, "texts": '{"a":"' + "\\u0041" * depth + '"}'}.items():
            put(f"{folder}/said", text + "\n")
            ran = run(["build", "--manifest-path", f"{work}/Cargo.toml"], RUSTC=f"{folder}/says.sh", SAID=f"{folder}/said")
            expect("depth of diagnostics", f"{name} {depth}", (ran.returncode, ran.stderr[-200:]), ran.returncode == 0 or len(text) > 4194304)
            subprocess.run(["rm", "-rf", f"{work}/target"])
        path = "/w" + "/x" * min(depth, 60000)
        came = session([{"write": [f"{path}/Cargo.toml", PACKAGE]}, {"write": [f"{path}/src/lib.rs", ""]}, {"build": {"manifest": f"{path}/Cargo.toml"}}, {"remove": "/w"}])
        expect("depth of paths", str(depth), came, came == ["ok started=a.target.lib"])


for part in (manifests, sessions, long_sessions, directives, dep_infos, streams, command_lines, depths):
    if only in part.__name__:
        before, said = dict(tally), len(wrong)
        part()
        for kind, count in tally.items():
            if kind not in before:
                print(f"{kind:40} {count:6}", flush=True)
        for line in wrong[said : said + 20]:
            print("wrong:", line, flush=True)
print(f"{sum(tally.values())} texts, {len(wrong)} wrong")
sys.exit(min(len(wrong), 1))
