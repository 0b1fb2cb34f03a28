import collections, json, os, shutil, subprocess, sys

program, folder = sys.argv[1:]
workspace = f"{folder}/workspace"
NUMBER, TEXT, TRUTH = "number", "text", "truth"

# A kind is a name above, a list of one kind, a tuple of kinds (a list of just these), a set of texts, a table of fields, or
# a function that has its own say. A field whose name ends with `?` may be absent; one whose kind is `maybe` may be null.


def maybe(kind):
    return lambda value, path: [] if value is None else faults(kind, value, path)


def debuginfo(value, path):
    """0, 1, 2, or the names of the two forms with lines alone; null counts as none."""
    known = value is None or value in (0, 1, 2) and value is not True and value is not False or value in ("line-directives-only", "line-tables-only")
    return [] if known else [f"{path}: {value!r} is no debuginfo"]


def diagnostic(value, path):
    return faults(DIAGNOSTIC, value, path)


def span(value, path):
    return faults(SPAN, value, path)


SPAN = {
    "file_name": TEXT, "byte_start": NUMBER, "byte_end": NUMBER, "line_start": NUMBER, "line_end": NUMBER,
    "column_start": NUMBER, "column_end": NUMBER, "is_primary": TRUTH,
    "text": [{"text": TEXT, "highlight_start": NUMBER, "highlight_end": NUMBER}],
    "label?": maybe(TEXT), "suggested_replacement?": maybe(TEXT),
    "suggestion_applicability?": maybe({"MachineApplicable", "HasPlaceholders", "MaybeIncorrect", "Unspecified"}),
    "expansion?": maybe({"span": span, "macro_decl_name": TEXT, "def_site_span?": maybe(span)}),
}
DIAGNOSTIC = {
    "message": TEXT, "code?": maybe({"code": TEXT, "explanation?": maybe(TEXT)}),
    "level": {"error: internal compiler error", "error", "warning", "failure-note", "note", "help"},
    "spans": [span], "children": [diagnostic], "rendered?": maybe(TEXT),
}
TARGET = {
    "name": TEXT, "kind": [TEXT], "crate_types?": [TEXT], "required-features?": [TEXT], "src_path": TEXT,
    "edition?": {"2015", "2018", "2021", "2024"}, "doctest?": TRUTH, "test?": TRUTH, "doc?": TRUTH,
}
PROFILE = {"opt_level": TEXT, "debuginfo?": debuginfo, "debug_assertions": TRUTH, "overflow_checks": TRUTH, "test": TRUTH}
FIELDS = {
    "compiler-artifact": {
        "package_id": TEXT, "manifest_path?": TEXT, "target": TARGET, "profile": PROFILE, "features": [TEXT],
        "filenames": [TEXT], "executable?": maybe(TEXT), "fresh": TRUTH,
    },
    "compiler-message": {"package_id": TEXT, "target": TARGET, "message": DIAGNOSTIC},
    "build-script-executed": {
        "package_id": TEXT, "linked_libs": [TEXT], "linked_paths": [TEXT], "cfgs": [TEXT], "env": [(TEXT, TEXT)], "out_dir?": TEXT,
    },
    "build-finished": {"success": TRUTH},
}
more = collections.Counter()


def fields(table, value, path):
    if not isinstance(value, dict):
        return [f"{path}: {value!r} has no fields"]
    found, names = [], {name.rstrip("?"): kind for name, kind in table.items()}
    for name, kind in table.items():
        if name.rstrip("?") in value:
            found += faults(kind, value[name.rstrip("?")], f"{path}.{name.rstrip('?')}")
        elif not name.endswith("?"):
            found.append(f"{path}.{name}: is absent")
    more.update(f"{path}.{name}" for name in value if name not in names and name != "reason")
    return found


def faults(kind, value, path):
    """What of a value is not of a kind, a line each."""
    if callable(kind):
        return kind(value, path)
    if isinstance(kind, dict):
        return fields(kind, value, path)
    if isinstance(kind, list):
        return [it for one in value for it in faults(kind[0], one, f"{path}[]")] if isinstance(value, list) else [f"{path}: {value!r} is no list"]
    if isinstance(kind, tuple):
        if not isinstance(value, list) or len(value) != len(kind):
            return [f"{path}: {value!r} is no list of {len(kind)}"]
        return [it for one, of in zip(value, kind) for it in faults(of, one, f"{path}[]")]
    if isinstance(kind, set):
        return [] if isinstance(value, str) and value in kind else [f"{path}: {value!r} is none of {sorted(kind)}"]
    right = {TEXT: isinstance(value, str), TRUTH: isinstance(value, bool), NUMBER: isinstance(value, int) and not isinstance(value, bool) and value >= 0}
    return [] if right[kind] else [f"{path}: {value!r} is no {kind}"]


def looked_at(name, words, seen):
    """Builds, and looks at each line."""
    left_out = ("RUSTFLAGS", "CARGO_TARGET_DIR", "CARGO_ENCODED_RUSTFLAGS")
    environment = {key: value for key, value in os.environ.items() if key not in left_out} | {"RUSTC": "rustc"}
    words = words + ["--manifest-path", f"{workspace}/Cargo.toml", "--target-dir", f"{folder}/{name}", "--message-format", "json"]
    printed = subprocess.run(words, stdout=subprocess.PIPE, stderr=subprocess.DEVNULL, text=True, env=environment).stdout
    found = []
    for line in printed.splitlines():
        value = json.loads(line)
        reason = value.get("reason")
        seen[name, reason] += 1
        found += faults(FIELDS[reason], value, reason) if reason in FIELDS else []
    return found


def edit(path, text):
    with open(f"{workspace}/{path}", "a") as it:
        it.write(text)


wrong, seen = collections.Counter(), collections.Counter()
builders = {"pb_tool": [program, "build"]} | ({"cargo": [shutil.which("cargo"), "build", "--offline"]} if shutil.which("cargo") else {})
EDITS = [
    ("", ""),
    ("packages/math-sys/build.rs", "// words\n"),
    ("packages/stats/src/lib.rs", "fn unused() { let x = 1; }\nmacro_rules! m { () => { fn made_by_a_macro() {} } }\nm!();\n"),
    ("packages/planets/build.rs", '#[allow(dead_code)]\nfn other() { println!("cargo::warning=words"); }\n'),
    ("packages/stats/src/lib.rs", "fn bad() -> u8 { missing }\nfn worse() -> u8 { \"text\" }\n"),
]
for path, text in EDITS:
    if path:
        edit(path, text)
    for options in ([], [], ["--release"], ["--profile", "small", "--all-features"], ["--features", "almanac/mean", "--bins"]):
        for name, words in builders.items():
            wrong.update(f"{name}: {fault}" for fault in looked_at(name, words + options, seen))
for (name, reason), count in sorted(seen.items()):
    print(f"{name:8} {reason:24} {count:5} lines{'' if reason in FIELDS else ', which those types do not have'}")
for path, count in sorted(more.items()):
    print(f"beside the table: {path}, {count} times")
for fault, count in wrong.items():
    print(f"{fault} ({count} times)")
print(f"{sum(wrong.values())} fields are not as they are to be")
sys.exit(1 if wrong else 0)
