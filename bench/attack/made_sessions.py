"""Makes up sessions over the whole language of sessions: `session_of(number)` gives the steps of the session of this number,
the same ones each time. A session writes a workspace of up to eight packages, or with PACKAGES=N in the environment of nine to N (30 at
most), and then edits, builds, and prepares failures in turn. Most builds are to end well, so what is refused or bad is rare in each edit. Used by `turns.sh`."""

import copy, os, random

MOST = int(os.environ.get("PACKAGES", "8"))
NAMES = ["a", "b", "c-c", "d_d", "e", "f", "g-g", "h", *[f"n-{number}" if number % 3 else f"m_{number}" for number in range(8, 30)]][:MOST]
VARIABLES = ["V0", "V1", "V2", "V3"]
KINDS = ["CannotStart", "Died", "Capture"]
PROFILES = ["dev"] * 6 + ["release"] * 3 + ["fast"] * 3 + ["test", "bench"]
TOPS = ["/w", "/x", "/other", "/neutral", "/t2", "/v"]


# The workspace of a session, as values, and its files.


def extern(entry):
    return (entry["key"] if entry["key"] != entry["of"] else entry["lib"] or entry["of"]).replace("-", "_")


def quoted(texts):
    return "[" + ", ".join(f'"{text}"' for text in texts) + "]"


def named(model, name):
    """The package of this name, or one that has nothing."""
    return next((it for it in model["packages"] if it["name"] == name), {"folder": "/w/none", "features": {}, "files": {}})


def entry_text(entry, model, package):
    of = named(model, entry["of"])
    features = [it for it in entry["features"] if it in of["features"]]
    more = f", features = {quoted(features)}" if features else ""
    more += ", optional = true" if entry["optional"] else ""
    if entry["inherited"] and package["folder"].startswith("/w"):
        return f'{entry["key"]} = {{ workspace = true{more} }}\n'
    more += "" if entry["defaults"] else ", default-features = false"
    more += f', package = "{entry["of"]}"' if entry["key"] != entry["of"] else ""
    more += f', version = "{entry["version"]}"' if entry["version"] else ""
    return f'{entry["key"]} = {{ path = "{os.path.relpath(of["folder"], package["folder"])}"{more} }}\n'


def items_text(items, model, package):
    """The items of a feature that mean something now; an optional entry by `dep:` where the package writes it so."""
    entries, kept = {it["key"]: it for it in package["entries"]}, []
    for item in items:
        key, _, feature = item.partition("/")
        entry = entries.get(key.rstrip("?"))
        if feature and entry and feature in named(model, entry["of"])["features"] and (entry["optional"] or "?" not in key):
            kept.append(item)
        elif not feature and item in package["features"]:
            kept.append(item)
        elif not feature and entry and entry["optional"]:
            kept.append(f"dep:{item}" if package["dep"] else item)
    return quoted(kept)


def manifest_of(package, model):
    inherits = package["inherits"] and package["folder"].startswith("/w")
    text = f'[package]\nname = "{package["name"]}"\nedition = "{package["edition"]}"\n'
    text += "version.workspace = true\n" if inherits else f'version = "{package["version"]}"\n'
    text += "".join(f'{key} = "{package[key]}"\n' for key in ("description", "links") if package[key])
    text += package["more"]
    if package["lib"] and ("src/lib.rs" in package["files"] or "kept" in package):
        text += f'[lib]\nname = "{package["lib"]}"\n'
    for name, features in package["required"].items():
        text += "" if f"src/bin/{name}.rs" not in package["files"] else f'[[bin]]\nname = "{name}"\nrequired-features = {quoted(features)}\n'
    text += "[features]\n" + "".join(f"{name} = {items_text(items, model, package)}\n" for name, items in package["features"].items())
    for kind, head in (("normal", "dependencies"), ("build", "build-dependencies")):
        entries = [it for it in package["entries"] if it["kind"] == kind]
        text += f"[{head}]\n" + "".join(entry_text(it, model, package) for it in entries)
    return text


def root_text(model):
    inside = [it for it in model["packages"] if it["folder"].startswith("/w/")]
    text = f"[workspace]\nmembers = {quoted(it['folder'][3:] for it in inside) if model['listed'] else quoted(['p*'])}\n"
    text += f"exclude = {quoted(model['excluded'])}\n" if model["excluded"] else ""
    text += f'[workspace.package]\nversion = "{model["inherited"]}"\n' if model["inherited"] else ""
    text += "[workspace.dependencies]\n"
    for it in model["packages"]:
        text += f'{it["name"]} = {{ path = "{os.path.relpath(it["folder"], "/w")}" }}\n'
    for name, keys in model["profiles"].items():
        text += f"[profile.{name}]\n" + "".join(f"{key} = {value}\n" for key, value in keys.items())
    return text


def files_of(model):
    files = {path: "".join(f"{line}\n" for line in lines) for path, lines in model["others"].items()}
    root = root_text(model)
    for package in model["packages"]:
        own = manifest_of(package, model)
        files[f'{package["folder"]}/Cargo.toml'] = own + root if package["folder"] == "/w" else own
        for path, lines in package["files"].items():
            if path.startswith("data/") and "data" in package["files"]:
                continue
            files[f'{package["folder"]}/{path}'] = "".join(f"{line}\n" for line in lines)
    files.setdefault("/w/Cargo.toml", root)
    return files


# What a session is made of.


def conditions(r, package):
    return [f'feature="{it}"' for it in package["features"]] + ["c0", "c1", "c2"]


def source_line(r, package, script):
    has_script = "build.rs" in package["files"] and not script
    made = [it.split()[1] for it in package["files"].get("build.rs", []) if it.startswith("put ") and not script]
    files = [f"$CARGO_MANIFEST_DIR/{it}" for it in ("data.txt", "data/x.txt") if it in package["files"]] + ["/other/x.txt", "/other/y.txt"]
    files += [f"$OUT_DIR/{it}" for it in made] * 2 + (["part.rs"] if "src/part.rs" in package["files"] and not script else [])
    told = VARIABLES + ["CARGO_PKG_VERSION", "CARGO_PKG_DESCRIPTION", "CARGO_PKG_NAME"] + (["SHOW_V0", "READ", "E0", "OUT_DIR"] if has_script else [])
    pool = [
        lambda: f"env {r.choice(told)}",
        lambda: f"include {r.choice(files)}",
        lambda: f"include {r.choice(files)}",
        lambda: f"when {r.choice(conditions(r, package))} {r.choice(['warn seen', 'print seen', 'env V3', 'include /other/y.txt'])}",
        lambda: r.choice(["warn one", "warn two", "print one", "print two", "# words", ""]),
    ]
    if r.random() < 0.006:
        return r.choice(["fail no", "nonsense", "use nothing", "include /absent", "include $V1/x.txt", 'when feature="x0" fail no'])
    return r.choice(pool)()


def script_line(r, model, package):
    named = ["data.txt", "data", "data/x.txt", "build.rs", "absent.txt", "/other/x.txt", "/other", "src", "Cargo.toml"]
    links = [it["links"] for it in model["packages"] if it["links"]] or ["none"]
    pool = [
        lambda: f"print cargo::rerun-if-changed={r.choice(named)}",
        lambda: f"print cargo::rerun-if-changed={r.choice(named)}",
        lambda: f"print cargo::rerun-if-env-changed={r.choice(VARIABLES)}",
        lambda: f"show {r.choice(VARIABLES)}",
        lambda: f"show DEP_{r.choice(links).upper().replace('-', '_')}_KEY",
        lambda: f"read {r.choice(['data.txt', 'data/x.txt', '/other/x.txt', 'absent.txt'])}",
        lambda: f"put {r.choice(['made.txt', 'made.txt', 'other.txt'])} {r.choice(['one', 'two'])}",
        lambda: f"print cargo::rustc-cfg={r.choice(['c0', 'c1'])}",
        lambda: f"print cargo::rustc-env=E0={r.choice('xy')}",
        lambda: r.choice(["print cargo::metadata=key=", "print cargo:key="]) + r.choice("mn"),
        lambda: r.choice(["print cargo::rustc-link-lib=z", "print cargo::rustc-link-search=/l", "print cargo::rustc-flags=-l y -L /m"]),
        lambda: r.choice(["print cargo::rustc-link-arg=-x", "print cargo::rustc-link-arg-bins=-y", "print cargo::rustc-check-cfg=cfg(c0)"]),
        lambda: f"print cargo::warning={r.choice(['one', 'two'])}",
        lambda: f"when {r.choice(conditions(r, package))} {r.choice(['put made.txt three', 'show V2', 'print cargo::warning=w', 'print cargo::rustc-cfg=c2'])}",
    ]
    if r.random() < 0.006:
        return r.choice(["exit 3", "print cargo::error=e", "print cargo::nope=1", "print cargo::rerun-if-changed=/w/target/none", "exit 0"])
    return r.choice(pool)()


def uses(r, model, package, script):
    lines = []
    for entry in package["entries"]:
        there = "src/lib.rs" in named(model, entry["of"])["files"]
        if (entry["kind"] == "build") == script and there and r.random() < 0.6:
            lines.append(f'when feature="{entry["key"]}" use {extern(entry)}' if entry["optional"] else f"use {extern(entry)}")
    return lines


def new_source(r, model, package, path):
    if path == "build.rs":
        compiled = uses(r, model, package, True) + [source_line(r, package, True) for _ in range(r.choice([0, 0, 1, 2]))]
        return compiled + [script_line(r, model, package) for _ in range(r.choice([0, 1, 2, 3, 4, 5]))]
    own = [f'use {(package["lib"] or package["name"]).replace("-", "_")}'] if "src/lib.rs" in package["files"] and path != "src/lib.rs" else []
    return own + uses(r, model, package, False) + [source_line(r, package, False) for _ in range(r.choice([0, 1, 1, 2, 3]))]


def new_entry(r, model, of, kind=None):
    entry = {"of": of["name"], "lib": of["lib"], "kind": kind or r.choice(["normal", "normal", "normal", "build"]), "version": r.choice(["", "", "0.1"])}
    entry["key"] = r.choice([of["name"], of["name"], of["name"], f'r{of["name"]}'])
    entry |= {"optional": r.random() < 0.2, "defaults": r.random() < 0.8, "inherited": entry["key"] == of["name"] and r.random() < 0.2}
    entry["features"] = [name for name in of["features"] if r.random() < 0.3]
    return entry


def new_package(r, model, name, folder):
    package = {"name": name, "folder": folder, "edition": r.choice(["2018", "2021"]), "version": "0.1.0", "description": "", "links": "", "more": ""}
    package |= {"inherits": r.random() < 0.3, "lib": r.choice(["", "", "", f"l_{name[0]}"]), "features": {}, "required": {}, "entries": [], "files": {}, "dep": r.random() < 0.3}
    for of in model["packages"]:
        if r.random() < 0.45:
            package["entries"].append(new_entry(r, model, of))
            if r.random() < 0.15:
                package["entries"].append(new_entry(r, model, of, "build"))
    once = {(it["kind"], it["key"]): it for it in package["entries"]}
    package["entries"] = list(once.values())
    for number in range(r.choice([0, 0, 1, 2, 3])):
        package["features"][f"x{number}"] = new_items(r, package)
    if package["features"] and r.random() < 0.4:
        package["features"]["default"] = [next(iter(package["features"]))]
    kinds = r.random()
    if kinds < 0.85:
        package["files"]["src/lib.rs"] = []
    if kinds > 0.7:
        package["files"]["src/main.rs"] = []
    if r.random() < 0.15:
        package["files"]["src/bin/go.rs"] = []
    if r.random() < 0.5:
        package["files"]["build.rs"] = []
        package["links"] = f"l-{name[0]}" if r.random() < 0.4 else ""
    for path in ("data.txt", "data/x.txt", "src/part.rs"):
        if r.random() < 0.6:
            package["files"][path] = [r.choice(["one", "two"])]
    for path in ("build.rs", "src/lib.rs", "src/main.rs", "src/bin/go.rs"):
        if path in package["files"]:
            package["files"][path] = new_source(r, model, package, path)
    return package


def new_items(r, package):
    pool = [it for it in package["features"]]
    for entry in package["entries"]:
        mark = r.choice(["/", "?/"]) if entry["optional"] else "/"
        pool += [f'{entry["key"]}{mark}{name}' for name in entry["features"]]
        pool += [entry["key"]] if entry["optional"] else []
    return [it for it in pool if r.random() < 0.4]


def new_model(r):
    model = {"packages": [], "listed": r.random() < 0.3, "excluded": [], "inherited": "0.1.0", "profiles": {"fast": {"inherits": '"release"'}}, "others": {"/other/x.txt": ["one"], "/other/y.txt": ["one"]}}
    count = r.choice([1, 2, 2, 3, 3, 4, 5, 6, 7, 8]) if MOST <= 8 else r.randint(9, MOST)
    root = r.randrange(count) if r.random() < 0.5 else -1
    for number in range(count):
        there = "/w" if number == root else f"/x/p{number}" if r.random() < 0.1 else f"/w/p{number}"
        model["packages"].append(new_package(r, model, NAMES[number], there))
    return model


# Edits: each changes the model, or gives steps of its own.


def edit_source(r, model):
    package = r.choice(model["packages"])
    paths = [it for it in package["files"] if it.endswith(".rs")]
    if paths:
        path = r.choice(paths)
        lines = package["files"][path]
        line = script_line(r, model, package) if path == "build.rs" and r.random() < 0.7 else source_line(r, package, path == "build.rs")
        at = r.randrange(len(lines) + 1)
        lines[at : at + r.choice([0, 0, 1])] = [line] if r.random() < 0.75 else []
        if r.random() < 0.1:
            package["files"][path] = new_source(r, model, package, path)


def edit_data(r, model):
    if r.random() < 0.3:
        model["others"][r.choice(["/other/x.txt", "/other/y.txt", "/x.txt"])] = [r.choice(["one", "two", "three"])]
        return
    package = r.choice(model["packages"])
    if r.random() < 0.1:
        package["files"].pop("data") if "data" in package["files"] else package["files"].update({"data": ["one"]})
        return
    path = r.choice(["data.txt", "data/x.txt", "data/y.txt", "data/deep/z.txt", "absent.txt", "src/part.rs", "notes.txt", "README.md"])
    package["files"][path] = [r.choice(["one", "two", "three", "print four"])] * r.choice([1, 1, 2])


def edit_removal(r, model):
    package = r.choice(model["packages"])
    paths = [it for it in package["files"] if r.random() < 0.5 or not it.startswith("src/lib")]
    if paths:
        path = r.choice(paths)
        package["kept"] = {path: package["files"].pop(path)}


def edit_return(r, model):
    for package in model["packages"]:
        package["files"] |= package.pop("kept", {})


def edit_binary(r, model):
    package = r.choice(model["packages"])
    path = r.choice(["src/main.rs", "src/bin/go.rs", "src/bin/to-day.rs"])
    if path in package["files"]:
        package["files"].pop(path)
    else:
        package["files"][path] = []
        package["files"][path] = new_source(r, model, package, path)
    if r.random() < 0.2 and package["features"]:
        package["required"] = {"go": [r.choice(list(package["features"]))]} if not package["required"] else {}


def drop_uses(package, entry):
    for path, lines in package["files"].items():
        package["files"][path] = [it for it in lines if not it.endswith(f"use {extern(entry)}")]


def edit_manifest(r, model):
    package = r.choice(model["packages"])
    which = r.choice(["feature", "entry", "entry", "version", "description", "edition", "lib", "links", "more", "inherits", "script"])
    if which == "feature":
        name = r.choice(["x0", "x1", "x2", "default"])
        package["features"].pop(name, None) if name in package["features"] and r.random() < 0.4 else package["features"].update({name: new_items(r, package)})
    elif which == "entry" and package["entries"]:
        entry = r.choice(package["entries"])
        key = r.choice(["optional", "defaults", "features", "gone"])
        if key == "features":
            entry["features"] = [name for name in named(model, entry["of"])["features"] if r.random() < 0.4]
        elif key == "gone":
            package["entries"].remove(entry)
            drop_uses(package, entry)
        else:
            entry[key] = not entry[key]
    elif which == "entry":
        before = model["packages"][: model["packages"].index(package)] or model["packages"]
        package["entries"].append(new_entry(r, model, r.choice(before if r.random() < 0.97 else model["packages"])))
        package["entries"] = list({(it["kind"], it["key"]): it for it in package["entries"]}.values())
    elif which == "version":
        package["version"] = r.choice(["0.1.0", "0.1.1", "0.1.2-pre", "0.2.0"])
        model["inherited"] = r.choice(["0.1.0", "0.1.5", model["inherited"]])
    elif which == "edition":
        package["edition"] = r.choice(["2018", "2021", "2024"])
    elif which == "description":
        package["description"] = r.choice(["", "one", "two"])
    elif which == "lib":
        package["lib"] = r.choice(["", f'l_{package["name"][0]}'])
        for it in (entry for other in model["packages"] for entry in other["entries"] if entry["of"] == package["name"]):
            it["lib"] = package["lib"]
    elif which == "links" and "build.rs" in package["files"]:
        package["links"] = "" if package["links"] else f'l-{package["name"][0]}'
    elif which == "more":
        package["more"] = r.choice(["", 'license = "MIT"\n', 'rust-version = "1.70"\n', "build = false\n" if not package["links"] else "", "autobins = false\n", 'authors = ["I", "you"]\n'])
    elif which == "inherits":
        package["inherits"] = not package["inherits"]
    elif which == "script":
        package["files"]["build.rs"] = new_source(r, model, package, "build.rs")


def edit_profile(r, model):
    name = r.choice(["dev", "release", "fast", "dev.build-override", 'fast.package."*"', f'dev.package.{r.choice(model["packages"])["name"]}'])
    keys = {"opt-level": r.choice(["0", "1", '"s"', "3"]), "debug": r.choice(["true", "false", "1"]), "overflow-checks": r.choice(["true", "false"]), "codegen-units": r.choice(["1", "16"])}
    table = model["profiles"].setdefault(name, {})
    key = r.choice(list(keys))
    table.pop(key) if key in table and r.random() < 0.4 else table.update({key: keys[key]})


def edit_packages(r, model):
    if r.random() < 0.5 and len(model["packages"]) > 1:
        gone = r.choice(model["packages"])
        model["packages"].remove(gone)
        if r.random() < 0.85:
            for package in model["packages"]:
                for entry in [it for it in package["entries"] if it["of"] == gone["name"]]:
                    package["entries"].remove(entry)
                    drop_uses(package, entry)
    elif len(model["packages"]) < MOST:
        name = next(it for it in NAMES if it not in [package["name"] for package in model["packages"]])
        model["packages"].append(new_package(r, model, name, f"/w/p{NAMES.index(name)}" if r.random() < 0.9 else f"/x/p{NAMES.index(name)}"))
    elif r.random() < 0.3:
        model["excluded"] = [] if model["excluded"] else ["p1"]


def edit_places(r, model):
    """A package goes to another folder, or two packages have their files the other way round."""
    package, other = r.choice(model["packages"]), r.choice(model["packages"])
    if r.random() < 0.5 and package["folder"] != "/w":
        package["folder"] = package["folder"][:-1] if package["folder"].endswith("b") else package["folder"] + "b"
    elif package is not other:
        package["files"], other["files"] = other["files"], package["files"]


EDITS = [edit_source] * 9 + [edit_data] * 5 + [edit_removal] * 2 + [edit_return] * 3 + [edit_binary] * 2 + [edit_manifest] * 6 + [edit_profile] * 2 + [edit_packages] * 2 + [edit_places]


def own_steps(r, paths, moves):
    """An edit that is a step of its own: a variable, the target folder, a file that stays as it is, one that no one names."""
    which = r.random()
    if which < 0.5:
        name = r.choice(VARIABLES * 2 + ["E0", "READ", "OUT_DIR", "CARGO_PKG_NAME"])
        return [{"set": [name, r.choice(["", "a", "b", "/other"])]}] if r.random() < 0.75 else [{"unset": name}]
    if which < 0.6:
        return [{"set": ["RUSTFLAGS", r.choice(["", "--cfg c1", "--cfg c2  --cfg c0", "-C opt-level=1"])]}] if r.random() < 0.7 else [{"unset": "RUSTFLAGS"}]
    if which < 0.63:
        return [{"set": ["RUSTC", r.choice(["mini", "rustc", ""])]}]
    if which < 0.7 and moves:
        return [{"set": ["CARGO_TARGET_DIR", r.choice(["/t2", "/t2", ""])]}] if r.random() < 0.6 else [{"unset": "CARGO_TARGET_DIR"}]
    if which < 0.73:
        return [{"remove": r.choice(["/w/target", "/w/target/debug"])}]
    if which < 0.78:
        return [{"remove": f"/w/target/{r.choice(['debug', 'release', 'fast'])}/{r.choice(NAMES)}.{r.choice(['host', 'target'])}.{r.choice(['lib', 'script', 'run'])}.record"}]
    if which < 0.85:
        return [{"write": ["/neutral/file", str(r.random())]}, {"set": ["NEUTRAL", str(r.random())]}]
    path = r.choice(sorted(paths))
    return [{"write": [path, paths[path]]}]


def new_options(r, model):
    options = {}
    names = [it["name"] for it in model["packages"] if it["folder"].startswith("/w") or r.random() < 0.05] or ["a"]
    if r.random() < 0.3:
        options["packages"] = r.sample(names, min(len(names), r.choice([1, 1, 2])))
    if r.random() < 0.35:
        options["workspace"] = True
    if r.random() < 0.25:
        owners = [it for it in model["packages"] if it["features"] and it["folder"].startswith("/w")]
        if owners:
            owner = r.choice(owners)
            name = r.choice(list(owner["features"]))
            options |= {"features": [r.choice([name, f'{owner["name"]}/{name}'])], "workspace": r.random() < 0.8}
    for key in ("all_features", "no_default_features"):
        if r.random() < 0.12:
            options[key] = True
    if r.random() < 0.5:
        options["profile"] = r.choice(PROFILES)
    for key in ("lib", "bins"):
        if r.random() < 0.05:
            options[key] = True
    if r.random() < 0.04:
        options["manifest"] = f'{r.choice(model["packages"])["folder"]}/Cargo.toml'
    if r.random() < 0.05:
        options["bin"] = [r.choice(["go"] + names)]
    return options


def scheduled(r, options):
    more = {"jobs": r.choice([1, 2, 3, 4])} if r.random() < 0.7 else {}
    return {"build": options | more | ({"pick": r.choice(["first", "last"])} if r.random() < 0.5 else {})}


def session_of(number):
    r = random.Random(number)
    model = new_model(r)
    files, steps, dead, models = {}, [], set(), []
    options, moves = new_options(r, model) if r.random() < 0.6 else {}, r.random() < 0.3

    def written():
        nonlocal files
        now = files_of(model)
        changed = [{"remove": path} for path in files if path not in now]
        changed += [{"write": [path, text]} for path, text in now.items() if files.get(path) != text]
        r.shuffle(changed)
        files = now
        return changed

    steps += written()
    for _ in range(r.choice([2, 3, 4, 5, 6, 7, 8])):
        if r.random() < 0.06 and not dead:
            key = f'{r.choice(model["packages"])["name"]}.{r.choice(["target", "target", "host"])}.{r.choice(["lib", "lib", "script", "run"])}'
            dead.add(key)
            steps.append({"die": [key, r.choice(KINDS)]})
        if r.random() < 0.08:
            steps.append({"fuse": int(2 ** r.uniform(0, 8))})
        steps.append(scheduled(r, options))
        if r.random() < 0.25:
            if r.random() < 0.3:
                steps += [{"write": ["/neutral/file", "x"]}]
            steps.append(scheduled(r, options))
        models.append(copy.deepcopy(model))
        for _ in range(r.choice([0, 1, 1, 1, 2, 3])):
            if r.random() < 0.25:
                steps += own_steps(r, files, moves)
            elif r.random() < 0.1:
                model = copy.deepcopy(r.choice(models))
            else:
                r.choice(EDITS)(r, model)
            if model["packages"]:
                steps += written()
        if r.random() < 0.3:
            options = new_options(r, model)
        elif r.random() < 0.2:
            options = {key: value for key, value in options.items() if key != "profile"} | {"profile": r.choice(PROFILES)}
    return steps
