#!/usr/bin/env python3
"""Workspaces that are made up, built by `pb_tool` and by `cargo`: see `random.sh`, which calls this."""
import collections, json, os, random, shutil, subprocess, sys

program, room, first, last = sys.argv[1], sys.argv[2], int(sys.argv[3]), int(sys.argv[4])
LEFT_OUT = ("RUSTFLAGS", "CARGO_TARGET_DIR", "CARGO_BUILD_TARGET_DIR", "CARGO_ENCODED_RUSTFLAGS")
ENVIRONMENT = {name: value for name, value in os.environ.items() if name not in LEFT_OUT} | {"RUSTC": "rustc", "CARGO_INCREMENTAL": "0", "CARGO_NET_OFFLINE": "true"}
HOST = next(line[6:] for line in subprocess.run(["rustc", "-vV"], capture_output=True, text=True, check=True).stdout.split("\n") if line.startswith("host: "))
NAMES = ["ash", "birch-tree", "cedar", "dog_wood", "elm", "fir-x", "gum"]
FEATURES = ["one", "two", "three", "four"]
# What a package says of itself, and what its workspace has to give.
ABOUT = {"description": "A tree, \"green\".", "homepage": "https://tree.example", "license": "MIT", "repository": "https://tree.example/git", "rust-version": "1.90"}
# The variables that a compile may read, and those that a script is told beside them; not the folder of its own files, which
# differs, nor flags and debug information, of which cargo under `--target` tells scripts for the host nothing.
COMPILED = [f"CARGO_PKG_{it}" for it in "NAME VERSION VERSION_MAJOR VERSION_MINOR VERSION_PATCH VERSION_PRE AUTHORS DESCRIPTION HOMEPAGE LICENSE LICENSE_FILE README REPOSITORY RUST_VERSION".split()] + ["CARGO_MANIFEST_DIR", "CARGO_MANIFEST_PATH", "CARGO_CRATE_NAME", "CARGO_BIN_NAME"]
TOLD = ["CARGO_MANIFEST_LINKS", "CARGO_MANIFEST_DIR", "CARGO_MANIFEST_PATH", "OPT_LEVEL", "PROFILE", "TARGET", "HOST"]


def chance(dice, of):
    return dice.random() < of


def crate(name):
    return name.replace("-", "_")


# A workspace is a table of packages by name; a package has its entries, features, targets and what its script says.


def entries_of(dice, own, lower):
    """The dependencies of a package on packages below it: at most one entry for each and each table, under one name."""
    made = []
    for name in lower:
        key, optional = name if chance(dice, 0.8) else f"{name}-again", chance(dice, 0.3)
        for table in ("dependencies", "build-dependencies"):
            if chance(dice, 0.45 if table == "dependencies" else 0.2 if own["script"] else 0):
                made.append({"table": table, "of": name, "key": key, "optional": optional, "defaults": chance(dice, 0.8), "features": [], "version": chance(dice, 0.3), "shared": key == name and not own["outside"] and chance(dice, 0.3)})
    return made


def features_of(dice, own, packages):
    """The features of a package, of which each lists others, entries, or features of entries."""
    names = [it for it in FEATURES if chance(dice, 0.5)]
    optional = sorted({it["key"] for it in own["entries"] if it["optional"]})
    made = {}
    for at, name in enumerate(names):
        items = [it for it in names[at + 1 :] if chance(dice, 0.3)]
        items += [f"dep:{it}" for it in optional if chance(dice, 0.3)]
        for entry in own["entries"]:
            below = sorted(packages[entry["of"]]["features"])
            if below and chance(dice, 0.3):
                weak = "?" if entry["optional"] and chance(dice, 0.5) else ""
                items.append(f"{entry['key']}{weak}/{dice.choice(below)}")
        made[name] = items
    if names and chance(dice, 0.5):
        made["default"] = [it for it in names if chance(dice, 0.5)]
    return made


def made_up(dice):
    """A workspace."""
    names = NAMES[: dice.randint(2, len(NAMES))]
    packages = {}
    for at, name in enumerate(names):
        own = {
            "name": name, "edition": dice.choice(["2018", "2021", "2024"]), "version": dice.choice(["0.1.0", "1.2.3", "0.0.1-pre"]),
            "script": None if chance(dice, 0.6) else dice.choice(["changed", "variable", "nothing", "cfg", "both"]), "links": False,
            "library": chance(dice, 0.9), "main": chance(dice, 0.3), "bins": [it for it in ("tool", "run-it") if chance(dice, 0.15)],
            "types": dice.choice([None, None, None, ["lib"], ["rlib"]]), "library_name": f"{crate(name)}_lib" if chance(dice, 0.1) else None,
            "number": 0, "required": [], "outside": chance(dice, 0.1), "inherits": chance(dice, 0.3), "noisy": chance(dice, 0.1),
        }
        own["library"] = own["library"] or not (own["main"] or own["bins"])
        own["about"] = {key: None if own["inherits"] and not own["outside"] and chance(dice, 0.5) else f"{text} {name}" if key != "rust-version" else "1.91" for key, text in ABOUT.items() if chance(dice, 0.3)}
        own["readme"] = dice.choice([None, None, "file", "text", "false", "workspace" if own["inherits"] and not own["outside"] else None])
        own["license_file"] = dice.choice([None, None, "LICENSE", "workspace" if own["inherits"] and not own["outside"] else None])
        own["links"] = bool(own["script"]) and chance(dice, 0.4)
        own["entries"] = entries_of(dice, own, [it for it in names[:at] if packages[it]["library"]])
        own["features"] = features_of(dice, own, packages)
        for entry in own["entries"]:
            entry["features"] = [it for it in sorted(packages[entry["of"]]["features"]) if it != "default" and chance(dice, 0.2)]
        if own["bins"] and own["features"] and chance(dice, 0.4):
            own["required"] = [dice.choice(sorted(own["features"]))]
        own["layout"] = {"nested": chance(dice, 0.3), "lib_path": chance(dice, 0.15), "extra": chance(dice, 0.15), "found": chance(dice, 0.85)}
        packages[name] = own
    shared = {it: {"defaults": chance(dice, 0.6), "features": [of for of in sorted(packages[it]["features"]) if of != "default" and chance(dice, 0.2)]} for it in names}
    profiles = {}
    for profile in ("dev", "release", "slim"):
        keys = {}
        for key, values in {"opt-level": ["0", "1", "2", '"s"'], "debug": ["true", "false", "1", '"limited"', '"line-tables-only"'], "debug-assertions": ["true", "false"], "overflow-checks": ["true", "false"]}.items():
            if chance(dice, 0.2):
                keys[key] = dice.choice(values)
        overrides = {}
        for of in ("build-override", *[f'package."{it}"' for it in ("*", *names)]):
            if chance(dice, 0.12):
                overrides[of] = {"opt-level": dice.choice(["0", "1", "2"])} | ({"debug": "true"} if chance(dice, 0.3) else {})
        for key, values in {"codegen-units": ["1", "16"], "panic": ['"abort"', '"unwind"'], "lto": ["true", '"thin"', "false", '"off"'], "strip": ["true", '"debuginfo"', '"none"']}.items():
            if chance(dice, 0.12):
                keys[key] = dice.choice(values)
        profiles[profile] = (keys, overrides)
    root = names[-1] if chance(dice, 0.3) and not packages[names[-1]]["outside"] else None
    # (below the root package lie the others, which are inputs of a script that names none for pb_tool alone)
    if root and packages[root]["script"] == "nothing":
        packages[root]["script"] = "changed"
    return {"packages": packages, "shared": shared, "profiles": profiles, "root": root, "defaults": [it for it in names if chance(dice, 0.5) and not packages[it]["outside"]] if chance(dice, 0.3) else []}


def folder_of(model, name):
    if model["root"] == name:
        return ""
    return f"away/{name}" if model["packages"][name]["outside"] else f"packages/{name}"


def version_of(own):
    return "0.1.0" if own["inherits"] and not own["outside"] else own["version"]


def quoted(texts):
    return "[" + ", ".join(json.dumps(it) for it in texts) + "]"


def entry_text(model, own, entry):
    up = os.path.relpath(f"/{folder_of(model, entry['of'])}", f"/{folder_of(model, own['name'])}")
    parts = ["workspace = true"] if entry["shared"] else [f"path = {json.dumps(up)}"]
    if entry["key"] != entry["of"]:
        parts.append(f"package = {json.dumps(entry['of'])}")
    if entry["version"] and not entry["shared"]:
        parts.append(f'version = "={version_of(model["packages"][entry["of"]])}"')
    if entry["optional"]:
        parts.append("optional = true")
    # (over a workspace's entry with default features a member's word against them is an error of the newest edition)
    if entry["shared"]:
        parts += ["default-features = true"] if entry["defaults"] and not model["shared"][entry["of"]]["defaults"] else []
    elif not entry["defaults"]:
        parts.append("default-features = false")
    if entry["features"]:
        parts.append(f"features = {quoted(entry['features'])}")
    return f"{entry['key']} = {{ {', '.join(parts)} }}\n"


def manifest_of(model, own):
    text = f"[package]\nname = {json.dumps(own['name'])}\nedition = \"{own['edition']}\"\n"
    text += "" if own["layout"]["found"] or own["main"] else "autobins = false\n"
    text += "version.workspace = true\n" if own["inherits"] and not own["outside"] else f"version = \"{own['version']}\"\n"
    text += "authors.workspace = true\n" if own["inherits"] and not own["outside"] else ""
    text += "".join(f"{key}.workspace = true\n" if value is None else f"{key} = {json.dumps(value)}\n" for key, value in own["about"].items())
    text += {"text": 'readme = "NOTES"\n', "false": "readme = false\n", "workspace": "readme.workspace = true\n"}.get(own["readme"], "")
    text += {"LICENSE": 'license-file = "LICENSE"\n', "workspace": "license-file.workspace = true\n"}.get(own["license_file"], "")
    text += f"links = \"{crate(own['name'])}-n\"\n" if own["links"] else ""
    if own["library"] and (own["types"] or own["library_name"] or own["layout"]["lib_path"]):
        text += "[lib]\n" + ('path = "src/other.rs"\n' if own["layout"]["lib_path"] else "") + (f"crate-type = {quoted(own['types'])}\n" if own["types"] else "") + (f"name = \"{own['library_name']}\"\n" if own["library_name"] else "")
    for bin in own["bins"] if own["required"] or not own["layout"]["found"] else []:
        text += f"[[bin]]\nname = {json.dumps(bin)}\n" + (f"required-features = {quoted(own['required'])}\n" if own["required"] else "")
    text += '[[bin]]\nname = "extra"\npath = "tools/extra.rs"\n' if own["layout"]["extra"] else ""
    for table in ("dependencies", "build-dependencies"):
        text += f"[{table}]\n" + "".join(entry_text(model, own, it) for it in own["entries"] if it["table"] == table)
    text += "[features]\n" + "".join(f"{name} = {quoted(items)}\n" for name, items in own["features"].items())
    return text


def root_of(model):
    # (a pattern that matches nothing is an error of cargo's alone)
    members = ["packages/*"] if any(folder_of(model, it).startswith("packages/") for it in model["packages"]) else []
    text = f"[workspace]\nresolver = \"2\"\nmembers = {quoted(members)}\nexclude = [\"away\"]\n"
    text += f"default-members = {quoted([folder_of(model, it) or '.' for it in model['defaults']])}\n" if model["defaults"] else ""
    text += "[workspace.package]\nversion = \"0.1.0\"\nauthors = [\"Ada\", \"Bob\"]\nreadme = \"README.md\"\nlicense-file = \"legal/LICENSE\"\n"
    text += "".join(f"{key} = {json.dumps(value)}\n" for key, value in ABOUT.items())
    text += "[workspace.dependencies]\n"
    for name, its in model["shared"].items():
        parts = [f"path = {json.dumps(folder_of(model, name) or '.')}", *([] if its["defaults"] else ["default-features = false"]), *([f"features = {quoted(its['features'])}"] if its["features"] else [])]
        text += f"{name} = {{ {', '.join(parts)} }}\n"
    for profile, (keys, overrides) in model["profiles"].items():
        text += f"[profile.{profile}]\n" + ("inherits = \"release\"\n" if profile == "slim" else "") + "".join(f"{key} = {value}\n" for key, value in keys.items())
        for of, its in overrides.items():
            text += f"[profile.{profile}.{of}]\n" + "".join(f"{key} = {value}\n" for key, value in its.items())
    return text


def script_of(own):
    lines = {
        "changed": ["cargo::rerun-if-changed=build.rs", "cargo::rerun-if-changed=data.txt"],
        "variable": ["cargo::rerun-if-env-changed=SAID"],
        "nothing": [],
        "cfg": ["cargo::rerun-if-changed=build.rs", "cargo::rustc-cfg=found", "cargo::rustc-check-cfg=cfg(found)", "cargo::rustc-env=MADE=it"],
        "both": ["cargo::rerun-if-changed=data.txt", "cargo::rerun-if-env-changed=SAID", "cargo:warning=beware", "cargo::rustc-link-search=/nowhere"],
    }[own["script"]]
    if own["links"]:
        lines = [*lines, f"cargo::metadata=number={own['number']}"]
    named = " || ".join(f'name == "{it}"' for it in TOLD)
    seen = f"""    let mut seen: Vec<(String, String)> = std::env::vars().collect();
    seen.sort();
    for (name, value) in seen {{
        if name.starts_with("CARGO_PKG_") || name.starts_with("CARGO_FEATURE_") || name.starts_with("DEP_") || {named} {{
            println!("cargo::rustc-env=SEEN_{{name}}={{value}}");
        }}
    }}
"""
    return "fn main() {\n" + "".join(f"    println!({json.dumps(it)});\n" for it in lines) + seen + f"    let _ = {own['number']};\n}}\n"


def library_named(model, entry):
    """How a source calls the library of an entry."""
    of = model["packages"][entry["of"]]
    return crate(entry["key"]) if entry["key"] != entry["of"] else of["library_name"] or crate(of["name"])


def library_of(model, own):
    """The source of a library: its number and those of the libraries that it always has."""
    needs = sorted({library_named(model, it) for it in own["entries"] if it["table"] == "dependencies" and not it["optional"]})
    features = ", ".join([*[f'cfg!(feature = "{it}")' for it in sorted(own["features"])], "cfg!(extra)"])
    text = f"pub const NUMBER: u32 = {own['number']};\npub fn all() -> String {{ format!(\"{own['name']} {own['number']} {{:?}}\", ({features},)){''.join(f' + &{it}::all()' for it in needs)} }}\n"
    return text + ("pub fn noisy() { let unused = 1; }\n" if own["noisy"] else "")


def binary_of(own, name):
    """The source of a binary: what it is told, and what its library says."""
    told = ", ".join(f'option_env!("{it}")' for it in COMPILED)
    library = own["library_name"] or crate(own["name"])
    said = f"    println!(\"{{}}\", {library}::all());\n" if own["library"] else ""
    return f"fn main() {{\n    println!(\"{name} {own['number']}\");\n    for it in [{told}] {{ println!(\"{{it:?}}\"); }}\n{said}}}\n"


def files_of(model):
    """The files of a workspace, by paths from its folder."""
    made = {"Cargo.toml": root_of(model), "away/README": ""}
    for name, own in model["packages"].items():
        folder = folder_of(model, name)
        at = f"{folder}/" if folder else ""
        made[f"{at}Cargo.toml"] = manifest_of(model, own) + (root_of(model) if not folder else "")
        if own["library"]:
            made[f"{at}src/{'other' if own['layout']['lib_path'] else 'lib'}.rs"] = library_of(model, own)
        if own["main"]:
            made[f"{at}src/main.rs"] = binary_of(own, "main")
        for bin in own["bins"]:
            made[f"{at}src/bin/{bin}{'/main' if own['layout']['nested'] else ''}.rs"] = binary_of(own, bin)
        if own["layout"]["extra"]:
            made[f"{at}tools/extra.rs"] = binary_of(own, "extra")
        if own["readme"] == "file":
            made[f"{at}README.md"] = "A tree.\n"
        if own["script"]:
            made[f"{at}build.rs"] = script_of(own)
            made[f"{at}data.txt"] = str(own["number"])
    return made


def written(model, top, before):
    """Writes the files that differ, and takes away those that are there no more."""
    now = files_of(model)
    for path in set(before) - set(now):
        os.remove(f"{top}/{path}")
    for path, text in now.items():
        if before.get(path) != text:
            os.makedirs(os.path.dirname(f"{top}/{path}"), exist_ok=True)
            with open(f"{top}/{path}", "w", encoding="utf-8") as it:
                it.write(text)
    return now


def options_of(dice, model):
    """Options of a build that both builders take."""
    names = [it for it in model["packages"] if not model["packages"][it]["outside"]]
    words, picked = [], []
    if names and chance(dice, 0.3):
        picked = dice.sample(names, dice.randint(1, min(2, len(names))))
        words += [word for it in picked for word in ("-p", it)]
    elif chance(dice, 0.4):
        words += ["--workspace"]
        picked = names
    words += dice.choice([[], [], [], ["--release"], ["--profile", "slim"]])
    kind = dice.random()
    if kind < 0.2:
        words += ["--all-features"]
    elif kind < 0.35:
        words += ["--no-default-features"]
    elif kind < 0.5 and picked:
        of = dice.choice(picked)
        # (cargo means the dependencies of that name too, and turns on optional ones)
        is_meant_again = any(entry["key"] == of and (entry["optional"] or entry["table"] == "build-dependencies") for it in picked for entry in model["packages"][it]["entries"])
        if model["packages"][of]["features"] and not is_meant_again:
            words += ["--features", f"{of}/{dice.choice(sorted(model['packages'][of]['features']))}"]
    return words + dice.choice([[], [], [], [], ["--lib"], ["--bins"]])


def edited(dice, model, said):
    """Changes a workspace, and gives what was changed."""
    own = model["packages"][dice.choice(sorted(model["packages"]))]
    kind = dice.random()
    if kind < 0.5:
        own["number"] += 1
        return f"a number of {own['name']}"
    if kind < 0.6:
        said["SAID"] = str(dice.randint(0, 2))
        return "the variable"
    # (once each: cargo keeps what it made with other features, and pb_tool does not)
    entries = [it for it in own["entries"] if "edited" not in it and not it["shared"]]
    if kind < 0.75 and entries:
        entry = dice.choice(entries)
        entry["defaults"], entry["edited"] = not entry["defaults"], True
        return f"defaults of an entry of {own['name']}"
    if kind < 0.85:
        own["noisy"] = not own["noisy"]
        return f"a warning of {own['name']}"
    return "nothing"


Built = collections.namedtuple("Built", "status artifacts fresh scripts outputs said")


def built(words, top, target, said, is_cargo):
    command = [*words, "--manifest-path", f"{top}/Cargo.toml", "--target-dir", target, "--message-format", "json", *(["--target", HOST] if is_cargo else [])]
    ran = subprocess.run(command, capture_output=True, text=True, env=ENVIRONMENT | said, check=False)
    artifacts, fresh, scripts, outputs = collections.Counter(), collections.Counter(), collections.Counter(), collections.Counter()
    programs = collections.defaultdict(list)
    for line in ran.stdout.split("\n"):
        it = json.loads(line) if line.startswith("{") else {"reason": ""}
        if it["reason"] == "compiler-artifact":
            # (what is told of debug information on the host's side goes by `--target` with cargo: `rustc.sh` compares that)
            is_host = it["target"]["kind"] == ["custom-build"] or (f"/{HOST}/" not in it["filenames"][0] if is_cargo else ".host." in it["filenames"][0])
            profile = {key: it["profile"][key] for key in ("opt_level", "debuginfo", "debug_assertions", "overflow_checks") if not (is_host and key == "debuginfo")}
            what = json.dumps([it["package_id"], it["target"]["kind"], it["target"]["name"], it["target"]["crate_types"], it["target"]["edition"], it["target"].get("required-features", []), sorted(it["features"]), profile, it["executable"] is not None, "host" if is_host else "target"])
            # (a build script is compiled for each side by pb_tool, and once by cargo where that comes to the same)
            is_told = it["target"]["kind"] == ["custom-build"] and what in artifacts
            artifacts[what] += not is_told
            fresh[what] += it["fresh"] and not is_told
            if it["executable"] and not is_host:
                programs[it["target"]["name"]].append(it["executable"])
        elif it["reason"] == "build-script-executed":
            scripts[json.dumps([it["package_id"], it["linked_libs"], it["linked_paths"], it["cfgs"], it["env"]])] += 1
    # (of several of one name cargo leaves the last one in the place of all)
    for file in [it[0] for it in programs.values() if len(it) == 1]:
        outputs[subprocess.run([file], capture_output=True, text=True, check=False).stdout] += 1
    return Built(ran.returncode, artifacts, fresh, scripts, outputs, ran.stderr[-1500:])


def compared(one, other):
    """What differs between what two builders said."""
    told = []
    # (without a unit cargo does nothing and succeeds)
    if "refused NothingToBuild" in one.said and not other.artifacts:
        return told
    if (one.status == 0) != (other.status == 0):
        told.append(f"status {one.status} and {other.status}")
    elif one.status == 0:
        for what, a, b in (("artifacts", one.artifacts, other.artifacts), ("fresh", one.fresh, other.fresh), ("scripts", one.scripts, other.scripts), ("outputs", one.outputs, other.outputs)):
            told += [f"{what}, pb_tool alone: {it} {count}" for it, count in (a - b).items()] + [f"{what}, cargo alone: {it} {count}" for it, count in (b - a).items()]
    return told


def main():
    count, wrong, failed, units = 0, [], 0, 0
    for number in range(first, last + 1):
        dice, top, said = random.Random(number), f"{room}/{number}", {"SAID": "0"}
        model, before = made_up(dice), {}
        words = options_of(dice, model)
        said |= {"RUSTFLAGS": "--cfg extra"} if chance(dice, 0.2) else {}
        for turn in range(5):
            what = "from nothing" if turn == 0 else edited(dice, model, said)
            before = written(model, top, before)
            ours, its = (built([*it, *words], top, f"{room}/{number}-{at}", said, at == "cargo") for at, it in (("ours", [program, "build"]), ("cargo", ["cargo", "build", "--offline"])))
            count, failed, units = count + 1, failed + (its.status != 0), units + sum(its.artifacts.values())
            # (a script that cargo has compiled for the other side with the same features it compiles no more)
            told = [it for it in compared(ours, its) if not (what.startswith("defaults") and it.startswith("fresh, cargo alone") and "custom-build" in it)]
            if told:
                wrong.append(number)
                print(f"{number}, build {turn} ({what}), {' '.join(words)}:\n  " + "\n  ".join(told[:8]) + f"\n  pb_tool: {ours.said[-300:]}\n  cargo: {its.said[-500:]}", flush=True)
                break
            if its.status:
                break
        if not (wrong and wrong[-1] == number and os.environ.get("KEEP")):
            for it in (top, f"{top}-ours", f"{top}-cargo"):
                shutil.rmtree(it, ignore_errors=True)
        else:
            shutil.copytree(top, f"/tmp/random-{number}", dirs_exist_ok=True)
    print(f"{last - first + 1} workspaces, {count} builds, of which {failed} failed in both, {units} artifacts: {len(wrong)} workspaces differ" + (f": {' '.join(map(str, wrong))}" if wrong else ""))
    return 1 if wrong else 0


sys.exit(main())
