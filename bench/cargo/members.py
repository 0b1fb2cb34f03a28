import json, os, random, shutil, subprocess, sys

program, compiler, root, first, count = sys.argv[1:]
NAMES = ["a", "b", "ab", "c", ".h"]
PARTS = ["*", "a*", "?", "a", "b", "*b", "a?", "c"]


def put(path, text):
    os.makedirs(os.path.dirname(path), exist_ok=True)
    with open(path, "w") as it:
        it.write(text)


def fill(folder, depth, chance, made):
    """Packages in random folders, three deep."""
    for name in NAMES:
        if chance.random() < 0.45:
            made.append(name)
            put(f"{folder}/{name}/Cargo.toml", f'[package]\nname = "p{len(made)}"\nversion = "0.1.0"\nedition = "2021"\n')
            put(f"{folder}/{name}/src/lib.rs", "")
            if depth < 3:
                fill(f"{folder}/{name}", depth + 1, chance, made)


def texts(chance, parts, most, deepest, least=0):
    return ["/".join(chance.choice(parts) for _ in range(chance.randint(1, deepest))) for _ in range(chance.randint(least, most))]


def told_by_cargo():
    """The manifests of the members, or none if cargo refuses the workspace."""
    ran = subprocess.run(["cargo", "metadata", "--no-deps", "--format-version", "1", "--offline"], cwd=root, capture_output=True, text=True, check=False)
    if ran.returncode:
        return None
    told = json.loads(ran.stdout)
    return {it["manifest_path"] for it in told["packages"] if it["id"] in told["workspace_members"]}


def built():
    ran = subprocess.run([program, "build", "--workspace"], cwd=root, capture_output=True, text=True, check=False, env={**os.environ, "RUSTC": compiler})
    lines = [json.loads(it) for it in ran.stdout.splitlines()]
    return {it["manifest_path"] for it in lines if it["reason"] == "compiler-artifact"} if ran.returncode == 0 else {ran.stderr.strip()}


compared = differ = 0
for number in range(int(first), int(first) + int(count)):
    chance = random.Random(number)
    shutil.rmtree(root, ignore_errors=True)
    fill(root, 1, chance, [])
    members, exclude = texts(chance, PARTS, 3, 3, 1), texts(chance, NAMES, 2, 2)
    put(f"{root}/Cargo.toml", f'[workspace]\nresolver = "2"\nmembers = {json.dumps(members)}\nexclude = {json.dumps(exclude)}\n')
    wanted = told_by_cargo()
    if wanted:
        compared += 1
        came = built()
        if came != wanted:
            differ += 1
            print(f"{number}: members {members}, exclude {exclude}: cargo {sorted(wanted - came)}, the program {sorted(came - wanted)}")
print(f"{count} workspaces, {compared} compared, {differ} differ")
sys.exit(1 if differ else 0)
