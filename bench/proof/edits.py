#!/usr/bin/env python3
"""Tries the mutants of `bench/edits/CRATE/`. `edits.sh` calls this, and has its description.
"""
import datetime, glob, hashlib, os, re, shutil, subprocess, sys, tempfile

TOP = os.path.dirname(os.path.dirname(os.path.dirname(os.path.abspath(__file__))))
HEAD = """# When the wrong bodies outside the gate were last tried

`bench/proof/edits.sh` writes this page; nothing in it is written by hand. A commit with a star had changes beside it.

| crate | day | commit | edits | refused | let through, or not tried |
|---|---|---|---|---|---|
"""
# As many processors for one check as `RT_JOBS` says.
JOBS = ["--jobs", os.environ["RT_JOBS"]] if os.environ.get("RT_JOBS") else []
# Outputs of earlier runs: what they tell as refused, over the same text, is not tried again.
TRIED = os.environ.get("TRIED", "").split()
# Which edits are tried, as 2/3 is every third from the second on; the others count as not tried, and no row is written.
PART = [int(it) for it in os.environ["PART"].split("/")] if os.environ.get("PART") else None
# What a proof file says that names what an edit took away: that alone says little of a contract.
NAMES = re.compile(r"(note: )?(\./)?proofs/.*(has no field|is not in scope|has no `|was not admitted)")


def read(path):
    with open(path, encoding="utf-8") as it:
        return it.read()


def write(path, text):
    # (a file may have a second name in another folder)
    if os.path.lexists(path):
        os.unlink(path)
    with open(path, "w", encoding="utf-8") as it:
        it.write(text)


def below(crate):
    """A crate and those of the repository that it stands on."""
    lines = dict(it.split(":", 1) for it in read(f"{TOP}/crates.txt").split("\n") if ":" in it and not it.startswith("#"))
    found, left = set(), [crate]
    while left:
        name = left.pop()
        if name in lines and name not in found:
            found.add(name)
            left += lines[name].split()
    return sorted(found)


def text_of(crate):
    """All that the prover's answers about a crate hang on but its toolchain: code, definitions and proofs, of the crates below too."""
    files = [it for name in below(crate) for part in ("src", "specs", "proofs") for it in glob.glob(f"{TOP}/crates/{name}/{part}/**", recursive=True) if os.path.isfile(it)]
    return "".join(f"{os.path.relpath(it, TOP)}\n{read(it)}\n" for it in sorted(files))


def digest(text, edit):
    """What tells an edit over a text from any other."""
    return hashlib.sha256((text + edit.name + read(edit.path)).encode()).hexdigest()[:12]


def told_before(crate, marks):
    """What earlier runs told as refused over the same text, with their words."""
    found = {}
    for path in TRIED:
        for line in read(path).split("\n"):
            it = re.match(rf"{crate}/(\S+\.edit): (refused, as it must be.*) \((\w{{12}})\)$", line)
            if it and marks.get(it[1]) == it[3]:
                found[it[1]] = it[2]
    return found


def owner(line):
    """What the prover calls that to which the functions of a block belong: `impl Ord for Text` is `TextOrd`."""
    head = re.match(r"(?:unsafe )?(?:impl(<.*?>)? |(?:pub )?trait )(?:(\w+)(<.*?>)? for )?(\w+)", line)
    if not head:
        return None
    own = re.findall(r"[<,] *(\w+)", head[1] or "")
    return head[4] + (head[2] or "") + "".join(it for it in re.findall(r"\w+", head[3] or "") if it not in own)


def functions(text):
    """The functions of a file: the name, after what it belongs to, the line where its body begins, and its last line."""
    lines, found, of = text.split("\n"), [], None
    for at, line in enumerate(lines):
        of = owner(line) if line[:1] not in ("", " ", "}") else of
        head = re.match(r"( *)(?:pub(?:\([\w ]+\))? )?(?:const )?(?:unsafe )?fn (\w+)", line)
        if not head:
            continue
        begins = lambda it: it == head[1] + "{" or re.match(head[1] + r"(?:\)|.*\bfn ).* \{$", it)
        body = next((n for n in range(at, len(lines)) if begins(lines[n])), None)
        last = next((n for n in range(at + 1, len(lines)) if lines[n] == head[1] + "}"), None)
        if body is not None and last is not None and body < last:
            found.append((f"{of}::{head[2]}" if of and head[1] else head[2], body, last))
    return found


class Edit:
    """An edit: the texts of the files that it changes, and which functions it changes, or None where it changes more than bodies."""

    def __init__(self, path, folder):
        self.name, self.path, self.why, self.pairs, self.inside = os.path.basename(path), path, "", [], set()
        file, old, texts = "", None, {}
        for line in read(path).split("\n"):
            word, _, text = line.partition(" ")
            if word == "file:":
                file = text.strip()
                if not file.startswith("src/"):
                    self.why = f"{file} is no code: an edit of a definition or a proof shows nothing"
                elif not os.path.isfile(f"{folder}/{file}"):
                    self.why = f"there is no file {file}"
                elif file not in texts:
                    texts[file] = read(f"{folder}/{file}")
            elif word == "old:":
                old = text
            elif word == "new:":
                if not file or not old:
                    self.why = self.why or "a new text without a file or an old text"
                elif not self.why:
                    self.why = self.add(file, texts, old, text)
                old = None
            if self.why:
                return
        self.why = "" if self.pairs else "it replaces nothing"

    def add(self, file, texts, old, new):
        now = texts[file]
        if now.count(old) != 1:
            return f"`{old.strip()}` stands in {file} {now.count(old)} times"
        line, every = now[: now.index(old)].count("\n"), functions(now)
        around = [it[0] for it in every if it[1] <= line <= it[2]]
        if self.inside is not None:
            self.inside = self.inside | {(file, around[-1])} if around and [it[0] for it in every].count(around[-1]) == 1 else None
        self.pairs.append((file, old, new))
        texts[file] = now.replace(old, new)
        return ""


def edits_of(crate, with_gate=False):
    folder = f"{TOP}/crates/{crate}"
    found = glob.glob(f"{TOP}/bench/edits/{crate}/*.edit") + (glob.glob(f"{folder}/must-fail/*.edit") if with_gate else [])
    return [Edit(it, folder) for it in sorted(found)]


def batches_of(edits):
    """Edits that change bodies alone, so many together as change no function twice."""
    batches = []
    for edit in edits:
        if edit.inside:
            batch = next((it for it in batches if not any(edit.inside & other.inside for other in it)), None)
            batches.append([edit]) if batch is None else batch.append(edit)
    return batches


def own_words(crate, said, place):
    """Why the check refuses a function, the first line that tells it; "" where it waits for one that it calls; None where it is proved."""
    file, name = place
    last = name.split("::")[-1]
    module = "::".join([crate, *[it for it in file[len("src/") : -len(".rt")].split("/") if it != "lib"]])
    # (a method bears the name of its type, wherever that stands)
    whole = rf"{crate}::(?:\w+::)*{name}" if "::" in name else f"{module}::{name}"
    its = [it for it in said if re.match(rf"fn (?:{whole}|{module}::fn::{last}::\S+): ", it)]
    # (a body that the prover's borrow checker does not cover is judged by no clause)
    verdict = next((it for it in its if re.search(r": (?:not proved|no proof: (?!it calls|it passes))", it) and "does not cover" not in it), None)
    if verdict is None:
        return "" if not its or any(": no proof: " in it for it in its) else None
    told = [it for it in said if re.match(r"(note: )?\S+:\d+:\d+: error", it) and f"/{last}/" in it.split(": error")[0]]
    return next((it for it in told if not NAMES.match(it)), (told or [verdict])[0] if "not proved" in verdict else verdict)


def afresh(crate, work):
    """The folder of a crate in the copy, as the crate stands, with no edit; what was proved there before is kept."""
    folder, kept = f"{work}/crates/{crate}", f"{work}/kept"
    if os.path.isdir(f"{folder}/out/incremental"):
        os.rename(f"{folder}/out/incremental", kept)
    shutil.rmtree(folder, ignore_errors=True)
    copied(f"{TOP}/crates/{crate}", folder)
    if os.path.isdir(kept):
        shutil.rmtree(f"{folder}/out/incremental", ignore_errors=True)
        os.makedirs(f"{folder}/out", exist_ok=True)
        os.rename(kept, f"{folder}/out/incremental")
    return folder


def tried_together(crate, batch, work):
    """What a check of the crate with all these edits says of each, as `own_words`; nothing of one that does not compile."""
    folder = afresh(crate, work)
    for edit in batch:
        for file, old, new in edit.pairs:
            write(f"{folder}/{file}", read(f"{folder}/{file}").replace(old, new))
    ran = subprocess.run([*os.environ.get("TRY", "").split(), "rt", "check", *JOBS], cwd=folder, stdout=subprocess.PIPE, stderr=subprocess.STDOUT, text=True, errors="replace", check=False)
    said = re.sub(r"\x1b\[[0-9;]*m", "", ran.stdout).split("\n")
    if ran.returncode != 1 or "logic=not-proved" not in ran.stdout:
        faults = [re.match(r"(?:\./)?(src/\S+):(\d+):\d+: error\[", it) for it in said]
        places = {(it[1], name) for it in faults if it for name, body, last in functions(read(f"{folder}/{it[1]}")) if body <= int(it[2]) - 1 <= last}
        rest = [it for it in batch if not it.inside & places]
        return tried_together(crate, rest, work) if rest and len(rest) < len(batch) else {}
    answers = {}
    for edit in batch:
        words = [own_words(crate, said, place) for place in sorted(edit.inside)]
        answers[edit.name] = next((it for it in words if it), "" if "" in words else None)
    return answers


def tried_alone(crate, edits, work):
    """What `rt must-fail` says of each."""
    folder = afresh(crate, work)
    shutil.rmtree(f"{folder}/must-fail", ignore_errors=True)
    os.mkdir(f"{folder}/must-fail")
    for edit in edits:
        shutil.copy(edit.path, f"{folder}/must-fail/")
    ran = subprocess.run([*os.environ.get("TRY", "").split(), "rt", "must-fail", crate], cwd=work, stdout=subprocess.PIPE, stderr=subprocess.STDOUT, text=True, errors="replace", check=False)
    answers = {}
    for edit in edits:
        line = next((it for it in ran.stdout.split("\n") if f"/{edit.name}: " in it), f"NOT TRIED: {ran.stdout[-200:]}")
        words = line.split(f"{edit.name}: ", 1)[-1]
        answers[edit.name] = (words.startswith("refused, as it must be"), words)
    return answers


def copied(folder, to):
    """Copies a folder, what was proved by links."""

    def copy(one, other):
        try:
            # (of what a check keeps it replaces these alone, and writes into others)
            if "/out/rlib/" in one or one.endswith(".oantt"):
                return os.link(one, other)
        except OSError:
            pass
        return shutil.copy2(one, other)

    shutil.copytree(folder, to, symlinks=True, copy_function=copy)


def tried(crate, work):
    """Tries the edits of a crate, prints a line for each, and returns how many there are and which were not refused."""
    edits, text = edits_of(crate), text_of(crate)
    marks = {it.name: digest(text, it) for it in edits}
    refused = told_before(crate, marks)
    for name, words in refused.items():
        print(f"{crate}/{name}: {words} ({marks[name]})", flush=True)
    wanted = [it for at, it in enumerate(edits) if it.name not in refused and (PART is None or at % PART[1] == PART[0] - 1)]
    alone, left = [it for it in wanted if it.inside is None], [it for it in wanted if it.inside is not None]
    while left:
        # (a function that calls one which is refused is judged in the next round, without that one)
        waiting = []
        for batch in batches_of(left):
            answers = tried_together(crate, batch, work)
            for edit in batch:
                words = answers.get(edit.name)
                if words:
                    refused[edit.name] = words
                    print(f"{crate}/{edit.name}: refused, as it must be: {words[:160]} ({marks[edit.name]})", flush=True)
                elif words == "" and len(batch) > 1:
                    waiting.append(edit)
                else:
                    alone.append(edit)
        if len(waiting) == len(left):
            alone, waiting = alone + waiting, []
        left = waiting
    if alone:
        for name, (is_refused, words) in tried_alone(crate, alone, work).items():
            print(f"{crate}/{name}: {words[:260]}{f' ({marks[name]})' if is_refused else ''}", flush=True)
            if is_refused:
                refused[name] = words
    return len(edits), [it.name for it in edits if it.name not in refused]


def noted(crate, count, left):
    """Puts a crate's row into `LAST.md`."""
    path, rows = f"{TOP}/bench/edits/LAST.md", {}
    for line in read(path).split("\n") if os.path.isfile(path) else []:
        found = re.match(r"\| `(\w+)` \|", line)
        if found:
            rows[found[1]] = line + "\n"
    told = lambda *words: subprocess.run(["git", "-C", TOP, *words], capture_output=True, text=True, check=True).stdout.strip()
    commit = told("rev-parse", "--short", "HEAD") + ("*" if told("status", "--porcelain", "--", "crates", "crates.txt") else "")
    day = datetime.datetime.now(datetime.timezone.utc).date().isoformat()
    why = ", ".join(f"`{it.removesuffix('.edit')}`" for it in left) or "none"
    rows[crate] = f"| `{crate}` | {day} | {commit} | {count} | {count - len(left)} | {why} |\n"
    write(path, HEAD + "".join(rows[name] for name in sorted(rows)))


def since(row):
    """What changed in a crate since its row of `LAST.md` was written, but for comments, imports and who may name a module; "" where nothing did."""
    crate, commit = row
    passed = [r"-I^(pub )?mod \w+;?$", r"-I^(ghost )?use ", r"-I^ *(--|//)"]
    ran = subprocess.run(["git", "-C", TOP, "diff", "--shortstat", *passed, commit.rstrip("*"), "--", f"crates/{crate}/src", f"crates/{crate}/specs", f"bench/edits/{crate}"], capture_output=True, text=True, check=False)
    return ran.stdout.strip() if ran.returncode == 0 else f"{commit} is no commit here"


def aged():
    """Prints the crates that changed since their row of `LAST.md`, or have none, and returns whether there are some."""
    rows = re.findall(r"^\| `(\w+)` \| \S+ \| (\S+) \|", read(f"{TOP}/bench/edits/LAST.md"), re.M)
    told = [f"{row[0]}: {since(row)}" for row in rows if since(row)]
    without = sorted({it for it in os.listdir(f"{TOP}/bench/edits") if os.path.isdir(f"{TOP}/bench/edits/{it}")} - {row[0] for row in rows})
    print("".join(f"{it}\n" for it in [*told, *(f"{it}: has no row" for it in without)]) + f"{len(rows)} rows, {len(told)} older than what they are about")
    return bool(told or without)


def main():
    words = sys.argv[1:]
    if words == ["--aged"]:
        sys.exit(1 if aged() else 0)
    only_texts = words[:1] == ["--texts"]
    crates = words[1:] if only_texts else words
    crates = crates or sorted(os.listdir(f"{TOP}/crates"))
    for crate in crates:
        if not os.path.isdir(f"{TOP}/crates/{crate}"):
            sys.exit(f"there is no crate {crate}")
    every = [(crate, it) for crate in crates for it in edits_of(crate, True)]
    bad = [f"{os.path.relpath(it.path, TOP)}: {it.why}" for _, it in every if it.why]
    print("".join(f"{it}\n" for it in bad) + f"{len(every)} edits, of which {len(bad)} do not fit", flush=True)
    if bad or only_texts:
        sys.exit(1 if bad else 0)
    wrong = []
    with tempfile.TemporaryDirectory() as work:
        for it in ("crates.txt", "HANDLES"):
            shutil.copy(f"{TOP}/{it}", work)
        copied(f"{TOP}/crates", f"{work}/crates")
        for crate in crates:
            if os.path.isdir(f"{TOP}/bench/edits/{crate}"):
                count, left = tried(crate, work)
                # The crates above stand on it as it is.
                afresh(crate, work)
                if PART is None:
                    noted(crate, count, left)
                wrong += [crate] if left else []
    print(f"\nnot all were refused: {' '.join(wrong)}" if wrong else "\nall were refused")
    sys.exit(1 if wrong else 0)


main()
