import collections, json, os, random, re, shutil, signal, socket, stat, subprocess, sys

program, compiler, folder, top, torn, share, only = sys.argv[1:]
torn, share = 0 if torn == "each" else int(torn), int(share)
sys.dont_write_bytecode = True
sys.path.insert(0, f"{top}/bench/attack")
import records

r = random.Random(1)
ROOT = os.getuid() == 0
os.chmod(folder, 0o755)
work, beside = f"{folder}/w", f"{folder}/beside"
for name, path in (("pb_tool", program), ("pb_mini", compiler)):
    if not os.path.exists(f"{folder}/{name}"):
        shutil.copy(path, f"{folder}/{name}")
    os.chmod(f"{folder}/{name}", 0o755)
tool, mini = f"{folder}/pb_tool", f"{folder}/pb_mini"
DEBUG = f"{work}/target/debug"
UNITS = ["a.target.lib", "b.target.script", "b.target.run", "b.target.lib", "b.target.bin-b"]
A, RUN, LIB, BIN = f"{DEBUG}/a.target.lib", f"{DEBUG}/b.target.run", f"{DEBUG}/b.target.lib", f"{DEBUG}/b.target.bin-b"


def put(path, text):
    os.makedirs(os.path.dirname(path), exist_ok=True)
    with open(path, "wb") as it:
        it.write(text if isinstance(text, bytes) else text.encode())


def get(path):
    with open(path, "rb") as it:
        return it.read()


def package(name, needs):
    entries = "".join(f'{it} = {{ path = "../{it}" }}\n' for it in needs)
    return f'[package]\nname = "{name}"\nversion = "0.1.0"\nedition = "2021"\n[dependencies]\n{entries}'


def sources(age):
    """Writes the sources: each of them another one before than now."""
    put(f"{work}/Cargo.toml", '[workspace]\nmembers = ["a", "b"]\n')
    put(f"{work}/a/Cargo.toml", package("a", []))
    put(f"{work}/a/src/lib.rs", f"warn a {age}\ninclude part.txt\nenv SEEN\n")
    put(f"{work}/a/src/part.txt", f"part {age}\n")
    put(f"{work}/b/Cargo.toml", package("b", ["a"]))
    put(f"{work}/b/build.rs", f"put made.txt made {age}\nread data.txt\nshow SEEN\nprint cargo::warning=script {age}\n")
    put(f"{work}/b/data.txt", f"data {age}\n")
    put(f"{work}/b/src/lib.rs", f"use a\ninclude $OUT_DIR/made.txt\nwarn b {age}\n")
    put(f"{work}/b/src/main.rs", f"use b\nprint {age}\n")


Built = collections.namedtuple("Built", "status lines fresh said")


def built(as_nobody=False, jobs=1, limit=60):
    words = [tool, "build", "--manifest-path", f"{work}/Cargo.toml", "--jobs", str(jobs), "--runner", f"{mini} --run"]
    if as_nobody:
        words = ["setpriv", "--reuid=65534", "--regid=65534", "--clear-groups"] + words
    try:
        ran = subprocess.run(words, env={"PATH": os.environ["PATH"], "RUSTC": mini, "SEEN": "yes"}, capture_output=True, timeout=limit)
    except subprocess.TimeoutExpired:
        return Built(None, [], [], "it does not end")
    lines = ran.stdout.decode().splitlines()
    fresh = [line.endswith('"fresh":true}') for line in lines if '"compiler-artifact"' in line]
    said = ran.stderr.decode(errors="replace").strip()
    return Built(ran.returncode, [re.sub(r'"fresh":(true|false)}$', '"fresh":_}', line) for line in lines], fresh, said)


def files_below(place):
    """What lies below a folder: bytes, links and folders, by path."""
    found = {}
    for above, names, others in os.walk(place):
        for name in names + others:
            path = os.path.join(above, name)
            if os.path.islink(path):
                found[path] = ("link", os.readlink(path))
            elif stat.S_ISREG(os.lstat(path).st_mode):
                found[path] = ("file", get(path))
    return found


def made():
    """The files of the units, by path."""
    found = {}
    for unit in UNITS:
        path = f"{DEBUG}/{unit}"
        found |= {path: ("link", os.readlink(path))} if os.path.islink(path) else files_below(path)
    return found


def clean():
    for path in (work, beside):
        subprocess.run(["chmod", "-R", "u+rwx", path], stderr=subprocess.DEVNULL)
        shutil.rmtree(path, ignore_errors=True)


def saved():
    place = f"{folder}/saved.{r.random()}"
    shutil.copytree(f"{work}/target", place, symlinks=True)
    return place


def kept(path):
    """What the record at a path is: the record, or why it is none."""
    try:
        if not stat.S_ISREG(os.stat(path).st_mode):
            return "no file"
        return records.read(get(path))
    except records.NoRecord as it:
        return str(it)
    except OSError as it:
        return str(it)


def wrong_records(planted=False):
    """What is wrong with the records after a build that went well: two may have one number only where it was planted."""
    said, there = [], {unit: kept(f"{DEBUG}/{unit}.record") for unit in UNITS}
    for unit, it in there.items():
        if isinstance(it, str):
            said.append(f"{unit}.record: {it}")
        elif it.key != unit or it.form != 2:
            said.append(f"{unit}.record has the key {it.key} and the form {it.form}")
        else:
            said += [f"{unit} names {need} {number}" for need, number in it.needs if isinstance(there.get(need), str) or there[need].number != number]
    numbers = [it.number for it in there.values() if not isinstance(it, str)]
    return said + (["two records have one number"] if not planted and len(set(numbers)) < len(numbers) else [])


def begin(age):
    """The sources as they are now, over the target folder of now or of before."""
    clean()
    sources("now")
    os.makedirs(beside)
    put(f"{beside}/precious", "precious\n")
    put(f"{beside}/inner/precious", "precious\n")
    if age:
        shutil.copytree(folders[age], f"{work}/target", symlinks=True)


def judge(now, planted=False, may_be_bad=False):
    """What is wrong with a build into a folder that lies, and how it ended in a word."""
    if now.status == 0:
        said = [] if now.lines == wanted.lines else [f"lines: {[line for line in now.lines if line not in wanted.lines][:1]}"]
        if not said and made() != files:
            other = [path for path in made() | files if made().get(path) != files.get(path)]
            said.append(f"files: {other[:2]}")
        return said + ([] if said else wrong_records(planted)), "right"
    last = now.said.splitlines()[-1] if now.said else ""
    if now.status == 101 and last.startswith("error: fault "):
        head = now.lines[:-1]
        whole = now.lines[-1:] == ['{"reason":"build-finished","success":false}'] and head == wanted.lines[: len(head)]
        told = re.sub(r"/\S+", "PATH", last.removeprefix("error: "))
        return [] if whole else [f"lines of a fault: {now.lines}"], told
    if may_be_bad and now.status == 101 and last.startswith("error: bad "):
        return [], "the compiler's " + last.split()[3]
    return [f"status {now.status}: {now.said[-200:]}"], "wrong"


tally = collections.defaultdict(collections.Counter)
wrong, asked = [], 0


def tell(*_):
    """Prints what came of each kind so far, and ends."""
    for kind, came in tally.items():
        print(f"{kind}: {sum(came.values())}: " + ", ".join(f"{count} {how}" for how, count in came.most_common()))
    print(f"{sum(sum(came.values()) for came in tally.values())} folders, {len(wrong)} wrong", flush=True)
    sys.exit(min(len(wrong), 1))


signal.signal(signal.SIGTERM, tell)


def lie(kind, name, age, make, undo=None, free=False, as_nobody=False, limit=60, leads_out=False, may_be_bad=False, written=()):
    """Tries one lie. `make` makes it, `undo` takes away what the next build cannot get over, `written` may be changed outside."""
    global asked
    asked += 1
    if only not in kind or (asked % share and kind != "no lie"):
        return
    begin(age)
    make()
    if as_nobody:
        for place in (work, beside):
            for above, names, others in os.walk(place):
                for it in [above] + [os.path.join(above, other) for other in others]:
                    os.lchown(it, 65534, 65534)
    outside = {path: it for path, it in (files_below(work) | files_below(beside)).items() if not path.startswith(f"{work}/target")}
    now = built(as_nobody, limit=limit)
    said, how = judge(now, "number" in kind, may_be_bad)
    later = {path: it for path, it in (files_below(work) | files_below(beside)).items() if not path.startswith(f"{work}/target")}
    lost = [path for path in outside if path not in written and outside[path] != later.get(path)]
    strange = [] if leads_out else [path for path in later if path not in outside]
    if lost or strange:
        said.append(f"outside: {lost[:2]} {strange[:2]}")
    tally[kind][("free: " if free else "") + (how if not (free and said) else "another answer")] += 1
    if free:
        bad = now.said.splitlines()[-1:] and now.said.splitlines()[-1].startswith("error: bad ")
        said = [it for it in said if it.startswith("outside") or (it.startswith("status") and not bad)]
    else:
        if undo and how.startswith(("fault", "the compiler")):
            undo()
        again = built(as_nobody)
        if not how.startswith(("fault", "the compiler")) or undo:
            more, then = judge(again, "number" in kind)
            if more or then != "right":
                said.append(f"the build after it: {then} {more}")
    if said:
        wrong.append(f"{kind}: {name}, over the folder of {age}: {said}")
        print("wrong:", wrong[-1], flush=True)


def edited(path, change):
    def make():
        text = get(path)
        os.remove(path)
        put(path, change(text))
    return make


def record_edited(unit, change):
    return edited(f"{DEBUG}/{unit}.record", lambda text: records.written(change(records.read(text))))


def replaced(path, by):
    """Takes away what stands at a path, and makes something else there."""
    def make():
        if os.path.isdir(path) and not os.path.islink(path):
            shutil.rmtree(path)
        elif os.path.lexists(path):
            os.remove(path)
        by(path)
    return make


def taken_away(path):
    def undo():
        subprocess.run(["chmod", "-R", "u+rwx", os.path.dirname(path)], stderr=subprocess.DEVNULL)
        if os.path.isdir(path) and not os.path.islink(path):
            shutil.rmtree(path)
        elif os.path.lexists(path):
            os.remove(path)
    return undo


def places(size):
    return range(size) if not torn else sorted({0, 1, size - 1, size - 2, size - 4} | {r.randrange(size) for _ in range(torn)})


def copies(age):
    def files_of(key):
        base = f"{folders[age]}/debug/{key}"
        return sorted((path.removeprefix(f"{base}/"), it[1]) for path, it in files_below(base).items())
    return files_of


def several(*makes):
    def make():
        for it in makes:
            it()
    return make


def all_records(age, unit):
    return get(f"{folders[age]}/debug/{unit}.record")


# The folders, and what a build from nothing gives.

folders = {}
for age in ("before", "now"):
    clean()
    sources(age)
    wanted = built()
    if wanted.status:
        sys.exit(f"a build from nothing: {wanted}")
    folders[age] = saved()
files = made()
if wrong_records():
    sys.exit(f"the reader of records does not read: {wrong_records()}")
for unit in UNITS:
    if records.written(kept(f"{DEBUG}/{unit}.record")) != get(f"{DEBUG}/{unit}.record"):
        sys.exit(f"{unit}: the reader of records writes another text")

for age in (None, "before", "now"):
    lie("no lie", "none", age, lambda: None)
# Other things than files and folders, where these should be.

def folder_with_a_file(path):
    put(f"{path}/x/y", "z\n")


def pipe(path):
    os.mkfifo(path)


def ear(path):
    here = os.getcwd()
    os.chdir(os.path.dirname(path))
    it = socket.socket(socket.AF_UNIX)
    it.bind(os.path.basename(path))
    it.close()
    os.chdir(here)


def link_to(target):
    return lambda path: os.symlink(target, path)


def file_of(text):
    return lambda path: put(path, text)


THINGS = {"an empty folder": os.mkdir, "a folder with a file": folder_with_a_file, "an empty file": file_of(b""), "a file": file_of(b"x\n"), "a link to itself": link_to("x.link"), "a link to nowhere": link_to("/nowhere/at/all"), "a link to a file outside": link_to(f"{beside}/precious"), "a link to a folder outside": link_to(f"{beside}/inner"), "a link to the root": link_to("/"), "a pipe": pipe, "a socket": ear}
PLACES = [f"{A}.record", f"{LIB}.record", A, RUN, f"{A}/liba.rlib", f"{A}/a.d", f"{A}/x", f"{RUN}/made.txt", f"{DEBUG}/x.record", f"{DEBUG}/x", DEBUG, f"{work}/target"]
for name, by in THINGS.items():
    # (with a link to the root there a build writes into the machine's own)
    for path in PLACES[:-2] if "root" in name else PLACES:
        for age in ("before", "now"):
            inner = path in (f"{A}/liba.rlib", f"{A}/a.d", f"{A}/x", f"{RUN}/made.txt", A, RUN) and age == "now"
            lie(f"{name} where something else should be", path.removeprefix(work), age, replaced(path, by), taken_away(path), free=inner, limit=20, leads_out=path in (DEBUG, f"{work}/target") and "outside" in name)
for path in (f"{A}.record", f"{LIB}.record"):
    other = f"{DEBUG}/b.target.bin-b.record"
    lie("a link to another record", path.removeprefix(work), "now", replaced(path, link_to(other)))
    lie("a link to its own record elsewhere", path.removeprefix(work), "now", several(lambda path=path: shutil.move(path, f"{beside}/moved"), replaced(path, link_to(f"{beside}/moved"))))
    lie("a link to its own record elsewhere", path.removeprefix(work), "before", several(lambda path=path: shutil.move(path, f"{beside}/moved"), replaced(path, link_to(f"{beside}/moved"))))
    lie("a link to its own older record elsewhere", path.removeprefix(work), "now", several(record_edited(os.path.basename(path)[:-7], lambda it: records.older(it, copies("now"))), lambda path=path: shutil.move(path, f"{beside}/moved"), replaced(path, link_to(f"{beside}/moved"))), written=[f"{beside}/moved"])
lie("the target folder is a link to a folder", "target", "now", several(lambda: shutil.move(f"{work}/target", f"{folder}/elsewhere"), lambda: os.symlink(f"{folder}/elsewhere", f"{work}/target")), leads_out=True)
shutil.rmtree(f"{folder}/elsewhere", ignore_errors=True)
for path in (f"{DEBUG}/a.target.lib.record", f"{DEBUG}/x.record"):
    lie("a record that does not end", path.removeprefix(work), "now", replaced(path, link_to("/dev/zero")), taken_away(path), limit=20)
lie("a long record of no form", "64 MiB", "now", replaced(f"{A}.record", lambda path: put(path, b"record 2\n" + b"1" * 67108864)))
lie("a record with a count past all memory", "2^64 - 1", "now", edited(f"{A}.record", lambda it: re.sub(rb"\A(record 2\n\d+\n12\na.target.lib\n\d+\n[^\n]*\n)\d+\n", rb"\g<1>18446744073709551615\n", it)))
lie("a record with a block past its end", "2^64 - 1", "now", edited(f"{A}.record", lambda it: re.sub(rb"\A(record 2\n\d+\n)12\n", rb"\g<1>18446744073709551615\n", it)))

# Names that are not UTF-8, and long and deep ones.

for name in (b"\xff", b"\xff.record", b"a.target.lib\xff.record", b"x" * 255, b" ", b"\n.record", b".record"):
    for place in (DEBUG, f"{work}/target", A, f"{RUN}/x"):
        for kind in ("file", "folder"):
            path = os.fsencode(place) + b"/" + name

            def make(path=path, kind=kind):
                os.makedirs(os.path.dirname(path), exist_ok=True)
                if kind == "folder":
                    os.makedirs(path)
                else:
                    with open(path, "wb") as it:
                        it.write(b"x\n")
            def undo(path=path, kind=kind):
                if os.path.lexists(path):
                    os.rmdir(path) if kind == "folder" else os.remove(path)
            for age in ("before", "now"):
                lie("a name that is not UTF-8, long or odd", f"{path!r} a {kind}", age, make, undo, free=place in (A, f"{RUN}/x") and age == "now")
for depth in (120, 140):
    def deep(depth=depth):
        os.makedirs(A + "/d" * depth)
        put(A + "/d" * depth + "/x", "x\n")
    for age in ("before", "now"):
        lie(f"folders {depth} deep in a unit's folder", str(depth), age, deep, lambda: shutil.rmtree(f"{A}/d", ignore_errors=True), free=age == "now")

# What may not be read or written: by nobody, since root may do all.

if ROOT:
    os.chmod(folder, 0o777)
    for path in (f"{A}.record", f"{LIB}.record", A, f"{A}/liba.rlib", f"{A}/a.d", RUN, f"{RUN}/made.txt", DEBUG, f"{work}/target", f"{work}/a/src/part.txt", f"{work}/b/data.txt", f"{work}/a/src"):
        for mode in (0o000, 0o444, 0o555, 0o300):
            for age in ("before", "now"):
                was = {}

                def make(path=path, mode=mode, was=was):
                    was["mode"] = stat.S_IMODE(os.stat(path).st_mode)
                    os.chmod(path, mode)

                def undo(path=path, was=was):
                    if os.path.lexists(path):
                        os.chmod(path, was["mode"])
                lie("what may not be read or written", f"{path.removeprefix(work)} {mode:o}", age, make, undo, as_nobody=True, may_be_bad=not path.startswith(f"{work}/target"))

# Records.

for unit in UNITS:
    for age in ("before", "now"):
        path = f"{DEBUG}/{unit}.record"
        text = all_records(age, unit)
        for other in UNITS:
            if other != unit:
                lie("a record of another key", f"{other} at {unit}", age, edited(path, lambda _, it=all_records(age, other): it))
                lie("a record of another key, told by its key", f"{other} at {unit}", age, record_edited(unit, lambda it, it2=other: it._replace(key=it2)))
        for size in places(len(text)):
            lie("a record torn at a byte", f"{unit} at {size}", age, edited(path, lambda it, size=size: it[:size]))
        lie("a record with something behind its end", unit, age, edited(path, lambda it: it + b"\n"))
        lie("a record with something before it", unit, age, edited(path, lambda it: b"\n" + it))
    for at in places(len(all_records("now", unit))):
        lie("a record with a changed byte", f"{unit} at {at}", "now", edited(f"{DEBUG}/{unit}.record", lambda it, at=at: it[:at] + bytes([it[at] ^ 1]) + it[at + 1 :]), free=True)
        lie("a record of before with a changed byte", f"{unit} at {at}", "before", edited(f"{DEBUG}/{unit}.record", lambda it, at=at: it[: at % len(it)] + bytes([it[at % len(it)] ^ 1]) + it[at % len(it) + 1 :]))
    for age in ("before", "now"):
        lie("a record of the older format", unit, age, record_edited(unit, lambda it, age=age: records.older(it, copies(age))))
    lie("a record of the older format, with copies of before", unit, "now", record_edited(unit, lambda it: records.older(it, copies("before"))))
    for size in places(len(records.written(records.older(records.read(all_records("now", unit)), copies("now"))))):
        lie("a record of the older format, torn at a byte", f"{unit} at {size}", "now", edited(f"{DEBUG}/{unit}.record", lambda it, size=size: records.written(records.older(records.read(it), copies("now")))[:size]))
    lie("a record of before", unit, "now", edited(f"{DEBUG}/{unit}.record", lambda _, it=all_records("before", unit): it))
    lie("a record of now", unit, "before", edited(f"{DEBUG}/{unit}.record", lambda _, it=all_records("now", unit): it), free=True)
for age in ("before", "now"):
    lie("all records of the older format", "all", age, several(*(record_edited(unit, lambda it, age=age: records.older(it, copies(age))) for unit in UNITS)))
lie("all records of the other folder", "of now", "before", several(*(edited(f"{DEBUG}/{unit}.record", lambda _, it=all_records("now", unit): it) for unit in UNITS)), free=True)
lie("all records of the other folder", "of before", "now", several(*(edited(f"{DEBUG}/{unit}.record", lambda _, it=all_records("before", unit): it) for unit in UNITS)))
for number in (0, 1, records.MOST - 3, records.MOST - 1, records.MOST):
    for age in ("before", "now"):
        undo = lambda: [os.remove(f"{DEBUG}/{it}") for it in os.listdir(DEBUG) if it.endswith(".record")]
        for unit in UNITS:
            lie("a run number at the limit", f"{unit} {number}", age, record_edited(unit, lambda it, number=number: it._replace(number=number)), undo)
        lie("a named number at the limit", f"{number}", age, record_edited("b.target.lib", lambda it, number=number: it._replace(needs=[(key, number) for key, _ in it.needs])), undo)
        put(f"{folder}/stray", records.written(records.read(all_records("now", "a.target.lib"))._replace(number=number)))
        lie("a record of no unit with a number at the limit", f"{number}", age, lambda: shutil.copy(f"{folder}/stray", f"{DEBUG}/x.record"), undo)
lie("a run number past the limit", "2^64", "now", edited(f"{A}.record", lambda it: b"record 2\n18446744073709551616\n" + it.split(b"\n", 2)[2]))

# A disk that is full: each size in turn.

def on_small_disk(size):
    clean()
    sources("now")
    os.makedirs(f"{folder}/small", exist_ok=True)
    subprocess.run(["mount", "-t", "tmpfs", "-o", f"size={size}k", "tmpfs", f"{folder}/small"], check=True)
    os.symlink(f"{folder}/small", f"{work}/target")


if ROOT and only in "a disk that is full":
    for size in range(4, 180, 4 * share):
        try:
            on_small_disk(size)
        except subprocess.CalledProcessError:
            print("no small disk can be made here: nothing was tried on a full one")
            break
        now = built()
        said, how = judge(now)
        if now.status == 101 and "error: bad " in now.said:  # the small compiler itself could not write
            said, how = [], "bad " + now.said.splitlines()[-1].split()[2:4][-1]
        for path in (f"{DEBUG}/{unit}.record" for unit in UNITS):
            it = kept(path)
            if not isinstance(it, str) and f"{it.key}.record" != os.path.basename(path):
                said.append(f"{path}: the key {it.key}")
        tally["a disk that is full"][how] += 1
        subprocess.run(["mount", "-o", "remount,size=64m", f"{folder}/small"], check=True)
        again = built()
        more, then = judge(again)
        if more or then != "right":
            said.append(f"with room again: {then} {more}")
        if said:
            wrong.append(f"a disk of {size} KiB: {said}")
            print("wrong:", wrong[-1], flush=True)
        os.remove(f"{work}/target")
        subprocess.run(["umount", f"{folder}/small"], check=True)

tell()
