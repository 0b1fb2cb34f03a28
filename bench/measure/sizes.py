import os, re, shutil, subprocess, sys, threading, time

program, compiler, folder, only, rounds = sys.argv[1:]
wrong = 0


def put(path, text):
    os.makedirs(os.path.dirname(path), exist_ok=True)
    with open(path, "w") as it:
        it.write(text)


def manifest(name, more=""):
    return f'[package]\nname = "{name}"\nversion = "0.1.0"\nedition = "2021"\n{more}'


def built(work, jobs, what, started, more=()):
    """Builds, and prints a row; what is wrong is counted."""
    global wrong
    words = [program, "build", "--manifest-path", f"{work}/Cargo.toml", "--jobs", str(jobs), "--runner", f"{compiler} --run", "--explain", *more]
    peak, begun, before = [], time.perf_counter(), os.times()
    with open(f"{folder}/out", "wb") as out, open(f"{folder}/err", "wb") as err:
        child = subprocess.Popen(words, env={"PATH": os.environ["PATH"], "RUSTC": compiler}, stdout=out, stderr=err, stdin=subprocess.DEVNULL)
        ticks, at = [], os.sysconf("SC_CLK_TCK")

        def own():
            while child.poll() is None:
                try:
                    with open(f"/proc/{child.pid}/stat") as it:
                        told = it.read().rpartition(")")[2].split()
                    ticks.append((int(told[11]) + int(told[12])) / at)
                    with open(f"/proc/{child.pid}/status") as it:
                        peak.append(int(re.search(r"VmHWM:\s+(\d+)", it.read())[1]))
                except (OSError, TypeError, IndexError):
                    pass
                time.sleep(0.002)

        watcher = threading.Thread(target=own)
        watcher.start()
        watcher.join()
        status = child.wait()
    clock, after = time.perf_counter() - begun, os.times()
    whole = after.children_user + after.children_system - before.children_user - before.children_system
    itself = max(ticks, default=0)
    with open(f"{folder}/err", errors="replace") as it:
        said = it.read()
    told = re.search(r"(\d+) started, \d+ kept", said)
    came = int(told[1]) if told else -1
    if status or came != started:
        wrong += 1
        print(f"wrong: {what}: status {status}, {came} started, not {started}: {said[-300:]}")
    print(f"| {what} | {jobs} | {clock:.2f} | {itself:.2f} | {max(0, whole - itself):.2f} | {max(peak, default=0) / 1024:.0f} | {came} |", flush=True)
    return clock


def size_of(work):
    total = 0
    for above, _, names in os.walk(f"{work}/target"):
        total += sum(os.path.getsize(f"{above}/{name}") for name in names if name.endswith(".record"))
    return total / 1048576


def units():
    work = f"{folder}/units"
    names = "".join(f'[[bin]]\nname = "b{n:04}"\npath = "b.rs"\n' for n in range(4095))
    put(f"{work}/Cargo.toml", manifest("a", names))
    put(f"{work}/b.rs", "use a\n")
    put(f"{work}/src/lib.rs", "print x\n")
    for jobs in (1, 4):
        shutil.rmtree(f"{work}/target", ignore_errors=True)
        built(work, jobs, "4,096 units, from nothing", 4096)
    built(work, 1, "the same, nothing changed", 0)
    put(f"{work}/src/lib.rs", "print y\n")
    built(work, 4, "the same, an edit of the library", 4096)
    built(work, 1, "the same, nothing changed", 0)
    print(f"records of 4,096 units: {size_of(work):.1f} MB")


def chain():
    work = f"{folder}/chain"
    put(f"{work}/Cargo.toml", '[workspace]\nmembers = ["m*"]\n')
    for n in range(256):
        needs = f'[dependencies]\nm{n - 1:03} = {{ path = "../m{n - 1:03}" }}\n' if n else ""
        put(f"{work}/m{n:03}/Cargo.toml", manifest(f"m{n:03}", needs))
        put(f"{work}/m{n:03}/src/lib.rs", f"use m{n - 1:03}\n" if n else "print 0\n")
    built(work, 1, "256 packages in a chain, from nothing", 256)
    sizes, clocks = [], []
    for number in range(int(rounds)):
        put(f"{work}/m000/src/lib.rs", f"print {number + 1}\n")
        built(work, 4, f"the same, edit {number + 1} of the first", 256)
        clocks.append(built(work, 1, "the same, nothing changed", 0))
        sizes.append(size_of(work))
    print(f"the chain again and again: nothing changed took {min(clocks):.2f} to {max(clocks):.2f} seconds, first {clocks[0]:.2f}, last {clocks[-1]:.2f}; records {sizes[0]:.2f} MB after the first edit, {sizes[-1]:.2f} MB after the last")


def files():
    work = f"{folder}/files"
    put(f"{work}/Cargo.toml", manifest("a"))
    put(f"{work}/src/lib.rs", "print x\n")
    put(f"{work}/build.rs", "print nothing\n")
    for n in range(100000):
        if n % 1000 == 0:
            os.makedirs(f"{work}/data/{n // 1000:03}", exist_ok=True)
        with open(f"{work}/data/{n // 1000:03}/{n}.txt", "w") as it:
            it.write(f"text {n}\n")
    built(work, 1, "a script over 100,000 files, from nothing", 3)
    built(work, 1, "the same, nothing changed", 0)
    put(f"{work}/data/050/50000.txt", "edited\n")
    built(work, 1, "the same, an edit of one of them", 2)
    built(work, 1, "the same, nothing changed", 0)
    print(f"records of 100,000 files: {size_of(work):.1f} MB")


def source():
    work = f"{folder}/source"
    put(f"{work}/Cargo.toml", manifest("a"))
    put(f"{work}/src/lib.rs", ("# " + "x" * 1021 + "\n") * 65536)
    print(f"the source has {os.path.getsize(f'{work}/src/lib.rs'):,} bytes")
    built(work, 1, "a source of 64 MiB, from nothing", 1)
    built(work, 1, "the same, nothing changed", 0)
    with open(f"{work}/src/lib.rs", "r+b") as it:
        it.seek(33554432 + 512)
        it.write(b"y")
    built(work, 1, "the same, a byte changed in its middle", 1)
    built(work, 1, "the same, nothing changed", 0)
    print(f"its record: {size_of(work):.1f} MB")


print("| build | jobs | clock | itself | children | MB | started |\n|---|---|---|---|---|---|---|")
for part in (units, chain, files, source):
    if only in part.__name__:
        part()
print(f"{wrong} builds were wrong")
sys.exit(min(wrong, 1))
