import collections, os, subprocess, sys

folder, program = sys.argv[1:]
ASKED = b"5\nrustc\n2\n2\n-C\n0\n\n2\n/w\n2\n1\nA\n1\n1\n2\nAB\n0\n\n4\n/w/t\n2\n/t\n3\nx\ny\n1\n2\n/r\n"
INPUTS = b"3\nf\n4\n/w/a\n2\nok\nt\n2\n/w\n1\n3\nb/c\n1\n\n\nv\n1\nV\n1\n0\n\n"
END = b"3\nout\n3\nerr\nend\n"
RECORDS = {
    "numbers": b"record 2\n7\n12\na.target.lib\n" + ASKED + INPUTS + b"2\n1\nb\n3\n1\nc\n6\n" + END,
    "copies": b"record 1\n12\na.target.lib\n" + ASKED + INPUTS + b"2\n1\nb\n2\n1\nf\n1\n1\n3\ng/h\n0\n\n1\nc\n0\n" + END,
    "torn": (b"record 2\n7\n12\na.target.lib\n" + ASKED + INPUTS + b"2\n1\nb\n3\n1\nc\n6\n" + END)[:-1],
}
WANTED = {"numbers": "same\n", "copies": "same\n", "torn": "none\n"}


def run(path, **more):
    settings = dict(os.environ, LD_PRELOAD=f"{folder}/failing.so", **more)
    return subprocess.run([program, path], env=settings, capture_output=True, text=True)


came, wrong = collections.Counter(), 0
for name, text in RECORDS.items():
    path = f"{folder}/{name}"
    with open(path, "wb") as it:
        it.write(text)
    whole = run(path, ALLOCATIONS_FILE=f"{folder}/count")
    if whole.returncode or whole.stdout != WANTED[name]:
        sys.exit(f"{name}: {whole.stdout}{whole.stderr}")
    count = int(open(f"{folder}/count").read())
    for number in range(1, count + 1):
        for more in ({}, {"FROM_THEN_ON": "1"}):
            said = run(path, FAILING_ALLOCATION=str(number), **more)
            if said.returncode == 0 and said.stdout == WANTED[name]:
                came["the right answer"] += 1
            elif said.returncode == 1 and not said.stdout:
                came["want of memory"] += 1
            else:
                wrong += 1
                print(f"{name}, allocation {number}: status {said.returncode}, {said.stdout}{said.stderr}")
print(", ".join(f"{name} {number}" for name, number in sorted(came.items())) + f", anything else {wrong}")
sys.exit(1 if wrong else 0)
