#!/usr/bin/env python3
"""The tests and the definitions of each rule: `rules.py [--check] [RULE]`.

A rule is an anchor of `docs/RULES.md`, as `members.globs`. A test says in its comment which rules it is about; a case of
a table says it in its first line, `=== [RULE] NAME`. `rules.txt` beside this file says it of the examples, and names the
definitions of each rule. Without a word it prints all rules, each with the number of its tests; with a RULE, or the part
before a dot, each test and definition of it.

With `--check` it prints what is wrong: a rule without a test or without a line of definitions, a test or a case without a
rule, a name that is no rule, a file of definitions that is not there. The status is then 1.
"""
import glob
import os
import re
import sys

TOP = os.path.dirname(os.path.dirname(os.path.dirname(os.path.abspath(__file__))))
CRATES = f"{TOP}/crates"


def read(path):
    """The text of a file."""
    with open(path, encoding="utf-8") as it:
        return it.read()


def rules():
    """The ids of the rules, in the order of the page."""
    return re.findall(r'<a id="([^"]+)"></a>', read(f"{TOP}/docs/RULES.md"))


def listed():
    """The definitions of each rule, and the rules of each example."""
    defined, examples = {}, {}
    for line in read(f"{TOP}/bench/pages/rules.txt").split("\n"):
        if line and not line.startswith("#"):
            name, _, words = line.partition(": ")
            if name.startswith("example "):
                examples[name.removeprefix("example ")] = words.split()
            else:
                defined[name] = words.split()
    return defined, examples


def cases_of(path, text):
    """The cases of a file of tables: where each is, its rule, and its name."""
    for number, line in enumerate(text.split("\n"), 1):
        if re.match(r'(pub const \w+: &str = |\s+)?(r#")?=== \S', line):
            head = line.split("=== ", 1)[1]
            found = re.match(r"\[([\w.-]+)\] (.*)", head)
            yield f"{path}:{number}", [found[1]] if found else [], found[2] if found else head


def tests_of(path, text):
    """The tests of a file: where each is, its rules, and its name."""
    for it in re.finditer(r"((?:///[^\n]*\n)*)#\[test\]\nfn (\w+)", text):
        said = re.search(r"/// Rules: (.*)\.\n", it[1])
        number = text[: it.start(2)].count("\n") + 1
        yield f"{path}:{number}", re.findall(r"`([\w.-]+)`", said[1]) if said else [], it[2]


def found():
    """All tests, cases and examples."""
    every = []
    for path in sorted(glob.glob(f"{CRATES}/pb_tests_*/src/**/*.rt", recursive=True)):
        text = read(path)
        every += [*cases_of(os.path.relpath(path, CRATES), text), *tests_of(os.path.relpath(path, CRATES), text)]
    examples = listed()[1]
    files = {os.path.basename(it).rsplit(".", 1)[0]: it for it in sorted(glob.glob(f"{CRATES}/pb_examples/data/*"))
             if it.endswith((".json", ".sh"))}
    every += [(os.path.relpath(it, CRATES), examples.pop(name, []), name) for name, it in files.items()]
    return every, sorted(examples)


def faults(every, lost):
    """What is wrong."""
    ids, defined = rules(), listed()[0]
    tested = {rule for _, of, _ in every for rule in of}
    yield from (f"{it}: two rules have this id" for it in sorted(set(ids)) if ids.count(it) > 1)
    yield from (f"{it}: no test" for it in ids if it not in tested)
    yield from (f"{it}: no line of definitions" for it in ids if it not in defined)
    yield from (f"{it}: rules.txt defines it, and it is no rule" for it in defined if it not in ids)
    yield from (f"{at}: {name}: no rule" for at, of, name in every if not of)
    yield from (f"{at}: {rule} is no rule" for at, of, _ in every for rule in of if rule not in ids)
    yield from (f"rules.txt: there is no example {name}" for name in lost)
    for rule, (crate, *files) in defined.items():
        if crate != "-" and not files:
            yield f"{rule}: no file of definitions"
        yield from (f"{rule}: there is no {crate}/specs/{it}.antt" for it in files if not os.path.isfile(f"{CRATES}/{crate}/specs/{it}.antt"))


def main(words):
    """Prints rules, or what is wrong; the status."""
    every, lost = found()
    if "--check" in words:
        wrong = list(faults(every, lost))
        print("\n".join(wrong) or f"{len(rules())} rules, {len(every)} tests and cases: nothing is wrong")
        return 1 if wrong else 0
    wanted = next((it for it in words if not it.startswith("-")), None)
    defined = listed()[0]
    for rule in rules():
        of = [(at, name) for at, its, name in every if rule in its]
        if wanted is None:
            print(f"{rule:26} {len(of)}")
        elif rule == wanted or rule.startswith(f"{wanted}."):
            print(f"{rule}: {' '.join(defined.get(rule, []))}", flush=True)
            print("".join(f"  {at}  {name}\n" for at, name in of), end="")
    return 0


if __name__ == "__main__":
    sys.exit(main(sys.argv[1:]))
