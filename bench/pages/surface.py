#!/usr/bin/env python3
"""Whether the crates hand out the public names of `surface.txt`: `surface.py [--short]`.

For each call and type it prints the crate that hands it out, and how its form differs from the one in the list. Fields
and variants are the form of their type. `--short` leaves out what is as wanted. A crate hands out a name if its
`lib.rt` has it in a `pub use`.

A row of the table in docs/DECISIONS.md, "The public calls", begins with a name that has another form. The status is 1
if a name is missing or has another form, and no row begins with it. It is also 1 if two rows begin with one name, or if
a row begins with a name that is as wanted or is not in the list.

Compared are the number and types of parameters, the result, and the order of fields and variants. Allocators are left
out, and so is the `Result` of a call that fails with out of memory only. Types of `pb_data` count as those of std, and
a type parameter counts as the trait that bounds it.
"""
import functools
import os
import re
import sys
from collections import namedtuple

TOP = os.path.dirname(os.path.dirname(os.path.dirname(os.path.abspath(__file__))))


# What a type counts as, in this order.
PLAIN = [
    (r"'\w+ |<'\w+>", ""),
    (r"\b(?:Text|AsStr)\b", "String"),
    (r"\bBytes\b", "Vec<u8>"),
    (r"\bOrderedSet\b", "Vec<String>"),
    (r"\bItems<", "Vec<"),
    (r"\bTable<Text>|\bTable<String>", "Vec<(String, String)>"),
    (r"&String\b", "&str"),
]

ITEM = re.compile(r"^(?:pub(?:\(\w+\))? )?(struct|enum|trait|type|fn|impl|use|mod|const|ghost)\b[^\n]*", re.M)
Wanted = namedtuple("Wanted", "crate kind name form")
Item = namedtuple("Item", "kind text")


def wanted_names():
    """The lines of the list."""
    for line in open(f"{TOP}/bench/pages/surface.txt", encoding="utf-8"):
        if line.strip() and not line.startswith("#"):
            crate, kind, name, *form = (part.strip() for part in line.split("|", 3))
            yield Wanted(crate, kind, name, form[0] if form else "" if kind == "variant" else "_")


def without_comments(text):
    """The code without comments and attributes."""
    return re.sub(r"^\s*(?://|#!?\[).*\n", "", text, flags=re.M)


def items_of_file(path):
    """The items of a file."""
    text = without_comments(open(path, encoding="utf-8").read())
    starts = list(ITEM.finditer(text))
    ends = [it.start() for it in starts[1:]] + [len(text)]
    return [Item(it[1], text[it.start():end]) for it, end in zip(starts, ends)]


@functools.cache
def items(crate):
    """The items of a crate, those of `lib.rt` apart."""
    found = []
    for folder, _, files in os.walk(f"{TOP}/crates/{crate}/src"):
        found += [it for file in sorted(files) if file != "lib.rt" for it in items_of_file(f"{folder}/{file}")]
    return found


@functools.cache
def crates():
    """The crates that are libraries and no tests."""
    every = sorted(os.listdir(f"{TOP}/crates"))
    return [it for it in every if not it.startswith("pb_tests_") and os.path.exists(f"{TOP}/crates/{it}/src/lib.rt")]


@functools.cache
def handed_out(crate):
    """The names that a crate hands out, each with the crate that defines it."""
    found = {}
    if crate not in crates():
        return found
    for item in items_of_file(f"{TOP}/crates/{crate}/src/lib.rt"):
        use = re.match(r"pub use (\w+)::(?:\w+::)*(?:\{([^}]*)\}|(\w+));", item.text)
        for name in re.findall(r"\w+", (use[2] or use[3]) if use else ""):
            found[name] = handed_out(use[1]).get(name, use[1]) if use[1] in crates() else crate
    return found


def place_of(crate, name):
    """The crate that hands out a name, and the one that defines it; none if no crate does."""
    near = [crate]
    for it in near + sorted(crates(), key=lambda it: not it.startswith(crate)):
        if name in handed_out(it):
            return it, handed_out(it)[name]
    return None


def split_at_commas(text):
    """The parts of a text between the commas that no bracket encloses."""
    parts, depth, part = [], 0, ""
    for at, char in enumerate(text):
        if char in "(<[{":
            depth += 1
        elif char in ")]}" or char == ">" and text[at - 1] != "-":
            depth -= 1
        if char == "," and depth == 0:
            parts.append(part)
            part = ""
        else:
            part += char
    return [it.strip() for it in [*parts, part] if it.strip()]


def enclosed(text, opening, closing):
    """What the first bracket of a text encloses, if the text begins with one, and what is behind it."""
    if not text.startswith(opening):
        return "", text
    depth = 0
    for at, char in enumerate(text):
        if char == opening:
            depth += 1
        elif char == closing and text[at - 1] != "-":
            depth -= 1
            if depth == 0:
                return text[1:at], text[at + 1:]
    raise ValueError(f"no `{closing}`: {text[:80]}")


def bounds(generics):
    """The traits that bound type parameters, by parameter. `Drop` bounds nothing."""
    found = {}
    for part in split_at_commas(generics):
        name, _, traits = part.partition(":")
        traits = [it.strip() for it in traits.split("+") if it.strip() not in ("", "Drop")]
        if traits:
            found[name.strip()] = " + ".join(re.sub(r"<.*>", "", it) for it in traits)
    return found


def plain(text, bound):
    """A type as it counts: with std's types and the traits of type parameters."""
    text = re.sub(r"\s+", " ", text).strip()
    text = re.sub(r"\b[A-Z]\b", lambda it: bound.get(it[0], it[0]), text)
    for old, new in PLAIN:
        text = re.sub(old, new, text)
    while (shorter := re.sub(r"&Vec<((?:[^<>]|<[^<>]*>)*)>", r"&[\1]", text)) != text:
        text = shorter
    text = re.sub(r"^Result<(.*), AllocError>$", r"\1", text)
    return "" if text == "()" else text


def signature(text, outer):
    """The form of a call whose text begins behind its name; `outer` are the bounds of what it is in."""
    generics, text = enclosed(text, "<", ">")
    bound = {**outer, **bounds(generics)}
    inside, text = enclosed(text, "(", ")")
    types = []
    for part in split_at_commas(inside):
        _, colon, kind = part.partition(":")
        types.append(plain(kind if colon else part, bound))
    result = re.match(r"\s*->\s*(.*?)(?=\s*(?:[{;]|\brequires\b|\bensures\b|\bwhere\b))", text, re.S)
    result = plain(result[1], bound) if result else ""
    return f"({', '.join(it for it in types if it != 'Global')})" + (f" -> {result}" if result else "")


def head(item, kind, name):
    """What is behind the name of a public item of a kind, if it is that item."""
    found = re.match(rf"pub {kind} {name}\b", item.text)
    return item.text[found.end():] if found else None


def method_text(crate, owner, name):
    """What is behind the name of a method, and the bounds around it; none if there is no such method."""
    for item in items(crate):
        generics, rest = enclosed(item.text[4:], "<", ">") if item.kind == "impl" else ("", item.text)
        is_impl = item.kind == "impl" and re.match(rf"\s*{owner}\b", rest)
        is_trait = item.kind == "trait" and head(item, "trait", owner) is not None
        method = re.search(rf"^    {'pub ' if is_impl else ''}fn {name}\b", item.text, re.M)
        if (is_impl or is_trait) and method:
            return item.text[method.end():], bounds(generics)
    return None


def call_form(crate, name):
    """The form of a call, or none if it is not there."""
    owner, _, method = name.rpartition("::")
    if owner:
        found = method_text(crate, owner, method)
        return signature(*found) if found else None
    for item in items(crate):
        rest = head(item, "fn", name)
        if rest is not None:
            return signature(rest, {})
    return None


def parts_of_type(crate, name):
    """The public fields or the variants of a type with their forms; none if there is no such type."""
    for item in items(crate):
        rest = head(item, "(?:struct|enum|trait|type)", name)
        if rest is None:
            continue
        if item.kind in ("trait", "type"):
            return []
        _, rest = enclosed(rest, "<", ">")
        inside, _ = enclosed(rest.lstrip(), "{", "}")
        return [it for part in split_at_commas(inside) for it in one_part(item.kind, part)]
    return None


def one_part(kind, text):
    """A field or a variant, as a list of one, or of none if no user sees it."""
    if kind == "struct":
        name, _, form = text.partition(":")
        return [(name[4:].strip(), plain(form, {}))] if name.startswith("pub ") else []
    name = re.match(r"\w+", text)[0]
    form = re.sub(r",\s*\}", " }", text[len(name):].strip())
    return [(name, plain(form, {}))]


def required_methods(crate, name):
    """The methods of a trait that have no body of their own."""
    trait = next((it.text for it in items(crate) if head(it, "trait", name) is not None), "")
    methods = [it for it in re.split(r"^    (?=fn |ghost )", trait, flags=re.M) if it.startswith("fn ")]
    return [re.match(r"fn (\w+)", it)[1] for it in methods if not re.search(r"(?:^    | )\{$", it, re.M)]


def is_as(form, wanted):
    """Whether a form is the wanted one, in which `_` is anything."""
    return re.fullmatch(re.sub(r"\b_\b", ".*", re.escape(wanted)), form) is not None


def differences_of_call(wanted, crate):
    """How a call differs from the wanted one."""
    form = call_form(crate, wanted.name)
    if form is None:
        return ["missing"]
    return [] if is_as(form, wanted.form) else [f"is `{form}`"]


def differences_of_type(wanted, parts, calls, crate):
    """How a type differs from the wanted one, which has these fields or variants, and these calls if it is a trait."""
    found = parts_of_type(crate, wanted.name)
    if found is None:
        return ["missing"]
    names, forms = [last_part(it.name) for it in parts], dict(found)
    differences = [f"`{name}` is `{forms[name]}`" for name, it in zip(names, parts)
                   if name in forms and not is_as(forms[name], it.form)]
    if parts and names != list(forms):
        differences.insert(0, f"has {', '.join(forms)}")
    more = [it for it in required_methods(crate, wanted.name) if it not in calls]
    return differences + ([f"requires {', '.join(more)}"] if more else [])


def last_part(name):
    """The last part of a name."""
    return name.rpartition("::")[2]


def differences_of(wanted, inside):
    """The crate that hands out a call or a type, and how it differs from the wanted one."""
    place = place_of(wanted.crate, wanted.name.partition("::")[0])
    if place is None:
        return None, ["missing"]
    giver, definer = place
    if wanted.kind == "call":
        differences = differences_of_call(wanted, definer)
    else:
        parts = [it for it in inside if it.kind != "call"]
        calls = [last_part(it.name) for it in inside if it.kind == "call"]
        differences = differences_of_type(wanted, parts, calls, definer)
    is_near = giver == wanted.crate
    return giver, differences + ([] if is_near else [f"handed out by `{giver}`"])


def told_names():
    """The names with which rows of the table of public calls begin; a name of two rows is there twice."""
    text = open(f"{TOP}/docs/DECISIONS.md", encoding="utf-8").read()
    section = re.search(r"^## The public calls\n(.*?)(?=^## )", text, re.M | re.S)[1]
    rows = [line for line in section.split("\n") if " | " in line]
    return [name[1] for row in rows if (name := re.match(r"`(\w+(?:::\w+)*)", row))]


def report(wanted, names, rows):
    """Prints what is found of a call or a type, and returns whether it differs, and whether its rows are wrong."""
    inside = [it for it in names if it.crate == wanted.crate and it.name.startswith(f"{wanted.name}::")]
    giver, differences = differences_of(wanted, inside)
    is_wrong = rows != (1 if differences else 0)
    if differences or is_wrong or "--short" not in sys.argv:
        note = f"; WRONG: {rows} rows in DECISIONS" if is_wrong else ""
        print(f"{wanted.crate} {wanted.name}: {'; '.join(differences) or 'as wanted'} ({giver or 'no crate'}){note}")
    return bool(differences), is_wrong


def main():
    names, told = list(wanted_names()), told_names()
    found = [report(it, names, told.count(it.name)) for it in names if it.kind in ("call", "type")]
    other, wrong = (sum(it) for it in zip(*found))
    unknown = sorted(set(told) - {it.name for it in names})
    if unknown:
        print(f"WRONG: rows in DECISIONS that the list does not have: {', '.join(unknown)}")
    print(f"{len(found) - other} calls and types are as wanted, {other} are not; of {wrong} the rows are wrong")
    return 1 if wrong or unknown else 0


if __name__ == "__main__":
    sys.exit(main())
