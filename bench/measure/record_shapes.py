import sys

front, asked, end = b"1\na\n1\nm\n", b"1\n/\n0\n2\n/z\n2\n/t\n0\n\n0\n", b"0\n\nend\n"


def block(size):
    return b"%d\n" % size + b"x" * size + b"\n"


def listed(item, size):
    count = size // len(item)
    return b"%d\n" % count + item * count


def record(first, words, inputs, needed, stdout):
    return first + front + words + asked + inputs + needed + stdout + end


def of(shape, size):
    two, none, empty = b"record 2\n1\n", b"0\n", b"0\n\n"
    if shape == "file":
        return record(two, none, b"1\nf\n4\n/w/a\n" + block(size), none, empty)
    if shape == "files":
        return record(two, none, listed(b"f\n16\n/w/src/a/name.rs\n25\nfn main() { main(); } //\n\n", size), none, empty)
    if shape == "words":
        return record(two, listed(b"21\n--extern=name=library\n", size), none, none, empty)
    if shape == "needs":
        return record(two, none, none, listed(b"19\npackage1.target.lib\n123\n", size), empty)
    if shape == "streams":
        return record(two, none, none, none, block(size))
    copy = b"12\na.target.lib\n1\n9\nliba.rlib\n32\n0123456789abcdef0123456789abcdef\n"
    return record(b"record 1\n", none, none, listed(copy, size), empty)


for shape in ("file", "files", "words", "needs", "streams", "copies"):
    for kib in sys.argv[2:]:
        with open(f"{sys.argv[1]}/{shape}.{kib}", "wb") as it:
            it.write(of(shape, int(kib) << 10))
