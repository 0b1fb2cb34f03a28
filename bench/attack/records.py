"""Reads records and writes them, by what docs/RULES.md says of their form and by nothing of the builder's code. Read by
`lying.sh` and `soak.sh`."""
import collections, os

Record = collections.namedtuple("Record", "form number key program words folder variables out target toolchain reads inputs needs stdout stderr")
MOST = 18446744073709551615


class NoRecord(Exception):
    pass


class Reading:
    def __init__(self, text):
        self.text, self.at = text, 0

    def line(self):
        end = self.text.find(b"\n", self.at)
        if end < 0:
            raise NoRecord("a line does not end")
        line, self.at = self.text[self.at : end], end + 1
        return line

    def number(self):
        line = self.line()
        if not line or not all(48 <= it <= 57 for it in line) or (len(line) > 1 and line[0] == 48) or int(line) > MOST:
            raise NoRecord(f"no number: {line[:30]!r}")
        return int(line)

    def bytes(self):
        size = self.number()
        found, self.at = self.text[self.at : self.at + size], self.at + size + 1
        if self.text[self.at - 1 : self.at] != b"\n":
            raise NoRecord("a block does not end")
        return found

    def words(self):
        try:
            return self.bytes().decode()
        except UnicodeDecodeError:
            raise NoRecord("a text is not UTF-8")

    def path(self):
        found = self.words()
        if not found.startswith("/") or (found != "/" and os.path.normpath(found) != found) or found.startswith("//") or "\0" in found:
            raise NoRecord(f"no path: {found[:60]!r}")
        return found

    def within(self):
        found = self.words()
        if not found or found.startswith("/") or os.path.normpath(found) != found or found.split("/")[0] in (".", "..") or "\0" in found:
            raise NoRecord(f"no path inside a folder: {found[:60]!r}")
        return found

    def many(self, *items):
        if len(items) == 1:
            return [items[0]() for _ in range(self.number())]
        return [tuple(it() for it in items) for _ in range(self.number())]

    def files(self):
        return self.many(self.within, self.bytes)

    def input(self):
        kind = self.line()
        if kind == b"f":
            return "f", self.path(), self.bytes()
        if kind == b"t":
            return "t", self.path(), self.files()
        if kind == b"v":
            name, told = self.words(), self.line()
            if told not in (b"0", b"1"):
                raise NoRecord("a variable is set or not")
            return "v", name, self.words() if told == b"1" else None
        raise NoRecord(f"no input: {kind[:30]!r}")


def read(text):
    """The record that a text is, or the reason why it is none (NoRecord)."""
    it = Reading(text)
    head = it.line()
    if head not in (b"record 1", b"record 2"):
        raise NoRecord(f"it begins with {head[:30]!r}")
    form = int(head[-1:])
    number = it.number() if form == 2 else None
    key, program, words, folder = it.words(), it.words(), it.many(it.words), it.path()
    variables = it.many(it.words, it.words)
    out, target, toolchain, reads = it.path(), it.path(), it.bytes(), it.many(it.path)
    inputs = it.many(it.input)
    needs = it.many(it.words, it.number) if form == 2 else it.many(it.words, it.files)
    stdout, stderr = it.bytes(), it.bytes()
    if it.line() != b"end" or it.at != len(text):
        raise NoRecord("it does not end with the line end")
    names = [name.encode() for name, _ in variables]
    if names != sorted(set(names)):
        raise NoRecord("its variables are not in order")
    return Record(form, number, key, program, words, folder, variables, out, target, toolchain, reads, inputs, needs, stdout, stderr)


def written(record):
    """The text of a record."""
    made = []

    def number(it):
        made.append(b"%d\n" % it)

    def block(it):
        it = it.encode() if isinstance(it, str) else it
        made.append(b"%d\n%s\n" % (len(it), it))

    def files(some):
        number(len(some))
        for path, content in some:
            block(path)
            block(content)

    made.append(b"record %d\n" % record.form)
    if record.form == 2:
        number(record.number)
    block(record.key)
    block(record.program)
    number(len(record.words))
    for it in record.words:
        block(it)
    block(record.folder)
    number(len(record.variables))
    for name, value in record.variables:
        block(name)
        block(value)
    for it in (record.out, record.target, record.toolchain):
        block(it)
    number(len(record.reads))
    for it in record.reads:
        block(it)
    number(len(record.inputs))
    for kind, name, value in record.inputs:
        made.append(kind.encode() + b"\n")
        block(name)
        if kind == "f":
            block(value)
        elif kind == "t":
            files(value)
        else:
            made.append(b"0\n" if value is None else b"1\n")
            if value is not None:
                block(value)
    number(len(record.needs))
    for key, told in record.needs:
        block(key)
        if record.form == 2:
            number(told)
        else:
            files(told)
    block(record.stdout)
    block(record.stderr)
    made.append(b"end\n")
    return b"".join(made)


def older(record, files_of):
    """The same record in the older format: copies of the files of the units that it needs, in place of their numbers."""
    return record._replace(form=1, number=None, needs=[(key, files_of(key)) for key, _ in record.needs])
