"""The readings over rows, for tables that no tokenizer made: src/decode.rs and src/codec/deserializer.rs once more,
with rows for tokens, and 01's rules for tables. definitions.py holds it to the Rust on every table of the tokenizer.
The place of a bad reference, which the Rust does not tell, is written from change request 1 and XML 1.0."""

import cases as made

# ------------------------------------------------------------ references

NAMED = {b"lt": 60, b"gt": 62, b"amp": 38, b"quot": 34, b"apos": 39}


def code_of(entity, strict):
    if entity in NAMED:
        return NAMED[entity]
    if entity[:1] != b"#":
        return None
    base, digits = (16, entity[2:]) if entity[1:2] == b"x" else (10, entity[1:])
    if not strict and digits[:1] == b"+":
        digits = digits[1:]
    known = b"0123456789abcdefABCDEF" if base == 16 else b"0123456789"
    if not digits or any(digit not in known for digit in digits):
        return None
    code = int(digits, base)
    if strict:
        fine = code in (9, 10, 13) or 0x20 <= code <= 0xD7FF or 0xE000 <= code <= 0xFFFD or 0x10000 <= code <= 0x10FFFF
    else:
        fine = code <= 0xD7FF or 0xE000 <= code <= 0x10FFFF
    return code if fine else None


def unescape(text, strict=False):
    """The bytes, or None."""
    first, *sections = text.split(b"&")
    out = first
    for section in sections:
        entity, semicolon, rest = section.partition(b";")
        code = code_of(entity, strict) if semicolon else None
        if code is None:
            return None
        out += chr(code).encode("utf-8") + rest
    return out


def failing(text, strict):
    """The place of the first `&` at which no reference that is taken begins, where there is one: change request 1."""
    for at in range(len(text)):
        if text[at:at + 1] == b"&":
            entity, semicolon, _ = text[at + 1:].partition(b";")
            if not semicolon or code_of(entity, strict) is None:
                return at
    return None


# ------------------------------------------------------------ rules


def is_utf8(body):
    try:
        body.decode("utf-8")
    except UnicodeDecodeError:
        return False
    return True


def obeys(body, numbers, final):
    """01, "Token table", "Rules"."""
    if len(numbers) % 8 or len(body) > 65536 or len(numbers) > 8 * 8192 or final > len(body):
        return False
    rows = [numbers[at:at + 8] for at in range(0, len(numbers), 8)]
    if rows and (not is_utf8(body) or rows[-1][7] > final):
        return False
    previous, in_tag, opened, rooted = 0, False, 0, False
    for at, (kind, prefix, prefix_length, local, local_length, value, value_length, position) in enumerate(rows):
        named, valued = kind in (1, 2, 4), kind in (2, 6)
        if not 1 <= kind <= 8 or position < previous:
            return False
        if not named and (prefix_length or local or local_length) or not valued and value_length:
            return False
        if prefix_length == 0 and prefix or value_length == 0 and value:
            return False
        for start, length in ((prefix, prefix_length), (local, local_length), (value, value_length)):
            if length and not (previous <= start and start + length <= position):
                return False
        if named and not previous <= local <= position:
            return False
        if kind in (1, 4):
            begin = body.rfind(b"<", 0, local)
            if begin < 0 or begin < previous or prefix_length and begin >= prefix:
                return False
        if kind in (3, 4, 5) and body[position - 1:position] != b">" or kind == 5 and body[position - 2:position] != b"/>":
            return False
        if in_tag and kind not in (2, 3, 5, 8) or not in_tag and kind in (2, 3, 5):
            return False
        if kind in (4, 6) and not opened or rooted and not opened and kind not in (7, 8):
            return False
        if kind == 8 and at + 1 != len(rows) or kind == 1 and opened >= 256:
            return False
        previous = position
        in_tag = kind == 1 or in_tag and kind not in (3, 5)
        opened += (kind == 1) - (kind in (4, 5))
        rooted = rooted or kind == 1
    return True


# ------------------------------------------------------------ decode.rs


class Refused(Exception):
    """A number, and the place of a 7 in the body."""

    def __init__(self, number, place=0):
        Exception.__init__(self)
        self.number, self.place = number, place


class Document:
    def __init__(self, body, rows, final, strict):
        self.body, self.rows, self.final, self.strict = body, rows, final, strict
        self.row, self.depth, self.offset = 0, 0, 0
        self.open, self.attributes, self.malformed = [], set(), False

    def name(self, row):
        return self.body[row[1]:row[1] + row[2]], self.body[row[3]:row[3] + row[4]]

    def value(self, row):
        return self.body[row[5]:row[5] + row[6]]

    def bad_reference(self, row, strict):
        """7, at the place in the body where validating the row's value fails, or unescaping it."""
        return Refused(7, row[5] + failing(self.value(row), strict))

    def stop(self, refused):
        self.malformed = self.strict
        return refused

    def next(self):
        """None, what is refused, or (row, depth)."""
        if self.malformed:
            return None
        if self.row == len(self.rows):
            self.offset = self.final
            return self.stop(Refused(9)) if self.strict and self.open else None
        row = self.rows[self.row]
        self.row += 1
        kind, self.offset = row[0], row[7]
        if kind == 8:
            return self.stop(Refused(8))
        if self.strict:
            if kind == 2:
                if self.name(row) in self.attributes:
                    return self.stop(Refused(9))
                self.attributes.add(self.name(row))
            if kind in (2, 6) and unescape(self.value(row), True) is None:
                return self.stop(self.bad_reference(row, True))
            if kind == 4 and (not self.open or self.open.pop() != self.name(row)):
                return self.stop(Refused(9))
            if kind == 5:
                self.open.pop()
            if kind == 1:
                self.open.append(self.name(row))
                self.attributes = set()
        if kind == 1:
            self.depth += 1
            return row, self.depth - 1
        if kind in (4, 5):
            self.depth -= 1
        return row, self.depth

    def finish(self):
        while self.next() is not None:
            pass
        if self.malformed:
            raise Refused(9)


class Start:
    def __init__(self):
        self.name, self.attributes, self.closed, self.depth, self.local = (b"", b""), [], False, 0, 0


class Scope:
    def __init__(self, document, start):
        self.document, self.start, self.terminated = document, start, start.closed

    def next(self):
        if self.terminated:
            return None
        got = self.document.next()
        if isinstance(got, tuple):
            row, depth = got
            if row[0] == 4 and depth == self.start.depth and self.document.name(row) == self.start.name:
                self.terminated = True
                return None
        return got

    def drop(self):
        while self.next() is not None:
            pass
        return self.document.offset

    def child(self):
        start = next_start(self, self.document)
        return start and Scope(self.document, start)

    def children(self):
        child = self.child()
        while child:
            yield child
            child.drop()
            child = self.child()

    def piece(self):
        start = max(self.document.body.rfind(b"<", 0, self.start.local), 0)
        return start, self.drop() - start

    def text(self):
        while True:
            got = self.next()
            if got is None:
                return b""
            if isinstance(got, Refused):
                raise got
            if got[0][0] == 1:
                raise Refused(6)
            if got[0][0] == 6:
                text = unescape(self.document.value(got[0]))
                if text is None:
                    raise self.document.bad_reference(got[0], False)
                return text


def next_start(tokens, document):
    out = Start()
    while True:
        got = tokens.next()
        if got is None:
            return None
        if isinstance(got, Refused):
            continue
        row, depth = got
        if row[0] == 1:
            out.name, out.depth, out.local = document.name(row), depth, row[3]
        elif row[0] == 2:
            value = unescape(document.value(row))
            if value is None:
                return None
            out.attributes.append((document.name(row), value))
        elif row[0] in (3, 5):
            out.closed = row[0] == 5
            return out


def matches(name, pattern):
    prefix, colon, local = pattern.partition(b":")
    return name == (prefix, local) if colon else name[1] == pattern


# ------------------------------------------------------------ sheets


class Broken(Exception):
    pass


class Front:
    def __init__(self, sheet):
        self.sheet = sheet

    def byte(self, below=256):
        if not self.sheet or self.sheet[0] >= below:
            raise Broken
        byte, self.sheet = self.sheet[0], self.sheet[1:]
        return byte

    def name(self, stands=True):
        if not stands:
            return None
        length = self.byte()
        if length == 0 or length > len(self.sheet):
            raise Broken
        name, self.sheet = self.sheet[:length], self.sheet[length:]
        return name

    def end(self):
        if self.sheet:
            raise Broken


def first(*names):
    return next((name for name in names if name is not None), None)


def structure_of(sheet):
    front = Front(sheet)
    bits = front.byte(16)
    given = [front.name(bits & bit) for bit in (1, 2, 4)]
    root = first(*given, front.name())
    members = []
    for _ in range(front.byte(65)):
        flags = front.byte(32)
        members.append((flags, first(*[front.name(flags & bit) for bit in (1, 2)])))
    front.end()
    return bits & 8, root, members


def list_of(sheet):
    front = Front(sheet)
    bits = front.byte(16)
    if bits & 12 and not bits & 1:
        raise Broken
    name = first(*[front.name(bits & bit) for bit in (4, 8)], b"member")
    front.end()
    return name if bits & 1 and not bits & 2 else None


def map_of(sheet):
    front = Front(sheet)
    bits = front.byte(32)
    if bits & 24 and not bits & 4:
        raise Broken
    key, value = [front.name(bits & bit) for bit in (2, 8)]
    front.end()
    return bits & 1, first(key, b"key"), first(value, b"value"), bits & 16


# ------------------------------------------------------------ deserializer.rs


def resolved(members, local):
    return next(((index, flags) for index, (flags, name) in enumerate(members) if name is not None and name == local), None)


def read_struct(case, document, root, entries):
    unwrapped, expected, members = structure_of(case.sheet)
    if case.flags & 2 and case.depth == 0 and not matches(root.start.name, expected):
        raise Refused(5)
    if unwrapped:
        piece = root_piece(document.body, document.rows, document.final)
        finish(document)
        member = resolved(members, root.start.name[1])
        if member:
            entries.append((2, member[0], b"", b"") + piece)
        return
    for index, (flags, name) in enumerate(members):
        if flags & made.ATTRIBUTE:
            value = next((value for other, value in root.start.attributes if matches(other, name or b"")), None)
            if value is not None:
                entries.append((1, index, b"", value, None, None))
    groups = {}
    for child in root.children():
        member = resolved(members, child.start.name[1])
        if not member:
            continue
        index, flags = member
        if not flags & made.AGGREGATE:
            try:
                entries.append((1, index, b"", child.text(), None, None))
            except Refused as refused:
                entries.append((4, index, b"", b"", refused.number, refused.place))
        else:
            start, length = child.piece()
            if flags & made.FLATTENED:
                groups[index] = groups.get(index, b"") + document.body[start:start + length]
            else:
                entries.append((2, index, b"", b"", start, length))
    root.drop()
    finish(document)
    for index in sorted(groups):
        entries.append((3, index, b"", b"<__flat>" + groups[index] + b"</__flat>", None, None))


def finish(document):
    if document.strict:
        document.finish()


def read_list(case, document, root, entries):
    name = list_of(case.sheet) if case.flags & 4 else None
    for child in root.children():
        if name is None or matches(child.start.name, name):
            if case.kind == "list":
                entries.append((2, 0, b"", b"") + child.piece())
            else:
                entries.append((1, 0, b"", child.text(), None, None))
    root.drop()
    finish(document)


def read_map(case, document, root, entries):
    flattened, key_name, value_name, aggregate = map_of(case.sheet)
    for entry in root.children():
        if case.flags & 4 and not flattened and not matches(entry.start.name, b"entry"):
            continue
        key = text = piece = None
        for field in entry.children():
            if field.start.name[1] == key_name:
                key = field.text()
            elif field.start.name[1] == value_name:
                if aggregate:
                    piece = field.piece()
                else:
                    text = field.text()
        entry.drop()
        if key is not None and piece is not None:
            entries.append((2, 0, key, b"") + piece)
        elif key is not None and text is not None:
            entries.append((1, 0, key, text, None, None))
    root.drop()
    finish(document)


def root_piece(body, rows, final):
    """01: the root element by its rows, (start, length)."""
    at = next(i for i, row in enumerate(rows) if row[0] == 1)
    start = body.rfind(b"<", 0, rows[at][3])
    opened = 0
    for row in rows[at:]:
        if row[0] == 1:
            opened += 1
        elif row[0] in (4, 5):
            opened -= 1
            if opened == 0:
                return start, row[7] - start
    return start, final - start


READ = {"struct": (structure_of, read_struct), "list": (list_of, read_list), "strings": (list_of, read_list), "map": (map_of, read_map)}


def reading(case, rows, final):
    """(number, place, entries) of a table that obeys the rules, where there is room enough."""
    sheet_of, read = READ[case.kind]
    entries = []
    try:
        sheet_of(case.sheet)
    except Broken:
        return 2, 0, entries
    if case.depth >= case.maximum:
        return 3, 0, entries
    document = Document(case.body, rows, final, case.flags & 1 == 1 and case.depth == 0)
    start = next_start(document, document)
    if start is None:
        return 4, 0, entries
    try:
        read(case, document, Scope(document, start), entries)
    except Refused as refused:
        return refused.number, refused.place, entries
    return 0, 0, entries


def scalar(case, rows, final):
    """(number, place, text)"""
    document = Document(case.body, rows, final, case.flags & 1 == 1 and case.depth == 0)
    start = next_start(document, document)
    if start is None:
        return 4, 0, b""
    root = Scope(document, start)
    try:
        text = root.text()
        root.drop()
        finish(document)
    except Refused as refused:
        return refused.number, refused.place, b""
    return 0, 0, text


def find(case, rows, final):
    """(number, (start, length))"""
    document = Document(case.body, rows, final, False)
    start = next_start(document, document)
    if start is None:
        return 13, None
    if start.name[1] == case.sheet:
        return 0, (0, len(case.body))
    for child in Scope(document, start).children():
        if child.start.name[1] == case.sheet:
            return 0, child.piece()
    return 13, None


def drain(case, rows, final):
    """None where it passes, or (row, cause, place)."""
    open_, names = [], set()
    document = Document(case.body, rows, final, True)
    for at, row in enumerate(rows):
        kind = row[0]
        if kind == 8:
            return at, "token", 0
        if kind == 1:
            open_.append(document.name(row))
            names = set()
        elif kind == 5:
            open_.pop()
        elif kind == 4 and open_.pop() != document.name(row):
            return at, "mismatched", 0
        elif kind == 2 and document.name(row) in names:
            return at, "repeated", 0
        if kind in (2, 6) and unescape(document.value(row), True) is None:
            return at, "reference", document.bad_reference(row, True).place
        if kind == 2:
            names.add(document.name(row))
    return (len(rows), "unclosed", 0) if open_ else None


def whole(case, rows, final):
    """01, "Whole text", without room: (number, text)"""
    if drain(case, rows, final):
        return 9, b""
    starts = sum(row[0] == 1 for row in rows)
    if starts != 1:
        return (6 if starts else 4), b""
    return 0, b"".join(unescape(case.body[row[5]:row[5] + row[6]]) for row in rows if row[0] == 6)
