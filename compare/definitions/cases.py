"""The cases: bodies with a defect in every place, sheets of every kind, and random ones.

A case is a question to the definitions. `Case.room` is None where there is room enough."""

from itertools import permutations

import gen

MAXIMUM = 128


class Case:
    def __init__(self, origin, group, kind, body, sheet=b"", flags=0, depth=0, maximum=MAXIMUM, room=None, table=None):
        self.origin = origin
        self.group = group
        self.kind = kind      # a word of the oracle's, or `whole`
        self.body = body      # of text* kinds: the text
        self.sheet = sheet    # of find: the name
        self.flags = flags
        self.depth = depth
        self.maximum = maximum
        self.room = room      # (entries, bytes)
        self.table = table    # (numbers, final) where it is not the tokenizer's


# ------------------------------------------------------------ sheets


def name(text):
    return bytes([len(text)]) + text


def fields(bits, names):
    return bytes([bits]) + b"".join(name(text) for text in names)


ATTRIBUTE, FLATTENED, AGGREGATE = 4, 8, 16


def member(text, bits=0):
    return fields(2 | bits, [text])


def structure(members, root=b"r", bits=0, names=()):
    return fields(bits, names) + name(root) + bytes([len(members)]) + b"".join(members)


STRUCT = structure([member(b"a"), member(b"b", AGGREGATE), member(b"n", AGGREGATE | FLATTENED), member(b"x", ATTRIBUTE),
                    fields(1 | FLATTENED, [b"c"]), member(b"entry", AGGREGATE | FLATTENED), member(b"p:x", ATTRIBUTE)])
OTHER = structure([member(b"n"), member(b"a", AGGREGATE | FLATTENED), member(b"b", FLATTENED | AGGREGATE),
                   member(b"entry", AGGREGATE), member(b"a"), member(b"k", ATTRIBUTE)], bits=1, names=[b"p:r"])
UNWRAPPED = structure([member(b"zz"), member(b"r", AGGREGATE), member(b"r")], bits=8)
ANY_LIST = fields(0, [])
NAMED_LIST = fields(1 | 4, [b"a"])
NAMED_ENTRY = fields(1 | 8, [b"entry"])
MAP = fields(4, [])
PIECES = fields(4 | 16, [])

# every setting that matters to a kind of sheet: flags and depth
STRICT, LENIENT, INNER = (1, 0), (0, 0), (1, 1)


def thorough(origin, group, body):
    """Each kind of question, strict, lenient and at a depth."""
    def ask(kind, sheet, settings):
        for flags, depth in settings:
            yield Case(origin, group, kind, body, sheet, flags, depth)
    yield from ask("struct", STRUCT, [STRICT, LENIENT, INNER, (3, 0), (2, 0)])
    yield from ask("struct", OTHER, [STRICT, LENIENT, (3, 0), (3, 1)])
    yield from ask("struct", UNWRAPPED, [STRICT, LENIENT, (2, 0)])
    yield from ask("list", ANY_LIST, [STRICT, LENIENT, INNER])
    yield from ask("list", NAMED_LIST, [(4, 0), (5, 0), (5, 1), (0, 0)])
    yield from ask("strings", ANY_LIST, [STRICT, LENIENT, INNER])
    yield from ask("strings", NAMED_LIST, [(4, 0), (5, 0)])
    yield from ask("map", MAP, [STRICT, LENIENT, INNER, (4, 0), (5, 0)])
    yield from ask("map", PIECES, [STRICT, LENIENT, (5, 1), (4, 0), (5, 0)])
    for kind in ("bool", "int", "string"):
        yield from ask(kind, b"", [STRICT, LENIENT] if kind == "string" else [STRICT])
    for find in (b"r", b"a", b"entry"):
        yield Case(origin, group, "find", body, find)
    yield Case(origin, group, "drain", body)
    yield Case(origin, group, "whole", body)


def turned(rng, origin, group, body, count):
    """So many of the thorough questions."""
    questions = list(thorough(origin, group, body))
    return rng.sample(questions, count)


# ------------------------------------------------------------ bodies with a defect in every place

PLAIN = b'<r x="1"><a>1</a><b y="2"><c>2</c></b><n>3</n><n z="4">4<k/></n></r>'
ENTRIES = b"<r><entry><key>k</key><value>v</value></entry><entry><key>l</key><value><q>w</q></value></entry></r>"
PREFIXED = b'<?xml version="1.0"?><p:r p:x="1"><p:a>&lt;</p:a><!--c--><b/><n><![CDATA[d]]>t</n></p:r> '
SAME = b"<a><a><a>1</a></a><a>2</a></a>"
TEMPLATES = [PLAIN, ENTRIES, PREFIXED, SAME]

ATTRIBUTES = [b' x="1"', b' w="&zz;"', b' w="&#0;"', b' w="&#+65;"', b' w="1" w="2"', b' w="1" v:w="2"', b' v:w="1" w="&lt;"',
              b' w="&zz;" v="1"', b' v="1" w="&zz;"', b' w="&zz;" w="&zz;"', b" w", b" w=1", b' w="<"', b' :w="1" w="2"', b' w=""']


def starts(body):
    """The places behind the name of each start tag."""
    out = []
    at = 0
    while at < len(body):
        if body[at:at + 1] == b"<" and body[at + 1:at + 2] not in (b"/", b"!", b"?"):
            while body[at:at + 1] not in (b" ", b">", b"/"):
                at += 1
            out.append(at)
        at += 1
    return out


def closes(body):
    """The (start, end) of each name in an end tag."""
    out = []
    at = body.find(b"</")
    while at >= 0:
        end = body.find(b">", at)
        out.append((at + 2, end))
        at = body.find(b"</", end)
    return out


def defects(rng):
    for body in TEMPLATES:
        for at in starts(body):
            for attribute in ATTRIBUTES:
                yield from thorough("targeted", "attribute", body[:at] + attribute + body[at:])
        names = sorted({body[start:end] for start, end in closes(body)}) + [b"zz", b"p:a", b":a", b"q:r"]
        for start, end in closes(body):
            for other in names:
                if other != body[start:end]:
                    yield from thorough("targeted", "end tag", body[:start] + other + body[end:])
            yield from thorough("targeted", "end tag", body[:start - 2] + body[end + 1:])
            yield from thorough("targeted", "end tag", body[:end + 1] + body[start - 2:end + 1] + body[end + 1:])
        for at in range(len(body) + 1):
            yield from turned(rng, "targeted", "prefix", body[:at], 10)
            yield from turned(rng, "targeted", "token error", body[:at] + b"\x01" + body[at:], 5)
            yield from turned(rng, "targeted", "token error", body[:at] + b"<" + body[at:], 4)
            if at < len(body):
                yield from turned(rng, "targeted", "lost byte", body[:at] + body[at + 1:], 5)


# two defects at once, scopes that run over an outer end, and what stands outside the root
CHOSEN = [
    b"", b" ", b"\n\t ", b"\xff", b"<r>\xff</r>", b"<r>\xc3\xa9</r>", b"<\xc3\xa9><a/></\xc3\xa9>", b"\xef\xbb\xbf<r><a>1</a></r>",
    b"\xef\xbb\xbf",
    b"<!--c-->", b"<?xml version='1.0'?>", b"<!DOCTYPE r>", b"<!DOCTYPE r [<!ENTITY zz 'y'>]><r><a>&zz;</a></r>", b"<!DOCTYPE r [", b"x",
    b"<", b">", b"</r>",
    b"<r", b"<r ", b"<r>", b"<r/", b"<r/>", b"<r />", b"<r/><r/>", b"<r></r><r></r>", b"<r/>x", b"<r/> ", b"<r/><!--c-->", b"<r/></r>",
    b" <r/>",
    b"<r></r>\n<!--c--> <?pi?>\n", b"<r></b> ", b"<r></b><!--c-->", b"<a></b> ", b"<r><a></r></a>", b"<r><a></r></a> ", b"<r><a></r>",
    b"<r><a></r><b>2</b></a></r>",
    b"<r><a>1</b><c>2</c></r>", b"<r><a x='&zz;'>1</a><b>2</b></r>", b"<r x='1' x='2'/>", b"<r x='1' x='2'><a>1</a></r>",
    b"<r x='&zz;'><a>1</a></r>",
    b"<r><a>1</a></r></r>", b"<r><a>1</a></b><c>2</c></r>", b"<r><n>1</n><n>2</n></r>", b"<r><n>1</n><n>2</b><n>3</n></r>",
    b"<r><n>1</n><a>2</a><n/><n>3</n></r>",
    b"<r><n>1</n><n>2", b"<r><n>1</n><n>2</n", b"<r><n>1</n><n x='&zz;'/><n>2</n></r>", b"<r><b><b></b></r></b></r>",
    b"<r><b><r></b></r></b></r>",
    b"<r><b><c></b></c></b><a>1</a></r>", b"<r><r></r></r>", b"<r><r><a>1</a></r><a>2</a></r>", b"<r><a><r></a></r><a>3</a></r>",
    b"<r><a>1<c/></a><a><c/>1</a><a>1</a></r>", b"<r><a><!--c-->1<!--d-->2</a><a>1<!--c-->2</a></r>",
    b"<r><a><![CDATA[1]]>2</a><a><![CDATA[1]]></a><a>1<![CDATA[2]]></a></r>",
    b"<r><a>&zz;</a><a>1</a></r>", b"<r><a>&#0;</a><a>&#+65;</a><a>&lt;&#x41;</a></r>", b"<r><a>1</a>&zz;<a>2</a></r>",
    b"<r>&#0;<a>1</a></r>", b"<r><a>1]]></a></r>",
    b"<r><a/><a></a><a> </a><b/><n/></r>", b"<r>1<a>2</a></r>", b"<r><a>2</a>1</r>", b"<r><![CDATA[1]]></r>", b"<r><![CDATA[1]]>2</r>",
    b"<r>1<!--c-->2<?pi?>3</r>",
    b"<r>1&lt;<![CDATA[c]]>&#x41;2</r>", b"<r><!--c--></r>", b"<r>1<a/>2</r>", b"<r>&zz;1</r>", b"<r>1&#0;</r>", b"<r>1</b>2</r>",
    b"<r><a></b>1</a></r>",
    b"<r x='1'>5</r>", b"<r x='&zz;'>5</r>", b"<p:r>5</p:r>", b"<p:r>5</r>", b"<:r>5</r>", b"<r>5</:r>", b"<r:>5</r:>", b"<r>5</r >",
    b"<r >5</r\n>",
    b"<r><a>1</a ><a >2</a></r>", b"<r><p:a>1</a><a>2</a></r>", b"<r><p:a>1</p:a><q:a>2</q:a><a>3</a></r>", b"<r><:a>1</a><a:>2</a:></r>",
    b"<r p:x='1' x='2' q:x='3'/>", b"<r q:x='3'><x>1</x></r>", b"<r x='&lt;&#x41;'/>", b"<r x='&#0;'/>", b"<r x=''/>", b"<r p:x=''/>",
]

MAP_BODIES = [
    b"<r><entry><key>k</key></entry></r>", b"<r><entry><value>v</value></entry></r>", b"<r><entry/></r>", b"<r><entry></entry></r>",
    b"<r/>",
    b"<r><entry><key/><value/></entry></r>", b"<r><entry><value>v</value><key>k</key></entry></r>",
    b"<r><entry><key>k</key><key>l</key><value>v</value><value>w</value></entry></r>",
    b"<r><entry><key>k</key><value>v</value><key>l</key></entry></r>",
    b"<r><entry><p:key>k</p:key><q:value>v</q:value></entry></r>", b"<r><p:entry><key>k</key><value>v</value></p:entry></r>",
    b"<r><a><key>k</key><value>v</value></a><entry><key>l</key><value>w</value></entry></r>",
    b"<r>t<entry>t<key>k</key>t<value>v</value>t</entry>t</r>",
    b"<r><entry><key>&zz;</key><value>v</value></entry></r>", b"<r><entry><key>k</key><value>&zz;</value></entry></r>",
    b"<r><entry><key>&#0;</key><value>&#+65;</value></entry></r>", b"<r><entry><key>&lt;</key><value>&gt;</value></entry></r>",
    b"<r><entry><key><a/></key><value>v</value></entry></r>", b"<r><entry><key>k<a/></key><value>v<a/></value></entry></r>",
    b"<r><entry><key>k</key><value><a/></value></entry></r>",
    b"<r><entry><key>k</key><value><a>1</a></value></entry><entry><key>l</key><value/></entry></r>",
    b"<r><entry><key>k</key><value>v</value></entry><entry><key><a/></key></entry></r>",
    b"<r><entry><key>k</key><value>v</value></entry><entry><key>l</key><value>\x01</value></entry></r>",
    b"<r><entry><key>\x01</key></entry></r>",
    b"<r><entry><key>k</key><value>v</key></value></entry></r>", b"<r><entry><key>k</value><value>v</value></entry></r>",
    b"<r><entry><key>k</entry></key><value>v</value></entry></r>", b"<r><entry><key>k</key><value>v</entry></value></entry></r>",
    b"<r><entry><key>k</key><value>v</value></r></entry>",
    b"<r><entry><key>k</key><value>v</value></b><entry><key>l</key><value>w</value></entry></r>",
    b"<r><entry><key>k</key><value>v</value></entry><entry><key>l</key><value>w</value></b></r>",
    b"<r><entry x='&zz;'><key>k</key><value>v</value></entry><entry><key>l</key><value>w</value></entry></r>",
    b"<r><entry><key x='&zz;'>k</key><value>v</value></entry><entry><key>l</key><value>w</value></entry></r>",
    b"<r><entry><key>k</key><value x='&zz;'>v</value></entry><entry><key>l</key><value>w</value></entry></r>",
    b"<r><entry><key>k</key><value>v</value><c x='&zz;'/></entry><entry><key>l</key><value>w</value></entry></r>",
    b"<r><entry><key>k</key><value>v</value><c><d x='&zz;'/></c></entry><entry><key>l</key><value>w</value></entry></r>",
    b"<r><entry><key>k</key><value><d x='&zz;'/></value></entry><entry><key>l</key><value>w</value></entry></r>",
    b"<r><entry><key x='1' x='2'>k</key><value>v</value></entry></r>", b"<r><entry><key>k</key><value x='1' x='2'>v</value></entry></r>",
    b"<r><entry><key>k</key><value>v</value></entry>", b"<r><entry><key>k</key><value>v</value>", b"<r><entry><key>k</key><value>v",
    b"<r><entry><key>k",
    b"<r><entry><key>k</key><value>", b"<r><entry><key>k</key><value", b"<r><entry><key></r>", b"<r><entry><key>",
    b"<r><entry><key/><value/>",
    b"<r><entry><entry><key>k</key><value>v</value></entry></entry></r>", b"<r><entry><a><key>k</key></a><value>v</value></entry></r>",
    b"<r><entry><key><![CDATA[k]]></key><value><!--c-->v</value></entry></r>", b"<r><entry><key>k</key><value>v</value></entry>&zz;</r>",
    b"<r><entry><key>k</key>&zz;<value>v</value></entry></r>", b"<r><entry><key>k</key><value>v</value>&#0;</entry></r>",
]

MAP_SHEETS = [fields(0, []), fields(1, []), MAP, PIECES, fields(5, []), fields(21, []), fields(2, [b"value"]), fields(4 | 8, [b"key"]),
              fields(4 | 8 | 16, [b"key"]),
              fields(2 | 4 | 8, [b"a", b"a"]), fields(2 | 4 | 8 | 16, [b"c", b"value"]), fields(2 | 4 | 8, [b"value", b"key"]),
              fields(2 | 4, [b"p:key"])]


def chosen(rng):
    for body in CHOSEN:
        yield from thorough("targeted", "chosen", body)
    for body in MAP_BODIES:
        for flags, depth in [(0, 0), (1, 0), (1, 1), (5, 0)]:
            for sheet in [MAP, PIECES]:
                yield Case("targeted", "map", "map", body, sheet, flags, depth)
        for sheet in MAP_SHEETS:
            yield Case("targeted", "map", "map", body, sheet, rng.randrange(8), rng.choice([0, 0, 1]))
        yield from turned(rng, "targeted", "map", body, 6)


# ------------------------------------------------------------ names, members, sheets

NAMES = [b"a", b"p:a", b":a", b"a:", b"q:a", b"p:b", b"b"]
PATTERNS = [b"a", b"p:a", b":a", b"a:", b":", b"p:", b"q:a", b"p:q:a", b"b", b"p:a:", b"A"]


def names(rng):
    for pattern in PATTERNS:
        for tag in NAMES:
            body = b"<" + tag + b">1</" + tag + b">"
            yield Case("targeted", "name", "struct", body, structure([], root=pattern), 2, 0)
            yield Case("targeted", "name", "struct", body, structure([member(pattern)], bits=8 | 1, names=[pattern]), 3, 0)
            body = b"<r>" + body + b"</r>"
            yield Case("targeted", "name", "struct", body, structure([member(pattern)]), 1, 0)
            yield Case("targeted", "name", "list", body, fields(1 | 4, [pattern]), 4, 0)
            yield Case("targeted", "name", "strings", body, fields(1 | 8, [pattern]), 5, 0)
            yield Case("targeted", "name", "map", b"<r><entry>" + body[3:-4] + b"<value>2</value></entry></r>", fields(2 | 4, [pattern]), 5,
                       0)
            yield Case("targeted", "name", "find", body, pattern)
            body = b"<r " + tag + b"='1'/>"
            yield Case("targeted", "name", "struct", body, structure([member(pattern, ATTRIBUTE)]), 1, 0)
    body = b"<r p:a='1' a='2' b='3'><a>4</a></r>"
    for pattern in PATTERNS:
        yield Case("targeted", "name", "struct", body, structure([member(pattern, ATTRIBUTE), member(b"a", ATTRIBUTE)]), 0, 0)
    # the root's name: XML name, original name, member name, shape name
    for bits in range(16):
        given = [text for bit, text in ((1, b"a"), (2, b"b"), (4, b"c")) if bits & bit]
        for root in (b"a", b"b", b"c", b"d"):
            for flags, depth in ((2, 0), (3, 0), (2, 1)):
                sheet = structure([member(b"b"), member(root)], root=b"d", bits=bits, names=given)
                yield Case("targeted", "root name", "struct", b"<" + root + b"><b>1</b></" + root + b">", sheet, flags, depth)


def members(rng):
    body = b"<r a='1' b='2'><a>3</a><b>4</b><a>5</a><c/></r>"
    for bits in range(32):
        given = [text for bit, text in ((1, b"a"), (2, b"b")) if bits & bit]
        one = fields(bits, given)
        for sheet in (structure([one]), structure([one, member(b"b"), member(b"a", AGGREGATE)]),
                      structure([member(b"a", ATTRIBUTE | AGGREGATE | FLATTENED), one]),
                      structure([one, one]), structure([one], bits=8)):
            yield Case("targeted", "member", "struct", body, sheet, rng.choice([0, 1]), 0)
        yield Case("targeted", "member", "struct", b"<b><a x='&zz;'/></b>", structure([one], root=b"b", bits=8), 2, 0)
    many = structure([member(b"a", AGGREGATE | FLATTENED)] + [member(b"n%d" % i,
                                                                     rng.choice([0, AGGREGATE, AGGREGATE | FLATTENED])) for i in range(63)])
    children = b"".join(b"<n%d>%d</n%d>" % (i, i, i) for i in rng.sample(range(63), 12)) * 2
    yield Case("targeted", "member", "struct", b"<r>" + children + b"<a/></r>", many, 1, 0)
    yield Case("targeted", "member", "struct", b"<r>" + children, many, 1, 0)
    yield Case("targeted", "member", "struct", b"<r>" + children, many, 0, 0)
    # sixty-five members
    yield Case("targeted", "sheet", "struct", b"<r/>", structure([member(b"a")] * 64), 0, 0)
    yield Case("targeted", "sheet", "struct", b"<r/>", structure([member(b"a")] * 65), 0, 0)
    # an attribute member with neither name asks for the empty name
    for body in (b"<r a:='1'/>", b"<r :='1'/>", b"<r a='1'/>"):
        yield Case("targeted", "member", "struct", body, structure([fields(ATTRIBUTE, []), fields(0, [])]), 0, 0)


def broken_sheets(rng):
    """Each byte of a valid sheet cut, changed, lost and put in twice."""
    wholes = [("struct", STRUCT, PLAIN),
              ("struct", structure([fields(31, [b"a", b"b"]), member(b"n")], bits=15, names=[b"r", b"s", b"t"]), PLAIN),
              ("list", fields(15, [b"a", b"bc"]), PLAIN), ("list", NAMED_LIST, PLAIN), ("strings", fields(9, [b"a"]), SAME),
              ("map", fields(31, [b"key", b"value"]), ENTRIES), ("map", MAP, ENTRIES), ("list", ANY_LIST, PLAIN)]
    for kind, sheet, body in wholes:
        changed = [sheet, b"", sheet + b"\x00", sheet + b"\x01a", sheet + sheet]
        for at in range(len(sheet)):
            changed.append(sheet[:at])
            changed.append(sheet[:at] + sheet[at + 1:])
            for byte in {0, 1, 64, 65, 127, 128, 255, (sheet[at] + 1) % 256, (sheet[at] - 1) % 256, sheet[at] ^ 0x10, sheet[at] ^ 0x20,
                         sheet[at] ^ 8, sheet[at] ^ 4}:
                changed.append(sheet[:at] + bytes([byte]) + sheet[at + 1:])
        for sheet in changed:
            yield Case("targeted", "sheet", kind, body, sheet, rng.choice([0, 1, 4, 5]), 0)
    for kind in ("list", "strings", "map", "struct"):
        for bits in range(256):
            for end in (b"", b"\x01a", b"\x01a\x01b", b"\x01r\x00"):
                if bits < 40 or bits % 32 == 0:
                    yield Case("targeted", "sheet", kind, b"<r><a>1</a></r>", bytes([bits]) + end, rng.choice([0, 4]), 0)


def order(rng):
    """Which refusal comes first: 2, 3, 4, 5; and the depth beside its maximum."""
    for kind, sheets in (("struct", [STRUCT, b"", structure([], root=b"a"), UNWRAPPED]), ("list", [ANY_LIST, b"\xff"]),
                         ("strings", [ANY_LIST, b"\xff"]), ("map", [MAP, b"\xff"])):
        for sheet in sheets:
            for body in (b"", b"<r><a>1</a></r>", b"<r x='&zz;'/>", b"<r><a>1</b></r>", b"\xff"):
                for depth, maximum in ((0, 128), (0, 0), (0, 1), (1, 1), (127, 128), (128, 128), (129, 128), (4294967294, 4294967295),
                                       (4294967295, 4294967295)):
                    yield Case("targeted", "order", kind, body, sheet, rng.choice([0, 1, 2, 3]), depth, maximum)
    for kind in ("bool", "int", "string"):
        for depth, maximum in ((0, 0), (0, 1), (5, 1), (128, 128), (4294967295, 0)):
            for body in (b"", b"<r>true</r>", b"<r>5</r>", b"<r>5</b></r>"):
                yield Case("targeted", "order", kind, body, b"", 1, depth, maximum)


# ------------------------------------------------------------ texts

NUMBERS = [b"2147483647", b"2147483648", b"-2147483648", b"-2147483649", b"+5", b"-5", b"-0", b"+0", b"+", b"-", b"", b" 5", b"5 ",
           b"00012", b"-00012", b"1e3",
           b"--1", b"+-1", b"-+1", b"++1", b"0", b"1.0", b"0x1", b"1_0", b"\xd9\xa1", b"4294967296", b"99999999999999999999",
           b"-99999999999999999999",
           b"00000000000000000002147483647", b"+2147483647", b"+2147483648", b"5a", b"a5", b":", b"/", b"5:", b"\n5", b"&#53;", b"&#x2d;1",
           b"-&#49;", b"&lt;", b"&#+53;",
           b"true", b"false", b"True", b"TRUE", b" true", b"true ", b"tru", b"truee", b"t", b"fals", b"falsee", b"1", b"&#116;rue",
           b"tr&#117;e", b"tr<!--c-->ue",
           b"<!--c-->true", b"<![CDATA[true]]>", b"<![CDATA[c]]>true", b"true<![CDATA[c]]>", b"true<a/>", b"<a/>true", b"5<a/>", b"5<a>",
           b"5</b>", b"&zz;", b"&#0;", b"5&zz;", b"5&", b"5]]>"]


def texts(rng):
    for text in NUMBERS:
        for body in (b"<r>" + text + b"</r>", b"<r>" + text, b"<!--c--><r x='1'>" + text + b"</r> ", b"<r>" + text + b"</r>x",
                     b"<r>" + text + b"</p:r>"):
            for kind in ("bool", "int", "string"):
                for flags, depth in ((0, 0), (1, 0), (1, 1)):
                    yield Case("targeted", "scalar", kind, body, b"", flags, depth)
        for kind in ("textbool", "textint", "textstring"):
            yield Case("targeted", "text", kind, text)
        body = b"<r><a>" + text + b"</a><c>" + text + b"</c><a>2</a></r>"
        yield Case("targeted", "text", "struct", body, STRUCT, 0, 0)
        yield Case("targeted", "text", "struct", body, STRUCT, 1, 0)
        yield Case("targeted", "text", "strings", body, ANY_LIST, 0, 0)
        yield Case("targeted", "text", "strings", body, ANY_LIST, 1, 0)
        yield Case("targeted", "text", "strings", body, NAMED_LIST, 5, 0)
        body = b"<r><entry><key>" + text + b"</key><value>" + text + b"</value></entry><entry><key>k</key><value>v</value></entry></r>"
        yield Case("targeted", "text", "map", body, MAP, 0, 0)
        yield Case("targeted", "text", "map", body, MAP, 1, 0)
        yield Case("targeted", "text", "map", body, PIECES, 1, 0)
        yield Case("targeted", "text", "whole", b"<r>" + text + b"<!--c-->" + text + b"</r>")
    for text in gen.GOOD_REFERENCES + gen.LAX_REFERENCES + gen.BAD_REFERENCES:
        for flags in (0, 1):
            yield Case("targeted", "reference", "struct", b"<r x='" + text + b"'><a>" + text + b"</a><c>1" + text + b"2</c></r>", STRUCT,
                       flags, 0)
            yield Case("targeted", "reference", "struct", b"<r><a>" + text + b"</a><c>1" + text + b"2</c></r>", STRUCT, flags, 0)
            yield Case("targeted", "reference", "string", b"<r>" + text + b"</r>", b"", flags, 0)
            yield Case("targeted", "reference", "strings", b"<r><a y='" + text + b"'>1</a><a>" + text + b"</a></r>", ANY_LIST, flags, 0)
            yield Case("targeted", "reference", "map", b"<r><entry><key>" + text + b"</key><value>" + text + b"</value></entry></r>", MAP,
                       flags, 0)
        yield Case("targeted", "reference", "whole", b"<r>1" + text + b"<![CDATA[" + text + b"]]>2</r>")
    pieces = [b"1", b"&lt;", b"<![CDATA[c]]>", b"<!--c-->", b"<?pi?>", b"<a/>", b" "]
    for first in pieces:
        for second in pieces:
            for third in pieces[:5]:
                inside = first + second + third
                yield Case("targeted", "content", "string", b"<r>" + inside + b"</r>", b"", rng.choice([0, 1]), 0)
                yield Case("targeted", "content", "struct", b"<r><a>" + inside + b"</a><b>" + inside + b"</b></r>", STRUCT,
                           rng.choice([0, 1]), 0)
                yield Case("targeted", "content", "whole", b"<r>" + inside + b"</r>")


# ------------------------------------------------------------ room, and tables that break a rule

def rooms(rng):
    bodies = [PLAIN, ENTRIES, b"<r x='123'><a>45</a><n>1</n><c>678</c><n>2</n><entry>3</entry></r>",
              b"<r><a>1</a><a>&lt;2</a><a/><a>345</a></r>",
              b"<r><a>1</a><c><a/></c><n>1</n></b></r>", b"<r>abc&lt;</r>", b"<r/>",
              b"<r><entry><key>ab</key><value>cde</value></entry><entry><key>f</key><value>g</value></entry>"
              b"<entry><key>h</key><value>&zz;</value></entry></r>"]
    for body in bodies:
        for kind, sheet in (("struct", STRUCT), ("struct", OTHER), ("struct", UNWRAPPED), ("list", ANY_LIST), ("strings", ANY_LIST),
                            ("map", MAP), ("map", PIECES)):
            for entries in range(5):
                yield Case("targeted", "room", kind, body, sheet, rng.choice([0, 1]), 0, room=(entries, 1000))
            for space in (0, 1, 2, 3, 4, 5, 6, 8, 10, 30, 31, 32, 33, 34, 40, 60, 61, 62, 63, 64, 65, 66):
                yield Case("targeted", "room", kind, body, sheet, rng.choice([0, 1]), 0, room=(rng.choice([3, 100, 100]), space))
        for space in range(6):
            yield Case("targeted", "room", "string", body, b"", 1, 0, room=(0, space))
            yield Case("targeted", "room", "whole", body, room=(0, space))
    for text in (b"", b"abc"):
        for space in range(5):
            yield Case("targeted", "room", "textstring", text, room=(0, space))


def groups(rng):
    """Change request 2: by rising member index, each if it fits. Groups of three sizes, met in every order, in every room."""
    flat = AGGREGATE | FLATTENED
    sheet = structure([member(b"n", flat), member(b"a", flat), member(b"b"), member(b"c", flat), member(b"d", flat)])
    siblings = {b"a": b"<a>12</a>", b"c": b"<c/>", b"d": b"<d>3</d>"}
    sizes = [17 + 2 * len(siblings[name]) for name in sorted(siblings)]
    ends = [1 + sum(sizes[:n]) for n in range(4)]
    spaces = sorted({space for end in ends for space in (end - 1, end, end + min(sizes), end + max(sizes) - 1) if space >= 0})
    for met in permutations(siblings):
        body = b"<r>" + b"".join(siblings[name] for name in met) + b"<b>5</b>" + b"".join(siblings[name] for name in met) + b"</r>"
        for entries in range(6):
            yield Case("targeted", "groups", "struct", body, sheet, rng.choice([0, 1]), 0, room=(entries, 1000))
        for space in spaces:
            yield Case("targeted", "groups", "struct", body, sheet, rng.choice([0, 1]), 0, room=(rng.choice([3, 4, 100]), space))
        yield Case("targeted", "groups", "struct", body[:-1] + b" ", sheet, 1, 0)


def unwrapped(rng):
    """The root as the one member, over short bodies: each cut, each lost byte, each end tag; whatever closes the root."""
    for body in (b"<r><a>1</a></r> ", b"<!--c--><p:r x='1'><r/></p:r><!--d-->", b"<r>1<r>2</r></r>", b"<r/> "):
        bodies = [body[:at] for at in range(len(body) + 1)] + [body[:at] + body[at + 1:] for at in range(len(body))]
        for start, end in closes(body):
            bodies += [body[:start] + other + body[end:] for other in (b"r", b"a", b"p:r", b":r", b"zz")]
        for at in starts(body):
            bodies += [body[:at] + attribute + body[at:] for attribute in ATTRIBUTES]
        for at in range(0, len(body) + 1, 3):
            bodies.append(body[:at] + b"\x01" + body[at:])
        for body in bodies:
            for flags, depth in (STRICT, LENIENT, INNER, (3, 0), (2, 0)):
                yield Case("targeted", "unwrapped", "struct", body, UNWRAPPED, flags, depth)
            yield Case("targeted", "unwrapped", "struct", body, UNWRAPPED, 0, 0, room=(0, 0))
    for body in (b"<a/>", b"<r><n/></r>", b"<zz>1</zz>", b"<p:a>1</p:a>"):
        for bits in range(32):
            yield Case("targeted", "unwrapped", "struct", body,
                       structure([fields(bits, [text for bit, text in ((1, b"a"), (2, b"zz")) if bits & bit]), member(b"r")], bits=8), 1, 0)


def broken_tables(rng, tables):
    """Tables that break a rule: 1 comes before all else."""
    for body in (PLAIN, b"<r/>", b"<r><a>1</a></r>"):
        rows, final = tables([body])[0]
        numbers = [number for row in rows for number in row]
        changed = [(numbers[:-1], final), (numbers + [0], final), (numbers, len(body) + 1), (numbers, final - 1),
                   ([9] + numbers[1:], final), ([0] + numbers[1:], final),
                   ([8] + numbers[1:], final), (numbers[8:], final), (numbers + numbers, final),
                   (numbers[:7] + [numbers[7] + 1] + numbers[8:], final)]
        for table in changed:
            for kind, sheet in (("struct", STRUCT), ("struct", b""), ("list", ANY_LIST), ("list", b"\xff"), ("strings", ANY_LIST),
                                ("map", MAP), ("find", b"r"), ("drain", b""),
                                ("bool", b""), ("int", b""), ("string", b""), ("whole", b"")):
                yield Case("targeted", "table", kind, body, sheet, rng.randrange(8), rng.choice([0, 128]), 128, table=table)


def told_apart(rng):
    """One case each for what a wrong model could do and still pass all others."""
    # a value's references before the attribute's repetition
    yield Case("targeted", "told apart", "drain", b"<r x='1' x='&zz;'/>")
    # a string's 10 before the 9 after the rest
    yield Case("targeted", "told apart", "string", b"<r>abc<!--c--></b>", b"", 1, 0, room=(0, 1))
    # a map entry's 10 before the failure of a later field
    for later in (b"<key><x/></key>", b"<value><x/></value>", b"<value>&zz;</value>"):
        body = b"<r><entry><key>ab</key><value>cd</value>" + later + b"</entry></r>"
        for room in ((0, 100), (9, 1), (9, 3)):
            yield Case("targeted", "told apart", "map", body, MAP, 0, 0, room=room)
    # a pattern split at its last colon: names that no tokenizer makes, `p` and `q:a`, and `p:q` and `a`
    body = b"<p:q:a/>"
    for prefix, local in (((1, 1), (3, 3)), ((1, 3), (5, 1))):
        table = ([1, *prefix, *local, 0, 0, 6, 5, 0, 0, 0, 0, 0, 0, 8], 8)
        for pattern in (b"p:q:a", b"q:a", b"a"):
            yield Case("targeted", "told apart", "struct", body, structure([], root=pattern), 2, 0, table=table)
    # an attribute member without a name asks for the empty name, and there is one
    table = ([1, 0, 0, 1, 1, 0, 0, 2, 2, 3, 1, 5, 0, 7, 1, 9, 5, 0, 0, 0, 0, 0, 0, 11], 11)
    yield Case("targeted", "told apart", "struct", b"<r a:='1'/>", structure([fields(ATTRIBUTE, [])]), 0, 0, table=table)
    # find answers the whole body, not what stands before the final position
    yield Case("targeted", "told apart", "find", b"<r/> <!--c-->", b"r", table=([1, 0, 0, 1, 1, 0, 0, 2, 5, 0, 0, 0, 0, 0, 0, 4], 4))


# ------------------------------------------------------------ the place of a bad reference

# good ones, ones that unescaping takes and validation does not, and bad ones, in every order; multi-byte characters
# before them; one that is not closed, or only after the next `&`
REFERRED = [
    b"&zz;", b"1&zz;", b"&lt;&zz;", b"1&amp;2&#65;3&zz;4", b"&zz;&yy;", b"1&lt;&zz;2&yy;3", b"&zz;&lt;",
    b"&#+65;", b"&#+65;&zz;", b"1&#+65;2&zz;3", b"&lt;&#x+41;&gt;&zz;&yy;", b"&lt;&#+65;", b"&#+65;&#x+41;", b"&zz;&#+65;",
    b"&#0;&#xD800;", b"&lt;&#xFFFE;&#x110000;", b"&#+;&#+65;",
    b"\xc3\xa9&lt;\xe2\x82\xac&zz;", b"\xf0\x9f\x8c\xb2&#+65;\xc3\xa9&zz;",
    b"&", b"1&", b"&lt;2&amp", b"&lt;&", b"&#+65;&#x41", b"&amp&lt;", b"1&lt;&a&lt;;", b"&lt;;&;", b"&lt;&#65;",
    b"x" * 300 + b"&#+65;y&zz;",
]


def referred(text):
    """Bodies with a text that may fail, by the kind of question, beside what must not count: comments, CDATA, good ones."""
    good = b"<entry><key>&lt;</key><value>&gt;</value></entry>"
    return {
        "string": [b"<r>" + text + b"</r>", b"<!--&zz;--><r y='&lt;'><?pi &zz;?><![CDATA[&zz;]]>" + text + b"</r>",
                   b"<r>1<!--&zz;-->" + text + b"</r>"],
        "bool": [b"<r>" + text + b"</r>"],
        "int": [b"<r x='1'><![CDATA[&zz;]]>" + text + b"</r>"],
        "struct": [b"<r x='&lt;'><a>&lt;</a><c>" + text + b"</c><a>" + text + b"</a><a>&zz;</a></r>",
                   b"<r><a><!--&zz;--><![CDATA[&zz;]]>" + text + b"</a><b>" + text + b"</b></r>",
                   b"<r>" + text + b"<a>&zz;</a></r>", b"<r><b y='" + text + b"'/><a>" + text + b"</a></r>",
                   b"<r x='&lt;' p:x=\"" + text + b"\"><a>&zz;</a></r>"],
        "strings": [b"<r><a>&lt;</a><a>" + text + b"</a><a>&zz;</a></r>", b"<r><a/>" + text + b"<a><!--&-->" + text + b"</a></r>"],
        "map": [b"<r>" + good + b"<entry><key>" + text + b"</key><value>&zz;</value></entry></r>",
                b"<r>" + good + b"<entry><key>k</key><value>" + text + b"</value></entry></r>",
                b"<r><entry><value>" + text + b"</value><key>" + text + b"</key></entry></r>"],
    }


# 6, 8 and 9 beside 7: these keep 0
BESIDE_SEVEN = [
    b"<r><a><c/>&zz;</a><c>&zz;</c></r>", b"<r><a>&zz;<c/></a><c><a>&zz;</a></c></r>", b"<r><c>&zz;</c><a>\x01&zz;</a></r>",
    b"<r><a>\x01&zz;</a></r>", b"<r><c>&zz;</c><a></b>&zz;</a></r>", b"<r><a></b>&zz;</a></r>", b"<r><a>",
    b"<r><c>&lt;</c><a><!--&zz;-->", b"<r><a>1&zz;", b"<r><a>1</a></b>&zz;</r>", b"<r><a>1</a>&zz;</r>",
    b"<r><a x='1' x='&zz;'>&zz;</a></r>", b"<r>&zz;", b"<r><a/>&zz;</r>", b"<r>\x01&zz;</r>", b"<r></b>&zz;</r>", b"<r>&zz;</b>",
    b"<r>&zz;</r>&zz;", b"&zz;<r/>",
]

PLACE_SHEETS = {"struct": STRUCT, "strings": ANY_LIST, "map": MAP}


def places(rng):
    """Where a 7 is: strict by validation, lenient and at a depth by unescaping, and the drain's."""
    for text in REFERRED:
        bodies = referred(text)
        for kind in bodies:
            for body in bodies[kind]:
                for flags, depth in (STRICT, LENIENT, INNER):
                    yield Case("targeted", "place", kind, body, PLACE_SHEETS.get(kind, b""), flags, depth)
                yield Case("targeted", "place", "drain", body)
        yield Case("targeted", "place", "map", bodies["map"][0], PIECES, 1, 0)
        yield Case("targeted", "place", "list", bodies["strings"][0], ANY_LIST, 1, 0)
        yield Case("targeted", "place", "whole", bodies["string"][0])
    for body in BESIDE_SEVEN:
        for kind in ("struct", "strings", "map", "string", "int"):
            for flags, depth in (STRICT, LENIENT, INNER):
                yield Case("targeted", "place", kind, body, PLACE_SHEETS.get(kind, b""), flags, depth)
        yield Case("targeted", "place", "drain", body)
    # 10 before a 7 has no place, and a 7 before 10 has one
    for kind, body in (("struct", b"<r><a>1</a><a>2&zz;</a><c>3</c></r>"), ("strings", b"<r><a>12</a><a>3&zz;</a></r>"),
                       ("map", referred(b"2&zz;")["map"][1]), ("string", b"<r>1&zz;</r>")):
        for room in ((0, 9), (1, 9), (2, 9), (9, 0), (9, 1), (9, 2)):
            yield Case("targeted", "place", kind, body, PLACE_SHEETS.get(kind, b""), rng.choice([0, 1]), 0, room=room)
    # a value that no tokenizer made: the place is counted from its start, wherever its row begins
    body = b"<r>&lt;&#+65;&zz;</r>"
    for start in range(3, 17):
        table = ([1, 0, 0, 1, 1, 0, 0, 2, 3, 0, 0, 0, 0, 0, 0, 3, 6, 0, 0, 0, 0, start, 17 - start, 17, 4, 0, 0, 19, 1, 0, 0, 21], 21)
        for flags in (0, 1):
            yield Case("targeted", "place", "string", body, b"", flags, 0, table=table)
        yield Case("targeted", "place", "drain", body, table=table)


def targeted(seed_rng, tables):
    for family in (chosen, names, members, broken_sheets, order, texts, rooms, groups, unwrapped, defects, told_apart):
        yield from family(seed_rng)
    yield from broken_tables(seed_rng, tables)
    deep = [(b"<a>" * levels) + (b"</a>" * levels) for levels in (256, 257)] + [b"<a>" * 256 + b"<b/>",
                                                                                b"<a>" * 255 + b"<b/>" + b"</a>" * 255]
    for body in deep:
        for kind, sheet in (("struct", STRUCT), ("list", ANY_LIST), ("strings", ANY_LIST), ("map", MAP), ("string", b""), ("find", b"a"),
                            ("drain", b""), ("whole", b"")):
            yield Case("targeted", "limit", kind, body, sheet, 1, 0)
    # last, so that what the others draw stays as it was
    yield from places(seed_rng)


# ------------------------------------------------------------ tables that no tokenizer made


def span(rng, low, high):
    """A filled span in low..high, or None."""
    if high <= low:
        return None
    start = rng.randrange(low, high)
    return start, rng.randrange(1, high - start + 1)


def lent(rng, body, rows, final):
    """A table with some changes; most of them obey the rules again."""
    rows = [list(row) for row in rows]
    for _ in range(rng.choice([1, 1, 2, 2, 3, 5])):
        at = rng.randrange(len(rows)) if rows else 0
        low = rows[at - 1][7] if at and rows else 0
        roll = rng.randrange(14)
        if roll == 0 or not rows:
            final = rng.randrange((rows[-1][7] if rows else 0), len(body) + 1) if not rows or rows[-1][7] <= len(body) else final
        elif roll == 1:
            del rows[at:]
        elif roll == 2:
            rows[at + 1:] = [[8, 0, 0, 0, 0, 0, 0, rng.randrange(rows[at][7], max(rows[at][7], final) + 1)]]
        elif roll == 3:
            del rows[at]
        elif roll == 4:
            rows.insert(at, list(rows[at]))
        elif roll == 5:
            rows[at][7] = rng.randrange(low, max(low, rows[at + 1][7] if at + 1 < len(rows) else final) + 1)
        elif roll in (6, 7) and rows[at][0] in (1, 2, 4):
            new = span(rng, low, rows[at][7])
            if new and rng.random() < 0.7:
                rows[at][3:5] = new
            elif rng.random() < 0.5:
                rows[at][3:5] = [rng.randrange(low, rows[at][7] + 1), 0]
            else:
                rows[at][1:3] = rng.choice([new or (0, 0), (0, 0)])
        elif roll == 8 and rows[at][0] in (2, 6):
            rows[at][5:7] = rng.choice([span(rng, low, rows[at][7]) or (0, 0), (0, 0)])
        elif roll == 9 and rows[at][0] in (4, 6, 7):
            rows[at] = [7, 0, 0, 0, 0, 0, 0, rows[at][7]]
        elif roll == 10 and rows[at][0] in (3, 4, 5, 7):
            value = span(rng, low, rows[at][7]) or (0, 0)
            rows.insert(at + 1, [6, 0, 0, 0, 0, 0, 0, rows[at][7]])
            if rows[at][0] == 7:
                rows[at + 1][5:7] = value
        elif roll == 11 and rows[at][0] in (3, 5):
            rows[at][0] = rng.choice([3, 5])
        elif roll == 12 and rows[at][0] == 4:
            start = rng.choice([row for row in rows if row[0] == 1] or [rows[at]])
            rows[at][4] = min(start[4], rows[at][7] - rows[at][3]) if rows[at][3] <= rows[at][7] else 0
        else:
            field = rng.randrange(8)
            rows[at][field] = max(0, rows[at][field] + rng.choice([-1, 1, 1, 2]))
    return [number for row in rows for number in row], final


def lent_tables(rng, count, tables, obeys):
    bodies = [body for body in CHOSEN + MAP_BODIES + TEMPLATES if b"\xff" not in body]
    out = []
    while len(out) < count:
        body = rng.choice(bodies) if rng.random() < 0.5 else gen.body(rng)
        if len(body) > 300:
            continue
        rows, final = tables([body])[0]
        if not rows:
            continue
        table = lent(rng, body, rows, final)
        if not obeys(body, *table) and rng.random() > 0.1:
            continue
        for case in rng.sample(list(thorough("tables", "table", body)), 6):
            case.table = table
            out.append(case)
    return out[:count]


# ------------------------------------------------------------ random


def of_body(body, rows):
    """The names of the root, its children and its attributes, as a table tells them."""
    root, children, attributes = b"r", set(), set()
    depth = 0
    for row in rows:
        local = body[row[3]:row[3] + row[4]]
        prefix = body[row[1]:row[1] + row[2]]
        whole = prefix + b":" + local if prefix else local
        if row[0] == 1:
            if depth == 0 and local:
                root = local
            if depth == 1 and local:
                children.add(local)
            depth += 1
        elif row[0] in (4, 5):
            depth -= 1
        elif row[0] == 2 and depth == 1 and local:
            attributes.add(whole)
            attributes.add(local)
    return root, sorted(children), sorted(attributes)


def random_cases(rng, count, tables):
    out = []
    while len(out) < count:
        bodies = []
        while len(bodies) < 100:
            body = gen.body(rng)
            if len(body) <= 500 or rng.random() < 0.05:
                bodies.append(body)
        for body, (rows, _) in zip(bodies, tables(bodies)):
            root, children, attributes = of_body(body, rows)
            sheets = [("struct", gen.fitting_structure_sheet(rng, root, children, attributes)), ("struct", gen.structure_sheet(rng)),
                      ("list", gen.list_sheet(rng)),
                      ("strings", gen.list_sheet(rng)), ("map", gen.map_sheet(rng)), ("map", rng.choice(MAP_SHEETS)),
                      ("find", rng.choice([root, rng.choice(children) if children else b"a", rng.choice(gen.LOCALS)])),
                      (rng.choice(["bool", "int"]), b""), ("string", b""), ("whole", b""), ("drain", b"")]
            for kind, sheet in rng.sample(sheets, 7):
                flags, depth, maximum = gen.settings(rng)
                room = None
                if rng.random() < 0.15 and kind in ("struct", "list", "map", "strings", "string", "whole"):
                    room = (rng.choice([0, 1, 2, 3, 5, 1000]), rng.choice([0, 1, 2, 3, 5, 8, 13, 30, 100, 1000]))
                out.append(Case("random", "body", kind, body, sheet, flags, depth, maximum, room))
            body = b"<r>" + gen.number_text(rng) + b"</r>"
            out.append(Case("random", "scalar", rng.choice(["bool", "int", "string"]), body, b"", rng.choice([0, 1]), rng.choice([0, 1])))
            out.append(Case("random", "text", rng.choice(["textbool", "textint", "textint", "textstring"]), gen.number_text(rng)))
    return out[:count]
