#!/usr/bin/env python3
"""Sheets for the program sheet_cases, made with no code of this repository.

usage: rust/list, which has the source's answers added and writes the whole list

Writes commands of 32 bytes to standard output: kind u8, number u8, n u16, at u32, then 24 bytes of payload,
little-endian. They work on a buffer of 65,536 bytes for sheets and another for answers, which start as zeros.

  1  store     the first n bytes of the payload go into the sheets' buffer at byte `at`
  2  refused   the first `at` bytes of the buffer are a sheet that is refused with `number`
  3  accepted  the first `at` bytes are a sheet that is accepted; the payload holds a place in the answers' buffer and
               a size, u32 each: so many bytes from there on are the offsets of its sections, u16 each
  4  prefixes  each proper prefix of the first `at` bytes, the empty one too, is refused with `number`

  5  store     as 1, into the answers' buffer
  6  join      the first `at` bytes are a sheet that is accepted; the payload holds place and size, as for 3, of the
               join's answer
  7  predicate the same for the predicate of expression n
  8  split     the same for the split of expression n

This script writes the kinds 1 to 5, and rust/oracle/src/bin/list.rs those of 1 to 3 and 5 to 8.

Where the expected numbers come from: each case states which number it gets and at which field, by itself or by a
table of broken fields. `check_sheet` below is a reading of document 01, with what docs/DECISIONS.md settles, written
for this list alone, and it has to give the same number at the same field. Each broken sheet stands beside an accepted one with the same bytes in front of that
field, so the byte before the field is the last that is right; the few that have no such neighbour say so. The script
stops with a message where any of this fails. The seed is fixed: every run writes the same bytes.
"""
import random
import struct
import sys

STORE, REFUSED, ACCEPTED, PREFIXES, STORE_ANSWER = 1, 2, 3, 4, 5
BUFFER = 65_536
PAYLOAD = 24

SECTIONS = (
    "rows", "settings", "sketches", "tables", "keys", "left_columns", "right_columns", "left_classes", "right_classes",
    "expressions", "operands", "conjuncts",
)
LIMITS = {
    "rows": (2, 2), "settings": (5, 5), "sketches": (0, 16), "tables": (0, 64), "keys": (0, 64), "left_columns": (0, 64), "right_columns": (0, 64),
    "left_classes": (0, 32), "right_classes": (0, 32), "expressions": (0, 256), "operands": (0, 512), "conjuncts": (0, 64),
}
NONE = 0xFFFF
ALL_ONES = (1 << 64) - 1
MOST_ROWS = 1 << 53

LITERAL, COLUMN, UNARY, BINARY, NARY, LIKE, OTHER = range(7)
OPS = {UNARY: 4, BINARY: 11, NARY: 2}
AND, OR = 0, 1

numbers = random.Random(20250303)


def hold(condition, *what):
    if not condition:
        sys.exit(f"make_sheet_cases: does not hold: {what}")


# ---- a reading of document 01

class Refusal(Exception):
    """A rule's number, and the byte at which the field stands that breaks it."""

    def __init__(self, number, place):
        super().__init__(number, place)
        self.number, self.place = number, place


def require(kept, number, place):
    if not kept:
        raise Refusal(number, place)


def uint_at(s, at, size):
    return int.from_bytes(s[at:at + size], "little")


def float_at(s, at):
    return struct.unpack_from("<d", s, at)[0]


class Walk:
    """The bytes from the front on: a count, a record or a head has to be there whole."""

    def __init__(self, s):
        self.s, self.at, self.sections = s, 0, []

    def whole(self, size):
        place = self.at
        require(place + size <= len(self.s), 2, place)
        self.at += size
        return place

    def count(self, section):
        place = self.whole(2)
        self.sections.append(place)
        low, high = LIMITS[section]
        n = uint_at(self.s, place, 2)
        require(low <= n <= high, 3, place)
        return n


def check_figure(s, at, most):
    require(uint_at(s, at, 8) == 0 or 2.0**-64 <= float_at(s, at) <= most, 4, at)


def check_bound(s, at, present):
    if present:
        check_figure(s, at, 2.0**64)
    else:
        require(uint_at(s, at, 8) == 0, 6, at)


def check_estimate(s, at):
    source, flags = s[at], s[at + 1]
    require(source <= 4, 6, at)
    require(flags <= 3, 6, at + 1)
    check_figure(s, at + 2, 2.0**64)
    check_bound(s, at + 10, flags & 1)
    check_bound(s, at + 18, flags & 2)


def check_amount(s, at):
    require(uint_at(s, at, 8) <= MOST_ROWS, 4, at)


# how many bytes each tag's value has
VALUE_SIZES = {0: 0, 1: 1, 2: 4, 3: 8, 4: 8, 5: 18, 6: 4, 8: 16, 9: 8, 255: 0}


def value_lawful(tag, value):
    if tag == 1:
        return value[0] <= 1
    if tag == 4:
        return uint_at(value, 0, 8) == 0 or 2.0**-400 <= abs(float_at(value, 0)) <= 2.0**400
    if tag == 5:
        whole = int.from_bytes(value[2:18], "little", signed=True)
        return 1 <= value[0] <= 38 and value[1] <= 22 and -(1 << 63) <= whole < 1 << 63
    return True


def check_scalar(s, at, null, absent):
    """A scalar where Null may stand or not, and where it may be absent or not."""
    tag, value = s[at], s[at + 1:at + 19]
    lawful = tag in VALUE_SIZES and not any(value[VALUE_SIZES[tag]:]) and value_lawful(tag, value)
    require(lawful and (tag != 0 or null) and (tag != 255 or absent), 5, at)


def check_column(s, at, before):
    column = uint_at(s, at, 2)
    require(before < column < 128, 7, at)
    return column


def check_sketches(walk):
    s, items = walk.s, 0
    sketches = walk.count("sketches")
    for _ in range(sketches):
        at = walk.whole(10)
        check_amount(s, at)
        n = uint_at(s, at + 8, 2)
        items += n
        require(n <= 64 and items <= 512, 3, at + 8)
        seen = set()
        for _ in range(n):
            at = walk.whole(35)
            check_scalar(s, at, null=False, absent=False)
            require(s[at:at + 19] not in seen, 7, at)
            seen.add(s[at:at + 19])
            check_amount(s, at + 19)
            check_amount(s, at + 27)
    return sketches


def check_tables(walk):
    s, before = walk.s, -1
    for _ in range(walk.count("tables")):
        at = walk.whole(10)
        require(before < uint_at(s, at, 2), 7, at)
        before = uint_at(s, at, 2)
        if uint_at(s, at + 2, 8) != ALL_ONES:
            check_amount(s, at + 2)


def check_keys(walk):
    s = walk.s
    for _ in range(walk.count("keys")):
        at = walk.whole(9)
        require(s[at] in (1, 2), 6, at)
        for field in (at + 5, at + 7):
            require(s[at] == 2 or uint_at(s, field, 2) == NONE, 6, field)


def check_columns(walk, section, sketches):
    s, before = walk.s, -1
    for _ in range(walk.count(section)):
        at = walk.whole(98)
        before = check_column(s, at, before)
        require((uint_at(s, at + 2, 2) == NONE) == (uint_at(s, at + 4, 2) == NONE), 6, at + 4)
        check_scalar(s, at + 6, null=True, absent=True)
        check_scalar(s, at + 25, null=True, absent=True)
        check_estimate(s, at + 44)
        check_estimate(s, at + 70)
        sketch = uint_at(s, at + 96, 2)
        require(sketch == NONE or sketch < sketches, 8, at + 96)


def check_classes(walk, section):
    s = walk.s
    for _ in range(walk.count(section)):
        at = walk.whole(28)
        n = uint_at(s, at, 2)
        require(2 <= n <= 128, 3, at)
        check_estimate(s, at + 2)
        before = -1
        for _ in range(n):
            before = check_column(s, walk.whole(2), before)


def check_zeros(s, *fields):
    for at, size in fields:
        require(not any(s[at:at + size]), 6, at)


def check_expression(s, at, number, filled):
    """The expression with a number, where the runs in front of it take so many operands: how many it adds."""
    kind, op, a, b = s[at], s[at + 1], uint_at(s, at + 2, 2), uint_at(s, at + 4, 2)
    op_at, a_at, b_at, scalar_at = (at + 1, 1), (at + 2, 2), (at + 4, 2), (at + 6, 19)
    require(kind <= OTHER, 6, at)
    if kind in OPS:
        require(op < OPS[kind], 6, at + 1)
    else:
        check_zeros(s, op_at)
    if kind == LITERAL:
        check_zeros(s, a_at, b_at)
        check_scalar(s, at + 6, null=True, absent=False)
        return 0
    if kind == COLUMN:
        check_column(s, at + 2, -1)
        check_zeros(s, b_at)
    elif kind == UNARY:
        require(a < number, 8, at + 2)
        check_zeros(s, b_at)
    elif kind == BINARY:
        require(a < number, 8, at + 2)
        require(b < number, 8, at + 4)
    elif kind == NARY:
        require(a == filled, 9, at + 2)
    else:
        check_zeros(s, a_at, b_at)
    check_zeros(s, scalar_at)
    return b if kind == NARY else 0


def check_expressions(walk):
    """The kinds of the expressions, and for each operand that the runs ask for, whose it is."""
    s, kinds, owners, filled = walk.s, [], [], 0
    for number in range(walk.count("expressions")):
        at = walk.whole(25)
        b = check_expression(s, at, number, filled)
        kinds.append(s[at])
        owners += [number] * min(b, 1024)
        filled += b
    return kinds, owners, filled


def check_operands(walk, kinds, owners, filled):
    s, n = walk.s, walk.count("operands")
    require(n == filled, 9, walk.sections[-1])
    named = set()
    for j in range(n):
        at = walk.whole(2)
        e = uint_at(s, at, 2)
        require(e < owners[j], 8, at)
        require(kinds[e] != NARY or e not in named, 9, at)
        named.add(e)


def check_sheet(s):
    """The offsets of the sections of an accepted sheet; else a Refusal is raised."""
    require(len(s) <= 65_535, 1, 0)
    walk = Walk(s)
    for _ in range(walk.count("rows")):
        check_estimate(s, walk.whole(26))
    for i in range(walk.count("settings")):
        check_figure(s, walk.whole(8), 1.0 if i < 3 else 2.0**64)
    sketches = check_sketches(walk)
    check_tables(walk)
    check_keys(walk)
    check_columns(walk, "left_columns", sketches)
    check_columns(walk, "right_columns", sketches)
    check_classes(walk, "left_classes")
    check_classes(walk, "right_classes")
    kinds, owners, filled = check_expressions(walk)
    check_operands(walk, kinds, owners, filled)
    for _ in range(walk.count("conjuncts")):
        at = walk.whole(2)
        require(uint_at(s, at, 2) < len(kinds), 8, at)
    require(walk.at == len(s), 10, walk.at)
    return walk.sections


def verdict(s):
    """Sections of an accepted sheet, or number and place of a refused one."""
    try:
        return check_sheet(s)
    except Refusal as refusal:
        return refusal.number, refusal.place


# ---- sheets, made of records, whose fields have names

def uint(value, size):
    return value.to_bytes(size, "little")


def bits_of(x):
    return uint_at(struct.pack("<d", x), 0, 8)


def under(name, record):
    return {f"{name}.{field}": value for field, value in record.items()}


class Sheet:
    """A list of records for each section. A record is its fields in their order, each with its bytes."""

    def __init__(self, sections):
        self.sections = {section: sections.get(section, []) for section in SECTIONS}
        self.places, self.data = {}, b""
        for section, records in self.sections.items():
            self.add(f"{section}.count", uint(len(records), 2))
            for i, record in enumerate(records):
                self.starts(f"{section}[{i}]")
                for field, value in record.items():
                    self.add(f"{section}[{i}].{field}" if field else f"{section}[{i}]", value)
        self.starts("end")

    def starts(self, name):
        self.places[name] = (len(self.data), 0)

    def add(self, name, value):
        self.places[name] = (len(self.data), len(value))
        self.data += value

    def at(self, field):
        return self.places[field][0]

    def end(self, field):
        at, size = self.places[field]
        return at + size

    def field(self, name):
        return self.data[self.at(name):self.end(name)]

    def offsets(self):
        return [self.at(f"{section}.count") for section in SECTIONS]

    def but(self, **sections):
        """The same sheet with other records in some sections."""
        return Sheet({**self.sections, **sections})

    def only(self, last):
        """The sections up to one, and none behind it."""
        return Sheet({section: self.sections[section] for section in SECTIONS[:SECTIONS.index(last) + 1]})

    def changed(self, changes):
        """The bytes with other values in some fields, the first bytes of each given, a number in the field's size."""
        data = bytearray(self.data)
        for field, value in changes.items():
            at, size = self.places[field]
            value = uint(value, size) if isinstance(value, int) else value
            hold(len(value) <= size, field, value)
            data[at:at + len(value)] = value
        return bytes(data)


def estimate(value, lower=None, upper=None, source=1):
    flags = (lower is not None) + 2 * (upper is not None)
    bits = [bits_of(x) if x is not None else 0 for x in (value, lower, upper)]
    return {"source": uint(source, 1), "flags": uint(flags, 1), "value": uint(bits[0], 8), "lower": uint(bits[1], 8), "upper": uint(bits[2], 8)}


def setting(x):
    return {"": struct.pack("<d", x)}


def item(scalar, lower=1, error=0):
    return {"scalar": scalar, "lower": uint(lower, 8), "error": uint(error, 8)}


def sketch(population, items):
    record = {"population": uint(population, 8), "n": uint(len(items), 2)}
    for i, one in enumerate(items):
        record.update(under(f"items[{i}]", one))
    return record


def table(label, rows):
    return {"table": uint(label, 2), "rows": uint(rows, 8)}


def key(kind, own, name, referenced=NONE, referenced_name=NONE):
    return {
        "kind": uint(kind, 1), "table": uint(own, 2), "name": uint(name, 2),
        "referenced_table": uint(referenced, 2), "referenced_name": uint(referenced_name, 2),
    }


def column(number, base, lower, upper, frequency, distinct, of_sketch=NONE):
    return {
        "column": uint(number, 2), "base_table": uint(base[0], 2), "base_name": uint(base[1], 2), "lower": lower, "upper": upper,
        **under("frequency", frequency), **under("distinct", distinct), "sketch": uint(of_sketch, 2),
    }


def columns_of(columns, distinct):
    record = {"n": uint(len(columns), 2), **under("estimate", distinct)}
    record.update({f"columns[{i}]": uint(c, 2) for i, c in enumerate(columns)})
    return record


def expression(kind, op=0, a=0, b=0, scalar=bytes(19)):
    return {"kind": uint(kind, 1), "op": uint(op, 1), "a": uint(a, 2), "b": uint(b, 2), "scalar": scalar}


def names(expressions):
    return [{"": uint(e, 2)} for e in expressions]


# ---- scalars

def scalar(tag, value=b""):
    return (uint(tag, 1) + value).ljust(19, b"\0")


def boolean(b):
    return scalar(1, uint(b, 1))


def int32(x, tag=2):
    return scalar(tag, struct.pack("<i", x))


def int64(x):
    return scalar(3, struct.pack("<q", x))


def float64(bits):
    return scalar(4, uint(bits, 8))


def decimal(value, precision, scale):
    return scalar(5, uint(precision, 1) + uint(scale, 1) + value.to_bytes(16, "little", signed=True))


def date32(x):
    return int32(x, 6)


def month_day_nano(months, days, nanoseconds):
    return scalar(8, struct.pack("<iiq", months, days, nanoseconds))


def day_time(days, milliseconds):
    return scalar(9, struct.pack("<ii", days, milliseconds))


NULL, ABSENT = scalar(0), scalar(255)
I32_MIN, I32_MAX, I64_MIN, I64_MAX = -(1 << 31), (1 << 31) - 1, -(1 << 63), (1 << 63) - 1
SIGN = 1 << 63
INFINITY, NAN = 0x7FF0_0000_0000_0000, 0x7FF8_0000_0000_0000
SMALLEST_SCALAR, LARGEST_SCALAR = bits_of(2.0**-400), bits_of(2.0**400)

# lawful everywhere
VALUES = [
    boolean(0), boolean(1),
    int32(0), int32(1), int32(-1), int32(I32_MIN), int32(I32_MAX),
    int64(0), int64(1), int64(-1), int64(I64_MIN), int64(I64_MAX),
    float64(0), float64(bits_of(1.5)), float64(bits_of(-1.5)),
    float64(SMALLEST_SCALAR), float64(SIGN + SMALLEST_SCALAR), float64(LARGEST_SCALAR), float64(SIGN + LARGEST_SCALAR),
    # precision and scale at both ends, the scale above the precision, more digits than the precision
    decimal(0, 1, 0), decimal(9, 1, 22), decimal(-1, 38, 22), decimal(I64_MIN, 38, 0), decimal(I64_MAX, 38, 22),
    decimal(I64_MIN, 1, 1), decimal(10**18, 2, 5),
    date32(0), date32(I32_MIN), date32(I32_MAX),
    month_day_nano(0, 0, 0), month_day_nano(I32_MIN, I32_MAX, I64_MIN), month_day_nano(-1, -1, -1), month_day_nano(1, 2, I64_MAX),
    day_time(0, 0), day_time(I32_MIN, -1), day_time(I32_MAX, I32_MIN),
]


def broken_scalars():
    """Nineteen bytes that are a scalar nowhere."""
    for tag in (7, 10, 11, 127, 128, 254):
        yield scalar(tag)
    yield scalar(7, b"text")
    # behind a value, and behind the tags that have none, stand zeros: the first and the last of them set
    for value in (NULL, ABSENT, boolean(1), int32(-1), int64(-1), float64(bits_of(1.5)), date32(5), month_day_nano(-1, -1, -1), day_time(-1, -1)):
        for place in (1 + VALUE_SIZES[value[0]], 18):
            yield value[:place] + b"\x01" + value[place + 1:]
    yield boolean(2)
    yield boolean(255)
    for size in (1, (1 << 52) - 1, 1 << 52, SMALLEST_SCALAR - 1, LARGEST_SCALAR + 1, INFINITY, INFINITY + 1, NAN, SIGN - 1):
        yield float64(size)
        yield float64(SIGN + size)
    yield float64(SIGN)
    for precision, scale in ((0, 0), (0, 22), (39, 0), (128, 0), (255, 22), (1, 23), (38, 128), (38, 255)):
        yield decimal(7, precision, scale)
    # of the sixteen bytes the upper eight are the sign: one bit too many, one too few, all of them wrong
    for value in (I64_MAX + 1, I64_MIN - 1, 1 << 64, 1 << 126, -(1 << 127), (1 << 64) - 1, -(1 << 64) + 1):
        yield decimal(value, 38, 0)


# ---- the sheets from which the cases start

DEFAULTS = [setting(x) for x in (0.1, 0.25, 0.33, 1000.0, 100.0)]

EMPTY = Sheet({"rows": [estimate(100.0), estimate(50.0)], "settings": DEFAULTS})


def bounded(value):
    return estimate(value, value / 2, value * 2, 3)


def small_expressions():
    """Each kind, an empty run, runs one behind the other, an And and an Or in a run and below other kinds."""
    return [
        expression(LITERAL, scalar=int32(5)),  # 0
        expression(COLUMN, a=1),
        expression(COLUMN, a=2),
        expression(UNARY, op=1, a=1),
        expression(BINARY, op=0, a=1, b=2),  # 4
        expression(NARY, op=AND, a=0, b=0),
        expression(LIKE),
        expression(OTHER),
        expression(NARY, op=OR, a=0, b=2),  # 8: 6 7
        expression(NARY, op=AND, a=2, b=4),  # 9: 8 5 4 4
        expression(UNARY, op=0, a=9),
        expression(BINARY, op=2, a=9, b=9),
        expression(NARY, op=OR, a=6, b=2),  # 12: 9 10
        expression(LITERAL, scalar=NULL),
    ]


def small_sheet(estimated):
    """A sheet with something in every section, its estimates made by one function."""
    left = [
        column(1, (1, 2), int32(0), int32(9), estimated(100.0), estimated(10.0), 0),
        column(4, (NONE, NONE), ABSENT, ABSENT, estimated(90.0), estimated(20.0)),
        column(127, (5, 0), NULL, int64(3), estimated(80.0), estimated(30.0), 2),
    ]
    right = [
        column(2, (5, 2), int32(10), int32(19), estimated(50.0), estimated(25.0), 1),
        column(7, (NONE, NONE), date32(1), ABSENT, estimated(40.0), estimated(5.0)),
    ]
    return Sheet({
        "rows": [estimated(100.0), estimated(50.0)],
        "settings": DEFAULTS,
        "sketches": [
            sketch(1000, [item(int32(1), 5, 1), item(int64(1), 4, 0), item(date32(1), 3, 2), item(boolean(1))]),
            sketch(0, []),
            sketch(77, [item(float64(bits_of(2.5)), 8, 8), item(int32(1))]),
        ],
        "tables": [table(1, 100), table(5, ALL_ONES), table(0x1234, 50)],
        "keys": [key(1, 1, 2), key(2, 1, 3, 5, 2), key(1, 5, 2)],
        "left_columns": left,
        "right_columns": right,
        "left_classes": [columns_of([1, 4, 9], estimated(10.0)), columns_of([0, 127], estimated(4.0))],
        "right_classes": [columns_of([2, 7], estimated(5.0)), columns_of([3, 5, 6], estimated(6.0))],
        "expressions": small_expressions(),
        "operands": names([6, 7, 8, 5, 4, 4, 9, 10]),
        "conjuncts": names([4, 12, 9]),
    })


SMALL = small_sheet(bounded)
UNBOUNDED = small_sheet(estimate)

# a run of 512 operands: the first is an And, the last but one an Or, and the others are neither
WIDE = EMPTY.but(
    expressions=[expression(NARY, op=AND), expression(NARY, op=OR), expression(OTHER), expression(NARY, op=AND, a=0, b=512)],
    operands=names([0] + [2] * 509 + [1, 2]),
)

FIGURES = [0.0, 2.0**-64, 2.0**64, 1.0, 0.1, 3e9]


def any_estimate():
    value, lower, upper = (numbers.choice(FIGURES) for _ in range(3))
    shape = numbers.randrange(4)
    return estimate(value, lower if shape & 1 else None, upper if shape & 2 else None, numbers.randrange(5))


def full_sketches():
    """Sixteen sketches: one of 64 items, one of none, and the others of 32, which are 512 in all."""
    sizes = [64, 0] + [32] * 14
    sketches = []
    for i, size in enumerate(sizes):
        values = [VALUES[(5 * i + j) % len(VALUES)] for j in range(min(size, len(VALUES)))]
        values += [int64(1000 * i + j + 2) for j in range(size - len(values))]
        amounts = [0, 1, MOST_ROWS, 12345]
        sketches.append(sketch(amounts[i % 4], [item(v, amounts[j % 4], amounts[(i + j) % 4]) for j, v in enumerate(values)]))
    return sketches


def full_columns(first, bounds):
    """64 columns, every second one from the first, with every bound that there is."""
    columns = []
    for i in range(64):
        lower, upper = bounds[i % len(bounds)], bounds[-1 - i % len(bounds)]
        base = (NONE, NONE) if i % 5 == 0 else (i, 64 - i)
        columns.append(column(first + 2 * i, base, lower, upper, any_estimate(), any_estimate(), NONE if i % 3 == 0 else i % 16))
    return columns


def full_classes():
    """32 classes: 20 of all 128 columns, so that they overlap, and 12 of two."""
    pairs = [sorted(numbers.sample(range(128), 2)) for _ in range(12)]
    return [columns_of(list(range(128)), any_estimate()) for _ in range(20)] + [columns_of(pair, any_estimate()) for pair in pairs]


def full_expressions():
    """256 expressions of all kinds and ops, and the 512 operands of their runs."""
    expressions = [expression(LITERAL, scalar=v) for v in [NULL] + VALUES]
    expressions += [expression(COLUMN, a=c) for c in (0, 1, 64, 126, 127)]
    expressions += [expression(LIKE), expression(OTHER)]
    plain, unnamed, operands = list(range(len(expressions))), [], []
    sizes = [0, 0, 1, 2, 3, 64, 128] + [2] * 70 + [0] * 30
    while len(expressions) < 255:
        number = len(expressions)
        if number % 2:
            # over any two before it, an And or an Or among them
            kind = UNARY if number % 3 == 0 else BINARY
            a, b = numbers.randrange(number), numbers.randrange(number) if kind == BINARY else 0
            expressions.append(expression(kind, op=number // 2 % OPS[kind], a=a, b=b))
            plain.append(number)
        else:
            run = [numbers.choice(plain) for _ in range(sizes.pop(0))]
            # at some place of the run an And or an Or that no operand has named
            if run and unnamed:
                run[numbers.randrange(len(run))] = unnamed.pop(numbers.randrange(len(unnamed)))
            expressions.append(expression(NARY, op=number // 2 % 2, a=len(operands), b=len(run)))
            unnamed.append(number)
            operands += run
    rest = 512 - len(operands)
    hold(len(unnamed) < rest, len(unnamed), rest)
    expressions.append(expression(NARY, op=AND, a=len(operands), b=rest))
    return expressions, operands + unnamed + [0] * (rest - len(unnamed))


def full_sheet():
    """Every section at its upper limit."""
    expressions, operands = full_expressions()
    bounds = VALUES + [NULL, ABSENT]
    return Sheet({
        "rows": [estimate(2.0**64, 0.0, 2.0**-64, 0), estimate(0.0, 2.0**64, 0.0, 4)],
        "settings": [setting(x) for x in (1.0, 2.0**-64, 0.0, 2.0**64, 2.0**-64)],
        "sketches": full_sketches(),
        "tables": [table(label, (0, MOST_ROWS, ALL_ONES, 7)[i % 4]) for i, label in enumerate([*range(62), 0xFFFE, NONE])],
        "keys": [key(1, NONE, NONE), key(2, NONE, NONE, NONE, NONE)] * 16 + [key(1, i, 3) for i in range(16)] + [key(2, i, 3, i, 0) for i in range(16)],
        "left_columns": full_columns(0, bounds),
        "right_columns": full_columns(1, bounds[7:] + bounds[:7]),
        "left_classes": full_classes(),
        "right_classes": full_classes()[::-1],
        "expressions": expressions,
        "operands": names(operands),
        "conjuncts": names([255, 0] + [numbers.randrange(256) for _ in range(30)] + [255] * 32),
    })


FULL = full_sheet()


def hold_full():
    """Every section of FULL is at its limit, and every kind with every op and every tag stands where it may."""
    hold(all(len(FULL.sections[section]) == most for section, (_, most) in LIMITS.items()), "a section")
    sizes = [uint_at(record["n"], 0, 2) for record in FULL.sections["sketches"]]
    hold(sum(sizes) == 512 and max(sizes) == 64 and min(sizes) == 0, "items", sizes)
    for side in ("left_classes", "right_classes"):
        hold({uint_at(record["n"], 0, 2) for record in FULL.sections[side]} == {2, 128}, side)
    codes = {(record["kind"][0], record["op"][0]) for record in FULL.sections["expressions"]}
    hold(codes == {(kind, op) for kind in range(7) for op in range(OPS.get(kind, 1))}, "codes", codes)
    tags = {value[0] for value in VALUES}
    hold(tags | {0} == {record["scalar"][0] for record in FULL.sections["expressions"] if record["kind"][0] == LITERAL}, "literals")
    for side in ("left_columns", "right_columns"):
        for bound in ("lower", "upper"):
            hold(tags | {0, 255} == {record[bound][0] for record in FULL.sections[side]}, side, bound)
    hold(tags == {record[f][0] for record in FULL.sections["sketches"] for f in record if f.endswith("scalar")}, "sketches")


# ---- the list

class Cases:
    """The cases, each under the accepted sheet that it starts from, so that few bytes change from one to the next."""

    def __init__(self):
        self.under, self.seen = {}, set()
        self.commands, self.buffers = [], {STORE: bytearray(BUFFER), STORE_ANSWER: bytearray(BUFFER)}

    # -- what is claimed

    def add(self, base, data, kind, number=0, answer=b""):
        self.under.setdefault(base.data, []).append((data, kind, number, answer))

    def accept(self, sheet):
        """Once for each sheet."""
        if sheet.data not in self.seen:
            self.seen.add(sheet.data)
            hold(verdict(sheet.data) == sheet.offsets(), "accepted", verdict(sheet.data))
            self.add(sheet, sheet.data, ACCEPTED, answer=b"".join(uint(at, 2) for at in sheet.offsets()))

    def refuse(self, base, number, place, data, *what, neighbour=None):
        """Bytes that are refused at a place, in front of which they are those of an accepted sheet: the base, or another."""
        self.accept(base)
        neighbour = neighbour or base.data
        hold(len(verdict(neighbour)) == len(SECTIONS) and data[:place] == neighbour[:place] and data != neighbour, *what, "not right up to there")
        self.refuse_alone(base, number, place, data, *what)

    def refuse_alone(self, base, number, place, data, *what):
        """The same where no accepted sheet has these bytes in front."""
        hold(verdict(data) == (number, place), *what, "said", (number, place), "read", verdict(data))
        if data not in self.seen:
            self.seen.add(data)
            self.add(base, data, REFUSED, number)

    def prefixes(self, number, sheet):
        """All of them are in the list. Of a long sheet every 211th is read here, and the last thousand."""
        self.accept(sheet)
        size = len(sheet.data)
        for n in range(size):
            if size < 2000 or n % 211 == 0 or n + 1000 > size:
                hold(verdict(sheet.data[:n])[0] == number, "prefix", n)
        self.add(sheet, sheet.data, PREFIXES, number)

    # -- ways to break a sheet

    def damage(self, base, number, field, value):
        """Another value in a field, which then breaks the rule of that number."""
        self.damages(base, number, field, {field: value})

    def damages(self, base, number, field, changes):
        """The same with several fields. The one that is named comes first in the sheet."""
        self.refuse(base, number, base.at(field), base.changed(changes), field, changes)

    def whole(self, base, number, field, sheet):
        """A sheet of records that keeps all rules but one."""
        self.refuse(base, number, sheet.at(field), sheet.data, field)

    def cut(self, base, length, what, changes=None):
        """A sheet that ends inside a count, a head or a record, perhaps with other bytes in it."""
        hold(base.at(what) <= length, what, length)
        self.refuse(base, 2, base.at(what), base.changed(changes or {})[:length], "cut", what, length)

    # -- the commands

    def command(self, kind, number, n, at, payload=b""):
        self.commands.append(struct.pack("<BBHI", kind, number, n, at) + payload.ljust(PAYLOAD, b"\0"))

    def store(self, kind, data):
        """Stores where the kind's buffer differs from the data, no more than a payload at once."""
        buffer, at = self.buffers[kind], 0
        while at < len(data):
            end = min(at + 64, len(data))
            if buffer[at:end] == data[at:end]:
                at = end
                continue
            at = next(i for i in range(at, end) if buffer[i] != data[i])
            part = data[at:at + PAYLOAD]
            while buffer[at + len(part) - 1] == part[-1]:
                part = part[:-1]
            self.command(kind, 0, len(part), at, part)
            buffer[at:at + len(part)] = part
            at += len(part)
        hold(buffer[:len(data)] == data, "the buffer", kind, len(data))

    def written(self):
        """All commands, the short sheets first."""
        for base in sorted(self.under, key=lambda data: len(data) > 10_000):
            for data, kind, number, answer in self.under[base]:
                self.store(STORE, data)
                self.store(STORE_ANSWER, answer)
                self.command(kind, number, 0, len(data), struct.pack("<II", 0, len(answer)))
        return b"".join(self.commands)


# ---- accepted sheets

def put_accepted(cases):
    cases.accept(EMPTY)
    cases.accept(SMALL)
    cases.accept(UNBOUNDED)
    # figures at the ends of their ranges
    zero, tiny, huge = estimate(0.0, 0.0, 0.0, 0), bounded(2.0**-63), estimate(2.0**64, None, 2.0**64, 2)
    cases.accept(EMPTY.but(rows=[zero, zero], settings=[setting(0.0)] * 5))
    cases.accept(EMPTY.but(rows=[tiny, huge], settings=[setting(1.0)] * 3 + [setting(2.0**64)] * 2))
    cases.accept(EMPTY.but(rows=[estimate(7.0, 7.0, None, 2), estimate(7.0, None, 7.0, 4)], settings=[setting(2.0**-64)] * 5))
    # one section and no other, but for the sketches that columns name
    for section in SECTIONS[2:9]:
        cases.accept(EMPTY.but(sketches=SMALL.sections["sketches"]).but(**{section: SMALL.sections[section]}))
        if "columns" not in section:
            cases.accept(EMPTY.but(**{section: SMALL.sections[section]}))
    put_accepted_scalars(cases)
    put_accepted_oddities(cases)
    put_accepted_runs(cases)


def put_accepted_scalars(cases):
    """Every value in a sketch, and every one, Null and absence where they may stand, as a bound and as a literal."""
    bounds = VALUES + [NULL, ABSENT]
    cases.accept(EMPTY.but(sketches=[sketch(MOST_ROWS, [item(v, MOST_ROWS, MOST_ROWS) for v in VALUES])]))
    one = estimate(1.0)
    cases.accept(EMPTY.but(left_columns=[column(i, (i, i), b, b, one, one) for i, b in enumerate(bounds)]))
    cases.accept(EMPTY.but(right_columns=[column(i, (i, i), b, b, one, one) for i, b in enumerate(bounds)]))
    cases.accept(EMPTY.but(expressions=[expression(LITERAL, scalar=v) for v in VALUES + [NULL]]))


def put_accepted_oddities(cases):
    """What no rule speaks of."""
    one, odd = estimate(1.0), estimate(5.0, 9.0, 2.0, 0)
    cases.accept(EMPTY.but(rows=[odd, odd]))
    # values that differ in type, scale or precision alone, one value in two sketches, frequencies above the population
    alike = [int32(1), int64(1), date32(1), boolean(1), float64(bits_of(1.0)), day_time(1, 0), month_day_nano(1, 0, 0)]
    alike += [decimal(1, 1, 0), decimal(10, 2, 1), decimal(1, 2, 0)]
    cases.accept(EMPTY.but(sketches=[sketch(1, [item(v, MOST_ROWS, 5) for v in alike]), sketch(0, [item(int32(1), 7, MOST_ROWS)])]))
    # equal keys, keys of tables that are not listed, FFFF as a label
    unique, foreign = key(1, 3, 3), key(2, 3, 3, 3, 3)
    cases.accept(EMPTY.but(keys=[unique, unique, foreign, foreign, key(1, NONE, NONE), key(2, NONE, NONE, NONE, 0), key(2, 0, 0, 0, NONE)]))
    cases.accept(EMPTY.but(tables=[table(0, 0), table(NONE, ALL_ONES)]))
    cases.accept(EMPTY.but(tables=[table(NONE, MOST_ROWS)]))
    # bounds of unlike types, the lower above the upper, more rows than there are
    columns = [
        column(0, (0xFFFE, 0xFFFE), int32(9), int32(1), estimate(2.0**64), odd),
        column(1, (0, 0), boolean(1), float64(0), one, one),
        column(127, (0, 0), NULL, NULL, odd, odd),
    ]
    cases.accept(EMPTY.but(left_columns=columns, right_columns=columns))
    # classes of columns in no profile, that repeat, that overlap
    classes = [columns_of([3, 4], one), columns_of([3, 4], odd), columns_of([4, 5, 127], one), columns_of(range(128), one)]
    cases.accept(EMPTY.but(left_classes=classes, right_classes=classes))


def put_accepted_runs(cases):
    """Runs of no operands, an And that stands many times elsewhere, an operand that stands many times."""
    conjunction = expression(NARY, op=AND)
    cases.accept(EMPTY.but(expressions=[conjunction, conjunction, expression(NARY, op=OR)]))
    cases.accept(EMPTY.but(expressions=[expression(OTHER)], conjuncts=names([0] * 64)))
    many = [conjunction] + [expression(UNARY, op=3, a=0)] * 3 + [expression(BINARY, op=10, a=0, b=0)] * 3
    cases.accept(EMPTY.but(expressions=many, conjuncts=names([0] * 64)))
    # an And as an operand once, as a child and as a conjunct many times; another expression as an operand many times
    again = many + [expression(NARY, op=op, a=a, b=b) for op, a, b in ((OR, 0, 6), (AND, 6, 2), (AND, 8, 0), (OR, 8, 1))]
    cases.accept(EMPTY.but(expressions=again, operands=names([1, 0, 1, 6, 6, 1, 7, 6, 9]), conjuncts=names([0, 0, 7, 7, 10, 10])))
    cases.accept(WIDE)


# ---- number 1, number 10, and every prefix

def put_lengths(cases):
    for base in (EMPTY, SMALL, FULL):
        for extra in (b"\0", b"\x01", b"\0\0", bytes(26)):
            cases.refuse(base, 10, base.at("end"), base.data + extra, "left over")
    cases.refuse(SMALL, 10, SMALL.at("end"), SMALL.data + SMALL.data, "a sheet and another")
    # the longest sheet that may be, and one byte more, which counts before all else
    for base in (EMPTY, FULL):
        data = base.data.ljust(BUFFER, b"\0")
        cases.refuse(base, 10, base.at("end"), data[:-1], "65,535 bytes")
        cases.refuse(base, 1, 0, data, "65,536 bytes")
    data = EMPTY.changed({"rows.count": 3}).ljust(BUFFER, b"\0")
    cases.refuse(EMPTY, 3, 0, data[:-1], "65,535 bytes and a count")
    cases.refuse(EMPTY, 1, 0, data, "65,536 bytes and a count")


def put_prefixes(cases):
    for base in (EMPTY, SMALL, UNBOUNDED, FULL):
        cases.prefixes(2, base)


# ---- number 2

# records and heads; the items of a sketch and the columns of a class are records too
RECORDS = [
    "rows[0]", "rows[1]", "settings[0]", "settings[4]",
    "sketches[0]", "sketches[1]", "sketches[2]", "sketches[0].items[0].scalar", "sketches[0].items[3].scalar", "sketches[2].items[1].scalar",
    "tables[0]", "tables[2]", "keys[0]", "keys[1]",
    "left_columns[0]", "left_columns[2]", "right_columns[0]", "right_columns[1]",
    "left_classes[0]", "left_classes[1]", "left_classes[0].columns[0]", "right_classes[0]", "right_classes[1]", "right_classes[1].columns[2]",
    "expressions[0]", "expressions[8]", "expressions[13]", "operands[0]", "operands[7]", "conjuncts[0]", "conjuncts[2]",
]
SIZES = {
    "rows": 26, "settings": 8, "sketches": 10, "tables": 10, "keys": 9, "left_columns": 98, "right_columns": 98, "left_classes": 28, "right_classes": 28,
    "expressions": 25, "operands": 2, "conjuncts": 2,
}


def record_end(sheet, field):
    """Where the count, the head or the record ends in which a field stands."""
    if ".items[" in field:
        return sheet.at(field.rsplit(".", 1)[0] + ".scalar") + 35
    if ".columns[" in field or field.endswith(".count"):
        return sheet.at(field) + 2
    return sheet.at(field.split(".")[0]) + SIZES[field.split("[")[0]]


def put_cuts(cases):
    for section in SECTIONS:
        at = SMALL.at(f"{section}.count")
        for length in (at, at + 1):
            cases.cut(SMALL, length, f"{section}.count")
    for record in RECORDS:
        at, end = SMALL.at(record), record_end(SMALL, record)
        for length in sorted({at, at + 1, (at + end) // 2, end - 1}):
            cases.cut(SMALL, length, record)
    cases.cut(FULL, len(FULL.data) - 1, "conjuncts[63]")
    put_broken_cuts(cases)


def put_broken_cuts(cases):
    """The end comes inside a record or a head whose fields in front of it are broken as well: still 2."""
    for record, field, value in (
        ("rows[0]", "rows[0].source", 5),
        ("rows[1]", "rows[1].value", NAN),
        ("sketches[0]", "sketches[0].population", ALL_ONES),
        ("sketches[0].items[1].scalar", "sketches[0].items[1].scalar", b"\x07"),
        ("sketches[0].items[1].scalar", "sketches[0].items[1].scalar", SMALL.field("sketches[0].items[0].scalar")),
        ("tables[1]", "tables[1].table", 1),
        ("tables[2]", "tables[2].rows", ALL_ONES - 1),
        ("keys[0]", "keys[0].kind", 3),
        ("left_columns[1]", "left_columns[1].column", 1),
        ("left_columns[1]", "left_columns[1].base_table", 3),
        ("right_columns[1]", "right_columns[1].lower", b"\x0a"),
        ("right_columns[1]", "right_columns[1].frequency.flags", 4),
        ("left_classes[0]", "left_classes[0].n", 1),
        ("right_classes[1]", "right_classes[1].n", 129),
        ("right_classes[1]", "right_classes[1].estimate.source", 255),
        ("expressions[0]", "expressions[0].kind", 7),
        ("expressions[4]", "expressions[4].a", 4),
        ("expressions[12]", "expressions[12].a", 7),
    ):
        cases.cut(SMALL, record_end(SMALL, record) - 1, record, {field: value})
    # half of a count above its limit, of a setting, of a column, of an operand, of a conjunct
    for record in ("tables.count", "settings[2]", "left_classes[0].columns[1]", "operands[0]", "conjuncts[1]"):
        cases.cut(SMALL, SMALL.at(record) + 1, record, {record: b"\xff"})


# ---- number 3

def put_counts(cases):
    for section, (low, high) in LIMITS.items():
        for base in (FULL, SMALL):
            for n in (high + 1, 0x8000, NONE):
                cases.damage(base, 3, f"{section}.count", n)
            for n in range(low):
                cases.damage(base, 3, f"{section}.count", n)
    # one record less than the two and the five, one more than each limit, and every other rule kept
    rows, settings = EMPTY.sections["rows"], EMPTY.sections["settings"]
    for many in (rows[:1], [], rows + rows[:1]):
        cases.whole(EMPTY, 3, "rows.count", EMPTY.but(rows=many))
    for many in (settings[:4], [], settings + settings[4:]):
        cases.whole(EMPTY, 3, "settings.count", EMPTY.but(settings=many))
    put_one_more(cases)
    for n in (65, 66, 0x8000, NONE):
        cases.damage(SMALL, 3, "sketches[0].n", n)
        cases.damage(SMALL, 3, "sketches[1].n", n)
    for side in ("left_classes", "right_classes"):
        for n in (0, 1, 129, 0x8000, NONE):
            cases.damage(SMALL, 3, f"{side}[0].n", n)
            cases.damage(SMALL, 3, f"{side}[1].n", n)
        for columns, lawful in (([], [5, 6]), ([5], [5, 6]), (range(129), range(128))):
            broken, base = (EMPTY.but(**{side: [columns_of(these, estimate(1.0))]}) for these in (columns, lawful))
            cases.whole(base, 3, f"{side}[0].n", broken)
    put_items(cases)


def put_one_more(cases):
    """A record more than the limit in each section, on the full sheet cut off behind it."""
    more = {
        "sketches": sketch(0, []),
        "keys": key(1, 1, 1),
        "left_classes": columns_of([1, 2], estimate(1.0)),
        "right_classes": columns_of([1, 2], estimate(1.0)),
    }
    for section, record in more.items():
        base = FULL.only(section)
        cases.whole(base, 3, f"{section}.count", base.but(**{section: base.sections[section] + [record]}))
    # the full sheet has no higher number left for a table or a column
    tables = [table(i, 5) for i in range(65)]
    cases.whole(EMPTY.but(tables=tables[:64]), 3, "tables.count", EMPTY.but(tables=tables))
    columns = [column(i, (NONE, NONE), ABSENT, ABSENT, estimate(1.0), estimate(1.0)) for i in range(65)]
    for side in ("left_columns", "right_columns"):
        cases.whole(EMPTY.but(**{side: columns[:64]}), 3, f"{side}.count", EMPTY.but(**{side: columns}))
    others = [expression(OTHER)] * 257
    cases.whole(EMPTY.but(expressions=others[:256]), 3, "expressions.count", EMPTY.but(expressions=others))
    one = EMPTY.but(expressions=others[:1], conjuncts=names([0] * 64))
    for base in (one, FULL):
        cases.whole(base, 3, "conjuncts.count", base.but(conjuncts=base.sections["conjuncts"] + names([0])))
    put_many_operands(cases)


def put_many_operands(cases):
    """Above 512 operands it is 3, whether or not the runs ask for them."""
    expressions = WIDE.sections["expressions"][:3] + [expression(NARY, op=AND, a=0, b=513)]
    for n in (512, 599):
        sheet = WIDE.but(expressions=expressions, operands=names([0] + [2] * n))
        cases.refuse_alone(WIDE, 3, sheet.at("operands.count"), sheet.data, "operands", n)
    cases.whole(WIDE, 3, "operands.count", WIDE.but(operands=names([0] + [2] * 512)))
    cases.damage(SMALL, 3, "operands.count", 513)
    cases.damage(EMPTY, 3, "operands.count", 513)


def put_items(cases):
    """The 512 items are passed at an n that is itself no more than 64."""
    base = FULL.only("sketches")
    sketches = base.sections["sketches"]

    def of(size, start):
        return {**sketch(0, [item(int64(start + j)) for j in range(size)]), "population": sketches[15]["population"]}

    cases.damage(FULL, 3, "sketches[15].n", 33)
    cases.damage(FULL, 3, "sketches[15].n", 64)
    cases.whole(base, 3, "sketches[15].n", base.but(sketches=sketches[:15] + [of(33, 0)]))
    cases.whole(base, 3, "sketches[15].n", base.but(sketches=sketches[:15] + [of(64, 0)]))
    # eight of 64 fill the 512, and then only sketches of no items are left
    eight = [of(64, 100 * i) for i in range(8)]
    filled = EMPTY.but(sketches=eight + [of(0, 0)] * 8)
    for i in (8, 15):
        cases.whole(filled, 3, f"sketches[{i}].n", filled.but(sketches=filled.sections["sketches"][:i] + [of(1, 0)] + [of(0, 0)] * (15 - i)))
        cases.damage(filled, 3, f"sketches[{i}].n", 1)
        cases.damage(filled, 3, f"sketches[{i}].n", 65)


# ---- number 4

BROKEN_FIGURES = [
    NAN, INFINITY + 1, SIGN - 1, SIGN + NAN, INFINITY, SIGN + INFINITY, SIGN, SIGN + bits_of(1.0), SIGN + bits_of(2.0**-64),
    1, (1 << 52) - 1, 1 << 52, bits_of(2.0**-64) - 1, bits_of(2.0**64) + 1,
]
ESTIMATES = [
    "rows[0]", "rows[1]", "left_columns[0].frequency", "left_columns[0].distinct", "left_columns[2].distinct",
    "right_columns[0].frequency", "right_columns[1].distinct", "left_classes[0].estimate", "right_classes[1].estimate",
]


def put_figures(cases):
    for at in ESTIMATES:
        for figure in ("value", "lower", "upper"):
            for bits in BROKEN_FIGURES:
                cases.damage(SMALL, 4, f"{at}.{figure}", bits)
        for bits in BROKEN_FIGURES:
            cases.damage(UNBOUNDED, 4, f"{at}.value", bits)
    for i in range(5):
        for bits in BROKEN_FIGURES:
            cases.damage(SMALL, 4, f"settings[{i}]", bits)
    for i in range(3):
        for bits in (bits_of(1.0) + 1, bits_of(2.0), bits_of(2.0**64)):
            cases.damage(SMALL, 4, f"settings[{i}]", bits)


def put_amounts(cases):
    items = [f"{item_name}.{field}" for item_name in ("sketches[0].items[0]", "sketches[2].items[1]") for field in ("lower", "error")]
    for field in ["sketches[0].population", "sketches[1].population"] + items:
        for amount in (MOST_ROWS + 1, 1 << 63, ALL_ONES - 1, ALL_ONES):
            cases.damage(SMALL, 4, field, amount)
    for i in range(3):
        for amount in (MOST_ROWS + 1, 1 << 63, ALL_ONES - 1, ALL_ONES ^ SIGN, ALL_ONES ^ 0xFF):
            cases.damage(SMALL, 4, f"tables[{i}].rows", amount)
    cases.damage(FULL, 4, "sketches[0].items[63].error", MOST_ROWS + 1)
    cases.damage(FULL, 4, "tables[63].rows", MOST_ROWS + 1)


# ---- number 5

BOUNDS = ["left_columns[0].lower", "left_columns[1].upper", "right_columns[0].upper", "right_columns[1].lower"]
SKETCHED = ["sketches[0].items[0].scalar", "sketches[0].items[3].scalar", "sketches[2].items[1].scalar"]
LITERALS = ["expressions[0].scalar", "expressions[13].scalar"]


def put_scalars(cases):
    for field in BOUNDS + SKETCHED + LITERALS:
        for value in broken_scalars():
            cases.damage(SMALL, 5, field, value)
    # absent only as a bound, Null not in a sketch
    for field in SKETCHED + LITERALS:
        cases.damage(SMALL, 5, field, ABSENT)
    for field in SKETCHED:
        cases.damage(SMALL, 5, field, NULL)
    cases.damage(FULL, 5, "right_columns[63].upper", b"\x07")
    cases.damage(FULL, 5, "sketches[15].items[31].scalar", NULL)


# ---- number 6

def put_codes(cases):
    for at in ESTIMATES:
        for base in (SMALL, UNBOUNDED):
            for source in (5, 128, 255):
                cases.damage(base, 6, f"{at}.source", source)
            for flags in (4, 5, 7, 128, 255):
                cases.damage(base, 6, f"{at}.flags", flags)
        put_absent_bounds(cases, at)
    for i in range(3):
        for kind in (0, 3, 255):
            cases.damage(SMALL, 6, f"keys[{i}].kind", kind)
    put_references(cases)
    # no base in both fields or in neither
    for side, with_base, without in (("left_columns", 0, 1), ("right_columns", 0, 1)):
        cases.damage(SMALL, 6, f"{side}[{with_base}].base_name", NONE)
        cases.damage(SMALL, 6, f"{side}[{without}].base_name", 5)
        cases.damage(SMALL, 6, f"{side}[{without}].base_name", 0)
        # the pair shows its break where it ends
        for column_number, label in ((with_base, NONE), (without, 5)):
            names_of = f"{side}[{column_number}].base_table", f"{side}[{column_number}].base_name"
            data, neighbour = SMALL.changed({names_of[0]: label}), SMALL.changed({field: label for field in names_of})
            cases.refuse(SMALL, 6, SMALL.at(names_of[1]), data, side, label, neighbour=neighbour)


def put_absent_bounds(cases, at):
    """A bound that is not there is eight zeros and nothing else."""
    patterns = (1, 1 << 56, SIGN, NAN, INFINITY + 1, bits_of(1.0), SIGN + 1)
    for bound, other, flag in (("lower", "upper", 1), ("upper", "lower", 2)):
        for bits in patterns:
            cases.damage(UNBOUNDED, 6, f"{at}.{bound}", bits)
        # with the other one there
        changes = {f"{at}.flags": 3 - flag, f"{at}.{other}": bits_of(1.0)}
        place, neighbour = UNBOUNDED.at(f"{at}.{bound}"), UNBOUNDED.changed(changes)
        cases.refuse(UNBOUNDED, 6, place, UNBOUNDED.changed({**changes, f"{at}.{bound}": NAN}), at, bound, neighbour=neighbour)
        # the flag alone taken away
        changes = {f"{at}.flags": 3 - flag}
        cases.refuse(SMALL, 6, place, SMALL.changed(changes), at, bound, neighbour=SMALL.changed({**changes, f"{at}.{bound}": 0}))


def put_references(cases):
    """A unique key refers to nothing."""
    for i in (0, 2):
        for label in (0, 5, 0xFFFE, 0x00FF, 0xFF00):
            cases.damage(SMALL, 6, f"keys[{i}].referenced_table", label)
            cases.damage(SMALL, 6, f"keys[{i}].referenced_name", label)
        cases.damages(SMALL, 6, f"keys[{i}].referenced_table", {f"keys[{i}].referenced_table": 5, f"keys[{i}].referenced_name": 2})
    # a foreign key that is called unique
    neighbour = SMALL.changed({"keys[1].kind": 1, "keys[1].referenced_table": NONE, "keys[1].referenced_name": NONE})
    cases.refuse(SMALL, 6, SMALL.at("keys[1].referenced_table"), SMALL.changed({"keys[1].kind": 1}), "foreign as unique", neighbour=neighbour)


def put_expression_codes(cases):
    for i in range(14):
        for kind in (7, 8, 255):
            cases.damage(SMALL, 6, f"expressions[{i}].kind", kind)
    # the first op that a kind does not have; the kinds without ops have none but 0
    for i, op in ((3, 4), (10, 4), (4, 11), (11, 11), (5, 2), (8, 2), (9, 2), (0, 1), (13, 1), (1, 1), (6, 1), (7, 1)):
        for wrong in (op, 128, 255):
            cases.damage(SMALL, 6, f"expressions[{i}].op", wrong)
    unused = {0: "ab", 13: "ab", 1: "bs", 3: "bs", 10: "bs", 4: "s", 11: "s", 5: "s", 8: "s", 12: "s", 6: "abs", 7: "abs"}
    for i, fields in unused.items():
        for field in fields.replace("s", ""):
            for value in (1, 0x100, NONE):
                cases.damage(SMALL, 6, f"expressions[{i}].{field}", value)
        if "s" in fields:
            put_unused_scalars(cases, f"expressions[{i}].scalar")


def put_unused_scalars(cases, field):
    """Only a literal has a scalar: elsewhere any byte that is not zero is a 6, whatever it looks like."""
    for value in (1, 2, 7, 255):
        cases.damage(SMALL, 6, field, uint(value, 1))
    for place in (1, 9, 18):
        for value in (1, 255):
            cases.damage(SMALL, 6, field, bytes(place) + uint(value, 1))
    for value in (int32(5), scalar(7, b"text"), ABSENT[:18] + b"\x01", bytes([255] * 19)):
        cases.damage(SMALL, 6, field, value)


# ---- number 7

def put_orders(cases):
    for i, label in ((1, 1), (1, 0), (2, 5), (2, 4), (2, 0)):
        cases.damage(SMALL, 7, f"tables[{i}].table", label)
    for label in (0xFFFE, 0):
        cases.damage(FULL, 7, "tables[63].table", label)
    for side, seconds in (("left_columns", (1, 0, 128, 129, 0x0100, 0x8000, NONE)), ("right_columns", (2, 1, 0, 128, 0x0104, NONE))):
        for number in seconds:
            cases.damage(SMALL, 7, f"{side}[1].column", number)
        for number in (128, 0x0100, NONE):
            cases.damage(SMALL, 7, f"{side}[0].column", number)
    for field, columns in (
        ("left_classes[0].columns[1]", (1, 0, 128, 0x0102, NONE)),
        ("left_classes[0].columns[2]", (4, 3, 0, 128, NONE)),
        ("left_classes[1].columns[1]", (0, 128, 255, NONE)),
        ("right_classes[0].columns[0]", (128, 0x0100, NONE)),
        ("right_classes[0].columns[1]", (2, 1, 128)),
        ("right_classes[1].columns[2]", (5, 4, 3, 128)),
    ):
        for number in columns:
            cases.damage(SMALL, 7, field, number)
    cases.damage(FULL, 7, "left_classes[0].columns[127]", 128)
    cases.damage(FULL, 7, "left_classes[0].columns[127]", 126)
    cases.damage(FULL, 7, "right_columns[63].column", 128)
    cases.damage(FULL, 7, "right_columns[63].column", 125)
    # the column of an expression has no order, only its limit
    for number in (128, 129, 0x0100, NONE):
        cases.damage(SMALL, 7, "expressions[1].a", number)
        cases.damage(SMALL, 7, "expressions[2].a", number)


def put_twice(cases):
    """A value that stood before in its sketch."""
    for later, earlier in ((1, 0), (2, 1), (2, 0), (3, 0), (3, 2)):
        cases.damage(SMALL, 7, f"sketches[0].items[{later}].scalar", SMALL.field(f"sketches[0].items[{earlier}].scalar"))
    cases.damage(SMALL, 7, "sketches[2].items[1].scalar", SMALL.field("sketches[2].items[0].scalar"))
    for sketch_number, later, earlier in ((0, 63, 0), (0, 63, 62), (0, 63, 31), (0, 1, 0), (15, 31, 0), (15, 31, 30)):
        cases.damage(FULL, 7, f"sketches[{sketch_number}].items[{later}].scalar", FULL.field(f"sketches[{sketch_number}].items[{earlier}].scalar"))
    # every tag's value
    pairs = Sheet({**EMPTY.sections, "sketches": [sketch(5, [item(v) for v in VALUES])]})
    for i, value in enumerate(VALUES[1:], 1):
        cases.damage(pairs, 7, f"sketches[0].items[{i}].scalar", VALUES[0])
    last = f"sketches[0].items[{len(VALUES) - 1}].scalar"
    for value in VALUES[:-1]:
        cases.damage(pairs, 7, last, value)


# ---- number 8

def put_names(cases):
    for side, i in (("left_columns", 0), ("left_columns", 1), ("left_columns", 2), ("right_columns", 0), ("right_columns", 1)):
        for number in (3, 4, 0x0100, 0x8000, 0xFFFE):
            cases.damage(SMALL, 8, f"{side}[{i}].sketch", number)
    cases.damage(FULL, 8, "right_columns[63].sketch", 16)
    bare = EMPTY.but(left_columns=[column(0, (1, 1), ABSENT, ABSENT, estimate(1.0), estimate(1.0))])
    cases.damage(bare, 8, "left_columns[0].sketch", 0)
    # children: the parent itself, above it, no expression
    for i, field in ((3, "a"), (10, "a"), (4, "a"), (4, "b"), (11, "a"), (11, "b")):
        for number in (i, i + 1, 13, 14, 0x0100, NONE):
            cases.damage(SMALL, 8, f"expressions[{i}].{field}", number)
    # the first expression has no child that it could name
    for kind in (UNARY, BINARY):
        sheet = EMPTY.but(expressions=[expression(kind)])
        cases.refuse_alone(EMPTY, 8, sheet.at("expressions[0].a"), sheet.data, kind)
    put_operand_names(cases)
    for i in range(3):
        for number in (14, 15, 0x0100, 0x8000, NONE):
            cases.damage(SMALL, 8, f"conjuncts[{i}]", number)
    cases.damage(FULL, 8, "conjuncts[63]", 256)
    sheet = EMPTY.but(conjuncts=names([0]))
    cases.refuse_alone(EMPTY, 8, sheet.at("conjuncts[0]"), sheet.data, "no expressions")


def put_operand_names(cases):
    """Operands that name their own NaryOp, one above it, or no expression."""
    for j, owner in ((0, 8), (1, 8), (2, 9), (5, 9), (6, 12), (7, 12)):
        for number in sorted({owner, owner + 1, 13, 14, 0x0100, NONE}):
            cases.damage(SMALL, 8, f"operands[{j}]", number)
    # not below its own NaryOp, and below the last one
    cases.damage(SMALL, 8, "operands[0]", 9)
    cases.damage(SMALL, 8, "operands[1]", 12)
    cases.damage(SMALL, 8, "operands[5]", 10)
    cases.damage(WIDE, 8, "operands[511]", 3)
    cases.damage(FULL, 8, "operands[511]", 255)


# ---- number 9

def put_runs(cases):
    # SMALL's runs start at 0, 0, 2 and 6; the first is empty
    for i, start in ((5, 0), (8, 0), (9, 2), (12, 6)):
        for wrong in sorted({start - 1, start + 1, 0, 8, 0x0100 + start, NONE} - {start, -1}):
            cases.damage(SMALL, 9, f"expressions[{i}].a", wrong)
    empty_last = [expression(OTHER), expression(NARY, op=AND, a=0, b=1), expression(NARY, op=OR, a=1, b=0), expression(NARY, op=OR, a=1, b=0)]
    base = EMPTY.but(expressions=empty_last, operands=names([0]))
    for i in (2, 3):
        for wrong in (0, 2, NONE):
            cases.damage(base, 9, f"expressions[{i}].a", wrong)
    put_filling(cases)
    put_long_runs(cases)
    put_shared(cases)


def put_filling(cases):
    """More or fewer operands than the runs ask for."""
    for n in (0, 7, 9, 512):
        cases.damage(SMALL, 9, "operands.count", n)
    for n in (1, 2, 512):
        cases.damage(EMPTY, 9, "operands.count", n)
    cases.damage(WIDE, 9, "operands.count", 511)
    cases.damage(WIDE, 9, "operands.count", 0)
    cases.damage(FULL, 9, "operands.count", 511)
    operands = SMALL.sections["operands"]
    cases.whole(SMALL, 9, "operands.count", SMALL.but(operands=operands[:-1]))
    cases.whole(SMALL, 9, "operands.count", SMALL.but(operands=operands + names([4])))
    other = EMPTY.but(expressions=[expression(OTHER)])
    cases.whole(other, 9, "operands.count", other.but(operands=names([0])))
    # the b of the last run, which is not judged where it stands
    expressions = SMALL.sections["expressions"]
    for b in (0, 1, 3):
        changed = SMALL.but(expressions=expressions[:12] + [expression(NARY, op=OR, a=6, b=b)] + expressions[13:])
        neighbour = changed.but(operands=(operands[:6] + names([4] * 3))[:6 + b])
        cases.refuse(SMALL, 9, changed.at("operands.count"), changed.data, "b", b, neighbour=neighbour.data)
    for b in (507, NONE):
        cases.refuse_alone(SMALL, 9, SMALL.at("operands.count"), SMALL.changed({"expressions[12].b": b}), "b", b)


def put_long_runs(cases):
    """The runs' sum goes on above 16 bits."""
    long_run = expression(NARY, op=AND, a=0, b=NONE)

    def with_runs(*runs, operands=()):
        return EMPTY.but(expressions=list(runs), operands=names(operands))

    def refuse(number, field, sheet):
        cases.refuse_alone(EMPTY, number, sheet.at(field), sheet.data, field)

    # 65,535 and 1 more: no a is 65,536, and no count is
    one_more = expression(NARY, op=OR, a=NONE, b=1)
    for a in (0, 1, NONE):
        refuse(9, "expressions[2].a", with_runs(long_run, one_more, expression(NARY, op=OR, a=a)))
        # and a later field with another number
        refuse(9, "expressions[2].a", with_runs(long_run, one_more, expression(NARY, op=OR, a=a), expression(7)))
    refuse(9, "operands.count", with_runs(long_run, one_more))
    refuse(9, "operands.count", with_runs(long_run, expression(NARY, op=OR, a=NONE, b=NONE)))
    refuse(9, "operands.count", with_runs(long_run))
    refuse(9, "operands.count", with_runs(long_run, expression(NARY, op=AND, a=NONE, b=3), operands=[0, 0]))
    refuse(9, "expressions[1].a", with_runs(long_run, expression(NARY, op=AND, a=0, b=3), operands=[0, 0, 0]))
    # as many operands as the run asks for are above the limit
    sheet = with_runs(long_run)
    cases.refuse_alone(EMPTY, 3, sheet.at("operands.count"), sheet.changed({"operands.count": NONE}), "65,535 operands")


def put_shared(cases):
    """An And or an Or that an earlier operand named."""
    # SMALL: 8 is an Or that operand 2 names, 5 an empty And that operand 3 names, 9 an And that operand 6 names
    for later, shared in ((3, 8), (4, 8), (5, 8), (4, 5), (5, 5), (6, 8), (6, 5), (7, 8), (7, 5), (7, 9)):
        cases.damage(SMALL, 9, f"operands[{later}]", shared)
    # first and last of 512, and neighbours
    cases.damage(WIDE, 9, "operands[511]", 0)
    cases.damage(WIDE, 9, "operands[511]", 1)
    cases.damage(WIDE, 9, "operands[1]", 0)
    cases.damage(WIDE, 9, "operands[510]", 0)
    turned = WIDE.but(operands=names([1] + [2] * 509 + [0, 2]))
    cases.damage(turned, 9, "operands[511]", 1)
    cases.damage(turned, 9, "operands[511]", 0)
    for op in (AND, OR):
        shared = [expression(NARY, op=op), expression(NARY, op=1 - op, a=0, b=1), expression(NARY, op=op, a=1, b=1)]
        base = EMPTY.but(expressions=shared, operands=names([0, 1]))
        cases.damage(base, 9, "operands[1]", 0)
        # one run whose two operands are the same
        base = EMPTY.but(expressions=[expression(OTHER), shared[0], expression(NARY, op=op, a=0, b=2)], operands=names([1, 0]))
        cases.damage(base, 9, "operands[1]", 1)


# ---- two rules at once

# the sheet's fields in their order, each with a value that breaks a rule, and its number
BREAKS = [
    (6, "rows[0].source", 5),
    (6, "rows[0].flags", 4),
    (4, "rows[0].value", NAN),
    (4, "rows[1].upper", SIGN),
    (3, "settings.count", 6),
    (4, "settings[1]", bits_of(1.0) + 1),
    (4, "settings[4]", INFINITY),
    (3, "sketches.count", 17),
    (4, "sketches[0].population", MOST_ROWS + 1),
    (3, "sketches[0].n", 65),
    (5, "sketches[0].items[0].scalar", b"\x07"),
    (4, "sketches[0].items[0].lower", MOST_ROWS + 1),
    (7, "sketches[0].items[2].scalar", int32(1)),
    (4, "sketches[0].items[2].error", ALL_ONES),
    (5, "sketches[2].items[0].scalar", NULL),
    (3, "tables.count", 65),
    (7, "tables[1].table", 1),
    (4, "tables[1].rows", ALL_ONES - 1),
    (7, "tables[2].table", 5),
    (6, "keys[0].kind", 3),
    (6, "keys[0].referenced_name", 1),
    (3, "left_columns.count", 65),
    (7, "left_columns[1].column", 1),
    (6, "left_columns[1].base_name", 0),
    (5, "left_columns[1].lower", b"\x0a"),
    (5, "left_columns[1].upper", boolean(2)),
    (6, "left_columns[1].frequency.source", 5),
    (4, "left_columns[1].distinct.value", 1),
    (8, "left_columns[1].sketch", 3),
    (7, "right_columns[0].column", 128),
    (6, "right_columns[1].frequency.flags", 8),
    (8, "right_columns[1].sketch", 0xFFFE),
    (3, "left_classes[0].n", 1),
    (4, "left_classes[0].estimate.lower", INFINITY),
    (7, "left_classes[0].columns[1]", 1),
    (3, "right_classes.count", 33),
    (6, "right_classes[1].estimate.source", 9),
    (7, "right_classes[1].columns[2]", 5),
    (6, "expressions[0].op", 1),
    (6, "expressions[0].b", 1),
    (5, "expressions[0].scalar", ABSENT),
    (7, "expressions[1].a", 128),
    (6, "expressions[1].scalar", b"\x07"),
    (8, "expressions[3].a", 3),
    (6, "expressions[3].b", 1),
    (6, "expressions[4].op", 11),
    (8, "expressions[4].a", 4),
    (8, "expressions[4].b", 5),
    (6, "expressions[7].kind", 7),
    (6, "expressions[9].op", 2),
    (9, "expressions[9].a", 0),
    (6, "expressions[9].scalar", b"\0\x01"),
    (9, "operands.count", 7),
    (8, "operands[0]", 8),
    (9, "operands[4]", 8),
    (8, "operands[6]", 14),
    (3, "conjuncts.count", 65),
    (8, "conjuncts[0]", 14),
]


def put_pairs(cases):
    """Two broken fields: the earlier one counts, whether its number is the smaller or the larger."""
    hold([SMALL.at(field) for _, field, _ in BREAKS] == sorted(SMALL.at(field) for _, field, _ in BREAKS), "the breaks' order")
    for i, (number, field, value) in enumerate(BREAKS):
        cases.damage(SMALL, number, field, value)
        for other_number, other, other_value in BREAKS[i + 1:]:
            if other_number != number:
                cases.damages(SMALL, number, field, {field: value, other: other_value})
    # broken, and bytes left over, or the last one missing, or nothing behind the record
    for number, field, value in BREAKS:
        data = SMALL.changed({field: value})
        for end in (data + b"\0", data[:-1], data[:record_end(SMALL, field)]):
            cases.refuse(SMALL, number, SMALL.at(field), end, field, len(end))
    # a figure and an absent bound in one estimate, either way round
    for at in ESTIMATES:
        cases.damages(UNBOUNDED, 4, f"{at}.value", {f"{at}.value": NAN, f"{at}.lower": 1})
        changes = {f"{at}.flags": 2, f"{at}.upper": INFINITY}
        neighbour = UNBOUNDED.changed({f"{at}.flags": 2})
        cases.refuse(UNBOUNDED, 6, UNBOUNDED.at(f"{at}.lower"), UNBOUNDED.changed({**changes, f"{at}.lower": 1}), at, neighbour=neighbour)
        cases.refuse(UNBOUNDED, 4, UNBOUNDED.at(f"{at}.upper"), UNBOUNDED.changed(changes), at, neighbour=neighbour)


def put_one_field(cases):
    """Two rules at one field. Of operands too many and not filled, see put_many_operands."""
    # a child that is neither below its parent nor there at all
    cases.damage(SMALL, 8, "expressions[3].a", NONE)
    # an n that is above 64 and passes the 512
    cases.damage(FULL, 3, "sketches[15].n", 65)
    # bytes that are no scalar, where none may stand
    cases.damage(SMALL, 6, "expressions[6].scalar", b"\xff")
    # no scalar, no expression, and each twice: already the first of the two is refused
    twice = ("sketches[0].items[0].scalar", "sketches[0].items[1].scalar")
    for value in (boolean(2), scalar(7), NULL, ABSENT):
        cases.damages(SMALL, 5, twice[0], {field: value for field in twice})
    for operand in (NONE, 9, 12):
        cases.damages(SMALL, 8, "operands[3]", {"operands[3]": operand, "operands[4]": operand})


def main():
    hold_full()
    cases = Cases()
    put_accepted(cases)
    put_cuts(cases)
    put_figures(cases)
    put_amounts(cases)
    put_scalars(cases)
    put_codes(cases)
    put_expression_codes(cases)
    put_orders(cases)
    put_twice(cases)
    put_names(cases)
    put_runs(cases)
    put_pairs(cases)
    put_one_field(cases)
    put_counts(cases)
    put_lengths(cases)
    put_prefixes(cases)
    written = cases.written()
    hold(50_000 < len(FULL.data) < 58_000 and len(written) < 600_000, len(FULL.data), len(written))
    sys.stdout.buffer.write(written)


main()
