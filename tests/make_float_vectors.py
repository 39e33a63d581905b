#!/usr/bin/env python3
"""Values for the program float_vectors, made with no code of this repository.

usage: python3 tests/make_float_vectors.py > crates/float_vectors/stdin

Writes records of 25 bytes to standard output: kind u8, a u64, b u64, expected u64, little-endian.

  1  root                 a: bits of x                    expected: bits of the square root of x
  2  power                a: bits of x, b: bits of f      expected: bits of x to the f by document 01's rule
  3  difference           a, b: i64 in two's complement   expected: bits of the float nearest to a - b
  4  difference plus one  a, b: i64 in two's complement   expected: bits of the float nearest to a - b + 1
  5  integer              a: i64 in two's complement      expected: bits of the float nearest to a
  6  power of ten         a: an exponent from 0 to 22     expected: bits of 10 to the a

Where the expected values come from:
  roots are rounded here from exact integers, and are held to math.sqrt;
  whole numbers are rounded by Python's float(int), and are held to a rounding of exact integers;
  powers follow the rule's words with Python's floats and math.sqrt, and are held to the true power,
  which the decimal module computes to 80 digits: no distance may pass 2^-24.

The seed is fixed, and of the machine's C library no function counts that rounds but sqrt, so every run
writes the same bytes. Standard error gets the lines that the program has to write, and after them how far the
rule's powers lie from the true ones.
"""
import decimal
import math
import random
import struct
import sys
from decimal import Decimal
from fractions import Fraction

ROOT, POWER, DIFFERENCE, NEXT_DIFFERENCE, INTEGER, TEN = 1, 2, 3, 4, 5, 6
NAMES = {ROOT: "root", POWER: "power", DIFFERENCE: "difference", NEXT_DIFFERENCE: "difference plus one", INTEGER: "integer", TEN: "power of ten"}
CASES = {ROOT: 730, POWER: 540, DIFFERENCE: 420, NEXT_DIFFERENCE: 420, INTEGER: 110, TEN: 23}

SIGN = 1 << 63
INFINITY = 0x7FF0_0000_0000_0000
QUIET_NAN = 0x7FF8_0000_0000_0000
LARGEST = 0x7FEF_FFFF_FFFF_FFFF
LEAST_NORMAL = 0x0010_0000_0000_0000
LARGEST_SUBNORMAL = 0x000F_FFFF_FFFF_FFFF
ONE = 0x3FF0_0000_0000_0000
I64_MIN, I64_MAX = -(1 << 63), (1 << 63) - 1

decimal.getcontext().prec = 80
decimal.getcontext().Emin = -999_999_999
decimal.getcontext().traps[decimal.Underflow] = False
ALLOWED = Decimal(2) ** -24

numbers = random.Random(20250101)


def hold(condition, *what):
    if not condition:
        sys.exit(f"make_float_vectors: does not hold: {what}")


# ---- floats and their bits

def bits_of(x):
    return QUIET_NAN if x != x else struct.unpack("<Q", struct.pack("<d", x))[0]


def float_of(bits):
    return struct.unpack("<d", struct.pack("<Q", bits))[0]


def whole_and_exponent(bits):
    """The finite float with these bits and the sign clear, as m * 2^e with a whole m."""
    field, digits = bits >> 52, bits & ((1 << 52) - 1)
    return (digits, -1074) if field == 0 else (digits + (1 << 52), field - 1075)


def bits_from(m, e):
    """The bits of m * 2^e, for an m of 53 binary digits, or 2^53, where the number is a normal one."""
    if m == 1 << 53:
        m, e = m >> 1, e + 1
    hold(1 << 52 <= m < 1 << 53 and -1074 <= e <= 971, m, e)
    return (e + 1075) * (1 << 52) + (m - (1 << 52))


# ---- what is expected

def root_bits(bits):
    """The root of the float with these bits, to nearest, ties to even, by whole numbers alone."""
    magnitude = bits & (SIGN - 1)
    if magnitude > INFINITY:
        return QUIET_NAN
    if magnitude == 0:
        return bits
    if bits & SIGN:
        return QUIET_NAN
    if magnitude == INFINITY:
        return INFINITY
    m, e = whole_and_exponent(bits)
    # n * 2^e with an even e, and n of 105 or 106 digits, so that its root has 53 before the point
    shift = 106 - m.bit_length()
    if (e - shift) % 2:
        shift -= 1
    n, e = m << shift, e - shift
    q = math.isqrt(n)
    hold(q.bit_length() == 53, bits)
    # twice the root against twice the middle of q and q + 1, by their squares
    if 4 * n > (2 * q + 1) ** 2 or (4 * n == (2 * q + 1) ** 2 and q % 2):
        q += 1
    rounded = bits_from(q, e // 2)
    hold(rounded == bits_of(math.sqrt(float_of(bits))), "math.sqrt", hex(bits))
    return rounded


def nearest_bits(n):
    """The float nearest to a whole number, ties to even, by Python's conversion and by whole numbers."""
    size = abs(n)
    dropped = max(size.bit_length() - 53, 0)
    q, rest = size >> dropped, size & ((1 << dropped) - 1)
    if 2 * rest > 1 << dropped or (2 * rest == 1 << dropped and q % 2):
        q += 1
    hold(int(float(n)) == (q << dropped if n >= 0 else -(q << dropped)), "float(int)", n)
    return bits_of(float(n))


def power_of(x, f):
    """Document 01's rule for 0 < x <= 1 and f >= 1, in its own order."""
    if x == 1.0:
        return 1.0
    if f >= 2.0**63:
        return 0.0
    whole = math.floor(f)
    power = x
    for digit in bin(whole)[3:]:
        power = power * power
        if digit == "1":
            power = power * x
    fraction = Fraction(f) - whole
    repeated_root = x
    for _ in range(30):
        repeated_root = math.sqrt(repeated_root)
        fraction *= 2
        if fraction >= 1:
            power = power * repeated_root
            fraction -= 1
    return power


def distance_of(x, f):
    """How far the rule's power lies from the true x^f."""
    if x == 1.0 or f == math.inf:
        true = Decimal(1 if x == 1.0 else 0)
    else:
        true = (Decimal(f) * Decimal(x).ln()).exp()
    return abs(Decimal(power_of(x, f)) - true)


# ---- the records

class Cases:
    def __init__(self):
        self.records = {kind: [] for kind in CASES}
        self.seen = set()
        self.farthest = (Decimal(0), 1.0, 1.0)

    def put(self, kind, a, b, expected):
        """A case goes in once, and no more go in than CASES has room for."""
        if (kind, a, b) not in self.seen and self.room(kind) > 0:
            self.seen.add((kind, a, b))
            self.records[kind].append(struct.pack("<BQQQ", kind, a, b, expected))

    def room(self, kind):
        return CASES[kind] - len(self.records[kind])

    def root(self, bits):
        self.put(ROOT, bits, 0, root_bits(bits))

    def power(self, x, f):
        hold(0.0 < x <= 1.0 and f >= 1.0, x, f)
        distance = distance_of(x, f)
        hold(distance <= ALLOWED, "distance", x.hex(), f.hex(), distance)
        self.farthest = max(self.farthest, (distance, x, f))
        self.put(POWER, bits_of(x), bits_of(f), bits_of(power_of(x, f)))

    def difference(self, kind, a, b):
        hold(I64_MIN <= a <= I64_MAX and I64_MIN <= b <= I64_MAX, a, b)
        self.put(kind, a % (1 << 64), b % (1 << 64), nearest_bits(a - b + (kind == NEXT_DIFFERENCE)))

    def integer(self, a):
        hold(I64_MIN <= a <= I64_MAX, a)
        self.put(INTEGER, a % (1 << 64), 0, nearest_bits(a))


# ---- roots

def odd_roots_of(c, digits):
    """All y below 2^digits with y * y = c modulo 2^digits, for a c that is 1 modulo 8."""
    roots = [1, 3, 5, 7]
    for k in range(4, digits + 1):
        roots = [y for r in roots for y in (r, r + (1 << (k - 1))) if (y * y - c) % (1 << k) == 0]
        roots = sorted(set(roots))
    return roots


def roots_next_to_middles():
    """Numbers m * 2^doubled, m of 53 digits, whose roots lie next to the middle of two floats.

    With q of 53 digits and n = m * 2^52, or m * 2^53, four times the square of the middle, (2q + 1)^2, is
    4n + 1 + 4d. The smaller d, the nearer the middle: below it for a d of 0 and more, else above.
    """
    for step in range(0, 62, 2):
        for d in (step, -step):
            for doubled in (0, 1):
                low = 52 + doubled
                for y in odd_roots_of((1 + 4 * d) % (1 << (low + 2)), low + 2):
                    m = ((y * y - 1) // 4 - d) >> low
                    if y >> 53 == 1 and m >> 52 == 1:
                        hold((m << low) + d == (y * y - 1) // 4, y)
                        yield m, doubled


def put_roots(cases):
    for sign in (0, SIGN):
        for bits in (0, INFINITY, INFINITY + 1, QUIET_NAN, QUIET_NAN + 1, SIGN - 1, 1, 2, LARGEST_SUBNORMAL, LEAST_NORMAL, ONE, LARGEST):
            cases.root(bits + sign)
    # below zero
    for _ in range(24):
        cases.root(SIGN + numbers.randrange(1, INFINITY))
    # next to the borders, and to 1, 4 and 1/4
    for border in (LEAST_NORMAL, LARGEST, ONE, 0x4010_0000_0000_0000, 0x3FD0_0000_0000_0000):
        for step in range(-3, 4):
            if border + step <= LARGEST:
                cases.root(border + step)
    # small subnormals, powers of two among the subnormals, and any others
    for bits in range(1, 18):
        cases.root(bits)
    for k in range(5, 52):
        cases.root(1 << k)
    for _ in range(70):
        cases.root(numbers.randrange(1, 1 << numbers.randrange(6, 53)))
    # whole numbers that are squares, times powers of four, and their neighbours
    for q in [1, 2, 3, 5, 10, 94906265, (1 << 26) - 1, (1 << 26) + 1] + [numbers.randrange(2, 94906265) for _ in range(28)]:
        square = bits_of(math.ldexp(q * q, 2 * numbers.randrange(-500, 480)))
        for step in (-1, 0, 1):
            cases.root(square + step)
    for m, doubled in roots_next_to_middles():
        cases.root(bits_from(m, 2 * numbers.randrange(-530, 480) + doubled))
    # any digits, at exponents of every size
    fields = list(range(1, 2047))
    numbers.shuffle(fields)
    for field in fields:
        cases.root(field * (1 << 52) + numbers.randrange(1 << 52))


# ---- powers

def any_base():
    """A float from 2^-53 to below 1."""
    return numbers.randrange(1, 1 << 53) / 2.0**53


def any_exponent(k):
    """A float from 2^k to below 2^(k + 1), of 53 digits."""
    return math.ldexp(numbers.randrange(1 << 52, 1 << 53), k - 52)


def base_of(f, size):
    """The float nearest to the x for which x^f is e^-size."""
    return float((Decimal(-size) / Decimal(f)).exp())


def far_powers(tried, kept):
    """Of many pairs next to 1, where squares lose most, those with the largest distances."""
    found = []
    for _ in range(tried):
        f = any_exponent(numbers.randrange(24, 53))
        x = base_of(f, numbers.uniform(0.5, 1.5))
        if x < 1.0:
            found.append((distance_of(x, f), x, f))
    return [(x, f) for _, x, f in sorted(found, reverse=True)[:kept]]


def put_powers(cases):
    # 1 stays 1
    for f in (1.0, 1.5, 2.0, 3.25, 1e9 + 0.5, 2.0**63 - 1024, 2.0**63, 1e300, math.inf):
        cases.power(1.0, f)
    # from 2^63 on it is 0
    for x in (1.0 - 2.0**-53, 1.0 - 2.0**-52, 0.5, 5e-324, 2.0**-1022, 0.9999999):
        for f in (2.0**63 - 1024, 2.0**63, 2.0**63 + 2048, 1e300, float_of(LARGEST), math.inf):
            cases.power(x, f)
    # below 2^63 the float next to 1 has powers above 0
    for f in (2.0**53, 2.0**61, 2.0**62, 2.0**62 + 1024, 2.0**62 + 2.0**59, 2.0**62 + 2.0**60, 2.0**62 + 2.0**61):
        cases.power(1.0 - 2.0**-53, f)
    # whole exponents
    for f in (1.0, 2.0, 3.0, 4.0, 5.0, 6.0, 7.0, 8.0, 15.0, 16.0, 31.0, 100.0):
        for _ in range(3):
            cases.power(any_base(), f)
    # powers of two, which are exact until they leave the range: 2^-1074 is the last
    for x, f in (
        (0.5, 1022.0), (0.5, 1023.0), (0.5, 1073.0), (0.5, 1074.0), (0.5, 1075.0), (0.5, 1076.0), (0.25, 2.5), (0.25, 537.0), (0.25, 537.5), (0.25, 538.0), (0.0625, 1.25),
        (2.0**-537, 2.0), (2.0**-538, 2.0), (2.0**-1074, 1.0), (2.0**-1074, 1.5), (2.0**-1074, 2.0), (2.0**-1022, 1.0), (2.0**-1022, 1.0625),
    ):
        cases.power(x, f)
    # x of every size: any normal one, any subnormal one, and nearer and nearer to 1
    for _ in range(40):
        cases.power(float_of(numbers.randrange(1, ONE)), 1.0 + any_base())
    for _ in range(12):
        cases.power(float_of(numbers.randrange(1, LEAST_NORMAL)), 1.0 + numbers.randrange(1 << 30) / 2.0**34)
    for k in range(1, 54):
        x = 1.0 - numbers.randrange(1, (1 << (54 - k))) / 2.0**53
        if 0.0 < x:
            cases.power(x, any_exponent(numbers.randrange(0, min(k + 2, 62))))
    # fractions of so many binary digits, the last of them a 1; the 31st and later ones count for nothing
    for digits in (1, 2, 3, 15, 28, 29, 30, 31, 32, 45, 51, 52):
        for _ in range(10):
            whole = numbers.choice([1, 1, 2, 3, 7, 12, 200]) if digits < 45 else 1
            f = math.ldexp((whole << digits) + 2 * numbers.randrange(1 << (digits - 1)) + 1, -digits)
            hold(Fraction(f).denominator == 1 << digits, f)
            cases.power(any_base(), f)
    for digits in (1, 2, 29, 30, 31, 52):
        for x in (0.5, 1e-300, 0.99):
            cases.power(x, 1.0 + 2.0**-digits)
            cases.power(x, 2.0 - 2.0**-digits)
    # results among the subnormals, and below them
    for _ in range(40):
        f = any_exponent(numbers.randrange(0, 40))
        cases.power(base_of(f, numbers.uniform(705.0, 750.0)), f)
    for x, f in far_powers(4000, 20):
        cases.power(x, f)
    # results of a middling size, for f of every size
    while cases.room(POWER):
        f = any_exponent(numbers.randrange(0, 63))
        x = base_of(f, numbers.uniform(0.01, 5.0))
        if x < 1.0:
            cases.power(x, f)


# ---- whole numbers

def numbers_to_round(low, high, sizes):
    """Whole numbers at which a rounding to 53 binary digits shows, without end."""
    yield from (0, 1, -1, 2, -2, low, low + 1, low + 2, high, high - 1, high - 2)
    for k in sizes:
        for step in range(-3, 4):
            yield (1 << k) + step
            yield -(1 << k) - step
    while True:
        # half a unit of the last place above an even or an odd number of units: a tie, or next to one
        k = numbers.randrange(54, 65)
        unit = 1 << (k - 53)
        n = numbers.randrange(1 << 52, 1 << 53) * unit + unit // 2 + numbers.choice([0, 0, 0, -1, 1])
        yield numbers.choice([1, -1]) * n
        # any number of any size
        yield numbers.choice([1, -1]) * numbers.randrange(1 << numbers.randrange(1, 65))


def put_differences(cases, kind):
    plus = 1 if kind == NEXT_DIFFERENCE else 0
    ends = (I64_MIN, I64_MIN + 1, -1, 0, 1, I64_MAX - 1, I64_MAX)
    for a in ends:
        for b in ends:
            cases.difference(kind, a, b)
    for n in numbers_to_round(I64_MIN - I64_MAX + plus, I64_MAX - I64_MIN + plus, range(52, 65)):
        # any a from which a b that fits leads to n
        low, high = max(I64_MIN, I64_MIN + n - plus), min(I64_MAX, I64_MAX + n - plus)
        if low <= high:
            a = numbers.choice([low, high, numbers.randrange(low, high + 1), numbers.randrange(low, high + 1)])
            cases.difference(kind, a, a - (n - plus))
        if not cases.room(kind):
            return


def put_integers(cases):
    for n in numbers_to_round(I64_MIN, I64_MAX, (53, 54, 62, 63)):
        if I64_MIN <= n <= I64_MAX:
            cases.integer(n)
        if not cases.room(INTEGER):
            return


def put_tens(cases):
    for k in range(23):
        hold(int(float(10**k)) == 10**k, k)
        cases.put(TEN, k, 0, bits_of(float(10**k)))


def main():
    cases = Cases()
    put_roots(cases)
    put_powers(cases)
    put_differences(cases, DIFFERENCE)
    put_differences(cases, NEXT_DIFFERENCE)
    put_integers(cases)
    put_tens(cases)
    for kind, many in CASES.items():
        hold(len(cases.records[kind]) == many, NAMES[kind], len(cases.records[kind]))
        print(f"{NAMES[kind]} {many} cases, 0 differ", file=sys.stderr)
    print("unknown 0 cases, 0 differ", file=sys.stderr)
    distance, x, f = cases.farthest
    print(f"largest distance of a power from the true one: {distance:.4g} = 2^{math.log2(distance):.2f}, at {x.hex()} to the {f.hex()}; 2^-24 is allowed", file=sys.stderr)
    written = b"".join(record for records in cases.records.values() for record in records)
    hold(len(written) < 60_000, len(written))
    sys.stdout.buffer.write(written)


main()
