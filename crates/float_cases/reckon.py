#!/usr/bin/env python3
"""Reckons the lines that float_cases must write, from the cases in src/main.rt: `python3 reckon.py > stdout`.

Roundings to f32 are made in exact fractions, to nearest, ties to even. Python's floats are IEEE 754 doubles,
each operation on them rounded once. Nothing here is taken from the Rattle code."""
import math
import os
import re
import struct
from functools import cmp_to_key
from fractions import Fraction

INF, NAN, TOP = math.inf, math.nan, 2**64 - 1


def to32(x):
    """A double or a fraction, rounded once to f32, as a double."""
    if isinstance(x, float):
        if x != x or x in (INF, -INF) or x == 0:
            return x
        sign = -1 if x < 0 else 1
        x = Fraction(x)
    else:
        if x == 0:
            return 0.0
        sign = -1 if x < 0 else 1
    a = abs(x)
    e = a.numerator.bit_length() - a.denominator.bit_length()
    if a < Fraction(2) ** e:
        e -= 1
    unit = Fraction(2) ** (max(e, -126) - 23)
    q, rest = divmod(a, unit)
    if rest * 2 > unit or (rest * 2 == unit and q % 2 == 1):
        q += 1
    y = q * unit
    if y >= Fraction(2) ** 128:
        return sign * INF
    return math.copysign(float(y), sign)


def bits64(x):
    return 'nan' if x != x else '%016x' % struct.unpack('>Q', struct.pack('>d', x))[0]


def bits32(x):
    return 'nan' if x != x else '%08x' % struct.unpack('>I', struct.pack('>f', x))[0]


def double(pattern):
    return struct.unpack('>d', struct.pack('>Q', pattern))[0]


def E(x):
    if x != x:
        return NAN
    if x < -708.0:
        return 0.0
    if x > 709.0:
        return INF
    t = x * double(0x3FF71547652B82FE)
    k = math.trunc(t - 0.5 if x < 0 else t + 0.5)
    r = (x - k * double(0x3FE62E42FEE00000)) - k * double(0x3DEA39EF35793C76)
    p = 1.0 / math.factorial(13)
    for n in range(12, -1, -1):
        p = p * r + 1.0 / math.factorial(n)
    return p * math.ldexp(1.0, k)


def div(a, b):
    if b == 0 or a != a or b != b:
        return NAN if a == 0 or a != a or b != b else math.copysign(INF, a) * math.copysign(1, b)
    return a / b


def floor(x):
    if x != x or x in (INF, -INF):
        return x
    return math.copysign(float(math.floor(x)), x)


def cut(x):
    if x != x or x <= 0:
        return 0
    return TOP if x == INF else min(math.trunc(x), TOP)


def smaller(x, y):
    return y if x != x or y < x else x


def larger(x, y):
    return y if x != x or x < y else x


def count(x):
    return cut(larger(floor(x), 1.0))


def millis(x):
    y = x * 1000.0
    if y != y or y <= 0:
        return 0
    return TOP if y == INF else min(math.ceil(y), TOP)


def key(x):
    """IEEE 754's totalOrder; a NaN is taken to have its sign set."""
    return (-INF, 0) if x != x else (x, math.copysign(1, x))


def le(x, y):
    if x != x or y != y:
        return x != x
    return key(x) <= key(y)


def median(a, b, c):
    order = lambda x, y: 0 if le(x, y) and le(y, x) else (-1 if le(x, y) else 1)
    return sorted([a, b, c], key=cmp_to_key(order))[1]


def clamp(x, lo, hi):
    y = lo if x < lo else x
    return hi if hi < y else y


def op32(f, x, y):
    """One operation on two f32 values: exact and rounded once, or as doubles have it where one is no finite number."""
    if math.isfinite(x) and math.isfinite(y):
        exact = f(Fraction(x), Fraction(y))
        return to32(exact) if exact else f(x, y)
    return f(x, y)


def loss(got, sent):
    if sent == 0:
        return NAN
    return op32(lambda a, b: a - b, 1.0, to32(Fraction(got, sent)))


def share(p, ok):
    weight = to32(0.3)
    step = op32(lambda a, b: a * b, weight, op32(lambda a, b: a - b, ok, p))
    return op32(lambda a, b: a + b, p, step)


# for each kind of case: how its arguments are written; the functions, each with how its result is written
D, F, N, B = bits64, bits32, str, lambda b: str(b).lower()
CASES = {
    'one64': ([D], [(to32, F), (floor, D), (cut, N), (count, N), (millis, N), (E, D)]),
    'one32': ([F], [(math.fabs, F), (lambda x: to32(E(x)), F)]),
    'two64': ([D, D], [(smaller, D), (larger, D), (le, B)]),
    'two32': ([F, F], [(smaller, F), (larger, F), (le, B), (share, F)]),
    'median': ([F, F, F], [(median, F)]),
    'clamp': ([D, D, D], [(clamp, D)]),
    'held': ([D, N, D], [(lambda a, n, c: smaller(a * math.ldexp(1.0, n), c), D)]),
    'seconds': ([D, D, N], [(lambda p, r, n: p + div(float(n), r), D)]),
    'lost': ([N, N], [(loss, F)]),
    'sum': ([N, N], [(lambda a, b: min(a + b, TOP), N)]),
}

here = os.path.dirname(os.path.abspath(__file__))
names = {'inf': INF, '-inf': -INF, 'nan': NAN}
for name, args in re.findall(r'^    (\w+)\((.+)\);$', open(os.path.join(here, 'src', 'main.rt')).read(), re.M):
    shown, results = CASES[name]
    values = []
    for word, s in zip(args.split(', '), shown):
        v = names[word] if word in names else (int(word) if s is N else float(word))
        values.append(to32(v) if s is F else v)
    print(name, *[s(v) for s, v in zip(shown, values)], *[s(f(*values)) for f, s in results])
