"""Exact fractions with the 128-bit operations of `frac128`, from their definitions in words: a result is there where all numbers
that the operation names fit. For the scripts that print what programs of rows are to answer.
"""
from fractions import Fraction
from math import gcd

MOST = 2**127 - 1


class Wide(Exception):
    """What is said of an operation that passes 128 bits: words, of which the last three are the operation and its operands."""


def show(x):
    return str(x.numerator) if x.denominator == 1 else f"{x.numerator}/{x.denominator}"


def within(*numbers):
    return all(-MOST <= n <= MOST for n in numbers)


def sum_numbers(x, y):
    a, b, c, d = x.numerator, x.denominator, y.numerator, y.denominator
    g = gcd(b, d)
    left, right = a * (d // g), c * (b // g)
    total = left + right
    return left, right, total, (b // g) * (d // gcd(total, g))


def product_numbers(x, y):
    a, b, c, d = x.numerator, x.denominator, y.numerator, y.denominator
    g, h = gcd(a, d), gcd(c, b)
    return (a // g) * (c // h), (b // h) * (d // g)


def answer(name, x, y, numbers, value):
    if not within(*numbers):
        raise Wide(name, show(x), show(y))
    return value


def add(x, y):
    return answer("add", x, y, sum_numbers(x, y), x + y)


def mul(x, y):
    return answer("mul", x, y, product_numbers(x, y), x * y)


def div(x, y):
    return answer("div", x, y, product_numbers(x, 1 / y), x / y)
