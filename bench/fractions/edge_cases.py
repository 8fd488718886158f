#!/usr/bin/env python3
"""Prints the rows of crates/fraction_rows/data/fractions.rows, cases at the edges of 128 bits; with the word `answers` it prints
what the program is to answer, which stands in crates/fraction_rows/stdout.

Everything is computed with unlimited integers, from the definitions in words: the numbers that an operation names, and
the shape of each text. No row comes from the program under test.
"""
from fractions import Fraction
from math import floor, gcd
from pathlib import Path
import re
import sys

sys.path.append(str(Path(__file__).resolve().parents[1]))
from fractions128 import MOST, product_numbers, show, sum_numbers, within


def operation(op, x, y):
    if op in ("add", "sub"):
        other = y if op == "add" else -y
        return x + other if within(*sum_numbers(x, other)) else None
    other = y if op == "mul" else 1 / y
    return x * other if within(*product_numbers(x, other)) else None


def read_text(text):
    """What the text of a fraction gives: itself, `form` or `wide`."""
    match = re.fullmatch(r"(-?)([0-9]+)(?:/([0-9]+))?", text)
    if not match:
        return "form"
    sign, top, bottom = match.groups()
    plain = [top] + ([bottom] if bottom is not None else [])
    if any(n != "0" and n.startswith("0") for n in plain) or text.startswith("-0"):
        return "form"
    if bottom is not None and int(bottom) < 2:
        return "form"
    num, den = int(top), int(bottom or 1)
    if not within(num, den):
        return "wide"
    return text if gcd(num, den) == 1 else "form"


def read_decimal(text):
    match = re.fullmatch(r"(-?)([0-9]+)(?:\.([0-9]+))?", text)
    if not match:
        return "form"
    sign, whole, places = match.groups()
    places = (places or "").rstrip("0")
    size = int(whole + places)
    if len(places) > 38 or not within(size):
        return "wide"
    return show(Fraction(-size if sign else size, 10 ** len(places)))


def edge_fractions():
    halves = [2**63 - 1, 2**63, 2**63 + 1, 2**64 - 1, 2**64, 2**64 + 1]
    edges = [1, 2, 3, MOST - 1, MOST] + halves
    values = [Fraction(0), Fraction(1), Fraction(-1), Fraction(1, 2), Fraction(-2, 3), Fraction(MOST), Fraction(-MOST)]
    values += [Fraction(n, d) for n in edges for d in edges if gcd(n, d) == 1 and (n > 3 or d > 3)]
    return values


def operation_rows():
    # each pair on its own; then the products and sums that just pass and just don't
    values = edge_fractions()
    rows = []
    for i, x in enumerate(values):
        y = values[(7 * i + 3) % len(values)]
        op = ("add", "sub", "mul", "div")[i % 4]
        rows.append((op, x, y) if y != 0 else ("sub", x, y))
    root = 13043817825332782212  # the greatest number whose square is at most 2^127 - 1
    assert within(root * root) and not within((root + 1) ** 2)
    for n, m in ((root, root), (root, root + 1), (root + 1, root + 1), (-root, root + 1)):
        rows.append(("mul", Fraction(n), Fraction(m)))
        rows.append(("mul", Fraction(1, abs(n)), Fraction(1, m)))
        rows.append(("add", Fraction(1, abs(n)), Fraction(1, m)))
    for n in (MOST - 1, MOST):
        rows.append(("add", Fraction(n), Fraction(1)))
        rows.append(("sub", Fraction(-n), Fraction(1)))
        rows.append(("sub", Fraction(-n), Fraction(-1)))
    # divided by what they share first, these fit
    rows.append(("mul", Fraction(MOST, 2), Fraction(2, MOST)))
    rows.append(("add", Fraction(1, MOST - 1), Fraction(1, MOST - 1)))
    rows.append(("add", Fraction(1, 6), Fraction(1, 10)))
    rows.append(("mul", Fraction(2, 3), Fraction(9, 4)))
    for op, x, y in rows:
        answer = operation(op, x, y)
        wide = f"wide: {op} {show(x)} {show(y)}"
        yield (op, show(x), show(y)), wide if answer is None else show(answer)


def order_rows():
    values = sorted(set(edge_fractions()))
    for x, y in zip(values[::3], values[1::3]):
        yield ("cmp", show(x), show(y)), "Less Greater"
        yield ("cmp", show(x), show(x)), "Equal Equal"


def floor_rows():
    values = sorted(set(edge_fractions()))
    for x in [Fraction(-1, 2)] + values[::6] + [-x for x in values[3::6]]:
        yield ("floor", show(x)), str(floor(x))


def whole_rows():
    for n in (0, -7, MOST, -MOST):
        yield ("whole", str(n)), f"{n} true"
    yield ("whole", str(-MOST - 1)), "none"


def text_rows():
    texts = ["", "-", "/", "1/", "/2", "2/4", "3/1", "3/0", "-0", "-0/2", "0", "0/2", "00", "007", "7/02", "1/2", "-1/2"]
    texts += ["1/-2", "+1", " 1", "1 ", "1/2/3", "--1", "1.5", "a", "4/2", "12345/2"]
    texts += [str(MOST), str(-MOST), str(MOST + 1), str(-MOST - 1), f"1/{MOST}", f"1/{MOST + 1}", f"{MOST + 1}/{MOST}"]
    texts += [f"{MOST}/{MOST - 1}", f"{MOST + 1}/1", f"{MOST + 1}/0", f"{MOST + 1}/02", "9" * 60, "1/" + "9" * 60]
    for text in texts:
        yield ("text", text), read_text(text)


def decimal_rows():
    texts = ["", "007", "-0.50", "1.", ".5", "-", "-0", "0.0", "1.5", "1.50", "-1.25", "1.2.3", "1,5", "1e5", "00.10", "+1"]
    for places in (37, 38, 39):
        for zeros in (0, 1, 5):
            texts.append("0." + "0" * (places - 1) + "1" + "0" * zeros)
            texts.append("1." + "0" * (places - 1) + "7" + "0" * zeros)
            texts.append("-2." + "3" * places + "0" * zeros)
    most = str(MOST)
    texts += [most, "-" + most, str(MOST + 1), "0" * 50 + most, most + ".0", most + "." + "0" * 50, most + ".1"]
    texts += [most[:-1] + "." + most[-1], most[:1] + "." + most[1:], "0." + most, str(MOST + 1)[:1] + "." + str(MOST + 1)[1:]]
    for text in texts:
        yield ("decimal", text), read_decimal(text)


TABLES = [
    ("Operations on two fractions.", "operation", "$1 | $2 | $3", operation_rows),
    ("How two fractions compare, each way.", "order", "$1 | $2 | $3", order_rows),
    ("The greatest whole number that isn't above a fraction.", "floor", "$1 | $2", floor_rows),
    ("Whole numbers as fractions, and whether each is whole.", "whole", "$1 | $2", whole_rows),
    ("Texts of fractions.", "fraction", "$1 | $2", text_rows),
    ("Texts of decimals.", "decimal", "$1 | $2", decimal_rows),
]


def part(text):
    """A part of a row; white space around it would be trimmed."""
    return text.replace(" ", "\\s")


def main(answers):
    if not answers:
        print("# Fractions at the edges of 128 bits. bench/fractions/edge_cases.py prints these rows, and their answers, which it computes")
        print("# with unlimited integers. Write none by hand.")
    for doc, name, frame, rows in TABLES:
        if not answers:
            print(f"\n# {doc}\nframe fraction | {frame}")
        for number, (parts, answer) in enumerate(rows(), 1):
            row = " | ".join([f"{name}-{number}"] + [part(text) for text in parts]).rstrip()
            print(f"{name}-{number} | {answer}" if answers else row)


if __name__ == "__main__":
    main(sys.argv[1:] == ["answers"])
