#!/usr/bin/env python3
"""Prints crates/lin_rows/src/rows.rt: linear expressions at the edges of 128 bits, with what each call answers of them.

Everything is computed with unlimited integers, from the definitions in words: which operations a call makes, in which order,
which numbers an operation names. No row comes from the program under test.
"""
from fractions import Fraction
from pathlib import Path
import sys

sys.path.append(str(Path(__file__).resolve().parents[1]))
from fractions128 import MOST, Wide, add, div, mul, show


class Lin:
    """Coefficients by variable, and a constant."""

    def __init__(self, terms, constant):
        self.terms = {v: Fraction(c) for v, c in sorted(terms.items()) if c != 0}
        self.constant = Fraction(constant)

    def add(self, other):
        terms = {}
        for v in sorted(set(self.terms) | set(other.terms)):
            if v in self.terms and v in other.terms:
                terms[v] = add(self.terms[v], other.terms[v])
            else:
                terms[v] = self.terms.get(v, other.terms.get(v))
        return Lin(terms, add(self.constant, other.constant))

    def scale(self, by):
        terms = {v: mul(by, c) for v, c in self.terms.items()}
        return Lin(terms, mul(by, self.constant))

    def div(self, by):
        terms = {v: div(c, by) for v, c in self.terms.items()}
        return Lin(terms, div(self.constant, by))

    def neg(self):
        return Lin({v: -c for v, c in self.terms.items()}, -self.constant)

    def subst(self, of):
        total = Lin({}, self.constant)
        for v, c in self.terms.items():
            total = total.add(of[v].scale(c))
        return total

    def value(self, at):
        total = self.constant
        for v, c in self.terms.items():
            total = add(total, mul(c, at[v]))
        return total

    def __str__(self):
        return "".join(f"{show(c)}@{v}+" for v, c in self.terms.items()) + show(self.constant)


def answer(call):
    try:
        result = call()
    except Wide as wide:
        return ":".join(("wide", *wide.args))
    return show(result) if isinstance(result, Fraction) else str(result)


def rows():
    half, third = Fraction(1, 2), Fraction(1, 3)
    expressions = [
        Lin({}, 0), Lin({}, MOST), Lin({0: 1}, 0), Lin({0: 1, 2: -2}, 3), Lin({0: -1, 1: half}, -3), Lin({1: third, 2: 2}, half),
        Lin({0: MOST}, -MOST), Lin({0: MOST - 1, 1: 1}, 1), Lin({0: -MOST, 2: 1}, MOST - 1), Lin({1: Fraction(1, MOST)}, 1),
        Lin({1: Fraction(-1, MOST), 2: Fraction(1, 2**64)}, Fraction(MOST, 2)), Lin({0: 2**64, 1: 2**63}, 2**64),
    ]
    factors = [Fraction(n) for n in (0, 1, -1, 2, MOST, 2**63)] + [half, Fraction(-2, 3), Fraction(1, MOST), Fraction(1, 2**64)]
    lines = []
    for i, x in enumerate(expressions):
        for j in (1, 2, 3, 5, 7):
            y = expressions[(i + j) % len(expressions)]
            lines.append(f"add {x} {y} {answer(lambda: x.add(y))}")
        for j in (0, 3, 4, 7):
            by = factors[(i + j) % len(factors)]
            lines.append(f"scale {x} {show(by)} {answer(lambda: x.scale(by))}")
        for j in (0, 3, 4, 7):
            by = factors[(i + j) % len(factors)]
            if by != 0:
                lines.append(f"div {x} {show(by)} {answer(lambda: x.div(by))}")
        lines.append(f"neg {x} - {x.neg()}")
        for j in (1, 4):
            of = [expressions[(i + j + k) % len(expressions)] for k in range(3)]
            lines.append(f"subst {x} {'|'.join(map(str, of))} {answer(lambda: x.subst(of))}")
            at = [factors[(i + j + 2 * k) % len(factors)] for k in range(3)]
            shown = "|".join(map(show, at))
            lines.append(f"value {x} {shown} {answer(lambda: x.value(at))}")
            lines.append(f"neg_value {x} {shown} {answer(lambda: x.neg().value(at))}")
    return lines


print("//! Rows computed by `bench/linear/edge_cases.py` with unlimited integers. Write none by hand.")
print('\npub(super) const ROWS: &str = "\\')
print("\\n\\\n".join(rows()) + '";')
