"""The formula of n copies, computed from the rows in words (docs/ENCODING.md): symbolic states, one occurrence after the other, and
the operations of 128 bits in the written order. For the scripts that print what programs of rows are to answer.
"""
from fractions import Fraction
from math import ceil, floor

from fractions128 import Wide, add, answer, div, mul, show, sum_numbers


def sub(x, y):
    return answer("sub", x, y, sum_numbers(x, -y), x - y)


class Expression:
    """Terms by variable, without zeros, and a constant."""

    def __init__(self, terms=(), constant=Fraction(0)):
        self.terms = dict(sorted((v, c) for v, c in dict(terms).items() if c != 0))
        self.constant = Fraction(constant)

    def plus(self, other):
        terms = dict(self.terms)
        for v in sorted(other.terms):
            terms[v] = add(self.terms[v], other.terms[v]) if v in self.terms else other.terms[v]
        return Expression(terms, add(self.constant, other.constant))

    def times(self, by):
        return Expression({v: mul(by, c) for v, c in self.terms.items()}, mul(by, self.constant))

    def minus(self):
        return Expression({v: -c for v, c in self.terms.items()}, -self.constant)


def substitute(terms, constant, values):
    total = Expression({}, constant)
    for v, c in terms:
        total = total.plus(values[v].times(c))
    return total


class Formula:
    def __init__(self):
        self.variables, self.booleans, self.clauses = [], [], []

    def boolean(self, key):
        if key is None or key not in self.booleans:
            self.booleans.append(key)
            return len(self.booleans) - 1
        return self.booleans.index(key)

    # ---- literals: True, False, or (Boolean, sign)
    def literal(self, l, strict):
        k = l.constant
        if not l.terms:
            return k < 0 if strict else k <= 0
        first, a = next(iter(l.terms.items()))
        if len(l.terms) == 1 and self.variables[first] == "c":
            bound = div(-k, a)
            if (a > 0) != strict:
                bound = Fraction(floor(bound))
            else:
                bound = sub(Fraction(ceil(bound)), Fraction(1))
            add(bound, Fraction(1))
            return self.boolean((((first, Fraction(1)),), "<=", bound)), a > 0
        bare = l.plus(Expression({}, -k))
        terms = tuple((v, div(c, a)) for v, c in bare.terms.items())
        bound = div(-k, a)
        return self.boolean((terms, "<" if (a > 0) == strict else "<=", bound)), a > 0

    def row(self, literals):
        kept = {}
        for t in literals:
            if t is True:
                return
            if t is False:
                continue
            if kept.setdefault(t[0], t[1]) != t[1]:
                return
        self.clauses.append(sorted(kept.items()))

    def compare(self, front, l, cmp):
        if cmp == "=":
            self.row(front + [self.literal(l, False)])
            self.row(front + [self.literal(l.minus(), False)])
        else:
            self.row(front + [self.literal(l, cmp == "<")])


def turned(t):
    return not t if isinstance(t, bool) else (t[0], not t[1])


def constant(k):
    return Expression({}, k)


def variable(v):
    return Expression({v: Fraction(1)})


def encode(task, places, n):
    formula = Formula()
    try:
        truths = list(task.truths)
        values = [constant(Fraction(0) if value is None else value) for value in task.values]
        for _ in range(n):
            for place in places:
                occur(formula, task.actions[place], truths, values)
        for p, truth in task.goal.lits:
            formula.row([truths[p] if truth else turned(truths[p])])
        for l, cmp in task.goal.cmps:
            formula.compare([], substitute(l.terms, l.constant, values), cmp)
    except Wide as wide:
        raise Wide("wide", str(len(formula.clauses) + 1), *wide.args)
    return formula


def occur(formula, a, truths, values):
    count = len(formula.variables)
    if a.incs:
        formula.variables.append("c")
        formula.row([turned(formula.literal(variable(count).plus(constant(1)), False))])
        if not a.rolls():
            formula.row([formula.literal(variable(count).plus(constant(-1)), False)])
        on = turned(formula.literal(variable(count), False))
    else:
        on = formula.boolean(None), True
    front = [turned(on)]
    for p, truth in a.lits:
        formula.row(front + [truths[p] if truth else turned(truths[p])])
    for l, cmp in a.cmps:
        formula.compare(front, substitute(l.terms, l.constant, values), cmp)
    if a.rolls():
        for l, cmp in a.cmps:
            d = Fraction(0)
            coefficients = dict(l.terms)
            for f, amount in a.incs:
                if f in coefficients:
                    d = add(d, mul(coefficients[f], amount))
            if d != 0:
                last = substitute(l.terms, l.constant, values).plus(variable(count).times(d)).plus(constant(-d))
                formula.compare(front, last, cmp)
    for p in sorted(a.adds + a.dels):
        truths[p] = changed(formula, on, truths[p], p in a.adds)
    old, new = list(values), list(values)
    for f, l in a.sets:
        w = len(formula.variables)
        formula.variables.append("n")
        v, own = substitute(l.terms, l.constant, old), variable(w)
        formula.compare([turned(on)], own.plus(v.minus()), "<=")
        formula.compare([turned(on)], v.plus(own.minus()), "<=")
        formula.compare([on], own.plus(old[f].minus()), "<=")
        formula.compare([on], old[f].plus(own.minus()), "<=")
        new[f] = own
    for f, amount in a.incs:
        new[f] = old[f].plus(variable(count).times(amount))
    values[:] = new


def changed(formula, on, t, is_added):
    if isinstance(t, bool):
        if is_added:
            return True if t else on
        return turned(on) if t else False
    b = formula.boolean(None), True
    if is_added:
        rows = [turned(b), on, t], [b, turned(on)], [b, turned(t)]
    else:
        rows = [turned(b), turned(on)], [turned(b), t], [b, on, turned(t)]
    for row in rows:
        formula.row(row)
    return b


def shown_atom(key):
    if key is None:
        return "t"
    terms, relation, bound = key
    return "+".join(f"{show(c)}@{v}" for v, c in terms) + relation + show(bound)


def shown(formula):
    booleans = "".join(" " + shown_atom(key) for key in formula.booleans)
    clauses = "".join(" (" + " ".join(("+" if pos else "-") + str(b) for b, pos in clause) + ")" for clause in formula.clauses)
    return f"variables {''.join(formula.variables)}; booleans{booleans}; clauses{clauses}"


# ---- points


def is_true(truth, clause):
    return any(truth[b] == pos for b, pos in clause)


def holds(formula, key, truth, values):
    """Whether the reading of an atom, or of its opposite, holds at the values: the first operation that passes 128 bits is raised."""
    terms, relation, bound = key
    if truth:
        total = Fraction(0)
        for v, c in terms:
            total = add(total, mul(c, values[v]))
        return total < bound if relation == "<" else total <= bound
    if len(terms) == 1 and formula.variables[terms[0][0]] == "c":
        bound, relation = bound + 1, "<"
    total = Fraction(0)
    for v, c in terms:
        total = add(total, mul(-c, values[v]))
    return total < -bound if relation == "<=" else total <= -bound


def meets(formula, values, truth):
    if not all(is_true(truth, clause) for clause in formula.clauses):
        return "not met"
    try:
        for key, true in zip(formula.booleans, truth):
            if key is not None and not holds(formula, key, true, values):
                return "not met"
    except Wide as wide:
        return " ".join(("wide",) + wide.args)
    return "met"
