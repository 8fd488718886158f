#!/usr/bin/env python3
"""Prints what crates/layer_rows is to answer, which stands in its `stdout`: the answers of the rows of its `data`.

Everything is computed from the definitions in words, with unlimited integers, one whole layer after the other: the conditions of
a ground task, the layers, the named operations, the pattern, the formula of n copies (`bench/encoding.py`). No answer comes from the program under test.
"""
from fractions import Fraction
from pathlib import Path
import re
import sys

BENCH = Path(__file__).resolve().parents[1]
sys.path.append(str(BENCH))
from fractions128 import MOST, Wide, add, mul, show
from encoding import encode, meets, shown

DATA = BENCH.parent / "crates/layer_rows/data"


class Form(Exception):
    pass


# ---- texts of tasks


def fraction(text):
    match = re.fullmatch(r"(-?)(0|[1-9][0-9]*)(?:/([1-9][0-9]*))?", text)
    if not match or text.startswith("-0") or match[3] == "1":
        raise Form
    value = Fraction(int(match[1] + match[2]), int(match[3] or 1))
    if show(value) != text:
        raise Form
    return value


def number(text):
    if not re.fullmatch("[0-9]+", text):
        raise Form
    return int(text)


class Linear:
    def __init__(self, text):
        terms, self.constant = {}, Fraction(0)
        for part in text.split("+"):
            coefficient, at, function = part.partition("@")
            if at:
                terms[number(function)] = terms.get(number(function), 0) + fraction(coefficient)
            else:
                self.constant += fraction(part)
        self.terms = sorted((f, c) for f, c in terms.items() if c != 0)


class Action:
    def __init__(self, text):
        self.lits, self.cmps, self.adds, self.dels, self.incs, self.sets = [], [], [], [], [], []
        for word in text.split():
            self.put(word)

    def put(self, word):
        if ":=" in word:
            function, value = word.split(":=", 1)
            self.sets.append((number(function), Linear(value)))
        elif "+=" in word:
            function, amount = word.split("+=", 1)
            self.incs.append((number(function), fraction(amount)))
        elif word.endswith("<=0"):
            self.cmps.append((Linear(word[:-3]), "<="))
        elif word.endswith("<0"):
            self.cmps.append((Linear(word[:-2]), "<"))
        elif word.endswith("=0"):
            self.cmps.append((Linear(word[:-2]), "="))
        elif word[0] in "?!":
            self.lits.append((number(word[1:]), word[0] == "?"))
        elif word[0] in "+-":
            (self.adds if word[0] == "+" else self.dels).append(number(word[1:]))
        else:
            raise Form

    def reads(self):
        expressions = [l for l, _ in self.cmps] + [l for _, l in self.sets]
        return [f for l in expressions for f, _ in l.terms] + [f for f, _ in self.incs]

    def rolls(self):
        keeps = all(p not in (self.dels if truth else self.adds) for p, truth in self.lits)
        return not self.sets and bool(self.incs) and keeps


class Task:
    def __init__(self, text):
        parts = text.split(";")
        if len(parts) < 3 or not re.fullmatch("[01]*", parts[0].strip()):
            raise Form
        self.truths = [letter == "1" for letter in parts[0].strip()]
        self.values = [None if word == "none" else fraction(word) for word in parts[1].split()]
        self.goal = Action(parts[2])
        self.actions = [Action(part) for part in parts[3:]]
        missing = [f for f, value in enumerate(self.values) if value is None]
        first = len(self.truths) - len(missing)
        self.value_atoms = [(f, first + i) for i, f in enumerate(missing)]

    def is_one(self):
        fits = all(p >= 0 and not self.truths[p] for _, p in self.value_atoms)
        goal = self.goal
        return fits and all(map(self.has, self.actions + [goal])) and not (goal.adds + goal.dels + goal.incs + goal.sets)

    def has(self, a):
        atoms = [p for p, _ in a.lits] + a.adds + a.dels
        functions = a.reads() + [f for f, _ in a.sets]
        targets, valued = [f for f, _ in a.incs], [f for f, _ in a.sets]
        rising = all(xs == sorted(set(xs)) for xs in (a.adds, a.dels, targets, valued))
        return (
            all(p < len(self.truths) for p in atoms)
            and all(f < len(self.values) for f in functions)
            and rising
            and all(amount != 0 for _, amount in a.incs)
            and not set(a.adds) & set(a.dels)
            and not set(targets) & set(valued)
            and all(self.tells(a, f, p) for f, p in self.value_atoms)
        )

    @staticmethod
    def tells(a, f, p):
        asked = f not in a.reads() or (p, True) in a.lits
        return asked and p not in a.dels and (p not in a.adds or f in [g for g, _ in a.sets])


# ---- layers; an end is a fraction, or None for an infinite one


def end(side, box, l):
    """The least (-1) or the greatest (1) value; None where it is infinite."""
    picks = [(c, box[f][0 if (c > 0) == (side < 0) else 1]) for f, c in l.terms]
    if any(e is None for _, e in picks):
        return None
    total = l.constant
    for c, e in picks:
        total = add(total, mul(c, e))
    return total


def holds(box, l, cmp):
    least = end(-1, box, l)
    if cmp == "<":
        return least is None or least < 0
    low = least is None or least <= 0
    if cmp == "<=":
        return low
    greatest = end(1, box, l)
    return low and (greatest is None or greatest >= 0)


def hull(old, new):
    if old is None:
        return new
    low = None if old[0] is None or new[0] is None else min(old[0], new[0])
    high = None if old[1] is None or new[1] is None else max(old[1], new[1])
    return low, high


def reached(box, f, l):
    if not l.terms:
        return l.constant, l.constant
    if box[f] is None:
        return None, None
    least, greatest = end(-1, box, l), end(1, box, l)
    low, high = box[f]
    if low is not None and (least is None or least < low):
        low = None
    if high is not None and (greatest is None or greatest > high):
        high = None
    return low, high


def layers(task):
    """For each action the first layer that supports it, or None."""
    true = set(p for p, truth in enumerate(task.truths) if truth)
    false = set(p for p, truth in enumerate(task.truths) if not truth)
    box = [None if value is None else (value, value) for value in task.values]
    first = [None] * len(task.actions)
    layer = 0
    while True:
        for n, a in enumerate(task.actions):
            readable = all(p in (true if truth else false) for p, truth in a.lits) and all(box[f] is not None for f in a.reads())
            if first[n] is None and readable:
                supported = True
                for i, (l, cmp) in enumerate(a.cmps):
                    supported &= named(layer, n, f"cond {i}", lambda: holds(box, l, cmp))
                if supported:
                    first[n] = layer
        next_true, next_false, next_box = set(true), set(false), list(box)
        for n, a in enumerate(task.actions):
            if first[n] is None:
                continue
            next_true |= set(a.adds)
            next_false |= set(a.dels)
            for f, amount in a.incs:
                low, high = box[f]
                next_box[f] = hull(next_box[f], (low, None) if amount > 0 else (None, high))
            for i, (f, l) in enumerate(a.sets):
                next_box[f] = hull(next_box[f], named(layer, n, f"set {i}", lambda: reached(box, f, l)))
        if (next_true, next_false, next_box) == (true, false, box):
            return first
        true, false, box = next_true, next_false, next_box
        layer += 1


def named(layer, action, part, compute):
    try:
        return compute()
    except Wide as wide:
        raise Wide("wide", str(layer), str(action), part, *wide.args)


# ---- answers


def answer_point(task, places, copies, values, truth):
    try:
        values = [fraction(word) for word in values.split()]
    except Form:
        return "form"
    if not re.fullmatch("[01]*", truth):
        return "form"
    formula = encode(task, places, int(copies))
    if len(values) < len(formula.variables) or len(truth) < len(formula.booleans):
        return "no point"
    return meets(formula, values, [letter == "1" for letter in truth])


def answer(call, text, copies=None, *point):
    try:
        task = Task(text)
        if not task.is_one():
            return "no task"
        if call == "task":
            truths = "".join("1" if truth else "0" for truth in task.truths)
            values = "".join(("none" if value is None else show(value)) + " " for value in task.values)
            rolls = "".join(" roll" if a.rolls() else " once" for a in task.actions)
            return f"atoms {truths}; funcs {values}; goal {len(task.goal.lits)} {len(task.goal.cmps)}; actions{rolls}"
        if call in ("formula", "meets") and (not re.fullmatch("[0-9]+", copies) or int(copies) > 1000):
            return "form"
        first = layers(task)
        if call == "layers":
            return "layers" + "".join(f" {'-' if n is None else n}" for n in first)
        places = sorted((n, a) for a, n in enumerate(first) if n is not None)
        if call == "formula":
            return shown(encode(task, [a for _, a in places], int(copies)))
        if call == "meets":
            return answer_point(task, [a for _, a in places], copies, *point)
        return "pattern" + "".join(f" {'roll' if task.actions[a].rolls() else 'once'} {a}" for _, a in places)
    except Form:
        return "form"
    except Wide as wide:
        return " ".join(wide.args)


for name in ("tasks", "patterns", "layers", "formulas", "points"):
    call = ""
    for line in (DATA / f"{name}.rows").read_text().splitlines():
        if line.startswith("frame "):
            call = line[6:].split("|")[0].strip()
        elif line and not line.startswith("#"):
            row, *texts = (part.strip().replace(chr(92) + "M", str(MOST)) for part in line.split("|"))
            print(f"{row} | {answer(call, *texts)}")
