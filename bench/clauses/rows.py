#!/usr/bin/env python3
"""Writes the rows of crates/clause_rows: formulas, and what the clause core has to answer.

The answers come from the search below, which tries both truths of a Boolean and follows clauses of one open literal. Nothing
comes from the program under test.
"""
import random
import sys
from pathlib import Path

from formulas import chain, pigeons, rising, text, threes, threshold

sys.setrecursionlimit(10_000)


def assign(clauses, lit):
    """The clauses with the literal true, or None where one is then empty."""
    left = []
    for clause in clauses:
        if lit in clause:
            continue
        if -lit in clause:
            clause = tuple(other for other in clause if other != -lit)
            if not clause:
                return None
        left.append(clause)
    return left


def has_point(clauses):
    while True:
        unit = next((clause[0] for clause in clauses if len(clause) == 1), None)
        if unit is None:
            break
        clauses = assign(clauses, unit)
        if clauses is None:
            return False
    if not clauses:
        return True
    counts = {}
    for clause in clauses:
        for lit in clause:
            counts[lit] = counts.get(lit, 0) + 3 ** (4 - min(len(clause), 4))
    lit = max(counts, key=lambda x: (counts[x] + counts.get(-x, 0), counts[x], x))
    for choice in (lit, -lit):
        left = assign(clauses, choice)
        if left is not None and has_point(left):
            return True
    return False


def rows():
    """Names, Booleans, steps, the step at which the sink fails, the answer, and clauses."""
    both = (2, [(-1, -2), (1,), (2,)])
    late = (3, [(1,), (-1, 2), (-2, 3), (2,)])
    formulas = [("one", (1, [(1,)])), ("one_false", (1, [(-1,)])), ("both", (1, [(1,), (-1,)])), ("two_of_two", both), ("late_unit", late)]
    formulas += [(f"pigeons_{birds}_{holes}", pigeons(birds, holes)) for birds, holes in [(3, 3), (4, 3), (5, 4), (5, 5), (6, 5)]]
    formulas += [(f"chain_{length}_{odd}", chain(length, odd == "odd")) for length in (4, 9, 20) for odd in ("odd", "even")]
    formulas += [(f"threes_{length}_{odd}", threes(length, odd == "odd")) for length in (6, 9, 12) for odd in ("odd", "even")]
    formulas += [(f"threshold_{n}_{seed}", threshold(n, seed)) for n in (20, 30, 40, 50) for seed in (1, 2, 3, 4)]
    for name, (booleans, clauses) in formulas:
        yield name, booleans, MANY, MANY, "sat" if has_point(list(clauses)) else "unsat", clauses
    # one step is enough where propagation alone makes a clause false
    for steps, answer in [(0, "spent"), (1, "unsat"), (2, "unsat")]:
        yield f"steps_{steps}", 2, steps, MANY, answer, both[1]
    for fails_at, answer in [(0, "stopped"), (1, "unsat")]:
        yield f"fails_at_{fails_at}", 2, MANY, fails_at, answer, both[1]
    # four birds in three holes take more than one step: without a decision no clause of that formula is false
    for k in (0, 1):
        yield f"pigeons_steps_{k}", 12, k, MANY, "spent", pigeons(4, 3)[1]
        yield f"pigeons_fails_at_{k}", 12, MANY, k, "stopped", pigeons(4, 3)[1]


# a letter for each Boolean, a for an atom and t for a truth variable: the theory without atoms names the first atom
STARTS = {"truths": "tt", "atoms": "aaaaaaa", "atom_behind": "ttat"}

# over a theory whose check k refuses, k from 0: 2k for spent pivots, 2k + 1 for an operation that passes. The theory is asked
# once before the one decision that the first formula needs, and once with both Booleans assigned; propagation refutes the second
EITHER, NEITHER = (2, [(1, 2)]), (2, [(-1, -2), (1,), (2,)])
REFUSALS = [("first", EITHER, 0, "pivots"), ("first_wide", EITHER, 1, "wide"), ("second", EITHER, 2, "pivots"), ("second_wide", EITHER, 3, "wide"), ("third", EITHER, 4, "sat"), ("unasked", NEITHER, 0, "unsat")]

MANY = 1_000_000


# ---- bounds of counts: a Boolean is a pair of a count and the number that it is at most, or None for a truth variable


def has_whole_point(booleans, clauses):
    """Whether some whole counts and truths make a literal of each clause true. Bounds of one count have a whole number that meets
    them exactly where none that is true has a false one that is wider or the same."""
    orders = [(-(a + 1), b + 1) for a, one in enumerate(booleans) for b, other in enumerate(booleans)
              if a != b and one is not None and other is not None and one[0] == other[0] and one[1] <= other[1]]
    return has_point([tuple(clause) for clause in clauses] + orders)


def within(ranges):
    """Counts that are forced into ranges from low to high, by two bounds each."""
    booleans, clauses = [], []
    for count, (low, high) in enumerate(ranges):
        booleans += [(count, low - 1), (count, high)]
        clauses += [(-(len(booleans) - 1),), (len(booleans),)]
    return len(ranges), booleans, clauses


def scattered_bounds(counts, atoms, truths, clauses, seed):
    """Random clauses of three literals over bounds of a few counts and truth variables."""
    dice = random.Random(seed)
    booleans = [(dice.randrange(counts), dice.randrange(-3, 4)) for _ in range(atoms)] + [None] * truths
    booleans = sorted(set(filter(None, booleans))) + [None] * truths
    made = rising([[dice.choice([1, -1]) * v for v in dice.sample(range(1, len(booleans) + 1), 3)] for _ in range(clauses)])
    return counts, booleans, made


def bound_rows():
    """Names, counts, Booleans, steps, the step at which the sink fails, the answer, and clauses. The theory's points lie between
    whole numbers where the bounds leave them room, so a count that is forced into a range of several whole numbers has to
    be split; and a formula whose clauses have a point where its bounds have none has a lemma."""
    big = 2 ** 126
    for name, ranges in [("one_value", [(3, 3)]), ("two_values", [(3, 4)]), ("many_values", [(-2, 5)]), ("crossed", [(4, 3)]),
                         ("far_crossed", [(1, 3), (7, -7)]), ("three_counts", [(0, 0), (-5, -5), (12, 12)]), ("one_of_three", [(0, 0), (1, 2), (7, 7)])]:
        counts, booleans, clauses = within(ranges)
        if any(low > high for low, high in ranges):
            answer = "unsat lemma"
        else:
            answer = "sat split" if any(low < high for low, high in ranges) else "sat"
        yield name, counts, booleans, MANY, MANY, answer, clauses
    # where the range lies past 2^126, a number between two whole ones has a numerator past 128 bits: the theory gives up
    yield "gives_up", *within([(big, big + 3)])[:2], MANY, MANY, "pivots", within([(big, big + 3)])[2]
    # the steps are spent, and the sink fails, where a range has to be split, or a lemma is the first step
    for name, ranges in [("split", [(0, 1)]), ("lemma", [(1, 0)])]:
        counts, booleans, clauses = within(ranges)
        yield f"{name}_no_steps", counts, booleans, 0, MANY, "spent", clauses
        yield f"{name}_stopped", counts, booleans, MANY, 0, "stopped", clauses
    # each truth asks for a bound that another one excludes
    yield "either_excluded", 1, [(0, 1), (0, 2), None], MANY, MANY, "unsat lemma", [(1, 3), (1, -3), (-2, 3), (-2, -3)]


def random_bound_rows():
    """Names, counts, Booleans, the answer, and clauses."""
    for size, (counts, atoms, truths, clauses) in enumerate([(1, 5, 3, 20), (2, 8, 3, 30), (3, 12, 4, 45), (4, 16, 4, 60)]):
        for seed in range(4):
            counts, booleans, made = scattered_bounds(counts, atoms, truths, clauses, 10 * size + seed)
            yield f"bounds_{counts}_{seed}", counts, booleans, "sat" if has_whole_point(booleans, made) else "unsat", made


def spelled(booleans):
    return ",".join("t" if it is None else f"{it[0]}:{it[1]}" for it in booleans)


def main():
    crate = Path(__file__).resolve().parents[2] / "crates" / "clause_rows"
    with open(crate / "data" / "formulas.rows", "w") as data, open(crate / "stdout", "w") as answers:
        data.write("# Made by bench/clauses/rows.py: Booleans, steps of the log, the step at which the sink fails, and clauses.\n")
        data.write("frame solve | $1 | $2 | $3 | $4\n")
        for name, booleans, steps, fails_at, answer, clauses in rows():
            data.write(f"{name} | {booleans} | {steps} | {fails_at} | {text(clauses)}\n")
            answers.write(f"{name} | {answer}\n")
        for name, letters in STARTS.items():
            first = letters.find("a")
            answers.write(f"{name} | {'started' if first < 0 else f'not mine {first}'}\n")
        for name, _formula, _check, answer in REFUSALS:
            answers.write(f"{name} | {answer}\n")
        for name, _counts, _booleans, _steps, _fails_at, answer, _clauses in bound_rows():
            answers.write(f"{name} | {answer}\n")
        for name, _counts, _booleans, answer, _clauses in random_bound_rows():
            answers.write(f"{name} | {answer}\n")
    with open(crate / "data" / "starts.rows", "w") as data:
        data.write("# Made by bench/clauses/rows.py: a letter for each Boolean, a for an atom and t for a truth variable.\nframe start | $1\n")
        data.writelines(f"{name} | {letters}\n" for name, letters in STARTS.items())
    with open(crate / "data" / "refusals.rows", "w") as data:
        data.write("# Made by bench/clauses/rows.py: Booleans, steps of the log, which check refuses and why, and clauses.\nframe refuse | $1 | $2 | $3 | $4\n")
        data.writelines(f"{name} | {booleans} | {MANY} | {check} | {text(clauses)}\n" for name, (booleans, clauses), check, _ in REFUSALS)
    with open(crate / "data" / "bounds.rows", "w") as data:
        data.write("# Made by bench/clauses/rows.py: counts, Booleans, steps of the log, the step at which the sink fails, and clauses.\n")
        data.write("frame logged | $1 | $2 | $3 | $4 | $5\n")
        for name, counts, booleans, steps, fails_at, _answer, clauses in bound_rows():
            data.write(f"{name} | {counts} | {spelled(booleans)} | {steps} | {fails_at} | {text(clauses)}\n")
        data.write("frame bound | $1 | $2 | $3 | $4 | $5\n")
        for name, counts, booleans, _answer, clauses in random_bound_rows():
            data.write(f"{name} | {counts} | {spelled(booleans)} | {MANY} | {MANY} | {text(clauses)}\n")


if __name__ == "__main__":
    main()
