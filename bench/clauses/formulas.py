"""Formulas of clauses: pigeon holes, chains of parities, and random clauses of three literals. A literal is a Boolean's number
from 1 on, negative where it is negated."""
import itertools
import random


def rising(clauses):
    """The clauses with rising Booleans, each once, without those that are always true."""
    seen = []
    for clause in clauses:
        clause = tuple(sorted(set(clause), key=abs))
        if len({abs(lit) for lit in clause}) == len(clause) and clause not in seen:
            seen.append(clause)
    return seen


def pigeons(birds, holes):
    """Each bird in a hole, and no two in one."""
    at = lambda bird, hole: bird * holes + hole + 1
    some = [[at(b, h) for h in range(holes)] for b in range(birds)]
    apart = [[-at(a, h), -at(b, h)] for h in range(holes) for a, b in itertools.combinations(range(birds), 2)]
    return birds * holes, rising(some + apart)


def parity(lits, odd):
    """The clauses of `the number of true Booleans is odd`, or even."""
    for signs in itertools.product([1, -1], repeat=len(lits)):
        true = sum(sign < 0 for sign in signs)
        if (true % 2 == 1) != odd:
            yield [sign * lit for sign, lit in zip(signs, lits)]


def chain(length, odd):
    """x1 + x2, x2 + x3, .. are odd, and so is the last with the first, or it isn't."""
    clauses = []
    for i in range(1, length):
        clauses += parity([i, i + 1], True)
    return length, rising(clauses + list(parity([1, length], odd)))


def threes(length, odd):
    """Threes side by side are odd, with further Booleans for sums up to each, and the whole sum is odd or even."""
    total = lambda i: length + i
    clauses = [[-total(1), 1], [total(1), -1]]
    for i in range(2, length + 1):
        clauses += parity([total(i - 1), i, total(i)], False)
    clauses += [[total(length) if odd else -total(length)]]
    for i in range(1, length + 1, 3):
        clauses += parity([i, i + 1, i + 2], True)
    return 2 * length, rising(clauses)


def scattered(booleans, clauses, seed):
    """So many random clauses of three literals."""
    dice = random.Random(seed)
    made = []
    while len(made) < clauses:
        clause = tuple(sorted((dice.choice([1, -1]) * v for v in dice.sample(range(1, booleans + 1), 3)), key=abs))
        if clause not in made:
            made.append(clause)
    return booleans, made


def threshold(booleans, seed):
    """As many clauses as at about half of all formulas have a point."""
    return scattered(booleans, round(4.26 * booleans + 6.24), seed)


def text(clauses):
    """The clauses as the rows have them: Booleans from 0 on, `~` before a negated one."""
    return ";".join(",".join(("~" if lit < 0 else "") + str(abs(lit) - 1) for lit in clause) for clause in clauses)


def dimacs(booleans, clauses):
    return f"p cnf {booleans} {len(clauses)}\n" + "".join(" ".join(map(str, clause)) + " 0\n" for clause in clauses)
