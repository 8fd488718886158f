"""Makes texts of several sizes and shapes, runs the built planner on each, and prints time and memory."""
import os
import sys
import tempfile

import measuring

PROGRAM = "crates/patty/out/patty"
MEGABYTE = 1_000_000
SMALL_DOMAIN = "(define (domain d) (:predicates (g)))"
SMALL_PROBLEM = "(define (problem p) (:domain d) (:init) (:goal (g)))"


def write_repeated(path, head, piece, tail, size):
    """Writes a text of about `size` bytes: numbered pieces between a head and a tail."""
    with open(path, "w") as file:
        length, number = file.write(head) + len(tail), 0
        while length < size:
            length += file.write(piece.format(number))
            number += 1
        file.write(tail)
    return length


def many_atoms(domain, problem, size):
    head, tail = "(define (problem p) (:domain d) (:init", ") (:goal (g)))"
    write_repeated(domain, SMALL_DOMAIN, "", "", 0)
    return write_repeated(problem, head, " (visited-place-{0})", tail, size)


def many_values(domain, problem, size):
    # Objects, and for each the value of a function and an atom: the usual large problem.
    head, tail = "(define (problem p) (:domain d) (:init", ") (:goal (and (>= (fuel truck-1) 0.5))))"
    piece = "\n (= (fuel truck-{0}) {0}.25) (at truck-{0} place-{0})"
    write_repeated(domain, SMALL_DOMAIN, "", "", 0)
    return write_repeated(problem, head, piece, tail, size)


def many_objects(domain, problem, size):
    head, tail = "(define (problem p) (:domain d) (:goal (g)) (:objects", "))"
    write_repeated(domain, SMALL_DOMAIN, "", "", 0)
    return write_repeated(problem, head, "\n truck-{0} lorry-{0} - vehicle-{0}", tail, size)


def many_actions(domain, problem, size):
    piece = """
 (:action drive-{0}
  :parameters (?v - (either truck lorry) ?from ?to - place)
  :precondition (and (at ?v ?from) (not (= ?from ?to)) (>= (fuel ?v) (* 1.5 (distance ?from ?to))))
  :effect (and (not (at ?v ?from)) (at ?v ?to) (decrease (fuel ?v) (* 1.5 (distance ?from ?to)))))"""
    write_repeated(problem, SMALL_PROBLEM, "", "", 0)
    return write_repeated(domain, "(define (domain d) (:predicates (g))", piece, ")", size)


def wide(domain, problem, size):
    write_repeated(problem, SMALL_PROBLEM, "", "", 0)
    return write_repeated(domain, "(define (domain d) (:predicates", "(w{0})", "))", size)


def deep(domain, problem, size):
    # As deep as a text may be: conditions in one another, in many actions.
    nest = "(:action a{0} :precondition " + "(and " * 196 + "(g)" + ")" * 196 + ")"
    write_repeated(problem, SMALL_PROBLEM, "", "", 0)
    return write_repeated(domain, "(define (domain d) (:predicates (g))", nest, ")", size)


def shortest(domain, problem, size):
    # As many lists as a text may have: the most memory for its bytes.
    head, tail = "(define (problem p) (:domain d) (:init ", ") (:goal (g)))"
    write_repeated(domain, SMALL_DOMAIN, "", "", 0)
    return write_repeated(problem, head, "(a)", tail, size)


def sections(domain, problem, size):
    # Half actions, then half sections that stand twice: each is at fault.
    write_repeated(problem, SMALL_PROBLEM, "", "", 0)
    head = "(define (domain d)" + "(:action a)" * (size // 22)
    return write_repeated(domain, head, "(:types)", ")", size)


SHAPES = (many_atoms, many_values, many_objects, many_actions, wide, deep, shortest, sections)


def measured(shape, size):
    with tempfile.TemporaryDirectory() as folder:
        domain, problem = os.path.join(folder, "d"), os.path.join(folder, "p")
        length = shape(domain, problem, size)
        seconds, peak, status, _ = measuring.run([PROGRAM, domain, problem, "--max-n", "0"])
        return length, seconds, peak, status


def main():
    sizes = [int(word) for word in sys.argv[1:]] or [1, 4, 16, 64]
    print(f"{'shape':<14}{'MB':>5}{'seconds':>10}{'MB/s':>8}{'peak MB':>10}{'status':>8}")
    for shape in SHAPES:
        for size in sizes:
            # The longest file that is taken has 67,108,864 bytes.
            length, seconds, peak, status = measured(shape, min(size * 1_048_576, 67_108_000))
            rate = length / MEGABYTE / seconds
            print(f"{shape.__name__:<14}{size:>5}{seconds:>10.2f}{rate:>8.1f}{peak:>10.0f}{status:>8}")


main()
