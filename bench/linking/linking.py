"""Makes tasks of three sizes and several shapes, runs the built planner on each, and prints time and memory.

Each text is without a fault, so that every pass over names, types and linearity goes to its end. The size is the number
of objects; there are five times as many items of the initial state, and an action for each 500 objects.
"""
import os
import sys
import tempfile

import measuring

PROGRAM = "crates/patty/out/patty"
TYPES = 20
PROBLEM = "(define (problem p) (:domain d)\n(:objects\n"


def transport(domain, problem, objects):
    """The usual large task: typed objects, atoms and values, actions with conditions and effects on both."""
    actions = objects // 500
    domain.write("(define (domain d)\n(:types\n")
    for t in range(TYPES):
        domain.write(f"vehicle-{t} - vehicle place-{t} - place\n")
    domain.write("vehicle place - thing)\n(:constants depot - place-0)\n")
    domain.write("(:predicates (at ?v - vehicle ?p - place) (road ?from ?to - place) (ready ?x - thing))\n")
    domain.write("(:functions (fuel ?v - vehicle) (distance ?from ?to - place) (spent) - number)\n")
    for a in range(actions):
        t = a % TYPES
        domain.write(
            f"""(:action drive-{a}
 :parameters (?v - (either vehicle-{t} vehicle-{(t + 1) % TYPES}) ?from ?to - place)
 :precondition (and (at ?v ?from) (road ?from ?to) (not (= ?from ?to)) (not (at ?v depot))
  (>= (fuel ?v) (+ {a} (* 1.5 (distance ?from ?to)))))
 :effect (and (not (at ?v ?from)) (at ?v ?to) (ready ?v)
  (decrease (fuel ?v) (* 1.5 (distance ?from ?to))) (increase (spent) (distance ?from ?to))))
"""
        )
    domain.write(")\n")
    problem.write(PROBLEM)
    half = objects // 2
    for o in range(half):
        problem.write(f"v{o} - vehicle-{o % TYPES} p{o} - place-{o % TYPES}\n")
    problem.write(")\n(:init (= (spent) 0)\n")
    for o in range(half):
        to, far = (o + 1) % half, (o + 7) % half
        problem.write(f"(at v{o} p{o}) (road p{o} p{to}) (road p{o} p{far}) (road p{to} p{o}) (ready p{o})\n")
        problem.write(f"(= (fuel v{o}) {o}.25) (= (distance p{o} p{to}) 2.5)\n")
        problem.write(f"(= (distance p{o} p{far}) 17) (= (distance p{to} p{o}) 2.5) (not (ready v{o}))\n")
    problem.write(f")\n(:goal (and (at v0 p{half - 1}) (ready v1) (not (road p0 p0)))))\n")


def long_chain(domain, problem, objects):
    """Types in one chain, each below the one before it; each argument is of the deepest, and the first is demanded."""
    depth = objects // 10
    domain.write("(define (domain d)\n(:types\n")
    for t in range(depth):
        domain.write(f"t{t} - {'top' if t == 0 else f't{t - 1}'}\n")
    domain.write("top)\n(:predicates (is ?x - top) (pair ?x ?y - t0))\n(:functions (size ?x - top))\n")
    for a in range(objects // 500):
        domain.write(
            f"(:action a{a} :parameters (?x - t{depth - 1 - a} ?y) :precondition (and (pair ?x ?x) (> (size ?x) {a})) "
            ":effect (and (is ?x) (increase (size ?x) 1)))\n"
        )
    domain.write(")\n")
    problem.write(PROBLEM)
    for o in range(objects):
        problem.write(f"o{o}\n")
    problem.write(f" - t{depth - 1})\n(:init\n")
    for o in range(objects):
        to = (o + 1) % objects
        problem.write(f"(is o{o}) (pair o{o} o{to}) (pair o{to} o{o}) (not (pair o{o} o{o})) (= (size o{o}) {o})\n")
    problem.write(")\n(:goal (is o0)))\n")


def many_heads(domain, problem, objects):
    """As many predicates and functions as objects, each used a few times, and each item given twice."""
    domain.write("(define (domain d)\n(:predicates (g)\n")
    for p in range(objects):
        domain.write(f"(p{p} ?x)\n")
    domain.write(")\n(:functions\n")
    for f in range(objects):
        domain.write(f"(f{f})\n")
    domain.write(")\n")
    for a in range(objects // 500):
        domain.write(f"(:action a{a} :parameters (?x) :precondition (p{a} ?x) :effect (and (g) (assign (f{a}) (f{a + 1}))))\n")
    domain.write(")\n")
    problem.write(PROBLEM)
    for o in range(objects):
        problem.write(f"o{o}\n")
    problem.write(")\n(:init\n")
    for o in range(objects):
        problem.write(f"(p{o} o{o}) (p{o} o{o}) (not (p{o} o0))\n" if o else "(p0 o0) (p0 o0) (p0 o1)\n")
        problem.write(f"(= (f{o}) {o}) (= (f{o}) {o}.0)\n")
    problem.write(")\n(:goal (g)))\n")


SHAPES = (transport, long_chain, many_heads)


def measured(shape, objects):
    with tempfile.TemporaryDirectory() as folder:
        domain, problem = os.path.join(folder, "d"), os.path.join(folder, "p")
        with open(domain, "w") as first, open(problem, "w") as second:
            shape(first, second, objects)
        length = os.path.getsize(domain) + os.path.getsize(problem)
        seconds, peak, status, _ = measuring.run([PROGRAM, domain, problem, "--max-n", "0"])
        return length, seconds, peak, status


def main():
    sizes = [int(word) for word in sys.argv[1:]] or [25_000, 50_000, 100_000]
    print(f"{'shape':<12}{'objects':>9}{'items':>9}{'actions':>9}{'MB':>7}{'seconds':>9}{'MB/s':>7}{'peak MB':>9}{'status':>8}")
    for shape in SHAPES:
        for size in sizes:
            length, seconds, peak, status = measured(shape, size)
            megabytes = length / 1_000_000
            print(
                f"{shape.__name__:<12}{size:>9}{5 * size:>9}{size // 500:>9}{megabytes:>7.1f}{seconds:>9.2f}"
                f"{megabytes / seconds:>7.1f}{peak:>9.0f}{status:>8}"
            )


main()
