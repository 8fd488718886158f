"""Times grounding: the time of a row that asks for the size of a ground task, less that of one whose texts are read and linked
alone. How many instances, atoms and functions there are is worked out here, apart from the program."""
import os
import random
import tempfile

import measuring

PROGRAM = "crates/ground_rows/out/ground_rows"


def names(letter, n):
    return " ".join(f"{letter}{i}" for i in range(n))


def drive(places, roads, vehicles):
    """Vehicles drive on roads: an instance for each road and vehicle, of all pairs of places. Each place has as many roads out."""
    out = roads // places
    facts = [f"(road p{i} p{(i * 7 + 1 + 13 * j) % places})" for i in range(places) for j in range(out)]
    random.Random(1).shuffle(facts)
    at = " ".join(f"(at v{i} p{i * 17 % places})" for i in range(vehicles))
    domain = """(:types vehicle place) (:predicates (at ?v - vehicle ?p - place) (road ?from ?to - place))
        (:action drive :parameters (?v - vehicle ?from ?to - place) :precondition (and (at ?v ?from) (road ?from ?to))
        :effect (and (not (at ?v ?from)) (at ?v ?to)))"""
    problem = f"(:objects {names('v', vehicles)} - vehicle {names('p', places)} - place) (:init {at} {' '.join(facts)}) (:goal (at v0 p1))"
    return domain, problem, f"atoms {vehicles * places}; funcs 0; actions {places * out * vehicles}"


def pairs(left, right, one_more):
    """Each pair of two types is kept, and raises a function of the first; then perhaps one instance more."""
    domain = """(:types left right one) (:predicates (done ?x - left) (first ?x - left)) (:functions (level ?x - left))
        (:action raise :parameters (?x - left ?y - right) :precondition (<= (level ?x) 5) :effect (and (increase (level ?x) 1) (done ?x)))"""
    domain += " (:action more :parameters (?x - one ?y - left) :precondition (first ?y) :effect (done ?y))" if one_more else ""
    values = " ".join(f"(= (level l{i}) 0)" for i in range(left))
    problem = f"(:objects {names('l', left)} - left {names('r', right)} - right o - one) (:init (first l0) {values}) (:goal (done l0))"
    return domain, problem, "many" if left * right + one_more > 1_000_000 else f"atoms {left}; funcs {left}; actions {left * right + one_more}"


def chain(objects):
    """Five parameters in a row of static literals: few of all lists of five objects are kept."""
    domain = """(:predicates (next ?x ?y) (seen ?x)) (:action see :parameters (?a ?b ?c ?d ?e)
        :precondition (and (next ?a ?b) (next ?b ?c) (next ?c ?d) (next ?d ?e)) :effect (seen ?e))"""
    facts = " ".join(f"(next o{i} o{i + 1})" for i in range(objects - 1))
    problem = f"(:objects {names('o', objects)}) (:init {facts}) (:goal (seen o{objects - 1}))"
    return domain, problem, f"atoms {objects - 4}; funcs 0; actions {objects - 4}"


def one_key(objects):
    """A static predicate of one parameter holds of every object, so all facts have one key."""
    domain = "(:predicates (free ?x) (taken ?x)) (:action take :parameters (?x) :precondition (free ?x) :effect (taken ?x))"
    facts = [f"(free o{i})" for i in range(objects)]
    random.Random(2).shuffle(facts)
    problem = f"(:objects {names('o', objects)}) (:init {' '.join(facts)}) (:goal (taken o0))"
    return domain, problem, f"atoms {objects}; funcs 0; actions {objects}"


def many_leaves(leaves):
    """One instance whose effect has so many leaves, each on a function of its own."""
    increases = " ".join(f"(increase (level o{i}) 1)" for i in range(leaves))
    domain = f"(:constants {names('o', leaves)}) (:functions (level ?x)) (:action all :effect (and {increases}))"
    values = " ".join(f"(= (level o{i}) 0)" for i in range(leaves))
    return domain, f"(:init {values}) (:goal (>= (level o0) 1))", f"atoms 0; funcs {leaves}; actions 1"


def measure(call, domain, problem):
    with tempfile.TemporaryDirectory() as folder:
        path = os.path.join(folder, "rows")
        with open(path, "w") as file:
            file.write(f"frame {call} | (define (domain d) $1) | (define (problem q) (:domain d) $2)\nrow | {' '.join(domain.split())} | {problem}\n")
        return measuring.run([PROGRAM, path])


def main():
    print(f"{'task':<34}{'read s':>9}{'ground s':>10}{'peak MB':>9}  status, size")
    tasks = [(f"drive {p} places {r} roads {v}", drive(p, r, v)) for p, r, v in ((500, 2_000, 20), (2_000, 8_000, 20), (2_000, 8_000, 80))]
    tasks += [(f"pairs {n} x 1000", pairs(n, 1000, 0)) for n in (10, 100, 1000)] + [("pairs 1000 x 1000 and one more", pairs(1000, 1000, 1))]
    tasks += [(f"chain of five among {n}", chain(n)) for n in (252, 1_000, 4_000)]
    tasks += [(f"one key, {n} facts", one_key(n)) for n in (10_000, 30_000, 100_000)]
    tasks += [(f"{n} leaves of one action", many_leaves(n)) for n in (100, 300, 1_000)]
    for name, (domain, problem, size) in tasks:
        read = measure("read", domain, problem)[0]
        seconds, peak, status, output = measure("size", domain, problem)
        answer = output.split("|")[-1].strip()
        wrong = "" if answer == size else f", which should be {size}"
        print(f"{name:<34}{read:>9.2f}{seconds - read:>10.2f}{peak:>9.0f}  {status}, {answer}{wrong}", flush=True)


main()
