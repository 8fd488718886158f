"""Times a million steps over states of several sizes: the time of a plan less that of the empty plan over the same task. Then
ten parts whose counts are near the greatest number of 128 bits, which are jumped over: their whole time."""
import os
import sys
import tempfile

import measuring

PROGRAM = "crates/patty_val/out/patty_val"
PARTS = 1000
GREATEST = 2**127 - 1
# Each step tests an atom and a comparison, puts two atoms and changes a function. Its new value is assigned, so the steps are
# made one after another; `rest` and `rise` are jumped over, and `rise` fails past its bound.
DOMAIN = """(define (domain work) (:types worker tool)
 (:predicates (ready ?w - worker) (idle ?w - worker) (owns ?w - worker ?t - tool))
 (:functions (done ?w - worker))
 (:action work :parameters (?w - worker ?t - tool)
  :precondition (and (ready ?w) (>= (done ?w) 0))
  :effect (and (not (idle ?w)) (owns ?w ?t) (assign (done ?w) (+ (done ?w) 1))))
 (:action rest :parameters (?w - worker)
  :precondition (and (ready ?w) (>= (done ?w) 0))
  :effect (and (not (idle ?w)) (increase (done ?w) 1)))
 (:action rise :parameters (?w - worker)
  :precondition (and (ready ?w) (<= (done ?w) 100000000000000000000000000000000000000))
  :effect (increase (done ?w) 1)))
"""


def write_task(folder, atoms, functions):
    domain, problem = os.path.join(folder, "d"), os.path.join(folder, "p")
    with open(domain, "w") as file:
        file.write(DOMAIN)
    with open(problem, "w") as file:
        workers = " ".join(f"w{i}" for i in range(functions))
        file.write(f"(define (problem p) (:domain work) (:objects {workers} - worker {' '.join(f't{i}' for i in range(8))} - tool)\n(:init")
        for i in range(functions):
            file.write(f"\n (ready w{i}) (idle w{i}) (= (done w{i}) 0)")
        for i in range(atoms - 2 * functions):
            file.write(f"\n (owns w{i % functions} t{i // functions % 8})")
        file.write(")\n(:goal (ready w0)))\n")
    return domain, problem


def time_jumps():
    """Ten parts that are valid, and the same with a last one in which the first repetition that fails is found by halving."""
    print(f"{'ten parts of 2^127':>20}{'seconds':>10}{'peak MB':>10}  output")
    with tempfile.TemporaryDirectory() as folder:
        domain, problem = write_task(folder, 100, 10)
        for name, action in (("valid", "rest"), ("halving", "rise")):
            plan = os.path.join(folder, name)
            with open(plan, "w") as file:
                for part in range(9):
                    file.write(f"{GREATEST - part} (rest w{part})\n")
                file.write(f"{GREATEST - 9} ({action} w9)\n")
            seconds, peak, _, output = measuring.run([PROGRAM, domain, problem, plan])
            print(f"{name:>20}{seconds:>10.3f}{peak:>10.0f}  {output.strip()}")


def main():
    steps = int(sys.argv[1]) if len(sys.argv) > 1 else 1_000_000
    print(f"{'atoms':>9}{'functions':>11}{'seconds':>10}{'steps/s':>12}{'peak MB':>10}  output")
    for atoms, functions in ((1000, 100), (10_000, 1000), (100_000, 10_000)):
        with tempfile.TemporaryDirectory() as folder:
            domain, problem = write_task(folder, atoms, functions)
            empty, plan = os.path.join(folder, "empty"), os.path.join(folder, "plan")
            open(empty, "w").close()
            with open(plan, "w") as file:
                for part in range(PARTS):
                    file.write(f"{steps // PARTS} (work w{part * 37 % functions} t{part % 8})\n")
            idle = min(measuring.run([PROGRAM, domain, problem, empty])[0] for _ in range(3))
            seconds, peak, status, output = measuring.run([PROGRAM, domain, problem, plan])
            rate = steps / max(seconds - idle, 1e-9)
            print(f"{atoms:>9}{functions:>11}{seconds - idle:>10.2f}{rate:>12.0f}{peak:>10.0f}  {status}: {output.strip()}")
    time_jumps()


main()
