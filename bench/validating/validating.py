"""Makes plans in which trucks drive from place to place, validates each, and prints time and memory."""
import os
import sys
import tempfile

import measuring

PROGRAM = "crates/patty_val/out/patty_val"
TRUCKS, PLACES = 5000, 5000
DOMAIN = """(define (domain roads) (:types truck place)
 (:predicates (at ?t - truck ?p - place)) (:functions (trips ?t - truck))
 (:action drive :parameters (?t - truck ?p ?q - place) :precondition (at ?t ?p)
  :effect (and (not (at ?t ?p)) (at ?t ?q) (increase (trips ?t) 1))))
"""


def write_texts(folder, lines):
    names = [os.path.join(folder, name) for name in ("d", "p", "plan")]
    with open(names[0], "w") as file:
        file.write(DOMAIN)
    with open(names[1], "w") as file:
        trucks = " ".join(f"truck-{i}" for i in range(TRUCKS))
        places = " ".join(f"place-{i}" for i in range(PLACES))
        file.write(f"(define (problem p) (:domain roads) (:objects {trucks} - truck {places} - place)\n(:init")
        for i in range(TRUCKS):
            file.write(f"\n (at truck-{i} place-{i % PLACES}) (= (trips truck-{i}) 0)")
        file.write(")\n(:goal (>= (trips truck-0) 1)))\n")
    at = [i % PLACES for i in range(TRUCKS)]
    with open(names[2], "w") as file:
        for line in range(lines):
            truck = line * 7919 % TRUCKS
            there = (at[truck] + 1 + line % 97) % PLACES
            file.write(f"(drive truck-{truck} place-{at[truck]} place-{there})\n")
            at[truck] = there
    return names


def main():
    counts = [int(word) for word in sys.argv[1:]] or [62_500, 250_000, 1_000_000]
    print(f"{'lines':>9}{'MB':>8}{'seconds':>10}{'lines/s':>12}{'peak MB':>10}  output")
    for lines in counts:
        with tempfile.TemporaryDirectory() as folder:
            names = write_texts(folder, lines)
            size = os.path.getsize(names[2]) / 1_000_000
            seconds, peak, status, output = measuring.run([PROGRAM, *names])
            print(f"{lines:>9}{size:>8.1f}{seconds:>10.2f}{lines / seconds:>12.0f}{peak:>10.0f}  {status}: {output.strip()}")


main()
