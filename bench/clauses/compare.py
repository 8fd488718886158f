#!/usr/bin/env python3
"""Times the clause core beside MiniSat on random clauses at the threshold and on pigeon holes. See `run`."""
import re
import shutil
import subprocess
import sys
import tempfile
from pathlib import Path

sys.path.insert(0, str(Path(__file__).resolve().parents[1]))
from formulas import dimacs, pigeons, text, threshold
from measuring import run

PROGRAM = Path(__file__).resolve().parents[2] / "crates" / "clause_rows" / "out" / "clause_rows"
MINISAT = shutil.which("minisat") or shutil.which("minisat2")


def ours(folder, booleans, clauses):
    """Seconds, the answer, and the steps of the log."""
    rows = folder / "formula.rows"
    rows.write_text(f"frame count | $1 | $2 | $3 | $4\nrow | {booleans} | 10000000 | 10000000 | {text(clauses)}\n")
    seconds, _peak, _status, output = run([str(PROGRAM), str(rows)])
    return seconds, *output.split(" | ")[1].rsplit(" ", 1)


def minisat(folder, booleans, clauses):
    """Seconds, the answer, and the conflicts."""
    if MINISAT is None:
        return 0.0, "-", "-"
    file = folder / "formula.cnf"
    file.write_text(dimacs(booleans, clauses))
    seconds, _peak, status, output = run([MINISAT, str(file)])
    conflicts = re.search(r"conflicts\s*:\s*(\d+)", output)
    return seconds, {10: "sat", 20: "unsat"}.get(status, str(status)), conflicts.group(1) if conflicts else "-"


def main():
    formulas = [(f"threshold {n}, {seed}", threshold(n, seed)) for n in (50, 75, 100, 125, 150, 175) for seed in (1, 2, 3)]
    formulas += [(f"{birds} birds, {birds - 1} holes", pigeons(birds, birds - 1)) for birds in (5, 6, 7, 8)]
    print(f"{'formula':20} {'answer':7} {'seconds':>8} {'steps':>7} {'minisat':>8} {'conflicts':>9}", flush=True)
    with tempfile.TemporaryDirectory() as name:
        folder = Path(name)
        for label, (booleans, clauses) in formulas:
            seconds, answer, steps = ours(folder, booleans, clauses)
            other, truth, conflicts = minisat(folder, booleans, clauses)
            mark = "" if truth in ("-", answer) else f"  MiniSat says {truth}"
            print(f"{label:20} {answer:7} {seconds:8.2f} {steps.strip():>7} {other:8.3f} {conflicts:>9}{mark}", flush=True)


main()
