"""Mutates the texts and plans of examples/, runs both programs on them, and looks for anything outside the tables."""
import collections
import concurrent.futures
import os
import random
import re
import subprocess
import sys
import tempfile

PLANNER = os.path.abspath("crates/patty/out/patty")
VALIDATOR = os.path.abspath("crates/patty_val/out/patty_val")
SECONDS = 10
NUMBER = r"(0|[1-9][0-9]*)"
FRACTION = r"-?(0|[1-9][0-9]*)(/[1-9][0-9]*)?"
OPERATION = rf"(add|sub|mul|div) {FRACTION} {FRACTION}"
TEXT_FAULT = rf"fault (domain|problem) ({NUMBER} {NUMBER}|5 {NUMBER} [!-~]+|long)\n"
LINES = {
    PLANNER: {0: r"block 0\nplan 0\nend\n", 1: r"block 0\nrefuted\nend\n", 3: TEXT_FAULT},
    VALIDATOR: {
        0: rf"valid {NUMBER}\n",
        1: rf"invalid ({NUMBER} {NUMBER} (arity|type|(condition|value|clash) {NUMBER})|goal)\n",
        2: rf"wide ({NUMBER} {NUMBER}|goal) {OPERATION}\n",
        3: rf"({TEXT_FAULT}|fault plan ({NUMBER} {NUMBER}|long)\n)",
    },
}
# Pieces that tend to be near a fault: words of the language, numbers at the bounds, parentheses.
PIECES = [b"(", b")", b"()", b"-", b" - ", b"?x", b"not", b"and", b"or", b"either", b"object", b"(:types t - t)", b"=", b"0", b"-0",
          b"170141183460469231731687303715884105727", b"170141183460469231731687303715884105728", b"0.1", b"1e3", b";", b"\n", b"\r",
          b"\x00", b"\xff", b"(increase (driven) 1)", b"(assign (driven) (driven))", b"(* (driven) (driven))", b"(/ 1 0)", b":action",
          b"(:constants van)", b"1 ", b"00 ", b"99999999999999999999999999999999999999999 "]


def mutated(text, random):
    """A text with one to four changes: a byte flipped, a cut, a piece doubled, swapped, put in or replaced."""
    text = bytearray(text)
    for _ in range(random.randint(1, 4)):
        if not text:
            break
        i, j = sorted(random.randrange(len(text) + 1) for _ in range(2))
        j = min(j, i + random.choice((1, 4, 20, 200)))
        way = random.randrange(7)
        if way == 0 and i < len(text):
            text[i] ^= 1 << random.randrange(8)
        elif way == 1:
            del text[i:j]
        elif way == 2:
            text[i:i] = text[i:j]
        elif way == 3:
            k = random.randrange(len(text))
            piece = bytes(text[i:j])
            del text[i:j]
            text[k:k] = piece
        elif way == 4:
            text[i:i] = random.choice(PIECES)
        elif way == 5:
            text[i:j] = random.choice(PIECES)
        else:
            # One word in the place of another of the same text.
            words = list(re.finditer(rb"[^\s();]+", bytes(text)))
            if words:
                old, new = random.choice(words), random.choice(words)
                text[old.start():old.end()] = new.group()
    return bytes(text)


def judged(words):
    """What is wrong with a run, or nothing, and its status."""
    try:
        done = subprocess.run(words, capture_output=True, timeout=SECONDS)
    except subprocess.TimeoutExpired:
        return "over ten seconds", None
    wanted = LINES[words[0]].get(done.returncode)
    if wanted is None:
        return f"status {done.returncode}", done.returncode
    if not re.fullmatch(wanted.encode(), done.stdout):
        return f"status {done.returncode} with {done.stdout[:200]!r}", done.returncode
    if done.stderr:
        return f"standard error {done.stderr[:200]!r}", done.returncode
    return None, done.returncode


def part(seed, runs, seeds):
    """So many runs, each on one mutated text, and what came of them."""
    chance = random.Random(seed)
    found, counts = [], collections.Counter()
    with tempfile.TemporaryDirectory() as folder:
        names = [os.path.join(folder, name) for name in ("d", "p", "plan")]
        for run in range(runs):
            texts = list(chance.choice(seeds))
            which = chance.choice((0, 0, 1, 1, 2, 2, 2))
            texts[which] = mutated(texts[which], chance)
            for name, text in zip(names, texts):
                with open(name, "wb") as file:
                    file.write(text)
            if which == 2 or run % 2:
                words = [VALIDATOR, *names]
            else:
                words = [PLANNER, *names[:2], "--max-n", "0"]
            wrong, status = judged(words)
            counts[os.path.basename(words[0]), status] += 1
            if wrong:
                found.append((wrong, seed, run, [text[:300] for text in texts]))
    return found, counts


def read(path):
    with open(path, "rb") as file:
        return file.read()


def main():
    runs = int(sys.argv[1]) if len(sys.argv) > 1 else 20_000
    seed = int(sys.argv[2]) if len(sys.argv) > 2 else 1
    delivery = [read(f"examples/delivery/{name}") for name in ("domain.pddl", "problem.pddl", "plan.txt")]
    late = [*delivery[:2], read("examples/delivery/short-of-fuel.txt")]
    small = [read(f"examples/propositional/{name}.pddl") for name in ("domain", "lit")] + [b"1 (switch-on)\n"]
    seeds = [delivery, late, small]
    pieces, workers = 40, os.cpu_count()
    with concurrent.futures.ProcessPoolExecutor(workers) as pool:
        jobs = [pool.submit(part, seed * 1000 + i, runs // pieces, seeds) for i in range(pieces)]
        results = [job.result() for job in jobs]
    counts = sum((counts for _, counts in results), collections.Counter())
    print(f"{'program':<12}{'status':>7}{'runs':>9}")
    for (program, status), count in sorted(counts.items(), key=str):
        print(f"{program:<12}{str(status):>7}{count:>9}")
    wrong = [found for part_found, _ in results for found in part_found]
    for found in wrong[:20]:
        print(*found)
    print(f"{sum(counts.values())} runs, {len(wrong)} outside the tables")
    return 1 if wrong else 0


sys.exit(main())
