"""Where the gate's time goes, as tables.

`gate.py [NAME ..]` runs `rt ci [NAME ..]` and prints for each crate the processor seconds of its proof, its tests and its wrong
bodies, and each wrong body that takes more than 20. What `rt ci` says goes to the standard error. Only what the run does is
timed: what `rt ci` kept from earlier runs costs nothing, so a table of the whole wants `--anew` among the words.

`gate.py edits NAME ..` tries the wrong bodies of these crates alone, over what `rt check` kept, and prints the time of each.

`gate.py functions NAME ..` checks each of these crates from nothing and prints each function that takes more than 20 processor
seconds, its definitions and its proofs together. The crates below must be built, as `rt check` in the crate's folder leaves them.
"""
import collections
import os
import re
import resource
import subprocess
import sys
import tempfile
import time

LONG = 20
TICKS = os.sysconf("SC_CLK_TCK")
SAMPLES_A_SECOND = 10


# ---- the processes of a run


def processes():
    """Each process's parent, with its own processor seconds and those of the children that it waited for."""
    found = {}
    for name in os.listdir("/proc"):
        if name.isdigit():
            try:
                with open(f"/proc/{name}/stat") as file:
                    fields = file.read().rpartition(")")[2].split()
            except OSError:
                continue
            found[int(name)] = int(fields[1]), sum(map(int, fields[11:15])) / TICKS, fields[19]
    return found


def words_of(number):
    try:
        with open(f"/proc/{number}/cmdline", "rb") as file:
            return file.read().decode(errors="replace").split("\0")
    except OSError:
        return []


def folder_of(number):
    try:
        return os.readlink(f"/proc/{number}/cwd")
    except OSError:
        return ""


def work_of(number):
    """The crate that a process of the prover checks, and for what: its proof, its tests, or a wrong body by its number."""
    words = words_of(number)
    if len(words) < 2 or os.path.basename(words[0]) != "rattle" or "--crate-name" not in words:
        return None
    crate = words[words.index("--crate-name") + 1]
    kept = words[words.index("--incremental") + 1] if "--incremental" in words else ""
    # (what is tried from nothing has no number)
    if "rt-edit" in kept or "rt-edit" in folder_of(number):
        return crate, "edit", os.path.basename(kept)
    return crate, "tests" if "--test" in words else "proof", ""


class Watch:
    """The processor seconds of each piece of work below a process, sampled while it runs."""

    def __init__(self, root):
        self.root = root
        self.works = {}
        self.seconds = {}

    def look(self):
        every = processes()
        for number, (parent, seconds, start) in every.items():
            key = number, start
            # (a process may become the prover's after it was first seen)
            if not self.works.get(key):
                self.works[key] = work_of(number) if self.is_below(number, every) else None
            above = every.get(parent)
            # a worker's time is its parent's once it has ended
            if self.works[key] and not (above and self.works.get((parent, above[2]))):
                workers = sum(it[1] for it in every.values() if it[0] == number)
                self.seconds[key] = max(seconds + workers, self.seconds.get(key, 0))

    def is_below(self, number, every):
        while number in every and number != self.root:
            number = every[number][0]
        return number == self.root

    def totals(self):
        totals = collections.Counter()
        for key, seconds in self.seconds.items():
            totals[self.works[key]] += seconds
        return totals


def watched(words):
    """Runs a command, and gives its status, its seconds by the clock, all its processor seconds, and those of each piece of work."""
    start = time.monotonic()
    before = resource.getrusage(resource.RUSAGE_CHILDREN)
    child = subprocess.Popen(words, stdout=sys.stderr)
    watch = Watch(child.pid)
    while child.poll() is None:
        watch.look()
        time.sleep(1 / SAMPLES_A_SECOND)
    after = resource.getrusage(resource.RUSAGE_CHILDREN)
    processor = after.ru_utime + after.ru_stime - before.ru_utime - before.ru_stime
    return child.returncode, time.monotonic() - start, processor, watch.totals()


# ---- the table of a run


def edits_of(crate):
    """The names of a crate's wrong bodies, in the order in which the gate numbers them."""
    folder = f"crates/{crate}/must-fail"
    return sorted(it for it in os.listdir(folder) if it.endswith(".edit")) if os.path.isdir(folder) else []


def crates():
    with open("crates.txt") as file:
        return [line.split(":")[0].split()[0] for line in file if ":" in line and not line.startswith("#")]


def table(totals):
    print("| Crate | Proof | Tests | Wrong bodies | Of them |\n|---|---|---|---|---|")
    sums = collections.Counter()
    for crate in crates():
        spent = {kind: sum(s for (name, of, _), s in totals.items() if (name, of) == (crate, kind)) for kind in ("proof", "tests", "edit")}
        if any(spent.values()):
            cells = [f"{spent[kind]:.0f}" if spent[kind] else "" for kind in spent]
            print(f"| `{crate}` | " + " | ".join(cells) + f" | {len(edits_of(crate))} |")
            sums.update(spent)
    print("| all | " + " | ".join(f"{sums[kind]:.0f}" for kind in ("proof", "tests", "edit")) + " | |")


def print_edits(totals, least):
    print("| Crate | Wrong body | Seconds |\n|---|---|---|")
    for (crate, kind, number), seconds in sorted(totals.items(), key=lambda it: -it[1]):
        if kind == "edit" and number.isdigit() and seconds > least:
            print(f"| `{crate}` | `{edits_of(crate)[int(number)].removesuffix('.edit')}` | {seconds:.0f} |")


def of_run(words):
    status, clock, processor, totals = watched(["rt", "ci", *words])
    print(f"{clock / 60:.1f} minutes by the clock, {processor / 60:.1f} processor minutes, status {status}\n")
    table(totals)
    print(f"\nWrong bodies over {LONG} processor seconds:\n")
    print_edits(totals, LONG)
    return status


def of_edits(names):
    status, _, _, totals = watched(["rt", "must-fail", *names])
    print_edits(totals, 0)
    return status


# ---- the functions of a crate


def rattle_words(crate):
    """The command that checks a crate over the libraries below it."""
    kit = os.path.dirname(subprocess.run(["rt", "doc"], capture_output=True, text=True, check=True).stdout.strip())
    with open("crates.txt") as file:
        below = {line.split(":")[0].split()[0]: line.partition(":")[2].split() for line in file if not line.startswith("#")}
    root = "src/main.rt" if os.path.isfile(f"crates/{crate}/src/main.rt") else "src/lib.rt"
    words = [f"{kit}/bin/rattle", "check", "--crate-name", crate, root, "-L", f"dependency={kit}/rlibs"]
    for name in ["std", *below[crate]]:
        ours = name in below
        words += ["--extern", f"{name}={os.path.abspath(f'crates/{name}/out/rlib') if ours else f'{kit}/rlibs'}/{name}.rlib"]
        words += ["-L", "dependency=" + os.path.abspath(f"crates/{name}/out/rlib")] * ours
    words += ["--antt-project", f"{kit}/rattle/logic/antt-project.json", "--logic-built", f"{kit}/logic_built"]
    return [*words, "--jobs", "1", "--links", f"{crate}="]


def function_of(module, crate):
    """The function that a module of the prover is about."""
    name = module.removeprefix(f"Rattle-{crate}").lstrip("-.").removeprefix("proofs.").removeprefix("specs.")
    return re.sub(r"\.(Answers|Goals|Given|Proof|Met|Statement|Code|Lts|Key|Tie|Links?|The\w+|Invariants|Routine\w*|Parts\w*|decls)(\..*)?$", "", name)


def long_functions(crate):
    """One process checks one module after another, so the time between two of its files is that of the second."""
    with tempfile.TemporaryDirectory() as kept:
        before = resource.getrusage(resource.RUSAGE_CHILDREN)
        start = time.time()
        ran = subprocess.run([*rattle_words(crate), "--incremental", kept], cwd=f"crates/{crate}", capture_output=True, text=True)
        clock = time.time() - start
        after = resource.getrusage(resource.RUSAGE_CHILDREN)
        processor = after.ru_utime + after.ru_stime - before.ru_utime - before.ru_stime
        files = sorted((os.stat(f"{at}/{name}").st_mtime, name) for at, _, names in os.walk(kept) for name in names if name.endswith(".oantt"))
    spent, last = collections.Counter(), files[0][0] if files else 0
    for when, name in files:
        spent[function_of(name.removesuffix(".oantt"), crate)] += (when - last) * processor / clock
        last = when
    print(f"{crate}: {processor:.0f} processor seconds, status {ran.returncode}", file=sys.stderr)
    for function, seconds in spent.most_common():
        if seconds > LONG:
            print(f"| `{crate}` | `{function}` | {seconds:.0f} |")
    return ran.returncode


def main(words):
    if words[:1] == ["edits"]:
        return of_edits(words[1:])
    if words[:1] != ["functions"]:
        return of_run(words)
    print("| Crate | Function | Seconds |\n|---|---|---|")
    return max([long_functions(crate) for crate in words[1:] or crates()])


sys.exit(main(sys.argv[1:]))
