"""Times the formula of n copies of ground tasks: the time of a row that asks for its size, less that of one that asks for the
pattern alone."""
import os
import tempfile

import measuring

PROGRAM = "crates/layer_rows/out/layer_rows"


def counters(k):
    """k counters from 0, each below `k`, each raised and lowered by 1; at the end they rise strictly."""
    goal = " ".join(f"1@{j}+-1@{j + 1}+1<=0" for j in range(k - 1))
    actions = [f"1@{i}+{1 - k}<=0 {i}+=1" for i in range(k)] + [f"-1@{i}+1<=0 {i}+=-1" for i in range(k)]
    return ";".join(["", " ".join("0" for _ in range(k)), goal] + actions)


def transport(trucks, places, goods):
    """Trucks drive from place to place and use fuel by the load; goods are loaded and unloaded. Atom: a truck at a place, a good at a
    place, a good in a truck. Function: the fuel and the load of a truck."""
    at = lambda t, p: t * places + p
    lies = lambda g, p: trucks * places + g * places + p
    carried = lambda g, t: (trucks + goods) * places + g * trucks + t
    atoms = ["0"] * ((trucks + goods) * places + goods * trucks)
    for t in range(trucks):
        atoms[at(t, t % places)] = "1"
    for g in range(goods):
        atoms[lies(g, g % places)] = "1"
    actions = []
    for t in range(trucks):
        fuel, load = 2 * t, 2 * t + 1
        for p in range(places):
            q = (p + 1) % places
            change = sorted([f"+{at(t, q)}", f"-{at(t, p)}"])
            actions.append(f"?{at(t, p)} -1@{fuel}+1@{load}+1<=0 {' '.join(change)} {fuel}:=1@{fuel}+-1@{load}+-1")
            for g in range(goods):
                actions.append(f"?{at(t, p)} ?{lies(g, p)} 1@{load}+-3<=0 +{carried(g, t)} -{lies(g, p)} {load}+=1")
                actions.append(f"?{at(t, p)} ?{carried(g, t)} +{lies(g, p)} -{carried(g, t)} {load}+=-1")
    goal = " ".join(f"?{lies(g, (g + 1) % places)}" for g in range(goods))
    values = " ".join("1000 0" for _ in range(trucks))
    return ";".join(["".join(atoms), values, goal] + actions)


def chain(actions):
    """Action k needs atom k, deletes it, and adds the next one; a hundred counts grow by the way."""
    parts = ["1" + "0" * actions, " ".join("0" for _ in range(100)), f"?{actions}"]
    for k in range(actions):
        parts.append(f"?{k} -{k} +{k + 1} {k % 100}+=1" if k % 50 == 0 else f"?{k} -{k} +{k + 1}")
    return ";".join(parts)


def measure(call, text, n):
    with tempfile.TemporaryDirectory() as folder:
        path = os.path.join(folder, "rows")
        with open(path, "w") as file:
            file.write(f"frame {call} | $1 | $2\nrow | {text} | {n}\n")
        return measuring.run([PROGRAM, path])


def main():
    print(f"{'task':<18}{'n':>4}{'pattern s':>11}{'formula s':>11}{'peak MB':>9}  status, size")
    tasks = [(f"counters {k}", counters(k), n) for k in (20, 50, 100) for n in (1, 5, 10, 50)]
    tasks += [("transport 4 6 10", transport(4, 6, 10), n) for n in (1, 5, 25)]
    tasks += [(f"chain {k}", chain(k), n) for k, n in ((300, 5), (300, 50), (300, 500))]
    for name, text, n in tasks:
        read = measure("pattern", text, n)[0]
        seconds, peak, status, output = measure("formula-size", text, n)
        size = output.split("|")[-1].strip()
        print(f"{name:<18}{n:>4}{read:>11.2f}{seconds - read:>11.2f}{peak:>9.0f}  {status}, {size}", flush=True)


main()
