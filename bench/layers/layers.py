"""Times the layers of ground tasks: the time of a row that asks for them, less that of one that only reads the task."""
import os
import tempfile

import measuring

PROGRAM = "crates/layer_rows/out/layer_rows"


def task(actions, layers):
    """Action n needs atom n mod `layers`, which the actions before it in the chain add, and a comparison; it adds the next atom and
    changes one of a hundred functions, every third one by a new value."""
    functions = 100
    parts = ["1" + "0" * layers, " ".join("0" for _ in range(functions)), f"?{layers}"]
    for n in range(actions):
        atom, f = n % layers, n % functions
        change = f"{f}:=1/2@{f}+1@{(f + 1) % functions}+3" if n % 3 == 0 else f"{f}+=1"
        parts.append(f"?{atom} -1@{f}+-{n % 7 + 1}<=0 +{atom + 1} {change}")
    return ";".join(parts)


def measure(call, text):
    with tempfile.TemporaryDirectory() as folder:
        path = os.path.join(folder, "rows")
        with open(path, "w") as file:
            file.write(f"frame {call} | $1\nrow | {text}\n")
        return measuring.run([PROGRAM, path])


def main():
    print(f"{'actions':>9}{'layers':>8}{'read s':>9}{'layers s':>10}{'peak MB':>9}  status, last layer")
    for actions, layers in ((300, 300), (20_000, 3), (200_000, 10)):
        text = task(actions, layers)
        read = measure("task", text)[0]
        seconds, peak, status, output = measure("layers", text)
        numbers = [int(word) for word in output.split() if word.isdigit()]
        print(f"{actions:>9}{layers:>8}{read:>9.2f}{seconds - read:>10.2f}{peak:>9.0f}  {status}, {max(numbers, default='-')}")


main()
