"""Prints the table of a run of bench/run, whose lines it reads: fields parted by tabs, of which the first says what follows.

A set here is its five numbers and the run count.

ratio         what, against what, ratio of the times
time          set, call, ratio of the times to the opponent in C
instructions  set, call, instructions, those of the permutation, permutations
products      set, call, products of the points field that its evaluations make
stack         set, call, bytes
size          set, what a caller lends, bytes
code          bytes of code and constants, bytes of variables

Of the emulated core:
core          set, call, instructions, painted stack, instructions once more, their estimated cycles, low and high end
bound         function, the most stack that a call can take
core code     level, bytes of code and constants, bytes of variables
"""
import sys

CALLS = ["begin", "points", "leaf", "opening", "extract"]
HEAD = ["call", "time to C", "instructions", "outside permutation", "permutations", "products", "stack"]
CORE_HEAD = ["call", "instructions", "painted stack", "stack bound", "estimated cycles", "ms at 120 MHz"]
FUNCTIONS = {
    "begin": "unlock_prover_begin",
    "points": "unlock_prover_points",
    "leaf": "unlock_prover_leaf",
    "opening": "unlock_verifier_opening",
    "extract": "unlock_extract",
}
CYCLES_A_MS = 120_000


def print_rows(rows):
    widths = [max(len(row[i]) for row in rows) for i in range(len(rows[0]))]
    for row in rows:
        print("  ".join(field.ljust(widths[0]) if i == 0 else field.rjust(widths[i]) for i, field in enumerate(row)))


def number(word):
    return f"{int(word):,}"


def call_row(call, figures):
    time, (total, inside, times), products, stack = (figures[kind, call] for kind in ("time", "instructions", "products", "stack"))
    outside = 100 * (int(total) - int(inside)) / int(inside)
    return [call, time[0], number(total), f"{outside:.1f} %", number(times), number(products[0]), number(stack[0])]


def core_row(call, figures, bounds):
    instructions, painted, _, low, high = figures[call]
    milliseconds = f"{int(low) / CYCLES_A_MS:.0f} to {int(high) / CYCLES_A_MS:.0f}"
    return [call, number(instructions), number(painted), number(bounds[FUNCTIONS[call]]), f"{number(low)} to {number(high)}", milliseconds]


def print_core(lines):
    """The tables of the emulated core."""
    bounds = {line[1]: line[2] for line in lines if line[0] == "bound"}
    for chosen in dict.fromkeys(line[1] for line in lines if line[0] == "core"):
        figures = {line[2]: line[3:] for line in lines if line[0] == "core" and line[1] == chosen}
        print("\nCortex-M4: m {}, k {}, w {}, D {}, t {}, runs {}".format(*chosen.split()))
        print_rows([CORE_HEAD] + [core_row(call, figures, bounds) for call in CALLS])
        more, *cycles = (int(two) - int(one) for two, one in zip(figures["two permutations"][2:], figures["one permutation"][2:]))
        print(f"a permutation: {number(more)} instructions, estimated at {number(cycles[0])} to {number(cycles[1])} cycles")
    for line in lines:
        if line[0] == "core code":
            print(f"\nlibrary for Cortex-M4, {line[1]}: {number(line[2])} bytes of code and constants, {number(line[3])} of variables")


lines = [line.rstrip("\n").split("\t") for line in sys.stdin]
print_rows([["time of", "to", "ratio"]] + [line[1:] for line in lines if line[0] == "ratio"])
sets = list(dict.fromkeys(line[1] for line in lines if line[0] == "time"))
for chosen in sets:
    of_set = [line for line in lines if len(line) > 3 and line[1] == chosen]
    figures = {(line[0], line[2]): line[3:] for line in of_set}
    print("\nm {}, k {}, w {}, D {}, t {}, runs {}".format(*chosen.split()))
    print_rows([HEAD] + [call_row(call, figures) for call in CALLS])
    _, inside, times = figures["instructions", "begin"]
    print(f"a permutation: {number(int(inside) // int(times))} instructions")
    print("bytes: " + ", ".join(f"{line[2]} {number(line[3])}" for line in of_set if line[0] == "size"))
for line in lines:
    if line[0] == "code":
        print(f"\nlibrary for x86-64: {number(line[1])} bytes of code and constants, {number(line[2])} of variables")
print_core(lines)
