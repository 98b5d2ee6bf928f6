"""cycles.py [-v] PROGRAM COUNTS: estimates the cycles of a Cortex-M4 from how often each instruction of a program was executed
(executions.c), and prints instructions and the two ends of the estimate; with -v also the functions that take most.

Cycles are those of ARM's reference manual for the Cortex-M4, for memory that never makes the core wait: flash of a real part does.
The low end lets a store, and a load behind another load or store, take one cycle, refills the pipeline in one and divides in two; the
high end has two, three and twelve.
"""
import re
import subprocess
import sys

CONDITION = r"(?:eq|ne|cs|cc|hs|lo|mi|pl|vs|vc|hi|ls|ge|lt|gt|le)"
SINGLE = re.compile(rf"(ldr|str)(?:b|h|sb|sh|t)?{CONDITION}?$")
PAIR = re.compile(rf"(?:ldrd|strd){CONDITION}?$")
SEVERAL = re.compile(rf"(?:ldm|stm|push|pop)(?:ia|db|fd|ea)?{CONDITION}?$")
JUMP = re.compile(r"(?:b|bl|bx|blx|tbb|tbh)$")
BRANCH = re.compile(rf"(?:b{CONDITION}|cbz|cbnz|bx{CONDITION})$")
DIVISION = re.compile(rf"[us]div{CONDITION}?$")


def instructions(program):
    """Address, name, operands and function of each instruction."""
    listed = subprocess.run(["arm-none-eabi-objdump", "-d", "--no-show-raw-insn", program], capture_output=True, text=True, check=True)
    function = None
    for line in listed.stdout.splitlines():
        if head := re.match(r"[0-9a-f]+ <(.+)>:$", line):
            function = head[1]
        elif m := re.match(r" *([0-9a-f]+):\t(\S+)\s*(.*)", line):
            yield int(m[1], 16), m[2].split(".")[0], m[3], function


def registers(operands):
    """How many registers a list such as {r4-r7, lr} names."""
    parts = [part.strip() for part in operands[operands.index("{") + 1:operands.index("}")].split(",")]
    return sum(int(p.split("-")[1][1:]) - int(p.split("-")[0][1:]) + 1 if re.match(r"r\d+-r\d+$", p) else 1 for p in parts)


def cost(name, operands, after_access, taken):
    """Cycles of one execution, low and high; TAKEN is the share of a branch's executions that jump."""
    into_pc = "pc" in operands and (name.startswith("pop") or name.startswith("ldm") or operands.startswith("pc"))
    refill = (1, 3) if into_pc or JUMP.match(name) else (taken, 3 * taken) if BRANCH.match(name) else (0, 0)
    if SINGLE.match(name):
        own = (1 if after_access or name.startswith("str") else 2), 2
    elif PAIR.match(name):
        own = 3, 3
    elif SEVERAL.match(name):
        own = (1 + registers(operands),) * 2
    elif DIVISION.match(name):
        own = 2, 12
    else:
        own = 1, 1
    return own[0] + refill[0], own[1] + refill[1]


def estimate(program, counts):
    """Instructions, low and high end, of each function."""
    executed = {int(a, 16): int(c) for a, c in (line.split() for line in open(counts))}
    listed = list(instructions(program))
    found = {}
    for i, (address, name, operands, function) in enumerate(listed):
        count = executed.get(address, 0)
        if count == 0:
            continue
        following = executed.get(listed[i + 1][0], 0) if i + 1 < len(listed) else 0
        after_access = i > 0 and bool(SINGLE.match(listed[i - 1][1]))
        low, high = cost(name, operands, after_access, max(0, 1 - following / count))
        had = found.get(function, (0, 0, 0))
        found[function] = had[0] + count, had[1] + count * low, had[2] + count * high
    return found


def main():
    *words, program, counts = sys.argv[1:]
    found = estimate(program, counts)
    print(*(round(sum(parts)) for parts in zip(*found.values())), sep="\t")
    if words == ["-v"]:
        for function, parts in sorted(found.items(), key=lambda item: -item[1][0])[:16]:
            print(*(f"{round(part):12d}" for part in parts), function)


main()
