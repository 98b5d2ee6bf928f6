"""count.py SET CALL FILE: reads what callgrind wrote, instruction by instruction, and prints a line 'instructions', set, call, all
instructions, those of the permutation, and how often it was made, parted by tabs."""
import collections
import re
import sys

# The permutation, or the function that it is inlined into.
PERMUTATION = re.compile(r"keccak::permute|shake256::permute_lanes|shake256::Sponge::make_ready")
ROUNDS = 24


def read(path):
    """All instructions, and of each function how often each of its own was executed."""
    names, own = {}, {}
    total, current, inclusive = 0, None, False

    def name(word):
        number, _, text = word.partition(" ")
        return names.setdefault(number, text)

    for line in open(path):
        line = line.strip()
        if line.startswith("summary:"):
            total = int(line.split()[1])
        elif line.startswith("fn="):
            current = name(line[3:])
        elif line.startswith("cfn="):
            name(line[4:])
        elif line.startswith("calls="):
            inclusive = True
        elif re.match(r"0x[0-9a-f]+ \d+$", line):
            if not inclusive:
                address, count = line.split()
                of = own.setdefault(current, collections.Counter())
                of[address] += int(count)
            inclusive = False
    return total, own


total, own = read(sys.argv[3])
permutation = collections.Counter()
for function, counts in own.items():
    if PERMUTATION.search(function):
        permutation.update(counts)
# Most instructions of the permutation stand in its round, which the loop makes 24 times.
[(of_round, _)] = collections.Counter(permutation.values()).most_common(1)
print("instructions", sys.argv[1], sys.argv[2], total, sum(permutation.values()), of_round // ROUNDS, sep="\t")
