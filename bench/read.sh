#!/usr/bin/env bash
# `read.sh [PROGRAM]`: a file of full size, 1,000 sites by 5,000 customers, is read whole and answered `too
# large sites`. Prints the best of three times of it and of `wc -w`, and the peak memory.
set -eu
. "$(dirname "$0")/help.sh"
cd "$(dirname "$0")/.."
program=${1:-crates/dualoc/out/dualoc}
dir=$(mktemp -d)
trap 'rm -rf "$dir"' EXIT
python3 - "$dir/big.txt" <<'P'
import random, sys
random.seed(1)
with open(sys.argv[1], "w") as f:
    f.write("FILE: big\n1000 5000 0\n")
    for i in range(1, 1001):
        costs = " ".join(str(random.randrange(1, 100000)) for _ in range(5000))
        f.write(f"{i} {random.randrange(1000, 9999)} {costs}\n")
P
PYTHONPATH=bench python3 - "$program" "$dir/big.txt" <<'P'
import os, sys
from timing import best, peak

program, name = sys.argv[1:3]
TOO_LARGE = 8
size = os.path.getsize(name)
lanes = 5_000_000
command = [program, "solve", "ufl", name]
wc, words = best(["wc", "-w", name])
ours, said = best(command, TOO_LARGE)
memory = peak(command)
print(f"file        {size} bytes, {words.split()[0]} words, answered: {said}")
print(f"wc -w       {wc:.3f} s")
print(f"dualoc      {ours:.3f} s, {ours / wc:.2f} times wc -w")
print(f"peak memory {memory} bytes: the file and {(memory - size) / lanes:.1f} bytes a lane")
P
