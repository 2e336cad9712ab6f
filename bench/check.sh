#!/usr/bin/env bash
# `check.sh [PROGRAM [SITES [CUSTOMERS [DEPTH]]]]`: checks, at full size, an accepted certificate of about 100
# MB, whose leaves all carry duals. Prints the best of three times of `dualoc check` and of `wc -w`, and the
# peak memory.
set -eu
. "$(dirname "$0")/help.sh"
cd "$(dirname "$0")/.."
program=${1:-crates/dualoc/out/dualoc}
sites=${2:-20}
customers=${3:-1000}
depth=${4:-13}
dir=$(mktemp -d)
trap 'rm -rf "$dir"' EXIT
python3 bench/certificate.py "$sites" "$customers" "$depth" "$dir/instance.txt" "$dir/certificate.txt"
PYTHONPATH=bench python3 - "$program" "$dir/instance.txt" "$dir/certificate.txt" "$sites" "$customers" "$depth" <<'P'
import os, sys
from timing import best, peak

program, instance, certificate = sys.argv[1:4]
sites, customers, depth = (int(word) for word in sys.argv[4:7])
size = os.path.getsize(certificate)
leaves = 2 ** depth
words = [program, "check", "ufl", instance, certificate]
wc, _ = best(["wc", "-w", certificate])
ours, said = best(words)
visits = leaves * sites * customers
print(f"certificate {size} bytes, {leaves} leaves of {sites} sites and {customers} customers, answered: {said}")
print(f"wc -w       {wc:.3f} s")
print(f"dualoc      {ours:.3f} s, {size / ours / 1e6:.0f} MB/s, {ours / wc:.2f} times wc -w, {ours / visits * 1e9:.2f} ns for each leaf and lane")
print(f"peak memory {peak(words)} bytes, the instance's file has {os.path.getsize(instance)}")
P
