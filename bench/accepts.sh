#!/usr/bin/env bash
# `accepts.sh [SITES [CUSTOMERS [DEPTH]]]`: `Tree::accepts` on a tree of about 10,000 leaves for 100 sites and
# 500 customers, in nanoseconds for each leaf and lane. Builds the program of bench/accepts over a copy of the
# crates, then takes the difference between asking four times and asking once, the best of three.
set -eu
. "$(dirname "$0")/help.sh"
top=$(cd "$(dirname "$0")/.." && pwd)
sites=${1:-100}
customers=${2:-500}
depth=${3:-13}
dir=$(mktemp -d)
trap 'rm -rf "$dir"' EXIT
program=$("$top/bench/program.sh" "$dir" accepts location_terms shelf_port fixed_cost instance_store ufllib_read branch_tree certificate_text)
python3 "$top/bench/certificate.py" "$sites" "$customers" "$depth" "$dir/instance.txt" "$dir/certificate.txt"
PYTHONPATH=$top/bench python3 - "$program" "$dir/instance.txt" "$dir/certificate.txt" "$sites" "$customers" "$depth" <<'P'
import sys
from timing import best, peak

sites, customers, depth = (int(word) for word in sys.argv[4:7])
once, four = ([*sys.argv[1:4], times] for times in ("1", "4"))
spent = best(four)[0] - best(once)[0]
visits = 3 * 2 ** depth * sites * customers
print(f"{2 ** depth} leaves, {sites} sites, {customers} customers: {spent / visits * 1e9:.2f} ns for each leaf and lane")
print(f"peak memory {peak(once)} bytes when asked once, {peak(four)} bytes when asked four times")
P
