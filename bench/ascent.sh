#!/usr/bin/env bash
# `ascent.sh`: the ascent from zeros at scale 1, over instances in the plane and uniform ones: seconds, the
# lanes that it visits and the nanoseconds for each, beside one pass over all lanes in the same program, and
# beside the same procedure in C where a compiler is at hand. Times are differences between doing it more and
# less often, the best of three.
set -eu
. "$(dirname "$0")/help.sh"
top=$(cd "$(dirname "$0")/.." && pwd)
dir=$(mktemp -d)
trap 'rm -rf "$dir"' EXIT
program=$("$top/bench/program.sh" "$dir" ascent dual_ascent dual_value fixed_cost instance_store lane_order shelf_port ufllib_read)
twin=
if command -v cc >/dev/null; then
  twin=$dir/twin
  cc -O2 -o "$twin" "$top/bench/ascent/twin.c"
fi
for size in "200 200" "1000 1000" "2000 5000"; do
  for kind in plane uniform; do
    python3 "$top/bench/ascent/instance.py" "$kind" $size "$dir/instance.txt"
    PYTHONPATH=$top/bench python3 - "$program" "$twin" "$dir/instance.txt" "$kind" $size <<'P'
import subprocess, sys
from timing import best

program, twin, instance, kind = sys.argv[1:5]
sites, customers = int(sys.argv[5]), int(sys.argv[6])
lanes = sites * customers
times = max(2, 40_000_000 // lanes)


def spent(work):
    """The seconds for doing the work once, and what is printed."""
    often, said = best([program, instance, work, str(times)])
    once, _ = best([program, instance, work, "1"])
    return (often - once) / (times - 1), said


ascent, said = spent("ascent")
passed, _ = spent("pass")
sorting, _ = spent("order") if lanes < 2_000_000 else (best([program, instance, "order", "2"])[0] - best([program, instance, "order", "1"])[0], "")
reading, _ = best([program, instance, "nothing", "1"])
line = f"{kind} {sites} x {customers}: reading {reading:.3f} s, order {sorting:.4f} s, one pass {passed * 1e3:.3f} ms, ascent {ascent * 1e3:.3f} ms"
if twin:
    total, visited, nanos = subprocess.run([twin, instance, str(times)], capture_output=True, text=True, check=True).stdout.split()
    assert total == said, f"the twin's duals add up to {total}, the ascent's to {said}"
    nanos, visited = float(nanos), int(visited)
    line += f" ({visited} lanes visited, {ascent * 1e9 / visited:.2f} ns each); in C {nanos / 1e6:.3f} ms, {ascent * 1e9 / nanos:.2f} times"
print(line)
P
  done
done
