#!/usr/bin/env bash
# `program.sh DIR NAME CRATE ..`: builds the program bench/NAME/main.txt over the crates named, in a copy of
# the repository's crates below DIR, and prints its path.
set -eu
. "$(dirname "$0")/help.sh"
top=$(cd "$(dirname "$0")/.." && pwd)
dir=$1
name=$2
shift 2
mkdir -p "$dir/repo/crates/${name}_bench/src"
cp "$top/HANDLES" "$top/crates.txt" "$dir/repo/"
for crate in "$top"/crates/*/; do
  mkdir -p "$dir/repo/crates/$(basename "$crate")"
  for part in src specs proofs; do
    [ -d "$crate$part" ] && cp -r "$crate$part" "$dir/repo/crates/$(basename "$crate")/"
  done
done
cp "$top/bench/$name/main.txt" "$dir/repo/crates/${name}_bench/src/main.rt"
echo "${name}_bench: $*" >>"$dir/repo/crates.txt"
git -C "$dir/repo" init -q
(cd "$dir/repo/crates/${name}_bench" && rt run </dev/null >"$dir/log" 2>&1) || true
program=$dir/repo/crates/${name}_bench/out/${name}_bench
[ -x "$program" ] || { tail -20 "$dir/log" >&2; exit 70; }
echo "$program"
