#!/usr/bin/env bash
# The time of a pair term, over a fixed list of displacements. Run by hand, from anywhere:
#
#     tools/bench_pairs/run.sh [PAIRS [PASSES]]
#
# It builds the program of this folder in a temporary folder, over copies of the crates that it needs, and prints for each
# kind of list the time of the best of PASSES passes (200 without the word) over PAIRS pairs (50000 without it), how many
# guesses were wrong, and a sum of all terms. Where valgrind is there, it also counts the instructions of a pair, which
# are the same at each run.
set -euo pipefail

here="$(dirname "$(readlink -f "${BASH_SOURCE[0]}")")"
top="$here/../.."
pairs="${1:-50000}"
passes="${2:-200}"
work="$(mktemp -d)"
trap 'rm -rf "$work"' EXIT

mkdir -p "$work/crates/bench_pairs"
for crate in fx_num box_geo pair_lj; do
  cp -r "$top/crates/$crate" "$work/crates/$crate"
  grep "^$crate:" "$top/crates.txt" >>"$work/crates.txt"
done
cp -r "$here/src" "$here/proofs" "$work/crates/bench_pairs/"
# (the gate reads each .rt and .antt file, so those of tools/ end in .txt)
find "$work/crates/bench_pairs" -name '*.txt' -exec sh -c 'mv "$1" "${1%.txt}"' sh {} ';'
echo "bench_pairs: pair_lj box_geo fx_num" >>"$work/crates.txt"
cd "$work/crates/bench_pairs"
if ! rt run -- near 1000 1 >"$work/log" 2>&1; then
  tail -n 20 "$work/log" >&2
  exit 1
fi

# The instructions of $2 passes over 20000 pairs of the kind $1.
instructions() {
  valgrind --tool=callgrind --callgrind-out-file=/dev/null out/bench_pairs "$1" 20000 "$2" 2>&1 |
    sed -n 's/.*Collected : \([0-9]*\).*/\1/p'
}

for kind in near far mixed two; do
  printf '%-6s %s\n' "$kind" "$(out/bench_pairs "$kind" "$pairs" "$passes")"
  if command -v valgrind >/dev/null; then
    echo "       $((($(instructions "$kind" 6) - $(instructions "$kind" 1)) / 100000)) instructions a pair"
  fi
done
