#!/usr/bin/env bash
# Nanoseconds of an add: to an array of i64, to the shared words of a board by one worker, and by four. Run by hand, from
# anywhere:
#
#     tools/team_benchmark.sh
#
# It proves and builds the crate of tools/team_bench.txt over the crates of the repository, in a folder of its own, and prints the best of
# seven rounds of 12 million adds, and how much of one worker's time four workers take.
set -euo pipefail

top="$(readlink -f "$(dirname "${BASH_SOURCE[0]}")/..")"
work="$(mktemp -d)"
trap 'rm -rf "$work"' EXIT
mkdir "$work/crates"
for crate in fx_num sums weave_core force_board outside work_team; do
  cp -a "$top/crates/$crate" "$work/crates/$crate"
  grep "^$crate\b" "$top/crates.txt" >>"$work/crates.txt"
done
awk -v top="$work/crates/team_bench" '
  /^=== / { if (file) close(file); file = top "/" $2; folder = file; sub("/[^/]*$", "", folder); system("mkdir -p " folder); next }
  file { print >file }' "$top/tools/team_bench.txt"
echo 'team_bench: work_team force_board weave_core outside fx_num' >>"$work/crates.txt"
cp "$top/HANDLES" "$work/HANDLES"
cd "$work/crates/team_bench"
rt run 2>"$work/messages" | tee "$work/rounds" >/dev/null || { tail "$work/messages" >&2; exit 1; }
awk '{ for (i = 1; i <= 3; i++) if (NR == 1 || $i < best[i]) best[i] = $i }
  END { adds = 12e6; printf "plain %.2f ns, one worker %.2f ns (%.2f times), four workers %.2f of its time\n",
    best[1] / adds, best[2] / adds, best[2] / best[1], best[3] / best[2] }' "$work/rounds"
