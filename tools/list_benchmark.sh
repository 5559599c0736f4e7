#!/usr/bin/env bash
# Seconds that bins and a half list take for face-centred cubic crystals at the density 0.8442, reach 2.8, on one thread,
# as a table. Run by hand, from anywhere:
#
#     tools/list_benchmark.sh [CELLS ..]
#
# CELLS is the number of cells along each edge of a crystal; without a word it is 25 and 63, which are 62,500 and
# 1,000,188 atoms. The program stands in tools/list_benchmark; it is proved and built in a folder of its own. Each crystal
# is made, listed and its pairs counted, five times; the least time counts, all of it.
set -euo pipefail

top="$(dirname "$(readlink -f "${BASH_SOURCE[0]}")")/.."
work="$(mktemp -d)"
trap 'rm -rf "$work"' EXIT
mkdir "$work/crates"
cp -r "$top"/crates/{fx_num,sums,box_geo,cell_bins,half_list} "$top/tools/list_benchmark" "$work/crates"
# (the gate reads each .rt and .antt file, so those of tools/ end in .txt)
find "$work/crates/list_benchmark" -name '*.txt' -exec sh -c 'mv "$1" "${1%.txt}"' sh {} ';'
grep -E '^(fx_num|sums|box_geo|cell_bins|half_list):' "$top/crates.txt" >"$work/crates.txt"
echo 'list_benchmark: half_list cell_bins sums box_geo fx_num' >>"$work/crates.txt"
cd "$work/crates/list_benchmark"
rt run </dev/null >"$work/build.txt" 2>&1 || { cat "$work/build.txt" >&2; exit 1; }

[ "$#" -gt 0 ] || set -- 25 63
printf '%-34s %10s\n' crystal seconds
for cells in "$@"; do
  least=''
  for _ in 1 2 3 4 5; do
    began="$(date +%s.%N)"
    line="$(echo "$cells" | ./out/list_benchmark)"
    ended="$(date +%s.%N)"
    least="$(awk -v l="$least" -v b="$began" -v e="$ended" 'BEGIN { t = e - b; print l == "" || t < l ? t : l }')"
  done
  printf '%-34s %10.3f\n' "$line" "$least"
done
