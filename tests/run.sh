#!/usr/bin/env bash
# Runs the program on each run that is stored in tests/runs, and on each case of the tables in tests/runs/*.txt, in a
# folder of its own. Prints how many passed, and of each that failed the first difference; the status is then not 0.
#
#     tests/run.sh PROGRAM
#
# tests/runs/README.md tells how they are stored.
set -euo pipefail
top="$(cd "$(dirname "$0")/.." && pwd)"
program="$(readlink -f "${1:?usage: tests/run.sh PROGRAM}")"
[[ -x "$program" ]] || { echo "tests/run.sh: there is no program $1" >&2; exit 2; }
work="$(mktemp -d)"
trap 'rm -rf "$work"' EXIT

# Copies a file of a run, or makes an empty one.
copy() { if [[ -f "$1" ]]; then cp "$1" "$2"; else : >"$2"; fi; }

# Runs what a folder stores, and prints where it differs from what is wanted.
differs() {
  local run="$1" want="$work/want" got="$work/got" words=()
  rm -rf "$want" "$got" && mkdir -p "$want" "$got/files"
  if [[ -f "$run/from" ]]; then cp -r "$top/$(<"$run/from")/." "$got/files"; fi
  if [[ -d "$run/files" ]]; then cp -r "$run/files/." "$got/files"; fi
  cp -r "$got/files" "$want/files"
  if [[ -d "$run/want" ]]; then cp -r "$run/want/." "$want/files"; fi
  copy "$run/want.screen" "$want/screen"
  copy "$run/want.errors" "$want/errors"
  if [[ -f "$run/want.log" ]]; then cp "$run/want.log" "$want/files/log.lammps"; cp "$run/want.log" "$want/screen"; fi
  if [[ -f "$run/want.status" ]]; then cp "$run/want.status" "$want/status"; else echo 0 >"$want/status"; fi
  mapfile -t words <"$run/words"
  (cd "$got/files" && timeout 120 "$program" "${words[@]}" </dev/null >"$got/screen" 2>"$got/errors") && echo 0 >"$got/status" || echo $? >"$got/status"
  diff -r "$want" "$got" | sed "s|$work/||g" | head -n 5 || true
}

# Each case as a run of its own, whose log is the line of the refusal.
awk -v to="$work/refusals" '
  /^== / { run = to "/" ++cases "_" $2; system("mkdir -p " run "/files"); file = run "/files/in.case"; printf "" >file
           print "-in\nin.case" >(run "/words"); print "ERROR: " $2 " at " $3 >(run "/want.log"); print 1 >(run "/want.status") }
  /^file / { file = run "/files/" $2 }
  /^\|/ { print substr($0, 3) >file }
  /^fill / { for (i = 0; i < $2; i++) printf "%s", $3 >file }' "$top"/tests/runs/*.txt

passed=0 failed=0
for run in "$top"/tests/runs/*/ "$work"/refusals/*/; do
  found="$(differs "$run")"
  if [[ -z "$found" ]]; then passed=$((passed + 1)); continue; fi
  failed=$((failed + 1))
  printf '%s: wanted (<) and got (>)\n%s\n' "$(basename "$run")" "$found"
done
echo "stored runs: $passed passed, $failed failed"
[[ "$failed" -eq 0 ]]
