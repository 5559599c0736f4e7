#!/usr/bin/env bash
# Tries wrong bodies that the gate leaves out: the edits of tools/wrong_bodies/CRATE, each of which the proof of the
# crate must refuse. With no name, those of every crate. Works on a copy, and prints what was not refused, with a
# status that is not 0.
#
#     tools/wrong_bodies.sh [CRATE ..]
set -euo pipefail
cd "$(dirname "$0")/.."

crates=("$@")
[[ $# -gt 0 ]] || crates=($(ls tools/wrong_bodies))
for crate in "${crates[@]}"; do
  if [[ ! -d "tools/wrong_bodies/$crate" ]]; then
    echo "tools/wrong_bodies has no edits of a crate $crate" >&2
    exit 2
  fi
done

# The copy has the libraries that are built, so that nothing below a crate is proved again.
copy="$(mktemp -d)"
trap 'rm -rf "$copy"' EXIT
for library in crates/*/out/rlib; do
  [[ -d "$library" ]] || continue
  mkdir -p "$copy/$(dirname "$library")"
  cp -a "$library" "$copy/$library"
done
cp -a crates.txt HANDLES "$copy"
tar -c --exclude='crates/*/out' --exclude='crates/*/must-fail' crates | tar -x -C "$copy"
for crate in "${crates[@]}"; do
  cp -a "tools/wrong_bodies/$crate" "$copy/crates/$crate/must-fail"
done

(cd "$copy" && rt must-fail "${crates[@]}") >"$copy/log" 2>&1 && status=0 || status=$?
refused="$(grep -c ': refused, as it must be' "$copy/log" || true)"
grep -v ': refused, as it must be\|^rt: .* were tried by an earlier run' "$copy/log" || true
echo "$refused of $(ls "${crates[@]/#/tools/wrong_bodies/}" | grep -c '\.edit$') wrong bodies were refused"
exit "$status"
