#!/usr/bin/env bash
# Atom-steps per second of the built program for 64, 256 and 1000 atoms, as a table. Run by hand, from anywhere:
#
#     tools/benchmark.sh [STEPS]
#
# It makes simple cubic crystals of the density 0.8442 with random velocities, runs each for STEPS steps (100 without the
# word) with a cutoff of 1.8, and measures the whole run of the program, reading and set-up included.
set -euo pipefail

top="$(dirname "$(readlink -f "${BASH_SOURCE[0]}")")/.."
steps="${1:-100}"
work="$(mktemp -d)"
trap 'rm -rf "$work"' EXIT
cd "$work"

# A crystal of $1 by $2 by $3 atoms.
crystal() {
  awk -v nx="$1" -v ny="$2" -v nz="$3" 'BEGIN {
    srand(1); a = (1 / 0.8442) ^ (1 / 3); atoms = nx * ny * nz
    printf "a simple cubic crystal\n\n%d atoms\n1 atom types\n", atoms
    printf "0 %.6f xlo xhi\n0 %.6f ylo yhi\n0 %.6f zlo zhi\n", nx * a, ny * a, nz * a
    printf "\nMasses\n\n1 1.0\n\nAtoms\n\n"
    for (k = 0; k < atoms; k++)
      printf "%d 1 %.6f %.6f %.6f\n", k + 1, k % nx * a, int(k / nx) % ny * a, int(k / nx / ny) * a
    printf "\nVelocities\n\n"
    for (k = 0; k < atoms; k++) printf "%d %.6f %.6f %.6f\n", k + 1, rand() - 0.5, rand() - 0.5, rand() - 0.5
  }' >data.crystal
}

printf '%s\n' 'units lj' 'atom_style atomic' 'read_data data.crystal' 'pair_style lj/cut 1.8' 'pair_coeff 1 1 1.0 1.0' \
  'timestep 0.002' 'fix 1 all nve' "run $steps" >in.crystal
"$top/fxlmp" --version >/dev/null # builds the program, if need be
printf '%8s %8s %10s %16s\n' atoms steps seconds 'atom-steps/s'
for size in '4 4 4' '4 8 8' '10 10 10'; do
  # shellcheck disable=SC2086
  crystal $size
  began="$(date +%s.%N)"
  "$top/fxlmp" -in in.crystal >/dev/null
  ended="$(date +%s.%N)"
  awk -v n="$size" -v s="$steps" -v b="$began" -v e="$ended" \
    'BEGIN { split(n, m, " "); a = m[1] * m[2] * m[3]; printf "%8d %8d %10.2f %16.0f\n", a, s, e - b, a * s / (e - b) }'
done
