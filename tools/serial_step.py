#!/usr/bin/env python3
"""Prints the numbers that the test `a_hundred_steps` of crates/step_engine/src/tests.rt has: 100 steps over 27 atoms
on a lattice with their places and velocities a little off, made by tools/reference.py.

Run it from anywhere: python3 tools/serial_step.py
"""
from reference import UNIT, Atom, Run


def lattice():
    """27 atoms in a box of edge 6, as in the test."""
    atoms = []
    for k in range(27):
        places = [k % 3, k // 3 % 3, k // 9]
        x = [2 * UNIT * place + 3_355_443 + (k * (axis + 2) * 7_919 % 4_001 - 2_000) * 1_500 for axis, place in enumerate(places)]
        atom = Atom(k + 1, x)
        atom.v = [(k * (axis + 5) * 104_729 % 4_001 - 2_000) * 5_000 for axis in range(3)]
        atoms.append(atom)
    return atoms


def main():
    run = Run()
    run.lo, run.hi = [0, 0, 0], [6 * UNIT] * 3
    run.mass, run.eps, run.sigma, run.cut, run.moving = UNIT, UNIT, UNIT, 5 * UNIT // 2, True
    run.atoms = lattice()
    run.set_up()
    print("at the start: pair energy %d, virial %d" % (run.pair, run.virial))
    for _ in range(100):
        run.one_step()
    print("after 100 steps: pair energy %d, virial %d" % (run.pair, run.virial))
    print("neighbour pairs %d, builds %d" % (run.neighbours(), run.builds))
    for number in [1, 14]:
        atom = run.atoms[number - 1]
        print("atom %d: x %s v %s f %s image %s" % (number, atom.x, atom.v, atom.f, atom.image))
    print("images that are not 0: %d" % sum(a.image != [0, 0, 0] for a in run.atoms))


if __name__ == "__main__":
    main()
