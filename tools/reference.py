#!/usr/bin/env python3
"""A second, slow reading of the documents: prints the log of a run that examples and tests are compared with.

    tools/reference.py SCRIPT

It knows no more than docs/numbers-and-physics.md, docs/serial-step.md and docs/commands say, sums over all pairs of
atoms at each step in Python's whole numbers, and shares no line with the program. It takes scripts with one atom type,
one `velocity create` of all atoms and one run at their end, and trusts that they are right: it refuses nothing but what
a run refuses.
"""
import sys
from fractions import Fraction
from itertools import product

UNIT = 1 << 24

# where the atoms of a cell are, in quarters of it
BASES = {
    "sc": [(0, 0, 0)],
    "bcc": [(0, 0, 0), (2, 2, 2)],
    "fcc": [(0, 0, 0), (0, 2, 2), (2, 0, 2), (2, 2, 0)],
    "sq": [(0, 0, 0)],
    "sq2": [(0, 0, 0), (2, 2, 0)],
    "hex": [(0, 0, 0), (2, 2, 0)],
}
BASES["diamond"] = BASES["fcc"] + [(x + 1, y + 1, z + 1) for x, y, z in BASES["fcc"]]


def rdiv(a, b):
    """The whole number nearest to a/b, b above 0, a tie away from zero."""
    q = (2 * abs(a) + b) // (2 * b)
    return q if a >= 0 else -q


def rsh(a, k):
    return rdiv(a, 1 << k)


def root(a, k):
    """The whole number nearest to the k-th root of a: the least q with q + 1/2 above the root."""
    low, high = 0, 1 << (a.bit_length() // k + 1)
    while low < high:
        q = (low + high) // 2
        if (2 * q + 1) ** k > 2**k * a:
            high = q
        else:
            low = q + 1
    return low


def number(word):
    """A decimal text in units, rounded once."""
    f = Fraction(word) * UNIT
    return rdiv(f.numerator, f.denominator)


def fixed(v):
    """A number of units with eight decimals, `-` exactly where it is negative."""
    q = abs(rsh(v * 10**8, 24))
    return ("-" if v < 0 else "") + "%d.%08d" % divmod(q, 10**8)


def spacing(style, density):
    """How long a cell is along each axis."""
    atoms = len(BASES[style])
    if style == "hex":
        a = root(rdiv(2 << 96, root(3 << 48, 2) * density), 2)
        return [a, root(3 * a * a, 2), a]
    if style in ("sq", "sq2"):
        return [root(rdiv(atoms << 72, density), 2)] * 3
    return [root(rdiv(atoms << 96, density), 3)] * 3


def words_of(seed, stream, count):
    """The first words of the generator PCG32 (XSH RR 64/32)."""
    whole, half = (1 << 64) - 1, (1 << 32) - 1
    step = 2 * stream + 1
    state, words = seed + step, []
    for _ in range(count):
        state = (state * 6364136223846793005 + step) & whole
        word, turn = ((state ^ (state >> 18)) >> 27) & half, state >> 59
        words.append((word >> turn | word << (32 - turn)) & half)
    return words


class Fault(Exception):
    pass


class Atom:
    def __init__(self, ident, x):
        self.id, self.x, self.v, self.f, self.image = ident, x, [0, 0, 0], [0, 0, 0], [0, 0, 0]


class Run:
    """A run of a script, or, without one, of what is set by hand: the box, the atoms, the coefficients."""

    def __init__(self, script=None):
        self.dim, self.periodic, self.skin, self.dt, self.every, self.moving = 3, [True] * 3, 5033165, 83886, 0, False
        self.step, self.builds, self.spacing = 0, 0, [UNIT] * 3
        if script is not None:
            self.read_script(script)

    def read_script(self, name):
        regions = {}
        for line in open(name):
            words = line.split("#")[0].split() or [""]
            if words[0] == "dimension":
                self.dim = int(words[1])
            elif words[0] == "boundary":
                self.periodic = [w in ("p", "pp") for w in words[1:]]
            elif words[0] == "lattice":
                self.style, self.spacing = words[1], spacing(words[1], number(words[2]))
            elif words[0] == "region":
                regions[words[1]] = self.block(words[3:9], "box" not in words[9:])
            elif words[0] == "create_box":
                self.lo, self.hi = regions[words[2]]
                self.atoms = []
            elif words[0] == "create_atoms":
                self.fill()
            elif words[0] == "read_data":
                self.read_data(words[1])
            elif words[0] == "mass":
                self.mass = number(words[2])
            elif words[0] == "velocity":
                options = dict(zip(words[5::2], words[6::2]))
                self.create_velocities(number(words[3]), int(words[4]), options.get("mom") != "no")
            elif words[0] == "pair_style":
                self.cut = number(words[2])
            elif words[0] == "pair_coeff":
                self.eps, self.sigma = number(words[3]), number(words[4])
            elif words[0] == "neighbor":
                self.skin = number(words[1])
            elif words[0] == "timestep":
                self.dt = number(words[1])
            elif words[0] == "thermo":
                self.every = int(words[1])
            elif words[0] == "fix":
                self.moving = True
            elif words[0] == "run":
                self.last = int(words[1])

    def read_data(self, name):
        self.atoms, self.lo, self.hi, section, by_id = [], [], [], "", {}
        for line in list(open(name))[1:]:
            words = line.split()
            if not words:
                continue
            if len(words) == 4 and words[2].endswith("lo"):
                self.lo.append(number(words[0]))
                self.hi.append(number(words[1]))
            elif words[0] in ("Masses", "Atoms", "Velocities"):
                section = words[0]
            elif section == "Masses":
                self.mass = number(words[1])
            elif section == "Atoms":
                by_id[int(words[0])] = Atom(int(words[0]), [number(w) for w in words[2:5]])
            elif section == "Velocities":
                by_id[int(words[0])].v = [number(w) for w in words[1:4]]
        self.atoms = [by_id[i] for i in sorted(by_id)]

    def block(self, words, scaled):
        """The lower and the upper bounds of a block."""
        sides = [number(w) for w in words]
        if scaled:
            sides = [rsh(v * self.spacing[k // 2], 24) for k, v in enumerate(sides)]
        return sides[0::2], sides[1::2]

    def fill(self):
        """An atom at each lattice point in the box, in order of z cell, y cell, x cell, place in the cell."""
        cells = [range(lo // s - 1, hi // s + 2) for lo, hi, s in zip(self.lo, self.hi, self.spacing)]
        if self.dim == 2:
            cells[2] = [0]
        for k, j, i in product(cells[2], cells[1], cells[0]):
            for quarters in BASES[self.style]:
                x = [rdiv((4 * c + q) * s, 4) for c, q, s in zip((i, j, k), quarters, self.spacing)]
                if all(lo <= v < hi for v, lo, hi in zip(x, self.lo, self.hi)):
                    self.atoms.append(Atom(len(self.atoms) + 1, x))

    def kinetic(self):
        """The sum of mass times squared velocity, and how many degrees of freedom there are."""
        return sum(self.mass * sum(v * v for v in a.v) for a in self.atoms), self.dim * len(self.atoms) - self.dim

    def create_velocities(self, temperature, seed, still):
        for a in self.atoms:
            a.v = [rdiv((word // 128 - UNIT) << 12, root(self.mass, 2)) for word in words_of(seed, a.id, 3)]
            if self.dim == 2:
                a.v[2] = 0
        if still and self.atoms:
            whole = self.mass * len(self.atoms)
            mean = [rdiv(sum(self.mass * a.v[axis] for a in self.atoms), whole) for axis in range(3)]
            for a in self.atoms:
                a.v = [v - m for v, m in zip(a.v, mean)]
        s, free = self.kinetic()
        for a in self.atoms:
            if free < 1:
                a.v = [0, 0, 0]
            elif rsh(s, 48) != 0:
                factor = root(rdiv(temperature * free << 48, rsh(s, 48)), 2)
                a.v = [rsh(v * factor, 24) for v in a.v]

    def wraps(self, axis):
        return self.periodic[axis] and (axis < 2 or self.dim == 3)

    def near(self, a, b):
        d = []
        for axis in range(3):
            x, edge = a[axis] - b[axis], self.hi[axis] - self.lo[axis]
            if self.wraps(axis):
                if 2 * x > edge:
                    x -= edge
                elif 2 * x < -edge:
                    x += edge
            d.append(x)
        return d

    def pairs_within(self, reach, sites):
        """Each pair of sites strictly nearer than a reach: their places, the displacement and its square.

        The sites are put into cells that are at least as long as the reach, so those of such a pair are in one cell or
        in two that touch, also over a side of the box; all others are left out unseen.
        """
        edges = [hi - lo for lo, hi in zip(self.lo, self.hi)]
        counts = [max(1, edge // reach) for edge in edges]
        cells = {}
        for i, x in enumerate(sites):
            cell = tuple((x[k] - self.lo[k]) * counts[k] // edges[k] % counts[k] for k in range(3))
            cells.setdefault(cell, []).append(i)
        for cell, here in cells.items():
            beside = [{(c + shift) % n for shift in (-1, 0, 1)} for c, n in zip(cell, counts)]
            there = [j for other in product(*beside) for j in cells.get(other, [])]
            for i in here:
                for j in there:
                    if i < j:
                        d = self.near(sites[i], sites[j])
                        r2 = d[0] * d[0] + d[1] * d[1] + d[2] * d[2]
                        if r2 < reach * reach:
                            yield i, j, d, r2

    def forces(self):
        for a in self.atoms:
            a.f = [0, 0, 0]
        pair, virial, faults = 0, 0, []
        for i, j, d, r2 in self.pairs_within(self.cut, [a.x for a in self.atoms]):
            a, b = self.atoms[i], self.atoms[j]
            if r2 == 0:
                faults.append((a.id, b.id))
                continue
            w = rdiv(self.sigma * self.sigma << 32, r2)
            s6 = rsh(w**3, 64)
            s12 = rsh(s6 * s6, 32)
            c = rdiv(24 * self.eps * (2 * s12 - s6) << 24, r2)
            f = [rsh(c * x, 32) for x in d]
            if w > 1 << 36 or max(abs(x) for x in f) > 1 << 42:
                faults.append((a.id, b.id))
                continue
            pair += rsh(4 * self.eps * (s12 - s6), 32)
            virial += sum(x * y for x, y in zip(d, f))
            for axis in range(3):
                a.f[axis] += f[axis]
                b.f[axis] -= f[axis]
        if faults:
            raise Fault("Close %d %d in forces" % min(faults))
        strong = [a.id for a in self.atoms if max(abs(x) for x in a.f) > 1 << 44]
        if strong:
            raise Fault("Force %d 0 in forces" % min(strong))
        self.pair, self.virial = pair, virial

    def kick(self, a):
        a.v = [v + rdiv(self.dt * f, 2 * self.mass) for v, f in zip(a.v, a.f)]
        return max(abs(v) for v in a.v) > 1 << 32

    def drift(self):
        faults = []
        for a in self.atoms:
            if self.kick(a):
                faults.append((5, a.id, "Speed"))
                continue
            lost = False
            for axis in range(3):
                x, lo, hi = a.x[axis] + rsh(self.dt * a.v[axis], 24), self.lo[axis], self.hi[axis]
                edges = (x - lo) // (hi - lo)
                if not self.wraps(axis) and edges != 0:
                    lost = True
                a.x[axis] = x - edges * (hi - lo)
                a.image[axis] += edges
            if lost:
                faults.append((6, a.id, "Lost"))
            elif max(abs(n) for n in a.image) > 1 << 40:
                faults.append((7, a.id, "Image"))
        if faults:
            raise Fault("%s %d 0 in drift" % (min(faults)[2], min(faults)[1]))

    def set_up(self):
        self.references = [list(a.x) for a in self.atoms]
        self.forces()

    def one_step(self):
        self.step += 1
        if self.moving:
            self.drift()
        moved = [self.near(a.x, r) for a, r in zip(self.atoms, self.references)]
        if any(4 * sum(x * x for x in d) > self.skin**2 for d in moved):
            self.references = [list(a.x) for a in self.atoms]
            self.builds += 1
        self.forces()
        if self.moving:
            fast = [a.id for a in self.atoms if self.kick(a)]
            if fast:
                raise Fault("Speed %d 0 in kick" % min(fast))

    def neighbours(self):
        return sum(1 for _ in self.pairs_within(self.cut + self.skin, self.references))

    def line(self):
        n = len(self.atoms)
        s, free = self.kinetic()
        temp = rdiv(s, free << 48) if free > 0 else 0
        pair = rdiv(self.pair, n) if n else 0
        kinetic = rdiv(s, n << 49) if n else 0
        edges = [hi - lo for lo, hi in zip(self.lo, self.hi)]
        volume = rsh(edges[0] * edges[1] * edges[2], 48) if self.dim == 3 else rsh(edges[0] * edges[1], 24)
        press = rdiv((rsh(s, 48) + rsh(self.virial, 24)) << 24, self.dim * volume)
        cells = [temp, pair, 0, pair + kinetic, press]
        print("%10d" % self.step + "".join(" %20s" % fixed(c) for c in cells))

    def whole(self, script):
        reach = 2 * (self.cut + self.skin)
        if any(self.wraps(axis) and self.hi[axis] - self.lo[axis] < reach for axis in range(3)):
            print("ERROR: EdgeTooSmall at %s:%d" % (script, sum(1 for _ in open(script))))
            return
        try:
            self.set_up()
            print("%10s" % "Step" + "".join(" %20s" % c for c in ["Temp", "E_pair", "E_mol", "TotEng", "Press"]))
            self.line()
            while self.step < self.last:
                self.one_step()
                if self.step == self.last or self.every and self.step % self.every == 0:
                    self.line()
            print("Neighbor pairs %d builds %d" % (self.neighbours(), self.builds))
        except Fault as fault:
            print("ERROR: %s at step %d" % (fault, self.step))


if __name__ == "__main__":
    Run(sys.argv[1]).whole(sys.argv[1])
