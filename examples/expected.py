"""Prints examples/expected.txt: the integrals of water in STO-3G, by the method of McMurchie and Davidson
(Hermite Gaussians; J. Comput. Phys. 26, 218, 1978) in decimal numbers of 45 digits, or of as many as the argument says.
Nothing of the library is used. Standard library only; it takes some seconds.

    python3 examples/expected.py [DIGITS] > examples/expected.txt
"""
import sys
from decimal import Decimal as D, getcontext
from functools import lru_cache
from itertools import combinations_with_replacement, product

if len(sys.argv) > 2 or not all(word.isdigit() and int(word) > 0 for word in sys.argv[1:]):
    sys.exit("usage: python3 examples/expected.py [DIGITS] > examples/expected.txt")
getcontext().prec = int(sys.argv[1]) if len(sys.argv) > 1 else 45
PI = D("3.1415926535897932384626433832795028841971693993751058209749445923078164062862")

# charge, then the place in bohr
ATOMS = [(8, "0.2", "-0.1", "0.3"), (1, "1.6", "1.0", "0.6"), (1, "-1.2", "1.0", "-0.1")]
ATOMS = [(charge, [D(x) for x in place]) for charge, *place in ATOMS]

O1, O2, H1 = "130.7093200 23.8088610 6.4436083", "5.0331513 1.1695961 0.3803890", "3.42525091 0.62391373 0.16885540"
S1, S2 = "0.15432897 0.53532814 0.44463454", "-0.09996723 0.39951283 0.70011547"
P2 = "0.15591627 0.60768372 0.39195739"

# atom, orders x y z, exponents, coefficients of normalised primitives
BASIS = [
    (0, (0, 0, 0), O1, S1),
    (0, (0, 0, 0), O2, S2),
    (0, (1, 0, 0), O2, P2),
    (0, (0, 1, 0), O2, P2),
    (0, (0, 0, 1), O2, P2),
    (1, (0, 0, 0), H1, S1),
    (2, (0, 0, 0), H1, S1),
]


def primitives(function):
    """(factor, exponent) of each primitive: factor is coefficient times norm, for s and p."""
    _, orders, exponents, coefficients = BASIS[function]
    for exponent, coefficient in zip(exponents.split(), coefficients.split()):
        exponent = D(exponent)
        norm = (2 * exponent / PI).sqrt() * (2 * exponent / PI).sqrt().sqrt()
        yield D(coefficient) * norm * (2 * exponent.sqrt() if sum(orders) else 1), exponent


def place(function):
    return ATOMS[BASIS[function][0]][1]


def hermite(i, j, t, a, b, ab):
    """E(t; i, j): the part of the t-th Hermite Gaussian in a product of Gaussians of orders i and j, ab = A - B."""
    p = a + b
    if t < 0 or t > i + j:
        return D(0)
    if i == j == 0:
        return (-a * b / p * ab * ab).exp()
    if i:
        return (hermite(i - 1, j, t - 1, a, b, ab) / (2 * p) - b / p * ab * hermite(i - 1, j, t, a, b, ab)
                + (t + 1) * hermite(i - 1, j, t + 1, a, b, ab))
    return (hermite(i, j - 1, t - 1, a, b, ab) / (2 * p) + a / p * ab * hermite(i, j - 1, t, a, b, ab)
            + (t + 1) * hermite(i, j - 1, t + 1, a, b, ab))


def overlap_along(i, j, a, b, ab):
    return hermite(i, j, 0, a, b, ab) * (PI / (a + b)).sqrt()


def kinetic_along(i, j, a, b, ab):
    """-1/2 of the second derivative of the function on B."""
    value = b * (2 * j + 1) * overlap_along(i, j, a, b, ab) - 2 * b * b * overlap_along(i, j + 2, a, b, ab)
    return value - (D(j * (j - 1)) / 2 * overlap_along(i, j - 2, a, b, ab) if j > 1 else 0)


@lru_cache(None)
def boys(most, t):
    """F(0) to F(most) at t: the series of the highest, then downward."""
    term = total = 1 / D(2 * most + 1)
    i = 0
    while term > total * D(10) ** -getcontext().prec:
        i += 1
        term *= 2 * t / (2 * most + 2 * i + 1)
        total += term
    small = (-t).exp()
    values = [small * total]
    for m in range(most - 1, -1, -1):
        values.insert(0, (2 * t * values[0] + small) / (2 * m + 1))
    return values


def repulsion(most, p, r):
    """R(t, u, v) for t + u + v up to most: the derivatives of F(0) of p r.r along r."""
    f = boys(most, p * sum(x * x for x in r))
    known = {(0, 0, 0, m): (-2 * p) ** m * f[m] for m in range(most + 1)}
    for total in range(1, most + 1):
        for t, u in product(range(total + 1), repeat=2):
            v = total - t - u
            if v < 0:
                continue
            for m in range(most + 1 - total):
                index = [t, u, v]
                axis = next(x for x in range(3) if index[x])
                index[axis] -= 1
                value = r[axis] * known[(*index, m + 1)]
                if index[axis]:
                    factor = index[axis]
                    index[axis] -= 1
                    value += factor * known[(*index, m + 1)]
                known[t, u, v, m] = value
    return known


@lru_cache(None)
def pairs(f, g):
    """Each pair of primitives of two functions: factor, both exponents, and the three differences along the axes."""
    apart = [x - y for x, y in zip(place(f), place(g))]
    return [(c * k, a, b, apart) for c, a in primitives(f) for k, b in primitives(g)]


@lru_cache(None)
def charges(f, g):
    """The product of two functions as Hermite Gaussians: (exponent, centre, {(t, u, v): factor})."""
    found = []
    for factor, a, b, apart in pairs(f, g):
        along = [[hermite(i, j, t, a, b, x) for t in range(i + j + 1)]
                 for i, j, x in zip(BASIS[f][1], BASIS[g][1], apart)]
        parts = {(t, u, v): factor * x * y * z for t, x in enumerate(along[0]) for u, y in enumerate(along[1])
                 for v, z in enumerate(along[2])}
        found.append((a + b, [(a * x + b * y) / (a + b) for x, y in zip(place(f), place(g))], parts))
    return found


def one_electron(f, g, kinetic):
    total = D(0)
    for factor, a, b, apart in pairs(f, g):
        each = [(i, j, a, b, x) for i, j, x in zip(BASIS[f][1], BASIS[g][1], apart)]
        for moved in range(3) if kinetic else [None]:
            value = factor
            for axis in range(3):
                value *= (kinetic_along if axis == moved else overlap_along)(*each[axis])
            total += value
    return total


def nuclear(f, g):
    total = D(0)
    for p, centre, parts in charges(f, g):
        for charge, atom in ATOMS:
            r = repulsion(max(map(sum, parts)), p, [x - y for x, y in zip(centre, atom)])
            total -= charge * 2 * PI / p * sum(factor * r[(*tuv, 0)] for tuv, factor in parts.items())
    return total


def coulomb(f, g, h, i):
    total = D(0)
    for p, one, left in charges(f, g):
        for q, other, right in charges(h, i):
            most = max(map(sum, left)) + max(map(sum, right))
            r = repulsion(most, p * q / (p + q), [x - y for x, y in zip(one, other)])
            value = sum(e * k * (-1) ** sum(tuv) * r[tuple(map(sum, zip(uvw, tuv))) + (0,)]
                        for uvw, e in left.items() for tuv, k in right.items())
            total += 2 * (PI ** 2) * PI.sqrt() / (p * q * (p + q).sqrt()) * value
    return total


def show(kind, functions, value):
    row = [kind, *functions, *[0] * (4 - len(functions)), f"{value:.24e}" if abs(value) > D("1e-30") else 0]
    print(*row, sep=", ", end=",\n")


print("// The integrals of water in STO-3G, coefficients as published: kind, two or four functions, value.")
print(f"// Made by expected.py with {getcontext().prec} decimal digits: McMurchie and Davidson's method, nothing of the library.")
two = list(combinations_with_replacement(range(len(BASIS)), 2))
for pair in two:
    show(0, pair, one_electron(*pair, kinetic=False))
for pair in two:
    show(1, pair, one_electron(*pair, kinetic=True))
for pair in two:
    show(2, pair, nuclear(*pair))
for left, right in combinations_with_replacement(two, 2):
    show(4, left + right, coulomb(*left, *right))
