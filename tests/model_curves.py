"""The eight sample curves, polynomials of degree 4."""
from exact import F, add, mul

COEFFICIENTS = [
    (1, -2, 1, 0, 0),
    (9, -6, 1, 0, 0),
    (0, -1, 0, 0, 0),
    (0, 0, 0, 0, 0),
    (0, -8, 0, 0, 1),
    (2, -3, 0, 1, 0),
    (5, -4, -2, 0, 1),
    (0, 1, -1, 0, 0),
]
NUMBERS = range(1, 9)


def curve(k, x):
    """Cost and slope of curve k at x, both from the highest power down."""
    c = COEFFICIENTS[k - 1]
    cost = mul(F(c[4]), x)
    for a in (c[3], c[2], c[1]):
        cost = mul(add(cost, F(a)), x)
    slope = mul(F(4 * c[4]), x)
    for a in (3 * c[3], 2 * c[2]):
        slope = mul(add(slope, F(a)), x)
    return add(cost, F(c[0])), add(slope, F(c[1]))
