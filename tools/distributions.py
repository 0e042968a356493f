"""The families of distributions: their formulas in decimals of 100 digits, their tables of whole numbers, and their texts.

The table of a family's standard distribution reaches from REACH scales below 0 to REACH scales above 0, in 2048 steps.
Entry k is 2^32 times the distribution function at -REACH + k / STEPS, rounded to the nearest integer. STEPS is the
number of steps in a scale. tools/families writes what the table FAMILIES says into sources, the C header and Python.
"""

import bisect
from decimal import ROUND_FLOOR, Decimal, getcontext
from typing import Callable, NamedTuple

getcontext().prec = 100
ALL = 2**32
# The least distance between an exact value and the place at which its rounding changes. So 100 digits suffice.
MARGIN = Decimal(10) ** -20


def arctan_of_inverse(n):
    """Returns the arc tangent of 1 / n."""
    total, term, k = Decimal(0), Decimal(1) / n, 1
    while abs(term) > Decimal(10) ** -110:
        total += term / k
        term /= -n * n
        k += 2
    return total


# By Machin's formula.
PI = 4 * (4 * arctan_of_inverse(5) - arctan_of_inverse(239))
ROOT_OF_2_PI = (2 * PI).sqrt()


def gaussian(x):
    """Returns the normal distribution function: 1/2 + density * sum of x^n / (1 * 3 * .. * n), for odd n."""
    if x < 0:
        return 1 - gaussian(-x)
    total, term, n = Decimal(0), x, 1
    while term > Decimal(10) ** -105:
        total += term
        n += 2
        term = term * x * x / n
    return Decimal("0.5") + total * (-x * x / 2).exp() / ROOT_OF_2_PI


def laplace(x):
    """Returns the Laplace distribution function."""
    return x.exp() / 2 if x < 0 else 1 - (-x).exp() / 2


def logistic(x):
    """Returns the logistic distribution function."""
    return 1 / (1 + (-x).exp())


class Family(NamedTuple):
    """A family of distributions: its formula, its names in the sources, and what pages say of it."""

    formula: Callable[[Decimal], Decimal]
    #: The standard distribution is cut at so many scales from 0: a divisor of 32.
    reach: int
    #: The type in Rattle. In Python, the class is `Quantized..`, and in C the functions have the name in lower case.
    type: str
    #: The standard distribution is `Standard..`, and specs/..antt has the rule of its table.
    standard: str
    #: Text before 'distribution', as the name of a person and as an adjective.
    kind: str
    adjective: str
    #: What the two parameters mean, in C, and the scale's name in Python.
    location: str
    scale: str
    parameter: str
    #: A sentence on the density or the distribution function, for Rattle and for Python.
    says: str
    says_in_python: str
    #: The definitions that the rule of the table uses: those of specs/Rules.antt, and others of the family's own file.
    rules: str
    definitions: str = ""


#: The families by their names in lower case, in the order of their numbers in C. A new one comes last. The first has
#: its own texts in the sources and in Python.
FAMILIES = {
    "gaussian": Family(
        gaussian, 8, "Gaussian", "Normal", "Gaussian", "normal", "mean", "standard deviation", "std", "", "", ""
    ),
    "laplace": Family(
        laplace,
        32,
        "Laplace",
        "Laplace",
        "Laplace",
        "Laplace",
        "mean",
        "distance from the mean at which the density has fallen by the factor 1/e",
        "scale",
        "The density at `x` is proportional to `exp(-|x - location| / scale)`.",
        "At the distance ``scale`` from ``mean``, the density has fallen by the factor ``1 / e``.",
        "powers mirrored rounded decay exponential",
    ),
    "logistic": Family(
        logistic,
        32,
        "Logistic",
        "Logistic",
        "logistic",
        "logistic",
        "mean",
        "`scale` in the distribution function 1 / (1 + exp(-(x - mean) / scale))",
        "scale",
        "The distribution function at `x` is `1 / (1 + exp(-(x - location) / scale))`.",
        "Its distribution function is ``1 / (1 + exp(-(x - mean) / scale))``.",
        "powers mirrored rounded decay exponential",
    ),
}
FORMULAS = {name: family.formula for name, family in FAMILIES.items()}
REACH = {name: family.reach for name, family in FAMILIES.items()}
STEPS = {name: 1024 // reach for name, reach in REACH.items()}


def entries(name):
    """Returns the table of a family, by its formula."""
    table = []
    for k in range(2049):
        exact = FORMULAS[name](Decimal(k) / STEPS[name] - REACH[name]) * ALL
        rounded = int((exact + Decimal("0.5")).to_integral_value(ROUND_FLOOR))
        assert abs(abs(exact - rounded) - Decimal("0.5")) > MARGIN, (name, k, "is too close to a half to round")
        table.append(rounded)
    return table


def rows(numbers, last):
    """Yields rows of eight numbers. A last row with one number ends with a remark."""
    for k in range(0, len(numbers), 8):
        row = numbers[k : k + 8]
        yield "    " + ", ".join(map(str, row)) + "," + (last if len(row) == 1 else "")


def guesses(table):
    """Returns estimates of the places where the table reaches each 1024th of all, in 65536ths of a step.

    A search begins at such an estimate. No result depends on it.
    """
    found = []
    for part in range(1025):
        value = min(max(part << 22, 1 << 16), ALL - (1 << 16))
        k = bisect.bisect_right(table, value) - 1
        step = table[k + 1] - table[k]
        found.append(k * 65536 + ((value - table[k]) * 65536 // step if step else 0))
    return found


FILE = """\
//! The tables of the distribution, written by `tools/distribution_tables {name}`.

/// The distribution function at 2049 evenly spaced places, in units of `2^-32`, rounded to the nearest integer.
#[rattlefmt::skip]
pub static VALUES: [u64; {values}] = [
{rows}
];

/// Estimates of where the distribution function reaches 0, 1/1024, 2/1024, .., 1.
///
/// Each number is the distance from the first place of the table `VALUES`, in 65536ths of the table's spacing. A
/// decoder begins its search at an estimate. No proof depends on these numbers.
#[rattlefmt::skip]
pub static GUESSES: [u32; {guesses}] = [
{rows_of_guesses}
];
"""


def file_of(name):
    """Returns the text of a family's file table.rt."""
    table = entries(name)
    places = guesses(table)
    texts = {"rows": "\n".join(rows(table, " // all")), "rows_of_guesses": "\n".join(rows(places, ""))}
    return FILE.format(name=name, values=len(table), guesses=len(places), **texts)
