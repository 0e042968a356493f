"""docs/MODELS.md and other pages with models: tables, weights, and parameters in units, by the definitions."""

from __future__ import annotations

import random
import re
from decimal import Decimal
from fractions import Fraction

import definitions_of_models as models
import distributions
from judging import Page, judge, read, series

LEAST, GREATEST, PRECISION = -2, 2, 8
# The worked example of the page: a family, its parameters, the range, the bits and a symbol.
WORKED = "Logistic", -1133972, 701962, -66, 189, 24, -41


def table(page):
    """Finds the normal distribution of mean 0.5 and deviation 1 over five symbols, at 8 bits."""
    location, scale, count = models.location_of(0.5), models.scale_of(1.0), GREATEST - LEAST + 1
    starts = models.starts(models.GAUSSIAN, location, scale, LEAST, count, PRECISION)
    page.has(
        f"This table has the symbols {LEAST} to {GREATEST}, {PRECISION} bits, and the normal distribution of mean 0.5 and"
    )
    for k in range(count + 1):
        place = (LEAST + k) * models.UNIT - models.UNIT // 2
        below = 0 if k == 0 else models.ALL if k == count else models.below(models.GAUSSIAN, location, scale, place)
        shared = (2**PRECISION - count) * below // models.ALL
        judge(starts[k] == shared + k, f"{page.name}: symbol {k} begins at {starts[k]}")
        half = f"{LEAST + k - 0.5}" if 0 < k < count else ""
        weight = starts[k + 1] - starts[k] if k < count else ""
        page.row("end" if k == count else LEAST + k, half, below, shared, starts[k], weight)


def as_the_page_says():
    """Returns the definitions of the page's program, and the tables of its families, each with its width."""
    said = {}
    exec(re.search(r"^```python\n(.*?)^```$", read("docs/MODELS.md"), flags=re.M | re.S)[1], said)
    return said, {name: (said["values"](*it), it[1]) for name, it in said["FAMILIES"].items()}


def definition(page):
    """Compares the tables and the starts of the page's program with those of the definitions."""
    said, tables = as_the_page_says()
    judge([*map(str.lower, tables)] == [*models.FAMILIES], f"{page.name}: the families")
    dice = random.Random(1)
    for name, (table, width) in tables.items():
        family = name.lower()
        judge(table == models.values(family), f"{page.name}: the values of {name}")
        reach, steps = distributions.REACH[family], distributions.STEPS[family]
        judge(width == 2 * reach, f"{page.name}: the width of {name}")
        page.has(f"| `{name}` | -{reach}, {reach} | {steps} |")
        for _ in range(300):
            n, bits = dice.choice((2, 9, 101, 256, 1000)), dice.choice((12, 24))
            least, k = dice.randrange(-(2**31), 2**31 - n) >> dice.randrange(32), dice.randrange(1, n)
            scale = 1 + (dice.randrange(2**32 - 1) >> dice.randrange(32))
            location = (least + k) * models.UNIT + dice.randrange(-9 * scale, 9 * scale)
            found = said["start"](table, width, location, scale, least, n, bits, k)
            wanted = models.starts(family, location, scale, least, n, bits)[k]
            judge(found == wanted, f"{page.name}: {name}, {location}, {scale}, {least}, {n}, {bits}, {k}: {found}")
    far = 2**31 * models.UNIT + 2**63 + 32 * (2**32 - 1)
    page.has(f"`far` can need {far.bit_length() + 1} bits")


def worked(page):
    """Finds the row of the worked start, and the value of exact straight lines."""
    name, location, scale, least, greatest, bits, symbol = WORKED
    table, width, n = models.values(name.lower()), 2 * distributions.REACH[name.lower()], greatest - least + 1
    place, rate = symbol * models.UNIT - models.UNIT // 2, 2**63 // width // scale
    far = place - location + width * scale // 2
    step, part = divmod(far * rate // 2**36, models.UNIT)
    below = models.below(name.lower(), location, scale, place)
    start = models.starts(name.lower(), location, scale, least, n, bits)[symbol - least]
    over = f"over the symbols {least} to {greatest} at {bits} bits"
    page.has(f"The {name.lower()} distribution of location {location} and scale {scale}, {over}")
    entries = f"{table[step]}, {table[step + 1]}"
    page.row(symbol, place, far, rate, f"{step}, {part}", entries, below, start)
    steps = Fraction(2048 * far, width * scale)
    exact = table[step] + (table[step + 1] - table[step]) * (steps - step)
    page.has(f"would begin at {(2**bits - n) * exact // 2**32 + symbol - least}.")


def margin(page):
    """Checks how far the values are from the points where their rounding changes."""
    apart = []
    for family, formula in distributions.FORMULAS.items():
        for k in range(2049):
            exact = formula(Decimal(k) / distributions.STEPS[family] - distributions.REACH[family]) * models.ALL
            apart.append(abs(exact % 1 - Decimal("0.5")))
    digits = f"{int(min(apart) * 10000) / 10000:.4f}"
    page.has(f"none lies within {digits} of a half, where `round` changes its result")


def mixtures(page):
    """Finds a mixture of that distribution (weight 3) and one of mean -1 and deviation 0.5 (weight 1)."""
    parts = [(3, models.location_of(0.5), models.scale_of(1.0)), (1, models.location_of(-1.0), models.scale_of(0.5))]
    place, count = -models.UNIT // 2, GREATEST - LEAST + 1
    first, other = (models.below(models.GAUSSIAN, location, scale, place) for _, location, scale in parts)
    below = models.mixed(models.GAUSSIAN, parts, place)
    shared = (2**PRECISION - count) * below // models.ALL
    page.has(f"The value at -0.5 is `floor((3 * {first} + {other}) / 4) = {below}`.")
    page.has(f"So `floor({2**PRECISION - count} * F / 2^32)` is {shared}, and symbol 0 begins at {shared - LEAST}.")


def histograms(page):
    """Finds the shares and weights of counts."""
    shares = [f"{16 * count / 6:.2f}".removesuffix(".00") for count in (1, 2, 3)]
    weights = models.weights([1, 2, 3], 4)
    page.has(
        f"The counts 1, 2 and 3 at 4 bits have the shares {shares[0]}, {shares[1]} and {shares[2]}, and the weights "
        f"{weights[0]}, {weights[1]} and {weights[2]}"
    )


def rows_of_counts(page):
    """Compares the page's starts of a row of counts, and its comparison, with the definition."""
    said = {}
    exec(re.findall(r"^```python\n(.*?)^```$", read("docs/MODELS.md"), flags=re.M | re.S)[1], said)
    starts = models.starts_of_counts([3, 1, 0, 4], 8)
    page.has(
        f"The counts 3, 1, 0 and 4 at 8 bits begin at {series(starts[:-1])}: a count of 0 has the weight {starts[3] - starts[2]}."
    )
    dice = random.Random(2)
    for _ in range(200):
        n, bits = dice.choice((1, 2, 9, 101, 256)), dice.choice((12, 24))
        counts = [dice.randrange(2**32) >> dice.randrange(33) for _ in range(n)]
        counts[dice.randrange(n)] |= 1
        starts = models.starts_of_counts(counts, bits)
        judge([said["start"](counts, bits, k) for k in range(n + 1)] == starts, f"{page.name}: counts {counts}, {bits}")
        k, quantile, total = dice.randrange(n), dice.randrange(2**bits), sum(counts)
        below = sum(counts[:k]) * (2**bits - n) + k * total < (quantile + 1) * total
        judge(below == (starts[k] <= quantile), f"{page.name}: counts {counts}, {bits}, {k}, {quantile}")


def units(page, *texts):
    """Finds means of 3.5 and -20 and deviations of 2.25 and 0.5 in the units of C."""
    means, deviations = (series(map(models.location_of, it)) for it in ((3.5, -20.0), (2.25, 0.5)))
    for text in texts:
        page.has(text.format(means=means, deviations=deviations))


def test():
    """Judges the pages."""
    page = Page("docs/MODELS.md")
    table(page)
    definition(page)
    worked(page)
    margin(page)
    mixtures(page)
    histograms(page)
    rows_of_counts(page)
    arrays = "{{{means}}};", "{{{deviations}}};"
    pairs = ((7, 3.5, 2.25), (-20, -20.0, 0.5))
    listed = (f"({symbol}, {models.location_of(mean)}, {models.scale_of(std)})" for symbol, mean, std in pairs)
    page.has(f"[{', '.join(listed)}]")
    units(
        Page("docs/C_AND_PYTHON.md"),
        "means[] = " + arrays[0],
        "deviations[] = " + arrays[1],
        f"symbols[] = {{{{{7 + 100}, {-20 + 100}}}}};",
    )
    units(Page("docs/EXAMPLES.md"), "means[] = " + arrays[0], "stds[] = " + arrays[1])
    third = models.weights_of([1.0, 1.0, 1.0])
    quick = models.quick_weights([1.0, 1.0, 1.0])
    readme = Page("python/README.md")
    readme.has(f"get the weights {third[0]}, {third[1]} and {third[2]}.")
    readme.has(f"Three equal probabilities get the weights {quick[0]}, {quick[1]} and {quick[2]}.")
