"""docs/HUFFMAN.md: the tree of merged weights."""

from __future__ import annotations

import heapq
from fractions import Fraction
from math import log2

import definitions as by
from judging import Page, bits_of_information, judge, series

WEIGHTS = [2, 2, 4, 1, 1]


def merged(weights):
    """Returns the steps: the trees that are left, the two merged trees, and the union with its weight."""
    trees, steps = [(weight, index) for index, weight in enumerate(weights)], []
    heapq.heapify(trees)
    for union in range(len(weights), 2 * len(weights) - 1):
        left = sorted(trees, key=lambda tree: tree[1])
        (less, first), (more, second) = heapq.heappop(trees), heapq.heappop(trees)
        steps.append((left, first, second, union, less + more))
        heapq.heappush(trees, (less + more, union))
    return steps


def ways_of(weights):
    """Returns the bits from the root to each node."""
    ways = {2 * len(weights) - 2: ""}
    for _, first, second, union, _ in reversed(merged(weights)):
        ways |= {first: ways[union] + "0", second: ways[union] + "1"}
    return ways


def least_cost(weights, room=Fraction(1)):
    """Returns the least sum of weight times length over all lengths that meet Kraft's inequality."""
    if not weights:
        return 0
    costs = []
    for length in range(1, len(WEIGHTS)):
        if room >= Fraction(1, 2**length):
            rest = least_cost(weights[1:], room - Fraction(1, 2**length))
            costs += [] if rest is None else [weights[0] * length + rest]
    return min(costs, default=None)


def codewords(page, ways):
    """Finds the codewords, and their average length."""
    total, lengths = sum(WEIGHTS), [len(ways[symbol]) for symbol in range(len(WEIGHTS))]
    for symbol, weight in enumerate(WEIGHTS):
        page.row(symbol, weight, ways[symbol], bits_of_information(weight, log2(total)))
    costs = [weight * length for weight, length in zip(WEIGHTS, lengths)]
    judge(sum(costs) == least_cost(WEIGHTS), "no codewords take fewer bits")
    shown = " + ".join(f"{weight}*{length}" for weight, length in zip(WEIGHTS, lengths))
    content = sum(weight * log2(total / weight) for weight in WEIGHTS) / total
    page.has(f"takes `({shown}) / {total} = {sum(costs) / total:g}` bits.")
    page.has(f"The average information content is {content:.2f} bits")


def nodes(page, steps, ways):
    """Finds the nodes of both trees, and the paths of symbol 3."""
    parents = [0] * len(ways)
    for _, first, second, union, _ in steps:
        parents[first], parents[second] = 2 * union, 2 * union + 1
    page.row("Index", *range(len(parents)))
    page.row("Number", *parents)
    climb, node = [], parents[3]
    while node:
        climb.append(node)
        node = parents[node // 2]
    first, second, third = (f"{node} (bit {node % 2}, parent {node // 2})" for node in climb)
    bits = series(node % 2 for node in climb)
    climbed = f"From symbol 3's leaf to the root, the numbers are {first}, {second} and {third}."
    page.has(f"{climbed} The bits {bits} are the codeword from its last bit to its first")

    page.row("Union", *[union for _, _, _, union, _ in steps])
    page.row("Bit 0, bit 1", *[f"{first}, {second}" for _, first, second, _, _ in steps])
    down = [steps[-1][3]]
    for bit in ways[3]:
        down.append(steps[down[-1] - len(WEIGHTS)][1 + int(bit)])
    page.has(f"The decoder begins at the root, {down[0]}, and takes a bit")
    page.has(
        f"After the bits {series(ways[3])} it has gone from {down[0]} through {down[1]} and {down[2]} to {down[3]}"
    )
    judge(down[3] == 3 and ways[0] == "00" and ways[5] == "10", "where first bits lead")
    page.has("Here 00, 000 and 0011 lead to symbol 0, by their first 2 bits. The bits 10 lead to union 5")


def fibonacci(page):
    """Checks the lengths of the first two codewords for Fibonacci numbers as weights."""
    numbers = [1, 1]
    for count in range(3, 12):
        numbers.append(numbers[-1] + numbers[-2])
        ways = ways_of(numbers)
        judge(len(ways[0]) == len(ways[1]) == count - 1, f"{count} Fibonacci numbers")
    page.has(f"With the Fibonacci numbers {series(numbers[:6])}, .. as weights")


def least(page):
    """Finds the cost of codewords under other weights."""
    weights = [1, 1, 2, 3, 5]
    ways = ways_of(weights)
    tree = [ways[symbol] for symbol in range(len(weights))]
    golomb = [by.golomb_codeword(number) for number in range(len(weights))][::-1]
    others = {
        "about equal lengths": ["000", "001", "01", "10", "11"],
        "Exp-Golomb, shortest for the greatest weight": golomb,
        "tree that always joins the two greatest weights": ["1", "01", "001", "0001", "0000"],
    }
    page.has(f"for the weights {series(weights)}:")
    terms = " + ".join(f"{weight}*{len(codeword)}" for weight, codeword in zip(weights, tree))
    page.row(f"Huffman tree: {series(tree)}", f"{terms} = {cost(weights, tree)}")
    judge(cost(weights, tree) == least_cost(weights), "no codewords of these weights cost less")
    for name, codewords in others.items():
        judge(not any(a != b and b.startswith(a) for a in codewords for b in codewords), f"{name}: one begins another")
        page.row(f"{name}: {series(codewords)}", cost(weights, codewords))


def cost(weights, codewords):
    """Returns the sum of weight times length."""
    return sum(weight * len(codeword) for weight, codeword in zip(weights, codewords))


def test():
    """Judges the page."""
    page, steps, ways = Page("docs/HUFFMAN.md"), merged(WEIGHTS), ways_of(WEIGHTS)
    page.has(f"for the weights {series(WEIGHTS)}:")
    last, root = len(WEIGHTS) - 1, len(ways) - 1
    page.has(f"A tree of the symbols 0 to {last} as leaves and the unions {last + 1} to {root}")
    for count, (left, first, second, union, weight) in enumerate(steps, 1):
        page.row(count, series(f"{w} ({index})" for w, index in left), first, second, f"{weight} ({union})")
    codewords(page, ways)
    nodes(page, steps, ways)
    fibonacci(page)
    least(page)
    # Symbols, the greatest number of first bits in the table, and the points of a list.
    page.rest("0", "1", "2", "3", "4", "5", "9")
