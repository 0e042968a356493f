#!/usr/bin/env python3
"""Draws huffman.svg beside this file: the tree that merging makes of a few weights, each node with its index and
weight, each edge with its bit, and the codewords below the leaves. The numbers are those of docs/HUFFMAN.md, computed
here by merging."""

import heapq
import os

WEIGHTS = [2, 2, 4, 1, 1]
LEAF, UNION, EDGE = "#cfe3f7", "#fbe3b5", "#555"
MARGIN, COLUMN, ROW, RADIUS = 60, 120, 88, 30


def merged(weights):
    """The weight of each node, and the two parts of each union."""
    heap, weight, parts = [(w, index) for index, w in enumerate(weights)], dict(enumerate(weights)), {}
    heapq.heapify(heap)
    while len(heap) > 1:
        (less, first), (more, second) = heapq.heappop(heap), heapq.heappop(heap)
        union = len(weight)
        weight[union], parts[union] = less + more, (first, second)
        heapq.heappush(heap, (less + more, union))
    return weight, parts


def leaves(parts, node, codeword=""):
    """The leaves below a node from left to right, each with its codeword."""
    if node not in parts:
        return [(node, codeword)]
    first, second = parts[node]
    return leaves(parts, first, codeword + "0") + leaves(parts, second, codeword + "1")


def placed(parts, node, columns, depth=0):
    """Where each node below a node stands: a leaf in its column, a union between its two parts."""
    if node not in parts:
        return {node: (columns[node], depth)}
    first, second = parts[node]
    places = placed(parts, first, columns, depth + 1) | placed(parts, second, columns, depth + 1)
    places[node] = ((places[first][0] + places[second][0]) / 2, depth)
    return places


def text(x, y, words, size=13, weight="normal"):
    return f'<text x="{x:g}" y="{y:g}" font-size="{size}" text-anchor="middle" font-weight="{weight}">{words}</text>'


def at(place):
    column, depth = place
    return MARGIN + COLUMN * column, 44 + ROW * depth


def edge(above, below, bit):
    (x, y), (to_x, to_y) = at(above), at(below)
    side = -12 if to_x < x else 12
    line = f'<path d="M{x:g} {y:g} L{to_x:g} {to_y:g}" stroke="{EDGE}" fill="none"/>'
    return [line, text((x + to_x) / 2 + side, (y + to_y) / 2 - 2, bit, 14, "bold")]


def circle(place, index, weight, colour):
    x, y = at(place)
    drawn = [f'<circle cx="{x:g}" cy="{y:g}" r="{RADIUS}" fill="{colour}" stroke="{EDGE}"/>']
    return drawn + [text(x, y - 1, index, 14, "bold"), text(x, y + 14, f"weight {weight}", 10)]


def main():
    """Writes the picture."""
    weight, parts = merged(WEIGHTS)
    root = len(weight) - 1
    codewords = leaves(parts, root)
    places = placed(parts, root, {node: column for column, (node, _) in enumerate(codewords)})
    drawn = []
    for union, (first, second) in parts.items():
        drawn += edge(places[union], places[first], 0) + edge(places[union], places[second], 1)
    for node, place in places.items():
        drawn += circle(place, node, weight[node], UNION if node in parts else LEAF)
    for node, codeword in codewords:
        x, y = at(places[node])
        drawn.append(text(x, y + RADIUS + 18, codeword, 14))
    width = 2 * MARGIN + COLUMN * (len(codewords) - 1)
    height = 44 + ROW * max(depth for _, depth in places.values()) + RADIUS + 34
    with open(f"{os.path.dirname(os.path.abspath(__file__))}/huffman.svg", "w", encoding="utf-8") as out:
        out.write(f'<svg xmlns="http://www.w3.org/2000/svg" viewBox="0 0 {width} {height}" font-family="sans-serif">\n')
        out.write(f'<rect width="{width}" height="{height}" fill="#fff"/>\n' + "\n".join(drawn) + "\n</svg>\n")


if __name__ == "__main__":
    main()
