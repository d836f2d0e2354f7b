#!/usr/bin/env python3
"""Draws the crates of crates.txt in layers.

    tools/layers.py [-o FILE.svg]       to standard output, or to a file; docs/layers.svg is written so

A crate stands one layer above the highest that it depends on. An arrow leads to each crate that it depends on and that none of the others
it depends on reaches already: crates.txt lists those too. The kit's libraries are left out. The colour is the group: in crates.txt a comment heads
each group, and its words up to the first colon or full stop stand in the legend. A thick frame marks a program, a double one an archive for C
(tools/products.txt).
"""

import argparse
import os
import re
import sys
from xml.sax.saxutils import escape

ROOT = os.path.join(os.path.dirname(os.path.abspath(__file__)), '..')
BOX_HEIGHT, LAYER, GAP, LETTER, MARGIN = 30, 74, 22, 8, 24
WAY = 12                # width kept free where an arrow passes a layer
SWEEPS = 24             # of ordering the rows
ROUNDS = 300            # of moving the boxes
COLOURS = ('#dddddd', '#cfe6f5', '#fbe3b5', '#cdebdf', '#f3d9e6', '#e3dcf7', '#fbd9c9', '#e9eec2', '#c9d3f0', '#ead7c3', '#d3ecec')


# ---------------------------------------------------------------- crates.txt

def read_crates(text):
    """The crates that each depends on, and its group; both in the order of the file."""
    needs, groups, group = {}, {}, ''
    for line in text.splitlines():
        if line.startswith('#'):
            group = re.split('[:.]', line[1:].strip())[0].replace('`', '')
        head, colon, rest = line.partition('#')[0].partition(':')
        if colon:
            name = head.split()[0]          # `staticlib` may stand behind it
            needs[name], groups[name] = rest.split(), group
    return {name: [other for other in rest if other in needs] for name, rest in needs.items()}, groups


def all_below(needs, name):
    found, waiting = set(), list(needs[name])
    while waiting:
        other = waiting.pop()
        if other not in found:
            found.add(other)
            waiting += needs[other]
    return found


def direct(needs):
    """The dependencies that no other dependency reaches."""
    below = {name: all_below(needs, name) for name in needs}
    return {name: [other for other in rest if not any(other in below[third] for third in rest)] for name, rest in needs.items()}


def heights(needs):
    """The layer of each crate, 0 at the bottom."""
    found = {}

    def height(name):
        if name not in found:
            found[name] = max((height(other) + 1 for other in needs[name]), default=0)
        return found[name]

    for name in needs:
        height(name)
    return found


# ---------------------------------------------------------------- places

class Picture:
    """Boxes in rows. An arrow that passes rows has a point in each of them, which takes its place among the boxes."""

    def __init__(self, needs):
        self.layer = heights(needs)
        self.rows = [[] for _ in range(max(self.layer.values()) + 1)]
        for name in needs:
            self.rows[self.layer[name]].append(name)
        self.ways = []                              # from each crate down to one that it depends on
        self.up, self.down = {name: [] for name in needs}, {name: [] for name in needs}
        for name, rest in needs.items():
            for other in rest:
                way = [name]
                for row in range(self.layer[name] - 1, self.layer[other], -1):
                    point = '%s>%s>%d' % (name, other, row)
                    self.rows[row].append(point)
                    self.up[point], self.down[point] = [], []
                    way.append(point)
                way.append(other)
                self.ways.append(way)
                for high, low in zip(way, way[1:]):
                    self.down[high].append(low)
                    self.up[low].append(high)
        self.order()
        self.place()

    @staticmethod
    def width(node):
        return WAY if '>' in node else LETTER * len(node) + 24

    def crossings(self):
        total = 0
        for row in self.rows[1:]:
            lower = {node: at for at, node in enumerate(self.rows[self.rows.index(row) - 1])}
            ends = [lower[low] for node in row for low in sorted(self.down[node], key=lower.get)]
            total += sum(1 for at, end in enumerate(ends) for other in ends[at + 1:] if other < end)
        return total

    def order(self):
        """Rows sorted by the middle of their neighbours, upwards and downwards in turn; the order with the fewest crossings is kept."""
        best, fewest = [list(row) for row in self.rows], self.crossings()
        for sweep in range(SWEEPS):
            upwards = sweep % 2 == 0
            rows = range(1, len(self.rows)) if upwards else range(len(self.rows) - 2, -1, -1)
            for row in rows:
                beside = {node: at for at, node in enumerate(self.rows[row - 1 if upwards else row + 1])}
                near = self.down if upwards else self.up

                def middle(node):
                    places = [beside[other] for other in near[node]]
                    return sum(places) / len(places) if places else self.rows[row].index(node)

                self.rows[row] = sorted(self.rows[row], key=middle)
            crossings = self.crossings()
            if crossings < fewest:
                best, fewest = [list(each) for each in self.rows], crossings
        self.rows = best

    def place(self):
        """The middle of each box: near the middle of its neighbours, with room between boxes."""
        self.x = {}
        for row in self.rows:
            at = 0
            for node in row:
                self.x[node] = at + self.width(node) // 2
                at += self.width(node) + GAP
        for sweep in range(ROUNDS):
            for row in self.rows if sweep % 2 == 0 else self.rows[::-1]:
                wanted = []
                for node in row:
                    near = [self.x[other] for other in self.down[node] + self.up[node]]
                    wanted.append(sum(near) // len(near) if near else self.x[node])
                self.settle(row, wanted)
        left = min(self.x[node] - self.width(node) // 2 for node in self.x)
        for node in self.x:
            self.x[node] += MARGIN - left
        self.right = max(self.x[node] + self.width(node) // 2 for node in self.x) + MARGIN

    def settle(self, row, wanted):
        """Boxes that would overlap form a group, which stands where its boxes are best off together."""
        groups = []         # [sum of what each box wants of the group's first, number, nodes, offsets]
        for node, want in zip(row, wanted):
            groups.append([want, 1, [node], [0]])
            while len(groups) > 1:
                one, two = groups[-2:]
                step = one[3][-1] + (self.width(one[2][-1]) + self.width(two[2][0])) // 2 + GAP
                if one[0] // one[1] + step <= two[0] // two[1]:
                    break
                groups[-2:] = [[one[0] + two[0] - step * two[1], one[1] + two[1], one[2] + two[2], one[3] + [step + each for each in two[3]]]]
        for total, number, nodes, offsets in groups:
            for node, offset in zip(nodes, offsets):
                self.x[node] = total // number + offset


# ---------------------------------------------------------------- the picture

def curve(points):
    """A smooth path through points, upright at both ends."""
    path = 'M%d %d' % points[0]
    for at, (begin, end) in enumerate(zip(points, points[1:])):
        third = (end[1] - begin[1]) // 3
        leave = reach = 0
        if at > 0:
            leave = (end[0] - points[at - 1][0]) * third // (end[1] - points[at - 1][1])
        if at + 2 < len(points):
            reach = (points[at + 2][0] - begin[0]) * third // (points[at + 2][1] - begin[1])
        path += 'C%d %d %d %d %d %d' % (begin[0] + leave, begin[1] + third, end[0] - reach, end[1] - third, end[0], end[1])
    return path


def svg(text, products):
    needs, groups = read_crates(text)
    picture = Picture(direct(needs))
    kinds = {line.split()[1]: line.split()[0] for line in products.splitlines() if line.startswith(('program ', 'archive '))}
    named = list(dict.fromkeys(groups.values()))
    colour = {group: COLOURS[at % len(COLOURS)] for at, group in enumerate(named)}
    tall = len(picture.rows) * LAYER + 10
    notes = ['thick frame: a program', 'double frame: an archive for C', 'an arrow leads to what a crate uses']
    height = tall + 22 * len(named) + 18 * len(notes) + MARGIN

    def top(node):
        row = next(at for at, row in enumerate(picture.rows) if node in row)
        return 20 + (len(picture.rows) - 1 - row) * LAYER

    out = ['<svg xmlns="http://www.w3.org/2000/svg" viewBox="0 0 %d %d" width="%d" height="%d" font-family="DejaVu Sans, Verdana, sans-serif" '
           'font-size="13" fill="#222">' % (picture.right, height, picture.right, height),
           '<title>The crates in layers</title>',
           '<defs><marker id="tip" viewBox="0 0 8 8" refX="8" refY="4" markerWidth="7" markerHeight="7" orient="auto">'
           '<path d="M0 0L8 4L0 8z" fill="#777"/></marker></defs>',
           '<rect width="%d" height="%d" fill="#fff"/>' % (picture.right, height)]
    for way in picture.ways:
        points = [(picture.x[way[0]], top(way[0]) + BOX_HEIGHT)]
        points += [(picture.x[point], top(point) + BOX_HEIGHT // 2) for point in way[1:-1]]
        path = curve(points + [(picture.x[way[-1]], top(way[-1]))])
        out.append('<path d="%s" fill="none" stroke="#777" marker-end="url(#tip)"><title>%s uses %s</title></path>' % (path, way[0], way[-1]))
    for name in needs:
        wide, x, y = picture.width(name), picture.x[name], top(name)
        stroke = 2.5 if kinds.get(name) == 'program' else 1
        out.append('<rect x="%d" y="%d" width="%d" height="%d" rx="5" fill="%s" stroke="#444" stroke-width="%s"/>' % (
            x - wide // 2, y, wide, BOX_HEIGHT, colour[groups[name]], stroke))
        if kinds.get(name) == 'archive':
            out.append('<rect x="%d" y="%d" width="%d" height="%d" rx="3" fill="none" stroke="#444"/>' % (x - wide // 2 + 3, y + 3, wide - 6, BOX_HEIGHT - 6))
        out.append('<text x="%d" y="%d" text-anchor="middle">%s</text>' % (x, y + 20, escape(name)))
    for at, group in enumerate(named):
        y = tall + 22 * at
        out.append('<rect x="%d" y="%d" width="22" height="14" rx="3" fill="%s" stroke="#444"/>' % (MARGIN, y, colour[group]))
        out.append('<text x="%d" y="%d" font-size="12">%s</text>' % (MARGIN + 32, y + 12, escape(group)))
    for at, note in enumerate(notes):
        out.append('<text x="%d" y="%d" font-size="12">%s</text>' % (MARGIN, tall + 22 * len(named) + 18 * at + 12, note))
    return '\n'.join(out + ['</svg>', ''])


def main():
    parser = argparse.ArgumentParser(description=__doc__.split('\n')[0])
    parser.add_argument('-o', metavar='FILE.svg')
    options = parser.parse_args()
    texts = []
    for name in ('crates.txt', 'tools/products.txt'):
        with open(os.path.join(ROOT, name), encoding='utf-8') as file:
            texts.append(file.read())
    drawn = svg(*texts)
    if options.o:
        with open(options.o, 'w', encoding='utf-8') as file:
            file.write(drawn)
    else:
        sys.stdout.write(drawn)


if __name__ == '__main__':
    main()
