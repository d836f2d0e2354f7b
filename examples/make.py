#!/usr/bin/env python3
"""Writes the inputs of this folder that hold many events.

    examples/make.py            writes NAME.txt for each NAME below
    examples/make.py NAME       prints one of them

The events are made up, not measured: clusters of cells and beads on a 16 bit scale, drawn
from a fixed seed. Only random(), whole numbers and fractions are used, so every run writes the same bytes.
`rim` has the same clusters on 256 channels, so that one unit can be seen in a picture, `clusters` on 1,024.
`species` has two clusters of its own, which overlap in each pair of three dimensions and not in all three.
`cruise` is an input of gatesheet, with several lists; all others are inputs of gatecount, with one. The names of the head stand
once more after each line `events`: the column line.
"""

import itertools
import math
import os
import random
import sys
from fractions import Fraction

HERE = os.path.dirname(os.path.abspath(__file__))
SCALE = 65535
UNITS = {'rim': 256, 'clusters': 64}        # units of the scale in one channel, of the examples in channels

DIMENSIONS = ('FSC', 'SSC', 'RED', 'ORANGE')

# The middle and the spread in each dimension, then how far a bigger cell moves all four.
CLUSTERS = {
    'debris': ((2500, 2600, 2200, 1500), (900, 900, 900, 700), 400),
    'prochlorococcus': ((8500, 6500, 14500, 2200), (900, 900, 1300, 600), 900),
    'synechococcus': ((13500, 11500, 21500, 29500), (1000, 1000, 1300, 1800), 1100),
    'picoeukaryotes': ((25000, 20500, 39500, 6000), (1700, 1700, 1800, 1100), 2200),
    'cryptophytes': ((42000, 36500, 51000, 43500), (2000, 2200, 1700, 1900), 2000),
    'beads': ((31000, 45000, 30500, 55500), (350, 350, 350, 350), 0),
}

# Two cryptophytes: the means of three dimensions, then how far the size of a cell moves each of them, how far its
# phycoerythrin does, and how far a deviate that moves RED alone. But for that one, RED is 0.7 FSC + 0.7 ORANGE and an amount
# of the species, and the two amounts are 2,600 apart.
THREE = ('FSC', 'ORANGE', 'RED')
SPECIES = {
    'teleaulax': ((30000, 27000, 36000), ((3000, 600, 2520), (0, 3000, 2100), (0, 0, 350))),
    'rhodomonas': ((29000, 26200, 37340), ((3200, 500, 2590), (0, 2800, 1960), (0, 0, 350))),
}


def spread(rng):
    """Nearly a normal deviate: twelve even ones added up."""
    return sum(rng.random() for _ in range(12)) - 6


def cell(rng, name):
    if name in SPECIES:
        three = dict(zip(THREE, moved(name, [spread(rng) for _ in THREE])))
        values = [three.get(dimension, 0) for dimension in DIMENSIONS]
    else:
        middle, width, size = CLUSTERS[name]
        bigger = size * spread(rng)
        values = [round(m + w * spread(rng) + bigger) for m, w in zip(middle, width)]
    return [min(max(value, 0), SCALE) for value in values]


def moved(name, deviates):
    """The cell of a species that three deviates give, in the order of THREE."""
    means, moves = SPECIES[name]
    return [round(mean + sum(deviate * move for deviate, move in zip(deviates, column)))
            for mean, column in zip(means, zip(*moves))]


def sample(rng, numbers):
    """Events of each cluster, shuffled as they would pass the laser."""
    events = [cell(rng, name) for name, number in numbers.items() for _ in range(number)]
    for at in range(len(events) - 1, 0, -1):
        other = int(rng.random() * (at + 1))
        events[at], events[other] = events[other], events[at]
    return events


def table(*lines):
    """Table lines written with spaces, which stand for tabs."""
    return [line.split() for line in lines]


def columns(lines):
    """Where a cell has the dimensions of the table."""
    return [DIMENSIONS.index(name) for name in lines[0][1:]]


# Each gives its table, the number of cells of each cluster, and events that are listed after the cells.

def quadrants():
    lines = table(
        'dims FSC SSC RED ORANGE',
        'quad Pigments Cells 2 RED 1 30000 ORANGE 1 16000'
        ' Pro 15000 2000 Syn 22000 30000 PicoEuk 40000 6000 Crypto 50000 44000',
        'quad Size Cells 2 FSC 2 11000 25000 ORANGE 1 16000'
        ' Small 8000 2000 Middle 20000 2000 Large 30000 2000 Orange * 30000',
        'rect Cells - FSC 4500 * RED 6000 *',
    )
    numbers = {'debris': 60, 'prochlorococcus': 120, 'synechococcus': 100, 'picoeukaryotes': 50, 'cryptophytes': 20}
    # On a divider the event is on the upper side, one below it on the lower.
    edge = [[8000, 7000, 30000, 16000], [8000, 7000, 29999, 16000], [8000, 7000, 30000, 15999]]
    return lines, numbers, edge


def polygon():
    lines = table(
        'dims FSC SSC RED ORANGE',
        'poly Syn Cells RED ORANGE 17500 25000 22000 23500 27000 28500 27000 35000 21000 35500 17500 31000',
        'poly Crypto Cells RED ORANGE 43000 36000 59000 36000 59000 51000 43000 51000',
        'rect Cells - FSC 4500 * RED 6000 *',
        'rect LargeSyn Syn FSC 14500 *',
    )
    numbers = {'debris': 50, 'prochlorococcus': 60, 'synechococcus': 140, 'picoeukaryotes': 40, 'cryptophytes': 30}
    # A vertex, a point of an edge and one beside it; then a vertex again, outside the parent.
    edge = [[12000, 10000, 22000, 23500], [12000, 10000, 27000, 30000], [12000, 10000, 27001, 30000],
            [4499, 3000, 22000, 23500]]
    return lines, numbers, edge


def ellipses():
    lines = table(
        'dims FSC RED',
        'ellip Pro - FSC RED 8500 14500 1620000 810000 2500000 9',
        'ellip Syn - FSC RED 13500 21500 2210000 1210000 2900000 9',
        'ellip PicoEuk - FSC RED 25000 39500 7730000 4840000 8080000 9',
        'ellip Core PicoEuk FSC RED 25000 39500 7730000 4840000 8080000 1',
    )
    numbers = {'debris': 40, 'prochlorococcus': 150, 'synechococcus': 110, 'picoeukaryotes': 90}
    return lines, numbers, [[25000, 39500]]


def boolean():
    lines = table(
        'dims FSC SSC RED ORANGE',
        'and Syn Phyto OrangeHigh !Large',
        'and Crypto Phyto OrangeHigh Large',
        'not Rest Phyto Phycoerythrin',
        'or Phycoerythrin - Syn Crypto',
        'and Phyto - Cells !Beads',
        'not Dim - Cells',
        'and Other - !Syn !Crypto !Rest !Beads',
        'rect Cells - FSC 4500 * RED 6000 *',
        'rect OrangeHigh - ORANGE 16000 *',
        'rect Large - FSC 30000 *',
        'ellip Beads - SSC ORANGE 45000 55500 122500 0 122500 25',
    )
    numbers = {'debris': 50, 'prochlorococcus': 80, 'synechococcus': 80, 'picoeukaryotes': 40, 'cryptophytes': 25,
               'beads': 60}
    return lines, numbers, []


def beyond(ellipse, x, y):
    """The left side of an ellipse's rule less the right one: 0 on the rim, above it outside."""
    mean_x, mean_y, c11, c12, c22, d2 = ellipse
    dx, dy = x - mean_x, y - mean_y
    return c22 * dx * dx - 2 * c12 * dx * dy + c11 * dy * dy - d2 * (c11 * c22 - c12 * c12)


def rim_points(ellipse):
    """Every point of the rim that has whole coordinates."""
    mean_x, mean_y, c11, _, c22, d2 = ellipse
    half_x, half_y = math.isqrt(d2 * c11), math.isqrt(d2 * c22)
    return [(x, y) for x in range(mean_x - half_x, mean_x + half_x + 1)
            for y in range(mean_y - half_y, mean_y + half_y + 1) if beyond(ellipse, x, y) == 0]


def rim():
    lines = table(
        'dims FSC RED',
        'ellip Syn - FSC RED 53 84 34 21 45 4',
    )
    numbers = {'synechococcus': 50}
    ellipse = [int(field) for field in lines[1][5:]]
    edge = []
    # Each point of the rim, then one channel further out and one further in.
    for x, y in rim_points(ellipse):
        inner, outer = sorted((x - 1, x + 1), key=lambda beside: beyond(ellipse, beside, y))
        edge += [(x, y), (outer, y), (inner, y)]
    return lines, numbers, edge


def three_decimals(value):
    """A fraction as it is written with three decimals."""
    thousandths = round(value * 1000)
    return '%s%d.%03d' % ('-' * (thousandths < 0), *divmod(abs(thousandths), 1000))


def fitted(cluster, names):
    """The two means, whole, and c11, c12, c22 with three decimals, as a package finds them in 500 other cells."""
    rng = random.Random('gate counter: clusters, ' + cluster)
    cells = [cell(rng, cluster) for _ in range(500)]
    values = [[each[DIMENSIONS.index(name)] // UNITS['clusters'] for each in cells] for name in names]
    means = [Fraction(sum(column), len(cells)) for column in values]
    x, y = ([value - mean for value in column] for column, mean in zip(values, means))
    entries = [sum(a * b for a, b in zip(*pair)) / (len(cells) - 1) for pair in ((x, x), (x, y), (y, y))]
    return [str(round(mean)) for mean in means] + [three_decimals(entry) for entry in entries]


def clusters():
    names = ['RED', 'ORANGE']
    lines = [['dims', *names]]
    # D² is the chi-square quantile of two dimensions: 99 % of a cluster, and half of one.
    for gate, parent, cluster, d2 in (('Pro', '-', 'prochlorococcus', '9.210'),
                                      ('Syn', '-', 'synechococcus', '9.210'),
                                      ('PicoEuk', '-', 'picoeukaryotes', '9.210'),
                                      ('Crypto', '-', 'cryptophytes', '9.210'),
                                      ('Beads', '-', 'beads', '9.210'),
                                      ('SynCore', 'Syn', 'synechococcus', '1.386')):
        lines.append(['ellip', gate, parent, *names, *fitted(cluster, names), d2])
    lines += table('and Unassigned - !Pro !Syn !PicoEuk !Crypto !Beads')
    numbers = {'debris': 40, 'prochlorococcus': 120, 'synechococcus': 100, 'picoeukaryotes': 60, 'cryptophytes': 40,
               'beads': 30}
    return lines, numbers, []


def covariance(name):
    """The covariance matrix of a species, whole: its entries by pairs of dimensions, row by row from the diagonal on."""
    moves = dict(zip(THREE, zip(*SPECIES[name][1])))
    return {(a, b): sum(x * y for x, y in zip(moves[a], moves[b]))
            for a, b in itertools.combinations_with_replacement(THREE, 2)}


def species():
    d2 = '11'
    lines = [['dims', *THREE]]
    for name, (means, _) in SPECIES.items():
        lines.append(['ellip3', name.capitalize(), '-', *THREE, *map(str, means), *map(str, covariance(name).values()), d2])
    lines.append(['and', 'Both', '-', *map(str.capitalize, SPECIES)])
    # The projections on each pair, and who is in both of a pair; then who is in all six.
    pairs = list(itertools.combinations(THREE, 2))
    for a, b in pairs:
        projections = []
        for name, (means, _) in SPECIES.items():
            mean, entry = dict(zip(THREE, means)), covariance(name)
            projections.append('%s-%s-%s' % (name[:4].capitalize(), a, b))
            lines.append(['ellip', projections[-1], '-', a, b,
                          *map(str, (mean[a], mean[b], entry[a, a], entry[a, b], entry[b, b])), d2])
        lines.append(['and', 'Both-%s-%s' % (a, b), '-', *projections])
    lines.append(['and', 'Both-all-pairs', '-', *('Both-%s-%s' % pair for pair in pairs)])
    numbers = {'prochlorococcus': 30, 'synechococcus': 40, 'teleaulax': 120, 'rhodomonas': 120}
    edge = []
    # The squares of the deviates add up to D², so the event is on the surface; then one unit of RED further out, and further in.
    for name, deviates in itertools.product(SPECIES, ((3, 1, 1), (-1, 3, -1), (1, -1, -3))):
        fsc, orange, red = moved(name, deviates)
        out = 1 if deviates[2] > 0 else -1
        edge += [[fsc, orange, red], [fsc, orange, red + out], [fsc, orange, red - out]]
    # Midway between the means: in all six projections, in neither ellipsoid.
    edge.append([sum(values) // 2 for values in zip(*(means for means, _ in SPECIES.values()))])
    return lines, numbers, edge


# One for each list: the number of cells of each cluster, and events that are listed after the cells.

def cruise():
    lines = table(
        'dims FSC RED ORANGE',
        'rect Cells - FSC 4500 * RED 6000 *',
        'quad Pigments Cells 2 RED 1 30000 ORANGE 1 16000 Pro 15000 2000 Syn 22000 30000 Large 40000 *',
        'or Cyano Cells Pro Syn',
        'rect BigSyn Syn FSC 13000 *',
        'rect Debris - FSC * 3000 RED * 3000',
    )
    surface = {'debris': 2, 'prochlorococcus': 4, 'synechococcus': 3, 'picoeukaryotes': 1}
    depth = {'debris': 1, 'prochlorococcus': 1, 'synechococcus': 2, 'picoeukaryotes': 2, 'cryptophytes': 1}
    # Nothing passed the laser during the second list; in the third one value is off the scale.
    return lines, [(surface, []), ({}, []), (depth, [[25100, 70000, 6100]])]


MADE = {'quadrants': quadrants, 'polygon': polygon, 'ellipses': ellipses, 'boolean': boolean}

# In channels, or with ellipsoids. Not in MADE, from which bench/ makes loads of the whole scale that each earlier counter takes.
OTHERS = {'rim': rim, 'clusters': clusters, 'species': species}
# With several lists.
SHEETS = {'cruise': cruise}
NAMES = [*MADE, *OTHERS, *SHEETS]


def written(rows):
    return ''.join('\t'.join(map(str, row)) + '\n' for row in rows).encode()


def opened(head):
    """The two lines before the events of a list: `events` and the column line."""
    return [['events'], head[1:]]


def sheet_text(name):
    rows, lists = SHEETS[name]()
    where = columns(rows)
    rng = random.Random('gate counter: ' + name)
    for numbers, listed in lists:
        rows += opened(rows[0]) + [[values[column] for column in where] for values in sample(rng, numbers)] + listed
    return written(rows)


def text(name):
    if name in SHEETS:
        return sheet_text(name)
    lines, numbers, edge = (MADE.get(name) or OTHERS[name])()
    cells = sample(random.Random('gate counter: ' + name), numbers)
    events = [[values[column] // UNITS.get(name, 1) for column in columns(lines)] for values in cells]
    if name == 'rim':
        # One cell at most in a place, and none where an event is listed: on the rim are the listed ones only.
        places = dict.fromkeys(map(tuple, events))
        events = [place for place in places if place not in edge]
    return written(lines + opened(lines[0]) + events + edge)


def main():
    if sys.argv[1:]:
        sys.stdout.buffer.write(text(sys.argv[1]))
        return
    for name in NAMES:
        with open(os.path.join(HERE, name + '.txt'), 'wb') as file:
            file.write(text(name))


if __name__ == '__main__':
    main()
