#!/usr/bin/env python3
"""Writes the events of the loads that are tables of examples/.

    bench/src/events.py COUNT FOLDER    writes FOLDER/NAME.events for each NAME of examples/make.py

Each event is drawn from the clusters of its table, in the proportions that make.py has, from a fixed seed.
A file holds the values one after the other, as 32-bit words in native order.
"""

import array
import os
import random
import sys

TOP = os.path.join(os.path.dirname(os.path.abspath(__file__)), '..', '..')
sys.path.insert(0, os.path.join(TOP, 'examples'))

import make


def drawn(name, count):
    lines, numbers, _ = make.MADE[name]()
    columns = make.columns(lines)
    rng = random.Random('bench: ' + name)
    values = array.array('i')
    for cluster in rng.choices(list(numbers), list(numbers.values()), k=count):
        cell = make.cell(rng, cluster)
        values.extend([cell[column] for column in columns])
    return values


def main(count, folder):
    for name in make.MADE:
        with open(os.path.join(folder, name + '.events'), 'wb') as file:
            drawn(name, int(count)).tofile(file)


if __name__ == '__main__':
    main(*sys.argv[1:])
