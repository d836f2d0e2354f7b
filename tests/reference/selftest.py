#!/usr/bin/env python3
"""Holds the reference to the papers' own examples and to itself.

    tests/reference/selftest.py [--seed S] [--tables N]

First come the examples that 01 prints and small cases at each of its rules, and at those of
02 a on outlines, 02 b on decimals, 02 d on ellipsoids, 02 e on sheets, 02 f on unclaimed events, 02 g on
column lines and 02 h on outlines drawn the other way round; then, for random tables, the plan against the lines, other orders of lines,
outlines drawn anew, sums of quadrants, sheets against counts, and other ways of reckoning the same thing.  The last line is
"N passed, M failed".
"""

import argparse
import collections
import itertools
import os
import random
import sys
from fractions import Fraction

sys.path.insert(0, os.path.dirname(os.path.abspath(__file__)))

import gates
import generate
import long_outlines
import redraw
from gates import INSIDE, ON_OUTLINE, OUTSIDE

passed = failed = 0


def check(label, got, wanted):
    global passed, failed
    if got == wanted:
        passed += 1
    else:
        failed += 1
        print('FAILED %s\n  got    %.300r\n  wanted %.300r' % (label, got, wanted))


def tabs(*lines):
    """Lines with spaces for tabs, as the paper prints them; bytes are left as they are."""
    return b''.join((line if isinstance(line, bytes) else line.replace(' ', '\t').encode()) + b'\n'
                    for line in lines)


def refused(label, table, number, place, slice_words=4096):
    check(label, gates.compile_table(table, slice_words)[:3], (number, place, None))


def accepted(label, table, words=None):
    number, place, got, _ = gates.compile_table(table, 4096)
    check(label, (number, place), (0, 0))
    if words is not None:
        check(label + ': words', got, words)


def prints(label, data, *lines):
    check(label, gates.gatecount(data), tabs(*lines))


def sheets(label, data, *lines):
    check('sheet: ' + label, gates.gatesheet(data), tabs(*lines))


def line_fault(label, line, number, head='dims A B', before=()):
    """A line below the head and some good ones is refused with its own place."""
    refused(label, tabs(head, *before, line), number, 2 + len(before))


def columns_of(table):
    """The right column line of a table's lists: its head without the first field."""
    return table.split(b'\n')[0].partition(b'\t')[2]


def by_name(bits, names):
    """The names of the regions whose bit is set; a bit from the number of regions on is kept as a number."""
    return {names[r] if r < len(names) else r for r in range(bits.bit_length()) if bits >> r & 1}


def position(table, event, name):
    """Outside, inside or on the outline, by the lines and by the plan, which must agree; None if they don't.

    A region without an outline, or an event that is in the shape alone, is outside or inside by membership.
    """
    number, place, words, names = gates.compile_table(table, 4096)
    by_plan = gates.judge(words, event)
    inside, outline = gates.members(table, event), gates.outlined(table, event)
    if by_plan[:2] != (0, 0) or [by_name(bits, names) for bits in by_plan[2:]] != [inside, outline]:
        return None
    if name.encode() in outline:
        return ON_OUTLINE if name.encode() in inside else None
    return INSIDE if name.encode() in inside else OUTSIDE


def member(table, event, name):
    """Membership by the lines and by the plan, which must agree; None if they don't."""
    found = position(table, event, name)
    return None if found is None else found != OUTSIDE


FORTY = '9' * 40

EXAMPLE = ('dims FSC SSC',
           'rect Live Ring FSC 300 600',
           'ellip Ring - FSC SSC 400 200 40000 0 30625 1',
           'quad Q Ring 1 FSC 1 400 Lo 0 Hi 500',
           'and Both - Live !Hi')
EXAMPLE_PLAN = [2, 5, 3, 1, -1, 8, 0, 1, 400, 200, 40000, 0, 30625, 1, 1, 0, 1, 3, 0, 300, 600,
                1, 2, 1, 3, 0, -65536, 400, 1, 3, 1, 3, 0, 400, 65536, 4, 4, -1, 2, 0, 7]


# ---------------------------------------------------------------- 01, "Marked and others"

def worked_example():
    table = tabs(*EXAMPLE)
    prints('worked example', table + tabs('events', 'FSC SSC', '600 200', '400 375', '599 200', '400 376',
                                          '350 200', '70000 0'),
           'Live 3', 'Ring 4', 'Lo 1', 'Hi 3', 'Both 1', 'taken 5', 'spoilt 1')
    accepted('its plan', table, EXAMPLE_PLAN)
    check('its plan has 41 words', len(EXAMPLE_PLAN), 41)
    check('its plan passes', gates.check_plan(EXAMPLE_PLAN), (0, 0))
    check('(600, 200) in Ring', member(table, [600, 200], 'Ring'), True)
    check('(400, 375) in Ring', member(table, [400, 375], 'Ring'), True)
    check('(400, 376) not in Ring', member(table, [400, 376], 'Ring'), False)
    twice = tabs('dims A B', 'poly P - A B' + ' 0 0 10 0 10 10 0 10' * 2)
    check('walked twice, (5, 5) in', member(twice, [5, 5], 'P'), True)
    check('walked twice, (10, 5) in', member(twice, [10, 5], 'P'), True)
    check('walked twice, (11, 5) out', member(twice, [11, 5], 'P'), False)
    flat = tabs('dims A B', 'poly P - A B 0 0 4 0 8 0')
    check('flat, (4, 0) in', member(flat, [4, 0], 'P'), True)
    check('flat, (4, 1) out', member(flat, [4, 1], 'P'), False)
    line_fault('matrix 4, 6, 9', 'ellip E - A B 0 0 4 6 9 1', 11)
    accepted('matrix 5, 6, 9', tabs('dims A B', 'ellip E - A B 0 0 5 6 9 1'))
    accepted('head alone', tabs('dims A'), [1, 0])

    def eight(vertices):
        sizes = [256] * 7 + [vertices - 7 * 256]
        return tabs('dims A B', *['poly P%d - A B' % k + ' 1 2' * size for k, size in enumerate(sizes)])

    check('2,023 vertices', len(gates.compile_table(eight(2023), 4096)[2]), 4096)
    check('2,023 vertices pass aboard', gates.check_plan(gates.compile_table(eight(2023), 4096)[2]), (0, 0))
    refused('2,024 vertices', eight(2024), 17, 0)


# ---------------------------------------------------------------- 01, "Table lines": text and head

def table_text():
    base = tabs('dims A', 'rect X - A 0 1')
    long_number = b'rect\tY\t-\tA\t' + b'9' * (32768 - len(base) - 14) + b'\t*\n'
    check('padding', len(base + long_number), 32768)
    refused('32,768 bytes are not too long', base + long_number, 8, 3)
    refused('32,769 bytes are', base + long_number.replace(b'\t*', b'9\t*'), 1, 0)
    refused('long before open', base + long_number.replace(b'\t*\n', b'9\t**'), 1, 0)
    rng = random.Random('sizes')
    check('a good table of 32,768 bytes',
          gates.compile_table(generate.byte_size_table(rng, 32768).bytes(), 4096)[:2], (0, 0))
    refused('a good one of 32,769 but for that', generate.byte_size_table(rng, 32769).bytes(), 1, 0)

    refused('empty table', b'', 2, 0)
    refused('one LF', b'\n', 3, 1)
    refused('no last LF', b'dims\tA', 2, 0)
    refused('no last LF before a bad head', b'bogus', 2, 0)
    accepted('one line', b'dims\tA\n')
    refused('empty second line', b'dims\tA\n\n', 4, 2)
    refused('empty line amid', tabs('dims A', 'rect X - A 0 1', '', 'rect Y - A 0 1'), 4, 3)

    refused('CR after the head', b'dims\tA\r\n', 3, 1)
    line_fault('CR after a number', 'rect X - A 0 1\r', 7)
    line_fault('CR after an operand', 'and Y - X X\r', 6, before=['rect X - A 0 1'])
    line_fault('CR after a kind alone', 'rect\r', 4)
    line_fault('CR after a dimension', 'rect X - A\r 0 1', 9)
    line_fault('NUL in a number', 'rect X - A 0 1\0', 7)
    line_fault('NUL in a name', 'rect X\0 - A 0 1', 6)
    line_fault('space in a name', b'rect\tX Y\t-\tA\t0\t1', 6)
    line_fault('spaces part nothing', b'rect X - A 0 1', 4)
    line_fault('space before a number', b'rect\tX\t-\tA\t 0\t1', 7)
    line_fault('byte above 127 in a name', b'rect\t\xc3\xa9\t-\tA\t0\t1', 6)
    line_fault('byte above 127 in a number', b'rect\tX\t-\tA\t\xb2\t1', 7)

    refused('tab after the head', tabs('dims A '), 3, 1)
    for line in ('rect X - A 0 1 ', 'poly X - A B 0 0 1 0 1 1 ', 'ellip X - A B 0 0 1 0 1 1 ',
                 'ellip3 X - A B C 0 0 0 1 0 0 1 0 1 1 ', 'quad X - 1 A 1 0 L -1 H 0 ', 'quad X - 2 A 1 0 B 1 0 L * * ', 'not X - R '):
        line_fault('tab after %s' % line, line, 5, before=['rect R - A 0 1'])
    for line in ('and X - R ', 'or X - R R ', 'and X -' + ' R' * 62 + ' '):
        line_fault('tab after %s' % line[:12], line, 6, before=['rect R - A 0 1'])
    line_fault('tab after 63 operands', 'and X -' + ' R' * 63 + ' ', 5, before=['rect R - A 0 1'])

    for head in generate.BAD_HEADS:
        refused('head %r' % head, head + b'\n', 3, 1)
    refused('head as a gate line', tabs('rect X - A 0 1', 'dims A'), 3, 1)
    refused('head `events`', tabs('events'), 3, 1)
    refused('bad head hides the rest', tabs('Dims A', 'bogus'), 3, 1)
    accepted('eight names', tabs('dims A B C D E F G H'))
    accepted('sixteen letters', tabs('dims A23456789012345- ABCDEFGHIJKLMNOP'))

    accepted('a gate named as a dimension', tabs('dims A', 'rect A - A 0 1'))
    refused('a reference to a dimension', tabs('dims A', 'rect X A A 0 1'), 15, 2)
    names = 'events taken spoilt dims rect in less unclaimed refused dims08'.split()
    accepted('no word is reserved', tabs('dims events dims', *['rect %s - events 0 1' % name for name in names]))
    prints('printed alike', tabs('dims dims', 'rect taken - dims 0 9', 'events', 'dims', '3', '99999', '12'),
           'taken 1', 'taken 2', 'spoilt 1')

    for field in generate.BAD_NUMBERS:
        line_fault('number %r' % field, b'rect\tX\t-\tA\t' + field + b'\t*', 7)
    for number in ('0', '-1', '7', '10', '-65536', '65535', '100'):
        accepted('number %s' % number, tabs('dims A', 'rect X - A %s *' % number))
    line_fault('forty digits', 'rect X - A %s *' % FORTY, 8)
    line_fault('forty digits below zero', 'rect X - A * -%s' % FORTY, 8)
    line_fault('thirty thousand digits', 'rect X - A * 1' + '0' * 30000, 8)
    prints('forty digits in the list', tabs('dims A', 'events', 'A', FORTY), 'taken 0', 'spoilt 1')

    line_fault('form before range', 'rect X - Z 9 1 A %s x' % FORTY, 7)
    line_fault('range before dimension', 'rect X - Z 9 1 A %s 0' % FORTY, 8)
    line_fault('dimension before crossing', 'rect X - Z 9 1 A 1 0', 9)
    line_fault('crossing last', 'rect X - B 9 1 A 1 0', 10)
    line_fault('name before form', 'rect 9 - Z 9 x', 6)
    line_fault('shape before name', 'rect 9 - Z 9', 5)
    line_fault('kind first', 'Rect 9 - Z 9', 4)
    line_fault('unknown kind alone', 'bogus', 4)
    line_fault('known kind alone', 'rect', 5)
    line_fault('matrix after dimension', 'ellip X - A A 0 0 4 6 9 1', 9)
    line_fault('range of D2 before the matrix', 'ellip X - A B 0 0 4 6 9 0', 8)
    line_fault('not rising before no tiling', 'quad X - 1 A 2 5 5 L 0', 10)
    for kind in ('ellip2', 'ellip4', 'Ellip3', 'ellip33', 'tope', 'tree', 'apart', 'Rect', '', 'rec', 'dims'):
        line_fault('kind %r' % kind, '%s X - A 0 1' % kind, 4)

    for dimension in ('', '9', '*', 'C', 'AA', 'a', '-'):
        line_fault('dimension %r' % dimension, 'rect X - %s 0 1' % dimension, 9)
    line_fault('ill-formed dimension after form', 'rect X - 9 0 x', 7)
    line_fault('ill-formed dimension after range', 'rect X - 9 0 65537', 8)

    for parent in ('', '--', '!R', '9', '*', 'A' * 17):
        line_fault('parent %r' % parent, 'rect X %s A 0 1' % parent, 6, before=['rect R - A 0 1'])
    for operand in ('-', '!', '!!R', '*', '', '!-', '9', '!' + 'A' * 17):
        line_fault('operand %r' % operand, 'and X - R %s' % operand, 6, before=['rect R - A 0 1'])
    line_fault('gate named -', 'rect - - A 0 1', 6)
    line_fault('quadrant named -', 'quad X - 1 A 1 0 - -1 H 0', 6)
    accepted('operand of ! and sixteen letters', tabs('dims A', 'rect ABCDEFGHIJKLMNOP - A 0 1',
                                                      'not X - !ABCDEFGHIJKLMNOP'))

    for line in ('poly X - A B * 0 1 0 1 1', 'ellip X - A B * 0 1 0 1 1', 'ellip X - A B 0 0 1 * 1 1',
                 'ellip X - A B 0 0 1 0 1 *', 'quad X - 1 A 1 * L * '.strip()):
        line_fault('`*` in %s' % line, line, 7)
    accepted('both bounds missing', tabs('dims A', 'rect X - A * *'), [1, 1, 1, 0, -1, 3, 0, -65536, 65536])
    accepted('no min, lowest max', tabs('dims A', 'rect X - A * -65535'), [1, 1, 1, 0, -1, 3, 0, -65536, -65535])
    accepted('highest min, no max', tabs('dims A', 'rect X - A 65535 *'), [1, 1, 1, 0, -1, 3, 0, 65535, 65536])
    line_fault('max -65536', 'rect X - A * -65536', 8)
    line_fault('max 65537', 'rect X - A * 65537', 8)
    line_fault('min 65536', 'rect X - A 65536 *', 8)
    line_fault('min -65537', 'rect X - A -65537 *', 8)
    accepted('max 65536', tabs('dims A', 'rect X - A 0 65536'))
    line_fault('min is max', 'rect X - A 5 5', 10)

    for count in (0, 1, 2, 257, 300):
        line_fault('%d vertices' % count, 'poly X - A B' + ' 1 1' * count, 5)
        line_fault('%d vertices and a half' % count, 'poly X - A B' + ' 1 1' * count + ' 1', 5)
    line_fault('3 vertices and a half', 'poly X - A B 1 1 1 1 1 1 1', 5)
    accepted('3 vertices', tabs('dims A B', 'poly X - A B' + ' 1 1' * 3))
    accepted('256 vertices', tabs('dims A B', 'poly X - A B' + ' 1 1' * 256))
    line_fault('9 triples', 'rect X -' + ' A 0 1' * 9, 5)
    line_fault('8 triples, 2 dimensions', 'rect X -' + ' A 0 1 B 0 1' * 4, 9)
    line_fault('two triples of one dimension', 'rect X - A 0 1 A 0 1', 9)
    line_fault('polygon of one dimension', 'poly X - A A 0 0 1 0 1 1', 9)
    accepted('an operand again', tabs('dims A', 'rect R - A 0 1', 'and X - R R', 'and Y - R !R'),
             [1, 3, 1, 0, -1, 3, 0, 0, 1, 4, 1, -1, 2, 0, 0, 4, 2, -1, 2, 0, 1])
    accepted('63 operands', tabs('dims A', 'rect R - A 0 1', 'or X -' + ' R' * 63))
    for line in ('and X - R', 'and X -' + ' R' * 64, 'not X -', 'not X - R R', 'ellip X - A B 0 0 1 0 1',
                 'ellip X - A B 0 0 1 0 1 1 1', 'rect X -', 'rect X', 'rect X - A 0'):
        line_fault('fields of %s' % line[:30], line, 5, before=['rect R - A 0 1'])

    for line in ('ellip X - A B 65536 0 1 0 1 1', 'ellip X - A B 0 -65537 1 0 1 1',
                 'ellip X - A B 0 0 16777217 0 1 1', 'ellip X - A B 0 0 1 -16777217 1 1',
                 'ellip X - A B 0 0 1 0 16777217 1', 'ellip X - A B 0 0 1 0 1 0',
                 'ellip X - A B 0 0 1 0 1 4097', 'poly X - A B 0 0 1 0 1 65536',
                 'poly X - A B -65537 0 1 0 1 1', 'quad X - 1 A 1 -65536 L *', 'quad X - 1 A 1 65536 L *',
                 'quad X - 1 A 1 0 L 65536 H -1', 'quad X - 1 A 1 0 L 0 H -65537'):
        line_fault('range of %s' % line, line, 8)
    for line in ('ellip X - A B -65536 65535 16777216 -16777215 16777216 4096', 'ellip X - A B 0 0 1 0 1 1',
                 'poly X - A B -65536 65535 0 0 1 1', 'quad X - 1 A 2 -65535 65535 L -65536 M 0 H 65535'):
        accepted('range of %s' % line, tabs('dims A B', line))
    for matrix in generate.BAD_MATRICES:
        line_fault('matrix %d %d %d' % matrix, 'ellip X - A B 0 0 %d %d %d 1' % matrix, 11)
    for matrix in generate.GOOD_MATRICES:
        accepted('matrix %d %d %d' % matrix, tabs('dims A B', 'ellip X - A B 0 0 %d %d %d 1' % matrix))


# ---------------------------------------------------------------- quad lines

def quadrants():
    for count in ('0', '4', '12', '01', '-1', '*', 'x', ''):
        line_fault('count of dividers %r' % count, 'quad X - %s A 1 0 L -1 H 0' % count, 5)
        line_fault('count of values %r' % count, 'quad X - 1 A %s 0 L -1 H 0' % count, 5)
    line_fault('no quadrant', 'quad X - 1 A 1 0', 5)
    line_fault('a rest that does not divide', 'quad X - 1 A 1 0 L -1 H', 5)
    line_fault('too few values', 'quad X - 1 A 3 0 1', 5)
    line_fault('a divider missing', 'quad X - 2 A 1 0', 5)
    line_fault('a divider without count', 'quad X - 2 A 1 0 B', 5)
    line_fault('a name among the values, rest divides', 'quad X - 1 A 1 Lo L -1 H 0', 7)
    line_fault('a name among the values, rest does not', 'quad X - 1 A 1 Lo -1 Hi 0', 5)
    line_fault('a name among the values, a number among the names', 'quad X - 1 A 1 Lo -1 Hi', 6)
    accepted('everything merged', tabs('dims A', 'quad X - 1 A 1 0 All *'), [1, 1, 1, 0, -1, 3, 0, -65536, 65536])
    table = tabs('dims A', 'quad X - 1 A 1 5 L 4 H 5')
    accepted('representative on a divider', table, [1, 2, 1, 0, -1, 3, 0, -65536, 5, 1, 1, -1, 3, 0, 5, 65536])
    check('5 is high', member(table, [5], 'H'), True)
    check('4 is low', member(table, [4], 'L'), True)
    line_fault('a dimension in two dividers', 'quad X - 2 A 1 0 A 1 5 L * *', 9)
    line_fault('equal values', 'quad X - 1 A 2 5 5 L 0 H 9', 10)
    line_fault('falling values', 'quad X - 1 A 3 1 3 2 L 0 H 9', 10)
    line_fault('a hole', 'quad X - 1 A 1 0 L -1', 12)
    line_fault('twice', 'quad X - 1 A 1 0 L -1 H 0 G 5', 12)
    line_fault('twice and of one name', 'quad X - 1 A 1 0 L -1 H 0 H 5', 12)
    line_fault('all and one more', 'quad X - 1 A 1 0 L * H 0', 12)
    line_fault('two dividers, a hole', 'quad X - 2 A 1 0 B 1 0 a -1 -1 b -1 0 c 0 -1', 12)
    line_fault('named as its gate', 'quad X - 1 A 1 0 X -1 H 0', 14)
    line_fault('a name twice in one gate', 'quad X - 1 A 1 0 L -1 L 0', 14)
    line_fault('named as another gate', 'quad X - 1 A 1 0 R -1 H 0', 14, before=['rect R - A 0 1'])
    line_fault('a gate named as a quadrant', 'rect H - A 0 1', 14, before=['quad X - 1 A 1 0 L -1 H 0'])
    line_fault('a gate named as a quad gate', 'rect X - A 0 1', 14, before=['quad X - 1 A 1 0 L -1 H 0'])
    merged = tabs('dims A B', 'quad X - 2 B 1 3 A 2 0 10 low 0 * a 5 -1 b 3 0 c 65535 10')
    accepted('a triple per divider, in their order', merged,
             [2, 4,
              1, 0, -1, 6, 1, -65536, 3, 0, -65536, 65536,
              1, 1, -1, 6, 1, 3, 65536, 0, -65536, 0,
              1, 2, -1, 6, 1, 3, 65536, 0, 0, 10,
              1, 3, -1, 6, 1, 3, 65536, 0, 10, 65536])
    check('numbered by the line', gates.compile_table(merged, 4096)[3], [b'low', b'a', b'b', b'c'])
    pinwheel = ('quad X - 3 A 1 0 B 1 0 C 1 0 p -1 0 * q * -1 0 r 0 * -1 s -1 -1 -1 t 0 0 0')
    accepted('three dividers, no single cut', tabs('dims A B C', pinwheel))
    cells = ' '.join('r%d %d %d %d' % (k, k // 16 - 2, k // 4 % 4 - 2, k % 4 - 2) for k in range(64))
    accepted('64 quadrants', tabs('dims A B C', 'quad X - 3 A 3 -1 0 1 B 3 -1 0 1 C 3 -1 0 1 ' + cells))
    ends = tabs('dims A', 'quad X - 1 A 2 -65535 65535 L -65536 M -65535 H 65535')
    accepted('the ends of the scale', ends, [1, 3, 1, 0, -1, 3, 0, -65536, -65535,
                                             1, 1, -1, 3, 0, -65535, 65535, 1, 2, -1, 3, 0, 65535, 65536])
    check('the lowest value alone', member(ends, [-65536], 'L'), True)
    check('the next', member(ends, [-65535], 'M'), True)
    check('the highest', member(ends, [65535], 'H'), True)


# ---------------------------------------------------------------- 13 to 18

def whole_tables():
    good = ['rect R%d - A 0 1' % k for k in range(70)]
    refused('a bad line after 70 good ones', tabs('dims A', *good, 'bogus'), 4, 72)
    refused('crowded', tabs('dims A', *good), 13, 66)
    accepted('64 regions', tabs('dims A', *good[:64]))
    quad = 'quad Q - 1 A 1 0 L -1 H 0'
    refused('crowded on a quad line', tabs('dims A', *good[:63], quad), 13, 65)
    accepted('just not crowded', tabs('dims A', *good[:62], quad))
    refused('crowded before twin', tabs('dims A', *(good[:64] + good[:1])), 13, 66)
    refused('twin', tabs('dims A', good[0], good[1], good[0]), 14, 4)
    refused('first line that repeats', tabs('dims A', good[0], good[1], good[1], good[0]), 14, 4)
    refused('twin before dead', tabs('dims A', 'rect X Z A 0 1', good[0], good[0]), 14, 4)
    refused('quad gates count as names', tabs('dims A', quad, good[0], 'rect Q - A 0 1'), 14, 4)
    refused('unknown parent', tabs('dims A', 'rect X Z A 0 1'), 15, 2)
    refused('a quad gate as parent', tabs('dims A', quad, 'rect X Q A 0 1'), 15, 3)
    refused('a quad gate as operand', tabs('dims A', quad, 'and X - L !Q'), 15, 3)
    refused('dead below a circle', tabs('dims A', 'rect X Y A 0 1', 'rect Y X A 0 1', *good[:6], 'not Z - N'), 15, 10)
    refused('first dead line', tabs('dims A', good[0], 'not Y - N', 'not Z - N'), 15, 3)
    refused('names itself', tabs('dims A', 'rect X X A 0 1'), 16, 2)
    refused('operand of itself', tabs('dims A', good[0], 'and X - R0 !X'), 16, 3)
    refused('a line that leads in', tabs('dims A', 'not Lead - X', 'rect X Y A 0 1', 'rect Y X A 0 1'), 16, 3)
    refused('a circle through a quadrant', tabs('dims A', 'quad Q Lo 1 A 1 0 Lo -1 Hi 0'), 16, 2)
    refused('parent and quad gate alike', tabs('dims A', 'quad Q Q 1 A 1 0 Lo -1 Hi 0'), 15, 2)
    refused('through a gate and a quadrant',
            tabs('dims A', good[0], 'not N - Hi', 'quad Q N 1 A 1 0 Lo -1 Hi 0'), 16, 3)
    refused('! leads on too', tabs('dims A', 'not X - !Y', 'not Y - !X'), 16, 2)
    refused('two circles', tabs('dims A', 'not L - D', 'not C - D', 'not D - C', 'not E - E'), 16, 3)
    accepted('no circle: both arms to one', tabs('dims A', 'and X - Y Z', 'not Y - W', 'not Z - W', good[0],
                                                 'rect W - A 0 1'))

    long_plan = tabs('dims A B', *['poly P%d - A B' % k + ' 1 2' * 256 for k in range(8)])
    refused('17 with a long slice', long_plan, 17, 0, 9000)
    refused('17 before 18', long_plan, 17, 0, 0)
    small = tabs('dims A', 'rect X - A 0 1')
    check('slice just long enough', gates.compile_table(small, 9)[:2], (0, 0))
    refused('slice too short', small, 18, 0, 8)
    refused('no slice', small, 18, 0, 0)
    refused('no slice and a bad line', small + b'\n', 4, 3, 0)

    # The lowest ready region is looked for anew after each step.
    accepted('order of steps', tabs('dims A', 'not X - Z', 'not Y - R', 'not Z - R', 'rect R - A 0 1', 'not S - R'),
             [1, 5, 1, 3, -1, 3, 0, 0, 1, 6, 1, -1, 1, 6, 6, 2, -1, 1, 6, 6, 0, -1, 1, 4, 6, 4, -1, 1, 6])
    words, names = gates.compile_table(small, 4096)[2:]
    check('words and regions', (len(words), len(names)), (9, 1))


# ---------------------------------------------------------------- 01, "Members of a region"

def membership():
    box = tabs('dims A B', 'rect X - A 3 7')
    for value, inside in ((2, False), (3, True), (6, True), (7, False)):
        check('box at %d' % value, member(box, [value, 0], 'X'), inside)
    everything = tabs('dims A', 'rect X - A * *', 'rect L - A * -65535', 'rect H - A 65535 *')
    check('lowest in no bounds', member(everything, [-65536], 'X'), True)
    check('highest in no bounds', member(everything, [65535], 'X'), True)
    check('lowest', member(everything, [-65536], 'L'), True)
    check('next to lowest', member(everything, [-65535], 'L'), False)
    check('highest', member(everything, [65535], 'H'), True)

    square = ' 0 0 10 0 10 10 0 10'
    back = ' 0 0 0 10 10 10 10 0'
    forth_and_back = tabs('dims A B', 'poly P - A B' + square + back)
    check('forth and back cancel inside', member(forth_and_back, [5, 5], 'P'), False)
    check('forth and back keep their edges', member(forth_and_back, [10, 3], 'P'), True)
    reverse = tabs('dims A B', 'poly P - A B' + back)
    check('the other way round', member(reverse, [5, 5], 'P'), True)
    # The star's arms reach over each other; its core is wound twice.
    star = tabs('dims A B', 'poly P - A B 0 10 6 -8 -10 3 10 3 -6 -8')
    check('core of a star', member(star, [0, 0], 'P'), True)
    check('between two arms', member(star, [-6, 6], 'P'), False)
    check('an arm of a star', member(star, [0, 8], 'P'), True)
    slope = tabs('dims A B', 'poly P - A B 6 0 0 3 6 9')
    check('on a falling edge', member(slope, [2, 2], 'P'), True)
    check('on a rising edge', member(slope, [3, 6], 'P'), True)
    check('on its line, past its end', member(slope, [8, -1], 'P'), False)
    point = tabs('dims A B', 'poly P - A B 5 5 5 5 5 5')
    check('a point holds itself', member(point, [5, 5], 'P'), True)
    check('and nothing else', member(point, [5, 4], 'P'), False)
    repeated = tabs('dims A B', 'poly P - A B 0 0 0 0 10 0 10 0 0 10 0 10')
    check('vertices repeated, inside', member(repeated, [2, 2], 'P'), True)
    check('vertices repeated, outside', member(repeated, [8, 8], 'P'), False)
    wide = tabs('dims A B', 'poly P - A B -65536 -65536 65535 -65536 65535 65535 -65536 65535')
    check('the whole scale, a corner', member(wide, [65535, 65535], 'P'), True)
    check('the whole scale, inside', member(wide, [-65535, 65534], 'P'), True)
    half = tabs('dims A B', 'poly P - A B -65536 -65536 65535 65535 -65536 65535')
    check('half the scale, on the slope', member(half, [1, 1], 'P'), True)
    check('half the scale, just outside', member(half, [2, 1], 'P'), False)
    check('half the scale, just inside', member(half, [1, 2], 'P'), True)
    swapped = tabs('dims A B', 'poly P - B A 0 0 9 0 9 3 0 3')
    check('dimensions in the order of the line', member(swapped, [2, 8], 'P'), True)
    check('and not of the head', member(swapped, [8, 2], 'P'), False)

    nots = tabs('dims A', 'rect P - A 0 10', 'rect X P A 0 5', 'not N - X', 'and B - P !X', 'not Z - !X',
                'not K P X', 'or O - !X X')
    for value, names in ((3, 'P X Z O'), (7, 'P N B K O'), (20, 'N O'), (-65536, 'N O')):
        check('not and ! at %d' % value, gates.members(nots, [value]), {name.encode() for name in names.split()})
        check('and by the plan', member(nots, [value], 'N'), b'N' in {name.encode() for name in names.split()})
    check('spoilt: in nothing', gates.members(nots, [65536]), set())
    prints('spoilt: not in not', nots + tabs('events', 'A', '65536', '-65537'), 'P 0', 'X 0', 'N 0', 'B 0', 'Z 0', 'K 0',
           'O 0', 'taken 0', 'spoilt 2')
    prints('spoilt by a dimension that no gate names', tabs('dims A B', 'rect X - A 0 1', 'events', 'A B', '0 65536', '0 0'),
           'X 1', 'taken 1', 'spoilt 1')
    prints('spoilt once for several values', tabs('dims A B', 'events', 'A B', '70000 -70000'), 'taken 0', 'spoilt 1')

    slanted = tabs('dims A B', 'ellip E - A B 0 0 2 1 1 1')
    check('slanted, on the rim', member(slanted, [1, 1], 'E'), True)
    check('slanted, outside', member(slanted, [1, -1], 'E'), False)
    far = tabs('dims A B', 'ellip E - A B -65536 -65536 16777216 16777215 16777216 4096',
               'ellip F - A B -65536 65535 16777216 -16777215 16777216 4096')
    check('far along the axis', member(far, [65535, 65535], 'E'), True)
    check('far across the axis', member(far, [65535, -65536], 'E'), False)
    check('far along the other', member(far, [65535, -65536], 'F'), True)


# ---------------------------------------------------------------- 02 a: on the outline

def positions(label, table, name, on='', inside='', outside=''):
    """Where some events are, each two numbers, parted by commas."""
    for events, said in ((on, ON_OUTLINE), (inside, INSIDE), (outside, OUTSIDE)):
        for event in filter(None, events.split(',')):
            values = [int(value) for value in event.split()]
            check('%s, (%s)' % (label, event.strip()), position(table, values, name), said)


def on_outlines():
    example = tabs(*EXAMPLE)
    positions('Ring', example, 'Ring',
              on='600 200, 400 375, 344 368', inside='599 200, 350 200', outside='400 376, 343 368')
    check('Ring and what stands on it', gates.judge(EXAMPLE_PLAN, [344, 368]), (0, 0, 0b10111, 0b00010))
    check('(600, 200)', gates.judge(EXAMPLE_PLAN, [600, 200]), (0, 0, 0b01010, 0b00010))
    check('(400, 375)', gates.judge(EXAMPLE_PLAN, [400, 375]), (0, 0, 0b01011, 0b00010))
    check('(400, 376)', gates.judge(EXAMPLE_PLAN, [400, 376]), (0, 0, 0, 0))
    check('by its lines', gates.outlined(example, [344, 368]), {b'Ring'})
    check('a spoilt event by its lines', gates.outlined(example, [70000, 0]), set())

    def poly(vertices):
        return tabs('dims A B', 'poly P - A B ' + vertices)

    square = '0 0 10 0 10 10 0 10'
    for label, table in (('a square', poly(square)), ('walked twice', poly(square + ' ' + square)),
                         ('the other way round', poly('0 10 10 10 10 0 0 0'))):
        positions(label, table, 'P',
                  on='10 5, 0 5, 5 0, 5 10, 0 0, 10 0, 10 10, 0 10', inside='5 5, 9 5, 1 9',
                  outside='11 5, 10 11, -1 0, 11 10, 5 -1')
    positions('forth and back', poly(square + ' 0 0 0 10 10 10 10 0'), 'P', on='10 3, 0 0', outside='5 5, 11 3')
    positions('flat', poly('0 0 4 0 8 0'), 'P', on='4 0, 0 0, 8 0, 6 0', outside='4 1, 9 0, -1 0')
    positions('flat and upright', poly('3 0 3 4 3 -8'), 'P', on='3 4, 3 -8, 3 -5', outside='3 5, 2 0')
    positions('a point', poly('5 5 5 5 5 5'), 'P', on='5 5', outside='5 4, 6 5')
    positions('edges without length', poly('0 0 0 0 10 0 10 0 0 10 0 10'), 'P',
              on='0 0, 5 0, 5 5, 0 10', inside='2 2', outside='8 8')
    positions('slopes', poly('6 0 0 3 6 9'), 'P', on='2 2, 3 6, 6 4, 0 3', inside='3 3', outside='3 7, 8 -1, 1 2')
    # The star's level edge parts its core, wound twice, from its upper arm, wound once.
    positions('inner edge of a star', poly('0 10 6 -8 -10 3 10 3 -6 -8'), 'P',
              on='0 3, 2 3, 0 10', inside='0 2, 0 4, 0 0', outside='-6 6')
    positions('where an eight crosses itself', poly('-2 -1 2 1 2 -1 -2 1'), 'P',
              on='0 0, 2 0, -2 0', inside='1 0, -1 0', outside='0 1, -3 0')
    positions('a spike into the inside', poly(square + ' 0 0 6 6'), 'P', on='3 3, 6 6, 0 0', inside='7 7, 3 4, 4 3')
    positions('a square within a square', poly(square + ' 0 0 3 3 7 3 7 7 3 7 3 3'), 'P',
              on='5 3, 7 5, 2 2, 10 5', inside='5 5, 8 5')
    positions('the line of an edge beyond its end', poly('0 0 8 0 8 4 4 4 4 8 0 8'), 'P',
              on='4 4, 6 4, 4 6', inside='4 2, 2 4', outside='5 5')
    positions('the whole scale', poly('-65536 -65536 65535 65535 -65536 65535'), 'P',
              on='1 1, -65536 -65536, 65535 65535, -65536 65535, -65536 0', inside='1 2', outside='2 1, 65535 65534')
    # s is 2 to the 32 there.
    positions('beyond 32 bits', poly('-65536 -65536 0 32768 -65536 32768'), 'P',
              on='-65534 -65533', inside='-65534 3', outside='-65534 -65534')
    swapped = tabs('dims A B', 'poly P - B A 0 0 9 0 9 3 0 3')
    positions('dimensions in the order of the line', swapped, 'P', on='3 8', inside='2 8', outside='8 3')

    def ellip(fields):
        return tabs('dims A B', 'ellip E - A B ' + fields)

    positions('a circle', ellip('0 0 25 0 25 1'), 'E',
              on='5 0, 3 4, -4 3, 0 -5', inside='3 3, 0 0', outside='4 4, 6 0')
    positions('slanting', ellip('0 0 2 1 1 1'), 'E',
              on='1 1, 1 0, -1 -1, -1 0', inside='0 0', outside='2 1, 0 1, 1 -1')
    positions('slanting and wider', ellip('10 20 2 1 1 5'), 'E',
              on='11 19, 13 21, 13 22, 11 22, 9 21', inside='12 21, 12 22, 10 21', outside='13 23, 13 20, 11 18')
    positions('slanting the other way', ellip('0 0 2 -1 1 5'), 'E', on='1 1, 3 -1', inside='1 -1', outside='3 1')
    positions('as wide as the scale', ellip('-65536 -65536 16777216 0 16777216 961'), 'E',
              on='61440 -65536, -65536 61440', inside='61439 -65536, -65536 -65536', outside='61441 -65536')

    # Members only, and of the region's own shape.
    parents = tabs('dims A B', 'rect B - A 0 10', 'poly P B A B ' + square, 'ellip E P A B 0 0 25 0 25 4',
                   'poly In P A B -5 -5 15 -5 15 15 -5 15', 'not N - P', 'poly M N A B ' + square, 'rect C P A * *',
                   'quad Q P 1 B 1 0 Lo -1 Hi 0')
    most = 'B P E In C Hi'
    for event, inside, outline in (([10, 5], 'N M', 'M'), ([0, 5], most, 'P'), ([5, 0], most, 'P'),
                                   ([10, 0], 'N M', 'M'), ([0, 10], most, 'P E'), ([6, 8], most, 'E'),
                                   ([8, 6], most, 'E'), ([-6, 8], 'N', ''), ([5, 5], most, ''),
                                   ([15, 5], 'N', ''), ([0, -5], 'B N', '')):
        check('members with parents at %s' % event, gates.members(parents, event), words_of(inside))
        check('outlines with parents at %s' % event, gates.outlined(parents, event), words_of(outline))
        check('and by the plan', position(parents, event, 'P') is not None, True)
    same = tabs('dims A B', 'poly P - A B ' + square, 'poly K P A B ' + square, 'poly L K A B 5 5 10 0 20 0')
    check('parent and child on the same edge', gates.outlined(same, [10, 5]), words_of('P K'))
    check('all three at a corner', gates.outlined(same, [10, 0]), words_of('P K L'))
    check('on the youngest alone', gates.outlined(same, [6, 4]), words_of('L'))

    combined = tabs('dims A B', 'poly P - A B ' + square, 'ellip E - A B 5 5 25 0 25 1', 'and And - P E',
                    'or Or - P !E', 'not Not - !P', 'not Out - P', 'and Twice - P P', 'or Child P P Out',
                    'rect Box - A 10 20', 'and Boxes P Box Box')
    for event, inside, outline in (([10, 5], 'P E And Or Not Twice Child Box Boxes', 'P E'),
                                   ([10, 4], 'P Or Not Twice Child Box Boxes', 'P'),
                                   ([8, 9], 'P E And Or Not Twice Child', 'E'),
                                   ([5, 5], 'P E And Or Not Twice Child', ''), ([10, 11], 'Or Out Box', '')):
        check('combinations at %s' % event, gates.members(combined, event), words_of(inside))
        check('outlines of combinations at %s' % event, gates.outlined(combined, event), words_of(outline))
        check('and by the plan', position(combined, event, 'P') is not None, True)

    bounds = tabs('dims A B', 'rect R - A 0 10 B 0 10', 'quad Q - 1 A 1 5 L 4 H 5')
    for event in ([0, 0], [9, 9], [5, 0], [4, 9]):
        check('boxes and quadrants have none, %s' % event, gates.outlined(bounds, event), set())
        check('and by the plan', gates.judge(gates.compile_table(bounds, 4096)[2], event)[3], 0)
    last = tabs('dims A B', *['rect R%d - A * *' % k for k in range(63)], 'poly P - A B ' + square)
    check('region 63', gates.judge(gates.compile_table(last, 4096)[2], [10, 5]), (0, 0, 2 ** 64 - 1, 2 ** 63))

    # After a refusal neither set has a bit.
    deep = gates.compile_table(tabs('dims A B C', 'ellip E - A B 65535 0 1 0 1 1', 'poly P - A B 65535 0 65535 1 0 0'),
                               4096)[2]
    check('on both', gates.judge(deep, [65535, 1, 0]), (0, 0, 3, 3))
    check('on both, spoilt', gates.judge(deep, [65535, 1, 65536]), (24, 2, 0, 0))
    check('on a rim off the scale', gates.judge(deep, [65536, 0, 0]), (24, 0, 0, 0))
    check('on both, too short', gates.judge(deep, [65535, 1]), (23, 2, 0, 0))
    check('on both, too long', gates.judge(deep, [65535, 1, 0, 0]), (23, 4, 0, 0))
    check('on both, a word left over', gates.judge(deep + [0], [65535, 1, 0]), (22, len(deep), 0, 0))
    check('on both, cut off', gates.judge(deep[:-1], [65535, 1, 0]), (22, len(deep) - 1, 0, 0))
    check('on both, too long a plan', gates.judge(deep + [0] * 4096, [65535, 1, 0]), (21, 0, 0, 0))


# ---------------------------------------------------------------- 02 b: decimals in ellipses

def decimals():
    def ellip(fields):
        return tabs('dims A B', 'ellip E - A B ' + fields)

    def words(label, fields, kind, *numbers):
        accepted(label, ellip('7 -8 ' + fields), [2, 1, kind, 0, -1, 8, 0, 1, 7, -8, *numbers])

    words('a point anywhere', '1134.5 -234.5 1134.5 1', 7, 1134500, -234500, 1134500, 1000)
    words('none', '5 6 9 1', 3, 5, 6, 9, 1)
    words('in c11', '5.0 6 9 1', 7, 5000, 6000, 9000, 1000)
    words('in c12', '5 6.0 9 1', 7, 5000, 6000, 9000, 1000)
    words('in c22', '5 6 9.00 1', 7, 5000, 6000, 9000, 1000)
    words('in D2', '5 6 9 1.000', 7, 5000, 6000, 9000, 1000)
    words('one, two and three decimals', '1.5 0.05 1.005 0.25', 7, 1500, 50, 1005, 250)
    words('zeros at the end', '1.500 0.050 1.10 4.0', 7, 1500, 50, 1100, 4000)
    words('below zero', '2 -0.5 2 1', 7, 2000, -500, 2000, 1000)
    words('just below zero', '2 -0.001 2 1', 7, 2000, -1, 2000, 1000)
    words('below minus one', '2 -1.05 2 1', 7, 2000, -1050, 2000, 1000)
    words('zero with decimals', '2 0.000 2 1', 7, 2000, 0, 2000, 1000)
    words('the least', '0.001 0 0.001 0.001', 7, 1, 0, 1, 1)
    words('the greatest', '2000000.0 -1999999.999 2000000 4096', 7, 2000000000, -1999999999, 2000000000, 4096000)
    words('the greatest without decimals', '16777216 -16777215 16777216 4096', 3, 16777216, -16777215, 16777216, 4096)
    words('just beyond the range of decimals', '2000001 0 2000001 1', 3, 2000001, 0, 2000001, 1)
    words('a determinant of a millionth', '1134903.17 701408.733 433494.437 1', 7, 1134903170, 701408733, 433494437, 1000)

    for fields, number in generate.DECIMAL_LINES:
        label, table = 'decimals ' + fields, ellip('0 0 ' + fields)
        refused(label, table, number, 2) if number else accepted(label, table)
    for line in generate.POINTS_ELSEWHERE:
        line_fault('point in ' + line, line, 7)
    base = [b'5', b'6', b'9', b'1']
    for at in range(4):
        for other in (b'1', b'1.5'):
            for fields, number in ((generate.BAD_DECIMALS, 7), (generate.OFF_ENTRIES if at < 3 else generate.OFF_D2, 8)):
                for field in fields:
                    texts = [other if spot == at - 1 else each for spot, each in enumerate(base)]
                    texts[at] = field
                    line_fault('%.40r as number %d' % (field, at), b'\t'.join([b'ellip', b'E', b'-', b'A', b'B', b'0', b'0', *texts]), number)
    for matrix in generate.BAD_DECIMAL_MATRICES + generate.GOOD_DECIMAL_MATRICES:
        fields = [generate.decimal_text(random.Random(0), entry, True) for entry in matrix]
        table = b'dims\tA\tB\n' + b'\t'.join([b'ellip', b'E', b'-', b'A', b'B', b'0', b'0', *fields, b'1']) + b'\n'
        bad = matrix in generate.BAD_DECIMAL_MATRICES
        check('matrix %s' % fields, gates.compile_table(table, 4096)[:2], (11, 2) if bad else (0, 0))
    line_fault('digits without end', 'ellip E - A B 0 0 1' + '0' * 30000 + '.5 0 1 1', 8)
    line_fault('digits without end beside a point', 'ellip E - A B 0 0 1' + '0' * 30000 + ' 0 1 1.0', 8)
    line_fault('decimals without end', 'ellip E - A B 0 0 1.' + '0' * 30000 + ' 0 1 1', 7)
    line_fault('form before range', 'ellip E - A B 0 0 %s.5 0 1 -0.0' % FORTY, 7)
    line_fault('range before dimension', 'ellip E - A Z 0 0 1.5 0 1 4096.001', 8)
    line_fault('dimension before matrix', 'ellip E - A A 0 0 4.0 6 9 1', 9)
    line_fault('a mean off scale', 'ellip E - A B 65536 0 1.5 0 1 1', 8)
    line_fault('shape before form', 'ellip E - A B 0 0 -0.0 0 1', 5)
    prints('no decimals in the list', ellip('0 0 1.5 0 1 1') + tabs('events', 'A B', '0 0', '0 1.0'), 'refused 23 6')

    # 000's example 19: 37 along (1, -1) and 30 along (1, 1), and no whole point on its rim; D2 = 2 makes them 37 and 30 times the root of 2.
    example = '40 40 1134.5 -234.5 1134.5 '
    positions('example 19', ellip(example + '1'), 'E',
              inside='40 40, 66 14, 14 66, 61 61, 19 19', outside='67 13, 13 67, 62 62, 18 18')
    positions('D2 of 2', ellip(example + '2'), 'E',
              on='77 3, 3 77, 70 70, 10 10', inside='76 4, 69 69', outside='78 2, 71 71, 77 77')
    positions('D2 of 4', ellip(example + '4.0'), 'E',
              on='107 33, 33 107, 47 -27, -27 47', inside='106 33, 92 -12', outside='108 33, 107 47')
    positions('D2 of a half', ellip(example + '0.5'), 'E', on='55 55, 25 25', inside='58 22, 54 54', outside='59 21, 56 56')
    positions('a thousandth less than 2', ellip(example + '1.999'), 'E', inside='76 4', outside='77 3, 70 70')
    positions('a thousandth more', ellip(example + '2.001'), 'E', inside='77 3, 70 70', outside='78 2')

    positions('axes of 1 and 3', ellip('0 0 0.25 0 2.25 4'), 'E',
              on='1 0, -1 0, 0 3, 0 -3', inside='0 0, 0 2', outside='1 1, 2 0, 0 4')
    positions('a radius of 5', ellip('0 0 1000 0 1000 0.025'), 'E', on='5 0, 3 4, -4 3, 0 -5', inside='3 3', outside='4 4, 6 0')
    positions('a little less', ellip('0 0 1000 0 1000 0.024'), 'E', inside='3 3, 4 2', outside='5 0, 3 4')
    positions('a little more', ellip('0 0 1000 0 1000 0.026'), 'E', inside='5 0, 3 4', outside='4 4')
    positions('c11 a little less', ellip('0 0 999.999 0 1000 0.001'), 'E', on='0 1', inside='0 0', outside='1 0')
    positions('c11 a little more', ellip('0 0 1000.001 0 1000 0.001'), 'E', on='0 1', inside='1 0', outside='1 1')
    positions('the least of all', ellip('0 0 0.001 0 0.001 0.001'), 'E', inside='0 0', outside='1 0, 0 1')
    positions('tilted, times a half', ellip('0 0 1.0 0.5 0.5 2'), 'E', on='1 1, 1 0, -1 -1', inside='0 0', outside='2 1, 1 -1')
    positions('tilted, times a thousandth', ellip('0 0 0.002 0.001 0.001 1000'), 'E', on='1 1, 1 0', inside='0 0', outside='2 1, 0 1')

    # A radius of 90,509.67; both sides are about 2 to the 83.
    positions('the greatest of all', ellip('-65536 -65536 2000000 0 2000000.0 4096.0'), 'E',
              inside='24973 -65536, -65536 24973', outside='24974 -65536, -65536 24974, 65535 65535')
    positions('the right side is 2 to the 64', ellip('0 0 1073741.824 0 1073741.824 0.016'), 'E',
              inside='0 0, 131 0', outside='132 0, 16384 0')
    positions('a rim of 60,000', ellip('0 0 900000.0 0 2000000 4000'), 'E', on='60000 0, -60000 0', inside='59999 0', outside='60001 0')
    # The right side is less by 4 of about 3.6 times 10 to the 24.
    positions('less than doubles tell', ellip('0 0 900000.0 0.001 2000000 4000'), 'E', inside='59999 0', outside='60000 0, -60000 0')
    # Numbers of Fibonacci: the determinant is a millionth, and (28657, 17711), (17711, 10946) are the map of (1, 0), (0, 1).
    thin = '0 0 1134903.17 701408.733 433494.437 '
    positions('thin', ellip(thin + '1000'), 'E', on='28657 17711, 17711 10946, -28657 -17711', inside='0 0', outside='46368 28657, 28657 17710, 1 1')
    positions('thin, a little less', ellip(thin + '999.999'), 'E', inside='0 0', outside='28657 17711, 17711 10946')
    positions('thin, a little more', ellip(thin + '1000.001'), 'E', inside='28657 17711, 17711 10946', outside='46368 28657')
    line_fault('too thin', 'ellip E - A B 0 0 701408.733 433494.437 267914.296 1', 11)

    twins = tabs('dims A B', 'ellip Whole - A B 1 2 5 6 9 4', 'ellip Point - A B 1 2 5.0 6.000 9 4.00', 'ellip Other - A B 1 2 0.5 0.6 0.9 40')
    for x in range(-5, 8):
        for y in range(-6, 11):
            for found in (gates.members, gates.outlined):
                check('in other numbers at %d %d' % (x, y), found(twins, [x, y]) in (set(), words_of('Whole Point Other')), True)
            check('and by the plan', position(twins, [x, y], 'Point'), position(twins, [x, y], 'Whole'))
    swapped = tabs('dims A B', 'ellip E - B A 0 0 0.25 0 2.25 4')
    positions('dimensions in the order of the line', swapped, 'E', on='3 0, 0 1', outside='0 3, 1 1')
    family = tabs('dims A B', 'rect R - A 0 *', 'ellip E R A B 0 0 0.25 0 2.25 4', 'and C - E !R', 'not N E E', 'poly P E A B 0 3 1 0 0 0')
    for event, inside, outline in (([0, 3], 'R E P', 'E P'), ([1, 0], 'R E P', 'E P'), ([-1, 0], '', ''), ([0, 2], 'R E P', 'P'), ([0, 4], 'R', '')):
        check('with parents at %s' % event, gates.members(family, event), words_of(inside))
        check('outlines with parents at %s' % event, gates.outlined(family, event), words_of(outline))
        check('and by the plan', position(family, event, 'E') is not None, True)
    prints('counted', family + tabs('events', 'A B', '0 3', '1 0', '-1 0', '0 2', '70000 0'), 'R 3', 'E 3', 'C 0', 'N 0', 'P 3', 'taken 4', 'spoilt 1')


def words_of(line):
    return {name.encode() for name in line.split()}


# ---------------------------------------------------------------- 02 d: ellipsoids

def ellipsoids():
    def ellip3(fields, dimensions='A B C'):
        return tabs('dims A B C', 'ellip3 E - %s %s' % (dimensions, fields))

    accepted('the fields in order', tabs('dims A B C D', 'rect R - A 0 1', 'ellip3 E R D A C 7 -8 9 280 236 74 472 310 553 4'),
             [4, 2, 1, 0, -1, 3, 0, 0, 1, 8, 1, 0, 13, 3, 0, 2, 7, -8, 9, 280, 236, 74, 472, 310, 553, 4])
    accepted('the ends of the ranges', ellip3('-65536 65535 -65536 16777216 -16777215 0 16777216 0 16777216 4096'),
             [3, 1, 8, 0, -1, 13, 0, 1, 2, -65536, 65535, -65536, 16777216, -16777215, 0, 16777216, 0, 16777216, 4096])
    for behind, number in generate.ELLIP3_LINES:
        table = tabs('dims A B C D', 'ellip3 E - ' + behind)
        refused('ellip3 ' + behind, table, number, 2) if number else accepted('ellip3 ' + behind, table)
    good = 'A B C 0 0 0 5 1 1 5 1 5 9'.split()
    for at in range(3, 13):
        for field in generate.BAD_NUMBERS + ['1.5', '0.0', '-0.5', '1134.500']:
            fields = [name.encode() for name in good]
            fields[at] = field if isinstance(field, bytes) else field.encode()
            line_fault('%.40r as field %d' % (fields[at], at), b'\t'.join([b'ellip3', b'E', b'-', *fields]), 7, head='dims A B C')
        low, high = (-65536, 65535) if at < 6 else (-16777216, 16777216) if at < 12 else (1, 4096)
        for number in (low - 1, high + 1, 10 ** 40, -10 ** 40, 2 ** 32 + 1):
            line_fault('%d as field %d' % (number, at), 'ellip3 E - ' + ' '.join([*good[:at], str(number), *good[at + 1:]]), 8, head='dims A B C')
    for count in range(19):
        fields = ' '.join((good + ['1'] * 6)[:count])
        if count != 13:
            line_fault('%d fields' % count, ('ellip3 E - ' + fields).strip(), 5, head='dims A B C')
    line_fault('kind before shape', 'ellip4 E - A B C', 4, head='dims A B C')
    line_fault('shape before name', 'ellip3 9 - A B C 0 0 0 1 0 0 1 0 1', 5, head='dims A B C')
    line_fault('name before form', 'ellip3 9 - A B C 0 0 0 1.5 0 0 1 0 1 1', 6, head='dims A B C')
    line_fault('parent before form', 'ellip3 E !R A B C 0 0 0 1.5 0 0 1 0 1 1', 6, head='dims A B C')
    line_fault('form before range', 'ellip3 E - A B C 65536 0 0 1.5 0 0 1 0 1 1', 7, head='dims A B C')
    line_fault('range before dimension', 'ellip3 E - A A C 65536 0 0 1 0 0 1 0 1 1', 8, head='dims A B C')
    line_fault('dimension before matrix', 'ellip3 E - A B A 0 0 0 0 0 0 0 0 0 1', 9, head='dims A B C')
    line_fault('no third dimension in the head', 'ellip3 E - A B C 0 0 0 1 0 0 1 0 1 1', 9)
    refused('a dead parent', tabs('dims A B C', 'ellip3 E N A B C 0 0 0 1 0 0 1 0 1 1'), 15, 2)
    refused('a bad matrix before a dead parent', tabs('dims A B C', 'ellip3 E N A B C 0 0 0 1 0 0 1 0 0 1'), 11, 2)

    # Of c11, the upper left determinant and the whole one, those above 0.
    for matrices, wanted in ((generate.C11_BAD, (False, True, True)), (generate.MINOR_BAD, (True, False, True)), (generate.WHOLE_BAD, (True, True, False)),
                             (generate.GOOD_ELLIPSOIDS, (True, True, True)), (generate.MORE_BAD, None)):
        for c11, c12, c13, c22, c23, c33 in matrices:
            whole = c11 * (c22 * c33 - c23 ** 2) - c12 * (c12 * c33 - c13 * c23) + c13 * (c12 * c23 - c13 * c22)
            above = c11 > 0, c11 * c22 - c12 ** 2 > 0, whole > 0
            label = 'matrix %d %d %d %d %d %d' % (c11, c12, c13, c22, c23, c33)
            check(label, sum(above) < 2 if wanted is None else above == wanted, True)
            table = ellip3('0 0 0 %d %d %d %d %d %d 1' % (c11, c12, c13, c22, c23, c33))
            accepted(label, table) if all(above) else refused(label, table, 11, 2)

    # Axes of 21, 30 and 60; a third of one and two thirds of the others are on the rim.
    upright = ellip3('0 0 0 441 0 0 900 0 3600 1')
    positions('upright', upright, 'E', on='21 0 0, -21 0 0, 0 30 0, 0 -30 0, 0 0 60, 0 0 -60, 7 20 40, -7 20 -40, 14 10 40, 14 -20 20',
              inside='0 0 0, 20 0 0, 0 29 0, 0 0 59, 7 20 39, 7 19 40, 6 20 40, 13 10 40',
              outside='22 0 0, 0 31 0, 0 0 61, 7 20 41, 7 21 40, 8 20 40, 20 7 40, 21 0 1')
    positions('four times as wide', ellip3('100 -200 300 441 0 0 900 0 3600 16'), 'E',
              on='184 -200 300, 100 -320 300, 100 -200 540, 128 -120 460, 72 -280 140',
              inside='183 -200 300, 128 -120 459', outside='185 -200 300, 128 -119 460')
    # The dimensions of the line, not of the head.
    positions('in another order', ellip3('0 0 0 441 0 0 900 0 3600 1', 'C A B'), 'E', on='30 0 0, 0 60 0, 0 0 21, 20 40 7', outside='0 0 22, 7 20 40, 0 61 0')
    # A sphere of 10: (6, 6, 6) is inside in each pair of dimensions.
    positions('a sphere', ellip3('0 0 0 100 0 0 100 0 100 1'), 'E', on='10 0 0, 6 8 0, 6 0 8, 0 -6 8', inside='5 5 5, 6 6 5', outside='6 6 6, 10 0 1, 7 8 0')

    # Axes along (1, 2, 2), (2, 1, -2), (2, -2, 1), of 10, 6 and 3 times these; D2 of 9 has (1, 2, 2) times them, the sum (46, 20, 2).
    # Elsewhere the sums of x + 2y + 2z over 90, 2x + y - 2z over 54 and 2x - 2y + z over 27 are squared and added.
    turned = '280 236 74 472 310 553 '
    positions('turned', ellip3('0 0 0 ' + turned + '1'), 'E', on='10 20 20, -10 -20 -20, 12 6 -12, -12 -6 12, 6 -6 3, -6 6 -3',
              inside='0 0 0, 9 18 18, 10 4 -10, 4 -4 2, 6 6 3, 6 -6 -3, 3 -6 6', outside='11 20 20, 10 20 21, -10 20 20, 12 6 12, 8 -8 4, 6 -6 4, 7 -6 3')
    positions('turned and wider', ellip3('5 -5 50 ' + turned + '9'), 'E', on='51 15 52, -41 -25 48, 35 55 110, 41 13 14, 23 -23 59',
              inside='50 14 52, 5 -5 50, 51 16 52, 7 15 96', outside='51 15 53, 52 15 52, 51 -25 52')
    # The same with 3, 6, 10: c12 and c23 below 0, c13 above.
    positions('turned the other way', ellip3('0 0 0 553 -310 74 472 -236 280 1'), 'E', on='3 6 6, 12 6 -12, 20 -20 10, -20 20 -10',
              inside='0 0 0, 19 -19 9', outside='20 20 10, 20 -20 -10, 10 -20 20, 3 6 7, 12 6 12')
    # Equal variances and covariances: adj is 3 on its diagonal and -1 beside it, the determinant is 4; (1, 1, 1) has 3, (1, -1, 0) has 8.
    equal = '0 0 0 2 1 1 2 1 2 '
    positions('equal covariances', ellip3(equal + '2'), 'E', on='1 -1 0, 0 1 -1, -1 0 1', inside='1 1 1, 1 0 0, 1 1 0', outside='2 2 2, 2 0 0, 1 -1 1, 1 1 -1')
    positions('equal covariances, wider', ellip3(equal + '3'), 'E',
              on='2 2 2, 2 0 0, 0 2 0, 0 0 -2', inside='1 -1 0, 2 1 1', outside='2 2 0, 0 -2 -2, 2 -1 0, 1 -1 -2')
    positions('equal covariances, wider still', ellip3(equal + '4'), 'E', on='2 2 0, 0 -2 -2, 2 0 2', inside='2 2 2, 2 0 0', outside='2 -1 0, 3 1 0')

    # With c13 and c23 of 0 and the third value at its mean, the ellipse of the first two dimensions.
    for fields, flat in (('400 200 50 40000 0 0 30625 0 10000 1', '400 200 40000 0 30625 1'), ('1 2 -3 5 6 0 9 0 7 4', '1 2 5 6 9 4'),
                         ('0 0 0 2 1 0 1 0 1 5', '0 0 2 1 1 5')):
        both = tabs('dims A B C', 'ellip3 E - A B C ' + fields, 'ellip F - A B ' + flat)
        mx, my, mz = [int(field) for field in fields.split()[:3]]
        for dx, dy in [(200, 0), (0, 175), (0, 176), (56, 168), (-56, 168)] + list(itertools.product(range(-6, 7), repeat=2)):
            check('flat %s at %d %d' % (fields, dx, dy), position(both, [mx + dx, my + dy, mz], 'E'), position(both, [mx + dx, my + dy, mz], 'F'))
    marked = ellip3('400 200 50 40000 0 0 30625 0 10000 1')
    positions('01\'s Ring with a third dimension', marked, 'E', on='600 200 50, 400 375 50, 344 368 50, 400 200 150, 400 200 -50, 400 340 110, 520 200 130',
              inside='599 200 50, 400 340 109, 344 367 50', outside='400 376 50, 600 200 51, 400 200 151, 400 340 111')

    # The determinant is 2 to the 72; 31 times 4096 is 126,976, and so is (6, 21, 22) times 4096.
    wide = ellip3('-65536 -65536 -65536 16777216 0 0 16777216 0 16777216 961')
    positions('as wide as the scale', wide, 'E', on='61440 -65536 -65536, -65536 61440 -65536, -65536 -65536 61440, -40960 20480 24576',
              inside='-65536 -65536 -65536, 61439 -65536 -65536, -40960 20480 24575, -65280 -65536 -65536',
              outside='61441 -65536 -65536, -40960 20480 24577, 65535 65535 65535')
    positions('wider than the scale', ellip3('-65536 -65536 -65536 16777216 0 0 16777216 0 16777216 4096'), 'E', inside='65535 65535 65535, 65535 -65536 65535')
    positions('as wide as can be, tilted', ellip3('-65536 -65536 65535 16777216 16777215 -16777214 16777216 -16777215 16777216 4096'), 'E',
              inside='65535 65535 -65536, -65536 -65536 65535', outside='65535 65535 65535, 65535 -65536 65535')
    # A determinant of 1: the rows (1, 0, 0), (1000, 1, 0), (2000, 3000, 1) take (1, 0, 0), (0, 1, 0), (0, 0, 1) to its columns.
    thin = '0 0 0 1 1000 2000 1000001 2003000 13000001 '
    positions('thin', ellip3(thin + '1'), 'E', on='1 1000 2000, 0 1 3000, 0 0 1, -1 -1000 -2000',
              inside='0 0 0', outside='1 1000 2001, 1 1001 5000, 1 0 0, 0 1 0')
    positions('thin and wider', ellip3(thin + '2'), 'E', on='1 1001 5000, 1 1000 2001, 0 1 3001, 0 1 2999',
              inside='1 1000 2000, 0 0 1', outside='0 0 2, 1 1001 5001')
    refused('too thin', ellip3('0 0 0 1 1000 2000 1000001 2003000 13000000 1'), 11, 2)

    family = tabs('dims A B C', 'rect R - A 0 *', 'ellip3 E R A B C 0 0 0 441 0 0 900 0 3600 1', 'and Both - E !R', 'not N E E', 'poly P E B C 20 0 20 90 0 0',
                  'ellip3 K E B C A 0 0 0 400 0 0 1600 0 49 2')
    for event, inside, outline in (([7, 20, 40], 'R E P', 'E P'), ([0, 20, 40], 'R E P K', 'P K'), ([-7, 20, 40], '', ''), ([7, 20, 41], 'R', ''),
                                   ([0, 0, 60], 'R E', 'E'), ([7, 0, 40], 'R E K', 'K')):
        check('with parents at %s' % event, gates.members(family, event), words_of(inside))
        check('outlines with parents at %s' % event, gates.outlined(family, event), words_of(outline))
        check('and by the plan', position(family, event, 'E') is not None, True)
    prints('counted', family + tabs('events', 'A B C', '7 20 40', '0 20 40', '-7 20 40', '7 20 41', '0 0 60', '0 0 65536'),
           'R 4', 'E 3', 'Both 0', 'N 0', 'P 2', 'K 1', 'taken 5', 'spoilt 1')
    words = gates.compile_table(upright, 4096)[2]
    check('judged', gates.judge(words, [7, 20, 40]), (0, 0, 1, 1))
    check('judged, spoilt', gates.judge(words, [7, 20, 65536]), (24, 2, 0, 0))
    check('judged, too short', gates.judge(words, [21, 0]), (23, 2, 0, 0))
    check('judged, a word left over', gates.judge(words + [0], [21, 0, 0]), (22, 19, 0, 0))
    # A float of the first issue knows kinds 1 to 6.
    known, gates.STEP_KINDS = gates.STEP_KINDS, range(1, 7)
    check('a first float', gates.judge(words, [7, 20, 40]), (22, 2, 0, 0))
    check('a first float, behind other steps', gates.check_plan(gates.compile_table(family, 4096)[2]), (22, 9))
    gates.STEP_KINDS = known


# ---------------------------------------------------------------- 01, "The plan": aboard

def plans():
    def form(label, words, place):
        check(label, gates.check_plan(words), (0, 0) if place is None else (22, place))

    check('over 4,096 words', gates.check_plan([0] * 4097), (21, 0))
    check('over 4,096 words of a good plan', gates.check_plan(EXAMPLE_PLAN + [0] * 4096), (21, 0))
    form('4,096 words', [1, 0] + [0] * 4094, 2)
    form('empty', [], 0)
    form('one good word', [3], 1)
    form('one bad word', [9], 0)
    form('n is 0', [0, 0], 0)
    form('no step', [8, 0], None)
    form('65 steps', [1, 65], 1)
    form('-1 steps', [1, -1], 1)
    form('64 steps, none there', [1, 64], 2)

    form('a bad word in a body cut short', [2, 1, 1, 0, -1, 3, 5], 6)
    form('a body cut short', [2, 1, 1, 0, -1, 3, 1], 7)
    box = [2, 1, 1, 0, -1, 6, 0, 1, 9, 1, 2, 8]
    form('a box', box, None)
    for place, word, bad in ((2, 0, 2), (2, 7, 5), (2, 12, 2), (3, 1, 3), (3, -1, 3), (4, 0, 4), (4, -2, 4),
                             (5, 0, 5), (5, 4, 5), (5, 27, 5), (6, 2, 6), (6, -1, 6), (9, 0, 9), (7, -65537, 7),
                             (7, 65536, 7), (8, 65537, 8), (8, 1, 8), (8, 0, 8), (8, -65536, 8), (5, 3, 9),
                             (5, 9, 12), (1, 0, 2), (0, 1, 9), (1, 2, 12), (2, 8, 5), (2, 9, 2)):
        words = list(box)
        words[place] = word
        form('box, word %d is %d' % (place, word), words, bad)
    form('box of the whole scale', [1, 1, 1, 0, -1, 3, 0, -65536, 65536], None)
    form('bounds crossed at the least max', [1, 1, 1, 0, -1, 3, 0, -65535, -65535], 8)
    form('more triples than dimensions', [1, 1, 1, 0, -1, 6, 0, 0, 1, 0, 0, 1], 9)
    form('a word left over', box + [1], 12)
    form('fewer steps than written', [1, 1, 1, 0, -1, 3, 0, 0, 1, 1, 0, -1, 3, 0, 0, 1], 9)
    form('but a region failed before', [1, 1, 1, 1, -1, 3, 0, 0, 1, 1, 0, -1, 3, 0, 0, 1], 3)
    form('a kind hides the rest', [2, 1, 9, 70, -9, 1], 2)

    ellipse = [2, 1, 3, 0, -1, 8, 0, 1, 5, 5, 5, 6, 9, 4]
    form('an ellipse', ellipse, None)

    def ellipse_with(matrix, d2, end=None):
        return (ellipse[:10] + list(matrix) + [d2])[:end]

    form('a bad matrix', ellipse_with((4, 6, 9), 4), 10)
    form('c11 of 0', ellipse_with((0, 0, 9), 4), 10)
    form('c11 below 0', ellipse_with((-5, 6, -9), 4), 10)
    form('c12 off range', ellipse_with((-5, 16777217, 9), 4), 11)
    form('c22 off range', ellipse_with((-5, 0, -16777217), 4), 12)
    form('c11 off range', ellipse_with((16777217, 0, 16777217), 4), 10)
    form('a bad matrix and a bad D2', ellipse_with((4, 6, 9), 0), 10)
    form('a good matrix and a bad D2', ellipse_with((5, 6, 9), 4097), 13)
    form('a bad matrix and no D2', ellipse_with((4, 6, 9), 4, 13), 10)
    form('a good matrix and no D2', ellipse_with((5, 6, 9), 4, 13), 13)
    form('no c22', ellipse_with((0, 6, 9), 4, 12), 12)
    form('no c12', ellipse_with((0, 6, 9), 4, 11), 11)
    form('a mean off range comes before', ellipse[:8] + [65536, 0, 4, 6, 9, 4], 8)
    form('ellipse of length 7', [2, 1, 3, 0, -1, 7, 0, 1, 5, 5, 5, 6, 9], 5)
    form('ellipse of one dimension', [2, 1, 3, 0, -1, 8, 1, 1, 5, 5, 5, 6, 9, 4], 7)

    def decimals_with(matrix, d2, end=None):
        return ([2, 1, 7, 0, -1, 8, 0, 1, 5, 5] + list(matrix) + [d2])[:end]

    form('kind 7', decimals_with((5, 6, 9), 4), None)
    for matrix in generate.GOOD_DECIMAL_MATRICES:
        for d2, bad in ((1, None), (4096000, None), (0, 13), (-1, 13), (4096001, 13)):
            form('kind 7, matrix %d %d %d, D2 %d' % (*matrix, d2), decimals_with(matrix, d2), bad)
        form('kind 7, matrix %d %d %d, no D2' % matrix, decimals_with(matrix, 1, 13), 13)
        form('kind 7, matrix %d %d %d, a word left over' % matrix, decimals_with(matrix, 1) + [0], 14)
    for matrix in generate.BAD_DECIMAL_MATRICES:
        for d2 in (1, 0, 4096001):
            form('kind 7, bad matrix %d %d %d, D2 %d' % (*matrix, d2), decimals_with(matrix, d2), 10)
        form('kind 7, bad matrix %d %d %d, no D2' % matrix, decimals_with(matrix, 1, 13), 10)
        form('kind 7, bad matrix %d %d %d, no c22' % matrix, decimals_with(matrix, 1, 12), 12)
    form('kind 7, c11 off range', decimals_with((2000000001, 0, 1), 4), 10)
    form('kind 7, c12 off range', decimals_with((-5, 2000000001, 9), 4), 11)
    form('kind 7, c12 off range below', decimals_with((-5, -2000000001, 9), 4), 11)
    form('kind 7, c22 off range', decimals_with((-5, 0, -2000000001), 4), 12)
    form('kind 7, no c12', decimals_with((0, 6, 9), 4, 11), 11)
    form('kind 7, a mean off range', [2, 1, 7, 0, -1, 8, 0, 1, 65536, 0, 4, 6, 9, 4], 8)
    form('kind 7, a mean in thousandths', [2, 1, 7, 0, -1, 8, 0, 1, 5, 400000, 5, 6, 9, 4], 9)
    form('kind 7 of length 7', [2, 1, 7, 0, -1, 7, 0, 1, 5, 5, 5, 6, 9], 5)
    form('kind 7 of length 9', [2, 1, 7, 0, -1, 9, 0, 1, 5, 5, 5, 6, 9, 1, 1], 5)
    form('kind 7 of one dimension', [2, 1, 7, 0, -1, 8, 1, 1, 5, 5, 5, 6, 9, 4], 7)
    form('kind 3 with an entry of kind 7', ellipse_with((16777217, 0, 5), 4), 10)
    form('kind 3 with a D2 of kind 7', ellipse_with((5, 6, 9), 4096000), 13)

    def ellipsoid_with(matrix, d2, end=None):
        return ([3, 1, 8, 0, -1, 13, 0, 1, 2, 5, 5, 5] + list(matrix) + [d2])[:end]

    for matrix in generate.GOOD_ELLIPSOIDS:
        for d2, bad in ((1, None), (4096, None), (0, 18), (-1, 18), (4097, 18)):
            form('kind 8, matrix %d %d %d %d %d %d, D2 %d' % (*matrix, d2), ellipsoid_with(matrix, d2), bad)
        form('kind 8, matrix %d %d %d %d %d %d, a word left over' % matrix, ellipsoid_with(matrix, 1) + [0], 19)
        for end in range(19):
            form('kind 8, matrix %d %d %d %d %d %d, cut off after %d' % (*matrix, end), ellipsoid_with(matrix, 1, end), end)
    for matrix in generate.BAD_ELLIPSOIDS:
        label = 'kind 8, bad matrix %d %d %d %d %d %d' % matrix
        for d2 in (1, 0, 4097, -2147483648):
            form(label + ', D2 %d' % d2, ellipsoid_with(matrix, d2), 12)
        form(label + ', no D2', ellipsoid_with(matrix, 1, 18), 12)
        for end in range(12, 18):
            form(label + ', cut off after %d' % end, ellipsoid_with(matrix, 1, end), end)
        for at in range(6):
            for word in (16777217, -16777217, 2147483647, -2147483648):
                other = list(matrix)
                other[at] = word
                form(label + ', entry %d is %d' % (at, word), ellipsoid_with(other, 1), 12 + at)
                form(label + ', entry %d is %d, and cut off' % (at, word), ellipsoid_with(other, 1, 13 + at), 12 + at)
    form('kind 8, two entries off range', ellipsoid_with((1, 0, 16777217, 1, -16777217, 1), 0), 14)
    whole = ellipsoid_with((5, 1, 1, 5, 1, 5), 9)
    form('kind 8', whole, None)
    for place, word, bad in ((0, 2, 8), (0, 9, 0), (1, 0, 2), (2, 7, 5), (2, 3, 5), (2, 9, 2), (3, 1, 3), (4, 0, 4), (5, 8, 5), (5, 12, 5),
                             (5, 14, 5), (5, 0, 5), (6, 3, 6), (6, -1, 6), (7, 0, 7), (7, 3, 7), (8, 0, 8), (8, 1, 8), (8, 3, 8), (8, -1, 8),
                             (6, 1, 7), (6, 2, 8), (7, 2, 8),
                             (9, 65536, 9), (9, -65537, 9), (10, 65536, 10), (10, -65537, 10), (11, 65536, 11), (11, -65537, 11),
                             (9, -65536, None), (11, 65535, None), (12, 0, 12), (12, -5, 12), (15, 0, 12), (17, 0, 12), (13, 5, 12), (14, -5, 12), (16, 5, 12),
                             (17, -16777216, 12), (17, 16777216, None)):
        words = list(whole)
        words[place] = word
        form('kind 8, word %d is %d' % (place, word), words, bad)
    form('kind 8, means before a bad matrix', [3, 1, 8, 0, -1, 13, 0, 1, 2, 5, 5, 65536, 0, 0, 0, 0, 0, 0, 0], 11)
    form('kind 8 of length 12', [3, 1, 8, 0, -1, 12] + whole[6:18], 5)
    form('kind 8 of length 14', [3, 1, 8, 0, -1, 14] + whole[6:] + [1], 5)
    form('kind 8 with the dimensions in another order', [8, *whole[1:6], 7, 0, 5, *whole[9:]], None)

    polygon = [2, 1, 2, 0, -1, 8, 1, 0, 0, 0, 5, 0, 5, 65535]
    form('a polygon', polygon, None)
    form('vertex off range', polygon[:-1] + [65536], 13)
    form('polygon of odd length', [2, 1, 2, 0, -1, 9] + polygon[6:] + [0], 5)
    form('polygon too short', [2, 1, 2, 0, -1, 6, 1, 0, 0, 0, 5, 0], 5)
    form('polygon of 256 vertices', [2, 1, 2, 0, -1, 514, 1, 0] + [7] * 512, None)
    form('polygon of 257 vertices', [2, 1, 2, 0, -1, 516, 1, 0] + [7] * 514, 5)
    form('polygon of one dimension', [2, 1, 2, 0, -1, 8, 1, 1], 7)

    first = [1, 2, 1, 1, -1, 3, 0, 0, 5]
    form('regions in any order', first + [4, 0, 1, 2, 2, 3], None)
    form('own region as parent', first + [4, 0, 0, 2, 2, 3], 11)
    form('own region as operand', first + [4, 0, 1, 2, 2, 0], 14)
    form('negative operand', first + [4, 0, 1, 2, -1, 3], 13)
    form('operand never set', first + [4, 0, 1, 2, 2, 4], 14)
    form('region set earlier', first + [4, 1, 1, 2, 2, 3], 10)
    form('one operand for and', first + [4, 0, 1, 1, 2], 12)
    form('64 operands', first + [5, 0, 1, 64] + [2] * 64, 12)
    form('63 operands', first + [5, 0, 1, 63] + [2] * 63, None)
    form('two operands for not', first + [6, 0, 1, 2, 2, 3], 12)
    form('not', first + [6, 0, 1, 1, 3], None)
    form('second step missing', first, 9)
    for kind in range(9, 13):
        form('kind %d' % kind, [2, 1, kind, 0, -1, 8], 2)
    form('kind 8, cut off after its length', [3, 1, 8, 0, -1, 13], 6)
    form('kind 8 with the length of kind 7', [3, 1, 8, 0, -1, 8], 5)
    form('kind 7, cut off after its length', [2, 1, 7, 0, -1, 8], 6)
    for end in range(len(EXAMPLE_PLAN)):
        form('the example cut off after %d' % end, EXAMPLE_PLAN[:end], end)

    check('judging', gates.judge(EXAMPLE_PLAN, [350, 200]), (0, 0, 0b10111, 0))
    check('judging an event too short', gates.judge(EXAMPLE_PLAN, [350]), (23, 1, 0, 0))
    check('judging an event too long', gates.judge(EXAMPLE_PLAN, [350, 70000, 1]), (23, 3, 0, 0))
    check('judging an event of nothing', gates.judge(EXAMPLE_PLAN, []), (23, 0, 0, 0))
    check('judging a spoilt event', gates.judge(EXAMPLE_PLAN, [350, 65536]), (24, 1, 0, 0))
    check('first bad value', gates.judge(EXAMPLE_PLAN, [-65537, 65536]), (24, 0, 0, 0))
    check('malformed before ragged', gates.judge(EXAMPLE_PLAN[:7], []), (22, 7, 0, 0))
    check('long before all', gates.judge([0] * 4097, []), (21, 0, 0, 0))
    zeros = [0] * 64
    check('counting', gates.count(EXAMPLE_PLAN, [600, 200, 70000, 0]), (0, 0, 1, 1, [0, 1, 0, 1] + [0] * 60, 0))
    check('counting a ragged list', gates.count(EXAMPLE_PLAN, [600, 200, 1]), (23, 3, 0, 0, zeros, 0))
    check('counting an empty list', gates.count(EXAMPLE_PLAN, []), (0, 0, 0, 0, zeros, 0))
    check('counting by a bad plan', gates.count(EXAMPLE_PLAN[:-1], [1]), (22, 40, 0, 0, zeros, 0))
    check('counting by a long plan', gates.count([1] * 4097, [1]), (21, 0, 0, 0, zeros, 0))


# ---------------------------------------------------------------- gatecount

def program():
    table = tabs('dims A', 'rect X - A 0 10')
    head = tabs('dims A')
    two = tabs('dims A B')

    prefix = table + tabs('events', 'A')
    for size, wanted in ((65536, tabs('X 0', 'taken 0', 'spoilt 1')), (65537, tabs('refused 1 0'))):
        data = prefix + b'9' * (size - len(prefix) - 1) + b'\n'
        check('input of %d bytes' % size, (len(data), gates.gatecount(data)), (size, wanted))
    prints('long before all', b'x' * 65537, 'refused 1 0')
    prints('a table part over 32,768', head + b'x' * 33000 + b'\nevents\nA\n1\n', 'refused 1 0')
    prints('without a list all is table', head + b'x' * 33000, 'refused 1 0')
    for line in (b'events\r', b'events\t', b' events', b'Events', b'events '):
        prints('%r is a table line' % line, table + line + b'\n5\n', 'refused 4 3')
    prints('events first', b'events\n1\n', 'refused 2 0')
    prints('events alone', b'events', 'refused 2 0')
    prints('events without LF', table + b'events', 'refused 23 3')
    prints('events without LF below a bad table', tabs('dims') + b'events', 'refused 3 1')
    prints('table first', tabs('dims A', 'bogus', 'events', 'A', 'x'), 'refused 4 2')
    prints('no list', table, 'X 0', 'taken 0', 'spoilt 0')
    prints('no list, no last LF', table[:-1], 'refused 2 0')
    prints('no list, over 32,768', table + b'rect\tY\t-\tA\t0\t' + b'1' * 40000 + b'\n', 'refused 1 0')
    prints('lowest bad line', table + tabs('events', 'A', '1', '2 3', 'x') + b'4', 'refused 23 6')
    prints('last line open', table + tabs('events', 'A', '1') + b'4', 'refused 23 6')
    prints('last line open and empty of meaning', table + tabs('events', 'A') + b'\t', 'refused 23 5')
    prints('empty line', table + tabs('events', 'A', '1', '', '2'), 'refused 23 6')
    prints('empty line last', table + tabs('events', 'A', '1', ''), 'refused 23 6')
    prints('empty line alone', table + tabs('events', 'A', ''), 'refused 23 5')
    prints('events again', table + tabs('events', 'A', '1', 'events', 'A', '2'), 'refused 23 6')
    prints('events twice, no event between', table + tabs('events', 'A', 'events', 'A'), 'refused 23 5')
    prints('events again without LF', table + tabs('events', 'A') + b'events', 'refused 23 5')
    prints('too few', two + tabs('events', 'A B', '1 2', '1'), 'refused 23 5')
    prints('too many', two + tabs('events', 'A B', '1 2', '1 2 3'), 'refused 23 5')
    prints('tab at the end', two + tabs('events', 'A B', '1 2 '), 'refused 23 4')
    prints('ragged in all but not by lines', two + tabs('events', 'A B', '1', '2 3 4'), 'refused 23 4')
    for number in ('4294967296', '2147483648', '-2147483649', '2147483647', '-2147483648', FORTY, '-' + FORTY,
                   '65536', '-65537', '1' + '0' * 5000, '18446744073709551616', '4294967301'):
        prints('far number %.30s' % number, table + tabs('events', 'A', number, '5'), 'X 1', 'taken 1', 'spoilt 1')
    for field in generate.BAD_EVENTS:
        check('bad number %r' % field, gates.gatecount(table + b'events\nA\n5\n' + field + b'\n'), tabs('refused 23 6'))
    prints('a long bad number', table + tabs('events', 'A', FORTY + 'x'), 'refused 23 5')
    prints('spoilt before bad', table + tabs('events', 'A', FORTY, 'x'), 'refused 23 6')
    prints('no event', table + tabs('events', 'A'), 'X 0', 'taken 0', 'spoilt 0')
    prints('head alone', head, 'taken 0', 'spoilt 0')
    prints('head alone, events', head + tabs('events', 'A', '1', '70000'), 'taken 1', 'spoilt 1')
    prints('limits', head + tabs('events', 'A', '-65536', '65535', '65536', '-65537'), 'taken 2', 'spoilt 2')
    prints('empty input', b'', 'refused 2 0')
    long_plan = tabs('dims A B', *['poly P%d - A B' % k + ' 1 2' * 256 for k in range(8)])
    prints('long plan before a bad list', long_plan + tabs('events', 'A B', 'x'), 'refused 17 0')


# Tables that are refused, whatever follows them, and how.
REFUSED_TABLES = (
    ('empty', b'', 'refused 2 0'), ('head', tabs('dims'), 'refused 3 1'), ('kind', tabs('dims A', 'bogus'), 'refused 4 2'),
    ('shape', tabs('dims A', 'rect X - A 0 10', 'rect Y - A 0'), 'refused 5 3'), ('name', tabs('dims A', 'rect X - A 0 10', 'rect 9 - A 0 1'), 'refused 6 3'),
    ('number', tabs('dims A', 'rect X - A 0 10', 'rect Y - A 00 1'), 'refused 7 3'),
    ('scale', tabs('dims A', 'rect X - A 0 10', 'rect Y - A %s *' % FORTY), 'refused 8 3'),
    ('dimension', tabs('dims A', 'rect X - A 0 10', 'rect Y - B 0 1'), 'refused 9 3'),
    ('bounds', tabs('dims A', 'rect X - A 0 10', 'rect Y - A 1 1'), 'refused 10 3'), ('matrix', tabs('dims A B', 'ellip Y - A B 0 0 4 6 9 1'), 'refused 11 2'),
    ('tiling', tabs('dims A', 'rect X - A 0 10', 'quad Q - 1 A 1 0 Lo -1'), 'refused 12 3'),
    ('crowded', tabs('dims A', *['rect X%d - A 0 1' % k for k in range(65)]), 'refused 13 66'),
    ('twin', tabs('dims A', 'rect X - A 0 10', 'rect X - A 0 10'), 'refused 14 3'), ('dead', tabs('dims A', 'not N - M'), 'refused 15 2'),
    ('circle', tabs('dims A', 'not N - N'), 'refused 16 2'),
    ('long plan', tabs('dims A B', *['poly P%d - A B' % k + ' 1 2' * 256 for k in range(8)]), 'refused 17 0'))


# ---------------------------------------------------------------- 02 e: gatesheet

def several_lists():
    head = tabs('dims A')
    one = tabs('dims A', 'rect X - A 0 10')
    table = tabs('dims A', 'rect X - A 0 10', 'rect Y X A 5 20')
    two = tabs('dims A B')

    # A line per region: name, each list, the sum, then the count again and the parent's or the taken (e1); taken, unclaimed (f2), spoilt,
    # events (e2, e6).
    example, first, third = tabs(*EXAMPLE), ('600 200', '400 375'), ('599 200', '400 376', '350 200', '70000 0')
    sheets('01\'s example in three lists', example + tabs('events', 'FSC SSC', *first, 'events', 'FSC SSC', 'events', 'FSC SSC', *third),
           'Live 1 0 2 3 3 4', 'Ring 2 0 2 4 4 5', 'Lo 0 0 1 1 1 4', 'Hi 2 0 1 3 3 4', 'Both 0 0 1 1 1 5', 'taken 2 0 3 5',
           'unclaimed 0 0 1 1', 'spoilt 0 0 1 1', 'events 6')
    sheets('01\'s example in one list', example + tabs('events', 'FSC SSC', *first, *third),
           'Live 3 3 3 4', 'Ring 4 4 4 5', 'Lo 1 1 1 4', 'Hi 3 3 3 4', 'Both 1 1 1 5', 'taken 5 5', 'unclaimed 1 1', 'spoilt 1 1', 'events 6')
    sheets('01\'s example, the lists exchanged', example + tabs('events', 'FSC SSC', *third, 'events', 'FSC SSC', *first),
           'Live 2 1 3 3 4', 'Ring 2 2 4 4 5', 'Lo 1 0 1 1 4', 'Hi 1 2 3 3 4', 'Both 1 0 1 1 5', 'taken 3 2 5', 'unclaimed 1 0 1',
           'spoilt 1 0 1', 'events 6')
    sheets('01\'s example without a list', example, 'Live 0 0 0', 'Ring 0 0 0', 'Lo 0 0 0', 'Hi 0 0 0', 'Both 0 0 0', 'taken 0', 'unclaimed 0', 'spoilt 0',
           'events 0')
    sheets('two lists', table + tabs('events', 'A', '1', '7', 'events', 'A', '7', '30', '70000'),
           'X 2 1 3 3 4', 'Y 1 1 2 2 3', 'taken 2 2 4', 'unclaimed 0 1 1', 'spoilt 0 1 1', 'events 5')
    sheets('the parent below', tabs('dims A', 'rect Y X A 5 20', 'rect X - A 0 10', 'events', 'A', '1', '7', 'events', 'A', '7', '30', '70000'),
           'Y 1 1 2 2 3', 'X 2 1 3 3 4', 'taken 2 2 4', 'unclaimed 0 1 1', 'spoilt 0 1 1', 'events 5')
    sheets('a share of the parent, not of its parent',
           table + tabs('rect Z Y A 6 9', 'events', 'A', '1', '5', '6', 'events', 'A', '8', '9', '30', 'events', 'A', '0'),
           'X 3 2 1 6 6 7', 'Y 2 2 0 4 4 6', 'Z 1 1 0 2 2 4', 'taken 3 3 1 7', 'unclaimed 0 1 0 1', 'spoilt 0 0 0 0', 'events 7')
    sheets('never divided', table + tabs('events', 'A', '1', '7', 'events', 'A', '2', '8'), 'X 2 2 4 4 4', 'Y 1 1 2 2 4', 'taken 2 2 4', 'unclaimed 0 0 0',
           'spoilt 0 0 0', 'events 4')
    sheets('a parent without members', table + tabs('events', 'A', '30', 'events', 'A', '40', '-1'),
           'X 0 0 0 0 3', 'Y 0 0 0 0 0', 'taken 1 2 3', 'unclaimed 1 2 3', 'spoilt 0 0 0', 'events 3')
    sheets('operands are no parents',
           table + tabs('not N - X', 'not M X Y', 'and B - X Y', 'or O X Y Y', 'events', 'A', '1', '30', 'events', 'A', '7', '70000'),
           'X 1 1 2 2 3', 'Y 0 1 1 1 2', 'N 1 0 1 1 3', 'M 1 0 1 1 2', 'B 0 1 1 1 3', 'O 0 1 1 1 2', 'taken 2 1 3', 'unclaimed 0 0 0',
           'spoilt 0 1 1', 'events 4')
    sheets('names that are no words', tabs('dims events', 'rect taken - events 0 5', 'rect events taken events 1 9', 'rect spoilt - events * *',
                                          'events', 'events', '1', 'events', 'events', '7'),
           'taken 1 0 1 1 2', 'events 1 0 1 1 1', 'spoilt 1 1 2 2 2', 'taken 1 1 2', 'unclaimed 0 0 0', 'spoilt 0 0 0', 'events 2')
    sheets('a region called refused', tabs('dims A', 'rect refused - A 0 5', 'events', 'A', '1'), 'refused 1 1 1 1', 'taken 1 1', 'unclaimed 0 0', 'spoilt 0 0',
           'events 1')

    # The parent of a quadrant is its gate's (e5).
    sheets('quadrants', tabs('dims A B', 'rect P - A 0 10', 'quad Q P 1 B 1 5 Lo 0 Hi 9', 'quad R - 1 A 1 5 Left 0 Right 5', 'quad S Lo 1 A 1 3 Sl 0 Sr 3',
                             'rect T Hi A 9 10', 'events', 'A B', '1 1', '6 9', 'events', 'A B', '20 1', '4 4', '9 5'),
           'P 2 2 4 4 5', 'Lo 1 1 2 2 4', 'Hi 1 1 2 2 4', 'Left 1 1 2 2 5', 'Right 1 2 3 3 5', 'Sl 1 0 1 1 2', 'Sr 0 1 1 1 2', 'T 0 1 1 1 2',
           'taken 2 3 5', 'unclaimed 0 0 0', 'spoilt 0 0 0', 'events 5')

    # No line `events`, no list (e3); an empty list has its column (e4).
    sheets('no list', table, 'X 0 0 0', 'Y 0 0 0', 'taken 0', 'unclaimed 0', 'spoilt 0', 'events 0')
    sheets('no list, a head alone', head, 'taken 0', 'unclaimed 0', 'spoilt 0', 'events 0')
    sheets('no list, no last LF', table[:-1], 'refused 2 0')
    sheets('no list, over 32,768', table + b'rect\tZ\t-\tA\t0\t' + b'1' * 40000 + b'\n', 'refused 1 0')
    sheets('an empty list', table + tabs('events', 'A'), 'X 0 0 0 0', 'Y 0 0 0 0', 'taken 0 0', 'unclaimed 0 0', 'spoilt 0 0', 'events 0')
    sheets('two empty lists, a head alone', head + tabs('events', 'A', 'events', 'A'), 'taken 0 0 0', 'unclaimed 0 0 0', 'spoilt 0 0 0', 'events 0')
    sheets('the first empty', table + tabs('events', 'A', 'events', 'A', '7'), 'X 0 1 1 1 1', 'Y 0 1 1 1 1', 'taken 0 1 1', 'unclaimed 0 0 0', 'spoilt 0 0 0',
           'events 1')
    sheets('the last empty', table + tabs('events', 'A', '7', 'events', 'A'), 'X 1 0 1 1 1', 'Y 1 0 1 1 1', 'taken 1 0 1', 'unclaimed 0 0 0', 'spoilt 0 0 0',
           'events 1')
    sheets('some empty', one + tabs('events', 'A', 'events', 'A', '1', 'events', 'A', 'events', 'A', '2', '11', 'events', 'A'),
           'X 0 1 0 1 0 2 2 3', 'taken 0 1 0 2 0 3', 'unclaimed 0 0 0 1 0 1', 'spoilt 0 0 0 0 0 0', 'events 3')
    for lists in (1000, 7281):
        nothing = ' 0' * (lists + 1)
        sheets('%d empty lists' % lists, head + tabs('events', 'A') * lists, 'taken' + nothing, 'unclaimed' + nothing, 'spoilt' + nothing, 'events 0')
    longest = head + tabs('events', 'A') * 7281
    check('7,281 empty lists below the shortest head', len(longest), 65536)
    sheets('7,281 lists and an event', longest + b'0\n', 'refused 1 0')
    sheets('7,282 lists', longest + tabs('events', 'A'), 'refused 1 0')
    fewer, last = longest[:-9], ' 0' * 7279 + ' 1 1'
    sheets('7,280 lists and an event', fewer + b'0\n', 'taken' + last, 'unclaimed' + last, 'spoilt' + ' 0' * 7281, 'events 1')
    sheets('7,280 lists and a line without LF', fewer + b'0', 'refused 23 14562')
    sheets('7,280 lists and an empty line', fewer + b'\n', 'refused 23 14562')

    # Spoilt events; the last line has them too.
    sheets('spoilt in the second list', one + tabs('events', 'A', '5', 'events', 'A', '65536', '-65537', FORTY, '4294967296', '65535', '-65536'),
           'X 1 0 1 1 3', 'taken 1 2 3', 'unclaimed 0 2 2', 'spoilt 0 4 4', 'events 7')
    sheets('all spoilt', one + tabs('events', 'A', FORTY, 'events', 'A', '-' + FORTY), 'X 0 0 0 0 0', 'taken 0 0 0', 'unclaimed 0 0 0', 'spoilt 1 1 2',
           'events 2')
    sheets('one value spoils an event', tabs('dims A B', 'rect X - A 0 10', 'events', 'A B', '1 70000', '1 1', 'events', 'A B', '70000 70000'),
           'X 1 0 1 1 1', 'taken 1 0 1', 'unclaimed 0 0 0', 'spoilt 1 1 2', 'events 3')
    sheets('events, not values', tabs('dims A B C', 'events', 'A B C', '1 2 3', 'events', 'A B C', '4 5 6', '7 8 9'),
           'taken 1 2 3', 'unclaimed 1 2 3', 'spoilt 0 0 0', 'events 3')

    # 23: the lowest bad line over all lists, counted over the whole input (e8).
    sheets('bad line in the second list', table + tabs('events', 'A', '1', 'events', 'A', '2', 'x'), 'refused 23 10')
    sheets('bad lines in the first list and the third', table + tabs('events', 'A', '1', 'x', 'events', 'A', '2', 'events', 'A', 'y'), 'refused 23 7')
    sheets('bad lines in the second list and the third', table + tabs('events', 'A', '1', 'events', 'A', '2', '3', '', 'events', 'A', 'y'), 'refused 23 11')
    sheets('the second list bad behind an empty one', table + tabs('events', 'A', 'events', 'A', 'x'), 'refused 23 8')
    sheets('too few in the second list', two + tabs('events', 'A B', '1 2', 'events', 'A B', '3'), 'refused 23 7')
    sheets('too many in the second list', two + tabs('events', 'A B', '1 2', 'events', 'A B', '3 4 5'), 'refused 23 7')
    sheets('an event in two lists', two + tabs('events', 'A B', '1 2', '3', 'events', 'A B', '4'), 'refused 23 5')
    sheets('an event on two lines of the second list', two + tabs('events', 'A B', 'events', 'A B', '3', '4'), 'refused 23 6')
    sheets('two events on a line', two + tabs('events', 'A B', '1 2', 'events', 'A B', '1 2 3 4'), 'refused 23 7')
    sheets('an empty line between the lists', one + tabs('events', 'A', '1', '', 'events', 'A', '2'), 'refused 23 6')
    sheets('an empty line at the end', one + tabs('events', 'A', '1', 'events', 'A', ''), 'refused 23 8')
    sheets('a table line in a list', one + tabs('events', 'A', '1', 'dims A', 'events', 'A', '2'), 'refused 23 6')
    sheets('spoilt before bad', one + tabs('events', 'A', FORTY, 'events', 'A', '1.5'), 'refused 23 8')
    sheets('second list without LF', one + tabs('events', 'A', '1', 'events', 'A') + b'2', 'refused 23 8')
    sheets('second list without LF, the first bad', one + tabs('events', 'A', 'x', 'events', 'A') + b'2', 'refused 23 5')
    sheets('first events without LF', one + b'events', 'refused 23 3')
    sheets('second events without LF', one + tabs('events', 'A', '1') + b'events', 'refused 23 6')
    sheets('second events without LF behind an empty list', one + tabs('events', 'A') + b'events', 'refused 23 5')
    sheets('second events without LF, the first list bad', one + tabs('events', 'A', 'x') + b'events', 'refused 23 5')
    for line in (b'events\r', b'events\t', b' events', b'Events', b'events '):
        sheets('%r before the lists' % line, one + line + b'\nA\n5\nevents\nA\n', 'refused 4 3')
        sheets('%r behind a list' % line, one + b'events\nA\n5\n' + line + b'\nA\n5\nevents\nA\n', 'refused 23 6')
    for field in generate.BAD_EVENTS:
        if field != b'events':
            check('sheet: bad number %r' % field, gates.gatesheet(one + b'events\nA\n5\nevents\nA\n' + field + b'\n'), tabs('refused 23 8'))

    # The table's own refusals come first, each printed as gatecount prints it.
    bad = tabs('events', 'A', 'x', 'events', 'A') + b'y'
    for what, given, line in REFUSED_TABLES:
        sheets('table first: ' + what, given + bad, line)
        check('as gatecount: ' + what, gates.gatecount(given + bad), tabs(line))

    # 65,536 bytes in all, 32,768 of them of the table (e7).
    prefix = table + tabs('events', 'A', '5', 'events', 'A')
    for size, wanted in ((32769, None), (65536, None), (65537, tabs('refused 1 0'))):
        data = prefix + b'9' * (size - len(prefix) - 1) + b'\n'
        wanted = wanted or tabs('X 1 0 1 1 1', 'Y 1 0 1 1 1', 'taken 1 0 1', 'unclaimed 0 0 0', 'spoilt 0 1 1', 'events 2')
        check('sheet: input of %d bytes' % size, (len(data), gates.gatesheet(data)), (size, wanted))
    sheets('long before all', b'x' * 65537, 'refused 1 0')
    sheets('a table part over 32,768', head + b'x' * 33000 + b'\nevents\nA\n1\nevents\nA\n', 'refused 1 0')

    # gatecount keeps one list (e9); its numbers for one are the sheet's only column, those for the joined lists its sums.
    prints('gatecount keeps one list', table + tabs('events', 'A', '1', '7', 'events', 'A', '7'), 'refused 23 8')
    for what, given, lists in (('01\'s example', example, (first, (), third)), ('a head alone', two, (first, third)),
                               ('one list', table, (('1', '7', '70000'),)), ('no event', table, ((), ())),
                               ('three lists', table + tabs('not N Y X'), (('1', '7'), ('70000', '8', '9'), ('5',)))):
        opening = tabs('events', columns_of(given))
        sheet = gates.gatesheet(given + b''.join([opening + tabs(*each) for each in lists])).split(b'\n')
        joined = gates.gatecount(given + opening + tabs(*itertools.chain(*lists))).split(b'\n')
        regions = len(sheet) - 5
        both = sheet[:-4] + sheet[-3:-2]        # gatecount prints no unclaimed (f1)
        check('joined lists: ' + what, [line.split(b'\t')[1 + len(lists)] for line in both], [line.split(b'\t')[1] for line in joined[:-1]])
        check('lines of both: ' + what, [line.split(b'\t')[0] for line in both], [line.split(b'\t')[0] for line in joined[:-1]])
        check('fields: ' + what, [line.count(b'\t') for line in sheet], [len(lists) + 3] * regions + [len(lists) + 1] * 3 + [1, 0])
        for column, each in enumerate(lists, 1):
            alone = gates.gatecount(given + opening + tabs(*each)).split(b'\n')
            check('list %d alone: %s' % (column, what), [line.split(b'\t')[column] for line in both], [line.split(b'\t')[1] for line in alone[:-1]])


# ---------------------------------------------------------------- 02 f: unclaimed

def unclaims(label, table, events, taken, unclaimed):
    """Of the events, parted by commas, so many are taken and so many of these unclaimed: by a count, by the table's lines and on a sheet."""
    lines = [event.strip() for event in events.split(',') if event.strip()]
    values = [[int(value) for value in line.split()] for line in lines]
    tally = gates.count(gates.compile_table(table, 4096)[2], [value for event in values for value in event])
    check('unclaimed: ' + label, (tally[:4], tally[5]), ((0, 0, taken, len(lines) - taken), unclaimed))
    in_none = [event for event in values if all(-65536 <= value <= 65535 for value in event) and gates.members(table, event) == set()]
    check('unclaimed by lines: ' + label, len(in_none), unclaimed)
    sheet = gates.gatesheet(table + tabs('events', columns_of(table), *lines)).split(b'\n')
    check('unclaimed on a sheet: ' + label, sheet[-5:-2], tabs(*['%s %d %d' % (name, number, number) for name, number in (
        ('taken', taken), ('unclaimed', unclaimed), ('spoilt', len(lines) - taken))]).split(b'\n')[:-1])


def unclaimed_events():
    head, two = tabs('dims A'), tabs('dims A B')
    x = tabs('dims A', 'rect X - A 0 10')

    # With no regions the number taken; spoilt events are none (f3).
    unclaims('no region', head, '1, -65536, 65535, 0', 4, 4)
    unclaims('no region, some spoilt', head, '1, 65536, 65535, -65537, 0', 3, 3)
    unclaims('no region, all spoilt', head, '65536, -65537', 0, 0)
    unclaims('no region, no event', head, '', 0, 0)
    unclaims('no region, two dimensions', two, '1 2, 3 4, 5 70000', 2, 2)
    unclaims('a quadrant gate has regions', head + tabs('quad Q - 1 A 1 0 Lo -1 Hi 0'), '5, -5, 0, 70000', 3, 0)
    unclaims('all spoilt', x, '65536, -65537, 2147483647, -2147483648', 0, 0)
    unclaims('spoilt beside a member', tabs('dims A B', 'rect X - A 0 10'), '5 70000, 50 70000, 5 0, 50 0', 2, 1)
    unclaims('spoilt is in no complement', x + tabs('not N - X'), '70000, 5, 50', 2, 0)

    # One region: what isn't in it, at its ends too.
    unclaims('one region', x, '-1, 0, 9, 10, 5, -65536, 65535', 7, 4)
    unclaims('one region that holds all', head + tabs('rect All - A * *'), '-65536, 0, 65535', 3, 0)
    unclaims('no event', x, '', 0, 0)
    unclaims('none claimed', x, '10, 11, -1', 3, 3)

    # Once for each event, whatever the number of regions that hold it or don't.
    three = x + tabs('rect Y - A 5 20', 'rect Z - A 30 40')
    unclaims('three regions: in the first alone', three, '0', 1, 0)
    unclaims('three regions: in the second alone', three, '15', 1, 0)
    unclaims('three regions: in the last alone', three, '35', 1, 0)
    unclaims('three regions: in two', three, '5, 9', 2, 0)
    unclaims('three regions: in none', three, '25', 1, 1)
    unclaims('three regions: in the first, two, the second, none, the last, none', three, '4, 5, 10, 20, 30, 40', 6, 2)
    unclaims('three regions: one event after the other', three, '25, 5, 25, 70000, 35, 25, 0', 6, 3)
    unclaims('three regions: the same event again', three, '25, 25, 25, 5, 5', 5, 3)

    # A child holds no more than its parent: in its shape alone an event is in neither (f: members, shape and parent both).
    child = x + tabs('rect C X A 5 20')
    unclaims('a child: in both', child, '7', 1, 0)
    unclaims('a child: in the parent alone', child, '2', 1, 0)
    unclaims('a child: in its shape without the parent', child, '15', 1, 1)
    unclaims('a child: all sorts', child, '2, 7, 15, 25, 70000', 4, 2)
    unclaims('a child above its parent', tabs('dims A', 'rect C X A 5 20', 'rect X - A 0 10'), '2, 7, 15, 25, 70000', 4, 2)
    unclaims('quadrants of a parent', x + tabs('quad Q X 1 A 1 5 Lo 0 Hi 5'), '2, 7, 15, -3', 4, 2)
    unclaims('a child of a quadrant', head + tabs('rect X Hi A 50 60', 'quad Q P 1 A 1 5 Lo 0 Hi 5', 'rect P - A 0 10'), '55, 7, 2, 10', 4, 2)

    # Combinations claim too: a complement what nobody else does, within a parent nothing new.
    unclaims('a complement', x + tabs('not N - X'), '5, 50, -1', 3, 0)
    unclaims('a complement within a parent', x + tabs('rect Y - A 5 20', 'not N Y X'), '2, 7, 15, 25', 4, 1)
    unclaims('a complement of a complement', x + tabs('not N - !X'), '5, 50, -1', 3, 2)
    unclaims('and of complements', x + tabs('rect Y - A 20 30', 'and B - !X !Y'), '5, 15, 25, 35', 4, 0)
    unclaims('and, which adds nothing', x + tabs('rect Y - A 5 20', 'and B - X Y'), '2, 7, 15, 25', 4, 1)
    unclaims('and with one complement', x + tabs('rect Y - A 5 20', 'and B - X !Y'), '2, 7, 15, 25', 4, 1)
    unclaims('or, which adds nothing', x + tabs('rect Y - A 20 30', 'or O - X Y'), '5, 15, 25, 35', 4, 2)
    unclaims('or with a complement', x + tabs('rect Y - A 20 30', 'or O - X !Y'), '5, 15, 25, 35', 4, 0)
    unclaims('or within a parent', x + tabs('rect Y - A 20 30', 'or O X !X !Y'), '5, 15, 25, 35', 4, 2)
    unclaims('a chain of complements', x + tabs('not N X X', 'not M - N', 'and K M !X !M'), '5, 15', 2, 0)

    # On the outline is inside.
    unclaims('a triangle', two + tabs('poly T - A B 0 0 10 0 0 10'), '0 0, 5 5, 5 0, 1 1, 6 5, -1 0, 0 11', 7, 3)
    unclaims('an ellipse', two + tabs('ellip E - A B 0 0 25 0 25 1'), '5 0, 3 4, 0 0, 4 4, 5 1', 5, 2)
    unclaims('an ellipse with decimals', two + tabs('ellip E - A B 0 0 0.5 0 0.5 2'), '1 0, 0 -1, 1 1, 0 0', 4, 1)
    unclaims('an ellipsoid', tabs('dims A B C', 'ellip3 E - A B C 0 0 0 9 0 0 9 0 9 1'), '3 0 0, 1 2 2, 2 2 2, 0 0 -4, 0 0 0', 5, 2)
    unclaims('01\'s example', tabs(*EXAMPLE), '600 200, 400 375, 599 200, 400 376, 350 200, 70000 0', 5, 1)

    # 64 regions, beside each other, 2 of 4 each.
    full = ['rect R%d - A %d %d' % (k, 4 * k, 4 * k + 2) for k in range(64)]
    for what, lines in (('64 regions', full), ('64 regions, the other way', full[::-1])):
        table = head + tabs(*lines)
        unclaims(what + ': each alone', table, ', '.join(str(4 * k) for k in range(64)), 64, 0)
        unclaims(what + ': in none', table, ', '.join(str(4 * k + 2) for k in range(64)), 64, 64)
        for k in (0, 1, 31, 32, 62, 63):
            unclaims(what + ': number %d alone' % k, table, str(4 * k + 1), 1, 0)
        unclaims(what + ': beyond', table, '-1, 254, 256, 252', 4, 3)
    unclaims('64 regions that hold all', head + tabs(*['rect R%d - A * *' % k for k in range(64)]), '0, 1, 65535, 65536', 3, 0)
    unclaims('63 regions that hold none, and one', head + tabs('rect X - A 0 10', *['rect R%d X A 10 20' % k for k in range(63)]), '5, 15, 25', 3, 2)

    # The order of the lines moves nothing.
    lines = ('rect X - A 0 10', 'rect C X A 5 20', 'not N C X', 'quad Q X 1 A 1 3 Lo 0 Hi 3', 'or O N Lo Hi')
    for turn, order in enumerate(itertools.permutations(lines)):
        unclaims('order %d' % turn, head + tabs(*order), '2, 7, 15, 25, -1, 70000', 5, 3)

    # A refused count has it 0 (f4), though its list has such events.
    words = [1, 1, 1, 0, -1, 3, 0, 0, 10]
    zeros = [0] * 64
    check('unclaimed: the plan', gates.count(words, [50, 5, 60]), (0, 0, 3, 0, [1] + [0] * 63, 2))
    check('unclaimed: a ragged list', gates.count([2] + words[1:], [50, 50, 60, 60, 70]), (23, 5, 0, 0, zeros, 0))
    check('unclaimed: a ragged list of no region', gates.count([2, 0], [50, 50, 60]), (23, 3, 0, 0, zeros, 0))
    check('unclaimed: a malformed plan', gates.count(words + [0], [50, 60]), (22, 9, 0, 0, zeros, 0))
    check('unclaimed: a plan cut off', gates.count(words[:-1], [50, 60]), (22, 8, 0, 0, zeros, 0))
    check('unclaimed: a long plan', gates.count(words + [0] * 4096, [50, 60]), (21, 0, 0, 0, zeros, 0))
    check('unclaimed: no event', gates.count(words, []), (0, 0, 0, 0, zeros, 0))
    check('unclaimed: no step, no event', gates.count([1, 0], []), (0, 0, 0, 0, zeros, 0))
    check('unclaimed: no step', gates.count([1, 0], [1, 2, 70000]), (0, 0, 2, 1, zeros, 2))

    # On the sheet directly after taken, laid out alike (f2), each list and the sum, which is that of the joined lists.
    sheets('unclaimed in each list',
           x + tabs('events', 'A', '5', '50', 'events', 'A', '60', '70', '70000', 'events', 'A', '1', 'events', 'A', 'events', 'A', '80'),
           'X 1 0 1 0 0 2 2 6', 'taken 2 2 1 0 1 6', 'unclaimed 1 2 0 0 1 4', 'spoilt 0 1 0 0 0 1', 'events 7')
    sheets('unclaimed of the joined lists', x + tabs('events', 'A', '5', '50', '60', '70', '70000', '1', '80'),
           'X 2 2 2 6', 'taken 6 6', 'unclaimed 4 4', 'spoilt 1 1', 'events 7')
    sheets('unclaimed, the lists exchanged',
           x + tabs('events', 'A', '80', 'events', 'A', 'events', 'A', '1', 'events', 'A', '60', '70', '70000', 'events', 'A', '5', '50'),
           'X 0 0 1 0 1 2 2 6', 'taken 1 0 1 2 2 6', 'unclaimed 1 0 0 2 1 4', 'spoilt 0 0 0 1 0 1', 'events 7')
    sheets('unclaimed without a region', head + tabs('events', 'A', '5', '50', 'events', 'A', '70000', '1'),
           'taken 2 1 3', 'unclaimed 2 1 3', 'spoilt 0 1 1', 'events 4')
    sheets('unclaimed and a share', three + tabs('events', 'A', '0', '5', '25', 'events', 'A', '35', '26', '27'),
           'X 2 0 2 2 6', 'Y 1 0 1 1 6', 'Z 0 1 1 1 6', 'taken 3 3 6', 'unclaimed 1 2 3', 'spoilt 0 0 0', 'events 6')
    sheets('a region called unclaimed', tabs('dims A', 'rect unclaimed - A 0 10', 'events', 'A', '5', '50', '60', 'events', 'A', '6'),
           'unclaimed 1 1 2 2 4', 'taken 3 1 4', 'unclaimed 2 0 2', 'spoilt 0 0 0', 'events 4')
    sheets('unclaimed: refused lists', x + tabs('events', 'A', '50', 'events', 'A', '60', 'x'), 'refused 23 9')
    sheets('unclaimed: a refused table', tabs('dims A', 'rect X - A 0 0', 'events', 'A', '50'), 'refused 10 2')

    # gatecount prints what it printed (f1).
    prints('gatecount tells of no unclaimed', x + tabs('events', 'A', '5', '50', '70000'), 'X 1', 'taken 2', 'spoilt 1')
    prints('nor without a region', head + tabs('events', 'A', '5', '70000'), 'taken 1', 'spoilt 1')


# ---------------------------------------------------------------- 02 g: column lines

def both(label, data, *lines):
    """Both programs print the same refusal."""
    prints(label, data, *lines)
    sheets(label + ', on a sheet', data, *lines)


def column_line(label, names, line, place):
    """A column line, where tabs are tabs, below a head with these names: the place of 31, or None where it is right.

    With good events behind it, with bad ones, with none and, unless it is right, without its LF; then as the last of three lists.
    """
    names = names.replace(' ', '\t').encode()
    n, line = names.count(b'\t') + 1, line if isinstance(line, bytes) else line.encode()
    head, event, opening = b'dims\t' + names + b'\n', b'\t'.join([b'5'] * n) + b'\n', b'events\n' + names + b'\n'
    check('columns, ' + label, gates.wrong_column(line + b'\n', names.split(b'\t')), place)
    data = head + b'events\n' + line
    if place is None:
        prints('columns: ' + label, data + b'\n' + event, 'taken 1', 'spoilt 0')
        prints('columns, no event: ' + label, data + b'\n', 'taken 0', 'spoilt 0')
        sheets('columns of three lists: ' + label, head + 2 * (opening + event) + b'events\n' + line + b'\n',
               'taken 1 1 0 2', 'unclaimed 1 1 0 2', 'spoilt 0 0 0 0', 'events 2')
        both('columns, a bad event: ' + label, data + b'\n' + event + b'x\n', 'refused 23 5')
        both('columns without LF: ' + label, data, 'refused 23 3')
        return
    told = 'refused 31 %d' % place
    for what, behind in (('', b'\n' + event), (', a bad event', b'\nx\n'), (', no event', b'\n'), (' without LF', b''), (', events open', b'\nevents'),
                         (', the right line behind', b'\n' + names + b'\n' + event), (', events again', b'\nevents\n' + line + b'\n')):
        both('columns%s: %s' % (what, label), data + behind, told)
    sheets('columns of the third list: ' + label, head + 2 * (opening + event) + b'events\n' + line + b'\n' + event, told)
    sheets('columns of the second list, the first bad: ' + label, head + opening + b'x\nevents\n' + line + b'\n' + opening, told)


def column_heads():
    table = tabs('dims A B', 'rect X - A 0 10')     # `events` is line 3, its columns line 4
    head, right = tabs('dims A'), ('events', 'A B')

    # "Names equal to the head, in the same order, are taken"; 01's case has the line too.
    prints('the right columns', table + tabs(*right, '1 2', '20 2'), 'X 1', 'taken 2', 'spoilt 0')
    sheets('the right columns', table + tabs(*right, '1 2', '20 2'), 'X 1 1 1 2', 'taken 2 2', 'unclaimed 1 1', 'spoilt 0 0', 'events 2')
    prints('columns in the order of the head', tabs('dims B A', 'rect X - A 0 10', 'events', 'B A', '20 2', '2 20'), 'X 1', 'taken 2', 'spoilt 0')
    both('01\'s case without its columns', tabs(*EXAMPLE, 'events', '600 200', '400 375'), 'refused 31 0')
    both('01\'s case with its columns exchanged', tabs(*EXAMPLE, 'events', 'SSC FSC', '200 600'), 'refused 31 0')
    both('01\'s case with one of its columns', tabs(*EXAMPLE, 'events', 'FSC', '600 200'), 'refused 31 1')

    # "all else is refused": 31 at the first differing field, from 0 (g6); lines of unequal length at the end of the shorter (g5).
    for names in ('A', 'A B', 'A B C D E F G H', 'events', 'events A', 'dims', 'ABCDEFGHIJKLMNOP taken', 'a A', 'FSC-A FSC-H FSC_H'):
        column_line('right, ' + names, names, names.replace(' ', '\t'), None)
    for label, names, line, place in (
            ('the shorter', 'A B', 'A', 1), ('the longer', 'A B', 'A\tB\tC', 2), ('a tab at the end', 'A B', 'A\tB\t', 2), ('CR', 'A B', 'A\tB\r', 1),
            ('CR, one name', 'A', 'A\r', 0), ('CR after the first name', 'A B', 'A\r\tB', 0), ('empty', 'A B', '', 0), ('empty, one name', 'A', '', 0),
            ('exchanged', 'A B', 'B\tA', 0), ('the last two exchanged', 'A B C', 'A\tC\tB', 1), ('the names turned round', 'A B C', 'B\tC\tA', 0),
            ('another first name', 'A B', 'C\tB', 0), ('another last name', 'A B', 'A\tC', 1), ('two others', 'A B C D', 'A\tX\tC\tY', 1),
            ('a name twice', 'A B', 'A\tA', 1), ('another twice', 'A B', 'B\tB', 0), ('all twice', 'A B', 'A\tB\tA\tB', 2), ('one name twice', 'A', 'A\tA', 1),
            ('one more and the first wrong', 'A B', 'X\tB\tC', 0), ('one less and the first wrong', 'A B C', 'X\tB', 0), ('the second alone', 'A B', 'B', 0),
            ('the middle left out', 'A B C', 'A\tC', 1), ('the last left out', 'A B C', 'A\tB', 2), ('all but one left out', 'A B C', 'A', 1),
            ('lower case', 'A B', 'a\tb', 0), ('lower case, the last', 'A B', 'A\tb', 1), ('upper case', 'a b', 'a\tB', 1),
            ('a tab before', 'A B', '\tA\tB', 0), ('two tabs between', 'A B', 'A\t\tB', 1), ('a space between', 'A B', 'A B', 0),
            ('a space before', 'A B', ' A\tB', 0),
            ('a space behind', 'A B', 'A\tB ', 1), ('a comma', 'A B', 'A,B', 0), ('a NUL', 'A', 'A\0', 0), ('a byte that is no letter', 'A', b'\xff', 0),
            ('a longer name', 'A B', 'AA\tB', 0), ('a shorter name', 'FSC SSC', 'FSC\tSS', 1),
            ('one letter of sixteen', 'ABCDEFGHIJKLMNOP', 'ABCDEFGHIJKLMNOQ', 0), ('an event line (g4)', 'A B', '5\t5', 0),
            ('an event line, one name', 'A', '5', 0), ('`events` (g4)', 'A B', 'events', 0),
            ('`events` below a head that begins so', 'events A', 'events', 1), ('the head line', 'A B', 'dims\tA\tB', 0), ('a tab alone', 'A', '\t', 0),
            ('a tab alone, two names', 'A B', '\t', 0), ('a tab behind the first', 'A B', 'A\t', 1), ('a table line', 'A', 'rect\tY\t-\tA\t0\t1', 0),
            ('eight names, the last wrong', 'A B C D E F G H', 'A\tB\tC\tD\tE\tF\tG\tX', 7), ('seven of eight', 'A B C D E F G H', 'A\tB\tC\tD\tE\tF\tG', 7),
            ('nine for eight', 'A B C D E F G H', 'A\tB\tC\tD\tE\tF\tG\tH\tI', 8), ('a mark', 'A', 'A:single', 0), ('a minus', 'A', '-', 0),
            ('256 fields more', 'A', 'A' + '\t' * 256, 1), ('`Events` for `events`', 'events', 'Events', 0), ('a number for `events`', 'events', '5', 0),
            ('`events` twice', 'events', 'events\tevents', 1)):
        column_line(label, names, line, place)

    # The line directly after an `events` that opens a list is always read as this one (g4): also `events`, which opens none then.
    both('events for columns, the right line behind', table + tabs('events', 'events', 'A B', '1 2'), 'refused 31 0')
    both('events for columns, again and again', table + tabs('events', 'events', 'events', 'events'), 'refused 31 0')
    called = tabs('dims events', 'rect X - events 0 10')
    prints('columns called events', called + tabs('events', 'events', '5', '50'), 'X 1', 'taken 2', 'spoilt 0')
    both('columns called events, left out', called + tabs('events', '5'), 'refused 31 0')
    both('columns called events, missing', called + tabs('events'), 'refused 31 0')
    both('columns called events, open', called + b'events\nevents', 'refused 23 4')
    prints('columns called events, and once more', called + tabs('events', 'events', 'events', '5'), 'refused 23 5')
    sheets('columns called events, and once more', called + tabs('events', 'events', 'events', '5'), 'refused 31 0')
    sheets('columns called events, and once more at the end', called + tabs('events', 'events', 'events'), 'refused 31 0')
    both('columns called events, and once more without LF', called + tabs('events', 'events') + b'events', 'refused 23 5')
    sheets('columns called events, two lists', called + tabs('events', 'events', 'events', 'events', '5'), 'X 0 1 1 1 1', 'taken 0 1 1',
           'unclaimed 0 0 0', 'spoilt 0 0 0', 'events 1')
    sheets('columns called events, three lists', called + tabs('events', 'events', '5', '50', 'events', 'events', 'events', 'events', '7'), 'X 1 0 1 2 2 3',
           'taken 2 0 1 3', 'unclaimed 1 0 0 1', 'spoilt 0 0 0 0', 'events 3')
    sheets('columns called events, the second list open', called + tabs('events', 'events', '5') + b'events\nevents', 'refused 23 7')

    # "missing at the input's end it differs at 0" (g2), at the end of a later list too.
    both('columns missing', table + tabs('events'), 'refused 31 0')
    both('columns missing below a head alone', head + tabs('events'), 'refused 31 0')
    sheets('columns of the second list missing', table + tabs(*right, '1 2', 'events'), 'refused 31 0')
    sheets('columns of the second list missing, the first list bad', table + tabs(*right, 'x', 'events'), 'refused 31 0')
    sheets('columns of the second list missing, those of the first wrong', table + tabs('events', 'A', 'events'), 'refused 31 1')
    prints('gatecount asks for no columns of a second list', table + tabs(*right, '1 2', 'events'), 'refused 23 6')

    # "a right one without LF is 23" (g3), at its line; a wrong one is 31.
    both('columns open', table + b'events\nA\tB', 'refused 23 4')
    both('columns open, wrong', table + b'events\nA\tC', 'refused 31 1')
    both('columns open, the first of two', table + b'events\nA', 'refused 31 1')
    both('columns open, a tab more', table + b'events\nA\tB\t', 'refused 31 2')
    both('columns open, CR for LF', table + b'events\nA\tB\r', 'refused 31 1')
    sheets('columns of the second list open', table + tabs(*right, '1 2') + b'events\nA\tB', 'refused 23 7')
    sheets('columns of the second list open, wrong', table + tabs(*right, '1 2') + b'events\nA\tC', 'refused 31 1')
    sheets('columns of the second list open, the first list bad', table + tabs(*right, 'x') + b'events\nA\tB', 'refused 23 5')
    sheets('columns of the second list open and wrong, the first list bad', table + tabs(*right, 'x') + b'events\nB', 'refused 31 0')
    sheets('columns of the second list open, those of the first wrong', table + tabs('events', 'A C', '1 2') + b'events\nA\tB', 'refused 31 1')

    # "`events` itself without LF still too" (g2): 23 at its line; a wrong line of an earlier list is 31 all the same.
    both('events open', table + b'events', 'refused 23 3')
    both('events open behind a list', table + tabs(*right, '1 2') + b'events', 'refused 23 6')
    both('events open behind an empty list', table + tabs(*right) + b'events', 'refused 23 5')
    both('events open, the columns before wrong', table + tabs('events', 'B A', '1 2') + b'events', 'refused 31 0')
    both('events open in the place of columns', table + b'events\nevents', 'refused 31 0')
    sheets('events open behind two lists, the second wrong', table + tabs(*right, '1 2', 'events', 'A', '1 2') + b'events', 'refused 31 1')

    # "of the first wrong line", in the input's order, whichever differs sooner.
    sheets('two wrong lines', table + tabs('events', 'A C', '1 2', 'events', 'C B', '1 2'), 'refused 31 1')
    sheets('two wrong lines, the other way', table + tabs('events', 'C B', '1 2', 'events', 'A C', '1 2'), 'refused 31 0')
    sheets('wrong lines of the second list and the third', table + tabs(*right, 'events', 'A B C', 'events', '', '1 2'), 'refused 31 2')
    sheets('a wrong line of the third list', table + tabs(*right, '1 2', *right, 'events', 'A', '1 2', *right), 'refused 31 1')
    sheets('the last of many', head + tabs('events', 'A') * 300 + tabs('events', 'B'), 'refused 31 0')
    sheets('the last of many has a field more', head + tabs('events', 'A', '5') * 300 + tabs('events', 'A A'), 'refused 31 1')
    sheets('the last of 7,281', head + tabs('events', 'A') * 7280 + tabs('events', 'a'), 'refused 31 0')
    sheets('the last of 7,281, open', head + tabs('events', 'A') * 7280 + b'events\nA', 'refused 23 14563')

    # "after 18 and before 21" (g1, g10): before 23 of any list, behind each refusal of the table.
    sheets('wrong columns of the third list, bad lines of the first', table + tabs(*right, 'x', *right, 'events', 'A'), 'refused 31 1')
    sheets('wrong columns of the first list, bad lines of it', table + tabs('events', 'A B C', 'x', *right), 'refused 31 2')
    both('a bad line below wrong columns', table + tabs('events', 'A C', 'x'), 'refused 31 1')
    for what, given, line in (*REFUSED_TABLES, ('long table', head + b'x' * 32768 + b'\n', 'refused 1 0')):
        both('table before columns: ' + what, given + tabs('events', 'nope', '1'), line)
        both('table before missing columns: ' + what, given + tabs('events'), line)
        both('table before open columns: ' + what, given + b'events\nnope', line)
    both('wrong columns in 65,536 bytes', head + b'events\n' + b'A' * (65536 - 15) + b'\n', 'refused 31 0')
    both('wrong columns in 65,537 bytes', head + b'events\n' + b'A' * (65537 - 15) + b'\n', 'refused 1 0')
    sheets('columns missing at 65,536 bytes', head + tabs('events', 'A') + b'9' * (65536 - 24) + b'\n' + tabs('events'), 'refused 31 0')
    sheets('columns missing at 65,537 bytes', head + tabs('events', 'A') + b'9' * (65537 - 24) + b'\n' + tabs('events'), 'refused 1 0')

    # Without an `events` none is asked for (g7); a line of names in the table is a table line.
    prints('no list, no columns', table, 'X 0', 'taken 0', 'spoilt 0')
    sheets('no list, no columns', table, 'X 0 0 0', 'taken 0', 'unclaimed 0', 'spoilt 0', 'events 0')
    both('columns without events', table + tabs('A B'), 'refused 4 3')
    both('columns before events', table + tabs('A B', 'events', '1 2'), 'refused 4 3')

    # In gatecount a second `events` opens no list and the line after it is no column line; in gatesheet it opens one (g8).
    for what, behind, on_a_sheet in (('right', ('A B', '1 2'), None), ('wrong', ('B A', '1 2'), 'refused 31 0'), ('missing', (), 'refused 31 0'),
                                     ('an event', ('1 2',), 'refused 31 0'), ('events', ('events',), 'refused 31 0'), ('shorter', ('A',), 'refused 31 1')):
        data = table + tabs(*right, '1 2', 'events', *behind)
        prints('a second events in gatecount, columns ' + what, data, 'refused 23 6')
        sheets('a second events in gatesheet, columns ' + what, data, *([on_a_sheet] if on_a_sheet else [
            'X 1 1 2 2 2', 'taken 1 1 2', 'unclaimed 0 0 0', 'spoilt 0 0 0', 'events 2']))
    prints('a second events in gatecount, a bad line before', table + tabs(*right, 'x', 'events', 'B A'), 'refused 23 5')
    prints('the right columns twice', table + tabs(*right, 'A B', '1 2'), 'refused 23 5')
    sheets('the right columns twice', table + tabs(*right, 'A B', '1 2'), 'refused 23 5')

    # A bad event line's number counts the column lines of all lists up to it.
    both('a bad line below the columns', table + tabs(*right, 'x'), 'refused 23 5')
    both('an event of one value', table + tabs(*right, '1 2', '1'), 'refused 23 6')
    sheets('a bad line of the third list', table + tabs(*right, '1 2', *right, *right, '1 2', 'x'), 'refused 23 11')
    both('an open event', table + tabs(*right) + b'1\t2', 'refused 23 5')

    # Counting by a plan knows no names (g9): the words of a plan are as before, whatever the names.
    check('no word for the columns', gates.compile_table(tabs('dims A B'), 4096)[2], gates.compile_table(tabs('dims FSC SSC'), 4096)[2])
    check('counting by a plan', gates.count([2, 0], [1, 2, 3, 4])[:4], (0, 0, 2, 0))


# ---------------------------------------------------------------- outlines drawn the other way round

SQUARE = [0, 0, 10, 0, 10, 10, 0, 10]


def drawn_alike(label, vertices, x, y, chosen):
    """In each of the ways the walk says the same of a point, with the sign of its sum turned where the outline is walked back."""
    carried, total = gates.polygon_walk(vertices, x, y)
    position, holds = gates.polygon_position(vertices, x, y), gates.polygon_holds(vertices, x, y)
    label = '%s %s at %d %d, begun at %%d and walked %%s' % (label, vertices, x, y)
    for start, back in chosen:
        other = redraw.redrawn(vertices, start, back)
        found = gates.polygon_walk(other, x, y), gates.polygon_position(other, x, y), gates.polygon_holds(other, x, y)
        check(label % (start, 'back' if back else 'on'), found, ((carried, -total if back else total), position, holds))


def redrawing():
    """02 h by hand: what is redrawn and what stays, and the sums of the square of 01."""
    check('as it stands', redraw.redrawn(SQUARE, 0, False), SQUARE)
    check('from the second vertex', redraw.redrawn(SQUARE, 1, False), [10, 0, 10, 10, 0, 10, 0, 0])
    check('from the last vertex', redraw.redrawn(SQUARE, 3, False), [0, 10, 0, 0, 10, 0, 10, 10])
    check('back', redraw.redrawn(SQUARE, 0, True), [0, 10, 10, 10, 10, 0, 0, 0])
    check('from the second vertex and back', redraw.redrawn(SQUARE, 1, True), [0, 0, 0, 10, 10, 10, 10, 0])
    check('the ways of a triangle', redraw.ways(3), [(0, False), (1, False), (2, False), (0, True), (1, True), (2, True)])
    check('each way once', len({tuple(redraw.redrawn(SQUARE, *way)) for way in redraw.ways(4)}), 8)
    check('a line', redraw.redrawn_line(b'poly\tP\tQ\tB\tA\t1\t2\t3\t4\t5\t6', 1, True), b'poly\tP\tQ\tB\tA\t1\t2\t5\t6\t3\t4')
    check('a body', redraw.redrawn_body([1, 0, 1, 2, 3, 4, 5, 6], 2, False), [1, 0, 5, 6, 1, 2, 3, 4])
    table = tabs('dims A B C', 'and X - P !Q', 'poly P - A B 1 2 3 4 5 6', 'rect R - A 0 9', 'poly Q P C B 1 1 2 2 3 3 4 4', 'poly Odd - A B 1 2 3')
    anew = tabs('dims A B C', 'and X - P !Q', 'poly P - A B 3 4 5 6 1 2', 'rect R - A 0 9', 'poly Q P C B 4 4 3 3 2 2 1 1', 'poly Odd - A B 1 2 3')
    check('poly lines', redraw.poly_lines(table), {2: 3, 4: 4})
    check('a table', redraw.redrawn_table(table, {2: (1, False), 4: (0, True)}), anew)
    table, anew = [each[:each.index(b'poly\tOdd')] for each in (table, anew)]
    words, other = [gates.compile_table(each, 4096)[2] for each in (table, anew)]
    chosen = redraw.compiled_ways(table, words, {2: (1, False), 4: (0, True)})
    check('the steps of its plan', (redraw.polygon_steps(words), chosen), ({2: 3, 21: 4}, {2: (1, False), 21: (0, True)}))
    check('its plan', (redraw.redrawn_plan(words, chosen), other != words), (other, True))
    check('steps of a plan whose last body is cut off', redraw.polygon_steps([2, 2, 2, 0, -1, 8, 0, 1, 0, 0, 9, 0, 9, 9, 2, 1, -1, 8, 0, 1]), {2: 3})
    words = [2, 1, 2, 0, -1, 8, 0, 1, 0, 0, 9, 70000, 9, 9]
    check('a bad vertex is told where it stands', [gates.check_plan(redraw.redrawn_plan(words, {2: way})) for way in redraw.ways(3)],
          [(22, 11), (22, 9), (22, 13), (22, 11), (22, 13), (22, 9)])
    check('steps behind a length below 0', redraw.polygon_steps([2, 2, 1, 0, -1, -4, 2, 1, -1, 8, 0, 1, 0, 0, 9, 0, 9, 9]), {})

    # Inside; above its lower left corner and on it, where an edge carries the point and the sum isn't 0; on other edges; outside.
    for x, y, walk in ((5, 5, (False, 1)), (0, 5, (True, 1)), (0, 0, (True, 1)), (10, 5, (True, 0)), (5, 0, (True, 1)), (5, 10, (True, 0)),
                       (10, 10, (True, 0)), (11, 5, (False, 0)), (-1, 5, (False, 0)), (-1, 0, (False, 0)), (5, 11, (False, 0))):
        for times in (1, 2, 3):
            carried, total = walk
            check('the square %d times at %d %d' % (times, x, y), gates.polygon_walk(times * SQUARE, x, y), (carried, times * total))
            check('and back', gates.polygon_walk(redraw.redrawn(times * SQUARE, 0, True), x, y), (carried, -times * total))
            drawn_alike('square', times * SQUARE, x, y, redraw.ways(4 * times))
    check('forth and back the sum is 0', gates.polygon_walk(SQUARE + redraw.redrawn(SQUARE, 1, True), 5, 5), (False, 0))
    check('twice forth and once back it is 1', gates.polygon_walk(2 * SQUARE + redraw.redrawn(SQUARE, 1, True), 5, 5), (False, 1))


# ---------------------------------------------------------------- random tables

def winding(vertices, x, y):
    """Times an outline goes round a point not on it, by a ray along x and whole angles.

    Each edge is put into one of four quarters round the point at both ends; the quarters
    passed add up to four times the winding number.
    """
    points = [(vx - x, vy - y) for vx, vy in zip(vertices[0::2], vertices[1::2])]

    def quarter(a, b):
        if b >= 0:
            return 0 if a > 0 or (a == 0 and b == 0) else 1 if b > 0 or a == 0 else 2
        return 3 if a >= 0 else 2

    total = 0
    for (ax, ay), (bx, by) in zip(points, points[1:] + points[:1]):
        turn = (quarter(bx, by) - quarter(ax, ay)) % 4
        if turn == 2:
            turn = 2 if ax * by - ay * bx > 0 else -2
        elif turn == 3:
            turn = -1
        total += turn
    return total // 4


def on_outline(vertices, x, y):
    """On some edge, by the share of the way along it."""
    points = list(zip(vertices[0::2], vertices[1::2]))
    for (x0, y0), (x1, y1) in zip(points, points[1:] + points[:1]):
        if x1 != x0:
            share = Fraction(x - x0, x1 - x0)
        elif y1 != y0:
            share = Fraction(y - y0, y1 - y0)
        else:
            share = Fraction(0)
        if 0 <= share <= 1 and x0 + share * (x1 - x0) == x and y0 + share * (y1 - y0) == y:
            return True
    return False


def polygon_said(vertices, x, y):
    """Where a point is, by shares of edges and by turns."""
    if on_outline(vertices, x, y):
        return ON_OUTLINE
    return INSIDE if winding(vertices, x, y) != 0 else OUTSIDE


def ellipse_said(mx, my, c11, c12, c22, d2, x, y):
    """Where a point is, by 000's own form, with the inverse of the matrix."""
    dx, dy = x - mx, y - my
    det = c11 * c22 - c12 * c12
    inverse = (Fraction(c22, det), Fraction(-c12, det), Fraction(c11, det))
    distance = dx * (inverse[0] * dx + inverse[1] * dy) + dy * (inverse[1] * dx + inverse[2] * dy)
    return ON_OUTLINE if distance == d2 else INSIDE if distance < d2 else OUTSIDE


def ellipsoid_said(means, entries, d2, point):
    """Where a point is, by a sum of squares.

    The matrix is taken apart into L W Lt, with ones on the diagonal of L and zeros above it; what L takes to the point is squared and
    divided by the weights W.
    """
    c11, c12, c13, c22, c23, c33 = map(Fraction, entries)
    first = c11
    l21, l31 = c12 / first, c13 / first
    second = c22 - l21 * l21 * first
    l32 = (c23 - l21 * l31 * first) / second
    third = c33 - l31 * l31 * first - l32 * l32 * second
    dx, dy, dz = [value - mean for value, mean in zip(point, means)]
    u = dx
    v = dy - l21 * u
    w = dz - l31 * u - l32 * v
    distance = u * u / first + v * v / second + w * w / third
    return ON_OUTLINE if distance == d2 else INSIDE if distance < d2 else OUTSIDE


def in_thousandths(fields):
    """Exact means, c11, c12, c22, D2 as words of kind 7."""
    words = [*fields[:2], *[1000 * number for number in fields[2:]]]
    check('whole thousandths of %s' % fields, all(word == int(word) for word in words), True)
    return [int(word) for word in words]


# Where a careless counter would answer otherwise: enough of these must be met.
CARELESS = (generate.wrong_in_64_bits, generate.rim_wrong_in_64_bits, generate.wrong_in_doubles, generate.rim_wrong_in_doubles)


def outlines(seed):
    """The polygon's sum against turns round the point; the ellipse against 000's own form."""
    rng = random.Random('%s outlines' % seed)
    met = collections.Counter()

    def polygon(vertices, x, y):
        wanted = polygon_said(vertices, x, y)
        met['polygon', wanted] += 1
        check('polygon %s at %d %d' % (vertices, x, y), gates.polygon_position(vertices, x, y), wanted)
        check('polygon %s holds %d %d' % (vertices, x, y), gates.polygon_holds(vertices, x, y), wanted != OUTSIDE)

    def ellipse(fields, x, y):
        wanted = ellipse_said(*fields, x, y)
        met['ellipse', wanted] += 1
        check('ellipse %s at %d %d' % (fields, x, y), gates.ellipse_position(*fields, x, y), wanted)
        check('ellipse %s holds %d %d' % (fields, x, y), gates.ellipse_holds(*fields, x, y), wanted != OUTSIDE)

    def decimals(fields, x, y):
        wanted = ellipse_said(*fields, x, y)
        words = in_thousandths(fields)
        met['decimals', wanted] += 1
        for otherwise in CARELESS:
            met[otherwise] += otherwise(words[2:5], words[5], x - words[0], y - words[1])
        check('decimals %s at %d %d' % (fields, x, y), gates.ellipse_position(*fields, x, y), wanted)
        check('kind 7 %s at %d %d' % (words, x, y), gates.decimal_ellipse_position(*words, x, y), wanted)
        check('kind 7 %s holds %d %d' % (words, x, y), gates.decimal_ellipse_holds(*words, x, y), wanted != OUTSIDE)

    def ellipsoid(means, entries, d2, point):
        wanted = ellipsoid_said(means, entries, d2, point)
        met['ellipsoid', wanted] += 1
        step = [value - mean for value, mean in zip(point, means)]
        left, right = generate.ellipsoid_sides(entries, d2, *step)
        for otherwise in CARELESS:
            met['ellipsoid', otherwise] += otherwise(entries, d2, *step)
        met['ellipsoid', 'beyond 64 bits'] += max(left, right) >= 2 ** 63
        rows = gates.symmetric(*entries)
        label = 'ellipsoid %s %s %d at %s' % (means, entries, d2, point)
        check(label, gates.ellipsoid_position(means, rows, d2, point), wanted)
        check(label + ' by 000', gates.ellipsoid_position_by_000(means, rows, d2, point), wanted)
        check(label + ' by sides', ON_OUTLINE if left == right else INSIDE if left < right else OUTSIDE, wanted)
        check(label + ' holds', gates.ellipsoid_holds(means, rows, d2, point), wanted != OUTSIDE)

    for _ in range(300):
        table = generate.Table(rng, n=3)
        line = table.ellip3()
        order = [table.dimensions.index(field) for field in line.fields[3:6]]
        numbers = [int(field) for field in line.fields[6:]]
        for event in table.events(8):
            ellipsoid(numbers[:3], numbers[3:9], numbers[9], [event[at] for at in order])
    for _ in range(200):
        place = rng.choice(([0, 0, 0], [7, -30, 2], [40000, -65536, 65535], [65535, 65535, 65535]))
        means, entries, d2 = generate.ellipsoid_through(rng, place)
        for step in ((0, 0, 0), (1, 0, 0), (0, -1, 0), (0, 1, 1), (0, 0, -1)):
            ellipsoid(means, entries, d2, [value + part for value, part in zip(place, step)])
    for _ in range(8):
        entries, d2, _ = generate.small_ellipsoid(rng)
        for point in itertools.product(range(-3, 4), repeat=3):
            ellipsoid([0, 0, 0], entries, d2, point)

    for _ in range(300):
        table = generate.Table(rng, n=2, span=rng.choice(((-5, 5), (-9, 9), (-65536, 65535))))
        line = table.poly()
        vertices = [int(field) for field in line.fields[5:]]
        x_first = line.fields[3] == table.dimensions[0]
        for event in table.events(12):
            polygon(vertices, *(event if x_first else event[::-1]))
    for _ in range(300):
        table = generate.Table(rng, n=2)
        line = table.ellip()
        x_first = line.fields[3] == table.dimensions[0]
        for event in table.events(8):
            if line.places('entry'):
                ellipse([int(field) for field in line.fields[5:]], *(event if x_first else event[::-1]))
            else:
                decimals([Fraction(field.decode()) for field in line.fields[5:]], *(event if x_first else event[::-1]))
    for _ in range(200):
        x, y = rng.choice(((0, 0), (7, -30), (40000, -65536), (65535, 65535)))
        vertices = [value for point in generate.outline_through(rng, x, y) for value in point]
        means, entries, d2 = generate.ellipse_through(rng, x, y)
        decimal_means, thousandths, decimal_d2 = generate.decimal_through(rng, x, y)
        for event in ((x, y), (x + 1, y), (x - 1, y + 1), (x, y - 1)):
            polygon(vertices, *event)
            ellipse([*means, *entries, d2], *event)
            decimals([*decimal_means, *[Fraction(word, 1000) for word in (*thousandths, decimal_d2)]], *event)
    # Every place near a small outline.
    for _ in range(60):
        points = generate.outline(rng, lambda: rng.randint(-3, 3))
        if rng.random() < 0.5:
            points = generate.inner_outline(rng)
        for x in range(-5, 6):
            for y in range(-5, 6):
                polygon([value for point in points for value in point], x, y)
        matrix, d2, _ = generate.rim_matrix(rng)
        for x in range(-4, 5):
            for y in range(-4, 5):
                ellipse([0, 0, *matrix, d2], x, y)
    # Every number of vertices.
    for size in range(long_outlines.LEAST, long_outlines.MOST + 1):
        points = long_outlines.outline(rng, size)
        check('vertices of a long outline', len(points), size)
        for _ in range(2):
            polygon([value for point in points for value in point], *long_outlines.place(rng, points))
    for shape, least in (('polygon', 400), ('ellipse', 300), ('decimals', 100), ('ellipsoid', 400)):
        for said in (OUTSIDE, INSIDE, ON_OUTLINE):
            check('%s, %s was met' % (shape, said), met[shape, said] > least, True)
    for otherwise in CARELESS:
        check('points were met where %s' % otherwise.__name__, met[otherwise] > 10, True)
        check('points of ellipsoids were met where %s' % otherwise.__name__, met['ellipsoid', otherwise] > 30, True)
    check('ellipsoids with sides beyond 64 bits were met', met['ellipsoid', 'beyond 64 bits'] > 300, True)


def edges_walked(vertices):
    """How often each edge is walked, by its two ends in this order."""
    points = list(zip(vertices[0::2], vertices[1::2]))
    return collections.Counter(zip(points, points[1:] + points[:1]))


def redrawn_outlines(seed):
    """02 h: whatever vertex an outline begins at, the sum is the same, and walked back it has the other sign alone; so are membership and outline."""
    rng = random.Random('%s redrawn outlines' % seed)
    met = collections.Counter()

    def outline(sort, points, places, chosen=None):
        vertices = [value for point in points for value in point]
        chosen = chosen or redraw.ways(len(points))
        walked = edges_walked(vertices)
        for start, back in chosen:
            other = edges_walked(redraw.redrawn(vertices, start, back))
            check('edges of %s from %d' % (sort, start), {edge[::-1]: times for edge, times in other.items()} if back else other, walked)
        for x, y in places:
            carried, total = gates.polygon_walk(vertices, x, y)
            met[sort, 'on a vertex' if (x, y) in points else 'on an edge' if carried else 'inside' if total else 'outside'] += 1
            met['on an edge, and the sum is not 0'] += carried and total != 0
            met['sum beyond 1'] += total > 1
            met['sum beyond -1'] += total < -1
            met['repeated vertices'] += len(set(points)) < len(points)
            check('%s %s at %d %d, an edge carries it' % (sort, vertices, x, y), carried, on_outline(vertices, x, y))
            if not carried:
                check('%s %s at %d %d, the sum' % (sort, vertices, x, y), total, winding(vertices, x, y))
            drawn_alike(sort, vertices, x, y, chosen)

    def around(points, count):
        """Places at a polygon: its vertices, whole points of its edges, and any near it."""
        near = [(rng.randint(-3, 3), rng.randint(-3, 3)) for _ in range(count)]
        return near + [rng.choice(points), generate.on_edge(rng, points), generate.near_outline(rng, points)]

    def some_points(size, span=6):
        return [(rng.randint(-span, span), rng.randint(-span, span)) for _ in range(size)]

    for _ in range(60):
        points = some_points(rng.choice((3, 3, 4, 5)), rng.choice((3, 6)))
        outline('small', points, around(points, 5))
        points = some_points(3)
        repeated = rng.choices(points, k=rng.randint(4, 8))
        outline('of three vertices, repeated', repeated, around(repeated, 5))
        step = rng.choice(((1, 0), (0, 1), (1, 1), (2, -1)))
        flat = [(step[0] * part, step[1] * part) for part in (rng.randint(-3, 3) for _ in range(rng.randint(3, 6)))]
        outline('flat', flat, around(flat, 3))
        points = rng.choice(([(0, 0), (4, 4), (4, 0), (0, 4)], [(0, 4), (3, -4), (-4, 2), (4, 2), (-3, -4)], some_points(9)))
        outline('crossing itself', points * rng.choice((1, 1, 2)), around(points, 5))
        points = [(value * 65535 + rng.choice((0, -1)), other * 65535 + rng.choice((0, -1))) for value, other in some_points(5, 1)]
        outline('as wide as the scale', points, around(points, 1) + [(65535, -65536), (0, 0)])
    for size in range(long_outlines.LEAST, long_outlines.MOST + 1):
        points = long_outlines.outline(rng, size)
        chosen = [(1, False), (size - 1, False), (0, True), (size - 1, True), *rng.sample(redraw.ways(size), 4)]
        outline('long', points, [long_outlines.place(rng, points) for _ in range(2)], chosen)
    for size in (64, 129, 256):
        points = long_outlines.outline(rng, size)
        outline('long, every way', points, [long_outlines.on_edge(rng, points, rng.randrange(size)), long_outlines.place(rng, points)])

    for sort, least in (('small', 10), ('of three vertices, repeated', 10), ('flat', 0), ('crossing itself', 10), ('as wide as the scale', 5), ('long', 20)):
        for where in ('on a vertex', 'on an edge', 'inside', 'outside'):
            # Nothing is inside a flat outline.
            check('redrawn outlines %s, %s' % (sort, where), met[sort, where] > least, (sort, where) != ('flat', 'inside'))
    for what in ('on an edge, and the sum is not 0', 'sum beyond 1', 'sum beyond -1', 'repeated vertices'):
        check('redrawn outlines, %s' % what, met[what] > 20, True)


def redrawn_tables(seed, count):
    """02 h in whole tables: members, outlines, counts, both programs' prints, and the words of the plan but for the outlines."""
    met = collections.Counter()
    for number in range(count):
        rng = random.Random('%s redrawn table %d' % (seed, number))
        table = rng.choice((generate.outline_table, generate.small_table, generate.referring_table, generate.long_outline_table))(rng)
        data, where = table.bytes(), 'redrawn table %d: ' % number
        sizes = redraw.poly_lines(data)
        chosen = {line: rng.choice(redraw.ways(size)) for line, size in sizes.items()}
        other = redraw.redrawn_table(data, chosen)
        words, names = gates.compile_table(data, 4096)[2:]
        check(where + 'the plan', gates.compile_table(other, 4096), (0, 0, redraw.redrawn_plan(words, redraw.compiled_ways(data, words, chosen)), names))
        check(where + 'each outline has its step', len(redraw.polygon_steps(words)), len(sizes))
        other_words = gates.compile_table(other, 4096)[2]
        polygons = {data.split(b'\n')[line].split(b'\t')[1] for line in sizes}
        events = table.events(6)
        for event in events:
            check(where + 'members of %s' % event, gates.members(other, event), gates.members(data, event))
            outlined = gates.outlined(data, event)
            check(where + 'outlines at %s' % event, gates.outlined(other, event), outlined)
            check(where + 'judging %s' % event, gates.judge(other_words, event), gates.judge(words, event))
            met['on an outline'] += other != data and bool(outlined & polygons)
            met['inside'] += other != data and bool((gates.members(data, event) & polygons) - outlined)
        list_ = generate.opened(table) + generate.join(generate.event_lines(events))
        check(where + 'printed', gates.gatecount(other + list_), gates.gatecount(data + list_))
        check(where + 'printed on a sheet', gates.gatesheet(other + 2 * list_), gates.gatesheet(data + 2 * list_))
        met['redrawn'] += other != data
    for what in ('redrawn', 'on an outline', 'inside'):
        check('redrawn tables, %s' % what, met[what] > count // 2, True)


def redrawn_share(seed, count):
    """Of the inputs, sheets and questions that the comparison makes, enough are drawn anew, accepted ones and refused ones."""
    met = collections.Counter()
    for number in range(count):
        for what, made, program in (('input', generate.case, gates.gatecount), ('sheet', generate.sheet, gates.gatesheet)):
            data = made(seed, number).data
            chosen = redraw.some_ways(seed, '%s %d' % (what, number), redraw.poly_lines(gates.part_input(data)[0]))
            anew = redraw.redrawn_table(data, chosen)
            if anew != data:
                first = program(data)
                met[what, 'refused' if first.startswith(b'refused\t') else 'accepted'] += 1
                # Nothing that a table is refused for hangs on the order of its vertices, and no vertex is another line's.
                check('%s %d, redrawn' % (what, number), program(anew), first)
        question = generate.request(seed, number)[1]
        if question[0] == 'compile':
            chosen = redraw.some_ways(seed, 'question %d' % number, redraw.poly_lines(question[2]))
            met['compile'] += redraw.redrawn_table(question[2], chosen) != question[2]
        else:
            chosen = redraw.some_ways(seed, 'question %d' % number, redraw.polygon_steps(question[1]))
            anew = redraw.redrawn_plan(question[1], chosen)
            first, other = gates.check_plan(question[1]), gates.check_plan(anew)
            check('question %d, redrawn' % number, other[0], first[0])
            met[question[0]] += anew != question[1] and first[0] == 0
            met['malformed'] += anew != question[1] and first[0] == 22
    for what, least in ((('input', 'accepted'), 50), (('input', 'refused'), 30), (('sheet', 'accepted'), 25), (('sheet', 'refused'), 25),
                        ('compile', 20), ('judge', 70), ('count', 5), ('check', 2), ('malformed', 10)):
        check('drawn anew: %s' % str(what), met[what] >= least * count // 2000, True)


def accepted_tables(seed, count):
    """Plan against lines, orders of lines, sums of quadrants, order of steps."""
    makers = (generate.small_table, generate.referring_table, generate.referring_table, generate.outline_table,
              generate.chain_table, generate.full_table, generate.wide_table, generate.claim_table)
    outlined_events, met = 0, collections.Counter()
    for number in range(count):
        rng = random.Random('%s table %d' % (seed, number))
        maker = rng.choices(makers, (8, 8, 8, 8, 1, 1, 1, 6))[0]
        table = maker(rng)
        data = table.bytes()
        where = 'table %d: ' % number
        refusal, place, words, names = gates.compile_table(data, 4096)
        check(where + 'accepted', (refusal, place), (0, 0))
        if refusal:
            continue
        check(where + 'as long as foreseen', len(words), table.words)
        check(where + 'the plan passes', gates.check_plan(words), (0, 0))
        check(where + 'in order', steps_in_order(words), True)
        for end in rng.sample(range(len(words)), min(5, len(words))):
            check(where + 'cut off after %d' % end, gates.check_plan(words[:end]), (22, end))
        check(where + 'a word more', gates.check_plan(words + [0])[1] if len(words) < 4096 else len(words), len(words))

        events = table.events(12)
        member_of, outline_of = gates.membership(data), gates.outlines(data)
        with_outline = {line.fields[1] for line in table.lines if line.kind in (b'poly', b'ellip', b'ellip3')}
        counts = {name: 0 for name in names}
        claimed = unclaimed = 0
        for event in events:
            inside, outline = member_of(event), outline_of(event)
            claimed += inside != set()
            unclaimed += inside == set() and not gates.is_spoilt(event)
            outlined_events += outline != set()
            check(where + 'members on outlines of their own', outline <= inside & with_outline, True)
            for name in inside:
                counts[name] += 1
            sets = [sum(1 << region for region, name in enumerate(names) if name in found)
                    for found in (inside, outline)]
            bad = [at for at, value in enumerate(event) if not -65536 <= value <= 65535]
            wanted = (24, bad[0], 0, 0) if bad else (0, 0, *sets)
            check(where + 'event %s' % event, gates.judge(words, event), wanted)
        taken = sum(1 for event in events if all(-65536 <= value <= 65535 for value in event))
        flat = [value for event in events for value in event]
        wanted = [counts[name] for name in names] + [0] * (64 - len(names))
        check(where + 'tally', gates.count(words, flat), (0, 0, taken, len(events) - taken, wanted, unclaimed))
        check(where + 'taken are claimed or not', claimed + unclaimed, taken)
        met['unclaimed' if unclaimed else 'all claimed', 'some claimed' if claimed else 'none claimed', 'regions' if names else 'no regions'] += 1
        cut = words[0] * rng.randint(0, len(events))
        check(where + 'unclaimed of joined lists', gates.count(words, flat[:cut])[5] + gates.count(words, flat[cut:])[5], unclaimed)

        list_ = generate.opened(table) + generate.join(generate.event_lines(events))
        printed = printed_by_name(gates.gatecount(data + list_))
        check(where + 'printed', printed, (counts, taken, len(events) - taken))
        lines = [table.head()] + [line.bytes() for line in table.lines]
        for other in generate.orders(rng, lines, 3):
            check(where + 'another order', printed_by_name(gates.gatecount(other + list_)), printed)
            other_words, other_names = gates.compile_table(other, 4096)[2:]
            check(where + 'another order, unclaimed', gates.count(other_words, flat)[5], unclaimed)
            for event in events:
                check(where + 'another order, event %s' % event,
                      [by_name(bits, other_names) for bits in gates.judge(other_words, event)[2:]],
                      [member_of(event), outline_of(event)])
        for line in table.lines:
            if line.kind == b'quad':
                whole = taken if line.fields[2] == b'-' else counts[line.fields[2]]
                total = sum(counts[line.fields[at]] for at in line.places('quadrant'))
                check(where + 'quadrants add up', total, whole)
    check('events on outlines were met', outlined_events > 2 * count, True)
    for what in (('unclaimed', 'some claimed', 'regions'), ('unclaimed', 'none claimed', 'regions'), ('all claimed', 'some claimed', 'regions'),
                 ('unclaimed', 'none claimed', 'no regions')):
        check('lists with %s were met' % ', '.join(what), met[what] > count // 100, True)


def printed_by_name(output):
    lines = [line.split(b'\t') for line in output.split(b'\n')[:-1]]
    if len(lines) < 2:
        return output
    return {name: int(number) for name, number in lines[:-2]}, int(lines[-2][1]), int(lines[-1][1])


def steps_in_order(words):
    """Before each step no lower region is both unwritten and ready."""
    steps = gates.plan_steps(words)
    waits = {region: {parent} - {-1} | ({word // 2 for word in body} if kind in (4, 5, 6) else set())
             for kind, region, parent, body in steps}
    written = set()
    for _, region, _, _ in steps:
        ready = [other for other in waits if other not in written and waits[other] <= written]
        if region != min(ready):
            return False
        written.add(region)
    return True


def circles(seed):
    """The line of 16 by a closed matrix of who reaches whom."""
    met = 0
    for number in range(300):
        rng = random.Random('%s circle %d' % (seed, number))
        data = generate.circle_table(rng).bytes()
        lines = [gates.read_gate(line.split(b'\t')) for line in data[:-1].split(b'\n')[1:]]
        size = len(lines)
        reaches = [[any(name in other.regions() for name in line.references()) for other in lines] for line in lines]
        for k in range(size):
            for i in range(size):
                if reaches[i][k]:
                    reaches[i] = [a or b for a, b in zip(reaches[i], reaches[k])]
        first = next((at for at in range(size) if reaches[at][at]), None)
        leads = any(reaches[at][k] and reaches[k][k] for at in range(first or 0) for k in range(size))
        met += leads
        check('circle %d' % number, gates.compile_table(data, 4096)[:2], (16, first + 2))
    check('lines that lead in were met', met > 50, True)


def generated(seed, count):
    """Inputs made for a refusal meet it; together they meet all of them."""
    met = set()
    for number in range(count):
        case = generate.case(seed, number)
        output = gates.gatecount(case.data)
        fields = output.split(b'\n')[0].split(b'\t')
        refusal = int(fields[1]) if len(fields) == 3 and fields[0] == b'refused' else 0
        met.add(refusal)
        if case.refusals:
            check('input %d (%s)' % (number, case.label), refusal in case.refusals and refusal, refusal)
        if case.place is not None:
            check('input %d (%s), place' % (number, case.label), int(fields[2]), case.place)
    check('every refusal of the program was met', met, set(range(18)) | {23, 31})


def generated_sheets(seed, count):
    """Inputs with several lists: refusals as they were made; each column is its list's count alone, the sums are that of the joined
    lists, and shares and total follow from them."""
    met = collections.Counter()
    for number in range(count):
        case = generate.sheet(seed, number)
        what = 'sheet %d (%s)' % (number, case.label)
        output = gates.gatesheet(case.data)
        lines = [line.split(b'\t') for line in output.split(b'\n')]
        refusal = int(lines[0][1]) if len(lines) == 2 else 0
        met['refused', refusal] += 1
        if case.refusals:
            check(what, refusal in case.refusals and refusal, refusal)
        if case.place is not None:
            check(what + ', place', int(lines[0][2]), case.place)
        table, lists = gates.part_lists(case.data)
        if refusal:
            if refusal not in (23, 31) or len(lists) < 2:
                check(what + ', as gatecount', output, gates.gatecount(case.data))
            elif refusal == 23:
                check(what + ', a line of a list', lists[0][0] <= int(lines[0][2]) <= lists[-1][0] + 1 + len(lists[-1][3]), True)
            else:
                alone = [gates.gatecount(table + b'events\n' + columns) for _, closed, columns, _ in lists if closed]
                check(what + ', the first that is wrong alone', output, next((each for each in alone if each.startswith(b'refused\t31\t')), None))
                met['wrong columns', 'of the first list' if alone[0] == output else 'of a later list'] += 1
                met['wrong columns', 'of different places'] += len({each for each in alone if each.startswith(b'refused\t31\t')}) > 1
                met['wrong columns', 'and a bad line before'] += any(gates.event_values(line, len(gates.read_table(table)[2])) is None
                                                                     for _, _, _, each in lists[:alone.index(output)] for line in each)
            continue
        met['lists', min(len(lists), 3)] += 1
        met['empty list'] += any(not each for _, _, _, each in lists)
        numbers = [[int(field) for field in line[1:]] for line in lines[:-1]]

        def counted(*chosen):
            some = [b'events\n' + columns for _, _, columns, _ in chosen[:1]] + [line for _, _, _, each in chosen for line in each]
            return [int(line.split(b'\t')[1]) for line in gates.gatecount(table + b''.join(some)).split(b'\n')[:-1]]

        check(what + ', the lines behind those of the regions', [line[0] for line in lines[-5:-1]], [b'taken', b'unclaimed', b'spoilt', b'events'])
        both = numbers[:-3] + numbers[-2:-1]        # gatecount prints no unclaimed
        check(what + ', sums', [row[len(lists)] for row in both], counted(*lists))
        for column in range(0, len(lists), 1 + len(lists) // 6):
            check(what + ', list %d' % column, [row[column] for row in both], counted(lists[column]))
        head, table_gates = gates.read_table(table)[2:]
        if sum(len(each) for _, _, _, each in lists) < 2000:
            members_of, left = gates.membership(table), []
            for _, _, _, each in lists:
                events = [gates.event_values(line, len(head)) for line in each]
                left.append(sum(1 for event in events if not gates.is_spoilt(event) and not members_of(event)))
            check(what + ', unclaimed', numbers[-3], left + [sum(left)])
            met['unclaimed', 'in several lists' if sum(1 for number in left if number) > 1 else 'in one list' if sum(left) else 'in no list'] += 1
        parents = [gate.parent for gate in table_gates for _ in gate.regions()]
        sums = {line[0]: row[len(lists)] for line, row in zip(lines[:-5], numbers)}
        wanted = [[row[len(lists)], sums[parent] if parent != b'-' else numbers[-4][-1]] for row, parent in zip(numbers, parents)]
        check(what + ', shares', [row[len(lists) + 1:] for row in numbers[:-4]], wanted)
        check(what + ', no share', [len(row) for row in numbers[-4:]], [len(lists) + 1] * 3 + [1])
        check(what + ', total', numbers[-1], [numbers[-4][-1] + numbers[-2][-1]])
        if not parents:
            check(what + ', no region', numbers[-3], numbers[-4])
            met['no region', 'in several lists' if sum(1 for number in numbers[-4][:-1] if number) > 1 else ''] += 1
        check(what + ', lines of the lists', numbers[-1], [sum(len(each) for _, _, _, each in lists)])
        for row, parent in zip(numbers, parents):
            met['share', 'of a parent' if parent != b'-' else 'of the taken', 'in several lists' if len(lists) > 1 and 0 < row[-2] < row[-1] else ''] += 1
        if case.lines:
            for other in generate.orders(random.Random('%s sheet order %d' % (seed, number)), case.lines, 2):
                check(what + ', another order', sorted(gates.gatesheet(other + case.list).split(b'\n')), sorted(output.split(b'\n')))
                met['order'] += 1
    check('every refusal of the sheet was met', {number for number in range(40) if met['refused', number]}, set(range(18)) | {23, 31})
    for what in (('lists', 0), ('lists', 1), ('lists', 2), ('lists', 3), 'empty list', 'order', ('share', 'of a parent', 'in several lists'),
                 ('share', 'of the taken', 'in several lists'), ('unclaimed', 'in several lists'), ('unclaimed', 'in one list'), ('unclaimed', 'in no list'),
                 ('wrong columns', 'of the first list'), ('wrong columns', 'of a later list'), ('wrong columns', 'of different places'),
                 ('wrong columns', 'and a bad line before')):
        check('sheets with %s were met' % str(what), met[what] > count // 100, True)
    check('sheets with no region and events in several lists were met', met['no region', 'in several lists'] > count // 200, True)


def outline_bits(words, event):
    """The steps on whose shape's outline an event is, member or not, by the other ways of reckoning."""
    bits = 0
    for kind, region, _, body in gates.plan_steps(words):
        if kind == 2:
            bits |= (polygon_said(body[2:], event[body[0]], event[body[1]]) == ON_OUTLINE) << region
        elif kind in (3, 7):
            numbers = [Fraction(word, 1000) for word in body[4:]] if kind == 7 else body[4:]
            bits |= (ellipse_said(*body[2:4], *numbers, event[body[0]], event[body[1]]) == ON_OUTLINE) << region
        elif kind == 8:
            point = [event[dimension] for dimension in body[:3]]
            bits |= (ellipsoid_said(body[3:6], body[6:12], body[12], point) == ON_OUTLINE) << region
    return bits


def at_outline(vertices, x, y):
    """What an event meets of a polygon of more than 16 vertices, in words."""
    points = list(zip(vertices[0::2], vertices[1::2]))
    edges = list(zip(points, points[1:] + points[:1]))
    carrying = [at for at, (start, end) in enumerate(edges) if gates.polygon_position([*start, *end], x, y) == ON_OUTLINE]
    sides = [(height > y) - (height < y) for _, height in points]
    last = len(points) - 1
    if last < 16:
        return
    if carrying in ([0], [last]):
        yield 'on the first edge alone' if carrying == [0] else 'on the closing edge alone'
    elif carrying:
        yield 'on a vertex' if (x, y) in points else 'on another edge'
        if carrying[0] >= 64:
            yield 'on an edge from the 65th on'
    else:
        yield 'inside' if winding(vertices, x, y) else 'outside'
        if 0 in sides:
            here = [vx for vx, vy in points if vy == y]
            yield ('left of vertices at its height' if min(here) > x else 'right of vertices at its height' if max(here) < x
                   else 'between vertices at its height')
    for at in range(last + 1):
        around = {sides[(at + step) % (last + 1)] for step in (-4, -3, -2, -1, 1, 2, 3, 4)}
        if sides[at] == 0 and around in ({1}, {-1}):
            yield 'touched from %s at %s vertex' % ('above' if around == {1} else 'below', 'the first' if at == 0 else 'the last' if at == last else 'another')


AT_OUTLINE = {'on the first edge alone': 10, 'on the closing edge alone': 10, 'on another edge': 50, 'on a vertex': 50, 'on an edge from the 65th on': 50,
              'inside': 50, 'outside': 50, 'left of vertices at its height': 50, 'right of vertices at its height': 50, 'between vertices at its height': 20,
              **{'touched from %s at %s vertex' % (side, which): least for side in ('above', 'below')
                 for which, least in (('the first', 2), ('the last', 2), ('another', 50))}}


def asked(seed, count):
    """The questions have kinds 7 and 8 in plans that pass and in others, and events at which a careless counter would be seen.

    They have polygons of every number of vertices, with events at each sort of place.
    """
    met, sizes = collections.Counter(), set()
    for number in range(count):
        _, question = generate.request(seed, number)
        if question[0] == 'compile':
            words = gates.compile_table(question[2], question[1])[2] or []
            for new in (7, 8):
                met[new, 'compiled'] += new in [step[0] for step in gates.plan_steps(words)]
            continue
        words, (refusal, _) = question[1], gates.check_plan(question[1])
        for new in (7, 8):
            met[new, '%s, refused with %d' % (question[0], refusal)] += new in (words if refusal else [step[0] for step in gates.plan_steps(words)])
        if question[0] == 'judge' and refusal == 0 and len(question[2]) == words[0] and not gates.is_spoilt(question[2]):
            for kind, _, _, body in gates.plan_steps(words):
                if kind == 2:
                    sizes.add(len(body) // 2 - 1)
                    met.update(at_outline(body[2:], question[2][body[0]], question[2][body[1]]))
                elif kind == 7:
                    dx, dy = question[2][body[0]] - body[2], question[2][body[1]] - body[3]
                    for otherwise in CARELESS:
                        met[7, otherwise.__name__] += otherwise(body[4:7], body[7], dx, dy)
                elif kind == 8:
                    step = [question[2][dimension] - mean for dimension, mean in zip(body[:3], body[3:6])]
                    for otherwise in CARELESS:
                        met[8, otherwise.__name__] += otherwise(body[6:12], body[12], *step)
    for new in (7, 8):
        for what in ('compiled', 'check, refused with 0', 'check, refused with 22', 'judge, refused with 0', 'count, refused with 0',
                     'wrong_in_64_bits'):
            check('questions with kind %d, %s' % (new, what), met[new, what] > count // 100, True)
        for what in ('rim_wrong_in_64_bits', 'wrong_in_doubles', 'rim_wrong_in_doubles'):
            check('questions with kind %d, %s' % (new, what), met[new, what] > 0, True)
    check('questions with every number of vertices', sizes, set(range(long_outlines.LEAST, long_outlines.MOST + 1)))
    for what, least in AT_OUTLINE.items():
        check('questions with long outlines, %s' % what, met[what] >= least * count // 2000, True)


def random_plans(seed, count):
    """Plans made directly pass; each role's damage is met; a place is where 01 puts it."""
    met = set()
    for number in range(count):
        rng = random.Random('%s plan %d' % (seed, number))
        plan = generate.Plan(rng)
        check('plan %d' % number, gates.check_plan(plan.words), (0, 0))
        for event in (plan.event(), plan.event()):
            _, _, bits, outline = gates.judge(plan.words, event)
            check('outlines of plan %d at %s' % (number, event), outline, bits & outline_bits(plan.words, event))
        words = generate.damage_plan(rng, plan)
        refusal, place = gates.check_plan(words)
        if refusal == 22:
            met.add(plan.roles[place] if place < min(len(words), len(plan.roles)) else 'end')
            check('place of damaged plan %d' % number, 0 <= place <= len(words), True)
            # All before the place is good: cut off there, the words just run out, or
            # the plan is whole when what stood there was left over.
            check('damaged plan %d cut off at its place' % number,
                  gates.check_plan(words[:place]) in ((22, place), (0, 0)), True)
    check('every role was damaged', met >= set(generate.ROLES) | {'end'}, True)


def main():
    parser = argparse.ArgumentParser(description='Test the reference.')
    parser.add_argument('--seed', default='1')
    parser.add_argument('--tables', type=int, default=400, metavar='N')
    options = parser.parse_args()
    worked_example()
    table_text()
    quadrants()
    whole_tables()
    membership()
    on_outlines()
    decimals()
    ellipsoids()
    plans()
    program()
    several_lists()
    unclaimed_events()
    column_heads()
    redrawing()
    outlines(options.seed)
    redrawn_outlines(options.seed)
    redrawn_tables(options.seed, options.tables // 2)
    accepted_tables(options.seed, options.tables)
    circles(options.seed)
    generated(options.seed, 5 * options.tables)
    generated_sheets(options.seed, 5 * options.tables)
    random_plans(options.seed, 5 * options.tables)
    asked(options.seed, 5 * options.tables)
    redrawn_share(options.seed, 5 * options.tables)
    print('%d passed, %d failed' % (passed, failed))
    sys.exit(1 if failed else 0)


if __name__ == '__main__':
    main()
