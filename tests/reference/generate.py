"""Seeded inputs for comparing the gate counter with another program.

Everything hangs on a seed and a number only, so each input can be made again alone:

    case(seed, number)      one standard input for `gatecount`
    sheet(seed, number)     one for `gatesheet`
    request(seed, number)   one question about a plan or a table
    each_edge(seed)         questions about events on each edge of polygons of every size
    judged(seed, number)    a table, and events to be judged under other orders of its lines
    orders(rng, lines, k)   several orders of a table's gate lines

Most inputs are small; a few stand at the limits of size.  Tables are built valid, with
the role of every field known, and are then damaged on purpose where damage is wanted.
"""

import itertools
import math
import random
from decimal import Decimal

import gates
import long_outlines

LETTERS = 'ABCDEFGHIJKLMNOPQRSTUVWXYZabcdefghijklmnopqrstuvwxyz'
SIGNS = LETTERS + '0123456789-_'

# No word is reserved: all of these are good names.
TRICKY_NAMES = ['events', 'taken', 'spoilt', 'dims', 'refused', 'rect', 'unclaimed', 'ellip', 'quad',
                'ellip3', 'and', 'or', 'not', 'in', 'less', 'A', 'z', 'A-', 'a_b', 'Z9', 'x-1-2-3_4_5_6_7',
                'ABCDEFGHIJKLMNOP', 'ABCDEFGHIJKLMNOQ', 'dims08', 'apart', 'e1']

LIMITS = (-65536, -65535, -65534, -1, 0, 1, 65534, 65535)

# What stands in a field of each role that holds a number.
RANGES = {'min': (-65536, 65535), 'max': (-65535, 65536), 'vertex': (-65536, 65535),
          'mean': (-65536, 65535), 'representative': (-65536, 65535),
          'divider': (-65535, 65535), 'entry': (-16777216, 16777216), 'd2': (1, 4096)}
# Those of a line with decimals, in thousandths.
DECIMAL_RANGES = {'decimal entry': (-2000000000, 2000000000), 'decimal d2': (1, 4096000)}

BAD_NUMBERS = [b'', b'-', b'-0', b'00', b'-01', b'01', b'+1', b' 1', b'1 ', b'1.5', b'1.0', b'1e3',
               b'--1', b'0x1', b'x', b'1\r', b'\x00', b'1\x00', b'\xef\xbc\x91', b'!1', b'1,000',
               b'9' * 40 + b'x', b'- 1', b'-00', b'1-', b'\xff', b'-*', b'**']
# Bad also where a number may have decimals.
BAD_DECIMALS = [field for field in BAD_NUMBERS if field not in (b'1.5', b'1.0')] + [
    b'-0.0', b'-0.00', b'-0.000', b'-0.0000', b'.5', b'-.5', b'.0', b'5.', b'-5.', b'0.', b'.', b'-.', b'..', b'1.2345',
    b'0.0000', b'1.0000', b'-0.0005', b'2000000.0000', b'00.5', b'-00.5', b'01.5', b'-01.5', b'+0.5', b'+.5', b'1.5e1', b'1e3.0', b'1.-5', b'1.+5',
    b'1.5.2', b'1..5', b'..5', b'1.5 ', b' 1.5', b'1. 5', b'- 1.5', b'1,5', b'1.5\r', b'1.x', b'x.5', b'0x1.8', b'1.5-', b'--1.5', b'-+1.5',
    b'1.5\x00', b'1.*', b'*.5', b'1_0.5', b'1.5f', b'inf', b'nan', b'1/2', b'1:5', b'1\xc2\xb75', b'\xef\xbc\x91.5', b'1.\xef\xbc\x95',
    b'9' * 40 + b'.', b'9' * 40 + b'.1234', b'9' * 40 + b'.x', b'.' + b'9' * 40, b'1.' + b'9' * 40, b'0.' + b'0' * 40, b'-0.' + b'0' * 40,
    b'0' * 40 + b'.5', b'-' + b'0' * 40 + b'.5', b'1.' + b'0' * 3000]
# Off scale as c11, c12 or c22, and as D2; in thousandths some are a little more than a power of 2.
OFF_ENTRIES = [b'2000000.001', b'-2000000.001', b'2000000.1', b'-2000000.10', b'2000001.0', b'-2000001.000', b'16777216.0', b'-16777216.5',
               b'2147483.647', b'2147483.648', b'-2147483.648', b'4294967.296', b'4294967.297', b'-4294967.295', b'9223372036854775.808',
               b'18446744073709551.617', b'-18446744073709551.615', b'9' * 40 + b'.5', b'-' + b'9' * 40 + b'.125', b'1' + b'0' * 300 + b'.0']
OFF_D2 = [b'0.0', b'0.00', b'0.000', b'-0.001', b'-0.5', b'-1.5', b'4096.001', b'4096.01', b'4096.5', b'4097.0', b'65536.001', b'4294967.297',
          b'18446744073709551.617', b'9' * 40 + b'.999', b'-' + b'9' * 40 + b'.0', b'1' + b'0' * 300 + b'.000']
BAD_NAMES = [b'', b'9', b'9a', b'_a', b'a b', b'a.b', b'A' * 17, b'a' * 18, b' a', b'a ', b'a\r',
             b'a\x00', b'\xc3\xa9', b'a:single', b'*', b'!', b'!!R', b'--', b'-a', b'a!', b'\xff',
             b'a/b']
BAD_KINDS = [b'', b'bogus', b'Rect', b'RECT', b'rect ', b' rect', b'rect\r', b'rects', b'rec',
             b'ellip2', b'ellip4', b'ellip33', b'Ellip3', b'ellip3 ', b'ellip3\r', b'ellip 3', b'ellipsoid', b'elli',
             b'tope', b'tree', b'apart', b'dims', b'events ', b' events', b'events\r',
             b'Events', b'\x00', b'nor', b'!and', b'-', b'*', b'1', b'ellipse', b'quad2']
BAD_COUNTS = [b'0', b'4', b'12', b'01', b'-1', b'*', b'x', b'', b'1 ', b'+1', b'9', b'1.', b'\r']
BAD_MATRICES = [(4, 6, 9), (0, 0, 0), (-1, 0, 1), (1, 0, -1), (-5, 6, -9), (-5, 0, -9), (0, 0, 5),
                (5, 0, 0), (1, 1, 1), (1, -1, 1), (0, 1, 0), (4, -6, 9), (1, 2, 3),
                (16777216, 16777216, 16777216), (16777216, -16777216, 16777216),
                (1, 16777216, 16777216), (-16777216, 0, -16777216), (1, 4096, 16777216)]
GOOD_MATRICES = [(5, 6, 9), (1, 0, 1), (16777216, 0, 16777216), (16777216, 16777215, 16777216),
                 (16777216, -16777215, 16777216), (1, 0, 16777216), (16777216, 0, 1), (1, 4095, 16777216),
                 (1, -4095, 16777216), (2, 1, 1), (2, -1, 1), (65536, 0, 256), (40000, 0, 30625)]
# In thousandths: singular by one thousandth, by all entries, at the ends of the range, and by 1 in products that doubles round.
BAD_DECIMAL_MATRICES = [(4000, 6000, 9000), (0, 0, 0), (-1, 0, 1), (1, 0, -1), (-1, 0, -1), (0, 0, 5), (5, 0, 0), (1, 1, 1), (1, -1, 1), (0, 1, 0), (2, 3, 4),
                        (500, -500, 500), (1134500, 1134500, 1134500), (-1134500, -234500, -1134500), (2000000000, 2000000000, 2000000000),
                        (2000000000, -2000000000, 2000000000), (1999999998, 1999999999, 2000000000), (1999999998, -1999999999, 2000000000),
                        (1000000000, 1414213563, 2000000000), (2000000000, 0, -2000000000), (-2000000000, 2000000000, 2000000000),
                        (-2000000000, 0, -2000000000), (1, 44722, 2000000000), (2000000000, 2000000000, 1), (1, 2000000000, 2000000000)]
GOOD_DECIMAL_MATRICES = [(4001, 6000, 9000), (1, 0, 1), (2, 1, 1), (2, -1, 1), (1134500, -234500, 1134500), (2000000000, 1999999999, 2000000000),
                         (2000000000, -1999999999, 2000000000), (2000000000, 0, 2000000000), (1, 0, 2000000000), (2000000000, 0, 1),
                         (1, 44721, 2000000000), (1, -44721, 2000000000), (1000000000, 1414213562, 2000000000), (1999999999, 1999999998, 1999999999),
                         (1500, 500, 500), (999, -1, 999), (2000000000, -1, 2000000000)]
# c11, c12, c13, c22, c23, c33 of an `ellip3` line. Of c11, the upper left determinant and the whole one the first list has c11 alone not above 0, ..
C11_BAD = [(-1, 0, 0, -1, 0, 1), (-2, 1, 0, -1, 0, 1), (-5, 1, 2, -4, 3, 7), (-16777216, 0, 0, -16777216, 0, 16777216), (-1, 0, 0, -1, 0, 16777216),
           (-3, 2, 1, -2, 1, 9), (-1, 4095, 0, -16777216, 5, 16777216)]
# .. the second the upper left one alone; where it is 0, the whole one isn't above 0 either, ..
MINOR_BAD = [(1, 0, 0, -1, 0, -1), (4, 6, 0, 8, 0, -1), (1, 2, 0, 3, 0, -1), (16777216, 0, 0, -16777216, 0, -16777216),
             (16777216, 16777216, 0, 16777215, 0, -1), (3, 1, 2, -4, 1, -7), (1, 0, 5, -1, 0, 24), (1, 16777216, 0, 16777216, 0, -16777216),
             (1, 2, 2, 1, 2, 1), (8388608, 16777216, 16777216, 8388608, 16777216, 8388608)]
# .. and the third the whole one alone, which is 0, just below 0, or far below: there 64 bits or doubles take some for more than 0.
WHOLE_BAD = [(1, 0, 0, 1, 0, 0), (1, 0, 1, 1, 0, 1), (5, 6, 0, 9, 0, 0), (1, 0, -1, 1, 0, 1), (1, 0, 0, 1, 1, 1), (1, 0, 0, 1, -1, 1), (2, 1, 1, 1, 1, 1),
             (1, 1, 1, 2, 1, 1), (2, 1, -1, 2, -1, 0), (2, -1, -1, 2, -1, 2), (1, 0, 4096, 1, 0, 16777216), (1, 0, 0, 1, 4096, 16777216),
             (16777216, 0, 16777216, 16777216, 0, 16777216), (16777216, 0, 0, 16777216, -16777216, 16777216),
             (1, 0, 0, 1, 0, -1), (1, 0, 1, 1, 1, 1), (2, 1, 1, 2, 2, 1), (1, 0, 4096, 1, 1, 16777216), (16777216, 0, 0, 16777216, 0, -16777216),
             (16777216, 0, 0, 16777216, 0, -16777215), (16777216, 0, 0, 16777216, 0, -1), (5, 6, 16777216, 9, -16777216, 16777216),
             (16777215, 0, 16777216, 16777216, 0, 16777216), (65536, 0, 0, 65536, 0, -2147), (3, -2, -2, 3, -2, 3),
             (11000889, 12065931, 9388212, 13352074, 10013963, 8691497), (7759057, -8969069, 2952329, 10369298, -3414623, 1125701),
             (7039901, -5062277, 4476747, 3640493, -3219651, 2847650), (538280, -1689614, -2678230, 5364361, 8513140, 13511825)]
# More of them fail at once.
MORE_BAD = [(0, 0, 0, 0, 0, 0), (-1, 0, 0, 1, 0, 1), (-1, 0, 0, -1, 0, -1), (0, 1, 0, 1, 0, 1), (0, 0, 0, 1, 0, 1), (4, 6, 0, 9, 0, 1), (1, 1, 0, 1, 0, 1),
            (1, -1, 2, 1, 3, 16777216), (1, 0, 0, 0, 0, 1), (0, 1, 1, 0, 1, 0), (-16777216,) * 6, (16777216,) * 6, (1, 2, 3, 4, 5, 6), (-5, 6, 0, -9, 0, 0),
            (0, 0, 16777216, 0, 0, 0), (-16777216, 0, 0, -16777216, 0, -16777216)]
BAD_ELLIPSOIDS = C11_BAD + MINOR_BAD + WHOLE_BAD + MORE_BAD
GOOD_ELLIPSOIDS = [(1, 0, 0, 1, 0, 1), (5, 6, 0, 9, 0, 1), (2, 1, 0, 1, 0, 1), (1, 0, 0, 2, -1, 1), (2, 0, 1, 1, 0, 1), (3, 1, 1, 2, 1, 2),
                   (3, -1, 1, 2, -1, 2), (2, -1, -1, 2, -1, 3), (16777216, 0, 0, 16777216, 0, 16777216), (1, 0, 0, 16777216, 0, 1), (16777216, 0, 0, 1, 0, 1),
                   (16777216, 16777215, 0, 16777216, 0, 16777216), (16777216, 0, -16777215, 16777216, 0, 16777216),
                   (16777216, 0, 0, 16777216, 16777215, 16777216), (16777216, 8388608, 8388608, 16777216, 8388608, 16777216),
                   (16777216, -8388607, -8388608, 16777216, -8388608, 16777216), (16777216, 16777215, 16777214, 16777216, 16777215, 16777216),
                   (1, 0, 4095, 1, 0, 16777216), (1, 0, 0, 1, -4095, 16777216), (1, 4095, 0, 16777216, 0, 1), (280, 236, 74, 472, 310, 553),
                   (553, -310, 74, 472, -236, 280), (40000, 0, 0, 30625, 0, 10000), (65536, 0, 0, 256, 0, 65536),
                   (10173257, -10818853, -9496182, 11505659, 10098781, 8864173), (8729642, -5026689, 9658324, 2895990, -5562850, 10687099)]
# What stands behind name and parent of an `ellip3` line under `dims A B C D`, and what it is refused with.
ELLIP3_LINES = [
    ('A B C 0 0 0 1 0 0 1 0 1 1', 0), ('D B A 5 -6 7 280 236 74 472 310 553 9', 0), ('C A B -65536 65535 0 16777216 0 0 16777216 0 16777216 4096', 0),
    ('B C D 0 0 0 5 6 0 9 0 1 1', 0), ('A B D 1 2 3 16777216 -8388607 -8388608 16777216 -8388608 16777216 1', 0), ('A C B 0 0 0 3 1 1 2 1 2 4', 0),
    ('A B C 0 0 0 1 0 0 1 0 1', 5), ('A B C 0 0 0 1 0 0 1 0 1 1 1', 5), ('A B C 0 0 0 1 0 0 1 0 1 1 ', 5), ('A B 0 0 1 0 1 1', 5),
    ('A B 0 0 0 1 0 0 1 0 1 1', 5), ('A B C 0 0 0 1 0 0 0 1 0 0 0 1 1', 5), ('A B C D 0 0 0 0 1 0 0 1 0 1 1', 5), ('A B C 0 0 1 0 0 1 0 1 1', 5),
    ('A B C', 5), ('A B 0 0 -0.0 0 1 5', 5),
    ('A B C 0.0 0 0 1 0 0 1 0 1 1', 7), ('A B C 0 1.5 0 1 0 0 1 0 1 1', 7), ('A B C 0 0 -0.5 1 0 0 1 0 1 1', 7), ('A B C 0 0 0 1.0 0 0 1 0 1 1', 7),
    ('A B C 0 0 0 1 0.5 0 1 0 1 1', 7), ('A B C 0 0 0 1 0 0.000 1 0 1 1', 7), ('A B C 0 0 0 1 0 0 1.5 0 1 1', 7), ('A B C 0 0 0 1 0 0 1 -0.25 1 1', 7),
    ('A B C 0 0 0 1 0 0 1 0 1134.5 1', 7), ('A B C 0 0 0 1 0 0 1 0 1 0.5', 7), ('A B C 0 0 0 1 0 0 1 0 1 1.0', 7),
    ('A B C 0 0 0 1.0 0.0 0.0 1.0 0.0 1.0 1.0', 7), ('A B C 0 0 0 1 -0 0 1 0 1 1', 7), ('A B C * 0 0 1 0 0 1 0 1 1', 7),
    ('A B C 0 0 0 1 0 0 1 0 * 1', 7), ('A B C 0 0 0 1 0 0 1 0 1 *', 7),
    ('A A Z 0 0 99999 4 6 0 9 0 1 1.0', 7), ('A B C 0 0 0 99999999999 0 0 1 0 x 1', 7),
    ('A B C 65536 0 0 1 0 0 1 0 1 1', 8), ('A B C 0 -65537 0 1 0 0 1 0 1 1', 8), ('A B C 0 0 65536 1 0 0 1 0 1 1', 8), ('A B C 0 0 -65537 1 0 0 1 0 1 1', 8),
    ('A B C 0 0 0 16777217 0 0 1 0 1 1', 8), ('A B C 0 0 0 1 16777217 0 1 0 1 1', 8), ('A B C 0 0 0 1 0 -16777217 1 0 1 1', 8),
    ('A B C 0 0 0 1 0 0 16777217 0 1 1', 8), ('A B C 0 0 0 1 0 0 1 -16777217 1 1', 8), ('A B C 0 0 0 1 0 0 1 0 16777217 1', 8),
    ('A B C 0 0 0 1 0 0 1 0 1 0', 8), ('A B C 0 0 0 1 0 0 1 0 1 -1', 8), ('A B C 0 0 0 1 0 0 1 0 1 4097', 8), ('A B C 0 0 0 4 6 0 9 0 1 0', 8),
    ('A A B 0 0 0 1 0 0 1 0 1 4097', 8),
    ('A B Z 0 0 0 1 0 0 1 0 16777217 1', 8), ('A B C 0 0 0 1 0 0 1 0 4294967297 1', 8),
    ('A A B 0 0 0 1 0 0 1 0 1 1', 9), ('A B A 0 0 0 1 0 0 1 0 1 1', 9), ('A B B 0 0 0 1 0 0 1 0 1 1', 9), ('C C C 0 0 0 1 0 0 1 0 1 1', 9),
    ('Z B C 0 0 0 1 0 0 1 0 1 1', 9), ('A Z C 0 0 0 1 0 0 1 0 1 1', 9), ('A B Z 0 0 0 1 0 0 1 0 1 1', 9), ('A B  0 0 0 1 0 0 1 0 1 1', 9),
    ('A B 5 0 0 0 1 0 0 1 0 1 1', 9), ('A B A 0 0 0 4 6 0 9 0 1 1', 9), ('A B Z 0 0 0 0 0 0 0 0 0 1', 9),
    ('A B C 0 0 0 -1 0 0 -1 0 1 1', 11), ('A B C 0 0 0 1 0 0 -1 0 -1 1', 11), ('A B C 0 0 0 1 0 0 1 0 -1 1', 11), ('A B C 0 0 0 1 0 1 1 0 1 1', 11),
    ('A B C 0 0 0 4 6 0 9 0 1 1', 11), ('A B C 0 0 0 0 0 0 0 0 0 1', 11), ('A B C 0 0 0 16777216 0 0 16777216 0 -16777215 1', 11),
    ('A B C 0 0 0 16777216 16777216 16777216 16777216 16777216 16777216 4096', 11), ('A B C 0 0 0 1 0 0 0 0 1 1', 11),
    ('A B C 0 0 0 2 -1 -1 2 -1 2 1', 11), ('D C B 0 0 0 3 -2 -2 3 -2 3 1', 11), ('A B C 0 0 0 1 2 2 1 2 1 1', 11)]
# c11, c12, c22, D2 of an `ellip` line, and what it is refused with.
DECIMAL_LINES = (
    ('1134.5 -234.5 1134.5 1', 0), ('1 0 1 0.001', 0), ('1 0 1 4096.0', 0), ('1 0 1 4096.000', 0), ('1 0 1 4095.999', 0), ('1 0.0 1 1', 0),
    ('1 0.000 1 1', 0), ('1 -0.5 1 1', 0), ('1 -0.999 1 1', 0), ('1 -0.001 1 1', 0), ('1 0.05 1 1', 0), ('1.500 -0.050 1.05 1.005', 0), ('0.001 0 0.001 1', 0),
    ('2000000 0 2000000 1.0', 0), ('2000000.000 -1999999.999 2000000 1', 0), ('2000000 1999999.999 2000000.0 4096', 0), ('5.0 6.0 9.0 1.0', 0),
    ('4.001 6 9 1', 0), ('0.5 0 0.5 0.5', 0), ('1999999.999 0 1 1', 0), ('5 6 9 1', 0), ('16777216 0 16777216 1', 0), ('2000001 -2000000 2000001 4096', 0),
    ('1 0 1 -0', 7), ('-0 0.5 1 1', 7), ('1.5 -0 1 1', 7), ('1 -0.0 1 1', 7), ('1 -0.000 1 1', 7), ('1 .5 1 1', 7), ('1 -.5 1 1', 7), ('5. 0 1 1', 7),
    ('1.2345 0 1 1', 7), ('1 0 1.0000 1', 7), ('00.5 0 1 1', 7), ('1 +0.5 1 1', 7), ('1e3 0 1 0.5', 7), ('1 0 1 1.-5', 7), ('1 0 1 1.5.2', 7), ('1 . 1 1', 7),
    ('1 - 1 1', 7), ('1 0 1 .', 7), ('9999999999.5 -0.0 1 1', 7), ('2000000.001 0 1 .5', 7), ('1 0 1 *', 7), ('1.5 0 1 *', 7),
    ('2000000.001 0 1 1', 8), ('1 -2000000.001 1 1', 8), ('1 0 2000000.001 1', 8), ('2000001 0 1 1.0', 8), ('1 2000001 1.0 1', 8), ('1.0 0 2000001 1', 8),
    ('1 -2000001 1 0.5', 8), ('16777216 0 16777216 1.0', 8), ('16777217 0 1 1', 8), ('1 0 1 4096.001', 8), ('1 0 1 0.000', 8), ('1 0 1 0.0', 8),
    ('1 0 1 -0.001', 8), ('1.0 0 1 0', 8), ('1.0 0 1 4097', 8), ('0.0 0 1 0.000', 8), ('4 6 9 4096.5', 8),
    ('0.000 0 1 1', 11), ('-0.5 0 -0.5 1', 11), ('4.0 6 9 1', 11), ('4 6 9 0.5', 11), ('4 6.000 9 1', 11), ('3.999 6 9 1', 11), ('0.001 0.001 0.001 1', 11),
    ('0.5 -0.5 0.5 1', 11), ('2000000 -2000000 2000000 0.001', 11), ('1999999.998 1999999.999 2000000 1', 11), ('1 0 0.0 1', 11), ('1 0 -0.001 1', 11))
# Lines under `dims A B` with a point where none may be.
POINTS_ELSEWHERE = ('rect X - A 0.5 9', 'rect X - A 0 9.0', 'poly X - A B 0 0 1.5 0 1 1', 'poly X - A B 0 0 1 0 1 -0.5', 'ellip X - A B 0.5 0 5 6 9 1',
                    'ellip X - A B 0 1.000 5 6 9 1', 'ellip X - A B 1.0 0 5.5 6 9 1', 'ellip X - A B 0 -0.5 5 6 9 0.5', 'quad X - 1 A 1 0.5 L 0 H 1',
                    'quad X - 1 A 1 0 L -1.0 H 0', 'quad X - 1 A 1 0 L -1 H 0.5')
BAD_HEADS = [b'dims', b'dims\t', b'Dims\tA', b' dims\tA', b'dims \tA', b'dims08\tA', b'dims\tA\tA',
             b'dims\tA\t', b'dims\t\tA', b'dims\t9A', b'dims\t-', b'dims\t_A', b'dims\tA\r', b'',
             b'dims\tA B', b'dims A', b'dims\tA\tB\tC\tD\tE\tF\tG\tH\tI', b'\tA', b'A\tB',
             b'dims\tABCDEFGHIJKLMNOPQ', b'dims\tA:single', b'rect\tX\t-\tA\t0\t1', b'dims\tA\x00',
             b'\xef\xbb\xbfdims\tA', b'dims\tB\tA\tC\tA', b'dims\t*', b'dims\t!A', b'DIMS\tA']


def text(value):
    return b'%d' % value


def decimal_text(rng, value, point):
    """A value in thousandths as a number, with a point where it is asked for or needed; zeros may follow."""
    sign, (whole, rest) = '-' if value < 0 else '', divmod(abs(value), 1000)
    if not rest and not point:
        return b'%d' % (value // 1000)
    decimals = '%03d' % rest
    least = len(decimals.rstrip('0')) or 1
    return ('%s%d.%s' % (sign, whole, decimals[:rng.choice((least, least, rng.randint(least, 3)))])).encode()


def decimal_texts(rng, values):
    """Values in thousandths as numbers, of which one at least has a point, and often just one."""
    points = rng.choice(([True] * len(values), [rng.random() < 0.5 for _ in values], [False] * len(values)))
    texts = [decimal_text(rng, value, point) for value, point in zip(values, points)]
    if not any(b'.' in each for each in texts):
        at = rng.randrange(len(values))
        texts[at] = decimal_text(rng, values[at], True)
    return texts


def clip(value, limits=(-65536, 65535)):
    return max(limits[0], min(limits[1], value))


# ---------------------------------------------------------------- outlines

def outline(rng, value):
    """The vertices of a polygon, plain, self-crossing, walked twice, flat or a point."""
    shape = rng.randrange(8)
    if shape == 0:      # a rectangle, walked once, twice, thrice or forth and back
        x0, x1 = sorted((value(), value()))
        y0, y1 = sorted((value(), value()))
        once = [(x0, y0), (x1, y0), (x1, y1), (x0, y1)]
        back = [once[0]] + once[:0:-1]
        return rng.choice((once, back, once * 2, back * 2, once * 3, once + back))
    if shape == 1:      # a five-pointed star: its core is wound twice
        x, y, r = value(), value(), rng.choice((10, 20, 30, 500))
        ring = [(0, 10), (10, 3), (6, -8), (-6, -8), (-10, 3)]
        return [(clip(x + ring[k][0] * r // 10), clip(y + ring[k][1] * r // 10))
                for k in (0, 2, 4, 1, 3)]
    if shape == 2:      # flat: all on one line, level, upright or slanting
        x, y = value(), value()
        dx, dy = rng.choice(((1, 0), (0, 1), (1, 1), (2, -1), (3, 2)))
        steps = [rng.randint(-4, 4) for _ in range(rng.randint(3, 6))]
        return [(clip(x + dx * k), clip(y + dy * k)) for k in steps]
    if shape == 3:      # one point again and again
        return [(value(), value())] * rng.randint(3, 5)
    if shape == 4:      # an eight: one half wound forth, one back
        x, y, r = value(), value(), rng.randint(1, 6)
        return [(clip(x + a * r), clip(y + b * r)) for a, b in ((-2, -1), (2, 1), (2, -1), (-2, 1))]
    if shape == 5:      # with vertices repeated
        some = [(value(), value()) for _ in range(rng.randint(2, 5))]
        return [rng.choice(some) for _ in range(rng.randint(3, 9))]
    return [(value(), value()) for _ in range(rng.randint(3, 9))]


def inner_outline(rng):
    """The vertices of a polygon with edges in its inside, or walked more than once, near (0, 0)."""
    a, b = rng.randint(2, 6), rng.randint(2, 6)
    outer = [(-a, -b), (a, -b), (a, b), (-a, b)]
    style = rng.randrange(4)
    if style == 0:      # a smaller rectangle within, the way to it and back once more
        inner = [(x // 2, y // 2) for x, y in outer]
        return outer + outer[:1] + (inner if rng.random() < 0.5 else [inner[0]] + inner[:0:-1]) + inner[:1]
    if style == 1:      # a spike from a corner into the inside and back
        return outer + outer[:1] + [(rng.randint(-a, a), rng.randint(-b, b))]
    if style == 2:      # two that overlap, walked the same way round
        return outer + outer[:1] + [(x + 1, y + 1) for x, y in outer] + [(1 - a, 1 - b)]
    # A side walked three times: forth, back and forth.
    return outer[:2] + outer[:2] + outer[2:]


def on_edge(rng, vertices):
    """A vertex, or a whole point on an edge, which may run along a dimension or be a point."""
    at = rng.randrange(len(vertices))
    (x0, y0), (x1, y1) = vertices[at - 1], vertices[at]
    parts = math.gcd(x1 - x0, y1 - y0) or 1
    k = rng.choice((0, rng.randint(0, parts), rng.randint(0, parts)))
    return x0 + (x1 - x0) // parts * k, y0 + (y1 - y0) // parts * k


def near_outline(rng, vertices):
    """A vertex, a whole point on an edge, or a place near or amid the outline."""
    at = rng.randrange(len(vertices))
    (x0, y0), (x1, y1) = vertices[at - 1], vertices[at]
    style = rng.randrange(4)
    if style == 0:
        x, y = x0, y0
    elif style < 3:
        parts = math.gcd(x1 - x0, y1 - y0) or 1
        k = rng.randint(0, parts)
        x, y = x0 + (x1 - x0) // parts * k, y0 + (y1 - y0) // parts * k
        if style == 2:
            x, y = x + rng.randint(-1, 1), y + rng.randint(-1, 1)
    else:
        x = sum(point[0] for point in vertices) // len(vertices)
        y = sum(point[1] for point in vertices) // len(vertices)
    return clip(x), clip(y)


def on_scale(*points):
    return all(-65536 <= value <= 65535 for point in points for value in point)


def long_edge(rng, x, y):
    """The vertices of a polygon with a long edge through the point: level, upright or slanting."""
    dx, dy = rng.choice(((1, 0), (0, 1), (1, 1), (1, -1), (2, 1), (-3, 2), (1, -5), (300, -7)))
    ends = []
    for way in (-1, 1):
        reach = 0
        while on_scale((x + way * dx * (2 * reach + 1), y + way * dy * (2 * reach + 1))):
            reach = 2 * reach + 1
        k = way * rng.choice((0, min(1, reach), reach, rng.randint(0, reach)))
        ends.append((x + k * dx, y + k * dy))
    far = rng.choice((2, 9, 65536))
    rest = [(clip(x + rng.randint(-far, far)), clip(y + rng.randint(-far, far))) for _ in range(rng.randint(1, 4))]
    vertices = ends + rest
    return rng.choice((vertices, vertices[::-1], vertices * 2, rest + ends))


def bent_outline(rng):
    """The vertices of a bent polygon, and a point inside on the line of an edge, beyond its end."""
    a, b, c, d = [rng.randint(2, 6) for _ in range(4)]
    vertices = [(0, 0), (a + b, 0), (a + b, c), (a, c), (a, c + d), (0, c + d)]
    point = rng.choice(((rng.randint(1, a - 1), c), (a, rng.randint(1, c - 1))))
    lean, way_x, way_y = rng.choice((0, 0, 0, 1, -2)), rng.choice((-1, 1)), rng.choice((-1, 1))
    turned = [(way_x * (x + lean * y), way_y * y) for x, y in vertices + [point]]
    if rng.random() < 0.5:
        turned = [(y, x) for x, y in turned]
    return turned[:-1], turned[-1]


def wrapped_edge(rng, x, y):
    """The vertices of a polygon that holds the point, or None if it has no room on the scale.

    The point is in the box around a long edge, and s is 2 to the 32, which 32 bits take for 0.
    """
    swap = rng.random() < 0.5
    if swap:
        x, y = y, x
    way_x, way_y = -1 if x > 0 else 1, -1 if y < 0 else 1
    # The edge is (65536, 98304) long, and the point is (2 t, 65536 + 3 t) from its lower end.
    least, most = max(1, (abs(y) - 32765) // 3), min(abs(y) // 3, 10922)
    if least > most:
        return None
    t = rng.randint(least, most)
    vertices = [(x + way_x * (vx - 2 * t), y + way_y * (vy - 65536 - 3 * t))
                for vx, vy in ((0, 0), (65536, 98304), (0, 98304))]
    if not on_scale(*vertices):
        return None
    return [(vy, vx) for vx, vy in vertices] if swap else vertices


def outline_through(rng, x, y):
    """The vertices of a polygon that mostly carries the point, which is on the scale."""
    if rng.random() < 0.3:
        return long_edge(rng, x, y)
    vertices = wrapped_edge(rng, x, y) if rng.random() < 0.2 else None
    for _ in range(10):
        if vertices:
            return vertices
        style, far = rng.random(), rng.choice((2, 5, 9, 400, 32000))
        if style < 0.2:
            vertices, (px, py) = bent_outline(rng)
        else:
            vertices = inner_outline(rng) if style < 0.45 else outline(rng, lambda: rng.randint(-far, far))
            px, py = on_edge(rng, vertices)
        vertices = [(x + vx - px, y + vy - py) for vx, vy in vertices]
        if not on_scale(*vertices):
            vertices = None
    return [(x, y)] * 3


def matrix(rng):
    """A good matrix, D2, and some whole points on the rim, less the means."""
    style = rng.randrange(4)
    if style == 0:      # axes along the dimensions: a*k and b*k are on the rim
        a, b = rng.choice((1, 2, 5, 60, 4095, 4096)), rng.choice((1, 3, 7, 50, 4093, 4096))
        k = rng.choice((1, 2, 16, 31, 64))
        return (a * a, 0, b * b), k * k, [(a * k, 0), (-a * k, 0), (0, b * k), (0, -b * k)]
    if style == 1:
        return mapped_circle(rng, rng.random() >= 0.5)
    if style == 2:
        return rng.choice(GOOD_MATRICES), rng.choice((1, 2, 9, 4095, 4096)), [(3, 2)]
    while True:
        c11, c22 = rng.randint(1, 400), rng.randint(1, 400)
        c12 = rng.randint(-300, 300)
        if c11 * c22 > c12 * c12:
            return (c11, c12, c22), rng.randint(1, 6), [(rng.randint(-20, 20), rng.randint(-20, 20))]


def mapped_circle(rng, large):
    """A circle through (p, q) seen through a whole map M.

    The matrix is (p2 + q2) M Mt, and k times the map of such a point is on the rim for D2 = k2.
    """
    if not large:
        p, q, k = rng.randint(0, 12), rng.randint(1, 12), rng.choice((1, 1, 2))
        m = [rng.randint(-4, 4) for _ in range(4)]
    else:
        # As large as the ranges allow, and with odd products: more than 53 bits.
        p, q, k = rng.randrange(33, 41, 2), rng.randrange(32, 42, 2), rng.randrange(21, 32, 2)
        m = [rng.choice((-1, 1)) * (rng.randrange(24, 48, 2) + odd) for odd in (1, 0, 1, 0)]
    if m[0] * m[3] == m[1] * m[2]:
        m = [1, rng.randint(-3, 3), 0, 1]
    size = p * p + q * q
    good = (size * (m[0] * m[0] + m[1] * m[1]), size * (m[0] * m[2] + m[1] * m[3]),
            size * (m[2] * m[2] + m[3] * m[3]))
    rim = [(k * (m[0] * x + m[1] * y), k * (m[2] * x + m[3] * y))
           for x, y in ((p, q), (-q, p), (-p, -q), (q, -p))]
    return good, k * k, rim


def odd_rim(rng):
    """Likewise, with points only for which the two sides are not equal in doubles."""
    while True:
        (c11, c12, c22), d2, rim = mapped_circle(rng, True)
        right = d2 * (float(c11) * c22 - float(c12) * c12)
        odd = [(dx, dy) for dx, dy in rim if max(abs(dx), abs(dy)) < 65536
               and c22 * float(dx) * dx - 2 * c12 * float(dx) * dy + c11 * float(dy) * dy != right]
        if odd:
            return (c11, c12, c22), d2, odd


def rim_matrix(rng):
    """Likewise, tilted mostly, and all of the points are on the rim.

    The circle of radius r through a whole map M has the matrix M Mt and D2 = r2, and the
    map of each whole point of the circle is on the rim.
    """
    if rng.random() < 0.3:
        p, q = rng.randint(0, 63), rng.randint(1, 10)
    else:
        p, q = rng.choice(((0, 1), (1, 1), (0, 2), (1, 2), (3, 4), (5, 0), (7, 1), (8, 9), (39, 50), (0, 64)))
    size = rng.choice((1, 2, 5, 40, 1000))
    m = [rng.randint(-size, size) for _ in range(4)]
    if m[0] * m[3] == m[1] * m[2]:
        m = [1, rng.randint(-3, 3), 0, 1]
    good = (m[0] * m[0] + m[1] * m[1], m[0] * m[2] + m[1] * m[3], m[2] * m[2] + m[3] * m[3])
    circle = [(a * x, b * y) for x, y in ((p, q), (q, p)) for a in (-1, 1) for b in (-1, 1)]
    return good, p * p + q * q, [(m[0] * x + m[1] * y, m[2] * x + m[3] * y) for x, y in circle]


def decimal_sides(entries, d2, dx, dy):
    """The two sides of the rule, entries and D2 in thousandths."""
    c11, c12, c22 = entries
    return (c22 * dx * dx - 2 * c12 * dx * dy + c11 * dy * dy) * 10 ** 6, d2 * (c11 * c22 - c12 * c12)


def ellipsoid_sides(entries, d2, dx, dy, dz):
    """The two sides of the rule for an ellipsoid."""
    c11, c12, c13, c22, c23, c33 = entries
    left = ((c22 * c33 - c23 * c23) * dx * dx + (c11 * c33 - c13 * c13) * dy * dy + (c11 * c22 - c12 * c12) * dz * dz
            + 2 * ((c13 * c23 - c12 * c33) * dx * dy + (c12 * c23 - c13 * c22) * dx * dz + (c12 * c13 - c11 * c23) * dy * dz))
    return left, d2 * (c11 * c22 * c33 + 2 * c12 * c13 * c23 - c11 * c23 * c23 - c22 * c13 * c13 - c33 * c12 * c12)


def both_sides(entries, d2, point):
    """Of an ellipse with all in thousandths, or of an ellipsoid."""
    return decimal_sides(entries, d2, *point) if len(point) == 2 else ellipsoid_sides(entries, d2, *point)


def in_64_bits(value):
    return (value + 2 ** 63) % 2 ** 64 - 2 ** 63


def wrong_in_64_bits(entries, d2, *point):
    """Whether sides that wrap at 64 bits say otherwise whether the point is inside."""
    left, right = both_sides(entries, d2, point)
    return (in_64_bits(left) <= in_64_bits(right)) != (left <= right)


def wrong_in_doubles(entries, d2, *point):
    """Whether doubles say otherwise whether the point is inside."""
    left, right = both_sides(entries, d2, point)
    near, far = both_sides([float(entry) for entry in entries], float(d2), [float(step) for step in point])
    return (near <= far) != (left <= right)


def rim_wrong_in_64_bits(entries, d2, *point):
    """Whether sides that wrap at 64 bits are equal and the point isn't on the rim."""
    left, right = both_sides(entries, d2, point)
    return left != right and (left - right) % 2 ** 64 == 0


def rim_wrong_in_doubles(entries, d2, *point):
    """Whether doubles say otherwise whether the point is on the rim."""
    left, right = both_sides(entries, d2, point)
    near, far = both_sides([float(entry) for entry in entries], float(d2), [float(step) for step in point])
    return (near == far) != (left == right)


def in_other_numbers(rng, entries, d2):
    """The same ellipse in thousandths, or None: the matrix times k, D2 times a million over k."""
    factors = [f * 2 ** a * 5 ** b for f in range(1, d2 + 1) if d2 % f == 0 for a in range(7) for b in range(7)]
    largest = max(map(abs, entries))
    good = [k for k in factors if k * largest <= 2000000000 and d2 * 10 ** 6 <= 4096000 * k]
    if not good:
        return None
    k = rng.choice((rng.choice(good), rng.choice(good), max(good), min(good)))
    return tuple(k * entry for entry in entries), d2 * 10 ** 6 // k


def thin_matrix(rng):
    """A matrix with a determinant of k2, however large its entries, D2 (in thousandths) and points on the rim or beside it by little.

    It is k M Mt, the determinant of M is 1, and M (x, y) is on the rim where D2 is (x2 + y2) / k.
    """
    size = rng.choice((3, 40, 1000, 30000, 30000, 30000))
    while True:
        k = rng.choice((1, 1, 1, 2, 4, 5, 8, 125))
        p, q = rng.randint(1, size), rng.randint(1, size)
        if math.gcd(p, q) != 1:
            continue
        r = -pow(q, -1, p) % p          # q r + 1 is a multiple of p
        s = (q * r + 1) // p
        entries = (k * (p * p + q * q), k * (p * r + q * s), k * (r * r + s * s))
        x, y = rng.choice(((1, 0), (0, 1), (1, 1), (-1, 1), (2, 0), (1, 2)))
        d2 = 10 ** 6 * (x * x + y * y) // k
        if max(entries) <= 2000000000 and 2 <= d2 < 4096000 and on_scale((p * x + q * y, r * x + s * y)):
            break
    if rng.random() < 0.5:
        entries = (entries[0], -entries[1], entries[2])
        r, s = -r, -s
    rim = [(way * (p * a + q * b), way * (r * a + s * b)) for way in (-1, 1) for a, b in ((x, y), (y, -x))]
    return entries, d2 + rng.choice((0, -1, 1)), [point for point in rim if on_scale(point)]


def upright_matrix(rng):
    """An ellipse with (a, 0) on the rim, or, where c12 isn't 0, outside by very little; D2 in thousandths."""
    while True:
        a, d2 = rng.choice((1, 50, 1000, 65535, rng.randint(1, 65535), rng.randint(1, 65535))), 2 ** rng.randint(0, 6) * 5 ** rng.randint(0, 6)
        d2 *= rng.choice((1, 1, a, 4))
        c11 = 10 ** 6 * a * a // d2
        if d2 <= 4096000 and 1 <= c11 <= 2000000000 and c11 * d2 == 10 ** 6 * a * a:
            break
    c12 = rng.choice((0, 0, 1, -1, 2, -7))
    c22 = rng.choice((2000000000, 1999999999, rng.randint(60, 2000000000), rng.randint(60, 10 ** 6)))
    if c11 * c22 <= c12 * c12:
        c12 = 0
    if rng.random() < 0.5:
        return (c11, c12, c22), d2, [(a, 0), (-a, 0)]
    return (c22, c12, c11), d2, [(0, a), (0, -a)]


def wrapped_matrix(rng):
    """Both sides are multiples of 2 to the 64, at the middle and at points inside; all in thousandths."""
    d2 = 2 ** rng.randint(4, 21)
    c11, c22 = rng.choice(((30, 30), (30, 30), (30, max(14, 34 - d2.bit_length() + 1)), (max(14, 34 - d2.bit_length() + 1), 30)))
    points = [(x, y) for x in (-16384, 0, 16384) for y in (-16384, 0, 16384)]
    return (2 ** c11, 0, 2 ** c22), d2, points + [(0, 0)] * 4


def crossings(entries, d2):
    """The last whole points inside along both dimensions, and the first outside; all in thousandths."""
    points = []
    for entry, way in ((entries[2], (1, 0)), (entries[0], (0, 1))):
        right = decimal_sides(entries, d2, 0, 0)[1]
        last = math.isqrt(right // (10 ** 6 * entry))
        points += [(k * way[0], k * way[1]) for k in (last, last + 1, -last, -last - 1)]
    return points


def decimal_matrix(rng):
    """A good matrix and D2, all in thousandths, and some points on the rim, less the means."""
    style, found = rng.random(), None
    while style < 0.42 and not found:
        entries, d2, rim = rng.choice((matrix, rim_matrix, rim_matrix, lambda rng: mapped_circle(rng, True)))(rng)
        found = in_other_numbers(rng, entries, d2)
    if found:
        return *found, rim
    if style < 0.62:
        return thin_matrix(rng)
    if style < 0.77:
        return upright_matrix(rng)
    if style < 0.82:
        return wrapped_matrix(rng)
    if style < 0.9:
        entries, d2 = rng.choice(GOOD_DECIMAL_MATRICES), rng.choice((1, 2, 999, 1000, 1001, 4095999, 4096000))
    else:
        c11, c22 = rng.randint(1, 400000), rng.randint(1, 400000)
        most = math.isqrt(c11 * c22 - 1)
        entries, d2 = (c11, rng.choice((rng.randint(-most, most), most, -most, clip(-rng.randint(1, 999), (-most, most)))), c22), rng.randint(1, 6000)
    return entries, d2, crossings(entries, d2)


def telling(rng, entries, d2, points):
    """Those of some points, less the means, at which 64 bits or doubles would say otherwise."""
    points = points + crossings(entries, d2) + [(0, 0), (131071, -131071), (rng.randint(-65535, 65535), rng.randint(-65535, 65535))]
    rng.shuffle(points)
    found = []
    for otherwise in (wrong_in_64_bits, rim_wrong_in_64_bits, wrong_in_doubles, rim_wrong_in_doubles):
        found += [point for point in points if otherwise(entries, d2, *point)][:3]
    return found


def decimal_ellipse(rng, value):
    """Means, matrix, D2, the last two in thousandths, and points on the rim, beside it, amid, and telling ones."""
    (mean_x, mean_y), entries, d2, points = ellipse(rng, value, decimal_matrix)
    from_means = [(x - mean_x, y - mean_y) for x, y in points]
    hard = [(mean_x + dx, mean_y + dy) for dx, dy in telling(rng, entries, d2, from_means)]
    hard = [point for point in hard if on_scale(point)]
    return (mean_x, mean_y), entries, d2, points + hard * 2


def decimal_through(rng, x, y):
    """Means, matrix and D2 in thousandths of an ellipse with the point mostly on its rim or where it tells; it may be off the scale."""
    for _ in range(10):
        entries, d2, rim = decimal_matrix(rng)
        hard = telling(rng, entries, d2, rim)
        dx, dy = rng.choice(hard if hard and rng.random() < 0.5 else rim)
        if on_scale((x - dx, y - dy)):
            return (x - dx, y - dy), entries, d2
    means = (x - 1 if x > 0 else x + 1, clip(y))
    return means, (500, 0, 500), 2000 * (1 + (y - means[1]) ** 2)


def ellipse(rng, value, make):
    """Means, matrix, D2, and points on the rim, beside it and amid."""
    mean_x, mean_y = value(), value()
    entries, d2, rim = make(rng)
    dx, dy = rng.choice(rim)
    if max(abs(mean_x + dx), abs(mean_y + dy)) > 65535:
        # At least one point of a wide ellipse's rim is to be on the scale.
        mean_x, mean_y = clip(-dx // 2), clip(-dy // 2)
    points = []
    for dx, dy in rim:
        x, y = mean_x + dx, mean_y + dy
        points.append((clip(x), clip(y)))
        x, y = x + rng.randint(-1, 1), y + rng.randint(-1, 1)
        points.append((clip(x), clip(y)))
    points.append((mean_x, mean_y))
    return (mean_x, mean_y), entries, d2, points


def ellipse_through(rng, x, y):
    """Means, matrix and D2 of an ellipse with the point on its rim mostly; it may be off the scale."""
    for _ in range(10):
        style = rng.random()
        if style < 0.15:
            # Amid: there the left side is 0, and 32 bits of the right side often are too.
            entries = rng.choice(GOOD_MATRICES + [(65536, 0, 65536)] * 5)
            d2, rim = rng.choice((1, 2, 256, 4095, 4096)), [(0, 0)]
        elif style < 0.2:
            entries, d2, rim = odd_rim(rng)
        elif style < 0.3:
            entries, d2, rim = mapped_circle(rng, True)
        else:
            entries, d2, rim = matrix(rng) if style < 0.4 else rim_matrix(rng)
        dx, dy = rng.choice(rim)
        if on_scale((x - dx, y - dy)):
            return (x - dx, y - dy), entries, d2
    means = (x - 1 if x > 0 else x + 1, clip(y))
    return means, (1, 0, 1), 1 + (y - means[1]) ** 2


# ---------------------------------------------------------------- ellipsoids

MOST_ENTRY = 16777216


def whole_determinant(entries):
    return ellipsoid_sides(entries, 1, 0, 0, 0)[1]


def is_good_ellipsoid(entries):
    return (max(map(abs, entries)) <= MOST_ENTRY and entries[0] > 0 and entries[0] * entries[3] > entries[1] * entries[1]
            and whole_determinant(entries) > 0)


def products(rows, weights=(1, 1, 1)):
    """The matrix M W Mt, by the rows of M and the three numbers of W."""
    pairs = ((0, 0), (0, 1), (0, 2), (1, 1), (1, 2), (2, 2))
    return tuple(sum(weight * a * b for weight, a, b in zip(weights, rows[one], rows[other])) for one, other in pairs)


def through_map(rows, point):
    return tuple(sum(entry * part for entry, part in zip(row, point)) for row in rows)


def turned_points(rng, point):
    """A point with its parts in any order and of any sign, some of all those."""
    points = {tuple(sign * point[at] for sign, at in zip(signs, order)) for order in itertools.permutations(range(3))
              for signs in itertools.product((-1, 1), repeat=3)}
    return rng.sample(sorted(points), min(6, len(points)))


def sphere_point(rng):
    """A whole point other than (0, 0, 0) whose square is at most 4,096."""
    size = rng.choice((1, 1, 2, 3, 9, 36))
    point = (rng.randint(0, size), rng.randint(0, size), rng.randint(1, size))
    return rng.choice((point, point, (1, 2, 2), (2, 3, 6), (0, 3, 4), (6, 21, 22), (0, 0, 64), (32, 32, 32)))


def upright_ellipsoid(rng):
    """Axes a, b, c along the dimensions: (a x, b y, c z) is on the rim where D2 is x2 + y2 + z2."""
    a, b, c = [rng.choice((1, 2, 3, 5, 7, 60, 1000, 4093, 4095, 4096)) for _ in range(3)]
    point = sphere_point(rng)
    return (a * a, 0, 0, b * b, 0, c * c), sum(part * part for part in point), [(a * x, b * y, c * z) for x, y, z in turned_points(rng, point)]


def mapped_sphere(rng, large=False):
    """A sphere seen through a whole map M: the matrix is s M Mt, and M u is on the rim where D2 is u2 / s."""
    while True:
        if large:
            # As large as the ranges allow, and with odd products: more than 64 bits.
            rows = [[rng.choice((-1, 1)) * rng.randint(700, 2300) for _ in range(3)] for _ in range(3)]
        else:
            size = rng.choice((1, 2, 3, 5, 40, 300))
            rows = [[rng.randint(-size, size) for _ in range(3)] for _ in range(3)]
        point = sphere_point(rng)
        square, k = sum(part * part for part in point), 1
        if rng.random() < 0.3:
            k = rng.choice((1, 2, 3, 11, 31, 64))
            scale, d2 = square, k * k
        else:
            scale, d2 = 1, square
        entries = tuple(scale * entry for entry in products(rows))
        if is_good_ellipsoid(entries):
            return entries, d2, [tuple(k * part for part in through_map(rows, each)) for each in turned_points(rng, point)]


def thin_map(rng):
    """The rows of a whole map with a determinant of 1: rows added to one another, as long as their squares stay in the range of entries."""
    rows, most = [[1, 0, 0], [0, 1, 0], [0, 0, 1]], rng.choice((40, 10000, MOST_ENTRY, MOST_ENTRY))
    for _ in range(rng.choice((4, 20, 40))):
        one, other = rng.sample(range(3), 2)
        k = rng.choice((-7, -2, -1, 1, 2, 7))
        row = [entry + k * more for entry, more in zip(rows[one], rows[other])]
        if sum(entry * entry for entry in row) <= most:
            rows[one] = row
    return rows


def thin_ellipsoid(rng):
    """A determinant of 1, however large the entries, and points on the rim or, where D2 is 1 more or less, beside it by little."""
    rows, point = thin_map(rng), rng.choice(((1, 0, 0), (1, 1, 0), (1, 1, 1), (2, 0, 1), (1, 2, 2), (5, 3, 1)))
    d2 = sum(part * part for part in point) + rng.choice((0, 0, 0, -1, 1))
    return products(rows), max(1, d2), [through_map(rows, each) for each in turned_points(rng, point)]


def small_ellipsoid(rng):
    """Small entries, and D2 by one of the places around for which it is whole: its rim, and that of others with the same D2, was looked for."""
    while True:
        size = rng.choice((2, 4, 9))
        entries = [rng.randint(1, size) if at in (0, 3, 5) else rng.randint(-size, size) for at in range(6)]
        if not is_good_ellipsoid(entries):
            continue
        whole = whole_determinant(entries)
        lefts = [(point, ellipsoid_sides(entries, 1, *point)[0]) for point in itertools.product(range(-3, 4), repeat=3)]
        widths = [left // whole for _, left in lefts if left % whole == 0 and 0 < left <= 4096 * whole]
        if widths:
            d2 = rng.choice(widths)
            rim = [point for point, left in lefts if left == d2 * whole]
            return tuple(entries), d2, rng.sample(rim, min(6, len(rim)))


def flat_ellipsoid(rng):
    """The third dimension apart from the others, c13 and c23 being 0: an ellipse where it is at its mean."""
    (c11, c12, c22), d2, rim = rng.choice((matrix, rim_matrix))(rng)
    axis = rng.choice((1, 2, 7, 100, 4096))
    points = [(dx, dy, 0) for dx, dy in rim]
    if math.isqrt(d2) ** 2 == d2:
        points += [(0, 0, way * axis * math.isqrt(d2)) for way in (-1, 1)]
    return (c11, c12, 0, c22, 0, axis * axis), d2, points


def wrapped_ellipsoid(rng):
    """Both sides are multiples of 2 to the 64, at the middle and at points inside."""
    sizes = rng.choice(((24, 24, 24), (24, 24, 24), (24, 20, 20), (22, 24, 20), (18, 22, 24)))
    c11, c22, c33 = [2 ** size for size in sizes]
    points = [point for point in itertools.product((-4096, 0, 4096), repeat=3) if point.count(0) > 0]
    return (c11, 0, 0, c22, 0, c33), rng.choice((1, 2, 64, 4095, 4096)), rng.sample(points, 5) + [(0, 0, 0)] * 2


def axis_crossings(entries, d2):
    """The last whole points inside along the three dimensions, and the first outside."""
    right, points = ellipsoid_sides(entries, d2, 0, 0, 0)[1], []
    for way in ((1, 0, 0), (0, 1, 0), (0, 0, 1)):
        last = math.isqrt(right // ellipsoid_sides(entries, 1, *way)[0])
        points += [tuple(k * part for part in way) for k in (last, last + 1, -last, -last - 1)]
    return points


def ellipsoid_matrix(rng):
    """A good matrix, D2, and some points on the rim, less the means."""
    style = rng.random()
    if style < 0.13:
        return upright_ellipsoid(rng)
    if style < 0.33:
        return mapped_sphere(rng)
    if style < 0.45:
        return mapped_sphere(rng, True)
    if style < 0.55:
        return thin_ellipsoid(rng)
    if style < 0.7:
        return small_ellipsoid(rng)
    if style < 0.78:
        return flat_ellipsoid(rng)
    if style < 0.84:
        return wrapped_ellipsoid(rng)
    if style < 0.93:
        entries, d2 = rng.choice(GOOD_ELLIPSOIDS), rng.choice((1, 1, 2, 9, 4095, 4096))
    else:
        while True:
            entries, d2 = tuple(rng.randint(1, 400) if at in (0, 3, 5) else rng.randint(-300, 300) for at in range(6)), rng.randint(1, 9)
            if is_good_ellipsoid(entries):
                break
    return entries, d2, axis_crossings(entries, d2)


def bad_ellipsoid(rng):
    """A matrix in range that isn't good: of the three determinants one or more are 0 or below."""
    style = rng.random()
    if style < 0.5:
        return rng.choice(rng.choice((C11_BAD, MINOR_BAD, WHOLE_BAD, MORE_BAD)))
    if style < 0.6:     # a determinant of 0 or -1, however large the entries
        return products(thin_map(rng), rng.choice(((1, 1, 0), (1, 1, 0), (1, 1, -1))))
    if style < 0.7:     # less by one than a good one, in an entry of the diagonal, until it isn't
        entries = list(rng.choice((small_ellipsoid, thin_ellipsoid, mapped_sphere))(rng)[0])
        at = rng.choice((0, 3, 5))
        while is_good_ellipsoid(entries):
            entries[at] -= rng.choice((1, max(1, entries[at] // 2)))
        return tuple(entries)
    while True:
        # c11 is the first weight, and each determinant is the one before it times the next.
        weights = rng.choice(((1, 1, 0), (1, 1, -1), (1, 1, -2), (1, -1, -1), (1, 0, 1), (-1, -1, 1), (-1, 1, 1), (0, 1, 1), (-1, -1, -1)))
        size = rng.choice((1, 3, 60, 2800, 4000))
        a, b, c = [rng.randint(-size, size) for _ in range(3)]
        k = rng.choice((1, 1, 2, 7))
        entries = products([[1, 0, 0], [a, 1, 0], [b, c, 1]], [k * weight for weight in weights])
        if max(map(abs, entries)) <= MOST_ENTRY:
            return entries


def ellipsoid_telling(rng, entries, d2, points):
    """Those of some points, less the means, at which 64 bits or doubles would say otherwise."""
    far = [tuple(rng.choice((-131071, 131071)) for _ in range(3)), tuple(rng.randint(-65535, 65535) for _ in range(3))]
    points = points + axis_crossings(entries, d2) + far + [(0, 0, 0)]
    rng.shuffle(points)
    found = []
    for otherwise in (wrong_in_64_bits, rim_wrong_in_64_bits, wrong_in_doubles, rim_wrong_in_doubles):
        found += [point for point in points if otherwise(entries, d2, *point)][:2]
    return found


def ellipsoid(rng, value):
    """Means, matrix, D2, and points on the rim, beside it, amid, and telling ones."""
    means = [value() for _ in range(3)]
    entries, d2, rim = ellipsoid_matrix(rng)
    step = rng.choice(rim)
    if not on_scale([mean + part for mean, part in zip(means, step)]):
        # At least one point of a wide ellipsoid's rim is to be on the scale.
        means = [clip(-part // 2) for part in step]
    beside = [tuple(part + rng.randint(-1, 1) for part in point) for point in rim]
    beside += [tuple(part + (rng.choice((-1, 1)) if at == turn % 3 else 0) for at, part in enumerate(point)) for turn, point in enumerate(rim)]
    steps = rim * 2 + beside + [(0, 0, 0)] + ellipsoid_telling(rng, entries, d2, rim) * 2
    points = [tuple(mean + part for mean, part in zip(means, step)) for step in steps]
    return means, entries, d2, [point for point in points if on_scale(point)] or [tuple(means)]


def ellipsoid_through(rng, place):
    """Means, matrix and D2 of an ellipsoid with the place mostly on its rim or where it tells; it may be off the scale."""
    for _ in range(10):
        entries, d2, rim = ellipsoid_matrix(rng)
        hard = ellipsoid_telling(rng, entries, d2, rim)
        step = rng.choice(hard if hard and rng.random() < 0.3 else rim)
        means = [value - part for value, part in zip(place, step)]
        if on_scale(means):
            return means, entries, d2
    means = [place[0] - 1 if place[0] > 0 else place[0] + 1, *map(clip, place[1:])]
    return means, (1, 0, 0, 1, 0, 1), sum((value - mean) ** 2 for value, mean in zip(place, means))


# ---------------------------------------------------------------- valid tables

class Line:
    """One gate line: field texts with the role of each."""

    def __init__(self, kind):
        self.kind = kind
        self.roles = ['kind']
        self.fields = [kind]

    def add(self, role, field):
        self.roles.append(role)
        self.fields.append(field)

    def places(self, *roles):
        return [at for at, role in enumerate(self.roles) if role in roles]

    def bytes(self):
        return b'\t'.join(self.fields)


class Table:
    """A table under construction; gates refer only to regions made before them."""

    def __init__(self, rng, n=None, span=None):
        self.rng = rng
        self.n = n or rng.choice((1, 2, 2, 2, 3, 3, 3, 4, 5, 8))
        # Small spans make events meet edges and rims by chance too.
        self.span = span or rng.choice(((-5, 5), (-5, 5), (-20, 20), (0, 1000), (-65536, 65535)))
        # Now and then half of all numbers stand at the ends of the scale.
        self.at_limits = rng.choice((0.06, 0.06, 0.06, 0.06, 0.5))
        self.long_names = False
        self.names = set()
        self.dimensions = self.dimension_names()
        self.lines = []
        self.regions = []
        self.points = []        # lists of (dimension, value): places worth an event
        self.words = 2
        self.most = 64          # regions
        self.parents = rng.choice((0.0, 0.3, 0.5, 0.95))

    def dimension_names(self):
        if self.rng.random() < 0.6:
            return [b'%c' % letter for letter in b'ABCDEFGH'[:self.n]]
        return [name.encode() for name in self.rng.sample(TRICKY_NAMES, self.n)]

    def name(self):
        rng = self.rng
        while True:
            style = 1.0 if self.long_names else rng.random()
            if style < 0.7:
                name = rng.choice(LETTERS) + str(len(self.names))
            elif style < 0.85:
                name = rng.choice(TRICKY_NAMES)
            else:
                length = 15 if self.long_names else rng.choice((0, 1, 3, 15, 15))
                name = rng.choice(LETTERS) + ''.join(rng.choice(SIGNS) for _ in range(length))
            name = name.encode()
            if name not in self.names:
                self.names.add(name)
                return name

    def value(self):
        if self.rng.random() < self.at_limits:
            return self.rng.choice(LIMITS)
        return self.rng.randint(*self.span)

    def parent(self):
        if self.regions and self.rng.random() < self.parents:
            return self.regions[-1] if self.rng.random() < 0.5 else self.rng.choice(self.regions)
        return b'-'

    def begin(self, kind):
        line = Line(kind)
        line.add('name', self.name())
        line.add('parent', self.parent())
        return line

    def finish(self, line, words):
        self.lines.append(line)
        if line.kind != b'quad':
            self.regions.append(line.fields[1])
        self.words += words
        return line

    def rect(self):
        rng = self.rng
        line = self.begin(b'rect')
        chosen = rng.sample(range(self.n), rng.choice((1, 1, min(2, self.n), self.n)))
        for dimension in chosen:
            low, high = sorted((self.value(), self.value()))
            if rng.random() < 0.05:
                low = -65536
            if rng.random() < 0.05:
                high = 65536
            if low >= high:
                high = low + 1
            line.add('dimension', self.dimensions[dimension])
            line.add('min', b'*' if rng.random() < 0.2 else text(low))
            line.add('max', b'*' if rng.random() < 0.2 else text(high))
            for value in (low, low - 1, high, high - 1):
                self.points.append([(dimension, clip(value))])
        return self.finish(line, 4 + 3 * len(chosen))

    def poly(self, vertices=None):
        rng = self.rng
        line = self.begin(b'poly')
        first, second = rng.sample(range(self.n), 2)
        vertices = vertices or outline(rng, self.value)
        for _ in range(4):
            x, y = near_outline(rng, vertices)
            self.points.append([(first, x), (second, y)])
        return self.finish_poly(line, first, second, vertices)

    def finish_poly(self, line, first, second, vertices):
        line.add('dimension', self.dimensions[first])
        line.add('dimension', self.dimensions[second])
        for x, y in vertices:
            line.add('vertex', text(x))
            line.add('vertex', text(y))
        return self.finish(line, 6 + 2 * len(vertices))

    def ellip(self):
        rng = self.rng
        if rng.random() < 0.3:
            return self.decimal_ellip()
        line = self.begin(b'ellip')
        first, second = rng.sample(range(self.n), 2)
        means, entries, d2, points = ellipse(rng, self.value, matrix)
        for x, y in points:
            self.points.append([(first, x), (second, y)])
        return self.finish_ellip(line, first, second, means, entries, d2)

    def decimal_ellip(self):
        """A line with decimals, and now and then the same one without them, where it is whole."""
        rng = self.rng
        line = self.begin(b'ellip')
        first, second = rng.sample(range(self.n), 2)
        if rng.random() < 0.2:
            means, entries, d2, points = ellipse(rng, self.value, rng.choice((matrix, rim_matrix)))
            if max(map(abs, entries)) <= 2000000:
                if self.most - len(self.regions) > 1:
                    self.finish_ellip(self.begin(b'ellip'), first, second, means, entries, d2)
                entries, d2 = [1000 * entry for entry in entries], 1000 * d2
            else:
                entries, d2 = in_other_numbers(rng, entries, d2) or ((1500, 0, 1500), 1)
        else:
            means, entries, d2, points = decimal_ellipse(rng, self.value)
        for x, y in points:
            self.points.append([(first, x), (second, y)])
        return self.finish_ellip(line, first, second, means, entries, d2, decimals=True)

    def finish_ellip(self, line, first, second, means, entries, d2, decimals=False):
        """With decimals the matrix and D2 are in thousandths."""
        line.add('dimension', self.dimensions[first])
        line.add('dimension', self.dimensions[second])
        for mean in means:
            line.add('mean', text(mean))
        if decimals:
            texts, roles = decimal_texts(self.rng, [*entries, d2]), ('decimal entry', 'decimal d2')
        else:
            texts, roles = [text(value) for value in (*entries, d2)], ('entry', 'd2')
        for entry in texts[:3]:
            line.add(roles[0], entry)
        line.add(roles[1], texts[3])
        return self.finish(line, 12)

    def ellip3(self):
        line = self.begin(b'ellip3')
        chosen = self.rng.sample(range(self.n), 3)
        means, entries, d2, points = ellipsoid(self.rng, self.value)
        for point in points:
            self.points.append(list(zip(chosen, point)))
        return self.finish_ellip3(line, chosen, means, entries, d2)

    def finish_ellip3(self, line, chosen, means, entries, d2):
        for dimension in chosen:
            line.add('dimension', self.dimensions[dimension])
        for role, values in (('mean', means), ('entry', entries), ('d2', [d2])):
            for value in values:
                line.add(role, text(value))
        return self.finish(line, 17)

    def quad(self, room=None):
        """A quadrant gate; with one quadrant that holds all if there is no room for more."""
        rng = self.rng
        if room is None:
            room = self.most - len(self.regions)
        line = self.begin(b'quad')
        count = rng.randint(1, min(3, self.n))
        counts = [rng.choice((1, 1, 2, 3)) for _ in range(count)]
        layout = tiling(rng, counts)
        if len(layout) > room:
            layout = [[None] * count]
        chosen = rng.sample(range(self.n), count)
        line.add('dividers', text(count))
        cuts = []
        for dimension, size in zip(chosen, counts):
            values = set()
            while len(values) < size:
                value = clip(self.value(), (-65535, 65535))
                values.add(value if value not in values else rng.randint(-65535, 65535))
            values = sorted(values)
            cuts.append(values)
            line.add('dimension', self.dimensions[dimension])
            line.add('values', text(size))
            for value in values:
                line.add('divider', text(value))
                self.points.append([(dimension, value)])
                self.points.append([(dimension, value - 1)])
        for quadrant in layout:
            name = self.name()
            self.regions.append(name)
            line.add('quadrant', name)
            for values, interval in zip(cuts, quadrant):
                line.add('representative', b'*' if interval is None
                         else text(representative(rng, values, interval)))
        return self.finish(line, len(layout) * (4 + 3 * count))

    def operand(self):
        name = self.rng.choice(self.regions)
        return b'!' + name if self.rng.random() < 0.4 else name

    def combination(self, kind, size):
        line = self.begin(kind)
        for _ in range(size):
            line.add('operand', self.operand())
        return self.finish(line, 4 + size)

    def gate(self):
        """One more gate of any kind that can stand here."""
        rng = self.rng
        kinds = ['rect', 'quad']
        if self.n > 1:
            kinds += ['poly', 'poly', 'ellip', 'ellip']
        if self.n > 2:
            kinds += ['ellip3', 'ellip3']
        if self.regions:
            kinds += ['and', 'or', 'not']
        kind = rng.choice(kinds)
        if kind == 'rect':
            return self.rect()
        if kind == 'poly':
            return self.poly()
        if kind == 'ellip':
            return self.ellip()
        if kind == 'ellip3':
            return self.ellip3()
        if kind == 'quad':
            return self.quad()
        if kind == 'not':
            return self.combination(b'not', 1)
        return self.combination(kind.encode(), rng.choice((2, 2, 2, 3, 3, 5, 8)))

    def fill(self, count):
        """Up to `count` gates, as far as regions and words allow."""
        for _ in range(count):
            if len(self.regions) >= self.most or self.words > 3500:
                break
            self.gate()
        return self

    def mix(self):
        """Lines out of the order in which they were made: references go up and down."""
        style = self.rng.random()
        if style < 0.7:
            self.rng.shuffle(self.lines)
        elif style < 0.85:
            self.lines.reverse()
        return self

    def head(self):
        return b'\t'.join([b'dims'] + self.dimensions)

    def bytes(self):
        return join([self.head()] + [line.bytes() for line in self.lines])

    def columns(self):
        """The right column line of its event lists."""
        return b'\t'.join(self.dimensions)

    # Events for the table.

    def event(self):
        rng = self.rng
        values = [self.value() for _ in range(self.n)]
        if self.points:
            for _ in range(rng.choice((0, 1, 1, 1, 2, 3))):
                for dimension, value in rng.choice(self.points):
                    values[dimension] = value
        if rng.random() < 0.06:
            values[rng.randrange(self.n)] = rng.choice(
                (65536, -65537, 65537, 70000, 2147483647, -2147483648))
        return values

    def events(self, count):
        return [self.event() for _ in range(count)]


def join(lines):
    return b''.join(line + b'\n' for line in lines)


def representative(rng, values, interval):
    """A value of an interval: its lower end, its greatest value or one between."""
    low = values[interval - 1] if interval else -65536
    high = values[interval] - 1 if interval < len(values) else 65535
    return rng.choice((low, high, rng.randint(low, high)))


def tiling(rng, counts):
    """Quadrants that tile: per divider an interval number, or None for not referred to."""
    sizes = [count + 1 for count in counts]
    if len(sizes) == 3 and rng.random() < 0.2:
        return pinwheel(rng, sizes)
    quadrants = []

    def cut(quadrant, left):
        """Either leave the rest merged, or cut along one more divider."""
        if not left or rng.random() < 0.25:
            quadrants.append(quadrant)
            return
        divider = rng.choice(left)
        for interval in range(sizes[divider]):
            part = list(quadrant)
            part[divider] = interval
            cut(part, [other for other in left if other != divider])

    cut([None] * len(sizes), list(range(len(sizes))))
    rng.shuffle(quadrants)
    return quadrants


def pinwheel(rng, sizes):
    """A tiling by three dividers that no single cut parts."""
    zero = [rng.randrange(size) for size in sizes]
    others = [[k for k in range(size) if k != zero[d]] for d, size in enumerate(sizes)]
    quadrants = [list(zero)]
    quadrants += [[zero[0], j, None] for j in others[1]]
    quadrants += [[None, zero[1], k] for k in others[2]]
    quadrants += [[i, None, zero[2]] for i in others[0]]
    quadrants += [[i, j, k] for i in others[0] for j in others[1] for k in others[2]]
    rng.shuffle(quadrants)
    return quadrants


def small_table(rng):
    return Table(rng).fill(rng.choice((0, 1, 1, 2, 3, 3, 4, 5, 6, 8))).mix()


def referring_table(rng):
    """A small table that surely has gates, references among them."""
    table = Table(rng)
    table.most = 40
    table.parents = 0.6
    table.rect()
    table.fill(rng.randint(2, 6))
    table.combination(rng.choice((b'and', b'or')), 2)
    return table.mix()


def chain_table(rng):
    """Each gate the parent of the next, or the operand, 20 to 64 deep."""
    table = Table(rng)
    table.parents = 0.0
    table.rect()
    for _ in range(rng.choice((19, 40, 63))):
        last = table.regions[-1]
        if rng.random() < 0.7:
            line = table.rect()
            line.fields[2] = last
        else:
            line = table.combination(b'not', 1)
            line.fields[3] = rng.choice((b'', b'!')) + last
            if rng.random() < 0.3:
                line.fields[2] = rng.choice(table.regions[:-1])
    return table.mix()


def full_table(rng):
    """Exactly 64 regions."""
    table = Table(rng, n=rng.choice((2, 3, 8)))
    if table.n == 3 and rng.random() < 0.3:
        line = table.begin(b'quad')
        line.add('dividers', b'3')
        for dimension in range(3):
            line.add('dimension', table.dimensions[dimension])
            line.add('values', b'3')
            for value in (-3, 0, 3):
                line.add('divider', text(value))
                table.points.append([(dimension, value)])
        for cell in range(64):
            name = table.name()
            table.regions.append(name)
            line.add('quadrant', name)
            for k in (cell // 16, cell // 4 % 4, cell % 4):
                line.add('representative', text(representative(rng, [-3, 0, 3], k)))
        table.finish(line, 64 * 13)
        return table
    while len(table.regions) < 64:
        if table.words > 3000:
            table.combination(b'not', 1)
        else:
            table.gate()
    return table.mix()


class ClaimTable(Table):
    """Boxes beside each other with gaps between, each with a place that it alone may hold, and gates that take something away from that.

    The boxes are over the first dimension, each 2 wide in a step of 4.  A gate more may hold two of them, stand within one of them or reach
    beyond that one, combine some, or hold the rest.
    """

    def __init__(self, rng, boxes, more):
        super().__init__(rng, n=rng.choice((1, 1, 2, 3)), span=(-9, 9))
        self.boxes = {self.box(4 * at, 4 * at + 2): 4 * at for at in range(boxes)}
        for _ in range(more if boxes else 0):
            self.one_more()
        self.mix()

    def box(self, low, high, parent=b'-'):
        line = Line(b'rect')
        for role, field in (('name', self.name()), ('parent', parent), ('dimension', self.dimensions[0]), ('min', text(low)), ('max', text(high))):
            line.add(role, field)
        return self.finish(line, 7).fields[1]

    def one_more(self):
        rng = self.rng
        name, place = rng.choice(list(self.boxes.items()))
        style = rng.randrange(6)
        if style == 0:
            self.box(place, place + 6)
        elif style == 1:
            self.box(place + 1, place + rng.choice((2, 4)), name)
        elif style == 2:
            self.box(place + 2, place + 4, name)
        else:
            line = self.combination(*rng.choice(((b'and', 2), (b'or', 2), (b'or', 3), (b'not', 1))))
            # With no parent complements hold nearly all.
            line.fields[2] = b'-' if rng.random() < 0.5 else name
            if rng.random() < 0.4:
                line.fields[3:] = [b'!' + gates.operand_name(operand) for operand in line.fields[3:]]

    def event(self):
        """At a place of the first box, of the last one, of any; between two of them or beyond all; now and then spoilt."""
        rng = self.rng
        values = [self.value() for _ in range(self.n)]
        named = [self.boxes[line.fields[1]] for line in self.lines if line.fields[1] in self.boxes]
        values[0] = rng.choice((-1, -4, 2, 3, 4 * len(named) + rng.randint(0, 3), 65535, -65536))
        if named and rng.random() < 0.7:
            values[0] = rng.choice((named[0], named[-1], named[-1], rng.choice(named))) + rng.choice((0, 0, 0, 1, 1, 2, 3))
        if rng.random() < 0.1:
            values[rng.randrange(self.n)] = rng.choice((65536, -65537, 2147483647, -2147483648))
        return values


def claim_table(rng, regions=None):
    """So many regions, or any number of them, some events in none."""
    regions = rng.choice((0, 0, 1, 1, 2, 2, 3, 3, 4, 6, 10, 31, 32, 33, 63, 64)) if regions is None else regions
    more = rng.choice((0, 0, 1, 2, 3)) if regions > 3 else 0
    return ClaimTable(rng, regions - more, more)


class OutlineTable(Table):
    """A table for one event: outlines go through it or just beside it, boxes just hold it or don't."""

    def __init__(self, rng):
        super().__init__(rng, n=rng.choice((2, 3, 3, 4)))
        self.middle = [super(OutlineTable, self).value() for _ in range(self.n)]
        self.parents = rng.choice((0.0, 0.4, 0.8))

    def value(self):
        """For the bounds and dividers, mostly at the event."""
        if self.rng.random() < 0.6:
            return clip(self.rng.choice(self.middle) + self.rng.randint(-1, 1))
        return super().value()

    def aim(self, *dimensions):
        """The event's place in some dimensions, or one beside it, which may be off the scale."""
        rng = self.rng
        place = [self.middle[dimension] for dimension in dimensions]
        if rng.random() < 0.25:
            place = [value + rng.randint(-1, 1) for value in place]
        return place

    def rect(self):
        rng = self.rng
        line = self.begin(b'rect')
        chosen = rng.sample(range(self.n), rng.randint(1, self.n))
        for dimension in chosen:
            value = self.middle[dimension]
            low, high = rng.choice(((value, value + 1), (value - 3, value + 1), (value, value + 3), (-65536, 65536),
                                    (-65536, 65536), (value - 2, value), (value + 1, value + 2)))
            high = clip(high, (-65535, 65536))
            low = clip(low, (-65536, high - 1))
            line.add('dimension', self.dimensions[dimension])
            line.add('min', text(low))
            line.add('max', text(high))
        return self.finish(line, 4 + 3 * len(chosen))

    def poly(self):
        line = self.begin(b'poly')
        first, second = self.rng.sample(range(self.n), 2)
        x, y = self.aim(first, second)
        return self.finish_poly(line, first, second, outline_through(self.rng, clip(x), clip(y)))

    def ellip(self):
        line = self.begin(b'ellip')
        first, second = self.rng.sample(range(self.n), 2)
        decimals = self.rng.random() < 0.4
        through = decimal_through if decimals else ellipse_through
        return self.finish_ellip(line, first, second, *through(self.rng, *self.aim(first, second)), decimals=decimals)

    def ellip3(self):
        line = self.begin(b'ellip3')
        chosen = self.rng.sample(range(self.n), 3)
        return self.finish_ellip3(line, chosen, *ellipsoid_through(self.rng, self.aim(*chosen)))

    def operand(self):
        """The event is in most regions; with less of `!` it is in more combinations too."""
        name = self.rng.choice(self.regions)
        return b'!' + name if self.rng.random() < 0.2 else name

    def event(self):
        """The event, mostly, or one beside it, which may be off the scale."""
        rng, values = self.rng, list(self.middle)
        if rng.random() < 0.25:
            for dimension in rng.sample(range(self.n), rng.choice((1, 1, 2))):
                values[dimension] += rng.choice((-1, 1))
        return values


def outline_table(rng):
    """Outlines at one event, children of every kind in them, and combinations over them."""
    table = OutlineTable(rng)
    rng.choice((table.poly, table.ellip, table.ellip3 if table.n > 2 else table.ellip))()
    table.fill(rng.choice((0, 1, 2, 3, 4, 6, 9, 64)))
    return table.mix()


def wide_table(rng):
    """A polygon of 256 vertices, combinations of 63 operands, a box of all dimensions."""
    table = Table(rng, n=rng.choice((2, 8)))
    table.poly([(table.value(), table.value()) for _ in range(rng.choice((255, 256)))])
    table.rect()
    table.combination(rng.choice((b'and', b'or')), rng.choice((62, 63)))
    table.fill(3)
    return table.mix()


def long_outline_table(rng, sizes=None):
    """Polygons with so many vertices, and events at places of them."""
    table = Table(rng, n=rng.choice((2, 2, 3)), span=(-20, 20))
    table.parents = 0.0 if sizes else rng.choice((0.0, 0.0, 0.3))
    sizes = sizes or long_outlines.some_sizes(rng, rng.choice((40, 256, 600)))
    for size in sizes:
        line = table.begin(b'poly')
        first, second = rng.sample(range(table.n), 2)
        vertices = long_outlines.outline(rng, size)
        # Off the scale nothing is lost but the shape.
        vertices = [(clip(x), clip(y)) for x, y in vertices]
        for _ in range(8):
            x, y = long_outlines.place(rng, vertices)
            table.points.append([(first, clip(x)), (second, clip(y))])
        table.finish_poly(line, first, second, vertices)
    return table.mix()


def plan_size_table(rng, words):
    """A valid table, except perhaps for 17, whose plan has exactly so many words."""
    table = Table(rng, n=2, span=(-9, 99))
    table.parents = 0.2

    def outline(size):
        return [(table.value(), table.value()) for _ in range(size)]

    while words - table.words > 600:
        table.poly(outline(rng.randint(200, 256)))
    while words - table.words > 63:
        table.poly(outline(rng.randint(3, 20)))
    # 18 to 63 words are left, and a combination can have any number of them.
    table.combination(rng.choice((b'and', b'or')), words - table.words - 4)
    return table.mix()


def eight_polygons(rng, vertices):
    """Eight polygons with so many vertices in all: 2,023 are the most a plan can hold."""
    table = Table(rng, n=2, span=(-9, 99))
    sizes = [256] * 7 + [vertices - 7 * 256]
    shift = rng.randint(0, 200) if sizes[7] + 200 <= 256 else 0
    sizes[0] -= shift
    sizes[7] += shift
    for size in sizes:
        table.poly([(table.value(), table.value()) for _ in range(size)])
    return table.mix()


def byte_size_table(rng, size):
    """A valid table of exactly so many bytes (many)."""
    table = Table(rng, n=2)
    table.long_names = True
    table.rect()
    table.ellip()
    while size - len(table.bytes()) > 1200:
        line = table.combination(rng.choice((b'and', b'or')), 63)
        for at in line.places('operand'):
            line.fields[at] = line.fields[at].lstrip(b'!')
    # Each `!` is one byte more.
    operands = [(line, at) for line in table.lines for at in line.places('operand')]
    for line, at in rng.sample(operands, size - len(table.bytes())):
        line.fields[at] = b'!' + line.fields[at]
    return table.mix()


# ---------------------------------------------------------------- damage to one line

# Each damage takes a table and one of its lines and changes that line; it returns
# whether it could.  The number is the refusal that it alone would bring about.

def damage_kind(table, line):
    line.fields[0] = table.rng.choice(BAD_KINDS)
    if table.rng.random() < 0.3:
        # A lone `events` would part the input instead, but none of the kinds is that.
        line.fields = line.fields[:1]
    return True


def damage_shape(table, line):
    rng = table.rng
    style = rng.randrange(6)
    if style == 0:
        line.fields = line.fields[:rng.randint(1, 3)]
        return True
    if line.kind in (b'ellip', b'ellip3') and style == 1:     # the other's fields
        line.fields[0] = b'ellip3' if line.kind == b'ellip' else b'ellip'
        return True
    if line.kind == b'quad' and style < 4:
        line.fields[rng.choice(line.places('dividers', 'values'))] = rng.choice(BAD_COUNTS)
        return True
    if line.kind in (b'and', b'or'):
        names = [table.operand() for _ in range(rng.choice((0, 1, 64, 65)))]
        line.fields = line.fields[:3] + names
        return True
    if line.kind == b'rect' and style < 3:
        line.fields = line.fields[:3] + line.fields[3:6] * rng.choice((0, 9, 10))
        return True
    if line.kind == b'poly' and style < 3:
        vertices = rng.choice((0, 1, 2, 257, 258, 300))
        line.fields = line.fields[:5] + [b'0'] * (2 * vertices + rng.choice((0, 0, 1)))
        return True
    if style == 4:
        line.fields.append(b'')
    elif style == 5:
        line.fields.append(b'0')
    else:
        del line.fields[rng.randrange(3, len(line.fields))]
    return True


def damage_name(table, line):
    rng = table.rng
    at = rng.choice(line.places('name', 'parent', 'quadrant', 'operand'))
    bad = list(BAD_NAMES)
    if line.roles[at] in ('name', 'quadrant'):
        bad += [b'-', b'!R'] * 3
    elif line.roles[at] == 'parent':
        bad += [b'!R'] * 3
    else:
        bad += [b'-', b'!-'] * 3
    line.fields[at] = rng.choice(bad)
    return True


def damage_form(table, line):
    rng = table.rng
    numbers = line.places(*RANGES, *DECIMAL_RANGES)
    if not numbers:
        return False
    at = rng.choice(numbers)
    if line.kind == b'ellip' and line.roles[at] != 'mean':
        line.fields[at] = rng.choice(BAD_DECIMALS)
    else:
        # A point is bad there, and so are numbers that are good in an ellipse.
        line.fields[at] = rng.choice(BAD_NUMBERS + BAD_DECIMALS[-60::5] + [b'-0.5', b'0.0', b'1.500', b'0.001', b'1134.5'] * 2)
    if line.roles[at] not in ('min', 'max', 'representative') and rng.random() < 0.2:
        line.fields[at] = b'*'
    return True


def damage_range(table, line):
    numbers = line.places(*RANGES, *DECIMAL_RANGES)
    if not numbers:
        return False
    rng = table.rng
    at = rng.choice(numbers)
    role = line.roles[at]
    if role in DECIMAL_RANGES or (line.kind == b'ellip' and role in ('entry', 'd2') and rng.random() < 0.4):
        return damage_decimal_range(rng, line)
    low, high = RANGES[role]
    line.fields[at] = rng.choice((
        text(low - 1), text(high + 1), text(low - 1), text(high + 1), b'9' * 40, b'-' + b'9' * 40,
        b'2147483648', b'4294967296', b'-2147483649', b'1' + b'0' * rng.randint(9, 30),
        text(2 ** 64 + 1), text(-2 ** 63)))
    return True


def damage_decimal_range(rng, line):
    """One of c11, c12, c22, D2 off scale because the line has a point, in it or in another of them."""
    first = line.places('mean')[1] + 1
    at = first + rng.randrange(4)
    style = rng.randrange(3)
    if style == 0 and at < first + 3:
        # A whole number that is too large only because of the point elsewhere.
        line.fields[at] = rng.choice((b'', b'-')) + rng.choice((b'2000001', b'16777216', b'16777215', text(rng.randint(2000001, 16777216))))
        other = rng.choice([spot for spot in range(first, first + 4) if spot != at])
        line.fields[other] = line.fields[other].split(b'.')[0].replace(b'-0', b'0') + b'.' + b'0' * rng.randint(1, 3)
        if rng.random() < 0.5:
            line.fields[first + 3] = rng.choice((b'0.5', b'1.0', b'4096.0', b'0.001'))
    elif style == 1 and any(b'.' in field for field in line.fields[first:]):
        low, high = (-2000000, 2000000) if at < first + 3 else (1, 4096)
        point = b'.' in b''.join(field for spot, field in enumerate(line.fields[first:], first) if spot != at)
        line.fields[at] = text(rng.choice((low - 1, high + 1))) + (b'' if point else b'.0')
    else:
        line.fields[at] = rng.choice(OFF_ENTRIES if at < first + 3 else OFF_D2)
    return True


def damage_dimension(table, line):
    dimensions = line.places('dimension')
    if not dimensions:
        return False
    rng = table.rng
    at = rng.choice(dimensions)
    if len(dimensions) > 1 and rng.random() < 0.5:
        line.fields[at] = line.fields[rng.choice([other for other in dimensions if other != at])]
    else:
        wrong = [name for name in (b'', b'9', b'*', b'-', b'nope', b'a\r', b'A:single', b'Zz', b'!A',
                                   b'dim s', b'\xff', b'Q' * 17) if name not in table.dimensions]
        line.fields[at] = rng.choice(wrong)
    return True


def damage_bounds(table, line):
    rng = table.rng
    if line.kind == b'rect':
        at = rng.choice(line.places('min'))
        value = rng.randint(-65535, 65535) if rng.random() < 0.3 else clip(table.value(), (-65535, 65535))
        line.fields[at + 1] = text(value)
        line.fields[at] = text(clip(value + rng.choice((0, 0, 1, 5, 65536))))
        return True
    dividers = line.places('divider')
    rising = [at for at in dividers if at + 1 in dividers]
    if not rising:
        return False
    at = rng.choice(rising)
    if rng.random() < 0.5:
        line.fields[at + 1] = line.fields[at]
    else:
        line.fields[at], line.fields[at + 1] = line.fields[at + 1], line.fields[at]
    return True


def damage_matrix(table, line):
    rng = table.rng
    entries = line.places('entry', 'decimal entry')
    if not entries:
        return False
    if line.kind == b'ellip3':
        texts = [text(entry) for entry in bad_ellipsoid(rng)]
    elif line.places('entry') and rng.random() < 0.7:
        texts = [text(entry) for entry in rng.choice(BAD_MATRICES)]
    else:
        texts = decimal_texts(rng, rng.choice(BAD_DECIMAL_MATRICES))
    for at, entry in zip(entries, texts):
        line.fields[at] = entry
    return True


def damage_tiling(table, line):
    if line.kind != b'quad':
        return False
    rng = table.rng
    size = 1 + len(line.places('values'))
    starts = line.places('quadrant')
    start = rng.choice(starts)
    style = rng.randrange(4)
    if style == 0 and len(starts) > 1:          # a hole
        del line.fields[start:start + size]
        del line.roles[start:start + size]
        return True
    representatives = [at for at in range(start + 1, start + size) if line.fields[at] != b'*']
    if style == 1 and representatives:          # one reaches over the others
        line.fields[rng.choice(representatives)] = b'*'
        return True
    if style == 2 and representatives:          # in another interval, perhaps
        line.fields[rng.choice(representatives)] = text(rng.choice((-65536, 65535, table.value())))
        return True
    # The same cells twice, under another name or even the same.
    line.fields += [table.name() if rng.random() < 0.8 else line.fields[start]]
    line.roles += ['quadrant']
    line.fields += line.fields[start + 1:start + size]
    line.roles += ['representative'] * (size - 1)
    return True


LINE_DAMAGES = ((4, damage_kind), (5, damage_shape), (6, damage_name), (7, damage_form),
                (8, damage_range), (9, damage_dimension), (10, damage_bounds),
                (11, damage_matrix), (12, damage_tiling))


def line_for(table, number):
    """A line, made if need be, that the damage for a refusal can work on."""
    rng = table.rng
    if table.n > 2 and number in (7, 8, 9, 11) and rng.random() < 0.4:
        return table.ellip3()
    if number == 11:
        return table.ellip()
    if number == 12:
        return table.quad()
    if number == 10:
        return table.rect() if rng.random() < 0.6 else table.quad()
    if number in (7, 8, 9):
        return rng.choice((table.rect, table.poly, table.ellip, table.quad))()
    return table.gate()


def one_fault(rng, number):
    """A table with a bad line and its place; more bad ones may follow that don't count."""
    table = Table(rng, n=rng.choice((2, 3, 3, 8)))
    table.rect()
    table.fill(rng.choice((0, 1, 2, 3)))
    damage = dict(LINE_DAMAGES)[number]
    while True:
        line = line_for(table, number)
        if damage(table, line):
            break
    table.mix()
    if rng.random() < 0.3:
        below = table.rect()
        dict(LINE_DAMAGES)[rng.randint(4, 10)](table, below)
    return table, table.lines.index(line) + 2


def many_faults(rng):
    """Several faults on one line, so that the order of the refusals shows."""
    table = Table(rng, n=rng.choice((2, 3, 8)))
    table.rect()
    table.rect()
    line = rng.choice((table.rect, table.poly, table.ellip, table.quad, table.quad, table.gate, table.ellip3 if table.n > 2 else table.gate))()
    if line.kind == b'rect' and rng.random() < 0.5:
        # A box with a fault of its own in each triple.
        line.fields, line.roles = line.fields[:3], line.roles[:3]
        for _ in range(rng.randint(2, 8)):
            line.add('dimension', rng.choice(table.dimensions + [b'nope']))
            line.add('min', rng.choice((b'0', b'9', b'*', b'65536', b'9' * 40, b'00', b'x', b'5')))
            line.add('max', rng.choice((b'10', b'1', b'*', b'-65536', b'9' * 40, b'-0', b'', b'7')))
    for _ in range(rng.choice((2, 2, 3, 4))):
        number, damage = rng.choice(LINE_DAMAGES[2:] if rng.random() < 0.85 else LINE_DAMAGES)
        damage(table, line)
        if number < 6:
            break
    return table.mix()


def rough_damage(rng, data):
    """Bytes or fields changed without a thought for their meaning."""
    for _ in range(rng.choice((1, 1, 1, 2, 4))):
        style = rng.randrange(10)
        if style < 4 or not data:
            at = rng.randint(0, len(data))
            byte = rng.choice((b'\t', b'\n', b'\r', b'\x00', b' ', b'-', b'0', b'*', b'!', b'1', b'9',
                               b'a', b'\xff', b'+', b'.', b'\r\n', b'\t\t', b'\n\n', b'_'))
            data = data[:at] + byte + data[at + rng.choice((0, 0, 1, 1, 2)):]
            continue
        lines = data.split(b'\n')
        at = rng.randrange(len(lines))
        if style == 4:
            del lines[at]
        elif style == 5:
            lines.insert(rng.randint(0, len(lines)), lines[at])
        elif style == 6:
            lines.insert(at, b'')
        else:
            fields = lines[at].split(b'\t')
            spot = rng.randrange(len(fields))
            if style == 7:
                fields[spot] = rng.choice(BAD_NUMBERS + BAD_NAMES + [b'65536', b'-65537', b'9' * 40,
                                                                     b'*', b'events', b'-', b'0'])
            elif style == 8:
                del fields[spot]
            else:
                fields.insert(spot, rng.choice(fields + [b'']))
            lines[at] = b'\t'.join(fields)
        data = b'\n'.join(lines)
    return data


# ---------------------------------------------------------------- damage to whole tables

def crowded_table(rng):
    """More than 64 regions; the 65th on a plain line or in the midst of a quad line."""
    table = Table(rng, n=2)
    table.parents = 0.1
    most = 65 + rng.choice((0, 0, 0, 3, 20))
    quads = rng.choice((0.0, 0.15))
    while len(table.regions) < most:
        if rng.random() < quads:
            table.quad(64)
        else:
            table.rect()
    table.mix()
    if rng.random() < 0.4:
        # A few quadrants more, among the last lines.
        table.quad(6)
        table.lines.insert(-rng.randint(1, 4), table.lines.pop())
    if rng.random() < 0.3:
        twin_names(table)
    elif rng.random() < 0.3:
        rng.choice(table.lines).fields[2] = b'nowhere'
    regions = 0
    for place, line in enumerate(table.lines, 2):
        regions += len(line.places('quadrant')) if line.kind == b'quad' else 1
        if regions > 64:
            return table, place


def twin_names(table):
    """One name made twice: gates, quadrants, a quadrant and its own gate."""
    rng = table.rng
    made = [(line, at) for line in table.lines for at in line.places('name', 'quadrant')]
    if len(made) < 2:
        return False
    (line, at), (other, spot) = rng.sample(made, 2)
    if rng.random() < 0.4:
        inside = [pair for pair in made if pair[0] is line and pair[1] != at]
        if inside:
            other, spot = rng.choice(inside)
    line.fields[at] = other.fields[spot]
    return True


def twin_table(rng):
    table = Table(rng)
    table.most = 40
    table.rect()
    table.quad()
    table.fill(rng.choice((1, 2, 4)))
    twin_names(table)
    if rng.random() < 0.3:
        twin_names(table)
    if rng.random() < 0.3:
        dead_reference(table)
    if rng.random() < 0.3:
        make_circle(table)
    return table.mix()


def dead_reference(table):
    """A parent or an operand that names no region: unknown, a quad gate, a dimension."""
    rng = table.rng
    gates_without = [line.fields[1] for line in table.lines if line.kind == b'quad']
    names = [b'nowhere', b'Nope-16-letters_'] + gates_without * 2
    names += [name for name in table.dimensions if name not in table.regions]
    line = rng.choice(table.lines)
    operands = line.places('operand')
    if operands and rng.random() < 0.6:
        line.fields[rng.choice(operands)] = rng.choice((b'', b'!')) + rng.choice(names)
    else:
        line.fields[2] = rng.choice(names)


def dead_table(rng):
    table = referring_table(rng)
    if rng.random() < 0.6:
        table.quad()
    if rng.random() < 0.4:
        make_circle(table)
    dead_reference(table)
    return table.mix()


def make_circle(table):
    """Lead some gates round in a ring through parents, operands and quadrants."""
    rng = table.rng
    ring = rng.sample(table.lines, rng.randint(1, min(4, len(table.lines))))
    for line, following in zip(ring, ring[1:] + ring[:1]):
        if following.kind == b'quad':
            name = following.fields[rng.choice(following.places('quadrant'))]
        else:
            name = following.fields[1]
        operands = line.places('operand')
        if operands and rng.random() < 0.6:
            line.fields[rng.choice(operands)] = rng.choice((b'', b'!')) + name
        else:
            line.fields[2] = name


def circle_table(rng):
    """A circle, often with lines above it that only lead into it."""
    table = referring_table(rng)
    if rng.random() < 0.5:
        table.quad()
        table.fill(2)
    make_circle(table)
    if rng.random() < 0.15:
        make_circle(table)
    table.mix()
    for _ in range(rng.choice((0, 1, 1, 2))):
        table.combination(rng.choice((b'not', b'and')), 1)
        lead = table.lines.pop()
        if lead.kind == b'and':
            lead.add('operand', table.operand())
        table.lines.insert(0, lead)
    return table


# ---------------------------------------------------------------- event lists

def event_lines(events):
    return [b'\t'.join(text(value) for value in event) for event in events]


BAD_EVENTS = BAD_NUMBERS + [b'events', b'*', b'taken', b'1' * 40 + b'\r', b'-9' + b'9' * 30 + b'-']
FAR_NUMBERS = [b'4294967296', b'2147483648', b'-2147483649', b'-2147483648', b'2147483647',
               b'9' * 40, b'-' + b'9' * 40, b'65536', b'-65537', b'18446744073709551616',
               b'4294967295', b'-4294967296', b'340282366920938463463374607431768211456',
               b'1' + b'0' * 300]


def far_list(table):
    """An event list with numbers beyond 32 bits and other spoilt values."""
    rng = table.rng
    lines = []
    for event in table.events(rng.randint(1, 8)):
        fields = [text(value) for value in event]
        for _ in range(rng.choice((0, 1, 1, 2))):
            fields[rng.randrange(len(fields))] = rng.choice(FAR_NUMBERS)
        lines.append(b'\t'.join(fields))
    return join(lines)


def bad_list(table):
    """An event list with one or two faults."""
    rng = table.rng
    lines = event_lines(table.events(rng.randint(1, 6)))
    last = b'\n'
    for _ in range(rng.choice((1, 1, 1, 2))):
        at = rng.randrange(len(lines))
        fields = lines[at].split(b'\t')
        style = rng.randrange(9)
        if style == 0:
            del fields[rng.randrange(len(fields))]
        elif style == 1:
            fields.insert(rng.randint(0, len(fields)), rng.choice((b'0', b'7', b'9' * 40, b'')))
        elif style < 5:
            fields[rng.randrange(len(fields))] = rng.choice(BAD_EVENTS)
        elif style == 5:
            lines.insert(rng.randint(0, len(lines)), rng.choice((b'', b'', b'events', b'\t')))
            continue
        elif style == 6:
            last = b''
            continue
        elif style == 7:
            fields[-1] += rng.choice((b'\r', b' ', b'\t', b'\x00'))
        else:
            fields[rng.randrange(len(fields))] = rng.choice(FAR_NUMBERS) + rng.choice((b'', b'x', b'.', b' '))
        lines[at] = b'\t'.join(fields)
    return b'\n'.join(lines) + last


# ---------------------------------------------------------------- standard inputs

class Case:
    """One standard input.

    `refusals` are the numbers of which it was made to bring about one (0 for accepted)
    and `place` its place, where they are known beforehand; the self-test holds the
    reference to them.

    `lines` is set for accepted tables whose gate lines are to be put in other orders:
    head and gate lines, to be followed by `list`.
    """

    def __init__(self, label, data, refusals=None, lines=None, list_=b'', place=None):
        self.label = label
        self.data = data
        self.refusals = refusals
        self.place = place
        self.lines = lines
        self.list = list_


def opened(table):
    """The beginning of a list: the line `events` and the right column line."""
    return join([b'events', table.columns()])


def with_events(table, count):
    return opened(table) + join(event_lines(table.events(count)))


def accepted(label, table, count, orders=False):
    return accepted_sheet(label, table, [count], orders)


def accepted_sheet(label, table, counts, orders=False):
    """A list of so many events for each of the counts."""
    lists = b''.join([with_events(table, count) for count in counts])
    lines = [table.head()] + [line.bytes() for line in table.lines] if orders else None
    return Case(label, table.bytes() + lists, (0,), lines, lists)


def case_small(rng):
    return accepted('small', small_table(rng), rng.choice((0, 1, 4, 8, 12, 20)), orders=rng.random() < 0.2)


def many(rng):
    """Somewhat more or less than a few times 64: a counter may take events in groups of that many."""
    return 64 * rng.choice((1, 1, 2, 3)) + rng.choice((-2, -1, 0, 1, 2))


def case_many_events(rng):
    return accepted('many events', rng.choice((small_table, referring_table))(rng), many(rng))


def case_referring(rng):
    return accepted('references', referring_table(rng), rng.choice((6, 10, 20)), orders=rng.random() < 0.25)


def case_outlines(rng):
    """Polygons and ellipses with many events upon and beside their outlines."""
    table = Table(rng, n=rng.choice((2, 2, 3)), span=rng.choice(((-5, 5), (-9, 9), (-20, 20), (-65536, 65535))))
    for _ in range(rng.randint(1, 3)):
        table.poly() if rng.random() < 0.6 else table.ellip()
    return accepted('outlines', table, 25)


def case_long_outlines(rng, sizes=None):
    """Polygons of up to 256 vertices."""
    return accepted('long outlines', long_outline_table(rng, sizes), 30)


def case_decimals(rng):
    """Ellipses with decimals, some with whole ones beside them, and events upon and beside their rims."""
    table = Table(rng, n=rng.choice((2, 2, 3)), span=rng.choice(((-5, 5), (-20, 20), (-65536, 65535))))
    for _ in range(rng.randint(1, 3)):
        table.decimal_ellip()
    table.fill(rng.choice((0, 0, 2)))
    return accepted('decimals', table.mix(), 25, orders=rng.random() < 0.2)


def case_decimal_line(rng, given=None):
    """One of the lines worked out by hand."""
    table = Table(rng, n=rng.choice((2, 3)))
    table.fill(rng.choice((0, 0, 1, 3)))
    (fields, number), line = given or rng.choice(DECIMAL_LINES), table.begin(b'ellip')
    first, second = rng.sample(range(table.n), 2)
    means = table.value(), table.value()
    for role, field in zip(('dimension', 'dimension', 'mean', 'mean', 'decimal entry', 'decimal entry', 'decimal entry', 'decimal d2'),
                           [table.dimensions[first], table.dimensions[second], *map(text, means), *fields.encode().split(b' ')]):
        line.add(role, field)
    table.finish(line, 12)
    if number == 0:
        *entries, d2 = [int(1000 * Decimal(field)) for field in fields.split(' ')]
        table.points += [[(first, clip(means[0] + dx)), (second, clip(means[1] + dy))] for dx, dy in crossings(entries, d2)] * 3
    return Case('line with decimals', table.bytes() + with_events(table, 8), (number,), place=len(table.lines) + 1 if number else None)


def case_point_elsewhere(rng, line):
    return Case('point elsewhere', join([b'dims\tA\tB', line.encode().replace(b' ', b'\t')]) + b'events\nA\tB\n0\t0\n', (7,), place=2)


def case_decimal_event(rng):
    """A list whose events have decimals, however whole."""
    table = small_table(rng)
    values = [b'0'] * table.n
    values[rng.randrange(table.n)] = rng.choice((b'0.5', b'-0.5', b'1.0', b'0.000', b'65535.5'))
    return Case('event with decimals', table.bytes() + with_events(table, 2) + join([b'\t'.join(values)]), (23,))


def case_ellipsoids(rng):
    """Ellipsoids, and events upon and beside their rims."""
    table = Table(rng, n=rng.choice((3, 3, 3, 4, 8)), span=rng.choice(((-5, 5), (-20, 20), (-65536, 65535))))
    for _ in range(rng.randint(1, 3)):
        table.ellip3()
    table.fill(rng.choice((0, 0, 2)))
    return accepted('ellipsoids', table.mix(), 25, orders=rng.random() < 0.2)


def case_ellip3_line(rng, given=None):
    """One of the lines worked out by hand."""
    table = Table(rng, n=4)
    table.dimensions = [b'A', b'B', b'C', b'D']
    table.fill(rng.choice((0, 0, 1, 3)))
    behind, number = given or rng.choice(ELLIP3_LINES)
    line = b'\t'.join([b'ellip3', table.name(), b'-', *behind.encode().split(b' ')])
    if number == 0:
        fields = behind.split(' ')
        chosen, numbers = ['ABCD'.index(name) for name in fields[:3]], [int(field) for field in fields[3:]]
        for step in axis_crossings(numbers[3:9], numbers[9]):
            table.points += [[(dimension, clip(mean + part)) for dimension, mean, part in zip(chosen, numbers, step)]] * 3
    return Case('ellip3 line', table.bytes() + line + b'\n' + with_events(table, 8), (number,), place=len(table.lines) + 2 if number else None)


def case_bad_ellipsoid(rng):
    """A matrix that isn't good on an `ellip3` line, which is in order in all else."""
    table = Table(rng, n=rng.choice((3, 3, 8))).fill(rng.choice((0, 1, 3)))
    line = table.ellip3()
    damage_matrix(table, line)
    table.mix()
    return Case('bad ellipsoid', table.bytes() + with_events(table, 1), (11,), place=table.lines.index(line) + 2)


def case_quadrants(rng):
    table = Table(rng, n=rng.choice((1, 2, 3, 4)))
    table.quad()
    table.fill(rng.choice((0, 2)))
    return accepted('quadrants', table, rng.choice((8, 16)), orders=rng.random() < 0.3)


def case_chain(rng):
    return accepted('chain', chain_table(rng), 6, orders=rng.random() < 0.2)


def case_full(rng):
    return accepted('64 regions', full_table(rng), 6, orders=rng.random() < 0.2)


def case_wide(rng):
    return accepted('wide', wide_table(rng), 4)


def case_far(rng):
    table = small_table(rng)
    return Case('far numbers', table.bytes() + opened(table) + far_list(table), (0,))


def case_bad_list(rng):
    table = small_table(rng)
    return Case('bad list', table.bytes() + opened(table) + bad_list(table))


def case_list_forms(rng, style=None):
    """The line `events` itself: missing, open, twice, changed, alone."""
    table = small_table(rng)
    data = table.bytes()
    style = rng.randrange(11) if style is None else style
    if style == 0:
        return Case('no events line', data, (0,))
    if style == 1:
        return Case('no events line', data[:-1], (2,))
    if style == 2:
        return Case('events open', data + b'events', (23,))
    if style == 3:
        return Case('events twice', data + with_events(table, 2) + rng.choice((b'events\n', opened(table))), (23,), place=len(table.lines) + 6)
    if style == 4:
        return Case('events changed', data + rng.choice((b'events\r\n', b'events\t\n', b' events\n',
                                                         b'Events\n', b'events \n', b'events\x00\n'))
                    + join(event_lines(table.events(2))), (4,))
    if style == 5:
        return Case('events alone', rng.choice((b'events', b'events\n', b'events\n1\n', b'events\n\n')), (2,))
    if style == 6:
        return Case('no events', data + opened(table), (0,))
    if style == 7:
        return Case('list open', (data + with_events(table, 3))[:-1], (23,))
    if style == 8:
        return Case('empty line', data + with_events(table, rng.choice((0, 3))) + b'\n', (23,))
    if style == 9:
        return Case('tiny input', rng.choice((b'', b'\n', b'\n\n', b'x', b'\t', b'dims\tA', b'dims\tA\n',
                                              b'dims\tA\n\n', b'dims\tA\nevents', b'dims\tA\nevents\nA\n\n',
                                              b'dims\tA\nevents\nA\n1', b'dims\tA\nevents\nA\nevents\n',
                                              b'\x00', b'dims\tA\r\n', b'dims\tA\n \n', b'dims\tevents\n'
                                              b'events\nevents\n5\n', b'dims\n', b'events\nevents')))
    return Case('table and list bad', rough_damage(rng, data) + opened(table) + bad_list(table))


def case_head(rng):
    """Line 1 fails; what follows may be good or bad and isn't looked at."""
    table = Table(rng, n=1).fill(rng.choice((0, 1)))
    lines = [rng.choice(BAD_HEADS)] + [line.bytes() for line in table.lines]
    if rng.random() < 0.3:
        lines.append(rng.choice((b'bogus', b'', b'rect', b'rect\tX\tnowhere\tA\t0\t1')))
    return Case('head', join(lines) + with_events(table, 1), (3,), place=1)


def case_open_table(rng):
    table = small_table(rng)
    data = rng.choice((table.bytes()[:-1], b'', table.bytes() + b'rect', table.bytes() + b'\r'))
    return Case('open line', data, (2,))


def case_one_fault(rng, number=None):
    number = number or rng.randint(4, 12)
    table, place = one_fault(rng, number)
    data = table.bytes() + with_events(table, 2)
    if number == 12:
        # A representative put elsewhere may happen to stay in its interval.
        return Case('fault 12', data)
    return Case('fault %d' % number, data, (number,), place=place)


def case_many_faults(rng):
    table = many_faults(rng)
    return Case('many faults', table.bytes() + with_events(table, 2))


def case_rough_table(rng):
    table = small_table(rng)
    return Case('rough table', rough_damage(rng, table.bytes()) + with_events(table, 3))


def case_rough_input(rng):
    table = small_table(rng)
    return Case('rough input', rough_damage(rng, table.bytes() + with_events(table, 3)))


def case_crowded(rng):
    table, place = crowded_table(rng)
    return Case('crowded', table.bytes() + with_events(table, 2), (13,), place=place)


def case_crowded_then_bad(rng):
    """Too many regions, and below them a bad line, which is told of first."""
    table, _ = crowded_table(rng)
    data = table.bytes() + b'bogus\n'
    return Case('crowded, then bad', data + with_events(table, 2), (4,), place=len(table.lines) + 2)


def case_twin(rng):
    table = twin_table(rng)
    return Case('twin', table.bytes() + with_events(table, 2), (14,))


def case_dead(rng):
    table = dead_table(rng)
    return Case('dead', table.bytes() + with_events(table, 2), (15,))


def case_circle(rng):
    table = circle_table(rng)
    return Case('circle', table.bytes() + with_events(table, 2), (16,))


def case_polygons(rng, vertices=None):
    vertices = vertices or rng.choice((2022, 2023, 2024))
    table = eight_polygons(rng, vertices)
    return Case('eight polygons', table.bytes() + with_events(table, 2), (17 if vertices > 2023 else 0,))


def case_plan_size(rng, words=None):
    words = words or rng.randint(4090, 4100)
    table = plan_size_table(rng, words)
    return Case('plan of about 4,096', table.bytes() + with_events(table, 2), (17 if words > 4096 else 0,))


def case_table_size(rng, size=None):
    size = size or rng.choice((32767, 32768, 32769))
    table = byte_size_table(rng, size)
    list_ = with_events(table, 2) if rng.random() < 0.7 else b''
    return Case('table of %d bytes' % size, table.bytes() + list_, (0,) if size <= 32768 else (1,))


def case_long_number(rng, size=None):
    """One number with very many digits: off scale, unless the table is too long."""
    size = size or rng.choice((32768, 32769, rng.randint(100, 32767)))
    table = Table(rng).fill(1)
    line = b'rect\t' + table.name() + b'\t-\t' + table.dimensions[0] + b'\t'
    digits = max(20, size - len(table.bytes()) - len(line) - 3)
    data = table.bytes() + line + b'9' * digits + b'\t*\n'
    return Case('long number', data + opened(table), (1,) if len(data) > 32768 else (8,))


def case_input_size(rng, size=None):
    """Inputs of 65,536 bytes and one more, with a good list or one that is left open."""
    size = size or rng.choice((65535, 65536, 65537))
    table = small_table(rng)
    data = table.bytes() + with_events(table, 3)
    rest = b''.join(b'\t0' for _ in range(table.n - 1)) + b'\n'
    while size - len(data) > 9000:
        data += b'8' * rng.randint(2000, 8000) + rest
    data += b'7' * (size - len(data) - len(rest)) + rest
    if rng.random() < 0.2:
        data = data[:-1] + b'7'
        return Case('input of %d bytes' % size, data, (1,) if size > 65536 else (23,))
    return Case('input of %d bytes' % size, data, (1,) if size > 65536 else (0,))


def case_long_table_part(rng):
    """A table part over its own limit while the whole input keeps to its own."""
    table = small_table(rng)
    data = table.bytes()
    size = rng.choice((32769, 40000, 65536))
    if rng.random() < 0.5:
        return Case('long table, no list', data + b'x' * (size - len(data)), (1,))
    data += b'x' * (min(size, 60000) - len(data) - 1) + b'\n'
    return Case('long table and a list', data + with_events(table, 2), (1,))


# ---------------------------------------------------------------- column lines

# Names that differ by little, and `events`.
ALIKE_NAMES = [b'A', b'a', b'B', b'AA', b'Aa', b'A1', b'A-', b'FSC', b'fsc', b'Fsc', b'FSC-A', b'FSC-H', b'FSC_H', b'SSC', b'events', b'event', b'Events',
               b'dims', b'ABCDEFGHIJKLMNOP', b'ABCDEFGHIJKLMNOp', b'ABCDEFGHIJKLMNO']

# The names of a head, a column line, and the place where it differs, None for a right one.
COLUMN_LINES = (
    ('A', 'A', None), ('A', 'a', 0), ('A', 'B', 0), ('A', '', 0), ('A', 'A\t', 1), ('A', '\tA', 0), ('A', 'A\r', 0), ('A', 'A ', 0), ('A', ' A', 0),
    ('A', 'A\tA', 1), ('A', 'AA', 0), ('A', '0', 0), ('A', 'events', 0), ('A', 'dims\tA', 0), ('A', 'A\0', 0), ('A', 'A:single', 0), ('A', 'A\tB', 1),
    ('A', '\t', 0), ('A', 'A' + '\t' * 256, 1), ('A', 'A\t' * 256 + 'A', 1), ('A', 'B\tA', 0), ('A', '*', 0), ('A', '-', 0), ('A', '!A', 0),
    ('A\tB', 'A\tB', None), ('A\tB', 'A', 1), ('A\tB', 'B', 0), ('A\tB', 'B\tA', 0), ('A\tB', 'A\tA', 1), ('A\tB', 'B\tB', 0), ('A\tB', 'A\tB\t', 2),
    ('A\tB', 'A\tB\tC', 2), ('A\tB', 'A\t\tB', 1), ('A\tB', 'A B', 0), ('A\tB', 'A\tb', 1), ('A\tB', 'a\tB', 0), ('A\tB', 'A\tB\r', 1),
    ('A\tB', 'A\r\tB', 0), ('A\tB', 'A\tB\tA\tB', 2), ('A\tB', 'A\t', 1), ('A\tB', '\tB', 0), ('A\tB', '0\t0', 0), ('A\tB', 'A,B', 0), ('A\tB', '', 0),
    ('A\tB', 'A\t0', 1), ('A\tB', '\tA\tB', 0), ('A\tB', 'A\t B', 1), ('A\tB', 'A\tB ', 1), ('A\tB', 'X\tB\tC', 0), ('A\tB', 'X', 0), ('A\tB', 'AB', 0),
    ('A\tB\tC', 'A\tC\tB', 1), ('A\tB\tC', 'B\tC\tA', 0), ('A\tB\tC', 'C\tB\tA', 0), ('A\tB\tC', 'A\tB', 2), ('A\tB\tC', 'A\tC', 1), ('A\tB\tC', 'A', 1),
    ('A\tB\tC', 'A\tB\tB', 2), ('A\tB\tC', 'A\tB\tC\tA', 3), ('A\tB\tC', 'A\tX\tY', 1), ('A\tB\tC', 'X\tB\tC\tD', 0), ('A\tB\tC', 'A\tX', 1),
    ('A\tB\tC', 'A\tX\tC\tD', 1), ('A\tB\tC', 'A\tB\tX\t', 2), ('A\tB\tC', 'A\tB\tC', None),
    ('events', 'events', None), ('events', 'Events', 0), ('events', 'events\tevents', 1), ('events', 'event', 0), ('events', '5', 0), ('events', 'events\r', 0),
    ('events', 'A', 0), ('events\tA', 'events', 1), ('events\tA', 'events\tA', None), ('A\tevents', 'events\tA', 0), ('A\tevents', 'A\tevents', None),
    ('A\tevents', 'A', 1), ('A\tevents', 'events', 0), ('dims', 'dims', None), ('dims\tA', 'dims\tA', None), ('dims\tA', 'A', 0), ('dims', 'dims\tdims', 1),
    ('ABCDEFGHIJKLMNOP', 'ABCDEFGHIJKLMNOP', None), ('ABCDEFGHIJKLMNOP', 'ABCDEFGHIJKLMNOQ', 0), ('ABCDEFGHIJKLMNOP', 'ABCDEFGHIJKLMNO', 0),
    ('ABCDEFGHIJKLMNO', 'ABCDEFGHIJKLMNOP', 0), ('ABCDEFGHIJKLMNOP', 'BBCDEFGHIJKLMNOP', 0), ('FSC-A\tFSC-H', 'FSC-A\tFSC_H', 1), ('FSC\tSSC', 'FSC\tSSC-H', 1),
    ('FSC\tSSC', 'FS\tSSC', 0), ('FSC\tSSC', 'fsc\tssc', 0), ('a\tA', 'A\ta', 0), ('a\tA', 'a\ta', 1), ('a\tA', 'a\tA', None), ('a\tA', 'A\tA', 0),
    ('A\tB\tC\tD\tE\tF\tG\tH', 'A\tB\tC\tD\tE\tF\tG\tH', None), ('A\tB\tC\tD\tE\tF\tG\tH', 'A\tB\tC\tD\tE\tF\tG\tX', 7),
    ('A\tB\tC\tD\tE\tF\tG\tH', 'A\tB\tC\tD\tE\tF\tG', 7), ('A\tB\tC\tD\tE\tF\tG\tH', 'A\tB\tC\tD\tE\tF\tG\tH\tI', 8),
    ('A\tB\tC\tD\tE\tF\tG\tH', 'A\tB\tC\tD\tE\tF\tH\tG', 6), ('A\tB\tC\tD\tE\tF\tG\tH', 'A\tB\tC\tX\tE\tY\tG\tH', 3))


def column_table(rng):
    """A small table, often with names that are alike, or with `events` as its only dimension."""
    style = rng.random()
    table = Table(rng, n=1 if style < 0.1 else rng.choice((1, 2, 2, 3, 3, 4, 8)))
    if style < 0.1:
        table.dimensions = [b'events']
    elif style < 0.5:
        table.dimensions = rng.sample(ALIKE_NAMES, table.n)
    return table.fill(rng.choice((0, 1, 1, 2, 3))).mix()


def other_order(rng, names):
    """The same names in another order, where there is one."""
    mixed = rng.sample(names, len(names))
    return rng.choice((mixed, names[::-1], names[1:] + names[:1], names[1::-1] + names[2:], names[:-2] + names[-2:][::-1], sorted(names)))


def one_changed(rng, names):
    """One name changed by a byte or a few, or another in its place."""
    at = rng.choice((0, len(names) - 1, rng.randrange(len(names))))
    name = names[at]
    other = rng.choice((name.swapcase(), name[:-1], name[1:], name + rng.choice((b'1', b'x', b'-', b'_', b'\r', b'\x00', b' ', b':single')),
                        rng.choice((b' ', b'!', b'\x00', b'\xff', b'"', b'-')) + name, rng.choice(ALIKE_NAMES), b'nope', b'', b'*', b'0', b'"%s"' % name))
    return names[:at] + [other] + names[at + 1:]


def one_more(rng, names):
    """A field more at the end, which may be empty, or one of the names twice."""
    if rng.random() < 0.3:
        at = rng.randrange(len(names))
        return names[:at + 1] + names[at:]
    return names + rng.choice(([b''], [b''], [b'', b''], [rng.choice(names)], [names[-1]], [b'X'], [b'0'], [b'events'], names, [b''] * 8, [b'\r']))


def one_less(rng, names):
    """The beginning of the names, or one of them left out."""
    at = rng.randrange(len(names))
    return names[:at] if rng.random() < 0.7 else names[:at] + names[at + 1:]


# Column lines that are not right, unless the names happen to make them so: by the table.
WRONG_LINES = (
    lambda table: b'\t'.join(one_changed(table.rng, table.dimensions)), lambda table: b'\t'.join(other_order(table.rng, table.dimensions)),
    lambda table: b'\t'.join(one_less(table.rng, table.dimensions)), lambda table: b'\t'.join(one_more(table.rng, table.dimensions)),
    lambda table: table.columns() + b'\t', lambda table: table.columns() + b'\r', lambda table: b'', lambda table: event_lines([table.event()])[0],
    lambda table: b'events', lambda table: table.columns().swapcase(), lambda table: b'\t' + table.columns(), lambda table: b' ' + table.columns(),
    lambda table: table.columns() + b' ', lambda table: table.columns().replace(b'\t', b' '), lambda table: table.columns().replace(b'\t', b'\t\t'),
    lambda table: table.columns().replace(b'\t', b','), lambda table: table.head(), lambda table: b'\t' * (table.n - 1),
    lambda table: table.columns().lower(), lambda table: table.columns().replace(b'\t', b'\r\t') + b'\r')


def wrong_line(table, style=None):
    """A column line that isn't right."""
    line = table.rng.choice(WRONG_LINES)(table) if style is None else WRONG_LINES[style](table)
    while line == table.columns():
        line = table.rng.choice(WRONG_LINES)(table)
    return line


def differing(line, table):
    """The first field, from 0, at which a column line that isn't right differs."""
    pairs = zip(line.split(b'\t'), table.dimensions)
    return next((place for place, (field, name) in enumerate(pairs) if field != name), min(line.count(b'\t') + 1, table.n))


def some_events(table):
    return join(event_lines(table.events(table.rng.choice((0, 0, 1, 2, 4)))))


def case_wrong_columns(rng, style=None):
    """A wrong column line; good events, bad ones or none behind it, or not even its LF."""
    table = column_table(rng)
    line = wrong_line(table, style)
    behind = rng.choice((b'\n' + some_events(table), b'\n' + some_events(table), b'\n' + bad_list(table), b'\n' + with_events(table, 1), b''))
    return Case('wrong columns', table.bytes() + b'events\n' + line + behind, (31,), place=differing(line, table))


def list_below(names, line, rng):
    """A list with this column line, which has its LF, and a few events."""
    event = b'\t'.join([rng.choice((b'0', b'5', b'70000')) for _ in names.split('\t')])
    return join([b'events', line.encode()] + [event] * rng.randint(0, 2))


def case_column_line(rng, given=None):
    """One of the column lines worked out by hand."""
    names, line, place = given or rng.choice(COLUMN_LINES)
    head = ('dims\t%s\n' % names).encode()
    return Case('column line', head + list_below(names, line, rng), (0 if place is None else 31,), place=place)


def case_long_columns(rng, size=None):
    """The right line and very much behind it, or a long field in it: over 65,536 bytes in all now and then."""
    table = column_table(rng)
    at, size = rng.randrange(table.n), size or rng.choice((256, 5000, 40000, 66000))
    names, longer = table.dimensions, table.dimensions[at] * (1 + size // len(table.dimensions[at]))
    fields = rng.choice((names + [b''] * size, names + [b'x' * size], names + names[:1] * (1 + size // len(names[0])), names[:at] + [longer] + names[at + 1:]))
    line = b'\t'.join(fields)
    data = table.bytes() + b'events\n' + line + b'\n' + some_events(table)
    if len(data) > 65536:
        return Case('too long column line', data, (1,), place=0)
    return Case('long column line', data, (31,), place=differing(line, table))


def case_columns(rng, style=None):
    """Column lines that are missing, open or right with something else wrong behind them."""
    table = column_table(rng)
    data, place = table.bytes(), len(table.lines) + 3       # that of the column line
    style = rng.randrange(7) if style is None else style
    if style == 0:
        return Case('columns missing', data + b'events\n', (31,), place=0)
    if style == 1:
        return Case('columns open', data + opened(table)[:-1], (23,), place=place)
    if style == 2:
        return Case('events open', data + b'events', (23,), place=place - 1)
    if style == 3:
        return Case('columns twice', data + opened(table) + table.columns() + b'\n' + some_events(table), (23,), place=place + 1)
    data += with_events(table, rng.randint(0, 3))
    place = data.count(b'\n') + 1
    if style == 4:
        behind = rng.choice((b'events', b'events\n', opened(table), opened(table)[:-1], b'events\n' + wrong_line(table) + b'\n'))
        return Case('events twice', data + behind, (23,), place=place)
    if style == 5:
        return Case('bad line below columns', data + bad_line(rng, event_lines(table.events(1))[0], table.n) + b'\n' + some_events(table), (23,), place=place)
    return accepted('right columns', table, rng.randint(0, 4))


REFUSED_TABLES = (case_twin, case_dead, case_circle, case_crowded, case_head, lambda rng: case_plan_size(rng, 4097), lambda rng: case_table_size(rng, 32769))


def case_table_and_columns(rng, given=None):
    """A table that is refused, and a wrong column line behind it, which isn't told of."""
    given = given or rng.choice((case_one_fault, case_many_faults, case_twin, case_dead, case_circle, case_crowded, case_head))(rng)
    line = rng.choice((b'', b'events', b'nope', b'A', b'A\tB\tC\tD\tE\tF\tG\tH\tI'))
    behind = rng.choice((b'', b'\n', b'\n0\n', b'\nx\n'))
    return Case('table and columns bad', gates.part_input(given.data)[0] + b'events\n' + line + behind, given.refusals, place=given.place)


def case_called_events(rng, style=None):
    """`events` as the only dimension: the right column line is `events` too."""
    table = Table(rng, n=1)
    table.dimensions = [b'events']
    data = table.fill(rng.choice((0, 1, 2))).mix().bytes()
    style = rng.randrange(6) if style is None else style
    if style < 2:
        return accepted('columns called events', table, rng.randint(0, 3))
    if style == 2:
        return Case('columns called events, missing', data + b'events\n', (31,), place=0)
    if style == 3:
        return Case('columns called events, open', data + b'events\nevents', (23,), place=len(table.lines) + 3)
    if style == 4:
        return Case('columns called events, left out', data + b'events\n' + join(event_lines(table.events(rng.randint(1, 3)))), (31,), place=0)
    return Case('events thrice', data + b'events\n' * rng.choice((3, 3, 4, 5)) + rng.choice((b'', b'5\n')), (23,), place=len(table.lines) + 4)


FAMILIES = ((140, case_small), (90, case_referring), (110, case_outlines), (60, case_quadrants),
            (14, case_chain), (10, case_full), (6, case_wide), (50, case_far), (70, case_bad_list),
            (50, case_list_forms), (25, case_head), (8, case_open_table), (130, case_one_fault),
            (50, case_many_faults), (55, case_rough_table), (30, case_rough_input),
            (10, case_crowded), (3, case_crowded_then_bad), (30, case_twin), (30, case_dead), (40, case_circle),
            (7, case_plan_size), (3, case_polygons), (4, case_table_size), (4, case_long_number),
            (5, case_input_size), (3, case_long_table_part), (40, case_many_events), (90, case_decimals), (15, case_decimal_line),
            (5, case_decimal_event), (35, case_long_outlines), (90, case_ellipsoids), (10, case_ellip3_line), (15, case_bad_ellipsoid),
            (120, case_wrong_columns), (60, case_columns), (25, case_table_and_columns), (15, case_called_events), (8, case_long_columns),
            (15, case_column_line))

# The limits of size and one of each refusal stand at the beginning of every run, so that
# none is left to chance; so does each number of vertices.
FIRST = ([lambda rng, size=size: case_table_size(rng, size) for size in (32767, 32768, 32769)]
         + [lambda rng, size=size: case_long_number(rng, size) for size in (32768, 32769)]
         + [lambda rng, size=size: case_input_size(rng, size) for size in (65535, 65536, 65537)]
         + [lambda rng, words=words: case_plan_size(rng, words) for words in range(4090, 4101)]
         + [lambda rng, vertices=vertices: case_polygons(rng, vertices) for vertices in (2022, 2023, 2024)]
         + [lambda rng, number=number: case_one_fault(rng, number) for number in range(4, 13)]
         + [lambda rng, style=style: case_list_forms(rng, style) for style in range(10)]
         + [lambda rng, given=given: case_decimal_line(rng, given) for given in DECIMAL_LINES]
         + [lambda rng, line=line: case_point_elsewhere(rng, line) for line in POINTS_ELSEWHERE]
         + [lambda rng, given=given: case_ellip3_line(rng, given) for given in ELLIP3_LINES]
         + [lambda rng, sizes=sizes: case_long_outlines(rng, sizes) for sizes in long_outlines.TURNS]
         + [lambda rng, given=given: case_column_line(rng, given) for given in COLUMN_LINES]
         + [lambda rng, style=style: case_wrong_columns(rng, style) for style in range(len(WRONG_LINES))]
         + [lambda rng, style=style: case_columns(rng, style) for style in range(7)]
         + [lambda rng, style=style: case_called_events(rng, style) for style in range(1, 6)]
         + [lambda rng, number=number: case_table_and_columns(rng, case_one_fault(rng, number)) for number in range(4, 13)]
         + [lambda rng, maker=maker: case_table_and_columns(rng, maker(rng)) for maker in REFUSED_TABLES]
         + [lambda rng, size=size: case_long_columns(rng, size) for size in (256, 256, 40000, 66000, 66000)]
         + [case_crowded, case_crowded_then_bad, case_full, case_twin, case_dead, case_circle,
            case_open_table, case_head, case_long_table_part, case_decimal_event])
_WEIGHTS = [weight for weight, _ in FAMILIES]
_MAKERS = [maker for _, maker in FAMILIES]


def made(rng, number, first, makers, weights):
    """What the maker of this number makes: the fixed ones come first, then any by their weights."""
    return (first[number] if number < len(first) else rng.choices(makers, weights)[0])(rng)


def case(seed, number):
    """The standard input with this number of the run with this seed."""
    return made(random.Random('%s input %d' % (seed, number)), number, FIRST, _MAKERS, _WEIGHTS)


def judged(seed, number):
    """Head and gate lines of an accepted table, and events, many of them on outlines."""
    rng = random.Random('%s judged %d' % (seed, number))
    table = rng.choice((outline_table, outline_table, outline_table, referring_table, small_table))(rng)
    return [table.head()] + [line.bytes() for line in table.lines], table.events(4)


def orders(rng, lines, k):
    """Up to k other orders of the gate lines below line 1, as tables."""
    head, gate_lines = lines[0], lines[1:]
    tables = []
    for turn in range(k):
        mixed = list(gate_lines)
        if turn == 0:
            mixed.reverse()
        else:
            rng.shuffle(mixed)
        if mixed != gate_lines:
            tables.append(join([head] + mixed))
    return tables


# ---------------------------------------------------------------- inputs with several lists

BAD_LINES = (b'', b'\t', b'events\r', b'events\t', b' events', b'events ', b'Events', b'events\x00', b'events\tevents', b'event', b'eventss', b'taken',
             b'events\t1', b'1\tevents', b'dims\tA', b'rect\tX\t-\tA\t0\t1')


def kin_table(rng):
    """Boxes and quadrants in one another, some of them in no parent: shares of many kinds."""
    table = Table(rng, n=rng.choice((1, 2, 3)), span=rng.choice(((-5, 5), (-5, 5), (-20, 20))))
    table.most = 40
    for _ in range(rng.randint(1, 3)):
        table.parents = 0.0 if rng.random() < 0.2 else 0.9
        line = table.rect()
        if rng.random() < 0.7:      # a wide one has members for its children
            line.fields[4:6] = [b'*', rng.choice((b'*', b'4'))]
        rng.choice((table.rect, table.quad, table.quad, table.gate))()
    return table.mix()


def sheet_table(rng):
    makers = (kin_table, small_table, referring_table, outline_table, chain_table, full_table)
    return rng.choices(makers, (12, 8, 6, 3, 1, 1))[0](rng)


def list_counts(rng):
    """The number of events of each list: no list to a dozen, some of them empty."""
    return [rng.choice((0, 0, 1, 1, 2, 3, 5, 8)) for _ in range(rng.choice((0, 1, 1, 2, 2, 2, 3, 3, 3, 4, 5, 8, 12)))]


def sheet_few(rng):
    return accepted_sheet('few lists', sheet_table(rng), list_counts(rng), orders=rng.random() < 0.2)


def sheet_kin(rng):
    return accepted_sheet('shares', kin_table(rng), [rng.choice((0, 3, 6, 12)) for _ in range(rng.randint(1, 4))], orders=rng.random() < 0.25)


def sheet_claims(rng, regions=None):
    """Events that are members of no region, of one alone, of several; in no list to six of them."""
    counts = [rng.choice((0, 1, 2, 4, 8, 12)) for _ in range(rng.choice((0, 1, 1, 2, 2, 3, 4, 6)))]
    return accepted_sheet('unclaimed', claim_table(rng, regions), counts, orders=rng.random() < 0.2)


def sheet_empty(rng):
    """Lists without events: the first, the last, both, all, every other."""
    lists = rng.randint(1, 6)
    counts = [rng.randint(1, 4) for _ in range(lists)]
    for empty in rng.choice(([0], [-1], [0, -1], range(lists), range(0, lists, 2), range(1, lists, 2))):
        counts[empty] = 0
    return accepted_sheet('empty lists', sheet_table(rng), counts, orders=rng.random() < 0.1)


def sheet_many_lists(rng, lists=None):
    """Lists of few events, somewhat more or less than a few times 64 or a few hundred."""
    lists = lists or rng.choice((many(rng), 255, 256, 257, 300))
    return accepted_sheet('many lists', rng.choice((kin_table, small_table))(rng), [rng.choice((0, 0, 1, 1, 2)) for _ in range(lists)])


def sheet_long_lists(rng):
    """Lists of somewhat more or less than a few times 64 events."""
    return accepted_sheet('long lists', rng.choice((kin_table, small_table))(rng), [many(rng) for _ in range(rng.randint(1, 4))])


def sheet_far(rng):
    """Numbers beyond 32 bits, and lists of spoilt events alone."""
    table = sheet_table(rng)
    lists = [rng.choice((far_list(table), far_list(table), b'', join([b'\t'.join([b'70000'] * table.n)] * 2))) for _ in range(rng.randint(1, 5))]
    return Case('far numbers in lists', table.bytes() + b''.join([opened(table) + each for each in lists]), (0,))


def bad_line(rng, line, n):
    """A line that isn't n numbers, nor the line `events`."""
    fields = line.split(b'\t')
    style = rng.randrange(6)
    if style == 0:
        return b'\t'.join(fields[1:])
    if style == 1:
        return b'\t'.join(fields + [rng.choice((b'0', b'7', b'9' * 40, b''))])
    if style == 2:
        return rng.choice(BAD_LINES)
    if style == 3:
        return line + rng.choice((b'\r', b' ', b'\t', b'\x00'))
    fields[rng.randrange(n)] = rng.choice([field for field in BAD_EVENTS if field != b'events' or n > 1])
    return b'\t'.join(fields)


def bad_lists(table):
    """Several lists with one to three bad lines, and the lowest of these, counted from 1 at the first line `events`."""
    rng = table.rng
    lines, places = [], []
    for count in [rng.choice((0, 1, 1, 2, 3, 5)) for _ in range(rng.choice((0, 1, 2, 2, 3, 5)))] + [rng.randint(1, 3)]:
        lines += [b'events', table.columns()] + event_lines(table.events(count))
        places += range(len(lines) - count, len(lines))
    chosen = rng.sample(places, min(len(places), rng.choice((1, 1, 2, 2, 3))))
    for at in chosen:
        lines[at] = bad_line(rng, lines[at], table.n)
    last = b'\n' if rng.random() < 0.9 else b''
    if not last and not lines[-1]:      # nothing behind the last LF is no line
        last = b'\n'
    return b'\n'.join(lines) + last, min(chosen) + 1


def sheet_bad_lines(rng):
    table = sheet_table(rng)
    lists, place = bad_lists(table)
    return Case('bad lines in lists', table.bytes() + lists, (23,), place=len(table.lines) + 1 + place)


def sheet_late_bad_line(rng):
    """All lists are good but the last, whose last line is bad."""
    table = rng.choice((kin_table, small_table))(rng)
    data = table.bytes() + b''.join([with_events(table, rng.randint(0, 3)) for _ in range(rng.choice((1, 2, 3, 40)))])
    data += with_events(table, rng.choice((0, 0, 2))) + bad_line(rng, event_lines(table.events(1))[0], table.n) + b'\n'
    return Case('bad line at the end', data, (23,), place=data.count(b'\n'))


def sheet_broken(rng, style=None):
    """Good numbers of the right number in all, but not by lines: two events on a line, one on two lines or in two lists."""
    table = rng.choice((kin_table, small_table))(rng)
    style = rng.randrange(3) if style is None else style
    data = table.bytes() + b''.join([with_events(table, rng.randint(0, 2)) for _ in range(rng.randint(0, 2))]) + with_events(table, rng.randint(0, 2))
    one, other = event_lines(table.events(2))
    place = data.count(b'\n') + 1
    if style == 0 or table.n == 1:
        data += one + b'\t' + other + b'\n'
    else:
        fields, cut = one.split(b'\t'), rng.randrange(1, table.n)
        data += join([b'\t'.join(fields[:cut])] + [b'events', table.columns()] * (style == 2) + [b'\t'.join(fields[cut:])])
    return Case('broken event', data + rng.choice((b'', with_events(table, 1))), (23,), place=place)


def sheet_open(rng, style=None):
    """The last line of several lists without LF: an event, `events` or the column line."""
    table = sheet_table(rng)
    data = table.bytes() + b''.join([with_events(table, rng.randint(0, 3)) for _ in range(rng.randint(0, 3))])
    style = rng.randrange(4) if style is None else style
    data += (b'events', with_events(table, 0) + b'events', with_events(table, rng.randint(1, 3))[:-1], opened(table)[:-1])[style]
    return Case('lists open', data, (23,), place=data.count(b'\n') + 1)


CHANGED_EVENTS = (b'events\r\n', b'events\t\n', b' events\n', b'Events\n', b'events \n', b'events\x00\n')


def sheet_forms(rng, style=None, changed=None):
    """Lines `events` that are missing, changed, alone or one after the other."""
    table = sheet_table(rng)
    data, first, second = table.bytes(), with_events(table, 2), with_events(table, 1)
    changed = changed or rng.choice(CHANGED_EVENTS)
    style = rng.randrange(9) if style is None else style
    if style == 0:
        return Case('no list', data, (0,))
    if style == 1:
        return Case('no list, open', data[:-1], (2,))
    if style == 2:
        return Case('events changed before the lists', data + changed + first + second, (4,), place=len(table.lines) + 2)
    if style == 3:
        return Case('events changed behind a list', data + first + changed + second, (23,), place=len(table.lines) + 6)
    if style == 4:
        return Case('no table', b''.join((b'events\n', first, second)[rng.randrange(3):]), (2,), place=0)
    if style == 5:
        return Case('lists one after the other', data + opened(table) * rng.randint(1, 5) + rng.choice((b'', first)), (0,))
    if style == 6:
        return Case('empty line behind a list', data + first + b'\n' + second, (23,), place=len(table.lines) + 6)
    if style == 7:
        return Case('table behind a list', data + first + data + second, (23,), place=len(table.lines) + 6)
    return Case('tiny input with lists', rng.choice((
        b'events\nevents', b'events\nevents\n', b'dims\tA\nevents\nA\nevents', b'dims\tA\nevents\nA\nevents\nA\n',
        b'dims\tA\nevents\nA\n1\nevents\nA\n2', b'dims\tA\nevents\nA\n1\nevents\nA\n\n', b'dims\tA\nevents\nA\n\nevents\nA\n',
        b'dims\tA\n\nevents\nA\nevents\nA\n', b'dims\tevents\nevents\nevents\n5\n', b'dims\tA\nevents\nA\nevents\revents\n',
        b'dims\tA\nevents\nA\nevents\nA\n1\t2\nevents\nA\nx\n', b'dims\tevents\nevents\nevents\nevents\nevents\n')))


def sheet_of_case(rng, given=None):
    """An input of `gatecount` as it is, or with further lists behind it."""
    given = given or rng.choices(_MAKERS, _WEIGHTS)[0](rng)
    data, refusals, place = given.data, given.refusals, given.place
    columns = data.split(b'\n')[0].partition(b'\t')[2]
    # A second `events` opens a list here; and one that is put behind a last line `events` is its column line, which may be right or differ later.
    if given.label in ('events twice', 'events thrice') or columns.split(b'\t')[0] == b'events':
        refusals = place = None
    if data[-1:] == b'\n' and rng.random() < 0.8:
        lines = [line for line in gates.part_input(data)[1][1:] if line != b'events\n']
        for _ in range(rng.choice((1, 1, 2, 3))):
            data += join([b'events', columns]) + b''.join(rng.sample(lines, min(len(lines), rng.choice((0, 1, 3)))))
        if len(data) > 65536:
            return Case(given.label + ' with lists', data, (1,), place=0)
    return Case(given.label + ' with lists', data, refusals, place=place)


def sheet_table_first(rng, given=None):
    """A table that is refused, and bad lists behind it, which aren't told of."""
    given = given or rng.choice((case_one_fault, case_many_faults, case_twin, case_dead, case_circle, case_crowded, case_head))(rng)
    table = gates.part_input(given.data)[0]
    return Case('table and lists bad', table + bad_lists(small_table(rng))[0], given.refusals, place=given.place)


def sheet_rough(rng):
    """Bytes or fields of table and lists changed without a thought."""
    table = small_table(rng)
    return Case('rough lists', rough_damage(rng, table.bytes() + b''.join([with_events(table, count) for count in list_counts(rng)])))


def sheet_rough_lists(rng):
    """The same of the lists alone: a line `events` may be lost, doubled or spoilt."""
    table = small_table(rng)
    lists = b''.join([with_events(table, rng.randint(0, 3)) for _ in range(rng.randint(1, 4))])
    return Case('rough lists', table.bytes() + opened(table) + rough_damage(rng, lists))


def sheet_size(rng, size=None):
    """Inputs of 65,536 bytes and one more, in several lists of long numbers and short ones."""
    size = size or rng.choice((65535, 65536, 65537, 32768, 32769, 40000))
    table = rng.choice((kin_table, small_table))(rng)
    data = table.bytes() + with_events(table, 3) + with_events(table, 2)
    rest = b'\t0' * (table.n - 1) + b'\n'
    while size - len(data) > 9000:
        data += rng.choice((b'', opened(table))) + b'8' * rng.randint(2000, 8000) + rest
    data += b'7' * (size - len(data) - len(rest)) + rest
    return Case('lists of %d bytes' % size, data, (1 if size > 65536 else 0,))


def sheet_table_size(rng, size=None):
    size = size or rng.choice((32767, 32768, 32769))
    table = byte_size_table(rng, size)
    return Case('table of %d bytes with lists' % size, table.bytes() + with_events(table, 2) + with_events(table, 1), (1 if size > 32768 else 0,))


def sheet_long_table_part(rng):
    """A table part over its own limit; with its lists the input keeps to 65,536 bytes."""
    table = small_table(rng)
    data = table.bytes() + b'x' * 40000 + b'\n'
    return Case('long table and lists', data + with_events(table, 2) + with_events(table, 0), (1,), place=0)


def sheet_empty_lists(rng, lists=None):
    """The shortest head and so many empty lists: 7,281 of them are 65,536 bytes.  The last one has an event, if there is room."""
    lists = lists or rng.choice((500, 1000, 4096))
    data = b'dims\tA\n' + b'events\nA\n' * lists
    data += b'0\n' * (len(data) <= 65534)
    return Case('%d lists' % lists, data, (1 if len(data) > 65536 else 0,))


def sheet_last_columns(rng, lists=7281):
    """As many lists as fit, and the last column line alone is wrong or open."""
    line, number, place = rng.choice(((b'B\n', 31, 0), (b'a\n', 31, 0), (b'\n', 31, 0), (b'', 31, 0), (b'A\t', 31, 1), (b'A', 23, 2 * lists + 1)))
    data = b'dims\tA\n' + b'events\nA\n' * (lists - 1) + b'events\n' + line
    if len(data) > 65536:
        number, place = 1, 0
    return Case('last of %d lists' % lists, data, (number,), place=place)


def sheet_widest(rng, size=65536):
    """64 regions and as many lists as fit: the longest output."""
    table = Table(rng, n=1, span=(0, 9))
    table.dimensions = [b'A']
    names = list(LETTERS[:52]) + ['A%d' % k for k in range(10)] + ['B0', 'B1']
    table.name = lambda: names.pop(0).encode()
    table.rect()
    while len(table.regions) < 64:
        table.combination(b'not', 1)
    data = table.mix().bytes()
    while size - len(data) >= 11:
        data += opened(table) + rng.choice((b'', b'', b'%d\n' % rng.randint(0, 9)))
    return Case('64 regions, many lists', data, (0,))


def sheet_fullest(rng, lists=3):
    """As many events as fit, in a few lists."""
    table = Table(rng, n=1, span=(0, 9))
    table.dimensions = [b'A']
    table.rect()
    table.rect().fields[2] = table.regions[0]
    data = table.bytes()
    for left in range(lists, 0, -1):
        count = (65536 - len(data) - 9 * left) // (2 * left)
        data += opened(table) + b''.join([b'%d\n' % rng.randint(0, 9) for _ in range(count)])
    return Case('most events', data, (0,))


def wrong_list(table, style=None):
    """A list with a wrong column line, and the place of that."""
    line = wrong_line(table, style)
    return b'events\n' + line + b'\n' + some_events(table), differing(line, table)


def good_lists(table, least=0):
    return [opened(table) + some_events(table) for _ in range(least + table.rng.choice((0, 0, 1, 1, 2, 4)))]


def sheet_wrong_columns(rng, style=None):
    """One column line wrong, or several, of which the first is told of; events may be bad before it and behind it."""
    table = column_table(rng)
    (first, place), behind = wrong_list(table, style), good_lists(table)
    before = good_lists(table, least=rng.choice((0, 1)))
    for lists, most in ((before, 0.5), (behind, 0.3)):
        if lists and rng.random() < most:
            lists[rng.randrange(len(lists))] += bad_line(rng, event_lines(table.events(1))[0], table.n) + b'\n'
    for _ in range(rng.choice((0, 1, 1, 2))):
        behind.insert(rng.randint(0, len(behind)), wrong_list(table)[0])
    end = rng.choice((b'', b'', b'', b'events', b'events\n', opened(table)[:-1], b'events\nnope', b'x'))
    return Case('wrong columns of a list', table.bytes() + b''.join(before + [first] + behind) + end, (31,), place=place)


def sheet_column_line(rng, given=None):
    """One of the column lines worked out by hand, in one of several lists."""
    names, line, place = given or rng.choice(COLUMN_LINES)
    head, lists = ('dims\t%s\n' % names).encode(), [list_below(names, names, rng) for _ in range(rng.randint(0, 3))]
    lists.insert(rng.randint(0, len(lists)), list_below(names, line, rng))
    return Case('column line of a list', head + b''.join(lists), (0 if place is None else 31,), place=place)


def sheet_columns(rng, style=None):
    """The last column line missing or open, or `events` open there; events may be bad before it."""
    table = column_table(rng)
    lists = good_lists(table)
    bad = rng.random() < 0.3 and lists
    if bad:
        at = rng.randrange(len(lists))
        lists[at] += bad_line(rng, event_lines(table.events(1))[0], table.n) + b'\n'
    data = table.bytes() + b''.join(lists)
    line = (table.bytes() + b''.join(lists[:at + 1]) if bad else data + b'\n').count(b'\n')
    style = rng.randrange(5) if style is None else style
    if style == 0:
        return Case('columns of a list missing', data + b'events\n', (31,), place=0)
    if style == 1:
        return Case('columns of a list open', data + opened(table)[:-1], (23,), place=line if bad else line + 1)
    if style == 2:
        return Case('events of a list open', data + b'events', (23,), place=line)
    wrong = wrong_line(table)
    if style == 3:
        return Case('wrong columns of a list open', data + b'events\n' + wrong, (31,), place=differing(wrong, table))
    if table.columns() == b'events':
        return Case('columns called events of a list, one more', data + opened(table) + b'events\n', (31,), place=0)
    return Case('columns for an event', data + opened(table) + table.columns() + b'\n', (23,), place=line if bad else line + 2)


def sheet_events_for_columns(rng):
    """`events` in the place of a column line: it opens no list."""
    table = column_table(rng)
    while table.dimensions == [b'events']:
        table = column_table(rng)
    data = table.bytes() + b''.join(good_lists(table)) + b'events\n' * rng.randint(2, 5) + rng.choice((b'', table.columns() + b'\n' + some_events(table)))
    return Case('events for columns', data, (31,), place=differing(b'events', table))


def sheet_called_events(rng, style=None):
    """`events` as the only dimension: every other line `events` is a column line."""
    table = Table(rng, n=1)
    table.dimensions = [b'events']
    table.fill(rng.choice((0, 1, 2))).mix()
    data = table.bytes() + b''.join(good_lists(table, least=1))
    style = rng.randrange(4) if style is None else style
    if style == 0:
        return Case('columns of lists called events', data, (0,))
    if style == 1:
        return Case('columns of lists called events, missing', data + b'events\n', (31,), place=0)
    if style == 2:
        return Case('columns of lists called events, open', data + rng.choice((b'events\nevents', b'events')), (23,))
    return Case('columns of lists called events, left out', data + b'events\n5\n' + rng.choice((b'', opened(table))), (31,), place=0)


def sheet_table_and_columns(rng):
    """A table that is refused, and lists with wrong column lines behind it, which aren't told of."""
    given = case_table_and_columns(rng)
    other = column_table(rng)
    return Case('table and columns of lists bad', gates.part_input(given.data)[0] + b''.join(good_lists(other) + [wrong_list(other)[0]]),
                given.refusals, place=given.place)


SHEETS = ((140, sheet_few), (160, sheet_kin), (70, sheet_empty), (12, sheet_many_lists), (25, sheet_long_lists), (40, sheet_far), (110, sheet_bad_lines),
          (30, sheet_late_bad_line), (12, sheet_broken), (30, sheet_open), (60, sheet_forms), (150, sheet_of_case), (60, sheet_table_first), (30, sheet_rough),
          (40, sheet_rough_lists), (5, sheet_size), (2, sheet_table_size), (2, sheet_long_table_part), (2, sheet_empty_lists), (90, sheet_claims),
          (160, sheet_wrong_columns), (60, sheet_columns), (15, sheet_events_for_columns), (20, sheet_called_events), (25, sheet_table_and_columns),
          (15, sheet_column_line), (1, sheet_last_columns))

# The forms of lists, one of each refusal and the limits of size stand at the beginning.
FIRST_SHEETS = ([lambda rng, style=style: sheet_forms(rng, style) for style in (*range(9), 8, 8, 8)]
                + [lambda rng, style=style, changed=changed: sheet_forms(rng, style, changed) for style in (2, 3) for changed in CHANGED_EVENTS]
                + [lambda rng, style=style: sheet_open(rng, style) for style in range(4)]
                + [lambda rng, given=given: sheet_column_line(rng, given) for given in COLUMN_LINES]
                + [lambda rng, style=style: sheet_wrong_columns(rng, style) for style in range(len(WRONG_LINES))]
                + [lambda rng, style=style: sheet_columns(rng, style) for style in (*range(5), *range(5))]
                + [lambda rng, style=style: sheet_called_events(rng, style) for style in (0, 0, 1, 2, 2, 3)] + [sheet_events_for_columns] * 3
                + [lambda rng, number=number: sheet_of_case(rng, case_table_and_columns(rng, case_one_fault(rng, number))) for number in range(4, 13)]
                + [lambda rng, maker=maker: sheet_of_case(rng, case_table_and_columns(rng, maker(rng))) for maker in REFUSED_TABLES]
                + [lambda rng, style=style: sheet_broken(rng, style) for style in (0, 1, 1, 2, 2)]
                + [sheet_kin] * 10 + [sheet_empty] * 6 + [sheet_bad_lines] * 6 + [sheet_late_bad_line] * 2
                + [lambda rng, lists=lists: sheet_many_lists(rng, lists) for lists in (63, 64, 65, 128, 256, 257)]
                + [lambda rng, number=number: sheet_of_case(rng, case_one_fault(rng, number)) for number in range(4, 13)]
                + [lambda rng, number=number: sheet_table_first(rng, case_one_fault(rng, number)) for number in range(4, 13)]
                + [lambda rng, maker=maker: sheet_of_case(rng, maker(rng)) for maker in (
                    case_crowded, case_crowded_then_bad, case_full, case_twin, case_dead, case_circle, case_open_table, case_head, case_long_table_part)]
                + [lambda rng, words=words: sheet_of_case(rng, case_plan_size(rng, words)) for words in (4096, 4097)]
                + [lambda rng, size=size: sheet_size(rng, size) for size in (32768, 32769, 65535, 65536, 65537)]
                + [lambda rng, size=size: sheet_table_size(rng, size) for size in (32767, 32768, 32769)] + [sheet_long_table_part]
                + [lambda rng, lists=lists: sheet_empty_lists(rng, lists) for lists in (1000, 7280, 7281, 7282)]
                + [sheet_last_columns] * 3 + [lambda rng: sheet_last_columns(rng, 7282)] * 2
                + [sheet_widest, sheet_fullest, lambda rng: sheet_fullest(rng, 1)]
                + [lambda rng, regions=regions: sheet_claims(rng, regions) for regions in (0, 0, 0, 1, 2, 3, 31, 32, 33, 54, 63, 64, 64, 64)])
_SHEET_WEIGHTS = [weight for weight, _ in SHEETS]
_SHEET_MAKERS = [maker for _, maker in SHEETS]


def sheet(seed, number):
    """The standard input of `gatesheet` with this number of the run with this seed."""
    return made(random.Random('%s sheet %d' % (seed, number)), number, FIRST_SHEETS, _SHEET_MAKERS, _SHEET_WEIGHTS)


# ---------------------------------------------------------------- plans

# The last four words of an ellipse, by its kind.
ELLIPSE_ROLES = {3: ('c11', 'c12', 'c22', 'd2'), 7: ('decimal c11', 'decimal c12', 'decimal c22', 'decimal d2')}
# The last seven of an ellipsoid.
ELLIPSOID_ROLES = ('c11 of 3', 'c12 of 3', 'c13 of 3', 'c22 of 3', 'c23 of 3', 'c33 of 3', 'd2 of 3')


class Plan:
    """Words of a valid plan with the role of each, so that each role can be damaged."""

    def __init__(self, rng, steps=None):
        self.rng = rng
        self.words, self.roles = [], []
        self.n = rng.choice((1, 2, 2, 3, 3, 4, 8))
        steps = rng.choice((0, 1, 1, 2, 3, 3, 4, 6, 10)) if steps is None else steps
        # Any order of regions is good aboard.
        order = list(range(steps))
        rng.shuffle(order)
        self.points = []
        self.add('n', self.n)
        self.add('steps', steps)
        self.starts = []
        earlier = []
        for region in order:
            self.starts.append(len(self.words))
            self.step(region, earlier)
            earlier.append(region)

    def add(self, role, word):
        self.roles.append(role)
        self.words.append(word)

    def value(self):
        rng = self.rng
        if rng.random() < 0.2:
            return rng.choice(LIMITS)
        return rng.randint(-9, 9)

    def step(self, region, earlier):
        rng = self.rng
        kinds = [1, 1, 1, 1]
        if self.n > 1:
            kinds += [2, 2, 3, 3, 3, 7, 7, 7]
        if self.n > 2:
            kinds += [8, 8, 8]
        if earlier:
            kinds += [4, 5, 6] * 2
        kind = rng.choice(kinds)
        self.add('kind', kind)
        self.add('region', region)
        self.add('parent', rng.choice(earlier) if earlier and rng.random() < 0.5 else -1)
        if kind == 1:
            chosen = rng.sample(range(self.n), rng.randint(1, self.n))
            self.add('length', 3 * len(chosen))
            for dimension in chosen:
                low, high = sorted((self.value(), self.value()))
                low, high = rng.choice(((low, high + 1), (low, high + 1), (low, high + 1), (-65536, 65536),
                                        (-65536, -65535), (65535, 65536)))
                self.add('dimension', dimension)
                self.add('min', low)
                self.add('max', high)
                self.points += [[(dimension, clip(low))], [(dimension, clip(high))], [(dimension, high - 1)]]
        elif kind == 2:
            first, second = rng.sample(range(self.n), 2)
            if rng.random() < 0.5:
                vertices = [(self.value(), self.value()) for _ in range(rng.choice((3, 3, 4, 5, 9)))]
            else:
                vertices = outline(rng, self.value)
            if rng.random() < 0.3:
                vertices *= 2
                self.points += [[(first, sum(x for x, _ in vertices) // len(vertices)),
                                 (second, sum(y for _, y in vertices) // len(vertices))]] * 4
            self.add('length', 2 + 2 * len(vertices))
            self.add('dimension', first)
            self.add('dimension', second)
            for x, y in vertices:
                self.add('vertex', x)
                self.add('vertex', y)
            for _ in range(6):
                x, y = near_outline(rng, vertices)
                self.points.append([(first, x), (second, y)])
        elif kind in (3, 7):
            first, second = rng.sample(range(self.n), 2)
            self.add('length', 8)
            self.add('dimension', first)
            self.add('dimension', second)
            if kind == 3:
                means, entries, d2, points = ellipse(rng, self.value, rng.choice((matrix, rim_matrix, odd_rim)))
            else:
                means, entries, d2, points = decimal_ellipse(rng, self.value)
            for mean in means:
                self.add('mean', mean)
            for role, word in zip(ELLIPSE_ROLES[kind], (*entries, d2)):
                self.add(role, word)
            self.points += [[(first, x), (second, y)] for x, y in points]
        elif kind == 8:
            chosen = rng.sample(range(self.n), 3)
            self.add('length', 13)
            for dimension in chosen:
                self.add('dimension', dimension)
            means, entries, d2, points = ellipsoid(rng, self.value)
            for mean in means:
                self.add('mean', mean)
            for role, word in zip(ELLIPSOID_ROLES, (*entries, d2)):
                self.add(role, word)
            self.points += [list(zip(chosen, point)) for point in points]
        else:
            size = 1 if kind == 6 else rng.choice((2, 2, 3, 5, 63 if rng.random() < 0.1 else 4))
            self.add('length', size)
            for _ in range(size):
                self.add('operand', 2 * rng.choice(earlier) + rng.randrange(2))

    def event(self):
        values = [self.value() for _ in range(self.n)]
        if self.points and self.rng.random() < 0.7:
            for dimension, value in self.rng.choice(self.points):
                values[dimension] = value
        return values


ODD_WORDS = (-2147483648, 2147483647, -65537, -65536, -65535, -2, -1, 0, 1, 2, 3, 4, 5, 6, 7, 8, 9, 12,
             13, 24, 25, 27, 63, 64, 65, 128, 514, 516, 4096, 4097, 65535, 65536, 65537, 16777216,
             16777217, -16777216, -16777217, 131072, 2000000000, 2000000001, -2000000000, -2000000001, 4096000, 4096001)

ROLES = ('n', 'steps', 'kind', 'region', 'parent', 'length', 'dimension', 'min', 'max', 'vertex',
         'mean', *ELLIPSE_ROLES[3], *ELLIPSE_ROLES[7], *ELLIPSOID_ROLES, 'operand')


def odd_word(rng, plan, words, at):
    """Something else for the word at a place, often what its role forbids."""
    role, style = plan.roles[at], rng.random()
    start = max([start for start in plan.starts if start <= at], default=0)
    if style < 0.5:
        if role == 'region':        # set earlier, perhaps
            return words[rng.choice(plan.starts) + 1] if plan.starts[-1] + 1 < len(words) else 0
        if role == 'parent':        # its own region, or one set later perhaps
            return rng.choice((plan.words[start + 1], rng.randrange(plan.words[1] + 1), -2))
        if role == 'operand':
            return rng.choice((2 * plan.words[start + 1], 2 * plan.words[start + 1] + 1, -1, -2,
                               2 * plan.words[1], rng.randrange(2 * plan.words[1])))
        if role == 'dimension':
            return rng.choice((plan.words[start + 4], plan.words[start + 4], plan.n, plan.n - 1, -1))
        if role == 'max':
            return rng.choice((words[at - 1], words[at - 1] - 1, -65536, 65537))
        if role == 'length':
            return words[at] + rng.choice((-3, -2, -1, -1, 1, 1, 2, 3))
    if style < 0.8:
        return rng.choice(ODD_WORDS)
    return words[at] + rng.choice((-1, 1))


def broken_rules(plan):
    """For each rule of form that hangs on other words: (place, word) pairs that break it."""
    rules = {}

    def breaks(rule, at, word):
        rules.setdefault(rule, []).append((at, word))

    words, regions = plan.words, [plan.words[start + 1] for start in plan.starts]
    for turn, start in enumerate(plan.starts):
        kind, region, body, end = words[start], words[start + 1], start + 4, start + 4 + words[start + 3]
        for other in regions[:turn]:
            breaks('region set earlier', start + 1, other)
        breaks('region not below the steps', start + 1, words[1])
        for other in regions[turn:]:
            breaks('parent not set yet', start + 2, other)
        if kind == 1:
            for at in range(body + 3, end, 3):
                breaks('dimension twice in a box', at, words[body])
            for at in range(body, end, 3):
                breaks('dimension n', at, plan.n)
                if words[at + 1] >= -65535:
                    breaks('max is min', at + 2, words[at + 1])
        elif kind in (2, 3, 7):
            breaks('dimension twice in an outline', body + 1, words[body])
            breaks('dimension n', body + kind % 2, plan.n)
            if kind in ELLIPSE_ROLES:
                entry, widest = (16777216, 4096) if kind == 3 else (2000000000, 4096000)
                for at in range(body + 4, end - 1):
                    for word in (entry + 1, -entry - 1):
                        breaks('entry off range, kind %d' % kind, at, word)
                for word in (0, -1, widest + 1):
                    breaks('D2 off range, kind %d' % kind, end - 1, word)
        elif kind == 8:
            for at, other in ((1, 0), (2, 0), (2, 1)):
                breaks('dimension twice in an ellipsoid', body + at, words[body + other])
            for at in range(3):
                breaks('dimension n', body + at, plan.n)
                for word in (-65537, 65536):
                    breaks('mean off range, kind 8', body + 3 + at, word)
            for at in range(body + 6, end - 1):
                for word in (16777217, -16777217):
                    breaks('entry off range, kind 8', at, word)
            for word in (0, -1, 4097):
                breaks('D2 off range, kind 8', end - 1, word)
        else:
            for at in range(body, end):
                for other in regions[turn:]:
                    breaks('operand not set yet', at, 2 * other + at % 2)
                breaks('operand out of the steps', at, 2 * words[1])
                breaks('operand below 0', at, -1 - at % 2)
    return rules


def damage_ellipse(rng, words, at):
    """An ellipse, c11 at a place, of the other kind, at the ends of either kind's ranges, or with c11 below 1 and a fault behind it."""
    if at + 4 > len(words):
        return
    style = rng.randrange(9)
    if style < 4 and words[at - 8] in ELLIPSE_ROLES:
        words[at - 8] = 10 - words[at - 8]
    if style == 0:
        entry = rng.choice((16777216, 16777217, 2000000000, rng.randint(16777217, 2000000000)))
        words[at:at + 3] = [entry, rng.randint(-entry, entry), entry]
    elif style == 1:
        words[at:at + 3] = rng.choice(GOOD_DECIMAL_MATRICES)
    elif style in (3, 4):
        words[at + rng.randrange(3)] = rng.choice((-1, 1)) * rng.choice((16777216, 16777217, 2000000000, 2000000001))
    elif style in (5, 6):
        words[at + 3] = rng.choice((0, 1, 4096, 4097, 4096000, 4096001))
    elif style > 6:
        words[at] = rng.choice((0, -1, -5, -2000000000))
        if style == 7:
            words[at + rng.randint(1, 2)] = rng.choice((-1, 1)) * rng.choice((16777217, 2000000001))
        else:
            del words[at + rng.randint(1, 3):]


def damage_ellipsoid(rng, words, at):
    """An ellipsoid, c11 at a place: its matrix bad, and perhaps a fault in its words or behind it, or of another kind or length."""
    start = at - 10
    if at + 7 > len(words):
        return
    style = rng.randrange(12)
    if style < 8:
        words[at:at + 6] = bad_ellipsoid(rng)
    if style in (2, 3, 8):      # an entry off range: the matrix isn't judged
        for _ in range(rng.choice((1, 1, 2))):
            words[at + rng.randrange(6)] = rng.choice((-1, 1)) * rng.choice((16777217, 16777217, 2000000000))
    elif style == 4:
        words[at + 6] = rng.choice((0, -1, 4097))
    elif style in (5, 6):       # the plan ends in the matrix or behind it
        del words[at + rng.randint(0, 7):]
    elif style == 7:            # a fault before the matrix
        words[rng.choice((start + 4, start + 5, start + 6))] = rng.choice((-1, 0, 1, 2, 8, words[start + 4], words[start + 5]))
    elif style == 9:
        words[start] = rng.choice((3, 7, 9, 2, 10))
    elif style == 10:           # another length, and a body to match
        length = rng.choice((8, 12, 12, 14, 14, 26))
        words[start + 3:start + 17] = [length] + (words[start + 4:start + 17] * 2)[:length]
    elif style == 11:
        words[at + rng.randrange(7)] = rng.choice((16777216, -16777216, 0, 1, -1, 4096))


def damage_plan(rng, plan):
    """Words of a plan with one to three faults of any sort."""
    words = list(plan.words)
    ellipsoids = [at for at, role in enumerate(plan.roles) if role == 'c11 of 3']
    ellipses = [at for at, role in enumerate(plan.roles) if role in ('c11', 'decimal c11')]
    for _ in range(rng.choice((1, 1, 1, 2, 3))):
        style = rng.randrange(21)
        if style > 16 and ellipsoids and (not ellipses or rng.random() < 0.5):
            damage_ellipsoid(rng, words, rng.choice(ellipsoids))
            break       # the places of the words behind may have shifted
        elif style > 16 and ellipses:
            damage_ellipse(rng, words, rng.choice(ellipses))
        elif style < 4:       # a word of some role, each role as likely as the others
            here = sorted(set(plan.roles))
            role = rng.choice(here)
            at = rng.choice([at for at, other in enumerate(plan.roles) if other == role])
            if at < len(words):
                words[at] = odd_word(rng, plan, words, at)
        elif style in (4, 10) and ellipses:     # the matrix: bad, off range, or cut off after it or in it
            at = rng.choice(ellipses)
            if at + 4 <= len(words):
                decimals = plan.roles[at] == 'decimal c11'
                words[at:at + 3] = rng.choice(BAD_DECIMAL_MATRICES if decimals else BAD_MATRICES)
                more = rng.randrange(4)
                if more == 0:
                    entry = 2000000001 if decimals else 16777217
                    words[at + rng.randrange(3)] = rng.choice((entry, -entry, 2147483647, -2147483648))
                elif more == 1:
                    words[at + 3] = rng.choice((0, 4096001 if decimals else 4097, -1))
                elif more == 2:
                    words = words[:at + rng.randint(0, 4)]
        elif style < 7:     # cut off anywhere
            words = words[:rng.randint(0, len(words))]
        elif style == 7:    # words left over
            words += [rng.choice(ODD_WORDS) for _ in range(rng.choice((1, 1, 2, 9)))]
        elif style == 8 and words:
            at = rng.randrange(len(words))
            if rng.random() < 0.5:
                del words[at]
            else:
                words.insert(at, rng.choice(ODD_WORDS))
        elif style == 9 and len(words) > 1:
            words[1] += rng.choice((-1, 1))
        elif 13 < style < 17 and plan.starts:   # a rule broken that hangs on other words
            rules = broken_rules(plan)
            at, word = rng.choice(rules[rng.choice(sorted(rules))])
            if at < len(words):
                words[at] = word
        elif 11 < style < 14 and plan.starts:   # a length that its kind forbids, and a body to match
            start = rng.choice(plan.starts)
            length = plan.words[start + 3]
            other = max(0, length + rng.choice((-3, -2, -1, -1, 1, 1, 2, 3)))
            body = words[start + 4:start + 4 + length]
            if len(body) == length:
                more = [rng.randrange(3) for _ in range(3)]
                words[start + 3:start + 4 + length] = [other] + (body + more)[:other]
                break       # the places of the words behind have shifted
        elif plan.starts:   # a bad word in a body, and the plan ends within that body
            start = rng.choice(plan.starts)
            length = plan.words[start + 3]
            at = start + 4 + rng.randrange(length)
            if at < len(words):
                words[at] = odd_word(rng, plan, words, at)
                words = words[:rng.randint(at, start + 4 + length)]
    return [clip(word, (-2 ** 31, 2 ** 31 - 1)) for word in words]


def long_words(rng):
    """Lists of about 4,096 words: a good plan of just that size, with words over, or noise."""
    style = rng.randrange(4)
    if style == 0:
        table = plan_size_table(rng, rng.randint(4090, 4096))
        return gates.compile_table(table.bytes(), 4096)[2]
    if style == 1:
        words = gates.compile_table(plan_size_table(rng, 4096).bytes(), 4096)[2]
        return words + [rng.choice(ODD_WORDS)]
    if style == 2:
        return Plan(rng).words + [0] * 4096
    words = Plan(rng, 2).words
    return (words + [7] * 4096)[:rng.choice((4096, 4097))]


def long_outline_plan(rng, sizes, edges=None):
    """Words of a plan of polygons with so many vertices, and an event that is at a place of each; or on these edges, and no other."""
    n = rng.choice((2, 2, 3))
    # In a corner of the scale few outlines have room.
    near = rng.choice(((-9, 9), (-9, 9), (-30000, 30000)))
    event = [rng.randint(*near) if edges or rng.random() < 0.7 else rng.choice((rng.randint(-65536, 65535), rng.choice(LIMITS))) for _ in range(n)]
    regions = rng.sample(range(len(sizes)), len(sizes))
    parents, words = 0.0 if edges else rng.choice((0.0, 0.0, 0.0, 0.1)), [n, len(sizes)]
    for turn, (region, size) in enumerate(zip(regions, sizes)):
        first, second = rng.sample(range(n), 2)
        x, y = event[first], event[second]
        vertices = long_outlines.through_edge(rng, size, x, y, edges[turn]) if edges else long_outlines.through(rng, size, x, y)
        parent = rng.choice(regions[:turn]) if turn and rng.random() < parents else -1
        words += [2, region, parent, 2 + 2 * size, first, second, *[value for point in vertices for value in point]]
    return words, event


# The edges that every run has an event on, for each number of vertices: the closing one, the first and another.
FIRST_EDGES = (lambda rng, size: size - 1, lambda rng, size: 0, lambda rng, size: rng.randrange(1, size - 1))


def each_edge(seed):
    """Questions with an event on each edge, and no other, of an outline of each number of vertices."""
    rng = random.Random('%s each edge' % seed)
    sizes, edges = [], []
    for size in range(long_outlines.LEAST, long_outlines.MOST + 1):
        for edge in range(size):
            if len(sizes) == 64 or sum(6 + 2 * other for other in [*sizes, size]) > 4094:
                yield 'each edge', ('judge', *long_outline_plan(rng, sizes, edges))
                sizes, edges = [], []
            sizes.append(size)
            edges.append(edge)
    yield 'each edge', ('judge', *long_outline_plan(rng, sizes, edges))


def each_edge_counted(rng, size):
    """Words of a plan of one polygon, and a list with an event at each of its edges."""
    vertices = [(clip(x), clip(y)) for x, y in long_outlines.outline(rng, size)]
    values = [clip(value) for at in range(size) for value in long_outlines.place(rng, vertices, at)]
    return [2, 1, 2, 0, -1, 2 + 2 * size, 0, 1, *[value for point in vertices for value in point]], values


# ---------------------------------------------------------------- questions

def event_for(rng, plan):
    """One event: good, spoilt, or not n long."""
    event = plan.event()
    style = rng.random()
    if style < 0.12:
        for _ in range(rng.choice((1, 2))):
            event[rng.randrange(len(event))] = rng.choice((65536, -65537, 2147483647, -2147483648))
    elif style < 0.2:
        event = rng.choice((event[:-1], event + [0], [], event * 2, event + [70000]))
    return event


# Kind, c11, c12, c22, D2 of an ellipse at the ends of the ranges; these questions stand at the beginning of every run.
FIRST_ELLIPSES = [(kind, c11, c12, c22, d2) for kind, entry, widest in ((3, 16777216, 4096), (7, 2000000000, 4096000)) for c11, c12, c22, d2 in (
    (entry, 0, entry, widest), (entry + 1, 0, entry, 1), (entry, entry + 1, entry, 1), (entry, -entry - 1, entry, 1), (entry, 0, entry + 1, 1),
    (entry, entry - 1, entry, 1), (entry, 1 - entry, entry, 1), (entry, entry, entry, 1), (entry, -entry, entry, 1), (-entry, 0, -entry, 1),
    (-entry - 1, 0, 1, 1), (1, 0, -entry - 1, 1), (entry, 0, -entry, 1), (entry - 2, entry - 1, entry, 1), (1, 0, 1, widest + 1), (1, 0, 1, 0),
    (1, 0, 1, -1), (1, 1, 1, 0), (0, entry + 1, 1, 1), (0, 0, entry + 1, 0), (2, 1, 1, 1))]
FIRST_ELLIPSES += [(kind, 5, 0, 5, 1) for kind in (-7, 0, 8, 9, 13)]
# Then c11, c12, c22, D2 of kind 7, and an event less the means: on the rim, beside it by little, or where 64 bits or doubles would answer otherwise.
FIRST_JUDGED = [(1134500, -234500, 1134500, d2, dx, -dx) for d2, dx in ((1000, 26), (1000, 27), (2000, 37), (1999, 37), (2001, 37))]
FIRST_JUDGED += [(1134903170, 701408733, 433494437, d2, 28657, 17711) for d2 in (1000000, 999999, 1000001)]
FIRST_JUDGED += [(900000000, c12, 2000000000, 4000000, 60000, 0) for c12 in (0, 1, -1)]
FIRST_JUDGED += [(2 ** 30, 0, 2 ** 30, d2, dx, dy) for d2, dx, dy in ((16, 0, 0), (2 ** 21, 16384, 0), (2 ** 21, 16384, -16384), (2 ** 4, 131, 0))]
FIRST_JUDGED += [(2000000000, 0, 2000000000, 4096000, dx, dy) for dx, dy in ((90509, 0), (90510, 0), (0, -90509), (131071, -131071), (0, 0))]


def ellipsoid_plan(entries, d2, dimensions=(0, 1, 2), means=(0, 0, 0), n=3, kind=8):
    body = [*dimensions, *means, *entries, d2]
    return [n, 1, kind, 0, -1, len(body), *body]


def first_ellipsoids():
    """Ellipsoids at the ends of the ranges, each bad matrix, a fault at each word, each end of the body, and events where much is told."""
    most, plans, judged, counted = MOST_ENTRY, [], [], []
    plans += [ellipsoid_plan(entries, d2) for entries, d2 in zip(GOOD_ELLIPSOIDS, itertools.cycle((1, 4096, 2)))]
    plans += [ellipsoid_plan(entries, d2) for entries, d2 in zip(BAD_ELLIPSOIDS, itertools.cycle((1, 4096, 0, 4097)))]
    plans += [ellipsoid_plan((1, 0, 0, 1, 0, 1), d2) for d2 in (0, -1, 4096, 4097, 4096000)]
    whole = ellipsoid_plan((5, 1, 1, 5, 1, 5), 9)
    for at, words in enumerate(((-1, 3), (0, 3, -1), (0, 1, 3), *[(-65537, 65536, -65536, 65535)] * 3, *[(-most - 1, most + 1)] * 6)):
        plans += [whole[:6 + at] + [word] + whole[7 + at:] for word in words]
    # A bad matrix with one of its words off range, with one missing, and with D2 missing.
    for entries in ((-1, 0, 0, -1, 0, 1), (4, 6, 0, 8, 0, -1), (1, 0, 1, 1, 0, 1)):
        plans += [ellipsoid_plan(entries[:at] + (-most - 1 if at % 2 else most + 1,) + entries[at + 1:], 1) for at in range(6)]
        plans += [ellipsoid_plan(entries, 1)[:12 + left] for left in range(1, 7)]
    plans += [whole[:end] for end in range(2, len(whole))]
    plans += [[3, 1, 8, 0, -1, length, *(whole[6:] * 2)[:length]] for length in (0, 3, 8, 12, 14, 15, 26)]
    plans += [whole + [0], whole[:4] + [0] + whole[5:], whole[:3] + [1] + whole[4:], [2, *whole[1:]]]
    plans += [[4, *whole[1:8], 3, *whole[9:]], [8, *whole[1:6], 7, 0, 5, *whole[9:]]]
    plans += [[*whole[:2], kind, *whole[3:]] for kind in (3, 7, 9, 2, 1, 5)]
    # Entries, D2, an event less the means: a sphere of 2 to the 72, one whose rim goes over the whole scale, thin ones, tilted ones, and far away.
    for entries, d2, steps in (
            ((most, 0, 0, most, 0, most), 1, ((0, 0, 0), (4096, 0, 0), (4095, 0, 0), (4096, 1, 0), (0, -4096, 0), (0, 0, 4097), (2048, 2048, 2048))),
            ((most, 0, 0, most, 0, most), 961, ((24576, 86016, 90112), (24576, 86016, 90113), (126976, 0, 0), (126977, 0, 0), (0, 0, -126976), (256, 0, 0))),
            ((most, 0, 0, most, 0, most), 4096, ((131071, 131071, 131071), (131071, -131071, 131071), (0, 0, 131071), (131071, 131071, 0))),
            ((most, -8388607, -8388608, most, -8388608, most), 4096, ((131071, 131071, 131071), (-131071, 131071, 131071), (0, 0, 0), (131071, 0, 0))),
            ((most, most - 1, most - 2, most, most - 1, most), 4096, ((131071, 131071, 131071), (131071, -131071, 131071), (4096, 4096, 4096), (1, 0, -1))),
            ((280, 236, 74, 472, 310, 553), 9, ((46, 20, 2), (46, 20, 3), (30, 60, 60), (-36, -18, 36), (18, -18, 9), (18, -18, -9), (0, 0, 0), (2, 20, 46))),
            ((553, -310, 74, 472, -236, 280), 1, ((3, 6, 6), (12, 6, -12), (20, -20, 10), (-20, 20, -10), (20, 20, 10), (3, 6, 7), (6, 6, 3), (-12, 6, 12))),
            ((441, 0, 0, 900, 0, 3600), 1, ((21, 0, 0), (0, 30, 0), (0, 0, -60), (7, 20, 40), (14, -10, 40), (14, 20, 20), (7, 20, 41), (40, 20, 7))),
            ((100, 0, 0, 100, 0, 100), 1, ((6, 6, 6), (6, 8, 0), (0, 6, 8), (8, 0, 6), (-6, 6, 5), (10, 0, 0), (0, 10, 1)))):
        counted.append((ellipsoid_plan(entries, d2), [part for step in steps for part in step]))
        for step in steps:
            means = [-65536 if part > 0 else 65535 if part < 0 else 7 for part in step]
            judged.append((ellipsoid_plan(entries, d2, means=means), [mean + part for mean, part in zip(means, step)]))
    return ([('ellipsoid by hand', ('check', words)) for words in plans]
            + [('ellipsoid judged by hand', ('judge', *each)) for each in judged]
            + [('ellipsoids counted by hand', ('count', *each)) for each in counted])


def first_odd_rims():
    """Ellipses, and events on their rims at which doubles say otherwise."""
    rng = random.Random('odd rims')
    for _ in range(4):
        entries, d2, rim = odd_rim(rng)
        yield 'odd rim', ('judge', [2, 1, 3, 0, -1, 8, 0, 1, 0, 0, *entries, d2], list(rim[0]))


def boxes_plan(order, more=(), steps=None):
    """Boxes 2 wide in a step of 4 over one dimension, region r at 4 r, in this order of regions; then the words of further steps."""
    return [1, len(order) if steps is None else steps, *[word for region in order for word in (1, region, -1, 3, 0, 4 * region, 4 * region + 2)], *more]


def first_unclaimed():
    """Counts of events in no region, in one alone, the first or the last, in several; spoilt ones; and refused counts."""
    counted = [(boxes_plan(range(regions)), values) for regions in (0, 1, 2, 32, 33, 64) for values in (
        [-1, 65535, 2, 3], [65536, -65537, 2147483647, -2147483648], [-1, 65536, 0, 2], [4 * region for region in range(regions)])]
    # One region alone, of 64 in their order and in the other.
    for order in (range(64), range(63, -1, -1)):
        counted += [(boxes_plan(order), [4 * region]) for region in (0, 31, 32, 53, 63)]
    counted += [(boxes_plan((1, 2, 0)), values) for values in ([0], [8], [4, 4, 4, 70000], [-1] * 300)]
    # Steps more: a box over two of them, one within the first and one beyond it, `and`, `or`, `not`, and `not` within the first.
    for more in ((1, 2, -1, 3, 0, 0, 6), (1, 2, 0, 3, 0, 1, 2), (1, 2, 0, 3, 0, 2, 4), (4, 2, -1, 2, 0, 2), (4, 2, -1, 2, 1, 3), (5, 2, -1, 2, 0, 2),
                 (5, 2, -1, 2, 0, 3), (6, 2, -1, 1, 0), (6, 2, 0, 1, 2), (6, 2, -1, 1, 1)):
        counted.append((boxes_plan(range(2), more, 3), [0, 1, 2, 3, 4, 5, 6, -1, 65536]))
    # Two dimensions, the second of them in no step.
    counted += [([2, *boxes_plan(range(2))[1:]], values) for values in ([0, 9, 9, 0, 4, 65536, 65536, 4], [9, 0], [9, 0, 9], [9], [9, 0, 0])]
    # Refused by the plan: cut off, a word left over, a bad step behind good ones, a long plan; and by a ragged list, too.
    for words in (boxes_plan(range(2))[:-1], [*boxes_plan(range(2)), 0], boxes_plan(range(2), (1, 2, -1, 3, 0, 5, 5), 3), [1, 0, 0], [1], [0, 0], [],
                  boxes_plan(range(2)) + [0] * 4096):
        counted.append((words, [-1, 65536, 2]))
    return [('unclaimed by hand', ('count', *each)) for each in counted]


FIRST_QUESTIONS = [*first_ellipsoids(), *first_odd_rims()]
FIRST_COUNTS = first_unclaimed()


def request(seed, number):
    """The question with this number: a label and what is asked.

    ('check', words), ('judge', words, event), ('count', words, values) or
    ('compile', words of the slice, table).
    """
    rng = random.Random('%s question %d' % (seed, number))
    if number < len(FIRST_ELLIPSES):
        kind, *numbers = FIRST_ELLIPSES[number]
        return 'ellipse at the ends', ('judge', [2, 1, kind, 0, -1, 8, 1, 0, rng.choice(LIMITS), 5, *numbers], [rng.choice(LIMITS), rng.choice(LIMITS)])
    if number < len(FIRST_ELLIPSES) + len(FIRST_JUDGED):
        *numbers, dx, dy = FIRST_JUDGED[number - len(FIRST_ELLIPSES)]
        x, y = [-65536 if step > 0 else 65535 if step < 0 else 7 for step in (dx, dy)]
        return 'judged by hand', ('judge', [2, 1, 7, 0, -1, 8, 0, 1, x, y, *numbers], [x + dx, y + dy])
    before = len(FIRST_ELLIPSES) + len(FIRST_JUDGED)
    if number < before + len(FIRST_QUESTIONS):
        return FIRST_QUESTIONS[number - before]
    turn, sizes = divmod(number - before - len(FIRST_QUESTIONS), len(long_outlines.TURNS))
    sizes = list(long_outlines.TURNS[sizes])
    if turn < len(FIRST_EDGES):
        return 'each number of vertices', ('judge', *long_outline_plan(rng, sizes, [FIRST_EDGES[turn](rng, size) for size in sizes]))
    if turn == len(FIRST_EDGES):
        return 'each number of vertices', ('judge', *long_outline_plan(rng, sizes))
    before += len(FIRST_QUESTIONS) + (len(FIRST_EDGES) + 1) * len(long_outlines.TURNS)
    if number < before + len(FIRST_COUNTS):
        return FIRST_COUNTS[number - before]
    style = rng.random()
    if style < 0.004:
        words = long_words(rng)
        if rng.random() < 0.5:
            return 'long words', ('check', words)
        return 'long words', ('judge', words, [0, 0])
    if style < 0.20:
        return 'damaged plan', ('check', damage_plan(rng, Plan(rng)))
    if style < 0.23:
        table = claim_table(rng)
        words = gates.compile_table(table.bytes(), 4096)[2]
        values = [value for event in table.events(rng.choice((1, 1, 2, 4, 8, 12, many(rng)))) for value in event]
        return 'unclaimed', ('count', words, values[1:] if rng.random() < 0.05 else values)
    if style < 0.27:
        return 'good plan', ('check', Plan(rng).words)
    if style < 0.44:
        plan = Plan(rng)
        return 'judged', ('judge', plan.words, event_for(rng, plan))
    if style < 0.48:
        plan = Plan(rng)
        return 'damaged, judged', ('judge', damage_plan(rng, plan), event_for(rng, plan))
    if style < 0.50:
        plan = Plan(rng, 64 if rng.random() < 0.1 else None)
        values = []
        for _ in range(many(rng)):
            event = plan.event()
            if rng.random() < 0.05:
                event[rng.randrange(len(event))] = rng.choice((65536, -65537, 2147483647, -2147483648))
            values += event
        return 'counted, many', ('count', plan.words, values)
    if style < 0.54:
        plan = Plan(rng)
        values = []
        for _ in range(rng.choice((0, 1, 3, 8))):
            values += event_for(rng, plan) if rng.random() < 0.2 else plan.event()
        if rng.random() < 0.1:
            values = values[1:] + rng.choice(([], [0, 0]))
        words = plan.words if rng.random() < 0.85 else damage_plan(rng, plan)
        return 'counted', ('count', words, values)
    if style < 0.56:
        table = small_table(rng)
        words = gates.compile_table(table.bytes(), 4096)[2]
        return 'compiled, judged', ('judge', words, table.event())
    if style < 0.62:
        words, event = long_outline_plan(rng, long_outlines.some_sizes(rng, rng.choice((60, 400, 1800, 1800))))
        if rng.random() < 0.12:
            # Spoilt by a value that not all of the outlines are over.
            event[rng.randrange(len(event))] = rng.choice((65536, -65537, 2147483647, -2147483648))
        return 'long outlines, judged', ('judge', words, event)
    if style < 0.64:
        return 'each edge, counted', ('count', *each_edge_counted(rng, long_outlines.some_size(rng)))
    if style < 0.74:
        table = outline_table(rng)
        words = gates.compile_table(table.bytes(), 4096)[2]
        if rng.random() < 0.1:
            # Malformed only at the end: the steps before could have set their bits.
            words = rng.choice((words[:-1], words + [0], words[:-1] + [rng.choice(ODD_WORDS)]))
        return 'outlines, judged', ('judge', words, event_for(rng, table))
    if style < 0.76:
        table = small_table(rng)
        words = gates.compile_table(table.bytes(), 4096)[2]
        if rng.random() < 0.5:
            words[rng.randrange(len(words))] = rng.choice(ODD_WORDS)
        else:
            words = words[:rng.randint(0, len(words))]
        return 'compiled, damaged', ('check', words)
    if style < 0.90:
        table = rng.choice((small_table, small_table, referring_table, referring_table, referring_table,
                            chain_table if rng.random() < 0.2 else small_table,
                            full_table if rng.random() < 0.2 else referring_table))(rng)
        size = 4096
        if rng.random() < 0.25:
            size = clip(table.words + rng.choice((-1, 0, 1, -2, -table.words, 5000)), (0, 9000))
        return 'compile', ('compile', size, table.bytes())
    if style < 0.9008:
        table = byte_size_table(rng, rng.choice((32768, 32769)))
        return 'compile long', ('compile', 4096, table.bytes())
    if style < 0.903:
        table = plan_size_table(rng, rng.randint(4090, 4100))
        return 'compile long', ('compile', rng.choice((4096, 4095, 4094, 4100, 5000)), table.bytes())
    maker = rng.choice((lambda rng: one_fault(rng, rng.randint(4, 12))[0], many_faults, twin_table, dead_table,
                        circle_table))
    data = maker(rng).bytes()
    if rng.random() < 0.2:
        data = rough_damage(rng, data)
    if rng.random() < 0.01:
        data = rng.choice((b'', b'\n', data[:-1]))
    return 'compile damaged', ('compile', rng.choice((4096, 4096, 0, 10)), data)
