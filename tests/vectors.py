#!/usr/bin/env python3
"""Examples of Gating-ML 2.0, with members worked out by hand, through gatecount.

    tests/vectors.py [--gatecount COMMAND] [--gatesheet COMMAND] [--plans COMMAND]

Each event goes through gatecount alone, so that its counts tell of which regions it is a member. The numbers of a vector are those of the
document's example; what an example has and a table has not (transformed scales, and the parents that need them) is left out. Example
19, whose matrix has decimals, stands as it is printed and with all its numbers doubled. Where the document and the requirement differ, in
outlines that enclose a place twice, the requirement rules, and its own marked cases stand here too.

Ellipsoids over three dimensions stand here with numbers of their own, worked out by hand from the document's rule.

Outlines of up to 256 vertices stand here too, each begun at several of its vertices or at every one; what they enclose is plain to see.

Outlines are not counted, so those vectors are asked as questions `compile` and `judge` (see tests/compare.py): of the
program at --plans, where it is given, and of the reference program in any case.

The events of a vector that no region holds are its unclaimed ones: they are asked of the program at --gatesheet, where it is given, and of the
reference program in any case, with all events in one list and spoilt ones between, and in two lists.

The polygons of these vectors and outlines are drawn anew too, begun at each vertex and walked both ways (tests/reference/redraw.py): what was worked
out by hand must hold of them, and each answer must be the one to the table as it stands.

That the vectors would see a wrong program is tested too: each fault of FAULTS, planted in the reference program (tests/reference/plants.py), must give
another answer on the vectors that are named with it; with each of plants.BY_REDRAWING some vector drawn anew must get another answer than as it
stands. The last line is 'N passed, M failed'.
"""

import argparse
import os
import shlex
import subprocess
import sys

sys.path.insert(0, os.path.join(os.path.dirname(os.path.abspath(__file__)), 'reference'))

import compare
import gates
import plants
import redraw

# heading, table (spaces for tabs), events: values and the regions that hold them
VECTORS = [
    ('example 14, a box over three dimensions, one of them without a maximum: minima are inside, maxima are not',
     ['dims FSC-H SSC-H FL1-H',
      'rect Rect3D - FSC-H 100 250 SSC-H 50 * FL1-H 0 300'],
     [('100 50 0', 'Rect3D'), ('249 50 299', 'Rect3D'), ('100 65535 0', 'Rect3D'), ('250 60 10', ''), ('99 50 0', ''), ('100 49 0', ''),
      ('100 50 300', ''), ('100 50 -1', '')]),

    ('example 15, a triangle; its long side is y = 3/4 x',
     ['dims FSC-H SSC-H',
      'poly Triangle - FSC-H SSC-H 0 0 400 0 400 300'],
     [('0 0', 'Triangle'), ('400 0', 'Triangle'), ('400 300', 'Triangle'), ('200 0', 'Triangle'), ('200 150', 'Triangle'), ('200 149', 'Triangle'),
      ('300 100', 'Triangle'), ('200 151', ''), ('401 100', ''), ('100 -1', ''), ('400 301', '')]),

    ('example 17, an outline that crosses itself at (100, 100): two triangles that meet there',
     ['dims FSC-H SSC-H',
      'poly NonSimple - FSC-H SSC-H 50 50 150 50 50 150 150 150'],
     [('100 60', 'NonSimple'), ('100 140', 'NonSimple'), ('100 100', 'NonSimple'), ('75 75', 'NonSimple'), ('125 75', 'NonSimple'),
      ('100 50', 'NonSimple'), ('50 50', 'NonSimple'), ('150 150', 'NonSimple'), ('60 100', ''), ('140 100', ''), ('99 100', ''), ('100 49', '')]),

    ('example 15 walked twice: an even number of crossings, which 5.2.1 of the document leaves out and the requirement holds',
     ['dims FSC-H SSC-H',
      'poly Twice - FSC-H SSC-H 0 0 400 0 400 300 0 0 400 0 400 300'],
     [('300 100', 'Twice'), ('200 149', 'Twice'), ('200 150', 'Twice'), ('0 0', 'Twice'), ('200 151', ''), ('401 100', ''), ('100 -1', '')]),

    ('a star of five corners, whose middle the outline encloses twice and its points once; between two points it is open',
     ['dims FSC-H SSC-H',
      'poly Star - FSC-H SSC-H 50 100 79 10 2 65 98 65 21 10'],
     [('50 50', 'Star'), ('50 64', 'Star'), ('50 31', 'Star'), ('50 80', 'Star'), ('70 20', 'Star'), ('30 20', 'Star'), ('10 62', 'Star'), ('90 62', 'Star'),
      ('50 65', 'Star'), ('50 30', ''), ('50 10', ''), ('20 90', ''), ('80 90', ''), ('5 30', ''), ('95 30', '')]),

    ('the square of the requirement walked twice, and once for each way round, which encloses nothing but its edges',
     ['dims X Y',
      'poly Twice - X Y 0 0 10 0 10 10 0 10 0 0 10 0 10 10 0 10',
      'poly Back - X Y 0 0 10 0 10 10 0 10 0 0 0 10 10 10 10 0'],
     [('5 5', 'Twice'), ('10 5', 'Twice Back'), ('0 0', 'Twice Back'), ('11 5', ''), ('5 11', ''), ('11 0', '')]),

    ('the flat triangle of the requirement',
     ['dims X Y',
      'poly Flat - X Y 0 0 4 0 8 0'],
     [('4 0', 'Flat'), ('6 0', 'Flat'), ('4 1', ''), ('9 0', '')]),

    ('two triangles with an upright side in common, each with a corner at the height of the events beside it',
     ['dims X Y',
      'poly Right - X Y 0 -4 4 0 0 4',
      'poly Left - X Y 0 -4 0 4 -4 0'],
     [('-5 0', ''), ('-4 0', 'Left'), ('-2 0', 'Left'), ('0 0', 'Right Left'), ('1 0', 'Right'), ('3 0', 'Right'), ('4 0', 'Right'), ('5 0', ''),
      ('2 2', 'Right'), ('-2 -2', 'Left'), ('2 3', ''), ('-2 3', ''), ('-1 4', ''), ('1 -4', ''), ('0 4', 'Right Left'), ('0 -4', 'Right Left')]),

    ('example 18, an ellipse with axes of 200 and 175',
     ['dims FSC-H SSC-H',
      'ellip myEllipse - FSC-H SSC-H 400 200 40000 0 30625 1'],
     [('400 200', 'myEllipse'), ('600 200', 'myEllipse'), ('200 200', 'myEllipse'), ('400 375', 'myEllipse'), ('400 25', 'myEllipse'),
      ('541 324', 'myEllipse'), ('542 324', ''), ('601 200', ''), ('400 24', ''), ('400 376', '')]),

    ('example 19, an ellipse turned by -45 degrees, its numbers doubled: axes of 74 along (1, -1) and 60 along (1, 1)',
     ['dims FSC-H SSC-H',
      'ellip myEllipse2 - FSC-H SSC-H 80 80 4538 -938 4538 1'],
     [('80 80', 'myEllipse2'), ('132 28', 'myEllipse2'), ('28 132', 'myEllipse2'), ('122 122', 'myEllipse2'), ('38 38', 'myEllipse2'),
      ('133 27', ''), ('27 133', ''), ('123 123', ''), ('37 37', '')]),

    ('as printed, example 19: axes of 37 along (1, -1) and 30 along (1, 1); and with D² = 2, where (77, 3) and (70, 70) are on the rim',
     ['dims FSC-H SSC-H',
      'ellip myEllipse2 - FSC-H SSC-H 40 40 1134.5 -234.5 1134.5 1',
      'ellip Wider - FSC-H SSC-H 40 40 1134.5 -234.5 1134.5 2.0'],
     [('40 40', 'myEllipse2 Wider'), ('66 14', 'myEllipse2 Wider'), ('14 66', 'myEllipse2 Wider'), ('61 61', 'myEllipse2 Wider'),
      ('19 19', 'myEllipse2 Wider'), ('67 13', 'Wider'), ('13 67', 'Wider'), ('62 62', 'Wider'), ('18 18', 'Wider'), ('77 3', 'Wider'),
      ('70 70', 'Wider'), ('10 10', 'Wider'), ('78 2', ''), ('71 70', ''), ('9 9', '')]),

    ('an upright ellipsoid with axes of 21, 30 and 60: a third of one axis and two thirds of the others are on the rim',
     ['dims FSC-H SSC-H FL1-H',
      'ellip3 Upright - FSC-H SSC-H FL1-H 100 200 300 441 0 0 900 0 3600 1'],
     [('100 200 300', 'Upright'), ('121 200 300', 'Upright'), ('79 200 300', 'Upright'), ('100 230 300', 'Upright'), ('100 170 300', 'Upright'),
      ('100 200 360', 'Upright'), ('100 200 240', 'Upright'), ('107 220 340', 'Upright'), ('93 220 260', 'Upright'), ('114 190 340', 'Upright'),
      ('86 220 280', 'Upright'), ('106 220 340', 'Upright'), ('122 200 300', ''), ('121 201 300', ''), ('121 200 301', ''), ('100 231 300', ''),
      ('100 200 361', ''), ('100 200 239', ''), ('108 220 340', ''), ('107 221 340', ''), ('107 220 341', ''), ('120 220 307', '')]),

    ('a turned ellipsoid with axes along (1, 2, 2), (2, 1, -2) and (2, -2, 1), 10, 6 and 3 times these; for D² = 9 once, twice and twice that is (46, 20, 2)',
     ['dims FSC-H SSC-H FL1-H',
      'ellip3 Turned - FSC-H SSC-H FL1-H 50 60 70 280 236 74 472 310 553 1',
      'ellip3 Wider - FSC-H SSC-H FL1-H 50 60 70 280 236 74 472 310 553 9'],
     [('50 60 70', 'Turned Wider'), ('60 80 90', 'Turned Wider'), ('40 40 50', 'Turned Wider'), ('62 66 58', 'Turned Wider'), ('38 54 82', 'Turned Wider'),
      ('56 54 73', 'Turned Wider'), ('44 66 67', 'Turned Wider'), ('61 80 90', 'Wider'), ('60 80 91', 'Wider'), ('62 66 82', 'Wider'), ('57 54 73', 'Wider'),
      ('56 54 74', 'Wider'), ('96 80 72', 'Wider'), ('4 40 68', 'Wider'), ('80 120 130', 'Wider'), ('86 78 34', 'Wider'), ('68 42 79', 'Wider'),
      ('97 80 72', ''), ('96 80 73', ''), ('81 120 130', ''), ('86 78 33', ''), ('69 42 79', ''), ('96 40 72', '')]),

    ('the axes of that ellipsoid the other way, 3, 6 and 10 times, over dimensions in another order than the head has',
     ['dims FL1-H FSC-H SSC-H',
      'ellip3 Other - FSC-H SSC-H FL1-H 50 60 70 553 -310 74 472 -236 280 1'],
     [('70 50 60', 'Other'), ('76 53 66', 'Other'), ('64 47 54', 'Other'), ('58 62 66', 'Other'), ('82 38 54', 'Other'), ('80 70 40', 'Other'),
      ('60 30 80', 'Other'), ('77 53 66', ''), ('57 62 66', ''), ('81 70 40', ''), ('60 70 40', ''), ('80 70 80', ''), ('40 80 70', '')]),

    ('a sphere of 10: inside in each pair of its dimensions, as the ellipses are, (6, 6, 6) is outside it',
     ['dims FSC-H SSC-H FL1-H',
      'ellip3 Sphere - FSC-H SSC-H FL1-H 0 0 0 100 0 0 100 0 100 1',
      'and Pairs - First Second Third',
      'ellip First - FSC-H SSC-H 0 0 100 0 100 1',
      'ellip Second - FSC-H FL1-H 0 0 100 0 100 1',
      'ellip Third - SSC-H FL1-H 0 0 100 0 100 1'],
     [('6 6 6', 'First Second Third Pairs'), ('-6 6 -6', 'First Second Third Pairs'), ('6 6 5', 'Sphere First Second Third Pairs'),
      ('6 8 0', 'Sphere First Second Third Pairs'), ('0 -6 8', 'Sphere First Second Third Pairs'), ('8 0 -6', 'Sphere First Second Third Pairs'),
      ('6 8 1', 'First Second Third Pairs'), ('10 0 1', 'First Third'), ('0 0 11', 'First')]),

    ('example 18 with a third dimension apart from the two, which has an axis of 100: at its mean the ellipse, as the requirement marks it',
     ['dims FSC-H SSC-H FL1-H',
      'ellip3 With - FSC-H SSC-H FL1-H 400 200 50 40000 0 0 30625 0 10000 1',
      'ellip Without - FSC-H SSC-H 400 200 40000 0 30625 1'],
     [('600 200 50', 'With Without'), ('400 375 50', 'With Without'), ('541 324 50', 'With Without'), ('400 376 50', ''), ('542 324 50', ''),
      ('601 200 50', ''), ('600 200 51', 'Without'), ('400 200 150', 'With Without'), ('400 200 151', 'Without'), ('400 340 110', 'With Without'),
      ('400 340 111', 'Without'), ('520 200 130', 'With Without')]),

    ('as wide as the scale: 31 times 4096 along each dimension, and (6, 21, 22) times 4096; the determinant is 2 to the 72',
     ['dims X Y Z',
      'ellip3 Wide - X Y Z -65536 -65536 -65536 16777216 0 0 16777216 0 16777216 961',
      'ellip3 Most - X Y Z -65536 -65536 -65536 16777216 0 0 16777216 0 16777216 4096'],
     [('61440 -65536 -65536', 'Wide Most'), ('-65536 61440 -65536', 'Wide Most'), ('-65536 -65536 61440', 'Wide Most'), ('-40960 20480 24576', 'Wide Most'),
      ('-65536 -65536 -65536', 'Wide Most'), ('61441 -65536 -65536', 'Most'), ('-40960 20480 24577', 'Most'), ('65535 65535 65535', 'Most')]),

    ('a matrix whose c11 alone is bad: the other two determinants are 1',
     ['dims X Y Z',
      'ellip3 Bad - X Y Z 0 0 0 -1 0 0 -1 0 1 1'],
     'refused 11 2'),

    ('a matrix whose upper left determinant alone is bad: it is -1, and the whole one is 1',
     ['dims X Y Z',
      'ellip3 Bad - X Y Z 0 0 0 1 0 0 -1 0 -1 1'],
     'refused 11 2'),

    ('a matrix whose whole determinant alone is bad: each pair has 3, and the three together 0',
     ['dims X Y Z',
      'ellip3 Bad - X Y Z 0 0 0 2 -1 -1 2 -1 2 1'],
     'refused 11 2'),

    ('an ellipsoid has no decimals, however whole',
     ['dims X Y Z',
      'ellip3 Bad - X Y Z 0 0 0 1 0 0 1 0 1.0 1'],
     'refused 7 2'),

    ('example 20, its matrix times ten, its means times a hundred: 3 · 0.3 is less than (-2)², so it is no covariance, and is refused',
     ['dims FL1-H FL2-H FL3-H',
      'ellip3 myEllipse3 - FL1-H FL2-H FL3-H 20 30 25 30 -20 110 3 -10 20 1'],
     'refused 11 2'),

    ('example 21, six quadrants',
     ['dims FSC-H SSC-H',
      'quad myQuadrantGate - 2 FSC-H 2 500 1000 SSC-H 1 400 Q1 200 600 Q2 600 600 Q3 1700 600 Q4 200 200 Q5 600 200 Q6 1700 200'],
     [('499 400', 'Q1'), ('-5 1000', 'Q1'), ('500 400', 'Q2'), ('999 400', 'Q2'), ('1000 400', 'Q3'), ('499 399', 'Q4'), ('500 399', 'Q5'),
      ('999 -65536', 'Q5'), ('1000 399', 'Q6'), ('65535 399', 'Q6')]),

    ('example 22, a dimension cut at two values',
     ['dims FL4-W',
      'quad myQuadrantGate2 - 1 FL4-W 2 10 100 FL4Neg 0 FL4Dim 50 FL4Pos 500'],
     [('9', 'FL4Neg'), ('-65536', 'FL4Neg'), ('10', 'FL4Dim'), ('99', 'FL4Dim'), ('100', 'FL4Pos'), ('65535', 'FL4Pos')]),

    ('example 23, its numbers times 100: no quadrant has FL2 below 0, so these do not tile, and the table is refused',
     ['dims FL1-A FL2-A',
      'quad myQuadrantGate3 - 2 FL1-A 1 50 FL2-A 2 0 25 CS1 * 100 CS2 10 10 CS3 60 10'],
     'refused 12 2'),

    ('example 23, with a fourth quadrant for FL2 below 0',
     ['dims FL1-A FL2-A',
      'quad myQuadrantGate3 - 2 FL1-A 1 50 FL2-A 2 0 25 CS1 * 100 CS2 10 10 CS3 60 10 CS4 * -1'],
     [('49 25', 'CS1'), ('50 25', 'CS1'), ('49 24', 'CS2'), ('49 0', 'CS2'), ('50 24', 'CS3'), ('50 0', 'CS3'), ('49 -1', 'CS4'), ('50 -1', 'CS4')]),

    ('examples 24 and 25, a box or an ellipse with axes of 10 and 5, and what is in neither',
     ['dims FSC-H SSC-H',
      'not myBoolean2 - myBoolean',
      'or myBoolean - R1 E1',
      'rect R1 - FSC-H 10 30 SSC-H 10 20',
      'ellip E1 - FSC-H SSC-H 30 15 100 0 25 1'],
     [('10 10', 'R1 myBoolean'), ('20 19', 'R1 myBoolean'), ('20 15', 'R1 E1 myBoolean'), ('30 10', 'E1 myBoolean'), ('40 15', 'E1 myBoolean'),
      ('30 20', 'E1 myBoolean'), ('41 15', 'myBoolean2'), ('9 15', 'myBoolean2'), ('25 20', 'myBoolean2'), ('30 21', 'myBoolean2')]),

    ('example 26, an `and` with one operand used as complement, without the pentagon, whose scale is logarithmic; its parent is a range from 100 on',
     ['dims FSC-H SSC-H FL4-W',
      'rect Range - FSC-H 100 *',
      'and myBoolean3 Range myEllipse !FL4Dim',
      'ellip myEllipse - FSC-H SSC-H 400 200 40000 0 30625 1',
      'quad myQuadrantGate2 - 1 FL4-W 2 10 100 FL4Neg 0 FL4Dim 50 FL4Pos 500'],
     [('400 200 9', 'Range myEllipse FL4Neg myBoolean3'), ('400 200 10', 'Range myEllipse FL4Dim'), ('400 200 100', 'Range myEllipse FL4Pos myBoolean3'),
      ('600 200 9', 'Range myEllipse FL4Neg myBoolean3'), ('601 200 9', 'Range FL4Neg'), ('99 200 9', 'FL4Neg')]),

    ('example 26, the parent as one operand more, which the document says is the same',
     ['dims FSC-H SSC-H FL4-W',
      'rect Range - FSC-H 300 *',
      'and Parent Range myEllipse !FL4Dim',
      'and Operand - Range myEllipse !FL4Dim',
      'ellip myEllipse - FSC-H SSC-H 400 200 40000 0 30625 1',
      'quad myQuadrantGate2 - 1 FL4-W 2 10 100 FL4Neg 0 FL4Dim 50 FL4Pos 500'],
     [('400 200 9', 'Range myEllipse FL4Neg Parent Operand'), ('250 200 9', 'myEllipse FL4Neg'), ('400 200 50', 'Range myEllipse FL4Dim'),
      ('601 200 9', 'Range FL4Neg')]),

    ('example 26, its quadrants within the range: what is outside the range is in no quadrant, and so in the complement of each',
     ['dims FSC-H SSC-H FL4-W',
      'rect Range - FSC-H 300 *',
      'and myBoolean3 - myEllipse !FL4Dim',
      'or Either - FL4Pos !FL4Dim',
      'not Same - !FL4Dim',
      'ellip myEllipse - FSC-H SSC-H 400 200 40000 0 30625 1',
      'quad myQuadrantGate2 Range 1 FL4-W 2 10 100 FL4Neg 0 FL4Dim 50 FL4Pos 500'],
     [('250 200 50', 'myEllipse myBoolean3 Either'), ('250 200 9', 'myEllipse myBoolean3 Either'), ('99 200 50', 'Either'),
      ('400 200 50', 'Range myEllipse FL4Dim Same'), ('400 200 9', 'Range myEllipse FL4Neg myBoolean3 Either'),
      ('400 200 100', 'Range myEllipse FL4Pos myBoolean3 Either'), ('700 200 50', 'Range FL4Dim Same')]),

    ('section 5.5, one of two but not both, as OR(AND(A, NOT(B)), AND(NOT(A), B)); A has a parent',
     ['dims FSC-H SSC-H',
      'or Xor - OnlyA OnlyB',
      'and OnlyA - A !B',
      'and OnlyB - !A B',
      'rect A P FSC-H 10 30',
      'rect B - SSC-H 10 20',
      'rect P - FSC-H 20 *'],
     [('20 9', 'A P OnlyA Xor'), ('20 10', 'A B P'), ('30 10', 'B P OnlyB Xor'), ('10 10', 'B OnlyB Xor'), ('10 9', ''), ('19 19', 'B OnlyB Xor'),
      ('30 20', 'P')]),
]

# fault of tests/reference/plants.py: words that begin the headings of the vectors that must see it
FAULTS = {
    'even-odd': ['example 15 walked twice', 'a star', 'the square'],
    'edge-excluded': ['example 15, a triangle', 'example 17', 'the square', 'the flat triangle'],
    'edge-unbounded': ['the square', 'the flat triangle'],
    'polygon-left-open': ['example 15, a triangle', 'a star'],
    'top-included': ['example 14', 'example 21', 'examples 24 and 25', 'section 5.5'],
    'bottom-excluded': ['example 14', 'example 21'],
    'rim-excluded': ['example 18', 'examples 24 and 25'],
    'c12-added': ['example 19'],
    'decimal-rim-excluded': ['as printed, example 19'],
    'decimal-d2-taken-for-whole': ['as printed, example 19'],
    'decimals-rounded-to-whole': ['as printed, example 19'],
    'ellip3-unknown': ['an upright', 'a turned', 'a sphere', 'example 18 with', 'as wide'],
    'ellip3-rim-excluded': ['an upright', 'a turned', 'the axes', 'a sphere', 'example 18 with', 'as wide'],
    'ellip3-third-mean-from-second': ['an upright', 'a turned', 'the axes', 'example 18 with'],
    'ellip3-z-from-y': ['an upright', 'a turned', 'the axes', 'as wide'],
    'ellip3-first-three-values': ['the axes'],
    'ellip3-values-in-head-order': ['the axes'],
    'ellip3-third-step-left-out': ['an upright', 'a turned', 'a sphere', 'example 18 with', 'as wide'],
    'ellip3-by-pairs': ['an upright', 'a turned', 'a sphere', 'as wide'],
    'ellip3-cofactor-12-turned': ['a turned', 'the axes'],
    'ellip3-cofactor-13-turned': ['a turned', 'the axes'],
    'ellip3-cofactor-23-turned': ['a turned', 'the axes'],
    'ellip3-cross-terms-once': ['a turned', 'the axes'],
    'ellip3-cross-term-12-once': ['a turned', 'the axes'],
    'ellip3-cross-term-13-once': ['a turned', 'the axes'],
    'ellip3-cross-term-23-once': ['a turned', 'the axes'],
    'ellip3-c13-c22-exchanged': ['an upright', 'a turned', 'the axes'],
    'ellip3-c13-c22-exchanged-in-words': ['an upright', 'a turned', 'the axes'],
    'ellip3-in-64-bits': ['as wide'],
    'ellip3-in-u64': ['as wide'],
    'ellip3-squares-in-32-bits': ['as wide'],
    'ellip3-c11-not-asked': ['a matrix whose c11'],
    'ellip3-minor-not-asked': ['a matrix whose upper left'],
    'ellip3-lower-right-asked': ['a matrix whose upper left'],
    'ellip3-whole-not-asked': ['a matrix whose whole'],
    'ellip3-whole-from-zero': ['a matrix whose whole'],
    'ellip3-pairs-asked': ['a matrix whose whole'],
    'ellip3-decimals-in-entries': ['an ellipsoid has no decimals'],
    'not-within-parent': ['example 26, its quadrants', 'section 5.5'],
    'combination-without-parent': ['example 26, the parent'],
    'lines-above-only': ['examples 24 and 25', 'section 5.5'],
}


# heading, table (spaces for tabs), events: values and the regions of which they are members on the outline
OUTLINES = [
    ('example 15, a triangle; its long side is y = 3/4 x',
     ['dims FSC-H SSC-H',
      'poly Triangle - FSC-H SSC-H 0 0 400 0 400 300'],
     [('0 0', 'Triangle'), ('400 0', 'Triangle'), ('400 300', 'Triangle'), ('200 0', 'Triangle'),
      ('200 150', 'Triangle'), ('400 100', 'Triangle'), ('200 149', ''), ('300 100', ''), ('200 151', ''),
      ('401 100', ''), ('400 301', '')]),

    ('example 17, an outline that crosses itself at (100, 100)',
     ['dims FSC-H SSC-H',
      'poly NonSimple - FSC-H SSC-H 50 50 150 50 50 150 150 150'],
     [('100 100', 'NonSimple'), ('75 75', 'NonSimple'), ('125 75', 'NonSimple'), ('100 50', 'NonSimple'),
      ('50 50', 'NonSimple'), ('100 60', ''), ('100 140', ''), ('60 100', ''), ('99 100', '')]),

    ('a star of five corners: its level edge parts two places that are both inside',
     ['dims FSC-H SSC-H',
      'poly Star - FSC-H SSC-H 50 100 79 10 2 65 98 65 21 10'],
     [('50 65', 'Star'), ('2 65', 'Star'), ('98 65', 'Star'), ('50 100', 'Star'), ('50 64', ''), ('50 66', ''),
      ('50 50', ''), ('50 10', ''), ('1 65', '')]),

    ('the square of the requirement walked twice, and once for each way round',
     ['dims X Y',
      'poly Twice - X Y 0 0 10 0 10 10 0 10 0 0 10 0 10 10 0 10',
      'poly Back - X Y 0 0 10 0 10 10 0 10 0 0 0 10 10 10 10 0'],
     [('10 5', 'Twice Back'), ('0 5', 'Twice Back'), ('0 0', 'Twice Back'), ('5 10', 'Twice Back'), ('5 5', ''),
      ('11 5', '')]),

    ('the flat triangle of the requirement, and a point',
     ['dims X Y',
      'poly Flat - X Y 0 0 4 0 8 0',
      'poly Point - X Y 9 0 9 0 9 0'],
     [('4 0', 'Flat'), ('8 0', 'Flat'), ('6 0', 'Flat'), ('4 1', ''), ('9 0', 'Point'), ('10 0', '')]),

    ('example 18, an ellipse with axes of 200 and 175; at 7/25 of one axis the rim is at 24/25 of the other',
     ['dims FSC-H SSC-H',
      'ellip myEllipse - FSC-H SSC-H 400 200 40000 0 30625 1'],
     [('600 200', 'myEllipse'), ('200 200', 'myEllipse'), ('400 375', 'myEllipse'), ('400 25', 'myEllipse'),
      ('456 368', 'myEllipse'), ('592 151', 'myEllipse'), ('520 340', 'myEllipse'), ('541 324', ''), ('400 200', ''),
      ('599 200', ''), ('601 200', ''), ('400 376', ''), ('456 367', ''), ('456 369', '')]),

    ('example 19, an ellipse turned by -45 degrees: 74 and 60 along its axes, over the root of 2, make (67, -7)',
     ['dims FSC-H SSC-H',
      'ellip myEllipse2 - FSC-H SSC-H 80 80 4538 -938 4538 1'],
     [('147 73', 'myEllipse2'), ('73 147', 'myEllipse2'), ('87 13', 'myEllipse2'), ('13 87', 'myEllipse2'),
      ('147 87', ''), ('146 73', ''), ('148 73', ''), ('132 28', ''), ('80 80', '')]),

    ('as printed, example 19, but for D²: with 2 the rim has (37, -37) and (30, 30) from the middle, with 4.000 it has (67, -7)',
     ['dims FSC-H SSC-H',
      'ellip Two - FSC-H SSC-H 40 40 1134.5 -234.5 1134.5 2.0',
      'ellip Four - FSC-H SSC-H 40 40 1134.5 -234.50 1134.500 4'],
     [('77 3', 'Two'), ('3 77', 'Two'), ('70 70', 'Two'), ('10 10', 'Two'), ('107 33', 'Four'), ('33 107', 'Four'), ('47 -27', 'Four'),
      ('76 3', ''), ('71 70', ''), ('40 40', ''), ('106 33', '')]),

    ('an upright ellipsoid with axes of 21, 30 and 60, and of twice these for D² = 4; (129, 241, 341) is on the rim of a child, but not in its parent',
     ['dims FSC-H SSC-H FL1-H',
      'ellip3 Half - FSC-H SSC-H FL1-H 100 200 300 441 0 0 900 0 3600 1',
      'ellip3 Upright - FSC-H SSC-H FL1-H 100 200 300 441 0 0 900 0 3600 4',
      'rect Box Upright FL1-H 300 *',
      'ellip3 Child Box FL1-H FSC-H SSC-H 340 128 240 1 0 0 1 0 1 3'],
     [('121 200 300', 'Half'), ('100 170 300', 'Half'), ('100 200 360', 'Half'), ('107 220 340', 'Half'), ('93 180 260', 'Half'), ('114 190 340', 'Half'),
      ('142 200 300', 'Upright'), ('100 260 300', 'Upright'), ('100 200 180', 'Upright'), ('114 240 380', 'Upright'), ('128 220 380', 'Upright'),
      ('128 240 340', 'Upright'), ('127 239 339', 'Child'), ('129 241 341', ''), ('107 220 339', ''), ('108 220 340', ''), ('100 200 300', ''),
      ('143 200 300', ''), ('114 240 381', '')]),

    ('a turned ellipsoid with axes along (1, 2, 2), (2, 1, -2) and (2, -2, 1), 10, 6 and 3 times these, for D² of 1 and of 9',
     ['dims FSC-H SSC-H FL1-H',
      'ellip3 Turned - FSC-H SSC-H FL1-H 50 60 70 280 236 74 472 310 553 1',
      'ellip3 Wider - FSC-H SSC-H FL1-H 50 60 70 280 236 74 472 310 553 9'],
     [('60 80 90', 'Turned'), ('40 40 50', 'Turned'), ('62 66 58', 'Turned'), ('38 54 82', 'Turned'), ('56 54 73', 'Turned'), ('44 66 67', 'Turned'),
      ('96 80 72', 'Wider'), ('4 40 68', 'Wider'), ('80 120 130', 'Wider'), ('86 78 34', 'Wider'), ('68 42 79', 'Wider'), ('50 60 70', ''), ('61 80 90', ''),
      ('62 66 82', ''), ('56 66 73', ''), ('97 80 72', ''), ('96 40 72', '')]),

    ('example 18 with a third dimension apart from the two, which has an axis of 100: at its mean the outline is that of the ellipse',
     ['dims FSC-H SSC-H FL1-H',
      'ellip3 With - FSC-H SSC-H FL1-H 400 200 50 40000 0 0 30625 0 10000 1',
      'ellip Without - FSC-H SSC-H 400 200 40000 0 30625 1'],
     [('600 200 50', 'With Without'), ('400 375 50', 'With Without'), ('456 368 50', 'With Without'), ('456 367 50', ''), ('600 200 51', 'Without'),
      ('400 200 150', 'With'), ('400 340 110', 'With'), ('520 200 130', 'With'), ('400 340 109', ''), ('400 340 111', '')]),

    ('as wide as the scale: 31 times 4096 along each dimension, and (6, 21, 22) times 4096',
     ['dims X Y Z',
      'ellip3 Wide - X Y Z -65536 -65536 -65536 16777216 0 0 16777216 0 16777216 961'],
     [('61440 -65536 -65536', 'Wide'), ('-65536 61440 -65536', 'Wide'), ('-65536 -65536 61440', 'Wide'), ('-40960 20480 24576', 'Wide'),
      ('-65536 -65536 -65536', ''), ('-65280 -65536 -65536', ''), ('61439 -65536 -65536', ''), ('61441 -65536 -65536', ''), ('-40960 20480 24575', '')]),

    ('examples 24 and 25, a box or an ellipse with axes of 10 and 5: neither the box nor a combination has an outline',
     ['dims FSC-H SSC-H',
      'not myBoolean2 - myBoolean',
      'or myBoolean - R1 E1',
      'rect R1 - FSC-H 10 30 SSC-H 10 20',
      'rect R2 E1 FSC-H 30 *',
      'ellip E1 - FSC-H SSC-H 30 15 100 0 25 1'],
     [('40 15', 'E1'), ('30 20', 'E1'), ('36 19', 'E1'), ('24 11', 'E1'), ('10 10', ''), ('20 19', ''), ('30 15', ''),
      ('41 15', '')]),

    ('example 26, the ellipse within the range: on its rim and below the range it is no member',
     ['dims FSC-H SSC-H FL4-W',
      'rect Range - FSC-H 300 *',
      'ellip myEllipse Range FSC-H SSC-H 400 200 40000 0 30625 1',
      'and myBoolean3 myEllipse Range Range',
      'quad myQuadrantGate2 myEllipse 1 FL4-W 2 10 100 FL4Neg 0 FL4Dim 50 FL4Pos 500',
      'poly Around myEllipse FSC-H SSC-H 600 0 600 400 0 400'],
     [('600 200 9', 'myEllipse Around'), ('400 375 50', 'myEllipse'), ('300 200 50', 'Around'), ('200 200 9', ''),
      ('280 340 9', ''), ('520 340 9', 'myEllipse'), ('400 200 100', '')]),
]

# fault of tests/reference/plants.py: words that begin the headings of the outlines that must see it
OUTLINE_FAULTS = {
    'edge-said-inside': ['example 15', 'example 17', 'a star', 'the square', 'the flat triangle'],
    'rim-said-inside': ['example 18', 'example 19', 'examples 24 and 25', 'example 26'],
    'edge-without-ends': ['example 15', 'the square'],
    'edge-without-length': ['the flat triangle'],
    'edge-where-sum': ['the square'],
    'inner-edge-said-inside': ['a star'],
    'edges-cancel': ['example 15', 'the square'],
    'closing-edge-left-out': ['example 15'],
    'rim-with-c12-added': ['example 19'],
    'decimal-rim-said-inside': ['as printed, example 19'],
    'decimal-rim-as-kind-3': ['as printed, example 19'],
    'ellip3-rim-said-inside': ['an upright', 'a turned', 'example 18 with', 'as wide'],
    'ellip3-tilted-rim-said-inside': ['a turned'],
    'ellip3-rim-in-64-bits': ['as wide'],
    'ellip3-rim-with-cofactor-12-turned': ['a turned'],
    'ellip3-rim-with-cofactor-13-turned': ['a turned'],
    'ellip3-rim-with-cofactor-23-turned': ['a turned'],
    'ellip3-rim-without-third-step': ['an upright', 'a turned', 'as wide'],
    'outline-out-of-parent': ['example 26', 'an upright'],
    'or-takes-over-outline': ['examples 24 and 25'],
    'box-takes-over-outline': ['examples 24 and 25', 'example 26'],
    'shape-takes-over-outline': ['example 26'],
    'combination-takes-parents': ['example 26'],
}


# ---------------------------------------------------------------- long outlines

def begun(name, vertices, *starts):
    """The same outline begun at some of its vertices, or at each: name and vertices."""
    return [('%s%d' % (name, start), vertices[start:] + vertices[:start]) for start in starts or range(len(vertices))]


def backwards(vertices):
    return vertices[::-1]


def mapped(change, outlines):
    return [(name, [change(x, y) for x, y in vertices]) for name, vertices in outlines]


def mapped_events(change, *events):
    return [', '.join('%d %d' % change(*map(int, event.split())) for event in some.split(',')) for some in events]


def hill(steps):
    """Corners at (2k, 2k(steps - k)), so that the middle of the side from there is (2k + 1, k(steps - k) + (k + 1)(steps - 1 - k)); the ground closes it."""
    return [(2 * k, 2 * k * (steps - k)) for k in range(steps + 1)]


def comb(teeth):
    """A back from height -10 to 0 and teeth to 20, each 4 wide, so 2 at height 10; the left side of the back closes it."""
    return [(0, -10), (4 * teeth, -10)] + [point for k in range(teeth, 0, -1) for point in ((4 * k, 0), (4 * k - 2, 20))] + [(0, 0)]


# The square from (0, 0) to (128, 128), 64 vertices on each side, and the same with the corners alone.
SQUARE = ([(x, 0) for x in range(0, 128, 2)] + [(128, y) for y in range(0, 128, 2)]
          + [(x, 128) for x in range(128, 0, -2)] + [(0, y) for y in range(128, 0, -2)])
CORNERS = [(0, 0), (128, 0), (128, 128), (0, 128)]
# A plate from height 10 to 20; from its lower side, of 20 vertices, a tip goes down to (20, 0).
TIP = ([(x, 10) for x in range(0, 20, 2)] + [(20, 0)] + [(x, 10) for x in range(22, 42, 2)] + [(x, 20) for x in range(40, -2, -2)])
TIP_EVENTS = ('20 0, 19 5, 21 5, 18 10, 22 10, 17 10, 1 10, 0 10, 40 10, 39 10, 40 15, 0 15, 20 20, 19 20, 0 20, 40 20',
              '20 1, 20 5, 19 10, 20 10, 21 10, 20 15, 1 15, 39 11, 1 11, 1 19',
              '19 0, 21 0, -1 0, 41 0, 20 -1, 18 5, 22 5, 0 5, 40 5, -1 10, 41 10, -1 20, 41 20, 20 21, 1 9, 18 9')
HILL_EVENTS = ('0 0, 32 0, 16 128, 2 30, 30 30, 1 15, 15 127, 17 127, 31 15, 1 0, 16 0, 31 0',
               '1 14, 1 1, 16 127, 15 126, 16 1, 31 14, 31 1, 16 64, 3 30, 16 30',
               '1 16, 15 128, 17 128, 16 129, 31 16, -1 0, 33 0, 16 -1, 0 1, 32 1, 0 128, 32 128, 1 30, 31 30')
COMB_EVENTS = ('0 -10, 160 -10, 80 -10, 160 0, 160 -5, 0 0, 0 -5, 80 0, 2 20, 158 20, 82 20, 1 10, 3 10, 157 10, 159 10, 81 10, 83 10',
               '2 10, 158 10, 82 10, 2 19, 2 0, 158 0, 82 0, 80 -1, 80 -9, 1 -5, 159 -5, 1 1, 3 1',
               '4 10, 80 10, 0 10, 160 10, 0 20, 4 20, 160 20, 80 20, -1 0, 161 0, -1 20, 161 20, -1 -10, 161 -10, 80 -11, 2 21, 4 1, 0 1, -1 10, 161 10')
# A level side of 61 vertices at the upper or the lower end of a plate from (0, 0) to (120, 10).
LEVEL = [(0, 0), (120, 0)] + [(x, 10) for x in range(120, -2, -2)]
# From (0, 0) to (256, 0) by steps up and down, 2 high, and back the same way.
STEPS = [(2 * k, 2 * (k % 2)) for k in range(129)]


def star(stride):
    """The vertices of the square, each joined to the one so many further on: each edge turns by so many 256ths of a whole turn round (64, 64)."""
    return [SQUARE[stride * k % 256] for k in range(256)]


# heading, outlines, then the events that are on all of them, inside all and outside all
LONG = [
    ('256 vertices of a square: begun at several, the other way round, walked twice with 128, and 64 times with 4',
     begun('From', SQUARE, 0, 1, 64, 255) + [('Back', backwards(SQUARE)), ('Twice', SQUARE[::2] * 2), ('Often', CORNERS * 64)],
     '0 0, 128 0, 128 128, 0 128, 1 0, 2 0, 63 0, 127 0, 128 1, 128 64, 128 127, 127 128, 65 128, 1 128, 0 127, 0 64, 0 2, 0 1',
     '64 64, 1 1, 127 127, 1 127, 127 1, 2 2, 64 1, 64 127, 1 64, 127 64',
     '-1 0, 129 0, -1 128, 129 128, 0 -1, 0 129, 64 -1, 64 129, -1 64, 129 64, -1 1, 129 1, -1 127, 129 127'),

    ('256 vertices of a star that goes 127 times round its middle: that is inside, and the outline is next to it',
     [('Star', star(127)), ('Back', backwards(star(127)))],
     '65 64, 63 64, 64 65, 64 63, 0 0, 64 0, 66 0, 128 128, 0 2', '64 64', '-1 64, 129 64, 64 -1, 64 129, -1 0, 129 128'),

    ('256 vertices of a star that goes 126 times round its middle, in two rounds of 128: an even number, and inside',
     [('Star', star(126)), ('Back', backwards(star(126)))],
     '66 64, 62 64, 64 66, 64 62, 0 0, 64 0, 128 128, 0 4', '64 64', '-1 64, 129 64, 64 -1, 64 129, -1 0, 129 128'),

    ('a comb of 40 teeth, 83 vertices: at the heights of its tips and of the places between them it is met again and again',
     begun('From', comb(40), 0, 1, 2, 3, 40, 41, 81, 82) + begun('Back', backwards(comb(40)), 0, 1, 82), *COMB_EVENTS),

    ('a lying comb of 40 teeth, 83 vertices: an event has up to 80 edges beside it',
     mapped(lambda x, y: (y, x), begun('From', comb(40), 0, 1, 2, 3, 40, 41, 81, 82) + begun('Back', backwards(comb(40)), 0, 1, 82)),
     *mapped_events(lambda x, y: (y, x), *COMB_EVENTS)),

    ('combs of 126 teeth, 255 vertices, and 256 with one on the back',
     [('Comb', comb(126)), ('Last', comb(126)[1:] + comb(126)[:1]), ('Back', backwards(comb(126))), ('More', comb(126)[:1] + [(252, -10)] + comb(126)[1:])],
     '1 10, 503 10, 249 10, 251 10, 250 20, 252 0, 0 -5, 504 -5, 252 -10, 1 -10, 0 0, 504 0',
     '2 10, 502 10, 250 10, 250 19, 250 0, 252 -1, 252 -9',
     '4 10, 252 10, 500 10, -1 10, 505 10, -1 0, 505 0, -1 20, 505 20, 252 20, 252 -11, 250 21'),

    ('a hill of 17 vertices begun at each of them, so that each of its edges is the closing one', begun('From', hill(16)), *HILL_EVENTS),

    ('a leaning hill of 17 vertices begun at each of them; no edge is level', mapped(lambda x, y: (x, x + y), begun('From', hill(16))),
     *mapped_events(lambda x, y: (x, x + y), *HILL_EVENTS)),

    ('a hill of 33 vertices begun at each of them', begun('From', hill(32)),
     '0 0, 64 0, 32 512, 2 62, 62 62, 1 31, 31 511, 33 511, 63 31, 1 0, 32 0, 63 0',
     '1 30, 1 1, 32 511, 31 510, 32 1, 63 30, 63 1, 32 256, 3 62, 32 62',
     '1 32, 31 512, 33 512, 32 513, 63 32, -1 0, 65 0, 32 -1, 0 1, 64 1, 1 62, 63 62'),

    ('a hill of 256 vertices with a level top, begun at several of them', begun('From', hill(255), 0, 1, 64, 127, 128, 254, 255),
     '0 0, 510 0, 254 32512, 255 32512, 256 32512, 2 508, 508 508, 1 254, 509 254, 1 0, 255 0, 509 0',
     '1 253, 255 32511, 255 1, 509 253, 255 16000, 3 508, 507 508',
     '1 255, 253 32512, 257 32512, 255 32513, 509 255, -1 0, 511 0, 255 -1, 0 1, 510 1, 1 508, 509 508'),

    ('a tip that touches a height from above, 42 vertices begun at each of them', begun('From', TIP), *TIP_EVENTS),

    ('a tip that touches a height from below, 42 vertices begun at each of them', mapped(lambda x, y: (x, -y), begun('From', TIP)),
     *mapped_events(lambda x, y: (x, -y), *TIP_EVENTS)),

    ('61 of 63 vertices at one height, begun at several',
     begun('Top', LEVEL, *range(0, 63, 7), 1, 62) + mapped(lambda x, y: (x, 10 - y), begun('Low', LEVEL, *range(0, 63, 7), 1, 62)),
     '0 0, 120 0, 60 0, 61 0, 120 5, 120 10, 119 10, 60 10, 61 10, 1 10, 0 10, 0 5', '60 5, 60 9, 61 9, 1 9, 119 1, 1 1, 60 1, 61 1',
     '-1 10, 121 10, -1 0, 121 0, 60 11, 61 11, 0 11, 60 -1, 61 -1, -1 5, 121 5'),

    ('256 vertices at three places: a triangle whose other edges have no length',
     begun('From', [(0, 0)] * 86 + [(10, 0)] * 85 + [(0, 10)] * 85, 0, 1, 43, 85, 86, 255),
     '0 0, 10 0, 0 10, 5 0, 0 5, 5 5, 1 9', '1 1, 3 3, 4 5, 8 1', '6 5, 5 6, 11 0, -1 0, 0 11, 0 -1, -1 10, 1 10, -1 5, 10 1'),

    ('256 vertices of a way and the same way back, which enclose nothing', begun('From', STEPS + STEPS[-2:0:-1], 0, 1, 127, 128, 129, 255),
     '0 0, 1 1, 2 2, 3 1, 4 0, 127 1, 128 0, 255 1, 256 0, 254 2', '',
     '2 1, 1 0, 1 2, 0 1, 4 1, 128 1, 128 2, -1 0, 257 0, 256 1, 255 0, 255 2, 256 2, -1 2'),

    ('101 vertices on one line, neither in order nor level', begun('From', [(2 * (37 * k % 101), 37 * k % 101) for k in range(101)], 0, 1, 50, 99, 100),
     '0 0, 2 1, 100 50, 198 99, 200 100', '', '1 1, 1 0, -2 -1, 202 101, 100 51, 99 50, 101 50, 0 100, 200 0'),
]

def given(lines):
    return ('\n'.join(lines).replace(' ', '\t') + '\n').encode()


def opening(table):
    """The lines before the events of a list: `events`, and the names of the table's head."""
    return ['events', table[0].split(' ', 1)[1]]


def printed(output):
    return output.decode().replace('\t', ' ').splitlines()


def runs(table, events):
    """The inputs of one vector: the table with each event alone, or the table by itself where it is refused."""
    return [given(table)] if isinstance(events, str) else [given(table + opening(table) + [event]) for event, _ in events]


def faults_seen(expect):
    """Each planted fault gives another answer on each of the vectors named with it."""
    for fault, headings in FAULTS.items():
        for words in headings:
            inputs = [data for heading, table, events in VECTORS if heading.startswith(words) for data in runs(table, events)]
            plain = [gates.gatecount(data) for data in inputs]
            with plants.planted(fault):
                expect('the fault %s is seen by: %s' % (fault, words), True, [gates.gatecount(data) for data in inputs] != plain)


def unclaimed_told(expect, gatesheet):
    """The line of the unclaimed on a sheet of all events of a vector, a spoilt one behind each, and of the same in two lists."""
    asked = [('the reference', gates.gatesheet)]
    if gatesheet:
        asked.append(('the program', lambda data: subprocess.run(gatesheet, input=data, stdout=subprocess.PIPE, timeout=60).stdout))
    for heading, table, events in VECTORS:
        if isinstance(events, str):
            continue
        spoilt = ' '.join(['70000'] * len(table[0].split()[1:]))
        lines = [[line for event, _ in some for line in (event, spoilt)] for some in (events, events[:2], events[2:])]
        left = [sum(1 for _, holders in some if not holders) for some in (events, events[:2], events[2:])]
        for who, ask in asked:
            for lists, unclaimed in ((lines[:1], left[:1] * 2), (lines[1:], left[1:] + left[:1])):
                found = printed(ask(given(table + [line for each in lists for line in opening(table) + each])))
                expect('the unclaimed in %d lists by %s, %s' % (len(lists), who, heading), ' '.join(['unclaimed'] + [str(number) for number in unclaimed]),
                       found[-3] if len(found) > 3 else found)


def outlined(ask, table, events):
    """The regions of which each event is a member on the outline, by what is answered to `compile` and `judge`."""
    names = gates.compile_table(given(table), gates.PLAN_WORDS)[3]
    words = compare.compiled_words(ask(('compile', gates.PLAN_WORDS, given(table))))
    found = []
    for event, _ in events:
        answer = words and ask(('judge', words, [int(value) for value in event.split()]))
        fields = answer.decode().split(' ') if answer else []
        found.append(sorted(name.decode() for name, bit in zip(names, fields[3]) if bit == '1')
                     if fields[:2] == ['0', '0'] and len(fields) == 4 else answer)
    return found


def outlines_told(expect, plans):
    """The outlines by the program, where it is given, and by the reference; and with faults planted there."""
    asked = [('the reference', compare.reference_answer)]
    if plans:
        asked.append(('the program', lambda question: compare.ask(plans, [compare.question_line(question)])[0]))
    for heading, table, events in OUTLINES:
        for who, ask in asked:
            for (event, holders), found in zip(events, outlined(ask, table, events)):
                expect('outlines of %s by %s, %s' % (event, who, heading), sorted(holders.split()), found)
    for fault, headings in OUTLINE_FAULTS.items():
        for words in headings:
            chosen = [(table, events) for heading, table, events in OUTLINES if heading.startswith(words)]
            plain = [outlined(compare.reference_answer, *each) for each in chosen]
            with plants.planted(fault):
                expect('the fault %s is seen by the outlines of: %s' % (fault, words), True,
                       [outlined(compare.reference_answer, *each) for each in chosen] != plain)


def long_events(events):
    """Each event with what is said of it: on the outlines, inside or outside."""
    return [([int(value) for value in event.split()], said) for some, said in zip(events, (gates.ON_OUTLINE, gates.INSIDE, gates.OUTSIDE))
            for event in some.split(',') if event]


def long_told(expect, command, plans):
    """The long outlines: all that are on or inside, and all that are outside, counted; each event judged. Then each fault of a walk is to be seen."""
    asked = [('the reference', gates.gatecount, lambda questions: [compare.reference_answer(question) for question in questions]),
             ('the program', lambda data: subprocess.run(command, input=data, stdout=subprocess.PIPE, timeout=60).stdout,
              plans and (lambda questions: compare.ask(plans, [compare.question_line(question) for question in questions])))]
    for heading, outlines, *events in LONG:
        table = ['dims X Y'] + ['poly %s - X Y %s' % (name, ' '.join('%d %d' % vertex for vertex in vertices)) for name, vertices in outlines]
        everywhere, events = (1 << len(outlines)) - 1, long_events(events)
        for who, counted, judged in asked:
            for held in (True, False):
                some = ['%d %d' % tuple(event) for event, said in events if (said != gates.OUTSIDE) == held]
                expect('%d events counted by %s, %s' % (len(some), who, heading),
                       ['%s %d' % (name, held * len(some)) for name, _ in outlines] + ['taken %d' % len(some), 'spoilt 0'],
                       printed(counted(given(table + opening(table) + some))))
            if not judged:
                continue
            words = compare.compiled_words(judged([('compile', gates.PLAN_WORDS, given(table))])[0]) or []
            for (event, said), found in zip(events, judged([('judge', words, event) for event, _ in events])):
                bits, outline = everywhere * (said != gates.OUTSIDE), everywhere * (said == gates.ON_OUTLINE)
                expect('%s judged by %s, %s' % (event, who, heading), b'0 0 %s %s' % (
                    compare.written(bits).encode(), compare.written(outline).encode()), found)
    places = [([value for vertex in vertices for value in vertex], event, said) for _, outlines, *events in LONG
              for _, vertices in outlines for event, said in long_events(events)]
    for fault in plants.PLANTS:
        if fault.startswith('walk-'):
            with plants.planted(fault):
                expect('the fault %s is seen by a long outline' % fault, True,
                       any(gates.polygon_position(vertices, *event) != said for vertices, event, said in places))


def redrawn_vectors():
    """The vectors and outlines with polygons: heading, table, events, the field of an answer that tells what is worked out by hand, and the ways
    to draw the polygons: all together, each in all its own ways."""
    for vectors, field in ((VECTORS, 2), (OUTLINES, 3)):
        for heading, table, events in vectors:
            sizes = redraw.poly_lines(given(table))
            if sizes and not isinstance(events, str):
                yield heading, table, events, field, [{line: redraw.ways(size)[turn % (2 * size)] for line, size in sizes.items()}
                                                      for turn in range(2 * max(sizes.values()))]


def redrawn_answers(ask, table, events, turns):
    """For each turn the answers to `compile` and to `judge` of each event by that plan."""
    compiled = ask([('compile', gates.PLAN_WORDS, redraw.redrawn_table(given(table), chosen)) for chosen in turns])
    judged = ask([('judge', compare.compiled_words(answer) or [], [int(value) for value in event.split()]) for answer in compiled for event, _ in events])
    return [(answer, judged[turn * len(events):(turn + 1) * len(events)]) for turn, answer in enumerate(compiled)]


def drawn_alike(table, turns, answers):
    """For each turn whether its answers are those of the first, in which all stands as it is."""
    question, (first, judged) = ('compile', gates.PLAN_WORDS, given(table)), answers[0]
    return [(compare.answered_alike(question, chosen, first, words), bits == judged) for chosen, (words, bits) in zip(turns, answers)]


def redrawn_told(expect, plans):
    """The polygons of vectors and outlines drawn anew, by the program, where it is given, and by the reference; and with faults planted there."""
    def by_reference(questions):
        return [compare.reference_answer(question) for question in questions]

    asked = [('the reference', by_reference)]
    if plans:
        asked.append(('the program', lambda questions: compare.ask(plans, [compare.question_line(question) for question in questions])))
    chosen = list(redrawn_vectors())
    for heading, table, events, field, turns in chosen:
        names = gates.compile_table(given(table), gates.PLAN_WORDS)[3]
        wanted = [sorted(holders.split()) for _, holders in events]
        for who, ask in asked:
            answers = redrawn_answers(ask, table, events, turns)
            for ways, alike, (_, judged) in zip(turns, drawn_alike(table, turns, answers), answers):
                found = [answer.decode().split(' ')[field] if answer and answer.startswith(b'0 0 ') else '' for answer in judged]
                where = '%s drawn by %s, %s' % (sorted(ways.items()), who, heading)
                expect(where, wanted, [sorted(name.decode() for name, bit in zip(names, bits) if bit == '1') if bits else None for bits in found])
                if ways != turns[0]:
                    expect(where + ': plan and answers are those of before', (True, True), alike)
    for fault in sorted(plants.BY_REDRAWING):
        with plants.planted(fault):
            seen = any(alike != (True, True) for _, table, events, _, turns in chosen
                       for alike in drawn_alike(table, turns, redrawn_answers(by_reference, table, events, turns)))
        expect('the fault %s is seen by redrawing alone' % fault, True, seen)


def main():
    parser = argparse.ArgumentParser(description=__doc__.split('\n')[0])
    parser.add_argument('--gatecount', type=shlex.split, default=['target/bin/gatecount'], metavar='COMMAND')
    parser.add_argument('--gatesheet', type=shlex.split, metavar='COMMAND')
    parser.add_argument('--plans', type=shlex.split, metavar='COMMAND',
                        help='answers the questions of tests/compare.py')
    options = parser.parse_args()
    command = options.gatecount
    passed = failed = 0

    def expect(what, wanted, found):
        nonlocal passed, failed
        if wanted == found:
            passed += 1
        else:
            failed += 1
            print('FAILED %s: %s expected, %s found' % (what, wanted, found))

    for heading, table, events in VECTORS:
        outputs = [printed(subprocess.run(command, input=data, stdout=subprocess.PIPE, timeout=60).stdout) for data in runs(table, events)]
        if isinstance(events, str):
            expect(heading, [[events]], outputs)
            continue
        for (event, holders), lines in zip(events, outputs):
            expect('%s, taken, of %s' % (event, heading), ['taken 1', 'spoilt 0'], lines[-2:])
            members = sorted(line.split()[0] for line in lines[:-2] if line.split()[1] == '1')
            expect('%s of %s' % (event, heading), sorted(holders.split()), members)
    faults_seen(expect)
    unclaimed_told(expect, options.gatesheet)
    outlines_told(expect, options.plans)
    long_told(expect, command, options.plans)
    redrawn_told(expect, options.plans)
    print('%d passed, %d failed' % (passed, failed))
    return failed != 0


if __name__ == '__main__':
    raise SystemExit(main())
