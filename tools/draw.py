#!/usr/bin/env python3
"""Draws a gate table and its events as an SVG.

    tools/draw.py [FILE] [-o FILE.svg] [--x NAME] [--y NAME] [--x-range LOW HIGH] [--y-range LOW HIGH] [--title TEXT]

FILE is an input of gatecount, a table and perhaps the line `events`, the column line and events; without FILE it is
read from standard input. The picture goes to standard output, or to the file after -o. What gatecount refuses is not drawn:
the refusal is told on standard error, as gatecount prints it, and of a wrong column line which names are asked for.

Axes: two dimensions of the head, the first two unless --x and --y name others. Where the head has
one dimension, the other axis is the event's number in the list.

Gates: a region is drawn when it bounds none but the two dimensions of the picture. A box that bounds one
of them is a band. A solid edge belongs to the box, a dashed one does not. A quadrant is drawn by its
lower edges, since its upper ones are the lower ones of others. The fill shows the shape within those of its
parents that are drawn. `and`, `or` and `not` have no outline and stand in the legend only.

Ellipsoids: an `ellip3` is drawn over two of its three dimensions, as the outline of its projection on them,
dash-dotted; its row in the legend says so. An event within that outline may lie outside the ellipsoid in the third.

Events: a dot has the colour of the first region in the table that the event is a member of. A spoilt event
is a cross; where its values lie off the picture, at the frame.

Outlines: a dot is circled when the event is a member of a region and on the outline of that region's own shape,
an edge of its polygon, the rim of its ellipse or the surface of its ellipsoid, drawn or not. Boxes, quadrants and combinations
have none.

The legend has gatecount's names and counts, how many events taken are in no region and, where there are
some, how many are on an outline.

Tables are read, and members and outlines decided, by the reference program in tests/reference, not by the proved one;
tests/users compares the counts of the legend with those of gatecount.
"""

import argparse
import collections
import math
import os
import sys
from xml.sax.saxutils import escape, quoteattr

sys.path.insert(0, os.path.join(os.path.dirname(os.path.abspath(__file__)), '..', 'tests', 'reference'))

import gates

PLOT_WIDTH, PLOT_HEIGHT = 520, 440
LEFT, TOP, BOTTOM, GAP = 78, 46, 58, 26
ROW, LEGEND_WIDTH = 21, 262      # of the legend at least
PADDING = 0.08          # of the range, on each side
SHORT_LIST = 60         # up to so many events each dot is kept in sight

# The colours that Okabe and Ito chose for readers with any colour vision; grey and black are kept apart.
COLOURS = ('#0072b2', '#e69f00', '#009e73', '#cc79a7', '#56b4e9', '#d55e00', '#b8a500', '#7a5cc9')
NO_REGION, SPOILT, CIRCLE = '#8a8a8a', '#000000', '#222'


class Refused(Exception):
    """What gatecount refuses is not drawn."""


# ---------------------------------------------------------------- the input

Input = collections.namedtuple('Input', 'head gates events members outlines spoilt counts')


def test_columns(line, head):
    """The column line of a list is the names of the head; one that is missing at the input's end is empty."""
    fields = line.rstrip(b'\n').split(b'\t')
    if fields != head:
        same = [one == other for one, other in zip(fields, head)]
        place = same.index(False) if False in same else len(same)
        raise Refused('refused\t31\t%d (the line after `events` must be the names of the head: %s)' % (place, ' '.join(name.decode() for name in head)))


def read_input(data):
    """The table and the events of an input of gatecount, whom each region holds and who is on its outline."""
    if len(data) > gates.INPUT_BYTES:
        raise Refused('refused\t1\t0')
    table, lines, events_line, closed = gates.part_input(data)
    number, place, _, names = gates.compile_table(table, gates.PLAN_WORDS)
    if number:
        raise Refused('refused\t%d\t%d' % (number, place))
    if not closed:
        raise Refused('refused\t23\t%d' % events_line)
    _, _, head, table_gates = gates.read_table(table)
    events = []
    if events_line is not None:
        columns = b''.join(lines[:1])
        test_columns(columns, head)
        if not columns.endswith(b'\n'):
            raise Refused('refused\t23\t%d' % (events_line + 1))
        for number, line in enumerate(lines[1:], events_line + 2):
            event = gates.event_values(line, len(head))
            if event is None:
                raise Refused('refused\t23\t%d' % number)
            events.append(event)
    names_of, outlines_of = gates.membership(table), gates.outlines(table)
    members = [names_of(event) for event in events]
    outlines = [outlines_of(event) for event in events]
    spoilt = [gates.is_spoilt(event) for event in events]
    counts = {name: sum(name in held for held in members) for name in names}
    return Input(head, table_gates, events, members, outlines, spoilt, counts)


# ---------------------------------------------------------------- shapes in data coordinates

Region = collections.namedtuple('Region', 'name parent shape colour note')

# Shapes: ('box', {dimension: (low or None, high or None)}), ('quadrant', the same),
#         ('poly', dimensions, points), ('ellip', dimensions, numbers), ('projection', the same) for an ellipsoid over
#         two of its dimensions, None for a combination, and for an ellipsoid over others.


def number(field):
    return gates.number_value(field)


def bounds_of(gate):
    """The dimensions that a box bounds; a triple with two `*` bounds nothing."""
    found = {}
    for dimension, low, high in gate.bounds:
        ends = tuple(None if field == b'*' else number(field) for field in (low, high))
        if ends != (None, None):
            found[dimension] = ends
    return found


def quadrant_bounds(gate, representatives):
    found = {}
    for (dimension, fields), representative in zip(gate.dividers, representatives):
        if representative != b'*':
            low, high = gates.interval([number(field) for field in fields], representative)
            found[dimension] = (None if low == gates.NO_MIN else low, None if high == gates.NO_MAX else high)
    return found


def projection(gate, x, y):
    """The ellipse that an ellipsoid fills over two of its dimensions: their means and entries, the same D^2."""
    if x not in gate.dimensions or y not in gate.dimensions:
        return None
    means, rows, d2 = gates.ellipsoid_numbers(gate)
    a, b = gate.dimensions.index(x), gate.dimensions.index(y)
    return 'projection', (x, y), [means[a], means[b], rows[a][a], rows[a][b], rows[b][b], d2]


def colour_of(region):
    """The palette, and past its end hues far apart from one to the next."""
    if region < len(COLOURS):
        return COLOURS[region]
    return 'hsl(%d,55%%,42%%)' % (360 * (region - len(COLOURS)) * 0.381966 % 360)


def regions_of(given, x, y):
    """The regions in table order with their shapes, those of ellipsoids in the plane of the picture."""
    found = []
    for gate in given.gates:
        kind = gate.kind.decode()
        if kind == 'quad':
            shapes = [(name, ('quadrant', quadrant_bounds(gate, representatives)))
                      for name, representatives in gate.quadrants]
        elif kind == 'rect':
            shapes = [(gate.name, ('box', bounds_of(gate)))]
        elif kind == 'poly':
            values = [number(field) for field in gate.vertices]
            shapes = [(gate.name, ('poly', gate.dimensions, list(zip(values[0::2], values[1::2]))))]
        elif kind == 'ellip':
            shapes = [(gate.name, ('ellip', gate.dimensions, gates.ellipse_numbers(gate)))]
        elif kind == 'ellip3':
            shapes = [(gate.name, projection(gate, x, y))]
        else:
            shapes = [(gate.name, None)]
        for name, shape in shapes:
            parent = None if gate.parent == b'-' else gate.parent
            notes = [kind] + ['projection'] * (shape is not None and shape[0] == 'projection')
            notes += [] if parent is None else ['parent ' + parent.decode()]
            found.append(Region(name, parent, shape, colour_of(len(found)), ', '.join(notes)))
    return found


def in_plane(shape, x, y):
    """Whether a shape bounds none but the two dimensions of the picture."""
    if shape is None:
        return False
    dimensions = shape[1]
    if shape[0] in ('box', 'quadrant'):
        return all(dimension in (x, y) for dimension in dimensions)
    return set(dimensions) == {x, y}


def turned(shape, x):
    """The points or numbers of an outline with the picture's x first."""
    name, dimensions, values = shape
    if dimensions[0] == x:
        return values
    if name == 'poly':
        return [(b, a) for a, b in values]
    mean_a, mean_b, c11, c12, c22, d2 = values
    return [mean_b, mean_a, c22, c12, c11, d2]


def extent(shape, x, y):
    """The coordinates that the picture should hold, as (xs, ys)."""
    if shape[0] in ('box', 'quadrant'):
        return tuple([end for end in shape[1].get(axis, ()) if end is not None] for axis in (x, y))
    values = turned(shape, x)
    if shape[0] == 'poly':
        return [a for a, _ in values], [b for _, b in values]
    mean_x, mean_y, c11, _, c22, d2 = values
    half_x, half_y = math.sqrt(d2 * c11), math.sqrt(d2 * c22)
    return [mean_x - half_x, mean_x + half_x], [mean_y - half_y, mean_y + half_y]


# ---------------------------------------------------------------- axes

def view(values, asked):
    """(low, high) of an axis: what was asked for, else all values and some room."""
    if asked:
        return tuple(asked)
    if not values:
        return 0, 1000
    low, high = min(values), max(values)
    room = PADDING * (high - low) or 1
    return low - room, high + room


def ticks(low, high):
    """Six or so round numbers, steps of 1, 2 or 5 times a power of ten and never below 1."""
    step = 1
    for power in range(7):
        for factor in (1, 2, 5):
            step = factor * 10 ** power
            if (high - low) / step <= 7:
                return range(math.ceil(low / step) * step, math.floor(high) + 1, step)
    return range(math.ceil(low), math.floor(high) + 1, step)


def figures(value):
    """A whole number with a true minus sign and thousands parted."""
    return '{:,}'.format(value).replace('-', '\N{MINUS SIGN}')


def at(value):
    """A coordinate of the picture, in hundredths at most."""
    text = '%.2f' % value
    text = text.rstrip('0').rstrip('.')
    return '0' if text == '-0' else text


# ---------------------------------------------------------------- the picture

class Picture:
    def __init__(self, given, x, y, x_range, y_range, title):
        self.given, self.x, self.y, self.title = given, x, y, title
        self.regions = regions_of(given, x, y)
        self.drawn = {region.name: region for region in self.regions if in_plane(region.shape, x, y)}
        xs, ys = [], []
        for region in self.drawn.values():
            more_x, more_y = extent(region.shape, x, y)
            xs += more_x
            ys += more_y
        for place in range(len(given.events)):
            for values, value in zip((xs, ys), self.values(place)):
                if gates.LOWEST <= value <= gates.HIGHEST:
                    values.append(value)
        self.low_x, self.high_x = view(xs, x_range)
        self.low_y, self.high_y = view(ys, y_range)
        self.taken_places = []      # rectangles of the lines of boxes and of the labels set so far
        self.dot_places = []        # rectangles of the events
        self.out = []

    def values(self, place):
        """The two coordinates of an event; its number in the list where there is one dimension."""
        event, head = self.given.events[place], self.given.head
        return event[head.index(self.x)], place + 1 if self.y is None else event[head.index(self.y)]

    def px(self, value):
        return LEFT + PLOT_WIDTH * (value - self.low_x) / (self.high_x - self.low_x)

    def py(self, value):
        return TOP + PLOT_HEIGHT * (self.high_y - value) / (self.high_y - self.low_y)

    def add(self, text):
        self.out.append(text)

    def text(self, x, y, content, kind='', extra=''):
        kind = ' class="%s"' % kind if kind else ''
        self.add('<text x="%s" y="%s"%s%s>%s</text>' % (at(x), at(y), kind, extra, escape(content)))

    # ---- shapes

    def ends(self, bounds):
        """A box in the picture, cut off a little outside the frame: left, right, top, bottom."""
        low_x, high_x = bounds.get(self.x, (None, None))
        low_y, high_y = bounds.get(self.y, (None, None)) if self.y else (None, None)
        left = LEFT - 9 if low_x is None else max(self.px(low_x), LEFT - 9)
        right = LEFT + PLOT_WIDTH + 9 if high_x is None else min(self.px(high_x), LEFT + PLOT_WIDTH + 9)
        top = TOP - 9 if high_y is None else max(self.py(high_y), TOP - 9)
        bottom = TOP + PLOT_HEIGHT + 9 if low_y is None else min(self.py(low_y), TOP + PLOT_HEIGHT + 9)
        return left, right, top, bottom

    def area(self, region):
        """The element that covers the region's own shape."""
        shape = region.shape
        if shape[0] in ('box', 'quadrant'):
            left, right, top, bottom = self.ends(shape[1])
            return '<rect x="%s" y="%s" width="%s" height="%s"' % (
                at(left), at(top), at(max(right - left, 0)), at(max(bottom - top, 0)))
        if shape[0] == 'poly':
            points = ' '.join('%s,%s' % (at(self.px(a)), at(self.py(b))) for a, b in turned(shape, self.x))
            return '<polygon points="%s" fill-rule="nonzero"' % points
        centre_x, centre_y, major, minor, angle = self.axes(shape)
        return '<ellipse cx="%s" cy="%s" rx="%s" ry="%s" transform="rotate(%s %s %s)"' % tuple(
            map(at, (centre_x, centre_y, major, minor, angle, centre_x, centre_y)))

    def axes(self, shape):
        """Centre, half axes and angle of an ellipse in the picture.

        The picture stretches x by sx and y by -sy, so the matrix becomes (sx^2 c11, -sx sy c12, sy^2 c22). The half
        axes are the roots of D^2 times its eigenvalues, and the angle is that of the first eigenvector.
        """
        mean_x, mean_y, c11, c12, c22, d2 = turned(shape, self.x)
        sx = PLOT_WIDTH / (self.high_x - self.low_x)
        sy = PLOT_HEIGHT / (self.high_y - self.low_y)
        a, b, c = sx * sx * c11, -sx * sy * c12, sy * sy * c22
        middle, half = (a + c) / 2, math.hypot((a - c) / 2, b)
        # The product of the eigenvalues is the determinant, taken exactly, since a flat ellipse leaves little of it.
        least = (sx * sy) ** 2 * (c11 * c22 - c12 * c12) / (middle + half)
        angle = math.degrees(math.atan2(2 * b, a - c) / 2)
        return self.px(mean_x), self.py(mean_y), math.sqrt(d2 * (middle + half)), math.sqrt(d2 * least), angle

    def chain(self, region):
        """The drawn parents of a region, the outermost first."""
        found = []
        names = {each.name: each for each in self.regions}
        parent = region.parent
        while parent is not None:
            if parent in self.drawn:
                found.insert(0, names[parent])
            parent = names[parent].parent
        return found

    def fill(self, region):
        """The shape within those of its parents that are drawn."""
        parents = self.chain(region)
        for parent in parents:
            self.add('<g clip-path="url(#shape-%s)">' % parent.name.decode())
        self.add('%s fill="%s" fill-opacity="0.09"/>' % (self.area(region), region.colour))
        for _ in parents:
            self.add('</g>')

    def outline(self, region):
        shape = region.shape
        if shape[0] in ('box', 'quadrant'):
            left, right, top, bottom = self.ends(shape[1])
            low_x, high_x = shape[1].get(self.x, (None, None))
            low_y, high_y = shape[1].get(self.y, (None, None)) if self.y else (None, None)
            lines = [(low_x, left, top, left, bottom, ''), (low_y, left, bottom, right, bottom, '')]
            if shape[0] == 'box':
                dashed = ' stroke-dasharray="5 4"'
                lines += [(high_x, right, top, right, bottom, dashed), (high_y, left, top, right, top, dashed)]
            for bound, x1, y1, x2, y2, dashed in lines:
                if bound is not None:
                    self.taken_places.append((x1 - 2, x2 + 2, y1 - 1, y2 + 1))
                    self.add('<line x1="%s" y1="%s" x2="%s" y2="%s" stroke="%s" stroke-width="1.8"%s/>' % (
                        at(x1), at(y1), at(x2), at(y2), region.colour, dashed))
            return
        dashes = ' stroke-dasharray="9 4 2 4"' if shape[0] == 'projection' else ''
        self.add('%s fill="none" stroke="%s" stroke-width="1.8"%s/>' % (self.area(region), region.colour, dashes))
        if shape[0] in ('ellip', 'projection'):
            x, y = self.axes(shape)[:2]
            self.add('<path d="M%s %sh8M%s %sv8" stroke="%s" stroke-width="1.2"/>' % (
                at(x - 4), at(y), at(x), at(y - 4), region.colour))

    # ---- labels

    def frame_of(self, region):
        """The upright rectangle around a drawn shape: left, right, top, bottom."""
        if region.shape[0] in ('box', 'quadrant'):
            return self.ends(region.shape[1])
        xs, ys = extent(region.shape, self.x, self.y)
        return self.px(min(xs)), self.px(max(xs)), self.py(max(ys)), self.py(min(ys))

    def spots(self, region):
        """Where a label may stand, the best place first: left end of its base line."""
        name = region.name.decode()
        width = 7.2 * len(name)
        shape = region.shape
        if shape[0] in ('box', 'quadrant'):
            left, right, top, bottom = self.ends(shape[1])
            for other in [(LEFT, LEFT + PLOT_WIDTH, TOP, TOP + PLOT_HEIGHT)] + [
                    self.frame_of(parent) for parent in self.chain(region) if shape[0] == 'quadrant']:
                left, right = max(left, other[0]), min(right, other[1])
                top, bottom = max(top, other[2]), min(bottom, other[3])
            if shape[0] == 'quadrant':
                return [(left + (right - left) * part - width / 2, top + (bottom - top) * height + 5)
                        for height in (0.5, 0.4, 0.6, 0.3, 0.7, 0.2, 0.8, 0.1, 0.9) for part in (0.5, 0.3, 0.7)]
            rows = [top + 17 + 16 * row for row in range(int(max(bottom - top - 20, 0) // 16) + 1)]
            return ([(left + 6, row) for row in rows] + [(right - width - 6, row) for row in rows]
                    + [((left + right - width) / 2, row) for row in rows])
        if shape[0] == 'poly':
            points = [(self.px(a), self.py(b)) for a, b in turned(shape, self.x)]
            x, y = min(points, key=lambda point: (point[1], point[0]))
            low = max(b for _, b in points)
            middle = (min(a for a, _ in points) + max(a for a, _ in points) - width) / 2
            return [(middle, y - 6), (x, y - 6), (middle, low + 16), (middle, (y + low) / 2), (middle, low + 32)]
        x, y, major, minor, angle = self.axes(shape)
        turn = math.radians(angle)
        half = math.hypot(major * math.sin(turn), minor * math.cos(turn))
        return [(x - width / 2, y - half - 6), (x - width / 2, y + half + 16), (x + 8, y - 8),
                (x - width / 2, y - half + 16), (x - width / 2, y + half - 8)]

    def label(self, region):
        """Sets the name at the first spot in the frame that covers nothing, or else nothing but events."""
        name = region.name.decode()
        width = 7.2 * len(name)

        def place(spot):
            return spot[0] - 2, spot[0] + width + 2, spot[1] - 12, spot[1] + 4

        def free(spot, others):
            left, right, top, bottom = place(spot)
            return all(right <= other[0] or other[1] <= left or bottom <= other[2] or other[3] <= top
                       for other in others)

        def inside(spot):
            left, right, top, bottom = place(spot)
            return LEFT <= left and right <= LEFT + PLOT_WIDTH and TOP <= top and bottom <= TOP + PLOT_HEIGHT

        spots = [spot for spot in self.spots(region) if inside(spot) and free(spot, self.taken_places)]
        if not spots:
            return          # crowded: the legend still has it
        best = next((spot for spot in spots if free(spot, self.dot_places)), spots[0])
        self.taken_places.append(place(best))
        self.text(best[0], best[1], name, 'gate', ' fill="%s"' % region.colour)

    # ---- the parts of the picture

    def draw_frame(self):
        self.add('<rect x="%d" y="%d" width="%d" height="%d" fill="#fff" stroke="#444"/>' % (
            LEFT, TOP, PLOT_WIDTH, PLOT_HEIGHT))
        for value in ticks(self.low_x, self.high_x):
            x = self.px(value)
            self.add('<path d="M%s %dv5" stroke="#444"/><path d="M%s %dv%d" stroke="#eee"/>' % (
                at(x), TOP + PLOT_HEIGHT, at(x), TOP + 1, PLOT_HEIGHT - 2))
            self.text(x, TOP + PLOT_HEIGHT + 19, figures(value), 'tick', ' text-anchor="middle"')
        for value in ticks(self.low_y, self.high_y):
            y = self.py(value)
            self.add('<path d="M%d %sh-5" stroke="#444"/><path d="M%d %sh%d" stroke="#eee"/>' % (
                LEFT, at(y), LEFT + 1, at(y), PLOT_WIDTH - 2))
            self.text(LEFT - 9, y + 4, figures(value), 'tick', ' text-anchor="end"')
        self.text(LEFT + PLOT_WIDTH / 2, TOP + PLOT_HEIGHT + 43, self.x.decode(), 'axis', ' text-anchor="middle"')
        self.add('<text transform="translate(17 %s) rotate(-90)" class="axis" text-anchor="middle">%s</text>' % (
            at(TOP + PLOT_HEIGHT / 2), escape('event' if self.y is None else self.y.decode())))

    def draw_gates(self):
        self.add('<defs>')
        self.add('<clipPath id="frame"><rect x="%d" y="%d" width="%d" height="%d"/></clipPath>' % (
            LEFT, TOP, PLOT_WIDTH, PLOT_HEIGHT))
        parents = {region.parent for region in self.regions}
        for region in self.drawn.values():
            if region.name in parents:
                self.add('<clipPath id="shape-%s">%s/></clipPath>' % (region.name.decode(), self.area(region)))
        self.add('</defs>')
        self.add('<g clip-path="url(#frame)">')
        for region in self.drawn.values():
            self.fill(region)
        for region in sorted(self.drawn.values(), key=lambda region: region.shape[0] == 'projection'):
            self.outline(region)        # projections last: they may lie on an ellipse, which then shows between the dashes
        self.add('</g>')

    def place_of(self, place):
        """Where an event is drawn: at its values, or at the frame where they lie off the picture."""
        x, y = self.values(place)
        return (self.px(min(max(x, self.low_x), self.high_x)), self.py(min(max(y, self.low_y), self.high_y)))

    def radius(self, place, places):
        """Of a dot. In a short list one that later dots would cover is larger, so that a rim of it shows."""
        if len(places) > SHORT_LIST:
            return 2.6
        x, y = places[place]
        cover = sum(1 for other in range(place + 1, len(places)) if not self.given.spoilt[other]
                    and math.hypot(places[other][0] - x, places[other][1] - y) < 4)
        return 4 + 2.5 * min(cover, 2)

    def draw_events(self):
        places = [self.place_of(place) for place in range(len(self.given.events))]
        first = {region.name: number for number, region in reversed(list(enumerate(self.regions)))}
        order, circles = range(len(places)), []
        if len(places) > SHORT_LIST:        # no other dot covers one that is on an outline
            order = sorted(order, key=lambda place: bool(self.given.outlines[place]))
        for place in order:
            event, members, outlines = self.given.events[place], self.given.members[place], self.given.outlines[place]
            spoilt = self.given.spoilt[place]
            x, y = places[place]
            self.dot_places.append((x - 4, x + 4, y - 4, y + 4))
            names = [region.name.decode() + ' (on its outline)' * (region.name in outlines)
                     for region in self.regions if region.name in members]
            what = 'spoilt' if spoilt else ', '.join(names) or 'in no region'
            shown = ' '.join(str(value) if abs(value) < 2 ** 31 else 'beyond 32 bits' for value in event)
            title = '<title>event %d (%s): %s</title>' % (place + 1, shown, escape(what))
            if spoilt:
                self.add('<path d="M%s %sl8 8m0 -8l-8 8" stroke="%s" stroke-width="1.8" fill="none">%s</path>' % (
                    at(x - 4), at(y - 4), SPOILT, title))
                continue
            colour = self.regions[min(first[name] for name in members)].colour if members else NO_REGION
            radius = self.radius(place, places)
            self.add('<circle cx="%s" cy="%s" r="%s" fill="%s" stroke="#fff" stroke-width="0.7">%s</circle>' % (
                at(x), at(y), at(radius), colour, title))
            if outlines:
                circles.append((x, y, radius))
        for x, y, radius in circles:        # above all dots
            self.circle(x, y, radius)
            self.dot_places.append((x - radius - 3, x + radius + 3, y - radius - 3, y + radius + 3))

    def circle(self, x, y, radius):
        """The mark around a dot that is on an outline."""
        self.add('<circle class="outline" cx="%s" cy="%s" r="%s" fill="none" stroke="%s" stroke-width="1.5"/>' % (
            at(x), at(y), at(radius + 2.4), CIRCLE))

    def legend_width(self):
        wide = [24 + 9 * len(region.name) + 7 * len(region.note) + 12 + 9 * len(figures(self.given.counts[region.name]))
                for region in self.regions]
        return max([LEGEND_WIDTH] + wide)

    def draw_legend(self):
        left = LEFT + PLOT_WIDTH + GAP
        right = left + self.legend_width()
        y = TOP + 12
        self.text(left, y, 'region', 'head')
        self.text(right, y, 'events', 'head', ' text-anchor="end"')
        y += ROW
        for region in self.regions:
            name = region.name.decode()
            drawn = region.name in self.drawn
            self.add('<g class="row" data-name=%s data-count="%d">' % (quoteattr(name), self.given.counts[region.name]))
            opacity = '0.12' if drawn else '0'
            border = '' if drawn else ' stroke-dasharray="2 2"'
            self.add('<rect x="%s" y="%s" width="16" height="13" fill="%s" fill-opacity="%s" stroke="%s"%s/>' % (
                at(left), at(y - 11), region.colour, opacity, region.colour, border))
            self.add('<circle cx="%s" cy="%s" r="3" fill="%s"/>' % (at(left + 8), at(y - 4.5), region.colour))
            self.add('<text x="%s" y="%s">%s <tspan class="note">%s</tspan></text>' % (
                at(left + 24), at(y), escape(name), escape(region.note)))
            self.text(right, y, figures(self.given.counts[region.name]), '', ' text-anchor="end"')
            self.add('</g>')
            y += ROW
        alone = sum(1 for held, bad in zip(self.given.members, self.given.spoilt) if not held and not bad)
        taken, spoilt = self.given.spoilt.count(False), self.given.spoilt.count(True)
        self.add('<path d="M%s %sH%s" stroke="#ccc"/>' % (at(left), at(y - 13), at(right)))
        y += 4
        outlined = sum(map(bool, self.given.outlines))
        if outlined:
            self.add('<g data-outlined="%d">' % outlined)
            self.circle(left + 8, y - 4.5, 3)
            self.text(left + 24, y, 'on an outline', 'note')
            self.text(right, y, figures(outlined), 'note', ' text-anchor="end"')
            self.add('</g>')
            y += ROW
        self.add('<circle cx="%s" cy="%s" r="3" fill="%s"/>' % (at(left + 8), at(y - 4.5), NO_REGION))
        self.text(left + 24, y, 'in no region', 'note')
        self.text(right, y, figures(alone), 'note', ' text-anchor="end"')
        y += ROW
        for name, count in (('taken', taken), ('spoilt', spoilt)):
            self.add('<g class="row" data-name="%s" data-count="%d">' % (name, count))
            if name == 'spoilt':
                self.add('<path d="M%s %sl7 7m0 -7l-7 7" stroke="%s" stroke-width="1.6"/>' % (
                    at(left + 4.5), at(y - 8), SPOILT))
            self.text(left + 24, y, name)
            self.text(right, y, figures(count), '', ' text-anchor="end"')
            self.add('</g>')
            y += ROW
        notes = ['A dot has the colour of the first region', 'in the table that holds the event.']
        if outlined:
            notes += ['Circled: on the outline of a region', 'that holds the event.']
        if any(shape[0] == 'box' for shape in (region.shape for region in self.drawn.values())):
            notes += ['Solid edge: in the box; dashed: not.']
        if any(shape[0] == 'projection' for shape in (region.shape for region in self.drawn.values())):
            notes += ['Dash-dotted: projection of an ellipsoid;', 'an event within it may be no member.']
        if len(self.drawn) < len(self.regions):
            notes += ['Dotted swatch: no outline in this plane.']
        y += 6
        for note in notes:
            self.text(left, y, note, 'note')
            y += 16
        return y

    def svg(self):
        self.draw_frame()
        self.draw_gates()
        self.draw_events()
        for region in self.drawn.values():
            self.label(region)
        legend_end = self.draw_legend()
        width = LEFT + PLOT_WIDTH + GAP + self.legend_width() + 20
        height = max(TOP + PLOT_HEIGHT + BOTTOM, math.ceil(legend_end))
        head = [
            '<svg xmlns="http://www.w3.org/2000/svg" viewBox="0 0 %d %d" width="%d" height="%d" '
            'font-family="DejaVu Sans, Verdana, sans-serif" font-size="13" fill="#222">' % (width, height, width, height),
            '<title>%s</title>' % escape(self.title),
            '<style>.tick{font-size:11px;fill:#444}.axis{font-weight:bold}.head{font-size:11px;fill:#666}'
            '.note{font-size:11px;fill:#666}.gate{font-size:12px;font-weight:bold;paint-order:stroke;'
            'stroke:#fff;stroke-width:3px;stroke-linejoin:round}.title{font-size:15px;font-weight:bold}</style>',
            '<rect width="%d" height="%d" fill="#fff"/>' % (width, height),
            '<text x="%d" y="27" class="title">%s</text>' % (LEFT, escape(self.title)),
        ]
        return '\n'.join(head + self.out + ['</svg>']) + '\n'


def draw(data, x=None, y=None, x_range=None, y_range=None, title=None):
    """The SVG of an input of gatecount, as text; Refused or ValueError where it can't be drawn."""
    given = read_input(data)
    for name in (x, y):
        if name is not None and name not in given.head:
            raise ValueError('no such dimension: %s' % name.decode(errors='replace'))
    x = x or next(name for name in given.head if name != y)
    y = y or next((name for name in given.head if name != x), None)
    if x == y:
        raise ValueError('the two dimensions are the same')
    title = title or ('%s against %s' % (y.decode(), x.decode()) if y else x.decode())
    return Picture(given, x, y, x_range, y_range, title).svg()


def main():
    parser = argparse.ArgumentParser(description='Draw a gate table and its events as an SVG.')
    parser.add_argument('file', nargs='?', metavar='FILE', help='an input of gatecount; standard input without it')
    parser.add_argument('-o', '--output', metavar='FILE', help='where the SVG goes; standard output without it')
    parser.add_argument('--x', type=str.encode, metavar='NAME', help='the dimension from left to right')
    parser.add_argument('--y', type=str.encode, metavar='NAME', help='the dimension from below')
    parser.add_argument('--x-range', type=int, nargs=2, metavar=('LOW', 'HIGH'))
    parser.add_argument('--y-range', type=int, nargs=2, metavar=('LOW', 'HIGH'))
    parser.add_argument('--title', metavar='TEXT')
    options = parser.parse_args()
    for asked in (options.x_range, options.y_range):
        if asked and asked[0] >= asked[1]:
            parser.error('a range goes from low to high')
    try:
        if options.file:
            with open(options.file, 'rb') as file:
                data = file.read()
        else:
            data = sys.stdin.buffer.read()
        picture = draw(data, options.x, options.y, options.x_range, options.y_range, options.title).encode()
        if options.output:
            with open(options.output, 'wb') as file:
                file.write(picture)
        else:
            sys.stdout.buffer.write(picture)
    except (Refused, ValueError, OSError) as fault:
        sys.exit('draw.py: %s' % fault)


if __name__ == '__main__':
    main()
