"""Faults to be planted in the reference, to see whether the comparison would notice them.

Each is a slip that a program could have made.  `planted(name)` puts one in place for
as long as its block lasts; the generator isn't touched by any.
"""

import contextlib
import itertools
import math
import re
from fractions import Fraction

import gates

_ORIGINAL = {name: getattr(gates, name) for name in dir(gates)}


def _with(checks, number, function):
    """The same row of checks with one of them replaced."""
    return tuple((other, function if other == number else check) for other, check in checks)


# ---------------------------------------------------------------- members

def even_odd(vertices, x, y):
    points = list(zip(vertices[0::2], vertices[1::2]))
    crossings = 0
    for (x0, y0), (x1, y1) in zip(points, points[1:] + points[:1]):
        s = (x1 - x0) * (y - y0) - (x - x0) * (y1 - y0)
        if s == 0 and min(x0, x1) <= x <= max(x0, x1) and min(y0, y1) <= y <= max(y0, y1):
            return True
        crossings += (y0 <= y < y1 and s > 0) or (y1 <= y < y0 and s < 0)
    return crossings % 2 == 1


def edge_excluded(vertices, x, y):
    points = list(zip(vertices[0::2], vertices[1::2]))
    for (x0, y0), (x1, y1) in zip(points, points[1:] + points[:1]):
        s = (x1 - x0) * (y - y0) - (x - x0) * (y1 - y0)
        if s == 0 and min(x0, x1) <= x <= max(x0, x1) and min(y0, y1) <= y <= max(y0, y1):
            return False
    return _ORIGINAL['polygon_holds'](vertices, x, y)


def edge_unbounded(vertices, x, y):
    """The edge taken for its whole straight line."""
    points = list(zip(vertices[0::2], vertices[1::2]))
    for (x0, y0), (x1, y1) in zip(points, points[1:] + points[:1]):
        if (x0, y0) != (x1, y1) and (x1 - x0) * (y - y0) == (x - x0) * (y1 - y0):
            return True
    return _ORIGINAL['polygon_holds'](vertices, x, y)


def polygon_left_open(vertices, x, y):
    """The last vertex not joined to the first."""
    points = list(zip(vertices[0::2], vertices[1::2]))
    total = 0
    for (x0, y0), (x1, y1) in zip(points, points[1:]):
        s = (x1 - x0) * (y - y0) - (x - x0) * (y1 - y0)
        if s == 0 and min(x0, x1) <= x <= max(x0, x1) and min(y0, y1) <= y <= max(y0, y1):
            return True
        total += (y0 <= y < y1 and s > 0) - (y1 <= y < y0 and s < 0)
    return total != 0


def top_included(body, event):
    return all(low <= event[dimension] <= high
               for dimension, low, high in zip(body[0::3], body[1::3], body[2::3]))


def bottom_excluded(body, event):
    return all(low < event[dimension] < high
               for dimension, low, high in zip(body[0::3], body[1::3], body[2::3]))


def rim_excluded(mean_x, mean_y, c11, c12, c22, d2, x, y):
    dx, dy = x - mean_x, y - mean_y
    return c22 * dx * dx - 2 * c12 * dx * dy + c11 * dy * dy < d2 * (c11 * c22 - c12 * c12)


def c12_added(mean_x, mean_y, c11, c12, c22, d2, x, y):
    return _ORIGINAL['ellipse_holds'](mean_x, mean_y, c11, -c12, c22, d2, x, y)


def ellipse_in_32_bits(mean_x, mean_y, c11, c12, c22, d2, x, y):
    def wrap(value):
        return (value + 2 ** 31) % 2 ** 32 - 2 ** 31
    dx, dy = x - mean_x, y - mean_y
    left = wrap(c22 * dx * dx - 2 * c12 * dx * dy + c11 * dy * dy)
    return left <= wrap(d2 * (c11 * c22 - c12 * c12))


def ellipse_in_doubles(mean_x, mean_y, c11, c12, c22, d2, x, y):
    dx, dy = float(x - mean_x), float(y - mean_y)
    return c22 * dx * dx - 2 * c12 * dx * dy + c11 * dy * dy <= d2 * (float(c11) * c22 - float(c12) * c12)


def polygon_in_32_bits(vertices, x, y):
    points = list(zip(vertices[0::2], vertices[1::2]))
    total = 0
    for (x0, y0), (x1, y1) in zip(points, points[1:] + points[:1]):
        s = (x1 - x0) * (y - y0) - (x - x0) * (y1 - y0)
        s = (s + 2 ** 31) % 2 ** 32 - 2 ** 31
        if s == 0 and min(x0, x1) <= x <= max(x0, x1) and min(y0, y1) <= y <= max(y0, y1):
            return True
        total += (y0 <= y < y1 and s > 0) - (y1 <= y < y0 and s < 0)
    return total != 0


def not_within_parent(steps, event):
    """`!` taken within the operand's parent."""
    bits, parents = 0, {}

    def holds(word):
        region = word // 2
        if word % 2 == 0:
            return bits >> region & 1
        parent = parents[region]
        return (parent == -1 or bits >> parent & 1) and not bits >> region & 1

    for kind, region, parent, body in steps:
        parents[region] = parent
        if parent != -1 and not bits >> parent & 1:
            continue
        if kind == gates.AND:
            inside = all(holds(word) for word in body)
        elif kind == gates.OR:
            inside = any(holds(word) for word in body)
        elif kind == gates.NOT:
            inside = not holds(body[0])
        else:
            inside = gates.shape_holds(kind, body, event, bits)
        if inside:
            bits |= 1 << region
    return bits


def combination_without_parent(steps, event):
    return _ORIGINAL['event_bits']([(kind, region, -1 if kind in gates.COMBINATIONS else parent, body)
                                    for kind, region, parent, body in steps], event)


def spoilt_as_taken(words, values):
    number, place, taken, spoilt, counts, unclaimed = _ORIGINAL['count'](words, values)
    return number, place, taken + spoilt, spoilt, counts, unclaimed


def first_event_for_all(words, values):
    number, place, taken, spoilt, counts, unclaimed = _ORIGINAL['count'](words, values)
    if taken:
        first = next(values[at:at + words[0]] for at in range(0, len(values), words[0])
                     if not gates.is_spoilt(values[at:at + words[0]]))
        counts = [taken * one for one in _ORIGINAL['count'](words, first)[4]]
        unclaimed = taken * _ORIGINAL['count'](words, first)[5]
    return number, place, taken, spoilt, counts, unclaimed


# ---------------------------------------------------------------- outlines

# None of these changes a member: what is outside stays so, and nothing else becomes it.

def never_on_outline(position):
    """On the outline said to be inside."""
    def answer(*given):
        found = position(*given)
        return gates.INSIDE if found == gates.ON_OUTLINE else found
    return answer


def edge_sum(vertices, x, y):
    """01's sum over the edges, whether or not the point is on one."""
    points = list(zip(vertices[0::2], vertices[1::2]))
    total = 0
    for (x0, y0), (x1, y1) in zip(points, points[1:] + points[:1]):
        s = (x1 - x0) * (y - y0) - (x - x0) * (y1 - y0)
        total += (y0 <= y < y1 and s > 0) - (y1 <= y < y0 and s < 0)
    return total


def edge_where_sum(wanted):
    """An edge is outline only where there is a sum, or only where it is 0; else it is inside."""
    def answer(vertices, x, y):
        found = _ORIGINAL['polygon_position'](vertices, x, y)
        if found == gates.ON_OUTLINE and wanted != (edge_sum(vertices, x, y) != 0):
            return gates.INSIDE
        return found
    return answer


def inner_edge_inside(vertices, x, y):
    """A point with nothing but inside around it said to be inside, though an edge runs there.

    Everything is made so much larger that the nine places around the point are
    nearer to it than any edge that doesn't carry it.
    """
    found = _ORIGINAL['polygon_position'](vertices, x, y)
    if found == gates.ON_OUTLINE:
        size = 1 << 20
        larger = [size * value for value in vertices]
        around = [(size * x + dx, size * y + dy) for dx in (-2, 1, 3) for dy in (-3, 1, 2)]
        if all(_ORIGINAL['polygon_position'](larger, *place) != gates.OUTSIDE for place in around):
            return gates.INSIDE
    return found


def edge_carries(carries, enough=lambda times: times > 0):
    """On the outline by another rule for one edge, or by the number of edges that carry the point."""
    def answer(vertices, x, y):
        if _ORIGINAL['polygon_position'](vertices, x, y) == gates.OUTSIDE:
            return gates.OUTSIDE
        points = list(zip(vertices[0::2], vertices[1::2]))
        edges = list(zip(points, points[1:] + points[:1]))
        times = sum(1 for number, ((x0, y0), (x1, y1)) in enumerate(edges, 1)
                    if carries(x0, y0, x1, y1, x, y, number == len(edges)))
        return gates.ON_OUTLINE if enough(times) else gates.INSIDE
    return answer


def on_line(x0, y0, x1, y1, x, y):
    return (x1 - x0) * (y - y0) == (x - x0) * (y1 - y0)


def edge_rule(x0, y0, x1, y1, x, y, last):
    return (on_line(x0, y0, x1, y1, x, y)
            and min(x0, x1) <= x <= max(x0, x1) and min(y0, y1) <= y <= max(y0, y1))


def without_ends(x0, y0, x1, y1, x, y, last):
    return edge_rule(x0, y0, x1, y1, x, y, last) and (x, y) not in ((x0, y0), (x1, y1))


def ends_only(x0, y0, x1, y1, x, y, last):
    return (x, y) in ((x0, y0), (x1, y1))


def with_length(x0, y0, x1, y1, x, y, last):
    """An edge without length carries nothing."""
    return edge_rule(x0, y0, x1, y1, x, y, last) and (x0, y0) != (x1, y1)


def not_level(x0, y0, x1, y1, x, y, last):
    """Edges along x, which the sum passes over, left out."""
    return edge_rule(x0, y0, x1, y1, x, y, last) and (y0 != y1 or x0 == x1)


def not_upright(x0, y0, x1, y1, x, y, last):
    return edge_rule(x0, y0, x1, y1, x, y, last) and (x0 != x1 or y0 == y1)


def not_closing(x0, y0, x1, y1, x, y, last):
    """The edge from the last vertex to the first left out."""
    return edge_rule(x0, y0, x1, y1, x, y, last) and not last


def x_between_only(x0, y0, x1, y1, x, y, last):
    return on_line(x0, y0, x1, y1, x, y) and min(x0, x1) <= x <= max(x0, x1)


def y_between_only(x0, y0, x1, y1, x, y, last):
    return on_line(x0, y0, x1, y1, x, y) and min(y0, y1) <= y <= max(y0, y1)


def s_in_32_bits(x0, y0, x1, y1, x, y, last):
    s = (x1 - x0) * (y - y0) - (x - x0) * (y1 - y0)
    return s % 2 ** 32 == 0 and min(x0, x1) <= x <= max(x0, x1) and min(y0, y1) <= y <= max(y0, y1)


def ellipse_sides(sides, position='ellipse_position'):
    """On the rim where two sides reckoned otherwise are equal; what is outside stays so."""
    def answer(mean_x, mean_y, c11, c12, c22, d2, x, y):
        if _ORIGINAL[position](mean_x, mean_y, c11, c12, c22, d2, x, y) == gates.OUTSIDE:
            return gates.OUTSIDE
        left, right = sides(x - mean_x, y - mean_y, c11, c12, c22, d2)
        return gates.ON_OUTLINE if left == right else gates.INSIDE
    return answer


def c12_added_sides(dx, dy, c11, c12, c22, d2):
    return c22 * dx * dx + 2 * c12 * dx * dy + c11 * dy * dy, d2 * (c11 * c22 - c12 * c12)


def sides_in_32_bits(dx, dy, c11, c12, c22, d2):
    return ((c22 * dx * dx - 2 * c12 * dx * dy + c11 * dy * dy) % 2 ** 32, d2 * (c11 * c22 - c12 * c12) % 2 ** 32)


def sides_in_doubles(dx, dy, c11, c12, c22, d2):
    dx, dy = float(dx), float(dy)
    return c22 * dx * dx - 2 * c12 * dx * dy + c11 * dy * dy, d2 * (float(c11) * c22 - float(c12) * c12)


def upright_only(mean_x, mean_y, c11, c12, c22, d2, x, y):
    """The rim of a tilted ellipse left out."""
    found = _ORIGINAL['ellipse_position'](mean_x, mean_y, c11, c12, c22, d2, x, y)
    return gates.INSIDE if c12 and found == gates.ON_OUTLINE else found


def outline_of_all(steps, event, bits):
    """Set for an event that isn't a member, outside the parent, too."""
    return _ORIGINAL['outline_bits'](steps, event, (1 << gates.REGIONS) - 1)


def outline_out_of_parent(steps, event, bits):
    """Set for an event on the outline and not in the parent, and for no other that isn't a member."""
    outline = _ORIGINAL['outline_bits'](steps, event, bits)
    for kind, region, parent, body in steps:
        if parent != -1 and not bits >> parent & 1 and gates.on_outline(kind, body, event):
            outline |= 1 << region
    return outline


def taken_over(takes):
    """Members of some steps take over an outline bit of the parent or of an operand."""
    def answer(steps, event, bits):
        outline = _ORIGINAL['outline_bits'](steps, event, bits)
        # The steps' own order: what was taken over is taken over again.
        for kind, region, parent, body in steps:
            if bits >> region & 1 and any(outline >> other & 1 for other in takes(kind, parent, body)):
                outline |= 1 << region
        return outline
    return answer


def operands(kinds):
    return lambda kind, parent, body: [word // 2 for word in body] if kind in kinds else []


def plain_operands(kind, parent, body):
    """Those without `!`."""
    return [word // 2 for word in body if word % 2 == 0] if kind in gates.COMBINATIONS else []


def parent_of(kinds):
    return lambda kind, parent, body: [parent] if kind in kinds and parent != -1 else []


def box_with_outline(steps, event, bits):
    """A box's lower bounds taken for an outline."""
    outline = _ORIGINAL['outline_bits'](steps, event, bits)
    for kind, region, parent, body in steps:
        if kind == gates.BOX and bits >> region & 1:
            if any(event[dimension] == low for dimension, low in zip(body[0::3], body[1::3])):
                outline |= 1 << region
    return outline


def outline_by_steps(steps, event, bits):
    """Numbered by the order of the steps instead of by region."""
    right = _ORIGINAL['outline_bits'](steps, event, bits)
    return sum((right >> region & 1) << number for number, (_, region, _, _) in enumerate(steps))


def outline_of_32(steps, event, bits):
    return _ORIGINAL['outline_bits'](steps, event, bits) % 2 ** 32


def not_with_parents_outline(steps, event, bits):
    """An outline bit dropped where the parent has one too."""
    outline = _ORIGINAL['outline_bits'](steps, event, bits)
    return sum(1 << region for _, region, parent, _ in steps
               if outline >> region & 1 and not (parent != -1 and outline >> parent & 1))


def refused_with_outline(number):
    """A judging refused with this number that sets no member, but keeps outline bits."""
    def answer(words, event):
        refused, place, bits, outline = _ORIGINAL['judge'](words, event)
        if refused == number:
            if refused == 22:
                steps = steps_before(words, place)
                n = words[0] if words else 0
            else:
                steps, n = gates.plan_steps(words), words[0]
            if len(event) >= n:
                event = event[:n]
                outline = gates.outline_bits(steps, event, gates.event_bits(steps, event))
        return refused, place, bits, outline
    return answer


def steps_before(words, place):
    """The whole steps before a bad word."""
    steps, at = [], 2
    while at + 4 <= place and at + 4 + words[at + 3] <= place:
        kind, region, parent, length = words[at:at + 4]
        steps.append((kind, region, parent, words[at + 4:at + 4 + length]))
        at += 4 + length
    return steps


# ---------------------------------------------------------------- the walk over the vertices

# Slips of a walk that asks of each edge whether it carries the point, and keeps the sum: over all
# vertices in turn, by stretches of them, past vertices on one side of the point's height, or with the
# edge that closes the outline taken apart.  The counts and both sets of a judging follow from these.

def outline_edges(vertices):
    points = list(zip(vertices[0::2], vertices[1::2]))
    return list(zip(points, points[1:] + points[:1]))


def carried(edge, x, y):
    (x0, y0), (x1, y1) = edge
    return edge_rule(x0, y0, x1, y1, x, y, False)


def turn_of(edge, x, y):
    """What an edge adds to the sum."""
    (x0, y0), (x1, y1) = edge
    s = (x1 - x0) * (y - y0) - (x - x0) * (y1 - y0)
    return (y0 <= y < y1 and s > 0) - (y1 <= y < y0 and s < 0)


def walked(asked, summed, x, y):
    """The answer by the edges that are asked whether they carry the point, and by those that are summed."""
    if any(carried(edge, x, y) for edge in asked):
        return gates.ON_OUTLINE
    return gates.INSIDE if sum(turn_of(edge, x, y) for edge in summed) else gates.OUTSIDE


def asked_and_summed(parts):
    """The edges that are asked and those that are summed, by all edges and the point's height."""
    return {'polygon_position': lambda vertices, x, y: walked(*parts(outline_edges(vertices), y), x, y)}


def other_edges(change):
    """Other edges than those of the outline."""
    return asked_and_summed(lambda edges, y: (change(edges), change(edges)))


def other_vertices(change):
    """The outline of other vertices."""
    def edges_of(edges):
        points = change([start for start, _ in edges])
        return list(zip(points, points[1:] + points[:1]))
    return other_edges(edges_of)


def sum_after_edge(vertices, x, y):
    """The answer taken from the sum, which goes on after an edge that carries the point."""
    return gates.INSIDE if edge_sum(vertices, x, y) else gates.OUTSIDE


def forgotten_at_crossing(vertices, x, y):
    """That an edge carries the point, forgotten at a later edge that adds or takes 1."""
    on, total = False, 0
    for edge in outline_edges(vertices):
        on = carried(edge, x, y) or (on and not turn_of(edge, x, y))
        total += turn_of(edge, x, y)
    return gates.ON_OUTLINE if on else gates.INSIDE if total else gates.OUTSIDE


def asked_while_sum_is_0(vertices, x, y):
    """Whether an edge carries the point not asked while the sum isn't 0."""
    total = 0
    for edge in outline_edges(vertices):
        if carried(edge, x, y) and total == 0:
            return gates.ON_OUTLINE
        total += turn_of(edge, x, y)
    return gates.INSIDE if total else gates.OUTSIDE


def sum_in_bits(bits):
    def answer(vertices, x, y):
        found = _ORIGINAL['polygon_position'](vertices, x, y)
        return gates.OUTSIDE if found == gates.INSIDE and edge_sum(vertices, x, y) % (1 << bits) == 0 else found
    return {'polygon_position': answer}


def stretches(edges, size):
    return [edges[at:at + size] for at in range(0, len(edges), size)]


def last_stretch_only(size):
    """That an edge carries the point, forgotten at the end of a stretch."""
    return asked_and_summed(lambda edges, y: (stretches(edges, size)[-1], edges))


def any_stretch_sum(size):
    """Inside where the sum of some stretch isn't 0."""
    def answer(vertices, x, y):
        parts = stretches(outline_edges(vertices), size)
        if any(carried(edge, x, y) for part in parts for edge in part):
            return gates.ON_OUTLINE
        return gates.INSIDE if any(sum(turn_of(edge, x, y) for edge in part) for part in parts) else gates.OUTSIDE
    return {'polygon_position': answer}


def stretch_passed(size, passes):
    """Stretches passed by the heights of their vertices less the point's, the end of the last edge among them."""
    def parts(edges, y):
        left = [edge for part in stretches(edges, size)
                if not passes([start[1] - y for start, _ in part] + [part[-1][1][1] - y]) for edge in part]
        return left, left
    return asked_and_summed(parts)


def one_side(heights):
    return min(heights) > 0 or max(heights) < 0


def summed_by(adds):
    """The sum by another rule for the heights of an edge's ends, less the point's."""
    def answer(vertices, x, y):
        total = 0
        for (x0, y0), (x1, y1) in outline_edges(vertices):
            s = (x1 - x0) * (y - y0) - (x - x0) * (y1 - y0)
            total += (adds(y0 - y, y1 - y) and s > 0) - (adds(y1 - y, y0 - y) and s < 0)
        found = _ORIGINAL['polygon_position'](vertices, x, y)
        return found if found == gates.ON_OUTLINE else gates.INSIDE if total else gates.OUTSIDE
    return {'polygon_position': answer}


def falling_by_other_end(vertices, x, y):
    """An edge that rises counts at its lower end, one that falls at its upper."""
    found, total = _ORIGINAL['polygon_position'](vertices, x, y), 0
    for (x0, y0), (x1, y1) in outline_edges(vertices):
        s = (x1 - x0) * (y - y0) - (x - x0) * (y1 - y0)
        total += (y0 <= y < y1 and s > 0) - (y1 < y <= y0 and s < 0)
    return found if found == gates.ON_OUTLINE else gates.INSIDE if total else gates.OUTSIDE


def rest_left_out(size):
    """Edges that fill no group of so many left out, the closing one aside."""
    return other_edges(lambda edges: edges[:(len(edges) - 1) // size * size] + edges[-1:])


def rest_of_long_left_out(size):
    """Likewise, only where there is a whole group."""
    return other_edges(lambda edges: edges[:(len(edges) - 1) // size * size] + edges[-1:] if len(edges) > size else edges)


def first_edges_of_stretches(size, change):
    """Another edge, or none, where a stretch begins, the first stretch aside."""
    def changed(edges):
        return [other for at, edge in enumerate(edges)
                for other in (change(edges, at) if at and at % size == 0 else [edge])]
    return other_edges(changed)


def begun_at_first(edges, at):
    return [(edges[0][0], edges[at][1])]


def begun_one_early(edges, at):
    return [(edges[at - 1][0], edges[at][1])]


def begun_one_late(edges, at):
    return [(edges[at][1], edges[at][1])]


# ---------------------------------------------------------------- outlines drawn the other way round

# Slips that hang on the vertex an outline begins at, or on the direction in which it is walked.

def sum_kept(sum_after, ended=lambda before, after: False):
    """The answer by a sum that is reckoned otherwise edge by edge, and by where the walk ends."""
    def answer(vertices, x, y):
        edges, total = outline_edges(vertices), 0
        if any(carried(edge, x, y) for edge in edges):
            return gates.ON_OUTLINE
        for edge in edges:
            before, total = total, sum_after(total, turn_of(edge, x, y))
            if ended(before, total):
                break
        return gates.INSIDE if total else gates.OUTSIDE
    return {'polygon_position': answer}


def inside_where(inside):
    """Inside by the sign of the sum, or its size."""
    def answer(vertices, x, y):
        if any(carried(edge, x, y) for edge in outline_edges(vertices)):
            return gates.ON_OUTLINE
        return gates.INSIDE if inside(edge_sum(vertices, x, y)) else gates.OUTSIDE
    return {'polygon_position': answer}


def summed_by_way(rising, falling):
    """The sum by other rules for the heights of an edge's ends, less the point's; those of an edge that falls are given from its lower end."""
    def answer(vertices, x, y):
        total = 0
        for (x0, y0), (x1, y1) in outline_edges(vertices):
            s = (x1 - x0) * (y - y0) - (x - x0) * (y1 - y0)
            total += (y0 < y1 and rising(y0 - y, y1 - y) and s > 0) - (y1 < y0 and falling(y1 - y, y0 - y) and s < 0)
        found = _ORIGINAL['polygon_position'](vertices, x, y)
        return found if found == gates.ON_OUTLINE else gates.INSIDE if total else gates.OUTSIDE
    return {'polygon_position': answer}


def lower_end(low, high):
    return low <= 0 < high


def both_ends(low, high):
    return low <= 0 <= high


def no_end(low, high):
    return low < 0 < high


def asked_where(asked):
    """Only some edges asked whether they carry the point; the sum is that of all."""
    return asked_and_summed(lambda edges, y: ([(start, end) for start, end in edges if asked(*start, *end)], edges))


def rises(x0, y0, x1, y1, x, y, last):
    """The edge, level ones too, carries the point and isn't walked down."""
    return edge_rule(x0, y0, x1, y1, x, y, last) and y0 <= y1


def compiled_otherwise(change):
    """A compiler that draws outlines in a way of its own: no member changes, the words do."""
    def steps_of(head, table_gates):
        numbers, steps = _ORIGINAL['region_steps'](head, table_gates)
        return numbers, [(kind, parent, body[:2] + change(body[2:]) if kind == gates.POLYGON else body, waits) for kind, parent, body, waits in steps]
    return {'region_steps': steps_of}


def one_way_round(vertices):
    """Walked so that twice the area isn't below 0."""
    area = sum(x0 * y1 - x1 * y0 for (x0, y0), (x1, y1) in outline_edges(vertices))
    return vertices if area >= 0 else [value for start, _ in outline_edges(vertices)[::-1] for value in start]


def from_lowest(vertices):
    points = [start for start, _ in outline_edges(vertices)]
    first = points.index(min(points, key=lambda point: point[::-1]))
    return [value for point in points[first:] + points[:first] for value in point]


# ---------------------------------------------------------------- ashore

def ranges_of_the_well_formed(gate, head):
    return (all(not gates.is_number(field) or gates.within(gates.number_value(field), limits) for field, limits, _ in gate.numbers)
            and all(not gates.is_decimal(field) or gates.within(gates.thousandths(field), limits) for field, limits in gate.decimals))


_RANGE_FIRST = tuple(sorted(_with(gates.LINE_CHECKS, 8, ranges_of_the_well_formed),
                            key=lambda check: 6.5 if check[0] == 8 else check[0]))


def forms_within_32_bits(gate, head):
    """A number too long for 32 bits called ill-formed."""
    return gates.forms_good(gate, head) and all(
        field == b'*' or -2 ** 31 <= gates.number_value(field) < 2 ** 31
        for field, _, _ in gate.numbers)


def names_with_dimensions(gate, head):
    """6 asked of dimensions too."""
    return gates.names_good(gate, head) and all(gates.is_name(name) for name in gate.dimensions)


def tiling_without_overlap(gate, head):
    """Twice is let pass, only holes are seen."""
    if gate.kind != b'quad':
        return True
    kept = []
    for quadrant in gate.quadrants:
        kept.append(quadrant)
        part = gates.Gate(gate.kind, gate.name, gate.parent)
        part.dividers, part.quadrants = gate.dividers, list(kept)
        if gates.tiling_good(part, head):
            return True
    return False


def lead_into_circle(table_gates):
    reached = gates.reach(table_gates)
    for number, gate in enumerate(table_gates):
        if number in reached[number] or any(other in reached[other] for other in reached[number]):
            return gate.line
    return None


def lines_above_only(table_gates):
    alive = set()
    for gate in table_gates:
        if any(name not in alive for name in gate.references()):
            return gate.line
        alive.update(gate.regions())
    return None


def twin_at_first_use(table_gates):
    """The line of the first use instead of the one that repeats it."""
    used = {}
    for gate in table_gates:
        for name in [gate.name] + [name for name, _ in gate.quadrants]:
            if name in used:
                return used[name]
            used[name] = gate.line
    return None


def circle_among_living(table_gates):
    """Circles looked for while dead references may still stand there."""
    owner = {name: gate for gate in table_gates for name in gate.regions()}
    for start in table_gates:
        seen, waiting = [], [start]
        while waiting:
            for name in waiting.pop().references():
                gate = owner.get(name)
                if gate is start:
                    return start.line
                if gate is not None and gate not in seen:
                    seen.append(gate)
                    waiting.append(gate)
    return None


_CIRCLE_FIRST = gates.TABLE_CHECKS[:2] + ((16, circle_among_living), (15, gates.find_dead))


def in_passes(numbers, steps):
    """Passes over the table instead of the lowest region each time."""
    written, order = set(), []
    while len(order) < len(steps):
        for region, (_, _, _, waits) in enumerate(steps):
            if region not in written and all(numbers[name] in written for name in waits):
                written.add(region)
                order.append(region)
    return order


def referred_dividers_only(gate, representatives, head):
    body = _ORIGINAL['quadrant_body'](gate, representatives, head)
    short = [word for k, field in enumerate(representatives) if field != b'*'
             for word in body[3 * k:3 * k + 3]]
    return short or body


def wrapped_events(line, n):
    """Numbers of the event list taken by their low 32 bits."""
    event = _ORIGINAL['event_values'](line, n)
    return event and [(value + 2 ** 31) % 2 ** 32 - 2 ** 31 for value in event]


def far_is_ragged(line, n):
    event = _ORIGINAL['event_values'](line, n)
    return None if event and any(not -2 ** 31 <= value < 2 ** 31 for value in event) else event


def open_last_line(line, n):
    return _ORIGINAL['event_values'](line if line[-1:] == b'\n' else line + b'\n', n)


def list_first(data):
    """A bad event line told of before the table's own refusals."""
    table, lists = gates.part_list(data)
    head = gates.read_head(table.split(b'\n')[0])
    if len(data) <= gates.INPUT_BYTES and head and gates.wrong_columns(lists, head) is None:
        place = gates.read_lists(lists, len(head))[0]
        if place is not None:
            return gates.refused(23, place)
    return _ORIGINAL['gatecount'](data)


def crowded_at_once(table):
    """Too many regions told of as soon as they are met, before the lines below."""
    number, place, head, table_gates = _ORIGINAL['read_table'](table)
    if 4 <= number <= 12:
        above = b''.join(line + b'\n' for line in table.split(b'\n')[:place - 1])
        earlier = _ORIGINAL['read_table'](above)
        if earlier[0] == 13:
            return earlier
    return number, place, head, table_gates


# ---------------------------------------------------------------- aboard

def body_length_first(kind, body, length, n, earlier):
    """Words that run out seen before the words that are there are judged."""
    if len(body) < length:
        return len(body)
    return _ORIGINAL['bad_body_word'](kind, body, length, n, earlier)


def matrix_after_d2(kind, body, length, n, earlier):
    bad = _ORIGINAL['bad_body_word'](kind, body, length, n, earlier)
    if kind in gates.ELLIPSES and bad == 4 and len(body) >= 7 and all(
            gates.within(word, gates.ellipse_range(kind, 4)) for word in body[4:7]):
        if len(body) < 8 or not gates.within(body[7], gates.ellipse_range(kind, 7)):
            return 7
    return bad


def c11_by_range(kind, body, at, n, earlier):
    """c11 below 1 called off range, before the other words are looked at."""
    if kind in gates.ELLIPSES and at == 4 and body[at] <= 0:
        return False
    return _ORIGINAL['body_word_good'](kind, body, at, n, earlier)


def dimension_twice(kind, body, at, n, earlier):
    """A dimension twice in a step let pass."""
    if (kind == gates.BOX and at % 3 == 0) or (kind in (gates.POLYGON, *gates.ELLIPSES) and at < 2) or (kind == gates.ELLIPSOID and at < 3):
        return 0 <= body[at] < n
    return _ORIGINAL['body_word_good'](kind, body, at, n, earlier)


def odd_polygon_length(kind, length):
    if kind == gates.POLYGON:
        return 8 <= length <= 514
    return _ORIGINAL['length_good'](kind, length)


# ---------------------------------------------------------------- decimals

def form_taken(pattern):
    """Numbers of one more form taken where decimals may stand."""
    return lambda field: _ORIGINAL['is_decimal'](field) or re.fullmatch(pattern, field) is not None


def fourth_cut_off(field):
    before, _, after = field.partition(b'.')
    return _ORIGINAL['number_value'](before + after[:3].ljust(3, b'0'))


def thousandths_by_parts(decimals, combined):
    """Thousandths of the number before the point, and of its decimals apart."""
    def answer(field):
        before, _, after = field.partition(b'.')
        return combined(1000 * _ORIGINAL['number_value'](before), decimals(after), field[:1] == b'-')
    return answer


def added_by_value(whole, decimals, minus):
    """The sign asked of the whole number, so that -0.5 has none."""
    return whole - decimals if whole < 0 else whole + decimals


def added_always(whole, decimals, minus):
    return whole + decimals


def added_by_sign(whole, decimals, minus):
    return whole - decimals if minus else whole + decimals


def right_decimals(after):
    return int(after.ljust(3, b'0'))


def decimals_anywhere(fields_of):
    """A point let pass in other numbers too, whose decimals are then cut off."""
    def good(gate, head):
        free = fields_of(gate)
        return (all(gates.is_number(field) or (star and field == b'*') or (gates.is_decimal(field) and field in free)
                    for field, _, star in gate.numbers)
                and all(gates.is_decimal(field) for field, _ in gate.decimals))
    return {'LINE_CHECKS': _with(gates.LINE_CHECKS, 7, good),
            'number_value': lambda field: _ORIGINAL['number_value'](field.partition(b'.')[0])}


def decimal_events(line, n):
    """Decimals in the event list cut off."""
    fields = line[:-1].split(b'\t')
    if all(gates.is_decimal(field) for field in fields):
        return _ORIGINAL['event_values'](b'\t'.join(field.partition(b'.')[0].replace(b'-0', b'0') for field in fields) + line[-1:], n)
    return _ORIGINAL['event_values'](line, n)


def long_decimals_are_form(gate, head):
    """A number with decimals too long for 32 bits called ill-formed."""
    return gates.forms_good(gate, head) and all(-2 ** 31 <= gates.thousandths(field) < 2 ** 31 for field, _ in gate.decimals)


def narrow_where(narrow):
    """The narrow range not asked of a whole entry of a line with decimals, by the line's fields."""
    def good(gate, head):
        others = [field for field, _ in gate.decimals]
        return all(gates.within(gates.number_value(field), gates.ENTRY_RANGE)
                   if b'.' not in field and at < 3 and not narrow(others) else gates.within(gates.thousandths(field), limits)
                   for at, (field, limits) in enumerate(gate.decimals)) and ranges_of_the_whole(gate)
    return {'LINE_CHECKS': _with(gates.LINE_CHECKS, 8, good)}


def ranges_of_the_whole(gate):
    return all(field == b'*' or gates.within(gates.number_value(field), limits) for field, limits, _ in gate.numbers)


def range_of_d2(low, high):
    """D2 of a line with decimals asked for another range, ashore only; in thousandths."""
    def good(gate, head):
        limits = [gates.DECIMAL_ENTRY_RANGE] * 3 + [(low, high)]
        return ranges_of_the_whole(gate) and all(gates.within(gates.thousandths(field), limit)
                                                 for (field, _), limit in zip(gate.decimals, limits))
    return {'LINE_CHECKS': _with(gates.LINE_CHECKS, 8, good)}


def in_32_bits(value):
    return (value + 2 ** 31) % 2 ** 32 - 2 ** 31


def in_64_bits(value):
    return (value + 2 ** 63) % 2 ** 64 - 2 ** 63


def matrix_in_32_bits(c11, c12, c22):
    return c11 > 0 and in_32_bits(int(c11 * c22)) > in_32_bits(int(c12 * c12))


def matrix_in_doubles(c11, c12, c22):
    return c11 > 0 and float(c11) * float(c22) > float(c12) * float(c12)


def matrix_rounded(gate, head):
    """The matrix of a line with decimals judged by whole numbers."""
    if gate.kind != b'ellip':
        return True
    return gates.matrix_is_good(*[int(value) for value in gates.ellipse_numbers(gate)[2:5]])


def every_line_to_kind_7(head, table_gates):
    """Lines without decimals too, where their entries allow."""
    numbers, steps = _ORIGINAL['region_steps'](head, table_gates)

    def step(kind, parent, body, waits):
        if kind == gates.ELLIPSE and all(abs(entry) <= 2000000 for entry in body[4:7]):
            return gates.DECIMAL_ELLIPSE, parent, body[:4] + [1000 * word for word in body[4:]], waits
        return kind, parent, body, waits

    return numbers, [step(*each) for each in steps]


def whole_values_to_kind_3(head, table_gates):
    """4.0 taken for a number without decimals."""
    numbers, steps = _ORIGINAL['region_steps'](head, table_gates)

    def step(kind, parent, body, waits):
        if kind == gates.DECIMAL_ELLIPSE and all(word % 1000 == 0 for word in body[4:]):
            return gates.ELLIPSE, parent, body[:4] + [word // 1000 for word in body[4:]], waits
        return kind, parent, body, waits

    return numbers, [step(*each) for each in steps]


def points_left_whole(head, table_gates):
    """Of a line with decimals the numbers without a point not taken to thousandths."""
    numbers, steps = _ORIGINAL['region_steps'](head, table_gates)
    decimals = [gate.decimals for gate in table_gates for _ in gate.regions()]

    def step(kind, parent, body, waits, fields):
        if kind == gates.DECIMAL_ELLIPSE:
            body = body[:4] + [word if b'.' in field else word // 1000 for word, (field, _) in zip(body[4:], fields)]
        return kind, parent, body, waits

    return numbers, [step(*each, fields) for each, fields in zip(steps, decimals)]


def decimal_sides(dx, dy, c11, c12, c22, d2):
    """01's rule in thousandths."""
    return (c22 * dx * dx - 2 * c12 * dx * dy + c11 * dy * dy) * 10 ** 6, d2 * (c11 * c22 - c12 * c12)


def decimal_sides_in_64_bits(dx, dy, c11, c12, c22, d2):
    left, right = decimal_sides(dx, dy, c11, c12, c22, d2)
    return in_64_bits(left), in_64_bits(right)


def decimal_sides_in_u64(dx, dy, c11, c12, c22, d2):
    left, right = decimal_sides(dx, dy, c11, c12, c22, d2)
    return left % 2 ** 64, right % 2 ** 64


def left_in_64_bits(dx, dy, c11, c12, c22, d2):
    """Only what stands before the factor of a million wraps."""
    left, right = decimal_sides(dx, dy, c11, c12, c22, d2)
    return in_64_bits(left // 10 ** 6) * 10 ** 6, right


def right_in_64_bits(dx, dy, c11, c12, c22, d2):
    left, right = decimal_sides(dx, dy, c11, c12, c22, d2)
    return left, in_64_bits(right)


def decimal_sides_in_doubles(dx, dy, c11, c12, c22, d2):
    return decimal_sides(float(dx), float(dy), float(c11), float(c12), float(c22), float(d2))


def decimals_in_doubles(dx, dy, c11, c12, c22, d2):
    """The decimals themselves as doubles."""
    c11, c12, c22, d2 = c11 / 1000, c12 / 1000, c22 / 1000, d2 / 1000
    return c22 * dx * dx - 2 * c12 * dx * dy + c11 * dy * dy, d2 * (c11 * c22 - c12 * c12)


def right_divided(dx, dy, c11, c12, c22, d2):
    """Divided by the million instead of multiplied: the remainder is lost."""
    left, right = decimal_sides(dx, dy, c11, c12, c22, d2)
    return left // 10 ** 6, right // 10 ** 6


def both_divided(dx, dy, c11, c12, c22, d2):
    """The determinant brought back to whole numbers first."""
    return (c22 * dx * dx - 2 * c12 * dx * dy + c11 * dy * dy, d2 * ((c11 * c22 - c12 * c12) // 10 ** 6))


def not_scaled(dx, dy, c11, c12, c22, d2):
    """Kind 7 counted like kind 3."""
    left, right = decimal_sides(dx, dy, c11, c12, c22, d2)
    return left // 10 ** 6, right


def d2_not_scaled(dx, dy, c11, c12, c22, d2):
    """D2 taken for whole."""
    left, right = decimal_sides(dx, dy, c11, c12, c22, d2)
    return left // 1000, right


def rounded_to_whole(dx, dy, c11, c12, c22, d2):
    c11, c12, c22, d2 = [int(Fraction(word, 1000)) for word in (c11, c12, c22, d2)]
    return c22 * dx * dx - 2 * c12 * dx * dy + c11 * dy * dy, d2 * (c11 * c22 - c12 * c12)


def decimal_holds(sides, inside=lambda left, right: left <= right):
    def answer(mean_x, mean_y, c11, c12, c22, d2, x, y):
        return inside(*sides(x - mean_x, y - mean_y, c11, c12, c22, d2))
    return {'decimal_ellipse_holds': answer}


def decimal_rim(sides):
    return {'decimal_ellipse_position': ellipse_sides(sides, 'decimal_ellipse_position')}


def range_aboard(entry=None, d2=None):
    """Words of kind 7 asked for another range, aboard only."""
    def answer(kind, at):
        if kind == gates.DECIMAL_ELLIPSE and at >= 4:
            return (entry if at < 7 else d2) or _ORIGINAL['ellipse_range'](kind, at)
        return _ORIGINAL['ellipse_range'](kind, at)
    return {'ellipse_range': answer}


def matrix_of_kind_3_only(kind, body, length, n, earlier):
    """The matrix of kind 7 not judged aboard."""
    bad = _ORIGINAL['bad_body_word'](kind, body, length, n, earlier)
    if kind == gates.DECIMAL_ELLIPSE and bad == 4:
        return next((at for at in range(4, length) if at == len(body) or not gates.body_word_good(kind, body, at, n, earlier)), None)
    return bad


# ---------------------------------------------------------------- ellipsoids

PAIRS = tuple(itertools.product(range(3), repeat=2))


def weighed(weight):
    """The rule with each product of two steps and a cofactor times a number, by its row and column."""
    def sides(step, rows, d2):
        left = sum(weight(row, column) * step[row] * gates.cofactor(rows, row, column) * step[column] for row, column in PAIRS)
        return left, d2 * gates.determinant(rows)
    return sides


ellipsoid_sides = weighed(lambda row, column: 1)


def turned_at(one, other):
    """A cofactor with the other sign."""
    return weighed(lambda row, column: -1 if {row, column} == {one, other} else 1)


def once_at(*pairs):
    """Products of two different steps counted once."""
    return weighed(lambda row, column: 0 if (column, row) in pairs else 1)


def with_sides(change):
    """Both sides changed alike."""
    return lambda step, rows, d2: tuple(change(side) for side in ellipsoid_sides(step, rows, d2))


def with_cofactors(change):
    def sides(step, rows, d2):
        left = sum(step[row] * change(gates.cofactor(rows, row, column)) * step[column] for row, column in PAIRS)
        return left, d2 * gates.determinant(rows)
    return sides


def squares_in_32_bits(step, rows, d2):
    left = sum(in_32_bits(step[row] * step[column]) * gates.cofactor(rows, row, column) for row, column in PAIRS)
    return left, d2 * gates.determinant(rows)


def only_left(change):
    def sides(step, rows, d2):
        left, right = ellipsoid_sides(step, rows, d2)
        return change(left), right
    return sides


def only_right(change):
    def sides(step, rows, d2):
        left, right = ellipsoid_sides(step, rows, d2)
        return left, change(right)
    return sides


def determinant_in_64_bits(step, rows, d2):
    return ellipsoid_sides(step, rows, d2)[0], d2 * in_64_bits(gates.determinant(rows))


def held_at_64_bits(step, rows, d2):
    """Each sum that passes 64 bits held at their end."""
    def held(value):
        return max(-2 ** 63, min(2 ** 63 - 1, value))
    left = 0
    for row, column in PAIRS:
        left = held(left + held(step[row] * gates.cofactor(rows, row, column) * step[column]))
    return left, held(d2 * held(gates.determinant(rows)))


def ellipsoid_in_doubles(step, rows, d2):
    return ellipsoid_sides([float(part) for part in step], [[float(entry) for entry in entries] for entries in rows], float(d2))


def divided_in_doubles(step, rows, d2):
    """000's rule with its division, in doubles."""
    left, right = ellipsoid_in_doubles(step, rows, 1.0)
    return left / right if right else float('inf'), float(d2)


def halves(bits, low):
    """Numbers compared by what is above so many bits, then by another reading of those bits."""
    return with_sides(lambda side: (side >> bits, low(side)))


def not_inverted(step, rows, d2):
    """The matrix itself where its inverse belongs."""
    return sum(step[row] * rows[row][column] * step[column] for row, column in PAIRS), d2


def not_multiplied(step, rows, d2):
    return ellipsoid_sides(step, rows, d2)[0], d2


def d2_left_out(step, rows, d2):
    return ellipsoid_sides(step, rows, 1)


def upper_left_determinant(step, rows, d2):
    return ellipsoid_sides(step, rows, d2)[0], d2 * (rows[0][0] * rows[1][1] - rows[0][1] ** 2)


def third_step_left_out(step, rows, d2):
    return ellipsoid_sides([step[0], step[1], 0], rows, d2)


def ellipsoid_holding(sides, inside=lambda left, right: left <= right):
    def answer(means, rows, d2, point):
        return inside(*sides([value - mean for value, mean in zip(point, means)], rows, d2))
    return {'ellipsoid_holds': answer}


def ellipsoid_rim(sides):
    """On the rim where two sides reckoned otherwise are equal; what is outside stays so."""
    def answer(means, rows, d2, point):
        if _ORIGINAL['ellipsoid_position'](means, rows, d2, point) == gates.OUTSIDE:
            return gates.OUTSIDE
        left, right = sides([value - mean for value, mean in zip(point, means)], rows, d2)
        return gates.ON_OUTLINE if left == right else gates.INSIDE
    return {'ellipsoid_position': answer}


def by_pairs(means, rows, d2, point):
    """Inside where the ellipse of each pair of dimensions says so."""
    return all(gates.ellipse_holds(means[a], means[b], rows[a][a], rows[a][b], rows[b][b], d2, point[a], point[b]) for a, b in ((0, 1), (0, 2), (1, 2)))


def tilted_rim_left_out(means, rows, d2, point):
    found = _ORIGINAL['ellipsoid_position'](means, rows, d2, point)
    upright = all(rows[a][b] == 0 for a, b in PAIRS if a != b)
    return found if upright or found != gates.ON_OUTLINE else gates.INSIDE


def other_body(change):
    """Means, matrix, D2 and point of a step taken otherwise from its body and the event."""
    return {'ellipsoid_of': lambda body, event: change(body, event, *_ORIGINAL['ellipsoid_of'](body, event))}


def other_words(change):
    """Another body written for an `ellip3` line."""
    def steps(head, table_gates):
        numbers, found = _ORIGINAL['region_steps'](head, table_gates)
        return numbers, [(kind, parent, change(body) if kind == gates.ELLIPSOID else body, waits) for kind, parent, body, waits in found]
    return {'region_steps': steps}


def leading(rows):
    return [gates.determinant([entries[:size] for entries in rows[:size]]) for size in (1, 2, 3)]


def good_where(rule):
    """A matrix judged otherwise, by c11, the upper left and the whole determinant, ashore and aboard."""
    return {'ellipsoid_matrix_is_good': lambda rows: rule(*leading(rows))}


def good_by_lower_right(rows):
    return rows[0][0] > 0 and rows[1][1] * rows[2][2] > rows[1][2] ** 2 and gates.determinant(rows) > 0


def good_by_pairs(rows):
    """Each pair of dimensions by itself, and not the three together."""
    return all(gates.matrix_is_good(rows[a][a], rows[a][b], rows[b][b]) for a, b in ((0, 1), (0, 2), (1, 2)))


def good_in_doubles(rows):
    return all(value > 0 for value in leading([[float(entry) for entry in entries] for entries in rows]))


def good_by_diagonal(rows):
    return all(rows[at][at] > 0 for at in range(3)) and gates.determinant(rows) > 0


def ellipsoid_words(answer):
    """Another answer where the first bad word of an ellipsoid's body is looked for."""
    def bad_word(kind, body, length, n, earlier):
        bad = _ORIGINAL['bad_body_word'](kind, body, length, n, earlier)
        if kind != gates.ELLIPSOID:
            return bad

        def plain(beginning):
            """The first word from one on that is bad by itself or missing."""
            return next((at for at in range(beginning, length) if at >= len(body) or not gates.body_word_good(kind, body, at, n, earlier)), None)

        matrix_bad = bad == 6 and len(body) >= 12 and plain(0) not in range(12)
        return answer(body, bad, matrix_bad, plain)
    return {'bad_body_word': bad_word}


def matrix_at_minor(body, bad, matrix_bad, plain):
    """A bad matrix placed at the last entry of the first determinant that isn't above 0."""
    if not matrix_bad:
        return bad
    first, second, _ = leading(gates.symmetric(*body[6:12]))
    return 6 if first <= 0 else 9 if second <= 0 else 11


def after_d2(body, bad, matrix_bad, plain):
    """The matrix judged when D2 is there and in range too."""
    return plain(12) or bad if matrix_bad else bad


def minor_at_c22(body, bad, matrix_bad, plain):
    """c11 and the upper left determinant judged as soon as c22 is there."""
    if bad in (10, 11) and len(body) >= 10:
        first, second = body[6], body[6] * body[9] - body[7] ** 2
        return 6 if first <= 0 or second <= 0 else bad
    return bad


def c11_at_once(body, bad, matrix_bad, plain):
    return 6 if bad in range(7, 12) and body[6] <= 0 else bad


def of_kind_8(places, good):
    """Some words of an ellipsoid's body judged otherwise."""
    def answer(kind, body, at, n, earlier):
        if kind == gates.ELLIPSOID and at in places:
            return good(body, at, n)
        return _ORIGINAL['body_word_good'](kind, body, at, n, earlier)
    return {'body_word_good': answer}


def range_of_kind_8(places, low, high):
    return of_kind_8(places, lambda body, at, n: low <= body[at] <= high)


def length_of_kind_8(length):
    """One more length taken; a D2 that isn't there is 1."""
    def of(body, event):
        return _ORIGINAL['ellipsoid_of']((body + [1])[:13], event)

    def good(kind, body, at, n, earlier):
        return True if kind == gates.ELLIPSOID and at > 12 else _ORIGINAL['body_word_good'](kind, body, at, n, earlier)

    return {'length_good': lambda kind, given: (kind == gates.ELLIPSOID and given == length) or _ORIGINAL['length_good'](kind, given),
            'ellipsoid_of': of, 'body_word_good': good}


def range_of_ellip3(places, low, high):
    """Some fields of an `ellip3` line, from its first mean on, asked for another range."""
    def good(gate, head):
        if gate.kind != b'ellip3':
            return gates.ranges_good(gate, head)
        limits = [(low, high) if at in places else usual for at, usual in enumerate(gates.ELLIPSOID_RANGES)]
        return all(gates.within(gates.number_value(field), limit) for field, limit in zip(gate.ellipsoid, limits))
    return {'LINE_CHECKS': _with(gates.LINE_CHECKS, 8, good)}


def third_dimension_free(other):
    """The third dimension of a line not compared with one of the others."""
    def good(gate, head):
        if gate.kind == b'ellip3' and gate.dimensions[2] == gate.dimensions[other]:
            return gate.dimensions[0] != gate.dimensions[1] and all(name in head for name in gate.dimensions)
        return gates.dimensions_good(gate, head)
    return {'LINE_CHECKS': _with(gates.LINE_CHECKS, 9, good)}


def fields_of_ellip3(count, change):
    """One more number of fields taken behind the parent."""
    def read(fields):
        if fields[0] == b'ellip3' and len(fields) == 3 + count:
            fields = fields[:3] + change(fields[3:])
        return _ORIGINAL['read_gate'](fields)
    return {'read_gate': read}


def matrix_before_dimension(gate, head):
    return gates.dimensions_good(gate, head) if gate.kind != b'ellip3' else gates.matrix_good(gate, head)


PLANTS = {
    'even-odd': {'polygon_holds': even_odd},
    'top-included': {'box_holds': top_included},
    'not-within-parent': {'event_bits': not_within_parent},
    'circle-at-lead': {'TABLE_CHECKS': _with(gates.TABLE_CHECKS, 16, lead_into_circle)},
    'range-before-form': {'LINE_CHECKS': _RANGE_FIRST},
    'rim-excluded': {'ellipse_holds': rim_excluded},
    'matrix-at-c22': {'MATRIX_AT': 6},
    'spoilt-as-taken': {'count': spoilt_as_taken},
    # Beyond those, some more slips of the same kind.
    'edge-excluded': {'polygon_holds': edge_excluded},
    'edge-unbounded': {'polygon_holds': edge_unbounded},
    'polygon-left-open': {'polygon_holds': polygon_left_open},
    'bottom-excluded': {'box_holds': bottom_excluded},
    'c12-added': {'ellipse_holds': c12_added},
    'ellipse-in-32-bits': {'ellipse_holds': ellipse_in_32_bits},
    'ellipse-in-doubles': {'ellipse_holds': ellipse_in_doubles},
    'polygon-in-32-bits': {'polygon_holds': polygon_in_32_bits},
    'combination-without-parent': {'event_bits': combination_without_parent},
    'first-event-for-all': {'count': first_event_for_all},
    'long-number-is-form': {'LINE_CHECKS': _with(gates.LINE_CHECKS, 7, forms_within_32_bits)},
    'dimension-form': {'LINE_CHECKS': _with(gates.LINE_CHECKS, 6, names_with_dimensions)},
    'overlap-let-pass': {'LINE_CHECKS': _with(gates.LINE_CHECKS, 12, tiling_without_overlap)},
    'lines-above-only': {'TABLE_CHECKS': _with(gates.TABLE_CHECKS, 15, lines_above_only)},
    'twin-at-first-use': {'TABLE_CHECKS': _with(gates.TABLE_CHECKS, 14, twin_at_first_use)},
    'circle-before-dead': {'TABLE_CHECKS': _CIRCLE_FIRST},
    'steps-in-passes': {'writing_order': in_passes},
    'referred-dividers-only': {'quadrant_body': referred_dividers_only},
    'events-wrapped': {'event_values': wrapped_events},
    'far-is-ragged': {'event_values': far_is_ragged},
    'open-last-line': {'event_values': open_last_line},
    'list-first': {'gatecount': list_first},
    'crowded-at-once': {'read_table': crowded_at_once},
    'table-one-byte-less': {'TABLE_BYTES': 32767},
    'table-one-byte-more': {'TABLE_BYTES': 32769},
    'input-one-byte-less': {'INPUT_BYTES': 65535},
    'input-one-byte-more': {'INPUT_BYTES': 65537},
    'plan-one-word-less': {'PLAN_WORDS': 4095},
    'plan-one-word-more': {'PLAN_WORDS': 4097},
    'body-length-first': {'bad_body_word': body_length_first},
    'matrix-after-d2': {'bad_body_word': matrix_after_d2},
    'c11-by-range': {'body_word_good': c11_by_range},
    'dimension-twice': {'body_word_good': dimension_twice},
    'odd-polygon-length': {'length_good': odd_polygon_length},
    # Outlines: only questions `judge` can see these.
    'edge-said-inside': {'polygon_position': never_on_outline(gates.polygon_position)},
    'rim-said-inside': {'ellipse_position': never_on_outline(gates.ellipse_position)},
    'edge-where-sum': {'polygon_position': edge_where_sum(True)},
    'edge-where-no-sum': {'polygon_position': edge_where_sum(False)},
    'inner-edge-said-inside': {'polygon_position': inner_edge_inside},
    'edges-cancel': {'polygon_position': edge_carries(edge_rule, lambda times: times % 2 == 1)},
    'edge-without-ends': {'polygon_position': edge_carries(without_ends)},
    'ends-only': {'polygon_position': edge_carries(ends_only)},
    'edge-without-length': {'polygon_position': edge_carries(with_length)},
    'level-edge-left-out': {'polygon_position': edge_carries(not_level)},
    'upright-edge-left-out': {'polygon_position': edge_carries(not_upright)},
    'closing-edge-left-out': {'polygon_position': edge_carries(not_closing)},
    'edge-by-x-only': {'polygon_position': edge_carries(x_between_only)},
    'edge-by-y-only': {'polygon_position': edge_carries(y_between_only)},
    'edge-in-32-bits': {'polygon_position': edge_carries(s_in_32_bits)},
    'rim-with-c12-added': {'ellipse_position': ellipse_sides(c12_added_sides)},
    'rim-in-32-bits': {'ellipse_position': ellipse_sides(sides_in_32_bits)},
    'rim-in-doubles': {'ellipse_position': ellipse_sides(sides_in_doubles)},
    'tilted-rim-said-inside': {'ellipse_position': upright_only},
    'outline-of-non-members': {'outline_bits': outline_of_all},
    'outline-out-of-parent': {'outline_bits': outline_out_of_parent},
    'and-takes-over-outline': {'outline_bits': taken_over(operands((gates.AND,)))},
    'or-takes-over-outline': {'outline_bits': taken_over(operands((gates.OR,)))},
    'not-takes-over-outline': {'outline_bits': taken_over(operands((gates.NOT,)))},
    'plain-operand-takes-over': {'outline_bits': taken_over(plain_operands)},
    'box-takes-over-outline': {'outline_bits': taken_over(parent_of((gates.BOX,)))},
    'shape-takes-over-outline': {'outline_bits': taken_over(parent_of((gates.POLYGON, *gates.ELLIPSES, gates.ELLIPSOID)))},
    'combination-takes-parents': {'outline_bits': taken_over(parent_of(gates.COMBINATIONS))},
    'box-with-outline': {'outline_bits': box_with_outline},
    'outline-by-steps': {'outline_bits': outline_by_steps},
    'outline-of-32-regions': {'outline_bits': outline_of_32},
    'one-outline-in-a-line': {'outline_bits': not_with_parents_outline},
    'malformed-keeps-outline': {'judge': refused_with_outline(22)},
    'ragged-keeps-outline': {'judge': refused_with_outline(23)},
    'spoilt-keeps-outline': {'judge': refused_with_outline(24)},
    # The walk over the vertices: its first edges and its last.
    'walk-closing-edge-not-asked': asked_and_summed(lambda edges, y: (edges[:-1], edges)),
    'walk-closing-edge-not-summed': asked_and_summed(lambda edges, y: (edges, edges[:-1])),
    'walk-closing-edge-twice': asked_and_summed(lambda edges, y: (edges, edges + edges[-1:])),
    'walk-closing-edge-backwards': other_edges(lambda edges: edges[:-1] + [edges[-1][::-1]]),
    'walk-closed-at-the-second': other_edges(lambda edges: edges[:-1] + [(edges[-1][0], edges[0][1])]),
    'walk-first-edge-twice': asked_and_summed(lambda edges, y: (edges, edges[:1] + edges)),
    'walk-first-edge-left-out': other_edges(lambda edges: edges[1:]),
    'walk-first-edge-not-asked': asked_and_summed(lambda edges, y: (edges[1:], edges)),
    'walk-last-vertex-left-out': other_vertices(lambda points: points[:-1]),
    # Its edges and their sum.
    'walk-sum-after-an-edge': {'polygon_position': sum_after_edge},
    'walk-edge-forgotten-at-crossing': {'polygon_position': forgotten_at_crossing},
    'walk-edge-asked-while-sum-is-0': {'polygon_position': asked_while_sum_is_0},
    'walk-edge-of-last-8-only': last_stretch_only(8),
    'walk-edge-of-last-64-only': last_stretch_only(64),
    'walk-sums-of-8-not-added': any_stretch_sum(8),
    'walk-sums-of-64-not-added': any_stretch_sum(64),
    'walk-sum-in-4-bits': sum_in_bits(4),
    'walk-sum-in-6-bits': sum_in_bits(6),
    # Vertices passed over.
    'walk-edge-at-or-above-passed': stretch_passed(1, lambda heights: min(heights) >= 0),
    'walk-edge-at-or-above-not-asked': asked_and_summed(lambda edges, y: ([edge for edge in edges if min(edge[0][1], edge[1][1]) < y], edges)),
    'walk-edge-at-or-below-passed': stretch_passed(1, lambda heights: max(heights) <= 0),
    'walk-edge-at-a-height-passed': stretch_passed(1, lambda heights: heights == [0, 0]),
    'walk-4-at-or-above-passed': stretch_passed(4, lambda heights: min(heights) >= 0),
    'walk-4-at-or-below-passed': stretch_passed(4, lambda heights: max(heights) <= 0),
    'walk-16-at-or-above-passed': stretch_passed(16, lambda heights: min(heights) >= 0),
    'walk-16-at-or-below-passed': stretch_passed(16, lambda heights: max(heights) <= 0),
    'walk-16-passed-by-their-ends': stretch_passed(16, lambda heights: one_side([heights[0], heights[-1]])),
    'walk-16-passed-without-last-end': stretch_passed(16, lambda heights: one_side(heights[:-1])),
    'walk-16-passed-without-first': stretch_passed(16, lambda heights: one_side(heights[1:])),
    'walk-both-ends-summed': summed_by(lambda start, end: start <= 0 <= end and start != end),
    'walk-no-end-summed': summed_by(lambda start, end: start < 0 < end),
    'walk-falling-by-other-end': {'polygon_position': falling_by_other_end},
    # Its length, and its stretches.
    'walk-rest-after-4s-left-out': rest_left_out(4),
    'walk-rest-after-8s-left-out': rest_left_out(8),
    'walk-rest-after-64s-left-out': rest_of_long_left_out(64),
    'walk-64-vertices-only': other_vertices(lambda points: points[:64]),
    'walk-128-vertices-only': other_vertices(lambda points: points[:128]),
    'walk-255-vertices-only': other_vertices(lambda points: points[:255]),
    'walk-number-in-8-bits': other_vertices(lambda points: points[:len(points) % 256]),
    'walk-edge-between-8s-left-out': first_edges_of_stretches(8, lambda edges, at: []),
    'walk-edge-between-64s-left-out': first_edges_of_stretches(64, lambda edges, at: []),
    'walk-8s-begun-at-first-vertex': first_edges_of_stretches(8, begun_at_first),
    'walk-64s-begun-at-first-vertex': first_edges_of_stretches(64, begun_at_first),
    'walk-8s-begun-one-early': first_edges_of_stretches(8, begun_one_early),
    'walk-64s-begun-one-early': first_edges_of_stretches(64, begun_one_early),
    'walk-64s-begun-one-late': first_edges_of_stretches(64, begun_one_late),
    'walk-128s-begun-one-late': first_edges_of_stretches(128, begun_one_late),
    # Decimals: forms and values.
    'minus-zero-with-decimals': {'is_decimal': form_taken(rb'-0[.]0{1,3}')},
    'minus-zero-beside-decimals': {'is_decimal': form_taken(rb'-0')},
    'no-digit-before-the-point': {'is_decimal': form_taken(rb'-?[.][0-9]{1,3}')},
    'no-digit-after-the-point': {'is_decimal': form_taken(rb'-?(0|[1-9][0-9]*)[.]')},
    'leading-zeros-taken': {'is_decimal': form_taken(rb'-?0[0-9]+[.][0-9]{1,3}')},
    'plus-taken': {'is_decimal': form_taken(rb'[+](0|[1-9][0-9]*)[.][0-9]{1,3}')},
    'fourth-decimal-cut-off': {'is_decimal': form_taken(rb'-?(0|[1-9][0-9]*)[.][0-9]{4,}'), 'thousandths': fourth_cut_off},
    'no-decimals-below-one': {'is_decimal': lambda field: gates.is_number(field) or (
        re.fullmatch(rb'-?[1-9][0-9]*[.][0-9]{1,3}', field) is not None)},
    'no-minus-below-one': {'is_decimal': lambda field: _ORIGINAL['is_decimal'](field) and field[:2] != b'-0'},
    'no-zeros-at-the-end': {'is_decimal': lambda field: _ORIGINAL['is_decimal'](field) and not (b'.' in field and field[-1:] == b'0')},
    'one-decimal-as-thousandths': {'thousandths': thousandths_by_parts(lambda after: int(after or b'0'), added_by_sign)},
    'sign-lost-below-one': {'thousandths': thousandths_by_parts(right_decimals, added_by_value)},
    'decimals-added-below-zero': {'thousandths': thousandths_by_parts(right_decimals, added_always)},
    'mean-with-decimals': decimals_anywhere(lambda gate: gate.ellipse[:2]),
    'decimals-in-boxes': decimals_anywhere(lambda gate: [field for bound in gate.bounds for field in bound]),
    'decimals-in-polygons': decimals_anywhere(lambda gate: gate.vertices),
    'decimals-in-dividers': decimals_anywhere(lambda gate: [field for _, fields in gate.dividers for field in fields]),
    'decimals-in-events': {'event_values': decimal_events},
    'long-decimals-are-form': {'LINE_CHECKS': _with(gates.LINE_CHECKS, 7, long_decimals_are_form)},
    # Decimals: ranges, matrix and words.
    'narrow-range-of-points-only': narrow_where(lambda fields: False),
    'narrow-range-not-for-d2': narrow_where(lambda fields: any(b'.' in field for field in fields[:3])),
    'narrow-range-not-for-entries': narrow_where(lambda fields: b'.' in fields[3]),
    'd2-from-one-on': range_of_d2(1000, 4096000),
    'd2-up-to-4096-thousandths': range_of_d2(1, 4096),
    'd2-without-upper-end': range_of_d2(1, 2 ** 31),
    'decimal-entry-one-more': {'DECIMAL_ENTRY_RANGE': (-2000000001, 2000000001)},
    'decimal-entry-one-less': {'DECIMAL_ENTRY_RANGE': (-1999999999, 1999999999)},
    'decimal-d2-one-more': {'DECIMAL_D2_RANGE': (1, 4096001)},
    'decimal-d2-one-less': {'DECIMAL_D2_RANGE': (1, 4095999)},
    'decimal-d2-from-zero': {'DECIMAL_D2_RANGE': (0, 4096000)},
    'decimal-d2-from-two': {'DECIMAL_D2_RANGE': (2, 4096000)},
    'matrix-in-32-bits': {'matrix_is_good': matrix_in_32_bits},
    'matrix-in-doubles': {'matrix_is_good': matrix_in_doubles},
    'decimal-matrix-rounded': {'LINE_CHECKS': _with(gates.LINE_CHECKS, 11, matrix_rounded)},
    'whole-line-to-kind-7': {'region_steps': every_line_to_kind_7},
    'whole-values-to-kind-3': {'region_steps': whole_values_to_kind_3},
    'points-only-to-thousandths': {'region_steps': points_left_whole},
    'kind-7-unknown': {'STEP_KINDS': (1, 2, 3, 4, 5, 6, 8)},
    'kind-9-known': {'STEP_KINDS': range(1, 10), 'ELLIPSES': (3, 7, 9)},
    'kind-7-entries-of-kind-3': range_aboard(entry=gates.ENTRY_RANGE),
    'kind-7-d2-of-kind-3': range_aboard(d2=gates.D2_RANGE),
    'kind-7-entries-of-32-bits': range_aboard(entry=(-2 ** 31, 2 ** 31 - 1)),
    'kind-7-d2-one-more': range_aboard(d2=(1, 4096001)),
    'kind-7-d2-from-zero': range_aboard(d2=(0, 4096000)),
    'kind-7-matrix-not-judged': {'bad_body_word': matrix_of_kind_3_only},
    # Decimals: members and outlines.
    'decimal-rim-excluded': decimal_holds(decimal_sides, lambda left, right: left < right),
    'decimal-in-64-bits': decimal_holds(decimal_sides_in_64_bits),
    'decimal-in-u64': decimal_holds(decimal_sides_in_u64),
    'decimal-left-in-64-bits': decimal_holds(left_in_64_bits),
    'decimal-right-in-64-bits': decimal_holds(right_in_64_bits),
    'decimal-sides-in-doubles': decimal_holds(decimal_sides_in_doubles),
    'decimals-in-doubles': decimal_holds(decimals_in_doubles),
    'decimal-determinant-rounded': decimal_holds(both_divided),
    'kind-7-counted-as-kind-3': decimal_holds(not_scaled),
    'decimal-d2-taken-for-whole': decimal_holds(d2_not_scaled),
    'decimals-rounded-to-whole': decimal_holds(rounded_to_whole),
    'decimal-rim-said-inside': {'decimal_ellipse_position': never_on_outline(gates.decimal_ellipse_position)},
    'decimal-rim-in-64-bits': decimal_rim(decimal_sides_in_64_bits),
    'decimal-rim-in-doubles': decimal_rim(decimal_sides_in_doubles),
    'decimal-rim-by-division': decimal_rim(right_divided),
    'decimal-rim-as-kind-3': decimal_rim(not_scaled),
    # Ellipsoids: lines.
    'ellip3-unknown': {'KINDS': gates.KINDS[:-1]},
    'ellip3-12-fields-taken': fields_of_ellip3(12, lambda rest: rest + [b'1']),
    'ellip3-14-fields-taken': fields_of_ellip3(14, lambda rest: rest[:13]),
    'ellip3-nine-entries-taken': fields_of_ellip3(16, lambda rest: rest[:9] + rest[10:12] + rest[14:]),
    'ellip3-decimals-in-means': decimals_anywhere(lambda gate: gate.ellipsoid[:3]),
    'ellip3-decimals-in-entries': decimals_anywhere(lambda gate: gate.ellipsoid[3:9]),
    'ellip3-decimals-in-d2': decimals_anywhere(lambda gate: gate.ellipsoid[9:]),
    'ellip3-entries-of-decimals': range_of_ellip3(range(3, 9), -2000000, 2000000),
    'ellip3-entry-one-more': range_of_ellip3(range(3, 9), -16777217, 16777217),
    'ellip3-entry-one-less': range_of_ellip3(range(3, 9), -16777215, 16777215),
    'ellip3-c33-without-range': range_of_ellip3([8], -2 ** 40, 2 ** 40),
    'ellip3-third-mean-without-range': range_of_ellip3([2], -2 ** 40, 2 ** 40),
    'ellip3-d2-from-zero': range_of_ellip3([9], 0, 4096),
    'ellip3-d2-one-more': range_of_ellip3([9], 1, 4097),
    'ellip3-d2-one-less': range_of_ellip3([9], 1, 4095),
    'ellip3-third-as-first': third_dimension_free(0),
    'ellip3-third-as-second': third_dimension_free(1),
    'ellip3-matrix-before-dimension': {'LINE_CHECKS': _with(_with(gates.LINE_CHECKS, 9, matrix_before_dimension), 11, (
        lambda gate, head: gates.dimensions_good(gate, head) if gate.kind == b'ellip3' else gates.matrix_good(gate, head)))},
    'ellip3-matrix-not-judged': {'LINE_CHECKS': _with(gates.LINE_CHECKS, 11, lambda gate, head: gate.kind == b'ellip3' or gates.matrix_good(gate, head))},
    # Ellipsoids: a matrix judged otherwise, ashore and aboard.
    'ellip3-c11-not-asked': good_where(lambda first, second, third: second > 0 and third > 0),
    'ellip3-minor-not-asked': good_where(lambda first, second, third: first > 0 and third > 0),
    'ellip3-whole-not-asked': good_where(lambda first, second, third: first > 0 and second > 0),
    'ellip3-whole-from-zero': good_where(lambda first, second, third: first > 0 and second > 0 and third >= 0),
    'ellip3-whole-other-than-zero': good_where(lambda first, second, third: first > 0 and second > 0 and third != 0),
    'ellip3-whole-from-two': good_where(lambda first, second, third: first > 0 and second > 0 and third > 1),
    'ellip3-lower-right-asked': {'ellipsoid_matrix_is_good': good_by_lower_right},
    'ellip3-pairs-asked': {'ellipsoid_matrix_is_good': good_by_pairs},
    'ellip3-diagonal-asked': {'ellipsoid_matrix_is_good': good_by_diagonal},
    'ellip3-matrix-in-64-bits': good_where(lambda first, second, third: first > 0 and second > 0 and in_64_bits(third) > 0),
    'ellip3-matrix-in-32-bits': good_where(lambda first, second, third: first > 0 and in_32_bits(second) > 0 and third > 0),
    'ellip3-matrix-in-doubles': {'ellipsoid_matrix_is_good': good_in_doubles},
    # Ellipsoids: words.
    'ellip3-c13-c22-exchanged': {'symmetric': lambda c11, c12, c22, c13, c23, c33: _ORIGINAL['symmetric'](c11, c12, c13, c22, c23, c33)},
    'ellip3-c13-c23-exchanged': {'symmetric': lambda c11, c12, c23, c22, c13, c33: _ORIGINAL['symmetric'](c11, c12, c13, c22, c23, c33)},
    'ellip3-c13-c22-exchanged-in-words': other_words(lambda body: body[:8] + [body[9], body[8]] + body[10:]),
    'ellip3-dimensions-sorted-in-words': other_words(lambda body: sorted(body[:3]) + body[3:]),
    'ellip3-means-behind-matrix-in-words': other_words(lambda body: body[:3] + body[6:12] + body[3:6] + body[12:]),
    'ellip3-third-mean-from-second-in-words': other_words(lambda body: body[:5] + [body[4]] + body[6:]),
    'ellip3-kind-8-unknown': {'STEP_KINDS': range(1, 8)},
    'ellip3-length-12': length_of_kind_8(12),
    'ellip3-length-14': length_of_kind_8(14),
    'ellip3-matrix-at-word-4': {'ELLIPSOID_MATRIX_AT': 4},
    'ellip3-matrix-at-c12': {'ELLIPSOID_MATRIX_AT': 7},
    'ellip3-matrix-at-c33': {'ELLIPSOID_MATRIX_AT': 11},
    'ellip3-matrix-at-d2': {'ELLIPSOID_MATRIX_AT': 12},
    'ellip3-matrix-at-bad-minor': ellipsoid_words(matrix_at_minor),
    'ellip3-matrix-after-d2': ellipsoid_words(after_d2),
    'ellip3-minor-judged-at-c22': ellipsoid_words(minor_at_c22),
    'ellip3-c11-judged-at-once': ellipsoid_words(c11_at_once),
    'ellip3-matrix-not-judged-aboard': ellipsoid_words(lambda body, bad, matrix_bad, plain: plain(12) if matrix_bad else bad),
    'ellip3-third-as-first-aboard': of_kind_8([2], lambda body, at, n: 0 <= body[2] < n and body[2] != body[1]),
    'ellip3-third-as-second-aboard': of_kind_8([2], lambda body, at, n: 0 <= body[2] < n and body[2] != body[0]),
    'ellip3-entries-of-kind-7-aboard': range_of_kind_8(range(6, 12), -2000000000, 2000000000),
    'ellip3-entry-one-more-aboard': range_of_kind_8(range(6, 12), -16777217, 16777217),
    'ellip3-entry-one-less-aboard': range_of_kind_8(range(6, 12), -16777215, 16777215),
    'ellip3-c13-without-range-aboard': range_of_kind_8([8], -2 ** 31, 2 ** 31),
    'ellip3-c33-without-range-aboard': range_of_kind_8([11], -2 ** 31, 2 ** 31),
    'ellip3-third-mean-without-range-aboard': range_of_kind_8([5], -2 ** 31, 2 ** 31),
    'ellip3-d2-from-zero-aboard': range_of_kind_8([12], 0, 4096),
    'ellip3-d2-one-more-aboard': range_of_kind_8([12], 1, 4097),
    'ellip3-d2-one-less-aboard': range_of_kind_8([12], 1, 4095),
    'ellip3-d2-of-kind-7-aboard': range_of_kind_8([12], 1, 4096000),
    # Ellipsoids: members.
    'ellip3-rim-excluded': ellipsoid_holding(ellipsoid_sides, lambda left, right: left < right),
    'ellip3-third-mean-from-second': other_body(lambda body, event, means, rows, d2, point: ([*means[:2], means[1]], rows, d2, point)),
    'ellip3-second-mean-from-first': other_body(lambda body, event, means, rows, d2, point: ([means[0], means[0], means[2]], rows, d2, point)),
    'ellip3-z-from-y': other_body(lambda body, event, means, rows, d2, point: (means, rows, d2, [*point[:2], point[1]])),
    'ellip3-first-three-values': other_body(lambda body, event, means, rows, d2, point: (means, rows, d2, event[:3])),
    'ellip3-values-in-head-order': other_body(lambda body, event, means, rows, d2, point: (means, rows, d2, [event[at] for at in sorted(body[:3])])),
    'ellip3-means-left-out': other_body(lambda body, event, means, rows, d2, point: ([0, 0, 0], rows, d2, point)),
    'ellip3-c13-c22-exchanged-in-members': other_body(lambda body, event, means, rows, d2, point: (
        means, gates.symmetric(body[6], body[7], body[9], body[8], body[10], body[11]), d2, point)),
    'ellip3-d2-from-c33': other_body(lambda body, event, means, rows, d2, point: (means, rows, body[11], point)),
    'ellip3-third-step-left-out': ellipsoid_holding(third_step_left_out),
    'ellip3-by-pairs': {'ellipsoid_holds': by_pairs},
    'ellip3-cofactor-12-turned': ellipsoid_holding(turned_at(0, 1)),
    'ellip3-cofactor-13-turned': ellipsoid_holding(turned_at(0, 2)),
    'ellip3-cofactor-23-turned': ellipsoid_holding(turned_at(1, 2)),
    'ellip3-minors-for-cofactors': ellipsoid_holding(weighed(lambda row, column: (-1) ** (row + column))),
    'ellip3-cross-terms-once': ellipsoid_holding(once_at((0, 1), (0, 2), (1, 2))),
    'ellip3-cross-term-12-once': ellipsoid_holding(once_at((0, 1))),
    'ellip3-cross-term-13-once': ellipsoid_holding(once_at((0, 2))),
    'ellip3-cross-term-23-once': ellipsoid_holding(once_at((1, 2))),
    'ellip3-cross-terms-left-out': ellipsoid_holding(weighed(lambda row, column: int(row == column))),
    'ellip3-not-inverted': ellipsoid_holding(not_inverted),
    'ellip3-determinant-left-out': ellipsoid_holding(not_multiplied),
    'ellip3-d2-left-out': ellipsoid_holding(d2_left_out),
    'ellip3-upper-left-determinant': ellipsoid_holding(upper_left_determinant),
    'ellip3-in-64-bits': ellipsoid_holding(with_sides(in_64_bits)),
    'ellip3-in-u64': ellipsoid_holding(with_sides(lambda side: side % 2 ** 64)),
    'ellip3-left-in-64-bits': ellipsoid_holding(only_left(in_64_bits)),
    'ellip3-right-in-64-bits': ellipsoid_holding(only_right(in_64_bits)),
    'ellip3-determinant-in-64-bits': ellipsoid_holding(determinant_in_64_bits),
    'ellip3-held-at-64-bits': ellipsoid_holding(held_at_64_bits),
    'ellip3-in-80-bits': ellipsoid_holding(with_sides(lambda side: side % 2 ** 80)),
    'ellip3-cofactors-in-32-bits': ellipsoid_holding(with_cofactors(in_32_bits)),
    'ellip3-squares-in-32-bits': ellipsoid_holding(squares_in_32_bits),
    'ellip3-in-doubles': ellipsoid_holding(ellipsoid_in_doubles),
    'ellip3-divided-in-doubles': ellipsoid_holding(divided_in_doubles),
    'ellip3-high-halves-only': ellipsoid_holding(halves(64, lambda side: 0)),
    'ellip3-above-32-bits-only': ellipsoid_holding(halves(32, lambda side: 0)),
    'ellip3-low-halves-signed': ellipsoid_holding(halves(64, in_64_bits)),
    'ellip3-low-32-bits-signed': ellipsoid_holding(halves(32, in_32_bits)),
    # Ellipsoids: outlines.
    'ellip3-rim-said-inside': {'ellipsoid_position': never_on_outline(gates.ellipsoid_position)},
    'ellip3-tilted-rim-said-inside': {'ellipsoid_position': tilted_rim_left_out},
    'ellip3-rim-in-64-bits': ellipsoid_rim(with_sides(in_64_bits)),
    'ellip3-rim-in-doubles': ellipsoid_rim(ellipsoid_in_doubles),
    'ellip3-rim-by-high-halves': ellipsoid_rim(with_sides(lambda side: side >> 64)),
    'ellip3-rim-above-32-bits': ellipsoid_rim(with_sides(lambda side: side >> 32)),
    'ellip3-rim-with-cofactor-12-turned': ellipsoid_rim(turned_at(0, 1)),
    'ellip3-rim-with-cofactor-13-turned': ellipsoid_rim(turned_at(0, 2)),
    'ellip3-rim-with-cofactor-23-turned': ellipsoid_rim(turned_at(1, 2)),
    'ellip3-rim-without-third-step': ellipsoid_rim(third_step_left_out),
    'ellip3-sets-no-outline': {'on_outline': lambda kind, body, event: kind != gates.ELLIPSOID and _ORIGINAL['on_outline'](kind, body, event)},
}


# ---------------------------------------------------------------- sheets of several lists

# Where the last rows of a sheet stand, behind those of the regions.
TAKEN, UNCLAIMED, SPOILT, EVENTS = -4, -3, -2, -1


def rows_changed(change):
    """Other rows: by those of a sheet (the regions', taken, unclaimed, spoilt, events) and the number of lists."""
    def faulty(names, parents, tallies, events):
        return change(_ORIGINAL['sheet_rows'](names, parents, tallies, events), len(tallies))
    return {'sheet_rows': faulty}


def columns_changed(change):
    """Other columns of each row but the last; the numbers behind them stay."""
    return rows_changed(lambda rows, lists: [row[:1] + change(row[1:1 + lists]) + row[1 + lists:] for row in rows[:-1]] + rows[-1:])


def sum_changed(change):
    """Another sum in each row but the last, by its columns."""
    return rows_changed(lambda rows, lists: [row[:1 + lists] + [change(row[1:1 + lists])] + row[2 + lists:] for row in rows[:-1]] + rows[-1:])


def shares_changed(change):
    """Other numbers behind a region's sum: by its row, its parent's (that of the taken without one) and the number of lists."""
    def faulty(names, parents, tallies, events):
        rows = _ORIGINAL['sheet_rows'](names, parents, tallies, events)
        by_name = dict(zip(names, rows))
        return [row[:2 + len(tallies)] + change(row, rows[TAKEN] if parent == b'-' else by_name[parent], len(tallies))
                for row, parent in zip(rows, parents)] + rows[TAKEN:]
    return {'sheet_rows': faulty}


def tallies_changed(change):
    """Other tallies, from which all of a sheet but the last line is made."""
    return {'sheet_rows': lambda names, parents, tallies, events: _ORIGINAL['sheet_rows'](names, parents, change(tallies), events)}


def total_changed(change):
    """Another number in the last line: by the rows and the number of lists."""
    return rows_changed(lambda rows, lists: rows[:-1] + [[b'events', change(rows, lists)]])


def added(tallies):
    """One tally of several."""
    return (sum(taken for taken, _, _, _ in tallies), sum(spoilt for _, spoilt, _, _ in tallies),
            [sum(counts) for counts in zip(*[counts for _, _, counts, _ in tallies])] if tallies else [0] * gates.REGIONS,
            sum(unclaimed for _, _, _, unclaimed in tallies))


def without_parent(change):
    """Another row of each region without a parent: by its row and the number of events."""
    def faulty(names, parents, tallies, events):
        rows = _ORIGINAL['sheet_rows'](names, parents, tallies, events)
        return [change(row, events) if parent == b'-' else row for row, parent in zip(rows, parents)] + rows[TAKEN:]
    return {'sheet_rows': faulty}


def other_parents(parent_of):
    """Another parent of each region: by its gate and all gates of the table."""
    def faulty(table):
        table_gates = gates.read_table(table)[3]
        return [parent_of(gate, table_gates) for gate in table_gates for _ in gate.regions()]
    return {'region_parents': faulty}


def gate_of(name, table_gates):
    return next(gate for gate in table_gates if name in gate.regions())


def root_parent(gate, table_gates):
    parent = gate.parent
    while parent != b'-' and gate_of(parent, table_gates).parent != b'-':
        parent = gate_of(parent, table_gates).parent
    return parent


def parents_above_only(gate, table_gates):
    above = [name for other in table_gates[:table_gates.index(gate)] for name in other.regions()]
    return gate.parent if gate.parent in above else b'-'


def operand_for_parent(gate, table_gates):
    return gates.operand_name(gate.operands[0]) if gate.operands and gate.parent == b'-' else gate.parent


def parents_by_gate(table):
    """The gates' parents in their order, though a quadrant gate has several regions."""
    parents = _ORIGINAL['region_parents'](table)
    return ([gate.parent for gate in gates.read_table(table)[3]] + parents)[:len(parents)]


def parent_by_step(table):
    """The plan's step with the parent's number taken for the parent."""
    head, table_gates = gates.read_table(table)[2:]
    numbers, steps = gates.region_steps(head, table_gates)
    order, names = gates.writing_order(numbers, steps), list(numbers)
    return [parent if parent == b'-' else names[order[numbers[parent]]] for _, parent, _, _ in steps]


def in_step_order(names, parents, tallies, events):
    """The regions' lines with parents before their children."""
    rows = _ORIGINAL['sheet_rows'](names, parents, tallies, events)
    depth = {b'-': 0}
    while len(depth) <= len(names):
        depth.update({name: depth[parent] + 1 for name, parent in zip(names, parents) if parent in depth})
    return sorted(rows[:TAKEN], key=lambda row: depth[row[0]]) + rows[TAKEN:]


def reduced(count, whole):
    divisor = math.gcd(count, whole) or 1
    return [count // divisor, whole // divisor]


def per_list(row, whole, lists):
    return [number for pair in zip(row[1:2 + lists], whole[1:2 + lists]) for number in pair]


def is_refusal(output):
    """A sheet has four lines at least."""
    return output.count(b'\n') == 1


def printed_otherwise(change):
    """An accepted input's sheet written otherwise: by its text and the input."""
    def faulty(data):
        output = _ORIGINAL['gatesheet'](data)
        return output if is_refusal(output) else change(output, data)
    return {'gatesheet': faulty}


def values_for_events(output, data):
    """The last line counts values, not events."""
    *before, events = output[:-1].split(b'\t')
    return b'\t'.join(before + [b'%d\n' % (int(events) * data.split(b'\n')[0].count(b'\t'))])


def spaces_before_shares(output, data):
    lines = output.split(b'\n')
    return b'\n'.join([b' '.join(line.rsplit(b'\t', 2)) for line in lines[:-5]] + lines[-5:])


def empty_line_before_taken(output, data):
    lines = output.split(b'\n')
    return b'\n'.join(lines[:-5] + [b''] + lines[-5:])


def parted(change):
    """Lists parted otherwise, by those that are there."""
    def faulty(data):
        table, lists = _ORIGINAL['part_lists'](data)
        return table, change(lists)
    return {'part_lists': faulty}


def one_list(lists):
    """The first line `events` only, which opens a list of all lines; the others are passed over."""
    lines = [line for _, _, _, lines in lists for line in lines]
    return [(lists[0][0], all(closed for _, closed, _, _ in lists), lists[0][2], lines)] if lists else []


def gatecounts_list(lists):
    """A second `events` is a bad line, as it is for `gatecount`."""
    return lists[:1] if len(lists) < 2 else [(*lists[0][:3], lists[0][3] + [b'events\n'])]


def other_events_line(forms):
    """Lines among the events that open a list too, by the columns of the one before."""
    def faulty(data):
        table, lists = _ORIGINAL['part_lists'](data)
        found = []
        for events_line, closed, columns, lines in lists:
            found.append((events_line, closed, columns, []))
            for number, line in enumerate(lines, events_line + 2):
                if line in forms:
                    found.append((number - 1, True, columns, []))
                else:
                    found[-1][3].append(line)
        return table, found
    return {'part_lists': faulty}


def bad_lines_of(lists, n):
    """For each list its bad lines."""
    return [[events_line] * (not closed) + [events_line + 1] * (closed and columns[-1:] != b'\n')
            + [number for number, line in enumerate(lines, events_line + 2) if gates.event_values(line, n) is None]
            for events_line, closed, columns, lines in lists]


def other_bad_line(choose):
    """Another line told of where there are several lists: by the lists and the bad lines of each."""
    def faulty(lists, n):
        place, values = _ORIGINAL['read_lists'](lists, n)
        return (place, values) if place is None or len(lists) < 2 else (choose(lists, bad_lines_of(lists, n)), None)
    return {'read_lists': faulty}


def list_with(lists, found):
    """The number, from 0, of the first list with a bad line."""
    return next(at for at, bad in enumerate(found) if bad)


def in_its_list(lists, found):
    at = list_with(lists, found)
    return found[at][0] - lists[at][0]


def without_events_lines(lists, found):
    at = list_with(lists, found)
    return found[at][0] - at


def read_otherwise(change):
    """The lists from the second on changed before they are read."""
    return {'read_lists': lambda lists, n: _ORIGINAL['read_lists'](lists[:1] + [change(each, n) for each in lists[1:]], n)}


def bad_lines_passed_over(one, n):
    *opening, lines = one
    return *opening, [line for line in lines if gates.event_values(line, n) is not None]


def bad_lines_spoilt(one, n):
    *opening, lines = one
    return *opening, [line if gates.event_values(line, n) is not None else b'\t'.join([b'70000'] * n) + b'\n' for line in lines]


def closed_by_itself(one, n):
    *opening, lines = one
    return *opening, [line if line[-1:] == b'\n' else line + b'\n' for line in lines]


def far_in_later_lists(one, n):
    *opening, lines = one
    return *opening, [b'x\n' if any(abs(value) > 2 ** 31 for value in gates.event_values(line, n) or []) else line for line in lines]


def read_by_values(lists, n):
    """A list asked for the number of its values only, not line by line."""
    place, values = _ORIGINAL['read_lists'](lists, n)
    if place is None or len(lists) < 2 or not all(closed and columns[-1:] == b'\n' for _, closed, columns, _ in lists):
        return place, values
    read = []
    for _, _, _, lines in lists:
        fields = [field for line in lines for field in line[:-1].split(b'\t')]
        if not all(line[-1:] == b'\n' for line in lines) or not all(gates.is_number(field) for field in fields) or len(fields) % n:
            return place, None
        read.append([gates.number_value(field) for field in fields])
    return None, read


def lists_rearranged(change):
    """The values of the lists put otherwise before they are counted: by all of them and the dimensions."""
    def faulty(lists, n):
        place, values = _ORIGINAL['read_lists'](lists, n)
        return place, values if place is not None or len(lists) < 2 else change(values, n)
    return {'read_lists': faulty}


def rest_of_64_to_the_next(values, n):
    """What is over after groups of 64 events goes to the next list."""
    moved, carried = [], []
    for at, each in enumerate(values):
        each = carried + each
        whole = len(each) if at == len(values) - 1 else len(each) // (64 * n) * (64 * n)
        moved.append(each[:whole])
        carried = each[whole:]
    return moved


def lists_first(data):
    """A bad line of a list told of before the table's own refusals."""
    table, lists = gates.part_lists(data)
    head = gates.read_head(table.split(b'\n')[0])
    if len(data) <= gates.INPUT_BYTES and head and gates.wrong_columns(lists, head) is None:
        place = gates.read_lists(lists, len(head))[0]
        if place is not None:
            return gates.refused(23, place)
    return _ORIGINAL['gatesheet'](data)


def limited(good):
    """Another limit of the whole input; the limit of `gatecount` is left."""
    def faulty(data):
        if not good(data):
            return gates.refused(1, 0)
        limit, gates.INPUT_BYTES = gates.INPUT_BYTES, len(data)
        try:
            return _ORIGINAL['gatesheet'](data)
        finally:
            gates.INPUT_BYTES = limit
    return {'gatesheet': faulty}


def long_table_taken(data):
    """The limit of the table not kept where lists follow."""
    limit, gates.TABLE_BYTES = gates.TABLE_BYTES, gates.INPUT_BYTES if gates.part_lists(data)[1] else gates.TABLE_BYTES
    try:
        return _ORIGINAL['gatesheet'](data)
    finally:
        gates.TABLE_BYTES = limit


def refused_where(bad_place):
    """23 where nothing is wrong: by the input and its lists, None to leave it."""
    def change(output, data):
        place = bad_place(data, gates.part_lists(data)[1])
        return output if place is None else gates.refused(23, place)
    return printed_otherwise(change)


SHEET_PLANTS = {
    # Columns.
    'sheet-columns-reversed': columns_changed(lambda columns: columns[::-1]),
    'sheet-first-columns-exchanged': columns_changed(lambda columns: columns[1::-1] + columns[2:]),
    'sheet-last-columns-exchanged': columns_changed(lambda columns: columns[:-2] + columns[-2:][::-1]),
    'sheet-counts-one-column-late': rows_changed(lambda rows, lists: [
        row[:1] + row[1:1 + lists][-1:] + row[1:1 + lists][:-1] + row[1 + lists:] for row in rows[:TAKEN]] + rows[TAKEN:]),
    'sheet-spoilt-one-column-late': rows_changed(lambda rows, lists: rows[:-2] + [
        rows[-2][:1] + rows[-2][1:1 + lists][-1:] + rows[-2][1:1 + lists][:-1] + rows[-2][1 + lists:]] + rows[-1:]),
    'sheet-columns-added-up': columns_changed(lambda columns: list(itertools.accumulate(columns))),
    'sheet-tallies-not-begun-anew': tallies_changed(lambda tallies: [added(tallies[:at + 1]) for at in range(len(tallies))]),
    'sheet-spoilt-not-begun-anew': rows_changed(lambda rows, lists: rows[:-2] + [
        rows[-2][:1] + list(itertools.accumulate(rows[-2][1:1 + lists])) + rows[-2][1 + lists:]] + rows[-1:]),
    'sheet-first-list-lost': parted(lambda lists: lists[1:]),
    'sheet-last-list-lost': parted(lambda lists: lists[:-1]),
    'sheet-first-column-lost': columns_changed(lambda columns: columns[1:]),
    'sheet-last-column-lost': columns_changed(lambda columns: columns[:-1]),
    'sheet-empty-list-without-column': parted(lambda lists: [each for each in lists if each[3] or not each[1]]),
    'sheet-empty-last-list-without-column': parted(lambda lists: lists[:-1] if lists and lists[-1][1] and not lists[-1][3] else lists),
    'sheet-empty-first-list-without-column': parted(lambda lists: lists[1:] if lists and lists[0][1] and not lists[0][3] else lists),
    'sheet-empty-list-as-the-one-before': columns_changed(lambda columns: [
        number or columns[at - 1] if at else number for at, number in enumerate(columns)]),
    'sheet-no-list-with-a-column': tallies_changed(lambda tallies: tallies or [added([])]),
    'sheet-no-list-without-sum': rows_changed(lambda rows, lists: [row if lists else row[:1] for row in rows]),
    'sheet-no-list-without-share': rows_changed(lambda rows, lists: [row if lists else row[:2] for row in rows]),
    'sheet-one-list-joined': parted(one_list),
    'sheet-8-columns-only': tallies_changed(lambda tallies: tallies[:8]),
    'sheet-64-columns-only': tallies_changed(lambda tallies: tallies[:64]),
    'sheet-255-columns-only': tallies_changed(lambda tallies: tallies[:255]),
    'sheet-4096-columns-only': tallies_changed(lambda tallies: tallies[:4096]),
    'sheet-7280-columns-only': tallies_changed(lambda tallies: tallies[:7280]),
    'sheet-65th-column-added-to-the-64th': tallies_changed(lambda tallies: (
        tallies if len(tallies) < 65 else tallies[:63] + [added(tallies[63:65])] + tallies[65:])),
    'sheet-rest-of-64-in-the-next-list': lists_rearranged(rest_of_64_to_the_next),
    'sheet-first-event-in-the-list-before': lists_rearranged(lambda values, n: [
        each[n * (at > 0):] + later[:n] for at, (each, later) in enumerate(zip(values, values[1:] + [[]]))]),
    'sheet-last-event-of-a-list-lost': lists_rearranged(lambda values, n: [each[:-n] for each in values[:-1]] + values[-1:]),
    # Sums.
    'sheet-sum-of-first-list': sum_changed(lambda columns: columns[0] if columns else 0),
    'sheet-sum-of-last-list': sum_changed(lambda columns: columns[-1] if columns else 0),
    'sheet-sum-without-first-list': sum_changed(lambda columns: sum(columns[1:])),
    'sheet-sum-without-last-list': sum_changed(lambda columns: sum(columns[:-1])),
    'sheet-sum-in-8-bits': sum_changed(lambda columns: sum(columns) % 256),
    'sheet-sum-in-14-bits': sum_changed(lambda columns: sum(columns) % 2 ** 14),
    'sheet-sum-before-columns': rows_changed(lambda rows, lists: [
        row[:1] + [row[1 + lists]] + row[1:1 + lists] + row[2 + lists:] for row in rows[:-1]] + rows[-1:]),
    'sheet-sum-left-out': rows_changed(lambda rows, lists: [row[:1 + lists] + row[2 + lists:] for row in rows[:-1]] + rows[-1:]),
    'sheet-one-list-without-sum': rows_changed(lambda rows, lists: [row[:2] + row[3:] if lists == 1 else row for row in rows[:-1]] + rows[-1:]),
    'sheet-sum-of-taken-with-spoilt': rows_changed(lambda rows, lists: rows[:TAKEN] + [rows[TAKEN][:-1] + [rows[EVENTS][1]]] + rows[UNCLAIMED:]),
    'sheet-sum-of-spoilt-left-out': rows_changed(lambda rows, lists: rows[:-2] + [rows[-2][:-1]] + rows[-1:]),
    # Shares.
    'sheet-share-left-out': shares_changed(lambda row, whole, lists: []),
    'sheet-share-without-count': shares_changed(lambda row, whole, lists: [whole[1 + lists]]),
    'sheet-share-without-parent': shares_changed(lambda row, whole, lists: [row[1 + lists]]),
    'sheet-share-exchanged': shares_changed(lambda row, whole, lists: [whole[1 + lists], row[1 + lists]]),
    'sheet-share-before-sum': rows_changed(lambda rows, lists: [row[:1 + lists] + row[2 + lists:] + [row[1 + lists]] for row in rows[:TAKEN]] + rows[TAKEN:]),
    'sheet-share-reduced': shares_changed(lambda row, whole, lists: reduced(row[1 + lists], whole[1 + lists])),
    'sheet-share-in-percent': shares_changed(lambda row, whole, lists: [100 * row[1 + lists] // (whole[1 + lists] or 1)]),
    'sheet-share-of-first-list': shares_changed(lambda row, whole, lists: [row[1], whole[1]]),
    'sheet-share-of-last-list': shares_changed(lambda row, whole, lists: [row[max(lists, 1)], whole[max(lists, 1)]]),
    'sheet-share-count-of-last-list': shares_changed(lambda row, whole, lists: [row[max(lists, 1)], whole[1 + lists]]),
    'sheet-share-parent-of-last-list': shares_changed(lambda row, whole, lists: [row[1 + lists], whole[max(lists, 1)]]),
    'sheet-share-for-each-list': shares_changed(per_list),
    'sheet-share-of-all-events': without_parent(lambda row, events: row[:-1] + [events]),
    'sheet-share-of-itself-without-parent': without_parent(lambda row, events: row[:-1] + [row[-2]]),
    'sheet-share-0-without-parent': without_parent(lambda row, events: row[:-1] + [0]),
    'sheet-no-share-without-parent': without_parent(lambda row, events: row[:-2]),
    'sheet-share-of-taken-always': {'region_parents': lambda table: [b'-' for _ in _ORIGINAL['region_parents'](table)]},
    'sheet-share-of-the-root': other_parents(root_parent),
    'sheet-share-of-parents-above-only': other_parents(parents_above_only),
    'sheet-share-of-an-operand': other_parents(operand_for_parent),
    'sheet-share-by-step': {'region_parents': parent_by_step},
    'sheet-quadrant-without-parent': other_parents(lambda gate, table_gates: b'-' if gate.kind == b'quad' else gate.parent),
    'sheet-quadrant-share-of-first-quadrant': other_parents(lambda gate, table_gates: gate.quadrants[0][0] if gate.kind == b'quad' else gate.parent),
    'sheet-parents-by-gate': {'region_parents': parents_by_gate},
    'sheet-share-for-taken': rows_changed(lambda rows, lists: rows[:TAKEN] + [rows[TAKEN] + [rows[TAKEN][-1], rows[EVENTS][1]]] + rows[UNCLAIMED:]),
    'sheet-share-for-spoilt': rows_changed(lambda rows, lists: rows[:-2] + [rows[-2] + [rows[-2][-1], rows[-1][1]]] + rows[-1:]),
    # Lines.
    'sheet-spoilt-before-taken': rows_changed(lambda rows, lists: rows[:TAKEN] + [rows[SPOILT], rows[TAKEN], rows[UNCLAIMED], rows[EVENTS]]),
    'sheet-spoilt-left-out': rows_changed(lambda rows, lists: rows[:-2] + rows[-1:]),
    'sheet-taken-first': rows_changed(lambda rows, lists: rows[TAKEN:EVENTS] + rows[:TAKEN] + rows[EVENTS:]),
    'sheet-events-first': rows_changed(lambda rows, lists: rows[-1:] + rows[:-1]),
    'sheet-events-before-spoilt': rows_changed(lambda rows, lists: rows[:-2] + [rows[-1], rows[-2]]),
    'sheet-events-left-out': rows_changed(lambda rows, lists: rows[:-1]),
    'sheet-events-laid-out-alike': rows_changed(lambda rows, lists: rows[:-1] + [
        [b'events'] + [one + other for one, other in zip(rows[TAKEN][1:], rows[SPOILT][1:])]]),
    'sheet-events-twice': rows_changed(lambda rows, lists: rows[:-1] + [rows[-1] + rows[-1][1:]]),
    'sheet-parents-first': {'sheet_rows': in_step_order},
    'sheet-names-sorted': rows_changed(lambda rows, lists: sorted(rows[:TAKEN], key=lambda row: row[0]) + rows[TAKEN:]),
    'sheet-zero-left-blank': {'printed_line': lambda name, *numbers: b'\t'.join(
        [name] + [b'%d' % number if number or len(numbers) < 2 else b'' for number in numbers]) + b'\n'},
    'sheet-tab-at-the-end': printed_otherwise(lambda output, data: output.replace(b'\n', b'\t\n')),
    'sheet-space-for-a-tab': printed_otherwise(lambda output, data: output.replace(b'\t', b' ', 1)),
    'sheet-spaces-before-shares': printed_otherwise(spaces_before_shares),
    'sheet-open-last-line': printed_otherwise(lambda output, data: output[:-1]),
    'sheet-cr-at-the-end': printed_otherwise(lambda output, data: output.replace(b'\n', b'\r\n')),
    'sheet-empty-line-before-taken': printed_otherwise(empty_line_before_taken),
    # The total.
    'sheet-total-of-taken': total_changed(lambda rows, lists: rows[TAKEN][-1]),
    'sheet-total-of-spoilt': total_changed(lambda rows, lists: rows[SPOILT][-1]),
    'sheet-total-of-first-list': total_changed(lambda rows, lists: rows[TAKEN][1] + rows[SPOILT][1]),
    'sheet-total-of-last-list': total_changed(lambda rows, lists: rows[TAKEN][max(lists, 1)] + rows[SPOILT][max(lists, 1)]),
    'sheet-total-of-lists': total_changed(lambda rows, lists: lists),
    'sheet-total-with-events-lines': total_changed(lambda rows, lists: rows[-1][1] + lists),
    'sheet-total-of-values': printed_otherwise(values_for_events),
    'sheet-total-in-8-bits': total_changed(lambda rows, lists: rows[-1][1] % 256),
    # Refusals.
    'sheet-bad-lines-of-later-lists-passed-over': read_otherwise(bad_lines_passed_over),
    'sheet-bad-lines-of-later-lists-spoilt': read_otherwise(bad_lines_spoilt),
    'sheet-later-list-open': read_otherwise(closed_by_itself),
    'sheet-later-events-open': read_otherwise(lambda one, n: one if one[1] else (one[0], True, b'\n', [])),
    'sheet-open-events-lost': parted(lambda lists: lists[:-1] if len(lists) > 1 and not lists[-1][1] else lists),
    'sheet-far-is-ragged-in-later-lists': read_otherwise(far_in_later_lists),
    'sheet-only-first-and-last-list-read': {'read_lists': lambda lists, n: _ORIGINAL['read_lists'](
        [each if at in (0, len(lists) - 1) else bad_lines_spoilt(each, n) for at, each in enumerate(lists)], n)},
    'sheet-lists-read-by-values': {'read_lists': read_by_values},
    'sheet-second-events-refused': parted(gatecounts_list),
    'sheet-events-with-cr': other_events_line((b'events\r\n',)),
    'sheet-events-with-tab': other_events_line((b'events\t\n',)),
    'sheet-events-with-space': other_events_line((b' events\n', b'events \n')),
    'sheet-events-with-capital': other_events_line((b'Events\n',)),
    'sheet-empty-line-parts-lists': other_events_line((b'\n',)),
    'sheet-line-in-its-list': other_bad_line(in_its_list),
    'sheet-line-without-events-lines': other_bad_line(without_events_lines),
    'sheet-line-one-less': other_bad_line(lambda lists, found: found[list_with(lists, found)][0] - 1),
    'sheet-line-from-first-events': other_bad_line(lambda lists, found: found[list_with(lists, found)][0] - lists[0][0]),
    'sheet-line-of-the-events': other_bad_line(lambda lists, found: lists[list_with(lists, found)][0]),
    'sheet-highest-bad-line': other_bad_line(lambda lists, found: max(max(bad, default=0) for bad in found)),
    'sheet-lowest-of-the-last-bad-list': other_bad_line(lambda lists, found: [bad for bad in found if bad][-1][0]),
    'sheet-highest-of-the-first-bad-list': other_bad_line(lambda lists, found: found[list_with(lists, found)][-1]),
    'sheet-lowest-within-its-list': other_bad_line(lambda lists, found: min(
        (bad[0] - one[0], bad[0]) for one, bad in zip(lists, found) if bad)[1]),
    'sheet-number-of-the-list': other_bad_line(lambda lists, found: list_with(lists, found) + 1),
    'sheet-lists-before-table': {'gatesheet': lists_first},
    'sheet-no-list-refused': refused_where(lambda data, lists: None if lists else data.count(b'\n') + 1),
    'sheet-empty-list-refused': refused_where(lambda data, lists: next((number for number, _, _, lines in lists if not lines), None)),
    'sheet-32768-bytes-in-all': limited(lambda data: len(data) <= 32768),
    'sheet-65535-bytes-in-all': limited(lambda data: len(data) <= 65535),
    'sheet-65537-bytes-in-all': limited(lambda data: len(data) <= 65537),
    'sheet-no-limit-in-all': limited(lambda data: True),
    'sheet-65536-bytes-of-lists': limited(lambda data: len(data) - len(gates.part_lists(data)[0]) <= 65536),
    'sheet-32768-bytes-of-lists': limited(lambda data: len(data) <= 65536 and len(data) - len(gates.part_lists(data)[0]) <= 32768),
    'sheet-long-table-taken': {'gatesheet': long_table_taken},
}
PLANTS.update(SHEET_PLANTS)


# ---------------------------------------------------------------- unclaimed events

def events_of(words, values):
    return [values[at:at + words[0]] for at in range(0, len(values), words[0])]


def unclaimed_counted(counted):
    """Another number of unclaimed events: by the words, the events and the tally (taken, spoilt, counts, unclaimed) of a count that isn't refused."""
    def faulty(words, values):
        number, place, *tally = _ORIGINAL['count'](words, values)
        if number == 0:
            tally[3] = counted(words, events_of(words, values), tally)
        return number, place, *tally
    return {'count': faulty}


def unclaimed_where(unclaimed):
    """Other events taken for unclaimed: by the bits of each event taken, the number of regions, the steps and the event."""
    def counted(words, events, tally):
        steps = gates.plan_steps(words)
        return sum(1 for event in events if not gates.is_spoilt(event) and unclaimed(gates.event_bits(steps, event), words[1], steps, event))
    return unclaimed_counted(counted)


def unclaimed_without(looked_at):
    """Some regions claim nobody: by each step and all steps, whether the region of the step is looked at."""
    return unclaimed_where(lambda bits, regions, steps, event: not any(bits >> step[1] & 1 for step in steps if looked_at(step, steps)))


def unclaimed_last_event(words, events, tally):
    """The answer of the last event taken, not added to those before."""
    taken = [event for event in events if not gates.is_spoilt(event)]
    return int(taken != [] and gates.event_bits(gates.plan_steps(words), taken[-1]) == 0)


def unclaimed_until_claimed(words, events, tally):
    """The bits not begun anew with each event."""
    steps, bits, unclaimed = gates.plan_steps(words), 0, 0
    for event in [event for event in events if not gates.is_spoilt(event)]:
        bits |= gates.event_bits(steps, event)
        unclaimed += bits == 0
    return unclaimed


def bits_kept_by_spoilt(words, events, tally):
    """A spoilt event judged like the event before it."""
    steps, bits, unclaimed = gates.plan_steps(words), 0, 0
    for event in events:
        bits = bits if gates.is_spoilt(event) else gates.event_bits(steps, event)
        unclaimed += bits == 0
    return unclaimed


def first_answer_for_all(words, events, tally):
    first = next((event for event in events if not gates.is_spoilt(event)), None)
    return tally[0] if first is not None and gates.event_bits(gates.plan_steps(words), first) == 0 else 0


def refused_with_unclaimed(refused, unclaimed):
    """A refused count that isn't zero at its end: by the words and the values."""
    def faulty(words, values):
        number, place, *tally = _ORIGINAL['count'](words, values)
        if number == refused:
            tally[3] = unclaimed(words, values)
        return number, place, *tally
    return {'count': faulty}


def unclaimed_of_whole_events(words, values):
    return _ORIGINAL['count'](words, values[:len(values) // words[0] * words[0]])[5]


def before_the_counts(words, values):
    """A row with the unclaimed before the 64 counts."""
    number, place, taken, spoilt, counts, unclaimed = _ORIGINAL['count'](words, values)
    return number, place, taken, spoilt, [unclaimed] + counts[:-1], counts[-1]


def unclaimed_changed(change):
    """Another row of the unclaimed: by all rows and the number of lists."""
    return rows_changed(lambda rows, lists: rows[:UNCLAIMED] + [change(rows, lists)] + rows[SPOILT:])


def unclaimed_columns(change):
    return unclaimed_changed(lambda rows, lists: [b'unclaimed', *change(rows[UNCLAIMED][1:1 + lists]), rows[UNCLAIMED][-1]])


def unclaimed_printed_if(told):
    """The row left out where this isn't so: by all rows and the number of lists."""
    return rows_changed(lambda rows, lists: rows if told(rows, lists) else rows[:UNCLAIMED] + rows[SPOILT:])


def shares_of_the_claimed(names, parents, tallies, events):
    """Without a parent a share of the taken that are members of some region."""
    rows = _ORIGINAL['sheet_rows'](names, parents, tallies, events)
    return [row[:-1] + [row[-1] - rows[UNCLAIMED][-1]] if parent == b'-' else row for row, parent in zip(rows, parents)] + rows[TAKEN:]


def unclaimed_by_gatecount(at):
    """`gatecount` prints the unclaimed too, before the line with this number."""
    def faulty(data):
        output, sheet = _ORIGINAL['gatecount'](data), _ORIGINAL['gatesheet'](data)
        if output.count(b'\n') < 2:
            return output
        lines = output.split(b'\n')
        return b'\n'.join(lines[:at] + [b'unclaimed\t' + sheet.split(b'\n')[-4].rsplit(b'\t', 1)[1]] + lines[at:])
    return {'gatecount': faulty}


UNCLAIMED_PLANTS = {
    # Which events, in each count.
    'unclaimed-with-spoilt': unclaimed_counted(lambda words, events, tally: tally[3] + tally[1]),
    'unclaimed-spoilt-alone': unclaimed_counted(lambda words, events, tally: tally[1]),
    'unclaimed-with-spoilt-without-regions': unclaimed_counted(lambda words, events, tally: tally[3] if words[1] else tally[0] + tally[1]),
    'unclaimed-bits-kept-by-spoilt': unclaimed_counted(bits_kept_by_spoilt),
    'unclaimed-0-without-regions': unclaimed_counted(lambda words, events, tally: tally[3] if words[1] else 0),
    'unclaimed-always-0': unclaimed_counted(lambda words, events, tally: 0),
    'unclaimed-always-taken': unclaimed_counted(lambda words, events, tally: tally[0]),
    'unclaimed-are-the-claimed': unclaimed_counted(lambda words, events, tally: tally[0] - tally[3]),
    'unclaimed-for-each-region': unclaimed_counted(lambda words, events, tally: tally[3] * words[1] if words[1] else tally[3]),
    'unclaimed-for-each-region-that-lacks-it': unclaimed_counted(lambda words, events, tally: tally[0] * words[1] - sum(tally[2]) if words[1] else tally[3]),
    'unclaimed-for-each-of-64-that-lack-it': unclaimed_counted(lambda words, events, tally: tally[0] * 64 - sum(tally[2])),
    'unclaimed-taken-less-all-counts': unclaimed_counted(lambda words, events, tally: max(0, tally[0] - sum(tally[2]))),
    'unclaimed-taken-less-largest-count': unclaimed_counted(lambda words, events, tally: tally[0] - max(tally[2])),
    'unclaimed-taken-less-first-count': unclaimed_counted(lambda words, events, tally: tally[0] - tally[2][0]),
    'unclaimed-taken-less-last-count': unclaimed_counted(lambda words, events, tally: tally[0] - tally[2][words[1] - 1]),
    'unclaimed-not-in-every-region': unclaimed_where(lambda bits, regions, steps, event: bits != (1 << regions) - 1 or regions == 0),
    'unclaimed-not-in-last-step': unclaimed_where(lambda bits, regions, steps, event: not steps or not bits >> steps[-1][1] & 1),
    'unclaimed-in-first-region-alone': unclaimed_where(lambda bits, regions, steps, event: bits & ~1 == 0),
    'unclaimed-in-last-region-alone': unclaimed_where(lambda bits, regions, steps, event: bits & ~(1 << regions >> 1) == 0),
    'unclaimed-in-first-step-alone': unclaimed_without(lambda step, steps: step is not steps[0]),
    'unclaimed-in-last-step-alone': unclaimed_without(lambda step, steps: step is not steps[-1]),
    'unclaimed-in-one-region-alone': unclaimed_where(lambda bits, regions, steps, event: bits & bits - 1 == 0),
    'unclaimed-in-two-regions': unclaimed_where(lambda bits, regions, steps, event: bits == 0 or bin(bits).count('1') == 2),
    'unclaimed-by-31-bits': unclaimed_where(lambda bits, regions, steps, event: bits % 2 ** 31 == 0),
    'unclaimed-by-32-bits': unclaimed_where(lambda bits, regions, steps, event: bits % 2 ** 32 == 0),
    'unclaimed-by-63-bits': unclaimed_where(lambda bits, regions, steps, event: bits % 2 ** 63 == 0),
    'unclaimed-by-upper-32-bits': unclaimed_where(lambda bits, regions, steps, event: bits >> 32 == 0 if regions > 32 else bits == 0),
    'unclaimed-not-above-0': unclaimed_where(lambda bits, regions, steps, event: bits == 0 or bits >> 63 == 1),
    'unclaimed-by-doubles': unclaimed_where(lambda bits, regions, steps, event: bits % 2 ** 53 == 0),
    'unclaimed-by-shape-without-parent': unclaimed_where(lambda bits, regions, steps, event: gates.event_bits(
        [(kind, region, -1, body) for kind, region, _, body in steps], event) == 0),
    'unclaimed-complements-claim-all': unclaimed_where(lambda bits, regions, steps, event: bits == 0 and all(
        kind not in gates.COMBINATIONS or all(word % 2 == 0 for word in body) for kind, _, _, body in steps)),
    'unclaimed-combinations-claim-none': unclaimed_without(lambda step, steps: step[0] not in gates.COMBINATIONS),
    'unclaimed-and-claims-none': unclaimed_without(lambda step, steps: step[0] != gates.AND),
    'unclaimed-or-claims-none': unclaimed_without(lambda step, steps: step[0] != gates.OR),
    'unclaimed-not-claims-none': unclaimed_without(lambda step, steps: step[0] != gates.NOT),
    'unclaimed-complement-claims-none': unclaimed_without(lambda step, steps: step[0] not in gates.COMBINATIONS or all(word % 2 == 0 for word in step[3])),
    'unclaimed-boxes-claim-none': unclaimed_without(lambda step, steps: step[0] != gates.BOX),
    'unclaimed-polygons-claim-none': unclaimed_without(lambda step, steps: step[0] != gates.POLYGON),
    'unclaimed-ellipses-claim-none': unclaimed_without(lambda step, steps: step[0] != gates.ELLIPSE),
    'unclaimed-decimal-ellipses-claim-none': unclaimed_without(lambda step, steps: step[0] != gates.DECIMAL_ELLIPSE),
    'unclaimed-ellipsoids-claim-none': unclaimed_without(lambda step, steps: step[0] != gates.ELLIPSOID),
    'unclaimed-children-alone-claim': unclaimed_without(lambda step, steps: step[2] != -1),
    'unclaimed-parents-claim-none': unclaimed_without(lambda step, steps: all(step[1] != other[2] for other in steps)),
    'unclaimed-operands-claim-none': unclaimed_without(lambda step, steps: all(
        other[0] not in gates.COMBINATIONS or step[1] not in [word // 2 for word in other[3]] for other in steps)),
    'unclaimed-on-outlines': unclaimed_where(lambda bits, regions, steps, event: bits & ~gates.outline_bits(steps, event, bits) == 0),
    'unclaimed-first-answer-for-all': unclaimed_counted(first_answer_for_all),
    'unclaimed-of-last-event': unclaimed_counted(unclaimed_last_event),
    'unclaimed-until-one-is-claimed': unclaimed_counted(unclaimed_until_claimed),
    'unclaimed-values': unclaimed_counted(lambda words, events, tally: tally[3] * words[0]),
    'unclaimed-one-more': unclaimed_counted(lambda words, events, tally: tally[3] + 1),
    'unclaimed-at-most-1': unclaimed_counted(lambda words, events, tally: min(tally[3], 1)),
    'unclaimed-in-8-bits': unclaimed_counted(lambda words, events, tally: tally[3] % 256),
    'unclaimed-in-6-bits': unclaimed_counted(lambda words, events, tally: tally[3] % 64),
    # A refused count, and the row.
    'unclaimed-kept-where-ragged': refused_with_unclaimed(23, unclaimed_of_whole_events),
    'unclaimed-kept-where-malformed': refused_with_unclaimed(22, lambda words, values: len(values) // words[0] if words and 1 <= words[0] <= 8 else 0),
    'unclaimed-place-where-ragged': refused_with_unclaimed(23, lambda words, values: len(values)),
    'unclaimed-before-the-counts': {'count': before_the_counts},
    # The sheet.
    'unclaimed-left-out': unclaimed_printed_if(lambda rows, lists: False),
    'unclaimed-0-left-out': unclaimed_printed_if(lambda rows, lists: rows[UNCLAIMED][-1] != 0),
    'unclaimed-left-out-without-regions': unclaimed_printed_if(lambda rows, lists: len(rows) > 4),
    'unclaimed-left-out-without-lists': unclaimed_printed_if(lambda rows, lists: lists > 0),
    'unclaimed-left-out-beside-a-region-so-called': unclaimed_printed_if(lambda rows, lists: b'unclaimed' not in [row[0] for row in rows[:TAKEN]]),
    'unclaimed-after-spoilt': rows_changed(lambda rows, lists: rows[:UNCLAIMED] + [rows[SPOILT], rows[UNCLAIMED], rows[EVENTS]]),
    'unclaimed-before-taken': rows_changed(lambda rows, lists: rows[:TAKEN] + [rows[UNCLAIMED], rows[TAKEN]] + rows[SPOILT:]),
    'unclaimed-after-events': rows_changed(lambda rows, lists: rows[:UNCLAIMED] + rows[SPOILT:] + [rows[UNCLAIMED]]),
    'unclaimed-before-regions': rows_changed(lambda rows, lists: [rows[UNCLAIMED]] + rows[:UNCLAIMED] + rows[SPOILT:]),
    'unclaimed-twice': rows_changed(lambda rows, lists: rows[:SPOILT] + [rows[UNCLAIMED]] + rows[SPOILT:]),
    'unclaimed-otherwise-called': unclaimed_changed(lambda rows, lists: [b'Unclaimed'] + rows[UNCLAIMED][1:]),
    'unclaimed-without-sum': unclaimed_changed(lambda rows, lists: rows[UNCLAIMED][:1 + lists]),
    'unclaimed-without-sum-of-one-list': unclaimed_changed(lambda rows, lists: rows[UNCLAIMED][:2] if lists == 1 else rows[UNCLAIMED]),
    'unclaimed-sum-alone': unclaimed_changed(lambda rows, lists: [b'unclaimed', rows[UNCLAIMED][-1]]),
    'unclaimed-sum-0': unclaimed_changed(lambda rows, lists: rows[UNCLAIMED][:-1] + [0]),
    'unclaimed-sum-of-first-list': unclaimed_changed(lambda rows, lists: rows[UNCLAIMED][:-1] + rows[UNCLAIMED][1:2]),
    'unclaimed-sum-of-last-list': unclaimed_changed(lambda rows, lists: rows[UNCLAIMED][:-1] + [rows[UNCLAIMED][max(lists, 1)]]),
    'unclaimed-sum-without-first-list': unclaimed_changed(lambda rows, lists: rows[UNCLAIMED][:-1] + [sum(rows[UNCLAIMED][2:1 + lists])]),
    'unclaimed-sum-without-last-list': unclaimed_changed(lambda rows, lists: rows[UNCLAIMED][:-1] + [sum(rows[UNCLAIMED][1:max(lists, 1)])]),
    'unclaimed-sum-before-columns': unclaimed_changed(lambda rows, lists: [b'unclaimed', rows[UNCLAIMED][-1], *rows[UNCLAIMED][1:-1]]),
    'unclaimed-with-share': unclaimed_changed(lambda rows, lists: rows[UNCLAIMED] + [rows[UNCLAIMED][-1], rows[TAKEN][-1]]),
    'unclaimed-columns-reversed': unclaimed_columns(lambda columns: columns[::-1]),
    'unclaimed-one-column-late': unclaimed_columns(lambda columns: columns[-1:] + columns[:-1]),
    'unclaimed-not-begun-anew': unclaimed_columns(lambda columns: list(itertools.accumulate(columns))),
    'unclaimed-not-taken': rows_changed(lambda rows, lists: rows[:TAKEN] + [
        [b'taken'] + [taken - unclaimed for taken, unclaimed in zip(rows[TAKEN][1:], rows[UNCLAIMED][1:])]] + rows[UNCLAIMED:]),
    'unclaimed-among-spoilt': rows_changed(lambda rows, lists: rows[:SPOILT] + [
        [b'spoilt'] + [spoilt + unclaimed for spoilt, unclaimed in zip(rows[SPOILT][1:], rows[UNCLAIMED][1:])]] + rows[EVENTS:]),
    'unclaimed-in-total': total_changed(lambda rows, lists: rows[EVENTS][1] + rows[UNCLAIMED][-1]),
    'unclaimed-no-part-of-shares': {'sheet_rows': shares_of_the_claimed},
    # gatecount, which prints what it printed.
    'unclaimed-in-gatecount': unclaimed_by_gatecount(-2),
    'unclaimed-in-gatecount-at-the-end': unclaimed_by_gatecount(-1),
}
PLANTS.update(UNCLAIMED_PLANTS)


# ---------------------------------------------------------------- column lines

def column_fields(line):
    return (line[:-1] if line[-1:] == b'\n' else line).split(b'\t')


def line_taken(good):
    """A wrong column line taken for right where this is so: by its fields and the names of the head."""
    def faulty(line, head):
        place = _ORIGINAL['wrong_column'](line, head)
        return None if place is None or good(column_fields(line), head) else place
    return {'wrong_column': faulty}


def line_read(change):
    """Another line read in the place of a column line: by the fields of the one that is there."""
    return {'wrong_column': lambda line, head: _ORIGINAL['wrong_column'](b'\t'.join(change(column_fields(line))) + line[-1:], head)}


def column_told(told):
    """Another place of a wrong column line: by its fields, the names of the head and the place."""
    def faulty(line, head):
        place = _ORIGINAL['wrong_column'](line, head)
        return None if place is None else told(column_fields(line), head, place)
    return {'wrong_column': faulty}


def last_difference(fields, head, place):
    longer = max(len(fields), len(head))
    return max(at for at in range(longer) if fields[at:at + 1] != head[at:at + 1])


def first_differing_byte(fields, head, place):
    one, other = b'\t'.join(fields), b'\t'.join(head)
    return next((at for at, pair in enumerate(zip(one, other)) if pair[0] != pair[1]), min(len(one), len(other)))


def lists_tested(chosen):
    """The column lines of some lists only: by all lists."""
    return {'wrong_columns': lambda lists, head: _ORIGINAL['wrong_columns'](chosen(lists), head)}


def wrong_list_told(told):
    """Another place where some column line is wrong: by the lists, and for each its place or None."""
    def faulty(lists, head):
        found = [_ORIGINAL['wrong_columns']([each], head) for each in lists]
        return told(lists, found) if any(place is not None for place in found) else None
    return {'wrong_columns': faulty}


def first_wrong(lists, found):
    return next(at for at, place in enumerate(found) if place is not None)


def right_line(table):
    return table.split(b'\n')[0].partition(b'\t')[2] + b'\n'


def lists_read(change):
    """Other lists, in both programs: by the right column line and each list."""
    def other(part):
        def faulty(data):
            table, lists = _ORIGINAL[part](data)
            return table, [change(right_line(table), *each) for each in lists]
        return faulty
    return {part: other(part) for part in ('part_list', 'part_lists')}


def refused_otherwise(told):
    """Another refusal, below a good head: by the lists, the head and what was found, the number and place told of or None."""
    def faulty(table, lists):
        found = _ORIGINAL['read_input'](table, lists)
        head = gates.read_head(table.split(b'\n')[0])
        other = told(lists, head, found) if head else None
        return (*other, None, [], None) if other else found
    return {'read_input': faulty}


def wrong_before(*refusals):
    """31 before these refusals of the table."""
    def told(lists, head, found):
        place = gates.wrong_columns(lists, head)
        return (31, place) if found[0] in refusals and place is not None else None
    return refused_otherwise(told)


def bad_line_first(lists, head, found):
    """23 of a line before 31 of any; a missing line is no bad one."""
    place = gates.read_lists([each for each in lists if each[2] or not each[1]], len(head))[0]
    return (23, place) if found[0] == 31 and place is not None else None


def list_by_list(lists, head, found):
    """31 and 23 of a list before those of the next."""
    for each in lists if found[0] == 31 else []:
        wrong, bad = gates.wrong_columns([each], head), gates.read_lists([each], len(head))[0]
        if wrong is not None or bad is not None:
            return (31, wrong) if wrong is not None else (23, bad)
    return None


def line_by_line(lists, head, found):
    """Each list's 23 before the 31 of the next, and its own too, but for an open column line."""
    for each in lists if found[0] == 31 else []:
        wrong, bad = gates.wrong_columns([each], head), gates.read_lists([each], len(head))[0]
        if each[3] and bad is not None:
            return 23, bad
        if wrong is not None:
            return 31, wrong
    return None


def open_line_first(lists, head, found):
    """An input's last line without LF told of before 31."""
    if found[0] != 31:
        return None
    number, closed, columns, lines = lists[-1]
    last = [b'events' + b'\n' * closed] + [columns] * bool(columns) + lines
    return (23, number + len(last) - 1) if last[-1][-1:] != b'\n' else None


def in_both(change):
    """Both programs changed alike: by the one that is there and the input."""
    return {program: lambda data, original=_ORIGINAL[program]: change(original, data) for program in ('gatecount', 'gatesheet')}


def wrong_before_the_limit(original, data):
    """31 told of an input over 65,536 bytes."""
    limit, gates.INPUT_BYTES = gates.INPUT_BYTES, len(data)
    try:
        output = original(data)
    finally:
        gates.INPUT_BYTES = limit
    return output if output.startswith(b'refused\t31\t') and is_refusal(output) else original(data)


def untested_by(program):
    """One of the programs doesn't test its column lines."""
    def faulty(data):
        tested, gates.wrong_columns = gates.wrong_columns, lambda lists, head: None
        try:
            return _ORIGINAL[program](data)
        finally:
            gates.wrong_columns = tested
    return {program: faulty}


def events_always_open(missing):
    """Each `events` opens a list, one directly after another too: by the right column line, what stands for that of a list without one."""
    def faulty(data):
        table, lines, events_line, closed = gates.part_input(data)
        lists = []
        for number, line in enumerate([b'events' + b'\n' * closed] + lines if events_line else [], events_line or 0):
            if line in gates.EVENTS:
                lists.append([number, line[-1:] == b'\n', b'', []])
            elif not lists[-1][2]:
                lists[-1][2] = line
            else:
                lists[-1][3].append(line)
        # Only the end of the input leaves the last list without one.
        return table, [(*each[:2], each[2] or missing(right_line(table)), each[3]) for each in lists[:-1]] + [tuple(each) for each in lists[-1:]]
    return {'part_lists': faulty}


def every_list_asked(data):
    """`gatecount` asks for the column line behind a second `events` too, before it refuses that."""
    table, lists = gates.part_lists(data)
    if len(data) <= gates.INPUT_BYTES and gates.compile_table(table, gates.PLAN_WORDS)[0] == 0:
        place = gates.wrong_columns(lists, gates.read_table(table)[2])
        if place is not None:
            return gates.refused(31, place)
    return _ORIGINAL['gatecount'](data)


def bad_line_told(told):
    """Another line of 23: by the lists and the line."""
    def faulty(lists, n):
        place, values = _ORIGINAL['read_lists'](lists, n)
        return place if place is None else told(lists, place), values
    return {'read_lists': faulty}


def columns_before_line(lists, place):
    """How many column lines stand before a line."""
    return sum(1 for events_line, _, columns, _ in lists if columns and events_line + 1 < place)


def spoilt_columns(lists, n):
    """A column line counted as a spoilt event."""
    place, values = _ORIGINAL['read_lists'](lists, n)
    return place, values and [[70000] * n + each for each in values]


COLUMN_PLANTS = {
    # Which lines are right.
    'columns-not-tested': line_taken(lambda fields, head: True),
    'columns-as-a-set': line_taken(lambda fields, head: set(fields) == set(head)),
    'columns-in-any-order': line_taken(lambda fields, head: sorted(fields) == sorted(head)),
    'columns-reversed-taken': line_taken(lambda fields, head: fields == head[::-1]),
    'columns-each-in-the-head': line_taken(lambda fields, head: len(fields) == len(head) and set(fields) <= set(head)),
    'columns-some-of-the-head': line_taken(lambda fields, head: set(fields) <= set(head)),
    'columns-all-of-the-head': line_taken(lambda fields, head: set(fields) >= set(head)),
    'columns-by-their-number': line_taken(lambda fields, head: len(fields) == len(head)),
    'columns-shorter-taken': line_taken(lambda fields, head: fields == head[:len(fields)]),
    'columns-one-less-taken': line_taken(lambda fields, head: fields == head[:-1]),
    'columns-longer-taken': line_taken(lambda fields, head: fields[:len(head)] == head),
    'columns-ninth-taken': line_taken(lambda fields, head: fields[:len(head)] == head and len(head) == 8),
    'columns-number-in-8-bits': line_taken(lambda fields, head: fields[:len(head)] == head and len(fields) % 256 == len(head)),
    'columns-tab-at-the-end-taken': line_taken(lambda fields, head: fields == head + [b'']),
    'columns-tabs-at-the-end-taken': line_taken(lambda fields, head: fields[:len(head)] == head and not any(fields[len(head):])),
    'columns-tab-before-taken': line_taken(lambda fields, head: fields == [b''] + head),
    'columns-empty-fields-passed-over': line_taken(lambda fields, head: [field for field in fields if field] == head),
    'columns-empty-line-taken': line_taken(lambda fields, head: fields == [b'']),
    'columns-first-alone': line_taken(lambda fields, head: fields[0] == head[0]),
    'columns-last-alone': line_taken(lambda fields, head: fields[-1] == head[-1]),
    'columns-first-not-compared': line_taken(lambda fields, head: len(fields) == len(head) and fields[1:] == head[1:]),
    'columns-last-not-compared': line_taken(lambda fields, head: len(fields) == len(head) and fields[:-1] == head[:-1]),
    'columns-eighth-not-compared': line_taken(lambda fields, head: len(fields) == len(head) == 8 and fields[:-1] == head[:-1]),
    'columns-ends-alone': line_taken(lambda fields, head: len(fields) == len(head) and (fields[0], fields[-1]) == (head[0], head[-1])),
    'columns-case-ignored': line_taken(lambda fields, head: [field.lower() for field in fields] == [name.lower() for name in head]),
    'columns-first-letters': line_taken(lambda fields, head: [field[:1] for field in fields] == [name[:1] for name in head]),
    'columns-15-letters': line_taken(lambda fields, head: [field[:15] for field in fields] == [name[:15] for name in head]),
    'columns-by-length-of-names': line_taken(lambda fields, head: [len(field) for field in fields] == [len(name) for name in head]),
    'columns-begin-alike': line_taken(lambda fields, head: len(fields) == len(head) and all(name.startswith(field) for field, name in zip(fields, head))),
    'columns-begin-with-names': line_taken(lambda fields, head: len(fields) == len(head) and all(field.startswith(name) for field, name in zip(fields, head))),
    'columns-last-begins-with-name': line_taken(lambda fields, head: len(fields) == len(head) and fields[:-1] == head[:-1] and fields[-1].startswith(head[-1])),
    'columns-line-begins-with-names': line_taken(lambda fields, head: b'\t'.join(fields).startswith(b'\t'.join(head))),
    'columns-cr-ignored': line_read(lambda fields: fields[:-1] + [fields[-1][:-1] if fields[-1][-1:] == b'\r' else fields[-1]]),
    'columns-space-at-the-end-ignored': line_read(lambda fields: fields[:-1] + [fields[-1].rstrip(b' ')]),
    'columns-space-before-ignored': line_read(lambda fields: [fields[0].lstrip(b' ')] + fields[1:]),
    'columns-spaces-ignored': line_read(lambda fields: [field.strip(b' ') for field in fields]),
    'columns-spaces-part-fields': line_read(lambda fields: b'\t'.join(fields).replace(b' ', b'\t').split(b'\t')),
    'columns-commas-part-fields': line_read(lambda fields: b'\t'.join(fields).replace(b',', b'\t').split(b'\t')),
    'columns-tabs-run-together': line_read(lambda fields: [field for field in fields[:-1] if field] + fields[-1:]),
    'columns-end-at-nul': line_read(lambda fields: b'\t'.join(fields).partition(b'\0')[0].split(b'\t')),
    'columns-with-marks': line_read(lambda fields: [field.partition(b':')[0] for field in fields]),
    'columns-with-dims': line_taken(lambda fields, head: fields == [b'dims'] + head),
    'columns-event-line-taken': line_taken(lambda fields, head: len(fields) == len(head) and all(gates.is_number(field) for field in fields)),
    'columns-events-never-right': {'wrong_column': lambda line, head: 0 if line in gates.EVENTS else _ORIGINAL['wrong_column'](line, head)},
    'columns-events-always-right': line_taken(lambda fields, head: fields == [b'events']),
    'columns-one-name-not-tested': line_taken(lambda fields, head: len(head) == 1),
    # The place.
    'columns-place-from-1': column_told(lambda fields, head, place: place + 1),
    'columns-place-always-0': column_told(lambda fields, head, place: 0),
    'columns-place-of-last-difference': column_told(last_difference),
    'columns-place-in-bytes': column_told(first_differing_byte),
    'columns-place-number-of-names': column_told(lambda fields, head, place: len(head)),
    'columns-place-number-of-fields': column_told(lambda fields, head, place: len(fields)),
    'columns-lengths-first': column_told(lambda fields, head, place: min(len(fields), len(head)) if len(fields) != len(head) else place),
    'columns-unequal-at-0': column_told(lambda fields, head, place: 0 if len(fields) != len(head) else place),
    'columns-unequal-at-end-of-longer': column_told(lambda fields, head, place: max(len(fields), len(head)) if place == min(len(fields), len(head)) else place),
    'columns-unequal-at-last-of-longer': column_told(
        lambda fields, head, place: max(len(fields), len(head)) - 1 if place == min(len(fields), len(head)) else place),
    'columns-unequal-at-last-of-shorter': column_told(lambda fields, head, place: place - 1 if place == min(len(fields), len(head)) else place),
    'columns-longer-at-its-last': column_told(lambda fields, head, place: len(fields) - 1 if place == len(head) else place),
    'columns-place-of-the-name': column_told(lambda fields, head, place: head.index(fields[place]) if fields[place:] and fields[place] in head else place),
    'columns-place-within-the-names': column_told(lambda fields, head, place: min(place, len(head) - 1)),
    'columns-place-at-most-7': column_told(lambda fields, head, place: min(place, 7)),
    'columns-place-as-line': wrong_list_told(lambda lists, found: lists[first_wrong(lists, found)][0] + 1),
    'columns-place-as-line-of-events': wrong_list_told(lambda lists, found: lists[first_wrong(lists, found)][0]),
    'columns-place-as-list': wrong_list_told(lambda lists, found: first_wrong(lists, found)),
    'columns-place-as-list-from-1': wrong_list_told(lambda lists, found: first_wrong(lists, found) + 1),
    # Which lists.
    'columns-of-first-list-only': lists_tested(lambda lists: lists[:1]),
    'columns-of-last-list-only': lists_tested(lambda lists: lists[-1:]),
    'columns-first-list-not-tested': lists_tested(lambda lists: lists[1:]),
    'columns-last-list-not-tested': lists_tested(lambda lists: lists[:-1]),
    'columns-last-of-several-not-tested': lists_tested(lambda lists: lists[:-1] if len(lists) > 1 else lists),
    'columns-first-two-lists-only': lists_tested(lambda lists: lists[:2]),
    'columns-first-and-last-list-only': lists_tested(lambda lists: lists[:1] + lists[1:][-1:]),
    'columns-64-lists-only': lists_tested(lambda lists: lists[:64]),
    'columns-7280-lists-only': lists_tested(lambda lists: lists[:7280]),
    'columns-of-empty-lists-not-tested': lists_tested(lambda lists: [each for each in lists if each[3]]),
    'columns-of-lists-with-events-not-tested': lists_tested(lambda lists: [each for each in lists if not each[3]]),
    'columns-last-wrong-line': wrong_list_told(lambda lists, found: [place for place in found if place is not None][-1]),
    'columns-lowest-place': wrong_list_told(lambda lists, found: min(place for place in found if place is not None)),
    'columns-highest-place': wrong_list_told(lambda lists, found: max(place for place in found if place is not None)),
    'columns-not-tested-by-gatecount': untested_by('gatecount'),
    'columns-not-tested-by-gatesheet': untested_by('gatesheet'),
    # The order of refusals.
    'columns-after-bad-lines': refused_otherwise(bad_line_first),
    'columns-list-by-list': refused_otherwise(list_by_list),
    'columns-line-by-line': refused_otherwise(line_by_line),
    'columns-after-open-line': refused_otherwise(open_line_first),
    'columns-before-table': wrong_before(*range(1, 18)),
    'columns-before-lines': wrong_before(*range(4, 13)),
    'columns-before-names': wrong_before(*range(13, 17)),
    'columns-before-circles': wrong_before(16),
    'columns-before-long-plan': wrong_before(17),
    'columns-before-long-table': wrong_before(1),
    'columns-before-long-input': in_both(wrong_before_the_limit),
    'columns-refused-by-23': {'refused': lambda number, place: _ORIGINAL['refused'](23 if number == 31 else number, place)},
    'columns-refused-by-30': {'refused': lambda number, place: _ORIGINAL['refused'](30 if number == 31 else number, place)},
    'columns-refused-by-3': {'refused': lambda number, place: _ORIGINAL['refused'](3 if number == 31 else number, place)},
    # Missing and open lines.
    'columns-not-asked': lists_read(lambda right, number, closed, columns, lines: (number - closed, closed, right, [columns] * bool(columns) + lines)),
    'columns-missing-taken': lists_read(lambda right, number, closed, columns, lines: (number, closed, columns or right, lines)),
    'columns-missing-is-23': lists_tested(lambda lists: [each for each in lists if each[2]]),
    'columns-missing-is-23-at-events': {**lists_tested(lambda lists: [each for each in lists if each[2]]),
                                        **bad_line_told(lambda lists, place: place - (lists[-1][:3] == (place - 1, True, b'')))},
    'columns-missing-at-end-of-names': {'wrong_column': lambda line, head: _ORIGINAL['wrong_column'](line, head) if line else len(head)},
    'columns-open-taken': lists_read(lambda right, number, closed, columns, lines: (number, closed, right if columns == right[:-1] else columns, lines)),
    'columns-open-is-31': {'wrong_column': lambda line, head: _ORIGINAL['wrong_column'](line if line[-1:] == b'\n' else line + b'\t', head)},
    'columns-open-is-31-at-its-last': {'wrong_column': lambda line, head: _ORIGINAL['wrong_column'](line if line[-1:] == b'\n' else line + b'x', head)},
    'columns-open-is-31-at-0': {'wrong_column': lambda line, head: _ORIGINAL['wrong_column'](line, head) if line[-1:] == b'\n' else 0},
    'columns-open-and-wrong-is-23': lists_tested(lambda lists: [each for each in lists if each[2][-1:] == b'\n' or not each[2]]),
    'columns-open-at-events': bad_line_told(lambda lists, place: place - (lists[-1][0] == place - 1 and lists[-1][2][-1:] != b'\n')),
    'columns-open-last-letter-lost': {'wrong_column': lambda line, head: _ORIGINAL['wrong_column'](
        line if line[-1:] == b'\n' or line == b'\t'.join(head) else line[:-1] + b'\n', head)},
    'columns-asked-of-open-events': lists_tested(lambda lists: [(number, True, columns, lines) for number, _, columns, lines in lists]),
    'columns-asked-without-events': refused_otherwise(lambda lists, head, found: None if lists or found[0] else (31, 0)),
    # Which lines open a list.
    'columns-events-opens-another': events_always_open(lambda right: right),
    'columns-events-opens-another-and-lacks': events_always_open(lambda right: b''),
    'columns-asked-of-second-list-by-gatecount': {'gatecount': every_list_asked},
    'columns-first-list-alone-counted-by-gatecount': {'part_list': lambda data: _ORIGINAL['part_lists'](data)},
    'columns-lists-joined-by-gatecount': {'part_list': lambda data: (_ORIGINAL['part_lists'](data)[0], one_list(_ORIGINAL['part_lists'](data)[1]))},
    # Lines and events behind them.
    'columns-not-counted-in-line': bad_line_told(lambda lists, place: place - columns_before_line(lists, place)),
    'columns-of-first-list-not-counted-in-line': bad_line_told(lambda lists, place: place - columns_before_line(lists[:1], place)),
    'columns-of-later-lists-not-counted-in-line': bad_line_told(lambda lists, place: place - columns_before_line(lists[1:], place)),
    'columns-counted-twice-in-line': bad_line_told(lambda lists, place: place + columns_before_line(lists, place)),
    'columns-counted-as-spoilt': {'read_lists': spoilt_columns},
    'columns-and-first-event-passed-over': lists_read(lambda right, number, closed, columns, lines: (number + bool(lines[1:]), closed, columns, lines[1:])),
    'columns-not-counted-in-bytes': limited(lambda data: len(data) - sum(len(columns) for _, _, columns, _ in gates.part_lists(data)[1]) <= 65536),
}
PLANTS.update(COLUMN_PLANTS)

REDRAWN_PLANTS = {
    # Where the walk begins and ends.
    'redrawn-closing-edge-left-out': other_edges(lambda edges: edges[:-1]),
    'redrawn-first-edge-from-0-0': other_edges(lambda edges: [((0, 0), edges[0][1])] + edges[1:]),
    'redrawn-closed-from-0-0': other_edges(lambda edges: [((0, 0), edges[0][0])] + edges[:-1]),
    'redrawn-closed-at-0-0': other_edges(lambda edges: edges[:-1] + [(edges[-1][0], (0, 0))]),
    'redrawn-first-vertex-not-carried': asked_and_summed(
        lambda edges, y: ([(edges[0][1], edges[0][1])] + edges[1:-1] + [(edges[-1][0], edges[-1][0])], edges)),
    # What the sum is, edge by edge and at the end.
    'redrawn-sum-not-below-0': sum_kept(lambda total, turn: max(0, total + turn)),
    'redrawn-sum-not-above-0': sum_kept(lambda total, turn: min(0, total + turn)),
    'redrawn-ended-at-sum-0': sum_kept(lambda total, turn: total + turn, lambda before, after: before != 0 and after == 0),
    'redrawn-inside-above-0': inside_where(lambda total: total > 0),
    'redrawn-inside-below-0': inside_where(lambda total: total < 0),
    'redrawn-inside-at-1': inside_where(lambda total: total == 1),
    'redrawn-outside-below-minus-1': inside_where(lambda total: total > 0 or total == -1),
    # Edges that fall, and edges that lead to the left.
    'redrawn-falling-with-both-ends': summed_by_way(lower_end, both_ends),
    'redrawn-rising-with-both-ends': summed_by_way(both_ends, lower_end),
    'redrawn-falling-without-ends': summed_by_way(lower_end, no_end),
    'redrawn-rising-without-ends': summed_by_way(no_end, lower_end),
    'redrawn-only-rising-carries': asked_where(lambda x0, y0, x1, y1: y0 < y1),
    'redrawn-falling-not-asked': asked_where(lambda x0, y0, x1, y1: y0 <= y1),
    'redrawn-leftward-not-asked': asked_where(lambda x0, y0, x1, y1: x0 <= x1),
    'redrawn-falling-said-inside': {'polygon_position': edge_carries(rises)},
    # Words of the plan.
    'redrawn-compiled-one-way-round': compiled_otherwise(one_way_round),
    'redrawn-compiled-from-lowest': compiled_otherwise(from_lowest),
}
PLANTS.update(REDRAWN_PLANTS)

# Those that two answers of the program show, one to an outline as it stands and one to it drawn anew, with no other program beside it.
BY_REDRAWING = {
    *REDRAWN_PLANTS, 'polygon-left-open', 'closing-edge-left-out', 'walk-closing-edge-not-asked', 'walk-closing-edge-not-summed', 'walk-closing-edge-twice',
    'walk-closing-edge-backwards', 'walk-closed-at-the-second', 'walk-first-edge-twice', 'walk-first-edge-left-out', 'walk-first-edge-not-asked',
    'walk-last-vertex-left-out'}


@contextlib.contextmanager
def planted(name):
    """The reference with one fault in it, or as it is when the name is None."""
    changes = PLANTS[name] if name else {}
    for attribute, faulty in changes.items():
        setattr(gates, attribute, faulty)
    try:
        yield
    finally:
        for attribute in changes:
            setattr(gates, attribute, _ORIGINAL[attribute])
