"""Outlines of 3 to 256 vertices, and places upon, beside and amid them.

A counter may walk over a long outline by stretches, pass over vertices that are all above or all
below an event, or take the edge that closes it apart.  So each number of vertices is met here, runs
of every length that stay above or below a height and touch it, and each edge gets its events, the
first and the last ones most of all.

    some_size(rng)              a number of vertices, often beside a multiple of a power of 2
    outline(rng, size)          an outline with so many vertices about (0, 0)
    place(rng, vertices)        a whole point at some edge, vertex or height of an outline
    through(rng, size, x, y)    an outline with so many vertices that has the point at such a place
    through_edge(.., at)        one that has the point on the edge with this number alone
"""

import math

LEAST, MOST = 3, 256
LOWEST, HIGHEST = -65536, 65535

# All sizes by turns, then the largest alone; those of each turn are few enough for one plan (4,096 words).
TURNS = [range(LEAST + first, MOST + 1, 18) for first in range(18)] + [[MOST] * 7]

# Lengths of runs: about those of the stretches that a walk may be cut into.
RUNS = (1, 1, 2, 3, 4, 5, 7, 8, 9, 12, 15, 16, 17, 31, 32, 33, 63, 64, 65, 127, 128, 129, 256)
POWERS = (4, 8, 16, 32, 64, 128)


def some_size(rng):
    style = rng.random()
    if style < 0.1:
        return rng.choice((MOST, MOST, MOST - 1))
    if style < 0.55:
        power = rng.choice(POWERS)
        return max(LEAST, min(MOST, power * rng.randint(1, MOST // power) + rng.randint(-1, 1)))
    return rng.randint(LEAST, MOST)


def some_sizes(rng, vertices):
    """Sizes with at most so many vertices in all, and no more than 60 of them."""
    sizes = []
    while len(sizes) < 60 and vertices >= LEAST:
        sizes.append(min(some_size(rng), vertices))
        vertices -= sizes[-1]
    return sizes


def some_index(rng, size):
    """The number of a vertex, or of the edge that begins there: the first ones, the last ones, at the ends of stretches, or any."""
    style = rng.randrange(4)
    if style == 0:
        return rng.choice((0, 0, 1, size - 2, size - 1, size - 1, size - 1))
    if style == 1:
        power = rng.choice(POWERS)
        return (power * rng.randint(0, size // power) + rng.randint(-1, 1)) % size
    return rng.randrange(size)


# ---------------------------------------------------------------- outlines

def cut(points, size):
    """Just so many vertices, the last one repeated if there are too few."""
    return (points + points[-1:] * size)[:size]


def filled(rng, points, size):
    """The same outline with more vertices: on its edges, in their order mostly, or repeated."""
    spare = size - len(points)
    edges = [rng.randrange(len(points)) for _ in range(rng.choice((1, 2, len(points))))]
    more = [0] * len(points)
    for _ in range(spare):
        more[rng.choice(edges)] += 1
    in_order = rng.random() < 0.8
    result = []
    for (x0, y0), (x1, y1), count in zip(points, points[1:] + points[:1], more):
        parts = math.gcd(x1 - x0, y1 - y0)
        steps = [rng.randint(0, parts) for _ in range(count)]
        for k in [0] + (sorted(steps) if in_order else steps):
            result.append((x0 + (x1 - x0) // (parts or 1) * k, y0 + (y1 - y0) // (parts or 1) * k))
    return result


def ring(rng, size):
    """Round the middle, once or as often as a star of so many corners can."""
    radius, turns = rng.choice((9, 60, 3000)), rng.choice((1, 1, 1, 2, 5, rng.randint(1, (size - 1) // 2), (size - 1) // 2))
    turn = 2 * math.pi * turns / size
    return [(round(radius * math.cos(turn * k)), round(radius * math.sin(turn * k))) for k in range(size)]


def wandering(rng, size):
    """Small steps; the last edge is one too, or it is a long one."""
    far = rng.choice((1, 2, 9))
    steps = [(rng.randint(-far, far), rng.randint(-far, far)) for _ in range(size)]
    if rng.random() < 0.6:
        half = steps[:size // 2]
        steps = half + [(-dx, -dy) for dx, dy in half] + [(0, 0)] * (size % 2)
        rng.shuffle(steps)
    x = y = 0
    points = []
    for dx, dy in steps:
        x, y = x + dx, y + dy
        points.append((x, y))
    return points


def zigzag(rng, size):
    """Teeth over the height 0, some of which end at it; closed through the teeth or around them."""
    high, low, width, touching = rng.randint(1, 4), -rng.randint(1, 4), rng.choice((1, 2, 5)), rng.choice((0, 0.05, 0.5))
    points = [(width * k, 0 if rng.random() < touching else high if k % 2 else low) for k in range(size)]
    if size > 4 and rng.random() < 0.6:
        far = rng.choice((-9, 9))
        points[-2:] = [(points[-3][0], far), (points[0][0], far)]
    return points


def runs(rng, size):
    """Runs above and below the height 0, between them one vertex at it, some, or none."""
    sides, side = [], rng.choice((-1, 1))
    if rng.random() < 0.3:
        # One side only, and the height is touched once or twice.
        sides = [side] * size
        for _ in range(rng.choice((1, 1, 2))):
            sides[rng.randrange(size)] = 0
    while len(sides) < size:
        sides += [side] * rng.choice(RUNS)
        between = rng.randrange(5)
        sides += [0] * (0, 1, 1, 1, rng.randint(2, 9))[between]
        if between in (0, 3) or rng.random() < 0.3:
            side = -side
    wide, tall = rng.choice((3, 20, 300)), rng.choice((1, 3, 50))
    points = [(rng.randint(-wide, wide), side * rng.randint(1, tall)) for side in sides[:size]]
    # Often from left to right, or there and then back to the left, so that the outline crosses itself less.
    ends = rng.choice((0, size // 2, size - 1, size))
    order = sorted(x for x, _ in points[:ends]) + sorted((x for x, _ in points[ends:]), reverse=rng.random() < 0.8)
    return [(x, y) for x, (_, y) in zip(order, points)]


def hills(rng, size):
    """What lies between two ways from left to right, which touch some heights again and again."""
    upper, step, tall = rng.randint(1, size - 2), rng.choice((1, 2, 7)), rng.choice((1, 3, 50))
    below = [(step * k, -rng.randint(0, tall)) for k in range(size - upper)]
    right = below[-1][0]
    above = [(right - right * k // upper, rng.randint(0, tall) + 1) for k in range(upper)]
    return below + above


def on_one_line(rng, size):
    """All on one line: level, upright or slanting, in order or forth and back."""
    dx, dy = rng.choice(((1, 0), (0, 1), (1, 1), (2, -1), (3, 2)))
    far = rng.choice((3, size))
    steps = [rng.randint(-far, far) for _ in range(size)]
    if rng.random() < 0.4:
        steps.sort()
    return [(dx * k, dy * k) for k in steps]


def terraces(rng, size):
    """Runs of vertices at the same height."""
    points, x, y = [], 0, 0
    while len(points) < size:
        way = rng.choice((1, -1, 2))
        for _ in range(rng.choice(RUNS)):
            points.append((x, y))
            x += rng.choice((way, way, way, 0, -way))
        y += rng.choice((-2, -1, 1, 1, 2))
    return points[:size]


def clumps(rng, size):
    """A few places, each with a run of vertices: edges without length."""
    places = [(rng.randint(-6, 6), rng.randint(-6, 6)) for _ in range(rng.randint(2, 6))]
    points = []
    while len(points) < size:
        points += [rng.choice(places)] * rng.choice(RUNS)
    return points[:size]


def small(rng, most):
    """A small outline of at most so many vertices."""
    shapes = [[(0, 0), (12, 0), (0, 12)], [(-6, 6), (6, 6), (0, -6)]]
    if most > 3:
        shapes += [[(-6, -6), (6, -6), (6, 6), (-6, 6)], [(-6, -3), (6, 3), (6, -3), (-6, 3)], [(0, 0), (9, 3), (0, 6), (3, 3)]]
    if most > 7:
        shapes += [[(0, 10), (6, -8), (-10, 3), (10, 3), (-6, -8)], [(0, 0), (8, 0), (8, 4), (4, 4), (4, 8), (0, 8)],
                   [(-6, -6), (6, -6), (6, 6), (-6, 6), (-6, -6), (rng.randint(-6, 6), rng.randint(-6, 6)), (-6, -6)]]
    points = rng.choice(shapes + [[(rng.randint(-9, 9), rng.randint(-9, 9)) for _ in range(rng.randint(3, min(most, 9)))]])
    return points if rng.random() < 0.5 else points[::-1]


def with_more_vertices(rng, size):
    """A small outline, so large that its edges have many whole points, and vertices there."""
    scale = rng.choice((1, 4, 40))
    return filled(rng, [(scale * x, scale * y) for x, y in small(rng, size)], size)


def many_times(rng, size):
    """A small outline walked again and again: as often as it fits, by a power of 2, or less often."""
    points = small(rng, rng.choice((3, size)))
    times = size // len(points)
    power = 1 << times.bit_length() - 1
    points = points * rng.choice((times, power, power, rng.randint(1, times), min(times, rng.choice((2, 4, 8, 16, 32)))))
    return filled(rng, points, size) if rng.random() < 0.5 else points + points[:1] * (size - len(points))


def forth_and_back(rng, size):
    """A way and the same way back, which encloses nothing."""
    way = rng.choice((wandering, zigzag, terraces, runs))(rng, size // 2 + 1)
    return cut(way + way[-2:0:-1], size)


def spikes(rng, size):
    """A rectangle with many vertices, from some of which a spike goes out or in, and back."""
    around = filled(rng, [(-40, -40), (40, -40), (40, 40), (-40, 40)], max(4, size // 2))
    points = []
    for point in around:
        points.append(point)
        if rng.random() < 0.5:
            points += [rng.choice(((rng.randint(-60, 60), rng.randint(-60, 60)), (point[0], 0), (point[0], 60))), point]
    if len(points) > size:
        points = points[:size]
    return filled(rng, points, size)


def scattered(rng, size):
    span = rng.choice((3, 9, 100, 30000))
    return [(rng.randint(-span, span), rng.randint(-span, span)) for _ in range(size)]


STYLES = ((2, ring), (2, wandering), (3, zigzag), (6, runs), (4, hills), (1, on_one_line), (2, terraces), (1, clumps), (4, with_more_vertices),
          (3, many_times), (1, forth_and_back), (2, spikes), (2, scattered))


def turning_points(vertices):
    """The numbers of the vertices whose neighbours are both above them, or both below."""
    heights = [y for _, y in vertices]
    return [at for at, y in enumerate(heights) if (heights[at - 1] - y) * (heights[(at + 1) % len(heights)] - y) > 0]


def outline(rng, size):
    """An outline of one of the styles, turned, mirrored, leaning or larger, and begun at any of its vertices."""
    points = rng.choices([style for _, style in STYLES], [weight for weight, _ in STYLES])[0](rng, size)
    lean = rng.choice((0, 0, 0, 1, -2))
    points = [(x + lean * y, y) for x, y in points]
    # Twice as large, each edge has a whole point within.
    widest = max(abs(value) for point in points for value in point)
    scale_x = scale_y = min(rng.choice((1, 2, 2, 2, 3, 10)), 1 + 30000 // (widest + 1))
    if rng.random() < 0.15:
        scale_x, scale_y = rng.randint(1, 1 + 60000 // (widest + 1)), rng.randint(1, 1 + 60000 // (widest + 1))
    scale_x, scale_y = scale_x * rng.choice((-1, 1)), scale_y * rng.choice((-1, 1))
    points = [(scale_x * x, scale_y * y) for x, y in points]
    if rng.random() < 0.25:
        points = [(y, x) for x, y in points]
    style = rng.random()
    if style < 0.4:
        # A turning point as first or last vertex, or where a stretch may begin.
        first = rng.choice(turning_points(points) or [0]) - rng.choice((0, size - 1, some_index(rng, size)))
    else:
        first = 0 if style < 0.6 else rng.randrange(size)
    first %= size
    return points[first:] + points[:first]


# ---------------------------------------------------------------- places

def on_edge(rng, vertices, at):
    """A whole point on the edge that begins at this vertex, none of its ends if it has another."""
    (x0, y0), (x1, y1) = vertices[at], vertices[(at + 1) % len(vertices)]
    parts = math.gcd(x1 - x0, y1 - y0)
    k = rng.randint(1, parts - 1) if parts > 1 else rng.randint(0, parts)
    return x0 + (x1 - x0) // (parts or 1) * k, y0 + (y1 - y0) // (parts or 1) * k


def place(rng, vertices, at=None):
    """A whole point at the edge or the vertex with this number, or at any."""
    size = len(vertices)
    if at is None:
        at = some_index(rng, size)
        turning = turning_points(vertices) if rng.random() < 0.5 else []
        ends = [each for each in turning if each in (0, size - 1)]
        if turning:
            at = rng.choice(ends or turning)
    x, y = vertices[at]
    style = rng.randrange(16)
    if style < 2:
        return x, y
    if style < 9:
        x, y = on_edge(rng, vertices, at)
        if style < 6:
            return x, y
        return rng.choice(((x - 1, y), (x + 1, y), (x, y - 1), (x, y + 1)))
    if style < 14:
        # At a vertex's height or just beside it: left or right of all or some that is there, by little or by much.
        here = sorted({vx for vx, vy in vertices if vy == y})
        beside = rng.choice((here[0] - 1, here[-1] + 1, rng.choice(here) + 1, rng.choice(here) - 1, rng.choice(vertices)[0],
                             min(vertices)[0] - 1, max(vertices)[0] + 1, (here[0] + here[-1]) // 2))
        return beside, y + (style == 13) * rng.choice((-1, 1))
    if style == 14:
        return sum(vx for vx, _ in vertices) // size, sum(vy for _, vy in vertices) // size
    far_x, far_y = vertices[(at + size // 2) % size]
    return (x + far_x) // 2, (y + far_y) // 2


def on_scale(points):
    return all(LOWEST <= value <= HIGHEST for point in points for value in point)


def put_at(vertices, place, x, y):
    """An outline moved, and mirrored if need be, so that a place of it is the point; None if it has no room on the scale."""
    for way_x, way_y in ((1, 1), (-1, -1), (1, -1), (-1, 1)):
        put = [(x + way_x * (vx - place[0]), y + way_y * (vy - place[1])) for vx, vy in vertices]
        if on_scale(put):
            return put
    return None


def through(rng, size, x, y):
    """An outline with so many vertices that has the point, which is on the scale, at some place."""
    while True:
        vertices = outline(rng, size)
        put = put_at(vertices, place(rng, vertices), x, y)
        if put:
            return put


def carrying(vertices, x, y):
    """The numbers of the edges that carry a point."""
    return [at for at, ((x0, y0), (x1, y1)) in enumerate(zip(vertices, vertices[1:] + vertices[:1]))
            if min(y0, y1) <= y <= max(y0, y1) and min(x0, x1) <= x <= max(x0, x1) and (x1 - x0) * (y - y0) == (x - x0) * (y1 - y0)]


def through_edge(rng, size, x, y, at):
    """Likewise, with the point on the edge of this number and on no other."""
    while True:
        vertices = outline(rng, size)
        there = on_edge(rng, vertices, at)
        put = put_at(vertices, there, x, y) if carrying(vertices, *there) == [at] else None
        if put:
            return put
