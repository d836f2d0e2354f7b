"""Outlines drawn the other way round (02 h): begun at another vertex, and walked in the other direction.

Vertices are a flat list x, y, x, y, .. of numbers, or of the fields of a line.  A way to draw them is the number of
the vertex to begin at, and whether they are walked back.

    ways(size)                          every way to draw so many vertices; the first is as they stand
    redrawn(vertices, start, back)      the vertices in one way
    redrawn_line(line, start, back)     a `poly` line of a table, without its LF
    redrawn_body(body, start, back)     the body of a polygon's step
    poly_lines(table)                   {number of a `poly` line from 0: its vertices in number}
    polygon_steps(words)                {place of the kind of a polygon's step: its vertices in number}
    some_ways(seed, what, sizes)        ways for some of these, for one input in three
    redrawn_table(table, chosen)        a table, or an input that begins with it, whose lines are drawn in the ways chosen
    redrawn_plan(words, chosen)         a plan whose steps are
    compiled_ways(table, words, chosen) the ways chosen for lines of a table as those for steps of its plan
"""

import random

import gates

LINE_VERTICES = 5       # the first field of a `poly` line that is of a vertex: kind, name, parent and two dimensions stand before it
BODY_VERTICES = 2       # the first such word of a polygon's body: two dimensions
HEADER = 4              # the words of a step before its body: kind, region, parent, length
SHARE = 1 / 3           # of the inputs that have an outline


def ways(size):
    return [(start, back) for back in (False, True) for start in range(size)]


def redrawn(vertices, start, back):
    """From vertex `start` on, then those before it; walked back, these in reverse order, each still x then y."""
    points = [vertices[at:at + 2] for at in range(0, len(vertices), 2)]
    points = points[start:] + points[:start]
    if back:
        points.reverse()
    return [value for point in points for value in point]


def redrawn_line(line, start, back):
    fields = line.split(b'\t')
    return b'\t'.join(fields[:LINE_VERTICES] + redrawn(fields[LINE_VERTICES:], start, back))


def redrawn_body(body, start, back):
    return body[:BODY_VERTICES] + redrawn(body[BODY_VERTICES:], start, back)


def poly_lines(table):
    """Those of a refused table too, where the fields of their vertices go by pairs."""
    sizes = {}
    for number, line in enumerate(table.split(b'\n')):
        fields = line.split(b'\t')
        if fields[0] == b'poly' and len(fields) > LINE_VERTICES and (len(fields) - LINE_VERTICES) % 2 == 0:
            sizes[number] = (len(fields) - LINE_VERTICES) // 2
    return sizes


def polygon_steps(words):
    """Those of a malformed plan too, as far as the lengths lead from one step to the next."""
    sizes, at = {}, 2
    while at + HEADER <= len(words):
        kind, length = words[at], words[at + 3]
        if length < 0 or at + HEADER + length > len(words):
            break
        if kind == gates.POLYGON and length > BODY_VERTICES and length % 2 == 0:
            sizes[at] = (length - BODY_VERTICES) // 2
        at += HEADER + length
    return sizes


def some_ways(seed, what, sizes):
    """By the seed and the name of an input: {} for two of three inputs, else ways other than as they stand for at least one outline."""
    rng = random.Random('%s redrawn %s' % (seed, what))
    if not sizes or rng.random() >= SHARE:
        return {}
    certain = rng.choice(sorted(sizes))
    return {which: rng.choice(ways(size)[1:]) for which, size in sorted(sizes.items()) if which == certain or rng.random() < 0.6}


def redrawn_table(table, chosen):
    lines = table.split(b'\n')
    for number, way in chosen.items():
        lines[number] = redrawn_line(lines[number], *way)
    return b'\n'.join(lines)


def redrawn_plan(words, chosen):
    words = list(words)
    for at, way in chosen.items():
        body = slice(at + HEADER, at + HEADER + words[at + 3])
        words[body] = redrawn_body(words[body], *way)
    return words


def compiled_ways(table, words, chosen):
    """The table is accepted, and the words are those of its plan."""
    names = gates.compile_table(table, gates.PLAN_WORDS)[3]
    drawn = {table.split(b'\n')[number].split(b'\t')[1]: way for number, way in chosen.items()}
    regions = {region: drawn[name] for region, name in enumerate(names) if name in drawn}
    return {at: regions[words[at + 1]] for at in polygon_steps(words) if words[at + 1] in regions}
