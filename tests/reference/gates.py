"""The gate counter, written apart from the main program and straight from papers 01 and 02.

Nothing here is shared with the main program, so that a misreading or a slip in one
of the two shows as a difference.  All numbers are Python's whole numbers and fractions:
nothing overflows and nothing is rounded.  Speed and cleverness are left out on purpose.

Names and table text are bytes throughout, since a table is bytes.

    compile_table(table, slice_words) -> (number, place, words or None, region names)
    check_plan(words)                 -> (number, place)
    judge(words, event)               -> (number, place, bits, outline)
    count(words, values)              -> (number, place, taken, spoilt, 64 counts, unclaimed)
    members(table, event)             -> set of region names, with no plan between
    outlined(table, event)            -> those of them on whose own outline the event is
    gatecount(data)                   -> the program's whole standard output
    gatesheet(data)                   -> and that of the program for several lists (02 e)
    wrong_column(line, head)          -> the first differing field of a line of dimension names (02 g)

A number of 0 (with place 0) says that nothing was refused.  `bits` and `outline` are sets
of 64 bits, bit r for region r: the members, and those that are on the region's outline.
"""

import itertools
import re
from fractions import Fraction

TABLE_BYTES = 32768
INPUT_BYTES = 65536
PLAN_WORDS = 4096
REGIONS = 64

LOWEST, HIGHEST = -65536, 65535         # the values of an event taken
NO_MIN, NO_MAX = -65536, 65536          # the words for a missing bound
ENTRY = 16777216                        # the entries of a matrix lie within plus and minus this
WIDEST = 4096                           # the greatest D2

# 01, "Table lines": the ranges by the role of a field.
MIN_RANGE = (-65536, 65535)
MAX_RANGE = (-65535, 65536)
POINT_RANGE = (-65536, 65535)           # vertex, mean, representative
DIVIDER_RANGE = (-65535, 65535)
ENTRY_RANGE = (-ENTRY, ENTRY)
D2_RANGE = (1, WIDEST)

# 02 b: those of an `ellip` line with decimals and of the words of kind 7, in thousandths.
DECIMAL_ENTRY_RANGE = (-2000000000, 2000000000)
DECIMAL_D2_RANGE = (1, 4096000)

# 02 d: three means, c11, c12, c13, c22, c23, c33 and D2, behind the three dimensions of an `ellip3` line and of a body of kind 8.
ELLIPSOID_RANGES = (POINT_RANGE,) * 3 + (ENTRY_RANGE,) * 6 + (D2_RANGE,)

KINDS = (b'rect', b'poly', b'ellip', b'quad', b'and', b'or', b'not', b'ellip3')
BOX, POLYGON, ELLIPSE, AND, OR, NOT, DECIMAL_ELLIPSE, ELLIPSOID = 1, 2, 3, 4, 5, 6, 7, 8
STEP_KINDS = (BOX, POLYGON, ELLIPSE, AND, OR, NOT, DECIMAL_ELLIPSE, ELLIPSOID)
ELLIPSES = (ELLIPSE, DECIMAL_ELLIPSE)
COMBINATIONS = (AND, OR, NOT)

# 02 a: what the tests of polygons, ellipses and ellipsoids answer.
OUTSIDE, INSIDE, ON_OUTLINE = 'outside', 'inside', 'on the outline'

NAME = re.compile(rb'[A-Za-z][A-Za-z0-9_-]{0,15}')
NUMBER = re.compile(rb'0|-?[1-9][0-9]*')
DECIMAL = re.compile(rb'-?(0|[1-9][0-9]*)[.][0-9]{1,3}')


# ---------------------------------------------------------------- names and numbers

def is_name(field):
    return NAME.fullmatch(field) is not None


def is_parent(field):
    return field == b'-' or is_name(field)


def is_operand(field):
    return is_name(field[1:] if field[:1] == b'!' else field)


def is_number(field):
    """The form alone: a number of forty digits has a good form."""
    return NUMBER.fullmatch(field) is not None


def number_value(field):
    """The whole number of a well-formed field, however long.

    The digits are taken by pieces because Python refuses very long ones at once.
    """
    if len(field) <= 4000:
        return int(field)
    digits = field.lstrip(b'-')
    value = 0
    for start in range(0, len(digits), 4000):
        piece = digits[start:start + 4000]
        value = value * 10 ** len(piece) + int(piece)
    return -value if field[:1] == b'-' else value


def is_decimal(field):
    """02 b, the form alone: a number, or one with a point and one to three decimals; minus zero is none."""
    if is_number(field):
        return True
    minus_zero = field[:1] == b'-' and field.strip(b'-0.') == b''
    return DECIMAL.fullmatch(field) is not None and not minus_zero


def has_decimals(fields):
    """Whether one of c11, c12, c22, D2 carries a point: then the whole line is one with decimals."""
    return any(b'.' in field for field in fields)


def exact_value(field):
    """The exact value of a number with or without decimals, where it is in range."""
    return Fraction(field.decode())


def thousandths(field):
    """The thousandths of a well-formed number with or without decimals, however long."""
    before, _, after = field.partition(b'.')
    return number_value(before + after.ljust(3, b'0'))


def within(value, limits):
    return limits[0] <= value <= limits[1]


# ---------------------------------------------------------------- one table line

class Gate:
    """A gate line whose number of fields is right; the fields are still text."""

    def __init__(self, kind, name, parent):
        self.line = 0
        self.kind = kind
        self.name = name
        self.parent = parent
        self.dimensions = []    # every field that names a dimension, from the left
        self.numbers = []       # whole ones: (field, range, whether `*` may stand there)
        self.decimals = []      # c11, c12, c22, D2 of a line with decimals: (field, range in thousandths)
        self.bounds = []        # rect: (dimension, min, max)
        self.vertices = []      # poly: x, y, x, y, ..
        self.ellipse = []       # ellip: the two means, c11, c12, c22, D2
        self.ellipsoid = []     # ellip3: the three means, c11, c12, c13, c22, c23, c33, D2
        self.dividers = []      # quad: (dimension, [values])
        self.quadrants = []     # quad: (name, [representative or `*` per divider])
        self.operands = []      # and, or, not

    def regions(self):
        """A gate has one region, a quadrant gate one per quadrant and none of its own."""
        if self.kind == b'quad':
            return [name for name, _ in self.quadrants]
        return [self.name]

    def references(self):
        """The names that the line refers to: its parent and its operands."""
        names = [] if self.parent == b'-' else [self.parent]
        return names + [operand_name(operand) for operand in self.operands]


def operand_name(operand):
    return operand[1:] if operand[:1] == b'!' else operand


def quad_count(field):
    """A count in `quad` is one digit, 1 to 3; None for anything else."""
    return {b'1': 1, b'2': 2, b'3': 3}.get(field)


def read_gate(fields):
    """The gate of a line of known kind, or None when its shape is wrong (5)."""
    if len(fields) < 3:
        return None
    kind, rest = fields[0], fields[3:]
    gate = Gate(kind, fields[1], fields[2])

    if kind == b'rect':
        if len(rest) % 3 != 0 or not 1 <= len(rest) // 3 <= 8:
            return None
        for at in range(0, len(rest), 3):
            dimension, low, high = rest[at:at + 3]
            gate.dimensions.append(dimension)
            gate.bounds.append((dimension, low, high))
            gate.numbers.append((low, MIN_RANGE, True))
            gate.numbers.append((high, MAX_RANGE, True))

    elif kind == b'poly':
        if len(rest) % 2 != 0 or not 3 <= (len(rest) - 2) // 2 <= 256:
            return None
        gate.dimensions = rest[:2]
        gate.vertices = rest[2:]
        gate.numbers = [(field, POINT_RANGE, False) for field in gate.vertices]

    elif kind == b'ellip':
        if len(rest) != 8:
            return None
        gate.dimensions = rest[:2]
        gate.ellipse = rest[2:]
        means, others = rest[2:4], rest[4:]
        gate.numbers = [(field, POINT_RANGE, False) for field in means]
        if has_decimals(others):
            gate.decimals = list(zip(others, [DECIMAL_ENTRY_RANGE] * 3 + [DECIMAL_D2_RANGE]))
        else:
            gate.numbers += [(field, limits, False) for field, limits in zip(others, [ENTRY_RANGE] * 3 + [D2_RANGE])]

    elif kind == b'ellip3':
        if len(rest) != 13:
            return None
        gate.dimensions = rest[:3]
        gate.ellipsoid = rest[3:]
        gate.numbers = [(field, limits, False) for field, limits in zip(gate.ellipsoid, ELLIPSOID_RANGES)]

    elif kind == b'quad':
        if not rest:
            return None
        dividers = quad_count(rest[0])
        if dividers is None:
            return None
        at = 1
        for _ in range(dividers):
            if at + 2 > len(rest):
                return None
            dimension, values = rest[at], quad_count(rest[at + 1])
            if values is None or at + 2 + values > len(rest):
                return None
            fields_of_values = rest[at + 2:at + 2 + values]
            gate.dimensions.append(dimension)
            gate.dividers.append((dimension, fields_of_values))
            gate.numbers += [(field, DIVIDER_RANGE, False) for field in fields_of_values]
            at += 2 + values
        size = 1 + dividers
        if at == len(rest) or (len(rest) - at) % size != 0:
            return None
        for start in range(at, len(rest), size):
            representatives = rest[start + 1:start + size]
            gate.quadrants.append((rest[start], representatives))
            gate.numbers += [(field, POINT_RANGE, True) for field in representatives]

    elif kind == b'not':
        if len(rest) != 1:
            return None
        gate.operands = rest

    else:
        if not 2 <= len(rest) <= 63:
            return None
        gate.operands = rest

    return gate


# 6 to 12, each over the whole line before the next.  Each of these tells whether the
# line is good in that one respect; it is asked only when all earlier ones have passed.

def names_good(gate, head):
    return (is_name(gate.name) and is_parent(gate.parent)
            and all(is_name(name) for name, _ in gate.quadrants)
            and all(is_operand(operand) for operand in gate.operands))


def forms_good(gate, head):
    return (all(is_number(field) or (star and field == b'*') for field, _, star in gate.numbers)
            and all(is_decimal(field) for field, _ in gate.decimals))


def ranges_good(gate, head):
    return (all(field == b'*' or within(number_value(field), limits) for field, limits, _ in gate.numbers)
            and all(within(thousandths(field), limits) for field, limits in gate.decimals))


def dimensions_good(gate, head):
    return (all(dimension in head for dimension in gate.dimensions)
            and len(set(gate.dimensions)) == len(gate.dimensions))


def bounds_good(gate, head):
    for _, low, high in gate.bounds:
        # A missing bound bounds nothing, so it crosses nothing.
        if low != b'*' and high != b'*' and number_value(low) >= number_value(high):
            return False
    for _, fields in gate.dividers:
        values = [number_value(field) for field in fields]
        if any(later <= earlier for earlier, later in zip(values, values[1:])):
            return False
    return True


def matrix_is_good(c11, c12, c22):
    return c11 > 0 and c11 * c22 > c12 * c12


def ellipse_numbers(gate):
    """The means, c11, c12, c22 and D2 of an `ellip` line whose ranges are good, as the line says them."""
    value = exact_value if gate.decimals else number_value
    return [value(field) for field in gate.ellipse]


def symmetric(c11, c12, c13, c22, c23, c33):
    """The rows of the matrix of an ellipsoid."""
    return [[c11, c12, c13], [c12, c22, c23], [c13, c23, c33]]


def without(rows, row, column):
    """A matrix without one of its rows and one of its columns."""
    return [[entry for there, entry in enumerate(entries) if there != column] for at, entries in enumerate(rows) if at != row]


def cofactor(rows, row, column):
    return (-1) ** (row + column) * determinant(without(rows, row, column))


def determinant(rows):
    """Developed along the first row; that of a matrix without rows is 1."""
    if not rows:
        return 1
    return sum(entry * cofactor(rows, 0, column) for column, entry in enumerate(rows[0]))


def ellipsoid_matrix_is_good(rows):
    """c11, the upper left 2 by 2 determinant and the whole determinant are above 0."""
    return all(determinant([entries[:size] for entries in rows[:size]]) > 0 for size in (1, 2, 3))


def ellipsoid_numbers(gate):
    """The means, the rows of the matrix, and D2 of an `ellip3` line whose ranges are good."""
    numbers = [number_value(field) for field in gate.ellipsoid]
    return numbers[:3], symmetric(*numbers[3:9]), numbers[9]


def matrix_good(gate, head):
    if gate.kind == b'ellip3':
        return ellipsoid_matrix_is_good(ellipsoid_numbers(gate)[1])
    return gate.kind != b'ellip' or matrix_is_good(*ellipse_numbers(gate)[2:5])


def interval_number(values, value):
    """Which interval, from 0, a value lies in: each has its lower end, not its upper."""
    return sum(1 for divider in values if divider <= value)


def tiling_good(gate, head):
    """Each combination of intervals belongs to exactly one quadrant."""
    if gate.kind != b'quad':
        return True
    cuts = [[number_value(field) for field in fields] for _, fields in gate.dividers]
    owners = {cell: 0 for cell in
              itertools.product(*[range(len(values) + 1) for values in cuts])}
    for _, representatives in gate.quadrants:
        held = [range(len(values) + 1) if field == b'*'
                else [interval_number(values, number_value(field))]
                for values, field in zip(cuts, representatives)]
        for cell in itertools.product(*held):
            owners[cell] += 1
    return all(times == 1 for times in owners.values())


LINE_CHECKS = ((6, names_good), (7, forms_good), (8, ranges_good), (9, dimensions_good),
               (10, bounds_good), (11, matrix_good), (12, tiling_good))


# ---------------------------------------------------------------- the whole table

# 13 to 16.  Each returns the line to be named, or None.

def find_crowded(gates):
    regions = 0
    for gate in gates:
        regions += len(gate.regions())
        if regions > REGIONS:
            return gate.line
    return None


def find_twin(gates):
    used = set()
    for gate in gates:
        for name in [gate.name] + [name for name, _ in gate.quadrants]:
            if name in used:
                return gate.line
            used.add(name)
    return None


def find_dead(gates):
    alive = {name for gate in gates for name in gate.regions()}
    for gate in gates:
        if any(name not in alive for name in gate.references()):
            return gate.line
    return None


def reach(gates):
    """For each gate the set of gates that it reaches, as numbers in table order."""
    owner = {name: number for number, gate in enumerate(gates) for name in gate.regions()}
    direct = [{owner[name] for name in gate.references()} for gate in gates]
    reached = []
    for start in direct:
        seen, waiting = set(), list(start)
        while waiting:
            number = waiting.pop()
            if number not in seen:
                seen.add(number)
                waiting += direct[number]
        reached.append(seen)
    return reached


def find_circle(gates):
    """The first line whose gate reaches itself; one that only leads in isn't meant."""
    for number, reached in enumerate(reach(gates)):
        if number in reached:
            return gates[number].line
    return None


TABLE_CHECKS = ((13, find_crowded), (14, find_twin), (15, find_dead), (16, find_circle))


def read_head(line):
    """The dimensions of line 1, or None when it fails (3)."""
    fields = line.split(b'\t')
    names = fields[1:]
    if fields[0] != b'dims' or not 1 <= len(names) <= 8:
        return None
    if not all(is_name(name) for name in names) or len(set(names)) != len(names):
        return None
    return names


def read_table(table):
    """(0, 0, head, gates) when none of 1 to 16 applies, else (number, place, None, None)."""
    if len(table) > TABLE_BYTES:
        return 1, 0, None, None
    if table[-1:] != b'\n':
        return 2, 0, None, None
    lines = table[:-1].split(b'\n')
    head = read_head(lines[0])
    if head is None:
        return 3, 1, None, None
    gates = []
    for place, line in enumerate(lines[1:], 2):
        fields = line.split(b'\t')
        if fields[0] not in KINDS:
            return 4, place, None, None
        gate = read_gate(fields)
        if gate is None:
            return 5, place, None, None
        for number, good in LINE_CHECKS:
            if not good(gate, head):
                return number, place, None, None
        gate.line = place
        gates.append(gate)
    for number, find in TABLE_CHECKS:
        place = find(gates)
        if place is not None:
            return number, place, None, None
    return 0, 0, head, gates


# ---------------------------------------------------------------- writing the plan

def interval(values, field):
    """The bounds of the interval that a representative stands for, `*` for all."""
    if field == b'*':
        return NO_MIN, NO_MAX
    value = number_value(field)
    low = max([divider for divider in values if divider <= value], default=NO_MIN)
    high = min([divider for divider in values if divider > value], default=NO_MAX)
    return low, high


def quadrant_body(gate, representatives, head):
    """One triple per divider, also for those not referred to."""
    body = []
    for (dimension, fields), representative in zip(gate.dividers, representatives):
        low, high = interval([number_value(field) for field in fields], representative)
        body += [head.index(dimension), low, high]
    return body


def region_steps(head, gates):
    """For each region in table order: kind, parent name, body, names it waits for."""
    numbers = {}
    for gate in gates:
        for name in gate.regions():
            numbers[name] = len(numbers)
    steps = []
    for gate in gates:
        waits = gate.references()
        if gate.kind == b'quad':
            for _, representatives in gate.quadrants:
                steps.append((BOX, gate.parent, quadrant_body(gate, representatives, head), waits))
            continue
        if gate.kind == b'rect':
            kind, body = BOX, []
            for dimension, low, high in gate.bounds:
                body += [head.index(dimension),
                         NO_MIN if low == b'*' else number_value(low),
                         NO_MAX if high == b'*' else number_value(high)]
        elif gate.kind == b'poly':
            kind = POLYGON
            body = [head.index(dimension) for dimension in gate.dimensions]
            body += [number_value(field) for field in gate.vertices]
        elif gate.kind == b'ellip':
            kind = DECIMAL_ELLIPSE if gate.decimals else ELLIPSE
            body = [head.index(dimension) for dimension in gate.dimensions]
            body += [number_value(field) for field, _, _ in gate.numbers]
            body += [thousandths(field) for field, _ in gate.decimals]
        elif gate.kind == b'ellip3':
            kind = ELLIPSOID
            body = [head.index(dimension) for dimension in gate.dimensions]
            body += [number_value(field) for field in gate.ellipsoid]
        else:
            kind = {b'and': AND, b'or': OR, b'not': NOT}[gate.kind]
            body = [2 * numbers[operand_name(operand)] + (operand[:1] == b'!')
                    for operand in gate.operands]
        steps.append((kind, gate.parent, body, waits))
    return numbers, steps


def writing_order(numbers, steps):
    """Each time anew the lowest region not yet written whose parent and operands are."""
    written, order = set(), []
    while len(order) < len(steps):
        for region, (_, _, _, waits) in enumerate(steps):
            if region not in written and all(numbers[name] in written for name in waits):
                break
        written.add(region)
        order.append(region)
    return order


def plan_words(head, gates):
    numbers, steps = region_steps(head, gates)
    words = [len(head), len(steps)]
    for region in writing_order(numbers, steps):
        kind, parent, body, _ = steps[region]
        words += [kind, region, -1 if parent == b'-' else numbers[parent], len(body)]
        words += body
    return words


def compile_table(table, slice_words):
    """(number, place, words or None, region names); refusals 1 to 18 in 01's order."""
    number, place, head, gates = read_table(table)
    if number:
        return number, place, None, []
    words = plan_words(head, gates)
    if len(words) > PLAN_WORDS:
        return 17, 0, None, []
    if len(words) > slice_words:
        return 18, 0, None, []
    return 0, 0, words, [name for gate in gates for name in gate.regions()]


# ---------------------------------------------------------------- checking a plan

MATRIX_AT = 4               # where in an ellipse's body a bad matrix is placed: c11
ELLIPSOID_MATRIX_AT = 6     # and where in an ellipsoid's


def length_good(kind, length):
    if kind == BOX:
        return 3 <= length <= 24 and length % 3 == 0
    if kind == POLYGON:
        return 8 <= length <= 514 and length % 2 == 0
    if kind in ELLIPSES:
        return length == 8
    if kind == ELLIPSOID:
        return length == 13
    if kind == NOT:
        return length == 1
    return 2 <= length <= 63


def ellipse_range(kind, at):
    """The range of word `at` of an ellipse's body, behind the dimensions."""
    if at < 4:
        return POINT_RANGE
    entry, d2 = (ENTRY_RANGE, D2_RANGE) if kind == ELLIPSE else (DECIMAL_ENTRY_RANGE, DECIMAL_D2_RANGE)
    return entry if at < 7 else d2


def body_word_good(kind, body, at, n, earlier):
    """Whether word `at` of a body is good, by the words before it (the matrix apart)."""
    word = body[at]
    if kind == BOX:
        if at % 3 == 0:
            return 0 <= word < n and word not in body[0:at:3]
        if at % 3 == 1:
            return within(word, MIN_RANGE)
        return within(word, MAX_RANGE) and body[at - 1] < word
    if kind in COMBINATIONS:
        return word >= 0 and word // 2 in earlier
    if at < (3 if kind == ELLIPSOID else 2):
        return 0 <= word < n and word not in body[:at]
    if kind == ELLIPSOID:
        return within(word, ELLIPSOID_RANGES[at - 3])
    return within(word, POINT_RANGE if kind == POLYGON else ellipse_range(kind, at))


def bad_body_word(kind, body, length, n, earlier):
    """The first bad word of a body, perhaps cut short by the plan's end; None if all good.

    A body cut short has its words judged like any other; `len(body)` is the answer
    when they are good and the next one is missing.
    """
    for at in range(length):
        if at == len(body) or not body_word_good(kind, body, at, n, earlier):
            return at
        # c22 is the last word of the matrix; all three are there and in range now.
        if kind in ELLIPSES and at == 6 and not matrix_is_good(*body[4:7]):
            return MATRIX_AT
        # c33 is the last of the six.
        if kind == ELLIPSOID and at == 11 and not ellipsoid_matrix_is_good(symmetric(*body[6:12])):
            return ELLIPSOID_MATRIX_AT
    return None


def bad_word(words):
    """The place of 22: the lowest bad word, the plan's length if words run out, or None."""
    end = len(words)
    if end < 1 or not 1 <= words[0] <= 8:
        return 0
    if end < 2 or not 0 <= words[1] <= REGIONS:
        return 1
    n, steps = words[0], words[1]
    earlier = set()
    at = 2
    for _ in range(steps):
        # In each of these lines the place is `end` itself when the word is missing.
        if at == end or words[at] not in STEP_KINDS:
            return at
        kind = words[at]
        at += 1
        if at == end or not 0 <= words[at] < steps or words[at] in earlier:
            return at
        region = words[at]
        at += 1
        if at == end or (words[at] != -1 and words[at] not in earlier):
            return at
        at += 1
        if at == end or not length_good(kind, words[at]):
            return at
        length = words[at]
        at += 1
        bad = bad_body_word(kind, words[at:at + length], length, n, earlier)
        if bad is not None:
            return at + bad
        at += length
        earlier.add(region)
    return None if at == end else at


def check_plan(words):
    """(0, 0) for a plan of good form, else 21 or 22 with its place."""
    if len(words) > PLAN_WORDS:
        return 21, 0
    place = bad_word(words)
    return (0, 0) if place is None else (22, place)


# ---------------------------------------------------------------- members of a shape

def box_holds(body, event):
    """Minimum included, maximum not."""
    return all(low <= event[dimension] < high
               for dimension, low, high in zip(body[0::3], body[1::3], body[2::3]))


def polygon_walk(vertices, x, y):
    """(whether some edge carries the point, the winding sum over all edges, also where one does)."""
    points = list(zip(vertices[0::2], vertices[1::2]))
    carried, total = False, 0
    for (x0, y0), (x1, y1) in zip(points, points[1:] + points[:1]):
        s = (x1 - x0) * (y - y0) - (x - x0) * (y1 - y0)
        if s == 0 and min(x0, x1) <= x <= max(x0, x1) and min(y0, y1) <= y <= max(y0, y1):
            carried = True
        if y0 <= y < y1 and s > 0:
            total += 1
        if y1 <= y < y0 and s < 0:
            total -= 1
    return carried, total


def polygon_position(vertices, x, y):
    """On the outline: on some edge, wherever it runs.  Inside: the sum over the edges isn't 0."""
    carried, total = polygon_walk(vertices, x, y)
    if carried:
        return ON_OUTLINE
    return INSIDE if total != 0 else OUTSIDE


def polygon_holds(vertices, x, y):
    """01's rule: on some edge, or the sum over the edges isn't 0."""
    return polygon_position(vertices, x, y) != OUTSIDE


def ellipse_position(mean_x, mean_y, c11, c12, c22, d2, x, y):
    """000's rule multiplied by the determinant.  On the outline: both sides are equal."""
    dx, dy = x - mean_x, y - mean_y
    left = c22 * dx * dx - 2 * c12 * dx * dy + c11 * dy * dy
    right = d2 * (c11 * c22 - c12 * c12)
    if left == right:
        return ON_OUTLINE
    return INSIDE if left < right else OUTSIDE


def ellipse_holds(mean_x, mean_y, c11, c12, c22, d2, x, y):
    """The rim is inside."""
    return ellipse_position(mean_x, mean_y, c11, c12, c22, d2, x, y) != OUTSIDE


def decimal_ellipse_position(mean_x, mean_y, c11, c12, c22, d2, x, y):
    """The same over words of kind 7, c11, c12, c22 and D2 in thousandths.

    Both sides are multiplied by c11, which is above 0: the left one is then the square of c11 dy - c12 dx
    and dx2 times the determinant.
    """
    dx, dy = x - mean_x, y - mean_y
    determinant = c11 * c22 - c12 * c12
    left = (c11 * dy - c12 * dx) ** 2 + determinant * dx ** 2
    # Each product has two numbers in thousandths on the left and four on the right.
    beyond = 1000 ** 2 * left - c11 * d2 * determinant
    if beyond == 0:
        return ON_OUTLINE
    return INSIDE if beyond < 0 else OUTSIDE


def decimal_ellipse_holds(mean_x, mean_y, c11, c12, c22, d2, x, y):
    return decimal_ellipse_position(mean_x, mean_y, c11, c12, c22, d2, x, y) != OUTSIDE


def ellipsoid_position(means, rows, d2, point):
    """000's rule multiplied by the determinant: the matrix of the cofactors stands for the inverse."""
    from_means = [value - mean for value, mean in zip(point, means)]
    left = sum(one * cofactor(rows, row, column) * other
               for row, one in enumerate(from_means) for column, other in enumerate(from_means))
    right = d2 * determinant(rows)
    if left == right:
        return ON_OUTLINE
    return INSIDE if left < right else OUTSIDE


def ellipsoid_holds(means, rows, d2, point):
    return ellipsoid_position(means, rows, d2, point) != OUTSIDE


def ellipsoid_of(body, event):
    """Means, matrix, D2 and the event's three values, by a body of kind 8."""
    return body[3:6], symmetric(*body[6:12]), body[12], [event[dimension] for dimension in body[:3]]


def solved(rows, values):
    """The fractions that the rows of a good matrix take to these values."""
    lines = [[Fraction(entry) for entry in entries] + [Fraction(value)] for entries, value in zip(rows, values)]
    for at in range(len(lines)):
        # The leading determinants are above 0, and so is what is divided by.
        lines[at] = [entry / lines[at][at] for entry in lines[at]]
        for other in range(len(lines)):
            if other != at:
                lines[other] = [entry - lines[other][at] * first for entry, first in zip(lines[other], lines[at])]
    return [line[-1] for line in lines]


def ellipsoid_position_by_000(means, rows, d2, point):
    """The rule as 000 has it, with the inverse of the matrix."""
    from_means = [value - mean for value, mean in zip(point, means)]
    distance = sum(one * other for one, other in zip(from_means, solved(rows, from_means)))
    if distance == d2:
        return ON_OUTLINE
    return INSIDE if distance < d2 else OUTSIDE


def is_spoilt(event):
    return any(not LOWEST <= value <= HIGHEST for value in event)


# ---------------------------------------------------------------- running a plan

def plan_steps(words):
    """The steps of a plan that has passed: (kind, region, parent, body)."""
    steps, at = [], 2
    while at < len(words):
        kind, region, parent, length = words[at:at + 4]
        steps.append((kind, region, parent, words[at + 4:at + 4 + length]))
        at += 4 + length
    return steps


def operand_holds(word, bits):
    """The event, which is taken, is a member of the operand; odd words stand for `!`."""
    return (bits >> (word // 2) & 1) != word % 2


def shape_holds(kind, body, event, bits):
    if kind == BOX:
        return box_holds(body, event)
    if kind == POLYGON:
        return polygon_holds(body[2:], event[body[0]], event[body[1]])
    if kind == ELLIPSE:
        return ellipse_holds(*body[2:], event[body[0]], event[body[1]])
    if kind == DECIMAL_ELLIPSE:
        return decimal_ellipse_holds(*body[2:], event[body[0]], event[body[1]])
    if kind == ELLIPSOID:
        return ellipsoid_holds(*ellipsoid_of(body, event))
    if kind == AND:
        return all(operand_holds(word, bits) for word in body)
    if kind == OR:
        return any(operand_holds(word, bits) for word in body)
    return not operand_holds(body[0], bits)


def event_bits(steps, event):
    """Bit r for region r, for an event taken: shape and parent both."""
    bits = 0
    for kind, region, parent, body in steps:
        in_parent = parent == -1 or bits >> parent & 1
        if in_parent and shape_holds(kind, body, event, bits):
            bits |= 1 << region
    return bits


def on_outline(kind, body, event):
    """Whether an event is on the outline of a step's own shape; boxes and combinations have none."""
    if kind == POLYGON:
        return polygon_position(body[2:], event[body[0]], event[body[1]]) == ON_OUTLINE
    if kind == ELLIPSE:
        return ellipse_position(*body[2:], event[body[0]], event[body[1]]) == ON_OUTLINE
    if kind == DECIMAL_ELLIPSE:
        return decimal_ellipse_position(*body[2:], event[body[0]], event[body[1]]) == ON_OUTLINE
    if kind == ELLIPSOID:
        return ellipsoid_position(*ellipsoid_of(body, event)) == ON_OUTLINE
    return False


def outline_bits(steps, event, bits):
    """Bit r for region r: of the regions with a bit set, those on whose outline the event is."""
    outline = 0
    for kind, region, _, body in steps:
        if bits >> region & 1 and on_outline(kind, body, event):
            outline |= 1 << region
    return outline


def judge(words, event):
    """(number, place, bits, outline): 21, 22, 23 for the event's length, 24 for its first bad value.

    A refused judging sets no bit in either set.
    """
    number, place = check_plan(words)
    if number:
        return number, place, 0, 0
    if len(event) != words[0]:
        return 23, len(event), 0, 0
    for at, value in enumerate(event):
        if not LOWEST <= value <= HIGHEST:
            return 24, at, 0, 0
    steps = plan_steps(words)
    bits = event_bits(steps, event)
    return 0, 0, bits, outline_bits(steps, event, bits)


def count(words, values):
    """(number, place, taken, spoilt, counts, unclaimed); a refused count is a tally of zeros.

    02 f: unclaimed are the events taken that are members of no region.
    """
    number, place = check_plan(words)
    if number:
        return number, place, 0, 0, [0] * REGIONS, 0
    n = words[0]
    if len(values) % n != 0:
        return 23, len(values), 0, 0, [0] * REGIONS, 0
    steps = plan_steps(words)
    taken = spoilt = unclaimed = 0
    counts = [0] * REGIONS
    for start in range(0, len(values), n):
        event = values[start:start + n]
        if is_spoilt(event):
            spoilt += 1
            continue
        taken += 1
        bits = event_bits(steps, event)
        for region in range(words[1]):
            counts[region] += bits >> region & 1
        if bits == 0:
            unclaimed += 1
    return 0, 0, taken, spoilt, counts, unclaimed


# ---------------------------------------------------------------- members and outlines without a plan

def membership(table):
    """A function from an event to the names of the regions that it is a member of.

    It follows names through the lines of an accepted table, which may point up or
    down; no plan, no region number and no order of steps has a part in it.
    """
    lines = table[:-1].split(b'\n')
    head = lines[0].split(b'\t')[1:]
    gates = [read_gate(line.split(b'\t')) for line in lines[1:]]
    region = {}     # name -> its gate, and for a quadrant its representatives
    for gate in gates:
        if gate.kind == b'quad':
            for name, representatives in gate.quadrants:
                region[name] = (gate, representatives)
        else:
            region[gate.name] = (gate, None)

    def in_shape(gate, representatives, value, member):
        if gate.kind == b'rect':
            return all((low == b'*' or number_value(low) <= value[dimension])
                       and (high == b'*' or value[dimension] < number_value(high))
                       for dimension, low, high in gate.bounds)
        if gate.kind == b'poly':
            x, y = [value[dimension] for dimension in gate.dimensions]
            return polygon_holds([number_value(field) for field in gate.vertices], x, y)
        if gate.kind == b'ellip':
            x, y = [value[dimension] for dimension in gate.dimensions]
            return ellipse_holds(*ellipse_numbers(gate), x, y)
        if gate.kind == b'ellip3':
            point = [value[dimension] for dimension in gate.dimensions]
            return ellipsoid_position_by_000(*ellipsoid_numbers(gate), point) != OUTSIDE
        if gate.kind == b'quad':
            for (dimension, fields), representative in zip(gate.dividers, representatives):
                cuts = [number_value(field) for field in fields]
                if (representative != b'*' and interval_number(cuts, value[dimension])
                        != interval_number(cuts, number_value(representative))):
                    return False
            return True
        holds = [member(operand_name(operand)) != (operand[:1] == b'!')
                 for operand in gate.operands]
        if gate.kind == b'and':
            return all(holds)
        if gate.kind == b'or':
            return any(holds)
        return not holds[0]

    def names_of(event):
        if is_spoilt(event):
            return set()
        value = dict(zip(head, event))
        known = {}      # a region asked for twice is followed once

        def member(name):
            if name not in known:
                gate, representatives = region[name]
                known[name] = ((gate.parent == b'-' or member(gate.parent))
                               and in_shape(gate, representatives, value, member))
            return known[name]

        return {name for name in region if member(name)}

    return names_of


def members(table, event):
    """The names of the regions of an accepted table that an event is a member of."""
    return membership(table)(event)


def outlines(table):
    """A function from an event to the names of the regions that it is a member of and on
    the outline of whose own shape it is.

    Like `membership` it looks at the lines of an accepted table only.
    """
    lines = table[:-1].split(b'\n')
    head = lines[0].split(b'\t')[1:]
    gates = [read_gate(line.split(b'\t')) for line in lines[1:]]
    members_of = membership(table)

    def position(gate, value):
        point = [value[dimension] for dimension in gate.dimensions]
        if gate.kind == b'poly':
            return polygon_position([number_value(field) for field in gate.vertices], *point)
        if gate.kind == b'ellip3':
            return ellipsoid_position_by_000(*ellipsoid_numbers(gate), point)
        return ellipse_position(*ellipse_numbers(gate), *point)

    def names_of(event):
        value = dict(zip(head, event))
        inside = members_of(event)
        return {gate.name for gate in gates if gate.kind in (b'poly', b'ellip', b'ellip3')
                and gate.name in inside and position(gate, value) == ON_OUTLINE}

    return names_of


def outlined(table, event):
    """The names of the regions that an event is a member of and on whose own outline it is."""
    return outlines(table)(event)


# ---------------------------------------------------------------- the programs

EVENTS = (b'events\n', b'events')       # the line before a list, which may lack its LF at the end of an input


def input_lines(data):
    """The lines of an input, which keep their LF, so that a missing one shows."""
    lines = data.split(b'\n')
    # The piece after the last LF is a line only when there is something in it.
    open_line = lines.pop()
    return [line + b'\n' for line in lines] + ([open_line] if open_line else [])


def part_input(data):
    """(table, list lines, line number of `events` or None, whether it has its LF).

    The first line that is exactly `events` parts the input.
    """
    lines = input_lines(data)
    for number, line in enumerate(lines, 1):
        if line in EVENTS:
            return b''.join(lines[:number - 1]), lines[number:], number, line[-1:] == b'\n'
    return data, [], None, True


# A list is the number of its line `events` in the whole input, whether that has its LF, the line directly
# after it, which is always read as the column line (02 g), and the event lines.  Where the input ends
# before the column line, b'' stands for it: no line is that.

def part_list(data):
    """(table, lists) for `gatecount`: one list at most, since the first `events` alone opens one."""
    table, lines, events_line, closed = part_input(data)
    return table, [] if events_line is None else [(events_line, closed, b''.join(lines[:1]), lines[1:])]


def part_lists(data):
    """(table, lists) for `gatesheet`: each `events` opens a list, unless it is read as a column line itself."""
    table, lines, events_line, closed = part_input(data)
    lists, opened = [], events_line is not None
    if opened:
        lists.append((events_line, closed, b'', []))
    for number, line in enumerate(lines, (events_line or 0) + 1):
        if opened:
            lists[-1] = (*lists[-1][:2], line, [])
            opened = False
        elif line in EVENTS:
            lists.append((number, line[-1:] == b'\n', b'', []))
            opened = True
        else:
            lists[-1][3].append(line)
    return table, lists


def wrong_column(line, head):
    """The first field, from 0, at which a column line differs from the names of the head, or None (02 g).

    Lines of unequal length differ at the end of the shorter; a missing LF is no difference.
    """
    fields = line[:-1].split(b'\t') if line[-1:] == b'\n' else line.split(b'\t')
    for place in range(max(len(fields), len(head))):
        if fields[place:place + 1] != head[place:place + 1]:
            return place
    return None


def wrong_columns(lists, head):
    """The place of 31: that of the first wrong column line, or None.

    An `events` without LF, which is 23, asks for no column line.
    """
    for _, closed, columns, _ in lists:
        place = wrong_column(columns, head) if closed else None
        if place is not None:
            return place
    return None


def event_values(line, n):
    """The n numbers of an event line, or None when the line isn't so (23)."""
    if line[-1:] != b'\n':
        return None
    fields = line[:-1].split(b'\t')
    if len(fields) != n or not all(is_number(field) for field in fields):
        return None
    return [number_value(field) for field in fields]


def read_lists(lists, n):
    """(None, the values of each list), or the lowest bad line over all lists (23) and None.

    Of the column line, which is right here, only the LF is looked at.
    """
    values = []
    for events_line, closed, columns, lines in lists:
        if not closed:
            return events_line, None
        if columns[-1:] != b'\n':
            return events_line + 1, None
        values.append([])
        for number, line in enumerate(lines, events_line + 2):
            event = event_values(line, n)
            if event is None:
                return number, None
            # A number beyond 32 bits stays what it is here and so spoils its event.
            values[-1] += event
    return None, values


def read_input(table, lists):
    """(0, 0, words, region names, values of each list), or the refusal: the table's own, then 31, then 23."""
    number, place, words, names = compile_table(table, PLAN_WORDS)
    if number:
        return number, place, None, [], None
    place = wrong_columns(lists, read_table(table)[2])
    if place is not None:
        return 31, place, None, [], None
    place, values = read_lists(lists, words[0])
    if place is not None:
        return 23, place, None, [], None
    return 0, 0, words, names, values


def refused(number, place):
    return b'refused\t%d\t%d\n' % (number, place)


def printed_line(name, *numbers):
    return b'\t'.join([name] + [b'%d' % number for number in numbers]) + b'\n'


def gatecount(data):
    """The whole standard output for a standard input (01, "Marked and others")."""
    if len(data) > INPUT_BYTES:
        return refused(1, 0)
    table, lists = part_list(data)
    number, place, words, names, values = read_input(table, lists)
    if number:
        return refused(number, place)
    # The unclaimed are printed on the sheet only.
    number, place, taken, spoilt, counts, _ = count(words, values[0] if values else [])
    if number:
        return refused(number, place)
    printed = [printed_line(name, counts[region]) for region, name in enumerate(names)]
    return b''.join(printed) + printed_line(b'taken', taken) + printed_line(b'spoilt', spoilt)


# ---------------------------------------------------------------- 02 e: several lists

def region_parents(table):
    """The parent of each region of an accepted table, in table order; that of a quadrant is its gate's."""
    return [gate.parent for gate in read_table(table)[3] for _ in gate.regions()]


def sheet_rows(names, parents, tallies, events):
    """The lines of a sheet, each a name and its numbers.

    A tally is (taken, spoilt, counts, unclaimed), one for each list; `events` is the number of
    events that the lists hold.  The sum stands behind the columns.  Behind that of a region stand,
    over all lists, its count once more and its parent's, or the taken where it has none.  02 f:
    the unclaimed stand between taken and spoilt.
    """
    takens = [taken for taken, _, _, _ in tallies]
    spoilts = [spoilt for _, spoilt, _, _ in tallies]
    unclaimeds = [unclaimed for _, _, _, unclaimed in tallies]
    columns = {name: [counts[region] for _, _, counts, _ in tallies] for region, name in enumerate(names)}
    rows = []
    for name, parent in zip(names, parents):
        whole = takens if parent == b'-' else columns[parent]
        rows.append([name, *columns[name], sum(columns[name]), sum(columns[name]), sum(whole)])
    rows.append([b'taken', *takens, sum(takens)])
    rows.append([b'unclaimed', *unclaimeds, sum(unclaimeds)])
    rows.append([b'spoilt', *spoilts, sum(spoilts)])
    rows.append([b'events', events])
    return rows


def gatesheet(data):
    """The whole standard output of the cruise sheet for a standard input."""
    if len(data) > INPUT_BYTES:
        return refused(1, 0)
    table, lists = part_lists(data)
    number, place, words, names, values = read_input(table, lists)
    if number:
        return refused(number, place)
    tallies = [count(words, each)[2:] for each in values]
    events = sum(len(each) // words[0] for each in values)
    return b''.join(printed_line(*row) for row in sheet_rows(names, region_parents(table), tallies, events))
