#!/usr/bin/env python3
"""Compares a real gate counter with the reference, which was written apart from it.

    tests/compare.py --gatecount PATH [--plans PATH] [--questions WORDS] [--seed S] [--inputs N] [--keep FOLDER]
    tests/compare.py --gatesheet PATH ...   the sheet of several lists, by itself or with the others; --joined PATH: the gatecount of the joined lists alone
    tests/compare.py --plant FAULT ...      with a fault planted in the reference
    tests/compare.py --mutations ...        each planted fault in turn: all must be seen
    tests/compare.py --mutations walk- ...  those whose names begin so
    tests/compare.py --edges --plans PATH   an event on each edge of polygons of 3 to 256 vertices, a minute

A PATH may carry arguments ("python3 tests/reference/standin.py gatecount").

What is compared:

* Each of N generated standard inputs goes through the executable at --gatecount and
  its standard output must be the reference's, byte for byte.
* For some accepted tables the gate lines are put into other orders: the real program
  must give each region the same count under its name, and the same taken and spoilt.
* In what the real program prints, the counts of a quadrant gate's quadrants must add up
  to the count of its parent, or to the taken when it has none.
* Each of N generated standard inputs with any number of lists goes through the executable
  at --gatesheet: its standard output must be the reference's, byte for byte.  Where it is
  accepted, what the real program prints must add up by itself (sums, shares, quadrants, the
  unclaimed against the taken and the regions without a parent, and the last line against taken,
  spoilt and the lines of the lists), its sums must be what `gatecount` prints for the joined
  lists (that of --joined or --gatecount, else the reference's) and, the unclaimed too, what it
  prints itself for these as one list, and for some tables each line must have the same numbers
  under its name whatever the order of the gate lines.
* Each of N generated questions goes to the executable at --plans, and its answer must
  be the reference's, word for word; --questions picks those of some words only.
* For some accepted tables that executable compiles the lines in several orders and judges
  events by each plan of its own: under each region's name both of the answer's sets must
  say what the lines of the first order say, with no plan between.
* Of the inputs, questions and judged tables that have polygons, one in three is asked once
  more with some of them drawn anew: begun at another vertex, walked the other way round
  (tests/reference/redraw.py).  The real program must print the same, refused or not.  It must
  answer the same, but for the place of 22, where a bad vertex has moved; compiled, the words
  must be those of before with the outlines drawn in the same ways.  And all is compared with the
  reference too.

The last line is "N passed, M failed"; the exit status is 0 when nothing differs and
something was compared.


The questions to --plans
------------------------

The executable reads questions from standard input, one a line, to the end of input, and
writes one answer line for each, in the same order.  Fields are parted by one space, lines
end in LF, numbers are decimal.  All words and values fit signed 32 bits.  A list has at
most 5,000 numbers, a slice at most 9,000 words and a line at most 100,000 bytes.

    check K w1 .. wK                   K words of a plan
        -> number place                0 0 when the plan passes

    judge K w1 .. wK M v1 .. vM        a plan and one event of M values
        -> number place bits outline   bits, outline: each 64 characters 0 or 1, region 0 first;
                                       members, and members on the outline of the region's own shape

    count K w1 .. wK M v1 .. vM        a plan and a flat list of M values
        -> number place taken spoilt c0 c1 .. c63 unclaimed

    compile S HEX                      a slice of S words and the table's bytes, two lower-case
                                       hexadecimal digits each; `-` stands for an empty table
        -> number place words regions beyond w1 .. wWORDS

For `compile` the executable lends a slice of S words, each holding 2100000000 (which no word
of a plan is).  `words` and `regions` are what compiling reports (0 0 when
refused), the words that follow are the first `words` words of the slice afterwards, and
`beyond` is how many of the slice's other words no longer hold 2100000000: always 0.
"""

import argparse
import collections
import functools
import itertools
import os
import random
import re
import shlex
import shutil
import subprocess
import sys

HERE = os.path.dirname(os.path.abspath(__file__))
sys.path.insert(0, os.path.join(HERE, 'reference'))

import gates
import generate
import plants
import redraw

BATCH = 300         # questions for one process
PATIENCE = 20       # seconds for one process
KEPT = 20           # differing inputs kept
SHOWN = 10          # differing inputs told of
JUDGED = 20         # inputs for each table that is judged in other orders


# ---------------------------------------------------------------- the real program

def command(path):
    """A path as it stands if there is such a file, else a command with arguments."""
    if os.path.exists(path):
        return [os.path.abspath(path)]
    args = shlex.split(path)
    if not args or not shutil.which(args[0]):
        raise argparse.ArgumentTypeError('no such program: %s' % path)
    return args


def run(args, data):
    """What a process writes to standard output, or None if it hangs or has another exit status than 0, as where it is killed."""
    try:
        done = subprocess.run(args, input=data, stdout=subprocess.PIPE,
                              stderr=subprocess.DEVNULL, timeout=PATIENCE)
    except subprocess.TimeoutExpired:
        return None
    return None if done.returncode != 0 else done.stdout


def ask(args, questions):
    """The answers of the real program, None for a question that it gave no answer to."""
    answers = []
    while len(answers) < len(questions):
        left = questions[len(answers):]
        try:
            output = subprocess.run(args, input=b''.join(line + b'\n' for line in left),
                                    stdout=subprocess.PIPE, stderr=subprocess.DEVNULL,
                                    timeout=PATIENCE).stdout
        except subprocess.TimeoutExpired as late:
            output = late.stdout or b''
        # What stands after the last LF is no whole answer.
        whole = output.split(b'\n')[:-1]
        if len(whole) > len(left):      # a question answered twice spoils the last answer
            whole[len(left) - 1:] = [b' and '.join(whole[len(left) - 1:])]
        answers += whole
        if len(whole) < len(left):
            answers.append(None)
    return answers


# ---------------------------------------------------------------- questions

def listed(values):
    return ' '.join([str(len(values))] + [str(value) for value in values])


def question_line(question):
    verb = question[0]
    if verb == 'compile':
        return ('compile %d %s' % (question[1], question[2].hex() or '-')).encode()
    return ' '.join([verb] + [listed(values) for values in question[1:]]).encode()


def written(bits):
    """64 characters 0 or 1, region 0 first."""
    return ''.join('1' if bits >> region & 1 else '0' for region in range(64))


def reference_answer(question):
    verb = question[0]
    if verb == 'check':
        return b'%d %d' % gates.check_plan(question[1])
    if verb == 'judge':
        number, place, bits, outline = gates.judge(question[1], question[2])
        return ('%d %d %s %s' % (number, place, written(bits), written(outline))).encode()
    if verb == 'count':
        number, place, taken, spoilt, counts, unclaimed = gates.count(question[1], question[2])
        return ' '.join(map(str, [number, place, taken, spoilt] + counts + [unclaimed])).encode()
    number, place, words, names = gates.compile_table(question[2], question[1])
    words = words or []
    return ' '.join(map(str, [number, place, len(words), len(names), 0] + words)).encode()


def compiled_words(answer):
    """The words of an answer to `compile`, or None if it was refused."""
    fields = answer.split(b' ') if answer is not None else []
    if fields[:2] != [b'0', b'0']:
        return None
    try:
        return [int(field) for field in fields[5:]]
    except ValueError:
        return None


def question_outlines(question):
    """The polygons of a question by the lines of its table or the steps of its plan, with their numbers of vertices."""
    return redraw.poly_lines(question[2]) if question[0] == 'compile' else redraw.polygon_steps(question[1])


def redrawn_question(question, chosen):
    if question[0] == 'compile':
        return (*question[:2], redraw.redrawn_table(question[2], chosen))
    return (question[0], redraw.redrawn_plan(question[1], chosen), *question[2:])


def answered_alike(question, chosen, first, anew):
    """Whether an answer to the question with its outlines drawn anew says what the answer to it as it stands says."""
    if first is None or anew is None:
        return False
    if question[0] == 'compile':
        words = compiled_words(first)
        if words is None:
            return anew == first
        words = redraw.redrawn_plan(words, redraw.compiled_ways(question[2], words, chosen))
        return anew == b' '.join(first.split(b' ')[:5] + [b'%d' % word for word in words])
    first, anew = first.split(b' '), anew.split(b' ')
    # The number and all behind the place; that of 22 is where the bad vertex is now.
    return anew == first or (first[0] == b'22' and anew[:1] + anew[2:] == first[:1] + first[2:])


def judged_by_lines(table, names, event):
    """The answer to `judge` that a table's lines give; the names are those of regions 0, 1, .."""
    for place, value in enumerate(event):
        if not gates.LOWEST <= value <= gates.HIGHEST:
            return ('24 %d %s %s' % (place, written(0), written(0))).encode()
    bits, outline = [sum(1 << region for region, name in enumerate(names) if name in found)
                     for found in (gates.members(table, event), gates.outlined(table, event))]
    return ('0 0 %s %s' % (written(bits), written(outline))).encode()


# ---------------------------------------------------------------- printed outputs

def refusal(output):
    """The number refused with, 0 for an accepted input; None for anything else."""
    if output is None:
        return None
    lines = output.split(b'\n')
    fields = lines[0].split(b'\t')
    # A region may be called `refused`: its line has two fields and isn't the only one.
    if len(lines) == 2 and len(fields) == 3 and fields[0] == b'refused':
        return int(fields[1])
    return 0


def printed_counts(output):
    """(counts by name, taken, spoilt) of an accepted input, or None."""
    if refusal(output) != 0:
        return None
    try:
        lines = [line.split(b'\t') for line in output.split(b'\n')[:-1]]
        (taken, taken_count), (spoilt, spoilt_count) = lines[-2:]
        if (taken, spoilt) != (b'taken', b'spoilt'):
            return None
        return {name: int(number) for name, number in lines[:-2]}, int(taken_count), int(spoilt_count)
    except (ValueError, IndexError):
        return None


def table_fields(data):
    """The fields of the gate lines of an input."""
    table = gates.part_input(data)[0]
    return [line.split(b'\t') for line in table.split(b'\n')[1:-1]]


def quadrants_add_up(data, output):
    """None when there is no quadrant gate, else whether all their counts add up."""
    quads = [fields for fields in table_fields(data) if fields[0] == b'quad']
    if not quads:
        return None
    printed = printed_counts(output)
    if printed is None:
        return False
    counts, taken, _ = printed
    for fields in quads:
        gate = gates.read_gate(fields)
        whole = taken if gate.parent == b'-' else counts.get(gate.parent)
        if sum(counts.get(name, 0) for name, _ in gate.quadrants) != whole:
            return False
    return True


# ---------------------------------------------------------------- printed sheets

def printed_sheet(output):
    """(numbers by name of region, those of taken, of unclaimed, of spoilt, that of events) of an accepted input, or None."""
    if refusal(output) != 0 or output[-1:] != b'\n':
        return None
    try:
        lines = [line.split(b'\t') for line in output.split(b'\n')[:-1]]
        rows = [(fields[0], [int(field) for field in fields[1:]]) for fields in lines]
    except ValueError:
        return None
    if [name for name, _ in rows[-4:]] != [b'taken', b'unclaimed', b'spoilt', b'events']:
        return None
    return dict(rows[:-4]), rows[-4][1], rows[-3][1], rows[-2][1], rows[-1][1]


def unclaimed_fit(table_gates, regions, taken, unclaimed):
    """Whether the unclaimed of each list and over all fit the other numbers: what they leave of the taken are the members of some region.

    Those are the members of the regions without a parent: at least as many as one gate has, whose quadrants share none, and at most as many
    as all of them have. Where only one gate has no parent, and where there is no region, that leaves one number.
    """
    outermost = [[sum(column) for column in zip(*[regions[name][:-2] for name in gate.regions()])] for gate in table_gates if gate.parent == b'-']
    for at, (whole, rest) in enumerate(zip(taken, unclaimed)):
        members = [column[at] for column in outermost]
        if not max(members, default=0) <= whole - rest <= min(whole, sum(members)):
            return False
    return True


def sheet_adds_up(data, output):
    """Whether what is printed for an accepted input fits its lists and adds up by itself."""
    printed = printed_sheet(output)
    if printed is None:
        return False
    regions, taken, unclaimed, spoilt, events = printed
    lists = gates.part_lists(data)[1]
    if any(len(row) != len(lists) + 1 or sum(row[:-1]) != row[-1] for row in [taken, unclaimed, spoilt] + [row[:-2] for row in regions.values()]):
        return False
    table_gates = [gates.read_gate(fields) for fields in table_fields(data)]
    for gate in table_gates:
        if any(name not in regions for name in gate.regions()) or gate.parent not in (b'-', *regions):
            return False
        whole = taken if gate.parent == b'-' else regions[gate.parent][:-2]
        for row in [regions[name] for name in gate.regions()]:
            if row[-2:] != [row[-3], whole[-1]]:
                return False
        if gate.kind == b'quad' and [sum(column) for column in zip(*[regions[name][:-2] for name in gate.regions()])] != whole:
            return False
    if not unclaimed_fit(table_gates, regions, taken, unclaimed):
        return False
    columns = [one + other for one, other in zip(taken, spoilt)]
    held = [len(lines) for _, _, _, lines in lists]
    return columns == held + [sum(held)] and events == [sum(held)]


def joined_lists(data):
    """An input of `gatecount` with the events of all lists in one, below the column line of the first."""
    table, lists = gates.part_lists(data)
    opening = [b'events\n' + columns for _, _, columns, _ in lists[:1]]
    return table + b''.join(opening + [line for _, _, _, lines in lists for line in lines])


def printed_sums(output):
    """(sums by name of region, of taken, of unclaimed, of spoilt) of an accepted input, or None."""
    printed = printed_sheet(output)
    if printed is None or any(len(row) < 3 for row in printed[0].values()) or not all(printed[1:4]):
        return None
    regions, taken, unclaimed, spoilt, _ = printed
    return {name: row[-3] for name, row in regions.items()}, taken[-1], unclaimed[-1], spoilt[-1]


# ---------------------------------------------------------------- the comparison

class Comparison:
    def __init__(self, options):
        self.options = options
        self.passed = self.failed = 0
        self.refusals = collections.Counter()
        self.kinds = collections.Counter()
        self.labels = collections.Counter()
        self.questions = collections.Counter()
        self.orders = self.sums = 0
        self.sheets = collections.Counter()
        self.lists = collections.Counter()
        self.judged = collections.Counter()
        self.redrawn = collections.Counter()

    def note(self, good, what, given=b'', expected=b'', actual=b''):
        if good:
            self.passed += 1
            return
        self.failed += 1
        if self.failed <= SHOWN:
            print('DIFFERS %s\n  reference %s\n  program   %s' % (what, short(expected), short(actual)))
        if self.options.keep and self.failed <= KEPT:
            os.makedirs(self.options.keep, exist_ok=True)
            stem = os.path.join(self.options.keep, re.sub('[^A-Za-z0-9]+', '-', what).strip('-'))
            for ending, content in (('input', given), ('expected', expected), ('actual', actual)):
                with open('%s.%s' % (stem, ending), 'wb') as file:
                    file.write(content if content is not None else b'(no answer)\n')

    def reference(self, function, given):
        """What the reference program answers; a fault may be planted in place of the function itself, so that one is called by its name."""
        with plants.planted(self.options.plant):
            return getattr(gates, function.__name__, function)(given)

    def ways(self, what, sizes):
        """How some outlines of an input are drawn anew; for most inputs none is."""
        return redraw.some_ways(self.options.seed, what, sizes)

    def redrawn_input(self, what, program, reference, data, first):
        """The same print whatever vertex an outline begins at and whichever way round it is walked, by the real program alone; then by the reference."""
        chosen = self.ways(what, redraw.poly_lines(gates.part_input(data)[0]))
        if not chosen:
            return
        data = redraw.redrawn_table(data, chosen)
        actual = run(program, data)
        self.redrawn['accepted' if refusal(first) == 0 else 'refused'] += 1
        self.note(actual is not None and actual == first, 'redrawing of ' + what, data, first, actual)
        expected = self.reference(reference, data)
        self.note(actual == expected, what + ', redrawn', data, expected, actual)

    def one_input(self, number):
        case = generate.case(self.options.seed, number)
        expected = self.reference(gates.gatecount, case.data)
        actual = run(self.options.gatecount, case.data)
        self.labels[case.label] += 1
        self.refusals[refusal(expected)] += 1
        self.note(actual == expected, 'input %d (%s)' % (number, case.label), case.data, expected, actual)
        self.redrawn_input('input %d' % number, self.options.gatecount, gates.gatecount, case.data, actual)
        if refusal(expected) != 0:
            return
        for fields in table_fields(case.data):
            self.kinds[fields[0] + b' with decimals' * bool(gates.read_gate(fields).decimals)] += 1
        good = quadrants_add_up(case.data, actual)
        if good is not None:
            self.sums += 1
            self.note(good, 'quadrant sums of input %d' % number, case.data, expected, actual)
        if case.lines:
            self.other_orders(number, case, actual)

    def other_orders(self, number, case, first):
        """The same counts by name whatever the order of the lines, by the real program alone."""
        rng = random.Random('%s order %d' % (self.options.seed, number))
        for turn, table in enumerate(generate.orders(rng, case.lines, self.options.orders)):
            data = table + case.list
            actual = run(self.options.gatecount, data)
            self.orders += 1
            counts = printed_counts(actual)
            self.note(counts is not None and counts == printed_counts(first),
                      'order %d of input %d' % (turn, number), data, first, actual)
            expected = self.reference(gates.gatecount, data)
            self.note(actual == expected, 'input %d in order %d' % (number, turn), data, expected, actual)
            good = quadrants_add_up(data, actual)
            if good is not None:
                self.sums += 1
                self.note(good, 'quadrant sums of input %d in order %d' % (number, turn),
                          data, expected, actual)

    def one_sheet(self, number):
        case = generate.sheet(self.options.seed, number)
        expected = self.reference(gates.gatesheet, case.data)
        actual = run(self.options.gatesheet, case.data)
        what = 'sheet %d (%s)' % (number, case.label)
        self.labels[case.label] += 1
        self.refusals[refusal(expected)] += 1
        self.note(actual == expected, what, case.data, expected, actual)
        self.redrawn_input('sheet %d' % number, self.options.gatesheet, gates.gatesheet, case.data, actual)
        if refusal(expected) != 0:
            return
        lists = len(gates.part_lists(case.data)[1])
        self.lists[next(most for most in (0, 1, 2, 4, 8, 64, 256, 1024, 10000) if lists <= most)] += 1
        self.whole_sheet(what, case.data, expected, actual)
        if case.lines:
            self.other_sheets(number, case, actual)

    def whole_sheet(self, what, data, expected, actual):
        """What is printed adds up, and its sums are one count over the joined lists, and those of a sheet with the joined lists as its only one."""
        self.sheets['added up'] += 1
        self.note(sheet_adds_up(data, actual), 'sums of ' + what, data, expected, actual)
        joined = joined_lists(data)
        program = self.options.joined or self.options.gatecount
        counted = run(program, joined) if program else self.reference(gates.gatecount, joined)
        sums = printed_sums(actual)
        self.sheets['joined'] += 1
        # gatecount prints no unclaimed.
        self.note(sums is not None and sums[:2] + sums[3:] == printed_counts(counted), 'joined lists of ' + what, joined, counted, actual)
        if len(gates.part_lists(data)[1]) > 1:
            alone = run(self.options.gatesheet, joined)
            self.sheets['joined on a sheet'] += 1
            self.note(sums is not None and sums == printed_sums(alone), 'joined lists on a sheet of ' + what, joined, actual, alone)

    def other_sheets(self, number, case, first):
        """The same numbers by name whatever the order of the gate lines, by the real program alone."""
        rng = random.Random('%s sheet order %d' % (self.options.seed, number))
        for turn, table in enumerate(generate.orders(rng, case.lines, self.options.orders)):
            data = table + case.list
            actual = run(self.options.gatesheet, data)
            self.sheets['other orders'] += 1
            printed = printed_sheet(actual)
            self.note(printed is not None and printed == printed_sheet(first), 'order %d of sheet %d' % (turn, number), data, first, actual)
            expected = self.reference(gates.gatesheet, data)
            what = 'sheet %d in order %d' % (number, turn)
            self.note(actual == expected, what, data, expected, actual)
            self.whole_sheet(what, data, expected, actual)

    def some_questions(self, asked, number=0):
        """Questions with their labels, the first of which has this number; some of them are asked once more with their outlines drawn anew."""
        asked = [(label, question, self.ways('question %d' % at, question_outlines(question)))
                 for at, (label, question) in enumerate(asked, number) if question[0] in self.options.questions]
        anew = [(label, question, chosen, redrawn_question(question, chosen)) for label, question, chosen in asked if chosen]
        lines = [question_line(question) for _, question, _ in asked] + [question_line(other) for *_, other in anew]
        answers = ask(self.options.plans, lines)
        firsts = []
        for (label, question, chosen), line, actual in zip(asked, lines, answers):
            expected = self.reference(reference_answer, question)
            self.questions[question[0], int(expected.split(b' ')[0])] += 1
            self.note(actual == expected, 'question %s (%s)' % (question[0], label), line + b'\n', expected, actual)
            if chosen:
                firsts.append(actual)
        for (label, question, chosen, other), first, line, actual in zip(anew, firsts, lines[len(asked):], answers[len(asked):]):
            what = 'question %s (%s)' % (question[0], label)
            self.redrawn[question[0]] += 1
            self.note(answered_alike(question, chosen, first, actual), 'redrawing of ' + what, line + b'\n', first, actual)
            expected = self.reference(reference_answer, other)
            self.note(actual == expected, what + ', redrawn', line + b'\n', expected, actual)

    def judged_orders(self, numbers):
        """Members and outlines by name, the same by the real program's plan for each order of the lines, and for outlines drawn anew."""
        asked = []
        for number in numbers:
            lines, events = generate.judged(self.options.seed, number)
            rng = random.Random('%s judged order %d' % (self.options.seed, number))
            first = generate.join(lines)
            for turn, table in enumerate([first] + generate.orders(rng, lines, self.options.orders)):
                asked.append(('order %d of judged table %d' % (turn, number), first, table, events))
            chosen = self.ways('judged table %d' % number, redraw.poly_lines(first))
            if chosen:
                asked.append(('redrawing of judged table %d' % number, first, redraw.redrawn_table(first, chosen), events))
                self.redrawn['judged tables'] += 1
        compiled = ask(self.options.plans, [question_line(('compile', gates.PLAN_WORDS, table))
                                            for _, _, table, _ in asked])
        expected, questions = [], []
        for (what, first, table, events), answer in zip(asked, compiled):
            words = compiled_words(answer)
            self.judged['redrawings' if what.startswith('redrawing') else 'orders'] += 1
            self.note(words is not None, 'compiling of ' + what, table, b'(accepted)', answer)
            names = self.reference(lambda table: gates.compile_table(table, gates.PLAN_WORDS)[3], table)
            for event in events if words is not None else []:
                wanted = self.reference(lambda event: judged_by_lines(first, names, event), event)
                expected.append((what, first, event, wanted))
                questions.append(question_line(('judge', words, event)))
                self.judged['events'] += 1
                self.judged['events on an outline'] += b'1' in wanted.split(b' ')[3]
        answers = ask(self.options.plans, questions)
        as_it_stands = {}       # the answers by the first order, which a redrawn table has too
        for (what, first, event, wanted), line, actual in zip(expected, questions, answers):
            self.note(actual == wanted, 'judging by ' + what, line + b'\n', wanted, actual)
            if what.startswith('order 0 '):
                as_it_stands[first, tuple(event)] = actual
            elif what.startswith('redrawing'):
                before = as_it_stands.get((first, tuple(event)))
                self.note(actual is not None and actual == before, 'judging by the plan before the ' + what, line + b'\n', before, actual)

    def each_edge(self):
        """An event on each edge of a polygon of each number of vertices."""
        edges = generate.each_edge(self.options.seed)
        for number in itertools.count(0, BATCH):
            some = list(itertools.islice(edges, BATCH))
            if not some:
                return
            self.some_questions(some, number)

    def tell_redrawn(self):
        print('drawn anew: ' + (spread(self.redrawn) or 'none'))
        self.redrawn.clear()

    def tell_inputs(self, what):
        print('%s: %s' % (what, spread(self.labels)))
        print('refusals: ' + spread({'accepted' if number == 0 else number: times
                                     for number, times in sorted(self.refusals.items())}, False))
        self.labels.clear()
        self.refusals.clear()

    def run(self):
        options = self.options
        if options.edges:
            self.each_edge()
            return self.tell_redrawn()
        if options.gatecount:
            for number in range(options.inputs):
                self.one_input(number)
            self.tell_inputs('standard inputs')
            print('kinds in accepted tables: ' + spread({kind.decode(): times
                                                         for kind, times in self.kinds.items()}))
            print('other orders run: %d; quadrant sums: %d' % (self.orders, self.sums))
            self.tell_redrawn()
        if options.gatesheet:
            for number in range(options.inputs):
                self.one_sheet(number)
            self.tell_inputs('standard inputs with lists')
            print('accepted, by their lists: ' + spread({'%s %d:' % ('up to' if most else 'just', most): times
                                                         for most, times in sorted(self.lists.items())}, False))
            print('sheets: ' + spread(self.sheets))
            self.tell_redrawn()
        if options.plans:
            for start in range(0, options.inputs, BATCH):
                self.some_questions([generate.request(options.seed, number) for number in range(start, min(start + BATCH, options.inputs))], start)
            for verb in ('check', 'judge', 'count', 'compile'):
                print('%s: %s' % (verb, spread({number: times for (other, number), times
                                                in sorted(self.questions.items()) if other == verb}, False)))
            if {'compile', 'judge'} <= set(options.questions):
                tables = -(-options.inputs // JUDGED)
                for start in range(0, tables, BATCH // 10):
                    self.judged_orders(range(start, min(start + BATCH // 10, tables)))
                print('judged by name: tables %d, %s' % (tables, spread(self.judged, False)))
            self.tell_redrawn()


def spread(tally, by_number=True):
    items = sorted(tally.items(), key=lambda item: -item[1]) if by_number else tally.items()
    return ', '.join('%s %d' % item for item in items)


def short(output):
    if output is None:
        return '(no answer)'
    return repr(output if len(output) <= 300 else output[:300] + b'..')


# ---------------------------------------------------------------- planted faults

def mutations(options):
    """Asks the real program once and lays each planted fault beside its answers.

    Those that redrawing alone must show are planted once more without the program: an answer of the faulty reference to an input with its
    outlines drawn anew must then not be alike the one to the input as it stands.
    """
    seen_failed = 0
    inputs, sheets, questions = [], [], []      # of each: what it is called, what is asked, what the program answers
    redrawings = []         # what it is called, whether two answers are alike, the reference, what is asked, and that with its outlines drawn anew

    def standard_inputs(program, reference, what, made):
        for number in range(options.inputs):
            name, data = '%s %d' % (what, number), made(options.seed, number).data
            yield name, data, run(program, data)
            chosen = redraw.some_ways(options.seed, name, redraw.poly_lines(gates.part_input(data)[0]))
            if chosen:
                anew = redraw.redrawn_table(data, chosen)
                redrawings.append((name, lambda first, other: first == other, reference, data, anew))
                yield name + ' redrawn', anew, run(program, anew)

    if options.gatecount:
        inputs = list(standard_inputs(options.gatecount, lambda data: gates.gatecount(data), 'input', generate.case))
    if options.gatesheet:
        sheets = list(standard_inputs(options.gatesheet, lambda data: gates.gatesheet(data), 'sheet', generate.sheet))
    if options.plans:
        asked = []
        for number in range(options.inputs):
            name, question = 'question %d' % number, generate.request(options.seed, number)[1]
            if question[0] not in options.questions:
                continue
            asked.append((name, question))
            chosen = redraw.some_ways(options.seed, name, question_outlines(question))
            if chosen:
                anew = redrawn_question(question, chosen)
                alike = functools.partial(answered_alike, question, chosen)
                redrawings.append((name, alike, reference_answer, question, anew))
                asked.append((name + ' redrawn', anew))
        for start in range(0, len(asked), BATCH):
            some = asked[start:start + BATCH]
            answers = ask(options.plans, [question_line(question) for _, question in some])
            questions += [(name, question, answer) for (name, question), answer in zip(some, answers)]

    def first_of(names, limit):
        return list(itertools.islice(names, limit))

    def differing(limit):
        """The first few differences, as words."""
        return [name for answered, reference in ((inputs, gates.gatecount), (sheets, gates.gatesheet), (questions, reference_answer))
                for name in first_of((name for name, given, actual in answered if reference(given) != actual), limit)]

    def moved(limit):
        """The first few answers that redrawing changes, as words."""
        return first_of((name for name, alike, reference, given, anew in redrawings if not alike(reference(given), reference(anew))), limit)

    plain = differing(3) + moved(3)
    if plain:
        print('differs without any fault planted: ' + ', '.join(plain))
        seen_failed += 1
    passed = 0
    for name in [each for each in plants.PLANTS if each.startswith(options.mutations)]:
        with plants.planted(name):
            found = differing(2)
            alone = moved(2) if name in plants.BY_REDRAWING else None
        told = 'seen at ' + ', '.join(found) if found else 'NOT SEEN'
        if alone is not None:
            told += '; by redrawing alone at ' + ', '.join(alone) if alone else '; NOT SEEN by redrawing alone'
        print('%-32s %s' % (name, told))
        if found and alone != []:
            passed += 1
        else:
            seen_failed += 1
    return passed, seen_failed


def main():
    parser = argparse.ArgumentParser(description='Compare a gate counter with the reference.')
    parser.add_argument('--gatecount', type=command, metavar='PATH')
    parser.add_argument('--gatesheet', type=command, metavar='PATH')
    parser.add_argument('--joined', type=command, metavar='PATH', help='the gatecount that counts the joined lists of --gatesheet, and nothing else')
    parser.add_argument('--plans', type=command, metavar='PATH')
    parser.add_argument('--questions', type=lambda words: words.split(','), metavar='WORDS',
                        default=['check', 'judge', 'count', 'compile'], help='which of check,judge,count,compile are asked')
    parser.add_argument('--seed', default='1')
    parser.add_argument('--inputs', type=int, default=3000, metavar='N')
    parser.add_argument('--orders', type=int, default=3, metavar='K', help='other orders of a table at most')
    parser.add_argument('--keep', metavar='FOLDER', help='where the first differing inputs go')
    parser.add_argument('--plant', choices=sorted(plants.PLANTS), metavar='FAULT',
                        help='one of: ' + ', '.join(sorted(plants.PLANTS)))
    parser.add_argument('--mutations', nargs='?', const='', metavar='BEGINNING', help='the faults whose names begin so, or all')
    parser.add_argument('--edges', action='store_true', help='asks --plans of an event on each edge of polygons of each size, instead of N inputs')
    options = parser.parse_args()
    if not options.gatecount and not options.gatesheet and not options.plans:
        parser.error('none of --gatecount, --gatesheet and --plans is given')
    if options.edges and not options.plans:
        parser.error('--edges asks the program at --plans')

    print('seed %s, %s' % (options.seed, 'each edge' if options.edges else '%d inputs' % options.inputs))
    if options.mutations is not None:
        passed, failed = mutations(options)
    else:
        comparison = Comparison(options)
        comparison.run()
        passed, failed = comparison.passed, comparison.failed
    if not passed + failed:
        print('nothing was compared')
    print('%d passed, %d failed' % (passed, failed))
    sys.exit(1 if failed or not passed else 0)


if __name__ == '__main__':
    main()
