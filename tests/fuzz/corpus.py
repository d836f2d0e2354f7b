#!/usr/bin/env python3
"""The inputs of the fuzzer: where they begin, and what the reference says of those it found.

    tests/fuzz/corpus.py seeds TABLES PLANS
        writes the seeds: the examples, the inputs of the documents, inputs of several lists and of wrong column lines, and their plans and questions
    tests/fuzz/corpus.py compare TABLES PLANS [--gatecount PATH] [--gatesheet PATH] [--plans PATH] [--keep FOLDER]
        each file of TABLES through gatecount and through gatesheet, and its table as a question `compile`; each file of
        PLANS as the questions `check`, `judge` and `count` (see tests/compare.py): all answers must be the reference's

A file of TABLES is an input of gatecount and gatesheet. A file of PLANS is words of 32 bits, lowest byte first: in the first the number
of plan words (its low 16 bits), then these, then a list of values.
"""

import argparse
import glob
import hashlib
import importlib.machinery
import importlib.util
import os
import struct
import sys

ROOT = os.path.join(os.path.dirname(os.path.abspath(__file__)), '..', '..')
sys.path[:0] = [os.path.join(ROOT, 'tests'), os.path.join(ROOT, 'tests', 'reference')]

import compare
import gates

MOST = 5000         # numbers of a list in a question
ROOM = 4096         # words of the slice in a question `compile`
LISTS = (0, 1, 2, 4, 8, 64, 256, 1024, 10000)

# An ellipse with decimals whose rule passes 64 bits; events on its rim and beside it.
DECIMAL = (b'dims\tA\tB\nellip\tE\t-\tA\tB\t0\t0\t1600800.1\t800200\t1300000\t2250\nevents\nA\tB\n'
           b'60015\t30000\n60016\t30000\n60014\t30000\n0\t-45000\n0\t-45001\n65535\t-65536\n')

# An ellipsoid whose rule passes 64 bits; events on its rim and beside it.
ELLIPSOID = (b'dims\tA\tB\tC\nellip3\tE\t-\tA\tB\tC\t0\t0\t0\t4000000\t2000000\t-1400000\t3250000\t650000\t2510000\t900\nevents\nA\tB\tC\n'
             b'20000\t40000\t33000\n20000\t40000\t33001\n20000\t40000\t32999\n60000\t30000\t-21000\n60001\t30000\t-21000\n'
             b'-40000\t-5000\t1000\n0\t0\t-33000\n0\t0\t-33001\n65535\t-65536\t65535\n')

# A parent further down, quadrants with a parent, one of them a parent, and regions with the names of other lines.
CRUISE = (b'dims\tA\tB\nrect\tevents\ttaken\tB\t0\t9\nquad\tQ\tevents\t1\tB\t1\t5\tLow\t4\tHigh\t5\nrect\tR\tLow\tA\t10\t*\n'
          b'rect\ttaken\t-\tA\t0\t99\nnot\tN\t-\ttaken\n')
SOME = b'1\t2\n30\t4\n98\t5\n99\t0\n-1\t7\n20\t70000\n'
OTHERS = b'11\t3\n12\t8\n70000\t1\n99999999999\t1\n'

# A table with 64 regions.
BROAD = b'dims\tA\n' + b''.join([b'rect\t%c%c\t-\tA\t*\t*\n' % (65 + i // 8, 65 + i % 8) for i in range(64)])

# 64 regions that hold one value each, from 0 to 63; events in the last alone, in another, in none, spoilt ones.
NARROW = b'dims\tA\n' + b''.join([b'rect\tR%d\t-\tA\t%d\t%d\n' % (i, i, i + 1) for i in range(64)])
CLAIMED = b'63\n64\n63\n-1\n70000\n0\n'


# ---------------------------------------------------------------- seeds

def users():
    """tests/users, which reads the fenced blocks of the documents."""
    here = os.getcwd()
    loader = importlib.machinery.SourceFileLoader('users', os.path.join(ROOT, 'tests', 'users'))
    module = importlib.util.module_from_spec(importlib.util.spec_from_loader('users', loader))
    loader.exec_module(module)
    os.chdir(here)
    return module


def packed(plan, values):
    return struct.pack('<%di' % (1 + len(plan) + len(values)), len(plan), *plan, *values)


def store(folder, data):
    with open(os.path.join(folder, hashlib.sha1(data).hexdigest()), 'wb') as file:
        file.write(data)


def opened(table):
    """The two lines before the events of a list: `events` and the names of the head."""
    return b'events\n' + table.split(b'\n')[0].split(b'\t', 1)[1] + b'\n'


def sheets():
    """Inputs of no list, one, two, three and many; empty ones; bad lines in one or in two; ends without LF; events in one of 64 regions or in none."""
    yield CRUISE
    head, one, cruise = b'dims\tA\n', opened(NARROW), opened(CRUISE)
    yield NARROW + one + CLAIMED + one + one + b'63\n62\n'
    yield head + one + CLAIMED + one + b'70000\n70001\n' + one + b'1\n'
    for lists in ([SOME], [b''], [SOME, OTHERS], [b'', b''], [OTHERS, SOME, OTHERS[:5]], [b'', SOME, b''], [SOME, b'', OTHERS], [SOME] * 40,
                  [OTHERS[:5] * (i % 7) + SOME[:4] * (i % 3) for i in range(300)],
                  [SOME, OTHERS + b'1\n' + SOME], [b'', SOME + b'1\t2\t3\n', b'x\n'], [SOME + b'1\t-0\n', OTHERS], [SOME, OTHERS, b'Events\n'],
                  [SOME, b'events \n'], [SOME, b'events\t\n'], [SOME, OTHERS + b'1\t2'], [SOME, b'\n']):
        yield CRUISE + b''.join([cruise + lines for lines in lists])
    for text in (b'events', cruise + b'events', cruise + SOME + b'events', cruise + SOME + cruise + OTHERS + b'events', b'events\r\n'):
        yield CRUISE + text
    yield b'events\nevents\n'
    # As many lists as there can be, with no region and with 64, and one more; one after the other a list with one event.
    for table, rest in ((head, one), (BROAD, one), (BROAD, one + b'5\n'), (BROAD, one + one + b'70000\n')):
        times = (gates.INPUT_BYTES - len(table)) // len(rest)
        yield table + rest * times
        yield table + rest * (times + 1)


def column_lines():
    """Wrong column lines of one list and of the last of three, above good events and bad ones; without LF; a dimension that is called `events`."""
    good = opened(CRUISE)
    for names in (b'B\tA', b'A\tC', b'A', b'B', b'A\tB\tC', b'A\tB\t', b'\tA\tB', b'A\tB\r', b'', b'events', b'1\t2', b'A B', b'a\tB', b'A\tBB', b'AA\tB'):
        for text in (b'events\n' + names, b'events\n' + names + b'\n' + SOME, good + SOME + good + b'x\n' + b'events\n' + names + b'\n',
                     b'events\n' + names + b'\nx\n' + good, good + SOME + b'events\n' + names):
            yield CRUISE + text
    for text in (b'events\n', good[:-1], good + good[:-1], good + b'events\n', good + SOME + good + OTHERS + b'events\n', b'events\n' + good, good + good[7:]):
        yield CRUISE + text
    for times in range(1, 7):
        for text in (b'events\n' * times, b'events\n' * times + b'5\n', b'events\n' * times + b'A\n5\n', b'events\n' * (times - 1) + b'events'):
            yield b'dims\tevents\n' + text
            yield b'dims\tA\n' + text
    # Refused before their column lines, and the most lists with the last one wrong.
    yield b'dims\tA\tA\nevents\nA\n'
    yield b'dims\tA\nrect\tR\tNone\tA\t0\t9\nevents\nB\n'
    yield b'dims\tA\n' + b'events\nA\n' * 7280 + b'events\nB\n'


def seeds(options):
    inputs, plans = [], []
    for path in sorted(glob.glob(os.path.join(ROOT, 'examples', '*.txt'))):
        with open(path, 'rb') as file:
            inputs.append(file.read())
    for document in ('REFUSALS', 'FORMAT', 'SHEET'):
        for _, _, words, text in users().blocks(os.path.join(ROOT, 'docs', document + '.md')):
            if words[:1] in (['input'], ['sheet']):
                inputs.append(text)
            elif words[:1] == ['question'] and not text.startswith(b'compile'):
                numbers = [int(field) for field in text.split()[1:]]
                plan = numbers[1:1 + numbers[0]]
                plans.append((plan, numbers[2 + numbers[0]:]))
    # The longest input, and one byte more.
    events = b'dims\tA\nevents\nA\n' + b'5\n' * 32760
    inputs += [events, events[:-1] + b'5\n', b'x' * 32767 + b'\n', DECIMAL, ELLIPSOID, *sheets(), *column_lines()]
    for data in inputs:
        table, lines, _, _ = gates.part_input(data)
        number, _, words, _ = gates.compile_table(table, ROOM)
        if number == 0:
            events = [gates.event_values(line, words[0]) for line in lines[1:21]]
            plans.append((words, [value for event in events if event for value in event if -2 ** 31 <= value < 2 ** 31]))
    for folder in (options.tables, options.plans_folder):
        os.makedirs(folder, exist_ok=True)
    for data in inputs:
        store(options.tables, data)
    for plan, values in plans:
        store(options.plans_folder, packed(plan, values))


# ---------------------------------------------------------------- the comparison

def contents(folder):
    for name in sorted(os.listdir(folder)):
        with open(os.path.join(folder, name), 'rb') as file:
            yield name, file.read()


def plan_questions(data):
    words = struct.unpack('<%di' % (len(data) // 4), data[:len(data) // 4 * 4])
    if not words:
        return
    rest = list(words[1:])
    length = min(words[0] & 0xffff, len(rest))
    plan, values = rest[:length], rest[length:]
    if max(len(plan), len(values)) > MOST:
        return
    yield 'check', plan
    yield 'count', plan, values
    yield 'judge', plan, values
    if gates.check_plan(plan)[0] == 0:
        yield 'judge', plan, values[:plan[0]]


class Comparison(compare.Comparison):
    """Files in the place of generated inputs."""

    def questions_of(self, asked):
        for start in range(0, len(asked), compare.BATCH):
            some = asked[start:start + compare.BATCH]
            lines = [compare.question_line(question) for _, question in some]
            for (name, question), line, actual in zip(some, lines, compare.ask(self.options.plans, lines)):
                expected = compare.reference_answer(question)
                self.questions[question[0], int(expected.split(b' ')[0])] += 1
                self.note(actual == expected, 'question %s of %s' % (question[0], name), line + b'\n', expected, actual)

    def sheet_of(self, name, data):
        expected, actual = gates.gatesheet(data), compare.run(self.options.gatesheet, data)
        self.note(actual == expected, 'sheet of %s' % name, data, expected, actual)
        if compare.refusal(expected) == 0:
            lists = len(gates.part_lists(data)[1])
            self.lists[next(most for most in LISTS if lists <= most)] += 1
            self.note(compare.sheet_adds_up(data, actual), 'sums of the sheet of %s' % name, data, expected, actual)

    def run(self):
        asked, skipped = [], 0
        for name, data in contents(self.options.tables):
            expected, actual = gates.gatecount(data), compare.run(self.options.gatecount, data)
            self.refusals[compare.refusal(expected)] += 1
            self.note(actual == expected, 'input %s' % name, data, expected, actual)
            if compare.refusal(expected) == 0:
                for fields in compare.table_fields(data):
                    self.kinds[fields[0]] += 1
                good = compare.quadrants_add_up(data, actual)
                if good is not None:
                    self.sums += 1
                    self.note(good, 'quadrant sums of %s' % name, data, expected, actual)
            self.sheet_of(name, data)
            table = gates.part_input(data)[0]
            if len(table) < 49000:
                asked.append((name, ('compile', ROOM, table)))
        for name, data in contents(self.options.plans_folder):
            questions = list(plan_questions(data))
            skipped += not questions
            asked += [(name, question) for question in questions]
        self.questions_of(asked)
        print('inputs of gatecount: %s' % compare.spread(
            {'accepted' if number == 0 else number: times for number, times in sorted(self.refusals.items())}, False))
        print('kinds in accepted tables: ' + compare.spread({kind.decode(): times for kind, times in self.kinds.items()}))
        print('quadrant sums: %d' % self.sums)
        print('sheets accepted, by the most lists: ' + compare.spread(dict(sorted(self.lists.items())), False))
        for verb in ('compile', 'check', 'judge', 'count'):
            print('%s: %s' % (verb, compare.spread({number: times for (other, number), times
                                                    in sorted(self.questions.items()) if other == verb}, False)))
        if skipped:
            print('plans too short or too long for a question: %d' % skipped)


def main():
    parser = argparse.ArgumentParser(description='Seeds of the fuzzer, and its inputs beside the reference.')
    parser.add_argument('what', choices=('seeds', 'compare'))
    parser.add_argument('tables', metavar='TABLES')
    parser.add_argument('plans_folder', metavar='PLANS')
    parser.add_argument('--gatecount', default='target/bin/gatecount', metavar='PATH')
    parser.add_argument('--gatesheet', default='target/bin/gatesheet', metavar='PATH')
    parser.add_argument('--plans', default='target/c/plans', metavar='PATH')
    parser.add_argument('--keep', metavar='FOLDER', help='where the first differing inputs go')
    options = parser.parse_args()
    if options.what == 'seeds':
        seeds(options)
        return
    try:
        options.gatecount, options.gatesheet, options.plans = map(compare.command, (options.gatecount, options.gatesheet, options.plans))
    except argparse.ArgumentTypeError as missing:
        parser.error(str(missing))
    comparison = Comparison(options)
    comparison.run()
    print('%d passed, %d failed' % (comparison.passed, comparison.failed))
    sys.exit(1 if comparison.failed else 0)


if __name__ == '__main__':
    main()
