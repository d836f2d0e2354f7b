#!/usr/bin/env python3
"""The reference dressed up as the executables that tests/compare.py asks.

    standin.py gatecount            standard input to standard output
    standin.py gatesheet            likewise
    standin.py plans                one answer line per question line (see tests/compare.py)
    standin.py gatesheet FAULT      any of them with a fault of plants.py in it

It serves to test the comparison itself: without a planted fault nothing may differ.
"""

import os
import sys

sys.path.insert(0, os.path.dirname(os.path.abspath(__file__)))

import gates

FILL = 2100000000


def numbers(values):
    return ' '.join(str(value) for value in values)


def answer(line):
    fields = line.decode().split(' ')
    verb, rest = fields[0], fields[1:]
    if verb == 'compile':
        lent = [FILL] * int(rest[0])
        table = b'' if rest[1] == '-' else bytes.fromhex(rest[1])
        number, place, words, names = gates.compile_table(table, len(lent))
        written = words or []
        lent[:len(written)] = written
        beyond = sum(1 for word in lent[len(written):] if word != FILL)
        return numbers([number, place, len(written), len(names), beyond] + lent[:len(written)])
    size = int(rest[0])
    words = [int(field) for field in rest[1:1 + size]]
    if verb == 'check':
        return numbers(gates.check_plan(words))
    values = [int(field) for field in rest[2 + size:2 + size + int(rest[1 + size])]]
    if verb == 'judge':
        number, place, bits, outline = gates.judge(words, values)
        return '%d %d %s %s' % (number, place, *[''.join(str(word >> r & 1) for r in range(64))
                                                 for word in (bits, outline)])
    number, place, taken, spoilt, counts, unclaimed = gates.count(words, values)
    return numbers([number, place, taken, spoilt] + counts + [unclaimed])


def main():
    if len(sys.argv) not in (2, 3) or sys.argv[1] not in ('gatecount', 'gatesheet', 'plans'):
        sys.exit('standin.py gatecount | gatesheet | plans [FAULT]')
    if len(sys.argv) == 3:
        import plants       # takes a while, and is not needed otherwise
        for attribute, faulty in plants.PLANTS[sys.argv[2]].items():
            setattr(gates, attribute, faulty)
    data = sys.stdin.buffer.read()
    if sys.argv[1] == 'plans':
        for line in data.splitlines():
            print(answer(line))
    else:
        sys.stdout.buffer.write({'gatecount': gates.gatecount, 'gatesheet': gates.gatesheet}[sys.argv[1]](data))


if __name__ == '__main__':
    main()
