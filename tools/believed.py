#!/usr/bin/env python3
"""The definitions that a reader must believe: the files of crates/*/specs, without those in specs/Inner, with their lines.

    tools/believed.py            prints the tables that docs/DEMANDS.md holds
    tools/believed.py --write    puts them there
    tools/believed.py --check    exit status 1 where docs/DEMANDS.md holds something else, or such a file imports from specs/Inner

A line counts that is not blank, no comment, no import and no `pub mod`.
"""
import glob
import os
import re
import sys

ROOT = os.path.join(os.path.dirname(os.path.abspath(__file__)), '..')
BEGIN, END = '<!-- tools/believed.py writes from here -->\n', '<!-- to here -->\n'
DOCUMENT = 'docs/DEMANDS.md'
DEMANDS = 'integers plans counter text decimals gates tables heads tablecheck compiler counttable'.split()
GROUPS = (('Demands 1 to 3', DEMANDS), ("The programs' text", None), ('The rows of the C interface', 'gatec gatejudge gatecompile'.split()))
# The files that a request brought; those that were there before and that it changed stay where they were.
REQUESTS = {
    'a': 'counter/specs/Outlines counter/specs/Positions gates/specs/Outlines tables/specs/Judging tables/specs/Outlines'.split(),
    'b': 'decimals/specs/Decimals counter/specs/DecimalEllipse plans/specs/NewWords tables/specs/Floats'.split(),
    'c': ['counter/specs/Walk'],
    'd': 'plans/specs/Symmetric counter/specs/Ellipsoid'.split(),
    'e': 'tallies/specs/Sums sheet/specs/Sheet'.split(),
    'g': 'tables/specs/Columns heads/specs/Answers'.split(),
    'h': 'redrawn/specs/Redrawing redrawn/specs/Outline redrawn/specs/Plans redrawntables/specs/Lines redrawntables/specs/Claim'.split(),
}


def crates():
    """The crates in the order of crates.txt, where `staticlib` may stand behind a name."""
    with open('crates.txt', encoding='utf-8') as file:
        return [line.split(':')[0].split()[0] for line in file if ':' in line and not line.startswith('#')]


def title(path):
    """The comment that a file opens with, its first sentence or clause."""
    with open(path, encoding='utf-8') as file:
        first = file.readline()
    return re.split(r'(?<=[.:]) | \(0[12]:', first.lstrip('- ').strip())[0].rstrip('.:') if first.startswith('--') else ''


def lines(path):
    with open(path, encoding='utf-8') as file:
        kept = [line.strip() for line in file]
    return sum(1 for line in kept if line and not line.startswith(('--', 'use ', 'pub mod ')))


def names_inner(path):
    """Whether a file imports from specs/Inner of any crate, or passes on what stands there."""
    with open(path, encoding='utf-8') as file:
        return re.search(r'^(?!\s*--).*\.specs\.Inner\b', file.read(), re.M) is not None


def files(crate):
    return [(path, lines(path)) for path in sorted(glob.glob('crates/%s/specs/*.antt' % crate)) if lines(path)]


def table(name, found):
    rows = ['| `%s` | %d | %s |\n' % (path, count, title(path).replace('|', '\\|')) for path, count in found]
    return '\n%s: %d lines.\n\n| file | lines | what it says |\n|---|---|---|\n' % (name, sum(count for _, count in found)) + ''.join(rows)


def tables():
    text = []
    listed = [crate for _, some in GROUPS for crate in some or []]
    brought = {'crates/%s.antt' % name: letter for letter, names in REQUESTS.items() for name in names}
    for name, some in GROUPS:
        text.append(table(name, [each for crate in crates() if crate in (some or []) or some is None and crate not in listed
                                 for each in files(crate) if each[0] not in brought]))
        if some is DEMANDS:
            text.extend(table('Request %s' % letter, [(path, lines(path)) for path in brought if brought[path] == letter]) for letter in REQUESTS)
    return ''.join(text) + '\n'


def main():
    os.chdir(ROOT)
    text = tables()
    if sys.argv[1:] not in ([], ['--write'], ['--check']):
        sys.exit(__doc__)
    if not sys.argv[1:]:
        print(text, end='')
        return
    with open(DOCUMENT, encoding='utf-8') as file:
        before, _, rest = file.read().partition(BEGIN)
    held, _, after = rest.partition(END)
    if sys.argv[1] == '--write':
        with open(DOCUMENT, 'w', encoding='utf-8') as file:
            file.write(before + BEGIN + text + END + after)
        return
    inner = [path for crate in crates() for path, _ in files(crate) if names_inner(path)]
    if inner:
        sys.exit('definitions to believe that rest on inner ones: %s' % ' '.join(inner))
    if held != text:
        sys.exit('%s holds other files or lines than crates/*/specs: run tools/believed.py --write' % DOCUMENT)


main()
