"""What the tests of tests/users share: counting what passed, and running commands."""

import subprocess

PATIENCE = 60       # seconds for one process


class Tests:
    def __init__(self):
        self.passed = self.failed = 0

    def note(self, good, what, expected=None, actual=None):
        if good:
            self.passed += 1
            return
        self.failed += 1
        print('FAILED %s' % what)
        if expected is not None:
            print('  expected %s\n  but had  %s' % (short(expected), short(actual)))

    def same(self, what, expected, actual):
        self.note(expected == actual, what, expected, actual)


def short(value):
    text = repr(value)
    return text if len(text) <= 400 else text[:400] + ' ..'


def run(command, data=b'', **more):
    """(status, standard output, standard error); the status is None where it hangs or can't be started."""
    if 'stdin' not in more:
        more['input'] = data
    more = dict({'stdout': subprocess.PIPE, 'timeout': PATIENCE}, **more)
    try:
        done = subprocess.run(command, stderr=subprocess.PIPE, **more)
    except (subprocess.TimeoutExpired, OSError) as fault:
        return None, b'', str(fault).encode()
    return done.returncode, done.stdout, done.stderr
