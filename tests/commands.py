"""Tests of the commands in tools/: the programs with an exit status, making them when they are stale, installing them."""

import glob
import os
import shutil
import stat
import tempfile
import time

from harness import run

WORKED = 'examples/worked.txt'
CRUISE = 'examples/cruise.txt'

# Stands for rt in a small repository, in the folder of a crate: notes each call; builds a program that copies its input, where it or the crates' text is not
# that of the last time, and runs it; or builds an archive. It fails where the file `broken` is there.
RT = '''#!/bin/sh
name=$(basename "$PWD")
echo "$name $*" >>../../calls
[ ! -e ../../broken ] || { echo "fn $name::main: no proof"; exit 1; }
mkdir -p out
sum() { cat ../*/src/* "out/$name" 2>/dev/null | cksum; }
case $* in
lib)
    echo "rt: chose --jobs 2 for $name"
    echo '!<arch>' >"out/lib$name.a"
    exit 0
    ;;
run) ;;
*) exit 2 ;;
esac
if [ "$(sum)" = "$(cat "out/$name.stamp" 2>/dev/null)" ]; then
    echo "rt: nothing has changed since the last proved build, by out/$name.stamp, so nothing is checked now" >&2
else
    echo "rt: chose --jobs 2 for $name" >&2
    echo "fn $name::main: proved" >&2
    printf '#!/bin/sh\\ncat\\n' >"out/$name"
    chmod +x "out/$name"
    : >"out/$name.o"
    sum >"out/$name.stamp"
fi
echo "rt: running out/$name; to give it other input, run that file yourself" >&2
"out/$name"
'''


def read(path):
    with open(path, 'rb') as file:
        return file.read()


def write(path, text, executable=False):
    os.makedirs(os.path.dirname(path), exist_ok=True)
    with open(path, 'w', encoding='utf-8') as file:
        file.write(text)
    if executable:
        os.chmod(path, os.stat(path).st_mode | stat.S_IXUSR)


def products(kind):
    """The names, and what follows them, of the lines of one kind in tools/products.txt whose crate is there."""
    with open('tools/products.txt', encoding='utf-8') as file:
        lines = [line.split(None, 2) for line in file if line.startswith(kind + ' ')]
    return [(name, rest.strip()) for _, name, rest in lines if os.path.isdir('crates/' + name)]


# ---------------------------------------------------------------- a command and its exit status

def failures(tests, name, program, data, is_command):
    """What fails of reading and writing is told on standard error, and the exit status is not 0; that of the commands of tools/ is 1."""
    def failed(what, status, told):
        tests.note(told != b'', name + what + ': it is told')
        tests.note(status == 1 or status not in (None, 0) and not is_command, name + what + ': exit status', 1, status)

    status, output, told = run(program, data)
    tests.same(name + 'a good input: exit status, and nothing on standard error', (0, b''), (status, told))
    folder = os.open('.', os.O_RDONLY)
    status, output, told = run(program, stdin=folder)
    os.close(folder)
    failed('a directory as standard input', status, told)
    tests.same(name + 'a directory as standard input: nothing on standard output', b'', output)
    status, output, told = run(['sh', '-c', 'exec "$@" <&-', 'sh'] + program)
    failed('a closed standard input', status, told)
    tests.same(name + 'a closed standard input: nothing on standard output', b'', output)
    status, _, told = run(['sh', '-c', 'exec "$@" >&-', 'sh'] + program, data)
    failed('a closed standard output', status, told)
    reader, writer = os.pipe()
    os.close(reader)
    status, _, told = run(program, data, stdout=writer)
    os.close(writer)
    failed('a pipe that nobody reads', status, told)
    with open('/dev/full', 'wb') as full:
        status, _, told = run(program, data, stdout=full)
    failed('a full device as standard output', status, told)


def arguments(tests, command, folder):
    """The words that a command takes. Each of the programs prints something of any input."""
    data = read(WORKED)
    expected = run([command], data)[:2]
    tests.same(command + ': an input has an output', (0, True), (expected[0], expected[1] != b''))
    status, output, told = run([command])
    tests.same(command + ': a refusal is a report', (0, True, 1, b''), (status, output.startswith(b'refused\t'), output.count(b'\n'), told))
    for words in ([WORKED], ['--', WORKED]):
        tests.same('%s %s' % (command, ' '.join(words)), expected, run([command] + words)[:2])
    for words in (['-'], ['--', '-'], ['--']):
        tests.same('%s %s, from standard input' % (command, ' '.join(words)), expected, run([command] + words, data)[:2])
    odd = os.path.join(folder, ' a -name')
    shutil.copy(WORKED, odd)
    tests.same(command + ': a file with spaces in its name', expected, run([command, odd])[:2])
    for words in ([odd + 'x'], [folder]):
        status, output, told = run([command] + words)
        tests.same('%s of a file that cannot be read' % command, (1, b'', True), (status, output, told != b''))
    for words in (['--other'], ['-x'], [WORKED, WORKED], [WORKED, '']):
        status, output, told = run([command] + words, data)
        tests.same('%s %s: bad usage' % (command, ' '.join(words)), (2, b'', True), (status, output, told != b''))
    for words in (['--help'], ['-h'], [WORKED, '--help']):
        status, output, told = run([command] + words)
        tests.same('%s %s' % (command, ' '.join(words)), (0, True, b''), (status, output.startswith(b'usage: '), told))
    with open('VERSION', encoding='utf-8') as file:
        version = '%s %s' % (os.path.basename(command), file.read().strip())
    status, output, told = run([command, '--version'])
    tests.same(command + ' --version', (0, True, 1), (status, output.startswith(version.encode()), output.count(b'\n')))


def each_has_a_command(tests):
    """tools/products.txt has all programs and archives; each program, and nothing else, has a file in tools/ that runs it."""
    with open('tools/products.txt', encoding='utf-8') as file:
        listed = sorted(line.split()[1] for line in file if line.startswith('program '))
    tests.same('tools/products.txt: the programs', sorted(path.split('/')[1] for path in glob.glob('crates/*/src/main.rt')),
               sorted(name for name, _ in products('program')))
    tests.same('tools/products.txt: the archives', sorted({path.split('/')[1] for path in glob.glob('crates/*/src/*.rt') if b'pub extern "C" fn' in read(path)}),
               sorted(name for name, _ in products('archive')))
    texts = {name: read('tools/' + name) for name in os.listdir('tools') if os.path.isfile('tools/' + name)}
    running = sorted(name for name, text in texts.items() if b'/run-program"' in text)
    tests.same('the files in tools/ that run a program', listed, running)
    tests.same('what they are but for the name', 1, len({texts[name].replace(name.encode(), b'NAME') for name in running}))
    tests.note(all(os.access('tools/' + name, os.X_OK) for name in running), 'the files in tools/ that run a program can be executed')


# ---------------------------------------------------------------- making what is stale

def building(tests):
    """tools/gatecount makes the program where it is missing or older than its crates, and only then; tried with a stand-in for rt."""
    with tempfile.TemporaryDirectory() as folder:
        def path(name):
            return os.path.join(folder, name)

        def expect(what, status, calls, silent, program='gatecount', data=b'given\n'):
            """One run: its exit status, how often rt was called until then, whether standard error is empty."""
            had = run([path('tools/' + program)], data, env=environment)
            made = len(read(path('calls')).splitlines()) if os.path.exists(path('calls')) else 0
            tests.same('making: ' + what, (status, data if status == 0 else b'', silent, calls), had[:2] + (had[2] == b'', made))
            return had[2]

        def aged(folder, seconds):
            """Gives all that is in a folder a time that long ago."""
            for at, folders, files in os.walk(path(folder), topdown=False):
                for name in files + ['.']:
                    os.utime(os.path.join(at, name), (began - seconds, began - seconds))

        def settled():
            """All was made after all that it is made of; what rt keeps is of no account."""
            aged('crates', 200)
            os.utime(path('crates.txt'), (began - 200, began - 200))
            aged('target', 100)

        def touched(name):
            """Gives a file a time after that of all that was made, and before now."""
            settled()
            os.utime(path(name), (began - 50, began - 50))

        began = time.time()
        environment = dict(os.environ, PATH=path('kit') + os.pathsep + os.environ['PATH'])
        shutil.copytree('tools', path('tools'), symlinks=True)
        write(path('crates.txt'), '# a comment: x\nlaws:\ncounter: laws\ngatecount: counter csv\ngateplan: laws\ngatec staticlib: laws # for C\nother:\n')
        for name in ('laws', 'counter', 'gatecount', 'gateplan', 'gatec', 'other'):
            write(path('crates/%s/src/lib.rt' % name), name)
        write(path('crates/counter/src/more.rt'), '')
        write(path('crates/laws/must-fail/one.edit'), '')
        write(path('VERSION'), '1.0\n')
        aged('.', 200)
        bare = '/usr/bin:/bin'
        if not shutil.which('rt', path=bare):
            status, output, told = run([path('tools/gatecount')], b'given\n', env={'PATH': bare})
            tests.same('making: without rt', (3, b'', True), (status, output, b'rt' in told))
        write(path('kit/rt'), RT, executable=True)

        told = expect('a program that is missing', 0, 1, False)
        tests.note(b'rt: chose --jobs 2 for gatecount' in told and b'fn ' not in told, 'making: what rt says itself is told')
        expect('a program that is fresh', 0, 1, True)
        expect('another program', 0, 2, False, 'gateplan')
        expect('another program that is fresh', 0, 2, True, 'gateplan')
        expect('a program that is fresh beside another', 0, 2, True)
        expect('a program whose crate is not there', 3, 2, False, 'gaterun')
        touched('crates/laws/src/lib.rt')
        told = expect('a file of a crate that it depends on by another, written again as it was', 0, 3, False)
        tests.note(b'rt: ' not in told, 'making: of what is unchanged rt tells nothing')
        expect('a program that rt found unchanged', 0, 3, True)
        touched('crates/other/src/lib.rt')
        expect('a file of a crate that it does not depend on', 0, 3, True)
        touched('crates/laws/must-fail/one.edit')
        expect('a must-fail edit', 0, 3, True)
        touched('crates/gatecount/out/gatecount.stamp')
        expect('what rt keeps', 0, 3, True)
        write(path('crates/laws/src/lib.rt'), 'changed')
        touched('crates/laws/src/lib.rt')
        expect('a changed file', 0, 4, False)
        expect('a changed file, made', 0, 4, True)
        settled()
        os.remove(path('crates/counter/src/more.rt'))
        expect('a file taken away', 0, 5, False)
        expect('a file taken away, made', 0, 5, True)
        os.remove(path('target/bin/gatecount'))
        expect('a program taken away', 0, 6, False)
        os.remove(path('target/obj/gatecount.o'))
        expect('its object file taken away', 0, 7, False)
        tests.note(os.path.exists(path('target/obj/gatecount.o')), 'making: the object file of a program')
        os.remove(path('target/obj/gatecount.o'))
        os.remove(path('crates/gatecount/out/gatecount.o'))
        expect('its object file taken away, that of rt too', 0, 8, False)
        tests.note(os.path.exists(path('target/obj/gatecount.o')), 'making: the object file of a program again')
        touched('crates.txt')
        expect('the list of crates', 0, 9, False)
        write(path('broken'), '')
        touched('crates/gatecount/src/lib.rt')
        expect('what cannot be proved', 3, 10, False)
        tests.note(not os.path.exists(path('target/bin/gatecount')), 'making: a program that cannot be proved is not there')
        expect('what cannot be proved, again', 3, 11, False)
        os.remove(path('broken'))
        expect('mended', 0, 12, False)
        def archive(what, calls):
            """One call of tools/build for an archive: how often rt was called until then."""
            status, output, _ = run([path('tools/build'), 'gatec'], env=environment)
            tests.same('making: ' + what, (0, b'', b'!<arch>\n', [b'gatec lib'] * calls),
                       (status, output, read(path('target/staticlib/libgatec.a')), [line for line in read(path('calls')).splitlines() if line.startswith(b'gatec ')]))

        archive('an archive that is missing', 1)
        archive('an archive that is fresh', 1)
        touched('crates/laws/src/lib.rt')
        archive('an archive, of which a crate below was changed', 2)
        status, _, _ = run([path('tools/build'), 'none'], env=environment)
        tests.same('making: a name that is in no list', 2, status)


# ---------------------------------------------------------------- installing

def installing(tests, c_program, c_output):
    """What tools/install puts into a folder works from there: the commands, and the C program of docs/FIRMWARE.md."""
    for what, words in (('no folder', []), ('two folders', ['a', 'b']), ('an option', ['--prefix=a'])):
        tests.same('tools/install with %s: bad usage' % what, 2, run(['tools/install'] + words)[0])
    with tempfile.TemporaryDirectory() as folder:
        first, prefix = os.path.join(folder, 'first'), os.path.join(folder, 'moved here')
        status, _, told = run(['tools/install', first], timeout=1800)
        tests.same('tools/install', (0, b''), (status, told))
        os.rename(first, prefix)
        listed = sorted(os.path.relpath(os.path.join(at, name), prefix) for at, _, files in os.walk(prefix) for name in files)
        programs = [name for name, _ in products('program')]
        archives = products('archive')
        wanted = ['bin/' + name for name in programs] + ['libexec/gate-counter/' + name for name in programs + ['VERSION', 'products.txt']]
        wanted += ['lib/lib%s.a' % name for name, _ in archives] + list({'include/' + header for _, header in archives})
        tests.same('tools/install: the files', sorted(wanted), listed)
        for name in programs:
            tests.note(read('target/bin/' + name) == read(os.path.join(prefix, 'libexec/gate-counter', name)), 'the installed %s is that of target/bin' % name)
        command = os.path.join(prefix, 'bin/gatecount')
        tests.same('the installed gatecount', (0, read('examples/worked.out'), b''), run([command, WORKED]))
        failures(tests, 'installed: ', [command], read(WORKED), True)
        sheet = os.path.join(prefix, 'bin/gatesheet')
        tests.same('the installed gatesheet', (0, read('examples/cruise.out'), b''), run([sheet, CRUISE]))
        failures(tests, 'installed gatesheet: ', [sheet], read(CRUISE), True)
        for name in programs:
            arguments(tests, os.path.join(prefix, 'bin', name), folder)
        link = os.path.join(folder, 'count')
        os.symlink(command, link)
        tests.same('a link to the installed gatecount', (0, read('examples/worked.out'), b''), run([link, WORKED]))
        built = os.path.join(folder, 'program')
        status, _, told = run(['gcc', '-std=c99', '-Wall', '-Wextra', '-Werror', '-I' + os.path.join(prefix, 'include'), '-x', 'c', '-', '-o', built,
                               '-L' + os.path.join(prefix, 'lib'), '-lgatec', '-lgatejudge'], c_program)
        tests.same('the program of docs/FIRMWARE.md with what is installed: compiles', (0, b''), (status, told))
        tests.same('the program of docs/FIRMWARE.md with what is installed', c_output, run([built])[1])
        staged = os.path.join(folder, 'staged')
        status, _, _ = run(['tools/install', '/usr/local'], env=dict(os.environ, DESTDIR=staged))
        tests.same('tools/install with DESTDIR', (0, read('examples/worked.out')),
                   (status, run([os.path.join(staged, 'usr/local/bin/gatecount'), WORKED])[1]))


def check(tests, c_program, c_output):
    each_has_a_command(tests)
    for name, _ in products('program'):
        with tempfile.TemporaryDirectory() as folder:
            arguments(tests, 'tools/' + name, folder)
        failures(tests, 'tools/%s: ' % name, ['tools/' + name], read(WORKED), True)
    building(tests)
    installing(tests, c_program, c_output)
