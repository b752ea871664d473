#!/usr/bin/env python3
"""Refuses requests for memory of the program, each in a run of its own, over the scripts of crates/system_tests/data:

    GUARDDB=crates/guarddb/out/guarddb python3 tests/memory_tests.py [files|journals] [EVERY [NAME..]]

EVERY (1 where there is none) says that of so many requests one is tried; NAME is a script without its ending, and without names
all are run but four_thousand_events, which makes too many requests to try each. They run over a database in memory, or with the word
`files` over one in a file, a new one for each run, which with `journals` has a journal. The program is the one in the environment
variable GUARDDB. Its Nth call of malloc or realloc is answered by a null pointer, for N from 1
until a run meets none; a C compiler, cc, makes the library that does so.

A run in which a request is refused must print the answers of a run in which none is, or only the first of them and then
`guarddb: Memory`, with status 1, where the memory for the script, the opening or the next line was refused. Or else the first
answer that differs is `refused 53200`. Then that event counts as not sent: all later answers must be those of the script without
its line. And it may be sent again: in the script with its line twice, and the same request refused, the repeated line and all
later ones must be answered as if nothing was refused. No event `close` is answered by 53200. No run may end by a signal, or take
more than 60 seconds.

Over a file, `check` must find the file whole after each run, and its tables must hold the rows that they hold after the script of
the events that were carried out. Two runs that leave the same bytes are checked and read once.

    python3 tests/memory_tests.py full [EVERY]

With the word `full` the rules are the same, and EVERY is 101 where there is none. One script runs over a file of 64 pages: in a
block it adds 300 rows of 1,000 bytes, for which the file has no room, so the COMMIT is refused by 53100. It counts the rows, rolls
back, and counts them again.

    python3 tests/memory_tests.py switches [EVERY]

With the word `switches` the commands `journal FILE on` and `journal FILE off` are run over files of 64 pages, of which the second has
records that wait in its journal. A run must print what one does in which no request is refused, and the file has a journal then, or
none. Or it prints `guarddb: Memory` alone, with status 1, and the file is as it was in this; then the command is repeated. After both
`check` must find the file whole, with the same rows.

    python3 tests/memory_tests.py migrations [EVERY]

With the word `migrations` the command `check FILE` is run over files of format 1, those in crates/system_tests/data/ whose openings
are stopped too. A run must print what one does in which no request is refused, and the file is of format 2 then. Or it prints
`guarddb: Memory`, with status 1. Then the command is repeated, and after that the file is of format 2, and is described as after the
other run.

    STORES=crates/storage_tests/out/storage_tests python3 tests/memory_tests.py stores [EVERY]

With the word `stores` it is the program of crates/storage_tests whose requests are refused, the one in the environment variable
STORES. It is given the lines of its part `journals` that make each step again which is refused memory: openings and commits of a
store with a journal, and the turns of the journal on and off. The run must print what a run with ample memory prints, with status 0,
or only the first lines of it, with status 1, where the memory of the test itself was refused.

    FEEDS=crates/feed_tests/out/feed_tests python3 tests/memory_tests.py feeds [EVERY]

With the word `feeds` it is the program of crates/feed_tests whose requests are refused, the one in the environment variable FEEDS,
EVERY being 1 where there is none. Each request of it is one of a feed's. The run must print what a run with ample memory prints,
with status 0, and on standard error one line, `feed_tests: again`.

A line names each run that does otherwise. The last line counts the runs by what they gave; the status is 1 where one did
otherwise.
"""
import collections
import concurrent.futures
import functools
import glob
import hashlib
import os
import re
import subprocess
import sys
import tempfile
import threading

TOP = os.path.dirname(os.path.dirname(os.path.abspath(__file__)))
import data_files   # noqa: E402

DATA = os.path.join(TOP, 'crates', 'system_tests', 'data')
PROGRAM = os.path.abspath(os.environ.get('GUARDDB') or os.path.join(TOP, 'crates', 'guarddb', 'out', 'guarddb'))
REFUSAL = 'refused 53200\n'
STORES = os.path.abspath(os.environ.get('STORES') or os.path.join(TOP, 'crates', 'storage_tests', 'out', 'storage_tests'))
PAGES = '64'     # enough for each script but FULL
LONG = 'four_thousand_events'
FEEDS = os.path.abspath(os.environ.get('FEEDS') or os.path.join(TOP, 'crates', 'feed_tests', 'out', 'feed_tests'))
AGAIN = 'feed_tests: again\n'
FULL = ['open r root', 'r: CREATE TABLE big (k BIGINT PRIMARY KEY, v TEXT)', 'r: BEGIN',
        *(f"r: INSERT INTO big VALUES ({number}, '{'x' * 1000}')" for number in range(300)),
        'r: COMMIT', 'r: SELECT count(*) FROM big', 'r: ROLLBACK', 'r: SELECT count(*) FROM big', '']
# Commits of which some are records of a journal, with what fills several leaves.
SWITCHED = ['open r root', 'r: CREATE TABLE t (k BIGINT PRIMARY KEY, v TEXT)',
            *(f"r: INSERT INTO t VALUES ({number}, '{'x' * 300}')" for number in range(40)),
            *(f"r: UPDATE t SET v = 'y{number}' WHERE k = {number}" for number in (3, 35, 7)), 'r: DELETE FROM t WHERE k = 30', '']
FULL_END = 'refused 53100\nrows 1\n300\nok ROLLBACK\nrows 1\n0\n'

REFUSE = r'''
#define _GNU_SOURCE
#include <dlfcn.h>
#include <stdio.h>
#include <stdlib.h>
static long refused = 0, requests = 0;
static void *(*real_malloc)(size_t);
static void *(*real_realloc)(void *, size_t);
__attribute__((constructor)) static void begin(void) {
    real_malloc = (void *(*)(size_t))dlsym(RTLD_NEXT, "malloc");
    real_realloc = (void *(*)(void *, size_t))dlsym(RTLD_NEXT, "realloc");
    refused = getenv("REFUSED") ? atol(getenv("REFUSED")) : 0;
    requests = 0;
}
void *malloc(size_t size) {
    if (!real_malloc) begin();
    return ++requests == refused ? NULL : real_malloc(size);
}
void *realloc(void *old, size_t size) {
    if (!real_realloc) begin();
    return ++requests == refused ? NULL : real_realloc(old, size);
}
__attribute__((destructor)) static void end(void) {
    if (getenv("COUNTS")) dprintf(2, "%ld\n", requests);
}
'''


Run = collections.namedtuple('Run', 'status printed messages left')     # `left`: what a file holds then, and None over memory


def refusing_library(folder):
    """Makes the library that refuses a request."""
    source, library = (os.path.join(folder, name) for name in ('refuse.c', 'refuse.so'))
    with open(source, 'w') as file:
        file.write(REFUSE)
    subprocess.run(['cc', '-O2', '-shared', '-fPIC', source, '-o', library, '-ldl'], check=True)
    return library


def content_of(path):
    """What a file holds."""
    with open(path, 'rb') as file:
        return file.read()


def run_program(words, given, environment=None):
    """The status, the output and the messages of a program."""
    try:
        done = subprocess.run(words, input=given.encode(), capture_output=True, env=environment, timeout=60)
    except subprocess.TimeoutExpired:
        return 'none', '', ''
    return done.returncode, done.stdout.decode(errors='replace'), done.stderr.decode(errors='replace')


class Tests:
    """The program, with requests for memory refused."""

    def __init__(self, folder, is_file, has_journal=False):
        self.folder, self.is_file, self.found = folder, is_file, {}     # `found`: what files of the same bytes hold
        self.library = refusing_library(folder)
        if is_file:
            words = ['format', self.path('new'), '--pages', PAGES, '--admin', 'root', *['--journal'] * has_journal]
            subprocess.run([PROGRAM, *words], check=True, stdout=subprocess.DEVNULL)
            self.new = content_of(self.path('new'))

    def path(self, name):
        return os.path.join(self.folder, name)

    def run(self, script, tables=(), **words):
        """The run of a script, over a new database, and what these tables hold then."""
        environment = {**os.environ, 'LD_PRELOAD': self.library, **words}
        if not self.is_file:
            return Run(*self.program([], script, environment), None)
        path, source = (self.path(f'{kind}{threading.get_ident()}') for kind in ('database', 'script'))
        with open(path, 'wb') as file:
            file.write(self.new)
        with open(source, 'w', encoding='utf-8', newline='') as file:
            file.write(script)
        given = self.program(['run', path, source], '', environment)
        key = hashlib.blake2b(content_of(path)).digest(), tuple(tables)
        if key not in self.found:
            self.found[key] = self.left_in(path, source, tables)
        return Run(*given, self.found[key])

    def program(self, words, given, environment=None):
        """The status, the output and the messages of the program."""
        return run_program([PROGRAM, *words], given, environment)

    def left_in(self, path, source, tables):
        """What a file holds: whether it is whole, and the rows of each of the tables."""
        with open(source, 'w', encoding='utf-8', newline='') as file:
            file.write('open r root\n' + ''.join(f'r: SELECT * FROM {table}\n' for table in tables))
        whole, reading = self.program(['check', path], ''), self.program(['run', path, source], '')
        return reading if whole == (0, 'ok CHECK\n', '') else whole

    def requests(self, script):
        """How many requests the run of a script makes."""
        return int(self.run(script, COUNTS='1').messages.splitlines()[-1])


def answers_in(printed):
    """The answers that a script printed: `rows n` has n more lines, and each other answer is one."""
    answers, left = [], 0
    for line in printed.splitlines(keepends=True):
        if left:
            answers[-1] += line
            left -= 1
        else:
            answers.append(line)
            left = int(line[5:]) if line.startswith('rows ') else 0
    return answers


class ScriptTest:
    """A script, its usual run, and its runs with lines left out."""

    def __init__(self, tests, script):
        self.tests, self.lines = tests, script.split('\n')
        self.events = [number for number, line in enumerate(self.lines) if line and not line.startswith('#')]
        self.tables = sorted(set(re.findall(r'CREATE TABLE (\w+)', script)))
        self.ample = tests.run(script, self.tables)
        self.script = script
        self.without = functools.lru_cache(None)(lambda index: tests.run('\n'.join(self.lines[:self.events[index]]
                                                                                  + self.lines[self.events[index] + 1:]), self.tables))
        self.first = functools.lru_cache(None)(lambda count: tests.run('\n'.join(self.lines[:self.events[count]]), self.tables))

    def refused(self, request):
        """What the run with this request refused gave: an outcome of OUTCOMES, or else what is wrong."""
        run = self.tests.run(self.script, self.tables, REFUSED=str(request))
        if run.status not in (0, 1, 2):
            return f'ended by {run.status}'
        if run == self.ample:
            return 'took no notice'
        usual, given = answers_in(self.ample.printed), answers_in(run.printed)
        if run.status == 1 and run.messages == 'guarddb: Memory\n' and self.ample.printed.startswith(run.printed):
            if run.left != (self.first(len(given)).left if len(given) < len(self.events) else self.ample.left):
                return f'ended with guarddb: Memory, and the file holds something else than after {len(given)} events'
            return 'ended with guarddb: Memory'
        index = next((at for at, (one, other) in enumerate(zip(usual, given)) if one != other), None)
        if index is None or given[index] != REFUSAL:
            return f'answer {index} from 0 differs: {given[index:][:1] if index is not None else run.messages!r}'
        return self.is_as_not_sent(request, run, usual, index)

    def is_as_not_sent(self, request, run, usual, index):
        """The outcome of a run whose answer of this index is the refusal."""
        line = self.lines[self.events[index]]
        if line.startswith('close '):
            return f'{line!r} is refused'
        without = self.without(index)
        if (run.printed, run.left) != (''.join([*usual[:index], REFUSAL, *answers_in(without.printed)[index:]]), without.left):
            return f'{line!r} was refused, and what comes is not that of the script without it'
        if not self.is_repeated(request, usual, index):
            return f'{line!r} was refused, and repeated it or a later line gives something else'
        return 'answered a COMMIT with 53200' if ': COMMIT' in line else 'answered another event with 53200'

    def is_repeated(self, request, usual, index):
        """Whether the repeated event, and all after it, are answered as with ample memory. The longer script may make a request
        more, or one less, before its first event."""
        at = self.events[index]
        twice = '\n'.join(self.lines[:at + 1] + self.lines[at:])
        expected = ''.join([*usual[:index], REFUSAL, *usual[index:]]), self.ample.left
        return any((run.printed, run.left) == expected
                   for run in (self.tests.run(twice, self.tables, REFUSED=str(request + more)) for more in (0, 1, -1, 2, -2)))


class SwitchTest:
    """A file whose journal is turned on or off."""

    def __init__(self, folder, word):
        self.tests, self.word, self.source = Tests(folder, True, word == 'off'), word, os.path.join(folder, 'switched')
        with open(self.source, 'w', encoding='utf-8') as file:
            file.write('\n'.join(SWITCHED))
        path = self.tests.path(f'to_be_{word}')
        with open(path, 'wb') as file:
            file.write(self.tests.new)
        status, _, _ = self.tests.program(['run', path, self.source], '')
        self.before = content_of(path)
        assert status == 0 and has_journal(self.before) == (word == 'off') == (waiting(self.before) > 1)
        self.rows = self.left(path)
        self.ample = self.turned(path, COUNTS='1')
        assert self.ample[:2] == (0, 'ok JOURNAL\n')

    def left(self, path):
        return self.tests.left_in(path, f'{path}.reads', ['t'])

    def turned(self, path, **words):
        """The status, the output and the messages of the command over the file as it was."""
        with open(path, 'wb') as file:
            file.write(self.before)
        return self.again(path, **words)

    def again(self, path, **words):
        return self.tests.program(['journal', path, self.word], '', {**os.environ, 'LD_PRELOAD': self.tests.library, **words})

    def requests(self):
        """How many requests the command makes."""
        return int(self.ample[2].splitlines()[-1])

    def refused(self, request):
        """What the run with this request refused gave: an outcome of OUTCOMES, or else what is wrong."""
        path = self.tests.path(f'{self.word}{threading.get_ident()}')
        run = self.turned(path, REFUSED=str(request))
        is_refused = run == (1, '', 'guarddb: Memory\n')
        if not is_refused and run != (0, 'ok JOURNAL\n', ''):
            return f'ended by {run!r}'
        if has_journal(content_of(path)) != ((self.word == 'on') != is_refused) or self.left(path) != self.rows:
            return 'left another journal, or other rows'
        if is_refused and (self.again(path) != (0, 'ok JOURNAL\n', '') or self.left(path) != self.rows):
            return 'was refused, and repeated it gives something else'
        return OUTCOMES[2] if is_refused else OUTCOMES[3]


class MigrationTest:
    """A file of format 1, which a check migrates."""

    def __init__(self, folder, name):
        self.tests, self.name, self.before = Tests(folder, True), name, data_files.bytes_of_image(name)
        path = self.tests.path('migrated')
        self.ample = self.checked(path, COUNTS='1')
        assert self.ample[:2] == (0, 'ok CHECK\n') and root_of(self.before)[11] == 1
        self.description = self.described(path)

    def checked(self, path, **words):
        """The status, the output and the messages of the command over the file as it was."""
        with open(path, 'wb') as file:
            file.write(self.before)
        return self.again(path, **words)

    def again(self, path, **words):
        return self.tests.program(['check', path], '', {**os.environ, 'LD_PRELOAD': self.tests.library, **words})

    def described(self, path):
        """The format of a file, and its description."""
        return root_of(content_of(path))[11], self.tests.program(['describe', path, '--json'], '')

    def requests(self):
        """How many requests the command makes."""
        return int(self.ample[2].splitlines()[-1])

    def refused(self, request):
        """What the run with this request refused gave: an outcome of OUTCOMES, or else what is wrong."""
        path = self.tests.path(f'migrated{threading.get_ident()}')
        status, printed, messages = self.checked(path, REFUSED=str(request))
        is_refused = (status, printed) == (1, '') and messages.endswith('guarddb: Memory\n')
        if not is_refused and (status, printed) != (0, 'ok CHECK\n'):
            return f'ended by {(status, printed, messages)!r}'
        if is_refused and self.again(path)[:2] != (0, 'ok CHECK\n'):
            return 'was refused, and repeated it gives something else'
        if self.described(path) != self.description:
            return 'left another description'
        return OUTCOMES[2] if is_refused else OUTCOMES[3]


def root_of(data):
    """The root sector of the greatest number."""
    return max((data[at:at + 512] for at in (0, 512)), key=lambda root: root[16:24])


def has_journal(data):
    """Whether the root is of format 3."""
    return root_of(data)[11] == 3


def waiting(data):
    """How many sectors of the journal follow the root."""
    return sum(data[at:at + 12] == b'GDBJ' + root_of(data)[16:24] for at in range(1024, 4096, 512))


class Stores:
    """The program of crates/storage_tests, with requests for memory refused."""

    def __init__(self, library):
        self.library = library
        with open(os.path.join(TOP, 'crates', 'storage_tests', 'stdin'), encoding='utf-8') as file:
            self.given = 'part journals\n' + ''.join(line for line in file if line.startswith('again:'))
        self.ample = self.run()

    def run(self, **words):
        """The status, the output and the messages of the program."""
        return run_program([STORES], self.given, {**os.environ, 'LD_PRELOAD': self.library, **words})

    def requests(self):
        """How many requests the program makes."""
        return int(self.run(COUNTS='1')[2].splitlines()[-1])

    def refused(self, request):
        """What the run with this request refused gave: an outcome of STORED, or else what is wrong."""
        status, printed, messages = self.run(REFUSED=str(request))
        if (status, printed) == self.ample[:2]:
            return STORED[0]
        if status == 1 and self.ample[1].startswith(printed):
            return STORED[1]
        return f'ended by {status} with {messages!r}, and printed {printed!r}'


class Feeds:
    """The program of crates/feed_tests, with requests for memory refused."""

    def __init__(self, library):
        self.library = library
        self.ample = self.run()

    def run(self, **words):
        """The status, the output and the messages of the program."""
        return run_program([FEEDS], '', {**os.environ, 'LD_PRELOAD': self.library, **words})

    def requests(self):
        """How many requests the program makes."""
        return int(self.run(COUNTS='1')[2].splitlines()[-1])

    def refused(self, request):
        """What the run with this request refused gave: an outcome of FED, or else what is wrong."""
        status, printed, messages = self.run(REFUSED=str(request))
        if (status, printed, messages) == (0, self.ample[1], AGAIN):
            return FED[0]
        return f'ended by {status} with {messages!r}, and printed {"the same" if printed == self.ample[1] else "something else"}'


OTHERWISE = 'did otherwise'
OUTCOMES = ['answered another event with 53200', 'answered a COMMIT with 53200', 'ended with guarddb: Memory', 'took no notice']
FED = ['fed a piece again']
STORED = ['printed the same', 'ended, since the test was refused memory']


def counted(pool, name, test, requests, outcomes):
    """How many runs of a test gave each of the outcomes. A line names each run that gave another."""
    counts = collections.Counter()
    for request, outcome in zip(requests, pool.map(test.refused, requests)):
        counts[outcome if outcome in outcomes else OTHERWISE] += 1
        if outcome not in outcomes:
            print(f'{name}, request {request}: {outcome}', flush=True)
    return counts


def tell(what, counts, outcomes):
    """Prints the last line, and answers the status."""
    found = ', '.join(f'{counts[outcome]} {outcome}' for outcome in [*outcomes, OTHERWISE])
    print(f'{what}, {sum(counts.values())} runs: {found}')
    return 1 if counts[OTHERWISE] else 0


def try_feeds(folder, pool, every):
    test = Feeds(refusing_library(folder))
    with open(os.path.join(TOP, 'crates', 'feed_tests', 'stdout'), encoding='utf-8') as file:
        if test.ample != (0, file.read(), ''):
            print(f'with ample memory {FEEDS} does not print crates/feed_tests/stdout, or ends otherwise: {test.ample!r}')
            return 1
    return tell('feed_tests', counted(pool, 'feed_tests', test, range(1, test.requests() + 1, every), FED), FED)


def try_switches(folder, pool, every):
    counts = collections.Counter()
    for word in ('on', 'off'):
        test = SwitchTest(tempfile.mkdtemp(dir=folder), word)
        counts += counted(pool, f'journal FILE {word}', test, range(1, test.requests() + 1, every), OUTCOMES)
    return tell('a journal turned on and off', counts, OUTCOMES[2:])


def try_migrations(folder, pool, every):
    counts = collections.Counter()
    for name in (name for name in data_files.names_of('.image') if '\nstop\n' in data_files.text_of(name + '.image') + '\n'):
        test = MigrationTest(tempfile.mkdtemp(dir=folder), name)
        counts += counted(pool, f'check of {name}', test, range(1, test.requests() + 1, every), OUTCOMES)
    return tell('files of format 1 that are migrated', counts, OUTCOMES[2:])


def try_stores(folder, pool, every):
    test = Stores(refusing_library(folder))
    if test.ample[0] != 0 or test.ample[1].count(' 0 disagreements\n') != test.given.count('\nagain:'):
        print(f'with ample memory {STORES} ends otherwise: {test.ample!r}')
        return 1
    return tell('storage_tests', counted(pool, 'storage_tests', test, range(1, test.requests() + 1, every), STORED), STORED)


def try_full(folder, pool, every):
    tests = Tests(folder, True)
    test = ScriptTest(tests, '\n'.join(FULL))
    if not test.ample.printed.endswith(FULL_END):
        print(f'with ample memory the COMMIT is not refused by 53100: {test.ample.printed[-200:]!r}')
        return 1
    counts = counted(pool, 'full', test, range(1, tests.requests(test.script) + 1, every), OUTCOMES)
    return tell('a script over a full file', counts, OUTCOMES)


def try_scripts(folder, pool, words):
    where = words[0] if words[:1] in (['files'], ['journals']) else 'memory'
    words = words if where == 'memory' else words[1:]
    every, names = int(words[0]) if words else 1, words[1:]
    names = names or sorted({os.path.basename(path)[:-len('.script')] for path in glob.glob(f'{DATA}/*.script')} - {LONG})
    files = [os.path.join(DATA, f'{name}.script') for name in names]
    tests, counts = Tests(folder, where != 'memory', where == 'journals'), collections.Counter()
    for number, file in enumerate(files):
        with open(file, encoding='utf-8', newline='') as opened:
            test = ScriptTest(tests, opened.read())
        requests = range(1 + number % every, tests.requests(test.script) + 1, every)
        counts += counted(pool, os.path.basename(file), test, requests, OUTCOMES)
    return tell(f'{len(files)} scripts over {"files with a journal" if where == "journals" else where}', counts, OUTCOMES)


def main(words):
    memory = '/dev/shm' if os.path.isdir('/dev/shm') else None      # where a sync takes no time
    with tempfile.TemporaryDirectory(dir=memory) as folder, concurrent.futures.ThreadPoolExecutor(os.cpu_count()) as pool:
        for word, try_word in (('feeds', try_feeds), ('stores', try_stores), ('switches', try_switches), ('migrations', try_migrations)):
            if words[:1] == [word]:
                return try_word(folder, pool, int(words[1]) if words[1:] else 1)
        if words[:1] == ['full']:
            return try_full(folder, pool, int(words[1]) if words[1:] else 101)
        return try_scripts(folder, pool, words)


if __name__ == '__main__':
    sys.exit(main(sys.argv[1:]))
