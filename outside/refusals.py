"""Each call for memory, each thread and each byte that is read or written is refused in turn."""
from program import Ended

SCHEDULE = b'p1 arm 0\np1 test 0\np2 flag 0\np2 take 0\np2 out 0\np2 done 0\n'
SCRIPT = b'insert 0 0 back\ninsert 1 0 back\nmark 0\nnext *\nremove 0\nnext *\nroutine 0\nstatus 0\n'

# This file has the schedule, and lies where the program runs.
FILE = 'race.txt'

NO_MEMORY = Ended(b'', b'csqsim: out of memory\n', 1)
NO_THREAD = Ended(b'', b'csqsim: thread refused\n', 1)

# No command line makes more calls for memory.
MOST_CALLS = 10_000

# A command line, its input, and how many of its calls for memory the program does without, each refused alone: that of
# the list of the words, which asks again for less, and those of the search for a word that is like an unknown one.
MEMORY = [
    (['schedule', '--claims'], SCHEDULE, 1),
    (['schedule', FILE], b'', 1),
    (['schedule'], b'p1 tset 0\n', 24),
    (['schedule'], b'p1 arm 0\np2 arm 0\n', 1),
    (['draw'], SCHEDULE, 1),
    (['draw'], b'p1 arm 0\r\n', 1),
    (['script'], SCRIPT, 1),
    (['script'], b'insrt 0 0 back\n', 50),
    (['script', FILE], b'', 37),
    (['script', '--chain', '--limit', '5', '--file-limit', '3'], SCRIPT, 1),
    (['run'], b'', 1),
    (['run', '--chain'], b'', 1),
    (['run', '--totals'], b'', 1),
    (['--help'], b'', 1),
    (['script', '--help'], b'', 1),
    ([], b'', 1),
    (['walk'], b'', 13),
    (['schedule', '--irps', '0'], b'', 1),
    (['script', '--limit', '9'], b'', 1),
    (['schedule', 'absent.txt'], b'', 1),
]

# Command lines that are refused: without memory for the text of its refusal the program prints that as it is.
REFUSED = [[], ['walk'], ['schedule', '--irps', '0']]

# Options of a run, and its threads: those of the options, and the one that cleans up.
THREADS = [
    ([], 7),
    (['--chain', '--submitters=20', '--workers=19', '--cancellers=18'], 58),
    (['--submitters=19', '--workers=18', '--cancellers=17', '--busy-workers=9'], 64),
    (['--submitters=1', '--workers=1', '--cancellers=1'], 4),
]

BYTES = [(['schedule', '--claims'], SCHEDULE), (['script'], SCRIPT), (['script', '--chain'], SCRIPT)]

# One call is refused, or it and all that follow.
ALONE, ON = {}, {'REFUSE_ALL': '1'}
HOW = [('one alone', ALONE), ('from one on', ON)]

ONE_RUN = b'irps 64\naccounted 64\ncancelled and listed 0\n'


def is_same(words, got, plain):
    """Whether two ends are the same, but for what differs from run to run."""
    if '--totals' in words:
        got, plain = (end._replace(output=end.output[:len(ONE_RUN)]) for end in (got, plain))
    return got == plain


def wrong_memory(program, words, data, do_without, settings):
    """Refuses each call for memory in turn. A thread that has no memory is refused by the system as a thread."""
    plain, _ = program.run(words, data)
    refusals = [NO_MEMORY, NO_THREAD] if words[:1] == ['run'] else [NO_MEMORY]
    unnoticed = 0
    for call in range(MOST_CALLS):
        got, reported = program.run(words, data, 'refuse_memory', REFUSE_AT=str(call), **settings)
        if not reported:
            break
        unnoticed += is_same(words, got, plain)
        if got not in refusals and not is_same(words, got, plain):
            yield f'call {call} is refused: {got}'
    if call == 0:
        yield f'no call for memory was seen, so none was refused: {got}'
    if reported:
        yield f'there are more than {MOST_CALLS} calls for memory'
    if not is_same(words, got, plain):
        yield f'no call is refused: {got}'
    if unnoticed != do_without:
        yield f'the program does without {unnoticed} of {call} calls, in place of {do_without}'


def test_memory(program, results):
    """Each call for memory of the whole program is refused, alone and with all that follow."""
    rows = [(words, data, (words in REFUSED) + (do_without if settings is ALONE else 0), settings, how)
            for words, data, do_without in MEMORY for how, settings in HOW]
    for words, data, do_without, settings, how in rows:
        name = f'{program.name}: memory: {" ".join(words) or "no word"} {data[:12]!r}: {how} is refused'
        results.test(name, wrong_memory, program, words, data, do_without, settings)


def wrong_threads(program, words, threads, settings):
    """Refuses each thread in turn, and then one more, which counts them."""
    for call in range(threads + 1):
        got, _ = program.run(words, b'', 'refuse_thread', REFUSE_THREAD=str(call), **settings)
        if call < threads and got != NO_THREAD:
            yield f'thread {call} is refused: {got}'
        if call == threads and got.status != 0:
            yield f'there are more than {threads} threads: {got}'


def test_threads(program, results):
    """Each thread is refused, alone and with all that follow."""
    for options, threads, settings, how in [(*row, settings, how) for row in THREADS for how, settings in HOW]:
        words = ['run', *options]
        name = f'{program.name}: threads: {" ".join(words)}: {threads} threads, {how} is refused'
        results.test(name, wrong_threads, program, words, threads, settings)


def wrong_slowly(program, words, data):
    """Reads and writes a byte at a time, and then with each read interrupted before."""
    plain, _ = program.run(words, data)
    if not plain.output:
        yield f'nothing is written: {plain}'
    for settings in ({}, {'INTERRUPTED': '1'}):
        got, _ = program.run(words, data, 'slow_io', **settings)
        if got != plain:
            yield f'{settings}: {got}'


# Why standard input can't be read.
NO_READ = b'csqsim: read failed: Input/output error (os error 5)\n'


def wrong_reads(program, words, data, errors, descriptor='0'):
    """Lets the read after each number of bytes fail, of this descriptor."""
    for at in range(len(data) + 1):
        got, _ = program.run(words, data, 'slow_io', FAIL_READ=str(at), READS=descriptor)
        if got != Ended(b'', errors, 1):
            yield f'the read after {at} bytes fails: {got}'


# Why a write fails, and why one that takes nothing does.
NO_WRITE = b'csqsim: write failed: Input/output error (os error 5)\n'
NOTHING_TAKEN = b'csqsim: write failed: failed to write whole buffer\n'


def wrong_writes(program, words, data, settings):
    """Lets the write after each number of bytes fail, or take nothing; of totals, of those that all runs have."""
    plain, _ = program.run(words, data)
    if not plain.output:
        yield f'nothing is written: {plain}'
    for at in range(len(ONE_RUN) if '--totals' in words else len(plain.output)):
        got, _ = program.run(words, data, 'slow_io', FAIL_WRITE=str(at), **settings)
        why = NOTHING_TAKEN if 'TAKES_NOTHING' in settings else NO_WRITE
        if got != Ended(plain.output[:at], why, 1):
            yield f'the write after {at} bytes fails: {got}'


def test_bytes(program, results):
    """Each byte that is read and each that is written fails, or is interrupted, or isn't taken."""
    for words, data in BYTES:
        name = f'{program.name}: bytes: {" ".join(words)}'
        results.test(f'{name}: one at a time', wrong_slowly, program, words, data)
        results.test(f'{name}: each read fails', wrong_reads, program, words, data, NO_READ)
        results.test(f'{name}: each write fails', wrong_writes, program, words, data, {})
        results.test(f'{name}: each write takes nothing', wrong_writes, program, words, data, {'TAKES_NOTHING': '1'})
    name = f'{program.name}: bytes: draw: each read fails'
    results.test(name, wrong_reads, program, ['draw'], SCHEDULE, NO_READ)


def test_files(program, results):
    """A fault of a file is reported with its name, and why. It has descriptor 3, as the first that is opened."""
    errors = b'csqsim: race.txt: Input/output error (os error 5)\n'
    for command in ('schedule', 'draw', 'script'):
        name = f'{program.name}: files: {command}: each read fails'
        results.test(name, wrong_reads, program, [command, FILE], SCHEDULE, errors, '3')


def wrong_repeated_threads(program, runs, threads):
    """Refuses each thread of several runs in turn: what was written is all of the runs before."""
    for call in range(runs * threads):
        got, _ = program.run(['run', f'--repeat={runs}'], b'', 'refuse_thread', REFUSE_THREAD=str(call))
        if got != NO_THREAD._replace(output=ONE_RUN * (call // threads)):
            yield f'thread {call} is refused: {got}'


def test_repeats(program, results):
    """The first fault ends several runs."""
    name = f'{program.name}: repeats: each'
    results.test(f'{name} thread of 3 runs is refused', wrong_repeated_threads, program, 3, 7)
    results.test(f'{name} write of 3 runs fails', wrong_writes, program, ['run', '--repeat=3'], b'', {})
    results.test(f'{name} write of totals fails', wrong_writes, program, ['run', '--totals'], b'', {})
    results.test(f'{name} write of totals takes nothing', wrong_writes, program, ['run', '--totals'], b'',
                 {'TAKES_NOTHING': '1'})


TESTS = [test_memory, test_threads, test_bytes, test_files, test_repeats]
