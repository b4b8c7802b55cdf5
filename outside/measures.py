"""What is measured in a program's output: blocks of memory, a picture's shades, the totals of runs."""
import collections
import itertools
import re

from program import SECONDS, shown

# The lines of a run's totals, in order.
TOTALS = [rb'irps \d+', rb'accounted \d+', rb'cancelled and listed 0', rb'home \d+', rb'listed \d+', rb'completed \d+',
          rb'succeeded \d+', rb'cancelled \d+', rb'completed by submitters \d+', rb'completed by workers \d+',
          rb'completed by cancellers \d+', rb'completed by cleanup \d+', rb'inserts \d+', rb'removals \d+',
          rb'removals that found an IRP \d+', rb'cancels \d+', rb'cancels that took the routine \d+',
          rb'cancels too early or too late \d+', rb'cancels before the insert \d+', rb'cancels during the insert \d+',
          rb'cancels after the removal \d+', rb'milliseconds \d+\.\d{3}']

# With busy workers there are two lines more, each behind one of these.
BUSY = {rb'completed by cleanup \d+': rb'completed by busy workers \d+',
        rb'cancels after the removal \d+': rb'put-backs \d+'}
BUSY_TOTALS = [line for it in TOTALS for line in ([it, BUSY[it]] if it in BUSY else [it])]

# The line of what busy workers completed, 0 without such a line.
BY_BUSY = 'completed by busy workers'

# The threads that complete IRPs, if none are busy workers.
KINDS = ('submitters', 'workers', 'cancellers', 'cleanup')

# The cancels that missed, by when they came.
MISSES = [f'cancels {when}' for when in ('before the insert', 'during the insert', 'after the removal')]

# A line of a run's totals, and the lines whose numbers sum to its own.
SUMS = [('irps', ['accounted']), ('irps', ['home', 'listed', 'completed']), ('completed', ['succeeded', 'cancelled']),
        ('completed', [f'completed by {it}' for it in KINDS] + [BY_BUSY]),
        ('succeeded', ['completed by workers']), ('succeeded', ['removals that found an IRP']),
        ('cancels', ['cancels that took the routine', 'cancels too early or too late']),
        ('cancels too early or too late', MISSES),
        ('cancels that took the routine', ['completed by cancellers'])]

# A schedule with each step that lets the lock go, and how high the shades of its picture are, in order.
LOCKED = ['p1 arm 0', 'p2 flag 0', 'p1 test 0', 'p2 take 0', 'p1 disarm 0', 'p3 disarm 0', 'p3 end', 'p2 out 0',
          'p2 done 0', 'p1 renew 0', 'p1 arm 0@1', 'p1 test 0@1', 'p3 disarm 0@1', 'p3 done 0@1', 'p3 end']
SHADES = [61, 61, 61, 61, 57, 61, 57, 57, 57, 61, 57, 57, 57]


def wrong_block(program, words, is_chained):
    """A chained list takes its records in one block: 1,024 of 48 bytes."""
    got, sizes = program.run(words, b'', 'refuse_memory', SIZES='1')
    if not sizes:
        yield f'no call for memory was seen: {got}'
    if (b'49152' in sizes.split()) != is_chained:
        yield 'it takes no such block' if is_chained else 'it takes such a block'


def test_chains(program, results):
    """With --chain the list is chained, and without it isn't."""
    commands = (['script'], ['script', '--explain'], ['run'])
    for command, chain in itertools.product(commands, ([], ['--chain'])):
        words = [*command, '--irps=1024', *chain]
        results.test(f'{program.name}: chains: {" ".join(words)}', wrong_block, program, words, bool(chain))


def wrong_shades(program):
    """A picture's shade ends sooner after a step that lets the lock go: 57 high in place of 61."""
    got, _ = program.run(['draw'], '\n'.join(LOCKED).encode())
    heights = [int(height) for height in re.findall(rb"<rect class='l' [^>]*height='(\d+)'", got.output)]
    if (heights, got.errors, got.status) != (SHADES, b'', 0):
        yield f'{heights}; {got}'


def test_shades(program, results):
    """Each time of the lock shows in a picture's shades."""
    results.test(f'{program.name}: shades: each time of the lock', wrong_shades, program)


def wrong_sums(lines):
    """In the totals of one run, each number is the sum of others."""
    numbers = {BY_BUSY: 0}
    numbers |= {words.decode(): int(number) for words, _, number in (it.rpartition(b' ') for it in lines[:-1])}
    for words, parts in SUMS:
        found = sum(numbers[part] for part in parts)
        if numbers[words] != found:
            yield f'{words} {numbers[words]}, and {" + ".join(parts)} is {found}'


def wrong_totals(program, runs, options, removals):
    """Each run has all lines in order, those of busy workers if there are some, and so many removals; by the real clock
    it takes some time, and less than the test may."""
    got, _ = program.run(['run', '--totals', f'--repeat={runs}', *options])
    lines = got.output.splitlines()
    totals = BUSY_TOTALS if any(it.startswith('--busy-workers=') for it in options) else TOTALS
    if (got.errors, got.status, len(lines)) != (b'', 0, runs * len(totals)):
        yield f'{len(lines)} lines; {got}'
    for line, pattern in zip(lines, totals * runs):
        if not re.fullmatch(pattern, line):
            yield f'{shown(line)} in place of {pattern.decode()}'
        if line.startswith(b'milliseconds') and not 0 < float(line.split()[1]) < SECONDS * 1000:
            yield f'{shown(line)} is no time of a run'
        if pattern == rb'removals \d+' and line != f'removals {removals}'.encode():
            yield f'{shown(line)} in place of {removals}'
    for first in range(0, len(lines), len(totals)):
        yield from wrong_sums(lines[first:first + len(totals)])


def test_totals(program, results):
    """The totals of runs: each IRP is home, listed or was completed by one thread, with one of two statuses."""
    least = [f'--{it}=1' for it in ('irps', 'files', 'submitters', 'workers', 'cancellers', 'turns')]
    threads = ['--submitters=20', '--workers=20', '--cancellers=20', '--irps=1024', '--files=256', '--turns=100']
    # The IRPs are few, so that most turns of a worker find none.
    turns = ['--irps=8', '--files=2', '--turns=100000']
    rows = [('each_total_has_its_line', 1, [], 128), ('five runs report their times', 5, [], 128),
            ('each_run_has_its_totals', 20, [], 128), ('each_irp_is_accounted_for', 10, [], 128),
            ('one_irp_is_accounted_for', 1, least, 1), ('the_most_threads_run', 1, threads, 2_000),
            ('the_most_turns_are_taken', 1, turns, 200_000), ('put_backs_are_counted', 20, ['--busy-workers=2'], 128),
            ('the_most_threads_run_with_busy_workers', 1, [*threads, '--busy-workers=3'], 2_000),
            ('the_most_busy_workers_run', 5, ['--busy-workers=20', '--files=1'], 128)]
    for (name, runs, options, removals), chain in itertools.product(rows, ([], ['--chain'])):
        name = ' '.join([name, *chain])
        results.test(f'{program.name}: totals: {name}', wrong_totals, program, runs, [*options, *chain], removals)


def wrong_races(program, runs, least, options):
    """At least this number of runs has a completion of each kind. A machine that does something else beside them lets fewer
    threads meet, so up to ten times the runs are made until that is reached."""
    found = collections.Counter()
    for _ in range(10):
        got, _ = program.run(['run', '--totals', f'--repeat={runs}', *options])
        found.update(it.decode() for it in re.findall(rb'^completed by (.+) [1-9]\d*$', got.output, re.MULTILINE))
        lacking = [kind for kind in KINDS if found[kind] < least]
        if not lacking:
            return
    yield from (f'{found[kind]} of {runs * 10} runs have a completion by {kind}; {got}' for kind in lacking)


def test_races(program, results):
    """The threads of a run race: of those that ran one after the other, some would complete nothing."""
    for chain in ([], ['--chain']):
        name = ' '.join(['each kind completes some', *chain])
        results.test(f'{program.name}: races: {name}', wrong_races, program, 100, 15, chain)


def wrong_time(program, time, settings):
    """By a clock of the test's own, the last line of a run is this one."""
    words = ['run', '--totals', '--irps=1', '--submitters=1', '--workers=1', '--cancellers=1', '--turns=1']
    got, _ = program.run(words, b'', 'set_clock', **settings)
    if (got.output.splitlines()[-1:], got.errors, got.status) != ([time], b'', 0):
        yield f'{got.output.splitlines()[-1:]} in place of {time}; {got}'


def test_times(program, results):
    """A run has its time: from its first reading of the clock to the second, 1,234,567 nanoseconds pass."""
    rows = [('a_run_has_its_time', b'milliseconds 1.234', {'CLOCK_STEP': '1234567'}),
            ('a_run_of_seconds_has_its_time', b'milliseconds 61001.000', {'CLOCK_STEP': '61001000999'}),
            ('a_run_whose_clock_fails_has_none', b'milliseconds unknown', {'CLOCK_FAILS': '1'})]
    for name, time, settings in rows:
        results.test(f'{program.name}: times: {name}', wrong_time, program, time, settings)


def wrong_start(program):
    """No thread has ended when the last of seven is started, though each is started late."""
    got, reported = program.run(['run', '--irps=8', '--turns=8'], b'', 'slow_threads')
    if (reported, got.errors, got.status) != (b's' * 7, b'', 0):
        yield f'{reported}; {got}'


def test_start(program, results):
    """The threads of a run wait for each other at the start."""
    results.test(f'{program.name}: start: no thread ends before all have started', wrong_start, program)


# Those that need a preloaded library, and those that don't.
PRELOADED, TESTS = [test_chains, test_times, test_start], [test_shades, test_totals, test_races]
