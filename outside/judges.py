"""What the tests of measures.py and refusals.py, and the one of pictures, find in the ends of a program that were written by hand: nothing in
right ones, and something in wrong ones. So a test that looks at nothing is noticed."""
import re
from types import SimpleNamespace

import measures
import refusals
from cases import wrong_picture
from measures import KINDS, wrong_block, wrong_races, wrong_start, wrong_sums, wrong_time, wrong_totals
from program import SECONDS, Ended
from refusals import NO_MEMORY, NO_READ, NO_THREAD, NO_WRITE, ONE_RUN, wrong_memory, wrong_reads, wrong_slowly, wrong_threads, wrong_writes

# The totals of a run.
TEXT = b'''irps 64
accounted 64
cancelled and listed 0
home 1
listed 3
completed 60
succeeded 50
cancelled 10
completed by submitters 1
completed by workers 50
completed by cancellers 7
completed by cleanup 2
inserts 64
removals 128
removals that found an IRP 50
cancels 64
cancels that took the routine 7
cancels too early or too late 57
cancels before the insert 1
cancels during the insert 1
cancels after the removal 55
milliseconds 1.234
'''

# The same with busy workers.
BUSY = TEXT.replace(b'completed 60', b'completed 64').replace(b'cancelled 10', b'cancelled 14').replace(
    b'irps 64\naccounted 64', b'irps 68\naccounted 68').replace(
    b'by cleanup 2\n', b'by cleanup 2\ncompleted by busy workers 4\n').replace(b'removal 55\n', b'removal 55\nput-backs 9\n')


def without(kind):
    """The totals of a run in which these threads complete nothing."""
    return re.sub(rf'completed by {kind} \d+'.encode(), f'completed by {kind} 0'.encode(), TEXT)


# The lines of which no sum is known: those of the calls, which rows of cases/ count, and the time.
ALONE = (b'inserts', b'removals', b'cancelled and listed', b'milliseconds')


def ends(answer):
    """A program: from the settings, this function makes how it ends and what the preloaded library reports."""
    return SimpleNamespace(run=lambda words, data=b'', library=None, **settings: answer(settings))


def always(output, errors=b'', status=0, reported=b''):
    """A program that always ends so."""
    return ends(lambda _: (Ended(output, errors, status), reported))


def up_to(last, refused, setting):
    """A program that ends so if a call up to the last is refused."""
    def answer(settings):
        return refused if int(settings.get(setting, last + 1)) <= last else Ended(ONE_RUN, b'', 0), b'seen'
    return ends(answer)


def writes(last):
    """A program that reports each write that fails, up to the last."""
    def answer(settings):
        at = int(settings.get('FAIL_WRITE', last + 1))
        return (Ended(ONE_RUN[:at], NO_WRITE, 1) if at <= last else Ended(ONE_RUN, b'', 0)), b''
    return ends(answer)


def right_ends():
    """Tests that find nothing."""
    yield 'totals', wrong_totals(always(TEXT), 1, [], 128)
    yield 'totals of two runs', wrong_totals(always(TEXT * 2), 2, [], 128)
    yield 'totals of busy workers', wrong_totals(always(BUSY), 1, ['--busy-workers=1'], 128)
    yield 'races', wrong_races(always(TEXT * 3 + without('cleanup') * 2), 5, 3, [])
    yield 'races in the last runs', wrong_races(always(TEXT * 3 + without('cleanup') * 2), 5, 30, [])
    yield 'a start', wrong_start(always(ONE_RUN, reported=b'sssssss'))
    yield 'a time', wrong_time(always(TEXT), b'milliseconds 1.234', {})
    yield 'a block', wrong_block(always(b'', reported=b'8 49152'), [], True)
    yield 'no block', wrong_block(always(b'', reported=b'8 49151'), [], False)
    yield 'writes', wrong_writes(writes(len(ONE_RUN)), ['run'], b'', {})
    yield 'threads', wrong_threads(up_to(6, NO_THREAD, 'REFUSE_THREAD'), ['run'], 7, {})


def wrong_ends():
    """Tests that find something."""
    for words, _, number in (line.rpartition(b' ') for line in TEXT.splitlines()):
        if words not in ALONE:
            lines = TEXT.replace(words + b' ' + number + b'\n', words + b' %d\n' % (int(number) + 1)).splitlines()
            yield f'the sums of one more {words.decode()}', wrong_sums(lines)
    for old, new in [(b'irps 64\n', b'irps 65\n'), (b'home', b'at home'), (b'listed 0', b'listed 1'),
                     (b'removals 128', b'removals 127'), (b'1.234', b'0.000'), (b'1.234', b'unknown'),
                     (b'1.234', b'%d.000' % (SECONDS * 1000)), (TEXT, b''), (b'inserts 64\n', b'')]:
        changed = TEXT.replace(old, new, 1)
        yield f'totals with {new.decode()} for {old.decode()}', wrong_totals(always(changed), 1, [], 128)
    yield 'totals of busy workers that there are not', wrong_totals(always(BUSY), 1, [], 128)
    yield 'totals without busy workers', wrong_totals(always(TEXT), 1, ['--busy-workers=1'], 128)
    uncounted = BUSY.replace(b'workers 4\n', b'workers 3\n')
    yield 'totals of fewer put-backs', wrong_totals(always(uncounted), 1, ['--busy-workers=1'], 128)
    second = wrong_totals(always(TEXT + TEXT.replace(b'home 1', b'home 2')), 2, [], 128)
    yield 'totals of which the second are wrong', second
    yield 'totals of one run more', wrong_totals(always(TEXT * 2), 1, [], 128)
    for kind in KINDS:
        yield f'races without {kind}', wrong_races(always(without(kind) * 5), 5, 1, [])
    yield 'races in too few runs', wrong_races(always(TEXT * 2 + without('cleanup') * 3), 5, 21, [])
    for reported in (b'', b'ssssss', b'sssssse', b'ssssssss'):
        yield f'a start of {reported}', wrong_start(always(ONE_RUN, reported=reported))
    for errors, status in [(b'why', 0), (b'', 1)]:
        yield f'totals, {errors!r} and status {status}', wrong_totals(always(TEXT, errors, status), 1, [], 128)
        late = wrong_time(always(TEXT, errors, status), b'milliseconds 1.234', {})
        yield f'a time with {errors!r} and status {status}', late
    yield 'another time', wrong_time(always(TEXT), b'milliseconds 1.235', {})
    yield 'a block that is none', wrong_block(always(b'', reported=b'8 49151'), [], True)
    yield 'a block that should be none', wrong_block(always(b'', reported=b'8 49152'), [], False)
    yield 'no call for memory', wrong_block(always(b''), [], False)
    yield 'the last write', wrong_writes(writes(len(ONE_RUN) - 2), ['run'], b'', {})
    yield 'the last write of what all totals have', wrong_writes(writes(len(ONE_RUN) - 2), ['run', '--totals'], b'', {})
    yield 'one thread less', wrong_threads(up_to(5, NO_THREAD, 'REFUSE_THREAD'), ['run'], 7, {})
    yield 'one thread more', wrong_threads(up_to(7, NO_THREAD, 'REFUSE_THREAD'), ['run'], 7, {})
    yield 'memory that is never refused', wrong_memory(always(ONE_RUN, reported=b''), ['run'], b'', 0, {})
    yield 'memory that is reported otherwise', wrong_memory(up_to(3, NO_MEMORY, 'REFUSE_AT'), ['schedule'], b'', 5, {})
    yield 'reads that are not reported', wrong_reads(always(b'all'), [], b'p1 end\n', NO_READ)
    slow = ends(lambda settings: (Ended(b'half' if 'INTERRUPTED' in settings else b'whole', b'', 0), b''))
    yield 'an answer that is cut', wrong_slowly(slow, [], b'')
    yield 'a picture with a bare ampersand', wrong_picture(b'<svg>a & b</svg>')


def wrong_judges():
    """Yields the tests that aren't made, what the others find in right ends, and the wrong ends in which they find
    nothing."""
    made = refusals.TESTS + measures.TESTS + measures.PRELOADED
    for module in (refusals, measures):
        tests = [name for name, it in vars(module).items() if name.startswith('test_') and it not in made]
        yield from (f'{name} is not made' for name in tests)
    for name, found in right_ends():
        yield from (f'{name}: {it}' for it in found)
    for name, found in wrong_ends():
        if next(iter(found), None) is None:
            yield f'nothing is found wrong with {name}'
