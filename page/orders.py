"""Random schedules: the steps of calls that are scheduled at random, right and wrong ones, by docs/harmful-orders."""
import random

from assemble import harmful_orders

SOURCE = harmful_orders()
INSERTS, OTHERS = [SOURCE.insert], [SOURCE.cancel, SOURCE.remove, SOURCE.put_back, SOURCE.use_again]
MISTAKEN = [mistaken for _, _, _, mistaken, _ in SOURCE.PAIRS]
PASSES = 4
# What a schedule may have beside steps; most of it ends the replay.
ODD = ['', '# a comment', '# p2: <"Größe" & \'so\'>', ' p1 arm 0', 'p1 tset 0', 'p1 arm', 'p1 arm 8', 'p5 arm 0',
       'p01 arm 0', 'p1 end', 'p1 take 0@1', 'p1 arm 0@1073741823', 'P1 arm 0', 'p1 arm 0 0',
       '\ufeffp1 arm 0', 'p1\tarm 0', 'p1 arm 0\r', '\x1b[31m', 'p' * 200]


def found(step, steps):
    """What a step finds after others of its life: the flag or the routine before it."""
    life = SOURCE.Life(it for it in steps if it.life == step.life)
    if step.kind in ('test', 'flag'):
        return int(life.flagged)
    return int(life.armed) if step.kind in ('take', 'disarm', 'arm', 'rearm') else 0


def scheduled(draw, calls):
    """The steps of one call a pass, in an order drawn at random in which the lock is respected."""
    steps, lock = [], None
    while True:
        ready = {number: SOURCE.next_step(call, number, steps) for number, call in calls.items()}
        lock = lock if lock and ready[lock] and ready[lock][1] == SOURCE.HELD else None
        may = [(number, *it) for number, it in ready.items() if it and (it[1] == SOURCE.FREE or lock in (None, number))]
        if not may:
            return steps
        number, step, how = draw.choice(may)
        steps.append(SOURCE.Step(step.by, step.kind, step.life, found(step, steps)))
        lock = lock if how == SOURCE.FREE else number


def lines_of(draw, inserts, others, irp):
    """Such an order's lines: pass 1 inserts the IRP, and each other pass makes one of these calls."""
    chosen = {1: draw.choice(inserts)} | {number: draw.choice(others) for number in range(2, PASSES + 1)}
    return [str(it).replace(' 0', f' {irp}') for it in scheduled(draw, chosen)]


def right(draw):
    """One of right calls. A removal that finds no routine isn't ended, so some are refused."""
    return lines_of(draw, INSERTS, OTHERS, 0)


def wrong(draw):
    """One that breaks it, or has what is no step; on two IRPs at once."""
    wrong_inserts = INSERTS + [it for it in MISTAKEN if it.__name__.startswith('insert')]
    wrong_others = OTHERS + [it for it in MISTAKEN if it not in wrong_inserts]
    one, other = (lines_of(draw, wrong_inserts, wrong_others, irp) for irp in (0, 1))
    lines = [one.pop(0) if not other or one and draw.random() < 0.7 else other.pop(0) for _ in range(len(one) + len(other))]
    if draw.random() < 0.3:
        lines.insert(draw.randrange(len(lines) + 1), draw.choice(ODD))
    if draw.random() < 0.3:
        del lines[draw.randrange(len(lines))]
    return lines


def schedules(count, seed):
    """As many texts, every other one of them right."""
    draw = random.Random(seed)
    for number in range(count):
        lines = (wrong if number % 2 else right)(draw)
        title = [f'# order {number}', '# p1: ReadFile', '# p2: CancelIoEx'][:draw.randrange(4)]
        yield '\n'.join([*title, *lines]) + draw.choice(['\n', '\n', ''])


CALLS = ['insert {0} {1} back', 'insert {0} {1} front', 'next *', 'next {1}', 'remove {0}', 'remove {0}@1', 'mark {0}',
         'routine {0}', 'cancel {0}', 'complete {0} 00000000', 'complete {0} C0000120', 'close {1}', 'cleanup {1}', 'flag {0}',
         'status {0}', 'reuse {0}', 'put_back {0} back', 'put_back {0} front', '# a comment']


def scripts(count, seed):
    """Random scripts of calls on a few IRPs; one in four has what is no call."""
    draw = random.Random(seed)
    for _ in range(count):
        lines = [draw.choice(CALLS).format(draw.randrange(3), draw.randrange(2)) for _ in range(draw.randrange(40))]
        if draw.random() < 0.25:
            lines.insert(draw.randrange(len(lines) + 1), draw.choice(ODD))
        yield ''.join(f'{it}\n' for it in lines)
