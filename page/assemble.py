"""The page as one file: its script, the module, the schedules of the repository, and the calls of the game."""
import base64
import hashlib
import importlib.machinery
import importlib.util
import json
import pathlib
import sys

HERE = pathlib.Path(__file__).resolve().parent
TOP = HERE.parent
SCHEDULES = TOP / 'schedules'
SCRIPTS = ['view.js', 'page.js', 'game.js']  # after the one that asks
# A game's passes: p1 lists the IRP if the calls find it listed, p2 cancels it.
NAMES = {'insert': 'ReadFile', 'cancel': 'CancelIoEx', 'cleanup': 'IRP_MJ_CLEANUP', 'use': 'uses the IRP again'}
WORKER = 'a worker of the driver'
LISTED = ['p1 arm 0', 'p1 test 0']


def harmful_orders():
    """docs/harmful-orders as a module: it has the calls, step by step, and the pairs of them."""
    sys.path.insert(0, str(TOP / 'docs'))
    loader = importlib.machinery.SourceFileLoader('harmful_orders', str(TOP / 'docs' / 'harmful-orders'))
    spec = importlib.util.spec_from_loader('harmful_orders', loader)
    module = importlib.util.module_from_spec(spec)
    sys.modules['harmful_orders'] = module
    loader.exec_module(module)
    return module


def tree(call, values=()):
    """A call as a tree: its next step after those that found these values, how it makes it, and what comes after a 0 and
    after a 1. None: it has ended."""
    running = call()
    made = next(running)
    for value in values:
        try:
            made = running.send(value)
        except StopIteration:
            return None
    step, how = made
    return {'step': step, 'how': how, 'then': [tree(call, (*values, value)) for value in (0, 1)]}


def name_of(call):
    return NAMES.get(call.__name__.partition('_')[0], WORKER)


def game(name, title, hint, listed, calls, is_right=False):
    """A game: two calls that run beside each other, the cancel as p2."""
    passes = {2 if it.__name__.startswith('cancel') else 3 if listed else 1: it for it in calls}
    names = {number: name_of(call) for number, call in passes.items()} | ({1: 'ReadFile'} if listed else {})
    head = [f'# {title}', *(f'# p{number}: {it}' for number, it in sorted(names.items())), *(LISTED if listed else [])]
    trees = {number: tree(call) for number, call in sorted(passes.items())}
    return {'name': name, 'title': title, 'hint': hint, 'head': head, 'calls': trees, 'isRight': is_right}


def games():
    """The right insert against the right cancel, and each wrong call of schedules/wrong beside the call that it harms."""
    source = harmful_orders()
    yield game('right', 'Right: an insert and a cancel', '', False, [source.insert, source.cancel], True)
    for name, listed, _, mistaken, beside in source.PAIRS:
        title, hint, *_ = (it.removeprefix('# ') for it in (SCHEDULES / 'wrong' / f'{name}.txt').read_text().splitlines())
        yield game(name, title, hint, listed, [mistaken, beside])


def schedules():
    """The text of each schedule by its name: first those that keep the protocol."""
    files = sorted(SCHEDULES.rglob('*.txt'), key=lambda it: (len(it.parts), it))
    return {it.relative_to(SCHEDULES).as_posix(): it.read_text() for it in files}


def embedded(value):
    """JSON that ends no element of a page."""
    return json.dumps(value, separators=(',', ':')).replace('<', '\\u003c')


def assemble(ask, module):
    """The page's text, with this script to ask with and this module. No other script runs in it: its policy has the
    script's hash."""
    script = '\n' + '\n'.join([ask, *((HERE / it).read_text() for it in SCRIPTS)])
    digest = base64.b64encode(hashlib.sha256(script.encode()).digest()).decode()
    page = (HERE / 'page.html').read_text()
    for name, text in [('HASH', f'sha256-{digest}'), ('RACES', embedded(schedules())), ('GAMES', embedded(list(games()))),
                       ('MODULE', base64.b64encode(module).decode()), ('SCRIPT', script)]:
        page = page.replace(f'@{name}@', text)
    return page
