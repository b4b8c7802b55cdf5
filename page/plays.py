"""The game of the page: what a reader does in it, and which orders it has."""
import assemble
import orders


def test_game(page, results):
    page.visit(game='insert-tests-first')
    page.press('1')
    results.expect('a question comes before the step', [page.text('question')[:26], *page.each('#question button')],
                   ['What does p1 test 0 find: ', '0: clear', '1: set'])
    results.expect('which is hidden', page.drawn('.cursor', 'y'), [])
    results.expect('with what goes wrong', page.drawn('.x', 'style'), ['display: none;'] * len(page.drawn('.x', 'style')))
    page.press('1')
    results.expect('a wrong answer', page.text('sentence')[:22], 'No. p1 test 0 is refus')
    page.press('2', '2', '0')
    results.expect('a right answer', page.text('sentence'),
                   'Right. p2 found no cancel routine of IRP 0, after the refused step')
    page.press('1')
    hint = assemble.schedules()['wrong/insert-tests-first.txt'].splitlines()[1].removeprefix('# ')
    results.expect('the harm', page.text('verdict'), f'Order 3 does harm. {hint}')
    results.expect('is counted', page.text('score'), '1 of 6 orders tried, 1 harmful found; 1 of 2 answers right')
    page.press('ArrowLeft', 'ArrowLeft')
    results.expect('two steps back', page.each('#threads button', 'it.disabled'), [False, False])
    page.click('asks')
    page.press('1')
    results.expect('it doesn\'t ask', page.text('sentence'), 'p1 set the cancel routine of IRP 0, after the refused step')
    page.press('2')
    page.click('edit')
    results.expect('the order is edited', [*page.steps()[:2], page.text('sentence')],
                   ['p1 test 0', 'p2 flag 0', 'p2 took the cancel routine of IRP 0, after the refused step'])


def test_tiles(page, results):
    """Each game has as many orders, and as many harmful ones, as docs/harmful-orders counts."""
    source = orders.SOURCE
    source.CSQSIM = page.csqsim.program
    pairs = [('right', False, [source.insert, source.cancel]), *((name, listed, [mistaken, beside])
                                                                for name, listed, _, mistaken, beside in source.PAIRS)]
    for name, listed, calls in pairs:
        total, harmful, agrees = source.counted(listed, calls, False)
        page.visit(game=name)
        page.click('reveal')
        tiles = [len(page.each(f'#tiles {it}')) for it in ('button', '.bad', '.good')]
        results.expect(f'the orders of {name}', [*tiles, agrees], [total, harmful, total - harmful, True])


def test_questions(page, results):
    """What is asked before a step, and what may be done meanwhile."""
    page.visit(game='insert-without-exchange')
    results.expect('the task', page.text('tip')[:35], '16 orders. Find one that does harm,')
    page.visit(game='cleanup-without-routine')
    results.expect('each pass has a column from the start', len(page.drawn('.p', 'x')), 3)
    page.visit(game='right')
    results.expect('the task of right calls', page.text('tip'), '10 orders. Can you do harm?')
    page.press('2')
    results.expect('both threads have a column', len(page.drawn('.p', 'x')), 2)
    page.press('1', '1', '2')
    waiting = [page.text('question')[:25], page.each('#threads button', 'it.disabled')]
    results.expect('a question waits for its answer', waiting,
                   ['What does p1 test 0 find:', [True, True]])
    page.press('Backspace')
    results.expect('or is taken back', [page.each('#question', 'it.hidden'), page.each('#threads button', 'it.disabled')],
                   [[True], [False, False]])
    page.press('1', '1', '1')
    results.expect('an exchange is asked for', page.text('question')[:38], 'What does p1 disarm 0 find: is the can')
    page.press('Home')
    results.expect('from the start', [page.text('sentence'), page.each('#question', 'it.hidden')],
                   ['Which thread makes the first step?', [True]])


def test_verdicts(page, results):
    """What is said of an order when it ends, and of none before."""
    page.visit(game='insert-tests-first')
    page.click('asks')
    page.press('1', '2', '2')
    results.expect('no verdict before the end', [page.text('verdict'), len(page.each('#tiles :is(.good, .bad)'))], ['', 0])
    results.expect('no tile can be chosen yet', page.each('#tiles button', 'it.disabled'), [True] * 6)
    page.press('1')
    results.expect('the tile of the order', page.each('#tiles button', '[it.className, it.disabled]'),
                   [['', True]] * 2 + [['bad at', False]] + [['', True]] * 3)
    page.click('again')
    results.expect('again from the start', page.text('sentence'), 'Which thread makes the first step?')
    page.click('reveal')
    results.expect('shown orders aren\'t tried ones', page.text('score').split(';')[0],
                   '1 of 6 orders tried, 1 of 1 harmful found')
    page.run('document.querySelector("#tiles .good").click()')
    results.expect('nothing goes wrong in a green one', page.text('verdict'), 'Order 1: nothing goes wrong.')


def test_threads(page, results):
    """What stands on the button of a thread."""
    page.visit(game='right')
    page.click('asks')
    page.press('1', '2', '2')
    nexts = 'it.textContent.split("\\n")[1].replace(/   .*/, "")'
    results.expect('a thread waits for the lock', page.each('#threads button', nexts), ['→ test 0', 'waits for the lock'])
    results.expect('and can\'t be chosen', page.each('#threads button', 'it.disabled'), [False, True])
    page.press('1', '1', '2', '2')
    results.expect('both have ended', page.each('#threads button', nexts), ['has ended', 'has ended'])
    page.click('to-steps')
    results.expect('and then a race is stepped through', [len(page.steps()), page.text('sentence')[:15]],
                   [4, 'Before the firs'])


TESTS = [test_game, test_tiles, test_questions, test_verdicts, test_threads]
