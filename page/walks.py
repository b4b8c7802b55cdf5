"""What the page shows at each step of a schedule, beside what csqsim answers on the lines up to there.

Nothing is taken from the page's script: who owns an IRP and what its words are stands at the end of a picture of these
lines alone, so no place of a row in the picture counts."""
import itertools
import os
import re
import xml.etree.ElementTree as ElementTree
from concurrent.futures import ThreadPoolExecutor

import assemble
import orders

SVG = '{http://www.w3.org/2000/svg}'
SIZE = [8, 4]
DRAWN, SEED = 16, 20261202
ODD = [
    '', '\n', '# a title\n', 'p1 arm 0\n\n# between\np1 test 0\np2 flag 0\n\np2 take 0\n',
    # Two IRPs with an owner each, and their names' first digits alike.
    'p1 arm 1\np1 test 1\np1 arm 0\np1 test 0\np2 flag 1\np2 take 1\np3 disarm 0\np3 done 0\np2 out 1\np2 done 1\n',
    # What has no line of its own: a lost cancel, and an IRP that stays in the list.
    'p2 take 0\np1 arm 0\np1 test 0\np2 flag 0\n', 'p1 arm 0\np1 test 0\np2 flag 0\np2 take 0\np2 done 0\np3 flag 0\n',
    # A line that is no step comes after a refused one, or ends all, or has a number that begins as another's.
    'p1 done 0\np1 arm 0\np1 tset 0\np1 test 0\n', 'p1 tset 0\np1 arm 0\n',
    ''.join(f'p1 arm {n}\np1 test {n}\n' for n in range(6)) + 'x\n',
    '# ' + 'long ' * 20 + '\np1 arm 0\n', 'p1 arm 0@1\np1 arm 0\n', 'p2 flag 0@1\np1 renew 0\np1 arm 0@1\np2 take 0@1\n']
WALK = '''(() => {
  const each = (root, selector, value) => [...root.querySelectorAll(selector)].map(value);
  const text = name => document.getElementById(name).textContent;
  const cursor = document.getElementById('cursor');
  const picture = document.getElementById('picture').shadowRoot;
  const place = it => ({ y: Number(it.getAttribute('y')), height: Number(it.getAttribute('height')) });
  const isShown = it => it.style.display === '' ? [it.querySelector('title').textContent] : [];
  return each(document, '#steps li, #steps', (_, at) => {
    cursor.value = at;
    cursor.dispatchEvent(new Event('input'));
    return {
      sentence: text('sentence'), isBad: document.getElementById('sentence').matches('.bad'),
      words: each(document, '#state > :not(.owner)', it => it.textContent),
      owners: each(document, '#state > .owner', it => it.textContent).sort(),
      said: each(document, '#said > li', it => it.textContent),
      list: each(document, '#steps li', it => [...it.children].map(it => it.value || it.textContent).slice(0, 3)),
      marked: each(document, '#steps .at', it => it.querySelector('input').value),
      bad: each(document, '#steps .bad .grip', it => it.textContent),
      arrows: each(picture, 'path.a', isShown).flat(), harms: each(picture, 'g.x', isShown).flat(),
      cursors: each(picture, '.cursor', place), curtains: each(picture, '.curtain', place),
      rows: each(picture, 'text.n:not(.s)', it => [Number(it.textContent), Number(it.getAttribute('y'))]),
    };
  });
})()'''


def line_of(harm):
    """The line of the step that does a harm; after all lines, if only the end shows it."""
    found = re.match(r'harm: p\d+ \w+ \S+ in line (\d+) ', harm)
    return int(found[1]) if found else float('inf')


def is_step(line):
    return line != '' and not line.startswith('#')


class Told:
    """What csqsim answers on some lines. An order that breaks the protocol is followed to its end, unless it `stops`."""

    def __init__(self, csqsim, lines, stops):
        text, self.lines = ''.join(f'{it}\n' for it in lines), lines
        kept = csqsim.answer('csq_page_schedule', [*SIZE, 0, 1], text)
        self.entries = re.findall(r'^(\S.*)\n(?:  (.*)\n)?', kept['answer'], re.MULTILINE)
        self.ended = self.line_in(kept['diagnosis'])
        self.cause = re.match(r'line \d+ refused (.*)', self.entries[-1][0]) if self.ended else None
        self.goes_on = bool(self.cause) and not stops
        told = csqsim.answer('csq_page_wrong_schedule', SIZE, text) if self.goes_on else kept
        self.answer, self.diagnosis = told['answer'], told['diagnosis']
        drawn = csqsim.answer('csq_page_wrong_draw' if self.goes_on else 'csq_page_draw', [*SIZE, 0], text)['answer']
        self.drawn = ElementTree.fromstring(drawn)

    @staticmethod
    def line_in(diagnosis):
        return int(diagnosis.partition(':')[0]) if diagnosis else None

    def titles(self, has):
        """The titles of the elements of the picture that are so."""
        return [it.find(f'{SVG}title').text for it in self.drawn.iter() if it.find(f'{SVG}title') is not None and has(it)]

    def harms(self):
        return [it for it in self.answer.splitlines() if it.startswith('harm: ') and not it.startswith('harm: none ')]

    def words(self):
        """The two words of each IRP after these lines."""
        titles = self.titles(lambda it: it.find(f'{SVG}circle') is not None)
        return list({re.match(r'IRP \d+', it)[0]: it for it in titles}.values())

    def owners(self):
        titles = self.titles(lambda it: re.search(r'\b(owes|holds)\b', it.get('class', '')))
        return sorted(it.removesuffix(' in the end') for it in titles if it.endswith(' in the end'))

    def sentence(self):
        """Of the last line."""
        step, line = self.lines[-1], len(self.lines)
        if not is_step(step):
            return 'No step'
        if self.ended is None:
            return self.entries[sum(map(is_step, self.lines)) - 1][1]
        if self.ended == line:
            said = self.entries[-1][1]
            return f'{step} is refused ({self.cause[1]}): {said}' if self.cause else said
        marks = self.titles(lambda it: it.get('class') != 'x' and it.find(f'{SVG}rect') is not None)
        return marks[-1] if self.goes_on and not self.diagnosis else step


def expected(csqsim, lines, stops, before):
    """What is to be shown at each step, of which the first comes after this number of lines."""
    whole = Told(csqsim, lines, stops)
    for line in range(before + 1, len(lines) + 1):
        told, is_last = Told(csqsim, lines[:line], stops), line == len(lines)
        shows = is_last or Told.line_in(whole.diagnosis) == line
        diagnosis = [re.sub(r'^(\d+:\d+:)', r'line \1', whole.diagnosis)] if shows and whole.diagnosis else []
        harms = [it for it in whole.harms() if is_last or line_of(it) <= line]
        arrows = whole.titles(lambda it: it.get('class') == 'a')
        yield {'sentence': told.sentence(), 'words': told.words(), 'owners': told.owners(), 'said': harms + diagnosis,
               'isBad': whole.ended == line or any(line_of(it) == line for it in harms), 'marked': [lines[line - 1]],
               'arrows': [it for it in arrows if is_last or int(it.split()[1]) <= line],
               'harms': [it for it in whole.titles(lambda it: it.get('class') == 'x') if is_last or line_of(it) <= line]}


def list_of(csqsim, lines, stops, before):
    """What the list of steps is to have: number, text and value found of each, and which are marked as bad."""
    told = Told(csqsim, lines, stops)
    found = iter(re.findall(r' found (\d)(?: refused .*)?$', told.answer, re.MULTILINE))
    values = [next(found, '') if is_step(it) else '' for it in lines]
    steps = [number for number, it in enumerate(lines, 1) if is_step(it)]
    bad = {told.ended, *map(line_of, told.harms())}.intersection(steps)
    rows = list(enumerate(zip(lines, values), 1))[before:]
    return {'list': [[f'⠿ {number}', text, value] for number, (text, value) in rows],
            'bad': [f'⠿ {number}' for number in sorted(bad)]}


def framed(shown):
    """The lines whose numbers stand in the frame of the cursor, and those that no curtain hides."""
    rows, curtains = shown['rows'], [it['y'] for it in shown['curtains']]
    within = [line for line, y in rows for it in shown['cursors'] if it['y'] < y < it['y'] + it['height']]
    return within, [line for line, y in rows if all(y < it for it in curtains)]


def faults(csqsim, text, stops, shown):
    """What is shown of a schedule that isn't what it should be."""
    lines = (text if text.endswith('\n') else f'{text}\n').split('\n')[:-1]
    before = next((number for number, it in enumerate(lines) if is_step(it)), len(lines))
    wanted = list_of(csqsim, lines, stops, before)
    for at, (got, more) in enumerate(zip(shown[1:], expected(csqsim, lines, stops, before)), before + 1):
        drawn = [line for line, _ in got['rows']]
        places = [at] if at in drawn else [], drawn if at == len(lines) else [it for it in drawn if it <= at]
        yield from [(at, key, got[key], it) for key, it in {**wanted, **more}.items() if got[key] != it]
        yield from [(at, 'frames', framed(got), places)] * (framed(got) != places)
    if len(shown) != len(lines) - before + 1:
        yield len(shown), 'steps', len(lines) - before + 1


def test_walks(page, results):
    """At each step stands what csqsim answers on the lines up to it; with `stops`, up to the first one that is refused."""
    drawn = [it.replace('\r', '') for it in orders.schedules(DRAWN, SEED)]
    texts = [(it, False) for it in [*assemble.schedules().values(), *ODD, *drawn]]
    texts += [(it, True) for name, it in assemble.schedules().items() if name.startswith('wrong/')]
    walks = []
    for text, stops in texts:
        page.visit(s=text, **({'stop': 1} if stops else {}))
        walks.append((page.csqsim, text, stops, page.run(WALK)))
    with ThreadPoolExecutor(os.cpu_count()) as pool:
        found = list(pool.map(lambda it: [it[1:3], *itertools.islice(faults(*it), 1)], walks))
    results.expect(f'{len(texts)} schedules are shown as csqsim answers, step by step', [it for it in found if it[1:]][:1], [])
