// What the module says of a schedule, and its picture, shown up to a cursor. Nothing of the protocol is computed here: what a
// step found, who owns an IRP and what goes wrong is read from the answers.
const $ = id => document.getElementById(id);
const picture = $('picture').attachShadow({ mode: 'open' });
const ABOVE = 34, BELOW = 26, INSET = 2; // a picture's row reaches from where its number stands so far up and down
const STYLE = `svg { display: block; width: 100%; height: auto; min-width: var(--least); margin: auto; }
  .cursor { fill: none; stroke: var(--mark); stroke-width: 2.5; }
  .curtain { fill: var(--sheet); stroke: var(--sheet); stroke-width: 5; }`;
let view;

const isStep = line => line !== '' && !line.startsWith('#');
const asText = lines => lines.map(it => `${it}\n`).join('');
const elements = (root, selector) => [...root.querySelectorAll(selector)];
const number = (element, name) => Number(element.getAttribute(name));
const make = (tag, text, className = '') => Object.assign(document.createElement(tag), { textContent: text, className });

// An answer's lines, each with the sentence that is indented below it.
function entriesOf(answer) {
  const entries = [];
  for (const line of answer.split('\n').slice(0, -1)) {
    if (line.startsWith('  ')) entries.at(-1).sentence += line.trim();
    else entries.push({ said: line, sentence: '' });
  }
  return entries;
}

const harmsIn = entries => entries.map(it => it.said).filter(it => /^harm: (?!none )/.test(it));

// All answers about a schedule. One that is refused is followed to its end, unless it `stops` there.
function answersOn(text, size, stops) {
  const kept = ask('csq_page_schedule', [...size, 0, 1], text);
  const goesOn = !stops && kept.status === STOPPED && / refused [^\n]*\n[^\n]*\n$/.test(kept.answer);
  const draw = goesOn ? 'csq_page_wrong_draw' : 'csq_page_draw';
  const told = goesOn ? ask('csq_page_wrong_schedule', size, text) : kept;
  return { kept, told, drawn: ask(draw, [...size, 0], text).answer };
}

// The line of the step that does harm; of what only an order's end shows there is none.
const lineOfHarm = harm => Number(harm.match(/^(?:harm: )?p\d+ [\w@ ]+ in line (\d+) /)?.[1] ?? Infinity);

// What the answers say of one step: what it found, its sentence, whether it ends the protocol, and the harms in its line.
function stepOf(step, reply, kept, row, harms) {
  const refusal = kept?.said.match(/^line \d+ refused (.*)/)?.[1];
  return {
    ...step, call: row?.call,
    found: reply?.said.match(/ found (\d)/)?.[1] ?? '',
    sentence: refusal ? `${step.text} is refused (${refusal}): ${kept.sentence}` : kept?.sentence || row?.title || step.text,
    isRefused: /^line \d/.test(kept?.said),
    harms: harms.filter(it => lineOfHarm(it) === step.line),
  };
}

// Asks all about a schedule, and draws it.
function read(text, size, stops) {
  const { kept, told, drawn } = answersOn(text, size, stops);
  const [keptEntries, entries, rows] = [entriesOf(kept.answer), entriesOf(told.answer), drawIn(drawn)];
  const replies = entries.filter(it => / found \d( refused .*)?$/.test(it.said));
  const harms = harmsIn(entries);
  const lines = text.split('\n').slice(0, -1).map((line, n) => ({ line: n + 1, text: line }));
  const isOther = (said, line) => /^line /.test(said) && !said.startsWith(`line ${line} `); // as of a comment that is too long
  const steps = lines.filter(it => isStep(it.text)).map((it, n) => {
    const kept = isOther(keptEntries[n]?.said, it.line) ? undefined : keptEntries[n];
    return stepOf(it, replies[n], kept, rows.find(row => row.line === it.line), harms);
  });
  view = { text, steps, harms, told, rows };
}

// Puts a picture in the page. Returns its rows: the line of each, where it is, its step's box, and what that says.
function drawIn(drawn) {
  const svg = new DOMParser().parseFromString(drawn, 'image/svg+xml').documentElement;
  svg.style.maxWidth = `calc(${svg.getAttribute('width')}px * var(--scale))`;
  picture.replaceChildren(make('style', STYLE), svg);
  const boxes = new Map(elements(svg, 'g:not(.x) > rect').map(it => [number(it, 'y') - 4 + ABOVE, it]));
  return elements(svg, 'text.n:not(.s)').map(it => {
    const box = boxes.get(number(it, 'y'));
    const says = name => box?.parentElement.querySelector(name)?.textContent ?? '';
    return { line: Number(it.textContent), y: number(it, 'y'), box, call: says('.m'), title: says('title') };
  });
}

function mark(name, y, height) {
  const svg = picture.querySelector('svg');
  const box = document.createElementNS(svg.namespaceURI, 'rect');
  const places = { class: `mark ${name}`, x: INSET, y: y + INSET, width: number(svg, 'width') - 2 * INSET, height, rx: 4 };
  for (const [key, value] of Object.entries(places)) box.setAttribute(key, value);
  svg.append(box);
}

// Hides the rows after a line, the arrows to them and what goes wrong later, and frames the line's row.
function markRows(line, isLast, hides) {
  const [at, next] = [view.rows.find(it => it.line === line), view.rows.find(it => it.line > line)];
  const lineOfArrow = title => Number(title.match(/^line (\d+) found/)?.[1]);
  const isLater = (it, lineOf) => hides && !isLast && lineOf(it.querySelector('title').textContent) > line;
  const hide = (selector, lineOf) => elements(picture, selector)
    .forEach(it => (it.style.display = isLater(it, lineOf) ? 'none' : ''));
  elements(picture, '.mark').forEach(it => it.remove());
  hide('path.a', lineOfArrow);
  hide('g.x', lineOfHarm);
  if (at) mark('cursor', at.y - ABOVE, ABOVE + BELOW - INSET);
  const edge = next ? next.y - ABOVE : (view.rows.at(-1)?.y ?? 0) + BELOW;
  if (hides && !isLast) mark('curtain', edge, number(picture.querySelector('svg'), 'height'));
  if (isLast) $('picture').scrollTop = $('picture').scrollHeight;
  if (at?.box) scrollIn($('picture'), at.box);
  else if (!isLast) $('picture').scrollTo(0, 0);
}

// Scrolls a part of the page, and nothing around it, so that this element is seen with some room.
function scrollIn(part, element) {
  const [outer, inner] = [part, element].map(it => it.getBoundingClientRect());
  const by = (low, high, from, to) => Math.min(0, low - 30 - from) + Math.max(0, high + 30 - to);
  part.scrollBy(by(inner.left, inner.right, outer.left, outer.right), by(inner.top, inner.bottom, outer.top, outer.bottom));
}

// Who owes or holds an IRP after this row, by the lines beside the columns.
function ownersAfter(row) {
  const isAt = path => {
    const [from, to] = path.getAttribute('d').match(/ (\d+)V(\d+)$/).slice(1).map(Number);
    return from < row.y && row.y < to;
  };
  return elements(picture, '.owes, .holds').filter(isAt).map(it => it.textContent.replace(/ (in the end|up to the refused step)$/, ''));
}

// The two words of each IRP after a row, by the circles at the right.
function wordsAfter(row) {
  const past = elements(picture, 'g:has(circle)').filter(it => number(it.querySelector('circle'), 'cy') < row.y);
  const titles = past.map(it => it.querySelector('title').textContent);
  return [...new Map(titles.map(it => [it.match(/^IRP \d+/)[0], it])).values()];
}

// What goes wrong up to a line. How the whole ends stands below the picture's rows.
function judgedAt(line, isLast) {
  const harms = isLast ? view.harms : view.steps.filter(it => it.line <= line).flatMap(it => it.harms);
  const { status, diagnosis } = view.told;
  const fault = status === NO_MEMORY && 'There is too little memory for this schedule.';
  const isThere = isLast || diagnosis.startsWith(`${line}:`);
  return [...harms, fault, isThere && diagnosis.replace(/^(\d+:\d+:)/, 'line $1')].filter(Boolean);
}

// Shows the schedule up to a line; 0: none.
function showUpTo(line, isLast, hides) {
  const step = view.steps.find(it => it.line === line);
  $('sentence').textContent = step?.sentence ?? (line ? 'No step' : 'Before the first step: press → or ▶');
  $('sentence').classList.toggle('bad', Boolean(step?.isRefused || step?.harms.length));
  const row = view.rows.findLast(it => it.line <= line && it.box) ?? { y: 0 }; // of the last step that was made
  const owners = ownersAfter(row).map(it => make('li', it, 'owner'));
  $('state').replaceChildren(...wordsAfter(row).map(it => make('li', it)), ...owners);
  $('said').replaceChildren(...judgedAt(line, isLast).map(it => make('li', it, 'bad')));
  markRows(line, isLast, hides);
}
