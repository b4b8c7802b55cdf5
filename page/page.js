// The list of steps: a race or the reader's own, edited, stepped through, linked and opened from a file.
const races = JSON.parse($('races').textContent); // each schedule's text by its file's name
const DEFAULT_SIZE = [8, 4], LARGEST_SIZE = [1024, 64]; // IRPs and passes, as csqsim has them
const STEPS = ['arm', 'test', 'disarm', 'flag', 'take', 'out', 'done', 'renew', 'rearm'];
const MOST_LINES = 400; // of more a browser lays out the picture for seconds
const [FIRST] = Object.values(races);
const OWN = '# A race of your own\n# p1: ReadFile\n# p2: CancelIoEx\np1 arm 0\n';
let isGame = false;

const rows = () => [...$('steps').children];
const inputOf = row => row.querySelector('input');
const captionLines = () => ($('caption').value === '' ? [] : $('caption').value.split('\n'));
const textOf = upTo => asText([...captionLines(), ...rows().slice(0, upTo).map(row => inputOf(row).value)]);
const cursorAt = () => Number($('cursor').value);
const rowAt = () => rows()[cursorAt() - 1];
const namesIn = (text, pattern) => [...text.matchAll(pattern)].map(it => it[1]);
const withNewline = text => (text.endsWith('\n') ? text : `${text}\n`);

function newRow(line) {
  const row = document.createElement('li');
  row.innerHTML = '<span class="grip" title="Drag"></span><input list="words" spellcheck="false" autocapitalize="off" '
    + 'autocomplete="off" aria-label="Step"><span class="found" title="what it found"></span>'
    + '<button class="remove" aria-label="Remove this step">✕</button>';
  inputOf(row).value = line;
  return row;
}

// csqsim's defaults, or as many as the schedule names.
function sizeFor(text) {
  const needed = [Math.max(0, ...namesIn(text, /^p\d+ \w+ (\d+)/gm)) + 1, Math.max(0, ...namesIn(text, /^p(\d+) /gm))];
  return needed.map((it, n) => Math.min(Math.max(it, DEFAULT_SIZE[n]), LARGEST_SIZE[n]));
}

function load(text, at = 0, stops = false) {
  const all = text.replace(/\n$/, '').split('\n');
  const lines = all.slice(0, MOST_LINES);
  $('cut').hidden = all.length <= MOST_LINES;
  const first = lines.findIndex(isStep);
  const captioned = first < 0 ? lines.length : first;
  $('caption').value = lines.slice(0, captioned).join('\n');
  $('steps').replaceChildren(...lines.slice(captioned).map(newRow));
  $('stops').checked = stops;
  update(at, true);
}

// Asks for all answers anew, and shows them at this cursor.
function update(at = cursorAt(), hides = false) {
  const started = performance.now();
  const before = captionLines().length;
  read(textOf(), sizeFor(textOf()), $('stops').checked);
  rows().forEach((row, n) => {
    const step = view.steps.find(it => it.line === before + n + 1);
    row.querySelector('.grip').textContent = `⠿ ${before + n + 1}`;
    row.querySelector('.found').textContent = step?.found ?? '';
    row.classList.toggle('bad', Boolean(step?.isRefused || step?.harms.length));
  });
  $('race').value = Object.keys(races).find(name => races[name] === view.text) ?? '';
  $('cursor').max = rows().length;
  show(at, hides);
  $('took').textContent = `The last schedule was shown in ${(performance.now() - started).toFixed(1)} ms.`;
}

// Shows the execution up to a cursor. The rows after it are hidden, unless the list is edited.
function show(at, hides = true) {
  const last = rows().length;
  $('cursor').value = Math.max(0, Math.min(at, last));
  const row = rowAt();
  rows().forEach(it => it.classList.toggle('at', it === row));
  if (row) scrollIn($('steps'), row);
  showUpTo(row ? captionLines().length + cursorAt() : 0, cursorAt() === last && last > 0, hides);
  $('back').disabled = cursorAt() === 0;
  $('forth').disabled = cursorAt() === last;
  writeLink();
}

// ---- The link ----
function writeLink() {
  const steps = { s: view.text, at: cursorAt(), ...($('stops').checked && { stop: 1 }) };
  const parts = { ...(isGame ? { game: $('games').value } : steps), ...(document.body.matches('.big') && { big: 1 }) };
  $('link').textContent = 'Copy the link';
  history.replaceState(null, '', `#${new URLSearchParams(parts)}`);
}

function followLink() {
  const given = new URLSearchParams(location.hash.slice(1));
  setMode(given.has('game'));
  setBig(given.has('big'));
  if (isGame) return startGame(given.get('game'));
  load(withNewline(given.get('s') ?? FIRST), Number(given.get('at')) || 0, given.has('stop'));
}

async function copyLink() {
  const isCopied = await navigator.clipboard?.writeText(location.href).then(() => true, () => false);
  $('link').textContent = isCopied ? 'Copied' : 'It is in the address bar';
}

function setMode(toGame) {
  isGame = toGame;
  document.body.classList.toggle('game', isGame);
  $('editor').hidden = $('stepper').hidden = $('race').hidden = isGame;
  $('game').hidden = $('orders').hidden = $('games').hidden = !isGame;
  $('to-game').ariaPressed = String(isGame);
  $('to-steps').ariaPressed = String(!isGame);
}

// ---- The list ----
// Puts a step in another's place.
function put(row, other) {
  if (!other) return;
  if (rows().indexOf(other) < rows().indexOf(row)) other.before(row); else other.after(row);
  update(rows().indexOf(row) + 1);
}

function addAfter(row) {
  const added = newRow('');
  if (row) row.after(added); else $('steps').prepend(added);
  update(rows().indexOf(added) + 1);
  return inputOf(added);
}

function remove(row) {
  const next = row.previousElementSibling ?? row.nextElementSibling;
  const hadFocus = row.contains(document.activeElement);
  row.remove();
  update();
  if (hadFocus && next) inputOf(next).focus();
}

function drag(e) {
  if (!e.target.matches('.grip')) return;
  const row = e.target.closest('li');
  const isOver = (it, y) => it !== row && y > it.getBoundingClientRect().top && y < it.getBoundingClientRect().bottom;
  const move = ({ clientY }) => put(row, rows().find(it => isOver(it, clientY)));
  const drop = () => e.target.removeEventListener('pointermove', move);
  e.preventDefault();
  e.target.setPointerCapture(e.pointerId);
  e.target.addEventListener('pointermove', move);
  e.target.addEventListener('lostpointercapture', drop, { once: true });
}

function keyInStep(e) {
  const row = e.target.closest('li');
  const other = { ArrowUp: row.previousElementSibling, ArrowDown: row.nextElementSibling }[e.key];
  if (e.key === 'Enter' && e.target.matches('input')) addAfter(row).focus();
  else if (e.key === 'Backspace' && e.target.value === '') remove(row);
  else if (e.altKey && other) put(row, other);
  else return;
  e.preventDefault();
  if (row.isConnected && e.altKey) inputOf(row).focus();
}

// ---- A file ----
// A report of iocsq's has schedules below a heading each; what IOCSQ_SCHEDULES names has one in each line.
function schedulesIn(text) {
  const title = text.match(/^iocsq: ([ -~]{1,62})/m)?.[1]; // a line of a schedule has at most 64 bytes
  const reports = namesIn(text, /^ *As a schedule, for csqsim.*:\n((?: +(?:# )?p\d.*\n?)+)/gm);
  const lines = namesIn(text, /^\d+: (p\d+ .*)$/gm);
  if (reports.length) return reports.map(it => (title ? `# ${title}\n` : '') + it.replaceAll(/^ +/gm, ''));
  return lines.length ? lines.map(it => it.replaceAll(';', '\n')) : [text];
}

async function openFile(file) {
  if (!file) return;
  const found = schedulesIn((await file.text()).replaceAll('\r\n', '\n'));
  const names = found.map((_, n) => (found.length > 1 ? `${file.name}, schedule ${n + 1}` : file.name));
  found.forEach((text, n) => (races[names[n]] = withNewline(text)));
  $('race').append(group(file.name, names, name => name));
  setMode(false);
  load(races[names[0]], Infinity);
}

// ---- Buttons and keys ----
function group(label, names, titled) {
  const made = Object.assign(document.createElement('optgroup'), { label });
  made.append(...names.map(name => new Option(titled(name), name)));
  return made;
}

function setBig(isBig) {
  document.body.classList.toggle('big', isBig);
  $('big').ariaPressed = String(isBig);
}

function toggleBig() {
  setBig(!document.body.matches('.big'));
  if (isGame) play(game.path); else show(cursorAt());
  writeLink();
}

function stepKey(e) {
  const by = { ArrowLeft: -1, ArrowUp: -1, k: -1, ArrowRight: 1, ArrowDown: 1, j: 1, Home: -Infinity, End: Infinity }[e.key];
  if (by) show(cursorAt() + by);
  else if (e.key === 'Delete' && rowAt()) remove(rowAt());
  else return false;
  return true;
}

function onClick(handlers) {
  for (const [name, handler] of Object.entries(handlers)) $(name).addEventListener('click', handler);
}

onClick({
  back: () => show(cursorAt() - 1), forth: () => show(cursorAt() + 1), add: () => addAfter(rowAt()).focus(),
  big: toggleBig, open: () => $('file').click(), 'to-steps': () => [setMode(false), load(textOf() || FIRST)],
  steps: e => e.target.matches('.remove') && remove(e.target.closest('li')),
  stops: () => update(cursorAt(), true),
  link: copyLink,
});
addEventListener('keydown', e => {
  const isField = e.target.matches('input:not([type=range], [type=checkbox]), textarea, select');
  if (isField || e.ctrlKey || e.metaKey || e.altKey) return;
  if (e.key === 'b') toggleBig();
  else if (!(isGame ? gameKey(e) : stepKey(e))) return;
  e.preventDefault();
});
addEventListener('dragover', e => e.preventDefault());
addEventListener('drop', e => [e.preventDefault(), openFile(e.dataTransfer.files[0])]);
$('steps').addEventListener('input', () => update());
$('steps').addEventListener('keydown', keyInStep);
$('steps').addEventListener('pointerdown', drag);
$('steps').addEventListener('focusin', e => show(rows().indexOf(e.target.closest('li')) + 1, false));
$('file').addEventListener('change', () => openFile($('file').files[0]));
$('caption').addEventListener('input', () => update());
$('cursor').addEventListener('input', () => show(cursorAt()));
$('race').addEventListener('change', e => [load(races[e.target.value] ?? OWN), e.target.blur()]);
const isWrong = name => name.startsWith('wrong/');
const titleOf = name => races[name].split('\n')[0].replace(/^# (Wrong: )?/, '');
$('race').append(new Option('your own', ''), group('Right', Object.keys(races).filter(it => !isWrong(it)), titleOf),
  group('Wrong', Object.keys(races).filter(isWrong), titleOf));
$('words').append(...['p1', 'p2', 'p3'].flatMap(pass => STEPS.map(step => new Option(`${pass} ${step} 0`))));
