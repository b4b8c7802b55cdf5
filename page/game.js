// Break the queue: the reader is the scheduler of two calls. What each call does next by what it found is made from
// docs/harmful-orders; what a step finds, whether an IRP is listed and what goes wrong the module says.
const games = JSON.parse($('calls').textContent);
const GAME_SIZE = [1, 4]; // IRPs and passes
// The steps by whose value a call decides, and what one asks of them: the answers stand for 0 and 1.
const ROUTINE = ['is the cancel routine there?', 'no', 'yes'];
const QUESTIONS = { test: ['is the Cancel flag set?', 'clear', 'set'], disarm: ROUTINE, take: ROUTINE };
let game;

const passOf = line => line.match(/^p(\d+) /)?.[1];
const stepIn = line => line.match(/^p\d+ (\w+)/)[1];
const wrongEntries = lines => entriesOf(ask('csq_page_wrong_schedule', GAME_SIZE, asText(lines)).answer);

// What the last of these steps finds: 0 or 1.
function foundLast(lines) {
  return Number(wrongEntries(lines)[lines.filter(isStep).length - 1].said.match(/ found (\d)/)[1]);
}

// Whether a call goes on to its next step: one that looks into the list ends if the IRP isn't there.
function goesOn(call, pass, lines) {
  if (call?.how !== 'listed') return Boolean(call);
  const said = ask('csq_page_schedule', [...GAME_SIZE, 0, 0], asText([...lines, `p${pass} disarm 0`])).answer;
  return !said.endsWith(`line ${lines.length + 1} refused NotListed\n`);
}

// A step with its IRP's name: * stands for the present life.
function named(step, lines) {
  const life = lines.filter(it => / renew /.test(it)).length;
  return step.replace('*', life ? `0@${life}` : '0');
}

// Every order of the calls that begins with these lines. The holder has the lock, until its call needs it no more.
function* ordersFrom(lines, calls, holder) {
  const ready = Object.entries(calls).filter(([pass, call]) => goesOn(call, pass, lines));
  const lock = ready.some(([pass, call]) => pass === holder && call.how === 'held') ? holder : null;
  const may = ready.filter(([pass, call]) => call.how === 'free' || lock === null || lock === pass);
  for (const [pass, call] of may) {
    const longer = [...lines, `p${pass} ${named(call.step, lines)}`];
    const after = { ...calls, [pass]: call.then[foundLast(longer)] };
    yield* ordersFrom(longer, after, call.how === 'free' ? lock : pass);
  }
  if (may.length === 0) yield lines;
}

function startGame(name) {
  const found = games.find(it => it.name === name) ?? games[0];
  const lines = [...ordersFrom(found.head, found.calls, null)];
  const orders = lines.map(it => ({ lines: it, harms: harmsIn(wrongEntries(it)) }));
  game = { ...found, orders, seen: new Set(), isOpen: false, guesses: 0, right: 0 };
  $('games').value = found.name;
  const task = found.isRight ? 'Can you do harm?' : 'Find one that does harm, then all.';
  $('tip').textContent = `${orders.length} orders. ${task}`;
  play(found.head);
  writeLink();
}

const fitting = () => game.orders.filter(it => game.path.every((line, n) => it.lines[n] === line));
const nextLine = pass => fitting().map(it => it.lines[game.path.length]).find(it => it && passOf(it) === pass);

// Of the orders that begin as the path does one that has steps of all calls, if there is one: for the picture's columns.
function orderShown() {
  const hasAll = it => Object.keys(game.calls).every(pass => it.lines.some(line => passOf(line) === pass));
  return fitting().find(hasAll) ?? fitting()[0];
}

// Shows an order up to the end of this path, with a word on the answer that was given.
function play(path, said = '') {
  Object.assign(game, { path, said, question: null });
  showGame();
}

// Makes a thread's next step; one that decides the call's way is asked for first.
function choose(pass) {
  const line = nextLine(pass);
  if (!line || game.question) return;
  if (!$('asks').checked || !QUESTIONS[stepIn(line)]) return play([...game.path, line]);
  game.question = line;
  showGame();
}

function guess(value) {
  const path = [...game.path, game.question];
  const isRight = foundLast(path) === value;
  game.guesses++;
  game.right += isRight ? 1 : 0;
  play(path, isRight ? 'Right. ' : 'No. ');
}

function undo() {
  play(game.question || game.path.length === game.head.length ? game.path : game.path.slice(0, -1));
}

function button(text, onClick, className = '') {
  const made = make('button', text, className);
  made.addEventListener('click', onClick);
  return made;
}

function threadButton(pass) {
  const line = nextLine(pass);
  const later = view.steps.find(it => it.line > game.path.length && passOf(it.text) === pass);
  const name = game.head.find(it => it.startsWith(`# p${pass}: `)).slice(2).replace(':', '');
  const rest = later ? 'waits for the lock' : 'has ended';
  const next = line ? `→ ${line.slice(3)}   ${later?.call ?? ''}` : rest;
  const made = button(`${name}\n${next}`, () => choose(pass));
  made.disabled = !line || Boolean(game.question);
  return made;
}

function showQuestion() {
  $('question').hidden = !game.question;
  if (!game.question) return;
  const [asked, ...answers] = QUESTIONS[stepIn(game.question)];
  $('question').textContent = `What does ${game.question} find: ${asked} `;
  $('question').append(...answers.map((it, value) => button(`${value}: ${it}`, () => guess(value))));
}

function tile(order, n, orders) {
  const isShown = game.isOpen || game.seen.has(order);
  const made = button(String(n + 1), () => play(order.lines), isShown ? (order.harms.length ? 'bad' : 'good') : '');
  made.disabled = !isShown;
  made.classList.toggle('at', fitting().length < orders.length && fitting().includes(order));
  return made;
}

function showVerdict(order, isOver) {
  const isHarmful = order.harms.length > 0;
  const verdict = `Order ${game.orders.indexOf(order) + 1}${isHarmful ? ` does harm. ${game.hint}` : ': nothing goes wrong.'}`;
  $('verdict').className = isHarmful ? 'bad' : 'good';
  $('verdict').textContent = isOver ? verdict : '';
  const harmful = game.orders.filter(it => it.harms.length);
  const isKnown = game.isOpen || game.seen.size === game.orders.length;
  const found = `${harmful.filter(it => game.seen.has(it)).length}${isKnown ? ` of ${harmful.length}` : ''}`;
  $('score').textContent = `${game.seen.size} of ${game.orders.length} orders tried, ${found} harmful found`
    + (game.guesses ? `; ${game.right} of ${game.guesses} answers right` : '');
}

function showGame() {
  const order = orderShown();
  const isOver = order.lines.length === game.path.length;
  const isStart = game.path.length === game.head.length;
  if (isOver) game.seen.add(order);
  if (view?.text !== asText(order.lines)) read(asText(order.lines), GAME_SIZE, false);
  showUpTo(game.path.length, isOver, true);
  if (isStart) $('sentence').textContent = 'Which thread makes the first step?';
  else $('sentence').prepend(game.said);
  $('threads').replaceChildren(...Object.keys(game.calls).map(threadButton));
  $('undo').disabled = isStart && !game.question;
  showQuestion();
  showVerdict(order, isOver);
  $('tiles').replaceChildren(...game.orders.map(tile));
}

function gameKey(e) {
  if (game.question && /^[01]$/.test(e.key)) guess(Number(e.key));
  else if (/^[123]$/.test(e.key)) choose(e.key);
  else if (/^(ArrowLeft|Backspace|k)$/.test(e.key)) undo();
  else if (e.key === 'Home') play(game.head);
  else return false;
  return true;
}

onClick({
  undo, again: () => play(game.head), reveal: () => [game.isOpen = true, showGame()], asks: () => play(game.path),
  'to-game': () => [setMode(true), startGame($('games').value)],
  edit: () => [setMode(false), load(asText(orderShown().lines), game.path.filter(isStep).length)],
});
$('games').append(...games.map(it => new Option(it.title, it.name)));
$('games').addEventListener('change', e => [startGame(e.target.value), e.target.blur()]);
addEventListener('hashchange', followLink);
document.querySelector('main').hidden = false;
followLink();
globalThis.ask = ask; // for the tests, and for a reader's console
