"""How the page lays out the module's memory for an answer, and what it says if there is none."""

# Notes each instance of the module, and of each call the places that it is given: where each begins, and its bytes.
WATCH = '''(() => {
  const Instance = WebAssembly.Instance;
  globalThis.instances = [];
  WebAssembly.Instance = function (...given) {
    const { exports } = new Instance(...given);
    const noted = { own: exports.memory.buffer.byteLength, calls: [] };
    const watch = (name, call) => (...words) => {
      const [text, textLength, answer, answerRoom, diagnosis, diagnosisRoom, lengths] = words.slice(-7).map(Number);
      const [heap, pieces] = [...new BigUint64Array(exports.memory.buffer, Number(words[0]), 2)].map(Number);
      noted.size = exports.memory.buffer.byteLength;
      noted.calls.push([[Number(words[0]), 16], [lengths, 16], [text, textLength], [answer, answerRoom],
        [diagnosis, diagnosisRoom], [heap, 16 * pieces]]);
      return call(...words);
    };
    instances.push(noted);
    const calls = Object.entries(exports).filter(([, it]) => typeof it === 'function');
    return { exports: { memory: exports.memory, ...Object.fromEntries(calls.map(it => [it[0], watch(...it)])) } };
  };
})()'''
NO_MEMORY = '''WebAssembly.Instance = class {
  memory = new WebAssembly.Memory({ initial: 1n, address: 'i64' });
  exports = new Proxy({ memory: this.memory }, { get: (it, name) => it[name] ?? (() => 1) });
}'''
NO_GROWTH = 'WebAssembly.Memory.prototype.grow = () => { throw new RangeError("no memory"); }'
STEPS = 'p1 arm 0\np1 test 0\n'


def visit_with(page, script, **parts):
    """Opens the page after a script that changes what the browser offers."""
    made = page.send('Page.addScriptToEvaluateOnNewDocument', source=script)['identifier']
    page.visit(**parts)
    page.send('Page.removeScriptToEvaluateOnNewDocument', identifier=made)


def are_apart(noted):
    """Whether places lie beside each other and the module's own memory, within what there is, each aligned as it must be."""
    places = sorted(it for it in noted['calls'][0] if it[1])
    ends = [noted['own'], *(at + size for at, size in places)]
    starts = [*(at for at, _ in places), noted['size']]
    memory, lengths, *_, heap = noted['calls'][0]
    aligned = memory[0] % 8 == lengths[0] % 8 == heap[0] % 16 == 0
    return aligned and all(end <= start for end, start in zip(ends, starts))


def test_layout(page, results):
    visit_with(page, WATCH)
    inputs = ['', 'x', STEPS, 'é' * 40_000, STEPS * 30_000]
    page.run(f'[{", ".join(map(repr, inputs))}].map(it => ask("csq_page_schedule", [8, 4, 0, 1], it)).length')
    noted = page.run('instances')
    results.expect('each answer is of an instance of its own', [it for it in noted if len(it['calls']) != 1], [])
    results.expect('whose places lie apart', [it for it in noted if not are_apart(it)], [])
    results.expect('a long text has more memory', len({it['size'] for it in noted[-2:]}), 2)


def test_little_memory(page, results):
    for script in (NO_MEMORY, NO_GROWTH):
        visit_with(page, script, s=STEPS, at=2)
        results.expect(f'too little memory is reported ({script[:28]})', page.each('#said li'),
                       ['There is too little memory for this schedule.'])
