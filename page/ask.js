// Lays out memory, calls the module and reads what it answers: of all scripts the one that the answers rest on.
const PAGE = 65536; // a page of memory
const PIECE = 16; // the module counts what it may allocate in pieces of this many bytes
const HEAPS = [1 << 23, 1 << 26, 1 << 29]; // bytes for one answer: the first is enough for all but long schedules
const [NO_MEMORY, STOPPED, NO_ROOM] = [1, 2, 4]; // 0: all lines were handled; 3: the size is out of range
const bytes = Uint8Array.from(atob(document.getElementById('module').textContent), it => it.charCodeAt(0));
const compiled = await WebAssembly.compile(bytes).catch(error => {
  document.getElementById('lacks').hidden = false;
  throw error;
});

// Makes one answer in an instance of its own, so that none depends on an earlier one.
function askWith(heapSize, name, numbers, input) {
  const { exports } = new WebAssembly.Instance(compiled);
  const text = new TextEncoder().encode(input);
  const room = heapSize / 8;
  const sizes = [PAGE, text.length, room, room, heapSize].map(size => Math.ceil(size / PAGE) * PAGE);
  const pages = sizes.reduce((sum, size) => sum + size, 0) / PAGE;
  let at = Number(exports.memory.grow(BigInt(pages))) * PAGE;
  const [told, given, answer, diagnosis, heap] = sizes.map(size => (at += size) - size);
  const words = new BigUint64Array(exports.memory.buffer, told, 4); // both lengths, then the heap and its pieces
  words.set([0n, 0n, BigInt(heap), BigInt(heapSize / PIECE)]);
  new Uint8Array(exports.memory.buffer).set(text, given);
  const slices = [given, text.length, answer, room, diagnosis, room].map(BigInt);
  const status = exports[name](BigInt(told + 16), ...numbers, ...slices, BigInt(told));
  const lengths = status === 0 || status === STOPPED ? [...words.subarray(0, 2)] : [0n, 0n];
  const read = (from, length) =>
    new TextDecoder('utf-8', { ignoreBOM: true }).decode(new Uint8Array(exports.memory.buffer, from, Number(length)));
  return { status, answer: read(answer, lengths[0]), diagnosis: read(diagnosis, lengths[1]) };
}

function ask(name, numbers, input) {
  try {
    for (const heapSize of HEAPS) {
      const told = askWith(heapSize, name, numbers, input);
      if (told.status !== NO_MEMORY && told.status !== NO_ROOM) return told;
    }
  } catch (error) {
    if (!(error instanceof RangeError)) throw error; // the browser has no such memory
  }
  return { status: NO_MEMORY, answer: '', diagnosis: '' };
}
