// What test.py runs in the page: runs of hexd whose bytes it sees. Bytes go and come as text, a letter for each.
'use strict';

const ofText = text => Uint8Array.from(text, letter => letter.charCodeAt(0));
const toText = pieces => pieces.map(bytes => Array.from(bytes, byte => String.fromCharCode(byte)).join('')).join('');

/** What stands in an element of the page, packed by gzip and in base 64. */
async function packedIn(id) {
  const packed = ofText(atob(document.getElementById(id).textContent));
  const stream = new Blob([packed]).stream().pipeThrough(new DecompressionStream('gzip'));
  return new Uint8Array(await new Response(stream).arrayBuffer());
}

/** One run: its output, its standard error, its status with the bytes of its memory, or its fault. */
function ran(module, {words, pieces, file}) {
  const source = new Blob([document.getElementById('worker').textContent]);
  const worker = new Worker(URL.createObjectURL(source)), wrote = {1: [], 2: []};
  return new Promise(done => {
    worker.onmessage = ({data: {fd, bytes, status, memory, fault}}) => {
      if (fd) wrote[fd].push(bytes);
      if (status === undefined && fault === undefined) return;
      worker.terminate();
      done({out: toText(wrote[1]), err: toText(wrote[2]), status, fault, memory});
    };
    if (file !== null) worker.postMessage({file: ofText(file)});
    worker.postMessage({module, words});
    for (const piece of pieces) worker.postMessage({input: typeof piece === 'string' ? ofText(piece) : piece});
    worker.postMessage({over: true});
  });
}

/** All of these runs, one behind the other; of the page's module, or of one whose memory has so many pages at most. */
async function allRan(cases, pages = null) {
  const bytes = await packedIn('hexd'), module = await WebAssembly.compile(pages === null ? bytes : narrowed(bytes, pages));
  const found = [];
  for (const it of cases) found.push(await ran(module, it));
  return found;
}

/** The module whose memory may not grow beyond so many pages. */
function narrowed(bytes, pages) {
  const MEMORY = 5, HAS_MOST = 1;
  // A number has seven bits in each byte, the lowest first.
  const end = at => { while (bytes[at] & 128) at++; return at + 1; };
  const value = at => bytes.subarray(at, end(at)).reduceRight((sum, byte) => sum * 128 + (byte & 127), 0);
  const number = it => (it < 128 ? [it] : [128 + it % 128, ...number(Math.floor(it / 128))]);
  let at = 8;
  while (bytes[at] !== MEMORY) at = end(at + 1) + value(at + 1);
  // Its length, that there is one memory, its flags, and its least pages.
  const flags = end(at + 1) + 1, least = bytes.slice(flags + 1, end(flags + 1));
  const section = [1, bytes[flags] | HAS_MOST, ...least, ...number(pages)], next = end(at + 1) + value(at + 1);
  return Uint8Array.from([...bytes.subarray(0, at), MEMORY, ...number(section.length), ...section, ...bytes.subarray(next)]);
}

/** `hexd check` of so many bytes 0. */
async function ofZeros(size) {
  const [found] = await allRan([{words: ['check'], pieces: [new Uint8Array(size)], file: null}]);
  return found;
}

/** Whether a request of this kind is refused. */
function tried(kind, address) {
  if (kind === 'fetch') return fetch(address).then(() => 'made', () => 'refused');
  return new Promise(done => {
    const made = document.createElement(kind === 'image' ? 'img' : 'script');
    made.onload = () => done('made');
    made.onerror = () => done('refused');
    made.src = address;
    document.body.append(made);
  });
}

/** What is said to who asks hexd for a line when its session is closed. */
async function closedWhileAsked(line) {
  const {session} = play.game, asked = session.ask(line).then(() => 'answered', fault => fault.message);
  session.close();
  return asked;
}

/** Which run the page's session has, by its worker's number among those that were asked for, and lets it have so much memory. */
const workers = [];
async function runOfPage(memory) {
  const {run} = play.game.session;
  run.memory = memory;
  if (!workers.includes(run.worker)) workers.push(run.worker);
  return workers.indexOf(run.worker);
}

/** What the page gets of a run whose memory has so many pages: its text, or why there is none. */
async function gotWithin(pages, words, input) {
  const run = new Run(await WebAssembly.compile(narrowed(await packedIn('hexd'), pages)), words);
  return run.all(input).catch(fault => fault.message);
}

Object.assign(window, {allRan, ofZeros, tried, closedWhileAsked, runOfPage, gotWithin});
