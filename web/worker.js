'use strict';
// The host of one run of hexd: it gives the module what Linux gives the program. It is sent {module, words}, and then pieces
// of its standard input as {input}, an array of bytes; {over: true} ends that. {file} is what the name record.sgf stands
// for. It sends {fd, bytes} for each write, and at the end {status} or {fault}; with {memory}, the bytes that it has.

const FILE_NAME = 'record.sgf';
const FILE = 3;
// Linux's number of the error that there is no such file, and the answers of `rattle_arg`.
const NO_FILE = -2, NO_WORD = -1, NO_ROOM = -2;

/** Ends the run from within. */
class Exit {
  constructor(status) { this.status = status; }
}

const input = {pieces: [], over: false, wake: () => {}};
const file = {content: null, at: 0};
let memory, words;

const bytesAt = (place, count) => new Uint8Array(memory.buffer, Number(place), Number(count));

function textAt(place) {
  const bytes = new Uint8Array(memory.buffer, Number(place));
  return new TextDecoder().decode(bytes.slice(0, bytes.indexOf(0)));
}

/** Puts what there is room for of the bytes behind `at` into the module's memory, and gives their number. */
function put(place, room, bytes, at = 0) {
  const part = bytes.subarray(at, at + Number(room));
  bytesAt(place, part.length).set(part);
  return part.length;
}

/** One read of standard input: it waits until there is a byte, or until there will be none. */
async function readInput(place, room) {
  while (!input.pieces.length && !input.over) await new Promise(done => { input.wake = done; });
  if (!input.pieces.length) return 0;
  const [piece] = input.pieces, count = put(place, room, piece);
  if (count === piece.length) input.pieces.shift();
  else input.pieces[0] = piece.subarray(count);
  return count;
}

function readFile(place, room) {
  const count = put(place, room, file.content, file.at);
  file.at += count;
  return count;
}

const hasFile = path => file.content !== null && textAt(path) === FILE_NAME;

const host = {
  read: new WebAssembly.Suspending(async (fd, place, room) =>
    BigInt(fd === FILE ? readFile(place, room) : await readInput(place, room))),
  write(fd, place, count) {
    postMessage({fd, bytes: bytesAt(place, count).slice(), memory: memory.buffer.byteLength});
    return count;
  },
  open(path) {
    if (!hasFile(path)) return NO_FILE;
    file.at = 0;
    return FILE;
  },
  size: path => BigInt(hasFile(path) ? file.content.length : NO_FILE),
  word(index, place, room) {
    if (index >= words.length) return BigInt(NO_WORD);
    const bytes = new TextEncoder().encode(words[Number(index)]);
    const count = put(place, room, bytes);
    return BigInt(count === bytes.length ? count : NO_ROOM);
  },
  exit(status) { throw new Exit(status); },
};

/** Runs the module to its end. */
async function run(module) {
  const {exports} = await WebAssembly.instantiate(module, {host});
  memory = exports.memory;
  try {
    return await WebAssembly.promising(exports.run)();
  } catch (end) {
    if (end instanceof Exit) return end.status;
    throw end;
  }
}

async function start({module, words: given}) {
  words = ['hexd', ...given];
  try {
    postMessage({status: await run(module), memory: memory.buffer.byteLength});
  } catch (fault) {
    postMessage({fault: String(fault)});
  }
}

onmessage = ({data}) => {
  if (data.file) file.content = data.file;
  if (data.input?.length) input.pieces.push(data.input);
  if (data.over) input.over = true;
  if (data.module) start(data);
  input.wake();
};
