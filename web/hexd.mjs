// hexd in a program in JavaScript: a run of it, compiled for WebAssembly, in a worker of its own. It runs in Node and in
// browsers that have 64-bit memories, in a page or in a worker. Beside it lie worker.js, the host, and node.cjs, for Node.
//
//   const hexd = await Hexd.start(module, 'htp', '--size', '5');
//   const {done, text} = await hexd.ask('genmove b');
//   hexd.close();
//
// `module` is what WebAssembly.compile makes of hexd.wasm, which `make wasm` writes, or the bytes or the place of that.

const isNode = typeof process === 'object' && Boolean(process.versions?.node);
const beside = name => new URL(name, import.meta.url);
// The smallest module with a memory of 64 bits.
const MEMORY_OF_64_BITS = Uint8Array.of(0, 97, 115, 109, 1, 0, 0, 0, 5, 3, 1, 4, 1);
// The file that stands for a record (worker.js).
const RECORD = 'record.sgf';

/** The run is no more; the message says why, and `status` how hexd ended, if it did. */
export class HexdEnded extends Error {
  constructor(why, status = null) {
    super(why);
    this.status = status;
  }
}

const encoded = content => (typeof content === 'string' ? new TextEncoder().encode(content) : content);

/** Sees to it that memories of 64 bits can be had. */
async function allowMemory() {
  if (isNode && !WebAssembly.validate(MEMORY_OF_64_BITS)) {
    (await import('node:v8')).setFlagsFromString('--experimental-wasm-memory64');
  }
  if (!WebAssembly.validate(MEMORY_OF_64_BITS) || !isNode && !('Suspending' in WebAssembly)) {
    throw new HexdEnded('hexd needs 64-bit memories of WebAssembly, and in a browser suspending');
  }
}

/** The bytes of a file of Node, or of an address. */
async function bytesOf(place) {
  if (!isNode || /^https?:/.test(place)) return (await fetch(place)).arrayBuffer();
  return (await import('node:fs/promises')).readFile(place);
}

/** The compiled module of hexd, for several runs. */
export async function compiled(module) {
  await allowMemory();
  if (module instanceof WebAssembly.Module) return module;
  const isPlace = typeof module === 'string' || module instanceof URL;
  return WebAssembly.compile(isPlace ? await bytesOf(module) : module);
}

/** A worker with `send`, which hands it a message, and `hear`, which takes each of its own. */
async function startWorker(hear, fail) {
  if (!isNode) {
    const worker = new Worker(beside('worker.js'));
    worker.onmessage = ({data}) => hear(data);
    worker.onerror = ({message}) => fail(message ?? 'worker.js is not there');
    return {send: message => worker.postMessage(message), end: () => worker.terminate()};
  }
  // A read of hexd's waits in the worker's thread, and this number says that there is more.
  const {Worker: Thread} = await import('node:worker_threads'), sent = new Int32Array(new SharedArrayBuffer(4));
  const worker = new Thread(beside('node.cjs'), {workerData: sent});
  worker.on('message', hear).on('error', fault => fail(fault.message));
  const send = message => {
    worker.postMessage(message);
    Atomics.add(sent, 0, 1);
    Atomics.notify(sent, 0);
  };
  return {send, end: () => worker.terminate()};
}

/** A run of hexd. */
export class Hexd {
  /** Starts one with these words, as `htp` or `solve`. */
  static async start(module, ...words) {
    const run = new Hexd(), code = await compiled(module);
    run.worker = await startWorker(data => run.hear(data), why => run.stop(why));
    run.worker.send({module: code, words: words.map(String)});
    return run;
  }

  constructor() {
    Object.assign(this, {decoder: new TextDecoder(), text: '', errors: '', asked: [], lack: null});
    this.ended = new Promise((done, lost) => { Object.assign(this, {done, lost}); });
    this.ended.catch(() => {});
  }

  hear({fd, bytes, status, fault}) {
    if (fd === 1) this.text += this.decoder.decode(bytes, {stream: true});
    if (fd === 2) this.errors += new TextDecoder().decode(bytes);
    this.answer();
    if (status !== undefined) {
      this.done({status, text: this.text, errors: this.errors});
      this.stop(`hexd ended with status ${status}`, status);
    }
    if (fault !== undefined) this.stop(fault);
  }

  /** Gives each whole answer, which an empty line ends, to who asked first. */
  answer() {
    let at;
    while (this.asked.length && (at = this.text.indexOf('\n\n')) >= 0) {
      const whole = this.text.slice(0, at);
      this.text = this.text.slice(at + 2);
      this.asked.shift().done({done: whole.startsWith('='), text: whole.slice(whole.indexOf(' ') + 1)});
    }
  }

  /** hexd's answer to a line: {done, text}, whether it was done, and its text. */
  async ask(line) {
    if (this.lack) throw this.lack;
    if (/\n/.test(line) || !/^[^#]*[^#\s]/.test(line)) throw new TypeError(`hexd doesn't answer '${line}' once`);
    return new Promise((done, lost) => {
      this.asked.push({done, lost});
      this.worker.send({input: encoded(`${line}\n`)});
    });
  }

  /** Has hexd load a record, a text or bytes. */
  load(record) {
    this.keep(record);
    return this.ask(`loadsgf ${RECORD}`);
  }

  /** Says what the name record.sgf stands for, until it is said anew. */
  keep(record) { this.worker.send({file: encoded(record)}); }

  /** What hexd writes of a whole input, a text or bytes, as a certificate for `check`: {status, text, errors}. */
  all(input) {
    this.worker.send({input: encoded(input)});
    this.worker.send({over: true});
    return this.ended;
  }

  stop(why, status = null) {
    this.lack ??= new HexdEnded(why, status);
    this.worker.end();
    this.lost(this.lack);
    for (const {lost} of this.asked.splice(0)) lost(this.lack);
  }

  /** Ends the run, whatever it does. */
  close() { this.stop('it was closed'); }
}
