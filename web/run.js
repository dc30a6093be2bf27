'use strict';
// Runs of hexd in the page: the module, compiled once, and a worker for each run of it (worker.js).

/** The session is no more, or there can be none; the message says why. */
class SessionLost extends Error {}

// What page.py has put into the page: the module, with how it is used.
const HEXD = document.getElementById('hexd');
// The smallest module with a memory of 64 bits.
const MEMORY_OF_64_BITS = Uint8Array.of(0, 97, 115, 109, 1, 0, 0, 0, 5, 3, 1, 4, 1);

const bytesOf = text => new TextEncoder().encode(text);

/** The bytes that stand in an element, packed by gzip and in base 64. */
async function unpacked(element) {
  const packed = Uint8Array.from(atob(element.textContent), letter => letter.charCodeAt(0));
  const stream = new Blob([packed]).stream().pipeThrough(new DecompressionStream('gzip'));
  return new Uint8Array(await new Response(stream).arrayBuffer());
}

/** A function that calls another one once, and gives what that gave each time. */
function once(use) {
  let given;
  return () => given ??= use();
}

const moduleOfPage = once(async () => {
  if (!('Suspending' in WebAssembly) || !WebAssembly.validate(MEMORY_OF_64_BITS)) {
    throw new SessionLost(`This browser lacks 64-bit memories or suspending of WebAssembly, which hexd needs here; ${
      HEXD.dataset.tried} have them.`);
  }
  try {
    return await WebAssembly.compile(await unpacked(HEXD));
  } catch (fault) {
    throw new SessionLost(`hexd can't run in this page: its module is damaged (${fault.message}).`);
  }
});

const workerOfPage = once(() =>
  URL.createObjectURL(new Blob([document.getElementById('worker').textContent], {type: 'text/javascript'})));

/** One run of hexd. */
class Run {
  static async start(words) { return new Run(await moduleOfPage(), words); }

  constructor(module, words) {
    this.worker = new Worker(workerOfPage());
    this.decoder = new TextDecoder();
    this.text = this.errors = '';
    this.memory = 0;
    this.asked = [];
    this.ended = new Promise((done, lost) => { Object.assign(this, {done, lost}); });
    this.ended.catch(() => {});
    this.worker.onmessage = ({data}) => this.hear(data);
    this.worker.onerror = ({message}) => this.stop(message);
    this.worker.postMessage({module, words});
  }

  hear({fd, bytes, memory, status, fault}) {
    this.memory = memory ?? this.memory;
    if (fd === 1) {
      this.text += this.decoder.decode(bytes, {stream: true});
      this.answer();
    }
    if (fd === 2) this.errors += new TextDecoder().decode(bytes);
    if (status !== undefined) {
      const why = `hexd ended with status ${status}${this.errors && ` (${this.errors.trim()})`}`;
      // With another one it has come to no end, and what it wrote is no answer (docs/use/MANUAL.md).
      if (status <= 1) this.done(this.text);
      else this.lost(Object.assign(new Error(`${why}: that is no answer.`), {isTold: true}));
      this.stop(why);
    }
    if (fault !== undefined) this.stop(fault);
  }

  /** Gives each whole answer, which an empty line ends, to who asked first. */
  answer() {
    let at;
    while (this.asked.length && (at = this.text.indexOf('\n\n')) >= 0) {
      this.asked.shift().done(this.text.slice(0, at));
      this.text = this.text.slice(at + 2);
    }
  }

  /** Ends the run; who waits for an answer gets none. */
  stop(why) {
    this.lack ??= new SessionLost(`The session has ended: ${why}.`);
    this.worker.terminate();
    this.lost(this.lack);
    for (const {lost} of this.asked.splice(0)) lost(this.lack);
  }

  give(message) { this.worker.postMessage(message); }

  /** hexd's answer to a line. */
  ask(line) {
    if (this.lack) return Promise.reject(this.lack);
    return new Promise((done, lost) => {
      this.asked.push({done, lost});
      this.give({input: bytesOf(`${line}\n`)});
    });
  }

  /** All that hexd writes of a whole input. */
  async all(input) {
    this.give({input: bytesOf(input), over: true});
    return (await this.ended).trimEnd();
  }
}

/** What hexd says of a certificate, in a run of its own. */
const checked = async certificate => (await Run.start(['check'])).all(certificate);
