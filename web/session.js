'use strict';
// A session in the page itself: a run of hexd in a worker, in place of a server's process. It has the interface of
// board/page/session.js, and page.py puts it in its place.

/** hexd refused a request; the message is its line. */
class Refused extends Error {}

// A page's hexd has one thread.
const SETTINGS = {...JSON.parse(document.getElementById('given').textContent), workers: 1};
// The file that stands for a record (worker.js).
const RECORD = 'record.sgf';
// A module's memory never shrinks: past so many bytes the next game gets a new run.
const GROWN = 300_000_000;

/** The text of an answer of HTP, behind `=` and a space; Refused with it if it is a failure. */
function answered(answer) {
  const text = answer.slice(answer.indexOf(' ') + 1);
  if (answer.startsWith('=')) return text;
  throw new Refused(text);
}

class Session {
  constructor(words, run) { Object.assign(this, {words, run, solving: null, checking: null}); }

  static async settings() { return SETTINGS; }

  /** Opens a session of a hexd with these options. */
  static async open(options) {
    const words = ['htp', ...Object.entries(options).flatMap(([name, value]) => [`--${name}`, `${value}`])];
    return new Session(words, await Run.start(words));
  }

  /** There is always room. */
  static async makeRoom() {}

  /** Who is proved to win after Black's first stone on each cell of which it is known: 'black' or 'white' by vertex. */
  static async winners(size) { return winnersOf(size); }

  /** Who is proved to win after Black's first stone on this cell: 'black', 'white' or null. */
  static async winner(size, vertex) { return winnerOf(size, vertex); }

  /** The certificate of an opening of which it is proved who wins. */
  static async certificate(size, vertex) { return certificateOf(size, vertex); }

  /** The SHA-256 of the file with an opening's certificate, if the page has the file's name alone; else null. */
  static fileSum(size, vertex) { return listedOpening(size, vertex)?.[1] ?? null; }

  /** Takes an opening's certificate that `check` has accepted, and who wins by it, 'black' or 'white'. */
  static keepCertificate(size, vertex, given) { keepOpening(size, vertex, given); }

  /** What stands before the `#` of a link: nothing if the page lies on a disk, which nobody else has. */
  static get address() { return location.protocol === 'file:' ? '' : location.href.replace(/#.*/, ''); }

  /** The text that answers a line; Refused with hexd's words if it is a failure. */
  async ask(line) {
    if (line.startsWith('boardsize ')) await this.refresh();
    return answered(await this.run.ask(line));
  }

  /** Before a game is begun or loaded, when nothing is left of the last one: a new run if this one's memory has grown. */
  async refresh() {
    if (this.run.memory <= GROWN) return;
    const grown = this.run;
    this.run = await Run.start(this.words);
    grown.stop('its memory has grown');
  }

  /** The same, with null for a failure. */
  async tell(line) {
    try {
      return await this.ask(line);
    } catch (fault) {
      if (fault instanceof Refused) return null;
      throw fault;
    }
  }

  /** Has hexd load a record, a text or a file. */
  async load(record) {
    await this.refresh();
    this.run.give({file: new Uint8Array(await new Blob([record]).arrayBuffer())});
    await this.ask(`loadsgf ${RECORD}`);
  }

  /** What a second run says of a certificate; `close` ends it too. */
  async check(certificate) {
    this.checking = await Run.start(['check']);
    return this.checking.all(certificate);
  }

  /** What `hexd solve` says of the position of a record, in a run of its own, which `close` ends too. */
  async solve(record, budget) {
    this.solving = await Run.start(['solve', '--budget', `${budget}`]);
    return this.solving.all(record);
  }

  /** Ends the session. Who waits for an answer meets SessionLost. */
  close() { for (const run of [this.run, this.solving, this.checking]) run?.stop('it was closed'); }
}
