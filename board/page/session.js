'use strict';
// A session of the server: one process `hexd htp`, to which lines are sent and by which they are answered. All that the page
// asks of a network stands in this file. Another class Session with the same interface may take its place, as one whose hexd
// runs in the page itself.

/** The session is no more, or the server isn't there; the message says why. `full`: `Session.makeRoom` may help.
 *  `isUnknown`: the server doesn't know the session, for it was started anew. */
class SessionLost extends Error {}

/** hexd, or the server, refused a request; the message is its line. */
class Refused extends Error {}

// What stays to be done with a page whose token the server doesn't take.
const EARLIER = 'This page is of an earlier start of bin/hexd-board. Open the address that it prints now, and paste this ' +
  'page\'s address into its \'Link or moves\': it has the game.';

/** Sends a request below the address of the page, and gives the text that answers it. */
async function request(method, path, body) {
  let response;
  try {
    response = await fetch(path, {method, body});
  } catch {
    throw new SessionLost('The server does not answer. Is bin/hexd-board still running? The game is in this page: start it anew.');
  }
  const text = (await response.text()).trimEnd();
  if (response.ok) return text;
  throw faultOf(response.status, text);
}

/** What a request meets that isn't done, by its status and line. `isTold`: the message is all that there is to say. */
function faultOf(status, text) {
  switch (status) {
    case 403: return new SessionLost(EARLIER);
    case 404: return Object.assign(new SessionLost(`The session has ended: ${text}.`), {isUnknown: true});
    case 410: return new SessionLost(`The session has ended: ${text}.`);
    case 429: return Object.assign(new SessionLost(`The server has no place: ${text}.`), {full: true});
    case 500: return Object.assign(new Error(`The server: ${text}`), {isTold: true});
    default: return new Refused(text);
  }
}

/** The text of an answer of HTP, behind `=` and a space; Refused with it where it is a failure. */
function answered(answer) {
  const text = answer.slice(answer.indexOf(' ') + 1);
  if (answer.startsWith('=')) return text;
  throw new Refused(text);
}

class Session {
  constructor(name) { this.path = `session/${name}`; }

  /** board/settings.json as `table`, the options that the server was `started` with, if any, how many `workers` search, and
      what is `guessed` of openings (board/guessed.json). */
  static async settings() { return JSON.parse(await request('GET', 'settings')); }

  /** Opens a session of a hexd with these options. */
  static async open(options) { return new Session(await request('POST', 'session', optionText(options))); }

  /** Ends the session that was not used for the longest time, so that there is room for one more. */
  static async makeRoom() { await request('POST', 'room'); }

  /** Who is proved to win after Black's first stone, by the cells of a size for which that is known: 'black' or 'white'. */
  static async winners(size) { return JSON.parse(await request('GET', `openings/${size}`)); }

  /** Who is proved to win after Black's first stone on this cell: 'black', 'white' or null. */
  static async winner(size, vertex) { return JSON.parse(await request('GET', `openings/${size}-${vertex}`)); }

  /** The certificate of an opening of which it is proved who wins. */
  static async certificate(size, vertex) { return request('GET', `openings/${size}-${vertex}/certificate`); }

  /** The SHA-256 of the file with an opening's certificate, if the page has the file's name alone: here it has none so. */
  static fileSum() { return null; }

  /** Takes an opening's certificate that `check` has accepted, and who wins by it: here the server has its own. */
  static keepCertificate() {}

  /** What stands before the `#` of a link. It has not the server's token. */
  static get address() { return `${location.origin}/`; }

  /** The text that answers a line; Refused with hexd's words where it is a failure. */
  async ask(line) { return answered(await request('POST', `${this.path}/htp`, line)); }

  /** The same, with null for a failure. */
  async tell(line) {
    try {
      return await this.ask(line);
    } catch (fault) {
      if (fault instanceof Refused) return null;
      throw fault;
    }
  }

  /** Has hexd load the text of a record in its form. */
  async load(record) { answered(await request('POST', `${this.path}/record`, record)); }

  /** What a second process says of a certificate. */
  async check(certificate) { return request('POST', `${this.path}/check`, certificate); }

  /** What `hexd solve` says of the position of a record, by a process of its own, which `close` ends too. */
  async solve(record, budget) { return request('POST', `${this.path}/solve/${budget}`, record); }

  /** Ends the session, also while the page goes away; the promise is kept once it has ended. Who waits for an answer meets
      SessionLost. */
  close() { return fetch(this.path, {method: 'DELETE', keepalive: true}).catch(() => {}); }
}
