'use strict';
// What hexd said in the games of this browser, in its database: after a reload, or when Back brings a game again, the analysis,
// the plot and the proofs are there. A certificate stands there as its text, and is read anew.

// So many positions are kept, the newest.
const MOST_KEPT = 2000;
// What of a position is kept; its name in the database is the game's, and the moves that lead to it.
const SAID = ['thought', 'solved', 'opening', 'why', 'lines'];
const MOVES = {name: 'said', key: ['game', 'moves'], index: 'when'};

/** What a request of the database gives. */
const given = asked => new Promise((done, lost) => {
  asked.onsuccess = () => done(asked.result);
  asked.onerror = () => lost(asked.error);
});

/** A position's name among those of its game: with the board, for an empty game leaves its place, and its id, to another one's. */
const movesTo = ({tree: {size, start, root}, path, number}) =>
  `${root.mover} ${linkOf({size, start, steps: path.slice(1).map(({step}) => step), position: number})}`;

const saidOf = position => Object.fromEntries(SAID.map(name => [name, position[name] ?? null]));

/** What was said without what a database doesn't take, and as it was. */
const plainSaid = said => (said?.proof ? {...said, proof: true} : said);
const wholeSaid = said => (said?.proof ? {...said, proof: readCertificate(said.certificate)} : said);

class Store {
  constructor() {
    // The positions of which all is kept, each with what that was.
    this.written = new WeakMap();
  }

  /** The database; where there is none, as in some private windows, what was said lasts as long as the page. */
  async database() {
    const asked = indexedDB.open(KEPT, 1);
    asked.onupgradeneeded = () =>
      asked.result.createObjectStore(MOVES.name, {keyPath: MOVES.key}).createIndex(MOVES.index, MOVES.index);
    return given(asked);
  }

  async table(mode) {
    this.opened ??= this.database();
    return (await this.opened).transaction(MOVES.name, mode).objectStore(MOVES.name);
  }

  isWritten(position) {
    const written = this.written.get(position) ?? {};
    return SAID.every(name => (written[name] ?? null) === (position[name] ?? null));
  }

  /** Keeps what was said of each position of a tree since it was kept last. */
  async keep(tree) {
    const others = tree.positions.filter(position => !this.isWritten(position));
    if (!others.length) return;
    for (const position of others) this.written.set(position, saidOf(position));
    try {
      const table = await this.table('readwrite');
      for (const position of others) await given(table.put(keptRow(tree, position)));
      await this.forgetOld(table);
    } catch {
      // Without a database it lasts as long as the page.
    }
  }

  async forgetOld(table) {
    const left = await given(table.count()) - MOST_KEPT;
    if (left <= 0) return;
    for (const key of await given(table.index(MOVES.index).getAllKeys(null, left))) table.delete(key);
  }

  /** Gives the positions of a tree what is kept of them. */
  async fill(tree) {
    try {
      const rows = await given((await this.table('readonly')).getAll(IDBKeyRange.bound([tree.id, ''], [tree.id, '\uffff'])));
      const byMoves = new Map(rows.map(row => [row.moves, row]));
      const positions = [...tree.positions, ...tree.cuts.flatMap(({position}) => branchOf(position))];
      for (const position of positions) this.fillPosition(position, byMoves.get(movesTo(position)));
    } catch {
      // As in `keep`.
    }
  }

  fillPosition(position, row) {
    if (!row) return;
    for (const name of SAID) if (row[name]) position[name] ??= wholeSaid(row[name]);
    this.written.set(position, saidOf(position));
  }
}

/** What the database has of a position. */
function keptRow(tree, position) {
  const said = Object.fromEntries(Object.entries(saidOf(position)).map(([name, value]) => [name, plainSaid(value)]));
  return {game: tree.id, moves: movesTo(position), when: Date.now(), ...said};
}
