'use strict';
// What a certificate says, line by line, so that it can be drawn and followed: the two elements that a line links, the cell
// or group between them, and the carrier. Whether the certificate is right is hexd's to say (`hexd check`), not this file's.

/** The neighbours of a cell on a board. */
function neighboursOf(vertex, size) {
  const column = columnOf(vertex), row = rowOf(vertex);
  return [[-1, 0], [1, 0], [0, -1], [0, 1], [1, -1], [-1, 1]]
    .map(([columns, rows]) => [column + columns, row + rows])
    .filter(([c, r]) => c >= 0 && r >= 0 && c < size && r < size)
    .map(([c, r]) => vertexAt(c, r));
}

/** The ends as lines name them (vertices, edge1, edge2), each to its element: an empty cell, or a group of the player. */
function elementsOf({size, player, own}) {
  const found = new Map(), index = {b: rowOf, w: columnOf}[player], stones = new Set(own);
  const next = end => {
    if (end === 'edge1') return own.filter(vertex => index(vertex) === 0);
    if (end === 'edge2') return own.filter(vertex => index(vertex) === size - 1);
    const edges = [];
    if (index(end) === 0) edges.push('edge1');
    if (index(end) === size - 1) edges.push('edge2');
    return edges.concat(neighboursOf(end, size).filter(vertex => stones.has(vertex)));
  };
  for (const start of ['edge1', 'edge2', ...own]) {
    if (found.has(start)) continue;
    const members = [start], element = {members, empty: false};
    found.set(start, element);
    for (const member of members) {
      for (const end of next(member)) {
        if (found.has(end)) continue;
        found.set(end, element);
        members.push(end);
      }
    }
    element.cells = members.filter(end => !end.startsWith('edge'));
    element.edges = members.filter(end => end.startsWith('edge'));
    element.name = element.edges.map(edge => edgeNames(size)[player][edge === 'edge1' ? 0 : 1]).join(' and ') ||
      (element.cells.length > 1 ? `the stones of ${start}` : `the stone ${start}`);
  }
  return end => {
    if (!found.has(end)) found.set(end, {members: [end], cells: [end], edges: [], empty: true, name: end});
    return found.get(end);
  };
}

/** The two entries of `and` and `key`: the element that they share, and the two others. */
function joined(one, two) {
  for (const [at, shared] of one.ends.entries()) {
    const place = two.ends.indexOf(shared);
    if (place >= 0) return {shared, ends: [one.ends[1 - at], two.ends[1 - place]]};
  }
  return {shared: null, ends: one.ends};
}

/** A set of cells as the bits of a number: quick to join for the many lines of a solver's certificate. */
const bitOf = (vertex, size) => 1n << BigInt(rowOf(vertex) * size + columnOf(vertex));

/** The entry of one line. `parts` are the entries that it takes, `cell` where its player moves, `mask` its carrier. */
class Entry {
  constructor(text, rule, given, board) {
    Object.assign(this, {text, rule, given, board, parts: [], ends: null, between: null, cell: null, mask: 0n});
  }

  has(vertex) { return (this.mask & bitOf(vertex, this.board.size)) !== 0n; }

  get carrier() {
    return new Set(verticesOf(this.board.size).filter(vertex => this.has(vertex)));
  }

  /** What the line says, in words. */
  get words() {
    const {rule, given, between, cell, board: {player}} = this, mine = COLOURS[player];
    if (rule === 'put') return given.length ? `now with ${mine}'s stones on ${given.join(' ')} too` : 'now with no stone more';
    const names = `${this.ends[0].name} and ${this.ends[1].name}`, lines = given.join(given.length > 2 ? ', ' : ' or ');
    if (rule === 'adj') return `${names} touch`;
    if (rule === 'or' || rule === 'cases') return `${names} are linked: whatever comes, line ${lines} is left`;
    if (rule === 'and') return `${names} are linked, through ${between.name}`;
    if (rule === 'lift') return `${names} are linked: these stones more leave what line ${lines} links`;
    if (rule === 'done') return `${names} are linked by stones`;
    return `${names} are linked once ${mine} plays ${cell}`;
  }
}

/** Fills in what one line gives, from the entries that it takes. `scope` are the stones of the last `put`. */
function fill(entry, elementOf, scope) {
  const {rule, given, parts, board: {size}} = entry;
  for (const {mask} of parts) entry.mask |= mask;
  if (rule === 'adj') entry.ends = given.map(elementOf);
  else if (rule === 'or') entry.ends = parts[0].ends;
  else if (rule === 'lift') entry.ends = parts[0].ends.map(({members}) => elementOf(members[0]));
  else if (rule === 'and' || rule === 'key') ({shared: entry.between, ends: entry.ends} = joined(...parts));
  else if (rule !== 'put') entry.ends = [elementOf('edge1'), elementOf('edge2')];
  if (rule === 'key') [entry.cell] = entry.between.cells;
  if (rule === 'move') [entry.cell] = given;
  if (rule === 'lift') entry.cell = parts[0].cell;
  if (entry.cell) entry.mask |= bitOf(entry.cell, size);
  if (rule === 'lift') for (const vertex of scope) entry.mask &= ~bitOf(vertex, size);
  return entry;
}

/** A certificate that is read line by line: a long one in parts. */
class CertificateReading {
  constructor(text) {
    const [, size, player, black, white, ...rest] = text.trimEnd().split('\n'), value = line => line.split(' ')[1];
    this.board = {size: Number(value(size)), player: value(player)[0]};
    this.own = (this.board.player === 'b' ? black : white).split(' ').slice(1);
    this.claim = rest.pop().split(' ');
    Object.assign(this, {rest, lines: [], scopes: new Map()});
    this.enter([]);
  }

  /** The scope of the lines from here on. */
  enter(scope) {
    const key = scope.join(' ');
    if (!this.scopes.has(key)) this.scopes.set(key, elementsOf({...this.board, own: [...this.own, ...scope]}));
    Object.assign(this, {scope, elementOf: this.scopes.get(key)});
  }

  /** Reads so many lines more, and says whether any are left. */
  read(count) {
    const end = Math.min(this.rest.length, this.lines.length + count);
    while (this.lines.length < end) this.take(this.rest[this.lines.length]);
    return end < this.rest.length;
  }

  take(text) {
    const [rule, ...given] = text.split(' '), entry = new Entry(text, rule, given, this.board);
    const numbers = {adj: [], put: [], done: [], move: given.slice(1)}[rule] ?? given;
    entry.parts = numbers.map(number => this.lines[Number(number)]);
    if (rule === 'put') this.enter(given);
    this.lines.push(fill(entry, this.elementOf, this.scope));
  }

  get whole() {
    const {board: {size, player}, claim: [kind, number], lines} = this;
    return {size, player, claim: kind, lines, claimed: lines[Number(number)]};
  }
}

/** A certificate: {size, player, claim ('full' or 'semi'), lines, claimed (the entry that the claim names)}. */
function readCertificate(text) {
  const reading = new CertificateReading(text);
  reading.read(Infinity);
  return reading.whole;
}

/** The stones of a certificate's board, as pairs of a vertex and a colour. */
const certificateStones = text => text.split('\n', 5).slice(3).flatMap(line => {
  const [name, ...cells] = line.split(' ');
  return cells.map(vertex => [vertex, name[0]]);
});

/** What is marked on a board for one line: its ends, what lies between them, and its carrier. */
function lineMarks({ends, between, carrier, given, rule}, player) {
  if (rule === 'put') return {ends: new Set(given)};
  const edges = ends.concat(between ?? []).flatMap(element => element.edges)
    .map(edge => (edge === 'edge1' ? 0 : 1) + (player === 'b' ? 0 : 2));
  const middle = between?.empty ? between.cells[0] : null;
  const cells = ends.concat(middle ? [] : between ?? []).flatMap(element => element.cells);
  return {carrier, ends: new Set(cells), edges: new Set(edges), middle};
}

/** The claim in words. */
function claimWords({size, player, claim}) {
  const [mine, his] = [COLOURS[player], COLOURS[other(player)]], [first, second] = edgeNames(size)[player];
  const when = claim === 'semi' ? `if ${mine} moves first` : `even if ${his} moves first`;
  return `${mine} joins ${first} and ${second} ${when}, whatever ${his} replies, inside the marked cells.`;
}

/** What the second process said of a certificate, in words. */
const checkWords = said =>
  (/^yes (full|semi)$/.test(said) ? 'hexd check accepts it, in a run of its own.' : `hexd check refuses it: ${said}`);
