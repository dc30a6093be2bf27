'use strict';
// Records of games (SGF) of whatever program, in the form in which hexd reads them. What another program writes otherwise is
// put right here: other character sets, capitals, `swap`, cells in two letters (`ce` for c5), passes, stones that are set
// behind the root, and White as the first to move where Black swaps. What is legal hexd says. ../records.py does the same for
// reports and hexd-gtp; both are tested by ../tests/table.py.

const ENDINGS = ['resign', 'forfeit'];
// So many changes of a record are told.
const MOST_NOTES = 20;
const TURNED = {B: 'W', W: 'B'};
// What names a colour: the result, and who is to move.
const OF_COLOURS = ['RE', 'PL'];
// What sets stones, and what takes them away.
const STONES = ['AB', 'AW'];
const AWAY = 'AE';
// What belongs to a player, and changes sides with him.
const OF_PLAYERS = {PB: 'PW', PW: 'PB', BR: 'WR', WR: 'BR', BT: 'WT', WT: 'BT', BL: 'WL', WL: 'BL'};

/** The text of a file: in UTF-8, else in the character set that it names, else with a character for each byte. */
function recordText(bytes) {
  const plain = new TextDecoder('latin1').decode(bytes), named = /CA\[([\w.:-]+)\]/.exec(plain)?.[1];
  for (const name of ['utf-8', ...named ? [named] : []]) {
    try {
      return new TextDecoder(name, {fatal: true}).decode(bytes);
    } catch {
      // It is in another one.
    }
  }
  return plain;
}

/** A cell in hexd's form, from `c5` or `ce`; null if it is none. `crossed` exchanges rows with columns. */
function cellOf(value, crossed = false) {
  const found = /^([a-z])([1-9][0-9]?|[a-z])$/.exec(value.trim().toLowerCase());
  if (!found) return null;
  const numberOf = letter => letter.charCodeAt(0) - 'a'.charCodeAt(0);
  const place = [numberOf(found[1]), /[0-9]/.test(found[2]) ? Number(found[2]) - 1 : numberOf(found[2])];
  const [column, row] = crossed ? place.reverse() : place;
  return column < 26 ? `${String.fromCharCode('a'.charCodeAt(0) + column)}${row + 1}` : null;
}

/** The size of the board in a record: a number, or the same one twice. */
function sizeOf({GM: [game] = ['11'], SZ: [size] = ['11']}) {
  if (game.trim() !== '11') throw new Refused(`it is a record of another game than Hex: GM[${shownValue(game)}]`);
  const number = Number(/^(\d{1,4})(?::\1)?$/.exec(size.trim())?.[1]);
  if (!(number >= 1 && number <= LETTERS.length)) throw new Refused(`size ${shownValue(size)}: hexd plays 1 to ${LETTERS.length}`);
  return number;
}

const movesIn = ({properties}) => ['B', 'W'].flatMap(name => (properties[name] ?? []).map(value => [name, value]));
const quoted = value => `'${shownValue(value)}'`;
const passWords = (player, number) => `Move ${number} is a pass of ${player}'s, which Hex hasn't: it is left out.`;
const endWords = (player, number) => `${player} resigns at move ${number}.`;
const isSwap = value => ['swap', SWAP].includes(value.trim().toLowerCase());

/** The stones of the start, while nodes set others and take some away. A record may do so a hundred thousand times. */
class Setting {
  constructor(start) {
    // Each stone that was set, and by its cell those that lie.
    Object.assign(this, {set: [], lying: new Map(), isUsed: false});
    for (const name of STONES) for (const value of start[name] ?? []) this.put(name, value);
  }

  put(name, value) {
    const cell = cellOf(value), stone = {name, value, isAway: false};
    this.set.push(stone);
    if (!this.lying.has(cell)) this.lying.set(cell, []);
    this.lying.get(cell).push(stone);
  }

  take(value) {
    const cell = cellOf(value);
    for (const stone of this.lying.get(cell) ?? []) stone.isAway = true;
    this.lying.delete(cell);
  }

  /** Does to the stones what a node does, which has it no longer. */
  setUp({properties}) {
    for (const name of [...STONES, AWAY]) {
      for (const value of properties[name] ?? []) {
        this.isUsed = true;
        this.take(value);
        if (name !== AWAY) this.put(name, value);
      }
      delete properties[name];
    }
  }

  stones(name) { return this.set.filter(stone => stone.name === name && !stone.isAway).map(({value}) => value); }
}

/** Puts the nodes of a tree into hexd's form, and notes what it changes. */
class RecordReader {
  constructor(root) {
    Object.assign(this, {root, notes: [], size: sizeOf(root.properties)});
    this.crossed = this.whiteBegins();
  }

  /** Whether White has the first move and Black swaps it: then the colours are exchanged, and rows with columns. */
  whiteBegins() {
    const moves = [];
    for (let node = this.root; node && moves.length < 2; [node] = node.children) moves.push(...movesIn(node));
    const [[first] = [], [second, value] = []] = moves, crossed = first === 'W' && second === 'B' && isSwap(value);
    if (crossed) {
      this.notes.push('White begins in the record, and Black swaps: colours, and rows with columns, are exchanged.');
    }
    return crossed;
  }

  /** The name of a property of a player's, in hexd's form. */
  nameOf(name) { return this.crossed ? name.slice(0, -1) + TURNED[name.at(-1)] : name; }

  /** Stones that are set or taken away behind the root, before the first move and the first side line, are the start's. */
  gatherStart() {
    const start = this.root.properties, setting = new Setting(start);
    for (let node = this.root; !movesIn(node).length && node.children.length === 1;) {
      [node] = node.children;
      setting.setUp(node);
    }
    for (const name of setting.isUsed ? STONES : []) start[name] = setting.stones(name);
  }

  /** Puts each node into hexd's form. A side line is left out if it can't be; Refused in the main line. */
  convert() {
    this.probe({properties: this.root.properties}, 1);
    this.gatherStart();
    const left = [[this.root, 0, true]];
    while (left.length) {
      const [node, before, isMain] = left.pop(), number = before + this.convertNode(node, before + 1);
      const kept = node.children.flatMap((child, at) => this.kept(child, number + 1, isMain && at === 0));
      node.children = kept.map(([child]) => child);
      left.push(...kept.map(([child, isOfMain]) => [child, number, isOfMain]).reverse());
    }
  }

  /** `[[child, isMain]]` of a node that can be put into hexd's form; nothing of a side line that can't. */
  kept(node, number, isMain) {
    try {
      const child = this.stonesAsMoves(node, number);
      this.probe(child, number);
      return [[child, isMain]];
    } catch (fault) {
      if (isMain || !(fault instanceof Refused)) throw fault;
      this.notes.push(`A side line is left out: ${fault.message}.`);
      return [];
    }
  }

  /** A node that sets stones in the midst of a game as a row of moves, which needn't come in turn, and then the node. */
  stonesAsMoves(node, number) {
    const {properties} = node;
    if (AWAY in properties) throw new Refused(`stones are taken away at move ${number}, which hexd can't do`);
    const stones = STONES.flatMap(name => (properties[name] ?? []).map(value => [name[1], value]));
    for (const name of STONES) delete properties[name];
    if (stones.length) this.notes.push(`Stones are set at move ${number}: they are played, one after another.`);
    return stones.reduceRight((after, [colour, value]) => ({properties: {[colour]: [value]}, children: [after]}), node);
  }

  /** Refused if a node can't be put into hexd's form. */
  probe(node, number) {
    const moves = movesIn(node);
    if (moves.length > 1) throw new Refused(`node ${number} has two moves`);
    if (moves.length) this.moveOf(...moves[0], number);
  }

  /** The move of a value, in hexd's form; null for a pass. */
  moveOf(name, value, number) {
    const word = value.trim().toLowerCase();
    if (['', 'pass', 'tt'].includes(word)) return null;
    if (isSwap(value)) return SWAP;
    if (word === 'swap-sides' || ENDINGS.includes(word)) return word;
    const cell = cellOf(word, this.crossed);
    if (!cell) throw new Refused(`move ${number} is no move: ${COLOURS[name.toLowerCase()]} ${quoted(value)}`);
    return cell;
  }

  /** Puts one node into hexd's form; 1 if it holds a move. */
  convertNode(node, number) {
    const given = this.crossed ? this.turnPlayers(node.properties) : node.properties, count = movesIn(node).length;
    node.properties = {};
    for (const [name, values] of Object.entries(given)) {
      if (name === 'B' || name === 'W') this.convertMove(node, name, values[0], number);
      else if (!STONES.includes(name)) node.properties[name] = values;
      else if (values.length) node.properties[this.nameOf(name)] = values.map(value => this.stoneOf(value));
    }
    delete node.properties.CA;
    return count;
  }

  convertMove(node, name, value, number) {
    const move = this.moveOf(name, value, number), player = COLOURS[this.nameOf(name).toLowerCase()];
    if (move !== null && move !== 'swap-sides') node.properties[this.nameOf(name)] = [move];
    if (move === null) this.notes.push(passWords(player, number));
    else if (move === 'swap-sides') {
      this.notes.push(`Move ${number} swaps sides: the stones stay, and the players have changed their colours.`);
    } else if (ENDINGS.includes(move)) this.notes.push(endWords(player, number));
  }

  stoneOf(value) {
    const cell = cellOf(value, this.crossed);
    if (!cell) throw new Refused(`a stone of the start lies on no cell: ${quoted(value)}`);
    return cell;
  }

  /** The properties with those of the players exchanged. */
  turnPlayers(properties) {
    const turned = Object.fromEntries(Object.entries(properties).map(([name, values]) => [OF_PLAYERS[name] ?? name, values]));
    for (const name of OF_COLOURS.filter(name => name in turned)) {
      turned[name] = turned[name].map(value => (TURNED[value[0]] ?? value.slice(0, 1)) + value.slice(1));
    }
    return turned;
  }
}

/** The first record of a text in hexd's form: {root, size, notes}, of which the notes are sentences; or Refused. */
function readRecord(text) {
  const {root, trees, isWhole} = readSgf(text);
  if (!root) throw new Refused('it is no record of a game');
  const reader = new RecordReader(root), {size, notes} = reader;
  reader.convert();
  const more = notes.splice(MOST_NOTES).length;
  if (more) notes.push(`Of ${grouped(more)} changes more nothing is said.`);
  if (trees > 1) notes.push(`The file has ${trees} games; this is the first.`);
  if (!isWhole) notes.push('The file breaks off in the record: what stands before that is opened.');
  root.properties = {FF: ['4'], GM: ['11'], SZ: [`${size}`], ...without(root.properties, ['FF', 'GM', 'SZ'])};
  return {root, size, notes};
}

/** An object without some of its names. */
const without = (object, names) => Object.fromEntries(Object.entries(object).filter(([name]) => !names.includes(name)));
