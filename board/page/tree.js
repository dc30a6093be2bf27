'use strict';
// A game as a tree: each node is a position, and below it are the moves that were played there, the line and its side lines.
// One node is where the game stands. Which moves are legal hexd alone says; what it said of a position is kept at its node.

/** The property of a node that says that the game stood there when the record was saved. */
const HERE = 'HERE';

/** A position: the step that led to it ({colour, move}; null at the start), and all that is known of it. */
class Position {
  constructor(tree, parent, step, properties = {}) {
    // `seen` is the position after this one on the line that was seen last, and `end` a resignation.
    Object.assign(this, {tree, parent, step, properties, children: [], seen: null, end: null});
    // What hexd and the solver said, of the best moves those that follow, and what an opening's certificate answers.
    Object.assign(this, {facts: null, thought: null, solved: null, lines: null, answered: null});
    // Why hexd made the step without a search, or against it.
    this.why = null;
    this.number = parent ? parent.number + 1 : 0;
  }

  /** The position after this one on its line; null at its end. */
  get next() { return this.seen ?? this.children[0] ?? null; }

  /** Who is to move: whoever did not move last, and at first whom the record names, else Black if his stones aren't more. */
  get mover() {
    if (this.step) return other(this.step.colour);
    const {start, root: {properties: {PL: [named = ''] = []}}} = this.tree, colour = named.trim().toLowerCase()[0];
    if (colour in COLOURS) return colour;
    const black = start.filter(([colour]) => colour === 'b').length;
    return 2 * black > start.length ? 'w' : 'b';
  }

  /** The positions from the start to this one. */
  get path() {
    const path = [];
    for (let at = this; at; at = at.parent) path.unshift(at);
    return path;
  }

  get comment() { return (this.properties.C ?? []).map(plainValue).join('\n\n'); }
}

/** A position and all after it, each before those after it. */
function branchOf(position) {
  const found = [position];
  for (const one of found) found.push(...one.children);
  return found;
}

class Tree {
  constructor(size, start = [], properties = {}) {
    Object.assign(this, {size, start, root: new Position(this, null, null, properties)});
    // The branches that were deleted (cuts.js), the last one last.
    this.cuts = [];
    this.at = this.root;
  }

  /** The line on which the game stands, from the start to its end. */
  get line() {
    const line = this.at.path;
    while (line.at(-1).next) line.push(line.at(-1).next);
    return line;
  }

  /** All positions, each before those after it. */
  get positions() { return branchOf(this.root); }

  get steps() { return this.at.path.slice(1).map(({step}) => step); }

  /** The position after a move from another one: a new side line where it was not played there yet. */
  after(position, {colour, move}) {
    const found = position.children.find(({step}) => step.move === move && step.colour === colour);
    if (found) return found;
    const made = new Position(this, position, {colour, move});
    position.children.push(made);
    return made;
  }

  /** Goes to a position, from where on its line is the one that is seen. */
  goTo(position) {
    this.at = position;
    for (const node of position.path) if (node.parent) node.parent.seen = node;
  }

  /** Whether a position is the start of a game without stones. */
  isFirst(position) { return position === this.root && !this.start.length; }

  get isEmpty() { return !this.start.length && !this.root.children.length; }
}

/** The tree of moves in a row, perhaps with an `end`, which stands behind so many of them. */
function treeOfMoves({size, start, steps, end = null, position = steps.length}) {
  const tree = start.length || steps.length ? new Tree(size, start) : newGame(size);
  let at = tree.root;
  const line = [at, ...steps.map(step => { at = tree.after(at, step); return at; })];
  at.end = end;
  tree.goTo(at);
  tree.goTo(line[Math.min(position, steps.length)]);
  return tree;
}

/** The stones of the start, of a root in hexd's form. */
const stonesIn = ({AB = [], AW = []}) => [...AB.map(vertex => ['b', vertex]), ...AW.map(vertex => ['w', vertex])];

/** Adds what stands in a node without a move to the position before it; `left` gets the names of what has no place there. */
function mergeProperties(position, properties, left) {
  for (const [name, values] of Object.entries(properties)) {
    if (name === 'C' && position.properties.C) position.properties.C = [[...position.properties.C, ...values].join('\n\n')];
    else if (name in position.properties) left.add(name);
    else position.properties[name] = values;
  }
}

/** The tree of a record of whatever program, and sentences on what of it is changed or left out: {tree, notes}; or Refused. */
function treeOfRecord(text) {
  const {root, size, notes} = readRecord(text), left = new Set(), {AB, AW, B, W, ...properties} = root.properties;
  const tree = new Tree(size, stonesIn({AB, AW}), without(properties, ['FF', 'GM', 'SZ', HERE]));
  const pending = [[tree.root, {properties: {...B && {B}, ...W && {W}}, children: root.children}]];
  let here = HERE in properties ? tree.root : null;
  while (pending.length) {
    const [parent, {properties, children}] = pending.pop(), position = placed(tree, parent, properties, left);
    if (HERE in properties) here = position;
    pending.push(...children.map(child => [position, child]).reverse());
  }
  tree.goTo(endOf(tree.root));
  if (here) tree.goTo(here);
  if (left.size) notes.push(`Left out: ${[...left].join(', ')} of nodes without a move.`);
  return {tree, notes};
}

/** The position that a node of a record in hexd's form leads to. */
function placed(tree, parent, {B, W, ...given}, left) {
  const colour = B ? 'b' : 'w', [move] = B ?? W ?? [], properties = without(given, [HERE]);
  if (ENDINGS.includes(move)) parent.end = {colour, move, properties};
  if (move === undefined) mergeProperties(parent, properties, left);
  if (move === undefined || ENDINGS.includes(move)) return parent;
  const position = tree.after(parent, {colour, move});
  mergeProperties(position, properties, left);
  return position;
}

/** The last position of the first line from this one on. */
function endOf(position) {
  while (position.children.length) position = position.children[0];
  return position;
}

const stepProperty = ({colour, move}) => ({[colour.toUpperCase()]: [move]});

/** The properties of the root that hexd reads. */
function headOf({size, start}) {
  const stones = name => start.filter(([colour]) => `A${colour.toUpperCase()}` === name).map(([, vertex]) => vertex);
  const head = {FF: ['4'], GM: ['11'], SZ: [String(size)]};
  for (const name of ['AB', 'AW']) if (stones(name).length) head[name] = stones(name);
  return head;
}

/**
 * The text of all of a tree, with a mark at the position at which it stands. `head` has the other properties of the root,
 * and `ordered` puts the moves after a position into the order of the text.
 */
function recordOfTree(tree, {head = tree.root.properties, isMarked = true, ordered = children => children} = {}) {
  const root = sgfNode({...headOf(tree), ...head}), isEnd = !isMarked || tree.at === endOf(tree.root);
  growNodes(tree.root, root, ordered, isEnd ? null : tree.at);
  return writeSgf(root);
}

/** Puts the nodes of all after a position below its node; that of `marked` gets the mark. */
function growNodes(first, root, ordered = children => children, marked = null) {
  const pending = [[first, root]];
  while (pending.length) {
    const [position, node] = pending.pop();
    if (position === marked) node.properties[HERE] = ['1'];
    for (const child of ordered(position.children)) {
      const made = sgfNode({...stepProperty(child.step), ...child.properties});
      node.children.push(made);
      pending.push([child, made]);
    }
    if (position.end) node.children.push(sgfNode({...stepProperty(position.end), ...position.end.properties}));
  }
}

/** The text of the moves that lead to a position: all that hexd needs of it. */
function recordOfPath(position) {
  const root = sgfNode(headOf(position.tree));
  let last = root;
  for (const {step} of position.path.slice(1)) {
    const made = sgfNode(stepProperty(step));
    last.children.push(made);
    last = made;
  }
  return writeSgf(root);
}
