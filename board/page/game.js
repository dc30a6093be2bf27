'use strict';
// The game on the page: a tree of moves, and the session of hexd, which holds the moves up to one of its positions. What is
// true of a position (its stones, the winner, whether a swap may come) hexd says, and which moves are legal.

/** The stones that `showboard` shows. */
function stonesOf(board) {
  const stones = new Map();
  board.split('\n').slice(2).forEach((line, row) => {
    line.trim().split(/ +/).slice(1).forEach((mark, column) => {
      if (mark !== '.') stones.set(vertexAt(column, row), mark.toLowerCase());
    });
  });
  return stones;
}

class Game {
  constructor() {
    this.now = () => performance.now();
    Object.assign(this, {session: null, options: null, tree: newGame(11), held: null});
    this.tree.root.facts = {stones: new Map(), winner: null, canSwap: false};
  }

  get at() { return this.tree.at; }

  get size() { return this.tree.size; }

  get mover() { return this.at.mover; }

  get steps() { return this.tree.steps; }

  get stones() { return this.at.facts.stones; }

  get canSwap() { return this.at.facts.canSwap; }

  /** Who is joined, or whose opponent has resigned; null where neither is. */
  get winner() { return this.at.facts.winner ?? (this.at.end ? other(this.at.end.colour) : null); }

  /** Where the stone of a swap lies: the one stone that no later step has put there. */
  get swapped() {
    const {steps} = this;
    if (steps[1]?.move !== SWAP) return null;
    const later = new Set(steps.slice(2).map(({move}) => move));
    return [...this.stones.keys()].find(vertex => !later.has(vertex));
  }

  /** What hexd said of this position, and else, but in a puzzle, of the move that led to it: with whether it is of this one. */
  get shown() {
    const {at} = this, before = at.parent?.thought;
    if (at.thought) return {thought: at.thought, here: true};
    return before && before.cell === at.step.move && !puzzleOf(this.tree) ? {thought: before, here: false} : null;
  }

  /** Has the session hold the moves up to a position: one more or one less, or all of them anew by one record. */
  async hold(position) {
    const {held} = this;
    if (held === position) return;
    this.held = null;
    const line = !held ? null : held === position.parent ? `play ${position.step.colour} ${position.step.move}`
      : held.parent === position ? 'undo' : null;
    if (!line || await this.session.tell(line) === null) await this.loadMoves(position);
    this.held = position;
  }

  async loadMoves(position) {
    try {
      await this.session.load(recordOfPath(position));
    } catch (fault) {
      throw fault instanceof Refused ? new Refused(await this.whyNot(position)) : fault;
    }
  }

  /** Which stone of the start or which move up to a position hexd refuses, and why, in words. */
  async whyNot(position) {
    const {session} = this, {tree} = position;
    await session.ask(`boardsize ${tree.size}`);
    // Stones of the start are played too: hexd takes moves out of turn.
    for (const [colour, cell] of tree.start) {
      if (await session.tell(`play ${colour} ${cell}`) === null) {
        return `no stone of the start can lie on ${cell}, for ${await this.whyIllegal(cell, tree.size)}`;
      }
    }
    for (const {step: {colour, move}, number} of position.path.slice(1)) {
      if (await session.tell(`play ${colour} ${move}`) === null) {
        return `move ${number} is illegal: ${COLOURS[colour]} ${move}, for ${await this.whyIllegal(move, tree.size)}`;
      }
    }
    return 'hexd can\'t play it';
  }

  /** Why hexd refuses a move in the position that its session holds. */
  async whyIllegal(move, size) {
    const winner = await this.session.ask('winner');
    if (winner !== 'none') return `${winner === 'black' ? 'Black' : 'White'} has won before`;
    if (move === SWAP) return 'only White may swap, and only Black\'s first stone';
    if (columnOf(move) >= size || rowOf(move) >= size) return `the board of size ${size} has no such cell`;
    return 'there is a stone on it';
  }

  /** Asks hexd what is true of a position, once. */
  async learn(position) {
    if (position.facts) return;
    await this.hold(position);
    const stones = stonesOf(await this.session.ask('showboard')), winner = await this.session.ask('winner');
    const facts = {stones, winner: winner === 'none' ? null : winner[0], canSwap: false};
    if (!facts.winner && position.mover === 'w') facts.canSwap = await this.maySwap();
    position.facts = facts;
  }

  /** Whether a swap is legal is hexd's answer to it, which is taken back. */
  async maySwap() {
    if (await this.session.tell(`play w ${SWAP}`) === null) return false;
    await this.session.ask('undo');
    return true;
  }

  /** Goes to a position, once hexd holds it. */
  async goTo(position) {
    await this.learn(position);
    this.tree.goTo(position);
  }

  /** Takes another tree in place of this one, which stays where hexd refuses it. */
  async take(tree) {
    await this.learn(tree.at);
    this.tree = tree;
  }

  /** Plays a move for who is to move. In the past of a line another move than its next one begins a side line. */
  async play(move) {
    const {at, mover: colour} = this;
    await this.hold(at);
    if (await this.session.tell(`play ${colour} ${move}`) === null) {
      throw new Refused(`illegal move: ${await this.whyIllegal(move, this.size)}`);
    }
    await this.moved(colour, move);
  }

  async moved(colour, move) {
    const {tree, at} = this, known = at.children.length, position = tree.after(at, {colour, move});
    // A record's result is that of the moves it had: one more of its main line ends it, a side line doesn't.
    if (at.children.length > known && position === endOf(tree.root)) delete tree.root.properties.RE;
    this.held = position;
    await this.goTo(position);
  }

  /** Lets hexd move for who is to move, and keeps what it says of it; it swaps if its search, or a guess, says so. */
  async generate(guess = null) {
    const {at, mover} = this;
    await this.think(at);
    const {thought} = at;
    // Who is proved to win, or to lose, is no matter of a search.
    const isProved = winnerByStones(at, null) === 'w';
    if (at.facts.canSwap && !isProved && isSwapBetter(thought, guess)) {
      await this.playKnown({move: SWAP, why: swapWords(thought, guess)});
    } else {
      await this.play(thought.cell);
    }
  }

  /** Plays a move that hexd has by other means than a search. */
  async playKnown({move, why}) {
    await this.play(move);
    this.at.why = why;
  }

  /** What hexd says of the position that it holds, with its move. How long a search took is kept. */
  async thoughtOf(position) {
    this.held = null;
    const begun = this.now(), cell = await this.session.ask(`genmove ${position.mover}`);
    const took = this.now() - begun, thought = await this.ask(position, cell);
    thought.budget = this.options.look;
    // A move that was certified was not searched for.
    if (thought.rows.length) this.took = {milliseconds: took, options: this.options};
    return thought;
  }

  /** Asks hexd what it would play in a position, and leaves the game as it is. */
  async think(position) {
    await this.learn(position);
    if (position.facts.winner) return;
    await this.hold(position);
    position.thought = await this.thoughtOf(position);
    await this.session.ask('undo');
    this.held = position;
  }

  /** Whether White may swap, by this move or by the next. */
  mayStillSwap(position) {
    return position.facts.canSwap || position.tree.isFirst(position);
  }

  async ask(position, cell) {
    const {session} = this, mover = position.mover, swap = this.mayStillSwap(position);
    const mustplay = await session.ask('mustplay');
    const look = this.options.look ? await session.tell('look-report') : null;
    const report = await session.tell('search-report'), certificate = await session.tell('wincert');
    const checked = certificate === null ? null : await session.check(`${certificate}\n`);
    return readThought({mover, cell, swap, mustplay, report, look, certificate, checked});
  }

  /** Asks the solver who wins a position, and keeps what it says. */
  async solve(position, budget) {
    // The solver takes a position without steps as one with Black to move.
    if (!position.number && position.mover === 'w') throw new Refused('the solver takes no start with White to move');
    const {session} = this, said = await session.solve(recordOfPath(position), budget);
    const [first, ...lines] = said.split('\n'), certificate = lines.join('\n');
    const checked = certificate ? await session.check(`${certificate}\n`) : null;
    position.solved = readSolved(first, certificate, checked, position.mover, this.mayStillSwap(position));
  }

  /** Goes on in a new session, of a hexd with these options. */
  renew(session, options) { Object.assign(this, {session, options, held: null}); }
}
