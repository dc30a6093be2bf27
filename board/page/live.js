'use strict';
// Live analysis: as long as one looks at a position hexd looks ahead at it, with more and more nodes. It does so in a session of
// its own, so the page never waits for it, and ends when one leaves the position. After each look those moves that it took for
// the best are followed: by its own lines, or, as long as these are short, by further, smaller looks at what comes next.

// The nodes of one look after another.
const LOOKS = [100, 250, 1_000, 4_000, 16_000];
// Of a best move so many further moves are found, each by so many nodes.
const FOLLOWED = 3, NODES_TO_FOLLOW = 50;

/** What was done for a position that one has left. */
class Left extends Error {}

/** The moves that hexd expects after a cell is played in a position, with that cell; the session ends as it began. */
async function followed(looking, position, cell) {
  await looking.hold(position);
  const {session} = looking, line = [cell];
  let {mover} = position;
  await session.ask(`play ${mover} ${cell}`);
  while (line.length <= FOLLOWED) {
    mover = other(mover);
    const reply = await session.tell(`genmove ${mover}`);
    // The game is over.
    if (reply === null) break;
    line.push(reply);
  }
  for (let back = 0; back < line.length; back++) await session.ask('undo');
  return line;
}

class Live {
  constructor(play) { Object.assign(this, {play, work: null, session: null, nodes: null}); }

  get isOn() { return byId('live').getAttribute('aria-pressed') === 'true'; }

  /** The position that hexd should look at; null if there is none, or something else is asked of hexd. */
  get wanted() {
    const {game, lost, thinking, strengths} = this.play;
    return this.isOn && strengths && !lost && !thinking && !document.hidden && !game.winner && game.at.facts ? game.at : null;
  }

  /** Goes on to the position that is wanted now, if it is another one. */
  follow() {
    const {wanted} = this;
    if (wanted === (this.work?.position ?? null)) return;
    this.end();
    if (!wanted) return;
    const work = this.work = {position: wanted};
    this.look(work).catch(fault => this.fail(work, fault));
  }

  end() {
    this.session?.close();
    Object.assign(this, {session: null, work: null, nodes: null});
  }

  /** Switches it on or off. */
  turn() {
    byId('live').setAttribute('aria-pressed', String(!this.isOn));
    this.follow();
    this.play.draw();
  }

  /** A fault switches it off, unless it is of work that was left. */
  fail(work, fault) {
    if (work !== this.work) return;
    this.end();
    byId('live').setAttribute('aria-pressed', 'false');
    this.play.draw();
    this.play.message.say(`The analysis has ended. ${fault.message}`);
  }

  /** What a promise gives, as long as the work isn't left. */
  async here(work, promise) {
    const given = await promise;
    if (work !== this.work) throw new Left('');
    return given;
  }

  /** A game in another session, whose hexd looks ahead with so many nodes, and perhaps `others` of its options. */
  async open(work, nodes, others = {}) {
    const {strengths} = this.play, {size} = work.position.tree;
    const options = {...strengths.options(strengths.table.default, size), look: nodes, ...others};
    this.session?.close();
    this.session = null;
    const session = await Session.open(options), looking = new Game();
    if (work !== this.work) {
      session.close();
      throw new Left('');
    }
    this.session = session;
    looking.renew(session, options);
    return looking;
  }

  async look(work) {
    const {position} = work;
    for (const nodes of LOOKS.filter(nodes => isMore(nodes, position.thought))) {
      this.nodes = nodes;
      this.play.draw();
      const looking = await this.open(work, nodes);
      await this.here(work, looking.hold(position));
      position.thought = await this.here(work, looking.thoughtOf(position));
      this.tell();
      if (!position.thought.isLook || position.thought.lost) break;
      await this.followBest(work);
    }
    this.session?.close();
    Object.assign(this, {session: null, nodes: null});
    this.play.draw();
  }

  /** Finds what comes after the best moves of a position that weren't followed yet. */
  async followBest(work) {
    const {position} = work, cells = bestMoves(position.thought).map(([cell]) => cell);
    const long = [...position.thought.lines].filter(([, line]) => line.length > FOLLOWED);
    position.lines = new Map([...position.lines ?? [], ...long.map(([cell, line]) => [cell, line.slice(0, FOLLOWED + 1)])]);
    const others = cells.filter(cell => !position.lines?.has(cell));
    if (!others.length) return;
    // Without the solver: what comes next is expected, and proved of nothing.
    const looking = await this.open(work, NODES_TO_FOLLOW, {solve: 0});
    for (const cell of others) {
      const line = await this.here(work, followed(looking, position, cell));
      position.lines = new Map([...position.lines ?? [], [cell, line]]);
      this.tell();
    }
  }

  tell() {
    this.play.draw();
    this.play.keeping.store.keep(this.play.game.tree);
  }
}

/** Whether a look with so many nodes tells more than what hexd said of a position. */
const isMore = (nodes, thought) => !thought || (!thought.win && !thought.lost && !(thought.isLook && thought.budget >= nodes));

/** Wires the switch, and the table of the best moves, each of whose rows shows its line on the board. */
function wireLive(play) {
  const {live, panel: {choices}} = play, words = byId('words');
  byId('live').addEventListener('click', () => live.turn());
  document.addEventListener('visibilitychange', () => live.follow());
  addEventListener('pagehide', () => live.end());
  const point = ({target}) => choices.pointTo(lineMarksOf(play.game, target.closest?.('[data-cell]')?.dataset.cell));
  for (const kind of ['pointerover', 'focusin']) words.addEventListener(kind, point);
  for (const kind of ['pointerleave', 'focusout']) words.addEventListener(kind, () => choices.pointTo(null));
}

/** What is marked for a row of the table of the best moves: its stones with their numbers; null for no row. */
function lineMarksOf({at, shown}, cell) {
  if (!cell || !shown?.here) return null;
  const line = at.lines?.get(cell) ?? [cell], colours = [at.mover, other(at.mover)];
  return {line: new Map(line.map((vertex, number) => [vertex, {number: number + 1, colour: colours[number % 2]}]))};
}
