'use strict';
// The page at work: one thing after another, whose turn is hexd's, and what happens where a session or the server is lost.

const AT_WORK = 'hexd is at work: Stop ends it.';
const AFTER_WORK = 'hexd is at work: this comes once it is done. Stop ends it.';

class Play {
  constructor() {
    Object.assign(this, {busy: false, thinking: null, progress: null, running: false, waiting: []});
    Object.assign(this, {opening: false, stopping: false, ended: -Infinity});
    Object.assign(this, {lost: null, full: false, strengths: null, entered: false, isNew: false});
    this.view = new BoardView(byId('board'), {
      onPick: vertex => this.pick(vertex),
      onPoint: vertex => this.panel.drawReadout(vertex),
    });
    this.game = new Game();
    this.panel = new Panel(this.game, this.view);
    this.panel.onGoTo = position => this.act(() => this.game.goTo(position));
    this.message = new Message(byId('said'));
    this.keeping = new Keeping();
    this.live = new Live(this);
    this.firstStones = new FirstStones(this);
    this.timing = new Timing(this);
  }

  get players() { return {b: byId('player-b').value, w: byId('player-w').value}; }

  get isHexdsTurn() { return !this.game.winner && this.players[this.game.mover] === 'hexd'; }

  draw() {
    this.panel.draw(this);
    drawHands(this);
    this.live.follow();
    if (!this.busy) this.firstStones.follow();
  }

  /** Does one thing after another, in the order in which they come. `goOn`: then hexd moves as long as it is its turn. */
  async act(use, goOn = false) {
    if (this.lost) return;
    this.waiting.push({use, goOn});
    if (this.busy) {
      if (this.thinking && !this.stopping) this.message.say(AFTER_WORK);
      return;
    }
    this.busy = true;
    while (this.waiting.length && !this.lost) await this.doOne(this.waiting.shift());
    Object.assign(this, {busy: false, running: false, waiting: []});
    this.draw();
  }

  async doOne({use, goOn}) {
    this.running = goOn;
    this.message.clear();
    this.draw();
    try {
      await this.inSession(use);
      await this.settle();
      while (this.running && this.isHexdsTurn) await this.inSession(() => this.letHexdMove());
    } catch (fault) {
      await this.fail(fault);
    }
    await this.keeping.store.keep(this.game.tree);
    this.stopClock();
    for (const text of [AT_WORK, AFTER_WORK]) this.message.take(text);
    if (this.stopping && !this.lost) await this.renew();
  }

  /** Does one thing; if the server was started anew and doesn't know the session, once more in another one. */
  async inSession(use) {
    try {
      await use();
    } catch (fault) {
      if (!fault.isUnknown || this.stopping) throw fault;
      await this.openSession();
      await use();
    }
  }

  /** After each change: the game in the address, who is proved to win the opening, and the page. */
  async settle() {
    const {game, keeping} = this, {at} = game;
    keeping.keep(game.tree, this.isNew);
    this.isNew = false;
    this.timing.settle();
    await judgePuzzle(this);
    if (firstStone(at) && at.opening === undefined) at.opening = (await Session.winner(game.size, at.step.move))?.[0] ?? null;
    this.draw();
  }

  /** Says that hexd is at work, and for how many seconds. */
  startClock(what) {
    const begun = Date.now(), tell = () => { byId('seconds').textContent = `${Math.floor((Date.now() - begun) / 1000)} s`; };
    this.stopClock();
    this.thinking = what;
    tell();
    this.clock = setInterval(tell, 250);
    this.draw();
  }

  stopClock() {
    clearInterval(this.clock);
    if (this.thinking) this.ended = performance.now();
    Object.assign(this, {thinking: null, progress: null});
    byId('seconds').textContent = '';
  }

  async letHexdMove() {
    const {game} = this, {at, mover, tree} = game, proof = provedAlong(tree.line)[at.number];
    // For the record: who plays may be chosen anew.
    if (this.players[mover] === 'hexd') tree.hexd = {...tree.hexd, [mover]: strengthName()};
    const known = knownMove(game, proof, this.strengths.even(game.size));
    if (known) await game.playKnown(known);
    else await this.search();
    speakMove(game.at);
    await this.settle();
    this.ended = performance.now();
    this.keeping.store.keep(this.game.tree);
    // A click that came meanwhile has its turn between two moves of hexd's against itself.
    if (this.waiting.length && this.players.b === this.players.w) this.running = false;
  }

  async search() {
    this.startClock(`thinks for ${COLOURS[this.game.mover]}`);
    await this.searching(() => this.game.generate(this.strengths.guesses.of(this.game.at)));
    this.stopClock();
  }

  /** Ends what hexd does: its process goes, and another one takes the game over. */
  stop() {
    this.running = false;
    if (!this.thinking || this.stopping) return;
    this.stopping = true;
    // A session that is being opened is ended once it is there.
    if (!this.opening) this.game.session.close();
  }

  async renew() {
    this.stopping = false;
    try {
      await this.openSession();
    } catch (fault) {
      await this.fail(fault);
    }
  }

  /** What the clock gives a move, if hexd plays by one; else null. A game's clock may leave it less. */
  get pace() {
    const pace = this.strengths.pace(strengthOf(), this.game.size), {seconds} = this.timing;
    if (pace && seconds !== null) pace.within(seconds);
    return pace;
  }

  /** The options of hexd that are wanted now. */
  get options() { return this.strengths.options(strengthOf(), this.game.size); }

  /** Opens a session of a hexd with the options that are wanted, once `old` is ended. */
  async openSession(old = null) {
    const {options} = this;
    this.opening = true;
    await old?.close();
    this.game.renew(await Session.open(options).finally(() => { this.opening = false; }), options);
    if (!this.stopping) return;
    await this.game.session.close();
    throw new SessionLost('it was stopped');
  }

  /** Has hexd search with the options that are wanted: in another session, if the one that is there has others. */
  async searching(search) {
    const {game, options} = this;
    if (optionText(game.options) !== optionText(options)) await this.openSession(game.session);
    const before = game.took;
    await search();
    if (game.took !== before) this.pace?.took(game.took.milliseconds);
  }

  async fail(fault) {
    if (fault instanceof SessionLost) {
      if (!this.stopping) Object.assign(this, {lost: fault.message, full: Boolean(fault.full)});
    } else if (fault instanceof Refused) {
      this.message.say(`hexd: ${fault.message}`);
    } else if (fault.isTold) {
      this.message.say(fault.message);
    } else {
      this.message.say(`The page has a fault: ${fault.message}`);
      // The console has it too, and the page goes on.
      reportError(fault);
    }
  }

  /** Whether nothing more can be asked of hexd now, which is said. */
  get isAtWork() {
    if (this.thinking) this.message.say(AT_WORK);
    return Boolean(this.thinking);
  }

  pick(vertex) {
    if (this.isAtWork) return;
    this.act(async () => {
      if (this.isHexdsTurn) throw new Refused('it is hexd\'s turn: \'hexd moves\' lets it move');
      await this.game.play(vertex);
    }, true);
  }

  /** One move back, or a resignation; against hexd as many moves as lead to a move of mine. */
  async undo() {
    const {game} = this, {b, w} = this.players;
    if (game.at.end) {
      game.at.end = null;
      return;
    }
    if (game.at.parent) await game.goTo(game.at.parent);
    if (b !== w && this.isHexdsTurn && game.at.parent) await game.goTo(game.at.parent);
  }

  /** Puts another game in the place of this one, which Back brings again. */
  async take(tree) {
    const {tree: old} = this.game;
    await this.game.take(tree);
    this.isNew = !old.isEmpty || old.cuts.length > 0 || old.root.comment !== '';
    // An empty game leaves its place to another.
    if (!this.isNew) tree.id = old.id;
  }

  begin(size) {
    this.stop();
    this.act(() => this.take(newGame(size)), true);
  }

  /** Saves the game, once hexd has said how its line ends. */
  async save() {
    const {tree} = this.game, {players} = this;
    if (!this.lost) await this.game.learn(tree.line.at(-1)).catch(fault => { if (!(fault instanceof Refused)) throw fault; });
    const now = [...'bw'].filter(colour => players[colour] === 'hexd').map(colour => [colour, strengthName()]);
    const strengths = {...Object.fromEntries(now), ...tree.hexd};
    const nameOf = colour => (strengths[colour] ? `hexd (${strengths[colour]})` : HUMAN);
    const record = () => savedRecord(tree, {b: nameOf('b'), w: nameOf('w')});
    saveFile(savedName(), new Blob([`${byId('save-remarks').checked ? withRemarks(tree, record) : record()}\n`]));
  }

  /** Opens a record, of whatever program, or a certificate. */
  open(blob) {
    this.stop();
    return this.act(async () => {
      const bytes = await blob.arrayBuffer();
      refusePacked(bytes, blob.name);
      const text = recordText(bytes);
      if (isCertificate(text)) return openCertificate(this, text, blob.name);
      const {tree, notes} = treeOfRecord(text);
      await this.take(tree);
      this.message.say(notes.join(' '));
    });
  }

  openText(text) {
    if (!text.trim()) return;
    if (text.trim().startsWith('(')) return this.open(new Blob([text]));
    let named;
    try {
      named = gameOfText(text, this.game.size);
    } catch (fault) {
      // What hexd does isn't ended by a slip of the pen.
      return this.fail(fault);
    }
    this.stop();
    return this.act(() => this.takeNamed(named));
  }

  /** The game that a text names, and what of it is changed. */
  async takeNamed(named) {
    await this.take(treeOfMoves(named));
    this.message.say(named.notes.join(' '));
  }

  /** The game of the address, which no other makes place for. */
  takeHash(hash) { return this.game.take(treeOfMoves(gameOfText(hash, this.game.size))); }

  async copy(text, why) {
    if (text === null) return this.message.say(why);
    byId('link').value = text;
    byId('link').select();
    await navigator.clipboard?.writeText(text).catch(() => {});
  }

  /** A search of each position of the line of which hexd has said nothing, while the game stays where it is. */
  async analyse() {
    const {line} = this.game.tree;
    for (const position of line) {
      if (position.thought) continue;
      this.startClock(`looks at position ${position.number + 1} of ${line.length}`);
      await this.searching(() => this.game.think(position));
      this.keeping.store.keep(this.game.tree);
    }
  }

  /** To the next move of the line that is judged bad. */
  async goToMistake() {
    const {tree, at} = this.game, bad = nextBad(tree.line, this.panel.judgements, at);
    if (bad) await this.game.goTo(bad);
  }

  /** Who wins, by the solver: what it has done so far is told, and stays if it is stopped. */
  async prove() {
    this.startClock('solves this position');
    await prove(this.game, this.game.at, text => {
      this.progress = text;
      this.draw();
    });
  }

  async hint() {
    this.startClock(`thinks for ${COLOURS[this.game.mover]}`);
    await this.searching(() => this.game.think(this.game.at));
  }

  /** Tries again after a session was lost, or could not be had. */
  again(makeRoom) {
    Object.assign(this, {lost: null, full: false});
    return this.act(async () => {
      if (makeRoom) await Session.makeRoom();
      await this.enter();
    });
  }

  /** Opens a session for the game: the one that is there, and at the start of the page the one of the address. */
  async enter() {
    if (!this.strengths) {
      this.strengths = new Strengths(await Session.settings());
      this.strengths.draw();
      kept.restore();
    }
    await this.openSession();
    if (this.entered) return this.game.hold(this.game.at);
    const {state, hash} = {state: history.state, hash: location.hash}, tree = await this.keeping.treeOf(state);
    this.entered = true;
    if (tree) await this.game.take(tree);
    else if (hash.length > 1) await this.takeHash(hash);
    // After a reload, and on an empty board, hexd moves where it is its turn; in a game that was sent it waits.
    this.running = (Boolean(tree) || hash.length <= 1) && !this.game.at.next;
  }

  /** Another entry of the browser's history: its game, or the one of the link that was put into the address. */
  goBack(state) {
    // Without a session it is opened with the next one.
    if (this.lost) this.entered = false;
    this.stop();
    this.act(async () => {
      const tree = await this.keeping.treeOf(state);
      if (tree) await this.game.take(tree);
      else if (location.hash.length > 1) await this.takeHash(location.hash);
    });
  }

  async start() {
    wire(this);
    await this.act(() => this.enter());
    document.body.dataset.ready = 'yes';
  }
}

const play = new Play();
play.start();
