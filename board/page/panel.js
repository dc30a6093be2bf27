'use strict';
// What the page shows: the board with its marks, the words beside it, and which buttons can be used.

class Panel {
  constructor(game, view) {
    Object.assign(this, {game, view, drawn: null, cell: null, unfolded: new Set()});
    this.choices = new Choices(() => this.drawBoard());
  }

  /** Draws all of it. `state` has `busy`, `thinking`, `lost`, `full` and `players`. */
  draw(state) {
    const {game} = this, {line} = game.tree, said = game.at.solved?.proof ? game.at.solved : game.shown?.thought;
    this.state = state;
    const proofs = provedAlong(line), {unfolded} = this, judgements = judgedAlong(line, proofs);
    Object.assign(this, {proofs, proof: shownProof(game.tree, proofs[game.at.number]), judgements});
    if (said !== this.drawn) {
      this.choices.clear();
      this.drawn = said;
      this.choices.drawThreats(game.shown?.thought);
      this.choices.drawProof(said);
      byId('proof-head').textContent = said?.proof ? `${COLOURS[said.proof.player]}'s certified win` : '';
    }
    this.drawStatus(state);
    this.replies = this.answers();
    const known = {
      even: state.strengths?.even(game.size), guesses: state.strengths?.guesses, replies: this.replies, progress: state.progress,
      nodes: state.live?.nodes, judgement: judgements.get(game.at),
    };
    const held = document.activeElement?.closest('#words [data-cell]')?.dataset.cell;
    byId('words').replaceChildren(...thoughtElements(game, this.proof, this.map, known));
    if (held) byId('words').querySelector(`[data-cell=${held}]`)?.focus({preventScroll: true});
    this.drawBoard();
    const onFold = position => {
      if (!unfolded.delete(position)) unfolded.add(position);
      this.draw(this.state);
    };
    drawCourse(game, this.proofs, {unfolded, judgements, onGoTo: position => this.onGoTo(position), onFold});
    byId('mistake').disabled = !nextBad(line, judgements, game.at);
    drawComment(game);
    drawEvaluation(byId('evaluation'), evaluationOf(game, this.proof));
    this.drawControls(state);
  }

  /** Draws anew what fills its place in the window. */
  resize() {
    this.drawBoard();
    this.view.scale();
    if (this.proofs) drawShares(this.game, this.proofs, position => this.onGoTo(position));
  }

  drawStatus(state) {
    const {text, look} = stateOf(this.game, state), status = byId('status');
    const dot = htmlElement('span', {class: `dot ${this.game.winner ?? this.game.mover}`});
    if (byId('state').textContent !== text) byId('state').replaceChildren(dot, text);
    status.className = state.thinking ? `${look} thinking` : look;
    document.body.setAttribute('aria-busy', Boolean(state.busy));
  }

  /** What an opening's certificate answers, as long as hexd has said nothing of the position itself. */
  get answered() { return this.game.shown?.here ? null : this.game.at.answered; }

  /** The answers to what the other player may do, by what is proved of the position. */
  answers() {
    const {game, proof, answered} = this;
    if (game.winner) return new Map();
    const replies = repliesOf(proof, game);
    return replies.size ? replies : answered?.replies ?? replies;
  }

  /** Whether the board is the empty one on which openings are shown. */
  get isFirst() { return !this.game.tree.start.length && !this.game.at.number; }

  /** The map of openings that are proved, where the empty board has one. */
  get map() { return this.isFirst ? this.state?.firstStones.maps.get(this.game.size) ?? null : null; }

  drawBoard() {
    const {game} = this;
    if (!game.at.facts) return;
    this.shownView = {stones: game.stones, last: this.last(), ...this.marks()};
    this.view.shape(game.size, this.layout());
    this.view.show(this.shownView);
    this.view.svg.setAttribute('aria-label', `Board, ${game.size} by ${game.size}`);
    this.drawReadout();
  }

  /** What is marked on the board beside its stones. */
  marks() {
    const {game, choices, proof} = this, {shown, at, mover} = game, on = id => byId(id).checked, marks = {};
    if (on('show-numbers')) marks.numbers = this.numbers();
    if (this.state && !game.winner && this.state.players[mover] === 'I') marks.ghost = mover;
    if (at.facts.winner) marks.chain = chainOf(at.facts.stones, at.facts.winner, game.size);
    if (choices.marks) return Object.assign(marks, choices.marks);
    if (this.map) Object.assign(marks, {openings: this.map, size: game.size});
    else if (this.isFirst) marks.guesses = this.state?.strengths?.guesses.map(game.size);
    if (this.answered?.cell) marks.answers = new Set([this.answered.cell]);
    const solved = at.solved?.proof ? at.solved : null, {proof: certificate} = solved ?? shown?.thought ?? {};
    if (on('show-carrier') && certificate) marks.carrier = certificate.claimed.carrier;
    if (solved) return this.withReplies(Object.assign(marks, {chosen: solved.cell}), on);
    if (shown) Object.assign(marks, this.thoughtMarks(shown.thought, shown.here, on));
    if (!shown?.here && proof && !proof.here && proof.player === mover) marks.answers = new Set(proof.answers);
    return this.withReplies(marks, on);
  }

  /** The answers of a proof in place of the visits of a search. */
  withReplies(marks, on) {
    if (!on('show-carrier') || !this.replies?.size) return marks;
    return Object.assign(marks, {visits: null, replies: this.replies});
  }

  thoughtMarks(thought, here, on) {
    const marks = {};
    if (on('show-visits') && !thought.win) marks.visits = visitsOf(thought);
    if (on('show-mustplay')) marks.dimmed = dimmedOf(thought, this.game.size);
    if (here) marks.chosen = thought.cell;
    return marks;
  }

  /** The cell of the last step's stone. */
  last() {
    const {step} = this.game.at;
    return step?.move === SWAP ? this.game.swapped : step?.move ?? null;
  }

  numbers() {
    const {steps, swapped} = this.game;
    return new Map(steps.map(({move}, at) => [move === SWAP ? swapped : move, at + 1]).slice(swapped ? 1 : 0));
  }

  layout() {
    const wanted = byId('orientation').value, {clientWidth, clientHeight} = byId('stage');
    return wanted !== 'auto' ? wanted : clientHeight > 1.05 * clientWidth ? 'upright' : 'wide';
  }

  /** What is on the cell that is pointed at. */
  drawReadout(vertex = this.cell) {
    this.cell = vertex;
    byId('readout').textContent = this.view.cells.has(vertex) ? cellWords(vertex, this.shownView) : '\u00a0';
  }

  drawControls({busy, thinking, lost, full, analysing, players, strengths}) {
    const {game} = this, {at} = game, size = game.tree;
    const enable = (id, can) => { byId(id).disabled = Boolean(lost) || !can; };
    for (const id of ['first', 'back', 'undo']) enable(id, at.parent);
    for (const id of ['forth', 'end']) enable(id, at.next);
    for (const id of ['new', 'size', 'open', 'player-b', 'player-w', 'strength']) enable(id, true);
    for (const id of ['hint', 'go']) enable(id, !game.winner);
    enable('analyse', size.line.length > 1);
    enable('prove', !game.winner);
    enable('swap', game.canSwap);
    byId('swap').classList.toggle('away', !game.canSwap);
    byId('stop').classList.toggle('away', !thinking);
    byId('go').classList.toggle('away', Boolean(thinking));
    byId('new').classList.toggle('wanted', Boolean(game.winner));
    byId('size').value = game.size;
    byId('alert').hidden = !lost;
    byId('room').hidden = !full;
    byId('again').textContent = full ? 'Try again' : 'Go on with a new hexd';
    byId('alert-text').textContent = lost ?? '';
    if (strengths) {
      const {pace, options} = this.state;
      byId('strength-words').textContent = pace ? clockWords(pace) : strengthWords(options, game.took);
    }
    if (document.activeElement !== byId('link')) byId('link').value = `${Session.address}#${linkOfTree(game.tree)}`;
  }
}

