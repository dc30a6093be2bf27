'use strict';
// A proof stays a proof. Where a position has a certificate and its player moves by it, the positions behind it are proved
// for him as long as he answers by it. The certificate itself says what an answer is: whatever the other player puts into a
// carrier, some line that is left links what was linked, once a stone is on that line's cell.

const CHOICES = ['or', 'cases'], PARTS = ['and', 'key', 'move'];

/** What is left to be linked of a certificate's claim, while the game goes on. */
class Following {
  /** From a claimed entry: a `semi` one with its own cell just played, or a `full` one. */
  constructor(entry) {
    // Entries that hold whoever moves, as they stand; and those of them in which the other player has a stone.
    Object.assign(this, {held: [], hurt: [], mine: new Set()});
    if (entry.cell) {
      this.mine.add(entry.cell);
      entry.parts.forEach(part => this.hold(part));
    } else {
      this.hold(entry);
    }
  }

  /** Keeps an entry as the choices of which it is made: each of these can be linked beside the others. */
  hold(entry) {
    if (CHOICES.includes(entry.rule)) this.held.push(entry);
    else entry.parts.forEach(part => this.hold(part));
  }

  /** The same, of which a change leaves this one as it is. */
  get copy() {
    const {held, hurt, mine} = this;
    return Object.assign(Object.create(Following.prototype), {held: [...held], hurt: [...hurt], mine: new Set(mine)});
  }

  /** What is left after the other player's stone; null where the proof doesn't hold any more. */
  after(cell) {
    const {copy} = this;
    return copy.meet(cell) ? copy : null;
  }

  /** The other player's stone; false where the proof doesn't hold any more. */
  meet(cell) {
    this.hurt = this.hurt.map(({entry, left}) => ({entry, left: left.filter(part => !part.has(cell))}));
    for (const entry of this.held.filter(held => held.has(cell))) {
      this.hurt.push({entry, left: entry.parts.filter(part => !part.has(cell))});
    }
    this.held = this.held.filter(held => !held.has(cell));
    return this.settle();
  }

  /** A stone of the player who wins; false where an answer was due and this is none. */
  answer(cell) {
    this.mine.add(cell);
    return this.settle() && !this.hurt.length;
  }

  /** Each entry with the other player's stone in it, of which a line has its own cell's stone, is that line's parts. */
  settle() {
    const hurt = this.hurt;
    this.hurt = [];
    for (const {entry, left} of hurt) {
      const played = left.find(({cell}) => this.mine.has(cell));
      if (played) played.parts.forEach(part => this.hold(part));
      else this.hurt.push({entry, left});
    }
    this.narrow();
    return this.hurt.every(({left}) => left.length);
  }

  /** A choice whose player has a stone on one line's cell is that line's parts. */
  narrow() {
    for (const entry of this.held.splice(0)) {
      const played = entry.parts.find(({cell}) => this.mine.has(cell));
      if (played) played.parts.forEach(part => this.hold(part));
      else this.held.push(entry);
    }
  }

  /** The cells by which the player answers now; none where any move is good. */
  get answers() { return this.hurt.length === 1 ? [...new Set(this.hurt[0].left.map(({cell}) => cell))] : []; }

  /** A cell by which the player goes on if no answer is due: that of the line with the fewest cells; null if all is linked. */
  get free() {
    const lines = this.held.flatMap(({parts}) => parts).sort((one, two) => sizeOfMask(one.mask) - sizeOfMask(two.mask));
    return lines[0]?.cell ?? null;
  }
}

const sizeOfMask = mask => mask.toString(2).replaceAll('0', '').length;

/** What a proof's player follows from its position on; null if the proof has no certificate, or has his move first. */
const strategyOf = ({following, claimed, cell}) => following ?? (claimed && !cell ? new Following(claimed) : null);

/** What is proved of a position by what was said of it: {player, number, swap, cell, kind, claimed}, or null. */
function provedHere({thought, solved, opening, number}) {
  for (const said of [thought, solved]) {
    if (!said?.proof || !isAccepted(said)) continue;
    const {player, claimed} = said.proof, swap = said.swap && !isWhitesWin(said);
    return {player, number, swap, cell: claimed.cell, kind: 'certificate', claimed};
  }
  const rest = {number, cell: null, claimed: null};
  if (thought?.lost) return {player: other(thought.mover), swap: thought.swap, kind: 'lost', ...rest};
  if (opening) return {player: opening, swap: opening === 'b', kind: 'opening', ...rest};
  return null;
}

/** Whether a second process accepts the certificate. */
const isAccepted = ({checked}) => /^yes/.test(checked ?? '');

/**
 * For each position of a line what is proved of it, or null: `player` wins, by the certificate of position `number`. `here`
 * says that this very position has it; `swap` that White may still swap; `answers` are the cells of the next answer.
 */
function provedAlong(line) {
  let carried = null;
  return line.map((position, at) => {
    const said = provedHere(position), here = said && {...said, here: true, answers: said.cell ? [said.cell] : []};
    const next = line[at + 1], before = carried;
    // Who leaves the proof of this position may still play by one from before.
    carried = next ? carriedOn(here, next.step) ?? carriedOn(before, next.step) : null;
    return here ?? before;
  });
}

/** What is proved after a step, by what was proved before it. */
function carriedOn(proof, {colour, move}) {
  // A swap makes another board of it.
  if (!proof || move === SWAP) return null;
  const {player, kind, claimed, cell} = proof, mover = colour === player;
  const after = {...proof, here: false, swap: proof.swap && colour === 'b', answers: []};
  if (kind === 'opening') return null;
  if (kind === 'lost') return proof.here && !mover ? after : null;
  if (proof.here) {
    if (cell && (!mover || cell !== move)) return null;
    after.following = new Following(claimed);
    if (cell) return after;
  } else {
    after.following = proof.following.copy;
  }
  const good = mover ? after.following.answer(move) : after.following.meet(move);
  if (!good) return null;
  return {...after, answers: after.following.answers};
}

// So many answers to what the other player may do are told; the board shows all.
const MOST_REPLIES = 4;

/** How the winner answers what the other player may do: ` White answers b4 by c3, a2 by b2 ..`; nothing if it isn't known. */
function replyWords({player}, replies) {
  const told = [...replies].slice(0, MOST_REPLIES).map(([cell, answers]) => `${cell} by ${answers.join(' or ')}`);
  if (!told.length) return '';
  return ` ${COLOURS[player]} answers ${told.join(', ')}${replies.size > told.length ? ' ..; the board has all' : ''}.`;
}

/** What is proved, in words: `Black has lost: White's certificate of move 52.` */
function proofWords({player, number, kind, here, swap, answers}, {mover}, replies = new Map()) {
  const mine = COLOURS[player], his = COLOURS[other(player)], unless = swap ? ' unless White swaps' : '';
  if (kind === 'opening') return `${mine} wins${swap ? ', unless White swaps' : ''}: a certificate of this opening.`;
  if (kind === 'lost') {
    return here ? `${his} has lost${unless}: no move is in each of ${mine}'s threats.`
      : `${his} has lost${unless}: before move ${number + 1} each move lost.`;
  }
  const of = here ? 'a certificate of this position' : `${mine}'s certificate of move ${number + 1}`;
  const how = mover === player && answers.length && !here ? ` It answers ${answers.join(' or ')}.` : '';
  if (mover === player) return `${mine} wins${unless}: ${of}.${how}`;
  return `${his} has lost${unless}: ${of}.${replyWords({player}, replies)}`;
}
