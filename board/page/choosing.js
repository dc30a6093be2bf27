'use strict';
// hexd's move on the page where it needs no search, or where its search says that it should swap: it answers by a proof that
// the page holds, takes a first stone that wins, and opens with one that is near even.

/** Who wins by the stones as they lie, if it is known: by a certificate, the solver, or threats. */
const winnerByStones = ({opening, solved}, proof) => opening ?? solved?.winner ?? proof?.player ?? null;

/** The cell by which the winner of a proof answers, or goes on if no answer is due; null if it names none. */
function answerOf(proof) {
  if (proof.here && proof.cell) return proof.cell;
  const strategy = strategyOf(proof);
  return strategy && (strategy.answers[0] ?? strategy.free);
}

/** The answers of a proof to what the other player may do now, by cells: {cell: answers}, if it is his move. */
function repliesOf(proof, {mover, at, size}) {
  const strategy = proof && proof.player !== mover && strategyOf(proof);
  if (!strategy) return new Map();
  const empty = verticesOf(size).filter(vertex => !at.facts.stones.has(vertex));
  return new Map(empty.map(vertex => [vertex, strategy.after(vertex)?.answers ?? []]).filter(([, answers]) => answers.length));
}

const SWAP_BY_PROOF = 'hexd swaps: it is proved that Black\'s stone wins.';

/** hexd's move if none has to be searched for: {move, why}; else null. `even` is an opening near even, if there is one. */
function knownMove({at, mover, canSwap, tree}, proof, even) {
  if (canSwap && winnerByStones(at, proof) === 'b') return {move: SWAP, why: SWAP_BY_PROOF};
  if (even && tree.isFirst(at)) return {move: even, why: evenWords(even)};
  const cell = proof?.player === mover ? answerOf(proof) : null;
  return cell && {move: cell, why: `Proved: ${cell}.`};
}

/** The share of wins of who is to move, by the search for his best move; null if there was none. */
function shareOf(thought) {
  const row = thought.rows.find(([vertex]) => vertex === thought.cell);
  return row?.[1] ? row[2] / row[1] : null;
}

/** Whether a guess of Black's first stone stands in place of hexd's own look at it: one with more nodes is better. */
const isByGuess = (thought, guess) => Boolean(guess) && !thought.win && !thought.lost && (thought.budget ?? 0) <= guess.nodes;

/** White's share without a swap, by a guess or by the search for his best move. */
const shareWithoutSwap = (thought, guess) => (isByGuess(thought, guess) ? 1 - guess.share : shareOf(thought) ?? 1);

/** Whether White should swap by what hexd said of his best move, or by a guess: a swap is worth what that leaves to Black. */
const isSwapBetter = (thought, guess = null) => thought.lost || (!thought.win && shareWithoutSwap(thought, guess) < 0.5);

const swapWords = (thought, guess = null) => (thought.lost ? 'hexd swaps: else White loses with every move.'
  : `hexd swaps: without it White wins ${percent(shareWithoutSwap(thought, guess))}, by ${
    isByGuess(thought, guess) ? 'its guess of this opening' : 'its search'}.`);

const evenWords = even => `An opening near even, ${even}: White would take over one that wins.`;
