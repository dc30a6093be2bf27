'use strict';
// Moves that are judged: by what was found before a move and after it. What is proved is said to be; the rest is a guess of
// hexd's searches, or of the record that was opened. In a record the marks are SGF's own: TE, DO, BM, and V for the share.

// A move that gives away less than this of its player's share of wins is so good; beyond all of these it is a blunder.
const GIVEN_AWAY = [[0.05, 'good'], [0.1, 'doubtful'], [0.2, 'mistake']];
// What is bad enough for 'Next mistake'.
const BAD = ['mistake', 'blunder'];
const SIGNS = {best: '!', good: '', doubtful: '?!', mistake: '?', blunder: '??'};
const MARKS = {best: ['TE', '1'], doubtful: ['DO', ''], mistake: ['BM', '1'], blunder: ['BM', '2']};
// All marks of a move in a record.
const OF_MARKS = ['TE', 'DO', 'BM', 'IT'];

/** The share of Black's in a position: {value, proved, swap}, or null. `proof` is that of the position. */
function shareIn(position, proof) {
  const winner = position.facts?.winner;
  if (winner) return {value: winner === 'b' ? 1 : 0, proved: true, swap: false};
  if (proof) return {value: proof.player === 'b' ? 1 : 0, proved: true, swap: proof.swap};
  return (position.thought && blackShare(position.thought)) ?? recordedShare(position);
}

/** The share that a record gives a position by its V: from -1, all for White, to 1. What a record says is no proof. */
function recordedShare({properties: {V: [given = ''] = []}}) {
  const value = given.trim() === '' ? NaN : Number(given);
  return value >= -1 && value <= 1 ? {value: (value + 1) / 2, proved: false} : null;
}

/** The mark that a record gives the move to a position; null if there is none. */
function recordedMark({properties}) {
  const found = Object.entries(MARKS).find(([, [name, value]]) => properties[name]?.some(given => given.trim() === value));
  return found ? {kind: found[0], words: `the record calls it ${articled(found[0])}`} : null;
}

const articled = kind => ({best: 'a best move', good: 'a good move', doubtful: 'doubtful'}[kind] ?? `a ${kind}`);

/** How a move is judged: {kind, words}; null if nothing can be said of it. `before` and `after` are the proofs. */
function judged(position, before, after) {
  const {step, parent} = position, thought = parent?.thought;
  if (!thought) return parent && recordedMark(position);
  // A first move and a swap are no matter of shares: White takes over a stone that wins.
  if (step.move === SWAP || thought.swap || parent.tree.isFirst(parent)) return null;
  const [was, is] = [shareIn(parent, before), shareIn(position, after)];
  if (!was || !(is || was.proved)) return null;
  const own = share => (!share ? null : step.colour === 'b' ? share.value : 1 - share.value);
  const found = (before?.here && before.cell) || thought.cell, best = found === step.move ? null : found;
  return was.proved ? judgedByProof(position, own(was), own(is), is, best) : judgedByShares(position, own(was), own(is), is, best);
}

const bestWords = best => (best ? `; best ${best}` : '');

/** The words of a move after which the other player is proved to win. */
function lossWords({step, thought, solved}, best) {
  const cell = thought?.win ? thought.cell : solved?.cell, name = COLOURS[other(step.colour)];
  return `loses: ${name} wins${cell ? ` by ${cell}` : ''}, proved${bestWords(best)}`;
}

/** A move of who was proved to win before it, or to have lost: the latter can lose nothing. */
function judgedByProof(position, was, is, share, best) {
  if (!was) return null;
  if (!share?.proved) return {kind: 'doubtful', words: `a win was proved, and after this move none is${bestWords(best)}`};
  if (!is) return {kind: 'blunder', words: lossWords(position, best)};
  return {kind: best ? 'good' : 'best', words: 'wins, proved'};
}

/** A move before which nothing was proved. */
function judgedByShares(position, was, is, share, best) {
  if (share.proved && is) return {kind: 'best', words: 'wins, proved'};
  const kind = best ? GIVEN_AWAY.find(([least]) => was - is < least)?.[1] ?? 'blunder' : 'best';
  const guess = `${articled(kind)}: from ${percent(was)} to ${percent(is)} by hexd's searches${bestWords(best)}`;
  if (!share.proved) return {kind, words: guess};
  return {kind: best ? kind : 'doubtful', words: `${lossWords(position, best)}; before it a search gave ${percent(was)}`};
}

/** How each move of a line is judged, by its position. */
const judgedAlong = (line, proofs) =>
  new Map(line.slice(1).map((position, at) => [position, judged(position, proofs[at], proofs[at + 1])]));

/** How a move is judged, as a sentence. */
const judgedWords = ({step}, {words}) => `${stepWords(step)}: ${words}.`;

/** The next move of a line behind a position that is bad, and else the first one; undefined if none is. */
function nextBad(line, judgements, at) {
  const bad = line.filter(position => BAD.includes(judgements.get(position)?.kind));
  return bad.find(({number}) => number > at.number) ?? bad[0];
}

/** How the moves of a whole tree are judged, and the shares of its positions: {judgements, shares}. */
function judgedTree(tree) {
  const judgements = new Map(), shares = new Map();
  for (const end of tree.positions.filter(({children}) => !children.length)) {
    const line = end.path, proofs = provedAlong(line);
    for (const [position, judgement] of judgedAlong(line, proofs)) judgements.set(position, judgement);
    line.forEach((position, at) => shares.set(position, shareIn(position, proofs[at])));
  }
  return {judgements, shares};
}

/** The properties of a position with the marks of its move and the share. */
function markedProperties(properties, judgement, share) {
  const made = judgement ? without(properties, OF_MARKS) : {...properties};
  const [name, value] = MARKS[judgement?.kind] ?? [];
  if (name) made[name] = [value];
  if (share) made.V = [String(Number((2 * share.value - 1).toFixed(2)))];
  return made;
}
