'use strict';
// What the page says of the game in words: who is to move or has won, what is proved, and what hexd said.

/** Whether a game was ended by the clock: its record says that no time is left. */
const isByTime = ({colour, properties}) => Number(properties[`${colour.toUpperCase()}L`]?.[0] ?? NaN) === 0;

/** How the one who has lost has ended the game. */
function lossWordsOf(end) {
  const name = COLOURS[end.colour];
  if (end.move !== 'forfeit') return `${name} resigns`;
  return isByTime(end) ? `${name}'s time is up` : `${name} forfeits`;
}

/** The line above the board, and its look: {text, look}. `players` says of each colour whether it is 'I' or 'hexd'. */
function stateOf(game, {thinking, players}) {
  const {winner, mover, at} = game, name = COLOURS[winner ?? mover];
  if (thinking) return {text: `hexd ${thinking} ..`, look: 'theirs'};
  if (winner) {
    const why = at.facts.winner ? '' : `: ${lossWordsOf(at.end)}`;
    if (players.b === players.w) return {text: `${name} has won${why}.`, look: 'won'};
    const isMine = players[winner] === 'I';
    return {text: `${isMine ? 'You have' : 'hexd has'} won (${name})${why}.`, look: isMine ? 'won' : 'lost'};
  }
  const isHexds = players[mover] === 'hexd';
  return {text: `${isHexds ? 'hexd\'s' : 'Your'} turn (${name})`, look: isHexds ? 'theirs' : 'mine'};
}

/** Who joins what, where the board is empty. */
function aimWords(size) {
  const {b, w} = edgeNames(size);
  return `Black joins ${b[0]} and ${b[1]}, White joins ${w[0]} and ${w[1]}: by a chain of own stones, past the other's.`;
}

/** What stands under 'What hexd thinks', as elements: what is proved first, then what hexd said. `known` has `even`, an opening
    near even, `guesses` of first stones, `replies`, the answers of the proof, `progress`, what the solver has done so far,
    `nodes`, those of a look that is under way, and `judgement`, how the move that led here is judged. */
function thoughtElements(game, proof, map, {even, guesses, replies, progress, nodes, judgement}) {
  const {at, shown} = game, guess = guesses?.of(at), made = [];
  const add = (text, name = '') => made.push(htmlElement('p', {class: name}, text));
  made.push(...puzzleElements(game));
  if (game.tree.isEmpty) [aimWords(game.size), mapOf(game.size, map, guesses)].filter(Boolean).forEach(text => add(text));
  made.push(...firstStoneElements(game, guesses));
  if (!at.opening && proof && !proof.here && !game.winner) add(proofWords(proof, {mover: game.mover}, replies), 'proved');
  if (progress) add(`The solver: ${progress}.`, 'progress');
  if (at.solved && !progress) {
    // Those of an opening's certificate stand above.
    const answers = proof?.here && !game.winner && !at.answered ? replyWords(proof, replies) : '';
    if (at.solved.spent) add(unknownWords(at.solved));
    else add(solvedWords(at.solved, even) + answers, at.solved.winner ? 'proved' : '');
  }
  if (at.why && !game.winner) add(at.why);
  if (judgement) add(judgedWords(at, judgement), `judged is-${judgement.kind}`);
  if (shown) {
    const {thought, here} = shown, name = COLOURS[thought.mover];
    add(here ? `With ${name} to move here:` : `Of ${name}'s ${thought.cell}, move ${at.number}:`, 'of');
    thoughtWords(thought).forEach(text => add(text));
    if (here && thought.lost && replies?.size && !at.solved) add(replyWords(proof, replies).trim(), 'proved');
    if (here && at.facts.canSwap && isSwapBetter(thought, guess)) add(swapWords(thought, guess));
    if (here && even && game.tree.isFirst(at)) add(evenWords(even));
    made.push(...[bestTable(thought, here ? at.lines : null)].filter(Boolean));
  } else if (!game.tree.isEmpty && !game.winner && !proof && !at.solved && !progress && !nodes && !guess) {
    add('Of this position hexd has said nothing yet.', 'none');
  }
  if (nodes) add(`hexd looks ahead: ${counted(nodes, 'node')} ..`, 'none');
  return made;
}

/** The names, the result and the comment of a record, as elements. Of a comment all is shown, of what else it says a line. */
function recordElements(game) {
  const of = game.tree.root.properties, made = [];
  const value = name => shownValue((of[name] ?? []).map(plainValue).join(' '));
  const names = [['Black', 'PB'], ['White', 'PW']].filter(([, name]) => value(name));
  const players = names.map(([colour, name]) => `${colour}: ${value(name)}`);
  const facts = ['GN', 'EV', 'DT', 'PC'].map(value).filter(Boolean);
  if (players.length) made.push(htmlElement('p', {class: 'names'}, players.join(', ')));
  if (facts.length) made.push(htmlElement('p', {class: 'none'}, facts.join(', ')));
  if (value('RE')) made.push(htmlElement('p', {class: 'result'}, `Result: ${value('RE')}`));
  if (game.at.comment) made.push(htmlElement('p', {class: 'comment'}, game.at.comment));
  return made;
}
