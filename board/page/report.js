'use strict';
// A report: from what report.py has put into the page, one board that steps through the game, the plot, the table of moves
// with what each of them lost, and for print a section for each position.

const report = JSON.parse(byId('game').textContent);
report.thoughts = report.positions.map(position => position.thought && readThought(position.thought));
const LAST = report.positions.length - 1;
// The positions as proofs.js takes them.
const line = report.positions.map((_, number) => ({
  number, thought: report.thoughts[number], solved: null, opening: number === 1 ? report.opening : null,
  step: number ? report.positions[number - 1].step : null,
}));
const proofs = provedAlong(line);
const MOST_LOSSES = 5;

const moveWords = ({colour, move}) => `${COLOURS[colour]} ${move === SWAP ? 'swaps' : move}`;

/** Who is proved to win a position, with whether White may still swap: {player, swap}, or null. The solver's word is one of
    stones, and a proof of White's holds with a swap or without. */
function winnerAt(at) {
  const proof = proofs[at], solved = report.positions[at]?.solved;
  if (proof || !solved) return proof;
  return {player: solved, swap: Boolean(report.thoughts[at]?.swap) && solved === 'b'};
}

/** The share of wins for Black in a position: {value, proved, swap}, or null. */
function shareAt(at) {
  const {winner} = report.positions[at], proof = winnerAt(at), thought = report.thoughts[at];
  if (winner) return {value: winner === 'b' ? 1 : 0, proved: true};
  if (proof) return {value: proof.player === 'b' ? 1 : 0, proved: true, swap: proof.swap};
  return thought && blackShare(thought);
}

/** What a move made of the share of wins of who moved: {before, after, loss}, where both are known. */
function lossAt(at) {
  const {step} = report.positions[at], [before, after] = [shareAt(at), shareAt(at + 1)];
  // A share that a swap may turn around says nothing of what a move lost, nor does a step from a guess to a proof or back.
  const isGuess = [before, after].map(share => !share?.proved);
  if (!before || !after || before.swap || after.swap || step.move === SWAP || isGuess[0] !== isGuess[1]) {
    return {before, after, loss: null};
  }
  const of = share => (step.colour === 'b' ? share.value : 1 - share.value);
  return {before, after, loss: of(before) - of(after)};
}

/** What the record's own move makes of what hexd proved: `[words]` where it is proved to be bad, else none. */
function faults(at) {
  const {step} = report.positions[at], thought = report.thoughts[at], [before, after] = [winnerAt(at), winnerAt(at + 1)];
  if (!step || !thought || thought.mover !== step.colour) return [];
  // Who has lost by a proof can't lose more.
  if (before && before.player !== step.colour) return [];
  // What is proved is of stones: a first move that would have been swapped gives nothing away, and a swap is no stone.
  if (thought.swap && (thought.mover === 'b' || step.move === SWAP)) return [];
  const said = [];
  if (!thought.win && !thought.lost && thought.threats.length && !thought.allowed.has(step.move)) {
    said.push(`This move is outside a threat: after it ${COLOURS[other(step.colour)]} wins.`);
  }
  if (before && after && after.player !== step.colour) said.push('This move gives the win away.');
  return said;
}

function drawBoard(view, at) {
  const {stones, last, step, winner} = report.positions[at], thought = report.thoughts[at];
  const shown = {stones: new Map(stones), last, next: step?.move};
  if (winner) shown.chain = chainOf(shown.stones, winner, report.size);
  if (thought) {
    Object.assign(shown, {visits: visitsOf(thought), dimmed: dimmedOf(thought, report.size), chosen: thought.cell});
    if (thought.proof) shown.carrier = thought.proof.claimed.carrier;
  }
  view.svg.setAttribute('aria-label', `The board after ${counted(at, 'move')}`);
  view.shape(report.size, 'wide');
  view.show(shown);
}

const solvedWordsOf = ({player, swap}) => `Solved: ${COLOURS[player]} wins${swap ? ' unless White swaps' : ''}.`;

function wordsOf(at) {
  const {winner, step} = report.positions[at], thought = report.thoughts[at], proof = proofs[at], said = [];
  const add = (text, name = '') => said.push(htmlElement('p', {class: name}, text));
  if (winner) add(`${COLOURS[winner]} has won.`, 'proved');
  else if (!proof && winnerAt(at)) add(solvedWordsOf(winnerAt(at)), 'proved');
  if (at === 1 && report.opening) {
    add(`Proved: after this opening ${COLOURS[report.opening]} wins, unless White swaps.`, 'proved');
  } else if (proof && !proof.here && !winner) {
    add(proofWords(proof, {mover: thought?.mover ?? other(line[at].step.colour)}), 'proved');
  }
  if (thought) {
    add(`With ${COLOURS[thought.mover]} to move:`, 'of');
    thoughtWords(thought).forEach(text => add(text));
  }
  if (thought?.proof) {
    add(`${claimWords(thought.proof)} ${checkWords(thought.checked)}`);
    said.push(htmlElement('details', {}, htmlElement('summary', {}, 'The certificate'),
      htmlElement('pre', {}, thought.certificate)));
  }
  if (step) said.push(htmlElement('p', {}, 'The record: ', htmlElement('strong', {}, moveWords(step)), '.'));
  faults(at).forEach(text => add(text, 'bad'));
  return said;
}

const headOf = at => (at ? `After move ${at}: ${moveWords(line[at].step)}` : 'The start');

/** The long form, one section for each position, as it is printed. */
function drawPositions() {
  if (byId('positions').children.length) return;
  byId('positions').append(...line.map((_, at) => {
    const svg = svgElement('svg', {class: 'board', role: 'img'});
    drawBoard(new BoardView(svg), at);
    return htmlElement('section', {class: 'position', id: `position-${at}`}, htmlElement('div', {class: 'picture'}, svg),
      htmlElement('div', {class: 'said'}, htmlElement('h2', {}, headOf(at)), ...wordsOf(at)));
  }));
}

/** A button that goes to the position before a move. */
function moveButton(at, ...words) {
  const label = [`${at + 1} `, ...moveLabel(report.positions[at].step), ...words];
  const button = htmlElement('button', {type: 'button', class: 'move'}, ...label);
  button.onclick = () => goTo(at);
  return button;
}

const points = value => `${Math.round(100 * value)}`;

function shareWords(share, colour) {
  if (!share) return '';
  const value = colour === 'b' ? share.value : 1 - share.value;
  return share.proved ? (value === 1 ? 'wins' : 'lost') : percent(value);
}

function moveRow(at) {
  const {step} = report.positions[at], thought = report.thoughts[at], {before, after, loss} = lossAt(at);
  const row = htmlElement('tr', {}, htmlElement('td', {}, moveButton(at)), ...[
    thought?.cell ?? '', shareWords(before, step.colour), shareWords(after, step.colour), loss > 0 ? points(loss) : '',
  ].map(text => htmlElement('td', {}, text)));
  if (faults(at).length) row.className = 'bad';
  return row;
}

/** The moves that lost most, those that lost a point at least. */
function lossItems() {
  const losses = report.positions.slice(0, LAST).map((_, at) => ({at, ...lossAt(at)})).filter(({loss}) => loss >= 0.01);
  losses.sort((one, two) => two.loss - one.loss || one.at - two.at);
  return losses.slice(0, MOST_LOSSES).map(({at, before, after, loss}) => {
    const {colour} = report.positions[at].step;
    return htmlElement('li', {}, moveButton(at), ` loses ${points(loss)}: from ${shareWords(before, colour)} to ${
      shareWords(after, colour)}; hexd's move ${report.thoughts[at]?.cell ?? 'is none'}`);
  });
}

const view = new BoardView(svgElement('svg', {class: 'board', role: 'img'}));
let here = 0;

function goTo(at) {
  here = Math.min(LAST, Math.max(0, at));
  drawBoard(view, here);
  byId('said').replaceChildren(htmlElement('h2', {}, headOf(here)), ...wordsOf(here));
  drawPlot(byId('plot'), {count: LAST, points: shares, at: here, onPick: goTo});
  const rows = [...document.querySelectorAll('#moves tbody tr')];
  rows.forEach((row, number) => row.classList.toggle('current', number === here));
  for (const id of ['first', 'back']) byId(id).disabled = here === 0;
  for (const id of ['forth', 'end']) byId(id).disabled = here === LAST;
}

const shares = line.map((_, at) => [at, shareAt(at)]).filter(([, share]) => share);
byId('stage').append(view.svg);
document.querySelector('#moves tbody').append(...line.slice(0, LAST).map((_, at) => moveRow(at)));
byId('losses').append(...lossItems());
const steps = {first: () => 0, back: () => here - 1, forth: () => here + 1, end: () => LAST};
for (const [id, to] of Object.entries(steps)) byId(id).addEventListener('click', () => goTo(to()));
addEventListener('keydown', ({key}) => {
  const id = {ArrowLeft: 'back', ArrowRight: 'forth', Home: 'first', End: 'end'}[key];
  if (id) goTo(steps[id]());
});
addEventListener('beforeprint', drawPositions);
new ResizeObserver(() => view.scale()).observe(byId('stage'));
goTo(0);
document.body.dataset.ready = 'yes';
