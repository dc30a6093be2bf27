'use strict';
// Puzzles: positions in which Black is to move and wins by one cell, or by few, which puzzlelist.js has. After a move of
// Black's the solver says who wins, with a certificate that a second process checks; where White does, hexd answers by it.

const GRADES = ['easy', 'medium', 'hard'];
// What is kept in the browser's store: the names of the puzzles that were solved.
const SOLVED_KEPT = 'hexd-puzzles';

const PUZZLES = PUZZLE_ROWS.trim().split('\n').map(row => {
  const [name, size, ...cells] = row.split(' '), [black, white, wins] = cells.map(list => list.split(','));
  const start = [...black.map(vertex => ['b', vertex]), ...white.map(vertex => ['w', vertex])];
  return {name, grade: name.split('-')[0], size: Number(size), start, wins};
});

const placeOf = ({size, start}) => `${size} ${start.map(stone => stone.join('')).sort().join(' ')}`;

/** The puzzle that a game begins with: whoever opened it, it is known by its stones. */
const puzzleOf = (() => {
  const byPlace = new Map(PUZZLES.map(puzzle => [placeOf(puzzle), puzzle]));
  return tree => (tree.start.length && tree.root.mover === 'b' && byPlace.get(placeOf(tree))) || null;
})();

/** The names of the puzzles that were solved in this browser. */
function solvedPuzzles() {
  try {
    return new Set(JSON.parse(localStorage.getItem(SOLVED_KEPT) ?? '[]'));
  } catch {
    return new Set();
  }
}

function keepSolved({name}) {
  try {
    localStorage.setItem(SOLVED_KEPT, JSON.stringify([...solvedPuzzles().add(name)]));
  } catch {
    // Without a store it is forgotten.
  }
}

/** The next puzzle of a grade behind one, or from the first on: one that wasn't solved, if there is one. */
function nextPuzzle(grade, before, solved = solvedPuzzles()) {
  const all = PUZZLES.filter(puzzle => puzzle.grade === grade), at = all.indexOf(before) + 1;
  const turned = [...all.slice(at), ...all.slice(0, at)];
  return turned.find(({name}) => !solved.has(name)) ?? turned[0];
}

/** Puts a puzzle in the place of the game: I play Black, and hexd White. */
function beginPuzzle(play, {name, size, start}) {
  play.stop();
  for (const [colour, player] of [['b', 'I'], ['w', 'hexd']]) byId(`player-${colour}`).value = player;
  kept.save();
  play.act(() => play.take(new Tree(size, start, {PL: ['B'], GN: [`Puzzle ${name}`]})));
}

/** After each change: who wins by a move of Black's in a puzzle, if that isn't proved yet; and whether it is solved. */
async function judgePuzzle(play) {
  const {game} = play, {at, tree} = game, puzzle = puzzleOf(tree);
  if (!puzzle || at.step?.colour !== 'b') return;
  if (at.facts.winner) return keepSolved(puzzle);
  if (provedAlong(at.path).at(-1)) return;
  play.startClock('looks who wins');
  await prove(game, at, text => {
    play.progress = text;
    play.draw();
  });
  play.stopClock();
}

/** What of a proof is shown: in a puzzle not how Black goes on, who is to find that. */
const shownProof = (tree, proof) =>
  (proof?.player === 'b' && puzzleOf(tree) ? {...proof, cell: null, claimed: null, following: null, answers: []} : proof);

/** What is asked: `Black to play and win. One of 17 cells wins ..`. */
function askedWords({name, size, start, wins}) {
  const all = size ** 2 - start.length, one = wins.length === 1;
  const few = `${one ? 'One' : wins.length} of ${all} cells ${one ? 'wins' : 'win'}`;
  return `Puzzle ${name}: Black to play and win. ${few}, and after each other White does. Proved: puzzles/${name}.cert.xz.`;
}

/** How it stands after the moves that were made; null where none was, or where nothing is proved yet. */
function standingWords({at, winner, size}) {
  const moves = at.path.filter(({step}) => step?.colour === 'b'), proofs = provedAlong(at.path);
  if (at.facts?.winner === 'b') return `Solved: Black has joined ${edgeNames(size).b.join(' and ')}.`;
  const bad = moves.find(({number}) => proofs[number]?.player === 'w');
  const loss = bad && `${bad.step.move} loses: White wins${wayOf(bad, proofs[bad.number])}, proved.`;
  if (winner) return `White has won. ${loss ?? ''} 'Undo' takes moves back.`;
  if (bad) return `${loss} Play on against it, or 'Undo' takes it back.`;
  const last = moves.at(-1);
  return last && proofs[last.number] ? `${last.step.move} wins, proved. Play on to the end: hexd is White.` : null;
}

/** The cell by which White wins after a move that loses. */
function wayOf({solved}, {answers}) {
  const cell = solved?.cell ?? answers[0];
  return cell ? ` by ${cell}` : '';
}

/** What is said of a puzzle, as elements; none in another game. */
function puzzleElements(game) {
  const puzzle = puzzleOf(game.tree), standing = puzzle && standingWords(game);
  const words = puzzle ? [askedWords(puzzle), ...standing ? [standing] : []] : [];
  return words.map((text, at) => htmlElement('p', {class: at ? 'puzzle proved' : 'puzzle'}, text));
}

/** The grades, each with how many of it are solved; a click gives the next. */
function drawGrades(play) {
  const solved = solvedPuzzles();
  byId('grades').replaceChildren(...GRADES.map(grade => {
    const all = PUZZLES.filter(puzzle => puzzle.grade === grade), done = all.filter(({name}) => solved.has(name)).length;
    const button = htmlElement('button', {type: 'button', 'data-grade': grade}, `${grade}: ${done} of ${all.length} solved`);
    button.onclick = () => {
      byId('puzzles').hidePopover();
      beginPuzzle(play, nextPuzzle(grade, puzzleOf(play.game.tree)));
    };
    return button;
  }));
}

function wirePuzzles(play) {
  byId('puzzles').addEventListener('beforetoggle', () => drawGrades(play));
}
