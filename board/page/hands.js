'use strict';
// What one does to the game beside playing: resigning, and deleting a branch, which can be brought back (cuts.js). And what a
// screen reader is told of hexd's moves.

/** Who resigns: who is to move if I play him, else the one whom I play; undefined if hexd plays both. */
const resigner = ({game: {mover}, players}) => [mover, other(mover)].find(colour => players[colour] === 'I');

/** Ends the game at its last position; Undo takes that back. */
function resign(play) {
  const {at} = play.game;
  if (!play.game.winner && resigner(play)) at.end = {colour: resigner(play), move: ENDINGS[0], properties: {}};
}

const moveWord = ({move}) => (move === SWAP ? 'swap' : move);
const stepWords = step => `${COLOURS[step.colour]} ${moveWord(step)}`;

/** Deletes the move that led here with all after it, and goes to the position before. */
async function deleteBranch(play) {
  const {game} = play, {at} = game;
  if (!at.parent) return;
  await game.goTo(at.parent);
  cutBranch(at);
  const after = branchOf(at).length - 1, what = after ? `${stepWords(at.step)} and ${counted(after, 'move')} after it are`
    : `${stepWords(at.step)} is`;
  play.message.say(`${what} deleted; 'Bring back' undoes that.`);
}

async function restoreBranch({game}) {
  if (game.tree.cuts.length) await game.goTo(putBack(game.tree));
}

/** Tells a screen reader the move that led to a position. */
const speakMove = ({step}) => { byId('spoken').textContent = `hexd plays ${stepWords(step)}.`; };

function drawHands(play) {
  const {game, lost} = play, {at} = game, cut = game.tree.cuts.at(-1);
  const enable = (id, can) => { byId(id).disabled = Boolean(lost) || !can; };
  enable('undo', at.parent || at.end);
  enable('resign', !game.winner && !at.next && resigner(play));
  enable('cut', at.parent);
  byId('restore').classList.toggle('away', !cut);
  if (!cut) return;
  byId('restore').textContent = `Bring back ${moveWord(cut.position.step)}`;
}

function wireHands(play) {
  const on = (id, use) => byId(id).addEventListener('click', use);
  on('resign', () => {
    play.stop();
    play.act(() => resign(play));
  });
  on('cut', () => play.act(() => deleteBranch(play)));
  on('restore', () => play.act(() => restoreBranch(play)));
  wireComments(play);
}
