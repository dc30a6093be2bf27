'use strict';
// The bar beside the board: the share of wins that hexd's last search gives Black, and all of it for who is proved to win.

/** What is known of a position: {value, proved, swap}, the share of Black's; null if nothing is. */
function evaluationOf(game, proof) {
  const winner = game.winner ?? proof?.player;
  if (winner) return {value: winner === 'b' ? 1 : 0, proved: true, swap: !game.winner && proof.swap};
  return game.shown && blackShare(game.shown.thought);
}

/** The same in words: `54 % for Black, by hexd's search`. */
function evaluationWords(share) {
  if (!share) return 'Of this position hexd has said nothing yet';
  if (!share.proved) return `${percent(share.value)} for Black, by hexd's search`;
  return `${COLOURS[share.value ? 'b' : 'w']} wins${share.swap ? ' unless White swaps' : ''}, proved`;
}

function drawEvaluation(bar, share) {
  const words = evaluationWords(share);
  bar.className = !share ? 'unknown' : share.proved ? 'proved' : '';
  bar.style.setProperty('--black', percent(share?.value ?? 0.5).replace(' ', ''));
  bar.setAttribute('aria-label', words);
  bar.title = words;
}
