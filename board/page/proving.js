'use strict';
// Who wins, on every size: the solver with one budget after another, each four times the last one, so that one sees how far
// it has come, and what the next one would take.

const FIRST_BUDGET = 100, GROWTH = 4;
// The solver is left to itself up to this budget; a further one is for who presses the button again.
const LAST_BUDGET = 1_638_400;

/** The budget after the one that a position's last answer has spent; the first one if there is none. */
const nextBudget = solved => (solved?.spent ? GROWTH * solved.spent : FIRST_BUDGET);

/** What the solver has done, while it works: `1,600 positions in 2 s, no end yet; now up to 6,400`. */
function progressWords({spent, seconds}, budget) {
  const now = `up to ${counted(budget, 'position')}`;
  return spent ? `${counted(spent, 'position')} in ${secondsWords(seconds)}, no end yet; now ${now}` : now;
}

/** What it has done without an end, and what the next budget would take. */
function unknownWords({spent, seconds}) {
  const more = GROWTH * spent;
  return `The solver entered ${counted(spent, 'position')} in ${secondsWords(seconds)} and came to no end. ${
    counted(more, 'position')} would take some ${secondsWords(GROWTH * seconds)}: 'Who wins?' again tries it.`;
}

/** A time in words, in seconds below two minutes. */
function secondsWords(seconds) {
  if (seconds < 1) return 'less than a second';
  if (seconds < 120) return counted(Math.round(seconds), 'second');
  return seconds < 7_200 ? counted(Math.round(seconds / 60), 'minute') : counted(Math.round(seconds / 3_600), 'hour');
}

/** Asks the solver of a position with growing budgets, until it knows, or has had the last one. `tell` is told of each. */
async function prove(game, position, tell, now = () => performance.now()) {
  let budget = nextBudget(position.solved);
  const last = Math.max(LAST_BUDGET, budget);
  for (; budget <= last; budget *= GROWTH) {
    tell(progressWords(position.solved ?? {}, budget));
    const begun = now();
    await game.solve(position, budget);
    Object.assign(position.solved, {spent: position.solved.winner ? null : budget, seconds: (now() - begun) / 1000});
    if (!position.solved.spent) return;
  }
}
