'use strict';
// What each button, switch and key of the page does.

// The keys that are buttons of the bar, and those with Ctrl.
const KEYS = {ArrowLeft: 'back', ArrowRight: 'forth', Home: 'first', End: 'end', u: 'undo', a: 'live', m: 'mistake'};
const CONTROL_KEYS = {z: 'undo'};
// So long after a move of hexd's a click on 'hexd moves' is one on 'Stop' that came late, or the second of a double one, in milliseconds.
const LATE = 300;

function wire(play) {
  wireBar(play);
  wireChoices(play);
  wireFiles(play);
  wireDrop(play);
  wireSwitches(play);
  wireHands(play);
  wireLive(play);
  wireTiming(play);
  wirePuzzles(play);
  addEventListener('keydown', press);
  addEventListener('popstate', ({state}) => play.goBack(state));
  addEventListener('pagehide', () => play.game.session?.close());
  // A browser may bring the page again as it was, without its hexd.
  addEventListener('pageshow', ({persisted}) => { if (persisted) play.again(false); });
}

/** The bar below the board. */
function wireBar(play) {
  const {game} = play, on = (id, use) => byId(id).addEventListener('click', use);
  const act = (use, goOn) => () => play.act(use, goOn);
  const go = to => act(() => to() && game.goTo(to()));
  on('first', go(() => game.tree.root));
  on('back', go(() => game.at.parent));
  on('forth', go(() => game.at.next));
  on('end', go(() => game.tree.line.at(-1)));
  on('undo', act(() => play.undo()));
  // One search at a time: what is asked in the midst of one would begin behind it, also after Stop.
  const ask = (use, goOn) => () => { if (!play.isAtWork) play.act(use, goOn); };
  on('hint', ask(() => play.hint()));
  // One stands where the other stood: the second click of a double one is none, nor is one that comes as a search ends.
  const letMove = ask(() => play.letHexdMove(), true);
  on('go', ({detail, timeStamp}) => { if (!detail || timeStamp - play.ended > LATE) letMove(); });
  on('stop', ({detail}) => { if (detail < 2) play.stop(); });
  on('swap', act(() => game.play(SWAP), true));
  on('new', () => play.begin(game.size));
  on('again', () => play.again(false));
  on('room', () => play.again(true));
}

/** The size, and what is asked of hexd beside moves. */
function wireChoices(play) {
  const sizes = [...Array(LETTERS.length).keys()].map(at => htmlElement('option', {value: at + 1}, `${at + 1}`));
  byId('size').append(...sizes);
  byId('size').addEventListener('change', ({target: {value}}) => play.begin(Number(value)));
  byId('analyse').addEventListener('click', () => { if (!play.isAtWork) play.act(() => play.analyse()); });
  byId('mistake').addEventListener('click', () => play.act(() => play.goToMistake()));
  byId('prove').addEventListener('click', () => { if (!play.isAtWork) play.act(() => play.prove()); });
}

/** What lasts over a reload: players, strength, and what is shown. */
function wireSwitches(play) {
  for (const element of kept.elements()) {
    element.addEventListener('change', () => {
      kept.save();
      play.draw();
    });
  }
  for (const id of ['player-b', 'player-w']) {
    byId(id).addEventListener('change', () => play.act(async () => {}, !play.game.at.next));
  }
  const resized = new ResizeObserver(() => play.panel.resize());
  for (const id of ['stage', 'plot']) resized.observe(byId(id));
}

/** A key that is a button's. In a box keys write, and on the board the arrows go over the cells. */
function press(event) {
  const {key, ctrlKey, metaKey, altKey, shiftKey, target} = event;
  const id = (ctrlKey || metaKey ? CONTROL_KEYS : KEYS)[key];
  if (!id || altKey || shiftKey || target.closest('input:is([type=text], [type=number]), select, textarea')) return;
  if (key.startsWith('Arrow') && target.closest('#board')) return;
  event.preventDefault();
  byId(id).click();
}
