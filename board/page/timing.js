'use strict';
// The clock of a game, for both players: main time with so much more for each move, and behind it periods, of which one is used
// up whenever a move takes longer (byo-yomi). It begins with the first move, and stands still where one looks elsewhere.

const OFTEN = 100;
// From here on a clock is low.
const LOW = 10_000;
// The clock of each game, behind whose id.
const CLOCK_KEPT = 'hexd-clock-';
// How hexd shares its time out: among this share of the empty cells, and no fewer moves than these.
const SHARE_OF_CELLS = 0.3, FEWEST_MOVES = 8, SPARE = 0.1;

/** A time as it is shown: `9:05`, and with tenths once it is low. */
function timeWords(milliseconds) {
  const left = Math.max(0, milliseconds), seconds = left < LOW ? Math.floor(left / 100) / 10 : Math.floor(left / 1000);
  const rest = (seconds % 60).toFixed(left < LOW ? 1 : 0);
  return `${Math.floor(seconds / 60)}:${rest.padStart(left < LOW ? 4 : 2, '0')}`;
}

class GameClock {
  constructor() {
    this.now = () => Date.now();
    this.off();
  }

  off() { Object.assign(this, {id: null, times: null, left: null, running: null, since: 0, position: null}); }

  get isOn() { return Boolean(this.times); }

  /** Begins a game. `times` are {main, increment, periods, period}, in milliseconds. */
  begin(id, times) {
    this.off();
    const all = () => ({main: times.main, periods: times.periods, used: 0});
    Object.assign(this, {id, times, left: {b: all(), w: all()}});
  }

  /** What a player has left: {main, periods, used, time, isOver}. `used` is what is gone of his period, `time` what is shown. */
  of(colour) {
    const {times: {period}, running, since} = this, {main, periods, used} = this.left[colour];
    const spent = running === colour ? this.now() - since : 0;
    if (spent < main) return {main: main - spent, periods, used, time: main - spent, isOver: false};
    const gone = used + spent - main, ended = period ? Math.floor(gone / period) : periods;
    if (!period || ended >= periods) return {main: 0, periods: 0, used: 0, time: 0, isOver: true};
    return {main: 0, periods: periods - ended, used: gone % period, time: period - gone % period, isOver: false};
  }

  /** Whose clock runs from now on, if anyone's; `hasMoved`: the other one has moved, and gets what a move brings. */
  run(colour, hasMoved) {
    const {running, times} = this;
    if (running) {
      const {main, periods, used} = this.of(running);
      this.left[running] = hasMoved ? {main: main && main + times.increment, periods, used: 0} : {main, periods, used};
    }
    Object.assign(this, {running: colour, since: this.now()});
  }

  /** Goes on with where a game stands now. */
  follow({at, winner, mover}) {
    const hasMoved = at.parent !== null && at.parent === this.position, wanted = winner || at.next || !at.parent ? null : mover;
    if (wanted !== this.running || hasMoved) this.run(wanted, hasMoved);
    this.position = at;
  }

  /** How many seconds a player's move may take with so many cells empty. */
  secondsFor(colour, empty) {
    const {main, time} = this.of(colour), {increment} = this.times;
    return (1 - SPARE) / 1000 * (main ? main / Math.max(FEWEST_MOVES, SHARE_OF_CELLS * empty) + increment : time);
  }

  /** Keeps it for a reload, which it goes on through. */
  keep() {
    const {id, times, left, running, since} = this;
    try {
      sessionStorage.setItem(CLOCK_KEPT + id, JSON.stringify({id, times, left, running, since}));
    } catch {
      // Without a store it lasts as long as the page.
    }
  }

  /** Takes up the clock of a game that was reloaded, at its last position. */
  restore({tree, at}) {
    try {
      const kept = JSON.parse(sessionStorage.getItem(CLOCK_KEPT + tree.id));
      if (kept?.id === tree.id && kept.times) Object.assign(this, kept, {position: at});
    } catch {
      // There is none.
    }
  }
}

/** The times that are chosen in the settings; null if a game has no clock, or would have no time. */
function chosenTimes() {
  const value = (id, factor) => Math.max(0, Number(byId(id).value) || 0) * factor;
  const times = {main: value('minutes', 60_000), increment: value('increment', 1_000), periods: value('periods', 1)};
  times.period = times.periods && value('period', 1_000);
  return byId('timed').checked && times.main + times.period ? times : null;
}

/** A sound, if they are wanted: of a move, and of a clock that is low. */
function sound(frequency, seconds) {
  if (!byId('sounds').checked) return;
  sound.context ??= new AudioContext();
  const {context} = sound, tone = context.createOscillator(), volume = context.createGain(), end = context.currentTime + seconds;
  tone.frequency.value = frequency;
  volume.gain.setValueAtTime(0.15, context.currentTime);
  volume.gain.exponentialRampToValueAtTime(0.001, end);
  tone.connect(volume).connect(context.destination);
  tone.start();
  tone.stop(end);
}

const soundOfMove = () => sound(330, 0.08), soundOfLow = () => sound(880, 0.3);

/** The clock of the page's game. */
class Timing {
  constructor(play) { Object.assign(this, {play, clock: new GameClock(), low: null, number: 0}); }

  /** After each change of the game: its clock is another one's, goes on, or stands still. */
  settle() {
    const {play: {game}, clock} = this, {tree, at} = game;
    if (at.number > this.number) soundOfMove();
    this.number = at.number;
    // That of a game that one leaves stands still until one is there again.
    if (clock.isOn && clock.id !== tree.id) {
      clock.run(null, false);
      clock.keep();
      clock.off();
    }
    if (tree.isEmpty) this.begin();
    if (!clock.isOn && !tree.isEmpty) clock.restore(game);
    if (clock.isOn) clock.follow(game);
    if (clock.id) clock.keep();
    this.draw();
  }

  /** A game that has not begun has the clock that is chosen. */
  begin() {
    const {play: {game: {tree}}, clock} = this, times = chosenTimes();
    if (times) clock.begin(tree.id, times);
    else clock.off();
  }

  /** What comes with time: the seconds, a low clock, and the end. */
  tick() {
    const {clock, play} = this, {running} = clock;
    if (!clock.isOn || !running) return;
    const {time, isOver} = clock.of(running);
    const isLow = time < LOW;
    if (isLow && this.low !== running) soundOfLow();
    this.low = isLow ? running : null;
    if (isOver) this.end(running);
    this.draw();
  }

  /** The game is lost by time; what hexd does ends. Who takes the end back goes on without a clock. */
  end(colour) {
    const {clock, play} = this, {position} = clock;
    // Kept without times it is none.
    clock.times = null;
    clock.keep();
    clock.off();
    play.stop();
    play.act(() => { position.end ??= {colour, move: 'forfeit', properties: {[`${colour.toUpperCase()}L`]: ['0']}}; });
  }

  draw() {
    const {clock} = this;
    byId('clocks').replaceChildren(...clock.isOn ? ['b', 'w'].map(colour => this.shown(colour)) : []);
  }

  shown(colour) {
    const {clock} = this, {time, main, periods} = clock.of(colour), isRunning = clock.running === colour;
    const name = [isRunning ? 'running' : '', time < LOW ? 'low' : ''].join(' ').trim();
    const words = `${timeWords(time)}${clock.times.periods && !main ? ` (${periods})` : ''}`;
    const given = {class: name, role: 'timer', 'aria-label': `${COLOURS[colour]}'s clock: ${words}`};
    return htmlElement('span', given, htmlElement('span', {class: `dot ${colour}`}), words);
  }

  /** The seconds that hexd's move may take; null without a clock. */
  get seconds() {
    const {clock, play: {game}} = this;
    return clock.isOn && clock.running === game.mover ? clock.secondsFor(game.mover, game.size ** 2 - game.stones.size) : null;
  }
}

function wireTiming({timing}) {
  for (const id of ['timed', 'minutes', 'increment', 'periods', 'period']) {
    byId(id).addEventListener('change', () => {
      if (timing.play.game.tree.isEmpty) timing.begin();
      timing.draw();
    });
  }
  setInterval(() => timing.tick(), OFTEN);
}
