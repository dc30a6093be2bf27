'use strict';
// How strongly hexd plays: by a strength of board/settings.json, as the server was started, or by the clock.

// What a value of the box of strengths begins with if it is seconds a move; and the value of what the server was started with.
const CLOCK = 'clock-', STARTED = 'started';

const strengthOf = () => byId('strength').value;

/** The strength that is chosen, in words: `normal`, `5 seconds a move`. */
const strengthName = () => byId('strength').selectedOptions[0].textContent.replace(/^as started \((.*)\)$/, '$1');

/** The seconds a move of a strength by the clock; null of any other. */
const secondsOf = strength => (strength.startsWith(CLOCK) ? Number(strength.slice(CLOCK.length)) : null);

/** The value of a table by sizes: that of the least size in it that isn't below this one. */
function bySize(values, size) {
  const sizes = Object.keys(values).map(Number).sort((one, two) => one - two);
  return values[sizes.find(least => least >= size) ?? sizes.at(-1)];
}

/** Which options hexd gets. `settings` are those of Session.settings: {table, started, workers, guessed}. */
class Strengths {
  constructor(settings) { Object.assign(this, settings, {paced: null, guesses: new Guesses(settings.guessed)}); }

  /** The options of a strength on a size, those of weight, playouts, look and solve that it has. */
  options(strength, size) {
    if (strength === STARTED) return this.started;
    if (secondsOf(strength)) return this.pace(strength, size).options;
    const given = Object.entries(this.table.strengths[strength]);
    return Object.fromEntries(given.map(([name, value]) => [name, typeof value === 'object' ? bySize(value, size) : value]));
  }

  /** What the clock gives a move on a size, if the strength is one by the clock; else null. Another one begins anew. */
  pace(strength, size) {
    const seconds = secondsOf(strength), {clock} = this.table;
    if (seconds && (this.paced?.seconds !== seconds || this.paced.size !== size)) {
      const [unit, first] = [clock.unit, clock.first].map(name => this.options(name, size));
      this.paced = new Pace(clock, {unit, first, seconds, size});
    }
    return seconds ? this.paced : null;
  }

  /** An opening near even: with a swap open, one that wins would be taken over. None on the smallest boards. */
  even(size) { return this.table.even[size] ?? null; }

  /** Offers what the server was started with, if that is no strength, and chooses what is the default here. */
  draw() {
    const {started, table} = this, select = byId('strength');
    if (started) select.prepend(htmlElement('option', {value: STARTED}, `as started (${optionWords(started)})`));
    select.value = started ? STARTED : table.default;
  }
}

/** Options as words: `look-ahead of 400 nodes, 1,000 playouts, solver up to 100 positions`. */
function optionWords({look, playouts, solve}) {
  return [
    ...look ? [`look-ahead of ${counted(look, 'node')}`] : [],
    counted(playouts, 'playout'),
    ...solve ? [`solver up to ${counted(solve, 'position')}`] : [],
  ].join(', ');
}

/** How hexd plays, in words. `took` is how long the last search took: {milliseconds, options}, if there was one. */
function strengthWords(options, took) {
  const how = `A move of hexd's: ${optionWords(options)}`;
  if (!took || optionText(took.options) !== optionText(options)) return `${how}.`;
  const seconds = Math.round(took.milliseconds / 1000);
  return `${how}; ${seconds ? `some ${counted(seconds, 'second')}` : 'less than a second'}, as the last search went.`;
}

/** Options as the words of a request: `look=400 playouts=1000`. */
const optionText = options => Object.entries(options).map(([name, value]) => `${name}=${value}`).sort().join(' ');
