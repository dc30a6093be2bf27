'use strict';
// A move in so many seconds: from how long hexd's searches took it is told how many nodes, positions and playouts a move gets.

// The slowest of so many searches counts: positions with more stones take longer.
const SEARCHES = 3;
// hexd gets other numbers, and so another process, if they are by so much more or less.
const MORE = 1.2, LESS = 0.85;

class Pace {
  /** `clock` is that of settings.json. Each move gets a multiple of the options `unit`, the first one about as many as `first`,
      in so many seconds, on a size. */
  constructor(clock, {unit, first, seconds, size}) {
    const {weight, ...counts} = unit, given = Object.entries(counts).filter(([name, number]) => first[name] && number);
    const factor = Math.min(...given.map(([name, number]) => first[name] / number));
    Object.assign(this, {clock, unit, seconds, size, factor, paces: []});
  }

  get options() {
    const {clock: {most}, unit: {weight, ...counts}, factor} = this;
    // None of what the unit has none of.
    const times = number => number && Math.min(most, Math.max(1, Math.round(number * factor)));
    return {weight, ...Object.fromEntries(Object.entries(counts).map(([name, number]) => [name, times(number)]))};
  }

  /** Has the next search take no longer than these seconds, as far as the last ones tell. */
  within(seconds) {
    if (this.paces.length) this.factor = Math.min(this.factor, this.clock.share * seconds / Math.max(...this.paces));
  }

  /** Takes note of a search that ran its whole length with these options. */
  took(milliseconds) {
    const {clock: {share, growth}, seconds, factor} = this;
    this.paces = [...this.paces, milliseconds / 1000 / factor].slice(-SEARCHES);
    const wanted = Math.min(share * seconds / Math.max(...this.paces), growth * factor);
    if (wanted > MORE * factor || wanted < LESS * factor) this.factor = wanted;
  }
}

/** How hexd plays by the clock, in words. */
const clockWords = ({seconds, options}) =>
  `A move of hexd's takes at most some ${counted(seconds, 'second')}: now ${optionWords(options)}. ${
    'How many these are is measured, so such a game can\'t be repeated move for move.'}`;
