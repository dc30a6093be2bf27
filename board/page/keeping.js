'use strict';
// What lasts: the game in the address and in the browser's history, so that a reload finds it and Back brings the last one;
// what hexd said of it in the browser's database (store.js); the strength and the switches in the browser's store; and the
// players in that of the tab, so that another tab's choice changes nothing.

const KEPT = 'hexd-board';
// So many games stay in the page: one with a long certificate takes a hundred megabytes.
const MOST_TREES = 4;

/** Keeps the choices of the page's `.kept` elements, and sets them as they were kept. */
const kept = {
  // The stores by name, with the elements of each.
  stores: {localStorage: '.kept:not(.by-tab)', sessionStorage: '.kept.by-tab'},

  elements: (of = '.kept') => [...document.querySelectorAll(of)],

  save() {
    for (const [store, of] of Object.entries(this.stores)) {
      const values = {};
      for (const {id, type, checked, value} of this.elements(of)) values[id] = type === 'checkbox' ? checked : value;
      try {
        window[store].setItem(KEPT, JSON.stringify(values));
      } catch {
        // Without a store they last as long as the page.
      }
    }
  },

  restore() {
    for (const [store, of] of Object.entries(this.stores)) this.restoreFrom(store, of);
  },

  restoreFrom(store, of) {
    let values = {};
    try {
      values = JSON.parse(window[store].getItem(KEPT)) ?? {};
    } catch {
      return;
    }
    for (const element of this.elements(of)) {
      const value = values[element.id];
      if (typeof value === 'boolean') element.checked = value;
      else if (element.type === 'number' && value !== undefined) element.value = value;
      else if ([...element.options ?? []].some(option => option.value === value)) element.value = value;
    }
  },
};

/** The games of this page by the entries of the browser's history. */
class Keeping {
  constructor() { Object.assign(this, {trees: new Map(), entries: new Map(), order: [], store: new Store()}); }

  /** Writes a game into the address and the entry of the history; `anew` makes another entry, which Back leaves. */
  keep(tree, anew) {
    tree.id ??= Math.random().toString(36).slice(2);
    // An older one is read from its entry again, and what was said of it from the database.
    this.trees.delete(tree.id);
    this.trees.set(tree.id, tree);
    if (this.trees.size > MOST_TREES) this.trees.delete(this.trees.keys().next().value);
    // Where one has gone to another entry meanwhile, this one isn't the game's.
    if (!anew && history.state && history.state.id !== tree.id) return;
    const seen = tree.line.slice(1).map(({step}) => step), link = `#${linkOfTree(tree)}`;
    const state = {id: tree.id, record: recordOfTree(tree), line: seen, cuts: writeCuts(tree), hexd: tree.hexd};
    this.entries.set(tree.id, [state, '', link]);
    try {
      if (anew) this.pushAheadOf(history.state?.id);
      if (anew) history.pushState(state, '', link);
      else history.replaceState(state, '', link);
      if (!this.order.includes(tree.id)) this.order.push(tree.id);
    } catch {
      // Some browsers refuse where it comes often in a short time; the next change comes with its own.
    }
  }

  /** A new entry takes the place of all behind the one that is shown: their games get entries again, which Back finds. */
  pushAheadOf(id) {
    const at = this.order.indexOf(id);
    for (const ahead of at < 0 ? [] : this.order.slice(at + 1)) history.pushState(...this.entries.get(ahead));
  }

  /** The game of an entry of the history, with what hexd said of it; null where the entry has none. */
  async treeOf(state) {
    if (!state?.record) return null;
    if (this.trees.has(state.id)) return this.trees.get(state.id);
    const {tree} = treeOfRecord(state.record);
    Object.assign(tree, {id: state.id, hexd: state.hexd});
    // The line that was seen, as it goes on behind the place where the game stands.
    const {at} = tree, end = positionAt(tree, state.line ?? []);
    if (end?.path.includes(at)) for (const position of [end, at]) tree.goTo(position);
    readCuts(tree, state.cuts ?? []);
    await this.store.fill(tree);
    return tree;
  }
}
