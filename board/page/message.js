'use strict';
// A message stands where one clicked: below the cell, the button or the box that was used last. In a narrow window it has the
// place of the line above the board, so that it lies over no button and no cell. It goes once it could be read.

// How long a message stays: so long, and for each of its letters.
const LEAST_STAY = 4_000, STAY_OF_LETTER = 50, MOST_STAY = 90_000;
const NARROW_WINDOW = matchMedia(
  '(max-width: 60rem) and (orientation: portrait), (max-height: 34rem) and (orientation: landscape)');

class Message {
  constructor(element) {
    Object.assign(this, {element, place: null, ending: null});
    for (const kind of ['click', 'keydown', 'change', 'submit']) {
      addEventListener(kind, ({target}) => this.note(target), {capture: true});
    }
  }

  note(target) {
    const used = target.closest?.('[data-vertex], button, label, input, select');
    if (used) this.place = used.getBoundingClientRect();
  }

  /** Shows a text, for as long as it takes to read it. */
  say(text) {
    const {element} = this;
    element.textContent = text;
    element.hidden = !text;
    clearTimeout(this.ending);
    if (!text) return;
    element.classList.toggle('narrow', NARROW_WINDOW.matches);
    if (NARROW_WINDOW.matches) this.putOverStatus();
    else this.putBelow();
    this.ending = setTimeout(() => this.clear(), Math.min(MOST_STAY, LEAST_STAY + STAY_OF_LETTER * text.length));
  }

  putOverStatus() {
    const {left, top, width, height} = byId('status').getBoundingClientRect(), {style} = this.element;
    for (const [name, value] of Object.entries({left, top, width, height})) style[name] = `${value}px`;
  }

  /** Below the place that was used last, inside the window. */
  putBelow() {
    const {element, place} = this;
    element.style.width = element.style.height = '';
    const {innerWidth, innerHeight} = window, {offsetWidth, offsetHeight} = element;
    const left = place ? (place.left + place.right - offsetWidth) / 2 : (innerWidth - offsetWidth) / 2;
    const top = place ? place.bottom + 6 : 40;
    element.style.left = `${Math.max(6, Math.min(left, innerWidth - offsetWidth - 6))}px`;
    element.style.top = `${Math.max(6, Math.min(top, innerHeight - offsetHeight - 6))}px`;
  }

  clear() { this.say(''); }

  /** Takes a text away that is true no longer; another one stays. */
  take(text) { if (this.element.textContent === text) this.clear(); }
}
