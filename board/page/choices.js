'use strict';
// Lists of which each line draws something on the board: threats, and the lines of a certificate.

// So many lines of a certificate are shown: a solver's may have a hundred thousand, of which the last tell most.
const MOST_LINES = 400;

/** What is marked on the board by a list's line that is pointed at, has the focus, or is pressed. */
class Choices {
  constructor(onChange) { Object.assign(this, {onChange, pointed: null, pinned: null}); }

  get marks() { return this.pointed ?? this.pinned; }

  clear() { Object.assign(this, {pointed: null, pinned: null}); }

  /** Marks what is pointed at, or nothing. */
  pointTo(marks) {
    if (!marks && !this.pointed) return;
    this.pointed = marks;
    this.onChange();
  }

  /** A line that marks something while it is pointed at or has the focus, and longer when it is pressed. */
  line(marksOf, ...words) {
    const button = htmlElement('button', {type: 'button', 'aria-pressed': 'false'}, ...words);
    for (const kind of ['pointerenter', 'focus']) button.addEventListener(kind, () => this.pointTo(marksOf()));
    for (const kind of ['pointerleave', 'blur']) button.addEventListener(kind, () => this.pointTo(null));
    button.addEventListener('click', () => {
      const was = button.getAttribute('aria-pressed') === 'true';
      const pressed = document.querySelectorAll('.choices [aria-pressed=true]');
      pressed.forEach(one => one.setAttribute('aria-pressed', 'false'));
      button.setAttribute('aria-pressed', String(!was));
      this.pinned = was ? null : marksOf();
      this.onChange();
    });
    return htmlElement('li', {}, button);
  }

  drawThreats(thought) {
    byId('threats').replaceChildren(...(thought?.threats ?? []).map((carrier, at) =>
      this.line(() => ({carrier: new Set(carrier)}), `Threat ${at + 1}: ${counted(carrier.length, 'cell')}`)));
  }

  /** Draws the certificate of what hexd or the solver said; null where there is none. */
  drawProof(said) {
    const proof = said?.proof;
    byId('proof').hidden = !proof;
    byId('lines').replaceChildren();
    if (!proof) return;
    const skipped = Math.max(0, proof.lines.length - MOST_LINES), lines = proof.lines.slice(skipped);
    byId('claim').textContent = claimWords(proof);
    byId('checked').textContent = checkWords(said.checked);
    byId('lines-left').hidden = !skipped;
    const all = grouped(proof.lines.length);
    byId('lines-left').textContent = `The last ${lines.length} of ${all} lines; the saved certificate has all.`;
    byId('lines').start = skipped;
    byId('lines').style.counterSet = `line ${skipped - 1}`;
    byId('lines').replaceChildren(...lines.map(line =>
      this.line(() => lineMarks(line, proof.player), htmlElement('code', {}, shortened(line.text)), ` ${line.words}`)));
  }
}

const shortened = text => (text.length > 60 ? `${text.slice(0, 58)} ..` : text);
