'use strict';
// The course of the game: the plot, the moves as a tree, and what a record says.

/** The points of the plot: what is proved of a position stands before what a search says of it. */
const pointsOf = (line, proofs) =>
  line.map((position, at) => [at, shareIn(position, proofs[at])]).filter(([, share]) => share);

/** Draws the plot, as large as its place is. */
function drawShares(game, proofs, onGoTo) {
  const {line} = game.tree, at = game.at.number, points = pointsOf(line, proofs);
  const plot = byId('plot'), height = plotHeight(plot);
  drawPlot(plot, {count: line.length - 1, points, at, onPick: number => onGoTo(line[number]), height});
}

/** Draws the course. `unfolded` has the side lines that one has unfolded, and `judgements` how moves are judged. */
function drawCourse(game, proofs, {unfolded, judgements, onGoTo, onFold}) {
  drawShares(game, proofs, onGoTo);
  const drawing = new TreeDrawing(game.tree, {unfolded, judgements, onGoTo, onFold}), [first] = game.tree.root.children;
  const list = byId('moves'), {activeElement: held} = document, isHeld = list.contains(held);
  list.replaceChildren(...first ? drawing.items(first) : []);
  showCurrent(list);
  // The buttons are other ones: who goes over them by keys stays where he was.
  const same = ({position, className}) => position === held.position && (className === 'fold') === (held.className === 'fold');
  if (isHeld) [...list.querySelectorAll('button')].find(same)?.focus({preventScroll: true});
  byId('record').replaceChildren(...recordElements(game));
}

/** Scrolls a list so that the move that is shown is in its midst. */
function showCurrent(list) {
  const current = list.querySelector('[aria-current]');
  if (!current) return;
  const [one, all] = [current, list].map(element => element.getBoundingClientRect());
  list.scrollTop += one.top - all.top - (all.height - one.height) / 2;
}

/** The tree of moves as lists: a line's moves in a row, and below a move, indented, the side lines that were played in its
    place. Those off the line that one is on show their first move alone, until they are unfolded. */
class TreeDrawing {
  constructor(tree, uses) { Object.assign(this, uses, {tree, line: new Set(tree.line)}); }

  /** The items of a position and all after it, with its own side lines if it is the first child. */
  items(first) {
    const made = [];
    for (let position = first; position; [position] = position.children) {
      const [main, ...others] = position.parent.children, item = htmlElement('li', {}, this.button(position));
      if (position === main) item.append(...others.map(side => this.sideLine(side)));
      made.push(item);
      if (position !== main && position === first && this.isFolded(position)) break;
    }
    return made;
  }

  isFolded(position) { return !this.line.has(position) && !this.unfolded.has(position); }

  sideLine(first) {
    const list = htmlElement('ol', {class: 'variation'}, ...this.items(first)), after = branchOf(first).length - 1;
    if (after && !this.line.has(first)) list.firstChild.after(this.fold(first, after));
    return list;
  }

  /** The button that shows the rest of a side line, or hides it. */
  fold(first, after) {
    const isFolded = this.isFolded(first), words = `${isFolded ? 'Show' : 'Hide'} ${counted(after, 'move')} more`;
    const given = {type: 'button', class: 'fold', 'aria-expanded': !isFolded, 'aria-label': words, title: words};
    const button = htmlElement('button', given, isFolded ? `+${after}` : '\u2212');
    Object.assign(button, {position: first, onclick: () => this.onFold(first)});
    return htmlElement('li', {}, button);
  }

  /** A move: of the line that one is on, up to here or ahead of it; or a move off it, of which a `side` one has its place. */
  button(position) {
    const {at} = this.tree, isOn = this.line.has(position), isSide = !isOn && this.line.has(position.parent);
    const name = isOn ? (position.number <= at.number ? 'move' : 'move ahead') : isSide ? 'side' : 'off';
    const words = stepWords(position.step), label = isOn ? `Move ${position.number}: ${words}` : `Side line: ${words}`;
    const given = {type: 'button', class: name, 'aria-label': label, 'data-number': position.number};
    const button = htmlElement('button', given, ...moveLabel(position.step)), judgement = this.judgements.get(position);
    if (judgement) this.mark(button, judgement);
    if (position === at) button.setAttribute('aria-current', 'true');
    if (position.comment) {
      button.classList.add('commented');
      button.title = position.comment;
    }
    Object.assign(button, {position, onclick: () => this.onGoTo(position)});
    return button;
  }

  /** How a move is judged, as a sign behind it and in words. */
  mark(button, {kind, words}) {
    button.classList.add(`is-${kind}`);
    button.append(htmlElement('span', {class: 'sign'}, SIGNS[kind]));
    button.setAttribute('aria-label', `${button.getAttribute('aria-label')}, ${words}`);
    button.title = words;
  }
}
