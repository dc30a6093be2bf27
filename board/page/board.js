'use strict';
// The drawing of a board as an SVG: cells, edges, stones, and what is marked on them. It knows where cells lie, and no rule
// of the game.

// From this share of the visits on a cell is shaded and shows their number.
const LEAST_SHARE = 0.01;
// From so many visits on the share of wins stands below their number.
const LEAST_VISITS = 10;
// The lines that hatch a cell.
const HATCH = 7;
let boards = 0;

// The shares of the lightest shade and of the darkest.
const LIGHTEST = 0.02, DARKEST = 0.64;

/** How dark a shade is: twice the share is a step that one sees, of small shares too. */
function shadeOf(polygon, share) {
  const part = Math.log2(share / LIGHTEST) / Math.log2(DARKEST / LIGHTEST);
  polygon.setAttribute('fill-opacity', Math.min(1, Math.max(0, part)).toFixed(3));
  return polygon;
}

function diamond(x, y) {
  const [left, top] = [(x - 6).toFixed(2), (y - 6).toFixed(2)];
  return svgElement('rect', {class: 'middle', x: left, y: top, width: 12, height: 12,
    transform: `rotate(45 ${x.toFixed(2)} ${y.toFixed(2)})`});
}

/** A guess of a first stone: a square, in the colour of the player for whom it is better, with Black's share in per cent. */
function guessed(share, x, y) {
  const colour = share > 0.5 ? 'b' : 'w', half = RADIUS * 0.5, [left, top] = [(x - half).toFixed(2), (y - half).toFixed(2)];
  return [svgElement('rect', {class: `guess ${colour}`, x: left, y: top, width: 2 * half, height: 2 * half}),
    wordsAt(`number ${colour}`, Math.round(100 * share), x, y, 10)];
}

/** Numbers of more digits are smaller, so that they stay in their cell. */
const countSize = visits => (visits > 99_999 ? 7 : visits > 9999 ? 8 : visits > 999 ? 9.5 : 11);

const wordsAt = (name, text, x, y, size) =>
  svgElement('text', {class: name, x: x.toFixed(2), y: (y + size * 0.36).toFixed(2), 'font-size': size}, text);

/** A board in an SVG element. With `onPick` it is a grid that is played on by pointer and by keyboard. */
class BoardView {
  constructor(svg, {onPick = null, onPoint = () => {}} = {}) {
    Object.assign(this, {svg, onPick, onPoint, cells: new Map(), size: 0, layout: '', at: 'a1', view: {}, pointed: null});
    this.hatch = `hatch-${boards++}`;
    if (!onPick) return;
    svg.addEventListener('click', event => this.take(event));
    // A click leaves the keys to the page: they move over the board where the Tab key has led into it.
    svg.addEventListener('mousedown', event => { event.preventDefault(); document.activeElement?.blur(); });
    svg.addEventListener('pointerover', event => this.point(this.vertexOf(event)));
    svg.addEventListener('pointerleave', () => this.point(null));
    svg.addEventListener('focusin', event => this.focused(this.vertexOf(event)));
    svg.addEventListener('focusout', () => this.ring.setAttribute('points', ''));
    svg.addEventListener('keydown', event => this.press(event));
  }

  vertexOf(event) { return event.target.closest('[data-vertex]')?.dataset.vertex ?? null; }

  take(event) {
    const vertex = this.vertexOf(event);
    // The second click of a double one is none.
    if (vertex && event.detail < 2) this.onPick(vertex);
  }

  /** Draws the empty board of a size, unless it stands there. */
  shape(size, layout) {
    if (size === this.size && layout === this.layout) return;
    const held = this.svg.contains(document.activeElement);
    Object.assign(this, {size, layout, cells: new Map(), bands: []});
    if (columnOf(this.at) >= size || rowOf(this.at) >= size) this.at = vertexAt(size >> 1, size >> 1);
    const place = ([column, row]) => centreOf(column, row, layout);
    this.svg.replaceChildren(this.pattern());
    for (const [colour, corners] of bands(size)) {
      this.bands.push(svgElement('polygon', {class: `band ${colour}`, points: pointList(corners.map(place))}));
    }
    const rows = [...Array(size).keys()].map(row => this.row(row));
    this.ring = svgElement('polygon', {class: 'ring'});
    this.ghost = svgElement('circle', {class: 'ghost', r: RADIUS * 0.72});
    this.chain = svgElement('polyline', {class: 'chain'});
    this.svg.append(...this.bands, this.labels(), ...rows, this.chain, this.ghost, this.ring);
    this.frame(place);
    if (held) this.cells.get(this.at).focus();
  }

  pattern() {
    const size = {width: HATCH, height: HATCH}, attributes = {id: this.hatch, ...size, patternUnits: 'userSpaceOnUse'};
    return svgElement('defs', {}, svgElement('pattern', {...attributes, patternTransform: 'rotate(45)'},
      svgElement('rect', {class: 'hatched', ...size}),
      svgElement('line', {class: 'hatching', x1: 0, x2: 0, y1: 0, y2: HATCH})));
  }

  row(row) {
    const group = svgElement('g', this.onPick ? {role: 'row'} : {});
    for (let column = 0; column < this.size; column++) {
      const vertex = vertexAt(column, row), [x, y] = centreOf(column, row, this.layout);
      const shape = svgElement('polygon', {class: 'cell', points: hexagon(x, y, RADIUS)});
      const cell = svgElement('g', {'data-vertex': vertex}, shape);
      if (this.onPick) {
        cell.setAttribute('role', 'gridcell');
        cell.setAttribute('tabindex', vertex === this.at ? 0 : -1);
      }
      this.cells.set(vertex, cell);
      group.append(cell);
    }
    return group;
  }

  labels() {
    const group = svgElement('g', {class: 'labels', 'aria-hidden': 'true'});
    const add = (text, column, row) => {
      const [x, y] = centreOf(column, row, this.layout);
      group.append(svgElement('text', {x: x.toFixed(2), y: y.toFixed(2), dy: '0.35em'}, text));
    };
    for (let at = 0; at < this.size; at++) {
      add(LETTERS[at], at, -LABELS);
      add(String(at + 1), -LABELS, at);
    }
    return group;
  }

  /** The part of the plane that is seen, with a little room around it. */
  frame(place) {
    const points = outline(this.size).map(place), [xs, ys] = [0, 1].map(axis => points.map(point => point[axis]));
    const [left, top] = [Math.min(...xs) - 9, Math.min(...ys) - 9];
    this.box = [left, top, Math.max(...xs) + 9 - left, Math.max(...ys) + 9 - top];
    this.svg.setAttribute('viewBox', this.box.map(number => number.toFixed(1)).join(' '));
    this.scale();
  }

  /** Tells the style sheet how large a pixel is in the board's own units: labels and lines don't grow with small boards. */
  scale() {
    const {clientWidth, clientHeight} = this.svg, [, , width, height] = this.box ?? [0, 0, 1, 1];
    const scale = Math.min(clientWidth / width, clientHeight / height);
    if (scale > 0) this.svg.style.setProperty('--pixel', `${(1 / scale).toFixed(4)}px`);
  }

  /**
   * Draws what stands on the board. All parts of a view may be left out:
   * stones (Map to 'b' or 'w'), last, chosen and next (vertices), numbers (Map), visits (Map to {visits, won, share}),
   * dimmed, carrier, ends and answers (Sets of vertices), middle (a vertex), edges (Set of 0 to 3), chain (vertices in a
   * row), openings (Map to 'b' or 'w'), guesses (Map to Black's share), replies (Map to lists of vertices), ghost ('b' or 'w':
   * the colour that a click plays), line (Map to {number, colour}: the stones of moves that may follow); with openings the
   * board's size.
   */
  show(view) {
    this.view = view;
    for (const [vertex, cell] of this.cells) {
      const marks = this.marks(vertex, view);
      while (cell.childNodes.length > 1) cell.lastChild.remove();
      cell.firstChild.setAttribute('class', view.dimmed?.has(vertex) ? 'cell dim' : 'cell');
      cell.append(...marks);
      if (this.onPick) cell.setAttribute('aria-label', cellWords(vertex, view));
    }
    this.bands.forEach((band, at) => band.classList.toggle('joined', Boolean(view.edges?.has(at))));
    this.chain.setAttribute('points', pointList((view.chain ?? []).map(vertex => centreOfVertex(vertex, this.layout))));
    this.drawGhost();
  }

  /** What lies on a cell, lowest first. */
  marks(vertex, view) {
    const [x, y] = centreOfVertex(vertex, this.layout);
    const stone = view.stones?.get(vertex), seen = view.visits?.get(vertex), number = view.numbers?.get(vertex);
    const inner = (name, radius) => svgElement('polygon', {class: name, points: hexagon(x, y, radius)});
    const round = (name, radius) => svgElement('circle', {class: name, cx: x.toFixed(2), cy: y.toFixed(2), r: radius});
    const made = [];
    if (view.dimmed?.has(vertex)) made.push(this.hatching(x, y));
    if (seen?.share >= LEAST_SHARE) {
      made.push(inner('lightest', RADIUS - 0.5), shadeOf(inner('shade', RADIUS - 0.5), seen.share));
    }
    if (view.carrier?.has(vertex)) made.push(inner('carrier', RADIUS - 3));
    if (view.openings?.has(vertex)) made.push(round(`opening ${view.openings.get(vertex)}`, RADIUS * 0.4));
    if (view.guesses?.has(vertex)) made.push(...guessed(view.guesses.get(vertex), x, y));
    if (stone) made.push(round(`stone ${stone}`, RADIUS * 0.72));
    const next = view.line?.get(vertex);
    if (next) made.push(round(`stone next-${next.number} ${next.colour}`, RADIUS * 0.72));
    if (next) made.push(wordsAt(`number ${next.colour}`, next.number, x, y, 12));
    if (view.ends?.has(vertex)) made.push(round('end', RADIUS * 0.5));
    if (number !== undefined) made.push(wordsAt(`number ${stone}`, number, x, y, number > 99 ? 10 : 12));
    else if (seen?.share >= LEAST_SHARE) made.push(...this.counts(seen, stone, x, y));
    else if (view.replies?.has(vertex)) made.push(wordsAt('reply', view.replies.get(vertex)[0], x, y, 9));
    if (view.middle === vertex) {
      made.push(diamond(x, y));
    } else if (view.last === vertex && stone) {
      made.push(number !== undefined || seen ? round('last ring', RADIUS * 0.78) : round('last', RADIUS * 0.22));
    }
    if ((view.chosen === vertex || view.answers?.has(vertex)) && !stone) made.push(inner('chosen', RADIUS - 2));
    if (view.next === vertex) made.push(round('next', RADIUS * 0.72));
    return made;
  }

  hatching(x, y) {
    return svgElement('polygon', {class: 'hatch', fill: `url(#${this.hatch})`, points: hexagon(x, y, RADIUS - 0.5)});
  }

  /** The number of visits, and below it the share of wins where there are enough of them. */
  counts({visits, won}, stone, x, y) {
    const name = `count ${stone ?? ''}`, size = countSize(visits);
    if (visits < LEAST_VISITS) return [wordsAt(name, visits, x, y, size)];
    return [wordsAt(name, visits, x, y - 4.5, size), wordsAt(`wins ${stone ?? ''}`, percent(won / visits), x, y + 7, 7.5)];
  }

  point(vertex) {
    this.pointed = vertex;
    this.drawGhost();
    this.onPoint(vertex);
  }

  /** The stone that a click would play on the cell that is pointed at. */
  drawGhost() {
    const {pointed, ghost, view, layout} = this;
    if (!ghost) return;
    const shown = view.ghost && this.cells.has(pointed) && !view.stones?.has(pointed);
    const [x, y] = shown ? centreOfVertex(pointed, layout) : [0, 0];
    ghost.setAttribute('class', shown ? `ghost ${view.ghost}` : 'ghost none');
    ghost.setAttribute('cx', x.toFixed(2));
    ghost.setAttribute('cy', y.toFixed(2));
  }

  /** A cell that has the focus has the place in the order of the Tab key too, and a ring where keys brought the focus. */
  focused(vertex) {
    if (!vertex) return;
    const cell = this.cells.get(vertex), [x, y] = centreOfVertex(vertex, this.layout);
    this.cells.get(this.at).setAttribute('tabindex', -1);
    cell.setAttribute('tabindex', 0);
    this.at = vertex;
    this.ring.setAttribute('points', cell.matches(':focus-visible') ? hexagon(x, y, RADIUS) : '');
    this.onPoint(vertex);
  }

  press(event) {
    const steps = {ArrowLeft: [-1, 0], ArrowRight: [1, 0], ArrowUp: [0, -1], ArrowDown: [0, 1]};
    if (event.ctrlKey || event.altKey || event.metaKey) return;
    if (event.key in steps) {
      const inside = number => Math.min(this.size - 1, Math.max(0, number));
      const [columns, rows] = steps[event.key], down = this.layout === 'flipped' ? -rows : rows;
      this.cells.get(vertexAt(inside(columnOf(this.at) + columns), inside(rowOf(this.at) + down))).focus();
    } else if (event.key === 'Enter' || event.key === ' ') {
      this.onPick(this.at);
    } else {
      return;
    }
    event.preventDefault();
  }
}

/** What is said of a cell that a search looked at: its visits or nodes, and what came of them. */
const visitWords = ({visits, won, share, isLook}) => [
  `${counted(visits, isLook ? 'node' : 'visit')} (${percent(share)})`,
  isLook ? `worth ${percent(won / visits)}` : `${percent(won / visits)} of them won`,
];

/** What is said of a cell where it is read out or pointed at. */
function cellWords(vertex, view) {
  const stone = view.stones?.get(vertex), seen = view.visits?.get(vertex), winner = view.openings?.get(vertex);
  const parts = [vertex, stone ? COLOURS[stone] : 'empty'];
  if (view.last === vertex) parts.push('last move');
  if (seen?.visits) parts.push(...visitWords(seen));
  if (view.dimmed?.has(vertex)) parts.push('outside a threat');
  if (view.carrier?.has(vertex)) parts.push('in the carrier');
  if (view.line?.has(vertex)) parts.push(`move ${view.line.get(vertex).number} of the line`);
  if (view.answers?.has(vertex)) parts.push('the answer by the certificate');
  if (view.replies?.has(vertex)) parts.push(`answered by ${view.replies.get(vertex).join(' or ')}`);
  if (winner) {
    const answer = winner === 'b' ? 'White swaps' : 'White does not swap';
    const file = view.size ? `; openings/${fileOfOpening(view.size, vertex)}` : '';
    parts.push(`proved: ${COLOURS[winner]} wins after Black's first stone here, so ${answer}${file}`);
  }
  if (view.guesses?.has(vertex)) parts.push(`guessed: Black wins ${percent(view.guesses.get(vertex))} after his first stone here`);
  return parts.join(', ');
}
