'use strict';
// Where cells lie: names of cells, their centres in each orientation, and the bands of the edges. `wide` lays the rows level
// with row 1 on top, `flipped` with row 1 below, and `upright` stands the board on the corner opposite a1.

const LETTERS = 'abcdefghijk';
const RADIUS = 20;
const STEP = RADIUS * Math.sqrt(3);
// How far the coloured band reaches beyond the centres of the outer cells, and where it is cut at the two sharp corners;
// and where the letters and numbers stand. All in cells.
const BAND = 0.98;
const CUT = 0.3;
const LABELS = 1.42;

const vertexAt = (column, row) => LETTERS[column] + (row + 1);
const columnOf = vertex => LETTERS.indexOf(vertex[0]);
const rowOf = vertex => Number(vertex.slice(1)) - 1;
const verticesOf = size => [...Array(size * size).keys()].map(at => vertexAt(at % size, Math.floor(at / size)));

/** The cell opposite to this one: the board turned by half a circle is the same board. */
const oppositeOf = (vertex, size) => vertexAt(size - 1 - columnOf(vertex), size - 1 - rowOf(vertex));

/** The file of openings/ with the certificate of an opening: of it and the opposite one that which comes first. */
function fileOfOpening(size, vertex) {
  const opposite = oppositeOf(vertex, size), place = cell => rowOf(cell) * size + columnOf(cell);
  return `${size}-${place(vertex) <= place(opposite) ? vertex : opposite}.cert.xz`;
}

/** The edges as they are named to a reader: Black joins the first and the last row, White the first and the last column. */
const edgeNames = size => ({b: ['row 1', `row ${size}`], w: ['column a', `column ${LETTERS[size - 1]}`]});

/** Where the centre of a cell lies. Columns and rows are counted from 0 and may be parts of cells. */
function centreOf(column, row, layout) {
  if (layout === 'upright') return [STEP * (column - row) / 2, 1.5 * RADIUS * (column + row)];
  return [STEP * (column + row / 2), (layout === 'flipped' ? -1.5 : 1.5) * RADIUS * row];
}

const centreOfVertex = (vertex, layout) => centreOf(columnOf(vertex), rowOf(vertex), layout);

const pointList = points => points.map(([x, y]) => `${x.toFixed(2)},${y.toFixed(2)}`).join(' ');

function hexagon(x, y, radius) {
  return pointList([...Array(6).keys()].map(corner => {
    const angle = Math.PI / 6 + corner * Math.PI / 3;
    return [x + radius * Math.cos(angle), y + radius * Math.sin(angle)];
  }));
}

/**
 * The four bands, each from the board's middle to its edge: its colour and corners in cells. A corner of two colours belongs
 * to both: the bands are cut along the line from the middle through the corner's cell.
 */
function bands(size) {
  const last = size - 1, far = last + BAND, middle = [last / 2, last / 2], half = (BAND + CUT) / 2;
  const first = [-half, -half], second = [last + half, last + half];
  return [
    ['b', [first, [-CUT, -BAND], [far, -BAND], middle]],
    ['b', [second, [last + CUT, far], [-BAND, far], middle]],
    ['w', [first, [-BAND, -CUT], [-BAND, far], middle]],
    ['w', [second, [far, last + CUT], [far, -BAND], middle]],
  ];
}

/** The corners of the part of the plane that is seen, in cells: the bands and the labels. */
function outline(size) {
  const last = size - 1, end = last + BAND;
  return [[-LABELS, 0], [0, -LABELS], [last, -LABELS], [-LABELS, last], [end, -BAND], [-BAND, end],
    [end, last + CUT], [last + CUT, end], [-BAND, -CUT], [-CUT, -BAND]];
}

/** The cells of a shortest way over stones from the player's first edge to his second; none where there is no way. */
function chainOf(stones, player, size) {
  const index = {b: rowOf, w: columnOf}[player], own = vertex => stones.get(vertex) === player;
  const first = verticesOf(size).filter(vertex => own(vertex) && index(vertex) === 0);
  const before = new Map(first.map(vertex => [vertex, null]));
  for (const vertex of before.keys()) {
    if (index(vertex) === size - 1) {
      const chain = [];
      for (let at = vertex; at; at = before.get(at)) chain.push(at);
      return chain;
    }
    for (const near of neighboursOf(vertex, size)) if (own(near) && !before.has(near)) before.set(near, vertex);
  }
  return [];
}
