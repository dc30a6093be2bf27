'use strict';
// The plot of a game: for each position of which hexd said something, its share of wins for Black. Proved ones are diamonds
// at the rim.

const PLOT = {width: 320, height: 110, left: 8, right: 8, top: 9, bottom: 9};

/** How high a plot is drawn, so that it fills an element of this shape: as high as it is by itself at most. */
const plotHeight = ({clientWidth, clientHeight}) =>
  (clientWidth ? Math.min(PLOT.height, Math.round(PLOT.width * clientHeight / clientWidth)) : PLOT.height);

/**
 * Draws the plot of `count` moves into an SVG, so high. `points` are [position, share] in rising order, as `blackShare` makes them;
 * `at` is the position that is shown, and `onPick` is called with the position that is clicked.
 */
function drawPlot(svg, {count, points, at = null, onPick = null, height = PLOT.height}) {
  const last = Math.max(count, 1);
  const across = position => PLOT.left + (PLOT.width - PLOT.left - PLOT.right) * position / last;
  const up = value => PLOT.top + (height - PLOT.top - PLOT.bottom) * (1 - value);
  svg.setAttribute('viewBox', `0 0 ${PLOT.width} ${height}`);
  svg.replaceChildren(
    svgElement('rect', {class: 'rim b', x: 0, y: 0, width: PLOT.width, height: 4}),
    svgElement('rect', {class: 'rim w', x: 0.5, y: height - 4.5, width: PLOT.width - 1, height: 4}),
    svgElement('line', {class: 'half', x1: 0, x2: PLOT.width, y1: up(0.5), y2: up(0.5)}),
  );
  const here = {x1: across(at), x2: across(at)};
  if (at !== null) svg.append(svgElement('line', {class: 'now', ...here, y1: 4, y2: height - 4}));
  const line = points.map(([position, {value}]) => [across(position), up(value)]);
  if (line.length > 1) svg.append(svgElement('polyline', {class: 'share', points: pointList(line)}));
  points.forEach(([position, share]) => svg.append(plotMark(across(position), up(share.value), position, share)));
  svg.onclick = onPick && (event => {
    const box = svg.getBoundingClientRect();
    const x = (event.clientX - box.left) / box.width * PLOT.width;
    onPick(Math.min(count, Math.max(0, Math.round((x - PLOT.left) / (PLOT.width - PLOT.left - PLOT.right) * last))));
  });
}

function plotMark(x, y, position, {value, proved, swap}) {
  const size = proved ? 3.6 : 2.4;
  const place = {x: (x - size).toFixed(2), y: (y - size).toFixed(2), width: 2 * size, height: 2 * size};
  const mark = svgElement('rect', {class: proved ? 'mark proved' : 'mark', ...place, rx: proved ? 0 : size});
  if (proved) mark.setAttribute('transform', `rotate(45 ${x.toFixed(2)} ${y.toFixed(2)})`);
  const unless = swap ? ' unless White swaps' : '';
  const words = proved ? `${value ? 'Black' : 'White'} wins${unless}, proved` : `${percent(value)} for Black`;
  mark.append(svgElement('title', {}, `after ${counted(position, 'move')}: ${words}`));
  return mark;
}
