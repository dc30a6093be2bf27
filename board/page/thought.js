'use strict';
// What hexd said of one position: its plan (mustplay), its search (search-report) and its certificate (wincert), read from
// the answers and told in words.

/**
 * Reads the answers. `mover` is 'b' or 'w', `cell` the move that hexd chose; answers that failed are null. What hexd proves
 * is of stones; `swap` says that White may still swap, by this move or by the next.
 */
function readThought({mover, cell, swap, mustplay, report, look, certificate, checked}) {
  const thought = {mover, cell, swap, certificate, checked, win: false, lost: false, allowed: null, threats: [], rows: []};
  thought.isLook = Boolean(look);
  for (const line of mustplay.split('\n')) {
    const [word, ...rest] = line.split(' ');
    if (word === 'win') thought.win = true;
    if (word === 'lost') thought.lost = rest[0] === 'yes';
    if (word === 'allowed') thought.allowed = new Set(rest);
    if (word === 'threat') thought.threats.push(rest);
  }
  if (look) {
    thought.rows = lookRows(look);
    thought.lines = lookLines(look);
    thought.playouts = Math.max(1, thought.rows.reduce((sum, [, nodes]) => sum + nodes, 0));
  } else if (report) {
    const [first, ...rows] = report.split('\n');
    thought.playouts = Number(first.split(' ')[1]);
    thought.rows = rows.map(row => row.split(' ')).map(([vertex, visits, won]) => [vertex, Number(visits), Number(won)]);
  }
  thought.proof = certificate ? readCertificate(certificate) : null;
  return thought;
}

/** The rows of a look-ahead (look-report), in the form of a search's: nodes stand for visits, and its value, from 0 to 1,000,
    for the share of them that was won. What is known to be won or lost is worth all or nothing. */
function lookRows(look) {
  const known = {won: 1, lost: 0};
  return look.split('\n').filter(row => /^[a-k]\d+ \d/.test(row)).map(row => row.split(' '))
    .map(([vertex, nodes, value, state]) => [vertex, Number(nodes), Number(nodes) * (known[state] ?? Number(value) / 1000)]);
}

/** The line of each cell that has one in a look-ahead, with it: the moves that follow by most walks. */
const lookLines = look => new Map([...look.matchAll(/^([a-k]\d+) .* line (.*)$/gm)]
  .map(([, vertex, line]) => [vertex, [vertex, ...line.split(' ')]]));

/** The visits of each cell among which was searched, or the nodes of a look-ahead; none if it is known that all lose. */
function visitsOf({rows, playouts, isLook, lost}) {
  return new Map((lost ? [] : rows).map(([vertex, visits, won]) => [vertex, {visits, won, share: visits / playouts, isLook}]));
}

/** The cells outside the allowed ones; none where there is no threat, or where the board is lost. */
function dimmedOf(thought, size) {
  const dimmed = new Set();
  if (!thought.threats.length || !thought.allowed || thought.lost) return dimmed;
  for (let row = 0; row < size; row++) {
    for (let column = 0; column < size; column++) {
      const vertex = vertexAt(column, row);
      if (!thought.allowed.has(vertex)) dimmed.add(vertex);
    }
  }
  return dimmed;
}

/** The share of wins for Black by what hexd said: {value, proved, swap}, a proved win being at the rim; or null. */
function blackShare(thought) {
  if (thought.win || thought.lost) {
    const value = (thought.mover === 'b') === thought.win ? 1 : 0;
    return {value, proved: true, swap: thought.swap && !isWhitesWin(thought)};
  }
  const row = thought.rows.find(([vertex]) => vertex === thought.cell);
  if (!row || !row[1]) return null;
  const share = row[2] / row[1];
  return {value: thought.mover === 'b' ? share : 1 - share, proved: false};
}

const isWhitesWin = thought => thought.win && thought.mover === 'w';

/** What hexd said, as sentences. */
function thoughtWords(thought) {
  const butSwap = thought.swap ? ' but a swap' : '';
  const mine = COLOURS[thought.mover], his = COLOURS[other(thought.mover)], said = [];
  if (thought.win) {
    return [`${mine} wins by ${thought.cell}: a certified win, against every reply${isWhitesWin(thought) ? '' : butSwap}.`];
  }
  if (thought.lost) {
    const threats = counted(thought.threats.length, 'threat');
    // One threat leaves its own cells: a board that is lost by one is lost by the solver's certificate.
    const bySolver = `the solver has a certificate for ${his}`, byThreats = `no cell lies in each of ${his}'s ${threats}`;
    // What a search gives its move means nothing then.
    return [`${mine} loses with every move${butSwap}: ${thought.threats.length > 1 ? byThreats : bySolver}.`];
  }
  if (thought.threats.length) {
    said.push(`${his} has ${counted(thought.threats.length, 'threat')}: a stone outside the ${
      counted(thought.allowed.size, 'allowed cell')} loses.`);
  } else {
    said.push(`hexd sees no threat of ${his}'s, and searched all ${counted(thought.rows.length, 'cell')}.`);
  }
  const row = thought.rows.find(([vertex]) => vertex === thought.cell);
  if (row && thought.isLook) {
    said.push(`${thought.cell} has ${grouped(row[1])} of ${counted(thought.playouts, 'node')} of the look-ahead${
      row[1] ? `, which gives ${mine} ${percent(row[2] / row[1])}` : ''}.`);
  } else if (row) {
    said.push(`${thought.cell} has ${grouped(row[1])} of ${counted(thought.playouts, 'visit')}${
      row[1] ? `; ${mine} won ${percent(row[2] / row[1])} of them` : ''}.`);
  }
  return said;
}

/** The moves with most visits, at most five of them: [vertex, visits, won]. None if it is known that all lose. */
const bestMoves = thought => (thought.lost ? [] : thought.rows).filter(([, visits]) => visits).sort((one, two) => two[1] - one[1]).slice(0, 5);

/** A table of the best moves, with visits and the share of wins for who is to move, and what follows them by `lines`, if that
    is known; null where none was searched. */
function bestTable(thought, lines) {
  const best = bestMoves(thought);
  if (!best.length) return null;
  const row = (tag, texts, given = {}) => htmlElement('tr', given, ...texts.map(text => htmlElement(tag, {}, text)));
  const rows = best.map(([vertex, visits, won]) => {
    const then = lines ? [(lines.get(vertex) ?? []).slice(1).join(' ')] : [];
    return row('td', [vertex, grouped(visits), percent(won / visits), ...then], {'data-cell': vertex, tabindex: 0});
  });
  const head = row('th', ['Move', thought.isLook ? 'Nodes' : 'Visits',
    `${thought.isLook ? 'Worth to ' : ''}${COLOURS[thought.mover]}${thought.isLook ? '' : ' wins'}`, ...lines ? ['Then'] : []]);
  return htmlElement('table', {class: 'best'}, htmlElement('thead', {}, head), htmlElement('tbody', {}, ...rows));
}

/** Reads what the solver said of a position, in whose first line `won COLOUR` has a certificate behind it. */
function readSolved(first, certificate, checked, mover, swap) {
  const [word, ...rest] = first.split(' ');
  const proof = word === 'won' && certificate ? readCertificate(certificate) : null;
  const winner = {won: rest[0], over: rest[0], too: rest[1]}[word]?.[0] ?? null;
  return {first, certificate, checked, proof, mover, swap, winner, cell: proof?.claimed.cell ?? null, win: winner === mover};
}

/** What the solver said, as sentences. `even` is an opening near even, if one is known. */
function solvedWords({first, winner, cell, proof, mover, swap}, even) {
  const [word, , ...rest] = first.split(' '), name = COLOURS[winner];
  // What is solved is of stones: a win of Black's holds unless White swaps.
  const won = `Solved: ${swap && winner === 'b' ? 'without a swap ' : ''}${name} wins`;
  const more = swap ? ` ${swapMeans({mover, winner}, even)}` : '';
  if (word === 'won') {
    const lines = counted(proof.lines.length, 'line');
    return `${won}${cell ? ` by ${cell}, against every reply` : `, whatever ${COLOURS[mover]} plays`} (${lines}).${more}`;
  }
  if (word === 'too') return `${won}; the certificate would have ${grouped(rest[1])} lines, too many.${more}`;
  return winner ? `${name} has won.` : `The solver's answer: ${first}.`;
}

/** What a swap that is open makes of a position of which it is known who wins by the stones. */
function swapMeans({mover, winner}, even) {
  if (mover === 'w') return winner === 'b' ? 'So White swaps, and wins.' : 'So White does not swap.';
  return `White takes over a first stone that wins: best is one of which it is least sure${even ? `, as ${even}` : ''}.`;
}
