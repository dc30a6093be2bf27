'use strict';
// Openings whose winner is proved. The certificates of small boards stand in the page, and a run of hexd checks each that is
// used; board/openings.py does the same for the server. Of greater boards the page names winners and files, and takes a
// certificate that its user opens.

// What `hexd check` says of a certificate by which a player wins after Black's first stone.
const CLAIMS = {white: 'yes semi', black: 'yes full'};

// By size and cell, of openings whose certificates are too large for the page: who wins, and the SHA-256 of the file.
const LISTED = JSON.parse(document.getElementById('listed').textContent);

// Certificates of such openings that were opened here, and that a run of hexd has accepted.
const opened = new Map();

const certificatesOfPage = once(async () =>
  JSON.parse(new TextDecoder().decode(await unpacked(document.getElementById('openings')))));

/** The cell opposite to this one. */
function turnedCell(vertex, size) {
  const column = LETTERS[size - 1 - LETTERS.indexOf(vertex[0])];
  return `${column}${size + 1 - Number(vertex.slice(1))}`;
}

/** The certificate of the board that is turned by half a circle. Lists of cells rise, and so they are turned around too. */
function turned(certificate, size) {
  const edges = {edge1: 'edge2', edge2: 'edge1'};
  return certificate.split('\n').map(line => {
    const [name, ...words] = line.split(' ').map(word =>
      /^[a-k][0-9]+$/.test(word) ? turnedCell(word, size) : edges[word] ?? word);
    return [name, ...(['black', 'white', 'put'].includes(name) ? words.reverse() : words)].join(' ');
  }).join('\n');
}

/** Who wins by a certificate, if it is one of this opening and a run of hexd accepts it; else null. */
async function provedBy(certificate, size, vertex) {
  const [, sized, player, black, white] = (certificate ?? '').split('\n');
  if (sized !== `size ${size}` || black !== `black ${vertex}` || white !== 'white') return null;
  const name = player.replace('player ', '');
  return await checked(certificate) === CLAIMS[name] ? name : null;
}

/** The names of an opening and of the opposite one. */
const namesOf = (size, vertex) => [vertex, turnedCell(vertex, size)].map(cell => `${size}-${cell}`);

/** What the page's list has of an opening that it has no certificate of: [winner, SHA-256 of the file]; else null. */
function listedOpening(size, vertex) {
  const names = namesOf(size, vertex), listed = names.find(name => name in LISTED);
  return listed && !names.some(name => opened.has(name)) ? LISTED[listed] : null;
}

// What was found of openings, by size and cell.
const found = new Map();

/** Who wins after Black's first stone on this cell, and the certificate of that: {winner, certificate}; null if none says so. */
function openingOf(size, vertex) {
  const [name] = namesOf(size, vertex);
  if (!found.has(name)) found.set(name, findOpening(size, vertex));
  return found.get(name);
}

/** Takes the certificate of a listed opening, by which a run of hexd has said who wins: it serves for the opposite one too. */
function keepOpening(size, vertex, {winner, certificate}) {
  if (!listedOpening(size, vertex)) return;
  const [own, opposite] = namesOf(size, vertex);
  opened.set(own, certificate);
  found.set(own, Promise.resolve({winner, certificate}));
  found.delete(opposite);
}

async function findOpening(size, vertex) {
  const inPage = await certificatesOfPage(), certificateNamed = name => opened.get(name) ?? inPage[name];
  const [own, opposite] = namesOf(size, vertex).map(certificateNamed);
  for (const certificate of [own, opposite && turned(opposite, size)]) {
    const winner = await provedBy(certificate, size, vertex);
    if (winner) return {winner, certificate};
  }
  return null;
}

/** Who is proved to win after Black's first stone on this cell: 'black', 'white' or null. */
const winnerOf = async (size, vertex) => listedOpening(size, vertex)?.[0] ?? (await openingOf(size, vertex))?.winner ?? null;

/** The certificate of that; null if there is none. */
const certificateOf = async (size, vertex) => (await openingOf(size, vertex))?.certificate ?? null;

/** The same of all cells of a size of which it is known, by vertex. */
async function winnersOf(size) {
  const winners = {};
  for (const name of [...Object.keys(await certificatesOfPage()), ...Object.keys(LISTED)]) {
    const [of, vertex] = name.split('-');
    if (of !== `${size}`) continue;
    for (const cell of [vertex, turnedCell(vertex, size)]) winners[cell] = await winnerOf(size, cell);
  }
  return winners;
}
