'use strict';
// What is known of Black's first stone: by the certificates of openings/ who wins, and how their player answers; where there
// are none, what hexd's look-ahead guessed once (board/guessed.json).

// Of greater boards few openings have certificates, and of smaller ones than this none has.
const LARGEST_MAP = 7, SMALLEST_MAP = 3;
// A long certificate is read in parts of so many lines, between which the page goes on.
const LINES_AT_ONCE = 2_000;
const PER_MILLE = 1_000;

/** The move that is the first stone of an empty board, and Black's; null if a position isn't the one after it. */
const firstStone = ({number, step, tree}) => (number === 1 && !tree.start.length && step.colour === 'b' ? step.move : null);

/** A certificate that is read in parts. */
async function readInParts(text) {
  const reading = new CertificateReading(text);
  while (reading.read(LINES_AT_ONCE)) await new Promise(goOn => { setTimeout(goOn); });
  return reading.whole;
}

/** How the winner of an opening goes on by its certificate: {cell}, his own next one if he is to move, or {replies}, his
    answers to what the other player may do. */
function answersOf({player, claimed}, {mover, facts, tree: {size}}) {
  const {cell} = claimed;
  return {cell, replies: repliesOf({player, claimed, cell}, {mover, at: {facts}, size})};
}

/** The certificate that a position of an opening has by itself, read: one that was opened, or the solver's; else null. */
const ownProof = ({solved}) => (solved?.proof && isAccepted(solved) ? solved.proof : null);

/** The SHA-256 of the file with the certificate of an opening's position, if the page has the file's name alone; else null. */
const absentFile = position =>
  (ownProof(position) ? null : Session.fileSum(position.tree.size, position.step.move));

/** The openings on the page: `maps` has of each size who is proved to win, by the first stone's cell. */
class FirstStones {
  constructor(play) { Object.assign(this, {play, maps: new Map(), asked: new WeakSet()}); }

  /** Asks for what may be told of the position that is shown. It comes when it is there: nothing waits for it. */
  follow() {
    const {game: {tree, at, size}} = this.play;
    if (tree.isEmpty && size <= LARGEST_MAP && !this.maps.has(size)) this.askMap(size);
    if (at.opening && firstStone(at) && at.facts && !this.asked.has(at) && !absentFile(at)) this.askAnswers(at);
  }

  async askMap(size) {
    this.maps.set(size, null);
    const found = Object.entries(await Session.winners(size).catch(() => ({})));
    this.maps.set(size, new Map(found.map(([vertex, winner]) => [vertex, winner[0]])));
    this.play.draw();
  }

  async askAnswers(position) {
    this.asked.add(position);
    const proof = ownProof(position) ?? await this.readOpening(position);
    if (!proof) return;
    position.answered = answersOf(proof, position);
    this.play.draw();
  }

  async readOpening({tree: {size}, step: {move}}) {
    const certificate = await Session.certificate(size, move).catch(() => null);
    return certificate && readInParts(certificate);
  }
}

/** The table of guesses: {program, options, black}, of which `black` has by size and cell what a first stone leaves Black, in
    thousandths. Of two opposite cells one stands for both. */
class Guesses {
  constructor(table) { Object.assign(this, table); }

  /** Black's share after his first stone on a cell; null if nothing is guessed. */
  share(size, vertex) {
    const of = this.black[size], found = of?.[vertex] ?? of?.[oppositeOf(vertex, size)];
    return found === undefined ? null : found / PER_MILLE;
  }

  /** The shares of all cells of a size; null if there are none. */
  map(size) {
    return this.black[size] ? new Map(verticesOf(size).map(vertex => [vertex, this.share(size, vertex)])) : null;
  }

  /** What is guessed of the position after a first stone: {share, nodes}, Black's share and how many nodes say so; or null. */
  of(position) {
    const stone = firstStone(position), share = stone && this.share(position.tree.size, stone);
    return share === null ? null : {share, nodes: this.options.look};
  }

  /** By what it was guessed, in words. */
  get source() { return `hexd's look-ahead of ${grouped(this.options.look)} nodes (program ${this.program})`; }
}

const checkOf = file => `xz -dc ${file} | bin/hexd check`;

/** What the map of openings on an empty board means, which has so many of all. */
const mapWords = (known, all) => `Proved, of each opening with a mark (${known} of ${all}): a black one wins for Black, ${
  'so White swaps; a white one for White, so he does not. Of a cell that is pointed at its certificate is named; to check one: '}${
  checkOf('FILE')}.`;

/** What is said of so many openings of the map of whose certificates the page has the files' names alone; nothing of none. */
const absentWords = absent => (absent ? ` Of ${absent} the certificate is not in this page, which has not checked it: it is a file ${
  'of hexd\'s sources. Unpacked by xz -dk FILE, \'Open file\' takes it: hexd checks it here, and its answers are shown.'}` : '');

const noMapWords = size => `Of each opening of ${size} by ${size} a certificate proves who wins. They are not here: ${
  'hexd\'s sources have them in openings/.'}`;

const guessedMapWords = source => `Guessed, not proved: on each cell Black's chances in per cent if his first stone lies there, by ${
  source}. A black square is better for Black, so White swaps; a white one for White.`;

/** What stands below an empty board of its openings; nothing if nothing is known. */
function mapOf(size, map, guesses) {
  const absent = [...map?.keys() ?? []].filter(vertex => Session.fileSum(size, vertex)).length;
  if (map?.size) return mapWords(map.size, size ** 2) + absentWords(absent);
  if (map && size >= SMALLEST_MAP) return noMapWords(size);
  return guesses?.map(size) ? guessedMapWords(guesses.source) : '';
}

/** Where the certificate of an opening lies, and how to check it. `sum` is its file's, if the page has the file's name alone. */
function fileWords(size, vertex, sum) {
  const file = fileOfOpening(size, vertex), of = file.includes(`-${vertex}.`) ? '' : ', of the board turned by half a circle';
  const check = `To check it: ${checkOf(`openings/${file}`)}`;
  if (!sum) return `Its certificate: openings/${file}${of}. ${check}`;
  return `Its certificate is not in this page, which has not checked it: it is the file openings/${file} of hexd's sources${of}, ${
    `with the SHA-256 ${sum}. ${check}. Or unpack it by xz -dk ${file}, and 'Open file' takes it: hexd checks it here, ${
      'and its answers are shown.'}`}`;
}

function openingWords(vertex, winner) {
  const swap = winner === 'b' ? 'takes the win' : 'gives the win away';
  return `Proved: after Black's ${vertex} ${COLOURS[winner]} wins; a swap ${swap}.`;
}

/** How the winner of an opening goes on by its certificate, in words. */
const answeredWords = (player, {cell, replies}) =>
  (cell ? `By the certificate ${COLOURS[player]} plays ${cell}.` : `By the certificate${replyWords({player}, replies)}`);

/** What is guessed of a first stone, in words. */
const guessedWords = (vertex, {share}, source) => `Guessed, not proved: after Black's ${vertex} Black wins ${percent(share)}, by ${
  source}, so a swap is ${share > 0.5 ? 'better' : 'no better'}.`;

const provedElements = ({at, size}) => [
  htmlElement('p', {class: 'proved'}, openingWords(at.step.move, at.opening)),
  ...at.answered ? [htmlElement('p', {class: 'proved'}, answeredWords(at.opening, at.answered))] : [],
  htmlElement('p', {class: 'none'}, fileWords(size, at.step.move, absentFile(at))),
];

/** What is known or guessed of the first stone of a position, as elements. */
function firstStoneElements(game, guesses) {
  const {at} = game, guess = guesses?.of(at);
  if (at.opening) return provedElements(game);
  return guess ? [htmlElement('p', {class: 'guessed'}, guessedWords(at.step.move, guess, guesses.source))] : [];
}
