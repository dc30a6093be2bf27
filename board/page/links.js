'use strict';
// Games as links and as moves in a row. A link has the size, start stones (`+b-c3`), moves, of which one out of turn has its
// colour before it (`w-a1`), and at the end `@N` where the game stands after N moves and not after all. HexWorld's links and
// moves without a size are read too.

const HEXWORLD = 'https://hexworld.org/board/#';
// What HexWorld writes for what is no cell: a swap, a pass, and how a player ends the game (`:rb`, Black resigns).
const HEXWORLD_SWAP = ':s', HEXWORLD_PASS = ':p';
const HEXWORLD_ENDINGS = {r: 'resign', f: 'forfeit'};
const HEXWORLD_END = /^:([rf])([bw])$/;
const PART = /^(\+?)(?:([bw])-)?([a-k][1-9][0-9]?|swap)$/;

/** The moves in the form of a link. */
function movesText(steps) {
  let turn = 'b';
  return steps.map(({colour, move}) => {
    const text = (colour === turn ? '' : `${colour}-`) + (move === SWAP ? 'swap' : move);
    turn = other(colour);
    return text;
  });
}

/** A game as the part of a link behind `#`: {size, start, steps, position}. */
function linkOf({size, start, steps, position}) {
  const parts = [size, ...start.map(([colour, vertex]) => `+${colour}-${vertex}`), ...movesText(steps)];
  return (position < steps.length ? [...parts, `@${position}`] : parts).join(',');
}

/** The link of a tree: its line, and where it stands on it. */
const linkOfTree = tree =>
  linkOf({size: tree.size, start: tree.start, steps: tree.line.slice(1).map(({step}) => step), position: tree.at.number});

/** A link to HexWorld with the same moves, and the same end; null where that has no form for them. */
function hexWorldLink({size, start, steps, end, position}) {
  if (start.length || steps.some(({colour}, at) => colour !== 'bw'[at % 2])) return null;
  const text = part => part.map(({move}) => (move === SWAP ? HEXWORLD_SWAP : move)).join('');
  const parts = [text(steps.slice(0, position)), text(steps.slice(position))].filter((part, at) => part || !at);
  return `${HEXWORLD}${[size, ...parts].join(',')}${end ? `:${end.move[0]}${end.colour}` : ''}`;
}

/** A text from a box or an address: percent signs that stand for characters are taken so, and others as they are. */
function unescaped(text) {
  try {
    return decodeURIComponent(text);
  } catch {
    return text;
  }
}

/** What HexWorld's link holds: its parts are the moves up to where it stands, and those behind. */
function readHexWorld(text) {
  const [head, played = '', later = ''] = text.split(',');
  const cut = part => (part.match(/[a-z][0-9]+|:(?:[rf][bw]|[a-z])/g) ?? [])
    .map(word => (word === HEXWORLD_SWAP ? 'swap' : word));
  const moves = cut(played), size = /^\d+/.exec(head)?.[0];
  return {size, parts: [...moves, ...cut(later)], position: moves.filter(word => word[0] !== ':').length};
}

/** What other texts hold: moves may stand together, be numbered, and be without a size before them. */
function readPlain(text, sizeHere) {
  const words = text.split(/[\s,;]+/).filter(Boolean);
  const size = /^\d+$/.test(words[0]) ? words.shift() : String(sizeHere);
  const at = words.findIndex(word => /^@\d+$/.test(word));
  const position = at < 0 ? undefined : Number(words.splice(at, 1)[0].slice(1));
  const parts = words.map(word => word.replace(/^\d+\./, '').replace('swap-pieces', 'swap')).filter(Boolean)
    .flatMap(word => (/^([a-k][1-9][0-9]?){2,}$/.test(word) ? word.match(/[a-k][1-9][0-9]?/g) : [word]));
  return {size, parts, position};
}

/** What a part says that is no move: notes of a pass, which Hex hasn't, and of an end. False if it says nothing of these. */
function takeSign(game, part, number, turn) {
  const [, how, colour] = HEXWORLD_END.exec(part) ?? [];
  if (part === HEXWORLD_PASS) game.notes.push(passWords(COLOURS[turn], number));
  if (how) {
    game.end = {colour, move: HEXWORLD_ENDINGS[how], properties: {}};
    game.notes.push(endWords(COLOURS[colour], number));
  }
  return part === HEXWORLD_PASS || Boolean(how);
}

/** The game that a text names: {size, start, steps, end, position, notes}, or Refused. `sizeHere` is the size of moves without
    one, and `end` a resignation. */
function gameOfText(given, sizeHere) {
  const whole = unescaped(given.trim()).toLowerCase(), text = whole.slice(whole.indexOf('#') + 1).trim();
  const {size, parts, position} = whole.includes('hexworld') ? readHexWorld(text) : readPlain(text, sizeHere);
  if (!/^\d{1,4}$/.test(size ?? '')) throw new Refused('a link begins with the size of the board, 1 to 11');
  if (!(size >= 1 && size <= LETTERS.length)) throw new Refused(`size ${size}: hexd plays 1 to ${LETTERS.length}`);
  const game = {size: Number(size), start: [], steps: [], end: null, position, notes: []};
  let turn = 'b';
  for (const [at, part] of parts.entries()) {
    if (takeSign(game, part, at + 1 - game.start.length, turn)) {
      turn = other(turn);
      continue;
    }
    const found = PART.exec(part);
    if (!found) throw new Refused(`${quoted(part)} is no move`);
    const [, plus, colour = turn, move] = found;
    if (plus) {
      game.start.push([colour, move]);
    } else {
      game.steps.push({colour, move: move === 'swap' ? SWAP : move});
      turn = other(colour);
    }
  }
  return game;
}
