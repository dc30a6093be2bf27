'use strict';
// A record as it is saved: the line that one is on is its first variation, as other programs read it, with who played, when,
// and how it ended.

// Of a game that was begun here the root says so: its players and its day are known.
const BEGUN_HERE = ['hexd'];
const HUMAN = 'Human';

/** A new game without moves. */
const newGame = size => new Tree(size, [], {AP: BEGUN_HERE});

/** The day here, as records and names of files have it. */
function today(now = new Date()) {
  const two = number => String(number).padStart(2, '0');
  return `${now.getFullYear()}-${two(now.getMonth() + 1)}-${two(now.getDate())}`;
}

/** How the line ends, as a record says it: `B+`, `W+R`; null if it doesn't end. */
function resultOf(end) {
  const {facts, end: given} = end, winner = facts?.winner ?? (given && other(given.colour));
  if (!winner) return null;
  const how = facts?.winner ? '' : given.move !== 'forfeit' ? 'R' : isByTime(given) ? 'T' : 'F';
  return `${winner.toUpperCase()}+${how}`;
}

/** The root's properties as they are saved. `names` are the players' by colour: `hexd (normal)`. */
function savedHead(tree, names) {
  const given = tree.root.properties, end = tree.line.at(-1), isOwn = given.AP?.[0] === BEGUN_HERE[0];
  const head = isOwn ? {PB: [names.b], PW: [names.w], DT: [today()], ...given} : {...given};
  const result = end === endOf(tree.root) && given.RE ? given.RE[0] : resultOf(end);
  if (result) head.RE = [result];
  else delete head.RE;
  return head;
}

/** The text of a game with its side lines, and none of the page's own marks. */
function savedRecord(tree, names) {
  const line = new Set(tree.line);
  return recordOfTree(tree, {
    head: savedHead(tree, names),
    isMarked: false,
    ordered: children => [...children].sort((one, two) => line.has(two) - line.has(one)),
  });
}

const savedName = () => `hexd-${today()}.sgf`;
