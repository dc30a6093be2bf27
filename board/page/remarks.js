'use strict';
// What hexd said as comments of a record, for who asks for them when a record is saved.

// What a comment's part of hexd's begins with; when a record is saved again, new ones stand in the place of these.
const REMARK = 'hexd: ';
// Parts of a comment have an empty line between them.
const PARAGRAPH = '\n\n';

/** What hexd said of a position, and how the move to it is judged, in sentences; nothing where it said nothing. */
function remarkOf(position, judgement) {
  const {thought, solved, opening, step} = position, said = [];
  if (judgement && position.parent.thought) said.push(judgedWords(position, judgement));
  if (opening) said.push(openingWords(step.move, opening));
  if (solved?.winner) said.push(solvedWords(solved));
  if (thought) {
    said.push(`With ${COLOURS[thought.mover]} to move: ${thoughtWords(thought).join(' ')}`);
    const best = bestMoves(thought).map(([vertex, visits, won]) => `${vertex} ${grouped(visits)} (${percent(won / visits)})`);
    const what = thought.isLook ? 'Nodes, and what they are worth' : 'Visits, and wins of them';
    if (best.length) said.push(`${what}: ${best.join(', ')}.`);
  }
  return said.length ? REMARK + said.join(' ') : '';
}

/** A text as a value of a record. */
const escapedValue = text => text.replace(/[\\\]]/g, '\\$&');

/** The properties of a position with hexd's remark in the comment, and its marks. */
function remarkedProperties(position, judgement, share) {
  const remark = remarkOf(position, judgement), {C = [], ...others} = markedProperties(position.properties, judgement, share);
  if (!remark) return {...others, ...C.length && {C}};
  const own = C.join(PARAGRAPH).split(PARAGRAPH).filter(part => part && !part.startsWith(REMARK));
  return {...others, C: [[...own, escapedValue(remark)].join(PARAGRAPH)]};
}

/** What `use` gives while the comments of a tree have hexd's remarks, and its moves their marks. */
function withRemarks(tree, use) {
  const {positions} = tree, before = positions.map(({properties}) => properties), {judgements, shares} = judgedTree(tree);
  for (const position of positions) {
    position.properties = remarkedProperties(position, judgements.get(position), shares.get(position));
  }
  try {
    return use();
  } finally {
    positions.forEach((position, at) => { position.properties = before[at]; });
  }
}
