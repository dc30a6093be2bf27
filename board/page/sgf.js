'use strict';
// Text of records (SGF): reads a text into nodes with their properties, and writes them. It knows no game.

// So much of a value is quoted; and what isn't printable: it could have a text read otherwise than it stands.
const MOST_QUOTED = 60, UNPRINTABLE = /(?! )[\p{C}\p{Z}]/gu;

/** A value as it is quoted to a reader: in one line of printable characters, and not all of a long one. */
const shownValue = value => [...value.trim().slice(0, 2 * MOST_QUOTED)].slice(0, MOST_QUOTED).join('').replace(UNPRINTABLE, '?');

/** A node of a record: its properties, each a name with its values as they stand in the text, and the nodes that follow. */
const sgfNode = (properties = {}) => ({properties, children: []});

/** Of a name's letters the small ones don't count, as older records have them, unless all are small. */
const sgfName = name => name.replace(/[a-z]/g, '') || name.toUpperCase();

/** The first tree of a text: {root, trees, isWhole}, with how many trees there are, and whether the first one ends; root is null
    if there is none, or none with a property: other files have `(;` too. */
function readSgf(text) {
  const below = [], begin = text.search(/\(\s*;/);
  if (begin < 0 || text.includes('\0')) return {root: null, trees: 0, isWhole: false};
  let root = null, node = null, last = null, trees = 0, hasProperty = false, isWhole = false;
  // A bracket alone is that of a value without an end.
  for (const [token] of text.slice(begin).matchAll(/\[(?:\\[^]|[^\]\\])*\]|[A-Za-z]+|[();[]/g)) {
    if (token === '[') break;
    if (token === '(') {
      if (!below.length) trees++;
      below.push(node);
    } else if (token === ')') {
      if (!below.length) break;
      node = below.pop();
      isWhole ||= !below.length;
    } else if (trees > 1) {
      continue;
    } else if (token === ';') {
      const made = sgfNode();
      root ??= made;
      node?.children.push(made);
      [node, last] = [made, null];
    } else if (token[0] !== '[') {
      last = sgfName(token);
    } else if (node && last) {
      (node.properties[last] ??= []).push(token.slice(1, -1));
      hasProperty = true;
    }
  }
  return {root: hasProperty ? root : null, trees, isWhole};
}

/** The text of a tree. */
function writeSgf(root) {
  const parts = [], left = [root];
  while (left.length) {
    const item = left.pop();
    if (typeof item === 'string') {
      parts.push(item);
      continue;
    }
    const {properties, children} = item;
    parts.push(';');
    for (const [name, values] of Object.entries(properties)) parts.push(name, ...values.map(value => `[${value}]`));
    if (children.length === 1) left.push(children[0]);
    else for (const child of [...children].reverse()) left.push(')', child, '(');
  }
  return `(${parts.join('')})`;
}

/** A value as it is read: what stands behind a backslash is itself, and a line break behind one is none. */
const plainValue = value => value.replace(/\\(\r\n|\n\r|[^])/g, (_, given) => (/[\r\n]/.test(given) ? '' : given));
