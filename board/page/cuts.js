'use strict';
// Branches that were deleted, which can be brought back: while the page is there, and after a reload.

const isSameStep = (one, two) => one.move === two.move && one.colour === two.colour;

/** Takes a position and all after it out of its tree, which keeps {position, at}, by which it is put back. */
function cutBranch(position) {
  const {parent, tree} = position, at = parent.children.indexOf(position);
  parent.children.splice(at, 1);
  if (parent.seen === position) parent.seen = null;
  tree.cuts.push({position, at});
}

/** Puts the branch back that was deleted last, and beside its moves those that were played in its place; gives it. */
function putBack(tree) {
  const {position, at} = tree.cuts.pop();
  const {children} = position.parent, again = children.findIndex(({step}) => isSameStep(step, position.step));
  if (again >= 0) joinBranches(position, children.splice(again, 1)[0]);
  children.splice(at, 0, position);
  return position;
}

function joinBranches(kept, joined) {
  for (const name of ['thought', 'solved', 'end']) kept[name] ??= joined[name];
  mergeProperties(kept, joined.properties, new Set());
  for (const child of joined.children) {
    const found = kept.children.find(({step}) => isSameStep(step, child.step));
    if (found) {
      joinBranches(found, child);
    } else {
      child.parent = kept;
      kept.children.push(child);
    }
  }
}

/** The deleted branches of a tree in a form that lasts: where each was, and its moves as a record. */
const writeCuts = ({size, cuts}) => cuts.map(({position, at}) => {
  const root = sgfNode({FF: ['4'], GM: ['11'], SZ: [`${size}`]});
  const branch = sgfNode({...stepProperty(position.step), ...position.properties});
  root.children.push(branch);
  growNodes(position, branch);
  return {path: position.parent.path.slice(1).map(({step}) => step), at, record: writeSgf(root)};
});

/** Gives a tree its deleted branches again. One may have been deleted out of another that was deleted later. */
function readCuts(tree, written) {
  for (const {path, at, record} of [...written].reverse()) {
    const parent = positionAt(tree, path);
    if (!parent) continue;
    const [branch] = treeOfRecord(record).tree.root.children;
    tree.cuts.unshift({position: grafted(branch, parent), at});
  }
}

/** The position to which steps lead, in a tree or its deleted branches; undefined if there is none. */
function positionAt(tree, path) {
  let at = tree.root;
  for (const step of path) {
    const cut = tree.cuts.map(({position}) => position).filter(({parent}) => parent === at);
    at = [...at.children, ...cut].find(child => isSameStep(child.step, step));
    if (!at) return undefined;
  }
  return at;
}

/** A copy of another tree's branch, as one of a position, which doesn't hold it yet. */
function grafted(branch, parent) {
  const made = new Map([[branch.parent, parent]]);
  for (const one of branchOf(branch)) {
    const above = made.get(one.parent), position = new Position(parent.tree, above, one.step, one.properties);
    position.end = one.end;
    if (one !== branch) above.children.push(position);
    made.set(one, position);
  }
  return made.get(branch);
}
