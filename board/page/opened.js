'use strict';
// A certificate that is opened as a game: its stones are those of the start, or its one stone is Black's first move, and of
// that position it is known who wins. hexd says whether the certificate is right.

const isCertificate = text => text.startsWith('hexcert ');

// How a file begins that xz has packed.
const XZ = Uint8Array.of(0xfd, 0x37, 0x7a, 0x58, 0x5a, 0);

/** Refused for a file that is packed by xz, as those of openings/ are: browsers don't unpack it. */
function refusePacked(bytes, name) {
  const head = new Uint8Array(bytes, 0, Math.min(XZ.length, bytes.byteLength));
  if (head.length < XZ.length || head.some((byte, at) => byte !== XZ[at])) return;
  throw new Refused(`${name} is packed by xz, which a browser doesn't unpack: open what \`xz -dk ${name}\` makes of it`);
}

/** The text of a certificate's file: whoever copied it may have lost the last line feed, or have other ends of lines. */
const certificateText = text => `${text.replaceAll('\r\n', '\n').trimEnd()}\n`;

/** What the head and the claim of a certificate say: {size, player, mover, stones}; its player moves if it claims `semi`. */
function headOfCertificate(text) {
  const {board: {size, player}, claim: [claim]} = new CertificateReading(text);
  const stones = certificateStones(text).map(([vertex, colour]) => [colour, vertex]);
  return {size, player, mover: claim === 'semi' ? player : other(player), stones};
}

/** The cell of Black's first stone, if it is the one stone of a board and White is to move; else null. */
function firstStoneOf({mover, stones: [[colour, vertex] = [], ...others]}) {
  return mover === 'w' && colour === 'b' && !others.length ? vertex : null;
}

/** The game of a certificate that `hexd check` accepts. */
function treeOfCertificate(head, name) {
  const {size, mover, stones} = head, GN = [escapedValue(name)], vertex = firstStoneOf(head);
  if (!vertex) return new Tree(size, stones, {PL: [mover.toUpperCase()], GN});
  const tree = new Tree(size, [], {GN});
  tree.goTo(tree.after(tree.root, {colour: 'b', move: vertex}));
  return tree;
}

/** Puts the game of a certificate in the place of this one: hexd plays the winner, and I the other player. */
async function openCertificate(play, given, name) {
  const {game} = play, text = certificateText(given);
  play.startClock('checks the certificate');
  const checked = await game.session.check(text);
  if (!/^yes/.test(checked)) throw new Refused(`the certificate is refused: ${checked}`);
  const head = headOfCertificate(text), tree = treeOfCertificate(head, name), {at} = tree, {player} = head;
  await game.learn(at);
  const winner = COLOURS[player].toLowerCase(), vertex = firstStoneOf(head);
  at.solved = readSolved(`won ${winner}`, text.trimEnd(), checked, at.mover, game.mayStillSwap(at));
  if (vertex) Session.keepCertificate(head.size, vertex, {winner, certificate: text});
  await play.take(tree);
  for (const colour of 'bw') byId(`player-${colour}`).value = colour === player ? 'hexd' : 'I';
  kept.save();
}
