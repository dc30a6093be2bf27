'use strict';
// A certificate on a page of its own: from what certificate.py has put into it, the board, who wins, and the lines, each of
// which draws what it links.

const sheet = JSON.parse(byId('game').textContent);
const proof = readCertificate(sheet.certificate);
const stones = new Map(certificateStones(sheet.certificate));
const label = `Board, ${proof.size} by ${proof.size}`;
const view = new BoardView(svgElement('svg', {class: 'board', role: 'img', 'aria-label': label}));
const choices = new Choices(drawSheet);

function drawSheet() {
  const {carrier, cell} = proof.claimed;
  view.show({stones, ...choices.marks ?? {carrier, chosen: cell}});
}

byId('stage').append(view.svg);
view.shape(proof.size, 'wide');
byId('winner').textContent = `${COLOURS[proof.player]} wins${proof.claimed.cell ? ` by ${proof.claimed.cell}` : ''}.`;
choices.drawProof({proof, checked: sheet.checked});
drawSheet();
new ResizeObserver(() => view.scale()).observe(byId('stage'));
document.body.dataset.ready = 'yes';
