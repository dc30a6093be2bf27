'use strict';
// Files, links and copies: what is saved, opened, and put on the clipboard.

/** Wires the section 'Keep and open' of the page. */
function wireFiles(play) {
  const {game} = play, on = (id, use) => byId(id).addEventListener('click', use);
  // Without a session too: just then one wants to keep the game.
  on('save', () => (play.lost ? play.save() : play.act(() => play.save())));
  byId('open').addEventListener('change', async event => {
    const [file] = event.target.files;
    if (file) await play.open(file);
    event.target.value = '';
  });
  byId('link-form').addEventListener('submit', event => {
    event.preventDefault();
    play.openText(byId('link').value);
  });
  on('copy', () => play.copy(`${Session.address}#${linkOfTree(game.tree)}`));
  on('copy-moves', () => play.copy(movesText(lineOf(game).steps).join(' ')));
  const none = 'HexWorld has no form for start stones and moves out of turn';
  on('copy-hexworld', () => play.copy(hexWorldLink(lineOf(game)), none));
  for (const kind of ['svg', 'png']) on(kind, () => savePicture(play.view, kind));
  on('save-proof', () => {
    const {thought} = game.shown ?? {}, said = game.at.solved?.proof ? game.at.solved : thought;
    // A move of a lost board wins nothing.
    saveFile(`${(said.win && said.cell) || 'position'}.cert`, new Blob([`${said.certificate}\n`]));
  });
}

/** A file that is dropped on the page is opened: else the browser would go to it. */
function wireDrop(play) {
  addEventListener('dragover', event => { if (event.dataTransfer?.types.includes('Files')) event.preventDefault(); });
  addEventListener('drop', event => {
    const [file] = event.dataTransfer?.files ?? [];
    if (!file) return;
    event.preventDefault();
    play.open(file);
  });
}

/** The line of a game as the forms of links take it. */
const lineOf = ({tree}) => ({
  size: tree.size, start: tree.start, steps: tree.line.slice(1).map(({step}) => step), end: tree.line.at(-1).end,
  position: tree.at.number,
});
