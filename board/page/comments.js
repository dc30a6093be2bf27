'use strict';
// Comments on positions: a record's are shown, and one writes one's own, which the record keeps.

/** Gives a position another comment; an empty one is none. */
function setComment(position, text) {
  if (text) position.properties.C = [escapedValue(text)];
  else delete position.properties.C;
}

/** Opens the box with the comment of the position that is shown; it is written when one leaves the box. */
function openComment({game}) {
  const box = byId('comment');
  box.position = game.at;
  box.value = game.at.comment;
  box.hidden = false;
  box.focus();
}

/** The box closes once the game stands elsewhere. */
function drawComment({at}) {
  const box = byId('comment');
  // Who writes goes on, also while hexd moves.
  if (!box.hidden && box.position !== at && document.activeElement !== box) closeComment();
}

function closeComment() { byId('comment').hidden = true; }

function wireComments(play) {
  const box = byId('comment');
  // A press on the button would first leave the box, which closes it.
  byId('write').addEventListener('mousedown', event => event.preventDefault());
  byId('write').addEventListener('click', () => (box.hidden ? openComment(play) : closeComment()));
  // Each letter is kept: hexd may be at work for long, or be lost, and the page may go. 'change' comes where a script writes.
  for (const kind of ['input', 'change']) {
    box.addEventListener(kind, () => {
      setComment(box.position, box.value.trim());
      play.keeping.keep(box.position.tree, false);
    });
  }
  // Not all is drawn: the press that leaves the box may be on a move, whose button has to be there for the click.
  box.addEventListener('change', () => byId('record').replaceChildren(...recordElements(play.game)));
  box.addEventListener('blur', closeComment);
  box.addEventListener('keydown', ({key}) => { if (key === 'Escape') box.blur(); });
}
