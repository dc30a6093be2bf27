'use strict';
// Pictures of the board as it stands, and files that the page saves.

// What a picture keeps of the style sheet.
const KEPT_STYLE = ['fill', 'fill-opacity', 'stroke', 'stroke-width', 'stroke-opacity', 'stroke-linejoin', 'stroke-linecap',
  'opacity', 'font-family', 'font-size', 'font-weight', 'text-anchor', 'dominant-baseline', 'paint-order'];

/** A board as it stands, as the text of an SVG that needs no style sheet. */
function pictureOf({svg, box}, background) {
  const copy = svg.cloneNode(true), ghost = copy.querySelector('.ghost');
  const [originals, copies] = [svg, copy].map(root => [...root.querySelectorAll('*')]);
  originals.forEach((original, at) => {
    const style = getComputedStyle(original), kept = copies[at];
    for (const name of KEPT_STYLE) kept.setAttribute(name, style.getPropertyValue(name));
    for (const name of ['class', 'tabindex', 'role', 'aria-label']) kept.removeAttribute(name);
  });
  ghost?.remove();
  const [x, y, width, height] = box;
  for (const {name} of [...copy.attributes]) if (name !== 'viewBox') copy.removeAttribute(name);
  copy.setAttribute('width', Math.round(2 * width));
  copy.setAttribute('height', Math.round(2 * height));
  copy.prepend(svgElement('rect', {x, y, width, height, fill: background}));
  return new XMLSerializer().serializeToString(copy);
}

function saveFile(name, blob) {
  const link = htmlElement('a', {href: URL.createObjectURL(blob), download: name});
  link.click();
  setTimeout(() => URL.revokeObjectURL(link.href), 60_000);
}

/** The picture of an SVG as a PNG. */
async function painted(drawn) {
  const image = new Image(), canvas = document.createElement('canvas'), address = URL.createObjectURL(drawn);
  image.src = address;
  await image.decode();
  [canvas.width, canvas.height] = [image.naturalWidth, image.naturalHeight];
  canvas.getContext('2d').drawImage(image, 0, 0);
  URL.revokeObjectURL(address);
  return new Promise(done => { canvas.toBlob(done, 'image/png'); });
}

/** Saves the picture of a board: kind 'svg' or 'png'. */
async function savePicture(view, kind) {
  const drawn = new Blob([pictureOf(view, getComputedStyle(document.body).backgroundColor)], {type: 'image/svg+xml'});
  saveFile(`hexd-board.${kind}`, kind === 'svg' ? drawn : await painted(drawn));
}
