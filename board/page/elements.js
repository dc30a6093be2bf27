'use strict';
// Small parts of which the page and the report are made: elements, colours' names, numbers as words.

const SVG = 'http://www.w3.org/2000/svg';
const COLOURS = {b: 'Black', w: 'White'};
const SWAP = 'swap-pieces';

const other = colour => (colour === 'b' ? 'w' : 'b');
const percent = share => `${Math.round(100 * share)} %`;
const grouped = number => String(number).replace(/\B(?=(\d{3})+$)/g, ',');
const counted = (number, noun) => `${grouped(number)} ${noun}${number === 1 ? '' : 's'}`;
const byId = id => document.getElementById(id);

function svgElement(name, attributes = {}, ...children) {
  const made = document.createElementNS(SVG, name);
  for (const [key, value] of Object.entries(attributes)) made.setAttribute(key, value);
  made.append(...children);
  return made;
}

function htmlElement(name, attributes = {}, ...children) {
  const made = document.createElement(name);
  for (const [key, value] of Object.entries(attributes)) made.setAttribute(key, value);
  made.append(...children);
  return made;
}

/** A move behind a dot in its player's colour. */
const moveLabel = ({colour, move}) => [htmlElement('span', {class: `dot ${colour}`}), move === SWAP ? 'swap' : move];
