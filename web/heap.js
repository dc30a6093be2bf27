// A test of memory.c, which test.py runs in the page: what is wrong, or nothing.
'use strict';

const HEAD = 16, PAGE = 65536;

async function heapTested(text) {
  const bytes = Uint8Array.from(text, letter => letter.charCodeAt(0));
  const {exports: {take: malloc, resize: realloc, give: free, memory}} = (await WebAssembly.instantiate(bytes, {})).instance;
  const wrong = [], say = (is, what) => { if (!is) wrong.push(what); };
  const view = (place, size) => new Uint8Array(memory.buffer, Number(place), Number(size));
  // Numbers as they come, the same each time.
  let drawn = 1;
  const draw = most => (drawn = drawn * 48271 % 2147483647) % most;
  const blocks = [];
  const isWhole = ({place, size, mark}) => view(place, size).every(byte => byte === mark);
  const take = size => {
    const place = malloc(BigInt(size)), mark = draw(256);
    say(place !== 0n, `no block of ${size} bytes`);
    say(place % BigInt(HEAD) === 0n, `a block of ${size} bytes at ${place}`);
    view(place, size).fill(mark);
    blocks.push({place, size, mark});
  };
  const give = at => {
    const [block] = blocks.splice(at, 1);
    say(isWhole(block), `a block of ${block.size} bytes was written to`);
    free(block.place);
  };
  const resize = at => {
    const block = blocks[at], size = 1 + draw(4 * block.size), kept = Math.min(size, block.size);
    block.place = realloc(block.place, BigInt(size));
    say(isWhole({...block, size: kept}), `${block.size} bytes that became ${size} are not as they were`);
    view(block.place, size).fill(block.mark);
    block.size = size;
  };
  for (let step = 0; step < 20000; step++) {
    const what = draw(8);
    if (blocks.length < 50 || what < 3) take(1 + draw(2 ** draw(18)));
    else if (what < 6) give(draw(blocks.length));
    else resize(draw(blocks.length));
  }
  while (blocks.length) give(0);
  const grown = memory.buffer.byteLength;
  for (let round = 0; round < 1000; round++) {
    for (let size = 1; size < 2 ** 17; size *= 3) take(size);
    while (blocks.length) give(0);
  }
  say(memory.buffer.byteLength < grown + 16 * PAGE, 'what was given back is not taken again');
  say(malloc(1n << 41n) === 0n && malloc(-1n) === 0n, 'a block beyond all memory');
  const large = [];
  for (let place; large.length < 100 && (place = malloc(1n << 26n)); large.push(place));
  say(large.length > 0 && large.length < 100, `${large.length} blocks of 64 MiB in 4 GiB`);
  large.forEach(place => free(place));
  say(malloc(1n << 26n) === large.at(-1), 'memory is of no use once it was full');
  return wrong.slice(0, 5).join('; ');
}

window.heapTested = heapTested;
