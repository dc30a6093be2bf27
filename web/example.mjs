// hexd plays a game against itself: `make wasm`, and then `node web/example.mjs`; a page may import it as well.
import {Hexd} from './hexd.mjs';

const module = new URL('out/hexd.wasm', import.meta.url);
const hexd = await Hexd.start(module, 'htp', '--size', 7, '--look', 50, '--playouts', 100, '--weight', 0);
const names = {b: 'black', w: 'white'};
for (let colour = 'b', move; (move = await hexd.ask(`genmove ${colour}`)).done; colour = colour === 'b' ? 'w' : 'b') {
  console.log(names[colour], move.text);
}
console.log('winner:', (await hexd.ask('winner')).text);
hexd.close();
