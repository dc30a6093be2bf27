// What test_module.py runs in Node, in a page and in a worker of a page: runs by hexd.mjs, and sessions.
import {Hexd, compiled} from './hexd.mjs';

const bytesOf = text => Uint8Array.from(text, letter => letter.charCodeAt(0));

/** What a run gives for its words, its input and its file, whose bytes come as text, a letter for each. */
async function ran(module, {words, input, file}) {
  const run = await Hexd.start(module, ...words);
  if (file !== null) run.keep(bytesOf(file));
  return run.all(bytesOf(input));
}

/** What a session answers, and what who asks meets when it has ended. */
async function asked(module) {
  const hexd = await Hexd.start(module, 'htp', '--size', 2), told = fault => `${fault.name}: ${fault.message}`;
  const answers = [await hexd.load('(;GM[11]SZ[3];B[b2])')];
  const lines = ['1 name', 'printsgf', 'foo', 'play w a1 # a comment', 'winner'];
  answers.push(...await Promise.all(lines.map(line => hexd.ask(line))));
  const refused = [await hexd.ask('a\nb').catch(told), await hexd.ask(' # nothing').catch(told)];
  answers.push(await hexd.ask('quit'));
  const {status, text, errors} = await hexd.ended;
  return {answers, refused, end: [status, text, errors], after: await hexd.ask('name').catch(told), closed: await closed(module)};
}

/** What is said to who waits for an answer when the run is closed. */
async function closed(module) {
  const hexd = await Hexd.start(module, 'htp'), waits = hexd.ask('genmove b').catch(fault => fault.message);
  hexd.close();
  return waits;
}

export async function tried(place, cases) {
  const module = await compiled(place), runs = [];
  for (const it of cases) runs.push(await ran(module, it));
  return {runs, session: await asked(module)};
}
