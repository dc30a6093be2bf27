'use strict';
// worker.js in a thread of Node: what a browser's worker has, and reads that wait in the thread, for Node has no suspending yet.
const {readFileSync} = require('node:fs');
const {join} = require('node:path');
const {runInThisContext} = require('node:vm');
const {parentPort, receiveMessageOnPort, workerData: sent} = require('node:worker_threads');

globalThis.postMessage = message => parentPort.postMessage(message);
globalThis.onmessage = null;
WebAssembly.Suspending = class {};
WebAssembly.promising = run => run;
// A script whose names this one sees, as if it stood here.
runInThisContext(readFileSync(join(__dirname, 'worker.js'), 'utf8'), 'worker.js');
/* global host, input, readFile, readInput, FILE */

/** Takes messages until there is input, or its end. */
function awaitInput() {
  while (!input.pieces.length && !input.over) {
    const seen = Atomics.load(sent, 0), came = receiveMessageOnPort(parentPort);
    if (came) globalThis.onmessage({data: came.message});
    else Atomics.wait(sent, 0, seen);
  }
}

host.read = (fd, place, room) => {
  if (fd === FILE) return BigInt(readFile(place, room));
  awaitInput();
  const count = Math.min(Number(room), input.pieces[0]?.length ?? 0);
  // With input there it has done all when it returns.
  readInput(place, room);
  return BigInt(count);
};
parentPort.on('message', data => globalThis.onmessage({data}));
