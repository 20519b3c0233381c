// Runs stages over standard input to standard output through Node's own Web Streams, the stages in threads: each worker is
// handed the two streams between which its stages stand, which are transferred, as a page would hand streams to its workers.
// The words are how many workers there are, and the stages, as stages.mjs has them.
import { Worker, isMainThread, parentPort, workerData } from 'node:worker_threads';
import { sink, source } from './ends.mjs';
import { through } from './stages.mjs';

// The stages of each worker: as evenly as they can be.
function shares(count, words) {
  const found = Array.from({ length: count }, () => []);
  words.forEach((word, at) => found[Math.floor((at * count) / words.length)].push(word));
  return found;
}

async function main([count, ...words]) {
  let readable = source;
  for (const share of shares(Number(count), words)) {
    const back = new TransformStream();
    const worker = new Worker(new URL(import.meta.url), { workerData: share });
    worker.postMessage({ readable, writable: back.writable }, [readable, back.writable]);
    readable = back.readable;
  }
  await readable.pipeTo(sink);
}

if (isMainThread) {
  await main(process.argv.slice(2));
  process.exit();
}
parentPort.once('message', ({ readable, writable }) => through(readable, workerData).pipeTo(writable));
