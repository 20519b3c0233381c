// Performs `readable`, `bytes`, `writable`, `transform identity`, `reader`, `byob`, `writer`, `enqueue`, `finish`, `read`, `readinto`,
// `write`, `pipe` and `settle` lines on Node's own Web Streams, and prints them as `./streams script` does. Between two lines all jobs are performed.
import { readFileSync, writeSync } from 'node:fs';

const streams = [];
const locks = [];
const settles = [];
let printed = '';
let events = '';
let promises = 0;

const views = { 1: Uint8Array, 2: Uint16Array, 4: Uint32Array, 8: BigUint64Array };

const hexadecimal = (view) => Buffer.from(view.buffer, view.byteOffset, view.byteLength).toString('hex');
const show = (value) => (typeof value === 'number' ? `n${value}` : ArrayBuffer.isView(value) ? `x${hexadecimal(value)}` : 'undefined');
const given = ({ done, value }) => `${done ? 'finished' : 'given'} ${show(value)}`;
const parsed = (word) => (word[0] === 'x' ? Uint8Array.from(Buffer.from(word.slice(1), 'hex')) : numbered(word));
const jobs = () => new Promise((resolve) => setImmediate(resolve));
const numbered = (name) => Number(name.slice(1));

// A call of the host's: its promise is settled by its number.
function host(call) {
  events += `  host h${settles.length} ${call}\n`;
  return new Promise((resolve) => settles.push(resolve));
}

// The name of a promise, whose settling is told.
function named(promise, fulfilled) {
  const name = `p${promises++}`;
  promise.then((value) => {
    events += `  ${name} ${fulfilled(value)}\n`;
  });
  return `promise ${name}`;
}

function readable(name, highWaterMark, type) {
  const stream = {};
  stream.readable = new ReadableStream(
    {
      type,
      start(controller) {
        stream.controller = controller;
      },
      pull: () => host(`pull ${name}`),
    },
    { highWaterMark },
  );
  return stream;
}

function writable(name, highWaterMark) {
  const sink = { write: (chunk) => host(`write ${name} ${show(chunk)}`), close: () => host(`close ${name}`) };
  return { writable: new WritableStream(sink, { highWaterMark }) };
}

function perform([word, on, ...rest]) {
  switch (word) {
    case 'readable':
    case 'bytes':
    case 'writable': {
      const name = `s${streams.length}`;
      const type = word === 'bytes' ? word : undefined;
      streams.push(word === 'writable' ? writable(name, Number(on)) : readable(name, Number(on), type));
      return `made ${name}`;
    }
    case 'transform': {
      const [writableMark, readableMark] = rest.map(Number);
      const halves = new TransformStream({}, { highWaterMark: writableMark }, { highWaterMark: readableMark });
      streams.push({ writable: halves.writable }, { readable: halves.readable });
      return `made s${streams.length - 2} s${streams.length - 1}`;
    }
    case 'reader':
      locks.push(streams[numbered(on)].readable.getReader());
      return `lock l${locks.length - 1}`;
    case 'byob':
      locks.push(streams[numbered(on)].readable.getReader({ mode: 'byob' }));
      return `lock l${locks.length - 1}`;
    case 'writer':
      locks.push(streams[numbered(on)].writable.getWriter());
      return `lock l${locks.length - 1}`;
    case 'enqueue':
      streams[numbered(on)].controller.enqueue(parsed(rest[0]));
      return 'done';
    case 'finish':
      streams[numbered(on)].controller.close();
      return 'done';
    case 'read':
      return named(locks[numbered(on)].read(), given);
    case 'readinto': {
      const [length, element] = rest.map(Number);
      return named(locks[numbered(on)].read(new views[element](length / element)), given);
    }
    case 'write':
      return named(locks[numbered(on)].write(numbered(rest[0])), (value) => `fulfilled ${show(value)}`);
    case 'pipe': {
      const { writable } = streams[numbered(rest[0])];
      return named(streams[numbered(on)].readable.pipeTo(writable), (value) => `fulfilled ${show(value)}`);
    }
    case 'settle':
      settles[numbered(on)]();
      return 'done';
  }
}

let number = 0;
for (const line of readFileSync(0, 'utf8').split('\n')) {
  number += 1;
  if (line === '') continue;
  const reply = perform(line.split(' '));
  await jobs();
  printed += `${number} ${reply}\n${events}`;
  events = '';
}
for (let at = 0; at < printed.length; ) at += writeSync(1, printed.slice(at, at + 65536));
