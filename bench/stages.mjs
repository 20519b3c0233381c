// The stages of a pipeline, for Node's own Web Streams: a TransformStream with marks 1 and 0 for each. A stage is a word: lines,
// number, hex, fixed:n=SIZE, mask:key=HEX.

// Cuts after each line feed; what follows the last one waits.
function lines() {
  let rest = [];
  const whole = (last) => {
    const line = rest.length === 0 ? last : Buffer.concat([...rest, last]);
    rest = [];
    return line;
  };
  return {
    transform(chunk, controller) {
      let from = 0;
      for (let at = chunk.indexOf(10); at >= 0; at = chunk.indexOf(10, from)) {
        controller.enqueue(whole(chunk.subarray(from, at + 1)));
        from = at + 1;
      }
      if (from < chunk.length) rest.push(chunk.subarray(from));
    },
    flush(controller) {
      if (rest.length > 0) controller.enqueue(whole(Buffer.alloc(0)));
    },
  };
}

// Fills blocks of so many bytes; the last may be shorter.
function fixed(size) {
  let block = new Uint8Array(size);
  let filled = 0;
  return {
    transform(chunk, controller) {
      for (let from = 0; from < chunk.length; ) {
        const some = chunk.subarray(from, from + size - filled);
        block.set(some, filled);
        filled += some.length;
        from += some.length;
        if (filled === size) {
          controller.enqueue(block);
          block = new Uint8Array(size);
          filled = 0;
        }
      }
    },
    flush(controller) {
      if (filled > 0) controller.enqueue(block.subarray(0, filled));
    },
  };
}

function number() {
  let count = 0;
  return {
    transform(chunk, controller) {
      count += 1;
      controller.enqueue(Buffer.concat([Buffer.from(`${count} `, 'latin1'), chunk]));
    },
  };
}

function hex() {
  return {
    transform(chunk, controller) {
      const text = Buffer.from(chunk.buffer, chunk.byteOffset, chunk.length).toString('hex');
      controller.enqueue(Buffer.from(text, 'latin1'));
    },
  };
}

function mask(key) {
  let place = 0;
  return {
    transform(chunk, controller) {
      const masked = new Uint8Array(chunk.length);
      for (let at = 0; at < chunk.length; at += 1) {
        masked[at] = chunk[at] ^ key[place];
        place = place + 1 === key.length ? 0 : place + 1;
      }
      controller.enqueue(masked);
    },
  };
}

function stage(word) {
  const [kind, value] = word.split(/:\w+=/);
  if (kind === 'lines') return lines();
  if (kind === 'fixed') return fixed(Number(value));
  if (kind === 'number') return number();
  if (kind === 'hex') return hex();
  if (kind === 'mask') return mask(Buffer.from(value, 'hex'));
  throw new Error(`no such stage: ${word}`);
}

// What comes out of these stages for a stream.
export function through(readable, words) {
  for (const word of words) {
    readable = readable.pipeThrough(new TransformStream(stage(word), { highWaterMark: 1 }, { highWaterMark: 0 }));
  }
  return readable;
}
