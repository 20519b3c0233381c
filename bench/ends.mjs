// The two ends of a run through Node's own Web Streams: a ReadableStream with mark 0 over standard input, which reads at most
// 4,096 bytes a pull, and a WritableStream with mark 1 over standard output, which writes each chunk whole.
import { readSync, writeSync } from 'node:fs';

export const source = new ReadableStream(
  {
    pull(controller) {
      const room = new Uint8Array(4096);
      const count = readSync(0, room, 0, room.length, null);
      if (count === 0) controller.close();
      else controller.enqueue(room.subarray(0, count));
    },
  },
  { highWaterMark: 0 },
);

export const sink = new WritableStream(
  {
    write(chunk) {
      for (let at = 0; at < chunk.length; ) at += writeSync(1, chunk, at, chunk.length - at);
    },
  },
  { highWaterMark: 1 },
);
