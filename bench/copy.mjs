// Copies standard input to standard output through Node's own Web Streams.
import { sink, source } from './ends.mjs';

await source.pipeTo(sink);
