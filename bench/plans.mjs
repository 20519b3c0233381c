// Runs stages over standard input to standard output through Node's own Web Streams, in one thread. The words are the stages,
// as stages.mjs has them.
import { sink, source } from './ends.mjs';
import { through } from './stages.mjs';

await through(source, process.argv.slice(2)).pipeTo(sink);
