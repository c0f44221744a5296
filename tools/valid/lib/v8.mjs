// Reads a list of programs from standard input, and writes for each a line: null, or the early error that V8's parser tells. It is a
// process of its own, since V8 also compiles what it parses, and ends at its own faults.
import fs from 'node:fs';
import vm from 'node:vm';

for (const program of JSON.parse(fs.readFileSync(0, 'utf8'))) fs.writeSync(1, `${JSON.stringify(earlyError(program))}\n`);

/** Nothing of a script or module is linked or run. */
function earlyError({ isModule, text }) {
  try {
    if (isModule) new vm.SourceTextModule(text);
    else new vm.Script(text);
    return null;
  } catch (error) {
    if (error?.name !== 'SyntaxError') throw error;
    return String(error);
  }
}
