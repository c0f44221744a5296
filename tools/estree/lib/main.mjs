// What the programs of this folder share as commands.
import fs from 'node:fs';
import { fileURLToPath } from 'node:url';

/** Whether this module is the program that was started. */
export function isMain(url) {
  const [, started] = process.argv;
  return started !== undefined && fs.existsSync(started) && fs.realpathSync(started) === fileURLToPath(url);
}

/** Runs a program. An error is told in one line on standard error, and the status is then 1. Who reads the output may have enough of it, as head does. */
export function runMain(program) {
  process.stdout.on('error', error => { if (error.code !== 'EPIPE') throw error; });
  try {
    program();
  } catch (error) {
    process.stderr.write(`${error.message}\n`);
    process.exitCode = 1;
  }
}
