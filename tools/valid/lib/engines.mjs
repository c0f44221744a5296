// The parsers of two engines: V8, by node, and JavaScriptCore, by its program `jsc`, where that is installed.
import { spawnSync } from 'node:child_process';
import fs from 'node:fs';
import os from 'node:os';
import path from 'node:path';
import { fileURLToPath } from 'node:url';

export const V8 = `V8 ${process.versions.v8}`;
export const hasJsc = spawnSync('jsc', ['-e', '']).status === 0;

/** What stands for an answer where V8 ends by a fault of its own. */
export const OWN_FAULT = 'it ends by a fault of its own';
const V8_WORDS = ['--no-warnings', '--experimental-vm-modules', fileURLToPath(new URL('v8.mjs', import.meta.url))];

/** Reads a list of programs, and prints for each null or its error. */
const DRIVER = `
for (const { isModule, text } of JSON.parse(readFile(arguments[0]))) {
  let error = null;
  try { (isModule ? checkModuleSyntax : checkScriptSyntax)(text); } catch (thrown) { error = String(thrown); }
  print(JSON.stringify(error));
}`;

/** For each program the early errors that the parsers tell, in words with the engine's name; an empty list where it is read by all. */
export function earlyErrors(programs) {
  const byV8 = errorsByV8(programs);
  const byJsc = hasJsc ? errorsByJsc(programs) : programs.map(() => null);
  return programs.map((_, index) => [
    ...(byV8[index] === null ? [] : [`V8: ${byV8[index]}`]), ...(byJsc[index] === null ? [] : [`JavaScriptCore: ${byJsc[index]}`]),
  ]);
}

/** Where V8 ends by a fault of its own, that is its answer, and the next process goes on behind that program. */
function errorsByV8(programs) {
  const answers = [];
  while (answers.length < programs.length) {
    const input = JSON.stringify(programs.slice(answers.length));
    const { signal, stdout, stderr } = spawnSync(process.execPath, V8_WORDS, { input, encoding: 'utf8', maxBuffer: Infinity });
    answers.push(...stdout.split('\n').filter(line => line !== '').map(line => JSON.parse(line)));
    if (signal !== null) answers.push(OWN_FAULT);
    else if (answers.length < programs.length) throw new Error(`node answered ${answers.length} of ${programs.length} programs: ${stderr.trim()}`);
  }
  return answers;
}

function errorsByJsc(programs) {
  const folder = fs.mkdtempSync(path.join(os.tmpdir(), 'valid-'));
  try {
    const [driver, texts] = [path.join(folder, 'driver.js'), path.join(folder, 'programs.json')];
    fs.writeFileSync(driver, DRIVER);
    fs.writeFileSync(texts, JSON.stringify(programs));
    const { status, stdout, stderr } = spawnSync('jsc', [driver, '--', texts], { encoding: 'utf8', maxBuffer: Infinity });
    const lines = stdout.split('\n').filter(line => line !== '');
    if (status !== 0 || lines.length !== programs.length) {
      throw new Error(`jsc answered ${lines.length} of ${programs.length} programs: ${stderr.trim()}`);
    }
    return lines.map(line => JSON.parse(line));
  } finally {
    fs.rmSync(folder, { recursive: true });
  }
}
