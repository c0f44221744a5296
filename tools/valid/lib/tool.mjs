// The tool over a list of trees: the built program, one process a tree, or unproved in one batch of `rt try`.
import { spawnSync } from 'node:child_process';
import fs from 'node:fs';
import os from 'node:os';
import path from 'node:path';
import { fileURLToPath } from 'node:url';

const TOP = fileURLToPath(new URL('../../../', import.meta.url));
const TOOL = path.join(TOP, 'crates/lower_tool/out/lower_tool');
const LOWERINGS = ['--nullish', '--chaining', '--logical', '--exponentiation', '--catch', '--namespace'];
const SPREAD = ['--rest-spread'];
const EXTERNAL = ['--helpers=external'];
const ARROWS = ['--arrows'];

/**
 * All lowerings that are built, but for those of object spreads and rests where a rest stands that isn't lowered, with helpers that are imported
 * for every third tree, and but for that of arrows for every second one, since many are refused with it.
 */
function wordsFor(tree) {
  return [...LOWERINGS, ...hasStrayRest(JSON.parse(tree)) ? [] : SPREAD, ...tree.length % 3 === 0 ? [] : EXTERNAL, ...tree.length % 2 === 0 ? [] : ARROWS];
}

/**
 * Whether an object pattern with a rest stands where none is lowered (docs/LOWERINGS.md, "Object rest"). Of one that may move out of a
 * parameter or the head of a loop the tool tells itself whether it does.
 */
function hasStrayRest(value) {
  if (typeof value !== 'object' || value === null) return false;
  if (Array.isArray(value)) return value.some(hasStrayRest);
  if (value.type === 'VariableDeclarator' && value.init && isPlainRest(value.id)) {
    return [...value.id.properties, value.init].some(hasStrayRest);
  }
  if (value.type === 'CatchClause' && value.param && isPlainRest(value.param)) return hasStrayRest([value.param.properties, value.body]);
  if (['ForInStatement', 'ForOfStatement'].includes(value.type) && value.left.declarations?.every(({ id }) => isPlainRest(id))) {
    return hasStrayRest([value.left.declarations.map(({ id }) => id.properties), value.right, value.body]);
  }
  if (value.params) {
    return hasStrayRest([value.params.map(withoutRest), value.body]);
  }
  if (isRestPattern(value)) return true;
  return Object.values(value).some(hasStrayRest);
}

/** A parameter, or what stands in its pattern with a rest. */
function withoutRest(parameter) {
  if (isPlainRest(parameter)) return parameter.properties;
  return parameter.type === 'AssignmentPattern' && isPlainRest(parameter.left) ? [parameter.left.properties, parameter.right] : parameter;
}

function isPlainRest(pattern) {
  return isRestPattern(pattern) && hasPlainKeys(pattern);
}

function isRestPattern({ type, properties }) {
  return type === 'ObjectPattern' && properties.some(property => property.type === 'RestElement');
}

function hasPlainKeys({ properties }) {
  return properties.every(({ type, computed, key }) => type === 'RestElement' || isLiteral(key) || (!computed && key.type === 'Identifier'));
}

function isLiteral({ type }) {
  return ['BigIntLiteral', 'NumericLiteral', 'StringLiteral'].includes(type);
}

/** Whether the tool is taken as its sources stand, before any proof. */
export const isUnproved = Boolean(process.env.LOWER_UNPROVED);

/**
 * Of each tree's text the tool's status, its standard output and its line of errors; `tool` is another program to take for it, and `words`
 * are those that each tree is lowered by, where they aren't all that suit it.
 */
export function lowerAll(trees, { tool, words }) {
  const wordsOf = tree => words ?? wordsFor(tree);
  if (tool !== undefined) return trees.map(tree => lowerBy(path.resolve(tool), wordsOf(tree), tree));
  if (isUnproved) return lowerUnproved(trees, wordsOf);
  const { status } = spawnSync(path.join(TOP, 'lower'), LOWERINGS, { input: trees[0], stdio: ['pipe', 'ignore', 'inherit'] });
  if (status === 70) throw new Error('the tool is not built');
  return trees.map(tree => lowerBy(TOOL, wordsOf(tree), tree));
}

function lowerBy(tool, words, input) {
  const { status, signal, error, stdout, stderr } = spawnSync(tool, words, { input, encoding: 'utf8', maxBuffer: Infinity });
  if (error && error.code !== 'EPIPE') throw new Error(`the tool ${tool} can't be started: ${error.message}`);
  return { status: status ?? signal, stdout: stdout.trim(), stderr: stderr.trim() };
}

/** The trees in a batch for each list of words. */
function lowerUnproved(trees, wordsOf) {
  const words = trees.map(wordsOf);
  const ran = new Array(trees.length);
  for (const key of new Set(words.map(String))) {
    const indices = trees.flatMap((_, index) => (String(words[index]) === key ? [index] : []));
    const batch = lowerBatch(indices.map(index => trees[index]), words[indices[0]]);
    batch.forEach((run, number) => { ran[indices[number]] = run; });
  }
  return ran;
}

/** `rt try --cases` builds the program once, and runs it once for each file of a folder. */
function lowerBatch(trees, lowerings) {
  const folder = fs.mkdtempSync(path.join(os.tmpdir(), 'valid-'));
  try {
    trees.forEach((tree, index) => fs.writeFileSync(path.join(folder, `case${index}`), tree));
    const words = ['-c', 'exec rt try --cases "$@" 2>&1', 'rt', folder, '--', ...lowerings];
    const { stdout } = spawnSync('bash', words, { cwd: path.join(TOP, 'crates/lower_tool'), encoding: 'utf8', maxBuffer: Infinity });
    const runs = casesOf(stdout);
    if (runs.size !== trees.length) throw new Error(`rt try ran ${runs.size} of ${trees.length} trees:\n${stdout.slice(-2000)}`);
    return trees.map((_, index) => runs.get(index));
  } finally {
    fs.rmSync(folder, { recursive: true });
  }
}

/** What was run, by the number of the case: its lines stand behind `== NAME`, up to the line that begins with `case=NAME`. */
function casesOf(text) {
  const runs = new Map();
  let lines = [];
  for (const line of text.split('\n')) {
    const [, ended, run, status] = line.match(/^case=case(\d+) run=(\S+)(?: .*?status=(\d+))?/) ?? [];
    if (/^== case\d+$/.test(line)) lines = [];
    else if (ended === undefined) lines.push(line);
    else {
      runs.set(Number(ended), {
        status: run === 'ended' ? Number(status) : line,
        stdout: lines.filter(said => said.startsWith('{')).join('\n'),
        stderr: lines.filter(said => !said.startsWith('{')).join('\n').trim(),
      });
      lines = [];
    }
  }
  return runs;
}
