#!/usr/bin/env node
// Lowers random programs with all lowerings that are built, and holds what comes out against two engines' parsers: a program that they
// read must be one that they read when it is lowered. A line for each program that isn't, and lines of counts.
//   valid.mjs [--seed N] [--count N] [--tool PROGRAM]     programs of the seeds from N on, until so many are read by both parsers
import { parseArgs } from 'node:util';
import { NoTree, canonicalText, nodes, read } from '../estree/lib/form.mjs';
import { NotParsed, hasParser } from '../estree/lib/parsers.mjs';
import { printedDifference, textToTree, withoutParentheses } from '../estree/lib/texts.mjs';
import { print } from '../estree/print.mjs';
import { V8, earlyErrors, hasJsc } from './lib/engines.mjs';
import { isStatedAsStricter, knownFault } from './lib/known.mjs';
import { isUnproved, lowerAll } from './lib/tool.mjs';
import { programOf } from './programs.mjs';

const BATCH = 500;
/** The most that a JSON text nests (docs/COMMAND.md). */
const MOST_NESTING = 127;
const { values } = parseArgs({
  options: { seed: { type: 'string', default: '1' }, count: { type: 'string', default: '1000' }, tool: { type: 'string' } },
});
const counts = { made: 0, thrownAway: 0, accepted: 0, lowered: 0, changed: 0, failed: 0 };
const causes = new Map();

if (hasParser) main();
else console.log('tools/valid: passed over, no parser for trees is installed (Debian: node-acorn)');

function main() {
  if (!hasJsc) console.log('tools/valid: the second parser is left out, jsc isn\'t installed (Debian: libjavascriptcoregtk-4.0-bin)');
  const programs = acceptedPrograms(Number(values.seed), Number(values.count));
  const withTrees = programs.filter(addTree);
  const ran = lowerAll(withTrees.map(({ tree }) => canonicalText(tree)), { tool: values.tool });
  const lowered = withTrees.filter((program, index) => addLowered(program, ran[index]));
  compareTexts(lowered);
  const { made, thrownAway, accepted, changed, failed } = counts;
  const readers = hasJsc ? `${V8} and JavaScriptCore read` : `${V8} reads`;
  const last = Number(values.seed) + made - 1;
  console.log(`tools/valid: seeds ${values.seed} to ${last}, ${accepted} programs that ${readers}, ${thrownAway} thrown away`);
  for (const [cause, count] of [...causes].sort(([, left], [, right]) => right - left)) console.log(`tools/valid: passed over, ${count}: ${cause}`);
  console.log(`tools/valid: ${counts.lowered} lowered, ${changed} of them changed${isUnproved && values.tool === undefined ? ' (by the tool unproved)' : ''}, ${failed} failed`);
  process.exitCode = failed === 0 ? 0 : 1;
}

/** Programs from a seed on, without those that a parser refuses. */
function acceptedPrograms(seed, wanted) {
  const accepted = [];
  for (let from = seed; accepted.length < wanted; from += BATCH) {
    const batch = Array.from({ length: BATCH }, (_, index) => ({ seed: from + index, ...programOf(from + index) }));
    const errors = earlyErrors(batch);
    for (const [index, program] of batch.entries()) {
      if (accepted.length === wanted) break;
      counts.made += 1;
      if (errors[index].length === 0) accepted.push(program);
      else counts.thrownAway += 1;
    }
  }
  counts.accepted = accepted.length;
  return accepted;
}

/** Adds a program's tree, of odd seeds without nodes for parentheses; without a tree it is counted. */
function addTree(program) {
  try {
    const tree = textToTree(program.text, { module: program.isModule });
    program.tree = program.seed % 2 === 1 ? withoutParentheses(tree, () => true) : tree;
    return true;
  } catch (error) {
    if (error instanceof NoTree) passOver(error.message.replace(/^\d+:\d+: \w+: /, ''));
    else if (error instanceof NotParsed) passOver(`acorn, which makes the tree: ${error.message.replace(/^\d+:\d+: /, '')}`);
    else fails(program, String(error.stack));
    return false;
  }
}

/** Adds what the tool makes of a program; where it refuses it, the cause is counted, or the program fails. */
function addLowered(program, { status, stdout, stderr }) {
  const [, rule, node] = stderr.match(/^lower: invalid (\w+) at node (\d+)$/) ?? [];
  const [unsupported] = stderr.match(/^lower: unsupported \w+/) ?? [];
  if (status === 0 && stderr === '') return addTreeOf(program, stdout);
  const isStricter = rule && isStatedAsStricter(rule, Number(node), program.tree);
  const isTooDeep = stderr === 'lower: json' && nesting(program.tree) > MOST_NESTING;
  if (status === 1 && unsupported) passOver(unsupported);
  else if (status === 1 && isStricter) passOver(`lower: invalid ${rule}, where the tool is stricter by docs/STATIC_RULES.md`);
  else if (status === 1 && isTooDeep) passOver(`lower: json, nested deeper than ${MOST_NESTING}`);
  else fails(program, `the tool ends with ${status}: ${stderr}${node ? ` (${nodes(program.tree)[Number(node)].type})` : ''}`);
  return false;
}

/** Adds the tree that the tool wrote; what is no tree fails. */
function addTreeOf(program, stdout) {
  try {
    program.lowered = read(JSON.parse(stdout));
  } catch (error) {
    fails(program, `the tool writes what is no tree: ${error.message}`);
    return false;
  }
  counts.lowered += 1;
  if (stdout !== canonicalText(program.tree)) counts.changed += 1;
  return true;
}

function nesting(value) {
  if (typeof value !== 'object' || value === null) return 0;
  return 1 + Math.max(0, ...Object.values(value).map(nesting));
}

/** Lowered programs are read by both parsers as the trees that the tool wrote. */
function compareTexts(programs) {
  for (const program of programs) program.output = print(program.lowered);
  const errors = earlyErrors(programs.map(({ isModule, output }) => ({ isModule, text: output })));
  for (const [index, program] of programs.entries()) {
    const { isModule, output, lowered } = program;
    const known = knownFault(errors[index], lowered, output);
    if (known) passOver(`lowered to a text that one engine refuses and the other reads: ${known}`);
    if (errors[index].length > 0 && !known) fails(program, errors[index].join('; '), output);
    else checkPrinted(program, output, lowered, isModule);
  }
}

function checkPrinted(program, output, lowered, isModule) {
  let difference;
  try {
    difference = printedDifference(output, lowered, { module: isModule });
  } catch (error) {
    difference = error.message;
  }
  if (difference) fails(program, `the printed text isn't the tree: ${difference}`, output);
}

function passOver(cause) { causes.set(cause, (causes.get(cause) ?? 0) + 1); }

function fails({ seed, isModule, text }, why, output) {
  counts.failed += 1;
  const lowered = output === undefined ? '' : `  lowered:\n${indented(output)}`;
  console.log(`seed ${seed}, a ${isModule ? 'module' : 'script'}: ${why}\n  source:\n${indented(text)}${lowered}`);
}

function indented(text) { return text.replace(/^(?=.)/gm, '    ').replace(/\n*$/, '\n'); }
