#!/usr/bin/env node
// Lowers the JavaScript files of a folder with all nine flags, and tells what becomes of them: a line for each cause of which files are passed
// over, and one of counts. What is lowered has to be read by node, to be the text of the tree that the tool wrote, and to stay as it is when
// it is lowered again. With --into the folder is copied, with each file that was lowered in the place of its source. Helpers are properties of
// `babelHelpers`, or with --imported each file imports or requires its own.
//   folder.mjs FOLDER [--imported] [--into FOLDER] [--tool PROGRAM]
import fs from 'node:fs';
import path from 'node:path';
import vm from 'node:vm';
import { parseArgs } from 'node:util';
import { NoTree, canonicalText, read } from '../estree/lib/form.mjs';
import { NotParsed, hasParser } from '../estree/lib/parsers.mjs';
import { printedDifference, splitHashbang, textToTree } from '../estree/lib/texts.mjs';
import { print } from '../estree/print.mjs';
import { lowerAll } from './lib/tool.mjs';

const { values, positionals } = parseArgs({
  options: { imported: { type: 'boolean' }, into: { type: 'string' }, tool: { type: 'string' } }, allowPositionals: true,
});
const WORDS = ['--all', ...values.imported ? [] : ['--helpers=external']];
const causes = new Map();
const counts = { files: 0, bytes: 0, lowered: 0, changed: 0, failed: 0 };

if (positionals.length !== 1) throw new Error('wanted: FOLDER [--imported] [--into FOLDER] [--tool PROGRAM]');
else if (hasParser) main(positionals[0]);
else console.log('tools/valid: passed over, no parser for trees is installed (Debian: node-acorn)');

function main(folder) {
  const sources = filesBelow(folder).map(file => source(folder, file));
  counts.files = sources.length;
  for (const { text } of sources) counts.bytes += text.length;
  const withTrees = sources.filter(addTree);
  const ran = lowerAll(withTrees.map(({ tree }) => tree), { tool: values.tool, words: WORDS });
  const lowered = withTrees.filter((file, index) => addLowered(file, ran[index]));
  const again = lowerAll(lowered.map(({ written }) => written), { tool: values.tool, words: WORDS });
  for (const [index, file] of lowered.entries()) check(file, again[index]);
  if (values.into !== undefined) copy(folder, values.into, lowered);
  for (const [cause, count] of [...causes].sort(([, left], [, right]) => right - left)) console.log(`tools/valid: passed over, ${count}: ${cause}`);
  const { files, bytes, changed, failed } = counts;
  console.log(`tools/valid: ${files} files with ${bytes} characters, ${lowered.length} lowered, ${changed} of them changed, ${failed} failed`);
  process.exitCode = failed === 0 ? 0 : 1;
}

function filesBelow(folder) {
  const found = fs.readdirSync(folder, { recursive: true }).filter(file => /\.[cm]?js$/.test(file));
  return found.filter(file => fs.statSync(path.join(folder, file)).isFile()).sort();
}

function source(folder, file) {
  const { hashbang, text } = splitHashbang(fs.readFileSync(path.join(folder, file), 'utf8'));
  return { file, hashbang, text, isModule: isModule(folder, file) };
}

/** As node tells it: by the file's ending, or by the nearest package.json. */
function isModule(folder, file) {
  if (!file.endsWith('.js')) return file.endsWith('.mjs');
  for (let around = path.dirname(file); ; around = path.dirname(around)) {
    const told = path.join(folder, around, 'package.json');
    if (fs.existsSync(told)) return JSON.parse(fs.readFileSync(told, 'utf8')).type === 'module';
    if (around === '.') return false;
  }
}

/** Adds a file's tree; without one it is counted. A hashbang line is no part of it. */
function addTree(file) {
  try {
    file.tree = canonicalText(textToTree(file.text, { module: file.isModule }));
    return true;
  } catch (error) {
    if (error instanceof NoTree) passOver(error.message.replace(/^\d+:\d+: \w+: /, ''));
    else if (error instanceof NotParsed) passOver(`acorn, which makes the tree: ${error.message.replace(/^\d+:\d+: /, '')}`);
    else fails(file, String(error.stack));
    return false;
  }
}

/** Adds what the tool makes of a file; where it refuses it, the cause is counted. */
function addLowered(file, { status, stdout, stderr }) {
  const [refusal] = stderr.match(/^lower: (unsupported|invalid|too) ?\w*/) ?? [];
  if (status === 0 && stderr === '') {
    file.written = stdout;
    if (stdout !== file.tree) counts.changed += 1;
    return true;
  }
  if (status === 1 && refusal) passOver(refusal);
  else if (status === 1 && stderr === 'lower: json') passOver(stderr);
  else fails(file, `the tool ends with ${status}: ${stderr}`);
  return false;
}

/** A lowered file is read by node as a program, is the text of the tree that was written, and isn't lowered further. */
function check(file, { status, stdout }) {
  const tree = read(JSON.parse(file.written));
  file.output = print(tree);
  const difference = printedDifference(file.output, tree, { module: file.isModule });
  if (difference) fails(file, `it is read back as another tree: ${difference}`);
  if (status !== 0 || stdout !== file.written) fails(file, `lowered again it ends with ${status}, or changes`);
  if (file.isModule) return;
  try {
    // a file of CommonJS is the body of a function
    vm.compileFunction(file.output, ['exports', 'require', 'module', '__filename', '__dirname']);
  } catch (error) {
    fails(file, String(error));
  }
}

function copy(from, to, lowered) {
  fs.cpSync(from, to, { recursive: true });
  for (const { file, hashbang, output } of lowered) fs.writeFileSync(path.join(to, file), (hashbang && `${hashbang}\n`) + output);
}

function passOver(cause) {
  causes.set(cause, (causes.get(cause) ?? 0) + 1);
}

function fails({ file }, cause) {
  counts.failed += 1;
  console.log(`${file}: ${cause}`);
}
