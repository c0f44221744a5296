#!/usr/bin/env node
// Reads JavaScript files as trees, prints these and reads them again, and tells what each file is: its bytes and nodes, the
// bytes and the nesting of its tree, milliseconds to read and to print, and whether both readings give the same tree.
// A file of which some node has no form is told with that node's place. A file that isn't .mjs is read as a script, and as
// a module where it is no script. Status 1 where two trees differ.
//   round-trip.mjs FILE..
import fs from 'node:fs';
import path from 'node:path';
import { NoTree, canonicalText, nodes, read, withoutSpans } from './lib/form.mjs';
import { runMain } from './lib/main.mjs';
import { NotParsed } from './lib/parsers.mjs';
import { estreeDifference, firstDifference, textToTree } from './lib/texts.mjs';
import { print } from './print.mjs';

const COLUMNS = ['bytes', 'nodes', 'tree', 'depth', 'read', 'print'];
const UNITS = 'bytes of text, nodes, bytes of the tree, its nesting, ms to read, ms to print:';

runMain(() => {
  const files = process.argv.slice(2);
  if (files.length === 0) throw new Error('wanted: FILE..');
  const names = shortNames(files);
  console.log(UNITS);
  const told = files.map((file, index) => tell(names[index], carried(file)));
  const carriedFiles = told.filter(({ figures }) => figures);
  const differing = told.filter(({ differs }) => differs).length;
  const sum = column => carriedFiles.reduce((total, { figures }) => total + figures[column], 0);
  const sums = Object.fromEntries(COLUMNS.map(column => [column, sum(column)]));
  sums.depth = Math.max(0, ...carriedFiles.map(({ figures }) => figures.depth));
  console.log(line('all', sums));
  console.log(`${carriedFiles.length} files of ${files.length} have a form, ${differing} differ`);
  process.exitCode = differing === 0 ? 0 : 1;
});

/** The figures of a file and where its readings part, or why it has no tree. */
function carried(file) {
  const text = fs.readFileSync(file, 'utf8');
  const began = performance.now();
  let tree;
  let module;
  try {
    ({ tree, module } = readText(text, file.endsWith('.mjs')));
  } catch (error) {
    if (error instanceof NoTree || error instanceof NotParsed) return { refusal: error.message };
    throw error;
  }
  const hasRead = performance.now();
  const printed = print(tree);
  const hasPrinted = performance.now();
  const treeText = canonicalText(tree);
  const figures = {
    bytes: Buffer.byteLength(text), nodes: nodes(tree).length, tree: Buffer.byteLength(treeText), depth: depth(tree),
    read: Math.round(hasRead - began), print: Math.round(hasPrinted - hasRead),
  };
  return { figures, difference: difference(tree, treeText, printed, module) };
}

/** Where the tree of the printed text, of the ESTree or of the written form isn't the tree, if one isn't. */
function difference(tree, treeText, printed, module) {
  const parts = [
    ['printed', () => firstDifference(textToTree(printed, { module, zero: true }), withoutSpans(tree))],
    ['printed twice', () => print(textToTree(printed, { module })) === printed ? undefined : 'another text'],
    ['as ESTree', () => estreeDifference(tree)],
    ['as JSON', () => firstDifference(read(JSON.parse(treeText)), tree)],
  ];
  for (const [name, part] of parts) {
    const found = part();
    if (found !== undefined) return `${name}: ${found}`;
  }
  return undefined;
}

/** The tree of a text, and whether it is read as a module. Where it is neither, the refusal of the script counts. */
function readText(text, isModule) {
  if (isModule) return { tree: textToTree(text, { module: true }), module: true };
  try {
    return { tree: textToTree(text), module: false };
  } catch (error) {
    if (!(error instanceof NotParsed)) throw error;
    try {
      return readText(text, true);
    } catch (second) {
      throw second instanceof NoTree ? second : error;
    }
  }
}

function tell(name, { figures, difference, refusal }) {
  if (refusal !== undefined) console.log(`${name}: no form, ${refusal}`);
  else console.log(`${line(name, figures)}${difference === undefined ? '  the same' : `  DIFFERS, ${difference}`}`);
  return { figures, differs: difference !== undefined };
}

function line(name, figures) {
  return [name.padEnd(40), ...COLUMNS.map(column => String(figures[column]).padStart(9))].join(' ');
}

/** How deep arrays and objects nest. */
function depth(value) {
  if (typeof value !== 'object' || value === null) return 0;
  let deepest = 0;
  for (const below of Object.values(value)) deepest = Math.max(deepest, depth(below));
  return deepest + 1;
}

/** The paths without the folders that all of them share. */
function shortNames(files) {
  const split = files.map(file => path.resolve(file).split(path.sep));
  const [first] = split;
  let shared = 0;
  while (shared < first.length - 1 && split.every(parts => parts.length - 1 > shared && parts[shared] === first[shared])) shared += 1;
  return split.map(parts => parts.slice(shared).join('/'));
}
