#!/usr/bin/env node
// Carries every example and every worked case from its JavaScript text to the stored tree, and every stored tree
// to text that is read back as the same tree; the samples of this folder too, which have every kind of node.
// A line for each that differs, and one line of counts.
//   check.mjs [CASEFILE..]
import fs from 'node:fs';
import { fileURLToPath } from 'node:url';
import { caseFileText, readCaseFile } from './lib/case-files.mjs';
import { mapChildren, read, withoutSpans } from './lib/form.mjs';
import { runMain } from './lib/main.mjs';
import { NotParsed, hasBabel, hasParser } from './lib/parsers.mjs';
import { kinds } from './lib/table.mjs';
import { estreeDifference, neededDifference, printedDifference, textDifference, textToTree } from './lib/texts.mjs';
import { print } from './print.mjs';

const EXAMPLES = fileURLToPath(new URL('../../examples/', import.meta.url));
const SAMPLES = fileURLToPath(new URL('samples/', import.meta.url));
const CASES = fileURLToPath(new URL('../../crates/cases/data/', import.meta.url));
const counts = { texts: 0, trees: 0, differing: 0, passedOver: 0 };

runMain(() => {
  if (!hasParser) {
    console.log('tools/estree: passed over, neither acorn nor @babel/parser is installed');
    return;
  }
  const caseFiles = process.argv.slice(2);
  if (caseFiles.length === 0) {
    checkSamples();
    checkExamples();
  }
  for (const path of caseFiles.length > 0 ? caseFiles : jsonFiles(CASES)) checkCases(path);
  const unread = counts.passedOver === 0 ? '' : `; ${counts.passedOver} passed over, which only @babel/parser reads`;
  const read = `${counts.texts} texts read as the stored trees, ${counts.trees} trees printed and read back`;
  console.log(`tools/estree: ${read}, ${counts.differing} differ${unread}`);
  process.exitCode = counts.differing === 0 ? 0 : 1;
});

/** A tree, its text, and beside them the lowered tree and its text; without these the program is refused. */
function checkExamples() {
  for (const path of jsonFiles(EXAMPLES).filter(path => !path.endsWith('.lowered.json'))) {
    const base = path.slice(0, -'.json'.length);
    const lowered = `${base}.lowered.json`;
    checkText(path, readText(`${base}.js`), readJson(path), { mayBeInvalid: !fs.existsSync(lowered) });
    if (fs.existsSync(lowered)) checkText(lowered, readText(`${base}.lowered.js`), readJson(lowered), { isLowered: true });
  }
}

/**
 * Cases whose input or output no text has are without `source` or `lowered`. What comes out of a deliberately wrong
 * case, one with `differs`, is passed over.
 */
function checkCases(path) {
  const file = readCaseFile(path);
  tell(path, () => caseFileText(file) === readText(path) ? undefined : 'is not laid out as add-case.mjs writes it, or has a field twice');
  const names = file.cases.map(({ name }) => name);
  tell(path, () => new Set(names).size === names.length ? undefined : 'has two cases of one name');
  for (const { name, source, input, lowered, output, differs } of file.cases) {
    const place = `${path}: ${name}`;
    if (source !== undefined && input) checkText(`${place}, source`, source, input, { mayBeInvalid: output === undefined });
    if (lowered !== undefined && output && !differs) checkText(`${place}, lowered`, lowered, output, { isLowered: true });
  }
}

/** The samples have all kinds of nodes, just the parentheses that are needed, and a refusal behind each text. */
function checkSamples() {
  const missing = new Set(kinds);
  for (const name of ['script.js', 'module.mjs', 'parentheses.js']) {
    const options = { module: name.endsWith('.mjs') };
    tell(SAMPLES + name, () => {
      const tree = textToTree(readText(SAMPLES + name), options);
      checkTree(SAMPLES + name, tree, options);
      removeKinds(tree, 'Program', missing);
    });
  }
  tell(SAMPLES, () => missing.size === 0 || !hasBabel ? undefined : `there is no ${[...missing].join(', ')}`);
  tell(`${SAMPLES}parentheses.js`, () => neededDifference(readText(`${SAMPLES}parentheses.js`)));
  for (const line of readText(`${SAMPLES}refused.js`).trim().split('\n')) {
    const [text, refusal] = line.split(' // ');
    tell(`${SAMPLES}refused.js: ${text}`, () => refusalDifference(text, refusal));
  }
}

function removeKinds(node, kind, missing) {
  missing.delete(kind);
  mapChildren(node, kind, (child, childKind) => removeKinds(child, childKind, missing));
}

function refusalDifference(text, refusal) {
  try {
    textToTree(text);
    return 'it is not refused';
  } catch ({ message }) {
    return message === refusal ? undefined : message;
  }
}

/** A text and a tree, one from the other. A lowered tree has spans of the source, which are left out here. */
function checkText(name, text, value, { isLowered = false, mayBeInvalid = false }) {
  counts.texts += 1;
  tell(name, () => {
    const tree = isLowered ? withoutSpans(read(value)) : read(value);
    const options = { module: tree.sourceType === 'module', mayBeInvalid };
    checkTree(name, tree, options);
    return textDifference(text, tree, options);
  });
}

function checkTree(name, tree, options) {
  counts.trees += 1;
  tell(`${name}, printed`, () => printedDifference(print(tree), tree, options));
  tell(`${name}, as ESTree`, () => estreeDifference(tree));
}

/** Prints a line where a check finds a difference, or can't be made. */
function tell(name, check) {
  try {
    const difference = check();
    if (difference === undefined) return;
    console.log(`${name}: ${difference}`);
  } catch (error) {
    if (error instanceof NotParsed && !hasBabel) {
      counts.passedOver += 1;
      return;
    }
    console.log(`${name}: ${error.message}`);
  }
  counts.differing += 1;
}

function readText(path) {
  return fs.readFileSync(path, 'utf8');
}

function readJson(path) {
  return JSON.parse(readText(path));
}

function jsonFiles(folder) {
  return fs.readdirSync(folder).filter(name => name.endsWith('.json')).map(name => folder + name);
}
