#!/usr/bin/env node
// Makes a case of JavaScript texts and writes it into a case file, in place of one with the same name.
//   add-case.mjs CASEFILE NAME WORDS.. --source JS --lowered JS [--module] [--spans] [--again] [--note LINE]..
//   add-case.mjs CASEFILE NAME WORDS.. --source JS --status N [--module] [--spans] --note LINE..
// A text may be @FILE. The file is made where it isn't there, with --about TEXT as its paragraph.
import fs from 'node:fs';
import { sparse } from './lib/form.mjs';
import { readCaseFile, writeCaseFile } from './lib/case-files.mjs';
import { isMain, runMain } from './lib/main.mjs';
import { loweredTextToTree, textToTree } from './lib/texts.mjs';

const FLAGS = ['--module', '--spans', '--again'];
const OPTIONS = ['--source', '--lowered', '--status', '--note', '--about'];

/** The case of these texts. The source of a case with a status may break static rules, as far as a parser passes them over. */
export function makeCase({ name, words, source, lowered, status, notes, module, spans, again }) {
  if (source === undefined || (lowered === undefined) === (status === undefined)) {
    throw new Error('wanted: --source JS, and one of --lowered JS and --status N');
  }
  if (spans && lowered !== undefined && lowered !== source) {
    throw new Error('the spans of a lowered tree can\'t be told from its text: write this case by hand');
  }
  const input = textToTree(source, { module, mayBeInvalid: status !== undefined, zero: !spans });
  const output = lowered === undefined ? undefined : lowered === source ? input : loweredTextToTree(lowered, { module });
  const fields = {
    name, words, module, spans, source, lowered, input: sparse(input), output: output && sparse(output),
    status: status && Number(status), notes: notes.length === 0 ? undefined : notes, again,
  };
  return Object.fromEntries(Object.entries(fields).filter(([, value]) => value !== undefined));
}

/** Puts a case into a file, in place of the one with its name or behind the others. */
export function addCase(path, made, about = '') {
  const file = fs.existsSync(path) ? readCaseFile(path) : { about, cases: [] };
  const index = file.cases.findIndex(({ name }) => name === made.name);
  file.cases.splice(index < 0 ? file.cases.length : index, index < 0 ? 0 : 1, made);
  writeCaseFile(path, { ...file, about: about || file.about });
}

function readArguments(args) {
  const given = { words: [], notes: [] };
  const positionals = [];
  const text = value => value?.startsWith('@') ? fs.readFileSync(value.slice(1), 'utf8') : value;
  for (let index = 0; index < args.length; index += 1) {
    const word = args[index];
    if (FLAGS.includes(word)) given[word.slice(2)] = true;
    else if (word === '--note') given.notes.push(args[++index]);
    else if (OPTIONS.includes(word)) given[word.slice(2)] = text(args[++index]);
    else if (positionals.length < 2) positionals.push(word);
    else given.words.push(word);
  }
  const [path, name] = positionals;
  return { path, name, ...given };
}

if (isMain(import.meta.url)) runMain(() => {
  const { path, about, ...given } = readArguments(process.argv.slice(2));
  if (given.name === undefined) throw new Error('wanted: CASEFILE NAME WORDS.. --source JS --lowered JS');
  addCase(path, makeCase(given), about);
});
