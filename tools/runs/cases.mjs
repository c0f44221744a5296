#!/usr/bin/env node
// Runs the JavaScript texts of each worked case, as it is and as it is lowered, by this engine under the same host: some
// lists of moves, made at random and the same each time. Both are to ask the same, to end alike and to leave the names of
// the source equal. A line for each case that differs, and one of counts. A source that this engine doesn't read is passed over.
//   cases.mjs [LISTS]     the number of lists for each case, 6 where absent
import fs from 'node:fs';
import { readCaseFile } from '../estree/lib/case-files.mjs';
import { addTo, compareRuns, namesOfModules, topNames } from './lib/alike.mjs';

const CASES = new URL('../../crates/cases/data/', import.meta.url);
const lists = Number(process.argv[2] ?? 6);
const counts = { cases: 0 };

for (const name of fs.readdirSync(CASES).filter(name => name.endsWith('.json')).sort()) {
  for (const item of readCaseFile(new URL(name, CASES)).cases) {
    if (item.source !== undefined && item.lowered !== undefined && !item.differs) await checkCase(name, item);
  }
}
const { cases, runs, questions, uncallable, unread, differing } = counts;
const alike = `${cases - unread} cases run alike by ${runs} lists of moves with ${questions} questions`;
console.log(`tools/runs: ${alike}, ${uncallable} lists call what isn't callable, ${unread} cases passed over that this engine doesn't read, ${differing} differ`);
process.exitCode = differing === 0 ? 0 : 1;

/** Who gives a lowered program its helpers: the global `babelHelpers`, or the host's `require`; those of a module are there anyway. */
function suppliedBy(lowered, words) {
  if (words.includes('--helpers=external')) return 'global';
  return lowered.includes('require("@oxc-project/runtime/helpers/') ? 'require' : undefined;
}

async function checkCase(file, { name, source, lowered, input, words = [] }) {
  counts.cases += 1;
  addTo(counts, await compareRuns(source, lowered, {
    lists,
    names: input ? topNames(input) : [],
    module: input?.sourceType === 'module',
    asksModules: input ? namesOfModules(input) : [],
    helpers: suppliedBy(lowered, words),
    hasAll: !words.includes('--no-document-all'),
    mayBeEndless: source.includes('for ('),
    tell: (list, left, right) => console.log(`${file}: ${name}, list ${list}: ${left}\n  and lowered: ${right}`),
  }));
}
