#!/usr/bin/env node
// Tells where a run in worked/ isn't that of the proofs: its JavaScript against the tree there, its moves, questions, end
// and cells. A line for each that differs, and one of counts. The parser of tools/estree is needed.
import fs from 'node:fs';
import { isDeepStrictEqual } from 'node:util';
import { hasParser } from '../estree/lib/parsers.mjs';
import { textDifference } from '../estree/lib/texts.mjs';
import { treeOf } from './lib/plain-tree.mjs';
import { statementsOf } from './lib/proofs.mjs';

const WORKED = new URL('worked/', import.meta.url);
const counts = { statements: 0, differing: 0 };

if (!hasParser) console.log('tools/runs: the transcription is passed over, neither acorn nor @babel/parser is installed');
else await checkAll();

async function checkAll() {
  for (const name of fs.readdirSync(WORKED).sort()) {
    const { default: { file, runs } } = await import(new URL(name, WORKED));
    const statements = statementsOf(file);
    for (const run of runs) for (const name of run.names) check(`${file}: ${name}`, run, () => statements(name));
  }
  console.log(`tools/runs: ${counts.statements} statements of the proofs are those of the worked runs, ${counts.differing} differ`);
  process.exitCode = counts.differing === 0 ? 0 : 1;
}

function check(place, run, statement) {
  counts.statements += 1;
  try {
    for (const difference of differences(run, statement())) tell(`${place}: ${difference}`);
  } catch (error) {
    tell(`${place}: it isn't read: ${error.message}`);
  }
}

function tell(line) {
  counts.differing += 1;
  console.log(line);
}

/** A statement says of one run what it asks, how it ends or what a name holds; that two runs ask or end the same; or all of two runs. */
function differences(run, [left, right]) {
  if (left.both) {
    return left.both.flatMap((program, index) => [
      programDifference(run, { program }, [run.programs.length === 1 ? 0 : index]),
      ...['moves', 'questions', 'outcome'].map(part => difference(part, run[part], left[part])),
    ]).filter(Boolean);
  }
  const runs = [left.run, ...right?.run ? [right.run] : []];
  const found = runs.flatMap(each => [
    programDifference(run, each, run.programs.keys()), difference('moves', run.moves, each.moves), supplyDifference(run, each),
  ]);
  if (!right?.run) found.push(claimDifference(run, left, right));
  return found.filter(Boolean);
}

function claimDifference(run, { of, name }, claimed) {
  if (of === 'cells') return difference(`cell of ${name}`, run.cells?.[name], claimed);
  return difference(of, run[of], claimed);
}

function supplyDifference({ helpers, module }, { helpers: supplied }) {
  if (supplied === undefined) return undefined;
  return difference('supply of helpers', module ? 'import' : helpers, supplied);
}

function difference(what, here, there) {
  return isDeepStrictEqual(written(here), written(there)) ? undefined : `${what}: ${JSON.stringify(here)} against ${JSON.stringify(there)}`;
}

/** Values as they stand in the proofs, whatever the engine takes in their place. */
function written(value) {
  if (Array.isArray(value)) return value.map(written);
  if (typeof value !== 'object' || value === null) return value;
  if (value.written) return written(value.written);
  const { stands, ...rest } = value;
  return Object.fromEntries(Object.entries(rest).map(([field, below]) => [field, written(below)]));
}

/** One of these texts has to be that of the program; names that are declared around it stand in front. */
function programDifference({ programs, module }, { program, around = [] }, indices) {
  const tree = { ...treeOf(program), sourceType: module ? 'module' : 'script' };
  if (around.length > 0) tree.body = [varsOf(around), ...tree.body];
  const found = [...indices].map(index => textDifference(programs[index], tree, { module }));
  return found.some(each => each === undefined) ? undefined : `program: ${found.join('; ')}`;
}

function varsOf(names) {
  const declarations = names.map(name => ({ type: 'VariableDeclarator', start: 0, end: 0, id: { type: 'Identifier', start: 0, end: 0, name }, init: null }));
  return { type: 'VariableDeclaration', start: 0, end: 0, kind: 'var', declarations };
}
