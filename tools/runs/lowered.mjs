#!/usr/bin/env node
// Runs programs of statements before and after the tool lowered them, with all lowerings that are built, by this engine under the same host:
// the lines of programs.js, each by itself and in statements around it, and the texts of the worked cases. Both are to ask the same, to end
// alike and to leave the names of the source's top equal. A line for each that differs, and one of counts; what this engine doesn't read is
// passed over. The built tool and the parser of tools/estree are needed.
//   lowered.mjs [--lists N] [--tool PROGRAM]     the number of lists for each program, 6 where absent
import fs from 'node:fs';
import { fileURLToPath } from 'node:url';
import { parseArgs } from 'node:util';
import { readCaseFile } from '../estree/lib/case-files.mjs';
import { canonicalText, read } from '../estree/lib/form.mjs';
import { hasParser } from '../estree/lib/parsers.mjs';
import { print } from '../estree/print.mjs';
import { textToTree } from '../estree/lib/texts.mjs';
import { lowerAll } from '../valid/lib/tool.mjs';
import { addTo, compareRuns, topNames } from './lib/alike.mjs';
import { isMeant } from './lib/machine.mjs';

const CASES = new URL('../../crates/cases/data/', import.meta.url);
const TOOL = fileURLToPath(new URL('../../crates/lower_tool/out/lower_tool', import.meta.url));
const AROUND = [
  text => text,
  text => `switch (t0) { case t1: t2; default: try { ${text} } finally { t3; } }`,
  text => `t4: for (;;) { let t5 = t6; if (t5?.t7) { ${text} } t8 ||= t5.t9 ** 2; break t4; }`,
];
const { values } = parseArgs({ options: { lists: { type: 'string', default: '6' }, tool: { type: 'string', default: TOOL } } });
const counts = { programs: 0, refused: 0 };

if (!hasParser) console.log('tools/runs: lowered programs are passed over, neither acorn nor @babel/parser is installed');
else if (!fs.existsSync(values.tool)) console.log('tools/runs: lowered programs are passed over, the tool is not built');
else await checkAll();

async function checkAll() {
  const texts = [...new Set([...lineTexts(), ...caseTexts()])];
  const trees = texts.map(text => treeOf(text));
  const taken = texts.flatMap((text, index) => trees[index] && isMeant(trees[index]) ? [{ text, tree: trees[index] }] : []);
  const lowered = lowerAll(taken.map(({ tree }) => canonicalText(tree)), { tool: values.tool });
  for (const [index, program] of taken.entries()) await check(program, lowered[index]);
  const { programs, refused, runs, questions, uncallable, outside, endless, unread, differing } = counts;
  const alike = `${programs - unread} programs run alike as they are lowered, by ${runs} lists of moves with ${questions} questions`;
  const passed = `${uncallable} lists call what isn't callable, ${outside} read or write what isn't set, or write a constant, ${endless} have no end, ${unread} programs aren't read by this engine`;
  console.log(`tools/runs: ${alike}, ${passed}, ${refused} programs are refused, ${differing} differ`);
  process.exitCode = differing === 0 ? 0 : 1;
}

function lineTexts() {
  const lines = fs.readFileSync(new URL('programs.js', import.meta.url), 'utf8').split('\n').filter(text => text !== '' && !text.startsWith('//'));
  return lines.flatMap(text => AROUND.map(around => around(text)));
}

/** The texts of scripts before lowering. */
function caseTexts() {
  const files = fs.readdirSync(CASES).filter(name => name.endsWith('.json')).sort();
  return files.flatMap(name => readCaseFile(new URL(name, CASES)).cases)
    .filter(({ source, lowered, input, differs }) => source && lowered && input?.sourceType !== 'module' && !differs).map(({ source }) => source);
}

/** Its tree, or nothing where it is no program: a name may be declared twice with what stands around it. */
function treeOf(text) {
  try {
    return textToTree(text, { zero: true });
  } catch {
    return undefined;
  }
}

async function check({ text, tree }, { status, stdout }) {
  if (status !== 0) {
    counts.refused += 1;
    return;
  }
  counts.programs += 1;
  const after = print(read(JSON.parse(stdout)));
  addTo(counts, await compareRuns(text, after, {
    lists: Number(values.lists),
    names: topNames(tree),
    helpers: after.includes('require("@oxc-project/runtime/helpers/') ? 'require' : 'global',
    hasAll: true,
    mayBeEndless: true,
    isOutside: ({ is, name, message }) => is === 'error' && (name === 'ReferenceError' || /constant variable/.test(message)),
    tell: (list, left, right) => console.log(`${text}, list ${list}: ${left}\n  lowered, ${after.replaceAll('\n', ' ')}: ${right}`),
  }));
}
