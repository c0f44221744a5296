#!/usr/bin/env node
// Runs programs by the machine, as its definitions stand, and by this engine under an instrumented host, on moves made at
// random as the machine asks, and compares. The programs are the lines of programs.js and the texts of the worked cases.
// A line for each that differs, and one of counts; what this engine doesn't read is passed over. The parser of tools/estree is needed.
//   machine.mjs [LISTS [LINE]]     the number of lists for each program, 5 where absent; one program alone, by its line
import fs from 'node:fs';
import { isDeepStrictEqual } from 'node:util';
import { readCaseFile } from '../estree/lib/case-files.mjs';
import { hasParser } from '../estree/lib/parsers.mjs';
import { textToTree } from '../estree/lib/texts.mjs';
import { differences } from './lib/compare.mjs';
import { runProgram } from './lib/engine.mjs';
import { isMeant, playMachine, runMachine } from './lib/machine.mjs';
import { GivenUp, Mover } from './lib/moves.mjs';
import { questionText } from './lib/notation.mjs';

const CASES = new URL('../../crates/cases/data/', import.meta.url);
const LENGTH = 30;
const [lists = 5, line] = process.argv.slice(2).map(Number);
const counts = { programs: 0, runs: 0, questions: 0, givenUp: 0, meaningless: 0, unread: 0, known: 0, differing: 0 };

if (!hasParser) console.log('tools/runs: the machine is passed over, neither acorn nor @babel/parser is installed');
else await checkAll();

async function checkAll() {
  const written = fs.readFileSync(new URL('programs.js', import.meta.url), 'utf8').split('\n');
  const isProgram = ([text, number]) => text !== '' && !text.startsWith('//') && (!line || number === line);
  const lines = written.map((text, index) => [text, index + 1]).filter(isProgram);
  for (const [text, number] of lines) await check(`programs.js:${number}`, text);
  if (!line) for (const text of new Set(caseTexts())) await check('a case', text);
  const { programs, runs, questions, givenUp, meaningless, unread, known, differing } = counts;
  const alike = `${programs - unread} programs run alike by machine and engine, by ${runs} lists of moves with ${questions} questions`;
  const passed = `${givenUp} lists given up, ${meaningless} programs have nodes that the machine gives no meaning, ${unread} aren't read by this engine`;
  console.log(`tools/runs: ${alike}, ${passed}, ${known} differ as is known, ${differing} differ`);
  process.exitCode = differing === 0 ? 0 : 1;
}

/** The texts of scripts before and after lowering. */
function caseTexts() {
  const files = fs.readdirSync(CASES).filter(name => name.endsWith('.json')).sort();
  const unlike = /\b(?:this|eval|undefined|call|bind|length)\b|\d+n\b|\[\//; // what the engine knows by itself, BigInts, and objects as keys
  return files.flatMap(name => readCaseFile(new URL(name, CASES)).cases)
    .filter(({ source, lowered, input }) => source && lowered && input?.sourceType !== 'module' && !unlike.test(source))
    .flatMap(({ source, lowered }) => [source, lowered]);
}

async function check(place, text) {
  const tree = textToTree(text);
  if (!isMeant(tree)) {
    counts.meaningless += 1;
    return;
  }
  counts.programs += 1;
  const before = counts.runs;
  for (let list = 1; list <= lists; list += 1) {
    const run = playedRun(tree, list, { catches: /\btry\b/.test(text) });
    if (run === undefined) {
      counts.givenUp += 1;
      continue;
    }
    const ran = await runProgram(text, run);
    if (ran.is === 'unread') {
      counts.unread += 1;
      return;
    }
    counts.runs += 1;
    counts.questions += run.questions.length;
    const found = differences(run, ran);
    if (found.length === 0) continue;
    if (isKnown(run)) {
      counts.known += 1;
      continue;
    }
    counts.differing += 1;
    const asked = run.questions.toReversed().map(each => questionText(each)).join('; ');
    console.log(`${place}: ${text}, list ${list}: ${found.join('; ')}\n  by the machine: ${asked}`);
  }
  if (counts.runs === before) console.log(`${place}: ${text}: all lists are given up`);
}

/** V8 may evaluate the first target of an object pattern before it tests the value for null (ECMA-262, 13.15.5.2: after that). */
function isKnown({ outcome }) {
  return outcome?.is === 'threw' && outcome.value.is === 'pattern_error';
}

/** A run of the machine, to its end or to a list of this length, or nothing where it comes to what no engine answers alike. */
function playedRun(tree, seed, options) {
  const mover = new Mover(seed, options);
  const isLong = ({ is }, count) => count >= LENGTH && ['read', 'get', 'call'].includes(is);
  try {
    const run = playMachine(tree, (question, count) => isLong(question, count) ? undefined : mover.move(question));
    if (seed === 1) isTheSame(run, runMachine(tree, run.moves));
    return finishedRun(run);
  } catch (error) {
    if (error instanceof GivenUp) return undefined;
    throw error;
  }
}

/** With the moves as a list, by the definition of `ask`, the run is what it was with each move given as it was asked for. */
function isTheSame({ moves, ...run }, again) {
  if (!isDeepStrictEqual(run, again)) throw new Error('a run by its moves is another');
}

/** Where the machine is outside, the engine throws an error of its own, or evaluates the arguments before it does. */
function finishedRun({ questions, outcome, cells, moves }) {
  if (outcome.is === 'outside') return { questions, moves, isCut: true };
  const held = Object.entries(cells).filter(([, value]) => value !== undefined);
  return { questions, moves, outcome, cells: outcome.is === 'no_turns' ? {} : Object.fromEntries(held) };
}
