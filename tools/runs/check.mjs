#!/usr/bin/env node
// Runs each worked program of the proofs by this engine under an instrumented host, and compares its questions, its end and
// its cells with those of the worked run. A line for each that differs or is passed over, and one of counts.
//   check.mjs [--each]     with --each also a line for each run that agrees, and its questions
import fs from 'node:fs';
import { differences, endText } from './lib/compare.mjs';
import { runProgram } from './lib/engine.mjs';
import wrong from './wrong_on_purpose.mjs';

const REPOSITORY = new URL('../../', import.meta.url);
const WORKED = new URL('worked/', import.meta.url);
/** The statement of a computed run: its name, and a run in what it says. */
const COMPUTED = /^(\w[\w-]*) : (?=.*\b(?:run|run_with|run_where|questions_of|outcome_of|questions_where|BothAsk)\b)(?!.*Type 0)/gm;
const isTelling = process.argv.includes('--each');
const counts = { runs: 0, agreeing: 0, known: 0, differing: 0, passedOver: 0 };

for (const name of fs.readdirSync(WORKED).sort()) {
  const { default: worked } = await import(new URL(name, WORKED));
  checkNames(worked);
  for (const run of worked.runs) await check(worked.file, run);
}
for (const run of wrong) await checkWrong(run);
const { runs, agreeing, known, differing, passedOver } = counts;
const agreed = `${runs} runs, ${agreeing} agree with those of the proofs`;
console.log(`tools/runs: ${agreed}, ${known} differ as is known, ${differing} differ, ${passedOver} passed over`);
process.exitCode = differing === 0 ? 0 : 1;

/** Each worked run by its name in the file of proofs, and each computed run of that file is worked or listed as left out. */
function checkNames({ file, runs, leftOut = {} }) {
  const proofs = fs.readFileSync(new URL(file, REPOSITORY), 'utf8');
  const computed = [...proofs.matchAll(COMPUTED)].map(([, name]) => name);
  const names = [...runs.flatMap(({ names: own }) => own), ...Object.keys(leftOut)];
  for (const name of names.filter(name => !computed.includes(name))) differs(`${file}: there is no run ${name}`);
  for (const name of computed.filter(name => !names.includes(name))) differs(`${file}: ${name} is neither worked nor left out`);
  for (const name of names.filter((name, index) => names.indexOf(name) !== index)) differs(`${file}: ${name} stands twice`);
}

/** A worked run has one program, or several that are to run alike. */
async function check(file, run) {
  for (const text of run.programs) {
    counts.runs += 1;
    const place = `${file}: ${run.names.join(', ')}: ${text}`;
    if (run.passedOver) {
      passOver(`${place}: passed over, ${run.passedOver}`);
      continue;
    }
    const ran = await runProgram(text, run);
    if (ran.is === 'unread') passOver(`${place}: passed over, this engine doesn't read it: ${ran.message}`);
    else tell(place, run, ran);
  }
}

function tell(place, run, ran) {
  const found = differences(run, ran);
  const { known } = run;
  if (found.length === 0) counts.agreeing += 1;
  else if (known && ran.asked.join('; ') === known.asked.join('; ') && ran.is === known.end) {
    counts.known += 1;
    console.log(`${place}: differs as is known, ${known.why}`);
    return;
  }
  for (const difference of found) differs(`${place}: ${difference}`);
  if (found.length === 0 && isTelling) console.log(`${place}\n    ${[...ran.asked, endText(ran)].join('\n    ')}`);
}

/** A run that is wrong on purpose has to differ. */
async function checkWrong(run) {
  for (const text of run.programs) {
    if (differences(run, await runProgram(text, run)).length === 0) differs(`${run.names.join(', ')}: ${text}: is wrong, and agrees`);
  }
}

function differs(line) {
  counts.differing += 1;
  console.log(line);
}

function passOver(line) {
  counts.passedOver += 1;
  console.log(line);
}
