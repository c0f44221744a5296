#!/usr/bin/env node
// Runs random programs with `using` in blocks, parts of a `try`, `switch`, heads of `for` and `for-of`, bodies of functions, static blocks of
// classes and at the top of modules, lowered by the tool, by node, and holds what they do against an interpreter of its own that disposes of
// resources as the source says (Explicit Resource Management, DisposeResources), since node itself has no `using`. Each step of a program is
// noted: values taken into use, disposals, turns of loops, returned values and thrown errors.
//   using.mjs [--seed N] [--count N] [--imported] [--all] [--tool PROGRAM]     so many programs, with helpers of `babelHelpers` or required ones, by all flags or one
import { parseArgs } from 'node:util';
import '../estree/babel-helpers.cjs';
import { canonicalText, read } from '../estree/lib/form.mjs';
import { hasParser } from '../estree/lib/parsers.mjs';
import { textToTree } from '../estree/lib/texts.mjs';
import { print } from '../estree/print.mjs';
import { Random } from './lib/random.mjs';
import { Interpreter, Turns, textOf } from './lib/resources.mjs';
import { lowerAll } from './lib/tool.mjs';

const { values } = parseArgs({
  options: { seed: { type: 'string', default: '1' }, count: { type: 'string', default: '300' }, imported: { type: 'boolean' }, all: { type: 'boolean' }, tool: { type: 'string' } },
});
const WORDS = [values.all ? '--all' : '--using', ...values.imported ? [] : ['--helpers=external']];

/** Programs as plain objects, which the interpreter runs and `textOf` writes. */
class Programs extends Random {
  places = 0;
  labels = [];
  loops = 0;
  depth = 0;

  place() {
    this.places += 1;
    return this.places;
  }

  program() {
    this.places = 0;
    if (!values.imported && this.below(2) === 0) return { type: 'program', isModule: true, body: this.moduleItems() };
    return { type: 'program', body: [{ type: 'block', body: this.list({ inFunction: false }) }, ...this.list({ inFunction: false, plain: true })] };
  }

  /** Statements at the top of a module, functions, exports and a `using` among them. */
  moduleItems() {
    const items = [{ type: 'using', resources: this.resources() }];
    for (const statement of this.list({ inFunction: false, plain: false })) {
      items.push(statement, { type: this.pick(['function', 'export', 'exported class', 'note']), place: this.place() });
    }
    const first = this.below(2) === 0 ? [{ type: 'note', place: this.place() }] : [];
    const last = this.below(2) === 0 ? [{ type: 'export default', place: this.place() }] : [];
    return [...first, ...items, ...last];
  }

  list(around) {
    this.depth += 1;
    const length = this.depth > 5 ? 1 : 1 + this.below(4);
    const statements = Array.from({ length }, () => this.statement(around));
    this.depth -= 1;
    return statements;
  }

  resources() {
    return Array.from({ length: 1 + this.below(2) }, () => {
      const place = this.place();
      return { name: `r${place}`, place, sort: this.pick(['fine', 'fine', 'fine', 'throws', 'null', 'none', 'evaluates badly']) };
    });
  }

  statement(around) {
    const inner = { ...around, plain: false };
    if (this.depth > 5) return this.leaf(around);
    switch (this.below(around.plain ? 12 : 15)) {
      case 0: return { type: 'block', body: this.list(inner) };
      case 1: return { type: 'if', place: this.place(), holds: this.below(2) === 0, body: this.block(inner) };
      case 2: return this.tryStatement(inner);
      case 3: return this.loop(inner);
      case 4: return this.switchStatement(inner);
      case 5: return this.functionCall();
      case 6: return this.labelled(inner);
      case 10: return this.classWithBlock();
      case 11: return this.loopOver(inner);
      case 12: case 13: case 14: return { type: 'using', resources: this.resources() };
      default: return this.leaf(around);
    }
  }

  block(around) {
    return { type: 'block', body: this.list(around) };
  }

  leaf(around) {
    const choice = this.below(8);
    if (choice === 0) return { type: 'throw', place: this.place() };
    if (choice === 1 && this.loops > 0) return { type: 'break' };
    if (choice === 2 && this.loops > 0) return { type: 'continue' };
    if (choice === 3 && this.labels.length > 0) {
      const label = this.pick(this.labels);
      return { type: label.isLoop && this.below(2) === 0 ? 'continue' : 'break', label: label.name };
    }
    if (choice === 4 && around.inFunction) return { type: 'return', place: this.place() };
    return { type: 'note', place: this.place() };
  }

  tryStatement(around) {
    const hasHandler = this.below(3) > 0;
    return {
      type: 'try',
      block: this.block(around),
      handler: hasHandler ? this.block(around) : null,
      finalizer: !hasHandler || this.below(2) === 0 ? this.block(around) : null,
      place: this.place(),
    };
  }

  loop(around, label) {
    const place = this.place();
    const head = this.below(2) === 0 ? this.resources() : null;
    this.loops += 1;
    const body = this.below(3) === 0 ? this.leaf(around) : this.block(around);
    this.loops -= 1;
    return { type: 'for', place, head, turns: this.below(3), body, label };
  }

  loopOver(around, label) {
    const place = this.place();
    const resources = this.resources();
    this.loops += 1;
    const body = this.below(3) === 0 ? this.leaf(around) : this.block(around);
    this.loops -= 1;
    return { type: 'for of', place, resources, body, label };
  }

  labelled(around) {
    const isLoop = this.below(2) === 0;
    const name = `l${this.place()}`;
    this.labels.push({ name, isLoop });
    const body = isLoop ? this.pick([around => this.loop(around), around => this.loopOver(around)])(around) : this.block(around);
    this.labels.pop();
    return { type: 'labelled', label: name, body };
  }

  switchStatement(around) {
    const clauses = Array.from({ length: 1 + this.below(3) }, () => ({ body: this.list({ ...around, plain: this.below(3) === 0 }), ends: this.below(2) === 0 }));
    return { type: 'switch', place: this.place(), enters: this.below(clauses.length + 1), clauses };
  }

  functionCall() {
    return { type: 'call', place: this.place(), isArrow: this.below(2) === 0, body: this.apart(() => this.list({ inFunction: true, plain: false })) };
  }

  classWithBlock() {
    return { type: 'class', place: this.place(), body: this.apart(() => this.list({ inFunction: false, plain: false })) };
  }

  /** What is made so, with no label and no loop around it. */
  apart(make) {
    const [labels, loops] = [this.labels, this.loops];
    [this.labels, this.loops] = [[], 0];
    const made = make();
    [this.labels, this.loops] = [labels, loops];
    return made;
  }
}

function main() {
  const random = new Programs(Number(values.seed));
  const programs = Array.from({ length: Number(values.count) }, () => random.program());
  const sources = programs.map(textOf);
  const runs = lowerAll(sources.map((source, index) => canonicalText(textToTree(source, { module: programs[index].isModule }))), { tool: values.tool, words: WORDS });
  let differing = 0;
  let seen = 0;
  for (const [index, { status, stdout, stderr }] of runs.entries()) {
    if (status !== 0) throw new Error(`${sources[index]}\nthe tool ends with ${status}: ${stderr}`);
    const after = print(withoutExports(read(JSON.parse(stdout))));
    const wanted = new Interpreter().run(programs[index]);
    const noted = evaluated(after);
    seen += wanted.length;
    if (wanted.join() === noted.join()) continue;
    differing += 1;
    console.log(`${sources[index]}\n  ${wanted.join(' ')}\n${after}\n  ${noted.join(' ')}`);
  }
  console.log(`tools/valid: ${runs.length} programs with \`using\`, ${seen} steps seen, ${differing} differ`);
  process.exitCode = differing === 0 ? 0 : 1;
}

/** A program without its exports of names, which no function's body may have: what stays is declared there. */
function withoutExports(program) {
  return { ...program, body: program.body.filter(({ type, declaration }) => type !== 'ExportNamedDeclaration' || declaration !== null) };
}

/** What a lowered program does, by node. */
function evaluated(text) {
  const notes = [];
  const note = (...words) => { notes.push(words.join('')); };
  const resource = (place, sort) => {
    note('e', place);
    if (sort === 'evaluates badly') throw `E${place}`;
    if (sort === 'null') return null;
    if (sort === 'none') return {};
    return { [Symbol.dispose]() { note('d', place); if (sort === 'throws') throw `D${place}`; } };
  };
  const turns = new Turns();
  const more = (place, count) => turns.more(place, count, note);
  const required = () => globalThis.babelHelpers.usingCtx;
  try {
    new Function('note', 'resource', 'more', 'named', 'require', text)(note, resource, more, named, required);
    note('ends');
  } catch (error) {
    note('throws ', named(error));
  }
  return notes;
}

/** An error as text: what a program threw, a value that can't be disposed of, or an error that stands in the way of another. */
function named(error) {
  if (typeof error === 'string') return error;
  if (error?.name === 'SuppressedError') return `(${named(error.error)} before ${named(error.suppressed)})`;
  return error instanceof TypeError ? 'TypeError' : String(error);
}

if (hasParser) main();
else console.log('tools/valid: passed over, no parser for trees is installed (Debian: node-acorn)');
