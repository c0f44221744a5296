#!/usr/bin/env node
// Evaluates random object literals with spreads before and after the tool lowered them, by node itself, with a helper that copies: what is
// called, in its order, and the properties of each object with their attributes have to be the same.
//   spreads.mjs [--seed N] [--count N] [--imported] [--tool PROGRAM]     so many literals, three deep at most, with a helper of
//   `babelHelpers` or one that is required
import { parseArgs } from 'node:util';
import { canonicalText, read } from '../estree/lib/form.mjs';
import { hasParser } from '../estree/lib/parsers.mjs';
import { textToTree } from '../estree/lib/texts.mjs';
import { print } from '../estree/print.mjs';
import { lowerAll } from './lib/tool.mjs';

const { values } = parseArgs({
  options: { seed: { type: 'string', default: '1' }, count: { type: 'string', default: '300' }, imported: { type: 'boolean' }, tool: { type: 'string' } },
});
const WORDS = ['--rest-spread', ...values.imported ? [] : ['--helpers=external']];
let state = Number(values.seed);
let places = 0;

if (hasParser) main();
else console.log('tools/valid: passed over, no parser for trees is installed (Debian: node-acorn)');

function main() {
  const literals = Array.from({ length: Number(values.count) }, () => literal(2));
  const source = literals.map((text, index) => `objects[${index}] = ${text};`).join('\n');
  const [before, after] = [source, lowered(source)].map(evaluated);
  const calls = before.calls.findIndex((call, index) => call !== after.calls[index]);
  const objects = before.objects.findIndex((object, index) => object !== after.objects[index]);
  const differs = before.calls.length !== after.calls.length || calls >= 0 || objects >= 0;
  if (calls >= 0) console.log(`call ${calls}: ${before.calls[calls]}, and after lowering ${after.calls[calls]}`);
  if (objects >= 0) console.log(`${literals[objects]}\n  ${before.objects[objects]}\n  ${after.objects[objects]}`);
  console.log(`tools/valid: ${literals.length} literals with spreads, ${before.calls.length} calls, ${differs ? 'they differ' : '0 differ'}`);
  process.exitCode = differs ? 1 : 0;
}

function below(limit) {
  state = (Math.imul(state, 1103515245) + 12345) >>> 0;
  return (state >>> 8) % limit;
}

/** A literal of one to five properties, a third of them spreads; each calls by a number of its own. V8 doesn't keep the order of ECMA-262, 13.2.5.5,
    in two cases, which aren't made: a name that is written twice in one literal, and an accessor behind a spread. What is spread may have names
    of the literal again. */
function literal(depth) {
  const names = ['p0', 'p1', 'p2', 'p3', 'p4', 'a0', 'a1', 'a2', 'a3', 'a4', 'n0', 'n1', 'n2', 'n3', 'n4'];
  const take = letter => names.splice(names.findIndex(text => text.startsWith(letter)), 1)[0];
  let hasSpread = false;
  const properties = Array.from({ length: 1 + below(5) }, () => {
    const made = property(depth, hasSpread, take);
    hasSpread ||= made.startsWith('...');
    return made;
  });
  return `{ ${properties.join(', ')} }`;
}

function property(depth, hasSpread, take) {
  places += 1;
  const kind = below(8);
  const place = places;
  if (kind < 3) return `...${depth > 0 && below(3) === 0 ? literal(depth - 1) : `spread(${place})`}`;
  if (kind === 3) return `[key(${place})]: value(${place})`;
  if (kind === 4) return `m${place}() { return ${place}; }`;
  if (kind === 5 && !hasSpread) return `get ${take('a')}() { return value(${place}); }`;
  if (kind === 6 && depth > 0) return `${take('n')}: ${literal(depth - 1)}`;
  return `${take('p')}: value(${place})`;
}

function lowered(source) {
  const [{ status, stdout, stderr }] = lowerAll([canonicalText(textToTree(source, {}))], { tool: values.tool, words: WORDS });
  if (status !== 0) throw new Error(`the tool ends with ${status}: ${stderr}`);
  return print(read(JSON.parse(stdout)));
}

/** What the text calls, in its order, and its objects, each with its properties. */
function evaluated(text) {
  const calls = [];
  const objects = [];
  const symbol = Symbol('symbol');
  const told = (word, number) => { calls.push(`${word} ${number}`); return number; };
  const host = {
    objects,
    value: number => told('value', number),
    key: number => `p${told('key', number) % 4}`,
    spread: number => operands(told('spread', number), told, symbol)[number % 6],
    babelHelpers: { objectSpread2 },
    require: path => path === '@oxc-project/runtime/helpers/objectSpread2' && objectSpread2,
  };
  new Function(...Object.keys(host), text)(...Object.values(host));
  return { calls, objects: objects.map(described) };
}

function operands(number, told, symbol) {
  return [null, { p0: number, a1: number, get p2() { return told('get', number); } }, 'xy', [number], { [symbol]: number, n1: { z: number } }, number];
}

/** The first, third and further odd sources are copied as a spread copies (ECMA-262, 7.3.26), the even ones property by property. */
function objectSpread2(target, ...sources) {
  for (const [index, source] of sources.entries()) {
    const from = Object(source ?? {});
    for (const key of Reflect.ownKeys(from)) {
      const descriptor = Object.getOwnPropertyDescriptor(from, key);
      if (index % 2 === 1) Object.defineProperty(target, key, descriptor);
      else if (descriptor.enumerable) Object.defineProperty(target, key, { value: from[key], writable: true, enumerable: true, configurable: true });
    }
  }
  return target;
}

function described(object) {
  return Reflect.ownKeys(object).map(key => {
    const { value, get, writable, enumerable, configurable } = Object.getOwnPropertyDescriptor(object, key);
    const what = get ? 'getter' : typeof value === 'function' ? 'method' : JSON.stringify(value);
    return `${String(key)}=${what}${[writable, enumerable, configurable].map(Number).join('')}`;
  }).join(' ');
}
