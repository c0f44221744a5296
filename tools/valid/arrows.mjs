#!/usr/bin/env node
// Evaluates random programs of functions, classes and arrows before and after the tool made functions of the arrows, by node itself: the same
// has to be seen in the same order, each time with the same `this`. Arrows are called with another `this`, which an arrow doesn't take.
//   arrows.mjs [--seed N] [--count N] [--tool PROGRAM]     so many programs, five deep at most
import { parseArgs } from 'node:util';
import { canonicalText, read } from '../estree/lib/form.mjs';
import { hasParser } from '../estree/lib/parsers.mjs';
import { textToTree } from '../estree/lib/texts.mjs';
import { print } from '../estree/print.mjs';
import { lowerAll } from './lib/tool.mjs';

/** Inside of a function that is no arrow, or of a static block. */
const own = { hasThis: true };
const WORDS = ['--arrows', '--nullish', '--chaining', '--logical'];
const { values } = parseArgs({
  options: { seed: { type: 'string', default: '1' }, count: { type: 'string', default: '300' }, tool: { type: 'string' } },
});
let state = Number(values.seed);
let places = 0;

if (hasParser) main();
else console.log('tools/valid: passed over, no parser for trees is installed (Debian: node-acorn)');

function main() {
  let differing = 0;
  let seen = 0;
  let arrows = 0;
  const sources = Array.from({ length: Number(values.count) }, () => `${below(3) === 0 ? '"use strict"; ' : ''}${statements(4, { hasThis: true })}`);
  const texts = lowered(sources);
  for (const [index, source] of sources.entries()) {
    const after = texts[index];
    const [left, right] = [source, after].map(evaluated);
    arrows += source.split('=>').length - 1;
    seen += left.length;
    if (left.join() === right.join() && !after.includes('=>')) continue;
    differing += 1;
    console.log(`${source}\n  ${left.join(' ')}\n${after}\n  ${right.join(' ')}`);
  }
  console.log(`tools/valid: ${values.count} programs with ${arrows} arrows, ${seen} values of this, ${differing} differ`);
  process.exitCode = differing === 0 ? 0 : 1;
}

function below(limit) {
  state = (Math.imul(state, 1103515245) + 12345) >>> 0;
  return (state >>> 8) % limit;
}

function place() {
  places += 1;
  return places;
}

/** One to three statements. Where no `this` may stand in an arrow, as in the value of a class field, none is made there. */
function statements(depth, scope) {
  return Array.from({ length: 1 + below(3) }, () => statement(depth, scope)).join(' ');
}

function statement(depth, scope) {
  const number = place();
  const kind = depth === 0 ? 0 : below(9);
  if (kind < 3) return `${expression(depth, scope)};`;
  if (kind === 3) return `{ ${statements(depth - 1, scope)} }`;
  if (kind === 4) {
    const list = parameters(depth, scope);
    const directive = below(3) === 0 && !list.includes('=') ? '"use strict"; ' : '';
    return `function f${number}(${list}) { ${directive}${statements(depth - 1, own)} } f${number}.call(value(${place()}));`;
  }
  if (kind === 5) return `for (const each${number} of [1, 2]) ${expression(depth - 1, scope)};`;
  if (kind === 6) return declaredClass(number, depth, scope);
  if (kind === 7) return `try { ${statements(depth - 1, scope)} throw 0; } catch (error${number}) { ${statements(depth - 1, scope)} }`;
  return `var _this${below(3) === 0 ? '' : below(4) + 2} = ${expression(depth - 1, scope)};`;
}

function declaredClass(number, depth, scope) {
  const isDerived = below(2) === 0;
  const members = Array.from({ length: 1 + below(3) }, (_, index) => member(depth - 1, scope, index, isDerived));
  return `class C${number}${isDerived ? ` extends base(${place()})` : ''} { ${members.join(' ')} } all(C${number});`;
}

/** A constructor: in that of a class that extends another there is no `this` before `super(..)`, but arrows may be made that ask for it later. */
function constructing(depth, isDerived) {
  if (!isDerived) return `constructor() { ${statements(depth, own)} }`;
  const late = place();
  const before = { hasThis: false };
  return `constructor() { ${statements(depth, before)} const late${late} = () => see(${late}, this); super(${expression(depth, before)}); late${late}(); ${statements(depth, own)} }`;
}

function member(depth, scope, index, isDerived) {
  const kind = below(7);
  if (kind === 0) return `m${index}(${parameters(depth, scope)}) { ${statements(depth, own)} }`;
  if (kind === 1) return `get g${index}() { ${statements(depth, own)} return ${expression(depth, own)}; }`;
  if (kind === 2) return `static { ${statements(depth, own)} }`;
  if (kind === 3) return `f${index} = ${expression(depth, { hasThis: false })};`;
  if (kind === 4) return `static f${index} = ${expression(depth, { hasThis: false })};`;
  if (kind === 5 && index === 0) return constructing(depth, isDerived);
  return `[key(${expression(depth, scope)})]() { ${statements(depth, own)} }`;
}

/** Default values: of a function's parameters no arrow in them has a `this`. */
function parameters(depth, { hasThis }, ofArrow = false) {
  const inside = { hasThis: hasThis && ofArrow };
  return Array.from({ length: below(3) }, () => `a${place()}${below(2) === 0 ? '' : ` = ${expression(depth - 1, inside)}`}`).join(', ');
}

function expression(depth, scope) {
  const number = place();
  const self = scope.hasThis ? 'this' : 'null';
  const kind = depth <= 0 ? below(2) : below(10);
  if (kind === 0) return `see(${number}, ${self})`;
  if (kind === 1) return `value(${number})`;
  if (kind < 5) return `run(${number}, (${parameters(depth, scope, true)}) => ${expression(depth - 1, scope)})`;
  if (kind < 7) return `run(${number}, (${parameters(depth, scope, true)}) => { ${statements(depth - 1, scope)} return ${expression(depth - 1, scope)}; })`;
  if (kind === 7) return `(function (${parameters(depth, scope)}) { ${statements(depth - 1, own)} }).call(value(${number}))`;
  if (kind === 8) return `((${self} ?? ${expression(depth - 1, scope)})?.x ?? ${expression(depth - 1, scope)})`;
  return `(${expression(depth - 1, scope)}, ${expression(depth - 1, scope)})`;
}

function lowered(sources) {
  const ran = lowerAll(sources.map(source => canonicalText(textToTree(source, {}))), { tool: values.tool, words: WORDS });
  return ran.map(({ status, stdout, stderr }, index) => {
    if (status !== 0) throw new Error(`the tool ends with ${status}: ${stderr}\n${sources[index]}`);
    return print(read(JSON.parse(stdout)));
  });
}

/** What the text sees, in its order: the place, and which object `this` is. */
function evaluated(text) {
  const told = [];
  const known = new Map([[globalThis, 'global']]);
  const named = object => {
    if (object === null || typeof object !== 'object' && typeof object !== 'function') return String(object);
    if (!known.has(object)) known.set(object, `o${known.size}`);
    return known.get(object);
  };
  const host = {
    see: (number, object) => { told.push(`${number}:${named(object)}`); return object; },
    value: number => { told.push(`${number}`); return { number }; },
    key: () => `k${told.length}`,
    base: number => class { constructor() { told.push(`${number}`); } },
    run: (number, f) => { told.push(`${number}(`); const result = f.call({ other: true }); told.push(')'); return result; },
    all: C => {
      const object = new C();
      for (const name of Object.getOwnPropertyNames(C.prototype)) {
        if (name === 'constructor') continue;
        const { get, value } = Object.getOwnPropertyDescriptor(C.prototype, name);
        if (get) get.call(object);
        else if (typeof value === 'function') value.call(object);
      }
    },
  };
  new Function(...Object.keys(host), text).call({ top: true }, ...Object.values(host));
  return told;
}
