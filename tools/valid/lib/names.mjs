// Names: a small pool that clashes with itself and with the names that a lowering makes, and which of them a place may declare.
import { Random } from './random.mjs';

const COMMON = ['a', 'b', 'c', '_a', '_a2', '_b', '_a$b', '_unused', '_unused2', '_ns', 'ref', '_ref', '_this', '_this$x', '_f'];
const RARE = [
  'async', 'of', 'get', 'set', 'from', 'as', 'target', 'é', '𝒳', '_𝒳', '$', '_', '_0', '__a', 'a1', 'a\\u0062', 'b\\u{63}', 
  'aLongNameOfManyCharacters', 'nineteenCharacters1𝒳a', 'a\u200c', '℘', 'a·',
];
/** Names in sloppy code alone, and of scripts alone. */
const SLOPPY = ['let', 'yield', 'static', 'implements', 'public'];
const PROPERTIES = [
  'a', 'b', 'x', '_a', 'a$b', 'length', 'call', 'bind', 'default', 'class', 'let', 'async', 'get', 'static', 'é', '𝒳',
  'constructor', 'prototype',
];
export const PRIVATES = ['x', 'a', '_a', 'b', 'call', 'é'];

/** What a scope declares; `simple` are names of a plain catch parameter, which a `var` may repeat. */
class Scope {
  constructor(isFunction, names = []) {
    this.isFunction = isFunction;
    this.lexical = new Set(names);
    this.vars = new Set();
    this.simple = new Set();
  }
}

/** The names that a generator chooses. `this.at` is what is known of the place. */
export class Names extends Random {
  /** What `make` gives with the place changed. */
  within(changes, make) {
    const outer = this.at;
    this.at = { ...outer, ...changes };
    try { return make(); } finally { this.at = outer; }
  }

  inScope(make, { isFunction = false, names } = {}) {
    return this.within({ scopes: [...this.at.scopes, new Scope(isFunction, names)] }, make);
  }

  get scope() { return this.at.scopes.at(-1); }

  /** A name that is read or called. */
  name() {
    if (this.chance(0.04)) return this.pick(this.at.hasArguments ? ['eval', 'arguments', 'Math', 'undefined'] : ['eval', 'Math', 'undefined']);
    return this.plainName();
  }

  plainName() {
    if (!this.at.strict && this.chance(0.05)) return this.sloppyName();
    return this.pick(this.chance(0.12) ? RARE : COMMON);
  }

  sloppyName() {
    const name = this.pick(this.isModule || this.at.isAsync || this.at.inStaticBlock ? SLOPPY : [...SLOPPY, 'await']);
    return name === 'yield' && this.at.isGenerator ? 'let' : name;
  }

  /** A name that is written: in sloppy code `eval` and `arguments` too. */
  targetName() {
    if (!this.at.strict && this.at.hasArguments && this.chance(0.03)) return this.pick(['eval', 'arguments']);
    return this.plainName();
  }

  propertyName() { return this.pick(PROPERTIES); }

  /** A name that no scope has yet, by a number. */
  newName() { return `n${this.count++}`; }

  /** A name that is declared here, lexically or by `var`. `Math` is bound now and then. */
  declared(isLexical) {
    if (this.chance(0.002)) return this.declare('Math', isLexical) ?? this.newName();
    for (let tries = 0; tries < 4; tries += 1) {
      const name = !isLexical && !this.at.strict && this.chance(0.03) ? this.targetName() : this.plainName();
      if (isLexical && name === 'let') continue;
      const plain = this.declare(name, isLexical);
      if (plain) return plain;
    }
    return this.declare(this.newName(), isLexical);
  }

  /** The name, where it can be declared here, and nothing where it can't. */
  declare(name, isLexical) {
    const key = name.replace(/\\u\{?([0-9a-f]+)\}?/g, (_, digits) => String.fromCodePoint(parseInt(digits, 16)));
    const { scope } = this;
    if (isLexical) {
      if (scope.lexical.has(key) || scope.vars.has(key) || scope.simple.has(key)) return undefined;
      scope.lexical.add(key);
      return name;
    }
    const crossed = this.at.scopes.slice(this.at.scopes.findLastIndex(({ isFunction }) => isFunction));
    if (crossed.some(({ lexical }) => lexical.has(key))) return undefined;
    for (const { vars } of crossed) vars.add(key);
    return name;
  }
}
