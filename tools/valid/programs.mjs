#!/usr/bin/env node
// Random JavaScript programs of every kind, dense in what the tool lowers; the same seed gives the same program.
//   programs.mjs [--seed N] [--count N]     prints programs, each under a line that says its seed and whether it is a module
import { fileURLToPath } from 'node:url';
import { parseArgs } from 'node:util';
import { Statements } from './lib/statements.mjs';

const OUTER = {
  strict: false, scopes: [], returns: false, inLoop: false, inSwitch: false, labels: [], newTarget: false, hasArguments: true,
  superMember: false, superCall: false, inStaticBlock: false, isAsync: false, isGenerator: false, inParameters: false, privates: [],
};
const SOURCES = ['"m"', "'n'", '"./a.js"', '"class"', '"\\u2603"'];
const EXPORTED = [
  'a', 'b', '_a', 'n', '_n', '_ns', 'ref', 'let', 'class', 'default', 'async', 'é', '𝒳', 'await', 'if', '_default', 'arguments',
  '"x y"', '"class"', '"0"', '""', '"☃"', '"a"', '"a-b"', '"default"', '"_"', '"日本 1"', '"\\n"', '"*"',
];

/** The program of a seed: its text, and whether it is a module. */
export function programOf(seed) {
  return new Programs(seed).program();
}

class Programs extends Statements {
  program() {
    this.isModule = this.chance(0.4);
    this.isWide = this.chance(0.08);
    this.count = 0;
    this.size = 0;
    this.exported = new Set();
    const directives = this.chance(0.15) ? this.some(1, 2, () => this.pick(['"use strict";', "'use strict';", '"a";', '"use\\x20strict";'])) : [];
    const strict = this.isModule || directives.some(text => /^.use strict/.test(text));
    this.at = { ...OUTER, strict, isAsync: this.isModule && this.isWide, depth: 5 + this.below(5) };
    const items = this.inScope(() => {
      const made = this.some(1, 6, () => this.sized(() => this.isModule && this.chance(0.5) ? this.moduleItem() : this.item()));
      return [...made, ...(this.isModule && this.chance(0.5) ? [this.localExports()] : [])];
    }, { isFunction: true });
    return { isModule: this.isModule, text: [...directives, ...items].join('\n') };
  }

  /** An item of its own share of statements and expressions. */
  sized(make) {
    this.size = 8 + this.below(this.chance(0.2) ? 100 : 40);
    return make();
  }

  moduleItem() {
    return this.weighted([
      [4, () => this.importItem()], [6, () => this.exportAll()], [2, () => this.exportFrom()],
      [3, () => this.exportDeclaration()], [2, () => this.exportDefault()],
    ])();
  }

  // Imports.

  importItem() {
    const from = `${this.pick(SOURCES)}${this.attributes()};`;
    const named = () => `{ ${this.some(0, 3, () => this.importSpecifier()).join(', ')} }`;
    const clauses = this.weighted([
      [1, () => []], [3, () => [named()]], [2, () => [this.declared(true)]], [2, () => [`* as ${this.declared(true)}`]],
      [1, () => [this.declared(true), named()]], [1, () => [this.declared(true), `* as ${this.declared(true)}`]],
    ])();
    return `import ${clauses.length > 0 ? `${clauses.join(', ')} from ` : ''}${from}`;
  }

  importSpecifier() {
    return this.chance(0.4) ? this.declared(true) : `${this.pick(EXPORTED)} as ${this.declared(true)}`;
  }

  attributes() {
    return this.chance(0.08) ? ` with { ${this.pick(['type: "json"', '"type": "json"', ''])} }` : '';
  }

  // Exports, each under a name that the module has not used.

  exportName(name = this.pick(EXPORTED)) {
    const key = name.replace(/^"(.*)"$/, '$1');
    if (this.exported.has(key)) return this.exportName(this.newName());
    this.exported.add(key);
    return name;
  }

  exportAll() {
    const as = this.chance(0.75) ? ` as ${this.exportName()}` : '';
    return `export *${as} from ${this.pick(SOURCES)}${this.attributes()};`;
  }

  exportFrom() {
    const specifiers = this.some(0, 3, () => `${this.pick(EXPORTED)} as ${this.exportName()}`);
    return `export { ${specifiers.join(', ')} } from ${this.pick(SOURCES)}${this.attributes()};`;
  }

  /** Exports of names that the module declares. */
  localExports() {
    const names = [...this.scope.lexical, ...this.scope.vars];
    const specifiers = names.length === 0 ? [] : this.some(0, 4, () => `${this.pick(names)} as ${this.exportName()}`);
    return `export { ${specifiers.join(', ')} };`;
  }

  exportDeclaration() {
    const before = new Set([...this.scope.lexical, ...this.scope.vars]);
    const text = this.weighted([[3, () => this.variables()], [2, () => this.namedFunction()], [2, () => this.namedClass()]])();
    const names = [...this.scope.lexical, ...this.scope.vars].filter(name => !before.has(name));
    if (names.some(name => this.exported.has(name))) return text;
    for (const name of names) this.exported.add(name);
    return `export ${text}`;
  }

  exportDefault() {
    if (this.exported.has('default')) return this.exportAll();
    this.exported.add('default');
    const name = () => this.chance(0.5) ? this.declared(true) : '';
    return this.weighted([
      [4, () => `export default ${this.unlikeDeclaration(this.expression())};`], [1, () => `export default ${this.functionDeclaration(name())}`],
      [1, () => `export default class ${name()}${this.classRest()}`],
    ])();
  }

  unlikeDeclaration(text) { return /^(?:function|class|async)\b/.test(text) ? `(${text})` : text; }
}

if (process.argv[1] === fileURLToPath(import.meta.url)) {
  const { values } = parseArgs({ options: { seed: { type: 'string', default: '1' }, count: { type: 'string', default: '1' } } });
  for (let seed = Number(values.seed); seed < Number(values.seed) + Number(values.count); seed += 1) {
    const { isModule, text } = programOf(seed);
    process.stdout.write(`// seed ${seed}, ${isModule ? 'module' : 'script'}\n${text}\n`);
  }
}
