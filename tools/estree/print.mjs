#!/usr/bin/env node
// Prints a tree as JavaScript, with the parentheses that its text needs.
//   print.mjs [--one-line] [TREE.json]
import fs from 'node:fs';
import { parseArgs } from 'node:util';
import { read } from './lib/form.mjs';
import { isMain, runMain } from './lib/main.mjs';
import { withNeededParentheses } from './lib/parentheses.mjs';

/** The text of a tree: a statement a line, or all on one. */
export function print(tree, { oneLine = false } = {}) {
  const { directives, body } = withNeededParentheses(tree);
  const printer = new Printer(oneLine);
  const lines = [...directives, ...body].map(item => printer.text(item));
  return oneLine ? lines.join(' ') : lines.map(line => `${line}\n`).join('');
}

/** A string literal of this value. */
export function quoted(value) {
  return JSON.stringify(value).replace(/[\u2028\u2029]/g, end => `\\u${end.charCodeAt(0).toString(16)}`);
}

/** A directive's text is that of the source between its quotes, so it may hold one sort of them bare. */
export function quotedDirective(text) {
  return /(?<!\\)(?:\\\\)*"/.test(text) ? `'${text}'` : `"${text}"`;
}

/** For each name of a kind a method that gives the text of such a node. */
class Printer {
  constructor(oneLine) {
    this.newLine = oneLine ? ' ' : '\n';
    this.step = oneLine ? '' : '  ';
    this.margin = '';
  }

  text(node) { return this[node.type](node); }
  list(nodes) { return nodes.map(node => this.text(node)).join(', '); }
  optional(before, node) { return node ? before + this.text(node) : ''; }

  // Statements and declarations.

  Directive({ value }) { return `${quotedDirective(value)};`; }
  ExpressionStatement({ expression }) { return `${this.text(expression)};`; }
  BlockStatement({ body }) { return this.block(body); }
  StaticBlock({ body }) { return `static ${this.block(body)}`; }
  EmptyStatement() { return ';'; }
  DebuggerStatement() { return 'debugger;'; }
  VariableDeclaration(node) { return `${this.declarators(node)};`; }
  VariableDeclarator({ id, init }) { return this.text(id) + this.optional(' = ', init); }
  FunctionDeclaration({ id, ...node }) { return `function ${id ? id.name : ''}${this.parametersAndBody(node)}`; }
  FunctionBody({ directives, body }) { return this.block([...directives, ...body]); }
  ReturnStatement({ argument }) { return `return${this.optional(' ', argument)};`; }
  ThrowStatement({ argument }) { return `throw ${this.text(argument)};`; }
  ForInStatement({ left, right, body }) { return `for (${this.forHead(left)} in ${this.text(right)}) ${this.text(body)}`; }
  ForOfStatement({ left, right, body }) { return `for (${this.forHead(left)} of ${this.text(right)}) ${this.text(body)}`; }
  WhileStatement({ test, body }) { return `while (${this.text(test)}) ${this.text(body)}`; }
  DoWhileStatement({ body, test }) { return `do ${this.text(body)} while (${this.text(test)});`; }
  BreakStatement({ label }) { return `break${this.optional(' ', label)};`; }
  ContinueStatement({ label }) { return `continue${this.optional(' ', label)};`; }
  LabeledStatement({ label, body }) { return `${label.name}: ${this.text(body)}`; }
  SwitchStatement({ discriminant, cases }) { return `switch (${this.text(discriminant)}) ${this.block(cases)}`; }
  CatchClause({ param, body }) { return `catch ${param ? `(${this.text(param)}) ` : ''}${this.text(body)}`; }

  ClassDeclaration({ id, superClass, body }) {
    return `class${this.optional(' ', id)}${this.optional(' extends ', superClass)} ${this.block(body)}`;
  }

  MethodDefinition({ kind, static: isStatic, key, computed, value }) {
    const accessor = kind === 'get' || kind === 'set' ? `${kind} ` : '';
    return (isStatic ? 'static ' : '') + accessor + this.key(key, computed) + this.parametersAndBody(value);
  }

  PropertyDefinition({ static: isStatic, key, computed, value }) {
    return `${isStatic ? 'static ' : ''}${this.key(key, computed)}${this.optional(' = ', value)};`;
  }

  IfStatement({ test, consequent, alternate }) {
    return `if (${this.text(test)}) ${this.text(consequent)}${this.optional(' else ', alternate)}`;
  }

  ForStatement({ init, test, update, body }) {
    const first = init ? this.forHead(init) : '';
    return `for (${first};${this.optional(' ', test)};${this.optional(' ', update)}) ${this.text(body)}`;
  }

  SwitchCase({ test, consequent }) {
    const head = test ? `case ${this.text(test)}:` : 'default:';
    return [head, ...this.indented(consequent)].join(this.newLine);
  }

  TryStatement({ block, handler, finalizer }) {
    return `try ${this.text(block)}${this.optional(' ', handler)}${this.optional(' finally ', finalizer)}`;
  }

  // Imports and exports.

  ImportDeclaration({ specifiers, source, attributes }) {
    const named = specifiers.filter(({ type }) => type === 'ImportSpecifier');
    const clauses = specifiers.filter(({ type }) => type !== 'ImportSpecifier').map(node => this.text(node));
    if (named.length > 0) clauses.push(this.inBraces(named));
    const from = clauses.length === 0 ? '' : `${clauses.join(', ')} from `;
    return `import ${from}${this.text(source)}${this.attributes(attributes)};`;
  }

  ImportSpecifier({ imported, local }) { return this.renamed(this.text(imported), local.name); }
  ImportDefaultSpecifier({ local }) { return local.name; }
  ImportNamespaceSpecifier({ local }) { return `* as ${local.name}`; }
  ImportAttribute({ key, value }) { return `${quoted(key)}: ${quoted(value)}`; }

  ExportNamedDeclaration({ declaration, specifiers, source, attributes }) {
    if (declaration) return `export ${this.text(declaration)}`;
    return `export ${this.inBraces(specifiers)}${this.optional(' from ', source)}${this.attributes(attributes)};`;
  }

  ExportSpecifier({ local, exported }) { return this.renamed(this.text(local), this.text(exported)); }

  ExportDefaultDeclaration({ declaration }) {
    return `export default ${this.text(declaration)}${declaration.type.endsWith('Declaration') ? '' : ';'}`;
  }

  ExportAllDeclaration({ exported, source, attributes }) {
    return `export *${this.optional(' as ', exported)} from ${this.text(source)}${this.attributes(attributes)};`;
  }

  // Expressions.

  Identifier({ name }) { return name; }
  PrivateIdentifier({ name }) { return `#${name}`; }
  ThisExpression() { return 'this'; }
  Super() { return 'super'; }
  NullLiteral() { return 'null'; }
  BooleanLiteral({ value }) { return String(value); }
  NumericLiteral({ raw }) { return raw; }
  BigIntLiteral({ raw }) { return raw; }
  StringLiteral({ value }) { return quoted(value); }
  RegExpLiteral({ pattern, flags }) { return `/${pattern}/${flags}`; }
  TemplateElement({ raw }) { return raw; }
  TaggedTemplateExpression({ tag, quasi }) { return this.text(tag) + this.text(quasi); }
  ArrayExpression({ elements }) { return this.elements(elements); }
  SpreadElement({ argument }) { return `...${this.text(argument)}`; }
  ObjectExpression({ properties }) { return this.inBraces(properties); }
  FunctionExpression({ id, ...node }) { return `function ${id ? id.name : ''}${this.parametersAndBody(node)}`; }
  ClassExpression(node) { return this.ClassDeclaration(node); }
  ArrowFunctionExpression({ params, body }) { return `(${this.list(params)}) => ${this.text(body)}`; }
  BinaryExpression({ left, operator, right }) { return `${this.text(left)} ${operator} ${this.text(right)}`; }
  LogicalExpression(node) { return this.BinaryExpression(node); }
  AssignmentExpression(node) { return this.BinaryExpression(node); }
  SequenceExpression({ expressions }) { return this.list(expressions); }
  CallExpression(node) { return `${this.text(node.callee)}${node.optional ? '?.' : ''}(${this.list(node.arguments)})`; }
  NewExpression(node) { return `new ${this.text(node.callee)}(${this.list(node.arguments)})`; }
  ChainExpression({ expression }) { return this.text(expression); }
  ParenthesizedExpression({ expression }) { return `(${this.text(expression)})`; }
  MetaProperty({ meta, property }) { return `${meta}.${property}`; }

  TemplateLiteral({ quasis, expressions }) {
    const holes = expressions.map(expression => `\${${this.text(expression)}}`);
    return `\`${quasis.map((quasi, index) => quasi.raw + (holes[index] ?? '')).join('')}\``;
  }

  UnaryExpression({ operator, argument }) {
    const operand = this.text(argument);
    const joins = /[a-z]$/.test(operator) || (/[+-]/.test(operator) && operand.startsWith(operator));
    return operator + (joins ? ' ' : '') + operand;
  }

  UpdateExpression({ operator, prefix, argument }) {
    return prefix ? operator + this.text(argument) : this.text(argument) + operator;
  }

  ConditionalExpression({ test, consequent, alternate }) {
    return `${this.text(test)} ? ${this.text(consequent)} : ${this.text(alternate)}`;
  }

  MemberExpression({ object, property, computed, optional }) {
    if (computed) return `${this.text(object)}${optional ? '?.' : ''}[${this.text(property)}]`;
    const space = object.type === 'NumericLiteral' && /^[\d_]+$/.test(object.raw) ? ' ' : ''; // `1 .a`
    return this.text(object) + space + (optional ? '?.' : '.') + this.text(property);
  }

  /** A property of an object literal, or of a pattern, which has neither `kind` nor `method`. */
  Property({ kind, method, shorthand, key, computed, value }) {
    if (kind === 'get' || kind === 'set') return `${kind} ${this.key(key, computed)}${this.parametersAndBody(value)}`;
    if (method) return this.key(key, computed) + this.parametersAndBody(value);
    const isShort = shorthand && (value.left ?? value).name === key.name;
    return (isShort ? '' : `${this.key(key, computed)}: `) + this.text(value);
  }

  // Patterns and targets.

  ObjectPattern({ properties }) { return this.inBraces(properties); }
  ArrayPattern({ elements }) { return this.elements(elements); }
  AssignmentPattern({ left, right }) { return `${this.text(left)} = ${this.text(right)}`; }
  RestElement({ argument }) { return `...${this.text(argument)}`; }

  // Parts of several kinds.

  declarators({ kind, declarations }) { return `${kind} ${this.list(declarations)}`; }
  forHead(node) { return node.type === 'VariableDeclaration' ? this.declarators(node) : this.text(node); }
  parametersAndBody({ params, body }) { return `(${this.list(params)}) ${this.text(body)}`; }
  key(key, computed) { return computed ? `[${this.text(key)}]` : this.text(key); }
  inBraces(nodes) { return nodes.length === 0 ? '{}' : `{ ${this.list(nodes)} }`; }
  renamed(name, as) { return name === as ? name : `${name} as ${as}`; }
  attributes(attributes) { return attributes.length === 0 ? '' : ` with ${this.inBraces(attributes)}`; }

  block(items) {
    return items.length === 0 ? '{}' : ['{', ...this.indented(items), `${this.margin}}`].join(this.newLine);
  }

  /** Lines one step further in. */
  indented(items) {
    const outer = this.margin;
    this.margin += this.step;
    const lines = items.map(item => this.margin + this.text(item));
    this.margin = outer;
    return lines;
  }

  elements(elements) {
    const texts = elements.map(element => element === null ? '' : this.text(element));
    return `[${texts.join(', ')}${elements.at(-1) === null ? ',' : ''}]`;
  }
}

if (isMain(import.meta.url)) runMain(() => {
  const { values, positionals } = parseArgs({ allowPositionals: true, options: { 'one-line': { type: 'boolean' } } });
  const tree = read(JSON.parse(fs.readFileSync(positionals[0] ?? 0, 'utf8')));
  process.stdout.write(print(tree, { oneLine: values['one-line'] }));
});
