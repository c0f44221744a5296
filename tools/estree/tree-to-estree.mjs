#!/usr/bin/env node
// Makes an ESTree syntax tree of a tree, for any printer; parentheses are left to the printer, or kept as nodes.
//   tree-to-estree.mjs [--parentheses] [TREE.json]
import fs from 'node:fs';
import { parseArgs } from 'node:util';
import { mapChildren, read } from './lib/form.mjs';
import { isMain, runMain } from './lib/main.mjs';
import { quoted, quotedDirective } from './print.mjs';

/** The ESTree program of a tree; with `parentheses` their nodes are kept, as acorn's `preserveParens` gives them. */
export function treeToEstree(tree, { parentheses = false } = {}) {
  const convert = (node, kind) => {
    const converted = mapChildren(node, kind, convert);
    if (kind === 'ParenthesizedExpression' && !parentheses) return converted.expression;
    return { ...converted, ...RESHAPE[kind]?.(converted) };
  };
  return convert(tree, 'Program');
}

/** The fields of each kind that differs in ESTree. Nodes that are made have the span of the node around them. */
const RESHAPE = {
  Program: ({ directives, body }) => ({ directives: undefined, body: [...directives, ...body] }),
  FunctionBody: ({ directives, body }) => ({ type: 'BlockStatement', directives: undefined, body: [...directives, ...body] }),
  Directive: node => ({
    type: 'ExpressionStatement', value: undefined, directive: node.value,
    expression: literal(node, cooked(node.value), quotedDirective(node.value)),
  }),
  FunctionDeclaration: () => ({ expression: false, generator: false, async: false }),
  FunctionExpression: () => ({ expression: false, generator: false, async: false }),
  ArrowFunctionExpression: ({ body }) => ({ id: null, expression: body.type !== 'BlockStatement', generator: false, async: false }),
  ClassDeclaration: withClassBody,
  ClassExpression: withClassBody,
  ForOfStatement: () => ({ await: false }),
  ImportAttribute: node => ({ key: literal(node, node.key), value: literal(node, node.value) }),
  NullLiteral: node => literal(node, null, 'null'),
  BooleanLiteral: node => literal(node, node.value, String(node.value)),
  StringLiteral: node => literal(node, node.value),
  NumericLiteral: node => ({ ...literal(node, Number(node.key), node.raw), key: undefined }),
  BigIntLiteral: node => ({ ...literal(node, null, node.raw), key: undefined, bigint: node.key }),
  RegExpLiteral: ({ pattern, flags, ...node }) => ({
    ...literal(node, null, `/${pattern}/${flags}`), pattern: undefined, flags: undefined, regex: { pattern, flags },
  }),
  TemplateLiteral: ({ quasis }) => ({
    quasis: quasis.map((quasi, index) => ({ ...quasi, tail: index === quasis.length - 1 })),
  }),
  TemplateElement: ({ raw, cooked }) => ({ raw: undefined, cooked: undefined, value: { raw, cooked } }),
  PatternProperty: () => ({ kind: 'init', method: false }),
  TargetProperty: () => ({ kind: 'init', method: false }),
  UnaryExpression: () => ({ prefix: true }),
  MetaProperty: ({ start, end, meta, property }) => ({
    meta: { type: 'Identifier', start, end, name: meta },
    property: { type: 'Identifier', start, end, name: property },
  }),
};

function withClassBody({ start, end, body }) {
  return { body: { type: 'ClassBody', start, end, body } };
}

function literal({ start, end }, value, raw = quoted(value)) {
  return { type: 'Literal', start, end, value, raw };
}

const ESCAPES = { b: '\b', f: '\f', n: '\n', r: '\r', t: '\t', v: '\v' };

/** The value of a string whose text between its quotes this is (ECMA-262, 12.9.4). */
function cooked(text) {
  return text.replace(/\\(?:u\{(\w+)\}|u(\w{4})|x(\w\w)|([0-3]?[0-7]{1,2})|(\r\n|[^]))/g, (_, point, unit, byte, octal, other) => {
    const hexadecimal = point ?? unit ?? byte;
    if (hexadecimal) return String.fromCodePoint(parseInt(hexadecimal, 16));
    return octal ? String.fromCharCode(parseInt(octal, 8)) : /[\r\n\u2028\u2029]/.test(other) ? '' : ESCAPES[other] ?? other;
  });
}

if (isMain(import.meta.url)) runMain(() => {
  const { values, positionals } = parseArgs({ allowPositionals: true, options: { parentheses: { type: 'boolean' } } });
  const tree = read(JSON.parse(fs.readFileSync(positionals[0] ?? 0, 'utf8')));
  process.stdout.write(`${JSON.stringify(treeToEstree(tree, values))}\n`);
});
