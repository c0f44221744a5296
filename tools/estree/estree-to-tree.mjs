#!/usr/bin/env node
// Makes the tree form of an ESTree syntax tree and its source text; README.md says how the parsers are to be asked.
//   estree-to-tree.mjs [--sparse] [--zero] ESTREE.json SOURCE.js
//   estree-to-tree.mjs --parse [--module] [--sparse] [--zero] SOURCE.js
import fs from 'node:fs';
import { parseArgs } from 'node:util';
import { NoTree, canonicalText, read, sparse } from './lib/form.mjs';
import { isMain, runMain } from './lib/main.mjs';
import { parse, place } from './lib/parsers.mjs';
import { entriesOf, kindNamed } from './lib/table.mjs';

/** The tree of an ESTree program, or of Babel's file around one; `zero` for spans 0. Errors name the place, in the file at `path`. */
export function estreeToTree(estree, text, { zero = false, path } = {}) {
  const program = estree.type === 'File' ? estree.program : estree;
  const refuse = (node, _, why) => { throw new NoTree(`${place(text, node?.start ?? 0, path)}: ${node?.type ?? 'a node'}: ${why}`); };
  if (text.startsWith('#!')) refuse(program, '', 'a hashbang line has no form in the tree');
  const reshape = (node, sort) => {
    const shaped = { ...node, ...RESHAPE[node.type]?.(node, sort, text) };
    refuseWhatIsLost(node, shaped, sort, refuse);
    return zero ? { ...shaped, start: 0, end: 0 } : shaped;
  };
  return read(program, { reshape, refuse });
}

/** The fields of each type that differs in the tree form. What they hold is still ESTree. */
const RESHAPE = {
  Program: node => withDirectives(node.body),
  BlockStatement: (node, sort) => sort.endsWith('FunctionBody') ? { type: 'FunctionBody', ...withDirectives(node.body) } : {},
  FunctionBody: node => withDirectives(node.body),
  ExpressionStatement: (node, sort) => sort === 'Directive' ? { type: 'Directive', value: node.directive } : {},
  ClassDeclaration: node => ({ body: node.body.body }),
  ClassExpression: node => ({ body: node.body.body }),
  ClassProperty: () => ({ type: 'PropertyDefinition' }),
  ClassPrivateProperty: () => ({ type: 'PropertyDefinition' }),
  PrivateName: node => ({ type: 'PrivateIdentifier', name: node.id.name }),
  TemplateElement: node => ({ raw: node.value.raw, cooked: node.value.cooked }),
  MetaProperty: node => ({ meta: node.meta.name, property: node.property.name }),
  ImportDeclaration: withAttributes,
  ExportNamedDeclaration: withAttributes,
  ExportAllDeclaration: withAttributes,
  ImportAttribute: node => ({ key: node.key.name ?? node.key.value, value: node.value.value }),
  Literal: (node, _, text) => literal(node, node.raw ?? text.slice(node.start, node.end)),
};

function withDirectives(statements) {
  const end = statements.findIndex(statement => typeof statement.directive !== 'string');
  const count = end < 0 ? statements.length : end;
  return { directives: statements.slice(0, count), body: statements.slice(count) };
}

function withAttributes(node) {
  return { attributes: node.attributes ?? node.assertions ?? [] };
}

/** A literal by its kind, seen from its text: JSON holds neither a BigInt nor an infinite number. */
function literal(node, raw) {
  if (node.regex) return { type: 'RegExpLiteral', pattern: node.regex.pattern, flags: node.regex.flags };
  if (raw === 'null') return { type: 'NullLiteral' };
  if (raw === 'true' || raw === 'false') return { type: 'BooleanLiteral', value: raw === 'true' };
  if (!/^[.\d]/.test(raw)) return { type: 'StringLiteral', value: node.value };
  return raw.endsWith('n') ? { type: 'BigIntLiteral', raw, key: bigIntKey(raw) } : { type: 'NumericLiteral', raw, key: numberKey(raw) };
}

/** The text of the value as a property key. */
function bigIntKey(raw) {
  return String(BigInt(raw.slice(0, -1).replaceAll('_', '')));
}

function numberKey(raw) {
  const digits = raw.replaceAll('_', '');
  return String(/^0[0-7]+$/.test(digits) ? parseInt(digits, 8) : Number(digits));
}

/** Fields that say nothing about the program, or what the tree form says elsewhere. */
const PASSED_OVER = new Set([
  'type', 'start', 'end', 'range', 'loc', 'parent', 'extra', 'errors',
  'comments', 'tokens', 'leadingComments', 'trailingComments', 'innerComments',
  'raw', 'value', 'regex', 'bigint', 'directive', 'expression', 'prefix', 'tail', 'id', 'assertions',
]);

/** Refuses a node with a field that the tree form has no place for, as decorators, types or `phase`. */
function refuseWhatIsLost(node, shaped, sort, refuse) {
  const kind = kindNamed(sort, shaped.type);
  if (kind === undefined) return;
  if (node.extra?.parenthesized) refuse(node, '', 'its parentheses are no node; @babel/parser makes them by createParenthesizedExpressions');
  const listed = new Set(entriesOf(kind).map(({ field }) => field));
  for (const [field, value] of Object.entries(node)) {
    if (listed.has(field) || PASSED_OVER.has(field)) continue;
    const below = [value].flat().find(item => typeof item?.type === 'string');
    const isWord = field === 'phase' && value || field.endsWith('Kind') && value !== 'value';
    if (below || value === true || isWord) refuse(below ?? node, '', `${field} has no form in the tree`);
  }
}

if (isMain(import.meta.url)) runMain(() => {
  const flag = { type: 'boolean' };
  const { values, positionals } = parseArgs({ allowPositionals: true, options: { parse: flag, module: flag, sparse: flag, zero: flag } });
  if (positionals.length !== (values.parse ? 1 : 2)) {
    throw new Error('wanted: [--sparse] [--zero] ESTREE.json SOURCE.js, or --parse [--module] [--sparse] [--zero] SOURCE.js');
  }
  const path = positionals.at(-1);
  const text = fs.readFileSync(path, 'utf8');
  const estree = values.parse ? parse(text, { module: values.module, path }) : JSON.parse(fs.readFileSync(positionals[0], 'utf8'));
  const tree = estreeToTree(estree, text, { zero: values.zero, path });
  process.stdout.write(`${values.sparse ? JSON.stringify(sparse(tree)) : canonicalText(tree)}\n`);
});
