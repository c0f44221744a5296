// The table of fields: which fields a node of each kind has, and what stands there (docs/TREE.md).
// It is read from the sources that state it, so it is written nowhere else.
import fs from 'node:fs';

const folder = new URL('../../../crates/es_tree/src/', import.meta.url);
const source = name => fs.readFileSync(new URL(name, folder), 'utf8');
const table = source('table.rt');

const kindNames = arms(body(source('ast_type.rt'), 'pub fn name'));
const fieldNames = arms(body(table, 'pub fn as_str'));
const lines = new Map([...statics(source('statement_fields.rt')), ...statics(source('expression_fields.rt'))]);
const kindLists = statics(source('sort_kinds.rt'));
const ownKinds = arms(body(table, 'pub fn own_kinds'));
const expressionSorts = arms(body(table, 'pub fn takes_expressions'));
const restSorts = arms(body(table, 'pub fn with_rest'));

/** The lines of the table by kind: `{ field, content }`, and `rule` of a text, `sort` and `often` of nodes. */
const entries = new Map([...arms(body(table, 'pub fn entries'))].map(([kind, name]) => [kind, lines.get(name).map(entry)]));
/** The kinds of each sort, those of its own first. */
const kindsOf = new Map([...ownKinds].map(([sort, name]) => [sort, kindsInList(sort, name)]));
/** The texts that each rule allows; a rule that isn't here allows every text, `Name` all but the empty one. */
const allowedTexts = new Map([['Meta', ['new', 'import']], ...wordLists(source('operators.rt'))]);

if (entries.size !== kindNames.size || kindsOf.size === 0) {
  throw new Error(`the table of fields in ${folder.pathname} is written in a way that this program doesn't read`);
}

/** All kinds by name. */
export const kinds = [...kindNames.keys()];
/** The name of a kind in the tree form, the text of `type`. */
export const nameOf = kind => kindNames.get(kind);
/** The lines of the table for a kind. */
export const entriesOf = kind => entries.get(kind);
/** The kind of this sort that has this name in the tree form, if there is one. */
export const kindNamed = (sort, name) => kindsOf.get(sort).find(kind => nameOf(kind) === name);
/** Whether some kind has this name. */
export const isKindName = name => [...kindNames.values()].includes(name);
/** Whether a text may stand under this rule. */
export const allows = (rule, text) => rule === 'Name' ? text !== '' : allowedTexts.get(rule)?.includes(text) ?? true;
/** Whether a node of this kind is an expression. */
export const isExpression = kind => kindsOf.get('Expression').includes(kind);
/** Whether nodes stand at this line, and as a list. */
export const isList = entry => !['Required', 'Optional'].includes(entry.often);
/** Whether a list may have holes. */
export const hasHoles = entry => entry.often.startsWith('Elements');

/**
 * The sort of a child: a computed key or property is any expression, a private name stands left of `in` alone, and
 * only the last may be a rest element.
 */
export function sortAt(entry, node, isLast) {
  if ((entry.sort === 'PropertyKey' || entry.sort === 'MemberProperty') && node.computed === true) return 'Expression';
  if (entry.sort === 'BinaryLeft' && node.operator !== 'in') return 'Expression';
  return isLast && entry.often.endsWith('WithRest') ? restSorts.get(entry.sort) ?? entry.sort : entry.sort;
}

function kindsInList(sort, name) {
  const listed = kindLists.get(name);
  return expressionSorts.get(sort) === 'true' ? [...listed, ...kindLists.get('EXPRESSION_KINDS')].map(lastWord) : listed.map(lastWord);
}

/** A line as `Entry { field: FieldName::Body, content: Content::Child(Sort::Statement, Often::List) }` states it. */
function entry(text) {
  const form = /field: FieldName::(\w+),\s*content: Content::(\w+)(?:\(\w+::(\w+)(?:, Often::(\w+))?\))?/;
  const [, field, content, first, often] = text.match(form);
  const line = { field: fieldNames.get(field), content };
  if (content === 'Text') line.rule = first;
  if (content === 'Child') Object.assign(line, { sort: first, often });
  return line;
}

/** The items of each constant list, `pub static NAME: [..] = [..];`. */
function statics(text) {
  const found = text.matchAll(/pub static (\w+): \[\w+; \d+\] = \[([^]*?)\];/g);
  return new Map([...found].map(([, name, items]) => [name, items.match(/Entry \{[^}]*\}|AstType::\w+/g) ?? []]));
}

/** The arms of a match, `A::B | A::C => d`, as a map from `B` and `C` to `d`. */
function arms(text) {
  const found = text.matchAll(/((?:\w+::\w+[\s|]*)+)=>\s*(?:&|"|\w+::)*(\w+)/g);
  return new Map([...found].flatMap(([, left, right]) => left.match(/\w+::\w+/g).map(path => [lastWord(path), right])));
}

/** The texts of each list of words or operators, `Type::Word => "text"`. */
function wordLists(text) {
  const lists = new Map();
  for (const [, type, word] of text.matchAll(/(\w+)::\w+ => "([^"]*)"/g)) lists.set(type, [...(lists.get(type) ?? []), word]);
  return lists;
}

/** The text of a function from its name to the next function. */
function body(text, name) {
  const start = text.indexOf(name);
  return text.slice(start, text.indexOf('fn ', start + name.length));
}

function lastWord(path) { return path.slice(path.lastIndexOf(':') + 1); }
