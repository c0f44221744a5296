// Trees as plain trees of the definitions (crates/es_tree/specs/Tree.antt), and back.
import { entriesOf, hasHoles, isList, kindNamed, nameOf, sortAt } from '../../estree/lib/table.mjs';
import { bytesOf, datum } from './definitions.mjs';

export function plainTree(node, kind = 'Program') {
  const texts = [];
  const flags = [];
  const fields = [];
  for (const entry of entriesOf(kind)) {
    const value = node[entry.field];
    if (entry.content === 'Child') fields.push(...fieldsOf(entry, node, value));
    else if (entry.content.endsWith('Flag')) flags.push(value);
    else if (entry.content.endsWith('Text')) texts.push(value === null ? datum('None') : datum('Some', bytesOf(value)));
  }
  return datum('node', datum(kind), { id: 0, start: 0, stop: 0, texts, flags, marks: [] }, inRow(fields, 'done', 'then'));
}

function fieldsOf(entry, node, value) {
  const tree = (child, isLast) => plainTree(child, kindNamed(sortAt(entry, node, isLast), child.type));
  const field = (child, isLast) => child === null ? datum('missing') : datum('one', tree(child, isLast));
  if (!isList(entry)) return [field(value, false)];
  const isLast = index => index === value.length - 1;
  if (hasHoles(entry)) return value.map((child, index) => field(child, isLast(index)));
  const trees = inRow(value.map((child, index) => tree(child, isLast(index))), 'empty', 'before');
  return [datum(entry.often === 'Statements' ? 'statements' : 'many', trees)];
}

function inRow(items, end, between) {
  return items.reduceRight((rest, item) => datum(between, item, rest), datum(end));
}

/** The tree form of a plain tree: its texts, flags and fields in the order of the table. */
export function treeOf({ a: [{ c: kind }, label, row] }) {
  const [texts, flags, fields] = [[...label.texts], [...label.flags], itemsOf(row)];
  const tree = { type: nameOf(kind), start: 0, end: 0 };
  for (const entry of entriesOf(kind)) {
    if (entry.content === 'Child') tree[entry.field] = hasHoles(entry) ? fields.splice(0).map(childOf) : valueOf(entry, fields.shift());
    else if (entry.content.endsWith('Flag')) tree[entry.field] = flags.shift() ?? false;
    else if (entry.content.endsWith('Text')) tree[entry.field] = textOf(texts.shift());
  }
  return tree;
}

function valueOf(entry, field) {
  return isList(entry) ? itemsOf(field?.a[0]).map(treeOf) : childOf(field);
}

function childOf(field) {
  return field?.c === 'one' ? treeOf(field.a[0]) : null;
}

function textOf(option) {
  return option?.c === 'Some' ? Buffer.from(option.a[0]).toString('utf8') : null;
}

function itemsOf(row) {
  return row === undefined || row.a.length === 0 ? [] : [row.a[0], ...itemsOf(row.a[1])];
}
