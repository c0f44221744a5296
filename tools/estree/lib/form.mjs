// The tree form (docs/TREE.md): reading a value as a tree, its canonical and its sparse form, its nodes in order.
import { allows, entriesOf, hasHoles, isKindName, isList, kindNamed, sortAt } from './table.mjs';

/** A value is no form of a tree. */
export class NoTree extends Error {}

const plain = {
  reshape: value => value,
  refuse: (value, path, why) => { throw new NoTree(`the value at "${path}" is no form of a tree: ${why}`); },
};

/**
 * The tree that a value is the form of, with all fields: `type`, `start` and `end`, then those of the table in its order.
 * Another reader may reshape each value before its fields are read, and refuse in its own way.
 */
export function read(value, reader = plain) {
  return readNode(value, 'Program', '', reader);
}

/** The compact text of the canonical form: all fields, keys in the order of their bytes. */
export function canonicalText(tree) {
  const sorted = value => Object.fromEntries(Object.entries(value).sort(([left], [right]) => left < right ? -1 : 1));
  return JSON.stringify(tree, (_, value) => value !== null && typeof value === 'object' && !Array.isArray(value) ? sorted(value) : value);
}

/** The tree without the fields that have their default. */
export function sparse(node, kind = 'Program') {
  const { type, start, end, ...fields } = mapChildren(node, kind, sparse);
  const isRequired = field => entriesOf(kind).some(entry => entry.field === field && entry.content === 'RequiredFlag');
  const isDefault = value => value === null || value === false || (Array.isArray(value) && value.length === 0);
  const kept = Object.entries(fields).filter(([field, value]) => isRequired(field) || !isDefault(value));
  return { type, ...(start && { start }), ...(end && { end }), ...Object.fromEntries(kept) };
}

/** The tree with all spans 0. */
export function withoutSpans(node, kind = 'Program') {
  return { ...mapChildren(node, kind, withoutSpans), start: 0, end: 0 };
}

/** The nodes of a tree in node order: the node with id 6 is the one at index 6. */
export function nodes(tree) {
  const found = [];
  const visit = (node, kind) => {
    found.push(node);
    mapChildren(node, kind, visit);
  };
  visit(tree, 'Program');
  return found;
}

/** The node with each child replaced by what `change(child, its kind, the table's line, its index)` gives. */
export function mapChildren(node, kind, change) {
  const changed = { ...node };
  for (const entry of entriesOf(kind).filter(({ content }) => content === 'Child')) {
    const value = node[entry.field];
    const at = (child, index, isLast) => child && change(child, kindNamed(sortAt(entry, node, isLast), child.type), entry, index);
    changed[entry.field] = isList(entry) ? value.map((child, index) => at(child, index, index === value.length - 1)) : at(value, 0, false);
  }
  return changed;
}

function readNode(value, sort, path, reader) {
  if (typeof value?.type !== 'string') reader.refuse(value, path, 'it is no node');
  const shaped = reader.reshape(value, sort);
  const kind = kindNamed(sort, shaped.type);
  if (kind === undefined) {
    reader.refuse(value, `${path}/type`, `${shaped.type} ${isKindName(shaped.type) ? 'can\'t stand here' : 'has no form in the tree'}`);
  }
  const node = { type: shaped.type };
  for (const field of ['start', 'end']) node[field] = readSpan(shaped[field] ?? 0, why => reader.refuse(value, `${path}/${field}`, why));
  for (const entry of entriesOf(kind)) {
    const { field, content } = entry;
    const refuse = why => reader.refuse(value, `${path}/${field}`, why);
    if (content === 'Child') node[field] = readChildren(shaped, entry, `${path}/${field}`, reader, refuse);
    else if (content === 'Refused') refuseAttribute(shaped[field], entry, refuse);
    else node[field] = readAttribute(shaped[field], entry, refuse);
  }
  return node;
}

function readSpan(value, refuse) {
  if (!Number.isInteger(value) || value < 0 || value >= 2 ** 32) refuse('it is no whole number below 2^32');
  return value;
}

function readChildren(node, entry, path, reader, refuse) {
  const value = node[entry.field];
  const child = (item, isLast, place) => readNode(item, sortAt(entry, node, isLast), place, reader);
  if (!isList(entry)) {
    if (value == null && entry.often === 'Required') refuse(`${entry.field} is missing`);
    return value == null ? null : child(value, false, path);
  }
  const list = value ?? [];
  if (!Array.isArray(list)) refuse(`${entry.field} is no list`);
  if (list.length === 0 && entry.often === 'NonEmptyList') refuse(`${entry.field} is empty`);
  return list.map((item, index) => item === null && hasHoles(entry) ? null : child(item, index === list.length - 1, `${path}/${index}`));
}

/** A field that is never written: only false, null or nothing may stand there. */
function refuseAttribute(value, { field }, refuse) {
  if (value) refuse(`${field} has no form in the tree`);
}

/** A text or a truth value. */
function readAttribute(value, { field, content, rule }, refuse) {
  const isText = typeof value === 'string' && !/\p{Surrogate}/u.test(value);
  switch (content) {
    case 'Flag': return typeof (value ?? false) === 'boolean' ? value ?? false : refuse(`${field} is no truth value`);
    case 'RequiredFlag': return typeof value === 'boolean' ? value : refuse(`${field} is no truth value`);
    case 'OptionalText': return value == null ? null : isText ? value : refuse(`${field} is no text of Unicode scalar values`);
    default:
      if (!isText) refuse(`${field} is no text of Unicode scalar values`);
      return allows(rule, value) ? value : refuse(`${field} can't be "${value}"`);
  }
}
