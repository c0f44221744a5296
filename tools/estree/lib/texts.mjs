// JavaScript texts against trees: the tree of an input and of a lowered text, and where a text and a tree part.
import { mapChildren, nodes, withoutSpans } from './form.mjs';
import { withNeededParentheses } from './parentheses.mjs';
import { parse } from './parsers.mjs';
import { estreeToTree } from '../estree-to-tree.mjs';
import { treeToEstree } from '../tree-to-estree.mjs';

/** A hashbang line, if the text has one, and the text with a comment in its place, as it has no form in a tree (ECMA-262, 12.5). */
export function splitHashbang(text) {
  const [hashbang] = text.match(/^#!.*/) ?? [''];
  return { hashbang, text: hashbang === '' ? text : `//${text.slice(2)}` };
}

/** The tree of a text, with every parenthesis as a node. */
export function textToTree(text, { module, mayBeInvalid, zero, path } = {}) {
  return estreeToTree(parse(text, { module, mayBeInvalid, path }), text, { zero, path });
}

/**
 * The tree of a lowered text, with spans 0. A lowering makes no parentheses, so those that the text needs are no
 * nodes here, but where a comment says that one was kept from the source, as in `/*kept*\/(a, b).c`.
 */
export function loweredTextToTree(text, { module } = {}) {
  const tree = textToTree(text, { module });
  const isKept = node => text.slice(0, node.start).trimEnd().endsWith('/*kept*/');
  const needed = new Set(parentheses(tree).filter(node => !isKept(node) && isNeeded(node, tree)).map(({ start }) => start));
  return withoutSpans(withoutParentheses(tree, node => needed.has(node.start)));
}

/**
 * Where a text and a tree part, if they do. Parentheses that the tree hasn't but its text needs are passed over: a
 * lowering makes none, and a parser may leave them out. So are the spans of nodes that have none in the tree.
 */
export function textDifference(text, tree, options) {
  const textTree = textToTree(text, options);
  const difference = firstDifference(asIn(tree, textTree), tree);
  if (difference) return difference;
  const extra = parentheses(textTree).length - parentheses(tree).length;
  const needed = parentheses(withNeededParentheses(tree)).length - parentheses(tree).length;
  return extra === needed ? undefined : `the text has ${extra} parentheses that the tree has not, and it needs ${needed}`;
}

/** Where a printed text and its tree part: what the text needs beyond the tree comes back as nodes. */
export function printedDifference(text, tree, { module, mayBeInvalid } = {}) {
  return firstDifference(textToTree(text, { module, mayBeInvalid, zero: true }), withoutSpans(withNeededParentheses(tree)));
}

/** Where the parentheses of a text and those that it needs part. */
export function neededDifference(text) {
  const tree = withoutSpans(textToTree(text));
  return firstDifference(withNeededParentheses(withoutParentheses(tree, () => true)), tree);
}

/** Where a tree and what comes back of its ESTree part. */
export function estreeDifference(tree) {
  return firstDifference(estreeToTree(treeToEstree(tree, { parentheses: true }), ''), tree);
}

/** The first place where two trees part, and what stands there in each; nothing where they are the same. */
export function firstDifference(left, right, path = '') {
  if (typeof left !== 'object' || typeof right !== 'object' || left === null || right === null || left.type !== right.type) {
    return left === right ? undefined : `${path}: ${summary(left)} against ${summary(right)}`;
  }
  if (Array.isArray(left) && left.length !== right.length) return `${path}: ${left.length} items against ${right.length}`;
  for (const field of new Set([...Object.keys(left), ...Object.keys(right)])) {
    const difference = firstDifference(left[field], right[field], `${path}/${field}`);
    if (difference) return difference;
  }
  return undefined;
}

function summary(value) {
  return value?.type ?? JSON.stringify(value);
}

function parentheses(tree) {
  return nodes(tree).filter(({ type }) => type === 'ParenthesizedExpression');
}

/** Whether the text of a tree that has all its parentheses needs this one: without it, it or another one is added. */
function isNeeded(node, tree) {
  const without = withoutParentheses(tree, other => other.start === node.start);
  return parentheses(withNeededParentheses(without)).length === parentheses(tree).length;
}

/** A tree without the parentheses that are dropped. */
export function withoutParentheses(node, isDropped, kind = 'Program') {
  if (kind === 'ParenthesizedExpression' && isDropped(node)) return withoutParentheses(node.expression, isDropped, node.expression.type);
  return mapChildren(node, kind, (child, childKind) => withoutParentheses(child, isDropped, childKind));
}

/** A text's tree without the parentheses and spans that the other one hasn't at that place. */
function asIn(tree, textTree) {
  if (typeof textTree !== 'object' || textTree === null) return textTree;
  if (Array.isArray(textTree)) return textTree.map((item, index) => asIn(tree?.[index], item));
  if (textTree.type === 'ParenthesizedExpression' && tree?.type !== textTree.type) return asIn(tree, textTree.expression);
  const fields = Object.entries(textTree).map(([field, value]) => [field, asIn(tree?.[field], value)]);
  return { ...Object.fromEntries(fields), ...(tree?.end === 0 && { start: 0, end: 0 }) };
}
