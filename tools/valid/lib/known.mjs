// What is known: where the tool's static rules refuse sloppy code that engines take (docs/STATIC_RULES.md, "What differs from
// ECMA-262"), and where one of the engines refuses what ECMA-262 and the other one take.
import { mapChildren, nodes } from '../../estree/lib/form.mjs';
import { OWN_FAULT } from './engines.mjs';

/** Whether a refusal `lower: invalid RULE at node ID` is one of those that the page states. */
export function isStatedAsStricter(rule, id, tree) {
  const node = nodes(tree)[id];
  const { parent, isParameter } = placeOf(node, tree);
  switch (rule) {
    case 'MisplacedDeclaration': return node.type === 'FunctionDeclaration';
    case 'BadFor': return parent.type === 'ForInStatement' && node.kind !== 'let' && node.kind !== 'const';
    case 'DuplicateName': return isParameter || parent.type === 'FunctionDeclaration';
    default: return false;
  }
}

/** The node around a node, and whether it stands in the parameters of a function. */
function placeOf(wanted, tree) {
  let found = {};
  const visit = (node, kind, isParameter) => {
    mapChildren(node, kind, (child, childKind, { field }) => {
      const inParameters = field === 'params' || (isParameter && field !== 'body');
      if (child === wanted) found = { parent: node, isParameter: inParameters };
      visit(child, childKind, inParameters);
      return child;
    });
  };
  visit(tree, 'Program', false);
  return found;
}

/** The known fault of the one engine that refuses a lowered program; nothing where it is none. */
export function knownFault(errors, tree, text) {
  if (errors.length !== 1) return undefined;
  const [error] = errors;
  if (error === `V8: ${OWN_FAULT}`) return `V8: ${OWN_FAULT}`;
  if (OF_PATTERNS.test(error) && nodes(tree).some(hasPatternBehind)) return 'V8 refuses `f([1], [] = a)`';
  if (error.startsWith('JavaScriptCore: ') && LET_AT_HEAD.test(text)) return 'JavaScriptCore refuses the name `let` in front in the head of a `for`';
  return undefined;
}

/** What V8 says of an argument that no pattern can be, where a later one assigns to a pattern. */
const OF_PATTERNS = /^V8: SyntaxError: (?:Invalid destructuring assignment target|Rest element must be last element)$/;

/** The head of a `for` that begins with `let` as a name. */
const LET_AT_HEAD = /\bfor \(let(?: ?(?![\p{ID_Start}$_\\[{ ])| (?:in|instanceof)\b)/u;

/** A call with an argument behind others that assigns to a pattern. */
function hasPatternBehind(node) {
  return Array.isArray(node.arguments) && node.arguments.slice(1).some(item => {
    const { type, left } = item.type === 'SpreadElement' ? item.argument : item;
    return type === 'AssignmentExpression' && left.type.endsWith('Pattern');
  });
}
