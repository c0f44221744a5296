// Which parentheses the text of a tree needs (ECMA-262, 13 to 16: the grammar of expressions, and what may not begin a statement).
import { mapChildren } from './form.mjs';
import { isExpression } from './table.mjs';

/** The productions of expressions, each of which takes those behind it. */
const LEVELS = words(`Sequence Assignment Conditional ShortCircuit LogicalAnd BitwiseOr BitwiseXor BitwiseAnd Equality Relational
  Shift Additive Multiplicative Exponentiation Unary Update LeftHandSide Call Member Primary`);
const LEVEL = Object.fromEntries(LEVELS.map((name, index) => [name, index]));

const OPERATOR_LEVEL = levels({
  ShortCircuit: '?? ||',
  LogicalAnd: '&&',
  BitwiseOr: '|',
  BitwiseXor: '^',
  BitwiseAnd: '&',
  Equality: '== != === !==',
  Relational: '< <= > >= in instanceof',
  Shift: '<< >> >>>',
  Additive: '+ -',
  Multiplicative: '* / %',
  Exponentiation: '**',
});

/** The levels of the kinds that are below `Primary` and have one level. */
const KIND_LEVEL = levels({
  Sequence: 'SequenceExpression',
  Assignment: 'AssignmentExpression ArrowFunctionExpression',
  Conditional: 'ConditionalExpression',
  Unary: 'UnaryExpression',
  Update: 'UpdateExpression',
  LeftHandSide: 'ChainExpression',
  Call: 'CallExpression',
  Member: 'NewExpression',
});

/** The least level that may stand at a place; an assignment at those that aren't named. */
const PLACE_LEVEL = levels({
  Sequence: `ExpressionStatement.expression ParenthesizedExpression.expression IfStatement.test WhileStatement.test
    DoWhileStatement.test ForStatement.init ForStatement.test ForStatement.update ForInStatement.right
    ReturnStatement.argument ThrowStatement.argument SwitchStatement.discriminant SwitchCase.test
    TemplateLiteral.expressions MemberExpression.property`,
  ShortCircuit: 'ConditionalExpression.test',
  Unary: 'UnaryExpression.argument',
  LeftHandSide: `UpdateExpression.argument AssignmentExpression.left TargetWithDefault.left TargetProperty.value
    ArrayTarget.elements TargetRest.argument ForInStatement.left ForOfStatement.left ClassDeclaration.superClass
    ClassExpression.superClass`,
  Call: 'MemberExpression.object CallExpression.callee TaggedTemplateExpression.tag ChainExpression.expression',
  Member: 'NewExpression.callee',
});

/** The places whose text may not begin with everything. */
const BEGINNING = byWord({
  statement: 'ExpressionStatement.expression',
  'arrow body': 'ArrowFunctionExpression.body',
  'default export': 'ExportDefaultDeclaration.declaration',
  for: 'ForStatement.init ForInStatement.left',
  'for of': 'ForOfStatement.left',
});

/** The children that the text of the node around them begins with. */
const FIRST = new Set(words(`SequenceExpression.expressions AssignmentExpression.left ConditionalExpression.test
  LogicalExpression.left BinaryExpression.left MemberExpression.object CallExpression.callee TaggedTemplateExpression.tag
  ChainExpression.expression UpdateExpression.argument`));

/** The places in the head of a `for` that may not hold a bare `in`, and those that hand this down. */
const WITHOUT_IN = new Set(words('ForStatement.init ForInStatement.left ForOfStatement.left'));
const HANDS_DOWN = new Set(words(`VariableDeclaration.declarations VariableDeclarator.init SequenceExpression.expressions
  AssignmentExpression.right ConditionalExpression.test ConditionalExpression.alternate LogicalExpression.left
  LogicalExpression.right BinaryExpression.left BinaryExpression.right ArrowFunctionExpression.body`));

/**
 * The tree with what its text needs: parentheses as `ParenthesizedExpression` nodes where the grammar asks for
 * them, and a block around an `if` that would else take the `else` of the one around it.
 */
export function withNeededParentheses(tree) {
  return withParentheses(tree, 'Program', {});
}

function withParentheses(node, kind, place) {
  if (isExpression(kind) && needsParentheses(node, kind, place)) {
    return { type: 'ParenthesizedExpression', start: 0, end: 0, expression: withParentheses(node, kind, { level: LEVEL.Sequence }) };
  }
  return mapChildren(node, kind, (child, childKind, { field }, index) => {
    const kept = withParentheses(child, childKind, placeOf(child, node, kind, field, index, place));
    const needsBlock = kind === 'IfStatement' && field === 'consequent' && node.alternate && takesElse(child);
    return needsBlock ? { type: 'BlockStatement', start: 0, end: 0, body: [kept] } : kept;
  });
}

function needsParentheses(node, kind, place) {
  return levelOf(node, kind) < place.level
    || (place.withoutIn && kind === 'BinaryExpression' && node.operator === 'in')
    || (place.isFirstInBody && kind === 'StringLiteral')
    || beginsBadly(node, kind, place);
}

/** What is known of the place of a child, by that of the node around it. */
function placeOf(child, node, kind, field, index, place) {
  const name = `${kind}.${field}`;
  const isFirst = FIRST.has(name) && index === 0 && !(kind === 'UpdateExpression' && node.prefix);
  return {
    level: PLACE_LEVEL[name] ?? operandLevel(child, node, kind, field) ?? LEVEL.Assignment,
    beginning: BEGINNING[name] ?? (isFirst ? place.beginning : undefined),
    isWhole: name in BEGINNING,
    isBeforeBracket: kind === 'MemberExpression' && node.computed && !node.optional,
    withoutIn: WITHOUT_IN.has(name) || (HANDS_DOWN.has(name) && place.withoutIn),
    isFirstInBody: (/^(Program|FunctionBody)\.body$/.test(name) && index === 0) || (kind === 'ExpressionStatement' && place.isFirstInBody),
  };
}

function operandLevel(child, node, kind, field) {
  const isLeft = field === 'left';
  if (kind === 'BinaryExpression' && node.operator === '**') return isLeft ? LEVEL.Update : LEVEL.Exponentiation;
  if (kind === 'BinaryExpression') return OPERATOR_LEVEL[node.operator] + (isLeft ? 0 : 1);
  if (kind !== 'LogicalExpression') return undefined;
  const mixes = child.type === 'LogicalExpression' && (child.operator === '??') !== (node.operator === '??');
  return mixes ? LEVEL.BitwiseOr : OPERATOR_LEVEL[node.operator] + (isLeft ? 0 : 1);
}

function levelOf(node, kind) {
  if (kind === 'MemberExpression') return spineLevel(node.object);
  if (kind === 'TaggedTemplateExpression') return spineLevel(node.tag);
  if (kind === 'BinaryExpression' || kind === 'LogicalExpression') return OPERATOR_LEVEL[node.operator];
  return KIND_LEVEL[kind] ?? LEVEL.Primary;
}

/** A member of a call is itself no callee of `new`. */
function spineLevel(object) {
  return levelOf(object, object.type) === LEVEL.Call ? LEVEL.Call : LEVEL.Member;
}

/** Whether a text that begins with this node would be read as something else. */
function beginsBadly(node, kind, { beginning, isWhole, isBeforeBracket }) {
  const isOneOf = (...names) => names.includes(beginning);
  switch (kind) {
    case 'ObjectExpression': return isOneOf('statement', 'arrow body');
    case 'AssignmentExpression': return isOneOf('statement', 'arrow body') && node.left.type === 'ObjectPattern';
    case 'FunctionExpression': case 'ClassExpression': return isOneOf('statement', 'default export');
    case 'Identifier':
      if (node.name === 'let') return isOneOf('for of') || (isOneOf('statement', 'for') && isBeforeBracket);
      return node.name === 'async' && isOneOf('for of') && isWhole;
    default: return false;
  }
}

/** Whether an `else` behind this statement would belong to an `if` at its end. */
function takesElse(statement) {
  switch (statement.type) {
    case 'IfStatement': return statement.alternate === null || takesElse(statement.alternate);
    case 'ForStatement': case 'ForInStatement': case 'ForOfStatement': case 'WhileStatement': case 'LabeledStatement':
      return takesElse(statement.body);
    default: return false;
  }
}

function levels(groups) {
  return Object.fromEntries(Object.entries(byWord(groups)).map(([word, level]) => [word, LEVEL[level]]));
}

/** From the words of each group to the group's name. */
function byWord(groups) {
  return Object.fromEntries(Object.entries(groups).flatMap(([name, list]) => words(list).map(word => [word, name])));
}

function words(list) {
  return list.split(/\s+/);
}
