// Expressions. Each comes as its text and the level of the grammar that it is of.
import { Names } from './names.mjs';

export const LEVEL = Object.fromEntries(`Sequence Assignment Conditional ShortCircuit And BitwiseOr BitwiseXor BitwiseAnd Equality
  Relational Shift Additive Multiplicative Exponentiation Unary Update LeftHandSide Call Member Primary`
  .split(/\s+/).map((name, level) => [name, level]));

const BINARY = [
  ['|', 'BitwiseOr'], ['^', 'BitwiseXor'], ['&', 'BitwiseAnd'], ['==', 'Equality'], ['!==', 'Equality'],
  ['<', 'Relational'], ['in', 'Relational'], ['instanceof', 'Relational'], ['>>>', 'Shift'],
  ['+', 'Additive'], ['-', 'Additive'], ['*', 'Multiplicative'], ['%', 'Multiplicative'],
];
const LOWERED_ASSIGNMENTS = ['**=', '||=', '&&=', '??='];
const ASSIGNMENTS = ['=', '=', '+=', '-=', '<<=', '>>>=', '|='];
const LITERALS = [
  '0', '1', '2.5', '.5', '1.', '0x10', '1_000', '1e3', '1n', '0x1Fn', 'null', 'true', 'false',
  '"s"', "'t\\n'", '""', '"use strict"', '"\\u2028"', '/a/g', '/[/]b/u',
];
const KEYS = ['"x y"', "'a'", '"class"', '0', '1.5', '0x10', '1n'];

export class Expressions extends Names {
  /** An expression that may stand where this level is asked for. */
  expression(level = LEVEL.Assignment) {
    const { text, level: own } = this.within({ depth: this.at.depth - 1 }, () => this.anyExpression());
    return own < level || this.chance(0.06) ? `(${text})` : text;
  }

  anyExpression() {
    if (this.at.depth <= 0 || this.size <= 0) return this.chance(0.3) ? this.tiny() : this.small();
    this.size -= 1;
    return this[this.weighted([
      [4, 'small'], [7, 'coalesce'], [9, 'chain'], [7, 'loweredAssignment'], [5, 'power'],
      [2, 'logical'], [3, 'binary'], [2, 'unary'], [3, 'deletion'], [2, 'update'], [3, 'member'], [3, 'call'], [1, 'creation'],
      [2, 'conditional'], [1, 'sequence'], [3, 'assignment'], [2, 'patternAssignment'], [2, 'array'], [3, 'object'],
      [2, 'functionExpression'], [4, 'arrow'], [2, 'classExpression'], [2, 'template'], [1, 'tagged'], [1, 'privateIn'], [1, 'meta'],
      [this.isWide ? 4 : 0, 'formless'],
    ])]();
  }

  small() {
    const text = this.weighted([[8, 'name'], [2, 'literal'], [1, 'this']]);
    return { text: text === 'name' ? this.name() : text === 'this' ? 'this' : this.pick(LITERALS), level: LEVEL.Primary };
  }

  // What is lowered.

  /** A construct of names alone. */
  tiny() {
    const [left, right] = [this.plainName(), this.name()];
    const member = `${left}${this.pick(['?.', '.'])}${this.propertyName()}`;
    return this.pick([
      { text: `${left} ?? ${right}`, level: LEVEL.ShortCircuit }, { text: `${left} ** ${right}`, level: LEVEL.Exponentiation },
      { text: `${left}?.${this.propertyName()}`, level: LEVEL.LeftHandSide }, { text: `${left}?.(${right})`, level: LEVEL.LeftHandSide },
      { text: `${left} ${this.pick(LOWERED_ASSIGNMENTS)} ${right}`, level: LEVEL.Assignment },
      { text: `${left}.${this.propertyName()} ${this.pick(LOWERED_ASSIGNMENTS)} ${right}`, level: LEVEL.Assignment },
      { text: `delete ${member}`, level: LEVEL.Unary }, { text: `typeof ${member}`, level: LEVEL.Unary },
    ]);
  }

  coalesce() {
    const left = this.chance(0.2) ? this.coalesceText() : this.expression(LEVEL.BitwiseOr);
    return { text: `${left} ?? ${this.expression(LEVEL.BitwiseOr)}`, level: LEVEL.ShortCircuit };
  }

  coalesceText() { return `${this.expression(LEVEL.BitwiseOr)} ?? ${this.expression(LEVEL.BitwiseOr)}`; }

  power() {
    return { text: `${this.expression(LEVEL.Update)} ** ${this.expression(LEVEL.Exponentiation)}`, level: LEVEL.Exponentiation };
  }

  loweredAssignment() {
    return { text: `${this.simpleTarget()} ${this.pick(LOWERED_ASSIGNMENTS)} ${this.expression()}`, level: LEVEL.Assignment };
  }

  /** A chain with one mark or more. */
  chain() {
    const steps = this.some(1, 4, () => this.step(this.chance(0.5)));
    steps[this.below(steps.length)] = this.step(true);
    return { text: this.chainBase() + steps.join(''), level: LEVEL.LeftHandSide };
  }

  chainBase() {
    if (this.chance(0.12) && this.at.superMember) return this.superMember();
    if (this.chance(0.15)) return `(${this.chain().text})`;
    return this.expression(LEVEL.Call).replace(/^\d[\d_]*$/, '($&)');
  }

  step(isMarked) {
    const mark = isMarked ? '?.' : '';
    const { privates } = this.at;
    if (privates.length > 0 && this.chance(0.2)) return `${mark || '.'}#${this.pick(privates)}`;
    return this.weighted([[5, 'name'], [3, 'key'], [4, 'call']].map(([weight, kind]) => [weight, () => ({
      name: () => (mark || '.') + this.propertyName(),
      key: () => `${mark}[${this.expression(LEVEL.Sequence)}]`,
      call: () => `${mark}(${this.argumentList()})`,
    })[kind]()]))();
  }

  deletion() {
    const target = this.chance(0.7) ? this.deletedChain() : this.memberText(false);
    return { text: `delete ${this.chance(0.2) ? `(${target})` : target}`, level: LEVEL.Unary };
  }

  /** A chain that doesn't end with a private name. */
  deletedChain() {
    const { text } = this.chain();
    return /#[^.()[\]]+$/.test(text) ? `${text}.${this.propertyName()}` : text;
  }

  // Operators.

  logical() {
    const isAnd = this.chance(0.5);
    const level = isAnd ? LEVEL.BitwiseOr : LEVEL.And;
    return { text: `${this.expression(level)} ${isAnd ? '&&' : '||'} ${this.expression(level)}`, level: isAnd ? LEVEL.And : LEVEL.ShortCircuit };
  }

  binary() {
    const [operator, name] = this.pick(BINARY);
    return { text: `${this.expression(LEVEL[name])} ${operator} ${this.expression(LEVEL[name] + 1)}`, level: LEVEL[name] };
  }

  unary() {
    return { text: `${this.pick(['!', '- ', '+ ', '~', 'typeof ', 'void '])}${this.expression(LEVEL.Unary)}`, level: LEVEL.Unary };
  }

  update() {
    const operator = this.pick(['++', '--']);
    const target = this.simpleTarget();
    return this.chance(0.5) ? { text: operator + target, level: LEVEL.Unary } : { text: target + operator, level: LEVEL.Update };
  }

  conditional() {
    return { text: `${this.expression(LEVEL.ShortCircuit)} ? ${this.expression()} : ${this.expression()}`, level: LEVEL.Conditional };
  }

  sequence() {
    return { text: this.some(2, 3, () => this.expression()).join(', '), level: LEVEL.Sequence };
  }

  assignment() {
    return { text: `${this.simpleTarget()} ${this.pick(ASSIGNMENTS)} ${this.expression()}`, level: LEVEL.Assignment };
  }

  patternAssignment() {
    return { text: `${this.target(2)} = ${this.expression()}`, level: LEVEL.Assignment };
  }

  privateIn() {
    const { privates } = this.at;
    return privates.length > 0 ? { text: `#${this.pick(privates)} in ${this.expression(LEVEL.Shift)}`, level: LEVEL.Relational } : this.coalesce();
  }

  // Members, calls and targets.

  member() { return { text: this.memberText(true), level: LEVEL.Call }; }

  memberText(mayBePrivate) {
    if (this.at.superMember && this.chance(0.25)) return this.superMember();
    const object = this.expression(LEVEL.Call).replace(/^\d[\d_]*$/, '($&)');
    const { privates } = this.at;
    if (mayBePrivate && privates.length > 0 && this.chance(0.35)) return `${object}.#${this.pick(privates)}`;
    return this.chance(0.5) ? `${object}.${this.propertyName()}` : `${object}[${this.expression(LEVEL.Sequence)}]`;
  }

  superMember() { return this.chance(0.6) ? `super.${this.propertyName()}` : `super[${this.expression(LEVEL.Sequence)}]`; }

  call() {
    if (this.at.superCall && this.chance(0.3)) return { text: `super(${this.argumentList()})`, level: LEVEL.Call };
    return { text: `${this.expression(LEVEL.Call)}(${this.argumentList()})`, level: LEVEL.Call };
  }

  creation() {
    const callee = this.chance(0.4) ? `(${this.chain().text})` : this.expression(LEVEL.Primary);
    return { text: `new ${callee}(${this.argumentList()})`, level: LEVEL.Member };
  }

  argumentList() { return this.some(0, 2, () => (this.chance(0.15) ? '...' : '') + this.expression()).join(', '); }

  simpleTarget() {
    const text = this.chance(0.4) ? this.targetName() : this.memberText(true);
    return this.chance(0.06) ? `(${text})` : text;
  }

  /** A target of an assignment: a name, a member or a pattern. */
  target(depth, isPattern = true) {
    if (!isPattern || depth <= 0) return this.simpleTarget();
    const inner = () => this.target(depth - 1, this.chance(0.4)) + (this.chance(0.5) ? ` = ${this.expression()}` : '');
    if (this.chance(0.5)) {
      const items = this.some(0, 3, () => this.chance(0.15) ? '' : inner());
      return `[${[...items, ...(this.chance(0.2) ? [`...${this.target(depth - 1, this.chance(0.3))}`] : [])].join(', ')}]`;
    }
    const properties = this.some(0, 3, () => this.chance(0.3) ? this.shorthandTarget() : `${this.key()}: ${inner()}`);
    return `{ ${[...properties, ...(this.chance(0.2) ? [`...${this.simpleTarget()}`] : [])].join(', ')} }`;
  }

  shorthandTarget() { return this.targetName() + (this.chance(0.5) ? ` = ${this.expression()}` : ''); }

  // Literals, templates and what stands for itself.

  array() {
    const items = this.some(0, 3, () => this.chance(0.1) ? '' : (this.chance(0.15) ? '...' : '') + this.expression());
    return { text: `[${items.join(', ')}]`, level: LEVEL.Primary };
  }

  object() { return { text: `{ ${this.some(0, 3, () => this.property()).join(', ')} }`, level: LEVEL.Primary }; }

  property() {
    return this.weighted([
      [4, () => `${this.key()}: ${this.expression()}`], [2, () => this.name()], [1, () => `...${this.expression()}`],
      [2, () => this.method(this.key(), { superMember: true })], [1, () => this.accessor({ superMember: true })],
    ])();
  }

  /** The key of a property, a method or a field. */
  key() {
    if (this.chance(0.3)) return `[${this.expression()}]`;
    return this.chance(0.2) ? this.pick(KEYS) : this.pick(['a', 'b', 'x', '_a', 'get', 'set', 'async', 'default', 'let', 'é']);
  }

  template() { return { text: this.templateText(['a', '\\n', '$', '\\`', '']), level: LEVEL.Primary }; }

  templateText(pieces) {
    return `\`${this.pick(pieces)}${this.some(0, 2, () => `\${${this.expression(LEVEL.Sequence)}}${this.pick(pieces)}`).join('')}\``;
  }

  tagged() {
    const tag = this.chance(0.02) ? `(${this.chain().text})` : this.expression(LEVEL.Call);
    return { text: tag + this.templateText(['a', '\\u{', '\\01', '']), level: LEVEL.Call };
  }

  meta() {
    const choices = [...(this.at.newTarget ? ['new.target'] : []), ...(this.isModule ? ['import.meta'] : [])];
    return choices.length > 0 ? { text: this.pick(choices), level: LEVEL.Member } : this.chain();
  }

  /** What has no form in the tree yet, or takes it soon. */
  formless() {
    if (this.at.isAsync && !this.at.inParameters && this.chance(0.6)) return { text: `await ${this.expression(LEVEL.Unary)}`, level: LEVEL.Unary };
    if (this.at.isGenerator && !this.at.inParameters && this.chance(0.6)) {
      return { text: `yield ${this.chance(0.3) ? '* ' : ''}${this.expression()}`, level: LEVEL.Assignment };
    }
    return this.chance(0.2) ? { text: `import(${this.expression()})`, level: LEVEL.Call } : this.functionExpression();
  }
}
