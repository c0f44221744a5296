// Functions, parameters, patterns of declarations, and classes.
import { Expressions, LEVEL } from './expressions.mjs';
import { PRIVATES } from './names.mjs';

/** What a function's body may hold that its place may not, or the other way round. */
const FUNCTION = {
  returns: true, inLoop: false, inSwitch: false, labels: [], newTarget: true, hasArguments: true,
  superMember: false, superCall: false, inStaticBlock: false,
};

/** What a field's value or a static block may not hold, beside that. */
const INITIALISER = { ...FUNCTION, returns: false, hasArguments: false, superMember: true, isAsync: false, isGenerator: false };

export class Functions extends Expressions {
  functionExpression() {
    const [mark, star, more] = this.functionSort();
    const text = this.within({ ...FUNCTION, ...more }, () => {
      const head = `${mark}function${star} ${this.chance(0.4) ? this.ownName(more) : ''}`;
      return head + this.parametersAndBody();
    });
    return { text, level: LEVEL.Primary };
  }

  functionDeclaration(name) {
    const [mark, star, more] = this.functionSort();
    return this.within({ ...FUNCTION, ...more }, () => `${mark}function${star} ${name}${this.parametersAndBody()}`);
  }

  /** A name of a function expression, which is its own. */
  ownName({ isAsync, isGenerator }) {
    const name = this.plainName();
    return (isAsync && name === 'await') || (isGenerator && name === 'yield') ? 'a' : name;
  }

  /** `async`, `*` and what they mean inside; only wide programs have them. */
  functionSort() {
    const isAsync = this.isWide && this.chance(0.4);
    const isGenerator = this.isWide && this.chance(0.3);
    return [isAsync ? 'async ' : '', isGenerator ? '*' : '', { isAsync, isGenerator }];
  }

  arrow() {
    const isAsync = this.isWide && this.chance(0.3);
    const makes = { returns: true, inLoop: false, inSwitch: false, labels: [], isGenerator: false, isAsync, inStaticBlock: this.at.inStaticBlock };
    const text = this.within(makes, () => {
      const mark = isAsync ? 'async ' : '';
      if (this.chance(0.35)) return mark + this.parametersAndBody(' => ');
      return mark + this.inScope(() => {
        const head = this.parameters(false);
        const body = this.expression();
        return `${head} => ${body.startsWith('{') ? `(${body})` : body}`;
      }, { isFunction: true });
    });
    return { text, level: LEVEL.Assignment };
  }

  /** Parameters and a body, which may begin with a directive. */
  parametersAndBody(between = ' ') {
    const directive = this.chance(0.12) ? this.pick(['"use strict";', "'use strict';", '"use\\x20strict";', '"a";']) : '';
    const isStrict = /^.use strict/.test(directive);
    return this.within({ strict: this.at.strict || isStrict }, () => this.inScope(() => {
      const head = this.parameters(isStrict, between === ' ');
      const body = this.statements(0, 3);
      return `${head}${between}{ ${[directive, ...body].join(' ')} }`;
    }, { isFunction: true }));
  }

  parameters(mustBeSimple, mayRepeat = false) {
    if (mayRepeat && !this.at.strict && this.chance(0.01)) return '(a, a)';
    return this.within({ inParameters: true }, () => {
      const names = this.some(0, 3, () => mustBeSimple || this.chance(0.35) ? this.declared(true) : this.bindingWithDefault(true));
      const rest = !mustBeSimple && this.chance(0.1) ? [`...${this.binding(true, 1)}`] : [];
      return `(${[...names, ...rest].join(', ')})`;
    });
  }

  /** A name or a pattern that is declared. */
  binding(isLexical, depth = 2) {
    if (depth <= 0 || this.chance(0.55)) return this.declared(isLexical);
    return this.pattern(isLexical, depth);
  }

  pattern(isLexical, depth = 2) {
    const inner = () => this.bindingWithDefault(isLexical, depth - 1);
    if (this.chance(0.5)) {
      const items = this.some(0, 3, () => this.chance(0.15) ? '' : inner());
      return `[${[...items, ...(this.chance(0.2) ? [`...${this.binding(isLexical, depth - 1)}`] : [])].join(', ')}]`;
    }
    const properties = this.some(0, 3, () => this.chance(0.4) ? this.withDefault(this.declared(isLexical)) : `${this.key()}: ${inner()}`);
    return `{ ${[...properties, ...(this.chance(0.2) ? [`...${this.declared(isLexical)}`] : [])].join(', ')} }`;
  }

  bindingWithDefault(isLexical, depth = 2) { return this.withDefault(this.binding(isLexical, depth)); }
  withDefault(binding) { return this.chance(0.6) ? `${binding} = ${this.expression()}` : binding; }

  // Methods and classes.

  method(key, place) {
    const [mark, star, more] = this.functionSort();
    const head = mark + star + key;
    return this.within({ ...FUNCTION, ...more, ...place }, () => head + this.parametersAndBody());
  }

  accessor(place) {
    const key = this.key();
    return this.within({ ...FUNCTION, isAsync: false, isGenerator: false, ...place }, () => this.inScope(() => {
      const isGetter = this.chance(0.5);
      const head = isGetter ? `get ${key}()` : `set ${key}(${this.bindingWithDefault(true)})`;
      return `${head} { ${this.statements(0, 2).join(' ')} }`;
    }, { isFunction: true }));
  }

  classExpression() {
    const name = this.chance(0.4) ? ` ${this.within({ strict: true }, () => this.plainName())}` : '';
    return { text: `class${name}${this.classRest()}`, level: LEVEL.Primary };
  }

  classRest() {
    return this.within({ strict: true }, () => {
      const isDerived = this.chance(0.45);
      const own = [...new Set(this.some(0, 3, () => this.pick(PRIVATES)))];
      const heritage = isDerived ? ` extends ${this.expression(LEVEL.LeftHandSide)}` : '';
      return this.within({ privates: [...this.at.privates, ...own], isAsync: false, isGenerator: false }, () => {
        const members = [...own.map(name => this.privateMember(name)), ...this.some(0, 3, () => this.classMember())];
        if (this.chance(0.3)) members.push(this.constructorMethod(isDerived));
        return `${heritage} { ${members.join(' ')} }`;
      });
    });
  }

  /** A constructor is neither `async` nor a generator. */
  constructorMethod(isDerived) {
    const place = { superMember: true, superCall: isDerived, isAsync: false, isGenerator: false };
    return this.method('constructor', place).replace(/^[\s\S]*?(?=constructor)/, '');
  }

  privateMember(name) {
    const isStatic = this.chance(0.25) ? 'static ' : '';
    const place = { superMember: true };
    return isStatic + this.weighted([
      [4, () => this.field(`#${name}`)], [2, () => this.method(`#${name}`, place)],
      [1, () => this.within({ ...FUNCTION, ...place }, () => this.privateGetter(name))],
    ])();
  }

  privateGetter(name) {
    return this.inScope(() => `get #${name}() { ${this.statements(0, 1).join(' ')} }`, { isFunction: true });
  }

  classMember() {
    const isStatic = this.chance(0.3) ? 'static ' : '';
    return this.weighted([
      [5, () => isStatic + this.field(this.classKey())], [4, () => isStatic + this.method(this.classKey(), { superMember: true })],
      [2, () => isStatic + this.accessor({ superMember: true })], [2, () => this.staticBlock()],
    ])();
  }

  classKey() {
    const key = this.key();
    return key === 'async' || key === 'get' || key === 'set' ? `'${key}'` : key;
  }

  field(key) {
    if (!this.chance(0.75)) return `${key};`;
    return `${key} = ${this.within(INITIALISER, () => this.inScope(() => this.expression(), { isFunction: true }))};`;
  }

  staticBlock() {
    const body = () => `static { ${this.statements(0, 3).join(' ')} }`;
    return this.within({ ...INITIALISER, inStaticBlock: true }, () => this.inScope(body, { isFunction: true }));
  }
}
