// Statements and declarations.
import { LEVEL } from './expressions.mjs';
import { Functions } from './functions.mjs';

export class Statements extends Functions {
  statements(least, most) {
    return this.within({ depth: this.at.depth - 1 }, () => this.some(least, most, () => this.item()));
  }

  /** An expression of a statement's own share, so that statements of all kinds come to stand. */
  value(level) {
    const left = this.size;
    const share = Math.min(left, 2 + this.below(this.chance(0.15) ? 40 : 12));
    this.size = share;
    const text = this.expression(level);
    this.size += left - share;
    return text;
  }

  /** A statement or a declaration. */
  item() {
    this.size -= 1;
    if (this.at.depth <= 0 || this.size <= 0) return this.expressionStatement();
    return this.weighted([[8, () => this.statement()], [5, () => this.variables()], [2, () => this.namedFunction()], [2, () => this.namedClass()]])();
  }

  /** What may be the body of an `if` or a loop. */
  statement() {
    if (this.at.depth <= 0 || this.size <= 0) return this.expressionStatement();
    this.size -= 1;
    const mayLeave = this.at.inLoop || this.at.inSwitch || this.at.labels.length > 0;
    return this.within({ depth: this.at.depth - 1 }, () => this[this.weighted([
      [10, 'expressionStatement'], [2, 'block'], [3, 'branch'], [2, 'loop'], [3, 'headedLoop'], [2, 'labelled'], [2, 'choice'],
      [5, 'attempt'], [mayLeave ? 6 : 2, 'leaving'], [1, 'throwing'], [0.5, 'empty'],
      [0.5, 'variableStatement'], [this.at.strict ? 0 : 0.15, 'stricterHere'],
      [this.isWide && !this.at.strict ? 0.5 : 0, 'withStatement'],
    ])]());
  }

  expressionStatement() {
    const text = this.value(LEVEL.Sequence);
    const begins = /^(?:\{|function\b|class\b|let\s*\[|async\s+function\b|["'])/.test(text) || (/^let\b/.test(text) && this.chance(0.5));
    return begins ? `(${text});` : `${text};`;
  }

  empty() { return this.pick([';', 'debugger;']); }
  block() { return this.inScope(() => `{ ${this.statements(0, 3).join(' ')} }`); }
  variableStatement() { return this.variables('var'); }
  throwing() { return `throw ${this.value(LEVEL.Sequence)};`; }
  withStatement() { return `with (${this.value()}) ${this.body()}`; }
  body() { return this.chance(0.6) ? this.block() : this.inScope(() => this.statement()); }

  variables(kind = this.pick(['var', 'let', 'const'])) {
    return `${kind} ${this.some(1, 2, () => this.declarator(kind)).join(', ')};`;
  }

  declarator(kind, maker = text => text) {
    const isLexical = kind !== 'var';
    const isPattern = this.chance(0.35);
    const name = isPattern ? this.pattern(isLexical) : this.declared(isLexical);
    return isPattern || kind === 'const' || this.chance(0.7) ? `${name} = ${maker(this.value())}` : name;
  }

  namedFunction() {
    const name = this.declared(this.isLexicalFunction());
    return this.functionDeclaration(name === 'await' || name === 'yield' ? 'a' : name);
  }

  /** At the top of a function or a script a function is declared as a `var` is. */
  isLexicalFunction() { return this.isModule ? true : !this.scope.isFunction; }

  namedClass() { return this.within({ strict: true }, () => `class ${this.declared(true)}${this.classRest()}`); }

  branch() {
    const otherwise = this.chance(0.4) ? ` else ${this.body()}` : '';
    return `if (${this.value(LEVEL.Sequence)}) ${otherwise ? this.block() : this.body()}${otherwise}`;
  }

  inLoop(make) { return this.within({ inLoop: true, inSwitch: this.at.inSwitch }, make); }

  loop() {
    const test = `(${this.value(LEVEL.Sequence)})`;
    return this.inLoop(() => this.chance(0.5) ? `while ${test} ${this.body()}` : `do ${this.body()} while ${test};`);
  }

  headedLoop() {
    return this.inScope(() => this.chance(0.5) ? this.plainFor() : this.iteratingFor());
  }

  plainFor() {
    const kind = this.pick(['var', 'let', 'const', '']);
    const withoutIn = text => /\bin\b/.test(text) ? `(${text})` : text;
    const init = this.weighted([
      [1, () => ''], [2, () => this.whole(withoutIn(this.value(LEVEL.Sequence)))],
      [4, () => this.declarationWithoutIn(kind || 'var', withoutIn)],
    ])();
    const parts = [init, ...this.some(2, 2, () => this.chance(0.6) ? this.value(LEVEL.Sequence) : '')];
    return `for (${parts.join('; ')}) ${this.inLoop(() => this.body())}`;
  }

  declarationWithoutIn(kind, maker) {
    return `${kind} ${this.some(1, 2, () => this.declarator(kind, maker)).join(', ')}`;
  }

  /** The text of a head that begins with no `let`. */
  whole(text) { return /^(?:let|async)\b/.test(text) ? `(${text})` : text; }

  iteratingFor() {
    const isOf = this.chance(0.5);
    const kind = this.pick(['var', 'let', 'const', '']);
    const left = kind ? `${kind} ${this.binding(kind !== 'var')}` : this.whole(this.target(2, this.chance(0.5)));
    const right = this.value(isOf ? LEVEL.Assignment : LEVEL.Sequence);
    const awaiting = isOf && this.at.isAsync && this.chance(0.3) ? ' await' : '';
    return `for${awaiting} (${left} ${isOf ? 'of' : 'in'} ${right}) ${this.inLoop(() => this.body())}`;
  }

  labelled() {
    const names = ['a', 'b', '_a', 'l', 'async', ...(this.at.strict ? [] : ['let', 'yield'])];
    const free = names.filter(name => !this.at.labels.some(label => label.name === name));
    if (free.length === 0 || this.at.isGenerator) return this.block();
    const name = this.pick(free);
    const isLoop = this.chance(0.6);
    const body = () => isLoop ? this.chance(0.5) ? this.loop() : this.headedLoop() : this.block();
    return this.within({ labels: [...this.at.labels, { name, isLoop }] }, () => `${name}: ${body()}`);
  }

  leaving() {
    const { inLoop, inSwitch, labels, returns } = this.at;
    const loops = labels.filter(({ isLoop }) => isLoop);
    return this.pick([
      ...(returns ? [() => 'return;', () => `return ${this.value(LEVEL.Sequence)};`, () => `return ${this.chain().text};`] : []),
      ...(inLoop ? [() => 'continue;'] : []), ...(inLoop || inSwitch ? [() => 'break;'] : []),
      ...(labels.length > 0 ? [() => `break ${this.pick(labels).name};`] : []),
      ...(loops.length > 0 && inLoop ? [() => `continue ${this.pick(loops).name};`] : []), () => this.expressionStatement(),
    ])();
  }

  choice() {
    const over = this.value(LEVEL.Sequence);
    return this.within({ inSwitch: true }, () => this.inScope(() => {
      const cases = this.some(0, 3, () => `case ${this.value(LEVEL.Sequence)}: ${this.statements(0, 2).join(' ')}`);
      if (this.chance(0.4)) cases.splice(this.below(cases.length + 1), 0, `default: ${this.statements(0, 2).join(' ')}`);
      return `switch (${over}) { ${cases.join(' ')} }`;
    }));
  }

  attempt() {
    const block = this.block();
    const finalizer = () => ` finally ${this.block()}`;
    const text = this.weighted([[5, () => ` catch ${this.block()}`], [4, () => this.clause()], [1, () => '']])();
    return `try ${block}${text}${text === '' || this.chance(0.3) ? finalizer() : ''}`;
  }

  /** A clause with a parameter; a plain name is one that a `var` in the body may repeat. */
  clause() {
    return this.inScope(() => {
      if (this.chance(0.4)) return ` catch (${this.pattern(true)}) { ${this.statements(0, 2).join(' ')} }`;
      const name = this.plainName();
      if (name === 'let') return ` catch ${this.block()}`;
      this.scope.simple.add(name);
      return ` catch (${name}) { ${this.statements(0, 2).join(' ')} }`;
    });
  }

  /** What the tool's static rules refuse in sloppy code, as docs/STATIC_RULES.md says. */
  stricterHere() {
    return this.pick(['if (a) function f() {}', 'l: function f() {}', '{ function f() {} function f() {} }', 'for (var a = b ?? c in d) ;']);
  }
}
