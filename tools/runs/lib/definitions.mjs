// Evaluates the definitions of contracts and proofs (crates/*/specs and crates/*/proofs) as they stand: plain functions by
// clauses, over data, records, lists, truth values, numbers and texts. What isn't one of these (types, proofs) is never
// reached.
//   A datum is `{ c: its constructor, a: what it holds }`, a list an array, a text the list of its bytes, a record an object,
//   a pair `{ 0: .., 1: .. }`, and a function takes one value at a time.
import fs from 'node:fs';

const CRATES = new URL('../../../crates/', import.meta.url);
const LEVELS = { '>>=': 1, '||': 2, '&&': 3, '∷': 5, '++': 5, and: 5, then: 5, before: 5, '+': 6 };
const LEFT = new Set(['>>=', '+']);
const ENDS = new Set([')', '}', ';', ',', 'else', 'in', '=', '≡', undefined]);
const files = new Map();

/** The value of a definition of a crate's specs, by its file and name. */
export function definition(crate, file, name) {
  return load(crate, 'specs', file).value(name);
}

/** Replaces a definition by what `change` makes of its value, for all that use it; to be called before any of it is used. */
export function replace(crate, file, name, change) {
  const loaded = load(crate, 'specs', file);
  loaded.values.set(name, change(loaded.value(name)));
}

/** A datum of a constructor without operands. */
const nullary = new Map();
export function datum(c, ...a) {
  if (a.length > 0) return { c, a };
  if (!nullary.has(c)) nullary.set(c, { c, a });
  return nullary.get(c);
}

export const bytesOf = text => [...Buffer.from(text, 'utf8')];

const same = (left, right) => left.length === right.length && left.every((byte, index) => byte === right[index]);

/** What the standard library gives. */
const PRELUDE = {
  true: true, false: false, zero: 0, '[]': [], suc: n => n + 1, not: b => !b, codes: bytesOf,
  bytes_eq: x => y => same(x, y), nat_eq: n => m => n === m, length: xs => xs.length,
  list_any: f => xs => xs.some(x => f(x)), map: f => xs => xs.map(x => f(x)),
  Some: x => datum('Some', x), None: datum('None'), is_some: x => x.c === 'Some',
};

/** A file, by its crate and folder. */
export function load(crate, folder, file) {
  const path = `${crate}/${folder}/${file}.antt`;
  if (!files.has(path)) files.set(path, new File(fs.readFileSync(new URL(path, CRATES), 'utf8')));
  return files.get(path);
}

class File {
  constructor(text) {
    const plain = text.replace(/("(?:[^"\\]|\\.)*")|--.*/g, (_, string) => string ?? '');
    this.imports = new Map();
    this.constructors = new Map();
    this.clauses = new Map();
    this.statements = new Map(); // what is proved, by name
    this.values = new Map();
    for (const [, path, names] of plain.matchAll(/^use Rattle\.([\w.]+)\.\{([^}]*)\}/gm)) this.import(path.split('.'), names);
    this.readItems(plain);
  }

  /** `CRATE.specs.FILE`, maybe with a type whose constructors are imported, or variants of a type of the code. */
  import([crate, folder, ...rest], names) {
    if (crate === 'std') return;
    for (const item of names.split(',').map(name => name.trim()).filter(Boolean)) {
      const [name, as = name] = item.split(/ as /);
      this.imports.set(inner(as), { from: [crate, folder, rest[0]], name: inner(name), isVariant: rest.includes('TheVariants') });
    }
  }

  readItems(text) {
    for (const item of text.split(/\n(?=[^\s}])/)) {
      if (/^(?:abbrev )?mutual\b/.test(item)) this.readItems(item.slice(item.indexOf('\n')).replaceAll('\n  ', '\n'));
      else if (/^(?:pub )?data /.test(item)) this.readConstructors(item);
      else if (!/^(?:use|abbrev|pub|record|infix\w?|instance|private)\b/.test(item)) this.readClause(item);
    }
  }

  readConstructors(item) {
    for (const [, names, type] of item.matchAll(/^ {2}((?:[^\s:]+ )+): ([^]*?)(?=\n {2}\S|\n*$(?![^]))/gm)) {
      let depth = 0;
      const arrows = [...type].filter(char => {
        depth += '({'.includes(char) ? 1 : ')}'.includes(char) ? -1 : 0;
        return char === '→' && depth === 0;
      });
      const implicit = (type.match(/^\{[^}]*\}\s*→/g) ?? []).length;
      for (const name of names.trim().split(' ')) this.constructors.set(inner(name), arrows.length - implicit);
    }
  }

  readClause(item) {
    const tokens = tokensOf(item);
    const end = tokens.indexOf('=');
    const name = inner(tokens[0] ?? '');
    if (tokens[1] === ':') this.statements.set(name, tokens.slice(2));
    if (end < 1) return;
    this.clauses.set(name, [...this.clauses.get(name) ?? [], { left: tokens.slice(1, end), right: tokens.slice(end + 1) }]);
  }

  /** Whether a word of a pattern is a constructor, and not a name for what stands there. */
  isConstructor(name) {
    if (this.constructors.has(name)) return true;
    const imported = this.imports.get(name);
    return imported !== undefined && (imported.isVariant || load(...imported.from).constructors.has(imported.name));
  }

  value(name) {
    if (!this.values.has(name)) this.values.set(name, this.made(name));
    return this.values.get(name);
  }

  made(name) {
    if (this.clauses.has(name)) return this.functionOf(name);
    if (this.constructors.has(name)) return curried(this.constructors.get(name), (...a) => datum(name, ...a));
    const imported = this.imports.get(name);
    if (imported?.isVariant) return datum(imported.name);
    if (imported) return load(...imported.from).value(imported.name);
    if (Object.hasOwn(PRELUDE, name)) return PRELUDE[name];
    throw new Error(`there is no definition ${name}`);
  }

  /** The values of the sides of a statement `left ≡ right`, or of a statement that is one term. */
  sides(name) {
    return new Reader(this.statements.get(name)).sides().map(side => this.compiled(side, new Set())({}));
  }

  functionOf(name) {
    const clauses = this.clauses.get(name);
    const [first] = clauses;
    const count = new Reader(first.left).atoms().length;
    let compiled;
    return curried(count, (...given) => {
      compiled ??= clauses.map(clause => this.clause(clause));
      for (const { tests, matches, body } of compiled) {
        if (tests.some(([index, constructor]) => given[index].c !== constructor)) continue;
        const bound = {};
        if (matches.every((match, index) => match(given[index], bound))) return body(bound);
      }
      throw new Error(`${name} has no clause for this`);
    });
  }

  clause({ left, right }) {
    const names = new Set();
    const patterns = new Reader(left).atoms();
    const matches = patterns.map(pattern => this.matcher(pattern, names));
    const tests = patterns.map((pattern, index) => [index, pattern.word]).filter(([, word]) => word !== undefined && this.isConstructor(word));
    return { tests, matches, body: this.compiled(new Reader(right).whole(), names) };
  }

  // PATTERNS: whether a value has this shape, with the names that are bound

  matcher(pattern, names) {
    if (pattern.infix === '∷') {
      const [first, rest] = [this.matcher(pattern.left, names), this.matcher(pattern.right, names)];
      return (value, bound) => value.length > 0 && first(value[0], bound) && rest(value.slice(1), bound);
    }
    if (pattern.infix) return this.datumMatcher(pattern.infix, [pattern.left, pattern.right], names);
    if (pattern.apply) return this.appliedMatcher(pattern, names);
    const { word } = pattern;
    if (word === '_') return () => true;
    if (word === '[]') return value => value.length === 0;
    if (word === 'true' || word === 'false') return value => value === (word === 'true');
    if (word === 'zero' || /^\d+$/.test(word)) return value => value === (Number(word) || 0);
    if (word === 'None' || this.isConstructor(word)) return value => value.c === word;
    names.add(word);
    return (value, bound) => {
      bound[word] = value;
      return true;
    };
  }

  appliedMatcher(pattern, names) {
    const operands = [];
    let head = pattern;
    for (; head.apply; head = head.apply) operands.unshift(head.to);
    if (head.word !== 'suc') return this.datumMatcher(head.word, operands, names);
    const before = this.matcher(operands[0], names);
    return (value, bound) => value > 0 && before(value - 1, bound);
  }

  datumMatcher(constructor, operands, names) {
    const matches = operands.map(operand => this.matcher(operand, names));
    return (value, bound) => value.c === constructor && matches.every((match, index) => match(value.a[index], bound));
  }

  // TERMS: the value of each where these names are bound

  compiled(term, names) {
    const of = below => this.compiled(below, names);
    if (term.word !== undefined) return this.word(term.word, names);
    if (term.string !== undefined) return () => term.string;
    if (term.lambda) return this.lambda(term, names);
    if (term.record) return this.record(term, of);
    if (term.infix) return this.infix(term.infix, of(term.left), of(term.right));
    if (term.apply) {
      const [applied, to] = [of(term.apply), of(term.to)];
      return bound => applied(bound)(to(bound));
    }
    if (term.of) {
      const record = of(term.of);
      return bound => record(bound)[term.field];
    }
    if (term.test) {
      const [test, yes, no] = [of(term.test), of(term.yes), of(term.no)];
      return bound => test(bound) ? yes(bound) : no(bound);
    }
    if (term.let) {
      const [value, body] = [of(term.value), this.compiled(term.body, new Set([...names, term.let]))];
      return bound => body({ ...bound, [term.let]: value(bound) });
    }
    const [left, right] = term.pair.map(of);
    return bound => ({ 0: left(bound), 1: right(bound) });
  }

  lambda({ lambda, body }, names) {
    const inside = this.compiled(body, new Set([...names, ...lambda]));
    return bound => curried(lambda.length, (...given) => {
      const own = Object.create(bound);
      lambda.forEach((name, index) => { own[name] = given[index]; });
      return inside(own);
    });
  }

  record({ record, base }, of) {
    const from = base ? of(base) : () => undefined;
    const fields = record.map(([name, field]) => [name, of(field)]);
    return bound => {
      const made = { ...from(bound) };
      for (const [name, field] of fields) made[name] = field(bound);
      return made;
    };
  }

  infix(infix, left, right) {
    switch (infix) {
      case '&&': return bound => left(bound) && right(bound);
      case '||': return bound => left(bound) || right(bound);
      case '∷': return bound => [left(bound), ...right(bound)];
      case '++': return bound => [...left(bound), ...right(bound)];
      case '+': return bound => left(bound) + right(bound);
      default: return bound => this.value(infix)(left(bound))(right(bound));
    }
  }

  word(word, names) {
    if (/^\d+$/.test(word)) return () => Number(word);
    const [name, ...fields] = word.split('.');
    if (name === 'Rattle') return () => load(...fields.slice(0, 3)).value(fields.at(-1));
    const value = names.has(name) ? bound => bound[name] : () => this.value(name);
    if (fields.length === 0) return value;
    return bound => fields.reduce((record, field) => record[field], value(bound));
  }
}

/** A name that stands between its operands, `◌and◌`, as the word between them. */
function inner(name) {
  return name.replace(/^◌(.+)◌$/, '$1');
}

/** A function of so many values as one that takes them one at a time. */
function curried(count, make) {
  switch (count) {
    case 0: return make();
    case 1: return a => make(a);
    case 2: return a => b => make(a, b);
    case 3: return a => b => c => make(a, b, c);
    default: return a => b => c => curried(count - 3, (...rest) => make(a, b, c, ...rest));
  }
}

function tokensOf(text) {
  return text.match(/"(?:[^"\\]|\\.)*"|\[\]|[(){};,]|λ|[^\s(){};,"λ]+/g) ?? [];
}

/** Reads terms; those of patterns have the same shapes. */
class Reader {
  constructor(tokens) {
    this.tokens = tokens;
    this.next = 0;
  }

  get token() { return this.tokens[this.next]; }

  take(token) {
    if (this.token !== token) throw new Error(`${token} is wanted, and not ${this.token}`);
    this.next += 1;
  }

  atoms() {
    const found = [];
    while (this.next < this.tokens.length) found.push(this.atom());
    return found;
  }

  whole() {
    const term = this.term();
    if (this.next < this.tokens.length) throw new Error(`nothing is wanted, and not ${this.token}`);
    return term;
  }

  sides() {
    const left = this.term();
    if (this.next === this.tokens.length) return [left];
    this.take('≡');
    return [left, this.whole()];
  }

  /** `isTest` where a `then` ends the term. */
  term(least = 0, isTest = false) {
    let left = this.application(isTest);
    for (;;) {
      const infix = this.token;
      const level = infix === 'then' && isTest ? undefined : LEVELS[infix];
      if (level === undefined || level < least) return left;
      this.next += 1;
      left = { infix, left, right: this.term(LEFT.has(infix) ? level + 1 : level, isTest) };
    }
  }

  application(isTest) {
    if (this.token === 'λ') return this.lambda();
    if (this.token === 'if') return this.conditional();
    if (this.token === 'let') return this.letIn();
    let term = this.atom();
    while (!ENDS.has(this.token) && LEVELS[this.token] === undefined) term = { apply: term, to: this.atom() };
    return term;
  }

  lambda() {
    this.take('λ');
    const names = [];
    for (;;) {
      const name = this.tokens[this.next++];
      names.push(name.replace(/\.$/, ''));
      if (name.endsWith('.')) return { lambda: names, body: this.term() };
    }
  }

  conditional() {
    this.take('if');
    const test = this.term(0, true);
    this.take('then');
    const yes = this.term();
    this.take('else');
    return { test, yes, no: this.term() };
  }

  letIn() {
    this.take('let');
    const name = this.tokens[this.next++];
    this.take('=');
    const value = this.term();
    this.take('in');
    return { let: name, value, body: this.term() };
  }

  atom() {
    let term = this.bare();
    while (/^\.\w/.test(this.token ?? '')) {
      for (const field of this.tokens[this.next++].slice(1).split('.')) term = { of: term, field };
    }
    return term;
  }

  bare() {
    const token = this.tokens[this.next++];
    if (token.startsWith('"')) return { string: JSON.parse(token) };
    if (token === 'record') return this.record();
    if (token !== '(') return { word: token };
    let term = this.term();
    if (this.token === ',') {
      this.next += 1;
      term = { pair: [term, this.term()] };
    }
    this.take(')');
    return term;
  }

  record() {
    const base = this.token === '{' ? undefined : this.atom();
    this.take('{');
    const record = [];
    while (this.token !== '}') {
      const name = this.tokens[this.next++];
      this.take('=');
      record.push([name, this.term()]);
      if (this.token === ';') this.next += 1;
    }
    this.take('}');
    return { record, base };
  }
}
