// Moves made at random for a program, one after the other as the machine asks, so that an engine can answer alike: what an
// engine works out by itself is answered as it does.
import { answer, boolean, host, null_, number, standing_for, text, throw_, undefined_ } from './notation.mjs';

/** Some operands are what no worked list can have an engine take: the list is given up. */
export class GivenUp extends Error {}

/** Numbers from 0 to 1 by a seed (a 32-bit xorshift). */
export function random(seed) {
  let state = seed * 0x9e3779b9 | 0 || 1;
  return () => {
    state ^= state << 13;
    state ^= state >>> 17;
    state ^= state << 5;
    return (state >>> 0) / 2 ** 32;
  };
}

/** The sorts of lists, in turn: how often a value is a callable object, else a number, and how often a move is a throw. */
const SORTS = [
  { objects: 1, numbers: 0, throws: 0 }, { objects: 0.6, numbers: 0, throws: 0.06 }, { objects: 0.2, numbers: 0, throws: 0.06 },
  { objects: 0.7, numbers: 0, throws: 0.3 }, { objects: 0.2, numbers: 0.7, throws: 0 },
];

/** What is asked of an object: of one that the engine made itself, no host is asked. */
const OF_AN_OBJECT = new Set(['get', 'put', 'delete', 'iterator', 'spread', 'keys']);

/** Answers the questions of one run. `catches` where the program may catch what is thrown. */
export class Mover {
  constructor(seed, { catches }) {
    this.next = random(seed);
    this.sort = SORTS[(seed - 1) % SORTS.length];
    this.catches = catches;
    this.count = 0;
    this.made = new Set(); // what the engine makes itself
    this.keyIterators = new Set();
    this.written = new Set(); // names that the engine keeps
    this.copied = new Set(); // what a second copy has the engine tells by the keys that were read before the first, too
  }

  move({ is, operands }) {
    this.count += 1;
    const [first] = operands;
    if (OF_AN_OBJECT.has(is) && this.isMade(first)) throw new GivenUp();
    if (is === 'copy' && first.index !== undefined) {
      if (this.copied.has(first.index)) throw new GivenUp();
      this.copied.add(first.index);
    }
    if (is === 'write') this.written.add(first);
    if (['read', 'typeof_read'].includes(is) && this.written.has(first)) throw new GivenUp();
    switch (is) {
      case 'operator': return answer(this.operated(first, operands.slice(1)));
      case 'typeof_read': return this.typeOfName();
      case 'step': return answer(boolean(this.next() < 0.6));
      case 'item': return this.keyIterators.has(first.index) ? answer(text(`k${this.count}`)) : this.any();
      case 'iterator': case 'spread': case 'copy': case 'keys': return this.listed(is, first);
      case 'array': case 'make': case 'regexp': return answer(this.ownMade());
      case 'template': return this.templated(operands);
      case 'construct': return this.constructed(first);
      case 'delete': return this.deleted(first);
      case 'put': return this.withObject(first, () => this.any());
      case 'get': return this.isNullish(first) ? this.ownError() : this.any();
      default: return this.any();
    }
  }

  // VALUES

  any() {
    const value = this.value();
    return this.next() < this.sort.throws ? throw_(value) : answer(value);
  }

  value() {
    if (this.next() < this.sort.objects) return this.host(true);
    if (this.next() < this.sort.numbers) return this.next() < 0.5 ? number(String(this.count)) : standing_for(number(String(this.count)));
    const values = [
      () => undefined_, () => null_, () => boolean(false), () => boolean(true), () => number('0'), () => number('7'), () => text(''), () => text('t'),
      () => this.host(false), () => this.host(true),
      () => standing_for(number('3')), () => standing_for(text('s')),
    ];
    return values[Math.floor(this.next() * values.length)]();
  }

  host(callable) {
    return host(this.count, callable, true, false);
  }

  ownMade() {
    this.made.add(this.count);
    return this.host(false);
  }

  isMade(value) {
    return value?.is === 'host' && this.made.has(value.index);
  }

  isNullish(value) {
    return value.is === 'undefined' || value.is === 'null';
  }

  // ANSWERS

  /** An engine throws an error of its own where a member of undefined or null is read. */
  ownError() {
    if (this.catches) throw new GivenUp();
    return throw_(text('own error'));
  }

  withObject(value, move) {
    if (this.isNullish(value)) throw new GivenUp();
    return move();
  }

  /** A host is asked where the object is its own. */
  deleted(value) {
    if (value.is !== 'host' && !value.stands) throw new GivenUp();
    return answer(boolean(this.next() < 0.5));
  }

  constructed(callee) {
    if (callee.is !== 'host' || !callee.callable) throw new GivenUp();
    return answer(this.host(this.next() < 0.5));
  }

  listed(is, value) {
    if (value.is !== 'host') throw new GivenUp();
    if (is === 'copy' && this.isMade(value)) this.made.add(this.count);
    if (is === 'keys') this.keyIterators.add(this.count);
    return is === 'spread' ? answer(this.value()) : answer(this.host(false));
  }

  typeOfName() {
    const value = this.value();
    return answer({ ...text(this.typeOf(value)), taken: value });
  }

  templated([raws, cooked, values]) {
    if (values === undefined) return answer(this.ownMade());
    if (values.values.some(value => this.isMade(value))) throw new GivenUp();
    return answer(text(cooked.values.map((part, index) => part.text + (index < values.values.length ? String(this.plain(values.values[index])) : '')).join('')));
  }

  // OPERATORS

  /** The plain value that an operator takes an operand as; a host value is converted to a text. */
  plain(value) {
    switch (value.is) {
      case 'undefined': return undefined;
      case 'null': return null;
      case 'boolean': return value.value;
      case 'number': return Number(value.text);
      case 'text': return value.text;
      default: return `#${value.index}`;
    }
  }

  typeOf(value) {
    if (value.stands || value.is === 'null') return 'object';
    if (value.is === 'host') return value.callable ? 'function' : 'object';
    return value.is === 'text' ? 'string' : value.is;
  }

  operated(operator, operands) {
    const [left, right] = operands;
    if (operator === 'typeof') return text(this.typeOf(left));
    if (['===', '!=='].includes(operator)) return boolean(this.isSame(left, right) === (operator === '==='));
    if (operands.some(operand => this.isMade(operand) || (['==', '!='].includes(operator) && operand.stands))) throw new GivenUp();
    if (['in', 'instanceof'].includes(operator)) throw new GivenUp();
    if (['==', '!='].includes(operator) && operands.every(operand => operand.is === 'host')) return boolean(this.isSame(left, right) === (operator === '=='));
    return this.valueOf(OPERATORS[`${operator}${operands.length}`](...operands.map(operand => this.plain(operand))));
  }

  isSame(left, right) {
    if (left.stands || right.stands) return left === right;
    if (left.is === 'host' || right.is === 'host') return left.is === right.is && left.index === right.index;
    return this.plain(left) === this.plain(right);
  }

  valueOf(result) {
    if (Object.is(result, -0)) throw new GivenUp();
    if (typeof result === 'number') return number(String(result));
    return typeof result === 'boolean' ? boolean(result) : text(result);
  }
}

const OPERATORS = {
  'numeric1': a => Number(a), '++1': a => a + 1, '--1': a => a - 1, '-1': a => -a, '+1': a => +a, '~1': a => ~a,
  '+2': (a, b) => a + b, '-2': (a, b) => a - b, '*2': (a, b) => a * b, '/2': (a, b) => a / b, '%2': (a, b) => a % b, '**2': (a, b) => a ** b,
  '<2': (a, b) => a < b, '<=2': (a, b) => a <= b, '>2': (a, b) => a > b, '>=2': (a, b) => a >= b, '==2': (a, b) => a == b, '!=2': (a, b) => a != b,
  '<<2': (a, b) => a << b, '>>2': (a, b) => a >> b, '>>>2': (a, b) => a >>> b, '&2': (a, b) => a & b, '|2': (a, b) => a | b, '^2': (a, b) => a ^ b,
};
