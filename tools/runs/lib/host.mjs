// An instrumented host: values whose operations are recorded as the questions of the machine and answered by moves. It
// lives in the realm of the program, so that the errors and functions it hands out are those that the program sees.
import { Suppressed, noMove } from './helpers.mjs';
import { arrayText, isTrue, objectText, questionText, templateText, valueText } from './notation.mjs';

export class Host {
  /** `steps` are what the host is expected to be asked, each with its move; `realm` the global object of the program. */
  constructor(steps, realm) {
    this.steps = steps;
    this.realm = realm;
    this.asked = [];
    this.isWaiting = false;
    this.values = new Map(); // host values by number
    this.told = new Map(); // and their data
    this.keyItems = new Set(); // what was listed as a key
    this.methods = new Set(); // the numbers of methods of disposal
  }

  /** Records a question, and plays its move. */
  ask(is, ...operands) {
    if (this.isWaiting) throw noMove;
    this.asked.push({ is, operands });
    return this.played();
  }

  played() {
    const { move } = this.steps[this.asked.length - 1] ?? {};
    if (move === undefined) {
      this.isWaiting = true;
      throw noMove;
    }
    if (move.is === 'throw') throw this.valueOf(move.value);
    return move.value;
  }

  /** What is expected to be asked next, and it alone tells a question from another that the engine asks in the same way. */
  expected() {
    return this.steps[this.asked.length] ?? {};
  }

  /** The texts of what was asked. */
  texts() {
    return this.asked.map(question => questionText(question));
  }

  // VALUES

  /** The engine's value for a value of a move. */
  valueOf(value) {
    if (value.stands || value.is === 'unset_error') return this.kept(`standing ${this.told.size}`, value, () => this.standing(value));
    switch (value.is) {
      case 'undefined': return undefined;
      case 'null': return null;
      case 'boolean': return value.value;
      case 'number': return Number(value.text);
      case 'text': return value.text;
      case 'host': return this.kept(value.index, value, () => value.all ? this.documentAll(value) : this.object(value));
      default: throw new Error(`no engine has a value for ${value.is}`);
    }
  }

  kept(key, value, make) {
    if (!this.values.has(key)) {
      const made = make();
      this.values.set(key, made);
      this.told.set(made, value);
    }
    return this.values.get(key);
  }

  /** A value of the engine as an operand of a question, told when the run has ended. */
  operand(value) {
    return { is: 'seen', text: () => this.textOf(value) };
  }

  textOf(value) {
    if (this.told.has(value)) return valueText(this.told.get(value));
    if (value === this.realm) return 'the global object';
    if (value === undefined || value === null || typeof value === 'boolean' || typeof value === 'number') return String(value);
    if (typeof value === 'string') return this.keyItems.has(value) ? keyOf(value) : JSON.stringify(value);
    if (value instanceof Suppressed) return `suppressed(${this.textOf(value.error)}, ${this.textOf(value.suppressed)})`;
    if (value instanceof this.realm.Error) return `error ${value.name}`;
    const isArray = Array.isArray(value);
    if (isArray && value.raw) return templateText(value.raw.map(text => this.textOf(text)), value.map(text => this.textOf(text)));
    if (isArray) return arrayText(Array.from(value, element => this.textOf(element)));
    if (value instanceof this.realm.RegExp) return String(value);
    if (typeof value !== 'object') return typeof value;
    return objectText(Reflect.ownKeys(value).map(key => key.startsWith('~') ? [`all of ${key.slice(1)}`] : [keyOf(key), this.textOf(value[key])]));
  }

  // OPERATIONS

  /** A value that an operator converts: it gives its plain value, and the operator's operands are seen as they are converted. */
  standing(value) {
    const plain = this.plainOf(value);
    const convert = hint => hint === 'string' ? String(plain) : this.converted(value, plain);
    return new Proxy({}, {
      get: (_, key) => key === Symbol.toPrimitive ? convert : this.asks('get', value, key),
      set: (_, key, put) => this.puts(value, key, put),
      deleteProperty: (_, key) => isTrue(this.ask('delete', value, named(key))),
    });
  }

  plainOf(value) {
    return value.is === 'number' ? Number(value.text) : value.is === 'text' ? value.text : `${valueText(value)}`;
  }

  /**
   * An operator asks for its operands one after the other, and the question counts at the last one, whose move says what
   * becomes of it. An operator of two such operands is one question, so the host has to know how many there are.
   */
  converted(value, plain) {
    const { question, move } = this.expected();
    if (this.isWaiting) throw noMove;
    const wanted = question?.is === 'operator' ? question.operands.filter(({ stands }) => stands).length : 1;
    this.operands = [...this.operands ?? [], value];
    if (this.operands.length < wanted) return plain;
    this.asked.push({ is: 'operator', operands: ['', ...this.operands] });
    this.operands = [];
    this.played();
    return plain;
  }

  /** An object, or a function where the value is callable. */
  object(value) {
    const seenKeys = [];
    const { realm } = this;
    const target = value.callable ? (function () {}).bind() : Object.create(null);
    return new Proxy(target, {
      get: (_, key, receiver) => {
        if (key === Symbol.iterator) return () => this.iterates(value);
        if (key === Symbol.dispose) return this.disposes(value);
        if (key === Symbol.toPrimitive) return () => valueText(value);
        if (typeof key === 'symbol' || key.startsWith('~')) return undefined;
        if (value.callable && key === 'call') return realm.Function.prototype.call;
        if (value.callable && key === 'bind') return (bound, ...first) => (...rest) => Reflect.apply(receiver, bound, [...first, ...rest]);
        seenKeys.push(key);
        return this.asks('get', value, key);
      },
      set: (_, key, put) => this.puts(value, key, put),
      deleteProperty: (_, key) => isTrue(this.ask('delete', value, named(key))),
      apply: (_, receiver, values) => this.calls(value, receiver, values),
      construct: (_, values) => this.objectOf(this.ask('construct', value, ...values.map(each => this.operand(each)))),
      ownKeys: () => this.keysOf(value, seenKeys),
      getOwnPropertyDescriptor: (_, key) => this.describes(key),
      getPrototypeOf: () => null,
      has: () => true,
    });
  }

  /** A value that counts as null for `==` and as false in a test (ECMA-262, B.3.6). A call of it isn't seen. */
  documentAll(value) {
    const all = this.realm.eval('%GetUndetectable()');
    const own = { [Symbol.toPrimitive]: () => valueText(value), call: this.realm.Function.prototype.call, bind: this.realm.Function.prototype.bind };
    Object.setPrototypeOf(all, new Proxy({}, {
      get: (_, key) => own[key] ?? this.asks('get', value, key),
      set: (_, key, put) => this.puts(value, key, put),
    }));
    return all;
  }

  asks(is, value, key) {
    if (typeof key === 'symbol') return undefined;
    return this.valueOf(this.ask(is, value, named(key)));
  }

  puts(value, key, put) {
    this.ask('put', value, named(key), this.operand(put));
    return true;
  }

  calls(value, receiver, values) {
    if (this.methods.has(value.index) && values.length === 0) return this.valueOf(this.ask('dispose', this.operand(receiver), value));
    return this.valueOf(this.ask('call', value, this.operand(receiver), ...values.map(each => this.operand(each))));
  }

  /** What a constructor gives is an object, whatever the move says. */
  objectOf(value) {
    const made = this.valueOf(value);
    return Object(made) === made ? made : {};
  }

  disposes(value) {
    const found = this.ask('method', value);
    if (found.is === 'host') this.methods.add(found.index);
    return this.valueOf(found);
  }

  /** A spread takes all items at once in the machine, so its iterator is the host's own and gives the one value of its move. */
  iterates(value) {
    if (this.expected().question?.is === 'spread') return [this.valueOf(this.ask('spread', value))][Symbol.iterator]();
    return this.iteratorOf(this.ask('iterator', value));
  }

  iteratorOf(iterator) {
    return {
      next: () => {
        const done = !isTrue(this.ask('step', iterator));
        const item = () => this.valueOf(this.ask('item', iterator));
        return { done, get value() { return item(); } };
      },
      return: () => {
        this.ask('close', iterator);
        return {};
      },
    };
  }

  /**
   * The keys of an object for `for-in`, which goes through the items of the worked run; or for a copy, which then asks for
   * each key that isn't excluded: those that were asked for before, and one that stands for all others.
   */
  keysOf(value, seenKeys) {
    if (this.expected().question?.is === 'keys') {
      const { items } = this.expected();
      this.ask('keys', value);
      const texts = items.map(each => String(this.plainOf(each)));
      for (const each of texts) this.keyItems.add(each);
      return texts;
    }
    const excluded = seenKeys.map(named);
    const record = { is: 'copy', operands: [value, ...excluded] };
    if (this.isWaiting) throw noMove;
    this.asked.push(record);
    this.copying = record;
    return [...new Set([...seenKeys, `~${valueText(this.played())}`])];
  }

  describes(key) {
    if (this.copying) this.copying.operands = this.copying.operands.filter(operand => operand.key !== key);
    return { value: undefined, enumerable: true, configurable: true };
  }

  /** What unbound names are looked up in. */
  names() {
    return new Proxy(Object.create(null), {
      has: (_, key) => typeof key === 'string',
      get: (_, key) => typeof key === 'string' ? this.valueOf(this.ask('read', key)) : undefined,
      set: (_, key, put) => {
        this.ask('write', key, this.operand(put));
        return true;
      },
      getPrototypeOf: () => null,
    });
  }

  /** What members of numbers, texts and truth values are looked up in, behind those that their prototypes have. */
  members() {
    return new Proxy(Object.create(null), {
      get: (_, key, receiver) => typeof key === 'string' ? this.valueOf(this.ask('get', this.operand(receiver), named(key))) : undefined,
      set: (_, key, put, receiver) => {
        this.ask('put', this.operand(receiver), named(key), this.operand(put));
        return true;
      },
      getPrototypeOf: () => null,
    });
  }
}

/** A property key as an operand. A host value that is a key is a text with its number. */
function named(key) {
  return { is: 'seen', key, text: () => keyOf(key) };
}

function keyOf(key) {
  return /^#\d+$/.test(key) ? key : JSON.stringify(key);
}
