// Values, questions, moves and outcomes of the machine, as data, by the names that the definitions give them
// (crates/es_runs/specs/Machine.antt, crates/es_runs/specs/Runs.antt and crates/es_statement_runs/specs/Runs.antt).

// Values.
export const undefined_ = { is: 'undefined' };
export const null_ = { is: 'null' };
export const boolean = value => ({ is: 'boolean', value });
export const number = text => ({ is: 'number', text });
export const text = text => ({ is: 'text', text });
/** A value of the host: its number, and whether it is callable, truthy and `document.all`. */
export const host = (index, callable, truthy, all) => ({ is: 'host', index, callable, truthy, all });
export const a_host = index => host(index, true, true, false);
export const unset_error = name => ({ is: 'unset_error', name });
export const pattern_error = { is: 'pattern_error' };
export const suppressed = (error, suppressed) => ({ is: 'suppressed', error, suppressed });
export const stack = index => ({ is: 'stack', index });
/** A definition of an object that is made: a key with its value, or what a copy gave. */
export const list = (...values) => ({ is: 'list', values });
/** An object in the place of a plain value: it is told as that value, and an operator that converts it takes that value. */
export const standing_for = value => ({ ...value, stands: true });
/** What stands in the run, and what the engine takes in its place, as one value that is to be equal to another. */
export const instead_of = (written, taken) => ({ ...taken, written });

// Moves.
export const answer = value => ({ is: 'answer', value });
export const throw_ = value => ({ is: 'throw', value });

// Questions.
const question = is => (...operands) => ({ is, operands });
export const read = question('read');
export const write = question('write');
export const get = question('get');
export const put = question('put');
export const delete_ = question('delete');
export const call = question('call');
export const construct = question('construct');
export const operator = question('operator');
export const iterator = question('iterator');
export const step = question('step');
export const item = question('item');
export const close = question('close');
export const keys = question('keys');
export const array = question('array');
export const template = question('template');
export const spread = question('spread');
export const import_name = question('import_name');
export const copy = question('copy');
export const make = question('make');
export const method = question('method');
export const dispose = question('dispose');

// Outcomes. `outside` and `called_uncallable` are those of a program that reads or writes what isn't set, writes a
// constant or calls what isn't callable; `no_turns` that of one that takes more turns of loops than the run has.
export const finished = { is: 'finished' };
export const threw = value => ({ is: 'threw', value });
export const waiting = { is: 'waiting' };
export const outside = { is: 'outside' };
export const called_uncallable = { is: 'called_uncallable' };
export const no_turns = { is: 'no_turns' };

/** Whether a value counts as true in a test. */
export function isTrue(value) {
  switch (value.is) {
    case 'undefined': case 'null': return false;
    case 'boolean': return value.value;
    case 'number': return value.text !== '0' && value.text !== 'NaN';
    case 'text': return value.text !== '';
    case 'host': return value.truthy && !value.all;
    default: return true;
  }
}

/** The text of a value. `contents` gives the texts of host values that are made by the engine itself. */
export function valueText(value, contents = new Map()) {
  const of = below => valueText(below, contents);
  switch (value.is) {
    case 'boolean': return String(value.value);
    case 'number': return value.text;
    case 'text': return JSON.stringify(value.text);
    case 'host': return contents.get(value.index) ?? `#${value.index}`;
    case 'unset_error': return `unset ${value.name}`;
    case 'suppressed': return `suppressed(${of(value.error)}, ${of(value.suppressed)})`;
    case 'stack': return `stack ${value.index}`;
    case 'seen': return value.text();
    default: return value.is;
  }
}

/** A key is told by its text, whatever it was before. */
export function keyText(value, contents) {
  if (value.is === 'number' || value.is === 'text') return JSON.stringify(value.text);
  return ['undefined', 'null', 'boolean'].includes(value.is) ? JSON.stringify(valueText(value)) : valueText(value, contents);
}

/** The text of a question. Of an operator a host sees the operands that stand for plain values, and not which one it is. */
export function questionText({ is, operands }, contents) {
  const of = value => typeof value === 'string' ? value : valueText(value, contents);
  switch (is) {
    case 'get': case 'delete': return [is, of(operands[0]), keyText(operands[1], contents)].join(' ');
    case 'put': return [is, of(operands[0]), keyText(operands[1], contents), of(operands[2])].join(' ');
    case 'copy': return [is, of(operands[0]), ...operands.slice(1).map(key => `without ${keyText(key, contents)}`)].join(' ');
    case 'operator': return [is, ...operands.slice(1).filter(({ stands }) => stands).map(of)].join(' ');
    default: return [is, ...operands.map(of)].join(' ');
  }
}

/**
 * The content of an object that is made with these definitions, each a key with its value, or what is copied. The last one
 * of a key counts, and whole numbers come first, as the keys of an object are listed (ECMA-262, 10.1.11.1).
 */
export function objectText(definitions) {
  const entries = [...new Map(definitions)];
  const indices = entries.filter(([key]) => INDEX.test(key)).sort(([left], [right]) => JSON.parse(left) - JSON.parse(right));
  const others = entries.filter(([key]) => !INDEX.test(key));
  return `{${[...indices, ...others].map(definition => definition.filter(part => part !== undefined).join(': ')).join(', ')}}`;
}

const INDEX = /^"(?:0|[1-9]\d*)"$/;

export function arrayText(elements) {
  return `[${elements.join(', ')}]`;
}

export function templateText(raws, cooked) {
  return `template(${raws.join(', ')}; ${cooked.join(', ')})`;
}
