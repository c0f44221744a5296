// Runs a program by the machine of crates/es_statement_runs, as its definitions stand.
import { bytesOf, datum, definition, replace } from './definitions.mjs';
import * as notation from './notation.mjs';
import { plainTree } from './plain-tree.mjs';

/** What answers the questions of a run in the place of its list of moves, if something does. */
let answering;
replace('es_runs', 'Machine', 'ask', ask => question => state => answering ? answered(question, state) : ask(question)(state));

const run = definition('es_statement_runs', 'Runs', 'run');
const outcomeOf = definition('es_statement_runs', 'Runs', 'outcome');
const isMeantBy = definition('es_statement_runs', 'Meant', 'is_meant');
const declaredAtTop = definition('es_statement_runs', 'Names', 'declared_at_top');
const stateOf = definition('es_runs', 'Runs', 'state_of');
const askedIn = definition('es_runs', 'Runs', 'asked');
const cellsOf = definition('es_runs', 'Runs', 'cells');
const textOf = bytes => Buffer.from(bytes).toString('utf8');

/** The run whose moves `move(question, their number so far)` gives, until it ends or nothing is given; and these moves. */
export function playMachine(tree, move) {
  const moves = [];
  answering = question => {
    const next = move(question, moves.length);
    if (next !== undefined) moves.push(next);
    return next;
  };
  try {
    return { ...runMachine(tree, Array.from({ length: SPARE }, () => notation.answer(notation.undefined_))), moves };
  } finally {
    answering = undefined;
  }
}

/** Moves that none takes: a run of items has at most as many as there are moves. */
const SPARE = 100;

/** The question takes a move, or the run waits, as by the definition of `ask`. */
function answered(question, { a: [cells, moves, asked] }) {
  const move = answering(questionOf(question));
  const state = datum('state', cells, moves, [question, ...asked]);
  if (move === undefined) return datum('stops', datum('waits'), state);
  const { c, a: [value] } = moveDatum(move);
  return c === 'answer' ? datum('gives', value, state) : datum('stops', datum('throws', value), state);
}

/** Whether every node of the tree has a meaning; functions, arrows and classes have none. */
export function isMeant(tree) {
  return isMeantBy(datum('no_helpers'))(plainTree(tree));
}

/** The run of a tree from so many turns: its questions, the latest first, its outcome, and what each name of its top holds. */
export function runMachine(tree, moves, { turns = 50 } = {}) {
  const plain = plainTree(tree);
  const result = run(datum('no_helpers'))(turns)(plain)(datum('undefined'))(moves.map(moveDatum));
  const state = stateOf(result);
  const names = declaredAtTop(plain).map(({ name }) => name);
  const cells = names.map(name => [textOf(name), cellsOf(state)(name)]);
  return {
    questions: askedIn(state).map(questionOf),
    outcome: outcome(outcomeOf(result)),
    cells: Object.fromEntries(cells.map(([name, cell]) => [name, cell.c === 'holds' ? valueOf(cell.a[0]) : undefined])),
  };
}

export function outcome({ c, a }) {
  return c === 'threw' ? notation.threw(valueOf(a[0])) : notation[c] ?? { is: c };
}

// FROM VALUES TO DATA: a datum keeps the value that it was made of, so that values are known again

function moveDatum({ is, value }) {
  return datum(is, valueDatum(value));
}

function valueDatum(value) {
  switch (value.is) {
    case 'undefined': case 'null': return datum(value.is);
    case 'boolean': return { ...datum('boolean', value.value), origin: value };
    case 'host': return { ...datum('host', value.index, value.callable, value.truthy, value.all), origin: value };
    default: return { ...datum(value.is, bytesOf(value.text)), origin: value };
  }
}

// AND BACK

export function valueOf(value) {
  if (value.origin) return value.origin;
  const { c, a } = value;
  switch (c) {
    case 'undefined': return notation.undefined_;
    case 'null': return notation.null_;
    case 'boolean': return notation.boolean(a[0]);
    case 'number': case 'bigint': case 'text': return { is: c, text: textOf(a[0]) };
    case 'host': return notation.host(...a);
    case 'own': return valueOf(a[0]);
    case 'stack': return notation.stack(a[0]);
    case 'list': return notation.list(...valuesOf(a[0]));
    case 'suppressed': return notation.suppressed(valueOf(a[0]), valueOf(a[1]));
    case 'unset_error': return notation.unset_error(textOf(a[0]));
    default: return { is: c };
  }
}

function valuesOf({ c, a }) {
  return c === 'none' ? [] : [valueOf(a[0]), ...valuesOf(a[1])];
}

/** Names and operators are texts, operands values, and a list of values at the end is so many operands. */
export function questionOf({ c, a }) {
  if (c === 'of_statement') return questionOf(a[0]);
  const operands = a.flatMap(operand => {
    if (Array.isArray(operand)) return [textOf(operand)];
    return operand.c === 'none' || operand.c === 'and' ? valuesOf(operand) : [valueOf(operand)];
  });
  return { is: c, operands };
}
