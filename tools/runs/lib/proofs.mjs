// The statements of computed runs, as data: which program, which moves, and what of the run is said to be what. The
// definitions are evaluated as they stand, but for a run and what is read off it.
import { definition, load, replace } from './definitions.mjs';
import { outcome, questionOf, valueOf } from './machine.mjs';

const textOf = bytes => Buffer.from(bytes).toString('utf8');
const namesOf = declared => declared.map(({ name }) => textOf(name));
const declaredOf = definition('es_tree', 'Scopes', 'declared_of');
const movesOf = moves => moves.map(({ c, a: [value] }) => ({ is: c, value: valueOf(value) }));
const SUPPLIES = { no_helpers: undefined, by_global: 'global', by_import: 'import', by_require: 'require' };

replace('es_runs', 'Runs', 'run_where', () => () => declared => program => () => moves => (
  { program, around: namesOf(declared).filter(name => !namesOf(declaredOf(program)).includes(name)), moves: movesOf(moves) }));
replace('es_statement_runs', 'Runs', 'run', () => supply => () => program => () => moves => (
  { program, helpers: SUPPLIES[supply.c], moves: movesOf(moves) }));
replace('es_runs', 'Runs', 'state_of', () => run => run);
replace('es_runs', 'Runs', 'asked', () => run => ({ run, of: 'questions' }));
replace('es_runs', 'Runs', 'cells', () => run => name => ({ run, of: 'cells', name: textOf(name) }));
for (const crate of ['es_runs', 'es_statement_runs']) replace(crate, 'Runs', 'outcome', () => run => ({ run, of: 'outcome' }));

/**
 * From a name of a file of proofs to its statement: what it speaks of, as `{ run, of, name }`, and what that is said to be;
 * or of two programs, `{ both, moves, outcome, questions }`.
 */
export function statementsOf(path) {
  const file = load(path.split('/')[1], 'proofs', path.split('/').at(-1).replace('.antt', ''));
  file.values.set('BothAsk', source => lowered => moves => end => questions => (
    { both: [source, lowered], moves: movesOf(moves), outcome: outcome(end), questions: questions.map(questionOf) }));
  return name => {
    const [left, right] = file.sides(name);
    return left.both || right.run ? [left, right] : [left, CLAIMED[left.of](right)];
  };
}

/** What a side that is no run says: questions, an outcome, or what a cell holds. */
const CLAIMED = { questions: questions => questions.map(questionOf), outcome, cells: ({ a: [value] }) => valueOf(value) };
