// The worked runs of crates/es_runs/proofs/NullishCoalescingRuns.antt. Questions stand with the latest first.
import {
  answer, boolean, finished, null_, number, operator, put, read, standing_for, text, threw, throw_, undefined_,
  waiting, write,
} from '../lib/notation.mjs';

const source = 'r = a ?? b;';
const lowered = 'var _a; r = (_a = a) !== null && _a !== void 0 ? _a : b;';

const keeps_a = v => [write('r', v), read('a')];
const takes_b = [write('r', text('B')), read('b'), read('a')];

export default {
  file: 'crates/es_runs/proofs/NullishCoalescingRuns.antt',
  runs: [
    { names: ['null_asks_b'], programs: [source], moves: [answer(null_), answer(text('B')), answer(undefined_)], questions: takes_b },
    { names: ['undefined_asks_b'], programs: [source], moves: [answer(undefined_), answer(text('B')), answer(undefined_)], questions: takes_b },
    { names: ['false_stays'], programs: [source], moves: [answer(boolean(false)), answer(undefined_)], questions: keeps_a(boolean(false)) },
    { names: ['zero_stays'], programs: [source], moves: [answer(number('0')), answer(undefined_)], questions: keeps_a(number('0')) },
    { names: ['throw_at_a'], programs: [source], moves: [throw_(text('x'))], outcome: threw(text('x')) },
    { names: ['throw_at_b'], programs: [source], moves: [answer(null_), throw_(text('x'))], outcome: threw(text('x')) },
    { names: ['throw_at_r'], programs: [source], moves: [answer(boolean(true)), throw_(text('x'))], outcome: threw(text('x')) },
    { names: ['waits_at_b'], programs: [source], moves: [answer(null_)], outcome: waiting },

    { names: ['lowered_null'], programs: [lowered], moves: [answer(null_), answer(text('B')), answer(undefined_)], questions: takes_b },
    { names: ['lowered_undefined'], programs: [lowered], moves: [answer(undefined_), answer(text('B')), answer(undefined_)], questions: takes_b },
    {
      names: ['lowered_false', 'lowered_ends', 'lowered_cell'],
      programs: [lowered],
      moves: [answer(boolean(false)), answer(undefined_)],
      questions: keeps_a(boolean(false)),
      outcome: finished,
      cells: { _a: boolean(false) },
    },
    { names: ['lowered_throws'], programs: [lowered], moves: [answer(null_), throw_(text('x'))], outcome: threw(text('x')) },

    {
      names: ['target_first'],
      programs: ['a.b = c;'],
      moves: [answer(text('A')), answer(text('C')), answer(undefined_)],
      questions: [put(text('A'), text('b'), text('C')), read('c'), read('a')],
    },
    {
      names: ['left_operand_first'],
      programs: ['a + c;'],
      moves: [answer(standing_for(text('A'))), answer(standing_for(text('C'))), answer(undefined_)],
      questions: [operator('+', standing_for(text('A')), standing_for(text('C'))), read('c'), read('a')],
    },
  ],
};
