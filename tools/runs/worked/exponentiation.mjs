// The worked runs of crates/es_runs/proofs/ExponentiationRuns.antt. Questions stand with the latest first. Numbers that `**`
// takes are objects which stand for them, so that the host sees them converted.
import {
  answer, boolean, finished, get, host, number, operator, put, read, standing_for, text, threw, throw_, undefined_,
  waiting, write,
} from '../lib/notation.mjs';

const error = text('x');
const two = number('2');
const three = number('3');
const eight = number('8');
const an_object = host(1, false, true, false);
const a_key = text('key');
const raises = operator('**', standing_for(two), standing_for(three));

const answer_two = answer(standing_for(two));
const answer_three = answer(standing_for(three));

const name_raised = ['a **= b;', 'var _a; _a = a, a = Math.pow(_a, b);'];
const member_raised = ['o[k] **= b;', 'var _o, _k; _o = o, _k = k, _o[_k] = Math.pow(_o[_k], b);'];
const member_or = ['o[k] ||= b;', 'var _o, _k; (_o = o)[_k = k] || (_o[_k] = b);'];
const bound_raised = ['var a; a = c; a **= b;', 'var a; a = c; a = Math.pow(a, b);'];

export default {
  file: 'crates/es_runs/proofs/ExponentiationRuns.antt',
  runs: [
    {
      names: ['name_raised'],
      programs: name_raised,
      moves: [answer_two, answer_three, answer(eight), answer(undefined_)],
      questions: [write('a', eight), raises, read('b'), read('a')],
      outcome: finished,
    },
    { names: ['throw_at_a'], programs: name_raised, moves: [throw_(error)], questions: [read('a')], outcome: threw(error) },
    { names: ['throw_at_b'], programs: name_raised, moves: [answer_two, throw_(error)], questions: [read('b'), read('a')], outcome: threw(error) },
    {
      names: ['throw_at_operator'],
      programs: name_raised,
      moves: [answer_two, answer_three, throw_(error)],
      questions: [raises, read('b'), read('a')],
      outcome: threw(error),
    },
    {
      names: ['throw_at_write'],
      programs: name_raised,
      moves: [answer_two, answer_three, answer(eight), throw_(error)],
      questions: [write('a', eight), raises, read('b'), read('a')],
      outcome: threw(error),
    },
    { names: ['waits_at_operator'], programs: name_raised, moves: [answer_two, answer_three], questions: [raises, read('b'), read('a')], outcome: waiting },

    {
      names: ['member_asks'],
      programs: member_raised,
      moves: [answer(an_object), answer(a_key), answer_two, answer_three, answer(eight), answer(undefined_)],
      questions: [put(an_object, a_key, eight), raises, read('b'), get(an_object, a_key), read('k'), read('o')],
      outcome: finished,
    },
    {
      names: ['throw_at_get'],
      programs: member_raised,
      moves: [answer(an_object), answer(a_key), throw_(error)],
      questions: [get(an_object, a_key), read('k'), read('o')],
      outcome: threw(error),
    },

    {
      names: ['false_replaced'],
      programs: member_or,
      moves: [answer(an_object), answer(a_key), answer(boolean(false)), answer(three), answer(undefined_)],
      questions: [put(an_object, a_key, three), read('b'), get(an_object, a_key), read('k'), read('o')],
      outcome: finished,
    },
    {
      names: ['true_stays'],
      programs: member_or,
      moves: [answer(an_object), answer(a_key), answer(boolean(true))],
      questions: [get(an_object, a_key), read('k'), read('o')],
      outcome: finished,
    },

    {
      names: ['bound_asks'],
      programs: bound_raised,
      moves: [answer_two, answer_three, answer(eight)],
      questions: [raises, read('b'), read('c')],
      outcome: finished,
    },
    {
      names: ['bound_cell'],
      programs: [bound_raised[1]],
      moves: [answer_two, answer_three, answer(eight)],
      questions: [raises, read('b'), read('c')],
      cells: { a: eight },
    },
  ],
};
