// The worked runs of crates/es_runs/proofs/OptionalChainingRuns.antt. Questions stand with the latest first.
import {
  answer, boolean, call, called_uncallable, delete_, finished, get, host, null_, number, read, text, threw, throw_,
  undefined_,
} from '../lib/notation.mjs';

const object = host(1, false, true, false);
const f = host(2, true, true, false);
const g = host(3, true, true, false);
const error = text('x');

const method = 'a.b?.();';
const method_script = 'var _a$b; var _a; (_a$b = (_a = a).b) === null || _a$b === void 0 ? void 0 : _a$b.call(_a);';
const method_called = [call(f, object), get(object, text('b')), read('a')];
const method_moves = [answer(object), answer(f), answer(null_)];
const method_throwing = [answer(object), answer(f), throw_(error)];

const twice = 'a?.()?.();';
const twice_script = 'var _a; var _a2; (_a = a) === null || _a === void 0 || (_a2 = _a()) === null || _a2 === void 0 ? void 0 : _a2();';
const twice_called = [call(g, undefined_), call(f, undefined_), read('a')];
const twice_moves = [answer(f), answer(g), answer(null_)];

const outer = '(a?.b).c?.d;';
const outer_script = 'var _a$b$c; var _a; (_a$b$c = ((_a = a) === null || _a === void 0 ? void 0 : _a.b).c) === null || _a$b$c === void 0 ? void 0 : _a$b$c.d;';
const outer_null = [get(undefined_, text('c')), read('a')];
const outer_cut = [get(number('7'), text('c')), get(object, text('b')), read('a')];
const outer_all = [get(boolean(false), text('d')), get(number('7'), text('c')), get(object, text('b')), read('a')];

const bound_call = '(a?.b)();';
const bound_script = 'var _a; ((_a = a) === null || _a === void 0 ? void 0 : _a.b.bind(_a))();';
const deletion = 'delete a?.b;';
const deletion_script = 'var _a; (_a = a) === null || _a === void 0 ? true : delete _a.b;';

const with_a = 'var a; a = c; a?.b;';
const with_a_loose = 'var a; a = c; a == null ? void 0 : a.b;';
const all = host(4, true, false, true);

export default {
  file: 'crates/es_runs/proofs/OptionalChainingRuns.antt',
  runs: [
    { names: ['method_calls', 'method_ends'], programs: [method], moves: method_moves, questions: method_called, outcome: finished },
    {
      names: ['method_calls_too', 'method_ends_too', 'method_cell', 'method_receiver_cell'],
      programs: [method_script],
      moves: method_moves,
      questions: method_called,
      outcome: finished,
      cells: { _a$b: f, _a: object },
    },
    { names: ['method_null'], programs: [method], moves: [answer(object), answer(null_)], questions: [get(object, text('b')), read('a')] },
    { names: ['method_null_too'], programs: [method_script], moves: [answer(object), answer(null_)], questions: [get(object, text('b')), read('a')] },
    { names: ['method_null_ends'], programs: [method], moves: [answer(object), answer(undefined_)], outcome: finished },
    { names: ['method_null_ends_too'], programs: [method_script], moves: [answer(object), answer(undefined_)], outcome: finished },
    { names: ['method_false'], programs: [method], moves: [answer(object), answer(boolean(false))], outcome: called_uncallable },
    { names: ['method_throws'], programs: [method], moves: method_throwing, outcome: threw(error) },
    { names: ['method_throws_too'], programs: [method_script], moves: method_throwing, outcome: threw(error) },

    { names: ['twice_calls'], programs: [twice], moves: twice_moves, questions: twice_called },
    { names: ['twice_calls_too', 'twice_ends_too'], programs: [twice_script], moves: twice_moves, questions: twice_called, outcome: finished },
    { names: ['twice_null', 'twice_null_ends'], programs: [twice], moves: [answer(null_)], questions: [read('a')], outcome: finished },
    { names: ['twice_null_too', 'twice_null_ends_too'], programs: [twice_script], moves: [answer(null_)], questions: [read('a')], outcome: finished },
    { names: ['twice_undefined'], programs: [twice], moves: [answer(f), answer(undefined_)], questions: [call(f, undefined_), read('a')] },
    {
      names: ['twice_undefined_too', 'twice_undefined_ends_too'],
      programs: [twice_script],
      moves: [answer(f), answer(undefined_)],
      questions: [call(f, undefined_), read('a')],
      outcome: finished,
    },

    // `get undefined "c"` isn't asked by an engine, which throws an error of its own where the host of the run throws
    { names: ['null_goes_on', 'null_throws'], programs: [outer], moves: [answer(null_), throw_(error)], questions: outer_null, outcome: threw(error) },
    { names: ['null_goes_on_too', 'null_throws_too'], programs: [outer_script], moves: [answer(null_), throw_(error)], questions: outer_null, outcome: threw(error) },
    { names: ['cut_at_d'], programs: [outer], moves: [answer(object), answer(number('7')), answer(null_)], questions: outer_cut },
    {
      names: ['cut_at_d_too', 'cut_ends_too'],
      programs: [outer_script],
      moves: [answer(object), answer(number('7')), answer(null_)],
      questions: outer_cut,
      outcome: finished,
    },
    { names: ['asks_all'], programs: [outer], moves: [answer(object), answer(number('7')), answer(boolean(false)), answer(null_)], questions: outer_all },
    { names: ['asks_all_too'], programs: [outer_script], moves: [answer(object), answer(number('7')), answer(boolean(false)), answer(null_)], questions: outer_all },

    { names: ['bound_calls'], programs: [bound_call], moves: method_moves, questions: method_called },
    { names: ['bound_calls_too'], programs: [bound_script], moves: method_moves, questions: method_called },
    { names: ['bound_null'], programs: [bound_call], moves: [answer(null_)], outcome: called_uncallable },
    { names: ['deletes'], programs: [deletion], moves: [answer(object), answer(boolean(true))], questions: [delete_(object, text('b')), read('a')] },
    { names: ['deletes_too'], programs: [deletion_script], moves: [answer(object), answer(boolean(true))], questions: [delete_(object, text('b')), read('a')] },
    { names: ['deletes_nothing'], programs: [deletion], moves: [answer(undefined_)], questions: [read('a')] },
    { names: ['deletes_nothing_too'], programs: [deletion_script], moves: [answer(undefined_)], questions: [read('a')] },

    { names: ['loose_asks'], programs: [with_a], moves: [answer(object), answer(null_)], questions: [get(object, text('b')), read('c')] },
    { names: ['loose_asks_too'], programs: [with_a_loose], moves: [answer(object), answer(null_)], questions: [get(object, text('b')), read('c')] },
    { names: ['loose_null'], programs: [with_a], moves: [answer(null_)], questions: [read('c')] },
    { names: ['loose_null_too'], programs: [with_a_loose], moves: [answer(null_)], questions: [read('c')] },
    { names: ['all_asks'], programs: [with_a], moves: [answer(all), answer(null_)], questions: [get(all, text('b')), read('c')] },
    { names: ['all_is_cut'], programs: [with_a_loose], moves: [answer(all), answer(null_)], questions: [read('c')] },
  ],
};
