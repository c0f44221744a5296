// The worked runs of crates/es_statement_runs/proofs/WorkedRuns.antt. Questions stand with the latest first.
import {
  a_host, answer, call, close, dispose, finished, get, import_name, item, iterator, method, null_, outside, read,
  spread, stack, step, text, threw, throw_, undefined_, unset_error,
} from '../lib/notation.mjs';

const moves = [1, 2, 3, 4, 5, 6, 7].map(index => answer(a_host(index)));
const for_of_closes = [close(a_host(2)), item(a_host(2)), step(a_host(2)), iterator(a_host(1)), read('a')];

export default {
  file: 'crates/es_statement_runs/proofs/WorkedRuns.antt',
  runs: [
    { names: ['finalizer_throws'], programs: ['try { throw a; } finally { throw b; }'], moves, outcome: threw(a_host(2)) },
    { names: ['closed_on_break'], programs: ['for (const x of a) { break; }'], moves, questions: for_of_closes },
    { names: ['closed_on_throw', 'thrown_item'], programs: ['for (const x of a) { throw x; }'], moves, questions: for_of_closes, outcome: threw(a_host(4)) },
    {
      names: ['no_item_asked'],
      programs: ['for (const x of a) { break; }'],
      moves,
      questions: [step(a_host(2)), iterator(a_host(1)), read('a')],
      isCut: true,
    },
    {
      names: ['outer_goes_on'],
      programs: ['l: while (a) { while (b) { continue l; } }'],
      moves: [answer(a_host(1)), answer(a_host(2)), answer(null_)],
      questions: [read('a'), read('b'), read('a')],
    },
    {
      names: ['thrown_by_host'],
      programs: ['try { f(); } catch (e) { g(); }'],
      moves: [answer(a_host(1)), throw_(unset_error('z')), answer(a_host(2)), answer(a_host(3))],
      questions: [call(a_host(2), undefined_), read('g'), call(a_host(1), undefined_), read('f')],
    },
    // the machine leaves open what comes of an own error, and the engine throws one that the program catches
    {
      names: ['read_too_early'],
      programs: ['try { y; let y = a; } catch (e) { g(); }'],
      moves,
      questions: [],
      outcome: outside,
      goesOn: ['read g', 'call #1 undefined'],
    },
    {
      names: ['nested_asks'],
      programs: ['let x = a; { let x = b; { let x = c; x(); } x(); } x();'],
      moves: [answer(a_host(1)), answer(a_host(2)), answer(a_host(3)), answer(undefined_), answer(undefined_), answer(undefined_)],
      questions: [call(a_host(1), undefined_), call(a_host(2), undefined_), call(a_host(3), undefined_), read('c'), read('b'), read('a')],
    },
    {
      names: ['other_import'],
      programs: ['import f from "m/helpers/typeof";'],
      module: true,
      moves,
      questions: [import_name('m/helpers/typeof', 'default')],
    },
    { names: ['helper_import'], programs: ['import o from "m/helpers/extends";'], module: true, moves, questions: [] },
    {
      names: ['hidden_helper'],
      programs: ['import o from "m/helpers/usingCtx"; { let o = a; o(); }'],
      module: true,
      moves,
      questions: [call(a_host(1), undefined_), read('a')],
    },
    // `typeof` is no helper of the table, so `babelHelpers` is read like any unbound name
    { names: ['other_member'], programs: ['babelHelpers.typeof();'], helpers: 'global', readsHelpers: true, moves, outcome: finished },
    {
      names: ['its_number'],
      programs: ['var b = babelHelpers.usingCtx(); var c = babelHelpers.usingCtx(); var d = c;'],
      helpers: 'global',
      moves: [],
      cells: { d: stack(1) },
    },
    {
      names: ['spread_method'],
      programs: ['var c = babelHelpers.usingCtx(); c.u(...a);'],
      helpers: 'global',
      passedOver: 'the stack of a helper is an object of its own, whose members no host is asked for',
      moves,
      questions: [call(a_host(1), stack(0), a_host(3)), spread(a_host(2)), read('a'), get(stack(0), text('u'))],
    },
    {
      names: ['kept_use'],
      programs: ['var c = babelHelpers.usingCtx(); c.e = c.u(a); c.d();'],
      helpers: 'global',
      moves,
      questions: [dispose(a_host(1), a_host(2)), method(a_host(1)), read('a')],
    },
  ],
};
