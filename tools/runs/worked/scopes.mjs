// The worked runs of crates/es_statement_runs/proofs/ScopeExamples.antt. Questions stand with the latest first.
import {
  a_host, answer, boolean, call, close, dispose, import_name, instead_of, item, iterator, method, no_turns, null_,
  operator, outside, read, step, undefined_,
} from '../lib/notation.mjs';

const yes_answer = answer(boolean(true));
const wrapped = body => `try { var _usingCtx = babelHelpers.usingCtx(); ${body} } catch (_) { _usingCtx.e = _; } finally { _usingCtx.d(); }`;

const of_writes = 'for (const x of a) x = b;';
const for_using = 'l: for (using x = a; b; ) { continue l; }';
const for_lowered = wrapped('l: for (const x = _usingCtx.u(a); b; ) { continue l; }');
const for_moves = [answer(a_host(1)), answer(a_host(2)), yes_answer, answer(null_), answer(null_)];
const for_asks = [dispose(a_host(1), a_host(2)), read('b'), read('b'), method(a_host(1)), read('a')];

export default {
  file: 'crates/es_statement_runs/proofs/ScopeExamples.antt',
  runs: [
    // the host of the run counts two host values as equal, and no host is asked by an engine: here the second is the first
    {
      names: ['switch_names'],
      programs: ['let x = b; switch (x) { case y: let x = a; x; x(); } x();'],
      moves: [answer(a_host(1)), answer(instead_of(a_host(2), a_host(1))), yes_answer, answer(a_host(3)), answer(null_), answer(null_)],
      questions: [
        call(a_host(1), undefined_), call(a_host(3), undefined_), read('a'), operator('===', a_host(1), a_host(2)), read('y'), read('b'),
      ],
    },
    {
      names: ['of_asks'],
      programs: ['for (const x of a) x();'],
      moves: [answer(a_host(1)), answer(a_host(2)), yes_answer, answer(a_host(3)), answer(null_), answer(boolean(false))],
      questions: [step(a_host(2)), call(a_host(3), undefined_), item(a_host(2)), step(a_host(2)), iterator(a_host(1)), read('a')],
    },
    {
      names: ['of_constant'],
      programs: [of_writes],
      moves: [answer(a_host(1)), answer(a_host(2)), yes_answer, answer(a_host(3)), answer(null_), answer(boolean(false))],
      outcome: outside,
    },
    { names: ['of_unset'], programs: ['for (const x of x) { }'], moves: [answer(null_)], outcome: outside },
    {
      names: ['inner_closed'],
      programs: ['l: for (const x of a) for (const y of b) continue l;'],
      moves: [
        answer(a_host(1)), answer(a_host(2)), yes_answer, answer(a_host(3)), answer(a_host(4)), answer(a_host(5)), yes_answer, answer(a_host(6)),
        answer(null_), answer(null_),
      ],
      questions: [
        step(a_host(2)), close(a_host(5)), item(a_host(5)), step(a_host(5)), iterator(a_host(4)), read('b'), item(a_host(2)), step(a_host(2)),
        iterator(a_host(1)), read('a'),
      ],
    },

    { names: ['for_asks', 'for_asks_too'], programs: [for_using, for_lowered], helpers: 'global', moves: for_moves, questions: for_asks },
    { names: ['null_unused'], programs: [for_using], helpers: 'global', moves: [answer(null_), answer(null_)], questions: [read('b'), read('a')] },
    { names: ['no_turn'], programs: [for_using], helpers: 'global', moves: for_moves, outcome: no_turns },

    {
      names: ['import_written'],
      programs: ['import x from "m"; x = b;'],
      module: true,
      moves: [answer(null_), answer(null_)],
      questions: [read('b'), import_name('m', 'default')], // the file has the end alone
      outcome: outside,
    },
    {
      names: ['top_cells'],
      programs: ['let x = a; { let x = b; c; }'],
      moves: [answer(a_host(1)), answer(a_host(2))],
      cells: { x: a_host(1) },
    },
    { names: ['hoisted'], programs: ['do { var x = a; break; } while (b);'], moves: [answer(a_host(1))], cells: { x: a_host(1) } },
  ],
};
