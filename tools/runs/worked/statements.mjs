// The worked runs of crates/es_statement_runs/proofs/Examples.antt. Questions stand with the latest first.
import {
  a_host, answer, array, boolean, close, copy, dispose, finished, get, item, iterator, list, make, method, no_turns,
  null_, number, operator, outside, pattern_error, put, read, standing_for, step, suppressed, text, threw, throw_,
  undefined_, write,
} from '../lib/notation.mjs';

const wrapped = body => `try { var _usingCtx = babelHelpers.usingCtx(); ${body} } catch (_) { _usingCtx.e = _; } finally { _usingCtx.d(); }`;

const spread_source = 'y = { ...{ a: 1 } };';
const spread_lowered = 'y = babelHelpers.objectSpread2({}, { a: 1 });';
const four_moves = [answer(a_host(1)), answer(a_host(2)), answer(a_host(3)), answer(undefined_)];
const spread_asks = [
  write('y', a_host(3)),
  make(list(a_host(2))),
  copy(a_host(1)),
  make(list(text('a'), number('1'))),
];

const using_source = 'l: { using x = a; using y = b; c; break l; } e;';
const using_lowered = `l: ${wrapped('const x = _usingCtx.u(a); const y = _usingCtx.u(b); c; break l;')} e;`;
const using_asks = [
  read('e'), dispose(a_host(1), a_host(2)), dispose(a_host(3), a_host(4)), read('c'), method(a_host(3)), read('b'), method(a_host(1)), read('a'),
];
const good_moves = [
  answer(a_host(1)), answer(a_host(2)), answer(a_host(3)), answer(a_host(4)), answer(undefined_), answer(undefined_), answer(undefined_), answer(undefined_),
];
const bad_moves = [
  answer(a_host(1)), answer(a_host(2)), answer(a_host(3)), answer(a_host(4)), throw_(number('7')), throw_(number('8')), throw_(number('9')),
];
const both_suppressed = threw(suppressed(number('9'), suppressed(number('8'), number('7'))));

const head_source = 'for (using x of a) { break; }';
const head_lowered = `for (const _x of a) ${wrapped('const x = _usingCtx.u(_x); break;')}`;
const head_moves = [
  answer(a_host(1)), answer(a_host(2)), answer(boolean(true)), answer(a_host(3)), answer(a_host(4)), answer(undefined_), answer(undefined_),
];
const head_asks = [
  close(a_host(2)), dispose(a_host(3), a_host(4)), method(a_host(3)), item(a_host(2)), step(a_host(2)), iterator(a_host(1)), read('a'),
];

const array_script = '[o.a, , ...o.b] = c;';
const object_script = '({ p: o.a = d, ...r } = c);';

// Null of the worked run is compared by `===`, and counted as unequal to itself: here by objects that stand for it.
const a_null = () => standing_for(null_);

export default {
  file: 'crates/es_statement_runs/proofs/Examples.antt',
  runs: [
    { names: ['source_asks'], programs: [spread_source], helpers: 'global', moves: four_moves, questions: spread_asks },
    { names: ['lowered_asks'], programs: [spread_lowered], helpers: 'global', moves: four_moves, questions: spread_asks },

    { names: ['three_turns'], programs: ['for (;;) ;'], moves: [], outcome: no_turns },
    { names: ['no_turn_taken'], programs: ['while (f) ;'], moves: [answer(null_)], outcome: finished },
    { names: ['two_turns'], programs: ['while (f) ;'], moves: [answer(a_host(1)), answer(a_host(1)), answer(a_host(1))], outcome: no_turns },

    { names: ['using_source_asks'], programs: [using_source], helpers: 'global', moves: good_moves, questions: using_asks },
    { names: ['using_lowered_asks'], programs: [using_lowered], helpers: 'global', moves: good_moves, questions: using_asks },
    { names: ['using_source_throws'], programs: [using_source], helpers: 'global', moves: bad_moves, outcome: both_suppressed },
    { names: ['using_lowered_throws'], programs: [using_lowered], helpers: 'global', moves: bad_moves, outcome: both_suppressed },
    { names: ['head_source_asks'], programs: [head_source], helpers: 'global', moves: head_moves, questions: head_asks },
    { names: ['head_lowered_asks'], programs: [head_lowered], helpers: 'global', moves: head_moves, questions: head_asks },
    {
      names: ['head_source_throws'],
      programs: [head_source],
      helpers: 'global',
      moves: [
        answer(a_host(1)), answer(a_host(2)), answer(boolean(true)), answer(a_host(3)), answer(a_host(4)), throw_(number('8')), throw_(number('9')),
      ],
      outcome: threw(number('8')),
    },

    {
      names: ['array_asks'],
      programs: [array_script],
      moves: [
        answer(a_host(1)), answer(a_host(2)), answer(a_host(3)), answer(boolean(true)), answer(number('5')), answer(undefined_), answer(boolean(true)),
        answer(a_host(4)), answer(boolean(true)), answer(number('6')), answer(boolean(false)), answer(a_host(7)), answer(undefined_),
      ],
      questions: [
        put(a_host(4), text('b'), a_host(7)), array(number('6')), step(a_host(2)), item(a_host(2)), step(a_host(2)), read('o'), step(a_host(2)),
        put(a_host(3), text('a'), number('5')), item(a_host(2)), step(a_host(2)), read('o'), iterator(a_host(1)), read('c'),
      ],
    },
    {
      names: ['array_closes'],
      programs: [array_script],
      moves: [answer(a_host(1)), answer(a_host(2)), throw_(null_), answer(undefined_)],
      questions: [close(a_host(2)), read('o'), iterator(a_host(1)), read('c')],
    },
    {
      names: ['array_stays'],
      programs: [array_script],
      moves: [answer(a_host(1)), answer(a_host(2)), answer(a_host(3)), throw_(null_)],
      questions: [step(a_host(2)), read('o'), iterator(a_host(1)), read('c')],
    },
    {
      names: ['object_asks'],
      programs: [object_script],
      moves: [
        answer(a_host(1)), answer(a_host(2)), answer(undefined_), answer(a_host(3)), answer(undefined_), answer(a_host(4)), answer(a_host(5)),
        answer(undefined_),
      ],
      questions: [
        write('r', a_host(5)), make(list(a_host(4))), copy(a_host(1), text('p')), put(a_host(2), text('a'), a_host(3)), read('d'),
        get(a_host(1), text('p')), read('o'), read('c'),
      ],
    },
    {
      names: ['object_of_null'],
      programs: [object_script],
      moves: [answer(null_)],
      outcome: threw(pattern_error),
      known: {
        asked: ['read c', 'read o'],
        end: 'waiting',
        why: 'V8 evaluates the first target before it tests the value for null, which ECMA-262 tests first (13.15.5.2)',
      },
    },

    { names: ['unset_read'], programs: ['let x = a; { x; let x = b; }'], moves: [answer(null_), answer(null_)], outcome: outside },
    {
      names: ['falls_through'],
      programs: ['switch (a) { case b: c; default: d; case e: f; }'],
      moves: [
        answer(a_null()), answer(a_null()), answer(boolean(false)), answer(a_null()), answer(boolean(false)), answer(null_), answer(null_),
      ],
      questions: [read('f'), read('d'), operator('===', null_, null_), read('e'), operator('===', null_, null_), read('b'), read('a')],
    },
    {
      names: ['head_names'],
      programs: ['for (let i = a; i; i = b) i; i;'],
      moves: [answer(a_host(1)), answer(null_), answer(null_)],
      questions: [read('i'), read('b'), read('a')],
    },
  ],
};
