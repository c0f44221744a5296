// The worked runs of crates/es_statement_runs/proofs/HelperExamples.antt. Questions stand with the latest first. Where the
// file says of two programs that their questions are the same, both stand with the list of the source.
import {
  a_host, answer, array, call, copy, get, import_name, item, keys, list, make, null_, number, pattern_error, put,
  read, step, template, text, threw, undefined_, write,
} from '../lib/notation.mjs';

const moves = [1, 2, 3, 4, 5, 6, 7, 8].map(index => answer(a_host(index)));

const nested_source = 'y = { a: 1, ...b, c: 2 };';
const nested_lowered = 'y = babelHelpers.objectSpread2(babelHelpers.objectSpread2({ a: 1 }, b), {}, { c: 2 });';

const split_source = 'const { a, [k]: b, ...r } = e;';
const split_lowered = `const _e = e, { a } = _e, _k = k, { [_k]: b } = _e,
  r = babelHelpers.objectWithoutProperties(_e, ["a", _k].map(babelHelpers.toPropertyKey));`;

const below_source = '{ let { a, ...r } = e; }';
const below_lowered = 'const _excluded = ["a"]; { let _e = e, { a } = _e, r = babelHelpers.objectWithoutProperties(_e, _excluded); }';

const empty_source = 'var { ...r } = e;';
const empty_lowered = 'var _e = e, r = babelHelpers.extends({}, (babelHelpers.objectDestructuringEmpty(_e), _e));';

const module_source = 'import b, { c as d } from "n"; y = { ...b }; d;';
const module_lowered = 'import _objectSpread2 from "m/helpers/objectSpread2"; import b, { c as d } from "n"; y = _objectSpread2({}, b); d;';

export default {
  file: 'crates/es_statement_runs/proofs/HelperExamples.antt',
  runs: [
    {
      names: ['nested_asks', 'nested_asked'],
      programs: [nested_source, nested_lowered],
      helpers: 'global',
      moves,
      questions: [
        write('y', a_host(3)), make(list(text('a'), number('1')), list(a_host(2)), list(text('c'), number('2'))), copy(a_host(1)), read('b'),
      ],
    },
    {
      names: ['split_asks', 'split_asked'],
      programs: [split_source, split_lowered],
      helpers: 'global',
      moves,
      questions: [
        make(list(a_host(5))), copy(a_host(1), text('a'), a_host(3)), get(a_host(1), a_host(3)), read('k'), get(a_host(1), text('a')), read('e'),
      ],
      cells: { r: a_host(6) },
    },
    { names: ['split_null'], programs: [split_source, split_lowered], helpers: 'global', moves: [answer(null_)], outcome: threw(pattern_error) },
    // the file says that both ask the same, and the list is what the machine asks for the source
    {
      names: ['below_asks'],
      programs: [below_source, below_lowered],
      helpers: 'global',
      moves,
      questions: [make(list(a_host(3))), copy(a_host(1), text('a')), get(a_host(1), text('a')), read('e')],
    },
    { names: ['elsewhere_asks'], programs: ['const _excluded = ["a"]; _excluded;'], helpers: 'global', moves, questions: [array(text('a'))] },
    // as above
    { names: ['empty_asks'], programs: [empty_source, empty_lowered], helpers: 'global', moves, questions: [make(list(a_host(2))), copy(a_host(1)), read('e')] },
    { names: ['empty_null'], programs: [empty_lowered], helpers: 'global', moves: [answer(null_)], outcome: threw(pattern_error) },
    {
      names: ['empty_rest'],
      programs: [empty_lowered],
      helpers: 'global',
      moves,
      questions: [make(list(a_host(2))), copy(a_host(1)), read('e')],
      cells: { r: a_host(3) },
    },
    {
      names: ['module_asks', 'module_asked'],
      programs: [module_source, module_lowered],
      module: true,
      moves,
      questions: [write('y', a_host(4)), make(list(a_host(3))), copy(a_host(1)), import_name('n', 'c'), import_name('n', 'default')],
    },
    {
      names: ['required_asks'],
      programs: ['var _o = require("m/helpers/objectSpread2"); y = _o({}, b);'],
      helpers: 'require',
      moves,
      questions: [write('y', a_host(3)), make(list(a_host(2))), copy(a_host(1)), read('b')],
    },
    { names: ['finally_asks'], programs: ['l: while (a) { try { continue; } finally { break l; } } b;'], moves, questions: [read('b'), read('a')] },
    {
      names: ['catch_asks'],
      programs: ['try { throw a; } catch ({ x }) { x(); }'],
      moves,
      questions: [call(a_host(2), undefined_), get(a_host(1), text('x')), read('a')],
    },
    {
      names: ['tagged_asks'],
      programs: ['a.b`x${c}y`;'],
      moves,
      questions: [
        call(a_host(2), a_host(1), a_host(3), a_host(4)), read('c'), template(list(text('x'), text('y')), list(text('x'), text('y'))),
        get(a_host(1), text('b')), read('a'),
      ],
    },
    {
      names: ['in_asks'],
      programs: ['for (o.p in a) { break; }'],
      moves,
      questions: [put(a_host(5), text('p'), a_host(4)), read('o'), item(a_host(2)), step(a_host(2)), keys(a_host(1)), read('a')],
    },
  ],
};
