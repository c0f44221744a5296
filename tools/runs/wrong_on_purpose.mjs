// Programs beside worked runs that are not theirs: each has to be told as one that differs.
import {
  a_host, answer, boolean, call, called_uncallable, close, copy, finished, get, host, item, iterator, list, make,
  null_, number, operator, put, read, standing_for, step, text, threw, throw_, undefined_, write,
} from './lib/notation.mjs';

const object = host(1, false, true, false);
const f = host(2, true, true, false);

export default [
  // a name is read twice
  {
    names: ['a name is read twice'],
    programs: ['r = a !== null && a !== void 0 ? a : b;'],
    moves: [answer(boolean(false)), answer(undefined_)],
    questions: [write('r', boolean(false)), read('a')],
  },
  {
    names: ['false is replaced'],
    programs: ['r = a || b;'],
    moves: [answer(boolean(false)), answer(undefined_)],
    questions: [write('r', boolean(false)), read('a')],
  },
  {
    names: ['the receiver is lost'],
    programs: ['var _a; (_a = a.b) === null || _a === void 0 ? void 0 : _a();'],
    moves: [answer(object), answer(f), answer(null_)],
    questions: [call(f, object), get(object, text('b')), read('a')],
  },
  {
    names: ['the right side first'],
    programs: ['var _b; _b = b, a = Math.pow(a, _b);'],
    moves: [answer(standing_for(number('2'))), answer(standing_for(number('3'))), answer(number('8')), answer(undefined_)],
    questions: [write('a', number('8')), operator('**', standing_for(number('2')), standing_for(number('3'))), read('b'), read('a')],
  },
  {
    names: ['a product'],
    programs: ['a = a * b;'],
    moves: [answer(standing_for(number('2'))), answer(standing_for(number('3'))), answer(number('8')), answer(undefined_)],
    questions: [write('a', number('8')), operator('**', standing_for(number('2')), standing_for(number('3'))), read('b'), read('a')],
  },
  {
    names: ['another key'],
    programs: ['a.c = c;'],
    moves: [answer(object), answer(number('1')), answer(undefined_)],
    questions: [put(object, text('b'), number('1')), read('c'), read('a')],
  },
  {
    names: ['no iterator is closed'],
    programs: ['for (const x of a) { b; }'],
    moves: [1, 2, 3, 4, 5].map(index => answer(a_host(index))),
    questions: [close(a_host(2)), item(a_host(2)), step(a_host(2)), iterator(a_host(1)), read('a')],
  },
  {
    names: ['an excluded key is copied'],
    programs: ['const t = c; t.p; r = { ...t };'],
    moves: [1, 2, 3, 4, 5].map(index => answer(a_host(index))),
    questions: [write('r', a_host(4)), make(list(a_host(3))), copy(a_host(1), text('p')), get(a_host(1), text('p')), read('c')],
  },
  {
    names: ['another content'],
    programs: ['y = { b: 1, ...a };'],
    moves: [1, 2, 3, 4].map(index => answer(a_host(index))),
    questions: [write('y', a_host(3)), make(list(a_host(2)), list(text('b'), number('1'))), copy(a_host(1)), read('a')],
  },
  { names: ['a throw that is caught'], programs: ['try { a; } catch { }'], moves: [throw_(text('x'))], outcome: threw(text('x')) },
  { names: ['what is called is callable'], programs: ['a();'], moves: [answer(f), answer(null_)], outcome: called_uncallable },
  { names: ['a throw at the end'], programs: ['a; throw a;'], moves: [answer(null_), answer(null_)], outcome: finished },
  { names: ['another cell'], programs: ['var _a; _a = a;'], moves: [answer(f)], cells: { _a: object } },
];
