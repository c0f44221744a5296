// The worked runs of crates/es_runs/proofs/Examples.antt. Questions stand with the latest first.
import { answer, call, get, host, null_, number, read, text } from '../lib/notation.mjs';

const optional_call = 'a.b?.(c);';
const lowered = 'var _f, _r; (_f = (_r = a).b) === null || _f === void 0 ? void 0 : _f.call(_r, c);';

const moves = [answer(host(1, false, true, false)), answer(host(2, true, true, false)), answer(number('7')), answer(null_)];
const asks_four = [
  call(host(2, true, true, false), host(1, false, true, false), number('7')), read('c'), get(host(1, false, true, false), text('b')), read('a'),
];

export default {
  file: 'crates/es_runs/proofs/Examples.antt',
  runs: [
    { names: ['asks_four'], programs: [optional_call], moves, questions: asks_four },
    {
      names: ['asks_two'],
      programs: [optional_call],
      moves: [answer(host(1, false, true, false)), answer(null_)],
      questions: [get(host(1, false, true, false), text('b')), read('a')],
    },
    { names: ['asks_four_too'], programs: [lowered, optional_call], moves, questions: asks_four },
  ],
};
