// Whether two texts run alike under the same host, by lists of moves made at random and the same each time.
import { runProgram } from './engine.mjs';
import { random } from './moves.mjs';
import { answer, boolean, host, null_, number, standing_for, text, throw_, undefined_ } from './notation.mjs';

const LENGTH = 40;

/**
 * Runs both texts by each of so many lists. Calls `tell` with the number of the list and both runs where they differ: they are to ask the
 * same, to end alike and to leave these names equal. Returns how many runs were compared with how many questions, how many lists call what
 * isn't callable, how many `isOutside` says of the first run, in how many neither run ends in the time that it is given, and how many differ;
 * `unread` is 1 where this engine doesn't read the first text, and then neither is run.
 */
export async function compareRuns(before, after, { lists, names, module, helpers, hasAll, mayBeEndless, asksModules, isOutside = () => false, tell }) {
  const counts = { runs: 0, questions: 0, uncallable: 0, outside: 0, endless: 0, unread: 0, differing: 0 };
  for (let list = 0; list < lists; list += 1) {
    const worked = { moves: randomMoves(list, { hasAll }), module, helpers, mayBeEndless, asksModules };
    const first = await runProgram(before, worked);
    if (first.is === 'unread') return { ...counts, unread: 1 };
    const second = await runProgram(after, worked);
    if ([first, second].every(({ is }) => is === 'endless')) counts.endless += 1;
    else if (await callsUncallable(before, worked, first)) counts.uncallable += 1;
    else if (isOutside(first)) counts.outside += 1;
    else {
      counts.runs += 1;
      counts.questions += first.asked.length;
      const [left, right] = [first, second].map(ran => told(ran, names));
      if (left === right) continue;
      counts.differing += 1;
      tell(list, left, right);
    }
  }
  return counts;
}

/** The names that the declarations at the top of a tree declare. */
export function topNames({ body = [] }) {
  return body.flatMap(({ declarations = [] }) => declarations.flatMap(({ id }) => boundNames(id)));
}

/** The names that a tree asks of other modules, each with the module's. */
export function namesOfModules({ body = [] }) {
  return body.filter(({ source }) => source).flatMap(({ source, specifiers }) => (specifiers ?? [])
    .filter(({ type }) => type !== 'ImportNamespaceSpecifier')
    .map(({ type, imported, local }) => ({ source: source.value, name: type === 'ImportDefaultSpecifier' ? 'default' : textOf(imported ?? local) })));
}

function textOf({ name, value }) {
  return name ?? value;
}

/** The names that a pattern binds; a sparse tree leaves out lists that are empty. */
function boundNames(pattern) {
  if (pattern === null) return []; // a hole
  switch (pattern.type) {
    case 'Identifier': return [pattern.name];
    case 'ObjectPattern': return (pattern.properties ?? []).flatMap(boundNames);
    case 'ArrayPattern': return (pattern.elements ?? []).flatMap(boundNames);
    default: return boundNames(pattern.value ?? pattern.argument ?? pattern.left);
  }
}

/** Adds what was counted of one pair of texts to the sums. */
export function addTo(sums, counts) {
  for (const [name, count] of Object.entries(counts)) sums[name] = (sums[name] ?? 0) + count;
}

/**
 * Whether the run comes to a call of what isn't callable. The machine ends there; an engine evaluates the arguments first,
 * and where one of them throws, the call shows when it doesn't.
 */
async function callsUncallable(source, worked, ran) {
  if (ran.is === 'error') return /is not a function|is not a constructor/.test(ran.message);
  const thrown = worked.moves.slice(0, ran.asked.length).findLastIndex(({ is }) => is === 'throw'); // a finalizer may ask after it
  if (ran.is !== 'threw' || thrown < 0) return false;
  const others = { ...worked, moves: worked.moves.map((move, index) => index < thrown ? move : answer(move.value)) };
  return callsUncallable(source, others, await runProgram(source, others));
}

function told({ is, text: value, name, asked, cell }, names) {
  return [...asked, [is, value, name].filter(Boolean).join(' '), ...names.map(each => `${each} holds ${cell(each)}`)].join('; ');
}

/** Answers of every sort, and throws; of the first list all are callable objects, so that it goes as far as it can. */
function randomMoves(list, { hasAll }) {
  const next = random(list + 1);
  const values = [
    () => undefined_, () => null_, () => boolean(false), () => boolean(true), () => number('0'), () => number('7'), () => text(''), () => text('t'),
    index => host(index, false, true, false), index => host(index, true, true, false), index => host(index, true, true, false),
    () => standing_for(number('3')), ...hasAll ? [index => host(index, true, false, true)] : [],
  ];
  return Array.from({ length: LENGTH }, (_, index) => {
    if (list === 0) return answer(host(index + 1, true, true, false));
    const value = values[Math.floor(next() * values.length)](index + 1);
    return next() < 0.08 ? throw_(value) : answer(value);
  });
}
