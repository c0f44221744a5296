// Runs a program by this engine, in a realm of its own, under an instrumented host.
import vm from 'node:vm';
import { helpers, noMove } from './helpers.mjs';
import { Host } from './host.mjs';
import { seen } from './seen.mjs';
import { a_host, stack } from './notation.mjs';

/** Milliseconds for a run that may have no end, as a worked run that has no turn left. */
const TIMEOUT = 500;

/**
 * What a program asks, as texts, the first question first, and how it ends: `finished`, `threw` with the value's text,
 * `waiting` for a move, `endless`, `error` with the engine's own error, `unread` where the engine doesn't read it; and
 * `cell(name)`, the text of what a name of the program's top holds at the end. Other modules give what the worked run says, or else a
 * host value for each name that `asksModules` says is asked of them.
 */
export async function runProgram(text, worked) {
  const context = vm.createContext();
  const realm = vm.runInContext('globalThis', context);
  const { asked, imports } = seen(worked);
  const host = new Host(asked, realm);
  const helper = helpers(realm, (made, index) => host.told.set(made, stack(index)));
  if (worked.helpers === 'global' && !worked.readsHelpers) realm.babelHelpers = helper;
  if (worked.helpers === 'require') realm.require = module => helper[module.split('/').at(-1)];
  vm.runInContext(`(members, names) => {
    for (const { prototype } of [Number, String, Boolean]) Object.setPrototypeOf(prototype, members);
    Object.setPrototypeOf(globalThis, names);
  }`, context)(host.members(), host.names());
  const limit = worked.mayBeEndless || worked.outcome?.is === 'no_turns' ? { timeout: TIMEOUT } : {};
  const ending = await endingOf(host, realm, async () => {
    if (worked.module) await evaluateModule(text, context, host, { imports, asked: worked.asksModules ?? [], helper });
    else vm.runInContext(text, context, { ...limit, displayErrors: false }); // its value is no concern of the run
  });
  return { ...ending, asked: host.texts(), cell: name => cellText(name, context, host) };
}

async function endingOf(host, realm, run) {
  try {
    await run();
    return { is: 'finished' };
  } catch (error) {
    if (error === noMove) return { is: 'waiting' };
    if (host.told.has(error)) return { is: 'threw', text: host.textOf(error) };
    if (error?.code === 'ERR_SCRIPT_EXECUTION_TIMEOUT') return { is: 'endless' };
    if (error instanceof realm.SyntaxError || error instanceof SyntaxError) return { is: 'unread', message: error.message };
    if (error instanceof realm.Error) return { is: 'error', name: error.name, message: error.message };
    return { is: 'threw', text: host.textOf(error) };
  }
}

/** A module whose imports give the moves of the worked run, the helpers, or host values. */
async function evaluateModule(text, context, host, { imports, asked, helper }) {
  const values = asked.map(({ source, name }, index) => ({ source, name, value: host.valueOf(a_host(1000 + index)) }));
  const module = new vm.SourceTextModule(text, { context });
  await module.link(source => {
    const name = source.split('/').at(-1);
    const given = imports.filter(({ question }) => question.operands[0] === source)
      .map(({ question, move }) => [question.operands[1], host.valueOf(move.value)]);
    const others = name in helper ? [['default', helper[name]]] : values.filter(each => each.source === source).map(({ name, value }) => [name, value]);
    const exported = new Map(given.length === 0 ? others : given);
    return new vm.SyntheticModule([...exported.keys()], function () {
      for (const [key, value] of exported) this.setExport(key, value);
    }, { context });
  });
  await module.evaluate();
}

function cellText(name, context, host) {
  try {
    return host.textOf(vm.runInContext(name, context));
  } catch (error) {
    return `error ${error.name}`;
  }
}
