// Programs with `using`, as plain objects: their text, and an interpreter by completions (ECMA-262, 6.2.4) that says what they do.

/** The text of a program: `note` notes a step, `resource` makes a value of its sort, `more` says whether a loop has a turn more. */
export function textOf(program) {
  return program.body.map(statementText).join('\n');
}

function statementText(statement) {
  const { type } = statement;
  if (type === 'block') return `{ ${statement.body.map(statementText).join(' ')} }`;
  if (type === 'using') return `using ${resourcesText(statement.resources)};`;
  if (type === 'note') return `note('n', ${statement.place});`;
  if (type === 'throw') return `throw 'T${statement.place}';`;
  if (type === 'return') return `return ${statement.place};`;
  if (type === 'break' || type === 'continue') return statement.label ? `${type} ${statement.label};` : `${type};`;
  if (type === 'if') return `if (${statement.holds}) ${statementText(statement.body)}`;
  if (type === 'labelled') return `${statement.label}: ${statementText(statement.body)}`;
  if (type === 'for') return forText(statement);
  if (type === 'try') return tryText(statement);
  if (type === 'switch') return switchText(statement);
  if (type === 'class') return `class C${statement.place} { static { ${statement.body.map(statementText).join(' ')} } }`;
  if (type === 'for of') return ofText(statement);
  if (type === 'function') return `function f${statement.place}() { return f${statement.place}; }`;
  if (type === 'export') return `export const x${statement.place} = note('n', ${statement.place});`;
  if (type === 'exported class') return `export class X${statement.place} { static { note('n', ${statement.place}); } }`;
  if (type === 'export default') return `export default note('n', ${statement.place});`;
  return callText(statement);
}

function resourcesText(resources) {
  return resources.map(({ name, place, sort }) => `${name} = resource(${place}, '${sort}')`).join(', ');
}

function forText({ place, head, turns, body }) {
  const first = head === null ? '' : `using ${resourcesText(head)}`;
  return `for (${first}; more(${place}, ${turns}); ) ${statementText(body)}`;
}

function ofText({ place, resources, body }) {
  const items = resources.map(item => `resource(${item.place}, '${item.sort}')`);
  return `for (using o${place} of [${items.join(', ')}]) ${statementText(body)}`;
}

function tryText({ block, handler, finalizer, place }) {
  const caught = handler === null ? '' : ` catch (e${place}) { note('c', ${place}, named(e${place})); ${statementText(handler)} }`;
  return `try ${statementText(block)}${caught}${finalizer === null ? '' : ` finally ${statementText(finalizer)}`}`;
}

function switchText({ enters, clauses }) {
  const texts = clauses.map(({ body, ends }, index) => `case ${index}: ${body.map(statementText).join(' ')}${ends ? ' break;' : ''}`);
  return `switch (${enters}) { ${texts.join(' ')} }`;
}

function callText({ place, isArrow, body }) {
  const statements = body.map(statementText).join(' ');
  return isArrow ? `note('v', ${place}, (() => { ${statements} })());` : `note('v', ${place}, (function () { ${statements} })());`;
}

/** Whether a loop has a turn more, which is noted: so many, and then as many again. */
export class Turns {
  taken = new Map();

  more(place, turns, note) {
    const taken = this.taken.get(place) ?? 0;
    this.taken.set(place, taken < turns ? taken + 1 : 0);
    if (taken < turns) note('t', place);
    return taken < turns;
  }
}

const normal = { type: 'normal' };

/** Whether a loop with this label takes a turn more after its body ended so. */
function goesOn(ended, label) {
  return ended.type === 'normal' || (ended.type === 'continue' && (ended.label === undefined || ended.label === label));
}

/** A completion that is no normal one leaves what is around it, unless it is taken there. */
export class Interpreter {
  notes = [];
  counted = new Turns();

  run(program) {
    const ended = program.isModule ? this.scope(program.body) : this.list(program.body);
    this.notes.push(ended.type === 'throw' ? `throws ${ended.value}` : 'ends');
    return this.notes;
  }

  note(...words) {
    this.notes.push(words.join(''));
  }

  /** The statements of a list, whose resources are disposed of when it is left. */
  scope(statements) {
    const taken = [];
    return this.disposed(taken, this.listIn(statements, taken));
  }

  list(statements) {
    return this.listIn(statements, null);
  }

  listIn(statements, taken) {
    for (const statement of statements) {
      const ended = statement.type === 'using' ? this.use(statement.resources, taken) : this.statement(statement);
      if (ended.type !== 'normal') return ended;
    }
    return normal;
  }

  use(resources, taken) {
    for (const { place, sort } of resources) {
      this.note('e', place);
      if (sort === 'evaluates badly') return { type: 'throw', value: `E${place}` };
      if (sort === 'none') return { type: 'throw', value: 'TypeError' };
      if (sort !== 'null') taken.push({ place, sort });
    }
    return normal;
  }

  /** DisposeResources: the last first, an error of a disposal before one that is there. */
  disposed(taken, ended) {
    let left = ended;
    for (const { place, sort } of [...taken].reverse()) {
      this.note('d', place);
      if (sort !== 'throws') continue;
      const value = `D${place}`;
      left = { type: 'throw', value: left.type === 'throw' ? `(${value} before ${left.value})` : value };
    }
    return left;
  }

  statement(statement) {
    const { type, place } = statement;
    if (type === 'block') return this.scope(statement.body);
    if (type === 'note') { this.note('n', place); return normal; }
    if (type === 'throw') return { type, value: `T${place}` };
    if (type === 'return') return { type, value: place };
    if (type === 'break' || type === 'continue') return { type, label: statement.label };
    if (type === 'if') return statement.holds ? this.statement(statement.body) : normal;
    if (type === 'labelled') return this.labelled(statement);
    if (type === 'for') return this.loop(statement, undefined);
    if (type === 'try') return this.tryStatement(statement);
    if (type === 'switch') return this.switchStatement(statement);
    if (type === 'class') return this.scope(statement.body);
    if (type === 'for of') return this.loopOver(statement, undefined);
    if (type === 'function') return normal;
    if (type === 'export' || type === 'exported class' || type === 'export default') { this.note('n', place); return normal; }
    return this.call(statement);
  }

  labelled({ label, body }) {
    const ended = body.type === 'for' ? this.loop(body, label) : body.type === 'for of' ? this.loopOver(body, label) : this.statement(body);
    return ended.type === 'break' && ended.label === label ? normal : ended;
  }

  loop({ place, head, turns, body }, label) {
    const taken = [];
    const begun = head === null ? normal : this.use(head, taken);
    return this.disposed(taken, begun.type === 'normal' ? this.turns(place, turns, body, label) : begun);
  }

  turns(place, turns, body, label) {
    while (this.counted.more(place, turns, (...words) => this.note(...words))) {
      const ended = this.statement(body);
      if (ended.type === 'break' && ended.label === undefined) return normal;
      if (!goesOn(ended, label)) return ended;
    }
    return normal;
  }

  /** `for (using a of ..)`: the values first, and each is disposed of when its turn is left (14.7.5.6). */
  loopOver({ resources, body }, label) {
    for (const { place, sort } of resources) {
      this.note('e', place);
      if (sort === 'evaluates badly') return { type: 'throw', value: `E${place}` };
    }
    for (const { place, sort } of resources) {
      if (sort === 'none') return { type: 'throw', value: 'TypeError' };
      const ended = this.disposed(sort === 'null' ? [] : [{ place, sort }], this.statement(body));
      if (ended.type === 'break' && ended.label === undefined) return normal;
      if (!goesOn(ended, label)) return ended;
    }
    return normal;
  }

  tryStatement({ block, handler, finalizer, place }) {
    let ended = this.statement(block);
    if (handler !== null && ended.type === 'throw') {
      this.note('c', place, ended.value);
      ended = this.statement(handler);
    }
    if (finalizer === null) return ended;
    const last = this.statement(finalizer);
    return last.type === 'normal' ? ended : last;
  }

  switchStatement({ enters, clauses }) {
    const taken = [];
    let ended = normal;
    for (const { body, ends } of clauses.slice(enters)) {
      ended = this.listIn(body, taken);
      if (ended.type === 'normal' && ends) ended = { type: 'break' };
      if (ended.type !== 'normal') break;
    }
    const left = ended.type === 'break' && ended.label === undefined ? normal : ended;
    return this.disposed(taken, left);
  }

  call({ place, body }) {
    const ended = this.scope(body);
    if (ended.type === 'throw') return ended;
    this.note('v', place, ended.type === 'return' ? ended.value : undefined);
    return normal;
  }
}
