// What of a worked run an engine asks of its host. The rest it does by itself: comparisons, `typeof`, what it makes, the
// turns over the keys of an object, imports, and members of undefined and null.
import { arrayText, keyText, objectText, questionText, templateText, valueText } from './notation.mjs';

const COMPARED_BY_ITSELF = new Set(['===', '!==', '==', '!=', 'typeof']);

/**
 * A run as its host sees it: its questions, the first one first, with the move that answers each; the texts of them; the
 * texts of what the engine makes, by the number of the host value that stands for it in the run; and its imports.
 */
export function seen({ moves, questions = [] }) {
  const steps = questions.toReversed().map((question, index) => ({ question, move: moves[index] }));
  const run = new SeenRun();
  for (const { question, move } of steps) {
    const answer = move?.is === 'answer' ? move.value : undefined;
    if (!run[question.is]?.(question.operands, answer, move)) run.ask(question, move);
  }
  const spare = moves.slice(steps.length).map(move => ({ question: undefined, move }));
  return {
    asked: [...run.asked, ...spare],
    texts: run.asked.map(({ question }) => questionText(question, run.contents)),
    contents: run.contents,
    imports: steps.filter(({ question }) => question.is === 'import_name'),
    ownError: run.ownError,
  };
}

/** Has a method for each question that an engine may do without its host; it says whether it does. */
class SeenRun {
  constructor() {
    this.asked = [];
    this.contents = new Map();
    this.definitions = new Map(); // of objects that the engine makes
    this.keyItems = new Map(); // the items of iterators of keys
    this.ownError = undefined;
  }

  ask(question, move) {
    const { is, operands } = question;
    const asked = is === 'typeof_read' ? { question: { is: 'read', operands }, move: move && { ...move, value: move.value.taken } } : { question, move };
    if (is === 'keys') this.keyItems.set(move.value.index, asked.items = []);
    this.asked.push(asked);
  }

  /** An operator is asked for where it converts a value that stands for a plain one. */
  operator([operator, ...values]) {
    return COMPARED_BY_ITSELF.has(operator) || !values.some(({ stands }) => stands);
  }

  make(definitions, { index }) {
    const made = definitions.flatMap(definition => this.definitionTexts(definition));
    this.definitions.set(index, made);
    this.contents.set(index, objectText(made));
    return true;
  }

  copy([value], { index }) {
    if (!this.definitions.has(value.index)) return false;
    this.definitions.set(index, this.definitions.get(value.index));
    return true;
  }

  /** A hole is the list of nothing; read, it gives undefined. */
  array(elements, { index }) {
    this.contents.set(index, arrayText(elements.map(value => value.is === 'list' && value.values.length === 0 ? 'undefined' : this.text(value))));
    return true;
  }

  regexp(words, { index }) {
    this.contents.set(index, `/${words.join('/')}`);
    return true;
  }

  /** Without expressions it is what a tag is called with, and else a text. */
  template([raws, cooked, values], answer) {
    if (values === undefined) this.contents.set(answer.index, templateText(...[raws, cooked].map(list => list.values.map(value => this.text(value)))));
    return true;
  }

  import_name() { return true; }

  get([object, key], answer, move) {
    if (!['undefined', 'null'].includes(object.is)) return false;
    this.ownError = { thrown: move.value, key: key.is === 'text' && !key.stands ? key.text : '' };
    return true;
  }

  step([iterator]) { return this.keyItems.has(iterator.index); }

  item([iterator], answer) {
    this.keyItems.get(iterator.index)?.push(answer);
    return this.keyItems.has(iterator.index);
  }

  text(value) { return valueText(value, this.contents); }

  /** The texts of a definition: a key with its value, or all that a copy gave. */
  definitionTexts({ values: [first, second] }) {
    if (second !== undefined) return [[keyText(first, this.contents), this.text(second)]];
    return this.definitions.get(first.index) ?? [[`all of ${this.text(first)}`]];
  }
}
